;;; emacs.el --- Emacs dap-mode drives the adapter in batch  -*- lexical-binding: t; -*-

;; ADAPTER has the program and its words, PROGRAMS the folder of the sources. The states that are wanted are those of the table in talks.walk.
;; The last line counts.

(setq user-emacs-directory (file-name-as-directory (make-temp-file "mixrev-emacs" t))
      dap-breakpoints-file (expand-file-name "breakpoints" user-emacs-directory)
      lsp-session-file (expand-file-name "session" user-emacs-directory)
      dap-auto-configure-features nil
      dap-auto-show-output nil
      inhibit-message t)
(require 'dap-mode)
(load (expand-file-name "../../editors/emacs/mixrev.el" (file-name-directory load-file-name)))
(setq dap-mixrev-command (split-string (getenv "ADAPTER")))

(defvar passed 0)
(defvar failed 0)
(defvar events nil "The stops, the newest first: each the reason, or `terminated'.")

(defun row (name found wanted)
  (if (equal found wanted)
      (setq passed (1+ passed))
    (setq failed (1+ failed))
    (princ (format "FAILED dap-mode: %s: %S, and %S was wanted\n" name found wanted))))

(defun await (what test)
  "Let messages come until TEST holds; a failure WHAT after 20 s."
  (let ((end (+ (float-time) 20)))
    (while (and (not (funcall test)) (< (float-time) end))
      (accept-process-output nil 0.01))
    (unless (funcall test) (row what "nothing came in 20 s" "it"))))

;; Each event is seen before dap-mode handles it.
(advice-add 'dap--on-event :before
            (lambda (_session event)
              (when (member (gethash "event" event) '("stopped" "terminated" "exited"))
                (push (if (equal (gethash "event" event) "stopped") (gethash "reason" (gethash "body" event)) 'terminated) events))))

(defun session () (dap--cur-session))

(defun moved (command)
  "Call COMMAND, and wait for its stop and dap-mode's new frame: the reason of the stop."
  (let ((before (length events)))
    (funcall command)
    (await "a stop" (lambda () (and (> (length events) before) (session) (dap--debug-session-active-frame (session)))))
    (car events)))

(defun state ()
  "The line where dap-mode has put the cursor, the location, and the clock."
  (let ((flags (make-hash-table :test 'equal)))
    (dolist (scope (append (gethash "scopes" (dap-request (session) "scopes" :frameId (gethash "id" (dap--debug-session-active-frame (session))))) nil))
      (when (equal (gethash "name" scope) "Flags")
        (dolist (variable (append (gethash "variables" (dap-request (session) "variables" :variablesReference (gethash "variablesReference" scope))) nil))
          (puthash (gethash "name" variable) (gethash "value" variable) flags))))
    (list (line-number-at-pos) (string-to-number (gethash "loc" flags)) (string-to-number (gethash "clock" flags)))))

(defun is-refused (method &rest args)
  (condition-case nil (progn (apply #'dap-request (session) method args) nil) (error t)))

(defun step (name) (lambda () (dap--step name (session))))

(defun talk ()
  (find-file (expand-file-name "calls.mixal" (getenv "PROGRAMS")))
  (goto-char (point-min))
  (forward-line 4)                      ; line 5 is blank: the breakpoint comes to line 6
  (dap-breakpoint-add)
  (row "entry" (moved (lambda () (dap-debug (copy-tree (cdr (assoc "MIX: this file" dap-debug-template-configurations)))))) "entry")
  (row "the first state" (state) '(3 10 0))
  (row "the session" (dap--debug-session-state (session)) 'running)
  (row "the breakpoint is verified, at line 6"
       (mapcar (lambda (point) (list (gethash "verified" point) (gethash "line" point)))
               (gethash buffer-file-name (dap--debug-session-breakpoints (session))))
       '((t 6)))
  (row "continue" (list (moved (lambda () (dap-continue (session) 1))) (state)) '("breakpoint" (6 12 2)))
  (row "continue again" (list (moved (lambda () (dap-continue (session) 1))) (state)) '("breakpoint" (6 12 6)))
  (row "next" (list (moved (lambda () (dap-next (session)))) (state)) '("step" (7 13 8)))
  (row "stepIn" (list (moved (lambda () (dap-step-in (session)))) (state)) '("step" (8 14 9)))
  (row "stepBack" (list (moved (lambda () (dap-mixrev-step-back (session)))) (state)) '("step" (7 13 8)))
  (row "reverseContinue" (list (moved (lambda () (dap-mixrev-reverse-continue (session)))) (state)) '("breakpoint" (6 12 6)))
  (row "reverseContinue from the breakpoint" (list (moved (lambda () (dap-mixrev-reverse-continue (session)))) (state)) '("breakpoint" (6 12 2)))
  (row "setVariable" (substring (gethash "value" (dap-request (session) "setVariable" :variablesReference 1 :name "A" :value "-0")) 0 16) "- 00 00 00 00 00")
  (row "setVariable that is refused" (is-refused "setVariable" :variablesReference 1 :name "I1" :value "4096") t)
  (row "stepBack takes the set back" (list (moved (lambda () (dap-mixrev-step-back (session)))) (state)) '("step" (6 12 2)))
  (row "evaluate" (string-prefix-p "+ 00 00 00 00 12" (gethash "result" (dap-request (session) "evaluate" :expression "LOOP" :context "hover"))) t)
  (row "evaluate in the repl" (string-trim (gethash "result" (dap-request (session) "evaluate" :expression "show changes" :context "repl"))) "changes 2")
  (let ((info (dap-request (session) "dataBreakpointInfo" :variablesReference 1 :name "J")))
    (dap-request (session) "setDataBreakpoints" :breakpoints (vector (list :dataId (gethash "dataId" info)))))
  ;; rJ is first altered by the jump of the fifth step, from 0 to 15
  (row "to a data breakpoint" (list (moved (lambda () (dap-continue (session) 1))) (state)) '("data breakpoint" (6 12 6)))
  (row "back to it" (list (moved (lambda () (dap-mixrev-reverse-continue (session)))) (state)) '("data breakpoint" (8 14 5)))
  (dap-request (session) "setDataBreakpoints" :breakpoints [])
  ;; from the fourth step on the HLT comes, past three stops at the breakpoint, once it is taken away
  (dap-breakpoint-delete (car (gethash buffer-file-name (dap--get-breakpoints))) buffer-file-name)
  (moved (lambda () (dap-continue (session) 1)))
  (row "to the HLT" (state) '(11 17 29))
  (row "no end is told" (memq 'terminated events) nil)
  (row "restart" (list (moved (lambda () (dap-mixrev-restart (session)))) (state)) '("entry" (3 10 0)))
  (let ((process (dap--debug-session-proc (session))))
    (dap-disconnect (session))
    (await "the end of the adapter" (lambda () (not (process-live-p process))))
    (row "its status" (process-exit-status process) 0)))

(defun talk-of-a-fault ()
  (find-file (expand-file-name "fault.mixal" (getenv "PROGRAMS")))
  (row "entry of the second program"
       (moved (lambda () (dap-debug (copy-tree (cdr (assoc "MIX: this file" dap-debug-template-configurations)))))) "entry")
  (row "a fault" (list (moved (lambda () (dap-continue (session) 1))) (state)) '("exception" (2 1 1)))
  (row "exceptionInfo" (gethash "exceptionId" (dap-request (session) "exceptionInfo" :threadId 1)) "M5")
  (dap-disconnect (session)))

(defun talk-refused ()
  (find-file (expand-file-name "refused.mixal" (getenv "PROGRAMS")))
  (dap-debug (copy-tree (cdr (assoc "MIX: this file" dap-debug-template-configurations))))
  (await "the refusal" (lambda () (eq (dap--debug-session-state (session)) 'failed)))
  (row "a refused source" (and (string-match-p "A2 no such operation" (or (dap--debug-session-error-message (session)) "")) t) t))

(dolist (talk '(talk talk-of-a-fault talk-refused))
  (condition-case problem (funcall talk)
    (error (row (symbol-name talk) problem nil))))
(princ (format "%d passed, %d failed\n" passed failed))
(kill-emacs (if (= failed 0) 0 1))
