;;; emacs.el --- Eglot drives the language server in batch  -*- lexical-binding: t; -*-

;; SERVER has the program and its words.  The last line counts.

(require 'eglot)
(require 'mixal-mode)
(load (expand-file-name "../../editors/emacs/mixrev.el" (file-name-directory load-file-name)))
(setq eglot-server-programs (list (cons 'mixal-mode (split-string (getenv "SERVER"))))
      eglot-sync-connect 20
      eglot-confirm-server-initiated-edits nil
      eglot-send-changes-idle-time 0
      make-backup-files nil
      inhibit-message t)

(defvar passed 0)
(defvar failed 0)

(defun row (name found wanted)
  (if (equal found wanted)
      (setq passed (1+ passed))
    (setq failed (1+ failed))
    (princ (format "FAILED Eglot: %s: %S, and %S was wanted\n" name found wanted))))

(defun await (test)
  "Let messages come until TEST holds, for 20 s: what it gives."
  (let ((end (+ (float-time) 20)) found)
    (while (and (not (setq found (funcall test))) (< (float-time) end))
      (accept-process-output nil 0.05))
    found))

(defun told ()
  "What there is to say of the buffer: line and columns from 0, and the text between its first two colons."
  (mapcar (lambda (diagnostic)
            (let ((begins (flymake-diagnostic-beg diagnostic)) (ends (flymake-diagnostic-end diagnostic)))
              (save-excursion
                (goto-char begins)
                (list (1- (line-number-at-pos)) (- begins (line-beginning-position)) (- ends (line-beginning-position))
                      (nth 1 (split-string (flymake-diagnostic-text diagnostic) ": *"))))))
          (flymake-diagnostics)))

(defun ask (method &rest more)
  (jsonrpc-request (eglot-current-server) method (append (eglot--TextDocumentPositionParams) more)))

(defun range (first last)
  (list :start (list :line first :character 0) :end (list :line last :character 0)))

(defun starts (list)
  (mapcar (lambda (one)
            (let ((start (plist-get (plist-get one :range) :start)))
              (list (plist-get start :line) (plist-get start :character))))
          (append list nil)))

(defun talk ()
  (find-file (make-temp-file "mixrev" nil ".mixal" "START LDA  X\n     ADDD Y\nX    CON  5\n     END  START\n"))
  (mixal-mode)
  (apply #'eglot (eglot--guess-contact))
  (row "a fault at its columns" (await (lambda () (flymake-start) (told))) '((1 5 9 "no such operation")))
  (let ((meant (aref (ask :textDocument/codeAction :range (range 1 1) :context '(:diagnostics [])) 0)))
    (row "the operation that is meant" (plist-get meant :title) "Write ADD")
    (eglot--apply-workspace-edit (plist-get meant :edit)))
  (row "the line with it" (buffer-string) "START LDA  X\n     ADD Y\nX    CON  5\n     END  START\n")
  (eglot--signal-textDocument/didChange)
  (row "a warning after it is mended"
       (await (lambda () (let ((found (told))) (and found (string-match "defined nowhere" (nth 3 (car found))) (mapcar #'butlast found)))))
       '((1 9 10)))
  (goto-char (+ (point-min) 11))
  (row "the definition of X" (starts (ask :textDocument/definition)) '((2 0)))
  (row "all that mentions X" (starts (ask :textDocument/references :context '(:includeDeclaration t))) '((0 11) (2 0)))
  (row "what lines make" (mapcar (lambda (one) (list (plist-get (plist-get one :position) :line) (plist-get one :label)))
                                 (ask :textDocument/inlayHint :range (range 1 9)))
       '((1 "0001  + 00 03 00 05 01") (2 "0002  + 00 00 00 00 05")))
  (row "tokens" (append (plist-get (ask :textDocument/semanticTokens/full) :data) nil)
       '(0 0 5 0 0 0 6 3 1 0 0 5 1 2 0 1 5 3 1 0 0 4 1 2 0 1 0 1 0 0 0 5 3 1 0 0 5 1 3 0 1 5 3 1 0 0 5 5 2 0))
  (eglot-rename "TOTAL")
  (eglot--signal-textDocument/didChange)
  (row "a new name" (buffer-string) "START LDA  TOTAL\n     ADD Y\nTOTAL    CON  5\n     END  START\n")
  (goto-char (+ (point-min) 6))
  (row "a hover" (plist-get (plist-get (ask :textDocument/hover) :contents) :value) "LDA: rA becomes V (C = 8, F = 5, 2u)")
  (goto-char (+ (point-min) 11))
  (row "what completes ADDRESS" (mapcar (lambda (one) (plist-get one :label)) (ask :textDocument/completion)) '("START" "TOTAL"))
  (eglot-format-buffer)
  (row "in columns" (buffer-string) "START   LDA  TOTAL\n        ADD  Y\nTOTAL   CON  5\n        END  START\n")
  (set-buffer-modified-p nil)
  (eglot-shutdown (eglot-current-server)))

(condition-case problem (talk) (error (row "the talk" problem "its end")))
(princ (format "%d passed, %d failed\n" passed failed))
(kill-emacs (if (= failed 0) 0 1))
;;; emacs.el ends here
