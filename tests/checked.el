;;; checked.el --- what Emacs finds in faulty.mixal, for tests/test_checked.py  -*- lexical-binding: t; -*-

;; For each finding the file `found' gets a line: the number of the line, the severity, and what begins at the place to which it leads.
(let ((default-directory "/usr/share/emacs/site-lisp/elpa"))
  (ignore-errors (normal-top-level-add-subdirs-to-load-path)))
(load (expand-file-name "../editors/emacs/mixrev.el" (file-name-directory load-file-name)))

(defun found (severity)
  (append-to-file (format "%d %s %s\n" (line-number-at-pos) severity (buffer-substring (point) (line-end-position))) nil "found"))

(defun by-compile ()
  "M-x compile with the command of the buffer, and `next-error'."
  (find-file "faulty.mixal")
  (let* ((buffer (compile compile-command)) (process (get-buffer-process buffer)))
    (while (accept-process-output process))
    (ignore-errors
      (while t
        (with-current-buffer buffer (next-error))
        (let ((type (with-current-buffer buffer (compilation--message->type (get-text-property (point) 'compilation-message)))))
          (with-current-buffer "faulty.mixal" (found (nth type '(note warning error)))))))))

(defun by-flycheck ()
  "Flycheck, with the checker that it takes by itself."
  (unless (require 'flycheck nil t) (kill-emacs 77))
  (find-file "faulty.mixal")
  (flycheck-mode)
  (flycheck-buffer)
  (while (flycheck-running-p) (accept-process-output nil 0.05))
  (dolist (it flycheck-current-errors)
    (goto-char (flycheck-error-pos it))
    (found (flycheck-error-level it))))
