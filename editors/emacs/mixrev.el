;;; mixrev.el --- MIXAL sources checked, and debugged both ways  -*- lexical-binding: t; -*-

;;; Commentary:
;; In a buffer of Emacs's own mixal-mode `M-x compile' checks the source, and Flycheck checks it while it is typed.
;; For Eglot: the language server.  For dap-mode: a debug provider and a template, and the commands that run backwards, which dap-mode has not.
;; A template may have `:devices' and `:cards' too, as ../README.md says.

;;; Code:

(require 'compile)

(defun mixrev-in-mixal-mode ()
  "Let `compile' check the source of this buffer, by columns that count characters."
  (when buffer-file-name
    (setq-local compile-command (concat "mixrev check " (shell-quote-argument (file-name-nondirectory buffer-file-name)))))
  (setq-local compilation-error-screen-columns nil))
(add-hook 'mixal-mode-hook #'mixrev-in-mixal-mode)

(declare-function flycheck-define-command-checker "ext:flycheck")
(defvar flycheck-checkers)

(with-eval-after-load 'flycheck
  (flycheck-define-command-checker 'mixrev "The check of a MIXAL source by mixrev."
    :command '("mixrev" "check" "-") :standard-input t :modes '(mixal-mode)
    :error-patterns '((error line-start "-:" line ":" (optional column ":") " error: " (message) line-end)
                      (warning line-start "-:" line ":" (optional column ":") " warning: " (message) line-end)))
  (add-to-list 'flycheck-checkers 'mixrev))

;; `M-x eglot' speaks with the language server.
(defvar eglot-server-programs)
(with-eval-after-load 'eglot
  (add-to-list 'eglot-server-programs '(mixal-mode . ("mixrev" "lsp"))))

(declare-function dap-register-debug-provider "ext:dap-mode")
(declare-function dap-register-debug-template "ext:dap-mode")
(declare-function dap--put-if-absent "ext:dap-mode")
(declare-function dap--cur-active-session-or-die "ext:dap-mode")
(declare-function dap--step "ext:dap-mode")
;; dap-mode asks which exception filters are set, but only its dap-ui defines where that is kept. Without dap-ui none is set.
(defvar dap-exception-breakpoints nil)

(defcustom dap-mixrev-command '("mixrev" "dap")
  "The debug adapter: its program and words."
  :group 'dap-mode
  :type '(repeat string))

(defun dap-mixrev--populate (conf)
  "What CONF does not say: the adapter, and the source in the current buffer."
  (setq conf (dap--put-if-absent conf :dap-server-path dap-mixrev-command))
  (setq conf (dap--put-if-absent conf :request "launch"))
  (dap--put-if-absent conf :program (buffer-file-name)))

(with-eval-after-load 'dap-mode
  (dap-register-debug-provider "mixrev" #'dap-mixrev--populate)
  (dap-register-debug-template "MIX: this file"
                               (list :type "mixrev" :request "launch" :name "MIX: this file" :stopOnEntry t)))

(defun dap-mixrev-step-back (session)
  "Take the last step of SESSION back."
  (interactive (list (dap--cur-active-session-or-die)))
  (dap--step "stepBack" session))

(defun dap-mixrev-reverse-continue (session)
  "Run SESSION backwards, to a breakpoint or to the start."
  (interactive (list (dap--cur-active-session-or-die)))
  (dap--step "reverseContinue" session))

(defun dap-mixrev-restart (session)
  "Take every step of SESSION back."
  (interactive (list (dap--cur-active-session-or-die)))
  (dap--step "restart" session))

(provide 'mixrev)
;;; mixrev.el ends here
