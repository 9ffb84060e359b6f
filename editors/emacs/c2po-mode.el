;;; c2po-mode.el --- Specifications of c2po  -*- lexical-binding: t -*-

;; Put this folder on the load path and `(require 'c2po-mode)' into the init file.
;; `M-x eglot' in a specification starts r2u2-check as its language server: faults as
;; one types, kind and cost at point (eldoc), M-. to a definition, completion, and
;; `M-x eglot-format'.  `(add-hook 'c2po-mode-hook 'eglot-ensure)' starts it by itself.

;;; Code:

(defgroup c2po nil "Specifications of c2po." :group 'languages)

(defcustom c2po-server '("r2u2-check" "--server")
  "The command of the language server."
  :type '(repeat string))

(defconst c2po-keywords
  `((,(regexp-opt '("STRUCT" "INPUT" "DEFINE" "FTSPEC" "PTSPEC") 'symbols) . font-lock-keyword-face)
    (,(regexp-opt '("bool" "int" "set") 'symbols) . font-lock-type-face)
    (,(regexp-opt '("true" "false") 'symbols) . font-lock-constant-face)
    (,(regexp-opt '("foreach" "forsome" "forexactly" "foratleast" "foratmost" "F" "G" "U" "R" "S" "O" "H") 'symbols)
     . font-lock-builtin-face)
    ("\\_<\\([[:alpha:]_][[:alnum:]_]*\\)\\_>[ \t]*:" 1 font-lock-variable-name-face))
  "Words of the language and their faces.")

(defvar c2po-mode-syntax-table
  (let ((table (make-syntax-table)))
    (modify-syntax-entry ?_ "_" table)
    (modify-syntax-entry ?- ". 12" table)
    (modify-syntax-entry ?\n ">" table)
    table))

;;;###autoload
(define-derived-mode c2po-mode prog-mode "C2PO"
  "Major mode for specifications of c2po."
  (setq-local comment-start "-- " comment-start-skip "--+ *" comment-end "")
  (setq-local font-lock-defaults '(c2po-keywords)))

;;;###autoload
(add-to-list 'auto-mode-alist '("\\.c2po\\'" . c2po-mode))

(with-eval-after-load 'eglot
  (add-to-list 'eglot-server-programs (cons 'c2po-mode c2po-server)))

(provide 'c2po-mode)
;;; c2po-mode.el ends here
