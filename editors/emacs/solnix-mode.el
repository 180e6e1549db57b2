;;; solnix-mode.el --- Solnix probes, with the language server spoonharbor-lsp -*- lexical-binding: t; -*-

;;; Commentary:
;; Colours for probes, and what eglot has to know of the server.  (require 'solnix-mode) in an init file is all.

;;; Code:

(defvar solnix-mode-syntax-table
  (let ((table (make-syntax-table)))
    (modify-syntax-entry ?/ ". 124b" table)
    (modify-syntax-entry ?* ". 23" table)
    (modify-syntax-entry ?\n "> b" table)
    (modify-syntax-entry ?_ "_" table)
    table)
  "Comments and strings of Solnix.")

(defconst solnix-font-lock
  `((,(regexp-opt '("unit" "map" "event" "section" "license" "type" "key" "value" "max" "reg" "imm" "heap" "return" "if"
                    "else" "guard") 'symbols) . font-lock-keyword-face)
    (,(regexp-opt '("u32" "u64" "i32" "i64" "bytes") 'symbols) . font-lock-type-face)
    ("\\_<\\(?:unit\\|map\\|event\\)\\s-+\\(\\(?:\\sw\\|\\s_\\)+\\)" 1 font-lock-function-name-face)
    ("\\_<\\(?:reg\\|imm\\|heap\\)\\s-+\\(\\(?:\\sw\\|\\s_\\)+\\)" 1 font-lock-variable-name-face))
  "Words of Solnix.")

;;;###autoload
(define-derived-mode solnix-mode prog-mode "Solnix"
  "Major mode for Solnix probes."
  (setq-local comment-start "// ")
  (setq-local comment-start-skip "\\(?://+\\|/\\*+\\)\\s-*")
  (setq-local indent-tabs-mode nil)
  (setq-local font-lock-defaults '(solnix-font-lock)))

;;;###autoload
(add-to-list 'auto-mode-alist '("\\.snx\\'" . solnix-mode))

(with-eval-after-load 'eglot
  (add-to-list 'eglot-server-programs '(solnix-mode . ("spoonharbor-lsp"))))

(provide 'solnix-mode)
;;; solnix-mode.el ends here
