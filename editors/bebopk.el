;;; bebopk.el --- Emacs mode for the language of bebopk (docs/LANGUAGE.md)  -*- lexical-binding: t -*-
;; Put it where `load-path' looks, and (require 'bebopk) into the init file.
(defvar bebopk-mode-syntax-table
  (let ((table (make-syntax-table)))
    (modify-syntax-entry ?/ ". 12" table)
    (modify-syntax-entry ?\n ">" table)
    (modify-syntax-entry ?_ "w" table)
    table))
(defvar bebopk-font-lock
  `((,(regexp-opt '("decl" "begin" "end" "thread") 'words) . font-lock-type-face)
    (,(regexp-opt '("skip" "if" "then" "else" "fi" "while" "do" "od" "goto" "return") 'words) . font-lock-keyword-face)
    (,(regexp-opt '("assert" "assume") 'words) . font-lock-builtin-face)
    ("\\<[01]\\>" . font-lock-constant-face)
    ("\\<\\([A-Za-z_]\\w*\\)[ \t\n]*(" 1 font-lock-function-name-face)
    ("\\<\\([A-Za-z_]\\w*\\)[ \t\n]*:[^=]" 1 font-lock-constant-face)))
;;;###autoload
(define-derived-mode bebopk-mode prog-mode "bebopk"
  "Major mode for concurrent Boolean programs."
  (setq-local comment-start "// ")
  (setq-local font-lock-defaults '(bebopk-font-lock)))
;;;###autoload
(add-to-list 'auto-mode-alist '("\\.bp\\'" . bebopk-mode))
(provide 'bebopk)
