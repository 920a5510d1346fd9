;;; bcpl-mode.el --- a mode for BCPL sources  -*- lexical-binding: t -*-
;; editors/check compares the words and signs with the lexer's.

;;; Commentary:
;; Highlighting and comments.  The key TAB indents a line as the one before it.
;; `compile' checks the program of the buffer, and `next-error' goes to the line of each fault.

;;; Code:

(defconst bcpl-reserved
  '("AND" "BE" "BREAK" "BY" "CASE" "DEFAULT" "DO" "ELSE" "ENDCASE" "EQ" "EQV"
    "FALSE" "FINISH" "FOR" "GET" "GLOBAL" "GOTO" "IF" "INTO" "LET" "LOOP"
    "MANIFEST" "NE" "NEQV" "NOT" "OR" "REM" "REPEAT" "REPEATUNTIL"
    "REPEATWHILE" "RESULTIS" "RETURN" "STATIC" "SWITCHON" "TABLE" "TEST" "THEN"
    "TO" "TRUE" "UNLESS" "UNTIL" "VALOF" "VEC" "WHILE")
  "The reserved words.")

(defconst bcpl-library
  '("START" "STOP" "RDCH" "WRCH" "NEWLINE" "WRITES" "WRITEN" "WRITED"
    "GETBYTE" "PUTBYTE" "WRITEF" "ENDSTREAMCH" "BYTESPERWORD")
  "The names that the headers declare.")

(defconst bcpl-signs
  '("(" ")" "+" "-" "*" "/" "!" "%" "@" "=" "~=" "<" ">" "<=" ">=" "<<" ">>"
    "~" "&" "|" "->" "," ";" ":" ":=" "?")
  "The signs.")

(defconst bcpl-font-lock-keywords
  `(("\\$[()]\\(?:[[:alnum:]][[:alnum:].]*\\)?" . font-lock-preprocessor-face)
    ("#x[[:xdigit:]]+\\|#[0-7]+" . font-lock-constant-face)
    (,(regexp-opt bcpl-reserved 'symbols) . font-lock-keyword-face)
    (,(regexp-opt bcpl-library 'symbols) . font-lock-function-name-face)
    ("\\_<[[:alpha:]][[:alnum:].]*\\_>" . font-lock-variable-name-face)
    ("\\_<[[:digit:]]+\\_>" . font-lock-constant-face)
    (,(regexp-opt bcpl-signs) . font-lock-builtin-face))
  "What is highlighted, besides comments, strings and character constants.")

(defconst bcpl-syntax-propertize
  (syntax-propertize-rules
   ("\\(\"\\)\\(?:[^*\"\n\r]\\|\\*.\\)*\\(\"\\)" (1 "|") (2 "|"))
   ("\\('\\)\\(?:[^*'\n\r]\\|\\*.\\)\\('\\)" (1 "|") (2 "|")))
  "Strings and character constants, whose escapes begin with an asterisk.")

(defvar bcpl-mode-syntax-table
  (let ((table (make-syntax-table)))
    (modify-syntax-entry ?/ ". 12" table)
    (modify-syntax-entry ?\n ">" table)
    (modify-syntax-entry ?. "_" table)
    (modify-syntax-entry ?_ "." table)
    (dolist (sign (string-to-list "\"'+-*!%@=<>~&|,;:?#$"))
      (modify-syntax-entry sign "." table))
    table)
  "The classes of bytes in BCPL sources.")

(defun bcpl-compile-command (file)
  "The command that checks FILE.  A fault of the text names its line alone; the file is put before it."
  (let ((name (shell-quote-argument (file-name-nondirectory file))))
    (format "bcpl check %s 2>&1 >/dev/null </dev/null | sed 's@^line \\([0-9]*\\):@'%s':\\1:@'" name name)))

;;;###autoload
(define-derived-mode bcpl-mode prog-mode "BCPL"
  "A mode for BCPL sources."
  (setq-local comment-start "// ")
  (setq-local comment-end "")
  (setq-local comment-start-skip "//+[ \t]*")
  (setq-local case-fold-search t)
  (setq-local indent-tabs-mode nil)
  (setq-local indent-line-function #'indent-relative)
  (setq-local syntax-propertize-function bcpl-syntax-propertize)
  (setq-local font-lock-defaults '(bcpl-font-lock-keywords nil t))
  (when buffer-file-name
    (setq-local compile-command (bcpl-compile-command buffer-file-name))))

;;;###autoload
(add-to-list 'auto-mode-alist '("\\.b\\'" . bcpl-mode))

(provide 'bcpl-mode)
;;; bcpl-mode.el ends here
