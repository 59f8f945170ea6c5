;;; cryptyc-mode.el --- Authentication protocols in the spi calculus  -*- lexical-binding: t; -*-

;; SPDX-License-Identifier: MIT
;; Version: 1.0.0
;; Keywords: languages
;; Package-Requires: ((emacs "26.1"))

;;; Commentary:

;; A major mode for files of Cryptyc, which end in .spi, .nar or .bench: colours, comments, indentation, and `C-c C-c' to check.
;; Where Eglot is there (Emacs 29 has it), `M-x eglot' starts the language server cryptyc-lsp.

;;; Code:

(require 'compile)

(defgroup cryptyc nil
  "Authentication protocols in the spi calculus."
  :group 'languages)

(defcustom cryptyc-program "cryptyc"
  "The checker."
  :type 'string
  :risky t)

(defcustom cryptyc-server '("cryptyc-lsp")
  "The command of the language server, as a list of words."
  :type '(repeat string)
  :risky t)

(defvar cryptyc-mode-syntax-table
  (let ((table (make-syntax-table)))
    (modify-syntax-entry ?_ "w" table)
    (modify-syntax-entry ?/ ". 12" table)
    (modify-syntax-entry ?\n ">" table)
    (modify-syntax-entry ?\" "." table)
    (modify-syntax-entry ?\\ "." table)
    (dolist (mark '(?, ?\; ?: ?= ?| ?+ ?#) table)
      (modify-syntax-entry mark "." table)))
  "Names are words, and `//' starts a comment.")

(defun cryptyc--version-2-p ()
  "Whether the file is of version 2."
  (save-excursion
    (save-restriction
      (widen)
      (goto-char (point-min))
      (forward-comment (buffer-size))
      (and (looking-at "version\\_>")
           (progn (goto-char (match-end 0)) (forward-comment (buffer-size)) (looking-at "0*2\\_>"))
           (progn (goto-char (match-end 0)) (forward-comment (buffer-size)) (looking-at ";"))))))

(defun cryptyc--word-of-2 (limit)
  "Find a word up to LIMIT that is reserved in version 2 alone."
  (and (cryptyc--version-2-p)
       (re-search-forward "\\_<\\(?:endmany\\|hash\\|many\\)\\_>" limit t)))

(defun cryptyc--word-of-part (part words limit)
  "Find one of WORDS behind the word PART, up to LIMIT."
  (let ((found nil))
    (while (and (not found) (re-search-forward words limit t))
      (setq found (save-excursion
                    (save-match-data
                      (let ((before nil))
                        (while (and (not before) (re-search-backward (concat "\\_<" part "\\_>") nil t))
                          (setq before (not (nth 4 (syntax-ppss)))))
                        before)))))
    found))

(defun cryptyc--step (limit)
  "Find the word of a step up to LIMIT."
  (cryptyc--word-of-part "schedule" "\\_<\\(?:act\\|talk\\)\\_>" limit))

(defun cryptyc--rule (limit)
  "Find the name of a rule up to LIMIT."
  (cryptyc--word-of-part "derivation" "\\_<\\(?:Proc\\|Msg\\)[A-Z][A-Za-z]*\\_>" limit))

(defvar cryptyc-font-lock-keywords
  (let ((declarations '("free" "type" "process" "opponent" "schedule" "derivation"))
        (forms '("out" "inp" "repeat" "split" "match" "case" "decrypt" "new" "stop" "is" "inl" "inr"))
        (assertions '("begin" "end" "check" "cast"))
        (types '("Un" "Key" "Nonce")))
    `((,(regexp-opt (append declarations forms) 'symbols) . font-lock-keyword-face)
      (,(regexp-opt assertions 'symbols) . font-lock-builtin-face)
      (,(regexp-opt types 'symbols) . font-lock-type-face)
      (cryptyc--word-of-2 . font-lock-keyword-face)
      ("\\`\\(?:[ \t\n]\\|//.*\n\\)*\\(version\\)[ \t\n]+0*2" 1 font-lock-keyword-face)
      (cryptyc--step . font-lock-keyword-face)
      (cryptyc--rule . font-lock-function-name-face)
      ("\\_<[0-9]+\\_>" . font-lock-constant-face)))
  "The colours of `cryptyc-mode'.")

(defun cryptyc-indent-line ()
  "Indent as deep as the brackets that are open here."
  (interactive)
  (let ((depth (save-excursion
                 (back-to-indentation)
                 (- (car (syntax-ppss)) (if (looking-at "[])}]") 1 0)))))
    (save-excursion (indent-line-to (* 2 (max 0 depth))))
    (when (< (current-column) (current-indentation))
      (back-to-indentation))))

(defun cryptyc-check ()
  "Check this buffer's file, or tell its narration or ask its bench.
The answer is shown in a window of its own."
  (interactive)
  (save-buffer)
  (compile (format "echo %s: $(%s %s < %s)" (shell-quote-argument (file-relative-name buffer-file-name))
                   cryptyc-program
                   (pcase (file-name-extension buffer-file-name) ("nar" "narrate") ("bench" "bench") (_ "check"))
                   (shell-quote-argument buffer-file-name))))

(defvar cryptyc-mode-map
  (let ((map (make-sparse-keymap)))
    (define-key map (kbd "C-c C-c") #'cryptyc-check)
    map)
  "The keys of `cryptyc-mode'.")

;;;###autoload
(define-derived-mode cryptyc-mode prog-mode "Cryptyc"
  "Major mode for authentication protocols in the spi calculus."
  (setq-local comment-start "// ")
  (setq-local comment-start-skip "//+[ \t]*")
  (setq-local comment-end "")
  (setq-local indent-tabs-mode nil)
  (setq-local indent-line-function #'cryptyc-indent-line)
  (setq-local font-lock-defaults '(cryptyc-font-lock-keywords)))

(add-to-list 'compilation-error-regexp-alist-alist
             '(cryptyc "^\\(.+\\): \\(?:no\\|refused\\): [0-9]+ [A-Za-z0-9]+ at \\([0-9]+\\):\\([0-9]+\\)" 1 2 3))
(add-to-list 'compilation-error-regexp-alist 'cryptyc)

;;;###autoload
(add-to-list 'auto-mode-alist '("\\.\\(?:spi\\|nar\\|bench\\)\\'" . cryptyc-mode))

(defvar eglot-server-programs)
(with-eval-after-load 'eglot
  (add-to-list 'eglot-server-programs `(cryptyc-mode . ,cryptyc-server)))

(provide 'cryptyc-mode)
;;; cryptyc-mode.el ends here
