;;; mungo.el --- Protocols, typestates, and mungo's language server  -*- lexical-binding: t; -*-

;; (load "/path/to/mungo/editors/emacs/mungo") in the init file. Emacs 29 has eglot; Emacs 26.3 to 28 take it from ELPA.
;; `mungo-lsp-program' names the server, where it isn't on the PATH.

(require 'eglot)

(defvar mungo-lsp-program "mungo-lsp" "The language server.")

(defconst mungo--scribble-words
  '("choice" "or" "rec" "continue" "do" "to" "from" "at" "module" "type" "as" "local" "global" "protocol" "role" "self"))

(defvar mungo--syntax
  (let ((table (make-syntax-table)))
    (modify-syntax-entry ?/ ". 124b" table)
    (modify-syntax-entry ?* ". 23" table)
    (modify-syntax-entry ?\n "> b" table)
    (modify-syntax-entry ?_ "w" table)
    table)
  "Comments and words as in Java.")

(define-derived-mode scribble-mode prog-mode "Scribble"
  "Local and global protocols."
  :syntax-table mungo--syntax
  (setq-local comment-start "// ")
  (setq-local font-lock-defaults
              `(((,(regexp-opt mungo--scribble-words 'words) . 'font-lock-keyword-face)
                 (,(regexp-opt '("int" "boolean" "String") 'words) . 'font-lock-type-face)))))

(define-derived-mode typestate-mode prog-mode "Typestate"
  "Typestates."
  :syntax-table mungo--syntax
  (setq-local comment-start "// ")
  (setq-local font-lock-defaults
              `(((,(regexp-opt '("typestate" "package" "import") 'words) . 'font-lock-keyword-face)
                 (,(regexp-opt '("void" "int" "boolean" "String") 'words) . 'font-lock-type-face)
                 (,(regexp-opt '("end" "drop") 'words) . 'font-lock-constant-face)
                 ("\\_<\\([A-Za-z_][A-Za-z0-9_]*\\)\\s-*=" 1 'font-lock-variable-name-face)))))

(add-to-list 'auto-mode-alist '("\\.scr\\'" . scribble-mode))
(add-to-list 'auto-mode-alist '("\\.protocol\\'" . typestate-mode))

(defun mungo--start ()
  "Starts the server for this buffer. One serves all files of a project, also those of Java: it has to know all open texts."
  (setq-local eglot-server-programs
              (cons `((scribble-mode typestate-mode java-mode java-ts-mode) . (,mungo-lsp-program)) eglot-server-programs))
  (eglot-ensure))

(defun mungo--start-java ()
  "Starts the server for a Java file in whose folder a protocol or a typestate stands."
  (when (and buffer-file-name (directory-files default-directory nil "\\`[^.].*\\.\\(?:scr\\|protocol\\)\\'" t))
    (mungo--start)))

(add-hook 'scribble-mode-hook #'mungo--start)
(add-hook 'typestate-mode-hook #'mungo--start)
(add-hook 'java-mode-hook #'mungo--start-java)
(add-hook 'java-ts-mode-hook #'mungo--start-java)

(defun mungo-diagram ()
  "Shows the typestate of this protocol or typestate as a diagram of Mermaid, in a buffer of its own."
  (interactive)
  (let* ((name (plist-get (eglot--TextDocumentIdentifier) :uri))
         (asked `(:command "mungo.diagram" :arguments ,(vector name)))
         (drawn (jsonrpc-request (eglot-current-server) :workspace/executeCommand asked)))
    (unless (stringp drawn) (user-error "There is no diagram of this"))
    (with-current-buffer (get-buffer-create "*mungo diagram*")
      (erase-buffer)
      (insert drawn)
      (goto-char (point-min))
      (display-buffer (current-buffer)))))

(provide 'mungo)
;;; mungo.el ends here
