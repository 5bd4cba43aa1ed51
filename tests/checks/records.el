;; Reads each line of the files that are named, by Emacs's own reader of GDB/MI records (gdb-mi.el), and prints the lines that
;; it doesn't read to their end, or in which it finds other names and strings than stand there. The last line is their number.

(require 'gdb-mi)

(defun records-count (item)
  "The numbers of names and of strings in what was read, as a cons."
  (cond ((stringp item) (cons 0 1))
        ((null item) (cons 0 0))
        ((and (consp item) (car item) (symbolp (car item)))
         (let ((rest (records-count (cdr item))))
           (cons (1+ (car rest)) (cdr rest))))
        (t (let ((names 0) (strings 0))
             (dolist (each item)
               (let ((found (records-count each)))
                 (setq names (+ names (car found)) strings (+ strings (cdr found)))))
             (cons names strings)))))

(defun records-standing ()
  "The numbers of names and of strings that stand between point and the end, as a cons."
  (let ((names 0) (strings 0))
    (save-excursion
      (while (not (eobp))
        (cond ((looking-at "\"\\(?:[^\"\\\\]\\|\\\\.\\)*\"") (setq strings (1+ strings)) (goto-char (match-end 0)))
              ((looking-at "[a-zA-Z_-]+=") (setq names (1+ names)) (goto-char (match-end 0)))
              (t (forward-char)))))
    (cons names strings)))

(defun records-reads-line (line)
  "Whether the reader reads a whole line."
  (with-temp-buffer
    (set-buffer-multibyte nil)
    (insert line)
    (goto-char (point-min))
    (cond ((equal line "(gdb)") t)
          ((looking-at "[~@&]\"") (goto-char (match-end 0)) (gdb-mi--parse-c-string) (eobp))
          ((looking-at "[0-9]*[\\^*=][a-z-]+\\(,\\|\\'\\)")
           (goto-char (match-end 0))
           (let ((standing (records-standing))
                 (found (records-count (gdb-mi--parse-results))))
             (and (eobp) (equal standing found)))))))

(let ((read 0) (failed 0) (gdb-mi-decode-strings nil) (coding-system-for-read 'no-conversion))
  (dolist (file command-line-args-left)
    (dolist (line (with-temp-buffer
                    (set-buffer-multibyte nil)
                    (insert-file-contents-literally file)
                    (split-string (buffer-string) "\n" t)))
      (if (ignore-errors (records-reads-line line))
          (setq read (1+ read))
        (setq failed (1+ failed))
        (princ (format "%s: %s\n" file line)))))
  (setq command-line-args-left nil)
  (princ (format "emacs: %d lines read, %d not\n" read failed))
  (kill-emacs (if (= failed 0) 0 1)))
