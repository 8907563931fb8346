;;; Debugs workflows and walks records of actrun by dap-mode.
(defvar treemacs-text-scale nil) ; Debian's treemacs lacks it, and the windows of dap-ui read it
(require 'dap-mode)
(require 'dap-ui)
(dap-ui-mode 1) ; marks the line of the step
(dap-register-debug-provider
 "actrun"
 (lambda (given)
   (let ((top (expand-file-name (or (locate-dominating-file default-directory ".github") default-directory))))
     (append given (list :dap-server-path '("actrun" "dap") :cwd top)
             (if (plist-get given :live) (list :program top) nil)))))
(dap-register-debug-template
 "actrun: debug the workflows"
 (list :type "actrun" :request "launch" :name "live" :live t))
(dap-register-debug-template
 "actrun: walk the last execution"
 (list :type "actrun" :request "launch" :name "record" :record "--last" :workflows [".github/workflows"]))

;; dap-mode has no command of its own for the way back
(defun dap-step-back () (interactive) (dap--step "stepBack" (dap--cur-session-or-die)))
(defun dap-reverse () (interactive) (dap--step "reverseContinue" (dap--cur-session-or-die)))
