"""Sessions that Emacs's `dap-mode` drives: over a record, and over an execution. Each stops, goes back and forward, and ends."""
from __future__ import annotations

import json
import shutil
import subprocess
import unittest

from .dap_case import COMMAND, FRONT, NEEDS_PROGRAM, DapCase, surroundings
from .test_dap import CONTEXTS, RELEASE
from .test_dap_live import MAKE, STEPS
from .try_case import TryCase, sandbox_works

LOAD = "(progn (require 'package) (package-initialize) (require 'dap-mode) (require 'dap-ui))"
START = """
(require 'package)
(package-initialize)
(require 'dap-mode)
(require 'dap-ui)
(setq dap-auto-show-output nil lsp-session-file "lsp" dap-breakpoints-file "breakpoints" frame nil)
(dap-register-debug-provider "actrun" (lambda (given) (plist-put given :dap-server-path '(%(command)s))))
(add-hook 'dap-stack-frame-changed-hook
          (lambda (session) (setq frame (or (dap--debug-session-active-frame session) frame))))
(defun tell (kind value) (princ (format "%%s\\t%%s\\n" kind value)))
(defun await (what)
  (let ((count 0))
    (while (and (not (funcall what)) (< count 30000)) (accept-process-output nil 0.01) (setq count (1+ count)))
    (unless (funcall what) (error "nothing came"))))
(defun stopped ()
  (await (lambda () frame))
  (tell "frame" (gethash "name" frame))
  (tell "line" (with-current-buffer "ci.yml" (line-number-at-pos)))
  (prog1 frame (setq frame nil)))
(defun ask (session words)
  (tell "said" (gethash "result" (dap-request session "evaluate" :expression words :context "repl"))))
(defun ended (session)
  (dap-disconnect session)
  (await (lambda () (not (process-live-p (dap--debug-session-proc session)))))
  (tell "status" (process-exit-status (dap--debug-session-proc session))))
"""
SCRIPT = START + """
(find-file "ci.yml")
(goto-char (point-min))
(forward-line 21)
(dap-breakpoint-add)
(dap-debug (list :type "actrun" :request "launch" :name "record" :record "record" :workflows ["ci.yml"] :logs "."
                 :cwd default-directory))
(stopped)
(let ((session (dap--cur-session)))
  (tell "threads" (length (gethash "threads" (dap-request session "threads"))))
  (dap-continue session (dap--debug-session-thread-id session))
  (let ((failed (stopped)))
    (tell "why" (gethash "result" (dap-request session "evaluate" :expression "why" :frameId (gethash "id" failed) :context "repl"))))
  (dap--step "stepBack" session)
  (stopped)
  (dap--step "reverseContinue" session)
  (stopped)
  (tell "shown" (with-current-buffer (dap--debug-session-output-buffer session)
                  (replace-regexp-in-string "\\n" "|" (buffer-string))))
  (ended session))
"""
LIVE = START + """
(find-file ".github/workflows/ci.yml")
(goto-char (point-min))
(forward-line (1- %(line)d))
(dap-breakpoint-add)
(dap-debug (list :type "actrun" :request "launch" :name "live" :live t :program "%(project)s" :options ["--workspace" "full"]))
(stopped)
(let ((session (dap--cur-session)))
  (ask session "env.TONE")
  (ask session "print COLOUR")
  (dap-continue session (dap--debug-session-thread-id session))
  (stopped)
  (dap--step "stepBack" session)
  (stopped)
  (dap-continue session (dap--debug-session-thread-id session))
  (stopped)
  (ask session "skip")
  (await (lambda () (with-current-buffer (dap--debug-session-output-buffer session)
                      (string-match-p "report  " (buffer-string)))))
  (ended session))
"""


def has_dap_mode() -> bool:
    """Whether Emacs can load dap-mode."""
    return shutil.which("emacs") is not None and subprocess.run(
        ["emacs", "--batch", "--eval", LOAD], capture_output=True, stdin=subprocess.DEVNULL, check=False).returncode == 0


@NEEDS_PROGRAM
@unittest.skipUnless(has_dap_mode(), "emacs with dap-mode is not installed: apt-get install emacs-nox elpa-dap-mode")
class Emacs(DapCase):
    def test_a_session(self) -> None:
        folder = self.play("release", RELEASE, CONTEXTS)
        script = folder / "session.el"
        script.write_text(SCRIPT % {"command": " ".join(json.dumps(word) for word in COMMAND)}, encoding="utf-8")
        done = subprocess.run(["emacs", "--batch", "-l", str(script)], cwd=folder, env={**surroundings(), "HOME": str(folder)},
                              stdin=subprocess.DEVNULL, capture_output=True, text=True, timeout=800, check=False)
        self.assertEqual(done.returncode, 0, done.stderr)
        self.assertEqual([tuple(line.split("\t")) for line in done.stdout.splitlines() if not line.startswith("shown")], [
            ("frame", "step 0 (choose the channel): running"), ("line", "20"), ("threads", "1"),
            ("frame", "step 2 (publish): failure"), ("line", "32"),
            ("why", "step 2 (publish) failed at line 13: the program ended with 1"),
            ("frame", "step 2 (publish): running"), ("line", "32"),
            ("frame", "step 0 (choose the channel): running"), ("line", "20"), ("status", "0")])
        self.assertIn("*** of Bearer ***|", done.stdout)


@NEEDS_PROGRAM
@unittest.skipUnless(has_dap_mode() and sandbox_works(),
                     "emacs with dap-mode is not installed, or bwrap cannot make a room here")
class EmacsLive(TryCase):
    def test_an_execution(self) -> None:
        self.workflow(STEPS)
        script = self.room / "session.el"
        script.write_text(LIVE % {"command": " ".join(json.dumps(word) for word in COMMAND), "line": MAKE,
                                  "project": self.project},
                          encoding="utf-8")
        done = subprocess.run(["emacs", "--batch", "-l", str(script)], cwd=self.project,
                              stdin=subprocess.DEVNULL, capture_output=True,
                              env={**self.environment, "PYTHONPATH": str(FRONT)}, text=True, timeout=200,
                              check=False)
        self.assertEqual(done.returncode, 0, done.stderr)
        waits = ("frame", "step 1 (make the file): waits to begin"), ("line", str(MAKE))
        failed = ("frame", "step 1 (make the file): waits after exit 1"), ("line", str(MAKE))
        self.assertEqual([tuple(line.split("\t")) for line in done.stdout.splitlines()], [
            *waits, ("said", "light"), ("said", "blue"), *failed, ("frame", "step 1 (make the file): running"),
            ("line", str(MAKE)), *failed, ("said", ""), ("status", "0")])


if __name__ == "__main__":
    unittest.main()
