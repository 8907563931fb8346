"""The front of actrun: `python3 FRONT
try|from-yaml|lint|debug|dap|report|timeline|explain|explain-error|open|files|last ARGUMENTS`.

Where the running Python has no `ruamel.yaml`, the system's Python takes over.
"""
import importlib
import os
import signal
import sys

SYSTEM_PYTHON = "/usr/bin/python3"
COMMANDS = {
    "try": "attempt",
    "from-yaml": "from_yaml",
    "lint": "lint",
    "debug": "debug",
    "dap": "dap",
    "report": "report",
    "timeline": "timeline",
    "explain": "explained",
    "explain-error": "explain",
    "last": "last",
    "open": "open_page",
    "files": "changed_files",
}


def main(arguments):
    """Exit status of the command that the first argument names."""
    if not arguments or arguments[0] not in COMMANDS:
        print("usage: python3 front try|from-yaml|lint|debug|dap|report|timeline|explain|explain-error|open|files|last ARGUMENTS", file=sys.stderr)
        return 2
    try:
        importlib.import_module("ruamel.yaml")
    except ImportError:
        if os.environ.get("ACTRUN_SYSTEM_PYTHON") or not os.path.exists(SYSTEM_PYTHON):
            if arguments[0] == "debug":  # (which needs no front, but for its prompt)
                os.execv(os.environ["ACTRUN_PROGRAM"], ["actrun", *arguments])
            print("actrun: the Python library ruamel.yaml is missing: install it with `apt-get install "
                  "python3-ruamel.yaml` or `pip install ruamel.yaml`", file=sys.stderr)
            return 3
        os.environ["ACTRUN_SYSTEM_PYTHON"] = "1"
        signal.pthread_sigmask(signal.SIG_BLOCK, [signal.SIGINT])
        os.execv(SYSTEM_PYTHON, [SYSTEM_PYTHON, os.path.dirname(os.path.abspath(__file__)), *arguments])
    os.environ.pop("ACTRUN_SYSTEM_PYTHON", None)
    # (a parent may ignore it; then no command would be told how the programs that it starts end)
    signal.signal(signal.SIGCHLD, signal.SIG_DFL)
    from actrun_front.unforeseen import guarded
    return guarded(
        arguments[0],
        lambda: importlib.import_module("actrun_front." + COMMANDS[arguments[0]]).main(arguments[1:]),
    )


def start():
    """Ends with the command's status. Ctrl-C before the command has begun, or when it is over, shows no
    traceback either."""
    try:
        # (the script blocks it until here)
        signal.pthread_sigmask(signal.SIG_UNBLOCK, [signal.SIGINT])
        status = main(sys.argv[1:])
        signal.signal(signal.SIGINT, signal.SIG_IGN)
    except KeyboardInterrupt:
        signal.signal(signal.SIGINT, signal.SIG_IGN)
        print("actrun: stopped by Ctrl-C", file=sys.stderr)
        status = 130
    sys.exit(status)


if __name__ == "__main__":
    start()
