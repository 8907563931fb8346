"""The processor time of the program on big records, for debug.sh, graph.sh, timeline.sh and why.sh."""
import contextlib
import os
import subprocess
import sys
import tempfile

TOP = os.path.join(os.path.dirname(os.path.abspath(__file__)), "..")
PROGRAM = os.path.join(TOP, "crates/actrun/out/actrun")

# Runs the program and prints its processor time.
CHILD = """
import resource, subprocess, sys
code = subprocess.run(sys.argv[1:], stdout=subprocess.DEVNULL).returncode
used = resource.getrusage(resource.RUSAGE_CHILDREN)
print(used.ru_utime + used.ru_stime)
sys.exit(0 if code in (0, 1, 4) else code)
"""


@contextlib.contextmanager
def big_record(count, *shape):
    """Lends the path of a record of that many entries, of the shape that big_record.py makes of these words."""
    with tempfile.NamedTemporaryFile() as record:
        big = os.path.join(TOP, "bench/big_record.py")
        subprocess.run([sys.executable, big, str(count), *shape], stdout=record, check=True)
        yield record.name


def seconds(*words, given=""):
    """Returns the processor time of the program with these words and this input, the least of three runs."""
    command = [sys.executable, "-c", CHILD, PROGRAM, *words]
    runs = [subprocess.run(command, input=given, capture_output=True, text=True, check=True) for _ in range(3)]
    return min(float(run.stdout) for run in runs)


def size(*words):
    """Returns how many bytes the program prints with these words."""
    return len(subprocess.run([PROGRAM, *words], capture_output=True, check=False).stdout)
