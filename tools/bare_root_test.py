"""Tests of the first commands of README on a fresh machine: a root with the packages that `debootstrap` puts into
it, and no toolchain. They need root and the network, and run with ACTRUN_ALL_TESTS."""
from __future__ import annotations

import os
import shutil
import subprocess
import tempfile
import unittest
from pathlib import Path

TOP = Path(__file__).resolve().parent.parent
PROGRAM = Path(os.environ.get("ACTRUN_PROGRAM", ""))
# makes a folder the root of a new process, which sees no other processes
ENTER = """
set -e
mount --make-rprivate /
mount --bind "$1" "$1"
mount --rbind /dev "$1/dev"
mount -t proc proc "$1/proc"
mount --rbind /sys "$1/sys"
cd "$1"
mkdir -p .old
pivot_root . .old
umount -l .old
exec /usr/bin/env -i PATH=/usr/sbin:/usr/bin:/sbin:/bin HOME=/root bash -c "$2"
"""


def codename() -> str:
    """The release of this machine's distribution."""
    lines = Path("/etc/os-release").read_text(encoding="utf-8").splitlines()
    return next((line.partition("=")[2].strip('"') for line in lines if line.startswith("VERSION_CODENAME=")), "")


def mirror() -> str:
    """Where this machine gets the packages of that release."""
    form = "$(CODENAME) $(COMPONENT) $(REPO_URI)"
    done = subprocess.run(["apt-get", "indextargets", "--format", form, "Created-By: Packages"],
                          capture_output=True, text=True, check=False)
    found = (line.split() for line in done.stdout.splitlines())
    return next((words[2] for words in found if words[:2] == [codename(), "main"]), "")


@unittest.skipUnless("ACTRUN_ALL_TESTS" in os.environ and os.geteuid() == 0 and shutil.which("debootstrap"),
                     "needs ACTRUN_ALL_TESTS, root and debootstrap")
class Fresh(unittest.TestCase):
    """A machine that has nothing but the distribution's first packages."""

    def setUp(self) -> None:
        self.room = Path(tempfile.mkdtemp(prefix="actrun-bare-"))
        self.addCleanup(shutil.rmtree, self.room, ignore_errors=True)
        self.root = self.room / "root"
        made = subprocess.run(["debootstrap", "--variant=minbase", codename(), self.root, mirror()],
                              capture_output=True, text=True, check=False)
        if made.returncode:
            self.skipTest(f"the root cannot be made: {made.stdout[-300:]}")
        shutil.copy("/etc/resolv.conf", self.root / "etc" / "resolv.conf")
        self.clone()

    def clone(self) -> None:
        """Puts the files of this clone there, with the program that was built from them."""
        names = subprocess.run(["git", "-C", TOP, "ls-files", "-z", "--cached", "--others", "--exclude-standard"],
                               capture_output=True, check=True).stdout
        target = self.root / "src" / "actrun"
        target.mkdir(parents=True)
        subprocess.run(["xargs", "-0", "cp", "--parents", "-d", "-t", target, "--"], cwd=TOP, input=names, check=True)
        out = target / "crates" / "actrun" / "out"
        shutil.copytree(PROGRAM.parent, out / "unproved" if PROGRAM.parent.name == "unproved" else out)

    def execute(self, script: str) -> subprocess.CompletedProcess[str]:
        """What a script does there."""
        words = ["unshare", "--mount", "--pid", "--fork", "bash", "-c", ENTER, "bash", self.root, script]
        return subprocess.run(words, stdin=subprocess.DEVNULL, capture_output=True, text=True, timeout=600, check=False)

    def test_two_commands_execute_a_workflow(self) -> None:
        installed = self.execute("cd /src/actrun && ./actrun --install --yes")
        self.assertEqual(installed.returncode, 0, installed.stderr)
        self.assertIn("installed /root/.local/bin/actrun", installed.stdout)
        tried = self.execute("export PATH=/root/.local/bin:$PATH; cd /src/actrun/examples/repository && actrun try -q")
        self.assertEqual((tried.returncode, tried.stdout), (0, "✓ CI (.github/workflows/ci.yml): success\n"), tried.stderr)


if __name__ == "__main__":
    unittest.main()
