"""The root of each leg: what its steps change of the system, `sudo`, packages, and what they do not reach."""
from __future__ import annotations

import os
import shutil
import subprocess
import sys
import tempfile
import unittest
from pathlib import Path
from unittest import mock

from actrun_front import files, machine, root, sudo

from .try_case import NEEDS_PROGRAM, TryCase, sandbox_works

PERSON = 61234  # an ordinary user, where the tests are executed by root
HEAD = """\
on: push
jobs:
  one:
    runs-on: ubuntu-latest
    steps:
"""
CONTROL = """\
Package: actrun-probe
Version: 1.0
Architecture: all
Maintainer: Ada <ada@example.org>
Description: a package of the tests
"""
WRITES = """\
- run: |
    echo one | sudo tee /etc/planted /opt/planted /usr/local/share/planted > /dev/null
    sudo mkdir /planted
    printf '#!/bin/sh\\necho tool of %s\\n' "$(cat /etc/planted)" | sudo tee /usr/local/bin/planted-tool > /dev/null
    sudo chmod +x /usr/local/bin/planted-tool
    sudo sh -c 'echo 127.0.0.9 planted-name >> /etc/hosts'
    echo mine > "$HOME/note"; echo mine > /tmp/note
- run: |
    planted-tool; cat /opt/planted "$HOME/note" /tmp/note; grep -o planted-name /etc/hosts; test -d /planted
- run: planted-tool
  shell: sh
"""
SEES_NOTHING = """\
  two:
    runs-on: ubuntu-latest
    needs: one
    steps:
      - run: |
          for name in /etc/planted /opt/planted /usr/local/share/planted /usr/local/bin/planted-tool /planted "$HOME/note" /tmp/note; do
            test ! -e "$name"
          done
          test -z "$(grep planted-name /etc/hosts)"
          echo nothing seen
"""


def dpkg_works() -> bool:
    """Whether this is a Debian."""
    return shutil.which("dpkg-deb") is not None and Path("/var/lib/dpkg/status").is_file()


class RootCase(TryCase):
    """A test of `try` by this person."""

    person = os.geteuid()

    def prepare(self) -> None:
        """Gives the files of the test to the person."""

    def try_it(self, *words: str) -> subprocess.CompletedProcess[str]:
        """What `try` answers."""
        return self.attempt(*words)


class OfPersonCase(RootCase):
    """A test of `try` by an ordinary user."""

    person = PERSON if os.geteuid() == 0 else os.geteuid()

    def setUp(self) -> None:
        super().setUp()
        words = [*self.before(), "sh", "-c", "test -r /dev/fuse && test -w /dev/fuse"]
        if shutil.which("fuse-overlayfs") is None or subprocess.run(words, capture_output=True, check=False).returncode:
            self.skipTest("fuse-overlayfs is not installed, or an ordinary user cannot open /dev/fuse")
        words = [*self.before(), sys.executable, "-c", f"open({__file__!r})"]
        if subprocess.run(words, capture_output=True, check=False).returncode:
            self.skipTest("an ordinary user cannot read this folder")
        words = [*self.before(), "bwrap", "--ro-bind", "/", "/", "--unshare-user", "true"]
        if subprocess.run(words, capture_output=True, check=False).returncode:
            self.skipTest("an ordinary user cannot use bwrap here")

    def before(self) -> list[str]:
        """The words by which root becomes an ordinary user."""
        return ["setpriv", f"--reuid={PERSON}", f"--regid={PERSON}", "--clear-groups",
                "--"] if os.geteuid() == 0 else []

    def prepare(self) -> None:
        """Gives the files of the test to the person."""
        if os.geteuid() == 0:
            for folder, names, others in os.walk(self.room):
                for name in (".", *names, *others):
                    os.chown(os.path.join(folder, name), PERSON, PERSON, follow_symlinks=False)

    def command(self, *words: str) -> list[str]:
        """The words that start `actrun try`."""
        return [*self.before(), *super().command(*words)]


class Everybody:
    """What holds for root and for others."""

    def test_the_system_can_be_changed_and_is_as_before(self: RootCase) -> None:  # type: ignore[misc]
        self.workflow(WRITES, HEAD)
        self.write(".github/workflows/ci.yml",
                   (self.project / ".github/workflows/ci.yml").read_text(encoding="utf-8") + SEES_NOTHING)
        self.prepare()
        done = self.try_it()
        self.assert_status(done, 0)
        for text in ("\ntool of one\none\nmine\nmine\nplanted-name\n", "\ntool of one\n\n",
                     "\nnothing seen\n"):
            self.assertIn(text, done.stdout)
        for name in ("/etc/planted", "/opt/planted", "/usr/local/share/planted",
                     "/usr/local/bin/planted-tool", "/planted"):
            self.assertFalse(os.path.lexists(name), name)
        self.assertNotIn("planted-name", Path("/etc/hosts").read_text(encoding="utf-8"))
        self.assertEqual(list(self.home.glob(".cache/actrun/work/*/machine")), [])

    def test_sudo(self: RootCase) -> None:  # type: ignore[misc]
        own = os.geteuid() if self.person != PERSON else PERSON
        self.workflow(f"""
- run: |
    test "$(id -u)" = {own}
    test "$(sudo id -u)" = 0
    test "$(sudo -n -H -- id -u)" = 0
    test "$(WORD=kept sudo -E sh -c 'echo $WORD')" = kept
    test "$(WORD=lost sudo sh -c 'echo $WORD')" = ''
    test "$(WORD=kept OTHER=lost sudo --preserve-env=WORD sh -c 'echo $WORD$OTHER')" = kept
    test "$(sudo WORD="it's two  words" sh -c 'echo "$WORD"')" = "it's two  words"
    test "$(sudo -nE -u root id -u)" = 0
    test "$(sudo -u "#$(id -u)" id -u)" = {own}
    test "$(sudo sh -c 'echo $HOME')" = /root
    test "$(sudo sh -c 'echo "$1"' sh 'a  b')" = 'a  b'
    test "$(sudo -s echo one two)" = 'one two'
    test "$(sudo sudo id -u)" = 0
    test "$(cd / && sudo -D /usr pwd)" = /usr
    sudo -v; sudo -l; sudo -k
    sudo sh -c 'exit 7' || test $? = 7
    sudo no-such-program || test $? = 1
    sudo --no-such-option id || test $? = 1
    sudo || test $? = 1
    echo all of it
""")
        self.prepare()
        done = self.try_it()
        self.assert_status(done, 0)
        for text in ("all of it", "sudo: no-such-program: command not found",
                     "sudo: --no-such-option: this option is not known here",
                     "sudo: a command is missing, as in: sudo apt-get install -y hello"):
            self.assertIn(text, done.stdout)

    @unittest.skipUnless(dpkg_works(), "this is no Debian: packages of it cannot be installed")
    def test_packages_are_installed_and_kept(self: RootCase) -> None:  # type: ignore[misc]
        self.write("probe/DEBIAN/control", CONTROL)
        self.write("probe/usr/bin/actrun-probe", "#!/bin/sh\necho the probe works\n", 0o755)
        self.workflow("""
- run: |
    chmod -R g-s probe && dpkg-deb --root-owner-group --build probe probe.deb > /dev/null
    ls /var/cache/apt/archives/probe.deb || sudo cp probe.deb /var/cache/apt/archives/
    sudo apt-get install -y ./probe.deb
- run: actrun-probe && dpkg -s actrun-probe | grep ^Status
""")
        self.prepare()
        for found in (False, True):
            done = self.try_it()
            self.assert_status(done, 0)
            self.assertIn("\nthe probe works\nStatus: install ok installed\n", done.stdout)
            self.assertEqual("\n/var/cache/apt/archives/probe.deb\n" in done.stdout, found)
        self.assertNotEqual(subprocess.run(["dpkg", "-s", "actrun-probe"], capture_output=True,
                                           check=False).returncode, 0)
        self.assertEqual(len(list(self.home.glob(".cache/actrun/apt/*/probe.deb"))), 1)

    def test_offline_is_named(self: RootCase) -> None:  # type: ignore[misc]
        fake = "printf '#!/bin/sh\\nexit 100\\n' | sudo tee /usr/bin/apt-get /usr/local/bin/apt-get > /dev/null"
        self.workflow(f"- run: |\n    {fake}\n    sudo chmod +x /usr/bin/apt-get /usr/local/bin/apt-get\n    apt-get update || true\n    sudo -E apt-get update")
        self.prepare()
        done = self.try_it("--offline")
        self.assert_status(done, 1)
        for text in ("sudo: apt-get: --offline took the network away",
                     "\napt-get: --offline took the network away"):
            self.assertIn(text, done.stdout)
        self.assertNotIn("--offline", self.try_it().stdout)

    def test_nothing_hidden_is_reached(self: RootCase) -> None:  # type: ignore[misc]
        (self.home / "private-note").write_text("mine", encoding="utf-8")
        self.workflow(f"""
- run: |
    test ! -e '{self.home}/private-note'
    sudo test ! -e '{self.home}/private-note'
    for folder in /home /root '{self.home}' /proc/sys; do
      sudo umount -l "$folder" 2>/dev/null && exit 1
      sudo mount --bind / "$folder" 2>/dev/null && exit 1
      unshare -Urm sh -c 'umount -l "$1" && ls -A "$1"' sh "$folder" 2>/dev/null && exit 1
    done
    test ! -e '{self.home}/private-note'
    sudo test ! -w /proc/sys/kernel/core_pattern
    sudo mknod /tmp/disk b 254 0 2>/dev/null && exit 1
    test "$(ls -A '{self.home}'/.cache/actrun/work/*/machine)" = ''
    for one in /proc/[0-9]*; do
      for note in "$one/root{self.home}/private-note" "$one/cwd{self.home}/private-note"; do sudo test ! -e "$note"; done
    done
    echo nothing reached
""")
        self.prepare()
        done = self.try_it()
        self.assert_status(done, 0)
        self.assertIn("\nnothing reached\n", done.stdout)

    def test_a_server_of_a_step_goes_on_in_the_next(self: RootCase) -> None:  # type: ignore[misc]
        self.workflow("""
- run: |
    mkfifo /tmp/asked /tmp/told
    (while read -r word < /tmp/asked; do echo "heard $word" > /tmp/told; done) > /dev/null 2>&1 &
- run: |
    echo late | sudo tee /etc/late > /dev/null; echo well > /tmp/asked; cat /tmp/told /etc/late
""")
        self.prepare()
        done = self.try_it()
        self.assert_status(done, 0)
        self.assertIn("\nheard well\nlate\n", done.stdout)

    def test_sixteen_legs_at_once(self: RootCase) -> None:  # type: ignore[misc]
        numbers = ", ".join(map(str, range(16)))
        self.workflow("""
- run: |
    echo "${{ matrix.n }}" | sudo tee -a /etc/planted > /dev/null
    : > /tmp/waiting
- run: |
    test "$(cat /etc/planted)" = "${{ matrix.n }}"
""", HEAD.replace("    steps:", f"    strategy: {{fail-fast: false, matrix: {{n: [{numbers}]}}}}\n    steps:"))
        self.prepare()
        done = self.try_it("--workers", "16")
        self.assert_status(done, 0)
        self.assertEqual(done.stderr.count("✓"), 32)


@NEEDS_PROGRAM
@unittest.skipUnless(sandbox_works(), "bwrap is not installed or does not work here")
@unittest.skipUnless(os.geteuid() == 0, "this is for root")
class OfRoot(Everybody, RootCase):
    """`try` by root."""

    def test_others_own_files(self) -> None:
        self.workflow("""
- run: |
    touch /usr/local/owned && chown nobody /usr/local/owned && stat -c %U /usr/local/owned
    sudo -u nobody id -un
    cd /tmp && sudo -u nobody touch /usr/local/other || echo refused
""")
        done = self.attempt()
        self.assert_status(done, 0)
        self.assertIn("\nnobody\nnobody\n", done.stdout)
        self.assertIn("\nrefused\n", done.stdout)

    def test_where_the_caches_are_in_layers_themselves(self) -> None:
        for name in ("lower", "upper", "work", "caches"):
            (self.room / name).mkdir()
        options = f"lowerdir={self.room}/lower,upperdir={self.room}/upper,workdir={self.room}/work"
        if subprocess.run(["mount", "-t", "overlay", "-o", options, "layers", str(self.room / "caches")],
                          capture_output=True, check=False).returncode:
            self.skipTest("a layered file system cannot be mounted here")
        self.addCleanup(subprocess.run, ["umount", "-l", str(self.room / "caches")], check=False)
        self.workflow("- run: echo x > /etc/planted && sudo touch /usr/bin/planted && cat /etc/planted && touch \"$HOME/x\"")
        done = self.attempt(XDG_CACHE_HOME=str(self.room / "caches"))
        self.assert_status(done, 0)
        self.assertNotIn("read-only", done.stderr)

    def test_roots_that_a_killed_execution_left_are_removed(self) -> None:
        self.workflow("- run: 'true'")
        self.assert_status(self.attempt(), 0)
        folder = next((self.home / ".cache/actrun/work").iterdir())
        (folder / "machine/0/up").mkdir(parents=True)
        self.assert_status(self.attempt(), 0)
        self.assertFalse((folder / "machine").exists())


@NEEDS_PROGRAM
@unittest.skipUnless(sandbox_works(), "bwrap is not installed or does not work here")
class OfOthers(Everybody, OfPersonCase):
    """`try` by an ordinary user."""

    def test_a_step_is_the_person(self) -> None:
        self.workflow("- run: id -u && sudo -u root id -u && touch \"$HOME/x\" && stat -c %u \"$HOME/x\" && sudo -u nobody id")
        self.prepare()
        done = self.attempt()
        self.assert_status(done, 1)
        self.assertIn(f"\n{self.person}\n0\n{self.person}\n", done.stdout)
        self.assertIn("sudo: nobody: an ordinary user's sandbox has one person and root", done.stdout)


class Parts(unittest.TestCase):
    """The parts, without `try`."""

    def setUp(self) -> None:
        folder = tempfile.TemporaryDirectory(prefix="actrun-root-")
        self.addCleanup(folder.cleanup)
        self.folder = Path(folder.name).resolve()

    def test_sudo_says_why_the_system_is_read_only(self) -> None:
        none = self.folder / "none"
        none.write_text("fuse-overlayfs is not installed (apt-get install fuse-overlayfs)\n",
                        encoding="utf-8")
        sudo.write_sudo(self.folder, none, False)
        self.assertFalse((self.folder / "apt-get").exists())
        done = subprocess.run([self.folder / "sudo", "false"], capture_output=True, text=True, check=False)
        self.assertEqual(done.returncode, 1 if os.geteuid() else done.returncode)
        self.assertIn("sudo: the system is read-only here, since fuse-overlayfs is not installed (apt-get install fuse-overlayfs): "
                      "install what the step needs on this machine, or execute the job in a `container`; with --no-sandbox "
                      "every step would have your rights, and change this machine for good", done.stderr)

    def test_a_missing_fuse_overlayfs_is_named(self) -> None:
        with mock.patch.object(root, "which", return_value=""), self.assertRaisesRegex(OSError, "apt-get install fuse-overlayfs"):
            root.Root(str(self.folder), False, []).mount_fuse()

    def test_packages_are_kept_by_their_names(self) -> None:
        (self.folder / "kept").mkdir()
        layer = self.folder / "machine/0/uppackages"
        layer.mkdir(parents=True)
        secret = self.folder / "secret.deb"
        for place in (secret, layer / "one_1.0_all.deb", layer / "no package", layer / "-x.deb"):
            place.write_text(place.name, encoding="utf-8")
        (layer / "link.deb").symlink_to(secret)
        at = files.open_folder(self.folder / "machine", ("0", "uppackages"))
        machine.keep_packages(at, self.folder / "kept")
        os.close(at)
        self.assertEqual([path.name for path in (self.folder / "kept").iterdir()], ["one_1.0_all.deb"])
        (self.folder / "machine/1").symlink_to(self.folder / "machine/0")
        with self.assertRaises(OSError):
            files.open_folder(self.folder / "machine", ("1", "uppackages"))

    def test_paths_below_others(self) -> None:
        self.assertTrue(root.is_below("/a/b", ["/a"]) and root.is_below("/a", ["/a"])
                        and not root.is_below("/ab", ["/a"]))
        self.assertEqual(list(root.mount_points())[0][:1], "/")


if __name__ == "__main__":
    unittest.main()
