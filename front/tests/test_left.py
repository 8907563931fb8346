"""What steps leave behind is hostile: links, pipes, enormous files, deep folders. Canaries replace what
must stay untouched."""
from __future__ import annotations

import os
import re
import stat
import unittest
from pathlib import Path

from actrun_front import files, tree

from .try_case import NEEDS_PROGRAM, TryCase, sandbox_works


def nest(base: Path, depth: int) -> None:
    """Makes folders in one another, deeper than any path can name."""
    number = os.open(base, os.O_RDONLY | os.O_DIRECTORY)
    for _ in range(depth):
        os.mkdir("d", dir_fd=number)
        inner = os.open("d", os.O_RDONLY | os.O_DIRECTORY, dir_fd=number)
        os.close(number)
        number = inner
    os.close(os.open("file", os.O_WRONLY | os.O_CREAT, dir_fd=number))
    os.fchmod(number, 0)
    os.close(number)


class Files(TryCase):
    """The module that opens and deletes."""

    def setUp(self) -> None:
        super().setUp()
        self.canary = self.home / "notes" / "0-inbox"
        self.canary.mkdir(parents=True)
        (self.canary / "letter").write_text("canary", encoding="utf-8")

    def test_deleting_follows_no_link(self) -> None:
        target = self.home / "work"
        (target / "inner").mkdir(parents=True)
        (target / "link").symlink_to(self.canary)
        (target / "inner" / "up").symlink_to("../../notes")
        self.assertTrue(files.remove(target))
        self.assertFalse(target.exists())
        (self.home / "legs").symlink_to(self.canary.parent)
        self.assertFalse(files.remove(self.home / "legs"))
        self.assertFalse(files.remove_below(self.home, "legs", "0-inbox"))
        self.assertEqual((self.canary / "letter").read_text(encoding="utf-8"), "canary")

    def test_only_the_known_folder_is_deleted(self) -> None:
        ours = self.home / "ours"
        ours.mkdir()
        known = files.identity(ours)
        ours.rename(self.home / "moved")
        self.canary.parent.rename(ours)
        self.assertFalse(files.remove(ours, known))
        self.assertTrue((ours / "0-inbox" / "letter").exists())

    def test_deep_and_unreadable_folders(self) -> None:
        deep = self.home / "deep"
        deep.mkdir()
        nest(deep, 3000)
        for name in ("a", "b"):
            (deep / name).mkdir()
            (deep / name / "x").write_text("x", encoding="utf-8")
            (deep / name).chmod(0)
        self.assertTrue(files.remove(deep))
        self.assertFalse(deep.exists())

    def test_links_pipes_and_long_files_are_not_read(self) -> None:
        (self.project / "link").symlink_to(self.canary / "letter")
        (self.project / "folder").symlink_to(self.canary)
        os.mkfifo(self.project / "pipe")
        with open(self.project / "long", "wb") as file:
            file.truncate(1 << 40)
        for parts in (("link",), ("folder", "letter"), ("pipe",), ("long",), (".",), ("nothing",)):
            with self.subTest(parts), self.assertRaises(OSError):
                files.read_below(self.project, *parts, most=1 << 20)
        (self.project / "inner").mkdir()
        self.write("inner/file", "text")
        (self.project / "same").symlink_to("inner/file")
        self.assertEqual(files.read_inside(self.project, self.project / "same"), b"text")
        with self.assertRaisesRegex(files.Unfit, "outside"):
            files.read_inside(self.project, self.project / "link")

    def test_writing_replaces_a_link(self) -> None:
        (self.project / "stopped").symlink_to(self.canary / "letter")
        files.write_new(self.project, "stopped", text="by Ctrl-C")
        self.assertEqual((self.canary / "letter").read_text(encoding="utf-8"), "canary")
        self.assertEqual((self.project / "stopped").read_text(encoding="utf-8"), "by Ctrl-C")

    def test_setuid_bits_are_dropped(self) -> None:
        place = self.write("a/b/program", "", 0o4755)
        (self.project / "link").symlink_to(place)
        files.drop_setuid(self.project)
        self.assertEqual(stat.S_IMODE(place.stat().st_mode), 0o755)

    def test_the_cache_is_for_its_owner_alone(self) -> None:
        place = self.home / ".cache" / "actrun"
        place.mkdir(parents=True)
        place.chmod(0o777)
        os.environ["XDG_CACHE_HOME"] = str(self.home / ".cache")
        self.addCleanup(os.environ.pop, "XDG_CACHE_HOME", None)
        tree.kept_for(self.project, "caches")
        self.assertEqual(stat.S_IMODE(place.stat().st_mode), 0o700)


@NEEDS_PROGRAM
@unittest.skipUnless(sandbox_works(), "bwrap is not installed or does not work here")
class Left(TryCase):
    """Whole executions."""

    def test_summaries(self) -> None:
        secret = self.home / "canary"
        secret.write_text("canary-text", encoding="utf-8")
        self.workflow(f"""
- run: rm -f "$GITHUB_STEP_SUMMARY"; ln -s '{secret}' "$GITHUB_STEP_SUMMARY"
- run: rm -f "$GITHUB_STEP_SUMMARY"; mkfifo "$GITHUB_STEP_SUMMARY"
- run: truncate -s 1T "$GITHUB_STEP_SUMMARY"
- run: yes | head -c 2000000 > "$GITHUB_STEP_SUMMARY"
- run: echo '# good' >> "$GITHUB_STEP_SUMMARY"
""")
        done = self.attempt()
        self.assert_status(done, 0)
        self.assertNotIn("canary-text", done.stdout)
        self.assertEqual(done.stdout.count("(not shown: "), 4)
        self.assertIn("more than 1048576 bytes", done.stdout)
        self.assertIn("# good", done.stdout)
        page = next((self.work() / "private").glob("report.html")).read_text(encoding="utf-8")
        self.assertNotIn("canary-text", page)

    def test_what_replaces_the_files_of_later_steps(self) -> None:
        steps = ""
        for number, form in enumerate(("ln -s /dev/zero", "mkfifo", "mkdir", "truncate -s 1T", "ln -s .")):
            steps += f"""
- run: |
    files=$(dirname "$GITHUB_PATH")
    for file in path-0 summary-0-{2 * number + 1} state-0-{2 * number + 1}.new; do
      rm -rf "$files/$file"; {form} "$files/$file"
    done
- run: test {number} = 3 || echo /added >> "$GITHUB_PATH"; echo passed
  shell: {"sh" if number % 2 else "bash"}
"""
        self.workflow(steps + "- run: echo $PATH")
        done = self.attempt()
        self.assert_status(done, 0)
        self.assertEqual(len(re.findall("(?m)^passed$", done.stdout)), 5)
        self.assertRegex(done.stdout, r"(?m)^/added:")

    def test_a_leg_has_nothing_of_another(self) -> None:
        self.write(".github/workflows/ci.yml", """\
on: push
jobs:
  one:
    runs-on: ubuntu-latest
    steps:
      - run: |
          echo canary | tee own "$RUNNER_TEMP/own" >> "$GITHUB_STEP_SUMMARY"
          touch "$ACTRUN_CACHE/there"
          for at in $(seq 600); do test -e "$ACTRUN_CACHE/looked" && break; sleep 0.1; done
      - run: |
          echo "path $PATH"
          ls > list; test ! -e other
  two:
    runs-on: ubuntu-latest
    steps:
      - run: |
          for at in $(seq 600); do test -e "$ACTRUN_CACHE/there" && break; sleep 0.1; done
          play=${RUNNER_TEMP%/temp/*}
          cat "$play"/legs/*/*/own "$play"/temp/*/own "$play"/files/*/summary-0-0 || true
          for file in files/0/path-0 legs/0-0/project/other temp/0-0/other tree/project/other; do
            mkdir -p "$play/${file%/*}" && echo /other > "$play/$file" || true
          done
          touch "$ACTRUN_CACHE/looked"
""")
        done = self.attempt("--workers", "2")
        self.assert_status(done, 0)
        self.assertEqual(re.findall("(?m)^.*canary$", done.stdout), ["canary"])  # (the summary)
        self.assertNotRegex(done.stdout, "path.*/other")
        play = self.work() / "play"
        found = [str(path.relative_to(play)) for path in play.rglob("other")]
        self.assertEqual((found, (play / "files/0/path-0").read_bytes()), ([], b""))

    def test_links_in_place_of_folders(self) -> None:
        notes = self.home / "notes" / "0-inbox"
        notes.mkdir(parents=True)
        self.write(".github/workflows/ci.yml", f"""\
on: push
jobs:
  one:
    runs-on: ubuntu-latest
    strategy: {{matrix: {{v: [1, 2]}}}}
    steps:
      - run: |
          play=$(dirname "$GITHUB_OUTPUT")
          for name in legs files stubs artifacts temp; do
            rm -rf "$play/$name" 2>/dev/null; ln -sfn '{notes.parent}' "$play/$name" 2>/dev/null
          done
          true
""")
        self.attempt()
        self.assertTrue(notes.exists())

    def test_deep_folders_stop_no_later_execution(self) -> None:
        self.workflow("""
- run: |
    /usr/bin/python3 -c "
    import os
    for _ in range(3000):
        os.mkdir('d'); os.chdir('d')
    os.chmod('.', 0)"
""")
        for _ in range(3):
            self.assert_status(self.attempt(), 0)
        work = self.home / ".cache" / "actrun" / "work"
        self.assertEqual(len(list(work.iterdir())), 3)
        for folder in work.iterdir():
            files.remove(folder)
        self.assertEqual(list(work.iterdir()), [])

    def test_what_a_step_prints_is_not_its_to_change(self) -> None:
        self.workflow("""
- run: |
    echo kept
    test -p /proc/self/fd/1 && test -p /proc/self/fd/2 || exit 3  # (else the next line would fill the disk)
    truncate -s 1T /proc/self/fd/1 || echo refused > /dev/stderr
    (for at in $(seq 200); do echo "background $at"; echo "$at" > at; sleep 0.05; done) &
- run: |
    for at in $(seq 100); do test -s at && break; sleep 0.1; done
    before=$(cat at)
    for at in $(seq 100); do test "$(cat at)" != "$before" && break; sleep 0.1; done
    test "$(cat at)" != "$before"
- run: head -c 3000000 /dev/zero | tr '\\0' x; echo; echo last
""")
        done = self.attempt()
        self.assert_status(done, 0)
        self.assertIn("kept", done.stdout)
        self.assertIn("refused", done.stdout)
        self.assertIn("x" * 1000 + "\nlast\n", done.stdout)

    def test_setuid_files_in_a_cache(self) -> None:
        self.workflow("""- run: cp /bin/true "$ACTRUN_CACHE/program" && chmod 6755 "$ACTRUN_CACHE/program" """)
        self.assert_status(self.attempt(), 0)
        found = next((self.home / ".cache" / "actrun" / "caches").glob("*/program"))
        self.assertEqual(stat.S_IMODE(found.stat().st_mode), 0o755)
        self.assertEqual(stat.S_IMODE((self.home / ".cache" / "actrun").stat().st_mode), 0o700)

    def test_modes_whatever_the_umask(self) -> None:
        self.workflow("- run: umask; touch file")
        self.commit()
        old = os.umask(0)
        try:
            done = self.attempt("-s", "TOKEN=x")
        finally:
            os.umask(old)
        self.assert_status(done, 0)
        for path in (*self.work().glob("private/*"), *self.work().glob("play/step-*")):
            self.assertEqual(path.stat().st_mode & 0o077, 0, path)

    def test_git_is_read_only_in_place(self) -> None:
        self.workflow("- run: git config core.fsmonitor x || echo kept; touch new; echo x > .git/hooks/pre-commit || echo kept")
        self.commit()
        done = self.attempt("--in-place")
        self.assert_status(done, 0)
        self.assertIn("kept", done.stdout)
        self.assertTrue((self.project / "new").exists())
        self.assertNotIn("fsmonitor", (self.project / ".git" / "config").read_text(encoding="utf-8"))
        self.assert_status(self.attempt("--in-place", "--writable-git"), 0)
        self.assertIn("fsmonitor", (self.project / ".git" / "config").read_text(encoding="utf-8"))

    def test_bind(self) -> None:
        shown = self.home / "shown"
        shown.mkdir()
        (shown / "file").write_text("of the machine\n", encoding="utf-8")
        self.workflow(f"- run: cat '{shown}/file'; touch '{shown}/new' || echo refused")
        self.assert_status(self.attempt(), 1)
        done = self.attempt("--bind", str(shown))
        self.assertIn("\nof the machine\n", done.stdout)
        self.assertIn("\nrefused\n", done.stdout)
        self.assert_status(self.attempt("--bind-rw", str(shown)), 0)
        self.assertTrue((shown / "new").exists())


if __name__ == "__main__":
    unittest.main()
