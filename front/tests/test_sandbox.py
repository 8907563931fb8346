"""What a step in the sandbox reaches, and what happens if there is no sandbox. Canaries replace what
must stay untouched."""
from __future__ import annotations

import os
import socket
import subprocess
import sys
import time
import unittest
from pathlib import Path
from unittest import mock

from actrun_front import Problem, broker, network, sandbox, seccomp

from .try_case import NEEDS_PROGRAM, WORKFLOW, TryCase, sandbox_works

NEEDS_SANDBOX = unittest.skipUnless(sandbox_works(), "bwrap is not installed or does not work here")


def network_works() -> bool:
    """Whether slirp4netns can give a sandbox a network of its own here."""
    return network.maker() != "" and os.access("/dev/net/tun", os.R_OK | os.W_OK)


@NEEDS_PROGRAM
@NEEDS_SANDBOX
class Reach(TryCase):
    """What a step reaches."""

    def shown(self, steps: str, *words: str, head: str = WORKFLOW) -> str:
        """What steps print that succeed."""
        self.workflow(steps, head)
        done = self.attempt(*words)
        self.assert_status(done, 0)
        return done.stdout

    def test_no_step_sees_plan_record_and_secrets_of_others(self) -> None:
        jobs = WORKFLOW + "      - run: 'sleep 1; echo ${{ secrets.CANARY }} > /dev/null'\n        env: {HIDDEN: '${{ secrets.CANARY }}'}\n"
        self.write(".github/workflows/ci.yml", jobs + """\
  two:
    runs-on: ubuntu-latest
    steps:
      - run: |
          for file in /proc/[0-9]*/fd/* /proc/[0-9]*/environ /proc/[0-9]*/cmdline "$(dirname "$GITHUB_OUTPUT")"/../* \\
              "$(dirname "$GITHUB_OUTPUT")"/../private/* "$(dirname "$GITHUB_OUTPUT")"/*; do
            case $(readlink "$file") in "" | /*) timeout 5 cat "$file" 2>/dev/null | base64 -w 0 ;; esac
            echo
          done | while read -r line; do echo "$line" | base64 -d | tr -d '\\0'; done > found || true
          grep -c -a 'canary-of-[o]ne' found || true
""")
        done = self.attempt("--workers", "2", "-s", "CANARY=canary-of-one")
        self.assert_status(done, 0)
        self.assertIn("\n0\n", self.printed(done))

    def test_the_system_is_there_and_nothing_else(self) -> None:
        canary = self.home / "canary"
        canary.write_text("canary", encoding="utf-8")
        self.write("new.txt", "not of git\n")
        out = self.shown(f"""
- run: |
    if cat '{canary}' '{self.project}/new.txt' /etc/shadow /etc/gshadow; then exit 1; fi
    ls -A "$HOME" / /srv /mnt /media /opt
    touch "$HOME/x" /tmp/x /var/tmp/x && test -w . && command -v git && awk '/Seccomp:|NoNewPrivs:/' /proc/self/status
""")
        self.assertRegex(out, r"NoNewPrivs:\s1\nSeccomp:\s2")
        for name in ("boot", "work", "lost+found"):
            self.assertNotIn(f"\n{name}\n", out)

    def test_refused_system_calls(self) -> None:
        known = seccomp.numbers(os.uname().machine)
        calls = [known[name] for name in ("keyctl", "add_key", "request_key", "bpf", "userfaultfd",
                                          "perf_event_open", "mount", "io_uring_setup")]
        self.shown(f"""
- run: |
    cat > probe.py <<'END'
    import ctypes, errno, socket
    libc = ctypes.CDLL(None, use_errno=True)
    for number in {calls}:
        assert libc.syscall(number, 0, 0, 0, 0, 0) == -1 and ctypes.get_errno() == errno.EPERM, number
    assert libc.ptrace(16, 1, 0, 0) == -1 and ctypes.get_errno() == errno.EPERM
    assert libc.ptrace(0, 0, 0, 0) == 0
    assert libc.ioctl(0, 0x5412, b'x') == -1 and ctypes.get_errno() == errno.EPERM
    try:
        socket.socket(40, socket.SOCK_STREAM)
        raise SystemExit('AF_VSOCK is there')
    except PermissionError:
        socket.socket(socket.AF_INET, socket.SOCK_STREAM)
    END
    /usr/bin/python3 probe.py
""")

    def test_abstract_sockets_are_not_reached(self) -> None:
        name = f"actrun-canary-{os.getpid()}"
        with socket.socket(socket.AF_UNIX) as canary:
            canary.bind("\0" + name)
            canary.listen()
            self.workflow(f"""
- run: |
    /usr/bin/python3 -c "import socket; socket.socket(socket.AF_UNIX).connect(chr(0) + '{name}')" || echo unreached
""")
            done = self.attempt()
            if "reach the abstract sockets" in done.stderr:
                self.skipTest("this kernel cannot take abstract sockets away, and `try` says so")
            self.assertIn("\nunreached\n", done.stdout)
            self.assertIn("\nunreached\n", self.attempt("--offline").stdout)

    def test_a_step_that_ends_its_own_sandbox(self) -> None:
        self.write(".github/workflows/ci.yml", WORKFLOW + """\
      - run: test "$(cat /proc/1/comm)" = bwrap && kill -9 -1  # (inside alone)
      - if: always()
        run: echo after
  two:
    runs-on: ubuntu-latest
    steps:
      - run: sleep 1; echo fine
""")
        done = self.attempt("--workers", "2")
        self.assert_status(done, 1)
        self.assertIn("the sandbox of its leg has ended", done.stdout)
        self.assertIn("\nfine\n", self.printed(done))

    def test_a_step_cannot_choose_what_stands_for_its_shell(self) -> None:
        self.write("evil/bash", "#!/bin/sh\necho evil; cat /proc/*/fd/0; exec /bin/bash \"$@\"\n", 0o755)
        out = self.shown("""
- run: |
    echo "PATH=$PWD/evil:$PATH" >> "$GITHUB_ENV"
    echo "LD_PRELOAD=$GITHUB_OUTPUT" >> "$GITHUB_ENV"
    echo "PYTHONPATH=$PWD/evil" >> "$GITHUB_ENV"
- run: echo second
""", "-s", "TOKEN=canary-of-all")
        self.assertIn("second", out)
        self.assertNotIn("canary-of-all", out)

    @unittest.skipUnless(os.geteuid() == 0, "only root can mount")
    def test_what_is_mounted_later_is_not_seen(self) -> None:
        shown = self.home / "shown"
        (shown / "place").mkdir(parents=True)
        self.workflow(f"""
- run: |
    echo ready > ready
    for at in $(seq 300); do test -e '{shown}/go' && break; sleep 0.1; done
    touch '{shown}/place/canary' && exit 1 || echo unseen
""")
        with subprocess.Popen(self.command("--bind", str(shown), "--keep", str(self.home / "kept")),
                              cwd=self.project, env=self.environment,
                              stdin=subprocess.DEVNULL, stdout=subprocess.PIPE, stderr=subprocess.STDOUT,
                              text=True) as process:
            place, limit = self.home / "kept" / "play" / "tree" / "project" / "ready", time.monotonic() + 60
            while not place.exists() and time.monotonic() < limit:
                time.sleep(0.05)
            mounted = subprocess.run(["mount", "-t", "tmpfs", "tmpfs", str(shown / "place")],
                                     capture_output=True, check=False).returncode == 0
            if mounted:
                self.addCleanup(subprocess.run, ["umount", "-l", str(shown / "place")], check=False)
            (shown / "go").touch()
            text = process.communicate(timeout=120)[0]
        if not mounted:
            self.skipTest("a file system cannot be mounted here")
        self.assertIn("unseen", text)
        self.assertEqual(list((shown / "place").iterdir()), [])

    def test_what_the_front_wrote_cannot_be_changed(self) -> None:
        self.shown("""
- run: |
    if echo x >> "$ACTRUN_PRELUDE" || rm -f "$ACTRUN_PRELUDE" || mv "$(dirname "$GITHUB_OUTPUT")/bin/sudo" x; then exit 1; fi
""")

    def test_signals_are_plain_where_the_caller_ignores_them(self) -> None:
        self.workflow("- run: grep -c 'SigIgn:.*0000000000000000' /proc/self/status")
        self.environment["ACTRUN_TOP"] = ""
        done = subprocess.run(["/bin/sh", "-c", "trap '' INT QUIT PIPE; exec \"$@\"", "sh",
                               *self.command()], cwd=self.project,
                              env=self.environment, stdin=subprocess.DEVNULL, capture_output=True,
                              text=True, check=False, timeout=120)
        self.assert_status(done, 0)

    def test_hostile_files_that_are_handed_on(self) -> None:
        secret = self.home / "canary"
        secret.write_text("NAME=canary-value\n", encoding="utf-8")
        self.workflow(f"""
- run: rm "$GITHUB_OUTPUT"; ln -s '{secret}' "$GITHUB_OUTPUT"
- if: always()
  run: rm "$GITHUB_ENV"; mkfifo "$GITHUB_ENV"
- if: always()
  run: rm "$GITHUB_ENV"; truncate -s 1T "$GITHUB_ENV"
- if: always()
  run: rm "$GITHUB_OUTPUT" "$GITHUB_ENV"
""")
        done = self.attempt()
        self.assert_status(done, 1)
        self.assertNotIn("canary-value", done.stdout + done.stderr)
        self.assertEqual(done.stderr.count("✗"), 4)


class Network(TryCase):
    """What a step reaches by the network."""

    def setUp(self) -> None:
        super().setUp()
        self.server, self.abstract = socket.socket(), socket.socket(socket.AF_UNIX)
        self.addCleanup(self.server.close)
        self.addCleanup(self.abstract.close)
        self.server.bind(("127.0.0.1", 0))
        name = f"\0actrun-canary-{os.getpid()}"
        self.abstract.bind(name)
        for one in (self.server, self.abstract):
            one.listen()
        self.port = self.server.getsockname()[1]
        self.workflow(f"""
- run: |
    python3 - <<'END'
    import socket
    for kind, place in ((socket.AF_INET, ("127.0.0.1", {self.port})), (socket.AF_INET, ("10.0.2.2", {self.port})),
                        (socket.AF_UNIX, {name!r})):
        try:
            with socket.socket(kind) as it:
                it.settimeout(5)
                it.connect(place)
                print("reached", place[0])
        except OSError:
            print("out of reach", place[0])
    END
- run: cat /proc/net/dev /etc/resolv.conf
""")

    @unittest.skipUnless(network_works(), "slirp4netns or /dev/net/tun is not there")
    def test_a_leg_reaches_no_server_of_this_machine(self) -> None:
        done = self.attempt()
        self.assert_status(done, 0)
        self.assertEqual(done.stdout.count("out of reach"), 3, done.stdout)
        self.assertIn("tap0", done.stdout)
        self.assertIn(f"nameserver {network.NAMES_SERVER}", done.stdout)
        self.assertNotIn("share the network", done.stderr)

    def test_the_network_of_this_machine_is_shared_where_that_is_asked_for(self) -> None:
        done = self.attempt("--host-network")
        self.assert_status(done, 0)
        self.assertIn("reached 127.0.0.1", done.stdout)
        self.assertRegex(done.stderr, rf"steps share the network .*127\.0\.0\.1:{self.port}.*: --offline takes it away\n")

    @unittest.skipUnless(network_works() and os.geteuid() == 0, "needs root and slirp4netns")
    def test_mounts_of_this_machine_stay(self) -> None:
        inner = self.room / "shared" / "inner"
        inner.parent.mkdir()
        for words in (["mount", "-t", "tmpfs", "shared", inner.parent], ["mount", "--make-shared", inner.parent], ["mkdir", inner],
                      ["mount", "-t", "tmpfs", "inner", inner]):
            if subprocess.run(words, capture_output=True, check=False).returncode:
                self.skipTest("a file system cannot be mounted here")
            if words[0] == "mount":
                self.addCleanup(subprocess.run, ["umount", "-l", words[-1]], capture_output=True, check=False)
        self.assert_status(self.attempt(), 0)
        self.assertTrue(os.path.ismount(inner))

    def test_a_network_that_cannot_be_made_is_told(self) -> None:
        program = self.write("slirp4netns", "#!/bin/sh\necho no device >&2\nexit 1\n", 0o755)
        told, info = os.pipe()
        os.write(info, b'{"child-pid": %d}' % os.getpid())
        with self.assertRaisesRegex(network.NoNetwork, "slirp4netns fails: no device"):
            network.connect(str(program), told)
        os.close(info)
        with self.assertRaisesRegex(network.NoNetwork, "bwrap does not show its network"):
            network.connect(str(program), told)
        os.close(told)


@NEEDS_PROGRAM
@NEEDS_SANDBOX
class FailsClosed(TryCase):
    """Without a sandbox nothing is executed."""

    def setUp(self) -> None:
        super().setUp()
        self.canary = self.home / "canary"

    def check(self, done: subprocess.CompletedProcess[str]) -> None:
        """Two lines, cause and remedy, and status 3; nothing was executed."""
        self.assert_status(done, 3)
        lines = [line for line in done.stderr.splitlines() if line.startswith("actrun: ")]
        self.assertRegex(lines[0], "^actrun: the sandbox cannot be made: ")
        self.assertIn("apt-get install bubblewrap", lines[1])
        self.assertIn("--no-sandbox", lines[1])
        self.assertFalse(self.canary.exists())

    @NEEDS_PROGRAM
    def test_without_bwrap(self) -> None:
        self.workflow(f"- run: touch '{self.canary}'")
        code = ("import sys; sys.path.insert(0, sys.argv[1]); from actrun_front import sandbox, attempt; "
                "sandbox.PLACES = ('/nowhere/bwrap',); sys.exit(attempt.main([]))")
        front = Path(sandbox.__file__).resolve().parent.parent
        done = subprocess.run([sys.executable, "-c", code, str(front)], cwd=self.project,
                              env=self.environment, capture_output=True, text=True,
                              stdin=subprocess.DEVNULL, check=False, timeout=120)
        self.check(done)

    @NEEDS_PROGRAM
    @NEEDS_SANDBOX
    def test_bwrap_that_fails(self) -> None:
        self.workflow(f"- run: touch '{self.canary}'\n- uses: x/y@v1")
        self.check(self.attempt("--stub", "x/y=/proc/self/exe"))

    @NEEDS_PROGRAM
    @NEEDS_SANDBOX
    def test_bwrap_of_path_is_not_started(self) -> None:
        self.workflow("- run: echo done")
        self.write("bin/bwrap", f"#!/bin/sh\ntouch '{self.canary}'\nexit 1\n", 0o755)
        self.assert_status(self.attempt("--env", "PATH=./bin:/usr/bin:/bin",
                                        PATH=f"{self.project}/bin:/usr/bin:/bin"), 0)
        self.assertFalse(self.canary.exists())

    def test_nothing_of_the_environment_goes_along(self) -> None:
        with mock.patch.dict(os.environ, {"LD_PRELOAD": "/nowhere.so",
                                          "CANARY": "1"}), mock.patch("subprocess.Popen") as popen, \
                mock.patch.object(sandbox, "private_mounts", return_value=()):
            sandbox.start(["/usr/bin/bwrap", "--ro-bind", "/", "/", "--"], ["true"])
        self.assertEqual(popen.call_args[1]["env"], {"PATH": "/usr/bin:/bin", "LC_ALL": "C"})
        self.assertIn("--args", popen.call_args[0][0])

    def test_bwrap_is_the_one_of_the_system(self) -> None:
        with mock.patch("os.access", return_value=False), self.assertRaises(Problem) as caught:
            sandbox.bwrap()
        self.assertEqual(caught.exception.status, 3)
        for place in sandbox.PLACES:
            self.assertTrue(os.path.isabs(place))


class Filter(unittest.TestCase):
    """The filter of system calls."""

    def test_numbers_are_those_of_the_library(self) -> None:
        import ctypes
        try:
            library = ctypes.CDLL("libseccomp.so.2")
        except OSError:
            self.skipTest("libseccomp is not installed")
        for machine, (arch, _) in seccomp.MACHINES.items():
            for name, number in seccomp.numbers(machine).items():
                known = library.seccomp_syscall_resolve_name_arch(arch, name.encode())
                if known >= 0:  # (it does not know all, and i386 has two forms of `socket`)
                    self.assertEqual(number, known, f"{name} of {machine}")

    def test_every_machine_has_a_filter_that_fits(self) -> None:
        for machine in seccomp.MACHINES:
            self.assertLess(len(seccomp.program(machine)) // 8, 4096)
        self.assertEqual(seccomp.program("unknown"), b"")

    def test_servers_of_this_machine_are_named(self) -> None:
        with socket.socket() as server:
            server.bind(("127.0.0.1", 0))
            server.listen()
            place = f"127.0.0.1:{server.getsockname()[1]}"
            self.assertIn(place, network.local_servers())
        self.assertNotIn(place, network.local_servers())
        with mock.patch.object(network, "local_servers", return_value=[]):
            self.assertEqual(network.note(True), "")
            self.assertIn("abstract sockets", network.note(False))
        with mock.patch.object(network, "local_servers", return_value=[f"127.0.0.1:{at}" for at in range(7)]):
            self.assertRegex(network.note(True), r"servers at 127\.0\.0\.1:0, .*:4 and 2 more: --offline")

    def test_python_has_what_it_needs_beside_the_program(self) -> None:
        found = broker.files_of_python()
        self.assertIn(os.path.realpath(sys.executable), found)
        self.assertTrue(any("libc.so" in name or "musl" in name for name in found))


if __name__ == "__main__":
    unittest.main()
