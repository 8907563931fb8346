"""Jobs in containers and with services, by podman where it works. Images are built from packages of this machine, without a registry."""
from __future__ import annotations

import io
import json
import os
import re
import shutil
import signal
import subprocess
import sys
import tempfile
import time
import unittest
from pathlib import Path
from typing import ClassVar

from actrun_front import containers, lower, lower_containers, machine, relay
from actrun_front.containers import Engine, EngineError
from actrun_front.root import LEG
from actrun_front.tree import Room
from actrun_front.yaml_reader import Refused, read_document

from .action_case import Remote
from .try_case import NEEDS_PROGRAM, TryCase, sandbox_works

# what machines without systemd, or with cgroups of both kinds, need
CONFIGURATION = """\
[containers]
default_ulimits = ["nofile=1024:1024", "nproc=1024:1024"]
[engine]
runtime = "runc"
cgroup_manager = "cgroupfs"
events_logger = "file"
"""
IMAGE, LARGER = f"localhost/actrun-probe-{os.getpid()}", f"localhost/actrun-probe-larger-{os.getpid()}"
PATIENCE = 120


def make_root(folder: Path, programs: list[str]) -> None:
    """Makes the root of an image: busybox, and programs with their libraries."""
    for name in ("bin", "usr/bin", "tmp", "etc", "root", "proc", "sys", "dev"):
        (folder / name).mkdir(parents=True)
    busybox = str(shutil.which("busybox"))
    shutil.copy(busybox, folder / "bin/busybox")
    for name in subprocess.run([busybox, "--list"], capture_output=True, text=True,
                               check=True).stdout.split():
        if name not in ("busybox", *programs):
            (folder / "bin" / name).symlink_to("busybox")
    (folder / "etc/passwd").write_text("root:x:0:0:root:/root:/bin/sh\n", encoding="utf-8")
    for name in programs:
        path = str(shutil.which(name))
        shutil.copy(path, folder / "bin" / name)
        for library in re.findall(r"/\S+", subprocess.run(["ldd", path], capture_output=True, text=True,
                                                          check=True).stdout):
            place = folder / library[1:]
            place.parent.mkdir(parents=True, exist_ok=True)
            shutil.copy(library, place)


@NEEDS_PROGRAM
@unittest.skipUnless(sandbox_works(), "bwrap is not installed or does not work here")
class InContainers(TryCase):
    """Jobs with containers."""

    folder: ClassVar[Path]

    @classmethod
    def setUpClass(cls) -> None:
        super().setUpClass()
        missing = [name for name in ("podman", "runc", "busybox", "redis-server", "redis-cli")
                   if shutil.which(name) is None]
        if missing:
            raise unittest.SkipTest(f"{', '.join(missing)} not installed")
        cls.folder = Path(tempfile.mkdtemp(prefix="actrun-containers-"))
        cls.addClassCleanup(shutil.rmtree, cls.folder, ignore_errors=True)
        (cls.folder / "containers.conf").write_text(CONFIGURATION, encoding="utf-8")
        os.environ["CONTAINERS_CONF"] = str(cls.folder / "containers.conf")
        cls.addClassCleanup(os.environ.pop, "CONTAINERS_CONF")
        if os.geteuid():  # (`try` has another home folder, where images would be)
            cls.addClassCleanup(subprocess.run, ["podman", "unshare", "rm", "-rf", "--", cls.folder], check=False, capture_output=True)
            os.environ["XDG_DATA_HOME"] = str(cls.folder / "data")
            cls.addClassCleanup(os.environ.pop, "XDG_DATA_HOME")
        for image, programs in ((IMAGE, []), (LARGER, ["bash", "redis-server", "redis-cli"])):
            root = cls.folder / image.rpartition("/")[2]
            make_root(root, programs)
            cls.addClassCleanup(cls.podman, "rmi", "--force", image)
            done = subprocess.run(f"tar -C '{root}' -c . | podman import -q - {image} && podman run --rm {image} true", shell=True,
                                  stdin=subprocess.DEVNULL, capture_output=True, text=True, check=False,
                                  timeout=PATIENCE)
            if done.returncode != 0:
                raise unittest.SkipTest(f"podman does not work here: {done.stderr.strip()[-200:]}")

    def setUp(self) -> None:
        super().setUp()
        self.environment.update((name, os.environ[name]) for name in (
            "CONTAINERS_CONF", "XDG_DATA_HOME", "XDG_RUNTIME_DIR") if name in os.environ)

    @staticmethod
    def podman(*words: str) -> str:
        """What podman prints."""
        return subprocess.run(["podman", *words], stdin=subprocess.DEVNULL, capture_output=True, text=True,
                              check=False, timeout=PATIENCE).stdout

    def left(self) -> str:
        """The containers and networks of executions of this test that are there."""
        label = f"label={containers.EXECUTION}"
        owned = self.podman("ps", "--all", "--filter", label, "--format", "{{.Labels}}") + \
            self.podman("network", "ls", "--filter", label, "--format", "{{.Labels}}")
        own = [folder.name
               for folder in (self.home / ".cache/actrun/work").iterdir()]  # (other tests may be at work)
        return "\n".join(line for line in owned.splitlines() if any(name in line for name in own))

    def test_a_step_in_a_container_waits_at_a_break(self):
        self.job(f"    container: {LARGER}\n", "- name: a\n  run: cat missing.txt")
        done = subprocess.run(self.command("--break", "a"), cwd=self.project, env=self.environment, check=False,
                              input=b"print PWD\nrun\nshell\nskip\n", capture_output=True, timeout=PATIENCE)
        shown = done.stderr.decode()
        self.assertEqual(done.returncode, 0, shown)
        self.assertRegex(shown, r"(?s)print PWD\n/__w/project/project\n.*the step failed, exit 1\n"
                                r".*podman exec --interactive --tty \w+ sh\n")

    def test_a_container_goes_on_from_a_step(self) -> None:
        steps = "- run: 'true'\n- run: echo one >made; mkdir empty; echo A=1 >>$GITHUB_ENV; ln -s /etc/passwd link\n"
        last = "- run: cat made; ls -d empty; test -L link; echo A=$A; cat wanted"
        for own in (False, True):
            more = "  other: {runs-on: x, steps: [{run: echo other}]}\n" if own else ""
            head = f"on: push\njobs:\n{more}  one:\n    runs-on: ubuntu-latest\n    container: {IMAGE}\n    steps:\n"
            self.workflow(steps + last, head)
            self.assert_status(self.attempt(), 1)
            self.workflow(steps + last.replace("cat wanted", "echo fixed"), head)
            done = self.attempt("--from", "one/2")
            self.assert_status(done, 0)
            self.assertIn("one\nempty\nA=1\nfixed\n", self.printed(done))
            self.assertEqual(self.left(), "")

    def job(self, head: str, steps: str) -> None:
        """A workflow with one job."""
        self.workflow(steps, f"on: push\njobs:\n  one:\n    runs-on: ubuntu-latest\n{head}    steps:\n")

    def test_a_job_in_a_container_with_a_service(self) -> None:
        self.write("file.txt", "of the tree\n")
        self.job(f"""\
    container:
      image: {LARGER}
      env: {{FROM: "container of ${{{{ github.event_name }}}}"}}
      volumes: ["kept:/kept"]
      options: --hostname box
    services:
      cache:
        image: {LARGER}
        options: >-
          --entrypoint redis-server --health-cmd "redis-cli ping" --health-interval 1s
""", """
- uses: actions/checkout@v4
- id: first
  run: |
    echo "bash ${BASH_VERSION%%.*}, $FROM, $(hostname), $(cat file.txt), $PWD, $HOME, $RUNNER_TEMP"
    redis-cli -h cache CONFIG GET port | tail -n 1; redis-cli -h cache ping | cut -c1-6
    test ! -e /etc/debian_version; test -s "$GITHUB_EVENT_PATH"; touch /kept/x "$RUNNER_TEMP/x"
    echo "a=value of an output" >> "$GITHUB_OUTPUT"; echo "B=value of a variable" >> "$GITHUB_ENV"; echo /added >> "$GITHUB_PATH"
    echo made > made.txt
- run: echo "${{ steps.first.outputs.a }}, $B, ${PATH%%:*}, $(ls -A /kept "$RUNNER_TEMP" | tr '\\n' ' ')"; ls "${{ github.workspace }}"
- run: exit 5
  shell: sh
  continue-on-error: true
""")
        done = self.attempt("-s", "TOKEN=secret")
        self.assert_status(done, 0)
        for text in ("container of push, box, of the tree, /__w/project/project, /github/home, /__w/_temp\n",
                     "\nvalue of an output, value of a variable, /added, /__w/_temp:", "exit 5"):
            self.assertIn(text, done.stdout + done.stderr)
        self.assertIn("\nfile.txt\nmade.txt\n", done.stdout)
        self.assertEqual(self.left(), "")

    def test_services_of_a_job_on_this_machine(self) -> None:
        self.job(f"""\
    strategy: {{matrix: {{word: [one, two]}}}}
    services:
      cache:
        image: {LARGER}
        ports: [6379]
        env: {{WORD: "${{{{ matrix.word }}}}"}}
        options: --entrypoint redis-server --health-cmd "redis-cli ping"
""".replace("[one, two]", "[one]"), """
- run: |
    redis-cli -p ${{ job.services.cache.ports['6379'] }} ping | cut -c1-6
    redis-cli -p ${{ job.services.cache.ports[6379] }} ping | cut -c1-6
    test -z "${ACTRUN_MACHINE-}"
""")
        done = self.attempt()
        self.assert_status(done, 0)
        self.assertEqual(len(re.findall("\n(DENIED|PONG)", done.stdout)), 2)
        self.assertEqual(self.left(), "")

    def test_what_steps_in_a_container_print(self) -> None:
        """One stream in order, of characters alone, below the limit; a disabled command fails the step."""
        self.job(f"    container: {LARGER}\n", """
- run: |
    for n in 1 2 3; do echo out $n; echo err $n >&2; done; echo again | tee /dev/stderr
    printf 'before \\377 after\\n'
- run: word=set-env; echo "::$word name=A::b"
  shell: sh
  continue-on-error: true
- run: yes | head -c 3000000
""")
        done = self.attempt("--log-limit", "1M")
        self.assert_status(done, 0)
        self.assertIn("\nout 1\nerr 1\nout 2\nerr 2\nout 3\nerr 3\nagain\nagain\nbefore \ufffd after\n", done.stdout)
        self.assertIn("error: Unable to process command '::set-env' successfully.", done.stdout)
        self.assertIn("y\n(the log is cut here: the step printed more than 1 MiB", done.stdout)
        self.assertEqual(done.stderr.count("exit 1"), 1)

    def test_a_server_beside_services_prints_on(self) -> None:
        self.job(f"    services: {{cache: {{image: {LARGER}, options: --entrypoint redis-server}}}}\n", """
- run: (while :; do echo background; echo >> ticks; sleep 0.05; done) &
- run: |
    for i in $(seq 600); do if [ "$(wc -l < ticks)" -ge 5 ]; then exit 0; fi; sleep 0.1; done
    exit 1
""")
        self.assert_status(self.attempt(), 0)

    def test_an_image_with_sh_alone(self) -> None:
        self.job(f"    container: {IMAGE}\n", """
- run: echo "here is $0" | sed 's|/.*/||'
- run: 'true'
  shell: bash
""")
        done = self.attempt()
        self.assert_status(done, 1)
        self.assertIn("\nhere is step-0-0.sh\n", done.stdout)
        self.assertIn("bash: not found", done.stdout)
        self.assertIn("exit 127", done.stderr)

    def test_a_service_that_is_not_healthy_fails_the_job_with_its_log(self) -> None:
        self.job(f"""\
    services:
      broken:
        image: {IMAGE}
        options: --entrypoint "nosuch-program" --health-cmd "false"
""", "- run: echo reached")
        done = self.attempt()
        self.assert_status(done, 1)
        self.assertIn("service broken cannot be started", done.stdout)
        self.assertNotIn("\nreached", done.stdout)
        self.assertEqual(self.left(), "")

    def test_what_reaches_the_machine_is_refused(self) -> None:
        canary = self.home / "canary"
        canary.write_text("canary", encoding="utf-8")
        for options in ("--privileged", f"-v {self.home}:/home", f"--volume={self.home}:/home", "--pid host",
                        "--network host", "--device /dev/vda",
                        "--security-opt seccomp=unconfined", "--cap-add ALL", "-e HOME",
                        "--label actrun.owner=1", "--hostname x --privileged",
                        "--mount type=bind,source=/,target=/host", "--userns host", "--volumes-from x",
                        "--env-file /etc/passwd"):
            with self.assertRaises(EngineError, msg=options):
                containers.options_of(options, "the container")
        self.job(f"    container: {{image: {IMAGE}, volumes: ['{self.home}:/seen', '/var/run/docker.sock:/sock']}}\n", """
- run: test ! -e /seen/canary && test -d /sock && echo nothing seen
- run: |
    rm -rf ../../_temp; ln -s /etc "$GITHUB_OUTPUT.link"; rm -f "$GITHUB_OUTPUT"; ln -s /etc/passwd "$GITHUB_OUTPUT"
  continue-on-error: true
- run: if echo x >> "$ACTRUN_PRELUDE"; then exit 1; fi
""")
        done = self.attempt()
        self.assertIn("\nnothing seen\n", done.stdout)
        self.assertNotIn("root:", done.stdout)
        for image in ("docker-archive:/etc/passwd", "dir:/etc", "--privileged", "a b"):
            with self.assertRaises(EngineError, msg=image):
                Engine("podman", "/bin/true").bring(image, False, {}, self.home)

    def test_what_steps_replace_leads_the_engine_nowhere(self) -> None:
        other = self.home / "other"
        other.mkdir()
        (other / "canary").write_text("canary-text", encoding="utf-8")
        (other / "Dockerfile").write_text(f"FROM {IMAGE}\nCOPY . /stolen\n", encoding="utf-8")
        show = "ls /seen /github/workspace /github/workspace/ /stolen; cat /*/canary /github/workspace/canary; echo x > /github/workspace/new"
        self.write("other/action.yml", "name: x\nruns: {using: docker, image: Dockerfile, entrypoint: /bin/sh, args: [-c, '" + show + "']}\n")
        link = f"cd ..; mv project real; ln -s {self.home} project"
        self.write(".github/workflows/ci.yml", f"""\
on: push
jobs:
  tree:
    runs-on: ubuntu-latest
    steps:
      - run: {link.replace(str(self.home), str(other))}
      - uses: docker://{IMAGE}
        with: {{entrypoint: /bin/sh, args: '-c "{show}"'}}
        continue-on-error: true
  context:
    runs-on: ubuntu-latest
    steps:
      - run: {link}
      - uses: ./other
        continue-on-error: true
  volumes:
    runs-on: ubuntu-latest
    container: {{image: {IMAGE}, volumes: ["a:/seen"]}}
    services:
      first:
        image: {IMAGE}
        volumes: [".:/volumes"]
        options: --entrypoint '["/bin/sh", "-c", "ln -s {other} /volumes/a; sleep 9"]'
    steps:
      - run: {show}
        continue-on-error: true
  pipe:
    runs-on: ubuntu-latest
    steps:
      - run: rm "$GITHUB_PATH"; mkfifo "$GITHUB_PATH"
      - uses: docker://{IMAGE}
        with: {{entrypoint: /bin/true}}
""")
        done = self.attempt()
        self.assert_status(done, 0)
        self.assertNotIn("canary-text", done.stdout)
        self.assertEqual(sorted(os.listdir(other)), ["Dockerfile", "canary"])
        self.assertEqual(self.left(), "")

    def test_ctrl_c_ends_the_step_in_the_container(self) -> None:
        self.job(f"    container: {LARGER}\n",
                 "- run: |\n    trap 'echo trapped; exit 9' TERM\n    echo up > up\n    while :; do sleep 0.2; done")
        process = subprocess.Popen(self.command(), cwd=self.project, env=self.environment,
                                   stdin=subprocess.DEVNULL, stdout=subprocess.PIPE,
                                   stderr=subprocess.PIPE, start_new_session=True)
        self.addCleanup(process.kill)
        self.await_file(process)
        process.send_signal(signal.SIGTERM)
        output = process.communicate(timeout=PATIENCE)[0].decode()
        self.assertEqual(process.returncode, 128 + signal.SIGTERM, output)
        self.assertEqual(self.left(), "")

    def test_what_a_killed_execution_left_is_removed_by_the_next(self) -> None:
        self.job(f"    container: {LARGER}\n", "- run: |\n    echo up > up\n    while :; do sleep 0.2; done")
        process = subprocess.Popen(self.command(), cwd=self.project, env=self.environment,
                                   stdin=subprocess.DEVNULL, stdout=subprocess.DEVNULL,
                                   stderr=subprocess.DEVNULL, start_new_session=True)
        self.await_file(process)
        process.kill()
        process.wait()
        self.job(f"    container: {IMAGE}\n", "- run: 'true'")
        self.assert_status(self.attempt(), 0)
        self.assertEqual(self.left(), "")

    def await_file(self, process: subprocess.Popen[bytes]) -> None:
        """Waits until the step has written the file `up` into its tree."""
        end = time.monotonic() + PATIENCE
        while time.monotonic() < end and process.poll() is None:
            if list((self.home / ".cache/actrun/work").glob("*/play/tree/project/up")):
                return
            time.sleep(0.05)
        self.fail("the step does not begin")

    def test_docker_actions(self) -> None:
        self.write("act/action.yml", """\
name: greets
inputs: {who: {default: "wor ld"}, two words: {required: true}}
outputs: {said: {description: what was said}}
runs: {using: docker, image: Dockerfile, args: ["${{ inputs.who }}", second], env: {WORD: of the action}}
""")
        self.write("act/Dockerfile", f"FROM {IMAGE}\nCOPY entry.sh /entry.sh\nENTRYPOINT [\"/entry.sh\"]\n")
        self.write("act/entry.sh", """\
#!/bin/sh
echo "greets $1 and $2, $WORD, $INPUT_WHO, $PWD, $HOME, $(echo "$INPUT_TWO_WORDS" | wc -l)"
echo "said=$1" >> "$GITHUB_OUTPUT"; echo "V=value" >> "$GITHUB_ENV"; echo made > made; echo the summary >> "$GITHUB_STEP_SUMMARY"
""", 0o755)
        self.job("", f"""
- uses: actions/checkout@v4
- uses: ./act
  id: act
  with: {{two words: "x\\ny"}}
- run: echo "then ${{{{ steps.act.outputs.said }}}}, $V, $(cat made)"
- uses: docker://{IMAGE}
  with: {{entrypoint: /bin/sh, args: '-c "echo job $GITHUB_JOB; exit 4"'}}
  continue-on-error: true
- run: rm -f act/Dockerfile && ln -s /etc/passwd act/Dockerfile
- uses: ./act
""")
        done = self.attempt()
        self.assert_status(done, 1)
        for text in ("\ngreets wor ld and second, of the action, wor ld, /github/workspace, /github/home, 2\n", "\nthen wor ld, value, made\n",
                     "\njob one\n", "the summary", "the action ./act has no file Dockerfile in the tree"):
            self.assertIn(text, done.stdout)
        self.assertIn("exit 4", done.stderr)
        self.assertNotIn("root:", done.stdout)
        self.assertEqual(self.left(), "")

    def test_docker_actions_of_a_leg_that_was_stopped(self) -> None:
        self.write("act/action.yml", f"name: x\ninputs: {{who: {{}}}}\nruns: {{using: docker, image: 'docker://{IMAGE}', "
                                     "entrypoint: /bin/echo, args: [hello, '${{ inputs.who }}']}\n")
        self.job("    timeout-minutes: 0.05\n", """
- uses: actions/checkout@v4
- run: sleep 1000
- {uses: ./act, if: failure(), with: {who: nobody}}
- {uses: ./act, if: always(), with: {who: all}}
""")
        done = self.attempt()
        self.assert_status(done, 1)
        self.assertIn("\nhello all\n", done.stdout)
        self.assertNotIn("hello nobody", done.stdout)
        self.assertEqual(self.left(), "")

    def test_phases_of_docker_actions(self) -> None:
        remote = Remote(self.room)
        entry = "#!/bin/sh\necho \"$0 $1 $STATE_word\"; echo \"word=of $0\" >> $GITHUB_STATE\n"
        action = {"action.yml": "runs: {using: docker, image: Dockerfile, args: [arg], pre-entrypoint: /pre.sh, "
                                "entrypoint: /main.sh, post-entrypoint: /post.sh, post-if: success()}",
                  "Dockerfile": f"FROM {IMAGE}\nCOPY *.sh /\nRUN chmod +x /*.sh\n",
                  **dict.fromkeys(("pre.sh", "main.sh", "post.sh"), entry)}
        remote.publish("octo/phases", action, "v1")
        for name, text in action.items():
            self.write(f"act/{name}", text)
        self.job("", "- uses: actions/checkout@v4\n- uses: octo/phases@v1\n- uses: ./act\n- run: rm -r act; echo between")
        done = self.attempt("--actions-url", remote.url)
        self.assert_status(done, 0)
        self.assertEqual(re.findall(r"(?m)^(/.*\.sh .*|between)", done.stdout), [
            "/pre.sh arg ", "/main.sh arg of /pre.sh", "/main.sh arg ", "between", "/post.sh arg of /main.sh",
            "/post.sh arg of /main.sh"])
        self.assertEqual(self.left(), "")

    def test_legs_with_the_same_port_of_this_machine(self) -> None:
        port = lower_containers.free_ports(1)[0]
        self.job(f"""\
    strategy: {{matrix: {{word: [one, two]}}}}
    services:
      fixed:
        image: {LARGER}
        ports: ['{port}:6379', 6379]
        options: --entrypoint redis-server
""", """
- run: |
    echo "port ${{ job.services.fixed.ports['6379'] }}, ${{ job.services.fixed.id }}, ${{ job.services.fixed.network }}"
    redis-cli -p """ + port + """ config set save "" >/dev/null; echo began; sleep 1; echo ended
""")
        self.git("init", "-q")
        done = self.attempt("--workers", "2", "-v")
        self.assert_status(done, 0)
        self.assertIn(f"legs share the ports of this machine, so they execute one after the other where these name the same: {port}:6379",
                      done.stderr)
        found = re.findall(r"(?m)^port (\d+), (actrun-\w+-[01])\.fixed, (\S+)\nbegan\nended$", self.printed(done))
        self.assertEqual(len(set(found)), 2, done.stdout)
        self.assertTrue(all(id_ == network for _, id_, network in found))
        self.assertEqual(self.left(), "")

    def test_docker_actions_of_another_repository(self) -> None:
        remote = Remote(self.room)
        remote.publish("octo/greets", {
            "sub/action.yml": """\
inputs: {who: {default: world}}
outputs: {said: {description: what was said}}
runs: {using: docker, image: Dockerfile, args: ["${{ inputs.who }}"]}
""",
            "sub/Dockerfile": f"FROM {IMAGE}\nCOPY entry.sh /entry.sh\nENTRYPOINT [\"/bin/sh\", \"/entry.sh\"]\n",
            "sub/entry.sh": "echo \"greets $1 by $GITHUB_ACTION_REPOSITORY $GITHUB_ACTION_REF\"; echo \"said=$1\" >>$GITHUB_OUTPUT\n",
            "above/action.yml": "runs: {using: composite, steps: [{uses: octo/greets/sub@v1, with: {who: inner}}]}",
            "out/action.yml": "runs: {using: docker, image: ../sub/Dockerfile}",
            "links/action.yml": "runs: {using: docker, image: Dockerfile}",
            "reads/action.yml": "runs: {using: docker, image: Dockerfile, args: ['${{ secrets.WORD }}']}"}, "v1")
        self.job("", """
- uses: octo/greets/sub@v1
  id: act
- run: echo "then ${{ steps.act.outputs.said }}"
- uses: octo/greets/above@v1
- {uses: octo/greets/out@v1, continue-on-error: true}
- run: cd "$(dirname "$GITHUB_OUTPUT")/actions/octo/greets/v1" && rm -r links && ln -s /etc links
- {uses: octo/greets/links@v1, continue-on-error: true}
""")
        looked = self.attempt("-n", "--actions-url", remote.url)
        self.assertIn("octo/greets/sub@v1 [fetched from", looked.stdout)
        done = self.attempt("--actions-url", remote.url)
        self.assert_status(done, 0)
        for text in ("\ngreets world by octo/greets v1\n", "\nthen world\n", "\ngreets inner by octo/greets v1\n",
                     "the action octo/greets/v1/out has no file ../sub/Dockerfile",
                     "the action octo/greets/v1/links cannot be read"):
            self.assertIn(text, done.stdout)
        self.assertEqual(self.left(), "")
        looked = self.attempt("-n", "-v", "--actions-url", remote.url)
        self.assertRegex(looked.stderr, r"the Docker action octo/greets/sub@v1 \(commit [0-9a-f]{12}, kept\) is executed by the engine")
        self.job("", "- uses: octo/greets/reads@v1")
        done = self.attempt("--actions-url", remote.url, "--secret", "WORD=word")
        self.assert_status(done, 2)
        self.assertIn("the action octo/greets/reads@v1 reads `secrets`, which no action can", done.stderr)

    def test_without_network(self) -> None:
        self.job("    container: {image: nosuch.example/image:1}\n", "- run: 'true'")
        done = self.attempt("--offline")
        self.assert_status(done, 1)
        self.assertIn("the image nosuch.example/image:1 is not there, and --offline took the network away",
                      done.stdout)


@NEEDS_PROGRAM
@unittest.skipUnless(sandbox_works(), "bwrap is not installed or does not work here")
class WithoutEngine(TryCase):
    """Jobs with containers if there is no engine."""

    def test_it_is_refused_unless_lenient(self) -> None:
        self.workflow("- run: echo executed",
                      "on: push\njobs:\n  one:\n    runs-on: ubuntu-latest\n    container: debian:12\n    steps:\n")
        done = self.attempt("--engine", "none")
        self.assert_status(done, 2)
        self.assertIn(".github/workflows/ci.yml:5: container of job one needs podman or docker (--engine none)", done.stderr)
        self.assertNotIn("executed", done.stdout)
        done = self.attempt("--engine", "none", "--lenient")
        self.assert_status(done, 0)
        self.assertIn("\nexecuted\n", done.stdout)
        self.assertIn("is dropped", done.stderr)
        self.assert_status(self.attempt("-n", "--engine", "none"), 0)
        done = self.attempt("--no-sandbox")
        self.assert_status(done, 2)
        self.assertIn("--no-sandbox", done.stderr)


class Parts(unittest.TestCase):
    """The parts, without an engine."""

    def lowered(self, text: str, notes: list[str] | None = None) -> dict:
        """A job after its lowering."""
        document = read_document(f"on: push\njobs:\n  one:\n    runs-on: x\n{text}    steps:\n    - run: echo ${{{{ job.services.db.ports['5432'] }}}}\n".encode())
        setting = lower.Setting(Path("/"), {"github": {}}, containers="keep", evaluate=lambda *_: None,
                                legs=lambda _: [{}])
        done = lower.lower(document, "ci.yml", setting)
        if notes is not None:
            notes += [note.text for note in done.notes]
        return done.value["jobs"]["one"]

    def test_a_job_becomes_one_variable(self) -> None:
        job = self.lowered("    container: {image: 'debian:${{ matrix.v }}', ports: [80]}\n    services: {db: {image: postgres, ports: ['15432:5432']}}\n")
        text = job["env"][lower_containers.VARIABLE]
        self.assertEqual(text.count("${{ toJSON("), 2)
        value = json.loads(re.sub(r"\$\{\{.*?\}\}\)? \}\}|\$\{\{.*?\}\}", '"x"', text))
        self.assertEqual(value, {"name": "x", "services": {"db": {"image": "postgres", "ports": ["15432:5432"]}},
                                 "container": {"image": "x", "ports": ["80"]}})
        self.assertNotIn("container", job)

    def test_ports_are_known_before(self) -> None:
        job = self.lowered("    services: {db: {image: postgres, ports: ['15432:5432']}}\n")
        self.assertIn("15432", job["steps"][0]["run"])
        self.assertNotIn("job.services", job["steps"][0]["run"])

    def test_ports_that_are_not_written(self) -> None:
        self.assertRegex(lower_containers.chosen(80, 1), r"^\d+:80$")
        self.assertEqual(lower_containers.chosen("1:80", 3), "1:80")
        text = lower_containers.chosen("80/udp", 3)
        self.assertRegex(text, r"""^\$\{\{ fromJSON\('\[("\d+"(, )?){3}\]'\)\[strategy\.job-index\] \}\}:80/udp$""")
        self.assertEqual(lower_containers.inner_and_outer(text)[0], "80")

    def test_ids_and_networks_are_names(self) -> None:
        job = self.lowered("    container: debian\n    services: {db: {image: postgres}}\n    env:\n      A: ${{ job.container.network }}\n"
                           "      B: ${{ job.services.db.id }}\n      C: ${{ job.services.no.id }}\n")
        name = r"\$\{\{ \(?format\('actrun-[0-9a-f]{12}-\{0\}%s', strategy\.job-index\)\)? \}\}"
        for variable, end in (("A", ""), ("B", r"\.db")):
            self.assertRegex(job["env"][variable], name % end)
        self.assertEqual(job["env"]["C"], "${{ job.services.no.id }}")

    def test_wrong_descriptions_are_refused(self) -> None:
        for text in ("container: {env: {A: b}}", "container: [debian]",
                     "services: {db: {image: x, command: y}}", "services: {'a b': {image: x}}"):
            with self.assertRaises(Refused, msg=text):
                self.lowered(f"    {text}\n")

    def test_options_ports_times_and_names(self) -> None:
        self.assertEqual(containers.options_of("--health-cmd \"pg_isready -q\" --name x -it -e A=b --init",
                                               "x"),
                         ["--health-cmd=pg_isready -q", "-e", "A=b", "--init"])
        self.assertEqual(containers.ports_of(["80", "8080:80/udp"], "x"),
                         [("", "80", "tcp"), ("8080", "80", "udp")])
        self.assertEqual(containers.seconds("1m30s"), 90)
        self.assertTrue(containers.is_alive(containers.owner()))
        self.assertFalse(containers.is_alive("1.2.3") or containers.is_alive("x"))
        for wrong in ("x", "1:2:3", "80/icmp"):
            with self.assertRaises(EngineError):
                containers.ports_of([wrong], "x")

    def test_values_are_texts(self) -> None:
        self.assertEqual(relay.in_texts({"a": [1, True, None, "x"], "b": {"c": 1.5}}),
                         {"a": ["1", "true", "", "x"], "b": {"c": "1.5"}})

    def test_a_folder_is_copied_without_links(self) -> None:
        with tempfile.TemporaryDirectory() as folder:
            tree = Path(folder, "tree")
            (tree / "act/inner").mkdir(parents=True)
            (tree / "act/inner/file").write_text("x", encoding="utf-8")
            (tree / "act/link").symlink_to("/etc/passwd")
            (tree / "other").symlink_to("/etc")
            os.mkfifo(tree / "act/pipe")
            relay.copy_plain(tree, "./act", Path(folder, "copy"))
            self.assertEqual(sorted(str(path.relative_to(folder))
                                    for path in Path(folder, "copy").rglob("*")),
                                    ["copy/inner", "copy/inner/file"])
            for name in ("./other", "./nothing", "../tree", "./act/../../x"):
                with self.assertRaises(EngineError, msg=name):
                    relay.copy_plain(tree, name, Path(folder, "no"))
            with self.assertRaises(EngineError):
                relay.copy_plain(tree, "./ssh", Path(folder, "no"), "other")

    def test_the_parts_of_an_action(self) -> None:
        relay.check_action({"image": "Dockerfile", "folder": "./a", "args": ["x"], "env": {"A": "b"}, "entrypoint": "/x"})
        for wrong in ([], {}, {"image": ["a"]}, {"image": ""}, {"image": "a", "args": "b"}, {"image": "a", "args": [["b"]]},
                      {"image": "a", "env": ["x"]}, {"image": "a", "env": {"A": ["b"]}}, {"image": "a", "entrypoint": {}}):
            with self.assertRaises(EngineError, msg=wrong):
                relay.check_action(wrong)

    def test_a_build_asks_for_nothing_of_the_machine(self) -> None:
        relay.check_build(b"FROM x\nRUN --mount=type=cache,target=/a run --network=host\nCMD --device x\n", "./act")
        for text in (b"RUN --network=host x", b"from x\nrun --mount=type=tmpfs,target=/a --Security=insecure x",
                     b"RUN --net\\\nwork=host x", b"ONBUILD RUN \\ \r\n --network=none x", b"# escape=`\nRUN --dev`\nice=x y",
                     b"# a \\\nRUN --net\\\n# b\n\nwork=host x"):
            with self.assertRaises(EngineError, msg=text):
                relay.check_build(text, "./act")

    def test_no_step_sees_the_folders_of_its_containers_but_by_their_mounts(self) -> None:
        with tempfile.TemporaryDirectory() as folder:
            room = Room(Path(folder), "tree", io.StringIO())
            legs = machine.Machine(room, "/p", Path(folder, "packages"))
            legs.folder.mkdir()
            place = relay.Place(0, legs.fresh(0), room.play, room.tree, room.play / "temp")
            legs.places[0] = place
            words = legs.words(["bwrap", "--remount-ro", "/", "--"], 0)
            self.assertEqual(words[-3:], ["--remount-ro", "/", "--"])
            shown = Path(words[words.index(LEG) - 1])
            self.assertNotIn(shown, (place.folder, *place.folder.parents))

    def test_the_entry_of_a_step(self) -> None:
        with tempfile.TemporaryDirectory() as folder:
            place = Path(folder, "environment")
            place.write_text("export WORD='it'\\''s'\n", encoding="utf-8")
            done = subprocess.run(["sh", "-c", relay.ENTRY, "sh", str(place), "sh", "-c", 'echo "$WORD"'],
                                  capture_output=True, text=True, check=False)
            self.assertEqual(done.stdout, "it's\n")
            self.assertFalse(place.exists())


if __name__ == "__main__":
    unittest.main(argv=sys.argv)
