#!/usr/bin/env python3
"""Plans the workflows of real projects with `actrun try -n`, and executes the jobs of them that need this machine alone.

usage: python3 tools/real_workflows.py [--cache DIR] [--plan] [--seconds N] [PACKAGE..]

The files come from Debian's source packages and stay outside the repository: the list below has the package, its licence, and the
jobs that need no package manager, no network and no other system. Their archives are fetched once by `apt-get source
--download-only` with lists and settings of their own in the cache folder (default ~/.cache/actrun-real), so that nothing of the
system is changed; each unpacked tree becomes a git repository. For each file one line is printed: whether it is planned or why
not, then for each of its jobs that is executed how it ended and after how many seconds. The status is 0 if at least 95 % of the
files are planned and every job ends as the list says.

`--plan` executes nothing, `--seconds` is the limit of one `try` (default 900). Packages that are named choose among those of the list.
"""

from __future__ import annotations

import argparse
import glob
import importlib
import os
import pathlib
import re
import subprocess
import sys
import time
from dataclasses import dataclass, field

TOP = pathlib.Path(__file__).resolve().parent.parent
COMMAND = [str(TOP / "actrun"), "try"]
SYSTEM_PYTHON = "/usr/bin/python3"
LEAST_PLANNED = 0.95
# the first of these that a workflow has is the event that it is tried with
EVENTS = ("push", "pull_request", "pull_request_target", "workflow_dispatch", "workflow_call", "schedule", "release", "issues")
APT = """\
Dir::State::lists "{0}/lists";
Dir::Etc::sourcelist "{0}/sources.list";
Dir::Etc::sourceparts "/dev/null";
Dir::Cache "{0}";
APT::Sandbox::User "root";
"""
KNOWN = ("apt-get", "indextargets", "--format", "deb-src $(REPO_URI) $(RELEASE) $(COMPONENT)", "Created-By: Packages")


@dataclass(frozen=True)
class Source:
    """A source package, the jobs of its workflows that are executed (file -> job -> exit status of `try`), and its repository."""

    package: str
    licence: str
    jobs: dict[str, dict[str, int]] = field(default_factory=dict)
    repository: str = ""  # the name where it is not that of the package


LIST = [
    Source("benchmark", "Apache-2.0"),
    Source("cmark", "BSD-2-Clause"),
    Source("doctest", "MIT"),
    Source("expat", "MIT"),
    Source("fzf", "MIT"),
    Source("git", "GPL-2.0", {"check-whitespace.yml": {"check-whitespace": 0}}),
    Source("golang-github-spf13-cobra", "Apache-2.0"),
    Source("googletest", "BSD-3-Clause"),
    Source("htop", "GPL-2.0-or-later"),
    Source("jansson", "MIT", {"tests.yml": {"cmake": 0}}),
    Source("libgit2", "GPL-2.0 with linking exception"),
    Source("libuv1", "MIT", {"CI-sample.yml": {"build": 0}}, "libuv"),
    Source("libzstd", "BSD-3-Clause or GPL-2.0", {"dev-short-tests.yml": {
        "linux-kernel": 0, "build-c89": 0, "implicit-fall-through": 0}}),
    Source("lz4", "BSD-2-Clause and GPL-2.0", {"ci.yml": {
        "lz4-standard-makefile-variables": 0, "lz4-memory-usage": 0, "unicode-lint": 0, "lz4-build-make": 0,
        "lz4-build-make-travis-install": 0, "lz4-build-cmake": 0, "lz4-build-make-cmake": 0, "lz4-check-tag": 0}}),
    Source("nghttp2", "MIT"),
    Source("ninja-build", "Apache-2.0"),
    Source("nlohmann-json3", "MIT"),
    Source("pugixml", "MIT"),
    Source("rich", "MIT"),
    Source("simdjson", "Apache-2.0", {"fix-trailing-whitespace.yml": {"whitespace": 0}}),
    Source("tinyxml2", "Zlib"),
    Source("xxhash", "BSD-2-Clause", {"ci.yml": {"ubuntu-consistency": 0, "ubuntu-cmake-unofficial": 0}}),
]


def sources() -> str:
    """Where the sources of this Debian's release are, by the machine's own lists of packages, as a list of apt."""
    text = pathlib.Path("/etc/os-release").read_text(encoding="utf-8")
    suite = re.search(r"^VERSION_CODENAME=(\w+)", text, re.MULTILINE)[1]
    found = subprocess.run([*KNOWN, f"Release: {suite}"], check=True, stdout=subprocess.PIPE, text=True).stdout
    if not found:
        sys.exit(f"real_workflows.py: this machine has no list of packages of {suite}: apt-get update fetches it")
    return found


def fetch(cache: pathlib.Path, packages: list[str]) -> None:
    """Downloads the archives of the packages that are not in the cache."""
    apt = cache / "apt"
    missing = [package for package in packages if not archive(cache, package)]
    if not missing:
        return
    for folder in ("lists/partial", "archives/partial", "sources"):
        (apt / folder).mkdir(parents=True, exist_ok=True)
    (apt / "sources.list").write_text(sources(), encoding="utf-8")
    (apt / "apt.conf").write_text(APT.format(apt), encoding="utf-8")
    environment = {**os.environ, "APT_CONFIG": str(apt / "apt.conf")}
    subprocess.run(["apt-get", "update", "-qq"], env=environment, check=True)
    for package in missing:
        subprocess.run(["apt-get", "source", "--download-only", "-qq", package], env=environment, cwd=apt / "sources", check=False)


def archive(cache: pathlib.Path, package: str) -> str | None:
    """The archive of a package's source in the cache."""
    found = sorted(name for name in glob.glob(str(cache / "apt" / "sources" / f"{package}_*.orig.tar.*")) if not name.endswith(".asc"))
    return found[-1] if found else None


def unpack(cache: pathlib.Path, source: Source) -> pathlib.Path | None:
    """The package's tree as a git repository with one commit; None if its archive could not be fetched."""
    tree, packed = cache / "trees" / (source.repository or source.package), archive(cache, source.package)
    if (tree / ".git").is_dir() or packed is None:
        return tree if packed else None
    tree.mkdir(parents=True, exist_ok=True)
    subprocess.run(["tar", "xf", packed, "-C", tree, "--strip-components=1"], check=True)
    for words in (["init", "-q", "-b", "main"], ["add", "-A", "-f"],
                  ["-c", "user.name=nobody", "-c", "user.email=nobody@localhost", "commit", "-q", "-m", "the source"]):
        subprocess.run(["git", *words], cwd=tree, check=True, stdout=subprocess.DEVNULL, stderr=subprocess.DEVNULL)
    return tree


def event_of(file: pathlib.Path) -> str:
    """The event that a workflow is tried with."""
    from actrun_front.contexts import triggers
    from actrun_front.yaml_reader import read_document
    names = list(triggers(read_document(file.read_bytes()).value))
    return next((name for name in EVENTS if name in names), names[0] if names else "push")


def attempt(tree: pathlib.Path, words: list[str], seconds: int) -> tuple[int | str, str, float]:
    """How `actrun try` with these words ends in a tree: its status or `timeout`, what it shows, and the seconds it takes."""
    start = time.monotonic()
    try:
        done = subprocess.run([*COMMAND, *words], cwd=tree, stdin=subprocess.DEVNULL, stdout=subprocess.PIPE,
                              stderr=subprocess.STDOUT, timeout=seconds, check=False)
        return done.returncode, done.stdout.decode(errors="replace"), time.monotonic() - start
    except subprocess.TimeoutExpired:
        return "timeout", f"no end within {seconds} s", time.monotonic() - start


def reason(shown: str) -> str:
    """Why `try` did not succeed: its error, the steps that failed, or else its last line."""
    lines = [line.strip() for line in shown.splitlines() if line.strip()]
    errors = [f"{line} {after}" for line, after in zip(lines, lines[1:] + [""]) if line.startswith("actrun: ")]
    steps = list(dict.fromkeys(line for line in lines if re.match(r"step \d+ \(.*\) failed at line", line)))
    return " / ".join(errors[-1:] or steps[:3] or lines[-1:])


def one_file(tree: pathlib.Path, file: pathlib.Path, source: Source, options: argparse.Namespace) -> tuple[bool, bool]:
    """Plans a file and executes its jobs, with a line for each; whether it is planned, and whether all jobs ended as expected."""
    name, event = str(file.relative_to(tree)), event_of(file)
    status, shown, _ = attempt(tree, [event, "-n", "-W", name], options.seconds)
    jobs = {} if options.plan else source.jobs.get(file.name, {})
    how = "planned" if status == 0 else f"not planned: {reason(shown)}"
    print(f"{source.package} {file.name} ({event}): {how}" + ("" if jobs or options.plan else ", executes nothing"), flush=True)
    right = True
    for job, expected in jobs.items():
        status_of_job, shown, seconds = attempt(tree, [event, "-W", name, "-j", job], options.seconds)
        right = right and status_of_job == expected
        end = "succeeded" if status_of_job == 0 else f"status {status_of_job}: {reason(shown)}"
        print(f"{source.package} {file.name} job {job}: {end}, {seconds:.1f} s"
              + ("" if status_of_job == expected else f" (status {expected} was expected)"), flush=True)
    return status == 0, right


def main() -> int:
    """Fetches, plans, executes, and prints the counts."""
    parser = argparse.ArgumentParser(description=__doc__, formatter_class=argparse.RawDescriptionHelpFormatter)
    parser.add_argument("--cache", type=pathlib.Path, default=pathlib.Path.home() / ".cache" / "actrun-real")
    parser.add_argument("--plan", action="store_true", help="execute nothing")
    parser.add_argument("--seconds", type=int, default=900, help="limit of one try")
    parser.add_argument("packages", nargs="*", metavar="PACKAGE")
    options = parser.parse_args()
    chosen = [source for source in LIST if not options.packages or source.package in options.packages]
    fetch(options.cache, [source.package for source in chosen])
    subprocess.run([str(TOP / "actrun"), "eval", "1"], stdout=subprocess.DEVNULL, check=True)  # builds the program where it must
    planned, right = [], []
    for source in chosen:
        tree = unpack(options.cache, source)
        if tree is None:
            print(f"{source.package}: its source could not be fetched")
            continue
        for file in sorted(tree.glob(".github/workflows/*.y*ml")):
            one = one_file(tree, file, source, options)
            planned.append(one[0])
            right.append(one[1])
    print(f"{sum(planned)} of {len(planned)} files are planned; files whose jobs did not end as expected: {right.count(False)}")
    return 0 if planned and sum(planned) >= LEAST_PLANNED * len(planned) and all(right) else 1


if __name__ == "__main__":
    try:
        importlib.import_module("ruamel.yaml")
    except ImportError:
        if os.path.realpath(sys.executable) == os.path.realpath(SYSTEM_PYTHON):
            raise
        os.execv(SYSTEM_PYTHON, [SYSTEM_PYTHON, *sys.argv])
    sys.path.insert(0, str(TOP / "front"))
    sys.exit(main())
