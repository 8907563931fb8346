#!/usr/bin/env python3
"""Executes the examples of documents, and prints those whose output differs from the document.

  tools/examples.py [--write] DOCUMENT..      from the top of the repository; README.md docs/GUIDE.md if none is named

An example is a line `$ COMMAND` in a block, with its output below it, both streams in one; a command continues in the next
line (after `> `) if the shell needs more. All commands of one document run in one shell, from the top of the
repository. --write puts the output into the document: look at the difference before you keep it. A block whose fence
has the word `shown` is not executed. A line `...` fits any lines, and `...` in a line fits any text.
The status is 1 if one differs.
"""
import os
import re
import subprocess
import sys

END = "@@example-ended@@"
ANY_LINES = r"(?:.*\n)*?"


def is_whole(command):
    """Whether the shell takes a command as whole."""
    ran = subprocess.run(["bash", "-n"], input=command, capture_output=True, text=True, check=False)
    return not ran.stderr and not command.endswith("\\\n")


def fits(found, wanted):
    """Whether what a command prints is what a document has."""
    def line(text):
        return ANY_LINES if text == "..." else ".*".join(map(re.escape, text.split("..."))) + "\\n"
    lines = map(line, wanted)
    return re.fullmatch("".join(lines), "".join(it + "\n" for it in found)) is not None


def blocks(lines):
    """Yields the first line of each block, that after its last, and its indent."""
    at, fence, began = 0, None, 0
    while at < len(lines):
        line = lines[at]
        if fence is None and line.startswith("```"):
            fence, began = line.strip(), at + 1
        elif fence is not None and line.startswith("```"):
            if "shown" not in fence:
                yield began, at, ""
            fence = None
        elif fence is None and line.startswith("    $ "):
            began = at
            while at < len(lines) and (lines[at].startswith("    ") or not lines[at].strip()):
                at += 1
            while not lines[at - 1].strip():
                at -= 1
            yield began, at, "    "
            continue
        at += 1


class Shell:
    """One shell for all commands of a document."""

    def __init__(self):
        self.process = subprocess.Popen(["bash"], stdin=subprocess.PIPE, stdout=subprocess.PIPE, stderr=subprocess.STDOUT, text=True)

    def run(self, command):
        """What a command prints."""
        self.process.stdin.write(f"{{ {command}}} </dev/null\necho; echo {END}\n")
        self.process.stdin.flush()
        told = []
        for line in self.process.stdout:
            if line == END + "\n":
                break
            told.append(line)
        text = "".join(told)
        return text[:-1] if text.endswith("\n") else text


def play(name, writes):
    """Plays a document, and returns how many examples it has and how many differ."""
    with open(name, encoding="utf-8") as it:
        lines = it.read().split("\n")
    shell, made, last, count, differ = Shell(), [], 0, 0, 0
    for began, ended, indent in blocks(lines):
        made += lines[last:began]
        last, at = ended, began
        while at < ended:
            line = lines[at][len(indent):]
            if not line.startswith("$ "):
                made.append(lines[at])
                at += 1
                continue
            first, command = at, line[2:] + "\n"
            at += 1
            while at < ended and not is_whole(command):
                more = lines[at][len(indent):]
                command += (more[2:] if more.startswith("> ") else more) + "\n"
                at += 1
            made += lines[first:at]
            wanted = []
            while at < ended and not lines[at][len(indent):].startswith("$ "):
                wanted.append(lines[at][len(indent):])
                at += 1
            found = shell.run(command).split("\n")
            found = found[:-1] if found[-1] == "" else found
            count += 1
            if fits(found, wanted):
                found = wanted
            else:
                differ += 1
                if not writes:
                    print(f"{name}:{first + 1}: {command.rstrip()}", *[f"- {it}" for it in wanted], *[f"+ {it}" for it in found], sep="\n")
            made += [indent + it if it else it for it in found]
    made += lines[last:]
    if writes:
        with open(name, "w", encoding="utf-8") as it:
            it.write("\n".join(made))
    return count, differ


def main():
    words = sys.argv[1:]
    writes = "--write" in words
    os.chdir(os.path.join(os.path.dirname(os.path.abspath(__file__)), ".."))
    all_differ = 0
    for name in [it for it in words if it != "--write"] or ["README.md", "docs/GUIDE.md"]:
        count, differ = play(name, writes)
        print(f"{name}: {count} examples, {differ} {'written again' if writes else 'differ'}")
        all_differ += differ
    return 1 if all_differ and not writes else 0


sys.exit(main())
