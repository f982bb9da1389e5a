#!/usr/bin/env python3
"""Does what README.md shows, as README.md has it, in its order: command lines are run, the C program is saved and compiled, and what
is shown to be printed must be printed. A command may use nothing below target/ that no earlier line of README.md has made.

tools/build.sh and .ci/run are not run: what they make must be there.
"""
import pathlib
import re
import subprocess
import sys

WORDS = ("tools/build.sh ", "cc ", "python3 ", "target/", ".ci/run")
# What proves takes minutes, and .ci/run does it before it runs this.
LONG = ("tools/build.sh ", ".ci/run")


def need(holds, what):
    if not holds:
        sys.exit(f"examples: README.md: {what}")


def blocks(lines):
    """The indented blocks and the fenced ones, each with its fence's name (None if indented) and its lines."""
    fence, block = None, []
    for line in lines + [""]:
        if fence is None and line.startswith("```"):
            fence, block = line[3:], []
        elif fence is not None and line == "```":
            yield fence, block
            fence, block = None, []
        elif fence is not None:
            block.append(line)
        elif line.startswith("    "):
            block.append(line[4:])
        elif block:
            yield None, block
            block = []


class Page:
    def __init__(self):
        self.made, self.printed, self.counts = set(), [], {"commands": 0, "outputs": 0, "programs": 0}

    def run(self, command):
        """What a command line prints; it must be accepted, and all that it uses be made before."""
        made = re.findall(r"-o (target/\S+)", command)
        for name in set(re.findall(r"target/[\w./]+", command)) - set(made):
            need(name in self.made, f"nothing has made {name} yet: {command}")
            need(pathlib.Path(name).exists(), f"there is no {name}: {command}")
        self.made.update(made)
        if command.startswith("tools/build.sh "):
            self.made.update("target/staticlib/libpump.a" if name == "pump" else "target/bin/" + name for name in command.split()[1:])
        if command.startswith(LONG):
            return ""
        done = subprocess.run(["bash", "-c", command], capture_output=True, text=True)
        need(done.returncode == 0, f"{command}\n{done.stdout}{done.stderr}")
        self.counts["commands"] += 1
        return done.stdout

    def commands(self, lines):
        for line in lines:
            command = re.sub(r"(^|\s+)#.*", "", line)
            if command:
                self.printed.append(self.run(command))

    def example(self, lines):
        """A line with a prompt, and all that it prints."""
        printed = self.run(lines[0][2:])
        want = "\n".join(lines[1:]) + "\n"
        need(printed == want, f"{lines[0]}\nprints\n{printed}and not\n{want}")
        self.counts["outputs"] += 1

    def shown(self, lines):
        """A part of what an earlier command printed."""
        part = "\n" + "\n".join(lines) + "\n"
        need(any(part in "\n" + printed for printed in self.printed), f"nothing printed\n{part}")
        self.counts["outputs"] += 1

    def program(self, lines):
        pathlib.Path("target/short.c").write_text("\n".join(lines) + "\n")
        self.made.add("target/short.c")
        self.counts["programs"] += 1


def main():
    text = pathlib.Path("README.md").read_text()
    page = Page()
    for fence, block in blocks(text.splitlines()):
        if fence == "c":
            page.program(block)
        elif fence is None and block[0].startswith("$ "):
            page.example(block)
        elif fence is None and block[0].startswith(WORDS):
            page.commands(block)
        elif fence is None:
            page.shown(block)
    counts = page.counts
    # One program and its two lines, those of c/first.c and of c/engineer.py, each program of target/bin: nothing is passed over.
    need(counts["programs"] == 1, "the C program is missing")
    for name in ("target/first", "target/short", "target/libpump.so", "target/bin/table", "target/bin/calls"):
        need(name in page.made, f"nothing makes {name}")
    need(counts["outputs"] >= 5 and text.count("| target/bin/calls") >= 3, "an example is missing")
    need(text.count("\n    $ ") == text.count("$ "), "an example is not indented by four blanks")
    print(f"examples: README.md: {counts['commands']} commands run, and {counts['outputs']} texts printed as it shows them")


main()
