#!/usr/bin/env python3
"""Try the examples: type what each transcript says, and compare what is printed.

    tools/try_examples.py PROGRAM [--only NAME]

PROGRAM is what takes the words of the command line, as `./esm` once it is built. Each folder of `examples/` with a
`transcript.txt` is one example, and `examples/transcript.txt` is another, `readme`: the commands of the README. A transcript's lines are
typed in a folder that has `esm`, `examples` and `tools`, as the repository has them:

    # TEXT         says what comes
    & COMMAND      is typed in another terminal, and goes on; its --port stands, here and later, for a free one
    $ COMMAND      is typed, and the lines behind it are what it prints
    status N       behind these lines: it ends with this status, and not with 0

The moment of a failure line, its `timestamp`, is that of the run, and any moment is right there. What `readme` types and prints
stands in the README too. `examples/consumer_test` is a test by itself, and is run as well. Each example is told in a line, and
the numbers of those that passed and failed in the last. Python's standard library is all that is needed. The exit status is 0
where no example failed.
"""

import argparse
import os
import re
import shlex
import subprocess
import sys
import tempfile
from pathlib import Path

sys.dont_write_bytecode = True

from trial import connected, free_port

TOP = Path(__file__).resolve().parent.parent
PORT = re.compile(r"--port (\d+)")
MOMENT = re.compile(r'"timestamp":"\d{4}-\d\d-\d\dT\d\d:\d\d:\d\d\.\d{3}Z"')


def read_transcript(path):
    """The commands of a transcript: of each its sign, its text, the lines it prints and its status."""
    steps = []
    for line in filter(None, path.read_text().splitlines()):
        if line[:2] in ("& ", "$ "):
            steps.append([line[0], line[2:], [], 0])
        elif line.startswith("status "):
            steps[-1][3] = int(line[7:])
        elif not line.startswith("#"):
            steps[-1][2].append(line)
    return steps


def make_folder(folder, program):
    """A folder in which commands are typed: `esm`, and what else the repository has."""
    words = " ".join(map(shlex.quote, program))
    (folder / "esm").write_text(f'#!/bin/sh\nexec {words} "$@"\n')
    (folder / "esm").chmod(0o755)
    for name in ("examples", "tools"):
        (folder / name).symlink_to(TOP / name)


def begin(command, folder, port):
    """Begins what is typed in another terminal, and waits until it has its port."""
    begun = subprocess.Popen(["sh", "-c", f"exec {command}"], cwd=folder, stderr=subprocess.DEVNULL)
    connected(port).close()
    return begun


def compare(command, lines, status, ended):
    """What a command printed or answered otherwise than its transcript says."""
    pairs = [("lines", lines, ended.stdout.splitlines()), ("status", status, ended.returncode)]
    return [f"{command}: {what}: wanted {wanted}, got {got}" for what, wanted, got in pairs
            if MOMENT.sub("", str(wanted)) != MOMENT.sub("", str(got))]


def play(path, program):
    """What came out otherwise than the transcript says."""
    ports, servers, wrong = {}, [], []
    with tempfile.TemporaryDirectory(prefix="esm-examples-") as folder:
        make_folder(Path(folder), program)
        try:
            for sign, command, lines, status in read_transcript(path):
                if sign == "&":
                    port = PORT.search(command)[1]
                    ports[port] = free_port()
                typed = re.sub(r"\b\d{4}\b", lambda found: str(ports.get(found[0], found[0])), command)
                if sign == "&":
                    servers.append(begin(typed, folder, ports[port]))
                    continue
                ended = subprocess.run(["sh", "-c", typed], cwd=folder, capture_output=True, text=True, timeout=300)
                wrong += compare(command, lines, status, ended)
        finally:
            for server in servers:
                server.kill()
                server.wait()
    return wrong


def readme(program):
    """What of the README's commands came out otherwise, and what of their transcript does not stand there."""
    page, path = (TOP / "README.md").read_text(), TOP / "examples/transcript.txt"
    told = [line for _, command, lines, _ in read_transcript(path) for line in [command, *lines]]
    return [f"not in README.md: {line}" for line in told if MOMENT.sub("", line) not in MOMENT.sub("", page)] + play(path, program)


def consumer_test(program):
    """What the test of a consumer finds wrong, with this program in place of the repository's."""
    with tempfile.TemporaryDirectory(prefix="esm-examples-") as name:
        make_folder(Path(name), program)
        words = [sys.executable, "-B", "-m", "unittest", "discover", "-s", TOP / "examples/consumer_test"]
        ended = subprocess.run(words, env={**os.environ, "ESM": f"{name}/esm"}, capture_output=True, text=True, timeout=600)
    return [ended.stderr] if ended.returncode else []


def main():
    parser = argparse.ArgumentParser(description=__doc__.split("\n")[0])
    parser.add_argument("program", type=shlex.split)
    parser.add_argument("--only", action="append", default=[])
    words = parser.parse_args()
    program = [os.path.abspath(words.program[0]), *words.program[1:]]
    examples = {path.parent.name: lambda path=path: play(path, program) for path in sorted(TOP.glob("examples/*/transcript.txt"))}
    examples.update(readme=lambda: readme(program), consumer_test=lambda: consumer_test(program))
    if unknown := {*words.only} - {*examples}:
        parser.error(f"no example {', '.join(sorted(unknown))}")
    came = []
    for name in words.only or examples:
        try:
            wrong = examples[name]()
        except Exception as error:  # what throws or does not end in time has failed, and the next one is tried
            wrong = [f"{type(error).__name__}: {error}"[:400]]
        came.append(bool(wrong))
        print("WRONG" if wrong else "ok   ", name, flush=True)
        for line in wrong:
            print("  ", line)
    print(f"{came.count(False)} passed, {came.count(True)} failed")
    return 1 if True in came else 0


if __name__ == "__main__":
    sys.exit(main())
