#!/usr/bin/env python3
"""How long stemlist takes: the program alone, the launcher, both cores by GNU parallel, the clashes of a glossary, and the time from a word
to its line at a pipe and at a terminal. Prints a table in Markdown of medians. Nothing else should run meanwhile.

usage: measure.py VOCABULARY [ANOTHER_LAUNCHER]    the second, as of an older edition, is timed beside the repository's"""

import os
import pty
import statistics
import subprocess
import sys
import tempfile
import termios
import time
from pathlib import Path

ROOT = Path(__file__).resolve().parent.parent
PROGRAM = ROOT / "target/bin/stemlist"
BYTES = 300_000_000
ROUNDS = 5
TERMS = 100_000
LINES = 4_000
SKIPPED = 200


def run(command, folder):
    """The seconds that a shell command takes; the files that it leaves are removed."""
    before = set(os.listdir(folder))
    start = time.perf_counter()
    subprocess.run(["bash", "-o", "pipefail", "-c", command], cwd=folder, check=True)
    taken = time.perf_counter() - start
    for name in set(os.listdir(folder)) - before:
        os.remove(os.path.join(folder, name))
    return taken


def medians(commands, folder):
    """The median seconds of each, the rounds taken in turn."""
    times = {name: [] for name in commands}
    for _ in range(ROUNDS):
        for name, command in commands.items():
            times[name].append(run(command, folder))
    return {name: statistics.median(taken) for name, taken in times.items()}


def round_trips(command, stdin, send):
    """The median microseconds from a word's line feed to its line."""
    process = subprocess.Popen([command], stdin=stdin, stdout=subprocess.PIPE, stderr=subprocess.DEVNULL)
    write = send(process)
    times = []
    for _ in range(LINES):
        start = time.perf_counter()
        write(b"evlerdir\n")
        os.read(process.stdout.fileno(), 4096)
        times.append(time.perf_counter() - start)
    process.kill()
    process.wait()
    return 1e6 * statistics.median(times[SKIPPED:])


def at_a_pipe(command):
    return round_trips(command, subprocess.PIPE, lambda process: lambda word: os.write(process.stdin.fileno(), word))


def at_a_terminal(command):
    ours, theirs = pty.openpty()
    mode = termios.tcgetattr(theirs)
    mode[3] &= ~termios.ECHO
    termios.tcsetattr(theirs, termios.TCSANOW, mode)
    return round_trips(command, theirs, lambda process: lambda word: os.write(ours, word))


def main():
    vocabulary = Path(sys.argv[1]).read_bytes()
    launchers = {"./stemlist": ROOT / "stemlist"}
    if len(sys.argv) > 2:
        launchers["the other launcher"] = Path(sys.argv[2]).resolve()
    with tempfile.TemporaryDirectory() as folder:
        list_ = Path(folder) / "words.txt"
        list_.write_bytes(vocabulary * (BYTES // len(vocabulary) + 1))
        terms = vocabulary.split(b"\n")[:-1]
        terms = (terms + [term + b"dir" for term in terms])[:TERMS]
        (Path(folder) / "terms.txt").write_bytes(b"\n".join(terms) + b"\n")
        size = list_.stat().st_size / 1e6
        commands = {"program alone": f"'{PROGRAM}' < words.txt > list.txt"}
        commands |= {name: f"'{path}' < words.txt > list.txt" for name, path in launchers.items()}
        commands["`./stemlist --fold`"] = f"'{ROOT}/stemlist' --fold < words.txt > list.txt"
        parallel = f"parallel --jobs 2 --keep-order --block 10M"
        commands["parallel --pipe, one list"] = f"{parallel} --pipe '{ROOT}/stemlist' < words.txt > list.txt"
        commands["parallel --pipepart, a list a part"] = f"{parallel} --pipepart -a words.txt '{ROOT}/stemlist > list.{{#}}'"
        taken = medians(commands, folder)
        print(f"{size:.0f} million bytes of words, median of {ROUNDS} runs in turn.\n")
        print("| command | seconds | times the program alone |\n|---|--:|--:|")
        for name, seconds in taken.items():
            print(f"| {name} | {seconds:.2f} | {taken['program alone'] / seconds:.2f} |")
        clashes = medians({"pass": f"'{ROOT}/stemlist' --clashes terms.txt > groups.txt", "whole": f"'{ROOT}/stemlist' --clashes --whole terms.txt > groups.txt"}, folder)
        print(f"\n{len(terms)} terms: --clashes {clashes['pass']:.2f} s, --clashes --whole {clashes['whole']:.2f} s")
    print("\n| a word and its line, microseconds | pipe | terminal |\n|---|--:|--:|")
    for name, path in {"program alone": PROGRAM, **launchers}.items():
        print(f"| {name} | {at_a_pipe(path):.1f} | {at_a_terminal(path):.1f} |")


main()
