#!/usr/bin/env python3
"""What the prover says of each wrong program, in full: rt ci tells only the first refusal of each.

usage: python3 tools/edit_logs.py LOGS REFUSALS [CRATE..]        at the top of the repository, after rt ci

For each must-fail edit of each crate (or of those named) the crate is checked with that edit in it, in copies of the repository, and
what was said is written to LOGS/CRATE/LABEL.log. Then REFUSALS, the built program refusals of reference/, says of which functions that
doesn't tell all; for each of them the crate is checked with no more of the edit than the pairs that change it: LABEL+FUNCTION.log.
LOGS is outside the repository. An edit that cannot be applied is an error.
"""

import os
import queue
import shutil
import subprocess
import sys
import tempfile
from concurrent.futures import ThreadPoolExecutor

# What a check may take of the memory.
NEED = 4_000_000_000


def pairs_of(edit):
    """The pairs of an edit, each with the file that it changes."""
    found, path, old = [], None, None
    with open(edit, encoding="utf-8") as lines:
        for line in lines.read().split("\n"):
            if line.startswith("file: "):
                path = line[len("file: ") :].strip()
            elif line.startswith("old: "):
                old = line[len("old: ") :]
            elif line.startswith("new:"):
                found.append((path, old, line[len("new:") :].removeprefix(" ")))
    return found


def apply(edit, numbers, folder):
    """Applies these pairs of the edit, numbered from 1 on, or all of them, to the files of the folder."""
    for number, (path, old, new) in enumerate(pairs_of(edit), 1):
        if numbers and number not in numbers:
            continue
        file = os.path.join(folder, path)
        with open(file, encoding="utf-8") as it:
            text = it.read()
        if text.count(old) != 1:
            raise SystemExit(f"edit_logs: {edit}: {old!r} stands {text.count(old)} times in {path}, not once")
        with open(file, "w", encoding="utf-8") as it:
            it.write(text.replace(old, new))


def copied(folder, to):
    """A copy of a folder; what was proved and built, by links: a check replaces such a file and writes into none."""

    def copy(one, other):
        try:
            if one.endswith(".oantt") or "/out/rlib/" in one:
                return os.link(one, other)
        except OSError:
            pass
        return shutil.copy2(one, other)

    shutil.copytree(folder, to, symlinks=True, copy_function=copy)


def check(folder, *flags):
    how = {"stdin": subprocess.DEVNULL, "stdout": subprocess.PIPE, "stderr": subprocess.STDOUT, "text": True, "errors": "replace"}
    return subprocess.run(["rt", "check", *flags], cwd=folder, **how)


def labels_of(crate):
    edits = f"crates/{crate}/must-fail"
    return sorted(it.removesuffix(".edit") for it in os.listdir(edits) if it.endswith(".edit")) if os.path.isdir(edits) else []


def checks_at_once():
    with open("/proc/meminfo", encoding="ascii") as it:
        free = next(int(line.split()[1]) << 10 for line in it if line.startswith("MemAvailable:"))
    return max(1, min(len(os.sched_getaffinity(0)), free // NEED))


def copy_of(room, base):
    """A copy of the repository as far as a check reads it, in a new folder of the room."""
    to = tempfile.mkdtemp(dir=room)
    shutil.copy2(f"{base}/crates.txt", to)
    copied(f"{base}/crates", f"{to}/crates")
    return to


def write_logs(wanted, logs, base, copies):
    """Writes a log for each wanted (crate, label, name of the log, numbers of the pairs or none for all), some at a time."""

    def one(crate, label, name, numbers):
        at = copies.get()
        there = f"{at}/crates/{crate}"
        try:
            apply(f"{there}/must-fail/{label}.edit", numbers, there)
            said = check(there, "--jobs", "1").stdout
        finally:
            shutil.rmtree(there)
            copied(f"{base}/crates/{crate}", there)
            copies.put(at)
        if "did not build, so nothing above it was checked" in said:
            raise SystemExit(f"edit_logs: {crate}/{name}: a crate below is not built:\n{said[-2000:]}")
        os.makedirs(f"{logs}/{crate}", exist_ok=True)
        with open(f"{logs}/{crate}/{name}.log", "w", encoding="utf-8") as log:
            log.write(said)
        return f"{crate}/{name}"

    with ThreadPoolExecutor(copies.qsize()) as pool:
        runs = [pool.submit(one, *it) for it in wanted]
        try:
            for number, run in enumerate(runs, 1):
                print(f"edit_logs: {number} of {len(runs)} logs, {run.result()}", flush=True)
        except BaseException:
            for run in runs:
                run.cancel()
            raise


def main(logs, refusals, names):
    logs, refusals = os.path.abspath(logs), os.path.abspath(refusals)
    edits = [(crate, label) for crate in names or sorted(os.listdir("crates")) for label in labels_of(crate)]
    with tempfile.TemporaryDirectory(prefix="edits-") as room:
        base = copy_of(room, ".")
        for crate in dict.fromkeys(crate for crate, _ in edits):
            ran = check(f"{base}/crates/{crate}")
            if ran.returncode:
                raise SystemExit(f"edit_logs: {crate} is not proved as it stands:\n{ran.stdout[-2000:]}")
            print(f"edit_logs: {crate} is proved as it stands", flush=True)
        copies = queue.SimpleQueue()
        for _ in range(checks_at_once()):
            copies.put(copy_of(room, base))
        write_logs([(*it, it[1], []) for it in edits], logs, base, copies)
        asked = subprocess.run([refusals, "--wanted", ".", logs], stdout=subprocess.PIPE, text=True, check=True).stdout
        lines = [line.split() for line in asked.splitlines()]
        wanted = [(crate, label, f"{label}+{function}", [*map(int, numbers)]) for crate, label, function, *numbers in lines]
        write_logs([it for it in wanted if not names or it[0] in names], logs, base, copies)


if len(sys.argv) < 3 or sys.argv[1].startswith("-"):
    raise SystemExit(__doc__)
main(sys.argv[1], sys.argv[2], sys.argv[3:])
