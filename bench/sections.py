#!/usr/bin/env python3
"""Nanoseconds a whole section on the shared table, side by side with a plain Rust program of the same atomic steps.

Usage: bench/sections.py [PROGRAM]     (default: crates/speed/out/speed, made by `rt run` in crates/speed)

It wants rustc. A section is one request's: the entry, the load of the lock, the publication (21 loads, what differs is stored, a guard word, one exchange),
the run (22 steps), the end of the guard and of the entry, all by one worker on one thread. Each table serves eight sections, or one: so the difference is
that of seven sections, and what a process and a table need to begin and to end isn't counted. Of each the least processor time of several runs,
by both programs in turn, is taken; both must print the same.
"""
import os
import pathlib
import subprocess
import sys
import tempfile

TOP = pathlib.Path(__file__).resolve().parent.parent
RUNS = 15
TABLES = 200_000
ONE, ALL = 1, 8


def measure(program: tuple[str, ...], each: int) -> tuple[float, bytes]:
    """The processor time of one process of a program, which stands with its first words, and what it prints."""
    with subprocess.Popen([*program, str(each), str(TABLES)], stdout=subprocess.PIPE) as child:
        text = child.stdout.read()
        _, status, usage = os.wait4(child.pid, 0)
        child.returncode = os.waitstatus_to_exitcode(status)
    if child.returncode != 0:
        sys.exit(f"{program[0]}: status {child.returncode}")
    return usage.ru_utime + usage.ru_stime, text


def main() -> None:
    ours = (sys.argv[1] if len(sys.argv) > 1 else str(TOP / "crates/speed/out/speed"), "sections")
    with tempfile.TemporaryDirectory() as folder:
        plain = (str(pathlib.Path(folder) / "sections"),)
        subprocess.run(["rustc", "--edition", "2021", "-O", TOP / "bench/sections.rs", "-o", *plain], check=True)
        best = {(program, each): float("inf") for program in (ours, plain) for each in (ONE, ALL)}
        told = {ONE: set(), ALL: set()}
        for _ in range(RUNS):
            for program, each in best:
                time, text = measure(program, each)
                best[program, each] = min(best[program, each], time)
                told[each].add(text)
    if any(len(texts) > 1 for texts in told.values()):
        sys.exit("the programs print different lines")
    proved, other = (1e9 * (best[program, ALL] - best[program, ONE]) / (TABLES * (ALL - ONE)) for program in (ours, plain))
    print(f"section: {proved:.0f} ns, plain {other:.0f} ns, ratio {proved / other:.2f}")


if __name__ == "__main__":
    main()
