#!/usr/bin/env python3
"""Nanoseconds a step on the shared table, by kind, side by side with a plain Rust loop of the same atomic operations.

Usage: bench/steps.py [PROGRAM]     (default: crates/speed/out/speed, made by `rt run` in crates/speed)

It wants rustc. The plain program is built three times. As rustc builds it, which writes eight rounds of a short loop behind one
another; with no loop unrolled, as the proved program is built; and, unrolled or not as rustc likes, as a table for any sizes: in the
first two each word stands at a place known when they are built, and in the third a step reads where the words are and where the group
of its word begins, as on the shared table.

Each kind is run at two numbers of rounds, several times by all programs in turn, which must print the same. Of each the least
processor time is taken, and the difference of the two is told: what a process needs to begin and to end isn't counted.
"""
import os
import pathlib
import re
import subprocess
import sys
import tempfile

TOP = pathlib.Path(__file__).resolve().parent.parent
RUNS = 9
FEW = 1_000_000
MORE_STEPS = 100_000_000


def steps_by_kind(program: str) -> list[tuple[str, int]]:
    """The kinds that the program names where no kind is given, with how many steps a round has."""
    told = subprocess.run([program], check=True, capture_output=True, text=True).stdout
    return [(kind, int(steps)) for kind, steps in re.findall(r"^(\w+): \d+ rounds of (\d+) steps", told, re.MULTILINE)]


def measure(program: tuple[str, ...], kind: str, rounds: int) -> tuple[float, bytes]:
    """The processor time of one process of a program, which stands with its first words, and what it prints."""
    with subprocess.Popen([*program, kind, str(rounds)], stdout=subprocess.PIPE) as child:
        text = child.stdout.read()
        _, status, usage = os.wait4(child.pid, 0)
        child.returncode = os.waitstatus_to_exitcode(status)
    if child.returncode != 0:
        sys.exit(f"{program[0]}: status {child.returncode}")
    return usage.ru_utime + usage.ru_stime, text


def compare(programs: list[tuple[str, ...]], kind: str, steps: int) -> list[float]:
    """Nanoseconds a step, by program."""
    many = FEW + MORE_STEPS // steps
    best = {(program, rounds): float("inf") for program in programs for rounds in (FEW, many)}
    told = {FEW: set(), many: set()}
    for _ in range(RUNS):
        for program, rounds in best:
            time, text = measure(program, kind, rounds)
            best[program, rounds] = min(best[program, rounds], time)
            told[rounds].add(text)
    if any(len(texts) > 1 for texts in told.values()):
        sys.exit(f"{kind}: the programs print different lines")
    return [1e9 * (best[program, many] - best[program, FEW]) / (steps * (many - FEW)) for program in programs]


def main() -> None:
    ours = sys.argv[1] if len(sys.argv) > 1 else str(TOP / "crates/speed/out/speed")
    with tempfile.TemporaryDirectory() as folder:
        plain, rolled, table = (str(pathlib.Path(folder) / name) for name in ("plain", "rolled", "table"))
        build = ["rustc", "-O", TOP / "bench/steps.rs", "-o"]
        subprocess.run([*build, plain], check=True)
        subprocess.run([*build, rolled, "-C", "llvm-args=-unroll-count=1"], check=True)
        subprocess.run([*build, table, "--cfg", "table"], check=True)
        for kind, steps in steps_by_kind(ours):
            proved, *others = compare([(ours, "steps"), (plain,), (rolled,), (table,)], kind, steps)
            told = (f"{name} {time:.2f} ns, ratio {proved / time:.2f}" for name, time in zip(("plain", "not unrolled", "plain table"), others))
            print(f"{kind}: {proved:.2f} ns a step; {'; '.join(told)}", flush=True)


if __name__ == "__main__":
    main()
