#!/usr/bin/env python3
"""Nanoseconds an attempt, on one runner, side by side with a model that makes the same atomic steps on plain atomics.

Usage: bench/attempts.py MODEL [PROGRAM]     (default: crates/speed/out/speed, made by `rt run` in crates/speed)

MODEL is a program that takes the words of `flock run` and a text, and with `--stats` writes `run_ns=` and how long it served to standard error.

The requests put in 1,000 keys, and then find or miss keys by `get`, try to put in keys that are there, or add a key and take it away again in
turn, so that chains and paths stay as they are. PROGRAM makes a table with all of them and serves the first so many, once with few served and once
with all: so the difference is that of attempts alone, and what a process, its requests and its table need to begin and to end isn't counted. Of PROGRAM
the processor time is taken, of MODEL the time that it tells of two texts, which hold the same requests. That is a clock's, so a run in which the model
was kept waiting for a processor is made again, and where it is kept waiting each time nothing is told of it: the figures want quiet processors.
In each round both are run in turn, and the least of each counts; the figures are medians of rounds.
"""
import math
import os
import pathlib
import re
import statistics
import subprocess
import sys
import tempfile
import time

from run import TOP, per_unit

KEYS = 1_000
SIZES = [32_768, 131_072]
ROUNDS = 5
RUNS = 5
TRIES = 6
KINDS = {"get": "get, found", "missed": "get, missed", "refused": "ins that is refused", "turns": "ins and del in turn"}


def text_of(kind: str, count: int) -> bytes:
    """So many requests: 1,000 keys are put in, and then come requests of one kind."""
    keys = [(7919 * number) % KEYS for number in range(count)]
    filled = [f"ins {2 * key} {key}" for key in keys[:KEYS]]
    requests = {
        "get": [f"get {2 * key}" for key in keys],
        "missed": [f"get {2 * key + 1}" for key in keys],
        "refused": [f"ins {2 * key} 1" for key in keys],
        "turns": [f"{'del' if number % 2 else 'ins'} {2 * keys[number // 2] + 1}{'' if number % 2 else ' 1'}" for number in range(count)],
    }[kind]
    return ("\n".join(["flock 1", "trace", *filled, *requests[: count - KEYS]]) + "\n").encode()


def spent(program: str, table: str, kind: str, served: int) -> float:
    """The processor time of a process that serves the first so many requests of all, in seconds."""
    with subprocess.Popen([program, "attempts", table, kind, str(SIZES[-1]), str(served)], stdout=subprocess.PIPE, text=True) as child:
        told = child.stdout.read()
        _, status, usage = os.wait4(child.pid, 0)
        child.returncode = os.waitstatus_to_exitcode(status)
    if child.returncode != 0 or f" {served} of " not in told:
        sys.exit(f"{program}: status {child.returncode}, {told}")
    return usage.ru_utime + usage.ru_stime


def told(model: str, words: list[str], text: pathlib.Path) -> float:
    """How long the model served the text, in seconds. Infinity where it was off the processors for a tenth of its time in each of some runs."""
    for _ in range(TRIES):
        with text.open("rb") as source, subprocess.Popen([model, *words], stdin=source, stdout=subprocess.DEVNULL, stderr=subprocess.PIPE, text=True) as child:
            start = time.perf_counter()
            said = child.stderr.read()
            _, status, usage = os.wait4(child.pid, 0)
            elapsed = time.perf_counter() - start
            child.returncode = os.waitstatus_to_exitcode(status)
        if child.returncode != 0:
            sys.exit(f"{model}: status {child.returncode}, {said}")
        if elapsed - (usage.ru_utime + usage.ru_stime) < elapsed / 10:
            return int(re.search(r"run_ns=(\d+)", said)[1]) / 1e9
    return float("inf")


def figures(program: str, model: str, table: str, kind: str, texts: list[pathlib.Path]) -> tuple[float, float]:
    """Nanoseconds an attempt of both, in one round."""
    words = ["run", "--table", table, "--runners", "1", "--differing", "1", "--stats"] + (["--buckets", "1024"] if table == "hash" else [])
    ours, theirs = ([float("inf") for _ in SIZES] for _ in range(2))
    for _ in range(RUNS):
        for place, size in enumerate(SIZES):
            ours[place] = min(ours[place], spent(program, table, kind, size))
            theirs[place] = min(theirs[place], told(model, words, texts[place]))
    return per_unit(ours, SIZES), per_unit(theirs, SIZES)


def main() -> None:
    if len(sys.argv) < 2:
        sys.exit(__doc__)
    model = sys.argv[1]
    program = sys.argv[2] if len(sys.argv) > 2 else str(TOP / "crates/speed/out/speed")
    with tempfile.TemporaryDirectory() as folder:
        texts = [pathlib.Path(folder) / str(size) for size in SIZES]
        for table in ("hash", "tree"):
            for kind, name in KINDS.items():
                for text, size in zip(texts, SIZES):
                    text.write_bytes(text_of(kind, size))
                rounds = [figures(program, model, table, kind, texts) for _ in range(ROUNDS)]
                ours = statistics.median(each for each, _ in rounds)
                quiet = [each for _, each in rounds if math.isfinite(each)]
                theirs = statistics.median(quiet) if quiet else None
                beside = f"the model {theirs:.0f} ns, ratio {ours / theirs:.2f}" if theirs else "the model was kept waiting"
                print(f"{table}, {name}: {ours:.0f} ns an attempt, {beside}", flush=True)


if __name__ == "__main__":
    main()
