#!/usr/bin/env python3
"""Nanoseconds a load of the hash table's walk, side by side with a plain Rust walk of a chain over atomic words.

Usage: bench/walks.py [PROGRAM]     (default: crates/flock/out/flock, which ./prove makes)

It wants rustc. The program serves one trace in one bucket: it inserts the keys of a chain, and then looks for the key at the chain's end, many times.
A longer chain makes each look-up longer by two loads a node, and nothing else: so the difference between two lengths is that of the loads. For
each length two numbers of look-ups are run, so what a process needs to begin, to fill the chain and to end isn't counted. Of each the least
processor time of several runs is taken.
"""
import os
import pathlib
import subprocess
import sys
import tempfile
from collections.abc import Callable

TOP = pathlib.Path(__file__).resolve().parent.parent
RUNS = 9
LENGTHS = (1, 16, 256)
FEW, MANY = 20_000, 120_000
# The plain walk is short, so it is made more often.
PLAIN_FEW, PLAIN_MANY = 200_000, 2_200_000


def processor_time(words: list[str], text: bytes) -> float:
    """The processor time of one process, which has to end well."""
    with tempfile.TemporaryFile() as source:
        source.write(text)
        source.seek(0)
        with subprocess.Popen(words, stdin=source, stdout=subprocess.DEVNULL, stderr=subprocess.DEVNULL) as child:
            _, status, usage = os.wait4(child.pid, 0)
            child.returncode = os.waitstatus_to_exitcode(status)
    if child.returncode != 0:
        sys.exit(f"{words[0]}: status {child.returncode}")
    return usage.ru_utime + usage.ru_stime


def trace(length: int, count: int) -> bytes:
    """A chain of so many keys, and so many look-ups of the key at its end: the last where a new node comes last, else the first."""
    keys = [f"ins {key} {key}" for key in range(length)]
    looks = ["get 0"] * (count // 2) + [f"get {length - 1}"] * (count // 2)
    return ("\n".join(["flock 1", "trace", *keys, *looks]) + "\n").encode()


def per_walk(time: Callable[[int], float], few: int, many: int) -> float:
    """Nanoseconds a walk."""
    best = {count: min(time(count) for _ in range(RUNS)) for count in (few, many)}
    return 1e9 * (best[many] - best[few]) / (many - few)


def main() -> None:
    ours = sys.argv[1] if len(sys.argv) > 1 else str(TOP / "crates/flock/out/flock")
    command = [ours, "run", "--runners", "1", "--buckets", "1", "--nodes", "1000"]
    with tempfile.TemporaryDirectory() as folder:
        plain = str(pathlib.Path(folder) / "walks")
        subprocess.run(["rustc", "-O", TOP / "bench/walks.rs", "-o", plain], check=True)
        proved_times = [per_walk(lambda count: processor_time(command, trace(length, count)), FEW, MANY) for length in LENGTHS]
        plain_times = [per_walk(lambda count: processor_time([plain, str(length), str(count)], b""), PLAIN_FEW, PLAIN_MANY) for length in LENGTHS]
    for at, length in enumerate(LENGTHS):
        print(f"chain of {length}: {proved_times[at]:.0f} ns a request, half of them for a key at the chain's end, half for its first; plain walk {plain_times[at]:.1f} ns")
    for one, other in ((0, 1), (1, 2)):
        nodes = LENGTHS[other] - LENGTHS[one]
        # Half of the look-ups go to the chain's end, so on average one load a node more, not two.
        proved = (proved_times[other] - proved_times[one]) / nodes
        walked = (plain_times[other] - plain_times[one]) / (2 * nodes)
        print(f"from {LENGTHS[one]} to {LENGTHS[other]} nodes: {proved:.2f} ns a load, plain {walked:.2f} ns, ratio {proved / walked:.2f}")


if __name__ == "__main__":
    main()
