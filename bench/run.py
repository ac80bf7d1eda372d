#!/usr/bin/env python3
"""Figures of the built program, side by side with a plain Rust program in one run.

Usage: bench/run.py [--reads lock|free] [PROGRAM]     (default: crates/flock/out/flock, which ./prove makes)

With `--reads` the program is given that option wherever it runs requests. It wants rustc. Each text is run several times by both; the least wall time and the greatest peak memory are told.

Reading, serving and printing are told apart, in nanoseconds a request, and reading in nanoseconds a byte of a comment and of blanks, from two
sizes of one text, so that what a process needs to begin and to end isn't counted. The program only reads a text whose last line is bad; it
reads and serves where the first page of the report can't be written. The plain program is told by a word how far to go.

Then come requests of which most are `get`, on both tables, by one runner and by four, with `--reads lock` and `--reads free` in turn.

Then comes the check of a report on 131,072 requests, which both find legal, with the program's peak memory.

Last come a generated text of 131,072 requests, which both print alike, and what a process needs to begin and to end, in milliseconds: at refused
words, and at the empty text, beside a plain program that ends at once.
"""
import argparse
import os
import pathlib
import random
import subprocess
import sys
import tempfile
import time
from collections.abc import Iterator

TOP = pathlib.Path(__file__).resolve().parent.parent
RUNS = 7


def requests(count: int, keys: int) -> bytes:
    """One trace, half of its requests `ins`."""
    dice = random.Random(1)
    lines = ["flock 1", "trace"]
    for _ in range(count):
        key = dice.randrange(keys)
        lines.append(f"ins {key} {10 * key}" if dice.random() < 0.5 else f"{dice.choice(['get', 'del'])} {key}")
    return ("\n".join(lines) + "\n").encode()


def look_ups(count: int, keys: int, traces: int) -> bytes:
    """So many requests in traces of one length: each key is put in by one of them, and of those behind that most are `get`."""
    dice = random.Random(1)
    lines = ["flock 1"]
    for trace in range(traces):
        lines.append("trace")
        filled = [f"ins {key} {10 * key}" for key in range(trace, keys, traces)]
        lines += filled
        for _ in range(count // traces - len(filled)):
            key = dice.randrange(keys)
            lines.append(dice.choices([f"get {key}", f"ins {key} {key}", f"del {key}"], [24, 1, 1])[0])
    return ("\n".join(lines) + "\n").encode()


def texts() -> Iterator[tuple[str, bytes]]:
    size = 4_194_304
    head = b"flock 1\ntrace\n"
    yield "131,072 requests over 1,000 keys", requests(131_072, 1_000)
    yield "one comment of 4 MiB", head + b"#" + b"x" * (size - len(head) - 2) + b"\n"
    yield "one line of 4 MiB of blanks", head + b" " * (size - len(head) - 1) + b"\n"
    yield "one key of 4 MiB of zeros", head + b"get " + b"0" * (size - len(head) - 5) + b"\n"
    yield "4 MiB of empty lines", head + b"\n" * (size - len(head))


def measure(program: list[str], text: pathlib.Path, status: int = 0, out: str = "/dev/null", runs: int = RUNS) -> tuple[float, int]:
    """The least wall time in seconds, and the greatest peak memory in KiB: at least this script's own, from which it forks."""
    best, peak = float("inf"), 0
    for _ in range(runs):
        with text.open("rb") as source, open(out, "wb") as sink:
            start = time.perf_counter()
            child = subprocess.Popen(program, stdin=source, stdout=sink, stderr=subprocess.DEVNULL)
            _, ended, usage = os.wait4(child.pid, 0)
            best = min(best, time.perf_counter() - start)
        peak = max(peak, usage.ru_maxrss)
        if os.waitstatus_to_exitcode(ended) != status:
            sys.exit(f"{program[0]}: status {os.waitstatus_to_exitcode(ended)}")
    return best, peak


def per_unit(seconds: list[float], sizes: list[int]) -> float:
    """Nanoseconds a unit, from two sizes."""
    return 1e9 * (seconds[1] - seconds[0]) / (sizes[1] - sizes[0])


def stages(run: list[str], plain: str, text: pathlib.Path) -> None:
    """How long a request takes to be read, to be served, and to be printed."""
    sizes = [32_768, 131_072]
    ours, theirs = ([], [], []), ([], [], [])
    for size in sizes:
        content = requests(size, 1_000)
        text.write_bytes(content + b"x\n")
        ours[0].append(measure(run, text, status=3)[0])
        text.write_bytes(content)
        ours[1].append(measure(run, text, status=9, out="/dev/full")[0])
        ours[2].append(measure(run, text)[0])
        for stage, word in enumerate(["read", "serve", "print"]):
            theirs[stage].append(measure([plain, word], text)[0])
    for name, stage in (("reading", 0), ("serving", 1), ("printing", 2)):
        spent = [per_unit(each[stage], sizes) - (per_unit(each[stage - 1], sizes) if stage else 0) for each in (ours, theirs)]
        print(f"{name}: {spent[0]:.1f} ns a request, plain {spent[1]:.1f} ns")


def read_both_ways(program: str, text: pathlib.Path) -> None:
    """Requests of which most are `get`, served with and without locks for reads, in turn."""
    text.write_bytes(look_ups(131_072, 16_384, 4))
    for table in ("hash", "tree"):
        for runners in (1, 4):
            best = {"lock": float("inf"), "free": float("inf")}
            for _ in range(RUNS):
                for reads in best:
                    words = [program, "run", "--table", table, "--buckets", "4096", "--runners", str(runners), "--reads", reads]
                    best[reads] = min(best[reads], measure(words, text, runs=1)[0])
            spent = ", ".join(f"--reads {reads} {1000 * seconds:.1f} ms" for reads, seconds in best.items())
            print(f"look-ups, {table}, runners {runners}: {spent}, ratio {best['free'] / best['lock']:.2f}")


def bytes_read(program: str, plain: str, text: pathlib.Path) -> None:
    """How long a byte of a comment, and of blanks, takes to be read."""
    sizes = [1_000_000, 4_000_000]
    for name, byte, begin in (("a comment", b"x", b"#"), ("blanks", b" ", b"")):
        ours, theirs = [], []
        for size in sizes:
            text.write_bytes(b"flock 1\ntrace\n" + begin + byte * size + b"\n")
            ours.append(measure([program, "run"], text)[0])
            theirs.append(measure([plain, "read"], text)[0])
        print(f"{name}: {per_unit(ours, sizes):.2f} ns a byte, plain {per_unit(theirs, sizes):.2f} ns")


def checked(program: str, plain: str, text: pathlib.Path) -> None:
    """How long the check of the program's own report takes: on one trace, over few keys and many, and on 64 traces."""
    texts = [("one trace, 1,000 keys", requests(131_072, 1_000))]
    texts.append(("one trace, 65,536 keys", requests(131_072, 65_536)))
    words = [program, "gen", "--seed=1", "--traces=64", "--length=2048", "--keys=32768"]
    texts.append(("64 traces, 32,768 keys", subprocess.run(words, capture_output=True, check=True).stdout))
    for name, content in texts:
        words = [program, "run", "--runners", "4"]
        report = subprocess.run(words, input=content, capture_output=True, check=True).stdout
        text.write_bytes(content + b"report\n" + report)
        for each in (program, plain):
            with text.open("rb") as source:
                if subprocess.run([each, "check"], stdin=source, capture_output=True).stdout != b"legal\n":
                    sys.exit(f"{each}: the report isn't found legal")
        ours, peak = measure([program, "check"], text)
        theirs, _ = measure([plain, "check"], text)
        ratio = f"{1000 * ours:.1f} ms, plain {1000 * theirs:.1f} ms, ratio {ours / theirs:.2f}"
        print(f"check of {name}: {ratio}, peak {peak} KiB")


def generated(program: str, plain: str, text: pathlib.Path) -> None:
    """How long a generated text takes to be printed, by one trace and by 64."""
    text.write_bytes(b"")
    for traces, length in ((1, 131_072), (64, 2_048)):
        ours = [program, "gen", "--seed=1", f"--traces={traces}", f"--length={length}", "--keys=1000"]
        theirs = [plain, "gen", "1", str(traces), str(length), "1000"]
        if len({subprocess.run(each, capture_output=True, check=True).stdout for each in (ours, theirs)}) != 1:
            sys.exit("the two generated texts differ")
        spent = [1000 * measure(each, text)[0] for each in (ours, theirs)]
        print(f"gen of {traces} x {length} requests: {spent[0]:.1f} ms, plain {spent[1]:.1f} ms, ratio {spent[0] / spent[1]:.2f}")


def beginnings(program: str, plain: str, text: pathlib.Path) -> None:
    """How long a process takes that has nothing to do."""
    text.write_bytes(b"flock 1\n")
    idle = 1000 * measure([plain, "nothing"], text)[0]
    refused = 1000 * measure([program, "--help"], text, status=2)[0]
    empty = 1000 * measure([program, "run"], text)[0]
    print(f"start-up: {refused:.2f} ms at refused words, {empty:.2f} ms at an empty text, a plain process {idle:.2f} ms")


def main() -> None:
    words = argparse.ArgumentParser()
    words.add_argument("--reads", choices=["lock", "free"])
    words.add_argument("program", nargs="?", default=str(TOP / "crates/flock/out/flock"))
    given = words.parse_args()
    program = given.program
    run = [program, "run", *(["--reads", given.reads] if given.reads else [])]
    with tempfile.TemporaryDirectory() as folder:
        plain = pathlib.Path(folder) / "plain"
        text = pathlib.Path(folder) / "text"
        subprocess.run(["rustc", "-O", "-o", plain, TOP / "bench/plain.rs"], check=True)
        for name, content in texts():
            text.write_bytes(content)
            del content
            ours, peak = measure(run, text)
            theirs, _ = measure([str(plain), "print"], text)
            print(f"{name}: {1000 * ours:.1f} ms, plain {1000 * theirs:.1f} ms, ratio {ours / theirs:.2f}, peak {peak} KiB")
        stages(run, str(plain), text)
        read_both_ways(program, text)
        bytes_read(program, str(plain), text)
        checked(program, str(plain), text)
        generated(program, str(plain), text)
        beginnings(program, str(plain), text)


if __name__ == "__main__":
    main()
