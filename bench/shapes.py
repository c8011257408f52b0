#!/usr/bin/env python3
"""Runs the built program on data of many shapes with four workers, and prints how many times as long it takes on the clock
as a plain program with four threads that streams its rows, and the peak memory of both.

    python3 bench/shapes.py PROGRAM [--before PROGRAM] [--seed N] [--runs N] [--only NAME ..]

PROGRAM is the built program, crates/scan_cli/out/scan_cli after a run or a check. The script makes its data from the seed
into bench/data/, builds plain.rs there by rustc, compares each output with the lines that are wanted, and then runs all in
turns with their output thrown away. It prints a table, each time the best of the runs and each peak the highest; `most` is what
it should be at the most, and `times by processor` compares processor seconds, on which other work on the machine counts less.
"""
import argparse
import json
import os
import random
import subprocess
import sys
import time
from collections import namedtuple

sys.dont_write_bytecode = True  # nothing but what is committed lies in this folder

import parts
import run
from run import MILLION, bytes_of, chunks_of, flat, inner, is_right, lines_of, one_after_another, path_of, write

THREADS = "4"
# Where the rows of ten million are cut; in chunks of the second size a million rows end with a chunk.
CHUNK, EVEN_CHUNK = 65_536, 62_500

# `segments` and `lines` name files; `times` is how many times as long as the plain program it should take at the most, and
# `peak` how many megabytes.
Shape = namedtuple("Shape", "segments lines times peak")
SHAPES = {
    "chunks_153": Shape("ten_million", "ten_million", 2.5, None),
    "ten_flat": Shape("ten_million", "ten_million", 3.5, 200),
    "one_flat": Shape("million", "million", 3, 30),
    "hundred_rows": Shape("ten_million", "hundred_rows", 2, None),
    "two_of_fifty": Shape("struct", "two_of_fifty", 2, None),
    "nullable": Shape("nullable", "nullable", 2, None),
    "expressions": Shape("ten_million", "expressions", 2.5, None),
    "texts": Shape("texts", "texts", 3, None),
    "demo_columns": Shape("demo", "demo", 3, None),
    "chunks_50000": Shape("five_million", "five_million", 3.5, 60),
    "leaves_290000": Shape("one", "one", 4, 150),
    "demo_1000000": Shape(None, "summary", 3, 30),
}


# ---- the data of each shape


def write_request(name, request, **members):
    parts.write_request(name, *request, **members)


def write_times(name, times, segment, lines):
    """The files of the same rows so many times."""
    run.write_values(name, [segment] * times, [lines] * times)


def chunks_153(numbers, rng):
    write_times("ten_million", 10, bytes_of("q", numbers), lines_of(numbers))
    write_request("chunks_153", chunks_of(10 * MILLION, CHUNK))


def ten_flat(numbers, rng):
    write_times("ten_million", 10, bytes_of("q", numbers), lines_of(numbers))
    write_request("ten_flat", (one_after_another([80 * MILLION]), [flat(10 * MILLION, 0)]))


def one_flat(numbers, rng):
    write_times("million", 1, bytes_of("q", numbers), lines_of(numbers))
    write_request("one_flat", (one_after_another([8 * MILLION]), [flat(MILLION, 0)]))


def hundred_rows(numbers, rng):
    parts.hundred_rows(numbers, rng)


def nullable(numbers, rng):
    """Ten million numbers in 160 chunks, of which about every fourth is null."""
    lacks = rng.choices([True, False, False, False], k=MILLION)
    there = [None if lack else number for lack, number in zip(lacks, numbers)]
    segments = []
    for start in range(0, MILLION, EVEN_CHUNK):
        chunk = there[start : start + EVEN_CHUNK]
        segments.append(parts.bits([one is not None for one in chunk]) + bytes_of("q", [one or 0 for one in chunk]))
    write_times("nullable", 10, b"".join(segments), lines_of(there))
    leaves = [flat(EVEN_CHUNK, place, "i64?") for place in range(10 * len(segments))]
    nodes = [inner("chunked", "i64?", 10 * MILLION, len(leaves))] + leaves
    write_request("nullable", (one_after_another([len(one) for one in segments] * 10), nodes))


def expressions(numbers, rng):
    """A quotient and a test of each of ten million numbers in 153 chunks."""
    write("ten_million.seg", [bytes_of("q", numbers)] * 10)
    third, large = {"div": ["root", parts.number(3)]}, {"gt": ["root", parts.number(7)]}
    write_request("expressions", chunks_of(10 * MILLION, CHUNK), projection={"pack": [["third", third], ["large", large]]})
    cut = (one // 3 if one >= 0 else -(-one // 3) for one in numbers)  # towards 0
    lines = ('{"third":%d,"large":%s}\n' % (one, "true" if number > 7 else "false") for one, number in zip(cut, numbers))
    write("expressions.lines", ["".join(lines).encode()] * 10)


def texts(numbers, rng):
    run.make_texts(rng)


def two_of_fifty(numbers, rng):
    parts.two_of_fifty(numbers, rng)


def demo_columns(numbers, rng):
    segments, nodes, lines = parts.demo_file(MILLION)
    run.write_values("demo", segments, (line.encode() for line in lines))
    write_request("demo_columns", (one_after_another(map(len, segments)), nodes))


def chunks_50000(numbers, rng):
    write_times("five_million", 5, bytes_of("q", numbers), lines_of(numbers))
    write_request("chunks_50000", chunks_of(5 * MILLION, 100))


def leaves_290000(numbers, rng):
    run.make_leaves(numbers)


def demo_1000000(numbers, rng):
    write("summary.lines", [parts.summary(MILLION)])


MAKERS = [chunks_153, ten_flat, one_flat, hundred_rows, two_of_fifty, nullable, expressions, texts, demo_columns, chunks_50000,
          leaves_290000, demo_1000000]


def make_all(seed, names):
    os.makedirs(run.DATA, exist_ok=True)
    numbers = run.random_numbers(random.Random(seed), MILLION)
    for make in MAKERS:
        if make.__name__ in names:
            make(numbers, random.Random(seed))


# ---- the runs


def commands(programs, name):
    """What each program is started with for a shape."""
    segments = SHAPES[name].segments
    words = [path_of(segments + ".seg"), path_of(name + ".json")] if segments else ["demo", str(MILLION)]
    proved = ["scan", *words, "--workers", THREADS] if segments else words
    asked = {one: [program, *proved] for one, program in programs.items()}
    return {**asked, "plain": [programs["plain"], *words, "--threads", THREADS]}


def timed(arguments):
    """The seconds on the clock, the processor seconds and the peak megabytes of one run, its output thrown away."""
    begun = time.monotonic()
    process = subprocess.Popen(arguments, stdout=subprocess.DEVNULL, stderr=subprocess.DEVNULL)
    _, status, used = os.wait4(process.pid, 0)
    taken = time.monotonic() - begun
    process.returncode = os.waitstatus_to_exitcode(status)
    if process.returncode != 0:
        sys.exit("%s ends with %d" % (" ".join(arguments), process.returncode))
    return taken, used.ru_utime + used.ru_stime, used.ru_maxrss / 1000


def measure(programs, name, runs):
    """Prints the line of a shape, and tells whether the program is within what it should be at the most."""
    shape, asked = SHAPES[name], commands(programs, name)
    right = [one for one, arguments in asked.items() if is_right(arguments, name, shape.lines)]
    for one in asked:
        if one not in right and one != "before":
            sys.exit("%s: the %s program gives another output than the wanted one" % (name, one))
    taken = {one: [] for one in right}
    for _ in range(runs):
        for one in right:
            taken[one].append(timed(asked[one]))
    clock, work = ({one: min(told[which] for told in taken[one]) for one in right} for which in (0, 1))
    peaks = {one: max(told[2] for told in taken[one]) for one in right}
    times = {one: seconds / clock["plain"] for one, seconds in clock.items()}
    before = ("%.2f" % times["before"], "%.0f" % peaks["before"]) if "before" in right else ("", "")
    print("| `%s` | %.4f | %.4f | %.2f | %s | %s | %.2f | %.0f | %.0f | %s | %s |" % (
        name, clock["proved"], clock["plain"], times["proved"], before[0], shape.times,
        work["proved"] / max(work["plain"], 0.001), peaks["proved"], peaks["plain"], before[1], shape.peak or ""), flush=True)
    return times["proved"] <= shape.times and peaks["proved"] <= (shape.peak or float("inf"))


def main():
    parser = argparse.ArgumentParser(description=__doc__, formatter_class=argparse.RawDescriptionHelpFormatter)
    parser.add_argument("program")
    parser.add_argument("--before", metavar="PROGRAM", help="an earlier build, run too where its output is right")
    parser.add_argument("--seed", type=int, default=1)
    parser.add_argument("--runs", type=int, default=9, help="so many runs of each")
    parser.add_argument("--only", nargs="+", choices=SHAPES, default=list(SHAPES), help="these shapes alone")
    parser.add_argument("--make", action="store_true", help="make the data and no more")
    options = parser.parse_args()
    if options.make:
        make_all(options.seed, options.only)
        return
    # In a process of its own: a child's peak memory counts from the size of the one that starts it.
    seed = str(options.seed)
    subprocess.check_call([sys.executable, __file__, options.program, "--seed", seed, "--make", "--only", *options.only])
    programs = {"proved": options.program, "plain": run.build_plain()}
    if options.before:
        programs["before"] = options.before
    print("| shape | seconds | plain, seconds | times | before, times | most | times by processor | MB | plain, MB | before, MB | most |")
    print("|" + "---|" * 11)
    above = [name for name in options.only if not measure(programs, name, options.runs)]
    print("above what they should be at the most: %s" % (", ".join(above) or "none"))


if __name__ == "__main__":
    main()
