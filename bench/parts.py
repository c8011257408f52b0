#!/usr/bin/env python3
"""Runs the built program on requests for parts of made data, and prints times beside those of a whole scan.

    python3 bench/parts.py PROGRAM [--data FOLDER] [--seed N] [--runs N] [--only NAME ..]

PROGRAM is the built program, crates/scan_cli/out/scan_cli after a run or a check. The data, some 600 MB with the outputs,
is made from the seed into FOLDER, which stays, or into a folder that is removed at the end. Each output is compared with the lines that are
wanted; then the part and the whole run in turns with their output thrown away. Times are processor seconds, user and
system.
"""
import argparse
import filecmp
import json
import os
import random
import statistics
import subprocess
import sys
import tempfile
from collections import namedtuple

sys.dont_write_bytecode = True  # nothing but what is committed lies in this folder

import run
from run import MILLION, bytes_of, child, flat, in_chunks, inner, lines_of, one_after_another, path_of, write

# What is compared: two runs, each by its words and the file of the lines that are wanted, and what they are.
Pair = namedtuple("Pair", "part whole told")
Run = namedtuple("Run", "words lines")


def scan(segments, request, lines):
    return Run(["scan", "--workers", "1", path_of(segments + ".seg"), path_of(request + ".json")], lines)


PAIRS = {
    "two_of_fifty": ("two fields of fifty, 100,000 rows", "all fifty"),
    "hundred_rows": ("100 rows by number of 10,000,000 in 1280 chunks", "all rows of the chunks that they lie in"),
    "first_row": ("the first row of the same by a limit", "this row by a range, of the same"),
    "one_range": ("65536 rows of the same by a range", "these rows as a file of their own"),
    "row_numbers": ("the numbers of 10,000,000 rows alone", "a column of these numbers in 1280 chunks"),
    "five_parts": ("an expression of five parts, 1,000,000 rows in 128 chunks", "the column"),
    "demo": ("demo 1000000", "a scan of the same file, printed"),
}


def number(value):
    return {"lit": value, "type": "i64"}


def write_request(name, locations, nodes, **members):
    request = json.dumps({"locations": locations, "nodes": nodes, **members}, separators=(",", ":"))
    write(name + ".json", [request.encode()])


# ---- the data of each pair


def two_of_fifty(numbers, rng):
    rows = 100_000
    run.make_struct(numbers, rows)
    with open(path_of("struct_50.json"), encoding="utf-8") as file:
        request = json.load(file)
    names = ["field_31", "field_7"]
    projection = {"pack": [[name, {"get": [name, "root"]}] for name in names]}
    write_request("two_of_fifty", **request, projection=projection)
    with open(path_of("struct.lines"), encoding="utf-8") as whole, open(path_of("two_of_fifty.lines"), "w") as part:
        for line in whole:
            row = json.loads(line)
            part.write('{"%s":%d,"%s":%d}\n' % (names[0], row[names[0]], names[1], row[names[1]]))
    return Pair(scan("struct", "two_of_fifty", "two_of_fifty"), scan("struct", "struct_50", "struct"), PAIRS["two_of_fifty"])


def ten_million(numbers):
    """A column of ten million numbers, a million of them ten times."""
    if not os.path.exists(path_of("ten_million.seg")):
        segment = bytes_of("q", numbers)
        write("ten_million.seg", [segment] * 10)


def hundred_rows(numbers, rng):
    ten_million(numbers)
    locations, nodes = in_chunks(10 * MILLION, 1280)
    rows = sorted(rng.sample(range(10 * MILLION), 100))
    write_request("hundred_rows", locations, nodes, indices=rows)
    write("hundred_rows.lines", [lines_of(numbers[row % MILLION] for row in rows)])
    # The chunks of these rows, in the same places of the same file.
    size = nodes[1]["rows"]
    chunks = sorted({row // size for row in rows})
    leaves = [dict(nodes[1 + chunk], segment=place) for place, chunk in enumerate(chunks)]
    whole = sum(leaf["rows"] for leaf in leaves)
    write_request("their_chunks", [locations[chunk] for chunk in chunks], [inner("chunked", "i64", whole, len(leaves))] + leaves)
    there = (numbers[row % MILLION] for chunk in chunks for row in range(chunk * size, min(chunk * size + size, 10 * MILLION)))
    write("their_chunks.lines", [lines_of(there)])
    return Pair(scan("ten_million", "hundred_rows", "hundred_rows"), scan("ten_million", "their_chunks", "their_chunks"),
                PAIRS["hundred_rows"])


def first_row(numbers, rng):
    ten_million(numbers)
    locations, nodes = in_chunks(10 * MILLION, 1280)
    write_request("first_row", locations, nodes, limit=1)
    write_request("row_0", locations, nodes, range=[0, 1])
    write("first_row.lines", [lines_of(numbers[:1])])
    return Pair(scan("ten_million", "first_row", "first_row"), scan("ten_million", "row_0", "first_row"), PAIRS["first_row"])


def one_range(numbers, rng):
    ten_million(numbers)
    start, rows = 4_567_890, 65536
    write_request("one_range", *in_chunks(10 * MILLION, 1280), range=[start, start + rows])
    there = [numbers[row % MILLION] for row in range(start, start + rows)]
    write("its_rows.lines", [lines_of(there)])
    write("its_rows.seg", [bytes_of("q", there)])
    write_request("its_rows", one_after_another([8 * rows]), [flat(rows, 0)])
    return Pair(scan("ten_million", "one_range", "its_rows"), scan("its_rows", "its_rows", "its_rows"), PAIRS["one_range"])


def row_numbers(numbers, rng):
    rows = 10 * MILLION
    locations, nodes = in_chunks(rows, 1280)
    write("row_numbers.seg", [bytes_of("q", range(start, start + MILLION)) for start in range(0, rows, MILLION)])
    with open(path_of("row_numbers.lines"), "w") as file:
        file.writelines("%d\n" % row for row in range(rows))
    write_request("row_numbers", locations, nodes, projection="row_idx")
    write_request("a_column", locations, nodes)
    return Pair(scan("row_numbers", "row_numbers", "row_numbers"), scan("row_numbers", "a_column", "row_numbers"),
                PAIRS["row_numbers"])


def five_parts(numbers, rng):
    locations, nodes = in_chunks(MILLION, 128)
    segments = bytes_of("q", numbers)
    write("million.seg", [segments])
    write("million.lines", [lines_of(numbers)])
    write_request("chunks_128", locations, nodes)
    expression = {"gt": [{"div": ["root", number(3)]}, number(7)]}
    write_request("five_parts", locations, nodes, projection=expression)
    # A number is above 7 after a division that cuts towards 0 exactly where it is 24 or more.
    write("five_parts.lines", [b"true\n" if one >= 24 else b"false\n" for one in numbers])
    return Pair(scan("million", "five_parts", "five_parts"), scan("million", "chunks_128", "million"), PAIRS["five_parts"])


def bits(truths):
    """Truth values as the bits of bytes, the lowest first."""
    made = bytearray((len(truths) + 7) // 8)
    for place, truth in enumerate(truths):
        made[place // 8] |= truth << place % 8
    return bytes(made)


def demo_file(rows):
    """The file that `demo` makes of so many rows: its segments, its nodes, and its lines."""
    starts = range(0, rows, 8192)
    chunks = [range(start, min(start + 8192, rows)) for start in starts]
    names = [("n%d" % code).encode() for code in range(16)]
    ids = [bytes_of("q", [(31 * row + rows) % 1000 for row in chunk]) for chunk in chunks]
    named = b"".join(len(name).to_bytes(4, "little") for name in names) + b"".join(names)
    lacks = [[row % 7 == 3 for row in chunk] for chunk in chunks]
    codes = [bits([not lack for lack in lacking]) + bytes(0 if lack else row % 16 for lack, row in zip(lacking, chunk))
             for lacking, chunk in zip(lacks, chunks)]
    flags = [bits([row % 3 == 0 for row in chunk]) for chunk in chunks]
    count = len(chunks)

    def column(dtype, node, segment):
        """A chunked column whose number is `node`, with its chunks behind it."""
        leaves = [flat(len(chunk), segment + place, dtype) for place, chunk in enumerate(chunks)]
        return [dict(inner("chunked", dtype, rows, count), children=list(range(node + 1, node + 1 + count)))] + leaves

    dtype = {"struct": [["id", "i64"], ["name", "utf8?"], ["flag", "bool"]]}
    nodes = [dict(inner("struct", dtype, rows, 3), children=[1, count + 2, 2 * count + 5])]
    nodes += column("i64", 1, 0)
    nodes += [dict(inner("dict", "utf8?", rows, 2), children=[count + 3, count + 4]), flat(16, count, "utf8")]
    nodes += column("u8?", count + 4, count + 1)
    nodes += column("bool", 2 * count + 5, 2 * count + 1)
    lines = ('{"id":%d,"name":%s,"flag":%s}\n' % (
        (31 * row + rows) % 1000, "null" if row % 7 == 3 else '"n%d"' % (row % 16), "true" if row % 3 == 0 else "false")
        for row in range(rows))
    return ids + [named] + codes + flags, nodes, lines


def summary(rows):
    """The five lines that `demo` prints of so many rows."""
    told = {
        "rows": rows, "batches": -(-rows // 65536), "id_sum": sum((31 * row + rows) % 1000 for row in range(rows)),
        "name_nulls": len(range(3, rows, 7)), "flag_true": len(range(0, rows, 3))}
    return "".join("%s=%d\n" % one for one in told.items()).encode()


def demo(numbers, rng):
    segments, nodes, lines = demo_file(MILLION)
    write("demo.seg", segments)
    write_request("demo", one_after_another(map(len, segments)), nodes)
    write("demo.lines", (line.encode() for line in lines))
    write("summary.lines", [summary(MILLION)])
    return Pair(Run(["demo", str(MILLION)], "summary"), scan("demo", "demo", "demo"), PAIRS["demo"])


MAKERS = [two_of_fifty, hundred_rows, first_row, one_range, row_numbers, five_parts, demo]


def make_all(seed, names):
    """Makes the data of these pairs, and keeps what is to be run beside it."""
    numbers = run.random_numbers(random.Random(seed), MILLION)
    pairs = {make.__name__: make(numbers, random.Random(seed)) for make in MAKERS if make.__name__ in names}
    write("pairs", [json.dumps(pairs).encode()])


# ---- the runs


def check(program, name, one):
    out = path_of("out.txt")
    status = child([program] + one.words, out)[0]
    if status != 0 or not filecmp.cmp(out, path_of(one.lines + ".lines"), shallow=False):
        sys.exit("%s: the program ends with %d, or gives another output than the wanted one" % (name, status))


def measure(program, name, pair, runs):
    """Prints the line of a pair."""
    times = {"part": [], "whole": []}
    for one in (pair.part, pair.whole):
        check(program, name, one)
    for _ in range(runs):
        for which, one in (("part", pair.part), ("whole", pair.whole)):
            times[which].append(child([program] + one.words, os.devnull)[1])
    best, median = ({which: pick(taken) for which, taken in times.items()} for pick in (min, statistics.median))
    print("%-14s %8.4f %8.4f %8.4f %8.4f %7.2f %7.2f   %s; %s" % (
        name, best["part"], median["part"], best["whole"], median["whole"], best["part"] / best["whole"],
        median["part"] / median["whole"], *pair.told), flush=True)


def main():
    parser = argparse.ArgumentParser(description=__doc__, formatter_class=argparse.RawDescriptionHelpFormatter)
    parser.add_argument("program")
    parser.add_argument("--data", metavar="FOLDER", help="make the data here, and leave it")
    parser.add_argument("--seed", type=int, default=1)
    parser.add_argument("--runs", type=int, default=9, help="so many runs of each")
    parser.add_argument("--only", nargs="+", choices=PAIRS, default=list(PAIRS), help="these pairs alone")
    parser.add_argument("--make", action="store_true", help="make the data into FOLDER and no more")
    options = parser.parse_args()
    if options.make:
        if not options.data:
            parser.error("--make needs --data")
        os.makedirs(options.data, exist_ok=True)
        run.DATA = options.data
        make_all(options.seed, options.only)
        return
    program = os.path.abspath(options.program)
    if not os.access(program, os.X_OK):
        sys.exit("%s: no program" % options.program)
    with tempfile.TemporaryDirectory(prefix="parts-") as room:
        run.DATA = os.path.abspath(options.data or room)
        # In a process of its own, whose memory is gone before a run is measured.
        subprocess.check_call([sys.executable, __file__, program, "--data", run.DATA, "--seed", str(options.seed),
                               "--make", "--only", *options.only])
        with open(path_of("pairs"), encoding="utf-8") as file:
            pairs = json.load(file)
        print("%-14s %17s %17s %15s" % ("", "part, seconds", "whole, seconds", "ratio"))
        print("%-14s %8s %8s %8s %8s %7s %7s   %s" % (
            "pair", "best", "median", "best", "median", "best", "median", "part; whole"))
        for name, (part, whole, told) in pairs.items():
            measure(program, name, Pair(Run(*part), Run(*whole), told), options.runs)


if __name__ == "__main__":
    main()
