#!/usr/bin/env python3
"""Runs the built program on made data, and prints times and memory beside those of a plain program.

    python3 bench/run.py PROGRAM [--before PROGRAM] [--seed N] [--runs N] [--only NAME ..]

PROGRAM is the built program, crates/scan_cli/out/scan_cli after a run or a check. The script makes its
data from the seed into bench/data/, builds plain.rs there by rustc, checks each output against its own, and then
runs all in turns with their output thrown away: `scan` with one worker, the plain program, and `read`, whose time
stands beside that of `scan`. Times are processor seconds, user and system.
"""
import argparse
import array
import filecmp
import json
import os
import random
import statistics
import subprocess
import sys
from collections import namedtuple

HERE = os.path.dirname(os.path.abspath(__file__))
DATA = os.path.join(HERE, "data")
MILLION = 1_000_000
FIELDS = 50

# `values` names the files of the segments and of the lines that are wanted; `most` is how many times as long as
# the plain program it should take at the most.
DataSet = namedtuple("DataSet", "values rows runs most")
DATA_SETS = {
    "one_flat": DataSet("million", MILLION, 9, 2),
    "chunks_128": DataSet("million", MILLION, 9, 2),
    "first_quarter": DataSet("quarter", MILLION // 4, 9, 2),
    "ten_flat": DataSet("ten_million", 10 * MILLION, 5, 2),
    "ten_chunks": DataSet("ten_million", 10 * MILLION, 5, 2),
    "struct_50": DataSet("struct", 100_000, 9, None),
    "dict_texts": DataSet("dict", MILLION, 9, 2.5),
    "texts": DataSet("texts", MILLION, 9, 2.5),
    "leaves_290000": DataSet("one", 290_000, 5, None),
    "runs_plain": DataSet("runs_plain", 10 * MILLION, 5, None),
    "runs_coded": DataSet("runs_coded", 10 * MILLION, 5, None),
}
# Two data sets, and how many times the first one's time the second one's may be at the most.
COMPARED = [
    ("first_quarter", "chunks_128", 4.2), ("one_flat", "ten_flat", 10.5), ("chunks_128", "ten_chunks", 10.5),
    ("runs_plain", "runs_coded", 0.8)]
# The data set whose root is no column, so that the layout's readers don't read it; how many times as long as `scan` `read`
# should take at the most for the others.
NOT_READ, READ_MOST = "struct_50", 1.5
# How many rows a run has, and how many a flat in runs; at least how many times as many bytes the plain segments have.
RUN_ROWS, FLAT_ROWS, LEAST_SAVED = 1000, 65536, 50


def flat(rows, segment, dtype="i64", **more):
    return {"kind": "flat", "dtype": dtype, "rows": rows, "segment": segment, **more}


def inner(kind, dtype, rows, count):
    """A node whose children are the nodes 1 to `count`."""
    return {"kind": kind, "dtype": dtype, "rows": rows, "children": list(range(1, count + 1))}


def one_after_another(lengths):
    """Where segments of these lengths lie that follow each other in the file."""
    places, offset = [], 0
    for length in lengths:
        places.append([offset, length, 1])
        offset += length
    return places


def in_chunks(rows, count):
    """Where the segments lie of rows in so many chunks, and the nodes."""
    return chunks_of(rows, -(-rows // count))


def chunks_of(rows, size):
    """The same for chunks of so many rows."""
    sizes = [min(size, rows - start) for start in range(0, rows, size)]
    leaves = [flat(size, segment) for segment, size in enumerate(sizes)]
    return one_after_another([8 * size for size in sizes]), [inner("chunked", "i64", rows, len(leaves))] + leaves


def path_of(name):
    return os.path.join(DATA, name)


def write(name, parts):
    with open(path_of(name), "wb") as out:
        out.writelines(parts)


def write_values(name, segments, lines):
    write(name + ".seg", segments)
    write(name + ".lines", lines)


def write_request(name, locations, nodes):
    request = json.dumps({"locations": locations, "nodes": nodes}, separators=(",", ":"))
    write(name + ".json", [request.encode()])


def bytes_of(kind, numbers):
    """Numbers as little-endian bytes; the kind is a letter of the module array."""
    made = array.array(kind, numbers)
    if sys.byteorder == "big":
        made.byteswap()
    return made.tobytes()


def bytes_of_texts(texts):
    """A segment of texts: the lengths, then the texts."""
    encoded = [text.encode() for text in texts]
    return bytes_of("I", map(len, encoded)) + b"".join(encoded)


def lines_of(values):
    return "".join(json.dumps(value, ensure_ascii=False) + "\n" for value in values).encode()


def random_numbers(rng, count):
    return [rng.randrange(-(2**63), 2**63) >> rng.randrange(0, 64) for _ in range(count)]


def random_texts(rng, count):
    """Texts of 0 to 23 characters, a few of them with characters that are escaped or not ASCII."""
    letters = "abcdefghijklmnopqrstuvwxyz     0123456789" * 8 + "\"\\\n\té漢"
    source = "".join(rng.choices(letters, k=100_000))
    places = ((int(rng.random() * 99_000), int(rng.random() * 24)) for _ in range(count))
    return [source[place : place + length] for place, length in places]


def make_columns(numbers):
    """One column of numbers, flat and in chunks."""
    segment, lines = bytes_of("q", numbers), lines_of(numbers)
    write_values("million", [segment], [lines])
    write_values("quarter", [segment[: 2 * MILLION]], [lines_of(numbers[: MILLION // 4])])
    write_values("ten_million", [segment] * 10, [lines] * 10)
    write_request("one_flat", one_after_another([8 * MILLION]), [flat(MILLION, 0)])
    write_request("chunks_128", *in_chunks(MILLION, 128))
    write_request("first_quarter", *in_chunks(MILLION // 4, 32))
    write_request("ten_flat", one_after_another([80 * MILLION]), [flat(10 * MILLION, 0)])
    write_request("ten_chunks", *in_chunks(10 * MILLION, 1280))
    make_leaves(numbers)


def make_leaves(numbers):
    """One number, in many leaves of one row."""
    leaves = DATA_SETS["leaves_290000"].rows
    write_values("one", [bytes_of("q", numbers[:1])], [lines_of(numbers[:1]) * leaves])
    write_request("leaves_290000", [[0, 8, 8]], [inner("chunked", "i64", leaves, leaves)] + [flat(1, 0)] * leaves)


def bytes_of_runs(runs, rows):
    """The segment of these rows in runs: how many there are, where each ends, and its number."""
    inside = range(rows.start // RUN_ROWS, (rows.stop - 1) // RUN_ROWS + 1)
    ends = [min((run + 1) * RUN_ROWS, rows.stop) - rows.start for run in inside]
    return bytes_of("I", [len(ends)]) + bytes_of("Q", ends) + bytes_of("q", runs[inside.start : inside.stop])


def make_runs(numbers):
    """Ten million rows in runs of a thousand, in plain flats and in coded ones."""
    apart = [number for place, number in enumerate(numbers) if place == 0 or number != numbers[place - 1]]
    runs, count = apart[: 10 * MILLION // RUN_ROWS], 10 * MILLION
    whole = memoryview(b"".join(bytes_of("q", [number]) * RUN_ROWS for number in runs))
    parts = [range(start, min(start + FLAT_ROWS, count)) for start in range(0, count, FLAT_ROWS)]
    plain = [whole[8 * part.start : 8 * part.stop] for part in parts]
    coded = [bytes_of_runs(runs, part) for part in parts]
    write_values("runs_plain", plain, (b"%d\n" % number * RUN_ROWS for number in runs))
    write("runs_coded.seg", coded)
    if not os.path.exists(path_of("runs_coded.lines")):
        os.link(path_of("runs_plain.lines"), path_of("runs_coded.lines"))  # the same rows
    for name, segments, more in (("runs_plain", plain, {}), ("runs_coded", coded, {"coding": "runs"})):
        leaves = [flat(len(part), segment, **more) for segment, part in enumerate(parts)]
        write_request(name, one_after_another(map(len, segments)), [inner("chunked", "i64", count, len(leaves))] + leaves)


def make_struct(numbers, rows):
    """Fifty columns of numbers side by side, each in one segment."""
    names = ["field_%d" % place for place in range(FIELDS)]
    # Each field is another piece of the numbers, and none lies beside its neighbour's.
    starts = [(place * 7 * rows // 3) % (len(numbers) - rows) for place in range(FIELDS)]
    fields = [numbers[start : start + rows] for start in starts]
    form = "{" + ",".join('"%s":%%d' % name for name in names) + "}\n"
    lines = "".join(form % row for row in zip(*fields))
    write_values("struct", [bytes_of("q", field) for field in fields], [lines.encode()])
    dtype = {"struct": [[name, "i64"] for name in names]}
    nodes = [inner("struct", dtype, rows, FIELDS)] + [flat(rows, place) for place in range(FIELDS)]
    write_request("struct_50", one_after_another([8 * rows] * FIELDS), nodes)


def make_texts(rng):
    """A column of texts, and one of codes of sixteen texts."""
    texts = random_texts(rng, MILLION)
    segment = bytes_of_texts(texts)
    write_values("texts", [segment], [lines_of(texts)])
    write_request("texts", one_after_another([len(segment)]), [flat(MILLION, 0, "utf8")])
    values, codes = [text for text in texts if len(text) > 7][:16], bytes(rng.choices(range(16), k=MILLION))
    lines = [lines_of([value]) for value in values]
    segments = [bytes_of_texts(values), codes]
    write_values("dict", segments, [lines[code] for code in codes])
    nodes = [inner("dict", "utf8", MILLION, 2), flat(16, 0, "utf8"), flat(MILLION, 1, "u8")]
    write_request("dict_texts", one_after_another(map(len, segments)), nodes)


def make_all(seed):
    os.makedirs(DATA, exist_ok=True)
    rng = random.Random(seed)
    numbers = random_numbers(rng, MILLION)
    make_columns(numbers)
    make_runs(numbers)
    make_struct(numbers, DATA_SETS["struct_50"].rows)
    make_texts(rng)


def child(arguments, out):
    """Status, processor seconds and peak bytes of one process whose output goes to a file."""
    with open(out, "wb") as sink:
        process = subprocess.Popen(arguments, stdout=sink, stderr=subprocess.DEVNULL)
        _, status, used = os.wait4(process.pid, 0)
    return os.waitstatus_to_exitcode(status), used.ru_utime + used.ru_stime, used.ru_maxrss * 1024


def build_plain():
    """Builds the plain program beside the data, and gives its path."""
    plain = path_of("plain")
    subprocess.check_call(["rustc", "--edition", "2021", "-O", "-o", plain, os.path.join(HERE, "plain.rs")])
    return plain


def is_right(arguments, name, values):
    """Whether the output is the lines that are wanted."""
    out = path_of("out.txt")
    return child(arguments, out)[0] == 0 and filecmp.cmp(out, path_of(values + ".lines"), shallow=False)


def measure(programs, name, most_runs):
    """The best seconds of the proved program, after a line is printed."""
    values, rows, runs, most = DATA_SETS[name]
    words = [path_of(values + ".seg"), path_of(name + ".json")]
    asked = {one: command + words for one, command in programs.items() if one != "read" or name != NOT_READ}
    right = {one: arguments for one, arguments in asked.items() if is_right(arguments, name, values)}
    for one in asked:
        if one not in right and one != "before":
            sys.exit("%s: the %s program gives another output than the wanted one" % (name, one))
    times, peaks = {one: [] for one in right}, {one: 0 for one in right}
    for _ in range(min(runs, most_runs)):
        for one, arguments in right.items():
            _, taken, used = child(arguments, os.devnull)
            times[one].append(taken)
            peaks[one] = max(peaks[one], used)
    best, median = ({one: pick(all_taken) for one, all_taken in times.items()} for pick in (min, statistics.median))
    ratios = [seconds["proved"] / seconds["plain"] for seconds in (best, median)]
    print("%-14s %8.4f %8.4f %8.4f %8.4f %7.2f %7.2f %5s %9.1f %9.1f %9.1f" % (
        name, best["proved"], median["proved"], best["plain"], median["plain"], *ratios, most or "",
        peaks["proved"] / 1e6, peaks["plain"] / 1e6, peaks["proved"] / rows), flush=True)
    if "read" in right:
        ratios = [seconds["read"] / seconds["proved"] for seconds in (best, median)]
        line = "%-14s %8.4f %8.4f %17s %7.2f %7.2f %5s %9.1f   of scan's time"
        print(line % ("  read", best["read"], median["read"], "", *ratios, READ_MOST, peaks["read"] / 1e6), flush=True)
    if "before" in right:
        ratios = [seconds["proved"] / seconds["before"] for seconds in (best, median)]
        line = "%-14s %8.4f %8.4f %17s %7.2f %7.2f"
        print(line % ("  before", best["before"], median["before"], "", *ratios), flush=True)
    return best["proved"]


def main():
    parser = argparse.ArgumentParser(description=__doc__)
    parser.add_argument("program")
    parser.add_argument("--before", metavar="PROGRAM", help="an earlier build, timed too where its output is right")
    parser.add_argument("--seed", type=int, default=1)
    parser.add_argument("--runs", type=int, default=9, help="at most so many runs of each data set")
    parser.add_argument("--only", nargs="+", choices=DATA_SETS, default=list(DATA_SETS), help="these data sets alone")
    parser.add_argument("--make", action="store_true", help="make the data and no more")
    options = parser.parse_args()
    if options.make:
        make_all(options.seed)
        return
    # In a process of its own: a child's peak memory counts from the size of the one that starts it.
    subprocess.check_call([sys.executable, __file__, options.program, "--seed", str(options.seed), "--make"])
    programs = {
        "proved": [options.program, "scan", "--workers", "1"], "plain": [build_plain()],
        "read": [options.program, "read"]}
    if options.before:
        programs["before"] = [options.before, "scan", "--workers", "1"]
    print("%-14s %17s %17s %21s %19s %9s" % ("", "proved, seconds", "plain, seconds", "ratio", "peak MB", "proved"))
    print("%-14s %8s %8s %8s %8s %7s %7s %5s %9s %9s %9s" % (
        "data set", "best", "median", "best", "median", "best", "median", "most", "proved", "plain", "bytes/row"))
    best = {name: measure(programs, name, options.runs) for name in options.only}
    for one, other, most in COMPARED:
        if one in best and other in best:
            print("from %s to %s: x %.2f (at most %s)" % (one, other, best[other] / best[one], most))
    if "runs_coded" in best:
        plain, coded = (os.path.getsize(path_of(name + ".seg")) for name in ("runs_plain", "runs_coded"))
        print("segments of runs_plain: %d bytes, of runs_coded: %d, %.0f times fewer (at least %d)" % (
            plain, coded, plain / coded, LEAST_SAVED))


if __name__ == "__main__":
    main()
