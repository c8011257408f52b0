#!/usr/bin/env python3
"""Runs the built program with one, two and four workers on made data, and prints the seconds on the clock.

    python3 bench/workers.py PROGRAM [--seed N] [--runs N] [--only NAME ..]

It makes the data of run.py and two more sets into bench/data/, checks each output, and runs all in turns with the output
thrown away. `plain` is the plain program of run.py, which has one thread.
"""
import argparse
import array
import json
import random
import subprocess
import sys
import time

import run
from run import MILLION, DATA_SETS, DataSet, bytes_of, bytes_of_texts, is_right, one_after_another, path_of

COUNTS = [1, 2, 4]
# How much of one worker's time four may take at the most.
MOST = {"ten_chunks": 0.45, "texts_and_sums": 0.35, "ten_flat": 1.0, "many_texts": 0.5}
PLACES = 64
TIMES = 10
CODES = 65536


def make_texts_and_sums(seed):
    """A struct of numbers and texts in chunks, of which a text, a sum and a test are projected: a million rows, ten times."""
    rng = random.Random(seed + 1)
    size = MILLION // PLACES
    numbers = [rng.randrange(-(10**9), 10**9) for _ in range(MILLION)]
    texts = run.random_texts(rng, MILLION)
    segments, columns = [], {"number": [], "text": []}
    for place in range(PLACES):
        part = slice(place * size, (place + 1) * size)
        columns["number"].append(len(segments))
        segments.append(bytes_of("q", numbers[part]))
        columns["text"].append(len(segments))
        segments.append(bytes_of_texts(texts[part]))
    rows, shared = TIMES * MILLION, len(segments)
    nodes = [{"kind": "struct", "dtype": {"struct": [["number", "i64"], ["text", "utf8"]]}, "rows": rows, "children": []}]
    for name, dtype in (("number", "i64"), ("text", "utf8")):
        nodes[0]["children"].append(len(nodes))
        first = len(nodes) + 1
        leaves = [run.flat(size, turn * shared + segment, dtype) for turn in range(TIMES) for segment in columns[name]]
        nodes.append({"kind": "chunked", "dtype": dtype, "rows": rows, "children": list(range(first, first + len(leaves)))})
        nodes += leaves
    number, text = {"get": ["number", "root"]}, {"get": ["text", "root"]}
    total = {"add": [{"mul": [number, {"lit": 3, "type": "i64"}]}, {"lit": 7, "type": "i64"}]}
    positive = {"gt": [number, {"lit": 0, "type": "i64"}]}
    request = {
        "locations": one_after_another([len(segment) for segment in segments] * TIMES),
        "nodes": nodes,
        "projection": {"pack": [["sum", total], ["text", text], ["positive", positive]]},
    }
    run.write("texts_and_sums.json", [json.dumps(request, separators=(",", ":")).encode()])
    lines = (
        '{"sum":%d,"text":%s,"positive":%s}\n' % (n * 3 + 7, json.dumps(t, ensure_ascii=False), "true" if n > 0 else "false")
        for n, t in zip(numbers, texts)
    )
    run.write_values("texts_and_sums", segments * TIMES, ["".join(lines).encode()] * TIMES)


def make_many_texts(seed):
    """A dictionary of a million texts under ten million codes, the texts in one segment and the codes in many."""
    rng = random.Random(seed + 2)
    texts = run.random_texts(rng, MILLION)
    sizes = [min(CODES, 10 * MILLION - start) for start in range(0, 10 * MILLION, CODES)]
    codes = [array.array("I", rng.choices(range(MILLION), k=size)) for size in sizes]
    segments = [bytes_of_texts(texts)] + [bytes_of("I", part) for part in codes]
    lines = [run.lines_of([text]) for text in texts]
    run.write_values("many_texts", segments, (b"".join([lines[code] for code in part]) for part in codes))
    nodes = [
        {"kind": "dict", "dtype": "utf8", "rows": 10 * MILLION, "children": [1, 2]},
        run.flat(MILLION, 0, "utf8"),
        {"kind": "chunked", "dtype": "u32", "rows": 10 * MILLION, "children": list(range(3, 3 + len(sizes)))},
    ]
    nodes += [run.flat(size, place + 1, "u32") for place, size in enumerate(sizes)]
    run.write_request("many_texts", one_after_another(map(len, segments)), nodes)


def seconds(command):
    """How long a command takes on the clock, its output thrown away."""
    begun = time.monotonic()
    subprocess.check_call(command, stdout=subprocess.DEVNULL)
    return time.monotonic() - begun


def measure(program, plain, name, runs):
    values = DATA_SETS[name].values
    words = [path_of(values + ".seg"), path_of(name + ".json")]
    commands = {count: [program, "scan", *words, "--workers", str(count)] for count in COUNTS}
    for count, command in commands.items():
        if not is_right(command, name, values):
            sys.exit("%s: %d workers give another output than the wanted one" % (name, count))
    if is_right([plain, *words], name, values):
        commands["plain"] = [plain, *words]
    best = dict.fromkeys(commands, float("inf"))
    for _ in range(runs):
        for key, command in commands.items():
            best[key] = min(best[key], seconds(command))
    told = "  ".join("%s %.3f" % (key, best[key]) for key in best)
    print("%-16s %s  four of one %.2f (at most %s)" % (name, told, best[4] / best[1], MOST.get(name, "-")), flush=True)


def main():
    parser = argparse.ArgumentParser(description=__doc__.splitlines()[0])
    parser.add_argument("program")
    parser.add_argument("--seed", type=int, default=1)
    parser.add_argument("--runs", type=int, default=5)
    parser.add_argument("--only", nargs="+")
    options = parser.parse_args()
    DATA_SETS["texts_and_sums"] = DataSet("texts_and_sums", TIMES * MILLION, 5, None)
    DATA_SETS["many_texts"] = DataSet("many_texts", 10 * MILLION, 5, None)
    run.make_all(options.seed)
    make_texts_and_sums(options.seed)
    make_many_texts(options.seed)
    plain = run.build_plain()
    names = options.only or ["ten_chunks", "ten_flat", "chunks_128", "struct_50", "dict_texts", "texts", "texts_and_sums", "many_texts"]
    for name in names:
        measure(options.program, plain, name, options.runs)


if __name__ == "__main__":
    main()
