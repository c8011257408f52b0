#!/usr/bin/env python3
"""Measures what hostile requests cost the built program: time and peak memory for each byte of the request.

    python3 tools/hostile/resources.py PROGRAM [--bytes N] [--most-memory N] [--only WORD] [--before PROGRAM]

PROGRAM is the built `scan_cli`. Each kind of request is made with half of N bytes and with N (16777216 unless it is said: the
most that a request has), and run by itself. The table has processor seconds, how many times as long the whole size takes as
half of it (2 is linear), peak memory, and how many bytes of memory that is for each byte of request. A run gets at most
--most-memory bytes (4000000000): where it needs more it ends with 70, and is marked. With --before each line stands there for
both programs.
"""
import argparse
import itertools
import os
import resource
import shutil
import subprocess
import sys
import tempfile
from collections import namedtuple

MOST_BYTES = 16777216
MOST_SECONDS = 300
OUT_OF_MEMORY = 70
MOST_ROWS, MOST_CODED_ROWS, MOST_NODES = 68719476736, 16777216, 400000

# `pieces` gives the text of a request of about so many bytes; `size` is the most that makes sense for a kind that isn't linear.
Kind = namedtuple("Kind", "what pieces words statuses size", defaults=(MOST_BYTES,))
SCAN, READ, TREE = ("scan", "SEGMENTS", "REQUEST"), ("read", "SEGMENTS", "REQUEST"), ("tree", "REQUEST")
# Two bytes, and two rows of them.
FILE = b"\0\0"
LOCATIONS = '"locations":[[0,2,1]]'


# ---- texts of requests

def filled(size, head, item, tail, between=","):
    """As many items as fit, each by its number."""
    yield head
    left, number = size - len(head) - len(tail), 0
    while True:
        text = (between if number else "") + item(number)
        left -= len(text)
        if left < 0:
            break
        yield text
        number += 1
    yield tail


def node(kind, rows=0, dtype='"u8"', **more):
    return '{"kind":"%s","dtype":%s,"rows":%d%s}' % (kind, dtype, rows, "".join(',"%s":%s' % pair for pair in more.items()))


LEAF = node("flat", segment=0)
TWO_ROWS = '"nodes":[%s]' % node("flat", 2, segment=0)


def json_list(item):
    return lambda size: filled(size, "[", lambda _: item, "]")


def members(item):
    return lambda size: filled(size, "{", item, "}")


def one_text(item):
    return lambda size: filled(size, '["', lambda _: item, '"]', "")


def with_list(name, item):
    return lambda size: filled(size, '{%s,%s,"%s":[' % (LOCATIONS, TWO_ROWS, name), item, "]}")


def packed(part, head=LOCATIONS + "," + TWO_ROWS):
    """A pack of this part under many names."""
    return lambda size: filled(size, '{%s,"projection":{"pack":[' % head, lambda number: '["%x",%s]' % (number, part), "]}}")


def locations(size):
    return filled(size, '{%s,"locations":[' % TWO_ROWS, lambda _: "[0,0,0]", "]}")


def struct_of(count):
    return '{"struct":[%s]}' % ",".join('["%x","u8"]' % number for number in range(count))


def many_fields(size):
    return filled(size, '{%s,"nodes":[{"kind":"chunked","rows":0,"children":[],"dtype":{"struct":[' % LOCATIONS, lambda number: '["%x","u8"]' % number, "]}}]}")


def got_fields(size):
    """A struct of many fields, each of which the projection gets."""
    count = size // 105
    yield '{%s,"nodes":[' % LOCATIONS + node("struct", 0, struct_of(count), children="[%s]" % ",".join(str(number + 1) for number in range(count)))
    yield from itertools.repeat("," + LEAF, count)
    yield '],"projection":{"pack":['
    yield ",".join('["%x",{"get":["%x","root"]}]' % (number, number) for number in range(count))
    yield "]}}"


def last_field(size):
    """The last one of many fields, many times."""
    count = size // 56
    head = '%s,"nodes":[%s]' % (LOCATIONS, node("chunked", 0, struct_of(count), children="[]"))
    return packed('{"get":["%x","root"]}' % (count - 1), head)(size)


def towers(nodes):
    """A root with many towers of these nodes; `nodes(first)` gives the texts of a tower whose first node has this number."""
    def pieces(size):
        tower = len(nodes(1))
        count = size // (sum(len(text) + 1 for text in nodes(MOST_NODES)) + 8)
        yield '{%s,"nodes":[' % LOCATIONS
        yield node("chunked", children="[%s]" % ",".join(str(1 + tower * number) for number in range(count)))
        for number in range(count):
            for text in nodes(1 + tower * number):
                yield "," + text
        yield "]}"
    return pieces


def leaves(_first):
    return [LEAF]


def chunk_tower(first):
    return [node("chunked", children="[%d]" % (first + at + 1)) for at in range(60)] + [LEAF]


def dictionary_tower(first):
    """Dictionaries whose values are dictionaries."""
    texts = []
    for at in range(0, 120, 2):
        texts += [node("dict", children="[%d,%d]" % (first + at + 2, first + at + 1)), LEAF]
    return texts + [LEAF]


def zones_of(first):
    fields = '{"struct":[["min","u8?"],["max","u8?"],["null_count","u64?"]]}'
    nullable, counts = node("flat", 0, '"u8?"', segment=0), node("flat", 0, '"u64?"', segment=0)
    return [node("zoned", children="[%d,%d]" % (first + 1, first + 2), zone_len=1, stats='["min","max","null_count"]'), LEAF,
            node("struct", 0, fields, children="[%d,%d,%d]" % (first + 3, first + 4, first + 5)), nullable, nullable, counts]


def balanced(size):
    """`and` over `and`, as deep as a projection may nest."""
    part = '{"is_null":"root"}'
    depth = 12
    for _ in range(depth):
        part = '{"and":[%s,%s]}' % (part, part)
    return packed(part)(max(size, len(part) + 200))


def one_literal(size):
    yield '{%s,%s,"projection":{"lit":"' % (LOCATIONS, TWO_ROWS)
    yield "a" * (size - 150)
    yield '","type":"utf8"}}'


def roots_over_fields(size):
    """Many roots in a pack, over a struct of many fields."""
    count = size // 31
    head = '%s,"nodes":[%s]' % (LOCATIONS, node("chunked", 0, struct_of(count), children="[]"))
    return packed('"root"', head)(size)


def packs_over_fields(size):
    """Forty packs inside one another, over a struct of many fields: the most that the brackets of a request allow."""
    part = '"root"'
    for _ in range(40):
        part = '{"pack":[["",%s]]}' % part
    return filled(size, '{%s,"projection":%s,"nodes":[{"kind":"chunked","rows":0,"children":[],"dtype":{"struct":[' % (LOCATIONS, part),
                  lambda number: '["%x","u8"]' % number, "]}}]}")


def claims(rows, dtype="u8", coding="plain", **more):
    def pieces(_size):
        yield '{%s,"nodes":[%s]%s}' % (LOCATIONS, node("flat", rows, '"%s"' % dtype, segment=0, coding='"%s"' % coding),
                                       "".join(',"%s":%s' % pair for pair in more.items()))
    return pieces


def two_in_each_chunk(size):
    """Row numbers of which each two are the first and the last row of a chunk of the scan."""
    def item(number):
        return str(number // 2 * 65536 + number % 2 * 65535)
    return filled(size, '{%s,"nodes":[%s],"indices":[' % (LOCATIONS, node("flat", MOST_ROWS, segment=0)), item, "]}")


def over_rows(part):
    """An expression with a literal at each place of it that says TEXT, over 65536 equal rows."""
    def pieces(size):
        text = "a" * (size // part.count("TEXT") - 150)
        yield '{"locations":[[0,1,1]],"nodes":[%s],"projection":%s}' % (
            node("flat", 65536, segment=0, coding='"constant"'), part.replace("TEXT", '{"lit":"%s","type":"utf8"}' % text))
    return pieces


def claimed_values(_size):
    """A dictionary of two rows whose values claim as many rows as there may be."""
    yield '{%s,"nodes":[%s,%s,%s]}' % (LOCATIONS, node("dict", 2, children="[1,2]"), node("flat", MOST_ROWS, segment=0), node("flat", 2, segment=0))


KINDS = [
    Kind("JSON: objects of one member, `{\"\":0}`", json_list('{"":0}'), TREE, (10,)),
    Kind("JSON: empty objects", json_list("{}"), TREE, (10,)),
    Kind("JSON: lists 100 deep", json_list("[" * 100 + "]" * 100), TREE, (10,)),
    Kind("JSON: numbers", json_list("0"), TREE, (10,)),
    Kind("JSON: empty texts", json_list('""'), TREE, (10,)),
    Kind("JSON: texts of a letter", json_list('"a"'), TREE, (10,)),
    Kind("JSON: one text", one_text("abcdefgh"), TREE, (10,)),
    Kind("JSON: one text of escapes", one_text("\\u0041"), TREE, (10,)),
    Kind("JSON: one number", lambda size: iter(["[", "7" * (size - 2), "]"]), TREE, (10,)),
    Kind("JSON: one fraction", lambda size: iter(["[0.", "7" * (size - 4), "]"]), TREE, (10,)),
    Kind("JSON: members of many names", members(lambda number: '"%x":0' % number), TREE, (10,)),
    Kind("JSON: members of one name", members(lambda _: '"a":0'), TREE, (10,)),
    Kind("JSON: blanks", lambda size: iter([" " * size]), TREE, (10,)),
    Kind("locations", locations, TREE, (0,)),
    Kind("`locations` of numbers", with_list("locations", lambda _: "0"), TREE, (10,)),
    Kind("`nodes` of `{\"\":0}`", lambda size: filled(size, '{%s,"nodes":[' % LOCATIONS, lambda _: '{"":0}', "]}"), TREE, (10,)),
    Kind("indices", with_list("indices", str), SCAN, (0,)),
    Kind("exclusions", with_list("exclude", str), SCAN, (0,)),
    Kind("nodes without a parent", lambda size: filled(size, '{%s,"nodes":[%s,' % (LOCATIONS, LEAF), lambda _: LEAF, "]}"), TREE, (11,)),
    Kind("leaves under one root", towers(leaves), SCAN, (0,)),
    Kind("leaves under one root, the plan", towers(leaves), TREE, (0,)),
    Kind("towers of 60 chunked nodes", towers(chunk_tower), SCAN, (0,)),
    Kind("towers of 60 dictionaries", towers(dictionary_tower), SCAN, (0,)),
    Kind("zoned nodes", towers(zones_of), SCAN, (0,)),
    Kind("zoned nodes, read", towers(zones_of), READ, (0,)),
    Kind("fields of a dtype", many_fields, TREE, (0,)),
    Kind("fields with a node and a `get` each", got_fields, SCAN, (0,)),
    Kind("the last of many fields, many times", last_field, SCAN, (0,)),
    Kind("a pack of literals", packed('{"lit":0,"type":"u8"}'), TREE, (0,)),
    Kind("a pack of row numbers", packed('"row_idx"'), TREE, (0,)),
    Kind("a pack of roots", packed('"root"'), TREE, (0,)),
    Kind("a pack of empty packs", packed('{"pack":[]}'), TREE, (0,)),
    Kind("a pack of `is_null` 20 deep", packed('{"is_null":' * 20 + '"root"' + "}" * 20), TREE, (0,)),
    Kind("`and` of `and`, 12 deep", balanced, TREE, (0,)),
    Kind("one literal", one_literal, TREE, (0,)),
    Kind("a pack of roots over many fields", roots_over_fields, SCAN, (0,), 62000),
    Kind("40 packs in one another over many fields", packs_over_fields, SCAN, (0,)),
    Kind("a flat of 68719476736 rows over two bytes", claims(MOST_ROWS), SCAN, (17,)),
    Kind("the same, read", claims(MOST_ROWS), READ, (17,)),
    Kind("the same, one row by number", claims(MOST_ROWS, indices="[7]"), SCAN, (17,)),
    Kind("the same, the first row", claims(MOST_ROWS, limit="1"), SCAN, (17,)),
    Kind("the same, two rows of each chunk", two_in_each_chunk, SCAN + ("--workers", "1"), (17,), 500000),
    Kind("68719476736 rows of a literal, the first 10", claims(MOST_ROWS, limit="10", projection='{"lit":1,"type":"u8"}'), SCAN, (0,)),
    Kind("10000000 of these", claims(MOST_ROWS, limit="10000000", projection='{"lit":1,"type":"u8"}'), SCAN, (0,)),
    Kind("two rows of a dictionary whose values claim 68719476736 rows over two bytes", claimed_values, SCAN, (17,)),
    Kind("65536 rows of whether two literals are equal", over_rows('{"eq":[TEXT,TEXT]}'), SCAN, (0,), 200000),
    Kind("65536 rows of whether a literal in a pack is null", over_rows('{"is_null":{"get":["b",{"pack":[["a","row_idx"],["b",TEXT]]}]}}'), SCAN, (0,), 20000),
    Kind("16777216 equal rows, one index", claims(MOST_CODED_ROWS, "u16", "constant", indices="[7]"), SCAN, (0,)),
    Kind("16777216 equal rows, read", claims(MOST_CODED_ROWS, "u16", "constant"), READ, (0,)),
    Kind("1000000 equal rows, read one by one", claims(1000000, "u16", "constant"), READ + ("--split", "rows:1"), (0,)),
]

# What a run came to: its status, its processor seconds and its peak memory in bytes.
Used = namedtuple("Used", "status seconds memory")


# ---- runs

def written(path, pieces):
    """Writes a request, and gives its length."""
    with open(path, "w", encoding="utf-8") as file:
        file.writelines(pieces)
    return os.path.getsize(path)


def run(program, words, most_memory):
    def limited():
        resource.setrlimit(resource.RLIMIT_AS, (most_memory, most_memory))
        resource.setrlimit(resource.RLIMIT_CPU, (MOST_SECONDS, MOST_SECONDS))

    process = subprocess.Popen([program] + words, stdin=subprocess.DEVNULL, stdout=subprocess.DEVNULL, stderr=subprocess.DEVNULL, preexec_fn=limited)
    _, status, used = os.wait4(process.pid, 0)
    process.returncode = 0
    return Used(os.waitstatus_to_exitcode(status), used.ru_utime + used.ru_stime, used.ru_maxrss * 1024)


def line_of(kind, programs, size, most_memory, folder):
    """The line of the table for this kind, and what is bad about it."""
    request, segments = os.path.join(folder, "request"), os.path.join(folder, "segments")
    names = {"SEGMENTS": segments, "REQUEST": request}
    words = [names.get(word, word) for word in kind.words]
    size = min(size, kind.size)
    halves, wholes, bad = [], [], []
    written(request, kind.pieces(size // 2))
    halves = [run(program, words, most_memory) for program in programs]
    length = written(request, kind.pieces(size))
    wholes = [run(program, words, most_memory) for program in programs]
    cells = []
    for half, whole in zip(halves, wholes):
        is_short = whole.status == OUT_OF_MEMORY
        if whole.status not in kind.statuses and not is_short:
            bad.append("%s: status %s" % (kind.what, whole.status))
        times = "%.1f" % (whole.seconds / half.seconds) if half.seconds > 0.05 else ""
        cells += ["%s%d" % ("over the limit: " if is_short else "", whole.status), "%.2f" % whole.seconds, times,
                  "%d" % (whole.memory // 1_000_000), "%.0f" % (whole.memory / length) if length > 20000 else ""]
    return "| %s | `%s` | %d | %s |" % (kind.what, kind.words[0], length, " | ".join(cells)), bad


def main():
    words = argparse.ArgumentParser(description=__doc__, formatter_class=argparse.RawDescriptionHelpFormatter)
    words.add_argument("program")
    words.add_argument("--before", metavar="PROGRAM", help="another build, whose figures stand first")
    words.add_argument("--bytes", type=int, default=MOST_BYTES, metavar="N", help="how many bytes a request has")
    words.add_argument("--most-memory", type=int, default=4_000_000_000, metavar="N", help="how much memory a run gets")
    words.add_argument("--only", metavar="WORD", help="only the kinds with this word in what they are")
    asked = words.parse_args()
    programs = [os.path.abspath(program) for program in (asked.before, asked.program) if program]
    columns = ["status", "s", "times", "MB", "bytes a byte"] * len(programs)
    print("| request | mode | bytes | %s |\n|---|---|---|%s" % (" | ".join(columns), "---|" * len(columns)))
    bad, folder = [], tempfile.mkdtemp(prefix="hostile-")
    try:
        with open(os.path.join(folder, "segments"), "wb") as file:
            file.write(FILE)
        for kind in KINDS:
            if not asked.only or asked.only in kind.what:
                line, wrong = line_of(kind, programs, asked.bytes, asked.most_memory, folder)
                print(line, flush=True)
                bad += wrong
    finally:
        shutil.rmtree(folder)
    for line in bad:
        print("BAD", line)
    sys.exit(1 if bad else 0)


if __name__ == "__main__":
    main()
