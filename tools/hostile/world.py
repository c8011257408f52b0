"""Requests with their segment files, and runs of the program in surroundings of one's own choice."""
import array
import json
import os
import shutil
import subprocess
import sys
import tempfile
from collections import namedtuple

HERE = os.path.dirname(os.path.abspath(__file__))
COUNTED = ("allocations", "open", "statx", "lseek", "read", "pread", "write", "say", "close", "thread", "done")
# A run that takes longer waits for something that never comes.
SECONDS = 60

# `file` has the bytes of the segments, `request` those of the request; `runs` are pairs of words and the status that they
# end with. In the words SEGMENTS and REQUEST stand for the names of the files.
World = namedtuple("World", "name file request runs")
Answer = namedtuple("Answer", "status out said counts")


# ---- segments

def bits(truths):
    got = bytearray(-(-len(truths) // 8))
    for row, truth in enumerate(truths):
        got[row // 8] |= bool(truth) << row % 8
    return bytes(got)


def spelled(dtype, values):
    """The plain segment of these values (docs/FORMATS.md, "A segment"); None is a null."""
    sort, validity = dtype.rstrip("?"), b""
    if dtype.endswith("?"):
        validity = bits([value is not None for value in values])
    if sort == "bool":
        return validity + bits([bool(value) for value in values])
    if sort == "utf8":
        texts = [(value or "").encode() for value in values]
        return validity + b"".join(len(text).to_bytes(4, "little") for text in texts) + b"".join(texts)
    width = int(sort[1:]) // 8
    return validity + b"".join((value or 0).to_bytes(width, "little", signed=sort[0] == "i") for value in values)


def in_runs(dtype, values):
    """The same values as runs of equal rows."""
    ends, firsts = [], []
    for row, value in enumerate(values):
        if not firsts or value != firsts[-1]:
            ends.append(row)
            firsts.append(value)
        ends[-1] = row + 1
    return len(ends).to_bytes(4, "little") + b"".join(end.to_bytes(8, "little") for end in ends) + spelled(dtype, firsts)


class Layout:
    """Nodes and segments, added one after another."""

    def __init__(self):
        self.file, self.locations, self.nodes = b"", [], []

    def segment(self, data):
        self.locations.append([len(self.file), len(data), 1])
        self.file += data
        return len(self.locations) - 1

    def node(self, kind, dtype, rows, **more):
        self.nodes.append({"kind": kind, "dtype": dtype, "rows": rows, **more})
        return len(self.nodes) - 1

    def flat(self, dtype, values, coding=None):
        data = spelled(dtype, values)
        if coding == "runs":
            data = in_runs(dtype, values)
        elif coding == "constant":
            data = spelled(dtype, values[:1])
        more = {"coding": coding} if coding else {}
        return self.node("flat", dtype, len(values), segment=self.segment(data), **more)

    def parent(self, kind, dtype, rows, **more):
        """A node whose children are added behind it, by `adopt`."""
        return self.node(kind, dtype, rows, children=[], **more)

    def adopt(self, parent, child):
        self.nodes[parent]["children"].append(child)

    def world(self, name, runs, **members):
        request = {"locations": self.locations, "nodes": self.nodes, **members}
        return World(name, self.file, json.dumps(request).encode(), runs)


# ---- worlds

SCAN, READ, TREE = ("scan", "SEGMENTS", "REQUEST"), ("read", "SEGMENTS", "REQUEST"), ("tree", "REQUEST")
ONE, TWO, FOUR = ("--workers", "1"), ("--workers", "2"), ("--workers", "4")


def in_chunks(layout, dtype, chunks):
    parent = layout.parent("chunked", dtype, sum(map(len, chunks)))
    for values in chunks:
        layout.adopt(parent, layout.flat(dtype, values))
    return parent


def dictionary(layout, dtype, values, rows, codes, chunks):
    parent = layout.parent("dict", dtype, rows)
    layout.adopt(parent, layout.flat("utf8", values))
    layout.adopt(parent, in_chunks(layout, codes, chunks))
    return parent


def three_numbers():
    layout = Layout()
    layout.flat("i64", [1, 2, 300])
    return layout.world("three numbers", [(SCAN, 0), (SCAN + ONE, 0), (READ, 0), (TREE, 0)])


def shared_dictionary():
    """Two chunks of rows, both of which need the values of one dictionary."""
    layout = Layout()
    dictionary(layout, "utf8", ["a", "b"], 65537, "u8", [[0] * 65536, [1]])
    return layout.world("a dictionary that two workers share", [(SCAN + TWO, 0), (SCAN + ONE, 0), (READ, 0), (TREE, 0)])


def demo_layout(rows):
    """The demo file (docs/FORMATS.md, "The demo file")."""
    layout, size = Layout(), 8192
    starts = range(0, rows, size)

    def parts(value):
        return [[value(row) for row in range(start, min(start + size, rows))] for start in starts]

    root = layout.parent("struct", {"struct": [["id", "i64"], ["name", "utf8?"], ["flag", "bool"]]}, rows)
    layout.adopt(root, in_chunks(layout, "i64", parts(lambda row: (31 * row + rows) % 1000)))
    layout.adopt(root, dictionary(layout, "utf8?", ["n%d" % value for value in range(16)], rows, "u8?",
                                  parts(lambda row: None if row % 7 == 3 else row % 16)))
    layout.adopt(root, in_chunks(layout, "bool", parts(lambda row: row % 3 == 0)))
    return layout


def demo_rows():
    return demo_layout(200000).world(
        "fifty rows of the demo file, by number", [(SCAN + FOUR, 0), (SCAN + ONE, 0)],
        range=[50000, 150000], indices=[50000 + 2003 * at for at in range(50)])


def three_chunks():
    layout = Layout()
    in_chunks(layout, "i32", [[1, 2, 3], [4, 5, 6], [7, 8, 9]])
    runs = [(SCAN, 0), (READ + ("--split", "rows:4"), 0), (READ + ("--split", "layout"), 0), (READ + ("--split", "sub:2"), 0), (TREE, 0)]
    return layout.world("nine numbers in three chunks", runs)


def two_of_nine():
    layout = Layout()
    in_chunks(layout, "i32", [[1, 2, 3], [4, 5, 6], [7, 8, 9]])
    return layout.world("two of nine numbers, by number", [(SCAN, 0), (READ, 25)], indices=[0, 7])


def many_lines():
    """More lines than are made at once, so that some are written before others are made."""
    layout = Layout()
    layout.node("flat", "u8", 700000, segment=layout.segment(b"\7"), coding="constant")
    return layout.world("seven hundred thousand lines", [(SCAN + TWO, 0), (SCAN + ONE, 0), (READ, 0)])


def two_fields():
    request = {
        "locations": [[0, 2, 1], [0, 2, 1]],
        "nodes": [{"kind": "struct", "dtype": {"struct": [["a", "i8"], ["b", "i8"]]}, "rows": 2, "children": [1, 2]},
                  {"kind": "flat", "dtype": "i8", "rows": 2, "segment": 0}, {"kind": "flat", "dtype": "i8", "rows": 2, "segment": 1}]}
    return World("two fields over one place", b"\5\6", json.dumps(request).encode(), [(SCAN, 0), (READ + ("--split", "rows:4"), 25)])


def zones(layout, dtype, tops):
    """Zones with the least and the greatest value of each, and the number of its nulls."""
    parent = layout.parent("struct", {"struct": [["min", dtype + "?"], ["max", dtype + "?"], ["null_count", "u64?"]]}, len(tops))
    layout.adopt(parent, layout.flat(dtype + "?", [low for low, _ in tops]))
    layout.adopt(parent, layout.flat(dtype + "?", [high for _, high in tops]))
    layout.adopt(parent, layout.flat("u64?", [0] * len(tops)))
    return parent


def zoned(layout, kind, chunks):
    parent = layout.parent(kind, "i32", sum(map(len, chunks)), zone_len=len(chunks[0]), stats=["min", "max", "null_count"])
    layout.adopt(parent, in_chunks(layout, "i32", chunks))
    layout.adopt(parent, zones(layout, "i32", [(min(chunk), max(chunk)) for chunk in chunks]))
    return parent


def all_kinds():
    layout, nine = Layout(), [[1, 2, 3], [4, 5, 6], [7, 8, 9]]
    fields = [["n", "i64"], ["c", "utf8"], ["r", "u8?"], ["s", {"struct?": [["x", "i16"]]}], ["d", "utf8?"], ["z", "i32"], ["o", "i32"],
              ["l", {"list": "i64"}]]
    root = layout.parent("struct", {"struct": fields}, 9)
    layout.adopt(root, layout.flat("i64", list(range(-4, 5))))
    layout.adopt(root, layout.flat("utf8", ["same"] * 9, "constant"))
    layout.adopt(root, layout.flat("u8?", [5, 5, 5, None, None, 7, 7, 7, 7], "runs"))
    nullable = layout.parent("struct", fields[3][1], 9)
    layout.adopt(root, nullable)
    layout.adopt(nullable, layout.flat("bool", [row != 4 for row in range(9)]))
    layout.adopt(nullable, layout.flat("i16", list(range(9))))
    layout.adopt(root, dictionary(layout, "utf8?", ["p", "q"], 9, "u8?", [[0, 1, None, 0], [1, 1, None, 0, 0]]))
    layout.adopt(root, zoned(layout, "zoned", nine))
    layout.adopt(root, zoned(layout, "legacy_stats", nine))
    lists = layout.parent("list", fields[7][1], 9)
    layout.adopt(root, lists)
    layout.adopt(lists, layout.flat("i64", [1, 2, 3]))
    layout.adopt(lists, layout.flat("u64", [0, 1, 1, 1, 2, 2, 2, 2, 3, 3]))
    return layout, [name for name, _ in fields]


def every_kind():
    layout, _ = all_kinds()
    return layout.world("every kind of node, the list too", [(TREE, 0), (SCAN + TWO, 15), (READ, 25)])


def every_kind_but_lists():
    layout, names = all_kinds()
    pack = {"pack": [[name, {"get": [name, "root"]}] for name in names if name != "l"]}
    return layout.world("every kind of node but the list", [(SCAN + TWO, 0), (TREE, 0)], projection=pack)


def every_kind_read():
    """A chunk of each kind that the layout's readers read."""
    layout = Layout()
    root = layout.parent("chunked", "i32", 27)
    layout.adopt(root, zoned(layout, "zoned", [[1, 2, 3], [4, 5, 6], [7, 8, 9]]))
    layout.adopt(root, layout.flat("i32", [3] * 9, "constant"))
    coded = layout.parent("dict", "i32", 9)
    layout.adopt(root, coded)
    layout.adopt(coded, in_chunks(layout, "i32", [[10], [20, 30]]))
    layout.adopt(coded, layout.flat("u8", [0, 0, 0, 1, 1, 1, 2, 2, 2], "runs"))
    projection = {"add": ["root", {"lit": 1, "type": "i32"}]}
    return layout.world("every kind of node that is read by readers", [(READ, 0), (READ + ("--split", "rows:5"), 0), (SCAN, 0)], projection=projection)


def every_expression():
    layout = Layout()
    root = layout.parent("struct", {"struct": [["a", "i64"], ["b", "bool?"], ["t", "utf8"]]}, 4)
    layout.adopt(root, layout.flat("i64", [5, -6, 7, 8]))
    layout.adopt(root, layout.flat("bool?", [True, None, False, True]))
    layout.adopt(root, layout.flat("utf8", ["x", "", "\"y\"", "z"]))
    a, b, t, two = {"get": ["a", "root"]}, {"get": ["b", "root"]}, {"get": ["t", "root"]}, {"lit": 2, "type": "i64"}
    parts = [{op: [a, two]} for op in ("eq", "ne", "lt", "le", "gt", "ge", "add", "sub", "mul", "div")]
    parts += [{"and": [b, {"not": b}]}, {"or": [b, {"is_null": b}]}, {"is_not_null": b}, {"eq": [t, {"lit": "x", "type": "utf8"}]},
              {"pack": [["deep", "root"]]}, "row_idx"]
    pack = {"pack": [["e%d" % place, part] for place, part in enumerate(parts)]}
    return layout.world("every form of expression", [(SCAN, 0), (TREE, 0), (READ, 25)], projection=pack, range=[1, 4], row_offset=7)


def faults():
    """A request, or a file, for each status of what can't be answered."""
    def flat(name, status, file=b"\1\2\3", words=SCAN, location=(0, 3, 1), rows=3, dtype="u8", **members):
        nodes = [{"kind": "flat", "dtype": dtype, "rows": rows, "segment": 0}]
        request = {"locations": [list(location)] if location else [], "nodes": nodes, **members}
        return World(name, file, json.dumps(request).encode(), [(words, status)])

    get = {"get": ["a", "root"]}
    layout = Layout()
    dictionary(layout, "utf8", ["a"], 2, "u8", [[0, 1]])
    return [
        World("a request cut short", b"", b'{"locations":[', [(SCAN, 10), (TREE, 10)]),
        World("a layout of no node", b"", b'{"locations":[],"nodes":[]}', [(SCAN, 11), (TREE, 11)]),
        flat("a field of a number", 12, projection=get),
        flat("a row that isn't there", 13, range=[0, 9]),
        flat("a row's number past the last", 14, projection="row_idx", row_offset=2 ** 64 - 1),
        flat("a segment without a location", 16, location=None),
        flat("a segment of one byte less", 17, location=(0, 2, 1)),
        layout.world("a code of no value", [(SCAN + TWO, 18), (READ, 18)]),
        flat("a division by 0", 19, projection={"div": ["root", {"lit": 0, "type": "u8"}]}),
        flat("a segment behind the file", 20, location=(1, 3, 1)),
    ]


def demo():
    return World("the demo", b"", b"", [(("demo", "1000"), 0), (("demo", "1000001"), 2)])


def worlds():
    made = [three_numbers, shared_dictionary, demo_rows, three_chunks, two_of_nine, many_lines, two_fields, every_kind, every_kind_but_lists,
            every_kind_read, every_expression]
    return [make() for make in made] + faults() + [demo()]


# ---- runs

def library(folder):
    """Compiles refuse.c, and gives its name."""
    name = os.path.join(folder, "refuse.so")
    subprocess.run(["cc", "-shared", "-fPIC", "-O1", "-o", name, os.path.join(HERE, "refuse.c"), "-ldl"], check=True)
    return name


class Surroundings:
    """A folder with the two files of a world, in which the program is run."""

    def __init__(self, program):
        self.program = os.path.abspath(program)
        self.folder = tempfile.mkdtemp(prefix="hostile-")
        self.library = library(self.folder)
        self.counts = os.path.join(self.folder, "counts")
        self.segments, self.request = (os.path.join(self.folder, name) for name in ("segments", "request"))

    def __enter__(self):
        return self

    def __exit__(self, *_):
        shutil.rmtree(self.folder)

    def enter(self, world):
        for name, data in ((self.segments, world.file), (self.request, world.request)):
            with open(name, "wb") as file:
                file.write(data)

    def words(self, words):
        return [{"SEGMENTS": self.segments, "REQUEST": self.request}.get(word, word) for word in words]

    def run(self, words, given=None, seconds=SECONDS, **told):
        """Runs the program with the library preloaded, which is told this (HOSTILE_ and the name in capitals)."""
        with open(self.counts, "wb") as file:
            file.write(bytes(8 * len(COUNTED)))
        env = {"LD_PRELOAD": self.library, "HOSTILE_COUNTS": self.counts, **{"HOSTILE_" + name.upper(): str(value) for name, value in told.items()}}
        try:
            ran = subprocess.run([self.program] + self.words(words), input=given, stdin=subprocess.DEVNULL if given is None else None,
                                 capture_output=True, env=env, timeout=seconds)
        except subprocess.TimeoutExpired:
            return Answer("no end", b"", b"", {})
        numbers = array.array("Q")
        with open(self.counts, "rb") as file:
            numbers.frombytes(file.read())
        return Answer(ran.returncode, ran.stdout, ran.stderr, dict(zip(COUNTED, numbers)))


def runs(found, only):
    """The runs of these worlds, or only of those whose name has this word in it."""
    for world in found:
        if not only or only in world.name:
            for words, status in world.runs:
                yield world, words, status


def ended(bad):
    """Says what is bad, and ends."""
    for line in bad[:40]:
        print("BAD", line)
    print("%d bad" % len(bad))
    sys.exit(1 if bad else 0)
