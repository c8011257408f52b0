#!/usr/bin/env python3
"""Turns a CSV file into a segment file and a request, or makes the example of the README.

    python3 bench/make.py csv FILE.csv OUT [--dtype NAME=DTYPE ..] [--coding NAME=CODING ..] [--empty-text]
    python3 bench/make.py example OUT [--rows N] [--seed N]

`csv` writes OUT.seg and OUT.json, which `scan_cli scan OUT.seg OUT.json` prints. The first line of the CSV file names
the columns. A column's dtype is told by --dtype (`bool`, `u8` to `u64`, `i8` to `i64`, `utf8`, with `?` where it takes
nulls), or guessed: `bool` where each cell is `true` or `false`, `i64` where each is a whole number that fits, else
`utf8`. An empty cell is a null, in a text too unless --empty-text is set; a blank line is an error
(the lone empty cell of a table of one column is written `""`). Columns are cut into chunks of 65536 rows. How
the chunks of a column are coded is told by --coding: `runs` (a value for each run of equal rows, and where the run ends),
`constant` (one value for all rows of a chunk, which have to be equal) or `plain` (a value for each row). Where it isn't
told they are plain, and a chunk of texts is stored by a dictionary if that takes fewer bytes.

`example` makes a few thousand readings: the level, the station (a text that may be null) and whether the reading is
valid.

Both files are written under other names first, read again and compared with the cells; only then they get their names.
Input that can't be turned ends the script with one line on standard error: status 2 for words that don't parse, else 1.
Then nothing is left behind, and files of these names are as they were. The whole table is held in memory.
"""
import argparse
import csv
import json
import os
import random
import re
import sys

CHUNK_ROWS = 65536
WIDTHS = {"u8": 1, "u16": 2, "u32": 4, "u64": 8, "i8": 1, "i16": 2, "i32": 4, "i64": 8}
LEAVES = [kind + mark for kind in [*WIDTHS, "bool", "utf8"] for mark in ("", "?")]
CODINGS = ["plain", "constant", "runs"]
DTYPE_HELP = "the dtypes are %s, each also with a ? behind it" % ", ".join([*WIDTHS, "bool", "utf8"])
# What the program reads of a request at the most, how long a segment may be, and how many rows it may have in a coding that
# isn't plain.
MOST_REQUEST, MOST_SEGMENT, MOST_CODED_ROWS = 16777216, 2**32 - 1, 16777216


class Fault(Exception):
    """What is wrong with the input, in one line."""


def bounds(kind):
    bits = 8 * WIDTHS[kind]
    return (0, 2**bits - 1) if kind[0] == "u" else (-(2 ** (bits - 1)), 2 ** (bits - 1) - 1)


# ---- segments


def bits_of(truths):
    made = bytearray((len(truths) + 7) // 8)
    for row, truth in enumerate(truths):
        made[row // 8] |= bool(truth) << row % 8
    return bytes(made)


def encode(dtype, values):
    """The plain bytes of a leaf of that dtype; None is a null."""
    nullable, kind = dtype.endswith("?"), dtype.rstrip("?")
    validity = bits_of([value is not None for value in values]) if nullable else b""
    if kind == "bool":
        return validity + bits_of(values)
    if kind == "utf8":
        texts = [(value or "").encode() for value in values]
        if max(map(len, texts), default=0) > MOST_SEGMENT:
            raise Fault("a text is longer than a segment may be")
        return validity + b"".join(len(text).to_bytes(4, "little") for text in texts) + b"".join(texts)
    width = WIDTHS[kind]
    return validity + b"".join((value or 0).to_bytes(width, "little", signed=kind[0] == "i") for value in values)


def first_other(values):
    """The first row that isn't equal to the first one, or None."""
    return next((row for row, value in enumerate(values) if value != values[0]), None)


def runs_of(values):
    """The value of each run of equal values, and where the run ends."""
    runs, ends = [], []
    for row, value in enumerate(values):
        if row == 0 or value != runs[-1]:
            runs.append(value)
            ends.append(row)
        ends[-1] = row + 1
    return runs, ends


def encode_as(dtype, coding, values):
    """The bytes of a leaf of that dtype in a coding."""
    if dtype not in LEAVES:
        raise Fault("only the rows of a leaf are coded, and %s is none" % json.dumps(dtype))
    if coding == "plain":
        return encode(dtype, values)
    if len(values) > MOST_CODED_ROWS:
        raise Fault("%d rows in one segment, which may have %d with the coding %s" % (len(values), MOST_CODED_ROWS, coding))
    if coding == "constant":
        return encode(dtype, values[:1]) if values else b""
    runs, ends = runs_of(values)
    return len(runs).to_bytes(4, "little") + b"".join(end.to_bytes(8, "little") for end in ends) + encode(dtype, runs)


def decode(dtype, rows, data):
    """The values that the plain bytes of a leaf of so many rows spell, read on its own from `encode`."""
    nullable, kind = dtype.endswith("?"), dtype.rstrip("?")
    count = (rows + 7) // 8

    def truths(part):
        return [part[row // 8] >> row % 8 & 1 == 1 for row in range(rows)]

    valid, at = [True] * rows, 0
    if nullable:
        valid, at = truths(data[:count]), count
    if kind == "bool":
        values = truths(data[at:])
        at += count
    elif kind == "utf8":
        lengths = [int.from_bytes(data[at + 4 * row : at + 4 * row + 4], "little") for row in range(rows)]
        values, at = [], at + 4 * rows
        for length in lengths:
            values.append(data[at : at + length].decode())
            at += length
    else:
        width = WIDTHS[kind]
        starts = range(at, at + width * rows, width)
        values = [int.from_bytes(data[start : start + width], "little", signed=kind[0] == "i") for start in starts]
        at += width * rows
    if at != len(data):
        raise ValueError("bytes behind the last value, or too few")
    return [value if there else None for value, there in zip(values, valid)]


def decode_as(dtype, coding, rows, data):
    """The values that the bytes of a leaf of so many rows spell in a coding, read on its own from `encode_as`."""
    if coding == "plain":
        return decode(dtype, rows, data)
    if rows > MOST_CODED_ROWS:
        raise ValueError("more rows than the coding may have")
    if coding == "constant":
        return decode(dtype, min(rows, 1), data) * rows
    count = int.from_bytes(data[:4], "little")
    ends = [int.from_bytes(data[4 + 8 * run : 12 + 8 * run], "little") for run in range(count)]
    runs = decode(dtype, count, data[4 + 8 * count :])
    starts = [0, *ends]
    if len(data) < 4 + 8 * count or starts[-1] != rows or any(start >= end for start, end in zip(starts, ends)):
        raise ValueError("runs that don't end one after another, the last with the last row")
    if any(one == two for one, two in zip(runs, runs[1:])):
        raise ValueError("two runs side by side with one value")
    return [value for value, start, end in zip(runs, starts, ends) for _ in range(start, end)]


# ---- layouts


class Layout:
    """Nodes, and segments one after another in the file."""

    def __init__(self):
        self.nodes, self.segments = [], []

    def add(self, **node):
        self.nodes.append(node)
        return len(self.nodes) - 1

    def flat(self, dtype, values, coding="plain"):
        self.segments.append(encode_as(dtype, coding, values))
        if len(self.segments[-1]) > MOST_SEGMENT:
            raise Fault("a chunk of %d rows has more bytes than a segment may have" % len(values))
        told = {} if coding == "plain" else {"coding": coding}
        return self.add(kind="flat", dtype=dtype, rows=len(values), segment=len(self.segments) - 1, **told)

    def texts(self, dtype, values):
        """A chunk of texts, flat or by a dictionary, whichever takes fewer bytes."""
        known = sorted({value for value in values if value is not None})
        codes = "u8" if len(known) <= 2**8 else "u16" if len(known) <= 2**16 else "u32"
        mark = "?" if dtype.endswith("?") else ""
        shorter = len(encode("utf8", known)) + WIDTHS[codes] * len(values) < 4 * len(values) + sum(
            len((value or "").encode()) for value in values)
        if not shorter:
            return self.flat(dtype, values)
        place = {value: at for at, value in enumerate(known)}
        node = self.add(kind="dict", dtype=dtype, rows=len(values), children=[])
        children = [self.flat("utf8", known), self.flat(codes + mark, [place.get(value) for value in values])]
        self.nodes[node]["children"] = children
        return node

    def chunk(self, dtype, values, start, coding):
        """A chunk of a column, whose first row is `start`."""
        part = values[start : start + CHUNK_ROWS]
        if coding is None:
            return self.texts(dtype, part) if dtype.rstrip("?") == "utf8" else self.flat(dtype, part)
        other = first_other(part) if coding == "constant" else None
        if other is not None:
            raise Fault("row %d isn't equal to row %d (the first row is 0), so that the coding can't be constant" % (start + other, start))
        return self.flat(dtype, part, coding)

    def column(self, dtype, values, coding=None):
        """A column in chunks; one chunk stands alone."""
        starts = range(0, len(values), CHUNK_ROWS)
        if len(starts) == 1:
            return self.chunk(dtype, values, 0, coding)
        node = self.add(kind="chunked", dtype=dtype, rows=len(values), children=[])
        self.nodes[node]["children"] = [self.chunk(dtype, values, start, coding) for start in starts]
        return node

    def table(self, names, dtypes, columns, rows, codings=None):
        """A struct of columns; the codings are those that are told of some of them, by their names."""
        node = self.add(kind="struct", dtype={"struct": [list(one) for one in zip(names, dtypes)]}, rows=rows, children=[])
        for name, dtype, values in zip(names, dtypes, columns):
            try:
                self.nodes[node]["children"].append(self.column(dtype, values, (codings or {}).get(name)))
            except Fault as fault:
                raise Fault("column %r: %s" % (name, fault)) from None

    def locations(self):
        places, offset = [], 0
        for segment in self.segments:
            places.append([offset, len(segment), 1])
            offset += len(segment)
        return places

    def request(self):
        whole = {"locations": self.locations(), "nodes": self.nodes}
        text = json.dumps(whole, separators=(",", ":")).encode() + b"\n"
        if len(text) > MOST_REQUEST:
            raise Fault("the request would have %d bytes, more than %d" % (len(text), MOST_REQUEST))
        return text


def read_again(file, request, number=0):
    """All rows of a node by the file and the request, a struct's as lists."""
    node = request["nodes"][number]
    if node["kind"] == "flat":
        offset, length, _ = request["locations"][node["segment"]]
        file.seek(offset)
        values = decode_as(node["dtype"], node.get("coding", "plain"), node["rows"], file.read(length))
    else:
        children = [read_again(file, request, child) for child in node["children"]]
        if node["kind"] == "chunked":
            values = [value for child in children for value in child]
        elif node["kind"] == "dict":
            values = [None if code is None else children[0][code] for code in children[1]]
        else:
            values = [list(row) for row in zip(*children)]
    if len(values) != node["rows"]:
        raise ValueError("node %d has other rows than it says" % number)
    return values


def write(out, layout, columns):
    """Writes the two files, reads them again and compares them with the columns, and then gives them their names."""
    made = [(out + end + ".part-%d" % os.getpid(), out + end) for end in (".seg", ".json")]
    try:
        request = layout.request()
        for (part, _), pieces in zip(made, (layout.segments, [request])):
            with open(part, "xb") as file:
                file.writelines(pieces)
        with open(made[0][0], "rb") as file, open(made[1][0], "rb") as text:
            if read_again(file, json.load(text)) != [list(row) for row in zip(*columns)]:
                raise Fault("what was made reads as something else: a fault of this script")
        for part, whole in made:
            os.replace(part, whole)
    finally:
        for part, _ in made:
            if os.path.exists(part):
                os.remove(part)


# ---- a CSV file


def number_in(cell):
    """The whole number that a cell is, in digits behind a minus sign or none."""
    return int(cell) if re.fullmatch(r"-?[0-9]{1,40}", cell) else None


def is_whole(cell):
    number = number_in(cell)
    return number is not None and str(number) == cell and bounds("i64")[0] <= number <= bounds("i64")[1]


def guessed(cells, empty_text):
    there = [cell for cell in cells if cell]
    if there and all(cell in ("true", "false") for cell in there):
        kind = "bool"
    elif there and all(map(is_whole, there)):
        kind = "i64"
    else:
        kind = "utf8"
    return kind + ("?" if len(there) < len(cells) and not (kind == "utf8" and empty_text) else "")


def value_of(dtype, cell, empty_text):
    """The value of a cell of a column of that dtype."""
    kind = dtype.rstrip("?")
    if cell == "" and not (kind == "utf8" and empty_text):
        if not dtype.endswith("?"):
            raise Fault("an empty cell, but %s takes no nulls" % dtype)
        return None
    if kind == "utf8":
        return cell
    if kind == "bool":
        if cell not in ("true", "false"):
            raise Fault("%r is no truth value" % cell[:40])
        return cell == "true"
    number = number_in(cell)
    if number is None:
        raise Fault("%r is no whole number" % cell[:40])
    if not bounds(kind)[0] <= number <= bounds(kind)[1]:
        raise Fault("%d doesn't fit %s" % (number, kind))
    return number


def column_of(name, dtype, cells, empty_text):
    values = []
    for row, cell in enumerate(cells):
        try:
            values.append(value_of(dtype, cell, empty_text))
        except Fault as fault:
            raise Fault("row %d (the first is 0), column %r: %s" % (row, name, fault)) from None
    return values


def table_of(path):
    """The names of the columns and the rows of cells."""
    try:
        with open(path, newline="", encoding="utf-8-sig") as file:
            reader = csv.reader(file, strict=True)
            names, rows = next(reader, []), []
            for row in reader:
                if len(row) != len(names):
                    raise Fault("%s, line %d: %d cells, not %d" % (path, reader.line_num, len(row), len(names)))
                rows.append(row)
    except OSError as error:
        raise Fault("%s: %s" % (path, error.strerror)) from None
    except (UnicodeDecodeError, csv.Error) as error:
        raise Fault("%s: %s" % (path, error)) from None
    if not names:
        raise Fault("%s: no line that names the columns" % path)
    if "" in names:
        raise Fault("%s: column %d has no name" % (path, names.index("") + 1))
    for place, name in enumerate(names):
        if name in names[:place]:
            raise Fault("%s: two columns have the name %r" % (path, name))
    return names, rows


def told_by_name(option, words, names, known, help):
    """What the words NAME=VALUE of an option tell of columns, by their names; `help` says which values are known."""
    told = {}
    for word in words:
        name, equals, value = word.rpartition("=")
        if not equals or value not in known:
            raise Fault("%s %s: %s" % (option, word, help))
        if name not in names:
            raise Fault("%s %s: no column has that name" % (option, word))
        if name in told:
            raise Fault("%s %s: the column has one already" % (option, word))
        told[name] = value
    return told


def from_csv(options):
    names, rows = table_of(options.file)
    told = told_by_name("--dtype", options.dtype, names, LEAVES, DTYPE_HELP)
    codings = told_by_name("--coding", options.coding, names, CODINGS, "the codings are plain, constant and runs")
    cells = [list(column) for column in zip(*rows)] or [[] for _ in names]
    dtypes = [told.get(name) or guessed(column, options.empty_text) for name, column in zip(names, cells)]
    columns = [column_of(*one, options.empty_text) for one in zip(names, dtypes, cells)]
    layout = Layout()
    layout.table(names, dtypes, columns, len(rows), codings)
    write(options.out, layout, columns)
    for name, dtype in zip(names, dtypes):
        print("%s: %s%s" % (name, dtype, ", " + codings[name] if name in codings else ""))


# ---- the example

STATIONS = ["Aran", "Bidasoa", "Deba", "Ibaizabal", "Nerbioi", "Oria", "Urola", "Urumea"]


def make_example(options):
    rng = random.Random(options.seed)
    level = [rng.randrange(20, 900) for _ in range(options.rows)]
    station = [None if rng.random() < 0.05 else rng.choice(STATIONS) for _ in range(options.rows)]
    valid = [rng.random() < 0.9 for _ in range(options.rows)]
    columns = [level, station, valid]
    layout = Layout()
    layout.table(["level", "station", "valid"], ["i64", "utf8?", "bool"], columns, options.rows)
    write(options.out, layout, columns)


# ---- words


class Words(argparse.ArgumentParser):
    def error(self, message):
        self.exit(2, "%s: %s\n" % (self.prog, message))


def row_count(word):
    if not re.fullmatch(r"[0-9]{1,8}", word):
        raise argparse.ArgumentTypeError("%r is no number of rows" % word)
    return int(word)


def options_of():
    parser = Words(description=__doc__, formatter_class=argparse.RawDescriptionHelpFormatter)
    modes = parser.add_subparsers(dest="mode", required=True)
    of_csv = modes.add_parser("csv", help="a CSV file")
    of_csv.add_argument("file")
    of_csv.add_argument("out")
    of_csv.add_argument("--dtype", action="append", default=[], metavar="NAME=DTYPE")
    of_csv.add_argument("--coding", action="append", default=[], metavar="NAME=CODING")
    of_csv.add_argument("--empty-text", action="store_true", help="an empty cell of a text is an empty text")
    example = modes.add_parser("example", help="the example of the README")
    example.add_argument("out")
    example.add_argument("--rows", type=row_count, default=5000)
    example.add_argument("--seed", type=int, default=1)
    return parser.parse_args()


def main():
    options = options_of()
    try:
        from_csv(options) if options.mode == "csv" else make_example(options)
    except Fault as fault:
        sys.exit("make.py: %s" % fault)
    except OSError as error:
        sys.exit("make.py: %s: %s" % (error.filename, error.strerror))
    except MemoryError:
        sys.exit("make.py: out of memory: the whole table is held in memory, so split it")


if __name__ == "__main__":
    main()
