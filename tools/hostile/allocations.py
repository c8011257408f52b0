#!/usr/bin/env python3
"""Refuses each allocation of the built program in turn, and looks at what it answers.

    python3 tools/hostile/allocations.py PROGRAM [--only WORD] [--every N]
    python3 tools/hostile/allocations.py PROGRAM --lines FILE [--every N]

PROGRAM is the built `scan_cli`. Each run of each world (world.py) is first made with ample memory, which gives the whole answer
and counts the allocations; then it is made again for each of them, and that one is refused. The answer has to be the whole
answer, or status 70 (out of memory) with a front of the whole output, which may be empty.

With --lines PROGRAM is a program of cases, that reads these lines: then one line alone may change, or the output ends there.
"""
import argparse
import collections

from world import Surroundings, ended, runs, worlds

OUT_OF_MEMORY = 70
SAID = b"scan_cli: out of memory\n"


def kind_of(whole, got):
    """What an answer with a refused allocation is beside the whole one; None where it is a wrong one."""
    if not got.counts or not got.counts["done"]:
        return "not reached" if (got.status, got.out) == (whole.status, whole.out) else None
    if (got.status, got.out, got.said) == (whole.status, whole.out, whole.said):
        return "whole"
    if got.status == OUT_OF_MEMORY and got.said == SAID and whole.out.startswith(got.out):
        return "70, nothing written" if not got.out else "70, all written" if got.out == whole.out else "70, a part written"
    return None


def kind_of_lines(whole, got):
    """The same for a program of cases."""
    if got.status == "no end" or got.status < 0:
        return None
    wanted, lines = whole.out.split(b"\n"), got.out.split(b"\n")
    differ = [place for place, line in enumerate(lines) if place >= len(wanted) or line != wanted[place]]
    if not differ and len(lines) == len(wanted):
        return "whole"
    if len(lines) == len(wanted):
        return "another answer to one line" if len(differ) == 1 else None
    return "ended there" if all(place >= len(lines) - 2 for place in differ) else None


def tried(around, words, every, judge, given, bad, name):
    whole = around.run(words, given)
    total = whole.counts["allocations"]
    kinds = collections.Counter()
    for at in range(1, total + 1, every):
        got = around.run(words, given, refuse=at)
        kind = judge(whole, got)
        kinds[kind] += 1
        if kind is None:
            bad.append("%s: allocation %d: status %s, %d bytes, %r" % (name, at, got.status, len(got.out), got.said[:60]))
    print("%-80s status %s, %5d allocations: %s" % (name, whole.status, total, ", ".join("%d %s" % (count, kind) for kind, count in kinds.most_common())), flush=True)
    return whole.status, kinds


def main():
    words = argparse.ArgumentParser(description=__doc__, formatter_class=argparse.RawDescriptionHelpFormatter)
    words.add_argument("program")
    words.add_argument("--only", metavar="WORD", help="only the worlds with this word in their name")
    words.add_argument("--every", type=int, default=1, metavar="N", help="only each Nth allocation")
    words.add_argument("--lines", metavar="FILE", help="the lines that a program of cases reads")
    asked = words.parse_args()
    bad, all_kinds = [], collections.Counter()
    with Surroundings(asked.program) as around:
        if asked.lines:
            with open(asked.lines, "rb") as file:
                _, all_kinds = tried(around, (), asked.every, kind_of_lines, file.read(), bad, asked.lines)
        else:
            for world, run, wanted in runs(worlds(), asked.only):
                around.enter(world)
                name = "%s: %s" % (world.name, " ".join(run))
                status, kinds = tried(around, run, asked.every, kind_of, None, bad, name)
                all_kinds += kinds
                if status != wanted:
                    bad.append("%s: status %s in place of %d with ample memory" % (name, status, wanted))
    refused = sum(all_kinds.values()) - all_kinds["not reached"]
    print("%d allocations refused: %s" % (refused, ", ".join("%d %s" % (count, kind) for kind, count in all_kinds.most_common())))
    ended(bad)


if __name__ == "__main__":
    main()
