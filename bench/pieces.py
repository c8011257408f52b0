#!/usr/bin/env python3
"""Runs the built program of the cases of scans on a split of many leaves, and prints its peak memory and its time.

    python3 bench/pieces.py PROGRAM [--rows N] [--leaves N] [--runs N]

PROGRAM is crates/vx_steps_cases/out/vx_steps_cases after a run or a check. The rows, ten million of `i64` in 160 leaves, are
one split. Their bytes are made when they are delivered, and an output is dropped once it is counted: so the peak is that of
what the scan keeps and gives. `forward` delivers the leaves in the order of the rows, `reverse` in the other one, and
`early` all of them before the first output. `many` are leaves of one row, delivered in either order; half of them beside,
to see that time is linear in them. Each answer is compared with the one that it should be.
"""
import argparse
import os
import subprocess
import sys
import tempfile

MILLION = 1_000_000
LEAVES = 160
# Above the peak of a scan of nothing `forward` should keep the bytes and the rows of two leaves and one output; twice that
# is the limit, for what the allocator leaves between them.
LEAST_KEPT = 2


def tree(leaves, rows, dtype):
    """The line of a column of so many leaves with so many rows each."""
    children = ",".join(str(leaf + 1) for leaf in range(leaves))
    flats = "; ".join(f"flat:{leaf} {rows} - {dtype}" for leaf in range(leaves))
    return f"tree chunked {leaves * rows} {children} {dtype}; {flats}"


def outputs(order, leaves, rows, said):
    """What is said of each turn, in the order of delivery."""
    reads = [f"read {leaf}:{leaf};" for leaf in range(leaves)]
    if order == "early":
        return reads + [f"out 0 {leaves * rows} rows;", "done;"]
    if order == "forward":
        return reads + [word for _ in range(leaves) for word in ("waiting;", said)] + ["done;"]
    return reads + ["waiting;"] * leaves + [f"out 0 {leaves * rows} rows;", "done;"]


def run(program, lines, wanted):
    """The peak memory of the program on these lines in bytes, and its processor seconds."""
    with tempfile.TemporaryFile("w+") as stdin, tempfile.TemporaryFile("w+") as stdout:
        stdin.write("\n".join(lines) + "\n")
        stdin.seek(0)
        process = subprocess.Popen([program], stdin=stdin, stdout=stdout)
        _, status, used = os.wait4(process.pid, 0)
        if os.waitstatus_to_exitcode(status) != 0:
            sys.exit(f"{program} ended with status {os.waitstatus_to_exitcode(status)}")
        stdout.seek(0)
        answer = stdout.read().split("\n")[len(lines) - 1]
    if answer != lines[-1] + " =>" + "".join(" " + word for word in wanted):
        sys.exit(f"{lines[-1]}: another answer than the one that is wanted: {answer[-200:]}")
    return used.ru_maxrss * 1024, used.ru_utime + used.ru_stime


def best(program, lines, wanted, runs):
    """The least peak and the least time of several runs."""
    made = [run(program, lines, wanted) for _ in range(runs)]
    return min(peak for peak, _ in made), min(time for _, time in made)


def ten_million(program, rows, runs):
    each = rows // LEAVES
    front = [tree(LEAVES, each, "i64"), f"file 0..{LEAVES} 07*{8 * each}"]
    nothing, _ = best(program, front + ["scan 0*"], ["done;"], runs)
    print(f"{LEAVES * each} rows of i64 in {LEAVES} leaves, one split; a scan of nothing has a peak of {nothing / MILLION:.1f} MB")
    kept = 5 * 8 * each * LEAST_KEPT
    for order in ("forward", "reverse", "early"):
        peak, time = best(program, front + [f"scan 0..{LEAVES * each} | order {order}"],
                          outputs(order, LEAVES, each, f"out 0 {each} rows;"), runs)
        limit = f", at most {kept / MILLION:.1f}" if order == "forward" else ""
        print(f"  {order:8} {(peak - nothing) / MILLION:8.1f} MB above that{limit} {time:8.2f} s")


def many(program, leaves, runs):
    for count in (leaves // 2, leaves):
        front = [tree(count, 1, "u8"), f"file 0..{count} 07"]
        for order in ("forward", "reverse"):
            said = "out 0 u8: 7;"
            peak, time = best(program, front + [f"scan 0..{count} | order {order}"], outputs(order, count, 1, said), runs)
            print(f"{count} leaves of one row, {order:8} {peak / MILLION:8.1f} MB {time:8.2f} s")


def main():
    parser = argparse.ArgumentParser(description=__doc__, formatter_class=argparse.RawDescriptionHelpFormatter)
    parser.add_argument("program")
    parser.add_argument("--rows", type=int, default=10 * MILLION)
    parser.add_argument("--leaves", type=int, default=200_000)
    parser.add_argument("--runs", type=int, default=3)
    asked = parser.parse_args()
    ten_million(asked.program, asked.rows, asked.runs)
    many(asked.program, asked.leaves, asked.runs)


if __name__ == "__main__":
    main()
