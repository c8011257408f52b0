#!/usr/bin/env python3
"""Runs the built program of the cases of readers on a column of many chunks, and prints its times.

    python3 bench/chunks.py PROGRAM [--chunks N] [--runs N]

PROGRAM is crates/vx_readers_cases/out/vx_readers_cases after a run or a check. The column has 200,000 chunks of one row,
and half as many beside, to see that time is linear in them. `all` projects each row, `polled` does so over a source that
has nothing for any read at the first few polls, `one` projects one row only, `kept` filters all rows, and `filtered` one
row. Each command reads the tree anew, so that the time of a command that only does that is taken off. Each answer is
compared with the one that it should be. Times are processor seconds, user and system.
"""
import argparse
import os
import sys
import subprocess
import tempfile

# At so many polls nothing is found, whatever the read.
WAITS = 4
# Twice the chunks should take so many times as long at the most; one row so much of the time of all rows.
MOST_TIMES, MOST_PART = 2.2, 0.2


def front(chunks):
    """The lines of a column of so many chunks of one row, all in one segment."""
    children = ",".join(str(chunk + 1) for chunk in range(chunks))
    flats = "; ".join(["flat:0 1 - u8"] * chunks)
    return [f"tree chunked {chunks} {children} u8; {flats}", "at 0+1", "file 07", "over $ 5:u8 >"]


def cases(chunks):
    """Each command with its script and its answer."""
    one = "0" * (chunks // 2) + "1" + "0" * (chunks - chunks // 2 - 1)
    truths, asked = " bool:" + " true" * chunks + ";", " asked" + " 0+1" * chunks
    none, each = " in flight -;", " in flight " + " ".join(map(str, range(chunks))) + ";"
    waits = "- - " + ",".join([str(WAITS)] * chunks) + " -"
    pending = (" pending;" + each) * WAITS
    return {
        "nothing": ("", "register 0..0", ";"),
        "all": ("", f"project 0..{chunks}", f"{truths}{none}{asked}; 0 faults, 0 idle"),
        "polled": (waits, f"project 0..{chunks}", f"{pending}{truths}{none}{asked}; 0 faults, {WAITS * chunks} idle"),
        "one": ("", f"project 0..{chunks}:{one}", f" bool: true;{none} asked 0+1; 0 faults, 0 idle"),
        "kept": ("", f"filter 0..{chunks}", " " + "1" * chunks + f";{none}{asked}; 0 faults, 0 idle"),
        "filtered": ("", f"filter 0..{chunks}:{one}", f" {one};{none} asked 0+1; 0 faults, 0 idle"),
    }


def run(program, lines, wanted):
    """The processor seconds of the program on these lines, whose last one has that answer."""
    with tempfile.TemporaryFile("w+") as stdin, tempfile.TemporaryFile("w+") as stdout:
        stdin.write("\n".join(lines) + "\n")
        stdin.seek(0)
        process = subprocess.Popen([program], stdin=stdin, stdout=stdout)
        _, status, used = os.wait4(process.pid, 0)
        if os.waitstatus_to_exitcode(status) != 0:
            sys.exit(f"{program} ended with status {os.waitstatus_to_exitcode(status)}")
        stdout.seek(0)
        answer = stdout.read().split("\n")[len(lines) - 1]
    if answer != lines[-1] + " =>" + wanted:
        sys.exit(f"{lines[-1][:100]}: another answer than the one that is wanted: {answer[-200:]}")
    return used.ru_utime + used.ru_stime


def measured(program, chunks, runs):
    """The best seconds of each command, without those of one that does nothing."""
    lines, best = front(chunks), {}
    for name, (script, command, answer) in cases(chunks).items():
        asked = lines + [f"script {script}", command]
        best[name] = min(run(program, asked, answer) for _ in range(runs))
    nothing = best.pop("nothing")
    return nothing, {name: seconds - nothing for name, seconds in best.items()}


def main():
    parser = argparse.ArgumentParser(description=__doc__, formatter_class=argparse.RawDescriptionHelpFormatter)
    parser.add_argument("program")
    parser.add_argument("--chunks", type=int, default=200_000)
    parser.add_argument("--runs", type=int, default=3)
    asked = parser.parse_args()
    half = asked.chunks // 2
    (_, less), (nothing, more) = (measured(asked.program, count, asked.runs) for count in (half, asked.chunks))
    print(f"{half} and {asked.chunks} chunks of one row; to read the lines of the latter takes {nothing:.3f} s")
    for name, seconds in more.items():
        limit = f", at most {MOST_TIMES}" if name in ("all", "polled", "kept") else ""
        print(f"  {name:9} {less[name]:8.3f} {seconds:8.3f} s   x {seconds / less[name]:.2f}{limit}")
    for whole, part in (("all", "one"), ("kept", "filtered")):
        print(f"  {part} of {whole}: {more[part] / more[whole]:.3f} of the time, at most {MOST_PART}")
    poll = (more["polled"] - more["all"]) / WAITS / asked.chunks
    print(f"  a poll that finds nothing, and the ticket that is told of it: {poll * 1e6:.2f} microseconds a chunk")


if __name__ == "__main__":
    main()
