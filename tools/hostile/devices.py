#!/usr/bin/env python3
"""Gives the built program other things than files, and looks that it ends at once with the status of docs/ANSWERS.md.

    python3 tools/hostile/devices.py PROGRAM [--only WORD]

PROGRAM is the built `scan_cli`. SEGMENTS, REQUEST and standard output are in turn a folder, a named pipe, a socket, a device, a
name that is too long, a file that changes while it is read, and more. Each run has to end within `AT_ONCE` seconds, with the
status that stands beside it, and with at most `MOST_MEMORY` of memory.
"""
import argparse
import os
import socket
import subprocess
import sys
import threading
import time
from collections import namedtuple

import world as made
from world import Surroundings, ended

AT_ONCE, MOST_MEMORY = 10, 80_000_000
READ_FAULT, WRITE_FAULT, REQUEST_FAULT, TOO_LARGE, BAD_REQUEST, USAGE = 20, 22, 23, 24, 10, 2
MOST_BYTES = 16777216

# A run: its words, the status that it has to end with and whether the whole output is wanted; what is done beside it, or told to
# the library that is preloaded; its standard input and output.
Run = namedtuple("Run", "what words status whole beside told given output", defaults=(False, None, None, None, None))


# ---- things

class Things:
    """A folder with one of each."""

    def __init__(self, folder):
        self.folder = folder
        self.path = lambda name: os.path.join(folder, name)
        os.mkdir(self.path("folder"))
        os.mkfifo(self.path("pipe"))
        os.symlink(self.path("loop"), self.path("loop"))
        self.socket = socket.socket(socket.AF_UNIX)
        self.socket.bind(self.path("socket"))
        self.long_name = self.path("n" * 200) + "/x" * 2400
        self.long_part = self.path("n" * 300)
        with open(self.path("huge"), "wb") as file:
            file.truncate(1 << 40)

    def nothing_to_read(self):
        """What is no file that can be read, and what it is called."""
        return [("a folder", self.path("folder")), ("a socket", self.path("socket")), ("a name of 5000 bytes", self.long_name),
                ("a name with a part of 300 bytes", self.long_part), ("a link to itself", self.path("loop")),
                ("nothing of that name", self.path("missing")), ("a file as a folder", self.path("huge") + "/x"),
                ("the memory of the process", "/proc/self/mem")]


def written_by(path, data, pause=0.0, size=None):
    """A writer of the pipe of this name, of so many bytes at a time, with a pause before each."""
    def write():
        with open(path, "wb", buffering=0) as pipe:
            for start in range(0, max(len(data), 1), size or max(len(data), 1)):
                time.sleep(pause)
                pipe.write(data[start:start + (size or len(data))])
    return write


def request_runs(things, around, request):
    """REQUEST is something else."""
    pipe, runs = things.path("pipe"), []
    for mode, words in (("scan", ("scan", "SEGMENTS")), ("read", ("read", "SEGMENTS")), ("tree", ("tree",))):
        runs += [Run("%s, REQUEST is %s" % (mode, what), words + (path,), REQUEST_FAULT) for what, path in things.nothing_to_read()]
        runs += [Run("%s, REQUEST is a named pipe without a writer" % mode, words + (pipe,), BAD_REQUEST),
                 Run("%s, REQUEST is a named pipe with a writer" % mode, words + (pipe,), 0, True, written_by(pipe, request)),
                 Run("%s, REQUEST is a named pipe with a slow writer" % mode, words + (pipe,), 0, True, written_by(pipe, request, 0.02, 16)),
                 Run("%s, REQUEST is a named pipe whose writer writes nothing" % mode, words + (pipe,), BAD_REQUEST, False, written_by(pipe, b"")),
                 Run("%s, REQUEST is standard input, a pipe" % mode, words + ("/dev/stdin",), 0, True, given=request),
                 Run("%s, REQUEST is standard input, a pipe that has ended" % mode, words + ("/dev/stdin",), BAD_REQUEST, given=b"")]
    for name in ("zero", "full", "random"):
        runs.append(Run("scan, REQUEST is /dev/%s" % name, ("scan", "SEGMENTS", "/dev/" + name), TOO_LARGE))
    runs += [Run("scan, REQUEST is /dev/null", ("scan", "SEGMENTS", "/dev/null"), BAD_REQUEST),
             Run("scan, REQUEST is a file of 2^40 bytes", ("scan", "SEGMENTS", things.path("huge")), TOO_LARGE),
             Run("scan, REQUEST grows while it is read", made.SCAN, TOO_LARGE, told={"call": "read", "change": around.request, "more": 65536}),
             Run("scan, REQUEST is cut while it is read", made.SCAN, BAD_REQUEST,
                 told={"call": "read", "at": 2, "change": around.request, "length": 10, "short": 1}),
             Run("scan, REQUEST is emptied before it is read", made.SCAN, BAD_REQUEST,
                 told={"call": "read", "at": 1, "change": around.request, "length": 0})]
    return runs


def segments_runs(things, around):
    """SEGMENTS is something else."""
    pipe, runs = things.path("pipe"), []
    for mode in ("scan", "read"):
        for what, path in things.nothing_to_read() + [("/dev/zero", "/dev/zero"), ("/dev/null", "/dev/null"), ("a named pipe without a writer", pipe)]:
            runs.append(Run("%s, SEGMENTS is %s" % (mode, what), (mode, path, "REQUEST"), READ_FAULT))
        runs += [Run("%s, SEGMENTS is emptied before it is read" % mode, (mode, "SEGMENTS", "REQUEST"), READ_FAULT,
                     told={"call": "pread", "at": 1, "change": around.segments, "length": 0}),
                 Run("%s, SEGMENTS is cut while it is read" % mode, (mode, "SEGMENTS", "REQUEST"), READ_FAULT,
                     told={"call": "pread", "at": 2, "change": around.segments, "length": 1, "short": 1}),
                 Run("%s, SEGMENTS grows while it is read" % mode, (mode, "SEGMENTS", "REQUEST"), 0, True,
                     told={"call": "pread", "change": around.segments, "more": 1 << 30})]
    return runs


def usage_runs(things):
    """Words at fault are told before anything is opened."""
    pipe = things.path("pipe")
    return [Run("more workers than files, REQUEST is a named pipe without a writer", ("scan", "SEGMENTS", pipe, "--workers", "9"), USAGE),
            Run("more workers than files, REQUEST is a folder", ("scan", "SEGMENTS", things.path("folder"), "--workers", "64"), USAGE),
            Run("no workers, both are a named pipe without a writer", ("scan", pipe, pipe, "--workers", "0"), USAGE),
            Run("no mode, REQUEST is a named pipe without a writer", ("rows", "SEGMENTS", pipe), USAGE),
            Run("two names, one is a named pipe without a writer", ("tree", pipe, "REQUEST"), USAGE)]


def output_runs():
    """Standard output is something else."""
    return [Run("standard output is /dev/full", made.SCAN, WRITE_FAULT, output="full"),
            Run("standard output is closed", made.SCAN, WRITE_FAULT, output="closed"),
            Run("standard output is a pipe that nobody reads", made.SCAN, WRITE_FAULT, output="broken"),
            Run("standard output and error are /dev/full", made.SCAN, WRITE_FAULT, output="both full")]


# ---- runs

def output_of(run, name):
    """The words for subprocess, of a run whose output goes there or else into the file of that name."""
    if run.output == "closed":
        return {"stdout": subprocess.DEVNULL, "preexec_fn": lambda: os.close(1)}
    if run.output == "broken":
        reading, writing = os.pipe()
        os.close(reading)
        return {"stdout": writing}
    if run.output:
        full = os.open("/dev/full", os.O_WRONLY)
        return {"stdout": full, **({"stderr": full} if run.output == "both full" else {})}
    return {"stdout": os.open(name, os.O_WRONLY | os.O_CREAT | os.O_TRUNC, 0o600)}


def done(around, run):
    """The status of the run, its output, its seconds, and its memory in bytes."""
    name = around.counts + ".out"
    words = {"stderr": subprocess.DEVNULL, **output_of(run, name)}
    env = {}
    if run.told:
        env = {"LD_PRELOAD": around.library, **{"HOSTILE_" + key.upper(): str(value) for key, value in run.told.items()}}
    beside = threading.Thread(target=run.beside, daemon=True) if run.beside else None
    if beside:
        beside.start()
        time.sleep(0.2)
    start = time.monotonic()
    process = subprocess.Popen([around.program] + around.words(run.words), env=env, stdin=subprocess.DEVNULL if run.given is None else subprocess.PIPE, **words)
    if isinstance(words["stdout"], int) and words["stdout"] >= 0:
        os.close(words["stdout"])
    if run.given is not None:
        process.stdin.write(run.given)
        process.stdin.close()
    while True:
        ended_at, status, used = os.wait4(process.pid, os.WNOHANG)
        if ended_at or time.monotonic() - start > AT_ONCE:
            break
        time.sleep(0.002)
    if not ended_at:
        process.kill()
        _, _, used = os.wait4(process.pid, 0)
    process.returncode = 0
    status = os.waitstatus_to_exitcode(status) if ended_at else "it waits"
    with open(name, "rb") if not run.output else open(os.devnull, "rb") as file:
        return status, file.read(), time.monotonic() - start, used.ru_maxrss * 1024


def main():
    words = argparse.ArgumentParser(description=__doc__, formatter_class=argparse.RawDescriptionHelpFormatter)
    words.add_argument("program")
    words.add_argument("--only", metavar="WORD", help="only the runs with this word in what they are")
    asked = words.parse_args()
    bad, count, longest, most = [], 0, 0, 0
    world = made.three_numbers()
    with Surroundings(asked.program) as around:
        around.enter(world)
        things = Things(around.folder)
        wholes = {mode: around.run(run).out for mode, run in (("scan", made.SCAN), ("read", made.READ), ("tree", made.TREE))}
        every = request_runs(things, around, world.request) + segments_runs(things, around) + usage_runs(things) + output_runs()
        for run in every:
            if asked.only and asked.only not in run.what:
                continue
            around.enter(world)
            status, out, seconds, memory = done(around, run)
            wanted = wholes.get(run.words[0], b"") if run.whole else b""
            count, longest, most = count + 1, max(longest, seconds), max(most, memory)
            print("%-75s status %-8s %5.2f s %4d MB" % (run.what, status, seconds, memory // 1_000_000), flush=True)
            if status != run.status or out != wanted:
                bad.append("%s: status %s in place of %s, %d bytes" % (run.what, status, run.status, len(out)))
            if memory > MOST_MEMORY:
                bad.append("%s: %d MB" % (run.what, memory // 1_000_000))
    print("%d runs, the longest %.2f seconds, at most %d MB" % (count, longest, most // 1_000_000))
    ended(bad)


if __name__ == "__main__":
    sys.exit(main())
