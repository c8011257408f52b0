#!/usr/bin/env python3
"""Lets each call of the system that the built program makes fail in turn, or move one byte at a time, and looks at what it
answers.

    python3 tools/hostile/calls.py PROGRAM [--only WORD] [--every N] [--traced]

PROGRAM is the built `scan_cli`. Each run of the worlds below is made once undisturbed, which counts its calls; then once for each
of them and each error that it may meet; once with every read and every write cut to one byte; and so cut with a failure behind
some of these bytes. docs/ANSWERS.md says what has to come of it: 20 where a call on SEGMENTS failed, 23 on REQUEST, 22 with a
front of the output where a write failed, 70 where the system lacked memory, and the whole answer where the call that failed
isn't needed. --traced looks by `strace` whether the program makes other calls than those which refuse.c knows.
"""
import argparse
import collections
import errno
import re
import subprocess

import world as made
from world import Surroundings, ended, runs

# Calls that come before `main` and behind it, and those that neither read nor write what is the program's.
OTHER_CALLS = set("""access arch_prctl brk clone clone3 execve exit exit_group futex getrandom madvise mmap mprotect munmap newfstatat pread64
    prlimit64 rseq rt_sigaction rt_sigprocmask sched_yield set_robust_list set_tid_address""".split())
KNOWN_CALLS = set("openat statx lseek read pread64 write close".split())

# Of each call the errors that it meets in turn.
ERRORS = {
    "open": "EACCES EINTR EIO EMFILE ENOENT ENOMEM", "statx": "EACCES EIO ENOENT ENOMEM", "lseek": "EINVAL EIO", "read": "EAGAIN EINTR EIO EISDIR",
    "pread": "EAGAIN EINTR EIO", "write": "EAGAIN EINTR EIO ENOSPC EPIPE", "say": "EIO EPIPE", "close": "EINTR EIO", "thread": "EAGAIN"}
READ_FAULT, WRITE_FAULT, REQUEST_FAULT, OUT_OF_MEMORY = 20, 22, 23, 70
# Behind how many bytes, at about even distances, a failure comes where all is moved byte by byte.
PLACES = 20


def worlds():
    return [make() for make in (made.three_numbers, made.three_chunks, made.shared_dictionary, made.every_kind_but_lists,
                                made.every_kind_read)] + made.faults()[:1] + [made.demo()]


def status_of(call, error, is_request):
    """The status of a run in which this call failed so, where it is needed."""
    if error == "ENOMEM":
        return OUT_OF_MEMORY
    if call in ("open", "statx"):
        return REQUEST_FAULT if is_request else READ_FAULT
    return {"lseek": READ_FAULT, "pread": READ_FAULT, "read": REQUEST_FAULT, "write": WRITE_FAULT}.get(call)


def is_needed(call, error, number, workers):
    """Whether no whole answer can come of it. One worker reads by the first of the files that are opened for SEGMENTS."""
    if call in ("say", "close", "thread"):
        return False
    if call in ("open", "statx", "lseek"):
        return number == 1 and workers == 1 and error != "EINTR"
    return (call, error) != ("pread", "EINTR")


def is_right(whole, got, call, error, is_request, needed):
    if got.status == whole.status and got.out == whole.out:
        return not needed and (call == "say" or got.said == whole.said)
    if got.status != status_of(call, error, is_request):
        return False
    return whole.out.startswith(got.out) if call == "write" else not got.out


def tries(around, words, whole):
    """Each call that may fail: its name, the file where that matters, and how often it is made."""
    for call in ERRORS:
        if call in ("open", "statx"):
            for path in (around.segments, around.request):
                count = around.run(words, path=path).counts[call]
                yield call, path, count
        else:
            yield call, None, whole.counts[call]


def workers_of(words):
    if words[0] == "scan" and "--workers" not in words:
        return 4
    return int(words[words.index("--workers") + 1]) if "--workers" in words else 1


def tried(around, words, every, bad, name):
    whole, counted = around.run(words), collections.Counter()
    for call, path, count in tries(around, words, whole):
        for error in ERRORS[call].split():
            for number in range(1, count + 1, every):
                told = {"path": path} if path else {}
                got = around.run(words, call=call, at=number, error=getattr(errno, error), **told)
                needed = is_needed(call, error, number, workers_of(words)) and got.counts.get("done", 1)
                right = is_right(whole, got, call, error, path == around.request, needed)
                counted["%s %s" % (call, got.status if (got.status, got.out) != (whole.status, whole.out) else "whole")] += 1
                if not right:
                    bad.append("%s: %s %d of %s fails by %s: status %s, %d bytes, %r" % (name, call, number, path, error, got.status, len(got.out), got.said[:60]))
    return whole, counted


def byte_by_byte(around, words, whole, bad, name):
    """The same run with each read and write cut to one byte, and so with a failure in the midst of them; how many bytes were
    moved so, and how often a failure came."""
    got, failures = around.run(words, short=1), 0
    if (got.status, got.out, got.said) != (whole.status, whole.out, whole.said):
        bad.append("%s: byte by byte: status %s, %d bytes" % (name, got.status, len(got.out)))
    for call, status in (("read", REQUEST_FAULT), ("pread", READ_FAULT), ("write", WRITE_FAULT)):
        count = got.counts[call]
        for number in range(1, count + 1, max(1, count // PLACES)):
            failed = around.run(words, short=1, call=call, at=number, error=errno.EIO)
            failures += 1
            front = whole.out[:number - 1] if call == "write" else b""
            is_other = call == "pread" and workers_of(words) > 1 and not failed.counts.get("done", 1)
            if (failed.status, failed.out) != (status, front) and not is_other:
                bad.append("%s: byte by byte, %s %d fails: status %s, %d bytes" % (name, call, number, failed.status, len(failed.out)))
    return got.counts["read"] + got.counts["pread"] + got.counts["write"], failures


def others(around, words):
    """The calls that the program makes, and that refuse.c doesn't know."""
    trace = around.counts + ".trace"
    subprocess.run(["strace", "-f", "-qq", "-o", trace, around.program] + around.words(words), capture_output=True, check=False)
    with open(trace, encoding="utf-8", errors="replace") as file:
        made_calls = set(re.findall(r"^\d+ +(\w+)\(", file.read(), re.M))
    return made_calls - KNOWN_CALLS - OTHER_CALLS


def main():
    words = argparse.ArgumentParser(description=__doc__, formatter_class=argparse.RawDescriptionHelpFormatter)
    words.add_argument("program")
    words.add_argument("--only", metavar="WORD", help="only the worlds with this word in their name")
    words.add_argument("--every", type=int, default=1, metavar="N", help="only each Nth call")
    words.add_argument("--traced", action="store_true", help="look by strace for calls that refuse.c doesn't know")
    asked = words.parse_args()
    bad, all_counted, moved, broken = [], collections.Counter(), 0, 0
    with Surroundings(asked.program) as around:
        for world, run, wanted in runs(worlds(), asked.only):
            around.enter(world)
            name = "%s: %s" % (world.name, " ".join(run))
            whole, counted = tried(around, run, asked.every, bad, name)
            if whole.status != wanted:
                bad.append("%s: status %s in place of %d undisturbed" % (name, whole.status, wanted))
            count, failures = byte_by_byte(around, run, whole, bad, name)
            moved, broken, all_counted = moved + count, broken + failures, all_counted + counted
            print("%-80s %4d calls failed; %6d bytes one by one, %3d failures among them" % (name, sum(counted.values()), count, failures), flush=True)
            if asked.traced and others(around, run):
                bad.append("%s: other calls: %s" % (name, " ".join(sorted(others(around, run)))))
    for kind, count in sorted(all_counted.items()):
        print("%6d %s" % (count, kind))
    print("%d calls failed, %d bytes moved one by one, %d failures in the midst of them" % (sum(all_counted.values()), moved, broken))
    ended(bad)


if __name__ == "__main__":
    main()
