"""Programs with a planted error around one that keeps a journal: wrong_journals.py ERROR PROGRAM [--journal FILE].

early   tells each answer before the journal has its line
drop    drops the journal's last line when it starts
skip    has the session skip the last line of the journal when it starts
again   tells the answers to recovered lines again
count   tells one line more than was recovered
lost    drops an element from the dump that has made the journal short
"""
import os
import subprocess
import sys
import threading
import time

from journal_text import COUNTED, attested, flat, made, sent_in

PIPE = subprocess.PIPE


def say(some):
    os.write(1, some)


def pump(source, skipped=0, lines=0):
    """Passes on what comes, but for so many bytes and so many lines at first."""
    while some := os.read(source.fileno(), 65536):
        while lines and some:
            _, end, some = some.partition(b"\n")
            lines -= bool(end)
        part, skipped = some[skipped:], max(0, skipped - len(some))
        if part:
            say(part)


def told_of(program, lines):
    """What a session without a journal tells of these lines, without its final lines."""
    told = subprocess.run(program, input=b"".join(lines), stdout=PIPE, check=True).stdout.splitlines(keepends=True)
    return b"".join(it for it in told if not it.startswith(b"final "))


def beside(program, path, lines, delay):
    """Answers by a session without a journal that has had these lines. The journal has each line by another one, so many seconds later:
    where there is no delay, before."""
    kept = subprocess.Popen([*program, "--journal", path], stdin=PIPE, stdout=PIPE, bufsize=0)
    told = subprocess.Popen(program, stdin=PIPE, stdout=PIPE, bufsize=0)
    told.stdin.write(b"".join(lines))
    first = kept.stdout.readline()
    say(first)
    threading.Thread(target=pump, args=(told.stdout, len(told_of(program, lines))), daemon=True).start()
    threading.Thread(target=kept.stdout.read, daemon=True).start()
    while some := os.read(0, 4096):
        for to in (told, kept) if delay else (kept, told):
            to.stdin.write(some)
            time.sleep(delay or 0.02)
    told.stdin.close()
    kept.stdin.close()
    told.wait()
    kept.wait()


def around(program, path, first):
    """Runs the program, and tells this in place of its first answer."""
    kept = subprocess.Popen([*program, "--journal", path], stdout=PIPE, bufsize=0)
    said = kept.stdout.readline()
    if said:
        say(first)
        pump(kept.stdout)
    kept.wait()


def main():
    error, program, path = sys.argv[1], sys.argv[2:-2], sys.argv[-1]
    batches = attested(path)
    lines = flat(batches)
    if error == "early":
        beside(program, path, lines, 0.05)
    elif error == "skip":
        beside(program, path, lines[:-1], 0)
    elif error == "again":
        before, behind = sent_in(path)
        around(program, path, b"recovered %d\n" % (before + len(behind)) + told_of(program, lines))
    elif error == "count":
        before, behind = sent_in(path)
        around(program, path, b"recovered %d\n" % (before + len(behind) + 1))
    elif error == "lost":
        count = COUNTED.fullmatch(lines[0]) if lines else None
        elements = [it for it in lines if it.startswith(b"element ")]
        if count and elements:
            lines[0] = b"# covetrivet: %d lines for %s\2\n" % (int(count[1]) - 1, count[2])
            lines.remove(elements[-1])
            with open(path, "wb") as file:
                file.write(made([lines]))
        os.execv(program[0], [*program, "--journal", path])
    elif error == "drop":
        if lines:
            with open(path, "wb") as file:
                file.write(made([lines[:-1]]))
        os.execv(program[0], [*program, "--journal", path])


main()
