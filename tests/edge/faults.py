"""Reads and writes that fail, by strace."""
import os
import shutil

from .running import FOUR_LINES, WORD, WRITE, Skipped, filled, holds, one_line, program, run, same, scratch, test


def traced(name, inject, data):
    """What a program writes, says, puts on descriptor 3 and has for a status, and how many such calls it makes, when the calls on its input or output fail so. It is run as the front door runs it."""
    if not shutil.which("strace"):
        raise Skipped("strace is not installed")
    given, wrote, end = filled("given", data), filled("wrote", b""), filled("end", b"")
    call, fault = inject
    command = ["strace", "-qq", "-o", filled("trace", b""), "-e", "trace=" + call, "-P", given if call == "read" else wrote]
    if fault:
        command += ["-e", "inject=%s:%s" % (call, fault)]
    command += [program(name)]
    status, _, err = run(["sh", "-c", 'i=$1 o=$2 e=$3; shift 3; exec "$@" <"$i" >"$o" 3>"$e"', "sh", given, wrote, end] + command)
    if b"strace: " in err:
        raise Skipped("strace cannot trace here")
    read = lambda path: open(path, "rb").read()
    return read(wrote), err, (read(end), status), read(os.path.join(scratch, "trace")).count(b"\n")


@test("strace: interrupted reads and writes are tried again")
def _():
    text = WRITE * 3000
    for call in ("read", "write"):
        for when in ("1", "2", "1+2", "2+2", "1..3"):
            wrote, err, end, _ = traced("console", (call, "error=EINTR:when=" + when), text)
            holds(wrote == WORD * 3000, "%s, %s: %d of %d bytes written" % (call, when, len(wrote), len(WORD) * 3000))
            same((err, end), (b"", (b".", 0)), "%s, %s" % (call, when))
    wrote, err, end, _ = traced("kitchen", ("write", "error=EINTR:when=1"), b"")
    same((wrote, err, end), (FOUR_LINES, b"", (b".", 0)), "kitchen")


@test("strace: any other failed read or write ends the run, with one line and no `.`")
def _():
    text = WRITE * 3000 + WRITE[:-1]
    for call, error, word in (("read", "EIO", "input"), ("write", "EIO", "output"), ("write", "ENOSPC", "output")):
        for when in ("1", "2"):
            wrote, err, end, _ = traced("console", (call, "error=%s:when=%s" % (error, when)), text)
            one_line(err, "console: standard input: " if word == "input" else "console: standard output (answers written: %d): " % wrote.count(b"\n"))
            same(end, (b"", 1), "descriptor 3 and status")
            holds((WORD * 3000).startswith(wrote) and wrote.endswith(WORD) | (wrote == b""), "%s, %s, %s: what was written" % (call, error, when))
    wrote, err, end, _ = traced("kitchen", ("write", "error=EIO:when=1"), b"")
    same((wrote, end), (b"", (b"", 1)), "kitchen")
    one_line(err, "kitchen: standard output: ")


@test("strace: an input that stays interrupted or empty does not hold the program forever")
def _():
    for error in ("EINTR", "EAGAIN"):
        wrote, err, end, _ = traced("console", ("read", "error=%s:when=1+" % error), WRITE)
        same((wrote, end), (b"", (b"", 1)), error)
        one_line(err, "console: standard input: ")


@test("strace: kitchen writes once")
def _():
    wrote, err, end, count = traced("kitchen", ("write", ""), b"")
    same((wrote, err, end, count), (FOUR_LINES, b"", (b".", 0), 1), "outcome and number of writes")
