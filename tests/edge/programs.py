"""The real programs through the front door: input and output that come in pieces, are waited for, or fail."""
import os
import random
import re
import resource
import shutil
import signal
import socket
import subprocess
import time

from .feeding import answered, calls, fed, on_terminal, redirected, shown
from .running import (
    ATTIC,
    CONSOLE,
    DOOR,
    FOUR_LINES,
    KITCHEN,
    LIMIT,
    ROOT,
    WORD,
    WRITE,
    bad,
    copied,
    ended,
    filled,
    good,
    gone,
    holds,
    left,
    other_user,
    run,
    same,
    scratch,
    short,
    start,
    test,
)

ROOM = 131071
# The largest number that a place holds: of 32 bits, and of a word.
MOST = str(2**32 - 1)
MOST_WORD = str(2**64 - 1)


@test("kitchen: its four lines")
def _():
    good(run([DOOR, "kitchen"]), FOUR_LINES)
    good(run([DOOR, "--built", "kitchen"]), FOUR_LINES)


@test("kitchen: lost output is status 1 and one line")
def _():
    for how in (">/dev/full", ">&-"):
        bad(redirected(how, CONSOLE + ["kitchen"]), b"", "kitchen: standard output: ")
    bad(run(CONSOLE + ["kitchen"], stdout=gone()), None, "kitchen: standard output: ")


@test("console: the calls of the README, refusals and lines that are no calls")
def _():
    good(calls(b""), b"")
    good(calls(WRITE), WORD)
    text = "# a comment\n\nadmit %s\nwrite %s 5 3 0\nno call\n\nwrite %s 5 128 1\nadmit  %s\nd1 %s 8\nread %s 86 1\n" % (ATTIC, KITCHEN, KITCHEN, ATTIC, KITCHEN, KITCHEN)
    good(calls(text), b"admitted\nrefused 9\nunknown\nrefused 8 0\nunknown\ndistance 3 tried 29 radius 1\nmessage 2 z 4 tried 4\n")


@test("console: a last line without a newline is a line")
def _():
    good(calls(WRITE[:-1]), WORD)
    good(calls(WRITE + WRITE[:-1]), WORD + WORD)
    good(calls(WRITE + b"no call"), WORD + b"unknown\n")
    good(calls(WRITE + b"# comment"), WORD)


@test("console: a line may end in CR LF, and a CR elsewhere makes it unknown")
def _():
    admit = b"admit " + ATTIC.encode()
    good(calls(admit + b"\r\n\r\n# x\r\n" + admit + b"\n" + WRITE[:-1] + b"\r\n"), b"admitted\nadmitted\n" + WORD)
    good(calls(admit + b"\r"), b"admitted\n")
    good(calls(b"\r"), b"")
    good(calls(admit + b"\r\r\n" + admit.replace(b" ", b" \r", 1) + b"\n\r" + admit + b"\n\r\r\n" + WRITE), b"unknown\n" * 4 + WORD)
    good(fed([admit, b"\r", b"\n", admit + b"\r", b"\n" + admit, b"\r"]), b"admitted\n" * 3)


@test("console: input in single bytes")
def _():
    text = b"\n# c\nadmit " + ATTIC.encode() + b"\r\n\nno\n" + WRITE + b"d0 " + ATTIC.encode() + b" 8"
    good(fed([text[i : i + 1] for i in range(len(text))]), b"admitted\nunknown\n" + WORD + b"distance 3 tried 7\n")


@test("console: input in odd pieces, and in a thousand reads, is answered as in one piece")
def _():
    chance = random.Random(1)
    lines = [b"read %s %d %d\n" % (KITCHEN.encode(), chance.randrange(140), chance.randrange(6)) for _ in range(1000)]
    text = b"".join(lines)
    status, wanted, err = calls(text)
    same((status, err, wanted.count(b"\n")), (0, b"", 1000), "outcome in one piece")
    pieces, at = [], 0
    while at < len(text):
        size = chance.choice([1, 2, 3, 59, 60, 61, 255, 256, 257, 4095, 4096, 4097])
        pieces.append(text[at : at + size])
        at += size
    holds(len(pieces) > 30, "too few pieces")
    good(fed(pieces), wanted)
    good(fed(lines), wanted)


@test("console: a client that waits for each answer before it sends the next line")
def _():
    process = start(CONSOLE, bufsize=0)
    for message in range(40):
        process.stdin.write(b"# next\nwrite %s %d 0 0\n" % (KITCHEN.encode(), message % 9))
        answer = answered(process)
        holds(answer.startswith(b"word " if message % 9 < 8 else b"refused 7"), "answer %s" % short(answer))
    same(ended(process), (0, b"", b""), "the end")


@test("console: on a terminal, to the key that ends the input")
def _():
    process, terminal = on_terminal(CONSOLE)
    for _ in range(3):
        os.write(terminal, WRITE)
        shown(terminal, b"word 42 d 1\r\n")
    os.write(terminal, b"\x04")
    same(process.wait(timeout=5), 0, "status")
    os.close(terminal)


@test("console: lines at the room for a line and over it, and the lines after them")
def _():
    tail = b"3 1 2 4 1 3 5 7"
    padded = lambda length: b"admit " + b"0" * (length - 6 - len(tail)) + tail + b"\n"
    for length, wanted in ((4095, b"admitted\n"), (4096, b"admitted\n"), (65536, b"admitted\n"), (ROOM - 1, b"admitted\n"), (ROOM, b"admitted\n"), (ROOM + 1, b"unknown\n"), (ROOM + 2, b"unknown\n"), (3 * ROOM, b"unknown\n"), (1 << 20, b"unknown\n")):
        good(calls(padded(length) + WRITE), wanted + WORD)
        good(calls(WRITE + padded(length)[:-1]), WORD + wanted)
        good(calls(padded(length)[:-1] + b"\r\n" + WRITE), wanted + WORD)
    good(calls(b"#" * (1 << 20) + b"\n" + WRITE + b"\xff\0" * ROOM + b"\n" + WRITE), WORD + b"unknown\n" + WORD)


@test("console: a list of any length that fits the line is a call")
def _():
    for count in (0, 64, 65, 256, 257, 2048, 65000):
        good(calls("admit 7 3 1 %d%s\nadmit %s\n" % (count, " 0" * count, ATTIC)), b"refused 1\nadmitted\n")
    good(calls("admit 7 3 1 4294967295 0\nadmit 7 3 1 4294967296 0\nadmit 7 3 1 3 0 0\n"), b"unknown\n" * 3)


@test("console: the longest page and list of records, one more of either, and a page that fills the line")
def _():
    counted = lambda count, tokens: str(count) + (" " + tokens) * count
    told = lambda text: text.encode() + b"\n" + WORD
    asked = lambda text: text.encode() + b"\n" + WRITE
    for slots, records in ((2048, 256), (2049, 256), (2048, 257), (0, 257)):
        page = counted(slots, MOST_WORD)
        line = "pwrite %s 9 %s %s 7 5" % (KITCHEN, page, counted(records, "%s %s 255" % (MOST, MOST)))
        written = "word 85 d 0 page 2048%s 85%s" % ((" " + MOST_WORD) * 7, (" " + MOST_WORD) * 2040)
        good(calls(asked(line)), told(written if (slots, records) == (2048, 256) else "refused 13 page " + page))
        good(calls(asked(line.replace(KITCHEN + " 9", KITCHEN + " " + MOST))), told("refused 16 page " + page))
    for slots, number, wanted in ((2048, "9", "refused 10 7"), (2049, "9", "refused 13"), (2049, MOST, "refused 16")):
        good(calls(asked("pread %s %s %s 7 1" % (KITCHEN, number, counted(slots, MOST_WORD)))), told(wanted))
    whole = lambda slots: "pwrite %s 9 %s 0 7 5" % (KITCHEN, counted(slots, "0"))
    slots = 10000 + (ROOM - len(whole(10000))) // 2
    good(calls(asked(whole(slots))), told("refused 13 page " + counted(slots, "0")))
    good(calls(asked(whole(slots + 1))), told("unknown"))


@test("console: rooms of the most entries and of one more, and tables that fill the line")
def _():
    counted = lambda count: str(count) + (" " + MOST_WORD) * count
    told = lambda text: text.encode() + b"\n" + WORD
    asked = lambda text: text.encode() + b"\n" + WRITE
    for sizes in ((4096, 4096, 4096), (4097, 1, 1), (1, 4097, 1), (1, 1, 4097), (1, 0, 4096)):
        rooms = " P %s R %s Q %s" % tuple(counted(size) for size in sizes)
        line = "totables %s %s" % (ATTIC, " ".join("%d %s" % (size, MOST_WORD) for size in sizes))
        good(calls(asked(line)), told("unknown" if 4097 in sizes else "refused 1" + rooms))
    whole = lambda rows: "tosheet 1 1 0 %d%s 0 0 4096 %s" % (rows, " 0" * rows, MOST_WORD)
    rows = 10000 + (ROOM - len(whole(10000))) // 2
    good(calls(asked(whole(rows))), told("refused 1 room " + counted(4096)))
    good(calls(asked(whole(rows + 1))), told("unknown"))


@test("console: a whole page of the most slots, records and notes, one more of each, and messages that fill the line")
def _():
    counted = lambda count, token: str(count) + (" " + token) * count
    told = lambda text: text.encode() + b"\n" + WORD
    asked = lambda text: text.encode() + b"\n" + WRITE
    line = lambda slots, records, messages, notes: "wpage %s 9 %s %s %s %d %s" % (KITCHEN, slots, records, messages, notes, MOST_WORD)
    records = lambda count: counted(count, "%s %s 255" % (MOST, MOST))
    page = counted(2048, MOST_WORD)
    good(calls(asked(line(page, records(256), counted(2048, "5"), 2048))), told("done page " + counted(2048, "85") + " notes " + counted(2048, "0")))
    good(calls(asked(line(counted(2048, "7"), records(256), counted(2048, MOST_WORD), 2048))), told("done page " + counted(2048, "7") + " notes " + counted(2048, "7")))
    for number, slots, count, notes in ((25, 2048, 256, 4096), (25, 2048, 256, 2047), (13, 2049, 256, 2049), (13, 2048, 257, 2048), (13, 2049, 257, 4096)):
        given = counted(slots, MOST_WORD)
        good(calls(asked(line(given, records(count), counted(slots, "5"), notes))), told("refused %d page %s notes %s" % (number, given, counted(notes, MOST_WORD))))
    good(calls(asked(line(page, "0", counted(2048, "5"), 4097))), told("unknown"))
    whole = lambda messages: line("0", "0", counted(messages, "0"), 4096)
    messages = 10000 + (ROOM - len(whole(10000))) // 2
    good(calls(asked(whole(messages))), told("refused 25 page 0 notes " + counted(4096, MOST_WORD)))
    good(calls(asked(whole(messages + 1))), told("unknown"))


@test("console: page calls, answered and refused, and page lines that are no calls")
def _():
    text = ""
    wanted = ""
    for arguments, answer in (
        ("3 3 7 8 9 1 1 0 0 1 5", "word 42 d 1 page 3 7 42 9"),
        ("3 0 0 0 5", "refused 14 page 0"),
        ("3 1 0 3 0 0 1 0 0 1 0 9 0 0 5", "refused 15 2 page 1 0"),
        ("3 1 6 1 0 0 255 0 5", "refused 15 0 page 1 6"),
        ("3 1 6 1 0 0 256 0 5", "unknown"),
        ("3 1 6 1 1 0 256 0 5", "unknown"),
        ("3 1 6 1 1 4294967295 255 0 5", "word 85 d 0 page 1 85"),
        ("3 1 6 1 0 7 0 0 8", "refused 15 0 page 1 6"),
        ("3 1 6 2 0 0 0 0 1 0 0 5", "refused 9 page 1 6"),
        ("3 1 6 2 0 0 0 0 5", "unknown"),
        ("3 1 6 1431655766 0 0 0 0 5", "unknown"),
        ("3 4294967295 6 0 0 5", "unknown"),
        ("0 1 6 0 0 5", "refused 16 page 1 6"),
        ("10 1 6 0 0 5", "refused 16 page 1 6"),
        ("9 1 6 0 0 5", "word 85 d 0 page 1 85"),
        ("4294967295 1 6 0 0 5", "refused 16 page 1 6"),
        ("4294967296 1 6 0 0 5", "unknown"),
        ("3 1 4294967296 0 0 5", "word 85 d 0 page 1 85"),
        ("3 1 18446744073709551616 0 0 5", "unknown"),
        ("3 1 6 1 0 4294967296 0 0 5", "unknown"),
    ):
        text += "pwrite %s %s\n" % (KITCHEN, arguments)
        wanted += answer + "\n"
    good(calls(text), wanted.encode())
    text = "open %s\npread %s 3 1 21 0 1\npread %s 3 1 21 0 2\nopen %s 8\n" % (KITCHEN, KITCHEN, KITCHEN, KITCHEN)
    good(calls(text), b"number 3\nmessage 5 z 64 tried 8\nrefused 16\nunknown\n")


@test("console: lost output is status 1 and one line")
def _():
    for how in (">/dev/full", ">&-"):
        bad(redirected(how, data=WRITE), b"", "console: standard output (answers written: 0): ")
        bad(redirected(how, data=WRITE * 5000), b"", "console: standard output (answers written: 0): ")
        good(redirected(how, data=b"# nothing to answer\n"), b"")
    bad(run(CONSOLE, WRITE, stdout=gone()), None, "console: standard output (answers written: 0): ")


@test("console: a reader that goes away ends the run, though the input goes on")
def _():
    line = '(while echo "$1"; do :; done) 2>/dev/null | { "$0"; echo $? >&2; } | head -n 1'
    _, out, err = run(["sh", "-c", line, DOOR, WRITE[:-1].decode()], stdin=subprocess.DEVNULL)
    same(out, WORD, "output")
    holds(re.fullmatch(rb"console: standard output \(answers written: [1-9]\d*\): Broken pipe\n1\n", err), "standard error with the status: %s" % short(err))


@test("console: an output that is full after some bytes is status 1 and one line")
def _():
    path = os.path.join(scratch, "limited")
    limit = lambda: resource.setrlimit(resource.RLIMIT_FSIZE, (1000, 1000))
    with open(path, "wb") as file:
        status, _, err = run(CONSOLE, WRITE * 500, stdout=file, preexec_fn=limit)
    same((status, err.count(b"\n")), (1, 1), "status and lines on standard error (%s)" % short(err))
    with open(path, "rb") as file:
        written = file.read()
    holds((WORD * 500).startswith(written), "what was written is not the beginning of the answers")
    holds(status == 1 and b"(answers written: %d)" % written.count(b"\n") in err or b"signal" in err, "the answers that were written are not counted: %s" % short(err))


@test("console: input that cannot be read is status 1 and one line")
def _():
    bad(redirected("<&-"), b"", "console: standard input: Bad file descriptor")
    bad(redirected("</"), b"", "console: standard input: Is a directory")
    same(redirected("<&- >&- 2>&-")[0], 1, "status with all closed")
    same(redirected("2>&-", data=WRITE), (0, WORD, b""), "outcome with standard error closed")
    same(redirected("2>&- >/dev/full", data=WRITE)[0], 1, "status with standard error closed and output full")


@test("console: input that breaks in the middle of a line: what is held is not answered")
def _():
    ours, theirs = socket.socketpair()
    theirs.send(b"x")  # unread on our side, so that our close is a reset to the reader
    ours.send(WRITE + WRITE[:-1])
    process = start(CONSOLE, stdin=theirs)
    theirs.close()
    same(answered(process), WORD, "answer to the whole line")
    ours.close()
    bad(ended(process), b"", "console: standard input: ")


@test("console: non-blocking input: half a line is never answered, and waiting costs no time of the processor")
def _():
    reader, writer = os.pipe()
    os.set_blocking(reader, False)
    process = start(CONSOLE, stdin=reader)
    os.close(reader)
    before = resource.getrusage(resource.RUSAGE_CHILDREN)
    try:
        os.write(writer, b"read %s 42 1" % KITCHEN.encode())
        time.sleep(1)
        os.write(writer, b"0\n")
    except BrokenPipeError:
        pass
    os.close(writer)
    status, out, err = ended(process)
    after = resource.getrusage(resource.RUSAGE_CHILDREN)
    if status == 0:
        same((out, err), (b"refused 11\n", b""), "outcome")
    else:
        bad((status, out, err), b"", "console: standard input: ")
    holds(after.ru_utime + after.ru_stime - before.ru_utime - before.ru_stime < 0.5, "waiting for input spins")


@test("console: non-blocking output and a slow reader: every answer whole, or status 1 and one line")
def _():
    reader, writer = os.pipe()
    os.set_blocking(writer, False)
    count = 20000
    process = start(CONSOLE, stdin=open(filled("many", WRITE * count), "rb"), stdout=writer)
    os.close(writer)
    got = b""
    while True:
        time.sleep(0.02)
        piece = os.read(reader, 30000)
        if not piece:
            break
        got += piece
    os.close(reader)
    status, _, err = ended(process)
    wanted = WORD * count
    if status == 0:
        holds(got == wanted and err == b"", "status 0, and %d of %d bytes arrived" % (len(got), len(wanted)))
    else:
        holds(wanted.startswith(got), "what arrived is not the beginning of the answers")
        bad((status, None, err), None, "console: standard output (answers written: ")


@test("console: a slow reader of a pipe gets every answer")
def _():
    process = start(CONSOLE, stdin=open(filled("many", WRITE * 20000), "rb"))
    got = b""
    while True:
        time.sleep(0.005)
        piece = os.read(process.stdout.fileno(), 9999)
        if not piece:
            break
        got += piece
    same(process.wait(timeout=LIMIT), 0, "status")
    holds(got == WORD * 20000, "%d bytes arrived" % len(got))
    process.communicate()


@test("console: killed while it works is status 1 and one line")
def _():
    process = start(CONSOLE, bufsize=0)
    process.stdin.write(WRITE)
    same(answered(process), WORD, "answer")
    for pid in left():
        with open("/proc/%d/cmdline" % pid, "rb") as line:
            if line.read().split(b"\0")[-2].endswith(b"/console/out/console"):
                os.kill(pid, signal.SIGKILL)
    bad(ended(process), b"", "namestore: console was ended by signal KILL")


@test("two starts at once, fifteen pairs; and one start's answers made another's calls")
def _():
    for _ in range(15):
        pair = [start([DOOR, "kitchen"], stdin=subprocess.DEVNULL), start([DOOR])]
        good(ended(pair[1], WRITE), WORD)
        good(ended(pair[0]), FOUR_LINES)
    line = '"$0" | sed "s/word \\([0-9]*\\) .*/read $1 \\1 1/" | "$0"'
    good(run(["sh", "-c", line, DOOR, KITCHEN], WRITE), b"message 5 z 0 tried 1\n")


@test("through a link, with CDPATH set, from another folder: the real check")
def _():
    link = os.path.join(scratch, "a link")
    os.symlink(DOOR, link)
    good(run([link], WRITE, cwd="/", env={"CDPATH": "/:" + ROOT}), WORD)


@test("a checkout that cannot be written to: the check fails closed, --built runs; so does a source that is not right")
def _():
    folder = copied(built=True)
    door = os.path.join(folder, "namestore")
    good(run([door], WRITE), WORD)
    with other_user(folder) as prefix:
        bad(run(prefix + [door], WRITE), b"", "namestore: target/ cannot be written to")
        good(run(prefix + [door, "--built"], WRITE), WORD)
    with open(os.path.join(folder, "crates/console/src/main.rt"), "a") as source:
        source.write("fn {\n")
    kept = os.path.join(folder, "crates/console/out")  # what rt noted of the last check cannot be written, the rest can
    if os.geteuid() == 0:
        subprocess.run(["chown", "-R", "65534:65534", folder], check=True)
        subprocess.run(["chown", "-R", "0:0", kept], check=True)
    with other_user(kept) as prefix:
        status, out, err = run(prefix + [door], WRITE, limit=50)
        same((status, out), (1, b""), "with a source that is not right, and notes that cannot be written")
        holds(b"the check did not pass" in err, "standard error %s" % short(err))
    status, out, err = run([door], WRITE, limit=60)
    same((status, out), (1, b""), "with a source that is not right")
    holds(b"the check did not pass" in err, "standard error %s" % short(err))
    good(run([door, "--built"], WRITE), WORD)


@test("a program that is gone, or is another than was proved, is linked again", cold=True)
def _():
    folder = copied(built=True)
    door, kitchen = os.path.join(folder, "namestore"), os.path.join(folder, "crates/kitchen/out/kitchen")
    os.remove(kitchen)
    same(run([door, "kitchen"], limit=600)[:2], (0, FOUR_LINES), "with no program")
    shutil.copy(os.path.join(folder, "crates/console/out/console"), kitchen)
    same(run([door, "kitchen"], limit=600)[:2], (0, FOUR_LINES), "with another program")
