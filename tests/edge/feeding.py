"""Ways to feed a program its input, and to look at what it answers meanwhile."""
import fcntl
import os
import struct
import termios
import time

from .running import CONSOLE, LIMIT, ended, filled, holds, run, scratch, short, start


def calls(text):
    """The outcome of the console on a text."""
    return run(CONSOLE, text if isinstance(text, bytes) else text.encode())


def redirected(how, command=None, data=b""):
    """Runs a command (the console) with the shell's redirections."""
    return run(["sh", "-c", 'exec "$@" ' + how, "sh"] + (command or CONSOLE), data)


def drained(fd, limit=LIMIT):
    """Waits until a pipe's bytes have been read, so that the next ones come by a read of their own."""
    end = time.monotonic() + limit
    while struct.unpack("i", fcntl.ioctl(fd, termios.FIONREAD, b"\0\0\0\0"))[0]:
        holds(time.monotonic() < end, "input is not read")
        time.sleep(0.0002)


def fed(pieces):
    """The outcome of the console on input that comes in these pieces, each read before the next is sent."""
    process = start(CONSOLE, bufsize=0, stdout=open(filled("fed", b""), "wb"))
    for piece in pieces:
        process.stdin.write(piece)
        drained(process.stdin.fileno())
    process.stdin.close()
    process.stdin = None
    status, _, err = ended(process)
    with open(os.path.join(scratch, "fed"), "rb") as file:
        return status, file.read(), err


def answered(process, limit=5):
    """One line that a process writes, if it comes in time."""
    line = b""
    os.set_blocking(process.stdout.fileno(), False)
    end = time.monotonic() + limit
    while not line.endswith(b"\n"):
        holds(time.monotonic() < end, "no answer within %d s; so far %s" % (limit, short(line)))
        piece = process.stdout.read(1)
        if piece is None:
            time.sleep(0.005)
        line += piece or b""
    os.set_blocking(process.stdout.fileno(), True)
    return line


def on_terminal(command, env=()):
    """Starts a command on a terminal of its own; answers the process and our end of the terminal."""
    ours, theirs = os.openpty()
    claim = lambda: fcntl.ioctl(0, termios.TIOCSCTTY, 0)
    process = start(command, env=env, stdin=theirs, stdout=theirs, stderr=theirs, preexec_fn=claim)
    os.close(theirs)
    return process, ours


def shown(terminal, text, limit=10):
    """Fails unless the terminal comes to show a text."""
    seen, end = b"", time.monotonic() + limit
    os.set_blocking(terminal, False)
    while text not in seen:
        holds(time.monotonic() < end, "the terminal shows %s, wanted %s" % (short(seen), short(text)))
        try:
            seen += os.read(terminal, 4096)
        except BlockingIOError:
            time.sleep(0.01)
