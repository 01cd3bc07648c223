"""What the tests share: how they are named, run and judged, and ways to run a command. All that is written lies in one scratch folder."""
import os
import shutil
import signal
import subprocess
import tempfile
import time

ROOT = os.path.dirname(os.path.dirname(os.path.dirname(os.path.realpath(__file__))))
DOOR = os.path.join(ROOT, "namestore")
CONSOLE = [DOOR, "--built"]
KITCHEN = "7 3 1 10 49 82 100 127 27 45 78 9 10 12"
ATTIC = "3 1 2 4 1 3 5 7"
FOUR_LINES = b"d0 2 tried 8\nd1 3 tried 29\nwrite 42\nread 5 tried 1\n"
WRITE = ("write %s 5 1 0\n" % KITCHEN).encode()
WORD = b"word 42 d 1\n"
MARK = "NAMESTORE_EDGES"
LIMIT = 20
tests = []
scratch = tempfile.mkdtemp(prefix="edges-")
os.chmod(scratch, 0o755)


def program(name):
    """The path of a program, as rt links it."""
    return os.path.join(ROOT, "crates", name, "out", name)


class Failed(Exception):
    """What a test found wrong."""


class Skipped(Exception):
    """Why a test cannot be run here."""


def test(name, cold=False):
    """Registers a test under the name that is printed."""
    return lambda function: tests.append((name, cold, function)) or function


def same(got, wanted, what):
    """Fails unless the two are equal."""
    if got != wanted:
        raise Failed("%s: %s, wanted %s" % (what, short(got), short(wanted)))


def holds(fact, what):
    """Fails unless the fact holds."""
    if not fact:
        raise Failed(what)


def short(value):
    """A value as text of one line, cut if it is long."""
    text = repr(value)
    return text if len(text) <= 300 else "%s .. (%d characters)" % (text[:300], len(text))


def start(command, env=(), **how):
    """Starts a command, marked so that all that it starts can be found."""
    how.setdefault("stdin", subprocess.PIPE)
    how.setdefault("stdout", subprocess.PIPE)
    how.setdefault("stderr", subprocess.PIPE)
    marked = dict(os.environ, **{MARK: scratch}, **dict(env))
    return subprocess.Popen(command, env=marked, start_new_session=True, **how)


def ended(process, data=None, limit=LIMIT):
    """What a process wrote and said, and its status, once it ended."""
    try:
        out, err = process.communicate(data, timeout=limit)
    except subprocess.TimeoutExpired:
        raise Failed("still running after %d s" % limit) from None
    return process.returncode, out, err


def run(command, data=b"", limit=LIMIT, **how):
    """Runs a command to its end on the bytes given."""
    if "stdin" in how:
        data = None
    return ended(start(command, **how), data, limit)


def left():
    """The processes that still run of those that were started, by their mark."""
    wanted = ("%s=%s" % (MARK, scratch)).encode()
    found = []
    for entry in os.listdir("/proc"):
        try:
            with open("/proc/%s/environ" % entry, "rb") as environ, open("/proc/%s/stat" % entry, "rb") as stat:
                if wanted in environ.read().split(b"\0") and stat.read().rsplit(b")")[-1].split()[0] != b"Z":
                    found.append(int(entry))
        except (OSError, ValueError):
            pass
    return found


def soon(fact, limit=5.0):
    """Whether a fact comes to hold within some seconds."""
    end = time.monotonic() + limit
    while not fact():
        if time.monotonic() > end:
            return False
        time.sleep(0.02)
    return True


def clean():
    """Ends what a test left running."""
    for pid in left():
        try:
            os.kill(pid, signal.SIGKILL)
        except OSError:
            pass


def one_line(err, start_of_it):
    """Fails unless standard error is one line that begins so and says more."""
    text = err.decode(errors="replace")
    holds(text.startswith(start_of_it) and not text.endswith(": \n"), "standard error %s, wanted a line that begins %r" % (short(text), start_of_it))
    holds(text.count("\n") == 1 and text.endswith("\n"), "standard error is not one line: %s" % short(text))


def good(outcome, wanted):
    """Fails unless a run ended well with this output and nothing on standard error."""
    status, out, err = outcome
    same(out, wanted, "output")
    same(err, b"", "standard error")
    same(status, 0, "status")


def bad(outcome, wanted, says):
    """Fails unless a run wrote this, said one line that begins so, and ended with status 1."""
    status, out, err = outcome
    if wanted is not None:
        same(out, wanted, "output")
    one_line(err, says)
    same(status, 1, "status")


def filled(name, data):
    """The path of a scratch file with these bytes."""
    path = os.path.join(scratch, name)
    with open(path, "wb") as file:
        file.write(data)
    return path


def gone():
    """The writing end of a pipe whose reader is gone."""
    reader, writer = os.pipe()
    os.close(reader)
    return writer


class other_user:
    """A way to run as one who cannot write the folder: as nobody where we are root, else with its modes taken away."""

    def __init__(self, folder):
        self.folder = folder

    def __enter__(self):
        if os.geteuid() != 0:
            self.modes("a-w")
            return []
        if not shutil.which("setpriv"):
            raise Skipped("setpriv is not installed, and root can write everywhere")
        prefix = ["setpriv", "--reuid=65534", "--regid=65534", "--clear-groups"]
        if run(prefix + ["sh", "-c", 'cd "$1" && rt doc', "sh", self.folder])[0] != 0:
            raise Skipped("nobody cannot reach the kit or " + self.folder)
        return prefix

    def __exit__(self, *_):
        if os.geteuid() != 0:
            self.modes("u+w")

    def modes(self, change):
        """Changes the modes of the folder and all in it."""
        subprocess.run(["chmod", "-R", change, self.folder], check=True)


def copied(built):
    """A copy of what the front door needs of the checkout: with what is built of it or without, and in no case with what a check keeps for the next one."""
    folder = os.path.join(tempfile.mkdtemp(dir=scratch), "a copy")
    os.chmod(os.path.dirname(folder), 0o755)
    left_out = shutil.ignore_patterns("incremental" if built else "out")
    shutil.copytree(os.path.join(ROOT, "crates"), os.path.join(folder, "crates"), ignore=left_out)
    for name in ("namestore", "crates.txt"):
        shutil.copy(os.path.join(ROOT, name), folder)
    subprocess.run(["chmod", "-R", "a+rX", folder], check=True)
    return folder
