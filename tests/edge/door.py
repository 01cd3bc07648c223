"""The front door, mostly over a stand-in kit."""
import os
import re
import shutil
import signal
import subprocess
import sys
import time

from .feeding import on_terminal, redirected, shown
from .running import DOOR, ROOT, bad, ended, good, gone, holds, left, other_user, run, same, short, soon, test
from .stand import PASSES, Stand


TOOLS = ["bash", "sh", "dirname", "readlink", "mkdir", "rm", "grep", "tail", "sleep", "cat", "env"]


@test("the door: `.` on descriptor 3 is status 0, input and output pass through")
def _():
    good(Stand().run(data=b"one\ntwo"), b"one\ntwo")


@test("the door: a silent end without `.` is status 1 and one line")
def _():
    for status in (0, 1, 2, 100):
        bad(Stand("cat; exit %d" % status).run(data=b"one\n"), b"one\n", "namestore: console ended early")


@test("the door: what the program says is passed on, once, with status 1")
def _():
    for status in (0, 1, 2, 100):
        bad(Stand("echo 'console: standard output: no room' >&2; exit %d" % status).run(), b"", "console: standard output: no room")


@test("the door: other words on descriptor 3 are no good end")
def _():
    for word in ("..", ",", "x.", ". "):
        same(Stand("printf '%s' >&3" % word).run()[0], 1, "status after %r" % word)


@test("the door: a program that is killed is status 1 and one line that names the signal")
def _():
    bad(Stand("echo one; kill -KILL $$").run(), b"one\n", "namestore: console was ended by signal KILL")


@test("the door: a program that cannot be started is status 1, and says so")
def _():
    stand = Stand()
    os.chmod(os.path.join(stand.checkout, "crates/console/out/console"), 0o644)
    status, out, err = stand.run("--built")
    same((status, out), (1, b""), "status and output")
    holds(b"console/out/console" in err, "standard error %s" % short(err))


@test("the door: a last word without a newline is passed on")
def _():
    same(Stand("printf 'no room' >&2").run(), (1, b"", b"no room\n"), "outcome")


@test("the door: what it says before it is ended well is passed on, status 0")
def _():
    same(Stand("echo odd >&2; printf . >&3").run(), (0, b"", b"odd\n"), "outcome")


@test("the door: the program has descriptors 0 to 3 and no other, and the caller's folder")
def _():
    stand = Stand("ls /proc/$$/fd; pwd; printf . >&3")
    for command in ([stand.door], ["sh", "-c", 'exec "$0" 3>/dev/null', stand.door]):
        status, out, _ = stand.run(command=command, cwd="/")
        same(status, 0, "status")
        seen = [word for word in out.split() if word not in (b"10", b"255")]  # at which a shell holds its script
        same(seen, [b"0", b"1", b"2", b"3", b"/"], "descriptors and folder")


@test("the door: input that the program leaves stays for the next reader")
def _():
    stand = Stand("read line; echo $line; printf . >&3")
    same(run(["sh", "-c", '"$0"; cat', stand.door], b"one\ntwo\n", env=stand.env), (0, b"one\ntwo\n", b""), "outcome")


@test("the door fails closed: the check fails, or passes without saying so")
def _():
    for check in ("echo 'logic=not-proved'; exit 1", "exit 0", PASSES + "; exit 1", "echo not one word of it", "kill -KILL $$", "exit 127"):
        status, out, err = Stand("echo run", check).run()
        same((status, out), (1, b""), "after %r" % check)
        holds(b"the check did not pass" in err, "standard error %s" % short(err))


@test("the door fails closed: target/ or its parts cannot be written to")
def _():
    for part in ("target", "target/console.log/x"):  # a file where the folder would be, a folder where the log would be
        stand = Stand("echo run")
        stand.file("a checkout/" + part, "")
        bad(stand.run(), b"", "namestore: target/ cannot be written to")


@test("the door fails closed: a checkout of another user")
def _():
    stand = Stand("echo run; printf . >&3")
    good(stand.run(), b"run\n")
    with other_user(stand.checkout) as prefix:
        bad(stand.run(command=prefix + [stand.door]), b"", "namestore: target/ cannot be written to")
        good(stand.run("--built", command=prefix + [stand.door]), b"run\n")


@test("the door: no rt on the path is status 1 and one line")
def _():
    stand = Stand()
    bad(stand.run(env={"PATH": stand.path_of(*TOOLS).split(":")[1]}), b"", "namestore: the Rattle kit is needed")
    bad(stand.run("--built", env={"PATH": stand.path_of(*TOOLS).split(":")[1]}), b"", "namestore: the Rattle kit is needed")


@test("the door: --built checks nothing and writes nothing; without a program it is status 1")
def _():
    stand = Stand(check="echo checked >> check-ran; exit 1")
    listed = lambda: sorted(os.path.join(folder, name) for folder, _, names in os.walk(stand.home) for name in names)
    before = listed()
    good(stand.run("--built", data=b"one\n"), b"one\n")
    good(stand.run("--built", "console", data=b"one\n"), b"one\n")
    bad(stand.run("--built", "kitchen"), b"", "namestore: kitchen is not built")
    same(listed(), before, "files")


@test("the door: writes in target/ only")
def _():
    stand = Stand()
    listed = lambda: sorted(os.path.join(folder, name) for folder, _, names in os.walk(stand.home) for name in names if "/target" not in folder)
    before = listed()
    good(stand.run(), b"")
    same(listed(), before, "files outside target/")


@test("the door: says that it proves where that takes long, and only there")
def _():
    same(Stand(check="sleep 4; " + PASSES).run(), (0, b"", b"namestore: proving, some minutes, once\n"), "outcome of a check that takes long")
    good(Stand(check="sleep 0.3; " + PASSES).run(), b"")


@test("the door: twelve starts at once check one after the other")
def _():
    stand = Stand(check="mkdir target/busy || exit 1; sleep 0.05; rmdir target/busy; " + PASSES)
    started = [stand.start(stdin=subprocess.DEVNULL) for _ in range(12)]
    for process in started:
        same(ended(process)[:2], (0, b""), "status and output")


@test("the door: the lock by perl or python3 where flock is missing, and closed where all are")
def _():
    for tools in (["perl"], ["python3"], []):
        if tools and not shutil.which(tools[0]):
            continue
        stand = Stand(check="mkdir target/busy || exit 1; sleep 0.1; rmdir target/busy; " + PASSES)
        path = {"PATH": stand.path_of(*(TOOLS + ["rmdir"] + [t for t in tools if t != "python3"]))}
        if "python3" in tools:
            os.symlink(sys.executable, os.path.join(path["PATH"].split(":")[1], "python3"))
        started = [stand.start(stdin=subprocess.DEVNULL, env=path) for _ in range(4)]
        for process in started:
            status, out, err = ended(process)
            same((status, out), (0 if tools else 1, b""), "with %s: %s" % (tools, short(err)))
            holds(tools or b"target/lock cannot be locked" in err, "standard error %s" % short(err))


@test("the door: a signal while proving leaves no prover and no lock, and is the end that it gives")
def _():
    prover = "sh -c 'sleep 50 & sleep 50; true' & sh -c 'sleep 50; true'; " + PASSES
    for number in (signal.SIGTERM, signal.SIGINT, signal.SIGHUP, signal.SIGQUIT):
        stand = Stand(check=prover)
        process = stand.start()
        same(process.stderr.readline(), b"namestore: proving, some minutes, once\n", "first line on standard error")
        holds(soon(lambda: len(left()) >= 6), "the stand-in prover did not start")
        process.send_signal(number)
        status = 1 if number == signal.SIGQUIT else -number  # bash does not die of SIGQUIT
        same(ended(process, limit=5), (status, b"", b""), "status and the rest of what is written")
        holds(soon(lambda: not left()), "processes left after %s" % number.name)
        stand.file("kit/check", PASSES)
        good(stand.run(data=b"one\n"), b"one\n")


@test("the door: a key that interrupts, sent to its whole process group, leaves no prover")
def _():
    stand = Stand(check="sh -c 'sleep 50; true'; " + PASSES)
    process = stand.start()
    holds(soon(lambda: len(left()) >= 4), "the stand-in prover did not start")
    os.killpg(process.pid, signal.SIGINT)
    same(ended(process, limit=5)[0], -signal.SIGINT, "status")
    holds(soon(lambda: not left()), "processes left")


@test("the door: with nobody left to tell that it proves, it leaves no prover")
def _():
    stand = Stand(check="sh -c 'sleep 50; true'; " + PASSES)
    same(stand.run(stdin=subprocess.DEVNULL, stderr=gone())[:2], (-signal.SIGPIPE, b""), "status and output")
    holds(soon(lambda: not left()), "processes left")


@test("the door: whatever the environment asks of a shell")
def _():
    for env in ({"POSIXLY_CORRECT": "1"}, {"SHELLOPTS": "errexit:noclobber:posix"}, {"LC_ALL": "C"}, {"IFS": "/"}, {"HOME": "/nowhere", "TMPDIR": "/nowhere"}):
        good(Stand().run(data=b"one\n", env=env), b"one\n")
        bad(Stand("exec cat /nowhere").run(env=env), b"", "cat: ")


@test("the door: target/ removed while starts check and wait")
def _():
    stand = Stand(check="sleep 0.4; mkdir ../busy 2>/dev/null || exit 1; sleep 0.1; rmdir ../busy; " + PASSES)
    first = stand.start(stdin=subprocess.DEVNULL)
    holds(soon(lambda: os.path.exists(os.path.join(stand.checkout, "target/console.log"))), "the first did not start")
    others = [stand.start(stdin=subprocess.DEVNULL) for _ in range(3)]
    time.sleep(0.2)
    shutil.rmtree(os.path.join(stand.checkout, "target"))
    same(ended(first)[0], 1, "status of the one whose log is gone")
    for process in others:
        good(ended(process), b"")


@test("the door: a start that waits long for another's check says so, once")
def _():
    stand = Stand(check="[ -e target/first ] || { >target/first; sleep 5; }; " + PASSES)  # the second's own check is quick, whenever it begins
    first = stand.start(stdin=subprocess.DEVNULL)
    holds(soon(lambda: os.path.exists(os.path.join(stand.checkout, "target/console.log"))), "the first did not start")
    second = stand.start(stdin=subprocess.DEVNULL)
    same(ended(first), (0, b"", b"namestore: proving, some minutes, once\n"), "outcome of the first")
    status, out, err = ended(second)
    same((status, out, err.split(b",")[0], err.count(b"\n")), (0, b"", b"namestore: waiting for another start", 1), "outcome of the second")


@test("the door: a signal while it waits for another's check ends it at once")
def _():
    stand = Stand(check="sleep 50")
    first = stand.start()
    holds(soon(lambda: os.path.exists(os.path.join(stand.checkout, "target/console.log"))), "the first did not start")
    second = stand.start()
    time.sleep(0.3)
    second.terminate()
    same(ended(second, limit=3)[0], -signal.SIGTERM, "status of the one that waits")
    first.terminate()
    same(ended(first, limit=3)[0], -signal.SIGTERM, "status of the one that checks")


@test("the door: after a start that was killed outright, the next waits for its check and no longer")
def _():
    stand = Stand(check="[ -e target/second ] || { >target/second; sleep 1.5; rm -f target/late; >target/done; exit 0; }; [ -e target/done ] && " + PASSES)
    process = stand.start()
    holds(soon(lambda: os.path.exists(os.path.join(stand.checkout, "target/second"))), "the first did not start")
    process.kill()
    process.wait()
    good(stand.run(data=b"one\n"), b"one\n")


@test("the door: a signal while the program runs ends the program")
def _():
    for number in (signal.SIGTERM, signal.SIGINT, signal.SIGHUP):
        process = Stand("echo up; read line; printf . >&3").start()
        same(process.stdout.readline(), b"up\n", "first line")
        process.send_signal(number)
        same(process.wait(timeout=5), -number, "status")
        holds(soon(lambda: not left()), "processes left after %s" % number.name)
        process.communicate()


@test("the door on a terminal: lines are answered as they are typed, and the interrupt key ends all")
def _():
    for stand, text, answer in ((Stand(), b"one\n", b"one\r\none\r\n"), (Stand(check="sh -c 'sleep 50; true'"), b"", b"proving")):
        process, terminal = on_terminal([stand.door], stand.env)
        os.write(terminal, text)
        shown(terminal, answer)
        os.write(terminal, b"\x03")
        same(process.wait(timeout=5), -signal.SIGINT, "status")
        holds(soon(lambda: not left()), "processes left")
        os.close(terminal)


@test("the door: closed descriptors, any of 0, 1 and 2")
def _():
    stand = Stand("cat && printf . >&3")
    for how in ("<&-", ">&-", "2>&-", "<&- >&-", "<&- 2>&-", ">&- 2>&-", "<&- >&- 2>&-"):
        status, out, _ = run(["sh", "-c", 'exec "$0" ' + how, stand.door], b"one\n", env=stand.env)
        working = how == "2>&-"
        same((status, out), (0, b"one\n") if working else (1, b""), "with %s" % how)


@test("the door: through links, with CDPATH set, by any path and from any folder")
def _():
    stand = Stand()
    link, chain = os.path.join(stand.home, "link"), os.path.join(stand.bin, "namestore-link")
    os.symlink(os.path.join("a checkout", "namestore"), link)
    os.symlink("../../link", chain)
    env = {"CDPATH": "/:" + stand.home}
    for command, folder in (
        (["./namestore"], stand.checkout),
        (["bash", "namestore"], stand.checkout),
        (["a checkout/namestore"], stand.home),
        (["../a checkout/../a checkout/namestore"], stand.bin + "/.."),
        ([link], "/"),
        (["./link"], stand.home),
        (["namestore-link"], "/"),
    ):
        command = ["env"] + command if "/" not in command[0] else command
        good(stand.run(command=command, data=b"one\n", cwd=folder, env=env), b"one\n")


@test("the door: --help and -h on standard output, with every verb of docs/CONSOLE.md")
def _():
    for word in ("--help", "-h"):
        status, out, err = run([DOOR, word])
        same((status, err), (0, b""), "status and standard error")
        with open(os.path.join(ROOT, "docs", "CONSOLE.md")) as page:
            verbs = re.findall(r"^\| `([a-z0-9]+) ", page.read(), re.M)
        holds(verbs, "no verb is found in docs/CONSOLE.md")
        for verb in verbs:
            holds(re.search(r"^  %s " % verb, out.decode(), re.M), "--help does not name %s" % verb)
        for page in re.findall(r"docs/[A-Z]+\.md", out.decode()):
            holds(os.path.exists(os.path.join(ROOT, page)), "--help names %s, which is not there" % page)
    holds(redirected(">/dev/full", [DOOR, "--help"])[0] != 0, "status 0 though nothing could be written")


@test("the door: other arguments are usage on standard error and status 2")
def _():
    for words in (["x"], [""], ["kitchen", "x"], ["console", "console"], ["--built", "x"], ["--built", "--built"], ["--help", "x"], ["-x"], ["--"], ["kitchen x"], ["--built kitchen"]):
        status, out, err = run([DOOR] + words)
        same((status, out, err[:7]), (2, b"", b"usage: "), "with %s" % words)
