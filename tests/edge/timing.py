"""The bench: where it cannot run, what it does with a library that is not proved or answers otherwise, and that its answers agree."""
import os
import shutil

from .running import ROOT, Skipped, ended, holds, one_line, run, same, short, test
from .stand import Stand

BENCH = os.path.join(ROOT, "bench", "run")

# A library whose calls answer every sheet and every word alike.
ALIKE = """#include <stdint.h>
typedef struct { uint32_t kind, number, count; uint64_t a, b, c; } Numbers;
#define CALL(name) Numbers namestore_##name(void) { Numbers told = { 0 }; return told; }
CALL(admit) CALL(write) CALL(read) CALL(d0) CALL(d1) CALL(page_write_all)
"""

# An rt that makes it in the place of the store's.
MAKES_ALIKE = """#!/bin/sh
[ "$*" = lib ] && mkdir -p out && cc -O1 -fPIC -c ../../alike.c -o out/alike.o && rm -f out/libexports.a && ar rcs out/libexports.a out/alike.o
"""


def needs(*tools):
    """Skips a test where a tool is missing or does not start, or the machine is another."""
    if os.uname().machine != "x86_64":
        raise Skipped("the bench runs on x86-64 only")
    for tool in tools:
        if not shutil.which(tool) or tool == "cargo" and run([tool, "--version"])[0] != 0:
            raise Skipped("needs %s" % tool)


class Bench(Stand):
    """A stand-in checkout with the bench as it is, and these tools on the kit's path."""

    def __init__(self, **tools):
        super().__init__()
        os.makedirs(os.path.join(self.checkout, "crates", "exports"))
        shutil.copytree(os.path.join(ROOT, "bench"), os.path.join(self.checkout, "bench"), ignore=shutil.ignore_patterns("target"))
        for name, text in tools.items():
            self.file("kit/bin/" + name, text)

    def time(self, env=()):
        """Runs the bench to its end."""
        return ended(self.start(command=[os.path.join(self.checkout, "bench", "run")], env=dict(env)), b"", 50)

    def alone(self):
        """A path with the kit's tools and what the script itself uses, and nothing else."""
        return {"PATH": self.path_of("bash", "dirname", "readlink", "sed", "tail")}


def machine(name):
    """A uname of Linux on such a machine."""
    return '#!/bin/sh\n[ "$1" = -s ] && echo Linux || echo %s\n' % name


def cannot(outcome, why):
    """Fails unless a run said in one line why it cannot run here, and ended with status 2."""
    status, out, err = outcome
    same((status, out), (2, b""), "status and output")
    one_line(err, "bench/run: cannot run here: " + why)


@test("the bench: on another machine it says so, status 2")
def _():
    bench = Bench(uname=machine("aarch64"))
    cannot(bench.time(bench.alone()), "this is Linux on aarch64")


@test("the bench: without a tool that it needs it says which, status 2")
def _():
    for missing in ("rt", "cargo", "cc"):
        bench = Bench(uname=machine("x86_64"), rt="#!/bin/sh\n", cargo="#!/bin/sh\n", cc="#!/bin/sh\n")
        os.remove(os.path.join(bench.bin, missing))
        cannot(bench.time(bench.alone()), missing + " is not on the path")


@test("the bench: wrong arguments are status 2, --help is its first lines")
def _():
    for words in (["-x"], ["one", "two"]):
        status, out, err = run([BENCH] + words)
        same((status, out), (2, b""), "status and output of %s" % words)
        one_line(err, "bench/run: ")
    status, out, err = run([BENCH, "--help"])
    holds(status == 0 and out.startswith(b"bench/run [WORD]: ") and err == b"", "--help: %s" % short((status, out, err)))


@test("the bench: a library that is not proved stops it, status 1")
def _():
    needs("cargo", "cc")
    status, out, err = Bench(rt="#!/bin/sh\necho no proof\nexit 1\n").time()
    same((status, out, err), (1, b"", b"no proof\nbench/run: the library was not built\n"), "outcome")


@test("the bench: a program that does not compile stops it, status 1")
def _():
    needs("cc")
    status, out, err = Bench(rt="#!/bin/sh\n", cargo="#!/bin/sh\necho no program >&2\nexit 101\n").time()
    same((status, out, err), (1, b"", b"no program\nbench/run: the program was not built\n"), "outcome")


@test("the bench: a library that answers otherwise fails it, status 1, with the call and the answers")
def _():
    needs("cargo", "cc", "ar")
    bench = Bench(rt=MAKES_ALIKE)
    bench.file("a checkout/alike.c", ALIKE)
    status, out, err = bench.time()
    same((status, out), (1, b""), "status and output")
    holds(err.startswith(b"bench: answers differ: Case") and err.count(b"\n") == 4, "standard error %s" % short(err))


@test("the bench: a word that no row has is status 2")
def _():
    needs("rt", "cargo", "cc")
    status, out, err = run([BENCH, "n 33"], limit=50)
    same((status, out, err), (2, b"", b'bench: no row has "n 33" in it\n'), "outcome")


@test("the bench: an output that is not taken is status 1, one line")
def _():
    needs("rt", "cargo", "cc")
    with open("/dev/full", "wb") as full:
        status, _, err = run([BENCH, "n 7, k 3, l 1 admit"], limit=50, stdout=full)
    same(status, 1, "status")
    one_line(err, "bench: standard output: ")


@test("the bench: its answers agree, and a row of the table is printed")
def _():
    needs("rt", "cargo", "cc")
    status, out, err = run([BENCH, "n 7, k 3, l 1 admit"], limit=50)
    same((status, err), (0, b""), "status and standard error")
    lines = out.decode().splitlines()
    holds(lines[0].endswith(" calls, the answers of store, plain and fast agree") and len(lines) == 5, "output %s" % short(out))
    holds(lines[4].startswith("| n 7, k 3, l 1 | admit | 0 |"), "row %s" % short(lines[4]))
