"""With nothing built in the checkout. What checks of other checkouts on this machine kept, rt may begin with."""
import os
import signal
import time

from .running import FOUR_LINES, WORD, WRITE, copied, ended, good, holds, left, run, same, soon, start, test


@test("from nothing: interrupted while proving, then two starts at once", cold=True)
def _():
    folder = copied(built=False)
    door = os.path.join(folder, "namestore")
    process = start([door, "kitchen"])
    same(process.stderr.readline(), b"namestore: proving, some minutes, once\n", "first line on standard error")
    time.sleep(3)
    process.send_signal(signal.SIGINT)
    same(ended(process, limit=10)[:2], (-signal.SIGINT, b""), "status and output")
    holds(soon(lambda: not left()), "processes left")
    pair = [start([door, "kitchen"]), start([door])]
    same(ended(pair[0], limit=1800)[:2], (0, FOUR_LINES), "the first start")
    same(ended(pair[1], WRITE, limit=1800)[:2], (0, WORD), "the second start")
    good(run([door, "kitchen"]), FOUR_LINES)
