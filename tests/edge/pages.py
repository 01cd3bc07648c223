"""What the pages say."""
import glob
import os
import re

from .running import ROOT, holds, run, same, short, test


@test("docs: the calls printed in README.md and docs/ answer as printed")
def _():
    pages = [os.path.join(ROOT, "README.md")] + sorted(glob.glob(os.path.join(ROOT, "docs", "**", "*.md"), recursive=True))
    for page in pages:
        script, wanted = [], []
        with open(page) as file:
            lines = file.read().split("\n")
        for at, line in enumerate(lines):
            if line.startswith("    $ "):
                script.append(line[6:])
                end = next(i for i in range(at + 1, len(lines) + 1) if i == len(lines) or not lines[i].startswith("    ") or lines[i].startswith("    $ "))
                wanted.append("".join(text[4:] + "\n" for text in lines[at + 1 : end]))
        status, out, err = run(["sh", "-c", "\n".join("%s\necho ---" % line for line in script)], cwd=ROOT, limit=100)  # docs/HOWTO.md has thirty starts
        same((status, err), (0, b""), "status and standard error of %s" % os.path.basename(page))
        same(out.decode().split("---\n")[:-1], wanted, os.path.basename(page))


@test("docs: every sentence quoted over a definition of crates/paper/specs is in docs/SCOPE.md")
def _():
    found = 0
    with open(os.path.join(ROOT, "docs", "SCOPE.md")) as page:
        lines = page.read().split("\n")
    folder = os.path.join(ROOT, "crates", "paper", "specs")
    for name in sorted(os.listdir(folder)):
        with open(os.path.join(folder, name)) as file:
            comments = re.sub(r"\n-- ?", " ", "".join("\n" + line if line.startswith("--") else "\n\n" for line in file.read().split("\n")))
        for quoted in re.findall(r'"((?:[^"\n]|"more than the cap")+)"', comments):
            for part in quoted.split(".."):
                part = part.strip(" ,;")
                found += 1
                holds(any(part in line for line in lines), "%s quotes %s" % (name, short(part)))
    holds(found > 40, "only %d quoted sentences are found" % found)
