"""Writes the table of must-fail edits in docs/PROMISES.md, from the edits themselves and from what the prover said to them.

    python3 tests/edit_table.py [FILE..]    from anywhere

FILE is what `rt ci` or `rt must-fail` wrote, on both streams, with a line of each edit: the first error that the prover told. Without FILE it is target/ci.log,
which .ci/run leaves. Where files tell of one edit twice, the last counts. An edit's first line is a comment that says what is wrong with it.
"""

import glob
import os
import re
import sys

ROOT = os.path.dirname(os.path.dirname(os.path.abspath(__file__)))
PAGE = os.path.join(ROOT, "docs", "PROMISES.md")
BEGIN, END = "<!-- begin: tests/edit_table.py writes from here -->", "<!-- end: tests/edit_table.py writes to here -->"


def said_of(edit):
    with open(edit, encoding="utf-8") as opened:
        first = opened.readline().rstrip("\n")
    if not first.startswith("# "):
        sys.exit("edit_table: %s has no comment in its first line" % edit)
    return first[2:].replace("|", "\\|")


def told_of_edits(files):
    """What the prover told first of each edit, by (crate, label)."""
    told = {}
    for file in files:
        try:
            with open(file, encoding="utf-8", errors="replace") as opened:
                lines = opened.read().split("\n")
        except OSError:
            sys.exit("edit_table: no %s; run .ci/run first, or name a file with what rt ci or rt must-fail wrote" % file)
        for line in lines:
            found = re.match(r"rt: must-fail (\w+)/([\w.-]+)\.edit: refused, as it must be(?: \(.*?\))?: (.*)", line)
            if found:
                told[found.group(1), found.group(2)] = found.group(3)
    return told


def function_at(crate, file, number):
    """The function in which a line of code stands; of an attribute before one, that function."""
    with open(os.path.join(ROOT, "crates", crate, file), encoding="utf-8") as opened:
        lines = opened.read().split("\n")
    begins = re.compile(r"\s*(?:pub )?(?:unsafe )?(?:extern \"C\" )?fn (\w+)")
    after = lines[number - 1:] if lines[number - 1].lstrip().startswith("#[") else []
    for line in after + lines[number - 1::-1]:
        found = begins.match(line)
        if found:
            return found.group(1)
    return "?"


def first_error(crate, told):
    """The file and the declaration that the prover refused first; or the function, and which of its goals is not proved."""
    at = re.match(r"(?:note: )?(?:\./)?((?:src|specs|proofs)/\S+?):(\d+):\d+: (.*)", told)
    if not at:
        return "?"
    file, number, said = at.groups()
    if file.startswith("src/"):
        goal = re.search(r"\(`([^`]+)`\)", said)
        return "%s, `%s`%s" % (file, function_at(crate, file, int(number)), ": `%s`" % goal.group(1) if goal else "")
    name = re.match(r"error: `([^`]+)`", said)
    return "%s, `%s`" % (file, name.group(1)) if name else file


def main(files):
    told = told_of_edits(files or [os.path.join(ROOT, "target", "ci.log")])
    with open(os.path.join(ROOT, "crates.txt"), encoding="utf-8") as opened:
        crates = [line.split(":")[0].split()[0] for line in opened if ":" in line and not line.startswith("#")]
    lines = ["", "| the sentence that it breaks, or what is wrong | edit | refused first |", "|---|---|---|"]
    for crate in crates:
        for edit in sorted(glob.glob(os.path.join(ROOT, "crates", crate, "must-fail", "*.edit"))):
            label = os.path.basename(edit)[:-5]
            if (crate, label) not in told:
                sys.exit("edit_table: nothing is told of %s/%s.edit" % (crate, label))
            lines.append("| %s | %s `%s` | %s |" % (said_of(edit), crate, label, first_error(crate, told[crate, label])))
    with open(PAGE, encoding="utf-8") as opened:
        page = opened.read()
    start, stop = page.index(BEGIN) + len(BEGIN), page.index(END)
    with open(PAGE, "w", encoding="utf-8") as opened:
        opened.write(page[:start] + "\n" + "\n".join(lines) + "\n\n" + page[stop:])


if __name__ == "__main__":
    main(sys.argv[1:])
