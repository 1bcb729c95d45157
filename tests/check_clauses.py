"""Checks that every name which the documents give exists in the tree, and that every must-fail edit tries what it says.

A reference stands in backticks and names a file, and most often something in it:

    `records/specs/Items.antt:decimal`       a declaration of that file under crates/
    `cut/src/lib.rt:first_width`             a function, constant or type (`State::step` for a method)
    `order/must-fail/equal_days.edit`        a file
    `cases/stdout:bare 0D inside` (2)        a case by its label, and its answer: good, or the number of the refusal
    `tests/make_cases.py:edges`              a function of a script

Also read are names with their file behind them, as in "`rows`, `flat` (characters/specs/Rows.antt)", labels of cases/stdout behind
"Cases:", and a crate with its must-fail edit in a table cell, as in "| order `equal_days` |".

A must-fail edit, crates/CRATE/must-fail/NAME.edit, has these lines and no others, since rt passes over what it does not know and an edit with a
second line of text would try another change than it shows:

    # what is wrong
    file: src/.. or specs/..
    old: a text that stands once in the file (after the pairs before this one)
    new: another text                                    and so on, in pairs

Prints each reference that is missing or has another answer, and each line of an edit that is not so, with its place; exit status 1 if there is
one. Run it from anywhere: python3 tests/check_clauses.py
"""

import functools
import glob
import os
import re
import sys

ROOT = os.path.dirname(os.path.dirname(os.path.abspath(__file__)))
DOCUMENTS = ["docs/CLAUSES.md", "docs/PROMISES.md", "docs/DECISIONS.md"]

FILE = r"(?:crates/)?[a-z_]+/(?:specs|proofs|src|must-fail)/[\w/.-]+\.(?:antt|rt|edit)"
REFERENCE = re.compile(r"`(%s|(?:crates/)?[a-z_]+/stdout|tests/\w+\.py)(?::([^`\n]+))?`(?:\s+\((good|\d+)\b)?" % FILE)
BESIDE = re.compile(r"((?:`[^`\n]+`(?:,\s+|\s+and\s+)?)+)\s+\((%s)\)" % FILE)
LABELS = re.compile(r"Cases:((?:\s+`[^`\n]+`(?:\s\([^)]*\))?[,.;]?)+)")
EDIT = re.compile(r"\|\s*([a-z_]+) `(\w+)`\s*\|")

WORDS = {"pub", "abbrev", "unfoldable", "data", "record", "ruleset", "mod", "infixl", "infixr", "unfolding"}
NAMED = re.compile(r"^\s*(?:(?:pub|abbrev|unfoldable) )*(?:data|record|ruleset|mod)\s+(\S+)")
TYPED = re.compile(r"^\s*((?:[^\s(){}=λ:;,]+\s+)+):(?:\s|$)")


def path_of(file):
    if file.startswith("tests/"):
        return os.path.join(ROOT, file)
    return os.path.join(ROOT, "crates", re.sub("^crates/", "", file))


@functools.lru_cache(maxsize=None)
def lines_of(file):
    try:
        with open(path_of(file), encoding="utf-8", errors="replace") as text:
            return text.read().splitlines()
    except OSError:
        return None


@functools.lru_cache(maxsize=None)
def declared(file):
    """The names that a definition or proof file declares."""
    names = set()
    for line in lines_of(file):
        if line.lstrip().startswith("--"):
            continue
        for form in (NAMED, TYPED):
            found = form.match(line)
            if found:
                names.update(found.group(1).split())
    return names - WORDS


def in_code(file, name):
    owner, _, last = name.rpartition("::")
    text = "\n".join(lines_of(file))
    if file.endswith("/%s/src/main.rt" % name) or file == "%s/src/main.rt" % name:
        return True  # a program has the name of its crate
    if owner and not re.search(r"\bimpl %s\b" % re.escape(owner), text):
        return False
    return re.search(r"\b(?:fn|const|static|struct|enum|type) %s\b" % re.escape(last), text) is not None


def case_fault(file, label, answer):
    for line in lines_of(file):
        if line.startswith(label + ": "):
            words = line[len(label) + 2:].split()
            found = "good" if words[0] == "ok" else words[1]
            return None if answer in (None, found) else "its answer is %s" % found
    return "no such case"


def fault(file, name, answer):
    """What is wrong with a reference, or None."""
    if lines_of(file) is None:
        return "no such file"
    if not name:
        return None
    if file.endswith(".antt"):
        good = name in declared(file)
    elif file.endswith(".rt"):
        good = in_code(file, name)
    elif file.endswith(".py"):
        good = any(re.match(r"(?:def|class) %s\b" % re.escape(name), line) for line in lines_of(file))
    elif file.endswith("/stdout"):
        return case_fault(file, name, answer)
    else:
        good = False
    return None if good else "not declared there"


def references(text):
    """Each reference as (position, file, name, answer)."""
    for found in REFERENCE.finditer(text):
        yield found.start(), found.group(1), found.group(2), found.group(3)
    for found in BESIDE.finditer(text):
        for name in re.findall(r"`([^`\n]+)`", found.group(1)):
            yield found.start(), found.group(2), name, None
    for found in LABELS.finditer(text):
        for label in re.findall(r"`([^`\n]+)`", found.group(1)):
            yield found.start(), "cases/stdout", label, None
    for found in EDIT.finditer(text):
        yield found.start(), "%s/must-fail/%s.edit" % found.groups(), None, None


def edit_fault(edit):
    """The line of a must-fail edit that rt would not read as it is meant, and what is wrong with it; or None."""
    with open(edit, encoding="utf-8") as opened:
        lines = opened.read().split("\n")
    if lines[-1] == "":
        lines.pop()
    begins = ["# ", "file: "] + ["old: ", "new:"] * ((len(lines) - 1) // 2)
    for at, begin in enumerate(begins):
        if at == len(lines) or not lines[at].startswith(begin):
            return at + 1, "a line `%s` is wanted here" % begin.strip()
    if len(lines) != len(begins) or len(lines) < 4:
        return len(lines), "not a comment, a file and pairs of old and new"
    name = lines[1][len("file: "):]
    changed = os.path.join(os.path.dirname(os.path.dirname(edit)), name)
    if not re.match(r"(?:src|specs)/", name) or "/../" in "/%s/" % name or not os.path.isfile(changed):
        return 2, "no file of the crate's src/ or specs/"
    with open(changed, encoding="utf-8") as opened:
        text = opened.read()
    for at in range(2, len(lines), 2):
        old, new = lines[at][len("old: "):], re.sub("^ ", "", lines[at + 1][len("new:"):])
        if old == "" or text.count(old) != 1:
            return at + 1, "the old text stands %d times in %s" % (text.count(old) if old else 0, name)
        if old == new:
            return at + 2, "the new text is the old one"
        text = text.replace(old, new)
    return None


def check_edits():
    """How many must-fail edits there are, and how many are faulty; prints the faults."""
    edits = sorted(glob.glob(os.path.join(ROOT, "crates", "*", "must-fail", "*.edit")))
    faulty = 0
    for edit in edits:
        wrong = edit_fault(edit)
        if wrong:
            faulty += 1
            print("%s:%d: %s" % (os.path.relpath(edit, ROOT), *wrong))
    return len(edits), faulty


def main():
    count, missing = 0, 0
    for document in DOCUMENTS:
        with open(os.path.join(ROOT, document), encoding="utf-8") as opened:
            text = opened.read()
        for at, file, name, answer in references(text):
            count += 1
            wrong = fault(file, name, answer)
            if wrong:
                missing += 1
                print("%s:%d: %s: %s" % (document, text.count("\n", 0, at) + 1, file + (":" + name if name else ""), wrong))
    edits, faulty = check_edits()
    if missing or faulty:
        print("%d references, %d missing; %d must-fail edits, %d faulty" % (count, missing, edits, faulty))
        return 1
    print("%d references, all there; %d must-fail edits, each as rt reads it" % (count, edits))
    return 0


if __name__ == "__main__":
    sys.exit(main())
