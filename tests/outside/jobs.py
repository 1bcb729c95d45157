"""Command lines with the files that they are given, and the answer and the files that a clean run ends with: for faults and kills.

The answers are written from document 01 and the documents of the command; bytes of pieces come from tests/oracle.py.
"""

import json
from dataclasses import dataclass, field, replace

from outside import tools
from outside.tools import ID, NOTE, SMALL, SMALL_CANONICAL, canonical, notes, numbered, pieces

REFUSED = b"JAHISTC03,2\r\n"
SIX = notes(20)  # six pieces of 69 bytes, 404 in all, says document 01
PIECES = pieces(SIX, 69)
PIECE_LINES = "".join("%s: %d\n" % (name, len(held)) for name, held in numbered("p-", PIECES).items())
PARTS = {"p%d" % k: held for k, held in enumerate(PIECES, 1)}
PART_NAMES = " ".join(PARTS)
DOTTED = {"p.%d" % k: held for k, held in enumerate(PIECES, 1)}
INDEX = "1 13 21 0 0 0 0\n4 36 6 0 0 0 0\n"
CLINIC = SMALL + b"5,20160411,1\r\n51,x,,,1234567,1\r\n"
BASE64 = "SkFISVNUQzA0LDINCjEsQSwxLEgwMTAxMDgsLCwsLCwsDQo="
NEW_ID = "98765432109876"  # for a run after one that has used ID
EARLIER = [b"20161115000001", b"20161115000002", b"12345678901235"]  # IDs that have been used; the last is almost ID
IDS = b"".join(one + b"\n" for one in EARLIER)
IDS_RUN = b"".join(EARLIER)


@dataclass
class Job:
    line: str
    files: dict = field(default_factory=dict)
    given: bytes = b""
    status: int = 0
    out: object = b""  # None: not said by the documents
    err: bytes = b""
    made: dict = field(default_factory=dict)
    by_file: bool = False  # each made file for itself is whole or not there; else all are or none is
    killed: str = ""  # a fault of a run before this one
    ids: str = ""  # the file of IDs that --record-used names
    entry: bytes = b""  # what a run writes there, after what is there; nothing, if it is refused

    def __post_init__(self):
        self.name = self.line.replace(ID, "ID") + (", there in part" if self.kept() else "") + (", after a kill" if self.killed else "")
        self.name += ", %d bytes of IDs" % len(self.files[self.ids]) if self.ids in self.files else ""
        self.command = self.line.startswith("notebook")
        self.json = "--json" in self.line

    def kept(self):
        """Files to be made that are there already."""
        return {name: held for name, held in self.made.items() if name in self.files}

    def folders(self):
        return {name.rsplit("/", 1)[0]: None for name in list(self.made) + list(self.files) if "/" in name}

    def after(self):
        return {**self.folders(), **self.files, **self.made, **self.recorded()}

    def recorded(self):
        """The file of IDs after a run that has recorded its own."""
        return {self.ids: self.files.get(self.ids, b"") + self.entry} if self.entry else {}

    def with_new_id(self, files):
        """The same command with another ID, and other names for the pieces, in a folder that has these files, after a run that has recorded ID: every
        line has its end then."""
        held = pieces(SIX, 69, NEW_ID)
        made = numbered("q-", held) if self.made else {}
        out = self.out.replace(b"p-", b"q-") if self.made else b"".join(held)
        line = self.line.replace(ID, NEW_ID).replace("--prefix p-", "--prefix q-")
        entry = self.entry.replace(ID.encode(), NEW_ID.encode()).lstrip(b"\n")
        return replace(self, line=line, files=files, out=out, made=made, entry=entry)

    def prepare(self, folder):
        tools.write(folder, self.files)
        if self.killed:
            tools.has_status(tools.run(self.line, folder, self.given, fault=self.killed), -9)


FOLDER = {"d/a.csv": SMALL, "d/b.csv": REFUSED, "d/e/c.csv": notes(1)}
TO_OUT = {"d/a.csv": SMALL, "d/e/c.csv": notes(1)}
TO_MADE = {"out/a.csv": SMALL_CANONICAL, "out/e/c.csv": SMALL_CANONICAL + NOTE}
CUT = "notebook cut --capacity 69 --id %s " % ID
CUT_OUT = ("a.csv: ok 6 404\n" + PIECE_LINES).encode()
SET = b"join: no 19 0: set\n"
USED = b"a.csv: no 24 0: used\n"
USED_JSON = b'{"file":"a.csv","ok":false,"number":24,"word":"used","line":0}\n'

READING = [
    Job("notebook check a.csv", {"a.csv": SMALL}, out=b"a.csv: ok 1 0 0\n"),
    Job("notebook check -", given=SMALL, out=b"-: ok 1 0 0\n"),
    Job("notebook check b.csv", {"b.csv": REFUSED}, status=1, out=b"b.csv: no 3 1: version\n"),
    Job("notebook check --jobs 1 d", FOLDER, status=1, out=b"d/a.csv: ok 1 0 0\nd/b.csv: no 3 1: version\nd/e/c.csv: ok 2 0 0\n"),
    Job("notebook check --jobs 3 d", FOLDER, status=1, out=b"d/a.csv: ok 1 0 0\nd/b.csv: no 3 1: version\nd/e/c.csv: ok 2 0 0\n"),
    Job("notebook check --json a.csv", {"a.csv": SMALL}, out=b'{"file":"a.csv","ok":true,"records":1,"groups":0,"drugs":0}\n'),
    Job("notebook check --files0-from list", {"list": b"a.csv\0c.csv\0", "a.csv": SMALL, "c.csv": notes(1)},
        out=b"a.csv: ok 1 0 0\nc.csv: ok 2 0 0\n"),
    Job("notebook index a.csv", {"a.csv": notes(1)}, out=("a.csv: ok 2\n" + INDEX).encode()),
    Job("notebook index --clinic-code 1234567 a.csv", {"a.csv": CLINIC}, out=b"a.csv: ok 3\n51 50 16 1 0 0 4\n"),
    Job("notebook canonical a.csv", {"a.csv": SMALL}, out=SMALL_CANONICAL),
    Job("notebook canonical -", given=SIX, out=canonical(SIX)),
    Job("notebook canonical b.csv", {"b.csv": REFUSED}, status=1, err=b"b.csv: no 3 1: version\n"),
    Job("notebook canonical --json a.csv", {"a.csv": SMALL},
        out=json.dumps({"file": "a.csv", "ok": True, "bytes": 35, "base64": BASE64}, separators=(",", ":")).encode() + b"\n"),
    Job(CUT + "a.csv", {"a.csv": SIX}, out=b"".join(PIECES)),
    Job(CUT + "--used ids a.csv", {"a.csv": SIX, "ids": IDS}, out=b"".join(PIECES)),
    Job(CUT + "--used - a.csv", {"a.csv": SIX}, IDS_RUN, out=b"".join(PIECES)),
    Job(CUT + "--used ids a.csv", {"a.csv": SIX, "ids": IDS + ID.encode()}, status=2, err=USED),
    Job(CUT + "--json --used ids a.csv", {"a.csv": SIX, "ids": IDS_RUN + ID.encode()}, status=2, err=USED_JSON),
    Job("notebook join " + PART_NAMES, PARTS, out=canonical(SIX)),
    Job("notebook join p1 p2 p3", PARTS, status=1, err=SET),
    Job("notecheck", given=SMALL, out=b"ok 1 0 0\n"),
    Job("notecheck", given=REFUSED, out=b"no 3 1\n"),
    Job("noteindex", given=notes(1), out=INDEX.encode()),
    Job("noteindex", given=REFUSED, out=b"no 3 1\n"),
    Job("notecanon", given=SIX, out=canonical(SIX)),
    Job("notecanon", given=REFUSED, err=b"no 3 1\n"),
    Job("notecut 69 " + ID, given=SIX, out=b"".join(PIECES), err=b"ok 6 404\n"),
    Job("notecut 20 " + ID, given=SIX, err=b"no 18 0\n"),
    Job("notecut 69 %s  ids" % ID, {"ids": IDS}, SIX, out=b"".join(PIECES), err=b"ok 6 404\n"),
    Job("notecut 69 %s  ids" % ID, {"ids": IDS + ID.encode()}, SIX, err=b"no 24 0\n"),
    Job("notejoin", given=b"".join(PIECES), out=canonical(SIX)),
    Job("notejoin " + PART_NAMES, PARTS, out=canonical(SIX)),
    Job("notejoin p1 p2 p3", PARTS, err=b"no 19 0\n"),
]

WRITING = [
    Job(CUT + "--prefix p- a.csv", {"a.csv": SIX}, out=CUT_OUT, made=numbered("p-", PIECES)),
    Job("notebook canonical --to out --jobs 1 d", TO_OUT, out=b"d/a.csv: ok 35\nd/e/c.csv: ok 43\n", made=TO_MADE, by_file=True),
    Job("notebook canonical --output c.csv a.csv", {"a.csv": SIX}, out=None, made={"c.csv": canonical(SIX)}),
    Job("notebook join --output j.csv " + PART_NAMES, PARTS, out=None, made={"j.csv": canonical(SIX)}),
    Job("notecut 69 %s p" % ID, given=SIX, err=b"ok 6 404\n", made=DOTTED),
    Job(CUT + "--used ids --prefix p- a.csv", {"a.csv": SIX, "ids": IDS}, out=CUT_OUT, made=numbered("p-", PIECES)),
    Job("notecut 69 %s p ids" % ID, {"ids": IDS}, SIX, err=b"ok 6 404\n", made=DOTTED),
]

# A run that records its ID has spent it, so that the same command is then refused: these have a retry of their own.
LINE, RECORD = ID.encode() + b"\n", CUT + "--record-used ids "
RECORDING = [
    Job(RECORD + "a.csv", {"a.csv": SIX}, out=b"".join(PIECES), ids="ids", entry=LINE),
    Job(RECORD + "a.csv", {"a.csv": SIX, "ids": IDS[:-1]}, out=b"".join(PIECES), ids="ids", entry=b"\n" + LINE),
    Job(RECORD + "--prefix p- a.csv", {"a.csv": SIX}, out=CUT_OUT, made=numbered("p-", PIECES), ids="ids", entry=LINE),
    Job(RECORD + "--used old --prefix p- a.csv", {"a.csv": SIX, "old": IDS, "ids": IDS_RUN}, out=CUT_OUT, made=numbered("p-", PIECES), ids="ids",
        entry=ID.encode()),
]

# Refused, so that nothing is recorded.
NOT_RECORDING = [
    Job(RECORD + "a.csv", {"a.csv": SIX, "ids": IDS + LINE}, status=2, err=USED, ids="ids"),
    Job(RECORD + "--used old --prefix p- a.csv", {"a.csv": SIX, "old": IDS + LINE}, status=2, err=USED, ids="ids"),
    Job(RECORD + "b.csv", {"b.csv": REFUSED}, status=1, err=b"b.csv: no 3 1: version\n", ids="ids"),
]

AGAIN = [
    Job(CUT + "--prefix p- a.csv", {"a.csv": SIX, "p-1": PIECES[0], "p-4": PIECES[3]}, out=CUT_OUT, made=numbered("p-", PIECES)),
    Job("notecut 69 %s p" % ID, {"p.1": PIECES[0], "p.4": PIECES[3]}, SIX, err=b"ok 6 404\n", made=DOTTED),
]

# Before the first rename: all temporary files are there.
KILLED = [
    Job(CUT + "--prefix p- a.csv", {"a.csv": SIX}, out=CUT_OUT, made=numbered("p-", PIECES), killed="renameat2 1 before"),
]
