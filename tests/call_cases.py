"""The cases of index, canonical, cut and join, for the test program `cases`.

make_cases.py calls call_frames(). A case is a frame and the line that the
program has to write for it: the reply and the whole buffer after the call. As
in make_cases.py, the answers are written by hand or given by how a family is
built, and the oracle has to agree with each. Only the cases made by told()
have the oracle's own answer.
"""

import collections
import datetime
import itertools
import struct
import sys
import zlib

import make_cases
import oracle
from make_cases import (
    ADVICE, CHANGE, DATE, DOCTOR, GOOD, HOSPITAL, ITEMS, KEEPER, NUMBERS, PATIENT, PHARMACY,
    PRESCRIBER, alone, changed, drug, file, named, note, raw, to_patient, to_provider, under, usage)

# The calls that the program answers. A call that the gateway does not export
# yet is left out here; its families then make no frames.
LETTERS = {"index": "i", "canonical": "c", "cut": "k", "join": "j"}
ANSWERED = ["index", "canonical", "cut", "join"]

MOST_BYTES = 140000
MOST_NUMBERS = 57344
MOST_USED = 140000
SHOWN = 200

# The buffers before a call.
BYTES = bytes((7 * i + 3) % 251 for i in range(MOST_BYTES))
INTS = [(7919 * i + 13) % 1000003 for i in range(MOST_NUMBERS)]

ID = b"12345678901234"
UNBOUNDED = 2**64 - 1

Frame = collections.namedtuple(
    "Frame", "call label room capacity ident used content answer after told")
FRAMES = []


# =============================================================================
# Frames
# =============================================================================


def before(call, room):
    return INTS[:room] if call == "index" else BYTES[:room]


def frame(call, label, content, room, answer, after, capacity=0, ident=b"", used=b"",
          told=False):
    FRAMES.append(Frame(call, "%s: %s" % (call, label), room, capacity, ident, used, content,
                        answer, after, told))


def by_oracle(call, content, capacity, ident, used, out):
    if call == "cut":
        answer, after = oracle.cut(content, capacity, ident, used, out)
    else:
        answer, after = getattr(oracle, call)(content, out)
    return " ".join(str(part) for part in answer), after


def refused(call, label, content, answer, room=20, **rest):
    """A refusal, which leaves the buffer as it was."""
    frame(call, label, content, room, answer, before(call, room), **rest)


def accepted(call, label, content, values, result, spare=3, **rest):
    """A buffer that is longer than the result: what lies behind stays."""
    room = len(result) + spare
    frame(call, label, content, room, "ok " + values,
          result + before(call, room)[len(result) :], **rest)


def in_buffers(call, label, content, values, result, **rest):
    """Buffers that are longer, exactly long enough, one short, and empty."""
    accepted(call, label, content, values, result, **rest)
    accepted(call, label + ", exactly", content, values, result, spare=0, **rest)
    refused(call, label + ", one short", content, "no 20 0", room=len(result) - 1, **rest)
    refused(call, label + ", no buffer", content, "no 20 0", room=0, **rest)


def told(call, label, content, room, capacity=0, ident=b""):
    """A case with the oracle's own answer."""
    answer, after = by_oracle(call, content, capacity, ident, b"", before(call, room))
    frame(call, label, content, room, answer, after, capacity, ident, told=True)


def spread(cases, most):
    """At most so many of a list, from all over it."""
    step = max(1, -(-len(cases) // most))
    return cases[::step]


def check_cases(short=3000):
    """The cases of check that are not large, by answer: "ok" or a number."""
    found = collections.defaultdict(list)
    for label, content, answer in make_cases.CASES:
        words = answer.split()
        if len(content) <= short:
            found["ok" if words[0] == "ok" else int(words[1])].append((label, content, answer))
    return found


def check_case(label):
    return next(content for name, content, _ in make_cases.CASES if name == label)


def of_check(call, **rest):
    """Files that check refuses: 1 to 16, each with check's line."""
    by_answer = check_cases()
    for number in range(2, 17):
        for label, content, answer in spread(by_answer[number], 8):
            refused(call, "%d, %s" % (number, label), content, answer, **rest)
        # A fault of the file comes before a buffer that is too short.
        label, content, answer = by_answer[number][-1]
        refused(call, "%d, no buffer" % number, content, answer, room=0, **rest)
    refused(call, "1", check_case("65536 bytes and 1A"), "no 1 0", **rest)
    refused(call, "1, no buffer", b"\xff" * 65537, "no 1 0", room=0, **rest)


# =============================================================================
# Files that several calls are given
# =============================================================================

SMALL = to_provider(PATIENT) + b"\x1a"
SMALL_CANONICAL = to_provider("1,A,1,H010108,,,,,,,")

# The examples of 15-106 that check accepts, as make_cases has them, with lines
# counted by hand: ranges of lines in a group, with a doctor, a drug, a clinic.
EXAMPLES = [
    ("example 1", [(3, 12, 1)], [], [], [(5, 12, 5)]),
    ("example 2", [(3, 20, 1)], [], [], [(5, 20, 5)]),
    ("example 3, code kind 2", [(3, 26, 1)], [(8, 25, 7)], [(9, 9, 8), (11, 11, 10)],
     [(6, 26, 6)]),
    ("example 4", [(3, 26, 1)], [(8, 20, 7), (22, 25, 21)], [], [(6, 26, 6)]),
    ("example 5", [(3, 11, 1)], [], [], []),
    ("example 6", [(3, 11, 1)], [], [], []),
    ("example 7, with a contact", [(7, 16, 1)], [(12, 15, 11)], [(13, 13, 12)],
     [(10, 16, 10)]),
    ("example 8", [(3, 6, 1)], [], [], []),
    ("example 9", [(3, 10, 1), (11, 20, 2)], [], [], [(6, 10, 6), (14, 20, 14)]),
    ("example 10", [(3, 12, 1)], [], [], [(5, 12, 5)]),
    ("example 11, the 401 moved, with a contact", [(10, 18, 1), (19, 32, 2)], [],
     [(15, 15, 14), (24, 24, 23)], [(13, 18, 13), (22, 32, 22)]),
]
EXAMPLE_LABELS = [label for label, *_ in EXAMPLES]

# One day in each entry, in every spelling that is read; first the one that is
# written. The ends of the day type and of every era.
DAYS = """
M060101 18730101, M060102 18730102, M450728 19120728, M450729 19120729,
T010730 19120730, T011231 19121231, T020101 19130101, T151224 19261224,
S011225 19261225, S011231 19261231, S020101 19270101, S631231 19881231,
S640101 19890101, S640107 19890107, H010108 19890108, H011231 19891231,
H020101 19900101, H120229 20000229, H280411 20160411, H310430 20190430,
R010501 20190501 H310501, R010502 20190502 H310502, R011231 20191231 H311231,
R020101 20200101 H320101, R020229 20200229 H320229, R691231 20871231 H991231,
M321231 18991231
"""
DAYS = [one.split() for one in DAYS.split(",")]


def days_at_ends():
    """The first day of each era and the last day of all, each with the day before it,
    as entries of DAYS: from the rows of the oracle's table, so that a further row has
    its cases. The newest era that has begun is the one that is written."""
    newest = sorted(oracle.ERAS.items(), key=lambda row: row[1][1], reverse=True)
    ends = [first for _, (_, first, _) in newest] + [oracle.LAST_DAY]
    for day in [end - datetime.timedelta(back) for end in ends for back in (0, 1)]:
        spelled = [under(letter, before, day)
                   for letter, (before, first, last) in newest if first <= day <= last]
        if spelled:  # the day before the first of all has none
            yield [spelled[0], day.strftime("%Y%m%d"), *spelled[1:]]


# A further era changes how 20871231 is written, which is a case of the paper: the
# oracle then agrees with the new entry and not with the one above.
DAYS += [entry for entry in days_at_ends() if entry not in DAYS]


def every_day(one):
    """A file with this day in every item of kind D."""
    return to_provider(
        "1,A,1,%s,,,,,,," % one, "3,x,%s,%s,2" % (one, one), "3,x,%s,,2" % one,
        "3,x,,%s,2" % one, "3,x,,,2", "4,x,%s,2" % one, "4,x,,2", "5,%s,1" % one,
        "601,x,%s" % one, "601,x,", "701,x,x,x,%s,%s,1" % (one, one),
        "701,x,x,x,,%s,1" % one, "701,x,x,x,%s,,1" % one)


def every_postal_code(one):
    return to_provider("1,A,1,H010108,%s,,,,,," % one, "5,H280411,1",
                       "11,x,,,,%s,,,1" % one)


def every_value(rp, quantity):
    """A file with this RP value and quantity in every item of kind R."""
    return to_provider(
        "1,A,1,H010108,,,,,,,", "5,H280411,1", drug(rp), note(281, rp), note(291, rp),
        "301,%s,x,%s,日分,1,1,,1" % (rp, quantity), note(311, rp), note(391, rp))


# Items of other kinds that look like days, postal codes and values with zeros.
ALIKE = to_provider(
    "1,19890108,1,H010108,0000000,105-0004,03-0004,001,010,0.5,007",
    "2,1,19890108,2", "3,001,,,2", "4,20160411,,2", "5,H280411,1",
    "11,105-0004,01,1,0000001,0010004,002,001,1", "15,001,01,1", "51,001,09,1,0000123,1",
    "55,01,02,1", "201,1,001,0.25,01,2,007,1", "281,1,01,1", "291,1,002,1",
    "301,1,001,10,002,,2,0003,1", "311,1,01,1", "391,1,01,1", "401,01,1", "411,02,30,1",
    "501,19890108,1", "601,105-0004,", "701,001,02,105-0004,,,1")

# A day that is written otherwise, in every item that is text or a code.
TEXTS = to_provider(
    "1,H310501,1,H010108,,H310501,H310501,H310501,H310501,,H310501", "2,1,H310501,2",
    "3,H310501,,,2", "4,H310501,,2", "5,H310430,1", "11,H310501,,,,,H310501,H310501,1",
    "15,H310501,H310501,1", "51,H310501,,,,1", "55,H310501,H310501,1",
    "201,1,H310501,1,H310501,2,H310501,1", "281,1,H310501,1", "291,1,H310501,1",
    "301,1,H310501,,H310501,,2,H310501,1", "311,1,H310501,1", "391,1,H310501,1",
    "401,H310501,1", "411,H310501,30,1", "501,H310501,1", "601,H310501,",
    "701,H310501,H310501,H310501,,,1")

# 02 (i): one notebook as an older phone has it, with days of R under H; with
# western days; and canonical.
OLDER_PHONE = [
    "1,A,1,H010108,,,,,,,", "3,x,H310501,H310510,2", "4,x,H310430,2", "5,H310508,1", drug(),
    "601,x,H310509", "5,H310501,1", "5,H310430,1", "701,x,x,x,H310401,H311231,1"]
WESTERN = [
    "1,A,1,19890108,,,,,,,", "3,x,20190501,20190510,2", "4,x,20190430,2", "5,20190508,1", drug(),
    "601,x,20190509", "5,20190501,1", "5,20190430,1", "701,x,x,x,20190401,20191231,1"]
REIWA = [
    "1,A,1,H010108,,,,,,,", "3,x,R010501,R010510,2", "4,x,H310430,2", "5,R010508,1", drug(),
    "601,x,R010509", "5,R010501,1", "5,H310430,1", "701,x,x,x,H310401,R011231,1"]
SPELLINGS = [("an older phone's file", OLDER_PHONE), ("western days of 2019", WESTERN),
             ("a file in R", REIWA)]

# 02 (viii): kana names of one script, whose bytes are kept; and others.
ONE_SCRIPT = [
    ("one-byte", "ｽｽﾞｷ TARO"), ("hiragana", "すずき　たろう"), ("katakana", "スズキ　タロウ"),
    ("hiragana and 815B", "ーすずき　たろー"), ("katakana and 815B", "ースズキ　タロー"),
    ("815B", "ー"), ("815B and 8140", "ー　ー"), ("8341", b"\x83\x41"), ("a letter", "A"),
    ("40 bytes of hiragana", "ん" * 20), ("40 bytes of katakana", "ソ" * 20),
    ("40 bytes, one-byte", "ﾀﾛｳ " * 9 + "ｽｽﾞｷ")]
MIXED = [
    ("hiragana and katakana", "すずきタロウ"), ("katakana and hiragana", "スズキ　たろう"),
    ("815B between scripts", "ろーラ"), ("both widths", "スズキ ﾀﾛｳ"), ("815B and a letter", "ーA"),
    ("kanji", "鈴木　太郎"), ("a kanji in katakana", "スズキ太"), ("a middle dot", "スズキ・タロウ"),
    ("wide letters", "ＴＡＲＯ"), ("8260 in hiragana", "すＡ"), ("Greek in katakana", "アΑ"),
    ("40 bytes of both", "ア" * 19 + "あ")]


def with_records(direction, item):
    """Every record once, with this kana name."""
    return file(direction, *(named(item) if n == 1 else GOOD[n] for n in NUMBERS))


def mixed_kana(call, room_of, **rest):
    """02 (viii): "Files refused for this have no canonical file and no cutting". Buffers
    that are empty, too short, as long as what is asked of a good file, and longer."""
    def no(label, content, rooms):
        for room in rooms:
            refused(call, "mixed kana, %s, room %d" % (label, room), content, "no 11 2", room=room,
                    **rest)

    for label, item in MIXED:
        content = to_provider(named(item))
        enough = room_of(content)
        no(label, content, (0, 1, enough - 1, enough, enough + 5))
    for label, item in MIXED[:3]:
        for where, content in [
            ("1A", to_provider(raw(PATIENT) + raw(item)) + b"\x1a"),
            ("direction 1", with_records(1, item)), ("direction 2", with_records(2, item)),
        ]:
            no("%s, %s" % (label, where), content, (0, room_of(content)))


# =============================================================================
# Index
# =============================================================================


def at_line(ranges, line):
    return sum(value for first, last, value in ranges if first <= line <= last)


def entries(content, groups, doctors=(), drugs=(), clinics=()):
    """The index, with these ranges of lines for what a line alone does not tell."""
    found, offset = [], 0
    for line, text in enumerate(content.split(b"\r\n")[:-1], 1):
        if line > 1:
            found += [int(text.partition(b",")[0]), offset, len(text)]
            found += [at_line(ranges, line) for ranges in (groups, doctors, drugs, clinics)]
        offset += len(text) + 2
    return found


def clinics(given):
    """02 (v): "the line of the group's 51, or 0 where none has yet stood in that group"."""
    rp = [drug(), note(281), note(291), usage(), note(311), note(391)]
    after = ["401,x,1", ADVICE, "501,x,1", "601,x,"]
    head = [PATIENT, GOOD[2], GOOD[3], GOOD[4]]

    # Every number by hand: the 51 itself, and a 281 with doctor, drug and clinic.
    in_buffers("index", "a 51 at the end", to_provider(PATIENT, DATE, PRESCRIBER), "3",
               [1, 13, 21, 0, 0, 0, 0, 5, 36, 12, 1, 0, 0, 0, 51, 50, 12, 1, 0, 0, 4])
    in_buffers("index", "a clinic, its doctor and its drug",
               to_provider(PATIENT, DATE, PRESCRIBER, DOCTOR, drug(), note(281)), "6",
               [1, 13, 21, 0, 0, 0, 0, 5, 36, 12, 1, 0, 0, 0, 51, 50, 12, 1, 0, 0, 4,
                55, 64, 7, 1, 0, 0, 4, 201, 73, 16, 1, 5, 0, 4, 281, 91, 9, 1, 5, 6, 4])

    # In one group: 0 before the 51, its line from there on, whatever the record.
    given("5, 11 and 15 before the 51",
          to_provider(PATIENT, DATE, PHARMACY, GOOD[15], PRESCRIBER, *after),
          [(3, 10, 1)], clinics=[(6, 10, 6)])
    given("5, 11 and 15 before a 51 at the end",
          to_provider(PATIENT, DATE, PHARMACY, GOOD[15], PRESCRIBER),
          [(3, 6, 1)], clinics=[(6, 6, 6)])
    given("every record of an RP, with a 51 and a doctor",
          to_provider(PATIENT, DATE, PRESCRIBER, DOCTOR, *rp),
          [(3, 11, 1)], [(6, 11, 5)], [(7, 8, 6)], [(4, 11, 4)])
    given("every record of an RP, with a 51 and no doctor",
          to_provider(PATIENT, DATE, PRESCRIBER, *rp),
          [(3, 10, 1)], [], [(6, 7, 5)], [(4, 10, 4)])
    given("every record of an RP, with an 11 and no 51",
          to_provider(PATIENT, DATE, PHARMACY, DOCTOR, *rp),
          [(3, 11, 1)], [(6, 11, 5)], [(7, 8, 6)])
    given("after the prescriptions, with a 51",
          to_provider(PATIENT, DATE, PRESCRIBER, DOCTOR, drug(), *after),
          [(3, 10, 1)], [(6, 6, 5)], clinics=[(4, 10, 4)])
    for line in after:
        given("51 then %s twice" % line.partition(",")[0],
              to_provider(PATIENT, DATE, PRESCRIBER, line, line),
              [(3, 6, 1)], clinics=[(4, 6, 4)], each=accepted)
    given("further doctors keep the clinic",
          to_provider(PATIENT, DATE, PRESCRIBER, DOCTOR, drug(1), usage(1), drug(2), DOCTOR,
                      drug(3), note(281, 3), DOCTOR, drug(4), "601,x,"),
          [(3, 14, 1)], [(6, 8, 5), (10, 11, 9), (13, 13, 12)], [(11, 11, 10)], [(4, 14, 4)])
    given("all that stands before the groups", to_provider(*head, DATE, PRESCRIBER),
          [(6, 7, 1)], clinics=[(7, 7, 7)])
    given("no groups", to_provider(*head, KEEPER, KEEPER), [])
    given("51 as a text",
          to_provider("1,51,1,19890108,,,51,,51,,", "2,1,51,2", "3,51,,,2", "4,51,,2", DATE,
                      "11,51,,,,,,51,1", "15,51,51,1", "55,51,51,1", "201,1,51,51,51,2,51,1",
                      "501,51,1", "601,51,", "701,51,51,51,,,1"),
          [(6, 12, 1)], [(10, 10, 9)])

    # From group to group: a 5 begins with 0 again, and so does a 701.
    given("a 51 in group 1 only", to_provider(PATIENT, DATE, PRESCRIBER, *rp, DATE, *rp),
          [(3, 10, 1), (11, 17, 2)], [], [(6, 7, 5), (13, 14, 12)], [(4, 10, 4)])
    given("a 51 in group 2 only", to_provider(PATIENT, DATE, *rp, DATE, PRESCRIBER, *rp),
          [(3, 9, 1), (10, 17, 2)], [], [(5, 6, 4), (13, 14, 12)], [(11, 17, 11)])
    given("a 51 in groups 1 and 3",
          to_provider(PATIENT, DATE, PRESCRIBER, DATE, "601,x,", DATE, PHARMACY, PRESCRIBER,
                      "601,x,"),
          [(3, 4, 1), (5, 6, 2), (7, 10, 3)], clinics=[(4, 4, 4), (9, 10, 9)])
    given("a 51 in each group",
          to_provider(PATIENT, DATE, PRESCRIBER, drug(), DATE, PHARMACY, GOOD[15], PRESCRIBER,
                      drug(), note(281), DATE, PRESCRIBER),
          [(3, 5, 1), (6, 11, 2), (12, 13, 3)], [], [(11, 11, 10)],
          [(4, 5, 4), (9, 11, 9), (13, 13, 13)])
    given("a 51 at the end of a group", to_provider(PATIENT, DATE, PRESCRIBER, DATE),
          [(3, 4, 1), (5, 5, 2)], clinics=[(4, 4, 4)])
    given("a doctor in group 1, a 51 in group 2",
          to_provider(PATIENT, DATE, DOCTOR, drug(), DATE, PRESCRIBER, drug()),
          [(3, 5, 1), (6, 8, 2)], [(5, 5, 4)], clinics=[(7, 8, 7)])
    given("a 51 in group 1, a doctor in group 2",
          to_provider(PATIENT, DATE, PRESCRIBER, drug(), DATE, DOCTOR, drug()),
          [(3, 5, 1), (6, 8, 2)], [(8, 8, 7)], clinics=[(4, 5, 4)])
    given("groups with nothing in them after a 51",
          to_provider(PATIENT, DATE, PRESCRIBER, DATE, DATE, KEEPER),
          [(3, 4, 1), (5, 5, 2), (6, 6, 3)], clinics=[(4, 4, 4)])
    given("701s right after a 51", to_provider(PATIENT, DATE, PRESCRIBER, KEEPER, KEEPER),
          [(3, 4, 1)], clinics=[(4, 4, 4)])
    given("701s after a group with clinic and doctor",
          to_provider(PATIENT, DATE, PRESCRIBER, DOCTOR, drug(), "601,x,", KEEPER, KEEPER),
          [(3, 7, 1)], [(6, 6, 5)], clinics=[(4, 7, 4)])
    given("701s after a group without, after one with a 51",
          to_provider(PATIENT, DATE, PRESCRIBER, DATE, "601,x,", KEEPER),
          [(3, 4, 1), (5, 6, 2)], clinics=[(4, 4, 4)])

    # Direction 1, where a 51 is followed by 55 or 201.
    given("a pharmacy's group with every record",
          to_patient(PATIENT, DATE, PHARMACY, GOOD[15], PRESCRIBER, DOCTOR, *rp, *after, KEEPER),
          [(3, 17, 1)], [(8, 13, 7)], [(9, 10, 8)], [(6, 17, 6)])
    given("a pharmacy, then a hospital",
          to_patient(DATE, PHARMACY, PRESCRIBER, drug(), usage(), DATE, HOSPITAL, drug(),
                     usage()),
          [(2, 6, 1), (7, 10, 2)], clinics=[(4, 6, 4)])
    given("a hospital, then a pharmacy",
          to_patient(DATE, HOSPITAL, drug(), usage(), DATE, PHARMACY, PRESCRIBER, drug(),
                     usage()),
          [(2, 5, 1), (6, 10, 2)], clinics=[(8, 10, 8)])
    given("a pharmacy's group without RP between two",
          to_patient(DATE, PHARMACY, PRESCRIBER, drug(), usage(), DATE, PHARMACY, ADVICE,
                     DATE, PHARMACY, PRESCRIBER, DOCTOR, drug(), usage(), KEEPER),
          [(2, 6, 1), (7, 9, 2), (10, 15, 3)], [(14, 15, 13)], [], [(4, 6, 4), (12, 15, 12)])

    # Lines of one to four digits, on both sides of a byte; and with 1A.
    for line in (4, 9, 10, 99, 100, 255, 256, 257, 999, 1000, 1001, 1700):
        content = to_provider(PATIENT, *["4,x,,2"] * (line - 4), DATE, PRESCRIBER, DOCTOR,
                              drug(), note(281))
        ranges = ([(line - 1, line + 3, 1)], [(line + 2, line + 3, line + 1)],
                  [(line + 3, line + 3, line + 2)], [(line, line + 3, line)])
        given("a 51 in line %d" % line, content, *ranges, each=accepted)
        given("a 51 in line %d, 1A" % line, content + b"\x1a", *ranges, each=accepted)
    for label, lines in [("a 51 at the end", [PRESCRIBER]),
                         ("a 701 after a 51", [PRESCRIBER, KEEPER])]:
        given(label + ", with 1A", to_provider(PATIENT, DATE, *lines) + b"\x1a",
              [(3, 4, 1)], clinics=[(4, 4, 4)], each=accepted)

    # Many records after one 51, and many 51s.
    given("1000 remarks after a 51",
          to_provider(PATIENT, DATE, PRESCRIBER, DOCTOR, drug(), *[note(281)] * 500,
                      *[note(291)] * 500),
          [(3, 1006, 1)], [(6, 1006, 5)], [(7, 1006, 6)], [(4, 1006, 4)])
    given("500 groups of a 51 alone", to_provider(PATIENT, *[DATE, PRESCRIBER] * 500),
          [(2 * g + 1, 2 * g + 2, g) for g in range(1, 501)],
          clinics=[(2 * g + 2, 2 * g + 2, 2 * g + 2) for g in range(1, 501)], each=accepted)
    # A group of three lines with a 51, then one of two without; the first is line 3.
    starts = range(3, 3 + 5 * 150, 5)
    given("300 groups, every other with a 51",
          to_provider(PATIENT, *[DATE, PRESCRIBER, drug(), DATE, drug()] * 150),
          [(at, at + 2, 2 * pair + 1) for pair, at in enumerate(starts)]
          + [(at + 3, at + 4, 2 * pair + 2) for pair, at in enumerate(starts)],
          clinics=[(at + 1, at + 2, at + 1) for at in starts], each=accepted)


def rooms_of_four_records():
    """02 (v): "The index buffer needs seven numbers a record": 28 for four."""
    content = to_provider(PATIENT, DATE, PRESCRIBER, "601,x,")
    result = [1, 13, 21, 0, 0, 0, 0, 5, 36, 12, 1, 0, 0, 0,
              51, 50, 12, 1, 0, 0, 4, 601, 64, 6, 1, 0, 0, 4]
    for room in range(28):
        refused("index", "four records, %d numbers" % room, content, "no 20 0", room=room)
    for room in (28, 29, 34, 35, 199, 200, 201, 12000):
        accepted("index", "four records, %d numbers" % room, content, "4", result,
                 spare=room - 28)
    # The most records with a 51, which is the last line: 24 bytes are the group's, 65,531 in all.
    most = to_provider("1,A,1,H010108,,,,,,,", *["4,x,,2"] * 8184, "5,H280411,1", "51,x,,,,1")
    assert len(most) == 65531
    result = [1, 13, 20, 0, 0, 0, 0]
    for at in range(8184):
        result += [4, 35 + 8 * at, 6, 0, 0, 0, 0]
    result += [5, 65507, 11, 1, 0, 0, 0, 51, 65520, 9, 1, 0, 0, 8188]
    assert len(result) == 57309
    accepted("index", "8187 records, exactly", most, "8187", result, spare=0)
    refused("index", "8187 records, one short", most, "no 20 0", room=57308)
    # The last of so many records, a 4 after the 51, is refused.
    stray = to_provider("1,A,1,H010108,,,,,,,", *["4,x,,2"] * 8183, "5,H280411,1", "51,x,,,,1", "4,x,,2")
    refused("index", "13 after 8186 records", stray, "no 13 8188", room=57344)


def around_64_records():
    """Counts of records around 64, 128 and 192: clinic, doctor and drug go on to the last record, and
    a refusal after it leaves the whole buffer."""
    for count in (62, 63, 64, 65, 66, 127, 128, 129, 130, 191, 192, 193):
        # 1, 5, 51, 55, 201, then 281s up to the count.
        remarks = count - 5
        content = to_provider(PATIENT, DATE, PRESCRIBER, DOCTOR, drug(), *[note(281)] * remarks)
        last = count + 1
        result = entries(content, [(3, last, 1)], [(6, last, 5)], [(7, last, 6)], [(4, last, 4)])
        in_buffers("index", "%d records" % count, content, "%d" % count, result)
        # With one more, which may not stand there.
        refused("index", "13 after %d records" % count, content + b"4,x,,2\r\n",
                "no 13 %d" % (count + 2), room=7 * count + 30)
        # The group's 5, 51, 55 and 201 as the last of so many records.
        for behind, name in enumerate(["5", "51", "55", "201"]):
            fours = count - 2 - behind
            content = to_provider(PATIENT, *["4,x,,2"] * fours, DATE, PRESCRIBER, DOCTOR, drug(),
                                  note(291))
            at = fours + 3
            result = entries(content, [(at, at + 4, 1)], [(at + 3, at + 4, at + 2)],
                             [(at + 4, at + 4, at + 3)], [(at + 1, at + 4, at + 1)])
            accepted("index", "a %s as record %d" % (name, count), content,
                     "%d" % (fours + 6), result)


def refused_with_clinics():
    """A fault of the file comes before 20, and no number of the buffer is changed."""
    for label, content, answer in [
        ("16 after a group with a 51",
         to_provider(PATIENT, "5,20160410,1", PRESCRIBER, drug(), "5,20160411,1", PRESCRIBER),
         "no 16 6"),
        ("15 after a 51", to_provider(PATIENT, DATE, PRESCRIBER, drug(2)), "no 15 5"),
        ("14, a 51 at the end, direction 1", to_patient(DATE, PHARMACY, PRESCRIBER), "no 14 5"),
        ("14, a 51 and a 55 at the end", to_provider(PATIENT, DATE, PRESCRIBER, DOCTOR),
         "no 14 6"),
        ("13, a second 51", to_provider(PATIENT, DATE, PRESCRIBER, PRESCRIBER), "no 13 5"),
        ("13, a 51 after a 201", to_provider(PATIENT, DATE, drug(), PRESCRIBER), "no 13 5"),
        ("13, a 51 before the groups", to_provider(PATIENT, PRESCRIBER, DATE), "no 13 3"),
        ("13, a 51 after a 701", to_provider(PATIENT, DATE, KEEPER, PRESCRIBER), "no 13 5"),
        ("13, an 11 after a 51", to_provider(PATIENT, DATE, PRESCRIBER, PHARMACY), "no 13 5"),
        ("11 in a 51", to_provider(PATIENT, DATE, "51,x,48,1,,1", DOCTOR, drug()), "no 11 4"),
    ]:
        records = content.count(b"\n") - 1
        for room in (6 * records, 7 * records - 1, 7 * records, 7 * records + 30):
            refused("index", "%s, %d numbers" % (label, room), content, answer, room=room)


def index():
    def given(label, content, groups, doctors=(), drugs=(), clinics=(), each=in_buffers):
        result = entries(content, groups, doctors, drugs, clinics)
        each("index", label, content, "%d" % (len(result) // 7), result)

    in_buffers("index", "37 bytes", SMALL, "1", [1, 13, 21, 0, 0, 0, 0])
    in_buffers("index", "35 bytes", SMALL_CANONICAL, "1", [1, 13, 20, 0, 0, 0, 0])
    in_buffers("index", "three records", to_provider(PATIENT, DATE, "601,x,"), "3",
               [1, 13, 21, 0, 0, 0, 0, 5, 36, 12, 1, 0, 0, 0, 601, 50, 6, 1, 0, 0, 0])
    for label, *ranges in EXAMPLES:
        given(label, check_case(label), *ranges)
    for room in (1, 6, 7, 8, 11, 12, 13):
        refused("index", "two records, %d numbers" % room,
                to_provider(PATIENT, "4,x,,2"), "no 20 0", room=room)

    # Doctors, drugs and groups, line by line.
    rp = [drug(), note(281), note(291), usage(), note(311), note(391)]
    given("every record of an RP", to_provider(PATIENT, DATE, DOCTOR, *rp),
          [(3, 10, 1)], [(5, 10, 4)], [(6, 7, 5)])
    given("no doctor", to_provider(PATIENT, DATE, *rp), [(3, 9, 1)], [], [(5, 6, 4)])
    given("a doctor in group 1 only",
          to_provider(PATIENT, DATE, DOCTOR, *rp, DATE, *rp),
          [(3, 10, 1), (11, 17, 2)], [(5, 10, 4)], [(6, 7, 5), (13, 14, 12)])
    given("a doctor in group 2 only",
          to_provider(PATIENT, DATE, *rp, DATE, DOCTOR, *rp),
          [(3, 9, 1), (10, 17, 2)], [(12, 17, 11)], [(5, 6, 4), (13, 14, 12)])
    given("an RP keeps the doctor of the one before",
          to_provider(PATIENT, DATE, DOCTOR, drug(1), usage(1), drug(2), usage(2), DOCTOR,
                      drug(3), usage(3), drug(4)),
          [(3, 12, 1)], [(5, 8, 4), (10, 12, 9)])
    given("the last drug of several",
          to_provider(PATIENT, DATE, drug(), drug(), note(281), note(281), note(291), drug(),
                      note(291), drug(2), note(281, 2)),
          [(3, 12, 1)], [], [(6, 8, 5), (10, 10, 9), (12, 12, 11)])
    given("the last drug, group by group",
          to_provider(PATIENT, DATE, drug(), note(281), DATE, drug(), note(281), DATE,
                      drug(), note(291)),
          [(3, 5, 1), (6, 8, 2), (9, 11, 3)], [], [(5, 5, 4), (8, 8, 7), (11, 11, 10)])
    given("groups with nothing in them", to_provider(PATIENT, DATE, DATE, DATE, KEEPER),
          [(3, 3, 1), (4, 4, 2), (5, 5, 3)])
    given("701s after a group with a doctor",
          to_provider(PATIENT, DATE, DOCTOR, drug(), KEEPER, KEEPER),
          [(3, 5, 1)], [(5, 5, 4)])
    given("after the prescriptions",
          to_provider(PATIENT, DATE, DOCTOR, drug(), "401,x,1", ADVICE, "501,x,1", "601,x,"),
          [(3, 9, 1)], [(5, 5, 4)])
    for direction in (1, 2):
        given("every record, direction %d" % direction,
              file(direction, *(GOOD[number] for number in NUMBERS)),
              [(6, 20, 1)], [(11, 16, 10)], [(12, 13, 11)], [(9, 20, 9)])
    given("direction 1 without record 1", to_patient(DATE, HOSPITAL, ADVICE), [(2, 4, 1)])
    given("a pharmacy's groups",
          to_patient(DATE, PHARMACY, PRESCRIBER, DOCTOR, drug(), usage(), DATE, PHARMACY,
                     PRESCRIBER, drug(), usage(), KEEPER),
          [(2, 7, 1), (8, 12, 2)], [(6, 7, 5)], [], [(4, 7, 4), (10, 12, 10)])
    clinics(given)
    rooms_of_four_records()
    around_64_records()
    refused_with_clinics()

    # Spellings: offsets and lengths are the file's own.
    for one in itertools.chain(*DAYS):
        given("every day is %s" % one, every_day(one), [(9, 11, 1)], each=accepted)
    for label, lines in SPELLINGS:
        given(label, to_provider(*lines), [(5, 7, 1), (8, 8, 2), (9, 9, 3)])
    for content, label in [(every_postal_code("105-0004"), "hyphen"),
                           (every_postal_code("1050004"), "no hyphen")]:
        given("postal codes with " + label, content, [(3, 4, 1)], each=accepted)
    for rp in ("1", "01", "001"):
        given("every RP is %s" % rp, every_value(rp, "5"), [(3, 9, 1)], [], [(5, 6, 4)],
              each=accepted)
    of_alike = [(6, 20, 1)], [(11, 16, 10)], [(12, 13, 11)], [(9, 20, 9)]
    given("items that look like days", ALIKE, *of_alike)
    given("with 1A", ALIKE + b"\x1a", *of_alike, each=accepted)
    given("small, with 1A", to_provider(PATIENT, DATE) + b"\x1a", [(3, 3, 1)], each=accepted)
    for size in (1, 2, 61, 62):
        given("%d bytes of wide text" % (2 * size),
              to_provider(PATIENT, "4," + "薬" * size + ",,2", "4,x,,2"), [], each=accepted)

    # Many records, and the largest file.
    many = to_provider(PATIENT, DATE, *(drug(n) for n in range(1, 1000)))
    given("999 prescriptions", many, [(3, 1002, 1)])
    notes = to_provider(PATIENT, DATE, DOCTOR, drug(), *[note(281)] * 500, *[note(291)] * 500)
    given("1000 remarks", notes, [(3, 1005, 1)], [(5, 1005, 4)], [(6, 1005, 5)],
          each=accepted)
    groups = to_provider(PATIENT, *[DATE, DOCTOR, drug()] * 300)
    given("300 groups", groups, [(3 * g, 3 * g + 2, g) for g in range(1, 301)],
          [(3 * g + 2, 3 * g + 2, 3 * g + 1) for g in range(1, 301)], each=accepted)
    given("65536 bytes", check_case("65536 bytes"), [], each=accepted)

    # Kana names: offsets and lengths are the file's own. Record 1 has 20 bytes without its name.
    for label, item in ONE_SCRIPT:
        in_buffers("index", "kana, " + label, to_provider(named(item), MEMO), "2",
                   [1, 13, 20 + len(raw(item)), 0, 0, 0, 0, 4, 35 + len(raw(item)), 6, 0, 0, 0, 0])
        for direction in (1, 2):
            given("kana, %s, direction %d" % (label, direction), with_records(direction, item),
                  [(6, 20, 1)], [(11, 16, 10)], [(12, 13, 11)], [(9, 20, 9)], each=accepted)
    mixed_kana("index", lambda content: 7 * (content.count(b"\n") - 1))

    of_check("index")
    for label, content, _ in spread(check_cases()["ok"], 160):
        told("index", "check's %s" % label, content, 7 * content.count(b"\n"))


# =============================================================================
# Canonical
# =============================================================================


def days_of_2019(given):
    """02 (i): "H310501 and R010501 are one day and get one spelling"."""
    # Each item of kind D by itself; the days around it are western.
    for number in NUMBERS:
        for at in [at for at, (kind, _) in enumerate(ITEMS[number]) if kind == "D"]:
            def around(item):
                return alone(number, changed(number, at, item))

            where = "%d item %d is " % (number, at + 1)
            for written, *others in CHANGE[:2]:
                result = around(written)[0]
                result = result.replace(b"19890108", b"H010108").replace(b"20160411", b"H280411")
                for one in [*others, written]:
                    given(where + one, around(one)[0], result)
            content, line, _ = around("R010430")
            refused("canonical", where + "R010430", content, "no 11 %d" % line, room=200)

    for label, lines in SPELLINGS:
        given(label, to_provider(*lines), to_provider(*REIWA), in_buffers)
        given(label + ", 1A", to_provider(*lines) + b"\x1a", to_provider(*REIWA))
    # One line alone is not canonical yet.
    for at, (old, new) in enumerate(zip(OLDER_PHONE, REIWA)):
        if old != new:
            given("line %d as an older phone has it" % (at + 2),
                  to_provider(*REIWA[:at], old, *REIWA[at + 1 :]), to_provider(*REIWA))

    # All spellings of one file, whose groups fall from R to H.
    def groups(days):
        return to_provider("1,A,1,H010108,,,,,,,", *("5,%s,1" % day for day in days))

    falling = groups(["R010502", "R010501", "H310430"])
    for days in itertools.product(*CHANGE[::-1]):
        given("groups of " + " ".join(days), groups(days), falling)
    given("groups of one day", groups(["H310501", "R010501", "20190501", "R010501", "H310501"]),
          groups(["R010501"] * 5), in_buffers)

    visit = [HOSPITAL, ADVICE]
    given("direction 1, days of 2019",
          to_patient("5,H310501,1", *visit, "5,R010501,1", *visit, "5,20190430,1", *visit),
          to_patient("5,R010501,1", *visit, "5,R010501,1", *visit, "5,H310430,1", *visit),
          in_buffers)
    given("texts that look like days under H", TEXTS, TEXTS)
    memos = ["4,x,H310501,2"] * 4366
    given("4366 days of an older phone", to_provider(ONE, *memos),
          to_provider(ONE, *(memo.replace("H31", "R01") for memo in memos)))


def canonical():
    def given(label, content, result, each=accepted):
        each("canonical", label, content, "%d" % len(result), result)

    given("37 bytes", SMALL, b"JAHISTC04,2\r\n1,A,1,H010108,,,,,,,\r\n", in_buffers)
    given("36 bytes", SMALL[:-1], SMALL_CANONICAL, in_buffers)
    given("35 bytes", SMALL_CANONICAL, SMALL_CANONICAL, in_buffers)
    given("35 bytes and 1A", SMALL_CANONICAL + b"\x1a", SMALL_CANONICAL, in_buffers)
    for room in (1, 12, 13, 14, 33, 34):
        refused("canonical", "37 bytes, buffer of %d" % room, SMALL, "no 20 0", room=room)
    for room in (36, 37, 100, 199, 200, 201, 1000):
        accepted("canonical", "37 bytes, buffer of %d" % room, SMALL, "35", SMALL_CANONICAL,
                 spare=room - 35)
    # The examples have these two spellings that are not canonical.
    for label in EXAMPLE_LABELS:
        content = check_case(label)
        result = content.replace(b"19580303", b"S330303").replace(b"105-0004", b"1050004")
        given(label, content, result, in_buffers)
        given(label + ", 1A", content + b"\x1a", result)

    for written, *others in DAYS:
        for one in [*others, written]:
            given("every day is %s" % one, every_day(one), every_day(written))
    days_of_2019(given)
    given("postal codes with hyphen", every_postal_code("105-0004"),
          every_postal_code("1050004"), in_buffers)
    given("postal codes of zeros", every_postal_code("000-0000"),
          every_postal_code("0000000"))
    for one in ("1050004", "0000001", ""):
        given("postal codes '%s'" % one, every_postal_code(one), every_postal_code(one))
    for rp in ("1", "01", "001"):
        for spelled, value in [("1", "1"), ("5", "5"), ("05", "5"), ("005", "5"), ("10", "10"),
                               ("010", "10"), ("100", "100"), ("099", "99"), ("999", "999"),
                               ("", "")]:
            given("RP %s, quantity '%s'" % (rp, spelled), every_value(rp, spelled),
                  every_value("1", value))
    for digits in ("%d", "%02d", "%03d"):
        content = to_provider(PATIENT, DATE, *(drug(digits % n) for n in range(1, 113)))
        result = to_provider("1,A,1,H010108,,,,,,,", "5,H280411,1",
                             *(drug("%d" % n) for n in range(1, 113)))
        given("112 prescriptions, written " + digits, content, result)
    # All spellings of one file.
    for birth, code, rp, end in itertools.product(
            ("19890107", "S640107"), ("105-0004", "1050004", ""), ("1", "01", "001"),
            (b"", b"\x1a")):
        def one_file(birth, code, rp):
            return to_provider("1,A,1,%s,%s,,,,,," % (birth, code), "5,H280411,1",
                               "11,x,,,,%s,,,1" % code, drug(rp), usage(rp))
        given("spelled %s, '%s', %s%s" % (birth, code, rp, ", 1A" if end else ""),
              one_file(birth, code, rp) + end, one_file("S640107", code.replace("-", ""), "1"))
    given("items that look like days", ALIKE, ALIKE, in_buffers)
    given("items that look like days, 1A", ALIKE + b"\x1a", ALIKE)
    for direction in (1, 2):
        content = file(direction, *(GOOD[number] for number in NUMBERS))
        result = content.replace(b"19890108", b"H010108").replace(b"20160411", b"H280411")
        given("every record, direction %d" % direction, content, result, in_buffers)
    text = "4," + "薬表ソ" * 60 + ",20160411,2"
    given("wide text", to_provider(PATIENT, text),
          to_provider("1,A,1,H010108,,,,,,,", text.replace("20160411", "H280411")))

    # The largest files: the canonical one is a byte shorter for the birth day.
    full = check_case("65536 bytes")
    result = full.replace(b"19890108", b"H010108")
    assert len(result) == 65535
    given("65536 bytes", full, result)
    refused("canonical", "65536 bytes, one short", full, "no 20 0", room=65534)
    full = check_case("65535 bytes and 1A")
    result = full[:-1].replace(b"19890108", b"H010108")
    accepted("canonical", "65535 bytes and 1A", full, "65534", result, spare=0)

    # Kana names keep their bytes.
    for label, item in ONE_SCRIPT:
        given("kana, " + label, to_provider(raw(PATIENT) + raw(item)), to_provider(named(item)),
              in_buffers)
        given("kana, %s, canonical" % label, to_provider(named(item)), to_provider(named(item)))
        for direction in (1, 2):
            given("kana, %s, direction %d" % (label, direction),
                  with_records(direction, item) + b"\x1a",
                  with_records(direction, item).replace(b"20160411", b"H280411"))
    mixed_kana("canonical", len)

    of_check("canonical")
    for label, content, _ in spread(check_cases()["ok"], 160):
        told("canonical", "check's %s" % label, content, len(content) + 2)


# =============================================================================
# Cut
# =============================================================================

ONE = "1,A,1,H010108,,,,,,,"  # 22 bytes with its line end
MEMO = "4,x,,2"  # 8 bytes with its line end


def one_piece(direction, lines, n, k, ident=ID, end=b""):
    return file(direction, *lines, b"911,%s,%s,%s" % (raw(ident), raw(str(n)), raw(str(k)))) + end


def list_of(direction, runs, ident=ID):
    return [one_piece(direction, run, len(runs), k, ident) for k, run in enumerate(runs, 1)]


def pieces_ending(lines, ends):
    """These lines in pieces that end after so many of them."""
    bounds = [0, *ends, len(lines)]
    return list_of(2, [lines[a:b] for a, b in zip(bounds, bounds[1:])])


def memo_runs(memos, size, capacity):
    """How many records each piece has: record 1 of 22 bytes, then memos of one
    size, so that a division tells. None where no width serves."""
    for width in (1, 2, 3):
        counts, left = [], 1 + memos
        while left:
            k = len(counts) + 1
            # All but the records: line 1, and a 911 with three commas, 14 digits
            # and a line end.
            room = capacity - 13 - (3 + 3 + 14 + width + len(str(k)) + 2)
            found = min(left, room // size if k > 1 else 1 + (room - 22) // size)
            if found < 1 or k == 10**width:
                break
            counts.append(found)
            left -= found
        if left == 0 and len(str(len(counts))) == width:
            return counts
    return None


def memo_cut(label, memos, memo, capacity, content=None, each=accepted, expected=None, used=b""):
    """Record 1 and equal memos. `expected` is the count written by hand, 18 for
    the refusal. The run of used IDs is one that passes."""
    lines = [ONE] + [memo] * memos
    if content is None:
        content = to_provider(*lines)
    size = len(memo) + 2
    if 13 + 22 + memos * size <= capacity:
        result = [to_provider(*lines)]
    else:
        counts = memo_runs(memos, size, capacity)
        if counts is None:
            assert expected in (None, "18")
            refused("cut", label, content, "no 18 0", capacity=capacity, ident=ID, used=used)
            return
        ends = list(itertools.accumulate(counts, initial=0))
        assert ends[-1] == len(lines)
        result = list_of(2, [lines[a:b] for a, b in zip(ends, ends[1:])])
        assert max(len(one) for one in result) <= capacity
    values = "%d %d" % (len(result), sum(len(one) for one in result))
    assert expected in (None, values, values.split()[0])
    each("cut", label, content, values, b"".join(result), capacity=capacity, ident=ID, used=used)


# What is no ID: 17 wherever the file is good.
WRONG_IDS = [
    b"", b"1", b"1" * 13, b"1" * 15, b"1" * 28, b"1" * 255, b"1234567890123a",
    b"a2345678901234", b"1234567 901234", b"12345678901234 ", b" 2345678901234",
    b"-2345678901234", b"1234567890123/", b"1234567890123:", b"\x00" * 14,
    b"1234567890123\n", b"1234567890123,", b"12345678901234\r", b"\xb1" * 14,
    "１２３４５６７".encode("shift_jis"), b"12345678901234\x00", b"1.345678901234"]


def shown_id(ident):
    return ident.hex() if len(ident) < 16 else "of %d" % len(ident)


def other_ids(count):
    """So many IDs, none of them ID and no two the same."""
    return [b"9%013d" % (9 * 10**11 + number) for number in range(count)]


def changed_id(at, byte):
    """ID with another byte at one place."""
    return ID[:at] + bytes([byte]) + ID[at + 1 :]


def used_ids():
    """02 (vii): "24 used: the run's length isn't a multiple of 14 or one of its IDs is the
    one given; line 0, after 17 and before 18"."""
    # 67 bytes: one piece from 67 on. Below it three, to 59, where record 1 of 22 bytes just
    # finds room beside the 37 of line 1 and a 911 of one digit each.
    lines = [ONE] + [MEMO] * 4
    content = to_provider(PATIENT, *[MEMO] * 4) + b"\x1a"
    runs = [[ONE], [MEMO, MEMO], [MEMO, MEMO]]
    assert len(to_provider(*lines)) == 67

    def passes(label, run, ident=ID, capacity=60, each=accepted):
        """ "the fewest pieces are found as before": those of no run."""
        result = [to_provider(*lines)] if capacity >= 67 else list_of(2, runs, ident)
        each("cut", label, content, "%d %d" % (len(result), sum(map(len, result))),
             b"".join(result), capacity=capacity, ident=ident, used=run)

    def no(label, run, answer="no 24 0", content=content, capacity=60, ident=ID, room=40):
        refused("cut", label, content, answer, room=room, capacity=capacity, ident=ident, used=run)

    # The empty run has no ID; every other case of cut has it too.
    passes("used, no IDs", b"", each=in_buffers)
    passes("used, no IDs, one piece", b"", capacity=67, each=in_buffers)

    # The ID at each place of runs of one to six; twice; and nowhere.
    for count in range(1, 7):
        passes("used, %d others" % count, b"".join(other_ids(count)))
        for place in range(count):
            run = other_ids(count)
            run[place] = ID
            no("used, the ID is %d of %d" % (place + 1, count), b"".join(run))
    no("used, the ID twice", ID + ID)
    no("used, the ID first and last", b"".join([ID, *other_ids(3), ID]))
    no("used, the ID ten times", ID * 10)
    passes("used, another ID ten times", other_ids(1)[0] * 10)
    # Places around 128 and 256 IDs.
    for place in (0, 1, 127, 128, 254, 255, 256, 257, 258):
        run = other_ids(259)
        run[place] = ID
        no("used, the ID is %d of 259" % (place + 1), b"".join(run))
    passes("used, 259 others", b"".join(other_ids(259)))

    # In three pieces and in one; buffers that are longer, exact, short and empty.
    for capacity, pieces in ((60, "three pieces"), (67, "one piece"), (UNBOUNDED, "no bound")):
        passes("used, others, " + pieces, b"".join(other_ids(3)), capacity=capacity,
               each=in_buffers)
        length = 67 if capacity >= 67 else sum(map(len, list_of(2, runs)))
        for label, room in (("", length + 3), (", exactly", length), (", one short", length - 1),
                            (", one byte", 1), (", no buffer", 0)):
            no("used, the ID, %s%s" % (pieces, label), b"".join([*other_ids(2), ID]),
               capacity=capacity, room=room)
            no("used, 13 bytes, %s%s" % (pieces, label), ID[:13], capacity=capacity, room=room)
    # One piece has no record 911, and its ID is tested all the same.
    for ident in (b"0" * 14, b"9" * 14, b"98765432109876"):
        no("used, %s, one piece" % ident.decode(), ident, ident=ident, capacity=67, room=80)
        no("used, %s" % ident.decode(), ident, ident=ident, room=200)
        passes("used, others, %s" % ident.decode(), ID + b"12345678909876", ident)

    # Before 18 and before 20; both as without a run where it passes.
    for capacity in (0, 1, 13, 58):
        for room in (200, 0):
            label = "%d%s" % (capacity, "" if room else ", no buffer")
            no("used, the ID where no width serves, " + label, ID, capacity=capacity, room=room)
            no("used, 15 bytes where no width serves, " + label, ID + b"0", capacity=capacity,
               room=room)
            no("used, others where no width serves, " + label, b"".join(other_ids(2)), "no 18 0",
               capacity=capacity, room=room)
    for capacity in range(40, 199, 3):
        memo_cut("used, others, 20 memos, %d" % capacity, 20, MEMO, capacity,
                 used=b"".join(other_ids(2)))
    memo_cut("used, others, 998 long memos, 61", 998, "4,xxxxx,,2", 61, expected="999",
             used=b"".join(other_ids(2)))
    group = ["5,H280411,1", HOSPITAL, ADVICE]
    visit = to_patient(DATE, HOSPITAL, ADVICE)
    in_buffers("cut", "used, others, direction 1", visit, "3 153",
               b"".join(list_of(1, [[line] for line in group])), capacity=54, ident=ID,
               used=b"".join(other_ids(2)))
    no("used, the ID, direction 1", ID, content=visit, capacity=54, room=200)

    # Its bytes across two IDs are none of them, wherever they begin; they are where they
    # begin at an ID's start.
    for shift in range(15):
        run = b"0" * shift + ID + b"0" * (14 - shift)
        among = b"".join(other_ids(3)) + run + b"".join(other_ids(3))
        tried = no if shift in (0, 14) else passes
        tried("used, the ID after %d bytes" % shift, run)
        tried("used, the ID after %d bytes, others" % (42 + shift), among)
    # An ID that lies at every second place of the run, and at none where an ID begins.
    passes("used, 2121 and the ID 1212", b"21" * 14, b"12" * 7)
    no("used, 1212 and the ID 1212", b"12" * 14, ident=b"12" * 7)
    passes("used, 28 bytes of 0 and the ID of 1", b"0" * 28, b"1" * 14)
    passes("used, 26 times 1 between two 0s and the ID of 1", b"0" + b"1" * 26 + b"0", b"1" * 14)
    no("used, 28 times 1 and the ID of 1", b"1" * 28, ident=b"1" * 14)
    no("used, 14 times 0 and 14 times 1 and the ID of 1", b"0" * 14 + b"1" * 14, ident=b"1" * 14)

    # An ID that differs in one byte, at each of its places.
    for at in range(14):
        digit = changed_id(at, ord("0") + (ID[at] - ord("0") + 5) % 10)
        passes("used, another digit at %d" % (at + 1), digit)
        passes("used, the next byte at %d" % (at + 1), changed_id(at, ID[at] + 1))
        passes("used, bit 7 at %d" % (at + 1), changed_id(at, ID[at] ^ 0x80))
        passes("used, 00 at %d" % (at + 1), changed_id(at, 0))
        # Only this byte of it is the ID's.
        passes("used, one byte of the ID at %d" % (at + 1), b"\xff" * at + ID[at : at + 1]
               + b"\xff" * (13 - at))
        no("used, another digit at %d, then the ID" % (at + 1), digit + ID)
    # Fourteen IDs that have each byte of the ID at its place, but never all of one.
    near = b"".join(changed_id(at, ID[at] ^ 1) for at in range(14))
    passes("used, fourteen that differ in a bit", near, each=in_buffers)
    no("used, fourteen that differ in a bit, then the ID", near + ID)
    passes("used, the ID from its end", ID[::-1])
    passes("used, the halves of the ID turned", ID[7:] + ID[:7])
    passes("used, the halves of the ID in two IDs", b"0" * 7 + ID[:7] + ID[7:] + b"0" * 7)

    # Lengths that are no multiple of 14: with the ID in the run, and without it.
    for length in [*range(1, 14), *range(15, 28), 29, 41, 43, 55, 57, 139, 141, 255, 256, 257, 693,
                   1399, 1401]:
        no("used, %d bytes of the ID" % length, (ID * 101)[:length])
        no("used, %d bytes of others" % length, b"".join(other_ids(101))[:length])
    for length in (1, 13, 15, 27, 29):
        no("used, %d bytes of 00" % length, b"\x00" * length)
        no("used, %d bytes, the ID last" % length, (b"0" * 15 + ID)[-length:])
    for count in (1, 2, 3, 4, 10, 50, 100):
        passes("used, %d bytes of others" % (14 * count), b"".join(other_ids(count)))
        no("used, the ID, others and a byte, %d bytes" % (14 * count + 1),
           b"".join([ID, *other_ids(count)])[: 14 * count + 1])

    # The run's contents need not be digits.
    for label, unit in [
        ("00", b"\x00"), ("FF", b"\xff"), ("commas", b","), ("0A", b"\n"), ("0D", b"\r"),
        ("line ends", b"\r\n"), ("1A", b"\x1a"), ("spaces", b" "), ("letters", b"abcdefg"),
        ("wide digits", "１".encode("shift_jis")), ("slashes and colons", b"/:"),
    ]:
        run = unit * (28 // len(unit))
        passes("used, %s" % label, run)
        no("used, %s, then the ID" % label, run + ID)
        no("used, the ID, then %s" % label, ID + run)
        no("used, %s, one byte less" % label, run[:-1])
    passes("used, 14 times 00 and the ID of 0", b"\x00" * 14, b"0" * 14)
    # IDs as lines are no run. 14 lines of 15 bytes have the length of one, but of them only
    # lines 1, 15, 29 .. begin where an ID does; of lines of 16 bytes, lines 1, 8, 15 ..
    for place, end, count, tried in [
        (1, b"\n", 14, no), (2, b"\n", 14, passes), (14, b"\n", 14, passes), (15, b"\n", 28, no),
        (28, b"\n", 28, passes), (1, b"\r\n", 7, no), (2, b"\r\n", 7, passes),
        (7, b"\r\n", 7, passes), (8, b"\r\n", 14, no), (14, b"\r\n", 14, passes),
    ]:
        listed = other_ids(count)
        listed[place - 1] = ID
        tried("used, line %d of %d with %s" % (place, count, end.hex()),
              b"".join(one + end for one in listed))
    no("used, a line of one ID", ID + b"\n")
    no("used, a line of another ID", other_ids(1)[0] + b"\r\n")

    # 1 to 16 come first, then 17, whatever the run is.
    bad_runs = [("the ID", ID), ("13 bytes", b"0" * 13), ("15 bytes", ID + b"0")]
    by_answer = check_cases()
    for number in range(2, 17):
        for (label, run), (_, bad, answer) in zip(bad_runs, spread(by_answer[number], 3)):
            no("used, %s, %d" % (label, number), run, answer, bad, room=60)
            no("used, %s, %d, a wrong ID, no buffer" % (label, number), run, answer, bad, 0,
               b"x" * 14, 0)
        _, bad, answer = by_answer[number][-1]
        no("used, others, %d" % number, b"".join(other_ids(2)), answer, bad, room=60)
    no("used, 15 bytes, 1, no buffer", ID + b"0", "no 1 0", check_case("65536 bytes and 1A"),
       room=0)
    for wrong in WRONG_IDS:
        shown = shown_id(wrong)
        no("used, the ID %s itself" % shown, wrong, "no 17 0", ident=wrong)
        no("used, 13 bytes and the ID %s" % shown, b"0" * 13, "no 17 0", ident=wrong, room=0)
        no("used, others and the ID %s" % shown, b"".join(other_ids(2)), "no 17 0", ident=wrong)
        no("used, a good ID and the ID %s, one piece" % shown, ID, "no 17 0", capacity=67,
           ident=wrong)
        no("used, 15 bytes and the ID %s, no width" % shown, ID + b"0", "no 17 0", capacity=0,
           ident=wrong)

    # The longest runs: the ID is the last of 10,000; it lies across the last two; a byte is
    # missing.
    longest = b"".join(other_ids(10000))
    assert len(longest) == MOST_USED
    no("used, the ID is the last of 10000", longest[:-14] + ID, room=200)
    passes("used, 10000 others, the ID across the last two", longest[:-15] + ID + b"0")
    no("used, 139999 bytes of others", longest[:-1], room=200)


def cut():
    def given(label, content, capacity, result, ident=ID, each=in_buffers):
        each("cut", label, content, "%d %d" % (len(result), sum(map(len, result))),
             b"".join(result), capacity=capacity, ident=ident)

    def no(label, content, capacity, answer, ident=ID, room=40):
        refused("cut", label, content, answer, room=room, capacity=capacity, ident=ident)

    # The paper's cases.
    def paper(memos):
        return to_provider(PATIENT, *[MEMO] * memos) + b"\x1a"

    result = list_of(2, [[ONE, MEMO]] + [[MEMO] * 4] * 4 + [[MEMO] * 3])
    assert len(result) == 6 and sum(map(len, result)) == 404
    given("the paper's 20 memos, 69", paper(20), 69, result)
    result = list_of(2, [[ONE]] + [[MEMO] * 2] * 9)
    assert len(result) == 10 and sum(map(len, result)) == 547
    given("the paper's 18 memos, 60", paper(18), 60, result)
    no("the paper's 18 memos, 59", paper(18), 59, "no 18 0", room=600)
    given("the paper's 2 memos, 51", paper(2), 51, [to_provider(ONE, MEMO, MEMO)])
    no("the paper's 2 memos, 50", paper(2), 50, "no 18 0", room=600)

    # The small file: 37 bytes, canonical 35; it can't be cut in two.
    for capacity in (35, 36, 37, 1000, 65536, 2**32, 2**63, UNBOUNDED - 1, UNBOUNDED):
        given("37 bytes, %d" % capacity, SMALL, capacity, [SMALL_CANONICAL],
              each=in_buffers if capacity in (35, UNBOUNDED) else accepted)
    for capacity in (0, 1, 2, 13, 34):
        no("37 bytes, %d" % capacity, SMALL, capacity, "no 18 0")
        no("37 bytes, %d, no buffer" % capacity, SMALL, capacity, "no 18 0", room=0)

    # Every capacity up to where one piece serves.
    for capacity in range(0, 199):
        memo_cut("20 memos, canonical, %d" % capacity, 20, MEMO, capacity)
    dated = to_provider(PATIENT, *["4,x,19890108,2"] * 5) + b"\x1a"
    for capacity in range(0, 114):
        memo_cut("5 memos with dates, %d" % capacity, 5, "4,x,H010108,2", capacity, dated)
    # 02 (i): what is cut is the canonical file, in R.
    for spelled in ("H310501", "20190501", "R010501"):
        dated = to_provider(PATIENT, *["4,x,%s,2" % spelled] * 5)
        for capacity in (58, 59, 66, 67, 81, 82, 109, 110):
            memo_cut("5 memos of %s, %d" % (spelled, capacity), 5, "4,x,R010501,2", capacity, dated)
    # Records of 22, 23, 15, 13, 18, 15, 13, 13 and 29 bytes; 37 are left for the rest.
    assert len(to_provider(*REIWA)) == 174
    for label, lines in SPELLINGS:
        content, each = to_provider(*lines), in_buffers if lines == OLDER_PHONE else accepted
        given(label + ", whole", content, 174, [to_provider(*REIWA)], each=each)
        for capacity, ends in [(173, [8]), (100, [3, 7]), (66, [1, 2, 4, 5, 7, 8])]:
            given("%s, %d" % (label, capacity), content, capacity, pieces_ending(REIWA, ends),
                  each=each)
        no("%s, 65" % label, content, 65, "no 18 0", room=600)
    for memos in range(1, 8):
        total = 13 + 22 + 8 * memos
        for capacity in (total - 1, total):
            memo_cut("%d memos, %d" % (memos, capacity), memos, MEMO, capacity,
                     each=in_buffers)

    # One, two and three digits. A memo of 12 bytes has a piece to itself from
    # capacity 60 to 62; at 63 two fit where k has one digit.
    long = "4,xxxxx,,2"
    for memos, capacity, expected in [
        (8, 59, "9"), (8, 60, "9"), (9, 60, "10"), (9, 59, "18"), (9, 61, "6"),
        (98, 60, "99"), (99, 60, "18"), (99, 61, "100"), (99, 62, "92"), (106, 62, "99"),
        (107, 62, "108"), (99, 59, "18"), (500, 61, "501"),
        (998, 61, "999"), (998, 62, "999"), (999, 61, "18"), (999, 62, "18"), (999, 63, "992"),
        (1006, 63, "999"), (1007, 63, "18"),
    ]:
        memo_cut("%d long memos, %d" % (memos, capacity), memos, long, capacity,
                 expected=expected)
    # Piece 9 can hold the big memo, piece 10 can't.
    big = "4," + "x" * 15 + ",,2"
    no("big memo in piece 10", to_provider(ONE, *[long] * 8, big), 60, "no 18 0")
    given("big memo in piece 9", to_provider(ONE, *[long] * 7, big, long), 60,
          list_of(2, [[ONE]] + [[long]] * 7 + [[big], [long]]))
    given("big memo in piece 10, one more byte", to_provider(ONE, *[long] * 8, big), 61,
          list_of(2, [[ONE]] + [[long, long]] * 4 + [[big]]))
    # Records keep their order: a short one does not fill an earlier piece. At 67
    # a piece has 30 bytes for records, a big memo has 22 and a short one 8.
    given("short memos behind big ones", to_provider(ONE, big, MEMO, big, MEMO), 67,
          list_of(2, [[ONE], [big, MEMO], [big, MEMO]]))
    given("short memos behind big ones, 66", to_provider(ONE, big, MEMO, big, MEMO), 66,
          list_of(2, [[ONE], [big], [MEMO], [big], [MEMO]]))
    given("a short memo before big ones", to_provider(ONE, MEMO, big, big, MEMO), 67,
          list_of(2, [[ONE, MEMO], [big], [big, MEMO]]))
    given("short memos last", to_provider(ONE, big, big, MEMO, MEMO), 68,
          list_of(2, [[ONE], [big], [big, MEMO], [MEMO]]))
    # The last record alone is too long.
    no("a last record that fits no piece", to_provider(ONE, MEMO, "4,%s,,2" % ("x" * 400)),
       300, "no 18 0", room=800)
    no("a first record that fits no piece",
       to_provider("1,A,1,H010108,,%s,,,,," % ("x" * 300), MEMO), 300, "no 18 0", room=800)

    # Direction 1.
    group = ["5,H280411,1", HOSPITAL, ADVICE]
    visit = to_patient(DATE, HOSPITAL, ADVICE)
    assert [len(line) + 2 for line in group] == [13, 17, 12]
    given("direction 1, whole", visit, 55, [to_patient(*group)])
    given("direction 1, each record alone", visit, 54, list_of(1, [[line] for line in group]))
    no("direction 1, one byte less", visit, 53, "no 18 0")
    visits = to_patient(*[DATE, HOSPITAL, ADVICE] * 3)
    given("direction 1, three groups", visits, 79, list_of(1, [group] * 3))
    given("direction 1, three groups, one byte less", visits, 78,
          list_of(1, [group[:2], [group[2], group[0]], group[1:], group[:2], group[2:]]))
    fourth = check_case("example 4")
    for capacity in (110, 111, 112, 150, 200, 256, 300, 500, 600, 700, 1000, 1200, 1300, 1400,
                     65536):
        told("cut", "example 4, %d" % capacity, fourth, 4000, capacity, ID)
    for label in EXAMPLE_LABELS:
        content = check_case(label)
        whole = content.replace(b"19580303", b"S330303").replace(b"105-0004", b"1050004")
        given(label + ", whole", content, len(whole), [whole])
        for capacity in (len(whole) - 1, len(whole) // 2 + 40, 180):
            told("cut", "%s, %d" % (label, capacity), content, 4000, capacity, ID)

    # The ID: 17 wherever the file is good, before 18 and 20.
    for ident in WRONG_IDS:
        shown = shown_id(ident)
        no("ID %s" % shown, SMALL, UNBOUNDED, "no 17 0", ident)
        no("ID %s, no cutting" % shown, SMALL, 0, "no 17 0", ident)
        no("ID %s, no buffer" % shown, to_provider(ONE, *[MEMO] * 20), 69, "no 17 0", ident, 0)
        no("ID %s, refused file" % shown, to_provider(DATE), 100, "no 14 2", ident)
    for ident in (b"0" * 14, b"9" * 14, b"00000000000001", b"98765432109876"):
        given("ID %s" % ident.decode(), paper(4), 60,
              list_of(2, [[ONE], [MEMO, MEMO], [MEMO, MEMO]], ident), ident, accepted)

    used_ids()

    # Kana names keep their bytes, and count. At a capacity that just holds record 1, beside
    # the 37 bytes of line 1 and a 911, no memo stands with it.
    for label, item in ONE_SCRIPT:
        content = to_provider(raw(PATIENT) + raw(item), *[MEMO] * 4) + b"\x1a"
        one, size = named(item), 22 + len(raw(item))
        given("kana, %s, whole" % label, content, 13 + size + 32, [to_provider(one, *[MEMO] * 4)])
        runs = [[MEMO] * min(size // 8, 4 - at) for at in range(0, 4, size // 8)]
        given("kana, %s, in pieces" % label, content, 37 + size, list_of(2, [[one], *runs]))
        no("kana, %s, a byte less" % label, content, 36 + size, "no 18 0", room=200)
    # No cutting of others, whatever the capacity, the ID and the run of used IDs.
    for capacity in (UNBOUNDED, 60, 0):
        for label, item in MIXED:
            no("mixed kana, %s, %d" % (label, capacity), to_provider(named(item), MEMO), capacity,
               "no 11 2", room=150)
            no("mixed kana, %s, %d, no buffer" % (label, capacity), to_provider(named(item), MEMO),
               capacity, "no 11 2", room=0)
        for ident in (b"", b"1234567890123a", ID + b"5"):
            no("mixed kana, ID %s, %d" % (shown_id(ident), capacity), to_provider(named("あア")),
               capacity, "no 11 2", ident)
        for used in (ID, ID[:13]):
            refused("cut", "mixed kana, %d bytes used, %d" % (len(used), capacity),
                    to_provider(named("あア")), "no 11 2", capacity=capacity, ident=ID, used=used)
    mixed_kana("cut", len, capacity=UNBOUNDED, ident=ID)

    of_check("cut", capacity=UNBOUNDED, ident=ID)
    by_answer = check_cases()
    for number in range(2, 17):
        label, content, answer = by_answer[number][0]
        no("%d and a wrong ID" % number, content, 0, answer, b"x")
    for label, content, _ in spread(by_answer["ok"], 160):
        told("cut", "check's %s" % label, content, 3 * len(content), len(content) - 8, ID)
        told("cut", "check's %s, half" % label, content, 3 * len(content),
             len(content) // 2 + 40, ID)


# =============================================================================
# Join
# =============================================================================


def whole_lines(content):
    """The lines of a file that joining lets pass to check: no stray byte, no
    record 911 and no second line 1. None for another file."""
    content = content[:-1] if content.endswith(b"\r\n\x1a") else content
    *lines, rest = content.split(b"\r\n")
    bad = [line for line in lines[1:]
           if line.startswith((b"911", b"JAHISTC04,")) or set(line) & set(b"\r\n\x1a")]
    if rest or bad or lines[:1] not in ([b"JAHISTC04,1"], [b"JAHISTC04,2"]):
        return None
    return lines


def pieces_at(lines, ends, order):
    """The file of these lines as pieces that end behind these records, in this
    order; behind every other piece stands a 1Ah."""
    direction, records = int(lines[0][-1:]), lines[1:]
    bounds = [0] + ends + [len(records)]
    pieces = list_of(direction, [records[a:b] for a, b in zip(bounds, bounds[1:])])
    return b"".join(pieces[k] + b"\x1a" * (at % 2) for at, k in enumerate(order))


def any_pieces(lines, number):
    """Two, three or four pieces: where they end and their order goes by number."""
    n = 2 + number % 3
    orders = list(itertools.permutations(range(n)))
    ends = sorted((number * (3 + 2 * i)) % len(lines) for i in range(n - 1))
    return pieces_at(lines, ends, orders[number % len(orders)])


def kana_in_pieces(given, no):
    """02 (viii), of the joined file: its bytes are kept, or it is refused with its line."""
    def runs_with(item):
        return [[raw(PATIENT) + raw(item)], [MEMO], [DATE, "601,x,"]]

    orders = list(itertools.permutations(range(3)))
    for label, item in ONE_SCRIPT:
        runs = runs_with(item)
        whole = to_provider(*itertools.chain(*runs))
        given("kana, " + label, whole + b"\x1a", whole, in_buffers)
        for order in orders:
            given("kana, %s, order %d%d%d" % (label, *order),
                  b"".join(list_of(2, runs)[k] for k in order), whole)
        given("kana, %s, 1A behind each" % label, b"\x1a".join(list_of(2, runs)[::-1]) + b"\x1a",
              whole, in_buffers)
    for label, item in MIXED:
        runs = runs_with(item)
        enough = len(to_provider(*itertools.chain(*runs)))
        for order in orders:
            no("mixed kana, %s, order %d%d%d" % (label, *order),
               b"".join(list_of(2, runs)[k] for k in order), "no 11 2", room=enough)
        for room in (0, enough - 1, enough, enough + 5):
            no("mixed kana, %s, 1A behind each, room %d" % (label, room),
               b"\x1a".join(list_of(2, runs)[::-1]) + b"\x1a", "no 11 2", room=room)
    # A record 1 that may not stand where it does has 11 first, with the joined file's line.
    bad = named("すずきタロウ")
    for label, direction, runs, answer in [
        ("in line 5", 2, [[PATIENT, MEMO], [MEMO], [bad]], "no 11 5"),
        ("in line 3", 2, [[PATIENT], [bad, MEMO], [DATE]], "no 11 3"),
        ("in line 3, direction 1", 1, [["2,1,x,2"], [bad], [DATE, HOSPITAL, ADVICE]], "no 11 3"),
        ("in line 6, direction 1", 1, [[DATE, HOSPITAL], [ADVICE, KEEPER], [bad]], "no 11 6"),
        ("in line 2, and 11 in line 3", 2, [[bad], ["2,7,x,2"], [DATE]], "no 11 2"),
        ("in line 4, and 5 in line 3", 2, [[PATIENT, "6"], [bad], [DATE]], "no 5 3"),
        ("good, but 13 in line 4", 2, [[PATIENT], [MEMO], [named("すずき")]], "no 13 4"),
    ]:
        for order in orders:
            no("mixed kana, %s, order %d%d%d" % (label, *order),
               b"".join(list_of(direction, runs)[k] for k in order), answer, room=100)
    # 2 and 19 come first.
    pieces = list_of(2, [[bad], [MEMO]])
    for label, content, answer in [
        ("a piece missing", pieces[0], "no 19 0"),
        ("a piece twice", b"".join(pieces + pieces[:1]), "no 19 0"),
        ("a line in front", b"x\r\n" + b"".join(pieces), "no 19 0"),
        ("1A twice", b"".join(pieces) + b"\x1a\x1a", "no 2 7"),
        ("x at the end", b"".join(pieces) + b"x", "no 2 7"),
        ("another ID", pieces[0] + list_of(2, [[bad], [MEMO]], b"0" * 14)[1], "no 19 0"),
    ]:
        no("mixed kana, " + label, content, answer, room=100)
    mixed_kana("join", len)


def two_cuttings(given, no):
    """02 (vii): "Pieces of two cuttings with one ID can be confused". With two IDs they are
    no set, whichever are taken and however they lie."""
    other = b"98765432109876"

    def both(runs, more):
        """The pieces of two cuttings, each with its ID."""
        return list_of(2, runs), list_of(2, more, other)

    # One piece for each k, from either cutting: of one file, and of two that differ.
    two = [[PATIENT], [MEMO]]
    three = [[PATIENT, "2,1,x,2"], [MEMO], [DATE, "601,x,"]]
    three_more = [["1,B,2,H010109,,,,,,,"], ["4,y,,2", MEMO], []]
    for label, runs, more in [("one file", two, two), ("one file", three, three),
                              ("two files", three, three_more)]:
        cuttings, n = both(runs, more), len(runs)
        for taken in itertools.product((0, 1), repeat=n):
            for order in itertools.permutations(range(n)):
                content = b"".join(cuttings[taken[k]][k] for k in order)
                name = "two cuttings of %s, %s in order %s" % (
                    label, "".join("AB"[one] for one in taken), "".join(str(k + 1) for k in order))
                if len(set(taken)) == 1:
                    given(name, content, to_provider(*itertools.chain(*(runs, more)[taken[0]])))
                else:
                    no(name, content, "no 19 0", room=150)
    # The same pieces, had the two cuttings one ID: a file that nobody cut.
    confused = [list_of(2, three)[0], list_of(2, three_more)[1], list_of(2, three)[2]]
    given("two cuttings with one ID are confused", b"".join(confused),
          to_provider(*three[0], *three_more[1], *three[2]))

    # IDs that differ in one digit.
    for at in range(14):
        near = changed_id(at, ord("0") + (ID[at] - ord("0") + 5) % 10)
        mixed = [list_of(2, two)[0], list_of(2, two, near)[1]]
        no("two cuttings, IDs that differ at %d" % (at + 1), b"".join(mixed), "no 19 0", room=150)
        no("two cuttings, IDs that differ at %d, turned, 1A" % (at + 1),
           b"\x1a".join(mixed[::-1]) + b"\x1a", "no 19 0", room=0)

    # All of one and some of the other; all of both; numbers of pieces that differ.
    first, second = both(three, three_more)
    pair = list_of(2, two, other)
    for label, content in [
        ("all of both", first + second), ("all of both, turned", second[::-1] + first[::-1]),
        ("all of both, in turn", [one for ones in zip(first, second) for one in ones]),
        ("all of one and the first of the other", first + second[:1]),
        ("the last of one and all of the other", first[2:] + second),
        ("all of one twice and one of the other", first + first + second[1:2]),
        ("3 of one and 2 of the other", first + pair),
        ("2 of one and 3 of the other", pair + first),
        ("two of 3 and one of 2", first[:2] + pair[1:]),
        ("one of 3 and one of 2", first[:1] + pair[1:]),
        ("one of 2 and two of 3", pair[:1] + first[1:]),
        ("one piece of each", first[:1] + second[1:2]), ("piece 1 of each", first[:1] + second[:1]),
        ("one whole file and a cutting", [to_provider(PATIENT, MEMO)] + first),
    ]:
        no("two cuttings, " + label, b"".join(content), "no 19 0", room=300)
        no("two cuttings, %s, 1A, no buffer" % label, b"\x1a".join(content), "no 19 0", room=0)
    # One strange piece among ten, wherever it lies.
    ten = [[PATIENT]] + [["4,%d,,2" % k] for k in range(2, 11)]
    first, second = both(ten, ten)
    for k in range(10):
        mixed = first[:k] + second[k : k + 1] + first[k + 1 :]
        no("two cuttings, piece %d of 10 is strange" % (k + 1), b"".join(mixed), "no 19 0")
        no("two cuttings, piece %d of 10 is strange and lies last" % (k + 1),
           b"".join(first[:k] + first[k + 1 :] + second[k : k + 1]), "no 19 0")


def seen_apart(n):
    """Runs for n pieces of which no two are the same: record 1, then a memo with k each."""
    return [[ONE]] + [["4,%d,,2" % k] for k in range(2, n + 1)]


def whole_of(runs):
    return to_provider(*itertools.chain(*runs))


def both_ways(label, pieces):
    return [(label, pieces), (label + ", reversed", pieces[::-1])]


def few_pieces(given):
    """Sets: five pieces in all orders, nine with the first and the last at each place."""
    five = list_of(2, seen_apart(5))
    for order in itertools.permutations(range(5)):
        given("looking, order %d%d%d%d%d" % order, b"".join(five[k] for k in order),
              whole_of(seen_apart(5)))
    # The piece that is looked for first, and the one that is looked for last, at each place.
    for k, at in itertools.product((0, 8), range(9)):
        pieces = list_of(2, seen_apart(9))
        rest = pieces[:k] + pieces[k + 1 :]
        for label, others in both_ways("looking, %d of 9 at place %d" % (k + 1, at + 1), rest):
            given(label, b"".join(others[:at] + [pieces[k]] + others[at:]),
                  whole_of(seen_apart(9)), in_buffers if at in (0, 8) else accepted)


def wrong_sets(no_set):
    """Two to six pieces with each k twice, missing, too many, out of range and foreign."""
    for n in range(2, 7):
        runs = seen_apart(n)
        pieces, whole = list_of(2, runs), whole_of(runs)
        # Other pieces with the same k; and pieces of which only the first has a record.
        others = list_of(2, [["4,other,,2"]] * n)
        empty = list_of(2, [[ONE]] + [[]] * (n - 1))

        def in_place(label, at, piece, among=pieces):
            """This piece in place of one of the set: in order, reversed."""
            changed = among[:at] + [piece] + among[at + 1 :]
            for name, laid in both_ways("looking, n %d, %s of %d" % (n, label, at + 1), changed):
                no_set(name, laid, whole)

        def too_many(label, piece):
            for at in range(n + 1):
                no_set("looking, n %d and %s at place %d" % (n, label, at + 1),
                       pieces[:at] + [piece] + pieces[at:], whole)

        # n pieces with one k twice, so that another one is missing.
        for at, twice in itertools.permutations(range(n), 2):
            in_place("%d again in place" % (twice + 1), at, pieces[twice])
            in_place("another %d in place" % (twice + 1), at, others[twice])
            # Taken for the missing one, it would give the right bytes.
            in_place("%d without records again in place" % (twice + 1), at, empty[twice], empty)
        for at in range(n):
            name = "looking, n %d, none is %d" % (n, at + 1)
            for label, laid in both_ways(name, pieces[:at] + pieces[at + 1 :]):
                no_set(label, laid, whole)
            for k in (0, n + 1, at + 1 + 256, 999):
                in_place("k %d in place" % k, at, one_piece(2, runs[at], n, k))
            for label, piece in [
                ("another ID", one_piece(2, runs[at], n, at + 1, changed_id(13, ord("5")))),
                ("another direction", one_piece(1, runs[at], n, at + 1)),
                ("one more as n", one_piece(2, runs[at], n + 1, at + 1)),
                ("one less as n", one_piece(2, runs[at], n - 1, at + 1)),
            ]:
                in_place(label + " in place", at, piece)
                if n < 5:
                    too_many("%d with %s" % (at + 1, label), piece)
            if n < 6:
                too_many("%d again" % (at + 1), pieces[at])
                too_many("another %d" % (at + 1), others[at])
        for k in (0, n + 1):
            too_many("k %d" % k, one_piece(2, [MEMO], n, k))


def spelled_k(given, no_set):
    """k is a value: 7, 07 and 007 are one."""
    runs = seen_apart(10)
    pieces, whole = list_of(2, runs), whole_of(runs)
    rest = pieces[:6] + pieces[7:]
    for k, at in itertools.product(("07", "007"), range(10)):
        seventh = one_piece(2, runs[6], 10, k)
        given("looking, k %s at place %d" % (k, at + 1),
              b"".join(rest[:at] + [seventh] + rest[at:]), whole)
        no_set("looking, 10 pieces and another %s at place %d" % (k, at + 1),
               pieces[:at] + [seventh] + pieces[at:], whole)
        if at != 6:
            no_set("looking, k %s and 7, none is %d" % (k, at + 1),
                   pieces[:at] + [seventh] + pieces[at + 1 :], whole)
    for n, first, last in [(9, "01", "9"), (9, "1", "09"), (9, "001", "009"), (10, "001", "010"),
                           (99, "01", "099"), (99, "001", "99")]:
        runs = seen_apart(n)
        pieces = list_of(2, runs)
        pieces[0], pieces[-1] = one_piece(2, runs[0], n, first), one_piece(2, runs[-1], n, last)
        for label, laid in both_ways("looking, k %s to %s" % (first, last), pieces):
            given(label, b"".join(laid), whole_of(runs))
    for digits in ("%02d", "%03d"):
        laid = [one_piece(2, run, 10, digits % k) for k, run in enumerate(seen_apart(10), 1)]
        given("looking, ten pieces reversed, k as %s" % digits, b"".join(laid[::-1]), whole,
              in_buffers)


def jumping(pieces, step):
    """Every so many-th, modulo their number."""
    return [pieces[at * step % len(pieces)] for at in range(len(pieces))]


def many_pieces(given, no_set):
    """Counts of pieces around 64 and 256, and 999."""
    for n in (63, 64, 65, 255, 256, 257):
        runs = seen_apart(n)
        pieces, whole, label = list_of(2, runs), whole_of(runs), "looking, %d pieces" % n
        for name, laid in both_ways(label, pieces) + [(label + ", shuffled", jumping(pieces, 23))]:
            given(name, b"".join(laid), whole)
        no_set(label + ", the last is 1 again", pieces[:-1] + pieces[:1], whole)
        no_set(label + ", the first is the last again", pieces[-1:] + pieces[1:], whole)
        if n < 255:
            given(label + ", 1 last", b"".join(pieces[1:] + pieces[:1]), whole)
            no_set(label + ", one short", pieces[:-1], whole)
            no_set(label + ", reversed, one short", pieces[:0:-1], whole)
            no_set(label + " and the last again", pieces + pieces[-1:], whole)
            no_set(label + " and 1 in front again", pieces[:1] + pieces, whole)
    # Values of k that are one in a byte.
    runs = seen_apart(300)
    pieces, whole = list_of(2, runs), whole_of(runs)
    for k, twice in [(1, 257), (257, 1), (44, 300), (300, 44)]:
        no_set("looking, 300 pieces, %d again and no %d" % (twice, k),
               pieces[: k - 1] + [pieces[twice - 1]] + pieces[k:], whole)

    runs = [[ONE]] + [["4,%03d,,2" % k] for k in range(2, 1000)]
    pieces, whole = list_of(2, runs), whole_of(runs)
    for label, laid in [
        ("reversed", pieces[::-1]), ("shuffled", jumping(pieces, 371)),
        ("999 first", pieces[-1:] + pieces[:-1]), ("1 last", pieces[1:] + pieces[:1]),
        ("reversed, then 999", pieces[-2::-1] + pieces[-1:]),
    ]:
        given("looking, 999 pieces, " + label, b"".join(laid), whole)
    for label, laid in [
        ("the last is 1 again", pieces[:-1] + pieces[:1]),
        ("the last is 998 again", pieces[:-1] + pieces[-2:-1]),
        ("the first is 998 again and 999 is none", pieces[-2:-1] + pieces[:-1]),
        ("the last is 999 again and 1 is none", pieces[1:] + pieces[-1:]),
        ("reversed, the last is 2 again", pieces[:0:-1] + pieces[1:2]),
        ("reversed, 500 is 501 again", pieces[:499:-1] + pieces[500:501] + pieces[498::-1]),
    ]:
        no_set("looking, 999 pieces, " + label, laid, whole)
    no_set("looking, 998 pieces of 999, reversed, no 999", pieces[-2::-1], whole)
    no_set("looking, 998 pieces of 999, no 1", pieces[1:], whole)
    no_set("looking, 1000 pieces of 999, 999 again in front", pieces[-1:] + pieces, whole)


def memos_of(size, letter="x"):
    """Records 4 of so many bytes in all, at least 8; their line ends count."""
    while size:
        one = size if size <= 407 else min(407, size - 8)
        yield "4," + letter * (one - 7) + ",,2"
        size -= one


def three_runs(size):
    """Runs of so many bytes of records: record 1, and two that are about as long."""
    half = (size - 22) // 2
    return [[ONE], list(memos_of(half, "y")), list(memos_of(size - 22 - half, "z"))]


def large_pieces(given, no, no_set):
    """19 for a missing k before 1 for the joined file; the joined file at its limit."""
    for where, at in (("first", 0), ("last", 2)):
        # Line 1, record 1, a short record, and the rest in one piece.
        runs = [[ONE], [MEMO], []]
        runs[at] += memos_of(65537 - 13 - 22 - 8)
        pieces = list_of(2, runs)
        label = "looking, joined file of 65537 bytes, the large piece %s" % where
        for name, laid in both_ways(label, pieces):
            no(name, b"".join(laid), "no 1 0", room=100)
        no_set(label + ", 2 is none", [pieces[0], pieces[2]], b"")
        no_set(label + ", 2 again and not the other", [pieces[at], pieces[1], pieces[1]], b"")
        runs[at][-1] = runs[at][-1].replace("xx", "x", 1)
        given("looking, joined file of 65536 bytes, the large piece %s" % where,
              b"".join(list_of(2, runs)[::-1]), whole_of(runs))
    runs = three_runs(65536 - 13)
    laid = b"".join(jumping(list_of(2, runs), 2))
    accepted("join", "looking, joined file of 65536 bytes, exactly", laid, "65536",
             whole_of(runs), spare=0)
    no("looking, joined file of 65536 bytes, one short", laid, "no 20 0", room=65535)

    # The large pieces are found, and another one is looked for in vain.
    y, z = (list(memos_of(33000, letter)) for letter in "yz")
    for k, ks in [(3, (1, 2, 2)), (2, (3, 1, 3)), (1, (2, 3, 3))]:
        no_set("looking, two large pieces and no %d" % k,
               [one_piece(2, run, 3, k) for run, k in zip([[ONE] + y, z, [MEMO]], ks)], b"")
    no_set("looking, a large piece twice", [one_piece(2, y, 2, 1)] * 2, b"")


def faults_by_k(given, no):
    """Faults of the joined file by k, whichever way its pieces lie: in another order the
    same records are a file."""
    group = [PATIENT, DATE]
    for label, runs, answer in [
        ("13", [[PATIENT], [DATE], [MEMO]], "no 13 4"),
        ("14", [group + [DOCTOR], [drug()], [DOCTOR]], "no 14 7"),
        ("15", [group, [drug(2)], [drug(1)]], "no 15 4"),
        ("16", [[PATIENT], ["5,20160410,1"], [DATE]], "no 16 4"),
        ("11", [[PATIENT, MEMO], ["4,x,7,2"], ["4,x,8,2"]], "no 11 4"),
    ]:
        enough = len(whole_of(runs))
        for order in itertools.permutations(range(3)):
            content = b"".join(list_of(2, runs)[k] for k in order)
            for room in (0, enough - 1, enough, enough + 5):
                no("looking, %s by k, order %d%d%d, room %d" % (label, *order, room), content,
                   answer, room=room)
    good = [group, [drug(1)], [drug(2)]]
    for order in itertools.permutations(range(3)):
        given("looking, RPs by k, order %d%d%d" % order,
              b"".join(list_of(2, good)[k] for k in order), whole_of(good), in_buffers)


def lengths_around(given, no, no_set):
    """Inputs and joined files of 2,048 and 16,384 bytes, one less and one more."""
    for size in (2047, 2048, 2049, 16383, 16384, 16385):
        label = "looking, %d bytes" % size
        for end in (b"", b"\x1a"):
            content = to_provider(ONE, *memos_of(size - 35 - len(end)))
            name = label + " in one piece" + (" with 1A" if end else "")
            given(name, content + end, content)
            # The pieces without records are 37 bytes each.
            runs = three_runs(size - 3 * 37 - 3 * len(end))
            pieces = [piece + end for piece in list_of(2, runs)]
            name = label + " in three pieces" + (" with 1A" if end else "")
            assert len(b"".join(pieces)) == size == len(content + end)
            given(name, b"".join(pieces[::-1]), whole_of(runs))
        no_set(label + " in three pieces, 3 again", [pieces[2], pieces[0], pieces[2]], b"")
        runs = three_runs(size - 13)
        laid = b"".join(jumping(list_of(2, runs), 2))
        assert len(whole_of(runs)) == size
        given(label + " once joined", laid, whole_of(runs),
              in_buffers if size < 3000 else accepted)
        if size == 16384:
            no(label + " once joined, one short", laid, "no 20 0", room=size - 1)
        # The last line of the file, in the piece that lies second.
        no(label + " and 11 in the last line", laid.replace(b"z,,2\r\n911", b"z,,7\r\n911"),
           "no 11 %d" % whole_of(runs).count(b"\n"), room=size)


def looking_for_pieces(given, no):
    """02 (iv): "Answers are as today, for every order in which the pieces lie"."""
    rooms = itertools.cycle((5, 0, -1, None))

    def no_set(label, pieces, whole):
        """19, with a buffer that is by turns longer than the file, as long, one short, none."""
        more = next(rooms)
        no(label, b"".join(pieces), "no 19 0",
           room=0 if more is None else max(0, len(whole) + more))

    few_pieces(given)
    wrong_sets(no_set)
    spelled_k(given, no_set)
    many_pieces(given, no_set)
    large_pieces(given, no, no_set)
    faults_by_k(given, no)
    lengths_around(given, no, no_set)


def join():
    def given(label, content, result, each=accepted):
        each("join", label, content, "%d" % len(result), result)

    def no(label, content, answer, **rest):
        refused("join", label, content, answer, **rest)

    memo = MEMO.encode()

    # One piece without a 911: the file as it is, but for the 1Ah.
    given("37 bytes", SMALL, SMALL[:-1], in_buffers)
    given("36 bytes", SMALL[:-1], SMALL[:-1], in_buffers)
    given("items that look like days", ALIKE, ALIKE, in_buffers)
    for one in itertools.chain(*DAYS[::4]):
        given("every day is %s" % one, every_day(one), every_day(one))
    given("postal codes with hyphen", every_postal_code("105-0004"),
          every_postal_code("105-0004"))
    given("every RP is 001", every_value("001", "005"), every_value("001", "005"))
    no("only line 1", b"JAHISTC04,2\r\n", "no 14 2")
    no("only line 1 and 1A", b"JAHISTC04,2\r\n\x1a", "no 14 2")

    # Two pieces.
    first, second = list_of(2, [[PATIENT], [MEMO]])
    both = to_provider(PATIENT, MEMO)
    given("two pieces", first + second, both, in_buffers)
    given("two pieces, turned", second + first, both, in_buffers)
    given("direction 1",
          b"".join(list_of(1, [[DATE, HOSPITAL], [ADVICE]])), to_patient(DATE, HOSPITAL, ADVICE))
    for ident in (b"0" * 14, b"9" * 14):
        given("ID %s" % ident.decode(),
              b"".join(list_of(2, [[PATIENT], [MEMO]], ident)), both)
    # n and k by value.
    for n, m in itertools.product(("2", "02", "002"), repeat=2):
        for k, l in [("1", "2"), ("01", "02"), ("001", "2"), ("1", "002")]:
            given("n %s %s, k %s %s" % (n, m, k, l),
                  one_piece(2, [MEMO], m, l) + one_piece(2, [PATIENT], n, k), both)
    ten = [[PATIENT]] + [["4,%d,,2" % k] for k in range(2, 11)]
    for digits in ("%d", "%02d", "%03d"):
        content = b"".join(one_piece(2, run, 10, digits % k) for k, run in enumerate(ten, 1))
        given("ten pieces, written " + digits, content, to_provider(*itertools.chain(*ten)))

    # 15-106 3.2.10: its two pieces are example 4.
    parts = [check_case("3.2.10, piece 1"), check_case("3.2.10, piece 2")]
    given("3.2.10", b"".join(parts), check_case("example 4"), in_buffers)
    given("3.2.10, turned", b"".join(parts[::-1]), check_case("example 4"), in_buffers)

    # All orders of three and four pieces; a 1Ah behind any of three.
    three = [[PATIENT, "2,1,x,2"], [MEMO], [DATE, "601,x,"]]
    joined = to_provider(*itertools.chain(*three))
    for order in itertools.permutations(range(3)):
        for ends in itertools.product((b"", b"\x1a"), repeat=3):
            content = b"".join(list_of(2, three)[k] + end for k, end in zip(order, ends))
            given("order %d%d%d, 1A %d%d%d" % (*order, *map(len, ends)), content, joined)
    four = [[PATIENT], [], [MEMO, "4,20160411,,2"], [DATE]]
    joined = to_provider(*itertools.chain(*four))
    for order in itertools.permutations(range(4)):
        content = [list_of(2, four)[k] for k in order]
        given("order %d%d%d%d" % order, b"".join(content), joined)
        given("order %d%d%d%d, 1A" % order, b"\x1a".join(content) + b"\x1a", joined)
    given("all records in the last piece",
          b"".join(list_of(2, [[], [], [PATIENT, MEMO]])), both)
    given("all records in the first piece",
          b"".join(list_of(2, [[PATIENT, MEMO], [], []])), both)
    no("no records at all", b"".join(list_of(2, [[], [], []])), "no 14 2")

    # 19: a line before the first piece, or no piece.
    for label, line in [
        ("an empty line", b""), ("x", b"x"), ("a record", memo), ("a 911", b"911," + ID + b",2,1"),
        ("another version", b"JAHISTC03,2"), ("direction 3", b"JAHISTC04,3"),
        ("small letters", b"jahistc04,2"), ("a final space", b"JAHISTC04,2 "),
        ("a final comma", b"JAHISTC04,2,"), ("no direction", b"JAHISTC04"), ("FF", b"\xff"),
    ]:
        no("%s before two pieces" % label, line + b"\r\n" + first + second, "no 19 0")
        no("%s before a file" % label, line + b"\r\n" + both, "no 19 0")
        no("%s alone" % label, line + b"\r\n", "no 19 0")
        no("%s alone, no buffer" % label, line + b"\r\n", "no 19 0", room=0)
    no("two empty lines", b"\r\n\r\n", "no 19 0")

    # 19: the 911 of a piece. `mark` stands in piece 1 and, with k 2, in piece 2.
    def marks(label, line):
        """Piece 1 with this last line: beside a good piece 2, alone, with room."""
        no("piece 1 has " + label, file(2, PATIENT, line) + second, "no 19 0")
        no("piece 1 of two lies last and has " + label, second + file(2, PATIENT, line),
           "no 19 0", room=100)
        no("the only piece has " + label, file(2, PATIENT, line), "no 19 0")

    for items in ["", ",", ",%s", ",%s,2", ",%s,2,", ",%s,,1", ",,2,1", ",%s,2,1,", ",%s,2,1,1",
                  ",,,", ",%s,,", ",,,,,,", ",%s;2;1"]:
        line = "911" + (items % ID.decode() if "%s" in items else items)
        marks("the line " + line, line)
    for label, ident in [
        ("13 digits", "1234567890123"), ("15 digits", "123456789012345"),
        ("a letter", "1234567890123a"), ("a space", "1234567890123 "),
        ("a first space", " 2345678901234"), ("a sign", "-2345678901234"),
        ("no digits", ""), ("a slash", "1234567890123/"), ("a colon", "1234567890123:"),
        ("7 wide digits", "１２３４５６７"), ("14 wide digits", "１２３４５６７８９０１２３４"),
    ]:
        no("ID of %s in both" % label,
           b"".join(list_of(2, [[PATIENT], [MEMO]], raw(ident))), "no 19 0")
        no("ID of %s in piece 2" % label,
           first + one_piece(2, [MEMO], 2, 2, raw(ident)), "no 19 0")
    no("ID of FF in both", b"".join(list_of(2, [[PATIENT], [MEMO]], b"\xff" * 14)), "no 19 0")
    for n in ["0", "00", "000", "1", "01", "001", "1000", "0002", "0000", "2a", "a", "+2", "-2",
              " 2", "2 ", "2.0", "２", "999", "3", "20", "9999999999999999999999"]:
        no("n %s in both" % raw(n).hex(),
           one_piece(2, [PATIENT], n, 1) + one_piece(2, [MEMO], n, 2), "no 19 0")
        no("n %s in piece 1" % raw(n).hex(), one_piece(2, [PATIENT], n, 1) + second, "no 19 0")
        no("n %s, one piece" % raw(n).hex(), one_piece(2, [PATIENT, MEMO], n, 1), "no 19 0")
    for k in ["0", "00", "000", "3", "1", "001", "0002", "002a", "a", "+2", " 2", "2 ", "2.0",
              "２", "1002", "999", "258", "18446744073709551618"]:
        no("k %s in piece 2" % raw(k).hex(), first + one_piece(2, [MEMO], 2, k), "no 19 0")
    no("k 0 and 1", one_piece(2, [PATIENT], 2, 0) + one_piece(2, [MEMO], 2, 1), "no 19 0")

    # 19: which pieces there are.
    one, two, last = list_of(2, three)
    for label, content in [
        ("piece 1 of 2 alone", first), ("piece 2 of 2 alone", second),
        ("piece 1 twice", first + first), ("piece 2 twice", second + second),
        ("piece 1 twice and piece 2", first + second + first),
        ("both pieces twice", first + second + first + second),
        ("1 and 2 of 3", one + two), ("1 and 3 of 3", one + last), ("2 and 3 of 3", two + last),
        ("1, 1 and 3 of 3", one + one + last), ("1, 2 and 2 of 3", one + two + two),
        ("1, 2, 3 and 3 of 3", one + two + last + last),
        ("3 beside two of 2", first + second + one_piece(2, [MEMO], 2, 3)),
        ("two of 2 and one of 3", first + second + last),
        ("n 2 and 3", first + one_piece(2, [MEMO], 3, 2)),
        ("n 3 and 2", one_piece(2, [PATIENT], 3, 1) + second),
        ("n 2, 3 and 3", one_piece(2, [PATIENT], 2, 1) + two + last),
        ("n 3, 3 and 2", one + two + one_piece(2, [DATE], 2, 3)),
        ("another ID", first + one_piece(2, [MEMO], 2, 2, b"12345678901235")),
        ("another ID, first digit", first + one_piece(2, [MEMO], 2, 2, b"22345678901234")),
        ("another ID in the last of 3", one + two + one_piece(2, [DATE], 3, 3, b"0" * 14)),
        ("another line 1", first + one_piece(1, [MEMO], 2, 2)),
        ("another line 1 in piece 1", one_piece(1, [PATIENT], 2, 1) + second),
        ("another line 1 in the last of 3", one + two + one_piece(1, [DATE], 3, 3)),
        ("a piece without a 911 behind", first + second + to_provider(MEMO)),
        ("a piece without a 911 between", first + to_provider(MEMO) + second),
        ("a piece without a 911 in front", to_provider(PATIENT) + first + second),
        ("a piece without a 911 for piece 1", to_provider(PATIENT) + second),
        ("a piece without a 911 for piece 2", first + to_provider(MEMO)),
        ("only line 1 for piece 2", first + to_provider()),
        ("two pieces without a 911", to_provider(PATIENT) + to_provider(MEMO)),
        ("a file twice", both + both), ("a file with 1A twice", SMALL + SMALL),
        ("line 1 twice", to_provider() + both),
        ("two 911s in piece 1", file(2, PATIENT, b"911," + ID + b",2,1",
                                     b"911," + ID + b",2,1") + second),
        ("the 911s of both in one", file(2, PATIENT, MEMO, b"911," + ID + b",2,1",
                                         b"911," + ID + b",2,2")),
        ("a 911 in the middle too", file(2, b"911", PATIENT, b"911," + ID + b",2,1") + second),
        ("a 911 that is not last", file(2, PATIENT, b"911," + ID + b",2,1", MEMO) + second),
        ("a 911 that is first", file(2, b"911," + ID + b",2,1", PATIENT) + second),
        ("an empty line behind the 911", first + b"\r\n" + second),
        ("an empty line behind the last 911", first + second + b"\r\n"),
        ("a record behind the last 911", first + second + memo + b"\r\n"),
        ("a file with a 911 inside", to_provider(PATIENT, "911", MEMO)),
        ("a file with a 911 of no items", to_provider(PATIENT, "911")),
    ]:
        no(label, content, "no 19 0", room=100)
        no(label + ", no buffer", content, "no 19 0", room=0)

    # Lines that are no record 911: 5, in the joined file.
    for line in ["9110", "9110,%s,2,1", "0911,%s,2,1", " 911,%s,2,1", "911 ,%s,2,1", "911;%s;2;1",
                 "91,%s,2,1", "９１１,%s,2,1", "JAHISTC04,3", "JAHISTC03,2", "JAHISTC04,2 "]:
        line = line % ID.decode() if "%s" in line else line
        shown_line = raw(line).hex()[:24]
        no("a file with the line %s" % shown_line, to_provider(PATIENT, line), "no 5 3")
        no("piece 1 with the line %s" % shown_line,
           second + one_piece(2, [PATIENT, line], 2, 1), "no 5 3")
        no("piece 2 with the line %s" % shown_line,
           one_piece(2, [MEMO, line], 2, 2) + first, "no 5 4")

    # 2, judged over all of the input before 19. Each piece here has three lines.
    end = b"\x1a"
    for label, content, line in [
        ("empty input", b"", 1), ("1A alone", end, 1), ("1A twice alone", end + end, 1),
        ("1A in front", end + first + second, 1), ("1A in front of a file", end + both, 1),
        ("1A twice between", first + end + end + second, 4),
        ("1A twice at the end", first + second + end + end, 7),
        ("1A twice behind a file", both + end + end, 4),
        ("1A on a line of its own", first + end + b"\r\n" + second, 4),
        ("1A on a last line of its own", first + second + end + b"\r\n", 7),
        ("1A and line end before the end", both + end + b"\r\n", 4),
        ("1A behind line 1", b"JAHISTC04,2\r\n" + end + raw(PATIENT) + b"\r\n", 2),
        ("1A in line 1", b"JAHISTC04,2" + end + b"\r\n" + raw(PATIENT) + b"\r\n", 1),
        ("1A in the second line 1", first + second.replace(b",2\r\n", b",2\x1a\r\n", 1), 4),
        ("1A in an item", first + second.replace(b"x", b"x\x1a"), 5),
        ("1A at a line's end", first + second.replace(b"4,x,,2", b"4,x,,2\x1a"), 5),
        ("1A at a line's start", first + second.replace(b"4,x,,2", b"\x1a4,x,,2"), 5),
        ("1A before a 911", first + second.replace(b"911", b"\x1a911"), 6),
        ("1A in a 911", first.replace(b",2,1", b",2,1\x1a") + second, 3),
        ("1A for a line end", first[:-2] + end + second, 3),
        ("1A between 0D and 0A", first[:-1] + end + b"\n" + second, 3),
        ("1A for the last line end", first + second[:-2] + end, 6),
        ("1A before a line that is no line 1", first + end + b"JAHISTC04,3\r\n" + second, 4),
        ("1A before a longer line 1", first + end + second.replace(b",2\r\n", b",2 \r\n", 1), 4),
        ("1A before a shorter line 1", first + end + b"JAHISTC04,\r\n" + second, 4),
        ("1A before a line 1 cut short", first + end + b"JAHISTC04,2", 4),
        ("1A before a line 1 with 0D", first + end + b"JAHISTC04,2\r", 4),
        ("1A before a line 1 with 0A", first + end + b"JAHISTC04,2\n", 4),
        ("1A before a record", first + end + memo + b"\r\n" + second, 4),
        ("1A before an x at the end", first + end + b"x", 4),
        ("1A behind a line before the pieces", b"x\r\n" + end + first + second, 2),
        ("1A behind a line and no piece", b"x\r\n" + end, 2),
        ("1A behind an empty line", b"\r\n" + end, 2),
        ("no last line end", first + second[:-2], 6),
        ("0D for the last line end", first + second[:-1], 6),
        ("0A for the last line end", first + second[:-2] + b"\n", 6),
        ("x at the end", first + second + b"x", 7),
        ("0D at the end", first + second + b"\r", 7),
        ("0A at the end", first + second + b"\n", 7),
        ("00 at the end", first + second + b"\x00", 7),
        ("0D inside", first + second.replace(b"x", b"x\r"), 5),
        ("0A inside", first + second.replace(b"x", b"x\n"), 5),
        ("0D 0D 0A", first.replace(b"\r\n", b"\r\r\n") + second, 1),
        ("0D 0A 0A", first + b"\n" + second, 4),
        ("0A for all line ends", (first + second).replace(b"\r\n", b"\n"), 1),
        ("0D for all line ends", (first + second).replace(b"\r\n", b"\r"), 1),
        ("line 1 without its end", b"JAHISTC04,2", 1),
        ("2 behind 19: a line in front", b"x\r\n" + first + second + b"x", 8),
        ("2 behind 19: one piece of 2", first + b"x", 4),
        ("2 behind 19: no piece", b"x\r\nx", 2),
        ("2 behind 19: 911 not last", first + memo + b"\r\n" + second.replace(b"x", b"\n"), 6),
        ("2 behind 5", to_provider(PATIENT, "6", b"4,\r,,2"), 4),
        ("2 behind 4", first.replace(b",A,", b",\xff,") + second + end + end, 7),
        ("2 twice, the first line", first.replace(b",A,", b",\r,") + second + b"x", 2),
    ]:
        no("2, " + label, content, "no 2 %d" % line, room=100)
    no("2, no buffer", first + second + b"x", "no 2 7", room=0)
    given("1A between and at the end", first + end + second + end, both, in_buffers)
    no("1A and another direction", first + end + one_piece(1, [MEMO], 2, 2), "no 19 0")
    no("1A between two line 1s", b"JAHISTC04,2\r\n\x1aJAHISTC04,2\r\n", "no 19 0")

    # Faults of the joined file, with its lines: whichever way the pieces lie.
    lines = [b"JAHISTC04,2", raw(PATIENT), memo, memo, b"4,x,7,2", raw(DATE), b"6"]
    for order in itertools.permutations(range(3)):
        no("11 in line 5, order %d%d%d" % order, pieces_at(lines, [2, 4], order), "no 11 5")
    no("14 at the end", b"".join(list_of(2, [[PATIENT, DATE], [DOCTOR]])), "no 14 5")
    no("14 at the end, turned", b"".join(list_of(2, [[PATIENT, DATE], [DOCTOR]])[::-1]),
       "no 14 5")
    no("14 without record 1", b"".join(list_of(2, [[DATE], [PATIENT]])), "no 14 2")
    no("16 across pieces",
       b"".join(list_of(2, [[PATIENT, "5,20160410,1"], ["5,20160411,1"]])), "no 16 4")
    given("dates in order once joined",
          b"".join(list_of(2, [[PATIENT, "5,20160411,1"], ["5,20160410,1"]])[::-1]),
          to_provider(PATIENT, "5,20160411,1", "5,20160410,1"))
    no("4 in piece 2", one_piece(2, [b"4,\xff,,2"], 2, 2) + first, "no 4 3")
    no("a fault and no buffer", one_piece(2, [b"4,\xff,,2"], 2, 2) + first, "no 4 3", room=0)
    by_answer = check_cases()
    for number in [4, 5] + list(range(7, 17)):
        usable = [(label, whole_lines(content), answer)
                  for label, content, answer in by_answer[number] if whole_lines(content)]
        for at, (label, lines, answer) in enumerate(spread(usable, 8)):
            no("%d in one piece, %s" % (number, label), b"\r\n".join(lines) + b"\r\n", answer)
            no("%d in pieces, %s" % (number, label), any_pieces(lines, at), answer)
    usable = [(label, whole_lines(content)) for label, content, _ in by_answer["ok"]]
    for at, (label, lines) in enumerate(spread([one for one in usable if one[1]], 120)):
        given("check's %s" % label, any_pieces(lines, at), b"\r\n".join(lines) + b"\r\n")

    # What cutting makes of the examples, from the last piece to the first.
    for label in EXAMPLE_LABELS:
        content = check_case(label)
        whole = content.replace(b"19580303", b"S330303").replace(b"105-0004", b"1050004")
        for capacity in (len(whole) - 1, 180):
            cutting = oracle.pieces_of(content, capacity, ID)
            given("%s, cut for %d" % (label, capacity), b"".join(cutting[::-1]), whole)

    # 02 (i): the pieces that cutting makes of the notebook of 2019, in any order, are
    # its canonical file.
    for order in itertools.permutations(range(3)):
        content = [pieces_ending(REIWA, [3, 7])[k] for k in order]
        given("a file in R, order %d%d%d" % order, b"".join(content), to_provider(*REIWA))
    given("a file in R, seven pieces",
          b"".join(pieces_ending(REIWA, [1, 2, 4, 5, 7, 8])[::-1]), to_provider(*REIWA))
    # Pieces that someone else cut keep their bytes, whatever the spelling.
    for label, lines in SPELLINGS[:2]:
        given(label + ", whole", to_provider(*lines), to_provider(*lines))
        for ends in ([8], [3, 7], [2, 5, 6]):
            given("%s, %d pieces" % (label, len(ends) + 1),
                  b"".join(pieces_ending(lines, ends)[::-1]), to_provider(*lines), in_buffers)
    mixed = OLDER_PHONE[:3] + WESTERN[3:6] + REIWA[6:]
    given("pieces in three spellings", b"".join(pieces_ending(mixed, [3, 6])[::-1]),
          to_provider(*mixed))
    # Days across pieces.
    for days, answer in [("R010501 H310501", None), ("H310501 R010501", None),
                         ("R010501 20190430", None), ("20190430 R010501", "no 16 4"),
                         ("H310430 H310501", "no 16 4"), ("R010501 20190502", "no 16 4"),
                         ("R010430 H310430", "no 11 3"), ("R010501 R010430", "no 11 4")]:
        groups = ["5,%s,1" % one for one in days.split()]
        content = b"".join(list_of(2, [[PATIENT, groups[0]], [groups[1]]])[::-1])
        if answer:
            no("groups of %s in pieces" % days, content, answer, room=100)
        else:
            given("groups of %s in pieces" % days, content, to_provider(PATIENT, *groups))

    two_cuttings(given, no)
    kana_in_pieces(given, no)
    looking_for_pieces(given, no)

    # 999 pieces; each but one without a record.
    def many(n, count):
        return [one_piece(2, [ONE] if k == 500 else [], n, k) for k in range(1, count + 1)]

    given("999 pieces", b"".join(many(999, 999)), SMALL_CANONICAL)
    given("999 pieces, turned, 1A behind each", b"\x1a".join(many(999, 999)[::-1]) + b"\x1a",
          SMALL_CANONICAL)
    no("998 pieces of 999", b"".join(many(999, 998)), "no 19 0")
    no("999 pieces, the last of another ID",
       b"".join(many(999, 998) + [one_piece(2, [], 999, 999, b"12345678901235")]), "no 19 0")
    no("999 pieces and one of them again", b"".join(many(999, 999) + many(999, 1)), "no 19 0")
    no("1000 pieces of 1000", b"".join(many(1000, 1000)), "no 19 0")
    long = "4,xxxxx,,2"
    given("999 pieces with a record each",
          b"".join(list_of(2, [[ONE]] + [[long]] * 998)), to_provider(ONE, *[long] * 998))

    # 1: of the input, and of the joined file.
    no("1, 131073 bytes", b"\r\n" * 65536 + b"\r", "no 1 0")
    no("131072 bytes of line ends", b"\r\n" * 65536, "no 19 0")
    full = check_case("65536 bytes")
    given("65536 bytes and 1A", full + b"\x1a", full)
    no("65536 bytes, one short", full, "no 20 0", room=65535)
    lines = full.split(b"\r\n")[:-1]
    given("65536 bytes in three pieces", pieces_at(lines, [50, 99], (2, 0, 1)), full)
    longer = check_case("65537 bytes")
    no("1, joined file of 65537 bytes", longer, "no 1 0")
    no("1, joined file of 65537 bytes in pieces",
       pieces_at(longer.split(b"\r\n")[:-1], [50, 99], (2, 0, 1)), "no 1 0")
    # Number 1 of the joined file comes before what its lines have.
    no("1 before 11 in the joined file",
       pieces_at(longer.replace(b",1,19890108", b",7,19890108").split(b"\r\n")[:-1], [50], (0, 1)),
       "no 1 0")


# =============================================================================
# Writing
# =============================================================================

FAMILIES = {"index": index, "canonical": canonical, "cut": cut, "join": join}


def shown(call, after):
    """The buffer as the program writes it."""
    if call == "index":
        if len(after) <= SHOWN:
            return "".join(" %d" % n for n in after)
        after_bytes = b"".join(struct.pack(">I", n) for n in after)
    else:
        if len(after) <= SHOWN:
            return " " + after.hex() if after else ""
        after_bytes = after
    return " %d %08x" % (len(after), zlib.adler32(after_bytes))


def packed(one):
    assert len(one.label) < 100 and len(one.ident) < 256 and len(one.content) <= MOST_BYTES
    assert one.room <= (MOST_NUMBERS if one.call == "index" else MOST_BYTES)
    assert len(one.used) <= MOST_USED
    return make_cases.packed(
        LETTERS[one.call], one.label, one.content, one.room, one.capacity, one.ident, one.used)


def call_frames():
    """Label, frame and answer of each case. make_cases.all_cases() has run."""
    for call in ANSWERED:
        FAMILIES[call]()
    frames, disagreements = [], 0
    for one in FRAMES:
        found = by_oracle(one.call, one.content, one.capacity, one.ident, one.used,
                          before(one.call, one.room))
        assert len(one.after) == one.room, one.label
        if found != (one.answer, one.after):
            disagreements += 1
            print("%s: here %s, oracle %s%s" % (
                one.label, one.answer, found[0],
                "" if found[1] == one.after else ", another buffer"), file=sys.stderr)
        frames.append((one.label, packed(one), "%s;%s" % (one.answer, shown(one.call, one.after))))
    assert disagreements == 0
    for call in ANSWERED:
        mine = [one for one in FRAMES if one.call == call]
        print("%s: %d cases, %d bytes, %d ok, %d with the oracle's answer" % (
            call, len(mine), sum(len(one.content) for one in mine),
            sum(one.answer.startswith("ok") for one in mine), sum(one.told for one in mine)))
    return frames
