"""Writes the input and the expected output of the test program `cases`.

    python3 make_cases.py OUT_DIR

writes OUT_DIR/cases/stdin and OUT_DIR/cases/stdout: the cases of check, which
stand here, those of the other calls, which stand in call_cases.py, and the
table of all pairs of bytes.

The answers of the cases are written here by hand, one by one or by the way a
family is built. The oracle has to agree with each; it does not make them.
Lines of cases are given without line end, as text (encoded to Shift_JIS) or
as bytes.
"""

import collections
import datetime
import itertools
import os
import re
import sys
import unicodedata

import oracle

CASES = []


def case(label, content, answer):
    CASES.append((label, content, answer))


def raw(line):
    return line if isinstance(line, bytes) else line.encode("shift_jis")


def file(direction, *lines):
    """Line 1 of the direction, then these lines, each with its line end."""
    head = "JAHISTC04,%d" % direction
    return b"".join(raw(line) + b"\r\n" for line in (head,) + lines)


def to_patient(*lines):
    return file(1, *lines)


def to_provider(*lines):
    return file(2, *lines)


# --- one good line of each record -------------------------------------------

PATIENT = "1,A,1,19890108,,,,,,,"
DATE = "5,20160411,1"
PHARMACY = "11,x,13,4,,,,,1"
HOSPITAL = "11,x,13,1,,,,,1"
DENTIST = "11,x,13,3,,,,,1"
PRESCRIBER = "51,x,13,1,,1"
DOCTOR = "55,x,,1"
ADVICE = "411,x,30,1"
KEEPER = "701,x,x,x,,,1"


def drug(rp=1):
    return "201,%s,x,1,x,1,,1" % rp


def note(number, rp=1):
    """281, 291, 311 or 391"""
    return "%d,%s,x,1" % (number, rp)


def usage(rp=1, name="x", form="5"):
    unit = {"1": "日分", "3": "回分", "6": "日分", "7": "日分"}.get(form, "調剤")
    return "301,%s,%s,1,%s,%s,1,,1" % (rp, name, unit, form)


NUMBERS = [1, 2, 3, 4, 5, 11, 15, 51, 55, 201,
           281, 291, 301, 311, 391, 401, 411, 501, 601, 701]

GOOD = {
    1: PATIENT, 2: "2,1,x,2", 3: "3,x,,,2", 4: "4,x,,2", 5: DATE, 11: PHARMACY,
    15: "15,x,,1", 51: PRESCRIBER, 55: DOCTOR, 201: drug(), 281: note(281),
    291: note(291), 301: usage(), 311: note(311), 391: note(391), 401: "401,x,1",
    411: ADVICE, 501: "501,x,1", 601: "601,x,", 701: KEEPER,
}

# The least records before a record, so that it may stand (direction 2).
BEFORE_2 = {
    1: [], 2: [1], 3: [1], 4: [1], 5: [1], 11: [1, 5], 15: [1, 5], 51: [1, 5],
    55: [1, 5], 201: [1, 5], 281: [1, 5, 201], 291: [1, 5, 201],
    301: [1, 5, 201], 311: [1, 5, 201, 301], 391: [1, 5, 201], 401: [1, 5],
    411: [1, 5], 501: [1, 5], 601: [1, 5], 701: [1],
}


def alone(number, line):
    """A small direction 2 file around this line; its line number; its ok."""
    before = BEFORE_2[number]
    after = [201] if number == 55 else []  # a 55 at the end would be 14
    numbers = before + [number] + after
    lines = [GOOD[n] for n in before] + [line] + [GOOD[n] for n in after]
    good = "ok %d %d %d" % (len(numbers), numbers.count(5), numbers.count(201))
    return to_provider(*lines), len(before) + 2, good


def whole(direction, number, line):
    """The file with every record once, good in both directions."""
    lines = [line if n == number else GOOD[n] for n in NUMBERS]
    return file(direction, *lines), NUMBERS.index(number) + 2, "ok 20 1 1"


def given(label, made, refusal):
    """A case around one line: the number of its refusal, or None."""
    content, line, good = made
    case(label, content, "no %d %d" % (refusal, line) if refusal else good)


def joined(number, items):
    return b",".join([str(number).encode()] + [raw(item) for item in items])


# =============================================================================
# The paper's own cases
# =============================================================================


def of_the_paper():
    small = to_provider(PATIENT)
    case("37 bytes", small + b"\x1a", "ok 1 0 0")
    case("36 bytes", small, "ok 1 0 0")
    case("35 bytes, canonical", to_provider("1,A,1,H010108,,,,,,,"), "ok 1 0 0")
    assert len(small + b"\x1a") == 37
    case("20 memos", to_provider(PATIENT, *["4,x,,2"] * 20), "ok 21 0 0")

    # 8Ah 81h 40h: a kanji and @. 81h 40h after a one-byte character: a space.
    tail = [
        ("8A 81 40 at the end", b"\x8a\x81\x40", "ok 2 0 0"),
        ("81 81 40 at the end", b"\x81\x81\x40", "ok 2 0 0"),
        ("x 8A 81 40 at the end", b"x\x8a\x81\x40", "ok 2 0 0"),
        ("x 81 40 at the end", b"x\x81\x40", "no 10 3"),
        ("8A 81 81 40 at the end", b"\x8a\x81\x81\x40", "no 10 3"),
        ("81 8A 81 40 at the end", b"\x81\x8a\x81\x40", "no 10 3"),
        ("81 40 alone", b"\x81\x40", "no 10 3"),
        ("81 40 40", b"\x81\x40\x40", "no 10 3"),
        ("8A 81 20", b"\x8a\x81\x20", "no 10 3"),
    ]
    for label, item, answer in tail:
        case(label, to_provider(PATIENT, b"4," + item + b",,2"), answer)

    # 8341h is one character, so the name is not mixed.
    names = [
        ("name 8341", b"\x83\x41", "ok 1 0 0"),
        ("name 8341 8341", b"\x83\x41\x83\x41", "ok 1 0 0"),
        ("name 8341 A", b"\x83\x41\x41", "no 11 2"),
        ("name A 8341", b"\x41\x83\x41", "no 11 2"),
        ("name A A", b"AA", "ok 1 0 0"),
        ("name B1 B1", b"\xb1\xb1", "ok 1 0 0"),
        ("name A B1", b"A\xb1", "ok 1 0 0"),
        ("name B1 8341", b"\xb1\x83\x41", "no 11 2"),
        ("name wide space inside", "鈴木　太郎".encode("shift_jis"), "ok 1 0 0"),
        ("name narrow space inside", "鈴木 太郎".encode("shift_jis"), "no 11 2"),
        ("name narrow, space inside", "ｽｽﾞｷ ﾀﾛｳ".encode("shift_jis"), "ok 1 0 0"),
        ("name narrow, wide space", "ｽｽﾞｷ　ﾀﾛｳ".encode("shift_jis"), "no 11 2"),
    ]
    for label, item, answer in names:
        case(label, to_provider(b"1," + item + b",1,19890108,,,,,,,"), answer)
        # A kana name has no kanji.
        for name, read in (("鈴木", "スズキ"), ("太郎", "タロウ")):
            item = item.replace(raw(name), raw(read))
        case(label + " (kana)",
             to_provider(b"1,A,1,19890108,,,,,,," + item), answer)

    # A doctor in group 1, an RP without one in group 2.
    case("55 in group 1 only",
         to_provider(PATIENT, DATE, DOCTOR, drug(), usage(),
                     DATE, drug(), usage()), "ok 8 2 2")
    case("55 in group 1 only, direction 1",
         to_patient(DATE, PHARMACY, PRESCRIBER, DOCTOR, drug(), usage(),
                    DATE, PHARMACY, PRESCRIBER, drug(), usage()), "ok 11 2 2")


DAYS_GOOD = """
M060101 18730101 19120729 M450729 19120730 T010730 19261224 T151224 19261225
S011225 S640107 19890107 19890108 H010108 20160411 H280411 20871231 H991231
20160229 H280229 20000229 H120229 M450430 T051130 S330303 S391231 18731231
19001231 20161231 H281231 20160131 20160630 M060131 T010731 S020101 20840229
20190430 H310430 20190501 H310501 R010501 H310502 R010502 R010531 H311231 R011231
H320101 R020101 20200229 H320229 R020229 H360229 R060229 H960229 R660229 H991230
R691130 R691230 R691231
""".split()

DAYS_BAD = """
M051231 18721231 M450730 T010729 T151225 S011224 S640108 H010107 20880101
H290229 20170229 19000229 18990229 20160431 20161301 20160001 20160100 20160132
H281301 H280001 H280100 H280132 H280431 M000101 T000101 S000101 H000101 M010101
M990101 T160101 S650101 S990101 00000000 99999999 h280411 Q010501 A280411
2016041 201604111 H28041 H2804110 2016/4/1 2016-4-1 H28.4.1 20160a11 Hx80411
160411 H 20160411H
R010430 R010429 R010331 R010101 R000501 R001231 R000101 R700101 R700501 R990501
R691232 H991232 H000501 S940430 S940501 T990501 M990501 S991231 T991231 M991231
R010229 R030229 R040229 R050229 H330229 H310229 R680229 R690229 20190229 20210229
R010500 R010532 R010631 R010001 R011301 R020230 R691131 r010501 r691231 Q691231
R01051 R0105010 R1050101 R10501 R R01.5.1 R01/5/1 R010a01 Rx10501 R+10501 RR10501
20190501R R20190501 R2019051 HR10501 RH10501
""".split()

# 02 (i): the day before R, its first day and the next one, in every spelling that
# is read; first the one that is written.
CHANGE = [
    ["H310430", "20190430"],
    ["R010501", "20190501", "H310501"],
    ["R010502", "20190502", "H310502"],
]


def under(letter, before, day):
    """A day in the form of an era, whether or not it is one of its days."""
    return "%s%02d%02d%02d" % (letter.decode(), day.year - before, day.month, day.day)


def ends_of_eras():
    """Good and bad days from the rows of the oracle's table, so that a further
    row has its cases: the first and the last day that are read under each letter,
    and the days beside them, the year 0 and the small letter."""
    one, good, bad = datetime.timedelta(1), [], []
    for letter, (before, first, last) in oracle.ERAS.items():
        good += [under(letter, before, first), under(letter, before, last)]
        bad += [under(letter, before, first - one), under(letter, before, last + one),
                under(letter, first.year, first), under(letter, before, first).lower()]
    return good, bad


def dates():
    good, bad = ends_of_eras()
    for item in dict.fromkeys(DAYS_GOOD + good):
        case("birth " + item, to_provider("1,A,1,%s,,,,,,," % item), "ok 1 0 0")
    for item in dict.fromkeys(DAYS_BAD + bad):
        case("birth " + item, to_provider("1,A,1,%s,,,,,,," % item), "no 11 2")
    case("birth in wide digits", to_provider("1,A,1,２０１６０４１１,,,,,,,"), "no 11 2")
    case("birth with a wide H", to_provider("1,A,1,Ｈ280411,,,,,,,"), "no 11 2")
    case("birth with a wide R", to_provider("1,A,1,Ｒ010501,,,,,,,"), "no 11 2")
    case("birth with R and wide digits", to_provider("1,A,1,R０１０５０１,,,,,,,"), "no 11 2")

    # Order of groups, each a list of days. The first group stands in line 3.
    orders = [
        ("one day twice", "20160411 20160411", "ok 3 2 0"),
        ("older", "20160411 20160410", "ok 3 2 0"),
        ("newer", "20160410 20160411", "no 16 4"),
        ("western then era", "20160411 H280411", "ok 3 2 0"),
        ("era then western", "H280411 20160411", "ok 3 2 0"),
        ("era, newer western", "H280411 20160412", "no 16 4"),
        ("western, newer era", "20160411 H280412", "no 16 4"),
        ("era, older western", "H280411 20160410", "ok 3 2 0"),
        ("newer by a month", "20160331 20160401", "no 16 4"),
        ("newer by a year", "20151231 H280101", "no 16 4"),
        ("older by a year", "H280101 20151231", "ok 3 2 0"),
        ("third newer than second", "20160411 20160401 20160402", "no 16 5"),
        ("third is as second", "20160411 20160401 H280401", "ok 4 3 0"),
        ("second and third newer", "20160401 20160402 20160403", "no 16 4"),
        ("M to T", "M450729 T010730", "no 16 4"),
        ("T to M", "T010730 M450729", "ok 3 2 0"),
        ("T to S", "T151224 S011225", "no 16 4"),
        ("S to T", "S011225 T151224", "ok 3 2 0"),
        ("S to H", "S640107 H010108", "no 16 4"),
        ("H to S", "H010108 S640107", "ok 3 2 0"),
        ("last to first", "H991231 M060101", "ok 3 2 0"),
        ("first to last", "M060101 20871231", "no 16 4"),
        ("M is western", "M450729 19120729", "ok 3 2 0"),
        ("western is M", "19120729 M450729", "ok 3 2 0"),
        ("T is western", "T010730 19120730", "ok 3 2 0"),
        ("western is T", "19120730 T010730", "ok 3 2 0"),
        ("end of T is western", "T151224 19261224", "ok 3 2 0"),
        ("S is western", "S011225 19261225", "ok 3 2 0"),
        ("western is S", "19261225 S011225", "ok 3 2 0"),
        ("H is western, 2087", "H991231 20871231", "ok 3 2 0"),
        ("western is H, 2087", "20871231 H991231", "ok 3 2 0"),
        ("M is western, 1873", "M060101 18730101", "ok 3 2 0"),
        ("western is M, 1873", "18730101 M060101", "ok 3 2 0"),
        # H is read on after R has begun: letters and years do not tell which is newer.
        ("R falls to H and to S", "R010501 H310430 S640107", "ok 4 3 0"),
        ("S rises to R", "S640107 R010501", "no 16 4"),
        ("first to R", "M060101 R691231", "no 16 4"),
        ("R to first", "R691231 M060101", "ok 3 2 0"),
        ("one day in three spellings", "H310501 20190501 R010501 H310501", "ok 5 4 0"),
        ("down through the change", "R010502 H310502 H310501 R010501 20190430 H310430", "ok 7 6 0"),
        ("third rises to R", "R010502 H310430 R010501", "no 16 5"),
        ("third rises under H", "R010502 20190430 H310501", "no 16 5"),
        ("a later H after R", "R010501 H320101", "no 16 4"),
        ("a later H before R", "H320101 R010501", "ok 3 2 0"),
        ("H of 2087 after R", "R010501 H990101", "no 16 4"),
        ("H of 2087 before R", "H990101 R010501", "ok 3 2 0"),
        ("year's end in H, then R", "H311231 R020101", "no 16 4"),
        ("R, then year's end in H", "R020101 H311231", "ok 3 2 0"),
        ("R is H, 2020", "R020101 H320101", "ok 3 2 0"),
        ("H is R, 2087", "H991231 R691231", "ok 3 2 0"),
        ("R is H is western, 2087", "R691231 H991231 20871231", "ok 4 3 0"),
        ("R, newer H in 2087", "R691230 H991231", "no 16 4"),
        ("H, newer R in 2087", "H991230 R691231", "no 16 4"),
    ]
    for label, days, answer in orders:
        lines = ["5,%s,1" % one for one in days.split()]
        case("groups: " + label, to_provider(PATIENT, *lines), answer)
    # Around the change of 2019: every spelling after every other. Only the days tell.
    for earlier, later in itertools.product(range(len(CHANGE)), repeat=2):
        for one, next_one in itertools.product(CHANGE[earlier], CHANGE[later]):
            case("groups: %s then %s" % (one, next_one),
                 to_provider(PATIENT, "5,%s,1" % one, "5,%s,1" % next_one),
                 "no 16 4" if later > earlier else "ok 3 2 0")
    case("groups: H and R, newer, direction 1",
         to_patient("5,H310430,1", HOSPITAL, ADVICE, "5,R010501,1", HOSPITAL, ADVICE), "no 16 5")
    case("groups: H and R, equal, direction 1",
         to_patient("5,H310501,1", HOSPITAL, ADVICE, "5,R010501,1", HOSPITAL, ADVICE), "ok 6 2 0")
    case("groups: newer, direction 1",
         to_patient("5,20160410,1", HOSPITAL, ADVICE,
                    "5,20160411,1", HOSPITAL, ADVICE), "no 16 5")
    case("groups: equal, direction 1",
         to_patient("5,20160411,1", HOSPITAL, ADVICE,
                    "5,H280411,1", HOSPITAL, ADVICE), "ok 6 2 0")
    # Only groups are in order; other days are not.
    case("days of 3 and 4 in any order",
         to_provider(PATIENT, "3,x,20160412,20160411,2", "4,x,20160410,2",
                     "4,x,20160413,2", "5,20160401,1"), "ok 5 1 0")


# =============================================================================
# Lines
# =============================================================================


def line_ends():
    small = to_provider(PATIENT)
    memo = b"4,x,,2"
    for label, content, answer in [
        ("empty input", b"", "no 2 1"),
        ("1A alone", b"\x1a", "no 2 1"),
        ("CRLF alone", b"\r\n", "no 3 1"),
        ("CRLF and 1A", b"\r\n\x1a", "no 3 1"),
        ("two CRLF", b"\r\n\r\n", "no 3 1"),
        ("0D alone", b"\r", "no 2 1"),
        ("0A alone", b"\n", "no 2 1"),
        ("0A 0D", b"\n\r", "no 2 1"),
        ("0D 0D 0A", b"\r\r\n", "no 2 1"),
        ("0D 0A 0A", b"\r\n\n", "no 3 1"),
        ("one letter", b"J", "no 2 1"),
        ("line 1 without its end", b"JAHISTC04,2", "no 2 1"),
        ("line 1 with 0D only", b"JAHISTC04,2\r", "no 2 1"),
        ("line 1 with 0A only", b"JAHISTC04,2\n", "no 2 1"),
        ("line 1 with 1A, no end", b"JAHISTC04,2\x1a", "no 2 1"),
        ("line 1 with 1A before its end", b"JAHISTC04,2\x1a\r\n", "no 2 1"),
        ("1A before line 1", b"\x1a" + small, "no 2 1"),
        ("CRLF before line 1", b"\r\n" + small, "no 3 1"),
        ("only line 1, direction 1", b"JAHISTC04,1\r\n", "no 14 2"),
        ("only line 1, direction 2", b"JAHISTC04,2\r\n", "no 14 2"),
        ("only line 1 and 1A, direction 1", b"JAHISTC04,1\r\n\x1a", "no 14 2"),
        ("only line 1 and 1A, direction 2", b"JAHISTC04,2\r\n\x1a", "no 14 2"),
        ("only line 1 and 1A twice", b"JAHISTC04,2\r\n\x1a\x1a", "no 2 2"),
        ("only line 1 and an empty line", b"JAHISTC04,2\r\n\r\n", "no 5 2"),
        ("no final line end", small[:-2], "no 2 2"),
        ("final 0D only", small[:-1], "no 2 2"),
        ("final 0A only", small[:-2] + b"\n", "no 2 2"),
        ("1A after a line without end", small[:-2] + b"\x1a", "no 2 2"),
        ("1A twice", small + b"\x1a\x1a", "no 2 3"),
        ("1A and line end", small + b"\x1a\r\n", "no 2 3"),
        ("1A, line end and 1A", small + b"\x1a\r\n\x1a", "no 2 3"),
        ("line end twice", small + b"\r\n", "no 5 3"),
        ("line end twice and 1A", small + b"\r\n\x1a", "no 5 3"),
        ("0D after the last line", small + b"\r", "no 2 3"),
        ("0A after the last line", small + b"\n", "no 2 3"),
        ("space after the last line", small + b" ", "no 2 3"),
        ("00 after the last line", small + b"\x00", "no 2 3"),
        ("00 after 1A", small + b"\x1a\x00", "no 2 3"),
        ("bare 0D inside", small + b"4,x\rx,,2\r\n", "no 2 3"),
        ("bare 0A inside", small + b"4,x\nx,,2\r\n", "no 2 3"),
        ("1A inside", small + b"4,x\x1ax,,2\r\n", "no 2 3"),
        ("1A at a line's start", small + b"\x1a4,x,,2\r\n", "no 2 3"),
        ("1A at a line's end", small + b"4,x,,2\x1a\r\n", "no 2 3"),
        ("0A 0D for a line end", small + b"4,x,,2\n\r4,x,,2\r\n", "no 2 3"),
        ("0D 0D 0A for a line end", small + b"4,x,,2\r\r\n", "no 2 3"),
        ("0D 0A 0A for a line end", small + b"4,x,,2\r\n\n", "no 2 4"),
        ("0D 0A 0D 0A", small + b"\r\n4,x,,2\r\n", "no 5 3"),
        ("0D after a lead byte", small + b"4,x\x83\r,,2\r\n", "no 2 3"),
        ("line end after a lead byte", small + b"4,x\x83\r\n", "no 4 3"),
        ("all lines with 0A only", small.replace(b"\r\n", b"\n"), "no 2 1"),
        ("all lines with 0D only", small.replace(b"\r\n", b"\r"), "no 2 1"),
        ("record 2 of 3 with 0A only",
         small + memo + b"\n" + memo + b"\r\n", "no 2 3"),
    ]:
        case(label, content, answer)


def version_line():
    for label, line in [
        ("in lower case", b"jahistc04,1"), ("mixed case", b"JAHISTc04,1"),
        ("03", b"JAHISTC03,1"), ("05", b"JAHISTC05,2"), ("4", b"JAHISTC4,1"),
        ("with a final space", b"JAHISTC04,2 "), ("with a space", b"JAHISTC04, 2"),
        ("with a first space", b" JAHISTC04,2"), ("with a final comma", b"JAHISTC04,2,"),
        ("without direction", b"JAHISTC04"), ("empty direction", b"JAHISTC04,"),
        ("direction 0", b"JAHISTC04,0"), ("direction 3", b"JAHISTC04,3"),
        ("direction 12", b"JAHISTC04,12"), ("direction 01", b"JAHISTC04,01"),
        ("in quotes", b'"JAHISTC04",2'), ("with a mark before", b"\xef\xbb\xbfJAHISTC04,2"),
        # A broken character makes line 1 another, never 4.
        ("with FF", b"JAHISTC04,2\xff"), ("with a lone lead", b"JAHISTC04,\x83"),
        ("with 00", b"JAHISTC04,2\x00"), ("with 80 alone", b"\x80"),
        ("a record", raw(PATIENT)), ("911", b"911,12345678901234,2,1"),
        ("in wide letters", "ＪＡＨＩＳＴＣ０４，２".encode("shift_jis")),
    ]:
        case("line 1 " + label, line + b"\r\n" + raw(PATIENT) + b"\r\n", "no 3 1")
    # 2 and 3 in one line
    case("2 before 3", b"JAHISTC03,2\n\r\n" + raw(PATIENT) + b"\r\n", "no 2 1")
    case("2 before 3, 1A", b"JAHISTC04\x1a,2\r\n" + raw(PATIENT) + b"\r\n", "no 2 1")
    case("line 1 twice", to_provider("JAHISTC04,2", PATIENT), "no 5 2")


def byte_limit():
    # 36 bytes, then 160 memos of 407 and one of 380.
    base = to_provider(PATIENT, *["4," + "x" * 400 + ",,2"] * 160)
    full = base + b"4," + b"x" * 373 + b",,2\r\n"
    assert len(full) == 65536
    case("65536 bytes", full, "ok 162 0 0")
    case("65536 bytes and 1A", full + b"\x1a", "no 1 0")
    one_less = base + b"4," + b"x" * 372 + b",,2\r\n"
    case("65535 bytes and 1A", one_less + b"\x1a", "ok 162 0 0")
    case("65537 bytes", base + b"4," + b"x" * 374 + b",,2\r\n", "no 1 0")
    case("65537 bytes of FF", b"\xff" * 65537, "no 1 0")
    case("65536 bytes of x", b"x" * 65536, "no 2 1")
    case("65600 bytes of CRLF", b"\r\n" * 32800, "no 1 0")


def characters():
    head = to_provider(PATIENT)
    for label, item, answer in [
        ("00", b"\x00", "no 4 3"), ("09", b"x\x09x", "no 4 3"),
        ("1F", b"x\x1fx", "no 4 3"), ("7F", b"x\x7fx", "no 4 3"),
        ("80", b"x\x80x", "no 4 3"), ("A0", b"x\xa0x", "no 4 3"),
        ("FD", b"x\xfdx", "no 4 3"), ("FF", b"x\xffx", "no 4 3"),
        ("20 inside", b"x x", "ok 2 0 0"), ("7E", b"x~x", "ok 2 0 0"),
        ("5C", b"x\\x", "ok 2 0 0"), ("A1", b"\xa1", "ok 2 0 0"),
        ("DF", b"\xdf", "ok 2 0 0"),
        ("817F", b"\x81\x7f", "no 4 3"), ("817E", b"\x81\x7e", "ok 2 0 0"),
        ("8180", b"\x81\x80", "ok 2 0 0"), ("81FC", b"\x81\xfc", "ok 2 0 0"),
        ("81FD", b"\x81\xfd", "no 4 3"), ("813F", b"\x81\x3f", "no 4 3"),
        ("81A1, the replacement", b"\x81\xa1", "ok 2 0 0"),
        ("81AC, row 2 cell 14", b"\x81\xac", "ok 2 0 0"),
        ("81AD, row 2 cell 15", b"\x81\xad", "no 4 3"),
        ("8740, row 13", b"\x87\x40", "no 4 3"),
        ("889F, row 16 cell 1", b"\x88\x9f", "ok 2 0 0"),
        ("889E, row 15", b"\x88\x9e", "no 4 3"),
        ("9872, row 47 cell 51", b"\x98\x72", "ok 2 0 0"),
        ("9873, row 47 cell 52", b"\x98\x73", "no 4 3"),
        ("EAA2, row 84 cell 4", b"\xea\xa2", "ok 2 0 0"),
        ("EAA3, row 84 cell 5", b"\xea\xa3", "no 4 3"),
        ("EAA4, row 84 cell 6", b"\xea\xa4", "no 4 3"),
        ("ED40", b"\xed\x40", "no 4 3"), ("F040", b"\xf0\x40", "no 4 3"),
        ("FA40", b"\xfa\x40", "no 4 3"),
        ("UTF-8 E38182", "あ".encode(), "no 4 3"),
        # Row 79 cell 86, then ACh: another text, but of good characters.
        ("UTF-8 E896AC", "薬".encode(), "ok 2 0 0"),
        ("lead before the comma", b"x\x83", "no 4 3"),
    ]:
        case("character " + label, head + b"4," + item + b",,2\r\n", answer)
    case("character FF in the number", head + b"4\xff,x,,2\r\n", "no 4 3")
    case("character FF in the last item", head + b"4,x,,2\xff\r\n", "no 4 3")
    case("lone lead at the line's end", head + b"4,x,,2\x83\r\n", "no 4 3")


def numbers():
    head = to_provider(PATIENT)
    for name in ["", "0", "6", "01", "001", "1 ", " 1", "+1", "1.", "A", "10", "12",
                 "50", "200", "202", "281 ", "300", "0201", "910", "912", "9110",
                 "0911", "91", "1000", "４", "２０１", "4;x", "-4", '"4"']:
        line = raw(name) + b",x,,2\r\n"
        case("number '%s'" % name.encode("shift_jis").hex(), head + line, "no 5 3")
    case("unlisted number alone", head + b"6\r\n", "no 5 3")
    case("only a comma", head + b",\r\n", "no 5 3")
    case("only a space", head + b" \r\n", "no 5 3")
    case("empty line between records", head + b"\r\n4,x,,2\r\n", "no 5 3")

    for label, line in [("911", "911,12345678901234,2,1"), ("911 alone", "911"),
                        ("911 and a comma", "911,"), ("911 of ten items", "911,,,,,,,,,,"),
                        ("911 with bad items", "911, x,0,'y'")]:
        case(label, to_provider(PATIENT, line), "no 6 3")
        case(label + " first", to_provider(line, PATIENT), "no 6 2")
        case(label + ", direction 1", to_patient(DATE, PHARMACY, drug(), line), "no 6 5")
    case("911 after 701", to_provider(PATIENT, KEEPER, "911,1,2,1"), "no 6 4")
    case("911 between records", to_provider(PATIENT, "911,1,2,1", "4,x,,2"), "no 6 3")
    case("911 after 55", to_provider(PATIENT, DATE, DOCTOR, "911,1,2,1"), "no 6 5")

    for number in NUMBERS:
        good = raw(GOOD[number])
        given("%d, one item more" % number, alone(number, good + b","), 7)
        given("%d, one item fewer" % number,
              alone(number, good.rsplit(b",", 1)[0]), 7)
        given("%d, only its number" % number, alone(number, b"%d" % number), 7)
    case("wide comma is no comma", to_provider(PATIENT, "4,x，,2"), "no 7 3")


# =============================================================================
# Items
# =============================================================================

# Copied from 01, so that the families follow the paper and not the oracle; record
# 1's last item is 02 (viii)'s kana name, K.
PAPER = """
1: U40! {1,2}! D! P? N800? X13? N800? N20? W? K40?
2: {1,2,3,9}! N120! A!
3: N120! D? D? A!
4: N400! D? A!
5: D! A!
11: N120! F+ {1,3,4}+ C? P? N800? X13? A!
15: N40! N800? A!
51: N120! F+ {1,3}+ C? A!
55: N40! N80? A!
201: R! N120! Q! N12! {1,2,3,4,6}+ X13? A!
281: R! N100! A!
311: R! N100! A!
291: R! N400! A!
391: R! N400! A!
301: R! N100? R+ N100+ {1,2,3,4,5,6,7,9,10}+ {1,2}+ X16? A!
401: N400! A!
501: N400! A!
411: N400! {30,31,99}! A!
601: N400! D?
701: N40! N120! N800! D? D? A!
"""

ITEMS = {}
for _line in PAPER.split("\n"):
    if _line:
        _number, _rules = _line.split(": ")
        ITEMS[int(_number)] = [(rule[:-1], rule[-1]) for rule in _rules.split()]
assert sorted(ITEMS) == NUMBERS


def changed(number, at, item):
    """The good line of a record with its item `at` (from 0) changed."""
    items = GOOD[number].split(",")[1:]
    # A code needs a kind that has one, and a long unit needs no form.
    if (number, at) == (201, 5):
        items[4] = "2"
    if (number, at) == (301, 6):
        items[5] = "2"
    if (number, at) == (301, 3):
        items[4] = ""
    items[at] = item
    return joined(number, items)


WIDE = b"\x83\x41"  # its trail is an A


def every_item():
    """Empty, at the most bytes, one over: in the whole file, both directions."""
    for direction in (1, 2):
        for number in NUMBERS:
            for at, (kind, need) in enumerate(ITEMS[number]):
                where = "%d/%d item %d " % (direction, number, at + 1)

                # The empty item, in the good line as it is.
                items = GOOD[number].split(",")[1:]
                items[at] = ""
                refusal = 8 if need == "!" or need == "+" and direction == 1 else None
                if (number, at) == (301, 1):
                    refusal = 12  # direction 2, or an 11 with 4 and form 5
                given(where + "empty", whole(direction, number, joined(number, items)),
                      refusal)

                if kind[0] not in "NUKX":
                    continue
                most = int(kind[1:])
                # Direction 1 asks for a form, and no form has such a unit: the
                # length is good and the pair is not.
                free = None
                if (number, at, direction) == (301, 3, 1):
                    free = 12
                sizes = [
                    ("full", b"x" * most, free),
                    ("over", b"x" * (most + 1), 9),
                ]
                if kind[0] != "X":
                    assert most % 2 == 0
                    sizes += [
                        ("full, wide", WIDE * (most // 2), free),
                        ("over, wide", WIDE * (most // 2 + 1), 9),
                        ("over, wide and one", WIDE * (most // 2) + b"x", 9),
                    ]
                if kind[0] == "N":
                    sizes += [
                        ("full, mixed", b"x" + WIDE * (most // 2 - 1) + b"x", free),
                    ]
                for label, item, refusal in sizes:
                    line = changed(number, at, item)
                    if (number, at, direction) == (301, 3, 1):
                        line = line.replace(b",,1,,1", b",5,1,,1")
                    given(where + label, whole(direction, number, line), refusal)


def edges():
    """Spaces and quotes at the ends of every item."""
    for number in NUMBERS:
        for at, (kind, _) in enumerate(ITEMS[number]):
            where = "%d item %d " % (number, at + 1)
            if kind[0] in "NUKX":
                text = None if kind[0] != "X" else 11
                for label, item, refusal in [
                    ("20 first", b" x", 10), ("20 last", b"x ", 10),
                    ("20 alone", b" ", 10),
                    ("8140 first", b"\x81\x40" + WIDE, 10),
                    ("8140 last", WIDE + b"\x81\x40", 10),
                    ("in 22", b'"x"', 10), ("in 27", b"'x'", 10),
                    ("22 22", b'""', 10), ("27 27", b"''", 10),
                    ("22 alone", b'"', text), ("27 alone", b"'", text),
                    ("22 to 27", b"\"x'", text), ("27 to 22", b"'x\"", text),
                    ("22 first", b'"x', text), ("27 last", b"x'", text),
                ]:
                    given(where + label, alone(number, changed(number, at, item)), refusal)
            else:
                # The other kinds know only 8 and 11.
                good = {"A": b"1", "F": b"13", "C": b"1234567", "P": b"1050004",
                        "R": b"1", "W": b"1", "Q": b"1", "D": b"20160411",
                        "{": kind[1:].split(",")[0].strip("}").encode()}[kind[0]]
                for label, item in [
                    ("20 first", b" " + good), ("20 last", good + b" "),
                    ("8140 last", good + b"\x81\x40"), ("in 22", b'"' + good + b'"'),
                    ("20 alone", b" "), ("22 22", b'""'), ("long", good * 30),
                ]:
                    given(where + label, alone(number, changed(number, at, item)), 11)


def kinds():
    """Every kind with good and bad items, at each place where it stands."""
    lists = {
        "A": ("1 2 8 9", "0 3 4 5 6 7 01 11 10 x １"),
        "C": ("1234567 0000000 9999999", "123456 12345678 123456a 123-4567 １２３４５６７ -123456"),
        "P": ("1050004 105-0004 000-0000",
              "10-50004 1050-004 105-00040 105-004 105--004 105.0004 1050004- -1050004 "
              "105000 10500041 1o50004 １０５-０００４ 105ｰ0004 105-000４"),
        "F": (" ".join("%02d" % n for n in range(1, 48)),
              "00 48 49 50 99 1 9 013 001 0 1a a1 -1 １３"),
        "W": ("0 1 9 10 67 100 999 0.85 23.4 123.456 0.001 0.5 100.001 10.01 0.1",
              "00 01 000 001 1000 1.50 .5 5. 1.0 0.0 0.00 00.5 01.5 1.2345 1..2 1.2.3 -1 "
              "+1 1e2 a 0.850 1234.5 1.23x . １ 0. 1.000 999.9990 0.0001"),
        "Q": ("0 1 0.25 1.5 100 999999 123456.78901 0.00001 1500 100000 0.1 60",
              "1.50 .5 1000000 0.123456 00 01.5 01 1. 5.0 100.00000 0.0 0.250 1234567.1 "
              "-1 +1 1e2 a 1..5 1.5.5 . １ 1.5g 1/2 000001 0.000001"),
        "D": ("20160411 H280411 S640107 M060101 20190430 H310430 20190501 H310501 R010501 R691231",
              "20160431 S640108 20880101 M051231 h280411 R010430 R700101 r010501"),
    }
    for number in NUMBERS:
        for at, (kind, _) in enumerate(ITEMS[number]):
            where = "%d item %d is " % (number, at + 1)

            def each(item, refusal):
                shown = raw(item).decode("ascii", "backslashreplace")
                given(where + shown, alone(number, changed(number, at, item)), refusal)

            if kind in lists:
                for item in lists[kind][0].split():
                    each(item, None)
                for item in lists[kind][1].split():
                    each(item, 11)
            elif kind[0] == "{":
                values = kind[1:-1].split(",")
                for item in ["0", "1", "2", "3", "4", "5", "6", "7", "8", "9", "10", "11",
                             "30", "31", "32", "98", "99", "01", "x", "１"]:
                    if item not in values:
                        each(item, 11)
                    elif number not in (201, 301):  # those two: see pairs()
                        each(item, None)
            elif kind == "R" and not (number == 301 and at == 2):
                # The only RP has value 1.
                for item in ["1", "01", "001"]:
                    each(item, None)
                for item in ["2", "10", "010", "100", "999", "002"]:
                    each(item, 15)
                for item in ["0", "00", "000", "1000", "0001", "a", "1a", "-1", "+1", "1.0", "１"]:
                    each(item, 11)
    # A quantity is an R, too; form 1 leaves it free.
    for item, refusal in [("1", None), ("01", None), ("001", None), ("999", None),
                          ("28", None), ("100", None), ("0", 11), ("000", 11),
                          ("1000", 11), ("a", 11), ("0014", 11), ("1.5", 11)]:
        given("quantity " + item,
              alone(301, "301,1,x,%s,日分,1,1,,1" % item), refusal)

    # X, byte by byte (in the telephone number of record 1).
    good = b"ABCDEFGHIJKLMNOPQRSTUVWXYZabcdefghijklmnopqrstuvwxyz0123456789.-"
    for byte in list(range(0x20, 0x7F)) + list(range(0xA1, 0xE0)):
        line = b"1,A,1,19890108,,,0" + bytes([byte]) + b"0,,,,"
        refusal = 7 if byte == 0x2C else None if byte in good else 11
        given("X with %02X" % byte, alone(1, line), refusal)
    for label, item in [("a wide character", "０"), ("a wide hyphen", b"03\x81\x7c1"),
                        ("a kanji", "東京")]:
        given("X with " + label, alone(1, joined(1, ["A", "1", "19890108", "", "", item,
                                                    "", "", "", ""])), 11)


# =============================================================================
# Pairs
# =============================================================================

FORMS = ["1", "2", "3", "4", "5", "6", "7", "9", "10"]
UNITS_OF = {
    "1": ["日分"], "2": ["調剤"], "3": ["回分"], "4": ["調剤"], "5": ["調剤"],
    "6": ["日分", "回分"], "7": ["日分", "回分"], "9": ["調剤"], "10": ["調剤"],
}
ONLY_ONE = ["2", "4", "5", "9", "10"]
ROMAN = {"": "none", "調剤": "preparation", "日分": "days", "回分": "times", "x": "x"}


def pairs():
    # Code and kind: a code stands with the kinds from 2 on, and only there.
    for number, kind_list in [(201, ["", "1", "2", "3", "4", "6"]), (301, ["", "1", "2"])]:
        for kind in kind_list:
            for code in ["", "620004992"]:
                if number == 201:
                    line = "201,1,x,1,x,%s,%s,1" % (kind, code)
                else:
                    line = "301,1,x,1,調剤,5,%s,%s,1" % (kind, code)
                wrong = (code != "") != (kind in ("2", "3", "4", "6"))
                label = "%d kind %s, %s code" % (number, kind or "none", "a" if code else "no")
                given(label, alone(number, line), 12 if wrong else None)
                # Direction 1 asks for the kind.
                given(label + ", direction 1", whole(1, number, line),
                      8 if kind == "" else 12 if wrong else None)

    # Form, quantity, unit; nothing is asked without a form.
    for form in [""] + FORMS:
        for quantity in ["", "1", "01", "2", "10"]:
            for unit in ["", "調剤", "日分", "回分", "x"]:
                wrong = False
                if form in ONLY_ONE and quantity in ("2", "10"):
                    wrong = True
                if form != "" and unit != "" and unit not in UNITS_OF[form]:
                    wrong = True
                line = "301,1,x,%s,%s,%s,1,,1" % (quantity, unit, form)
                given("form %s, quantity %s, unit %s"
                      % (form or "none", quantity or "none", ROMAN[unit]),
                      alone(301, line), 12 if wrong else None)
                if form and quantity and unit and unit != "x":
                    given("form %s, quantity %s, unit %s, direction 1"
                          % (form, quantity, ROMAN[unit]),
                          whole(1, 301, line), 12 if wrong else None)
    for label, line in [
        ("unit with a tail", "301,1,x,1,調剤x,5,1,,1"),
        ("unit cut short", "301,1,x,1,調,5,1,,1"),
        ("unit twice", "301,1,x,1,調剤調剤,5,1,,1"),
        ("unit in other characters", "301,1,x,1,錠剤,5,1,,1"),
    ]:
        given(label, alone(301, line), 12)

    # The usage name in direction 1: 11 with 1, 3, 4; every form.
    for kind, institution in [("1", HOSPITAL), ("3", DENTIST), ("4", PHARMACY)]:
        for form in FORMS:
            for name in ["", "x"]:
                lines = [DATE, institution]
                if kind == "4":
                    lines.append(PRESCRIBER)
                lines += [drug(), usage(1, name, form)]
                good = "ok %d 1 1" % len(lines)
                wrong = kind == "4" and name == "" and form not in ("9", "10")
                case("usage %s, 11 with %s, form %s" % (name or "none", kind, form),
                     to_patient(*lines), "no 12 6" if wrong else good)
    # In direction 2 always, whatever the 11 and the form.
    for kind in ["none", "", "1", "3", "4"]:
        for form in ["", "1", "5", "9", "10"]:
            lines = [PATIENT, DATE]
            if kind != "none":
                lines.append("11,x,,%s,,,,,1" % kind)
            lines.append(drug())
            empty = "301,1,,,,%s,,,1" % form
            label = "direction 2, 11 with %s, form %s" % (kind or "empty", form or "none")
            case("no usage, " + label, to_provider(*lines, empty),
                 "no 12 %d" % (len(lines) + 2))
            case("usage, " + label, to_provider(*lines, empty.replace("1,,", "1,x,", 1)),
                 "ok %d 1 1" % (len(lines) + 1))


# =============================================================================
# Which refusal, where two are due
# =============================================================================


def two_faults():
    # In one line the lower number. (2 before 3 is with line 1, 3 before 4 too:
    # a broken character in line 1 is 3.)
    one_line = [
        ("2 before 4", b"4,x\xff\rx,,2", 2),
        ("2 before 5", b"6\n", 2),
        ("2 before 6", b"911\x1a", 2),
        ("2 before 7", b"4,x\r", 2),
        ("2 before 13", b"201,1,x,1,x,1,\n,1", 2),
        ("4 before 5", b"6,\xff", 4),
        ("4 before 5, in the number", b"\xff", 4),
        ("4 before 6", b"911,\xff", 4),
        ("4 before 6, row 13", b"911,\x87\x40", 4),
        ("4 before 7", b"4,\xff", 4),
        ("4 before 8", b"4,,\xff,2", 4),
        ("4 before 9", b"4," + b"x" * 401 + b",,\x80", 4),
        ("4 before 13", b"401,\xfd,1", 4),
        # 5 and 6: a line has one number. 5 and 7: an unlisted number has no
        # right count of items. So neither pair exists.
        ("6 before 7", b"911,1", 6),
        ("6 before 8", b"911,,,", 6),
        ("6 before 10", b"911, 1,2,1", 6),
        ("7 before 8", b"4,,2", 7),
        ("7 before 8, too many", b"4,,,,", 7),
        ("7 before 9", b"4," + b"x" * 401 + b",2", 7),
        ("7 before 10", b"4, x,2", 7),
        ("7 before 11", b"4,x,2016", 7),
        ("7 before 13", b"401,x", 7),
        # 8 and 9 cannot be one item's; of two items the left one speaks.
        ("8 left of 9", b"701,," + b"x" * 121 + b",x,,,1", 8),
        ("8 right of 9", b"701," + b"x" * 41 + b",,x,,,1", 9),
        ("9 before 10", b"4, " + b"x" * 400 + b",,2", 9),
        ("9 before 10, quotes", b'4,"' + b"x" * 400 + b'",,2', 9),
        ("9 before 10, wide space", b"4," + b"x" * 399 + b"\x81\x40,,2", 9),
        ("8 left of 10", b"701,, x,x,,,1", 8),
        ("10 left of 8", b"701, x,,x,,,1", 10),
        ("8 left of 11", b"4,,2016,2", 8),
        ("11 left of 8", b"4,x,2016,", 11),
        ("9 left of 11", b"4," + b"x" * 401 + b",2016,2", 9),
        ("10 left of 9", b"701, x," + b"x" * 121 + b",x,,,1", 10),
        ("9 left of 10", b"701," + b"x" * 41 + b", x,x,,,1", 9),
        ("10 left of 11", b"4,x ,2016,2", 10),
        ("11 left of 10", b"2,7,x ,2", 11),
        ("11 left of 9", b"2,7," + b"x" * 121 + b",2", 11),
        ("11 left of 11", b"2,7,x,7", 11),
        ("11 before 12", b"201,1,x,1,x,2,,7", 11),
        ("11 before 12, 301", b"301,1,x,1,x,5,1,,7", 11),
        ("11 before 12, code", b"301,1,x,1,,5,1,+,1", 11),
        ("9 before 12", b"201,1," + b"x" * 121 + b",1,x,2,,1", 9),
        ("8 before 12", b"201,1,x,1,x,2,,", 8),
        ("11 before 13", b"401,x,7", 11),
        ("8 before 13", b"401,,1", 8),
        ("12 before 13", b"301,1,x,1,x,5,1,,1", 12),
        ("12 before 13, code", b"201,1,x,1,x,2,,1", 12),
        ("12 before 13, usage", b"301,1,,,,,,,1", 12),
        ("13 alone", b"201,1,x,1,x,1,,1", 13),
        ("13 before 15", b"201,7,x,1,x,1,,1", 13),
    ]
    for label, line, refusal in one_line:
        case(label, to_provider(PATIENT, line), "no %d 3" % refusal)
    for label, line, refusal in [
        ("10 before 11, X", b"1,A,1,19890108,,,03 ,,,,", 10),
        ("10 before 11, X in quotes", b"1,A,1,19890108,,,'03',,,,", 10),
        ("10 before 11, X and 8140", b"1,A,1,19890108,,,\x81\x40,,,,", 10),
        ("10 before 11, U", b"1, \x83\x41,1,19890108,,,,,,,", 10),
        ("10 before 11, U and 8140", b"1,A\x81\x40,1,19890108,,,,,,,", 10),
        ("9 before 11, X", b"1,A,1,19890108,,,0123456789_abc,,,,", 9),
        ("9 before 11, U", b"1,x" + WIDE * 20 + b",1,19890108,,,,,,,", 9),
        ("9 before 10 and 11, U", b"1, " + WIDE * 20 + b",1,19890108,,,,,,,", 9),
        ("8 left of 9 in record 1", b"1,,1,19890108,," + b"x" * 801 + b",,,,,", 8),
        ("9 left of 8 in record 1", b"1," + b"x" * 41 + b",,19890108,,,,,,,", 9),
        ("11 left of 8 in record 1", b"1,x\x83\x41,,19890108,,,,,,,", 11),
    ]:
        case(label, to_provider(line), "no %d 2" % refusal)

    # 13 and 14: the 15 can't stand after an RP, which it closes without 301.
    case("13 before 14, at an RP",
         to_patient(DATE, PHARMACY, PRESCRIBER, drug(), "15,x,,1"), "no 13 6")
    case("13 before 14, 5 after 55",
         to_patient(DATE, PHARMACY, PRESCRIBER, DOCTOR, DATE), "no 13 6")
    case("13 before 14, 5 after 51",
         to_patient(DATE, PHARMACY, PRESCRIBER, DATE), "no 13 5")
    case("13 before 14, no record 1", to_provider(PHARMACY), "no 13 2")
    case("13 before 14, 701 after 55",
         to_patient(DATE, PHARMACY, PRESCRIBER, DOCTOR, KEEPER), "no 13 6")
    # 14 and 15: the 201 of value 3 closes RP 1, and it should be 2.
    case("14 before 15", to_patient(DATE, HOSPITAL, drug(), drug(3)), "no 14 5")
    case("14 before 15, old value after 391",
         to_patient(DATE, HOSPITAL, drug(), note(391), drug()), "no 14 6")
    # 14 and 16: the newer 5 closes a group without 411.
    case("14 before 16", to_patient("5,20160410,1", HOSPITAL, DATE), "no 14 4")
    case("14 before 16, no 11", to_patient("5,20160410,1", ADVICE, DATE), "no 14 4")
    case("13 before 16", to_provider(PATIENT, "5,20160410,1", DOCTOR, DATE), "no 13 5")
    case("13 before 16, after 701",
         to_provider(PATIENT, "5,20160410,1", KEEPER, DATE), "no 13 5")
    case("11 before 16", to_provider(PATIENT, "5,20160410,1", "5,20160411,7"), "no 11 4")
    case("8 before 16", to_provider(PATIENT, "5,20160410,1", "5,20160411,"), "no 8 4")
    case("12 before 15", to_provider(PATIENT, DATE, drug(), "301,2,x,1,x,5,1,,1"), "no 12 5")
    case("12 before 14",
         to_patient(DATE, HOSPITAL, drug(), "201,2,x,1,x,2,,1"), "no 12 5")
    case("13 before 15, second 301",
         to_provider(PATIENT, DATE, drug(), usage(), usage(2)), "no 13 6")
    case("13 before 15, 311 without 301",
         to_provider(PATIENT, DATE, drug(), note(311, 2)), "no 13 5")
    case("11 before 14", to_provider("5,2016,1"), "no 11 2")
    # 15 and 16 stand in different records: an RP's, and a 5.

    # Of two lines the first, also when the second has the lower number.
    two_lines = [
        ("11 above 4", ["2,7,x,2", b"4,\xff,,2"], "no 11 3"),
        ("4 above 11", [b"4,\xff,,2", "4,x,x,2"], "no 4 3"),
        ("16 above 3-like line", [DATE, "5,20160412,1", "JAHISTC03,2"], "no 16 4"),
        ("13 above 5", ["401,x,1", "6"], "no 13 3"),
        ("5 above 13", ["6", "401,x,1"], "no 5 3"),
        ("15 above 8", [DATE, drug(2), "501,,1"], "no 15 4"),
        ("12 above 7", [DATE, "201,1,x,1,x,2,,1", "4"], "no 12 4"),
        ("7 above 6", ["4", "911"], "no 7 3"),
        ("10 above 9", ["4, x,,2", "4," + "x" * 401 + ",,2"], "no 10 3"),
        ("9 above 10", ["4," + "x" * 401 + ",,2", "4, x,,2"], "no 9 3"),
        ("8 above 4", ["4,,,2", b"4,\xff,,2"], "no 8 3"),
        ("4 above 2", [b"4,\xff,,2", b"4,x\nx,,2"], "no 4 3"),
        ("2 above 4", [b"4,x\nx,,2", b"4,\xff,,2"], "no 2 3"),
        ("11 four lines above 2", ["4,x,x,2", "4,x,,2", "4,x,,2", b"4,\r,,2"], "no 11 3"),
    ]
    for label, lines, answer in two_lines:
        case(label, to_provider(PATIENT, *lines), answer)
    case("14 above 2", to_provider(DATE) + b"4,x", "no 14 2")
    case("3 above 2", b"JAHISTC03,2\r\n4,x\n", "no 3 1")
    case("11 above a lost line end", to_provider("1,A,7,19890108,,,,,,,") + b"4", "no 11 2")
    case("14 above 13", to_provider(DATE, PATIENT), "no 14 2")
    case("2 in line 2 before 14 at the end", to_provider() + b"x", "no 2 2")
    case("1A twice before 14 at the end",
         to_provider(PATIENT, DATE, DOCTOR) + b"\x1a\x1a", "no 2 5")


# =============================================================================
# Order
# =============================================================================


def missing_records():
    rp = [drug(), usage()]
    full = [DATE, PHARMACY, PRESCRIBER] + rp
    # Groups that lack something in direction 1: 14 stands at what closes them.
    groups = [
        ("no 11, 411", [DATE, ADVICE]),
        ("no 11, RP", [DATE] + rp),
        ("no 11, 51 and RP", [DATE, PRESCRIBER] + rp),
        ("no 11, 15", [DATE, "15,x,,1", ADVICE]),
        ("no 51", [DATE, PHARMACY] + rp),
        ("no 51, 15 and 55", [DATE, PHARMACY, "15,x,,1", DOCTOR] + rp),
        ("no 51, 411 stands", [DATE, PHARMACY] + rp + [ADVICE]),
        ("no 411", [DATE, HOSPITAL]),
        ("no 411, 15", [DATE, PHARMACY, "15,x,,1"]),
        ("no 411, 501", [DATE, HOSPITAL, "501,x,1"]),
        ("no 411, 501 and 601", [DATE, HOSPITAL, "501,x,1", "601,x,"]),
        ("only 5", [DATE]),
        ("no 301", [DATE, PHARMACY, PRESCRIBER, drug()]),
        ("no 301, hospital", [DATE, HOSPITAL, drug(), note(281), note(291)]),
        ("no 301, 391", [DATE, HOSPITAL, drug(), note(391)]),
        ("no 301, second RP", [DATE, HOSPITAL] + rp + [drug(2)]),
    ]
    for label, lines in groups:
        at = len(lines) + 2
        case("14 at a 5: " + label, to_patient(*lines, *full), "no 14 %d" % at)
        case("14 at a 701: " + label, to_patient(*lines, KEEPER), "no 14 %d" % at)
        case("14 at the end: " + label, to_patient(*lines), "no 14 %d" % at)
        case("14 at the end and 1A: " + label, to_patient(*lines) + b"\x1a", "no 14 %d" % at)
        at += len(full)
        case("14 in group 2: " + label, to_patient(*full, *lines), "no 14 %d" % at)
        # Direction 2 asks for none of these.
        drugs = sum(line.startswith("201") for line in lines)
        case("direction 2: " + label, to_provider(PATIENT, *lines),
             "ok %d 1 %d" % (len(lines) + 1, drugs))

    # The RP without 301 closes at the first record not of it.
    for number in [401, 411, 501, 601]:
        case("14 at a %d: no 301" % number,
             to_patient(DATE, HOSPITAL, drug(), GOOD[number], usage()), "no 14 5")
        case("%d after an RP with 301" % number,
             to_patient(DATE, HOSPITAL, *rp, GOOD[number]), "ok 5 1 1")
        case("direction 2: %d after an RP without 301" % number,
             to_provider(PATIENT, DATE, drug(), GOOD[number]), "ok 4 1 1")
    case("14 at a 55: no 301",
         to_patient(DATE, PHARMACY, PRESCRIBER, DOCTOR, drug(), DOCTOR), "no 14 7")
    case("14 at a 55: no 301, 391",
         to_patient(DATE, PHARMACY, PRESCRIBER, DOCTOR, drug(), note(391), DOCTOR), "no 14 8")
    case("14 at a 55: no 301, 291",
         to_patient(DATE, PHARMACY, PRESCRIBER, DOCTOR, drug(), note(291), DOCTOR), "no 14 8")
    case("14 at a 201 with the next value",
         to_patient(DATE, HOSPITAL, drug(), drug(2), usage(2)), "no 14 5")
    case("14 at a 201 with the next value, after 291",
         to_patient(DATE, HOSPITAL, drug(), note(291), drug(2)), "no 14 6")
    case("14 at a 201 after 391",
         to_patient(DATE, HOSPITAL, drug(), note(391), drug(2)), "no 14 6")
    case("201 after 301 closes a good RP",
         to_patient(DATE, HOSPITAL, *rp, drug(2), usage(2)), "ok 6 1 2")
    case("14 after 201 after 301",
         to_patient(DATE, HOSPITAL, *rp, drug(2), drug(3), usage(3)), "no 14 7")
    case("391 is of the RP, no 14 there",
         to_patient(DATE, HOSPITAL, drug(), note(391), note(391)), "no 14 7")

    # No group at all, in direction 1.
    case("14 at a 701: no group", to_patient(KEEPER), "no 14 2")
    case("14 at a 701: no group after 1", to_patient(PATIENT, "2,1,x,2", KEEPER), "no 14 4")
    case("14 at the end: no group", to_patient(PATIENT, "4,x,,2"), "no 14 4")
    case("no record 1 in direction 1", to_patient(*full), "ok 5 1 1")
    case("701 after a group", to_patient(*full, KEEPER, KEEPER), "ok 7 1 1")

    # Record 1, in direction 2.
    for number in [2, 3, 4, 5, 701]:
        case("14 at a %d: no record 1" % number, to_provider(GOOD[number]), "no 14 2")
        case("14 at a %d: no record 1 yet" % number,
             to_provider(GOOD[number], PATIENT), "no 14 2")
    for number in [11, 15, 51, 55, 201, 281, 291, 301, 311, 391, 401, 411, 501, 601]:
        case("13 at a %d: no record 1" % number, to_provider(GOOD[number]), "no 13 2")

    # 55 and 51 at the end.
    case("55 at the end, direction 2", to_provider(PATIENT, DATE, DOCTOR), "no 14 5")
    case("55 at the end and 1A", to_provider(PATIENT, DATE, DOCTOR) + b"\x1a", "no 14 5")
    case("55 at the end after an RP",
         to_provider(PATIENT, DATE, DOCTOR, *rp, DOCTOR), "no 14 8")
    case("55 at the end, direction 1",
         to_patient(DATE, PHARMACY, PRESCRIBER, DOCTOR), "no 14 6")
    case("55 at the end after an RP, direction 1",
         to_patient(DATE, PHARMACY, PRESCRIBER, DOCTOR, *rp, DOCTOR), "no 14 9")
    # In direction 1 a group that ends with its 51 also lacks its 411.
    case("51 at the end, direction 1", to_patient(DATE, PHARMACY, PRESCRIBER), "no 14 5")
    case("51 at the end, direction 2", to_provider(PATIENT, DATE, PRESCRIBER), "ok 3 1 0")
    case("51 at the end of group 2, direction 1",
         to_patient(*full, DATE, PHARMACY, PRESCRIBER), "no 14 10")


def usage_and_group():
    """READING, usage name: where an 11 with 4 has a say."""
    free = usage(1, "")
    case("usage: before any group, direction 2", to_provider(PATIENT, free), "no 12 3")
    case("usage: before any group, direction 1", to_patient(PATIENT, free), "no 13 3")
    case("usage: first record, direction 2", to_provider(free), "no 12 2")
    case("usage: in a wrong place, direction 1",
         to_patient(DATE, PHARMACY, free), "no 12 4")
    case("usage: in a wrong place, hospital",
         to_patient(DATE, HOSPITAL, free), "no 13 4")
    case("usage: second 301 without name",
         to_patient(DATE, PHARMACY, PRESCRIBER, drug(), usage(), free), "no 12 7")
    case("usage: after 701, direction 1",
         to_patient(DATE, PHARMACY, PRESCRIBER, drug(), usage(), KEEPER, free), "no 13 8")
    case("usage: after 701, direction 2",
         to_provider(PATIENT, DATE, drug(), KEEPER, free), "no 12 6")
    case("usage: group 1 pharmacy, group 2 hospital",
         to_patient(DATE, PHARMACY, PRESCRIBER, drug(), usage(),
                    DATE, HOSPITAL, drug(), free), "ok 9 2 2")
    case("usage: group 1 hospital, group 2 pharmacy",
         to_patient(DATE, HOSPITAL, drug(), free,
                    DATE, PHARMACY, PRESCRIBER, drug(), free), "no 12 10")
    case("usage: group 2 without 11",
         to_patient(DATE, PHARMACY, PRESCRIBER, drug(), usage(),
                    DATE, drug(), free), "no 14 10")
    case("usage: no 11", to_patient(DATE, drug(), free), "no 14 5")
    case("usage: form 10 where the 11 is 4",
         to_patient(DATE, PHARMACY, PRESCRIBER, drug(), usage(1, "", "10")), "ok 5 1 1")


def after_51_and_55():
    for number in NUMBERS:
        if number not in (55, 201):
            case("51 then %d, direction 1" % number,
                 to_patient(DATE, PHARMACY, PRESCRIBER, GOOD[number]), "no 13 5")
        if number != 201:
            case("55 then %d, direction 1" % number,
                 to_patient(DATE, PHARMACY, PRESCRIBER, DOCTOR, GOOD[number]), "no 13 6")
            case("second 55 then %d" % number,
                 to_provider(PATIENT, DATE, DOCTOR, drug(), DOCTOR, GOOD[number]), "no 13 7")
    case("51 then 55, direction 1",
         to_patient(DATE, PHARMACY, PRESCRIBER, DOCTOR, drug(), usage()), "ok 6 1 1")
    case("51 then 201, direction 1",
         to_patient(DATE, PHARMACY, PRESCRIBER, drug(), usage()), "ok 5 1 1")
    case("51 then 5, direction 2", to_provider(PATIENT, DATE, PRESCRIBER, DATE), "ok 4 2 0")
    case("51 then 701, direction 2", to_provider(PATIENT, DATE, PRESCRIBER, KEEPER), "ok 4 1 0")
    case("51 then 401, direction 2",
         to_provider(PATIENT, DATE, PRESCRIBER, "401,x,1"), "ok 4 1 0")
    for label, institution in [("hospital", HOSPITAL), ("dentist", DENTIST)]:
        case("51 after an 11 of a %s" % label,
             to_patient(DATE, institution, PRESCRIBER, drug(), usage()), "no 13 4")
        case("55 after an 11 of a %s" % label,
             to_patient(DATE, institution, DOCTOR, drug(), usage()), "no 13 4")
        case("15 and 51 after an 11 of a %s" % label,
             to_patient(DATE, institution, "15,x,,1", PRESCRIBER, drug(), usage()), "no 13 5")
        case("51 after an 11 of a %s, direction 2" % label,
             to_provider(PATIENT, DATE, institution, PRESCRIBER, DOCTOR, drug()), "ok 6 1 1")
    case("51 without an 11", to_patient(DATE, PRESCRIBER, drug(), usage()), "no 14 6")
    case("51 after group 1 of a hospital",
         to_patient(DATE, HOSPITAL, drug(), usage(),
                    DATE, PHARMACY, PRESCRIBER, drug(), usage()), "ok 9 2 2")
    case("51 in a pharmacy's group without RP",
         to_patient(DATE, PHARMACY, PRESCRIBER, ADVICE), "no 13 5")


def prescriptions():
    """READING, RP, with the values of the lines; direction 2, then 1."""
    group = [PATIENT, DATE]
    for label, lines, answer in [
        ("1 2 3", [drug(1), drug(2), drug(3)], "ok 5 1 3"),
        ("1 1 2", [drug(1), drug(1), drug(2)], "ok 5 1 3"),
        ("1 01 001", [drug(1), drug("01"), drug("001")], "ok 5 1 3"),
        ("01 2 003", [drug("01"), drug(2), drug("003")], "ok 5 1 3"),
        ("first is 2", [drug(2)], "no 15 4"),
        ("first is 999", [drug(999)], "no 15 4"),
        ("1 3", [drug(1), drug(3)], "no 15 5"),
        ("1 2 1", [drug(1), drug(2), drug(1)], "no 15 6"),
        ("1 2 4", [drug(1), drug(2), drug(4)], "no 15 6"),
        ("201 after 301, old value", [drug(1), usage(1), drug(1)], "no 15 6"),
        ("201 after 301, next value", [drug(1), usage(1), drug(2)], "ok 5 1 2"),
        ("201 after 301, one too many", [drug(1), usage(1), drug(3)], "no 15 6"),
        ("201 after 311, old value", [drug(1), usage(1), note(311), drug(1)], "no 15 7"),
        ("201 after 311, next value", [drug(1), usage(1), note(311), drug(2)], "ok 6 1 2"),
        ("201 after 391, old value", [drug(1), note(391), drug(1)], "no 15 6"),
        ("201 after 391, next value", [drug(1), note(391), drug(2)], "ok 5 1 2"),
        ("201 after 301 and 391, old value",
         [drug(1), usage(1), note(391), drug(1)], "no 15 7"),
        ("201 after 55, old value", [DOCTOR, drug(1), DOCTOR, drug(1)], "no 15 7"),
        ("201 after 55, next value", [DOCTOR, drug(1), DOCTOR, drug(2)], "ok 6 1 2"),
        ("201 after 281, old value", [drug(1), note(281), drug(1)], "ok 5 1 2"),
        ("201 after 281, next value", [drug(1), note(281), drug(2)], "ok 5 1 2"),
        ("201 after 291, old value", [drug(1), note(291), drug(1)], "ok 5 1 2"),
        ("201 after 291, wrong value", [drug(1), note(291), drug(5)], "no 15 6"),
        ("281 with another value", [drug(1), note(281, 2)], "no 15 5"),
        ("291 with another value", [drug(1), note(291, 2)], "no 15 5"),
        ("301 with another value", [drug(1), usage(2)], "no 15 5"),
        ("311 with another value", [drug(1), usage(1), note(311, 2)], "no 15 6"),
        ("391 with another value", [drug(1), note(391, 2)], "no 15 5"),
        ("391 with another value after 301", [drug(1), usage(1), note(391, 2)], "no 15 6"),
        ("281 with the value of RP 1 in RP 2", [drug(1), drug(2), note(281, 1)], "no 15 6"),
        ("301 with the value of RP 1 in RP 2", [drug(1), drug(2), usage(1)], "no 15 6"),
        ("301 with 001", [drug(1), usage("001")], "ok 4 1 1"),
        ("391 with 01 in RP 001", [drug("001"), note(391, "01")], "ok 4 1 1"),
        ("281 of the second drug", [drug(1), drug(1), note(281), note(291)], "ok 6 1 2"),
        ("281 after 291", [drug(1), note(291), note(281)], "no 13 6"),
        ("281 after 301", [drug(1), usage(1), note(281)], "no 13 6"),
        ("301 after 391", [drug(1), note(391), usage(1)], "no 13 6"),
        ("311 after 391", [drug(1), usage(1), note(391), note(311)], "no 13 7"),
        ("311 without 301", [drug(1), note(311)], "no 13 5"),
        ("301 twice", [drug(1), usage(1), usage(1)], "no 13 6"),
        ("281 without 201", [note(281)], "no 13 4"),
        ("301 without 201", [usage(1)], "no 13 4"),
        ("391 without 201", [note(391)], "no 13 4"),
        ("each RP complete",
         [drug(1), note(281), note(281), note(291), note(291), drug(1), note(291), usage(1),
          note(311), note(311), note(391), note(391), drug(2), usage(2)], "ok 16 1 3"),
        ("values begin anew in group 2", [drug(1), drug(2), DATE, drug(1), drug(2)], "ok 7 2 4"),
        ("values don't go on in group 2", [drug(1), DATE, drug(2)], "no 15 6"),
        ("group 2 begins with the last value", [drug(1), drug(2), DATE, drug(2)], "no 15 7"),
        ("group 2 after a group without RP", [DATE, drug(1)], "ok 4 2 1"),
    ]:
        case("RP: " + label, to_provider(*group, *lines), answer)
    for label, lines, answer in [
        ("1 2 with 301", [drug(1), usage(1), drug(2), usage(2)], "ok 6 1 2"),
        ("wrong new value, no 301", [drug(1), drug(5)], "no 14 5"),
        ("wrong new value, 301", [drug(1), usage(1), drug(5)], "no 15 6"),
        ("old value after 301", [drug(1), usage(1), drug(1)], "no 15 6"),
        ("301 with another value", [drug(1), usage(2)], "no 15 5"),
        ("281 with another value", [drug(1), note(281, 2)], "no 15 5"),
        ("391 with another value", [drug(1), note(391, 2)], "no 15 5"),
        ("two drugs, one 301", [drug(1), drug(1), usage(1)], "ok 5 1 2"),
        ("301 before 201", [usage(1), drug(1)], "no 13 4"),
        ("first is 2", [drug(2), usage(2)], "no 15 4"),
    ]:
        case("RP, direction 1: " + label, to_patient(DATE, HOSPITAL, *lines), answer)

    # The highest value is 999: no 201 can begin an RP after it.
    many = [drug(n) for n in range(1, 1000)]
    case("RP: 999 of them", to_provider(*group, *many), "ok 1001 1 999")
    case("RP: 1 after 999", to_provider(*group, *many, drug(1)), "no 15 1003")


def doctors():
    group = [PATIENT, DATE]
    rp1, rp2, rp3 = ([drug(n), usage(n)] for n in (1, 2, 3))
    for label, lines, answer in [
        ("after a first RP without one", rp1 + [DOCTOR] + rp2, "no 13 6"),
        ("after two RPs without one", rp1 + rp2 + [DOCTOR] + rp3, "no 13 8"),
        ("before each RP", [DOCTOR] + rp1 + [DOCTOR] + rp2, "ok 8 1 2"),
        ("before the first RP only", [DOCTOR] + rp1 + rp2 + rp3, "ok 9 1 3"),
        ("before the first and third", [DOCTOR] + rp1 + rp2 + [DOCTOR] + rp3, "ok 10 1 3"),
        ("twice running", [DOCTOR, DOCTOR] + rp1, "no 13 5"),
        ("between drugs of an RP", [DOCTOR, drug(1), DOCTOR, drug(1)], "no 15 7"),
        ("after 281", [DOCTOR, drug(1), note(281), DOCTOR, drug(2)], "ok 7 1 2"),
        ("after 291", [DOCTOR, drug(1), note(291), DOCTOR, drug(2)], "ok 7 1 2"),
        ("after 391", [DOCTOR, drug(1), note(391), DOCTOR, drug(2)], "ok 7 1 2"),
        ("after 401", [DOCTOR] + rp1 + ["401,x,1", DOCTOR], "no 13 8"),
        ("in group 2, first RP without one",
         [DOCTOR] + rp1 + [DATE] + rp1 + [DOCTOR] + rp2, "no 13 10"),
        ("in group 2 only", rp1 + [DATE, DOCTOR] + rp1, "ok 8 2 2"),
        ("after 11", [PHARMACY, DOCTOR] + rp1, "ok 6 1 1"),
        ("after 15", ["15,x,,1", DOCTOR] + rp1, "ok 6 1 1"),
        ("after 51", [PRESCRIBER, DOCTOR] + rp1, "ok 6 1 1"),
        ("before 51", [DOCTOR, PRESCRIBER], "no 13 5"),
    ]:
        case("55: " + label, to_provider(*group, *lines), answer)
    case("55: outside a group", to_provider(PATIENT, DOCTOR), "no 13 3")
    case("55: after 701", to_provider(PATIENT, DATE, KEEPER, DOCTOR), "no 13 5")
    pharmacy = [DATE, PHARMACY, PRESCRIBER]
    case("55: direction 1, before each RP",
         to_patient(*pharmacy, DOCTOR, *rp1, DOCTOR, *rp2), "ok 9 1 2")
    case("55: direction 1, before the first RP only",
         to_patient(*pharmacy, DOCTOR, *rp1, *rp2), "ok 8 1 2")
    case("55: direction 1, after a first RP without one",
         to_patient(*pharmacy, *rp1, DOCTOR, *rp2), "no 13 7")
    case("55: direction 1, first RP without one nor 301",
         to_patient(*pharmacy, drug(), DOCTOR), "no 13 6")


def order_in_a_group():
    for label, numbers, answer in [
        ("11 after 15", [1, 5, 15, 11], "no 13 5"),
        ("11 after 51", [1, 5, 51, 11], "no 13 5"),
        ("15 after 51", [1, 5, 51, 15], "no 13 5"),
        ("11 twice", [1, 5, 11, 11], "no 13 5"),
        ("15 twice", [1, 5, 15, 15], "no 13 5"),
        ("51 twice", [1, 5, 51, 51], "no 13 5"),
        ("11 twice, 15 between", [1, 5, 11, 15, 11], "no 13 6"),
        ("51 after an RP", [1, 5, 201, 51], "no 13 5"),
        ("11 after an RP", [1, 5, 201, 11], "no 13 5"),
        ("201 after 401", [1, 5, 201, 401, 201], "no 13 6"),
        ("201 after 411", [1, 5, 411, 201], "no 13 5"),
        ("401 after 411", [1, 5, 411, 401], "no 13 5"),
        ("411 after 501", [1, 5, 501, 411], "no 13 5"),
        ("501 after 601", [1, 5, 601, 501], "no 13 5"),
        ("401 after 601", [1, 5, 601, 401], "no 13 5"),
        ("11 after 601", [1, 5, 601, 11], "no 13 5"),
        ("11, 15, 51 in order", [1, 5, 11, 15, 51], "ok 5 1 0"),
        ("15 without 11", [1, 5, 15, 51, 201], "ok 5 1 1"),
        ("401 without RP", [1, 5, 401], "ok 3 1 0"),
        ("all four", [1, 5, 401, 401, 411, 411, 501, 501, 601, 601], "ok 10 1 0"),
        ("11 in each group", [1, 5, 11, 5, 11, 5, 11], "ok 7 3 0"),
        ("three groups", [1, 5, 5, 5], "ok 4 3 0"),
        ("1 twice", [1, 1], "no 13 3"),
        ("1 after 2", [1, 2, 1], "no 13 4"),
        ("2 after 3", [1, 3, 2], "no 13 4"),
        ("3 after 4", [1, 4, 3], "no 13 4"),
        ("2 after 4", [1, 4, 2], "no 13 4"),
        ("4 after 5", [1, 5, 4], "no 13 4"),
        ("1 after 5", [1, 5, 1], "no 13 4"),
        ("2 after 701", [1, 701, 2], "no 13 4"),
        ("1 after 701", [1, 701, 1], "no 13 4"),
        ("5 after 701", [1, 5, 701, 5], "no 13 5"),
        ("501 after 701", [1, 5, 701, 501], "no 13 5"),
        ("2s, 3s, 4s", [1, 2, 2, 3, 3, 4, 4], "ok 7 0 0"),
        ("701s", [1, 701, 701, 701], "ok 4 0 0"),
        ("all", NUMBERS, "ok 20 1 1"),
        ("11 outside a group", [1, 11], "no 13 3"),
        ("401 outside a group", [1, 4, 401], "no 13 4"),
        ("601 outside a group", [1, 601], "no 13 3"),
    ]:
        case("order: " + label, to_provider(*[GOOD[n] for n in numbers]), answer)
    for label, lines, answer in [
        ("401 in a group without RP", [DATE, HOSPITAL, "401,x,1", ADVICE], "no 13 4"),
        ("401 in a group without RP and 11", [DATE, "401,x,1"], "no 13 3"),
        ("401 in group 2 without RP",
         [DATE, HOSPITAL, drug(), usage(), DATE, HOSPITAL, "401,x,1"], "no 13 8"),
        ("401 after an RP", [DATE, HOSPITAL, drug(), usage(), "401,x,1"], "ok 5 1 1"),
        ("411 without RP", [DATE, HOSPITAL, ADVICE], "ok 3 1 0"),
        ("411, 501 and 601 without RP",
         [DATE, PHARMACY, "15,x,,1", ADVICE, ADVICE, "501,x,1", "601,x,"], "ok 7 1 0"),
        ("11 after 15", [DATE, "15,x,,1", PHARMACY], "no 13 4"),
        ("11 twice", [DATE, HOSPITAL, PHARMACY], "no 13 4"),
        ("1 after 2", ["2,1,x,2", PATIENT], "no 13 3"),
        ("11 after an RP", [DATE, drug(), usage(), HOSPITAL], "no 13 5"),
        ("2 first", ["2,1,x,2", "3,x,,,2", "4,x,,2", DATE, HOSPITAL, ADVICE], "ok 6 1 0"),
        ("pharmacy without RP has no 51", [DATE, PHARMACY, ADVICE], "ok 3 1 0"),
        ("all", [GOOD[n] for n in NUMBERS], "ok 20 1 1"),
    ]:
        case("order, direction 1: " + label, to_patient(*lines), answer)


# Which record may follow which. Each row is what stands last, each column what
# follows, in this order:
#   1 2 3 4 5  11 15 51 55  201  281 291 301 311 391  401  411 501 601  701
# x: 13 at the following record; m: 14 there; e: it stands, and the end is 14;
# the period: good.

# Direction 2, records before as in BEFORE_2. Only a 55 at the end is e.
FOLLOW_2 = {
    1:   "x.... xxxx x xxxxx x xxx .",
    2:   "x.... xxxx x xxxxx x xxx .",
    3:   "xx... xxxx x xxxxx x xxx .",
    4:   "xxx.. xxxx x xxxxx x xxx .",
    5:   "xxxx. ...e . xxxxx . ... .",
    11:  "xxxx. x..e . xxxxx . ... .",
    15:  "xxxx. xx.e . xxxxx . ... .",
    51:  "xxxx. xxxe . xxxxx . ... .",
    55:  "xxxxx xxxx . xxxxx x xxx x",
    201: "xxxx. xxxx . ...x. . ... .",
    281: "xxxx. xxxx . ...x. . ... .",
    291: "xxxx. xxxx . x..x. . ... .",
    301: "xxxx. xxxx . xxx.. . ... .",
    311: "xxxx. xxxx . xxx.. . ... .",
    391: "xxxx. xxxx . xxxx. . ... .",
    401: "xxxx. xxxx x xxxxx . ... .",
    411: "xxxx. xxxx x xxxxx x ... .",
    501: "xxxx. xxxx x xxxxx x x.. .",
    601: "xxxx. xxxx x xxxxx x xx. .",
    701: "xxxxx xxxx x xxxxx x xxx .",
}

# Direction 1, with an 11 of 4.
BEFORE_1 = {
    1: [], 2: [], 3: [], 4: [], 5: [], 11: [5], 15: [5, 11], 51: [5, 11],
    55: [5, 11, 51], 201: [5, 11, 51], 281: [5, 11, 51, 201],
    291: [5, 11, 51, 201], 301: [5, 11, 51, 201], 311: [5, 11, 51, 201, 301],
    391: [5, 11, 51, 201, 301], 401: [5, 11, 51, 201, 301], 411: [5, 11],
    501: [5, 11], 601: [5, 11], 701: [5, 11, 411],
}
FOLLOW_1 = {
    1:   "xeeee xxxx x xxxxx x xxx m",
    2:   "xeeee xxxx x xxxxx x xxx m",
    3:   "xxeee xxxx x xxxxx x xxx m",
    4:   "xxxee xxxx x xxxxx x xxx m",
    5:   "xxxxm eeee e xxxxx x eee m",
    11:  "xxxxm xeee e xxxxx x .ee m",
    15:  "xxxxm xxee e xxxxx x .ee m",
    51:  "xxxxx xxxe e xxxxx x xxx x",
    55:  "xxxxx xxxx e xxxxx x xxx x",
    201: "xxxxm xxxx e ee.xe m mmm m",
    281: "xxxxm xxxx e ee.xe m mmm m",
    291: "xxxxm xxxx e xe.xe m mmm m",
    301: "xxxxe xxxx e xxx.. . ... .",
    311: "xxxxe xxxx e xxx.. . ... .",
    391: "xxxxe xxxx e xxxx. . ... .",
    401: "xxxxe xxxx x xxxxx . ... .",
    411: "xxxxe xxxx x xxxxx x ... .",
    501: "xxxxm xxxx x xxxxx x xee m",
    601: "xxxxm xxxx x xxxxx x xxe m",
    701: "xxxxx xxxx x xxxxx x xxx .",
}

# The first record of a file.
FIRST = {
    1: "eeeee xxxx x xxxxx x xxx m",
    2: ".mmmm xxxx x xxxxx x xxx m",
}


def neighbours():
    def follow(label, direction, before, number, sign):
        # A 201 after a 301, 311 or 391 begins RP 2; everywhere else in these
        # files value 1 is right.
        line = GOOD[number]
        if number == 201 and before and before[-1] in (301, 311, 391):
            line = drug(2)
        lines = [GOOD[n] for n in before] + [line]
        all_numbers = before + [number]
        answer = {
            "x": "no 13 %d" % (len(lines) + 1),
            "m": "no 14 %d" % (len(lines) + 1),
            "e": "no 14 %d" % (len(lines) + 2),
            ".": "ok %d %d %d" % (len(lines), all_numbers.count(5), all_numbers.count(201)),
        }[sign]
        case(label, file(direction, *lines), answer)

    for direction, before_table, table in [(2, BEFORE_2, FOLLOW_2), (1, BEFORE_1, FOLLOW_1)]:
        assert sorted(table) == NUMBERS
        for last in NUMBERS:
            row = table[last].replace(" ", "")
            assert len(row) == 20
            for number, sign in zip(NUMBERS, row):
                follow("%d: %d %d" % (direction, last, number), direction,
                       before_table[last] + [last], number, sign)
                # With a doctor in the group a 55 may follow an RP.
                if last in (201, 281, 291, 301, 311, 391):
                    before = before_table[last] + [last]
                    at = before.index(201)
                    before = before[:at] + [55] + before[at:]
                    if number == 55:
                        has_301 = 301 in before
                        sign = "e" if direction == 2 or has_301 else "m"
                    follow("%d with a doctor: %d %d" % (direction, last, number),
                           direction, before, number, sign)
        row = FIRST[direction].replace(" ", "")
        for number, sign in zip(NUMBERS, row):
            follow("%d: first %d" % (direction, number), direction, [], number, sign)


# =============================================================================
# Kana names: 02 (viii)
# =============================================================================

# The cases of this part, apart from CASES: the other calls choose among those,
# and so many of one item would leave little room for the rest. They have files
# with kana names of their own.
KANA = []


def kana_case(label, content, answer):
    KANA.append((label, content, answer))


# The neighbours of the other characters: あ, ア. Trails tell nothing: ア's is an A.
HIRAGANA, KATAKANA = b"\x82\xa0", WIDE
LONG, SPACE = b"\x81\x5b", b"\x81\x40"  # the two that go with either script


def named(item):
    """Record 1 with this kana name."""
    return b"1,A,1,H010108,,,,,,," + raw(item)


def kana(label, item, refusal):
    kana_case(label, to_provider(named(item)), "no %d 2" % refusal if refusal else "ok 1 0 0")


def script(character):
    """From Unicode's names, which know nothing of rows and cells."""
    if len(character) == 1:
        return "one-byte"
    text = character.decode("shift_jis")
    if character in (LONG, SPACE):
        assert text in "ー　"
        return "either"
    name = unicodedata.name(text)
    if name.startswith("HIRAGANA LETTER"):
        assert "\u3041" <= text <= "\u3093"
        return "hiragana"
    if name.startswith("KATAKANA LETTER"):
        assert "\u30a1" <= text <= "\u30f6"
        return "katakana"
    return "other"


CHARACTERS = sorted(oracle.ONE_BYTE) + sorted(oracle.TWO_BYTE)
OF_SCRIPT = {
    name: [one for one in CHARACTERS if script(one) == name]
    for name in ("one-byte", "hiragana", "katakana", "either", "other")
}
assert [len(ones) for ones in OF_SCRIPT.values()] == [158, 83, 86, 2, 6706]


def row_of(character):
    """Its row, by way of EUC-JP; 0 for a one-byte character."""
    return character.decode("shift_jis").encode("euc_jp")[0] - 0xA0 if len(character) == 2 else 0


# A character of each script alone, and beside a hiragana, a katakana, a narrow
# katakana and a letter: x is 11, the period good.
NEIGHBOURS = [b"", HIRAGANA, KATAKANA, b"\xb1", b"A"]
BESIDE = {
    "one-byte": ".xx..",
    "hiragana": "..xxx",
    "katakana": ".x.xx",
    "either":   "...xx",
    "other":    "xxxxx",
}
# Whatever stands beside these, they are at an edge; and a comma ends the item.
SOONER = {b" ": 10, SPACE: 10, b",": 7}


def kana_characters():
    """All 158 and 6,877 characters alone, and after a hiragana, a katakana and a
    narrow katakana; after a letter those of one byte. Before them all but the
    kanji, and of these the first and the last of each row: a kanji that comes first
    is refused by itself. The label is K and the item in hexadecimal."""
    rows = collections.defaultdict(list)
    for one in CHARACTERS:
        rows[row_of(one)].append(one)
    first = set()
    for number, ones in rows.items():
        first.update(ones if number < 16 else (ones[0], ones[-1]))
    assert len(first) == 158 + 524 + 2 * 69

    answers = {}  # two letters come about twice, once as each one's neighbour
    for one in CHARACTERS:
        for neighbour, sign in zip(NEIGHBOURS, BESIDE[script(one)]):
            if neighbour == b"A" and len(one) == 2:
                continue
            refusal = SOONER.get(one, {"x": 11, ".": None}[sign])
            for item in [neighbour + one] + [one + neighbour] * (one in first):
                assert answers.setdefault(item, refusal) == refusal
    for item, refusal in answers.items():
        kana("K " + item.hex().upper(), item, refusal)


def kana_runs():
    """Every character of a script with others of it, up to 40 bytes; then with a
    last one of the other script."""
    for name, stranger in (("hiragana", KATAKANA), ("katakana", HIRAGANA)):
        letters = OF_SCRIPT[name]
        for at in range(0, len(letters), 20):
            run = letters[at : at + 20]
            where = "%s from %s" % (name, run[0].hex().upper())
            kana("kana run: " + where, b"".join(run), None)
            kana("kana run: %s, other last" % where, b"".join(run[:19]) + stranger, 11)
            kana("kana run: %s, other first" % where, stranger + b"".join(run[:19]), 11)
        for at in range(0, len(letters), 10):
            run = letters[at : at + 10]
            where = "%s from %s" % (name, run[0].hex().upper())
            kana("kana run: %s, each with 815B" % where, b"".join(one + LONG for one in run), None)
            kana("kana run: %s, 815B before each" % where,
                 b"".join(LONG + one for one in run), None)
            kana("kana run: %s, 8140 between" % where, SPACE.join(run), None)
    letters = [one for one in OF_SCRIPT["one-byte"] if one != b","]
    for at in range(0, len(letters), 38):
        run = b"x" + b"".join(letters[at : at + 38]) + b"x"
        where = "one-byte from %s" % run[1:2].hex().upper()
        kana("kana run: " + where, run, None)
        kana("kana run: %s, a wide one last" % where, run[:38] + KATAKANA, 11)


# One character for each sign, and the rule in these signs.
SIGNS = {"h": HIRAGANA, "k": KATAKANA, "-": LONG, "_": SPACE, "m": b"\x81\x45", "j": b"\x8a\xbf",
         "n": b"\xb1", "A": b"A", "s": b" "}
ONE_SCRIPT = "[nAs]+|[h_-]+|[k_-]+"


def kana_scripts():
    """Every item of one to three characters, of each sort."""
    for size in (1, 2, 3):
        for signs in itertools.product(SIGNS, repeat=size):
            text = "".join(signs)
            refusal = None if re.fullmatch(ONE_SCRIPT, text) else 11
            if text[0] in "_s" or text[-1] in "_s":
                refusal = 10
            kana("kana signs " + text, b"".join(SIGNS[sign] for sign in signs), refusal)


def kana_places():
    """Another character at each place of a full item."""
    def at_each(label, base, size, stranger, refusal, at_ends):
        for place in range(size):
            item = base * place + stranger + base * (size - 1 - place)
            assert len(item) <= 40
            kana("kana place: %s is %d of %d" % (label, place + 1, size), item,
                 at_ends if place in (0, size - 1) else refusal)

    greek, letter, dot, kanji = b"\x83\x9f", b"\x82\x60", b"\x81\x45", b"\x8a\xbf"
    for name, base, strangers in [
        ("hiragana", HIRAGANA, [KATAKANA, letter, dot, kanji, b"\xb1", b"x", b" "]),
        ("katakana", KATAKANA, [HIRAGANA, greek, dot, kanji, b"\xb1", b"x", b" "]),
        ("815B", LONG, [letter, greek, dot, kanji, b"\xb1", b" "]),
    ]:
        for stranger in strangers:
            at_each("%s in %s" % (stranger.hex().upper(), name), base, 20, stranger, 11,
                    10 if stranger == b" " else 11)
        at_each("8140 in " + name, base, 20, SPACE, None, 10)
    for name, base in (("hiragana", HIRAGANA), ("katakana", KATAKANA)):
        at_each("815B in " + name, base, 20, LONG, None, None)
        at_each(name + " in 815B", LONG, 20, base, None, None)
    for stranger in (HIRAGANA, KATAKANA, LONG):
        at_each(stranger.hex().upper() + " in one-byte", b"x", 39, stranger, 11, 11)
    at_each("8140 in one-byte", b"x", 39, SPACE, 11, 10)
    at_each("20 in one-byte", b"x", 40, b" ", None, 10)
    # Both scripts among 815Bs, wherever they stand.
    for one, other in itertools.permutations(range(8), 2):
        item = [LONG] * 8
        item[one], item[other] = HIRAGANA, KATAKANA
        kana("kana place: hiragana %d, katakana %d of 8" % (one + 1, other + 1), b"".join(item), 11)


def kana_broken():
    """Pairs that are no characters under the leads of rows 1 to 8: 4, which comes
    before 11, also where the rest is of one script."""
    for lead in range(0x81, 0x85):
        for trail in range(0x3F, 0xFE):
            pair = bytes([lead, trail])
            if pair not in oracle.TWO_BYTE:
                kana("kana broken: " + pair.hex().upper(), HIRAGANA + pair, 4)
    for label, item in [
        ("lone 82 at the end", HIRAGANA + b"\x82"), ("lone 83 at the end", KATAKANA + b"\x83"),
        ("lone 81 at the end", LONG + b"\x81"), ("lone 82 alone", b"\x82"),
        ("FF", HIRAGANA + b"\xff"), ("00 in both scripts", HIRAGANA + b"\x00" + KATAKANA),
        ("80 after kanji", b"\x8a\xbf\x80"), ("row 13", KATAKANA + b"\x87\x40"),
        ("84-5", KATAKANA + b"\xea\xa3"), ("A0", b"\xb1\xa0"), ("UTF-8", "すずき".encode()),
    ]:
        kana("kana broken: " + label, item, 4)


def kana_names():
    for label, item, refusal in [
        ("empty", "", None), ("hiragana", "すずき　たろう", None), ("katakana", "スズキ　タロウ", None),
        ("narrow katakana", "ｽｽﾞｷ ﾀﾛｳ", None), ("letters", "SUZUKI TARO", None),
        ("narrow katakana and letters", "ｽｽﾞｷ TARO", None), ("digits and marks", "ｽｽﾞｷ-2/ﾀﾛｳ(3)", None),
        ("hiragana without space", "すずきたろう", None), ("one hiragana", "あ", None),
        ("one katakana", KATAKANA, None), ("first and last hiragana", "ぁん", None),
        ("first and last katakana", "ァヶ", None),
        ("small and voiced", "っぱゎゐゑを", None), ("small and voiced katakana", "ッパヮヰヱヲヴヵヶ", None),
        # The two that go with either.
        ("815B alone", LONG, None), ("815B twice", LONG * 2, None), ("815B twenty times", LONG * 20, None),
        ("815B last", "スズキ　タロー", None), ("815B first", "ースズキ", None),
        ("815B inside", "ローラ", None), ("815B last, hiragana", "すずき　たろー", None),
        ("815B first, hiragana", "ーすずき", None), ("815B inside, hiragana", "ろーら", None),
        ("815B and 8140", "ー　ー", None), ("815B, 8140 twice, 815B", "ー　　ー", None),
        ("8140 alone", SPACE, 10), ("8140 twice", SPACE * 2, 10), ("8140 twenty times", SPACE * 20, 10),
        ("8140 first", "　すずき", 10), ("8140 last", "すずき　", 10), ("8140 at both ends", "　スズキ　", 10),
        ("8140 then 815B", "　ー", 10), ("815B then 8140", "ー　", 10),
        ("8140 inside twice", "すずき　　たろう", None), ("8140 several", "マリア　デ　ラ　クルス", None),
        # Mixtures.
        ("hiragana then katakana", "すずきタロウ", 11), ("katakana then hiragana", "スズキたろう", 11),
        ("hiragana, 8140, katakana", "すずき　タロウ", 11), ("katakana, 8140, hiragana", "スズキ　たろう", 11),
        ("hiragana, 815B, katakana", "ろーラ", 11), ("katakana, 815B, hiragana", "ローら", 11),
        ("815B, hiragana, katakana", "ーすズ", 11), ("815B, katakana, hiragana", "ースず", 11),
        ("hiragana, katakana, 815B", "たロー", 11), ("katakana, hiragana, 815B", "タろー", 11),
        ("hiragana, katakana, hiragana", "すズき", 11), ("katakana, hiragana, katakana", "スずキ", 11),
        ("hiragana, 8140, 815B, 8140, katakana", "あ　ー　ア", 11),
        ("narrow and wide katakana", "ｽｽﾞｷ　タロウ", 11), ("wide and narrow katakana", "スズキ ﾀﾛｳ", 11),
        ("wide katakana, narrow space", "スズキ タロウ", 11), ("hiragana, narrow space", "すずき たろう", 11),
        ("narrow katakana, wide space", "ｽｽﾞｷ　ﾀﾛｳ", 11), ("narrow katakana, 815B", "ﾀﾛー", 11),
        ("815B, narrow katakana", "ーﾀﾛ", 11), ("815B and a letter", LONG + b"A", 11),
        ("a letter and 815B", b"A" + LONG, 11), ("wide katakana, B0", KATAKANA + b"\xb0", 11),
        ("a letter, 8140, a letter", b"A" + SPACE + b"A", 11), ("hiragana, narrow voicing", "すｽﾞ", 11),
        ("hiragana and letters", "すずきTARO", 11), ("letters and katakana", "TAROスズキ", 11),
        # What is of no script, by itself and with each.
        ("kanji", "鈴木　太郎", 11), ("one kanji", "薬", 11), ("kanji and hiragana", "鈴木たろう", 11),
        ("hiragana and kanji", "すずき太郎", 11), ("katakana and kanji", "スズキ太郎", 11),
        ("kanji and katakana", "鈴木タロウ", 11), ("kanji and 815B", "鈴ー", 11),
        ("8A81 and @", b"\x8a\x81\x40", 11), ("8A81, a kanji", b"\x8a\x81", 11),
        ("middle dot", "マリア・ルイサ", 11), ("middle dot, hiragana", "まりあ・るいさ", 11),
        ("middle dot alone", "・", 11), ("narrow middle dot", "ﾏﾘｱ･ﾙｲｻ", None),
        ("narrow middle dot in wide", "マリア･ルイサ", 11),
        ("voicing marks 814A", b"\x83\x4a\x81\x4a", 11), ("voicing marks 814B", b"\x82\xcd\x81\x4b", 11),
        ("iteration mark 8152", b"\x83\x52\x81\x52", 11), ("iteration mark 8153", b"\x83\x52\x81\x53", 11),
        ("iteration mark 8154", b"\x82\xb1\x81\x54", 11), ("iteration mark 8155", b"\x82\xb1\x81\x55", 11),
        ("815C, a dash", b"\x83\x8d\x81\x5c", 11), ("815A, a zero", b"\x83\x8d\x81\x5a", 11),
        ("817C, a minus", b"\x83\x8d\x81\x7c", 11), ("8141", b"\x82\xa0\x81\x41", 11),
        ("wide letter 8260", b"\x82\x60", 11), ("8260 after hiragana", b"\x82\xa0\x82\x60", 11),
        ("8260 before hiragana", b"\x82\x60\x82\xa0", 11), ("8260 after katakana", b"\x83\x41\x82\x60", 11),
        ("wide digit 824F after hiragana", b"\x82\xa0\x82\x4f", 11),
        ("829A before 829F", b"\x82\x9a\x82\x9f", 11), ("wide letters", "ＳＵＺＵＫＩ", 11),
        ("Greek 839F", b"\x83\x9f", 11), ("839F after katakana", b"\x83\x41\x83\x9f", 11),
        ("839F before katakana", b"\x83\x9f\x83\x41", 11), ("839F after 8396", b"\x83\x96\x83\x9f", 11),
        ("83D6 after katakana", b"\x83\x41\x83\xd6", 11), ("839F after hiragana", b"\x82\xa0\x83\x9f", 11),
        ("Cyrillic 8440 after katakana", b"\x83\x41\x84\x40", 11), ("box 849F", b"\x84\x9f", 11),
        # 40 bytes and more: 9 comes before 11.
        ("40 bytes of hiragana", "あ" * 20, None), ("40 bytes of katakana", "ア" * 20, None),
        ("40 bytes, one-byte", "ｱ" * 40, None), ("39 bytes, one-byte", "ｱ" * 39, None),
        ("38 bytes of hiragana", "あ" * 19, None), ("42 bytes of hiragana", "あ" * 21, 9),
        ("42 bytes of katakana", "ア" * 21, 9), ("41 bytes, one-byte", "ｱ" * 41, 9),
        ("42 bytes of 815B", LONG * 21, 9), ("42 bytes of 8140", SPACE * 21, 9),
        ("40 bytes, both scripts", "あ" * 19 + "ア", 11), ("42 bytes, both scripts", "あ" * 20 + "ア", 9),
        ("42 bytes, katakana first", "ア" + "あ" * 20, 9), ("40 bytes of kanji", "薬" * 20, 11),
        ("42 bytes of kanji", "薬" * 21, 9), ("40 bytes, both widths", "あ" * 19 + "xx", 11),
        ("41 bytes, both widths", "あ" * 20 + "x", 9), ("39 bytes, both widths", "x" + "あ" * 19, 11),
        ("42 bytes, 8140 first", "　" + "あ" * 20, 9), ("42 bytes in quotes", '"' + "あ" * 20 + '"', 9),
        ("41 bytes, 20 last", "x" * 40 + " ", 9), ("200 bytes of both", "あア" * 50, 9),
        # Spaces and quotes at the ends: 10 comes before 11.
        ("20 first, both scripts", " あア", 10), ("20 last, both scripts", "あア ", 10),
        ("8140 first, both scripts", "　あア", 10), ("8140 last, both scripts", "あア　", 10),
        ("20 first, hiragana", " すずき", 10), ("20 last, katakana", "スズキ ", 10),
        ("8140 last, one-byte", "TARO　", 10), ("8140 first, one-byte", "　TARO", 10),
        ("8140 last, kanji", "太郎　", 10), ("20 alone", " ", 10), ("20 and 8140", " 　", 10),
        ("22 around hiragana", '"すずき"', 10), ("27 around katakana", "'スズキ'", 10),
        ("22 around both", '"あア"', 10), ("22 around letters", '"TARO"', 10), ("22 22", '""', 10),
        ("22 alone", '"', None), ("22 first, letters", '"TARO', None), ("22 to 27, letters", "\"TARO'", None),
        ("22 first, hiragana", '"すずき', 11), ("27 last, katakana", "スズキ'", 11),
        ("22 to 27, hiragana", "\"すずき'", 11), ("8140 in 22", '"　"', 10),
        ("wide quotes", "”すずき”", 11), ("wide quotes 8175", "「スズキ」", 11),
    ]:
        kana("kana name: " + label, item, refusal)

    # Where other faults are due in the line: 8 to 11 item by item, the left one first,
    # whatever the kana name has.
    mixed = "すずきタロウ"
    for label, at, item, refusal in [
        ("8 left of it, name", 0, "", 8), ("8 left of it, sex", 1, "", 8), ("8 left of it, birth", 2, "", 8),
        ("9 left of it, name", 0, "x" * 41, 9), ("9 left of it, address", 4, "x" * 801, 9),
        ("9 left of it, telephone", 5, "0" * 14, 9), ("9 left of it, blood", 7, "x" * 21, 9),
        ("10 left of it, name", 0, " A", 10), ("10 left of it, blood", 7, "A ", 10),
        ("11 left of it, name", 0, "Aア", 11), ("11 left of it, sex", 1, "3", 11),
        ("11 left of it, postal code", 3, "1", 11), ("11 left of it, weight", 8, "01", 11),
    ]:
        items = ["A", "1", "H010108", "", "", "", "", "", ""]
        items[at] = item
        for what, last in (("", mixed), (", good kana", "すずき"), (", 42 bytes", "あ" * 21),
                           (", 8140 last", "あア　")):
            kana_case("kana name: " + label + what, to_provider(joined(1, [*items, last])),
                      "no %d 2" % refusal)
    for label, content, refusal in [
        ("7, an item fewer", "1,A,1,H010108,,,,,,すずきタロウ", 7),
        ("7, an item more", "1,A,1,H010108,,,,,,,すずきタロウ,", 7),
        ("7, a comma in it", "1,A,1,H010108,,,,,,,すずき,タロウ", 7),
        ("5, 01", "01,A,1,H010108,,,,,,,すずきタロウ", 5),
        ("6, 911", "911,A,1,H010108,,,,,,,すずきタロウ", 6),
        ("2, 0D behind it", b"1,A,1,H010108,,,,,,,\x82\xa0\x83\x41\r", 2),
        ("2, 0A in it", b"1,A,1,H010108,,,,,,,\x82\xa0\n\x83\x41", 2),
        ("2, 1A behind it", b"1,A,1,H010108,,,,,,,\x82\xa0\x83\x41\x1a", 2),
        ("4 in the name", b"1,\xff,1,H010108,,,,,,,\x82\xa0\x83\x41", 4),
    ]:
        kana_case("kana name: " + label, to_provider(content), "no %d 2" % refusal)
    # Which line: the first faulty one.
    bad = named(mixed)
    for label, content, answer in [
        ("before 4 in line 3", to_provider(bad, b"4,\xff,,2"), "no 11 2"),
        ("before 2 in line 3", to_provider(bad) + b"x", "no 11 2"),
        ("before 5 in line 3", to_provider(bad, "6"), "no 11 2"),
        ("before 8 in line 3", to_provider(bad, "4,,,2"), "no 11 2"),
        ("before 16 in line 4", to_provider(bad, "5,20160410,1", "5,20160411,1"), "no 11 2"),
        ("without its line end", to_provider(bad)[:-2], "no 2 2"),
        ("with 0D 0D 0A", to_provider(bad)[:-2] + b"\r\r\n", "no 2 2"),
        ("after another version", b"JAHISTC03,2\r\n" + bad + b"\r\n", "no 3 1"),
        ("after 0A in line 1", b"JAHISTC04,2\n\r\n" + bad + b"\r\n", "no 2 1"),
        ("after 5 in line 2", to_provider("6", bad), "no 5 2"),
        ("after 11 in line 2", to_provider("2,7,x,2", bad), "no 11 2"),
        ("after 14 in line 2", to_provider("4,x,,2", bad), "no 14 2"),
        ("before 13, a second record 1", to_provider(PATIENT, bad), "no 11 3"),
        ("before 13, after a 4", to_provider(PATIENT, "4,x,,2", bad), "no 11 4"),
        ("before 13, after a 701", to_provider(PATIENT, KEEPER, bad), "no 11 4"),
        ("before 13, direction 1", to_patient("2,1,x,2", bad), "no 11 3"),
        ("before 13, after a 55", to_provider(PATIENT, DATE, DOCTOR, bad), "no 11 5"),
        ("good, but a second record 1", to_provider(PATIENT, named("すずき")), "no 13 3"),
        ("before 14 at the end, direction 1", to_patient(bad), "no 11 2"),
        ("good, 14 at the end, direction 1", to_patient(named("すずき")), "no 14 3"),
        ("before 14 at a 701, direction 1", to_patient(bad, KEEPER), "no 11 2"),
        ("with 1A", to_provider(bad) + b"\x1a", "no 11 2"),
        ("with 1A twice", to_provider(bad) + b"\x1a\x1a", "no 11 2"),
    ]:
        kana_case("kana line: " + label, content, answer)

    # Both directions, the whole file with every record, with 1A and without.
    for direction in (1, 2):
        for label, item, refusal in [
            ("one-byte", "ｽｽﾞｷ TARO", None), ("hiragana", "すずき　たろー", None),
            ("katakana", "スズキ　タロー", None), ("815B", "ー", None), ("empty", "", None),
            ("both scripts", mixed, 11), ("kanji", "鈴木　太郎", 11), ("both widths", "スズキ ﾀﾛｳ", 11),
            ("middle dot", "スズキ・タロウ", 11), ("wide letters", "ＴＡＲＯ", 11),
            ("8140 last", "すずき　", 10), ("42 bytes", "あ" * 21, 9), ("FF", HIRAGANA + b"\xff", 4),
        ]:
            content, at, good = whole(direction, 1, named(item))
            answer = "no %d %d" % (refusal, at) if refusal else good
            kana_case("kana direction %d: %s" % (direction, label), content, answer)
            kana_case("kana direction %d: %s, 1A" % (direction, label), content + b"\x1a", answer)


def scripts_elsewhere():
    """Names and texts have no script: the name is of one width, texts are free."""
    for label, item, refusal in [
        ("kanji, hiragana and katakana", "鈴木すずきスズキ", None), ("hiragana and katakana", "すずきタロウ", None),
        ("rows 1 to 8", "・〒Ａあアαд─", None), ("middle dot", "マリア・ルイサ", None),
        ("kanji", "鈴木　太郎", None), ("wide letters", "ＳＵＺＵＫＩ", None),
        ("katakana and Greek", b"\x83\x41\x83\x9f", None), ("hiragana and 8260", b"\x82\xa0\x82\x60", None),
        ("both widths", "鈴木 太郎", 11), ("katakana of both widths", "スズｷ", 11), ("hiragana and a letter", "すA", 11),
    ]:
        content = to_provider(b"1," + raw(item) + b",1,H010108,,,,,,,")
        kana_case("scripts in the name: " + label, content, "no 11 2" if refusal else "ok 1 0 0")
        # Beside it a kana name, which goes by its own rule.
        kana_case("scripts in the name: %s, hiragana for kana" % label,
                  content.replace(b",,,,,,,", b",,,,,,,\x82\xa0"), "no 11 2" if refusal else "ok 1 0 0")
        kana_case("scripts in the name: %s, both scripts for kana" % label,
                  content.replace(b",,,,,,,", b",,,,,,,\x82\xa0\x83\x41"), "no 11 2")
    # All characters in names, twenty or forty at a time, mixed: each run has
    # those that lie far apart in the list.
    wide = [one for one in CHARACTERS if len(one) == 2 and one != SPACE]
    step = -(-len(wide) // 19)
    for at in range(step):
        run = wide[at::step]
        kana_case("scripts in the name: wide run %d" % at,
                  to_provider(b"1," + b"".join(run[:1] + [SPACE] + run[1:]) + b",1,H010108,,,,,,,"),
                  "ok 1 0 0")
    narrow = [one for one in OF_SCRIPT["one-byte"] if one != b","]
    for at in range(5):
        kana_case("scripts in the name: narrow run %d" % at,
                  to_provider(b"1,x" + b"".join(narrow[at::5]) + b"x,1,H010108,,,,,,,"), "ok 1 0 0")

    # Every text, in both directions.
    text = "漢あアーｱA・"
    assert len(raw(text)) == 12
    for number in NUMBERS:
        for at, (kind, _) in enumerate(ITEMS[number]):
            if kind[0] != "N":
                continue
            where = "scripts in %d item %d" % (number, at + 1)
            content, _, good = alone(number, changed(number, at, text))
            kana_case(where, content, good)
            # Direction 1 asks for a form, and no form has such a unit.
            if (number, at) != (301, 3):
                content, _, good = whole(1, number, changed(number, at, text))
                kana_case(where + ", direction 1", content, good)
            # The same text as a kana name is the first fault.
            if number != 1:
                content = content.replace(raw(PATIENT), raw(PATIENT) + raw(text))
                kana_case(where + " and as a kana name", content, "no 11 2")


# =============================================================================
# The examples of 15-106
# =============================================================================

# Appendix 1, with the commas and empty items that the crawled copy lost put
# back from the record tables, and its spaces beside commas taken away. Spaces
# inside names are wide: the copy does not tell, and record 1 forbids mixing.
# Names that the copy misread are spelled as the page's picture of the notebook
# or the other examples have them; no answer depends on it.

TARO = "1,鈴木　太郎,1,S330303,,,,,,,"
TARO_WESTERN = "1,鈴木　太郎,1,19580303,,,,,,,"
TARO_LONG = ("1,鈴木　太郎,1,S330303,105-0004,東京都港区新橋１丁目,03-3506-8010,"
             "090-0000-0000,B+,63.7,")
APRIL_11 = "5,H280411,1"
APRIL_7 = "5,H280407,1"
STATION_SHOP = "11,株式会社　工業会薬局　駅前店,13,4,1234567,,,,1"
KOGYOKAI = "11,医療法人　工業会病院,13,1,1234567,,,,1"
FROM_KOGYOKAI = "51,医療法人　工業会病院,13,1,1234567,1"


def two_drugs(amount):
    return ["201,1,コリオパンカプセル5mg,%s,C,2,620004992,1" % amount,
            "201,1,フェロベリン配合錠,%s,錠,2,620425801,1" % amount]


POWDERS = ["201,2,アドソルビン原末,1.5,g,2,620008284,1",
           "201,2,タンナルビン「ヨシダ」,1.5,g,2,612370122,1",
           "201,2,レベニン散,2,g,2,620007148,1"]
TWICE = "301,1,【分２　朝夕食後服用】,5,日分,1,1,,1"
THRICE = "301,1,【分３　毎食後服用】,5,日分,1,1,,1"
POWDERS_THRICE = "301,2,【分３　毎食後服用】,5,日分,1,1,,1"
GARGLE = ["201,3,イソジンガーグル液7%,60,ml,2,620008969,1",
          "301,3,【１日３〜４回　うがい】,1,調剤,5,1,,1"]
INJECTION = ["201,4,ノボラピッド注ペンフィル　300単位,2,筒,2,620008894,1",
             "301,4,【１日２回　朝14単位　夕6単位】,1,調剤,4,1,,1"]
NEEDLE = ["201,5,ペンニードル30G/8mm(ノボ),60,本,2,710010093,1",
          "301,5,,1,調剤,9,1,,1"]
BAG = "501,正しい飲み方は薬袋等をご覧下さい。,1"


def container(rp):
    return ["201,%d,容器,1,個,1,,1" % rp, "301,%d,,1,調剤,10,1,,1" % rp]


def examples():
    case("example 1",
         to_patient(TARO, APRIL_11, STATION_SHOP, FROM_KOGYOKAI, *two_drugs(4), TWICE,
                    *POWDERS, POWDERS_THRICE), "ok 11 1 5")
    case("example 1, narrow space in the name",
         to_patient("1,鈴木 太郎,1,S330303,,,,,,,", APRIL_11), "no 11 2")
    # Its 301 of RP 4 has lost a comma.
    case("example 2",
         to_patient(TARO_WESTERN, APRIL_11, STATION_SHOP, FROM_KOGYOKAI, *two_drugs(6),
                    THRICE, *POWDERS, POWDERS_THRICE, *GARGLE, *INJECTION, *NEEDLE,
                    *container(6)), "ok 19 1 9")

    # Example 3 has a needle with code kind 1 and a code; examples 2 and 4 have 2.
    def third(needle):
        return to_patient(
            TARO_WESTERN, APRIL_11, STATION_SHOP, "15,薬剤師　太郎,,1", FROM_KOGYOKAI,
            "55,工業会　次郎,,1", two_drugs(6)[0], "281,1,朝：3C、昼：2C、夕：1C,1",
            two_drugs(6)[1], "281,1,朝：1錠、昼：3錠、夕：2錠,1", THRICE, "311,1,一包化,1",
            *POWDERS, POWDERS_THRICE, *GARGLE, *INJECTION, needle, NEEDLE[1],
            *container(6), BAG)

    case("example 3", third(NEEDLE[0].replace(",2,7100", ",1,7100")), "no 12 22")
    case("example 3, code kind 2", third(NEEDLE[0]), "ok 25 1 9")

    fourth = [TARO_WESTERN, APRIL_11, STATION_SHOP, "15,薬剤師　太郎,,1", FROM_KOGYOKAI,
              "55,工業会　次郎,内科,1", *two_drugs(6), THRICE, *POWDERS, POWDERS_THRICE,
              *GARGLE, *INJECTION, *NEEDLE, "55,佐藤　三郎,皮膚科,1",
              "201,6,リンデロン-VG軟膏0.12%,10,g,2,662640418,1",
              "301,6,【患部に塗布】,1,調剤,5,1,,1", *container(7), BAG]
    case("example 4", to_patient(*fourth), "ok 25 1 10")
    # 3.2.10 cuts the same file in two, after the powders. A piece is no file.
    case("3.2.10, piece 1",
         to_patient(*fourth[:12], "911,12345678901234,2,1"), "no 6 14")
    case("3.2.10, piece 2",
         to_patient(*fourth[12:], "911,12345678901234,2,2"), "no 13 2")

    case("example 5",
         to_patient(TARO, APRIL_11, KOGYOKAI, *two_drugs(4), TWICE, *POWDERS,
                    POWDERS_THRICE), "ok 10 1 5")
    case("example 6",
         to_patient(TARO, APRIL_11, KOGYOKAI, *two_drugs(4), "301,1,,5,日分,1,1,,1", *POWDERS,
                    "301,2,,5,日分,1,1,,1"), "ok 10 1 5")

    # Example 7: the 701 has no contact, which its table requires. Its 201 has
    # lost the code kind; the code is one of kind 2.
    def seventh(adalat, keeper):
        return to_patient(
            TARO_LONG, "2,1,乳製品,1", "2,2,セフェム系(発熱),1", "2,3,狭心症(2011年〜),1",
            "2,9,嚥下困難,1", APRIL_11,
            "11,株式会社　工業会薬局　駅前店,13,4,1234567,105-0004,東京都港区新橋２丁目,"
            "03-2222-2222,1",
            "15,薬剤師　太郎,03-3333-3333,1", FROM_KOGYOKAI, "55,工業会　次郎,内科,1", adalat,
            "291,1,グレープフルーツジュースと一緒に飲まないでください。"
            "効き目が強くなることがあります。,1",
            "301,1,【分２　朝夕食後服用】,5,日分,1,1,,1",
            "391,1,めまい等が現れることがあるので車の運転や高所作業等に注意してください。,1",
            "401,他の薬を併用する際は、相談してください。,1", keeper)

    adalat = "201,1,アダラート錠10mg,2,錠,2,612170539,1"
    no_contact = "701,薬剤師　太郎,工業会薬局　駅前店,,,,1"
    contact = "701,薬剤師　太郎,工業会薬局　駅前店,03-3506-8010,H280411,,1"
    case("example 7", seventh(adalat, no_contact), "no 8 17")
    case("example 7, with a contact", seventh(adalat, contact), "ok 16 1 1")
    case("example 7, code kind lost",
         seventh("201,1,アダラート錠10mg,2,錠,612170539,1", contact), "no 7 12")

    case("example 8",
         to_patient(TARO, APRIL_11, "11,株式会社　工業病院,13,1,1234567,,,,1",
                    "15,工業会　次郎,,1",
                    "411,嚥下困難が見られるため、錠剤は粉砕して投与する。,31,1"), "ok 5 1 0")

    ointment = ["201,1,リンデロン-VG軟膏0.12%,5,g,2,662640418,1",
                "301,1,【患部に塗布】,1,調剤,5,1,,1"]
    loxonin = ["201,2,ロキソニン錠60mg,1,錠,2,620098801,1",
               "301,2,【腰痛時】,10,回分,3,1,,1"]
    old_drugs = ["201,1,アダラートCR錠20mg,1,錠,2,610421321,1",
                 "201,2,ファモチジンOD錠20mg「トーワ」,2,錠,2,621687401,1",
                 "201,3,シンバスタチン錠10mg,1,錠,2,622315500,1"]
    old_usages = ["301,1,【分１　朝食後服用】,28,日分,1,1,,1",
                  "301,2,【分２　朝夕食後服用】,28,日分,1,1,,1",
                  "301,3,【分１　夕食後服用】,28,日分,1,1,,1"]
    case("example 9",
         to_patient(TARO, APRIL_11, STATION_SHOP, "15,薬剤師　次郎,,1", FROM_KOGYOKAI,
                    *ointment, *loxonin, APRIL_7, STATION_SHOP, "15,薬剤師　太郎,,1",
                    FROM_KOGYOKAI, old_drugs[0], old_usages[0], old_drugs[1], old_usages[1],
                    old_drugs[2], old_usages[2]), "ok 19 2 5")
    case("example 9, groups in the other order",
         to_patient(TARO, APRIL_7, STATION_SHOP, FROM_KOGYOKAI, *ointment, *loxonin,
                    APRIL_11, STATION_SHOP, FROM_KOGYOKAI, *ointment), "no 16 10")

    # Example 10: direction 2, most of the items that direction 1 asks for are empty.
    case("example 10",
         to_provider(TARO, APRIL_11, "11,株式会社　工業会薬局　駅前店,,,,,,,1",
                     "51,医療法人　工業会病院,,,,1",
                     old_drugs[0], "301,1,【分１　朝食後服用】,,,,,,1",
                     old_drugs[1], "301,2,【分２　朝夕食後服用】,,,,,,1",
                     old_drugs[2], "301,3,【分１　夕食後服用】,,,,,,1",
                     "601,朝に薬を飲んだ後、めまいがあった,H280412"), "ok 11 1 3")

    # Example 11: a 401 stands before the 201 of RP 3; its 701 has no contact.
    above = [TARO_LONG, "2,1,乳製品,1", "2,2,セフェム系(発熱),1", "2,3,狭心症(2011年〜),1",
             "2,9,嚥下困難,1", "3,バファリン,H280409,H280409,2", "4,健康診断,H280411,2",
             "4,インフルエンザ予防接種,H280331,2", APRIL_11, STATION_SHOP,
             "15,薬剤師　次郎,,1", FROM_KOGYOKAI, ointment[0],
             "291,1,かゆみや発赤、腫れがあらわれた場合には、"
             "主治医または薬剤師に相談してください。,1",
             ointment[1], *loxonin, APRIL_7, "11,株式会社　工業会薬局　駅前店,,,,,,,1",
             "15,薬剤師　太郎,,1", "51,医療法人　工業会病院,,,,1", old_drugs[0],
             "291,1,グレープフルーツジュースと一緒に飲まないでください。"
             "効き目が強くなることがあります。,1", old_usages[0],
             "391,1,めまい等が現れることがあるので車の運転や高所作業等に注意してください。,1",
             old_drugs[1], old_usages[1]]
    care = "401,他の薬を併用する際は、相談してください。,1"
    third_rp = [old_drugs[2], old_usages[2]]
    wish = "601,朝に薬を飲んだ後、めまいがあった,H280412"
    no_contact = no_contact.replace("太郎", "次郎")
    case("example 11",
         to_provider(*above, care, *third_rp, wish, no_contact), "no 13 30")
    case("example 11, the 401 moved",
         to_provider(*above, *third_rp, care, wish, no_contact), "no 8 33")
    case("example 11, the 401 moved, with a contact",
         to_provider(*above, *third_rp, care, wish, contact), "ok 32 2 5")


# =============================================================================
# All of them, and all pairs of bytes
# =============================================================================


def all_cases():
    for family in [of_the_paper, dates, line_ends, version_line, byte_limit, characters,
                   numbers, every_item, edges, kinds, pairs, two_faults, missing_records,
                   usage_and_group, after_51_and_55, prescriptions, doctors,
                   order_in_a_group, neighbours, examples, kana_names, kana_scripts, kana_places,
                   kana_runs, kana_characters, kana_broken, scripts_elsewhere]:
        family()


def answer_of_oracle(content):
    return " ".join(str(part) for part in oracle.check(content))


def byte_pairs():
    """One line per first byte, one sign per second byte."""
    head = to_provider(PATIENT)
    rows = []
    for a in range(256):
        row = ""
        for b in range(256):
            found = oracle.check(head + b"4,x" + bytes([a, b]) + b"x,,2\r\n")
            # Wherever the pair breaks the file in two lines, the first is faulty
            # already: a stray byte (2), or after 0Dh 0Ah the line 4,x (7).
            if found[0] == "ok":
                row += "."
            else:
                row += str(found[1]) if found[2] == 3 else "?"
        rows.append(row)
    flat = "".join(rows)
    assert "?" not in flat and rows[0x0D][0x0A] == "7" and rows[0x0A][0x0D] == "2"
    assert set(flat) == set(".247")
    return rows


# =============================================================================
# Writing
# =============================================================================


def packed(letter, label, content=b"", room=0, capacity=0, ident=b"", used=b""):
    """The frame of a call: tests/README.md says what stands where."""
    name = label.encode("ascii")
    return b"".join([
        letter.encode("ascii"), bytes([len(name)]), name, room.to_bytes(4, "big"),
        capacity.to_bytes(8, "big"), bytes([len(ident)]), ident,
        len(used).to_bytes(4, "big"), used, len(content).to_bytes(4, "big"), content])


def check_frames():
    """Label, frame and answer of each case of check."""
    all_cases()
    frames, disagreements = [], 0
    for label, content, answer in CASES + KANA:
        assert 0 < len(label) < 80 and len(content) <= 65600
        found = answer_of_oracle(content)
        if found != answer:
            disagreements += 1
            print("%s: here %s, oracle %s" % (label, answer, found), file=sys.stderr)
        frames.append((label, packed("v", label, content), answer))
    assert disagreements == 0

    counts = collections.Counter(
        "ok" if answer.startswith("ok") else int(answer.split()[1])
        for _, _, answer in CASES + KANA)
    assert all(counts[number] >= 3 for number in range(1, 17))
    print("check: %d cases, %d of them of kana names, %d bytes: %d ok" % (
        len(frames), len(KANA), sum(len(content) for _, content, _ in CASES + KANA),
        counts.pop("ok")))
    print(", ".join("%d: %d" % pair for pair in sorted(counts.items())))
    return frames


def pairs_frame():
    """The one frame that asks for the table of all pairs of bytes."""
    label = "byte pairs"
    return (label, packed("p", label), "\n".join(["256 lines"] + byte_pairs()))


def write(out_dir, frames):
    """The program's input and what it has to write for it."""
    stdin = b"".join(frame for _, frame, _ in frames)
    stdout = "".join("%s: %s\n" % (label, answer) for label, _, answer in frames)
    # A label is looked up as the start of a line: it may stand at the start of one only.
    starts = collections.Counter(
        line[: found.start()] for line in stdout.splitlines() for found in re.finditer(": ", line))
    twice = [label for label, _, _ in frames if starts[label] != 1]
    assert twice == [], twice
    assert len(stdin) < 12_000_000
    folder = os.path.join(out_dir, "cases")
    os.makedirs(folder, exist_ok=True)
    for name, content in (("stdin", stdin), ("stdout", stdout.encode("ascii"))):
        with open(os.path.join(folder, name), "wb") as out:
            out.write(content)


if __name__ == "__main__":
    if len(sys.argv) != 2:
        sys.exit("usage: make_cases.py OUT_DIR")
    # call_cases imports this file, so that both work on one list of cases.
    import call_cases
    import make_cases

    checks = make_cases.check_frames()
    make_cases.write(sys.argv[1], checks + call_cases.call_frames() + [make_cases.pairs_frame()])
