"""A plain reading of document 01 with the requests of document 02 that have
landed ((i), Reiwa; (v), the clinic in the index; (vii), IDs that have been used;
(viii), one script in kana names), for comparing with the gateway.

check(data) answers ("ok", records, groups, drugs) or ("no", number, line).
Whatever a record's standing depends on is found by looking back over the list
of the records before it, so that the rules are not told a second time as a
state machine.

index(data, out), canonical(data, out), cut(data, capacity, ident, used, out)
and join(data, out) answer a pair: ("ok", value, ..) or ("no", number, line),
and the buffer afterwards. Cut and join build pieces and look at their bytes;
they count no lengths ahead.
"""

import datetime
import functools
import re
import unicodedata
from collections import Counter, namedtuple

LIMIT = 65536

# --- characters: from Python's codec, not from 01's table of cells -----------


def _decoded(raw):
    """The one character that these bytes are, or None."""
    try:
        text = raw.decode("shift_jis")
    except UnicodeDecodeError:
        return None
    return text if len(text) == 1 else None


def _row_and_cell(pair):
    """Row and cell of JIS X 0208, by way of the ISO-2022-JP codec."""
    raw = _decoded(pair).encode("iso2022_jp")
    assert raw[:3] == b"\x1b$B" and len(raw) == 8
    return raw[3] - 0x20, raw[4] - 0x20


# The codec also takes the control characters 00h-1Fh and 7Fh: left out.
ONE_BYTE = {
    bytes([b])
    for b in range(256)
    if _decoded(bytes([b])) and unicodedata.category(_decoded(bytes([b]))) != "Cc"
}

# JIS X 0208-1990 added 84-5 and 84-6, so 1983 is the codec without these two.
TWO_BYTE = {
    bytes([a, b])
    for a in range(0x80, 256)
    for b in range(256)
    if _decoded(bytes([a, b]))
}
_ADDED_1990 = {"凜".encode("shift_jis"), "熙".encode("shift_jis")}
assert {_row_and_cell(pair) for pair in _ADDED_1990} == {(84, 5), (84, 6)}
TWO_BYTE -= _ADDED_1990
assert len(TWO_BYTE) == 6877
assert len(ONE_BYTE) == 95 + 63


def characters(raw):
    """The list of characters, each as its bytes; None if one is no character."""
    found, at = [], 0
    while at < len(raw):
        for length, allowed in ((1, ONE_BYTE), (2, TWO_BYTE)):
            if raw[at : at + length] in allowed:
                found.append(raw[at : at + length])
                at += length
                break
        else:
            return None
    return found


# 02 (viii): "allowed with either two-byte script, or by themselves"
WITH_EITHER = {b"\x81\x40", b"\x81\x5b"}


def of_row(character, row):
    """Whether this is a two-byte character of the row, or one that goes with it."""
    if len(character) == 1:
        return False
    return character in WITH_EITHER or _row_and_cell(character)[0] == row


def one_script(found):
    """02 (viii): "all one-byte, or all hiragana (row 4), or all katakana (row 5)"."""
    return (
        all(len(one) == 1 for one in found)
        or all(of_row(one, 4) for one in found)
        or all(of_row(one, 5) for one in found)
    )


# --- items ------------------------------------------------------------------

FIRST_DAY = datetime.date(1873, 1, 1)
LAST_DAY = datetime.date(2087, 12, 31)

# letter: year before year 1, first day, last day that is read. An era is a row
# here and nothing else: letters and spellings are taken from the rows.
ERAS = {
    b"M": (1867, FIRST_DAY, datetime.date(1912, 7, 29)),
    b"T": (1911, datetime.date(1912, 7, 30), datetime.date(1926, 12, 24)),
    b"S": (1925, datetime.date(1926, 12, 25), datetime.date(1989, 1, 7)),
    # 02 (i): "Heisei ends for writing on 30 April 2019. A later day under H, from
    # older phones, is still read and is written under R."
    b"H": (1988, datetime.date(1989, 1, 8), LAST_DAY),
    b"R": (2018, datetime.date(2019, 5, 1), LAST_DAY),
}


def day(raw):
    """The day that a D item names, or None."""
    western = re.fullmatch(rb"([0-9]{4})([0-9]{2})([0-9]{2})", raw)
    era = re.fullmatch(rb"(.)([0-9]{2})([0-9]{2})([0-9]{2})", raw)
    try:
        if western:
            found = datetime.date(*(int(part) for part in western.groups()))
            first, last = FIRST_DAY, LAST_DAY
        elif era and era[1] in ERAS:
            before, first, last = ERAS[era[1]]
            found = datetime.date(before + int(era[2]), int(era[3]), int(era[4]))
        else:
            return None
    except ValueError:
        return None
    return found if first <= found <= last else None


PATTERNS = {
    "A": rb"[1289]",
    "F": rb"0[1-9]|[123][0-9]|4[0-7]",
    "C": rb"[0-9]{7}",
    "P": rb"[0-9]{3}-?[0-9]{4}",
    "R": rb"(?!0+\Z)[0-9]{1,3}",
    "W": rb"(0|[1-9][0-9]{0,2})(\.[0-9]{0,2}[1-9])?",
    "Q": rb"(0|[1-9][0-9]{0,5})(\.[0-9]{0,4}[1-9])?",
    "X": rb"[A-Za-z0-9.-]+",
}

# name: items in order. An item is kind, most bytes (N, U, K, X) or values
# (braces, written as one string), and its need. K is 02 (viii)'s kana name.
TABLE = {
    "1": ["U 40 !", "= 1/2 !", "D !", "P ?", "N 800 ?", "X 13 ?", "N 800 ?",
          "N 20 ?", "W ?", "K 40 ?"],
    "2": ["= 1/2/3/9 !", "N 120 !", "A !"],
    "3": ["N 120 !", "D ?", "D ?", "A !"],
    "4": ["N 400 !", "D ?", "A !"],
    "5": ["D !", "A !"],
    "11": ["N 120 !", "F +", "= 1/3/4 +", "C ?", "P ?", "N 800 ?", "X 13 ?",
           "A !"],
    "15": ["N 40 !", "N 800 ?", "A !"],
    "51": ["N 120 !", "F +", "= 1/3 +", "C ?", "A !"],
    "55": ["N 40 !", "N 80 ?", "A !"],
    "201": ["R !", "N 120 !", "Q !", "N 12 !", "= 1/2/3/4/6 +", "X 13 ?", "A !"],
    "281": ["R !", "N 100 !", "A !"],
    "291": ["R !", "N 400 !", "A !"],
    "301": ["R !", "N 100 ?", "R +", "N 100 +", "= 1/2/3/4/5/6/7/9/10 +",
            "= 1/2 +", "X 16 ?", "A !"],
    "311": ["R !", "N 100 !", "A !"],
    "391": ["R !", "N 400 !", "A !"],
    "401": ["N 400 !", "A !"],
    "411": ["N 400 !", "= 30/31/99 !", "A !"],
    "501": ["N 400 !", "A !"],
    "601": ["N 400 !", "D ?"],
    "701": ["N 40 !", "N 120 !", "N 800 !", "D ?", "D ?", "A !"],
}

EDGES = {b" ", b"\x81\x40"}


def item_fault(direction, item, rule):
    """8, 9, 10, 11 or None for one item."""
    parts = rule.split()
    kind, need = parts[0], parts[-1]
    if item == b"":
        return 8 if need == "!" or (need == "+" and direction == 1) else None
    if kind in ("N", "U", "K", "X"):
        if len(item) > int(parts[1]):
            return 9
        found = characters(item)
        if found[0] in EDGES or found[-1] in EDGES:
            return 10
        if len(item) >= 2 and item[:1] == item[-1:] and item[:1] in (b'"', b"'"):
            return 10
        if kind == "U" and len({len(one) for one in found}) > 1:
            return 11
        if kind == "K" and not one_script(found):
            return 11
        if kind == "X" and not re.fullmatch(PATTERNS["X"], item):
            return 11
    elif kind == "D":
        return None if day(item) else 11
    elif kind == "=":
        return None if item in [v.encode() for v in parts[1].split("/")] else 11
    elif not re.fullmatch(PATTERNS[kind], item):
        return 11
    return None


# --- pairs ------------------------------------------------------------------

Record = namedtuple("Record", "number items")

PREPARATION = bytes.fromhex("92B28DDC")
DAYS = bytes.fromhex("93FA95AA")
TIMES = bytes.fromhex("89F195AA")


def open_group(before):
    """The records from the last 5 on; empty where no group is open."""
    numbers = [r.number for r in before]
    if 5 not in numbers or 701 in numbers:
        return []
    return before[len(numbers) - 1 - numbers[::-1].index(5) :]


def institution(group):
    """The kind in the group's 11, or None without one."""
    kinds = [r.items[2] for r in group if r.number == 11]
    return kinds[0] if kinds else None


def pair_fault(direction, before, rec):
    if rec.number not in (201, 301):
        return False
    kind, code = rec.items[-3], rec.items[-2]
    if (code == b"") != (kind in (b"", b"1")):
        return True
    if rec.number == 201:
        return False
    _, usage, quantity, unit, form = rec.items[:5]
    if form in (b"2", b"4", b"5", b"9", b"10"):
        if quantity != b"" and int(quantity) != 1:
            return True
        units = [PREPARATION]
    elif form == b"1":
        units = [DAYS]
    elif form == b"3":
        units = [TIMES]
    elif form in (b"6", b"7"):
        units = [DAYS, TIMES]
    else:
        units = [unit]
    if unit != b"" and unit not in units:
        return True
    asked = direction == 2 or (
        institution(open_group(before)) == b"4" and form not in (b"9", b"10")
    )
    return asked and usage == b""


# --- place ------------------------------------------------------------------

OF_RP = (201, 281, 291, 301, 311, 391)

# Which part of a group a record belongs to; the parts stand in this order.
PART = {11: 1, 15: 2, 51: 3, 55: 4, 401: 5, 411: 6, 501: 7, 601: 8}
PART.update((number, 4) for number in OF_RP)

# Which records of an RP may stand right before one of it (a 201 needs none).
RIGHT_BEFORE = {
    281: (201, 281),
    291: (201, 281, 291),
    301: (201, 281, 291),
    311: (301, 311),
    391: (201, 281, 291, 301, 311, 391),
}


def may_stand(direction, before, number):
    numbers = [r.number for r in before]
    last = numbers[-1] if numbers else None
    if last == 55 and number != 201:
        return False
    if direction == 1 and last == 51 and number not in (55, 201):
        return False
    if number == 1:
        return numbers == []
    if number in (2, 3, 4):
        return all(earlier <= number for earlier in numbers)
    if number == 5:
        return 701 not in numbers
    if number == 701:
        return True
    group = open_group(before)
    if not group:
        return False
    inside = [r.number for r in group[1:]]
    if any(PART[earlier] > PART[number] for earlier in inside):
        return False
    if number in (11, 15, 51) and number in inside:
        return False
    if direction == 1:
        if number in (51, 55) and institution(group) in (b"1", b"3"):
            return False
        if number == 401 and 201 not in inside:
            return False
    if number == 55:
        return 201 not in inside or 55 in inside
    if number in RIGHT_BEFORE:
        return last in RIGHT_BEFORE[number]
    return True


# --- prescriptions ----------------------------------------------------------


def begins_rp(group, rec):
    """Whether this 201 begins an RP, standing after these records of a group."""
    if group[-1].number not in (201, 281, 291):
        return True
    return int(group[-1].items[0]) != int(rec.items[0])


def prescriptions(group):
    """The group's RPs so far, each as its list of records."""
    found = []
    for at, rec in enumerate(group):
        if rec.number == 201 and begins_rp(group[at - 1 : at], rec):
            found.append([])
        if rec.number in OF_RP:
            found[-1].append(rec)
    return found


def value_fault(before, rec):
    if rec.number not in OF_RP:
        return False
    group = open_group(before)
    rps = prescriptions(group)
    expected = int(rps[-1][0].items[0]) if rps else 0
    if rec.number == 201 and begins_rp(group, rec):
        expected += 1
    return int(rec.items[0]) != expected


# --- what is missing where a part closes --------------------------------------


def missing(direction, before, rec):
    """Whether 14 is due at this record, which may stand; None for the end."""
    number = rec.number if rec else None
    numbers = [r.number for r in before]
    if rec is None and numbers and numbers[-1] == 55:
        return True
    if direction == 2:
        return numbers == [] and number != 1

    if rec is None and numbers and numbers[-1] == 51:
        return True
    if number in (701, None) and 5 not in numbers:
        return True
    group = open_group(before)
    if not group:
        return False
    rps = prescriptions(group)
    if group[-1].number in OF_RP:
        of_it = number in OF_RP and not (number == 201 and begins_rp(group, rec))
        if not of_it and 301 not in [r.number for r in rps[-1]]:
            return True
    if number in (5, 701, None):
        inside = [r.number for r in group]
        if 11 not in inside:
            return True
        if rps and institution(group) == b"4" and 51 not in inside:
            return True
        if not rps and 411 not in inside:
            return True
    return False


def newer(before, rec):
    if rec.number != 5:
        return False
    days = [day(r.items[0]) for r in before if r.number == 5]
    return days != [] and day(rec.items[0]) > days[-1]


# --- check ------------------------------------------------------------------


def record_fault(direction, before, line):
    """(number of the refusal or None, the record if there is one)"""
    if characters(line) is None:
        return 4, None
    name, *items = line.split(b",")
    name = name.decode("shift_jis")
    if name == "911":
        return 6, None
    if name not in TABLE:
        return 5, None
    rules = TABLE[name]
    if len(items) != len(rules):
        return 7, None
    for item, rule in zip(items, rules):
        fault = item_fault(direction, item, rule)
        if fault:
            return fault, None
    rec = Record(int(name), items)
    if pair_fault(direction, before, rec):
        return 12, None
    if not may_stand(direction, before, rec.number):
        return 13, None
    if missing(direction, before, rec):
        return 14, None
    if value_fault(before, rec):
        return 15, None
    if newer(before, rec):
        return 16, None
    return None, rec


# A file is checked once, whatever is then asked of it.
@functools.cache
def check(data):
    if len(data) > LIMIT:
        return ("no", 1, 0)
    *lines, rest = data.split(b"\r\n")
    records = []
    direction = None
    for at, line in enumerate(lines, 1):
        if re.search(rb"[\r\n\x1a]", line):
            return ("no", 2, at)
        if at == 1:
            if line not in (b"JAHISTC04,1", b"JAHISTC04,2"):
                return ("no", 3, 1)
            direction = int(line[-1:])
            continue
        fault, rec = record_fault(direction, records, line)
        if fault:
            return ("no", fault, at)
        records.append(rec)
    end = len(lines) + 1
    if lines == [] or rest not in (b"", b"\x1a"):
        return ("no", 2, end)
    if missing(direction, records, None):
        return ("no", 14, end)
    numbers = [r.number for r in records]
    return ("ok", len(numbers), numbers.count(5), numbers.count(201))


# --- buffers ----------------------------------------------------------------


def written(result, values, out):
    """The result at the front of the buffer, or 20 and the buffer as it was."""
    if len(out) < len(result):
        return ("no", 20, 0), out
    return ("ok",) + values, result + out[len(result) :]


# --- index ------------------------------------------------------------------


def lines_of(data):
    """The lines of an accepted file, without line ends and 1Ah."""
    return data.split(b"\r\n")[:-1]


# The numbers of an entry, in their order.
ENTRY = "record offset bytes group doctor drug clinic".split()


def in_group(last, number):
    """The line of the last such record if it is in the open group, which began with the last 5;
    else 0. 02 (v): "or 0 where none has yet stood in that group". A 701 is in no group."""
    return last[number] if last[number] > last[5] and not last[701] else 0


def entries(data):
    """The numbers of ENTRY for each record of an accepted file."""
    found = []
    last = Counter()  # the line of the last record of each number, or 0
    groups = 0
    offset = len(b"JAHISTC04,1\r\n")
    for at, line in enumerate(lines_of(data)[1:], 2):
        number = int(line.split(b",")[0])
        groups += number == 5
        doctor = in_group(last, 55) if 201 <= number <= 391 else 0
        drug = last[201] if number in (281, 291) else 0
        last[number] = at  # "The record 51 itself shows its own line"
        group = groups if not last[701] else 0
        found += [number, offset, len(line), group, doctor, drug, in_group(last, 51)]
        offset += len(line) + 2
    return found


def index(data, out):
    answer = check(data)
    if answer[0] == "no":
        return answer, out
    return written(entries(data), (answer[1],), out)


# --- canonical --------------------------------------------------------------


def era_form(found):
    """The day under the newest era that has begun, whichever others read it."""
    begun = [(first, letter) for letter, (_, first, _) in ERAS.items() if first <= found]
    _, letter = max(begun)
    year = found.year - ERAS[letter][0]
    return letter + b"%02d%02d%02d" % (year, found.month, found.day)


def canonical_item(item, rule):
    kind = rule.split()[0]
    if item == b"":
        return item
    if kind == "D":
        return era_form(day(item))
    if kind == "P":
        return item.replace(b"-", b"")
    if kind == "R":
        return b"%d" % int(item)
    return item


def canonical_lines(data):
    """The lines of an accepted file's canonical file, without line ends."""
    first, *records = lines_of(data)
    found = [first]
    for line in records:
        name, *items = line.split(b",")
        rules = TABLE[name.decode()]
        items = [canonical_item(item, rule) for item, rule in zip(items, rules)]
        found.append(b",".join([name] + items))
    return found


def file_of(lines):
    return b"".join(line + b"\r\n" for line in lines)


def canonical(data, out):
    answer = check(data)
    if answer[0] == "no":
        return answer, out
    result = file_of(canonical_lines(data))
    return written(result, (len(result),), out)


# --- cut --------------------------------------------------------------------


def valid_id(ident):
    return re.fullmatch(rb"[0-9]{14}", ident) is not None


def ids_of(run):
    """02 (vii): "a lent run of 14-byte IDs". What is left at its end is shorter."""
    return [run[at : at + 14] for at in range(0, len(run), 14)]


def is_used(ident, run):
    """02 (vii): "the run's length isn't a multiple of 14 or one of its IDs is the one given"."""
    return len(run) % 14 != 0 or ident in ids_of(run)


def piece(first, run, ident, n, k):
    return file_of([first] + run + [b"911,%s,%d,%d" % (ident, n, k)])


def runs_for(first, records, capacity, ident, width):
    """The runs that the pieces hold if n has this many digits, or None."""
    stand_in = 10**width - 1  # any number of this width
    left, runs = list(records), []
    while left:
        k = len(runs) + 1
        if k > stand_in:
            return None
        run = []
        while left and len(piece(first, run + left[:1], ident, stand_in, k)) <= capacity:
            run.append(left.pop(0))
        if not run:
            return None
        runs.append(run)
    return runs if len(str(len(runs))) == width and len(runs) >= 2 else None


def pieces_of(data, capacity, ident):
    """The pieces of an accepted file, or None where no width serves."""
    first, *records = canonical_lines(data)
    whole = file_of([first] + records)
    if len(whole) <= capacity:
        return [whole]
    for width in (1, 2, 3):
        runs = runs_for(first, records, capacity, ident, width)
        if runs:
            return [piece(first, run, ident, len(runs), k) for k, run in enumerate(runs, 1)]
    return None


def cut(data, capacity, ident, used, out):
    answer = check(data)
    if answer[0] == "no":
        return answer, out
    if not valid_id(ident):
        return ("no", 17, 0), out
    if is_used(ident, used):
        return ("no", 24, 0), out
    pieces = pieces_of(data, capacity, ident)
    if pieces is None:
        return ("no", 18, 0), out
    result = b"".join(pieces)
    return written(result, (len(pieces), len(result)), out)


# --- join -------------------------------------------------------------------

JOIN_LIMIT = 131072
FIRST_LINES = (b"JAHISTC04,1", b"JAHISTC04,2")


def join_lines(data):
    """The lines without 1Ahs, None; or None and the line of a 2."""
    *lines, rest = data.split(b"\r\n")
    found, begun = [], False  # begun: whether a piece has
    for at, line in enumerate(lines, 1):
        if begun and line[:1] == b"\x1a" and line[1:] in FIRST_LINES:
            line = line[1:]
        if re.search(rb"[\r\n\x1a]", line):
            return None, at
        found.append(line)
        begun = begun or line in FIRST_LINES
    if found == [] or not (rest == b"" or begun and rest == b"\x1a"):
        return None, len(lines) + 1
    return found, None


def is_911(line):
    return line == b"911" or line.startswith(b"911,")


def mark(line):
    """ID, n and k of a record 911, or None."""
    found = re.fullmatch(rb"911,([0-9]{14}),([0-9]{1,3}),([0-9]{1,3})", line)
    return (found[1], int(found[2]), int(found[3])) if found else None


def joined_lines(lines):
    """The joined file's lines, or None where the pieces are no set."""
    if lines[0] not in FIRST_LINES:
        return None
    pieces = []
    for line in lines:
        if line in FIRST_LINES:
            pieces.append([])
        pieces[-1].append(line)
    if len(pieces) == 1 and not any(is_911(line) for line in pieces[0]):
        return pieces[0]
    by_k = {}
    for one in pieces:
        if [is_911(line) for line in one] != [False] * (len(one) - 1) + [True]:
            return None
        if mark(one[-1]) is None:
            return None
        by_k[mark(one[-1])[2]] = one[1:-1]
    if len({(one[0],) + mark(one[-1])[:2] for one in pieces}) != 1:
        return None
    n = mark(pieces[0][-1])[1]
    if not 2 <= n <= 999 or len(pieces) != n or sorted(by_k) != list(range(1, n + 1)):
        return None
    return pieces[0][:1] + [line for k in range(1, n + 1) for line in by_k[k]]


def join(data, out):
    if len(data) > JOIN_LIMIT:
        return ("no", 1, 0), out
    lines, at = join_lines(data)
    if lines is None:
        return ("no", 2, at), out
    lines = joined_lines(lines)
    if lines is None:
        return ("no", 19, 0), out
    result = file_of(lines)
    answer = check(result)
    if answer[0] == "no":
        return answer, out
    return written(result, (len(result),), out)
