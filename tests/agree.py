"""Lists that are told in more than one place: refusals, records, calls, eras and the numbers of an index entry. One place has each, and every
other must have the same.

    refusals    the table of docs/OPERATING.md; the numbers of each call: refusals/specs/Refusals.antt. A number that no call gives has no row, and
                tables that go by number have "unknown" in its place
    calls       the exports of gateway_c/src/lib.rt, with the definitions that their contracts cite; the functions of gateway, which they call, have
                the same contracts word for word
    records     records/specs/Paper.antt, document 01's own text
    eras        eras/specs/Era.antt; the oracle is also held to these rows day by day. Of the sentences on eras, the ranges in docs/OPERATING.md
                and the letters in README.md are read
    entries     ENTRY in tests/oracle.py. The most records of a file follow from the shortest record that the table of records allows

Prints each difference with its file and what is expected there; exit status 1 if there is one, or if a place cannot be read: a form that finds
nothing is a fault, so that no place is left out in silence. Run it from anywhere: python3 tests/agree.py

Not read: other sentences than those in SENTENCES and the header's on the refusals of a call (docs/OPERATING.md and docs/PROMISES.md have the
numbers by call in words of their own); rules in code, as in ordinary/order.rs, which the cases try; crates/table, which the prover holds to
the table of records.
"""

import collections
import datetime
import os
import re
import string
import sys
import traceback

ROOT = os.path.dirname(os.path.dirname(os.path.abspath(__file__)))
# The other scripts are imported, and nothing is to be left beside them.
sys.dont_write_bytecode = True

OPERATING, CLAUSES, README = "docs/OPERATING.md", "docs/CLAUSES.md", "README.md"
HEADER, C_TEST = "include/notebook.h", "hosts/c/test.c"
CRATE, HOSTS = "hosts/rust/notebook/", "hosts/rust/src/"
REFUSAL, RAW, COMMAND = CRATE + "src/refusal.rs", CRATE + "src/raw.rs", CRATE + "src/bin/notebook/"
PROMISES, EXAMPLES = "crates/refusals/specs/Refusals.antt", "crates/refusals/specs/Examples.antt"
GATEWAY, EXPORTS, CASES = "crates/gateway/src/lib.rt", "crates/gateway_c/src/lib.rt", "crates/cases/src/main.rt"

FAULTS, PLACES = [], []


# ---- reading and comparing


class Unreadable(Exception):
    """A place has not the form that is read here."""


def text_of(file):
    try:
        with open(os.path.join(ROOT, file), encoding="utf-8") as opened:
            return opened.read()
    except OSError:
        raise Unreadable("no such file") from None


def every(form, text):
    found = re.findall(form, text, re.M)
    if not found:
        raise Unreadable(f"nothing has the form {form}")
    return found


def one(form, text):
    found = every(form, text)
    if len(found) != 1:
        raise Unreadable(f"{len(found)} times the form {form}")
    return found[0]


def block(begin, end, text):
    """What stands between two texts; the first stands once."""
    if text.count(begin) != 1 or end not in text.split(begin)[1]:
        raise Unreadable(f"it has {text.count(begin)} times {begin.strip()!r}, or no end after it")
    return text.split(begin)[1].split(end)[0]


def every_line(form, text):
    """The groups of each line; a line of another form is a fault."""
    found = []
    for line in (line.strip() for line in text.strip().splitlines()):
        match = re.fullmatch(form, line)
        if not match:
            raise Unreadable(f"a line of another form: {line}")
        found.append(match.groups() if len(match.groups()) > 1 else match[1])
    return found


def quoted(text):
    return every(r'"([^"]*)"', text)


def plain(text):
    """One line, without the stars of a C comment."""
    return re.sub(r"\s+(?:\* )?", " ", text).strip()


def rows(pairs):
    table = {}
    for key, value in pairs:
        if key in table:
            raise Unreadable(f"{key} stands there twice")
        table[key] = value
    return table


def names(found):
    return rows((name, None) for name in found)


def numbers_first(pairs):
    return rows((int(number), value) for number, value in pairs)


def numbered(found, first=1):
    return dict(enumerate(found, first))


def difference(key, has, wanted):
    if key not in wanted:
        return f"{key} is there and not expected" if has[key] is None else f"{key} ({has[key]}) is there and not expected"
    if key not in has:
        return f"{key} is missing" if wanted[key] is None else f"{key} is missing; expected: {wanted[key]}"
    return f"{key} is: {has[key]}; expected: {wanted[key]}"


def compare(file, what, read, wanted):
    """Holds what `read` finds in a file to the table that is wanted there."""
    PLACES.append((file, what))
    try:
        has = read(text_of(file))
    except Unreadable as why:
        FAULTS.append(f"{file}: {what}: cannot be read: {why}")
        return
    for key in sorted({*has, *wanted}, key=lambda key: (isinstance(key, str), key)):
        if key not in has or key not in wanted or has[key] != wanted[key]:
            FAULTS.append(f"{file}: {what}: {difference(key, has, wanted)}")


def imported(name):
    """A script of this folder; it may stop at an assertion of its own."""
    try:
        return __import__(name)
    except Exception as why:
        at = traceback.extract_tb(why.__traceback__)[-1]
        raise Unreadable(f"{os.path.basename(at.filename)}:{at.lineno} stops with {why!r}") from None


# ---- refusals

Refusal = collections.namedtuple("Refusal", "word whose")

# Sentences with numbers: which refusals they are about, and where the numbers stand. A set of pieces counts as the sender's.
SENTENCES = [
    (HEADER, "are the operator's", r"([\d,andto ]+) are about what was asked, not about the file"),
    (HEADER, "have line 0", r"([\d,andto ]+) have line 0"),
    (OPERATING, "have line 0", r"([\d,andto ]+) have line 0"),
    (README, "are the sender's", r"was refused: numbers ([\d,andto ]+)\. The sender's"),
    (README, "are the operator's", r"a refusal of what was asked for \(([\d,andto ]+)\)"),
]

# The header has document 01's "1–16 on the joined file". That file begins with a line 1 and has no 911, so that join never gives 3 and 6.
SAID_OF_JOIN = {3, 6}


def refusals_of(text):
    table = block("| no. | word | given when | whose matter | what to do |\n|---|---|---|---|---|\n", "\n\n", text)
    found = every_line(r"\| (\d+) \| ([^|]+) \| [^|]+ \| the (sender|operator|set)'s \| [^|]+ \|", table)
    table = rows((int(number), Refusal(word, whose)) for number, word, whose in found)
    # A request has its numbers before it lands, so that some may be missing between two of them.
    if list(table) != sorted(table) or min(table) != 1:
        raise Unreadable("the numbers of the table do not rise from 1")
    return table


def numbers_in(words):
    """17 to 20 of "1 and 17 to 20", and so on."""
    found = set()
    for part in re.split(r", | and ", words.strip()):
        ends = re.fullmatch(r"(\d+)(?: to (\d+))?", part)
        if not ends:
            raise Unreadable(f"no numbers: {words}")
        found |= set(range(int(ends[1]), int(ends[2] or ends[1]) + 1))
    return found


def c_name(word):
    return word.upper().replace(" ", "_")


def rust_name(word):
    return "".join(part.capitalize() for part in word.split())


def reasons(text):
    """The variants of `Reason` by number: each is one more than that before it, unless it has one of its own."""
    found, number = [], 0
    for name, own in every(r"^    (\w+)(?: = (\d+))?,$", block("pub enum Reason {\n", "\n}", text)):
        number = int(own) if own else number + 1
        found.append((number, name))
    return rows(found)


def words_of_array(name, first):
    return lambda text: numbered(quoted(block(f"{name}[] = {{", "};", text)), first)


def without_gaps(words):
    """A word for every number up to the last; "unknown" for one that no call gives."""
    return {number: words.get(number, "unknown") for number in range(1, max(words) + 1)}


def refusals_in_help(text):
    return numbers_first(every(r"(\d+) ([\w ]+)", one(r"not the file \(([^)]+)\)", plain(text))))


def operators_of(refusals):
    return [number for number, refusal in refusals.items() if refusal.whose == "operator"]


def compare_words(refusals):
    words = {number: refusal.word for number, refusal in refusals.items()}
    in_c = {number: c_name(word) for number, word in words.items()}
    in_rust = {number: rust_name(word) for number, word in words.items()}
    operators = operators_of(refusals)

    def constants(form):
        return lambda text: numbers_first((number, name) for name, number in every(form, text))

    compare(HEADER, "NOTEBOOK_REFUSED_..", constants(r"^    NOTEBOOK_REFUSED_(\w+) = (\d+)\b"), in_c)
    compare(HEADER, "notebook_word", words_of_array("words", 0), {0: "ok", **without_gaps(words)})
    compare(C_TEST, "the table of words", words_of_array("table", 1), without_gaps(words))
    compare(REFUSAL, "Reason", reasons, {**in_rust, 255: "Unknown"})
    # ALL goes by place: the numbers that no call gives are not in it.
    compare(REFUSAL, "ALL", lambda text: numbered(every(r"Reason::(\w+),", block("ALL: [Reason;", "];", text))), numbered(in_rust.values()))
    compare(REFUSAL, "word", lambda text: rows(every(r'Reason::(\w+) => "([^"]+)",', block("fn word(self)", "\n    }\n", text))),
            {"Unknown": "unknown", **{in_rust[number]: words[number] for number in words}})
    compare(REFUSAL, "is_operators", lambda text: names(every(r"Reason::(\w+)", one(r"matches!\(self,([^)]+)\)", text))),
            names(["Unknown", *(in_rust[number] for number in operators)]))
    compare(COMMAND + "help.txt", "the refusals that are status 2", refusals_in_help, {number: words[number] for number in operators})
    compare(HOSTS + "ordinary/mod.rs", "the refusals", constants(r"^const ([A-Z_]+): u8 = (\d+);"), in_c)
    compare(CLAUSES, "N1, N2 ..", lambda text: numbers_first(every(r"^\| N(\d+) ([^|]+?) \|", text)), words)


def compare_sentences(refusals, lineless):
    operators = operators_of(refusals)
    wanted = {"are the operator's": operators, "are the sender's": set(refusals) - set(operators), "have line 0": lineless}
    for file, which, form in SENTENCES:
        compare(file, f"the numbers that {which}", lambda text: names(numbers_in(one(form, plain(text)))), names(wanted[which]))


def lists_of(text):
    """The lists of numbers in refusals/specs/Refusals.antt; one may go on from another."""
    found = {}
    for name, before, numbers in every(r"^(\w+) = (?:(\w+) \+\+ )?((?:\d+ ∷ )+)\[\]$", text):
        if before and before not in found:
            raise Unreadable(f"no list {before} before {name}")
        found[name] = (found[before] if before else set()) | {int(number) for number in re.findall(r"\d+", numbers)}
    if "lineless" not in found:
        raise Unreadable("no list lineless")
    return found


def rows_of_about(text):
    """Of each call the result and the name of its list."""
    form, lists = r"about \((\w+) [^)]*\) = record \{ result = (\w+) [^;]*; .*; numbers = (\w+); .*\}", lists_of(text)
    found = every_line(form, block("about : Call → About\n", "\n\n", text))
    for call, _, numbers in found:
        if numbers not in lists:
            raise Unreadable(f"no list {numbers}, which `about` has for {call}")
    return rows((call, (result, numbers)) for call, result, numbers in found)


def shown(by_call):
    return {call: " ".join(map(str, sorted(numbers))) for call, numbers in by_call.items()}


def tallies(text):
    lists = dict(every(r"^const (\w+): &\[usize\] = &\[([\d,\s]+)\];", text))
    # 0 is what is accepted
    return shown(rows((call, {int(number) for number in re.findall(r"\d+", lists.get(name, ""))} - {0})
                      for call, name in every(r'tally\("(\w+)", (\w+)\)', text)))


def refusals_in_comments(text):
    """The numbers in the comment of each call: "Refusals: 1 to 16; then 20 if .." """
    found = []
    for comment, call in re.findall(r"/\*((?:[^*]|\*(?!/))*)\*/\nstruct notebook_reply notebook_(\w+)\(", text):
        parts = one(r"Refusals: ([^.]+)", plain(comment)).split("; then ")
        first = [one(r"^(\d+(?: (?:to|and) \d+)?)(?= |$)", part) for part in parts]
        found.append((call, set().union(*map(numbers_in, first))))
    return shown(rows(found))


def numbers_of_cases(calls):
    """The refusals that the cases of each call have. A label begins with its call; those of check and the table of pairs, whose lines have signs
    and no answer, do not."""
    def read(text):
        found = {call: set() for call in calls}
        for call, number in every(rf"^(?:({'|'.join(calls)}): )?.+?: no (\d+) \d+(?:;|$)", text):
            found[call or "check"].add(int(number))
        return shown(found)
    return read


def compare_numbers_by_call(refusals, by_call):
    given = set().union(*by_call.values())
    compare(PROMISES, "the numbers of all calls", lambda _: names(given), names(refusals))
    compare(HOSTS + "comparison.rs", "the numbers of each call", tallies, shown(by_call))
    compare("crates/cases/stdout", "the numbers of each call", numbers_of_cases(list(by_call)), shown(by_call))
    said = {call: numbers | (SAID_OF_JOIN if call == "join" else set()) for call, numbers in by_call.items()}
    compare(HEADER, "the comments' refusals of each call", refusals_in_comments, shown(said))


# ---- calls

Export = collections.namedtuple("Export", "parameters answer cited")

# Exports that never refuse, so that `about` says nothing of them.
WITHOUT_REPLY = ["notebook_version"]

# A type of the exports in C and in Rust; {0} is the parameter's name.
PARAMETERS = {
    "&[u8]": ("const uint8_t *{0}, size_t {0}_length", "{0}: *const u8, {0}_len: usize"),
    "&mut [u8]": ("uint8_t *{0}, size_t {0}_length", "{0}: *mut u8, {0}_len: usize"),
    "&mut [u32]": ("uint32_t *{0}, size_t {0}_length", "{0}: *mut u32, {0}_len: usize"),
    "u64": ("uint64_t {0}", "{0}: u64"),
}
ANSWERS = {"replies::Reply": ("struct notebook_reply", "Reply"), "u64": ("uint64_t", "u64")}


def exports_of(text):
    found = {}
    form = r'^pub extern "C" fn (notebook_\w+)\(([^)]*)\) -> ([\w:]+)\n((?:    ensures .*\n)+)\{'
    for name, parameters, answer, contract in every(form, text):
        cited = set(re.findall(r"\breply_to \((\w+)", contract))
        if len(cited) != (name not in WITHOUT_REPLY):
            raise Unreadable(f"the contract of {name} cites as `reply_to (..)`: {sorted(cited) or 'nothing'}")
        parameters = [parameter.split(": ") for parameter in re.split(r",\s*", parameters.strip()) if parameter]
        found[name] = Export(parameters, answer, "".join(cited))
    if not len(found) == text.count('extern "C"') == text.count("#[unsafe(no_mangle)]"):
        raise Unreadable('not every `#[unsafe(no_mangle)] pub extern "C" fn` has the form that is read here')
    return found


def told_by(text):
    """Each function with its comment, its parameters and its contract, as they stand."""
    return rows(every(r'^((?:// .*\n)+#\[unsafe\(no_mangle\)\]\npub extern "C" fn notebook_\w+)(\([^)]*\) -> [\w:]+\n(?:    (?:requires|ensures) .*\n)+)\{', text))


def called_by(text):
    """What the body of each export is."""
    return rows((name, body.strip()) for name, body in every(r'^pub extern "C" fn (notebook_\w+)\([^{]*\n(?:    (?:requires|ensures) .*\n)+\{\n    ((?:.*\n)+?)\}', text))


def calls_of(exports):
    return [name[len("notebook_"):] for name in exports if name not in WITHOUT_REPLY]


def signatures(exports, language):
    """Each export as the header (0) or raw.rs (1) declares it."""
    found = {}
    for name, export in exports.items():
        for kind, table in [*((kind, PARAMETERS) for _, kind in export.parameters), (export.answer, ANSWERS)]:
            if kind not in table:
                raise Unreadable(f"the type {kind} of {name} is not in the tables of tests/agree.py")
        parameters = ", ".join(PARAMETERS[kind][language].format(of) for of, kind in export.parameters)
        found[name] = (parameters or ("void", "")[language]) + " -> " + ANSWERS[export.answer][language]
    return found


def declared_in_header(text):
    found = every(r"^(struct notebook_reply|\w+) (notebook_\w+)\(([^)]*)\);", text)
    return rows((name, f"{plain(parameters)} -> {answer}") for answer, name, parameters in found)


def declared_in_raw(text):
    found = every(r"fn (\w+)\(([^)]*)\) -> (\w+);", block('extern "C" {\n', "\n}", text))
    return rows((name, f"{plain(parameters).rstrip(',')} -> {answer}") for name, parameters, answer in found)


def compare_declarations(exports):
    compare(GATEWAY, "the functions with their comments and contracts", told_by, told_by(text_of(EXPORTS)))
    compare(EXPORTS, "what each export calls", called_by,
            {name: f"gateway::{name}({', '.join(of for of, _ in export.parameters)})" for name, export in exports.items()})
    compare(HEADER, "the declarations", declared_in_header, signatures(exports, 0))
    compare(RAW, "the declarations", declared_in_raw, signatures(exports, 1))
    compare(CRATE + "build.rs", "EXPORTS", array("EXPORTS"), names(exports))
    # notebook_word is the header's own.
    compare(C_TEST, "the exports that it calls",
            lambda text: names(set(every(r"\b(notebook_\w+)\(", text)) - {"notebook_word"}), names(exports))


def array(name):
    """The strings of a Rust array."""
    return lambda text: names(quoted(one(rf"const {name}: \[&str; \d+\] =\s*\[([^]]+)\];", text)))


def table_of_calls(text):
    return names(every_line(r"\| (\w+) \| .+ \|", block("| call | what it does |\n|---|---|\n", "\n\n", text)))


def contracts(text):
    return names(re.findall(r"`notebook_(\w+)`", " ".join(every(r"^## The contracts? of (.+)$", text))))


def compare_calls(exports, calls):
    """Lists of the calls by name."""
    wanted = names(calls)
    compare(README, "the table of calls", table_of_calls, wanted)
    compare("docs/PROMISES.md", "the headings on contracts", contracts, names(name[len("notebook_"):] for name in exports))
    compare(HEADER, "the sentence on the calls", lambda text: names(one(r"calls on files: ([\w, ]+)\.", plain(text)).split(", ")), wanted)
    compare(OPERATING, "the table of stack", lambda text: names(every(r"^\| `notebook_(\w+)` \| [\d,]+ \|$", text)), wanted)
    compare(COMMAND + "arguments.rs", "SUBCOMMANDS", array("SUBCOMMANDS"), wanted)
    compare(HOSTS + "bin/bench/report.rs", "CALLS", array("CALLS"), wanted)
    compare(CASES, "the exports that it calls", lambda text: names(set(every(r"gateway::notebook_(\w+)\(", text))), wanted)


def table_of_letters(text):
    """tests/README.md has several calls and their letters in a row."""
    table = every_line(r"\| ([\w, ]+) \| ([^|]+) \| .+ \|", block("| call | letter | answer |\n|---|---|---|\n", "\n\n", text))
    return rows((call, letter) for calls, letters in table for call, letter in zip(calls.split(", "), re.findall(r"`(\w)`", letters)))


def sentence_of_letters(text):
    return rows((call, letter) for letter, call in re.findall(r"(\w) ([^,]+)", one(r"the call \((v [^)]+)\)", text)))


def compare_letters(calls):
    """The letters of the frames: those of tests/call_cases.py, and v for check."""
    scripts = imported("call_cases")
    wanted = {"check": "v", **scripts.LETTERS, "all pairs of bytes": "p"}
    compare("tests/call_cases.py", "LETTERS", lambda _: names(["check", *scripts.LETTERS]), names(calls))
    compare("tests/call_cases.py", "ANSWERED", lambda _: names(["check", *scripts.ANSWERED]), names(calls))
    compare("tests/README.md", "the letters of the calls", table_of_letters, wanted)
    compare(CASES, "the letters of the calls", sentence_of_letters, wanted)


def examples_of(text, calls):
    """Of each call: its list of examples, and the numbers that `all_reached` asks of that list."""
    reached = every(r"reached (\w+) (\w+)", block("all_reached =\n", "\n\n", text + "\n\n"))
    asked = {examples: numbers for numbers, examples in reached}
    found = []
    for examples, body in every(r"^abbrev pub (\w+) : List Example\n\1 =((?:.*\n)+?)(?:\n|\Z)", text):
        used = [call for call in calls if re.search(rf"(?:\(|each |\. ){call}\b", re.sub(r"--.*", "", body))]
        found += [(call, (examples, asked.get(examples, "nothing"))) for call in used]
    return rows(found)


def compare_promises(exports, calls, about):
    compare(PROMISES, "the results of `about`", lambda _: {call: result for call, (result, _) in about.items()},
            {call: exports["notebook_" + call].cited for call in calls})
    compare(PROMISES, "the constructors of `Call`",
            lambda text: names(every_line(r"(\w+) : .* → Call", block("pub data Call : Type 0 where\n", "\n\n", text))), names(calls))
    compare(EXAMPLES, "the numbers that `all_reached` asks of each call",
            lambda text: {call: numbers for call, (_, numbers) in examples_of(text, calls).items()},
            {call: about[call][1] if call in about else "a list of `about`" for call in calls})
    compare("crates/refusals/proofs/AllExamples.antt", "the lists of `examples_hold`",
            lambda text: names(re.findall(r"\w+", one(r"examples_hold : all_hold (.+) ≡ true", text))),
            names(examples for examples, _ in examples_of(text_of(EXAMPLES), calls).values()))


# ---- records


def items_of_paper(text):
    found = every_line(r'\(\(((?:\d+ ∷ )+)\[\]\) ∶ "([^"]+)"\) ∷', block("paper =\n", "    []\n", text))
    return by_number((numbers.replace(" ∷ ", ", ").rstrip(", "), items) for numbers, items in found)


def by_number(found):
    """The items of each record, from rows of numbers with commas and their items."""
    return rows((int(number), items) for numbers, items in found for number in numbers.split(", "))


def items_of_oracle(_):
    def item(rule):
        kind, *most, need = rule.split()
        return ("{%s}" % most[0].replace("/", ",") if kind == "=" else kind + "".join(most)) + need

    return {int(number): " ".join(map(item, rules)) for number, rules in imported("oracle").TABLE.items()}


def items_of_cases(_):
    return {number: " ".join(kind + need for kind, need in items) for number, items in imported("make_cases").ITEMS.items()}


def items_of_reference(text):
    table = block('const TABLE: &str = "\\\n', '";', text)
    return by_number(every_line(r"([\d, ]+): (.+)", table.replace(" · ", "\n")))


def counts_of_reader(text):
    """How many items ordinary/records.rs asks of each record."""
    found = every(r"^        ([\d |]+) => \{\n +let mut items = items\((\d+)\)\?;", text)
    return by_number((numbers.replace(" | ", ", "), int(count)) for numbers, count in found)


def followed(text):
    return names(map(int, every(r"\((\d+), &\[", block("const FOLLOWERS:", "];\n", text))))


def short_records(text):
    """The records that damage.rs writes; the last arm has no number before it."""
    arms = block("let text = match number {\n", "    };", text)
    numbers = {number for arm in every(r"^        ([\d |]+?)(?: if .+)? => ", arms) for number in arm.split(" | ")}
    return names(int(number) for number in [*numbers, one(r'^        _ => (?:format!\()?"(\d+),', arms)])


def compare_records(records):
    damage = HOSTS + "damage.rs"
    compare("tests/oracle.py", "TABLE", items_of_oracle, records)
    compare("tests/make_cases.py", "PAPER", items_of_cases, records)
    compare("tests/make_cases.py", "GOOD", lambda _: names(imported("make_cases").GOOD), names(records))
    compare(CLAUSES, "R1, R2 ..", lambda text: by_number(every(r"^\| R\d+ \| ([\d, ]+): `([^`]+)` \|", text)), records)
    compare(HOSTS + "ordinary/reference.rs", "TABLE", items_of_reference, records)
    compare(HOSTS + "ordinary/records.rs", "the items of each record", counts_of_reader,
            {number: len(items.split()) for number, items in records.items()})
    compare("crates/rules/specs/Places.antt", "the numbers of `pattern`",
            lambda text: names(map(int, every_line(r"(?:∷ )?\((\d+), .+\)", block("pattern p =\n", "    ∷ []", text)))), names(records))
    compare(damage, "FOLLOWERS", followed, names([0, *records]))
    compare(damage, "how many records `walk` takes from FOLLOWERS",
            lambda text: {"count": int(one(r"FOLLOWERS\[1 \+ random\.below\((\d+)\)\]", text))}, {"count": len(records)})
    compare(damage, "the records of `short_record`", short_records, names(records))


# ---- eras

Era = collections.namedtuple("Era", "before first last")


def era(before, first, last):
    """The year before year 1, and the first and the last day, YYYYMMDD."""
    return Era(*(int(str(number).replace("_", "")) for number in (before, first, last)))


def eras_of(text):
    days = dict(every(r"^(\w+) = (\d{8})$", text_of("crates/eras/specs/Day.antt")))
    found = every_line(r"era (\d+) (\d+)0000 (\w+) (\w+) ∷", block("eras =\n", "    []\n", text))
    return rows((chr(int(letter)), era(before, days.get(first, first), days.get(last, last))) for letter, before, first, last in found)


def number_of(day):
    return day.year * 10000 + day.month * 100 + day.day


def day_before(number):
    return number_of(datetime.datetime.strptime(str(number), "%Y%m%d") - datetime.timedelta(1))


def written(eras):
    """The last day that is written in each era: the one before the newer era's first. Nothing is said of the newest."""
    newer = dict(zip(list(eras)[1:], eras.values()))
    return {letter: (own.before, str(day_before(newer[letter].first)) if letter in newer else "") for letter, own in eras.items()}


def eras_of_code(text):
    form = r"letter: b'(\w)',\s+before: (\d+)0000,\s+first: (\d+),\s+last: (\d+),"
    return rows((letter, era(*numbers)) for letter, *numbers in every(form, block("const ERAS:", "];\n", text)))


def eras_of_oracle(_):
    eras = imported("oracle").ERAS.items()
    return {letter.decode(): era(before, number_of(first), number_of(last)) for letter, (before, first, last) in eras}


def month_lengths(year):
    leap = year % 4 == 0 and (year % 100 != 0 or year % 400 == 0)
    return [31, 29 if leap else 28, 31, 30, 31, 30, 31, 31, 30, 31, 30, 31]


def under(letter, own, day):
    """A day, YYYYMMDD, under an era's letter."""
    return f"{letter}{day - own.before * 10000:06}"


def spellings(eras):
    """What the rows say of every day: the spellings that are read, and the one that is written. Days are counted out as numbers, without Python's
    calendar, so that this is another reading than the oracle's."""
    found = {}
    first, last = min(own.first for own in eras.values()), max(own.last for own in eras.values())
    for year in range(first // 10000, last // 10000 + 1):
        for month, length in enumerate(month_lengths(year), 1):
            for day in range(year * 10000 + month * 100 + 1, year * 10000 + month * 100 + length + 1):
                if first <= day <= last:
                    found[str(day)] = f"read as {day}"
                    found.update((under(letter, own, day), f"read as {day}") for letter, own in eras.items() if own.first <= day <= own.last)
                    newest = max((letter for letter in eras if eras[letter].first <= day), key=lambda letter: eras[letter].first)
                    found[f"{day} in the era form"] = under(newest, eras[newest], day)
    return found


def spellings_of_oracle(eras):
    """What the oracle says of all that looks like a day: the western years around the range and every year under the eras' letters, with months to 13
    and days to 32; and one day of every year under each other letter."""
    oracle, found = imported("oracle"), {}
    letters = {*eras, *(letter.decode() for letter in oracle.ERAS)}
    years = [*range(oracle.FIRST_DAY.year - 1, oracle.LAST_DAY.year + 2), *(f"{letter}{year:02}" for letter in letters for year in range(100))]
    tried = [f"{year}{month:02}{day:02}" for year in years for month in range(14) for day in range(33)]
    tried += [f"{letter}{year:02}0501" for letter in set(string.ascii_letters) - letters for year in range(100)]
    for text in tried:
        day = oracle.day(text.encode())
        if day:
            found[text] = f"read as {number_of(day)}"
    day = oracle.FIRST_DAY
    while day <= oracle.LAST_DAY:
        found[f"{number_of(day)} in the era form"] = oracle.era_form(day).decode()
        day += datetime.timedelta(1)
    return found


def compare_days(eras):
    """The first differences are enough: a wrong row makes thousands."""
    has, wanted = spellings_of_oracle(eras), spellings(eras)
    told = sorted(key for key in {*has, *wanted} if has.get(key) != wanted.get(key))[:5]
    compare("tests/oracle.py", "every day", lambda _: {key: has[key] for key in told if key in has}, {key: wanted[key] for key in told if key in wanted})


def cases_of(labels):
    """The answers of these cases: ok or no."""
    return lambda text: rows((label, answer) for label, answer in every(r"^(.+?): (ok|no) ", text) if label in labels)


def compare_first_days(eras):
    """What has days of every era: the cases, and the words that the fuzzers put into files."""
    firsts = {under(letter, own, own.first) for letter, own in eras.items()}
    labels = [kind + first for first in firsts for kind in ("birth ", "canonical: every day is ")]
    compare("crates/cases/stdout", "the first day of each era", cases_of(labels), {label: "ok" for label in labels})
    # It has other days too.
    compare("hosts/rust/fuzz/words.dict", "the first day of each era",
            lambda text: names({*every(r'^"([A-Z]\d{6})"$', text)} & firsts), names(firsts))


def ranges_in_words(text):
    """The days that are read under each letter: "M060101 to M450729, T010730 to .." """
    sentence = one(r"or under an era's letter: ([^.]+)\.", plain(block("## Dates and eras\n", "\n## ", text)))
    found = every_line(r"([A-Z])(\d{6}) to ([A-Z]\d{6})", sentence.replace(", ", "\n"))
    return rows((letter, f"{letter}{first} to {last}") for letter, first, last in found)


def letters_in_words(text):
    """The letters of "M, T, S, H and R"."""
    sentence = one(r"an \*\*era\*\*'s letter and YYMMDD: ([^.]+)\.", plain(block("## Words\n", "\n## ", text)))
    return names(every_line(r"([A-Z])", re.sub(r", | and ", "\n", sentence)))


def compare_sentences_on_eras(eras):
    ranges = {letter: f"{under(letter, own, own.first)} to {under(letter, own, own.last)}" for letter, own in eras.items()}
    compare(OPERATING, "the days that are read under each letter", ranges_in_words, ranges)
    compare(README, "the letters of the eras", letters_in_words, names(eras))


def eras_of_ordinary(text):
    form = r"letter: b'(\w)',\s+year_before: (\d+),\s+first: ([\d_]+),\s+last: ([\d_]+)\b"
    return rows((letter, era(*numbers)) for letter, *numbers in every(form, block("const ERAS:", "];\n", text)))


def last_written(text):
    arms = every_line(r"_(?: if day <= b\"(\d+)\")? => \('(\w)', (\d+)\),", block("let (era, year_1) = match day {\n", "};", text))
    return rows((letter, (int(year_1) - 1, last or "")) for last, letter, year_1 in arms)


def compare_eras(eras):
    days = HOSTS + "ordinary/days.rs"
    compare("crates/calendar/src/lib.rt", "ERAS", eras_of_code, eras)
    compare("tests/oracle.py", "ERAS", eras_of_oracle, eras)
    compare_days(eras)
    compare_first_days(eras)
    compare_sentences_on_eras(eras)
    compare(days, "ERAS", eras_of_ordinary, eras)
    # The newest that has begun is the first one found.
    compare(days, "the order of ERAS", lambda text: numbered(eras_of_ordinary(text)), numbered(eras))
    compare(HOSTS + "ordinary/reference.rs", "the eras that are written", last_written,
            written(eras))


# ---- the numbers of an index entry

# How the help says the fields of an entry that are lines.
IN_HELP = {"record": "number", "doctor": "line of the doctor's 55", "drug": "line of the drug's 201", "clinic": "line of the clinic's 51"}
IN_WORDS = "none one two three four five six seven eight nine ten".split()

# The least bytes of an item that is not empty; of one with listed values, those of the shortest.
LEAST = {"N": 1, "U": 1, "X": 1, "K": 1, "A": 1, "F": 2, "C": 7, "P": 7, "R": 1, "W": 1, "Q": 1, "D": 7}


def least_bytes(number, items):
    """The shortest line of a record, its line end included: with what is required in both directions, each item after a comma."""
    found = len(str(number)) + 2
    for item in items.split():
        values = re.fullmatch(r"\{(.+)\}.", item)
        least = min(map(len, values[1].split(","))) if values else LEAST[item[0]]
        found += 1 + (least if item.endswith("!") else 0)
    return found


def entry_of_oracle(_):
    return list(imported("oracle").ENTRY)


def constants_of_index(text):
    return rows(every(r"^    (NOTEBOOK_(?:ENTRY_NUMBERS|RECORDS_MAX|INDEX_MAX)) = ([\d* ]+),", text))


def counts_of_comment(text):
    """What the header's comment of the call says of the numbers of a record. `plain` takes the star from `7 * a` too."""
    comment = plain(one(r"/\*((?:[^*]|\*(?!/))*)\*/\nstruct notebook_reply notebook_index\(", text))
    return {"for each record": one(r"(\w+) numbers for each record", comment),
            "up to": one(r"out\[0\] to out\[(\d+) a - 1\] are the index", comment),
            "20": one(r"out_length is less than (\w+) times the records", comment)}


def fields_in_help(text):
    return numbered(one(r"a line for each record: ([^.;]+)[.;]", plain(text)).split(", "))


def fields_in_readme(text):
    """The names in "the record's number, its offset and bytes in the file, .." """
    return numbered(every(r"(?:record's |its |(?<=offset )and )(\w+)", one(r"^\| index \| gives \w+ numbers for each record: (.+) \|$", text)))


def fields_in_definition(text):
    return numbered(every(r"\b[ex]\.(\w+)", one(r"^entry_numbers x = let e = x\.entry in seven_numbers (.+)$", text)))


def arrays_of_program(text):
    return {"numbers": ", ".join(sorted(set(every(r"(?:u32|0u32); (\d+)\]", text))))}


def numbers_of_oracle(_):
    """How many it gives of a file with one record."""
    return {"count": len(imported("oracle").entries(imported("call_cases").SMALL))}


def numbers_of_case(text):
    return {"count": len(one(r"^index: 37 bytes, exactly: ok 1;((?: \d+)+)$", text).split())}


def compare_entries(entry, records):
    count, in_words = len(entry), IN_WORDS[len(entry)]
    most = imported("oracle").LIMIT // min(least_bytes(*record) for record in records.items())
    row = f"{count} numbers a record, at most {most:,} records: {count * most:,} numbers"
    compare("tests/oracle.py", "the numbers of an entry", numbers_of_oracle, {"count": count})
    compare("crates/cases/stdout", "the numbers of an entry", numbers_of_case, {"count": count})
    compare(HEADER, "the limits of an index", constants_of_index,
            {"NOTEBOOK_ENTRY_NUMBERS": f"{count}", "NOTEBOOK_RECORDS_MAX": f"{most}", "NOTEBOOK_INDEX_MAX": f"{count} * {most}"})
    compare(HEADER, "the comment of notebook_index", counts_of_comment,
            {"for each record": in_words, "up to": f"{count}", "20": in_words})
    compare(OPERATING, "the limit of an index",
            lambda text: {"row": one(r"^\| output of index \| ([^|]+) \| `NOTEBOOK_INDEX_MAX` \|$", text)}, {"row": row})
    compare(README, "the numbers of an entry",
            lambda text: {"count": one(r"^\| index \| gives (\w+) numbers for each record", text)}, {"count": in_words})
    named = numbered("number" if name == "record" else name for name in entry)
    compare(README, "the names of an entry's numbers", fields_in_readme, named)
    compare("docs/PROMISES.md", "when index is short", lambda text: {"count": one(r"then 20 where (\w+) numbers a record are more", plain(text))},
            {"count": in_words})
    compare("crates/notebook/specs/Index.antt", "the numbers of an entry", fields_in_definition, named)
    compare("crates/noteindex/src/main.rt", "the length of its index", arrays_of_program, {"numbers": f"{count * most}"})
    compare(CRATE + "src/lib.rs", "the fields of Entry",
            lambda text: numbered(every(r"^    pub (\w+): u32,$", block("pub struct Entry {\n", "\n}", text))), numbered(entry))
    compare(COMMAND + "help.txt", "the numbers of an entry", fields_in_help, numbered(IN_HELP.get(name, name) for name in entry))


# ---- all of it


def source(file, read):
    """A list where the others take it from; without it there is nothing to compare."""
    try:
        return read(text_of(file))
    except Unreadable as why:
        sys.exit(f"{file}: cannot be read: {why}")


def parts(refusals, exports, records, eras, entry):
    lists, about = source(PROMISES, lists_of), source(PROMISES, rows_of_about)
    calls = calls_of(exports)
    return [
        lambda: compare_words(refusals),
        lambda: compare_sentences(refusals, lists["lineless"]),
        lambda: compare_numbers_by_call(refusals, {call: lists[numbers] for call, (_, numbers) in about.items()}),
        lambda: compare_declarations(exports),
        lambda: compare_calls(exports, calls),
        lambda: compare_letters(calls),
        lambda: compare_promises(exports, calls, about),
        lambda: compare_records(records),
        lambda: compare_eras(eras),
        lambda: compare_entries(entry, records),
    ]


def main():
    refusals, exports = source(OPERATING, refusals_of), source(EXPORTS, exports_of)
    records, eras = source("crates/records/specs/Paper.antt", items_of_paper), source("crates/eras/specs/Era.antt", eras_of)
    entry = source("tests/oracle.py", entry_of_oracle)
    for part in parts(refusals, exports, records, eras, entry):
        try:
            part()
        except Unreadable as why:
            FAULTS.append(f"cannot be read: {why}")
    for fault in FAULTS:
        print(fault)
    counts = f"{len(refusals)} refusals, {len(records)} records, {len(calls_of(exports))} calls, {len(eras)} eras, {len(entry)} numbers of an entry"
    print(f"agree: {counts}, in {len(PLACES)} places" + (f"; {len(FAULTS)} differences" if FAULTS else ""))
    return 1 if FAULTS else 0


if __name__ == "__main__":
    sys.exit(main())
