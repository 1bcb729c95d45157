"""Processor seconds of the gate, part by part: each crate's proof, each must-fail edit, each program, the static library, the host tests.
What rt ci has kept from earlier runs on the machine takes no time, so only a run that proves all (`rt ci --anew` before it, or a new machine) has every part.

    watch PID FILE     while process PID (the gate's shell) lives: writes to FILE, at its end, the seconds of each part; .ci/run starts it
    report FILE TIMES  prints the shares and what grew since the figures that are kept; TIMES is what the shell's `times` wrote
    keep FILE          makes FILE the kept figures, .ci/shares.txt, with the kit's line before them: at a landing, from target/shares.txt of the last gate
    table [BEFORE]     writes the table of docs/BENCHMARKS.md from the kept figures, with those of the file BEFORE beside them

Seconds are user and system time as /proc tells them, read ten times a second from the outside, so that the gate's own commands stay as they
are. What a process uses after the last look at it is not told: some hundredths of a second for each, and `report` says how much in all.

Clocks and machines differ, and a machine's pace changes while the gate runs. So a part is compared with its kept figure times the pace of its
kind (proofs come first, then edits, then programs), which is the median of new / kept over the parts of that kind that take a second or
more. A part that grew by more than a tenth is a warning and no failure. Figures of another kit are not compared.

An edit is tried over what a check of its crate as it stands left, the crate's `seed`; all edits of a crate share it. One that rt tries again from
nothing is told as edit CRATE/?, unless the crate has no other.
"""

import os
import re
import statistics
import subprocess
import sys
import time

ROOT = os.path.dirname(os.path.dirname(os.path.abspath(__file__)))
KEPT = os.path.join(ROOT, ".ci", "shares.txt")
PAGE = os.path.join(ROOT, "docs", "BENCHMARKS.md")
BEGIN, END = "<!-- begin: tests/gate_shares.py writes from here -->", "<!-- end: tests/gate_shares.py writes to here -->"
TICK = os.sysconf("SC_CLK_TCK")
LOOK = 0.1  # seconds between two looks
GREW = 1.1  # a part is told from a tenth more on ..
LEAST = 0.5  # .. if that is half a second or more


# ---- watching


def edits_of(crate):
    """The names of a crate's edits, in the order in which rt numbers them."""
    try:
        return [name[:-5] for name in sorted(os.listdir(os.path.join(ROOT, "crates", crate, "must-fail"))) if name.endswith(".edit")]
    except OSError:
        return []


def part_of_rattle(words, folder):
    """rattle works for a proof, a program or a library; or for an edit, in a copy of its crate."""
    line = "\0".join(words)
    crate = re.search(r"--crate-name\0(\w+)", line)
    crate = crate.group(1) if crate else "?"
    if "/rt-edit-" in folder:
        edits, over = edits_of(crate), re.search(r"/rt-edits-[^/]+/(\d+|seed)(?:\0|$)", line)
        if over and over.group(1) == "seed":
            return "seed %s" % crate
        number = int(over.group(1)) if over else 0 if len(edits) == 1 else len(edits)
        return "edit %s/%s" % (crate, edits[number] if number < len(edits) else "?")
    if "--test" in words:
        return "tests %s" % crate
    return ("program %s" if "src/main.rt" in words else "proof %s") % crate


def part_of(words, folder):
    """The part that a command in a folder belongs to, or None where it says nothing of its own."""
    if not words:
        return None
    name = os.path.basename(words[0])
    if name == "rattle" and len(words) > 1 and words[1] in ("check", "build"):
        return part_of_rattle(words, folder)
    if name == "rattle-link":
        made = re.search(r"-o\0out/(\w+?)(_tests)?\0", "\0".join(words) + "\0")
        return ("tests %s" if made and made.group(2) else "program %s") % (made.group(1) if made else "?")
    if name == "make":
        return "host install" if "test-install" in words else LIBRARY if "library" in words else "host C"
    if "tests/users.py" in words:
        return "host users"
    if name == "cargo":
        return "host Rust"
    if any("/rt-run-" in word for word in words):
        return "run of programs"
    return None


LIBRARY = "library gateway_c"
# Parts that have all below them for their own, whatever command it is.
WHOLE = ("host install", "host users", LIBRARY)


def words_of(pid):
    with open("/proc/%d/cmdline" % pid, "rb") as opened:
        return opened.read().decode("utf-8", "replace").rstrip("\0").split("\0")


def seconds_of(pid):
    """User and system seconds of the process itself, without its children, and when it began."""
    with open("/proc/%d/stat" % pid, "rb") as opened:
        fields = opened.read().rsplit(b")", 1)[1].split()
    return (int(fields[11]) + int(fields[12])) / TICK, fields[19]


def children_of(pid):
    """The processes that any of its threads started."""
    found = []
    for thread in os.listdir("/proc/%d/task" % pid):
        with open("/proc/%d/task/%s/children" % (pid, thread), "rb") as opened:
            found += [int(word) for word in opened.read().split()]
    return found


def look(pid, above, seen):
    """Notes the seconds of all processes below a process; one that says nothing of its own is of the part above it."""
    try:
        below = children_of(pid)
    except OSError:
        return
    for child in below:
        try:
            seconds, began = seconds_of(child)
            words, folder = words_of(child), os.readlink("/proc/%d/cwd" % child)
        except OSError:
            continue
        if child == os.getpid():
            continue
        # A process that becomes another command keeps its number and its seconds; one that has ended keeps them, but not its words.
        key = (child, began)
        part = above if above in WHOLE else part_of(words, folder)
        part = part or (seen[key][0] if key in seen and words == [""] else above)
        seen[key] = (part, seconds)
        look(child, part, seen)


def watch(gate, file):
    seen = {}
    while os.path.exists("/proc/%d" % gate) and not os.path.exists(file + ".stop"):
        look(gate, "the scripts", seen)
        time.sleep(LOOK)
    parts = {}
    for part, seconds in seen.values():
        parts[part] = parts.get(part, 0) + seconds
    with open(file + ".new", "w", encoding="utf-8") as opened:
        opened.writelines("%9.2f %s\n" % (parts[part], part) for part in sorted(parts))
    os.rename(file + ".new", file)


# ---- figures


def read(file):
    """The seconds of each part; {} where there is no such file."""
    try:
        with open(file, encoding="utf-8") as opened:
            rows = [line.split(None, 1) for line in opened if line.strip() and not line.startswith("# ")]
    except OSError:
        return {}
    return {row[1].strip(): float(row[0]) for row in rows}


def kit_of(file):
    """The kit whose figures a file has: its first line; no line, an older kit."""
    try:
        with open(file, encoding="utf-8") as opened:
            first = opened.readline()
    except OSError:
        first = ""
    return first[2:].strip() if first.startswith("# ") else "a kit before rattle-kit-13f"


def kit():
    return subprocess.run(["rt", "version"], stdout=subprocess.PIPE, text=True, check=True).stdout.strip()


def crates_listed():
    with open(os.path.join(ROOT, "crates.txt"), encoding="utf-8") as opened:
        return [line.split(":")[0].split()[0] for line in opened if ":" in line and not line.startswith("#")]


def stands(part):
    """Whether the tree still has what a part is of."""
    kind, _, of = part.partition(" ")
    if kind == "edit":
        crate, _, edit = of.partition("/")
        return edit == "?" or edit in edits_of(crate)
    return kind not in ("proof", "program", "tests", "seed") or of in crates_listed()


def kind_of(part):
    word = part.split()[0]
    return word if word in ("proof", "edit", "seed", "program", "tests", "library", "host") else part


def kinds(parts):
    """The seconds of each kind of part, and how many there are, the greatest first."""
    sums = {}
    for part, seconds in parts.items():
        count, total = sums.get(kind_of(part), (0, 0))
        sums[kind_of(part)] = (count + 1, total + seconds)
    return sorted(sums.items(), key=lambda row: -row[1][1])


def paces(now, kept):
    """The pace of each kind that has five parts or more to tell it by, and of all parts under None; {} where nothing can be compared."""
    ratios = {}
    for part in kept:
        if part in now and kept[part] >= 1:
            for kind in (kind_of(part), None):
                ratios.setdefault(kind, []).append(now[part] / kept[part])
    return {kind: statistics.median(found) for kind, found in ratios.items() if kind is None or len(found) >= 5}


def minutes(text):
    """The seconds that `times` tells of the shell's children: its second line, as 1m2.5s 0m3.1s."""
    found = re.findall(r"(\d+)m([\d.]+)s", text.splitlines()[1])
    return sum(int(m) * 60 + float(s) for m, s in found)


def report(file, times):
    now, kept = read(file), read(KEPT)
    with open(times, encoding="utf-8") as opened:
        whole = minutes(opened.read())
    told = sum(now.values())
    print("Processor seconds of the gate: %.0f; by part %.0f, %.0f not caught" % (whole, told, whole - told))
    for kind, (count, seconds) in kinds(now):
        print("%8.1f  %2.0f%%  %s%s" % (seconds, 100 * seconds / told, kind, " (%d)" % count if count > 1 else ""))
    print("The ten dearest parts:")
    for part in sorted(now, key=lambda part: -now[part])[:10]:
        print("%8.1f  %2.0f%%  %s" % (now[part], 100 * now[part] / told, part))
    if kept and kit_of(KEPT) != kit():
        print("The kept figures (.ci/shares.txt) are of %s, and nothing is compared with them" % kit_of(KEPT))
        return
    pace = paces(now, kept)
    if not pace:
        print("No figures are kept to compare with (.ci/shares.txt)")
        return
    # what the part would have taken at the last landing
    then = {part: seconds / pace.get(kind_of(part), pace[None]) for part, seconds in now.items()}
    shown = ", ".join("%s %.2f" % (kind or "all", pace[kind]) for kind in sorted(pace, key=str))
    print("Against the last landing (.ci/shares.txt, %.0f seconds), at this machine's pace (%s):" % (sum(kept.values()), shown))
    grown = [part for part in kept if part in then and then[part] > kept[part] * GREW and then[part] - kept[part] >= LEAST]
    for part in sorted(grown, key=lambda part: kept[part] - then[part]):
        print("  WARNING: %s grew: %.1f, was %.1f" % (part, then[part], kept[part]))
    for part in sorted(set(now) - set(kept), key=lambda part: -then[part]):
        print("  new: %s, %.1f" % (part, then[part]))
    lost = sorted(set(kept) - set(now), key=lambda part: -kept[part])
    for part in lost:
        if not stands(part):
            print("  gone: %s, was %.1f" % (part, kept[part]))
    idle = [part for part in lost if stands(part)]
    if idle:
        print("  %d parts, of %.0f seconds, took no time: rt ci had them from earlier runs of the same files" % (len(idle), sum(kept[part] for part in idle)))
    both = [part for part in kept if part in then]
    print("  in all, of %d parts that both have, %+.0f per cent" % (len(both), 100 * (sum(then[part] for part in both) / sum(kept[part] for part in both) - 1)))


def keep(file):
    parts = read(file)
    if not parts:
        sys.exit("gate_shares: %s has no figures" % file)
    with open(KEPT, "w", encoding="utf-8") as opened:
        opened.write("# %s\n" % kit())
        opened.writelines("%9.2f %s\n" % (parts[part], part) for part in sorted(parts))


# ---- the table of docs/BENCHMARKS.md


# The kinds of parts that the rows of the crates tell.
OF_CRATES = ("proof", "edit", "seed", "program", "tests")


def rows_of(parts):
    """For each crate of crates.txt: seconds of its proof or build, how many edits it has, their seconds; then the other parts."""
    crates = crates_listed()
    rows = []
    for crate in crates + sorted({p.split()[1].split("/")[0] for p in parts if p.split()[0] in OF_CRATES} - set(crates)):
        edits = [seconds for part, seconds in parts.items() if part.startswith("edit %s/" % crate)]
        proof = sum(parts.get("%s %s" % (kind, crate), 0) for kind in ("proof", "program", "tests"))
        if proof or edits:
            rows.append((crate, proof, len(edits), sum(edits) + parts.get("seed " + crate, 0)))
    return rows


def table(before):
    parts, old = read(KEPT), read(before) if before else {}
    was = {crate: (proof, count, edits) for crate, proof, count, edits in rows_of(old)}
    lines = ["", "| crate | proof or build, s | edits | their seconds | before: proof | edits | their seconds |", "|---|---|---|---|---|---|---|"]
    shown = rows_of(parts)
    for crate, proof, count, edits in shown + [(c,) + (0, 0, 0) for c in was if c not in {row[0] for row in shown}]:
        first = was.pop(crate, (0, 0, 0))
        lines.append("| %s | %s |" % (crate, " | ".join(cell(v) for v in (proof, count, edits) + first)))
    others = [p for p in sorted(set(parts) | set(old)) if p.split()[0] not in OF_CRATES]
    for part in others:
        lines.append("| %s | %s | | | %s | | |" % (part, cell(parts.get(part, 0)), cell(old.get(part, 0))))
    lines.append("| **all** | **%.0f**, of it edits %.0f | %d | | **%.0f**, of it edits %.0f | %d | |" % (sum_of(parts) + sum_of(old)))
    with open(PAGE, encoding="utf-8") as opened:
        page = opened.read()
    start, stop = page.index(BEGIN) + len(BEGIN), page.index(END)
    with open(PAGE, "w", encoding="utf-8") as opened:
        opened.write(page[:start] + "\n" + "\n".join(lines) + "\n\n" + page[stop:])


def sum_of(parts):
    edits = [seconds for part, seconds in parts.items() if part.startswith(("edit ", "seed "))]
    return (sum(parts.values()), sum(edits), sum(part.startswith("edit ") for part in parts))


def cell(value):
    if not value:
        return ""
    return str(value) if isinstance(value, int) else "%.1f" % value


def main(words):
    calls = {"watch": 2, "report": 2, "keep": 1, "table": 0}
    if not words or words[0] not in calls or len(words) - 1 < calls[words[0]]:
        sys.exit(__doc__)
    if words[0] == "watch":
        watch(int(words[1]), words[2])
    elif words[0] == "report":
        report(words[1], words[2])
    elif words[0] == "keep":
        keep(words[1])
    else:
        table(words[1] if len(words) > 1 else None)


if __name__ == "__main__":
    main(sys.argv[1:])
