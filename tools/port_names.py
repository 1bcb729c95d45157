#!/usr/bin/env python3
"""Brings this repository's own names to the spelling of today's Rattle, after port.py: words in snake case, facts and types in upper camel case.

usage: python3 tools/port_names.py            at the top of the checkout: rewrites crates/, and the names that documents and tests give in full
       python3 tools/port_names.py --list     prints each old name and its new one, and changes nothing

Own names are what specs/ and the lemma files of proofs/ define: definitions, lemmas, fields and constructors. Functions of src/, exported names,
strings and comments of code keep theirs. A new name that something else has already stops it (or has its own row in OTHERWISE).
"""

import os
import re
import sys

# files of specs/ whose name Rattle now has for what it makes: (crate, old, new)
MODULES = [("replies", "Contracts", "CallContracts")]

# names whose new spelling something else has already, or that the rule would spell badly
OTHERWISE = {
    # the library has these under the same spelling
    "le-leb": "le-leb",
    "drop-drop": "drop-drop",
    "get_or-drop": "get_or-drop",
    "firstIDs": "first_ids",
    "knownIDs": "known_ids",
    "length-append": "length-append",
    "eq-eqb": "eq-eqb",
}

TOKEN = re.compile(r"[^\s(){}\[\].,;:\"`«»⟦⟧|λ¬∙→×⊎↔≡≢]+")
# what a function, a field or a variable of src/ may be called too
SNAKE = re.compile(r"^[a-z][a-z0-9_]*$")
TOP = re.compile(r"^(?:unfoldable |abbrev |unfolding )?(?:pub )?(data |record )?([^\s:(){}.,;]+)(?=\s*[:({])")
MEMBER = re.compile(r"^ {2,8}(?:pub )?([^\s:(){}.,;]+)\s*(?:\{[^}]*\}|\([^)]*\))*\s*:(?=\s)")
CONSTRUCTORS = re.compile(r"^ {2,8}([a-zA-Z][^:]*?)\s*:(?=\s)")


def files(root, ends):
    for folder, dirs, names in os.walk(root):
        dirs[:] = sorted(d for d in dirs if d not in ("out", ".git", "target"))
        for n in sorted(names):
            if n.endswith(ends):
                yield os.path.join(folder, n)


def lemma_files(root):
    """specs/ and the lemma files of proofs/, not the proofs of functions"""
    for p in files(os.path.join(root, "crates"), (".antt", ".antt.txt")):
        parts = os.path.relpath(p, root).split(os.sep)
        if len(parts) == 4:
            yield p


def own_names(root):
    """each name that this repository defines, with whether it is a fact or a type"""
    found = {}
    for p in lemma_files(root):
        with open(p, encoding="utf-8") as f:
            lines = f.read().split("\n")
        for i, line in enumerate(lines):
            m = re.match(r"(?:pub )?ruleset ([^\s:=]+)", line)
            if m:
                found.setdefault(m.group(1), False)
                continue
            if line.startswith(("use ", "pub use ", "--", "infix", "pub mod", "mod ", "mutual")):
                continue
            m = TOP.match(line)
            if m:
                # an operator, ◌name◌, is also written without its rings
                name = m.group(2).strip("◌") or m.group(2)
                rest = line
                j = i + 1
                while j < len(lines) and lines[j].startswith(" "):
                    rest += " " + lines[j].strip()
                    j += 1
                is_type = bool(m.group(1)) or bool(re.search(r"(?:[:→]\s*|^)Type \d\s*(?:where)?\s*$", rest.split(" -- ")[0].strip()))
                found[name] = found.get(name, False) or is_type
                continue
            m = MEMBER.match(line) or CONSTRUCTORS.match(line)
            if m:
                for name in m.group(1).split():
                    if re.match(r"^[A-Za-z][\w'′-]*$", name):
                        found.setdefault(name, False)
    # the second names that imports give
    for p in files(os.path.join(root, "crates"), (".antt", ".rt", ".antt.txt", ".rt.txt")):
        with open(p, encoding="utf-8") as f:
            for line in f:
                if re.match(r"(?:pub |ghost )?use ", line):
                    for name in re.findall(r" as (\w[\w'-]*)", line):
                        found.setdefault(name, False)
    return found


def snake(word):
    word = re.sub(r"(?<=[a-z0-9])(?=[A-Z])", "_", word)
    word = re.sub(r"(?<=[A-Z])(?=[A-Z][a-z])", "_", word)
    return word.lower()


def camel(word):
    out = ""
    for part in re.split(r"[-_]", word):
        part = part if not part.isupper() or len(part) == 1 else part.capitalize()
        out += part[:1].upper() + part[1:]
    return out


def new_name(name, is_type):
    if name in OTHERWISE:
        return OTHERWISE[name]
    if not re.match(r"^[A-Za-z]", name) or re.search(r"[^\w'₀-₉ℕℤ-]", name):
        return name
    if is_type:
        return camel(name) if "-" in name or name.isupper() and len(name) > 1 or "ID" in name else name
    parts = []
    for part in name.split("-"):
        # a fact keeps its capital within a lemma's name
        parts.append(part if part[:1].isupper() and not part.isupper() else snake(part))
    return "_".join(parts)


def defined_in_specs(root):
    """the names that specs/ defines as functions, which take the plain name where a lemma's would be the same"""
    out = set()
    for p in lemma_files(root):
        if os.path.relpath(p, root).split(os.sep)[2] == "specs":
            with open(p, encoding="utf-8") as f:
                for line in f:
                    m = TOP.match(line)
                    if m and not line.startswith(("use ", "pub use ", "--", "pub mod", "mod ")):
                        out.add(m.group(2))
    return out


def table(root):
    """old name and new name; where two fall together, the definition keeps the plain name and a lemma gets _lem"""
    own = own_names(root)
    specs = defined_in_specs(root)
    groups = {}
    for name, is_type in own.items():
        if len(name) > 1:
            groups.setdefault(new_name(name, is_type), []).append(name)
    names = {}
    for new, olds in groups.items():
        olds.sort(key=lambda n: (n not in specs, "-" in n, n == new, n))
        for i, old in enumerate(olds):
            spelled = new + "_lem" * i
            if spelled != old:
                names[old] = spelled
    return own, names


def clashes(root, own, names):
    """new names that a field or a parameter of src/ has, a local of a lemma, or another new name"""
    held = {}
    for p in files(os.path.join(root, "crates"), (".rt", ".rt.txt")):
        with open(p, encoding="utf-8") as f:
            for m in re.finditer(r"\b([a-z]\w*)\s*:(?!:)", re.sub(r"//.*", "", f.read())):
                held.setdefault(m.group(1), set()).add(os.path.relpath(p, root))
    local = {}
    for p in lemma_files(root):
        with open(p, encoding="utf-8") as f:
            text = re.sub(r"--.*", "", f.read())
        for m in re.finditer(r"\(([^():]+):|λ ([^.()]+)\.|\{([^{}:]+):|let (\S+) [:=]", text):
            for t in (m.group(1) or m.group(2) or m.group(3) or m.group(4)).split():
                local.setdefault(t, set()).add(os.path.relpath(p, root))
    out, back = [], {}
    for old, new in sorted(names.items()):
        if new in back:
            out.append((old, new, "also " + back[new]))
        back[new] = old
        if new in held:
            out.append((old, new, "named in", " ".join(sorted(held[new]))))
        if new in local:
            out.append((old, new, "a local in", " ".join(sorted(local[new]))))
    return out


def respell(text, names, in_comments):
    """the names of a text; in comments only those that no English words are"""
    def line(part):
        cut = re.search(r"(?:^|\s)(?:--|//)\s", part)
        at = cut.start() if cut else len(part)
        # what a comment names in backticks is a name of the code, whatever word it is
        said = re.sub(r"`[^`]*`", lambda m: spelled(m.group(0), {o: n for o, n in names.items() if not SNAKE.match(o)}), part[at:])
        return spelled(part[:at], names) + spelled(said, in_comments)

    return "\n".join(line(part) for part in text.split("\n"))


def spelled(text, names):
    def one(m):
        t = m.group(0)
        # the folder of a function's proof has the function's name
        if text[: m.start()].endswith(".proofs."):
            return t
        if t in names:
            return names[t]
        bare = t.strip("◌")
        if bare != t and bare in names:
            return t.replace(bare, names[bare])
        return t

    return TOKEN.sub(one, text)


def main(argv):
    root = "."
    own, names = table(root)
    bad = clashes(root, own, names)
    if argv == ["--list"]:
        for old, new in sorted(names.items()):
            print(old, new)
        for b in bad:
            print("clash:", *b)
        return 0
    if bad:
        for b in bad:
            print("clash:", *b, file=sys.stderr)
        return 1
    for crate, old, new in MODULES:
        at = os.path.join(root, "crates", crate, "specs")
        if os.path.exists(os.path.join(at, old + ".antt")):
            os.rename(os.path.join(at, old + ".antt"), os.path.join(at, new + ".antt"))
    # a snake-case word in src/ is a function, a field or a variable there, and keeps its spelling
    in_code = {o: n for o, n in names.items() if not SNAKE.match(o)}
    # what documents and tests may mean by the word itself: only names that no English word is
    told = {o: n for o, n in names.items() if re.search(r"[a-z][A-Z]|^[A-Z].*-", o)}
    changed = 0
    for p in list(files(os.path.join(root, "crates"), (".antt", ".rt", ".antt.txt", ".rt.txt", ".edit"))) + list(files(root, (".md", ".py"))):
        if os.path.abspath(p) == os.path.abspath(__file__):
            continue
        with open(p, encoding="utf-8") as f:
            old = f.read()
        new = old
        for crate, was, now in MODULES:
            new = re.sub(rf"Rattle\.{crate}\.specs\.{was}(?!\w)", f"Rattle.{crate}.specs.{now}", new)
            new = re.sub(rf"{crate}/specs/{was}(?!\w)", f"{crate}/specs/{now}", new)
            if p.endswith(os.path.join(crate, "specs", "Lib.antt")):
                new = re.sub(rf"(?m)^pub mod {was}$", f"pub mod {now}", new)
        rust = p.endswith((".rt", ".rt.txt"))
        new = respell(new, told if p.endswith((".md", ".py")) else in_code if rust else names, told)
        if new != old:
            with open(p, "w", encoding="utf-8") as f:
                f.write(new)
            changed += 1
    print(f"{len(names)} names, {changed} files")
    return 0


if __name__ == "__main__":
    sys.exit(main(sys.argv[1:]))
