#!/usr/bin/env python3
"""What a reader must believe: the definitions that the exported contracts and the promises rest on, found by following names.

  believed.py          print the files and the lines, call by call, and fail where a rule below is broken
  believed.py write    write the list into docs/PROMISES.md, between its marks

Each file under crates/*/specs/ says in its first line of which sort it is:

  -- Definitions, to be believed.       what the exported contracts rest on
  -- Promises, to be believed.          statements that proofs/ prove, and the words that they need
  -- A second statement, proved equal.  what is said elsewhere, said another way, with a proof that both agree
  -- Examples, computed.                inputs with what the paper says of them, compared with the definitions by computing
  -- Vocabulary of the code.            words for the contracts of functions that are not exported, and for their proofs
  -- Vocabulary of the proofs.          words for laws that others rest on

The rules: what must be believed stands in a file of definitions or of promises, and such a file has nothing else; each statement of a file of
promises is the type of a law in proofs/ of its crate; no name of a definition or type means two things among those of definitions, promises and second
statements, nor does one of a constructor that must be believed; and docs/PROMISES.md has the list as it is. What the script cannot follow is a
fault too, so that nothing escapes it: an import that it cannot read or find, a qualified name, a name that is also a variable, a definition
without `pub`. Lines are counted without comments, imports and blank lines. The kit's own names are not followed.
"""
import re
import sys
from pathlib import Path

ROOT = Path(__file__).resolve().parent.parent
CRATES = ROOT / "crates"
BEGIN, END = "<!-- begin: tests/believed.py writes from here -->", "<!-- end: tests/believed.py writes to here -->"
SORTS = {
    "-- Definitions, to be believed.": "definitions",
    "-- Promises, to be believed.": "promises",
    "-- A second statement, proved equal.": "second statements",
    "-- Examples, computed.": "examples",
    "-- Vocabulary of the code.": "vocabulary",
    "-- Vocabulary of the proofs.": "vocabulary",
}
FAULTS = []


def fault(text):
    if text not in FAULTS:
        FAULTS.append(text)


# ---- reading files


class Declaration:
    """A definition, type or statement with its lines; `gives` are the names that it defines, its own and its constructors'."""

    def __init__(self, module, name, sort, line):
        self.module, self.name, self.sort = module, name, sort
        self.lines, self.gives = [line], [name]

    def __repr__(self):
        return f"{self.module.label}:{self.name}"


class Module:
    """A file of specs, or the structs and enums that a crate's code declares."""

    def __init__(self, crate, path):
        self.crate, self.path, self.label = crate, path, str(path.relative_to(CRATES))
        self.imports, self.declared, self.all, self.sort = {}, {}, [], "code"

    def declare(self):
        for declaration in self.all:
            for word in (w for name in declaration.gives for w in words_of(name)):
                if self.declared.setdefault(word, declaration) is not declaration and self.sort != "code":
                    fault(f"{self.label}: `{word}` is declared twice")


def words_of(name):
    """The words by which a name is used: of one with places for operands (`◌or_else◌`) what stands between them."""
    return [w for w in name.split("◌") if w]


def tokens(text):
    """The names in a text: strings are left out, and so are the marks of a projection and of a bound variable."""
    text = re.sub(r'"[^"]*"', " ", text)
    return [w.rstrip(".") for w in re.split(r"[\s(){},;⌜⌝]+", text) if w and not w.startswith(".") and w.rstrip(".")]


def read_use(module, text):
    """An import: each name with the module that has it."""
    found = re.match(r"^(\S+)\.\{([^{}]*)\}\s*;?$", text)
    if not found:
        fault(f"{module.label}: an import that cannot be read: {text}")
        return
    for name in found.group(2).split(","):
        source, _, alias = name.strip().partition(" as ")
        for word, own in zip(words_of(alias or source), words_of(source)):
            module.imports[word] = (found.group(1), own)


def read_specs(crate, path):
    module = Module(crate, path)
    lines = path.read_text().split("\n")
    module.sort = SORTS.get(lines[0])
    if module.sort is None:
        fault(f"{module.label} does not say in its first line of which sort it is")
    current = None
    for line in lines:
        if line.lstrip().startswith("--") or not line.strip() or line.startswith(("infix", "unfolding ")):
            continue
        if line.startswith("use "):
            read_use(module, line[4:])
        elif re.match(r"^(abbrev |unfoldable )?pub (?!use |mod )", line):
            sort, name = re.match(r"^(?:abbrev |unfoldable )?pub (?:(data|record) )?(\S+)", line).groups()
            current = Declaration(module, name, sort or "definition", line)
            module.all.append(current)
        elif current and (line.startswith((" ", "}")) or set(words_of(current.name)) & set(tokens(line.partition(" = ")[0]))):
            current.lines.append(line)
            constructors = re.match(r"^  ([^:]+) : ", line)
            if current.sort == "data" and constructors:
                current.gives += constructors.group(1).split()
        else:
            fault(f"{module.label}: a line that belongs to no `pub` declaration: {line}")
    module.declare()
    return module


def read_code(crate, path):
    """Structs and enums of a crate's code."""
    module = Module(crate, path)
    current = None
    for line in path.read_text().split("\n"):
        found = re.match(r"^pub (struct|enum) (\w+)", line)
        if found:
            current = Declaration(module, found.group(2), found.group(1), line)
            module.all.append(current)
        elif current and line.strip() and not line.strip().startswith("//"):
            current.lines.append(line)
            variant = re.match(r"^    (\w+)[(,]", line)
            if current.sort == "enum" and variant:
                current.gives.append(variant.group(1))
        if line == "}":
            current = None
    module.declare()
    return module


def read_all():
    modules = {}
    for crate in crates_in_order():
        for path in sorted((CRATES / crate / "specs").rglob("*.antt")):
            if path.stem != "Lib":
                modules[(crate, path.stem)] = read_specs(crate, path)
        if (CRATES / crate / "src/lib.rt").exists():
            modules[(crate, "")] = read_code(crate, CRATES / crate / "src/lib.rt")
            for path in sorted((CRATES / crate / "src").rglob("*.rt")):
                if path.stem != "lib":
                    modules[(crate, f"src/{path.stem}")] = read_code(crate, path)
    return modules


def in_code(modules, crate, word):
    """The struct or enum of this name in a crate's code, in whichever of its files."""
    for (other, name), module in modules.items():
        if other == crate and (not name or name.startswith("src/")) and word in module.declared:
            return module.declared[word]
    return None


def crates_in_order():
    lines = (ROOT / "crates.txt").read_text().split("\n")
    return [line.split(":")[0].split()[0] for line in lines if line and not line.startswith("#")]


# ---- following names


def lookup(modules, module, where, name):
    """The declaration that an imported name means, None where it is the kit's."""
    found = re.match(r"^Rattle\.(\w+)\.(.*)$", where)
    if not found or (found.group(1), "") not in modules and not (CRATES / found.group(1)).exists():
        return None
    crate, parts = found.group(1), found.group(2).split(".")
    if parts[:2] == ["specs", "declared"]:
        declaration = in_code(modules, crate, parts[3] if (crate, f"src/{parts[2]}") in modules else parts[2])
    else:
        owner = modules.get((crate, parts[1])) if parts[0] == "specs" and len(parts) > 1 else None
        declaration = owner and owner.declared.get(parts[2] if len(parts) > 2 else name)
    if declaration is None:
        fault(f"{module.label}: `{name}` of {where} is not found")
    return declaration


def bound(declaration, line):
    """The variables of a line: those before a clause's ` = `, and what is bound by λ or a type."""
    names = set()
    head, equals, _ = line.partition(" = ")
    if equals and not line.startswith((" ", "abbrev", "unfoldable", "pub")):
        names |= set(tokens(head)) - set(words_of(declaration.name))
    for group in re.findall(r"\(([^():]+) : ", line) + re.findall(r"λ ([^.(]+)\.", line):
        names |= set(group.split())
    return names


def uses(modules, declaration):
    """The declarations of this project that a declaration names."""
    module, found = declaration.module, set()
    if module.sort == "code":
        for line in declaration.lines[1:]:
            for crate, word in re.findall(r"(?:(\w+)::)?(\w+)", line):
                other = in_code(modules, crate if (crate, "") in modules else module.crate, word)
                if other and other.name == word:
                    found.add(other)
        return found - {declaration}
    for line in declaration.lines:
        if "Rattle." in line:
            fault(f"{declaration}: a qualified name: {line.strip()}")
        variables = bound(declaration, line)
        for word in (w.split(".")[0] for w in tokens(line)):
            other = module.declared.get(word)
            if other is None and word in module.imports:
                other = lookup(modules, module, *module.imports[word])
            if other and word in variables and other.name in words_of(other.name) and other.name == word and other is not declaration:
                fault(f"{declaration}: `{word}` is a variable and a name: {line.strip()}")
            if other:
                found.add(other)
    return found - {declaration}


def follow(modules, roots):
    known, todo = set(roots), list(roots)
    while todo:
        for other in uses(modules, todo.pop()) - known:
            known.add(other)
            todo.append(other)
    return known


def clauses(contract):
    """What stands between the braces of each `requires` and `ensures`."""
    for start in re.finditer(r"(?:requires|ensures)[^{]*\{", contract):
        depth, end = 1, start.end()
        while depth:
            depth += {"{": 1, "}": -1}.get(contract[end], 0)
            end += 1
        yield contract[start.end():end - 1]


def contracts(modules, path, exported):
    """The declarations that the contracts of a file of code name, with the types of parameters and results: {function: declarations}."""
    module, text, roots = Module(path.parent.parent.name, path), path.read_text(), {}
    for line in re.findall(r"^ghost use (.*)$", text, re.M):
        read_use(module, line)
    kind = r'extern "C" ' if exported else ""
    for name, contract in re.findall(r"^pub %sfn (\w+)(.*?)^\{" % kind, text, re.S | re.M):
        roots[name] = set()
        for word in (w.split(".")[0] for clause in clauses(contract) for w in tokens(clause)):
            if word in module.imports:
                roots[name].add(lookup(modules, module, *module.imports[word]))
        for crate, word in re.findall(r"(\w+)::(\w+)", contract):
            roots[name].add(in_code(modules, crate, word))
        roots[name].discard(None)
    return roots


def statements(module):
    """The statements of a file of promises, each proved in proofs/ of its crate."""
    laws = "\n".join(path.read_text() for path in (CRATES / module.crate / "proofs").rglob("*.antt"))
    found = [d for d in module.all if re.match(r"^abbrev pub \S+ : Type 0$", d.lines[0])]
    for declaration in found:
        if not re.search(r"^ *pub \S+ : %s$" % re.escape(declaration.name), laws, re.M):
            fault(f"{declaration} is the type of no law")
    return found


# ---- the rules, and the list


def size(declarations):
    return sum(len(d.lines) for d in declarations)


def judge(modules, believed):
    names = {}
    for declaration in sorted(believed, key=repr):
        if declaration.module.sort not in ("definitions", "promises", "code"):
            fault(f"{declaration} must be believed and stands in a file of {declaration.module.sort}")
    for module in modules.values():
        for declaration in module.all:
            if module.sort in ("definitions", "promises") and declaration not in believed:
                fault(f"{declaration} need not be believed and stands in a file of {module.sort}")
            if declaration in believed or module.sort == "second statements":
                for name in declaration.gives if declaration in believed else [declaration.name]:
                    names.setdefault(name, set()).add(repr(declaration))
    for name, places in sorted(names.items()):
        if len(places) > 1:
            fault(f"`{name}` means two things: {', '.join(sorted(places))}")


def table(parts, believed):
    """The list for docs/PROMISES.md: lines call by call, then the files in the order of the data's way."""
    text, before = ["| from | lines | not counted above |", "|---|---|---|"], set()
    for name, found in parts:
        text.append(f"| {name} | {size(found)} | {size(found - before)} |")
        before |= found
    text += ["", "| file | lines | names |", "|---|---|---|"]
    files, order = {}, crates_in_order()
    for declaration in believed:
        files.setdefault(declaration.module, set()).add(declaration)
    for module in sorted(files, key=lambda m: (order.index(m.crate), m.path.suffix == ".antt", m.label)):
        names = ", ".join(f"`{d.name}`" for d in module.all if d in files[module])
        text.append(f"| {module.label} | {size(files[module])} | {names} |")
    return "\n".join(text)


def main():
    modules = read_all()
    parts = [(f"the contract of `{name}`", follow(modules, found))
             for name, found in contracts(modules, CRATES / "gateway_c/src/lib.rt", True).items()]
    printing = contracts(modules, CRATES / "answers/src/lib.rt", False)
    parts.append(("the contract of `print`", follow(modules, printing["print"])))
    by_contract = set().union(*(found for _, found in parts))
    for module in modules.values():
        if module.sort == "promises":
            parts.append((f"the promises of {module.label}", follow(modules, statements(module))))
    believed = set().union(*(found for _, found in parts))
    judge(modules, believed)
    text = f"{size(by_contract)} lines for the contracts, {size(believed)} with the promises.\n\n{table(parts, believed)}"
    page = ROOT / "docs/PROMISES.md"
    before, _, rest = page.read_text().partition(BEGIN)
    told, _, after = rest.partition(END)
    if sys.argv[1:] == ["write"]:
        page.write_text(f"{before}{BEGIN}\n\n{text}\n\n{END}{after}")
    elif told.strip() != text:
        fault("docs/PROMISES.md has another list; `python3 tests/believed.py write` writes it")
    print(text)
    for said in FAULTS:
        print("believed.py:", said)
    return 1 if FAULTS else 0


if __name__ == "__main__":
    sys.exit(main())
