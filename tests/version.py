"""One version: the file VERSION has it, and every other place has the same.

    version.py          fails where a place has another version, and says which
    version.py write    carries the version of the file VERSION to every place

The Makefile reads the file itself. A version is MAJOR.MINOR.PATCH, and as a number MAJOR * 10000 + MINOR * 100 + PATCH.
"""

import os
import re
import sys

ROOT = os.path.dirname(os.path.dirname(os.path.abspath(__file__)))

# Each place: its file, what stands before the version and after it there, and the spelling of the version.
PLACES = [
    ("include/notebook.h", '#define NOTEBOOK_VERSION_STRING "', '"', "text"),
    ("include/notebook.h", "#define NOTEBOOK_VERSION_NUMBER ", "\n", "number"),
    ("crates/gateway/specs/Version.antt", "library_version = version_number ", "\n", "words"),
    ("crates/gateway/src/lib.rt", "const VERSION: u64 = ", ";", "number"),
    ("hosts/rust/notebook/Cargo.toml", 'name = "notebook"\nversion = "', '"', "text"),
    ("hosts/rust/Cargo.lock", 'name = "notebook"\nversion = "', '"', "text"),
    ("hosts/rust/README.md", "    error: notebook@", ": no libgateway.a", "text"),
    ("hosts/rust/notebook/src/lib.rs", "100 times the minor, and the patch: ", ".\n", "number is text"),
    ("README.md", "`NOTEBOOK_VERSION_NUMBER` the header's: ", ". ", "number for text"),
]


def read(name):
    with open(os.path.join(ROOT, name), encoding="utf-8") as opened:
        return opened.read()


def spellings():
    """The version of the file VERSION in each spelling."""
    found = re.fullmatch(r"(0|[1-9]\d*)\.(0|[1-9]\d?)\.(0|[1-9]\d?)\n", read("VERSION"))
    if not found:
        sys.exit("version: the file VERSION is not one line MAJOR.MINOR.PATCH, minor and patch below 100")
    major, minor, patch = (int(part) for part in found.groups())
    text, number = f"{major}.{minor}.{patch}", str(major * 10000 + minor * 100 + patch)
    return {
        "text": text,
        "number": number,
        "words": f"{major} {minor} {patch}",
        "number is text": f"{number} is {text}",
        "number for text": f"{number} for {text}",
    }


def main(write):
    wanted, wrong = spellings(), 0
    for name, before, after, spelling in PLACES:
        text = read(name)
        form = re.escape(before) + "([^\n]*?)" + re.escape(after)
        found = re.findall(form, text)
        if len(found) != 1:
            sys.exit(f"version: {name} has {len(found)} times: {before.splitlines()[-1]}..")
        if found[0] != wanted[spelling] and write:
            with open(os.path.join(ROOT, name), "w", encoding="utf-8") as opened:
                opened.write(re.sub(form, lambda _: before + wanted[spelling] + after, text))
        elif found[0] != wanted[spelling]:
            wrong += 1
            print(f"version: {name} has {found[0]}, VERSION asks for {wanted[spelling]}; `python3 tests/version.py write` carries it there")
    if wrong == 0:
        print(f"version {wanted['text']} in {len(PLACES)} places")
    return 1 if wrong else 0


if __name__ == "__main__":
    if sys.argv[1:] not in ([], ["write"]):
        sys.exit(__doc__)
    sys.exit(main(sys.argv[1:] == ["write"]))
