#!/usr/bin/env python3
"""Writes docs/laws.txt: the statement of each law (a public function without arguments or a result, which is its
contract), and each definition that a statement names, as the specifications have it.

    python3 docs/laws.py           # writes the text anew
    python3 docs/laws.py --check   # says where it differs; the status is 1 then

A weakened clause or definition is still proved. The stored text shows each change of a statement to its reader.
"""

import difflib
import re
import sys
from pathlib import Path

ROOT = Path(__file__).resolve().parent.parent
STORED = ROOT / "docs/laws.txt"
IMPORT = re.compile(r"^\s*ghost use Rattle\.([\w.]+)\.\{([^}]*)\};", re.M)
LAW = re.compile(r"^pub fn (\w+)\(\)\n((?:    .*\n)*)\{", re.M)
DEFINITION = re.compile(r"^(?:abbrev |unfoldable )?pub (?:record )?([\w◌≡-]+)")


def text_of(path):
    return re.sub(r"(?m)^\s*//.*\n|\s*--.*$", "", path.read_text(encoding="utf-8"))


def definitions():
    """Each definition by its full name: the paragraph in which a specification gives it."""
    found = {}
    for path in sorted(ROOT.glob("crates/*/specs/**/*.antt")):
        module = ".".join(path.relative_to(ROOT / "crates").with_suffix("").parts)
        for paragraph in text_of(path).split("\n\n"):
            said = paragraph.strip("\n")
            if match := DEFINITION.match(said):
                found[f"{module}.{match[1]}"] = said
    return found


def laws():
    """Each law: its crate, its name, its contract, and the full names of what that names."""
    for path in sorted(ROOT.glob("crates/*/src/**/*.rt")):
        text = text_of(path)
        names = {}
        for module, listed in IMPORT.findall(text):
            for name in listed.split(","):
                long, _, short = name.strip().partition(" as ")
                names[short or long] = f"{module}.{long}"
        for name, contract in LAW.findall(text):
            if "ensures" in contract:
                words = set(re.findall(r"[A-Za-z]\w*", contract))
                yield path.relative_to(ROOT / "crates").parts[0], name, contract.rstrip(), {
                    names[word] for word in words if word in names}


def written():
    defined, parts, used = definitions(), [], set()
    for crate, name, contract, named in laws():
        parts.append(f"{crate}: {name}\n{contract}")
        used |= named & defined.keys()
    for name in sorted(used):
        parts.append(f"{name}\n{defined[name]}")
    return "\n\n".join(parts) + "\n"


def main():
    text = written()
    if sys.argv[1:] == ["--check"]:
        stored = STORED.read_text(encoding="utf-8") if STORED.exists() else ""
        changes = list(difflib.unified_diff(stored.splitlines(), text.splitlines(), "stored", "the tree", n=1, lineterm=""))
        for line in changes[:60]:
            print(line)
        sys.exit(1 if changes else 0)
    STORED.write_text(text, encoding="utf-8")


if __name__ == "__main__":
    main()
