#!/usr/bin/env python3
"""Prints which definitions of this repository are premises within clauses of contracts, and what meets each: a clause, or
a lemma or a local value of a proof, that concludes it and doesn't ask for it itself.

    python3 docs/premises.py        # each premise, with the calls that ask for it and the place that meets it
    python3 docs/premises.py unmet  # only those that nothing meets; the status is 1 then

A clause that holds under a premise says nothing until the premise is met. A definition counts as a premise if it is to
the left of an arrow in a clause, or in a definition that a clause names, and as met if it is in the last part of a clause
or of a signature of which no other part has it. Names are those that a file imports or defines, so that two definitions
of one name in two crates are two.
"""

import re
import sys
from pathlib import Path

CRATES = Path(__file__).resolve().parent.parent / "crates"
IMPORT = re.compile(r"^\s*(?:ghost )?(?:pub )?use Rattle\.([\w.]+)\.\{([^}]*)\}", re.M)
DEFINED = re.compile(r"^(?:abbrev |unfoldable )?pub (?:record |data )?([A-Z]\w*)\b", re.M)
NAME = r"[A-Z]\w*"


class File:
    """A file's text without comments, its place in the names, and what its short names stand for."""

    def __init__(self, path):
        self.path = path.relative_to(CRATES).as_posix()
        self.text = re.sub(r"(?m)--.*$|//.*$", "", path.read_text(encoding="utf-8"))
        self.names = {}
        for module, names in IMPORT.findall(self.text):
            for name in names.split(","):
                long, _, short = name.strip().partition(" as ")
                self.names[short or long] = f"{module}.{long}"
        parts = self.path.removesuffix(path.suffix).split("/")
        self.module = ".".join(parts)
        if parts[1] == "specs":
            self.names.update({name: f"{self.module}.{name}" for name in DEFINED.findall(self.text)})

    def full(self, words):
        """The long names of those words that are names of this repository's definitions."""
        found = (self.names.get(word, "") for word in words)
        return {name for name in found if ".specs." in name and ".declared." not in name and not name.startswith("std.")}


def files(folder, suffix):
    return [File(path) for path in sorted(CRATES.glob(f"*/{folder}/**/*{suffix}"))]


def braced(text, start):
    """What is in the braces that open there."""
    depth = 0
    for at in range(start, len(text)):
        depth += {"{": 1, "}": -1}.get(text[at], 0)
        if depth == 0:
            return text[start + 1:at]
    return text[start + 1:]


def clauses():
    """Each file, each of its functions, and each of their clauses."""
    for file in files("src", ".rt"):
        for part in re.split(r"\bfn (?=\w)", file.text)[1:]:
            head = part.split("\n{")[0].split("\n    {\n")[0]
            for at in re.finditer(r"\bensures (?:\w+ )?\{", head):
                yield file, re.match(r"\w+", part)[0], braced(head, at.end() - 1)


def levels(text):
    """The text outside of parentheses, and that inside of each, with what is deeper left out."""
    open_at, parts = [[]], []
    for char in text:
        if char in "({":
            open_at.append([])
        elif char in ")}" and len(open_at) > 1:
            parts.append("".join(open_at.pop()))
            open_at[-1].append(" ")
        else:
            open_at[-1].append(char)
    return [*parts, *("".join(part) for part in open_at)]


def premises(text):
    """The words that are first in a part to the left of an arrow."""
    for part in levels(text):
        for left in re.split("→", part)[:-1]:
            yield from re.findall(rf"(?:^|×|⊎|\.|=|\bin\b|λ \w+\.)\s*({NAME})", left.strip())


def concluded(text):
    """The words of last parts, without those that an earlier part has too."""
    for part in levels(text):
        *before, last = re.split("→", part)
        asked = {word for left in before for word in re.findall(NAME, left)}
        yield from (word for word in re.findall(NAME, last) if word not in asked)


def bodies(specs):
    """What each definition of a specification says, with its file."""
    found = {}
    for file in specs:
        pattern = r"^(?:abbrev |unfoldable )?pub ([A-Z]\w*) :(.*?)(?=\n\n|\Z)"
        for name, body in re.findall(pattern, file.text, re.M | re.S):
            found[f"{file.module}.{name}"] = (file, body.split("\n" + name, 1)[-1])
        for name, body in re.findall(r"^pub record ([A-Z]\w*)(.*?)(?=\n\n|\Z)", file.text, re.M | re.S):
            found[f"{file.module}.{name}"] = (file, body)
    return found


def main():
    said, asked, met = bodies(files("specs", ".antt")), {}, {}
    for file, call, clause in clauses():
        inner = [said[name] for name in file.full(re.findall(rf"\b{NAME}", clause)) if name in said]
        for at, text in [(file, clause), *inner]:
            for name in at.full(premises(text)):
                asked.setdefault(name, set()).add(call)
        for name in file.full(concluded(clause)):
            met.setdefault(name, call)
    for file in files("proofs", ".antt"):
        signature = r"^ *(?:pub |abbrev |let |in let )*([\w-]+) : (.*?)(?=\n *[\w-]+ [^:\n]*= | =\s)"
        for name, type_of in re.findall(signature, file.text, re.M | re.S):
            for word in file.full(concluded(type_of)):
                met.setdefault(word, f"{file.path}: {name}")
    unmet = sorted(name for name in asked if name not in met)
    if sys.argv[1:] == ["unmet"]:
        print(*(name.rsplit(".", 1)[1] for name in unmet), sep="\n")
        sys.exit(1 if unmet else 0)
    for name in sorted(asked):
        print(f"{name}, of {', '.join(sorted(asked[name]))}: {met.get(name, 'nothing')}")


if __name__ == "__main__":
    main()
