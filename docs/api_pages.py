#!/usr/bin/env python3
"""Writes docs/api/CRATE.md for each crate for users: each public type and call with its signature, its doc comment, and
the names of its clauses, which docs/PROMISES.md explains. The definitions that clauses cite aren't copied.

    python3 docs/api_pages.py            writes them
    python3 docs/api_pages.py --check    names those that it would change, with status 1

A name that several crates hand on is on the page of the one that defines it, or else of the first one; the others link
to it.
"""
import re
import sys
from functools import lru_cache

from crate_pages import CRATES, ROOT, STARTS, root_of, sources, used, wrapped

COMMENT = r"((?:^ *///[^\n]*\n)*)"
ATTRIBUTES = r"((?:^ *#\[[^\n]*\n)*)"
WORDS = r"(?:const |ghost )?(fn|struct|enum|trait|const|static|type) (\w+)"


def prose(comment):
    """The paragraphs of a doc comment: its headings become bold words in front of what follows them."""
    lines = [line.strip().removeprefix("///").strip() for line in comment.strip().split("\n")]
    text = re.sub(r"(?m)^#+ (.*)\n", r"**\1.** ", "\n".join(lines).strip())
    text = re.sub(r"\[(`[^`]+`)\](?:\([^)]*\))?", r"\1", text)
    told = []
    for block in re.split(r"\n\n+", text):
        if block.startswith("```") or re.match(r"(- |\d\. |\|)", block):
            told += [*block.split("\n"), ""]
        elif block:
            told += [*wrapped(" ".join(block.split()), ""), ""]
    return told


def declared(text):
    """What a declaration says: its signature, and the names of its conditions and clauses."""
    head = re.split(r"^ *\{\}?$", text, maxsplit=1, flags=re.M)[0]
    signature = re.split(r"\n *(?:requires|ensures)\b|\{$|\{ *\}$|;$", head, maxsplit=1, flags=re.M)[0]
    depth = re.match(r" *", signature)[0]
    lines = [line.removeprefix(depth).rstrip() for line in signature.rstrip().split("\n")]
    return lines, re.findall(r"\bensures (\w+) \{", head)


def called(name, comment, text):
    signature, clauses = declared(text)
    lines = [f"### `{name}`", "", "```rust", *signature, "```", "", *prose(comment)]
    if clauses:
        lines += [*wrapped("Clauses: " + ", ".join(f"`{clause}`" for clause in clauses) + ".", ""), ""]
    return lines


def members(kind, body):
    """The public fields of a struct, or the variants of an enum with their fields: each in a point with its comment."""
    what = r" {4}pub (\w+: [^\n]*?)" if kind == "struct" else r" {4}( {4}\w+: [^\n]*?|\w+(?:\([^\n]*\)| \{)?)"
    for comment, said in re.findall(COMMENT + r"(?:^ *#\[[^\n]*\n)*^" + what + ",?$", body, re.M):
        text = " ".join(line.strip()[3:].strip() for line in comment.strip().split("\n"))
        depth = "  " if said.startswith(" ") else ""
        point = f"{depth}- `{said.strip().removesuffix(' {')}`" + (f": {text}" if text else "")
        yield from wrapped(point, depth + "  ") if not depth else [depth + line for line in wrapped(point[2:])]


@lru_cache(maxsize=None)
def items(crate):
    """Of each public item of a crate, by its name: its kind, comment and text."""
    found = {}
    for text in sources(crate):
        for match in re.finditer(COMMENT + ATTRIBUTES + r"^pub " + WORDS, text, re.M):
            end = re.search(r"^(\}|\{\}|.*;)$", text[match.start(3):], re.M)
            body = text[text.rindex("pub ", 0, match.start(3)):match.start(3) + (end.end() if end else 0)]
            found.setdefault(match[4], (match[3], match[1], body, match[2]))
    return found


def methods(crate, name):
    for text in sources(crate):
        for block in re.split(r"^(?=impl|pub trait)", text, flags=re.M)[1:]:
            head = block.split("{")[0]
            if re.match(rf"(impl(<[^>]*>)? {name}\b|pub trait {name}\b)", head) and " for " not in head:
                public = r"^ {4}(?:pub )?" if head.startswith("pub trait") else r"^ {4}pub "
                body = block[:block.find("\n}\n") + 1]
                for match in re.finditer(COMMENT + ATTRIBUTES + f"({public}(?:const )?fn (\\w+))", body, re.M):
                    rest = body[match.start(3):]
                    yield from called(f"{name}::{match[4]}", match[1], re.split(r"\n {4}\}\n|;\n\n", rest)[0])


def section(crate, name):
    kind, comment, body, attributes = items(crate)[name]
    if kind == "fn":
        return called(name, comment, body)
    lines = [f"## `{name}`", "", *prose(comment)]
    traits = re.findall(r"\w+", "".join(re.findall(r"derive\(([^)]*)\)", attributes)))
    impl = rf"^impl(?:<[^>]*>)? ([\w<>]+) for {name}\b"
    traits += [each for text in sources(crate) for each in re.findall(impl, text, re.M)]
    known = sorted({one for one in traits if one not in ("Drop", "Model", "Invariant")})
    shown = list(members(kind, body)) if kind in ("struct", "enum") else []
    if shown:
        lines += [*shown, ""]
    if kind in ("const", "static", "type"):
        lines += ["```rust", declared(body)[0][0], "```", ""]
    if known:
        lines += [*wrapped("Traits: " + ", ".join(f"`{one}`" for one in known) + ".", ""), ""]
    return lines + list(methods(crate, name))


def page(crate, pages):
    """The page of a crate; `pages` has the page of each name that was written before."""
    about = " ".join(line[3:].strip() for line in root_of(crate).split("\n") if line.startswith("//!"))
    lines, elsewhere, functions = [f"# {crate}", "", *wrapped(about, ""), ""], [], []
    crates = {path.name for path in CRATES.iterdir()}
    for front, name in used(root_of(crate)):
        owner = front.split("::")[0] if front.split("::")[0] in crates else crate
        if pages.setdefault((owner, name), owner if owner in STARTS else crate) != crate:
            elsewhere.append(f"[`{name}`]({pages[owner, name]}.md)")
        elif name in items(owner):
            (functions if items(owner)[name][0] == "fn" else lines).extend(section(owner, name))
    lines += ["## Functions and laws", "", *functions] if functions else []
    lines += ["## On other pages", "", *wrapped(", ".join(elsewhere) + ".", ""), ""] if elsewhere else []
    return "\n".join(lines).rstrip() + "\n"


def main():
    stale, pages = [], {}
    for crate in STARTS:
        path, text = ROOT / "docs/api" / f"{crate}.md", page(crate, pages)
        if path.is_file() and path.read_text(encoding="utf-8") == text:
            continue
        stale.append(path.relative_to(ROOT))
        if "--check" not in sys.argv:
            path.parent.mkdir(exist_ok=True)
            path.write_text(text, encoding="utf-8")
    for path in stale:
        print(f"{path}: {'differs from what docs/api_pages.py writes' if '--check' in sys.argv else 'written'}")
    sys.exit(1 if stale and "--check" in sys.argv else 0)


if __name__ == "__main__":
    main()
