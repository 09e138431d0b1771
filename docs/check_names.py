#!/usr/bin/env python3
"""Checks that the names on the pages stand in the tree, and that the pages show what the crates have.

Pages are README, CONTRIBUTING, CHANGELOG and those of docs/. Of each promise on docs/PROMISES.md the points below it
name public functions and types, and in parentheses clauses. docs/LAYERS.md is what docs/layers.py prints, and the
headline of README that of PROMISES. On any page but CHANGELOG, which tells what is gone, a name with an
underscore stands somewhere in the tree, and a block behind a line `<!-- FILE -->` word for word in that file, at one
depth of indentation. No other line is longer than 120 characters, README has at most 130 lines, and each link within
the repository leads to a file, and to a heading of it. Each wrong body in tests/wrong_bodies/ and crates/*/must-fail/ changes
text that its file has once. Counts on pages are those of the tree, if this script can tell, and premises that nothing
meets those of docs/premises.py. docs/laws.txt has the statements of all laws, as docs/laws.py writes them. A name is
imported from the crate that defines it: only the crates for users hand names
on, each straight from its crate, and only programs take them there. What calls of the library for C answer is numbered
alike in its crate, its header, and the packages for Rust, Go and Python. All packages have one version, under which
nothing of the released header is gone (bindings/dist/versions). Prints what is missing, and ends with status 1
then.
"""
import re
import subprocess
import sys
from functools import lru_cache
from pathlib import Path

ROOT = Path(__file__).resolve().parent.parent
CRATES = ROOT / "crates"
LONGEST_LINE = 120
MOST_LINES_OF_README = 130
# The crates for users, which hand on what their layer has for them.
DOORS = (
    "rtp_wire", "payload_core", "h26x_payload", "sdp_formats", "rtp_media", "rtp_media_browsers",
    "media_files",
)


def pages():
    """Every page, with its lines."""
    files = [ROOT / "README.md", ROOT / "CONTRIBUTING.md", ROOT / "CHANGELOG.md", *sorted((ROOT / "docs").glob("*.md"))]
    for page in files:
        yield page, page.read_text(encoding="utf-8").rstrip("\n").split("\n")


def promised_calls():
    """The points below the promises, which name calls: the number of the first line, and the text."""
    number, text = 0, ""
    promises = (ROOT / "docs/PROMISES.md").read_text(encoding="utf-8").split("\n## The headline")[0]
    for at, line in enumerate(promises.split("\n"), 1):
        if line.startswith("  - "):
            if text:
                yield number, text
            number, text = at, line
        elif text and line.startswith("    "):
            text += " " + line.strip()
        elif text:
            yield number, text
            text = ""
    if text:
        yield number, text


def sources(crate="*"):
    if crate not in sources.kept:
        files = sorted(CRATES.glob(f"{crate}/src/**/*.rt"))
        sources.kept[crate] = "\n".join(p.read_text(encoding="utf-8") for p in files)
    return sources.kept[crate]


sources.kept = {}


def missing_promises():
    functions = set(re.findall(r"\bfn (\w+)", sources()))
    types = set(re.findall(r"\b(?:struct|enum|trait|type) (\w+)", sources()))
    for number, calls in promised_calls():
        outside = re.sub(r"\([^()]*\)", "", calls)
        for token in re.findall(r"`([^`]+)`", outside):
            name = token.split("::")[-1]
            if re.fullmatch(r"[a-z_0-9]+", name) and not (CRATES / name).is_dir():
                if name not in functions:
                    yield f"PROMISES.md:{number}: no function {token}"
            elif re.fullmatch(r"[A-Z]\w*", name):
                if name not in types:
                    yield f"PROMISES.md:{number}: no type {token}"
        for names, clauses in groups(calls):
            known = set().union(*(contract_clauses().get(name.split("::")[-1], set()) for name in names))
            for clause in clauses:
                if clause not in known and clause not in functions:
                    yield f"PROMISES.md:{number}: no clause {clause} of {', '.join(names)}"


def groups(calls):
    """Names of calls, and the clauses in parentheses behind them."""
    names = []
    for name, inside in re.findall(r"`([^`]+)`|\(([^()]*)\)", calls):
        if name:
            names.append(name)
        else:
            yield names, re.findall(r"`([a-z_0-9]+)`", inside)
            names = []


@lru_cache(maxsize=None)
def contract_clauses():
    """The names of the clauses of all functions of a name."""
    clauses = {}
    for part in re.split(r"\bfn (?=\w)", sources())[1:]:
        contract = re.split(r"\n *\{\}?\n", part, maxsplit=1)[0]
        name = re.match(r"\w+", part)[0]
        clauses.setdefault(name, set()).update(re.findall(r"\b(?:ensures|requires) (\w+) ", contract))
    return clauses


def shown_blocks(page):
    """The blocks of a page that stand behind a line `<!-- FILE -->`: the number of that line, file, lines."""
    lines = page.read_text(encoding="utf-8").split("\n")
    for number, line in enumerate(lines, 1):
        named = re.fullmatch(r"<!-- (\S+) -->", line)
        if not named:
            continue
        behind = lines[number:]
        while behind and not behind[0].strip():
            behind = behind[1:]
        if behind and behind[0].startswith("```"):
            block = behind[1:behind.index("```")]
        else:
            block = []
            while behind[len(block):] and behind[len(block)].startswith("    "):
                block.append(behind[len(block)])
        yield number, named[1], block


def without_indent(lines):
    depth = min((len(line) - len(line.lstrip()) for line in lines if line.strip()), default=0)
    return [line[depth:].rstrip() for line in lines]


def differing_blocks():
    for page, _ in pages():
        for number, file, block in shown_blocks(page):
            where = f"{page.relative_to(ROOT)}:{number}"
            if not block or not (ROOT / file).is_file():
                yield f"{where}: no block, or no file {file}"
                continue
            text = (ROOT / file).read_text(encoding="utf-8").split("\n")
            wanted = without_indent(block)
            places = range(len(text) - len(block) + 1)
            if not any(without_indent(text[k:k + len(block)]) == wanted for k in places):
                yield f"{where}: {file} has no such lines"


def differing_picture():
    """The picture of layers is what docs/layers.py prints."""
    printed = subprocess.run([sys.executable, ROOT / "docs/layers.py"], capture_output=True, text=True).stdout
    if printed != (ROOT / "docs/LAYERS.md").read_text(encoding="utf-8"):
        yield "docs/LAYERS.md isn't what docs/layers.py prints"


def differing_crate_pages():
    """README.md of each crate for users is what docs/crate_pages.py writes."""
    printed = subprocess.run([sys.executable, ROOT / "docs/crate_pages.py", "--check"], capture_output=True, text=True)
    yield from printed.stdout.splitlines()


def differing_api_pages():
    """The pages of docs/api are what docs/api_pages.py writes."""
    printed = subprocess.run([sys.executable, ROOT / "docs/api_pages.py", "--check"], capture_output=True, text=True)
    yield from (printed.stdout + printed.stderr).splitlines()


def differing_laws():
    """docs/laws.txt has the statements of all laws as docs/laws.py writes them."""
    printed = subprocess.run([sys.executable, ROOT / "docs/laws.py", "--check"], capture_output=True, text=True)
    for line in (printed.stdout + printed.stderr).splitlines():
        yield f"docs/laws.txt: {line}"


def differing_files():
    """What one program printed and another one reads, or a page shows, is the same."""
    printed = without_indent((CRATES / "rtpexplain/stdout").read_text(encoding="utf-8").split("\n"))
    read = without_indent((CRATES / "rtpgraph/stdin").read_text(encoding="utf-8").split("\n"))
    if "\n".join(line.lstrip() for line in read if line) not in "\n".join(line.lstrip() for line in printed):
        yield "crates/rtpgraph/stdin isn't what crates/rtpexplain/stdout has"
    if (ROOT / "docs/run.svg").read_bytes() != (CRATES / "rtpgraph/stdout").read_bytes():
        yield "docs/run.svg isn't crates/rtpgraph/stdout"


def stray_names():
    """Names with an underscore that stand on a page, and nowhere in the tree but on pages."""
    known = set()
    for path in ROOT.rglob("*"):
        if {".git", "out"} & set(path.relative_to(ROOT).parts):
            continue
        known.update(re.findall(r"\w+", path.as_posix()))
        if path.suffix in (".rt", ".antt", ".h", ".rs", ".c", ".py"):
            known.update(re.findall(r"\w+", path.read_text(encoding="utf-8")))
    for page, lines in pages():
        for number, line in enumerate(lines if page.name != "CHANGELOG.md" else [], 1):
            for token in re.findall(r"`([^`]+)`", line):
                for name in re.findall(r"\b[a-z][a-z0-9]*(?:_[a-z0-9]+)+\b", token):
                    if name not in known:
                        yield f"{page.relative_to(ROOT)}:{number}: {name} stands nowhere in the tree"


def long_lines():
    """Lines past the limit, but those of blocks that are copied from files, and a README of too many."""
    for page, lines in pages():
        name = page.relative_to(ROOT).as_posix()
        copied = set()
        for number, file, block in shown_blocks(page):
            copied.update(line for line in block if (ROOT / file).is_file())
        for number, line in enumerate(lines, 1):
            if len(line) > LONGEST_LINE and line not in copied:
                yield f"{name}:{number}: {len(line)} characters"
        if name == "README.md" and len(lines) > MOST_LINES_OF_README:
            yield f"README.md has {len(lines)} lines"


def headings(page):
    """The names by which links reach the headings of a page."""
    for line in page.read_text(encoding="utf-8").split("\n"):
        if re.match(r"#+ ", line):
            title = re.sub(r"[^\w\- ]", "", line.lstrip("#").strip().lower())
            yield title.replace(" ", "-")


def dead_links():
    for page, lines in pages():
        for target in re.findall(r"\]\(([^)\s]+)\)", "\n".join(lines)):
            if re.match(r"[a-z]+:", target):
                continue
            file, _, heading = target.partition("#")
            leads_to = page.parent / file if file else page
            if not leads_to.exists():
                yield f"{page.relative_to(ROOT)}: no file {file}"
            elif heading and heading not in headings(leads_to):
                yield f"{page.relative_to(ROOT)}: {leads_to.name} has no heading {heading}"


def differing_headline():
    """The sentence of README is that of PROMISES."""
    readme = re.search(r"\[(After two ends .*?)\]", (ROOT / "README.md").read_text(encoding="utf-8"), re.S)
    promises = (ROOT / "docs/PROMISES.md").read_text(encoding="utf-8").replace("\n> ", " ")
    if not readme or " ".join(readme[1].split()) not in promises:
        yield "README.md: the headline isn't that of docs/PROMISES.md"


def stale_edits():
    """Edits whose old text isn't in its file once, after the pairs before it."""
    for edit in sorted([*ROOT.glob("tests/wrong_bodies/*/*.edit"), *CRATES.glob("*/must-fail/*.edit")]):
        crate = edit.parent.name if edit.parent.name != "must-fail" else edit.parent.parent.name
        texts, file, old = {}, None, ""
        for line in edit.read_text(encoding="utf-8").split("\n"):
            kind, _, text = line.partition(": ")
            if kind == "file":
                file = CRATES / crate / text.strip()
                texts.setdefault(file, file.read_text(encoding="utf-8") if file.is_file() else "")
            elif kind == "old":
                old = text
                if (times := texts.get(file, "").count(old)) != 1:
                    yield f"{edit.relative_to(ROOT)}: its old text is {times} times in {file}, and not once"
            elif kind == "new" and file:
                texts[file] = texts[file].replace(old, text, 1)


def unmet_premises():
    """Premises within clauses that no proof meets are on docs/PROMISES.md, and no others are."""
    unmet = subprocess.run([sys.executable, ROOT / "docs/premises.py", "unmet"], capture_output=True, text=True).stdout
    said = (ROOT / "docs/PROMISES.md").read_text(encoding="utf-8").split("[premises.py](premises.py)")[1].split("\n\nTrusted")[0]
    told = set(re.findall(r"`(\w+)`", said))
    for name in sorted(told ^ set(unmet.split())):
        yield f"docs/PROMISES.md: {name} is {'met' if name in told else 'a premise that nothing meets'}"


def imported(text, crates):
    """Each crate and name that a file of code names by `use CRATE::..` or `CRATE::name`."""
    for crate, one, many in re.findall(r"\b(\w+)::(?:([A-Za-z_]\w*)|\{([^{}]*)\})", text):
        if crate in crates:
            for name in [one] if one else re.findall(r"(\w+)(?: as \w+)?\s*(?:,|$)", many):
                yield crate, name


@lru_cache(maxsize=None)
def handed_on(crate):
    """The names that a crate's root re-exports of other crates of this repository."""
    root = CRATES / crate / "src/lib.rt"
    text = root.read_text(encoding="utf-8") if root.is_file() else ""
    uses = "\n".join(re.findall(r"^pub use [^;]*;", text, re.M))
    return {name: owner for owner, name in imported(uses, {path.name for path in CRATES.iterdir()})}


def detours():
    """Names that aren't imported from the crate that defines them."""
    crates = {path.name for path in CRATES.iterdir()}
    for crate in sorted(crates):
        for name, owner in handed_on(crate).items():
            if crate not in DOORS:
                yield f"crates/{crate}/src/lib.rt: hands on {name}, which {owner} defines"
            elif name in handed_on(owner):
                yield f"crates/{crate}/src/lib.rt: takes {name} from {owner}, which only hands it on"
        if not (CRATES / crate / "src/main.rt").is_file():
            yield from detours_in(crate, crates)


def detours_in(crate, crates):
    folders = [(CRATES / crate / name) for name in ("src", "specs", "proofs")]
    for path in sorted(path for folder in folders for path in folder.rglob("*.[ar]*t")):
        text, where = path.read_text(encoding="utf-8"), path.relative_to(ROOT)
        if path.name != "lib.rt":
            for owner, name in imported(text, crates - {crate}):
                if name in handed_on(owner):
                    yield f"{where}: {name} of {owner} is defined in {handed_on(owner)[name]}"
        is_depacketize_frame = path.name == "Lib.antt" and crate in DOORS
        for public, owner, file in re.findall(r"^\s*(pub )?use Rattle\.(\w+)\.specs\.(\w+)", text, re.M):
            if public and owner != crate and owner in crates and not is_depacketize_frame:
                yield f"{where}: hands on {file} of {owner}"
            if owner in crates and file not in ("declared", "contracts"):
                if not (CRATES / owner / "specs" / f"{file}.antt").is_file():
                    yield f"{where}: {owner} has no definitions {file} of its own"


def library_codes():
    """What calls of the library for C answer, by name, as its crate, its header and those over it number them."""
    header = (ROOT / "bindings/c/include/jilqamur.h").read_text(encoding="utf-8")
    listed = header.split("/* What calls return. */")[1].split("};")[0]
    rust = (ROOT / "bindings/rust/src/error.rs").read_text(encoding="utf-8").split("mod code {")[1].split("}")[0]
    python = (ROOT / "bindings/python/jilqamur/codes.py").read_text(encoding="utf-8").split("class Code")[1].split("TEXTS")[0]
    constant = r"\bconst (\w+): u32 = (\d+);"
    yield "crates/jilqamur/src/codes.rt", re.findall(constant, sources("jilqamur").split("//! What calls return")[1])
    yield "bindings/c/include/jilqamur.h", re.findall(r"\bJILQAMUR_(\w+) = (\d+)", listed)
    yield "bindings/rust/src/error.rs", re.findall(constant, rust)
    yield "bindings/python/jilqamur/codes.py", re.findall(r"^    (\w+) = (\d+)$", python, re.M)
    go = (ROOT / "bindings/go/jilqamur/error.go").read_text(encoding="utf-8").split("var names = ")[1].split("}\n")[0]
    yield "bindings/go/jilqamur/error.go", [(name, str(at)) for at, name in enumerate(re.findall(r'"(\w+)"', go))]


def differing_codes():
    """Each code is one number everywhere, with one text, and means the refusal of its name."""
    (owner, wanted), *others = library_codes()
    if [int(number) for _, number in wanted] != list(range(len(wanted))):
        yield f"{owner}: the codes aren't numbered from 0 on"
    for file, codes in others:
        for name, number in sorted(set(codes) ^ set(wanted)):
            yield f"{name} = {number} is in {file if (name, number) in codes else owner} alone"
    header = (ROOT / "bindings/c/include/jilqamur.h").read_text(encoding="utf-8")
    texts = re.findall(r'"([^"]*)"', header.split("const texts[] = {")[1].split("};")[0])
    if len(texts) != len(wanted):
        yield f"bindings/c/include/jilqamur.h has {len(texts)} texts for {len(wanted)} codes"
    said = {name: text for (name, _), text in zip(wanted, texts)}
    in_rust, in_python = r'\(code::(\w+), \w+::(\w+), "([^"]*)"\)', r'Code\.(\w+)(): "([^"]*)"'
    for file, row in (("bindings/rust/src/error.rs", in_rust), ("bindings/rust/src/payloads.rs", in_rust),
                      ("bindings/python/jilqamur/codes.py", in_python)):
        for code, refusal, text in re.findall(row, (ROOT / file).read_text(encoding="utf-8")):
            if refusal and code.replace("_", "").lower() != refusal.lower():
                yield f"{file}: code::{code} is {refusal}"
            if said.get(code) != text:
                yield f"{file}: the text of {code} isn't that of bindings/c/include/jilqamur.h"


def number_on(page, pattern):
    """The number that stands at this place of a page, blanks and ends of lines aside; -1 without one."""
    found = re.search(pattern, " ".join((ROOT / "docs" / page).read_text(encoding="utf-8").split()))
    return int(found[1].replace(",", "")) if found else -1


def differing_counts():
    """Numbers on pages that the tree has too: runs, limits, codes."""
    runs = (CRATES / "rtpexplain/stdin").read_text(encoding="utf-8").split("# Worked rows\n")[1]
    worked, drawn = runs.split("# Schedules drawn by tests/models/schedules.py\n")
    before, after = (len(part.strip("\n").split("\n\n")) for part in (worked, drawn))
    header = (ROOT / "bindings/c/include/jilqamur.h").read_text(encoding="utf-8")
    steps = re.search(r"^STEPS = (\d+)", (ROOT / "tests/limited_memory.py").read_text(encoding="utf-8"), re.M)
    for page, pattern, counted in (
            ("WORKED_ROWS.md", r"After run ([\d,]+) are", before),
            ("WORKED_ROWS.md", r"After run [\d,]+ are ([\d,]+) runs", after),
            ("TESTS.md", r"`rtplines` under ([\d,]+) limits", int(steps[1])),
            ("DECISIONS.md", r"numbers from 0 to ([\d,]+), the same in the header",
             max(int(code) for code in re.findall(r"\bJILQAMUR_\w+ = (\d+)", header)))):
        if number_on(page, pattern) != counted:
            yield f"docs/{page}: {number_on(page, pattern)} is said, and {counted} counted ({pattern})"


def differing_versions():
    """What bindings/dist/versions says of versions and of calls that are gone."""
    said = subprocess.run([ROOT / "bindings/dist/versions"], capture_output=True, text=True)
    yield from said.stdout.splitlines() if said.returncode in (0, 1) and not said.stderr else [said.stderr]


found = [
    *differing_codes(),
    *differing_versions(),
    *differing_picture(),
    *differing_crate_pages(),
    *differing_api_pages(),
    *missing_promises(),
    *differing_blocks(),
    *differing_files(),
    *stray_names(),
    *long_lines(),
    *dead_links(),
    *differing_headline(),
    *stale_edits(),
    *differing_counts(),
    *unmet_premises(),
    *differing_laws(),
    *detours(),
]
for line in found:
    print(line)
sys.exit(1 if found else 0)
