#!/usr/bin/env python3
"""Writes README.md of each crate for users: what the crate is, its calls with a line each, what it uses.

    python3 docs/crate_pages.py            writes them
    python3 docs/crate_pages.py --check    names those that it would change, with status 1

A line is the first sentence of an item's doc comment. The calls of the types that a user starts with are listed too.
"""
import re
import sys
from functools import lru_cache
from pathlib import Path

ROOT = Path(__file__).resolve().parent.parent
CRATES = ROOT / "crates"
# The crates for users, and the types of each whose calls are listed.
STARTS = {
    "rtp_wire": ["RtpHeader", "ExtensionMap", "SeqNoWindow", "SeqNo", "MediaTime"],
    "payload_core": ["DepacketizingBuffer", "Packetizer", "Depacketizer", "Payloader"],
    "h26x_payload": ["CodecPacketizer", "CodecDepacketizer"],
    "sdp_formats": ["SdpOffer", "SdpAnswer", "Sdp", "CodecConfig", "PayloadParams"],
    "rtp_media": ["End"],
    "rtp_media_browsers": ["BrowserState", "SectionRequest", "Transport"],
    "media_files": [],
}
ITEM = r"(?:pub(?:\(crate\))? )?(?:const )?(fn|struct|enum|trait|const|type|static) (\w+)"


def root_of(crate):
    return (CRATES / crate / "src/lib.rt").read_text(encoding="utf-8")


@lru_cache(maxsize=None)
def sources(crate):
    return [path.read_text(encoding="utf-8") for path in sorted((CRATES / crate).glob("src/**/*.rt"))]


def used(text):
    """Each item that a root file makes public: what stands in front of it in its path, and its name."""
    for path, names in re.findall(r"^pub use ([\w:]+?)(?:::\{([^}]*)\})?;", text, re.M):
        front, _, last = path.rpartition("::") if not names else (path, "", "")
        for name in [n.strip() for n in names.split(",") if n.strip()] or [last]:
            yield front, name.split(" as ")[-1]


def first_sentence(comment):
    text = " ".join(line.strip().lstrip("/").strip() for line in comment.strip().split("\n"))
    text = text.split("  ")[0]
    ends = re.search(r"\.(?= [A-Z`#]|$)", text)
    return (text[: ends.end()] if ends else text).strip()


@lru_cache(maxsize=None)
def items(crate):
    """The kind and the first sentence of each public item of a crate, by its name."""
    found = {}
    for text in sources(crate):
        for comment, kind, name in re.findall(r"((?:^///[^\n]*\n)+)(?:^#\[[^\n]*\n)*^" + ITEM, text, re.M):
            found.setdefault(name, (kind, first_sentence(comment)))
    return found


def calls(crate, name):
    """The public methods of a type, with their first sentences, in the order of the files."""
    for text in sources(crate):
        for block in re.split(r"^(?=impl|pub trait)", text, flags=re.M)[1:]:
            head = block.split("{")[0]
            if not re.match(rf"(impl(<[^>]*>)? {name}\b|pub trait {name}\b)", head) or " for " in head:
                continue
            is_trait = head.startswith("pub trait")
            body = block[: block.find("\n}\n")]
            public = "(?:pub )?" if is_trait else "pub "
            for comment, call in re.findall(r"((?:^ {4}///[^\n]*\n)+)(?:^ {4}#\[[^\n]*\n)*^ {4}" + public + r"(?:const )?fn (\w+)",
                                            body, re.M):
                yield call, first_sentence(comment)


def wrapped(text, indent="  "):
    lines, line = [], ""
    for word in text.split():
        if line and len(line) + 1 + len(word) > 118:
            lines.append(line)
            line = indent + word
        else:
            line = f"{line} {word}" if line else word
    return lines + [line]


def uses(crate):
    line = re.search(rf"^{crate}[^:\n]*:(.*)$", (ROOT / "crates.txt").read_text(encoding="utf-8"), re.M)
    return line[1].split()


def page(crate):
    text = root_of(crate)
    about = " ".join(line[3:].strip() for line in text.split("\n") if line.startswith("//!"))
    lines = [f"# {crate}", "", *wrapped(about, ""), "", f"In crates.txt: `NAME: {crate}`. In code: `use {crate}::..;`.", ""]
    crates = {path.name for path in CRATES.iterdir()}
    types, functions, laws, started = [], [], [], []
    for front, name in used(text):
        owner = front.split("::")[0] if front.split("::")[0] in crates else crate
        kind, said = items(owner).get(name, ("", ""))
        point = f"- `{name}`: {said[0].lower() + said[1:] if said[:2].istitle() else said}" if said else f"- `{name}`"
        if name.endswith(("_law", "_laws")) or name == "headline":
            laws.append(f"`{name}`")
        elif kind == "fn":
            functions += wrapped(point)
        else:
            types += wrapped(point)
        if name in STARTS[crate]:
            started += ["", f"## `{name}`", ""]
            for call, sentence in calls(owner, name):
                started += wrapped(f"- `{call}`: {sentence}")
    lines += ["## Types", "", *types]
    if functions:
        lines += ["", "## Functions", "", *functions]
    lines += started
    if laws:
        lines += ["", "## Laws", "", *wrapped("Their contracts say what holds of whole runs and of texts: " + ", ".join(laws) + ".", "")]
    lines += ["", "## What it uses", "", *wrapped(", ".join(f"`{name}`" for name in uses(crate)) + ".", "")]
    return "\n".join(lines) + "\n"


def main():
    stale = []
    for crate in STARTS:
        path, text = CRATES / crate / "README.md", page(crate)
        if path.is_file() and path.read_text(encoding="utf-8") == text:
            continue
        stale.append(path.relative_to(ROOT))
        if "--check" not in sys.argv:
            path.write_text(text, encoding="utf-8")
    for path in stale:
        print(f"{path}: {'differs from what docs/crate_pages.py writes' if '--check' in sys.argv else 'written'}")
    sys.exit(1 if stale and "--check" in sys.argv else 0)


if __name__ == "__main__":
    main()
