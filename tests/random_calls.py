#!/usr/bin/env python3
"""A million calls in each language that has a package, in random order, with arguments of all kinds, from several
threads at the same values: no call may end its process in another way than by an exception or a panic that is caught.
C, whose callers keep to the header, runs under the address and undefined-behaviour sanitizers. Each language has at
most a minute. A seed may be given. The last line is 'N passed, M failed'."""

import os
import re
import shutil
import subprocess
import sys
import tempfile
import time
from pathlib import Path

from built import TOP, Counts

CALLS, SECONDS = 1_000_000, 60
BINDINGS = TOP / "bindings"
LIBRARY = TOP / "crates/jilqamur/out/libjilqamur.a"
SAID = re.compile(r"(\d+) (?:calls|steps)\b.*")


def libraries():
    kit = Path(subprocess.run(["rt", "doc"], capture_output=True, text=True, check=True).stdout.strip()).parent
    return [str(LIBRARY), str(kit / "c/liblibc_c.a")]


def tool(name):
    return shutil.which(name, path=f"{os.environ['PATH']}:{Path.home()}/.cargo/bin")


def in_c(folder, linked, seed):
    program = folder / "fuzz_calls"
    flags = ["-std=c11", "-O1", "-g", "-fsanitize=address,undefined", "-fno-sanitize-recover=all"]
    source = BINDINGS / "c/examples/fuzz_calls.c"
    subprocess.run(["cc", *flags, f"-I{BINDINGS}/c/include", source, *linked, "-o", program], check=True)
    return [program, str(CALLS), str(seed)], {}


def in_rust(folder, linked, _):
    rustc = [tool("rustc"), "--edition", "2024", "-O"]
    rlib, program = folder / "libjilqamur.rlib", folder / "random_calls"
    subprocess.run([*rustc, "--crate-type", "rlib", "--crate-name", "jilqamur", BINDINGS / "rust/src/lib.rs", "-o",
                    rlib], check=True)
    links = [f"-Clink-arg={file}" for file in linked]
    subprocess.run([*rustc, "--test", BINDINGS / "rust/tests/random_calls.rs", f"--extern=jilqamur={rlib}", *links,
                    "-o", program], check=True)
    return [program, "--nocapture"], {}


def in_go(folder, linked, _):
    program = folder / "random_calls_go"
    environment = {"CGO_LDFLAGS": " ".join(linked)}
    subprocess.run([tool("go"), "test", "-c", "-o", program, "."], check=True, cwd=BINDINGS / "go/jilqamur",
                   env=os.environ | environment)
    return [program, "-test.run", "TestRandomCalls"], environment


def in_python(folder, linked, _):
    shared = folder / "libjilqamur.so.0"
    whole = ["-Wl,--whole-archive", linked[0], "-Wl,--no-whole-archive", linked[1]]
    subprocess.run(["cc", "-shared", "-o", shared, *whole], check=True)
    paths = f"{BINDINGS}/python:{BINDINGS}/python/tests"
    return [sys.executable, "-m", "unittest", "-q", "test_random"], {
        "JILQAMUR_LIBRARY": str(shared), "PYTHONPATH": paths, "PYTHONDONTWRITEBYTECODE": "1"}


LANGUAGES = {"C": (in_c, "cc"), "Rust": (in_rust, "rustc"), "Go": (in_go, "go"), "Python": (in_python, "cc")}


def tried(counts, name, folder, linked, seed):
    build, needed = LANGUAGES[name]
    if not counts.check(f"{needed} for {name}", tool(needed), "it is missing"):
        return
    command, environment = build(folder, linked, seed)
    environment = os.environ | environment | {"JILQAMUR_CALLS": str(CALLS), "JILQAMUR_SEED": str(seed),
                                              "JILQAMUR_SECONDS": str(SECONDS - 5)}
    start = time.monotonic()
    try:
        ran = subprocess.run(command, env=environment, capture_output=True, text=True, timeout=10 * SECONDS)
    except subprocess.TimeoutExpired:
        counts.check(f"random calls in {name}, seed {seed}", False, "they don't end")
        return
    told = SAID.search(ran.stdout + ran.stderr)
    took = time.monotonic() - start
    print(f"{name}, seed {seed}: {told[0] if told else 'nothing is told'} ({took:.0f} s)", flush=True)
    counts.check(f"random calls in {name}, seed {seed}", ran.returncode == 0 and told,
                 f"status {ran.returncode}: {(ran.stdout + ran.stderr)[-800:]}")


def main():
    counts = Counts()
    seed = int(sys.argv[1]) if sys.argv[1:] else 1
    if counts.check(str(LIBRARY), LIBRARY.is_file(), "it is missing: run bindings/library"):
        with tempfile.TemporaryDirectory() as name:
            for language in LANGUAGES:
                tried(counts, language, Path(name), libraries(), seed)
    counts.end()


if __name__ == "__main__":
    main()
