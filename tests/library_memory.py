#!/usr/bin/env python3
"""Each allocation is refused in turn at the exports of the library for C (`library_memory.c`), plain and under the
address and undefined-behaviour sanitizers, which also see what leaks. Run it behind `bindings/library`; it needs a C
compiler.
"""

import shutil
import subprocess
import tempfile
from pathlib import Path

import built
from built import Counts

HERE = Path(__file__).resolve().parent
FLAGS = ["-std=c11", "-Wall", "-Wextra", "-Werror", "-g", f"-I{built.TOP}/bindings/c/include", "-DWRAPPED",
         "-Wl,--wrap=malloc,--wrap=realloc"]
BUILDS = {"plain": [], "sanitizers": ["-fsanitize=address,undefined", "-fno-sanitize-recover=all"]}


def libraries():
    """The library, and that of the kit which it calls."""
    kit = Path(subprocess.run(["rt", "doc"], capture_output=True, text=True).stdout.strip()).parent
    return [built.TOP / "crates/jilqamur/out/libjilqamur.a", kit / "c" / "liblibc_c.a"]


def tried(counts, name, flags, folder):
    program = f"{folder}/{name}"
    sources = [HERE / "library_memory.c", HERE / "fail_nth.c", *libraries()]
    made = subprocess.run(["cc", *FLAGS, *flags, *sources, "-o", program], capture_output=True, text=True)
    if counts.check(f"library_memory.c is built, {name}", made.returncode == 0, made.stderr[-600:]):
        run = subprocess.run([program], capture_output=True, text=True, timeout=300)
        counts.check(f"each allocation of the exports refused, {name}",
                     run.returncode == 0 and "leak" not in run.stderr, (run.stdout + run.stderr)[-600:])
        print(run.stdout, end="", flush=True)


def main():
    counts = Counts()
    has_rt = counts.check("rt is there", shutil.which("rt"), "install the Rattle kit, and put its bin on the path")
    has_cc = counts.check("a C compiler is there", shutil.which("cc"), "install gcc")
    if has_rt and has_cc:
        for file in libraries():
            counts.check(f"{file.name} is there", file.is_file(), f"{file} is missing: run bindings/library first")
        with tempfile.TemporaryDirectory() as folder:
            for name, flags in BUILDS.items():
                tried(counts, name, flags, folder)
    counts.end()


if __name__ == "__main__":
    main()
