#!/usr/bin/env python3
"""retarget.py IN.ll TRIPLE OUT.ll: the LLVM module of a build for x86-64 Linux, for another target of 64 bits.

Three things of the module name its target: the triple, the layout of data and the attributes of functions. The rest
(sizes of pointers, places of fields) holds wherever pointers have 64 bits, and integers of 64 and 128 bits lie at
multiples of 8 and 16, as on x86-64 Linux. What isn't found once is an error.
"""

import re
import sys
from pathlib import Path

LAYOUTS = {
    "aarch64-unknown-linux-gnu":
        "e-m:e-p270:32:32-p271:32:32-p272:64:64-i8:8:32-i16:16:32-i64:64-i128:128-n32:64-S128-Fn32",
    "x86_64-w64-windows-gnu": "e-m:w-p270:32:32-p271:32:32-p272:64:64-i64:64-i128:128-f80:128-n8:16:32:64-S128",
    "wasm64-unknown-unknown": "e-m:e-p:64:64-p10:8:8-p20:8:8-i64:64-i128:128-n32:64-S128",
}
PROBE = '"probe-stack"="inline-asm" "stack-probe-size"="3072" '
ATTRIBUTES = {  # What stands in place of the probe of the stack and the processor.
    "aarch64-unknown-linux-gnu": f'"frame-pointer"="non-leaf" {PROBE}"target-cpu"="generic"',
    "x86_64-w64-windows-gnu": '"target-cpu"="x86-64-v2"',
    "wasm64-unknown-unknown": '"target-cpu"="lime1"',
}


def put(pattern, words, text, at_most=None):
    found = len(re.findall(pattern, text))
    if not found or (at_most and found > at_most):
        sys.exit(f"retarget.py: {found} times {pattern}")
    return re.sub(pattern, lambda _: words, text)


def main():
    source, triple, to = sys.argv[1:]
    if triple not in LAYOUTS:
        sys.exit(f"retarget.py: no layout of {triple}: {' '.join(LAYOUTS)}")
    text = Path(source).read_text()
    text = put(r'target datalayout = "[^"]*"', f'target datalayout = "{LAYOUTS[triple]}"', text, 1)
    text = put(r'target triple = "[^"]*"', f'target triple = "{triple}"', text, 1)
    text = put(re.escape(PROBE) + r'"target-cpu"="[^"]*"', ATTRIBUTES[triple], text)
    Path(to).write_text(text)


if __name__ == "__main__":
    main()
