"""What of each target's files is proved and what isn't, for bindings/dist/release."""

PROVED = ("Proved, by `rattle build`: each call of jilqamur.h does what its contract in crates/jilqamur/src says, "
          "whatever bytes it is given, reads and writes no memory but its own and what it is given, and returns; for "
          "the code before it is lowered to LLVM, on a machine with words of 64 bits and a stack that doesn't end.")
NEVER = "Nothing: no verdict of a proof was handed in when this was made. It is for trials alone."

LOWERING = "that Rattle lowers the proved code to LLVM's language rightly"
CLANG = "that the kit's clang and linker compile it rightly"
HEAP = "the kit's liblibc_c.a and the C library's malloc, realloc and free"
PACKAGES = "the packages for Rust, Go and Python over the calls"
RETARGET = ("that the module of x86-64 Linux serves this target with another triple, layout of data and attributes "
            "(bindings/targets/retarget.py)")
OWN_HEAP = "what stands in place of the kit's liblibc_c.a (bindings/targets/heap.ll), and the C library's malloc"

TARGETS = {
    "x86_64-unknown-linux-gnu": {
        "retargeted": False, "built": [LOWERING, CLANG], "beside": [HEAP, PACKAGES], "tools": [],
        "tried": "bindings/check, with sanitizers, random calls and stored runs; with musl bindings/targets/check",
    },
    "aarch64-unknown-linux-gnu": {
        "retargeted": True, "built": [LOWERING, CLANG], "made": [LOWERING, RETARGET, CLANG],
        "beside": [OWN_HEAP, "the packages for Go and Python over the calls"], "tools": [],
        "tried": "the stored runs and Go's tests under qemu-aarch64 (bindings/targets/check aarch64)",
    },
    "x86_64-w64-windows-gnu": {
        "retargeted": True, "built": [], "made": [LOWERING, RETARGET, CLANG],
        "beside": [OWN_HEAP, "mingw's libgcc and the DLL that it links"],
        "tools": ["mingw-w64=NOASSERTION=NOASSERTION"],
        "tried": "the stored runs under wine (bindings/targets/check windows)",
    },
    "wasm32": {
        "retargeted": True, "built": [],
        "made": [LOWERING, RETARGET, CLANG,
                 "Binaryen, which makes addresses of 32 bits (memory64-lowering), and optimizes"],
        "beside": ["the heap of the module (bindings/targets/wasm_heap.c), heap.ll, and the kit's functions for "
                   "numbers of 128 bits",
                   "the calls with 32-bit addresses, and the package for JavaScript (bindings/js)"],
        "tools": ["binaryen=NOASSERTION=Apache-2.0"],
        "tried": "the package's tests in Node, and 10,000 random samples with the same bytes as the native library "
                 "(bindings/targets/check wasm)",
    },
}
