#!/usr/bin/env python3
"""Lets each allocation of a few runs fail in turn, and prints the answers that differ.

    (cd crates/qpu_cli && rt run < /dev/null)    # builds crates/qpu_cli/out/qpu_cli
    python3 bench/allocations.py

Where memory is wanting the program answers status 7 with nothing written, or what it answers anyway;
a line tells each other answer. A library that `cc` makes stands before the allocator of the C library,
since `rt try --fail-alloc N` builds the program anew for each allocation. It stands outside the gate.
"""

import os
import subprocess
import sys
import tempfile

TOP = os.path.join(os.path.dirname(os.path.abspath(__file__)), "..")

PROGRAM = os.path.join(TOP, "crates", "qpu_cli", "out", "qpu_cli")

NO_MEMORY = 7

# The calls for memory, of which the one that the count comes down to fails; at the end it tells that none did.
FAILING = """
#include <stdlib.h>
#include <unistd.h>
extern void *__libc_malloc(size_t), *__libc_realloc(void *, size_t);
static long left;
static int fails(void) { return left > 0 && --left == 0; }
void *malloc(size_t n) { return fails() ? 0 : __libc_malloc(n); }
void *realloc(void *p, size_t n) { return fails() ? 0 : __libc_realloc(p, n); }
__attribute__((constructor)) static void begin(void) { left = atol(getenv("FAILING")); }
__attribute__((destructor)) static void end(void) { if (left > 0) (void)!write(2, "none", 4); }
"""


def example(name):
    """The text of a file of examples/."""
    with open(os.path.join(TOP, "examples", name)) as file:
        return file.read()


def inputs():
    """Words of commands, and their inputs."""
    yield ["run", "-w", "0"], example("first.job")
    yield ["run", "-w", "0"], example("twelve.job")
    first, item = example("first.out"), "q 0 4\n"
    for items in ("", item, 2 * item):
        yield ["replay"], first.replace(item, items)
    yield ["dis"], "0x10020827019e7280\n0x300009e7009e7000\n"
    yield ["asm"], ".word 0x10020827019e7280\n"
    yield ["check"], ".word 0x10020827019e7280\n"


def answer(library, words, text, failing):
    """Status and output of a run, and whether it made no such allocation."""
    env = {"LD_PRELOAD": library, "FAILING": str(failing)}
    run = subprocess.run([PROGRAM, *words], input=text.encode(), capture_output=True, env=env)
    return (run.returncode, run.stdout), run.stderr.endswith(b"none")


def main():
    if not os.path.exists(PROGRAM):
        sys.exit("build the program first: (cd crates/qpu_cli && rt run < /dev/null)")
    library = os.path.join(tempfile.mkdtemp(), "failing.so")
    subprocess.run(["cc", "-shared", "-fPIC", "-x", "c", "-", "-o", library], input=FAILING.encode(), check=True)
    for words, text in inputs():
        due, _ = answer(library, words, text, 0)
        failing, is_over = 0, False
        while not is_over:
            failing += 1
            given, is_over = answer(library, words, text, failing)
            if given not in (due, (NO_MEMORY, b"")):
                print(f"{' '.join(words)}: allocation {failing} gives status {given[0]}, {given[1][:60]}")
        print(f"{' '.join(words)}: status {due[0]}, {len(due[1])} bytes, {failing - 1} allocations")


if __name__ == "__main__":
    main()
