#!/usr/bin/env python3
"""Measures the program on growing inputs, and prints a table.

    (cd crates/qpu_cli && rt run < /dev/null)    # builds crates/qpu_cli/out/qpu_cli
    python3 bench/bench.py [--only WORD] [PROGRAM [BEFORE]]

Each row is one input: what the program read, its processor time with its output into a file (the least
of three runs), the time for each item, and its largest memory as a multiple of its input. PROGRAM is
another build of the program. With BEFORE, a second build, each row also has that one's time and memory
and the first's time as a part of its; the runs of both alternate. It stands outside the gate.
"""

import argparse
import os
import subprocess
import sys
import tempfile

BUILT = os.path.join(os.path.dirname(__file__), "..", "crates", "qpu_cli", "out", "qpu_cli")

MEBIBYTE = 1 << 20
RUNS = 3

WORDS = 4096

RUN = ["run", "-w", "0"]


def assembly(size):
    """Assembly text of so many bytes: 4,096 instructions, and comments up to 65,536 lines."""
    code = ["add r0, ra1.8a, 5; v8min.ifz r1, r2, r3" for _ in range(WORDS)]
    comments = 65_536 - WORDS
    bytes_left = size - sum(len(line) + 1 for line in code)
    width = max(bytes_left // comments - 2, 0)
    return "\n".join(code + ["#" + "x" * width] * comments) + "\n"


def tokens(count):
    """One instruction line of so many tokens, which is refused."""
    return "a " * count + "\n"


def loop_job(turns):
    """Twelve processors, each of which takes five instructions a turn, and four beside them."""
    lines = ["qpujob 1", "memory 16", "limit 1000000", "program a"]
    lines += [f"ldi r0, {turns}", ":loop sub.setf r0, r0, 1", "brr.anynz -, :loop", "nop", "nop", "nop"]
    lines += ["nop; thrend", "nop", "nop", "endprogram"]
    lines += [f"start {q} a 0" for q in range(12)]
    return "\n".join(lines) + "\n"


def units_job(turns):
    """Twelve processors, each of which takes 22 instructions a turn, sixteen of them of both units."""
    body = ["add ra1, r0, r1; mul24 r2, r1, r3", "sub r1, rb1, r2; v8adds rb2, r0, r2"]
    body += ["shl r3, r1, 3; v8min r2, r2, ra2", "xor.setf rb3, r3, ra1; mul24 ra2, r1, r2"]
    lines = ["qpujob 1", "memory 16", "limit 1000000", "program a", f"ldi ra3, {turns}", "mov r1, qpu_num"]
    lines += ["mov r0, r1", ":loop nop", *body * 4, "sub.setf ra3, ra3, 1", "brr.anynz -, :loop"]
    lines += ["nop", "nop", "nop", "nop; thrend", "nop", "nop", "endprogram"]
    lines += [f"start {q} a 0" for q in range(12)]
    return "\n".join(lines) + "\n"


def transfers_job(turns, setup, start, wait):
    """One processor that starts a transfer and waits for it, seven instructions a turn."""
    lines = ["qpujob 1", "memory 256", "limit 1000000", "program a"]
    lines += [setup, f"ldi r0, {turns}", f":loop mov {start}, r1", f"mov -, {wait}", "sub.setf r0, r0, 1"]
    lines += ["brr.anynz -, :loop", "nop", "nop", "nop", "nop; thrend", "nop", "nop", "endprogram", "start 0 a 0"]
    return "\n".join(lines) + "\n"


def loads_job(turns):
    """Loads of sixteen rows of sixteen words."""
    return transfers_job(turns, "ldi vr_setup, 1 << 31 | 3 << 24 | 1 << 12", "vr_addr", "vpm_ld_wait")


def stores_job(turns):
    """Stores of sixteen rows of sixteen words."""
    return transfers_job(turns, "ldi vw_setup, 2 << 30 | 16 << 23 | 16 << 16 | 1 << 14", "vw_addr", "vpm_st_wait")


def vectors_job(turns):
    """One processor that writes a vector of words and reads one, eight instructions a turn."""
    lines = ["qpujob 1", "memory 16", "limit 1000000", "program a"]
    lines += [f"ldi r0, {turns}", "ldi vw_setup, 0x1a00", ":loop ldi vr_setup, 0x101a00", "mov vpm, r0"]
    lines += ["mov r2, vpm", "sub.setf r0, r0, 1", "brr.anynz -, :loop", "nop", "nop", "nop"]
    lines += ["nop; thrend", "nop", "nop", "endprogram", "start 0 a 0"]
    return "\n".join(lines) + "\n"


def shared_job(turns):
    """Twelve processors that each store a row, load one, look a vector up and read one, each turn."""
    lines = ["qpujob 1", "memory 4096", "limit 1000000", "program a"]
    lines += [f"ldi r0, {turns}", "mov r1, qpu_num", "shl r2, r1, 7"]
    lines += ["ldi ra1, 0x1a00", "ldi ra2, 0x101a00", "ldi ra3, 2 << 30 | 1 << 23 | 16 << 16 | 1 << 14"]
    lines += ["ldi ra4, 1 << 31 | 3 << 24 | 1 << 20 | 1 << 12"]
    lines += [":loop add vw_setup, ra1, r1", "mov vpm, r0", "mov vw_setup, ra3", "mov vw_addr, r2"]
    lines += ["mov t0s, r2", "mov -, vpm_st_wait", "mov vr_setup, ra4", "mov vr_addr, r2", "nop; ldtmu0"]
    lines += ["mov r3, r4", "mov -, vpm_ld_wait", "add vr_setup, ra2, r1", "sub.setf r0, r0, 1", "mov r3, vpm"]
    lines += ["brr.anynz -, :loop", "nop", "nop", "nop", "nop; thrend", "nop", "nop", "endprogram"]
    lines += [f"start {q} a 0" for q in range(12)]
    return "\n".join(lines) + "\n"


def record_of(job, items, version=2):
    """The record of a job and of items."""
    return f"qpurecord {version}\njob {len(job)}\n{job}schedule\n{items}endrecord\n"


def record_of_steps(turns):
    """A record of the same job whose processors take turns, one step an item."""
    rounds = "".join(f"q {q} 1\n" for q in range(12))
    return record_of(loop_job(turns), rounds * (5 * turns + 4))


def record_of_stretches(turns, version=2):
    """A record of the same job whose processors go one after another, one item each."""
    return record_of(loop_job(turns), "".join(f"q {q} {5 * turns + 4}\n" for q in range(12)), version)


def words(count):
    """So many words, each in a line."""
    return "0xd00049e1809f1000\n" * count


def program(count):
    """A straight program of so many words."""
    return "add r0, r1, r2\n" * (count - 3) + "nop; thrend\nnop\nnop\n"


def ways(branches, before=(), slot="nop"):
    """A program of so many register branches that each write a link, so each may go behind each of them."""
    lines = list(before)
    for _ in range(branches):
        lines += ["bra ra2, 0; reg ra3", "nop", "nop", slot]
    return "\n".join(lines + ["nop; thrend", "nop", "nop"]) + "\n"


def rung(count, *lines):
    """Lines that are executed or left out."""
    return ["brr.anynz -, :over" + count, "nop", "nop", "nop", *lines, ":over" + count + " nop"]


def ladder():
    """Lines that leave each pair of look-up counts, r4 defined or not, and C defined or not."""
    lines = ["or.setf -, r0, r0"]
    lines += rung("c", "sub.setf -, r0, r1")
    lines += rung("r", "mov t0s, r0", "nop", "nop; ldtmu0")
    for unit in (0, 1):
        for count in range(4):
            lines += rung(f"{unit}{count}", f"mov t{unit}s, r0")
    return lines


def joined_ways(branches):
    """The same behind a ladder, with third slots that write the uniforms address."""
    return ways(branches, ladder(), "mov unif_addr, r0")


MEASURED = """
import resource, subprocess, sys
answered = subprocess.run(sys.argv[3:], stdin=open(sys.argv[1]), stdout=open(sys.argv[2], "w"))
used = resource.getrusage(resource.RUSAGE_CHILDREN)
print(answered.returncode, used.ru_utime + used.ru_stime, used.ru_maxrss)
"""


def measure(program, words, read, written):
    """Status, seconds of processor time and kibibytes of one run, from a file into a file."""
    command = [sys.executable, "-c", MEASURED, read, written, program, *words]
    out = subprocess.run(command, capture_output=True, text=True, check=True).stdout.split()
    return int(out[0]), float(out[1]), int(out[2])


class Bench:
    """Builds of the program, and the rows of which to take only some."""

    def __init__(self, programs, only):
        self.programs = programs
        self.only = only

    def row(self, name, words, text, items, unit):
        """Measures an input, and prints its row."""
        if self.only not in name:
            return
        with tempfile.TemporaryDirectory() as folder:
            read, written = os.path.join(folder, "in.txt"), os.path.join(folder, "out.txt")
            with open(read, "w") as file:
                file.write(text)
            runs = [[measure(program, words, read, written) for program in self.programs] for _ in range(RUNS)]
        each = [min(of_one, key=lambda run: run[1]) for of_one in zip(*runs)]
        status, seconds, memory = each[0]
        size = max(len(text), 1)
        line = (
            f"{name:34} {size / MEBIBYTE:8.2f} MiB  status {status:2}  {seconds:7.3f} s"
            f"  {seconds / max(items, 1) * 1e9:9.1f} ns/{unit:12} {memory * 1024 / size:7.1f} x"
        )
        for old_status, old_seconds, old_memory in each[1:]:
            line += f"   before: status {old_status:2}  {old_seconds:7.3f} s {old_memory * 1024 / size:7.1f} x"
            line += f"   {seconds / max(old_seconds, 1e-9):5.3f} of it"
        print(line, flush=True)

    def record(self, words, text):
        """The record that a run of the program writes."""
        run = subprocess.run([self.programs[0], *words], input=text, capture_output=True, text=True, check=True)
        return run.stdout[: run.stdout.index("endrecord\n")] + "endrecord\n"


def texts(bench):
    """Assembly texts and words."""
    for mebibytes in (1, 2, 4, 8):
        text = assembly(mebibytes * MEBIBYTE)
        bench.row("asm, comments to 65,536 lines", ["asm"], text, len(text), "byte")
    for count in (131_072, 262_144, 524_288, 1_048_576):
        bench.row("asm, one line of tokens", ["asm"], tokens(count), count, "token")
    for count in (51_200, 102_400, 204_800, 409_600):
        bench.row("dis, a word in each line", ["dis"], words(count), count, "word")


def runs(bench):
    """Runs of jobs."""
    for turns in (25_000, 50_000, 100_000, 199_999):
        bench.row("run -w 0, a loop on 12 processors", RUN, loop_job(turns), 60 * turns, "instruction")
    for turns in (5_000, 10_000, 20_000, 40_000):
        bench.row("run -w 0, both units on 12", RUN, units_job(turns), 264 * turns, "instruction")
    for turns in (5_000, 10_000, 20_000, 40_000):
        bench.row("run -w 0, DMA, look-ups and VPM", RUN, shared_job(turns), turns, "turn of 12")
    for turns in (12_500, 25_000, 50_000, 100_000):
        bench.row("run -w 0, loads of 16 rows", RUN, loads_job(turns), turns, "load")
    for turns in (12_500, 25_000, 50_000, 100_000):
        bench.row("run -w 0, stores of 16 rows", RUN, stores_job(turns), turns, "store")
    for turns in (12_500, 25_000, 50_000, 100_000):
        bench.row("run -w 0, vectors of words", RUN, vectors_job(turns), 2 * turns, "vector")


def replays(bench):
    """Replays of records."""
    for turns in (25_000, 50_000, 100_000, 199_999):
        bench.row("replay, a stretch an item", ["replay"], record_of_stretches(turns), 60 * turns, "instruction")
    for turns in (22_500, 45_000, 90_000, 180_000):
        bench.row("replay, one step an item", ["replay"], record_of_steps(turns), 60 * turns, "item")
    for turns in (25_000, 50_000, 100_000, 199_999):
        bench.row("replay of a version 1 record", ["replay"], record_of_stretches(turns, 1), 60 * turns, "instruction")
    for turns in (5_000, 10_000, 20_000, 40_000):
        record = bench.record(RUN, shared_job(turns))
        bench.row("replay, DMA, look-ups and VPM", ["replay"], record, turns, "turn of 12")


def checks(bench):
    """Programs to judge."""
    for count in (512, 1_024, 2_048, 4_096):
        bench.row("check, a straight program", ["check"], program(count), count, "word")
    for count in (125, 250, 500, 1_000):
        bench.row("check, register branches", ["check"], ways(count), count * count, "way")
    for count in (125, 250, 500, 1_000):
        bench.row("check, the same behind a ladder", ["check"], joined_ways(count), count * count, "way")


def main():
    wanted = argparse.ArgumentParser()
    wanted.add_argument("--only", default="", metavar="WORD")
    wanted.add_argument("programs", nargs="*", default=[BUILT])
    given = wanted.parse_args()
    for built in given.programs:
        if not os.path.exists(built):
            sys.exit("build the program first: (cd crates/qpu_cli && rt run < /dev/null)")
    bench = Bench([os.path.abspath(built) for built in given.programs], given.only)
    texts(bench)
    runs(bench)
    replays(bench)
    checks(bench)


if __name__ == "__main__":
    main()
