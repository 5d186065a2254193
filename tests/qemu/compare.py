#!/usr/bin/env python3
"""Compares the old core's trails with QEMU's user mode for SPARC, entry by entry, on random programs.

Of each program the library makes the old core's trail, and QEMU logs its state before each word that it runs.
Address, registers, flags, Y and nesting must agree at every entry; the data and the windows that are not the current
one, through the loads, restores and saves that close each program.
"""
import argparse
import itertools
import random
import re
import resource
import shutil
import struct
import subprocess
import sys
import tempfile
from collections import Counter, namedtuple
from pathlib import Path

sys.dont_write_bytecode = True
import programs
from programs import CONDITIONS, CONTROL, EXIT_TRAP, MOST_NESTING, OPENING, PROLOGUE, WINDOWS

HERE = Path(__file__).resolve().parent
TOP = HERE.parent.parent
MOST_STEPS = PROLOGUE + 200
PAGE = 4096
TRAP_TAKEN = 1
TOO_MANY = {("save", MOST_NESTING): 8, ("restore", 0): 9}
BRANCHES = [kind for kind in CONTROL if kind not in ("call", "jmpl")]
OPERATIONS = [*programs.ARITHMETIC, *programs.PRODUCTS, *programs.SHIFTS, *programs.MEMORY, *WINDOWS, "wry",
              "jmpl"]

Entry = namedtuple("Entry", "address registers flags y nesting")
Run = namedtuple("Run", "end number steps entries data")


class Library:
    """The driver, compiled with the library, that answers each program with the old core's trail."""

    def __init__(self, archive, folder):
        driver = folder / "old_trail"
        command = ["cc", "-O2", "-I", TOP / "include", HERE / "old_trail.c", archive, "-o", driver]
        if subprocess.run(command).returncode != 0:
            sys.exit(f"compare.py: the driver does not compile with {archive}")
        self.process = subprocess.Popen([driver], stdin=subprocess.PIPE, stdout=subprocess.PIPE)

    def run(self, program):
        header = (len(program.image), program.base, len(program.data), program.data_base, MOST_STEPS)
        self.process.stdin.write(struct.pack(">5I", *header) + program.image + program.data)
        self.process.stdin.flush()
        end, number, steps, count = struct.unpack(">4I", self.read(16))
        rows = struct.iter_unpack(">36I", self.read(count * 36 * 4))
        entries = [Entry(row[0], row[1:33], *row[33:]) for row in rows]
        return Run(end, number, steps, entries, self.read(len(program.data)))

    def read(self, length):
        got = self.process.stdout.read(length)
        if len(got) != length:
            sys.exit("compare.py: the driver stopped before it answered")
        return got

    def close(self):
        self.process.stdin.close()
        self.process.wait()


class Qemu:
    """Runs a program in QEMU, a word at a time, and reads its log."""

    BLOCK = re.compile(r"pc: (\w+) +npc: \w+\n%g0-7: (.+)\n%o0-7: (.+)\n%l0-7: (.+)\n%i0-7: (.+)\n"
                       r"psr: (\w+) \(icc: ([N-])([Z-])([V-])([C-]).*\nfsr: \w+ y: (\w+)")

    def __init__(self, folder):
        help_text = subprocess.run(["qemu-sparc", "-h"], capture_output=True, text=True).stdout
        single = "-one-insn-per-tb" if "-one-insn-per-tb" in help_text else "-singlestep"
        self.folder, self.executable, self.log = folder, folder / "program", folder / "log"
        self.command = [shutil.which("qemu-sparc"), single, "-d", "cpu,nochain", "-D", self.log, self.executable]

    def run(self, program):
        """The trail in its log, and how the process ended: 0 for the exit trap."""
        entries, status, _ = self.run_file(elf_file(program))
        return without_repeats(entries, program.word_at), status

    def run_file(self, executable):
        """The same of an executable's bytes, and what the process wrote."""
        self.executable.write_bytes(executable)
        self.executable.chmod(0o755)
        self.log.unlink(missing_ok=True)
        output = b""
        try:
            done = subprocess.run(self.command, cwd=self.folder, env={}, preexec_fn=limit_files, timeout=20,
                                  stdin=subprocess.DEVNULL, capture_output=True)
            status, output = done.returncode, done.stdout
        except subprocess.TimeoutExpired:
            status = "no end in time"
        log = self.log.read_text() if self.log.exists() else ""
        blocks = self.BLOCK.findall(log)
        return [self.entry(block, window_in(blocks[0])) for block in blocks], status, output

    @staticmethod
    def entry(block, first_window):
        """The windows are counted down by a save: the nesting is how far, as long as that is less than eight."""
        registers = tuple(int(number, 16) for number in " ".join(block[1:5]).split())
        flags = int("".join("0" if flag == "-" else "1" for flag in block[6:10]), 2)
        return Entry(int(block[0], 16), registers, flags, int(block[10], 16), (first_window - window_in(block)) % 8)


def window_in(block):
    """PSR's last five bits."""
    return int(block[5], 16) & 31


def repeats(entries, word_at):
    """The positions of entries that are none. QEMU logs a save or restore twice where it spills or fills a window
    first; one that is done changes the nesting, so that of two in a row that do not differ the second is none."""
    return [at for at in range(1, len(entries))
            if entries[at] == entries[at - 1] and programs.kind_of(word_at(entries[at].address)) in programs.WINDOWS]


def without_repeats(entries, word_at):
    passed_over = set(repeats(entries, word_at))
    return [entry for at, entry in enumerate(entries) if at not in passed_over]


def limit_files():
    """A run that never ends must not fill the disk with its log, nor one that fails leave a core file."""
    resource.setrlimit(resource.RLIMIT_FSIZE, (1 << 24, 1 << 24))
    resource.setrlimit(resource.RLIMIT_CORE, (0, 0))


def elf_file(program):
    """Three pages: the headers, the text, and the data's page up to its last byte."""
    text, machine, readable, writable, executable = program.image, 2, 4, 2, 1
    page_of_data = program.data_base % PAGE * b"\0" + program.data
    assert len(text) <= PAGE and len(page_of_data) <= PAGE
    identity = b"\x7fELF" + bytes((1, 2, 1)) + bytes(9)  # 32 bits, big-endian
    header = struct.pack(">2H5I6H", 2, machine, 1, program.base, 52, 0, 0, 52, 32, 2, 0, 0, 0)
    segments = ((PAGE, program.base, len(text), readable | executable),
                (2 * PAGE, program.data_base - program.data_base % PAGE, len(page_of_data), readable | writable))
    for offset, address, length, access in segments:
        header += struct.pack(">8I", 1, offset, address, address, length, length, access, PAGE)
    return (identity + header).ljust(PAGE, b"\0") + text.ljust(PAGE, b"\0") + page_of_data


def settle(program, library):
    """The library's run, once each trap taken on the way has been made one that never is, and each save or restore too
    many a sum; None if it loops."""
    while True:
        run = library.run(program)
        if run.end == 0:
            return None
        last = run.entries[-1]
        word = program.word_at(last.address)
        kind = programs.kind_of(word)
        if run.end == TRAP_TAKEN and last.address != program.exit_address and kind == "ticc" \
                and programs.condition_holds(word, last.flags):
            program.make_trap_never(last.address)
        elif run.end == TOO_MANY.get((kind, last.nesting)) and run.number == last.nesting:
            program.make_sum_alone(last.address)
        else:
            return run  # the exit, or what the comparison will show


def show_entry(entry):
    if entry is None:
        return "no entry"
    rows = [" ".join(f"{number:08x}" for number in entry.registers[at:at + 8]) for at in range(0, 32, 8)]
    return (f"address {entry.address:08x} flags {entry.flags:04b} y {entry.y:08x} nesting {entry.nesting}\n    "
            + "\n    ".join(rows))


def fail(program, message):
    print(f"base {program.base:08x}, data base {program.data_base:08x}, data {program.data.hex()}")
    for at, word in enumerate(program.words):
        print(f"  {program.base + 4 * at:08x}  {word:08x}")
    print(message)
    sys.exit(1)


def check_equal(program, run, logged, status):
    """Those of the opening are passed over: then the stack pointer that QEMU hands over is gone."""
    for number, (ours, theirs) in enumerate(itertools.zip_longest(run.entries, logged)):
        if number > OPENING and ours != theirs:
            fail(program, f"entry {number} differs (flags N Z V C, registers 0 to 31; qemu status {status})\n"
                          f"library: {show_entry(ours)}\nqemu:    {show_entry(theirs)}")
    if (run.end, run.number, logged[-1].address, status) != (TRAP_TAKEN, EXIT_TRAP, program.exit_address, 0):
        fail(program, f"no exit trap: library end {run.end} with {run.number}, qemu status {status}")
    shown = program.data_shown(logged[-1].registers)
    if run.data != shown:
        fail(program, f"the data differs at the end\nlibrary: {run.data.hex()}\nqemu:    {shown.hex()}")


class Tally:
    """Counts what was compared, from QEMU's entries after the prologue and beside the walk through the windows."""

    def __init__(self):
        self.counts, self.branches, self.forms, self.nestings = Counter(), Counter(), Counter(), Counter()
        self.couples, self.annulled_couples = Counter(), Counter()

    def add(self, program, entries, steps):
        met = [entry for entry in entries if entry.address not in program.walk]
        self.counts.update(programs=1, entries=len(met), walks=len(entries) - len(met),
                           annulled=steps - PROLOGUE - len(entries))
        owner = None  # the branch, call or jmpl whose delay slot this entry is
        for entry in met:
            word = program.word_at(entry.address)
            kind = programs.kind_of(word)
            self.count_word(kind, word, entry)
            if owner and kind in CONTROL:
                self.couples[owner, kind] += 1
            if owner and kind in WINDOWS:
                self.counts["windows in slots"] += 1
            slot_runs = kind in CONTROL and programs.executes_delay_slot(word, entry.flags)
            if kind in CONTROL and not owner and not slot_runs:
                self.count_annulled(kind, program.word_at(entry.address + 4))
            owner = kind if slot_runs else None

    def count_word(self, kind, word, entry):
        if kind in BRANCHES:
            self.branches[programs.condition_of(word), kind.endswith(",a"), entry.flags] += 1
        elif kind in OPERATIONS:
            self.forms[kind, word >> 13 & 1] += 1
        if kind in WINDOWS:
            self.nestings[kind, entry.nesting] += 1
        if kind == "jmpl" and word >> 25 & 31 == word >> 14 & 31:
            self.counts["jmpl over rs1"] += 1
        if kind in programs.PRODUCTS and word >> 25 & 31 == 0:
            self.counts["products to 0"] += 1
        self.counts[kind] += 1

    def count_annulled(self, kind, slot_word):
        if programs.kind_of(slot_word) in CONTROL:
            self.annulled_couples[kind, programs.kind_of(slot_word)] += 1

    def show(self):
        counts = self.counts
        total = lambda names: sum(counts[name] for name in names)
        print(f"programs {counts['programs']} (thrown away for their loops: {counts['looping']})")
        print(f"entries equal in their prologues {counts['programs'] * (PROLOGUE - OPENING - 1)}, "
              f"in walks through the windows {counts['walks']}, else {counts['entries']}")
        self.show_branches()
        print(f"branches in delay slots of others {sum(self.couples.values())}, "
              f"pairings {len(self.couples)} of {6 * 8}")
        print(f"branches annulled in delay slots {sum(self.annulled_couples.values())}, "
              f"pairings {len(self.annulled_couples)} of {3 * 8}; words annulled {counts['annulled']}")
        loads = [name for name in programs.MEMORY if name not in programs.STORES]
        print(f"loads {total(loads)}, stores {total(programs.STORES)}, calls {counts['call']}, "
              f"jmpl {counts['jmpl']} (with rd = rs1 {counts['jmpl over rs1']}), sethi {counts['sethi']}, "
              f"arithmetic {total([*programs.ARITHMETIC, *programs.SHIFTS])}, "
              f"ticc untaken {counts['ticc'] - counts['programs']}")
        print(f"products {total(programs.PRODUCTS)} (to register 0 {counts['products to 0']}), rdy {counts['rdy']}, "
              f"wry {counts['wry']}")
        print(f"save {counts['save']}, restore {counts['restore']}, in delay slots {counts['windows in slots']}; "
              f"by nesting: {self.by_nesting('save', 0)}, {self.by_nesting('restore', 1)}")
        print(f"operations with a register and with a constant {len(self.forms)} of {2 * len(OPERATIONS)}")

    def by_nesting(self, kind, first):
        met = ", ".join(str(self.nestings[kind, first + at]) for at in range(MOST_NESTING))
        return f"{kind} at {first} to {first + MOST_NESTING - 1} {met}"

    def show_branches(self):
        print("condition    taken  untaken   with annul: taken  untaken")
        for condition, name in enumerate(CONDITIONS):
            row = [self.branches_met(condition, annul, taken) for annul in (False, True) for taken in (1, 0)]
            print(f"b{name:8} {row[0]:8} {row[1]:8} {row[2]:19} {row[3]:8}")
        situations = 16 * 2 * len(programs.FLAG_SETTERS)
        print(f"conditions with and without annul at each flag value {len(self.branches)} of {situations}")

    def branches_met(self, condition, annul, taken):
        return sum(self.branches[condition, annul, flags] for flags in range(16)
                   if programs.HOLDS[condition] >> flags & 1 == taken)


def windows_shown(entries):
    """The 128 numbers of windows at the last of these entries, which show each but the one that is never current."""
    windows = [0] * 128
    for entry in entries:
        for register in range(8, 32):
            windows[programs.window_number(entry.nesting, register)] = entry.registers[register]
    return windows


def recorded(program, logged):
    """The program without its prologue, and QEMU's entries: six numbers as below, the state before the first
    entry (168 numbers as in pijorrel.h), the image, the data, the entries (35 numbers each: address, registers, flags
    and Y), the data after them."""
    entries, image = logged[PROLOGUE:], program.image[4 * PROLOGUE:]
    first = entries[0]
    numbers = [0x5452414C, len(image), first.address, program.data_base, len(program.data), len(entries)]
    numbers += [*first.registers, first.flags, first.address, first.address + 4, 0, 0, 0, first.y, first.nesting]
    numbers += windows_shown(logged[OPENING:PROLOGUE + 1])
    trail = [number for entry in entries for number in (entry.address, *entry.registers, entry.flags, entry.y)]
    after = program.data_shown(entries[-1].registers)
    return b"".join((struct.pack(f">{len(numbers)}I", *numbers), image, program.data,
                     struct.pack(f">{len(trail)}I", *trail), after))


def compare(options, library, qemu):
    tally, records = Tally(), []
    for number in itertools.count():
        if tally.counts["entries"] >= options.entries:
            return tally, records
        program = programs.make_program(random.Random(f"{options.seed} {number}"), tally.counts["programs"])
        run = settle(program, library)
        if run is None:
            tally.counts["looping"] += 1
            if tally.counts["looping"] > 100 + tally.counts["programs"]:
                fail(program, "most programs do not end in the library, of which this is the last")
            continue
        logged, status = qemu.run(program)
        check_equal(program, run, logged, status)
        tally.add(program, logged[PROLOGUE:], run.steps)
        records.append(recorded(program, logged))


def options_given():
    parser = argparse.ArgumentParser(description="Compares the old core with QEMU's user mode for SPARC.")
    parser.add_argument("--seed", type=int, default=1)
    parser.add_argument("--entries", type=int, default=20000, help="least number of entries to compare")
    parser.add_argument("--library", type=Path, default=TOP / "target" / "libpijorrel.a")
    parser.add_argument("--record", type=Path, help="file for the programs and QEMU's trails")
    options = parser.parse_args()
    if options.entries < 1:
        parser.error("--entries takes a number of 1 or more")
    return options


def main():
    options = options_given()
    for tool, package in (("qemu-sparc", "qemu-user"), ("cc", "gcc")):
        if shutil.which(tool) is None:
            sys.exit(f"compare.py: {tool} is missing (Debian package {package})")
    if not options.library.exists():
        sys.exit(f"compare.py: no library at {options.library}")
    with tempfile.TemporaryDirectory() as folder:
        library = Library(options.library, Path(folder))
        tally, records = compare(options, library, Qemu(Path(folder)))
        library.close()
    if options.record:
        options.record.write_bytes(struct.pack(">I", len(records)) + b"".join(records))
    tally.show()
    print(f"{tally.counts['entries']} entries equal, 0 differ")


if __name__ == "__main__":
    main()
