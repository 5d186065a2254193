#!/usr/bin/env python3
"""Holds words that the library writes to GNU binutils: its assembler and its disassembler for SPARC V8.

The instructions are random, of all forms in turn, and of each with a register and with a constant. The library writes
them to words. First, each instruction as text, with all its operands, is assembled: the same word. Second, each word is
disassembled, and that text assembled: the same word, or, where one text stands for two words, another of that text.
(The disassembler has no option to write out operands that are 0, nor or for its mov.)
"""
import argparse
import random
import re
import shutil
import struct
import subprocess
import sys
import tempfile
from pathlib import Path

HERE = Path(__file__).resolve().parent
TOP = HERE.parent.parent
OBJDUMP, AS, OBJCOPY = (f"sparc64-linux-gnu-{name}" for name in ("objdump", "as", "objcopy"))

CALL, BICC, SETHI, RDY, WRY, JMPL, TICC = 64, 2, 4, 168, 176, 184, 186
ARITHMETIC = {"add": 0, "and": 1, "or": 2, "xor": 3, "sub": 4, "andn": 5, "orn": 6, "xnor": 7, "addx": 8, "subx": 12}
ARITHMETIC.update({"umul": 10, "smul": 11})
ARITHMETIC.update({name + "cc": op3 + 16 for name, op3 in ARITHMETIC.items()})
ARITHMETIC.update({"save": 60, "restore": 61})
SHIFTS = {165: "sll", 166: "srl", 167: "sra"}
LOADS = {192: "ld", 193: "ldub", 194: "lduh", 201: "ldsb", 202: "ldsh"}
STORES = {196: "st", 197: "stb", 198: "sth"}
COMPUTING = {**{128 + op3: name for name, op3 in ARITHMETIC.items()}, **SHIFTS}
FORMS = [CALL, BICC, SETHI, RDY, WRY, JMPL, TICC, *COMPUTING, *LOADS, *STORES]
CONDITIONS = ("n", "e", "le", "l", "leu", "cs", "neg", "vs", "a", "ne", "g", "ge", "gu", "cc", "pos", "vc")

# Address, bytes, mnemonic, operands, and the disassembler's comment on what a register holds after a sethi.
LINE = re.compile(r"^ *([0-9a-f]+):\t(?:[0-9a-f]{2} ){4}\t(\S+) *(.*?) *(?:\t!.*)?$", re.MULTILINE)
BRANCH = re.compile(r"b|call$")
UNKNOWN = re.compile(r"\.|unknown")  # .word and the like, which would come back whatever it is
SECOND_OPERAND = 0x7FFFF  # rs1 and all below it: what two words of one text may differ in
SPOILED_BIT = 1 << 25  # of rd, a condition or a displacement, whatever the form


def number(source, bits, signed=False):
    """A number that a field of so many bits has, often near its least or largest."""
    low = -(1 << bits - 1) if signed else 0
    high = low + (1 << bits) - 1
    edges = (low, low + 1, 0, 1, high - 1, high)
    return source.choice(edges) if source.random() < 0.2 else source.randint(low, high)


def instruction(source, form, turn):
    """Six numbers of a form; in turn annul is set or not, and the second operand is a constant or a register."""
    if form == CALL:
        return form, 0, 0, 0, 0, number(source, 30, signed=True)
    if form == BICC:
        return form, turn % 2, number(source, 4), 0, 0, number(source, 22, signed=True)
    if form == SETHI:
        return form, 0, number(source, 5), 0, 0, number(source, 22)
    if form == RDY:
        return form, 0, number(source, 5), 0, 0, 0
    constant = turn % 2
    if not constant or form in SHIFTS:
        second = number(source, 5)
    else:
        second = number(source, 7) if form == TICC else number(source, 13, signed=True)
    rd = 0 if form == WRY else number(source, 4 if form == TICC else 5)
    return form, 0, rd, number(source, 5), constant, second


def text_of(form, annul, rd, rs1, constant, second):
    """The instruction in the assembler's language, with all its operands."""
    if form == CALL:
        return f"call . + {4 * second}"
    if form == BICC:
        return f"b{CONDITIONS[rd]}{',a' * annul} . + {4 * second}"
    if form == SETHI:
        return f"sethi %hi({second << 10}), %r{rd}"
    if form == RDY:
        return f"rd %y, %r{rd}"
    operand = second if constant else f"%r{second}"
    if form == WRY:
        return f"wr %r{rs1}, {operand}, %y"
    if form in COMPUTING:
        return f"{COMPUTING[form]} %r{rs1}, {operand}, %r{rd}"
    address = f"%r{rs1} + {operand}"
    if form == TICC:
        return f"t{CONDITIONS[rd]} {address}"
    if form == JMPL:
        return f"jmpl {address}, %r{rd}"
    return f"{LOADS[form]} [{address}], %r{rd}" if form in LOADS else f"{STORES[form]} %r{rd}, [{address}]"


def run(command, **how):
    done = subprocess.run(command, stdout=subprocess.PIPE, **how)
    if done.returncode != 0:
        sys.exit(f"assemble.py: {command[0]} leaves with {done.returncode}")
    return done.stdout


def write(instructions, library, folder):
    """The words that the library writes the instructions to."""
    driver = folder / "write"
    run(["cc", "-O2", "-I", TOP / "include", HERE / "write.c", library, "-o", driver])
    given = b"".join(struct.pack(">6I", *(part % 2**32 for part in six)) for six in instructions)
    answers = list(struct.iter_unpack(">2I", run([driver], input=given)))
    for six, (refusal, value) in zip(instructions, answers, strict=True):
        if refusal != 0:
            sys.exit(f"assemble.py: {six} is refused with {refusal} and {value}")
    return [word for _, word in answers]


def assemble(lines, folder):
    """The words of so many lines; the assembler would else change some words behind a call."""
    source, made, binary = folder / "words.s", folder / "words.o", folder / "assembled"
    source.write_text("".join(f"{line}\n" for line in lines))
    run([AS, "-Av8", "-32", "-no-relax", "--fatal-warnings", "-o", made, source])
    run([OBJCOPY, "-O", "binary", "-j", ".text", made, binary])
    words = [word for word, in struct.iter_unpack(">I", binary.read_bytes())]
    if len(words) != len(lines):
        sys.exit(f"assemble.py: {len(lines)} lines are assembled to {len(words)} words")
    return words


def disassemble(words, folder):
    """A line for each word that the assembler takes as it is meant."""
    binary = folder / "words"
    binary.write_bytes(struct.pack(f">{len(words)}I", *words))
    said = run([OBJDUMP, "-D", "-z", "-EB", "-b", "binary", "-m", "sparc", binary], text=True)
    lines = [(int(address, 16), name, operands) for address, name, operands in LINE.findall(said)]
    if [address for address, _, _ in lines] != list(range(0, 4 * len(words), 4)):
        sys.exit("assemble.py: objdump does not list each word once")
    return [as_meant(word, *line) for word, line in zip(words, lines)]


def as_meant(word, address, name, operands):
    """The disassembler's text, but for targets, which stand relative to the word, and two names by which the assembler
    means another word: clr of a register, to the disassembler or of a constant 0, and call, to it also a jmpl."""
    if word >> 30 < 2 and BRANCH.match(name):
        distance = (int(operands, 16) - address + 2**31) % 2**32 - 2**31
        return f"{name} . + {distance}"
    if name == "call":
        return f"jmpl {operands}, %o7"
    if name == "clr" and operands.startswith("%"):
        return f"mov 0, {operands}"
    return f"{name} {operands}"


def compare_assembled(instructions, words, folder):
    """Where an instruction's text, assembled, is another word than the library's."""
    lines = [text_of(*six) for six in instructions]
    made = assemble(lines, folder)
    return [f"{six}: written {word:08x}, {line} assembled {other:08x}"
            for six, word, line, other in zip(instructions, words, lines, made) if word != other]


def compare_disassembled(words, shown, folder):
    """Where a word's text, assembled, is another word of another text; and how many are another word of that text."""
    lines = disassemble(shown, folder)
    unknown = [f"{word:08x} is disassembled as {line}" for word, line in zip(shown, lines) if UNKNOWN.match(line)]
    if unknown:
        return unknown, 0
    again = assemble(lines, folder)
    differing, twins = [], 0
    for word, line, other, other_line in zip(words, lines, again, disassemble(again, folder)):
        if word != other and line == other_line and (word ^ other) & ~SECOND_OPERAND == 0:
            twins += 1
        elif word != other:
            differing.append(f"written {word:08x}, {line} assembled {other:08x}")
    return differing, twins


def spoiled(words):
    """The same but for one bit of the word in the middle."""
    middle = len(words) // 2
    return [*words[:middle], words[middle] ^ SPOILED_BIT, *words[middle + 1:]]


def options_given():
    parser = argparse.ArgumentParser(description=__doc__.splitlines()[0])
    parser.add_argument("--seed", type=int, default=1)
    parser.add_argument("--words", type=int, default=100000)
    parser.add_argument("--library", type=Path, default=TOP / "target" / "libpijorrel.a")
    parser.add_argument("--spoil", choices=("written", "shown"),
                        help="change a bit of one word as the library wrote it, or as the disassembler gets it")
    options = parser.parse_args()
    if options.words < 2 * len(FORMS):
        parser.error(f"--words takes a number of {2 * len(FORMS)} or more, which has every form")
    return options


def main():
    options = options_given()
    for tool in (OBJDUMP, AS, OBJCOPY, "cc"):
        if shutil.which(tool) is None:
            sys.exit(f"assemble.py: {tool} is missing (Debian packages binutils-sparc64-linux-gnu and gcc)")
    source = random.Random(options.seed)
    instructions = [instruction(source, FORMS[k % len(FORMS)], k // len(FORMS)) for k in range(options.words)]
    with tempfile.TemporaryDirectory() as place:
        folder = Path(place)
        words = write(instructions, options.library, folder)
        if options.spoil == "written":
            words = spoiled(words)
        differing = compare_assembled(instructions, words, folder)
        shown = spoiled(words) if options.spoil == "shown" else words
        differing_again, twins = compare_disassembled(words, shown, folder)
    for line in differing + differing_again:
        print(line)
    print(f"{len(words)} words of {len({six[0] for six in instructions})} forms")
    print(f"assembled from the instruction: {len(words) - len(differing)} equal")
    equal = len(words) - len(differing_again) - twins
    print(f"disassembled and assembled: {equal} equal, {twins} another word of the same text")
    sys.exit(1 if differing or differing_again else 0)


if __name__ == "__main__":
    main()
