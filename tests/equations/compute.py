#!/usr/bin/env python3
"""Holds the definitions against the separate reading: the checker computes both sides of equations on random images.

tests/reading makes images with their answers, tables, records and trails. Each image becomes equations, definitions
on the left and the reading's numbers on the right, which the checker proves by computing, in a temporary copy of the
crates. What is generated is not kept.
"""
import argparse
import random
import re
import shutil
import subprocess
import sys
import tempfile
import time
from collections import namedtuple
from pathlib import Path

sys.dont_write_bytecode = True
from cases import Census, read_cases
from statements import BATCH, SHOWN, equations, given, spoiled, written

TOP = Path(__file__).resolve().parent.parent.parent
LINES = [line for line in (TOP / "crates.txt").read_text().splitlines() if ":" in line]
BELOW = {crate.split()[0]: needed.split() for crate, needed in (line.split(":") for line in LINES)}
BATCH_SIZE = 50
REFUSED = re.compile(r"\S*/specs/Batch\d+\.antt:\d+:\d+: error: `(\w+)-(\d+)`")
DIFFERS = re.compile(r"computed as far as they go, .* has `(.*)` \(expected\).* has `(.*)` \(found\)")
Refused = namedtuple("Refused", "name number differs")


def standing_under(crate):
    """A crate and all that it stands on."""
    return {crate}.union(*(standing_under(below) for below in BELOW[crate]))


CRATES = [crate for crate in BELOW if crate in standing_under("model")]


def ask_reading(seed, count):
    command = ["cargo", "run", "--release", "--quiet", "--", "cases", str(seed), str(count)]
    done = subprocess.run(command, cwd=TOP / "tests" / "reading", stdout=subprocess.PIPE, text=True)
    if done.returncode != 0:
        sys.exit("compute.py: tests/reading does not run")
    return read_cases(done.stdout)


def definitions():
    """The whole name of each definition of the crates' specs that stays shut until it is named."""
    for crate in CRATES:
        for file in sorted((TOP / "crates" / crate / "specs").glob("*.antt")):
            for name in re.findall(r"^\s*unfoldable pub (\S+) :", file.read_text(), re.MULTILINE):
                yield f"Rattle.{crate}.specs.{file.stem}.{name}"


def copy_crates(work):
    """The definitions with what they need, without model's laws: equations need none."""
    for crate in CRATES:
        for part in ("src", "specs", "proofs"):
            shutil.copytree(TOP / "crates" / crate / part, work / "crates" / crate / part)
    proofs = work / "crates" / "model" / "proofs"
    for law in proofs.glob("*.antt"):
        law.unlink()
    (proofs / "Lib.antt").write_text("")
    lines = [line for line in LINES if line.split(":")[0] in CRATES]
    (work / "crates.txt").write_text("\n".join([*lines, "equations: " + " ".join(CRATES), ""]))


def write_equations(work, stated):
    """The crate of equations: for each case what they have in common, and the equations."""
    crate = work / "crates" / "equations"
    (crate / "specs").mkdir(parents=True)
    (crate / "src").mkdir()
    (crate / "src" / "lib.rt").write_text("// specs/ has equations; there is no code.\n#![tactic(auto)]\n")
    (crate / "specs" / "Shown.antt").write_text(SHOWN % " ".join(definitions()))
    modules = ["Shown"]
    for first in range(0, len(stated), BATCH_SIZE):
        parts = [BATCH]
        for case, of_case in stated[first:first + BATCH_SIZE]:
            parts += [f"-- case {case.number}", *given(case), *map(written, of_case)]
        modules.append(f"Batch{first // BATCH_SIZE}")
        (crate / "specs" / f"{modules[-1]}.antt").write_text("\n".join(parts))
    (crate / "specs" / "Lib.antt").write_text("".join(f"pub mod {module}\n" for module in modules))


def prove(work, crate):
    """What the checker says of a crate, in whole lines, and whether it proves it."""
    done = subprocess.run(["rt", "check"], cwd=work / "crates" / crate, text=True, errors="replace", stdout=subprocess.PIPE,
                          stderr=subprocess.STDOUT)
    if done.returncode not in (0, 1):
        sys.exit(f"{done.stdout[-9000:]}\ncompute.py: the checker came to no verdict")
    return done.stdout, done.returncode == 0


def compute(stated):
    """The refused equations, and the seconds that the checker took."""
    with tempfile.TemporaryDirectory() as folder:
        work = Path(folder)
        copy_crates(work)
        write_equations(work, stated)
        said, proved = prove(work, "model")
        if not proved:
            sys.exit(f"{said}\ncompute.py: the definitions are not accepted")
        began = time.monotonic()
        said, proved = prove(work, "equations")
        took = time.monotonic() - began
    refused = list(refusals(said))
    if proved != (not refused):
        sys.exit(f"{said[-9000:]}\ncompute.py: the checker refuses no equation, and does not prove them")
    return refused, took


def refusals(said):
    """The refused equations; any other error is a fault in what was generated."""
    for message in re.split(r"^(?=\S.*: error: )", said, flags=re.MULTILINE)[1:]:
        found, differs = REFUSED.match(message), DIFFERS.search(message)
        if not found:
            sys.exit(f"{message[:9000]}\ncompute.py: an error that is no equation's")
        kind, number = found.groups()
        where = f": the reading has {differs[1]}, the definition {differs[2]}" if differs else ""
        yield Refused(f"{kind}-{number}", int(number), where)


def arguments():
    parser = argparse.ArgumentParser(description=__doc__.splitlines()[0])
    parser.add_argument("seed", type=int)
    parser.add_argument("count", type=int)
    parser.add_argument("--spoil", metavar="N", help="change one number that case N expects, or, with 'all', each case")
    return parser.parse_args()


def spoil(stated, chosen, seed):
    """Changes a number in the chosen case, or in all; the names of the equations that are wrong then."""
    wrong = []
    for at, (case, of_case) in enumerate(stated):
        if chosen in ("all", str(case.number)):
            of_case, name = spoiled(of_case, random.Random(f"{seed} {case.number}"))
            stated[at] = case, of_case
            wrong.append(name)
    return wrong


def main():
    asked = arguments()
    cases = ask_reading(asked.seed, asked.count)
    stated = [(case, list(equations(case))) for case in cases]
    wrong = spoil(stated, asked.spoil, asked.seed)
    if asked.spoil and not wrong:
        sys.exit(f"compute.py: there is no case {asked.spoil}")
    refused, took = compute(stated)
    unequal = {equation.number for equation in refused}
    print(f"seed {asked.seed}: {len(cases)} images computed, {len(cases) - len(unequal)} equal"
          f" ({sum(len(of_case) for case, of_case in stated)} equations, {took:.0f} seconds)")
    census = Census(cases)
    census.show()
    unmet = list(census.unmet())
    for equation in refused:
        print(f"refused: {equation.name}{equation.differs}")
    if asked.spoil:
        exactly = sorted(wrong) == sorted(equation.name for equation in refused)
        print(f"numbers changed: {len(wrong)}; {'' if exactly else 'NOT '}just the equations with them are refused")
    for what in unmet:
        print(f"not met: {what}")
    sys.exit(1 if refused or wrong or unmet else 0)


if __name__ == "__main__":
    main()
