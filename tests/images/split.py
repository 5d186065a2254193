"""Splits ldd and std, which the cores do not know, into two words each, in assembly text as gcc writes it."""
import re

PAIR = re.compile(r"\t( ?)(ldd|std)\t(?:\[(%\w+)([+-]\d+)?\], (%\w+)|(%\w+), \[(%\w+)([+-]\d+)?\])$")
ANY_PAIR = re.compile(r"\t ?(ldd|std)\b")
ANNULLING = re.compile(r"\t(b\w+,a)\t(\.\w+)$")
BRANCH = re.compile(r"\tb\w*\t\.\w+$")
NAMES = [f"%{group}{number}" for group in "goli" for number in range(8)]
OTHER_NAMES = {"%sp": "%o6", "%fp": "%i6"}


def number_of(name):
    return NAMES.index(OTHER_NAMES.get(name, name))


def halves(match):
    """Both words: of two loads the one that overwrites their address comes last."""
    base, register = match[3] or match[7], number_of(match[5] or match[6])
    offset = int(match[4] or match[8] or 0)
    addresses = [f"[{base}{at:+d}]" if at else f"[{base}]" for at in (offset, offset + 4)]
    names = NAMES[register:register + 2]
    if match[2] == "std":
        return [f"st\t{name}, {address}" for name, address in zip(names, addresses)]
    loads = [f"ld\t{address}, {name}" for name, address in zip(names, addresses)]
    return loads[::-1] if number_of(base) == register else loads


class Splitter:
    """Takes the text's lines in turn. Detours are what is written after the last of them."""

    def __init__(self):
        self.lines, self.detours, self.count = [], [], 0

    def take(self, line):
        match = PAIR.match(line)
        if match:
            self.count += 1
            self.take_pair(line, match[1] != "", *halves(match))
        elif ANY_PAIR.match(line):
            raise ValueError(f"cannot split {line}")
        else:
            self.lines.append(line)

    def take_pair(self, line, in_slot, first, second):
        """In a slot that may be annulled one word stays, and the branch goes by the other one to its target; before
        another slot one of the words goes before the branch, which asks for flags alone."""
        if not in_slot:
            self.lines += [f"\t{first}", f"\t{second}"]
            return
        if BRANCH.match(self.lines[-1]):
            self.lines[-1:] = [f"\t{first}", self.lines[-1], f"\t {second}"]
            return
        branch, detour = ANNULLING.match(self.lines[-1]), f".Ldetour{self.count}"
        if not branch:
            raise ValueError(f"cannot split {line} after {self.lines[-1]}")
        self.lines[-1:] = [f"\t{branch[1]}\t{detour}", f"\t {first}"]
        self.detours += [f"{detour}:", f"\tb\t{branch[2]}", f"\t {second}"]


def split_pairs(text):
    """The text with every pair split, and how many there were."""
    splitter = Splitter()
    for line in text.splitlines():
        splitter.take(line)
    return "\n".join([*splitter.lines, "\t.section\t\".text\"", *splitter.detours, ""]), splitter.count
