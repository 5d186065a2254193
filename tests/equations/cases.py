"""The cases that tests/reading prints, and a census of what they meet."""
from collections import Counter

# Words that transfer control: conditional, always and never, each without and with annul, call and jmpl.
TRANSFERS = ("bcc", "bcc,a", "ba", "ba,a", "bn", "bn,a", "call", "jmpl")
EXECUTED = ("bcc", "bcc,a", "ba", "bn", "call", "jmpl")  # first words whose delay slot can be executed
ANNULLED = ("bcc,a", "ba,a", "bn,a")  # and those whose delay slot can be annulled
REPEATED = ("place", "record", "old", "new", "malformed")
TRAILS = ("old", "new", "malformed")
# Of an entry's numbers: the address, 32 registers, Y, the nesting, 128 of windows, the flags, the data.
Y, NESTING, FLAGS = 33, 34, 163


class Case:
    """One case: every line of the reading's, by its key word."""

    def __init__(self, number):
        self.number = number
        self.lines = {key: [] for key in REPEATED}

    def add(self, key, numbers):
        if key in REPEATED:
            self.lines[key].append(numbers)
        else:
            self.lines[key] = numbers

    def __getattr__(self, key):
        return self.lines[key]

    def has(self, key):
        return key in self.lines

    @property
    def accepted(self):
        return self.answer[0] == 0

    def word_at(self, address):
        distance = (address - self.base[0]) % 2**32
        return self.image[distance // 4] if distance % 4 == 0 and distance // 4 < len(self.image) else None

    @property
    def wraps(self):
        """Whether the image goes on at address 0."""
        return self.base[0] + 4 * len(self.image) > 2**32


def read_cases(text):
    cases = []
    for line in text.splitlines():
        key, *numbers = line.split()
        numbers = [int(number) for number in numbers]
        if key == "case":
            cases.append(Case(numbers[0]))
        elif key != "done":
            cases[-1].add(key, numbers)
    return cases


def transfer(word):
    """What a word is among the transfers, if it is one."""
    if word is None:
        return None
    if word >> 30 == 1:
        return "call"
    if word >> 30 == 2 and word >> 19 & 63 == 56:
        stray = word >> 13 & 1 == 0 and word >> 5 & 0xFF != 0  # unused bits set beside a register
        return None if stray else "jmpl"
    if word >> 30 == 0 and word >> 22 & 7 == 2:
        name = {0: "bn", 8: "ba"}.get(word >> 25 & 15, "bcc")
        return name + ",a" if word >> 29 & 1 else name
    return None


def pairings(case):
    """Transfers with a transfer in the delay slot, which both trails of an accepted image come past.

    A jmpl before any but bn is refused with 4: there the old core's trail alone, of an image refused for it.
    """
    for at, (entry, following) in enumerate(zip(case.old, case.old_next)):
        first, second = transfer(case.word_at(entry[0])), transfer(case.word_at(following))
        annulled = case.old_steps[at] == 2
        last = at if annulled else at + 1
        if first is None or second is None or last >= len(case.old):
            continue
        if case.accepted and last < len(case.new) or case.answer[:2] == [4, following] and first == "jmpl":
            yield first, second, annulled


def past_the_last(case):
    """Whether the last entry over the malformed table stands at a record past the last."""
    end, record = case.malformed_close
    rows = bytes(case.malformed_places)
    named = [int.from_bytes(rows[at + 12:at + 16], "big") for at in range(0, len(rows) - 15, 16)]
    return end == 7 and record >= len(case.malformed_records) // 12 and record in named


def changes(case, name, position):
    """Whether a number is not the same at all entries of a trail."""
    return len({entry[position] for entry in case.lines[name]}) > 1


class Census:
    def __init__(self, cases):
        self.cases = cases
        self.malformed = [case for case in cases if case.has("malformed_close")]
        self.pairings = Counter(pairing for case in cases for pairing in set(pairings(case)))
        self.wrapping = [case for case in cases if case.wraps]

    def closed(self, name):
        return Counter(case.lines[name + "_close"][0] for case in self.cases if case.has(name + "_close"))

    def unmet(self):
        """What must be met and is not."""
        required = [(first, second, False) for first in EXECUTED for second in TRANSFERS]
        required += [(first, second, True) for first in ANNULLED for second in TRANSFERS]
        for first, second, annulled in required:
            if not self.pairings[first, second, annulled]:
                yield f"{second} in the delay slot of {first}, {'annulled' if annulled else 'executed'}"
        if not any(case.accepted for case in self.wrapping):
            yield "an accepted image at a base that wraps"
        if not self.closed("new")[6]:
            yield "end 6"
        for name in ("old", "new"):
            for what, position in (("Y", Y), ("nesting", NESTING)):
                if not any(changes(case, name, position) for case in self.cases):
                    yield f"another {what} on the way of the {name} core"
            for end in (8, 9):
                if not self.closed(name)[end]:
                    yield f"end {end} of the {name} core"

    def show(self):
        entries = {name: sum(len(case.lines[name]) for case in self.cases) for name in TRAILS}
        changing = {(name, position): sum(changes(case, name, position) for case in self.cases)
                    for name in TRAILS for position in (Y, NESTING)}
        accepted = sum(case.accepted for case in self.cases)
        wrapping = sum(case.accepted for case in self.wrapping)
        print(f"images at bases that wrap: {len(self.wrapping)}, accepted {wrapping}")
        print(f"images accepted: {accepted}; by answer: {tally(case.answer[0] for case in self.cases)}")
        print(f"places: {sum(len(case.place) for case in self.cases)},"
              f" records: {sum(len(case.record) for case in self.cases)}")
        for name, text in (("old", "old trails"), ("new", "new trails"), ("malformed", "trails over malformed tables")):
            closed = self.closed(name)
            print(f"{text}: {closed.total()}, with another Y on the way {changing[name, Y]},"
                  f" another nesting {changing[name, NESTING]}, entries {entries[name]}; by end: {tally(closed)}")
        print(f"entries at a record past the last: {sum(past_the_last(case) for case in self.malformed)}")
        self.show_pairings("executed", EXECUTED, False)
        self.show_pairings("annulled", ANNULLED, True)

    def show_pairings(self, title, firsts, annulled):
        print(f"images by transfer (row) and the transfer in its delay slot (column), {title}:")
        print(" " * 8 + "".join(f"{second:>7}" for second in TRANSFERS))
        for first in firsts:
            counts = [self.pairings[first, second, annulled] for second in TRANSFERS]
            print(f"{first:>8}" + "".join(f"{count:>7}" for count in counts))


def tally(numbers):
    counted = numbers if isinstance(numbers, Counter) else Counter(numbers)
    return ", ".join(f"{number}: {times}" for number, times in sorted(counted.items()))
