"""Random programs of the words that the old core knows: those with an unused bit set are none to it.

A program is a prologue that gives every register of every window and Y a value and sets the flags, a body of random
words, and a closing that goes through all windows, loads each word of the data into a register and leaves by the exit
trap. However a run winds through the body, each access fits and each target lies in the body, so that it loops, takes
a trap, saves or restores once too often, or reaches the exit.
"""
from dataclasses import dataclass
from functools import cache

ARITHMETIC = {"add": 0x00, "and": 0x01, "or": 0x02, "xor": 0x03, "sub": 0x04, "andn": 0x05, "orn": 0x06,
              "xnor": 0x07, "addx": 0x08, "subx": 0x0C}
ARITHMETIC.update({name + "cc": op3 + 0x10 for name, op3 in ARITHMETIC.items()})
PRODUCTS = {"umul": 0x0A, "smul": 0x0B, "umulcc": 0x1A, "smulcc": 0x1B}
SHIFTS = {"sll": 0x25, "srl": 0x26, "sra": 0x27}
RDY, WRY, JMPL, TICC = 0x28, 0x30, 0x38, 0x3A
WINDOWS = {"save": 0x3C, "restore": 0x3D}
OTHERS = {"rdy": RDY, "wry": WRY, "jmpl": JMPL, "ticc": TICC, **WINDOWS}
MEMORY = {"ld": 0x00, "ldub": 0x01, "lduh": 0x02, "ldsb": 0x09, "ldsh": 0x0A, "st": 0x04, "stb": 0x05, "sth": 0x06}
STORES = ("st", "stb", "sth")
WIDTH = {"ld": 4, "ldub": 1, "lduh": 2, "ldsb": 1, "ldsh": 2, "st": 4, "stb": 1, "sth": 2}

NEVER, ALWAYS = 0, 8
CONDITIONS = ("n", "e", "le", "l", "leu", "cs", "neg", "vs", "a", "ne", "g", "ge", "gu", "cc", "pos", "vc")
# One row for each condition, one bit for each flag value 8N + 4Z + 2V + C, lowest first.
HOLDS = (0x0000, 0xF0F0, 0xF3FC, 0x33CC, 0xFAFA, 0xAAAA, 0xFF00, 0xCCCC,
         0xFFFF, 0x0F0F, 0x0C03, 0xCC33, 0x0505, 0x5555, 0x00FF, 0x3333)
CONTROL = ("b", "b,a", "ba", "ba,a", "bn", "bn,a", "call", "jmpl")
CONTROL_WEIGHTS = (4, 4, 1, 1, 1, 1, 1, 1)

EDGES = (0, 1, 0x7FFFFFFF, 0x80000000, 0xFFFFFFFF)
CONSTANTS = (0, 1, -1, 4095, -4096)
# With the carry set before, one for each flag value that arithmetic can leave: all but those with N and Z.
FLAG_SETTERS = (("addcc", 1, 1), ("subcc", 1, 0xFFFFFFFF), ("subcc", 0x80000000, 1),
                ("addcc", 0x80000000, 0xFFFFFFFF), ("addcc", 0, 0), ("addcc", 1, 0xFFFFFFFF),
                ("subxcc", 0x80000000, 0x7FFFFFFF), ("addcc", 0x80000000, 0x80000000),
                ("addcc", 0xFFFFFFFF, 0), ("subcc", 0, 1), ("addcc", 0x7FFFFFFF, 1),
                ("subcc", 0x7FFFFFFF, 0xFFFFFFFF))
STACK, LINK, NOP = 14, 15, 0x01000000
GLOBALS, OUTS, LOCALS, INS = range(1, 8), range(8, 16), range(16, 24), range(24, 32)
MOST_NESTING = 6
EXIT_TRAP = 0x10
OPENING = 2
PROLOGUE = OPENING + 2 * (7 + 8 + 7 * 16) + 2 * MOST_NESTING + 3
CLOSING_REGISTER = 16
RESERVED = 12  # registers that hold addresses, and that no word of the body but a jmpl writes


def in_register(number):
    return number & 31


def constant(value):
    assert -4096 <= value <= 4095
    return 1 << 13 | value & 0x1FFF


def format3(op, op3, rd, rs1, operand):
    return op << 30 | rd << 25 | op3 << 19 | rs1 << 14 | operand


def window_word(name):
    """One that changes the nesting alone."""
    return format3(2, WINDOWS[name], 0, 0, 0)


def window_number(nesting, register):
    """Which of the 128 numbers of windows a register is, from 8 on."""
    if register in OUTS:
        return (nesting + 1) % 8 * 16 + register - OUTS.start
    return nesting * 16 + (register - INS.start) % 16


def sethi(rd, value):
    return rd << 25 | 4 << 22 | (value >> 10) & 0x3FFFFF


def bicc(condition, annul, here, target):
    return annul << 29 | condition << 25 | 2 << 22 | (target - here >> 2) & 0x3FFFFF


def call(here, target):
    return 1 << 30 | (target - here >> 2) & 0x3FFFFFFF


def condition_of(word):
    return word >> 25 & 15


@cache
def kind_of(word):
    """The word's name, branches by condition and annul bit as in CONTROL, traps as "ticc"."""
    op, op3 = word >> 30, word >> 19 & 0x3F
    if op == 1:
        return "call"
    if op == 0 and word >> 22 & 7 == 4:
        return "sethi"
    if op == 0:
        name = {NEVER: "bn", ALWAYS: "ba"}.get(condition_of(word), "b")
        return name + ",a" * (word >> 29 & 1)
    names = MEMORY if op == 3 else {**ARITHMETIC, **PRODUCTS, **SHIFTS, **OTHERS}
    return next(name for name, number in names.items() if number == op3)


def condition_holds(word, flags):
    return HOLDS[condition_of(word)] >> flags & 1 == 1


def executes_delay_slot(word, flags):
    """Whether the word after this branch, call or jmpl runs; an annulled one is passed over."""
    kind = kind_of(word)
    return not kind.endswith(",a") or kind == "b,a" and condition_holds(word, flags)


@dataclass
class Program:
    base: int
    words: list
    data_base: int
    data: bytes
    walk: range  # addresses of the closing's restores and saves

    @property
    def image(self):
        return b"".join(word.to_bytes(4, "big") for word in self.words)

    @property
    def exit_address(self):
        return self.base + 4 * (len(self.words) - 1)

    def word_at(self, address):
        return self.words[(address - self.base) // 4]

    def make_trap_never(self, address):
        self.words[(address - self.base) // 4] &= ~(15 << 25)

    def make_sum_alone(self, address):
        """A save or restore becomes an add."""
        self.words[(address - self.base) // 4] &= ~(63 << 19)

    def data_shown(self, registers):
        """The data that the closing's loads have brought into these registers."""
        words = registers[CLOSING_REGISTER:CLOSING_REGISTER + len(self.data) // 4]
        return b"".join(word.to_bytes(4, "big") for word in words)


class Maker:
    """Makes one program from a source of random numbers."""

    def __init__(self, random):
        self.random = random
        text, data = random.sample(range(0x10, 0x3F0), 2)  # in MiB, away from the emulator's stack
        self.base = (text << 20) + random.choice((0, 0x80000000))
        self.data = random.randbytes(4 * random.randint(4, 16))
        self.data_base = (data << 20) + 4 * random.randrange(256)
        self.start = self.base + 4 * PROLOGUE
        self.length = random.randint(10, 50)
        self.nesting = random.randint(0, MOST_NESTING)
        self.choose_registers()
        self.values, self.window_values = {}, [self.value() for _ in range(128)]
        self.set_y = self.wry()
        self.flag_setter = self.prepare_flags()
        self.point_at_data()
        self.hold(LINK, self.target(self.start) - 8)

    def choose_registers(self):
        """An out is an in one window further: where one holds an address the other is not free either."""
        groups = [(r,) for r in (*GLOBALS, *LOCALS)] + [(r, r + 16) for r in OUTS if r != LINK]
        self.random.shuffle(groups)
        self.reserved = [self.random.choice(group) for group in groups[:RESERVED]]
        self.free = [0] + [r for group in groups[RESERVED:] for r in group]

    def hold(self, register, value):
        """A value for a register in every window."""
        self.values[register] = value
        if register in (*OUTS, *INS):
            self.values[register ^ 16] = value

    def program(self, couple):
        """The body begins with two given words of CONTROL, the second in the first one's delay slot."""
        body = [self.control(kind, self.start + 4 * at) for at, kind in enumerate(couple)]
        while len(body) < self.length:
            control = 0.45 if kind_of(body[-1]) in CONTROL else 0.3
            body.append(self.body_word(self.start + 4 * len(body), control))
        # The prologue comes last, since the body decides what its registers hold.
        words, walk = self.prologue() + body + self.closing(), self.start + 4 * self.length + 4
        return Program(self.base, words, self.data_base, self.data, range(walk, walk + 8 * MOST_NESTING, 4))

    def prologue(self):
        """The opening makes the emulator fill window 0 while it has a stack: no other word of a program makes it fill
        or spill one."""
        words = [window_word("save"), window_word("restore")]
        words += self.setters(0, [STACK, *GLOBALS, *INS, *(r for r in OUTS if r != STACK), *LOCALS])
        for nesting in range(1, MOST_NESTING + 1):
            words += [window_word("save"), *self.setters(nesting, [*OUTS, *LOCALS])]
        words += [window_word("restore")] * (MOST_NESTING - self.nesting) + [NOP] * self.nesting
        set_carry = format3(2, ARITHMETIC["subcc"], 0, 0, constant(1))
        return words + [self.set_y, set_carry, self.flag_setter]

    def setters(self, nesting, registers):
        words = []
        for rd in registers:
            value = self.first_value(nesting, rd) & 0xFFFFFFFF
            words += [sethi(rd, value), format3(2, ARITHMETIC["or"], rd, rd, constant(value & 0x3FF))]
        return words

    def first_value(self, nesting, register):
        """Those that hold an address do so in every window."""
        if register in self.values:
            return self.values[register]
        return self.value() if register in GLOBALS else self.window_values[window_number(nesting, register)]

    def closing(self):
        """Begins with a nop, since a branch in a delay slot may run or annul the first word alone; then down to window
        0 and up again. Restores that are too many become sums."""
        low = self.data_base & 0x3FF
        windows = [window_word(name) for name in ("restore", "save") for _ in range(MOST_NESTING)]
        loads = [format3(3, MEMORY["ld"], CLOSING_REGISTER + at // 4, 1, constant(low + at))
                 for at in range(0, len(self.data), 4)]
        leave = [format3(2, ARITHMETIC["or"], rd, 0, constant(value)) for rd, value in ((1, 1), (8, 0))]
        leave.append(format3(2, TICC, ALWAYS, 0, constant(EXIT_TRAP)))
        return [NOP, *windows, sethi(1, self.data_base), *loads, *leave]

    def value(self):
        return self.random.choice(EDGES + (self.random.getrandbits(32),) * 2)

    def constant_value(self):
        return self.random.choice(CONSTANTS + (self.random.randint(-4096, 4095),) * 3)

    def any_register(self):
        return self.random.randrange(32)

    def source(self):
        """Mostly a register that the body may write: the others hold addresses, and seldom edge values."""
        return self.any_register() if self.random.random() < 0.3 else self.random.choice(self.free)

    def destination(self):
        """Often register 0, so that edge values live longer in the others."""
        return 0 if self.random.random() < 0.4 else self.random.choice(self.free)

    def sources(self):
        """Two operands; often one register twice, since few other pairs leave Z or, with edge values, V."""
        rs1 = self.source()
        rs2 = rs1 if self.random.random() < 0.4 else self.source()
        return rs1, self.random.choice((in_register(rs2), constant(self.constant_value())))

    def target(self, here):
        """Mostly a little forward, so that most runs end; at most the closing's first word."""
        step = self.random.randint(1, 6) if self.random.random() < 0.92 else -self.random.randrange(10)
        return min(max(here + 4 * step, self.start), self.start + 4 * self.length)

    def body_word(self, here, control):
        if self.random.random() < control:
            return self.control(self.random.choices(CONTROL, CONTROL_WEIGHTS)[0], here)
        makers = (self.arithmetic, self.product, self.rdy, self.wry, self.shift, self.sethi, self.access, self.trap,
                  self.window)
        return self.random.choices(makers, (45, 12, 4, 4, 9, 4, 27, 5, 25))[0]()

    def arithmetic(self):
        """Sums and differences that set flags come more often: they alone set V and C."""
        names = list(ARITHMETIC) + 3 * ["addcc", "addxcc", "subcc", "subxcc"]
        op3 = ARITHMETIC[self.random.choice(names)]
        return format3(2, op3, self.destination(), *self.sources())

    def product(self):
        return format3(2, self.random.choice(list(PRODUCTS.values())), self.destination(), *self.sources())

    def rdy(self):
        return format3(2, RDY, self.random.choice(self.free), 0, 0)

    def wry(self):
        return format3(2, WRY, 0, *self.sources())

    def window(self):
        """Away from the nearer end of the windows a little more often."""
        up = self.random.random() < (0.6 if self.nesting < MOST_NESTING / 2 else 0.4)
        return format3(2, WINDOWS["save" if up else "restore"], self.random.choice(self.free), *self.sources())

    def shift(self):
        op3 = self.random.choice(list(SHIFTS.values()))
        operand = self.random.choice((in_register(self.source()), constant(self.random.randrange(32))))
        return format3(2, op3, self.random.choice(self.free), self.source(), operand)

    def sethi(self):
        return sethi(self.random.choice(self.free), self.value())

    def trap(self):
        """Any condition but always; whether it is taken shows in the run."""
        condition = self.random.choice([c for c in range(16) if c != ALWAYS])
        operand = self.random.choice((in_register(self.any_register()), constant(self.random.randrange(128))))
        return format3(2, TICC, condition, self.any_register(), operand)

    def prepare_flags(self):
        """The prologue's last word, and the values that its two registers need."""
        name, first, second = self.random.choice(FLAG_SETTERS)
        rs1, rs2 = self.random.sample(self.free[1:], 2)
        for register, value in ((rs1, first), (rs2, second)):
            if register in GLOBALS:
                self.values[register] = value
            else:
                self.window_values[window_number(self.nesting, register)] = value
        return format3(2, ARITHMETIC[name], 0, rs1, in_register(rs2))

    def point_at_data(self):
        """One register for accesses with a constant; for those with an index one for each width."""
        self.near, self.index = self.reserved.pop(), self.reserved.pop()
        self.hold(self.near, self.data_base + self.random.randint(-4032, 4096))
        self.hold(self.index, self.value())
        self.indexed = {width: self.reserved.pop() for width in (1, 2, 4)}
        for width, register in self.indexed.items():
            offset = self.random.randrange(0, len(self.data), width)
            self.hold(register, self.data_base + offset - self.values[self.index])

    def access(self):
        name = self.random.choice(list(MEMORY))
        rd = self.any_register() if name in STORES else self.random.choice(self.free)
        if self.random.random() < 0.5:
            offset = self.random.randrange(0, len(self.data), WIDTH[name])
            rs1, operand = self.near, constant(self.data_base + offset - self.values[self.near])
        else:
            rs1, rs2 = self.random.sample((self.indexed[WIDTH[name]], self.index), 2)
            operand = in_register(rs2)
        return format3(3, MEMORY[name], rd, rs1, operand)

    def control(self, kind, here):
        if kind == "jmpl":
            return self.jmpl(here)
        if kind == "call":
            return call(here, self.target(here))
        conditions = {"ba": [ALWAYS], "bn": [NEVER]}.get(kind[:2], [c for c in range(16) if c % 8])
        return bicc(self.random.choice(conditions), kind.endswith(",a"), here, self.target(here))

    def jmpl(self, here):
        """Its registers are its own: its second target is known too, where it links over one of them."""
        rd = self.random.choice((0, LINK, self.random.choice(self.free)))
        if len(self.reserved) < 2 or self.random.random() < 0.15:
            return format3(2, JMPL, rd, LINK, constant(8))
        rs1, links_over = self.reserved.pop(), self.random.random() < 0.3
        by_register = self.random.random() < 0.5
        second = self.value() if by_register else self.constant_value()
        if links_over:
            rd, second = rs1, self.target(here) - here
        self.hold(rs1, self.target(here) - second)
        if not by_register:
            return format3(2, JMPL, rd, rs1, constant(second))
        rs2 = self.reserved.pop()
        self.hold(rs2, second)
        rs1, rs2 = self.random.sample((rs1, rs2), 2)
        return format3(2, JMPL, rd, rs1, in_register(rs2))


def make_program(random, turn):
    """Each pairing of CONTROL has its turn."""
    return Maker(random).program((CONTROL[turn // 8 % 8], CONTROL[turn % 8]))
