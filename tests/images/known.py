"""What each program has to leave in its results, worked out apart from it, in other ways where there are some."""
import zlib
from itertools import permutations
from math import prod

MASK = 0xFFFFFFFF


def drawn(state):
    """Marsaglia's xorshift: the numbers that the programs draw."""
    while True:
        state ^= state << 13 & MASK
        state ^= state >> 17
        state ^= state << 5 & MASK
        yield state


def signed(number, bits=32):
    number &= (1 << bits) - 1
    return number - (number >> bits - 1 << bits)


def wide(number):
    """Both words of a number of 64 bits."""
    return [number >> 32 & MASK, number & MASK]


def take(numbers, count):
    return [next(numbers) for _ in range(count)]


def sort():
    numbers = drawn(2463534242)
    words = sorted(take(numbers, 24))
    small = sorted(signed(number, 8) for number in take(numbers, 16))
    halves = sorted(number & 0xFFFF for number in take(numbers, 20))
    return words[::4] + small[::3][:5] + halves[::4]


def search():
    plates = [3, 17, 29, 130, 131, 132, 500, 777, 1024, 4095, 4096, 65535, 65536, 100000, 1000000, 2**31 - 1, 2**31,
              3000000000, 2**32 - 6, 2**32 - 1]
    wanted = [3, 2**32 - 1, 131, 133, 2**31, 0, 65536, 2**32 - 2]
    levels = {100 - 16 * i: i - 6 for i in range(12)}
    text = "level two, bay twenty-two"
    return ([plates.index(plate) if plate in plates else -1 for plate in wanted]
            + [levels.get(bay, 99) for bay in (100, -76, 36, 37)]
            + [text.find("twenty"), text.find("two"), text.find("three"), "aaab".find("aab")])


def functions():
    def turned(a, b):
        return (a << b % 32 | a >> (32 - b % 32)) & MASK

    def joined(a, b):
        return turned(a, 3) + b
    operations = [lambda a, b: a + b, lambda a, b: abs(a - b), turned, lambda a, b: a & ~b ^ b >> 3, lambda a, b: a * b]
    numbers = [5, 1000003, 77, 2**32 - 1, 12, 305419896]

    def folded(by, count, value):
        for number in numbers[:count]:
            value = by(value, number) & MASK
        return value
    value = 1
    for i, which in enumerate([0, 4, 1, 3, 2, 0, 1, 4, 2, 3, 0, 4]):
        value = operations[which](value, numbers[i // 2]) & MASK
    chosen = [min if number & 1 else joined for number in take(drawn(99), 4)]
    return ([by(numbers[i], numbers[i + 1]) for i, by in enumerate(operations)] + [value]
            + [folded(operations[0], 6, 0), folded(operations[1], 6, 9), folded(operations[3], 6, 4042322160)]
            + [folded(by, i + 3, 2000) for i, by in enumerate(chosen)])


def choose():
    """Of the program on the stack only what it comes to: three for each count, and a mixture of the counts."""
    kept_after = []
    for i in range(6):
        kept = i
        for left in range(2 * i, 0, -1):
            kept = ~(33 * kept + left) & MASK
        kept_after.append(kept)
    kept, total = 7, 0
    for letter in "abcdefgh zz hgfedcba A bad cafe":
        if letter == "d":
            total += kept % 16
        kept = {"b": kept + 11, "c": kept ^ 0x55, "e": 2 * kept, "f": kept // 4, "h": 1}.get(letter, kept)
        total += {"a": 3, "b": -7, "c": 19, "e": 2, "f": 1, "g": -100, "h": 40}.get(letter, 0)
    return [6 * i for i in range(6)] + kept_after + [total, kept]


def recursion():
    def tower(discs, start, end):
        if discs == 0:
            return []
        rest = 6 - start - end
        return tower(discs - 1, start, rest) + [(start, end)] + tower(discs - 1, rest, end)
    mixture = 0
    for start, end in tower(5, 1, 3):
        mixture = (mixture << 3 & MASK | mixture >> 29) ^ (4 * start | end)
    moved = sum(all(a != b for a, b in zip(order, "abcde")) for order in permutations("abcde"))
    numbers = sorted(signed(number) for number in take(drawn(314159265), 20))
    return [2**5 - 1, mixture, 55, 9, moved] + numbers[::2]


def text():
    def mixture(letters):
        value = 5381
        for letter in letters:
            value = 33 * value + letter & MASK
        return value
    room = b"bay 2046, level -3, \xE9t\xE9 -2147483648"
    capitals = bytes(letter - 32 if 97 <= letter <= 122 else letter for letter in room)
    return [len(room), mixture(room), mixture(capitals), mixture(capitals[::-1]), ord("9") - ord("1"), -ord(" "), 0,
            0xE9 - ord("e"), -2**31, 1234567, 0, int.from_bytes(capitals[::-1][:4], "big")]


def checksum():
    data = bytes(number & 255 for number in take(drawn(88172645), 64))
    low = sum(data) % 255
    high = sum((64 - i) * byte for i, byte in enumerate(data)) % 255
    value = 0xCBF29CE484222325
    for byte in data[:32]:
        value = (value ^ byte) * 0x100000001B3 % 2**64
    total = sum((1, 2**64 - 1, 0x1FFFFFFFF, 2**63, 2**32 - 1)) % 2**64
    return [zlib.crc32(data[:24]), zlib.crc32(data), zlib.adler32(data), high << 8 | low, *wide(value), *wide(total)]


def bays():
    taken, shut, signs = [set() for _ in range(4)], [False] * 4, ["F"] * 4
    refused = unknown = shown = 0
    for number in take(drawn(20461115), 120):
        level, kind, bay = number & 3, number >> 3 & 7, (number >> 8 & 15) % 12
        if kind == 7:
            shut[level] = number >> 12 & 1 == 0
        elif kind >= 5:
            unknown -= bay not in taken[level]
            taken[level].discard(bay)
        elif shut[level] or bay in taken[level]:
            refused += 1
        else:
            taken[level].add(bay)
        free = 12 - len(taken[level])
        sign = "-" if shut[level] else "X" if free == 0 else "W" if free < 5 else "F"
        if sign != signs[level]:
            signs[level] = sign
            shown = (shown << 7 & MASK | shown >> 25) + ord(sign) & MASK
    return ([sum(1 << bay for bay in level) for level in taken] + [12 - len(level) for level in taken]
            + [ord(sign) for sign in signs] + [refused, unknown, shown])


def stays():
    """All in minutes."""
    def stay(minutes):
        return [minutes // 1440, minutes // 60 % 24, minutes % 60]
    each = [number & 4095 for number in take(drawn(161803398), 12)]
    total, longest = sum(each), max(each)
    return (stay(total) + stay(longest) + stay((each[0] + each[1]) // 2 + (each[2] + each[3]) // 2)
            + stay(max(longest // 2, each[4], total // 2 // 2)) + [total // 12, total % 12])


def turns():
    """Points as complex numbers; along is the imaginary part."""
    table = [lambda p, by: p + by * 1j, lambda p, by: p - by, lambda p, by: p * 1j if by & 1 else p / 1j,
             lambda p, by: -p.conjugate() if by & 1 else p.conjugate()]
    ways = [0j]
    for number in take(drawn(271828182), 40):
        ways.append(table[number & 3](ways[-1], number >> 2 & 31))
    low = complex(min(p.real for p in ways), min(p.imag for p in ways))
    high = complex(max(p.real for p in ways), max(p.imag for p in ways))
    at, left, up = 100 - 100j, 20, True
    while left > 0:
        at += left * 1j if up else -2 * left - 1
        up, left = (left & 4 != 0, left - 1) if up else (True, left - 2)
    points = [ways[-1], low, high, *(by(by(high, 5 + i), 6 + i) for i, by in enumerate(table)), at]
    return [int(part) for p in points for part in (p.real, p.imag)]


def formula():
    formulas = ["7", "1+2*3", "(1+2)*3", "-5-(2-9)", "2*3*5*7*11*13", "1-(2-(3-4))", "65536*65536-1",
                "(7-10)*(7-10)*-1", "12*(34+56)-78*(9+1)", "4294967295+2"]
    lengths = 0
    for letters in formulas:
        lengths = (lengths << 3 & MASK | lengths >> 29) + len(letters) & MASK
    return [eval(letters) for letters in formulas] + [lengths, 20460 - 60]


def tickets():
    """The last state by the sum of a geometric series."""
    factor, first, prime, modulus = 6364136223846793005, 20461116, 2**31 - 1, 2**32 - 5

    def state(turns):
        power = pow(factor, turns, (factor - 1) << 64)
        return (power * first + (power - 1) // (factor - 1) * 1442695040888963407) % 2**64
    numbers = [state(turn) >> 32 for turn in range(1, 25)]
    product, reduction, every = 1, pow(2, -32 * 24, modulus), 0
    for number in numbers:
        product = product * (number // 2 | 1) % prime
        reduction = reduction * number % modulus
        every ^= number
    products = state(24) * (2**64 - 1 - state(24)), (2**64 - 1)**2
    return [*wide(state(24)), every, product, reduction, pow(7, numbers[0], prime), pow(product, -1, prime), 1,
            *(half for whole in products for number in divmod(whole, 2**64) for half in wide(number))]


def decks():
    """Areas by trapezoids, and the determinant by permutations."""
    numbers = drawn(141421356)
    corners = [tuple(signed(number) >> 3 for number in take(numbers, 2)) for _ in range(9)]
    rows = [[signed(number) >> 18 for number in take(numbers, 4)] for _ in range(4)]

    def area(at):
        return sum((x - u) * (y + v) for (x, y), (u, v) in zip(at, at[1:] + at[:1]))

    def turned(x, y):
        cosine, sine = int(0.6 * 2**30), int(0.8 * 2**30)
        return (cosine * x - sine * y) // 2**30, (sine * x + cosine * y) // 2**30

    def sign(order):
        return (-1)**sum(a > b for at, b in enumerate(order) for a in order[:at])
    determinant = sum(sign(order) * prod(row[at] for row, at in zip(rows, order)) for order in permutations(range(4)))
    longest = max((x - u)**2 + (y - v)**2 for x, y in corners for u, v in corners)
    after = [turned(*turned(*corner)) for corner in corners]
    curves = [3 * at**4 - 14 * at**3 + 159 * at**2 - 2653 * at + 5897 for at in (-4097, 4099)]
    return [*wide(area(corners)), *wide(area(corners[:3])), *wide(longest), *wide(determinant), *wide(area(after)),
            *after[4], *wide(curves[0]), *wide(curves[1])]


def lens():
    """Rounded shifts as divisions by whole numbers."""
    def rounded(number, bits):
        return (number + 2**(bits - 1)) // 2**bits

    def limited(number, bits):
        return max(-2**(bits - 1), min(2**(bits - 1) - 1, number))

    def followed(samples, part):
        at = 0
        for sample in samples:
            at += rounded((2**15 * sample - at) * part, 31)
        return at
    seen = [signed(number, 16) for number in take(drawn(173205080), 30)]
    taps = [-1200, 3100, 9800, 16100, 15900, 9700, 3200, -1100]
    smooth = [0] * 7 + [limited(rounded(sum(a * b for a, b in zip(taps, reversed(seen[at - 7:at + 1]))), 15), 16)
                        for at in range(7, 30)]
    given, out = [0, 0] + [2**16 * sample for sample in seen], [0, 0]
    for at in range(2, 32):
        total = 72429508 * (given[at] + 2 * given[at - 1] + given[at - 2]) + 1227265969 * out[-1] - 443242177 * out[-2]
        out.append(limited(rounded(total, 30), 32))
    mixtures = [0] * 4
    for at, number in enumerate(out[2:]):
        mixtures[at % 4] ^= number
    return [*smooth[29:4:-5], sum(sample in (-2**15, 2**15 - 1) for sample in smooth), *mixtures, out[-1],
            followed(seen, 429496730), followed(smooth, 1288490189), *wide(sum(sample**2 for sample in smooth)),
            -2**31 + 1]


def fees():
    """By divisions."""
    numbers = drawn(223606797)
    each = [115 * -(-(number % 4096) // 60) for number in take(numbers, 10)]
    total, any_number, factor = sum(each), signed(next(numbers)), next(numbers)

    def digits(number):
        return int(str(number)[-8:], 16)

    def seventh(number):
        return abs(number) // 7 * (1 if number > 0 else -1)

    def signs(number):
        return sum(signed(number**times) < 0 for times in range(2, 42))
    amount = total
    for _ in range(30):
        amount = amount * 67502 // 2**16
    high, low = wide(factor * 4042322161)
    return [total, sum((21 * cents + 50) // 100 for cents in each), digits(total), digits(MASK) ^ MASK // 60,
            seventh(-2**31), seventh(2**31 - 1), seventh(any_number), *wide(amount), signs(-3), signs(544),
            high ^ low * 4042322161, 1, factor ^ total ^ -1366, MASK // 100]


PROGRAMS = {maker.__name__: maker
            for maker in (sort, search, functions, choose, recursion, text, checksum, bays, stays, turns, formula,
                          tickets, decks, lens, fees)}


def known(name):
    """The results as 16 words; those that a program does not set are 0."""
    results = [number & MASK for number in PROGRAMS[name]()]
    return results + [0] * (16 - len(results))
