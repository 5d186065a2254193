"""A case as equations for the checker: definitions on the left, the reading's numbers on the right."""
import re
from collections import namedtuple

from cases import FLAGS

Equation = namedtuple("Equation", "name left right")

# Named on an `unfolding` line, `definitions` opens what its own line names: every definition of the crates' specs.
SHOWN = """\
use Prim.Native.Nat.{ℕ, ◌*◌, suc}
use mathlib.Core.List.{List, [], ◌∷◌}
use lib.ListN.{take}
use Rattle.machine.specs.Ends.{Ending}
use Rattle.model.specs.Records.{Rec, Row, rows_in, records_in}
use Rattle.model.specs.Translation.{Handed, answer_numbers}
use Rattle.model.specs.Trails.{Trail, cut, spent, shut, at, Entry, entries, closing, gaps, later}
use Rattle.model.specs.Cores.{Start, new_over, new_begin, steps_for, new_trail_at}

unfoldable pub definitions : Unit {0}
unfolding %s
definitions = tt

-- the answer's numbers, and the bytes of both buffers
abbrev pub handed : Handed → List (List ℕ)
handed h = answer_numbers h.answer ∷ h.places ∷ h.records ∷ []

-- what closes a trail: the cut, the count of steps, or an end
abbrev pub closed_by : Trail → ℕ
closed_by cut = 0
closed_by spent = 1
closed_by (shut e) = 2
closed_by (at gap a m t) = closed_by t

-- a trail as demand 3 takes it apart, with the steps that lead to each entry, the first included
pub record Shown : Type 0 where
  pub entered : List Entry
  pub closed : Ending
  pub between : List ℕ
  pub before : List ℕ
  pub by : ℕ

abbrev pub shown : List Entry → Ending → List ℕ → List ℕ → ℕ → Shown
shown es e between before c = record { entered = es; closed = e; between = between; before = before; by = c }

abbrev pub showing : Trail → Shown
showing t = shown (entries t) (closing t) (gaps t) (later t) (closed_by t)

-- what the new core reads in both tables, and its trail over them
pub record Over : Type 0 where
  pub rows : List Row
  pub list : List (Rec ℕ)
  pub trail : Shown

abbrev pub over : List Row → List (Rec ℕ) → Shown → Over
over rs l t = record { rows = rs; list = l; trail = t }

-- "Over a translation it is given just the places and records counted, no zeros past them."
abbrev pub translated : ℕ → ℕ → ℕ → ℕ → ℕ → ℕ → Start → Handed → Over
translated place_count record_count base size db k x h =
    let places = take (16 * place_count) h.places in
    let records = take (12 * record_count) h.records in
    over (rows_in places) (records_in records)
    (showing (new_trail_at (new_over records places base size db) (steps_for k) k x.address (new_begin places base size x)))

-- any tables: "there the trail is that of a run of a given count"
abbrev pub malformed : ℕ → ℕ → ℕ → ℕ → Start → List ℕ → List ℕ → Over
malformed base size db count x places records =
    over (rows_in places) (records_in records)
    (showing (new_trail_at (new_over records places base size db) count (suc (suc count)) x.address (new_begin places base size x)))
"""

BATCH = """\
use Prim.Native.Nat.{ℕ}
use mathlib.Core.Path.{◌≡◌, refl}
use mathlib.Core.List.{List, [], ◌∷◌}
use lib.ListN.{length}
use Rattle.machine.specs.Ends.{ending}
use Rattle.effects.specs.Effect.{machine}
use Rattle.model.specs.Records.{do_word, link, hold, go_if, go_to, go_held, stop, unknown, row}
use Rattle.model.specs.Translation.{Handed, translation}
use Rattle.model.specs.Trails.{entry}
use Rattle.model.specs.Cores.{Start, old_over, old_begin, trail_of}
use Rattle.equations.specs.Shown.{definitions, handed, shown, showing, over, translated, malformed}
"""

CUT, SPENT, SHUT = 0, 1, 2
# A record's constructor by its kind, and how many of its two numbers it names.
RECORDS = {1: ("do_word", 1), 2: ("link", 1), 3: ("hold", 2), 4: ("go_if", 2), 5: ("go_to", 1), 6: ("go_held", 0),
           7: ("stop", 2)}


def listed(terms):
    return "(" + "".join(f"{term} ∷ " for term in terms) + "[])"


def bytes_of(rows):
    return [byte for row in rows for number in row for byte in number.to_bytes(4, "big")]


def buffer(rows, length):
    """A lent buffer: the numbers' bytes, and zeros past them."""
    used = bytes_of(rows)
    return used + [0] * (length - len(used))


def record_term(numbers):
    """A record of any three numbers; of one that its kind does not name nothing is kept."""
    name, named = RECORDS.get(numbers[0], ("unknown", 0))
    return " ".join(["(" + name, *map(str, numbers[1:1 + named])]) + ")"


def rows_in(table, size):
    """The rows of so many numbers that a table of bytes has; a tail is not counted."""
    numbers = [int.from_bytes(table[at:at + 4], "big") for at in range(0, len(table) - 3, 4)]
    return [numbers[at:at + size] for at in range(0, len(numbers) - size + 1, size)]


def over_term(places, records, trail):
    rows = ["row " + " ".join(map(str, row)) for row in places]
    return f"over {listed(rows)} {listed(map(record_term, records))} ({trail})"


def trail_term(case, name, without_end):
    """A trail's entries, how it closes, the steps between and before them, and what closes it.

    An entry's registers are 162 numbers: behind the 32 stand Y, the nesting and the windows.
    """
    entries = [f"entry {row[0]} (machine {listed(row[1:FLAGS])} {row[FLAGS]} {listed(row[FLAGS + 1:])})"
               for row in case.lines[name]]
    end, number = case.lines[name + "_close"]
    between = case.lines[name + "_steps"][:-1]
    before = [0, *between] if entries else []
    closed_by = SHUT if end else without_end
    return f"shown {listed(entries)} (ending {end} {number}) {listed(between)} {listed(before)} {closed_by}"


def abbreviation(name, kind, term):
    return f"abbrev {name} : {kind}\n{name} = {term}\n"


def given(case):
    """What the equations of a case have in common."""
    n = case.number
    registers = case.registers + case.y + case.nesting + case.windows
    start = (f"record {{ address = {case.address[0]}; registers = {listed(registers)};"
             f" flags = {case.flags[0]}; area = {listed(case.data)} }}")
    handed = f"translation image-{n} {case.base[0]} entries-{n} {case.places_length[0]} {case.records_length[0]}"
    yield abbreviation(f"image-{n}", "List ℕ", listed(bytes_of([case.image]) + case.image_tail))
    yield abbreviation(f"entries-{n}", "List ℕ", listed(bytes_of([case.entries]) + case.entries_tail))
    yield abbreviation(f"start-{n}", "Start", start)
    yield abbreviation(f"handed-{n}", "Handed", handed)


def equations(case):
    n, base, db, cut = case.number, case.base[0], case.data_base[0], case.cut[0]
    places, records = buffer(case.place, case.places_length[0]), buffer(case.record, case.records_length[0])
    yield Equation(f"answer-{n}", f"handed handed-{n}", listed(map(listed, (case.answer, places, records))))
    old = f"trail_of (old_over image-{n} {base} {db}) {cut} (old_begin start-{n})"
    yield Equation(f"old-{n}", f"showing ({old})", trail_term(case, "old", CUT))
    if case.accepted:
        counts = f"{case.answer[1]} {case.answer[2]}"
        left = f"translated {counts} {base} (length image-{n}) {db} {cut} start-{n} handed-{n}"
        yield Equation(f"new-{n}", left, over_term(case.place, case.record, trail_term(case, "new", CUT)))
    if case.has("malformed_close"):
        places, records = case.malformed_places, case.malformed_records
        left = (f"malformed {base} (length image-{n}) {db} {case.malformed_count[0]} start-{n}"
                f" {listed(places)} {listed(records)}")
        right = over_term(rows_in(places, 4), rows_in(records, 3), trail_term(case, "malformed", SPENT))
        yield Equation(f"malformed-{n}", left, right)


def written(equation):
    return f"{equation.name} : {equation.left} ≡ {equation.right}\nunfolding definitions\n{equation.name} = refl\n"


def spoiled(equations, random):
    """The same equations with one number on the right of one of them made one more."""
    places = [(at, found) for at, equation in enumerate(equations) for found in re.finditer(r"\d+", equation.right)]
    at, found = random.choice(places)
    right = equations[at].right
    right = f"{right[:found.start()]}{int(found.group()) + 1}{right[found.end():]}"
    return [*equations[:at], equations[at]._replace(right=right), *equations[at + 1:]], equations[at].name
