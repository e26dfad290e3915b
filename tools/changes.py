"""One-place changes of the definitions in the crates' specs, each made by a rule."""

import hashlib
import re
from collections import namedtuple

from antt import Definitions, Edit, Source, pieces

# The names of the prover's library that have siblings, or an argument of their result's type. A blank line parts the families.
LIBRARY = """
eqb : ℕ → ℕ → Bool
ltb : ℕ → ℕ → Bool
leb : ℕ → ℕ → Bool

nat_eq : ℕ → ℕ → Bool
nat_lt : ℕ → ℕ → Bool
nat_le : ℕ → ℕ → Bool

take : ℕ → List ℕ → List ℕ
drop : ℕ → List ℕ → List ℕ

true : Bool
false : Bool

not : Bool → Bool

suc : ℕ → ℕ

set : List ℕ → ℕ → ℕ → List ℕ

get_or : List ℕ → ℕ → ℕ → ℕ

length : List ℕ → ℕ
"""
PRELUDE = "Rattle.std.specs.Prelude"
COND = ["Bool", "A", "A", "A"]
OTHER_OPERATOR = {"&&": "||", "||": "&&", "+": "-", "-": "+", "*": "+", "/": "%", "%": "/", "^": "*", "≤": "<", "<": "≤"}
EVEN = {"eqb", "nat_eq", "same"}  # an exchange of their arguments means the same, and so does one of the rows of `commands`
NOTHING = {"ℕ": "0", "List ℕ": "[]", "Bool": "false", "Transfer": "closed", "Buffer": "emptied"}


def near(names, name):
    """The next one and the one before, round the end."""
    at = names.index(name)
    return sorted({names[(at + step) % len(names)] for step in (1, -1)} - {name})


def grouped(text):
    return f"({text})" if " " in text else text


def brought(s, *names):
    return s.needing(**{name: PRELUDE for name in names})


# ---- the rules: each takes the definitions d, a file s, an equation e and a piece n of its right side. It yields edits, each with what
# else the file then needs.

def a_number_for_its_neighbour(d, s, e, n):
    if n.kind == "number":
        for value in (int(n.more, 0) + 1, int(n.more, 0) - 1):
            if value >= 0:
                yield Edit(n.start, n.end, f"0x{value:02x}" if n.more.startswith("0x") else str(value)), []


def a_name_for_its_sibling(d, s, e, n):
    """A sibling is declared with it, and before the equation, has its type, and is not the same number."""
    for family in d.families if n.kind == "name" and n.more not in e.types else []:
        if n.more in family:
            known = family[:family.index(e.name)] if e.name in family else family
            alike = [name for name in known if d.types[name] == d.types[n.more] and d.values.get(name, name) != d.values.get(n.more)]
            for name in near(sorted({*alike, n.more}, key=family.index), n.more):
                yield Edit(n.start, n.end, name), s.importing(name, n.more)
    for name in ("nat_lt", "nat_le") if n.kind == "chain" and n.more[0].text == "==" else []:
        yield Edit(n.start, n.end, " ".join([name, *(grouped(s.of(part)) for part in n.parts)])), brought(s, name)


def an_operator_for_its_sibling(d, s, e, n):
    for sign in n.more if n.kind == "chain" else []:
        if other := OTHER_OPERATOR.get(sign.text):
            yield Edit(sign.start, sign.end, other), s.importing(f"◌{other}◌", f"◌{sign.text}◌")


def a_field_for_its_sibling(d, s, e, n):
    if n.kind == "field":
        field, record = n.more.text[1:], d.records.get(d.type_of(n.parts[0], e.types), {})
        if field in record:
            for other in near([f for f in record if record[f] == record[field]], field):
                yield Edit(n.more.start, n.more.end, "." + other), []


def a_variable_for_its_sibling(d, s, e, n):
    if n.kind == "name" and e.types.get(n.more):
        for other in near([v for v in e.types if e.types[v] == e.types[n.more]], n.more)[:1]:
            yield Edit(n.start, n.end, other), []


def a_part_left_out(d, s, e, n):
    """A test, a row, an element, a premise, or one side of an operator."""
    if n.kind == "chain" and n.more[0].text not in (",", "≡", "≢", "≤", "<", "=="):
        for part, following, sign in zip(n.parts, n.parts[1:], n.more):
            if sign.text not in "-/%^" and part.kind != "binder":
                yield Edit(part.start, following.start, ""), []
        if n.more[-1].text not in "∷→":
            yield Edit(n.parts[-2].end, n.end, ""), []


def two_neighbours_exchanged(d, s, e, n):
    """Two tests, elements, arguments of one type, branches of a cond, or fields of one type."""
    if n.kind == "chain" and e.name != "commands":
        parts, signs = list(n.parts), [sign.text for sign in n.more]
        while parts[-1].kind == "group" and parts[-1].parts[0].kind == "chain" and signs[-1] in ("∷", "++"):
            inner = parts.pop().parts[0]
            parts, signs = parts + inner.parts, signs + [sign.text for sign in inner.more]
        pairs = [(a, b) for a, b, sign, behind in zip(parts, parts[1:], signs, signs[1:] + [""]) if sign == "++" or sign == behind == "∷"]
    elif n.kind == "apply" and (head := s.of(n.parts[0])) not in EVEN:
        kinds = COND if head == "cond" else d.types.get(head, [])
        pairs = [(a, b) for a, b, one, other in zip(n.parts[1:], n.parts[2:], kinds, kinds[1:]) if one == other]
    elif n.kind == "record":
        kinds = next((record for record in d.records.values() if set(record) == set(n.more)), {})
        pairs = [(a, b) for a, b, one, other in zip(n.parts, n.parts[1:], n.more, n.more[1:]) if kinds and kinds[one] == kinds[other]]
    else:
        pairs = []
    for a, b in pairs:
        if not a.kind == b.kind == "number" or int(a.more, 0) != int(b.more, 0):
            yield Edit(a.start, b.end, s.of(b) + s.text[a.end:b.start] + s.of(a)), []


def an_argument_for_the_whole(d, s, e, n):
    """`f x y` becomes x or y, where that has the whole's type: a `not` or a `with..` is dropped, a `cond` is decided."""
    if n.kind == "apply":
        head = s.of(n.parts[0])
        *kinds, result = COND if head == "cond" else d.types.get(head, [""])
        for part, kind in zip(n.parts[1:], kinds):
            if kind == result and len(kinds) == len(n.parts) - 1:
                yield Edit(n.start, n.end, s.of(part)), []


def a_constructor_for_one_that_takes_nothing(d, s, e, n):
    if n.kind == "apply" and (head := s.of(n.parts[0])) in d.constructors:
        for name in [c for c in d.constructors[head] if len(d.types[c]) == 1][:1]:
            yield Edit(n.start, n.end, name), s.importing(name, head)


def a_not_added(d, s, e, n):
    if n.kind == "chain" and n.more[0].text in ("&&", "||", ","):
        for test in n.parts[:1] if n.more[0].text == "," else n.parts:
            if not s.of(test).startswith("not "):
                yield Edit(test.start, test.end, f"not ({s.of(test)})"), brought(s, "not")


def a_part_of_a_record_kept_or_lost(d, s, e, n):
    """Where a function makes a record of all its fields: a new field becomes the old one, and an old one becomes nothing."""
    *kinds, result = d.types.get(s.of(n.parts[0]), [""]) if n.kind == "apply" else [""]
    fields, old = d.records.get(result, {}), [v for v, kind in e.types.items() if kind == result]
    if old and kinds == list(fields.values()):
        for (field, kind), part in zip(fields.items(), n.parts[1:]):
            if s.of(part) != f"{old[0]}.{field}":
                yield Edit(part.start, part.end, f"{old[0]}.{field}"), []
            elif kind in NOTHING:
                yield Edit(part.start, part.end, NOTHING[kind]), [] if kind == "ℕ" else s.importing(NOTHING[kind], kind.split()[0])


def a_row_added(d, s, e, n):
    """A seventeenth command: the first row or the last once more, under a code that no row has."""
    if e.name == "commands" and n is e.right:
        new = max(int(s.of(row).split()[1], 0) for row in n.parts[:-1]) + 1
        for row in (n.parts[0], n.parts[-2]):
            yield Edit(n.parts[-1].start, n.parts[-1].start, re.sub("0x..", hex(new), s.of(row), count=1) + " ∷ "), []


RULES = [a_number_for_its_neighbour, a_name_for_its_sibling, an_operator_for_its_sibling, a_field_for_its_sibling,
         a_variable_for_its_sibling, a_part_left_out, two_neighbours_exchanged, an_argument_for_the_whole,
         a_constructor_for_one_that_takes_nothing, a_not_added, a_part_of_a_record_kept_or_lost, a_row_added]

# ---- the same changes at one value only: one capacity, one buffer, one identifier, pages and bits from 256 on

VALUES = 0, 1, 2, 8, 255, 256, 999, 1000


def tests_at(d, s, e, n):
    """What tells one value from others at a piece: of each boolean and each number of the equation that is known there, its tests."""
    outside = {let.more for let in pieces(e.right) if let.kind == "let" and not let.parts[1].start <= n.start < let.parts[1].end}
    tests = {}
    for piece in [*(part for part in pieces(e.left) if part.kind == "name"), *pieces(e.right)]:
        text, names = grouped(s.of(piece)), {part.more for part in pieces(piece) if part.kind == "name"}
        if not names & {*e.types} or names & outside or piece.start <= n.start and n.end < piece.end or text.startswith("(cond "):
            continue
        kind = d.type_of(piece, e.types)
        if kind == "Bool" and piece.kind in ("name", "field"):
            tests[text] = [text]
        elif kind == "ℕ" and piece.kind in ("name", "field", "apply"):
            tests[text] = [f"(eqb {text} {value})" for value in VALUES] + [f"(leb 256 {text})"]
    return tests


def at_one_value(d, s, e, edit, seed):
    """A change of another rule at one value, drawn by the seed: a test decides the smallest piece around it that is a number or a boolean."""
    around = [n for n in pieces(e.right) if n.start <= edit.start and edit.end <= n.end and n.kind != "group" and d.type_of(n, e.types) in ("ℕ", "Bool")]
    for n in sorted(around, key=lambda n: n.end - n.start)[:1]:
        new = s.text[n.start:edit.start] + edit.text + s.text[edit.end:n.end]
        key = f"{seed} {s.name} {s.of(e.left)} {edit.start - e.left.start} {new}"
        for _, tests in sorted(tests_at(d, s, e, n).items(), key=lambda known: mixed(key, known[0]))[:1]:
            test = min(tests, key=lambda test: mixed(key, test))
            yield Edit(n.start, n.end, f"(cond {test} {grouped(new)} {grouped(s.of(n))})"), brought(s, "cond", *{"eqb", "leb"} & {test[1:4]})


# ---- the fields of a record: each left out; and of one with arguments, whose fields are facts, another fact added that narrows it

def a_field_less(d, s, r):
    for fact in r.facts:
        yield Edit(fact.left.start - 1, fact.right.end, ""), []


def a_field_more(d, s, r):
    """The next number in place of a fact's own, or an argument that is nothing."""
    for fact in r.facts if r.arguments else []:
        if fact.right.kind == "chain" and fact.right.more[0].text in "≡≤<":
            (low, high), sign = fact.right.parts, fact.right.more[0].text
            if d.type_of(high, fact.types) == "ℕ":
                low, high = (s.of(low), f"suc {grouped(s.of(high))}") if sign == "≡" else (f"suc {grouped(s.of(low))}", s.of(high))
                yield Edit(r.end, r.end, f"\n  pub more : {low} {sign} {high}"), brought(s, "suc")
    for name, kind in r.arguments.items():
        for number in numbers_of(d, name, kind)[:1]:
            yield Edit(r.end, r.end, f"\n  pub more : {number} ≡ 0"), brought(s, "◌≡◌", *{"length"} & {number.split()[0]})


def numbers_of(d, name, kind):
    """The numbers in an argument: itself, its length, or those in its fields."""
    if kind in ("ℕ", "List ℕ"):
        return [name if kind == "ℕ" else f"length {name}"]
    return [number for field, inner in d.records.get(kind, {}).items() if inner != "List ℕ" for number in numbers_of(d, f"{name}.{field}", inner)]


# ---- the changes. The key names a change where line and number may move.

Change = namedtuple("Change", "number crate file line column definition rule old new edits key")


def shown(c):
    return f"#{c.number} {c.crate}/{c.file}:{c.line}:{c.column} {c.definition}: {c.rule}: `{c.old}` -> `{c.new}`"


def applied(text, edits):
    for start, end, new in sorted(edits, reverse=True):
        text = text[:start] + new + text[end:]
    return text


def mixed(seed, key):
    """A place in an order that is fixed by a seed."""
    return hashlib.sha256(f"{seed} {key}".encode()).digest()


def crates_of(root):
    """The crates that have definitions, each with those that it stands on."""
    lines = [line.split("#")[0].split(":") for line in (root / "crates.txt").read_text(encoding="utf-8").split("\n")]
    deps = {line[0].strip(): line[1].split() for line in lines if len(line) == 2}
    return {name: [dep for dep in deps[name] if dep in deps] for name in deps if (root / "crates" / name / "specs").is_dir()}


def made_in(d, s, seed):
    """The changes of a file: where each counts from, its name, its edit, what else the file then needs, and its rule."""
    for r in d.records_of(s):
        for rule in (a_field_less, a_field_more):
            for edit, needs in rule(d, s, r):
                yield r.facts[0].left, r.name, edit, needs, rule
    for e in [*d.equations(s), *(fact for r in d.records_of(s) if r.arguments for fact in r.facts)]:
        for edit, needs, rule in [(*made, rule) for n in pieces(e.right) for rule in RULES for made in rule(d, s, e, n)]:
            yield e.left, e.name, edit, needs, rule
            for corner, more in at_one_value(d, s, e, edit, seed):
                yield e.left, e.name, corner, [*{*needs, *more}], at_one_value


def all_changes(root, seed):
    """Every change, in the order of the crates, the files and the places in them. What two rules make alike is there once."""
    found, seen = [], set()
    for crate, deps in crates_of(root).items():
        d = Definitions(LIBRARY)
        for known in [*deps, crate]:
            for path in sorted((root / "crates" / known / "src").rglob("*.rt")):
                d.of_code(path.read_text(encoding="utf-8"))
            sources = [Source(path) for path in sorted((root / "crates" / known / "specs").glob("*.antt"))]
            for s in sources:
                d.of_file(s)
        for s in sources:
            for left, name, edit, needs, rule in sorted(made_in(d, s, seed), key=lambda made: made[2]):
                text = applied(s.text, [edit, *needs])
                form = crate, s.name, re.sub(r"\((\([^()]*\))\)", r"\1", text)
                if text != s.text and form not in seen:
                    seen.add(form)
                    old, new = (" ".join(words.split()) for words in (s.text[edit.start:edit.end], edit.text))
                    key = f"{crate} {s.name} {s.of(left)} {edit.start - left.start} {old} {new}"
                    line, column = s.text.count("\n", 0, edit.start) + 1, edit.start - s.text.rfind("\n", 0, edit.start)
                    rule = rule.__name__.replace("_", " ")
                    found.append(Change(len(found) + 1, crate, s.name + ".antt", line, column, name, rule, old, new, [edit, *needs], key))
    return found
