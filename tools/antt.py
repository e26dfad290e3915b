"""Reads files of antt: what definitions declare, each equation and each fact as a tree whose pieces know their places in the text, and theorems."""

import re
import sys
from collections import namedtuple

TOKEN = re.compile(r"--[^\n]*|λ[^.]*\.|(?<=[\w')])\.\w+'*|0x[0-9a-fA-F]+|\d+|\[\]|&&|\|\||\+\+|==|[-∷+*/%^,;=(){}]|[^\W\d]\w*'*|\S")
LEVELS = [",", "→", "×", "≡ ≢ ≤ <", "∷ ++", "||", "&&", "==", "+ -", "* / %", "^"]  # operators, from the loosest to the tightest
RESULTS = {**dict.fromkeys(["||", "&&", "=="], "Bool"), **dict.fromkeys("+-*/%^", "ℕ")}
WORDS = {"let", "in", "record"}

Token = namedtuple("Token", "text start end")

# A piece of an equation. Its kind is number, name, nil, implicit, group, binder, record, apply, field, chain, let or lambda; its parts are the pieces
# inside it; more is what is no piece: a number's or a name's text, the name that a let binds, those that a binder binds and their type,
# a chain's operators, a record's field names, a projection's field.
Node = namedtuple("Node", "kind start end parts more")


class Parser:
    """Reads the expression between two places of a text. Raises SyntaxError at a form that it does not know."""

    def __init__(self, text, start, end):
        self.tokens = [Token(m.group(), m.start(), m.end()) for m in TOKEN.finditer(text, start, end) if not m.group().startswith("--")]
        self.text, self.at = text, 0

    def peek(self):
        return self.tokens[self.at].text if self.at < len(self.tokens) else ""

    def take(self, wanted=None):
        if not self.peek() or wanted and self.peek() != wanted:
            raise SyntaxError(self.peek())
        self.at += 1
        return self.tokens[self.at - 1]

    def whole(self):
        node = self.chain(0)
        if self.peek():
            raise SyntaxError(self.peek())
        return node

    def chain(self, level):
        if level == len(LEVELS):
            return self.application()
        parts, operators = [self.chain(level + 1)], []
        while self.peek() in LEVELS[level].split():
            operators.append(self.take())
            parts.append(self.chain(level + 1))
        return Node("chain", parts[0].start, parts[-1].end, parts, operators) if operators else parts[0]

    def application(self):
        if self.peek() == "let":
            return self.binding()
        if self.peek().startswith("λ"):
            start, body = self.take().start, self.chain(0)
            return Node("lambda", start, body.end, [body], None)
        parts = [self.projected()]
        while self.starts_atom():
            parts.append(self.projected())
        return Node("apply", parts[0].start, parts[-1].end, parts, None) if parts[1:] else parts[0]

    def projected(self):
        """A projection stands tight behind what it is of: `f x.field` is f of the field of x."""
        node = self.atom()
        while re.match(r"\.\w", self.peek()):
            field = self.take()
            node = Node("field", node.start, field.end, [node], field)
        return node

    def binding(self):
        start, name = self.take("let").start, self.take().text
        while self.peek() != "=":
            self.take()  # its type, if it has one
        self.take("=")
        bound = self.chain(0)
        self.take("in")
        body = self.chain(0)
        return Node("let", start, body.end, [bound, body], name)

    def starts_atom(self):
        text = self.peek()
        return text in ("(", "{", "[]", "record") or text[:1].isdigit() or is_name(text)

    def atom(self):
        token = self.take()
        if token.text == "(":
            bound = self.binder()
            inside = [] if bound else [self.chain(0)]
            return Node("binder" if bound else "group", token.start, self.take(")").end, inside, bound)
        if token.text == "{":
            while self.peek() != "}":
                self.take()
            return Node("implicit", token.start, self.take().end, [], None)
        if token.text == "record":
            return self.record(token.start)
        if token.text == "[]" or token.text[0].isdigit() or is_name(token.text):
            kind = "nil" if token.text == "[]" else "number" if token.text[0].isdigit() else "name"
            return Node(kind, token.start, token.end, [], token.text)
        raise SyntaxError(token.text)

    def binder(self):
        """The names and the type of `x y : T`, up to the parenthesis behind them; None where no such thing stands here."""
        found = re.compile(r"([^():]+) : ((?:[^()]|\([^()]*\))*)\)").match(self.text, self.tokens[self.at].start)
        while found and self.tokens[self.at].start < found.end() - 1:
            self.at += 1
        return found and (found[1].split(), found[2])

    def record(self, start):
        self.take("{")
        parts, fields = [], []
        while self.peek() != "}":
            fields.append(self.take().text)
            self.take("=")
            parts.append(self.chain(0))
            if self.peek() == ";":
                self.take()
        return Node("record", start, self.take("}").end, parts, fields)


def is_name(text):
    return text == "⊥" or text[:1].isalpha() and text[0] != "λ" and text not in WORDS


def pieces(node):
    yield node
    for part in node.parts:
        yield from pieces(part)


def arrows(text):
    """The types between the arrows of a type, those in parentheses apart."""
    depth, parts = 0, [""]
    for word in re.split(r"(→|[()])", text):
        depth += {"(": 1, ")": -1}.get(word, 0)
        if word == "→" and depth == 0:
            parts.append("")
        else:
            parts[-1] += word
    return [" ".join(part.split()) for part in parts]


def arguments(record):
    """The arguments of a record that is declared so, and their types."""
    return {name: kind for names, kind in re.findall(r"\(([^():]+) : ([^()]+)\)", record.split(" where")[0]) for name in names.split()}


Edit = namedtuple("Edit", "start end text")
Equation = namedtuple("Equation", "name left right types")  # types: of its variables, where they are known
Record = namedtuple("Record", "name arguments facts end")  # facts: an Equation for each field, if it has arguments; end: behind the last one


class Source:
    """One file of definitions, in blocks that each start at the left margin."""

    def __init__(self, path):
        self.name, self.text = path.stem, path.read_text(encoding="utf-8")
        starts = [m.start() for m in re.finditer(r"^\S", self.text, re.M)] + [len(self.text)]
        self.blocks = [(a, self.text[a:b].rstrip()) for a, b in zip(starts, starts[1:]) if not self.text.startswith("--", a)]
        self.uses = [(found[1], a + found.end(2), set(re.split(r"[\s,]+", found[2])))
                     for a, block in self.blocks if (found := re.fullmatch(r"use (.*)\.\{(.*)\}", block, re.S))]

    def of(self, node):
        return self.text[node.start:node.end]

    def importing(self, name, beside):
        """What brings a name in from the module that another name of this file comes from."""
        return [Edit(end, end, ", " + name) for _, end, names in self.uses if beside in names and name not in names]

    def needing(self, **modules):
        """What brings names in, each from its module of the prover's library."""
        return [edit for name, module in modules.items() if not any(name in names for _, _, names in self.uses)
                for edit in [Edit(end, end, ", " + name) for known, end, _ in self.uses if known == module] or [Edit(0, 0, f"use {module}.{{{name}}}\n")]]


class Definitions:
    """What some files of definitions declare."""

    def __init__(self, library):
        self.types = {}         # of each name: its arguments' types and its result's
        self.families = []      # names that are declared together, in order
        self.constructors = {}  # of each one: all of its type
        self.records = {}       # of each one: its fields and their types
        self.values = {}        # of the names that are numbers
        for group in library.strip().split("\n\n"):
            self.family(line.split(" : ") for line in group.split("\n"))

    def of_file(self, source):
        declared = []
        for _, block in source.blocks:
            head, *lines = block.split("\n")
            inside = re.findall(r"^ +(?:pub )?(\S+) : (.+)$", "\n".join(lines), re.M)
            if found := re.match(r"(?:pub )?(data|record) (\w+)", head):
                if found[1] == "record":
                    self.records[found[2]] = dict(inside)
                    self.types[found[2]] = [*arguments(block).values(), "Type 0"]
                else:
                    self.variants(inside)
            elif found := re.fullmatch(r"(\w+) = (0x[0-9a-f]+|\d+)", block):
                self.values[found[1]] = int(found[2], 0)
            elif found := re.fullmatch(r"(?:(?:unfoldable|abbrev|pub) )*(\S+) : (.*)", block, re.S):
                declared.append(found.groups())
        self.family(declared)

    def of_code(self, text):
        """The enums and structs of the code that the definitions name."""
        kinds = {"usize": "ℕ", "u8": "ℕ", "u16": "ℕ", "bool": "Bool", "[u8": "List ℕ"}
        for shape, name, body in re.findall(r"pub (enum|struct) (\w+) \{\n(.*?)\n\}", text, re.S):
            if shape == "struct":
                self.records[name] = {field: kinds.get(kind, kind) for field, kind in re.findall(r"pub (\w+): ([^,;\n]+)", body)}
            else:
                self.variants([(variant, "ℕ → " * fields.count(":") + name) for variant, fields in re.findall(r"(\w+)(?: \{(.*?)\})?,", body)])

    def variants(self, declared):
        self.family(declared)
        self.constructors.update((name, [other for other, _ in declared]) for name, _ in declared)

    def family(self, declared):
        names = [(name, arrows(kind)) for name, kind in declared]
        self.types.update(names)
        self.families.append([name for name, _ in names])

    def parsed(self, source, start, end):
        """The piece between two places; None, with a word about it, where its form is not known."""
        try:
            return Parser(source.text, start, end).whole()
        except SyntaxError as form:
            print(f"{source.name}.antt: passed over, for the form at '{form}': {source.text[start:end].splitlines()[0]}", file=sys.stderr)

    def equations(self, source):
        for start, block in source.blocks:
            sign, name = re.search(r"\s=\s", block), block.split()[0]
            if not sign or name in ("pub", "use", "unfoldable", "abbrev"):
                continue
            left, right = self.parsed(source, start, start + sign.start()), self.parsed(source, start + sign.end(), start + len(block))
            if left and right:
                types = {}
                self.bind(left.parts[1:], self.types.get(name, []), types)
                yield self.equation(name, left, right, types)

    def equation(self, name, left, right, types):
        for piece in pieces(right):
            if piece.kind == "let":
                types[piece.more] = self.type_of(piece.parts[0], types)
            elif piece.kind == "binder":
                types.update(dict.fromkeys(*piece.more))
        return Equation(name, left, right, types)

    def records_of(self, source):
        for start, block in source.blocks:
            if not (head := re.match(r"pub record (\S+) ", block)):
                continue
            known, facts = arguments(block), []
            for field in re.finditer(r"^  pub (\S+) : (.*?)(?=\n  \S|\Z)", block, re.M | re.S):
                left = Node("name", start + field.start(), start + field.end(1), [], field[1])
                right = self.parsed(source, start + field.start(2), start + field.end())
                if right:
                    facts.append(self.equation(head[1], left, right, dict(known)))
            yield Record(head[1], known, facts, start + len(block))

    def bind(self, patterns, kinds, types):
        """Finds the types of the variables in patterns."""
        for pattern, kind in zip(patterns, kinds):
            inner = pattern.parts[0] if pattern.kind == "group" else pattern
            if inner.kind == "name" and inner.more not in self.constructors and inner.more not in ("zero", "true", "false"):
                types[inner.more] = kind
            elif inner.kind == "apply":
                self.bind(inner.parts[1:], self.types.get(inner.parts[0].more, []), types)
            elif inner.kind == "chain" and kind.startswith("List "):
                self.bind(inner.parts, [kind.removeprefix("List ").strip("()"), kind], types)

    def type_of(self, node, types):
        """The type of a piece, where it is known: of a number, a variable, a constant, a field, a function with all its arguments, and what is made of these."""
        if node.kind in ("group", "let"):
            return self.type_of(node.parts[-1], types)
        if node.kind in ("number", "chain"):
            return "ℕ" if node.kind == "number" else RESULTS.get(node.more[0].text)
        if node.kind == "field":
            return self.records.get(self.type_of(node.parts[0], types), {}).get(node.more.text[1:])
        head, *rest = node.parts if node.kind == "apply" else [node]
        if head.kind != "name":
            return None
        if head.more == "cond" and len(rest) == 3:
            return self.type_of(rest[1], types) or self.type_of(rest[2], types)
        kind = types.get(head.more) or ""
        known = arrows(kind[1:-1] if kind.startswith("(") else kind) if head.more in types else self.types.get(head.more, [])
        return known[-1] if len(known) == len(rest) + 1 else None


# ---- theorems

DECLARED = re.compile(r"( *)((?:unfoldable |abbrev |pub )*)(?:(record|data) \w|([^\s(){}]+) : )")


def theorems(text):
    """The lines of a file's public theorems, each with the theorem's name and whether it is of the proof. Neither fields nor what is below a `where` is one."""
    lines, name, depth, proof, below, block = {}, None, 0, False, False, None
    for number, line in enumerate(text.split("\n"), 1):
        indent = len(line) - len(line.lstrip())
        if not line or block is not None and indent > block or below and indent > depth:
            continue
        found, block = DECLARED.match(line), None
        if found:
            name, depth, proof, block = found[4] if found[2] == "pub " else None, indent, False, indent if found[3] else None
        elif indent <= depth:
            proof = True
        below = line.strip() == "where"
        if name and not below:
            lines[number] = name, proof
    return lines
