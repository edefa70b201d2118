"""Small changes of a program, made by rule from its syntax tree: each makes one fact or one rule of it another.

A change is named by its line, the function or the name that it stands in, its kind, and what it makes of what. The same text always gives
the same changes, in the order of the text. Left out by rule is what no answer is made of: documentation, annotations, imports, `assert`,
the counts of what was met (COUNTED), and the words of a cause that only a person reads (WORDS_OF).
"""
import ast
import re
from collections.abc import Callable, Iterator, Sequence
from dataclasses import dataclass
from functools import partial

# Attributes that count what was met, for those who ask whether enough was tried.
COUNTED = {"visits", "met", "refusals", "dropped", "seen"}
# How a value in a text is laid out.
WIDTH = re.compile(r"[<>^]?0?[0-9]+[a-z]?")
# Calls whose texts only a person reads.
WORDS_OF = {"need", "Unsound", "AssertionError", "ValueError", "ImportError", "TypeVar"}


@dataclass(frozen=True)
class Change:
    """What is made another, and how: `make` makes it in the tree that it was found in."""

    line: int
    place: str
    kind: str
    old: str
    new: str
    make: Callable[[], None]

    @property
    def name(self) -> str:
        """The change in words, without its line."""
        return f"{self.place}: {self.kind}: {self.old} -> {self.new}"


@dataclass(frozen=True)
class Spot:
    """A node of a tree: where it stands, as a field of its parent, and in what."""

    node: ast.AST
    parent: ast.AST
    field: str
    at: int | None
    place: str

    def put(self, node: ast.AST | None) -> None:
        """Puts another node there; none takes a statement out."""
        if self.at is None:
            setattr(self.parent, self.field, node)
        else:
            getattr(self.parent, self.field)[self.at] = ast.Pass() if node is None else node
        if node is not None:
            ast.copy_location(node, self.node)
        ast.fix_missing_locations(self.parent)

    def change(self, kind: str, new: ast.AST | None) -> Change:
        """The change that puts another node there."""
        return Change(line_of(self.node), self.place, kind, told(self.node), told(new), lambda: self.put(new))


def line_of(node: ast.AST) -> int:
    """Where a node stands."""
    return int(getattr(node, "lineno", 0))


def told(node: ast.AST | None) -> str:
    """A node in one short line."""
    text = "nothing" if node is None else re.sub(r"\s+", " ", ast.unparse(ast.fix_missing_locations(node)))
    return text if len(text) <= 100 else f"{text[:97]}.."


# ---- the nodes that may be changed

def is_text(node: ast.AST) -> bool:
    """Whether a statement is only a text, as documentation is."""
    return isinstance(node, ast.Expr) and isinstance(node.value, ast.Constant) and isinstance(node.value.value, str)


def is_counted(node: ast.AST) -> bool:
    """Whether a statement only counts what was met."""
    targets: list[ast.expr] = [node.target] if isinstance(node, ast.AugAssign) else node.targets if isinstance(node, ast.Assign) else []
    tops = [it.value if isinstance(it, ast.Subscript) else it for it in targets]
    return bool(tops) and all(isinstance(it, ast.Attribute) and it.attr in COUNTED for it in tops)


def is_left_out(node: ast.AST, field: str) -> bool:
    """Whether nothing is answered by what stands there."""
    if field in ("annotation", "returns", "decorator_list", "type_ignores"):
        return True
    return isinstance(node, (ast.Import, ast.ImportFrom, ast.Assert, ast.arguments)) or is_text(node) or is_counted(node)


def name_of(node: ast.AST) -> str:
    """The name of what is called, or is assigned to."""
    if isinstance(node, ast.Call):
        return name_of(node.func)
    return node.id if isinstance(node, ast.Name) else node.attr if isinstance(node, ast.Attribute) else ""


def place_below(node: ast.AST, place: str) -> str:
    """The place of what stands in a node that stands in this place."""
    if isinstance(node, (ast.FunctionDef, ast.ClassDef)):
        return f"{place}.{node.name}".lstrip(".")
    if not place and isinstance(node, (ast.Assign, ast.AnnAssign)):
        first = node.targets[0] if isinstance(node, ast.Assign) else node.target
        return name_of(first.elts[0] if isinstance(first, ast.Tuple) else first)
    return place


def spots_in(parent: ast.AST, place: str = "") -> Iterator[Spot]:
    """Each node below this one that may be changed, in order."""
    for field, value in ast.iter_fields(parent):
        nodes: list[tuple[int | None, object]] = list(enumerate(value)) if isinstance(value, list) else [(None, value)]
        for at, node in nodes:
            if not isinstance(node, ast.AST) or is_left_out(node, field):
                continue
            below = place_below(node, place)
            yield Spot(node, parent, field, at, below)
            if not (isinstance(parent, ast.Call) and name_of(parent) in WORDS_OF and is_words(node)):
                yield from spots_in(node, below)


def is_words(node: ast.AST) -> bool:
    """Whether a node is a text."""
    return isinstance(node, ast.JoinedStr) or isinstance(node, ast.Constant) and isinstance(node.value, str)


# ---- comparisons and tests

BOUNDARY: dict[type[ast.cmpop], type[ast.cmpop]] = {ast.Lt: ast.LtE, ast.LtE: ast.Lt, ast.Gt: ast.GtE, ast.GtE: ast.Gt}
TURNED: dict[type[ast.cmpop], type[ast.cmpop]] = {
    ast.Eq: ast.NotEq, ast.NotEq: ast.Eq, ast.Is: ast.IsNot, ast.IsNot: ast.Is, ast.In: ast.NotIn, ast.NotIn: ast.In}


def comparisons(spot: Spot) -> Iterator[Change]:
    """A comparison with its border on the other side, or turned round."""
    node = spot.node
    if isinstance(node, ast.Compare):
        for at, it in enumerate(node.ops):
            for kind, table in (("a boundary", BOUNDARY), ("a comparison turned", TURNED)):
                if type(it) in table:
                    ops = [*node.ops[:at], table[type(it)](), *node.ops[at + 1:]]
                    yield spot.change(kind, ast.Compare(node.left, ops, node.comparators))


def conditions(spot: Spot) -> Iterator[Change]:
    """One condition of several left out, or any of them for all."""
    node = spot.node
    if isinstance(node, ast.BoolOp):
        for at in range(len(node.values)):
            rest = [*node.values[:at], *node.values[at + 1:]]
            yield spot.change("a condition left out", rest[0] if len(rest) == 1 else ast.BoolOp(node.op, rest))
        yield spot.change("and for or", ast.BoolOp(ast.Or() if isinstance(node.op, ast.And) else ast.And(), node.values))
    if isinstance(node, ast.UnaryOp) and isinstance(node.op, ast.Not):
        yield spot.change("a not left out", node.operand)
    if isinstance(node, ast.IfExp):
        yield spot.change("two cases exchanged", ast.IfExp(node.test, node.orelse, node.body))


def is_test(node: ast.AST) -> bool:
    """Whether a statement refuses where something does not hold, or answers at once where it holds."""
    if isinstance(node, ast.Expr):
        return name_of(node.value) == "need"
    return isinstance(node, ast.If) and not node.orelse and isinstance(node.body[-1], (ast.Raise, ast.Return))


def statements(spot: Spot) -> Iterator[Change]:
    """A test left out, two tests in the other order, something that is done left out."""
    node, beside = spot.node, getattr(spot.parent, spot.field)
    if is_test(node):
        yield spot.change("a test left out", None)
        after = beside[spot.at + 1] if spot.at is not None and spot.at + 1 < len(beside) else None
        if after is not None and is_test(after):
            yield Change(line_of(node), spot.place, "two tests exchanged", told(node), told(after), lambda: exchange(beside, spot.at or 0))
    elif isinstance(node, ast.Expr) and isinstance(node.value, ast.Call):
        yield spot.change("an act left out", None)
    elif isinstance(node, ast.AugAssign) or isinstance(node, ast.Assign) and isinstance(node.targets[0], ast.Attribute):
        yield spot.change("a change left out", None)


def exchange(nodes: list[ast.AST], at: int) -> None:
    """Puts a node behind the next one."""
    nodes[at], nodes[at + 1] = nodes[at + 1], nodes[at]


# ---- facts

def by_one(text: str) -> Iterator[str]:
    """A text with one of its numbers one greater."""
    for found in re.finditer(r"[0-9]+", text):
        yield text[:found.start()] + str(int(found[0]) + 1) + text[found.end():]


def spelled(text: str) -> str:
    """A text with one of its letters another: none where it has no letter."""
    letters = [it.start() for it in re.finditer("[A-Za-z]", text)]
    if not letters:
        return text
    at = letters[len(letters) // 2]
    return text[:at] + ("b" if text[at] == "a" else "a") + text[at + 1:]


def is_of_re(node: ast.AST) -> bool:
    """Whether a node calls a function of the module re."""
    return isinstance(node, ast.Call) and isinstance(node.func, ast.Attribute) and name_of(node.func.value) == "re"


def constants(spot: Spot) -> Iterator[Change]:
    """A number by one, a flag turned, a word with another letter, a number in a pattern by one."""
    node = spot.node
    if not isinstance(node, ast.Constant):
        return
    value, into = node.value, spot.parent
    if isinstance(value, bool):
        yield spot.change("a flag turned", ast.Constant(not value))
    elif isinstance(value, int):
        is_modulus = isinstance(into, ast.BinOp) and isinstance(into.op, ast.Mod)
        for other in (value + 1, value - 1):
            yield spot.change("a modulus" if is_modulus else "a constant by one", ast.Constant(other))
    elif isinstance(value, str) and is_of_re(into):
        for text in by_one(value):
            yield spot.change("a number in a pattern", ast.Constant(text))
    elif isinstance(value, bytes) and value:
        for part in by_one(value.decode("latin-1")):
            yield spot.change("a number in a pattern", ast.Constant(part.encode("latin-1")))
    elif isinstance(value, str) and isinstance(into, ast.JoinedStr) and WIDTH.fullmatch(value):
        for text in by_one(value):
            yield spot.change("a width", ast.Constant(text))
    elif isinstance(value, str) and spelled(value) != value and not is_table(value):
        yield spot.change("a word", ast.Constant(spelled(value)))


def is_of_facts(node: ast.AST) -> bool:
    """Whether a node is a constant, a name or an attribute."""
    return isinstance(node, (ast.Constant, ast.Name, ast.Attribute))


def is_kept_by_name(node: ast.AST) -> bool:
    """Whether a statement gives one name its value."""
    return isinstance(node, ast.AnnAssign) or isinstance(node, ast.Assign) and isinstance(node.targets[0], ast.Name)


def is_of_members(spot: Spot) -> bool:
    """Whether a node is a set of facts, or a list of them that is searched or has a name."""
    node, into = spot.node, spot.parent
    if not isinstance(node, (ast.Set, ast.Tuple, ast.List)) or len(node.elts) < 2 or not all(is_of_facts(it) for it in node.elts):
        return False
    is_named = is_kept_by_name(into) and spot.place.isupper() and "." not in spot.place
    return isinstance(node, ast.Set) or isinstance(into, ast.Compare) and spot.field == "comparators" or is_named


def members(spot: Spot) -> Iterator[Change]:
    """A member left out of a set, or of a list of facts; and two words of a list of words exchanged."""
    node, into = spot.node, spot.parent
    if isinstance(node, (ast.Set, ast.Tuple, ast.List)) and is_of_members(spot):
        for at in range(len(node.elts)):
            rest = [*node.elts[:at], *node.elts[at + 1:]]
            yield spot.change("a member left out", ast.Set(rest) if isinstance(node, ast.Set) else type(node)(rest, ast.Load()))
    if isinstance(node, ast.Constant) and isinstance(node.value, str) and isinstance(into, ast.Attribute) and into.attr == "split":
        words = node.value.split(" ")
        for at in range(len(words) - 1):
            yield spot.change("two words exchanged", ast.Constant(" ".join([*words[:at], words[at + 1], words[at], *words[at + 2:]])))


def entries(spot: Spot) -> Iterator[Change]:
    """An entry of a table left out, or two of its entries exchanged."""
    node = spot.node
    if isinstance(node, ast.Dict) and len(node.keys) > 1 and all(node.keys):
        for at in range(len(node.keys)):
            keys, values = [*node.keys[:at], *node.keys[at + 1:]], [*node.values[:at], *node.values[at + 1:]]
            made = spot.change("an entry left out", ast.Dict(keys, values))
            yield Change(made.line, made.place, made.kind, told(node.keys[at]), "nothing", made.make)
        for at in range(len(node.keys) - 1):
            if ast.dump(node.values[at]) != ast.dump(node.values[at + 1]):
                values = [*node.values[:at], node.values[at + 1], node.values[at], *node.values[at + 2:]]
                made = spot.change("two entries exchanged", ast.Dict(node.keys, values))
                yield Change(made.line, made.place, made.kind, told(node.keys[at]), told(node.keys[at + 1]), made.make)


def orders(spot: Spot) -> Iterator[Change]:
    """Two columns of a row exchanged, two parts of a key, two values of a line; a list that is not put in order; the least for the greatest."""
    node = spot.node
    if isinstance(node, ast.Call):
        pairs = {"min": "max", "max": "min", "any": "all", "all": "any", "sorted": "list", "startswith": "endswith"}
        if name_of(node) in pairs:
            other = pairs[name_of(node)]
            func = ast.Attribute(node.func.value, other, ast.Load()) if isinstance(node.func, ast.Attribute) else ast.Name(other, ast.Load())
            yield spot.change(f"{other} for {name_of(node)}", ast.Call(func, node.args, [] if other == "list" else node.keywords))
        if name_of(node)[:1].isupper() and not any(isinstance(it, ast.Starred) for it in node.args):
            for args in exchanged(node.args):
                yield spot.change("two columns exchanged", ast.Call(node.func, args, node.keywords))
    if isinstance(node, ast.Tuple) and isinstance(node.ctx, ast.Load) and isinstance(spot.parent, (ast.Lambda, ast.Return, ast.GeneratorExp)):
        for elts in exchanged(node.elts):
            yield spot.change("two parts exchanged", ast.Tuple(elts, ast.Load()))
    if isinstance(node, ast.JoinedStr):
        shown = [at for at, it in enumerate(node.values) if isinstance(it, ast.FormattedValue)]
        for one, two in zip(shown, shown[1:]):
            values = list(node.values)
            values[one], values[two] = values[two], values[one]
            yield spot.change("two values exchanged", ast.JoinedStr(values))


def exchanged(nodes: Sequence[ast.expr]) -> Iterator[list[ast.expr]]:
    """These nodes, two neighbours of which are exchanged."""
    for at in range(len(nodes) - 1):
        if ast.dump(nodes[at]) != ast.dump(nodes[at + 1]):
            yield [*nodes[:at], nodes[at + 1], nodes[at], *nodes[at + 2:]]


OTHER_OPERATOR: dict[type[ast.operator], type[ast.operator]] = {
    ast.Add: ast.Sub, ast.Sub: ast.Add, ast.LShift: ast.RShift, ast.RShift: ast.LShift, ast.BitAnd: ast.BitOr, ast.BitOr: ast.BitAnd,
    ast.Mult: ast.Add, ast.FloorDiv: ast.Mod}


def sums(spot: Spot) -> Iterator[Change]:
    """A sum for a difference, and the like."""
    node = spot.node
    if isinstance(node, ast.BinOp) and type(node.op) in OTHER_OPERATOR and not (is_words(node.left) or is_words(node.right)):
        yield spot.change("another operator", ast.BinOp(node.left, OTHER_OPERATOR[type(node.op)](), node.right))
    if isinstance(node, ast.UnaryOp) and isinstance(node.op, ast.USub):
        yield spot.change("a sign left out", node.operand)


# ---- tables of cells

def is_table(text: str) -> bool:
    """Whether a text is a table of rows of cells."""
    rows = text.strip().splitlines()
    return len(rows) > 2 and all(it.count("|") == rows[0].count("|") > 1 for it in rows)


def cells(spot: Spot) -> Iterator[Change]:
    """A cell of a table as another cell of its row or, where all of its row are the same, of its column."""
    node = spot.node
    if isinstance(node, ast.Constant) and isinstance(node.value, str) and is_table(node.value):
        rows = [it.split("|") for it in node.value.strip().splitlines()]
        for row, parts in enumerate(rows):
            for at in range(1, len(parts)):
                column = [it[at].strip() for it in rows]
                cell = parts[at].strip()
                other = next((it.strip() for it in [*parts[at + 1:], *parts[1:at], *column] if it.strip() not in (cell, "-")), "")
                if other and cell != "-":
                    made = [" | ".join([*it[:at], other, *it[at + 1:]] if it is parts else it) for it in rows]
                    change = spot.change("a cell", ast.Constant("\n".join(made)))
                    yield Change(line_of(node) + row + 1, spot.place, "a cell", f"{parts[0].strip()}, column {at}: {cell}", other, change.make)
    if isinstance(node, ast.Dict) and all(isinstance(it, ast.Tuple) and all(is_words(of) for of in it.elts) for it in node.values):
        yield from dictionary_cells(spot, node)


def dictionary_cells(spot: Spot, node: ast.Dict) -> Iterator[Change]:
    """The same of a table whose rows are tuples of words."""
    for row, value in zip(node.keys, node.values):
        if not isinstance(value, ast.Tuple):
            continue
        for at, cell in enumerate(value.elts):
            beside = [*value.elts, *(it.elts[at] for it in node.values if isinstance(it, ast.Tuple) and at < len(it.elts))]
            other = next((it for it in beside if ast.dump(it) != ast.dump(cell)), None)
            if other is not None:
                old, make = f"{told(row)}, column {at + 1}: {told(cell)}", Spot(cell, value, "elts", at, spot.place).put
                yield Change(line_of(cell), spot.place, "a cell", old, told(other), partial(make, other))


# ---- names of facts

def groups_in(trees: Sequence[ast.Module]) -> dict[str, str]:
    """Of each name that is given its value together with others, and of each member of an enumeration, the next of them: places, causes, refusals."""
    following: dict[str, str] = {}
    for tree in trees:
        for node in tree.body:
            target = node.targets[0] if isinstance(node, ast.Assign) else None
            names = [it.id for it in target.elts if isinstance(it, ast.Name)] if isinstance(target, ast.Tuple) else []
            if len(names) > 1 and all(it.isupper() for it in names):
                following |= dict(zip(names, [*names[1:], names[0]]))
            if isinstance(node, ast.ClassDef) and name_of(node.bases[0] if node.bases else node) in ("Enum", "IntEnum"):
                members = [f"{node.name}.{name_of(it.targets[0])}" for it in node.body if isinstance(it, ast.Assign)]
                following |= dict(zip(members, [*members[1:], members[0]]))
    return following


def names(spot: Spot, following: dict[str, str]) -> Iterator[Change]:
    """A fact as the next of its kind: a refusal as another, a place as another."""
    node = spot.node
    if isinstance(node, ast.Name) and isinstance(node.ctx, ast.Load) and node.id in following:
        yield spot.change("another fact of its kind", ast.Name(following[node.id], ast.Load()))
    if isinstance(node, ast.Attribute) and isinstance(node.value, ast.Name) and f"{node.value.id}.{node.attr}" in following:
        other = following[f"{node.value.id}.{node.attr}"].partition(".")[2]
        yield spot.change("another fact of its kind", ast.Attribute(node.value, other, ast.Load()))


RULES: tuple[Callable[[Spot], Iterator[Change]], ...] = (
    comparisons, conditions, statements, constants, members, entries, orders, sums, cells)


def changes_in(tree: ast.Module, following: dict[str, str]) -> list[Change]:
    """All changes of a program, in the order of its text."""
    found: list[Change] = []
    for spot in list(spots_in(tree)):
        for rule in RULES:
            found += rule(spot)
        found += names(spot, following)
    return found
