"""Finds the possible changes of a file in Python, by its syntax tree."""

import ast
from collections import defaultdict
from collections.abc import Sequence

from tests.mutants.drawn.change import BOUNDS, OPPOSITES, Change, Drawing, Kind, Span

# What stands in their brackets is a type, which mypy reads and no program.
GENERIC = frozenset(
    "tuple list dict set frozenset type Callable Iterator Iterable Sequence Mapping".split()
)
SIGNS: dict[type[ast.cmpop], str] = {ast.Lt: "<", ast.LtE: "<=", ast.Gt: ">", ast.GtE: ">="}


class Lines:
    """Where each line of a text begins: the tree has a line and a column of bytes."""

    def __init__(self, text: bytes) -> None:
        self.starts = [0]
        for line in text.splitlines(keepends=True):
            self.starts.append(self.starts[-1] + len(line))

    def span(self, node: ast.expr | ast.stmt) -> Span:
        assert node.end_lineno is not None and node.end_col_offset is not None
        start = self.starts[node.lineno - 1] + node.col_offset
        end = self.starts[node.end_lineno - 1] + node.end_col_offset
        return Span(node.lineno, start, end)


class Reader(ast.NodeVisitor):
    """Looks at each node once, and adds what may go wrong there."""

    def __init__(self, file: str, text: bytes) -> None:
        self.drawing = Drawing(file, text)
        self.text = text
        self.lines = Lines(text)
        self.members: dict[str, list[str]] = {}  # of the class that is read: those of the same type

    def span(self, node: ast.expr | ast.stmt) -> Span:
        return self.lines.span(node)

    def source(self, node: ast.expr | ast.stmt) -> str:
        return self.span(node).of(self.text)

    # ---------------------------------------------------------------- conditions

    def condition(self, test: ast.expr) -> None:
        self.drawing.add(Kind.NEGATED, self.span(test), "not (%s)" % self.source(test))

    def visit_If(self, node: ast.If) -> None:
        self.condition(node.test)
        self.generic_visit(node)

    def visit_While(self, node: ast.While) -> None:
        if not isinstance(node.test, ast.Constant):
            self.condition(node.test)
        self.generic_visit(node)

    def visit_IfExp(self, node: ast.IfExp) -> None:
        self.condition(node.test)
        self.generic_visit(node)

    def visit_comprehension(self, node: ast.comprehension) -> None:
        for test in node.ifs:
            self.condition(test)
            self.drawing.add(Kind.CONDITION_DROPPED, self.span(test), "True")
        self.generic_visit(node)

    def visit_BoolOp(self, node: ast.BoolOp) -> None:
        neutral = "True" if isinstance(node.op, ast.And) else "False"
        for value in node.values:
            self.drawing.add(Kind.CONDITION_DROPPED, self.span(value), neutral)
        self.generic_visit(node)

    def visit_Compare(self, node: ast.Compare) -> None:
        left = node.left
        for operator, right in zip(node.ops, node.comparators, strict=True):
            self.bound(left, operator, right)
            left = right
        self.generic_visit(node)

    def bound(self, left: ast.expr, operator: ast.cmpop, right: ast.expr) -> None:
        sign = SIGNS.get(type(operator))
        before, after = self.span(left), self.span(right)
        between = Span(before.line, before.end, after.start)
        if sign is not None:
            words = between.of(self.text)
            self.drawing.add(Kind.BOUND, between, words.replace(sign, BOUNDS[sign], 1))

    # ---------------------------------------------------------------- statements

    def drop(self, kind: Kind, node: ast.stmt) -> None:
        self.drawing.add(kind, self.span(node), "pass")

    def visit_Expr(self, node: ast.Expr) -> None:
        if isinstance(node.value, ast.Call):
            self.drop(Kind.CALL_DROPPED, node)
        self.generic_visit(node)

    def visit_Raise(self, node: ast.Raise) -> None:
        self.drop(Kind.STATEMENT_DROPPED, node)
        self.generic_visit(node)

    def visit_Continue(self, node: ast.Continue) -> None:
        self.drop(Kind.STATEMENT_DROPPED, node)

    def visit_Break(self, node: ast.Break) -> None:
        self.drop(Kind.STATEMENT_DROPPED, node)

    def visit_AugAssign(self, node: ast.AugAssign) -> None:
        self.drop(Kind.STATEMENT_DROPPED, node)
        self.generic_visit(node)

    def visit_Assign(self, node: ast.Assign) -> None:
        if all(isinstance(target, ast.Attribute | ast.Subscript) for target in node.targets):
            self.drop(Kind.STATEMENT_DROPPED, node)
        self.generic_visit(node)

    def visit_FunctionDef(self, node: ast.FunctionDef) -> None:
        if isinstance(node.returns, ast.Constant) and node.returns.value is None:
            self.early(node.body)
        for child in ast.iter_child_nodes(node):
            if child is not node.returns:
                self.visit(child)

    def visit_arg(self, node: ast.arg) -> None:
        """Its type is for who reads the code: mypy refuses another one, and no program looks at it."""

    def early(self, body: Sequence[ast.stmt]) -> None:
        """A function that gives nothing back ends before one of its statements, which is no end of its own."""
        for statement in body[1:]:
            if isinstance(statement, ast.Return):
                continue
            at = self.span(statement)
            indented = "return\n" + " " * statement.col_offset
            self.drawing.add(Kind.EARLY, Span(at.line, at.start, at.start), indented)

    # ---------------------------------------------------------------- values

    def visit_Call(self, node: ast.Call) -> None:
        for first, second in zip(node.args, node.args[1:]):
            if are_alike(first, second):
                self.drawing.exchange(Kind.ARGUMENTS, self.span(first), self.span(second))
        self.generic_visit(node)

    def visit_Name(self, node: ast.Name) -> None:
        if node.id in OPPOSITES:
            self.drawing.add(Kind.OPPOSITE, self.span(node), OPPOSITES[node.id])

    def visit_Subscript(self, node: ast.Subscript) -> None:
        if isinstance(node.value, ast.Name) and node.value.id in GENERIC:
            return
        ends = {"[0]": "[-1]", "[-1]": "[0]"}
        at = self.span(node)
        tail = Span(at.line, self.span(node.value).end, at.end)
        if tail.of(self.text) in ends:
            self.drawing.add(Kind.OPPOSITE, tail, ends[tail.of(self.text)])
        self.generic_visit(node)

    def visit_Constant(self, node: ast.Constant) -> None:
        if type(node.value) is int:
            self.drawing.add(Kind.BOUND, self.span(node), str(node.value + 1))

    def visit_JoinedStr(self, node: ast.JoinedStr) -> None:
        """Python's tree of a formatted string has no places within it."""

    def visit_ClassDef(self, node: ast.ClassDef) -> None:
        kept, self.members = self.members, members_of(node)
        self.generic_visit(node)
        self.members = kept

    def visit_Attribute(self, node: ast.Attribute) -> None:
        for other in self.members.get(node.attr, []):
            if isinstance(node.value, ast.Name) and node.value.id == "self":
                self.drawing.add(Kind.MEMBER, self.span(node), "self." + other)
        self.generic_visit(node)

    def visit_List(self, node: ast.List) -> None:
        self.drawing.leave_out(Kind.ENTRY, [self.span(entry) for entry in node.elts])
        self.generic_visit(node)

    def visit_Set(self, node: ast.Set) -> None:
        self.drawing.leave_out(Kind.ENTRY, [self.span(entry) for entry in node.elts])
        self.generic_visit(node)

    def visit_Tuple(self, node: ast.Tuple) -> None:
        if isinstance(node.ctx, ast.Load) and len(node.elts) > 2:
            self.drawing.leave_out(Kind.ENTRY, [self.span(entry) for entry in node.elts])
        self.generic_visit(node)

    def visit_AnnAssign(self, node: ast.AnnAssign) -> None:
        """Of a declaration the value counts, and not the type."""
        if node.value is not None:
            self.visit(node.value)


def are_alike(first: ast.expr, second: ast.expr) -> bool:
    """Whether two arguments may well have one type: both are names, members, or constants of one type."""
    if isinstance(first, ast.Constant) and isinstance(second, ast.Constant):
        return type(first.value) is type(second.value)
    simple = (ast.Name, ast.Attribute, ast.Subscript)
    return isinstance(first, simple) and isinstance(second, simple)


def members_of(node: ast.ClassDef) -> dict[str, list[str]]:
    """Each member that a class declares with the others of its type."""
    of_type: dict[str, list[str]] = defaultdict(list)
    for line in node.body:
        if isinstance(line, ast.AnnAssign) and isinstance(line.target, ast.Name):
            of_type[ast.unparse(line.annotation)].append(line.target.id)
    return {
        name: [other for other in names if other != name]
        for names in of_type.values()
        for name in names
    }


def python_changes(file: str, text: bytes) -> list[Change]:
    """All changes of a file in Python, in its order."""
    reader = Reader(file, text)
    reader.visit(ast.parse(text))
    return sorted(reader.drawing, key=lambda change: (change.start, change.kind.name))
