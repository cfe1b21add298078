"""Finds the possible changes of a file in C++, by clang's syntax tree."""

from collections.abc import Iterator, Sequence
from pathlib import Path

from clang.cindex import Cursor, CursorKind, Index, SourceRange, TokenKind, TranslationUnit

from tests.mutants.drawn.change import BOUNDS, OPPOSITES, Change, Drawing, Kind, Span

CONDITIONED = {CursorKind.IF_STMT, CursorKind.WHILE_STMT, CursorKind.CONDITIONAL_OPERATOR}
CALLS = {CursorKind.CALL_EXPR, CursorKind.CXX_DELETE_EXPR}
JUMPS = {CursorKind.BREAK_STMT, CursorKind.CONTINUE_STMT, CursorKind.CXX_THROW_EXPR}
FUNCTIONS = {CursorKind.FUNCTION_DECL, CursorKind.CXX_METHOD, CursorKind.CONSTRUCTOR}
WRAPPERS = {CursorKind.UNEXPOSED_EXPR, CursorKind.PAREN_EXPR}
NAMED = {CursorKind.MEMBER_REF_EXPR, CursorKind.DECL_REF_EXPR}
SYMMETRIC = {"operator==", "operator!=", "min", "max"}  # whose sides may change places
BOTH = {"&&": "true", "||": "false"}


class Reader:
    """Walks through what stands in the file itself, and not in what it includes or in a macro."""

    def __init__(self, file: str, text: bytes, path: str) -> None:
        self.drawing = Drawing(file, text)
        self.text = text
        self.path = path

    def span(self, extent: SourceRange) -> Span:
        return Span(extent.start.line, extent.start.offset, extent.end.offset)

    def is_here(self, node: Cursor) -> bool:
        place = node.extent.start
        return place.file is not None and place.file.name == self.path

    def walk(self, node: Cursor) -> None:
        for inner in node.get_children():
            if self.is_here(inner):
                self.look(inner)
                self.walk(inner)

    def look(self, node: Cursor) -> None:
        """What may go wrong at this node."""
        if node.kind in CONDITIONED:
            self.condition(node)
        elif node.kind is CursorKind.BINARY_OPERATOR:
            self.operator(node)
        elif node.kind is CursorKind.COMPOUND_STMT:
            self.statements(node)
        elif node.kind is CursorKind.INTEGER_LITERAL:
            self.literal(node)
        elif node.kind is CursorKind.CALL_EXPR:
            self.arguments(node)
        elif node.kind is CursorKind.INIT_LIST_EXPR:
            entries = [self.span(entry.extent) for entry in node.get_children()]
            self.drawing.leave_out(Kind.ENTRY, entries)
        elif node.kind in FUNCTIONS and node.result_type.spelling == "void":
            self.early(node)
        if node.kind in NAMED:
            self.name(node)

    # ---------------------------------------------------------------- conditions

    def condition(self, node: Cursor) -> None:
        test = next(iter(self.conditions(node)), None)
        if test is not None:
            at = self.span(test.extent)
            self.drawing.add(Kind.NEGATED, at, "!(%s)" % at.of(self.text))

    def conditions(self, node: Cursor) -> Iterator[Cursor]:
        """The condition: of an `if` with a declaration before it, or in its place, there is none to negate."""
        inner = list(node.get_children())
        declared = {CursorKind.DECL_STMT, CursorKind.VAR_DECL}
        if inner and inner[0].kind not in declared and inner[0].kind.is_expression():
            yield inner[0]

    def operator(self, node: Cursor) -> None:
        sides = list(node.get_children())
        if len(sides) != 2:
            return
        left, right = (self.span(side.extent) for side in sides)
        between = Span(left.line, left.end, right.start)
        sign = between.of(self.text).strip()
        if sign in BOUNDS:
            words = between.of(self.text).replace(sign, BOUNDS[sign])
            self.drawing.add(Kind.BOUND, between, words)
        for side in (left, right) if sign in BOTH else ():
            self.drawing.add(Kind.CONDITION_DROPPED, side, BOTH[sign])

    # ---------------------------------------------------------------- statements

    def statements(self, block: Cursor) -> None:
        for statement in block.get_children():
            kind = unwrapped(statement).kind
            at = self.with_semicolon(self.span(statement.extent))
            if at is None:
                continue
            if kind in CALLS:
                self.drawing.add(Kind.CALL_DROPPED, at, ";")
            elif kind in JUMPS or kind is CursorKind.COMPOUND_ASSIGNMENT_OPERATOR:
                self.drawing.add(Kind.STATEMENT_DROPPED, at, ";")
            elif kind is CursorKind.BINARY_OPERATOR and "=" in at.of(self.text):
                self.drawing.add(Kind.STATEMENT_DROPPED, at, ";")

    def with_semicolon(self, span: Span) -> Span | None:
        """The statement as the text has it."""
        rest = self.text[span.end :].lstrip()
        if not rest.startswith(b";"):
            return None
        return Span(span.line, span.start, self.text.index(b";", span.end) + 1)

    def early(self, function: Cursor) -> None:
        """A function that gives nothing back ends before one of its statements."""
        body = [part for part in function.get_children() if part.kind is CursorKind.COMPOUND_STMT]
        for block in body:
            for statement in list(block.get_children())[1:]:
                at = self.span(statement.extent)
                self.drawing.add(Kind.EARLY, Span(at.line, at.start, at.start), "return; ")

    # ---------------------------------------------------------------- values

    def literal(self, node: Cursor) -> None:
        at = self.span(node.extent)
        if at.of(self.text).isdecimal():
            self.drawing.add(Kind.BOUND, at, str(int(at.of(self.text)) + 1))

    def arguments(self, call: Cursor) -> None:
        if call.spelling in SYMMETRIC:
            return
        given = [each for each in call.get_arguments() if each is not None and self.is_here(each)]
        for first, second in zip(given, given[1:]):
            one, other = self.span(first.extent), self.span(second.extent)
            if type_of(first) == type_of(second) and one.end <= other.start:
                self.drawing.exchange(Kind.ARGUMENTS, one, other)

    def name(self, node: Cursor) -> None:
        """A word is taken for its opposite, or a member for another one of its class and type."""
        token = last_name(node)
        if token is None:
            return
        if node.spelling in OPPOSITES:
            self.drawing.add(Kind.OPPOSITE, token, OPPOSITES[node.spelling])
        for other in siblings(node) if node.kind is CursorKind.MEMBER_REF_EXPR else ():
            self.drawing.add(Kind.MEMBER, token, other)


def unwrapped(node: Cursor) -> Cursor:
    """What an expression is, without brackets and the temporaries around it."""
    while node.kind in WRAPPERS:
        inner = list(node.get_children())
        if len(inner) != 1:
            return node
        node = inner[0]
    return node


def type_of(node: Cursor) -> str:
    return str(node.type.get_canonical().spelling).removeprefix("const ")


def last_name(node: Cursor) -> Span | None:
    """Where the name itself stands, behind the object and the namespace that it is of."""
    names = [
        token
        for token in node.get_tokens()
        if token.kind is TokenKind.IDENTIFIER and token.spelling == node.spelling
    ]
    if not names:
        return None
    extent = names[-1].extent
    return Span(extent.start.line, extent.start.offset, extent.end.offset)


def siblings(node: Cursor) -> Sequence[str]:
    """The other fields of the same class that have the same type."""
    field = node.referenced
    if field is None or field.kind is not CursorKind.FIELD_DECL:
        return []
    return [
        str(other.spelling)
        for other in field.semantic_parent.get_children()
        if other.kind is CursorKind.FIELD_DECL
        and other.spelling != field.spelling
        and type_of(other) == type_of(field)
    ]


def cpp_changes(file: str, path: str, words: Sequence[str]) -> list[Change]:
    """All changes of a file in C++ that is compiled with these words, in its order."""
    unit: TranslationUnit = Index.create().parse(path, args=list(words))
    with open(path, "rb") as source:
        reader = Reader(file, source.read(), path)
    reader.walk(unit.cursor)
    return sorted(reader.drawing, key=lambda change: (change.start, change.kind.name))


def compiled_headers(header: Path, words: Sequence[str], ready: Path) -> None:
    """Keeps what clang makes of a header, for `-include-pch`."""
    plain = header.with_suffix(".only.hxx")
    # What cmake writes is for gcc alone; clang would call it the file's own.
    plain.write_text(header.read_text().replace("#pragma GCC system_header", ""))
    options = TranslationUnit.PARSE_INCOMPLETE
    unit = Index.create().parse(str(plain), args=["-x", "c++-header", *words], options=options)
    unit.save(str(ready))
