"""One-line errors of the second checker: other operators, conditions and constants."""
import ast
import copy
import dataclasses

OPERATORS = {
    ast.Lt: ast.LtE, ast.LtE: ast.Lt, ast.Gt: ast.GtE, ast.GtE: ast.Gt, ast.Eq: ast.NotEq,
    ast.NotEq: ast.Eq, ast.In: ast.NotIn, ast.NotIn: ast.In, ast.Is: ast.IsNot, ast.IsNot: ast.Is,
    ast.Add: ast.Sub, ast.Sub: ast.Add, ast.Mult: ast.Add, ast.FloorDiv: ast.Mult,
    ast.Mod: ast.Mult, ast.LShift: ast.RShift, ast.RShift: ast.LShift, ast.BitAnd: ast.BitOr,
    ast.BitOr: ast.BitAnd, ast.And: ast.Or, ast.Or: ast.And,
}  # fmt: skip
NAMES = {"min": "max", "max": "min", "all": "any", "any": "all"}


@dataclasses.dataclass
class Error:
    """A node of a module, by its parent and its place there, and what is put there."""

    function: str
    parent: ast.AST
    field: str
    place: int
    old: ast.AST
    new: ast.AST

    def __str__(self):
        old, new = (ast.unparse(node).split("\n")[0] for node in (self.old, self.new))
        inside = ""
        if isinstance(self.old, ast.Constant) and isinstance(self.parent, ast.expr):
            inside = f" in {ast.unparse(self.parent)}"
        return f"{self.function}: {old} => {new}{inside}"

    def put(self, node):
        """Puts a node at this place."""
        if self.place is None:
            setattr(self.parent, self.field, node)
        else:
            getattr(self.parent, self.field)[self.place] = node


def with_fields(node, **fields):
    """A copy of a node with other fields."""
    other = copy.copy(node)
    for name, value in fields.items():
        setattr(other, name, value)
    return other


def without_one(items):
    """All but one of a list's items, for each of them."""
    return [items[:place] + items[place + 1 :] for place in range(len(items))]


def others(node):
    """What could be in the place of an expression or a statement."""
    if isinstance(node, ast.Compare):
        op, *rest = node.ops
        yield with_fields(node, ops=[OPERATORS[type(op)](), *rest])
        if rest:
            yield with_fields(node, ops=[*node.ops[:-1], OPERATORS[type(node.ops[-1])]()])
    elif isinstance(node, ast.BinOp):
        yield with_fields(node, op=OPERATORS[type(node.op)]())
    elif isinstance(node, ast.BoolOp):
        yield with_fields(node, op=OPERATORS[type(node.op)]())
        for rest in without_one(node.values):
            yield with_fields(node, values=rest) if len(rest) > 1 else rest[0]
    elif isinstance(node, ast.UnaryOp):
        yield node.operand
    elif isinstance(node, ast.IfExp):
        yield from (node.body, node.orelse)
    elif isinstance(node, ast.If):
        yield from (with_fields(node, test=ast.Constant(value)) for value in (False, True))
    elif isinstance(node, ast.Name) and node.id in NAMES:
        yield with_fields(node, id=NAMES[node.id])
    elif isinstance(node, ast.Constant) and isinstance(node.value, bool):
        yield ast.Constant(not node.value)
    elif isinstance(node, ast.Constant) and isinstance(node.value, int):
        yield from (ast.Constant(node.value + step) for step in (1, -1))
    elif isinstance(node, (ast.Raise, ast.AugAssign)) or is_call(node):
        yield ast.Pass()


def is_call(node):
    """Whether a statement is a call."""
    return isinstance(node, ast.Expr) and isinstance(node.value, ast.Call)


def errors_in(parent, path):
    """The errors in what a node holds; the path has the names of its class and function."""
    for field, value in ast.iter_fields(parent):
        items = enumerate(value) if isinstance(value, list) else [(None, value)]
        for place, node in items:
            if not isinstance(node, ast.AST):
                continue
            inside = path
            if isinstance(node, (ast.FunctionDef, ast.ClassDef)):
                inside = f"{path}.{node.name}"
            for new in others(node):
                yield Error(inside, parent, field, place, node, ast.copy_location(new, node))
            yield from errors_in(node, inside)
