"""The words of the stack that a body needs (section 8 of PAL.md)."""

from pal.nodes import Assign, AssignElement, Ask, Call, Chain, Element, If, Return, Unary, While
from services import BY_NAME


def most_operands(node):
    """w(e): how many operands wait at once while the expression is evaluated."""
    match node:
        case Unary(_, inner) | Element(_, inner):
            return most_operands(inner)
        case Chain(first, rest):
            return max([most_operands(first), *(1 + most_operands(it) for _, it in rest)])
        case Call(_, arguments):
            return max([1, *(place + most_operands(it) for place, it in enumerate(arguments))])
        case _:
            return 1


def most_of_statement(node):
    match node:
        case Assign(_, value) | Return(value, _):
            return most_operands(value)
        case AssignElement(_, index, value):
            return max(most_operands(index), 1 + most_operands(value))
        case If(test, then, otherwise):
            return max(most_operands(test), most_of_statements(then), most_of_statements(otherwise or []))
        case While(test, body):
            return max(most_operands(test), most_of_statements(body))
        case Ask():
            return most_of_service(node)
        case _:
            return 0


def most_of_service(node):
    row, below, most = BY_NAME[node.service], 0, 0
    for kind, argument in zip(row.kinds, node.arguments):
        words = 2 if kind == "array" else 1
        most = max(most, below + (most_operands(argument) if kind == "value" else words))
        below += words
    return max(most, row.answer_words)


def most_of_statements(statements):
    return max(map(most_of_statement, statements), default=0)


def frame_of(body):
    most = most_of_statements(body.statements)
    return len(body.parameters) + len(body.local_names) + (max(1, most) if body.is_procedure else most) + 2
