"""The MIR that `rt mir` prints: its functions, statements and places, and how they are shown to a reader."""
import re

from .words import stop


class MirFunction:
    """A function: the number of its parameters, the types of its locals (_0 is the result), and its body."""

    def __init__(self, expression):
        self.parameters = int(expression[3])
        self.locals = [local[1] for local in items(expression[4])]
        self.body = expression[5]


def read_program(text):
    """The functions of a printed program, by their full names."""
    tokens = re.findall(r'"[^"]*"|[()]|[^\s()]+', text[text.index('program ('):])
    place = 0

    def read():
        nonlocal place
        token = tokens[place]
        place += 1
        if token != '(':
            return token
        expression = []
        while tokens[place] != ')':
            expression.append(read())
        place += 1
        return expression

    read()
    definitions = items(read())
    return {definition[1].strip('"'): definition[2] for definition in definitions if definition[0] == 'fn-def'}


def items(expression):
    """The members of a list."""
    members = []
    while isinstance(expression, list) and expression[0] in ('lcons', 'tcons'):
        members.append(expression[1])
        expression = expression[2]
    return members


def statements(expression):
    """The statements of a sequence."""
    if isinstance(expression, list) and expression[0] == 'seq':
        if isinstance(expression[1], list) and expression[1][0] == 'seq':
            stop('a sequence within a sequence')
        return [expression[1]] + statements(expression[2])
    return [expression]


def is_loop(inner):
    """Are these the statements of a block that is a loop?"""
    return len(inner) == 1 and isinstance(inner[0], list) and inner[0][0] == 'loop'


def is_place(operand):
    """Does the operand read a place?"""
    return isinstance(operand, list) and operand[0] in ('copy', 'move')


def local_of(place):
    return int(place[1])


def steps_of(place):
    """How a place goes on from its local: fields, variants, pointers."""
    return items(place[2])


def arms_of(switch):
    """The arms of a `match`, each with its keys; and the default arm, or None."""
    arms = []
    rest = switch[2]
    while isinstance(rest, list) and rest[0] == 'arm':
        arms.append((items(rest[1]), rest[2]))
        rest = rest[3]
    return arms, (rest[1] if isinstance(rest, list) else None)


def called(call):
    """The full name of the function that a call calls."""
    return call[1][1][1].strip('"') if isinstance(call[1], list) else call[1]


# ---- shown to a reader

def show_place(place):
    text = '_' + place[1]
    for step in steps_of(place):
        if step[0] == 'deref':
            text = '(*%s)' % text
        elif step[0] == 'field':
            text += '.' + step[1]
        elif step[0] == 'variant':
            text += ' as variant %s' % step[1]
        else:
            text += '.' + str(step)
    return text


def show_operand(operand):
    if isinstance(operand, str):
        return operand
    if is_place(operand):
        return show_place(operand[1])
    return operand[2] if operand[0] == 'int' else str(operand)


def show_right_side(right):
    if right[0] == 'rvOpd':
        return show_operand(right[1])
    if right[0] == 'op2':
        operation = right[1] if isinstance(right[1], str) else right[1][0]
        return operation + '(' + show_operand(right[2]) + ', ' + show_operand(right[3]) + ')'
    if right[0] == 'op1':
        return str(right[1]) + '(' + show_operand(right[2]) + ')'
    if right[0] == 'addrOf':
        return '&' + show_place(right[1])
    if right[0] == 'aggregate':
        return 'make [' + ', '.join(show_operand(operand) for operand in items(right[1])) + ']'
    if right[0] == 'repeat':
        return '[%s; %s]' % (show_operand(right[1]), right[2])
    return str(right)
