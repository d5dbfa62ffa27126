"""Small pieces of text: numbers as subscripts, brackets, names, and how a written fact is taken apart."""
import re

SUBSCRIPTS = str.maketrans('0123456789', '₀₁₂₃₄₅₆₇₈₉')

# a character of a name in a proof
NAME_CHAR = r"[\w′″·\-₀-₉'!?]"

# words of the proofs' own language, which a field may have as its name
QUOTED = 'as', 'data', 'in', 'open', 'use'

# linear arithmetic, with what the tests on the way have said; %s takes more facts, each behind a comma
AUTO = 'omega (arith, ltb-true, ltb-false, leb-true, leb-false, eqb-true, eqb-false%s)'


class Stop(Exception):
    """A walk cannot be written; the message says where, and what to do."""


def stop(message):
    raise Stop(message)


def subscript(number):
    return str(number).translate(SUBSCRIPTS)


def whole_word(name):
    """A pattern for the name where it stands alone, and is no field."""
    return r'(?<!%s)(?<![.«])%s(?!%s)' % (NAME_CHAR, re.escape(name), NAME_CHAR)


def field_name(name):
    """A field as a proof writes it: in guillemets where the bare word would be read as something else."""
    return '«%s»' % name if '_' in name or name in QUOTED else name


def parens(text):
    """The text as one argument."""
    text = text.strip()
    return text if re.fullmatch(NAME_CHAR + '+', text) else '(' + text + ')'


def nested(texts):
    """The texts as pairs within pairs, with `tt` at the end."""
    return '(' + ', ('.join(texts) + ', tt' + ')' * len(texts) if texts else 'tt'


def projection(index):
    """Place `index` of what `nested` makes."""
    return ' .1' * index + ' .0'


def as_tuple(texts):
    if len(texts) > 1:
        return '(' + ', '.join(texts) + ')'
    return texts[0] if texts else 'tt'


def bound_of(relation):
    """Of a number's relation to its value: that it is below its width."""
    match = re.fullmatch(r'\(refl, (.*)\)', relation)
    return match.group(1) if match else parens(relation) + ' .1'


def balanced(text, start, opening, closing):
    """The place of the bracket that closes the one at `start`."""
    depth = 0
    for place in range(start, len(text)):
        if text[place] == opening:
            depth += 1
        elif text[place] == closing:
            depth -= 1
            if depth == 0:
                return place
    stop('unbalanced ' + opening)


def split_top(text, separator):
    """The parts of a text between separators that stand in no bracket."""
    parts = []
    depth = 0
    part = ''
    for char in text:
        if char in '([{':
            depth += 1
        if char in ')]}':
            depth -= 1
        if char == separator and depth == 0:
            parts.append(part)
            part = ''
        else:
            part += char
    return [part.strip() for part in parts + [part] if part.strip()]


def unwrapped(text):
    """The text without brackets around the whole of it."""
    text = text.strip()
    while text.startswith('(') and balanced(text, 0, '(', ')') == len(text) - 1:
        text = text[1:-1].strip()
    return text


def binds_at_top(text):
    """Is there an arrow or a quantifier in no bracket?"""
    depth = 0
    for char in text:
        if char in '([{':
            depth += 1
        if char in ')]}':
            depth -= 1
        if depth == 0 and char in '→λ∀∃':
            return True
    return False


def conjuncts(text, path=''):
    """The facts that are joined by ×, each with its projection from the whole."""
    text = unwrapped(text)
    parts = split_top(text, '×')
    if len(parts) == 1 or binds_at_top(text):
        return [(text, path)]
    return [found for place, part in enumerate(parts) for found in conjuncts(part, path + ' .%d' % place)]


def equation(text):
    """The two sides of an equation, or None."""
    sides = split_top(text, '≡')
    return sides if len(sides) == 2 else None
