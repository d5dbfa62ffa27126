"""The rules for operands and right sides: what is read, and what the destination holds then."""
from .held import ArrayPointer, ArraySlice, Element, LocalArray, Slice, SlicePart, SlicePointer, Value
from .mir import is_place, items, local_of, show_place, steps_of
from .types import BOOL, UNIT, USIZE
from .words import AUTO, bound_of, field_name, nested, parens, projection, stop

LITERALS = {
    'true': ('(true-lit !)', BOOL, 'true'),
    'opdTrue': ('(true-lit !)', BOOL, 'true'),
    'false': ('(false-lit !)', BOOL, 'false'),
    'opdFalse': ('(false-lit !)', BOOL, 'false'),
    'unit': ('(unit-lit !)', UNIT, 'tt'),
    'opdUnit': ('(unit-lit !)', UNIT, 'tt'),
}
COMPARISONS = {'lt': 'ltb %s %s', 'le': 'leb %s %s', 'eq': 'eqb %s %s', 'ne': 'not (eqb %s %s)'}
SIGNS = {'add': '+', 'mul': '*'}
FIELD_IN_PLACE = 'statement %s reads a field of an element in place: write `let o = row[i];` first, and `o.field`'
BY_VALUE = 'Compute it in a function by value that the borrow checker covers, and call that'


class Operands:
    """Each rule gives the proof's text of what is read, and what is held of it. `offset` counts what stands in front of
    the context."""

    def operand(self, operand, offset=0):
        if isinstance(operand, str):
            if operand not in LITERALS:
                stop('statement %s: the operand %s is not known' % (self.now, operand))
            text, type_, value = LITERALS[operand]
            return text, Value(type_, value, 'refl')
        if operand[0] == 'int':
            type_ = self.types.of_mir(['tyInt', operand[1]])
            # above 1023 the code has the number as `intBig`
            rule = '(lit ! tt)' if int(operand[2]) < 1024 else '(big-lit ! (lit< tt))'
            return rule, Value(type_, operand[2], '(refl, lit< tt)', literal=int(operand[2]))
        if not is_place(operand):
            stop('statement %s: the operand %s is not known. %s' % (self.now, operand[0], BY_VALUE))
        local = local_of(operand[1])
        steps = steps_of(operand[1])
        if local not in self.held or local not in self.filled:
            stop('statement %s reads _%d, which holds nothing on this path' % (self.now, local))
        held = self.held[local]
        if not steps:
            return '(load ! (from ! (stop !)) (%s))' % self.look(local, offset), held
        place = self.at('l%d' % local) + offset
        if isinstance(held, Slice) and len(steps) == 1 and steps[0][0] == 'field':
            return self.slice_field(held, steps[0][1], place)
        if isinstance(held, Value) and all(step[0] == 'field' for step in steps):
            return self.struct_field(held, steps, place)
        if isinstance(held, Value) and len(steps) == 2 and steps[0][0] == 'variant':
            if held.fields is None:
                stop('statement %s reads a field of a variant of _%d outside a `match` on it' % (self.now, local))
            variant, field = int(steps[0][1]), int(steps[1][1]) - 1
            return ('(load ! (from ! (vrt ! refl (fld ! refl (stop !))))'
                    ' (look-in ! %d (in-variant ! %d %d refl refl (whole !))))'
                    % (place, variant, field), held.fields[field])
        if steps[0][0] == 'deref':
            stop(FIELD_IN_PLACE % self.now)
        stop('statement %s reads %s: no rule for this place' % (self.now, show_place(operand[1])))

    def slice_field(self, held, field, place):
        """A slice's length, or the address of its first element."""
        param = self.slice(held.name)
        text = ('(load ! (from ! (fld ! refl (stop !))) (look-in ! %d (sub ! %d refl (whole !))))'
                % (place, 1 if field == '1' else 0))
        if field == '1':
            return text, Value(USIZE, 'n' + param.number, '(refl, %s .0)' % param.room)
        return text, SlicePointer(param.name)

    def struct_field(self, held, steps, place):
        value = held
        part = '(whole !)'
        walk = '(stop !)'
        for step in steps:
            declaration = self.types.declared(value.type.path)
            field = int(step[1])
            name, text = declaration['fields'][field]
            alias = declaration['alias']
            owed = ('LL.owed %s-t.the-type %s-l.the-laws %s _ %s%s'
                    % (alias, alias, parens(value.text), parens(value.relation), projection(field)))
            type_ = self.types.of_source(text, declaration['module'])
            value = Value(type_, '%s .%s' % (parens(value.text), field_name(name)), owed)
            part = '(sub ! %d refl %s)' % (field, part)
            walk = '(fld ! refl %s)' % walk
        return '(load ! (from ! %s) (look-in ! %d %s))' % (walk, place, part), value

    # ---- right sides

    def right_side(self, right, destination, ident):
        """The text of a right side, and what the destination holds then."""
        form = right[0]
        if form == 'rvOpd':
            text, held = self.operand(right[1])
            return '(of-opd ! %s)' % text, held
        if form == 'addrOf':
            return self.address(right[1], ident)
        if form == 'repeat':
            return self.repeat(right)
        if form == 'aggregate':
            operands = [self.operand(operand) for operand in items(right[1])]
            text = ('(agg ! ' + ''.join('(and-then ! %s ' % operand for operand, _ in operands)
                    + '(no-more !)' + ')' * len(operands) + ')')
            return text, self.made(self.local_types[destination], [held for _, held in operands], ident)
        if form == 'op1':
            text, held = self.operand(right[2])
            if right[1] == 'not' and held.type == BOOL:
                return '(un ! %s tt)' % text, Value(BOOL, 'not %s' % parens(held.text), 'refl')
            stop('statement %s: the operation %s. %s' % (ident, right[1], BY_VALUE))
        if form == 'op2':
            return self.operation(right, ident)
        stop('statement %s: %s' % (ident, form))

    def address(self, place, ident):
        local = local_of(place)
        steps = len(steps_of(place))
        held = self.held.get(local)
        if isinstance(held, LocalArray) and steps == 0:
            return '(addr ! (from ! (stop !)))', ArrayPointer(local)
        if isinstance(held, Slice) and steps == 2:
            text = ('(addr ! (from ! (fld ! refl (hop ! (look-in ! %d (sub ! 0 refl (whole !))) (stop !)))))'
                    % self.at('l%d' % local))
            return text, SlicePointer(held.name)
        if isinstance(held, Element) and held.array is not None:
            stop('statement %s: a part of a local array: lend the whole array' % ident)
        if isinstance(held, (SlicePointer, Element)) and steps == 1:
            return '(addr ! (from ! (hop ! (%s) (stop !))))' % self.look(local), held
        stop('statement %s: a reference to %s. Walks lend whole slices, and local arrays'
             % (ident, show_place(place)))

    def repeat(self, right):
        """`[value; count]`"""
        text, held = self.operand(right[1])
        count = right[2] if isinstance(right[2], str) else right[2][1]
        value = parens(held.text)
        plain = self.types.plain(held.type)
        # a bare numeral would not tell its type
        replicate = 'replicate {A = ℕ}' if held.type.kind == 'int' else 'replicate'
        array = LocalArray(
            element=held.type, count=count, list='%s %s %s' % (replicate, count, value),
            value='(vstruct (ofList (replicate %s (%s .val %s))))' % (count, plain, value),
            relation='rep-is %s %s %s (%s .val %s) %s'
                     % (self.types.row(held.type), count, value, plain, value, parens(held.relation)))
        return '(rep ! %s %s)' % (count, text), array

    def made(self, type_, parts, ident):
        """What is held of a slice, struct or enum that is made of parts."""
        if type_.kind == 'slice':
            return self.made_slice(parts, ident)
        if type_.kind == 'array':
            stop('statement %s makes an array by a list: write `[v; n]`, or fill it in a function that it is lent to'
                 % ident)
        declaration = self.types.declared(type_.path)
        alias = declaration['alias']
        laws, maker = 'LL', alias + '-of'
        if declaration['kind'] == 'enum':
            laws, maker = 'EL', alias + '-' + declaration['variants'][parts[0].literal][0]
            parts = parts[1:]
        value = ' '.join([maker] + [parens(part.text) for part in parts])
        owes = ('%s.owes %s-t.the-type %s-l.the-laws %s %s'
                % (laws, alias, alias, parens(value), nested([part.relation for part in parts])))
        return Value(type_, value, owes)

    def made_slice(self, parts, ident):
        pointer, count = parts
        if isinstance(pointer, ArrayPointer):
            return ArraySlice(pointer.local, self.held[pointer.local].count)
        if isinstance(pointer, SlicePointer) or isinstance(pointer, Element) and pointer.array is None:
            param = self.slice(pointer.name)
            if isinstance(count, Value):
                if isinstance(pointer, SlicePointer) and count.text == 'n' + param.number:
                    return Slice(pointer.name)
                start = pointer.index if isinstance(pointer, Element) else '0'
                size = str(self.types.layout(param.type.element)[0])
                return SlicePart(pointer.name, start, count.text, bound_of(count.relation), size)
        stop('statement %s makes a slice of something that is no slice of the walk' % ident)

    # ---- operations

    def operation(self, right, ident):
        name, sign = (right[1], None) if isinstance(right[1], str) else right[1][:2]
        if sign not in (None, 'unsigned'):
            stop('statement %s: signed arithmetic (a `let mut i = 0;` that nothing makes a usize is an i32: '
                 'write `let mut i: usize = 0;`). Or compute it in a function by value, and call that' % ident)
        left, other = self.operand(right[2])[1], self.operand(right[3])[1]
        if name == 'offset':
            held = self.element(left, other, ident)
            domain = 'tt'
        elif name in SIGNS:
            held, domain = self.sum_or_product(name, left, other, ident)
        elif name == 'sub':
            held, domain = self.difference(left, other, ident)
        elif name in COMPARISONS and left.type.kind == 'int':
            held = Value(BOOL, COMPARISONS[name] % (parens(left.text), parens(other.text)), 'refl')
            domain = '(tt)'
        else:
            stop('statement %s: the operation `%s`. %s' % (ident, name, BY_VALUE))
        return '(bin ! %s %s %s)' % (self.operand(right[2])[0], self.operand(right[3])[0], domain), held

    def element(self, pointer, offset, ident):
        """The address of an element: the offset is a product with its size, a literal, or the index of a byte."""
        if isinstance(pointer, SlicePointer):
            owner = dict(name=pointer.name)
            type_ = self.slice(pointer.name).type.element
        elif isinstance(pointer, ArrayPointer):
            owner = dict(array=pointer.local)
            type_ = self.held[pointer.local].element
        else:
            stop('statement %s: the address of an element of something that is no slice and no local array' % ident)
        if offset.product:
            index, size = offset.product
        elif offset.literal is not None:
            size = str(self.types.layout(type_)[0])
            index = str(offset.literal // int(size))
        else:
            index, size = offset.text, '1'
        return Element(index, size, bare=not offset.product and offset.literal is None, **owner)

    def sum_or_product(self, name, left, right, ident):
        fits = 'fits-' + self.dashed(ident)
        value = '%s %s %s' % (parens(left.text), SIGNS[name], parens(right.text))
        self.knows(fits, '%s < 2 ^ %s' % (value, left.type.width), self.proof_of(ident, 'fits', AUTO % ''))
        product = None
        if name == 'mul' and right.literal is not None:
            product = (left.text, str(right.literal))
        return Value(left.type, value, '(refl, %s)' % fits, product=product), '(record { fits = %s })' % fits

    def difference(self, left, right, ident):
        fits, least = 'fits-' + self.dashed(ident), 'le-' + self.dashed(ident)
        value = '%s - %s' % (parens(left.text), parens(right.text))
        self.knows(least, '%s ≤ %s' % (parens(right.text), parens(left.text)), self.proof_of(ident, 'fits', AUTO % ''))
        # a literal's bound says nothing that the literal doesn't
        bound = '' if left.literal is not None else ', ' + bound_of(left.relation)
        self.knows(fits, '%s < 2 ^ %s' % (value, left.type.width), 'omega (arith%s)' % bound)
        return Value(left.type, value, '(refl, %s)' % fits), '(%s)' % least
