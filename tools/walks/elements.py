"""The rules for assignments: to a local, from an element of a slice, and to one."""
from dataclasses import dataclass, replace
from typing import Optional

from .held import Element, Value
from .mir import is_place, local_of, steps_of
from .operands import FIELD_IN_PLACE
from .types import Type
from .words import AUTO, parens, stop, subscript

# what an opened element is in the context: its cell, and what gives the slice back
OPENED = 'cell', 'eown', 'oth', 'obor', 'obs', 'auth'
VIEWED = 'cell', 'eown', 'oth', 'obor', 'shb', 'res'


@dataclass
class Holder:
    """What holds an element while it is read or stored: a slice, or a local array that is lent for the statement."""
    base: str
    offset: str
    count: str
    list: str
    length: str  # that the list has this count
    room: str
    mutable: bool
    type: Type
    plain: str
    blank: str
    own: str  # the labels of what is owned, and of the token
    token: str
    name: str = ''  # the slice
    array: Optional[int] = None  # or the local

    @property
    def arguments(self):
        return ('%s %s %s %s %s (%s)'
                % (self.plain, self.base, self.offset, parens(self.list), self.count, self.length))


class Elements:
    def assign(self, statement, ident, last):
        destination = local_of(statement[1])
        steps = steps_of(statement[1])
        right = statement[2]
        if right[0] == 'rvOpd' and is_place(right[1]):
            source = steps_of(right[1][1])
            if source and source[0][0] == 'deref':
                if len(source) > 1:
                    stop(FIELD_IN_PLACE % ident)
                if steps:
                    stop('statement %s stores an element of a slice into a part of a local: use a `let` first' % ident)
                return self.read_element(destination, local_of(right[1][1]), ident, last)
        if steps:
            return self.store_element(destination, steps, right, ident, last)
        self.assign_local(destination, right, ident, last)

    def assign_local(self, destination, right, ident, last):
        text, held = self.right_side(right, destination, ident)
        if isinstance(held, Value):
            held = replace(held, literal=None)
        self.held[destination] = held
        self.emit('assigns%s ! %s (from ! (stop !)) %s $' % ('-last' if last else '', text, self.fill(destination)))
        self.filled.add(destination)
        if right[0] == 'op2' and isinstance(held, Element):
            if last:
                stop('statement %s: an element\'s address ends an arm' % ident)
            self.name_place(destination, held)

    def name_place(self, destination, element):
        """Writes an element's address by its index."""
        base, offset = 'l' + subscript(element.array or 0), '0'
        if element.array is None:
            number = self.slice(element.name).number
            base, offset = 'b' + number, 'o' + number
        law = 'place-byte' if element.bare else 'place-is ' + element.size
        self.emit('rewrite ! %d (λ (p : ℕ). ‵ (fat fullShare tyPtr l%s 0 (vptr %s p))) (sym (%s %s %s)) refl $'
                  % (self.at('l%d' % destination), subscript(destination), base, law, offset, parens(element.index)))

    def read_element(self, destination, pointer, ident, last):
        """`let o = row[i];`"""
        element = self.held.get(pointer)
        if not isinstance(element, Element):
            stop('statement %s reads through _%d, which is no pointer to an element of a slice' % (ident, pointer))
        holder = self.holder(element, ident)
        number = self.dashed(ident)
        value = 'getD %s %s %s' % (parens(holder.list), parens(element.index), parens(holder.blank))
        index = '%s %s index-%s' % (parens(element.index), parens(holder.blank), number)
        if holder.mutable:
            self.script.open('opens-elem ! tt %s %s (λ is-%s.' % (holder.arguments, index, number))
            self.swap(2, *OPENED)
        else:
            self.script.open('views-elem ! tt %s %s (λ s-%s is-%s.' % (holder.arguments, index, number, number))
            self.swap(2, *VIEWED)
        plain = holder.plain
        self.scope.append(('is-' + number, 'Is (%s .row) (%s) (%s .val (%s) ∷ [])' % (plain, value, plain, value)))
        self.held[destination] = Value(holder.type, value, 'is-' + number)
        self.emit('assigns%s ! (of-opd ! (load ! (from ! (hop ! (%s) (stop !))) (look-raw ! 0 refl)))'
                  ' (from ! (stop !)) %s $' % ('-last' if last else '', self.look(pointer), self.fill(destination)))
        self.filled.add(destination)

        def shut():
            if holder.mutable:
                self.emit('shuts-elem ! tt %s %s %s $' % (holder.arguments, holder.room, index))
            else:
                self.emit('unviews-elem ! tt %s %s %s s-%s $' % (holder.arguments, holder.room, index, number))
            self.swap(6, holder.own, holder.token)
            self.release(holder, holder.list, holder.length, number)

        self.now_or_later(shut, ident, last)

    def store_element(self, pointer, steps, right, ident, last):
        """`row[i] = o;`"""
        if steps[0][0] != 'deref':
            stop('statement %s stores to a part of _%d: make the struct anew, or do it in a function by value'
                 % (ident, pointer))
        if len(steps) > 1:
            stop('statement %s stores to a field of an element in place: '
                 'write `let mut o = row[i]; .. row[i] = o;`' % ident)
        element = self.held.get(pointer)
        if not isinstance(element, Element):
            stop('statement %s stores through _%d, which is no pointer to an element of a slice' % (ident, pointer))
        if right[0] != 'rvOpd':
            stop('statement %s: store a local into the element' % ident)
        _, stored = self.operand(right[1])
        holder = self.holder(element, ident)
        number = self.dashed(ident)
        if not holder.mutable:
            stop('statement %s stores to an element of a `&` slice' % ident)
        index = '%s %s' % (parens(element.index), parens(holder.blank))
        self.script.open('opens-elem ! tt %s %s index-%s (λ _.' % (holder.arguments, index, number))
        self.swap(2, *OPENED)
        self.emit('assigns%s ! (of-opd ! %s) (from ! (hop ! (%s) (stop !)))'
                  ' (store-raw ! 0 refl (%s .typed 𝓤 H A W %s %s)) $'
                  % ('-last' if last else '', self.operand(right[1])[0], self.look(pointer), holder.plain,
                     parens(stored.text), parens(stored.relation)))
        new = 'set %s %s %s' % (parens(holder.list), parens(element.index), parens(stored.text))

        def shut():
            self.script.open('puts-elem ! tt %s %s %s %s index-%s %s (λ len-%s.'
                             % (holder.arguments, holder.room, index, parens(stored.text), number,
                                parens(stored.relation), number))
            self.swap(6, holder.own, holder.token)
            self.scope.append(('len-' + number, 'length (%s) ≡ %s' % (new, holder.count)))
            self.release(holder, new, 'len-' + number, number)

        self.now_or_later(shut, ident, last)

    def now_or_later(self, shut, ident, last):
        """The last statement of an arm is shut behind the arm."""
        if last:
            self.pending = (shut, ident)
        else:
            shut()

    def holder(self, element, ident):
        """What holds the element. It then stands in front."""
        number = self.dashed(ident)
        array = None
        if element.array is not None:
            array = self.held[element.array]
            type_, list_ = array.element, array.list
        else:
            param = self.slice(element.name)
            type_, list_ = param.type.element, self.current[param.name][0]
        self.calls += .5
        plain = self.types.plain(type_)
        blank = self.description.get('blank', {}).get(self.types.show(type_)) or self.types.blank(type_)
        if array and array.relation.startswith('rep-is'):
            self.knows('llen0-' + number, 'length (%s) ≡ %s' % (list_, array.count), 'refl')
        self.knows('index-' + number, '%s < length %s' % (element.index, parens(list_)),
                   self.proof_of(ident, 'index', AUTO % ''))
        if array:
            return self.lend_array(element.array, plain, blank, number)
        self.front(param.own, param.token)
        return Holder('b' + param.number, 'o' + param.number, 'n' + param.number, list_, self.current[param.name][1],
                      param.room, param.kind == 'mut', type_, plain, blank, param.own, param.token, name=param.name)

    def lend_array(self, local, plain, blank, number):
        array = self.held[local]
        label = '_%d' % local
        self.front('l%d' % local)
        self.script.open('lends-array ! tt %s tt (%s .makes 𝓤 H A W) (%s .ty) %s refl l%s %s _ %s (lit< tt, lit< tt)'
                         ' (λ ν-%s δ-%s llen-%s.'
                         % (self.types.row(array.element), plain, plain, array.count, subscript(local),
                            parens(array.list), parens(array.relation), number, number, number))
        self.swap(1, 'tk:' + label, 'arg:' + label, 'kept:' + label)
        self.front('arg:' + label, 'tk:' + label)
        return Holder('l' + subscript(local), '0', array.count, array.list, 'llen-' + number, '(lit< tt, lit< tt)',
                      True, array.element, plain, blank, 'arg:' + label, 'tk:' + label, array=local)

    def release(self, holder, list_, length, number):
        """The slice goes on at its list; a local array is given back."""
        if holder.array is None:
            self.current[holder.name] = (list_, length)
            return
        local = holder.array
        label = '_%d' % local
        row = self.types.row(holder.type)
        self.emit('ends-mut ! %s %s 0 %s %s $' % (row, holder.base, parens(list_), holder.count))
        self.swap(2, 'tk:' + label, 'fin:' + label)
        self.front('tk:' + label, 'kept:' + label, 'fin:' + label)
        self.script.open('backs-array ! tt %s (%s .ty) %s refl %s ν-%s δ-%s %s (λ v-%s vis-%s.'
                         % (row, holder.plain, holder.count, holder.base, number, number, parens(list_), number,
                            number))
        self.swap(3, 'l%d' % local)
        self.scope.append(('v-' + number, 'Val'))
        relation = 'Is (Array %s %s) %s (v-%s ∷ [])' % (row, holder.count, parens(list_), number)
        self.scope.append(('vis-' + number, relation))
        self.held[local] = replace(self.held[local], list=list_, value='v-' + number, relation='vis-' + number)
