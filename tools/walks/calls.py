"""The rule for calls: slices are lent, the callee's contract is cited at the values, and what was lent comes back."""
import re
from dataclasses import dataclass, replace
from typing import Any, Optional

from .held import ArraySlice, Param, Slice, SlicePart, Value
from .mir import is_place, items, local_of, steps_of
from .types import UNIT
from .words import (AUTO, NAME_CHAR, as_tuple, conjuncts, equation, nested, parens, projection, stop, subscript,
                    unwrapped, whole_word)


@dataclass
class Argument:
    """An argument, by how it is handed over: val; a slice as mut, as shr (a `&` slice, copied) or as view (a `&mut`
    slice lent as `&`); a local array as arr or as arrview."""
    name: str  # the callee's parameter
    operand: Any
    mode: str
    # of a value
    plain: str = ''
    value: str = ''
    relation: str = ''
    # of a slice: the list's owner, and where it lies
    label: str = ''
    param: Optional[Param] = None
    local: Optional[int] = None
    row: str = ''
    base: str = ''
    offset: str = ''
    count: str = ''
    part: Optional[tuple] = None  # start and count, of a part
    # the names of its lifetime and of its ghost, while it is lent
    lifetime: str = ''
    ghost: str = ''

    @property
    def is_slice(self):
        return self.mode != 'val'

    @property
    def is_array(self):
        return self.mode in ('arr', 'arrview')

    @property
    def is_changed(self):
        return self.mode in ('mut', 'arr')


class Ensured:
    """What a callee's contract says at the call's values. Where it gives the result or a last list by an equation, the
    walk goes on at that value; all else is a fact. `reads` is the proof's text that takes the contract apart."""

    def __init__(self, contract, values, exits, plain, unit, number):
        self.contract = contract
        self.values = values
        self.exits = exits  # of each slice that may have changed, its last list as the proof has it
        self.plain = plain
        self.unit = unit
        self.parts = conjuncts(contract.ensures) if contract.ensures else []
        self.result = 'tt' if unit else None
        self.lasts = {}
        self.lasts_of_r = {}  # the same where the result is only `r`
        self.paths = {}  # of the result (key None) and of each last list: where the contract says it
        self.read_result()
        self.unknown = self.result is None
        if self.unknown:
            self.result = 'r-' + number
        self.read_lasts()
        self.read_facts()
        self.reads = self.reading('ws-' + number)

    def exit_of(self, side):
        """The parameter whose last list this side is, if any."""
        match = re.fullmatch(r'now\s*\(\s*(%s+)\s*\.exit\s*\)' % NAME_CHAR, unwrapped(side))
        return match.group(1) if match and match.group(1) in self.exits else None

    def equations(self):
        """The equations of the contract whose right side speaks of what stood at entry, or of the result."""
        for text, path in self.parts:
            sides = equation(text)
            if sides and '.exit' not in sides[1]:
                yield sides[0], sides[1], path

    def read_result(self):
        name = self.contract.result
        for left, right, path in self.equations():
            if unwrapped(left) == name and self.result is None and name not in re.findall(NAME_CHAR + '+', right):
                self.result = self.contract.at(right, self.values, {}, '')
                self.paths[None] = path

    def read_lasts(self):
        """The last lists; they may be said by the result."""
        for left, right, path in self.equations():
            param = self.exit_of(left)
            if param and param not in self.lasts:
                self.lasts[param] = self.contract.at(right, self.values, {}, self.result)
                self.lasts_of_r[param] = self.contract.at(right, self.values, {}, 'r' if self.unknown else self.result)
                self.paths[param] = path

    def read_facts(self):
        """All that is handed on: (the parameter or None, the fact, the path in the contract)."""
        self.facts = [(param, '%s ≡ %s' % (exit_, self.lasts_of_r[param]), self.paths[param])
                      for param, exit_ in self.exits.items() if param in self.lasts]
        for text, path in self.parts:
            if path not in self.paths.values():
                fact = self.contract.at(text, self.values, self.exits, 'r' if self.unknown else self.result)
                self.facts.append((None, fact, path))

    @property
    def handed_on(self):
        """The facts as one type."""
        return ' × '.join('(%s)' % fact for _, fact, _ in self.facts) if self.facts else 'Unit {0}'

    def place_of(self, param):
        """Among the facts, the equation of a last list; None where it is not known."""
        return next((place for place, fact in enumerate(self.facts) if fact[0] == param), None)

    def reading(self, lasts):
        known = '(r ≡ %s) × (%s)' % (parens(self.result), self.handed_on)
        target = self.handed_on if self.unknown else known
        if not self.contract.ensures:
            return 'λ r %s. factI 𝓤 (%s) _ %s' % (lasts, target, 'tt' if self.unknown else '(refl, tt)')
        whole = self.contract.at(self.contract.ensures, self.values, self.exits, 'r')
        return 'λ r %s. fact-mono 𝓤 (%s) (%s) (λ e. %s)' % (lasts, whole, target, self.taken_apart())

    def taken_apart(self):
        """The proof of what is handed on, from the contract's fact `e`."""
        proofs = ['e' + path for _, _, path in self.facts]
        if self.unknown:
            return as_tuple(proofs)
        if self.unit:
            return '(refl, %s)' % as_tuple(proofs)
        by_result = self.paths[None]
        texts = {path: text for text, path in self.parts}
        proofs = []
        for _, _, path in self.facts:
            proof = 'e' + path
            if self.contract.speaks_of_result(texts[path]):
                fact = self.contract.at(texts[path], self.values, self.exits, 'r')
                proof = 'subst (λ (r : %s .row .Denot). %s) (e%s) (%s)' % (self.plain, fact, by_result, proof)
            proofs.append(proof)
        return '(e%s, %s)' % (by_result, as_tuple(proofs))


class Call:
    """One call in a walk."""

    def __init__(self, walk, statement, ident, last):
        self.walk = walk
        self.statement = statement
        self.ident = ident
        self.number = walk.dashed(ident)
        self.last = last
        self.callee = walk.callee(statement)
        self.contract = self.callee.contract
        self.destination = local_of(statement[3])
        if steps_of(statement[3]):
            stop('statement %s: the result of the call goes to a part of a local: use a `let`' % ident)
        self.arguments = self.read_arguments()
        self.lent = [argument for argument in self.arguments if argument.is_slice]
        labels = [argument.label for argument in self.lent]
        if len(set(labels)) < len(labels):
            stop('statement %s lends one slice twice in one call' % ident)
        self.tokens = []  # of each slice lent: its lifetime and share
        self.lengths = {}  # that a last list has its slice's length, by label

    def walk_through(self):
        walk = self.walk
        self.know_parts()
        self.plain = walk.types.plain(self.callee.types[0])
        values = {argument.name: self.list(argument) if argument.is_slice else argument.value
                  for argument in self.arguments}
        exits = {argument.name: 'ws-%s%s' % (self.number, projection(place))
                 for place, argument in enumerate(self.arguments) if argument.is_changed}
        self.ensured = Ensured(self.contract, values, exits, self.plain, self.callee.types[0] == UNIT, self.number)
        asks = self.ask(values)
        walk.emit('-- %s: %s' % (self.ident, self.contract.path))
        for argument in self.lent:
            self.lend(argument)
        self.hand_over()
        self.cite(asks)
        self.take_back_tokens()
        self.take_back_lasts()
        for argument in self.lent:
            self.take_back(argument)
        self.land()

    # ---- arguments

    def read_arguments(self):
        slices = 0
        arguments = []
        for place, (operand, type_) in enumerate(zip(items(self.statement[2]), self.callee.types[1:])):
            name = self.contract.params[place]
            if type_.kind == 'slice':
                if type_.lifetime != ['named', str(slices)]:
                    stop('statement %s: `%s` takes slices that share a lifetime: leave the lifetimes out there'
                         % (self.ident, self.contract.path))
                slices += 1
                arguments.append(self.slice_argument(name, operand, type_.mutability == 'mut'))
            elif type_.kind == 'ref':
                stop('statement %s: `%s` takes a reference (`%s`): pass the value, or a slice'
                     % (self.ident, self.contract.path, name))
            else:
                _, held = self.walk.operand(operand)
                if not isinstance(held, Value):
                    stop('statement %s: the argument `%s` is no value' % (self.ident, name))
                arguments.append(Argument(name, operand, 'val', plain=self.walk.types.plain(type_), value=held.text,
                                          relation=held.relation))
        return arguments

    def slice_argument(self, name, operand, mutable):
        walk = self.walk
        if not is_place(operand) or steps_of(operand[1]):
            stop('statement %s: the slice argument `%s` is no local' % (self.ident, name))
        held = walk.held[local_of(operand[1])]
        if isinstance(held, ArraySlice):
            row = walk.types.row(walk.held[held.local].element)
            return Argument(name, operand, 'arr' if mutable else 'arrview', local=held.local, label='_%d' % held.local,
                            row=row, base='l' + subscript(held.local), offset='0', count=held.count)
        if not isinstance(held, (Slice, SlicePart)):
            stop('statement %s: the slice argument `%s` is not a slice that the walk holds' % (self.ident, name))
        param = walk.slice(held.name)
        mode = 'mut' if mutable else 'view' if param.kind == 'mut' else 'shr'
        argument = Argument(name, operand, mode, label=param.name, param=param, row=param.row, base='b' + param.number,
                            offset='o' + param.number, count='n' + param.number)
        if isinstance(held, SlicePart):
            if mutable and param.kind != 'mut':
                stop('statement %s lends a part of a `&` as `&mut`' % self.ident)
            argument.offset = '(%s)' % walk.start_of(held)
            argument.count = parens(held.count)
            argument.part = (parens(held.start), parens(held.count))
        return argument

    def whole_list(self, argument):
        """The list of the slice, or of the local array, that an argument is or is a part of."""
        if argument.is_array:
            return self.walk.held[argument.local].list
        return self.walk.current[argument.label][0]

    def list(self, argument):
        whole = self.whole_list(argument)
        return 'midOf %s %s %s' % (*argument.part, parens(whole)) if argument.part else whole

    def know_parts(self):
        """That each part lies within its slice, and has its length."""
        for argument in self.lent:
            if argument.part:
                name = 'part-%s-%s' % (self.number, argument.label)
                whole = parens(self.whole_list(argument))
                self.walk.knows(name, '%s + %s ≤ length %s' % (*argument.part, whole),
                                self.walk.proof_of(self.ident, 'part', AUTO % ''))
                self.walk.knows('p' + name, 'length (%s) ≡ %s' % (self.list(argument), argument.part[1]),
                                'part-len %s %s %s %s' % (*argument.part, whole, name))

    def ask(self, values):
        """The callee's requires."""
        if not self.contract.requires:
            return 'id⊢ 𝓤 _'
        fact = self.contract.at(self.contract.requires, values, {}, '')
        self.walk.knows('asks-' + self.number, fact, self.walk.proof_of(self.ident, 'asks', AUTO % ''))
        return 'factI 𝓤 (%s) _ asks-%s' % (fact, self.number)

    # ---- lending

    def lend(self, argument):
        if argument.is_array:
            return self.lend_array(argument)
        walk = self.walk
        label, param = argument.label, argument.param
        list_, length = walk.current[label]
        where = '%s b%s o%s %s n%s' % (argument.row, param.number, param.number, parens(list_), param.number)
        walk.front(param.own, param.token)
        if argument.mode == 'shr':
            walk.emit('copies-shr ! %s $' % where)
            walk.swap(2, 'tk:' + label, 'arg:' + label, param.own)
            self.tokens.append(('κ' + param.number, 'q' + param.number))
            argument.ghost = 'γ' + param.number
        else:
            argument.lifetime, argument.ghost = 'ν-%s-%s' % (self.number, label), 'δ-%s-%s' % (self.number, label)
            bound = '(λ %s %s.' % (argument.lifetime, argument.ghost)
            if argument.part and argument.mode == 'mut':
                walk.script.open('lends-part ! tt %s (%s) %s %s part-%s-%s %s'
                                 % (where, length, *argument.part, self.number, label, bound))
            else:
                rule = 'lends-mut' if argument.mode == 'mut' else 'lends-view'
                walk.script.open('%s ! tt %s (%s) %s' % (rule, where, length, bound))
            walk.swap(2, 'tk:' + label, 'arg:' + label, 'kept:' + label)
            self.tokens.append(('(%s ∷ [])' % argument.lifetime, 'fullShare'))
        if argument.part and argument.mode != 'mut':
            walk.front('arg:' + label, 'tk:' + label)
            argument.ghost = 'δp-%s-%s' % (self.number, label)
            plain = walk.types.plain(param.type.element)
            walk.script.open('parts-shr ! tt %s b%s o%s %s n%s (%s) %s %s part-%s-%s (λ %s.'
                             % (plain, param.number, param.number, parens(list_), param.number, length, *argument.part,
                                self.number, label, argument.ghost))

    def lend_array(self, argument):
        walk = self.walk
        local, label = argument.local, argument.label
        array = walk.held[local]
        names = '%s-%d' % (self.number, local)
        walk.front('l%d' % local)
        argument.lifetime, argument.ghost = 'ν-' + names, 'δ-' + names
        plain = walk.types.plain(array.element)
        walk.script.open('lends-array ! tt %s tt (%s .makes 𝓤 H A W) (%s .ty) %s refl l%s %s _ %s (lit< tt, lit< tt)'
                         ' (λ %s %s llen-%s.'
                         % (argument.row, plain, plain, argument.count, subscript(local), parens(array.list),
                            parens(array.relation), argument.lifetime, argument.ghost, names))
        walk.swap(1, 'tk:' + label, 'arg:' + label, 'kept:' + label)
        if argument.mode == 'arrview':
            walk.front('arg:' + label, 'tk:' + label)
            argument.lifetime, argument.ghost = 'ν2-' + names, 'δ2-' + names
            walk.script.open('lends-view ! tt %s l%s 0 %s %s llen-%s (λ %s %s.'
                             % (argument.row, subscript(local), parens(array.list), argument.count, names,
                                argument.lifetime, argument.ghost))
            walk.swap(2, 'tk:' + label, 'arg:' + label, 'keptv:' + label)
        self.tokens.append(('(%s ∷ [])' % argument.lifetime, 'fullShare'))

    def hand_over(self):
        """The tokens together, and the arguments together, as the contract takes them."""
        walk = self.walk
        self.lifetimes = nested([lifetime for lifetime, _ in self.tokens])
        self.shares = nested([share for _, share in self.tokens])
        walk.emit('nothing ! $')
        walk.context.insert(0, 'true')
        for argument in reversed(self.lent):
            walk.front('tk:' + argument.label, 'true')
            walk.emit('join ! $')
            walk.context.pop(0)
        walk.emit('use1 W (raw (toks 𝓤 A %d (%s) (%s))) (id⊢ 𝓤 _) $' % (len(self.lent), self.lifetimes, self.shares))
        walk.emit('nothing ! $')
        walk.context.insert(0, 'owned')
        for argument in reversed(self.arguments):
            if argument.is_slice:
                walk.front('arg:' + argument.label, 'owned')
                walk.emit('fjoin ! $')
                walk.context.pop(0)
            else:
                walk.front('owned')
                plain, value = argument.plain, parens(argument.value)
                walk.emit('owned ! (%s .row) (Is (%s .row)) (%s .makes 𝓤 H A W) %s (%s .val %s ∷ []) %s $ fjoin ! $'
                          % (plain, plain, plain, value, plain, value, parens(argument.relation)))
        walk.front('true', 'owned')
        walk.context = walk.context[2:]

    def at_entry(self, argument):
        if not argument.is_slice:
            return argument.value
        return ('at-list %s %s %s %s'
                % (argument.base, argument.offset, argument.ghost, parens(self.list(argument))))

    def cite(self, asks):
        """The callee's contract, at these arguments."""
        walk, ensured = self.walk, self.ensured
        alias = self.callee.alias
        self.entry = nested([self.at_entry(argument) for argument in self.arguments])
        bytes_ = nested(['sliceVal (%s, %s) %s ∷ []' % (argument.base, argument.offset, argument.count)
                         if argument.is_slice else '%s .val %s ∷ []' % (argument.plain, parens(argument.value))
                         for argument in self.arguments])
        operands = (''.join('(and-then ! %s ' % walk.operand(argument.operand, 1)[0] for argument in self.arguments)
                    + '(no-more !)' + ')' * len(self.arguments))
        unknown = ensured.unknown
        lasts = 'ws-' + self.number
        handed_on = '(λ %s%s. %s)' % ('r ' if unknown else '', lasts, ensured.handed_on)
        walk.script.open(
            'calls-%s%s ! fm %d [] (%s.signature .params) (%s.ended .kept) %s (%s.clauses 𝓤 H A mem run) known-%s'
            ' %s %s tt %s %s tt %s%s (%s) (%s) (λ _. %s) (λ %s%s said-%s is-%s.'
            % ('some' if unknown else 'any', '-last' if self.last else '', len(self.lent), alias, alias, self.plain,
               alias, alias, self.lifetimes, self.shares, self.entry, bytes_,
               '' if unknown else parens(ensured.result) + ' ', handed_on, asks, ensured.reads, operands,
               'r-%s ' % self.number if unknown else '', lasts, self.number, self.number))
        if unknown:
            walk.scope.append((ensured.result, '%s .row .Denot' % self.plain))
        walk.context = ['toks', 'lasts'] + walk.context

    # ---- taking back

    def take_back_tokens(self):
        if not self.lent:
            return
        walk = self.walk
        tokens = ''.join('(‵ (flft %s %s) ⊛ ' % token for token in self.tokens)
        walk.emit('use1 W (%s) (id⊢ 𝓤 _) $' % (tokens + '‵ ftrue' + ')' * len(self.lent)))
        for argument in self.lent:
            walk.front('toks')
            walk.emit('split ! $')
            walk.swap(1, 'tk:' + argument.label, 'toks')

    def take_back_lasts(self):
        """What the callee leaves of each argument, up to the last slice."""
        walk = self.walk
        upto = max([place for place, argument in enumerate(self.arguments) if argument.is_slice], default=-1)
        for place, argument in enumerate(self.arguments[:upto + 1]):
            walk.front('lasts')
            walk.emit('fsplit ! $')
            walk.swap(1, 'left:%d' % place, 'lasts')
            if argument.is_changed:
                self.lengths[argument.label] = 'wlen-%s-%d' % (self.number, place)
                walk.emit('fsplit ! $')
                walk.swap(1, 'fin:' + argument.label, 'feq')
                walk.front('feq')
                walk.script.open('feqL ! (λ %s.' % self.lengths[argument.label])
                walk.context.pop(0)

    def take_back(self, argument):
        walk = self.walk
        if argument.mode == 'mut':
            self.take_back_changed(argument)
        elif argument.mode == 'view':
            list_, length = walk.current[argument.label]
            number = argument.param.number
            walk.front('tk:' + argument.label, 'kept:' + argument.label)
            walk.emit('backs-view ! tt %s b%s o%s %s n%s (%s) %s $'
                      % (argument.row, number, number, parens(list_), number, length, argument.lifetime))
            walk.swap(2, argument.param.own, argument.param.token)
        elif argument.mode == 'arr':
            self.take_back_array(argument)
        elif argument.mode == 'arrview':
            self.take_back_array_view(argument)
        else:
            walk.context[walk.at('tk:' + argument.label)] = argument.param.token

    def said(self, place):
        """One of the facts that the contract handed on."""
        return 'said-%s' % self.number + (' .%d' % place if len(self.ensured.facts) > 1 else '')

    def last_of(self, argument):
        """The last list as the proof has it, its value, and that they are the same."""
        as_left = self.ensured.exits[argument.name]
        place = self.ensured.place_of(argument.name)
        if place is None:
            return as_left, as_left, 'refl'
        return as_left, self.ensured.lasts[argument.name], self.said(place)

    def take_back_changed(self, argument):
        walk, label, number = self.walk, argument.label, argument.param.number
        list_, length = walk.current[label]
        as_left, last, same = self.last_of(argument)
        new_length = 'len-%s-%s' % (self.number, label)
        walk.front('tk:' + label, 'kept:' + label, 'fin:' + label)
        where = '%s b%s o%s %s n%s (%s)' % (argument.row, number, number, parens(list_), number, length)
        lent = '%s %s (%s) %s' % (argument.lifetime, argument.ghost, as_left, parens(last))
        if argument.part:
            new = 'putMid %s %s %s %s' % (*argument.part, parens(list_), parens(last))
            walk.script.open('backs-part ! tt %s %s %s %s (%s) (λ %s.'
                             % (where, *argument.part, lent, same, new_length))
            fact = 'length (%s) ≡ n%s' % (new, number)
        else:
            new = last
            walk.script.open('backs-mut ! tt %s %s %s %s (%s) (λ %s.'
                             % (where, argument.param.room, lent, self.lengths[label], same, new_length))
            fact = 'length %s ≡ n%s' % (parens(new), number)
        walk.swap(3, argument.param.own, argument.param.token)
        walk.current[label] = (new, new_length)
        walk.scope.append((new_length, fact))

    def back_array(self, argument, lifetime, ghost, list_):
        """The local array as it was lent: the names of its bytes, and of their relation."""
        walk, local = self.walk, argument.local
        value, relation = 'v-%s-%d' % (self.number, local), 'vis-%s-%d' % (self.number, local)
        plain = walk.types.plain(walk.held[local].element)
        walk.front('tk:' + argument.label, 'kept:' + argument.label, 'fin:' + argument.label)
        walk.script.open('backs-array ! tt %s (%s .ty) %s refl l%s %s %s %s (λ %s %s.'
                         % (argument.row, plain, argument.count, subscript(local), lifetime, ghost, list_, value,
                            relation))
        walk.swap(3, 'l%d' % local)
        walk.scope.append((value, 'Val'))
        return value, relation

    def is_array(self, argument, list_, value):
        return 'Is (Array %s %s) %s (%s ∷ [])' % (argument.row, argument.count, list_, value)

    def take_back_array(self, argument):
        walk, local = self.walk, argument.local
        as_left, last, same = self.last_of(argument)
        value, relation = self.back_array(argument, argument.lifetime, argument.ghost, '(%s)' % as_left)
        values = walk.types.values(walk.held[local].element)
        name = 'ais-%s-%d' % (self.number, local)
        proof = relation
        if as_left != last:
            proof = ('subst (λ (us : List %s). %s) (%s) %s'
                     % (values, self.is_array(argument, 'us', value), same, relation))
        walk.knows(name, self.is_array(argument, parens(last), value), proof)
        walk.held[local] = replace(walk.held[local], list=last, value=value, relation=name)

    def take_back_array_view(self, argument):
        walk, local, label = self.walk, argument.local, argument.label
        array = walk.held[local]
        list_ = parens(array.list)
        names = '%s-%d' % (self.number, local)
        where = '%s l%s 0 %s %s' % (argument.row, subscript(local), list_, argument.count)
        walk.front('tk:' + label, 'keptv:' + label)
        walk.emit('backs-view ! tt %s llen-%s %s $' % (where, names, argument.lifetime))
        walk.swap(2, 'arg:' + label, 'tk:' + label)
        walk.emit('ends-mut ! %s $' % where)
        walk.swap(2, 'tk:' + label, 'fin:' + label)
        value, relation = self.back_array(argument, 'ν-' + names, 'δ-' + names, list_)
        walk.scope.append((relation, self.is_array(argument, list_, value)))
        walk.held[local] = replace(array, value=value, relation=relation)

    # ---- the result

    def land(self):
        walk, ensured, number = self.walk, self.ensured, self.number
        facts = [(place, re.sub(whole_word('r'), ensured.result, fact) if ensured.unknown else fact)
                 for place, (param, fact, _) in enumerate(ensured.facts) if param is None]
        # what the lengths and bytes that came back speak of stands in scope before them
        own = tuple(prefix % number for prefix in ('len-%s-', 'v-%s-', 'ais-%s-', 'vis-%s-'))
        before = len(walk.scope) - sum(1 for name, _ in walk.scope if name.startswith(own))
        walk.scope[before:before] = self.scope_of_lasts(facts)
        walk.scope.append(('is-' + number, 'Is (%s .row) %s (%s .val %s ∷ [])'
                           % (self.plain, parens(ensured.result), self.plain, parens(ensured.result))))
        walk.tidy()
        walk.held[self.destination] = Value(self.callee.types[0], ensured.result, 'is-' + number)
        walk.emit('land%s ! (from ! (stop !)) %s $' % ('-last' if self.last else '', walk.fill(self.destination)))
        walk.filled.add(self.destination)
        walk.calls += 1

    def scope_of_lasts(self, facts):
        """The last lists where they are spoken of, and what is said as facts."""
        ensured, lasts = self.ensured, 'ws-' + self.number
        scope = []
        changed = [argument for argument in self.arguments if argument.is_changed]
        if any(argument.name not in ensured.lasts for argument in changed) or any(lasts in fact for _, fact in facts):
            for argument in self.lent:
                if argument.lifetime:
                    scope += [(argument.lifetime, 'ℕ'), (argument.ghost, 'GName')]
            alias = self.callee.alias
            scope.append((lasts, 'Fins %s (%s.signature .params) (%s.ended .kept) %s'
                          % (self.lifetimes, alias, alias, self.entry)))
        if facts:
            type_ = ' × '.join('(%s)' % fact for _, fact in facts)
            proofs = as_tuple([self.said(place) for place, _ in facts])
            self.walk.script.open('knows ! (%s) (%s) (λ fact-%s.' % (type_, proofs, self.number))
            scope.append(('fact-' + self.number, type_))
        return scope
