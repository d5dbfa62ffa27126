"""The rule for blocks and loops. A loop becomes a module of lemmas: its invariant, one turn, all turns, the loop."""
from .held import LocalArray, Slice, Value
from .mir import is_loop, local_of, statements, steps_of
from .part import Part
from .words import AUTO, parens, stop

# The lemmas of a loop. %(number)s is its statement; %(names)s are what it carries from turn to turn, %(binders)s the
# same with types, and %(laws)s the names of their relations and lengths.
INVARIANT = (
    'abbrev At-%(number)s : %(binders)sList (Item 𝓤)\n%(at)s = %(context)s\n',
    'abbrev Facts-%(number)s : ℕ → %(binders)sType 0\nFacts-%(number)s t %(names)s = %(facts)s\n',
    'abbrev Inv-%(number)s : ℕ → SProp 𝓤\nInv-%(number)s t = %(quantified)s\n',
    'abbrev Below-%(number)s : ℕ → SProp 𝓤\n'
    'Below-%(number)s t = ex 𝓤 (λ (u : ℕ). guard 𝓤 (u < t) (Inv-%(number)s u))\n',
    'abbrev Left-%(number)s : Out → SProp 𝓤\nLeft-%(number)s = afterBlock 𝓤 H %(then)s\n',
    'inv-at-%(number)s : (t : ℕ) → %(binders)sFacts-%(number)s t %(names)s'
    ' → ent 𝓤 (⋆ 𝓤 H A (%(at)s)) (Inv-%(number)s t)\n'
    'inv-at-%(number)s t %(names)s fs = %(introduced)s\n',
    'again-%(number)s : (t : ℕ) → %(binders)s%(law_binders)s(%(invariant)s) → (%(measure)s < t)'
    ' → ent 𝓤 (⋆ 𝓤 H A (%(at)s)) (Below-%(number)s t)\n'
    'again-%(number)s t %(names)s %(laws)s inv less = via 𝓤 (Inv-%(number)s %(measure)s) (%(holds)s)'
    ' (via 𝓤 (guard 𝓤 (%(measure)s < t) (Inv-%(number)s %(measure)s))'
    ' (guardI 𝓤 (%(measure)s < t) (Inv-%(number)s %(measure)s) less)'
    ' (exI 𝓤 (λ (u : ℕ). guard 𝓤 (u < t) (Inv-%(number)s u)) %(measure)s))\n',
)
TURN = (
    'turn-%(number)s : %(scope)sent 𝓤 (⋆ 𝓤 H A (%(at)s)) (Wp 𝓤 H C Λ En %(turn)s %(then)s)\nunfolding afterTurn\n'
    'turn-%(number)s %(scope_names)s =\n'
    '    qed W (%(at)s) ∵ exec ! C Λ En %(turn)s (anyQ %(then)s) $\n')
ALL_TURNS = (
    'turns-%(number)s : (t : ℕ) → ent 𝓤 (Inv-%(number)s t)'
    ' (Wp 𝓤 H C Λ En %(turn)s (afterTurn 𝓤 H (Below-%(number)s t) Left-%(number)s))\n'
    'turns-%(number)s t = %(eliminated)s\n')
WHOLE = (
    'loops-%(number)s : %(both_binders)s(%(invariant)s)'
    ' → ent 𝓤 (⋆ 𝓤 H A (%(at)s)) (Wp 𝓤 H C Λ En (loop %(turn)s) Left-%(number)s)\n'
    'loops-%(number)s %(both)s inv = via 𝓤 (Inv-%(number)s %(measure)s) (%(holds)s)'
    ' (loop-rule 𝓤 H (W .laws) 𝓣 _<_ (Nat·lt-wfRel .wf) En %(turn)s Left-%(number)s Inv-%(number)s'
    ' turns-%(number)s %(measure)s)\n')


class Changes:
    """What a loop's body may change: the locals that it assigns, those that it stores through, those that it takes a
    `&mut` of, and of an element's address the local with the slice's."""

    def __init__(self, walk, body):
        self.walk = walk
        self.assigned = set()
        self.stored_through = set()
        self.lent = set()
        self.addresses = {}
        self.read(body)

    def read(self, expression):
        if not isinstance(expression, list):
            return
        if expression[0] == 'assign':
            self.read_assign(local_of(expression[1]), steps_of(expression[1]), expression[2])
        elif expression[0] == 'call':
            self.assigned.add(local_of(expression[3]))
        else:
            for part in expression[1:]:
                self.read(part)

    def read_assign(self, local, steps, right):
        if steps:
            self.stored_through.add(local)
            return
        self.assigned.add(local)
        type_ = self.walk.local_types[local]
        if right[0] == 'addrOf' and type_.kind == 'ref' and type_.mutability == 'mut':
            self.lent.add(local_of(right[1]))
        if right[0] == 'op2' and right[1] == 'offset':
            self.addresses[local] = local_of(right[2][1])

    def slices(self):
        """The slices that may be changed."""
        owners = self.lent | {self.addresses[local] for local in self.stored_through if local in self.addresses}
        return {self.walk.held[local].name for local in owners if isinstance(self.walk.held.get(local), Slice)}


class Carried:
    """Something that changes from turn to turn: a local's value, or a slice's list."""

    def __init__(self, name, type_, law, law_type, start, start_law, local=None, slice_name=None):
        self.name = name
        self.type = type_
        self.law = law  # the name of its relation, or of the proof of its length
        self.law_type = law_type
        self.start = start
        self.start_law = start_law
        self.local = local
        self.slice_name = slice_name


class Loop:
    """A loop in a walk, with what its lemmas speak of."""

    def __init__(self, ident, number, part, carried, filled_at_head, measure, invariant):
        self.ident = ident
        self.number = number
        self.part = part
        self.carried = carried
        self.filled_at_head = filled_at_head
        self.measure = measure
        self.invariant = invariant
        self.names = ' '.join(one.name for one in carried)
        self.at = 'At-%s %s' % (number, self.names)

    def fields(self, **more):
        """What the lemmas' texts are filled with."""
        carried = self.carried
        return dict(
            more, number=self.number, at=self.at, names=self.names, invariant=self.invariant,
            measure=parens(self.measure), laws=' '.join(one.law for one in carried),
            binders=''.join('(%s : %s) → ' % (one.name, one.type) for one in carried),
            law_binders=''.join('(%s : %s) → ' % (one.law, one.law_type) for one in carried),
            both=' '.join('%s %s' % (one.name, one.law) for one in carried),
            both_binders=''.join('(%s : %s) (%s : %s) → ' % (one.name, one.type, one.law, one.law_type)
                                 for one in carried),
            holds='inv-at-%s %s %s (%s)' % (self.number, parens(self.measure), self.names,
                                            ', '.join(['refl'] + [one.law for one in carried] + ['inv'])))

    def facts(self):
        facts = ['t ≡ ' + self.measure] + [one.law_type for one in self.carried] + [self.invariant]
        return ' × '.join('(%s)' % fact for fact in facts)

    def quantified(self):
        """The head of a turn at `t`, and the same with what is carried quantified, from the last to the first."""
        forms = ['guard 𝓤 (Facts-%s t %s) (⋆ 𝓤 H A (%s))' % (self.number, self.names, self.at)]
        for one in reversed(self.carried):
            forms.append('ex 𝓤 (λ (%s : %s). %s)' % (one.name, one.type, forms[-1]))
        return forms

    def introduced(self):
        """The proof of the quantified head, from its facts."""
        proof = 'guardI 𝓤 (Facts-%s t %s) (⋆ 𝓤 H A (%s)) fs' % (self.number, self.names, self.at)
        for form, one in zip(self.quantified(), reversed(self.carried)):
            proof = 'via 𝓤 (%s) (%s) (exI 𝓤 (λ (%s : %s). %s) %s)' % (form, proof, one.name, one.type, form, one.name)
        return proof

    def eliminated(self):
        """The proof of a turn, from the quantified head."""
        count = len(self.carried)
        laws = ' '.join('(fs .%d)' % (place + 1) for place in range(count))
        proof = ('guardE 𝓤 (Facts-%s t %s) (⋆ 𝓤 H A (%s)) (λ fs. turn-%s %s t %s (fs .0) (fs .%d))'
                 % (self.number, self.names, self.at, self.number, self.names, laws, count + 1))
        for form, one in zip(self.quantified(), reversed(self.carried)):
            proof = 'exE 𝓤 (λ (%s : %s). %s) (λ %s. %s)' % (one.name, one.type, form, one.name, proof)
        return proof


class Loops:
    def block(self, part, place, statement, ident):
        inner = statements(statement[1])
        if is_loop(inner):
            return self.loop(part, place, inner, ident)
        _, then = part.after_one(place)
        then = '(afterBlock 𝓤 H %s)' % then
        if not part.is_last(place):
            self.emit('first ! $')
        self.emit('blocks ! $')
        self.run(Part(inner, '(in-block %s)' % part.at(place), ident, ('block', part, place), '(anyQ %s)' % then, then),
                 0)

    def loop(self, part, place, inner, ident):
        turn = inner[0][1]
        given = self.loop_description(ident)
        changes = Changes(self, turn)
        carried = self.carried_by(part, place, turn, changes, given.get('names', {}), ident)
        loop = Loop(ident, self.dashed(ident), Part(inner, None, ident, ('block', part, place), None, None), carried,
                    set(self.filled), self.expand(given['measure']), self.expand(given['inv']))
        start = self.proof_of(ident, 'start', self.default_for(loop.invariant))
        if not part.is_last(place):
            self.emit('first ! $')
        self.emit('blocks ! $')
        starts = ' '.join('%s %s' % (parens(one.start), parens(one.start_law)) for one in carried)
        self.emit('by ! (loops-%s %s %s (%s))' % (loop.number, self.bound_names(), starts, start))
        kept = self.script, self.save(), self.base, self.indent, self.in_loop
        self.enter_module()
        _, then = part.after_one(place)
        self.head_of(loop)
        self.write_invariant(loop, then)
        text = 'mir.turn-%d' % self.turn_numbers[id(turn)]
        self.write_turn(loop, turn, text)
        self.write_loop(loop, text)
        self.script, saved, self.base, self.indent, self.in_loop = kept
        self.restore(saved)

    def loop_description(self, ident):
        given = self.description.get('loop', {}).get(ident)
        if given is not None:
            return given
        if not self.explaining:
            stop('statement %s is a loop: the description needs\n  [loop."%s"]\n'
                 '  measure = ".."    # a number that falls in each turn\n'
                 '  inv = ".."        # what holds at the head of each turn\n(see `walkgen.py --explain %s %s`)'
                 % (ident, ident, self.crate, self.function))
        return dict(measure='0', inv='Unit {0}')

    def carried_by(self, part, place, turn, changes, names, ident):
        """What a turn hands to the next; all else that the body assigns holds nothing at the head of a turn."""
        changed_slices = changes.slices()
        locals_ = [local for local in sorted(self.filled) if local in changes.assigned
                   and isinstance(self.held[local], Value) and self.is_live(part, place, turn, local)]
        gone = (self.filled & changes.assigned) - set(locals_)
        for local in sorted(gone, key=lambda local: self.at('l%d' % local)):
            if isinstance(self.held[local], LocalArray):
                stop('statement %s: the loop assigns the array _%d' % (ident, local))
        self.forget(gone)
        self.filled -= gone
        self.in_order()
        carried = []
        for local in locals_:
            held = self.held[local]
            name = names.get('_%d' % local, 'v%d' % local)
            plain = self.types.plain(held.type)
            carried.append(Carried(name, self.types.values(held.type), name + '-is',
                                   'Is (%s .row) %s (%s .val %s ∷ [])' % (plain, name, plain, name),
                                   held.text, held.relation, local=local))
        for param in self.slices:
            if param.name in changed_slices and param.kind == 'mut':
                name = names.get(param.source, param.name + '′')
                carried.append(Carried(name, 'List ' + param.values, name + '-len',
                                       'length %s ≡ n%s' % (name, param.number), *self.current[param.name],
                                       slice_name=param.name))
        arrays = [local for local in sorted(self.filled)
                  if isinstance(self.held[local], LocalArray) and local in changes.lent]
        if arrays:
            stop('statement %s: the loop lends the local array _%d. '
                 'Move the loop into a function that the array is lent to' % (ident, arrays[0]))
        shown = ['_%d : %s' % (local, self.types.show(self.local_types[local])) for local in locals_]
        shown += [param.source for param in self.slices if param.name in changed_slices]
        self.asked.setdefault(ident, []).append(('loop', shown))
        return carried

    # ---- the lemmas

    def enter_module(self):
        """The lemmas of a loop stand in a module over what is in scope at it."""
        scope = self.scope[self.base:]
        binders = ' '.join('(%s : %s)' % bound for bound in scope)
        self.write('module _ %s where' % binders if scope else 'module _ where')
        self.base = len(self.scope)
        self.indent += '  '
        self.in_loop = True

    def head_of(self, loop):
        """At the head of a turn the carried things have any values."""
        for one in loop.carried:
            if one.local is not None:
                self.held[one.local] = Value(self.held[one.local].type, one.name, one.law)
            else:
                self.current[one.slice_name] = (one.name, one.law)

    def write_invariant(self, loop, then):
        fields = loop.fields(context=self.context_text(), facts=loop.facts(), quantified=loop.quantified()[-1],
                             introduced=loop.introduced(), then=then)
        for lemma in INVARIANT:
            self.write(lemma % fields)

    def write_turn(self, loop, body, turn):
        number = loop.number
        then = '(afterTurn 𝓤 H (Below-%s t-%s) Left-%s)' % (number, number, number)
        self.scope += [(one.name, one.type) for one in loop.carried]
        self.scope.append(('t-' + number, 'ℕ'))
        self.scope += [(one.law, one.law_type) for one in loop.carried]
        self.scope += [('t-is-' + number, 't-%s ≡ %s' % (number, loop.measure)), ('inv-' + number, loop.invariant)]
        fields = loop.fields(scope=self.binders(), scope_names=self.bound_names(), turn=turn, then=then)
        self.context = self.slice_labels() + self.local_labels()
        self.filled = set(loop.filled_at_head)
        self.calls = 0
        inner = Part(statements(body), turn, loop.ident, ('turn', loop, 0), '(anyQ %s)' % then, then)
        script = self.script_of(lambda: self.run(inner, 0))
        self.write(TURN % fields + '\x00' + script)

    def write_loop(self, loop, turn):
        fields = loop.fields(turn=turn, eliminated=loop.eliminated())
        self.write(ALL_TURNS % fields)
        self.write(WHOLE % fields)

    def turn_again(self, loop):
        """The end of a turn: the invariant at the new values, and a lower measure."""
        number, ident = loop.number, loop.ident
        if self.pending:
            stop('statement %s: a store to or a read of an element is the last statement of a loop\'s turn: '
                 'let another follow, as the `i = i + 1;`' % self.pending[1])
        for one in loop.carried:
            if one.local is not None and one.local not in self.filled:
                stop('loop %s: _%d holds nothing at the end of a turn' % (ident, one.local))
        self.forget(self.filled - loop.filled_at_head)
        self.filled &= loop.filled_at_head
        self.in_order()
        ends = [(self.held[one.local].text, self.held[one.local].relation) if one.local is not None
                else self.current[one.slice_name] for one in loop.carried]
        invariant = self.proof_of(ident, 'again', self.default_for(loop.invariant))
        less = self.proof_of(ident, 'less', AUTO % '')
        values = ' '.join(parens(value) for value, _ in ends)
        laws = ' '.join(parens(law) for _, law in ends)
        self.emit('by ! (again-%s t-%s %s %s (%s) (%s))' % (number, number, values, laws, invariant, less))

    # ---- which locals are carried

    def is_live(self, part, place, turn, local):
        """Is the local read before it is assigned, in the loop or after it? (A reading anywhere counts, where some path
        may come to it first.)"""
        if local == 0:
            return self.first_use(statements(turn), local) == 'read'
        if self.first_use(statements(turn), local) == 'read':
            return True
        while part is not None:
            use = self.first_use(part.stmts[place + 1:], local)
            if use or part.up is None:
                return use == 'read'
            kind, around, at = part.up
            if kind == 'turn':
                # the turn comes round to its own beginning
                if self.first_use(part.stmts, local) == 'read':
                    return True
                _, part, place = around.part.up
            else:
                part, place = around, at
        return False

    def first_use(self, stmts, local):
        """`read`, `set` or None: what the statements first do with a local, as far as that is plain."""
        for statement in stmts:
            if not isinstance(statement, list):
                continue
            if statement[0] == 'assign':
                destination = local_of(statement[1])
                if self.reads(statement[2], local) or destination == local and steps_of(statement[1]):
                    return 'read'
                if destination == local:
                    return 'set'
            elif statement[0] == 'call':
                if self.reads(statement[2], local):
                    return 'read'
                if local_of(statement[3]) == local:
                    return 'set'
            elif self.reads(statement, local):
                return 'read'
        return None

    def reads(self, expression, local):
        if not isinstance(expression, list):
            return False
        if expression[0] in ('copy', 'move') and isinstance(expression[1], list) and expression[1][0] == 'place':
            return local_of(expression[1]) == local
        if expression[0] == 'addrOf':
            return local_of(expression[1]) == local
        return any(self.reads(part, local) for part in expression)
