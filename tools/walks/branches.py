"""The rules for `if` and `match`. Each arm is walked to the end of the function, with what follows the branch."""
from .held import Value
from .mir import arms_of, is_place, items, local_of, statements, steps_of
from .part import Part
from .words import parens, projection, stop

# where the arms of a `match` lend more slices, each arm is a lemma of its own
SLICES_IN_CLAUSES = 4


class Branches:
    def branch(self, part, place, statement, ident):
        text, test = self.operand(statement[1])
        after, then = part.after_one(place)
        number = self.dashed(ident)
        value = test.text
        if not part.is_last(place):
            self.emit('first ! $')
        self.emit('branches ! %s' % text)
        hypothesis = 'h-' + number
        arms = (('yes', statement[2], 'true', 'holds %s %s' % (parens(value), hypothesis)),
                ('no', statement[3], 'false', 'fails %s (T-not %s %s)' % (parens(value), parens(value), hypothesis)))
        for which, body, outcome, proof in arms:
            saved = self.save()
            unclosed = self.script.unclosed
            self.choices.append(ident + '.' + which)
            self.emit('(λ %s.' % hypothesis)
            self.knows('c-' + number, '%s ≡ %s' % (value, outcome), proof)
            self.run(Part(statements(body), '(%s-of %s)' % (which, part.at(place)), ident + '.' + which,
                               ('seq', part, place), after, then), 0)
            self.script.close_to(unclosed)
            self.restore(saved)

    def switch(self, part, place, statement, ident):
        if not part.is_last(place):
            self.emit('first ! $')
        steps = steps_of(statement[1][1])
        if steps and steps[0][0] == 'variant':
            self.match_enum(part, place, statement, ident)
        else:
            self.match_number(part, place, statement, ident)

    # ---- on a number

    def match_number(self, part, place, statement, ident):
        """Each arm is a lemma, which has that the number is one of the arm's keys and none of those before."""
        after, then = part.after_one(place)
        arms, default = arms_of(statement)
        number = self.dashed(ident)
        self.in_order()
        text, scrutinee = self.operand(statement[1])
        none_before = 'Unit {0}'
        context, names = self.context_text(), self.bound_names()
        calls = []
        if default is None:
            stop('statement %s: a `match` on a number with no default' % ident)
        for arm, (keys, body) in enumerate(arms + [(None, default)]):
            fact = self.is_one_of(scrutinee.text, keys) if keys is not None else None
            tag = '%s.%s' % (ident, 'default' if keys is None else arm)
            name = 'case-%s-%d-%d' % (number, arm, len(self.lemmas))
            arm_text = '(arm-of %d %s)' % (arm, part.at(place))
            saved = self.save()
            self.scope.append(('key-' + number, fact or none_before))
            self.choices.append(tag)
            binders, bound = self.binders(), self.bound_names()
            inner = Part(statements(body), arm_text, tag, ('seq', part, place), after, then)
            script = self.script_of(lambda: self.run(inner, 0))
            self.write_run(name, binders, bound, context, arm_text, after, script)
            self.restore(saved)
            calls.append('(λ key-%s. %s %s key-%s)' % (number, name, names, number))
            none_before = '%s × (%s → ⊥)' % (none_before if arm == 0 else '(%s)' % none_before, fact)
        self.emit('switches ! %s (%s)' % (text, ', ('.join(calls) + ')' * (len(calls) - 1)))

    @staticmethod
    def is_one_of(value, keys):
        if len(keys) == 1:
            return '%s ≡ %s' % (value, keys[0])
        return 'OneOf (%s ∷ []) %s' % (' ∷ '.join(keys), parens(value))

    # ---- on an enum

    def match_enum(self, part, place, statement, ident):
        """One lemma, with a clause for each variant."""
        after, then = part.after_one(place)
        arms, default = arms_of(statement)
        number = self.dashed(ident)
        local = local_of(statement[1][1])
        scrutinee = self.held[local]
        alias = self.types.alias(scrutinee.type.path)
        plain = self.types.plain(scrutinee.type)
        self.in_order()
        name = 'matched-%s-%d' % (number, len(self.lemmas))
        binders, names = self.binders(), self.bound_names()
        saved = self.save()
        self.held[local] = Value(scrutinee.type, 'z', 'good')
        context = self.context_text()
        self.restore(saved)
        clauses = []
        variants = self.types.declared(scrutinee.type.path)['variants']
        chosen = [next((arm for arm, (keys, _) in enumerate(arms) if str(variant) in keys), len(arms))
                  for variant in range(len(variants))]
        bodies = [arms[arm][1] if arm < len(arms) else default for arm in chosen]
        # the prover checks the clauses together, and twice; a lemma by itself, and once
        apart = sum(self.slices_lent(body) for body in bodies) > SLICES_IN_CLAUSES
        for (label, fields), arm, body in zip(variants, chosen, bodies):
            if body is None:
                stop('statement %s: no arm for %s' % (ident, label))
            if arm == len(arms):
                tag = 'default'
            else:
                tag = label if len(arms[arm][0]) == 1 else '%d' % arm
            inner = Part(statements(body), '(arm-of %d %s)' % (arm, part.at(place)), '%s.%s' % (ident, tag),
                              ('seq', part, place), after, then)
            value, bound = self.variant_value(alias, label, fields, ident)
            walks = self.matched_apart if apart else self.matched
            script = self.script_of(lambda: walks(inner, arm, part.at(place), local, label, value, bound, ident))
            clauses.append('%s %s (%s) e-%s good-%s =\n' % (name, names, value, number, number) + '\x00' + script)
        unfolding = '\nunfolding afterTurn' if self.in_loop else ''
        self.write('%s : %s(z : %s) → %s ≡ z → Is (%s .row) z (%s .val z ∷ []) → Sq W (%s) (runs C Λ En %s %s)%s\n'
                   % (name, binders, alias, parens(scrutinee.text), plain, plain, context, part.at(place), after,
                      unfolding) + '\n'.join(clauses))
        self.emit('%s %s %s refl %s' % (name, names, parens(scrutinee.text), parens(scrutinee.relation)))

    def variant_value(self, alias, label, fields, ident):
        """A variant with names for its fields, and the names: the description's, or by the statement's number."""
        names = self.description.get('match', {}).get(ident, {}).get(label)
        if not names:
            number = self.dashed(ident)
            names = ['m%s%s' % (number, '' if len(fields) == 1 else chr(97 + field)) for field in range(len(fields))]
        if isinstance(names, str):
            names = [names]
        return ' '.join([alias + '-' + label] + names), list(zip(names, fields))

    def matched(self, inner, arm, text, local, label, value, bound, ident):
        """Walks the arm of one variant."""
        self.enter_variant(local, label, value, bound, ident)
        self.walk_arm(inner, arm, text, local, value, bound, ident)

    def matched_apart(self, inner, arm, text, local, label, value, bound, ident):
        """The same, in a lemma of its own."""
        self.enter_variant(local, label, value, bound, ident)
        self.calls = 0
        name = 'matched-%s-%s-%d' % (self.dashed(ident), label, len(self.lemmas))
        binders, names, context = self.binders(), self.bound_names(), self.context_text()
        script = self.script_of(lambda: self.walk_arm(inner, arm, text, local, value, bound, ident))
        self.write_run(name, binders, names, context, text, inner.after, script)
        self.emit('%s %s' % (name, names))

    def enter_variant(self, local, label, value, bound, ident):
        """The local holds this variant."""
        number = self.dashed(ident)
        scrutinee = self.held[local]
        plain = self.types.plain(scrutinee.type)
        self.choices.append('%s.%s' % (ident, label))
        for name, type_ in self.field_types(scrutinee, bound):
            self.scope.append((name, self.types.values(type_)))
        self.scope.append(('e-' + number, '%s ≡ %s' % (scrutinee.text, value)))
        good = 'Is (%s .row) %s (%s .val %s ∷ [])' % (plain, parens(value), plain, parens(value))
        self.scope.append(('good-' + number, good))
        self.held[local] = Value(scrutinee.type, value, 'good-' + number)

    def field_types(self, scrutinee, bound):
        module = self.types.declared(scrutinee.type.path)['module']
        return [(name, self.types.of_source(field, module)) for name, field in bound]

    def walk_arm(self, inner, arm, text, local, value, bound, ident):
        """The variant's fields are known, and what follows from the enum's relation."""
        number = self.dashed(ident)
        scrutinee = self.held[local]
        alias = self.types.alias(scrutinee.type.path)
        fields = []
        for field, (name, type_) in enumerate(self.field_types(scrutinee, bound)):
            field_plain = self.types.plain(type_)
            self.knows(name + '-is', 'Is (%s .row) %s (%s .val %s ∷ [])' % (field_plain, name, field_plain, name),
                       'EL.owed %s-t.the-type %s-l.the-laws %s _ good-%s%s'
                       % (alias, alias, parens(value), number, projection(field)))
            fields.append(Value(type_, name, name + '-is'))
        self.held[local] = Value(scrutinee.type, value, 'good-' + number, fields=tuple(fields))
        self.emit('switches-on ! (load ! (from ! (vrt ! refl (fld ! refl (stop !)))) (look-tag ! %d (whole !)))'
                  ' $ exec ! C Λ En (arm-of %d %s) %s $' % (self.at('l%d' % local), arm, text, inner.after))
        self.run(inner, 0)

    def slices_lent(self, statement):
        """How many slices the calls in a statement lend."""
        if not isinstance(statement, list):
            return 0
        if statement[:1] == ['call']:
            return sum(1 for operand in items(statement[2])
                       if is_place(operand) and self.local_types[local_of(operand[1])].kind == 'slice')
        return sum(map(self.slices_lent, statement))
