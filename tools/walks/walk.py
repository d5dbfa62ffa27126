"""One walk: the state that is threaded through a function's statements, and the statements in order.

A walk goes through the body as the code runs. At each statement it knows the context (`context`, labels of what the
proof owns, in the order of the proof's own list), what each local holds (`held`), which locals hold something
(`filled`), each slice's list and the proof of its length (`current`), and what is in scope (`scope`, the names bound
so far with their types). Each rule emits the steps of its statement and brings this state up to date. What follows a
branch is walked once for each arm, so the state is saved and restored around arms and lemmas."""
import re

from .branches import Branches
from .calls import Call
from .contract import Contract
from .elements import Elements
from .held import ArrayPointer, ArraySlice, Element, LocalArray, Param, Slice, SlicePart, SlicePointer, Value
from .imports import IMPORTED, RESERVED, USES, import_line, known_as, origin_of
from .loops import Loops
from .mir import called
from .operands import Operands
from .script import Script
from .types import Types
from .words import AUTO, balanced, equation, parens, split_top, stop, subscript, unwrapped, whole_word

# after so many calls (an element counts half) a walk goes on in a lemma of its own
CALLS_IN_A_LEMMA = 5
MOST_PATHS = 400


class Callee:
    """A function that the walk calls."""

    def __init__(self, alias, module, contract, types, link):
        self.alias = alias
        self.module = module
        self.contract = contract
        self.types = types  # of the result, then of the parameters
        self.link = link


class Walk(Operands, Elements, Branches, Loops):
    def __init__(self, repository, crate, function, description, explaining=False):
        self.repository = repository
        self.crate = crate
        self.function = function
        self.path = crate + '::' + function
        self.description = description
        self.explaining = explaining
        self.types = Types(repository, crate)
        self.mir = repository.function(self.path)
        self.contract = Contract(repository, self.path)
        self.local_types = [self.types.of_mir(local) for local in self.mir.locals]
        if len(self.contract.params) != self.mir.parameters:
            stop('`%s`: the source has %d parameters and the MIR %d'
                 % (self.path, len(self.contract.params), self.mir.parameters))
        self.asked = {}  # by statement: what a description may prove there, and the proof that is tried else
        self.keys_used = set()
        self.taken = {}  # imported names, with their origins
        self.renamed = {}
        self.uses = set()  # imports that only some rules ask for
        for line in USES + [line.strip() for line in description.get('uses', '').strip().split('\n')]:
            module, names = import_line(line) or ('', [])
            for name in names:
                self.taken[known_as(name)] = origin_of(module, name)
        self.import_for(self.contract, '′')
        self.types.taken = self.taken
        self.params = self.read_params()
        self.slices = [param for param in self.params if param.is_slice]
        self.result_plain = self.types.plain(self.local_types[0])
        self.callees = {}
        self.turn_numbers = {}
        self.number_turns(self.mir.body)
        self.lemmas = []
        self.indent = '    '
        self.paths = 0
        self.now = 'entry'
        self.start_state()

    def start_state(self):
        """The state at the first statement: the parameters hold their values."""
        self.script = Script()
        self.context = []
        self.scope = []
        self.base = 0  # where the scope of the innermost module begins
        self.choices = []  # the arms taken, as descriptions name them
        self.calls = 0
        self.in_loop = False
        self.pending = None  # what a last statement leaves to be done when its arm has joined
        self.held = self.at_entry()
        self.filled = set(self.held)
        self.current = {param.name: (param.name, 'refl') for param in self.slices}

    def at_entry(self):
        return {param.local: Slice(param.name) if param.is_slice else Value(param.type, param.name, param.relation)
                for param in self.params}

    def read_params(self):
        params = []
        slices = 0
        for place, source in enumerate(self.contract.params):
            type_ = self.local_types[place + 1]
            name = source + '′' if source in RESERVED or source in IMPORTED else source
            if type_.kind == 'slice':
                if type_.lifetime != ['named', str(slices)]:
                    stop('`%s`: the slice `%s` shares a lifetime with another. '
                         'Give each slice a lifetime of its own: leave the lifetimes out' % (self.path, source))
                slices += 1
                params.append(Param(source, name, type_, place, 'mut' if type_.mutability == 'mut' else 'shr',
                                    number=subscript(slices), lifetime=slices - 1, row=self.types.row(type_.element),
                                    values=self.types.values(type_.element), room='room' + subscript(slices)))
            elif type_.kind in ('ref', 'ptr', 'array'):
                stop('`%s`: the parameter `%s` is %s, which a walk does not take'
                     % (self.path, source, self.types.show(type_)))
            else:
                params.append(Param(source, name, type_, place, 'val', plain=self.types.plain(type_),
                                    relation=name + '-is'))
        return params

    def number_turns(self, expression):
        """The turns of loops are numbered from the innermost out, as the checker does."""
        if isinstance(expression, list):
            for part in expression:
                self.number_turns(part)
            if expression and expression[0] == 'loop':
                self.turn_numbers[id(expression[1])] = len(self.turn_numbers) + 1

    # ---- names and imports

    @staticmethod
    def dashed(ident):
        """A statement's number as a part of a name."""
        return ident.replace('.', '·')

    def import_for(self, contract, suffix):
        """Imports what a contract speaks of; a name that is taken gets another one in this proof."""
        lines = []
        for use in contract.uses:
            use = self.facade(' '.join(use.split()))
            module, names = import_line('use ' + use) or ('', None)
            if names is None:
                lines.append(use)
                continue
            here = []
            for name in names:
                known, origin = known_as(name), origin_of(module, name)
                if known in self.taken and self.taken[known] != origin and '_' not in known:
                    new = known + suffix
                    contract.rename(known, new)
                    self.renamed[known] = new
                    self.taken[new] = origin
                    here.append('%s as %s' % (origin[1], new))
                else:
                    self.taken[known] = origin
                    here.append(name)
            lines.append('%s.{%s}' % (module, ', '.join(here)))
        contract.uses = lines

    def facade(self, use):
        """Another crate's specs and proofs are imported by their outer address."""
        match = re.match(r'Rattle·(\w+)·(specs|proofs)\.', use)
        if not match or match.group(1) == self.crate:
            return use
        crate, part = match.groups()
        return use.replace('Rattle·%s·%s.%s.' % (crate, part, part), 'Rattle·%s.%s.' % (crate, part), 1)

    def callee(self, statement):
        path = called(statement)
        if path not in self.callees:
            crate, *inside = path.split('::')
            alias = '-'.join(inside).replace('_', '-')
            if any(other.alias == alias for other in self.callees.values()):
                alias = crate + '-' + alias
            mir = self.repository.function(path)
            contract = Contract(self.repository, path)
            self.import_for(contract, '-of-' + alias)
            types = [self.types.of_mir(local) for local in mir.locals][:mir.parameters + 1]
            module = self.types.facade(crate, 'proofs') + '.' + '.'.join(inside)
            link = 'code.calls-' + '·'.join([crate] + inside).replace('_', '-')
            self.callees[path] = Callee(alias, module, contract, types, link)
        return self.callees[path]

    def slice(self, name):
        return next(param for param in self.slices if param.name == name)

    # ---- proofs that the description gives

    def proof_of(self, ident, what, default):
        """The description's proof for this statement, the one for most of the arms taken; else the default."""
        best = None
        for key, proof in self.description.get('prove', {}).items():
            match = re.fullmatch(r'\s*([\w.]+)((?:@[\w.]+)*)\s+(\w+)\s*', key)
            if not match:
                stop('description: the key "%s" of [prove] is not "STATEMENT WHAT" or "STATEMENT@CHOICE WHAT", '
                     'as "5 asks" or "9@2.yes said"' % key)
            if match.group(1) != ident or match.group(3) != what:
                continue
            choices = [choice for choice in match.group(2).split('@') if choice]
            if all(choice in self.choices for choice in choices):
                if best is None or len(choices) > best[0]:
                    best = (len(choices), proof, key)
        self.asked.setdefault(ident, []).append((what, default))
        if best:
            self.keys_used.add(best[2])
            return self.expand(best[1])
        return default

    def expand(self, text):
        """The text with `auto` and `auto(facts)` written out."""
        text = ' '.join(text.split()) if '\n' in text else text
        out = ''
        place = 0
        for match in re.finditer(whole_word('auto'), text):
            if match.start() < place:
                continue
            out += text[place:match.start()]
            place = match.end()
            facts = ''
            if text[place:place + 1] == '(':
                end = balanced(text, place, '(', ')')
                facts = ', ' + text[place + 1:end]
                place = end + 1
            out += '(' + AUTO % facts + ')'
        return out + text[place:]

    def default_for(self, fact):
        """What is tried for a fact: an equation computes, all else is arithmetic."""
        return 'refl' if equation(unwrapped(fact)) else AUTO % ''

    def knows(self, name, fact, proof):
        """Brings a fact into scope."""
        self.script.open('knows ! (%s) (%s) (λ %s.' % (fact, proof, name))
        self.scope.append((name, fact))

    # ---- the context

    def emit(self, line):
        self.script.emit(line)

    def at(self, label):
        if label not in self.context:
            stop('statement %s: the kit lost track of %s (a bug of the kit)' % (self.now, label))
        return self.context.index(label)

    def front(self, *labels):
        """Moves what has these labels to the front, in this order."""
        places = [self.at(label) for label in labels]
        if places == list(range(len(labels))):
            return
        self.emit('move ! (' + ' ∷ '.join(map(str, places)) + ' ∷ []) $')
        self.context = list(labels) + [label for label in self.context if label not in labels]

    def swap(self, count, *labels):
        """The first `count` of the context have become these."""
        self.context[0:count] = labels

    def slice_labels(self):
        return [label for param in self.slices for label in (param.own, param.token)]

    def local_labels(self):
        """Each local's cell and the right to free it."""
        return [label for local in reversed(range(len(self.local_types))) for label in ('l%d' % local, 'd%d' % local)]

    def tidy(self):
        """Drops what no later statement needs."""
        wanted = self.slice_labels() + self.local_labels()
        for label in [label for label in self.context if label not in wanted]:
            self.front(label)
            self.emit('drop ! $')
            self.context.pop(0)

    def in_order(self):
        """The context as a lemma states it."""
        self.tidy()
        wanted = self.slice_labels() + self.local_labels()
        if self.context != wanted:
            self.front(*wanted)

    def context_text(self):
        """The context, in order, as a proof writes it."""
        text = ''
        for param in self.slices:
            number = param.number
            text += ('‵ (%s (named 0) κ%s %s .own (at-list b%s o%s γ%s %s) (sliceVal (b%s, o%s) n%s ∷ []))'
                     ' ∷ ‵ (flft κ%s q%s) ∷ '
                     % ('MutSlice' if param.kind == 'mut' else 'ShrSlice', number, param.row, number, number, number,
                        parens(self.current[param.name][0]), number, number, number, number, number))
        for local in reversed(range(len(self.local_types))):
            type_ = self.types.in_mir(self.local_types[local])
            if local in self.filled:
                text += 'full 𝓤 %s l%s %s (' % (type_, subscript(local), self.value_text(local))
            else:
                text += 'free 𝓤 %s l%s (' % (type_, subscript(local))
        return text + '[]' + ')' * len(self.local_types)

    # ---- locals

    def look(self, local, offset=0):
        return 'look ! %d refl' % (self.at('l%d' % local) + offset)

    def value_text(self, local):
        """The bytes of what a local holds."""
        held = self.held[local]
        if isinstance(held, Value):
            return '(%s .val %s)' % (self.types.plain(held.type), parens(held.text))
        if isinstance(held, LocalArray):
            return held.value
        if isinstance(held, ArrayPointer):
            return '(vptr l%s 0)' % subscript(held.local)
        if isinstance(held, ArraySlice):
            return '(sliceVal (l%s, 0) %s)' % (subscript(held.local), held.count)
        if isinstance(held, Element) and held.array is not None:
            return '(vptr l%s (place %s 0 %s))' % (subscript(held.array), held.size, parens(held.index))
        number = self.slice(held.name).number
        if isinstance(held, SlicePointer):
            return '(vptr b%s o%s)' % (number, number)
        if isinstance(held, SlicePart):
            return '(sliceVal (b%s, %s) %s)' % (number, self.start_of(held), parens(held.count))
        if isinstance(held, Element):
            return '(vptr b%s (place %s o%s %s))' % (number, held.size, number, parens(held.index))
        return '(sliceVal (b%s, o%s) n%s)' % (number, number, number)

    def start_of(self, part):
        """The offset of a part of a slice."""
        return 'place %s o%s %s' % (part.size, self.slice(part.name).number, parens(part.start))

    def typed(self, local):
        """That what a local is to hold has its type."""
        held = self.held[local]
        if isinstance(held, SlicePart):
            return '(tt, (tt, (record { fits = %s }, tt)))' % held.fits
        if isinstance(held, Value):
            return '(%s .typed 𝓤 H A W %s %s)' % (self.types.plain(held.type), parens(held.text), parens(held.relation))
        if isinstance(held, (SlicePointer, Element, ArrayPointer)):
            return '(tt, tt)'
        if isinstance(held, Slice):
            return '(tt, (tt, (record { fits = %s .0 }, tt)))' % self.slice(held.name).room
        if isinstance(held, ArraySlice):
            return '(tt, (tt, (record { fits = lit< tt }, tt)))'
        return ('(array-typed %s (λ x vs p. %s) %s %s _ %s .0)'
                % (self.types.row(held.element), self.typed_element(held.element), held.count, parens(held.list),
                   parens(held.relation)))

    def typed_element(self, type_):
        if type_.kind == 'int':
            self.uses.add('use denote.Plain.{uint-lawful}')
            return 'uint-lawful 𝓤 H A W w%s .typed x vs p' % type_.width
        if type_.kind != 'named':
            stop('statement %s: a local array of %s that is lent: only arrays of numbers, structs and enums'
                 % (self.now, self.types.show(type_)))
        alias = self.types.alias(type_.path)
        laws = self.types.laws(type_.path)
        return ('%s.lawful %s-t.the-type %s-l.the-laws 𝓤 H A W%s .typed x vs p'
                % (laws, alias, alias, '' if laws == 'LL' else ' tt'))

    def fill(self, local):
        """How what a local is to hold gets there."""
        step = 'store' if local in self.filled else 'init'
        return '(%s ! %d refl %s)' % (step, self.at('l%d' % local), self.typed(local))

    def forget(self, locals_):
        """These locals hold nothing more."""
        for local in sorted(locals_, key=lambda local: self.at('l%d' % local)):
            self.emit('forget ! %d refl $' % self.at('l%d' % local))

    # ---- saving, and lemmas

    def save(self):
        return dict(context=list(self.context), held=dict(self.held), current=dict(self.current),
                    filled=set(self.filled), scope=list(self.scope), choices=list(self.choices), calls=self.calls)

    def restore(self, saved):
        self.context = list(saved['context'])
        self.held = dict(saved['held'])
        self.current = dict(saved['current'])
        self.filled = set(saved['filled'])
        self.scope = list(saved['scope'])
        self.choices = list(saved['choices'])
        self.calls = saved['calls']

    def binders(self):
        """What is in scope since the innermost module, as the arguments of a lemma."""
        return ''.join('(%s : %s) → ' % bound for bound in self.scope[self.base:])

    def bound_names(self):
        return ' '.join(name for name, _ in self.scope[self.base:])

    def script_of(self, go):
        """The script that `go` emits, with everything else as it was."""
        kept = self.script, self.save()
        self.script = Script()
        go()
        text = self.script.text('    ')
        self.script, saved = kept
        self.restore(saved)
        return text

    def write(self, text):
        """Writes a lemma in front of the walk."""
        self.lemmas.append('\n'.join(self.indent + line if line else line for line in text.split('\n')))

    def write_run(self, name, binders, names, context, text, after, script):
        """Writes the lemma that some statements, from a context, come to what is to hold after them."""
        unfolding = '\nunfolding afterTurn' if self.in_loop else ''
        # \0 marks a lemma that ends in a script: a blank line is to follow
        self.write('%s : %sSq W (%s) (runs C Λ En %s %s)%s\n%s %s =\n'
                   % (name, binders, context, text, after, unfolding, name, names) + '\x00' + script)

    # ---- the statements in order

    def run(self, part, place):
        """Walks a part from a place on."""
        self.paths += 1
        if self.paths > MOST_PATHS:
            stop('more than 400 paths: the code after a branch is walked once for each arm. '
                 'Move branches into functions of their own')
        while place < len(part.stmts):
            statement = part.stmts[place]
            ident = part.name(place)
            self.now = ident
            if self.calls >= self.description.get('cut', CALLS_IN_A_LEMMA):
                return self.go_on_in_a_lemma(part, place)
            if statement == 'return':
                return self.returns(part, ident)
            if statement == 'skip':
                if not part.is_last(place):
                    stop('statement %s: skip' % ident)
                self.emit('skips ! $')
                return self.ended(part, 'next')
            form = statement[0]
            if form == 'exit':
                self.emit('jumps ! $')
                return self.ended(part, int(statement[1]))
            if form in ('if', 'cond', 'switch', 'block'):
                go = {'switch': self.switch, 'block': self.block}.get(form, self.branch)
                return go(part, place, statement, ident)
            if form == 'assign':
                self.assign(statement, ident, part.is_last(place))
            elif form == 'call':
                Call(self, statement, ident, part.is_last(place)).walk_through()
            else:
                stop('statement %s: `%s`' % (ident, form))
            place += 1
        self.ended(part, 'next')

    def go_on_in_a_lemma(self, part, place):
        self.calls = 0
        self.in_order()
        name = 'part-%s-%d' % (self.dashed(part.name(place)), len(self.lemmas))
        binders, names, context = self.binders(), self.bound_names(), self.context_text()
        script = self.script_of(lambda: self.run(part, place))
        self.write_run(name, binders, names, context, part.past(place), part.after, script)
        self.emit('%s %s' % (name, names))

    def ended(self, part, way):
        """A part has ended, by its end (`next`) or by leaving so many blocks; on with what stands around it."""
        if part.up is None:
            stop('the end of %s is reached with no `return`' % self.path)
        kind, around, place = part.up
        if kind == 'turn':
            if way in ('next', 0):
                return self.turn_again(around)
            return self.ended(around.part, way - 1)
        if kind == 'block':
            if way == 0:
                way = 'next'
            elif way != 'next':
                return self.ended(around, way - 1)
        if way != 'next':
            return self.ended(around, way)
        if around.is_last(place):
            return self.ended(around, 'next')
        self.emit('exec ! C Λ En %s %s $' % (around.past(place + 1), around.after))
        if self.pending:
            shut, self.pending = self.pending[0], None
            shut()
        self.run(around, place + 1)

    def returns(self, part, ident):
        """A `return`: the locals are freed, and the result and the last lists are as the contract says."""
        step = 'returns ! (%s) $' if part.after == '(atRet En Post)' else 'returns-within ! Post refl (%s) $'
        self.emit(step % self.look(0))
        once = self.description.get('end') == 'once' and not self.in_loop
        if once:
            self.forget(self.filled - self.kept_to_the_end())
            self.in_order()
        else:
            self.forget(self.filled)
            self.free_locals()
        result = self.held[0]
        lent = [self.current[param.name] for param in self.slices if param.kind == 'mut']
        arguments = [parens(result.text)] + [parens(last) for last, _ in lent]
        if self.contract.ensures:
            arguments.append('(%s)' % self.proof_of(ident, 'said', self.default_said()))
        arguments += [parens(result.relation)] + [parens(length) for _, length in lent]
        ends = 'exits %s' % ' '.join(arguments)
        if once:
            self.emit('%s %s (%s)' % (self.one_end(), ' '.join([parens(result.text)] + [parens(last) for last, _ in lent]),
                                      ends))
        else:
            self.emit('by ! (%s)' % ends)

    def free_locals(self):
        """Frees the locals, which hold nothing more; the slices are left."""
        self.tidy()
        for local in range(len(self.local_types)):
            self.front('l%d' % local, 'd%d' % local)
            self.emit('free1 ! $')
            self.context = self.context[2:]
        self.emit('free0 ! $')
        if self.slices:
            self.front(*self.slice_labels())

    def kept_to_the_end(self):
        """The locals that hold the same at every `return`: the result, and the parameters as they came."""
        return {0} | {local for local, held in self.at_entry().items() if self.held[local] == held}

    def one_end(self):
        """The lemma that frees the locals, for a description with `end = "once"`: every `return` cites it."""
        if not any(lemma.lstrip().startswith('frees-all :') for lemma in self.lemmas):
            kept = self.save()
            self.uses.add('use types.Kit.{frees, prop}')
            changed = [param for param in self.slices if param.kind == 'mut']
            self.current = {param.name: ('ws' + param.number if param.kind == 'mut' else param.name, '')
                            for param in self.slices}
            self.held[0] = Value(self.local_types[0], 'r', '')
            self.filled = self.kept_to_the_end()
            self.context = self.slice_labels() + self.local_labels()
            context = self.context_text()
            owned = ''.join('‵ (%s (named %d) κ%s %s .own (at-list b%s o%s γ%s %s) (sliceVal (b%s, o%s) n%s ∷ []))'
                            ' ∷ ‵ (flft κ%s q%s) ∷ '
                            % (('MutSlice' if param.kind == 'mut' else 'ShrSlice', param.lifetime, param.number, param.row)
                               + (param.number,) * 3 + (self.current[param.name][0],) + (param.number,) * 5)
                            for param in self.slices) + '[]'
            post = 'Post (%s .val r)' % self.result_plain
            script, self.script = self.script, Script()
            self.forget(self.filled)
            self.free_locals()
            self.emit('by ! ends')
            text, self.script = self.script.text('    '), script
            self.restore(kept)
            self.write('frees-all : (r : %s)%s → ent 𝓤 (⋆ 𝓤 H A (%s)) (%s) → Sq W (%s) (frees En (prop (%s)))\nfrees-all r %sends =\n'
                       % (self.types.values(self.local_types[0]),
                          ''.join(' (ws%s : List %s)' % (param.number, param.values) for param in changed),
                          owned, post, context, post, ''.join('ws%s ' % param.number for param in changed))
                       + '\x00' + text)
        return 'frees-all'

    def default_said(self):
        """What is tried for the ensures: each equation computes, but for a length, which is arithmetic."""
        facts = split_top(unwrapped(self.contract.ensures), '×')
        proofs = [AUTO % '' if unwrapped(fact).startswith('length ') else self.default_for(fact) for fact in facts]
        return '(' + ', '.join(proofs) + ')' if len(proofs) > 1 else proofs[0]
