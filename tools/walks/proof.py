"""The whole of a written proof: the walk in its modules, from the function's code to its stated contract."""
import re

from .imports import USES, import_line, known_as
from .mir import statements
from .part import Part
from .script import Script
from .words import nested, projection, stop, subscript

WRITTEN_BY = ('-- Written by walkgen.py from walks/%s.toml, the source and the MIR. '
              'Do not edit: change the description, and write it anew.')
LOGIC = '{M : Type 1} (𝓤 : URA M) (H : Heap 𝓤) (A : Atoms 𝓤)'
GIVEN = LOGIC + ' (W : Given 𝓤 H A)'
HOST = '(mem : Memory → SProp 𝓤) (run : Routine → Fun 𝓤)'
CLAUSES = '(f.clauses 𝓤 H A mem run)'
CODE = '(WpFn 𝓤 H (𝓣 .C) (𝓣 .Λ) code.function)'


class Proof:
    """The file is put together in the order in which it is read: `parts` are its pieces behind the imports."""

    def __init__(self, walk):
        self.walk = walk
        self.params = walk.params
        self.slices = walk.slices
        self.changed = [param for param in walk.slices if param.kind == 'mut']
        self.locals = ' '.join('l%s' % subscript(local) for local in range(len(walk.local_types)))
        self.lifetimes = nested(['κ' + param.number for param in self.slices])
        self.shares = nested(['q' + param.number for param in self.slices])
        self.parts = []

    def text(self):
        walk = self.walk
        begins = self.body()
        self.check_description()
        if walk.explaining:
            return ''
        self.callees = list(walk.callees.values())
        self.known = ''.join(' (known-%s : Triple 𝓤 (𝓣 .C #%s) (Of-%s 𝓤 H A mem run))' % ((callee.alias,) * 3)
                             for callee in self.callees)
        self.known_names = ' '.join('known-' + callee.alias for callee in self.callees)
        values = {param.source: param.name for param in self.params}
        lasts = {param.source: 'ws' + param.number for param in self.changed}
        contract = walk.contract
        self.requires = contract.at(contract.requires, values, {}, '') if contract.requires else ''
        self.ensures = contract.at(contract.ensures, values, lasts, 'r') if contract.ensures else ''
        self.contracts()
        self.start_module()
        self.exits()
        self.statements_module(begins)
        self.entry()
        self.walks()
        self.theorem()
        return laid_out(self.header() + '\n'.join(self.parts) + '\n')

    def add(self, text):
        self.parts.append(text)

    def body(self):
        """Walks the body; gives its script, and the context at its start."""
        walk = self.walk
        walk.context = walk.slice_labels() + walk.local_labels()
        self.at_start = walk.context_text()
        body = Part(statements(walk.mir.body), 'mir.t-1', '', None, '(atRet En Post)', '(atReturn 𝓤 H En Post)')
        walk.run(body, 0)
        return walk.script.text(walk.indent + '    ')

    def check_description(self):
        walk = self.walk
        unused = [key for key in walk.description.get('prove', {}) if key not in walk.keys_used]
        if unused and not walk.explaining:
            asked = ', '.join('"%s %s"' % (ident, what) for ident, needs in walk.asked.items()
                              for what, _ in needs if what != 'loop')
            stop('description: nothing asks for the proof%s %s. The walk asks for: %s'
                 % ('s' if len(unused) > 1 else '', ', '.join('"%s"' % key for key in unused), asked))

    # ---- what each parameter is, in the forms that the logic asks for

    def owner(self, param):
        kind = 'MutSlice' if param.kind == 'mut' else 'ShrSlice'
        return kind + ' (named %d) κ%s %s' % (param.lifetime, param.number, param.row)

    def bytes_of(self, param):
        if param.is_slice:
            return 'sliceVal (b%s, o%s) n%s' % ((param.number,) * 3)
        return '%s .val %s' % (param.plain, param.name)

    def argument(self, param):
        if param.is_slice:
            return 'at-list b%s o%s γ%s %s' % (param.number, param.number, param.number, param.name)
        return param.name

    def stays(self, param):
        if not param.is_slice:
            return 'stay-none (λ _. %s .row) yes' % param.plain
        form = ('stay-slice (%d ∷ []) tt (plain (λ _. %s))' if param.kind == 'mut'
                else 'stay-none-slice (%d ∷ []) tt (plain (λ _. %s)) yes')
        return form % (param.lifetime, param.row)

    def goes(self, param):
        count = len(self.slices)
        if not param.is_slice:
            return 'goes-none 𝓤 H A W %d (λ _. %s .row) yes (λ κs x f. refl)' % (count, param.plain)
        form = ('goes-slice 𝓤 H A W %d %d tt (plain (λ _. %s))' if param.kind == 'mut'
                else 'goes-none-slice 𝓤 H A W %d (%d ∷ []) tt (plain (λ _. %s)) yes')
        return form % (count, param.lifetime, param.row)

    def tells(self, param):
        if not param.is_slice:
            return '%s .tells' % param.plain
        kind = 'mut' if param.kind == 'mut' else 'shr'
        return '%s-slice-tells (named %d) (κs%s) %s' % (kind, param.lifetime, projection(param.lifetime), param.row)

    # ---- the parts of the file

    def contracts(self):
        self.add('abbrev stayed : Stays (f.ended .signature .params) (f.ended .kept)\nstayed = %s\n'
                 % nested([self.stays(param) for param in self.params]))
        if self.callees:
            self.add('module _ %s %s where' % (LOGIC, HOST))
        for callee in self.callees:
            self.add('  abbrev Of-%s : Contract 𝓤\n  Of-%s = tripleOf 𝓤 H A %s.signature (%s.spec 𝓤 H A mem run)\n'
                     % ((callee.alias,) * 4))

    def start_module(self):
        """The module of the walk, over the parameters; and what they are at entry."""
        binders = ''
        for param in self.params:
            if param.is_slice:
                binders += (' (κ%s : Lft) (q%s : Share) (b%s o%s : ℕ) (γ%s : GName) (%s : List %s)'
                            % ((param.number,) * 5 + (param.name, param.values)))
            else:
                binders += ' (%s : %s)' % (param.name, self.walk.types.values(param.type))
        self.add('module _ %s %s' % (GIVEN, HOST) + binders)
        facts = ['(%s : Room %s (length %s))' % (param.room, param.row, param.name) for param in self.slices]
        facts += ['(%s : Is (%s .row) %s (%s .val %s ∷ []))'
                  % (param.relation, param.plain, param.name, param.plain, param.name)
                  for param in self.params if not param.is_slice]
        if self.requires:
            facts.append('(within : %s)' % self.requires)
        self.add('    ' + ' '.join(facts) + ' where')
        for param in self.slices:
            self.add('  abbrev n%s : ℕ\n  n%s = length %s\n' % (param.number, param.number, param.name))
        types = ['RefT (List %s)' % param.values if param.is_slice else '%s .row .Denot' % param.plain
                 for param in self.params]
        self.add('  abbrev x : %s\n  x = %s\n' % (' × ('.join(types + ['Unit {0}']) + ')' * len(self.params),
                                                nested([self.argument(param) for param in self.params])))
        self.add('  abbrev at : Vals f.signature %s\n  at = %s\n'
                 % (self.lifetimes, nested([self.bytes_of(param) + ' ∷ []' for param in self.params])))
        self.bound = '((%s, %s, tt, x, at), tt)' % (self.lifetimes, self.shares)
        self.add('  abbrev Post : Val → SProp 𝓤\n  Post = walkOf 𝓤 H A f.ended stayed %s .post %s\n'
                 % (CLAUSES, self.bound))
        local = self.walk.description.get('local')
        if local:
            lines = '\n'.join(self.walk.expand(line) for line in local.split('\n')).strip('\n').split('\n')
            self.add('\n'.join('  ' + line if line.strip() else '' for line in lines) + '\n')

    def exits(self):
        """The lemma that every `return` cites: the contract's end, from the result and the last lists."""
        walk, plain = self.walk, self.walk.result_plain
        owned = []
        for param in self.slices:
            number = param.number
            last = 'ws' + number if param.kind == 'mut' else param.name
            owned.append('‵ (%s .own (at-list b%s o%s γ%s %s) (sliceVal (b%s, o%s) n%s ∷ [])) ∷ ‵ (flft κ%s q%s)'
                         % (self.owner(param), number, number, number, last, number, number, number, number, number))
        held = ' ∷ '.join(owned + ['[]'])
        lasts = ''.join(' (ws%s : List %s)' % (param.number, param.values) for param in self.changed)
        lengths = ''.join('length ws%s ≡ n%s → ' % (param.number, param.number) for param in self.changed)
        self.add('  exits : (r : %s)%s → %sIs (%s .row) r (%s .val r ∷ []) → %sent 𝓤 (⋆ 𝓤 H A (%s)) (Post (%s .val r))'
                 % (walk.types.values(walk.local_types[0]), lasts, '(%s) → ' % self.ensures if self.ensures else '',
                    plain, plain, lengths, held, plain))
        self.add('  exits r %s%sr-is %s=' % (''.join('ws%s ' % param.number for param in self.changed),
                                            'said ' if self.ensures else '',
                                            ''.join('len%s ' % param.number for param in self.changed)))
        walk.script = Script()
        walk.context = walk.slice_labels()
        walk.emit('qed W (%s) ∵' % held)
        walk.emit('suffices ! _ (ends-at 𝓤 H A f.ended stayed %s W %s (%s .val r) r %s %s) $%s'
                  % (CLAUSES, self.bound, plain, self.of_changed('ws'), self.of_changed('len'),
                     ' says ! said $' if self.ensures else ' says-nothing ! $'))
        self.hand_back()
        walk.emit('owned ! (%s .row) (Is (%s .row)) (%s .makes 𝓤 H A W) r _ r-is $ done !\n' % (plain, plain, plain))
        self.add(walk.script.text('      '))

    def of_changed(self, prefix):
        """Of each parameter that may have changed, its name with a prefix."""
        return nested([prefix + param.number if param.kind == 'mut' else 'tt' for param in self.params])

    def hand_back(self):
        """The tokens together, and what is owned of the parameters together."""
        walk = self.walk
        walk.emit('nothing ! $')
        walk.context.insert(0, 'true')
        for param in reversed(self.slices):
            walk.front(param.token, 'true')
            walk.emit('join ! $')
            walk.context.pop(0)
        walk.emit('frame ! $')
        walk.context.pop(0)
        walk.emit('nothing ! $')
        walk.context.insert(0, 'owned')
        for param in reversed(self.params):
            if param.is_slice:
                walk.front(param.own, 'owned')
                walk.emit('fjoin ! $')
                walk.context.pop(0)
            else:
                plain, name = param.plain, param.name
                walk.emit('owned ! (%s .row) (Is (%s .row)) (%s .makes 𝓤 H A W) %s (%s .val %s ∷ []) %s $ fjoin ! $'
                          % (plain, plain, plain, name, plain, name, param.relation))
        walk.emit('frame ! $')

    def statements_module(self, begins):
        """The module of the body, over the locals' addresses: the lemmas, and the script from the first statement."""
        types = [self.walk.types.in_mir(type_) for type_ in self.walk.local_types]
        locals_ = ['(%s, l%s)' % (type_, subscript(local)) for local, type_ in enumerate(types)]
        self.add('  module _ (𝓣 : Tables 𝓤 H)%s (%s : ℕ) where' % (self.known, self.locals))
        self.add('    abbrev C : Calls 𝓤 H\n    C = 𝓣 .C\n\n    abbrev Λ : Loops 𝓤 H\n    Λ = 𝓣 .Λ\n\n'
                 '    fm : FmC 𝓤 H (W .laws) C\n    fm = fmOf 𝓤 H (W .laws) 𝓣\n')
        self.add('    abbrev En : Env 𝓤 H\n    En = %s\n' % ' ∷ '.join(locals_ + ['[]']))
        for lemma in self.walk.lemmas:
            self.add(lemma.replace('\x00', '') + ('\n' if '\x00' in lemma else ''))
        self.add('    begins : Sq W (%s) (runs C Λ En mir.t-1 (atRet En Post))\n    begins =\n%s\n'
                 % (self.at_start, begins))

    def entry(self):
        """From the call to the first statement: the locals are made, and the parameters passed."""
        walk = self.walk
        walk.script = Script()
        walk.filled = set()
        walk.context = walk.local_labels() + ['toks', 'owns']
        for local in range(len(walk.local_types)):
            walk.script.open('alloc1 ! (λ l%s.' % subscript(local))
        walk.emit('alloc0 ! $ params1 ! $')
        walk.held = walk.at_entry()
        for param in self.params:
            walk.emit('pass1 ! %s $' % walk.fill(param.local))
        walk.emit('pass0 ! $')
        last_slice = max([param.place for param in self.slices], default=-1)
        for param in self.params[:last_slice + 1]:
            walk.front('owns')
            walk.emit('fsplit ! $')
            walk.swap(1, param.own if param.is_slice else 'val:' + param.name, 'owns')
        for param in self.slices:
            walk.front('toks')
            walk.emit('split ! $')
            walk.swap(1, param.token, 'toks')
        walk.in_order()
        walk.emit('begins 𝓣 %s %s' % (self.known_names, self.locals))
        values = '(' + ' ∷ '.join([self.bytes_of(param) for param in self.params] + ['[]']) + ')'
        tokens = ''.join('(‵ (flft κ%s q%s) ⊛ ' % (param.number, param.number) for param in self.slices)
        tokens += '‵ ftrue' + ')' * len(self.slices)
        rows = [self.owner(param) if param.is_slice else '%s .row' % param.plain for param in self.params]
        self.add('  module _ (𝓣 : Tables 𝓤 H)%s where' % self.known)
        self.add('    walk : ent 𝓤 (onEntry 𝓤 H A f.signature %s %s x at)'
                 ' (WpFn 𝓤 H (𝓣 .C) (𝓣 .Λ) code.function %s Post)\n    walk ='
                 % (self.lifetimes, self.shares, values))
        self.add('        qed W (%s ∷ ‵ (owns (%s) x at) ∷ []) ∵ enter ! (𝓣 .C) (𝓣 .Λ) code.function %s _ $'
                 % (tokens, ' ∷ '.join(rows + ['[]']), values))
        self.add(walk.script.text('        ') + '\n')

    def walks(self):
        """The walk for all arguments, and that the code meets the contract by it."""
        self.add('module _ %s %s (𝓣 : Tables 𝓤 H)%s where' % (GIVEN, HOST, self.known))
        arguments = []
        for param in self.params:
            at, lifetime = 'a' + projection(param.place), projection(param.lifetime)
            if param.is_slice:
                arguments.append('(κs%s) (qs%s) (%s .ptr .0) (%s .ptr .1) (%s .name) (%s .now)'
                                 % (lifetime, lifetime, at, at, at, at))
            else:
                arguments.append('(%s)' % at)
        facts = ['(are%s .0 .1)' % projection(param.place) for param in self.slices]
        facts += ['(are%s)' % projection(param.place) for param in self.params if not param.is_slice]
        walk = ('walk 𝓤 H A W mem run %s %s%s 𝓣 %s'
                % (' '.join(arguments), ' '.join(facts), ' within' if self.requires else '', self.known_names))
        spelled = ['slice-vals' if param.is_slice else '(λ y. %s .val y ∷ [])' % param.plain for param in self.params]
        self.add('  walks : Walks 𝓤 H A f.ended stayed %s %s' % (CODE, CLAUSES))
        self.add('  walks = walked 𝓤 H A f.ended stayed %s %s (λ κs. %s) (λ κs. %s)'
                 % (CLAUSES, CODE, nested(spelled), nested([self.tells(param) for param in self.params])))
        if self.requires:
            self.add('      (λ κs qs bounds a g are. needs 𝓤 _ _ (λ within. %s))\n' % walk)
        else:
            self.add('      (λ κs qs bounds a g are. via 𝓤 _ (fst∗ 𝓤 _ (emp 𝓤)) (%s))\n' % walk)
        self.add('  meets : Meets 𝓤 H A f.signature %s (f.spec 𝓤 H A mem run)' % CODE)
        self.add('  meets = walk-meets 𝓤 H A f.ended stayed W %s %s %s'
                 ' (WpFn-mono 𝓤 H (W .laws) 𝓣 code.function) walks\n'
                 % (nested([self.goes(param) for param in self.params]), CLAUSES, CODE))

    def theorem(self):
        name = self.walk.function.split('::')[-1].replace('_', '-')
        self.add('pub %s-spec : {M : Type 1} → stated.statement M\nunfolding code.routine tablesOf\n%s-spec 𝓤 H 𝓜 𝓖 𝓡 ='
                 % (name, name))
        self.add('    entered 𝓤 H (tripleOf 𝓤 H (𝓖 .A) f.signature (f.spec 𝓤 H (𝓖 .A) (𝓜 .mem) (𝓡 .run)))\n'
                 '    (tables 𝓤 H 𝓜 𝓡 code.env .C) (tables 𝓤 H 𝓜 𝓡 code.env .Λ) #f code.function'
                 ' (code.unfolded 𝓤 H 𝓜 𝓡)\n'
                 '    (meets 𝓤 H (𝓖 .A) (givenOf 𝓤 H 𝓜 𝓖) (𝓜 .mem) (𝓡 .run) (tablesOf 𝓤 H 𝓜 (tables 𝓤 H 𝓜 𝓡 code.env))')
        cited = ['    (cited 𝓤 H (Of-%s 𝓤 H (𝓖 .A) (𝓜 .mem) (𝓡 .run)) 𝓜 𝓡 code.env #%s %s-def.routine %s'
                 ' (%s-thm.met 𝓤 H 𝓜 𝓖 𝓡))'
                 % (callee.alias, callee.alias, callee.alias, callee.link, callee.alias) for callee in self.callees]
        self.add('\n'.join(cited) + ')')

    # ---- the imports

    def header(self):
        walk = self.walk
        dotted = '.'.join(walk.function.split('::'))
        types, definitions = walk.types.imports()
        uses = ['use ' + use for contract in [walk.contract] + [callee.contract for callee in self.callees]
                for use in contract.uses] + sorted(walk.uses)
        own = [line.strip() for line in walk.description.get('uses', '').strip().split('\n') if line.strip()]
        lines = [WRITTEN_BY % dotted, '-- Assumes nothing.'] + imported_once(USES + uses + own + types)
        for callee in self.callees:
            alias, module = callee.alias, callee.module
            lines += ['use %s as %s' % (module, alias), 'use %s.Symbol as %s-def' % (module, alias),
                      'use %s.Symbol.{name as #%s}' % (module, alias), 'use %s.Met as %s-thm' % (module, alias)]
        base = 'Rattle·%s·proofs.proofs.%s' % (walk.crate, dotted)
        lines += ['use %s.Key.{name as #f}' % base, 'use %s as f' % base, 'use %s.Statement as stated' % base,
                  'use %s.Code as code' % base, 'use %s.Code.Mir as mir' % base, '']
        return '\n'.join(lines) + '\n' + '\n'.join(definitions) + '\n'


def imported_once(lines):
    """The imports, each name at its first."""
    seen = set()
    once = []
    for line in lines:
        module, names = import_line(line) or ('', None)
        if names is None:
            if line not in seen:
                seen.add(line)
                once.append(line)
            continue
        new = []
        for name in names:
            if known_as(name) not in seen:
                seen.add(known_as(name))
                new.append(name)
        if new:
            once.append('use %s.{%s}' % (module, ', '.join(new)))
    return once


def laid_out(text):
    """The text in the layout of `rt fmt`."""
    text = re.sub(r'\n\)\n$', ')\n', text)
    lines = []
    for line in re.sub(r'\n\n\n+', '\n\n', text).split('\n'):
        indent = re.match(r' *', line).group()
        lines.append(indent + re.sub(r' +\)', ')', re.sub(r'  +', ' ', line.strip())))
    return '\n'.join(lines)
