"""`--explain`: a function's statements with their numbers, what its walk asks for, and a description to fill in."""
from .mir import arms_of, called, is_loop, items, show_operand, show_place, show_right_side, statements
from .proof import Proof
from .words import AUTO, Stop

EXITS = {'0': 'continue or leave the block', '1': 'leave the loop'}


class Explanation:
    def __init__(self, walk):
        self.walk = walk
        self.lines = []

    def text(self):
        self.signature()
        self.lines.append('statements:')
        self.show(statements(self.walk.mir.body), '', 1)
        failed = None
        try:
            Proof(self.walk).text()
        except Stop as stopped:
            failed = str(stopped)
        self.needs()
        if failed:
            self.lines.append('NOT YET: ' + failed)
        self.skeleton()
        return '\n'.join(self.lines)

    def signature(self):
        walk = self.walk
        self.lines.append('fn %s' % walk.path)
        for param in walk.params:
            known = ' (a list), its length n%s' % param.number if param.is_slice else ', `%s`' % param.relation
            self.lines.append('  _%d  %s: %s   in the proofs: `%s`%s'
                              % (param.local, param.source, walk.types.show(param.type), param.name, known))
        for local in range(len(walk.params) + 1, len(walk.local_types)):
            self.lines.append('  _%d  %s' % (local, walk.types.show(walk.local_types[local])))
        requires = walk.contract.requires
        self.lines.append('  requires: `within : %s`' % requires if requires else '  (no requires)')
        for name, new in walk.renamed.items():
            self.lines.append('  the name `%s` is taken: here it is `%s`' % (name, new))

    # ---- the statements

    def show(self, stmts, prefix, depth):
        for place, statement in enumerate(stmts):
            ident = (prefix + '.' if prefix else '') + str(place + 1)
            self.show_one(statement, ident, '  ' * depth, depth)

    def show_one(self, statement, ident, indent, depth):
        line = indent + '%-9s ' % ident
        form = statement if isinstance(statement, str) else statement[0]
        if form == 'assign':
            self.lines.append(line + show_place(statement[1]) + ' = ' + show_right_side(statement[2]))
        elif form == 'call':
            arguments = ', '.join(show_operand(operand) for operand in items(statement[2]))
            self.lines.append(line + show_place(statement[3]) + ' = ' + called(statement) + '(' + arguments + ')')
        elif form in ('if', 'cond'):
            self.lines.append(line + 'if ' + show_operand(statement[1]))
            for which, body in (('yes', statement[2]), ('no', statement[3])):
                self.lines.append(indent + '   %s:' % which)
                self.show(statements(body), '%s.%s' % (ident, which), depth + 1)
        elif form == 'block':
            inner = statements(statement[1])
            self.lines.append(line + ('loop' if is_loop(inner) else 'block'))
            self.show(statements(inner[0][1]) if is_loop(inner) else inner, ident, depth + 1)
        elif form == 'switch':
            self.lines.append(line + 'match ' + show_operand(statement[1]))
            self.show_arms(statement, ident, indent, depth)
        elif form == 'exit':
            self.lines.append(line + EXITS.get(statement[1], 'exit %s' % statement[1]))
        else:
            self.lines.append(line + str(statement))

    def show_arms(self, switch, ident, indent, depth):
        arms, default = arms_of(switch)
        type_ = self.walk.local_types[int(switch[1][1][1])]
        labels = None
        if type_.kind == 'named':
            variants = self.walk.repository.crate(type_.path.split('::')[0]).types[type_.path]['variants']
            labels = [name for name, _ in variants]
        for arm, (keys, body) in enumerate(arms):
            names = [labels[int(key)] if labels else key for key in keys]
            label = names[0] if labels and len(keys) == 1 else str(arm)
            self.lines.append(indent + '   %s: (%s)' % (label, ', '.join(names)))
            self.show(statements(body), ident + '.' + label, depth + 1)
        if default is not None:
            self.lines.append(indent + '   default:')
            self.show(statements(default), ident + '.default', depth + 1)

    # ---- what is asked for

    def needs(self):
        self.lines.append('what the walk asks for (automatic where the description says nothing):')
        for ident, needs in self.walk.asked.items():
            for what, default in dict.fromkeys((what, str(default)) for what, default in needs):
                if what == 'loop':
                    self.lines.append('  [loop."%s"] at the head of each turn these may have changed: %s'
                                      % (ident, default))
                else:
                    default = default.replace(AUTO % '', 'auto')[:100]
                    self.lines.append('  "%s %s"   default: %s' % (ident, what, default))

    def skeleton(self):
        walk = self.walk
        self.lines.append('\n# ---- crates/%s/walks/%s.toml' % (walk.crate, '.'.join(walk.function.split('::'))))
        self.lines.append('# uses = """\\nuse Rattle·%s·specs.specs.M.{name}\\n"""'
                          '   local = """\\n.. lemmas ..\\n"""' % walk.crate)
        for ident, needs in walk.asked.items():
            for what, shown in needs:
                if what == 'loop':
                    names = ', '.join('%s = "%s"' % self.suggested(one.split(' ')[0]) for one in shown)
                    self.lines.append('[loop."%s"]\nnames = { %s }\nmeasure = ".."\ninv = ".."' % (ident, names))
        self.lines.append('[prove]')
        for ident, needs in walk.asked.items():
            for what in dict.fromkeys(what for what, _ in needs):
                if what != 'loop':
                    self.lines.append('# "%s %s" = "auto"' % (ident, what))

    @staticmethod
    def suggested(name):
        """What a loop changes, and a name for it in the proofs."""
        return name, 'v' + name[1:] if name[0] == '_' else name + '′'
