"""The repository: the items of a crate's .rt files with their contracts, and its MIR."""
import os
import re
import subprocess

from .mir import MirFunction, read_program
from .words import balanced, split_top, stop


class Repository:
    """The folder with crates.txt, and what was read of its crates. `print_mir` gives the text of `rt mir CRATE`."""

    def __init__(self, root, print_mir=None):
        self.root = root
        self.print_mir = print_mir or self.ask_rt
        self.sources = {}
        self.programs = {}

    @classmethod
    def around(cls, folder):
        """The repository that the folder stands in."""
        while not os.path.exists(folder + '/crates.txt'):
            if folder == '/':
                stop('no crates.txt here or above: run walkgen.py inside a repository')
            folder = os.path.dirname(folder)
        return cls(folder)

    def ask_rt(self, crate):
        said = subprocess.run(['rt', 'mir', crate], capture_output=True, text=True, cwd=self.root)
        if 'program (' not in said.stdout:
            stop('`rt mir %s` gave no MIR. It said:\n%s' % (crate, (said.stdout + said.stderr)[-2000:]))
        return said.stdout

    def crate(self, crate):
        if crate not in self.sources:
            self.sources[crate] = Source(self, crate)
        return self.sources[crate]

    def crates(self):
        return os.listdir(self.root + '/crates')

    def function(self, path):
        """The MIR of a function, by its full name."""
        crate = path.split('::')[0]
        if crate not in self.programs:
            self.programs[crate] = read_program(self.print_mir(crate))
        if path not in self.programs[crate]:
            stop('no function `%s` in the MIR of its crate '
                 '(functions that nothing calls and that are not `pub` may be left out)' % path)
        return MirFunction(self.programs[crate][path])


class Source:
    """The structs, enums, functions and `ghost use`s of a crate, by their full names."""

    def __init__(self, repository, crate):
        self.types = {}
        self.functions = {}
        self.uses = {}
        base = repository.root + '/crates/%s/src/' % crate
        files = [base + name for name in ('lib.rt', 'main.rt') if os.path.exists(base + name)]
        if not files:
            stop('no crates/%s/src/lib.rt: a walk can cite only crates of this repository. '
                 'Wrap the callee in a function of your own that the borrow checker covers' % crate)
        self.read_file(files[0], base, [crate])

    def read_file(self, path, base, module):
        with open(path) as file:
            self.read_items(re.sub(r'//[^\n]*', '', file.read()), base, module)

    def read_items(self, text, base, module):
        path = '::'.join(module)
        self.uses[path] = [match.group(1) for match in re.finditer(r'ghost\s+use\s+([^;]+);', text)]
        text = self.read_modules(text, base, module)
        self.read_structs(text, path)
        self.read_enums(text, path)
        self.read_functions(text, path)

    def read_modules(self, text, base, module):
        """Reads the modules in files of their own and those in the text; gives the text without the latter."""
        for match in re.finditer(r'\bmod\s+(\w+)\s*;', text):
            name = match.group(1)
            for path in (base + name + '.rt', base + name + '/mod.rt'):
                if os.path.exists(path):
                    self.read_file(path, base + name + '/', module + [name])
        inline = []
        for match in re.finditer(r'\bmod\s+(\w+)\s*\{', text):
            name = match.group(1)
            end = balanced(text, match.end() - 1, '{', '}')
            inline.append((match.start(), end))
            self.read_items(text[match.end():end], base + name + '/', module + [name])
        for start, end in reversed(inline):
            text = text[:start] + text[end + 1:]
        return text

    def read_structs(self, text, path):
        for match in re.finditer(r'\bstruct\s+(\w+)\s*([({;])', text):
            fields = []
            opening = match.group(2)
            if opening != ';':
                end = balanced(text, match.end() - 1, opening, {'{': '}', '(': ')'}[opening])
                fields = [re.sub(r'^pub(\([^)]*\))?\s+', '', field) for field in split_top(text[match.end():end], ',')]
                fields = [tuple(part.strip() for part in field.split(':', 1)) if opening == '{' else (str(place), field)
                          for place, field in enumerate(fields)]
            self.types[path + '::' + match.group(1)] = dict(kind='struct', module=path, fields=fields)

    def read_enums(self, text, path):
        for match in re.finditer(r'\benum\s+(\w+)\s*\{', text):
            end = balanced(text, match.end() - 1, '{', '}')
            variants = []
            for variant in split_top(text[match.end():end], ','):
                parts = re.match(r'(\w+)\s*(?:\((.*)\)|\{(.*)\})?$', variant.split('=')[0].strip(), re.S)
                if not parts:
                    continue
                fields = []
                if parts.group(2) is not None:
                    fields = split_top(parts.group(2), ',')
                elif parts.group(3) is not None:
                    fields = [field.split(':', 1)[1].strip() for field in split_top(parts.group(3), ',')]
                variants.append((parts.group(1), fields))
            self.types[path + '::' + match.group(1)] = dict(kind='enum', module=path, variants=variants)

    def read_functions(self, text, path):
        impls = []
        for match in re.finditer(r'\bimpl\s+(\w+)\s*\{', text):
            impls.append((match.start(), balanced(text, match.end() - 1, '{', '}'), match.group(1)))
        for match in re.finditer(r'\bfn\s+(\w+)\s*(<[^>]*>)?\s*\(', text):
            owner = [name for start, end, name in impls if start < match.start() < end]
            end = balanced(text, match.end() - 1, '(', ')')
            names = []
            for parameter in split_top(text[match.end():end], ','):
                name = re.sub(r'^mut\s+', '', parameter.split(':', 1)[0].strip())
                names.append(name.lstrip('&').replace('mut ', ''))
            self.functions['::'.join([path] + owner + [match.group(1)])] = dict(
                module=path, params=names, **self.clauses(text[end + 1:]))

    @staticmethod
    def clauses(text):
        """What stands between a function's parameters and its body: the texts of each kind of clause."""
        clauses = {}
        place = 0
        result = re.match(r'\s*->\s*([^{;]*?)\s*(?=\b(requires|ensures|ghost)\b|\{)', text)
        if result:
            place = result.end()
        while True:
            clause = re.match(r'\s*(requires|ensures|ghost|decreases)\s*\{', text[place:])
            if not clause:
                return clauses
            end = balanced(text, place + clause.end() - 1, '{', '}')
            clauses.setdefault(clause.group(1), []).append(text[place + clause.end():end].strip())
            place = end + 1
