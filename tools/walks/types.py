"""The types of a walk's values: as the MIR and as the source write them, and what each is called in a proof."""
import re
from dataclasses import dataclass
from typing import Any, Optional

from .mir import items
from .words import Stop, field_name, stop


@dataclass(frozen=True)
class Type:
    """A type; which of the fields it has goes by its kind."""
    kind: str  # int, bool, unit, ptr, named, array, ref (a reference), slice
    width: str = ''  # of an int, in bits
    path: str = ''  # of a named type: its full name
    element: Optional['Type'] = None  # of an array, a ref or a slice
    count: str = ''  # of an array
    lifetime: Any = None  # of a ref or a slice
    mutability: str = ''  # `mut` or `imm`, of a ref or a slice


BOOL = Type('bool')
UNIT = Type('unit')
POINTER = Type('ptr')
USIZE = Type('int', width='64')

WIDTHS = {'u8': '8', 'u16': '16', 'u32': '32', 'u64': '64', 'usize': '64'}

# What a declared type brings to a proof, beside its laws: how it is passed by value. %(laws)s is LL for a struct, EL
# for an enum.
PLAIN = ('abbrev %(alias)s-p : Plain\n'
         '%(alias)s-p = record { row = %(alias)s-t.the-row; '
         'val = %(laws)s.val %(alias)s-t.the-type %(alias)s-l.the-laws; '
         'tells = %(laws)s.tells %(alias)s-t.the-type %(alias)s-l.the-laws; '
         'makes = λ 𝓤 H A W. %(laws)s.makes %(alias)s-t.the-type %(alias)s-l.the-plain 𝓤 H A; '
         'ty = %(alias)s-l.mir; '
         'typed = λ 𝓤 H A W x is. %(laws)s.lawful %(alias)s-t.the-type %(alias)s-l.the-laws 𝓤 H A W%(unit)s'
         ' .typed x _ is .0; '
         'copies = λ 𝓤 H A W. %(laws)s.copy %(alias)s-t.the-type %(alias)s-l.the-copy 𝓤 H A W }\n')


class Types:
    """The declared types that a walk meets, each with the name that it has there."""

    def __init__(self, repository, crate):
        self.repository = repository
        self.crate = crate
        self.used = {}  # by full name: the declaration, with its alias
        self.taken = {}  # names that are imported, with where they come from

    # ---- from the MIR and from the source

    def of_mir(self, expression):
        if expression == 'tyBool':
            return BOOL
        if expression == 'tyUnit':
            return UNIT
        if expression == 'tyPtr':
            return POINTER
        form = expression[0]
        if form == 'tyInt':
            return Type('int', width=expression[1])
        if form == 'tyNamed':
            return Type('named', path=expression[1][1].strip('"'))
        if form == 'tyArray':
            count = expression[2][1] if isinstance(expression[2], list) else expression[2]
            return Type('array', element=self.of_mir(expression[1]), count=count)
        if form == 'tyRef':
            return Type('ref', lifetime=expression[1], mutability=expression[2], element=self.of_mir(expression[3]))
        if form == 'tyStruct':
            # a pointer and a length
            pointer = self.of_mir(items(expression[2])[0])
            return Type('slice', lifetime=pointer.lifetime, mutability=pointer.mutability, element=pointer.element)
        stop('a type that the kit does not know: %s' % expression)

    def of_source(self, text, module):
        """A type as it is written in a module."""
        text = text.strip()
        array = re.match(r'\[(.*);\s*(\w+)\]$', text)
        if array:
            return Type('array', element=self.of_source(array.group(1), module), count=array.group(2))
        if text in WIDTHS:
            return Type('int', width=WIDTHS[text])
        if text == 'bool':
            return BOOL
        if text == '()':
            return UNIT
        path = self.find(text, module)
        if path:
            return Type('named', path=path)
        stop('the type `%s` (in %s): the kit knows u8 to u64, usize, bool, arrays, and the structs and enums of this '
             'repository' % (text, module))

    def find(self, text, module):
        """The full name of a declared type: in the module or around it, else in the crate, else in another one."""
        crate = module.split('::')[0]
        parts = text.split('::')
        around = module.split('::')
        for depth in range(len(around), 0, -1):
            path = '::'.join(around[:depth] + [parts[-1]])
            if path in self.repository.crate(crate).types:
                return path
        others = [other for other in self.repository.crates() if other != crate]
        for other in [parts[0]] if parts[0] in others else [crate] + others:
            try:
                found = [path for path in self.repository.crate(other).types if path.split('::')[-1] == parts[-1]]
            except Stop:
                found = []
            if found:
                return found[0]
        return None

    def declared(self, path):
        """The declaration of a type, which is imported from then on."""
        self.alias(path)
        return self.used[path]

    def alias(self, path):
        """What a declared type is called in the walk."""
        if path in self.used:
            return self.used[path]['alias']
        crate, *inside = path.split('::')
        source = self.repository.crate(crate)
        if path not in source.types:
            stop('the declaration of `%s` is not found in crates/%s/src' % (path, crate))
        alias = inside[-1]
        if any(declaration['alias'] == alias for declaration in self.used.values()):
            alias = '-'.join(inside)
        origin = (self.facade(crate, 'specs') + '.declared.' + '.'.join(inside), inside[-1])
        if self.taken.get(alias, origin) != origin:
            alias += '′'
        declaration = dict(source.types[path], alias=alias)
        self.used[path] = declaration
        for field in self.field_texts(declaration):
            part = self.of_source(field, declaration['module'])
            while part.kind == 'array':
                part = part.element
            if part.kind == 'named':
                self.alias(part.path)
        return alias

    @staticmethod
    def field_texts(declaration):
        if declaration['kind'] == 'struct':
            return [text for _, text in declaration['fields']]
        return [text for _, fields in declaration['variants'] for text in fields]

    def fields(self, declaration):
        """The types of a struct's fields."""
        return [self.of_source(text, declaration['module']) for _, text in declaration['fields']]

    def facade(self, crate, part):
        """Where a crate's specs or proofs stand, seen from the walk's crate."""
        return 'Rattle·%s·%s.%s' % (crate, part, part) if crate == self.crate else 'Rattle·%s.%s' % (crate, part)

    def laws(self, path):
        """The module with the laws of structs, or of enums."""
        return 'LL' if self.declared(path)['kind'] == 'struct' else 'EL'

    # ---- what a type is called in a proof

    def plain(self, type_):
        """How it is passed by value."""
        if type_.kind == 'int':
            return 'u%s-p' % type_.width
        if type_.kind in ('bool', 'unit'):
            return type_.kind + '-p'
        if type_.kind == 'named':
            return self.alias(type_.path) + '-p'
        stop('a value of type %s: the kit passes numbers, bools, structs and enums by value; '
             'put an array into a struct, or lend it as a slice' % self.show(type_))

    def row(self, type_):
        """Its relation between values and bytes."""
        if type_.kind == 'int':
            return 'u' + type_.width
        if type_.kind in ('bool', 'unit'):
            return type_.kind
        if type_.kind == 'named':
            return self.alias(type_.path) + '-t.the-row'
        if type_.kind == 'array':
            return '(Array %s %s)' % (self.row(type_.element), type_.count)
        stop('a row of %s' % self.show(type_))

    def values(self, type_):
        """The type of its values in the logic."""
        if type_.kind == 'int':
            return 'ℕ'
        if type_.kind == 'bool':
            return 'Bool'
        if type_.kind == 'unit':
            return 'Unit {0}'
        if type_.kind == 'named':
            return self.alias(type_.path)
        if type_.kind == 'array':
            return '(List %s)' % self.values(type_.element)
        stop('the values of %s' % self.show(type_))

    def in_mir(self, type_):
        """The MIR's type, as a proof writes it."""
        if type_.kind == 'int':
            return '(tyInt w%s)' % type_.width
        if type_ in (BOOL, UNIT, POINTER):
            return {'bool': 'tyBool', 'unit': 'tyUnit', 'ptr': 'tyPtr'}[type_.kind]
        if type_.kind == 'named':
            return self.alias(type_.path) + '-l.mir'
        if type_.kind == 'array':
            return '(tyArray %s %s)' % (self.in_mir(type_.element), type_.count)
        lifetime = 'erased' if type_.lifetime == 'erased' else '(named %s)' % type_.lifetime[1]
        pointer = '(tyRef %s %s (pointee (%s .written)))' % (lifetime, type_.mutability, self.row(type_.element))
        return pointer if type_.kind == 'ref' else '(sliceTy %s)' % pointer

    def blank(self, type_):
        """What stands past the end of a list: zeros, and an enum's first variant."""
        if type_.kind == 'int':
            return '0'
        if type_.kind == 'bool':
            return 'false'
        if type_.kind == 'unit':
            return 'tt'
        if type_.kind == 'array':
            return '(replicate %s %s)' % (type_.count, self.blank(type_.element))
        declaration = self.declared(type_.path)
        if declaration['kind'] == 'struct':
            maker = declaration['alias'] + '-of'
            fields = [text for _, text in declaration['fields']]
        else:
            variant, fields = declaration['variants'][0]
            maker = declaration['alias'] + '-' + variant
        blanks = [self.blank(self.of_source(text, declaration['module'])) for text in fields]
        return '(' + ' '.join([maker] + blanks) + ')' if blanks else maker

    def layout(self, type_):
        """Size and alignment in bytes."""
        if type_.kind == 'int':
            return int(type_.width) // 8, int(type_.width) // 8
        if type_.kind == 'bool':
            return 1, 1
        if type_.kind == 'unit':
            return 0, 1
        if type_.kind == 'array':
            size, alignment = self.layout(type_.element)
            return size * int(type_.count), alignment
        declaration = self.declared(type_.path)
        if declaration['kind'] == 'struct':
            return self.struct_layout(self.fields(declaration))
        tag = Type('int', width='8')
        variants = [self.struct_layout([tag] + [self.of_source(text, declaration['module']) for text in fields])
                    for _, fields in declaration['variants']]
        alignment = max(alignment for _, alignment in variants)
        return round_up(max(size for size, _ in variants), alignment), alignment

    def struct_layout(self, types):
        end = 0
        widest = 1
        for size, alignment in map(self.layout, types):
            end = round_up(end, alignment) + size
            widest = max(widest, alignment)
        return round_up(end, widest), widest

    def show(self, type_):
        """The type as a reader writes it."""
        if type_.kind == 'int':
            return 'usize/u64' if type_.width == '64' else 'u' + type_.width
        if type_.kind == 'named':
            return type_.path.split('::', 1)[1]
        if type_.kind == 'array':
            return '[%s; %s]' % (self.show(type_.element), type_.count)
        if type_.kind == 'ref':
            return 'a pointer to ' + self.show(type_.element)
        if type_.kind == 'slice':
            return '&%s[%s]' % ('mut ' if type_.mutability == 'mut' else '', self.show(type_.element))
        return type_.kind

    # ---- the head of the file

    def imports(self):
        """The imports of the declared types, and the definitions that a walk needs of each."""
        uses = []
        definitions = []
        for path, declaration in self.used.items():
            crate, *inside = path.split('::')
            alias = declaration['alias']
            dotted = '.'.join(inside)
            specs = self.facade(crate, 'specs') + '.declared.' + dotted
            proofs = self.facade(crate, 'proofs') + '.' + dotted
            uses.append('use %s.{%s%s}' % (specs, inside[-1], '' if alias == inside[-1] else ' as ' + alias))
            uses.append('use %s as %s-t' % (proofs, alias))
            uses.append('use %s.Laws as %s-l' % (proofs, alias))
            is_struct = declaration['kind'] == 'struct'
            if is_struct:
                definitions.append(self.maker(declaration))
            else:
                variants = ', '.join('%s as %s-%s' % (name, alias, name) for name, _ in declaration['variants'])
                uses.append('use %s.the-variants.{%s}' % (specs, variants))
            laws, unit = ('LL', '') if is_struct else ('EL', ' tt')
            definitions.append(PLAIN % dict(alias=alias, laws=laws, unit=unit))
        return uses, definitions

    def maker(self, declaration):
        """A struct of its fields."""
        alias = declaration['alias']
        names = ['x%d' % place for place in range(len(declaration['fields']))]
        types = ' → '.join([self.values(type_) for type_ in self.fields(declaration)] + [alias])
        fields = '; '.join('%s = %s' % (field_name(field), name)
                           for (field, _), name in zip(declaration['fields'], names))
        return 'abbrev %s-of : %s\n%s = record { %s }\n' % (alias, types, ' '.join([alias + '-of'] + names), fields)


def round_up(number, unit):
    return -(-number // unit) * unit
