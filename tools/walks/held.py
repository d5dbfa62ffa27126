"""What a walk knows: of each parameter, and of what each local holds at a statement."""
from dataclasses import dataclass
from typing import Optional

from .types import Type


@dataclass
class Param:
    """A parameter. In the proof a slice is its list, and its things are numbered by its place among the slices."""
    source: str  # its name in the source
    name: str  # and in the proof
    type: Type
    place: int
    kind: str  # val, mut (a `&mut` slice) or shr (a `&` slice)
    # of a value
    plain: str = ''
    relation: str = ''
    # of a slice
    number: str = ''  # as a subscript: its base is b₁, its offset o₁, its length n₁, ..
    lifetime: int = 0
    row: str = ''
    values: str = ''
    room: str = ''

    @property
    def local(self):
        return self.place + 1

    @property
    def is_slice(self):
        return self.kind != 'val'

    @property
    def own(self):
        """The label of what the walk owns of a slice."""
        return 'own:' + self.name

    @property
    def token(self):
        """The label of its lifetime's token."""
        return 'tok:' + self.name


@dataclass(frozen=True)
class Value:
    type: Type
    text: str  # the value, in the logic
    relation: str  # that the bytes are it
    literal: Optional[int] = None
    product: Optional[tuple] = None  # of a product with a literal: the factor, and the literal as text
    fields: Optional[tuple] = None  # of an enum inside its `match`: what the variant's fields hold


@dataclass(frozen=True)
class Slice:
    """A parameter that is a slice, whole."""
    name: str


@dataclass(frozen=True)
class SlicePointer:
    """The address of a slice's first element."""
    name: str


@dataclass(frozen=True)
class SlicePart:
    """`&row[start..start + count]`"""
    name: str
    start: str
    count: str
    fits: str  # that the count is below its width
    size: str  # of an element, in bytes


@dataclass(frozen=True)
class Element:
    """The address of an element: of a slice, or of a local array."""
    index: str
    size: str
    bare: bool  # elements of one byte: the index is the offset
    name: str = ''  # the slice
    array: Optional[int] = None  # or the local


@dataclass(frozen=True)
class LocalArray:
    element: Type
    count: str
    list: str
    value: str
    relation: str


@dataclass(frozen=True)
class ArrayPointer:
    """The address of a local array."""
    local: int


@dataclass(frozen=True)
class ArraySlice:
    """A local array, lent as a slice."""
    local: int
    count: str
