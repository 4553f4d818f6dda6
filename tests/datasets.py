"""Random datasets, and the netCDF classic file of each: written from the NetCDF Classic Format Specification, and not from the programs.

A dataset here can be said in CDL: no two names of one list are equal, each attribute of numbers has a value, there are no
records without a record variable, and no fill value of characters changes where NULs at the end of attributes go.
"""

import random
import struct
from dataclasses import dataclass, field
from typing import NamedTuple


class Type(NamedTuple):
    code: int
    size: int
    fill: int  # the default
    letter: str  # of struct

    def least(self):
        return -(2 ** (8 * self.size - 1)) if self.letter.islower() else 0

    def most(self):
        return self.least() + 2 ** (8 * self.size) - 1

    def packed(self, values):
        return struct.pack(f">{len(values)}{self.letter}", *values)


BYTE = Type(1, 1, -127, "b")
CHAR = Type(2, 1, 0, "B")
SHORT = Type(3, 2, -32767, "h")
INT = Type(4, 4, -2147483647, "i")
UBYTE = Type(7, 1, 255, "B")
USHORT = Type(8, 2, 65535, "H")
UINT = Type(9, 4, 4294967295, "I")
INT64 = Type(10, 8, -9223372036854775806, "q")
UINT64 = Type(11, 8, 18446744073709551614, "Q")
CLASSIC = [BYTE, CHAR, SHORT, INT]


class Format(NamedTuple):
    version: int
    types: list
    number: str  # the struct format of counts and lengths
    offset: str  # that of offsets


# by the word of ncgen's -k
FORMATS = {
    "nc3": Format(1, CLASSIC, ">I", ">I"),
    "nc6": Format(2, CLASSIC, ">I", ">Q"),
    "nc5": Format(5, [*CLASSIC, UBYTE, USHORT, UINT, INT64, UINT64], ">Q", ">Q"),
}
RESERVED = "netcdf dimensions variables data byte char short int long float real double ubyte ushort uint int64 uint64 string unlimited UNLIMITED"
LETTERS = "abcdefgXYZ_0123456789"
SPECIALS = " !\"#$%&'()*,:;<=>?[]^`{|}~\\@+-.éßλ中"


@dataclass
class Attribute:
    name: bytes
    type: Type
    values: list


@dataclass
class Variable:
    name: bytes
    type: Type
    shape: list
    attributes: list = field(default_factory=list)
    values: list = field(default_factory=list)

    def fill(self):
        for attribute in self.attributes:
            if attribute.name == b"_FillValue":
                return attribute.values[0] if attribute.type == self.type and len(attribute.values) == 1 else self.type.fill
        return self.type.fill


@dataclass
class Dataset:
    kind: str
    dims: list
    records: int
    attributes: list
    variables: list

    def trimmed(self):
        """Without the NULs at the end of attributes of characters."""

        def trim(attribute):
            values = list(attribute.values)
            while attribute.type == CHAR and values and values[-1] == 0:
                values.pop()
            return Attribute(attribute.name, attribute.type, values)

        def trim_all(variable):
            return Variable(variable.name, variable.type, variable.shape, [trim(a) for a in variable.attributes], variable.values)

        return Dataset(self.kind, self.dims, self.records, [trim(a) for a in self.attributes], [trim_all(v) for v in self.variables])

    def is_record(self, variable):
        return bool(variable.shape) and self.dims[variable.shape[0]][1] == 0

    def slab(self, variable):
        """How many values a variable has in a record, or in all where it is no record variable."""
        count = 1
        for dim in variable.shape[1:] if self.is_record(variable) else variable.shape:
            count *= self.dims[dim][1]
        return count

    def file(self):
        """The file, byte by byte."""
        fixed = [v for v in self.variables if not self.is_record(v)]
        record = [v for v in self.variables if self.is_record(v)]
        sole = len(record) == 1 and record[0].type.size < 4
        blocks = {id(v): padded(v, v.type.packed(v.values)) for v in fixed}
        slabs = {id(v): self.slabs(v, sole) for v in record}
        at = len(self.header({}))
        begins = {}
        for v in fixed:
            begins[id(v)] = at
            at += len(blocks[id(v)])
        for v in record:
            begins[id(v)] = at
            at += len(slabs[id(v)][0]) if slabs[id(v)] else size(self, v)
        data = b"".join(blocks[id(v)] for v in fixed)
        data += b"".join(slabs[id(v)][r] for r in range(self.records) for v in record)
        return self.header(begins) + data

    def slabs(self, variable, sole):
        count = self.slab(variable)
        whole = [variable.type.packed(variable.values[r * count : (r + 1) * count]) for r in range(self.records)]
        return whole if sole else [padded(variable, one) for one in whole]

    def header(self, begins):
        spelled = Spelling(FORMATS[self.kind])
        variables = [spelled.variable(v, size(self, v), begins.get(id(v), 0)) for v in self.variables]
        return (
            spelled.magic()
            + spelled.number(self.records)
            + spelled.items(10, [spelled.name(name) + spelled.number(length) for name, length in self.dims])
            + spelled.attributes(self.attributes)
            + spelled.items(11, variables)
        )


class Spelling:
    """The parts of a header, as a format spells them."""

    def __init__(self, format_):
        self.format = format_

    def magic(self):
        return b"CDF" + bytes([self.format.version])

    def number(self, n):
        return struct.pack(self.format.number, n)

    def items(self, tag, items):
        return struct.pack(">I", tag if items else 0) + self.number(len(items)) + b"".join(items)

    def name(self, name):
        return self.number(len(name)) + with_zeros(name)

    def attribute(self, attribute):
        values = with_zeros(attribute.type.packed(attribute.values))
        return self.name(attribute.name) + struct.pack(">I", attribute.type.code) + self.number(len(attribute.values)) + values

    def attributes(self, attributes):
        return self.items(12, [self.attribute(attribute) for attribute in attributes])

    def variable(self, variable, size_, begin):
        shape = self.number(len(variable.shape)) + b"".join(self.number(dim) for dim in variable.shape)
        vsize = self.number(size_ if self.format.version == 5 else min(size_, 2**32 - 1))
        places = struct.pack(">I", variable.type.code) + vsize + struct.pack(self.format.offset, begin)
        return self.name(variable.name) + shape + self.attributes(variable.attributes) + places


def with_zeros(some):
    """The bytes, with zeros up to the next multiple of four."""
    return some + bytes(-len(some) % 4)


def padded(variable, slab):
    """A slab, with fill values up to the next multiple of four bytes."""
    return slab + variable.type.packed([variable.fill()] * (-len(slab) % 4 // variable.type.size))


def size(dataset, variable):
    """The bytes of a slab, padded."""
    unpadded = dataset.slab(variable) * variable.type.size
    return unpadded + -unpadded % 4


class Datasets:
    """Random datasets."""

    def __init__(self, seed):
        self.random = random.Random(seed)
        self.names = 0

    def name(self):
        """A name that no other has, now and then a reserved word with a number after it, or one with odd characters."""
        pick = self.random
        self.names += 1
        if pick.random() < 0.1:
            return f"{pick.choice(RESERVED.split())}{self.names}".encode()
        if pick.random() < 0.1:
            return f"{self.names}{pick.choice(LETTERS)}".encode()
        letters = LETTERS + SPECIALS if pick.random() < 0.3 else LETTERS
        middle = "".join(pick.choice(letters) for _ in range(pick.choice([1, 2, 3, 8, 20, 60])))
        return f"{pick.choice('abcxyzT_é')}{middle}{self.names}".encode()

    def value(self, type_):
        pick = self.random
        draw = pick.random()
        if type_ == CHAR:
            return pick.choice([0, pick.randrange(256), *b"abcdefgh "]) if draw < 0.5 else pick.choice(b"abcdefgh ")
        if draw < 0.2:
            return pick.choice([type_.least(), type_.most(), 0, 1, type_.fill])
        if draw < 0.5:
            return pick.randint(type_.least(), type_.most())
        return pick.randint(max(type_.least(), -99), min(type_.most(), 99))

    def values(self, type_, count):
        return [self.value(type_) for _ in range(count)]

    def attribute(self, types):
        type_ = self.random.choice(types)
        count = self.random.randint(0 if type_ == CHAR else 1, 12)
        return Attribute(self.name(), type_, self.values(type_, count))

    def fill_attribute(self, type_, types):
        """An attribute named as the fill value, mostly one of the variable's type; of characters it is one, and no NUL follows."""
        pick = self.random
        other = pick.choice(types) if pick.random() < 0.2 else type_
        count = 1 if other == type_ or pick.random() < 0.5 else 2
        values = [pick.choice(b"xyz ")] * count if other == CHAR else self.values(other, count)
        return Attribute(b"_FillValue", other, values)

    def variable(self, types, dims, record):
        pick = self.random
        type_ = pick.choice(types)
        fixed = [i for i, dim in enumerate(dims) if dim[1]]
        shape = [pick.choice(fixed) for _ in range(pick.randint(0, 3))] if fixed else []
        if record is not None and pick.random() < 0.5:
            shape.insert(0, record)
        attributes = [self.attribute(types) for _ in range(pick.randint(0, 2))]
        if pick.random() < 0.3:
            attributes.insert(pick.randint(0, len(attributes)), self.fill_attribute(type_, types))
        return Variable(self.name(), type_, shape, attributes)

    def dataset(self):
        pick = self.random
        kind = pick.choice(list(FORMATS))
        types = FORMATS[kind].types
        dims = [(self.name(), pick.randint(1, 7)) for _ in range(pick.randint(0, 4))]
        record = None
        if pick.random() < 0.6:
            record = pick.randint(0, len(dims))
            dims.insert(record, (self.name(), 0))
        variables = [self.variable(types, dims, record) for _ in range(pick.randint(0, 5))]
        dataset = Dataset(kind, dims, 0, [self.attribute(types) for _ in range(pick.randint(0, 3))], variables)
        if any(dataset.is_record(v) for v in variables):
            dataset.records = pick.randint(0, 6)
        for v in variables:
            v.values = self.values(v.type, dataset.slab(v) * (dataset.records if dataset.is_record(v) else 1))
            if v.type != CHAR and pick.random() < 0.1:
                v.values = [v.fill()] * len(v.values)
        return dataset
