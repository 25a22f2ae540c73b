"""Modules of WebAssembly, as bytes: their sections, numbers and instructions. What isn't known here is refused."""

import enum, typing

MAGIC = b"\0asm\1\0\0\0"


class Unknown(Exception):
    """A sentence on what the module has and this file doesn't know."""


class Section(enum.IntEnum):
    CUSTOM, TYPE, IMPORT, FUNCTION, TABLE, MEMORY, GLOBAL, EXPORT, START, ELEMENT, CODE, DATA, DATA_COUNT = range(13)


class Value(enum.IntEnum):
    """The types of values, by the byte that writes each."""

    I32, I64, F32, F64, V128 = 0x7F, 0x7E, 0x7D, 0x7C, 0x7B


class Kind(enum.Enum):
    """What follows an instruction's number."""

    NOTHING, INDEX, TWO_INDICES, BLOCK, TARGETS, TYPES, SIGNED, FOUR_BYTES, EIGHT_BYTES, SIXTEEN_BYTES, LANE, MEMORY, MEMORY_LANE = range(13)


class Operand(typing.NamedTuple):
    """What an instruction takes above an address: a value, or another address or size."""

    type: Value
    is_address: bool = False


class Form(typing.NamedTuple):
    """What follows an instruction's number, and what is above the address that it takes; `None` if it takes none."""

    kind: Kind
    above: tuple | None = None


ADDRESS = Operand(Value.I64, is_address=True)
NOTHING = Form(Kind.NOTHING)
INDEX = Form(Kind.INDEX)
LOAD = Form(Kind.MEMORY, ())
SIZE, GROW, COPY, FILL = 0x3F, 0x40, (0xFC, 10), (0xFC, 11)
I32_CONST, I64_CONST, END = 0x41, 0x42, 0x0B


def store(value):
    return Form(Kind.MEMORY, (Operand(value),))


def forms():
    """The form of each instruction, by its byte, or by the byte in front of its number and that number."""
    known = dict.fromkeys([0x00, 0x01, 0x05, 0x0B, 0x0F, 0x1A, 0x1B, 0xD1, *range(0x45, 0xC5)], NOTHING)
    known |= dict.fromkeys([0x02, 0x03, 0x04], Form(Kind.BLOCK))
    known |= dict.fromkeys([0x0C, 0x0D, 0x10, *range(0x20, 0x25), 0xD2, SIZE], INDEX)
    known |= {0x0E: Form(Kind.TARGETS), 0x11: Form(Kind.TWO_INDICES), 0x1C: Form(Kind.TYPES)}
    known |= {I32_CONST: Form(Kind.SIGNED), I64_CONST: Form(Kind.SIGNED), 0x43: Form(Kind.FOUR_BYTES), 0x44: Form(Kind.EIGHT_BYTES)}
    known |= dict.fromkeys(range(0x28, 0x36), LOAD)
    stored = [Value.I32, Value.I64, Value.F32, Value.F64, Value.I32, Value.I32, Value.I64, Value.I64, Value.I64]
    known |= {0x36 + at: store(value) for at, value in enumerate(stored)}
    known |= {(0xFC, it): NOTHING for it in range(8)}
    known |= {GROW: Form(Kind.INDEX, ()), COPY: Form(Kind.TWO_INDICES, (ADDRESS, ADDRESS)), FILL: Form(Kind.INDEX, (Operand(Value.I32), ADDRESS))}
    known |= {(0xFD, it): NOTHING for it in [*range(14, 21), *range(35, 84), *range(94, 276)]}
    known |= {(0xFD, it): LOAD for it in [*range(11), 92, 93]} | {(0xFD, 11): store(Value.V128)}
    known |= {(0xFD, it): Form(Kind.SIXTEEN_BYTES) for it in (12, 13)} | {(0xFD, it): Form(Kind.LANE) for it in range(21, 35)}
    return known | {(0xFD, it): Form(Kind.MEMORY_LANE, (Operand(Value.V128),)) for it in range(84, 92)}


FORMS = forms()


class Reader:
    """Bytes that are read from the front."""

    def __init__(self, data):
        self.data, self.at = data, 0

    def is_done(self):
        return self.at == len(self.data)

    def take(self, count):
        self.at += count
        if self.at > len(self.data):
            raise Unknown("the module ends in the middle")
        return self.data[self.at - count:self.at]

    def byte(self):
        return self.take(1)[0]

    def number(self):
        """A number without a sign, seven bits in a byte, the lowest first."""
        number, shift = 0, 0
        while (byte := self.byte()) & 0x80:
            number, shift = number | (byte & 0x7F) << shift, shift + 7
        return number | byte << shift

    def signed(self):
        begin = self.at
        number = self.number()
        bits = 7 * (self.at - begin)
        return number - (1 << bits) if number >> (bits - 1) else number

    def block(self):
        """The bytes after their count."""
        return self.take(self.number())

    def since(self, begin):
        return self.data[begin:self.at]


def number(value):
    written = bytearray()
    while value > 0x7F:
        written.append(value & 0x7F | 0x80)
        value >>= 7
    return bytes([*written, value])


def signed(value):
    written = bytearray()
    while not -0x40 <= value < 0x40:
        written.append(value & 0x7F | 0x80)
        value >>= 7
    return bytes([*written, value & 0x7F])


def block(data):
    return number(len(data)) + data


def each(body, read):
    reader = Reader(body)
    for _ in range(reader.number()):
        yield read(reader)


def changed(body, change):
    made = list(each(body, change))
    return number(len(made)) + b"".join(made)


def immediate(code, kind):
    """What follows an instruction's number. The offset of an address is rewritten, because linkers leave room for one of 64 bits."""
    begin = code.at
    match kind:
        case Kind.NOTHING:
            pass
        case Kind.INDEX:
            code.number()
        case Kind.TWO_INDICES:
            code.number(), code.number()
        case Kind.BLOCK | Kind.SIGNED:
            code.signed()
        case Kind.TARGETS:
            for _ in range(code.number() + 1):
                code.number()
        case Kind.TYPES:
            code.block()
        case Kind.FOUR_BYTES:
            code.take(4)
        case Kind.EIGHT_BYTES:
            code.take(8)
        case Kind.SIXTEEN_BYTES:
            code.take(16)
        case Kind.LANE:
            code.byte()
        case Kind.MEMORY:
            return place_in_memory(code)
        case Kind.MEMORY_LANE:
            return place_in_memory(code) + code.take(1)
    return code.since(begin)


def place_in_memory(code):
    alignment, offset = code.number(), code.number()
    if alignment & ~0x3F or offset >> 32:
        raise Unknown("an instruction takes another memory, or lies 4 GiB after its address")
    return number(alignment) + number(offset)
