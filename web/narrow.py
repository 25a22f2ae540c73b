"""Gives a WebAssembly module of 64-bit addresses a memory of 32-bit ones, which every engine has.

Numbers and calls keep their 64 bits: an address is narrowed where the module loads, stores, copies or fills, and nowhere else. So the
module means the same as long as it stays inside its memory, of 4 GiB at most; outside it may read elsewhere where the wide module
stops. What this file doesn't know about WebAssembly, it refuses."""

from wasm_bytes import END, FORMS, GROW, I32_CONST, I64_CONST, MAGIC, SIZE, Reader, Section, Unknown, block, changed, each, immediate, number, signed

MOST_PAGES = 65536
WRAP, EXTEND, GET, SET = b"\xa7", b"\xac", b"\x20", b"\x21"


def narrowed(module):
    """The module with a memory of 32-bit addresses."""
    reader, made, parameters, types = Reader(module), bytearray(MAGIC), [], []
    if reader.take(8) != MAGIC:
        raise Unknown("this is no module of WebAssembly")
    while not reader.is_done():
        kind, body = Section(reader.byte()), reader.block()
        match kind:
            case Section.TYPE:
                parameters = list(each(body, parameter_count))
            case Section.FUNCTION:
                types = list(each(body, Reader.number))
            case Section.TABLE:
                body = changed(body, table)
            case Section.MEMORY:
                body = changed(body, memory)
            case Section.ELEMENT | Section.DATA:
                body = changed(body, active_segment if kind is Section.DATA else elements)
            case Section.CODE:
                counts = iter([parameters[it] for it in types])
                body = changed(body, lambda it: function(it, next(counts)))
            case Section.IMPORT | Section.START:
                raise Unknown(f"the module has a section {kind.name}")
            case Section.CUSTOM | Section.GLOBAL | Section.EXPORT | Section.DATA_COUNT:
                pass
        made += bytes([kind]) + block(body)
    return bytes(made)


def parameter_count(reader):
    if reader.byte() != 0x60:
        raise Unknown("the module has a type that is none of functions")
    count = len(reader.block())
    reader.block()
    return count


def memory(reader):
    """The limits of a memory, in pages. What is below 4 GiB needs no upper one."""
    flags, least = reader.byte(), reader.number()
    most = reader.number() if flags & 1 else None
    if flags & ~1 != 4 or max(least, most or 0) > MOST_PAGES:
        raise Unknown("the memory isn't one of 64-bit addresses that 4 GiB would do for")
    return b"\0" + number(least) if most is None else b"\1" + number(least) + number(most)


def table(reader):
    """A table, which has to have indices of 32 bits already."""
    begin = reader.at
    reader.byte()
    flags = reader.byte()
    reader.number()
    if flags & 1:
        reader.number()
    if flags & ~1:
        raise Unknown("a table has indices of 64 bits")
    return reader.since(begin)


def elements(reader):
    """The functions that a table begins with."""
    begin = reader.at
    if reader.number() != 0:
        raise Unknown("the module has other elements than functions of the first table")
    if reader.byte() != I32_CONST:
        raise Unknown("elements begin at no constant")
    reader.signed()
    if reader.byte() != END:
        raise Unknown("elements begin at no constant")
    for _ in range(reader.number()):
        reader.number()
    return reader.since(begin)


def active_segment(reader):
    """Bytes, and the address where they are."""
    if reader.number() != 0 or reader.byte() != I64_CONST:
        raise Unknown("a segment of data stands at no constant address")
    address = reader.signed()
    if reader.byte() != END:
        raise Unknown("a segment of data stands at no constant address")
    # An address of the upper half is a negative constant of 32 bits.
    constant = signed((address ^ 0x80000000) - 0x80000000)
    return b"\0" + bytes([I32_CONST]) + constant + bytes([END]) + block(reader.block())


class Locals:
    """The locals of a function for what is above an address on the stack, each declared when it is first asked for."""

    def __init__(self, first):
        self.first, self.added = first, []

    def place(self, value, taken):
        """A local for a value of this type that isn't in use."""
        for at, kind in enumerate(self.added):
            if kind == value and self.first + at not in taken:
                return self.first + at
        self.added.append(value)
        return self.first + len(self.added) - 1


def function(reader, parameters):
    """The code of a function, with its locals in front."""
    code = Reader(reader.block())
    runs = [(code.number(), code.byte()) for _ in range(code.number())]
    places = Locals(parameters + sum(count for count, _ in runs))
    body = b"".join(instructions(code, places))
    runs += [(1, it) for it in places.added]
    return block(number(len(runs)) + b"".join(number(count) + bytes([kind]) for count, kind in runs) + body)


def instructions(code, places):
    while not code.is_done():
        begin = code.at
        opcode = code.byte()
        if opcode in (0xFC, 0xFD):
            opcode = (opcode, code.number())
        if opcode not in FORMS:
            raise Unknown(f"this file doesn't know the instruction {opcode}")
        form = FORMS[opcode]
        head = code.since(begin)
        yield from around(opcode, form, head + immediate(code, form.kind), places)


def around(opcode, form, written, places):
    """An instruction with what narrows the addresses that it takes, and widens the sizes that it answers."""
    if form.above is not None:
        yield from narrowing(form.above, places)
    yield written
    if opcode in (SIZE, GROW):
        # What says that the memory can't grow is -1.
        yield EXTEND


def narrowing(above, places):
    """Narrows the address below these operands, and those among them."""
    kept = []
    for operand in reversed(above):
        kept.append(places.place(operand.type, kept))
        yield SET + number(kept[-1])
    yield WRAP
    for operand, place in zip(above, reversed(kept), strict=True):
        yield GET + number(place)
        if operand.is_address:
            yield WRAP
