"""A plain verifier, from the rules of the format. Prints the numbers of src/tests.rt."""

import pathlib
import re

class Fault(Exception):
    pass

OFFSET, LENGTH, LENGTHS, VTABLE, UTF8, REQUIRED, TERMINATOR = range(1, 8)

def number(data, at, width):
    if at < 0 or at + width > len(data):
        raise Fault(OFFSET)
    return int.from_bytes(data[at:at + width], "little")

def reference(data, at):
    to = at + number(data, at, 4)
    if to > len(data):
        raise Fault(OFFSET)
    return to

def vector_head(data, at):
    to = reference(data, at)
    return to + 4, number(data, to, 4)

def vector(data, at, size):
    items, count = vector_head(data, at)
    if items + count * size > len(data):
        raise Fault(LENGTH)
    return items, count

def text(data, at):
    items, count = vector_head(data, at)
    if items + count >= len(data) or data[items + count] != 0:
        raise Fault(TERMINATOR)
    try:
        bytes(data[items:items + count]).decode("utf-8")
    except UnicodeDecodeError:
        raise Fault(UTF8)

def table(data, at, base):
    """where the table begins, and its slots' bytes"""
    to = reference(data, at)
    word = number(data, to, 4)
    word -= (word >> 31) << 32
    vtable = to - word
    if vtable < base:
        raise Fault(OFFSET)
    size = number(data, vtable, 2)
    if size < 4 or size % 2 == 1:
        raise Fault(VTABLE)
    if vtable + size > len(data):
        raise Fault(LENGTH)
    return to, data[vtable + 4:vtable + size]

SHIP, PERSON, COMPANY = 0, 1, 2
OWNER = {1: PERSON, 2: COMPANY}
TABLES = {
    SHIP: [(0, True, "text"), (1, False, 2), (2, False, ("plains", 4)), (3, False, "bytes"), (4, False, "texts"),
           (5, False, ("table", SHIP)), (6, False, ("tables", SHIP)), (7, False, "union"), (9, False, "unions"),
           (11, False, ("nested", PERSON))],
    PERSON: [(0, True, "text"), (1, False, 1)],
    COMPANY: [(0, False, "text"), (1, False, "bytes")],
}

class Stop(Exception):
    pass

def verify(data, depth, tables):
    left = [tables]
    def enter(which, data, begin, to, slots, depth):
        if depth == 0:
            raise Stop("deep")
        if left[0] == 0:
            raise Stop("many")
        left[0] -= 1
        def slot(i):
            return int.from_bytes(slots[2 * i:2 * i + 2], "little") if 2 * i + 2 <= len(slots) else 0
        for i, required, kind in TABLES[which]:
            item = None
            try:
                absent = False
                if kind == "union":
                    if len(slots) <= 2 * i:
                        absent = True
                    else:
                        if len(slots) < 2 * i + 4:
                            raise Fault(VTABLE)
                        tag = number(data, to + slot(i), 1)
                        if slot(i) == 0 or slot(i + 1) == 0 or tag == 0:
                            absent = True
                        elif tag in OWNER:
                            go(OWNER[tag], data, begin, to + slot(i + 1), depth, to)
                elif kind == "unions":
                    if len(slots) < 2 * i + 4 or slot(i) == 0 and slot(i + 1) == 0:
                        absent = True
                    elif slot(i) == 0 or slot(i + 1) == 0:
                        raise Fault(OFFSET)
                    else:
                        tags, n = vector_head(data, to + slot(i))
                        values, m = vector_head(data, to + slot(i + 1))
                        if tags + n > len(data) or values + 4 * m > len(data):
                            raise Fault(LENGTH)
                        if n != m:
                            raise Fault(LENGTHS)
                        for item in range(n):
                            if data[tags + item] in OWNER:
                                go(OWNER[data[tags + item]], data, begin, values + 4 * item, depth, values)
                elif slot(i) == 0:
                    absent = True
                elif isinstance(kind, int):
                    number(data, to + slot(i), kind)
                elif kind == "text":
                    text(data, to + slot(i))
                elif kind == "bytes":
                    vector(data, to + slot(i), 1)
                elif kind == "texts":
                    items, n = vector(data, to + slot(i), 4)
                    for item in range(n):
                        text(data, items + 4 * item)
                elif kind[0] == "plains":
                    vector(data, to + slot(i), kind[1])
                elif kind[0] == "table":
                    go(kind[1], data, begin, to + slot(i), depth, to)
                elif kind[0] == "tables":
                    items, n = vector(data, to + slot(i), 4)
                    for item in range(n):
                        go(kind[1], data, begin, items + 4 * item, depth, items)
                elif kind[0] == "nested":
                    items, n = vector(data, to + slot(i), 1)
                    go(kind[1], data[items:items + n], 0, 0, depth, 0)
                if absent and required:
                    raise Fault(REQUIRED)
            except Fault as fault:
                raise Stop("field", which, begin + to, i, item, fault.args[0])
    def go(which, data, begin, at, depth, base):
        to, slots = table(data, at, base)
        enter(which, data, begin, to, slots, depth - 1)
    try:
        to, slots = table(data, 0, 0)
    except Fault as fault:
        return ("root", fault.args[0])
    try:
        enter(SHIP, data, 0, to, slots, depth)
    except Stop as stop:
        return stop.args
    return ("ok", tables - left[0])

def code(answer):
    """an answer as a number"""
    if answer[0] in ("ok", "deep", "many"):
        return ("ok", "deep", "many").index(answer[0])
    if answer[0] == "root":
        return 16 + answer[1]
    _, which, start, slot, item, kind = answer
    return ((((which + 1) * 512 + start) * 16 + slot) * 8 + (0 if item is None else item + 1) % 8) * 16 + kind

def bytes_of_test():
    text = (pathlib.Path(__file__).parent / "src/tests/ship.rt").read_text()
    rows = text[text.index("= [") : text.index("];")]
    return bytes(int(word, 16) for word in re.findall("0x[0-9a-f]{2}", rows))


if __name__ == "__main__":
    data = bytes_of_test()
    for depth, tables in ((3, 9), (2, 9), (3, 8)):
        print(f"depth {depth}, tables {tables}:", verify(data, depth, tables))
    total = 0
    for n in range(len(data)):
        total = (total * 31 + code(verify(data[:n], 64, 100))) % 2**64
    print("prefixes:", total)
    for change in (1, 0x80, 0xff):
        total = 0
        for at in range(len(data)):
            changed = bytearray(data)
            changed[at] ^= change
            total = (total * 31 + code(verify(bytes(changed), 64, 100))) % 2**64
        print(f"changed by {change}:", total)
