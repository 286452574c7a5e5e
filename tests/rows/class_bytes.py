"""The bytes of a class file (JVMS 4): its pool, a class with another code, with another constant, with one member."""
from rows.calls import NotAsked

MAIN_CODE = bytes.fromhex("000800080000000AB2")


def utf8(text):
    """Returns modified UTF-8 (JVMS 4.4.7) of a text."""
    units = text.encode("utf-16-be", "surrogatepass")
    made = b""
    for at in range(0, len(units), 2):
        unit = units[at] << 8 | units[at + 1]
        if 0 < unit < 0x80:
            made += bytes([unit])
        elif unit < 0x800:
            made += bytes([0xC0 | unit >> 6, 0x80 | unit & 63])
        else:
            made += bytes([0xE0 | unit >> 12, 0x80 | unit >> 6 & 63, 0x80 | unit & 63])
    return made


def units_of(content):
    """Returns the code units that modified UTF-8 spells."""
    units, at = [], 0
    while at < len(content):
        byte = content[at]
        more = 0 if byte < 0x80 else 1 if byte < 0xE0 else 2
        unit = byte if not more else byte & (31 if more == 1 else 15)
        for it in content[at + 1:at + 1 + more]:
            unit = unit << 6 | it & 63
        units.append(unit)
        at += 1 + more
    return units


def constant(content):
    """Returns a constant of modified UTF-8."""
    if len(content) > 65_535:
        raise NotAsked("a text longer than a class file's")
    return b"\x01" + len(content).to_bytes(2, "big") + content


def constants(class_file):
    """Returns the constants of a class file by index: texts and strings' indexes, ints, longs, or None."""
    at, found_at, count = 10, [None], int.from_bytes(class_file[8:10], "big")
    while len(found_at) < count:
        tag = class_file[at]
        if tag == 1:
            length = int.from_bytes(class_file[at + 1:at + 3], "big")
            found_at.append(class_file[at + 3:at + 3 + length])
            at += 3 + length
        elif tag in (3, 5):
            size = 4 if tag == 3 else 8
            found_at.append(int.from_bytes(class_file[at + 1:at + 1 + size], "big", signed=True))
            found_at += [None] * (tag == 5)
            at += 1 + size
        else:
            found_at.append(("string", int.from_bytes(class_file[at + 1:at + 3], "big")) if tag == 8 else None)
            at += 3 if tag in (7, 8) else 5
    return found_at


def pool_end_of(whole):
    """Returns where the pool of a class file ends."""
    at, index, count = 10, 1, int.from_bytes(whole[8:10], "big")
    while index < count:
        tag = whole[at]
        at += 3 + int.from_bytes(whole[at + 1:at + 3], "big") if tag == 1 else 9 if tag in (5, 6) else 3 if tag in (7, 8, 16) else 5
        index += 2 if tag in (5, 6) else 1
    return at


def with_code(whole, code):
    """Returns a class file with another code of the ten bytes of main."""
    at = whole.index(MAIN_CODE)
    length = int.from_bytes(whole[at - 4:at], "big") + len(code) - 10
    return whole[:at - 4] + length.to_bytes(4, "big") + whole[at:at + 4] + len(code).to_bytes(4, "big") + code + whole[at + 18:]


def with_string(whole, content):
    """Returns a class file with a string of this modified UTF-8, which main pushes."""
    count = int.from_bytes(whole[8:10], "big")
    pool_end = pool_end_of(whole)
    pool = whole[10:pool_end] + constant(content) + b"\x08" + count.to_bytes(2, "big")
    with_pool = whole[:8] + (count + 2).to_bytes(2, "big") + pool + whole[pool_end:]
    return with_code(with_pool, b"\x12" + (count + 1).to_bytes(1, "big") + b"\xB1")


def class_with(member, descriptor):
    """Returns a class file with one field or one static method of this descriptor."""
    texts = [b"Main", b"java/lang/Object", b"f", descriptor, b"Code"]
    head = b"\xCA\xFE\xBA\xBE\0\0\0\x31\0\x08" + b"".join(map(constant, texts)) + b"\x07\0\x01\x07\0\x02\0\x21\0\x06\0\x07\0\0"
    if member == "field":
        return head + b"\0\x01\0\x01\0\x03\0\x04\0\0\0\0\0\0"
    code = b"\0\x05\0\0\0\x0D\0\0\x02\0\0\0\0\x01\xB1\0\0\0\0"
    return head + b"\0\0\0\x01\0\x09\0\x03\0\x04\0\x01" + code + b"\0\0"
