#!/usr/bin/env python3
"""Writes a dump of up to 32,768 bytes: card.py [lists|components [sixteenths of its objects]]."""
import struct, sys

def element(tag, *parts):
    body = b"".join(parts)
    n = len(body)
    head = bytes([n]) if n < 128 else bytes([0x81, n]) if n < 256 else bytes([0x82, n >> 8, n & 255])
    return bytes([tag]) + head + body

def record(kind, payload):
    return struct.pack("<HH", len(payload) + 2, kind) + payload

def path(where, *more):
    return element(0x30, element(0x04, where), *more)

INFO = record(1, element(0x30, element(0x02, b"\x01"), element(0x03, b"\x00")))

# a dump of directory files: each an entry's tag, a path, the file's bytes
def dump_of(files, info=INFO):
    entries = b"".join(element(tag, path(where)) for tag, where, _ in files)
    return info + record(2, entries) + b"".join(record(3, bytes([len(where)]) + where + body) for _, where, body in files)

def identifier(n):
    return element(0x04, bytes([0x20, n]))

# 120 objects with long condition lists: 40 keys, 40 certificates, 40 PINs
def lists(part):
    count = 40 * part // 16

    def rules(n, size):
        conditions = element(0xA2, *[identifier((n + 7 * k) % count) for k in range(size)])
        return element(0x30, element(0x30, element(0x03, b"\x06\x40"), conditions))

    def thing(n, name, auth, size, kind, last):
        common = element(0x30, element(0x0C, f"{name} {n}".encode()), *([identifier(auth)] if auth is not None else []), rules(n, size))
        return element(0x30, common, element(0x30, *kind), element(0xA1, last))

    def key(n):
        last = element(0x30, path(b"\x4B" + bytes([n])), element(0x02, b"\x08\x00"))
        return thing(n, "Signature key", n, 60, [identifier(n), element(0x03, b"\x06\x40")], last)

    def certificate(n):
        return thing(n, "Certificate", None, 50, [identifier(n)], element(0x30, path(b"\x43" + bytes([n]))))

    def pin(n):
        last = element(0x30, element(0x03, b"\x03\x08"), element(0x0A, b"\x01"), element(0x02, b"\x04"), element(0x02, b"\x08"))
        return thing(n, "PIN", (n + 1) % count, 51, [identifier(n)], last)

    kinds = [(0xA0, b"\x44\x01", key), (0xA4, b"\x44\x02", certificate), (0xA8, b"\x44\x04", pin)]
    return dump_of([(tag, where, b"".join(map(make, range(count)))) for tag, where, make in kinds])

REST = element(0x8B, b"kept as it came")
LONG_PATH = [b"\x3F\x00\x50\x15", element(0x02, b"\x00"), element(0x80, b"\x02\x00")]

def common(n):
    either = element(0xA2, identifier(n), element(0xA0, element(0x05)))
    rules = [element(0x30, element(0x03, mode), what, REST) for mode, what in ((b"\x06\x40", either), (b"\x05\x20", identifier(n + 1)))]
    label = f"Object {n} of a card with many components, a label of usual length: käännös {n:03}".encode()
    return element(0x30, element(0x0C, label), element(0x03, b"\x05\xE0"), identifier(n), element(0x02, b"\x01"), element(0x30, *rules), REST)

def class_of(tag, n):
    if tag <= 0xA3:
        dates = element(0x18, b"20240229235959Z"), element(0x80, b"20341231000000Z")
        flags = element(0x01, b"\x00"), element(0x03, b"\x03\xF8"), element(0x02, bytes([n]))
        return element(0x30, identifier(n), element(0x03, b"\x06\xFF\xC0"), *flags, *dates, REST)
    if tag <= 0xA6:
        return element(0x30, identifier(n), element(0x01, b"\xFF"), REST)
    if tag == 0xA7:
        return element(0x30, element(0x0C, b"application"), element(0x06, b"\x2A\x03\x04"), REST)
    return element(0x30, identifier(n), element(0x02, bytes([n])), element(0x80, b"\x01"), REST)

def type_of(tag, n):
    if tag == 0xA0:
        return element(0x30, path(*LONG_PATH), element(0x02, b"\x08\x00"), REST)
    if 0xA4 <= tag <= 0xA6:
        return element(0x30, path(*LONG_PATH), REST)
    if tag == 0xA8:
        sizes = element(0x02, b"\x04"), element(0x02, b"\x08"), element(0x02, b"\x10")
        more = element(0x80, bytes([n + 1])), element(0x04, b"\xFF"), element(0x18, b"20240101120000Z")
        return element(0x30, element(0x03, b"\x03\x98"), element(0x0A, b"\x01"), *sizes, *more, path(*LONG_PATH), REST)
    return element(0x30, element(0x04, bytes(8)), element(0x02, b"\x08\x00"))

# 120 objects of every class with every optional component, and short condition lists
def components(part):
    tags = bytes.fromhex("A0A4A8A7A1A0A4A8A5A0A4A8A3A2A6")
    info = element(0x30, element(0x02, b"\x01"), element(0x04, bytes(8)), element(0x0C, b"maker"), element(0x80, b"card"), element(0x03, b"\x05\xE0"), REST)
    files = {tag: b"" for tag in sorted(tags)}
    for n in range(120 * part // 16):
        tag = tags[n % len(tags)]
        subclass = element(0xA0, element(0x30, element(0x05)))
        files[tag] += element(0x30, common(n), class_of(tag, n), subclass, element(0xA1, type_of(tag, n)))
    return dump_of([(tag, bytes([0x44, tag]), body) for tag, body in files.items()], record(1, info))

if __name__ == "__main__":
    kind, part = (sys.argv[1:] + ["lists", "16"][len(sys.argv) - 1:])[:2]
    sys.stdout.buffer.write({"lists": lists, "components": components}[kind](int(part)))
