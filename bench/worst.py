#!/usr/bin/env python3
"""Writes inputs that should be dear, each of at most 32,768 bytes, to a folder: worst.py folder; prints their names."""
import sys
from card import INFO, components, dump_of, element, lists, path, record

DUMP, FILE = 32768, 16383
NULL = element(0x05)
NO_FLAGS = element(0x03, b"\x00")
AID = element(0x4F, b"\x00")
TWO_PATHS = element(0x61, AID, element(0x73, path(b""), element(0xA0, element(0x04))))

# the largest n for which make(n) is a dump that is not too long
def most(make, high):
    low = 1
    while low + 1 < high:
        middle = (low + high) // 2
        low, high = (middle, high) if make(middle) else (low, middle)
    return make(low)

# a dump of such files, or nothing where one of them or all together are too long
def fitting(files, od=b"", front=b""):
    entries = od + b"".join(element(tag, path(where)) for tag, where, _ in files)
    whole = front + INFO + record(2, entries) + b"".join(record(3, bytes([len(where)]) + where + body) for _, where, body in files)
    return whole if len(whole) <= DUMP and all(len(x) <= FILE for x in [entries] + [body for _, _, body in files]) else b""

# the smallest object of a class: common attributes, class, a sealed type
def thing(common=b"", kind=b""):
    return element(0xA0, element(0x30, common), element(0x30, kind), element(0xA1, NULL))

def owner(own):
    return thing(b"", element(0x04, own))

def rule(*parts, mode=NO_FLAGS):
    return element(0x30, mode, *parts)

def guarded(*rules):
    return thing(element(0x30, *rules))

# rules of lists of at most 250 conditions
def lists_of(conditions):
    parts = [conditions[k:k + 250] for k in range(0, len(conditions), 250)]
    return [rule(element(0xA2, *part) if len(part) > 1 else part[0]) for part in parts]

# the same bytes in two files of data containers
def two_files(body, more=()):
    return list(more) + [(0xA7, b"\x45" + bytes([k]), body) for k in (0, 1)]

# as many of these conditions as fit, and authentication objects that bear these identifiers
def conditions(one, owns=()):
    bearers = [(0xA8, b"\x44\x08", b"".join(map(owner, owns)))] if owns else []
    return most(lambda n: fitting(two_files(guarded(*lists_of([one] * n)), bearers)), FILE // len(one))

def rules(one):
    return most(lambda n: fitting(two_files(guarded(*[one] * n))), FILE // len(one))

def rests(one):
    return most(lambda n: fitting(two_files(thing(one * n))), FILE // len(one))

def labels(text):
    one = thing(element(0x0C, text.encode()))
    return most(lambda n: fitting(two_files(one * n)), 65)

# identifiers of n bytes that begin and end alike
def alike(n, count):
    return [b"\x11" * (n - 2) + bytes([k, 0x77]) for k in range(count)]

# identifiers of four bytes that begin and end alike and have the same sum
def one_sum(count):
    return [bytes([0x77, k, 255 - k, 0x77]) for k in range(count)]

# as many paths of n bytes as EF.OD holds, by where they differ
def named(n, where):
    count = FILE // (n + 6)
    front = {"first": 0, "middle": (n - 2) // 2, "last": n - 2}[where]
    return [b"\x3F" * front + k.to_bytes(2, "big") + b"\x3F" * (n - 2 - front) for k in range(1, count + 1)]

# each with its empty file
def paths(every, od=b""):
    return most(lambda n: fitting([(0xA7, p, b"") for p in every[:n]], od), len(every) + 1)

# an object with so many conditions, in EF.OD itself
def inline(count):
    return element(0xA7, element(0xA0, guarded(*lists_of([NULL] * count))))

def twice(every):
    return INFO + record(2, b"".join(element(0xA7, path(p)) for p in every + every[-1:]))

def nested(tag, times, inside):
    for _ in range(times):
        inside = element(tag, inside)
    return inside

# and/or of two, so many levels deep
def tree(levels):
    return NULL if levels == 1 else element(0xA1 + levels % 2, tree(levels - 1), tree(levels - 1))

# the same object once inside EF.OD and once in a file
def both(make):
    return most(lambda n: fitting([(0xA7, b"\x45", guarded(make(n)))], element(0xA7, element(0xA0, guarded(make(n))))), FILE)

# two record files of as many such records as fit
def record_files(one, front=b""):
    def of(n):
        files = [record(4, b"\x01" + bytes([k]) + one * n) for k in (0, 1)]
        whole = front + INFO + record(2, b"".join(element(0xA7, path(bytes([k]))) for k in (0, 1))) + b"".join(files)
        return whole if len(whole) <= DUMP and len(one * n) <= FILE else b""
    return most(of, DUMP // len(one))

def directory(one):
    return record(5, one * (FILE // len(one)))

# CIAInfo and EF.OD with fill to their ends
def filled(first, last=b""):
    info, od = INFO[4:], bytes([first ^ 255]) * (FILE - len(last)) + last
    return record(1, info + bytes([first]) * (FILE - len(info) - 20)) + record(2, od)

# 128 authentication objects with identifiers of n bytes that differ in one
def owners(n, differ):
    own = [bytes(differ) + bytes([k]) + b"\x77" * (n - 1 - differ) for k in range(128)]
    return fitting([(0xA8, b"\x44" + bytes([f]), b"".join(map(owner, own[64 * f:64 * f + 64]))) for f in (0, 1)])

# 64 keys and 64 certificates with one identifier
def shared(n):
    own = element(0x04, b"\x42" * n)
    return fitting([(0xA0, b"\x44\x00", thing(b"", own + NO_FLAGS) * 64), (0xA4, b"\x44\x04", thing(b"", own) * 64)])

def named_inputs():
    yield "large-card-of-lists", lists(16)
    yield "large-card-of-components", components(16)
    yield "2047-paths-of-2-bytes", paths(named(2, "last"))
    yield "paths-of-3-bytes", paths(named(3, "last"))
    yield "paths-of-4-bytes-with-one-sum", paths([bytes([k // 256, k % 256, 255 - k // 256, 255 - k % 256]) for k in range(1638)])
    yield "paths-of-7-bytes-differ-last", paths(named(7, "last"))
    yield "paths-of-8-bytes-differ-last", paths(named(8, "last"))
    for n in (16, 64):
        for where in ("first", "middle", "last"):
            yield f"paths-of-{n}-bytes-differ-{where}", paths(named(n, where))
    yield "paths-behind-3500-unknown-entries", paths(named(2, "last"), b"\x80\x00" * 3500)
    yield "paths-behind-an-object-of-3400-conditions", paths(named(2, "last"), inline(3400))
    yield "paths-without-files", INFO + record(2, b"".join(element(0xA7, path(p)) for p in named(2, "last")))
    yield "last-path-named-twice", twice(named(2, "last")[:-1])
    for n in (2, 8, 24, 40):
        yield f"conditions-of-{n}-found-last-of-96", conditions(element(0x04, alike(n, 96)[-1]), alike(n, 96))
        yield f"conditions-of-{n}-found-nowhere", conditions(element(0x04, alike(n, 200)[-1]), alike(n, 96))
    yield "empty-conditions-among-126", conditions(element(0x04), [bytes([k, 0]) for k in range(125)] + [b""])
    yield "empty-conditions-nowhere-of-126", conditions(element(0x04), [bytes([k, 0]) for k in range(126)])
    yield "conditions-of-1-nowhere-of-126", conditions(element(0x04, b"\x77"), alike(2, 126))
    yield "conditions-of-24-nowhere-of-126", conditions(element(0x04, alike(24, 200)[-1]), alike(24, 126))
    yield "conditions-nowhere-of-126-with-one-sum", conditions(element(0x04, one_sum(200)[-1]), one_sum(126))
    yield "conditions-always", conditions(NULL)
    yield "conditions-of-no-bytes", conditions(element(0x04))
    yield "conditions-sealed", conditions(element(0x80))
    yield "conditions-sealed-with-high-tags", conditions(b"\x9F\x1F\x00")
    yield "conditions-8-deep-not", conditions(nested(0xA0, 6, NULL))
    yield "conditions-8-deep-tree", rules(rule(tree(8)))
    yield "value-under-not-8-deep", both(lambda n: rule(nested(0xA0, 7, element(0x80, bytes(n)))))
    yield "list-under-not-8-deep", both(lambda n: rule(nested(0xA0, 6, element(0xA2, *[element(0x04, b"\x20" * (n // 250 + 1))] * 250))))
    yield "rules", rules(rule(NULL))
    yield "rules-with-32-flags", rules(rule(NULL, mode=element(0x03, b"\x00\xFF\xFF\xFF\xFF")))
    yield "rules-with-a-rest", rules(rule(NULL, NULL))
    yield "rest-of-tiny-elements", rests(NULL)
    yield "rest-of-high-tags", rests(b"\x9F\x1F\x00")
    yield "rest-16-deep", rests(nested(0x31, 16, b""))
    yield "fill", filled(0)
    yield "fill-that-differs-last", filled(255, b"\x01")
    yield "record-file-of-empty-records", record_files(b"\x00\x00")
    yield "record-file-of-filled-records", record_files(b"\x01\x00\xFF")
    yield "labels-of-4-byte-characters", labels("\U0001F511" * 255)
    yield "labels-of-2-byte-characters", labels("ä" * 255)
    yield "labels-of-1-byte-characters", labels("a" * 255)
    yield "unknown-entries", fitting([], b"\x80\x00" * (FILE // 2))
    yield "unknown-entries-and-EF.DIR-elements", fitting([], b"\x80\x00" * 8170, directory(b"\x80\x00"))
    yield "EF.DIR-of-templates", directory(element(0x61, AID)) + dump_of([])
    yield "EF.DIR-of-templates-with-a-73", directory(element(0x61, AID, element(0x73))) + dump_of([])
    yield "EF.DIR-of-templates-with-two-paths", directory(TWO_PATHS) + dump_of([])
    yield "EF.DIR-and-a-card-of-components", directory(TWO_PATHS) + components(7)
    yield "EF.DIR-and-a-file-of-empty-records", record_files(b"\x00\x00", directory(TWO_PATHS))
    yield "128-smallest-objects", fitting([(0xA7, b"\x45", thing() * 128)])
    yield "129-smallest-objects", fitting([(0xA7, b"\x45", thing() * 129)])
    yield "128-authentication-objects", owners(2, 0)
    yield "128-long-identifiers-differ-last", owners(235, 234)
    yield "128-long-identifiers-differ-first", owners(235, 0)
    yield "last-identifier-twice", owners(235, 234)[:-5] + b"\x7E" + owners(235, 234)[-4:]
    yield "64-keys-64-certificates-one-identifier", shared(2)
    yield "64-keys-64-certificates-one-long-identifier", shared(235)

if __name__ == "__main__":
    for name, data in named_inputs():
        assert 0 < len(data) <= DUMP, (name, len(data))
        with open(f"{sys.argv[1]}/{name}.dump", "wb") as f:
            f.write(data)
        print(f"{sys.argv[1]}/{name}.dump")
