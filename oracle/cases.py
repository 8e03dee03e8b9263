#!/usr/bin/env python3
"""Makes cases, asks the Rust (./answer) and paper.py, compares the two, and writes the list that `replay` replays.

    ./cases.py              writes the list, and what `replay` has to say of it, and prints what is in it
    ./cases.py --many N     runs N random cases of each kind and the long exhaustive ones, and writes nothing
                            (a third word is another seed)
    ./cases.py --read       reads the list back and holds every case against the paper and the Rust once more

The list ends with cases that are wrong on purpose, which `replay` has to name. The seed is fixed, so the list comes out the same every time.
Any difference between the Rust and the paper stops the run and shows the smallest case that has it. The list format: README.md and lists.py. What a case is: calls.py.
"""
import collections
import itertools
import random
import sys

if sys.argv[1:2] in (["-h"], ["--help"]):
    sys.exit(print(__doc__))

import git_objects
import paper
from calls import (again, bundle_check, bundle_object, check, commit_reading, commit_rewritten, commit_writing, compare, differences, export, follow,
                   hex_of_id, id_of_hex, import_tree, lookup, lookup_any, lookup_structs, lookups, loose_header, mend, mode_asked, mode_from_number,
                   mode_text, name_order, plain_reading, steps, strict_reading, tree_put, tree_reading, tree_remove, tree_writing, unfold)
from lists import CALLS, LIST, MOST_BYTES, REPORT, State, read_list, wrong_on_purpose

HUGE = [2**64 - 1, 2**64 - 20, 2**63, 2**32, 65536]
BAD_H = [0, 1, 19, 21, 31, 33, 40, 64, 2**32 + 20, 2**64 - 1]
RULE_SETS = [0, 1, 2, 3, 4, 258, 2**15, 2**16 - 1]
rnd = random.Random(20)

# ---------------------------------------------------------------- making cases: helpers

def words(letters, longest):
    """All words over the letters, up to a length."""
    for n in range(longest + 1):
        for word in itertools.product(letters, repeat=n):
            yield bytes(word)


def chance(percent):
    return rnd.randrange(100) < percent


def some(letters, low, high):
    return bytes(rnd.choice(letters) for _ in range(rnd.randint(low, high)))


def some_h():
    return rnd.choice(BAD_H) if chance(3) else rnd.choice([20, 20, 32])


def around(needed, unit=1):
    """A room: exactly full, one short, and others."""
    return max(0, rnd.choice([needed * unit] * 6 + [needed * unit - 1, needed * unit - 1, needed * unit - unit, needed * unit + unit - 1,
                                                   needed * unit + 1, needed * unit + 2 * unit, 0]))


def damaged(b):
    """A byte changed, a cut, something inserted, something doubled, something taken out."""
    at, to = sorted((rnd.randint(0, len(b)), rnd.randint(0, len(b))))
    letter = bytes([rnd.choice(b"\0\n /.0478<>a\xff" if chance(80) else range(256))])
    if at < len(b) and chance(40):
        return b[:at] + letter + b[at + 1:]
    return rnd.choice([b[:at], b[:len(b) - 1], b[:at] + letter + b[at:], b[:to] + b[at:], b[:at] + b[to:], b + letter, b[1:]])


def spoiled(numbers, length):
    """A list of numbers with one made wrong, or with a piece of a record more or less at its end."""
    numbers = list(numbers)
    if numbers and chance(75):
        numbers[rnd.randrange(len(numbers))] = rnd.choice(HUGE + [length, length + 1, length - 1 if length else 0, 0, 2, rnd.randint(0, length)])
        return numbers
    return rnd.choice([numbers + [0] * rnd.randint(1, 3), numbers[:-1], numbers + [2**64 - 1], numbers[1:]])


# ---------------------------------------------------------------- making cases: trees

FIVE = [text for text, _word in paper.KINDS]
ODD = [b"040000", b"100664", b"0", b"", b"7777777", b"1", b"140755", b"200000", b"0000000", b"00000000", b"100600", b"120777", b"8", b"40755",
       b"0040000", b"170000", b"060000", b"20000", b"10644", b"0100644", b"100645", b"1006440", b"140000", b"240000", b"1240000"]
NAMES = [b"a", b"b", b"ab", b"a.b", b"a0", b"a-", b"a b", b"A", b"abc", b"z", b"\xff", b"\x01", b"a\n", b"git", b".gitx", b".g", b"...", b".a", b"c", b"d", b"e1"]
REFUSED = [b"", b".", b"..", b".git", b"a/b", b"/", b"a/", b"/a"]


def ids(h):
    """H bytes, now and then with a NUL, a space or digits at the front."""
    return rnd.choice([b"", b"\0", b" ", b"100644 a", b"40000 a\0"]).ljust(h, rnd.choice([b"\x11", b"\x22", b"\0", b" ", b"7", b"\xff"]))


def some_entries(h, most):
    """(mode text, name, id) sorted by the order: mostly what the strict reader accepts, else with one thing wrong."""
    names = rnd.sample(NAMES, rnd.randint(0, most))
    entries = [(rnd.choice(FIVE), name, ids(h)) for name in names]
    key = lambda e: e[1] + (b"/" if e[0] == b"40000" else b"")           # good enough: the paper says what is sorted
    entries.sort(key=key)
    if entries and chance(55):
        i, way = rnd.randrange(len(entries)), rnd.randrange(6)
        mode, name, id = entries[i]
        if way == 0:
            entries[i] = (rnd.choice(ODD), name, id)
        elif way == 1:
            entries[i] = (mode, rnd.choice(REFUSED), id)
        elif way == 2:
            entries.insert(i, (rnd.choice(FIVE), name, id))
        elif way == 3:
            rnd.shuffle(entries)
        elif way == 4:
            entries[i] = (rnd.choice(ODD), rnd.choice(NAMES + REFUSED), id)
        else:
            entries = [(rnd.choice(FIVE + ODD), n, x) for _m, n, x in entries]
    return entries


def some_tree(h, most=5):
    return b"".join(mode + b" " + name + b"\0" + id for mode, name, id in some_entries(h, most))


def random_mode_text():
    digits = some(b"01234567", 0, 9)
    text = rnd.choice([digits, rnd.choice(FIVE + ODD)]) + rnd.choice([b" ", b" ", b" ", b"", b"  "]) + some(b"a 0\0", 0, 4)
    return mode_text(damaged(text) if chance(30) else text)


def random_mode_asked():
    top = rnd.choice([0, 4, 8, 10, 12, 14, 15, rnd.randrange(16)])
    return mode_asked(top * 4096 + rnd.choice([0o100, 0o644, 0o755, 0o4000, rnd.randrange(4096), rnd.randrange(4096)]))


def random_mode_from_number():
    n = rnd.choice([16384, 40960, 57344, 49152, 32768, 33188, 0o300644, 0o200000, 2**31, 2**32 - 1, rnd.randrange(2**32), rnd.randrange(2**17)])
    return mode_from_number(n ^ (1 << rnd.randrange(32)) if chance(40) else n)


def random_name_order():
    a = some(b"ab./0-\0\xff", 0, 4)
    b = rnd.choice([some(b"ab./0-\0\xff", 0, 4), a + some(b"./0-\0\xff", 0, 2), a, a[:-1]])
    return name_order(a, chance(50), b, chance(50))


def random_tree_reading():
    h = some_h()
    object = some_tree(h if h in (20, 32) else 20)
    if chance(35):
        object = damaged(object)
    if chance(4):
        h = 52 - h if h in (20, 32) else h          # read with the other length
    n = paper.tree_read(h, object, paper.WIDTH * len(object), False)[0][3]
    return tree_reading(h, object, around(n, paper.WIDTH), rnd.choice([2] * 60 + [1] * 30 + RULE_SETS))


def some_records(h, most):
    """Bytes with records into them: an object that was read, or names and one id that all records share."""
    if chance(40):
        object = some_tree(h)
        return object, paper.tree_read(h, object, paper.WIDTH * len(object), False)[1]
    names = rnd.sample([bytes([x]) for x in range(97, 123)] + NAMES[2:], rnd.randint(0, most))
    if chance(20):
        names.append(rnd.choice(REFUSED + [b"a\0b", b"\0", b"\0c", b"b\0"]))
    bytes_, records = ids(h), []
    for name in names:
        mode = rnd.choice([16384, 33188, 33261, 40960, 57344, 49152, 0, 49645, 65535, rnd.randrange(65536)])
        records.append([mode, len(bytes_), len(bytes_) + len(name), 0, len(bytes_) // 2])
        bytes_ += name
    key = lambda r: bytes_[r[1]:r[2]] + (b"/" if paper.is_tree(r[0]) else b"")
    records.sort(key=key)
    if chance(10):
        rnd.shuffle(records)
    return bytes_, [n for r in records for n in r]


def random_lookup():
    h = some_h()
    object, numbers = some_records(h if h in (20, 32) else 20, 20)
    records = paper.by(paper.WIDTH, numbers)
    name, is_tree = rnd.choice(NAMES + [b"m", b"q", b"", b"a/b"]), chance(30)
    if records and chance(75):
        r = rnd.choice(records)
        name, is_tree = object[r[1]:r[2]], paper.is_tree(r[0])
        if chance(20):
            is_tree = not is_tree
        if chance(15):
            name = rnd.choice([name + b"0", name[:-1], name + b".", name + b"/"])
    if chance(15):
        numbers = spoiled(numbers, len(object))
    return lookup(h, object, numbers, name, is_tree)


def random_tree_writing():
    h = some_h()
    bytes_, numbers = some_records(h if h in (20, 32) else 20, 6)
    if chance(22):
        numbers = spoiled(numbers, len(bytes_))
    if chance(5) and len(bytes_) > h:
        bytes_ = bytes_[:-1]
    return tree_writing(h, bytes_, numbers, around(paper.tree_size(h, bytes_, numbers)[2]))


def random_loose_header():
    size = rnd.choice([0, 2**64 - 1, 2**63, 10**rnd.randrange(20), 10**rnd.randrange(20) - 1, rnd.randrange(2**rnd.randint(1, 64))])
    kind = rnd.choice([1, 2, 3, 4] * 6 + [0, 5, 6, 255, 256, 257, 2**32 + 1, 2**64 - 1])
    return loose_header(kind, size, around(len(paper.loose_header(kind, size, 28)[1])))


# ---------------------------------------------------------------- making cases: names and ids

def some_sought(object, records):
    """A name and whether it is sought as a folder's: mostly one of the records'."""
    name, is_tree = rnd.choice(NAMES + [b"m", b"q", b"", b"a/b"]), chance(30)
    if records and chance(75):
        r = rnd.choice(records)
        name, is_tree = object[r[1]:r[2]], paper.is_tree(r[0]) != chance(15)
        if chance(15):
            name = rnd.choice([name + b"0", name[:-1], name + b".", name + b"/"])
    return name, is_tree


def random_lookup_any():
    h = some_h()
    object, numbers = some_records(h if h in (20, 32) else 20, 20)
    name, _is_tree = some_sought(object, paper.by(paper.WIDTH, numbers))
    return lookup_any(h, object, spoiled(numbers, len(object)) if chance(20) else numbers, name)


def random_lookups():
    h = some_h()
    object, numbers = some_records(h if h in (20, 32) else 20, 12)
    records = paper.by(paper.WIDTH, numbers)
    names, sought = rnd.choice([b"", object]), []
    for _ in range(rnd.choice([0, 1, 2, 3, 4, 5, 6, 7, 8, 63, 64, 65, 66])):
        name, is_tree = some_sought(object, records)
        at = names.find(name)
        if at < 0 or chance(5):
            at, names = len(names), names + name
        sought += [at, at + len(name), int(is_tree)]
    if chance(15):
        numbers = spoiled(numbers, len(object))
    if chance(15):
        sought = spoiled(sought, len(names))
    return lookups(h, object, numbers, names, sought, around(len(sought) // paper.EACH, paper.EACH))


def random_id_of_hex():
    h = rnd.choice([20, 20, 32])
    return id_of_hex(some_id(h, 30), around(h))


def random_hex_of_id():
    h = rnd.choice([20, 20, 32])
    id = some(range(256), h, h)
    return hex_of_id(damaged(id) if chance(10) else id, around(2 * h))


# ---------------------------------------------------------------- making cases: commits

def some_id(h, spoil=0):
    """2H hex digits of one or of both cases; spoiled ones are one longer, one shorter or have another letter."""
    digits = some(rnd.choice([b"0123456789abcdef", b"1", b"0123456789abcdefABCDEF"]), 2 * h, 2 * h)
    if chance(spoil):
        at = rnd.randrange(2 * h)
        return rnd.choice([digits[1:], digits + b"a", digits[:at] + rnd.choice([b"g", b"/", b":", b"@", b"G", b"`", b" ", b"\n", b"\xff"]) + digits[at + 1:]])
    return digits


def some_actor(spoil=0):
    name, address, time = rnd.choice([b"a", b"A B", b"a  b", b"\xff", b"a,.", b"x\ty"]), rnd.choice([b"b", b"a@b", b"\xff", b"."]), some(b"0123456789", 1, 10)
    zone = rnd.choice([b"+0000", b"-0000", b"+1459", b"-1400", b"+0930", b"-0759"])
    parts = [name, b" <", address, b"> ", time, b" ", zone]
    if chance(spoil):
        i = rnd.randrange(len(parts))
        parts[i] = rnd.choice([[b"", b" a", b"a ", b"a<", b"a>", b"\0", b" "], [b"<", b"  <", b"<<", b" "], [b"", b"a b", b"<", b">", b"\0", b" "],
                               [b">", b">  ", b" ", b">> "], [b"", b"12345678901", b"-1", b"1a", b" "], [b"", b"  ", b"\t"],
                               [b"+1500", b"+0060", b"0000", b"+000", b"+00000", b"*0000", b"+0a00", b"+00 0", b"+9900", b"-1460", b""]][i])
    return b"".join(parts)


def some_header():
    name = rnd.choice([b"k", b"gpgsig", b"parent", b"encoding", b"\xff", b"a\0", b"mergetag"])
    value = rnd.choice([b"", b"v", b" ", b"v w", b"a\n b", b"\n ", b"a\n \n b", b"a\n  b", b"\n b\n c", b"-\n \n \n e", b"v\r", b" \n x"])
    return name + b" " + value + b"\n"


def commit_text(h, spoil=0):
    """A commit line by line; spoiled ones have a line wrong, missing, doubled or out of place."""
    one = spoil and rnd.randrange(6)
    lines = [b"tree " + some_id(h, spoil if one == 0 else 0) + b"\n"]
    lines += [b"parent " + some_id(h, spoil if one == 1 else 0) + b"\n" for _ in range(rnd.choice([0, 0, 1, 1, 2, 3]))]
    lines += [b"author " + some_actor(spoil if one == 2 else 0) + b"\n", b"committer " + some_actor(spoil if one == 3 else 0) + b"\n"]
    lines += [b"encoding " + rnd.choice([b"x", b"UTF-8", b"", b" ", b"a b"]) + b"\n"] * rnd.choice([0, 0, 0, 1, 1, 2])
    lines += [some_header() for _ in range(rnd.choice([0, 0, 1, 1, 2, 3]))]
    if one == 4 and chance(spoil):
        i = rnd.randrange(len(lines))
        lines[i] = rnd.choice([b"", lines[i] * 2, lines[i][:-1], lines[i].replace(b" ", b"", 1), lines[i].replace(b" ", b"  ", 1),
                               lines[i].capitalize(), b" " + lines[i], b"\n", lines[i] + b" c\n", lines[i] + b" c"])
    if one == 5 and chance(spoil):
        rnd.shuffle(lines)
    blank = rnd.choice([b"\n"] * 20 + [b"", b" \n", b"x"])
    return b"".join(lines) + blank + rnd.choice([b"", b"m", b"m\n", b"\n", b" x\n\ny"])


def random_commit_reading():
    h = some_h()
    object = commit_text(h if h in (20, 32) else 20, rnd.choice([0, 0, 90]))
    if chance(18):
        object = damaged(object)
    if chance(2):
        h = 52 - h if h in (20, 32) else h
    _out, _ranges, parents, headers = paper.commit_read(h, object, len(object), 5 * len(object))
    return commit_reading(h, object, around(len(parents)), around(len(headers) // 5, 5))


def random_unfold():
    value = some(b"ab", 0, 3) + b"\n" + b"".join(b" " + some(b"a \0", 0, 3) + b"\n" for _ in range(rnd.randint(0, 3)))
    if chance(35):
        value = damaged(value)
    before, after = some(b"k \n", 0, 3), some(b"k \n", 0, 2)
    bytes_ = before + value + after
    record = [0, rnd.randint(0, len(before)), len(before), len(before) + len(value), 1 if chance(75) else 0]
    if chance(15):
        record = (spoiled(record, len(bytes_)) + [0] * 5)[:5]
    return unfold(bytes_, tuple(record), around(len(paper.unfold(bytes_, tuple(record), len(bytes_))[1])))


def random_commit_writing():
    h = some_h()
    width = h if h in (20, 32) else 20
    if chance(30):                          # a commit that was read
        bytes_ = commit_text(width)
        (n, _p, _f), ranges, parents, numbers = paper.commit_read(width, bytes_, len(bytes_), 5 * len(bytes_))
        if n:
            return random_commit_writing()
    else:                                   # pieces, laid one after the other
        bytes_ = b""

        def lay(piece):
            nonlocal bytes_
            start = len(bytes_)
            bytes_ += piece
            return [start, len(bytes_)]
        tree = lay(some_id(width, 6))[0]
        parents = [lay(some_id(width, 6))[0] if chance(40) else tree for _ in range(rnd.choice([0, 0, 1, 2]))]
        author = lay(rnd.choice([b"a <b> 1 +0000", b"", b"x", b"a\nb"]))
        committer = rnd.choice([author, lay(some(b"c \n", 0, 3))])
        encoding = [rnd.choice([0, 0, 1, 1, 1])] + lay(rnd.choice([b"x", b"UTF-8", b"U V", b"", b"\n", b"a\nb", b"a\n"]))
        numbers = []
        for _ in range(rnd.choice([0, 1, 1, 2, 3])):
            folded = chance(40)
            value = b"".join(some(b"a ", 0, 2) + b"\n" + b" " * folded for _ in range(rnd.randint(0, 3))) + some(b"b", 0, 1)
            if folded and chance(92):
                value = b"a\n" + b"".join(b" " + some(b"a ", 0, 2) + b"\n" for _ in range(rnd.randint(1, 3)))
            numbers += lay(rnd.choice([b"k", b"", b"key", b"a b"])) + lay(value) + [int(folded)]
        message = lay(some(b"m\n ", 0, 4))
        ranges = (tree, *author, *committer, *encoding, *message)
    if chance(12):
        ranges = tuple(spoiled(ranges, len(bytes_)) + [0] * 10)[:10]
    if chance(8):
        numbers = spoiled(numbers, len(bytes_))
    if chance(5):
        parents = spoiled(parents, len(bytes_))
    if chance(4):
        bytes_ = bytes_[:-1]
    return commit_writing(h, bytes_, parents, numbers, ranges, around(paper.commit_size(h, bytes_, parents, numbers, ranges)[2]))


# ---------------------------------------------------------------- exhaustive cases and the document's own

O = b"100644 a\0" + b"\x11" * 20 + b"40000 b\0" + b"\x22" * 20
TOP = b"tree " + b"1" * 40 + b"\n"
PEOPLE = b"author a <b> 1 +0000\ncommitter a <b> 1 +0000\n"


def edits(value):
    """All values one edit away: a byte left out, put in or changed."""
    for at in range(len(value) + 1):
        yield value[:at] + value[at + 1:]
        for letter in b"a 1<>+\0\n":
            yield value[:at] + bytes([letter]) + value[at:]
            yield value[:at] + bytes([letter]) + value[at + 1:]


def exhaustive(long):
    """Everything short; longer with --many."""
    for text in words(b"047 8" if long else b"07 8\0", 7 if long else 4):
        yield mode_text(text)
    for text in [b"100644 ", b"40000 ", b"040000 ", b"140755 ", b"040755 ", b"0000000 x", b"00000000 x", b"0 abcd e", b"0 abc de", b" abc", b" 12345 x", b"200000 "]:
        yield mode_text(text)
    for digits in range(0, 10):             # every number of digits, with and without a space, and spaces at bytes 5, 6, 7
        for tail in (b"", b" ", b"  ", b" x", b"x", b" x y", b"   "):
            for letter in b"0147":
                yield mode_text(bytes([letter]) * digits + tail)
    for start in (b"1000", b"0400", b"4   "):  # bytes 4 to 7
        for tail in itertools.product((b" ", b"0", b"x"), repeat=4):
            for n in range(5, 9):
                yield mode_text((start + b"".join(tail))[:n])
    for mode in range(0, 65536) if long else sorted(t * 4096 + x for t in range(16) for x in
                                                   [0, 1, 7, 8, 63, 64, 65, 127, 128, 0o600, 0o644, 0o664, 0o700, 0o755, 0o777, 0o1000, 0o2000, 0o4000, 0o4755, 4032, 4095]):
        yield mode_asked(mode)
    for bit in range(32):
        for n in (16384, 40960, 57344, 32768, 33188, 0):
            yield mode_from_number(n ^ (1 << bit))
            yield mode_from_number(n | (1 << bit))
    for n in (0, 16384, 40960, 57344, 0o300644, 0o200000, 2**32 - 1):
        yield mode_from_number(n)
    names = list(words(b"a./0\0", 3 if long else 2))
    for a, b in itertools.product(names, names):
        for x, y in itertools.product((False, True), (False, True)):
            yield name_order(a, x, b, y)

    # The document's object O, cut at every length, and with every byte made a space, a NUL, a slash or an eight.
    for n in range(len(O) + 1):
        yield tree_reading(20, O[:n], 10)
        for letter in b" \0/8" if long or n < 10 or n in range(28, 38) else b"":
            yield tree_reading(20, O[:n] + bytes([letter]) + O[n + 1:], 10)
    for room in range(15):
        yield tree_reading(20, O, room)
    # One name twice, as a file and as a folder, with and without entries between them; and where it is out of order besides.
    both = [(b"100644", b"a"), (b"100644", b"a-"), (b"100644", b"a--"), (b"40000", b"a-"), (b"100644", b"a."), (b"40000", b"a"), (b"100644", b"a0"), (b"40000", b"a0")]
    for some_of in [[e for i, e in enumerate(both) if n >> i & 1] for n in range(256)] + [both[:1] * 2, both[:1] + both[5:6] + both[:1], both[5::-5], both[2::-1] + both[3:4]]:
        yield tree_reading(20, b"".join(mode + b" " + name + b"\0" + b"\x11" * 20 for mode, name in some_of), 40)
    # Rule sets: of each mode text, with each id length, and before a list without room.
    for rules in RULE_SETS:
        for mode in [*FIVE, b"100664", b"0100664", b"1100664", b"100664 ", b"10066", b"100600", b"040000"]:
            yield tree_reading(20, mode + b" a\0" + b"\x11" * 20, 5, rules)
        for h in (19, 20, 32):
            for object, room in itertools.product((b"", O, b"8", O[:56], b"100664 a\0" + b"\x11" * 20 + b"100664 .GIT\0" + b"\x22" * 20), (4, 10)):
                yield tree_reading(h, object, room, rules)
    # `.git` with its letters in either case, and what is near it; after an entry that it may not follow; with a mode text of its own fault.
    near = [b".GITX", b"GIT", b".GI", b".G", b".GIT.", b"x.GIT", b"\x0eGIT", b"\x0egit", b".\x07it", b".g\tt", b".gi\x14", b".g@t", b".[it", b".gi\xf4"]
    for name in [bytes(x) for x in itertools.product(b".", b"gG", b"iI", b"tT")] + near:
        for mode in (b"40000 ", b"100644 ", b"100664 "):
            yield tree_reading(20, mode + name + b"\0" + b"\x11" * 20, 10)
            yield tree_reading(20, b"100644 z\0" + b"\x11" * 20 + mode + name + b"\0" + b"\x11" * 20, 10)
    for h in BAD_H + [20, 32]:
        for object in (b"", O, b"8"):
            yield tree_reading(h, object, 10)
            yield lookup(h, object, [], b"a", False)
            yield lookup(h, object, [33188, 7, 8, 9, 0], b"a", False)
            yield tree_writing(h, object, [], 0)
            yield tree_writing(h, object, [33188, 7, 8, 9, 0], 50)
    # P14, and every mode that the writer treats apart.
    for mode in (0, 1, 16384, 16385, 16877, 32768, 33188, 49152, 49645, 53247, 53248, 57344, 65535, 65536):
        yield tree_writing(20, b"abc" + b" " * 20, [mode, 0, 3, 3, 0], 32)
    # Lookups in listings of every length up to 20: every index, and every gap.
    for n in range(0, 40 if long else 21):
        bytes_ = b"\x11" * 20 + bytes(range(98, 98 + 2 * n, 2))
        numbers = [x for i in range(n) for x in (33188, 20 + i, 21 + i, 0, 0)]
        for letter in range(97, 98 + 2 * n) if long or n in (0, 1, 2, 3, 4, 7, 8, 15, 16, 20) else (97, 97 + n, 98 + 2 * n):
            yield lookup(20, bytes_, numbers, bytes([letter]), False)
    for kind in range(6):
        for size in (0, 9, 10, 2**63, 2**64 - 1):
            for room in (0, 1, 6, 7, 8, 9, 10, 27, 28, 29):
                yield loose_header(kind, size, room)

    for value in words(b"a \n", 8 if long else 5):
        yield unfold(value, (0, 0, 0, len(value), 1), len(value))
    for after in words(b"a \n", 8 if long else 4):
        yield commit_reading(20, TOP + PEOPLE + after, 0, 10)
    for first, n, tail in itertools.product((b"k v\n", b"k \n"), range(4), (b"", b" ", b" c", b"k", b"k ", b"k v", b"\n", b"\nm")):
        yield commit_reading(20, TOP + PEOPLE + first + b" b\n" * n + tail, 0, 10)
    for value in words(b"a\n", 8 if long else 4):
        bytes_ = b"1" * 40 + value
        yield commit_writing(20, bytes_, [], [0, 1, 40, len(bytes_), 0], (0, 0, 1, 0, 1, 0, 0, 0, 0, 0), 200)
        yield commit_writing(20, bytes_, [], [], (0, 0, 1, 0, 1, 1, 40, len(bytes_), 0, 0), 200)
    # Every byte in the place of a hex digit, read and handed over.
    for letter in range(256):
        digits = b"1" * 39 + bytes([letter])
        if long or letter in b"/0189:@AFGZ`afgz \n\0\xff":
            yield commit_reading(20, b"tree " + digits + b"\n" + PEOPLE + b"\n", 0, 0)
            yield commit_reading(20, TOP + b"parent " + digits + b"\n" + PEOPLE + b"\n", 1, 0)
        yield commit_writing(20, digits, [], [], (0, 0, 0, 0, 0, 0, 0, 0, 0, 0), 200)
    # Every actor value one edit away from a good one (two edits with --many).
    near = list(edits(b"ab <c> 12 +0159"))
    for value in itertools.chain(near, *map(edits, near[::1 if long else len(near)])):
        yield commit_reading(20, TOP + b"author " + value + b"\ncommitter a <b> 1 +0000\n\n", 0, 0)
    for value in near[::1 if long else 4]:
        yield commit_reading(20, TOP + b"author a <b> 1 +0000\ncommitter " + value + b"\n\n", 0, 0)
    for digits in range(13):
        yield commit_reading(20, TOP + b"author a <b> " + b"9" * digits + b" +0000\ncommitter a <b> 1 +0000\n\n", 0, 0)
    for hour, minute in itertools.product(range(100) if long else (0, 9, 10, 14, 15, 20, 99), range(100) if long else (0, 9, 59, 60, 99)):
        yield commit_reading(20, TOP + b"author a <b> 1 -%02d%02d\ncommitter a <b> 1 +0000\n\n" % (hour, minute), 0, 0)
    # Long ones: lengths and counts of more than one LEB128 byte.
    names = [b"%04d" % i for i in range(150)]
    object = b"".join(b"100644 " + name + b"\0" + b"\x11" * 20 for name in names)
    numbers = paper.tree_read(20, object, paper.WIDTH * len(names), True)[1]
    for room in (750, 749):
        yield tree_reading(20, object, room)
    for name in (b"0000", b"0074", b"0075", b"0149", b"0150", b"", b"00745"):
        yield lookup(20, object, numbers, name, False)
    yield tree_writing(20, object, numbers, len(object))
    yield tree_reading(32, b"40000 " + b"n" * 4096 + b"\0" + b"\x11" * 32, 5)
    yield commit_reading(20, TOP + (b"parent " + b"a" * 40 + b"\n") * 140 + PEOPLE + b"\n", 140, 0)
    yield commit_reading(20, TOP + (b"parent " + b"a" * 40 + b"\n") * 140 + PEOPLE + b"\n", 139, 0)
    long_headers = TOP + PEOPLE + b"k v\n" * 70 + b"k a\n b\n" * 70 + b"\n" + b"m" * 300
    yield commit_reading(20, long_headers, 0, 700)
    yield commit_reading(20, long_headers, 0, 699)
    _out, ranges, parents, numbers = paper.commit_read(20, long_headers, 0, 700)
    yield commit_writing(20, long_headers, parents * 140, numbers, ranges, len(long_headers))
    if long:                                # every byte of O and of a commit, changed to every other
        for n, letter in itertools.product(range(len(O)), range(256)):
            yield tree_reading(20, O[:n] + bytes([letter]) + O[n + 1:], 10)
        small = TOP + b"parent " + b"a" * 40 + b"\n" + PEOPLE + b"encoding x\nk v\nj a\n b\n\nm"
        for n, letter in itertools.product(range(len(small)), range(256)):
            yield commit_reading(20, small[:n] + bytes([letter]) + small[n + 1:], 1, 10)
    whole = TOP + PEOPLE + b"encoding x\nk v\nj a\n b\n\nm"
    for n in range(len(whole) + 1) if long else range(0, len(whole) + 1, 3):
        yield commit_reading(20, whole[:n], 0, 10)
    for h in BAD_H + [20, 32]:
        yield commit_reading(h, whole, 0, 10)
        yield commit_writing(h, b"1" * 64, [], [], (0, 0, 1, 0, 1, 0, 0, 0, 0, 0), 200)
    yield from itertools.chain(any_sort(long), many_names(), ids_and_digits(long))


def listed(*entries):
    """Bytes with the names of some (mode, name) behind an id, and the records of them, which all have that id."""
    bytes_, numbers = b"\x11" * 20, []
    for mode, name in entries:
        numbers += [mode, len(bytes_), len(bytes_) + len(name), 0, 0]
        bytes_ += name
    return bytes_, numbers


def with_fault(bytes_, numbers, i):
    """The records with record i not well formed, in each way that there is."""
    mode, start, end, id, first = numbers[5 * i:5 * i + 5]
    for record in ([65536, start, end, id, first], [mode, end + 1, end, id, first], [mode, start, len(bytes_) + 1, id, first],
                   [mode, start, end, len(bytes_) - 19, first], [mode, start, end, 2**64 - 20, first], [mode, start, end, id, start + 1]):
        yield numbers[:5 * i] + record + numbers[5 * i + 5:]


def any_sort(long):
    """Names of whatever sort."""
    for h in BAD_H + [20, 32]:
        for object, numbers in itertools.product((b"", O, b"8"), ([], [33188, 7, 8, 9], [33188, 7, 8, 9, 0])):
            yield lookup_any(h, object, numbers, b"a")
    # One name as a file and as a folder, and what stands between: every choice of these.
    both = [(33188, b"a"), (33188, b"a-"), (16384, b"a-"), (33188, b"a."), (16384, b"a"), (33188, b"a0"), (16384, b"a0"), (57344, b"b")]
    for chosen in range(256):
        listing = listed(*[entry for i, entry in enumerate(both) if chosen >> i & 1])
        for name in (b"a", b"a-", b"a0", b"b", b"", b"a/x") if long or chosen % 16 == 0 else (b"a", b"a-", b"a0"):
            yield lookup_any(20, *listing, name)
    # A record that is not well formed, in every place: met by the first search, by the second alone, and by none.
    names = [b"a-", b"a-b", b"a.", b"a.b", b"a0", b"a1"]
    for some_of in [names[:n] for n in range(1, 7)] + [names[n:] for n in range(1, 6)]:
        bytes_, numbers = listed(*[(33188, name) for name in some_of])
        for i in range(len(some_of)):
            for spoilt in with_fault(bytes_, numbers, i):
                for name in (b"a", b"a."):
                    yield lookup_any(20, bytes_, spoilt, name)
    # Listings of every length, folders and files by turns: every index, and every gap.
    for n in range(0, 40 if long else 21):
        listing = listed(*[((33188, 16384)[i % 2], bytes([98 + 2 * i])) for i in range(n)])
        for letter in range(97, 98 + 2 * n) if long or n in (0, 1, 2, 3, 4, 7, 8, 15, 16, 20) else (97, 97 + n, 98 + 2 * n):
            yield lookup_any(20, *listing, bytes([letter]))


def many_names():
    """Many names: the order of the refusals, rooms, and a 10 in every place by every fault."""
    letters = b"abcdefgh"
    object, numbers = listed((33188, b"b"), (16384, b"d"), (33188, b"f"))
    few = [], [0], [0, 1], [0, 1, 0], [0, 9, 0], [1, 0, 0], [0, 1, 2], [1, 2, 0, 3, 4], [1, 2, 0, 3, 4, 1]
    for h in BAD_H + [20, 32]:
        for room, sought in itertools.product((0, 2, 3, 5, 6, 7), few):
            yield lookups(h, object, numbers, letters, sought, room)
    for n in (0, 1, 2, 3, 62, 63, 64, 65, 66, 127, 128, 129, 192, 193, 341):
        every = [x for i in range(n) for x in (i % 8, i % 8 + 1, i // 8 % 2)]
        for room in {0, 3 * n - 3, 3 * n - 1, 3 * n, 3 * n + 1, 3 * n + 2, 3 * n + 3, 1024} & set(range(1025)):
            yield lookups(20, object, numbers, letters, every, room)
        for rest in ([0], [9], [1, 0]):
            if len(every + rest) <= 1024:
                yield lookups(20, object, numbers, letters, every + rest, 3 * n)
        yield lookups(32, object + b"\x11" * 12, numbers, letters, every[::-1], 3 * n)
        yield lookups(20, object, [], letters, every, 3 * n)
    spoilt = list(with_fault(object, numbers, 0))
    for n in (1, 2, 3, 63, 64, 65, 66, 130):
        good = [5, 6, 0] * n                # `f`, which does not meet the first record
        for i in sorted({0, 1, n // 2, 62, 63, 64, 65, n - 2, n - 1} & set(range(n))):
            for bad in ([6, 5, 0], [5, 9, 1], [9, 9, 0], [2**64 - 1, 2**64 - 1, 0], [0, 2**64 - 1, 1], [5, 6, 2], [5, 6, 2**64 - 1], [8, 8, 2]):
                yield lookups(20, object, numbers, letters, good[:3 * i] + bad + good[3 * i + 3:], 3 * n)
            meets = good[:3 * i] + [1, 2, 0] + good[3 * i + 3:]
            for numbers_ in spoilt if n < 4 or i in (63, 64) else spoilt[i % 6:i % 6 + 1]:
                yield lookups(20, object, numbers_, letters, meets, 3 * n)
            yield lookups(20, object, spoilt[0], letters, meets[:-3] + [6, 5, 0], 3 * n)       # two such names, or one
            yield lookups(20, object, spoilt[0], letters, [5, 6, 2] + meets[3:], 3 * n)
            yield lookups(20, object, spoilt[0], letters, meets, 3 * n - 1)


def ids_and_digits(long):
    """Ids and their digits: lengths, rooms, every digit, and every byte at each end."""
    sizes = (0, 19, 20, 21, 31, 32, 33, 39, 40, 41, 63, 64, 65)
    for n in range(81):
        for room in sizes if long or n in sizes else (0, 64):
            yield id_of_hex(b"aA1" * (n // 3) + b"9Ff"[:n % 3], room)
            yield hex_of_id(bytes(range(n)), room)
            yield hex_of_id(bytes(range(256 - n, 256)), room)
    for n in (38, 39, 40, 41, 42, 62, 63, 64, 65, 66):
        for room in (0, 19, 20, 31, 32):
            for digits in (b"g" + b"1" * (n - 1), b"1" * (n - 1) + b"g"):
                yield id_of_hex(digits, room)
    for n, letter in itertools.product((40, 64), range(256)):
        yield id_of_hex(bytes([letter]) + b"1" * (n - 1), n // 2)
        yield id_of_hex(b"1" * (n - 1) + bytes([letter]), n // 2)
    for n in (40, 64):
        for at, letter in itertools.product(range(n), b"g/" if not long else b"g/:@G`\0\xff"):
            yield id_of_hex(b"1" * at + bytes([letter]) + b"1" * (n - at - 1), n // 2)
    for first in paper.HEX:                 # every pair of digits
        yield id_of_hex(bytes(x for second in paper.HEX for x in (first, second)) + b"0" * 20, 32)
    for first in range(0, 256, 20):         # every byte
        yield hex_of_id(bytes((first + i) % 256 for i in range(20)), 40)
    for first in range(0, 256, 32):
        yield hex_of_id(bytes(range(first, first + 32)), 64)


def from_git():
    """Git's own trees and commits: read, looked up, and written back as they were."""
    for h in (20, 32):
        for kind, object in git_objects.objects(h):
            if kind == "tree":
                numbers = paper.tree_read(h, object, 500, True)[1]
                yield tree_reading(h, object, len(numbers))
                yield tree_writing(h, object, numbers, len(object))
                records = paper.by(paper.WIDTH, numbers)
                for r in records:
                    yield lookup(h, object, numbers, object[r[1]:r[2]], paper.is_tree(r[0]))
                    yield lookup(h, object, numbers, object[r[1]:r[2]] + b"-", paper.is_tree(r[0]))
                    yield lookup_any(h, object, numbers, object[r[1]:r[2]])
                    yield hex_of_id(object[r[3]:r[3] + h], 2 * h)
                every = [x for r in records for x in (r[1], r[2], int(paper.is_tree(r[0])))]
                yield lookups(h, object, numbers, object, every, len(every))
            else:
                _out, ranges, parents, numbers = paper.commit_read(h, object, 10, 50)
                yield commit_reading(h, object, len(parents), len(numbers))
                yield commit_writing(h, object, parents, numbers, ranges, len(object))
                for id in [ranges[0]] + parents:
                    yield id_of_hex(object[id:id + 2 * h], h)
                for record in paper.by(5, numbers):
                    yield unfold(object, record, len(object))


# ---------------------------------------------------------------- Git's own objects, damaged and cut

def by_steps(h, object, room):
    """Step by step from the front, from the end, from behind it, and with an H that there is not."""
    yield steps(h, object, room)
    yield steps(h, object, room, len(object))
    yield steps(h, object, room, len(object) + 3)
    yield steps(21, object, room, 5)


def damaged_trees(object, h, entries):
    """Copies of a tree with one thing wrong at an entry: a byte cut, an id cut, another mode, another name, the entry twice, two entries exchanged."""
    starts = [0] + [e[3] + h for e in entries] + [len(object)]
    for i, (_mode, name, end, id, _first) in enumerate(entries):
        if i % (1 + len(entries) // 32):
            continue                        # of a large tree some thirty entries
        first, next, after = starts[i:i + 3]

        def swap(a, b, piece):
            return object[:a] + piece + object[b:]
        yield i, [object[:next - 1], object[:id], swap(id, id + 1, b""), swap(first, first + 1, b"8"), swap(first, first + 1, b"7"), swap(first, first, b"0"),
                  swap(first + 4, first + 5, b"6"), swap(name, name + 1, b"/"), swap(name, name + 1, b"\0"), swap(name, end, b""), swap(name, end, b"."),
                  swap(name, end, b".."), swap(name, end, b".git"), swap(name, end, b".gita"), object[:next] + object[first:next] + object[next:],
                  object[:first] + object[next:after] + object[first:next] + object[after:]]


def git_trees():
    """Each tree with both lengths of ids: read, walked, looked up entry by entry as its sort and as the other, written to itself; damaged; the
    small ones cut."""
    for name, h, object in git_objects.trees():
        numbers = paper.tree_read(h, object, 1024, False)[1]
        entries, room = paper.by(paper.WIDTH, numbers), len(numbers) + 3
        yield tree_reading(h, object, room)
        yield tree_reading(52 - h, object, room)
        yield tree_reading(21, object, room)
        yield tree_reading(h, object[:-1], room)
        yield from by_steps(h, object, room)
        if entries:
            yield tree_reading(h, object, len(numbers) - 1)
        for mode, start, end, _id, _first in entries:
            for sort in (paper.is_tree(mode), not paper.is_tree(mode)):
                yield lookup(h, object, numbers, object[start:end], sort)
                if len(entries) <= 64:
                    yield lookup_structs(h, object, numbers, object[start:end], sort)
        yield tree_writing(h, object, numbers, len(object) + 8)
        yield tree_writing(h, object, numbers, max(len(object) - 1, 0))
        for i, copies in damaged_trees(object, h, entries):
            for kind, copy in enumerate(copies):
                few = len(entries) > 64 and kind not in (5, 14)        # of a large tree the answers alone, but for two kinds
                yield [plain_reading(h, copy, 0 if few else room + 10), strict_reading(h, copy, 0 if few else room + 10, 2)]
        if 0 < len(entries) <= 8:
            for n in range(len(object)):
                yield tree_reading(h, object[:n], room)


def damaged_commits(object, h, ranges, parents):
    """Copies of a commit that is accepted, damaged at places that matter."""
    tree, author, author_end, committer, committer_end, _mark, encoding, encoding_end, message, _end = ranges
    end, last, digit = tree + 2 * h, (parents or [5])[-1], author_end - 6

    def swap(a, b, piece):
        return object[:a] + piece + object[b:]
    return [object[:h], object[:end + 1], object[:author_end - 12], object[:committer_end], object[:message - 1],
            b"T" + object[1:], swap(author - 2, author - 1, b"R"), swap(committer - 2, committer - 1, b"R"),
            swap(end, end + 1, b""), swap(author_end, author_end + 1, b""), swap(committer_end, committer_end + 1, b""),
            swap(end - 1, end, b"g"), swap(last, last + 1, b"g"), swap(encoding, encoding_end, b""), swap(digit, digit, b"0")]


def read_and_rewritten(h, object):
    """A commit read, and where it is accepted written again."""
    yield commit_reading(h, object, 8, 40)
    if paper.commit_read(h, object, 8, 40)[0][0] == 0:
        yield commit_rewritten(h, object, len(object) + 8)


def wrong_parts(h, object, ranges, parents, headers):
    """A commit written from parts that are wrong one by one, from lists in each other's place, with an H that there is not, and to an output too short."""
    n = len(object)

    def other(*changes):
        parts = list(ranges)
        for k, x in changes:
            parts[k] = x
        return tuple(parts)
    for parts in (ranges, other((0, n)), other((2, n + 1)), other((3, n)), other((5, 2)), other((9, n + 1)), other((5, 1), (6, n), (7, n)),
                  other((5, 1), (6, 0), (7, ranges[2]))):
        yield commit_writing(h, object, parents, headers, parts, n + 8)
    yield commit_writing(h, object, headers, parents, ranges, n + 8)
    yield commit_writing(21, object, parents, headers, ranges, n + 8)
    yield commit_writing(h, object, parents, headers, ranges, n - 1)


def git_commits():
    """Each commit with both lengths of ids: read with every room around what it needs, unfolded, written to itself and from wrong parts, damaged at places
    that matter, and at every place cut, and with a byte left out, put in, and changed to two others."""
    for name, h, object in git_objects.commits():
        yield from read_and_rewritten(h, object)
        (number, _place, _field), ranges, parents, headers = paper.commit_read(h, object, 8, 40)
        if number == 0:
            for np, nh in itertools.product({len(parents), max(len(parents) - 1, 0)}, {len(headers), max(len(headers) - 1, 0)}):
                for length in (h, 52 - h, 21):
                    yield commit_reading(length, object, np, nh)
            for record in paper.by(5, headers):
                value = paper.unfold(object, record, len(object))[1]
                yield unfold(object, record, len(value) + 8)
                yield unfold(object, record, max(len(value) - 1, 0))
            yield from wrong_parts(h, object, ranges, parents, headers)
            for copy in damaged_commits(object, h, ranges, parents):
                yield from read_and_rewritten(h, copy)
        anywhere = [
            lambda at: object[:at], lambda at: object[:at] + object[at + 1:], lambda at: object[:at] + b" " + object[at:],
            lambda at: object[:at] + b"\n" + object[at + 1:], lambda at: object[:at] + b" \0<gA"[at % 5:at % 5 + 1] + object[at + 1:]]
        for damage, at in itertools.product(anywhere, range(len(object))):
            yield from read_and_rewritten(h, damage(at))
        for at in range(len(object)):       # the values that are folded, by one kind of damage at each place
            copy = anywhere[at % 5](at)
            for record in paper.by(5, paper.commit_read(h, copy, 8, 40)[3]):
                if record[4] and record[2] <= at <= record[3]:
                    yield unfold(copy, record, len(copy) + 8)


# ---------------------------------------------------------------- bundles, edits, mending, text

def some_bundle():
    """A bundle of trees whose entries lead to each other, a third of them damaged; with a root id and a path."""
    h = rnd.choice([20, 32])
    names = [bytes([rnd.randrange(1, 7)]) * h for _ in range(rnd.randrange(1, 7))]
    if chance(80):
        names = sorted(set(names))
    if chance(50):
        rnd.shuffle(names)

    def little(n, width):
        return (n % 256 ** width).to_bytes(width, "little")
    modes = [b"40000 ", b"100644 ", b"040000 ", b"160000 ", b"0 ", b" ", b"1000x4 "]
    bundle = b""
    for id in names:
        object = b"".join(rnd.choice(modes) + rnd.choice([b"a", b"b", b"ab", b""]) + b"\0" + rnd.choice(names) for _ in range(rnd.randrange(5)))
        bundle += id + bytes([rnd.choice([2, 2, 2, 2, 2, 3, 1, 4, rnd.randrange(7)])]) + little(len(object), 4) + object
    version = rnd.choice([b"\1\0", b"\2\0" + little(rnd.choice([1, 2, 1, 2, 0, 3]), 2)])
    bundle = b"GOB" + version + bytes([h]) + little(len(names) + rnd.choice([0] * 12 + [1, -1]), 4) + bundle
    if chance(33):
        at, byte = rnd.randrange(len(bundle) + 1), bytes([rnd.randrange(256)])
        bundle = rnd.choice([bundle[:at], bundle[:at] + byte + bundle[at + 1:], bundle[:at] + byte + bundle[at:], bundle[:at] + bundle[at + 1:]])
    path = rnd.choice([b"a", b"b", b"a/b", b"a/a/a", b"b/a/b/a", b"", b"/", b"a/", b"a//b", b"ab/a", b"/".join([b"a"] * rnd.randrange(60, 70))])
    return bundle, rnd.choice(names + [b"\x09" * h, names[0][:-1]]), path


def random_bundle():
    bundle, id, path = some_bundle()
    return [bundle_check(bundle), bundle_object(bundle, id), follow(bundle, id, path)]


def small_bundle(version=b"\1\0", h=20):
    """Two trees and a blob: folder `d` with file `f` in it."""
    one, two, three = [bytes([x]) * h for x in b"\1\2\3"]
    objects = [(one, 2, b"40000 d\0" + two + b"100644 e\0" + three), (two, 2, b"100644 f\0" + three), (three, 3, b"text")]
    body = b"".join(id + bytes([kind]) + len(object).to_bytes(4, "little") + object for id, kind, object in objects)
    return b"GOB" + version + bytes([h]) + len(objects).to_bytes(4, "little") + body, one


def with_an_id_twice(bundle, h):
    """A small bundle whose blob has the id of the inner tree."""
    before, _id, behind = bundle.rpartition(b"\3" * h + b"\3\4")
    return before + b"\2" * h + b"\3\4" + behind


def bundles(long):
    """A bundle of each version and id length, cut at every length and with every byte of its first objects' framing changed; every path in it, and others."""
    for version, h in itertools.product((b"\1\0", b"\2\0\1\0", b"\2\0\2\0"), (20, 32)):
        bundle, root = small_bundle(version, h)
        for path in (b"d", b"d/f", b"e", b"f", b"d/f/g", b"e/f", b"", b"/", b"d/", b"/d", b"d//f", b".", b"d/.", b"D"):
            yield follow(bundle, root, path)
        for length in (h - 1, h, h + 1, 52 - h, 0):
            yield follow(bundle, root[:1] * length, b"d")
            yield bundle_object(bundle, root[:1] * length)
        for components in (63, 64, 65):
            yield follow(bundle, root, b"/".join([b"d"] * components))
        for n in range(len(bundle)):
            yield [bundle_check(bundle[:n]), bundle_object(bundle[:n], b"\3" * h)]
        for at in itertools.chain(range(len(version) + 8 + h + 5), range(len(bundle) - 9 - h, len(bundle))):
            for byte in {0, 1, 2, 3, 5, 20, 32, 255} if long or h == 20 else {0, 2, 255}:
                other = bundle[:at] + bytes([byte]) + bundle[at + 1:]
                yield [bundle_check(other), follow(other, root, b"d/f")]
        yield [bundle_check(bundle + b"\0"), follow(bundle + b"\0", root, b"d")]
        twice = with_an_id_twice(bundle, h)
        yield [bundle_check(twice), follow(twice, root, b"d"), follow(twice, root[1:], b"d"), bundle_object(twice, b"\2" * h)]


EDITED = [b"a", b"a.b", b"a-b", b"a0", b"a b", b"ab", b"b", b"b.c", b".gi", b".gitx", b"A", b"Z\xff", b"\x01", b"-", b"z" * 40]


def strict_tree(h, most=6):
    """A tree that strict reading accepts, some by rule set 1 alone."""
    early = [b"100664"] if chance(20) else []
    entries = [(rnd.choice(FIVE + early), name, ids(h)) for name in rnd.sample(EDITED, rnd.randint(0, most))]
    return paper.in_order(entries), [e[1] for e in entries]


def random_put():
    h = some_h()
    width = h if h in (20, 32) else 20
    object, names = strict_tree(width)
    name = rnd.choice(names + EDITED if chance(85) else REFUSED + [b".GIT", b".giT", b"a\0", b"\0"])
    mode = rnd.choice([16384, 33188, 33261, 40960, 57344] * 3 + [33204, 0, 49152, 65535, 65536, 2**32 + 16384, rnd.randrange(65536)])
    id = ids(width) if chance(92) else rnd.choice([b"", b"\1" * 19, b"\1" * 21, b"\1" * (52 - width)])
    rules = rnd.choice([2] * 12 + [1] * 8 + RULE_SETS)
    if chance(15):
        object = damaged(object)
    (number, place, _part, count), _out = paper.tree_put(h, object, rules, mode, name, id, MOST_BYTES)
    return tree_put(h, object, rules, mode, name, id, around(count))


def random_remove():
    h = some_h()
    object, names = strict_tree(h if h in (20, 32) else 20)
    name = rnd.choice(names * 3 + EDITED + [b"", b".git"])
    rules = rnd.choice([2] * 12 + [1] * 8 + RULE_SETS)
    if chance(15):
        object = damaged(object)
    return tree_remove(h, object, rules, name, around(paper.tree_remove(h, object, rules, name, MOST_BYTES)[0][3]))


MENDED = [b"100644", b"100644", b"40000", b"40000", b"100755", b"120000", b"160000", b"0100644", b"040000", b"100664", b"300644",
          b"140755", b"160001", b"0", b"20000", b"7"]
MISNAMED = [b".git", b".GIT", b".", b"..", b"", b"x/y"]


def random_mend():
    h = some_h()
    width = h if h in (20, 32) else 20
    entries = [(rnd.choice(MENDED), rnd.choice(EDITED + MISNAMED) + rnd.choice([b"", b"", b"1", b"~"]), ids(width)) for _ in range(rnd.randrange(9))]
    object = b"".join(text + b" " + name + b"\0" + id for text, name, id in entries)
    if chance(8):
        object = damaged(object)
    answer = paper.mend(h, object, 1024, MOST_BYTES)[0]
    return mend(h, object, around(answer[4]), around(answer[3]))


def random_export():
    h = some_h()
    object = strict_tree(h if h in (20, 32) else 20)[0]
    if chance(20):
        object = damaged(object)
    rules = rnd.choice([2] * 12 + [1] * 8 + RULE_SETS)
    return export(h, object, rules, around(paper.export(h, object, rules, MOST_BYTES)[0][3]))


def random_import():
    h = some_h()
    width = h if h in (20, 32) else 20
    object = strict_tree(width)[0]
    records = [r + b"\0" for r in paper.export(width, object, 1, MOST_BYTES)[1].split(b"\0")[:-1]]
    if records and chance(15):
        records.append(rnd.choice(records))                                 # compares 0 with an earlier one
    if records and chance(15):
        name = rnd.choice(records).split(b"\t")[1]
        records.append(rnd.choice([b"040000 tree ", b"100755 blob ", b"160000 commit "]) + b"ab" * width + b"\t" + name)
    rnd.shuffle(records)
    text = b"".join(records)
    if chance(25):
        text = damaged(text)
    if records and chance(10):
        text = text.replace(*rnd.choice([(b"100644", b"300644"), (b"100644", b"100664"), (b"blob", b"tree"), (b"1", b"A"), (b"\t", b"\t.git\0"), (b"\t", b"\t.GIT\0"),
                                         (b"\t", b"\t/"), (b"040000", b"240000"), (b" ", b"  ")]))
    rules = rnd.choice([2] * 12 + [1] * 8 + RULE_SETS)
    return import_tree(h, text, rules, around(paper.import_tree(h, text, rules, MOST_BYTES)[0][3]))


def random_differences():
    """Two trees of a bundle whose trees strict reading mostly accepts: folders lead to trees with higher ids, so that most walks end; some are damaged."""
    h = rnd.choice([20, 32])
    names = [bytes([i]) * h for i in range(1, rnd.randrange(3, 9))]

    def entry(i, name):
        mode = rnd.choice([b"40000", b"40000", b"100644", b"100755", b"120000", b"160000"])
        if mode != b"40000":
            return mode, name, bytes([rnd.randrange(1, 4)]) * h
        return mode, name, rnd.choice(names[i + 1:] * 4 + names + [b"\x09" * h] if chance(15) else names[i + 1:] or names[-1:])
    objects = []
    for i, id in enumerate(names):
        object = paper.in_order([entry(i, name) for name in rnd.sample([b"a", b"a.b", b"a0", b"b", b"c"], rnd.randrange(4))])
        objects.append(id + bytes([2 if chance(95) else 3]) + len(object).to_bytes(4, "little") + object)
    if chance(40):
        rnd.shuffle(objects)
    version = rnd.choice([b"\1\0", b"\2\0\1\0", b"\2\0\2\0"])
    bundle = b"GOB" + version + bytes([h]) + len(objects).to_bytes(4, "little") + b"".join(objects)
    if chance(15):
        bundle = damaged(bundle)
    left, right = (rnd.choice(names[:3] if chance(80) else [*names, b"\x09" * h, b"\1" * (52 - h)]) for _ in range(2))
    answer, items, paths = paper.compare_trees(bundle, left, right, 6 * 170, 4096)
    return differences(bundle, left, right, min(around(len(items)), 1024), around(len(paths)))


def random_check():
    h = some_h()
    object = strict_tree(h if h in (20, 32) else 20, 9)[0]
    if chance(5):
        object += rnd.choice([b"100644 ", b"100600 ", b"40000 ", b"x "]) + rnd.choice([b"z", b"/"]) * rnd.choice([4094, 4095, 4096, 4097]) + rnd.choice([b"\0" + b"\1" * h, b"\0", b""])
    if chance(40):
        object = damaged(object)
    rules = rnd.choice([2] * 12 + [1] * 8 + RULE_SETS)
    return check(h, object, rules, rnd.choice([0, 1, 2, 7, 16, 512]))


def texts_and_pieces(long):
    """O as text in both orders with every room; every mode and word; Git's own trees as text, compared with one another, and in pieces cut at every length."""
    text = paper.export(20, O, 2, 200)[1]
    first = text.index(b"\0") + 1
    for room in range(0, 60):
        yield [import_tree(20, text, 2, room), import_tree(20, text[first:] + text[:first], 2, room)]
    for n in range(len(text)):
        yield [import_tree(20, text[:n], 2, 60), import_tree(20, text[:n] + text[n + 1:], 2, 60), import_tree(20, text[:n] + b"A" + text[n + 1:], 2, 60)]
    for mode, word, rules in itertools.product((b"040000", b"100644", b"100664", b"100755", b"120000", b"160000", b"300644", b"240000", b"000000", b"0100644", b"40000"),
                                               (b"blob", b"tree", b"commit", b"exe"), (1, 2)):
        yield import_tree(20, mode + b" " + word + b" " + b"1a" * 20 + b"\ta\0", rules, 60)
    for h, rules in itertools.product(BAD_H + [20, 32], (1, 2, 3)):
        yield [import_tree(h, text, rules, 120), check(h, O, rules, 7)]
    for size in range(0, 59):
        yield [check(20, O, 2, size), check(20, O[:-1], 2, size), check(32, O, 2, size)]
    for n in range(len(O)):
        yield [check(20, O[:n], 2, 3), check(20, O[:n] + b"/" + O[n + 1:], 2, 5)]
    for version, h in itertools.product((b"\1\0", b"\2\0\1\0", b"\2\0\2\0"), (20, 32)):
        bundle, _root = small_bundle(version, h)
        for left, right in itertools.product((b"\1", b"\2", b"\3", b"\4"), repeat=2):
            for list_room, room in ((0, 0), (6, 0), (12, 1), (17, 4), (18, 4), (18, 5), (24, 9), (60, 60)):
                yield differences(bundle, left * h, right * h, list_room, room)
        twice = with_an_id_twice(bundle, h)
        yield [differences(x, b"\1" * n, b"\2" * h, 60, 60) for x, n in ((bundle, 21), (bundle[:-1], h), (twice, h), (twice, 21))]
    for tree in ((b"100644 b", b"100644 a"), (b"100644 a", b"100644 a.b", b"40000 a"), (b"100644 .GIT",), (b"100644 .git",), (b"100664 a",), (b"100600 a",), (b"40000 ",)):
        object = b"".join(e + b"\0" + b"\2" * 20 for e in tree)
        for rules, cut in itertools.product((1, 2), (0, 1)):
            trees = b"\1" * 20 + b"\2" + (len(object) - cut).to_bytes(4, "little") + object[:len(object) - cut] + b"\2" * 20 + b"\2" + bytes(4)
            bundle = b"GOB\2\0" + bytes([rules]) + b"\0\x14\2\0\0\0" + trees
            yield [differences(bundle, b"\1" * 20, b"\2" * 20, 60, 60), differences(bundle, b"\2" * 20, b"\1" * 20, 60, 60)]
            yield [check(20, object[:len(object) - cut], rules, size) for size in (0, 1, 9)]
    for depth in (31, 32, 33):                                              # a chain of folders, the last of which is opened at that depth
        trees = [b"40000 d\0" + bytes([i + 1]) * 20 for i in range(1, depth + 1)] + [b"100644 f\0" + b"\x7f" * 20, b""]
        body = b"".join(bytes([i + 1]) * 20 + b"\2" + len(t).to_bytes(4, "little") + t for i, t in enumerate(trees))
        bundle = b"GOB\1\0\x14" + len(trees).to_bytes(4, "little") + body
        yield differences(bundle, b"\1" * 20, bytes([len(trees)]) * 20, 6 * 40, 4000)
    for _name, h, object in git_objects.trees():
        if len(object) < 4000:
            text = paper.export(h, object, 1, MOST_BYTES)[1]
            yield [import_tree(h, text, 1, len(object)), *(check(h, object, 2, size) for size in (0, 1, 7, 512))]


def edited_and_mended(long):
    """O edited, mended and as text, with every room; every mode text that mending judges; the edits of one name as a file and as a folder."""
    for room in range(0, 120):
        yield tree_put(20, O, 2, 33188, b"c", b"\x33" * 20, room)
        yield tree_remove(20, O, 2, b"b", room)
        yield mend(20, O, 2, room)
        yield export(20, O, 2, room)
    for list_room in range(5):
        yield mend(20, O, list_room, 57)
        yield mend(20, O[:-1], list_room, 57)
    for text in FIVE + ODD + MENDED + ([b"%o" % n for n in range(0, 131072, 7)] if long else [b"%o" % (sort * 4096 + 0o755) for sort in range(32)]):
        yield mend(20, text + b" a\0" + b"\x11" * 20, 1, 40)
        yield export(20, text + b" a\0" + b"\x11" * 20, 1, 70)
    for h, rules in itertools.product(BAD_H + [20, 32], (1, 2, 3)):
        yield [tree_put(h, O, rules, 33188, b"c", b"\x33" * 20, 120), tree_remove(h, O, rules, b"b", 120), export(h, O, rules, 120), mend(h, O, 2, 120)]
    listing = [(b"100644", b"a"), (b"100644", b"a-"), (b"100644", b"a."), (b"100644", b"a0"), (b"40000", b"b"), (b"100644", b"b.")]
    object = paper.in_order([(mode, name, b"\x11" * 20) for mode, name in listing])
    for name, mode in itertools.product((b"a", b"a-", b"a.", b"a0", b"b", b"b.", b"c", b"", b"!"), (16384, 33188, 57344)):
        yield tree_put(20, object, 2, mode, name, b"\x22" * 20, 300)
        yield tree_remove(20, object, 2, name, 300)
    for order in itertools.permutations([b"100644 a", b"40000 a", b"100644 a.", b"40000 b"]):
        yield mend(20, b"".join(e + b"\0" + b"\x11" * 20 for e in order), 4, 200)
    for _name, h, object in git_objects.trees():
        if len(object) < 4000:
            yield [mend(h, object, 64, len(object)), export(h, object, 2, 4000)]
            for r in paper.by(paper.WIDTH, paper.tree_read(h, object, 1024, False)[1]):
                name = object[r[1]:r[2]]
                yield [tree_remove(h, object, 2, name, len(object)), tree_put(h, object, 2, 16384, name, b"\x44" * h, len(object) + 40),
                       tree_put(h, object, 2, r[0], name, object[r[3]:r[3] + h], len(object))]


# ---------------------------------------------------------------- running

# Random cases of each call in the list.
RANDOM = [(random_mode_text, 2200), (random_mode_asked, 1400), (random_mode_from_number, 900), (random_name_order, 1500),
          (random_tree_reading, 3000), (random_lookup, 2400), (random_tree_writing, 2600), (random_loose_header, 700),
          (random_commit_reading, 2700), (random_unfold, 2200), (random_commit_writing, 2200),
          (random_lookup_any, 700), (random_lookups, 600), (random_id_of_hex, 500), (random_hex_of_id, 400),
          (random_bundle, 700), (random_put, 900), (random_remove, 500), (random_mend, 700), (random_export, 500),
          (random_import, 700), (random_differences, 600), (random_check, 500)]


def flat(cases):
    """Cases one by one: some functions give several at once."""
    for case in cases:
        yield from case if isinstance(case, list) else [case]


def ordered(long):
    """All cases but the random ones."""
    return flat(itertools.chain(exhaustive(long), from_git(), git_trees(), git_commits(), bundles(long), edited_and_mended(long), texts_and_pieces(long)))


class Tally:
    """How many cases of each call, how many of them the Rust answered, and how often each number came."""
    def __init__(self):
        self.cases, self.compared, self.numbers = collections.Counter(), collections.Counter(), collections.defaultdict(collections.Counter)

    def compare(self, cases):
        """Hold the cases against the Rust, and count them."""
        compare(cases)
        for case in cases:
            call = case.given.call
            self.cases[call] += 1
            self.compared[call] += case.question is not None
            if CALLS[call].name not in ("mode asked", "name order"):
                self.numbers[call].update([*case.left.answer, 0][:1])

    def show(self):
        for call, uses in CALLS.items():
            numbers = " · ".join(f"{n}: {k}" for n, k in sorted(self.numbers[call].items()))
            print(f"| {call} {uses.name} | {self.cases[call]:,} | {self.compared[call] or 'none':,} | {numbers} |" if self.compared[call] else
                  f"| {call} {uses.name} | {self.cases[call]:,} | none | {numbers} |")
        print(f"together {sum(self.cases.values())} cases, {sum(self.compared.values())} compared with the Rust, no difference")


def many(n):
    """Run and compare, in batches; write nothing."""
    tally = Tally()
    cases = itertools.chain(ordered(long=True), flat(make() for make, _share in RANDOM for _ in range(n)))
    while batch := list(itertools.islice(cases, 20000)):
        tally.compare(batch)
    tally.show()


def read_back():
    """Every case of the list: the same has to be left again."""
    tally, cases = Tally(), []
    for given, left in read_list():
        cases.append(again(given))
        assert cases[-1].left == left, (given, left, cases[-1].left)
    tally.compare(cases)
    tally.show()


def write_list():
    """No case twice, in the order in which they are made; then those wrong on purpose."""
    tally, state, made = Tally(), State(), {}
    for case in itertools.chain(ordered(long=False), flat(make() for make, share in RANDOM for _ in range(share))):
        given = case.given
        made.setdefault((given.call, *map(tuple, (given.n, given.rooms)), given.a, given.b, given.c, *map(tuple, (given.x, given.y))), case)
    cases = list(made.values())
    tally.compare(cases)
    of_call = collections.defaultdict(list)
    for case in cases:
        of_call[case.given.call].append(case[:2])
    wrong = list(wrong_on_purpose(of_call))
    content = b"".join(state.encoded(*case) for case in [c[:2] for c in cases] + wrong)
    with open(LIST, "wb") as out:
        out.write(content)
    with open(REPORT, "w") as out:
        out.write(report(tally.cases, len(cases), [given.call for given, _left in wrong]))
    print(f"{len(content)} bytes, {len(cases) + len(wrong)} cases, {len(wrong)} of them wrong on purpose")
    tally.show()


def report(agree, right, wrong):
    """What `replay` has to say: the cases that differ, a line for each call, and the sum."""
    lines = [f"differs: case {right + i} call {call}" for i, call in enumerate(wrong)]
    lines += [f"call {call}: {agree[call] + wrong.count(call)} agree {agree[call]}" for call in CALLS]
    return "\n".join([*lines, f"cases {right + len(wrong)}, differ {len(wrong)}", ""])


if __name__ == "__main__":
    if sys.argv[1:2] == ["--many"]:
        rnd.seed(int(sys.argv[3]) if sys.argv[3:] else 20)
        many(int(sys.argv[2]))
    elif sys.argv[1:] == ["--read"]:
        read_back()
    else:
        write_list()
