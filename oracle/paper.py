"""The specification ("the document"; docs/FORMAT.md says it in words) read a second time, in plain Python.

Written from the document's text and not from the Rust, so that the two can be held against each other.
Every public call gives a tuple of numbers, with lists or bytes where the call fills something.
All memory lent is given by its size alone: what is filled on success is returned, and a refusal fills nothing.
"""
import re

MAX_BYTES = 1_073_741_824      # bytes of one buffer
MAX_RECORDS = 1_048_576        # records of one list

# "The numbers"
DONE, BAD_H, OVER, UNREADABLE, FEW_RECORDS, BAD_MODE_TEXT, BAD_NAME, NOT_AFTER = range(8)
SHORT_OUTPUT, NUL_IN_NAME, BAD_RECORD, FIELD, ACTOR, EMPTY_ENCODING, LF_ENCODING, NOT_THERE = range(8, 16)
LONG_NAME, SAME_NAME, DOT_GIT, NO_RULE_SET, BAD_TEXT, NOT_ACCEPTABLE = 16, 17, 18, 19, 20, 23
NOT_FRAMED, ID_TWICE, NO_PATH, TOO_DEEP, NO_TREE = 24, 25, 26, 27, 28
WIDTH = 5                      # the numbers of an entry's record
EACH = 3                       # those of a sought name, and of a stored answer
ITEM = 6                       # those of an item
NO_MODE, NO_NUL, CUT_ID = 1, 2, 3      # the parts of UNREADABLE

SPACE, LF, NUL, SLASH = 32, 10, 0, 47
OCTAL, DIGITS, HEX = b"01234567", b"0123456789", b"0123456789abcdefABCDEF"

# each mode that is written, with the word of its kind
KINDS = [(b"40000", b"tree"), (b"100644", b"blob"), (b"100755", b"exe"), (b"120000", b"link"), (b"160000", b"commit")]
TREE, BLOB, EXE, LINK, COMMIT = range(5)

# "The header words"
WORDS = [b"tree", b"parent", b"author", b"committer", b"encoding"]


def all_in(part, letters):
    return all(b in letters for b in part)


# ---------------------------------------------------------------- Modes

def mode_text(text):
    """Modes, "Reading": (number, mode, where the rest begins)."""
    refused = (UNREADABLE, 0, 0)
    if len(text) == 0:
        return refused
    if text[6:7] == b" " and text[5:6] != b" ":
        digits, rest = text[:6], 7
        if not all_in(digits, OCTAL):
            return refused
    elif SPACE in text[:8]:
        digits = text[:text.index(SPACE)]
        rest = len(digits) + 1
        if not all_in(digits, OCTAL):
            return refused
    else:                                   # no space among the first eight: seven digits and nothing else, or refused
        digits, rest = text, 1
        if len(digits) > 7 or not all_in(digits, OCTAL):
            return refused
    mode = 0
    for digit in digits:
        mode = (mode * 8 + digit - 48) % 65536
    if mode == 16384 and text[0:1] == b"0":
        mode = 49152
    return DONE, mode, rest


def mode_value(mode):
    """Modes, "Value"."""
    return 16384 if mode // 4096 == 49152 // 4096 else mode


def mode_written(mode):
    """Modes, "Writing"."""
    if mode == 0:
        return b"0"
    text = b"%06o" % mode
    if text[1:2] == b"4":
        return text[1:] if text[0:1] == b"0" else b"0" + text[1:]
    return text


def mode_kind(mode):
    """Modes, "Kind": the top four bits of the value say file, link or tree, anything else is commit."""
    value = mode_value(mode)
    top = value // 4096
    if top == 0o100000 // 4096:
        return EXE if value // 64 % 2 == 1 else BLOB      # the owner's execute bit
    if top == 0o120000 // 4096:
        return LINK
    return TREE if top == 0o040000 // 4096 else COMMIT


def is_tree(mode):
    return mode_kind(mode) == TREE


def mode_asked(mode):
    """Modes, the questions kept with the type. `is_commit` denies what is a commit by default only (mode 0)."""
    kind = mode_kind(mode)
    questions = [kind == TREE, mode_value(mode) // 4096 == 0o160000 // 4096, kind == LINK, kind != TREE,
                 kind in (BLOB, EXE), kind == EXE, kind in (BLOB, EXE, LINK)]
    total = sum(2 ** i for i, yes in enumerate(questions) if yes)
    return mode_value(mode), kind, total, mode_written(mode), KINDS[kind][1]


def mode_from_number(n):
    """Modes, "From a 32-bit number": (number, mode)."""
    if n in (16384, 40960, 57344) or n // 32768 % 2 == 1:
        return DONE, n % 65536
    return NOT_ACCEPTABLE, 0


# ---------------------------------------------------------------- Order

def order(a, a_tree, b, b_tree):
    """Order: -1, 0 or 1."""
    common = min(len(a), len(b))
    if a[:common] != b[:common]:
        return -1 if a[:common] < b[:common] else 1

    def next_byte(name, tree):
        if len(name) > common:
            return name[common]
        return SLASH if tree else -1        # an ended name is below every byte
    x, y = next_byte(a, a_tree), next_byte(b, b_tree)
    return (x > y) - (x < y)


# ---------------------------------------------------------------- Entries, the two readers

def bad_h(h):
    return h not in (20, 32)


def over(buffers=(), records=()):
    """Bounds: sizes of the byte buffers and record counts of the lists of a call."""
    return any(n > MAX_BYTES for n in buffers) or any(n > MAX_RECORDS for n in records)


def entry_at(object, at, h):
    """Entries: the record of the entry at `at` and the place after it; or None and the part that cannot be read."""
    number, mode, rest = mode_text(object[at:at + 8])     # eight bytes settle a mode text
    if number != DONE:
        return None, NO_MODE
    name = at + rest
    name_end = object.find(b"\0", name)
    if name_end < 0:
        return None, NO_NUL
    if name_end + 1 + h > len(object):
        return None, CUT_ID
    return (mode, name, name_end, name_end + 1, at), name_end + 1 + h


def modes_of(rules):
    """The mode texts of a rule set."""
    return [text for text, _word in KINDS] + ([b"100664"] if rules == 1 else [])


def permitted(name):
    """Strict reader: whether an entry may have this name."""
    return len(name) > 0 and NUL not in name and SLASH not in name and name not in (b".", b"..", b".git")


def tree_read(h, object, room, strict, rules=2):
    """Entries and Strict reader; "Order. Reading". `room` is in numbers. (number, place, part, count), records (flat)."""
    lent = room // WIDTH
    if bad_h(h):
        return (BAD_H, 0, 0, 0), []
    if strict and rules not in (1, 2):
        return (NO_RULE_SET, 0, 0, 0), []
    if over([len(object)], [lent]):
        return (OVER, 0, 0, 0), []
    at, records, before, names = 0, [], None, set()
    texts = modes_of(rules)
    while at < len(object):
        if len(records) == MAX_RECORDS:
            return (OVER, 0, 0, 0), []
        entry, after = entry_at(object, at, h)
        if entry is None:
            return (UNREADABLE, at, after, 0), []
        mode, name, name_end, _id, _first = entry
        now = (object[name:name_end], is_tree(mode))
        if strict:
            if object[at:name - 1] not in texts:
                return (BAD_MODE_TEXT, at, 0, 0), []
            if not permitted(now[0]):
                return (BAD_NAME, at, 0, 0), []
            if now[0].lower() == b".git":
                return (DOT_GIT, at, 0, 0), []
            if before is not None and order(*before, *now) != -1:
                return (NOT_AFTER, at, 0, 0), []
            if now[0] in names:
                return (SAME_NAME, at, 0, 0), []
            names.add(now[0])
        before = now
        records.append(entry)
        at = after
    if len(records) > lent:
        return (FEW_RECORDS, len(records), 0, 0), []
    return (DONE, 0, 0, len(records)), [n for record in records for n in record]


def steps(h, object, at):
    """Entries, the cursor, from a place to the next entry's until a step finds none: its (number, place, part, found, where it stands), the records found."""
    records = []
    while True:
        if bad_h(h):
            return (BAD_H, 0, 0, 0, at), records
        if over([len(object)]):
            return (OVER, 0, 0, 0, at), records
        if at >= len(object):
            return (DONE, 0, 0, 0, at), records
        entry, after = entry_at(object, at, h)
        if entry is None:
            return (UNREADABLE, at, after, 0, len(object)), records
        records.append(entry)
        at = after


def by(width, numbers):
    """A flat list as records; numbers left over at its end are none."""
    return [tuple(numbers[i:i + width]) for i in range(0, len(numbers) - width + 1, width)]


def forward(start, end, bytes):
    """A range that runs forward inside the bytes."""
    return start <= end <= len(bytes)


def entry_well_formed(record, bytes, h):
    """Entries: whether a record is well formed."""
    mode, name, name_end, id, text_start = record
    return mode <= 65535 and forward(name, name_end, bytes) and id + h <= len(bytes) and text_start <= name


# ---------------------------------------------------------------- Lookup

def lookup(h, object, numbers, name, tree):
    """Lookup: (number, place, index, compared)."""
    records = by(WIDTH, numbers)
    if bad_h(h):
        return BAD_H, 0, 0, 0
    if over([len(object), len(name)], [len(records)]):
        return OVER, 0, 0, 0
    low, high, compared = 0, len(records), 0
    while low < high:
        middle = low + (high - low) // 2
        record = records[middle]
        if not entry_well_formed(record, object, h):
            return BAD_RECORD, middle, 0, 0
        compared += 1
        answer = order(object[record[1]:record[2]], is_tree(record[0]), name, tree)
        if answer == 0:
            return DONE, 0, middle, compared
        if answer < 0:
            low = middle + 1
        else:
            high = middle
    return NOT_THERE, 0, 0, compared


def lookup_any(h, object, numbers, name):
    """Lookup, "A name of whatever sort": (number, place, index, compared)."""
    first = lookup(h, object, numbers, name, False)
    if first[0] != NOT_THERE:
        return first
    second = lookup(h, object, numbers, name, True)
    if second[0] == BAD_RECORD:             # with 10 no comparison is counted
        return second
    return *second[:3], first[3] + second[3]


def lookups(h, object, numbers, names, sought, room):
    """Lookup, "Many lookups"; `room` is in numbers. (number, place, count), answers (flat)."""
    wanted, lent = by(EACH, sought), room // EACH
    if bad_h(h):
        return (BAD_H, 0, 0), []
    if over([len(object), len(names)], [len(by(WIDTH, numbers)), len(wanted), lent]):
        return (OVER, 0, 0), []
    if len(wanted) > lent:                  # ahead of every name
        return (FEW_RECORDS, len(wanted), 0), []
    answers = []
    for index, (start, end, mark) in enumerate(wanted):
        if mark not in (0, 1) or not forward(start, end, names):
            return (BAD_RECORD, index, 0), []
        answer = lookup(h, object, numbers, names[start:end], mark == 1)
        if answer[0] == BAD_RECORD:
            return (BAD_RECORD, index, 0), []
        answers += [answer[0], answer[2], answer[3]]
    return (DONE, 0, len(wanted)), answers


# ---------------------------------------------------------------- Tree writing

def entry_written(record, bytes, h):
    """Tree writing: the bytes of one entry."""
    mode, name, name_end, id, _text_start = record
    return mode_written(mode) + b" " + bytes[name:name_end] + b"\0" + bytes[id:id + h]


def tree_size(h, bytes, numbers):
    """Tree writing, the size by itself, of which no other refusal than 1, 2 and 10 is known: (number, place, count)."""
    records = by(WIDTH, numbers)
    if bad_h(h):
        return BAD_H, 0, 0
    if over([len(bytes)], [len(records)]):
        return OVER, 0, 0
    for index, record in enumerate(records):
        if not entry_well_formed(record, bytes, h):
            return BAD_RECORD, index, 0
    return DONE, 0, sum(len(entry_written(record, bytes, h)) for record in records)


def tree_write(h, bytes, numbers, room):
    """Tree writing; "Order. Writing": (number, place, count), bytes written."""
    records = by(WIDTH, numbers)
    if bad_h(h):
        return (BAD_H, 0, 0), b""
    if over([len(bytes), room], [len(records)]):
        return (OVER, 0, 0), b""
    for index, record in enumerate(records):
        if not entry_well_formed(record, bytes, h):
            return (BAD_RECORD, index, 0), b""
        if NUL in bytes[record[1]:record[2]]:
            return (NUL_IN_NAME, index, 0), b""
    written = b"".join(entry_written(record, bytes, h) for record in records)
    return output(written, room)


def output(written, room):
    """The numbers, 8, whose place is the length that would do."""
    if len(written) > room:
        return (SHORT_OUTPUT, len(written), 0), b""
    return (DONE, 0, len(written)), written


def loose_header(kind, size, room):
    """Commit writing, `loose_header`: (number, place, count), bytes written. It has no 2."""
    words = {1: b"commit", 2: b"tree", 3: b"blob", 4: b"tag"}
    if kind not in words:
        return (NOT_ACCEPTABLE, 0, 0), b""
    return output(words[kind] + b" %d\0" % size, room)


# ---------------------------------------------------------------- Hex

def id_of_hex(digits, room):
    """Hex, from digits in capitals or not; its order is 1, 2, 10, 8: (number, place, count), bytes written."""
    if len(digits) not in (40, 64):
        return (BAD_H, 0, 0), b""
    if over([room]):
        return (OVER, 0, 0), b""
    if not all_in(digits, HEX):
        return (BAD_RECORD, 0, 0), b""
    return output(bytes(int(digits[i:i + 2], 16) for i in range(0, len(digits), 2)), room)


def hex_of_id(id, room):
    """Hex, to small letters; its order is 1, 2, 8: (number, place, count), bytes written."""
    if bad_h(len(id)):
        return (BAD_H, 0, 0), b""
    if over([room]):
        return (OVER, 0, 0), b""
    return output(b"".join(b"%02x" % x for x in id), room)


# ---------------------------------------------------------------- Headers

def line(object, at, word):
    """Headers: word, one space, value up to LF. (value start, value end, place after), or None."""
    start = at + len(word) + 1
    if object[at:start] != word + b" ":
        return None
    end = object.find(b"\n", start)
    return None if end < 0 else (start, end, end + 1)


def id_line(object, at, word, h):
    """Headers: an id in hex, capitals or not."""
    found = line(object, at, word)
    if found is None:
        return None
    start, end, _after = found
    return found if end - start == 2 * h and all_in(object[start:end], HEX) else None


def is_actor(value):
    """Domain, "Actor form", part by part from the left."""
    name, bracket, rest = value.partition(b" <")           # the name has no `<`, so the first `<` ends it
    address, close, rest = rest.partition(b"> ")
    time, gap, zone = rest.partition(b" ")
    if not (bracket and close and gap):
        return False
    if name == b"" or name.startswith(b" ") or name.endswith(b" ") or any(b in b"<>\0\n" for b in name):
        return False
    if address == b"" or any(b in b"<>\0\n " for b in address):
        return False
    if not 1 <= len(time) <= 10 or not all_in(time, DIGITS):
        return False
    if len(zone) != 5 or zone[0] not in b"+-" or not all_in(zone[1:], DIGITS):
        return False
    return int(zone[1:3]) <= 14 and int(zone[3:5]) <= 59


def extra_header(object, at):
    """Headers, extra header at `at`: (five numbers, place after), or None. The folded form is tried ahead of the plain one."""
    first_lf = object.find(b"\n", at)
    if first_lf < 0:
        return None
    name_end = object.find(b" ", at, first_lf)              # the word, which is not empty, on the first line
    if name_end <= at:
        return None
    value, after = name_end + 1, first_lf + 1
    while object[after:after + 1] == b" ":
        lf = object.find(b"\n", after)
        if lf < 0:                                          # a continuation without its LF: not folded
            after = first_lf + 1
            break
        after = lf + 1
    if after > first_lf + 1:
        return (at, name_end, value, after, 1), after
    return (at, name_end, value, first_lf, 0), first_lf + 1


def commit_read(h, object, parents_room, headers_room):
    """Headers; "Order. Commit reading". (number, place, field), ten numbers (tree .. message end), parents, headers."""
    def refused(number, place=0, field=0):
        return (number, place, field), (0,) * 10, [], []
    lent_headers = headers_room // 5
    if bad_h(h):
        return refused(BAD_H)
    if over([len(object)], [parents_room, lent_headers]):
        return refused(OVER)

    tree = id_line(object, 0, b"tree", h)
    if tree is None:
        return refused(FIELD, 0, 1)
    at, parents = tree[2], []
    while (parent := id_line(object, at, b"parent", h)) is not None:
        parents.append(parent[0])
        at = parent[2]

    people = []
    for field, word in ((2, b"author"), (3, b"committer")):
        person = line(object, at, word)
        if person is None:
            return refused(FIELD, at, field)
        if not is_actor(object[person[0]:person[1]]):
            return refused(ACTOR, at)
        people += person[:2]
        at = person[2]

    encoding = line(object, at, b"encoding")
    if encoding is None:
        coded = (0, 0, 0)
    else:
        coded, at = (1, encoding[0], encoding[1]), encoding[2]

    headers = []
    while (header := extra_header(object, at)) is not None:
        headers.append(header[0])
        at = header[1]
    if object[at:at + 1] != b"\n":
        return refused(FIELD, at, 4)

    if len(parents) > parents_room:
        return refused(FEW_RECORDS, len(parents))
    if len(headers) > lent_headers:
        return refused(FEW_RECORDS, len(headers))
    ranges = (tree[0], *people, *coded, at + 1, len(object))
    return (DONE, 0, 0), ranges, parents, [n for header in headers for n in header]


def is_folded(value):
    """The numbers, 10, what counts as folded: its first line, then at least one led by a space, all of them ended."""
    if not value.endswith(b"\n"):
        return False
    lines = value[:-1].split(b"\n")
    return len(lines) > 1 and all(line.startswith(b" ") for line in lines[1:])


def unfolded(value):
    """Headers: a folded value without the space that leads each line past its first."""
    return value.replace(b"\n ", b"\n")


def header_well_formed(record, bytes):
    """Headers: whether a record is well formed; with mark 1 its value has to be folded."""
    name, name_end, value, value_end, mark = record
    if not (forward(name, name_end, bytes) and forward(value, value_end, bytes) and mark in (0, 1)):
        return False
    return mark == 0 or is_folded(bytes[value:value_end])


def unfold(bytes, record, room):
    """Headers, unfolding; its order is 2, 10 with place 0, 8: (number, place, count), bytes written."""
    if over([len(bytes), room]):
        return (OVER, 0, 0), b""
    if not header_well_formed(record, bytes):
        return (BAD_RECORD, 0, 0), b""
    value = bytes[record[2]:record[3]]
    return output(unfolded(value) if record[4] == 1 else value, room)


# ---------------------------------------------------------------- Commit writing

def header_written(record, bytes):
    """Commit writing: a value as it is written, folded if it was not."""
    name, name_end, value, value_end, mark = record
    text = bytes[value:value_end]
    if mark == 0:
        ends = text.endswith(b"\n")
        text = (text[:-1] if ends else text).replace(b"\n", b"\n ") + b"\n"
    return bytes[name:name_end] + b" " + text


def commit_written(h, bytes, parents, headers, ranges):
    """Commit writing: the bytes as they would be, also where 13 or 14 will refuse them."""
    tree, author, author_end, committer, committer_end, mark, encoding, encoding_end, message, message_end = ranges
    lines = [b"tree " + bytes[tree:tree + 2 * h].lower()]
    lines += [b"parent " + bytes[p:p + 2 * h].lower() for p in parents]
    lines += [b"author " + bytes[author:author_end], b"committer " + bytes[committer:committer_end]]
    if mark == 1:
        lines.append(b"encoding " + bytes[encoding:encoding_end])
    text = b"".join(line + b"\n" for line in lines)
    return text + b"".join(header_written(r, bytes) for r in headers) + b"\n" + bytes[message:message_end]


def commit_refusal(h, bytes, parents, headers, ranges, room):
    """ "Order. Writing": 1, 2, then 10 at the first record that is not well formed, in the order given there; or None."""
    if bad_h(h):
        return BAD_H, 0, 0
    if over([len(bytes), room], [len(parents), len(headers)]):
        return OVER, 0, 0
    tree, author, author_end, committer, committer_end, mark, encoding, encoding_end, message, message_end = ranges
    good = [id + 2 * h <= len(bytes) and all_in(bytes[id:id + 2 * h], HEX) for id in [tree] + parents]
    good += [forward(author, author_end, bytes), forward(committer, committer_end, bytes)]
    good += [mark == 0 or mark == 1 and forward(encoding, encoding_end, bytes)]
    good += [header_well_formed(record, bytes) for record in headers]
    good += [forward(message, message_end, bytes)]
    return (BAD_RECORD, good.index(False), 0) if False in good else None


def commit_size(h, bytes, parents, numbers, ranges):
    """Tree writing, "Sizes, asked alone": (number, place, count)."""
    headers = by(5, numbers)
    refusal = commit_refusal(h, bytes, parents, headers, ranges, 0)
    return refusal or (DONE, 0, len(commit_written(h, bytes, parents, headers, ranges)))


def commit_write(h, bytes, parents, numbers, ranges, room):
    """Commit writing: its order is 1, 2, 10, 13, 14, 8: (number, place, count), bytes written."""
    headers = by(5, numbers)
    refusal = commit_refusal(h, bytes, parents, headers, ranges, room)
    if refusal:
        return refusal, b""
    if ranges[5] == 1:
        encoding = bytes[ranges[6]:ranges[7]]
        if encoding == b"":
            return (EMPTY_ENCODING, 0, 0), b""
        if LF in encoding:
            return (LF_ENCODING, 0, 0), b""
    return output(commit_written(h, bytes, parents, headers, ranges), room)


# ---------------------------------------------------------------- Bundles, Paths

def little(part):
    """ "All its numbers have their lowest byte first"."""
    return sum(byte * 256 ** i for i, byte in enumerate(part))


def bundle_header(bundle):
    """Bundles, the header: H, rule set, count, and where the objects begin; or None."""
    version, rules, at = little(bundle[3:5]), 2, 5
    if version == 2:
        rules, at = little(bundle[5:7]), 7
    if bundle[:3] != b"GOB" or len(bundle) < at + 5 or version not in (1, 2) or rules not in (1, 2):
        return None
    h, count = bundle[at], little(bundle[at + 1:at + 5])
    return None if bad_h(h) or count > MAX_RECORDS else (h, rules, count, at + 5)


def bundle_objects(bundle):
    """Bundles: each object before any fault, as id, kind, start and end; behind the last None where the bundle is well framed."""
    header = bundle_header(bundle)
    if header is None:
        return
    h, _rules, count, at = header
    for _ in range(count):
        start = at + h + 5
        if len(bundle) < start or bundle[at + h] not in (1, 2, 3, 4):
            return
        end = start + little(bundle[at + h + 1:start])
        if len(bundle) < end:
            return
        yield bundle[at:at + h], bundle[at + h], start, end
        at = end
    if at == len(bundle):
        yield None


def bundle_check(bundle):
    """Bundles, `check_bundle`: number, place, part, H, rule set, count."""
    if over([len(bundle)]):
        return OVER, 0, 0, 0, 0, 0
    *objects, end = list(bundle_objects(bundle)) or [0]
    if end is not None:
        return NOT_FRAMED, 0, 0, 0, 0, 0
    if len({o[0] for o in objects}) < len(objects):
        return ID_TWICE, 0, 0, 0, 0, 0
    h, rules, count, _at = bundle_header(bundle)
    return DONE, 0, 0, h, rules, count


def bundle_object(bundle, id):
    """Bundles, "The object of an id": number, place, part, kind, start, end."""
    if over([len(bundle), len(id)]):
        return OVER, 0, 0, 0, 0, 0
    for found in bundle_objects(bundle):
        if found is not None and found[0] == id:
            return DONE, 0, 0, *found[1:]
    return NOT_THERE, 0, 0, 0, 0, 0


def entries_before_fault(object, h):
    """The records of an object up to the first entry that cannot be read."""
    at = 0
    while at < len(object):
        entry, at = entry_at(object, at, h)
        if entry is None:
            return
        yield entry


def follow(bundle, root, path):
    """Paths: (number, place, part, mode, length of the id), and the id in 32 bytes."""
    def refused(number):
        return (number, 0, 0, 0, 0), bytes(32)
    if over([len(bundle), len(root), len(path)]):
        return refused(OVER)
    number, _place, _part, h, _rules, _count = bundle_check(bundle)
    if number == ID_TWICE:
        h = bundle_header(bundle)[0]
    if number == NOT_FRAMED or len(root) != h:
        return refused(NOT_FRAMED)
    if number != DONE:
        return refused(number)
    components = path.split(b"/") if path else []
    if b"" in components or len(components) > 64:
        return refused(NO_PATH)
    mode, id = None, root
    for component in components:
        found, _place, _part, kind, start, end = bundle_object(bundle, id)
        object = bundle[start:end] if found == DONE and kind == 2 else b""
        named = [e for e in entries_before_fault(object, h) if object[e[1]:e[2]] == component]
        if not named:
            return refused(NOT_THERE)
        mode, id = named[0][0], object[named[0][3]:named[0][3] + h]
    return refused(NOT_THERE) if mode is None else ((DONE, 0, 0, mode, h), id + bytes(32 - h))


# ---------------------------------------------------------------- Edits, Mending, Text

def strict_table(h, object, rules, buffers):
    """The first refusals of an edit and of a text, but 4, or None; and the entries as (mode text, name, id)."""
    answer, numbers = tree_read(h, object, WIDTH * len(object), True, rules)
    if answer[0] not in (BAD_H, NO_RULE_SET) and over(buffers):
        return (OVER, 0, 0, 0), []
    records = by(WIDTH, numbers)
    return answer if answer[0] != DONE else None, [(object[e[4]:e[1] - 1], object[e[1]:e[2]], object[e[3]:e[3] + h]) for e in records]


def in_order(entries):
    """Entries as written, in Git's order: a folder's name as if a slash followed."""
    return b"".join(text + b" " + name + b"\0" + id for text, name, id in sorted(entries, key=lambda e: e[1] + (b"/" if e[0] == b"40000" else b"")))


def fitted(written, room):
    """An answer with its part, and the bytes written."""
    (number, place, count), out = output(written, room)
    return (number, place, 0, count), out


def tree_put(h, object, rules, mode, name, id, room):
    """Edits, a put: (number, place, part, count), bytes written."""
    refused, entries = strict_table(h, object, rules, [len(name), len(id), room])
    if refused:
        return refused, b""
    if len(id) != h:
        return (BAD_RECORD, 0, 0, 0), b""
    if mode > 65535 or mode_written(mode) not in modes_of(rules):
        return (BAD_MODE_TEXT, 0, 0, 0), b""
    if not permitted(name):
        return (BAD_NAME, 0, 0, 0), b""
    if name.lower() == b".git":
        return (DOT_GIT, 0, 0, 0), b""
    return fitted(in_order([e for e in entries if e[1] != name] + [(mode_written(mode), name, id)]), room)


def tree_remove(h, object, rules, name, room):
    """Edits, a removal: (number, place, part, count), bytes written."""
    refused, entries = strict_table(h, object, rules, [len(name), room])
    if refused:
        return refused, b""
    if name not in [e[1] for e in entries]:
        return (NOT_THERE, 0, 0, 0), b""
    return fitted(in_order([e for e in entries if e[1] != name]), room)


KEPT, KEPT_OTHERWISE, BAD_NAMED, NO_SORT, NAMED_AGAIN = range(5)      # "a number for each entry of the object"


def mended_mode(mode):
    """Mending: the text of the kind's own mode by the sort, or None for a mode of no sort."""
    return KINDS[mode_kind(mode)][0] if mode_value(mode) // 4096 in (0o10, 0o12, 0o04, 0o16) else None


def mend(h, object, list_room, room):
    """Mending: (number, place, part, bytes written, entries), numbers, bytes written."""
    answer, numbers = tree_read(h, object, WIDTH * len(object), False)
    if answer[0] != DONE or over([room], [list_room]):
        return (*(answer[:3] if answer[0] != DONE else (OVER, 0, 0)), 0, 0), [], b""
    fates, kept = [], []
    for mode, name, name_end, id, text in by(WIDTH, numbers):
        own, called = mended_mode(mode), object[name:name_end]
        if not permitted(called) or called.lower() == b".git":
            fates.append(BAD_NAMED)
        elif own is None:
            fates.append(NO_SORT)
        elif called in [e[1] for e in kept]:
            fates.append(NAMED_AGAIN)
        else:
            fates.append(KEPT if object[text:name - 1] == own else KEPT_OTHERWISE)
            kept.append((own, called, object[id:id + h]))
    if len(fates) > list_room:
        return (FEW_RECORDS, len(fates), 0, 0, 0), [], b""
    answer, written = fitted(in_order(kept), room)
    return (*answer, len(fates) if answer[0] == DONE else 0), fates if answer[0] == DONE else [], written


def text_record(text, name, id):
    """Text: "The record of an entry"."""
    kind = mode_kind(mode_text(text + b" ")[1])
    word = {TREE: b"tree", COMMIT: b"commit"}.get(kind, b"blob")
    return text.rjust(6, b"0") + b" " + word + b" " + id.hex().encode() + b"\t" + name + b"\0"


def export(h, object, rules, room):
    """Text, `export_tree`: (number, place, part, count), bytes written."""
    refused, entries = strict_table(h, object, rules, [room])
    return (refused, b"") if refused else fitted(b"".join(text_record(*e) for e in entries), room)


def text_entry(h, text, rules):
    """Text, the record at the front: (number, the entry as (mode text, name, id), the record's length)."""
    record = re.match(rb"([0-7]{6}) (blob|tree|commit) ([0-9a-f]{%d})\t([^\0]*)\0" % (2 * h), text)
    if record is None:
        return BAD_TEXT, None, 0
    digits, word, id, name = record.groups()
    mode = digits.removeprefix(b"0") if digits == b"040000" else digits
    if mode not in modes_of(rules):
        return BAD_MODE_TEXT, None, 0
    entry = mode, name, bytes.fromhex(id.decode())
    if word != text_record(*entry).split(b" ")[1]:
        return BAD_TEXT, None, 0
    number = DONE if permitted(name) and name.lower() != b".git" else DOT_GIT if permitted(name) else BAD_NAME
    return number, entry, record.end()


def import_tree(h, text, rules, room):
    """Text, `import_tree`: (number, place, part, count), bytes written."""
    if bad_h(h) or rules not in (1, 2) or over([len(text), room]):
        return (BAD_H if bad_h(h) else NO_RULE_SET if rules not in (1, 2) else OVER, 0, 0, 0), b""
    places, entries, at = [], [], 0
    while at < len(text):
        number, entry, size = text_entry(h, text[at:], rules) if len(entries) < MAX_RECORDS else (OVER, None, 0)
        if number != DONE:
            return (number, 0 if number == OVER else at, 0, 0), b""
        places.append(at)
        entries.append(entry)
        at += size
    named = [(name, mode == b"40000") for mode, name, _id in entries]
    for i, one in enumerate(named):
        if any(order(*one, *earlier) == 0 for earlier in named[:i]):
            return (NOT_AFTER, places[i], 0, 0), b""
    for i, one in enumerate(named):
        if one[0] in [earlier[0] for earlier in named[:i]]:
            return (SAME_NAME, places[i], 0, 0), b""
    return fitted(in_order(entries), room)


# ---------------------------------------------------------------- Differences

class Stop(Exception):
    """A walk that met a refusal: number, place, part."""


def compare_trees(bundle, left, right, list_room, room):
    """Differences: (number, place, part, count), the items' numbers, the paths."""
    if over([len(bundle), len(left), len(right), room], [list_room // ITEM]):
        return (OVER, 0, 0, 0), [], b""
    number, _place, _part, h, rules, _count = bundle_check(bundle)
    if number == ID_TWICE:
        h = bundle_header(bundle)[0]
    if number == NOT_FRAMED or len(left) != h or len(right) != h:
        return (NOT_FRAMED, 0, 0, 0), [], b""
    if number != DONE:
        return (number, 0, 0, 0), [], b""
    items, paths = [], []

    def opened(id, depth):
        """The entries of the tree of an id, by name and sort: mode, id, the id's place in the bundle. No id has none."""
        if id is None:
            return {}
        if depth > 32:
            raise Stop(TOO_DEEP, 0, 0)
        found, _place, _part, kind, start, end = bundle_object(bundle, id)
        if found != DONE or kind != 2:
            raise Stop(NO_TREE, 0, 0)
        object = bundle[start:end]
        answer, numbers = tree_read(h, object, WIDTH * len(object), True, rules)
        if answer[0] != DONE:
            raise Stop(*answer[:3])
        return {(object[e[1]:e[2]], is_tree(e[0])): (e[0], object[e[3]:e[3] + h], start + e[3]) for e in by(WIDTH, numbers)}

    def walk(before, left, right, depth):
        sides = [opened(left, depth), opened(right, depth)]
        for name, folder in sorted({*sides[0], *sides[1]}, key=lambda e: e[0] + b"/" * e[1]):
            a, b = (side.get((name, folder), (0, None, 0)) for side in sides)
            if a[:2] == b[:2]:
                continue
            if len(items) == MAX_RECORDS:
                raise Stop(OVER, 0, 0)
            at = sum(map(len, paths))
            paths.append(before + name)
            items.append((at, at + len(paths[-1]), a[0], b[0], a[2], b[2]))
            if folder and a[1] != b[1]:
                walk(before + name + b"/", a[1], b[1], depth + 1)

    try:
        walk(b"", left, right, 0)
    except Stop as stop:
        return (*stop.args, 0), [], b""
    path = b"".join(paths)
    if len(items) > list_room // ITEM:
        return (FEW_RECORDS, len(items), 0, 0), [], b""
    if len(path) > room:
        return (SHORT_OUTPUT, len(path), 0, 0), [], b""
    return (DONE, 0, 0, len(items)), [n for item in items for n in item], path


# ---------------------------------------------------------------- "A check in pieces"

def checked(h, object, rules):
    """The answer of a check in pieces, however the object is cut: number, place, part, count."""
    answer, _numbers = tree_read(h, object, WIDTH * len(object), True, rules)
    at = 0
    while not bad_h(h) and rules in (1, 2) and at < len(object) and (answer[0] == DONE or at <= answer[1]):
        number, _mode, rest = mode_text(object[at:])
        if number == DONE and len(object[at + rest:].split(b"\0")[0]) > 4096:
            return LONG_NAME, at, 0, 0
        entry, at = entry_at(object, at, h)
        if entry is None:
            break
    return answer


# ---------------------------------------------------------------- "Examples"

def examples():
    """P1 to P14 and the two that are also run."""
    o = b"100644 a\0" + b"\x11" * 20 + b"40000 b\0" + b"\x22" * 20
    mode = lambda text: mode_text(text)[:2]
    assert mode(b"100644 ") == (0, 33188) and mode_kind(33188) == BLOB                                        # P1
    assert mode(b"40000 ") == (0, 16384) and mode(b"040000 ") == (0, 49152)                                    # P2
    assert mode_value(16384) == mode_value(49152) == 16384
    assert mode(b"140755 ") == (0, 49645) and mode_written(49645) == b"040755"                                 # P3
    assert mode(b"040755 ") == (0, 16877) and mode_written(16877) == b"40755"
    assert mode(b"0000000 x")[0] == 0 and mode(b"00000000 x")[0] == 3                                          # P4
    assert mode(b"0 abcd e")[0] == 3 and mode(b"0 abc de") == (0, 0)                                           # P5
    assert mode(b" abc") == (0, 0) and mode(b" 12345 x")[0] == 3                                               # P6
    assert mode(b"200000 ") == (0, 0) and mode_written(0) == b"0"                                              # P7
    ascending = [(b"a", False), (b"a.b", False), (b"a", True), (b"a0", False)]
    assert all(order(*x, *y) == -1 for x, y in zip(ascending, ascending[1:]))                                  # P8
    assert order(b"a", True, b"a/b", False) == 0                                                               # P9
    assert all(tree_read(20, b"", 0, strict) == ((0, 0, 0, 0), []) for strict in (False, True))                # P10
    (number, _place, _part, count), records = tree_read(20, o, 10, True)
    assert len(o) == 57 and (number, count) == (0, 2) and tree_write(20, o, records, 57) == ((0, 0, 57), o)    # P11
    assert tree_read(20, o[:-1], 10, False)[0] == (3, 29, 3, 0)                                                 # P12
    assert header_written((0, 1, 1, 5, 0), b"ka\nb\n") == b"k a\n b\n"                                         # P13
    answer, written = tree_write(20, b"abc" + b" " * 20, [0, 0, 3, 3, 0], 26)
    assert answer == (0, 0, 26) and tree_read(20, written, 5, False)[0] == (3, 0, 1, 0)                        # P14
    assert mode_from_number(0o300644) == (0, 33188) and mode_from_number(0o200000) == (23, 0)
    assert lookup_any(20, o, records, b"b") == (0, 0, 1, 2 + 1) and lookup_any(20, o, records, b"c") == (15, 0, 0, 1 + 1)
    assert lookups(20, o, records, b"ab", [0, 1, 0, 1, 2, 1, 1, 2, 0], 9) == ((0, 0, 3), [0, 0, 2, 0, 1, 1, 15, 0, 2])
    assert id_of_hex(b"0aF9" * 10, 20) == ((0, 0, 20), b"\x0a\xf9" * 10) and hex_of_id(b"\x0a\xf9" * 10, 40) == ((0, 0, 40), b"0af9" * 10)
    assert export(20, o, 2, 116)[1] == b"100644 blob " + b"11" * 20 + b"\ta\x00040000 tree " + b"22" * 20 + b"\tb\0"
    assert mend(20, b"100664 b\0" + b"\x11" * 20 + b"40000 a\0" + b"\x22" * 20, 2, 60)[:2] == ((0, 0, 0, 57, 2), [1, 0])
    text = export(20, o, 2, 116)[1]
    assert import_tree(20, text, 2, 57) == import_tree(20, text[text.index(b"\0") + 1:] + text[:text.index(b"\0") + 1], 2, 57) == ((0, 0, 0, 57), o)
    assert import_tree(20, text.replace(b"100644", b"300644"), 2, 57)[0] == (5, 0, 0, 0) and import_tree(20, text + text, 2, 200)[0] == (7, len(text), 0, 0)
    roots = [bytes([i]) * 20 for i in (1, 2)]
    bundle = b"GOB\1\0\x14\2\0\0\0" + b"".join(id + b"\2" + len(t).to_bytes(4, "little") + t for id, t in zip(roots, (o, o[:29])))
    assert compare_trees(bundle, roots[0], roots[0], 0, 0) == ((0, 0, 0, 0), [], b"") and compare_trees(bundle, *roots, 6, 1)[0] == (28, 0, 0, 0)
    assert compare_trees(bundle, roots[1], roots[0], 0, 0)[0] == (28, 0, 0, 0) and checked(20, o, 2) == (0, 0, 0, 2) and checked(20, o[:-1], 2) == (3, 29, 3, 0)
    assert checked(20, b"100600 " + b"a/" * 2049, 2) == (16, 0, 0, 0) and checked(20, b"x" * 5000, 2)[:3] == (3, 0, 1)
    assert tree_remove(20, o, 2, b"a", 57) == ((0, 0, 0, 28), o[29:]) and tree_put(20, o, 2, 16384, b"b", b"\x22" * 20, 57) == ((0, 0, 0, 57), o)


examples()
