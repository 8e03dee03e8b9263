"""One function for each call. Each takes what goes in and gives a Case.

A Case has what a call is given and what it has to leave (paper.py says it; lists.py has both), and the question for the Rust with the answer that
the paper expects from it (None where the Rust does not speak).
"""
import collections
import os
import subprocess
import sys

import paper
from lists import CALLS, HERE, Given, Left, trimmed

Case = collections.namedtuple("Case", "given left question expected", defaults=[None, None])
NUMBER_OF = {name.name: call for call, name in CALLS.items()}


def hexed(b):
    return b.hex() or "-"


def spaced(*words):
    return " ".join(str(w) for w in words)


def made(name, n, left, rooms=(0, 0, 0), question=None, expected=None, **fields):
    """The case of a call by its name."""
    given = Given(NUMBER_OF[name], trimmed(n), list(rooms), **fields)
    return Case(given, left._replace(answer=trimmed(left.answer)), question, expected)


def unparted(answer, *more):
    """An answer of the paper as C has it, where the paper has no part: number, place, part 0, the rest."""
    return [*answer[:2], 0, *answer[2:], *more]


def mode_text(text):
    """A mode text read alone: number, place, part, mode, and where the rest begins."""
    number, mode, rest = paper.mode_text(text)
    expected = spaced("ok", mode, rest) if number == 0 else "no"
    return made("mode text", [], Left([number, 0, int(number == 3), mode, rest]), a=text, question=spaced("mode", hexed(text)), expected=expected)


def mode_asked(mode):
    """Everything a mode can be asked: seven questions, value, kind as a mode, and how long text and word are."""
    value, kind, questions, text, word = paper.mode_asked(mode)
    tree, commit, link, other, blob, executable, leaf = [questions >> i & 1 for i in range(7)]
    answer = [tree, other, blob, executable, leaf, link, commit, value, int(paper.KINDS[kind][0], 8), len(text), len(word)]
    left = Left(answer, text.ljust(6, b"\0") + word.ljust(6, b"\0"))
    expected = spaced(value, kind, questions, hexed(text), hexed(word))
    return made("mode asked", [mode], left, (12, 0, 0), question=spaced("asked", mode), expected=expected)


def mode_from_number(n):
    """A mode from a 32-bit number."""
    number, mode = paper.mode_from_number(n)
    return made("mode from a number", [n], Left([number, 0, 0, mode]), question=spaced("from", n), expected=spaced("ok", mode) if number == 0 else "no")


def name_order(a, a_tree, b, b_tree):
    """0 below, 1 same, 2 above."""
    out = paper.order(a, a_tree, b, b_tree) + 1
    question = spaced("order", hexed(a), int(a_tree), hexed(b), int(b_tree))
    return made("name order", [a_tree, b_tree], Left([out]), a=a, b=b, question=question, expected=str(out))


def for_rust(numbers):
    """The records without where their mode text starts, which the Rust does not keep."""
    return [r[:4] for r in paper.by(paper.WIDTH, numbers)]


def plain_reading(h, object, room):
    """The plain reader. The Rust speaks: entries, or the place of a 3."""
    answer, records = paper.tree_read(h, object, room, strict=False)
    question = expected = None
    if h in (20, 32):                      # the Rust's list grows: it is asked as with room enough
        (n, place, _part, count), all_records = paper.tree_read(h, object, paper.WIDTH * len(object), strict=False)
        question = spaced("tree", h, hexed(object))
        expected = spaced("no", place) if n else spaced("ok", count, *sum(for_rust(all_records), ()))
    return made("tree reading", [h], Left(answer, p=records), (0, room, 0), question, expected, a=object)


def strict_reading(h, object, room, rules):
    answer, records = paper.tree_read(h, object, room, strict=True, rules=rules)
    return made("strict reading", [h, rules], Left(answer, p=records), (0, room, 0), a=object)


def steps(h, object, room, start=0):
    """Step by step from a place to the first that finds nothing: its answer, and how many found an entry; their records, as far as there is room."""
    last, found = paper.steps(h, object, start)
    records = [n for record in found for n in record]
    return made("tree by steps", [h, start], Left([*last, 0, 0, 0, 0, 0, len(found)], p=records[:room]), (0, room, 0), a=object)


def tree_reading(h, object, room, rules=2):
    """The two readers and the steps."""
    return [plain_reading(h, object, room), strict_reading(h, object, room, rules), steps(h, object, room)]


def in_domain(h, object, records, names):
    """Whether a lookup is in the document's domain: well-formed records in strict order, and no slash in any name."""
    if h not in (20, 32) or not all(paper.entry_well_formed(r, object, h) for r in records):
        return False
    keys = [(object[r[1]:r[2]], paper.is_tree(r[0])) for r in records]
    ascending = all(paper.order(*x, *y) == -1 for x, y in zip(keys, keys[1:]))
    return ascending and not any(b"/" in n for n in names + [k[0] for k in keys])


def found_or_not(numbers, number, index):
    """What the Rust says of a name that is at this index, or is not there."""
    return spaced("ok", *for_rust(numbers)[index]) if number == 0 else "no"


def lookup(h, object, numbers, name, is_tree):
    """Bisection. The Rust speaks within the document's domain only, and does not count."""
    out = paper.lookup(h, object, numbers, name, is_tree)
    question = expected = None
    records = paper.by(paper.WIDTH, numbers)
    assert out[3] <= len(records).bit_length()            # "at most as many as n has binary digits"
    if in_domain(h, object, records, [name]):
        question = spaced("find", h, hexed(object), len(records), *sum(for_rust(numbers), ()), hexed(name), int(is_tree))
        expected = found_or_not(numbers, out[0], out[2])
    return made("lookup", [h, is_tree], Left(unparted(out)), question=question, expected=expected, a=object, b=name, x=numbers)


def lookup_structs(h, object, numbers, name, is_tree):
    """The same among at most 64 records that are structs."""
    assert len(numbers) <= 64 * paper.WIDTH
    return made("lookup among structs", [h, is_tree], Left(unparted(paper.lookup(h, object, numbers, name, is_tree))), a=object, b=name, x=numbers)


def tree_writing(h, bytes, numbers, room):
    """Size and writing. The Rust speaks when all records are well formed; it has no room."""
    size = paper.tree_size(h, bytes, numbers)
    write, written = paper.tree_write(h, bytes, numbers, room)
    question = expected = None
    if size[0] == 0:
        records = paper.by(paper.WIDTH, numbers)
        question = spaced("write", h, hexed(bytes), len(records), *sum(for_rust(numbers), ()))
        (n, at, _count), all_written = paper.tree_write(h, bytes, numbers, size[2])
        if n == paper.NUL_IN_NAME:         # the Rust has then written what is before the name
            all_written = paper.tree_write(h, bytes, numbers[:paper.WIDTH * at], size[2])[1] + paper.mode_written(records[at][0]) + b" "
        expected = spaced(size[2], "no" if n else "ok", hexed(all_written))
    return [made("tree size", [h], Left(unparted(size)), a=bytes, x=numbers),
            made("tree writing", [h], Left(unparted(write), written), (room, 0, 0), question, expected, a=bytes, x=numbers)]


def loose_header(kind, size, room):
    """The Rust speaks of the four kinds."""
    out, written = paper.loose_header(kind, size, room)
    question = expected = None
    if 1 <= kind <= 4:
        question, expected = spaced("loose", kind, size), hexed(paper.loose_header(kind, size, 28)[1])
    return made("loose header", [kind, size], Left(unparted(out), written), (room, 0, 0), question, expected)


def commit_reading(h, object, parents_room, headers_room):
    """The Rust speaks of all that is read, and on a refusal of the bytes consumed, which is the place of 11 and 12."""
    out, ranges, parents, headers = paper.commit_read(h, object, parents_room, headers_room)
    question = expected = None
    if h in (20, 32):
        question = spaced("commit", h, hexed(object))
        (n, place, _field), all_ranges, all_parents, numbers = paper.commit_read(h, object, len(object), 5 * len(object))
        all_headers = paper.by(5, numbers)
        values = [spaced(*r[:2], 1, hexed(paper.unfold(object, r, len(object))[1])) if r[4] else spaced(*r[:2], 0, *r[2:4])
                  for r in all_headers]
        expected = spaced("ok", *all_ranges, len(all_parents), *all_parents, len(all_headers), *values) if n == 0 else spaced("no", place)
    left = Left(unparted(out, len(parents), len(headers) // 5, *ranges), p=parents, q=headers)
    return made("commit reading", [h], left, (0, parents_room, headers_room), question, expected, a=object)


def unfold(bytes, record, room):
    """The Rust speaks of folded values (mark 1) in ranges that are well formed."""
    out, written = paper.unfold(bytes, record, room)
    question = expected = None
    name, name_end, value, value_end, mark = record
    if mark == 1 and value <= value_end <= len(bytes) and name <= name_end <= len(bytes):
        question = spaced("folded", hexed(bytes[value:value_end]))
        whole = paper.unfold(bytes, record, len(bytes))
        if whole[0][0] == 0:
            expected = spaced("ok", hexed(whole[1]), 0)
        else:                              # the Rust sees no folded value, or leaves something behind it
            expected = lambda answer: answer == "no" or not answer.endswith(" 0")
    return made("unfold", record, Left(unparted(out), written), (room, 0, 0), question, expected, a=bytes)


def commit_writing(h, bytes, parents, numbers, ranges, room):
    """Size and writing. The Rust speaks when all records are well formed; it is handed unfolded values."""
    size = paper.commit_size(h, bytes, parents, numbers, ranges)
    write, written = paper.commit_write(h, bytes, parents, numbers, ranges, room)
    question = expected = None
    if size[0] == 0:
        headers = paper.by(5, numbers)
        tree, author, author_end, committer, committer_end, mark, encoding, encoding_end, message, message_end = ranges
        parts = [bytes[tree:tree + 2 * h]], [bytes[p:p + 2 * h] for p in parents], [bytes[author:author_end], bytes[committer:committer_end]]
        values = [(bytes[r[0]:r[1]], paper.unfold(bytes, r, len(bytes))[1]) for r in headers]
        question = spaced("commit-write", hexed(parts[0][0]), len(parents), *map(hexed, parts[1] + parts[2]),
                          mark, hexed(bytes[encoding:encoding_end]) if mark else "-",
                          len(values), *[hexed(x) for pair in values for x in pair], hexed(bytes[message:message_end]))
        (n, _place, _count), all_written = paper.commit_write(h, bytes, parents, numbers, ranges, size[2])
        if n:                              # 13 or 14: the Rust has then written what is before the encoding
            before = [tree, author, author_end, committer, committer_end, 0, 0, 0, 0, 0]
            all_written = paper.commit_written(h, bytes, parents, [], before)[:-1]
        too_small = sum(1 for _name, value in values if value == b"")      # the known difference
        expected = spaced(size[2] - too_small, "no" if n else "ok", hexed(all_written))
    fields = dict(a=bytes, x=parents, y=numbers)
    return [made("commit size", [h, *ranges], Left(unparted(size)), **fields),
            made("commit writing", [h, *ranges], Left(unparted(write), written), (room, 0, 0), question, expected, **fields)]


def commit_rewritten(h, object, room):
    """A commit that is accepted, written again as it was read."""
    _out, ranges, parents, numbers = paper.commit_read(h, object, 1024, 1024)
    write, written = paper.commit_write(h, object, parents, numbers, ranges, room)
    return made("commit rewritten", [h], Left(unparted(write), written), (room, 0, 0), a=object)


def lookup_any(h, object, numbers, name):
    """A name of whatever sort. The Rust is asked for both sorts, within the domain."""
    out = paper.lookup_any(h, object, numbers, name)
    question = expected = None
    records = paper.by(paper.WIDTH, numbers)
    assert out[3] <= 2 * len(records).bit_length()
    if in_domain(h, object, records, [name]):
        question = spaced("find-any", h, hexed(object), len(records), *sum(for_rust(numbers), ()), hexed(name))
        expected = found_or_not(numbers, out[0], out[2])
    return made("lookup, any sort", [h], Left(unparted(out)), question=question, expected=expected, a=object, b=name, x=numbers)


def lookups(h, object, numbers, names, sought, room):
    """Many names. The Rust speaks of each within the domain; it has no room, and does not count."""
    out, answers = paper.lookups(h, object, numbers, names, sought, room)
    question = expected = None
    records, wanted = paper.by(paper.WIDTH, numbers), paper.by(paper.EACH, sought)
    (n, _place, _count), all_answers = paper.lookups(h, object, numbers, names, sought, len(sought))
    each = [names[start:end] for start, end, _mark in wanted]
    if n == 0 and wanted and in_domain(h, object, records, each):
        pairs = [x for name, q in zip(each, wanted) for x in (hexed(name), q[2])]
        question = spaced("find-many", h, hexed(object), len(records), *sum(for_rust(numbers), ()), len(each), *pairs)
        expected = spaced(*[found_or_not(numbers, a[0], a[1]) for a in paper.by(paper.EACH, all_answers)])
    return made("many lookups", [h], Left(unparted(out), p=answers), (0, room, 0), question, expected, a=object, b=names, x=numbers, y=sought)


def id_of_hex(digits, room):
    """The paper speaks alone: the Rust's own reader of hex is not here."""
    out, written = paper.id_of_hex(digits, room)
    return made("id from digits", [], Left(unparted(out), written), (room, 0, 0), a=digits)


def hex_of_id(id, room):
    """The paper speaks alone, as above."""
    out, written = paper.hex_of_id(id, room)
    return made("digits of an id", [], Left(unparted(out), written), (room, 0, 0), a=id)


def bundle_check(bundle):
    """The Rust has no bundle; the paper speaks alone."""
    return made("bundle checked", [], Left(paper.bundle_check(bundle)), a=bundle)


def bundle_object(bundle, id):
    return made("bundle's object", [], Left(paper.bundle_object(bundle, id)), a=bundle, b=id)


def follow(bundle, root, path):
    """The Rust's `lookup_entry` speaks where the bundle can be used and the path has its form."""
    answer, id = paper.follow(bundle, root, path)
    question = expected = None
    if answer[0] in (0, 15):
        objects = [o for o in paper.bundle_objects(bundle) if o]
        each = [w for o in objects for w in (hexed(o[0]), o[1], hexed(bundle[o[2]:o[3]]))]
        question = spaced("path", paper.bundle_header(bundle)[0], hexed(root), hexed(path), len(objects), *each)
        expected = "no" if answer[0] else spaced("ok", answer[3], id[:answer[4]].hex())
    return made("path", [], Left(answer, id), (32, 0, 0), question, expected, a=bundle, b=root, c=path)


def tree_put(h, object, rules, mode, name, id, room):
    """The paper speaks alone; tests/edits_agree has Git beside it."""
    answer, written = paper.tree_put(h, object, rules, mode, name, id, room)
    return made("put", [h, rules, mode], Left(answer, written), (room, 0, 0), a=object, b=name, c=id)


def tree_remove(h, object, rules, name, room):
    answer, written = paper.tree_remove(h, object, rules, name, room)
    return made("remove", [h, rules], Left(answer, written), (room, 0, 0), a=object, b=name)


def mend(h, object, list_room, room):
    """The paper speaks alone; tests/mending has Git beside it."""
    answer, fates, written = paper.mend(h, object, list_room, room)
    return made("mend", [h], Left(answer, written, fates), (room, list_room, 0), a=object)


def export(h, object, rules, room):
    """The paper speaks alone; tests/text_agrees has Git beside it."""
    answer, written = paper.export(h, object, rules, room)
    return made("export", [h, rules], Left(answer, written), (room, 0, 0), a=object)


def import_tree(h, text, rules, room):
    """The paper speaks alone; tests/text_agrees has Git beside it."""
    answer, written = paper.import_tree(h, text, rules, room)
    return made("import", [h, rules], Left(answer, written), (room, 0, 0), a=text)


def differences(bundle, left, right, list_room, room):
    """The paper speaks alone; tests/differ has Git beside it."""
    answer, items, paths = paper.compare_trees(bundle, left, right, list_room, room)
    return made("differences", [], Left(answer, paths, items), (room, list_room, 0), a=bundle, b=left, c=right)


def check(h, object, rules, size):
    """An object in pieces of so many bytes, 0 for one piece; the paper says what it says of the whole. tests/pieces has strict reading beside it."""
    return made("check in pieces", [h, rules, size], Left(paper.checked(h, object, rules)), a=object)


# The case that a call is given: g its fields, n its numbers with zeros behind them, o, p, q its rooms.
AGAIN = {
    "mode text": lambda g, n, o, p, q: mode_text(g.a),
    "mode asked": lambda g, n, o, p, q: mode_asked(n[0]),
    "mode from a number": lambda g, n, o, p, q: mode_from_number(n[0]),
    "name order": lambda g, n, o, p, q: name_order(g.a, bool(n[0]), g.b, bool(n[1])),
    "tree reading": lambda g, n, o, p, q: plain_reading(n[0], g.a, p),
    "strict reading": lambda g, n, o, p, q: strict_reading(n[0], g.a, p, n[1]),
    "tree by steps": lambda g, n, o, p, q: steps(n[0], g.a, p, n[1]),
    "lookup": lambda g, n, o, p, q: lookup(n[0], g.a, g.x, g.b, bool(n[1])),
    "lookup among structs": lambda g, n, o, p, q: lookup_structs(n[0], g.a, g.x, g.b, bool(n[1])),
    "lookup, any sort": lambda g, n, o, p, q: lookup_any(n[0], g.a, g.x, g.b),
    "many lookups": lambda g, n, o, p, q: lookups(n[0], g.a, g.x, g.b, g.y, p),
    "tree size": lambda g, n, o, p, q: tree_writing(n[0], g.a, g.x, o)[0],
    "tree writing": lambda g, n, o, p, q: tree_writing(n[0], g.a, g.x, o)[1],
    "loose header": lambda g, n, o, p, q: loose_header(n[0], n[1], o),
    "id from digits": lambda g, n, o, p, q: id_of_hex(g.a, o),
    "digits of an id": lambda g, n, o, p, q: hex_of_id(g.a, o),
    "commit reading": lambda g, n, o, p, q: commit_reading(n[0], g.a, p, q),
    "unfold": lambda g, n, o, p, q: unfold(g.a, tuple(n[:5]), o),
    "commit size": lambda g, n, o, p, q: commit_writing(n[0], g.a, g.x, g.y, tuple(n[1:11]), o)[0],
    "commit writing": lambda g, n, o, p, q: commit_writing(n[0], g.a, g.x, g.y, tuple(n[1:11]), o)[1],
    "commit rewritten": lambda g, n, o, p, q: commit_rewritten(n[0], g.a, o),
    "bundle checked": lambda g, n, o, p, q: bundle_check(g.a),
    "bundle's object": lambda g, n, o, p, q: bundle_object(g.a, g.b),
    "path": lambda g, n, o, p, q: follow(g.a, g.b, g.c),
    "put": lambda g, n, o, p, q: tree_put(n[0], g.a, n[1], n[2], g.b, g.c, o),
    "remove": lambda g, n, o, p, q: tree_remove(n[0], g.a, n[1], g.b, o),
    "mend": lambda g, n, o, p, q: mend(n[0], g.a, p, o),
    "export": lambda g, n, o, p, q: export(n[0], g.a, n[1], o),
    "import": lambda g, n, o, p, q: import_tree(n[0], g.a, n[1], o),
    "differences": lambda g, n, o, p, q: differences(g.a, g.b, g.c, p, o),
    "check in pieces": lambda g, n, o, p, q: check(n[0], g.a, n[1], n[2]),
}


def again(given):
    """The case that is given this."""
    return AGAIN[CALLS[given.call].name](given, [*given.n, *[0] * 13], *given.rooms)


def compare(cases):
    """Ask the Rust all questions of a batch. Stops at a difference, with the smallest case that has one."""
    asked = [c for c in cases if c.question is not None]
    run = subprocess.run([os.path.join(HERE, "answer")], input="\n".join(c.question for c in asked) + "\n" if asked else "",
                         stdout=subprocess.PIPE, text=True, check=True)
    answers = run.stdout.splitlines()
    assert len(answers) == len(asked), "one answer a line"
    wrong = [(c, a) for c, a in zip(asked, answers) if not (c.expected(a) if callable(c.expected) else c.expected == a)]
    if wrong:
        case, answer = min(wrong, key=lambda pair: len(pair[0].question))
        sys.exit(f"{len(wrong)} differences; the smallest:\n  call: {CALLS[case.given.call].name}\n  in: {case.given}\n"
                 f"  paper: {case.left}\n  question: {case.question}\n  Rust: {answer}\n  paper expected of the Rust: {case.expected}")
    return len(asked)
