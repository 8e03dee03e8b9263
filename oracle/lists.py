"""The format of the list of cases, and where it stands; README.md says it in words."""
import collections
import os

HERE = os.path.dirname(os.path.abspath(__file__))

# The list is the standard input of the program that replays it; beside it lies what the program has to say of it.
LIST = os.path.join(HERE, "..", "crates", "replay", "stdin")
REPORT = os.path.join(HERE, "..", "crates", "replay", "stdout")

# The calls in the order of their numbers, which begin with 1: the name, the fields that it is given (letters of a case below), how many numbers
# it answers, and what it is lent (o bytes, p a first list, q a second).
Call = collections.namedtuple("Call", "name given answers lent")
CALLS = dict(enumerate([
    Call("mode text", "a", 5, ""), Call("mode asked", "", 11, "o"), Call("mode from a number", "", 4, ""), Call("name order", "ab", 1, ""),
    Call("tree reading", "a", 4, "p"), Call("strict reading", "a", 4, "p"), Call("tree by steps", "a", 11, "p"),
    Call("lookup", "abx", 5, ""), Call("lookup among structs", "abx", 5, ""), Call("lookup, any sort", "abx", 5, ""), Call("many lookups", "abxy", 4, "p"),
    Call("tree size", "ax", 4, ""), Call("tree writing", "ax", 4, "o"), Call("loose header", "", 4, "o"),
    Call("id from digits", "a", 4, "o"), Call("digits of an id", "a", 4, "o"),
    Call("commit reading", "a", 16, "pq"), Call("unfold", "a", 4, "o"), Call("commit size", "axy", 4, ""), Call("commit writing", "axy", 4, "o"),
    Call("commit rewritten", "a", 4, "o"),
    Call("bundle checked", "a", 6, ""), Call("bundle's object", "ab", 6, ""), Call("path", "abc", 5, "o"),
    Call("put", "abc", 4, "o"), Call("remove", "ab", 4, "o"), Call("mend", "a", 5, "op"), Call("export", "a", 4, "o"),
    Call("import", "a", 4, "o"), Call("differences", "abc", 4, "op"), Call("check in pieces", "a", 4, ""),
], 1))

# A case. In: the call, its numbers, the rooms (bytes, first list, second list), bytes a, b, c, lists x, y. Out: the answer, the bytes and the two
# lists at the front of what was lent.
Given = collections.namedtuple("Given", "call n rooms a b c x y", defaults=[[0, 0, 0], b"", b"", b"", [], []])
Left = collections.namedtuple("Left", "answer out p q", defaults=[b"", [], []])

# A program that replays the list needs no larger buffers than these; a case is at most so long.
MOST_BYTES, MOST_NUMBERS, MOST_CASE = 16384, 1024, 40960

# The bits that say which fields a case has.
N, A, B, C, X, Y, OUT, LISTS = (1 << i for i in range(8))


def number(n):
    """Unsigned LEB128."""
    out = bytearray()
    while n >= 128:
        out.append(n % 128 + 128)
        n //= 128
    out.append(n)
    return bytes(out)


def numbers(values):
    """How many, and the numbers; zeros at the end left out."""
    values = list(map(int, values))
    while values and values[-1] == 0:
        values.pop()
    return number(len(values)) + b"".join(map(number, values))


def derived(value, base):
    """A value that begins and ends as another: how many new, how many kept before and behind them, and the new."""
    least = min(len(value), len(base))
    if value[:least] == base[:least]:
        before = least
    else:
        before = next(i for i in range(least) if value[i] != base[i])
    rest = least - before
    behind = next((i for i in range(rest) if value[-1 - i] != base[-1 - i]), rest)
    new = value[before:len(value) - behind]
    head = number(len(new)) + number(before) + number(behind)
    return head + (new if isinstance(new, bytes) else b"".join(map(number, new)))


class State:
    """What a case that leaves a field out takes from the one before."""
    def __init__(self):
        self.n, self.a, self.x, self.y = [0] * 16, b"", [], []

    def encoded(self, given, left):
        """The case in bytes; the state is then that behind it."""
        uses, mask, body = CALLS[given.call], 0, b""
        n = [*given.rooms, *map(int, given.n)]
        n += [0] * (16 - len(n))
        assert len(n) == 16 and n[0] <= MOST_BYTES and max(n[1:3]) <= MOST_NUMBERS
        if n != self.n:
            mask, body = mask | N, body + numbers(n)
        if "a" in uses.given and given.a != self.a:
            mask, body = mask | A, body + derived(given.a, self.a)
            self.a = given.a
        for bit, letter, value in ((B, "b", given.b), (C, "c", given.c)):
            if letter in uses.given and value:
                mask, body = mask | bit, body + number(len(value)) + value
        for bit, letter in ((X, "x"), (Y, "y")):
            value = list(getattr(given, letter))
            if letter in uses.given and value != getattr(self, letter):
                mask, body = mask | bit, body + derived(value, getattr(self, letter))
                setattr(self, letter, value)
        self.n = n
        body += numbers(left.answer)
        if left.out:
            mask, body = mask | OUT, body + derived(left.out, self.a)
        if left.p or left.q:
            p, q = list(left.p), list(left.q)
            mask, body = mask | LISTS, body + derived(p, self.x) + derived(q, self.y)
            self.x, self.y = p, q
        assert max(len(self.a), len(given.b), len(given.c), len(left.out)) <= MOST_BYTES and max(len(self.x), len(self.y)) <= MOST_NUMBERS
        whole = bytes([given.call, mask]) + body
        assert len(whole) <= MOST_CASE
        return whole


def changed(value):
    """The same field, otherwise: a number, or one of the bytes or numbers of a list, or one more where it is empty."""
    if isinstance(value, int):
        return value ^ 1
    middle = len(value) // 2
    other = [*value[:middle], value[middle] ^ 1, *value[middle + 1:]] if value else [1]
    return bytes(other) if isinstance(value, bytes) else other


def otherwise(call, left):
    """For each number that a call answers and each thing that it is lent: what it left, with that changed."""
    answer = [*left.answer, *[0] * (CALLS[call].answers - len(left.answer))]
    for i in range(CALLS[call].answers):
        yield f"answer {i}", left._replace(answer=[changed(x) if k == i else x for k, x in enumerate(answer)])
    for letter, field in (("o", "out"), ("p", "p"), ("q", "q")):
        if letter in CALLS[call].lent:
            yield field, left._replace(**{field: changed(getattr(left, field))})


def wrong_on_purpose(cases):
    """For each number that a call answers and each thing that it is lent: a case of the call in which it is neither 0 nor empty, if there is one, with that
    changed. `cases` has the cases of each call."""
    for call, uses in CALLS.items():
        fields = [*range(uses.answers), *[{"o": "out"}.get(x, x) for x in uses.lent]]
        for k, field in enumerate(fields):
            def stands(case):
                value = case[1].answer[field:field + 1] if isinstance(field, int) else getattr(case[1], field)
                return any(value)
            roomy = [c for c in cases[call] if isinstance(field, int) or c[0].rooms[("out", "p", "q").index(field)] > 0]
            given, left = next((c for c in roomy if stands(c)), roomy[0])
            yield given, list(otherwise(call, left))[k][1]


# The list ends with cases that are wrong on purpose.
WRONG = sum(uses.answers + len(uses.lent) for uses in CALLS.values())


def read_all(content=None):
    """All cases of a list in their order, as (given, left)."""
    if content is None:
        with open(LIST, "rb") as f:
            content = f.read()
    at, cases, state = 0, [], State()

    def one():
        nonlocal at
        n = shift = 0
        while True:
            byte = content[at]
            at += 1
            n += (byte % 128) << shift
            shift += 7
            if byte < 128:
                return n

    def many(n):
        return [one() for _ in range(n)]

    def raw(n):
        nonlocal at
        at += n
        return content[at - n:at]

    def field(base):
        new, before, behind = one(), one(), one()
        middle = raw(new) if isinstance(base, bytes) else many(new)
        return base[:before] + middle + base[len(base) - behind:]

    while at < len(content):
        call, mask = content[at:at + 2]
        at += 2
        if mask & N:
            n = many(one())
            state.n = n + [0] * (16 - len(n))
        if mask & A:
            state.a = field(state.a)
        b, c = [raw(one()) if mask & bit else b"" for bit in (B, C)]
        if mask & X:
            state.x = field(state.x)
        if mask & Y:
            state.y = field(state.y)
        uses = CALLS[call].given
        given = Given(call, state.n[3:], state.n[:3], state.a if "a" in uses else b"", b, c, state.x if "x" in uses else [], state.y if "y" in uses else [])
        answer = many(one())
        out = field(state.a) if mask & OUT else b""
        p, q = [], []
        if mask & LISTS:
            p, q = state.x, state.y = field(state.x), field(state.y)
        cases.append((given, Left(answer, out, p, q)))
    return cases


def read_list():
    """The cases of the list, those wrong on purpose left out."""
    return read_all()[:-WRONG]


def trimmed(values):
    """Numbers without the zeros at the end, as the list has them."""
    values = list(map(int, values))
    while values and values[-1] == 0:
        values.pop()
    return values
