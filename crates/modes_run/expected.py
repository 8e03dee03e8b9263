"""Writes what modes_run has to write, computed from the rules of docs/FORMAT.md, "Modes", with none of Rattle's code or definitions."""
KINDS = ["tree", "blob", "exe", "link", "commit"]


def read(text):
    """A mode text at the front: its mode and where the rest begins, or None."""
    if not text:
        return None
    if text[6:7] == b" " and text[5:6] != b" ":
        digits, rest = text[:6], 7
    elif b" " in text:
        digits = text[: text.index(b" ")]
        rest = len(digits) + 1
    else:
        digits, rest = text, 1
    if len(digits) > 7 or any(b not in b"01234567" for b in digits):
        return None
    mode = int(b"0" + digits, 8) & 0xFFFF
    if mode == 0o40000 and text[:1] == b"0":
        mode = 0o140000
    return mode, rest


def value(mode):
    return 0o40000 if mode >> 12 == 0o14 else mode


def kind(mode):
    sort = value(mode) >> 12
    if sort == 0o10:
        return 2 if value(mode) & 0o100 else 1
    return {0o12: 3, 0o4: 0}.get(sort, 4)


def write(mode):
    if mode == 0:
        return b"0"
    six = b"%06o" % mode
    if six[1:2] == b"4":
        return six[1:] if six[:1] == b"0" else b"0" + six[1:]
    return six


def from_number(n):
    return n & 0xFFFF if n in (16384, 40960, 57344) or n >> 15 & 1 else None


def line(shown, number, mode, rest):
    if mode is None:
        return f"{shown} refused {number} at 0"
    return f"{shown} 0 {mode} {rest} {value(mode)} {KINDS[kind(mode)]} {write(mode).decode()}"


for sort in range(16):
    total = 0
    for mode in range(sort << 12, sort + 1 << 12):
        text = write(mode)
        for x in [value(mode), kind(mode), *text.ljust(6, b"\0"), *(read(text + b" a") or (65536, 0))]:
            total = (total * 31 + x) % 2**32
    print(f"{sort << 12:06o}", total)
for text in ["100644 ", "40000 ", "040000 ", "140755 ", "040755 ", "0000000 x", "00000000 x", "0 abcd e", "0 abc de", " abc", " 12345 x", "200000 ", "1234567", ""]:
    print(line(f"`{text}`", 3, *(read(text.encode()) or (None, 0))))
for n in [0o300644, 0o200000]:
    print(line(f"0o{n:o}", 23, from_number(n), 0))
