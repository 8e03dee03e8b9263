#!/usr/bin/env python3
"""Respells the repository's own names as today's Rattle writes them, once, right after port.py: definitions and lemmas in snake case, a dash only
between the names of two definitions, types in upper camel case, and the crate `hex`, whose name a library of the kit has, as `hex_digits`.

usage: tools/respell.py KIT/rattle      at the top of the repository; prints what falls together
Functions of src/, exported names, strings, inputs and outputs keep their names.
"""
import os
import re
import subprocess
import sys

TOKEN = re.compile(r"[A-Za-z_][\w'₀-₉]*(?:-[\w'₀-₉]+)*")
STRING = re.compile(r'"(?:[^"\\\n]|\\.)*"')
RECORD = re.compile(r"^(?:pub )?record [^\n]* where\n((?:[ \t]+[^\n]*\n|\n|--[^\n]*\n)*)", re.M)
HEAD = re.compile(r"^[ \t]*(?:(?:pub|abbrev|unfoldable|private)(?:\([a-z]+\))? )*([^\s:(){}]+)[ \t]*:(?!=)", re.M)
RENAMED_CRATE = ("hex", "hex_digits")
# below a path: a type that has no capital yet, or a lemma whose name a definition of its file now has
OWN = {
    "crates/record_slice/proofs/": {"started": "Started", "answered": "Answered", "stepped": "Stepped"},
    "crates/importing/": {"same_bytes": "same_bytes_lem"},
    "crates/text_import/proofs/": {"is_same": "is_same_lem"},
}


def files(top, ending):
    for folder, dirs, names in os.walk(top):
        dirs[:] = sorted(d for d in dirs if d not in ("out", ".git", "target"))
        for name in sorted(names):
            if name.endswith(ending):
                yield os.path.join(folder, name)


def read(path):
    with open(path, encoding="utf-8") as f:
        return f.read()


def write(path, text):
    with open(path, "w", encoding="utf-8") as f:
        f.write(text)


def snake(part):
    if part[0].isupper() or part.startswith("is_Is"):
        return part
    return re.sub(r"(?<=[a-z0-9])([A-Z])", lambda m: "_" + m.group(1).lower(), part)


def turn(text, table, fields=()):
    """The text with each name of the table replaced: not in strings, and behind a dot only a field, since Rattle too makes names with a dash."""

    def one(m):
        word = m.group()
        before = text[m.start() - 1 : m.start()]
        if word[0] == '"' or ("-" in word and (before == "-" or (before == "." and word not in fields))):
            return word
        return table.get(word, word)

    return re.sub(STRING.pattern + "|" + TOKEN.pattern, one, text)


def main():
    if len(sys.argv) != 2 or sys.argv[1] in ("-h", "--help"):
        sys.exit(print(__doc__))
    kit = set()
    for p in files(sys.argv[1], ".antt"):
        kit.update(TOKEN.findall(read(p)))
    antt = list(files("crates", ".antt"))
    seen, specs, declared, imported, fields = set(), set(), set(), set(), set()
    for p in antt:
        text = re.sub(r"--.*", "", read(p))
        seen.update(TOKEN.findall(text))
        heads = set(HEAD.findall(text))
        for block in RECORD.findall(text):
            fields.update(f for f in HEAD.findall(block) if "-" in f)
        if "/specs/" in p:
            specs |= heads
        if not p.endswith("/Proof.antt"):
            declared |= heads
        for module, names in re.findall(r"^use ([\w.+'-]+)\.\{([^}]*)\}", text, re.M):
            if not (module.startswith("Rattle.") and module.split(".")[1] != "std"):
                imported.update(n.strip() for n in names.split(","))
    table = {}
    for word in sorted(seen):
        if word in kit:
            continue
        new = "-".join(snake(part) for part in word.split("-"))
        if new != word:
            table[word] = new
    defined = {table.get(w, w) for w in specs} | imported
    taken = {table.get(w, w) for w in seen} | kit
    for word in sorted(declared | fields):
        base = table.get(word, word)
        if "-" not in base or word in kit or not re.match(r"[a-z]", base):
            continue
        parts = base.split("-")
        new = parts[0]
        for left, right in zip(parts, parts[1:]):
            new += ("-" if left in defined and right in defined else "_") + right
        if word in fields:
            new = base.replace("-", "_")
        if new == base:
            continue
        if new in taken and word not in fields:
            print(f"kept, since {new} is taken: {base}")
            continue
        taken.add(new)
        table[word] = new
    fell = {}
    for word, new in table.items():
        fell.setdefault(new, []).append(word)
    for new, words in sorted(fell.items()):
        others = words + [new] * (new in seen and new not in table)
        if len(others) > 1:
            print(f"fall together: {', '.join(others)} as {new}")
    own_camel = {w: n for w, n in table.items() if "-" not in w}
    for p in antt:
        text = read(p)
        own = {w: n for top, names in OWN.items() if p.startswith(top) for w, n in names.items()}
        new = turn(text, table | own, fields)
        if new != text:
            write(p, new)
    for p in list(files("crates", ".rt")):
        text = read(p)
        new = turn(text, own_camel)
        if new != text:
            write(p, new)
    for p in list(files("crates", ".edit")):
        text = read(p)
        new = turn(text, own_camel if "file: src/" in text else table, fields)
        if new != text:
            write(p, new)
    pages = list(files("docs", ".md")) + [p for p in os.listdir(".") if p.endswith(".md")]
    for p in pages:
        text = read(p)
        new = re.sub(r"`([^`\n]+)`", lambda m: "`" + table.get(m.group(1), m.group(1)) + "`", text)
        if new != text:
            write(p, new)
    old, name = RENAMED_CRATE
    subprocess.run(["git", "mv", f"crates/{old}", f"crates/{name}"], check=True)
    for p in list(files("crates", ".antt")) + list(files("crates", ".rt")) + list(files("crates", ".edit")):
        text = read(p)
        new = re.sub(rf"\bRattle\.{old}\.", f"Rattle.{name}.", text)
        new = re.sub(rf"\b{old}::", f"{name}::", new)
        if new != text:
            write(p, new)
    text = read("crates.txt")
    write("crates.txt", "\n".join(re.sub(rf"(?<![\w.]){old}(?![\w.])", name, l) if not l.startswith("#") else l for l in text.split("\n")))
    print(f"{len(table)} names respelled")


if __name__ == "__main__":
    main()
