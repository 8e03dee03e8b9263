#!/usr/bin/env python3
"""places.py [FOLDER]: counts, in FOLDER/crates/*/src (default: this repository), the places that docs/DESIGN-PASS.md speaks of, by the shape of the text. With --list it names each."""
import collections, glob, os, re, sys

listing = "--list" in sys.argv
names = [a for a in sys.argv[1:] if not a.startswith("--")]
root = names[0] if names else os.path.dirname(os.path.dirname(os.path.abspath(__file__)))


def block(text, start):
    """the text from the brace at or after start to the brace that closes it"""
    i = text.index("{", start)
    depth = 0
    for k in range(i, len(text)):
        depth += {"{": 1, "}": -1}.get(text[k], 0)
        if depth == 0:
            return text[i + 1 : k]
    return text[i + 1 :]


files = {}
for path in sorted(glob.glob(f"{root}/crates/*/src/*.rt")):
    lines = open(path).read().split("\n")
    files[os.path.relpath(path, f"{root}/crates")] = "\n".join("" if re.match(r"\s*//|ghost use|use ", line) else re.sub(r" // .*", "", line) for line in lines)

functions = []  # file, line, name, parameters, result, clauses, body
for path, text in files.items():
    for m in re.finditer(r"(?m)^ *(?:pub )?(?:unsafe )?(?:extern \"C\" )?fn (\w+)", text):
        head = re.search(r"\n *\{\n|\{\n", text[m.start() :])
        # the body begins at the brace that stands alone, or ends the head where there is no clause
        at = m.start()
        depth, i = 0, text.index("(", at)
        for k in range(i, len(text)):
            depth += {"(": 1, ")": -1}.get(text[k], 0)
            if depth == 0:
                break
        parameters = text[i + 1 : k]
        rest = text[k + 1 :]
        clauses = []
        result = re.match(r"\s*(?:->\s*([^{\n]*(?:\{[^\n]*)?))?", rest).group(1) or ""
        pos = k + 1
        while True:
            b = text.index("{", pos)
            before = text[pos:b]
            if re.search(r"\b(requires|ensures|ghost)\b", before):
                inner = block(text, b)
                clauses.append((re.search(r"\b(requires|ensures|ghost)\b", before).group(1), " ".join(inner.split())))
                pos = b + len(inner) + 2
                continue
            break
        functions.append((path, text.count("\n", 0, at) + 1, m.group(1), parameters, result.strip(), clauses, block(text, b)))

found = collections.OrderedDict()


def place(point, where, what):
    found.setdefault(point, []).append((where, what))


# 1: own enums whose variants are those of an Option or a Result; a flag with a value beside it; numbers for kinds
for path, text in files.items():
    for m in re.finditer(r"(?m)^(?:pub )?enum (\w+)", text):
        variants = [v.strip() for v in re.sub(r"\([^)]*\)", "()", block(text, m.end())).split(",") if v.strip()]
        full = [v for v in variants if v.endswith("()")]
        if len(variants) == 2 and len(full) >= 1 or len(full) == 1 and len(variants) == 3:
            place("1 enums of the shape of Option or Result", path, m.group(1))
    for m in re.finditer(r"(?m)^(?:pub )?struct (\w+)", text):
        body = block(text, m.end()) if "{" in text[m.end() : m.end() + 3] else ""
        for f in re.findall(r"(\w+): (?:bool|usize|u8|u16|u32),?", body):
            if f in ("found", "mark", "encoding", "on", "there", "some", "number", "kind", "sort", "state", "phase"):
                place("1 fields that are a flag or a number for a kind", path, f"{m.group(1)}.{f}")

# 2: functions of one crate with one body but for constants, and of all crates with one body but for names
shapes = collections.defaultdict(list)
for path, line, name, parameters, result, clauses, body in functions:
    words = re.findall(r"\w+|[^\w\s]", body)
    if len(words) < 25:
        continue
    shape = " ".join("#" if re.match(r"\d|[A-Z][A-Z_0-9]+$", w) else w for w in words)
    shape = shape.replace(" " + name + " ", " self ")
    shapes[shape].append((f"{path}:{line}", name))
for shape, where in shapes.items():
    if len(where) > 1:
        place("2 functions with one body but for constants", where[0][0], ", ".join(n for _, n in where))
loose = collections.defaultdict(list)
for path, line, name, parameters, result, clauses, body in functions:
    words = re.findall(r"\w+|[^\w\s]", body)
    if len(words) < 40:
        continue
    seen = {}
    keep = {"if", "else", "while", "for", "in", "loop", "match", "return", "let", "mut", "true", "false", "as", "break", "continue"}
    loose[" ".join(w if w in keep or not re.match(r"\w", w) else seen.setdefault(w, f"v{len(seen)}") for w in words)].append((f"{path}:{line}", name))
for shape, where in loose.items():
    if len(where) > 1:
        place("2 functions with one body but for names", where[0][0], ", ".join(f"{p} {n}" for p, n in where))

# 3: loops with a variable of their test that the body moves by one, or that is an index there
for path, text in files.items():
    for m in re.finditer(r"(?m)^ *(while|loop)\b([^{]*)\{", text):
        body = block(text, m.start())
        test = re.findall(r"[a-z_]\w*", m.group(2))
        where = f"{path}:{text.count(chr(10), 0, m.start()) + 1}"
        if any(re.search(rf"\b{v} (\+=|-=) 1;", body) for v in test) or m.group(1) == "loop" and re.search(r"\b(\w+) (\+=|-=) 1;", body):
            place("3 loops that count by one", where, m.group(0).strip())
        elif m.group(1) == "while" or True:
            place("3 other loops with while or loop", where, m.group(0).strip())

# 4: functions to bool by steps of return, matches that give a truth for each variant, conversions between an enum and numbers
for path, line, name, parameters, result, clauses, body in functions:
    if result == "bool" and re.search(r"return (true|false);", body) and not re.search(r"\b(while|loop|for)\b", body):
        place("4 conditions by steps of return", f"{path}:{line}", name)
    if result == "bool" and len(re.findall(r"=> (true|false),", body)) > 1:
        place("4 truths written out for each variant", f"{path}:{line}", name)

# 5: a requires that stands in three or more functions of a crate, and parameters that stand together in three or more
for crate in sorted({path.split("/")[0] for path in files}):
    mine = [f for f in functions if f[0].split("/")[0] == crate]
    facts = collections.Counter(c for f in mine for k, c in f[5] if k == "requires")
    for fact, n in facts.items():
        if n >= 3:
            place("5 facts required by three or more functions of a crate", crate, f"{n}: {fact}")
    groups = collections.Counter()
    for f in mine:
        ps = [" ".join(p.split()) for p in re.split(r",(?![^<(\[]*[>)\]])", f[3]) if ":" in p]
        for i in range(len(ps)):
            for j in range(i + 3, len(ps) + 1):
                groups[tuple(ps[i:j])] += 1
    most = {g: n for g, n in groups.items() if n >= 3}
    for g, n in most.items():
        if not any(set(g) < set(o) and most[o] >= n for o in most):
            place("5 three or more parameters together in three or more functions of a crate", crate, f"{n}: {', '.join(g)}")

# 6: an array with a length beside it, and bisections by hand
for path, text in files.items():
    for m in re.finditer(r"(?m)^(?:pub )?struct (\w+)", text):
        body = block(text, m.end()) if "{" in text[m.end() : m.end() + 3] else ""
        if re.search(r": \[\w+; ?\w+\]", body) and re.search(r"\b(len|count|held|many): usize", body):
            place("6 arrays with a length beside", path, m.group(1))
    for m in re.finditer(r"while low < high", text):
        place("6 bisections by hand", f"{path}:{text.count(chr(10), 0, m.start()) + 1}", "")

# 7: functions whose whole body chooses a function by an enum or a number
for path, line, name, parameters, result, clauses, body in functions:
    arms = re.findall(r"=> (\w+)\(", body)
    if re.match(r"\s*match ", body) and len(arms) >= 3 and len({a for a in arms if a not in ("Some", "Ok", "Err")}) >= 3:
        place("7 functions that choose a function", f"{path}:{line}", name)

for point, places in found.items():
    print(f"{len(places):5} {point}")
    if listing:
        for where, what in places:
            print(f"      {where}  {what}")
