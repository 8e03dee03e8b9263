#!/usr/bin/env python3
"""instructions.py NAMES COUNTS: the tables of bench/instructions. A line of NAMES says how many of COUNTS belong to it, two to a call, and
what was measured in the last of them: the call, the entries of the tree (of a commit its parents), the bytes of a name (of its message), and
by how much to divide."""
import collections, sys

if sys.argv[1:2] in (["-h"], ["--help"]):
    sys.exit(print(__doc__))
names = [line.split() for line in open(sys.argv[1])]
counts = [int(line) for line in open(sys.argv[2])]
tables = collections.defaultdict(lambda: collections.defaultdict(dict))
at = 0
for many, call, entries, length, by in names:
    at += int(many)
    tables[call][int(entries)][int(length)] = (counts[at - 1] - counts[at - 2]) / int(by)
assert at == len(counts), (at, len(counts))
for call, rows in tables.items():
    lengths = sorted(next(iter(rows.values())))
    print(f"\n{call}\n\n| {'parents' if call == 'commit' else 'entries'} | " + " | ".join(f"{n} bytes" for n in lengths) + " |\n|" + "---|" * (len(lengths) + 1))
    for entries, row in sorted(rows.items()):
        print(f"| {entries} | " + " | ".join(f"{row[n]:.0f}" for n in lengths) + " |")
print(f"\nbench/instructions: {len(names)} calls counted")
