#!/usr/bin/env python3
"""Prints the tables of bench/run from callgrind's dumps and the times: bench/table.py DUMPS TIMES."""
import glob
import sys

if sys.argv[1:2] in (["-h"], ["--help"]):
    sys.exit(print(__doc__))


def dumps(folder):
    """Instructions by key: a dump's trigger names it."""
    cost = {}
    for path in glob.glob(folder + "/dump.*"):
        key = None
        for line in open(path, errors="replace"):
            if line.startswith("desc: Trigger: Client Request: "):
                key = line.split("Client Request: ")[1].strip()
            if line.startswith(("summary:", "totals:")) and key:
                cost[tuple(key.split())] = int(line.split()[1])
    return cost


def times(path):
    return {tuple(line.split()[:-1]): float(line.split()[-1]) for line in open(path)}


def per(cost, operation, whose, row, tree):
    """What one entry, one search or one commit costs."""
    for key, value in cost.items():
        if key[:3] == (operation, whose, row) and (tree is None or key[3] == tree):
            return value / (1 if operation in COMMITS else int(key[-1]))
    return None


COMMITS = {"commit": ("Commit reading, a commit", ["rust", "libgit2", "sarpukten"]), "recommit": ("Commit writing, a commit", ["rust", "sarpukten"])}

OPERATIONS = {
    "plain": ("Plain reading, an entry", ["rust", "iterator", "libgit2", "sarpukten"]),
    "strict": ("Strict reading, an entry (the rules in Rust over the crate's iterator)", ["rust", "sarpukten"]),
    "find": ("Bisection, a search", ["rust", "libgit2", "sarpukten"]),
    "forty": ("Forty searches in one listing, a search (Sarpukten's single calls, and its one call)", ["rust", "calls", "sarpukten"]),
    "load": ("The loader's path (read strictly, then find one), an entry", ["rust", "libgit2", "sarpukten"]),
    "write": ("Tree writing, an entry", ["rust", "sarpukten"]),
}


def cell(cost, operation, whose, row, tree):
    mine = per(cost, operation, whose, row, tree)
    rust = per(cost, operation, "rust", row, tree)
    if mine is None:
        return "-"
    ratio = f" ({mine / rust:.2f})" if rust and whose != "rust" else ""
    return f"{mine:.0f}{ratio}" if mine >= 20 else f"{mine:.1f}{ratio}"


def show(what, cost):
    print(f"\n## {what}; in brackets the ratio to the Rust\n")
    trees = sorted({key[3] for key in cost if key[0] == "plain"}, key=int)
    names = sorted({key[2] for key in cost if key[0] == "plain"}, key=int)
    for operation, (title, whose) in OPERATIONS.items():
        print(f"{title}\n")
        print("| entries | whose | " + " | ".join(f"{name} bytes" for name in names) + " |")
        print("|---" * (2 + len(names)) + "|")
        for tree in trees:
            for who in whose:
                cells = [cell(cost, operation, who, name, tree) for name in names]
                print(f"| {tree} | {who} | " + " | ".join(cells) + " |")
        print()
    kinds = list(dict.fromkeys((key[2], key[3]) for key in sorted(cost, key=lambda key: (len(key[3]), key[3])) if key[0] == "commit"))
    for operation, (title, whose) in COMMITS.items():
        print(f"{title}\n")
        print("| whose | " + " | ".join(f"{kind}, {size} bytes" for kind, size in kinds) + " |")
        print("|---" * (1 + len(kinds)) + "|")
        for who in whose:
            print(f"| {who} | " + " | ".join(cell(cost, operation, who, kind, size) for kind, size in kinds) + " |")
        print()


show("x86-64 instructions", dumps(sys.argv[1]))
if len(sys.argv) > 2:
    show("Nanoseconds, native, best of the rounds", times(sys.argv[2]))
print(f"bench/run: {len(dumps(sys.argv[1]))} workloads counted, answers compared first")
