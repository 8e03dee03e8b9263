"""Trees and commits that Git itself makes, in small repositories in temporary folders. Same names, same dates, same objects."""
import os
import subprocess
import tempfile

# What Git calls for a signature: the text is no signature, Git does not look at it.
SIGN = """#!/bin/sh
cat >/dev/null
echo "[GNUPG:] SIG_CREATED " >&2
printf -- '-----BEGIN PGP SIGNATURE-----\\n\\nabc\\n=def\\n-----END PGP SIGNATURE-----\\n'
"""
TAG = "object %s\ntype commit\ntag t\ntagger T <t@x> 1700000000 +0100\n\nm\n-----BEGIN PGP SIGNATURE-----\n\nabc\n-----END PGP SIGNATURE-----\n"
NAMES = ["a", "a.b", "a0", "a-", "ab", "B", "with space", "\u00e9", "line\nfeed", "d/x", "d/y/z", "d.e", "d0", "e/.gitx", "long" * 30]


def objects(h):
    """All trees and commits of the repository, as (kind, bytes), in the order of their ids."""
    with tempfile.TemporaryDirectory() as folder:
        env = dict(PATH=os.environ["PATH"], HOME=folder, GIT_CONFIG_NOSYSTEM="1", LC_ALL="C.UTF-8", TZ="UTC",
                   GIT_AUTHOR_NAME="A U Thor", GIT_AUTHOR_EMAIL="a@x", GIT_AUTHOR_DATE="1700000000 +0530",
                   GIT_COMMITTER_NAME="C \u00d3 Mitter", GIT_COMMITTER_EMAIL="c@y", GIT_COMMITTER_DATE="1700000001 -0800")

        def git(*words, text=""):
            run = subprocess.run(["git", *words], cwd=folder, env=env, input=text.encode(), stdout=subprocess.PIPE, stderr=subprocess.DEVNULL, check=True)
            return run.stdout

        def line(*words, text=""):
            return git(*words, text=text).decode().strip()

        git("init", "-q", "-b", "main", "--object-format=" + {20: "sha1", 32: "sha256"}[h])
        sign = os.path.join(folder, "sign")
        with open(sign, "w") as f:
            f.write(SIGN)
        os.chmod(sign, 0o755)

        blob = line("hash-object", "-w", "--stdin", text="x")
        for i, name in enumerate(NAMES):
            mode = ["100644", "100755", "120000"][i % 3]
            git("update-index", "--add", "--cacheinfo", f"{mode},{blob},{name}")
        git("update-index", "--add", "--cacheinfo", f"160000,{blob},sub")      # a submodule: any id will do
        tree, empty = line("write-tree"), line("mktree")

        one = line("commit-tree", tree, text="first\n\nbody\n")
        two = line("commit-tree", empty, "-p", one, text="")
        three = line("-c", "i18n.commitEncoding=ISO-8859-1", "commit-tree", tree, "-p", one, text="coded\n")
        line("commit-tree", tree, "-p", one, "-p", two, "-p", three, text="three parents")
        line("-c", "gpg.program=" + sign, "commit-tree", "-Skey", tree, "-p", two, text="signed\n")
        line("-c", "gpg.program=" + sign, "-c", "i18n.commitEncoding=KOI8-R", "commit-tree", "-Skey", tree, text=" signed, coded\n")
        # A merge of a signed tag: Git puts the tag into the header.
        git("update-ref", "refs/tags/t", line("hash-object", "-t", "tag", "-w", "--stdin", text=TAG % three))
        git("reset", "-q", "--hard", two)
        git("merge", "-q", "--no-ff", "-m", "merged", "t")

        found = []
        for id in line("cat-file", "--batch-all-objects", "--batch-check=%(objectname) %(objecttype)").splitlines():
            id, kind = id.split()
            if kind in ("tree", "commit"):
                found.append((kind, git("cat-file", kind, id)))
        return found


def printed(script, names):
    """What git_trees or git_commits prints: (name, H, bytes) of each object, a line with its size ahead of its bytes, and an LF behind."""
    run = subprocess.run([os.path.join(os.path.dirname(os.path.abspath(__file__)), script)], stdout=subprocess.PIPE, stderr=subprocess.DEVNULL, check=True)
    rest = run.stdout
    for name in names:
        for h in (20, 32):
            line, rest = rest.split(b"\n", 1)
            size = int(line.split(b" ")[2])
            yield name, h, rest[:size]
            rest = rest[size + 1:]
    assert rest == b""


def trees():
    return printed("git_trees", ["empty", "modes", "names", "twice", "large"])


def commits():
    return printed("git_commits", ["root", "one", "two", "three", "coded", "signed", "tagged", "full", "silent", "unended", "empty", "upper",
                                   "nowhere", "late", "spaced"])
