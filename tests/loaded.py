"""libsarpukten.a as a library that a test in Python calls: `lib = loaded.library()`.

On a machine that is not x86-64 the test starts again under QEMU's user emulator, where times say nothing, in a Python for x86-64: SARPUKTEN_GIT2 is a
folder into which the amd64 packages of python3.11-minimal, libpython3.11-minimal, libpython3.11-stdlib, libffi8, libc6, zlib1g and libexpat1 were
unpacked (`dpkg -x`).
"""
import ctypes
import os
import pathlib
import platform
import subprocess
import sys

ROOT = pathlib.Path(__file__).resolve().parent.parent


def library():
    name = pathlib.Path(sys.argv[0]).name
    asked = subprocess.run([ROOT / "tests/library"], stdout=subprocess.PIPE, text=True)
    if asked.returncode:
        sys.exit(1)
    folder = asked.stdout.strip()
    if platform.machine() != "x86_64":
        unpacked = os.environ.get("SARPUKTEN_GIT2") or "/nowhere"
        pythons = sorted(pathlib.Path(unpacked).glob("usr/bin/python3.[0-9]*"))
        if not pythons:
            sys.exit(f"{name}: the library is for x86-64: SARPUKTEN_GIT2 has to name a folder with a Python for it (the head of tests/loaded.py)")
        for command in ("qemu-x86_64", "x86_64-linux-gnu-gcc"):
            if subprocess.run(["which", command], stdout=subprocess.DEVNULL).returncode:
                sys.exit(f"{name}: the command {command} is needed (qemu-user, gcc-x86-64-linux-gnu)")
        environment = {**os.environ, "SARPUKTEN_LIB": folder, "CC": "x86_64-linux-gnu-gcc"}
        os.execvpe("qemu-x86_64", ["qemu-x86_64", "-L", unpacked, str(pythons[-1]), *sys.argv], environment)
    made = ROOT / "target/tests" / f"{name}.so"
    made.parent.mkdir(parents=True, exist_ok=True)
    compiler = os.environ.get("CC", "cc")
    subprocess.run([compiler, "-shared", "-o", made, "-Wl,--whole-archive", f"{folder}/libsarpukten.a", "-Wl,--no-whole-archive"], check=True)
    return ctypes.CDLL(str(made))
