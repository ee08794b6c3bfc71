#!/usr/bin/env python3
"""Instructions a call of a listing program, by valgrind's callgrind, on four streams of some 60,000 calls (tests/streams.rs, seed 6).

usage: tools/count.py PROGRAM [BASE]     at the top of the repository; with BASE, a program too, the ratios, and whether both print the same
"""
import hashlib, os, re, subprocess, sys

KEPT = "target/count"
KINDS = {"ook": "--kind ook", "fsk": "--kind fsk", "auto": "--kind auto", "short": "--short"}
SIZE = {1: 38, 2: 61, 3: 25, 4: 39}


def stream(kind):
    path = f"{KEPT}/{kind}.bin"
    if not os.path.exists(path):
        os.makedirs(KEPT, exist_ok=True)
        os.makedirs("target/tests", exist_ok=True)
        subprocess.run(["tests/cut", "target/tests/published.rs"], check=True)
        subprocess.run(["rustc", "--edition", "2024", "-O", "tests/streams.rs", "-o", f"{KEPT}/streams"], check=True)
        with open(path, "wb") as out:
            subprocess.run([f"{KEPT}/streams", "--seed", "6", "--calls", "60000", *KINDS[kind].split()], stdout=out, check=True)
    return path


def calls(path):
    b, at, n = open(path, "rb").read(), 0, 0
    while at < len(b):
        at, n = at + SIZE.get(b[at], 1), n + 1
    return n


def counted(program, kind):
    path = stream(kind)
    words = ["valgrind", "--tool=callgrind", "--callgrind-out-file=/dev/null", os.path.abspath(program)]
    r = subprocess.run(words, stdin=open(path, "rb"), capture_output=True)
    m = re.search(rb"Collected : (\d+)", r.stderr)
    if not m or r.returncode:
        sys.exit(r.stderr.decode(errors="replace")[-2000:])
    return int(m[1]) / calls(path), hashlib.sha256(r.stdout).hexdigest()


if len(sys.argv) not in (2, 3):
    sys.exit(__doc__)
for kind in KINDS:
    n, said = counted(sys.argv[1], kind)
    more = ""
    if len(sys.argv) == 3:
        m, told = counted(sys.argv[2], kind)
        more = f"  ratio {n / m:.4f}" + ("" if said == told else "  OTHER OUTPUT")
    print(f"{kind:6} {n:8.2f}{more}", flush=True)
