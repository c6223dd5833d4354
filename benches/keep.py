"""Keeps what a bench prints in a file of `benches/kept`, below the machine and the commit that it was run on.

Run as: python3 benches/keep.py BENCH [WORDS..]

BENCH is `beside`, `check`, `proofs`, `second` or `times`, whose WORDS come behind it. The file has its name, and is
written once the bench has ended; a program among WORDS is told by its checksum alone.
"""

import argparse
import hashlib
import os
import platform
import re
import subprocess
import sys
import time
from pathlib import Path

sys.dont_write_bytecode = True  # leaves no compiled files beside the sources

ROOT = Path(__file__).resolve().parent.parent
BENCHES = {name: [sys.executable, f"benches/{name}.py"] for name in ("beside", "check", "proofs", "second")}
BENCHES["times"] = ["benches/times.sh"]
BUILT = ROOT / "crates/skewcheck/out/skewcheck"


def git(*words):
    """What git says in the repository."""
    return subprocess.run(["git", *words], cwd=ROOT, capture_output=True, text=True, check=True).stdout.strip()


def machine():
    """The processors and the memory of this machine, and how busy it is."""
    models = re.findall(r"^model name\s*: (.*)$", Path("/proc/cpuinfo").read_text(), re.M)
    memory = int(re.search(r"^MemTotal:\s*(\d+)", Path("/proc/meminfo").read_text(), re.M)[1]) / 1024 / 1024
    model = models[0] if models else platform.machine()
    return f"{os.cpu_count()} processors, {model}; {memory:.0f} GiB; a load of {os.getloadavg()[0]:.1f} when it began"


def head(bench, words):
    """The lines above what a bench prints."""
    programs = [word for word in words if Path(word).is_file()]
    changed = len([line for line in git("status", "--porcelain", "--", "crates", "benches").splitlines() if "kept/" not in line])
    yield f"command: {' '.join([bench, *(word for word in words if word not in programs)])}"
    yield f"commit: {git('rev-parse', '--short', 'HEAD')}" + (f", and {changed} changed files of crates and benches" if changed else "")
    yield f"machine: {machine()}"
    for program in programs or ([BUILT] if BUILT.is_file() else []):
        yield f"program: SHA-256 {hashlib.sha256(Path(program).read_bytes()).hexdigest()[:16]}"
    yield time.strftime("begun: %Y-%m-%d %H:%M UTC", time.gmtime())


def main():
    """Runs the bench, keeps what it prints, and ends as it does."""
    parser = argparse.ArgumentParser(description="keep what a bench prints")
    parser.add_argument("bench", choices=BENCHES)
    parser.add_argument("words", nargs=argparse.REMAINDER, help="the words of the bench")
    arguments = parser.parse_args()
    lines = list(head(arguments.bench, arguments.words))
    words = [os.path.abspath(word) if Path(word).is_file() else word for word in arguments.words]
    done = subprocess.run([*BENCHES[arguments.bench], *words], cwd=ROOT, stdin=subprocess.DEVNULL, stdout=subprocess.PIPE, text=True)
    kept = ROOT / "benches" / "kept" / f"{arguments.bench}.txt"
    kept.parent.mkdir(exist_ok=True)
    kept.write_text("\n".join([*lines, "", done.stdout]))
    print(kept.relative_to(ROOT))
    return done.returncode


if __name__ == "__main__":
    sys.path.insert(0, str(Path(__file__).resolve().parents[1] / "tests"))
    import ends

    ends.run(main)
