"""What times the built program beside the plain Rust kernel of bench/plain."""
import os
import resource
import shutil
import subprocess
import sys
import time

ROOT = os.path.dirname(os.path.dirname(os.path.abspath(__file__)))
PROGRAM = os.path.join(ROOT, "crates", "jetlab", "out", "jetlab")
PRESSED = b"system frames 12 target 10 inactive 4 store 6 critical 0 delay 4"


def run(words, data):
    """The output, the seconds of the clock and of the processor."""
    before = resource.getrusage(resource.RUSAGE_CHILDREN)
    start = time.monotonic()
    done = subprocess.run(words, input=data, stdout=subprocess.PIPE, check=True)
    clock = time.monotonic() - start
    after = resource.getrusage(resource.RUSAGE_CHILDREN)
    used = after.ru_utime + after.ru_stime - before.ru_utime - before.ru_stime
    return done.stdout, clock, used


def pressed(text):
    """The same scripts with few frames."""
    lines = text.split(b"\n")
    lines[1] = PRESSED
    return b"\n".join(lines)


def plain_kernel(folder):
    """The plain kernel, built into a folder."""
    if shutil.which("rustc") is None:
        sys.exit("rustc is wanted, for the plain version")
    plain = os.path.join(folder, "plain")
    source = os.path.join(ROOT, "bench", "plain", "main.rs")
    subprocess.run(["rustc", "-O", "--edition", "2021", "-o", plain, source], check=True)
    return plain
