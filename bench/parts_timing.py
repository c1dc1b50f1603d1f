"""Times a part of the fast kernel beside a plain Rust version of the same arrays.

Both programs do the same random operations and print the checksum of what was answered. What is told is the
least processor time of several runs, less that of a run without operations.
"""
import os
import shutil
import subprocess
import sys
import tempfile

ROOT = os.path.dirname(os.path.dirname(os.path.abspath(__file__)))
CRATE = os.path.join(ROOT, "crates", "parts_bench")
PLAIN = os.path.join(ROOT, "bench", "plain", "main.rs")
# As `rt run` builds: for the same processors, all of the program at once.
RUSTC_OPTIONS = ["--edition", "2024", "-C", "opt-level=3", "-C", "codegen-units=1", "-C", "target-cpu=x86-64-v2"]
ROUNDS = 15
MOST_RATIO = 1.5


def built(folder):
    """The program that `rt run` builds, and the plain one, built into a folder."""
    subprocess.run(["rt", "run", "--", "lists", "1"], check=True, cwd=CRATE, stdout=subprocess.DEVNULL)
    if shutil.which("rustc") is None:
        sys.exit("rustc is wanted, for the plain version")
    plain = os.path.join(folder, "plain")
    subprocess.run(["rustc", *RUSTC_OPTIONS, "-o", plain, PLAIN], check=True)
    return os.path.join(CRATE, "out", "parts_bench"), plain


def run(program, part, operations):
    """Processor seconds and checksum of one run."""
    child = subprocess.Popen([program, part, str(operations)], stdout=subprocess.PIPE)
    checksum = child.stdout.read()
    child.stdout.close()
    _, status, usage = os.wait4(child.pid, 0)
    child.returncode = status
    if status != 0:
        sys.exit("%s %s ended with status %d" % (program, part, status))
    return usage.ru_utime + usage.ru_stime, checksum


def least_times(programs, part, operations):
    """For each program the least seconds; the runs take turns, and all have one checksum."""
    times = [[] for _ in programs]
    checksums = set()
    for _ in range(ROUNDS):
        for program, seconds in zip(programs, times):
            start, _ = run(program, part, 0)
            whole, checksum = run(program, part, operations)
            seconds.append((whole, start))
            checksums.add(checksum)
    if len(checksums) != 1:
        sys.exit("%s: the checksums differ" % part)
    return [min(w for w, _ in s) - min(s0 for _, s0 in s) for s in times]


def compare(parts, operations, least_rate=0):
    """Prints a line for each part; ends with 1 where one is slower than it may be."""
    is_met = True
    with tempfile.TemporaryDirectory() as folder:
        programs = built(folder)
        for part in parts:
            proved, plain = least_times(programs, part, operations)
            rate = operations / proved / 1e6
            ratio = proved / plain
            print("%s: %d operations, proved %.1f ms, plain %.1f ms, ratio %.2f, %.1f million a second"
                  % (part, operations, proved * 1e3, plain * 1e3, ratio, rate))
            is_met = is_met and ratio <= MOST_RATIO and rate >= least_rate
    if not is_met:
        sys.exit("slower than at most %.1f times the plain version, or than %d million a second" % (MOST_RATIO, least_rate))
