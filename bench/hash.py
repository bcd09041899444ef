"""Times crate hash against OpenSSL, and prints ratios: above 1, OpenSSL is faster.

OpenSSL looks once, at its start, which instructions it may use. So the harness hash.c runs in
processes of two kinds, with and without OpenSSL's SHA instructions, which take turns. Build the
library first, with `rt lib` in crates/hash_c."""

import os
import statistics
import subprocess
import sys
import tempfile

BENCH = os.path.dirname(os.path.abspath(__file__))
LIBRARY = os.path.join(BENCH, "..", "crates", "hash_c", "out", "libhash_c.a")
TURNS = 5
WITH, WITHOUT = "with", "without"
CAPABILITIES = {WITH: None, WITHOUT: ":~0x20000000"}  # all, or all but the SHA instructions
SHORT_CASE = "SHAKE128, 53 bytes in 5 pieces, read 112"
PERMUTATION = "Keccak permutation"
LONG_SHA256 = "SHA-256, feed 1 MiB"


def build(folder):
    harness = os.path.join(folder, "hash")
    sources = [os.path.join(BENCH, "hash.c"), LIBRARY]
    subprocess.run(["cc", "-O3", "-o", harness] + sources + ["-lcrypto"], check=True)
    return harness


def run_once(harness, capabilities):
    """Measure to the bytes of a call, and our and OpenSSL's time in nanoseconds."""
    environment = {name: value for name, value in os.environ.items() if name != "OPENSSL_ia32cap"}
    if capabilities is not None:
        environment["OPENSSL_ia32cap"] = capabilities
    done = subprocess.run([harness], env=environment, stdout=subprocess.PIPE, check=True, text=True)
    lines = [line.split("\t") for line in done.stdout.splitlines()]
    return {name: (int(size), float(ours), float(theirs)) for name, size, ours, theirs in lines}


def run_all(harness):
    """For each kind of process, measure to the medians over all its runs."""
    runs = {kind: [] for kind in CAPABILITIES}
    for _ in range(TURNS):
        for kind, capabilities in CAPABILITIES.items():
            runs[kind].append(run_once(harness, capabilities))
    return {
        kind: {name: tuple(map(statistics.median, zip(*(run[name] for run in of_kind))))
               for name in of_kind[0]}
        for kind, of_kind in runs.items()
    }


def speed(size, nanoseconds):
    return "%5.0f MB/s" % (size / nanoseconds * 1e3)


def print_ratio(name, measured):
    size, ours, theirs = measured
    print("%-52s ours %s   OpenSSL %s   ratio %.2f"
          % (name, speed(size, ours), speed(size, theirs), ours / theirs))


def print_table(medians):
    for name, measured in medians[WITH].items():
        if name in (SHORT_CASE, PERMUTATION):
            continue
        if "SHA-256" not in name:
            print_ratio(name, measured)
            continue
        print_ratio(name + ", SHA instructions", measured)
        print_ratio(name + ", no SHA instructions", medians[WITHOUT][name])
    _, permutation, _ = medians[WITH][PERMUTATION]
    _, ours, theirs = medians[WITH][SHORT_CASE]
    print("%-52s ours %5.0f ns" % (PERMUTATION, permutation))
    print("%-52s ours %5.0f ns     OpenSSL %5.0f ns     ratio %.2f"
          % (SHORT_CASE, ours, theirs, ours / theirs))
    print("%-52s ratio %.2f" % ("the same, to one permutation of ours", ours / permutation))


def check_kinds(medians):
    """Where the processor has no SHA instructions, or OpenSSL kept them, the two kinds are one."""
    _, _, with_sha = medians[WITH][LONG_SHA256]
    _, _, without_sha = medians[WITHOUT][LONG_SHA256]
    if without_sha < 1.5 * with_sha:
        print("OpenSSL's SHA-256 is as fast without SHA instructions: these lines are one measure")


def main():
    if not os.path.exists(LIBRARY):
        print("crates/hash_c/out/libhash_c.a is missing: run `rt lib` in crates/hash_c", file=sys.stderr)
        return 1
    with tempfile.TemporaryDirectory() as folder:
        medians = run_all(build(folder))
    print_table(medians)
    check_kinds(medians)
    return 0


if __name__ == "__main__":
    sys.exit(main())
