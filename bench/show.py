"""Times the program show against bench/show.c on the largest inputs, in one run.

A run is a whole process, so each program's time for an empty input is taken off: what is left is
its own time for the input. Build the program first, with `rt run` in crates/show."""

import os
import statistics
import subprocess
import tempfile
import time

ROOT = os.path.join(os.path.dirname(os.path.abspath(__file__)), "..")
RUNS = 400
INPUTS = {
    "empty": b"",
    "1,638 days, 8,190 bytes": bytes.fromhex("05e7070c1f") * 1638,
    "72 records, 8,192 bytes": (
        b"\2" + bytes(5904) + 3 * (b"\4" + bytes(648)) + 68 * bytes.fromhex("05e7070c1f")
    ),
    "garbage in pairs, 8,192 bytes": b"\0\7" * 4096,
    "known kind, then garbage, 8,192 bytes": b"\5\7" * 4096,
}


def build(folder):
    baseline = os.path.join(folder, "show_c")
    subprocess.run(["cc", "-O3", "-o", baseline, os.path.join(ROOT, "bench", "show.c")], check=True)
    return {"show": os.path.join(ROOT, "crates", "show", "out", "show"), "C": baseline}


def run_once(program, path):
    with open(path, "rb") as file:
        start = time.perf_counter()
        done = subprocess.run([program], stdin=file, stdout=subprocess.PIPE, check=True)
        return time.perf_counter() - start, done.stdout


def main():
    with tempfile.TemporaryDirectory() as folder:
        programs = build(folder)
        spent = {}
        for number, (name, data) in enumerate(INPUTS.items()):
            path = os.path.join(folder, str(number))
            with open(path, "wb") as file:
                file.write(data)
            times = {program: [] for program in programs}
            for _ in range(RUNS):
                outputs = set()
                for program, binary in programs.items():
                    seconds, output = run_once(binary, path)
                    times[program].append(seconds)
                    outputs.add(output)
                assert len(outputs) == 1, name
            spent[name] = {program: statistics.median(of) for program, of in times.items()}
        for name, of in spent.items():
            show = of["show"] - spent["empty"]["show"]
            c = of["C"] - spent["empty"]["C"]
            print("%-40s show %6.0f us (own %5.0f)   C %6.0f us (own %5.0f)   ratio %.2f"
                  % (name, of["show"] * 1e6, show * 1e6, of["C"] * 1e6, c * 1e6,
                     of["show"] / of["C"]))


if __name__ == "__main__":
    main()
