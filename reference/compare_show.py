"""Compares the program `show` with envelope.py on envelopes from a seeded random generator."""

import argparse
import random
import subprocess
import sys

import envelope

KINDS = sorted(envelope.LENGTHS)
LIMIT = envelope.SHOW_LIMIT
LARGEST = 200_000
STRAY = [0, 6, 255] + KINDS
WEIGHTS = [4, 1, 4, 2, 8]
WEIGHTS_OF_MANY = [1, 0, 2, 0, 30]
TIMEOUT = 20


def record(rng, kind):
    length = envelope.LENGTHS[kind]
    if rng.random() < 0.25:
        body = bytes([rng.choice(STRAY)]) * length
    else:
        body = rng.randbytes(length)
    return bytes([kind]) + body


def records(rng):
    """A list of whole records, mostly few, at times hundreds, at most LIMIT bytes together."""
    count = rng.choices([rng.randint(0, 6), rng.randint(7, 60), rng.randint(200, 1638)],
                        [12, 4, 3])[0]
    weights = WEIGHTS_OF_MANY if count >= 200 else WEIGHTS
    if count >= 200 and rng.random() < 0.3:
        weights = [0, 0, 0, 0, 1]
    result = []
    size = 0
    for kind in rng.choices(KINDS, weights, k=count):
        if size + 1 + envelope.LENGTHS[kind] <= LIMIT:
            result.append(record(rng, kind))
            size += len(result[-1])
    return result


def records_of_size(rng, size):
    """A list of whole records of exactly `size` bytes together; `size` is at least 68."""
    result = []
    while rng.random() < 0.99:
        new = record(rng, rng.choices(KINDS, WEIGHTS)[0])
        if size - len(new) >= 68:
            result.append(new)
            size -= len(new)
    # Every number from 68 on is a sum of fives and eighteens: records of kinds 5 and 3.
    while size % 5:
        result.append(record(rng, 3))
        size -= 18
    result += [record(rng, 5) for _ in range(size // 5)]
    rng.shuffle(result)
    return result


def some_records(rng):
    return records(rng) or [record(rng, rng.choice(KINDS))]


def tiny(rng):
    if rng.random() < 0.1:
        return b""
    return bytes([rng.choice([rng.choice(STRAY), rng.randrange(256)])])


def garbage(rng):
    data = rng.randbytes(rng.choice([rng.randint(2, 40), rng.randint(2, LIMIT)]))
    if rng.random() < 0.5:
        data = bytes([rng.choice(KINDS)]) + data[1:]
    return data


def well_formed(rng):
    return b"".join(records(rng))


def truncated(rng):
    data = b"".join(some_records(rng))
    return data[:rng.randrange(len(data))]


def one_changed(rng):
    parts = some_records(rng)
    data = bytearray(b"".join(parts))
    if rng.random() < 0.5:
        at = len(b"".join(parts[:rng.randrange(len(parts))]))
    else:
        at = rng.randrange(len(data))
    new = rng.choice([rng.choice(STRAY), rng.randrange(256)])
    data[at] = new if new != data[at] else new ^ 1 << rng.randrange(8)
    return bytes(data)


def stray_inserted(rng):
    parts = records(rng)
    parts.insert(rng.randint(0, len(parts)), bytes([rng.choice(STRAY)]))
    return b"".join(parts)


def near_limit(rng):
    size = rng.randint(LIMIT - 2, LIMIT + 2)
    way = rng.randrange(3)
    if way == 0:
        return b"".join(records_of_size(rng, size))
    if way == 1:
        return b"".join(records_of_size(rng, size + rng.randint(1, 30)))[:size]
    return bytes([rng.choice(STRAY)]) + rng.randbytes(size - 1)


def large(rng):
    size = rng.choice([rng.randint(LIMIT + 3, 4 * LIMIT), rng.randint(4 * LIMIT, LARGEST)])
    if rng.random() < 0.5:
        return rng.randbytes(size)
    return b"".join(records_of_size(rng, size))


MAKERS = [tiny, garbage, well_formed, well_formed, truncated, one_changed, stray_inserted,
          near_limit, large]


def run(program, data):
    """What the program writes on standard output, and its exit status."""
    try:
        done = subprocess.run([program], input=data, capture_output=True, timeout=TIMEOUT)
    except subprocess.TimeoutExpired:
        return b"", "none after %d seconds" % TIMEOUT
    return done.stdout, done.returncode


def main():
    parser = argparse.ArgumentParser(description=__doc__)
    parser.add_argument("--program", default="crates/show/out/show")
    parser.add_argument("--count", type=int, default=2000)
    parser.add_argument("--seed", type=int, default=None)
    options = parser.parse_args()
    seed = options.seed
    if seed is None:
        seed = random.SystemRandom().randrange(2 ** 32)
    print("seed %d" % seed, flush=True)
    rng = random.Random(seed)
    for number in range(options.count):
        maker = MAKERS[number % len(MAKERS)]
        data = maker(rng)
        expected = (envelope.show(data), 0)
        try:
            found = run(options.program, data)
        except OSError as error:
            print("cannot run %s: %s" % (options.program, error), file=sys.stderr)
            return 2
        if found != expected:
            print("difference at envelope %d (%s), %d bytes:"
                  % (number, maker.__name__, len(data)))
            print(data.hex())
            print("expected status %s, output:\n%s" % (expected[1], expected[0].decode()))
            print("found status %s, output:\n%s"
                  % (found[1], found[0].decode("ascii", "backslashreplace")))
            return 1
    print("%d envelopes, 0 differences" % options.count)
    return 0


if __name__ == "__main__":
    sys.exit(main())
