"""Makes samples/envelope.bin and samples/closing.bin, an envelope and its message that the
program `verify` of docs/FORMATS.md accepts. The same bytes come out every time."""

import os
import sys

import envelope
import scheme

FOLDER = os.path.join(os.path.dirname(os.path.abspath(__file__)), "..", "samples")
MESSAGE = b"Annual accounts 2023, final.\n"
DAY = bytes.fromhex("E7070C1F")  # 31 December 2023
KEY_KIND = 1
SIGNATURE_KIND = 2


def record(kind, body):
    return bytes([kind]) + body


def make_envelope():
    params, hash = scheme.S16, scheme.shake128
    row = hash(b"sample", params.w + scheme.SEED + params.randomness_length)
    secret, iv = row[:params.w], row[params.w:params.w + scheme.SEED]
    randomness = row[params.w + scheme.SEED:]
    number, public_key = scheme.make_key(params, hash, secret, iv)
    if number != 0:
        raise ValueError("make_key refuses with %d" % number)
    number, signature = scheme.sign(params, hash, secret, public_key, MESSAGE, randomness)
    if number != 0:
        raise ValueError("sign refuses with %d" % number)
    day = record(envelope.DAY, DAY)
    return day + record(KEY_KIND, public_key) + record(SIGNATURE_KIND, signature)


def check_envelope(data):
    """Reads the envelope back and checks its signature as `verify` does."""
    answer, *judged = envelope.judge(data)
    if answer != "ok":
        raise ValueError("the envelope is refused: " + envelope.refusal_line(tuple(judged)))
    set_name, public_key, signature, _ = judged
    params = scheme.SETS[set_name]
    number = scheme.check(params, scheme.shake128, public_key, MESSAGE, signature)
    if number != 0:
        raise ValueError("check refuses with %d" % number)


def write(name, data):
    with open(os.path.join(FOLDER, name), "wb") as file:
        file.write(data)


def main():
    data = make_envelope()
    check_envelope(data)
    os.makedirs(FOLDER, exist_ok=True)
    write("envelope.bin", data)
    write("closing.bin", MESSAGE)
    print("wrote samples/envelope.bin (%d bytes) and samples/closing.bin (%d bytes)"
          % (len(data), len(MESSAGE)))
    return 0


if __name__ == "__main__":
    sys.exit(main())
