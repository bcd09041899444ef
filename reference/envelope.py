"""An implementation of the envelope of docs/FORMATS.md that shares nothing with the crates,
for comparison. As a script it behaves as the program `show`."""

import os
import sys

LENGTHS = {1: 32, 2: 5904, 3: 17, 4: 648, 5: 4}
KEYS = {1: "S16", 3: "R"}
SIGNATURES = {2: "S16", 4: "R"}
DAY = 5
UNKNOWN_KIND = 12
BODY_CUT_SHORT = 13
NOT_ONE_COUPLE = 14
SHOW_LIMIT = 8192


def read(data):
    """The whole records (place, kind, body), and the fault (number, layer, place) or None."""
    records = []
    place = 0
    while place < len(data):
        kind = data[place]
        if kind not in LENGTHS:
            return records, (UNKNOWN_KIND, "E", place)
        end = place + 1 + LENGTHS[kind]
        if end > len(data):
            return records, (BODY_CUT_SHORT, "E", place)
        records.append((place, kind, data[place + 1:end]))
        place = end
    return records, None


def judge(data):
    """("ok", set, key, signature, signature's place) or ("refused", number, layer, place)."""
    records, fault = read(data)
    if fault is not None:
        return ("refused", *fault)
    keys = [(KEYS[kind], body) for _, kind, body in records if kind in KEYS]
    signatures = [
        (SIGNATURES[kind], body, place) for place, kind, body in records if kind in SIGNATURES
    ]
    days = sum(kind == DAY for _, kind, _ in records)
    if len(keys) == 1 and len(signatures) == 1 and days <= 1:
        key_set, key = keys[0]
        signature_set, signature, place = signatures[0]
        if key_set == signature_set:
            return ("ok", key_set, key, signature, place)
    return ("refused", NOT_ONE_COUPLE, "E", len(data))


def refusal_line(fault):
    return "refusal %d layer %s place %d" % fault


def show(data):
    """What `show` writes on standard output for this input."""
    if len(data) > SHOW_LIMIT:
        lines = ["file too long"]
    else:
        records, fault = read(data)
        lines = ["place kind length"]
        lines += ["%d %d %d" % (place, kind, len(body)) for place, kind, body in records]
        lines.append("records %d" % len(records) if fault is None else refusal_line(fault))
    return "".join(line + "\n" for line in lines).encode("ascii")


def read_input(limit):
    """Standard input to its end, but at most `limit` bytes."""
    if sys.stdin is None:
        raise OSError("standard input is closed")
    data = b""
    while len(data) < limit:
        piece = os.read(0, limit - len(data))
        if not piece:
            break
        data += piece
    return data


def main():
    try:
        data = read_input(SHOW_LIMIT + 1)
    except OSError as error:
        print("show: cannot read standard input: %s" % error, file=sys.stderr)
        return 1
    sys.stdout.buffer.write(show(data))
    return 0


if __name__ == "__main__":
    sys.exit(main())
