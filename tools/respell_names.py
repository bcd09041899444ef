#!/usr/bin/env python3
"""Respells the names of this repository's own definitions and lemmas: words are joined by an underscore, and a dash
only joins the names of two definitions, as in `length-digest`.

usage: python3 tools/respell_names.py, at the top of the repository, once, after the kit's own script. It prints how
often each name was found, and stops before it writes if a new name would fall together with another.
"""
import collections
import glob
import re
import sys

# Dashes between plain words become underscores.
SNAKE = """
refusal-line
byte-first byte-among more-seen counts-not same-set-true same-set-same coupled-from couples-from couple-from
judged-exact after-step then-on cut-from body-long as-key as-signature as-day few-days key-item signature-item
couple-items couple-of key-length signature-length kind-byte body-length kind-among kind-of fault-at next-body
next-kind next-at reading-within reading-from part-item part-day of-keys of-signatures of-days
line-more line-last line-feed head-line record-line
bit-of and-half xor-half by-halves choice-bit choice-is majority-bit majority-is past-none front-from unread-gives
unread-none unread-fresh gives-rest blocks-give round-order sum-last round-sum rounds-sums four-sums rounds-longer
one-round no-round word-order sum-zero schedule-four following-words following-is rounds-more rounds-all part-is
lane-digits holding-more after-halves holding-none absorbed-block distance-from round-constant lanes-of χ-row
mgf1-over mask-from primes-from first-primes root-from chain-bytes digest-from same-padding hashed-block hashed-one
digest-block padding-is digest-short digest-long marked-is count-bytes chain-bytes-more chain-bytes-all digest-below
lane-bytes state-bytes permuted-times sponge-block sponge-last padded-is marked-block digits-below lanes-below
state-below shake128-below first-bytes working-of window-of
""".split()

# A dash stays, or comes, between the names of two definitions.
DASHED = {
    "kind-of-byte": "kind_of-kind_byte",
    "length_front": "length-front",
    "length_marked": "length-marked",
    "length-big-endian": "length-big_endian",
    "length-chain-bytes": "length-chain_bytes",
}

# What a name ends at.
EDGE = r"[\s(){}.,;:\[\]\"`]"


def new_names():
    names = {name: name.replace("-", "_") for name in SNAKE}
    names.update(DASHED)
    return names


def files():
    for pattern in ("crates/*/src/**/*.rt", "crates/*/specs/**/*.antt", "crates/*/proofs/**/*.antt"):
        yield from sorted(glob.glob(pattern, recursive=True))


def respelled(text, names, found):
    def swap(match):
        found[match.group(0)] += 1
        return names[match.group(0)]

    longest_first = sorted(names, key=len, reverse=True)
    words = "|".join(re.escape(name) for name in longest_first)
    return re.sub(rf"(?:^|(?<={EDGE}))(?:{words})(?=$|{EDGE})", swap, text, flags=re.M)


def main():
    names = new_names()
    texts = {}
    for path in files():
        with open(path, encoding="utf-8") as f:
            texts[path] = f.read()
    clashes = []
    for name, new in names.items():
        declared = re.compile(rf"^\s*(?:(?:abbrev|unfoldable|pub|ghost) )*{re.escape(new)} :(?!:)", re.M)
        clashes += [f"{path}: {name} would fall together with {new}" for path, text in texts.items() if declared.search(text)]
    if clashes:
        print("\n".join(clashes), file=sys.stderr)
        return 1
    found = collections.Counter()
    for path, text in texts.items():
        changed = respelled(text, names, found)
        if changed != text:
            with open(path, "w", encoding="utf-8") as f:
                f.write(changed)
    for name, new in names.items():
        print(f"{found[name]:4} {name} -> {new}")
    return 0


if __name__ == "__main__":
    sys.exit(main())
