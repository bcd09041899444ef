"""Lists functions, types and impls of src/ that have one shape: the same text but for words, numbers and strings."""

import collections
import glob
import os
import re

TOP = os.path.join(os.path.dirname(os.path.abspath(__file__)), "..")
HEAD = re.compile(r'^(\s*)(?:pub(?:\(crate\))? |const |extern "C" )*((?:fn|struct|enum|impl)\b.*)')
SHORTEST = 30  # in characters of the shape: shorter ones say nothing


def items(path):
    """Line, head and text of each item of a file."""
    with open(path) as file:
        lines = file.read().split("\n")
    for first, line in enumerate(lines):
        head = HEAD.match(line)
        if head is None:
            continue
        last = first
        while lines[last].rstrip() != head.group(1) + "}" and not line.endswith(";") and last + 1 < len(lines):
            last += 1
        text = "\n".join(l for l in lines[first:last + 1] if not l.strip().startswith("//"))
        yield first + 1, head.group(2), text


def shape(text):
    text = re.sub(r'"[^"]*"', "S", text)
    text = re.sub(r"\b[0-9]\w*\b", "N", text)
    text = re.sub(r"\b[A-Za-z_]\w*\b", "w", text)
    return re.sub(r"\s+", " ", text)


def main():
    found = collections.defaultdict(list)
    for path in sorted(glob.glob(os.path.join(TOP, "crates", "*", "src", "*.rt"))):
        for line, head, text in items(path):
            found[shape(text)].append("%s:%d  %s" % (os.path.relpath(path, TOP), line, head))
    for of_shape, places in found.items():
        if len(places) > 1 and len(of_shape) > SHORTEST:
            print("\n".join(places) + "\n")


if __name__ == "__main__":
    main()
