"""Makes the stored run of the program `hash_vectors`: crates/hash_vectors/stdin and stdout.

Published vectors come first, each held to its published answer; the rest are made cases. All
answers come from hashlib. With --check nothing is written, and the stored files are compared.

A line of stdin is one case, four words with one space between them:

    ALGORITHM MESSAGE FEEDS READS

MESSAGE is `hex:` and the bytes in hex, or `repeat:BYTE*COUNT` with the byte in hex, or `count:N`:
N bytes, of which number i is (i*i + 7*i + i/256 + N) mod 256, divided without remainder.
FEEDS is `all`, or the lengths of the pieces that are fed, used again from the first one until the
message ends; the last piece is cut where the message ends.
READS is the lengths of the pieces that are read, and for `sha256` the word `digest`.

A line of stdout is the line of stdin, a space, and all bytes read in hex, or `-` if there are none.
"""

import argparse
import hashlib
import itertools
import os
import sys
from collections import namedtuple

FOLDER = os.path.join(os.path.dirname(os.path.abspath(__file__)), "..", "crates", "hash_vectors")

Case = namedtuple("Case", "algorithm message feeds reads")


def shake128(message, length):
    return hashlib.shake_128(message).digest(length)


def mgf1_sha256(seed, length):
    """MGF1 of RFC 8017, appendix B.2.1, with SHA-256."""
    mask = b""
    counter = 0
    while len(mask) < length:
        mask += hashlib.sha256(seed + counter.to_bytes(4, "big")).digest()
        counter += 1
    return mask[:length]


ENDLESS = {
    "shake128": shake128,
    "mgf1": mgf1_sha256,
    "buffered-shake128": shake128,
    "buffered-mgf1": mgf1_sha256,
}


# Published vectors: algorithm, message, answer.

def text(ascii):
    return "hex:" + ascii.encode().hex()


PUBLISHED = [
    # NIST, examples with intermediate values for SHA-256
    ("sha256", text("abc"),
     "ba7816bf8f01cfea414140de5dae2223b00361a396177a9cb410ff61f20015ad"),
    ("sha256", text("abcdbcdecdefdefgefghfghighijhijkijkljklmklmnlmnomnopnopq"),
     "248d6a61d20638b8e5c026930c3e6039a33ce45964ff2167f6ecedd419db06c1"),
    ("sha256", text("abcdefghbcdefghicdefghijdefghijkefghijklfghijklmghijklmn"
                    "hijklmnoijklmnopjklmnopqklmnopqrlmnopqrsmnopqrstnopqrstu"),
     "cf5b16a778af8380036ce59e7b0492370b249b11e8f07a51afac45037afee9d1"),
    ("sha256", "repeat:61*1000000",
     "cdc76e5c9914fb9281a1c7e284d73e67f1809a48a497200e046d39ccc7112cd0"),
    # NIST, additional examples for SHA-256
    ("sha256", "hex:bd",
     "68325720aabd7c82f30f554b313d0570c95accbb7dc4b5aae11204c08ffe732b"),
    ("sha256", "hex:c98c8e55",
     "7abc22c0ae5af26ce93dbb94433a0e0b2e119d014f8e7f65bd56c61ccccd9504"),
    ("sha256", "repeat:00*55",
     "02779466cdec163811d078815c633f21901413081449002f24aa3e80f0b88ef7"),
    ("sha256", "repeat:00*56",
     "d4817aa5497628e7c77e6b606107042bbba3130888c5f47a375e6179be789fbb"),
    ("sha256", "repeat:00*57",
     "65a16cb7861335d5ace3c60718b5052e44660726da4cd13bb745381b235a1785"),
    ("sha256", "repeat:00*64",
     "f5a5fd42d16a20302798ef6ed309979b43003d2320d9f0e8ea9831a92759fb4b"),
    ("sha256", "repeat:00*1000",
     "541b3e9daa09b20bf85fa273e5cbd3e80185aa4ec298e765db87742b70138a53"),
    ("sha256", "repeat:41*1000",
     "c2e686823489ced2017f6059b8b239318b6364f6dcd835d0a519105a1eadd6e4"),
    ("sha256", "repeat:55*1005",
     "f4d62ddec0f3dd90ea1380fa16a5ff8dc4c54b21740650f24afc4120903552b0"),
    ("sha256", "repeat:00*1000000",
     "d29751f2649b32ff572b5e0a9f541ea660a50f94ff0beedfb0b692b924cc8025"),
    # NIST, validation vectors for SHA-256
    ("sha256", "hex:",
     "e3b0c44298fc1c149afbf4c8996fb92427ae41e4649b934ca495991b7852b855"),
    ("sha256", "hex:d3",
     "28969cdfa74a12c82f3bad960b0b000aca2ac329deea5c2328ebc6f2ba9802c1"),
    ("sha256", "hex:11af",
     "5ca7133fa735326081558ac312c620eeca9970d1e70a4b95533d956f072d1f98"),
    # NIST, examples with intermediate values for SHAKE128
    ("shake128", "hex:",
     "7f9c2ba4e88f827d616045507605853ed73b8093f6efbc88eb1a6eacfa66ef26"
     "3cb1eea988004b93103cfb0aeefd2a686e01fa4a58e8a3639ca8a1e3f9ae57e2"
     "35b8cc873c23dc62b8d260169afa2f75ab916a58d974918835d25e6a435085b2"
     "badfd6dfaac359a5efbb7bcc4b59d538df9a04302e10c8bc1cbf1a0b3a5120ea"
     "17cda7cfad765f5623474d368ccca8af0007cd9f5e4c849f167a580b14aabdef"
     "aee7eef47cb0fca9767be1fda69419dfb927e9df07348b196691abaeb580b32d"
     "ef58538b8d23f87732ea63b02b4fa0f4873360e2841928cd60dd4cee8cc0d4c9"
     "22a96188d032675c8ac850933c7aff1533b94c834adbb69c6115bad4692d8619"
     "f90b0cdf8a7b9c264029ac185b70b83f2801f2f4b3f70c593ea3aeeb613a7f1b"
     "1de33fd75081f592305f2e4526edc09631b10958f464d889f31ba010250fda7f"
     "1368ec2967fc84ef2ae9aff268e0b1700affc6820b523a3d917135f2dff2ee06"
     "bfe72b3124721d4a26c04e53a75e30e73a7a9c4a95d91c55d495e9f51dd0b5e9"
     "d83c6d5e8ce803aa62b8d654db53d09b8dcff273cdfeb573fad8bcd45578bec2"
     "e770d01efde86e721a3f7c6cce275dabe6e2143f1af18da7efddc4c7b70b5e34"
     "5db93cc936bea323491ccb38a388f546a9ff00dd4e1300b9b2153d2041d205b4"
     "43e41b45a653f2a5c4492c1add544512dda2529833462b71a41a45be97290b6f"),
    ("shake128", "repeat:a3*200",
     "131ab8d2b594946b9c81333f9bb6e0ce75c3b93104fa3469d3917457385da037"
     "cf232ef7164a6d1eb448c8908186ad852d3f85a5cf28da1ab6fe343817197846"
     "7f1c05d58c7ef38c284c41f6c2221a76f12ab1c04082660250802294fb871802"
     "13fdef5b0ecb7df50ca1f8555be14d32e10f6edcde892c09424b29f597afc270"
     "c904556bfcb47a7d40778d390923642b3cbd0579e60908d5a000c1d08b98ef93"
     "3f806445bf87f8b009ba9e94f7266122ed7ac24e5e266c42a82fa1bbefb7b8db"
     "0066e16a85e0493f07df4809aec084a593748ac3dde5a6d7aae1e8b6e5352b2d"
     "71efbb47d4caeed5e6d633805d2d323e6fd81b4684b93a2677d45e7421c2c6ae"
     "a259b855a698fd7d13477a1fe53e5a4a6197dbec5ce95f505b520bcd9570c4a8"
     "265a7e01f89c0c002c59bfec6cd4a5c109258953ee5ee70cd577ee217af21fa7"
     "0178f0946c9bf6ca8751793479f6b537737e40b6ed28511d8a2d7e73eb75f8da"
     "ac912ff906e0ab955b083bac45a8e5e9b744c8506f37e9b4e749a184b30f43eb"
     "188d855f1b70d71ff3e50c537ac1b0f8974f0fe1a6ad295ba42f6aec74d123a7"
     "abedde6e2c0711cab36be5acb1a5a11a4b1db08ba6982efccd716929a7741cfc"
     "63aa4435e0b69a9063e880795c3dc5ef3272e11c497a91acf699fefee206227a"
     "44c9fb359fd56ac0a9a75a743cff6862f17d7259ab075216c0699511643b6439"),
    # NIST, validation vectors for SHAKE128
    ("shake128", "hex:0e",
     "fa996dafaa208d72287c23bc4ed4bfd5"),
    # widely printed
    ("shake128", text("The quick brown fox jumps over the lazy dog"),
     "f4202e3c5852f9182a0430fd8144f0a74b95e7417ecae17db0f8cfeed0e3e66e"),
    ("shake128", text("The quick brown fox jumps over the lazy dof"),
     "853f4538be0db9621a6cea659a06c1107b1f83f02b13d18297bd39d7411cf10c"),
    ("mgf1", text("bar"),
     "382576a7841021cc28fc4c0948753fb8312090cea942ea4c4e735d10dc724b15"
     "5f9f6069f289d61daca0cb814502ef04eae1"),
]


def published_case(algorithm, message, answer):
    reads = "digest" if algorithm == "sha256" else str(len(answer) // 2)
    return Case(algorithm, message, "all", reads)


# Made cases

LENGTHS = [0, 1, 3, 55, 56, 57, 63, 64, 65, 119, 120, 127, 128, 135, 136, 137, 167, 168, 169,
           335, 336, 337, 1000]
# Ways to feed, taken in turn: near the blocks of 64, 136 and 168 bytes, with empty pieces.
UNEVEN_FEEDS = ["1", "0,1,2,3,5,8,13,21", "63,1,0,64,65", "0,0,55,9,0,128", "167,1,0,168,169",
                "135,2,0,337", "7,100,0,31,32,33"]
LONG_FEEDS = ["1,0,63,64,65,127,128,129,500,4099", "167,168,169,0,0,336,10007,3"]
READ_LENGTHS = [0, 1, 31, 32, 33, 167, 168, 169, 336]
# 5,000 bytes; the second way reads over the ends of blocks of 32 and 168 bytes
LONG_READS = ["5000",
              "0,1,31,32,168,169,7,500,0,0,33,167,336,64,1000,335,337,63,0,1,96,1300,360,0",
              "5,163,0,27,5,168,0,336,1,3999,296,0"]
# more than 256 blocks of 32 bytes, so that the counter's second byte is used
OVER_256_BLOCKS = "8191,1,0,65,3"


def uneven(number):
    return UNEVEN_FEEDS[number % len(UNEVEN_FEEDS)]


def digest_cases():
    for number, length in enumerate(LENGTHS):
        message = "count:%d" % length
        yield Case("sha256", message, "all", "digest")
        yield Case("sha256", message, uneven(number), "digest")
        yield Case("sha256", message, uneven(number + 2), "digest")
    for feeds in LONG_FEEDS:
        yield Case("sha256", "count:1000000", feeds, "digest")
        yield Case("sha256", "repeat:61*1000000", feeds, "digest")


def endless_cases(algorithm):
    for number, length in enumerate(LENGTHS):
        message = "count:%d" % length
        yield Case(algorithm, message, "all", "32")
        yield Case(algorithm, message, uneven(number), "16,0,17")
        yield Case(algorithm, message, uneven(number + 2), "33")
    for feeds in LONG_FEEDS:
        yield Case(algorithm, "count:1000000", feeds, "32,0,8")
    for length in READ_LENGTHS:
        yield Case(algorithm, "hex:00ff10", "all", str(length))
    for feeds, reads in zip(["all", "1,0,2", "0,40"], LONG_READS):
        yield Case(algorithm, "count:53", feeds, reads)
    yield Case(algorithm, "count:53", "1,16,32,2,2", "16,96")
    yield Case(algorithm, "repeat:a3*200", "64,0,1,71", "1,167,168,1,31")
    if ENDLESS[algorithm] == mgf1_sha256:
        yield Case(algorithm, "hex:", "all", OVER_256_BLOCKS)


def made_cases():
    return itertools.chain(digest_cases(), *map(endless_cases, ENDLESS))


# Answers

def message_bytes(message):
    form, _, rest = message.partition(":")
    if form == "hex":
        return bytes.fromhex(rest)
    if form == "repeat":
        byte, _, count = rest.partition("*")
        return bytes.fromhex(byte) * int(count)
    count = int(rest)
    return bytes((i * i + 7 * i + i // 256 + count) % 256 for i in range(count))


def answer(case):
    message = message_bytes(case.message)
    if case.algorithm == "sha256":
        return hashlib.sha256(message).hexdigest()
    length = sum(map(int, case.reads.split(",")))
    return ENDLESS[case.algorithm](message, length).hex()


def check_published():
    for algorithm, message, published in PUBLISHED:
        found = answer(published_case(algorithm, message, published))
        if found != published:
            raise ValueError("%s of %s is published as %s, but hashlib gives %s"
                             % (algorithm, message, published, found))


def make_run():
    """The two files of the stored run, by name."""
    cases = [published_case(*of_published) for of_published in PUBLISHED]
    cases += made_cases()
    lines = [" ".join(case) for case in cases]
    answers = [answer(case) or "-" for case in cases]
    written = [line + " " + of_line for line, of_line in zip(lines, answers)]
    return {"stdin": to_file(lines), "stdout": to_file(written)}


def to_file(lines):
    return "".join(line + "\n" for line in lines).encode()


def differs(name, data):
    try:
        with open(os.path.join(FOLDER, name), "rb") as file:
            return file.read() != data
    except OSError as error:
        print(error, file=sys.stderr)
        return True


def main():
    parser = argparse.ArgumentParser(description=__doc__.partition("\n")[0])
    parser.add_argument("--check", action="store_true", help="compare with the stored files")
    options = parser.parse_args()
    check_published()
    status = 0
    for name, data in make_run().items():
        path = "crates/hash_vectors/" + name
        if not options.check:
            with open(os.path.join(FOLDER, name), "wb") as file:
                file.write(data)
            print("wrote %s (%d lines, %d bytes)" % (path, data.count(b"\n"), len(data)))
        elif differs(name, data):
            print("%s is not what hashlib gives" % path)
            status = 1
        else:
            print("%s agrees" % path)
    return status


if __name__ == "__main__":
    sys.exit(main())
