"""An implementation of the scheme of docs/SCHEME.md that shares nothing with the crates,
for comparison. It has no work memory and no register: refusals 5, 8 and 9 are the caller's,
and so is 4 for the place of a signature to be made."""

import hashlib
from collections import namedtuple

SECRET_LENGTH = 1
PUBLIC_KEY_LENGTH = 2
RANDOMNESS_LENGTH = 3
SIGNATURE_LENGTH = 4
MESSAGE_TOO_LONG = 6
WRONG_SECRET = 7
FIRST_CHALLENGE = 10
SECOND_CHALLENGE = 11

MESSAGE_LIMIT = 16777216
SEED = 16  # bytes of a seed, and of an iv
SALT = 32  # bytes of a salt, a commitment and a challenge


class Params(namedtuple("Params", "d rounds w e1 e2 e3")):
    """A parameter set. Its ring has `w` elements of the field of 256, place by place."""

    parties = property(lambda self: 1 << self.d)
    public_key_length = property(lambda self: SEED + self.w)
    randomness_length = property(lambda self: SALT + SEED * self.rounds)
    part_length = property(lambda self: SEED * self.d + SALT + 5 * self.w)
    signature_length = property(lambda self: 3 * SALT + self.rounds * self.part_length)


S16 = Params(d=4, rounds=33, w=16, e1=3, e2=5, e3=7)
R = Params(d=2, rounds=8, w=1, e1=3, e2=5, e3=7)
SETS = {"S16": S16, "R": R}


# Hashes: the first `length` bytes of the row of a string. How far a row is read is always
# known beforehand, so reading on is a cut of a longer piece.

def shake128(string, length):
    return hashlib.shake_128(string).digest(length)


def mgf1_sha256(string, length):
    fed = hashlib.sha256(string)
    blocks = []
    for number in range((length + 31) // 32):
        block = fed.copy()
        block.update((number % 2**32).to_bytes(4, "big"))
        blocks.append(block.digest())
    return b"".join(blocks)[:length]


def cut(string, length):
    """The string in pieces of this length."""
    return [string[i:i + length] for i in range(0, len(string), length)]


def two_bytes(number):
    return number.to_bytes(2, "little")


# The ring. An element is its code, a byte string.

def field_product(x, y):
    product = 0
    while y:
        if y & 1:
            product ^= x
        x <<= 1
        if x & 0x100:
            x ^= 0x11B  # X^8 + X^4 + X^3 + X + 1
        y >>= 1
    return product


FIELD = [[field_product(x, y) for y in range(256)] for x in range(256)]


def add(*elements):
    total = 0
    for element in elements:
        total ^= int.from_bytes(element, "little")
    return total.to_bytes(len(elements[0]), "little")


def multiply(x, y):
    return bytes([FIELD[i][j] for i, j in zip(x, y)])


def power_two(x, e):
    """x^(2^e)"""
    for _ in range(e):
        x = multiply(x, x)
    return x


def power_two_less_one(x, e):
    """x^(2^e - 1), the product of x^(2^i) for i below e, without the element one"""
    product = x
    for _ in range(e - 1):
        product = multiply(multiply(product, product), x)
    return product


# The affine layer. A row of a matrix is a number whose bit c is the row's column c.

Layer = namedtuple("Layer", "a1 a2 b")


def lower(row, r):
    return row & ((1 << r) - 1) | 1 << r


def upper(row, r):
    return row >> r << r | 1 << r


def matrix_product(left, right):
    """Over bits: each row is the sum of those rows of `right` that the left row's bits name."""
    product = []
    for bits in left:
        row = 0
        for k, other in enumerate(right):
            if bits >> k & 1:
                row ^= other
        product.append(row)
    return product


def apply(matrix, element):
    bits = int.from_bytes(element, "little")
    result = 0
    for r, row in enumerate(matrix):
        result |= (bin(row & bits).count("1") & 1) << r
    return result.to_bytes(len(element), "little")


def make_layer(params, hash, iv):
    w = params.w
    row = hash(iv, 32 * w * w + w)
    rows = [int.from_bytes(piece, "little") for piece in cut(row[:-w], w)]
    l1, u1, l2, u2 = cut(rows, 8 * w)
    a1, a2 = (
        matrix_product(
            [lower(bits, r) for r, bits in enumerate(l)],
            [upper(bits, r) for r, bits in enumerate(u)],
        )
        for l, u in ((l1, u1), (l2, u2))
    )
    return Layer(a1, a2, row[-w:])


def linear(layer, t1, t2):
    """The layer without its constant b."""
    return add(apply(layer.a1, t1), apply(layer.a2, t2))


# Keys

def make_t(params, pt):
    return power_two_less_one(pt, params.e1), power_two_less_one(pt, params.e2)


def make_ct(params, layer, pt):
    s = add(linear(layer, *make_t(params, pt)), layer.b)
    return add(power_two_less_one(s, params.e3), pt)


def make_key(params, hash, secret, iv):
    """The refusal's number, and the public key or None."""
    if len(secret) != params.w:
        return SECRET_LENGTH, None
    if len(iv) != SEED:
        return PUBLIC_KEY_LENGTH, None
    return 0, iv + make_ct(params, make_layer(params, hash, iv), secret)


# Seed trees: a dictionary from node to seed

def grow(params, hash, tree, salt, round_number):
    """Adds the seeds of all nodes below those that the tree has."""
    for node in range(params.parties - 1):
        if node in tree:
            parent = tree[node] + salt + two_bytes(round_number) + two_bytes(node)
            tree[2 * node + 1], tree[2 * node + 2] = cut(hash(b"\x03" + parent, 2 * SEED), SEED)
    return tree


def leaf(params, party):
    return params.parties - 1 + party


def reveal_nodes(params, hidden):
    """The siblings on the way from the hidden party's leaf to the root."""
    node = leaf(params, hidden)
    nodes = []
    while node != 0:
        nodes.append(node + 1 if node % 2 == 1 else node - 1)  # left children are odd
        node = (node - 1) // 2
    return nodes


# Commitments, tapes and shares

Shares = namedtuple("Shares", "pt t1 t2 a c")
Deltas = namedtuple("Deltas", "pt c t1 t2")  # in the order of the signature


def open_party(params, hash, salt, round_number, party, seed):
    """The party's commitment and its shares as they stand on its tape."""
    place = two_bytes(round_number) + two_bytes(party)
    row = hash(b"\x04" + salt + place + seed, SALT + 5 * params.w)
    return row[:SALT], Shares(*cut(row[SALT:], params.w))


def make_deltas(params, shares, pt):
    """The deltas of a round from the shares of all its parties."""
    sums = Shares(*(add(*column) for column in zip(*shares)))
    t1, t2 = make_t(params, pt)
    c = multiply(sums.a, pt)
    return Deltas(add(pt, sums.pt), add(c, sums.c), add(t1, sums.t1), add(t2, sums.t2))


def corrected(shares, deltas):
    return Shares(
        add(shares.pt, deltas.pt),
        add(shares.t1, deltas.t1),
        add(shares.t2, deltas.t2),
        shares.a,
        add(shares.c, deltas.c),
    )


def make_x3(layer, party, shares):
    x3 = linear(layer, shares.t1, shares.t2)
    return add(x3, layer.b) if party == 0 else x3


def alpha_share(factors, shares, x3):
    f1, f2, f3 = factors
    return add(multiply(f1, shares.t1), multiply(f2, shares.t2), multiply(f3, x3), shares.a)


def v_share(params, ct, factors, shares, x3, alpha):
    f1, f2, f3 = factors
    z1 = power_two(shares.pt, params.e1)
    z2 = power_two(shares.pt, params.e2)
    z3 = add(power_two(x3, params.e3), multiply(ct, x3))
    return add(
        multiply(f1, z1), multiply(f2, z2), multiply(f3, z3), multiply(alpha, shares.pt), shares.c
    )


# Challenges. Lists of a round's values are themselves listed round by round.

def flat(lists):
    return b"".join(b"".join(values) for values in lists)


def first_challenge(hash, message, public_key, salt, commitments, deltas):
    pt_deltas = b"".join(of_round.pt for of_round in deltas)
    t_deltas = b"".join(of_round.t1 + of_round.t2 for of_round in deltas)
    c_deltas = b"".join(of_round.c for of_round in deltas)
    fed = b"\x01" + message + public_key + salt + flat(commitments)
    return hash(fed + pt_deltas + t_deltas + c_deltas, SALT)


def make_factors(params, hash, first):
    row = hash(first, 3 * params.w * params.rounds)
    return [cut(three, params.w) for three in cut(row, 3 * params.w)]


def second_challenge(hash, salt, first, alphas, vs):
    return hash(b"\x02" + salt + first + flat(alphas) + flat(vs), SALT)


def hidden_parties(params, hash, second):
    return [byte % params.parties for byte in hash(second, params.rounds)]


# Signing

def round_shares(params, layer, ct, factors, shares):
    """The α shares and v shares of a round from the corrected shares of all its parties."""
    x3s = [make_x3(layer, party, of_party) for party, of_party in enumerate(shares)]
    alphas = [alpha_share(factors, of_party, x3) for of_party, x3 in zip(shares, x3s)]
    alpha = add(*alphas)
    vs = [v_share(params, ct, factors, of_party, x3, alpha)
          for of_party, x3 in zip(shares, x3s)]
    return alphas, vs


def sign(params, hash, secret, public_key, message, randomness):
    """The refusal's number, and the signature or None."""
    if len(secret) != params.w:
        return SECRET_LENGTH, None
    if len(public_key) != params.public_key_length:
        return PUBLIC_KEY_LENGTH, None
    if len(randomness) != params.randomness_length:
        return RANDOMNESS_LENGTH, None
    if len(message) > MESSAGE_LIMIT:
        return MESSAGE_TOO_LONG, None
    iv, ct = public_key[:SEED], public_key[SEED:]
    layer = make_layer(params, hash, iv)
    if make_ct(params, layer, secret) != ct:
        return WRONG_SECRET, None

    salt = randomness[:SALT]
    trees, commitments, deltas, shares = [], [], [], []
    for number, root_seed in enumerate(cut(randomness[SALT:], SEED)):
        tree = grow(params, hash, {0: root_seed}, salt, number)
        opened = [
            open_party(params, hash, salt, number, party, tree[leaf(params, party)])
            for party in range(params.parties)
        ]
        on_tape = [tape for _, tape in opened]
        trees.append(tree)
        commitments.append([commitment for commitment, _ in opened])
        deltas.append(make_deltas(params, on_tape, secret))
        shares.append([corrected(on_tape[0], deltas[-1])] + on_tape[1:])

    first = first_challenge(hash, message, public_key, salt, commitments, deltas)
    alphas, vs = [], []
    for factors, of_round in zip(make_factors(params, hash, first), shares):
        of_alpha, of_v = round_shares(params, layer, ct, factors, of_round)
        alphas.append(of_alpha)
        vs.append(of_v)

    second = second_challenge(hash, salt, first, alphas, vs)
    signature = salt + first + second
    for number, hidden in enumerate(hidden_parties(params, hash, second)):
        signature += b"".join(trees[number][node] for node in reveal_nodes(params, hidden))
        signature += commitments[number][hidden]
        signature += b"".join(deltas[number])
        signature += alphas[number][hidden]
    return 0, signature


# Checking

Part = namedtuple("Part", "reveal commitment deltas alpha")


def read_part(params, part):
    """A round's part of the signature; the commitment and α share are the hidden party's."""
    listed = SEED * params.d
    codes = cut(part[listed + SALT:], params.w)
    return Part(cut(part[:listed], SEED), part[listed:listed + SALT], Deltas(*codes[:4]), codes[4])


def play_round(params, hash, layer, ct, salt, number, part, factors, hidden):
    """The commitments, α shares and v shares of all parties, the hidden one's included."""
    tree = dict(zip(reveal_nodes(params, hidden), part.reveal))
    grow(params, hash, tree, salt, number)
    commitments = [part.commitment] * params.parties
    alphas = [part.alpha] * params.parties
    opened = {}  # party to its corrected shares and x3
    for party in range(params.parties):
        if party == hidden:
            continue
        seed = tree[leaf(params, party)]
        commitments[party], shares = open_party(params, hash, salt, number, party, seed)
        if party == 0:
            shares = corrected(shares, part.deltas)
        x3 = make_x3(layer, party, shares)
        alphas[party] = alpha_share(factors, shares, x3)
        opened[party] = shares, x3
    alpha = add(*alphas)
    vs = {party: v_share(params, ct, factors, *of_party, alpha)
          for party, of_party in opened.items()}
    vs[hidden] = add(*vs.values())
    return commitments, alphas, [vs[party] for party in range(params.parties)]


def check(params, hash, public_key, message, signature):
    """The refusal's number, 0 if the signature is accepted."""
    if len(public_key) != params.public_key_length:
        return PUBLIC_KEY_LENGTH
    if len(signature) != params.signature_length:
        return SIGNATURE_LENGTH
    if len(message) > MESSAGE_LIMIT:
        return MESSAGE_TOO_LONG
    iv, ct = public_key[:SEED], public_key[SEED:]
    layer = make_layer(params, hash, iv)
    salt, first, second = cut(signature[:3 * SALT], SALT)
    parts = [read_part(params, part) for part in cut(signature[3 * SALT:], params.part_length)]
    factors = make_factors(params, hash, first)
    hidden = hidden_parties(params, hash, second)
    rounds = [
        play_round(params, hash, layer, ct, salt, number, *of_round)
        for number, of_round in enumerate(zip(parts, factors, hidden))
    ]
    commitments, alphas, vs = zip(*rounds)
    deltas = [part.deltas for part in parts]
    if first_challenge(hash, message, public_key, salt, commitments, deltas) != first:
        return FIRST_CHALLENGE
    if second_challenge(hash, salt, first, alphas, vs) != second:
        return SECOND_CHALLENGE
    return 0
