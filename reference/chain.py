"""An independent model of the chain, written from the rules under docs/ and not from the Rattle code.

It makes the expected outputs of the programs (see reference/README.md). Python 3, no packages.
"""

TABLES = {
    "4x1": ["1010", "0101"],
    "16x1k0": ["0010001111010110", None],
    "16x1k1": ["0100011110101100", None],
    "32x1k0": ["11011110101000100111000001100101", None],
    "32x1k1": ["11101111010100010011100000110010", None],
    "64x1": ["1011001000100101101100011101000011010111001111011111000000101010", None],
    "128x1": [
        "10011000100010110100111001000010010100100110110111000111101000001101010001100101110110000111010111100111110111111000000010101011",
        None,
    ],
    # the (8,4) words: bits 0 to 3 of the value choose rows of a linear code, shifted by word 0
    "8x4": None,
    "16x4": "0011111000100101",
    "32x4": "11011001110000110101001000101110",
}


def bits(text):
    return [int(c) for c in text]


def words(name):
    """The words of a table, from its first word(s) and the rules that the tables obey."""
    if name == "8x4":
        base = bits("00000001")
        rows = [bits(w) for w in ("11010000", "01101000", "11100101", "10100010")]
        out = []
        for v in range(16):
            w = list(base)
            for i, row in enumerate(rows):
                if v >> i & 1:
                    w = [a ^ b ^ c for a, b, c in zip(w, row, base)]
            out.append(w)
        return out
    if name in ("16x4", "32x4"):
        first = bits(TABLES[name])
        step = 2 if name == "16x4" else 4
        low = [first[-step * k :] + first[: -step * k] if k else first for k in range(8)]
        return low + [[c ^ (i & 1) for i, c in enumerate(w)] for w in low]
    first = bits(TABLES[name][0])
    return [first, [1 - c for c in first]]


def whitening(count):
    """S_0, S_1, ..: u_k = u_(k-5) + u_(k-9) modulo 2, from u_(-1) = 1 and zeros before it."""
    u = [0] * 8 + [1]
    for _ in range(count):
        u.append(u[-5] ^ u[-9])
    return u[9:]


S = whitening(511)


class Line:
    """A line code by its meaning: g, n and the word of a value at a position."""

    def __init__(self, g, n, word):
        self.g, self.n, self.word = g, n, word

    def despread(self, position, chips):
        far = [sum(a != b for a, b in zip(self.word(position, v), chips)) for v in range(1 << self.g)]
        value = far.index(min(far))
        return value, far.count(min(far)) > 1


def table(name):
    ws = words(name)
    return Line(4 if name.endswith("x4") else 1, len(ws[0]), lambda p, v: ws[v])


straight = Line(1, 1, lambda p, v: [v])


def whitened(line):
    return Line(line.g, line.n, lambda p, v: [c ^ S[(p * line.n + i) % 511] for i, c in enumerate(line.word(p, v))])


def alternating(even, odd):
    return Line(even.g, even.n, lambda p, v: (odd if p & 1 else even).word(p, v))


def fours(chips):
    return " ".join("".join(map(str, chips[i : i + 4])) for i in range(0, len(chips), 4))


def octet_bits(octets):
    return [o >> i & 1 for o in octets for i in range(8)]


def blocks(length):
    """N_B."""
    return -(-(8 * length + 6) // 88)


def message(psdu):
    return octet_bits(psdu) + [0] * (88 * blocks(len(psdu)) - 8 * len(psdu))


def code_bits(m):
    """The two code bits of each message bit."""
    at = lambda k: m[k] if k >= 0 else 0
    out = []
    for k in range(len(m)):
        out.append(at(k) ^ at(k - 2) ^ at(k - 3) ^ at(k - 5) ^ at(k - 6))
        out.append(at(k) ^ at(k - 1) ^ at(k - 2) ^ at(k - 3) ^ at(k - 6))
    return out


def moved(k):
    return 16 * ((175 - k) % 11) + (175 - k) // 11


def interleave(code):
    out = [None] * len(code)
    for j, bit in enumerate(code):
        out[j // 176 * 176 + moved(j % 176)] = bit
    return out


def differential(raw, last):
    out = []
    for bit in raw:
        last ^= bit
        out.append(last)
    return out


def spread(line, sent):
    chips = []
    for p in range(len(sent) // line.g):
        group = sent[p * line.g : (p + 1) * line.g]
        chips += line.word(p, sum(b << i for i, b in enumerate(group)))
    return chips


BANDS = {
    780: ["64x1", 8],
    868: ["16x1k0", 4],
    915: ["64x1", 8],
    2450: ["128x1", 8],
}

THOUSAND = {
    0: (alternating(table("16x1k0"), table("16x1k1")), True),
    1: (table("16x4"), False),
    2: (whitened(table("8x4")), False),
    3: (whitened(straight), False),
}

MODES = {
    780: THOUSAND,
    915: THOUSAND,
    868: {0: (whitened(table("4x1")), True), 1: (whitened(straight), False)},
    2450: {
        0: (alternating(table("32x1k0"), table("32x1k1")), True),
        1: (table("32x4"), False),
        2: (table("16x4"), False),
        3: (whitened(table("8x4")), False),
    },
}


def phr(mode, length):
    p = [0] * 16
    p[2], p[3] = mode & 1, mode >> 1
    for i in range(11):
        p[5 + i] = length >> i & 1
    p[0] = sum(p[2:9]) & 1
    p[1] = sum(p[9:16]) & 1
    value = sum(b << i for i, b in enumerate(p))
    return [value & 255, value >> 8]


def header(band, mode, length):
    """The header's chips and its last encoded bit."""
    code, preamble = BANDS[band]
    encoded = differential(octet_bits([0] * preamble + [0xA7] + phr(mode, length)), 0)
    return spread(table(code), encoded), encoded[-1]


def psdu_chips(line, is_differential, psdu, last):
    raw = interleave(code_bits(message(psdu)))
    return spread(line, differential(raw, last) if is_differential else raw)


def observe(line, is_differential, chips, last):
    """The observed code bits, each with its doubt."""
    encoded = []
    for p in range(len(chips) // line.n):
        value, tied = line.despread(p, chips[p * line.n : (p + 1) * line.n])
        encoded += [(value >> i & 1, tied) for i in range(line.g)]
    if is_differential:
        decoded = []
        before = (last, False)
        for bit in encoded:
            decoded.append((bit[0] ^ before[0], bit[1] or before[1]))
            before = bit
        encoded = decoded
    return [encoded[j // 176 * 176 + moved(j % 176)] for j in range(len(encoded))]


def count_cost(cost, seen, claimed):
    return cost + (seen[0] != claimed)


def graded_cost(cost, seen, claimed):
    sure, doubtful = cost
    if seen[0] == claimed:
        return cost
    return (sure, doubtful + 1) if seen[1] else (sure + 1, doubtful)


def step_claims(six, bit):
    """The two code bits of a bit after the six before it, the newest first."""
    return (
        bit ^ six[1] ^ six[2] ^ six[4] ^ six[5],
        bit ^ six[0] ^ six[1] ^ six[2] ^ six[5],
    )


def decode(seen, length, charge, nothing, end_anywhere=False):
    """The nearest PSDU of a length and its cost; of equal ones, the one with 0 at the latest bit where they differ.

    Every path is kept by its last six bits, with its cost and its message as a number whose latest bit counts most.
    With end_anywhere tail and pads are left free, and the cheapest end state is taken, the first by its number, newest bit
    least, of several: what a careless decoder does.
    """
    paths = {(0,) * 6: (nothing, 0)}
    for k in range(len(seen) // 2):
        choices = (0, 1) if end_anywhere or k < 8 * length else (0,)
        after = {}
        for six, (cost, number) in paths.items():
            for bit in choices:
                a, b = step_claims(six, bit)
                new = (charge(charge(cost, seen[2 * k], a), seen[2 * k + 1], b), number | bit << k)
                state = (bit,) + six[:5]
                if state not in after or new < after[state]:
                    after[state] = new
        paths = after
    end = (0,) * 6
    if end_anywhere:
        end = min(paths, key=lambda six: (paths[six][0], sum(b << i for i, b in enumerate(six))))
    cost, number = paths[end]
    return [number >> 8 * i & 255 for i in range(length)], cost
