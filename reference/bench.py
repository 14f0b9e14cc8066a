"""Writes captures and the lines that have to be printed of them, by the model in chain.py and by the rules of the capture format.

    cd reference && python3 bench.py

makes crates/replay/data, args and stdout, crates/bench/stdin and stdout, and crates/capture/args and stdout. Nothing here comes from the programs' own output:
the lines of an accepted capture are those of the model's decoder, and each refusal is written down by hand beside its capture.
"""

import os
import random

from chain import *

HERE = os.path.dirname(os.path.abspath(__file__))
LETTER = {780: "A", 868: "B", 915: "C", 2450: "D"}


def count(n):
    return [n & 255, n >> 8 & 255, n >> 16 & 255, n >> 24 & 255]


def settings(band, cost):
    return count(2) + [ord(LETTER[band]), ord(cost)]


def section(octets):
    return count(len(octets)) + list(octets)


def frame(band, mode, psdu):
    """The chips of the header and of the PSDU."""
    head, last = header(band, mode, len(psdu))
    line, is_differential = MODES[band][mode]
    return head, psdu_chips(line, is_differential, psdu, last)


def capture(band, cost, head, chips):
    return settings(band, cost) + section(head) + section(chips)


def lines(band, mode, length, cost, chips, last):
    """What the model's decoder says of a PSDU's chips."""
    line, is_differential = MODES[band][mode]
    seen = observe(line, is_differential, chips, last)
    if cost == "p":
        psdu, told = decode(seen, length, count_cost, 0)
        text = str(told)
    else:
        psdu, told = decode(seen, length, graded_cost, (0, 0))
        text = "%d %d" % told
    return "frame %d %d\ncost %s\n%s\n" % (mode, length, text, bytes(psdu).hex())


def raw_header(band, octets):
    """Header chips of any SFD and PHR octets."""
    code, preamble = BANDS[band]
    return spread(table(code), differential(octet_bits([0] * preamble + octets), 0))


def phr_with_parity(value):
    """A PHR whose p2 to p15 are given, with the parities put right."""
    p = [value >> i & 1 for i in range(16)]
    p[0] = sum(p[2:9]) & 1
    p[1] = sum(p[9:16]) & 1
    v = sum(b << i for i, b in enumerate(p))
    return [v & 255, v >> 8]


def accepted():
    rng = random.Random(6)
    out = []
    for band in BANDS:
        for mode in MODES[band]:
            line, _ = MODES[band][mode]
            for cost, length, flips in (("p", 4, 0), ("g", 12, 3), ("p", 23, 60), ("g", 9, 90)):
                psdu = [rng.randrange(256) for _ in range(length)]
                head, chips = frame(band, mode, psdu)
                last = header(band, mode, length)[1]
                for _ in range(flips):
                    chips[rng.randrange(len(chips))] ^= 1
                name = "%d-%d-%s-%d-%d" % (band, mode, cost, length, flips)
                out.append((name, capture(band, cost, head, chips), lines(band, mode, length, cost, chips, last)))
    # the worked example: the chips S_0 to S_175
    head, last = header(915, 3, 4)
    out.append(("example", capture(915, "p", head, S[:176]), "frame 3 4\ncost 0\n00000000\n"))
    # ties: half of a word's chips flipped in many groups, and chips that are all alike
    for cost in "pg":
        head, chips = frame(868, 0, [0x12, 0x34, 0x56, 0x78])
        last = header(868, 0, 4)[1]
        for group in range(0, 176, 7):
            chips[4 * group] ^= 1
            chips[4 * group + 1] ^= 1
        out.append(("ties-" + cost, capture(868, cost, head, chips), lines(868, 0, 4, cost, chips, last)))
        head, last = header(2450, 2, 5)
        flat = [0] * (176 // 4 * 16)
        out.append(("flat-" + cost, capture(2450, cost, head, flat), lines(2450, 2, 5, cost, flat, last)))
    # a damaged header: seven chips of each group
    head, chips = frame(780, 1, [1, 2, 3, 4])
    for group in range(88):
        for i in range(7):
            head[64 * group + 9 * i] ^= 1
    out.append(("header-damaged", capture(780, "p", head, chips), "frame 1 4\ncost 0\n01020304\n"))
    # the longest PSDU, and octets after the last section
    head, chips = frame(868, 1, list(range(255)))
    out.append(("longest", capture(868, "g", head, chips) + [9] * 40, "frame 1 255\ncost 0 0\n%s\n" % bytes(range(255)).hex()))
    return out


def refused():
    """Each capture with the number and place of its refusal, by the rules."""
    head, chips = frame(915, 3, [0, 0, 0, 0])
    good = capture(915, "p", head, chips)
    before = settings(915, "p")
    two = before + section(head)
    out = [
        ("empty", [], 15, 1),
        ("count-ends", [2, 0], 15, 1),
        ("letters-end", [2, 0, 0, 0, 67], 15, 1),
        ("count-3", [3], 14, 0),
        ("count-256", [2, 1, 0, 0, 67, 112], 14, 1),
        ("count-third", [2, 0, 7], 14, 2),
        ("count-fourth", [2, 0, 0, 1], 14, 3),
        ("letter-E", [2, 0, 0, 0, 69], 14, 4),
        ("letter-a", [2, 0, 0, 0, 97, 112] + good[6:], 14, 4),
        ("letter-q", [2, 0, 0, 0, 67, 113], 14, 5),
        ("no-section-2", before, 15, 2),
        ("section-2-count-ends", before + [0, 22, 0], 15, 2),
        ("section-2-count", before + count(5631) + head, 15, 2),
        ("section-2-ends", before + count(5632) + head[:-1], 15, 2),
        ("header-bad-chip", before + section(head[:100] + [2] + head[101:]) + section(chips), 7, 100),
        ("header-m-dsss", before + section(raw_header(915, [0x58] + phr(3, 4))), 9, 0x58),
        ("header-sfd", before + section(raw_header(915, [0xA6] + phr(3, 4))), 10, 0xA6),
        ("header-p0", before + section(raw_header(915, [0xA7, phr(3, 4)[0] ^ 1, phr(3, 4)[1]])), 11, 0),
        ("header-p1", before + section(raw_header(915, [0xA7, phr(3, 4)[0] ^ 2, phr(3, 4)[1]])), 11, 1),
        ("mode-2-of-868", settings(868, "g") + section(raw_header(868, [0xA7] + phr(2, 4))), 12, 2),
        ("mode-3-of-868", settings(868, "g") + section(raw_header(868, [0xA7] + phr(3, 4))), 12, 3),
        ("length-3", before + section(raw_header(915, [0xA7] + phr(3, 3))), 13, 3),
        ("length-0", before + section(raw_header(915, [0xA7] + phr(0, 0))), 13, 0),
        ("length-256", before + section(raw_header(915, [0xA7] + phr(3, 256))), 16, 256),
        ("length-2047", before + section(raw_header(915, [0xA7] + phr(1, 2047))) + [1, 2], 16, 2047),
        ("no-section-3", two, 15, 3),
        ("section-3-count-ends", two + [176, 0, 0], 15, 3),
        ("section-3-count", two + count(177) + chips + [0], 15, 3),
        ("section-3-ends", two + count(176) + chips[:-1], 15, 3),
        ("bad-chip", two + section(chips[:175] + [255]), 7, 175),
        ("bad-chip-and-end", two + count(176) + [2] + chips[1:175], 15, 3),
    ]
    head, chips = frame(780, 2, list(range(30)))
    two = settings(780, "g") + section(head)
    size = 352
    out += [
        ("bad-chip-second-block", two + section(chips[: size + 5] + [3] + chips[size + 6 :]), 7, 5),
        ("bad-chip-before-end", two + count(len(chips)) + chips[: size + 5] + [3] + chips[size + 6 : 2 * size], 7, 5),
        ("bad-chip-in-half-block", two + count(len(chips)) + chips[: size + 5] + [3], 15, 3),
        ("two-bad-chips", two + section(chips[:11] + [9] + chips[12:20] + [8] + chips[21:]), 7, 11),
    ]
    # p4 is reserved, and ignored
    value = phr(3, 4)[0] | phr(3, 4)[1] << 8 | 1 << 4
    return [(name, octets, "refused %d %d\n" % (number, place)) for name, octets, number, place in out], value


def main():
    captures = accepted()
    wrong, reserved = refused()
    captures += wrong
    reserved_head = raw_header(915, [0xA7] + phr_with_parity(reserved))
    captures.append(("reserved-bit", capture(915, "p", reserved_head, S[:176]), "frame 3 4\ncost 0\n00000000\n"))
    replay = os.path.join(HERE, "..", "crates", "replay")
    data = os.path.join(replay, "data")
    os.makedirs(data, exist_ok=True)
    for old in os.listdir(data):
        os.remove(os.path.join(data, old))
    for name, octets, _ in captures:
        with open(os.path.join(data, name + ".capture"), "wb") as f:
            f.write(bytes(octets))
    with open(os.path.join(replay, "args"), "w") as f:
        f.write("".join(name + ".capture\n" for name, _, _ in captures))
    with open(os.path.join(replay, "stdout"), "w") as f:
        f.write("".join("%s.capture\n%s" % (name, text) for name, _, text in captures))
    # the program itself: the worked example, with much behind it that is not read
    bench = os.path.join(HERE, "..", "crates", "bench")
    head, _ = header(915, 3, 4)
    with open(os.path.join(bench, "stdin"), "wb") as f:
        f.write(bytes(capture(915, "p", head, S[:176]) + [7] * 200000))
    with open(os.path.join(bench, "stdout"), "w") as f:
        f.write("frame 3 4\ncost 0\n00000000\n")
    # the companion program, with two chips flipped
    maker = os.path.join(HERE, "..", "crates", "capture")
    head, chips = frame(868, 0, [0x01, 0x23, 0x45, 0x67, 0x89])
    for place in (3, 17):
        chips[place] ^= 1
    with open(os.path.join(maker, "args"), "w") as f:
        f.write("868\n0\ng\n0123456789\nflip\n3\n17\n")
    with open(os.path.join(maker, "stdout"), "wb") as f:
        f.write(bytes(capture(868, "g", head, chips)))


main()
