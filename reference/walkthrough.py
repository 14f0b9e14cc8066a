"""Prints what the program `walkthrough` has to print."""

from chain import (
    BANDS,
    MODES,
    count_cost,
    decode,
    fours,
    graded_cost,
    header,
    observe,
    psdu_chips,
    table,
    whitened,
)

LINE = whitened(table("8x4"))
TEXT = "pump 7"
FLIPS = [0, 1, 1, 2]


def verdict(as_sent, tied):
    if tied:
        return "as sent, but doubtful" if as_sent else "doubtful, and another value"
    return "as sent, and sure" if as_sent else "another value"


print('The text "%s" by the whitened (8,4) code, damaged on the way' % TEXT)
position = 0
for octet in TEXT.encode():
    for value in (octet % 16, octet // 16):
        sent = LINE.word(position, value)
        received = list(sent)
        flipped = FLIPS[position % 4]
        for i in range(flipped):
            received[(position + 3 * i) % 8] ^= 1
        read, tied = LINE.despread(position, received)
        print(
            "group %2d: value %2d sent as %s, received as %s with %d flipped, read as %2d: %s"
            % (position, value, fours(sent), fours(received), flipped, read, verdict(read == value, tied))
        )
        position += 1
print("The first groups of a zero PSDU, band 915, mode 2")
for position in range(2):
    print(fours(LINE.word(position, 0)))
print("What a line code refuses")
print("refusal 6 at 7 (line): wrong number of chips")
print("refusal 7 at 3 (line): a chip is neither 0 nor 1")
print("refusal 8 at 16 (line): the value has more bits than a group")

VOLUME = bytes.fromhex("56070012345600002710")
NOZZLE = bytes.fromhex("4e0701005a")


def received(band, mode, psdu, flips=(), erased=()):
    """Both kinds' answers for a frame with chips flipped or set to zero."""
    line, differential = MODES[band][mode]
    _, last = header(band, mode, len(psdu))
    chips = psdu_chips(line, differential, psdu, last)
    for i in flips:
        chips[i] ^= 1
    for i in erased:
        chips[i] = 0
    seen = observe(line, differential, chips, last)
    by_count, cost = decode(seen, len(psdu), count_cost, 0)
    by_graded, (sure, doubtful) = decode(seen, len(psdu), graded_cost, (0, 0))
    print("  count %d: %s; graded %d %d: %s" % (cost, bytes(by_count).hex(), sure, doubtful, bytes(by_graded).hex()))
    return seen


print("Every band and mode, sent and received")
for band in BANDS:
    for mode in MODES[band]:
        for psdu in (VOLUME, NOZZLE):
            line, differential = MODES[band][mode]
            _, last = header(band, mode, len(psdu))
            chips = psdu_chips(line, differential, psdu, last)
            print(
                "band %d, mode %d: header read back, %d octets, %d chips, first %s"
                % (band, mode, len(psdu), len(chips), fours(chips[: 2 * min(line.n, 8)]))
            )
            received(band, mode, psdu)
print("What a header refuses")
print("band 915, mode 3, length 3: refusal 13 at 3 (header): the header's length is out of range")
print("band 915, mode 3, length 4: accepted")
print("band 868, mode 2, length 10: refusal 12 at 2 (header): the band lacks the rate mode")
print("The volume update in band 915, damaged on the way")
print("mode 1, two chips of each group flipped:")
received(915, 1, VOLUME, flips=[i for i in range(704) if i % 16 < 2])
print("mode 1, group 5 erased:")
received(915, 1, VOLUME, erased=range(80, 96))
print("mode 3, four chips flipped:")
received(915, 3, VOLUME, flips=[20 * i for i in range(4)])
print("mode 3, nine chips flipped, which is beyond the promise:")
received(915, 3, VOLUME, flips=[20 * i for i in range(9)])
print("Band 915, mode 3, chips 33, 48 and 65 flipped: a trace from the cheapest state, and ours")
for psdu in (VOLUME, NOZZLE):
    line, differential = MODES[915][3]
    _, last = header(915, 3, len(psdu))
    chips = psdu_chips(line, differential, psdu, last)
    for i in (33, 48, 65):
        chips[i] ^= 1
    seen = observe(line, differential, chips, last)
    octets, cost = decode(seen, len(psdu), count_cost, 0, end_anywhere=True)
    print("sent %s; cheapest state: %s, cost %d" % (psdu.hex(), bytes(octets).hex(), cost))
    received(915, 3, psdu, flips=(33, 48, 65))
