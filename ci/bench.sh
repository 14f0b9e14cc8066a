#!/bin/sh
# What the gate's comparison of standard output cannot see: the two programs in a pipe, where the bench stops reading, the status of a refused capture, and the line and status that wrong arguments get.
# ci/bench.sh COPY: it builds the programs in COPY, a copy of the repository that may be written to. It is silent if all is as it must be.
copy=$1
[ -f "$copy/crates.txt" ] || { echo "usage: ci/bench.sh COPY" >&2; exit 2; }
copy=$(cd "$copy" && pwd) || exit 2
capture=$copy/crates/capture/out/capture
bench=$copy/crates/bench/out/bench
replay=$copy/crates/replay/out/replay
work=$(mktemp -d) || exit 2
trap 'rm -rf "$work"' EXIT
wrong=0

tell() { echo "$*"; wrong=1; }

# The first run of each builds it: bench with no capture, and the others with no arguments.
for name in bench capture replay; do
    (cd "$copy/crates/$name" && rt run </dev/null) >"$work/log" 2>&1
    [ -x "$copy/crates/$name/out/$name" ] || { echo "the program $name is not built"; tail -n 20 "$work/log"; exit 1; }
done

# WORDS and what the pipe has to print
pipe() {
    got=$($capture $1 | $bench) || got="status $?"
    [ "$got" = "$2" ] || tell "capture $1 | bench: $got"
}

# WORDS and the line that they get, with status 1 and nothing on standard output
refuse() {
    got=$($capture $1 2>&1 >"$work/out")
    [ $? = 1 ] && [ "$got" = "capture: $2" ] && [ ! -s "$work/out" ] || tell "capture $1: $got"
}

# WORDS of damage, and the octets of the capture of 915 3 p deadbeef that it changes, counted from 1
changes() {
    $capture 915 3 p deadbeef $1 >"$work/damaged"
    got=$(cmp -l "$work/clean" "$work/damaged" | awk '{ printf "%s%s", s, $1; s = " " }')
    [ "$got" = "$2" ] || tell "capture 915 3 p deadbeef $1 changes the octets $got"
}

# Clean frames of every band and mode, by both costs: the PSDU comes back, and costs nothing.
for band_modes in "780 0 1 2 3" "868 0 1" "915 0 1 2 3" "2450 0 1 2 3"; do
    set -- $band_modes
    band=$1
    shift
    for mode in "$@"; do
        pipe "$band $mode p 56070012345600002710" "frame $mode 10
cost 0
56070012345600002710"
        pipe "$band $mode g 4e0701005aff" "frame $mode 6
cost 0 0
4e0701005aff"
    done
done
pipe "915 3 p 00000000" "frame 3 4
cost 0
00000000"
pipe "915 3 p DEADBEEF" "frame 3 4
cost 0
deadbeef"
pipe "915 3 p deadbeef flip 5 90" "frame 3 4
cost 2
deadbeef"
pipe "868 0 g 4e0701005a rate 150 1" "frame 0 5
cost 2 12
4e0701005a"
pipe "868 0 g 4e0701005a rate 150 4" "frame 0 5
cost 5 21
4e07a1725a"
pipe "2450 0 g 00112233445566778899aabbccddeeff rate 150 7" "frame 0 16
cost 0 0
00112233445566778899aabbccddeeff"

# Damage: the PSDU's first chip is octet 4 + 2 + 4 + 5632 + 4 + 1 = 5647 of the capture, and its last one octet 5822.
$capture 915 3 p deadbeef >"$work/clean"
changes "" ""
changes "flip" ""
changes "flip 0" "5647"
changes "flip 175 5" "5652 5822"
changes "flip 7 7" ""
changes "rate 0 1" ""
changes "rate 1000 1" "$(seq -s " " 5647 5822)"

# The longest capture is read whole, and nothing behind it, however much comes.
longest=$(awk 'BEGIN { for (i = 0; i < 255; i++) printf "%02x", i }')
$capture 2450 0 g "$longest" >"$work/longest"
[ "$(wc -c <"$work/longest")" -eq 146446 ] || tell "the longest capture has $(wc -c <"$work/longest") octets"
got=$($bench <"$work/longest")
[ "$got" = "frame 0 255
cost 0 0
$longest" ] || tell "bench, the longest capture: $got"
head -c 1000 /dev/zero >>"$work/longest"
left=$({ $bench >/dev/null; wc -c; } <"$work/longest")
[ "$left" -eq 1000 ] || tell "bench leaves $left octets behind the longest capture, and not 1000"
got=$({ $capture 915 3 p deadbeef; yes; } 2>/dev/null | timeout 60 $bench) || tell "bench does not end before its input does"
[ "$got" = "frame 3 4
cost 0
deadbeef" ] || tell "bench, with an endless input: $got"

usage="usage: capture BAND MODE COST PSDU [flip PLACE.. | rate THOUSANDTHS START], as: capture 915 3 p deadbeef flip 5 90"
refuse "" "$usage"
refuse "915 3 p" "$usage"
refuse "915 3 p deadbeef shake" "$usage"
refuse "915 3 p deadbeef rate 5" "$usage"
refuse "915 3 p deadbeef rate 5 6 7" "$usage"
refuse "900 3 p deadbeef" "the band is 780, 868, 915 or 2450"
refuse "915 7 p deadbeef" "the mode is 0, 1, 2 or 3"
refuse "915 3 q deadbeef" "the cost is p or g"
refuse "900 7 q xyz" "the band is 780, 868, 915 or 2450"
refuse "915 7 q xyz" "the mode is 0, 1, 2 or 3"
refuse "915 3 q xyz" "the cost is p or g"
refuse "915 3 p deadbee" "the PSDU needs two digits for each octet"
refuse "915 3 p deadzeef" "the PSDU is written in hexadecimal digits"
refuse "915 3 p dead" "refusal 4 at 2 (frame): a PSDU has 4 to 2047 octets"
refuse "868 2 p deadbeef" "refusal 12 at 2 (header): the band lacks the rate mode"
refuse "915 3 p deadbeef flip 176" "a place to flip is past the last chip of the PSDU"
refuse "915 3 p deadbeef flip x" "places, rate and starting number are decimal numbers"
refuse "915 3 p deadbeef rate x 1" "places, rate and starting number are decimal numbers"

# A refused capture is an answer; an output that takes nothing, or a capture that is not there, is an error.
printf '\003' | $bench >/dev/null || tell "bench: a refused capture has to end with status 0"
$bench </dev/null >/dev/full 2>/dev/null
[ $? = 1 ] || tell "bench: an output that takes nothing has to end with status 1"
$replay no-such.capture >/dev/null 2>&1
[ $? = 1 ] || tell "replay: a capture that is not there has to end with status 1"
exit $wrong
