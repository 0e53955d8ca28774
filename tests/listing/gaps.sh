# shellcheck shell=bash
# Gaps, at every place of a buffer that matters. Each input is planned, and the longest gap of its plan is given first. The frames of a plan
# stand one kind after another; kinds joined by commas take turns. A buffer has 8,192 frames. tests/listing/run sources this file.
good=clean,one,two,clean-pad,one-pad,two-pad
bad=no-word,run-broken

gaps=0
feeds=(in_a_file on_standard_input in_pieces)
gap() { # LONGEST PLAN...
    local feed
    counter plan "${@:2}" >"$room/input"
    counter <"$room/input" >"$room/theirs"
    for feed in "${feeds[@]}"; do
        $feed >"$room/ours"
        held "the plan ${*:2}, $feed" "$room/theirs"
        [ "$(tail -n 1 "$room/ours")" = "longest-gap $1" ] || stop "the plan ${*:2}, $feed: its last line must be longest-gap $1"
        gaps=$((gaps + 1))
    done
}

# few frames, or none
gap 0 left-over 5
gap 0 clean 1
gap 1 no-word 1
gap 1 run-broken 1 left-over 7
gap 2 $bad 2
# all refused, none, and turns
gap 20000 $bad 20000
gap 20000 no-word 20000
gap 20000 run-broken 20000 left-over 1
gap 0 $good 20000
gap 1 no-word,clean 20001
gap 1 two,run-broken 20000
gap 2 no-word,run-broken,one 20000
gap 3 run-broken,no-word,no-word,clean-pad,run-broken,run-broken,two-pad 20000
# what ends a gap, and what does not
for kind in clean one two clean-pad one-pad two-pad; do
    gap 50 $good 20 $bad 50 $kind 1 $bad 49 $good 20
    gap 50 $bad 49 $kind 1 $bad 50
done
gap 100 clean 1 no-word 50 run-broken 50 clean 1
gap 100 clean 1 run-broken 99 no-word 1 clean 1
# inside a buffer, up to its end, from its start
gap 300 $good 1000 $bad 300 $good 7000
gap 500 $good 7692 $bad 500 $good 9000
gap 500 $good 8192 $bad 500 $good 9000
gap 8192 $bad 8192 $good 1
gap 8192 $good 8192 $bad 8192 $good 8192
gap 8191 $bad 8191 $good 1 $bad 8191 $good 1
# across the end of the first buffer, of the second, and of both
gap 2 $good 8191 $bad 2 $good 9000
gap 500 $good 8000 $bad 500 $good 8000
gap 500 $good 16300 $bad 500 $good 100
gap 8192 $good 5 $bad 8192 $good 8192
gap 8193 $good 8191 $bad 8193 $good 8192
gap 8194 $good 8191 $bad 8194 $good 5
gap 16386 $good 8191 $bad 16386 $good 5
# across an end, with a gap inside a buffer that is longer than either part of it
gap 100 $good 100 $bad 60 $good 7982 $bad 100 $good 100
gap 100 $good 8142 $bad 100 $good 100 $bad 60 $good 100
# a good frame at the end of a buffer, and at the start of one, between gaps
gap 101 $good 8091 $bad 100 two 1 $bad 101 $good 100
gap 101 $good 8091 $bad 101 one 1 $bad 100 $good 100
# two gaps: the later longer, the earlier, both alike; the longest in the first buffer of three, and in the last
gap 41 $good 10 $bad 40 $good 10 $bad 41 $good 10
gap 41 $good 10 $bad 41 $good 10 $bad 40 $good 10
gap 41 $good 10 $bad 41 $good 10 $bad 41 $good 10
gap 900 $bad 900 $good 19000 $bad 899
gap 900 $bad 899 $good 19000 $bad 900
gap 900 $bad 899 $good 8000 $bad 900 $good 8000 $bad 899 $good 1
# up to the end of the input, also where that is the end of a buffer, and with bytes left over
gap 700 $good 9000 $bad 700
gap 700 $good 9000 $bad 700 left-over 3
gap 192 $good 8000 $bad 192
gap 192 $good 8000 $bad 192 left-over 7
gap 16384 $bad 16384 left-over 1
# more than 16 bits hold
gap 70000 $good 3 $bad 70000 $good 3
# the slow ways
feeds=(a_byte_a_write with_pauses)
gap 8194 $good 50 $bad 8194 two 1
gap 500 $good 8000 $bad 500 one 1 $bad 499 left-over 4
