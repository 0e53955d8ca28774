# shellcheck shell=bash disable=SC2154
# What salvage says where it cannot, and what it leaves: a part of run.
told=0 refusals=0
stays='these bytes stay as they are, since nothing is to be written over them'

says() { # LINE COMMAND...
    local status=0
    "${@:2}" >"$room/account" 2>"$room/said" || status=$?
    printf '%s\n' "$1" >"$room/line"
    same "what is said" "$room/said" "$room/line"
    [ ! -s "$room/account" ] || stop "beside '$1' it must print nothing"
    [ "$status" = 1 ] || stop "beside '$1' it must end with 1, not with $status"
    told=$((told + 1))
}
leaves() { # LINE COMMAND...: with $out there, which keeps its bytes, and absent, where it is not made
    cp "$in" "$kept"
    printf '%s' "$stays" | tee "$room/stays" >"$out"
    says "$@"
    same "beside '$1' the output" "$out" "$room/stays"
    rm "$out"
    says "$@"
    [ ! -e "$out" ] || stop "beside '$1' the output must not be made"
    same "beside '$1' the input" "$in" "$kept"
}

# ---- captures that are refused

refuses() { # NUMBER: the one in $in
    local status=0
    independent expected <"$in" 3>"$room/due.cap" >"$room/due" || status=$?
    [ "$status" = "$1" ] || stop "the independent program has $status for a refusal with $1"
    leaves "salvage: the capture is refused: $1" salvage "$in" "$out"
    refusals=$((refusals + 2))
}
labelled() { # NUMBER TAG AHEAD COUNT DISTANCE
    independent labelled "${@:2}" >"$in"
    refuses "$1"
}
tag=0x4C434150
: >"$in"
refuses 21
independent bent 2 1 0 0 | head -c 23 >"$in"
refuses 21
independent bent 2 1 9 9 | head -c 104 >"$in"
refuses 21
labelled 21 0x4C434151 80 10 80
labelled 21 0x6C434150 0 0 0
labelled 21 0x4C434151 80 8001 79 # ahead of 22 and 23
for distance in 0 79 81 104 0x100000050 0xffffffffffffffff; do labelled 22 $tag 80 9 $distance; done
labelled 22 $tag 0 1 0
labelled 22 $tag 79 10 79
for count in 11 8001 0x100000000 0x2000000000000000 0x200000000000000a 0xffffffffffffffff; do labelled 22 $tag 80 $count 80; done
labelled 22 $tag 64008 8001 64000 # ahead of 23
labelled 22 $tag 64007 8001 64007
labelled 23 $tag 64008 8001 64008
labelled 23 $tag 65512 8189 65512
labelled 12 $tag 65513 8000 65513
labelled 12 0 65513 8000 0 # ahead of 21 and 22
labelled 12 $tag 69976 0 69976
labelled 12 $tag 69976 8001 69976

# ---- files

cp captures/lane-7.cap "$in"
independent expected <"$in" 3>"$room/due.cap" >"$room/due"
usage='usage: salvage IN OUT; the capture in the file IN is salvaged into the file OUT'
leaves "$usage" salvage
leaves "$usage" salvage "$in"
leaves "$usage" salvage "$in" "$out" "$out"
leaves "$usage" salvage --help
leaves "$usage" salvage - "$out"
leaves "$usage" salvage -x "$out"
leaves "$usage" salvage "$in" -x
leaves "$usage" salvage "$in" -
[ ! -e ./-x ] && [ ! -e ./- ] || stop "what begins with '-' must not be made"

missing='No such file or directory'
leaves "salvage: cannot open nosuch: $missing" salvage nosuch "$out"
leaves "salvage: cannot open $room/none: $missing" salvage "$room/none" "$room/none"
leaves "salvage: cannot open : $missing" salvage '' "$out"
leaves "salvage: cannot open two?lines?: $missing" salvage $'two\nlines\e' "$out"
leaves "salvage: cannot open $in/none: Not a directory" salvage "$in/none" "$out"
leaves "salvage: cannot read captures: Is a directory" salvage captures "$out"
leaves "salvage: cannot open captures: Is a directory" salvage "$in" captures
leaves "salvage: cannot open : $missing" salvage "$in" ''
leaves "salvage: cannot open nosuch/$name: $missing" salvage "$in" "nosuch/$name"
leaves "salvage: cannot open no?such/$name: $missing" salvage "$in" $'no\tsuch/'"$name"
leaves "salvage: cannot open $in/none: Not a directory" salvage "$in" "$in/none"

one='salvage: IN and OUT are one file'
mkdir "$room/folder"
ln "$in" "$room/hard.cap"
ln -s in.cap "$room/soft.cap"
ln -s ../soft.cap "$room/folder/soft.cap"
for other in "$in" "$PWD/$in" "$room/folder/../in.cap" "$room"/{hard,soft,folder/soft}.cap; do
    leaves "$one" salvage "$in" "$other"
    leaves "$one" salvage "$other" "$in"
done
rm "$room"/{hard,soft,folder/soft}.cap
cp "$in" "$room/twin.cap" # the same bytes, another file
ln -s twin.cap "$room/link.cap"
for other in twin link; do
    ends_well "another file, $other" "$in" "$room/$other.cap"
    same "another file, $other: the account" "$room/account" "$room/due"
    same "another file, $other: the capture" "$room/$other.cap" "$room/due.cap"
done

# ---- what cannot be written

says 'salvage: cannot write /dev/full: No space left on device' salvage "$in" /dev/full
limited() { (trap '' XFSZ && ulimit -f 1 && salvage "$@"); } # files may have 1,024 bytes
independent bent 3 9 1000 0 >"$room/large.cap"
says "salvage: cannot write $out: File too large" limited "$room/large.cap" "$out"

whole() { # REASON COMMAND...: the account cannot be printed, and the output is whole
    rm -f "$out"
    says "salvage: cannot write the whole account: $1" "${@:2}"
    same "an account that cannot be printed: the capture" "$out" "$room/due.cap"
    same "an account that cannot be printed: the capture that is read" "$in" captures/lane-7.cap
}
full_output() { salvage "$in" "$out" >/dev/full; }
closed_output() { salvage "$in" "$out" >&-; }
both_closed() { salvage "$in" "$out" <&- >&-; }
some_room() { # BYTES: room for so many of the account
    head -c $((1024 - $1)) /dev/zero >"$room/full"
    limited "$in" "$out" >>"$room/full"
}
whole 'No space left on device' full_output
whole 'Bad file descriptor' closed_output
whole 'Bad file descriptor' both_closed
for left in 24 32 33 42 500; do # the three lines of totals are 32, the next ten
    whole 'File too large' some_room $left
    [ "$(wc -c <"$room/full")" = 1024 ] || stop "the account that is cut must fill its file"
done

# What cannot be said goes nowhere else.
silent() { # STATUS COMMAND...
    local status=0
    rm -f "$out"
    "${@:2}" || status=$?
    [ "$status" = "$1" ] || stop "with standard error closed it must end with $1, not with $status"
    same "with standard error closed: the capture" "$out" "$room/due.cap"
}
no_error() { salvage "$in" "$out" >"$room/account" 2>&-; }
no_error_or_output() { salvage "$in" "$out" >/dev/full 2>&-; }
none_open() { salvage "$in" "$out" <&- >&- 2>&-; }
silent 0 no_error
same "with standard error closed: the account" "$room/account" "$room/due"
silent 1 no_error_or_output
silent 1 none_open
