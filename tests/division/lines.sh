# shellcheck shell=bash disable=SC2154
# What division says where it has no table, or cannot print it: a part of run.
told=0
fails() { # WHAT COMMAND...: it ends with 1 and prints nothing
    local status=0
    "${@:2}" >"$room/ours" 2>"$room/said" || status=$?
    [ "$status" = 1 ] || stop "$1: it must end with 1, not with $status"
    [ ! -s "$room/ours" ] || stop "$1: it must print nothing"
    told=$((told + 1))
}
says() { # WHAT LINE COMMAND...
    fails "$1" "${@:3}"
    printf '%s\n' "$2" >"$room/line"
    same "$1: what is said" "$room/said" "$room/line"
}
says_why() { # WHAT BEGINNING COMMAND...: one line, which may go on with a reason
    local lines
    fails "$1" "${@:3}"
    mapfile lines <"$room/said"
    [[ ${#lines[@]} = 1 && ${lines[0]} = "$2"*$'\n' ]] || { cat "$room/said" >&2; stop "$1: it must say in one line: $2"; }
}

# ---- input that is no data word

unfit() { # TEXT [COMMAND]: with escapes as printf has them
    printf '%b' "$1" >"$in"
    says "input '$1'" 'division: standard input is not 16 hexadecimal digits' "${2:-from_file}"
}
word=0000123456789abc
for digits in '' 0 "${word:2}" "${word:1}" "${word}0" "0$word" "$word$word"; do
    for end in "${line_ends[@]}"; do unfit "$digits$end"; done
done
for behind in '\r' '\n\r' '\n\n' '\r\r' '\r\r\n' '\r\n\n' '\r\n\r\n' '\n\r\n' '\n0' '\r0' '\r\n0' "\n$word" "\n$word\n" "\r\n$word" \
    ' ' ' \n' '\n ' '\t' '\v' '\f' '\x00' '\x00\n' '\n\x00' '\r\x00' '\x04' '\x1a' h 'h\n' '\\n'; do
    unfit "$word$behind"
done
for ahead in ' ' '\t' '\n' '\r\n' '\x00' + - 0x 0X x '\xef\xbb\xbf'; do
    for digits in "$word" "${word:1}" "${word:2}"; do unfit "$ahead$digits\n"; done # also 16 bytes in all
done
for between in '\n' '\r\n' ' ' _ '\x00'; do
    unfit "${word:0:8}$between${word:8}"
    unfit "${word:0:8}$between${word:8+1}"
done
for text in "$word\n\n" "$word\n0" "$word\r" "$word\r0" "${word:1}\n" "${word}0"; do unfit "$text" byte_by_byte; done

misplaced() { # BYTE PLACE: instead of the digit there
    local byte
    printf -v byte '\\x%02x' "$1"
    unfit "${word:0:$2}$byte${word:$2+1}"
}
for byte in 47 58 64 71 96 103 32 0 176 185 193 198 225 230; do # beside the ranges, and their ends with the highest bit set
    for place in 0 8 15; do misplaced $byte $place; done
done
for ((byte = 0; byte < 256; byte++)); do
    case $byte in
    4[89] | 5[0-7] | 6[5-9] | 70 | 9[7-9] | 10[0-2]) ;; # a digit
    *) misplaced $byte $((byte % 16)) ;;
    esac
done
unfit FFFFFFFFFFFFFFFG # ahead of 11
for byte in 0 '\0'; do
    head -c 65536 /dev/zero | tr '\0' "$byte" >"$in"
    says "65,536 bytes of $byte" 'division: standard input is not 16 hexadecimal digits' from_file
done

# ---- data words that are refused

refused() { # DIGITS FORM...
    local form
    for form in "${@:2}"; do
        write_as "$form" "$1"
        says "data $1 in form $form" 'division: the data word is refused: 11' from_file
    done
}
for ((bit = 48; bit < 64; bit++)); do refused "$(printf %016X $((1 << bit)))" $((bit % 6)); done
for digits in 0001000000000000 0001000000000001 0001FFFFFFFFFFFF 8000000000000000 FFFF000000000000 FFFFFFFFFFFFFFFF; do
    refused "$digits" 0 1 2 3 4 5
done

# ---- arguments, and what cannot be read

usage='usage: division; the data word, 16 hexadecimal digits, is read from standard input'
unread='division: cannot read standard input'
closed_input() { division "$@" <&-; }
write_as 1 "$word"
says "an empty argument" "$usage" division '' <"$in"
says "two arguments" "$usage" division "$word" "$word" <"$in"
for argument in "$word" - -- --help /dev/null; do
    says "the argument $argument" "$usage" division "$argument" <"$in"
    says "the argument $argument and no input" "$usage" division "$argument" </dev/null
    says "the argument $argument and closed input" "$usage" closed_input "$argument"
done
says_why "closed input" "$unread" closed_input
says_why "a directory" "$unread" division <tests

# ---- what cannot be written

lost='division: cannot write the whole table'
make_due table "$word"
full_output() { from_file >/dev/full; }
closed_output() { from_file >&-; }
closed_both() { division <&- >&-; }
some_room() { # BYTES: for so many of the table, in a file that may have 8,192
    head -c $((8192 - $1)) /dev/zero >"$room/full"
    (trap '' XFSZ && ulimit -f 8 && from_file >>"$room/full")
}
written() { # BYTES: what is written is the table's beginning
    head -c "$1" "$due" >"$room/beginning"
    tail -c +$((8193 - $1)) "$room/full" >"$room/written"
    same "room for $1 bytes: what is written" "$room/written" "$room/beginning"
}
says_why "full output" "$lost" full_output
says_why "closed output" "$lost" closed_output
says_why "closed input and output" "$unread" closed_both
size=$(wc -c <"$due")
for left in 0 1 32 33 99 1024 4096 $((size - 1)); do
    says_why "room for $left bytes" "$lost" some_room "$left"
    written "$left"
done
: >"$room/none"
some_room "$size" >"$room/said" 2>&1 || stop "room for the whole table is enough"
same "room for the whole table: what is said" "$room/said" "$room/none"
written "$size"

# What cannot be said goes nowhere else.
no_error() { from_file 2>&-; }
no_error_or_output() { from_file >/dev/full 2>&-; }
prints "standard error closed" no_error
fails "standard error closed and full output" no_error_or_output
printf 'no word\n' >"$in"
fails "standard error closed and input that is no data word" no_error
says "input that is no data word and full output" 'division: standard input is not 16 hexadecimal digits' full_output
write_as 1 0001000000000000
says "a data word that is refused and closed output" 'division: the data word is refused: 11' closed_output
