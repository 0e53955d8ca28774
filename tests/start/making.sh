# shellcheck shell=bash disable=SC2154
# Part of tests/start/run: what is made anew and what is not, and interrupts, in a copy of the tree.
copy=$here/copy
mkdir -p "$copy" "$here/kit/bin" "$here/given" "$here/tmp"
cp -R crates.txt tools run "$copy"
tar -c --exclude=out crates | tar -x -C "$copy"

# ---- what is made anew, by a kit of the same identity whose rt keeps what it was called with, and hands out what stands in given/ or fails
for part in "$kit"/*; do
    case ${part##*/} in bin) ;; KIT-ID) cp "$part" "$here/kit" ;; *) ln -s "$part" "$here/kit" ;; esac
done
cat >"$here/kit/bin/rt" <<END
#!/bin/sh
echo "\$1" >>'$here/called'
echo "rt: the log" >&2
crate=\${PWD##*/}
for made in "\$crate" "lib\$crate.a"; do
    [ -e '$here/given/'"\$made" ] && mkdir -p out && cp '$here/given/'"\$made" out && echo "rt: running out/\$crate; or no program" >&2 && exit 0
done
exit 1
END
chmod +x "$here/kit/bin/rt"
by_kit() { PATH=$here/kit/bin:$PATH "$@"; }
called() { # WHEN [WORD...]: rt was, since the last look
    local words=''
    if [ -e "$here/called" ]; then words=$(paste -s -d ' ' "$here/called"); fi
    rm -f "$here/called"
    [ "$words" = "${*:2}" ] || stop "$1, rt was called with '$words' and not with '${*:2}'"
}
remade() { # WHEN: two programs and an archive are, once
    ends 0 by_kit "$copy/tools/program" rows listing libhost.a
    silent "tools/program"
    called "$1" run run lib
    ends 0 by_kit "$copy/tools/program" rows listing libhost.a
    silent "tools/program"
    [ ! -s "$here/said" ] || stop "tools/program says something of programs that are up to date"
    called "$1, a second time"
}

ends 0 by_kit ./run rows
prints "a second start" crates/rows/stdout
ends 0 by_kit ./run listing captures/example.bin
prints "a second start" captures/example.txt
called "in a second start"

ends 1 by_kit "$copy/run" rows
silent "a start that fails"
called "in a start that fails" run
printf '%s\n' "rt: the log" "rows is not proved, so it is not built" >"$room/due"
same "what a start that fails says" "$here/said" "$room/due"
[ -z "$(ls -A "$copy/target/programs")" ] || stop "a start that fails leaves something"

cp target/programs/rows target/programs/listing "$here/given"
cp target/staticlib/libhost.a "$here/given/libhost_c.a"
remade "at first"
same "the archive that was made" "$copy/target/staticlib/libhost.a" target/staticlib/libhost.a
ends 0 elsewhere by_kit "$copy/run" listing "captures of today/lane 1.bin"
prints "what was made" captures/example.txt
touch "$copy/crates/paper/src/lib.rt"
remade "after a file was written"
touch -d 2001-01-01 "$copy/crates/paper/src/lib.rt"
remade "after an older file was brought"
: >"$copy/crates/paper/specs/more"
remade "after a file was added"
rm "$copy/crates/paper/specs/more"
remade "after a file was removed"
touch "$copy/crates.txt"
remade "after crates.txt was written"
echo another >"$here/kit/KIT-ID"
remade "by another kit"

# ---- interrupts, where all is to be proved, by the kit's own rt, which has proved no such text yet
echo '// another text' >>"$copy/crates/paper/src/lib.rt"
begin() { # WORDS COMMAND...: in the background, into pid, until it has said these words
    : >"$here/said" # the background may be slow to do so, and it would be deaf to INT
    TMPDIR=$here/tmp env --default-signal=HUP,INT,TERM "${@:2}" >"$here/out" 2>"$here/said" </dev/null &
    pid=$!
    until grep -qE "$1" "$here/said"; do
        kill -0 "$pid" 2>"$room/gone" || { cat "$here/said" >&2; stop "ended by itself: ${*:2}"; }
        sleep 0.1
    done
}
running() { { readlink /proc/[0-9]*/cwd 2>/dev/null || true; } | grep -E "^$copy(/|\$)" >"$here/standing"; } # something stands in the copy
interrupt() { # SIGNAL STATUS: pid, which is to end so
    local status=0
    kill -s "$1" "$pid"
    wait "$pid" || status=$?
    [ "$status" = "$2" ] || stop "interrupted by $1 it ends with $status and not with $2"
    silent "what is interrupted"
}
leaves_nothing() {
    local left looks
    left=$(find "$copy/target/programs" "$here/tmp" -mindepth 1 -print -quit)
    [ -z "$left" ] || stop "an interrupt leaves $left"
    for ((looks = 0; looks < 100; looks++)); do
        running || return 0
        sleep 0.1
    done
    stop "an interrupt leaves something running"
}
proving='^proving [a-z_]+, [1-9][0-9]* left after it$'
for case in "INT 130 tools/program rows" "HUP 129 run listing"; do
    read -r signal status command program <<<"$case"
    rm -rf "$copy/target"
    begin "$proving" "$copy/$command" "$program"
    running || stop "what runs is not seen"
    interrupt "$signal" "$status"
    leaves_nothing
done
begin "$proving" "$copy/tools/program" listing
first=$pid
begin '^waiting for another start' "$copy/run" rows
interrupt TERM 143
running || stop "with the start that waits the other one has ended"
pid=$first
interrupt TERM 143
leaves_nothing
