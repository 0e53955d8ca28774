# shellcheck shell=bash
# What the run scripts of tests/ share. A script sources this first: it then stands at the root of the repository, and `room` is an empty
# folder of its own. Programs are built for x86-64 by the kit's own tools.
# ARCHIVE=path takes another archive of the frame calls than the one that tools/program makes.
archive=${ARCHIVE:+$(readlink -f "$ARCHIVE")}
name=$(basename "$(dirname "$(readlink -f "$0")")")
cd "$(dirname "${BASH_SOURCE[0]}")/.." || exit
kit=$(dirname "$(dirname "$(readlink -f "$(command -v rt)")")")
strict=(-O2 -Wall -Wextra -pedantic)
room=target/tests/$name
rm -rf "$room"
mkdir -p "$room"

stop() { # WHY
    echo "$name: $1" >&2
    exit 1
}

logged() { # LOG COMMAND...: silent unless it fails
    "${@:2}" >"$room/$1" 2>&1 || { cat "$room/$1" >&2; stop "failed: ${*:2}"; }
}

# The kit's clang comes without headers.
build() { # PROGRAM LANGUAGE FILE...: sources of the test's folder, and archives
    local objects=() file
    for file in "${@:3}"; do
        if [[ $file != *.a ]]; then
            logged compile.log "$kit/toolchain/bin/clang" --target=x86_64-unknown-linux-gnu -DLAKSHRUMOV_PLAIN_TYPES -Werror \
                "${strict[@]}" "-std=$2" -c "tests/$name/$file" -o "$room/${file//\//-}.o"
            file=$room/${file//\//-}.o
        fi
        objects+=("$file")
    done
    logged link.log "$kit/bin/rattle-link" --target x86_64-unknown-linux-gnu --toolchain "$kit/toolchain" -o "$room/$1" "${objects[@]}"
}

make_program() { logged program.log tools/program "$@"; } # NAME...: target/programs/NAME, where it is not up to date

make_archive() { # into archive
    if [ -n "$archive" ]; then return; fi
    make_program libhost.a
    archive=target/staticlib/libhost.a
}

start() { "$@"; } # PROGRAM [ARG...]

same() { # WHAT FILE FILE
    if ! cmp -s "$2" "$3"; then
        { diff "$2" "$3" || true; } >"$room/differences"
        head -n 8 "$room/differences" | cut -c 1-300 >&2
        stop "$1: $2 (<) and $3 (>) differ"
    fi
}
