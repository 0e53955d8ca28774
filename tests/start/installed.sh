# shellcheck shell=bash disable=SC2154
# Part of tests/start/run: an installed copy.
desk=$here/opt/desk
toolchain=$kit/toolchain
files_of() { (cd "$1" && find . ! -type d -exec cksum {} + | sort -k 3); } # FOLDER

# ---- wrong installs
ends 2 ./run --install
listed "./run --install"
ends 2 ./run --install ''
listed "./run --install ''"
ends 2 ./run --install "$desk" "$desk"
listed "./run --install of two folders"
[ ! -e "$desk" ] || stop "a wrong --install makes a folder"
ends 1 ./run --install "$here/said/desk"
one_line "an install below a file"
for folder in bin lib include; do
    mkdir -p "$here/no $folder"
    : >"$here/no $folder/$folder"
    ends 1 ./run --install "$here/no $folder"
    one_line "an install where $folder is a file"
    [ "$(find "$here/no $folder" ! -type d)" = "$here/no $folder/$folder" ] || stop "an install where $folder is a file leaves something"
done

# ---- into a fresh folder, then without room to write, then over itself
ends 0 elsewhere ./start --install ../opt/desk
[ "$(wc -l <"$here/out")" = 1 ] || stop "an install must say in one line what is where"
package=$desk/lib/pkgconfig/lakshrumov.pc
[ -f "$package" ] || stop "an install into ../opt/desk is not there"
version=$(sed -n 's/^Version: //p' "$package")
library=liblakshrumov.so.${version%%.*}
files_of "$desk" >"$room/before"
cut -d ' ' -f 3 "$room/before" >"$room/installed"
printf './%s\n' bin/{division,listing,salvage} include/lakshrumov.h lib/liblakshrumov.{a,so} "lib/$library" lib/pkgconfig/lakshrumov.pc >"$room/due"
same "what is installed" "$room/installed" "$room/due"
no_room() { (ulimit -f 1 && "$@"); }
ends 1 no_room ./run --install "$desk"
one_line "an install without room"
files_of "$desk" >"$room/after"
same "an install without room" "$room/before" "$room/after"
ends 0 ./run --install "$desk"
files_of "$desk" >"$room/after"
same "an install over itself" "$room/before" "$room/after"

# ---- moved, and used without the kit
! grep -rqaF -e "$kit" -e "$PWD" "$desk" || stop "what is installed names the kit or this tree"
mv "$desk" "$here/moved"
desk=$here/moved
package=$desk/lib/pkgconfig/lakshrumov.pc
without_kit() { (PATH=/nowhere && start "$@"); }
ends 0 without_kit "$desk/bin/listing" captures/example.bin
prints "the installed listing" captures/example.txt
ends 0 without_kit "$desk/bin/salvage" captures/lane-7.cap "$here/salvaged.cap"
prints "the installed salvage" captures/lane-7-account.txt
ends 0 without_kit "$desk/bin/division" <<<0000000000000001
prints "the installed division" tests/division/1.txt

words() { # FIELD: of the pkg-config file, whose variables the shell can read
    (pcfiledir=${package%/*} && eval "$(grep '^[a-z]*=' "$package")" && eval "printf '%s\n' $(sed -n "s/^$1: //p" "$package")")
}
resolved() { while read -r word; do case $word in -[IL]*) word=${word:0:2}$(readlink -f "${word:2}") ;; esac; echo "$word"; done; }
words Cflags | resolved >"$room/flags"
words Libs | resolved >>"$room/flags"
printf '%s\n' "-I$desk/include" "-L$desk/lib" -llakshrumov >"$room/due"
same "the flags of the pkg-config file" "$room/flags" "$room/due"
if command -v pkg-config >"$room/pkg-config"; then
    PKG_CONFIG_PATH=${package%/*} pkg-config --cflags --libs lakshrumov | xargs -n 1 | resolved >"$room/flags"
    same "the flags that pkg-config gives" "$room/flags" "$room/due"
fi

printf '%s\n' "frame 00008000448D21B9" "version $version" >"$room/frame.due"
strict+=("-I$desk/include")
build frame c99 frame.c "$desk/lib/liblakshrumov.a"
start "$room/frame" >"$room/frame.out"
same "a program over the installed archive" "$room/frame.out" "$room/frame.due"
logged link.log "$toolchain/bin/ld.lld" -m elf_x86_64 -pie --dynamic-linker /lib64/ld-linux-x86-64.so.2 --fatal-warnings -o "$room/shared" \
    "$toolchain"/lib/{Scrt1,crti}.o "$room/frame.c.o" -L "$desk/lib" -llakshrumov -rpath "$desk/lib" "$toolchain"/lib/{libc.so.6,crtn.o}
start "$room/shared" >"$room/frame.out"
same "a program over the installed shared library" "$room/frame.out" "$room/frame.due"

# The shared library shows the calls of the header and no other name.
build names c99 names.c
start "$room/names" <"$room/shared" | grep -qx "needs $library" || stop "a program over the shared library does not ask for $library"
start "$room/names" <"$desk/lib/$library" | sort >"$room/names.out"
{
    printf '%s\n' "is $library" "needs libc.so.6"
    sed -nE 's/^[a-z].* \*?(lks_[a-z_]+)\(.*/shows \1/p' "$desk/include/lakshrumov.h"
} | sort >"$room/due"
same "what the shared library says of itself" "$room/names.out" "$room/due"
