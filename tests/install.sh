#!/bin/sh
# Installs into empty folders and sees that what is there suffices: examples/ is compiled by what pkg-config says and run.
# tests/install.sh, from the repository's folder, with everything built; MAKE, CC and CXX are the programs to use.
set -eu
export LC_ALL=C
unset MAKEFLAGS MFLAGS MAKEOVERRIDES MAKELEVEL PREFIX DESTDIR BINDIR INCLUDEDIR LIBDIR MANDIR LD_LIBRARY_PATH LIBRARY_PATH CPATH
here=$(pwd)
make=${MAKE:-make}
cc="${CC:-cc} -std=c99 -Wall -Wextra -Wpedantic -Wshadow -Wconversion -Werror"
cxx="${CXX:-c++} -std=c++11 -Wall -Wextra -Wpedantic -Wshadow -Wconversion -Werror"
checks=0

fail() {
    echo "install.sh: $1" >&2
    exit 1
}

for need in pkg-config:pkg-config python3:python3 nm:binutils readelf:binutils; do
    command -v "${need%%:*}" >/dev/null || fail "${need%%:*} is missing: apt-get install ${need##*:}"
done
work=$(mktemp -d "${TMPDIR:-/tmp}/reelbook.XXXXXX")
trap 'rm -rf "$work"' EXIT
trap 'exit 1' HUP INT TERM

same() { # WHAT FOUND EXPECTED
    checks=$((checks + 1))
    [ "$2" = "$3" ] || fail "$1:
$2
and not:
$3"
}

skip() { # WHAT WHY
    echo "skipped: $1, because $2"
}

builds() { # ARGUMENT..: of make, here
    "$make" --no-print-directory -C "$here" "$@" >"$work/log" 2>&1 || fail "make $*: $(cat "$work/log")"
}

files_below() {
    (cd "$1" && find . ! -type d | sort)
}

# The functions that the header declares; those defined in it, for the compiler to put in place, are not the library's.
declared=$(sed -n 's/^uint64_t \(reelbook_[a-z]*\)(.*/\1/p' include/reelbook.h | sort)
version=$(sed -n 's/^#define REELBOOK_VERSION "\(.*\)"/\1/p' include/reelbook.h)
shared=libreelbook.so.$version
soname=libreelbook.so.${version%%.*}

# A strict umask is the installer's own matter: what is installed is for everybody.
try_files() {
    prefix=$work/prefix
    (umask 077 && builds install PREFIX="$prefix")
    same 'files installed' "$(files_below "$prefix")" "./bin/reelbook
./include/reelbook.h
./lib/libreelbook.a
./lib/libreelbook.so
./lib/$soname
./lib/$shared
./lib/pkgconfig/reelbook.pc
./share/man/man1/reelbook.1
./share/man/man3/reelbook.3"
    same 'files that not everybody may read' "$(find "$prefix" -type f ! -perm -444)" ''
    same 'folders that not everybody may read' "$(find "$prefix"/* -type d ! -perm -555)" ''
    same 'files that may be executed' "$(cd "$prefix" && find . -type f -perm -100)" ./bin/reelbook
    same 'files that others may write' "$(find "$prefix" ! -type l -perm -002)" ''
    same 'the link to the shared object' "$(readlink "$prefix/lib/$soname")" "$shared"
    same 'the link for the compiler' "$(readlink "$prefix/lib/libreelbook.so")" "$soname"
    cmp "$prefix/include/reelbook.h" include/reelbook.h
    cmp "$prefix/lib/libreelbook.a" build/libreelbook.a
    "$prefix/bin/reelbook" format "$work/book" --reels 4 --nodes 16
    "$prefix/bin/reelbook" check "$work/book" >"$work/log" || fail "the tool: $(cat "$work/log")"
}

try_shared_object() {
    object=$prefix/lib/$shared
    same 'the soname' "$(readelf -dW "$object" | sed -n 's/.*(SONAME).*\[\(.*\)\]/\1/p')" "$soname"
    same 'libraries needed' "$(readelf -dW "$object" | sed -n 's/.*(NEEDED).*\[\(.*\)\]/\1/p')" libc.so.6
    exported=$(nm -D --defined-only "$object" | awk '$2 != "A" { print $3 }' | sort)
    since=@@REELBOOK_${version%%.*}
    same 'functions exported, each with the version that has it first' "$exported" \
        "$(echo "$declared" | sed -e "s/^reelbook_tidy\$/&$since.1/" -e t -e "s/^reelbook_translate\$/&$since.2/" -e t -e "s/\$/$since/")"
    # What the dynamic linker fills in and then makes read-only is not the library's.
    same 'writable sections' "$(readelf -SW "$object" | sed 's/^ *\[ *[0-9]*\]//' |
        awk '$7 ~ /W/ && $1 !~ /^\.(dynamic|got|got\.plt)$/ && $5 !~ /^0*$/ { print $1 }')" ''
    same 'memory writable after the start' "$(readelf -lW "$object" |
        awk '$1 == "LOAD" && /RW/ { size = $6 } $1 == "GNU_RELRO" { kept = $6 }
            END { print (size == kept) ? "none" : size " of which " kept }')" none
    same 'an executable stack' "$(readelf -lW "$object" | awk '$1 == "GNU_STACK" && $7 ~ /E/')" ''
}

try_pkg_config() {
    export PKG_CONFIG_LIBDIR="$prefix/lib/pkgconfig"
    unset PKG_CONFIG_PATH PKG_CONFIG_SYSROOT_DIR
    pkg-config --validate reelbook || fail 'reelbook.pc is not valid'
    same '--modversion' "$(pkg-config --modversion reelbook)" "$version"
    same '--cflags' "$(pkg-config --cflags reelbook | sed 's/ *$//')" "-I$prefix/include"
    same '--libs' "$(pkg-config --libs reelbook | sed 's/ *$//')" "-L$prefix/lib -lreelbook"
    same 'another prefix' "$(pkg-config --define-variable=prefix=/moved --variable=libdir reelbook)" /moved/lib
}

# Runs a program with the shared object, wherever it is installed.
with_shared() {
    LD_LIBRARY_PATH=$(pkg-config --variable=libdir reelbook) "$@"
}

# An example's output, compiled for the shared object and for the archive. Nothing of the repository is in reach there.
prints() { # FILE EXPECTED COMPILER
    name=${1%.*}
    cp "examples/$1" "$work"
    (
        cd "$work"
        # shellcheck disable=SC2046 # a word for each flag
        $3 -o "$name-shared" "$1" $(pkg-config --cflags --libs reelbook)
        $3 -o "$name-static" "$1" $(pkg-config --cflags reelbook) "$(pkg-config --variable=libdir reelbook)/libreelbook.a"
    ) || fail "examples/$1 is not compiled"
    readelf -dW "$work/$name-shared" | grep -q "NEEDED.*$soname" || fail "examples/$1 is not linked with $soname"
    same "examples/$1" "$(cd "$work" && with_shared "./$name-shared")" "$2"
    same "examples/$1, with the archive" "$(cd "$work" && "./$name-static")" "$2"
}

program() { # PAGE NUMBER: of those in C
    awk -v wanted="$2" '/^```/ { inside = /^```c$/; number += inside; next } inside && number == wanted' "$1"
}

try_examples() {
    prints first.c 'format: done
open: done, 18 words of script' "$cc"
    prints driver.c 'frame 14: 2 places left in its node
answer 0, held; nodes on its path: 1' "$cc"
    prints heads.c '200 frames: done; head 1 had to wait 32 times, a node was full 5 times
the same frame twice: held already (9)' "$cc"
    prints tidy.c 'two reels, four nodes: done (0)
frame 64 of reel 8: not enough adjacent free nodes (8)
frame 64 of reel 7 goes: done (0)
frame 64 of reel 8: done (0)
reel 7: no empty group of nodes (18)' "$cc"
    prints table.c "256 frames, fingerprints by the library's table: 8
by the best of 100 others: 168
format: done; word 3 is 1
with a value twice: the given table is not 256 bytes with each byte once (16)" "$cc"
    prints convert.c "edition 2, reel 7: 12 5 4294967301
edition 1, reel 7: 12 5 4294967301
edition 2, reel 7: 12 5 4294967301 900
with a table of its own: an own table can't go to edition 1 (17)" "$cc"
    prints module.c 'frame 12: done, 7 line flushes
power lost, recovered: done
frame 12: held
into a shorter buffer: a buffer'\''s length is wrong, or a script is none (3)' "$cc"
    prints book.cpp 'reel 7: 12 5 900; places left: 13
frame 5: held, nodes on its path: 1
frame 6: not held, nodes on its path: 1
frame 5: held already (9)' "$cxx"
    # What a program needs of the library: a 5.0 would do for the first three.
    needed='s/.*Name: \(REELBOOK_[0-9.]*\) .*/\1/p'
    for name in first driver convert; do
        same "versions that $name.c needs" "$(readelf -VW "$work/$name-shared" | sed -n "$needed")" "REELBOOK_${version%%.*}"
    done
    same 'versions that tidy.c needs' "$(readelf -VW "$work/tidy-shared" | sed -n "$needed" | sort)" "REELBOOK_${version%%.*}
REELBOOK_${version%%.*}.1"
    same 'versions that module.c needs' "$(readelf -VW "$work/module-shared" | sed -n "$needed" | sort)" "REELBOOK_${version%%.*}
REELBOOK_${version%%.*}.2"
    cp examples/book.py "$work"
    same 'examples/book.py' "$(cd "$work" && with_shared python3 book.py)" 'reel 7: 12 5 18446744073709551615 places left: 13
65 frames later: frame 5 held, nodes on its path: 2
65 frames later: frame 6 not held, nodes on its path: 2
with its own table: 12
power lost, stores kept: frame 13 is held after entry 7 of 8
power lost, stores lost: frame 13 is held after entry 8 of 8'
    checks=$((checks + 1))
    for page in README.md:first.c docs/DRIVER.md:driver.c; do
        program "${page%%:*}" 1 | cmp - "examples/${page##*:}" || fail "the program in ${page%%:*} is not examples/${page##*:}"
    done
    same 'programs in the pages' "$(grep -c '^```c$' README.md docs/DRIVER.md)" 'README.md:1
docs/DRIVER.md:6'
    for part in 2:heads.c 3:tidy.c 4:table.c 5:convert.c 6:module.c; do
        case $(cat "examples/${part##*:}") in
        *"
$(program docs/DRIVER.md "${part%%:*}")
"*) ;;
        *) fail "program ${part%%:*} in docs/DRIVER.md is not a part of examples/${part##*:}" ;;
        esac
    done
}

# A header that the compiler reads as the page has it, and each of the tool's commands.
try_pages() {
    for page in "$prefix/share/man/man1/reelbook.1" "$prefix/share/man/man3/reelbook.3"; do
        same "words left to fill in, in $page" "$(grep -o '@[A-Z]*@' "$page" || true)" ''
        grep -q "^\.TH .*\"reelbook $version\"" "$page" || fail "$page has not the version $version"
        if command -v groff >/dev/null; then
            same "what groff says of $page" "$(groff -t -man -Tutf8 -ww -z "$page" 2>&1)" ''
        else
            skip "$page set" 'groff is missing'
        fi
    done
    {
        echo '#include <reelbook.h>'
        sed -n '/^\.SH SYNOPSIS/,/^\.SH DESCRIPTION/ { s/^\.B "\(.*\)"$/\1/p; }' "$prefix/share/man/man3/reelbook.3" |
            sed '/^const char \*reelbook_answer_text/d; /^size_t reelbook_/d'
    } >"$work/synopsis.c"
    same 'functions in the synopsis' "$(sed -n 's/^uint64_t \(reelbook_[a-z]*\)(.*/\1/p' "$work/synopsis.c" | sort)" "$declared"
    # shellcheck disable=SC2046
    $cc $(pkg-config --cflags reelbook) -fsyntax-only "$work/synopsis.c" || fail "the synopsis is not the header's"
    same 'answers in the page' "$(grep -c '^[0-9]*	.*REELBOOK_' "$prefix/share/man/man3/reelbook.3")" 18
    same 'commands in the page' "$(sed -n 's/^\.SS //p' "$prefix/share/man/man1/reelbook.1")" \
        "$("$prefix/bin/reelbook" --help | sed -n 's/^  reelbook \([a-z]*\) FILE.*/\1/p')"
}

# A package: what is made for one folder is put together below another.
try_staged() {
    stage="$work/a stage"
    builds install DESTDIR="$stage" PREFIX=/opt/reelbook LIBDIR=/opt/reelbook/lib64
    same 'files staged' "$(files_below "$stage/opt/reelbook" | sed 's|/lib64/|/lib/|' | sort)" "$(files_below "$prefix")"
    same 'files staged elsewhere' "$(files_below "$stage" | grep -v '^./opt/reelbook/' || true)" ''
    same 'files with the name of the stage' "$(grep -rl "$work" "$stage" || true)" ''
    mv "$stage" "$work/stage"
    stage=$work/stage
    export PKG_CONFIG_LIBDIR="$stage/opt/reelbook/lib64/pkgconfig"
    same 'the staged libdir' "$(pkg-config --variable=libdir reelbook)" /opt/reelbook/lib64
    export PKG_CONFIG_SYSROOT_DIR="$stage"
    # shellcheck disable=SC2046
    $cc -o "$work/staged" examples/first.c $(pkg-config --cflags --libs reelbook) || fail 'a staged library is not linked with'
    same 'a program of the stage' "$(LD_LIBRARY_PATH="$stage/opt/reelbook/lib64" "$work/staged")" "$("$work/first-static")"
    unset PKG_CONFIG_SYSROOT_DIR
}

try_uninstall() {
    echo 'not of reelbook' >"$prefix/lib/libother.a"
    builds uninstall PREFIX="$prefix"
    same 'files left' "$(files_below "$prefix")" ./lib/libother.a
    builds uninstall PREFIX="$prefix" # nothing to do, and no error
    builds uninstall DESTDIR="$stage" PREFIX=/opt/reelbook LIBDIR=/opt/reelbook/lib64
    same 'files left of the stage' "$(files_below "$stage")" ''
    for wrong in relative ./relative "/a folder"; do
        if "$make" --no-print-directory -C "$here" install DESTDIR="$work/none" PREFIX="$wrong" >"$work/log" 2>&1; then
            fail "installed below '$wrong'"
        fi
        grep -q 'to absolute paths without spaces only' "$work/log" || fail "PREFIX='$wrong': $(cat "$work/log")"
    done
    same 'files of a refused installation' "$(find "$work/none" 2>/dev/null || true)" ''
}

# make, make help and make clean; the latter among links to what is here, with folders of its own to remove and to keep.
try_make() {
    help=$("$make" --no-print-directory help)
    same 'make' "$("$make" --no-print-directory)" "$help"
    same 'targets in make help' "$(echo "$help" | sed -n 's/^  make \([a-z-]*\)  .*/\1/p' | sort)" \
        "$(cat Makefile */build.mk | sed -n 's/^\.PHONY: //p' | tr ' ' '\n' | grep -v '^help$' | sort)"
    mkdir "$work/clone"
    for entry in *; do
        ln -s "$here/$entry" "$work/clone/$entry"
    done
    rm -f "$work/clone/build" "$work/clone/crates"
    mkdir -p "$work/clone/build/driver" "$work/clone/crates/reelbook_c/out"
    touch "$work/clone/build/driver/main.o" "$work/clone/crates/reelbook_c/out/proved"
    "$make" --no-print-directory -C "$work/clone" clean >/dev/null
    same 'build/ after make clean' "$(find "$work/clone/build" 2>/dev/null || true)" ''
    same 'crates/ after make clean' "$(files_below "$work/clone/crates")" ./reelbook_c/out/proved
}

for part in files shared_object pkg_config examples pages staged uninstall make; do
    "try_$part"
done
echo "install: $checks checks, all as they should be"
