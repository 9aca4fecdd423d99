#!/bin/sh
# The library holds functions and constants only: no memory of its own that is written, so that books in different threads share
# nothing; no name but those of the header; nothing needed but memset. Archives with a fault each show that it would be found.
# tests/archive.sh ARCHIVE, from the repository's folder; CC is the compiler.
set -eu
export LC_ALL=C
archive=$1
cc=${CC:-cc}
work=$(mktemp -d "${TMPDIR:-/tmp}/reelbook.XXXXXX")
trap 'rm -rf "$work"' EXIT
trap 'exit 1' HUP INT TERM

fail() {
    echo "archive.sh: $1" >&2
    exit 1
}

for need in nm readelf; do
    command -v "$need" >/dev/null || fail "$need is missing: apt-get install binutils"
done

# Sections that are loaded and writable and not empty, thread-local ones too; and what has no section yet.
writable() {
    readelf -SW "$1" |
        sed -n -E 's/.* [0-9a-f]{16} [0-9a-f]+ ([0-9a-f]+) [0-9a-f]+ +[A-Z]*W[A-Z]* .*/writable section of 0x\1 bytes/p' |
        grep -v ' 0x0* bytes' || true
    nm "$1" | sed -n 's/.* [BbCcDdGgSsVvu] /writable symbol /p'
}

strange_names() {
    sed -n 's/^uint64_t \(reelbook_[a-z]*\)(.*/\1/p' include/reelbook.h | sort >"$work/declared"
    nm -g --defined-only "$1" | awk 'NF == 3 { print $3 }' | sort | diff "$work/declared" - | sed -n 's/^[<>]/name/p'
}

needs() {
    nm -u "$1" | awk '$1 == "U" && $2 != "memset" { print "needs " $2 }'
}

# What TEST says of the archive with a piece of C more; FLAGS are the compiler's.
with_more() { # TEST CODE [FLAGS]
    cp "$archive" "$work/more.a"
    printf '%s\n' "$2" >"$work/more.c"
    # shellcheck disable=SC2086 # a word for each flag
    $cc ${3:-} -O0 -c -o "$work/more.o" "$work/more.c"
    ar q "$work/more.a" "$work/more.o"
    "$1" "$work/more.a"
}

finds() { # TEST CODE [FLAGS]
    [ -n "$(with_more "$@")" ] || fail "$1 does not find: $2"
}

passes() { # TEST CODE [FLAGS]
    [ -z "$(with_more "$@")" ] || fail "$1 finds, wrongly: $2"
}

for test in writable strange_names needs; do
    found=$("$test" "$archive")
    [ -z "$found" ] || fail "$archive: $found"
done
finds writable 'static int counter; int count(void) { return ++counter; }'
finds writable 'int initial = 1;'
finds writable 'int common;' -fcommon
finds writable 'static __thread int own; int *address(void) { return &own; }'
passes writable 'static const int table[2] = {1, 2}; const int *constant(void) { return table; }'
finds strange_names 'int other(void) { return 0; }'
passes strange_names 'static int other(void) { return 0; }' -Wno-unused-function
finds needs 'void *malloc(unsigned long); void *reserve(void) { return malloc(8); }' -fno-builtin
passes needs 'void *memset(void *, int, unsigned long); void *clear(void *p) { return memset(p, 0, 8); }' -fno-builtin
echo 'archive: no writable data, the names of the header, memset alone needed; 6 faults found'
