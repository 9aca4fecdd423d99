#!/bin/sh
# Tries the bench program: Case A, input in pieces, and writes and reads that fail. At the first of these it has to end, with one
# line on standard error and exit status 0. Above the checks of a part stand the faults that they find. tests/bookrun.sh BOOKRUN
set -u
export LC_ALL=C
here=$(cd "$(dirname "$0")" && pwd)
bookrun=$(cd "$(dirname "$1")" && pwd)/$(basename "$1")
case_a=$here/../crates/bookrun
work=$(mktemp -d "${TMPDIR:-/tmp}/reelbook.XXXXXX") || exit 1
trap 'rm -rf "$work"' EXIT
trap 'exit 1' HUP INT TERM
cd "$work" || exit 1
checks=0

fail() {
    echo "bookrun.sh: $1" >&2
    exit 1
}

run() { # INPUT OUTPUT
    "$bookrun" <"$1" >"$2" 2>err
    status=$?
}

# What the last run gave: exit status 0, the file out like OUT, and in the file err the line ERR, or none.
expect() { # WHAT OUT ERR
    checks=$((checks + 1))
    [ "$status" = 0 ] || fail "$1: exit status $status: $(head -n 3 err)"
    cmp -s out "$2" || fail "$1: standard output: $(diff "$2" out | head -n 5)"
    [ "$(cat err)" = "$3" ] || fail "$1: $(wc -l <err) lines on standard error: $(head -n 3 err)"
}

# Lines of every kind, behind COUNT that are none. The list prints twelve frames.
session() { # COUNT
    awk -v count="$1" 'BEGIN {
        while (count-- > 0) print "none"
        print "op=open reel=7"
        for (i = 10; i < 22; i++) {
            print "op=claim head=1 reel=7 frame=184467440737095515" i
            print "op=fill head=1"
            print "op=commit head=1"
        }
        print "op=list reel=7"
        print "op=claim head=0 reel=7 frame=5"
        print "op=abandon head=0"
        print "op=remove reel=7 frame=18446744073709551510"
        print "op=has reel=7 frame=18446744073709551510"
        print ""
        most = "18446744073709551615"
        print "op=claim head=" most " reel=" most " frame=" most
        print "op=retire reel=7"
    }'
}

# Another output than document 01's; a line that the end of the input ends and that is not run.
try_case_a() {
    run "$case_a/stdin" out
    expect 'Case A' "$case_a/stdout" ''
    printf %s "$(cat "$case_a/stdin")" >input
    run input out
    expect 'Case A without its last newline' "$case_a/stdout" ''
}

# The bytes of a line that are in another piece than its newline lost, or run as a line of their own.
try_pieces() {
    for count in 3 0 9 1 0; do session "$count"; done >input
    printf 'op=open reel=7' >>input
    run input whole
    lines=$(($(grep -c '' input) + 5 * 12))
    [ "$(grep -c '^answer=\|^frame=' whole)" = "$lines" ] || fail "not $lines lines: $(head -n 3 whole)"
    for size in 1 2 3 7 26 79 80 81 82 83 1000 4095 4096; do
        python3 "$here/pieces.py" "$size" "$bookrun" <input >out 2>err
        status=$?
        expect "in pieces of $size bytes" whole ''
    done
}

# An error for each line; another piece read behind the error; a kind of line, or the last one, that does not tell that its answer
# is not written; bytes of a line run behind the error.
try_full() {
    if [ ! -w /dev/full ]; then
        echo 'skipped: a full disk, because /dev/full is missing'
        return
    fi
    : >out
    full='standard output: No space left on device'
    session 1000 >input
    {
        "$bookrun" >/dev/full 2>err
        status=$?
        cat >unread
    } <input
    expect 'a full disk' /dev/null "$full"
    tail -c +4097 input | cmp -s - unread || fail "a full disk: unread are $(wc -c <unread) bytes, not all behind the first 4096"
    session 1 | sort -u -t ' ' -k 1,1 >kinds
    while read -r kind; do
        { echo "$kind" && session 0; } >input
        run input /dev/full
        expect "a full disk: $kind" /dev/null "$full"
    done <kinds
    session 1 >input
    python3 "$here/pieces.py" 3 "$bookrun" <input >/dev/full 2>err
    status=$?
    expect 'a full disk: the first line in pieces' /dev/null "$full"
    printf none >input
    run input /dev/full
    expect 'a full disk: the last line, without a newline' /dev/null "$full"
}

# Frames printed behind one, or behind an answer, that is not written; lines run behind such a list. The file may have 1024 bytes:
# they end in the list's second frame, in its first, in its answer, then in a commit's and a fill's answer.
try_limit() {
    for count in 0 1 2 3 4; do
        session "$count" >input
        run input whole
        head -c 1024 whole >start
        (trap '' XFSZ && ulimit -f 2 && exec "$bookrun" <input >out 2>err)
        status=$?
        expect "a file that may not grow, $count" start 'standard output: File too large'
    done
}

# An error for each line. Where nobody reads a pipe a signal ends the program, unless it was started with the signal ignored.
try_streams() {
    session 1000 >input
    : >out
    "$bookrun" <input >&- 2>err
    status=$?
    expect 'standard output closed' /dev/null 'standard output: Bad file descriptor'
    mkfifo pipe
    exec 3<>pipe # a reader, without whom the next line would wait
    exec 4>pipe
    exec 3<&-
    (trap '' PIPE && exec "$bookrun" <input >&4 2>err)
    status=$?
    expect 'a pipe that nobody reads' /dev/null 'standard output: Broken pipe'
    "$bookrun" <input >&4 2>err
    status="$? $(cat err)"
    exec 4>&-
    checks=$((checks + 1))
    [ "$status" = '141 ' ] || [ "$status" = '0 standard output: Broken pipe' ] || fail "a pipe that nobody reads: $status"
}

# More than an error, or an answer to no line; a line run though its end was not read.
try_reads() {
    run . out
    expect 'a folder' /dev/null 'standard input: Is a directory'
    "$bookrun" <&- >out 2>err
    status=$?
    expect 'standard input closed' /dev/null 'standard input: Bad file descriptor'
    printf %s "$(cat "$case_a/stdin")" >input
    sed '$d' "$case_a/stdout" >start
    python3 "$here/pieces.py" 100 "$bookrun" fails <input >out 2>err
    status=$?
    expect 'a read that fails in the last line of Case A' start 'standard input: Resource temporarily unavailable'
}

for part in case_a pieces full limit streams reads; do "try_$part"; done
echo "bookrun: $checks checks; all as they should be"
