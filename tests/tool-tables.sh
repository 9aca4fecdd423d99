# The part of tool.sh that is about a book's own table: given to format and load, stored, used, written out, damaged.

mark_at=$((image_at + 3 * 8))
table_at=$((image_at + 8 * 8))

make_table() { # FILE ENTRY: of which entry i is this term of awk's
    printf "$(awk "BEGIN { for (i = 0; i < 256; i++) printf \"\\\\%03o\", $2 }")" >"$1"
}

word() { # NUMBER: below 256, as a word
    printf "\\$(printf %03o "$1")\\000\\000\\000\\000\\000\\000\\000"
}

zeros() { # BYTES
    head -c "$1" /dev/zero
}

# The header of a book with 4 slots and 16 nodes, as the specification has it.
header() { # [TABLE]
    word 2
    word 4
    word 16
    if [ $# = 1 ]; then
        word 1
        zeros $((4 * 8))
        cat "$1"
        zeros $((24 * 8))
    else
        zeros $((61 * 8))
    fi
}

header_of() { # FILE
    tail -c +$((image_at + 1)) "$1" | head -c 512
}

version_of() { # FILE: which the tools before 4.0 refuse unless it is 1
    od -A n -t u8 -j 8 -N 8 "$1" | tr -d ' '
}

prints_in() { # FILE COUNT: the first fingerprints of node 0
    od -A n -t u1 -j $((node_at + 8 * 8)) -N "$2" "$1" | tr -s ' '
}

# It is in the image, word by word; the file's version tells; stat tells; table writes it.
has_own() { # FILE TABLE
    holds test "$(version_of "$1")" = 2
    header "$2" >wanted
    header_of "$1" >found
    holds cmp -s wanted found
    run stat "$1"
    holds test "$(tail -n 1 out)" = "table    the book's own"
    run stat "$1" --json
    holds grep -q '"edition":2,"own_table":1,"longest_path"' out
    run stat "$1" --csv
    holds test "$(cut -d , -f 10 out | tr '\n' ' ')" = 'own_table 1 '
    "$tool" table "$1" >written 2>err
    holds test "$?$(cat err)" = 0
    holds cmp -s written "$2"
    rm written
    does '' table "$1" -o written
    holds cmp -s written "$2"
}

has_none() { # FILE
    holds test "$(version_of "$1")" = 1
    header >wanted
    header_of "$1" >found
    holds cmp -s wanted found
    run stat "$1"
    holds test "$(tail -n 1 out)" = "table    the library's"
    run stat "$1" --json
    holds grep -q '"edition":2,"own_table":0,"longest_path"' out
    rm -f written
    run table "$1" -o written
    expect 1 '' "table: $1: no table of its own"
    holds test ! -e written
}

# A table that is stored elsewhere, in another sequence or not at all, or is left by a format without one.
give_tables() {
    for name in identity reversed plus usual; do
        does '' format new --reels 4 --nodes 16 --table $name --force
        has_own new $name
        does "$sound" check new
    done
    does '' format new --reels 4 --nodes 16 --force
    has_none new
    input=plus
    does '' format new --reels 4 --nodes 16 --table=- --force
    input=/dev/null
    has_own new plus
    { head -c 100 identity && sleep 0.2 && tail -c +101 identity; } |
        "$tool" format new --reels 4 --nodes 16 --table - --force >out 2>err
    holds test "$?$(cat out err)" = 0
    has_own new identity
    cp plus new
    does '' format new --reels 4 --nodes 16 --table new --force # read before it is overwritten
    has_own new plus
    rm new
}

# Neither makes a file nor changes one.
gives_not() { # STATUS ERR TABLE
    for name in 'format new' 'format book --force'; do
        ends_with "$1" "format: $2" $name --reels 4 --nodes 16 --table "$3"
    done
    for name in 'load new dump' 'load book dump --force'; do ends_with "$1" "load: $2" $name --table "$3"; done
    holds test ! -e new
    for left in .reelbook-*; do holds test ! -e "$left"; done
}

refuse_tables() {
    : >none
    head -c 1 identity >one
    head -c 255 identity >short
    { cat identity && zeros 1; } >long
    cat identity identity >twice
    zeros 256 >zeros
    gives_not 3 'none: not a table: 0 bytes instead of 256' none
    gives_not 3 'one: not a table: 1 byte instead of 256' one
    gives_not 3 'short: not a table: 255 bytes instead of 256' short
    gives_not 3 'long: not a table: more than 256 bytes' long
    gives_not 3 'twice: not a table: more than 256 bytes' twice
    gives_not 3 'book: not a table: more than 256 bytes' book
    gives_not 3 'zeros: not a table: it lacks the byte 1' zeros
    for value in 0 7 128 255; do
        make_table lacking "i == $value ? (i + 9) % 256 : i"
        gives_not 3 "lacking: not a table: it lacks the byte $value" lacking
    done
    gives_not 4 'missing: No such file or directory' missing
    gives_not 4 '.: Is a directory' .
    input=short
    ends_with 3 'format: standard input: not a table: 255 bytes instead of 256' format new --reels 4 --nodes 16 --table -
    input=identity
    ends_with 3 'load: --table: - only where the dump is in a file' load new --table -
    ends_with 3 'load: --table: - only where the dump is in a file' load new - --table -
    input=/dev/null
    "$tool" format new --reels 4 --nodes 16 --table - <&- >out 2>err
    holds test "$?$(cat out err)" = '4reelbook: format: standard input: Bad file descriptor'
    misused 'format: --table: TABLE is missing' format new --reels 4 --nodes 16 --table
    misused 'open: --table: no such option' open book 1 --table identity
    misused 'format: --reels: from 1 to 4096' format new --reels 0 --nodes 16 --table short
    unable 'format: book: exists already; --force overwrites it' format book --reels 4 --nodes 16 --table identity
    holds test ! -e new
    if as_other "$tool" --version >/dev/null 2>&1; then
        cp identity secret
        chmod 000 secret
        run_as_other format new --reels 4 --nodes 16 --table secret
        expect 4 '' 'format: secret: Permission denied'
        rm -f secret
    fi
    rm none one short long twice zeros lacking
}

# Fingerprints by another table or in another sequence of bytes. By the identity one is the xor of the eight bytes; by the table
# that adds 1, that of 0 is 8, that of 258, of which the low bytes are 2 and 1, is 2 + 1 = 3, (3 xor 1) + 1 = 3, and 6 more.
use_tables() {
    frames="0 1 258 4294967296 18446744073709551614 $most"
    for name in identity:' 0 1 3 1 1 0' plus:' 8 9 9 9 1 0'; do
        does '' format book --reels 4 --nodes 16 --table "${name%%:*}" --force
        does '' open book 7
        does '6 frames added' add book 7 $frames
        holds test "$(prints_in book 6)" = "${name#*:}"
        does "$sound" check book
        for frame in $frames; do does yes has book 7 "$frame"; done
        for frame in 2 257 4294967297; do denies has book 7 "$frame"; done
        refuses 'add: reel 7: frame 258: held already (9); 0 frames added before it' add book 7 258
        does '2 frames removed' remove book 7 258 "$most"
        refuses 'remove: reel 7: frame 258: not held (10); 0 frames removed before it' remove book 7 258
        does "$(printf '0\n1\n4294967296\n18446744073709551614')" list book 7
        does 'closed cleanly; reels: 1, frames: 4, locate words mended: 0' recover book
        has_own book "${name%%:*}"
        seq 100 260 >frames
        input=frames
        warns 7 111 '161 frames added' add book 7
        input=/dev/null
        does "$sound" check book
        does '' retire book 7
        does '' open book 7
        does '' list book 7
        has_own book "${name%%:*}"
    done
}

# A table that comes with a dump, or is lost though it is given.
copy_tables() {
    does '' format book --reels 4 --nodes 16 --table plus --force
    does '' open book 7
    does '3 frames added' add book 7 12 5 "$most"
    does '' dump book -o dump
    holds test "$(cat dump)" = "$(text 'reel 7' 12 5 "$most")"
    does '1 reel, 3 frames loaded' load new dump
    has_none new
    "$tool" dump book | "$tool" load new --force --table plus >out 2>err
    holds test "$(cat out err)" = '1 reel, 3 frames loaded'
    has_own new plus
    holds test "$(prints_in new 3)" = "$(prints_in book 3)"
    cp new first
    "$tool" table book | "$tool" load new dump --force --table - >out 2>err
    holds test "$(cat out err)" = '1 reel, 3 frames loaded'
    holds cmp -s new first
    does '1 reel, 3 frames loaded' load new dump --force --table identity
    has_own new identity
    does "$(cat dump)" dump new
    cp new first
    unable 'table: new: a reel book, not overwritten' table book -o new
    holds cmp -s new first
    rm new first dump
    if ! command -v python3 >/dev/null; then
        skip 'a table for a terminal' 'python3 is missing'
        return
    fi
    for to in '' '-o -'; do
        python3 -c 'import pty, subprocess, sys; sys.exit(subprocess.run(sys.argv[1:], stdout=pty.openpty()[1]).returncode)' \
            "$tool" table book $to 2>err
        holds test "$?$(cat err)" = \
            '3reelbook: table: a table is no text, and standard output is a terminal; -o OUT writes it to a file'
    done
}

# The book, which has a bad table, is refused by every command, and stays as it is. No other refusal comes first.
bad_table() { # WHY
    unsound "$1"
    refuses "table: book: not sound: $1" table book -o written
    refuses "recover: book: $1" recover book
    for name in 'list book 7' 'has book 7 12' 'add book 7 12' 'remove book 7 12' 'open book 7' 'retire book 7'; do
        refuses "${name%% *}: reel 7: $1" $name
    done
    refuses "has: reel 8: $1" has book 8 12
    poke book "$clean_at" 000
    refuses "check: book: not sound: $1; not closed cleanly" check book
    for name in 'list book 7' 'table book' 'stat book'; do
        refuses "${name%% *}: book: not closed cleanly, and not recovered: $1" $name
    done
    does '' format book --reels 4 --nodes 16 --force
    has_none book
    cp good book
}

# A mark of which the lowest byte alone is read; a table of which some entries are not; a table that is read without a mark.
damage_tables() {
    rm -f written
    cp book good
    neither='word 3 of the image, which is for a table of its own, is neither 0 nor 1 (4)'
    for bytes in 002 '000 001' '001 001' '001 000 000 000 000 000 000 200' '377 377 377 377 377 377 377 377'; do
        poke book "$mark_at" $bytes
        bad_table "$neither"
    done
    for at in 0 1 7 8 128 254 255; do # an entry becomes the one of 100
        poke book $((table_at + at)) 145
        bad_table "the image's own table lacks some byte (4)"
    done
    poke book "$mark_at" 002
    poke book "$image_at" 003
    refuses "has: reel 7: the image's edition is neither 1 nor 2 (2)" has book 7 12
    cp good book
    poke book $((table_at + 12)) 016 015 # two entries exchanged: frame 12 has another fingerprint
    unsound 'the tree is malformed (4)'
    denies has book 7 12
    cp good book
    poke book "$mark_at" 000
    unsound 'the tree is malformed (4)'
    denies has book 7 12
    does '2 frames added' add book 7 12 13
    cp good book
    for at in 4 7 40 63; do poke book $((image_at + 8 * at)) 377 377; done # words that are not read
    does "$sound" check book
    does yes has book 7 12
    does '' format book --reels 4 --nodes 16 --force
    poke book "$table_at" 001 001 001
    does "$sound" check book
    does '' open book 7
    does '1 frame added' add book 7 0
    holds test "$(prints_in book 1)" = ' 32'
    poke book "$clean_at" 000
    run recover book
    expect 0 'not closed cleanly; reels: 1, frames: 1, locate words mended: 0' ''
    cp good book
}

# A book of edition 1 with anything in these words has no table, and none of them is bad.
ignore_old() {
    command -v python3 >/dev/null || return
    old_book
    poke book "$mark_at" 007
    poke book "$table_at" 001 001 001
    does "$sound" check book
    ends_with 1 'table: book: no table of its own' table book
    does '1 frame added' add book 2 8589934592
    does yes has book 2 8589934592
    poke book "$mark_at" 001
    does "$sound" check book
    ends_with 1 'table: book: no table of its own' table book
}

# Power fails on a book with its own table, as on others; it keeps its table.
fail_own() {
    does '' format book --reels 4 --nodes 13 --table plus --force
    header_of book >wanted
    stock_three
    before_own=$failures
    plan | tail -n $((rounds / 8)) >rounds.own
    while read -r line <&4; do
        round $line
        header_of book >found
        holds cmp -s wanted found
    done 4<rounds.own
    failing=
    [ "$rounds" -lt 100 ] || holds test $((failures - before_own)) -gt $((rounds / 40))
}

try_tables() {
    rm -f picture.svg dump new written
    make_table identity i
    make_table reversed '255 - i'
    make_table plus '(i + 1) % 256'
    make_table usual '(167 * i + 13) % 256'
    give_tables
    does '' format book --reels 4 --nodes 16 --force
    does '' dump book -o dump
    refuse_tables
    use_tables
    copy_tables
    damage_tables
    ignore_old
    fail_own
}
