# The part of tool.sh that is about editions: books of edition 1, which the tool reads and does not make, and of others, which it
# refuses.

edition_of() { # FILE
    od -A n -t u8 -j "$image_at" -N 8 "$1" | tr -d ' '
}

prints_of() { # FILE NODE: the fingerprints of its places 4 and 5
    od -A n -t u1 -j $((node_at + (80 * $2 + 8) * 8 + 4)) -N 2 "$1" | tr -s ' '
}

old_book() { # the book, and the model of it
    python3 "$here/old-book.py" book >held || fail 'no book of edition 1'
    sort held >model
}

# Soundness or lookups by the eight bytes of edition 2; an edition that stat makes up; a command that reads and writes.
read_old() {
    old_book
    cp book old
    does "$sound" check book
    does 'reels    2 of 4
frames   74
nodes    4 used, 12 free
tidy     frees 0 nodes
deepest  level 1
longest  path of 2 nodes
places   208, 74 used, 74 located
edition  1
table    the library'\''s' stat book
    run stat book --json
    holds grep -q '"edition":1,"own_table":0,"longest_path":2,"tidy_frees":0}$' out
    dump
    holds cmp -s dumped model
    while read -r reel frame <&4; do
        [ -z "$frame" ] || does yes has book "$reel" "$frame"
    done 4<held
    for frame in 32 4294967297 4294967330 18446744073709551613; do denies has book 1 "$frame"; done
    holds cmp -s book old
}

# The start on a book whose power failed with a claim open. Fill by the eight bytes, which lookups by four would not find again;
# an operation or a recovery that changes the edition.
change_old() {
    poke book "$clean_at" 000
    poke book "$map_at" 125 252
    poke book $((node_at + (80 * 3 + 1) * 8)) 037 # place 4 of node 3 is claimed
    run add book 2 8589934592 8589934593
    expect 0 '2 frames added' 'add: book: not closed cleanly; recovered, locate words mended: 1'
    holds test "$(prints_of book 3)" = ' 144 113'
    refuses 'add: reel 2: frame 8589934592: held already (9); 0 frames added before it' add book 2 8589934592
    does '3 frames removed' remove book 2 8589934592 4294967296 0
    denies has book 2 8589934592
    does yes has book 2 8589934593
    does '' open book 3
    does '1 frame added' add book 3 18446744073709551615
    does '' retire book 1
    poke book "$clean_at" 000
    does 'sound; not closed cleanly; locate words that differ: 0' check book
    run recover book
    expect 0 'not closed cleanly; reels: 2, frames: 4, locate words mended: 0' ''
    does "$sound" check book
    holds test "$(edition_of book)" = 1
}

# A format that keeps or writes edition 1; four bytes in edition 2.
make_new() {
    old_book
    run dump book -o dump
    does '2 reels, 74 frames loaded' load new dump
    does "$(cat dump)" dump new
    does '2 frames added' add new 2 8589934592 8589934593
    holds test "$(edition_of new)$(prints_of new 3)" = '2 226 163'
    does '' format book --reels 4 --nodes 16 --force
    holds test "$(edition_of book)" = 2
    does "$sound" check book
    rm dump
}

# The other edition's rule, on a book that was closed cleanly and on one that was not.
misread() { # EDITION
    poke book "$image_at" "00$1"
    unsound 'the tree is malformed (4)'
    denies has book 2 12
    refuses 'recover: book: the tree is malformed (4)' recover book
    poke book "$clean_at" 000
    refuses 'list: book: not closed cleanly, and not recovered: the tree is malformed (4)' list book 1
}

# An edition that is accepted though there is none, or of which the lowest bytes alone are read.
refuse_unknown() {
    for bytes in 000 003 '001 000 000 000 001' '002 000 000 000 000 000 000 200' '377 377 377 377 377 377 377 377'; do
        cp old book
        poke book "$image_at" $bytes
        unsound "the image's edition is neither 1 nor 2 (2)"
        refuses "recover: book: the image's edition is neither 1 nor 2 (2)" recover book
        for name in 'list book 1' 'has book 1 5' 'add book 1 5' 'remove book 1 5' 'open book 1' 'retire book 1'; do
            refuses "${name%% *}: reel 1: the image's edition is neither 1 nor 2 (2)" $name
        done
    done
}

# Power fails on a book of edition 1, as on others; it keeps its edition.
fail_old() {
    old_book
    before_old=$failures
    plan | head -n $((rounds / 8)) >rounds.old
    while read -r line <&4; do
        round $line
        holds test "$(edition_of book)" = 1
    done 4<rounds.old
    failing=
    [ "$rounds" -lt 100 ] || holds test $((failures - before_old)) -gt $((rounds / 40))
}

try_editions() {
    if ! command -v python3 >/dev/null; then
        skip 'books of edition 1' 'python3 is missing'
        return
    fi
    rm -f picture.svg dump new
    read_old
    change_old
    make_new
    cp old book
    misread 2
    mv new book
    misread 1
    refuse_unknown
    fail_old
}
