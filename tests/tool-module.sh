# The part of tool.sh that is about a memory module with line flushes: --module and --entries. The book `ours` gets each command
# without it, the book `book` with it.

# The same command on both: the same status and output, the same bytes in the file.
both() { # COMMAND REEL..
    run "$1" ours $(shift && echo "$@")
    mv out out.ours
    mv err err.ours
    before=$status
    run "$1" book $(shift && echo "$@") --module
    holds test "$status" = "$before"
    holds cmp -s out out.ours
    holds cmp -s err err.ours
    holds cmp -s book ours
}

try_same_book() {
    rm -f book ours loaded other
    does '' format ours --reels 4 --nodes 16
    does '' format book --reels 4 --nodes 16 --module
    holds cmp -s book ours
    for thing in 'open 7' 'open 7' "add 7 $(seq -s ' ' 0 8 512)" 'add 7 1 9 17 8' 'remove 7 512 8' 'remove 7 8' 'open 9' \
        'add 9 1' 'tidy 7' 'retire 9' 'retire 9' 'recover'; do
        both $thing
    done
    "$tool" dump book -o dump || fail 'no dump'
    does '1 reel, 66 frames loaded' load loaded dump
    does '1 reel, 66 frames loaded' load loaded_so dump --module
    holds cmp -s loaded loaded_so
    does '1 reel, 66 frames converted from edition 2 to edition 1' convert book other
    does '1 reel, 66 frames converted from edition 2 to edition 1' convert book other_so --module
    holds cmp -s other other_so
    rm -f loaded loaded_so other other_so
    for word in has list stat check draw dump table reels; do
        misused "$word: --module: no such option" $word book 7 --module
    done
    misused 'add: --module: takes no value' add book 7 3 --module=1
    for word in format load convert recover has; do
        misused "$word: --entries: no such option" $word book --entries
    done
}

has_entries() { # STORES FLUSHES BARRIERS OUT COMMAND..: without --module no flush, with it so many
    wanted_entries="stores: $1, line flushes: $2, barriers: $3" without="stores: $1, line flushes: 0, barriers: $3" wanted=$4
    shift 4
    cp -f book kept
    run "$@" --entries
    expect 0 "$wanted" "$1: $without"
    cp -f book plain
    cp -f kept book
    run "$@" --entries --module
    expect 0 "$wanted" "$1: $wanted_entries"
    holds cmp -s book plain
}

# The entries by hand, from what the specification has each operation store. Line 0 of the image is words 0 to 7; slot 0 is
# words 64 and 65, node 0 is words 72 to 151: its link, bitmaps, level and size, 72 to 76, are line 9, its fingerprints line 10,
# its frames from line 11 on.
try_entries() {
    does '' format book --reels 4 --nodes 16 --force
    has_entries 7 3 2 '' open book 7               # next, locate, set, level, size, reel; barrier; root; barrier
    has_entries 4 4 4 '1 frame added' add book 7 5 # locate; frame; fingerprint; set
    has_entries 2 2 2 '1 frame removed' remove book 7 5
    has_entries 0 0 0 '0 nodes freed' tidy book 7
    has_entries 1 1 1 '' retire book 7
    run open book 7 --entries --module --crash-after "$most"
    expect 0 '' 'open: ended before the power failure, after 12 entries
reelbook: open: stores: 7, line flushes: 3, barriers: 2'
}

# A claim that branches out into four children: power fails after each entry of the three scripts, with several mixtures each, on
# the module. Recovered, the reel holds the frame or it does not, and it does once the last barrier has passed, and not before the
# commit's store.
try_cut_claim() {
    does '' format book --reels 4 --nodes 16 --force
    does '' open book 7
    run add book 7 $(seq 0 8 2040)
    holds test "$status" = 0
    cp book base
    run add book 7 2048 --module --entries --crash-after "$most"
    passed=$(sed -n 's/.*: ended before the power failure, after \([0-9]*\) entries$/\1/p' err)
    # five words of each child, in a line each; barrier; the link; barrier; locate; barrier; frame, fingerprint and set as ever
    holds grep -qx "reelbook: add: stores: $((4 * 5 + 2 + 3)), line flushes: $((4 + 2 + 3)), barriers: 6" err
    holds test "$passed" = 40
    dump
    mv dumped with
    cp base book
    dump
    mv dumped without
    entries=0 seen=
    while [ "$entries" -le "$passed" ]; do
        for chance in 1 2 3; do
            cp base book
            run add book 7 2048 --module --crash-after $entries --seed $chance
            failing=$command
            holds grep -q "^reelbook: add: crashed after $entries entr" err
            dump
            if cmp -s dumped with; then now=1; else now=0; fi
            [ $now = 1 ] || holds cmp -s dumped without
            [ "$entries" -lt $((passed - 2)) ] || seen=$seen$now
            [ "$entries" -ge $((passed - 2)) ] || holds test $now = 0
            does "$sound" check book
        done
        entries=$((entries + 1))
    done
    failing=
    case $seen in ??????111) ;; *) fail "after the last barrier the frame is not held: $seen" ;; esac
    case $seen in *0*111) ;; *) fail "a store that no barrier followed is never lost: $seen" ;; esac
}

# The module's rule: a store that is flushed and not fenced may be lost, a claim's and a recovery's. A claim of a clear place is a
# store, a flush and a barrier; a recovery here a store, the 169 lines of the image, and a barrier.
try_fences() {
    does '' format book --reels 4 --nodes 16 --force
    does '' open book 7
    cp book good
    all=11111111111111111111 none=00000000000000000000
    for entries in 1 2; do
        fail_often good add book 7 99 --module --crash-after $entries
        holds mixed
    done
    fail_often good add book 7 99 --module --crash-after 3
    holds test "$outcomes" = $all
    cp differs cut
    fail_often cut recover book --module --crash-after 0
    holds test "$outcomes" = $all
    for entries in 1 2 170; do
        fail_often cut recover book --module --crash-after $entries
        holds mixed
    done
    fail_often cut recover book --module --crash-after 171
    holds test "$outcomes" = $none
    cp cut book
    run recover book --module --crash-after 172
    expect 0 'not closed cleanly; reels: 1, frames: 0, locate words mended: 1' \
        'recover: ended before the power failure, after 171 entries'
}

try_module() {
    try_same_book
    try_entries
    try_cut_claim
    try_fences
}
