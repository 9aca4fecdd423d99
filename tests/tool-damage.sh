# The part of tool.sh that is about books that were not closed cleanly, and damaged ones.

# A book that was not closed cleanly is recovered from the image alone.
try_recovery() {
    cp book good
    "$tool" list good 7 >frames
    poke book "$clean_at" 000
    poke book "$map_at" 125 252 377 377
    does 'sound; not closed cleanly; locate words that differ: 0' check book
    run list book 7
    holds cmp -s out frames
    holds test "$(cat err)" = 'reelbook: list: book: not closed cleanly; recovered, locate words mended: 0'
    holds cmp -s book good
    poke book "$map_at" 000
    refuses "check: book: not sound: the saved map is not the image's; closed cleanly" check book
    does 'closed cleanly; reels: 1, frames: 167, locate words mended: 0' recover book
    holds cmp -s book good
    poke book "$((node_at + 8))" 000
    does 'sound; closed cleanly; locate words that differ: 1' check book
    does 'closed cleanly; reels: 1, frames: 167, locate words mended: 1' recover book
    holds cmp -s book good
}

# What counts, draws or dumps checks first, whatever the clean flag says.
unsound() { # WHY
    refuses "check: book: not sound: $1; closed cleanly" check book
    refuses "stat: book: not sound: $1" stat book
    refuses "reels: book: not sound: $1" reels book
    refuses "dump: book: not sound: $1" dump book -o dump
    refuses "draw: book: not sound: $1" draw book -o picture.svg
    holds test ! -e picture.svg
    holds test ! -e dump
}

# A damaged one is refused and left alone.
try_damage() {
    rm -f picture.svg dump
    poke book "$((node_at + 3 * 8))" 005
    unsound 'the tree is malformed (4)'
    refuses 'recover: book: the tree is malformed (4)' recover book
    refuses 'has: reel 7: the tree is malformed (4)' has book 7 5
    refuses 'retire: reel 7: the tree is malformed (4)' retire book 7
    poke book "$clean_at" 000
    refuses 'list: book: not closed cleanly, and not recovered: the tree is malformed (4)' list book 7
    refuses 'stat: book: not closed cleanly, and not recovered: the tree is malformed (4)' stat book
    cp good book
    poke book "$((node_at + 3 * 8))" 101 # level 65
    unsound 'the tree is malformed (4)'
    cp good book
    poke book "$root_at" 377 377
    unsound 'the tree is malformed (4)'
    cp good book
    poke book "$map_at" 000
    unsound "the saved map is not the image's"
    cp good book
    poke book "$((node_at + 8))" 000 # a locate word that differs is no fault, and is counted as it is
    run stat book
    holds grep -qx 'places   192, 167 used, 159 located' out
    cp good book
    poke book "$image_at" 003
    unsound "the image's edition is neither 1 nor 2 (2)"
    refuses "list: reel 7: the image's edition is neither 1 nor 2 (2)" list book 7
    poke book "$((image_at + 8))" 005
    refuses "list: book: the image's length or numbers are wrong (1)" list book 7
    cp good book
    for version in 000 003 '001 001'; do
        poke book 8 $version
        unable 'check: book: a reel book of another version' check book
    done
    poke book 0 000
    unable 'check: book: not a reel book' check book
    cp good book
}
