# The part of tool.sh that is about books converted to the other edition. They are made in the folder `made`.

only_made() { # NAME..: what is in the folder, and nothing else
    holds test "$(echo $(ls -A made))" = "$*"
}

# Of `book`, which stays as it is, byte for byte, and is not written to either.
converts() { # OUT NEW [OPTION]
    wanted=$1 made=made/$2
    shift 2
    cp -f book kept
    touch -r book stamp
    does "$wanted" convert book "$made" "$@"
    holds cmp -s book kept
    holds test -z "$(find book -newer stamp)"
    does "$sound" check "$made"
}

not_zero() { # FILE FROM BYTES: how many of them
    tail -c +$(($2 + 1)) "$1" | head -c "$3" | tr -d '\000' | wc -c | tr -d ' '
}

# Every reel in the sequence of the slots, and its frames in that of the tree; slots, nodes and places.
same_book() { # FILE FILE
    "$tool" dump "$1" >first 2>err && "$tool" dump "$2" >second || fail "no dump: $(cat err)"
    holds cmp -s first second
    "$tool" stat "$1" --by-reel --csv >first && "$tool" stat "$2" --by-reel --csv >second
    holds cmp -s first second
}

# A word that is copied and should be 0 or the other way round; fingerprints of the wrong edition; another sequence of the frames;
# the old book changed, or touched.
there_and_back() {
    old_book
    poke book "$mark_at" 001 # not read in edition 1, and so no table
    poke book "$table_at" 001 001 001
    converts '2 reels, 74 frames converted from edition 1 to edition 2' new
    same_book book made/new
    header >first
    header_of made/new >second
    holds cmp -s first second
    holds test "$(version_of made/new)" = 1
    holds test "$(prints_in made/new 3)$(prints_in book 3)" = ' 32 225 162 144 113 82' # 0, 1 and 2
    holds test "$(not_zero made/new $((root_at + 8)) 16)$(not_zero book $((root_at + 8)) 8)" = 08 # an empty slot
    holds test "$(not_zero made/new $((node_at + 4 * 640)) $((12 * 640)))" = 0 # nodes that no reel has
    holds test "$(not_zero made/new $((node_at + 3 * 640 + 20 * 8)) $((60 * 8)))" = 0 # frames of places without one
    holds test "$(not_zero made/new $((node_at + 5 * 8)) 24)$(not_zero book $((node_at + 5 * 8)) 24)" = 024
    holds test "$(prints_of made/new 3)$(prints_of book 3)" = ' 0 0 90 90' # of places without a frame
    cp book first.book
    mv made/new book
    converts '2 reels, 74 frames converted from edition 2 to edition 1' back
    same_book first.book made/back
    holds test "$(edition_of made/back)$(prints_in made/back 3)" = '1 144 113 82'
    mv book new.book
    mv made/back book
    converts '2 reels, 74 frames converted from edition 1 to edition 2' again
    holds cmp -s made/again new.book
    rm made/again
}

# A map that is not the copy's; a copy that is read by another edition's rule.
work_on_new() {
    for from in first.book new.book; do
        cp "$from" book
        converts "2 reels, 74 frames converted from edition $(edition_of book) to edition $((3 - $(edition_of book)))" new
        mv made/new book
        for frame in 0 12 4294967296; do does yes has book 2 "$frame"; done
        denies has book 2 32
        refuses 'add: reel 2: frame 12: held already (9); 0 frames added before it' add book 2 12
        does '2 frames added' add book 2 8589934592 8589934593
        does '2 frames removed' remove book 1 64 18446744073709551615
        does '' open book 3
        seq 1000 1099 >frames
        input=frames
        warns 3 1015 '100 frames added' add book 3
        input=/dev/null
        does '' retire book 1
        does 'closed cleanly; reels: 2, frames: 106, locate words mended: 0' recover book
        does "$sound" check book
    done
}

convert_forms() {
    cp first.book book
    converts '{"from_edition":1,"to_edition":2,"reels":2,"frames":74}' new --json
    rm made/new
    converts 'from_edition,to_edition,reels,frames
1,2,2,74' new --csv
    rm made/new
    does '' format book --reels 4096 --nodes 1 --force
    converts '0 reels, 0 frames converted from edition 2 to edition 1' new
    rm made/new
    does '' format book --reels 1 --nodes 2 --force
    does '' open book 0
    does '1 frame added' add book 0 "$most"
    converts '1 reel, 1 frame converted from edition 2 to edition 1' new
    rm made/new
}

# What is there stays, whatever it is.
keep_there() {
    cp first.book book
    cp new.book made/book
    echo other >made/other
    ln -s nowhere made/link
    ln -s other made/followed
    for name in made/book made/other made/link made/followed made book /dev/null; do
        unable "convert: $name: exists already, and is not overwritten" convert book "$name"
    done
    holds cmp -s made/book new.book
    holds test "$(cat made/other)" = other
    holds test "$(readlink made/link)" = nowhere
    only_made book followed link other
    rm made/*
    misused 'convert: --force: no such option' convert book made/new --force
    steady='a book that is converted has no name before it is whole'
    misused "convert: --crash-after: $steady" convert book made/new --crash-after 1
    misused 'convert: too few arguments: reelbook convert FILE NEW [--json | --csv]' convert book
    misused 'convert: too many arguments: reelbook convert FILE NEW [--json | --csv]' convert book made/new made/other
    misused 'convert: --json: not with --csv' convert book made/new --json --csv
    unable 'convert: none: No such file or directory' convert none made/new
    unable 'convert: made: Is a directory' convert made made/new
    unable 'convert: kept.text: not a reel book' convert kept.text made/new
    unable 'convert: none/new: No such file or directory' convert book none/new
    (ulimit -f 8 && "$tool" convert book made/new 2>err)
    holds grep -q '^reelbook: convert: made/new: ' err
    only_made
}

# Every refusal of the library; none leaves a file.
refuse_books() {
    "$tool" dump new.book -o text
    does '2 reels, 74 frames loaded' load book text --table plus --force
    refuses "convert: book: an own table can't go to edition 1 (17)" convert book made/new
    poke book "$clean_at" 000
    refuses "convert: book: an own table can't go to edition 1 (17)" convert book made/new
    poke book $((node_at + 3 * 8)) 005
    refuses 'convert: book: the tree is malformed (4)' convert book made/new
    poke book "$table_at" 001 001
    refuses "convert: book: the image's own table lacks some byte (4)" convert book made/new
    poke book "$mark_at" 002
    refuses 'convert: book: word 3 of the image, which is for a table of its own, is neither 0 nor 1 (4)' convert book made/new
    poke book "$image_at" 003
    refuses "convert: book: the image's edition is neither 1 nor 2 (2)" convert book made/new
    poke book $((image_at + 8)) 005
    refuses "convert: book: not closed cleanly, and not recovered: the image's length or numbers are wrong (1)" \
        convert book made/new
    for from in first.book new.book; do
        cp "$from" book
        poke book $((node_at + 8 * 8)) 000 # frame 0's fingerprint
        refuses 'convert: book: the tree is malformed (4)' convert book made/new
        cp "$from" book
        poke book "$image_at" "00$((3 - $(edition_of book)))" # fingerprints by the other rule
        poke book "$mark_at" 000
        refuses 'convert: book: the tree is malformed (4)' convert book made/new
    done
    only_made
}

# The saved map counts for nothing, and a claim that is open is not in the new book.
convert_unclean() {
    cp first.book book
    poke book "$map_at" 125 252
    converts '2 reels, 74 frames converted from edition 1 to edition 2' new
    holds cmp -s made/new new.book
    rm made/new
    poke book "$clean_at" 000
    poke book $((node_at + (80 * 3 + 1) * 8)) 037 # place 4 of node 3 is claimed
    cp book kept
    run convert book made/new
    expect 0 '2 reels, 74 frames converted from edition 1 to edition 2' \
        'convert: book: not closed cleanly; it is left so, and made/new is as after a recovery'
    holds cmp -s book kept
    holds cmp -s made/new new.book
    rm made/new
}

# Whatever a power failure leaves is converted to what a recovery finds there.
convert_after_failures() {
    cp new.book full
    entries=0
    while
        cp full book
        run add book 1 1000 --crash-after $entries --seed $((seed + entries))
        grep -q crashed err
    do
        cp book kept
        run convert book made/new
        holds test "$status" = 0
        holds cmp -s book kept
        same_book book made/new # which recovers the first
        does "$sound" check made/new
        rm made/new
        entries=$((entries + 1))
    done
    holds test "$status$entries" = 09 # a claim, a fill and a commit have two, four and two entries
}

# One that may not be written is converted all the same; one that is in use is not.
convert_shared() {
    cp new.book book
    does '' open book 7
    hold_book
    run convert book made/new
    expect 4 '' 'convert: book: in use by another process'
    only_made
    waits '03 reels, 74 frames converted from edition 2 to edition 1' convert book made/new
    rm made/new
    chmod a+rx .
    if ! as_other "$tool" --version >/dev/null 2>&1; then
        return # tool-files.sh has said so
    fi
    chmod a=r book
    run_as_other convert book made/new
    expect 4 '' 'convert: made/new: Permission denied'
    chmod a+rwx made
    cat book >unclean
    poke unclean "$clean_at" 000
    chmod a=r unclean
    run_as_other convert unclean made/new
    expect 0 '3 reels, 74 frames converted from edition 2 to edition 1' \
        'convert: unclean: not closed cleanly; it is left so, and made/new is as after a recovery'
    same_book book made/new
    rm -f made/new
    chmod 755 made
    chmod u+w book unclean
}

# Killed in any barrier it leaves no book of that name, and the old one as it was; at the end all of it is lasting.
kill_convert() {
    cp first.book book
    pages=0 fail_first=1
    rm -f disk
    on_shadow 0 convert book made/new
    if [ ! -e disk ]; then
        skip 'a conversion killed in its barriers' 'LD_PRELOAD does not work'
        rm -f made/new
        return
    fi
    while rm -f made/new disk && on_shadow "$fail_first" convert book made/new && [ "$status" = 137 ]; do
        holds test ! -e made/new
        holds cmp -s book first.book
        rm -f made/.reelbook-*
        fail_first=$((fail_first + 1))
    done
    holds test "$status" = 0
    holds cmp -s made/new disk
    holds cmp -s made/new new.book
    holds test "$fail_first" -gt 6
    rm made/new
}

try_convert() {
    if ! command -v python3 >/dev/null; then
        skip 'books converted' 'python3 is missing'
        return
    fi
    mkdir made
    there_and_back
    work_on_new
    convert_forms
    echo text >kept.text
    make_table plus '(i + 1) % 256'
    keep_there
    refuse_books
    convert_unclean
    convert_after_failures
    convert_shared
    kill_convert
    rmdir made
}
