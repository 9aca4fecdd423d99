# The part of tool.sh that is about how far a lookup goes: has --nodes, and the longest path, which stat tells. All of it is on
# the book `path`.

tells() { # ANSWER NODES REEL FRAME: and without --nodes the answer alone
    wanted_status=$([ "$1" = yes ] && echo 0 || echo 1)
    run has path "$3" "$4" --nodes
    expect "$wanted_status" "$1 $2" ''
    run has path "$3" "$4"
    expect "$wanted_status" "$1" ''
}

longest() { # NODES [REEL:NODES..]: of the book, and of each reel, in every form
    wanted=$1
    shift
    run stat path --by-reel
    holds grep -qx "longest  path of $wanted node$([ "$wanted" = 1 ] || echo s)" out
    holds test "$(echo $(awk 'NF == 10 && $1 != "reel" { print $1 ":" $9 }' out))" = "$*"
    run stat path --json
    holds grep -q "\"longest_path\":$wanted," out
    run stat path --csv
    holds test "$(echo $(sed 's/.*,\(.*\),.*/\1/' out))" = "longest_path $wanted"
    run stat path --csv --by-reel
    holds test "$(echo $(sed '1d; s/,.*,\(.*\),.*/:\1/' out))" = "$*"
}

# Power fails in adding a frame, and recovery follows; then the book is as it was before.
cut_at() { # ENTRIES ANSWER NODES FRAME
    cp path kept.path
    run add path 7 "$4" --crash-after "$1" --seed 1
    expect 0 '' "add: crashed after $1 entr$([ "$1" = 1 ] && echo y || echo ies), seed 1"
    run recover path
    holds test "$status" = 0
    tells "$2" "$3" 7 "$4"
    longest "$3" "7:$3"
    mv kept.path path
}

# One number for all; one that is about the place where the frame is found; 0 or nothing for a frame that is not held; one that
# becomes less when frames go, or counts the frames. Cut short, the 64th leaves it 1. The 65th makes it 2 once its children are
# linked, which is the twelfth of 21 entries, lasting with the thirteenth.
try_one_node() {
    does '' format path --reels 3 --nodes 128
    longest 0
    does '' open path 7
    tells no 1 7 0
    longest 1 7:1
    warns 7 15 '63 frames added' add path 7 $(seq 0 62)
    for entries in 0 1 2 3 4 5 6; do cut_at $entries no 1 63; done
    cut_at 8 yes 1 63
    warns 7 63 '1 frame added' add path 7 63
    for frame in 0 1 63; do tells yes 1 7 $frame; done
    for frame in 64 65 "$most"; do tells no 1 7 $frame; done
    longest 1 7:1
    for entries in 0 5 10 11; do cut_at $entries no 1 64; done
    for entries in 13 14 15 19; do cut_at $entries no 2 64; done
    cut_at 21 yes 2 64
    does '1 frame added' add path 7 64
    for frame in 0 1 63 64; do tells yes 2 7 $frame; done
    for frame in 65 66 "$most"; do tells no 2 7 $frame; done
    does '64 frames removed' remove path 7 $(seq 1 64)
    tells yes 2 7 0
    tells no 2 7 64
    longest 2 7:2
}

# The longest path of one reel, the first or the last; of the frames that are held; down the first child alone, or for every frame
# of a reel: here odd frames go deeper, and below the root's second child there are none.
try_reels() {
    does '' open path 8
    longest 2 7:2 8:1
    does '' open path 9
    run add path 9 $(seq 1 2 257)
    holds test "$(cat out)" = '129 frames added'
    does '1 frame removed' remove path 9 257
    tells yes 3 9 1
    tells no 3 9 257
    tells no 3 9 259
    tells no 2 9 0
    longest 3 7:2 8:1 9:3
    does '' retire path 7
    longest 3 8:1 9:3
    does '' open path 6 # in the first slot
    longest 3 6:1 8:1 9:3
    does '' retire path 9
    longest 1 6:1 8:1
    does '' retire path 6
    does '' retire path 8
    longest 0
}

# 2^60 is in the root. Then odd multiples of 2^52, which agree in the bits that lead down to level 27, and so fill these levels;
# then of ever higher powers, to fill one level each; and 2^59 comes to level 31.
try_longest() {
    does '' open path 7
    awk 'function odd(count, bits) { for (i = 0; i < count; i++) printf "%.0f\n", (2 * i + 1) * 2 ^ bits }
        BEGIN { odd(1, 60); odd(28 * 64 - 1, 52); odd(64, 53); odd(64, 55); odd(64, 57); odd(1, 59) }' >frames
    input=frames
    run add path 7
    input=/dev/null
    holds test "$(cat out)" = '1985 frames added'
    longest 32 7:32
    tells yes 32 7 576460752303423488  # 2^59
    tells yes 32 7 1152921504606846976 # 2^60
    tells yes 29 7 4503599627370496    # 2^52, in the root too
    tells no 32 7 0
    tells no 2 7 1
    tells no 3 7 2
    tells no 5 7 8
    does "$sound" check path
    does "1 reel, 1985 frames converted from edition 2 to edition 1" convert path old-path
    mv old-path path
    longest 32 7:32
    tells yes 32 7 576460752303423488
    does '' dump path -o dump
    does '1 reel, 1985 frames loaded' load path dump --force
    longest 32 7:32
    rm dump
}

# An option of has alone, which takes no value, where that of format and load does; a number at a refusal.
try_lookups() {
    try_one_node
    try_reels
    try_longest
    run has --nodes path 7 0
    expect 1 'no 32' ''
    misused 'has: --nodes: takes no value' has path 7 0 --nodes=1
    misused 'has: too many arguments: reelbook has FILE REEL FRAME [--nodes]' has path 7 0 --nodes 1
    for name in 'list path 7' 'add path 7 1' 'stat path'; do
        misused "${name%% *}: --nodes: no such option" $name --nodes
    done
    misused 'format: --nodes: N is missing' format new --reels 1 --nodes
    refuses 'has: reel 8: no such reel (5)' has path 8 0 --nodes
    poke path "$image_at" 003
    refuses "has: reel 7: the image's edition is neither 1 nor 2 (2)" has path 7 0 --nodes
    run has --help
    holds grep -q '^  --nodes  .*number of nodes' out
    run load --help
    holds grep -q '^  --nodes N  .*pool' out
    rm path
}
