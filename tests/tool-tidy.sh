# The part of tool.sh that is about giving back empty groups: tidy, and the nodes that stat says it frees. All of it is on the
# book `tidied`, with room for 4 reels.

frees() { # NODES [REEL:NODES..]: what stat says, of the book and of each reel, in every form
    wanted=$1
    shift
    run stat tidied --by-reel
    holds grep -qx "tidy     frees $wanted nodes" out
    holds test "$(echo $(awk 'NF == 10 && $1 != "reel" { print $1 ":" $10 }' out))" = "$*"
    run stat tidied --json --by-reel
    holds grep -q "\"tidy_frees\":$wanted,\$" out
    holds test "$(echo $(sed -n 's/.*{"reel":\([0-9]*\),.*"tidy_frees":\([0-9]*\)}.*/\1:\2/p' out))" = "$*"
    run stat tidied --csv
    holds test "$(echo $(sed 's/.*,//' out))" = "tidy_frees $wanted"
    run stat tidied --csv --by-reel
    holds test "$(echo $(sed '1d; s/,.*,/:/' out))" = "$*"
}

used_nodes() {
    "$tool" stat tidied --csv | sed -n '2p' | cut -d , -f 4
}

# The frames of every reel stay, and their sequence; so many nodes are free; and there is no more to give back.
tidies() { # REEL NODES
    "$tool" dump tidied >before
    used=$(used_nodes)
    does "$2 nodes freed" tidy tidied "$1"
    "$tool" dump tidied >after
    holds cmp -s before after
    holds test "$(used_nodes)" = "$((used - $2))"
    does "$sound" check tidied
    keeps 0 '0 nodes freed' '' tidy tidied "$1"
}

keeps() { # STATUS OUT ERR COMMAND..: and the book stays as it was, byte for byte
    wanted_status=$1 wanted=$2 wanted_error=$3
    shift 3
    cp -f tidied kept.tidied
    run "$@"
    expect "$wanted_status" "$wanted" "$wanted_error"
    holds cmp -s tidied kept.tidied
}

puts_in() { # REEL FRAME..: whatever add says of a full node
    run add tidied "$@"
    holds test "$status" = 0
}

takes_out() { # REEL FRAME..
    run remove tidied "$@"
    holds test "$status" = 0
}

# A root alone, a group in use, and one in which one of two is: nothing to give back, and no error. Then one group; a group above
# one that went; one that stays, since its other child is in use, though all below it goes. A tool that ends after the first group
# frees two of four nodes; one that goes by the first child, or by bitmaps alone, frees those in use or above them.
try_groups() {
    does '' format tidied --reels 4 --nodes 40
    frees 0
    does '' open tidied 7
    keeps 0 '0 nodes freed' '' tidy tidied 7
    frees 0 7:0
    puts_in 7 $(seq 1 2 257) # the root, its second child, and a frame below that
    frees 0 7:0
    keeps 0 '0 nodes freed' '' tidy tidied 7
    takes_out 7 257
    frees 2 7:2
    cp tidied one
    tidies 7 2
    frees 0 7:0
    cp one tidied
    takes_out 7 $(seq 129 2 255)
    frees 4 7:4
    cp tidied two
    run has tidied 7 1 --nodes
    expect 0 'yes 3' ''
    tidies 7 4
    run has tidied 7 1 --nodes
    expect 0 'yes 1' ''
    cp two tidied
    puts_in 7 2 # in the root's first child
    frees 2 7:2
    tidies 7 2
    run has tidied 7 1 --nodes
    expect 0 'yes 2' ''
    takes_out 7 2
    frees 2 7:2
    tidies 7 2
}

# Groups of four, of one reel beside another: the numbers are each reel's own, and the book's their sum.
try_reels_apart() {
    does '' open tidied 0
    puts_in 0 $(seq 0 8 2048) # four levels of 64, and one of four children
    frees 0 7:0 0:0
    takes_out 0 2048
    frees 4 7:0 0:4
    puts_in 7 2 4
    takes_out 7 2 4
    frees 6 7:2 0:4
    tidies 0 4
    frees 2 7:2 0:0
    takes_out 0 $(seq 0 8 2040)
    frees 8 7:2 0:6
    tidies 0 6
    tidies 7 2
    frees 0 7:0 0:0
    does '' retire tidied 0
}

# By the fingerprints of each rule, of which tidy reads none.
try_rules() {
    puts_in 7 2
    takes_out 7 2
    does '1 reel, 64 frames converted from edition 2 to edition 1' convert tidied other
    mv other tidied
    frees 2 7:2
    tidies 7 2
    awk 'BEGIN { for (i = 255; i >= 0; i--) printf "%c", i }' >reversed
    does '' format tidied --reels 4 --nodes 40 --table reversed --force
    does '' open tidied 7
    puts_in 7 $(seq 1 2 129)
    takes_out 7 129
    frees 2 7:2
    tidies 7 2
    rm reversed
}

# A frame that finds no nodes, in another reel and in the same one: refused before, and still when frames went, and then done.
try_room() {
    does '' format tidied --reels 4 --nodes 4 --force
    does '' open tidied 7
    puts_in 7 $(seq 0 64)
    does '' open tidied 8
    puts_in 8 $(seq 0 63)
    keeps 2 '' 'add: reel 8: frame 64: not enough adjacent free nodes (8); 0 frames added before it' add tidied 8 64
    takes_out 7 64
    keeps 2 '' 'add: reel 8: frame 64: not enough adjacent free nodes (8); 0 frames added before it' add tidied 8 64
    tidies 7 2
    cp tidied one
    does '1 frame added' add tidied 8 64
    keeps 2 '' 'add: reel 7: frame 64: not enough adjacent free nodes (8); 0 frames added before it' add tidied 7 64
    cp one tidied
    does '1 frame added' add tidied 7 64
    does "$sound" check tidied
}

# Node 1 is the root, 2 and 3 are its children. A bit of either bitmap alone keeps the group where the book was closed cleanly;
# where it was not, recovery comes first, for stat too.
try_refused_tidy() {
    does '' format tidied --reels 4 --nodes 16 --force
    does '' open tidied 6
    does '' open tidied 7
    puts_in 7 $(seq 0 64)
    cp tidied one
    poke tidied $((node_at + (2 * 80 + 1) * 8)) 000 # frame 64 is held and not located
    frees 0 6:0 7:0
    keeps 0 '0 nodes freed' '' tidy tidied 7
    cp one tidied
    takes_out 7 64
    does '' retire tidied 6
    cp tidied good.tidied
    keeps 2 '' 'tidy: reel 6: no such reel (5)' tidy tidied 6
    keeps 2 '' 'tidy: reel 8: no such reel (5)' tidy tidied 8
    for word in 3 4; do # a level, a size
        poke tidied $((node_at + (3 * 80 + word) * 8)) 003
        keeps 2 '' 'tidy: reel 7: the tree is malformed (4)' tidy tidied 7
        poke tidied "$clean_at" 000
        keeps 2 '' 'tidy: tidied: not closed cleanly, and not recovered: the tree is malformed (4)' tidy tidied 7
        cp good.tidied tidied
    done
    poke tidied $((node_at + (3 * 80 + 1) * 8 + 7)) 200 # place 63
    frees 0 7:0
    keeps 0 '0 nodes freed' '' tidy tidied 7
    poke tidied "$clean_at" 000
    run tidy tidied 7
    expect 0 '2 nodes freed' 'tidy: tidied: not closed cleanly; recovered, locate words mended: 1'
    cp good.tidied tidied
    run add tidied 7 64 --crash-after 2 --seed 1
    run stat tidied
    holds grep -qx 'reelbook: stat: tidied: not closed cleanly; recovered, locate words mended: 1' err
    holds grep -qx 'tidy     frees 2 nodes' out
    tidies 7 2
}

try_tidy_arguments() {
    misused 'tidy: too few arguments: reelbook tidy FILE REEL' tidy tidied
    misused 'tidy: too many arguments: reelbook tidy FILE REEL' tidy tidied 7 8
    misused "tidy: 'x' is not $range" tidy tidied x
    misused 'tidy: --json: no such option' tidy tidied 7 --json
    unable 'tidy: none: No such file or directory' tidy none 7
    run tidy --help
    holds grep -q '^  --crash-after K ' out
}

# Trees of some depth from which all frames went but one of so many: what stat counts at once is what tidy gives back one by one.
try_drawn() {
    total=0
    for kept in 20 60 200 600 2000; do
        does '' format tidied --reels 4 --nodes 400 --force
        does '' open tidied 7
        awk -v first="$((seed % 1000 * kept))" 'BEGIN {
            for (i = first; i < first + 5000; i++) printf "%d\n", i * 2654435761 % 1048576 * 8 ^ (i % 4) }' | sort -u >frames
        input=frames
        run add tidied 7
        holds test "$status" = 0
        awk -v kept="$kept" 'NR % kept != 0' frames >gone
        input=gone
        run remove tidied 7 -
        holds test "$status" = 0
        input=/dev/null
        nodes=$("$tool" stat tidied --csv | sed -n '2s/.*,//p')
        tidies 7 "$nodes"
        total=$((total + nodes))
    done
    holds test "$total" -gt 100
}

# Groups of 4, 2, 2, 2 and 2 nodes, in the sequence in which they go: three wait for the one below, and the last for two.
make_nested() {
    does '' format tidied --reels 4 --nodes 40 --force
    does '' open tidied 7
    puts_in 7 $(seq 0 8 2048) $(seq 1 2 129)
    takes_out 7 $(seq 512 8 2048) $(seq 1 2 129)
    frees 12 7:12
}

freed_by() { # GROUPS
    echo 0 4 6 8 10 12 | cut -d ' ' -f "$(($1 + 1))"
}

# Power fails after so many entries, a store and a barrier for each group. Groups whose barrier has passed are free, and that of
# the last store is or is not, by the seed; the frames are those of before, and the next tidy frees the rest.
cut_tidy() { # ENTRIES SEED
    cp nested tidied
    run tidy tidied 7 --crash-after "$1" --seed "$2"
    expect 0 '' "tidy: crashed after $1 entr$([ "$1" = 1 ] && echo y || echo ies), seed $2"
    run check tidied
    expect 0 'sound; not closed cleanly; locate words that differ: 0' ''
    "$tool" dump tidied >after 2>err
    holds cmp -s nested.dump after
    run stat tidied --csv
    left=$(sed -n '2s/.*,//p' out)
    if [ $(($1 % 2)) = 1 ] && [ "$left" = $((12 - $(freed_by $(($1 / 2 + 1))))) ]; then
        stored=$((stored + 1))
    else
        holds test "$left" = $((12 - $(freed_by $(($1 / 2)))))
    fi
    tidies 7 "$left"
}

try_cut_tidy() {
    make_nested
    cp tidied nested
    "$tool" dump nested >nested.dump
    stored=0
    for entries in 0 2 4 6 8 10; do cut_tidy $entries 1; done
    holds test $stored = 0
    for entries in 1 3 5 7 9; do
        for chance in 1 2 3 4; do cut_tidy $entries $chance; done
    done
    holds test $stored -gt 2
    holds test $stored -lt 18
    cp nested tidied
    run tidy tidied 7 --crash-after 11
    expect 0 '12 nodes freed' 'tidy: ended before the power failure, after 10 entries'
    does "$sound" check tidied
}

# In the barrier of the second group of five: that group is ended and the book closed. The first barrier is that of the opening.
try_interrupted_tidy() {
    cp nested tidied
    SHADOW=disk INTERRUPT_AT=3 LD_PRELOAD=$shadow "$tool" tidy tidied 7 </dev/null >out 2>err
    status=$? command='reelbook tidy tidied 7, interrupted'
    if [ ! -e disk ]; then
        skip 'tidy interrupted' 'LD_PRELOAD does not work'
        return
    fi
    expect 4 '' 'tidy: interrupted; 6 nodes freed'
    does "$sound" check tidied
    tidies 7 6
}

try_tidy() {
    try_groups
    try_reels_apart
    try_rules
    try_room
    try_refused_tidy
    try_tidy_arguments
    try_drawn
    try_cut_tidy
    try_interrupted_tidy
    rm -f tidied kept.tidied good.tidied nested nested.dump gone disk one two before after
}
