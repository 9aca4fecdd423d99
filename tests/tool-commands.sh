# The part of tool.sh that is about commands: what they do, what they say, what they refuse.

try_commands() {
    does '' format book --reels 4 --nodes 16
    does "$sound" check book
    does '' open book 7
    does '' list book 7
    does '3 frames added' add book 7 12 0 "$most"
    does 'yes' has book 7 "$most"
    denies has book 7 13
    does "$(printf '12\n0\n%s' "$most")" list book 7
    does '1 frame added, 2 held already' add book 7 12 5 0 --skip-held
    does '2 frames removed' remove book 7 12 0
    printf ' 20\n21\t22\n\n23' >frames
    input=frames
    does '4 frames added' add book 7
    does '4 frames removed' remove book 7 -
    does '4 frames added' add book 7 -
    input=/dev/null
    does '0 frames added' add book 7
    does '' open book 0
    does 'reels    2 of 4
frames   6
nodes    2 used, 14 free
tidy     frees 0 nodes
deepest  level 0
longest  path of 1 node
places   32, 6 used, 6 located
edition  2
table    the library'\''s' stat book
    does 'closed cleanly; reels: 2, frames: 6, locate words mended: 0' recover book
    does '' retire book 0
    seq 100 260 >frames
    input=frames
    warns 7 109 '161 frames added' add book 7
    input=/dev/null
    run stat book --by-reel
    holds test "$(sed -n '$s/  */ /gp' out)" = ' 7 0 0 167 3 1 192 167 2 0'
    does "$sound" check book
}

names='format open add remove has list retire tidy reels stat dump load convert table check recover draw'

try_help() {
    run --help
    cp out all
    holds test "$status" = 0
    for way in -h help; do does "$(cat all)" "$way"; done
    for name in $names; do
        holds grep -q "^  reelbook $name FILE" all
        run "$name" --help
        cp out own
        holds test "$status" = 0
        holds test "$(head -n 1 own)" = "$(sed -n "s/^  \(reelbook $name .*\)/\1/p" all)"
        holds grep -q -- '^  --wait\[=SECONDS\] ' own
        does "$(cat own)" "$name" -h
        does "$(cat own)" help "$name"
    done
    for number in 0 1 2 3 4; do holds grep -q "^  $number  " all; done
    holds test "$(grep -c '^  reelbook ' all)" = "$(echo $names help --version | wc -w)"
    does 'reelbook 5.2.0' --version
    misused 'a command is missing; reelbook --help tells them'
    misused 'burn: no such command; reelbook --help tells them' burn book
    misused 'burn: no such command; reelbook --help tells them' help burn
}

# Frames from FIRST to LAST for reel 7 of the book `filled`; with a frame FILLING, the one that is told.
adds() { # FIRST LAST [FILLING]
    count="$(($2 - $1 + 1)) frame$([ "$1" = "$2" ] || echo s) added"
    if [ $# = 3 ]; then
        warns 7 "$3" "$count" add filled 7 $(seq "$1" "$2")
    else
        does "$count" add filled 7 $(seq "$1" "$2")
    fi
}

# No warning, or one for each node that fills; for the place at a node's end, and not for its last clear one; for a frame that is
# claimed and not committed, refused or passed over; on standard output; with another exit status; by load or remove.
try_full() {
    does '' format filled --reels 1 --nodes 3
    does '' open filled 7
    adds 0 14
    adds 15 15 15 # a root of 16 places
    adds 16 30
    does '0 frames added, 2 held already' add filled 7 15 30 --skip-held
    adds 31 62 31 # of 32
    for entries in 2 7 8; do # power fails after the claim, in the commit, with its end
        cp filled cut
        run add cut 7 63 --crash-after $entries --seed 1
        expect 0 '' "add: crashed after $entries entries, seed 1"
    done
    adds 63 63 63 # of 64
    adds 64 64    # a branch-out
    does '2 frames removed' remove filled 7 5 9
    adds 66 66
    run add filled 7 68 70 7
    expect 2 '' "add: reel 7: frame 68 $full
reelbook: add: reel 7: frame 7: held already (9); 2 frames added before it"
    does '' format filled --reels 1 --nodes 1 --force
    does '' open filled 7
    adds 0 15 15
    does '' retire filled 7
    does '' open filled 7
    adds 0 39 15 # and 31 is not told
    adds 40 63 63
    run add filled 7 64
    expect 2 '' 'add: reel 7: frame 64: not enough adjacent free nodes (8); 0 frames added before it'
    "$tool" dump filled -o dump
    does '1 reel, 64 frames loaded' load cut dump --force
    for name in add remove; do "$tool" help $name; done >out
    holds test "$(grep -c 'fills its node' out)" = 1
    rm filled cut dump
}

try_refusals() {
    refuses 'open: reel 7: the reel is open already (6)' open book 7
    refuses 'add: reel 8: no such reel (5)' add book 8 1
    refuses 'add: reel 8: no such reel (5)' add book 8
    refuses 'remove: reel 8: no such reel (5)' remove book 8 1
    refuses 'retire: reel 8: no such reel (5)' retire book 8
    refuses 'tidy: reel 8: no such reel (5)' tidy book 8
    refuses 'has: reel 8: no such reel (5)' has book 8 1
    refuses 'list: reel 8: no such reel (5)' list book 8
    refuses 'add: reel 7: frame 5: held already (9); 0 frames added before it' add book 7 5
    refuses 'remove: reel 7: frame 4: not held (10); 0 frames removed before it' remove book 7 4
    run add book 7 1 2 5 3
    expect 2 '' 'add: reel 7: frame 5: held already (9); 2 frames added before it'
    run remove book 7 1 2 1
    expect 2 '' 'remove: reel 7: frame 1: not held (10); 2 frames removed before it'
    for reel in 1 2 3; do does '' open book $reel; done
    refuses 'open: reel 4: no empty reel slot (7)' open book 4
    seq 1000 64 99999 >frames
    input=frames
    run add book 1
    holds test "$status" = 2
    holds grep -q '^reelbook: add: reel 1: frame [0-9]*: not enough adjacent free nodes (8); [1-9][0-9]* frames added before' err
    input=/dev/null
    does "$sound" check book
    for reel in 1 2 3; do does '' retire book $reel; done
}

try_arguments() {
    misused 'has: too few arguments: reelbook has FILE REEL FRAME [--nodes]' has book 7
    misused 'list: too many arguments: reelbook list FILE REEL [--json | --csv]' list book 7 8
    misused 'remove: too few arguments: reelbook remove FILE REEL FRAME..' remove book 7
    misused 'list: --burn: no such option' list book 7 --burn
    misused 'list: --burn=7: no such option' list book 7 --burn=7
    misused 'list: --forc: no such option' list book 7 --forc
    misused 'list: --force: no such option' list book 7 --force
    misused 'list: -x: no such option' list book 7 -x
    misused 'add: --seed: S is missing' add book 7 1 --seed
    misused 'draw: --output: OUT is missing' draw book -o
    misused 'stat: --by-reel: takes no value' stat book --by-reel=7
    misused 'add: --seed: only with --crash-after' add book 7 1 --seed 1
    misused 'format: --crash-after: formatting is done on steady power' format new --reels 4 --nodes 16 --crash-after 1
    misused 'format: --crash-after=1: formatting is done on steady power' format new --reels 4 --nodes 16 --crash-after=1
    misused 'format: --reels: from 1 to 4096' format new --reels 0 --nodes 16
    misused 'format: --nodes: from 1 to 65536' format new --reels 4 --nodes 65537
    missing='is missing: reelbook format FILE --reels R --nodes N [--table TABLE] [--force]'
    misused "format: --reels $missing" format new --nodes 16
    misused "format: --nodes $missing" format new --reels=4
    holds test ! -e new
    does '' format new --reels=4 --nodes=16
    cp new kept
    does '' format new --nodes 16 --reels 4 --force
    holds cmp -s new kept
    rm new
}

# One rule for every number: an operand, a frame on standard input, an option's value after it or after =.
try_numbers() {
    for wrong in 1x -1 +1 0x1 '' ' 1' 00 007 18446744073709551616 99999999999999999999999; do
        misused "add: '$wrong' is not $range" add book 7 3 -- "$wrong"
        misused "add: '$wrong' is not $range" add book 7 1 --crash-after "$wrong"
        misused "add: '$wrong' is not $range" add book 7 1 "--crash-after=$wrong"
    done
    misused "add: '-5' is not $range" add book 7 -5
    misused "add: '-5' is not $range" add book 7 3 -5
    misused "open: 'x' is not $range" open book x
    misused "has: 'y' is not $range" has book 7 y
    input=frames
    printf '1 2 3? 4' >frames
    run add book 7
    expect 3 '' "add: '3?' is not $range; 2 frames added before it"
    printf '3\0019 4' >frames
    misused "add: '3?9' is not $range; 0 frames added before it" add book 7
    printf '0012' >frames
    misused "add: '0012' is not $range; 0 frames added before it" add book 7
    input=/dev/null
    does '2 frames removed' remove book 7 1 2
}
