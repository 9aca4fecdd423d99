# The part of tool.sh that is about pictures, and about files that are written whole or not at all.

try_pictures() {
    does '' draw book -o picture.svg
    for way in '' '-o -' '--output=-'; do
        run draw book $way
        holds cmp -s out picture.svg
    done
    holds test ! -e ./-
    holds test "$(head -c 4 out)" = '<svg'
    holds test "$(tail -n 1 out)" = '</svg>'
    holds test "$(grep -c '<title>node' out)" = 6 # three nodes, in the pool and in the tree
    holds test "$(grep -c 'class="free"' out)" = 14 # thirteen nodes, and one in the legend
    legends
    titles
    outputs
}

# What is said to be in a box is there: the numbers of all nodes of the pool, and of the two roots, with the frames of these.
legends() {
    for nodes in 2 128 129 512 513 2048 2049; do
        does '' format new --reels 2 --nodes $nodes --force
        for reel in 1 2; do does '' open new $reel; done
        does '1 frame added' add new 1 7
        run draw new
        numbers=$(grep -c 'class="tiny"' out) long=$(grep -c '[01]/16</text>' out) short=$(grep -c '"middle">[01]</text>' out)
        case $nodes in
        2 | 128) legend="In a box: the node's number; its frames / its places." wanted="$((nodes + 2)) 4 0" ;;
        129 | 512) legend="In a box: the node's number; its frames." wanted="$((nodes + 2)) 2 2" ;;
        513 | 2048) legend='A box for each node; before each line, the number of its first one.' wanted='2 2 0' ;;
        *) legend='A dot for each node. The deeper its colour, the more of its places are held.' wanted='2 2 0' ;;
        esac
        holds grep -qF ">$legend</text>" out
        holds grep -qF ">In a box, as far as there is room: the node's number; its frames / its places.</text>" out
        holds test "$numbers $long $short" = "$wanted"
    done
    rm new
}

# A name is text whatever its bytes are, and not longer than the picture is wide.
titles() {
    name=$(printf 'R\303\266lle <&> \347\264\231 \360\237\216\236 \377\300\257\355\240\200\001.')
    if cp book "$name" 2>err; then
        run draw "$name"
        bad=$(printf '\357\277\275')
        text=$(printf 'R\303\266lle &lt;&amp;&gt; \347\264\231 \360\237\216\236 %s.' "$bad$bad$bad$bad$bad$bad$bad")
        holds grep -qF "<title>$text</title>" out
        holds grep -qF ">Reel book $text</text>" out
        rm "$name"
    else
        skip 'a name that is no text' 'there can be no file of that name'
    fi
    name=$(printf 'a-long-name-%s-' 1 2 3 4 5 6 7 8 9)
    cp book "$name"
    run draw "$name"
    dots=$(printf '\342\200\246')
    holds grep -qF "<title>$name</title>" out
    title=$(sed -n 's/.*class="title">Reel book \(.*\)<\/text>/\1/p' out)
    holds test "${#title}" -lt 60
    case $name in "${title%"$dots"}"?*) : ;; *) fail "the title is $title" ;; esac
    holds test "$title" != "${title%"$dots"}"
    rm "$name"
}

# A file is written whole or not at all, and nothing else is left.
outputs() {
    unable 'draw: book: a reel book, not overwritten' draw book -o book
    unable 'draw: none/picture.svg: No such file or directory' draw book -o none/picture.svg
    unable 'draw: .: Is a directory' draw book -o .
    mkdir folder
    (ulimit -f 1 && "$tool" draw book -o folder/new.svg 2>err)
    holds test "$?$(cat err)" = '4reelbook: draw: folder/new.svg: File too large'
    holds test -z "$(ls -A folder)"
    echo old >folder/old.svg
    chmod 640 folder/old.svg
    ln -s old.svg folder/link
    (ulimit -f 1 && "$tool" draw book -o folder/link 2>err)
    holds test "$?$(cat err)" = '4reelbook: draw: folder/link: File too large'
    holds test "$(cat folder/old.svg)" = old
    does '' draw book -o folder/link
    holds cmp -s folder/old.svg picture.svg
    holds test -h folder/link
    holds test "$(ls -l folder/old.svg | cut -c 1-10)" = '-rw-r-----'
    holds test "$(ls -A folder | wc -l)" = 2
    mkfifo folder/pipe
    cat folder/pipe >piped &
    holder=$!
    does '' draw book -o folder/pipe
    holds test -p folder/pipe
    wait "$holder"
    holder=
    holds cmp -s piped picture.svg
    rm -r folder
}
