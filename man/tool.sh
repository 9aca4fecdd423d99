#!/bin/sh
# reelbook.1 on standard output: man/reelbook.1.in, and what the tool's --help and each command's --help say.
# man/tool.sh TOOL VERSION
set -eu
tool=$1
version=$2
here=$(dirname "$0")
said=$("$tool" --help)
for name in $(printf '%s\n' "$said" | sed -n 's/^  reelbook \([a-z]*\) FILE.*/\1/p'); do
    own=$("$tool" "$name" --help)
    said="$said
@COMMAND@ $name
$own"
done
printf '%s\n' "$said" | awk -v version="$version" -f "$here/tool.awk" - "$here/reelbook.1.in"
