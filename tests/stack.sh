#!/bin/sh
# The stack that each function needs, as build/stack measures it, against the table in docs/DRIVER.md: each function of the header
# is in it, and none needs more than it says, in either edition and with an own table. tests/stack.sh STACK, from the repository's
# folder.
set -eu
for rule in 1 2 own; do
    "$1" $rule | awk -v rule=$rule '
        FILENAME == ARGV[1] && sub(/^uint64_t reelbook_/, "") { sub(/\(.*/, ""); declared["reelbook_" $0] = 1 }
        FILENAME == ARGV[2] && /^\| `reelbook_[a-z]*` \| [0-9,]+ \|$/ { gsub(/[`,]/, ""); most[$2] = $4 }
        FILENAME == "-" && NF == 2 && $1 in declared && $1 in most && $2 <= most[$1] + 0 { good++; delete declared[$1]; next }
        FILENAME == "-" { print "stack: " $0 "; docs/DRIVER.md: " most[$1]; bad++ }
        END {
            for (name in declared) { print "stack: " name " is not measured"; bad++ }
            printf "stack: %s, %d functions measured, %d faults\n", rule == "own" ? "own table" : "edition " rule, good, bad
            exit bad != 0
        }' include/reelbook.h docs/DRIVER.md -
done
