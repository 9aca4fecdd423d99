# reelbook.3 from include/reelbook.h, examples/first.c and man/reelbook.3.in, given in this sequence; version is a variable.
# A function's text is the comment before it; an answer's name and number, which rise, are the enum's, its text is
# reelbook_answer_text's.

function roff(text) {
    gsub(/\\/, "\\e", text)
    gsub(/-/, "\\-", text)
    gsub(/'/, "\\(aq", text)
    sub(/^\./, "\\\\\\&.", text)
    return text
}

function words_of(text) {
    gsub(/^ *\/?\* ?| *\*\/ *$/, "", text)
    return text
}

# A declaration in lines of 70 columns.
function prototype(declaration,    parts, n, i, line, lines) {
    sub(/^static inline /, "", declaration)
    sub(/ \{$/, ";", declaration)
    n = split(declaration, parts, /, */)
    line = parts[1]
    for (i = 2; i <= n; i++)
        if (length(line ", " parts[i]) < 70) {
            line = line ", " parts[i]
        } else {
            lines = lines ".B \"" roff(line) ",\"\n"
            line = "        " parts[i]
        }
    return lines ".B \"" roff(line) "\"\n"
}

FNR == 1 { file++ }

file == 1 && /^\/\*/ { comment = "" }
file == 1 && (/^\/\*/ || (in_comment && /^ \*/)) {
    comment = comment roff(words_of($0)) "\n"
    in_comment = !/\*\/ *$/
    next
}
file == 1 && /^    REELBOOK_[A-Z_]+ = [0-9]+,? *\/\*|^    REELBOOK_DONE/ { last = $3 + 0; name[last] = $1; answers++ }
file == 1 && /^    case REELBOOK_/ { split($0, part, "\""); text[substr($2, 1, length($2) - 1)] = part[2] }
file == 1 && /^(uint64_t|static inline) .*reelbook_/ {
    function_name = $0
    sub(/\(.*/, "", function_name)
    sub(/.*[ *]/, "", function_name)
    functions = functions ".TP\n.B " function_name "\n" comment
    in_declaration = 1
}
file == 1 && in_declaration {
    declaration = declaration $0
    if (/[;{]$/) {
        synopsis = synopsis prototype(declaration) ".PP\n"
        declaration = ""
        in_declaration = 0
    }
}

file == 2 { example = example roff($0) "\n" }

file == 3 && /^@SYNOPSIS@$/ { printf "%s", synopsis; next }
file == 3 && /^@FUNCTIONS@$/ { printf "%s", functions; next }
file == 3 && /^@EXAMPLE@$/ { printf "%s", example; next }
file == 3 && /^@ANSWERS@$/ {
    for (i = 0; i <= last; i++)
        if (i in name && text[name[i]] == "")
            missing = missing " " i
        else if (i in name)
            printf "%d\t\\fB%s\\fR\tT{\n%s\nT}\n", i, name[i], roff(text[name[i]])
    next
}
file == 3 && /^\.\\"/ { next }
file == 3 { sub(/@VERSION@/, version); print }

END {
    if (!synopsis || !answers || missing) {
        print "library.awk: functions, answers or their texts are not found in the header" missing >"/dev/stderr"
        exit 1
    }
}
