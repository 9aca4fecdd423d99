# reelbook.1 from the tool's help, each command's own after a line "@COMMAND@ name", and man/reelbook.1.in; version is a variable.
# In a help text an option is a line "  --option ..  text"; other indented lines are kept as they are, the rest is filled.

function roff(text) {
    gsub(/\\/, "\\e", text)
    gsub(/-/, "\\-", text)
    gsub(/'/, "\\(aq", text)
    sub(/^\./, "\\\\\\&.", text)
    return text
}

function option(line,    at) {
    sub(/^ +/, "", line)
    at = match(line, /  +/)
    return ".TP\n.B \"" roff(substr(line, 1, at - 1)) "\"\n" roff(substr(line, at + RLENGTH)) "\n"
}

function say(line) {
    if (line ~ /^  +-[^ ]*( [^ ]+)*  +[^ ]/)
        return option(line)
    if (line ~ /^ /)
        return ".nf\n" roff(line) "\n.fi\n"
    return line == "" ? ".PP\n" : roff(line) "\n"
}

FNR == 1 { file++ }
file == 1 && $1 == "@COMMAND@" { name = $2; commands = commands ".SS " name "\n"; first = 1; next }
file == 1 && name && first { commands = commands ".B \"" roff($0) "\"\n"; first = 0; next }
file == 1 && name { commands = commands say($0); next }
# Of the general text: what comes after the list of commands.
file == 1 && /^  reelbook / { listed = 1; about = 1; next }
file == 1 && about && /^      / { next }
file == 1 && listed { about = 0; notes = notes say($0); next }

file == 2 && /^@COMMANDS@$/ { printf "%s", commands; next }
file == 2 && /^@NOTES@$/ { sub(/^(\.PP\n)+/, "", notes); printf "%s", notes; next }
file == 2 && /^\.\\"/ { next }
file == 2 { sub(/@VERSION@/, version); print }

END { if (!commands) { print "tool.awk: no command is found in the tool's help" >"/dev/stderr"; exit 1 } }
