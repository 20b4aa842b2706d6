# Request 5: the files that it is given have no division and no remainder: the test for mirrored lanes, `odd_negatives`, with all that it calls. The
# archive's machine code could not show a remainder by 2. Comments, strings and characters are passed over; a block comment or a raw string is
# reported too, so that nothing can hide behind one. Prints what is wrong; the exit status is 0 where nothing is.
FNR == 1 {
    look()
    file = FILENAME
}
/^pub fn odd_negatives\(/ {
    found = 1
}
{
    lines[FNR] = $0
    text = text $0 "\n"
}
END {
    look()
    if (!found) {
        print "no public function odd_negatives"
        wrong = 1
    }
    exit wrong
}

# Looks through the text of one file, to its end.
function look(    line, part) {
    line = 1
    while (match(text, /\/\/[^\n]*|"([^"\\]|\\.)*"|'(\\.[^']*|[^'\\])'|r#*"|[\/%]/)) {
        part = substr(text, 1, RSTART - 1)
        line += gsub(/\n/, "", part)
        part = substr(text, RSTART, RLENGTH)
        text = substr(text, RSTART + RLENGTH)
        if (part ~ /^[\/%]$|^r/) {
            print file ":" line ": " lines[line]
            wrong = 1
        }
        line += gsub(/\n/, "", part)
    }
    text = ""
}
