# Fails if a function that others can call, `pub fn`, one exported to C or one of an impl of a trait, has a `requires`. `pub(crate) fn` and private functions
# may have one.
# Reads Rattle sources word by word, without comments, strings and characters, so their layout does not matter.

FNR == 1 { check_text(); file = FILENAME }
{ text = text $0 "\n" }
END {
    check_text()
    if (functions == 0) {
        print "no public function found"
        failed = 1
    }
    if (!failed)
        print "no requires: " functions " public functions"
    exit failed
}

function check_text(    token, before) {
    line = 1
    public = exported = depth = head = of_trait = 0
    name = ""
    while ((token = next_token()) != "") {
        # An impl of a trait has a `for` in its head, and ends where its brace is closed.
        if (token == "impl" && depth == 0)
            head = 1
        else if (token == "for" && head)
            head = 2
        else if (token == "{") {
            depth++
            if (head == 2)
                of_trait = 1
            head = 0
        } else if (token == "}" && --depth == 0)
            of_trait = 0
        if (before == "pub")
            public = token != "("
        if (before == "fn" && token != "(") {
            # A name: from here on up to the next one all belongs to this function.
            name = public || exported || of_trait ? token : ""
            functions += name != ""
            public = exported = 0
        } else if (token ~ /^[;{}]$/)
            public = exported = 0
        else if (token == "no_mangle" || token == "export_name" || token == "extern")
            exported = 1
        else if (token == "requires" && name != "") {
            print file ":" line ": the public function " name " has a requires"
            failed = 1
        }
        before = token
    }
}

# Takes the next word or sign off the text, "" at its end.
function next_token(    token) {
    while (text != "") {
        if (match(text, /^[ \t\r\n]+/) || match(text, /^\/\/[^\n]*/) || match(text, /^b?"([^"\\]|\\.)*"/) || match(text, /^b?'(\\[^']+|[^'\\])'/))
            take()
        else if (text ~ /^\/\*/) {
            RLENGTH = index(text, "*/") ? index(text, "*/") + 1 : length(text)
            take()
        } else {
            if (!match(text, /^[A-Za-z_][A-Za-z0-9_]*/))
                RLENGTH = 1
            return take()
        }
    }
    return ""
}

# Takes RLENGTH characters off the text and counts their lines.
function take(    part) {
    part = substr(text, 1, RLENGTH)
    text = substr(text, RLENGTH + 1)
    line += gsub(/\n/, "\n", part)
    return part
}
