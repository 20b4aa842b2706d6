# Writes the documents given as arguments, by their paths in the repository, into the folder INTO. SHIPPED has the paths
# that the package has, HEADERS the way from the package's documents to its headers; the three are in the environment.
# Links within the package stay; those to a header lead to it; any other becomes its text. A picture that is not shipped
# is an error.

# The path that a link of this document leads to.
function resolved(link,    parts, kept, count, last, i, path) {
    path = at
    if (!sub(/\/[^\/]*$/, "/", path)) path = ""
    count = split(path link, parts, "/")
    last = 0
    for (i = 1; i <= count; i++) {
        if (parts[i] == ".." && last > 0) last--
        else if (parts[i] != "." && parts[i] != "") kept[++last] = parts[i]
    }
    path = kept[1]
    for (i = 2; i <= last; i++) path = path "/" kept[i]
    return path
}

BEGIN {
    count = split(ENVIRON["SHIPPED"], listed, "\n")
    for (i = 1; i <= count; i++) {
        has[listed[i]] = 1
        path = listed[i]
        while (sub(/\/[^\/]*$/, "", path)) has[path] = 1
    }
}

FNR == 1 {
    if (at) close(out)
    at = FILENAME
    out = ENVIRON["INTO"] "/" at
    fenced = 0
    up = at
    gsub(/[^\/]+\//, "../", up)
    sub(/[^\/]*$/, "", up)
}

/^```/ { fenced = !fenced }

fenced { print > out; next }

{
    done = ""
    left = $0
    while (match(left, /\[[^][]*\]\([^() ]+\)/)) {
        before = substr(left, 1, RSTART - 1)
        whole = substr(left, RSTART, RLENGTH)
        left = substr(left, RSTART + RLENGTH)
        seam = index(whole, "](")
        text = substr(whole, 2, seam - 2)
        link = substr(whole, seam + 2, length(whole) - seam - 2)
        path = link
        sub(/#.*/, "", path)
        path = resolved(path)
        if (link ~ /^[a-z]+:/ || link ~ /^#/ || path in has) done = done before whole
        else if (path ~ /^include\/[a-z_]+\.h$/) done = done before "[" text "](" up ENVIRON["HEADERS"] substr(path, 9) ")"
        else if (before ~ /!$/) { print at ": the picture " path " is not shipped" > "/dev/stderr"; exit 1 }
        else done = done before text
    }
    print done left > out
}
