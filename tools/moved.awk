# Prints a row for each contract, definition and proof in the files of crates: crate, kind, name, and its text on one line, without comments and
# layout. tools/moved compares such rows.

function flat(text) {
    gsub(/[ \t]+/, " ", text)
    gsub(/ ?\( ?/, "(", text)
    gsub(/ ?\[ ?/, "[", text)
    gsub(/ ?\{ ?/, "{", text)
    gsub(/[,;]? ?\) ?/, ")", text)
    gsub(/[,;]? ?\] ?/, "]", text)
    gsub(/[,;]? ?\} ?/, "}", text)
    return text
}

function finish() {
    if (name != "")
        print crate "\t" kind "\t" name "\t" flat(text)
    name = text = ""
}

# A contract is the signature of a function with what it requires and ensures, up to the body.
function contract(line,  called, words, count) {
    if (line ~ /^impl /) {
        count = split(line, words, " ")
        type = words[count - 1] "::"
    }
    if (line ~ /^[}]/)
        type = ""
    if (name == "" && line ~ /^ *(pub(\([a-z]+\))? )?(extern "C" )?fn /) {
        called = line
        sub(/^.*fn /, "", called)
        sub(/[(<].*/, "", called)
        name = file type called
        promises = 0
    }
    if (name == "")
        return
    text = text " " line
    if (line ~ /^ *(requires|ensures) /)
        promises = 1
    if (line ~ /^ *[{]$/ || (!promises && line ~ /[{]$/))
        finish()
}

# The name that a line gives to a declaration; none where it goes on with the one before it.
function named(line,  words, count, marked) {
    marked = sub(/^((pub|abbrev|unfoldable) )+/, "", line)
    count = split(line, words, " ")
    if (words[1] == "record" || words[1] == "data")
        return words[2]
    if (words[1] ~ /^infix/)
        return words[1] " " words[count]
    return marked || words[2] == ":" ? words[1] : ""
}

# The body of a module: its head counts in the text of each declaration in it, and its name, where it has one, in theirs.
function enter(depth,  words) {
    opens = 0
    if (depth > level[top]) {
        split(head, words, " ")
        level[++top] = depth
        heads[top] = heads[top - 1] " " head
        within[top] = within[top - 1] (words[2] == "_" ? "" : words[2] ".")
    }
    head = ""
}

# A declaration goes from the line that names it to the next one.
function declaration(line,  depth, called) {
    match(line, /^ */)
    depth = RLENGTH
    line = substr(line, depth + 1)
    if (opens)
        enter(depth)
    while (depth < level[top])
        top--
    if (head != "" || (depth == level[top] && line ~ /^module /)) {
        finish()
        head = head " " line
        opens = line ~ /(^| )where$/
        return
    }
    if (depth == level[top] && line ~ /^(pub )?(use|mod) /) {
        finish()
        return
    }
    called = depth == level[top] ? named(line) : ""
    if (called != "") {
        finish()
        name = file "." within[top] called
        text = heads[top]
    }
    text = text " " line
}

BEGIN {
    kinds["src"] = "contracts"
    kinds["specs"] = "definitions"
    kinds["proofs"] = "proofs"
}

FNR == 1 {
    finish()
    split(FILENAME, folders, "/")
    crate = folders[2]
    kind = kinds[folders[3]]
    file = substr(FILENAME, length(folders[1] folders[2] folders[3]) + 4)
    sub(/\.antt$/, "", file)
    sub(/\.rt$/, "::", file)
    sub(/^(lib|main)::$/, "", file)
    type = head = ""
    top = level[0] = opens = 0
}

kind == "contracts" {
    sub(/(^|[ \t])\/\/.*$/, "")
    contract($0)
    next
}

{
    sub(/(^|[ \t])--([ \t].*)?$/, "")
    sub(/[ \t]+$/, "")
}

/[^ \t]/ {
    declaration($0)
}

END {
    finish()
}
