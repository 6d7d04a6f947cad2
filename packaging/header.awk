# Reads dhcpopt.h, and prints what 'want' says: names (the calls), or, for the manual page in mdoc: synopsis, calls, helpers (each with the
# comment that stands before it), answers (the structs), constants (the enums), codes,
# refusals. A call without a comment of its own belongs to the one before it.

function trim(s) { gsub(/[ \t\n]+/, " ", s); sub(/^ /, "", s); sub(/ $/, "", s); return s }

# Lines of text for mdoc: a sentence begins a line, and no line is long.
function text(s,    n, i, words, line, word, ends) {
    gsub(/\\/, "\\e", s)
    while (match(s, /`[^`]*`/)) s = substr(s, 1, RSTART - 1) "\\(oq" substr(s, RSTART + 1, RLENGTH - 2) "\\(cq" substr(s, RSTART + RLENGTH)
    n = split(s, words, " ")
    line = ""
    for (i = 1; i <= n; i++) {
        word = words[i]
        if (line == "" && word ~ /^[.']/) word = "\\&" word
        if (line != "" && length(line) + length(word) > 76) { print line; line = ""; if (word ~ /^[.']/) word = "\\&" word }
        line = line (line == "" ? "" : " ") word
        if (word ~ /[.!?][)"]?$/ && i < n) { print line; line = "" }
    }
    if (line != "") print line
}

function literal(s) { gsub(/\\/, "\\e", s); if (s ~ /^[.']/) s = "\\&" s; return s }

function parse(s,    open, close_, head) { # a declaration: sets type, name, args[1..count]
    sub(/^DHCPOPT_CALL /, "", s)
    sub(/^DHCPOPT_NONNULL\([^)]*\) /, "", s)
    inline = sub(/^static inline /, "", s)
    s = trim(s)
    open = index(s, "(")
    head = substr(s, 1, open - 1)
    match(head, /[A-Za-z0-9_]+$/)
    name = substr(head, RSTART)
    type = trim(substr(head, 1, RSTART - 1))
    close_ = length(s)
    while (substr(s, close_, 1) != ")") close_--
    count = split(substr(s, open + 1, close_ - open - 1), args, /, */)
}

function declared(s,    i, line) {
    parse(s)
    if (want == "names") { print (inline ? "inline " : "call ") name; return }
    if (want == "synopsis") {
        print ".Ft " (type ~ / / ? "\"" type "\"" : type)
        print ".Fo " name
        for (i = 1; i <= count; i++) print ".Fa " (args[i] ~ / / ? "\"" args[i] "\"" : args[i])
        print ".Fc"
        return
    }
    if (want != "calls" && want != "helpers") return
    if (fresh) { group_end(); grouped = comment; group_inline = inline }
    fresh = 0
    items = items "\n.It Fn " name
    for (i = 1; i <= count; i++) { match(args[i], /[A-Za-z0-9_]+(\[[A-Z_a-z0-9]*\])?$/); line = substr(args[i], RSTART); sub(/\[.*/, "", line); items = items " " line }
}

function group_end() {
    if (items != "" && (group_inline ? "helpers" : "calls") == want) { print substr(items, 2); text(grouped) }
    items = ""
}

# A comment at the first column.
/^\/\*/ { comment = ""; commenting = 1; fresh = 1 }
commenting {
    line = $0
    done = sub(/[ \t]*\*\/.*$/, "", line)
    sub(/^[ \t]*\/?\*+ ?/, "", line)
    comment = trim(comment " " line)
    if (done) commenting = 0
    next
}

# A call: up to its ';' or '{'.
/^(DHCPOPT_CALL|DHCPOPT_NONNULL\(|static inline)/ { declaration = ""; declaring = 1 }
declaring {
    declaration = declaration " " $0
    if ($0 ~ /;[ \t]*$/ || $0 ~ /^\{/) {
        declaring = 0
        sub(/[;{][ \t]*$/, "", declaration)
        declared(trim(declaration))
    }
    next
}

# A struct, and the enum of refusals.
/^typedef struct/ { structure = ""; structured = 1 }
structured {
    structure = structure literal($0) "\n"
    if ($0 ~ /^}/) {
        structured = 0
        if (want == "answers") {
            text(comment)
            print ".Bd -literal -offset indent\n" structure ".Ed\n.Pp"
        }
    }
    next
}
/^    X\([A-Z]/ && want == "codes" {
    split($0, row, /[(,] */)
    split($0, option, "\"")
    print ".It Dv DHCPOPT_CODE_" row[2] " Pq " row[3] "\n" option[2]
}
/^enum dhcpopt_refusal/ { refusing = 1; next }
/^enum dhcpopt_/ && $2 != "dhcpopt_code" { structure = ""; enumerated = 1 }
enumerated {
    structure = structure literal($0) "\n"
    if ($0 ~ /^}/) {
        enumerated = 0
        if (want == "constants") {
            text(comment)
            print ".Bd -literal -offset indent\n" structure ".Ed\n.Pp"
        }
    }
    next
}
refusing && /^}/ { refusing = 0 }
refusing && want == "refusals" {
    if ($0 ~ /^ *DHCPOPT_/) {
        if (why != "") text(why)
        why = $0
        sub(/^[^*]*\/\*/, "", why)
        print ".It Dv " $1 " Pq " ($3 + 0)
        if ($0 !~ /\/\*/) why = "No refusal."
    } else
        why = why " " $0
    sub(/\*\/.*/, "", why)
    why = trim(why)
}
END {
    if (want == "calls" || want == "helpers") group_end()
    if (want == "refusals") text(why)
}
