# Marks functions of a module that are to be put into their callers: awk -f tools/mark.awk LIST MODULE
#
# LIST is tools/inlined.txt, which says what its lines mean; MODULE is LLVM's text. A line of the list that matches no
# function, or for `into` no call, is an error, and so is a function whose first line is not as it is expected.

function fail(what) { print "mark: " what > "/dev/stderr"; failed = 1 }

# Whether a name is what the list says; `*` stands for a name's letters, digits and `_`.
function is_named(name, listed,    pattern) {
    pattern = listed
    gsub(/\*/, "[A-Za-z0-9_]*", pattern)
    return name ~ ("^" pattern "$")
}

FNR == NR {
    sub(/#.*/, "")
    if (NF == 0) next
    if (!(($1 == "always" || $1 == "rather") && NF == 2) && !($1 == "into" && NF == 3)) { fail("line " FNR " of the list: " $0); next }
    count++
    how[count] = $1; of[count] = $NF; caller[count] = $2; line[count] = $1 " " $2 ($1 == "into" ? " " $3 : "")
    next
}

/^define / {
    within = ""
    if (match($0, /@"[^"]*"\(/)) within = substr($0, RSTART + 2, RLENGTH - 4)
    for (i = 1; i <= count; i++) {
        if (how[i] == "into" || within == "" || !is_named(within, of[i])) continue
        mark = how[i] == "always" ? "alwaysinline" : "inlinehint"
        if (!sub(/\) #/, ") " mark " #")) fail("the first line of " within " is not as expected")
        met[i]++
    }
}

/^}/ { within = "" }

within != "" && / call / {
    for (i = 1; i <= count; i++) {
        if (how[i] != "into" || within != caller[i] || index($0, "@\"" of[i] "\"(") == 0) continue
        if (!sub(/\)$/, ") alwaysinline")) fail("a call of " of[i] " in " within " is not as expected")
        met[i]++
    }
}

{ print }

END {
    for (i = 1; i <= count; i++) if (!met[i]) fail("nothing in the module is what the list says: " line[i])
    exit failed
}
