# Writes the numbers of include/spoonharbor.h for JavaScript, or with -v types=1 for TypeScript.
#
# Each enum becomes an object: `enum sh_row_kind` is RowKind, and its names lose what all of them begin with, so
# SH_ROW_KIND_UNIT is RowKind.UNIT. What an enum without a name has becomes constants: SH_LONGEST_TEXT is LONGEST_TEXT.
# An enum whose name ends in `refusal` gets Number behind it, since a refusal is more than its number.
{ text = text $0 "\n" }

END {
    text = without_comments(text)
    while (match(text, /enum[ \n]*[a-z_]*[ \n]*\{[^}]*\}/)) {
        write(substr(text, RSTART, RLENGTH))
        text = substr(text, RSTART + RLENGTH)
    }
}

function without_comments(from,    out, end) {
    out = ""
    while (end = index(from, "/*")) {
        out = out substr(from, 1, end - 1)
        from = substr(from, end + 2)
        from = substr(from, index(from, "*/") + 2)
    }
    return out from
}

function write(block,    name, names, count, i, word, values, front) {
    name = block
    sub(/^enum[ \n]*/, "", name)
    sub(/[ \n]*\{.*/, "", name)
    sub(/^[^{]*\{/, "", block)
    sub(/\}$/, "", block)
    gsub(/[ \n]/, "", block)
    sub(/,$/, "", block)
    count = split(block, names, ",")
    for (i = 1; i <= count; i++) {
        if (split(names[i], word, "=") != 2) {
            print "numbers.awk: no number: " names[i] > "/dev/stderr"
            exit 1
        }
        names[i] = word[1]
        values[i] = word[2]
    }
    front = name == "" ? "SH_" : shared(names, count)
    for (i = 1; i <= count; i++) names[i] = substr(names[i], length(front) + 1)
    if (name == "") for (i = 1; i <= count; i++) print alone(names[i], values[i])
    else print object(camel(name), names, values, count)
}

# What all names begin with, up to an underscore.
function shared(names, count,    front, i) {
    front = names[1]
    for (i = 2; i <= count; i++) while (index(names[i], front) != 1) front = substr(front, 1, length(front) - 1)
    if (count == 1 || front !~ /_$/) sub(/[^_]*$/, "", front)
    return front
}

function camel(name,    parts, count, i, out) {
    sub(/^sh_/, "", name)
    count = split(name, parts, "_")
    for (i = 1; i <= count; i++) out = out toupper(substr(parts[i], 1, 1)) substr(parts[i], 2)
    return name ~ /refusal$/ ? out "Number" : out
}

function alone(name, value) {
    if (types) return "export declare const " name ": " value ";"
    return "export const " name " = " value ";"
}

function object(name, names, values, count,    out, i) {
    out = types ? "export declare const " name ": {" : "export const " name " = Object.freeze({"
    for (i = 1; i <= count; i++) out = out "\n  " (types ? "readonly " : "") names[i] ": " values[i] (types ? ";" : ",")
    return out (types ? "\n};" : "\n});")
}
