# The crates that some crates stand on, and these: awk -v wanted='CRATE..' [-v without=1] -f tools/below.awk crates.txt
#
# A line each, and no line of a crate that the file does not list, as the toolchain's own are. With `without` the wanted ones are left out.
{ sub(/#.*/, "") }
split($0, side, ":") == 2 { split(side[1], name, " "); below[name[1]] = side[2] }
END {
    open = split(wanted, todo, " ")
    if (without) for (i = 1; i <= open; i++) hidden[todo[i]]
    while (open > 0) {
        crate = todo[open--]
        if (!(crate in below) || crate in seen) continue
        seen[crate]
        if (!(crate in hidden)) print crate
        more = split(below[crate], next_ones, " ")
        for (i = 1; i <= more; i++) todo[++open] = next_ones[i]
    }
}
