# Reads crates.txt and prints a line for each crate, after those of the crates that it stands on:
# its name, and then the crates of this repository that it stands on itself.
# With -v of=NAME it prints this crate and those below it alone.

function show(name, lower, count, place, line) {
    if (name in shown)
        return
    shown[name] = 1
    count = split(stands_on[name], lower, " ")
    line = name
    for (place = 1; place <= count; place++)
        if (lower[place] in stands_on) {
            show(lower[place])
            line = line " " lower[place]
        }
    print line
}

{ sub(/#.*/, "") }

/:/ {
    split($0, parts, ":")
    split(parts[1], words, " ")
    names[++total] = words[1]
    stands_on[words[1]] = parts[2]
}

END {
    if (of != "")
        show(of)
    else
        for (row = 1; row <= total; row++)
            show(names[row])
}
