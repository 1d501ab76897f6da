# awk -v name=NAME -f tools/below.awk crates.txt: the crate NAME and those that it is built on, a line for each, in the order in which rt proves them. A line
# of crates.txt is "NAME: the crates that it uses", or "NAME staticlib: .."; libraries of the kit do not count.

function visit(crate,    used, i, n) {
    if (!(crate in uses) || crate in visited) return
    visited[crate]
    n = split(uses[crate], used, /[ ,]+/)
    for (i = 1; i <= n; i++) visit(used[i])
    print crate
}

{ sub(/#.*/, "") }
split($0, part, ":") == 2 { split(part[1], word, " "); uses[word[1]] = part[2] }
END { visit(name) }
