# What a crate stands on in this repository, lowest first, and itself last: a line "NAME: USE .." each, as crates.txt has it.
#   awk -v top=CRATE -f .ci/below.awk crates.txt
function take(name, names, count, at) {
    if (!(name in uses) || name in taken) return
    taken[name] = 1
    count = split(uses[name], names, " ")
    for (at = 1; at <= count; at++) take(names[at])
    print name ":" uses[name]
}
{ sub(/#.*/, ""); colon = index($0, ":") }
colon { split(substr($0, 1, colon - 1), head, " "); uses[head[1]] = substr($0, colon + 1) }
END { take(top) }
