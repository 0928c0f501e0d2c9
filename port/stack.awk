# The most stack that each exported call can need, from the compiler's own figures: the frame of each function (-fstack-usage) and who calls whom (assembly).
# A name of a function anywhere in another's instructions counts as a call; the module has no pointers to functions. Functions of the C library and of the
# compiler's runtime (memcpy, a division) are not in the sum; they are printed behind it.
# Usage: awk -v slack=BYTES -f port/stack.awk FRAMES.su.. ASSEMBLY.s..
#   slack: what a call costs beside the frame: the return address where calling pushes it, the realignment of a frame where the stack has less than 8
# Prints for each call: NAME BYTES

function complain(text) { print "port/stack.awk: " text >"/dev/stderr"; bad = 1 }

# The deepest way down from a function.
function depth(name,    n, i, most, below, list) {
    if (name in deepest) return deepest[name]
    if (open[name]++) { complain(name " calls itself, so that its stack has no limit."); return 0 }
    n = split(calls[name], list, "\t")
    for (i = 2; i <= n; i++) { below = depth(list[i]); if (below > most) most = below }
    return deepest[name] = frame[name] + slack + most
}

FILENAME ~ /\.su$/ {
    split($0, part, "\t")
    sub(/^[^:]*:([0-9]+:)*/, "", part[1])
    frame[part[1]] = part[2]
    if (part[3] !~ /^static/) complain(part[1] " has a frame of no fixed size.")
    next
}
/^"?[A-Za-z_][A-Za-z0-9_.:$]*"?:/ {
    name = $1
    sub(/:$/, "", name)
    gsub(/"/, "", name)
    if (name in frame) here = name
    next
}
/^[ \t]*\./ || here == "" { next }
{
    text = $0
    sub(/[ \t]*[@#;\/].*$/, "", text)
    sub(/^[ \t]*[^ \t]+/, "", text)
    while (match(text, /"[^"]+"|[A-Za-z_][A-Za-z0-9_.$]*/)) {
        called = substr(text, RSTART, RLENGTH)
        text = substr(text, RSTART + RLENGTH)
        gsub(/"/, "", called)
        if ((called in frame) && called != here && !((here, called) in known)) { known[here, called] = 1; calls[here] = calls[here] "\t" called }
        if (called == here) complain(here " names itself.")
    }
}

END {
    for (name in frame) if (name ~ /^lokhazim_/ && name !~ /^lokhazim_core_/) { count++; print substr(name, 10), depth(name) }
    if (!count) complain("no exported call was found.")
    if (bad) exit 1
}
