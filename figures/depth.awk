# Reads `objdump -r` and then `objdump -dr --no-show-raw-insn`, and prints, for each function named call_..., the most stack that it and
# everything it calls can need, whatever the input: 'NAME BYTES'.
#
# A function needs what it pushes and subtracts from the stack pointer, and for each call 8 bytes of return
# address and what the callee needs. Functions that are not in the listing are those of the C library; they
# count as their return address. A jump by a table stays in its function if every entry of the function's table
# leads into it. Whatever else moves the stack pointer, a call through a pointer, or recursion has no bound that
# can be read off, and stops the program.

function stop(what) {
    printf "FAILED: %s in %s: its stack can't be read off the code.\n", what, current > "/dev/stderr"
    failed = 1
    exit 1
}

function hex(digits,   i, value) {
    value = 0
    for (i = 1; i <= length(digits); i++) value = value * 16 + index("0123456789abcdef", substr(digits, i, 1)) - 1
    return value
}

# The number behind '0x' in a text.
function number(text) {
    match(text, /0x[0-9a-f]+/)
    return hex(substr(text, RSTART + 2, RLENGTH - 2))
}

# What a function and its callees need, without its own return address.
function need(name,   i, n, callee, deepest, below) {
    if (name in known) return known[name]
    if (name in open) { current = name; stop("recursion") }
    open[name] = 1
    deepest = below_pointer[name]
    n = split(callees[name], callee, "\n")
    for (i = 1; i <= n; i++) {
        below = 8 + (callee[i] in frame ? need(callee[i]) : 0)
        if (below > deepest) deepest = below
    }
    delete open[name]
    return known[name] = frame[name] + deepest
}

function add_callee(name) {
    callees[current] = callees[current] (callees[current] == "" ? "" : "\n") name
}

# The entries of a function's table of jumps: all of them are places in the function itself.
/^RELOCATION RECORDS FOR \[/ {
    table = substr($4, 2, length($4) - 3)
    if (sub(/^\.rodata\./, "", table) == 0) table = ""
    next
}
/^[0-9a-f]+ +R_X86_64_/ {
    if (table == "") next
    target = $3
    if (target !~ /^\.text\./) next
    sub(/^\.text\./, "", target)
    sub(/[+-]0x[0-9a-f]+$/, "", target)
    if (target == table) inside[table] = 1
    else outside[table] = 1
    next
}
# The target of a call, or of a jump to another function, stands on the line itself or, where the linker fills it
# in, on the next one.
/R_X86_64_PLT32/ {
    target = $3
    sub(/^\.text\./, "", target)
    if (sub(/-0x4$/, "", target) == 0) stop("a call into the middle of " $3)
    add_callee(target)
    pending = ""
    next
}
pending != "" { add_callee(pending); pending = "" }
/^[0-9a-f]+ <.*>:$/ { current = substr($2, 2, length($2) - 3); frame[current] = 0; next }
/\tcall .*<[^+>]+>$/ { pending = substr($NF, 2, length($NF) - 2) }
/\tj[a-z]+ .*<[^+>]+>$/ && $NF != "<" current ">" { pending = substr($NF, 2, length($NF) - 2) }
/\tjmp +\*%/ && (current in inside) && !(current in outside) { next }
/\t(call|jmp) +\*/ { stop("a call through a pointer") }
# A long frame is taken a page or three quarters of one at a time, in a loop that ends where %r11 says: it takes what
# %r11 is below the stack pointer.
/\tmov +%rsp,%r11$/ { probing = 1; next }
probing == 1 { if (!/\tsub +\$0x[0-9a-f]+,%r11$/) stop("'" $0 "'"); frame[current] += number($0); probing = 2; next }
probing == 2 { if (!/\tsub +\$0x(1000|c00),%rsp$/) stop("'" $0 "'"); probing = 3; next }
probing == 3 && /\tcmp +%r11,%rsp$/ { probing = 0; next }
probing == 3 && !/\tmovq +\$0x0,\(%rsp\)$/ { stop("'" $0 "'") }
probing == 3 { next }
/\tpush/ { frame[current] += 8; next }
# A small negative number: taken off, it gives stack back; added, or to align by, it takes stack.
/\tsub +\$0xfffffffffffff[0-9a-f]+,%rsp$/ { next }
/\t(add|and) +\$0xfffffffffffff[0-9a-f]+,%rsp$/ { frame[current] += 4096 - hex(substr($0, length($0) - 7, 3)); next }
/\tsub +\$0x[0-9a-f]+,%rsp$/ { frame[current] += number($0); next }
/\t(add +\$0x[0-9a-f]+|lea +-0x[0-9a-f]+\(%rbp\)|mov +%rbp),%rsp$/ { next }
/,%rsp$/ && !/\t(cmp|test)/ { stop("'" $0 "'") }
# What a function that calls nothing keeps below the stack pointer.
/-0x[0-9a-f]+\(%rsp/ {
    match($0, /-0x[0-9a-f]+\(%rsp/)
    depth = number(substr($0, RSTART, RLENGTH))
    if (depth > below_pointer[current]) below_pointer[current] = depth
}

END {
    if (failed) exit 1
    for (name in frame) if (name ~ /^call_/) print name, need(name)
}
