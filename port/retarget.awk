# Takes the text of the proved build's LLVM module and takes off what is for x86-64 alone: the data layout, the
# target, the attributes of that processor, and the wrappers that pass structs as C does there. What a wrapper calls
# becomes visible as lokhazim_core_NAME; it takes every struct by pointer, and a lent slice as its address and a
# length of 64 bits, which all processors pass alike. An answer that is a pair of numbers comes from the module as two
# values, which C can take on no processor: there lokhazim_core_NAME is written here, calls that function and stores
# the two where its first argument points. The files port/*.c give C's functions over these. A function that is to be
# left out stays hidden, so that the compiler drops it with all that it alone calls. A function that stands by itself
# in the proved library is not put into its caller: else its frame would be there while another function with a large
# one runs, and a call would need twice the stack. Two values of which one is an address are loaded one by one (see
# apart_loaded). Nothing else is changed. It stops where the module is not of the form that it knows.
# Usage: awk -v crate=NAME -v without=EXPORTED_NAME -f port/retarget.awk NAMES MODULE.ll >CORE.ll
#   NAMES: a file with the functions that stand by themselves, a line each, such as survey::survey

BEGIN { function_inside = "@\"" crate "::[a-z_]+::lokhazim_[a-z0-9_]+\"" }

function complain(text) { print "port/retarget.awk: line " NR ": " text >"/dev/stderr"; bad = 1 }

# The exported function's name out of a text such as exports_c::heaps::lokhazim_raw_check.
function exported(text) { sub(/.*::/, "", text); sub(/"$/, "", text); return text }

# The line with each call's name as it is visible from outside.
function renamed(line,    name) {
    while (match(line, function_inside)) {
        name = exported(substr(line, RSTART, RLENGTH))
        line = substr(line, 1, RSTART - 1) "@lokhazim_core_" substr(name, 10) substr(line, RSTART + RLENGTH)
    }
    return line
}

# A function that stores the pair which the one of this definition gives: { i32, i32 } or { i32, i64 }.
function of_pair(line, inside, name,    first, second, parameters) {
    if (line !~ /^define internal (noundef )?\{ i32, i(32|64) \} /) { complain("an answer is a pair of another form: " line); return "" }
    second = line ~ /\{ i32, i64 \}/ ? "i64" : "i32"
    parameters = line
    sub(/^[^@]*@"[^"]*"\(/, "", parameters)
    sub(/\) #[0-9]+ \{$/, "", parameters)
    first = "{ i32, " second " }"
    return "\ndefine void @lokhazim_core_" substr(name, 10) "(ptr noundef %out" (parameters == "" ? "" : ", ") parameters ") nounwind {\n" \
        "  %pair = call " first " " inside "(" parameters ")\n" \
        "  %first = extractvalue " first " %pair, 0\n" \
        "  store i32 %first, ptr %out, align 4\n" \
        "  %second = extractvalue " first " %pair, 1\n" \
        "  %place = getelementptr i8, ptr %out, i64 " (second == "i64" ? 8 : 4) "\n" \
        "  store " second " %second, ptr %place, align " (second == "i64" ? 8 : 4) "\n" \
        "  ret void\n}\n"
}

# A load of a pair of which one half is an address, as two loads from bytes 0 and 8: there the module's own stores have
# put the halves, which are apart by 8 bytes on x86-64. The pair's type would lie otherwise where addresses are shorter.
function apart_loaded(line,    value, type, from, halves) {
    match(line, /%[^ ]+/)
    value = substr(line, RSTART, RLENGTH)
    match(line, /\{ [a-z0-9]+, [a-z0-9]+ \}/)
    type = substr(line, RSTART, RLENGTH)
    from = line
    sub(/^.*, ptr /, "", from)
    sub(/,.*$/, "", from)
    split(substr(type, 3, length(type) - 4), halves, ", ")
    return "  " value ".first = load " halves[1] ", ptr " from ", align 8\n" \
        "  " value ".place = getelementptr i8, ptr " from ", i64 8\n" \
        "  " value ".second = load " halves[2] ", ptr " value ".place, align 8\n" \
        "  " value ".half = insertvalue " type " poison, " halves[1] " " value ".first, 0\n" \
        "  " value " = insertvalue " type " " value ".half, " halves[2] " " value ".second, 1"
}

FILENAME == ARGV[1] { apart[$0] = 1; next }
/^target datalayout = / {
    layouts++
    if ($0 !~ /"e-/) complain("the data layout is not little-endian.")
    next
}
/^target triple = / {
    triples++
    if ($0 !~ /"x86_64-/) complain("the module is not for x86-64.")
    next
}
/^define [^@]*@lokhazim_[a-z0-9_]+\(/ {
    match($0, /@lokhazim_[a-z0-9_]+/)
    wrapper[substr($0, RSTART + 1, RLENGTH - 1)] = 1
    inside = 1
}
inside { if (/^}/) inside = 0; next }
/^define internal / && match($0, function_inside) {
    name = exported(substr($0, RSTART, RLENGTH))
    core[name]++
    if ($0 ~ /^define internal (noundef )?\{/) {
        if (name != without) pairs = pairs of_pair($0, substr($0, RSTART, RLENGTH), name)
        print
        next
    }
    if (name != without) sub(/^define internal /, "define ")
}
/^define internal / && match($0, /@"[^"]+"/) && (substr($0, RSTART + 2, RLENGTH - 3) in apart) { sub(/ #[0-9]+ \{$/, " noinline&"); kept_apart++ }
/^define / && !/^define internal / && !/::lokhazim_/ { complain("a function is visible from outside that is no call of the library.") }
/^declare / && !/@llvm\.(mem(cpy|move|set)\.p0|ctlz|cttz|ctpop|bswap|trap|assume|fsh[lr]|[us](min|max)|[us](add|sub|mul)\.)/ {
    complain("it calls something that is not known here: " $0)
}
/^ *%[^ ]+ = load \{ (ptr, i[0-9]+|i[0-9]+, ptr|ptr, ptr) \}, ptr %[^ ,]+, align 8$/ { print apart_loaded($0); next }
/ (ptrtoint|inttoptr|addrspacecast) | asm |x86_|byval| va_arg| (load|store|alloca|getelementptr) .*(\{ ptr|, ptr \})/ && !/^attributes/ { complain("this holds on x86-64 alone: " $0) }
/^@/ && !/ constant / { complain("the module has memory of its own: " $0) }
/^attributes / { gsub(/ "(probe-stack|stack-probe-size|target-cpu)"="[^"]*"/, "") }
{ print renamed($0) }

END {
    if (layouts != 1 || triples != 1) complain("there is not one data layout and one target.")
    for (name in wrapper) { count++; if (core[name] != 1) complain(name " has no function inside that it calls.") }
    for (name in core) if (!(name in wrapper)) complain(name " is not visible from outside.")
    if (!count) complain("no exported call was found.")
    if (!kept_apart) complain("no function stands by itself in the proved library.")
    if (bad) exit 1
    printf "%s", pairs
    print count " calls" >"/dev/stderr"
}
