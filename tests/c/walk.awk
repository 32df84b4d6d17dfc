# Reads x86-64 machine code (objdump -dr --no-show-raw-insn) and walks every function that is called or jumped to from tp_convert_bit,
# tp_convert_value, tp_sample, tp_sample_steps, tp_sample_polynomial and tp_split_noise. Fails where one divides, where a call or jump is indirect
# and where a function is missing. The C library's memcpy, memmove and memset may be.

function fail(message) {
    print "walk: " message
    status = 1
}

function number(hex,    value, i) {
    for (i = 1; i <= length(hex); i++)
        value = 16 * value + index("0123456789abcdef", substr(hex, i, 1)) - 1
    return value + 0
}

# The function of a relocation: by its name, or by its place in a section. A call's addend is 4 less than the place.
function relocated(symbol,    name, addend) {
    name = symbol
    sub(/[-+]0x[0-9a-f]+$/, "", name)
    addend = substr(symbol, length(name) + 1)
    if (name in size)
        return name
    addend = addend ~ /^-/ ? -number(substr(addend, 4)) : number(substr(addend, 4))
    return (member, name, addend + 4) in at ? at[member, name, addend + 4] : name
}

# The function in which the target of a direct call or jump lies, as objdump names it: 1f <name+0x1f>.
function named(operands) {
    sub(/^[^<]*</, "", operands)
    sub(/(\+0x[0-9a-f]+)?>[^>]*$/, "", operands)
    return operands
}

function add_call(from, to) {
    callee[from, ++calls[from]] = to
}

function visit(name) {
    if (!(name in visited)) {
        visited[name] = 1
        queue[++queued] = name
    }
}

function walk(name,    i) {
    if (!(name in size)) {
        outside = outside " " name
        if (name !~ /^mem(cpy|move|set)$/)
            fail("function " name " is missing")
        return
    }
    functions++
    instructions += size[name]
    if (name in division)
        fail(name " divides: " division[name])
    for (i = 1; i <= calls[name]; i++) {
        if (callee[name, i] == "*")
            fail(name " has an indirect call or jump")
        else
            visit(callee[name, i])
    }
}

# The first reading notes where functions lie, the second what they call.
FNR == 1 { reading++; member = 0 }
/: +file format / { member++ }
/^Disassembly of section / { section = substr($0, 24, length($0) - 24) }

/^[0-9a-f]+ <.*>:$/ {
    name = substr($0, index($0, "<") + 1)
    sub(/>:$/, "", name)
    at[member, section, number($1)] = name
    if (reading == 1)
        size[name] += 0
    branch = 0
    next
}

reading == 1 { next }

/^ *[0-9a-f]+:\t/ {
    size[name]++
    sub(/^[^\t]*\t/, "")
    while ($1 ~ /^(rep|repz|repnz|lock|bnd|notrack|data16|addr32|[cdefgs]s|rex.*)$/)
        sub(/^[^ ]+ */, "")
    if ($1 ~ /^(v|f|i|fi)?div/)
        division[name] = $0
    branch = $1 ~ /^(call|j)/
    if (branch)
        add_call(name, $2 ~ /^\*/ ? "*" : named($0))
}

/^\t+[0-9a-f]+: R_X86_64_/ && branch && ($2 ~ /GOTPCREL/ || callee[name, calls[name]] != "*") { callee[name, calls[name]] = relocated($3) }

END {
    visit("tp_convert_bit")
    visit("tp_convert_value")
    visit("tp_sample")
    visit("tp_sample_steps")
    visit("tp_sample_polynomial")
    visit("tp_split_noise")
    for (i = 1; i <= queued; i++)
        walk(queue[i])
    if (!status)
        print "walk: " functions " functions, " instructions " instructions, no division; called outside the library:" outside
    exit status
}
