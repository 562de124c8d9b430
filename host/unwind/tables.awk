# Writes the unwind tables (.eh_frame, as assembler) of the functions that nm -S and then objdump -dr show: at each instruction, how far the stack pointer
# is from where it was at the call, and where the caller's registers are kept. Understood are functions that move the stack pointer by push,
# pop, and by adding and subtracting constants; another is left out, and named on standard error.
#
# A state is "height rbx rbp r12 r13 r14 r15": the octets from the stack pointer up to the frame of the caller, the return address among
# them, and for each register that a caller expects back how far below that frame it is kept, 0 where it is not.

BEGIN {
    print "\t.section .note.GNU-stack,\"\",@progbits"
    split("rbx rbp r12 r13 r14 r15", kept, " ")
    split("3 6 12 13 14 15", dwarf, " ")
    for (i = 1; i <= 6; i++) place[kept[i]] = i + 1
    print "\t.section .eh_frame,\"a\",@progbits"
    print ".Lcie:\n\t.long .Lcie_end - .Lcie_id\n.Lcie_id:\n\t.long 0\n\t.byte 1\n\t.asciz \"zR\"\n\t.uleb128 1\n\t.sleb128 -8\n\t.uleb128 16"
    print "\t.uleb128 1\n\t.byte 0x1b\n\t.byte 0x0c, 7, 8\n\t.byte 0x90, 1\n\t.balign 8, 0\n.Lcie_end:"
}

# What nm -S prints comes first: the size of each function.
/^[0-9a-f]+ [0-9a-f]+ [tT] / { size[$4] = number("0x" $2); next }

# Function by function.
/^[0-9a-f]+ <.*>:$/ {
    finish()
    name = $0
    sub(/^[0-9a-f]+ </, "", name)
    sub(/>:$/, "", name)
    count = 0
    next
}
# An instruction, and a relocation, by which a jump leads to another function.
/^ *[0-9a-f]+:\t[a-z]/ {
    count++
    split($0, part, "\t")
    gsub(/[ :]/, "", part[1])
    address[count] = number("0x" part[1])
    text[count] = part[2]
    leaves[count] = 0
    next
}
/R_X86_64_/ { leaves[count] = 1 }
END { finish() }

function number(hex,    value, i) {
    if (hex !~ /^0x/) return hex + 0
    value = 0
    for (i = 3; i <= length(hex); i++) value = value * 16 + index("0123456789abcdef", substr(hex, i, 1)) - 1
    return value
}

function failed(why) {
    if (trouble == "") trouble = why
}

# The state behind an instruction, by the state before it.
function behind(words, state,    s, operand, amount, i) {
    split(state, s, " ")
    operand = words
    sub(/^[a-z0-9]+ +/, "", operand)
    if (words ~ /^push /) {
        s[1] += 8
        sub(/^%/, "", operand)
        if (operand in place && s[place[operand]] == 0) s[place[operand]] = s[1]
    } else if (words ~ /^pop /) {
        sub(/^%/, "", operand)
        if (operand in place) {
            if (s[place[operand]] != s[1]) failed("a register is not taken from where it was kept")
            s[place[operand]] = 0
        }
        s[1] -= 8
    } else if (words ~ /^(sub|add) +\$0x[0-9a-f]+,%rsp$/) {
        amount = operand
        sub(/^\$/, "", amount)
        sub(/,.*/, "", amount)
        amount = number(amount)
        if (amount >= 2147483648) failed("a constant is negative")
        s[1] += words ~ /^sub/ ? amount : -amount
    } else if (words ~ /,%(rsp|esp)$/ && words !~ /^(cmp|test)/) {
        failed("the stack pointer is set by: " words)
    }
    for (i = 2; i <= 7; i++)
        if (words ~ (",%" kept[i - 1] "$") && s[i] == 0 && words !~ /^(cmp|test)/) failed("a register of the caller is overwritten")
    state = s[1]
    for (i = 2; i <= 7; i++) state = state " " s[i]
    return state
}

function meet(i, state) {
    if (i == 0 || i > count) { failed("a jump or the end leads out of it"); return }
    if (before[i] == "") { before[i] = state; waiting[++last] = i }
    else if (before[i] != state) failed("two ways lead to " address[i] " with different stacks")
}

# Follows every way from the instructions that wait.
function follow(    i, words, state, target) {
    while (last > 0) {
        i = waiting[last--]
        words = text[i]
        state = behind(words, before[i])
        if (words ~ /^ret/) {
            if (before[i] != "8 0 0 0 0 0 0") failed("it returns with a stack of " before[i])
        } else if (words ~ /^jmp +\*/) {
            if (table_state != "" && table_state != state) failed("two jumps by tables")
            table_state = state
        } else if (words ~ /^j/) {
            if (leaves[i]) {
                if (words !~ /^jmp/ || before[i] != "8 0 0 0 0 0 0") failed("it jumps elsewhere with a stack of " before[i])
            } else {
                target = words
                sub(/^j[a-z]+ +/, "", target)
                sub(/ .*/, "", target)
                meet(at[number("0x" target)], state)
                if (words !~ /^jmp/) meet(i + 1, state)
            }
        } else if (words !~ /^ud2/) {
            meet(i + 1, state)
        }
    }
}

# What no way has led to is where a table leads: to the first instruction behind one that does not go on.
function follow_tables(    i) {
    for (i = 2; i <= count; i++)
        if (before[i] == "" && text[i] !~ /nop|^xchg +%ax,%ax/) {
            if (table_state == "") { failed("nothing leads to " address[i]); return }
            meet(i, table_state)
            follow()
        }
}

function finish(    i, was, is, s, w, k, label) {
    if (name == "") return
    trouble = ""
    table_state = ""
    split("", before)
    split("", at)
    last = 0
    for (i = 1; i <= count; i++) at[address[i]] = i
    meet(1, "8 0 0 0 0 0 0")
    follow()
    follow_tables()
    if (trouble != "") {
        print "unwind: " name " is left out: " trouble > "/dev/stderr"
        name = ""
        return
    }
    label = ++functions
    printf "\t.long .Lend%d - .Lfde%d\n.Lfde%d:\n\t.long . - .Lcie\n\t.long \"%s\" - .\n\t.long %d\n\t.uleb128 0\n", label, label, label, name, size[name]
    was = before[1]
    from = 0
    for (i = 2; i <= count; i++) {
        is = before[i]
        if (is == "" || is == was) continue
        printf "\t.byte 0x04\n\t.long %d\n", address[i] - from
        from = address[i]
        split(was, w, " ")
        split(is, s, " ")
        if (s[1] != w[1]) printf "\t.byte 0x0e\n\t.uleb128 %d\n", s[1]
        for (k = 2; k <= 7; k++) {
            if (s[k] == w[k]) continue
            if (s[k] == 0) printf "\t.byte 0x%02x\n", 192 + dwarf[k - 1]
            else printf "\t.byte 0x%02x\n\t.uleb128 %d\n", 128 + dwarf[k - 1], s[k] / 8
        }
        was = is
    }
    printf "\t.balign 8, 0\n.Lend%d:\n", label
    name = ""
}
