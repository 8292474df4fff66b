# Writes in C what the Rattle sources say, for tests/header.c: each constant, as CRATE__NAME or CRATE__Type__NAME; the numbers of refusals, of the checker's
# answers, of the kinds of nodes and of the places in a stream's state, held to the enumerators of their names; the functions of crates/recovery/src/lib.rt and of
# crates/recovery_c/src/lib.rt, declared again, and the sizes of what stands for an array. Run on all sources, with these files last.

BEGIN {
    type["u8"] = "uint8_t"; type["u16"] = "uint16_t"; type["u32"] = "uint32_t"; type["u64"] = "uint64_t"; type["usize"] = "size_t"
    # Arrays that the header declares as structs, by the parameter's name.
    struct["verdict"] = "struct recovery_verdict"; struct["lengths"] = "struct recovery_lengths"; struct["told"] = "struct recovery_told"
    # Places in a stream's state that aren't those of figures, by what is read from them.
    behind["lengths"] = "STREAM_LENGTHS"; behind["held"] = "STREAM_BEGUN"
    prefix["Refusal"] = "REFUSED"; prefix["Rejection"] = "REFUSED"; prefix["VerifyError"] = "REFUSED"
}

# An expression with each name as a macro of its crate, or of the one from which the file uses it.
function named(text,    out, name, first) {
    out = ""
    while (match(text, /[A-Za-z][A-Za-z0-9_]*(::[A-Za-z][A-Za-z0-9_]*)*/)) {
        name = substr(text, RSTART, RLENGTH)
        first = name
        sub(/::.*/, "", first)
        out = out substr(text, 1, RSTART - 1)
        text = substr(text, RSTART + RLENGTH)
        if (first in used) name = used[first] substr(name, length(first) + 1)
        sub(/^crate::([a-z_]+::)*/, crate "::", name)
        if (name !~ /::/) name = crate "::" name
        gsub(/::/, "__", name)
        out = out name
    }
    return out text
}

function shouted(name,    out, i, c) {
    out = ""
    for (i = 1; i <= length(name); i++) {
        c = substr(name, i, 1)
        out = out (i > 1 && c ~ /[A-Z]/ ? "_" : "") toupper(c)
    }
    return out
}

# A parameter, 'name: type'; a slice is two.
function parameter(text,    name, constant, of, bound) {
    name = text
    sub(/:.*/, "", name)
    sub(/^[^:]*: */, "", text)
    if (text in type) return type[text] " " name
    constant = text ~ /^&mut / ? "" : "const "
    sub(/^&(mut )?\[/, "", text)
    sub(/\]$/, "", text)
    of = text
    sub(/;.*/, "", of)
    if (!(of in type)) { print "#error \"no type in C: " text "\""; return }
    if (text !~ /;/) return constant type[of] " *" name ", size_t " name "_length"
    bound = text
    sub(/^[^;]*; */, "", bound)
    if (!(name in struct)) return constant type[of] " " name "[" named(bound) "]"
    print "_Static_assert(sizeof(" struct[name] ") == " named(bound) " * sizeof(" type[of] ") && _Alignof(" struct[name] ") == _Alignof(" type[of] "), \"" name "\");"
    return constant struct[name] " *" name
}

function declare(text,    name, gives, parts, count, i, list) {
    sub(/^.* fn /, "", text)
    name = text
    sub(/\(.*/, "", name)
    gives = "void"
    if (text ~ /-> /) { gives = text; sub(/.*-> /, "", gives); gsub(/ /, "", gives); gives = type[gives] }
    sub(/^[^(]*\(/, "", text)
    sub(/\)[^)]*$/, "", text)
    count = split(text, parts, /, */)
    list = ""
    for (i = 1; i <= count; i++) {
        gsub(/^ +| +$/, "", parts[i])
        if (parts[i] != "") list = list (list == "" ? "" : ", ") parameter(parts[i])
    }
    print gives " " name "(" list ");"
}

FNR == 1 {
    split("", used)
    crate = FILENAME
    sub(/\/src\/.*/, "", crate)
    sub(/.*\//, "", crate)
    owner = ""
}

# What a file uses: one name, or several behind one path; over several lines where they are many.
function uses(text,    path, parts, count, i, last) {
    gsub(/^use +|;| /, "", text)
    path = ""
    if (text ~ /\{/) { path = text; sub(/\{.*/, "", path); sub(/^[^{]*\{/, "", text); sub(/\}$/, "", text) }
    count = split(text, parts, /,/)
    for (i = 1; i <= count; i++) {
        last = parts[i]
        sub(/.*::/, "", last)
        if (last != "") used[last] = path parts[i]
    }
}

/^use / { using = 1; list = "" }
using { list = list $0; if (/;$/) { using = 0; uses(list) } }
/^impl / { owner = $2 "__" }
/^}/ { owner = ""; enum = "" }

/^ *(pub(\(crate\))? )?const [A-Z_]+: usize = .*;$/ {
    name = $0
    sub(/: usize.*/, "", name)
    sub(/.* /, "", name)
    value = $0
    sub(/.* = /, "", value)
    sub(/;$/, "", value)
    print "#define " crate "__" owner name " (" named(value) ")"
}

/^pub enum / { enum = $3 }

/^ +[A-Z][A-Za-z]* = [0-9]+,$/ {
    if (enum in prefix) print "_Static_assert(RECOVERY_" prefix[enum] "_" shouted($1) " == " $3 + 0 ", \"" enum "::" $1 "\");"
}

/^ +Err\([A-Z][A-Za-z]+::[A-Z][A-Za-z]*\) => [0-9]+,$/ {
    name = $1
    gsub(/^Err\(|\)$/, "", name)
    split(name, arm, "::")
    if (arm[1] in prefix) print "_Static_assert(RECOVERY_" prefix[arm[1]] "_" shouted(arm[2]) " == " $3 + 0 ", \"" name "\");"
}

# The checker's yes and no.
/^ +Ok\((true|false)\) => [0-9]+,$/ {
    print "_Static_assert(RECOVERY_CHECKED_" ($1 ~ /true/ ? "YES" : "NO") " == " $3 + 0 ", \"" $1 "\");"
}

/^ +[0-9]+ => Node::[A-Z][a-z]+\(/ {
    name = $3
    sub(/\(.*/, "", name)
    sub(/.*::/, "", name)
    print "_Static_assert(RECOVERY_NODE_" toupper(name) " == " $1 ", \"" name "\");"
}

/^ +(let )?[a-z]+(:| =( .*)?)[ (]numbers\[[0-9]+\]/ {
    name = $1 == "let" ? $2 : $1
    sub(/:$/, "", name)
    place = $0
    gsub(/.*numbers\[|\].*/, "", place)
    print "_Static_assert(RECOVERY_" (name in behind ? behind[name] : "FIGURE_" toupper(name)) " == " place ", \"" name "\");"
}

/^pub extern "C" fn / { open = 1; text = "" }
open && /^ *ensures / { open = 0; declare(text) }
open { text = text $0 " " }
