#!/bin/sh
# Looks at a built library, section by section, and prints how large its code and its constants are. It fails if a constant has more than LIMIT bytes, if the
# constants that one function refers to have together (the compiler can lay a table in pieces), or if there is anything that can be written to. Constants are all
# that is loaded and is no code.
#
#     constants.sh LIBRARY [LIMIT]
library=$1
limit=${2:-64}
LC_ALL=C
export LC_ALL
{
    readelf -SW "$library" && readelf -sW "$library" && readelf -rW "$library"
} > /dev/null 2>&1 || { echo "constants.sh: readelf cannot read $library"; exit 1; }

# A section is known by its object and number, a symbol by its object and name. In a section of pieces (flag M, but not S, which has strings) each piece is a
# constant, of the entry size; any other section is one constant.
{
    readelf -SW "$library" | sed 's/\[ */ /; s/\]/ /; s/^File: /FILE /'
    echo SYMBOLS
    readelf -sW "$library" | sed 's/^File: /FILE /'
    echo RELOCATIONS
    readelf -rW "$library" | sed 's/^File: /FILE /'
} | awk -v limit="$limit" '
function number(digits,   i, n) {
    for (i = 1; i <= length(digits); i++) n = 16 * n + index("0123456789abcdef", substr(digits, i, 1)) - 1
    return n + 0
}
function fail(words) {
    print words
    failures++
}
function section(   key, size, pieces) {
    size = number($6)
    pieces = $8 ~ /M/ && $8 !~ /S/
    if ($8 !~ /A/ || size == 0) return
    if ($8 ~ /W/) fail("section " $2 " has " size " bytes that can be written to")
    if ($3 == "NOBITS") return
    if ($8 ~ /X/) {
        code += size
        functions++
        return
    }
    key = object " " $1
    constants += size
    piece[key] = pieces ? number($7) : size
    if (!pieces && size > limit) fail("section " $2 " has " size " bytes of constants, more than " limit)
}
# Two ways to name one piece count twice; none is left out.
function reference(   name, key) {
    name = $5
    key = object " " place[object " " name]
    if (!(key in piece)) return
    if ((owner, key, name, $6, $7) in met) return
    met[owner, key, name, $6, $7] = 1
    used[owner] += piece[key]
}
BEGIN { object = "one" }
$1 == "FILE" { object = $2; next }
$1 == "SYMBOLS" || $1 == "RELOCATIONS" { part = $1; object = "one"; next }
part == "" && $1 ~ /^[0-9]+$/ && $3 ~ /^(PROG|NO)BITS$/ { section() }
part == "SYMBOLS" && $1 ~ /^[0-9]+:$/ && $7 ~ /^[0-9]+$/ { place[object " " $8] = $7 }
part == "RELOCATIONS" && $1 == "Relocation" { owner = $3; gsub(/\047/, "", owner); sub(/^\.rela/, "", owner) }
part == "RELOCATIONS" && $1 ~ /^[0-9a-f]+$/ && $3 ~ /^R_/ && owner ~ /^\.text/ { reference() }
END {
    if (code == 0) fail("no code was found")
    for (name in used) {
        if (used[name] > most) most = used[name]
        if (used[name] > limit) fail("the constants of " substr(name, 7) " have " used[name] " bytes, more than " limit)
    }
    if (failures) exit 1
    printf "library: %d bytes of code in %d sections; %d bytes of constants, at most %d for one function\n", code, functions, constants, most
}'
