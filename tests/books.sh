#!/bin/sh
# Tests tools/book.
#
#     books.sh BOOK-TOOL [--print]    --print: only prints what is to be stored as books.out, to be looked at and kept
#
# Each book in books/ is made from its text; it is the same after being shown and made again; where a script made the text (the lines behind #$), it makes it
# still. What the tool says to the texts below is in books.out.
tool=$(cd "$(dirname "$1")" && pwd)/$(basename "$1")
cd "$(dirname "$0")/.." || exit 1
LC_ALL=C
export LC_ALL
dir=$(mktemp -d) || exit 1
trap 'rm -rf "$dir"' EXIT
failures=0

fail() {
    echo "failed: $*"
    failures=$((failures + 1))
}

check_book() {
    "$tool" "$1.txt" "$dir/made" || fail "$1.txt is no text of a book"
    cmp "$dir/made" "$1.book" || fail "$1.book is not the book of $1.txt"
    "$tool" --show "$1.book" > "$dir/shown" && "$tool" "$dir/shown" "$dir/again" && cmp "$dir/again" "$1.book" || fail "$1.book is another after being shown"
    sed -n 's/^#\$ //p' "$1.txt" > "$dir/script"
    [ -s "$dir/script" ] || return
    sed '/^#/d; /^$/d' "$1.txt" > "$dir/body"
    sh "$dir/script" | sed '/^$/d' | cmp - "$dir/body" || fail "$1.txt is not what its script makes"
}

# A text, a line an argument, and what becomes of it: numbers and perhaps a note, or words.
try() {
    printf '%s\n' "$@" | sed 's/^/| /'
    printf '%s\n' "$@" > "$dir/text"
    outcome
}

outcome() {
    if "$tool" - - < "$dir/text" > "$dir/bytes" 2> "$dir/words"; then
        echo $(od -An -v -tu1 "$dir/bytes")
        "$tool" --show "$dir/bytes" | "$tool" 2> "$dir/note" | cmp - "$dir/bytes"
    fi
    cat "$dir/words"
}

# A text with N lines that differ by their number, too long to print: FORMAT with each number.
try_many() {
    printf '| %s times %s\n' "$1" "$2" | cut -c 1-60
    { printf 'start s\na: s =\n'; awk -v n="$1" -v f="$2" 'BEGIN { for (i = 1; i <= n; i++) printf f "\n", i }'; } > "$dir/text"
    outcome | cut -c 1-110
}

repeat() {
    awk -v n="$1" -v word="$2" 'BEGIN { while (n-- > 0) printf "%s", word }'
}

# Writes the bytes, given in base ten, to standard output.
bytes() {
    for byte; do printf "\\$(printf %03o "$byte")"; done
}

# A book of these bytes, shown.
show() {
    echo '| bytes:' "$@"
    bytes "$@" | "$tool" --show 2>&1
}

# What stands at a byte of the book of these bytes, or, if that is -, at each byte from 9 on.
explain() {
    place=$1
    shift
    echo "| byte $place of:" "$@"
    case $place in
    -) bytes "$@" | "$tool" --explain 2>&1 | tail -n +11 ;;
    *) bytes "$@" | "$tool" --explain - "$place" 2>&1 ;;
    esac
}

transcript() {
    echo '# book T'
    echo $("$tool" books/T.txt | od -An -v -tu1)
    "$tool" --show books/T.book
    "$tool" --names "$dir/names" books/T.txt "$dir/bytes" && cat "$dir/names"

    echo '# characters, classes, sorts'
    try "start s" "class c '\\'' '\\\"' '\"' '\\\\' '\\n' '#' 0-31 127 '0'-'9' # a comment" "s = c"
    try "start s" "class none" "s = none" "s ="
    try "start s" "s = 'a' t \"ab\" 98" "t = 10"
    try "start b" "sorts a b c" "b = b a" "b ="
    try "start b" "a = 'x' b" "b = a"
    try "start s" "left: s = 'a'" "start: s = 'b'" "left left start, start left" "not-together left left" "higher left start" "right start start"
    try "start s" "s = 'a' 'b'" "class late 'b'"

    echo '# ranges written downwards'
    try "start s" "s = 'b' c" "class c 'z'-'a'"
    try "start s" "class digit '9'-'0'" "class both '0'-'9' '9'-'0' 57 - 48 'a'-'a' 255-0" "s = digit both"

    echo '# groups'
    try "start s" "a: s = 'a'" "s = s 'b' s" "c: s = 'c'" "left a..c" "right a .. c" "not-together a.. c" "left a ..a"
    try "start s" "a: s = 'a'" "b: s = s 'b' s" "c: s = 'c'" "left a b, b..c, c c,a..a" "right b..c, a b" "not-together a..b,b..c" "higher a b"
    try "start s" "a: s = 'a'" "b: s = 'b'" "c: s = 'c'" "left c..a" "right b..a, a..b" "not-together c .. b"
    try "start s" "left: s = 'a'" "right: s = 'b'" "left left..right" "right left..left"
    try "start s" "a-: s = 'a'" "_1: s = 'b'" "left a-.._1" "left _1.._1"

    echo '# equal rules'
    try "start s" "class digit '0'-'9'" "class number '0'-'4' '9'-'5'" "one: s = digit" "two: s = number"
    try "start s" "class a" "class b" "s = a s" "s = b s" "s = b a"
    try "start s" "class a 'a' 'a'" "s = 'b' a" "t = 'b' 'a'" "ba: s = 'b' 'a'" "s = a 'b'"
    try "start s" "s =" "none: s =" "s ="

    echo '# wrong texts'
    try "s = 'a'"
    try "start s" "start s" "s ="
    try "start t" "s ="
    try "start s" "s = tt"
    try "start s" "sorts s s" "s ="
    try "start s" "sorts s" "s = t"
    try "start s" "sorts" "s ="
    try "start s" "class s 'a'" "s ="
    try "start s" "class c 'a'" "class c 'b'" "s = c"
    try "start s" "a: s =" "a: s = s"
    try "start s" "a: s =" "left a b"
    try "start s" "a: s =" "left a"
    try "start s" "a: s =" "left a a a a"
    try "start s" "a: s =" "left a a,"
    try "start s" "a: s =" "higher a a,"
    try "start s" "a: s =" "left a.."
    try "start s" "a: s =" "left ..a"
    try "start s" "a: s =" "left .."
    try "start s" "a: s =" "left a.a"
    try "start s" "a: s =" "left a...a"
    try "start s" "a: s =" "left a....a"
    try "start s" "a: s =" "left a. .a"
    try "start s" "a: s =" "left a a..a"
    try "start s" "a: s =" "left a..a a"
    try "start s" "a: s =" "left a..a..a"
    try "start s" "a: s =" "left a..a,"
    try "start s" "a: s =" "left a-a"
    try "start s" "a: s =" "left a..'a'"
    try "start s" "a: s =" "left 0..1"
    try "start s" "a: s =" "right a..b"
    try "start s" "a: s =" "not-together b..a"
    try "start s" "a: s =" "higher a..a"
    try "start s" "a: s =" "higher a a, a..a"
    try "start s" "a..b: s ="
    try "start s" "s = s..s"
    try "start s" "class c 'a'..'z'" "s = c"
    try "start s" "a: s"
    try "start s" "a:"
    try "start s" "s = = s"
    try "start s" "class c 'a'-" "s = c"
    try "start s" "class c 256" "s = c"
    try "start s" "s = 'ab'"
    try "start s" "s = ''"
    try "start s" "s = 'a"
    try "start s" "s = '\\"
    try "start s" "s = '\\t'"
    try "start s" "s = \"a$(printf '\303\251')\""
    try "start s" "s = *"
    try "start s" "s -> s"
    try "'a' = s"
    try "start s" "rule s"

    echo '# what no byte holds'
    try_many 254 "s = s"
    try_many 255 "s = s"
    try_many 192 "class c%s"
    try_many 193 "class c%s"
    try_many 192 "s = %s"
    try_many 193 "s = %s"
    try_many 63 "s%s ="
    try_many 64 "s%s ="
    try_many 1 "s = \"$(repeat 255 x)\""
    try_many 1 "s = \"$(repeat 256 x)\""
    try_many 1 "class c $(repeat 255 ' 7')"
    try_many 1 "class c $(repeat 256 ' 7')"
    try_many 1 "left $(repeat 254 'a a, ') a a"
    try_many 1 "left $(repeat 255 'a a, ') a a"
    try_many 1 "left $(repeat 254 'a..a, ') a..a"
    try_many 1 "left $(repeat 255 'a..a, ') a..a"

    echo '# groups shown'
    show 1 1 2 0 0 0 2 2 1 0 64 65 57 48 57 57 255 0
    show 1 2 0 5 0 0 0 1 0 0 0 5 0 1 6 1 1 7 1 0 2 0 1 4 1 0

    echo '# books that cannot be shown'
    show
    show 1 1 0 0 0
    show 1 1 0 0 0 0
    show 1 1 0 0 0 0 1 0
    show 1 1 0 0 0 0 0 0 0
    show 1 1 0 0 1 0 0 0
    show 1 1 0 0 0 1 0 0
    show 1 1 0 0 0 0 0 1
    show 1 1 0 0 0 0 1 0 64
    show 1 1 0 1 0 0 0 0 8 0 0
    show 1 1 0 1 0 0 0 0 0 0 0
    show 1 1 0 1 0 0 0 0 1 0 1
    show 1 1 0 1 0 0 0 0 5 0 1
    show 1 1 0 1 0 0 0 0 7 1 0
    show 65 1 0 0 0 0 0 0
    "$tool" --show "$dir/missing" 2>&1 | sed "s|$dir/||"
    "$tool" --what 2>&1

    echo '# what stands at the bytes of a book'
    "$tool" --explain books/T.book
    "$tool" --explain books/T.book 16
    : > "$dir/empty"
    "$tool" --explain - < "$dir/empty"
    for place in 0 4 5 6; do explain $place 1 3 3 3 1; done
    for place in 5 6 9 11 12; do explain $place 0 3 3 0 0 0 1 3 3 1 1; done
    explain - 2 1 2 1 2 0 2 2 0 2 66 1 65 66 64 39 92 200
    explain - 2 1 2 1 2 0 2 2 0 2 2 63 65 66 64 39 92 200 10 5 0 1 7
    explain 18 2 1 2 1 2 0 2 2 0 2 66 1 65 66 64 39 0 0 1
    explain 17 2 1 2 1 2 0 2 2 0 2 66 1 65 66 64 39 0 0 1
    explain - 1 2 0 6 0 0 0 1 0 0 0 5 0 1 6 1 1 7 1 0 4 1 0 8 1 0 0 1 0
    explain - 1 2 0 4 0 0 0 1 0 0 0 5 2 0 6 0 2 7 3 2 5 1
    explain 11 1 2 0 1 0 0 0 1 0 0 0
    explain 12 1 2 0 1 0 0 0 1 0 0 0 5
    explain 12 1 2 2 0 0 0 1 1 1 2 0 64 0 65 48 57 48 52 57 53
    explain 12 1 2 2 0 0 0 1 1 1 2 0 64 0 65 48 57 48 52 57 54
    explain - 1 3 4 0 0 0 2 2 2 1 1 1 0 0 64 65 0 66 65 0 66 64 97 97 98 98 97 97
    explain 12 1 2 2 0 0 0 1 1 0 0 0 64 0 65
    explain 12 1 2 2 0 0 0 1 1 0 0 0 64 0 65 0
    explain 255 255 255 255 255 255 255
    explain x 1 1 0 0 0 0 0 0
    explain -1 1 1 0 0 0 0 0 0
    "$tool" --explain "$dir/missing" 2>&1 | sed "s|$dir/||"
}

if [ "$2" = --print ]; then
    transcript
    exit 0
fi
for text in books/*.txt; do check_book "${text%.txt}"; done
for book in books/*.book; do [ -f "${book%.book}.txt" ] || fail "$book has no text"; done
transcript > "$dir/out"
diff tests/books.out "$dir/out" || fail "the tool says something else than tests/books.out"
[ $failures = 0 ] && echo 'books: all as it should be'
