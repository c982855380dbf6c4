#!/bin/sh
# Tests the programs flat and reading: runs them and compares what they print with what 01 says of the book and the text.
#
#     programs.sh PROGRAMS-DIRECTORY
#
# Nothing that is expected here was copied from a program. A short output is written out, as derived by hand from 01; a long one is made from the rule that it
# follows (a flat book line by line, a listing by a walk over the tree), and a place from the formula that 01 has for it.
programs=$(cd "$1" && pwd) || exit 1
LC_ALL=C
export LC_ALL
dir=$(mktemp -d) || exit 1
trap 'rm -rf "$dir"' EXIT
cd "$dir" || exit 1
runs=0
failures=0

repeat() {
    awk -v n="$1" -v word="$2" 'BEGIN { while (n-- > 0) printf "%s", word }'
}

# Writes the bytes, given in base ten, to standard output.
bytes() {
    [ $# = 0 ] || printf "$(printf '\\%03o' "$@")"
}

# The bytes of book T with these declarations instead of its own, in base ten.
book_t() {
    echo 1 3 3 $(($# / 3)) 0 0 1 3 3 1 1 1 0 64 0 0 65 0 0 0 66 0 48 57 42 42 47 47 "$@"
}

T=$(book_t 2 1 1 2 2 2 2 1 2)

# The first lines of a file, not too long.
start() {
    sed -n '1,3s/^/    /p' "$1" | cut -c 1-150
    echo "    ($(($(wc -c < "$1"))) bytes)"
}

# Runs a program on the file `in`; what it prints is to be what the file `want` has.
run() { # PROGRAM WHAT
    runs=$((runs + 1))
    "$programs/$1" < in > got 2> said
    status=$?
    [ $status = 0 ] && [ ! -s said ] && cmp -s want got && return
    failures=$((failures + 1))
    echo "failed: $1, $2 (exit status $status)"
    echo '  expected:'
    start want
    echo '  printed:'
    start got
    cmp want got
    [ ! -s said ] || { echo '  said:' && start said; }
}

# What is expected is as long as it is to be.
long() { # FILE BYTES
    [ $(($(wc -c < "$1"))) = "$2" ] && return
    failures=$((failures + 1))
    echo "failed: what is expected has $(($(wc -c < "$1"))) bytes and not $2"
}

# A book's bytes for flat.
given() {
    bytes "$@" > in
}

# What flat prints for the book given.
flat() { # WHAT LINE..
    what=$1
    shift
    printf '%s\n' "$@" > want
    run flat "$what"
}

# A book's bytes for reading.
book() {
    bytes "$@" > book
}

# What reading prints for the book and a text.
reading() { # WHAT TEXT LINE
    printf '%s' "$2" > in
    printf '%s\n' "$3" > want
    run reading "$1"
}

# ---- flat

flat_books() {
    given $T
    flat 'book T' '[\48-\57] -> [\258]' '[\258-\260] [\42] [\258] -> [\259]' '[\258-\260] [\47] [\258] -> [\260]'
    given $(book_t)
    flat 'T without declarations' '[\48-\57] -> [\258]' '[\258-\260] [\42] [\258-\260] -> [\259]' '[\258-\260] [\47] [\258-\260] -> [\260]'
    given $(book_t 3 1 1 3 2 2 3 1 2)
    flat 'T with right for left' '[\48-\57] -> [\258]' '[\258] [\42] [\258-\260] -> [\259]' '[\258] [\47] [\258-\260] -> [\260]'
    given $(book_t 4 2 1)
    flat 'T with 2 and 1 not together' '[\48-\57] -> [\258]' '[\258-\259] [\42] [\258-\259] -> [\259]' '[\258\260] [\47] [\258\260] -> [\260]'
    given $(book_t 5 1 2)
    flat 'T with left of the group from 1 to 2' '[\48-\57] -> [\258]' '[\258-\260] [\42] [\258] -> [\259]' '[\258-\260] [\47] [\258] -> [\260]'
    given $(book_t 6 1 2)
    flat 'T with right of the group' '[\48-\57] -> [\258]' '[\258] [\42] [\258-\260] -> [\259]' '[\258] [\47] [\258-\260] -> [\260]'
    given $(book_t 7 1 2)
    flat 'T with the group not together' '[\48-\57] -> [\258]' '[\258] [\42] [\258] -> [\259]' '[\258] [\47] [\258] -> [\260]'
    given $(book_t 1 1 2 1 2 0)
    flat 'T with 1 above 2 and 2 above 0: closed' '[\48-\57] -> [\258]' '[\259] [\42] [\259] -> [\259]' '[\259-\260] [\47] [\259-\260] -> [\260]'
    given 1 1 0 0 0 0 0 0
    flat 'a rule without arguments' '-> [\258]'
    # touching and overlapping ranges, no range, two ranges apart, every byte, a sort without a rule
    given 2 1 4 0 0 0 5 3 0 2 1 0 64 65 66 67 1 51 60 48 50 51 52 67 67 65 65 0 255
    flat 'classes' '[\48-\60] [] [\65\67] [\0-\255] [] -> [\258]'
    given 2 1 4 0 0 0 5 3 0 2 1 0 64 65 66 67 1 60 51 50 48 52 51 67 67 65 65 255 0
    flat 'classes, their ranges written downwards' '[\48-\60] [] [\65\67] [\0-\255] [] -> [\258]'
    # one argument: only the first line of the clashes bars, and it bars all
    given 1 2 1 4 0 0 1 1 1 0 64 0 0 56 56 2 1 1 3 1 1 4 1 1 4 0 1
    flat 'a rule with one argument, declared in every way but higher' '[\56] -> [\258]' '[\258-\259] -> [\259]'
    given 1 2 1 1 0 0 1 1 1 0 64 0 0 56 56 1 1 0
    flat 'a rule with one argument, higher' '[\56] -> [\258]' '[\259] -> [\259]'
}

flat_refusals() {
    given
    flat 'no input' 'refused 1 0'
    given 0 3 3 3 0
    flat 'five bytes' 'refused 1 5'
    given 1 2 0 0 0 0 9
    flat 'contents cut short' 'refused 1 7'
    given 1 65 0 0 0 0
    flat '65 rules' 'refused 2 1'
    given 1 3 3 3 0 0 1 9 3 1 1 17 0
    flat 'too many arguments' 'refused 3 7'
    given $T 0
    flat 'a byte too many' 'refused 4 37'
    # a book's length is 3,523 at most, so of a longer input it is the formula that is the smaller
    { bytes $T; repeat 70000 '*'; } > in
    flat 'a book of 70,037 bytes' 'refused 4 37'
    given 1 1 0 0 0 0 1 0 64
    flat 'a class that is not there' 'refused 5 8'
    given 1 1 1 1 0 0 1 2 0 64 48 57 42 41 0 0 0
    flat 'a range written downwards, and no kind' 'refused 7 14'
    given $(book_t 2 1 3)
    flat 'a rule that is not there' 'refused 7 30'
    given $(book_t 8 1 2)
    flat 'no kind' 'refused 7 28'
    given $(book_t 7 1 2 5 2 1)
    flat 'a group whose first is above its second' 'refused 7 32'
    given 1 3 0 0 0 0 1 0 1 0 0 0 0 0
    flat 'a rule equal to an earlier one' 'refused 8 12'
    given 1 2 2 0 0 0 1 1 1 2 0 64 0 65 48 57 48 52 57 53
    flat 'a rule equal to an earlier one by its set' 'refused 8 12'
    given $(book_t 1 1 2 1 2 1)
    flat 'case (h)' 'refused 9 1'
}

# A flat book of 64 lines of 1,024 bytes: it fits exactly. Its classes are named below by what they hold beside 13 ranges from \110-\112 to \170-\172:
# A has a range from 10 + k to 12 + k, B has 10 and 20, and C has 97 to 100. In the flat book A takes 2 + 7 + 13 × 9 = 126 bytes, B a byte less, C a byte more.
# A rule has six of A and two of B: 6 × 126 + 2 × 125, 8 spaces, and `-> [\258]` with its line feed: 1,024 bytes.
# So that no two rules are equal, class k from 0 to 61 is A with this k, and rule r begins with class r; class 62 is what the argument says, and stands in one rule alone.
wide_book() { # A or C
    awk -v last="$1" '
        function thirteen(i) { for (i = 0; i < 13; i++) print 110 + 5 * i, 112 + 5 * i }
        BEGIN {
            print 1, 64, 64, 0, 0, 0
            for (r = 0; r < 64; r++) print 8
            for (k = 0; k < 63; k++) print 14
            print 15
            for (r = 0; r < 63; r++) print 0, 64 + r, 64, 64, 64, 64, 64, 127, 127
            print 0, 64, 64, 64, 64, 64, 127, 64, 127
            for (k = 0; k < 62; k++) { thirteen(); print 10 + k, 12 + k }
            thirteen()
            if (last == "A") print 72, 74; else print 97, 100
            thirteen()
            print 20, 20, 10, 10
        }'
}

wide_text() {
    awk 'BEGIN {
        for (i = 0; i < 13; i++) thirteen = thirteen sprintf("\\%d-\\%d", 110 + 5 * i, 112 + 5 * i)
        for (k = 0; k < 63; k++) own[k] = sprintf("[\\%d-\\%d", 10 + k, 12 + k) thirteen "] "
        a = own[0]
        b = "[\\10\\20" thirteen "] "
        for (r = 0; r < 63; r++) printf "%s%s%s%s%s%s%s%s-> [\\%d]\n", own[r], a, a, a, a, a, b, b, 258 + r
        printf "%s%s%s%s%s%s%s%s-> [\\321]\n", a, a, a, a, a, b, a, b
    }'
}

flat_lengths() {
    given $(wide_book A)
    wide_text > want
    long want 65536
    run flat 'a text of 65,536 bytes'
    given $(wide_book C)
    flat 'a text of 65,537 bytes' 'refused 21 65537'
    # 64 rules of 8 times a class of their own, of 16 ranges: a range is \100-\101 and so on, 9 bytes; a class has 2 more, and a space behind it; the rest of the line is
    # 10 bytes:
    # 64 × (8 × (16 × 9 + 2 + 1) + 10) = 75,904
    given $(awk 'BEGIN {
        print 1, 64, 64, 0, 0, 0
        for (r = 0; r < 64; r++) print 8
        for (k = 0; k < 64; k++) print 16
        for (r = 0; r < 64; r++) { print 0; for (i = 0; i < 8; i++) print 64 + r }
        for (k = 0; k < 64; k++) for (i = 0; i < 16; i++) print 100 + k + 3 * i, 101 + k + 3 * i
    }')
    flat 'a text of 75,904 bytes' 'refused 21 75904'
}

# ---- reading

# The marked cases of 01.
marked_cases() {
    book $T
    reading '(a)' '8/4*2' 'one 259 260 258 56 47 258 52 42 258 50'
    reading '(b)' '' none
    reading '(c)' 8 'one 258 56'
    book $(book_t)
    reading '(d)' '8/4*2' several
    book $(book_t 4 1 1 4 2 2 4 1 2)
    reading '(e)' '8/4/2' none
    book $(book_t 3 1 1 3 2 2 3 1 2)
    reading '(f)' '8/4/2' 'one 260 258 56 47 260 258 52 47 258 50'
    book $(book_t 1 1 2)
    reading '(g)' '8/4*2' 'one 260 258 56 47 259 258 52 42 258 50'
    book $(book_t 1 1 2 1 2 1)
    reading '(h)' '' 'refused 9 1'
    book 1 1 0 0 0 0 0 0
    reading '(i)' '' 'one 258'
    book 1 2 1 0 0 0 1 1 1 0 64 0 0 56 56
    reading '(j)' 8 several
}

texts() {
    # the empty span has one split
    book 2 2 0 0 0 0 0 1 1 0 1
    reading 'an empty argument' '' 'one 259 258'
    book 2 1 0 0 1 0 0 0
    reading 'a start sort without a rule' '' none
    book 1 1 1 0 0 0 1 2 0 64 48 57 56 60
    reading 'a character in two ranges of a class' 8 'one 258 56'

    # any byte, as often as you like: rule 0 is a byte and the rest, rule 1 is nothing
    book 1 2 1 0 0 0 2 0 1 0 64 0 0 0 255
    printf '8\n' > in
    echo 'one 258 56 258 10 259' > want
    run reading 'a line feed at the end of the text is part of it'
    bytes 0 255 13 > in
    echo 'one 258 0 258 255 258 13 259' > want
    run reading 'bytes that are no letters'
    book $T
    printf '8\n' > in
    echo none > want
    run reading 'a line feed that no class has'

    # digits with * between them: the last * is the root, and so on to the first; then each digit but the first behind its *
    { printf 8 && repeat 55 '*8'; } > in
    { printf one && repeat 55 ' 259' && printf ' 258 56' && repeat 55 ' 42 258 56' && echo; } > want
    run reading 'a text of 111 bytes'
    rm in
    mkfifo in
    { printf 8/4 && sleep 1 && printf '*2'; } > in &
    echo 'one 259 260 258 56 47 258 52 42 258 50' > want
    run reading 'a text that comes in two parts'
    rm in
}

limits() {
    rm -f book
    reading 'no file book' 8 'refused 1 0'
    reading 'no file book, and a text that is too long' "$(repeat 201 8)" 'refused 1 0'
    book
    reading 'an empty book' 8 'refused 1 0'
    { bytes $T && repeat 70000 '*'; } > book
    reading 'a book of 70,037 bytes' 8 'refused 4 37'

    # (i) has one rule without arguments: its chart needs 201 × 202 / 2 bytes for 200
    book 1 1 0 0 0 0 0 0
    reading 'a text of 200 bytes' "$(repeat 200 8)" none
    reading 'a text of 201 bytes' "$(repeat 201 8)" 'refused 10 201'
    for length in 65535 65536 65537 70000; do
        repeat $length 8 > in
        most=$length
        [ $most -le 65536 ] || most=65536
        echo "refused 10 $most" > want
        run reading "a text of $length bytes, of which 65,536 are read"
    done

    # A chart of T needs 10 × (n + 1) × (n + 2) / 2 bytes, and has 65,536: enough for 112
    book $T
    reading 'a text of 112 bytes' "$(repeat 56 '8*')" none
    reading 'a text of 113 bytes' "8$(repeat 56 '*8')" "refused 20 $((10 * 114 * 115 / 2))"
    reading 'a text of 200 bytes by T' "$(repeat 200 8)" "refused 20 $((10 * 201 * 202 / 2))"
    reading 'too long a text and too short a chart' "$(repeat 201 8)" 'refused 10 201'
    book ${T% *}
    reading 'a book that is refused, and a text that is too long' "$(repeat 201 8)" 'refused 4 36'

    # Of sort 0 to 5 rule 5 is the only one without arguments, and the others have those of the next sort: a tree of sort 5 has 1 number, of sort 4 has 9, then
    # 73, 585 and 4,681. With seven such arguments rule 0 has 1 + 7 × 4,681 = 32,768 numbers: two bytes each, they fit exactly.
    book 6 6 0 0 0 0 7 8 8 8 8 0 0 1 1 1 1 1 1 1 $(levels)
    awk '
        function arguments(rule) { return rule == 0 ? 7 : rule < 5 ? 8 : 0 }
        function tree(rule, i) {
            printf " %d", 258 + rule
            for (i = 0; i < arguments(rule); i++) tree(rule + 1)
        }
        BEGIN { printf "one"; tree(0); print "" }' > want
    long want $((3 + 4 * 32768 + 1))
    : > in
    run reading 'a listing that fits exactly, and whose line is longer than a buffer'
    # a tree of sort 5 more
    book 6 6 0 0 0 0 8 8 8 8 8 0 0 1 1 1 1 1 1 1 5 $(levels)
    reading 'a listing of 32,769 numbers' '' 'refused 22 32768'
    book 6 6 0 0 0 0 8 8 8 8 8 0 0 1 1 1 1 1 1 1 1 $(levels)
    reading 'a listing of 37,449 numbers' '' 'refused 22 32768'
}

# Rules 1 to 5 of those books.
levels() {
    awk 'BEGIN { for (s = 1; s < 5; s++) { print s; for (i = 0; i < 8; i++) print s + 1 } print 5 }'
}

flat_books
flat_refusals
flat_lengths
marked_cases
texts
limits
[ $failures = 0 ] || { echo "programs: $failures of $runs runs failed" && exit 1; }
echo "programs: $runs runs, all as it should be"
