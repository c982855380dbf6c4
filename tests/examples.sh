#!/bin/sh
# Tests the examples: runs the viewer and the wrapper, and compares what they print with examples.out; where a book is refused, what book --explain says, too.
#
#     examples.sh EXAMPLES-DIRECTORY BOOK-TOOL [--print]    --print: only prints what is to be stored as examples.out, to be looked at and kept
examples=$(cd "$1" && pwd)
tool=$(cd "$(dirname "$2")" && pwd)/$(basename "$2")
cd "$(dirname "$0")/.." || exit 1
here=$(pwd)
LC_ALL=C
export LC_ALL
dir=$(mktemp -d) || exit 1
trap 'rm -rf "$dir"' EXIT

repeat() {
    awk -v n="$1" -v word="$2" 'BEGIN { while (n-- > 0) printf "%s", word }'
}

# Writes the bytes, given in base ten, to standard output.
bytes() {
    for byte; do printf "\\$(printf %03o "$byte")"; done
}

# Runs an example and prints how it was called, what it said, and its exit status if that isn't 0.
run() {
    for word; do printf ' %s' "${word:-''}"; done | sed '1s/^/$/' | cut -c 1-100
    program=$1
    shift
    "$examples/$program" "$@" 2>&1
    status=$?
    [ $status = 0 ] || echo "exit status $status"
}

# The book of a text in books/, NAME.book, and the names of its rules, NAME.names.
make_book() { # NAME
    "$tool" --names "$1.names" "$here/books/$1.txt" "$1.book"
}

# The flat book of a book, NAME.flat, and the numbers at the top, NAME.top, with commas between them.
flatten() { # NAME BOOK
    "$examples/viewer" --flat "$2" > "$1.flat" 2> said
    sed 's/^[^0-9]*//; y/ /,/' said > "$1.top"
}

# The answer alone, and what bars a line that has no reading. By the flat book all that is printed is the same, but for what bars it.
answer() {
    printf '%s, %s: ' "$1" "$(printf '%s' "$2" | cut -c 1-60)"
    "$examples/viewer" "$here/books/$1.book" "$2" > by_book 2>&1
    awk 'NR == 1 { none = $0 == "no reading" } NR == 1 || none' by_book
    flatten "$1" "$here/books/$1.book"
    "$examples/viewer" --from-flat "$1.flat" --top "$(cat "$1.top")" "$2" > by_flat 2>&1
    sed '/^no reading$/q' by_book | cmp by_flat -
}

# What stands at a byte of a book.
explain() {
    echo "$ book --explain $*"
    "$tool" --explain "$@" 2>&1
}

# The viewer on a book of these bytes, and what stands at the byte that it names.
refused() {
    bytes "$@" > b
    run viewer b 8
    place=$("$examples/viewer" b 8 2>&1 | sed -n 's/^refused [1-8] \([0-9]*\):.*/\1/p')
    [ -z "$place" ] || explain b "$place"
}

trees() {
    echo '# trees'
    run viewer --names T.names T.book '8/4*2'
    run viewer T.book '8/4*2'
    run viewer --names empty T.book 8
    run viewer T.book ''
    printf '8*2\n' | run viewer T.book
    printf '8*2' | run viewer T.book
    printf '' | run viewer T.book
    printf '8\n2\n' | run viewer T.book
    make_book loops
    run viewer --names loops.names loops.book ''
    run viewer --names loops.names loops.book '-1.5m'
    run viewer loops.book '~k'
    bytes 1 1 0 0 0 0 0 0 > i.book
    run viewer i.book ''
    bytes 1 2 1 0 0 0 2 0 1 0 64 0 0 0 255 > any.book
    run viewer any.book "a'\\\"$(printf '\t\n\303\251')."
    bytes 1 2 1 0 0 0 1 1 1 0 64 0 0 56 56 > j.book
    run viewer j.book 8
    bytes 1 3 3 0 0 0 1 3 3 1 1 1 0 64 0 0 65 0 0 0 66 0 48 57 42 42 47 47 > d.book
    run viewer d.book '8/4*2'
    run viewer --flat T.book
}

# T with one group for its declarations: left, right and not together. And the going train, whose nine signs are one group.
groups() {
    echo '# groups'
    for kind in 5 6 7; do
        bytes 1 3 3 1 0 0 1 3 3 1 1 1 0 64 0 0 65 0 0 0 66 0 48 57 42 42 47 47 $kind 1 2 > g.book
        echo "T with $kind 1 2 alone"
        run viewer --flat g.book
        run viewer g.book '8/4*2'
    done
    make_book going
    run viewer --names going.names going.book '9:8-6/7^2'
    run viewer --why --names going.names going.book mesh 2 pallet
}

# Each of the three lines of clashes, by pairs and by groups, the two rules either way round; chains; where a rule may stand, and where none of its sort can.
reasons() {
    echo '# why a rule may not stand somewhere'
    for name in signs gears priorities; do make_book $name; done
    for asked in 'power 0 power' 'percent 0 percent' 'product 2 product' 'minus 1 minus' 'about 1 above' 'above 1 about' 'about 1 about' \
        'sum 2 about' 'product 0 above' 'percent 0 above' 'power 2 power' 'product 0 product' 'sum 2 product' 'power 1 power' 'digit 0 digit'; do
        run viewer --why --names signs.names signs.book $asked
    done
    for asked in 'mesh 0 first' 'mesh 0 wheel' 'wheel 0 next' 'wheel 0 mesh' 'stage 1 over' 'stage 0 over' 'product 2 over' 'over 2 product'; do
        run viewer --why --names gears.names gears.book $asked
    done
    run viewer --why --names priorities.names priorities.book a 0 z
    run viewer --why "$here/books/deepest.book" 0 0 3 | sed "s|$here/||"
    printf 'start e\nend: e =\neight: e = e e e e e e e e\nhigher eight end\n' > eight.txt
    "$tool" --names eight.names eight.txt eight.book
    for i in 0 1 2 3 4 5 6 7; do run viewer --why --names eight.names eight.book eight $i end; done
}

# Rules by their numbers; names that are numbers; and rules without a name, by an empty line or by none.
numbered_reasons() {
    for asked in '2 0 2' '4 2 4' '6 1 7' '4 0 7' '4 0 4' '2 1 2'; do run viewer --why signs.book $asked; done
    run viewer --why --names signs.names signs.book 2 0 power
    run viewer --why --names signs.names signs.book 002 00 2
    run viewer --why --names empty signs.book 2 0 2
    printf '2\n1\n0\n' > turned.names
    run viewer --why --names turned.names T.book 1 2 0
    printf '\nproduct' > some.names
    run viewer --why --names some.names T.book product 2 2
    run viewer --why --names some.names T.book 2 0 0
}

# No such rule or argument, also by a name behind those of the book's rules; and a refused book, with a place where that has none.
refused_reasons() {
    for asked in '3 0 1' '1 3 1' '1 2 3' '258 2 1' '1 256 1' '1 2 18446744073709551617' '1 99999999999999999999 1'; do run viewer --why T.book $asked; done
    run viewer --why i.book 0 0 0
    run viewer --why --names signs.names T.book product 2 product
    run viewer --why empty 1 2 1
    bytes 1 3 3 3 0 0 1 3 3 1 1 1 0 64 0 0 65 0 0 0 66 0 48 57 42 42 47 47 2 1 1 2 2 2 2 1 3 > b
    run viewer --why b 9 9 9
    bytes 1 3 3 2 0 0 1 3 3 1 1 1 0 64 0 0 65 0 0 0 66 0 48 57 42 42 47 47 1 1 2 1 2 1 > b
    run viewer --why b 1 0 2
}

# One reading without the ranks, which bar it in one way, in two, or many times in the same; several; none; no ranks; one that is too long. A page, a sheet and
# a flat book have only the answer.
barred() {
    echo '# lines without a reading'
    for line in '2^-3' '2*~3' '2^->3' '~>2' '2%%' "$(repeat 199 -)2" '~2+>3*4' '2+~3+4' '2+' ''; do run viewer --names signs.names signs.book "$line"; done
    printf '2^-3\n' | run viewer signs.book
    bytes 1 3 3 3 0 0 1 3 3 1 1 1 0 64 0 0 65 0 0 0 66 0 48 57 42 42 47 47 4 1 1 4 2 2 4 1 2 > e.book
    run viewer e.book 8/4/2
    run viewer d.book 8/
    { cat "$here/books/power.txt" && echo 'higher power31 power30'; } > tall.txt
    "$tool" tall.txt tall.book
    run viewer tall.book ''
    run viewer --page signs.book '2^-3'
    printf '2^-3\n' > lines
    run viewer --sheet lines signs.book
    flatten signs signs.book
    run viewer --from-flat signs.flat --top 258-265 '2^-3'
}

# T with its digits written downwards.
downwards() {
    echo '# ranges written downwards'
    bytes 1 3 3 3 0 0 1 3 3 1 1 1 0 64 0 0 65 0 0 0 66 0 57 48 42 42 47 47 2 1 1 2 2 2 2 1 2 > down.book
    run viewer --flat down.book
    run viewer --names T.names down.book '8/4*2'
    explain down.book 22
    explain down.book 23
}

# The digits under two names: the rules are equal. With one character more in one of them they are not, and a line can have several readings.
equal() {
    echo '# equal rules'
    printf 'start e\nclass digit 48-57\nclass number 53-57 52-48\none: e = digit\ntwo: e = number\n' > twice.txt
    "$tool" --names twice.names twice.txt twice.book 2>&1
    run viewer --names twice.names twice.book 8
    explain twice.book 12
    printf 'start e\nclass digit 48-57\nclass number 53-57 52-48 46\none: e = digit\ntwo: e = number\n' > near.txt
    "$tool" --names near.names near.txt near.book 2>&1
    run viewer --names near.names near.book 8
    run viewer --names near.names near.book .
}

# One, none and several; empty parts in the middle; bytes from 32 to 126 and others; 54 bytes of a text and more; what has too many numbers.
pages() {
    echo '# pages'
    run viewer --page T.book '8/4*2'
    run viewer --page --names T.names T.book 8
    printf '8\n' | run viewer --page T.book
    run viewer --page T.book ''
    run viewer --page d.book '8/4*2'
    run viewer --page i.book ''
    run viewer --page loops.book '-1.5m'
    bytes 31 32 126 127 200 0 | run viewer --page any.book
    run viewer --page any.book abcdefghijklmnopqrstuvwxyzabcdefghijklmnopqrstuvwxyz0123 | head -n 8
    run viewer --page any.book "$(repeat 200 a)" | sed -n '1,2p;$p'
    run viewer --page any.book "$(repeat 201 a)"
    run viewer --page empty 8
    run viewer --page "$here/books/power.book" '' | sed "s|$here/||"
    echo 'ladder, 44 a: its lines, those that have not 72 columns, and the deepest'
    "$examples/viewer" --page "$here/books/ladder.book" "$(repeat 44 a)" > ladder
    awk 'length != 72 { odd++ } $1 > depth { depth = $1 } END { print NR, odd + 0, depth }' ladder
    run viewer --page "$here/books/ladder.book" "$(repeat 45 a)" | sed "s|$here/||"
}

# The book of naturals and reals with these declarations, NAME.book.
sums() { # NAME DECLARATION..
    name=$1
    shift
    {
        printf '%s\n' 'start real' "n: natural = 'n'" "plus: natural = natural '+' natural"
        printf '%s\n' 'natural: real = natural' "r: real = 'r'" "sum: real = real '+' real" "$@"
    } > sums.txt
    "$tool" --names sums.names sums.txt "$name.book"
}

# Compares the two readings of n+n, in both orders, by the book with these declarations.
compare() { # NAME DECLARATION..
    sums "$@"
    run viewer --compare naturals.page reals.page --names sums.names "$1.book" n+n
    run viewer --compare reals.page naturals.page --names sums.names "$1.book" n+n
}

# A page with these numbers, and nothing right beside them.
page() {
    for number; do printf '   9 %4d   9   9 %-54s\n' "$number" '?'; done
}

# The page of 8 by book j, so many rounds of its loop before the digit.
loop() {
    page $(repeat "$1" '259 ') 258 56
}

# Each answer: one adds naturals and the other reals, which other ranks would bar. The same reading twice, and different ones with equal counts. Rules by their
# numbers, and some by their names; a line from standard input. Of a page only the numbers count.
comparisons() {
    echo '# which of two readings is lower'
    sums first 'higher sum natural'
    sums second 'higher natural plus'
    "$examples/viewer" --page first.book n+n > naturals.page
    "$examples/viewer" --page second.book n+n > reals.page
    cat naturals.page reals.page
    compare none
    compare plus 'higher plus sum'
    compare sum 'higher sum plus'
    compare all 'higher plus sum, plus natural'
    compare through 'higher sum r' 'higher r plus'
    run viewer --compare reals.page reals.page --names sums.names sum.book n+n
    run viewer --compare naturals.page reals.page sum.book n+n
    printf 'n\n\n\n\nreal sum' > few.names
    printf 'n+n\n' | run viewer --compare naturals.page reals.page --names few.names sum.book
    bytes 1 3 3 3 0 0 1 3 3 1 1 1 0 64 0 0 65 0 0 0 66 0 48 57 42 42 47 47 3 1 1 3 2 2 3 1 2 > right.book
    for name in T right; do "$examples/viewer" --page $name.book '8/4*2' > $name.page; done
    run viewer --compare T.page right.page d.book '8/4*2'
    run viewer --compare T.page T.page T.book '8/4*2'
    loop 3 > short.page
    loop 4094 > long.page
    run viewer --compare short.page long.page j.book 8
    run viewer --compare long.page short.page j.book 8
    page 258 > i.page
    run viewer --compare i.page i.page i.book ''
}

# A word that is a part and an act, as in README's tour.
compare_words() {
    make_book words
    { cat "$here/books/words.txt" && echo 'higher act to-strike'; } | "$tool" - part.book
    { cat "$here/books/words.txt" && echo 'higher part strike'; } | "$tool" - act.book
    { cat "$here/books/words.txt" && echo 'higher act part, act strike'; } | "$tool" - ranked.book
    for name in part act; do "$examples/viewer" --page $name.book strike > $name.page; done
    for name in words ranked; do run viewer --compare part.page act.page --names words.names $name.book strike; done
}

# The book; 10; 11 for the first and the second; 29 by another line, by ranks that bar a reading, where a page is cut short or goes on, and for a page of no
# lines. The first comes before the second, and 11 before 29.
refused_comparisons() {
    run viewer --compare naturals.page reals.page empty n+n
    run viewer --compare naturals.page reals.page none.book "$(repeat 201 n)"
    loop 4095 > longer.page
    loop 7000 > longest.page
    run viewer --compare longer.page short.page j.book 8
    run viewer --compare short.page longest.page j.book 8
    run viewer --compare longest.page longer.page j.book 8
    run viewer --compare empty longer.page j.book 8
    run viewer --compare naturals.page reals.page none.book n+r
    run viewer --compare naturals.page reals.page none.book n+nn
    run viewer --compare naturals.page reals.page first.book n+n
    run viewer --compare naturals.page reals.page second.book n+n
    run viewer --compare reals.page naturals.page second.book n+n
    head -n 3 reals.page > cut.page
    run viewer --compare naturals.page cut.page none.book n+n
    { cat naturals.page && page 0; } > more.page
    run viewer --compare more.page cut.page none.book n+n
    run viewer --compare naturals.page empty none.book n+n
    run viewer --compare empty empty none.book n+n
    page 9999 > wrong.page
    run viewer --compare wrong.page reals.page none.book n+n
}

# Empty, with and without a last line feed, empty lines, each answer, a line that is too long, and what is refused.
sheets() {
    echo '# sheets'
    run viewer --sheet empty T.book
    for lines in '8/4*2' '8/4*2\n' '\n' '\n\n' '8/4*2\n\n88\n8\n8/\n' '8\n8*8'; do
        printf "$lines" > lines
        printf '%s\n' "the lines $lines"
        run viewer --sheet lines T.book
    done
    run viewer --sheet lines d.book
    printf '8/4*2\n8/4\n%s\n%s\n' "$(repeat 200 8)" "$(repeat 201 8)" > lines
    run viewer --sheet lines d.book
    bytes 31 92 10 200 0 > lines
    run viewer --sheet lines any.book
    printf '\n\n' > lines
    run viewer --sheet lines "$here/books/power.book" | sed "s|$here/||"
    repeat 65535 8 > lines
    run viewer --sheet lines T.book | cut -c 1-40
    repeat 65536 8 > lines
    run viewer --sheet lines T.book
    run viewer --sheet lines empty
}

# What is in the file `f` is refused as a flat book.
refused_flat() {
    awk '{ gsub(/\r/, "^M"); print "| " $0 }' f
    run viewer --from-flat f --top 258-260 8
}

# One, none and several, as by the book, and with fewer numbers at the top.
from_flat() {
    echo '# reading by a flat book'
    for name in T d i j any; do flatten $name $name.book; done
    run viewer --from-flat T.flat --top 258-260 '8/4*2'
    run viewer --from-flat T.flat --top 258,259 '8/4*2'
    run viewer --from-flat T.flat --top 258,260-260 '8/4*2'
    printf '8*2\n' | run viewer --from-flat T.flat --top 259
    run viewer --from-flat T.flat --top 258-260 ''
    run viewer --from-flat d.flat --top 258,259,260 '8/4*2'
    run viewer --from-flat i.flat --top 258 ''
    run viewer --from-flat j.flat --top 258-259 8
    run viewer --from-flat j.flat --top 258 8
    run viewer --from-flat any.flat --top 258-259 "$(printf "'\n\303\251")"
    run viewer --from-flat T.flat --top 258-260 "$(repeat 201 8)"
    flatten power "$here/books/power.book"
    run viewer --from-flat power.flat --top 289 ''
}

# A flat book of 64 lines of 3,690 bytes: eight classes with every second character. It is read, and refused without its last byte.
wide_flat() {
    awk 'BEGIN {
        for (k = 0; k < 256; k += 2) class = class "\\" k
        for (r = 0; r < 64; r++) {
            for (i = 0; i < 8; i++) printf "[%s] ", class
            printf "-> [\\%d]\n", 258 + r
        }
    }' > wide.flat
    wc -c < wide.flat | tr -d ' '
    run viewer --from-flat wide.flat --top 321 '@@@@@@@@'
    head -c 236159 wide.flat > f
    run viewer --from-flat f --top 321 '@@@@@@@@'
}

# 27: nothing, two ranges that touch, a character and a number of a line, not the line's own number, a second space, carriage returns, an empty line, cut short,
# and a book. 28: a class, and the top; and it comes before 10.
refused_flats() {
    echo '# refused flat books'
    for text in '' '[\\48\\49] -> [\\258]\n' '[\\47\\258] -> [\\258]\n' '-> [\\258]\n-> [\\260]\n'; do
        printf %b "$text" > f
        refused_flat
    done
    sed '2s/ /  /' T.flat > f && refused_flat
    sed "s/\$/$(printf '\r')/" T.flat > f && refused_flat
    { cat T.flat && echo; } > f && refused_flat
    head -c 89 T.flat > f && refused_flat
    run viewer --from-flat T.book --top 258-260 8
    head -n 2 T.flat > f && refused_flat
    run viewer --from-flat T.flat --top 258,262-263,261 8
    run viewer --from-flat T.flat --top 321 "$(repeat 201 8)"
}

lengths() {
    echo '# long lines'
    answer arithmetic "12+(3*4-5)/6*$(repeat 187 7)"
    answer arithmetic "12+(3*4-5)/6*$(repeat 188 7)"
    answer T "$(repeat 65536 8)"
    run viewer T.book "$(repeat 65537 8)"
    echo 'ladder, 200 a: its lines, and the deepest'
    "$examples/viewer" "$here/books/ladder.book" "$(repeat 200 a)" > ladder
    wc -l < ladder | tr -d ' '
    awk '/level/ && $2 + 0 > depth { depth = $2 + 0; deepest = $0 } END { print deepest }' ladder | sed 's/^ *//'
    echo 'ladder, 200 a, with a small stack'
    (ulimit -s 1024; "$examples/viewer" "$here/books/ladder.book" "$(repeat 200 a)") | cmp - ladder
    run viewer "$here/books/power.book" '' | sed "s|$here/||"
}

# A refused book for each number and kind of place, made from T.
refusals() {
    echo '# refused books'
    run viewer empty 8
    refused 1 3 3 3 0
    refused 1 3 3 3 0 0 1 3 3 1 1
    refused 0 3 3 3 0 0 1 3 3 1 1 1
    refused 33 3 3 3 0 0 1 3 3 1 1 1
    refused 1 65 0 0 0 0
    refused 1 1 65 0 0 0 0
    refused 1 3 3 3 1 0 1 3 3 1 1 1
    refused 1 3 3 3 0 7 1 3 3 1 1 1
    refused 1 3 3 3 0 0 1 9 3 1 1 1
    refused 1 3 3 3 0 0 1 3 3 1 1 17
    refused 1 3 3 3 0 0 1 3 3 1 1 1 0 64 0
    refused 1 3 3 3 0 0 1 3 3 1 1 1 0 64 0 0 65 0 0 0 66 0 48 57 42 42 47 47 2 1 1 2 2 2 2 1
    refused 1 3 3 3 0 0 1 3 3 1 1 1 0 64 0 0 65 0 0 0 66 0 48 57 42 42 47 47 2 1 1 2 2 2 2 1 2 0 0
    refused 1 3 3 3 0 0 1 3 3 1 1 1 0 64 9 0 65 0 0 0 66 0 48 57 42 42 47 47 2 1 1 2 2 2 2 1 2
    refused 1 3 3 3 0 0 1 3 3 1 1 1 0 64 0 0 65 5 0 0 66 0 48 57 42 42 47 47 2 1 1 2 2 2 2 1 2
    refused 1 3 3 3 0 0 1 3 3 1 1 1 0 64 0 0 67 0 0 0 66 0 48 57 42 42 47 47 2 1 1 2 2 2 2 1 2
    refused 1 3 3 3 0 0 1 3 3 1 1 1 0 64 0 0 65 0 0 0 66 0 48 57 42 42 47 47 8 1 1 2 2 2 2 1 2
    refused 1 3 3 3 0 0 1 3 3 1 1 1 0 64 0 0 65 0 0 0 66 0 48 57 42 42 47 47 2 1 1 2 3 2 2 1 2
    refused 1 3 3 3 0 0 1 3 3 1 1 1 0 64 0 0 65 0 0 0 66 0 48 57 42 42 47 47 2 1 1 2 2 2 2 1 255
    refused 1 3 3 3 0 0 1 3 3 1 1 1 0 64 0 0 65 0 0 0 66 0 48 57 42 42 47 47 5 1 2 6 2 1 7 1 2
    refused 1 3 3 3 0 0 1 3 3 1 1 1 0 64 0 0 65 0 0 0 66 0 48 57 42 42 47 47 5 1 2 6 1 2 7 3 2
    refused 1 3 3 3 0 0 1 3 3 1 1 1 0 64 0 0 65 0 0 0 66 0 48 57 42 42 47 47 5 1 2 6 1 2 7 2 3
    refused 1 3 3 3 0 0 1 3 3 1 1 1 0 64 0 0 65 0 0 0 65 0 48 57 42 42 47 47 2 1 1 2 2 2 2 1 2
    refused 1 3 3 2 0 0 1 3 3 1 1 1 0 64 0 0 65 0 0 0 66 0 48 57 42 42 47 47 1 1 2 1 2 1
    run viewer --names T.names b 8
    run viewer --page b 8
    run viewer --flat b
}

misuse() {
    echo '# wrong calls'
    run viewer
    run viewer --names
    run viewer --names T.names
    run viewer --page
    run viewer --page --names T.names
    run viewer --page T.book 8 8
    run viewer --flat --page T.book
    run viewer --sheet
    run viewer --sheet empty
    run viewer --sheet missing T.book
    run viewer --sheet empty T.book 8
    run viewer --sheet empty --page T.book
    run viewer T.book 8 8
    run viewer missing 8
    run viewer . 8
    run viewer --names missing T.book 8
    repeat 65537 a > large
    run viewer large 8
    run viewer --sheet large T.book
    run viewer --from-flat large --top 258 8
    repeat 524289 a > large
    run viewer --from-flat large --top 258 8
    run viewer --from-flat
    run viewer --from-flat T.flat
    run viewer --from-flat T.flat 8
    run viewer --from-flat T.flat --top
    run viewer --from-flat T.flat --top 258 8 8
    run viewer --from-flat T.flat --names T.names --top 258 8
    run viewer --from-flat missing --top 258 8
    for numbers in 257 322 2580 0258 25 x '' 258, ,258 258,,259 258- -258 260-258 258-322 258-259-260 '258 259' 258x; do
        run viewer --from-flat T.flat --top "$numbers" 8
    done
}

# An empty word is not the name of a rule without one.
misused_reasons() {
    run viewer --why
    run viewer --why T.book 1 2
    run viewer --why T.book 1 2 1 8
    run viewer --why --names T.names T.book 1 2
    run viewer --why --names T.book 1 2 1
    run viewer --why --page T.book 1 2 1
    run viewer --why missing 1 2 1
    run viewer --why --names missing T.book 1 2 1
    run viewer --why T.book product 2 product
    run viewer --why --names T.names T.book product 2 products
    for word in '' -1 +1 1x ' 1' 0x1 1.0; do
        run viewer --why --names some.names T.book "$word" 2 1
        run viewer --why --names some.names T.book 1 "$word" 1
    done
    run viewer --why empty 1 x 1
}

# A page of another form is the first reading.
misformed() { # FORMAT-OF-ITS-LAST-LINE WORD..
    format=$1
    shift
    { head -n 2 naturals.page && printf "$format" "$@"; } > wrong.page
    tail -n +3 wrong.page | tr '\000\r' '@^' | awk '{ print "| " $0 "|" }'
    run viewer --compare wrong.page naturals.page none.book n+n
}

# A line of 72 bytes, of 74, without its line feed, and an empty one; no number, one that is not set right, and more than digits. What is wrong with a page
# comes before what is refused. And a page that is too large to load.
misused_comparisons() {
    run viewer --compare
    run viewer --compare naturals.page
    run viewer --compare naturals.page reals.page
    run viewer --compare naturals.page reals.page --names sums.names
    run viewer --compare naturals.page reals.page --names
    run viewer --compare naturals.page reals.page none.book n+n n+n
    run viewer --compare --names sums.names naturals.page reals.page none.book n+n
    run viewer --compare missing reals.page none.book n+n
    run viewer --compare naturals.page missing none.book n+n
    run viewer --compare naturals.page reals.page missing n+n
    run viewer --compare naturals.page reals.page --names missing none.book n+n
    printf 'n+n\nn+n\n' | run viewer --compare naturals.page reals.page none.book
    "$examples/viewer" --page none.book n+n > several.page
    run viewer --compare naturals.page several.page none.book n+n
    misformed '   9  258   9   9 %-53s\n' '?'
    misformed '   9  258   9   9 %-54s\r\n' '?'
    misformed '   9  258   9   9 %-54s' '?'
    misformed '\n'
    for number in '    ' '258 ' '2 58' '  -1' '  +1' ' 0x9' '   x' '  8.'; do misformed '   9 %s   9   9 %-54s\n' "$number" '?'; done
    misformed '   9   1\000   9   9 %-54s\n' '?'
    run viewer --compare naturals.page wrong.page empty n+n
    loop 7181 > large.page
    run viewer --compare short.page large.page j.book 8
}

# The lines that the texts in books/ give as examples.
books() {
    echo '# the books'
    for line in '8/4*2' 88 8/; do answer T "$line"; done
    for line in '12+(3*4-5)/6*7' 12+ ')3('; do answer arithmetic "$line"; done
    for line in '64:8*60:8/2' '(96:12*(60:10))/30' 64: 08:8; do answer gears "$line"; done
    for line in '96:8-64:8-60:8-30^2' '144=96/100>64:8' 96: 96::8 60/62/64 60/62~64; do answer going "$line"; done
    for line in '[]' '[arbor]' '[arbor,[pin,[]],wheel]' '[arbor,]' arbor; do answer lists "$line"; done
    for line in 3 -12.5m +7s .5 '' '~k' '12!' '!' 1.2.3 '~'; do answer loops "$line"; done
    for line in a aa aaa '' b; do answer pairs "$line"; done
    for line in x=1 'if a<2 then x=y+1 else {x=0;y=x*3}' 'if a then {if b then x=1} else x=2' '{}' 'if a then if b then x=1 else x=2' 'x=a<b<c'; do
        answer statements "$line"
    done
    for line in 'wheel pinion arbor turn' strike wheels 'wheel  pinion'; do answer words "$line"; done
    for line in abba abbba '' ab; do answer palindromes "$line"; done
    for line in 1a2b3 1z2a3 1a ab; do answer priorities "$line"; done
    for line in '-2^3%' '2*-3' '2^3^4' '~2+3*4' '2^-3' '2+~3' '2*~3' '2^->3' '~>2' ---2 2%% '2+~3+4' 2+ '~'; do answer signs "$line"; done
    for book in ladder dense dense_unique chain power power_loop groups; do
        for line in '' aaa; do answer $book "$line"; done
    done
}

wrapper() {
    echo '# the wrapper'
    run wrapper
    run wrapper T.book ''
    run wrapper T.book "$(printf '8\n\n8/4*2')" | tail -n 4
    run wrapper T.book "$(repeat 201 8)"
    run wrapper d.book '8/4*2'
    run wrapper b 8
    run wrapper empty 8
    run wrapper i.book ''
    run wrapper loops.book '-1.5m' | tail -n 7
    run wrapper any.book "$(printf '\303\251')" | tail -n 7
    run wrapper missing
    for ranks in '1 1 0 1 0 2' '3 1 1 3 1 2' '6 0 1 7 1 2'; do
        bytes 1 3 3 2 0 0 1 3 3 1 1 1 0 64 0 0 65 0 0 0 66 0 48 57 42 42 47 47 $ranks > r.book
        echo "T with $ranks"
        run wrapper r.book 8 | sed -n '/^rule/p; /^why/p'
    done
    for name in none plus sum all; do run wrapper $name.book n+n first.book second.book | tail -n 3; done
    run wrapper sum.book n+n second.book first.book | tail -n 1
    run wrapper sum.book n+n second.book second.book | tail -n 1
    run wrapper first.book n+n first.book second.book | tail -n 1
    run wrapper none.book n+n first.book none.book | tail -n 2
    run wrapper none.book n+n first.book missing | tail -n 2
    run wrapper "$here/books/ladder.book" "$(repeat 200 a)" | tail -n 10 | cut -c 1-80
    run wrapper "$here/books/power.book" '' | tail -n 6
    run wrapper "$here/books/power.book" "$(printf '\n.')" | tail -n 3
}

everything() {
    cd "$dir" || exit 1
    : > empty
    make_book T
    trees
    groups
    reasons
    numbered_reasons
    refused_reasons
    barred
    downwards
    equal
    pages
    comparisons
    compare_words
    refused_comparisons
    sheets
    from_flat
    wide_flat
    refused_flats
    lengths
    refusals
    misuse
    misused_reasons
    misused_comparisons
    books
    wrapper
}

# A bar shows where each line of a page ends.
transcript() {
    everything | sed '/^[ 0-9]\{3\}[0-9] [ 0-9]\{3\}[0-9] [ 0-9]\{2\}[0-9] [ 0-9]\{2\}[0-9] /s/$/|/'
}

if [ "$3" = --print ]; then
    transcript
    exit 0
fi
transcript > "$dir/out"
diff tests/examples.out "$dir/out" || exit 1
echo 'examples: all as it should be'
