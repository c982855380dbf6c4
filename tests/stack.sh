#!/bin/sh
# Tests how much stack the library needs: makes each call in a process of its own with a stack of READ_STACK (the calls that read) or CALL_STACK kilobytes,
# and all of them in a thread with THREAD_STACK kilobytes, on the books that need most. Each answer is compared, too.
# With --need it says instead how many bytes of stack each call takes at the most on these books.
#
#     stack.sh STACK-CALL STACK-THREAD BOOK-TOOL [--need]
call=$1
thread=$2
tool=$3
need=$4
READ_STACK=${READ_STACK:-512}
CALL_STACK=${CALL_STACK:-2048}
THREAD_STACK=${THREAD_STACK:-2048}
dir=$(mktemp -d) || exit 1
trap 'rm -rf "$dir"' EXIT
books=$(cd "$(dirname "$0")/../books" && pwd) || exit 1
failures=0

# The environment is left out, as it stands on the stack.
run() { # KILOBYTES EXPECTED WORD..
    kilobytes=$1
    expected=$2
    shift 2
    if [ "$need" = --need ]; then
        answer=$(env -i "$call" --need "$@" 2>&1)
        status=$?
        echo "$1 ${answer##* stack }" >> "$dir/needs"
        answer=${answer% stack *}
    else
        answer=$(ulimit -s "$kilobytes" && env -i "$call" "$@" 2>&1)
        status=$?
    fi
    [ $status = 0 ] && [ "$answer" = "$expected" ] && return
    failures=$((failures + 1))
    echo "failed, with $kilobytes KB of stack: $*"
    echo "  expected: $expected"
    echo "  answered: $answer (exit status $status)"
}

# Both calls of an operation.
both() { # KILOBYTES EXPECTED PLACE OPERATION WORD..
    kilobytes=$1
    expected=$2
    place=$3
    operation=$4
    shift 4
    run "$kilobytes" "$expected" "$operation" "$@"
    run "$kilobytes" "place $place" "${operation}_place" "$@"
}

# A book of these lines.
book() { # NAME LINE..
    name=$1
    shift
    printf '%s\n' "$@" > "$dir/text"
    "$tool" "$dir/text" "$dir/$name.book" || exit 1
}

# The deepest trees (books/ says how deep), one that fits no buffer, and one that is not written.
reading() {
    both "$READ_STACK" 'kind 1 value 18204 levels 12003' 0 read "$books/ladder.book" 200
    both "$READ_STACK" 'kind 1 value 19094 levels 12663' 0 read "$books/deepest.book" 200
    both "$READ_STACK" 'kind 3 value 22' 32768 read "$books/power.book" 0
    both "$READ_STACK" 'kind 2 value 0' 0 read "$books/dense.book" 200
    both "$READ_STACK" 'kind 0 value 0' 0 read "$books/groups.book" 200
}

# The flat text of a book in books/.
flat_text() { # NAME
    "$call" flat "$books/$1.book" "$dir/$1.flat" > "$dir/said" || exit 1
}

# The same by their flat texts, with a rule of the start sort at the root: the only one of ladder, deepest and power.
reading_flat() {
    for name in ladder deepest power dense groups; do flat_text $name; done
    both "$READ_STACK" 'kind 1 value 18204 levels 12003' 0 read_flat "$dir/ladder.flat" 200 320
    both "$READ_STACK" 'kind 1 value 19094 levels 12663' 0 read_flat "$dir/deepest.flat" 200 258
    both "$READ_STACK" 'kind 3 value 22' 32768 read_flat "$dir/power.flat" 0 289
    both "$READ_STACK" 'kind 2 value 0' 0 read_flat "$dir/dense.flat" 200 258
    both "$READ_STACK" 'kind 0 value 0' 0 read_flat "$dir/groups.flat" 200 258 321
    both "$READ_STACK" 'kind 3 value 28' 290 read_flat "$dir/power.flat" 0 289 290 321
}

# The same as lines: a step's value is 4 * 201 + its byte, and 4 * 1 + 1 for the empty line.
sheets() {
    both "$READ_STACK" 'kind 1 value 2 bytes 1 1' 0 sheet "$books/ladder.book" 200
    both "$READ_STACK" 'kind 1 value 2 bytes 1 1' 0 sheet "$books/deepest.book" 200
    both "$READ_STACK" 'kind 1 value 2 bytes 1 1' 0 sheet "$books/power.book" 0
    both "$READ_STACK" 'kind 1 value 2 bytes 0 0' 0 sheet "$books/groups.book" 200
    both "$READ_STACK" 'kind 1 value 805' 0 sheet_step "$books/deepest.book" 200
    both "$READ_STACK" 'kind 1 value 5' 0 sheet_step "$books/power.book" 0
    both "$READ_STACK" 'kind 1 value 806' 0 sheet_step "$books/dense.book" 200
}

# The calls that are lent a listing: each one is checked, written as a page, and asked for the text under its last number.
listing() { # SHAPE JUDGED PAGE PAGE-PLACE PART WORD..
    shape=$1
    judged=$2
    page=$3
    page_place=$4
    part=$5
    shift 5
    both "$CALL_STACK" "$judged $shape" 0 check_listing "$@"
    both "$CALL_STACK" "$page $shape" "$page_place" page "$@"
    run "$CALL_STACK" "$part $shape" text_under "$@"
}

# 4,096 numbers are the most: each in the one before it, complete, with a letter lowest, and with more still missing; and with eight arguments, of which the
# last goes down. A page has 73 bytes for each.
listings() {
    book loop 'start s' 'loop: s = s' 'end: s ='
    book letter 'start s' 'loop: s = s' "end: s = 'a'"
    book wide 'start s' 's = s s s s s s s s'
    book last 'start s' 's = e e e e e e e s' "end: s = 'a'" 'e ='
    listing 'numbers 4096 levels 4096' 'kind 0 value 0' 'kind 1 value 299008 depth 4095' 0 'start 0 end 0' "$dir/loop.book" 0 258 / 259
    listing 'numbers 4096 levels 4095' 'kind 0 value 0' 'kind 1 value 299008 depth 4095' 0 'start 0 end 1' "$dir/letter.book" 1 258 / 259 97
    listing 'numbers 4096 levels 4096' 'kind 1 value 4096' 'kind 3 value 23' 4096 'start 0 end 0' "$dir/wide.book" 0 258
    listing 'numbers 4090 levels 512' 'kind 0 value 0' 'kind 1 value 298570 depth 512' 0 'start 0 end 1' "$dir/last.book" 1 \
        258 260 260 260 260 260 260 260 / 259 97
}

# 64 rules, each higher than the next, and of all of them as many groups as there may be.
steps() {
    awk 'BEGIN {
        for (r = 0; r < 64; r++) printf "r%d: s = s %d\n", r, r
        for (r = 0; r < 63; r++) printf "higher r%d r%d\n", r, r + 1
        for (d = 63; d < 255; d++) print "not-together r0..r63"
    }'
}

# A reason has the value 4 * n + line: by a chain, whose length is n, it is line 1.
reasons() {
    book steps 'start s' "$(steps)"
    both "$CALL_STACK" 'kind 1 value 253 chain from 0 to 62' 0 reason "$dir/steps.book" 0 0 63
    both "$CALL_STACK" 'kind 1 value 254' 0 reason "$dir/steps.book" 63 0 0
    both "$CALL_STACK" 'kind 0 value 0' 0 reason "$dir/steps.book" 0 1 63
    both "$CALL_STACK" 'kind 1 value 5 chain from 0 to 0' 0 reason "$books/deepest.book" 0 0 3
    both "$CALL_STACK" 'kind 1 value 123' 0 reason "$books/deepest.book" 2 1 2
    both "$CALL_STACK" 'kind 1 value 3' 0 reason "$books/groups.book" 0 7 0
    both "$CALL_STACK" 'kind 3 value 7' 0 reason "$books/groups.book" 0 8 0
}

# Rule 2 of the deepest book may stand below rule 0 and not below itself. The lines of its flat text have 30 * 17 + 22 + 31 * 24 + 23 + 10 bytes.
others() {
    for name in deepest limits dense groups; do both "$CALL_STACK" 'number 0' 0 check "$books/$name.book"; done
    both "$CALL_STACK" 'kind 0 value 0' 0 conflict "$books/deepest.book" 0 0 2
    both "$CALL_STACK" 'kind 1 value 0' 0 conflict "$books/deepest.book" 2 1 2
    both "$CALL_STACK" 'kind 1 value 0' 0 conflict "$books/groups.book" 0 7 0
    both "$CALL_STACK" 'kind 1 value 1309' 0 flat "$books/deepest.book"
    both "$CALL_STACK" 'kind 1 value 19481' 0 flat "$books/limits.book"
    both "$CALL_STACK" 'kind 1 value 63532' 0 flat "$books/dense.book"
    both "$CALL_STACK" 'kind 1 value 64' 0 check_flat "$dir/deepest.flat"
    both "$CALL_STACK" 'kind 1 value 64' 0 check_flat "$dir/dense.flat"
    both "$CALL_STACK" 'kind 1 value 32' 0 check_flat "$dir/power.flat"
    both "$CALL_STACK" 'kind 3 value 27' 0 check_flat "$books/deepest.book"
}

reading
reading_flat
sheets
listings
reasons
others
if [ "$need" = --need ]; then
    awk '$2 > most[$1] { most[$1] = $2 } END { for (name in most) print "meadowsink_" name, most[name] }' "$dir/needs" | sort -k 2,2nr -k 1,1
    [ $failures = 0 ]
    exit
fi
"$thread" "$books" "$dir" "$THREAD_STACK" || failures=$((failures + 1))
[ $failures = 0 ] && echo "stack: all as it should be with $READ_STACK KB to read, $CALL_STACK KB for the other calls, $THREAD_STACK KB in a thread"
