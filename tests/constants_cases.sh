#!/bin/sh
# Tests tests/constants.sh on small libraries made by gcc: which it must pass, and which it must refuse.
here=$(cd "$(dirname "$0")" && pwd) || exit 1
dir=$(mktemp -d) || exit 1
trap 'rm -rf "$dir"' EXIT
failures=0

# A library of the C text on standard input, in sections of their own, as rt lib makes them.
library() { # NAME
    gcc -std=gnu11 -Wall -Wextra -Werror -O2 -ffunction-sections -fdata-sections -fno-asynchronous-unwind-tables -c -x c -o "$dir/$1.o" - &&
        ar rc "$dir/lib$1.a" "$dir/$1.o" || exit 1
}

expect() { # passed|refused NAME WORDS
    said=$(sh "$here/constants.sh" "$dir/lib$2.a") && verdict=passed || verdict=refused
    case "$verdict: $said" in
    "$1: "*"$3"*) return ;;
    esac
    failures=$((failures + 1))
    echo "constants.sh: $2 was $verdict: $said"
}

# A table of so many bytes, looked up.
table() { # QUALIFIERS BYTES
    printf '%s unsigned char table[%s] = {1, 2, 3};\nunsigned char look(unsigned i) { return table[i]; }\n' "$1" "$2"
}

# A string of so many bytes with the last one, looked up.
text() { # BYTES
    awk -v n="$1" 'BEGIN { while (--n > 0) letters = letters "x"; print "char look(unsigned i) { return \"" letters "\"[i]; }" }'
}

# So many different pieces of 16 bytes, in one function.
pieces() { # COUNT
    echo 'typedef unsigned char piece __attribute__((vector_size(16)));'
    printf 'void put(piece *to) {\n'
    i=0
    while [ $i -lt "$1" ]; do
        printf '    to[%d] = (piece){%d, 1, 2, 3, 4, 5, 6, 7, 8, 9, 10, 11, 12, 13, 14, 15};\n' $i $((100 + i))
        i=$((i + 1))
    done
    echo '}'
}

# A match that is turned into a table: a value for each of so many cases.
match() { # CASES
    echo 'unsigned long long value(unsigned n) {'
    echo '    switch (n) {'
    i=0
    while [ $i -lt "$1" ]; do
        printf '    case %d: return %dull;\n' $i $((i * i * 7919 % 1009 + 12345678901))
        i=$((i + 1))
    done
    echo '    }'
    echo '    return 0;'
    echo '}'
}

table 'static const' 64 | library whole_64
expect passed whole_64 '64 bytes of constants, at most 64 for one function'
table 'static const' 65 | library whole_65
expect refused whole_65 'has 65 bytes of constants, more than 64'
table '' 64 | library data_64
expect refused data_64 'section .data.table has 64 bytes that can be written to'
table '' 65 | library data_65
expect refused data_65 'section .data.table has 65 bytes of constants, more than 64'
text 64 | library text_64
expect passed text_64 '64 bytes of constants, at most 64 for one function'
text 65 | library text_65
expect refused text_65 'has 65 bytes of constants, more than 64'
printf 'static unsigned char kept[100];\nunsigned char keep(unsigned i) { return ++kept[i]; }\n' | library kept_100
expect refused kept_100 'section .bss.kept has 100 bytes that can be written to'
pieces 4 | library pieces_4
expect passed pieces_4 'at most 64 for one function'
pieces 5 | library pieces_5
expect refused pieces_5 'the constants of put have 80 bytes, more than 64'
{ pieces 4; pieces 3 | sed '1d; s/put/put_others/'; } | library two_functions
expect passed two_functions 'at most 64 for one function'
match 8 | library match_8
expect passed match_8 'at most 64 for one function'
match 9 | library match_9
expect refused match_9 'has 72 bytes of constants, more than 64'
echo 'int none(int x) { return x + 1; }' | library no_constant
expect passed no_constant ' 0 bytes of constants, at most 0 for one function'
echo 'typedef int nothing;' | library nothing
expect refused nothing 'no code was found'
ar rc "$dir/libboth.a" "$dir/no_constant.o" "$dir/pieces_5.o"
expect refused both 'the constants of put have 80 bytes'
printf 'no library' > "$dir/libtext.a"
expect refused text 'readelf cannot read'
expect refused absent 'readelf cannot read'
[ $failures = 0 ] && echo 'constants.sh: passes and refuses as it should'
