#!/bin/sh
# Prints, for each call of the library, how many bytes of code and of constants a program takes of it that makes this call only and is linked with --gc-sections.
#
#     weights.sh LIBRARY
library=$1
dir=$(mktemp -d) || exit 1
trap 'rm -rf "$dir"' EXIT
calls=$(nm -g --defined-only "$library" | awk '$2 == "T" { print $3 }')
[ -n "$calls" ] || { echo "weights.sh: $library has no calls"; exit 1; }
for call in $calls; do
    printf 'extern char %s[];\nchar *volatile call = %s;\nint main(void) { return call == 0; }\n' "$call" "$call" > "$dir/one.c"
    gcc -O2 -o "$dir/one" "$dir/one.c" "$library" -Wl,--gc-sections -Wl,-Map="$dir/map" || exit 1
    # A section's name stands on the line before if it is long; what is left out stands above the memory map.
    awk -v call="$call" -v library="$(basename "$library")" '
    function number(digits,   i, n) {
        for (i = 3; i <= length(digits); i++) n = 16 * n + index("0123456789abcdef", substr(digits, i, 1)) - 1
        return n + 0
    }
    /^Linker script and memory map/ { kept = 1 }
    NF == 1 { name = $1 }
    NF > 3 { name = $1 }
    kept && index($NF, library) && $(NF - 1) ~ /^0x/ {
        if (name ~ /^\.text/) code += number($(NF - 1))
        else if (name ~ /^\.rodata/) constants += number($(NF - 1))
    }
    END { printf "%s code %d constants %d\n", call, code, constants }' "$dir/map"
done
