#!/bin/sh
# Times calls of two archives of the library or more, each linked behind 0, 16, 32 and 48 bytes: places.sh BOOK TEXT ARCHIVE...
# An archive's functions may lie at any multiple of 16 bytes, and how long a loop takes can depend on that (docs/BENCHMARKS.md, "Where the code lies").
set -e
if [ $# -lt 3 ]; then
    echo 'usage: places.sh BOOK TEXT ARCHIVE...' >&2
    exit 2
fi
book=$1 text=$2
shift 2
folder=$(mktemp -d)
trap 'rm -rf "$folder"' EXIT
gcc -std=c11 -Wall -Wextra -Werror -O2 -o "$folder/places" tools/places.c -ldl
libraries= build=0
for archive in "$@"; do
    for place in 0 16 32 48; do
        printf '.section .text\n.globl pad\npad: .fill %s, 1, 0x90\n.section .note.GNU-stack,"",@progbits\n' $place > "$folder/pad.s"
        gcc -shared -o "$folder/$build.$place.so" "$folder/pad.s" -Wl,--whole-archive "$archive" -Wl,--no-whole-archive
        libraries="$libraries $folder/$build.$place.so"
    done
    build=$((build + 1))
done
"$folder/places" "$book" "$text" "${ROUNDS:-15}" $libraries
