#!/bin/sh
# Runs rt ci and shows what it prints as it comes, but for the last line: that is the gate's last line, and `make test` prints it when all that follows has
# passed too. A must-fail edit that is bad fails it, too.
#
#     ci.sh DIRECTORY    the line goes to DIRECTORY/ci.last, which is there only if rt ci passed
dir=$1
mkdir -p "$dir" || exit 1
rm -f "$dir/ci.last" "$dir/ci.held" "$dir/ci.status" "$dir/ci.said"
{
    rt ci 2>&1
    echo $? > "$dir/ci.status"
} | tee "$dir/ci.said" | awk -v held_file="$dir/ci.held" 'NR > 1 { print held; fflush() } { held = $0 } END { print held > held_file }' || exit 1
status=$(cat "$dir/ci.status") || exit 1
held=$(cat "$dir/ci.held") || exit 1
if grep -q '^rt: ok.*, [1-9][0-9]* bad' "$dir/ci.said"; then
    echo "rt ci passed, but a must-fail edit is bad: it cannot be applied, compiled or read, and shows nothing"
    exit 1
fi
if ! grep -q '^[0-9][0-9]* passed, 0 failed$' "$dir/ci.held"; then
    echo "rt ci failed: exit status $status, last line: $held"
    exit 1
fi
if [ "$status" != 0 ]; then
    echo "rt ci failed: exit status $status, though no crate and no edit did"
    exit 1
fi
mv "$dir/ci.held" "$dir/ci.last"
