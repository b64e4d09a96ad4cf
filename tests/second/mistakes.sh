#!/bin/sh
# Shows that the comparison bites: every deliberate mistake changes a line of the answers.
# Usage: mistakes.sh DIR   DIR was made by generate.sh. One line a mistake; 1 if one is not found.
set -eu
here=$(cd "$(dirname "$0")" && pwd)
dir=$1
copy=$here/target/mistakes
cargo build --quiet --release --offline --features mistakes \
    --manifest-path "$here/Cargo.toml" --target-dir "$copy"
second=$copy/release/second

# Without a mistake the copy gives the same lines as the program itself.
if ! "$second" compare "$dir"/*.job "$dir"/*.calls; then
    echo "the copy differs though no mistake is on"
    exit 1
fi

missed=0
count=0
for name in $("$second" mistakes); do
    count=$((count + 1))
    status=0
    told=$(MISTAKE=$name "$second" compare "$dir"/*.job "$dir"/*.calls 2>/dev/null) || status=$?
    told=$(echo "$told" | tr '\n' ' ')
    case $status in
    0) echo "MISSED $name"; missed=$((missed + 1)) ;;
    1) echo "found  $name: $told" ;;
    *) echo "found  $name: $told(the program stops, status $status)" ;;
    esac
done
echo "$count mistakes, $missed missed"
[ "$missed" -eq 0 ]
