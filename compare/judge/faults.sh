#!/usr/bin/env bash
# Plants each fault of faults/ in a copy of the crate and shows that the comparison finds it.
# Usage: faults.sh DIR [NAME...]   DIR holds scripts and the sound crate's answers.
set -euo pipefail
cd "$(dirname "$0")"
dir=$1
shift
names=("$@")
if [ ${#names[@]} -eq 0 ]; then
    for file in faults/*.edits; do
        names+=("$(basename "$file" .edits)")
    done
fi

build() {
    GGRS_FAULT=$1 cargo build -q -j1 --profile fault
}

# Without a fault this profile must agree, or a find would mean nothing.
build ""
target/fault/judge compare "$dir"

found=0
for name in "${names[@]}"; do
    build "$name"
    if where=$(target/fault/judge find "$dir" 2>/dev/null); then
        found=$((found + 1))
        printf 'found      %-24s %s\n' "$name" "$where"
    else
        printf 'NOT FOUND  %-24s\n' "$name"
    fi
done
echo "planted faults: ${#names[@]}, found: $found"
[ "$found" -eq "${#names[@]}" ]
