#!/usr/bin/env bash
# Prints the processor seconds that the proof of each crate's library takes from nothing, and their sum.
# Words: names of crates; without any it takes all. The crates below them are built before and not counted.
set -u
top=$(cd "$(dirname "$0")/.." && pwd)
cd "$top" || exit 2
room=$(mktemp -d)
trap 'rm -rf "$room"' EXIT
trap 'exit 130' INT TERM
logs=$room/logs
copy=$room/copy
mkdir "$logs" "$copy"

all=$(sed 's/#.*//; s/:.*//' crates.txt | awk 'NF { print $1 }')
wanted=$all
if [ $# -gt 0 ]; then
    for name in "$@"; do
        grep -qx -- "$name" <<<"$all" || {
            echo "cost: $name is no crate of crates.txt" >&2
            exit 2
        }
    done
    wanted=$(grep -xF -f <(printf '%s\n' "$@") <<<"$all")
fi

below() {
    awk -v of="$1" -f tests/layers.awk crates.txt | cut -d ' ' -f 1 | grep -vx -- "$1"
}

# Builds the libraries below a crate, in the folder named first, over what is kept there.
build_below() {
    local lower
    for lower in $(below "$2"); do
        (cd "$1/crates/$lower" && rt lib) >"$logs/$lower" 2>&1 || {
            tail -n 20 "$logs/$lower" >&2
            echo "cost: $lower, below $2, is not proved" >&2
            return 1
        }
    done
}

# Gives the crate of the copy a name of its own: rt begins a check with what a check of a crate of that name kept anywhere on the machine.
rename_in_copy() {
    sed -i "s/\\b$1\\b/$2/g" "$copy/crates.txt"
    mv "$copy/crates/$1" "$copy/crates/$2"
    find "$copy/crates/$2" -type f \( -name '*.rt' -o -name '*.antt' \) -exec sed -i "s/\\b$1\\b/$2/g" {} +
}

# The processor seconds of a check of the crate in the copy, which has kept nothing of it.
seconds_of() {
    local other=$1_anew_$$ proved=0
    rename_in_copy "$1" "$other"
    local TIMEFORMAT='%U %S'
    (cd "$copy/crates/$other" && { time rt check --jobs 1 >"$logs/$1" 2>&1; } 2>"$room/time") || proved=1
    rm -rf "$copy/crates/$other/out"
    rename_in_copy "$other" "$1"
    if [ "$proved" -ne 0 ]; then
        tail -n 20 "$logs/$1" >&2
        echo "cost: $1 is not proved" >&2
        return 1
    fi
    awk '{ printf "%.1f\n", $1 + $2 }' "$room/time"
}

tar --exclude=./.git --exclude=out -cf - . | tar -xf - -C "$copy"
sum=0
for name in $wanted; do
    build_below "$top" "$name" && build_below "$copy" "$name" && seconds=$(seconds_of "$name") || exit 1
    printf '%-20s %10s\n' "$name" "$seconds"
    sum=$(awk "BEGIN { print $sum + $seconds }")
done
printf '%-20s %10.1f\n' 'sum' "$sum"
