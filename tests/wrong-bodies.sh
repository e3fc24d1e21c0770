#!/usr/bin/env bash
# Tries the edits wrong/NAME/*.edit, each a change of the crate NAME that its contracts must refuse, on a copy of the repository.
# Words: names of crates; without any it takes all that have a folder in wrong/. Its status is 0 where every edit is refused.
# They are like those in crates/NAME/must-fail, which the gate tries; the gate does not try these.
set -u
shopt -s nullglob
top=$(cd "$(dirname "$0")/.." && pwd)
cd "$top" || exit 2
room=$(mktemp -d)
trap 'rm -rf "$room"' EXIT
trap 'exit 130' INT TERM
log=$room/log
copy=$room/copy
mkdir "$copy"

if [ $# -eq 0 ]; then
    mapfile -t names < <(find wrong -mindepth 1 -maxdepth 1 -type d -printf '%f\n' 2>/dev/null | sort)
else
    names=("$@")
fi
for name in "${names[@]}"; do
    if [ ! -d "wrong/$name" ] || [ ! -d "crates/$name" ]; then
        echo "wrong-bodies: there is no wrong/$name with a crate of that name" >&2
        exit 2
    fi
done

refused=0
others=0

# Prints what was found of an edit.
tell() {
    echo "$1: $2"
    case $2 in
    refused*) refused=$((refused + 1)) ;;
    *) others=$((others + 1)) ;;
    esac
}

# What rt must-fail said of an edit, without the edit's name, or that it said nothing.
said_of() {
    local said
    said=$(sed -n "s|^rt: must-fail $1: ||p" "$log" | head -n 1)
    echo "${said:-NOT TRIED: rt must-fail said nothing of it}"
}

# A crate that is not proved as it stands would refuse every edit.
is_proved() {
    (cd "crates/$1" && rt check) >"$log" 2>&1 || {
        tail -n 20 "$log" >&2
        return 1
    }
}

try_edits() {
    local edit
    if ! is_proved "$1"; then
        for edit in wrong/"$1"/*.edit; do
            tell "$1/$(basename "$edit")" 'NOT TRIED: the crate is not proved as it stands'
        done
        return
    fi
    rm -rf "$copy/crates/$1/must-fail"
    cp -r "wrong/$1" "$copy/crates/$1/must-fail"
    (cd "$copy" && rt must-fail "$1") >"$log" 2>&1
    for edit in wrong/"$1"/*.edit; do
        tell "$1/$(basename "$edit")" "$(said_of "$1/$(basename "$edit")")"
    done
}

# The copy lacks what checks keep: rt begins there with what they kept here.
tar --exclude=./.git --exclude=out -cf - . | tar -xf - -C "$copy"
for name in "${names[@]}"; do
    try_edits "$name"
done
echo "$refused refused, $others not"
[ "$others" -eq 0 ]
