#!/usr/bin/env bash
# Which callers of sealing and of walks do not compile. The edits that the gate tries must reach the prover, and these are
# stopped by the compiler before it: so a caller (tools/rejections/caller.source) is built as it stands, then with each
# edit that the compiler must accept, and then with each of those that it must reject, and its message is looked for.
# Run from anywhere: bash tools/rejections.sh
set -euo pipefail
cd "$(dirname "$0")/.."
edits=tools/rejections
work=$(mktemp -d)
trap 'rm -rf "$work"' EXIT
mkdir "$work/crates"
for crate in crates/*; do
    mkdir "$work/$crate"
    cp -r "$crate/src" "$work/$crate/"
    if [ -d "$crate/specs" ]; then cp -r "$crate/specs" "$work/$crate/"; fi
    if [ -d "$crate/proofs" ]; then cp -r "$crate/proofs" "$work/$crate/"; fi
done
cp crates.txt "$work/"
echo "caller: arena rules seal sealed_walk walk" >>"$work/crates.txt"
failed=0

# Puts the caller in place, with an edit if one is named.
place() {
    mkdir -p "$work/crates/caller/src"
    cp $edits/caller.source "$work/crates/caller/src/main.rt"
    if [ $# -eq 0 ]; then return; fi
    python3 - "$1" "$work/crates/caller/src/main.rt" <<'PY'
import sys
edit, path = sys.argv[1:]
text = open(path).read()
lines = open(edit).read().splitlines()
for old, new in zip([l[5:] for l in lines if l.startswith("old: ")], [l[5:] for l in lines if l.startswith("new: ")]):
    assert text.count(old) == 1, f"{edit}: '{old}' does not stand there once"
    text = text.replace(old, new)
open(path, "w").write(text)
PY
}

# What the compiler and then the caller say.
run() {
    (cd "$work/crates/caller" && rt try 2>&1) || true
}

# Says whether a caller did what it must.
judge() {
    if grep -q -- "$2" <<<"$3"; then
        echo "rejections: $1: $4"
    else
        echo "rejections: $1: NOT $4; it said:" >&2
        echo "$3" >&2
        failed=1
    fi
}

place
judge "a caller that seals" "^true true$" "$(run)" "accepted"
for edit in $edits/*.accepted; do
    place "$edit"
    judge "$(basename "$edit" .accepted)" "^$(sed -n 's/^prints: //p' "$edit")$" "$(run)" "accepted"
done
for edit in $edits/*.rejected; do
    place "$edit"
    judge "$(basename "$edit" .rejected)" "$(sed -n 's/^error: //p' "$edit")" "$(run)" "rejected"
done
exit $failed
