#!/usr/bin/env bash
# Proves and builds the library, and compiles check.c and walk.c with it. Compares what check.c prints for some stored
# images, of the check and of sealing, by each of the three ways to ask, with the file stdout beside this one, and what
# walk.c prints for one of them, by either way, with walk.stdout.
set -euo pipefail
here=$(cd "$(dirname "$0")" && pwd)
root=$(cd "$here/../.." && pwd)
work=$(mktemp -d)
trap 'rm -rf "$work"' EXIT
(cd "$root/crates/dulvanos" && rt lib) >"$work/log" 2>&1 || { cat "$work/log" >&2; exit 1; }
for program in check walk; do
    "${CC:-cc}" -std=c11 -Wall -Wextra -O2 -pthread -I "$root/include" "$here/$program.c" "$root/crates/dulvanos/out/libdulvanos.a" -o "$work/$program"
done
cd "$root/crates/modseal/data"
for way in "" --each --large; do
    { "$work/check" $way && "$work/check" $way every_kind.img no_such_kind.img wrong_length.img bad_field.img out_of_place.img \
        too_deep.img unfinished.img not_inside.img not_earlier.img bad_range.img sealed.img global_argument.img \
        global_type.img argument_number.img product_before_operand.img call_of_later.img; } | diff "$here/stdout" - \
        || { echo "examples/c: check has other answers with '$way'" >&2; exit 1; }
done
for way in "" --large; do
    "$work/walk" $way sealed.img | diff "$here/walk.stdout" - \
        || { echo "examples/c: walk has other answers with '$way'" >&2; exit 1; }
done
cat "$here/stdout" "$here/walk.stdout"
echo "examples/c: as stored, check by all three ways and walk by both"
