#!/bin/sh
# Builds the oracle and runs it: NAGA_SRC=DIR DULVANOS_LIB=FILE oracle/run.sh [COMMAND ..]
set -eu
: "${NAGA_SRC:?the folder src of naga 30.0.1, which has arena/, valid/ and non_max_u32.rs}"
here=$(cd "$(dirname "$0")" && pwd)
NAGA_SRC=$(realpath "$NAGA_SRC")
DULVANOS_LIB=$(realpath "${DULVANOS_LIB:-$here/../crates/dulvanos/out/libdulvanos.a}")
export NAGA_SRC DULVANOS_LIB
(cd "$here" && cargo build --release --offline --jobs 2)
exec "$here/target/release/oracle" "${@:-compare}"
