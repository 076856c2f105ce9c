#!/bin/sh
# Holds the copy of the recorded answers that the gate replays to the original,
# and runs the oracle's tests where cargo and the original Rust files are there.
# --there: only says by its status whether the original Rust files are there.
cd "$(dirname "$0")" || exit 1
src=${BODEGA_SRC:-../shared/docs/src}
case $src in
/*) ;;
*) src=../$src ;; # the name is seen from the repository's root
esac
there() { [ -f "$src/src/protocols/bodega/localread.rs" ]; }
if [ "${1:-}" = --there ]; then
    there
    exit
fi
if ! cmp recorded/scripts.rec ../crates/test_scripts/stdin; then
    echo "oracle: crates/test_scripts/stdin is not recorded/scripts.rec"
    exit 1
fi
if ! command -v cargo >/dev/null 2>&1 || ! there; then
    exit 0
fi
cargo test --offline --quiet -j1 && echo "oracle: tests passed"
