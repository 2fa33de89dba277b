#!/usr/bin/env bash
# Tries the static library of what was proved against the independent implementation in rust/reference: every call of the trials must
# agree in its answer and in every byte, and enough must have been tried. Also runs the cases of documents 01 and 02 by the safe functions:
# those of the sample plan, and those of tests/cases.txt, whose number is printed; and before all, the tests of rust/reference itself.
# TRIALS_SEED gives the seed of a run to have again; it is printed. Last the benchmark's table beside a baseline, which here is the library itself,
# linked a second time: that it is there, whatever the ratios.
set -eu
cd "$(dirname "$0")/.."
log=$(mktemp)
trap 'rm -f "$log"' EXIT
command -v cargo >/dev/null 2>&1 || { echo "rust: cargo is not installed"; exit 1; }
bash tests/library >"$log" 2>&1 || { cat "$log"; exit 1; }
export MEALPLAN_LIB="$PWD/target/staticlib"
nice cargo test --manifest-path rust/Cargo.toml --package reference --package trials --release --offline --locked --jobs 1 --tests -- --nocapture

BASELINE="$MEALPLAN_LIB/libmealplan.a" nice cargo run --manifest-path rust/Cargo.toml --release --offline --locked --jobs 1 --bin bench baseline \
    >"$log" 2>&1 || { cat "$log"; echo "rust: the benchmark beside a baseline failed"; exit 1; }
grep -E '^\| geometric mean of the ratios \| *\|( [0-9]+\.[0-9]+ \|){4}$' "$log" || { cat "$log"; echo "rust: it shows no means"; exit 1; }
