#!/usr/bin/env bash
# The Rust crate 'mealplan' over the static library of what was proved: its tests on the sample plans, the examples of its documentation, each of
# which runs, that it builds without alloc, and that no link of the documentation leads nowhere. Where the toolchain has Miri, which runs no C
# functions, the part that calls none runs under it.
set -eu
cd "$(dirname "$0")/.."
log=$(mktemp)
trap 'rm -f "$log"' EXIT
command -v cargo >/dev/null 2>&1 || { echo "crate: cargo is not installed"; exit 1; }
bash tests/library >"$log" 2>&1 || { cat "$log"; exit 1; }
export MEALPLAN_LIB="$PWD/target/staticlib"

# on COMMAND WORDS..: cargo on the crate alone; says what it said only where it fails
on() {
    local command=$1
    shift
    # shellcheck disable=SC2086
    nice cargo $command --manifest-path rust/Cargo.toml --package mealplan --offline --locked --jobs 1 "$@" >"$log" 2>&1 && return
    cat "$log"
    echo "crate: cargo $command $* failed"
    exit 1
}

# least N: of the tests that were run last so many passed, or more
least() {
    local passed
    passed=$(awk '/^test result: ok\. / { sum += $4 } END { print sum + 0 }' "$log")
    [ "$passed" -ge "$1" ] || { cat "$log"; echo "crate: only $passed tests were run"; exit 1; }
}

on build --no-default-features
on test --tests
least 10
on test --doc
least 15
RUSTDOCFLAGS="-D warnings" on doc --no-deps
if CARGO_NET_OFFLINE=true cargo miri setup >"$log" 2>&1; then
    on "miri test" --test words
    miri="under Miri, too"
else
    miri="this toolchain has no Miri"
fi
echo "crate: tests, examples and documentation as expected; $miri"
