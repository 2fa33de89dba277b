#!/usr/bin/env bash
# Links the static library of what was proved with a C program that holds the header to it, and runs it on the sample plans.
set -eu
cd "$(dirname "$0")/.."
build=$(mktemp -d)
trap 'rm -rf "$build"' EXIT
bash tests/library >"$build/log" 2>&1 || { cat "$build/log"; exit 1; }
# shellcheck disable=SC2086
gcc -std=c99 -pedantic -O1 -Wall -Wextra -Werror ${SANITIZE:-} -Iinclude -o "$build/interface" tests/interface.c target/staticlib/libmealplan.a
"$build/interface" samples/plan.bin samples/wide.bin
