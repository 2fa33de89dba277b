#!/usr/bin/env bash
# Two builds of one commit give the same bytes of libmealplan.a: the one that the tests before this linked, and one that ./release makes in a copy of
# this folder. The proofs are copied with it; what is compiled and linked of them is done anew, under another path. Then the release: its files, their
# sums, what it names, that the reader builds from them alone, and what it turns down.
set -eu
cd "$(dirname "$0")/.."
room=$(mktemp -d)
trap 'rm -rf "$room"' EXIT

fail() {
    echo "two_builds: $1"
    exit 1
}

[ -f target/ci.txt ] || fail "there is no target/ci.txt: the gate leaves it before it runs the tests"
bash tests/library >"$room/log" 2>&1 || { cat "$room/log"; exit 1; }
mkdir "$room/copy"
tar -c --exclude=./rust/target --exclude=./target/release . | tar -x -C "$room/copy"
rm -f "$room/copy/target/staticlib/libmealplan.a" "$room/copy/crates/mealplan/out/libmealplan.a"
cd "$room/copy"
same() { cmp "$OLDPWD/target/staticlib/libmealplan.a" "$1" || fail "two builds of the library differ"; }
commit=$(git -c safe.directory="$PWD" rev-parse HEAD 2>"$room/log") || {
    bash tests/library >"$room/log" 2>&1 || { cat "$room/log"; exit 1; }
    same target/staticlib/libmealplan.a
    echo "two_builds: the library twice, the same in every byte; there is no commit here to release"
    exit 0
}
draft=
[ -z "$(git -c safe.directory="$PWD" status --porcelain)" ] || draft=--draft
# shellcheck disable=SC2086
./release $draft >"$room/log" 2>&1 || { cat "$room/log"; fail "./release $draft"; }
same target/release/libmealplan.a

# Its files.
[ "$(cd target/release && echo *)" = "RELEASE.txt SHA256SUMS libmealplan.a mealplan.h reader.c" ] || fail "it has $(ls target/release)"
(cd target/release && sha256sum --check --quiet --strict SHA256SUMS) || fail "the sums are others"
[ "$(wc -l <target/release/SHA256SUMS)" -eq 4 ] || fail "there are not four sums"
cmp include/mealplan.h target/release/mealplan.h
cmp examples/reader.c target/release/reader.c

# What it names.
says() { grep -qxE -- "$1" target/release/RELEASE.txt || { cat target/release/RELEASE.txt; fail "RELEASE.txt has no line '$1'"; }; }
says "commit: $commit${draft:+, with changes that are not committed: this is a draft}"
says "kit:    $(rt version)"
says "proved: $(tail -n 1 target/ci.txt) \(the last line of rt ci\)"
for file in libmealplan.a mealplan.h reader.c; do says "$(cd target/release && sha256sum "$file")"; done
says 'code of all functions: [0-9]+ bytes, [0-9]+ stated'
for f in check seal unseal measure spread walk compare copy grams reason; do
    for rules in 1024 16384; do says "plan_$f, painted, on plans of $rules rules: [0-9]+ bytes of stack used, [0-9]+ stated"; done
done
says 'plan_class, painted: [0-9]+ bytes of stack used, [0-9]+ stated'

# The reader from these files alone.
cp -r target/release "$room/alone"
(cd "$room/alone" && gcc -std=c99 -pedantic -Wall -Wextra -Werror -I. -o reader reader.c libmealplan.a)
last=$(printf 'afq' | "$room/alone/reader" samples/plan.bin | tail -n 1)
[ "$last" = "stopped with 7 cells" ] || fail "the reader of the release ends with '$last'"

# What it turns down, before it builds anything, and the release stays as it was.
cp target/ci.txt "$room/ci.txt"
cp -r target/release "$room/before"
refused() { # STATUS WORDS ARGUMENTS..: ./release says this and ends so
    local status=$1 words=$2 ended=0
    shift 2
    ./release "$@" >"$room/log" 2>&1 || ended=$?
    grep -qF -- "$words" "$room/log" || { cat "$room/log"; fail "./release $* doesn't say '$words'"; }
    [ "$ended" -eq "$status" ] || fail "./release $* ends with $ended, not $status"
    diff -r "$room/before" target/release || fail "./release $* has changed the release"
}
refused 2 "usage: release" --other
echo >>README.md
refused 1 "there are changes that are not committed"
for last in '3 passed, 1 failed' '0 passed, 0 failed' 'none passed, 0 failed' '3 passed, 0 failed, 1 skipped' 'gate: 3 passed, 0 failed'; do
    sed "3s/.*/$last/" "$room/ci.txt" >target/ci.txt
    refused 1 "the gate ended with '$last'" --draft
done
sed '2s/.*/another/' "$room/ci.txt" >target/ci.txt
refused 1 "the gate had another kit" --draft
sed 3d "$room/ci.txt" >target/ci.txt
refused 1 "target/ci.txt isn't what the gate leaves" --draft
cp "$room/ci.txt" target/ci.txt
echo >>crates.txt
refused 1 "crates/ is not what the gate proved" --draft
rm target/ci.txt
refused 1 "the gate has not passed here" --draft
echo "two_builds: the library twice, the same in every byte, and a release of it"
