#!/usr/bin/env bash
# Runs pages on logs of the lengths at which a page ends, on the most letters, and on inputs that it turns down.
set -u
cd "$(dirname "$0")/.." || exit 1
root=$PWD
room=$(mktemp -d)
trap 'rm -rf "$room"' EXIT
mkdir "$room/folder"
cd "$room/folder" || exit 1

# many N X: X, so many times
many() {
    awk -v n="$1" -v x="$2" 'BEGIN { for (i = 0; i < n; i++) printf "%s", x }'
}

# paged: the pages of lines 'LETTER LABEL' on standard input
paged() {
    awk '{ printf "%6d %s %8s%23s\n", NR, $1, $2, ""; n++ } END { while (n % 50 != 0) { printf "%40s\n", ""; n++ } }'
}

# holds WHAT: pages ends well, prints what stands in ../expected, says nothing and leaves no file behind
holds() {
    local before ended
    before=$(ls)
    "$root/crates/pages/out/pages" >"$room/printed" 2>"$room/said"
    ended=$?
    if [ "$ended" -ne 0 ] || [ -s "$room/said" ] || [ "$(ls)" != "$before" ] || ! cmp "$room/expected" "$room/printed"; then
        echo "pages, $1: it ended with $ended and printed"
        head -n 5 "$room/printed" "$room/said"
        exit 1
    fi
}

# refuses WHAT LINE: pages prints this line alone
refuses() {
    printf '%s\n' "$2" >"$room/expected"
    holds "$1"
}

# logged LETTERS: the log
logged() {
    printf '%s' "$1" >keys.log
}

cp "$root/samples/plan.bin" .
# The answers that stroll gives to the sample's letters, as document 01 prints them.
logged afnnfnnnnununnn
paged <"$root/crates/stroll/stdout" >"$room/expected"
cmp "$room/expected" "$root/crates/pages/stdout" || exit 1
holds "the sample's letters"
printf '     1 a       99                       \n' >"$room/expected"
for ((i = 0; i < 49; i++)); do printf '%40s\n' ''; done >>"$room/expected"
logged a
holds "one letter, column by column"
printf '     1 u        -                       \n' | cat - <(tail -n 49 "$room/expected") >"$room/first" && mv "$room/first" "$room/expected"
logged u
holds "nowhere"
for n in 2 49 50 51 99 100 101; do
    { echo a 99 && many $((n - 1)) $'s 99\n'; } | paged >"$room/expected"
    [ "$(wc -c <"$room/expected")" -eq $((2050 * ((n + 49) / 50))) ] || { echo "pages: the expected pages are not of 50 lines"; exit 1; }
    logged "a$(many $((n - 1)) s)"
    holds "$n letters"
done
# The place is kept from page to page: f leads from the node where the last page ended, n to its siblings.
{ many 24 $'a 99\nz 98\n' && printf 'a 99\nf 97\nn 98\nn 99\nf 97\nu 99\nu 99\nu -\n'; } | paged >"$room/expected"
logged "$(many 24 az)afnnfuuu"
holds "a page that begins inside a tree"
cp "$root/samples/wide.bin" plan.bin
printf 'a 16777215\nf 65535\nf -\n' | paged >"$room/expected"
logged aff
holds "labels of five and eight digits"
cp "$root/samples/plan.bin" .
: >"$room/expected"
logged ''
holds "no letters, no page"
rm keys.log
holds "an absent log"

# the most letters
{ echo a 99 && many 999998 $'s 99\n'; } | paged >"$room/expected"
{ printf a && many 999998 s; } >keys.log
holds "999,999 letters"
printf s >>keys.log
refuses "1,000,000 letters" "refused 8 at 0"
printf x >>keys.log
refuses "1,000,001 bytes, the last no letter" "refused 8 at 0"
{ printf x && many 999999 s; } >keys.log
refuses "8 before 9" "refused 8 at 0"

# what is turned down
logged afxn
refuses "a byte that is no letter" "refused 9 at 2"
logged $'a\n'
refuses "a line end among the letters" "refused 9 at 1"
{ many 70 s && printf x; } >keys.log
refuses "a byte that is no letter on the second page" "refused 9 at 70"
logged a
rm plan.bin
refuses "an absent plan" "refused 1 at 0"
: >plan.bin
refuses "an empty plan" "refused 1 at 0"
{ many 1000000 s; } >keys.log
refuses "the plan's check before the log's length" "refused 1 at 0"
logged x
refuses "the plan's check before 9" "refused 1 at 0"
logged a
{ many 16311 x && cat "$root/samples/plan.bin"; } >plan.bin
refuses "a plan of 16,385 bytes" "refused 8 at 0"
{ many 16310 x && cat "$root/samples/plan.bin"; } >plan.bin
echo a 99 | paged >"$room/expected"
holds "a plan of 16,384 bytes"
{ head -c 8200 /dev/zero && printf '\1\4\0\4\10\40\0\0mp'; } >plan.bin
refuses "a plan of 1,025 rules" "refused 2 at 0"
{ head -c 8192 /dev/zero && printf '\0\4\0\0\10\40\0\0mp'; } >plan.bin
refuses "a wrong distance" "refused 3 at 0"
{ printf '\6\0\0\0\0\0\0\0\1\0\0\0\10\0\0\0mp'; } >plan.bin
refuses "a kind above 5" "refused 4 at 0"
{ printf '\1\0\0\0\1\0\0\0\1\0\0\0\10\0\0\0mp'; } >plan.bin
refuses "a rule that isn't there" "refused 5 at 0"
{ printf '\0\0\0\0\0\0\0\0\3\0\0\0\0\0\0\0\2\0\0\0\20\0\0\0mp'; } >plan.bin
refuses "a rule of the wrong sort" "refused 6 at 1"
{ printf '\1\0\0\0\0\0\0\0\1\0\0\0\10\0\0\0mp'; } >plan.bin
refuses "rule 0 = pair 0 0" "refused 12 at 0"
{ printf '\0\0\0\0\0\0\0\0\1\0\1\0\10\0\0\0mp'; } >plan.bin
refuses "a start that isn't there" "refused 7 at 0"
