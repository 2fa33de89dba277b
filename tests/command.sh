#!/usr/bin/env bash
# The command 'mealplan' (rust/command) over the static library of what was proved: its own tests, in which every command is called, accepted and
# refused; plans of the most rules there and back as text; that it says how far it is where it takes seconds; and its reader, through a
# pseudo-terminal (tests/read.py).
set -eu
cd "$(dirname "$0")/.."
room=$(mktemp -d)
trap 'rm -rf "$room"' EXIT

fail() {
    echo "command: $1"
    exit 1
}

bash tests/library >"$room/log" 2>&1 || { cat "$room/log"; exit 1; }
export MEALPLAN_LIB="$PWD/target/staticlib"
on() {
    nice cargo "$@" --manifest-path rust/Cargo.toml --package command --offline --locked --jobs 1 >"$room/log" 2>&1 && return
    cat "$room/log"
    fail "cargo $*"
}
on build --release
on test
passed=$(awk '/^test result: ok\. / { sum += $4 } END { print sum + 0 }' "$room/log")
[ "$passed" -ge 35 ] || { cat "$room/log"; fail "only $passed tests were run"; }
mealplan=$PWD/rust/target/release/mealplan

# A plan of the most rules, from its text: the text comes back, and so does the plan, in either format.
awk 'BEGIN {
    print "start 16383\n0 = empty\n1 = node 97 0"
    for (r = 2; r < 16384; r++) print r " = " (r % 3 ? "pair " r - 1 " " r - 1 : "node " r % 256 " " r - 1)
}' >"$room/rules"
for format in narrow wide; do
    { echo "$format" && cat "$room/rules"; } >"$room/$format.txt"
    "$mealplan" seal "$room/$format.txt" -o "$room/$format.bin"
    "$mealplan" rules "$room/$format.bin" | cmp - "$room/$format.txt"
    "$mealplan" rules "$room/$format.bin" | "$mealplan" seal - | cmp - "$room/$format.bin"
done

# A tree of more lines than there is time for: it says how far it is after two seconds, and is ended then.
"$mealplan" show --lines 100000000 "$room/wide.bin" >"$room/shown" 2>"$room/said" &
for _ in $(seq 100); do [ -s "$room/said" ] || sleep 0.1; done
kill $! || fail "show has ended"
wait $! || [ $? -eq 143 ] || fail "show ended by itself"
grep -qE '^mealplan: showing, [0-9]+ lines, [0-9]+ s$' "$room/said" || { cat "$room/said"; fail "it doesn't say how far it is"; }
[ "$(wc -l <"$room/shown")" -gt 100 ] || fail "it shows nothing while it works"

python3 tests/read.py "$mealplan" samples
echo "command: $passed tests, round trips, progress and the reader as expected"
