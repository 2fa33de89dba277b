#!/usr/bin/env bash
# Holds the figures at the end of include/mealplan.h to the static library of what was proved: bytes of code, no data, no bss, nothing
# undefined but memset, and the stack of each function. The stack is taken twice.
# - Added up along the deepest chain of calls in the machine code. That sum holds for every plan, and is held to the bound for any plan.
#   The room for more than 1,024 rules lies in the frame of one function alone, judge::search with that size, which judge_rules calls for
#   such plans and for no others: the sum without it is held to the bounds for few rules. That it isn't called for few rules is read off the code
#   of crates/judge, not off the machine code; what shows it here is the second way.
# - Painted, on plans of 1,024 rules, of 4,096 and of 16,384 and on lists of rows (tests/stack.c): what was used of it, each held to its bound, and
#   to the sum.
# What was found is left in target/stack.txt, below the sum of the library that it was found of: a release has it.
set -eu
cd "$(dirname "$0")/.."
build=$(mktemp -d)
trap 'rm -rf "$build"' EXIT
bash tests/library >"$build/log" 2>&1 || { cat "$build/log"; exit 1; }
library=target/staticlib/libmealplan.a
functions="check seal unseal measure spread walk compare class copy grams reason"

fail() {
    echo "stack: $1"
    exit 1
}

# stated NAME: the number that the header has for MEALPLAN_NAME
stated() { echo "MEALPLAN_$1" | gcc -E -P -include include/mealplan.h - | tail -n 1; }

# within WHAT BYTES NAME: as many as stated at most, and more than half as many
within() {
    local bound
    bound=$(stated "$3")
    echo "$1: $2 bytes, $bound stated" | tee -a "$build/figures"
    [ "$2" -le "$bound" ] && [ $((2 * $2)) -ge "$bound" ] || fail "the bound of the header doesn't fit"
}

# linked FILE FUNCTION..: what the linker takes from the library for these functions
linked() {
    local file=$1 wanted=
    shift
    for f in "$@"; do wanted="$wanted -u plan_$f"; done
    # shellcheck disable=SC2086
    ld -r --gc-sections $wanted -o "$file" "$library"
    [ "$(size "$file" | awk 'NR == 2 { print $2 + $3 }')" -eq 0 ] || fail "there are data or bss"
    [ "$(nm -u "$file" | awk '{ print $2 }')" = memset ] || fail "something other than memset is undefined: $(nm -u "$file")"
}
# shellcheck disable=SC2086
linked "$build/all.o" $functions
linked "$build/two.o" check walk
within "code of all functions" "$(size "$build/all.o" | awk 'NR == 2 { print $1 }')" CODE_BYTES
within "code of check and walk alone" "$(size "$build/two.o" | awk 'NR == 2 { print $1 }')" CODE_BYTES_CHECK_WALK

# The function that has the room for many rules.
many='judge::search::<=65536>'
objdump -dr --no-show-raw-insn "$build/all.o" >"$build/code"
grep -qF "<$many>:" "$build/code" || fail "$many isn't a function of its own, so that few rules may take the room of many"

# depths LEFT-OUT: each function with the bytes of its deepest chain of calls, without those through one function.
# A function's frame is its return address, what it pushes and what it takes off the stack pointer; a leaf may also write below that. A long
# frame is taken page by page, so that each is touched, until the stack pointer is at the end that %r11 holds: that end says its length.
depths() {
    awk -v out="$1" '
    function depth(f,    k, d, most, names) {
        if (open[f]++) { print "recursion through " f > "/dev/stderr"; exit 1 }
        most = below[f]
        for (k = split(calls[f], names, " "); k; k--) if (names[k] != out && (d = depth(names[k])) > most) most = d
        open[f] = 0
        return 8 + frame[f] + most
    }
    function hex(s,    v) { for (s = tolower(s); s != ""; s = substr(s, 2)) v = 16 * v + index("0123456789abcdef", substr(s, 1, 1)) - 1; return v }
    function number(s) { sub(/^[-$]*0x/, "", s); sub(/[,(].*/, "", s); return hex(s) }
    /^[0-9a-f]+ <.*>:$/ { if (end) { print "pages without an end in " f > "/dev/stderr"; exit 1 }; f = $2; gsub(/^<|>:$/, "", f) }
    $2 == "lea" && $3 ~ /^-0x[0-9a-f]+\(%rsp\),%r11$/ { end = number($3); next }
    $2 == "sub" && $3 ~ /^\$0x[0-9a-f]+,%r11$/ && last == "mov %rsp,%r11" { end = number($3); next }
    end && $2 == "sub" && $3 ~ /,%rsp$/ { page = number($3); if (end % page) { print "pages that do not end in " f > "/dev/stderr"; exit 1 }; next }
    $2 == "cmp" && $3 == "%r11,%rsp" && end { frame[f] += end; end = 0; next }
    $2 == "push" { frame[f] += 8 }
    $3 ~ /,%rsp$/ && ($2 !~ /^(sub|add)$/ || $3 !~ /^\$0x/) { print "a frame of no fixed length in " f > "/dev/stderr"; exit 1 }
    $2 == "sub" && $3 ~ /,%rsp$/ { frame[f] += number($3) }
    $2 == "call" && $3 ~ /^\*/ { print "a call through a pointer in " f > "/dev/stderr"; exit 1 }
    match($0, /-0x[0-9a-f]+\(%rsp/) { d = hex(substr($0, RSTART + 3, RLENGTH - 8)); if (d > below[f]) below[f] = d }
    $2 == "R_X86_64_PLT32" { sub(/-0x4$/, "", $3); sub(/^\.text\./, "", $3); calls[f] = calls[f] " " $3 }
    { last = $2 " " $3 }
    END { for (f in frame) if (f ~ /^plan_/) print substr(f, 6), depth(f) }' "$build/code"
}
depths "" >"$build/any"
depths "$many" >"$build/few"
for sums in any few; do
    sort -o "$build/$sums" "$build/$sums"
    [ "$(wc -l <"$build/$sums")" -eq 11 ] || fail "the chains of calls were not found"
done
grep -v '^class ' "$build/any" >"$build/plans"
while read -r f bytes; do within "stack of plan_$f along its calls, any plan" "$bytes" STACK_MANY; done <"$build/plans"
while read -r f bytes; do within "stack of plan_$f along its calls, without those through $many" "$bytes" "STACK_${f^^}"; done <"$build/few"

gcc -std=gnu99 -O0 -Wall -Wextra -Werror -Iinclude -o "$build/stack" tests/stack.c "$library"
"$build/stack" | tee "$build/painted"
[ "${PIPESTATUS[0]}" -eq 0 ] || fail "on a painted stack"
grep ', painted' "$build/painted" | sed 's/^plan_\([a-z]*\), painted\(, on plans of \([0-9]*\) rules\)*: \([0-9]*\) .*/\1 \4 \3/' >"$build/used"
[ "$(wc -l <"$build/used")" -eq 22 ] || fail "the painted figures were not found"
while read -r f bytes rules; do
    sums=any
    [ "$rules" != 1024 ] || sums=few
    [ "$bytes" -le "$(awk -v f="$f" '$1 == f { print $2 }' "$build/$sums")" ] || fail "plan_$f uses more than the sum along its calls"
done <"$build/used"
{ sha256sum "$library" && cat "$build/figures" && grep ', painted' "$build/painted"; } >target/stack.txt
