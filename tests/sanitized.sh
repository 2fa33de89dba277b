#!/usr/bin/env bash
# The C shell and the C tests once more, under gcc's checkers of addresses and of undefined behaviour: a read or write beside an object, a misaligned
# or null pointer, a shift or sum out of range, a leak ends them. tests/stack.c, which lays out stacks of its own and its own memset, is under the
# second alone, and on plans of few rules. The library itself isn't checked so: its machine code is the kit's, and what it may touch is proved.
set -eu
cd "$(dirname "$0")/.."
room=$(mktemp -d)
trap 'rm -rf "$room"' EXIT

# Checkers that find nothing must be there to find something.
printf 'int main(int n, char **v) { (void)v; static int a[4]; int i = 3 + n; return a[i]; }\n' >"$room/beside.c"
printf '#include <limits.h>\nint main(int n, char **v) { (void)v; return INT_MAX + n > 0; }\n' >"$room/sum.c"
for fault in beside sum; do
    gcc -O1 -g -fsanitize=address,undefined -fno-sanitize-recover=all -o "$room/$fault" "$room/$fault.c" 2>"$room/log" || {
        cat "$room/log"
        echo "sanitized: this gcc has no checkers"
        exit 1
    }
    ! "$room/$fault" >"$room/log" 2>&1 || { echo "sanitized: the checkers don't find the fault of $fault.c"; exit 1; }
done

export ASAN_OPTIONS=detect_stack_use_after_return=1:strict_string_checks=1 UBSAN_OPTIONS=print_stacktrace=1
for test in reader copy interface; do
    SANITIZE="-g -fsanitize=address,undefined -fno-sanitize-recover=all" bash "tests/$test.sh" >"$room/log" 2>&1 || {
        cat "$room/log"
        echo "sanitized: tests/$test.sh"
        exit 1
    }
done
gcc -std=gnu99 -O0 -g -fsanitize=undefined -fno-sanitize-recover=all -Iinclude -o "$room/stack" tests/stack.c target/staticlib/libmealplan.a
"$room/stack" few >"$room/log" 2>&1 || { tail -n 20 "$room/log"; echo "sanitized: tests/stack.c"; exit 1; }
echo "sanitized: reader, copy, interface and stack run as they must under gcc's checkers"
