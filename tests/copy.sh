#!/usr/bin/env bash
# Links the desk where copies are made (examples/copy.c) with the static library of what was proved, and holds what it shows to docs/copy.md: each
# block there that begins with a command must be what the command shows. Then inputs that it turns down.
set -eu
cd "$(dirname "$0")/.."
build=$(mktemp -d)
trap 'rm -rf "$build"' EXIT
bash tests/library >"$build/log" 2>&1 || { cat "$build/log"; exit 1; }
# shellcheck disable=SC2086
gcc -std=c99 -pedantic -O1 -Wall -Wextra -Werror ${SANITIZE:-} -Iinclude -o "$build/copy" examples/copy.c target/staticlib/libmealplan.a

# shows STATUS ARGUMENTS..: with these it must print what stands on standard input and end with STATUS
shows() {
    local status=$1 ended=0
    shift
    "$build/copy" "$@" >"$build/shown" || ended=$?
    diff - "$build/shown" || { echo "copy: $* shows something else"; exit 1; }
    [ "$ended" -eq "$status" ] || { echo "copy: $* ends with status $ended"; exit 1; }
}

# The blocks of the document: a line of four blanks, a dollar sign and the command, then what it shows, each line behind four blanks.
awk -v build="$build" '
    /^    \$ copy / { block = build "/block" ++blocks; print substr($0, 12) >block; next }
    /^    / && block { print substr($0, 5) >block ".text"; next }
    { block = "" }
    END { print blocks + 0 }' docs/copy.md >"$build/blocks"
blocks=$(cat "$build/blocks")
[ "$blocks" -ge 3 ] || { echo "copy: docs/copy.md has $blocks blocks"; exit 1; }
for block in $(seq "$blocks"); do
    read -ra arguments <"$build/block$block"
    shows 0 "${arguments[@]}" <"$build/block$block.text"
done

# refused NUMBER POSITION ARGUMENTS..: it must say this, and no more
refused() {
    local line="refused $1 at $2"
    shift 2
    echo "$line" | shows 1 "$@"
}
refused 13 0 samples/plan.bin 4
refused 13 0 samples/plan.bin 70000
refused 1 0 "$build/absent" 0
refused 1 0 "$build/absent" 4
head -c 73 samples/plan.bin >"$build/cut"
refused 1 0 "$build/cut" 0
head -c 16385 /dev/zero >"$build/long"
refused 8 0 "$build/long" 0
{ head -c 8200 /dev/zero && printf '\1\4\0\0\10\40\0\0mp'; } >"$build/many"
refused 2 0 "$build/many" 0
{ head -c 8192 /dev/zero && printf '\0\4\0\0\0\40\0\0mp'; } >"$build/most"
shows 0 "$build/most" 0 az <<'END'
the plan            class 0
a  nowhere          nowhere
z  nowhere          nowhere
END
shows 1 samples/plan.bin 1 ax <<'END'
the plan            class 1
a  c                c
refused 9 at 0
END
echo "copy: $blocks blocks of docs/copy.md as they stand there, and the rest as expected"
