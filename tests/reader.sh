#!/usr/bin/env bash
# Links the reader's shell (examples/reader.c) with the static library of what was proved and holds what it shows to what it must show.
set -eu
cd "$(dirname "$0")/.."
build=$(mktemp -d)
trap 'rm -rf "$build"' EXIT
bash tests/library >"$build/log" 2>&1 || { cat "$build/log"; exit 1; }
# shellcheck disable=SC2086
gcc -std=c99 -pedantic -O1 -Wall -Wextra -Werror ${SANITIZE:-} -Iinclude -o "$build/reader" examples/reader.c target/staticlib/libmealplan.a

# Shows KEYS on PLAN, or on one RULE of it alone, which must print what stands on standard input and end with STATUS.
shows() { # PLAN KEYS STATUS [RULE]
    status=0
    printf '%s' "$2" | "$build/reader" "$1" ${4:+"$4"} >"$build/shown" 2>"$build/said" || status=$?
    diff - "$build/shown" || { echo "reader: $2 on $1 shows something else"; exit 1; }
    [ "$status" -eq "$3" ] || { echo "reader: $2 on $1 ends with status $status"; exit 1; }
}

shows samples/plan.bin 'af nnf nnnn
ununnnxq' 0 <<'END'
8 rules, start 7: 3 trees, 11 entries, 3 levels
a  99 c
f  97 a
n  98 b
n  99 c
f  97 a
n  98 b
n  97 a
n  98 b
n  nowhere: the last of its siblings
u  99 c
n  98 b
u  99 c
n  97 a
n  98 b
n  nowhere: the last of its siblings
x  no such key
stopped with 3 cells
END

# Why a key leads nowhere.
shows samples/plan.bin 'fnznfplupps' 0 <<'END'
8 rules, start 7: 3 trees, 11 entries, 3 levels
f  nowhere: above the forest
n  nowhere: above the forest
z  98 b
n  nowhere: the last of its siblings
f  nowhere: no children
p  97 a
l  nowhere: no children
u  nowhere: a root
p  99 c
p  nowhere: the first of its siblings
s  99 c
stopped with 4 cells
END

# The place of a key m compared with that of a key =: above the forest, with itself, with the tree in its hole, of two leaves.
shows samples/plan.bin '=m=am=fnn=f m n=m u u n=n=q' 0 <<'END'
8 rules, start 7: 3 trees, 11 entries, 3 levels
=  above the forest
m  remembered
=  above the forest
a  99 c
m  remembered
=  the same, 9 in all
f  97 a
n  98 b
n  99 c
=  another at 4
f  97 a
m  remembered
n  98 b
=  another at 1
m  remembered
u  99 c
u  99 c
n  97 a
=  another at 1
n  98 b
=  the same, 1 in all
stopped with 3 cells
END

# One rule alone: two leaves side by side, the start by its number, the empty rule; and rules that are holed, not there, or no numbers.
shows samples/plan.bin 'zpmn=nuq' 0 3 <<'END'
8 rules, start 7: 3 trees, 11 entries, 3 levels
rule 3 alone
z  98 b
p  97 a
m  remembered
n  98 b
=  another at 1
n  nowhere: the last of its siblings
u  nowhere: a root
stopped with 3 cells
END
shows samples/plan.bin 'afnn' 0 7 <<'END'
8 rules, start 7: 3 trees, 11 entries, 3 levels
rule 7 alone
a  99 c
f  97 a
n  98 b
n  99 c
stopped with 4 cells
END
shows samples/wide.bin 'az' 0 0 <<'END'
8 wide rules, start 7: 3 trees, 11 entries, 3 levels
rule 0 alone
a  nowhere: the forest is empty
z  nowhere: the forest is empty
stopped with 0 cells
END
for rule in 4 5 8 1023 1024 65536 99999999999999999999; do
    shows samples/plan.bin 'a' 1 "$rule" <<'END'
8 rules, start 7: 3 trees, 11 entries, 3 levels
refused 10 at 0
END
done
for rule in x -1 3x; do
    shows samples/plan.bin 'a' 2 "$rule" <<'END'
8 rules, start 7: 3 trees, 11 entries, 3 levels
END
    grep -q "is no number" "$build/said" || { echo "reader: it doesn't say that $rule is no number"; exit 1; }
done

# Two nodes over one row of 2^20 leaves, doubled twenty times, which is more than the reader's budget.
{
    printf '\0\0\0\0\0\0\0\0\2\0a\0\0\0\0\0'
    for rule in $(seq 1 20); do
        octal=$(printf '%o' "$rule")
        printf "\\1\\0\\$octal\\0\\$octal\\0\\0\\0"
    done
    printf '\2\0b\0\25\0\0\0\1\0\26\0\26\0\0\0\30\0\27\0\300\0\0\0mp'
} >"$build/doubled"
shows "$build/doubled" 'amn=f=mn=' 0 <<'END'
24 rules, start 23: 2 trees, 2097154 entries, 2 levels
a  98 b
m  remembered
n  98 b
=  the same up to 100000
f  97 a
=  another at 1
m  remembered
n  97 a
=  the same, 1 in all
stopped with 7 cells
END

shows samples/wide.bin 'afnnfnnnnununnnq' 0 <<'END'
8 wide rules, start 7: 3 trees, 11 entries, 3 levels
a  16777215
f  65535
n  66051
n  16777215
f  65535
n  66051
n  65535
n  66051
n  nowhere: the last of its siblings
u  16777215
n  66051
u  16777215
n  65535
n  66051
n  nowhere: the last of its siblings
stopped with 3 cells
END

# The sample plan with dividers in place of 98: they are walked, compared and no entries.
{ head -c 18 samples/plan.bin && printf '\0' && tail -c 55 samples/plan.bin; } >"$build/divided"
shows "$build/divided" 'afnmz=' 0 <<'END'
8 rules, start 7: 3 trees, 6 entries, 3 levels
a  99 c
f  97 a
n  0
m  remembered
z  0
=  the same, 1 in all
stopped with 3 cells
END

# A row of 2^64 dividers.
{
    printf '\0\0\0\0\0\0\0\0\2\0\0\0\0\0\0\0'
    for rule in $(seq 1 64); do
        octal=$(printf '%o' "$rule")
        printf "\\1\\0\\$octal\\0\\$octal\\0\\0\\0"
    done
    printf '\102\0\101\0\20\2\0\0mp'
} >"$build/dividers"
shows "$build/dividers" 'aznq' 0 <<'END'
66 rules, start 65: more than 2^64 - 1 nodes
a  0
z  0
n  nowhere: the last of its siblings
stopped with 3 cells
END

shows "$build/absent" 'a' 1 <<'END'
refused 1 at 0
END

head -c 73 samples/plan.bin >"$build/cut"
shows "$build/cut" 'a' 1 <<'END'
refused 1 at 0
END

{ head -c 89 samples/wide.bin && printf r; } >"$build/neither"
shows "$build/neither" 'a' 1 <<'END'
refused 1 at 0
END

{ head -c 89 samples/wide.bin && printf p; } >"$build/other"
shows "$build/other" 'a' 1 <<'END'
refused 3 at 0
END

head -c 16385 /dev/zero >"$build/long"
shows "$build/long" 'a' 1 <<'END'
refused 8 at 0
END

# The reader's own limit of rules, where check tests n: behind the mark, before the distance.
empty() { # N N-BYTES DISTANCE-BYTES MARK: so many empty narrow rules, start 0; the bytes as printf has them
    head -c $((8 * $1)) /dev/zero
    printf "$2\\0\\0$3\\0\\0$4"
}
empty 1024 '\0\4' '\0\40' mp >"$build/most"
shows "$build/most" 'az' 0 <<'END'
1024 rules, start 0: 0 trees, 0 entries, 0 levels
a  nowhere: the forest is empty
z  nowhere: the forest is empty
stopped with 0 cells
END

empty 1025 '\1\4' '\10\40' mp >"$build/many"
shows "$build/many" 'a' 1 <<'END'
refused 2 at 0
END

empty 1025 '\1\4' '\0\40' mq >"$build/many"
shows "$build/many" 'a' 1 <<'END'
refused 2 at 0
END

empty 1025 '\1\4' '\10\40' mr >"$build/many"
shows "$build/many" 'a' 1 <<'END'
refused 1 at 0
END

echo "reader: as expected"
