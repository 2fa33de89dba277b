#!/usr/bin/env bash
# Runs stroll, by its script and by itself, on document 01's sample and on inputs that it turns down.
set -u
cd "$(dirname "$0")/.." || exit 1
root=$PWD
room=$(mktemp -d)
trap 'rm -rf "$room"' EXIT
mkdir "$room/tmp" "$room/folder" "$room/unbuilt"
export TMPDIR=$room/tmp
sample=$root/samples/plan.bin

# holds WHAT STATUS EXPECTED COMMAND..: the command ends with this status and prints exactly this
holds() {
    local what=$1 status=$2 ended
    printf '%b' "$3" >"$room/expected"
    shift 3
    "$@" >"$room/printed" 2>"$room/said"
    ended=$?
    if [ "$ended" -ne "$status" ] || ! cmp -s "$room/expected" "$room/printed"; then
        echo "stroll, $what: it ended with $ended and printed"
        head -n 20 "$room/printed" "$room/said"
        exit 1
    fi
}

# says WORDS: the last command said this on standard error
says() {
    grep -qF -- "$1" "$room/said" && return
    echo "stroll: '$1' is not in what it said"
    cat "$room/said"
    exit 1
}

# many N X: X, so many times
many() {
    printf "%*s" "$1" '' | sed "s/ /$2/g"
}

# alone FOLDER LETTERS: the program itself, in a folder
alone() {
    (cd "$1" && printf '%s' "$2" | "$root/crates/stroll/out/stroll")
}

cmp "$sample" crates/stroll/data/plan.bin || exit 1
holds "the sample" 0 "$(cat crates/stroll/stdout)\n" ./stroll samples/plan.bin afnnfnnnnununnn
cd "$room/folder" || exit 1
holds "from another folder" 0 'a 99\nz 98\np 97\ns 97\nu -\n' "$root/stroll" "$sample" azpsu
holds "no letters" 0 '' "$root/stroll" "$sample" ''
printf '\1\0\1\0\4\0\0\0\3\0\2\0\6\0\0\0\5\0\3\0\3\0\0\0\4\0\143\0\4\0\5\0\1\0\6\0\5\0\0\0\2\0\142\0\7\0\0\0\2\0\141\0\7\0\0\0' >"$room/plan"
printf '\0\0\0\0\0\0\0\0\10\0\0\0\100\0\0\0mp' >>"$room/plan"
holds "the sample with its rules in reverse order" 0 "$(cat "$root/crates/stroll/stdout")\n" "$root/stroll" "$room/plan" afnnfnnnnununnn
wide=$root/samples/wide.bin
# The answers to the same letters as for the sample, with the wide sample's labels.
answers=$(sed 's/ 97$/ 65535/; s/ 98$/ 66051/; s/ 99$/ 16777215/' "$root/crates/stroll/stdout")
holds "the wide sample" 0 "$answers\n" "$root/stroll" "$wide" afnnfnnnnununnn
holds "labels of five and eight digits" 0 'a 16777215\nf 65535\nf -\n' "$root/stroll" "$wide" aff
{ head -c 89 "$wide" && printf p; } >"$room/plan"
holds "the wide sample with the old mark" 0 'refused 3 at 0\n' "$root/stroll" "$room/plan" a
{ head -c 89 "$wide" && printf r; } >"$room/plan"
holds "a mark that is neither" 0 'refused 1 at 0\n' "$root/stroll" "$room/plan" a
{ head -c 10240 /dev/zero && printf '\0\4\0\0\0\50\0\0mq'; } >"$room/plan"
holds "a wide plan of 1,024 rules" 0 'a -\nz -\n' "$root/stroll" "$room/plan" az
{ many 16294 x && cat "$wide"; } >"$room/plan"
holds "a wide plan of 16,384 bytes, and the longest output" 0 "a 16777215\n$(many 4095 's 16777215\\n')" "$root/stroll" "$room/plan" "a$(many 4095 s)"
# ward BYTES RULE TRAILER: so many bytes of empty rules, one rule more, the trailer; both as printf has them
ward() {
    head -c "$1" /dev/zero
    printf "$2$3"
}
# A node over rule 0, which is empty; in a wide plan, too.
leaf='\2\0\141\0\0\0\0\0'
wide_leaf="$leaf\\0\\0"
ward 8184 "$leaf" '\0\4\377\3\0\40\0\0mp' >"$room/plan"
holds "a plan of 1,024 rules" 0 'a 97\nn -\n' "$root/stroll" "$room/plan" an
ward 10230 "$wide_leaf" '\0\4\377\3\0\50\0\0mq' >"$room/plan"
holds "a wide plan of 1,024 rules, the last a node" 0 'a 97\nn -\n' "$root/stroll" "$room/plan" an
ward 8192 "$leaf" '\1\4\0\4\10\40\0\0mp' >"$room/plan"
holds "a plan of 1,025 rules" 0 'refused 2 at 0\n' "$root/stroll" "$room/plan" a
holds "a plan of 1,025 rules, and no letter" 0 'refused 2 at 0\n' "$root/stroll" "$room/plan" x
holds "a plan of 1,025 rules, and 4,097 letters" 0 'refused 2 at 0\n' "$root/stroll" "$room/plan" "$(many 4097 a)"
ward 10240 "$wide_leaf" '\1\4\0\4\12\50\0\0mq' >"$room/plan"
holds "a wide plan of 1,025 rules" 0 'refused 2 at 0\n' "$root/stroll" "$room/plan" a
ward 8192 "$leaf" '\1\4\0\4\0\40\0\0mp' >"$room/plan"
holds "a plan of 1,025 rules, and a wrong distance" 0 'refused 2 at 0\n' "$root/stroll" "$room/plan" a
ward 8192 '\6\0\141\0\0\0\0\0' '\1\4\0\4\10\40\0\0mp' >"$room/plan"
holds "a plan of 1,025 rules, and kind above 5" 0 'refused 2 at 0\n' "$root/stroll" "$room/plan" a
ward 8192 "$leaf" '\1\4\0\4\10\40\0\0mr' >"$room/plan"
holds "a plan of 1,025 rules, and a wrong mark" 0 'refused 1 at 0\n' "$root/stroll" "$room/plan" a
ward 8184 "$leaf" '\0\4\377\3\10\40\0\0mp' >"$room/plan"
holds "a plan of 1,024 rules, and a wrong distance" 0 'refused 3 at 0\n' "$root/stroll" "$room/plan" a
ward 16360 "$leaf" '\376\7\375\7\360\77\0\0mp' >"$room/plan"
holds "the most rules that 16,384 bytes hold" 0 'refused 2 at 0\n' "$root/stroll" "$room/plan" a
ward 131064 "$leaf" '\0\100\377\77\0\0\2\0mp' >"$room/plan"
holds "a plan of 16,384 rules: too long before all else" 0 'refused 8 at 0\n' "$root/stroll" "$room/plan" a
printf '\0\100\0\0\0\0\2\0mp' >"$room/plan"
holds "n = 16,384 and no rules" 0 'refused 2 at 0\n' "$root/stroll" "$room/plan" a
printf '\1\0\0\0\0\0\0\0\1\0\0\0\10\0\0\0mp' >"$room/plan"
holds "rule 0 = pair 0 0" 0 'refused 12 at 0\n' "$root/stroll" "$room/plan" a
holds "rule 0 = pair 0 0, and 4,097 letters" 0 'refused 12 at 0\n' "$root/stroll" "$room/plan" "$(many 4097 a)"
holds "a byte that is no letter" 0 'refused 9 at 2\n' "$root/stroll" "$sample" afxn
holds "a line end among the letters" 0 'refused 9 at 1\n' "$root/stroll" "$sample" $'a\n'

holds "an absent file" 0 'refused 1 at 0\n' alone "$room/folder" a
: >"$room/plan"
holds "an empty file" 0 'refused 1 at 0\n' "$root/stroll" "$room/plan" a
{ many 16310 x && cat "$sample"; } >"$room/plan"
holds "a plan of 16,384 bytes" 0 'a 99\n' "$root/stroll" "$room/plan" a
{ many 16311 x && cat "$sample"; } >"$room/plan"
holds "a plan of 16,385 bytes" 0 'refused 8 at 0\n' "$root/stroll" "$room/plan" a
many 16385 x >"$room/plan"
holds "16,385 bytes that are no plan" 0 'refused 8 at 0\n' "$root/stroll" "$room/plan" x

holds "4,096 letters" 0 "a 99\n$(many 4095 's 99\\n')" "$root/stroll" "$sample" "a$(many 4095 s)"
holds "4,097 letters" 0 'refused 8 at 0\n' "$root/stroll" "$sample" "a$(many 4096 s)"
holds "4,097 bytes that are no letters" 0 'refused 8 at 0\n' "$root/stroll" "$sample" "$(many 4097 x)"
printf 'no plan' >"$room/plan"
holds "4,097 letters on no plan" 0 'refused 1 at 0\n' "$root/stroll" "$room/plan" "$(many 4097 a)"

for arguments in '' "$sample" "$sample a b"; do
    # shellcheck disable=SC2086
    holds "a wrong number of arguments" 2 '' "$root/stroll" $arguments
    says "usage: stroll PLAN LETTERS"
done
holds "a plan that is not there" 1 '' "$root/stroll" "$room/nothing" a
says "cannot read the plan $room/nothing"
holds "a plan that is a folder" 1 '' "$root/stroll" "$room/folder" a
says "cannot read the plan $room/folder"

# without the kit, where nothing is built
cp "$root/stroll" "$root/crates.txt" "$room/unbuilt"
mkdir -p "$room/unbuilt/crates/stroll" "$room/tools"
for tool in bash env dirname readlink mktemp rm cat find; do ln -s "$(command -v $tool)" "$room/tools/$tool"; done
holds "no kit" 1 '' env PATH="$room/tools" "$room/unbuilt/stroll" "$sample" a
says "the Rattle kit (rt) is not installed"

# with a kit that proves, of three crates the two that stroll needs, and then with one that refuses
printf 'words: # bytes\nother: words\nstroll: words io # the program\n' >"$room/unbuilt/crates.txt"
cat >"$room/tools/rt" <<'END'
#!/bin/sh
echo 'crate words: modules loaded=1 checked=1'
echo 'logic=proved functions=1'
echo 'crate stroll: modules loaded=1 checked=1'
echo 'logic=proved functions=1'
echo 'rt: running out/stroll; to give it other input, run that file yourself'
mkdir -p out
printf '#!/bin/sh\necho walked\n' >out/stroll
chmod +x out/stroll
END
chmod +x "$room/tools/rt"
for tool in sh tee touch mkdir chmod; do ln -s "$(command -v $tool)" "$room/tools/$tool"; done
holds "a kit that proves" 0 'walked\n' env PATH="$room/tools" "$room/unbuilt/stroll" "$sample" a
says "stroll: 1 of 2 crates"
says "stroll: 2 of 2 crates"
[ "$(grep -c crates "$room/said")" -eq 2 ] || { echo "stroll says more of crates"; cat "$room/said"; exit 1; }
holds "built already" 0 'walked\n' env PATH="$room/tools" "$room/unbuilt/stroll" "$sample" a
[ ! -s "$room/said" ] || { echo "stroll proves what it has proved"; exit 1; }
printf '#!/bin/sh\necho "rt: words NOT PROVED: it is not proved"\nexit 1\n' >"$room/tools/rt"
rm -r "$room/unbuilt/target" "$room/unbuilt/crates/stroll/out"
holds "a kit that refuses" 1 '' env PATH="$room/tools" "$room/unbuilt/stroll" "$sample" a
says "rt: words NOT PROVED"
says "the program was not built"

left=$(find "$room/tmp" "$room/folder" -mindepth 1)
[ -z "$left" ] || { echo "stroll left behind: $left"; exit 1; }
