#!/usr/bin/env bash
# Every example of README.md, rust/README.md and docs/ runs. A block of four blanks that begins with a dollar sign is a transcript: each command in it
# is run in a folder with samples/, and must show what stands below it. Any other line of four blanks in the two READMEs is a command with a comment
# behind it: it is run from the root, after those before it, and must end well. Three of them aren't run here: the gate, which runs this; the trials,
# which are one of its tests; and ./release, which tests/two_builds.sh runs. The Rust of rust/README.md is that of a file that runs.
set -eu
cd "$(dirname "$0")/.."
root=$PWD
room=$(mktemp -d)
trap 'rm -rf "$room"' EXIT
export MEALPLAN_LIB="$root/target/staticlib" CARGO_NET_OFFLINE=true CARGO_BUILD_JOBS=1

fail() {
    echo "examples: $1"
    exit 1
}

done_well() { "$@" >"$room/log" 2>&1 || { cat "$room/log"; fail "$* failed"; }; }

# Commands with a comment.
lines=0
for document in README.md rust/README.md; do
    sed -n 's/^    \([^ $#].*[^ ]\)  *# .*/\1/p' "$document" >"$room/commands"
    echo 'set -eux' >"$room/script"
    while IFS= read -r command; do
        lines=$((lines + 1))
        case $command in
        .ci/run | ./release | "bash ../tests/rust.sh") ;;
        *) printf '%s\n' "$command" >>"$room/script" ;;
        esac
    done <"$room/commands"
    done_well nice bash "$room/script"
done
[ "$lines" -ge 10 ] || fail "only $lines commands were found"

# The walk in Rust: as it stands in its file, which runs.
awk '/^```rust$/ { inside = 1; next } /^```$/ { inside = 0 } inside { print "    " $0 }' rust/README.md >"$room/walk"
[ "$(wc -l <"$room/walk")" -ge 5 ] || fail "rust/README.md has no walk"
sed -n '/^fn main/,/^    Ok(())/p' rust/mealplan/examples/walk.rs | sed '1d;$d' >"$room/lines"
diff "$room/lines" "$room/walk" || fail "rust/README.md has another walk than its file"
done_well cargo run --manifest-path rust/Cargo.toml --release --example walk

# Transcripts: a file each for the commands and what they must show, one after another as they stand in the document.
mkdir "$room/bin" "$room/at"
cp rust/target/release/mealplan "$room/bin"
gcc -std=c99 -O1 -Iinclude -o "$room/bin/copy" examples/copy.c target/staticlib/libmealplan.a
ln -s "$root/samples" "$room/at/samples"
transcripts=0
for document in README.md rust/README.md docs/*.md; do
    rm -f "$room"/transcript*
    awk -v room="$room" '
        /^    \$ / { if (!block) block = room "/transcript" sprintf("%03d", ++n); print substr($0, 5) >block; next }
        /^    / && block { print substr($0, 5) >block; next }
        { block = "" }' "$document"
    for transcript in "$room"/transcript*; do
        [ -e "$transcript" ] || continue
        transcripts=$((transcripts + 1))
        sed -n 's/^\$ //p' "$transcript" >"$room/commands"
        : >"$room/shown"
        while IFS= read -r command; do
            printf '$ %s\n' "$command" >>"$room/shown"
            (cd "$room/at" && PATH=$room/bin:$PATH bash -c "$command") >>"$room/shown" 2>&1 </dev/null || true
        done <"$room/commands"
        diff "$transcript" "$room/shown" || fail "$document: this transcript shows something else"
    done
done
[ "$transcripts" -ge 9 ] || fail "only $transcripts transcripts were found"
echo "examples: $lines commands, and $transcripts transcripts as they stand there"
