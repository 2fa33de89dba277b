#!/usr/bin/env bash
# Holds the figures of README and docs/TRUST.md on what has to be believed to what tests/believed.py counts.
set -eu
cd "$(dirname "$0")/.."
sums=$(python3 tests/believed.py --sums)
# The first sum as it stands, the others added up; thousands parted by a comma.
stated=$(awk '
    function parted(n) { return n < 1000 ? n : int(n / 1000) sprintf(",%03d", n % 1000) }
    NR == 1 { printf "%s lines of definitions, with %s of comments and %s that say nothing", parted($1), parted($2), parted($3) }
    NR > 1 { d += $1; c += $2; s += $3 }
    END { printf "\n%s more, with %s and %s\n", parted(d), parted(c), parted(s) }' <<<"$sums")
while IFS= read -r words; do
    for file in README.md docs/TRUST.md; do
        tr '\n' ' ' <"$file" | grep -qF -- "$words" || { echo "believed: $file doesn't say '$words'"; exit 1; }
    done
done <<<"$stated"
echo "believed: README and TRUST say ${stated/$'\n'/; }"
