#!/usr/bin/env bash
# Holds docs/picture.svg to what rust/picture draws of the sample plan, whose rules and cells are the library's; its own tests hold the forest that it
# unfolds, and what it marks there, to what the library of what was proved says. README shows it.
set -eu
cd "$(dirname "$0")/.."
room=$(mktemp -d)
trap 'rm -rf "$room"' EXIT
bash tests/library >"$room/log" 2>&1 || { cat "$room/log"; exit 1; }
export MEALPLAN_LIB="$PWD/target/staticlib"
on() { nice cargo "$1" --manifest-path rust/Cargo.toml --package picture --release --offline --locked --jobs 1 "${@:2}"; }
on test >"$room/log" 2>&1 || { cat "$room/log"; exit 1; }
grep -q '^test result: ok. 2 passed' "$room/log" || { cat "$room/log"; echo "picture: its tests were not run"; exit 1; }
on run --quiet >"$room/picture.svg"
cmp docs/picture.svg "$room/picture.svg" || { echo "picture: docs/picture.svg is another; rust/README.md says how to draw it"; exit 1; }
python3 -c 'import sys, xml.dom.minidom as xml; xml.parse(sys.argv[1])' docs/picture.svg
grep -qF '](docs/picture.svg)' README.md || { echo "picture: README doesn't show it"; exit 1; }
echo "picture: docs/picture.svg as it is drawn"
