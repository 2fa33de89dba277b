#!/usr/bin/env bash
# The names, files, paths and must-fail edits that the documents tell of are those of the sources: tests/names.py says how.
set -eu
python3 "$(dirname "$0")/names.py"
