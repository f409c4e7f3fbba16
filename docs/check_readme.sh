#!/usr/bin/env bash
# Runs the commands of README.md in a fresh clone, at a terminal with no input waiting: each ends by itself, and writes what README shows.
#
#     docs/check_readme.sh          those that prove nothing, in about a minute
#     docs/check_readme.sh --all    `rt run` and `rt ci` too, in an hour and a half
set -euo pipefail
docs="$(cd "$(dirname "${BASH_SOURCE[0]}")" && pwd)"
scratch="$(mktemp -d)"
trap 'rm -rf "$scratch"' EXIT
git clone -q "$docs/.." "$scratch/clone"
python3 "$docs/check_readme.py" "$scratch/clone" "$@"
