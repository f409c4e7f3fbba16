#!/usr/bin/env bash
# Changes one word of a definition at a time, and of the code that does the same, and shows which row or test refuses it.
# The changes stand in definition_changes.txt. Nothing in the repository is written: all of it happens in a temporary folder.
#
#     docs/check_definitions.sh                 all changes; the last line is 'N of N refused'
#     docs/check_definitions.sh --jobs 2        two at a time (else as many as there are processors)
#     docs/check_definitions.sh --only void     those whose section or description has this word
#     docs/check_definitions.sh --rows          the rows alone, and with --tests the tests alone
#     docs/check_definitions.sh --read          sees only that each change can still be made, and that what is named is there
#     docs/check_definitions.sh --table         prints the result as docs/definition_refusals.txt has it
set -euo pipefail
docs="$(cd "$(dirname "${BASH_SOURCE[0]}")" && pwd)"
scratch="$(mktemp -d)"
trap 'rm -rf "$scratch"' EXIT
python3 "$docs/check_definitions.py" "$(dirname "$docs")" "$docs/definition_changes.txt" "$scratch" "$@"
