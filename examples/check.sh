#!/usr/bin/env bash
# Passes the tests of what reads pages, and compares the examples with what they are made from: page.txt with the tags of page.html, filters.txt
# with what filters.py writes.
# lol_match, as each compiler built it, has to answer each script as the file beside it says: those of a page, of a line that can't be read
# and of a limit that is exceeded, and filters.txt, whose answer is the model's. `rt ci` builds both; in CI they have to be there.
set -euo pipefail
cd "$(dirname "${BASH_SOURCE[0]}")"
python3 ../bindings/python/page_tests.py
mapfile -t selectors < <(sed -n 's/^select\t[0-9]*\t//p' page.txt)
python3 tags.py "${selectors[@]}" < page.html | cmp - page.txt
python3 filters.py | cmp - filters.txt
cmp div_p.txt ../crates/lol_match/stdin
cmp div_p.out ../crates/lol_match/stdout
echo "the examples are what they are made from"

# PROGRAM NAME STATUS: the program answers NAME.txt by NAME.out, and ends with this status
answers() {
    local status=0
    "$1" < "$2.txt" 2> /dev/null > "$answer" || status=$?
    cmp "$answer" "$2.out"
    [ "$status" = "$3" ] || { echo "$1 ends with $status on $2.txt, not with $3"; exit 1; }
}
answer=$(mktemp)
trap 'rm -f "$answer"' EXIT
for program in ../crates/lol_match/out/lol_match ../crates/lol_match/out/lol_match.by-rattle; do
    if [ ! -x "$program" ]; then
        echo "$(basename "$program") isn't built: its runs are left out"
        [ "${CI:-}" != true ]
        continue
    fi
    answers "$program" page 0
    answers "$program" refusals/bad_line 2
    answers "$program" refusals/refused 3
    answers "$program" filters 0
    echo "$(basename "$program") answers four scripts"
done
