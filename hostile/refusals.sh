#!/bin/sh
# Refuses each request for memory in turn: of every scenario of crates/test_refusals, of lol_match over two scripts of examples/, and of
# zugrenja over a page.
#
# Run it at the top of the repository; it wants a C compiler (cc) and glibc, and the three programs, which `rt ci` leaves.
#
# One run refuses one request, the first, the second, and so on until a run meets none. It is told for each scenario how many of them were
#   refused: out of memory was answered, what has to stand stood, and the same call with memory answered exactly;
#   done without: the answer was exact all the same (an arena that takes a smaller chunk, a limit that is met too);
#   own: the scenario asked for the memory itself, before or after its calls.
# It ends with 1 where an answer or a state was wrong.
set -u
refusals=crates/test_refusals/out/test_refusals
match=crates/lol_match/out/lol_match
zugrenja=crates/zugrenja/out/zugrenja
for program in "$refusals" "$match" "$zugrenja"; do
    [ -x "$program" ] || { echo "$program isn't built" >&2; exit 2; }
done
folder=$(mktemp -d)
trap 'rm -r "$folder"' EXIT
cc -shared -fPIC -O2 -o "$folder/refuse.so" hostile/refuse.c || exit 2
wrong=0

# run NUMBER INPUT PROGRAM [ARGUMENT..]: the program with that request refused. Sets status and count.
run() {
    refused_at=$1
    input=$2
    shift 2
    REFUSE_AT=$refused_at REFUSE_COUNT=$folder/count LD_PRELOAD=$folder/refuse.so "$@" < "$input" > "$folder/output" 2> "$folder/errors"
    status=$?
    count=$(cat "$folder/count")
}

complain() {
    echo "$1: request $2: status $3"
    wrong=1
}

# The scenario that the file $folder/name names.
scenario() {
    refused=0
    without=0
    own=0
    number=1
    run "$number" "$folder/name" "$refusals"
    while [ "$count" -ge "$number" ]; do
        case $status in
            0) without=$((without + 1)) ;;
            3) refused=$((refused + 1)) ;;
            5) own=$((own + 1)) ;;
            *) complain "$1" "$number" "$status" ;;
        esac
        number=$((number + 1))
        run "$number" "$folder/name" "$refusals"
    done
    [ "$status" -eq 0 ] || complain "$1" "none" "$status"
    echo "$1: $refused refused, $without done without, $own own"
}

# A script: its run is out of memory with nothing written, or as it is without a refusal.
script() {
    run 0 "$1" "$match"
    cp "$folder/output" "$folder/whole"
    ended=$status
    refused=0
    without=0
    number=1
    run "$number" "$1" "$match"
    while [ "$count" -ge "$number" ]; do
        if [ "$status" -eq 3 ] && [ ! -s "$folder/output" ] && [ "$(cat "$folder/errors")" = "lol_match: out of memory" ]; then
            refused=$((refused + 1))
        elif [ "$status" -eq "$ended" ] && cmp -s "$folder/output" "$folder/whole"; then
            without=$((without + 1))
        else
            complain "$1" "$number" "$status"
        fi
        number=$((number + 1))
        run "$number" "$1" "$match"
    done
    echo "$1: $refused refused, $without done without"
}

# A page, and then zugrenja's arguments: memory is out and what is written is a beginning of the whole, or it is as without a refusal.
page() {
    page=$1
    shift
    run 0 "$page" "$zugrenja" "$@"
    cp "$folder/output" "$folder/whole"
    ended=$status
    refused=0
    without=0
    number=1
    run "$number" "$page" "$zugrenja" "$@"
    while [ "$count" -ge "$number" ]; do
        if [ "$status" -eq 2 ] && grep -q 'out of memory$' "$folder/errors" \
            && head -c "$(wc -c < "$folder/output")" "$folder/whole" | cmp -s - "$folder/output"; then
            refused=$((refused + 1))
        elif [ "$status" -eq "$ended" ] && cmp -s "$folder/output" "$folder/whole"; then
            without=$((without + 1))
        else
            complain "$page" "$number" "$status"
        fi
        number=$((number + 1))
        run "$number" "$page" "$zugrenja" "$@"
    done
    echo "$page: $refused refused, $without done without"
}

: > "$folder/all"
run 0 "$folder/all" "$refusals"
[ "$status" -eq 0 ] || complain "all scenarios" "none" "$status"
cut -d: -f1 "$folder/output" > "$folder/names"
while read -r name; do
    echo "$name" > "$folder/name"
    scenario "$name"
done < "$folder/names"
for example in examples/div_p.txt examples/page.txt; do
    script "$example"
done
page examples/page.html 'main a[href]' 'li:nth-child(2)' '.new'
exit $wrong
