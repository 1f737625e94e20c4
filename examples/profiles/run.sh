#!/bin/sh
# Turns the small logs here into profiles, and compares these with the lines beside them, which were worked out by hand from
# what the tools say of themselves (tools/from_hotspot --help, tools/from_v8 --help). Plans shop.jsonl, whose lines were worked
# out by hand too, and the three profiles of VMs, whose greatest worth the solver of LEMON found, and checks each plan that comes
# and that of shop-with-plan.jsonl. The last line is the sum.
cd "$(dirname "$0")" || exit 1
passed=0
failed=0

# case_of FILE WORD..: what the tool writes for these words is what stands in FILE.
case_of() {
    wanted=$1
    shift
    if [ "$("$@" 2>&1)" = "$(cat "$wanted")" ]; then
        passed=$((passed + 1))
    else
        failed=$((failed + 1))
        echo "failed: $*"
    fi
}

case_of hotspot-path.jsonl ../../tools/from_hotspot hotspot-small.log
case_of hotspot-site.jsonl ../../tools/from_hotspot --by site hotspot-small.log
case_of hotspot-method.jsonl ../../tools/from_hotspot --by method hotspot-small.log
case_of hotspot-two-runs.jsonl ../../tools/from_hotspot --virtual 3 --interface 1 --scale 0.5 hotspot-small.log hotspot-other.log
case_of hotspot-unbroken.lines sh -c 'grep -v dependency_failed hotspot-small.log | ../../tools/from_hotspot /dev/stdin'
case_of v8-site.jsonl ../../tools/from_v8 v8-small.log v8-small
case_of v8-site.jsonl ../../tools/from_v8 v8-small.log v8-small/coverage-1-1-0.json
case_of v8-function.jsonl ../../tools/from_v8 --by function --even --optimise 28 --scale 0.5 v8-small.log v8-small

# worth_of FILE VALUE: the best plan of a packed profile has this value.
worth_of() {
    if [ "$(xz -dc "$1.jsonl.xz" | ../../mhlink profile --workers 2 | sed -n '1s/.* value //p')" = "$2" ]; then
        passed=$((passed + 1))
    else
        failed=$((failed + 1))
        echo "failed: the plan of $1"
    fi
}

# checked FILE WORD..: the plan of a profile, which the words print from the file, is accepted behind it.
checked() {
    file=$1
    shift
    export plan
    plan=$("$@" "$file" | ../../mhlink profile --certificate --workers 2 | tail -1)
    case_of accepted.lines sh -c '{ "$@"; echo "$plan"; } | ../../mhlink check --profile' sh "$@" "$file"
}

case_of shop.lines sh -c '../../mhlink profile <shop.jsonl'
case_of accepted.lines sh -c '../../mhlink check --profile <shop-with-plan.jsonl'
checked shop.jsonl cat
worth_of javadoc17.nmethod 1524257322
worth_of javadoc17.site 2184823691
worth_of tsc.function 120286223
checked javadoc17.nmethod.jsonl.xz xz -dc
checked javadoc17.site.jsonl.xz xz -dc
checked tsc.function.jsonl.xz xz -dc
echo "$passed passed, $failed failed"
[ "$failed" -eq 0 ]
