# Read by ../check and ../.ci/run, at the top of the repository: steps that are counted, and the tests, which need no proof.
passed=0 failed=0
said=$(mktemp) failures=$(mktemp)

# Runs a command whose last line is 'N passed, M failed', adds its counts, and prints its seconds by the clock. A command that
# fails counts as one failure at least.
step() {
    local status began=$EPOCHSECONDS
    echo "== $*"
    "$@" 2>&1 | tee "$said"
    status=${PIPESTATUS[0]}
    judge "$*" "$status" "$((EPOCHSECONDS - began))"
    return "$status"
}

# Adds the counts of a command, given its status and its seconds, whose lines are in $said.
judge() {
    local last before=$failed
    printf '== %s: %d seconds\n' "$1" "$3"
    last=$(tail -n 1 "$said")
    if [[ $last =~ ^([0-9]+)\ passed,\ ([0-9]+)\ failed$ ]]; then
        passed=$((passed + BASH_REMATCH[1])) failed=$((failed + BASH_REMATCH[2]))
        [[ $2 -eq 0 || ${BASH_REMATCH[2]} -ne 0 ]] || failed=$((failed + 1))
    else
        failed=$((failed + 1))
    fi
    [[ $failed -eq $before ]] || { echo "== $1" && tail -n 40 "$said"; } >>"$failures"
}

# Runs commands at the same time, each a string of words without quotes, and then prints and counts each in order, as `step` does.
together() {
    local room number=0 command status seconds runs=()
    room=$(mktemp -d)
    for command in "$@"; do
        run_into "$room/$number" $command &
        runs+=($!) number=$((number + 1))
    done
    wait "${runs[@]}"
    number=0
    for command in "$@"; do
        echo "== $command"
        cp "$room/$number" "$said" && cat "$said"
        read -r status seconds <"$room/$number.ended"
        judge "$command" "$status" "$seconds"
        number=$((number + 1))
    done
    rm -rf "$room"
}

# Runs a command into a file, and writes its status and its seconds into another.
run_into() {
    local into=$1 status began=$EPOCHSECONDS
    shift
    "$@" >"$into" 2>&1 </dev/null
    status=$?
    echo "$status $((EPOCHSECONDS - began))" >"$into.ended"
}

# Tests a program, also as the kit's second compiler built it if that is there, and the library for C under a prefix.
tests_of() {
    [ ! -x "$1.by-rattle" ] || PROGRAM=$1.by-rattle step tools/try_table
    export PROGRAM=$1
    together tools/try_table tools/fail_streams tools/refuse_growth examples/run.sh examples/profiles/run.sh tools/try_sweep \
        "tools/try_c $2" "tools/try_lua $2" "tools/try_rust $2"
}

# Checks the documents against the code.
checks_of_documents() {
    together tools/check_documents tools/check_believe tools/check_schema tools/check_share tools/check_abi tools/check_pictures \
        "tools/calling --check" "tools/definitions_page --check" "tools/words --check"
}

tell() {
    cat "$failures"
    rm -f "$said" "$failures"
    echo "$passed passed, $failed failed"
    [[ $failed -eq 0 ]]
}
