#!/bin/sh
# Runs each example and compares what it prints, and its fault line, with the lines beside it, and its status: 0, or 1
# where the lines tell a fault or a refused plan. Those that are named check-.. go through `mhlink check`, those that are
# named plan-.. through `mhlink plan`, those that are named stress-.. through `mhlink stress`, all others through `mhlink run`.
here=$(cd "$(dirname "$0")" && pwd)
passed=0
failed=0
for script in "$here"/*.json; do
    lines=${script%.json}.lines
    case ${script##*/} in
    check-*) word=check ;;
    plan-*) word=plan ;;
    stress-*) word=stress ;;
    *) word=run ;;
    esac
    case $word:$(head -n 1 "$lines") in
    *:fault\ * | check:refused\ *) wanted=1 ;;
    *) wanted=0 ;;
    esac
    said=$("$here/../mhlink" "$word" <"$script" 2>&1; echo "status $?")
    if [ "$said" = "$(cat "$lines"; echo "status $wanted")" ]; then
        passed=$((passed + 1))
    else
        failed=$((failed + 1))
        echo "failed: $script"
    fi
done
echo "$passed passed, $failed failed"
[ "$failed" -eq 0 ]
