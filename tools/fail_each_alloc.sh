#!/bin/bash
# fail_each_alloc.sh PROGRAM APP POLICY: runs `virt` with each allocation failing in turn, and prints how often each status came. Want of
# memory has to put nothing and to leave OUT as it was; each run in which it does not, and each other status, is named.
here=$(cd "$(dirname "$0")" && pwd)
work=$(mktemp -d)
trap 'rm -r "$work"' EXIT
cc -shared -fPIC -O1 -o "$work/fail.so" "$here/failing_malloc.c" -ldl || exit 1
run() { LD_PRELOAD="$work/fail.so" timeout 20 "$1" virt "$2" -p "$3" -o "$work/out"; }
total=$(COUNT=1 run "$1" "$2" "$3" 2>&1 >/dev/null | tail -1)
for number in $(seq 1 "$total"); do
    printf before >"$work/out"
    text=$(FAIL_AT=$number run "$1" "$2" "$3" 2>"$work/err")
    status=$?
    echo "$status"
    [ $status = 6 ] && [ -z "$text" ] && [ "$(cat "$work/out")" = before ] && continue
    echo "$number of $total: status $status $text" >&2
done | sort | uniq -c
