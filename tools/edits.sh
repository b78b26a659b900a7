#!/usr/bin/env bash
# Tries the further edits of a crate, which the gate leaves out, beside those of the gate: the prover must refuse each.
# usage: tools/edits.sh NAME [EDIT..]
set -euo pipefail

cd "$(dirname "$(readlink -f "$0")")/.."
name="${1:?usage: tools/edits.sh NAME [EDIT..]}"
shift
room="crates/$name/must-fail"
lent=()

give_back() {
    rm -f "${lent[@]}"
    rmdir --ignore-fail-on-non-empty "$room"
}

mkdir -p "$room"
trap give_back EXIT
for edit in "tools/edits/$name"/*.edit; do
    known="$(basename "$edit" .edit)"
    if [ "$#" -eq 0 ] || [[ " $* " == *" $known "* ]]; then
        cp -n "$edit" "$room/"
        lent+=("$room/$known.edit")
    fi
done
rt must-fail "$name"
