#!/bin/sh
# differential.sh PLACE SECOND GENERATE [COUNT [SEED]]
#
# Runs the programs PLACE and SECOND on COUNT inputs of GENERATE and compares
# every byte that they print; both must end with status 0. One line at the
# end. The first difference ends the run with status 1, and its input is kept.

if [ $# -lt 3 ] || [ $# -gt 5 ]; then
    echo "usage: differential.sh PLACE SECOND GENERATE [COUNT [SEED]]" >&2
    exit 1
fi
place=$1
second=$2
generate=$3
count=${4:-4000}
seed=${5:-1}

work=$(mktemp -d) || exit 1
trap 'rm -rf "$work"; exit 1' HUP INT TERM

# Keeps the input at hand, and only that.
fail() {
    find "$work" -type f ! -name "$number.*" -exec rm -f {} +
    echo "differential.sh: $1: $work/$number.input" >&2
    exit 1
}

# How many lines of the lists match.
lines() {
    find "$work" -name '*.second' -exec cat {} + | grep -c "$1"
}

if ! "$generate" "$seed" "$count" "$work"; then
    rm -rf "$work"
    exit 1
fi

number=0
while [ "$number" -lt "$count" ]; do
    at=$work/$number
    "$place" <"$at.input" >"$at.place" || fail "$place ends with status $?"
    "$second" <"$at.input" >"$at.second" || fail "$second ends with status $?"
    cmp -s "$at.place" "$at.second" || fail "the lists differ"
    number=$((number + 1))
done

echo "$count inputs: $(lines '^book refused') book refused," \
    "$(lines '^track refused') track refused," \
    "$(lines '^[0-9]') mark lines," \
    "$(lines '^[0-9].* place ') placed," \
    "$(lines '^[0-9].* refused 14 ') unlawful, all equal"
rm -rf "$work"
