#!/bin/sh
# Compares the bodies that OctoMap makes of random cubes with those of the model, and with -p of the program too.
#
#     run.sh [-p] [COUNT [SEED]]
#
# It needs g++ and liboctomap-dev. GELTZORI names another program than crates/geltzori/out/geltzori.
set -eu

here=$(cd "$(dirname "$0")" && pwd)
root=$(cd "$here/../.." && pwd)
program=
if [ "${1-}" = -p ]; then
    shift
    program=${GELTZORI:-$root/crates/geltzori/out/geltzori}
    if [ ! -x "$program" ]; then
        echo "run.sh: no program $program" >&2
        exit 2
    fi
fi

made=$(mktemp -d)
trap 'rm -rf "$made"' EXIT
# without NDEBUG the headers of OctoMap print what they do
g++ -std=c++17 -O2 -Wall -Wextra -DNDEBUG -o "$made/judge" "$here/judge.cpp" -loctomap -loctomath
"$made/judge" "${1:-1000}" "${2:-1}" > "$made/cubes"
python3 "$here/compare.py" ${program:+"$program"} < "$made/cubes"
