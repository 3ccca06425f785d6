#!/bin/sh
# Proves the library for C, links check_file with it and holds what it prints to what is expected.
set -eu

here=$(cd "$(dirname "$0")" && pwd)
root=$(cd "$here/.." && pwd)
(cd "$root/crates/panel" && rt lib)

made=$(mktemp -d)
trap 'rm -rf "$made"' EXIT
${CC:-cc} -std=c99 -Wall -Wextra -O2 -I "$here" -o "$made/check_file" "$here/check_file.c" "$root/crates/panel/out/libpanel.a"
cd "$made"

alike=0
not=0

# compare EXPECTED GIVEN
compare() {
    if [ "$1" = "$2" ]; then
        alike=$((alike + 1))
    else
        not=$((not + 1))
        printf 'expected: %s\ngiven:    %s\n' "$1" "$2"
    fi
}

# given WORD..: what check_file prints, then its status
given() {
    status=0
    line=$(./check_file "$@" 2>&1) || status=$?
    printf '%s, status %s' "$line" "$status"
}

# good DEPTH FILE
good() {
    compare "$2: a map of depth $1, status 0" "$(given "$1" "$2")"
}

# bad DEPTH FILE NUMBER
bad() {
    compare "$2: refused $3, status 1" "$(given "$1" "$2")"
}

# bytes COUNT OCTAL: the byte COUNT times
bytes() {
    n=$1
    while [ "$n" -gt 0 ]; do
        printf "\\$2"
        n=$((n - 1))
    done
}

# 0 to 6 free, at depth 2: 03 00 55 15
printf '\003\000\125\025' > seven.body
good 2 seven.body
# at depth 1 a voxel is divided; at depth 3 the same bytes say it of larger cubes
bad 1 seven.body 10
good 3 seven.body
for depth in 0 6 7 255; do
    bad "$depth" seven.body 1
done

# the root may have eight children alike
for state in 000 125 252; do
    bytes 2 "$state" > whole.body
    for depth in 1 2 3 4 5; do
        good "$depth" whole.body
    done
done

# 9
: > none.body
printf '\003' > half.body
printf '\003\000' > root.body
printf '\003\000\125' > torn.body
for name in none half; do
    for depth in 1 2 3 4 5; do
        bad "$depth" "$name.body" 9
    done
done
bad 0 none.body 1
bad 2 root.body 9
bad 2 torn.body 9
# 10, before 11 and before the missing pairs
bad 1 root.body 10
printf '\003\000\003\000' > deep.body
bad 2 deep.body 10
bad 3 deep.body 9
bytes 4 377 > full.body
bad 1 full.body 10
bad 2 full.body 10
bad 3 full.body 9
# 11
for state in 000 125 252; do
    { printf '\003\000'; bytes 2 "$state"; } > alike.body
    bad 2 alike.body 11
    bad 5 alike.body 11
done
# the first wrong pair decides
printf '\017\000\125\125\003\000' > first.body
bad 2 first.body 11
# 12
printf '\001\000\000' > one.body
printf '\003\000\125\025\000\000' > two.body
bad 2 one.body 12
bad 5 one.body 12
bad 2 two.body 12
bad 1 two.body 10

# every cube divided, down to voxels of two states by turns: no body is longer
level=1
printf '\226\151' > turns.body
while [ "$level" -lt 5 ]; do
    good "$level" turns.body
    { bytes 2 377; for k in 1 2 3 4 5 6 7 8; do cat turns.body; done; } > next.body
    mv next.body turns.body
    level=$((level + 1))
done
good 5 turns.body
compare 9362 "$(($(wc -c < turns.body)))"
bad 4 turns.body 10
{ cat turns.body; printf '\000'; } > longer.body
bad 5 longer.body 12
head -c 9361 turns.body > shorter.body
bad 5 shorter.body 9
# longer than what is read at once
bytes 2 125 > zeros.body
head -c 40000 /dev/zero >> zeros.body
bad 3 zeros.body 12

# words that are wrong, and files that cannot be read
usage='usage: check_file DEPTH FILE, status 2'
compare "$usage" "$(given)"
compare "$usage" "$(given 2)"
compare "$usage" "$(given 2 seven.body seven.body)"
for depth in '' x -1 +2 2x 256 4294967298; do
    compare "$usage" "$(given "$depth" seven.body)"
done
compare 'check_file: cannot read absent.body, status 2' "$(given 2 absent.body)"
mkdir folder.body
compare 'check_file: cannot read folder.body, status 2' "$(given 2 folder.body)"

echo "$alike alike, $not not"
[ "$not" -eq 0 ]
