#!/usr/bin/env bash
# Holds the best response against trying every schedule, whole response by whole response, on many random tiny units: with
# windows, reserves, must-run and start costs that fall as well as rise. The tests of crates/test_whole do so for 460 of them.
#
#   tools/random_units.sh [-n TIMES] [-s SEED]
#
# TIMES times 460 units (22 if left out: 10,120). A copy of the crates is compiled and run unproved, in some minutes: in it
# crates/test_whole/src/random_units.rt has these numbers, since a test takes no words and reads no variable.
# Prints the test's line, and ends with 1 where one response differs.
set -u
cd "$(dirname "$0")/.." || exit 2
times=22 seed=54
while getopts n:s: option; do
    case $option in
        n) times=$OPTARG ;;
        s) seed=$OPTARG ;;
        *) exit 2 ;;
    esac
done
work=$(mktemp -d)
trap 'rm -rf "$work"' EXIT
tar -cf - --exclude=out crates.txt HANDLES crates | tar -C "$work" -xf - || exit 2
printf 'pub const SEED: u64 = %d;\npub const TIMES: u32 = %d;\n' "$seed" "$times" >"$work/crates/test_whole/src/random_units.rt" || exit 2
cd "$work/crates/test_whole" && rt try --test --steps 1 --seconds 3600 >"$work/said" 2>&1
grep -A3 'random_units_as_by_trying' "$work/said" || { tail -5 "$work/said"; exit 1; }
grep -q 'random_units_as_by_trying \.\.\. ok' "$work/said"
