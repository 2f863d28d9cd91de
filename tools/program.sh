#!/usr/bin/env bash
# Prints where the program lies that is made of what is there: that which was built here, or else the one in dist. Builds nothing.
set -u
unset CDPATH
home=$(cd -- "$(dirname -- "$(readlink -f -- "${BASH_SOURCE[0]}")")/.." && pwd)
# shellcheck source=tools/made_of.sh
. "$home/tools/made_of.sh"
find_program || { echo "program.sh: ${lacks}" >&2 && exit 1; }
printf '%s\n' "$program"
