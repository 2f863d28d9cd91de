#!/usr/bin/env bash
# Puts the program that was built here into dist/linux-x86_64, where the launcher takes it from who has no kit, with a text that says what it
# is made of.
#
#   tools/ship.sh           once before a landing that changes the program, after .ci/run; the two files are then committed
#   tools/ship.sh --check   says whether dist holds the program that was built here, byte for byte, and its text
#
# Nothing is built: the program has to be made of what is there, as .ci/run leaves it. dist names the kit by which it was shipped, which is
# that of README.md. Another kit that builds the same bytes confirms them: --check says so, and ends well.
set -u
export LC_ALL=C
unset CDPATH
home=$(cd -- "$(dirname -- "$(readlink -f -- "${BASH_SOURCE[0]}")")/.." && pwd)
# shellcheck source=tools/made_of.sh
. "$home/tools/made_of.sh"

# What the compiler is told of the processor ('x86-64-v2' has SSE4.2 and POPCNT, as every one since 2009 or so).
processor=x86-64-v2

fail() {
    echo "ship.sh: $1" >&2
    exit 1
}

# The text beside the program, where the kit $1 has made it: what `noted` reads, and its own sum.
text_of_program() {
    local glibc text
    glibc=$(grep -ao 'GLIBC_[0-9][0-9.]*' "$built" | sort -Vu | tail -n 1)
    text="hull $(version_of_changelog)
kit $1
sources $(sum_of_sources)
program $(sum <"$built")
needs Linux on $processor with glibc ${glibc#GLIBC_} or later"
    printf '%s\n' "$text" "text $(sum <<<"$text")"
}

main() {
    local named kit text
    { is_current && [ -e "$made_of" ]; } || fail "$built isn't there, or isn't made of the files that are: .ci/run builds it"
    named=$(kit_of_readme)
    kit=$(noted "$made_of" kit)
    text=$(text_of_program "$named")
    case "$*" in
        "")
            [ "$kit" = "$named" ] || fail "README.md names another kit than the program's, '$kit'"
            { mkdir -p "${shipped%/*}" && cp -- "$built" "$shipped.part" && chmod 755 "$shipped.part" && mv -f "$shipped.part" "$shipped" &&
                printf '%s\n' "$text" >"$ships.part" && mv -f "$ships.part" "$ships"; } || fail "${shipped%/*} can't be written"
            ;;
        --check)
            { [ -x "$shipped" ] && cmp -s "$built" "$shipped" && [ "$text" = "$(cat "$ships" 2>/dev/null)" ]; } ||
                fail "dist doesn't hold the program of these sources: run tools/ship.sh, and commit dist"
            [ "$kit" = "$named" ] || echo "ship.sh: dist was made by '$named', and '$kit' builds the same bytes"
            ;;
        *) fail "usage: tools/ship.sh [--check]" ;;
    esac
}

main "$@"
