#!/usr/bin/env bash
# Makes the release hull-VERSION-linux-x86_64.tar.gz of the commit that is checked out: the program, which needs no kit to run, with its
# documents, examples and tools.
#
#   tools/release.sh VERSION [FOLDER]
#
# VERSION is the newest that CHANGELOG.md has a heading for. The file is written to FOLDER, or here. Nothing is built: the program is the
# one in dist, which has to be made of this commit's sources. Made twice of one commit, on one machine, the file is the same to the byte.
set -u
export LC_ALL=C
unset CDPATH
# (in a hook these name another repository; the word is a list of names)
# shellcheck disable=SC2046
unset $(git rev-parse --local-env-vars) TAR_OPTIONS GZIP
home=$(cd -- "$(dirname -- "$(readlink -f -- "${BASH_SOURCE[0]}")")/.." && pwd)
# shellcheck source=tools/made_of.sh
. "$home/tools/made_of.sh"

# Of tools/ what works on the repository alone.
own='tools/(build|made_of|program|release|ship|random_units)\.sh|tools/tests/.*'

fail() {
    echo "release.sh: $1" >&2
    exit 1
}

# Refuses what can't be released as this version.
look() {
    [[ $version =~ ^[0-9]+(\.[0-9]+)+$ ]] || fail "usage: tools/release.sh VERSION [FOLDER]"
    grep -q "^## $version\b" "$home/CHANGELOG.md" || fail "CHANGELOG.md has no heading '## $version'"
    commit=$(git -C "$home" rev-parse HEAD) || fail "$home is no git repository"
    [ -z "$(git -C "$home" status --porcelain)" ] || fail "the files aren't those of a commit"
    is_shipped || fail "$lacks: .ci/run builds it, and tools/ship.sh puts it into dist"
    [ "$(noted "$ships" hull)" = "$version" ] || fail "dist has the program of '$(noted "$ships" hull)': tools/ship.sh puts this one there"
    [ "$(noted "$ships" kit)" = "$(kit_of_readme)" ] || fail "README.md names another kit than the program's, '$(noted "$ships" kit)'"
}

# Puts all that belongs to the release into the folder $1.
gather() {
    local names
    mapfile -d '' -t names < <(git -C "$home" ls-files -z README.md CHANGELOG.md LICENSE NOTICE hull docs examples tools workflow | grep -zvxE "$own")
    git -C "$home" -c core.autocrlf=false -c core.eol=lf -c core.attributesFile=/dev/null archive HEAD -- "${names[@]}" | tar -xm -C "$1" -f - || fail "the files can't be copied"
    { mkdir "$1/bin" && cp -- "$shipped" "$1/bin/hull"; } || fail "the program can't be copied"
    cat >"$1/VERSION" <<END
hull $version
kit $(noted "$ships" kit)
commit $commit
needs $(noted "$ships" needs)
END
    # shellcheck disable=SC2094 # the list itself isn't found
    (cd "$1" && find . -type f ! -name SHA256SUMS -print0 | sort -z | sed -z 's|^\./||' | xargs -0 sha256sum >SHA256SUMS) ||
        fail "the sums can't be written"
}

main() {
    local version=${1-} folder=${2-.} commit name part
    look
    name=hull-$version-linux-x86_64
    # (of the whole script, since it is removed when this call is over)
    room=$(mktemp -d) || fail "no folder can be made"
    trap 'rm -rf -- "$room"' EXIT
    mkdir -- "$room/$name"
    gather "$room/$name"
    { tar -C "$room" --format=gnu --sort=name --mtime="@$(git -C "$home" log -1 --format=%ct)" --owner=0 --group=0 --numeric-owner \
        --mode=u=rwX,go=rX --force-local -cf "$room/tar" "$name" && gzip -n -9 "$room/tar"; } || fail "the archive can't be written"
    # (a name that nobody could lay a link at before)
    part=$(mktemp -- "$folder/$name.XXXXXX" 2>/dev/null) || fail "$folder can't be written"
    { cp -- "$room/tar.gz" "$part" && chmod "$(umask -S)" "$part" && chmod a-x "$part" && mv -fT -- "$part" "$folder/$name.tar.gz"; } 2>/dev/null ||
        { rm -f -- "$part"; fail "$folder can't be written"; }
    (cd -- "$folder" && sha256sum "$name.tar.gz")
}

main "$@"
