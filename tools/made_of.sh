# shellcheck shell=bash disable=SC2034,SC2154 # $home is the reader's, and what is found is for it
# What the program is made of, and which of two programs is made of what is there. Read by hull, tools/*.sh and .ci/run, which set $home to
# the top of the repository. It takes bash and the coreutils, but for what the gate left without a note.
#
# One program, $built, was built here. The other, $shipped, came with the repository. A text beside each says by which kit and of which
# sources it was made, and what the program's sum is (`kit`, `sources`, `program`). Sources are the rows of crates.txt of the crates that
# the program is made of, and what lies in their src, specs and proofs: the launcher's own files aren't among them.
#
# To read all that takes a tenth of a second. So it is noted too how the files looked: inode, size, and time of the last change of contents
# or name, which nobody can set back (`seen`, `placed`, `rt`). Where they look so still, nothing is read.

out=$home/crates/hull_cli/out
built=$out/hull_cli
made_of=$built.made_of
shipped=$home/dist/linux-x86_64/hull
ships=$shipped.txt
looked=$out/shipped.looks

# Prints the sum of standard input.
sum() {
    local line
    line=$(sha256sum) && echo "${line%% *}"
}

# Prints the rest of the line of the file $1 that begins with $2.
noted() {
    local word rest
    while read -r word rest; do
        [ "$word" != "$2" ] || { echo "$rest"; return; }
    done <"$1"
} 2>/dev/null

# Adds to $crates the crate $1 behind those that it stands on, and to $rows its row.
visit() {
    local row=${row_of[$1]-} below
    [ -n "$row" ] || return 0
    unset "row_of[$1]"
    for below in ${row#*:}; do
        visit "$below"
    done
    crates+=("$1") rows+=$row$'\n'
}

# Sets $crates to the crates that the program is made of, those that stand on nothing else first, and $rows to their rows of crates.txt.
read_crates() {
    local -A row_of=()
    local line words
    while read -r line || [ -n "$line" ]; do
        # (one blank between two words)
        read -ra words <<<"${line%%#*}"
        [[ ${words[*]} != *:* ]] || row_of[${words[0]%%:*}]=${words[*]}
    done <"$home/crates.txt"
    crates=() rows=""
    visit hull_cli
} 2>/dev/null

# Sets $names to the files and folders in which the sources of $crates lie, as names from $home. For a shell of its own, which reads patterns
# so from then on.
list_sources() {
    local crate
    unset GLOBIGNORE
    LC_ALL=C
    set +f
    shopt -s globstar dotglob nullglob
    shopt -u failglob nocaseglob
    cd -- "$home/" || return
    names=()
    for crate in "${crates[@]}"; do
        names+=("crates/$crate"/{src,specs,proofs}/**)
    done
}

# A sum of how the files $@ look.
looks_of() {
    stat -L -c '%n %i %s %.9Z' -- "$@" 2>/dev/null | sum
}

# A sum of how the sources look. (With their folders: an editor may touch one, and then they are read.)
looks_of_sources() (
    read_crates && list_sources && looks_of crates.txt "${names[@]}"
)

# A sum of the names and contents of the sources.
sum_of_sources() (
    read_crates && list_sources || exit
    files=()
    for name in "${names[@]}"; do
        [ ! -f "$name" ] || files+=("$name")
    done
    { printf '%s' "$rows" && sha256sum -- "${files[@]}"; } 2>/dev/null </dev/null | sum
)

# How the kit's command and its line look, where `rt` is on the path.
looks_of_kit() {
    local rt
    rt=$(readlink -f -- "$(command -v rt)") && [ -n "$rt" ] && looks_of "$rt" "${rt%/*/*}/KIT-ID"
}

# The kit's line that README.md names.
kit_of_readme() {
    # shellcheck disable=SC2016 # the quotes are those of the page
    sed -n 's/.*\(rattle-kit-[^`]*\)`.*/\1/p;T;q' "$home/README.md" 2>/dev/null
}

# The newest version that CHANGELOG.md has a heading for.
version_of_changelog() {
    sed -n 's/^## \([0-9][0-9.]*\).*/\1/p;T;q' "$home/CHANGELOG.md" 2>/dev/null
}

# What a program that is built now is made of, in the first lines of made_of. To be taken before it is built.
what_is_there() {
    echo "seen $(looks_of_sources)"
    echo "kit $(rt version 2>/dev/null)"
    echo "sources $(sum_of_sources)"
}

# Notes beside the program that it was made of $1, which what_is_there said before it was built. Where files have changed since, the
# program may be made of what they were in between: then it is noted as one that is made of nothing.
note_what_it_is_made_of() {
    local text=$1 status=0
    if [ "seen $(looks_of_sources)" != "${text%%$'\n'*}" ]; then
        text=${text%%$'\n'sources *}$'\n'"sources changed"
        status=1
    fi
    printf '%s\n' "$text" "program $(sum <"$built")" "placed $(looks_of "$built")" "rt $(looks_of_kit || noted "$made_of" rt)" >"$made_of.$$" &&
        mv -f "$made_of.$$" "$made_of" && return "$status"
    rm -f "$made_of.$$"
    return 2
} 2>/dev/null

# Whether the program looks as it did when it was noted what it is made of, and so does all that it is made of, and the kit.
looks_current() {
    local rt
    [ "$(noted "$made_of" seen)" = "$(looks_of_sources)" ] && [ "$(noted "$made_of" placed)" = "$(looks_of "$built")" ] || return 1
    rt=$(looks_of_kit) || return 0
    [ "$(noted "$made_of" rt)" = "$rt" ]
}

# Whether the program is the one that was noted, of the same contents and by the same kit, however they look; notes how they look.
holds_current() {
    local text kit
    kit=$(noted "$made_of" kit)
    text=$(what_is_there)
    [ "sources $(noted "$made_of" sources)" = "${text##*$'\n'}" ] || return 1
    ! command -v rt >/dev/null || [[ $text == *$'\n'"kit $kit"$'\n'* ]] || return 1
    [ "$(noted "$made_of" program)" = "$(sum <"$built")" ] || return 1
    # (where rt isn't on the path, the kit that was noted stands)
    note_what_it_is_made_of "${text%%$'\n'*}"$'\n'"kit $kit"$'\n'"${text##*$'\n'}" || :
}

# Whether the program $1 runs on this machine: given no words it says so.
runs() {
    [ "$("$1" </dev/null 2>/dev/null)" = "fault 1 words 1 0" ]
}

# Whether the gate, called by itself, has left the program, made of what is there. The gate makes the folder of each crate's results anew
# before it reads the crate: so what was changed while it ran is newer than that folder, and the program, which comes last, is newer too. (A
# build that fails makes such folders as well.) Notes what it finds.
is_of_the_gate() {
    local text crates rows crate part parts born
    text=$(what_is_there)
    read_crates
    for crate in "${crates[@]}"; do
        parts=("$home/crates.txt")
        for part in "$home/crates/$crate"/{src,specs,proofs}; do
            [ ! -e "$part" ] || parts+=("$part")
        done
        # (0 where the disk doesn't keep it)
        born=$(stat -c %.9W -- "$home/crates/$crate/out" 2>/dev/null) && [ "${born%.*}" -gt 0 ] || return 1
        [ -z "$(find -L "${parts[@]}" -newerct "@$born" -print -quit 2>&1)" ] || return 1
        [ -n "$(find -L "$built" -newerct "@$born" -print 2>/dev/null)" ] || return 1
    done
    runs "$built" || return 1
    # (without a kit on the path it isn't known which one it was)
    ! command -v rt >/dev/null || note_what_it_is_made_of "$text" || :
}

# Whether the program that was built here is there, whole, and made of what is there.
is_current() {
    { [ -s "$built" ] && [ -x "$built" ]; } || return 1
    if [ -e "$made_of" ]; then
        looks_current || holds_current
    else
        is_of_the_gate
    fi
}

# Writes $2 into the file $1 below $out, where the checkout is this user's own: what another may not write is done without.
jot() (
    umask "$(printf '%o' $((8#$(umask) | 8#022)))"
    [ -O "$home/crates" ] && mkdir -p "$out" && printf '%s\n' "$2" >"$1.$BASHPID" && mv -f "$1.$BASHPID" "$1"
) 2>/dev/null

# Whether the program in dist and its text are whole, and the sources are those that it says. Where not, $lacks says why, and $flaw, where
# it isn't that the sources have changed.
holds_shipped() {
    flaw=yes
    if [ ! -e "$shipped" ] && [ ! -e "$ships" ]; then
        flaw="" lacks="the program isn't built"
    elif [ "$(head -n -1 -- "$ships" | sum)" != "$(noted "$ships" text)" ]; then
        lacks="$ships was changed, or isn't whole"
    elif [ "$(sum <"$shipped")" != "$(noted "$ships" program)" ]; then
        lacks="$shipped isn't the program that was put there"
    elif [ "$(sum_of_sources)" != "$(noted "$ships" sources)" ]; then
        flaw="" lacks="the program in dist is of other sources than are there"
    else
        flaw="" lacks=""
    fi
    [ -z "$lacks" ]
} 2>/dev/null

# Whether the program in dist can be taken: it holds, and runs here. $lacks and $flaw as before.
is_shipped() {
    local looks
    looks="$(looks_of_sources) $(looks_of "$shipped" "$ships")"
    if [ "$looks" != "$(cat "$looked" 2>/dev/null)" ]; then
        holds_shipped || return
        jot "$looked" "$looks"
    fi
    runs "$shipped" && return
    flaw=yes lacks="$shipped doesn't run here: it needs $(noted "$ships" needs), and a disk on which programs may run"
    return 1
}

# Sets $program to one that is made of what is there, if there is one: that which was built here goes first.
find_program() {
    program=$built
    is_current && return
    program=$shipped
    is_shipped
}
