# shellcheck shell=bash disable=SC2154 # $home, $out, $built, $lacks and $flaw are those of made_of.sh
# Has the kit prove and build the program, by the gate's own command, and says how far it is. Read by hull, which calls build_once or prove_once.
#
# One build goes on at a time: it holds the lock of $out. It copies the program's crates, without must-fail edits, into a folder $room, has
# `rt ci` work there, puts the program in its place as $built, and notes what it is made of. All that `rt ci` says stands in $log. What it has
# proved some kits keep beside them: for the next build, if this one is ended, and for the gate.
#
# Set while it goes on: $lock and $held, the descriptors of the locks; $room; $prover, the process that is `rt ci`; $taken, what the sources
# were at the start. $failed tells whoever waited for the lock how it ended, where it ended badly.

log=$out/build.log
failed=$out/failed

# Says how far the build is. Where nobody can read it, the build goes on.
say() {
    echo "hull: $1" >&2 || :
}

need_tools() {
    local tool
    for tool in awk grep sed flock nproc; do
        command -v "$tool" >/dev/null || fail "$lacks, and $tool, which the build needs, isn't on the path"
    done
    command -v rt >/dev/null || fail "$lacks, and rt, with whose kit it is proved and built, isn't on the path"
    [ -n "$(rt version 2>/dev/null)" ] || fail "$lacks, and rt is on the path, but the kit isn't there behind it"
}

# Refuses a user who may not see or run what there is: it was built for another alone, or lies on a disk on which no program may run.
look_about() {
    local file mode
    for file in "$out" "$built" "$made_of"; do
        [ ! -e "$file" ] || [ -r "$file" ] || fail "$file may not be read by this user, for whom whoever built the program hasn't opened it"
    done
    mode=$(stat -c %a "$built" 2>/dev/null)
    [ -x "$built" ] || [ "$((8#${mode:-0} & 8#111))" = 0 ] || fail "$built may not be run by this user, or on this disk"
}

# Ends with why there is no program, $1, or that the disk is full, where it is: a write fails now, or the log says that one did.
# Who waits for this build reads it too.
end_badly() {
    local why=$1 error
    error=$({ head -c 65536 /dev/zero >"$out/filled"; } 2>&1)
    rm -f "$out/filled" 2>/dev/null
    if [[ $error =~ 'No space left'|quota ]] || grep -qs 'No space left on device\|quota exceeded' "$log"; then
        why="no program: the disk is full that $out or ${room:-the folder for temporary files} is on"
    fi
    { printf '%s\n' "$BASHPID $EPOCHREALTIME" "${taken##*$'\n'}" "$why" >"$failed.part" && mv -f "$failed.part" "$failed"; } 2>/dev/null
    clear_room
    fail "$why"
}

# Opens the file that whoever builds holds, as $lock. Who may not write here can't read it either, and so can't hold it.
open_lock() {
    local file=$out/lock error digit mode=""
    umask "$(printf '%o' $((8#$(umask) | 8#022)))"
    error=$({ mkdir -p "$out" && (umask 077 && : >>"$file"); } 2>&1) || fail "cannot write $out, so the program cannot be built: ${error##*: }"
    for digit in $(stat -c %a "$out" | grep -o '...$' | grep -o .); do
        mode=$mode$(((digit & 2) * 3))
    done
    chmod "$mode" "$file" 2>/dev/null
    exec {lock}>>"$file" || fail "cannot write $file, so the program cannot be built"
}

# Waits until no other hull builds. Where it waited for one that failed, and nothing has changed, that is the end of it.
take_lock() {
    local before status why
    before=$(cat "$failed" 2>/dev/null)
    flock -n "$lock"
    status=$?
    [ "$status" != 1 ] || say "waiting for another hull that builds the program"
    while [ "$status" = 1 ]; do
        flock -w 5 "$lock"
        status=$?
    done
    [ "$status" = 0 ] || fail "cannot lock $out/lock, so the program cannot be built"
    why=$(cat "$failed" 2>/dev/null)
    if [ "$why" != "$before" ] && ! is_current && [[ $(what_is_there) == *$'\n'"$(sed -n 2p <<<"$why")" ]]; then
        fail "${why##*$'\n'}"
    fi
}

# Refuses a folder in which no program may run, before anything is proved in vain.
try_to_run() {
    local file=$out/runs
    { printf '#!/bin/sh\n' >"$file" && chmod u+x "$file"; } 2>/dev/null || end_badly "cannot write $file, so the program cannot be built"
    "$file" 2>/dev/null || end_badly "no program: none may run in $out, as where a disk is mounted with noexec"
    rm -f "$file"
}

# As many processes as there are processors, each with 3 GB of memory to itself. (A proof by several takes up to two and a half times the
# processor time, so each has one.)
most_processes() {
    local processors gigabytes limit
    processors=$(OMP_NUM_THREADS='' OMP_THREAD_LIMIT='' nproc)
    gigabytes=$(awk '/^MemAvailable/ { print int($2 / 3000000) }' /proc/meminfo 2>/dev/null)
    limit=$(cat /sys/fs/cgroup/memory.max 2>/dev/null)
    if [[ $limit =~ ^[0-9]+$ ]] && [ "$((limit / 3000000000))" -lt "${gigabytes:-1}" ]; then
        gigabytes=$((limit / 3000000000))
    fi
    [ "${gigabytes:-1}" -ge "$processors" ] || processors=${gigabytes:-1}
    [ "$processors" -ge 1 ] && echo "$processors" || echo 1
}

# Makes $room, in which $held is locked as long as anything works there; and takes away those that were left by a hull that was killed.
make_room() {
    local folder=${TMPDIR:-/tmp} left
    for left in "$folder"/hull-build-*; do
        [ ! -O "$left" ] || [ ! -e "$left/held" ] || flock -n "$left/held" rm -rf -- "$left"
    done
    { room=$(mktemp -d "$folder/hull-build-XXXXXX") && exec {held}>"$room/held" && flock "$held"; } 2>/dev/null ||
        end_badly "no program: cannot write $folder, where it is built"
}

clear_room() {
    [ -z "${room-}" ] || rm -rf -- "$room"
} 2>/dev/null

# Copies what `rt ci` wants of the $crates into $room: all but must-fail edits and what was made. ($room is the top of a repository then.)
copy_crates() {
    local crate part
    mkdir "$room/.git" "$room/crates" && printf '%s' "$rows" >"$room/crates.txt" || return
    [ ! -e "$home/HANDLES" ] || cp -- "$home/HANDLES" "$room/" || return
    for crate in "${crates[@]}"; do
        mkdir "$room/crates/$crate" || return
        for part in "$home/crates/$crate"/*; do
            case ${part##*/} in
                out | must-fail) ;;
                *) cp -RL -- "$part" "$room/crates/$crate/" || return ;;
            esac
        done
    done
} 2>>"$log"

# Ends with the status $1, and `rt` with all that it has started: they end with it, however it ends.
stop_all() {
    local look
    trap '' INT TERM HUP
    if [ -n "${prover-}" ]; then
        kill -TERM "$prover"
        for ((look = 0; look < 100; look++)); do
            kill -0 "$prover" || break
            sleep 0.05
        done
        kill -KILL "$prover"
    fi
    clear_room
    exit "$1"
} 2>/dev/null

# Says of a line of `rt ci` what it tells of a crate, and counts it.
report() {
    [[ $1 =~ ^rt:\ ([a-z0-9_]+)\ (proved$|is kept:|NOT PROVED$) ]] || return 0
    case ${BASH_REMATCH[2]} in
        "NOT PROVED")
            bad=${bad:-${BASH_REMATCH[1]}}
            return
            ;;
        proved) ;;
        *) kept=$((kept + 1)) ;;
    esac
    left=$((left - 1))
    [ "${BASH_REMATCH[2]}" != proved ] || say "${BASH_REMATCH[1]} is proved, $left of ${#crates[@]} are left"
}

# Has `rt ci $@` prove the $crates in $room, and build the program.
prove_crates() {
    local line left=${#crates[@]} kept=0 bad="" said written once="; this is done once"
    # The prover asks for the memory again that it gives back: some hundredths of its time.
    local -x MIMALLOC_PURGE_DELAY=-1 RT_JOBS=${RT_JOBS:-$(most_processes)}
    [ -z "$always" ] || once=""
    say "proving the $left crates of the program, $RT_JOBS at a time$once"
    exec {written}>>"$log"
    exec {said}< <(cd "$room" && exec rt ci "$@" 2>&1 {written}>&-)
    prover=$!
    while IFS= read -r line <&"$said"; do
        printf '%s\n' "$line" >&"$written"
        report "$line"
    done
    exec {written}>&- {said}<&-
    if ! wait "$prover"; then
        [ -n "$bad" ] || end_badly "no program: its build failed; $log says why"
        end_badly "no program: $bad isn't proved; $log says why"
    fi
    prover=""
    [ "$kept" = 0 ] || say "$kept of the ${#crates[@]} crates were proved before on this machine, and rt kept that"
}

# Puts the program that `rt ci` has made in its place.
take_program() {
    local made=$built.made
    cp -- "$room/crates/hull_cli/out/hull_cli" "$made" && runs "$made" && sync "$made" && mv -f "$made" "$built"
} 2>>"$log"

# Proves and builds, with the words $@ for `rt ci`.
build() {
    local line crates rows
    taken=$(what_is_there)
    line=$(kit_of_readme)
    [ -z "$line" ] || [ "$line" = "$(rt version)" ] ||
        say "README.md names the kit '$line', and rt is of '$(rt version)': proofs may fail with it"
    { : >"$log"; } 2>/dev/null || end_badly "cannot write $log, so the program cannot be built"
    try_to_run
    make_room
    read_crates
    copy_crates || end_badly "no program: the crates can't be copied to $room; $log says why"
    prove_crates "$@"
    take_program || end_badly "no program: that which was built doesn't run; $log says why"
    note_what_it_is_made_of "$taken" || say "files changed while the program was built: it is built again at the next call"
    clear_room
    exec {held}>&-
    say "the program is built"
}

# Builds the program, with the words $@ for `rt ci`, where no other hull has while this one waited, or in any case where $always is set. What
# the words name is found from where hull was called, and no descriptor of the caller's is touched.
build_in_turn() {
    local lock held="" taken="" room="" prover=""
    # (what a full disk is called is looked for)
    local -x LC_ALL=C
    trap '' PIPE
    trap 'stop_all 130' INT
    trap 'stop_all 143' TERM
    trap 'stop_all 129' HUP
    look_about
    need_tools
    [ -z "$flaw" ] || say "$lacks: it isn't run, and another is built from the sources"
    open_lock
    take_lock
    # (the folder may be another one by now, as the gate moves it aside)
    until [ "$out/lock" -ef "/proc/$BASHPID/fd/$lock" ]; do
        exec {lock}>&-
        open_lock
        take_lock
    done
    { [ -z "$always" ] && is_current; } || build "$@"
    exec {lock}>&-
    trap - PIPE INT TERM HUP
}

# Builds where nothing can be read from standard input, nothing is written on standard output, and a closed standard error hurts nobody.
build_quietly() {
    local mask
    mask=$(umask)
    if { : >&2; } 2>/dev/null; then
        build_in_turn "$@" </dev/null >/dev/null
    else
        build_in_turn "$@" </dev/null >/dev/null 2>&1
    fi
    umask "$mask"
}

build_once() {
    local always=""
    build_quietly
}

prove_once() {
    local always=yes flaw="" lacks="the program has to be built"
    build_quietly "$@"
}
