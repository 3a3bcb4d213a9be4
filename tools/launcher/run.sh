# shellcheck shell=bash disable=SC2154,SC2034
# Chooses the program, and runs it on the words that were read, with the program's output, error line and status.

proved=$here/crates/ccp/out/ccp
# the proved program that comes with the sources
released=$here/release/ccp
# where what is built and what is known of it are kept: in the checkout, or, where that can't be written, in the cache
kept=$here/crates/ccp/out
if [ -d "$here/crates" ] && { [ ! -w "$here/crates/ccp" ] || { [ -e "$kept" ] && [ ! -w "$kept" ]; }; }; then
    # without a home there is no such place: what others could write must not be run. A relative folder is none, as the
    # XDG Base Directory Specification says
    kept=/dev/null/.cache
    case ${HOME-} in /*) kept=$HOME/.cache ;; esac
    case ${XDG_CACHE_HOME-} in /*) kept=$XDG_CACHE_HOME ;; esac
    kept+=/ccp/${here//\//%}
fi
# the unproved program, compiled with checks
checked=$kept/checked/ccp
launcher=${launcher-$here/tools/launcher}
installed=${launcher%/launcher}/ccp
# what is known of the proved programs, and where the search for changes since then is read, once it is begun
known=$kept/found search=''

# Begins to look for what changed since it was found which program is proved. The search has processes of its own, since it
# takes longer than all else that is done meanwhile, and each looks at one of the two lists.
begin_search() {
    if [ -n "${CCP_PROGRAM:-}" ] || [ ! -e "$known" ] || [ ! -e "$known.antt" ]; then return; fi
    # shellcheck disable=SC2185
    exec {search}< <(
        # where the current folder was removed, cd itself prints a line
        cd "$here/crates" 2>/dev/null || echo failed
        exec 2>&1
        export LC_ALL=C
        find -files0-from "$known.antt" -maxdepth 0 -cnewer "$known" -print -quit &
        find -files0-from "$known.sources" -maxdepth 0 -cnewer "$known" -print -quit || echo failed
        wait $! || echo failed
    )
    searcher=$!
}

# the launcher needs the answer for a mode, and reads the rest meanwhile
if [ -n "${needs_search-}" ]; then begin_search; fi

# Prints at most 200 bytes of a name, for a message.
short() {
    local LC_ALL=C
    if [ ${#1} -le 200 ]; then printf %s "$1"; else printf %s.. "${1:0:198}"; fi
}

fail() {
    printf 'ccp: %s\n' "$1" >&2
    exit 1
}

# Whether the program $1 is there, and no source is newer.
is_current() {
    local newer
    [ -x "$1" ] || return 1
    newer=$(newer_source "$1") || fail "the search for sources that are newer than $1 failed (find)"
    [ -z "$newer" ]
}

# A source that is newer than the program $1. Of the folders named `out` only a crate's own is left out: the proofs of a
# function of that name are sources.
newer_source() {
    find "$here/crates.txt" "$here"/crates/*/* -path "$here/crates/*/out" ! -path "$here/crates/*/*/out" -prune -o \
        -type f \( -name '*.rt' -o -name '*.antt' -o -name crates.txt \) -newer "$1" -print -quit
}

# Sets `finding` to what proved program there is of the sources of this checkout (finding.sh). What was found before holds
# where nothing changed since then.
find_proved() {
    # the number is that of the form in which a finding is kept
    local changed=unknown is_there="2 $HOSTTYPE" was_there
    if [ -e "$proved" ]; then is_there+=' built'; fi
    if [ -e "$here/release" ]; then is_there+=' release'; fi
    if [ -z "$search" ]; then begin_search; fi
    if [ -n "$search" ]; then
        IFS= read -r -d '' changed <&"$search" || :
        exec {search}<&-
        search=''
        # the program, which takes this shell's place, doesn't wait for what it didn't start
        wait "$searcher" || :
        if [ -n "$changed" ]; then
            # shellcheck source=tools/launcher/finding.sh
            . "$launcher/finding.sh"
            if is_unchanged; then changed=''; fi
        fi
    fi
    if [ -z "$changed" ] && { read -r was_there && read -r finding; } < "$known" && [ "$is_there" = "$was_there" ]; then return; fi
    # shellcheck source=tools/launcher/finding.sh
    . "$launcher/finding.sh"
    find_anew
}

# Whether release/ has the program of these sources, in a good state, whatever was built here. Sets `finding`.
is_released() {
    # shellcheck source=tools/launcher/finding.sh
    . "$launcher/finding.sh"
    find_proved
    if [ "$finding" = built ]; then judge_release; fi
    [ "$finding" = same ]
}

# Ends where it can't be known which program is of these sources.
refuse_unknown() {
    local found=${finding-}
    if [ "${found%% *}" = failed ]; then fail "${found#failed }: try again, or name a program by CCP_PROGRAM=PATH"; fi
}

# Prints what is wrong with the program in release/ and what to do, if it is in a bad state.
print_bad_release() {
    if [ "${finding%% *}" = bad ]; then printf 'ccp: %s\n' "${finding#bad }" >&2; fi
}

# Sets `chosen` to the program that runs, and `is_proved` if it is no unproved one.
choose_program() {
    is_proved=yes
    if [ -n "${CCP_PROGRAM:-}" ]; then
        if [ ! -f "$CCP_PROGRAM" ] || [ ! -x "$CCP_PROGRAM" ]; then
            fail "CCP_PROGRAM names $(short "$CCP_PROGRAM"), which is no program"
        fi
        chosen=$CCP_PROGRAM
    elif [ ! -d "$here/crates" ]; then
        chosen=$installed
        if [ ! -x "$chosen" ]; then fail "there is no program at $chosen; CCP_PROGRAM=PATH names another"; fi
    else
        find_proved
        refuse_unknown
        case $finding in
            built) chosen=$proved ;;
            same) chosen=$released ;;
            *)
                is_proved='' chosen=$checked
                print_bad_release
                ;;
        esac
    fi
}

prove() {
    if [ ! -x "$here/tools/prove" ]; then fail '--prove needs a checkout of the sources: this ccp is installed'; fi
    if ! type -P python3 > /dev/null; then fail '--prove needs Python 3.9 or later, and there is no python3 on the PATH: apt-get install python3'; fi
    exec "$here/tools/prove" "$@"
}

# The command line of a run, as `words`. All processors work unless `--workers` says otherwise, in the modes whose output
# doesn't depend on it; over one bottleneck more workers are slower.
set_words() {
    local processors
    words=("${options[@]}" "$mode")
    if [[ $mode != shared* && " ${options[*]}" != *" --workers="* ]] && uses_option "$mode" workers; then
        count_processors
        words=("--workers=$((processors < 32 ? processors : 32))" "${words[@]}")
    fi
}

# Sets `processors` to how many this process may use. The kernel's mask of them is read here, since `nproc` would cost as
# much time as the program.
count_processors() {
    local line lines mask='' digit ones=0112122312232334
    mapfile -t lines 2>/dev/null < /proc/self/status
    for line in "${lines[@]}"; do
        if [ "${line%%:*}" = Cpus_allowed ]; then mask=${line##*[[:blank:]]}; fi
    done
    processors=0
    while [ -n "$mask" ]; do
        digit=${mask:0:1} mask=${mask:1}
        if [ "$digit" != , ]; then processors=$((processors + ${ones:16#$digit:1})); fi
    done
    if [ "$processors" = 0 ]; then processors=$(nproc); fi
}

# Whether a pager has the terminal for itself.
has_pager() {
    [[ $(stty -a <&2 2>/dev/null) == *-icanon* ]]
}

# Runs the mode, and ends with the program's status.
run_mode() {
    set_words
    if [ -z "$is_proved" ]; then
        # shellcheck source=tools/launcher/checked.sh
        . "$launcher/checked.sh"
        run_checked
    fi
    # only where nothing may be left to say is the program run in this shell's place
    if [ ! -t 2 ] && [ ! -p /dev/stdout ] && [ ! -S /dev/stdout ] && ! is_given_trace; then
        if [ ${#files[@]} -gt 1 ]; then exec "$chosen" "${words[@]}" < <(input_of_files); fi
        if [ "${files[0]--}" != - ]; then exec < "${files[0]}"; fi
        exec "$chosen" "${words[@]}"
    fi
    # shellcheck source=tools/launcher/beside.sh
    . "$launcher/beside.sh"
    run_beside "$chosen"
    exit "$status"
}

# Whether the mode reads a scenario, and its input looks like a trace: the first line of it, or of the first FILE, is a
# time. Only a file is looked at, since what is read of a pipe is gone.
is_given_trace() {
    local line='' path=${files[0]--}
    case ${kind_of[$mode]} in program | fold | feed | nothing) return 1 ;; esac
    if [ "$path" = - ]; then path=/dev/stdin; fi
    if [ ! -f "$path" ]; then return 1; fi
    { IFS= read -rn 24 line < "$path"; } 2>/dev/null
    [[ $line =~ ^[[:blank:]]*[0-9]+[[:space:]]*$ ]]
}

# What the program reads: the FILEs, two of them joined by the line ---.
input_of_files() {
    cat -- "${files[0]}"
    if [ ${#files[@]} -gt 1 ]; then
        if [ -n "$(tail -c 1 -- "${files[0]}")" ]; then echo; fi
        echo ---
        cat -- "${files[1]}"
    fi
}

