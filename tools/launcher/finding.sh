# shellcheck shell=bash disable=SC2154
# What proved program there is of this checkout's sources: the one that was built here (tools/prove, ./test), else the one
# that comes with them in release/, if it is of these sources, and whole.
#
# What is found is kept in three files, since the SHA-256 over the sources takes a tenth of a second:
#
#     $known            the kind of machine with whether a program is built and whether release/ is there, and the finding,
#                       a line each; made when the finding was begun
#     $known.sources    the folders and the files of code that were looked at, the files of release/, and the built program
#     $known.antt       the other sources, definitions and proofs: two searches are faster than one
#
# It holds until one of these changes. Counted are the times at which the state of a file changed last, which nobody can set:
# an edit that keeps the file's own time, a file that is added, removed or renamed, and other rights are changes too. What
# changes while the clock is set back to before the finding is missed.

# Sets `finding` anew, and keeps it:
#
#     built       the program that was built here, and no source is newer
#     same        release/ has their program
#     older       release/ has that of an older state of the sources
#     none        release/ has nothing
#     bad TEXT    release/ has their program in a bad state; TEXT says what is wrong and what to do
#
# or, which is never kept, since a later call may find out:
#
#     failed TEXT    it can't be known, since a command failed; TEXT names it
find_anew() {
    finding=none
    if [ ! -e "$proved" ] && [ ! -e "$released" ] && [ ! -e "$here/release/PROVENANCE" ]; then return; fi
    if mkdir -p "$kept" 2>/dev/null && { : > "$known.begun.$$"; } 2>/dev/null; then
        judge_programs
        if [ "${finding%% *}" = failed ]; then rm -f "$known.begun.$$"; else keep_finding; fi
        return
    fi
    judge_programs
    if [ "$finding" != built ] && [ -z "${is_known_to_user-}" ]; then
        printf 'ccp: %s can'\''t be written, so each run sums up the sources: XDG_CACHE_HOME=FOLDER names another place\n' "$kept" >&2
    fi
}

# Whether nothing changed since the finding was begun, by a search of all folders: an older find takes no list.
is_unchanged() {
    local changed
    changed=$(cd "$here/crates" 2>/dev/null && find_sources -cnewer "$known" -print -quit 2>&1) && [ -z "$changed" ]
}

# Finds the folders and files that a finding depends on, with further words of find, from the folder of the crates.
find_sources() {
    local others=(../crates.txt ../HANDLES)
    if [ -e ../release ]; then others+=(../release); fi
    if [ -e "$proved" ]; then others+=(ccp/out/ccp); fi
    find "${others[@]}" . -path './*/out' ! -path './*/*/out' -prune -o \
        \( -type d -o -name '*.rt' -o -name '*.antt' -o -name crates.txt -o -path '../*' -o -path ccp/out/ccp \) "$@"
}

# Keeps the finding, as old as its begin.
keep_finding() {
    local begun=$known.begun.$$ rest=$known.rest.$$ new=$known.new.$$
    if printf '%s\n%s\n' "$is_there" "$finding" > "$new" && touch -r "$begun" "$new" \
        && (cd "$here/crates" 2>/dev/null && find_sources \( -name '*.antt' -fprint0 "$rest" -o -print0 \)) > "$begun" \
        && mv "$begun" "$known.sources" && mv "$rest" "$known.antt" && mv "$new" "$known"; then return; fi
    rm -f "$begun" "$rest" "$new"
}

# Sets `finding` by what is there now.
judge_programs() {
    if is_current "$proved"; then finding=built; else judge_release; fi
}

# Sets `finding` by what release/ has now.
judge_release() {
    local sources wanted=''
    finding=none
    if [ ! -e "$released" ] && [ ! -e "$here/release/PROVENANCE" ]; then return; fi
    sources=$(cd "$here" 2>/dev/null && tools/launcher/source-sum 2>&1) || :
    wanted=$(of_provenance sources)
    if [[ ! $sources =~ ^[0-9a-f]{64}$ ]]; then
        finding="failed the sum over the sources failed (${sources##*$'\n'})"
    elif [ -z "$wanted" ]; then
        finding="bad release/PROVENANCE doesn't say of which sources release/ccp is: git checkout -- release brings it back"
    elif [ "$sources" != "$wanted" ]; then
        finding=older
    else
        finding=$(state_of_program)
    fi
    finding=${finding:-failed the state of release/ccp was not found out}
}

# What PROVENANCE says of $1.
of_provenance() {
    local line
    if [ ! -r "$here/release/PROVENANCE" ]; then return; fi
    while read -r line; do
        if [ "${line%%:*}" = "$1" ]; then printf %s "${line#"$1: "}"; fi
    done < "$here/release/PROVENANCE"
}

# What the program of these sources is worth, as a finding.
state_of_program() {
    local restored='git checkout -- release brings it back' said status
    if [ ! -f "$released" ]; then
        echo "bad release/ccp is missing: $restored"
    elif [ ! -r "$released" ]; then
        echo "bad release/ccp can't be read: chmod +r release/ccp"
    elif ! said=$(cd "$here/release" 2>/dev/null && LC_ALL=C sha256sum --check SHA256SUMS 2>&1); then
        if [[ $said == *'ccp: FAILED'* || ! -r $here/release/SHA256SUMS || $said == *'no properly formatted'* ]]; then
            echo "bad release/ccp doesn't have the SHA-256 of release/SHA256SUMS, as where one of them was cut off: $restored"
        else
            echo 'failed the sum over release/ccp failed (sha256sum)'
        fi
    elif [ "$said" != 'ccp: OK' ]; then
        echo 'failed the sum over release/ccp failed (sha256sum)'
    elif [ ! -x "$released" ]; then
        echo "bad release/ccp has no run bit: chmod +x release/ccp"
    else
        said=$(LC_ALL=C "$released" 2>&1 < /dev/null)
        status=$?
        judge_answer
    fi
}

# What the program's answer `said` to missing words is worth, which ended with `status`. A program that was killed, or for
# which no memory or process was left, says nothing about this machine.
judge_answer() {
    if [ "$status" = 2 ] && [ "$said" = 'ccp: words refused' ]; then
        echo same
    elif [ "$status" = 6 ] || { [ "$status" -gt 128 ] && [ "$status" != 132 ]; } || [[ $said =~ 'annot allocate'|'temporarily unavailable'|'failed to map' ]]; then
        echo "failed release/ccp ended with status $status on a trial"
    else
        echo "bad release/ccp, a program for x86-64 Linux, doesn't run on this machine ($(uname -sm)): ./ccp --prove builds one here"
    fi
}
