# shellcheck shell=bash disable=SC2154
# The pages that the launcher answers with: help, the help of a mode or of a sub-command, and the version.

# Prints the page that the words ask for, and ends.
show_page() {
    # shellcheck source=tools/launcher/texts.sh
    . "$launcher/texts.sh"
    case $page in
        help) page_of_help ;;
        mode) page_of_mode "$named" ;;
        version) page_of_version ;;
        command)
            # shellcheck source=tools/launcher/commands.sh
            . "$launcher/commands.sh"
            run_command "$named" --help
            ;;
    esac
    exit 0
}

# The options that a mode uses, or all, a line each.
page_of_options() {
    local row name least most used text value
    for row in "${option_rows[@]}"; do
        IFS=$'\t' read -r name least most used text <<< "$row"
        if [ $# -gt 0 ] && [[ ,$used, != *,$1,* ]]; then continue; fi
        if [ "$least" = - ]; then
            value=''
        else
            value=' N'
            if [ "$name" = workers ]; then text+=", $least to $most, as many as processors by default"; else text+=", $least to $most, 1 by default"; fi
        fi
        if [ $# -eq 0 ]; then text+=" (${used//,/, })"; fi
        printf '  %-14s %s\n' "--$name$value" "$text"
    done
}

page_of_help() {
    local row name reads text page example means statuses=() joined
    printf '%s\n' 'ccp [OPTION].. MODE [FILE]..
ccp COMMAND [ARGUMENT]..

Compares congestion-control programs over recorded link traces: compiles them, verifies them, and runs them over virtual
links with agents such as Reno and CUBIC. Input comes from FILE, or from standard input if there is none.

Commands, from traces to figures (Python):'
    for row in "${command_rows[@]}"; do
        IFS=$'\t' read -r name text <<< "$row"
        printf '  %-9s %s\n' "$name" "$text"
    done
    printf '\nModes of the proved program:\n'
    for row in "${mode_rows[@]}"; do
        IFS=$'\t' read -r name reads text page example <<< "$row"
        printf '  %-9s %s\n              %s\n' "$name" "$text" "${example//.\/ccp/$called}"
    done
    printf '\nOptions of modes, before or after the mode, each at most once:\n'
    page_of_options
    for row in "${status_rows[@]}"; do
        IFS=$'\t' read -r name means <<< "$row"
        statuses+=("$name $means")
    done
    join_by ', ' "${statuses[@]}"
    printf '%s\n' "
  fold PROGRAM ACKS, audit SCENARIO TEXT and drive SCENARIO FRAMES take two FILEs, which are joined by the line ---.
  MODE --help      what a mode reads and prints, and its options
  COMMAND --help   what a command does, and its arguments
  --version, -V    the version, the commit, which program runs, and the toolchain that proved it
  --prove          proves and builds the program; until then that of release/ answers, or an unproved, checked run
  CCP_PROGRAM=PATH names another program, and CCP_PYTHON=PATH another interpreter of Python

Exit status of a mode: $joined.
More: man ccp (in the repository man -l docs/ccp.1), README.md and docs/."
}

# The page of one mode.
page_of_mode() {
    local row name reads text page example options files
    options=$(page_of_options "$1")
    files=${files_of[$1]}
    if [ "${files/ /}" != "$files" ]; then files="FILE | $files"; fi
    printf 'ccp %s%s%s\n\n' "${options:+[OPTION].. }" "$1" "${files:+ [$files]}"
    for row in "${mode_rows[@]}"; do
        if [ "${row%%$'\t'*}" = "$1" ]; then IFS=$'\t' read -r name reads text page example <<< "$row"; fi
    done
    printf '%s.\nReads %s.\n\n  %s\n' "${text^}" "$reads" "${example//.\/ccp/$called}"
    if [ -n "$options" ]; then printf '\nOptions:\n%s\n' "$options"; fi
    if [ "$page" != - ]; then page+=', '; else page=''; fi
    printf '\nMore: %sdocs/formats.md\n' "$page"
}

# The version, the commit and the toolchain, with what was proved.
page_of_version() {
    if [ -d "$here/crates" ]; then
        version_of_checkout
    else
        cat "${launcher%/launcher}/version"
        if [ -n "${CCP_PROGRAM:-}" ]; then echo "program that runs: $CCP_PROGRAM, by CCP_PROGRAM"; fi
    fi
}

# Which program would run in this checkout, and why.
version_of_checkout() {
    begin_search
    name_of_version
    if [ -n "${CCP_PROGRAM:-}" ]; then
        echo "program: $CCP_PROGRAM, by CCP_PROGRAM"
        return
    fi
    find_proved
    refuse_unknown
    case $finding in
        built) echo "program: crates/ccp/out/ccp, proved with $(toolchain_of_built), and no source is newer" ;;
        same) echo "program: release/ccp, proved with $(toolchain_of_release), of the sources that this checkout has" ;;
        *) echo "program: not proved: the unproved one, compiled with checks$(why_unproved); $called --prove proves and builds it" ;;
    esac
}

why_unproved() {
    if [ "${finding%% *}" = bad ]; then
        echo ", since ${finding#bad }"
    elif [ "$finding" = older ]; then
        echo ', since the one in release/ is of an older state of the sources'
    elif [ -e "$proved" ]; then
        echo ', since crates/ccp/out/ccp is older than its sources'
    fi
}

# The version of the sources, and their commit.
name_of_version() {
    local version commit
    read -r version < "$here/VERSION"
    # also in a checkout of another user, which git otherwise refuses
    commit=$(GIT_OPTIONAL_LOCKS=0 git -c "safe.directory=$here" -c core.fsmonitor=false -C "$here" \
        describe --always --dirty --exclude '*' 2>/dev/null) || commit='no commit known'
    echo "ccp $version ($commit)"
}

# By which toolchain the program $1 was proved: $1 is that of this checkout, or has its bytes.
proof_of() {
    if is_same "$1" "$proved" && is_current "$proved"; then
        echo "proved with $(toolchain_of_built)"
    elif is_same "$1" "$released" && is_released; then
        echo "proved with $(toolchain_of_release)"
    else
        refuse_unknown
        echo 'of which no proof is known here'
    fi
}

toolchain_of_built() {
    local record=$proved.toolchain
    if [ -e "$record" ] && [ ! "$record" -ot "$proved" ]; then
        cat "$record"
    else
        rt version 2>/dev/null || echo 'a toolchain that is not here'
    fi
}

toolchain_of_release() {
    # shellcheck source=tools/launcher/finding.sh
    . "$launcher/finding.sh"
    of_provenance toolchain
}

is_same() {
    [ "$1" = "$2" ] || cmp --silent "$1" "$2" 2>/dev/null
}
