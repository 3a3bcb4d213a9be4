#!/bin/bash
# Runs ccp: `./ccp [OPTION].. MODE [FILE]..` runs a mode of the program, `./ccp COMMAND ..` a sub-command of the Python
# package; see `./ccp --help`. Installed, it runs the program of PREFIX/libexec/ccp.
#
# Words are checked here first, in milliseconds. In a checkout the proved program answers: the one that `./ccp --prove`
# built (tools/prove), where it is no older than its sources, else release/ccp, where it is of these sources. Else the
# unproved program answers, which the toolchain compiles with checks in about two minutes and which is kept.
# CCP_PROGRAM=PATH names another one.
set -u
here=${BASH_SOURCE[0]}
if [ -L "$here" ]; then here=$(readlink -f "$here"); fi
case $here in */*) here=${here%/*} ;; *) here=. ;; esac
case $here in
    *..*) here=$(cd "$here" && pwd) ;;
    .) here=$PWD ;;
    ./*) here=$PWD/${here#./} ;;
    /*) ;;
    *) here=$PWD/$here ;;
esac
launcher=$here/tools/launcher
if [ ! -d "$launcher" ]; then launcher=${here%/*}/libexec/ccp/launcher; fi
# a folder that is a link, as /bin
if [ ! -d "$launcher" ]; then here=$(cd -P "$here" && pwd) launcher=${here%/*}/libexec/ccp/launcher; fi
for name in tables.sh texts.sh words.sh refusals.sh run.sh beside.sh pages.sh commands.sh start.py; do
    if [ ! -r "$launcher/$name" ]; then
        printf 'ccp: %s/%s is missing or can'\''t be read: install ccp again\n' "$launcher" "$name" >&2
        exit 1
    fi
done
# shellcheck source=tools/launcher/tables.sh
. "$launcher/tables.sh"
needs_search=''
if [[ " ${modes[*]} " == *" ${1-} "* ]]; then needs_search=yes; fi
# shellcheck source=tools/launcher/run.sh
. "$launcher/run.sh"
# shellcheck source=tools/launcher/words.sh
. "$launcher/words.sh"

main() {
    if [ "${1-}" = --prove ]; then prove "${@:2}"; fi
    if is_one_of "${1-}" "${commands[@]}"; then
        # shellcheck source=tools/launcher/commands.sh
        . "$launcher/commands.sh"
        run_command "$@"
    fi
    if [ $# -eq 0 ] && [ -t 0 ]; then set -- --help; fi
    read_page "$@" || refuse_words
    if [ -n "$page" ]; then
        # shellcheck source=tools/launcher/pages.sh
        . "$launcher/pages.sh"
        show_page "$@"
    fi
    read_words "$@" || refuse_words
    choose_program
    run_mode
}

main "$@"
