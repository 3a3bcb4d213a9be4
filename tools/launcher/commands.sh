# shellcheck shell=bash disable=SC2154
# Runs a sub-command of the Python package, by the first interpreter that has the modules that the command uses.

# Runs the words as a command of the package in this shell's place.
run_command() {
    local package=$here/src interpreters=() one
    # there bash, and what it starts, print lines of their own, and a relative path leads nowhere
    if [ ! . -ef "${PWD-}" ]; then fail "the current folder was removed: change to another one"; fi
    if [ ! -d "$package" ]; then
        package=${launcher%/launcher}/python
        export CCP_PROGRAM=${CCP_PROGRAM:-$installed}
        if [ ! -d "$package/ccp_tools" ]; then
            # a wheel has it among the packages of the interpreter by which this script beside the launcher runs
            if [ -x "$here/ccp-tools" ]; then exec "$here/ccp-tools" "$@"; fi
            fail "$1 is a command of the Python package ccp_tools, which isn't installed: apt-get install ccp-tools"
        fi
    fi
    for one in "${CCP_PYTHON:-}" "$here/.venv/bin/python3" python3 /usr/bin/python3; do
        one=$(type -P "$one") && interpreters+=("$one")
    done
    if [ -n "${CCP_PYTHON:-}" ] && ! type -P "$CCP_PYTHON" > /dev/null; then
        fail "CCP_PYTHON names $(short "$CCP_PYTHON"), which is no program"
    fi
    if [ ${#interpreters[@]} -eq 0 ]; then
        fail "$1 needs Python 3.9 or later, and there is no python3 on the PATH: apt-get install python3"
    fi
    # start.py goes on to the next interpreter where a module is missing
    exec "${interpreters[0]}" "$launcher/start.py" "$package" "${#interpreters[@]}" "${interpreters[@]}" "$@"
}
