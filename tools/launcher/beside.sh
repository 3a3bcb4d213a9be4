# shellcheck shell=bash disable=SC2154,SC2034
# Runs the program beside the launcher, where something is left to say after it: at a terminal, and where its output is a pipe.

# Runs the program $1 beside this shell, prints its error line, and sets `status`. At a terminal the seconds of a long run
# are counted, except where what is typed is the input, and in `feed` and `drive`, at whose other end an agent answers.
run_beside() {
    local input errors output both passed child counter='' filter='' interrupted='' begun=$SECONDS
    if [ -t 2 ]; then name_ignored; fi
    if [ ${#files[@]} -gt 1 ]; then
        exec {input}< <(input_of_files)
    elif [ "${files[0]--}" != - ]; then
        exec {input}< "${files[0]}"
    else
        exec {input}<&0
    fi
    if [ -t 2 ] && ! is_one_of "$mode" feed drive && { [ ! -t "$input" ] || [ "${kind_of[$mode]}" = nothing ]; }; then
        count_seconds &
        counter=$!
    fi
    if [ -n "$counter" ] && [ -t 1 ]; then
        # a pipe, whose ends are opened one by one: the shell waits for a job, and not for an earlier substitution
        exec {both}<> <(:)
        exec {passed}< "/dev/fd/$both" {output}> "/dev/fd/$both" {both}>&-
        pass_on "$counter" <&"$passed" {output}>&- &
        filter=$!
        exec {passed}<&-
    else
        exec {output}>&1
    fi
    # an interrupt that comes before the program's number is known ends it as soon as it is
    trap 'interrupted=130' INT
    trap 'interrupted=143' TERM HUP
    # the program's line is held until it has ended
    exec {errors}< <(exec 2>&1 >&"$output" <&"$input"; exec "$1" "${words[@]}")
    child=$!
    exec {input}<&- {output}>&-
    trap 'stop_program "$child" "$counter" 130' INT
    trap 'stop_program "$child" "$counter" 143' TERM HUP
    if [ -n "$interrupted" ]; then stop_program "$child" "$counter" "$interrupted"; fi
    wait "$child"
    status=$?
    if [ -n "$filter" ]; then wait "$filter"; else stop_counter "$counter"; fi
    trap - INT TERM HUP
    IFS= read -r -d '' error_line <&"$errors"
    print_errors
}

# Names the options that the mode ignores, as the program does.
name_ignored() {
    local option
    for option in "${options[@]}"; do
        option=${option%%=*}
        if ! uses_option "$mode" "${option#--}"; then printf 'ccp: warning: %s ignores %s\n' "$mode" "$option" >&2; fi
    done
}

# Ends a run that is interrupted, with the status $3.
stop_program() {
    kill "$1" 2>/dev/null
    wait "$1"
    stop_counter "$2"
    exit "$3"
}

# Counts the seconds of a run on standard error, from the third one on. A pager, which has the terminal for itself, isn't
# written over.
count_seconds() {
    local never
    exec {never}<> <(:)
    while kill -0 $$ 2>/dev/null; do
        read -rt 1 -u "$never"
        if [ $((SECONDS - begun)) -ge 3 ] && ! has_pager; then
            printf '\r\033[Kccp: %s, %s s' "$mode" $((SECONDS - begun)) >&2
        fi
    done
}

stop_counter() {
    if [ -z "$1" ] || ! kill "$1" 2>/dev/null; then return; fi
    { wait "$1"; } 2>/dev/null
    wipe_seconds
}

# Wipes the line of seconds, where one may have been printed since `begun`.
wipe_seconds() {
    if [ $((SECONDS - begun)) -ge 3 ] && ! has_pager; then printf '\r\033[K' >&2; fi
}

# Passes the output on to the terminal; the counter $1 ends when it begins.
pass_on() {
    local line
    if IFS= read -r line; then line+=$'\n'; fi
    kill "$1" 2>/dev/null
    wipe_seconds
    printf %s "$line"
    exec cat
}

# Waits until the pager that reads the output has left the terminal: what is printed on its page goes with the page. In a
# list of commands the next one would wait too, so there nothing waits.
await_pager() {
    local never
    if [ ! -t 2 ] || [ ! -p /dev/stdout ] || ! is_started_by_shell; then return; fi
    # the pager waits for the end of its input
    exec 1>&- {never}<> <(:)
    while has_pager; do read -rt 0.1 -u "$never"; done
    exec {never}>&-
}

# Whether the shell that a user types in started this process itself: then the two are in different process groups.
is_started_by_shell() {
    local own above
    { read -r own < /proc/$$/stat && read -r above < /proc/$PPID/stat; } 2>/dev/null || return 1
    # after the name, which may have blanks: state, parent, group
    read -r _ _ own _ <<< "${own##*) }"
    read -r _ _ above _ <<< "${above##*) }"
    [ "$own" != "$above" ]
}

# Prints the program's error line. A closed pipe ends silently, as that of any filter. At a terminal a refusal names the
# FILE, and a second line says what explains it; elsewhere the program's line stands alone, as the pages show it. Where a
# trace was given for a scenario, a second line says so everywhere.
print_errors() {
    local hint=''
    if [ "$status" = 5 ] && { [ -p /dev/stdout ] || [ -S /dev/stdout ]; }; then
        status=141
        return
    fi
    if [ "$status" = 3 ]; then
        if [ "$error_line" = $'ccp: input refused: json\n' ] && is_given_trace; then
            hint="ccp: this is a trace, and $mode reads a scenario: $(words_of_compare) compares senders over it"$'\n'
        elif [ -t 2 ] && ! is_one_of "${kind_of[$mode]}" feed nothing; then
            hint="ccp: $(words_of_explain) says what is wrong, where, and what is accepted"$'\n'
        fi
        if [ -t 2 ] && [ ${#files[@]} = 1 ] && [ "${files[0]}" != - ]; then
            error_line="ccp: $(short "${files[0]}"): ${error_line#ccp: }"
        fi
        error_line+=$hint
    fi
    if [ -z "$error_line" ]; then return; fi
    await_pager
    printf %s "$error_line" >&2
}

# The command that takes the trace which was given.
words_of_compare() {
    local file=FILE
    if [ "${files[0]--}" != - ] && [ ${#files[0]} -le 100 ]; then printf -v file %q "${files[0]}"; fi
    printf '%s compare %s --senders reno,cubic --out out' "$called" "$file"
}

# The command that explains a refusal of this input.
words_of_explain() {
    local explain="$called explain --for $mode" line_end=''
    if [ ${#files[@]} -gt 1 ]; then
        if [ -n "$(tail -c 1 -- "${files[0]}")" ]; then line_end='echo; '; fi
        printf '(cat %q; %secho ---; cat %q) | %s' "${files[0]}" "$line_end" "${files[1]}" "$explain"
    elif [ "${files[0]--}" = - ]; then
        printf '%s FILE' "$explain"
    else
        printf '%s %q' "$explain" "${files[0]}"
    fi
}
