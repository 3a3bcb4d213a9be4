# shellcheck shell=bash disable=SC2154,SC2034
# What is said of refused words. Sourced when the first one is met.

# Sets `wrong` to what is said of the word $1, which is no mode.
refuse_mode() {
    local list
    find_meant "$1" "${modes[@]}" "${commands[@]}"
    join_by ', ' "${modes[@]}"
    list=$joined
    join_by ', ' "${commands[@]}"
    wrong="$(short "${1:-the empty word}") is no mode$meant: the modes are $list, and the commands $joined"
}

# Sets `wrong` to what is said of $1, which is no option.
refuse_option() {
    local row names=()
    for row in "${option_rows[@]}"; do names+=("--${row%%$'\t'*}"); done
    find_meant "$1" "${names[@]}" --help --version --prove
    join_by ', ' "${names[@]}"
    wrong="$(short "$1") is no option$meant: the options are $joined"
    if [ "$1" = --prove ]; then wrong='--prove comes first, and without a mode'; fi
}

# Ends as the program does at refused words, with its line, and with a second one that names the word and what is accepted.
refuse_words() {
    printf 'ccp: words refused\nccp: %s (%s --help)\n' "$wrong" "$called" >&2
    exit 2
}

# Sets `meant` to a question for the one of the words $2.. that was perhaps meant by $1: one that differs by at most two
# letters, and by less than half of them.
find_meant() {
    local one best='' least=3 distance
    meant=''
    if [ ${#1} -gt 20 ]; then return; fi
    for one in "${@:2}"; do
        # at least as many letters as the lengths differ by have to be added or left out
        distance=$((${#1} - ${#one}))
        if [ "${distance#-}" -ge "$least" ]; then continue; fi
        measure_distance "$1" "$one"
        if [ "$distance" -lt "$least" ] && [ $((2 * distance)) -lt ${#one} ]; then best=$one least=$distance; fi
    done
    if [ -n "$best" ]; then meant=" (did you mean $best?)"; fi
}

# Sets `distance` to how many letters have to be changed, put in or left out to make $2 of $1.
measure_distance() {
    local i j above corner cost row=()
    for ((j = 0; j <= ${#2}; j++)); do row[j]=$j; done
    for ((i = 1; i <= ${#1}; i++)); do
        corner=${row[0]}
        row[0]=$i
        for ((j = 1; j <= ${#2}; j++)); do
            above=${row[j]}
            if [ "${1:i-1:1}" = "${2:j-1:1}" ]; then cost=$corner; else cost=$((corner + 1)); fi
            if [ $((above + 1)) -lt "$cost" ]; then cost=$((above + 1)); fi
            if [ $((row[j - 1] + 1)) -lt "$cost" ]; then cost=$((row[j - 1] + 1)); fi
            row[j]=$cost
            corner=$above
        done
    done
    distance=${row[${#2}]}
}
