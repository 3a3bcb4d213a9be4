# shellcheck shell=bash disable=SC2154,SC2034
# The words of the command line. What is refused here is what the program refuses (docs/formats.md, "Words"), except
# that a word after the mode may name a FILE. Sourced by the launcher after tables.sh, in pure bash, so that it takes
# no time.
#
# It sets `mode`, `options` (as the program takes them), `files`, and `page`; and `wrong` to what is refused.

# Whether the word $1 is one of the words $2.., which have no blanks.
is_one_of() {
    local word=$1
    shift
    [[ $word != *' '* && " $* " == *" $word "* ]]
}

# Whether a text is a whole number from $2 to $3: digits, with a + and leading zeros if you like.
is_number() {
    local digits=${1#+}
    case $digits in '' | *[!0123456789]*) return 1 ;; esac
    digits=${digits#"${digits%%[!0]*}"}
    digits=${digits:-0}
    [ ${#digits} -le 10 ] && [ "$digits" -ge "$2" ] && [ "$digits" -le "$3" ]
}

uses_option() {
    [[ " ${options_of[$1]} " == *" $2 "* ]]
}

# Sets `joined` to the words $2.. with $1 between them.
join_by() {
    local between=$1
    joined=${2-}
    shift 2
    if [ $# -gt 0 ]; then
        printf -v between "${between//%/%%}%s" "$@"
        joined+=$between
    fi
}

# Sets `wrong` to what is said of a word that is no mode, of one that is no option, or prints it and ends.
refuse_mode() { load_refusals && refuse_mode "$@"; }
refuse_option() { load_refusals && refuse_option "$@"; }
refuse_words() { load_refusals && refuse_words; }

# Puts the functions of refusals.sh in the place of these three, which most calls don't need.
load_refusals() {
    # shellcheck source=tools/launcher/refusals.sh
    . "$launcher/refusals.sh"
}

# Reads the option $1, whose value is $2 if it was written with one, and else the first of `following`.
# Sets `taken` to how many of the following words it takes, and `wrong` to what is refused.
read_option() {
    local name=${1#--} row least='' most value written
    taken=0
    for row in "${option_rows[@]}"; do
        if [ "$name" = "${row%%$'\t'*}" ]; then IFS=$'\t' read -r _ least most _ <<< "$row"; fi
    done
    if [ -z "$least" ]; then
        refuse_option "$1"
    elif [[ $given == *" $name "* ]]; then
        wrong="$(short "$1") is given twice: each option may be given once"
    elif [ "$least" = - ]; then
        if [ $# -gt 1 ]; then wrong="$(short "$1=$2"): $1 takes no value"; fi
        options+=("$1")
    else
        if [ $# -gt 1 ]; then value=$2 written=$1=$2; else value=${following[0]-} written="$1${value:+ $value}" taken=1; fi
        if is_number "$value" "$least" "$most"; then
            options+=("$1=$value")
        else
            wrong="$(short "$written"): $1 takes a whole number from $least to $most"
        fi
    fi
    given+="$name "
    [ -z "$wrong" ]
}

# Reads a word that is no option: the mode, and after it the FILEs.
read_place() {
    local taken_files
    if [ -z "$mode" ]; then
        mode=$1
        is_one_of "$1" "${modes[@]}" || refuse_mode "$1"
    elif [ -z "$1" ]; then
        wrong='an empty word is no option and no FILE'
    elif [ "$1" != - ] && [ ! -e "$1" ]; then
        wrong="there is no file $(short "$1")"
    elif [ -d "$1" ]; then
        wrong="$(short "$1") is a folder, and a FILE is accepted"
    elif [ "$1" != - ] && [ ! -r "$1" ]; then
        wrong="$(short "$1") can't be read"
    else
        files+=("$1")
        # shellcheck disable=SC2206
        taken_files=(${files_of[$mode]})
        if [ ${#files[@]} -gt ${#taken_files[@]} ]; then
            wrong="$(short "$1") is one FILE too many: $mode takes ${#taken_files[@]}"
            wrong=${wrong/%takes 0/takes none}
        fi
    fi
    [ -z "$wrong" ]
}

# Reads the words: sets `mode`, `options` and `files`, or `wrong`.
read_words() {
    local given=' ' ended='' word taken following
    mode='' options=() files=() wrong=''
    while [ $# -gt 0 ]; do
        word=$1
        shift
        following=("$@")
        if [ -n "$ended" ]; then read_place "$word" || return 1
        elif [ "$word" = -- ]; then ended=yes
        elif [[ $word == --?*=* ]]; then read_option "${word%%=*}" "${word#*=}" || return 1
        elif [[ $word == -?* ]]; then read_option "$word" || return 1; shift "$taken"
        else read_place "$word" || return 1
        fi
    done
    if [ -z "$mode" ]; then
        join_by ', ' "${modes[@]}"
        wrong="the mode is missing: the modes are $joined"
    fi
    [ -z "$wrong" ]
}

# Sets `page` to what page the words ask for, if they do: `help`, `mode` (the help of one mode), `command` (that of a
# sub-command), `version`, or nothing. Sets `named` to the mode or the sub-command, and `wrong` to what is refused: a
# word after `help` that is neither.
read_page() {
    local word before=''
    page='' wrong='' named=''
    for word in "$@"; do
        case $word in
            --) break ;;
            --help | -h | help) page=help ;;
            --version | -V) page=${page:-version} ;;
            -?*) ;;
            *) read_page_word "$word" "$before" ;;
        esac
        before=$word
    done
    if [ "$page" = help ] && [ -n "$named" ]; then
        if is_one_of "$named" "${modes[@]}"; then page=mode; else page="command"; fi
    fi
    [ -z "$wrong" ]
}

read_page_word() {
    if is_one_of "$1" "${modes[@]}" || { [ "$2" = help ] && is_one_of "$1" "${commands[@]}"; }; then
        named=${named:-$1}
    elif [ "$2" = help ]; then
        refuse_mode "$1"
    fi
}

# How a user calls the launcher here.
if [ -d "$here/tools/launcher" ]; then
    if [ "$PWD" = "$here" ]; then called=./ccp; else printf -v called %q "$here/ccp"; fi
else
    called=ccp
fi
