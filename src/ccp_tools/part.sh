# Runs parts of a scenario, on whatever machine: sh part.sh PART..
#
# words.sh in this folder sets what is run. PART.json becomes PART.result: a line `ccp-part STATUS BYTES`, BYTES bytes of
# output, and the errors. It has another name until it is whole. `words` are the mode with its options, or `metrics`,
# which needs `tools.pyz` in this folder; the metrics of all parts are worked out by one process. The program has to be
# the one with the SHA-256 `sha`, so that no two versions are mixed. Status 0 and 3 (ccp refuses the part) are answers;
# any other one is a failed run, which may be tried again. Of several parts those that have an answer aren't run again.
program='' sha='' words='' python=''
# shellcheck source=/dev/null
. ./words.sh
# Whether a part has an answer.
has_answer() {
    case $(head -n 1 "$1.result" 2> /dev/null) in
        "ccp-part 0 "* | "ccp-part 3 "*) return 0 ;;
    esac
    return 1
}
# Prints how a run ended: the number of a signal is 128 less than the status that the shell has of it.
ending() {
    if [ "$1" -gt 128 ] && name=$(kill -l "$1" 2> /dev/null) && [ -n "$name" ]; then
        echo "on $(hostname), by the signal SIG$name (status $1)"
    else
        echo "on $(hostname), with status $1"
    fi
}
# Runs the modes whose texts metrics are worked out of.
texts() {
    "$program" campaign < "$1.json" > "$1.table" 2> "$1.error" || return
    "$program" timeline < "$1.json" > "$1.timeline" 2> "$1.error" || return
    "$program" acks < "$1.json" > "$1.acks" 2> "$1.error" || return
}
# Writes the result of a part whose run ended with a status.
finish() {
    if [ "$2" != 0 ] && [ "$2" != 3 ]; then
        if [ ! -s "$1.error" ]; then
            echo "it ended without an error line, after $(wc -c < "$1.half" | tr -d ' ') bytes of output," > "$1.error"
        fi
        ending "$2" >> "$1.error"
    fi
    {
        echo "ccp-part $2 $(wc -c < "$1.half" | tr -d ' ')"
        cat "$1.half" "$1.error"
    } > "$1.new" && mv "$1.new" "$1.result"
    rm -f "$1.half" "$1.error" "$1.table" "$1.timeline" "$1.acks" "$1.status"
    [ "$2" = 0 ] || [ "$2" = 3 ] || failed=1
}
failed=0 several=$# waiting=''
for part in "$@"; do
    if [ "$several" -gt 1 ] && has_answer "$part"; then
        continue
    fi
    rm -f "$part.half" "$part.error" "$part.result" "$part.status"
    : > "$part.half"
    : > "$part.error"
    found=$(sha256sum < "$program" 2> "$part.error")
    if [ "${found%% *}" != "$sha" ]; then
        [ -z "$found" ] || echo "$program has the SHA-256 ${found%% *} there, and $sha here" > "$part.error"
        finish "$part" 1
    elif [ "$words" = metrics ]; then
        texts "$part"
        status=$?
        if [ $status = 0 ]; then waiting="$waiting $part"; else finish "$part" $status; fi
    else
        # shellcheck disable=SC2086  # a mode and its options
        "$program" $words < "$part.json" > "$part.half" 2> "$part.error"
        finish "$part" $?
    fi
done
if [ -n "$waiting" ]; then
    # a part is a number, so the words are those of the parts
    # shellcheck disable=SC2086
    "$python" -c 'import sys
sys.path.insert(0, "tools.pyz")
from ccp_tools.over_metrics import main
sys.exit(main(sys.argv[1:]))' $waiting 2> metrics.$$.error
    for part in $waiting; do
        if [ -s "$part.status" ]; then
            finish "$part" "$(cat "$part.status")"
        else
            [ -s "$part.error" ] || cat metrics.$$.error > "$part.error"
            finish "$part" 1
        fi
    done
    rm -f metrics.$$.error
fi
[ "$failed" = 0 ]
