#!/usr/bin/env bash
# Runs the auditor on histories, and compares what it says of each.
#
#   checks/audit/run.sh
#
# Each history that is stored beside the examples is legal, and so is one of each script that is made here on many
# threads: this script counts the events, desks and letters on their way of each by itself. So it is with a carriage
# return before each line feed, without the last line feed, and cut into one file a desk. A stored one that is cut off
# behind a line is legal as far as it goes: the auditor reports a letter on its way or nothing. Behind any byte, the last
# line is at fault or none. selected.txt has what is printed of a history, refused.txt histories that are not legal, with
# the line at fault of each, and statuses.txt what is said beside a verdict.
#
# Each history that is stored is cut at every rest, too, and judged piece by piece, each over the state that the one before
# it left (--save, --resume). The last verdict, what became of each process and the state are those of the history judged
# as a whole. states.txt has states that are refused. The programs are bin/pt_run and bin/pt_audit, which are built first if they are not up
# to date.
set -euo pipefail
shopt -s nullglob

here=$(cd "$(dirname "$0")" && pwd)
source "$here/../../.ci/cases"
"$root/.ci/build" pt_run pt_audit
mkdir "$work/cases" "$work/wanted" "$work/stored" "$work/desks"

# What is said of a legal history.
counted() {
    awk -F'[@ ]' '
        /^left-over/ { letters++; next }
        { events++; if ($2 + 1 > desks) desks = $2 + 1 }
        END { printf "legal: %d events, %d desks, %d letters on their way\n", events, desks, letters }' "$1"
}

# make NAME SCRIPT WORDS.. has the program make what it prints of a script on many threads.
make() {
    local name=$1 script=$2
    shift 2
    run pt_run "made-$name" "$script" "$@"
    unset "ran[made-$name]"
    [ "$(cat "$work/status/made-$name")" = 0 ] || wrong "made-$name" "$(cat "$work/err/made-$name")"
}

for script in "$root"/checks/examples/*.json; do
    name=$(basename "$script" .json)
    make "$name" "$script" --threads many --turns 100000 --print history
    cp "$work/out/made-$name" "$work/stored/many-$name"
done

# A chart, which the auditor has to print likewise, but for the names: only the script has these.
mapfile -t words <"$root/checks/examples/lane.json.args"
make chart "$root/checks/examples/lane.json" "${words[@]}" --print chart
sed '/^<text class="n"[^>]*>[A-Za-z][^<]*<\/text>$/d' "$work/out/made-chart" >"$work/chart"

for printed in "$root"/checks/examples/*.json.stdout; do
    head -n 1 "$printed" | grep -q '^[0-9]*@' || continue
    cp "$printed" "$work/stored/$(basename "$printed" .json.stdout)"
done

# One file a desk, letters left over in the last.
for history in "$work/stored"/*; do
    name=$(basename "$history")
    cp "$history" "$work/cases/$name"
    sed 's/$/\r/' "$history" >"$work/cases/$name-returns"
    head -c -1 "$history" >"$work/cases/$name-cut"
    : >"$work/cases/$name-desks"
    : >"$work/cases/$name-desks.args"
    for desk in $(awk -F'[@ ]' '/^[0-9]*@/ { print $2 }' "$history" | sort -nu) left; do
        if [ "$desk" = left ]; then
            grep '^left-over' "$history" >"$work/desks/$name-$desk" || true
        else
            grep "^[0-9]*@$desk " "$history" >"$work/desks/$name-$desk"
        fi
        echo "$name-$desk" >>"$work/cases/$name-desks.args"
    done
    for form in "$name" "$name-returns" "$name-cut" "$name-desks"; do
        counted "$history" >"$work/cases/$form.stdout"
    done
done

# Those that are stored cut off behind each line, and one of them behind each fifth byte.
for history in "$work/stored"/*; do
    name=$(basename "$history")
    [[ $name != many-* ]] || continue
    lines=$(grep -c '^[0-9]*@' "$history")
    for count in $(seq "$lines"); do
        head -n "$count" "$history" >"$work/cases/prefix-$name-$count"
    done
done
for count in $(seq 1 5 "$(wc -c <"$work/stored/ping")"); do
    head -c "$count" "$work/stored/ping" >"$work/cases/bytes-$count"
done

awk -v cases="$work/cases/" -v wanted="$work/wanted/" '
    /^#/ { next }
    /^== / { name = "refused-" $2; printf "" > (cases name); next }
    /^=> / { print substr($0, 4) > (wanted name); name = ""; next }
    name != "" { gsub(/\\r/, "\r"); print > (cases name) }' "$here/refused.txt"

# With --judge a history that no node prints is legal, and it is printed with one name a file if there are several.
for wanted in "$work/wanted"/refused-*; do
    grep -q '^legal, but of no node: ' "$wanted" || continue
    name=$(basename "$wanted")-judged
    cp "$work/cases/$(basename "$wanted")" "$work/cases/$name"
    echo --judge >"$work/cases/$name.args"
    counted "$work/cases/$name" >"$work/cases/$name.stdout"
done
printf '%s\n' '1@0 born <0.0.1>' '3@0 left <0.0.1> normal' >"$work/desks/first"
printf '%s\n' '2@1 born <1.0.1>' '4@1 born <1.0.2>' >"$work/desks/second"
: >"$work/cases/of_no_node-desks"
printf '%s\n' first second >"$work/cases/of_no_node-desks.args"
echo 'legal, but of no node: second: line 2: the version before it in the slot has not ended' \
    >"$work/wanted/of_no_node-desks"

# A line of a byte more than is read.
printf '1@0 born <0.0.1>%1009s\n' '' >"$work/cases/refused-long"
echo 'line 1: more than 1024 bytes' >"$work/wanted/refused-long"

# What is printed of the history of lane.json.
awk -v cases="$work/cases/" '
    /^#/ { next }
    /^== / { name = "selected-" $2; words = $0; sub(/^== [^ ]* ?/, "", words); gsub(/ /, "\n", words)
        print words > (cases name ".args"); next }
    name != "" && NF { print > (cases name ".stdout") }' "$here/selected.txt"
for words in "$work/cases"/selected-*.args; do
    cp "$work/stored/lane" "${words%.args}"
done

cp "$work/stored/lane" "$work/cases/drawn"
printf '%s\n' --print chart >"$work/cases/drawn.args"
{ cat "$work/chart"; echo "<!-- $(counted "$work/stored/lane") -->"; } >"$work/cases/drawn.stdout"

# The auditor gets a case on standard input, and finds the files that its words name.
room=$work/desks
audit() {
    local words=()
    [ ! -f "$work/cases/$1.args" ] || mapfile -t words <"$work/cases/$1.args"
    run pt_audit "$1" "$work/cases/$1" "${words[@]}"
}

for wanted in "$work/cases"/*.stdout; do
    name=$(basename "$wanted" .stdout)
    audit "$name"
    is_same "$wanted" "$work/out/$name" "$name" "what it prints"
    has_status "$name" 0
done
for wanted in "$work/wanted"/*; do
    name=$(basename "$wanted")
    audit "$name"
    is_same "$wanted" "$work/err/$name" "$name" "standard error"
    has_status "$name" 1
done

# What is said beside a verdict.
mkdir "$work/said" "$work/statuses"
: >"$work/desks/here"
awk -v cases="$work/cases/" -v said="$work/said/" -v statuses="$work/statuses/" '
    /^#/ { next }
    /^== / { name = "said-" $2; print $3 > (statuses name); printf "" > (cases name); printf "" > (said name)
        printf "" > (cases name ".args"); for (i = 4; i <= NF; i++) print $i > (cases name ".args"); next }
    /^=> / { print substr($0, 4) > (said name); next }
    name != "" && NF { if (sub(/\\c$/, "")) printf "%s", $0 > (cases name); else print > (cases name) }' "$here/statuses.txt"
for status in "$work/statuses"/*; do
    name=$(basename "$status")
    audit "$name"
    is_same "$work/said/$name" "$work/err/$name" "$name" "standard error"
    has_status "$name" "$(cat "$status")"
done

# States that are refused, and one that is cut off behind each byte.
mkdir "$work/states"
awk -v rooms="$work/desks/" -v states="$work/states/" '
    /^#/ { next }
    /^== / { name = $2; file = rooms "state-" name; printf "" > file; printf "" > (states name); next }
    /^=> / { print "state-" name ": " substr($0, 4) > (states name); name = ""; next }
    name != "" && NF { sub(/^\\e$/, ""); gsub(/\\r/, "\r"); print > file }' "$here/states.txt"
for state in "$work/states"/*; do
    name=$(basename "$state")
    run pt_audit "state-$name" "$work/desks/here" --resume "state-$name"
    is_same "$state" "$work/err/state-$name" "state-$name" "standard error"
    if [ "$name" = whole ]; then has_status "state-$name" 0; else has_status "state-$name" 3; fi
done
for count in $(seq 0 7 "$(($(wc -c <"$work/desks/state-whole") - 1))"); do
    head -c "$count" "$work/desks/state-whole" >"$work/desks/cut"
    run pt_audit "state-cut-$count" "$work/desks/here" --resume cut
    has_status "state-cut-$count" 3
    lines=$(grep -c '' "$work/desks/cut" || true)
    grep -q -e "^cut: line $lines: column " -e "^cut: line $((lines + 1)): column 1: " "$work/err/state-cut-$count" \
        || wrong "state-cut-$count" "$(cat "$work/err/state-cut-$count")"
done

# Each stored history piece by piece, cut at every rest.
cut_at_rests() {
    local name=$1 history=$work/stored/$1 lines from=0 count words=()
    lines=$(grep -c '^[0-9]*@' "$history")
    for count in $(seq "$lines"); do
        sed -n "$((from + 1)),${count}p" "$history" >"$work/desks/piece"
        run pt_audit "piece-$name-$count" "$work/desks/piece" --print summary --save "left-$name-$count" "${words[@]}"
        case $(cat "$work/status/piece-$name-$count") in
        0)
            from=$count
            words=(--resume "left-$name-$count")
            head -n "$count" "$history" >"$work/desks/whole"
            run pt_audit "whole-$name-$count" "$work/desks/whole" --print summary --save "whole-$name-$count"
            is_same "$work/desks/whole-$name-$count" "$work/desks/left-$name-$count" "piece-$name-$count" "the state"
            is_same <(sort "$work/out/whole-$name-$count") <(sort "$work/out/piece-$name-$count") "piece-$name-$count" \
                "what became of the processes"
            rests=$((rests + 1))
            ;;
        1) grep -q "^line $((count - from + 1)): no line tells of what is on its way: " "$work/err/piece-$name-$count" ;;
        *) false ;;
        esac || wrong "piece-$name-$count" "$(cat "$work/err/piece-$name-$count")"
    done
    sed -n "$((from + 1)),\$p" "$history" >"$work/desks/piece"
    run pt_audit "pieces-$name" "$work/desks/piece" "${words[@]}"
    has_status "pieces-$name" 0
    is_same "$work/cases/$name.stdout" "$work/out/pieces-$name" "pieces-$name" "the verdict"
}
rests=0
for history in "$work/stored"/*; do
    name=$(basename "$history")
    [[ $name == many-* ]] || cut_at_rests "$name"
done
[ "$rests" -gt 50 ] || wrong rests "$rests rests in all"

# On a terminal an audit that takes long tells how far it is.
ran[on_a_terminal]=1
"$here/progress_on_a_terminal.py" "$root/bin/pt_audit" >"$work/terminal" || wrong on_a_terminal "$(cat "$work/terminal")"

# What a history that is cut off leads to: it is legal, or its end is at fault.
for case in "$work/cases"/prefix-* "$work/cases"/bytes-*; do
    name=$(basename "$case")
    audit "$name"
    [ "$(cat "$work/status/$name")" != 0 ] || continue
    has_status "$name" 1
    lines=$(grep -c '' "$case")
    case $name in
    prefix-*) grep -q "^line $((lines + 1)): no line tells of what is on its way: " "$work/err/$name" ;;
    *) grep -q -e "^line $lines: " -e "^line $((lines + 1)): no line tells" "$work/err/$name" ;;
    esac || wrong "$name" "$(cat "$work/err/$name")"
done
# Help and the version are on standard output.
for word in --help --version; do
    run pt_audit "words$word" /dev/null "$word"
    grep -q pt_audit "$work/out/words$word" || wrong "words$word" "it prints $(cat "$work/out/words$word")"
    is_same /dev/null "$work/err/words$word" "words$word" "standard error"
    has_status "words$word" 0
done
verdict audit
