#!/usr/bin/env bash
# Shows that a call that is refused memory leaves all as it was, for each piece of memory that it takes.
#
#   checks/refused/run.sh            both of these
#   checks/refused/run.sh calls      each call that takes memory
#   checks/refused/run.sh reading    the reading of a script
#
# The program of calls/ makes each call that takes memory (calls.txt) on something that is made for it, with its Nth
# growth refused, for each that it takes. After each refusal all that can be read is compared, and what the same call
# then does with memory is compared with what it does where nothing is refused. Beside it random sequences of calls are
# played, with several refusals each. The crates stand on a heap of its own there (heap.rt.txt, over_heap), which refuses
# what it is told to, as often as it is told.
#
# Scripts are read by a parser that takes the host's memory alone. So reading.rt.txt reads one, once for each piece that
# this takes, in a program that is built to refuse that piece.
#
# Both are compiled in a folder of their own and not proved; judge.awk and reading.awk say whether what they print is as
# it should be. RT names another 'rt'.
#
# With PT_PROVING=1 the program of the calls is compiled without the checks of each access to memory, as the gate has it: the crates
# are proved beside it there, for an allocator that may refuse. What the program compares, it compares in either way.
set -euo pipefail

case ${1-} in
'') parts=(calls reading) ;;
calls | reading) parts=("$1") ;;
*) echo "wanted: checks/refused/run.sh [calls|reading]" >&2; exit 2 ;;
esac

here=$(cd "$(dirname "$0")" && pwd)
source "$here/../../.ci/copy"

# Runs a part of the program of the calls; what it prints, and its status, go to files of that part.
run_part() {
    local status=0
    "$root/.ci/bounded" 3600 env -i ASAN_OPTIONS=exitcode=99 "$work/bin/pt_refused" >"$work/$1" 2>&1 <<<"$1" || status=$?
    echo "status=$status" >>"$work/$1"
}

# The calls one by one, and beside them the sequences of calls.
try_calls() {
    local file
    "$here/over_heap" "$work"
    mkdir -p "$work"/crates/{pt_heap,pt_refused}/src
    cp "$here/heap.rt.txt" "$work/crates/pt_heap/src/lib.rt"
    for file in "$here"/calls/*.rt.txt; do
        cp "$file" "$work/crates/pt_refused/src/$(basename "$file" .txt)"
    done
    echo pt_refused: pt_{heap,signal,slots,timers,names,schedules,process,accounts,carrier,directory,history,texts,auditor,shard,node,behaviour,crew,supervisor,scheduler,epochs,script,runner,render,report} >>"$work/crates.txt"
    "$root/.ci/build" --in "$work" "$(if [ -n "${PT_PROVING-}" ]; then echo --quick; else echo --checked; fi)" pt_refused
    run_part sequences &
    run_part calls
    wait
    awk -v CALLS="$here/calls.txt" -f "$here/judge.awk" "$work/calls" "$work/sequences"
}

# The piece with this number is refused. Case K takes and gives back so many pieces first that it is about the Kth of
# the reading's own; case 0000 takes so few that none is refused. There are more cases than the reading takes pieces.
refused=1000
cases=150

# Reads the script after so many other pieces.
read_after() {
    local status=0
    echo "== $1"
    "$root/.ci/bounded" 60 env -i ASAN_OPTIONS=exitcode=99 "$work/bin/pt_reading" 2>&1 <<<"$2" || status=$?
    echo "case=$1 status=$status"
}

try_reading() {
    local k
    mkdir -p "$work/crates/pt_reading/src"
    cp "$here/reading.rt.txt" "$work/crates/pt_reading/src/main.rt"
    echo pt_reading: pt_script >>"$work/crates.txt"
    "$root/.ci/build" --in "$work" pt_reading -- --fail-alloc "$refused"
    read_after 0000 0000 >"$work/reading"
    for ((k = 1; k <= cases; k++)); do
        read_after "$(printf '%04d' "$k")" "$((refused - k))" >>"$work/reading"
    done
    awk -v CASES="$cases" -f "$here/reading.awk" "$work/reading"
}

fine=true
for part in "${parts[@]}"; do
    "try_$part" || fine=false
done
$fine
