#!/usr/bin/env bash
# Compares the proved supervisor (pt_supervisor) with OTP's own, over scenarios that chance makes of a seed.
#
#   checks/otp/run.sh [--seed N] [--first N] [--count M] [--slowness MILLISECONDS]
#
# 500 scenarios of the seed 1, if nothing else is said; --first begins with another one than the first. It needs OTP's
# `escript` (Debian: erlang-base), and says so in one line where that is not. RT names another 'rt'.
#
# driver/ is a Rattle program. It makes the scenarios, plays them on a supervisor in a crew at times that it says itself, and
# prints them. supervisors.escript plays the same on OTP's supervisor in real time, and compare.py compares what was seen in
# each step. The driver is compiled and not proved: what it calls is. It is kept in bin/, until a source changes.
#
# The lines of a scenario, in their order:
#   scenario NUMBER STRATEGY MOST SPAN        at most so many restarts within so much time
#   child SPEC                                each child that the supervisor has from the start
#   step TIME                                 what is done at this time, before the supervisor runs, and what is seen then
#   do exit PROCESS REASON                    the process of a child exits by itself
#   do signal PROCESS REASON                  it gets an exit signal from outside
#   do unlink PROCESS                         it takes its link with the supervisor away
#   do bid PROCESS REASON                     it sends the supervisor an exit signal, and lives on
#   do call NUMBER terminate|restart|delete ID, start SPEC, which or count
#   do stop REASON                            the parent of the supervisor sends it an exit signal
#   saw started ID PROCESS                    the child with this id; processes are numbered as they start
#   saw ended ID PROCESS REASON
#   saw failed ID                             a start failed
#   saw answer NUMBER ANSWER                  the call with this number returned that
#   saw boss REASON                           the supervisor exited, also as it began
#   end TIME
# A SPEC is its number, and the child's id, restart type, shutdown and kind. The kinds: plain; slow TIME REASON, which
# traps exits and exits so much later; deaf, which traps exits and stays; failing N M, of which M starts fail behind the Nth.
#
# What is meant to differ (docs/RUNTIME.md, 'Compared with OTP'), and how it is left out:
# - A temporary child keeps its place when it has exited. The driver deletes it before the next call.
# - OTP's which_children has the last child in front. The escript turns its list round.
# - OTP's count_children asks whether each process is alive. The driver counts no child whose exit is still unheard.
# - A child that a call added, and that did not start, keeps its place. The driver deletes it at once.
# - Children that wait for another one whose start failed are to be started, and OTP's are not. The driver shows them so.
#   Where starts fail under one_for_all and rest_for_one, no call changes the children.
# - What comes behind a try is handled before the next one, and OTP's behind it. So nothing comes between the two that is
#   behind: where starts fail under one_for_one, no child takes time to exit.
# - OTP's start_link returns when the children that were started have exited again, if a first one does not start. In a scenario
#   in which that may be, no child takes time to exit.
# - OTP counts restarts by whole seconds. Restarts are less than a short span apart, just as much, or at least twice.
# - Which orphan exits first behind its supervisor is chance. compare.py puts them in order.
# - OTP allows no two children with one id, and none of these scenarios has them.
set -euo pipefail

here=$(cd "$(dirname "$0")" && pwd)
seed=1
first=0
count=500
slowness=()
while [ $# -gt 0 ]; do
    case $1 in
        --seed | --first | --count | --slowness)
            [[ ${2-} =~ ^[0-9]+$ ]] || { echo "run.sh: $1 needs a number" >&2; exit 2; }
            ;;&
        --seed) seed=$2 ;;
        --first) first=$2 ;;
        --count) count=$2 ;;
        --slowness) slowness+=("$2") ;;
        *)
            echo "run.sh: no word '$1' (--seed, --first, --count, --slowness)" >&2
            exit 2
            ;;
    esac
    shift 2
done

if ! command -v escript >/dev/null; then
    echo "otp: skipped: there is no 'escript' of Erlang/OTP (apt-get install erlang-base)"
    exit 0
fi

# The driver, as a program of a copy of the crates. What was built before is taken if no source changed since.
source "$here/../../.ci/copy"
name=supervisors
mkdir -p "$work/crates/$name/src" "$work/bin/.sums" "$root/bin/.sums"
for file in "$here"/driver/*.rt.txt; do
    cp "$file" "$work/crates/$name/src/$(basename "$file" .txt)"
done
echo "$name: pt_node pt_behaviour pt_crew pt_supervisor anyhow" >>"$work/crates.txt"
if [ -e "$root/bin/$name" ] && [ -e "$root/bin/.sums/$name" ]; then
    cp "$root/bin/$name" "$work/bin/$name"
    cp "$root/bin/.sums/$name" "$work/bin/.sums/$name"
fi
"$root/.ci/build" --in "$work" --quick "$name"
cp "$work/bin/$name" "$root/bin/$name.new"
mv "$root/bin/$name.new" "$root/bin/$name"
cp "$work/bin/.sums/$name" "$root/bin/.sums/$name"

"$work/bin/$name" "$seed" "$first" "$count" >"$work/scenarios"
"$here/compare.py" "$work/scenarios" "${slowness[@]}"
