#!/usr/bin/env bash
# Runs twenty scripts on threads, each so often, and says whether each run ends as a schedule of moves does.
#
#   checks/explore/repeats.sh [RUNS [LATE]]    (100,000 runs of each, and at most 200 operations later, if nothing is said)
#
# Ten of the scripts are stored here, and ten are drawn by chance. The program of repeats/ makes all runs of a script; it is
# compiled in a folder of its own and not proved. RT names another 'rt'.
set -euo pipefail

here=$(cd "$(dirname "$0")" && pwd)
source "$here/../../.ci/copy"

mkdir -p "$work/crates/pt_repeats/src"
cp "$here/repeats/main.rt.txt" "$work/crates/pt_repeats/src/main.rt"
echo 'pt_repeats: pt_render pt_report' >>"$work/crates.txt"
"$root/.ci/build" --in "$work" pt_repeats
examples=$here/../examples
scripts=("$here"/moves_{causal,cross,glare,same_desk}.json "$here"/race.json
    "$examples"/{cascade,child_starts,ended,steps,unlink}.json)
python3 "$here/on_threads.py" --repeated "$work/bin/pt_repeats" "${scripts[@]}" --runs "${1-100000}" --late "${2-200}" --random 10
