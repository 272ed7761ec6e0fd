#!/usr/bin/env bash
# Runs a node that goes on, epoch behind epoch, and shows whether its memory stays as it is.
#
#   bench/soak.sh MINUTES [EVENTS [REST]]
#
# Four desks run on threads. On each, eight clients below a supervisor call the server of the next desk, crash behind fifty
# answers and are started again; a server has a child run an errand now and then. An epoch ends once a journal has more than
# EVENTS events (20,000), and then all rest for REST milliseconds (1,000), so that the files of an hour stay below some
# gigabytes. The history of each epoch goes to a file of its own. Each minute a line is printed: the kilobytes that the
# program has in memory, and how many events and pauses there have been. At the end all files, one behind the other, are
# audited as one history. The status is 0 if it is legal and complete, and the memory of the last minute is at most a
# twentieth above that of the fifth, or of the first where there are fewer.
#
# It works in the folder that ROOM names (/tmp/pundewo-bench), and takes the files away that an earlier run left there.
# bench/build.py builds pt_soak and pt_audit; with BUILT=1 they are taken as they are in ROOM/bin.
set -euo pipefail

minutes=${1-}
events=${2-20000}
rest=${3-1000}
if ! [[ $minutes =~ ^[1-9][0-9]*$ && $events =~ ^[0-9]+$ && $rest =~ ^[0-9]+$ ]]; then
    echo "wanted: bench/soak.sh MINUTES [EVENTS [REST]]" >&2
    exit 2
fi

here=$(cd "$(dirname "$0")" && pwd)
export ROOM=${ROOM:-/tmp/pundewo-bench}
[ -n "${BUILT-}" ] || "$here/build.py" pt_soak pt_audit
files=$ROOM/soak
rm -rf "$files"
mkdir -p "$files"

"$ROOM/bin/pt_soak" "$files" "$((60 * minutes))" "$events" "$rest" >"$ROOM/soak.said" 2>&1 &
running=$!
trap 'kill "$running" 2>/dev/null || true' EXIT

# Prints a line of this minute. The program prints how many pauses and events there were, a line each.
early=0
late=0
tell() {
    local resident pauses count
    resident=$(awk '$1 == "VmRSS:" { print $2 }' "/proc/$running/status")
    read -r pauses count < <(grep -E '^[0-9]+ [0-9]+$' "$ROOM/soak.said" | tail -n 1) || true
    printf '%6s %12s %12s %8s\n' "$1" "${resident:-?}" "${count:-0}" "${pauses:-0}"
    late=${resident:-0}
    if [ "$1" -eq 1 ] || [ "$1" -eq 5 ]; then early=$late; fi
}

echo "$(date -u +%FT%TZ), $(nproc) processors, load $(cut -d' ' -f1-3 /proc/loadavg)"
printf '%6s %12s %12s %8s\n' minute resident_kB events pauses
for ((minute = 1; minute <= minutes; minute++)); do
    # the last look is a second early, while the program is there
    if [ "$minute" -lt "$minutes" ]; then sleep 60; else sleep 59; fi
    kill -0 "$running" 2>/dev/null || break
    tell "$minute"
done

trap - EXIT
fine=true
wait "$running" || fine=false
grep -vE '^[0-9]+ [0-9]+$' "$ROOM/soak.said" || true
find "$files" -name 'epoch-*' -print0 | sort -z | xargs -0 cat | "$ROOM/bin/pt_audit" --complete || fine=false
if [ "$early" -eq 0 ] || [ $((20 * late)) -gt $((21 * early)) ]; then
    echo "soak.sh: the memory has grown from $early kB to $late kB" >&2
    fine=false
fi
$fine
