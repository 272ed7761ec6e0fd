#!/usr/bin/env bash
# bench/bindings/instructions.sh PROGRAM: how many instructions each call of the C library takes, by what 20,000 calls
# take more than 10,000 (`valgrind --tool=callgrind`). PROGRAM is calls.c, built. `bindings/run.sh --speed` calls it.
set -euo pipefail
counted() { # NAME COUNT
    valgrind --tool=callgrind --callgrind-out-file=/dev/null "$1" "$2" "$3" 2>&1 | sed -n 's/.*Collected : *//p'
}
for name in clock alive knows peek receive event_at message life crew; do
    few=$(counted "$1" "$name" 10000)
    many=$(counted "$1" "$name" 20000)
    echo "C $name: $(((many - few) / 10000)) instructions a call"
done
# (a call is a step with 64 jobs, of which each is a message)
few=$(counted "$1" crew_64 1000)
many=$(counted "$1" crew_64 2000)
echo "C crew, 64 jobs a step: $(((many - few) / 64000)) instructions a message"
