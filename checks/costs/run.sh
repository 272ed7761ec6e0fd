#!/usr/bin/env bash
# Shows that .ci/costs notes what checks cost, keeps what it did not see, and hands on the status of its command.
#
#   checks/costs/run.sh
#
# A check of the toolchain is stood for by a Python program that calls itself rattle and computes for three seconds.
set -euo pipefail

here=$(cd "$(dirname "$0")" && pwd)
costs=$here/../../.ci/costs
work=$(mktemp -d)
trap 'rm -rf "$work"' EXIT
cd "$work"

passed=0
failed=0
holds() {
    local what=$1
    shift
    if "$@"; then passed=$((passed + 1)); else
        failed=$((failed + 1))
        echo "WRONG: $what"
    fi
}
has_status() {
    local wanted=$1 status=0
    shift
    "$@" >said 2>&1 || status=$?
    [ "$status" -eq "$wanted" ] || { cat said; false; }
}

cat >build <<'END'
import time
room = bytearray(60_000_000)
while time.process_time() < 3: pass
END
cp build check
cat >checks <<'END'
(exec -a rattle python3 build --crate-name pt_a src/lib.rt) &
(exec -a rattle python3 build --crate-name pt_b --test src/lib.rt) &
(exec -a rattle python3 check --crate-name pt_c src/main.rt) &
wait
END
printf 'pt_a:\npt_b: pt_a\npt_c: pt_b\n' >crates.txt
printf '%s\n' 'pt_a proof 999 999' 'pt_b proof 41 512' 'pt_gone proof 7 100' >table
cp table before

holds 'a command that fails has its status' has_status 3 "$costs" table bash -c 'exit 3'
holds 'a command that fails leaves the table' cmp -s table before
holds 'a command that does not run is told' has_status 2 "$costs" table ./no-such-command
holds 'no command is told' has_status 2 "$costs" table
holds 'a command that passes has status 0' has_status 0 "$costs" table bash checks
holds 'its proof is noted' grep -qE '^pt_a +proof +[1-4] +[5-9][0-9]$' table
holds 'its tests are noted' grep -qE '^pt_b +tests +[1-4] +[5-9][0-9]$' table
holds 'the check of a program is its proof' grep -qE '^pt_c +proof +[1-4] +[5-9][0-9]$' table
holds 'what it did not check stays' grep -qE '^pt_b +proof +41 +512$' table
holds 'a crate that is gone goes' bash -c '! grep -q pt_gone table'
holds 'the sum is written' grep -qE '^# together (4[4-9]|5[0-3]) seconds$' table
[ "$failed" -eq 0 ] || cat table
echo "costs: $passed passed, $failed failed"
[ "$failed" -eq 0 ]
