#!/usr/bin/env bash
# Whether docs/chart.svg is what the program draws of the supervisor's script.
#
#   tools/chart.sh            says so if it is not; its status is then 1
#   tools/chart.sh --write    draws it anew
#
# The program is bin/pt_run, which is built first if it is not up to date.
set -euo pipefail
cd "$(dirname "$0")/.."
.ci/build pt_run
drawn=$(mktemp)
trap 'rm -f "$drawn"' EXIT
bin/pt_run --print chart checks/examples/supervisor.json >"$drawn"
if [ "${1:-}" = --write ]; then
    cp "$drawn" docs/chart.svg
elif ! cmp -s "$drawn" docs/chart.svg; then
    echo "docs/chart.svg is not what pt_run draws of checks/examples/supervisor.json: tools/chart.sh --write draws it anew"
    exit 1
fi
