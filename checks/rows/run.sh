#!/usr/bin/env bash
# Plays the worked rows through the shell of calls, and compares each answer.
#
#   checks/rows/run.sh [PROGRAM]
#
# PROGRAM is the built program pt_shell; if it is not given, PT_SHELL names it. The last line says how many rows were
# played, how many answers were compared, and how many plays went wrong. README.md says how to read and write a row.
set -euo pipefail

here=$(cd "$(dirname "$0")" && pwd)
program=${1:-${PT_SHELL:-}}
if [ -z "$program" ]; then
    echo "rows: no program: name the built pt_shell as the argument, or by PT_SHELL" >&2
    exit 2
fi
if [ ! -x "$program" ]; then
    echo "rows: $program is no program that can be run" >&2
    exit 2
fi
exec env PYTHONDONTWRITEBYTECODE=1 python3 "$here/play.py" "$program"
