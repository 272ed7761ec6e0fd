#!/usr/bin/env bash
# Runs the shell on each case, and compares what it does with what is stored.
#
#   checks/shell/run.sh
#
# NAME.txt has the lines that the shell reads, and NAME.txt.args the words that it is run with, one a line.
# NAME.txt.stdout is what it must print, NAME.txt.stderr what it must print on standard error (no file: nothing), and
# NAME.txt.status its status (no file: 0). The program is bin/pt_shell, which is built first if it is not up to date.
set -euo pipefail
shopt -s nullglob

here=$(cd "$(dirname "$0")" && pwd)
source "$here/../../.ci/cases"
"$root/.ci/build" pt_shell

# Each file belongs to a case.
for file in "$here"/*.txt.*; do
    [ -f "${file%.txt.*}.txt" ] || wrong "${file#"$here"/}" "it belongs to no case"
done

for lines in "$here"/*.txt; do
    name=$(basename "$lines")
    [ -f "$lines.stdout" ] || { wrong "$name" "it has no .stdout"; continue; }
    words=()
    [ ! -f "$lines.args" ] || mapfile -t words <"$lines.args"
    run pt_shell "$name" "$lines" "${words[@]}"
    is_same "$lines.stdout" "$work/out/$name" "$name" "what it prints"
    stderr=/dev/null
    [ ! -f "$lines.stderr" ] || stderr=$lines.stderr
    is_same "$stderr" "$work/err/$name" "$name" "standard error"
    status=0
    [ ! -f "$lines.status" ] || status=$(cat "$lines.status")
    has_status "$name" "$status"
done

# A line that is too long ends the shell, whatever comes after it.
printf 'open\n%070000d\nclock 0\n' 1 >"$work/long"
echo ok >"$work/wanted"
echo 'a line has more than 65536 bytes' >"$work/said"
run pt_shell long "$work/long"
is_same "$work/wanted" "$work/out/long" long "what it prints"
is_same "$work/said" "$work/err/long" long "standard error"
has_status long 1
verdict shell
