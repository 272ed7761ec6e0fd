#!/usr/bin/env bash
# Runs the program on each example, and compares what it does with what is stored.
#
#   checks/examples/run.sh
#
# NAME.json is a script, and NAME.json.args has the words that it is run with, one a line. NAME.json.stdout is what the
# program must print; its status is then 0, and it prints on standard error what NAME.json.stderr has, if there is one, and
# else nothing. In refused/ it must print nothing: NAME.json.stderr is what it must print on
# standard error, and NAME.json.status its status. An example without these files is wrong too. The program is
# bin/pt_run, which is built first if it is not up to date. It is not proved: the proved one runs behind its proofs, on
# threads.json, which is the case of its crate.
set -euo pipefail
shopt -s nullglob

here=$(cd "$(dirname "$0")" && pwd)
source "$here/../../.ci/cases"
"$root/.ci/build" pt_run

# Runs the program on a script, with its words.
run_script() {
    local words=()
    [ ! -f "$1.args" ] || mapfile -t words <"$1.args"
    run pt_run "$2" "$1" "${words[@]}"
    sed -i 's/^Usage: [^ ]*/Usage: pt_run/' "$work/err/$2"
}

# Each file belongs to a script, and each script has what the program must do.
for file in "$here"/*.json.* "$here"/refused/*.json.*; do
    [ -f "${file%.json.*}.json" ] || wrong "${file#"$here"/}" "it belongs to no script"
done

for script in "$here"/*.json; do
    name=$(basename "$script")
    [ -f "$script.stdout" ] || { wrong "$name" "it has no .stdout"; continue; }
    run_script "$script" "$name"
    is_same "$script.stdout" "$work/out/$name" "$name" "what it prints"
    said=/dev/null
    [ ! -f "$script.stderr" ] || said=$script.stderr
    is_same "$said" "$work/err/$name" "$name" "standard error"
    has_status "$name" 0
done
for script in "$here"/refused/*.json; do
    name=refused_$(basename "$script")
    [ -f "$script.stderr" ] && [ -f "$script.status" ] || { wrong "$name" "it has no .stderr or no .status"; continue; }
    run_script "$script" "$name"
    is_same /dev/null "$work/out/$name" "$name" "what it prints"
    is_same "$script.stderr" "$work/err/$name" "$name" "standard error"
    has_status "$name" "$(cat "$script.status")"
done
for file in stdin: args:.args stdout:.stdout; do
    cmp "$root/crates/pt_run/${file%:*}" "$here/threads.json${file#*:}" || wrong threads.json "its crate has another ${file%:*}"
done

# On a terminal a refusal is explained without a word.
refused=$here/refused/explained_operation.json
ran[on_a_terminal]=1
"$here/explained_on_a_terminal.py" "$root/bin/pt_run" "$refused" >"$work/terminal"
cmp "$refused.stderr" "$work/terminal" || wrong on_a_terminal "it says something else"

# On a terminal a run that takes long tells how far it is.
ran[progress]=1
"$here/progress_on_a_terminal.py" "$root/bin/pt_run" >"$work/progress" || wrong progress "$(cat "$work/progress")"
verdict examples
