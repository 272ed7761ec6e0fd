#!/bin/sh
# Has the files of `HistoryFile.rotating(PATH, ..)` judged in order, each over the state after those before it.
#
#   audit_all.sh PATH
#
# The first file of a run, whose name ends with 000001, begins with the state before all. The last state is in PATH.state.
set -eu
for file in "$1".??????.??????; do
    case $file in
        *.000001) pt_audit --save "$1.state" - </dev/null ;;
    esac
    pt_audit --resume "$1.state" --save "$1.state" --complete "$file"
done
