#!/usr/bin/env bash
# Writes the proved archive of pt_c.
#
#   bindings/archive.sh ARCHIVE         over the libraries that `rt ci` left, if it passed the files as they are now: the
#                                       library itself is checked once more, and nothing below it. Else by `rt lib`, which
#                                       proves what it has not proved yet
#   bindings/archive.sh --gate ARCHIVE  over the libraries that `rt ci` has just left
#
# `.ci/run` notes what `rt ci` passed (bindings/proved.py --note). RT names another 'rt'.
set -euo pipefail

gate=false
[ "${1:-}" != --gate ] || { gate=true; shift; }
case ${1:-} in
    '' | -*) sed -n '2,/^set /{/^set /d;s/^# \{0,1\}//;p}' "$0" >&2; exit 2 ;;
esac
here=$(cd "$(dirname "$0")" && pwd)
mkdir -p "$(dirname "$1")"
archive=$(cd "$(dirname "$1")" && pwd)/$(basename "$1")
rt=${RT:-rt}
cd "$here/../crates/pt_c"

# Whether `rt ci` left the libraries. (one with a stamp is one of `rt check`, and `rt lib` sees whether it is up to date)
are_left() {
    [ -d ../pt_node/out/rlib/pt_node.rlib ] || return 1
    for stamp in ../*/out/rlib/stamp; do
        [ ! -e "$stamp" ] || return 1
    done
}

# The compiler's own command, as the gate calls it for a program.
over_gate() {
    local kit words name folder
    kit=$(dirname "$("$rt" doc)")
    words=(--crate-name pt_c src/lib.rt --crate-type staticlib --links pt_c= --jobs "$(nproc)")
    for name in std $(sed -n 's/^pt_c staticlib: //p' ../../crates.txt); do
        folder=../$name/out/rlib
        [ -d "../$name" ] || folder=$kit/rlibs
        words+=(--extern "$name=$folder/$name.rlib")
    done
    for folder in "$kit/rlibs" ../*/out/rlib; do
        words+=(-L "dependency=$folder")
    done
    words+=(--antt-project "$kit/rattle/logic/antt-project.json" --logic-built "$kit/logic_built")
    "$kit/bin/rattle" build "${words[@]}" --toolchain "$kit/toolchain" --backend llvm -o "$archive"
}

if $gate || "$here/proved.py" --noted >/dev/null 2>&1; then
    if are_left; then
        over_gate
        exit
    fi
fi
"$rt" lib
cp out/libpt_c.a "$archive"
