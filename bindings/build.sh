#!/usr/bin/env bash
# Builds the proved library for C, Rust and Python into a folder, as other packages install theirs.
#
#   bindings/build.sh FOLDER              takes what the gate proved and left here, if it is of the same sources. Else it
#                                         proves what `rt lib` has not proved yet
#   bindings/build.sh --unproved FOLDER   proves nothing: for trying out, in a minute or two, and slower to run
#
# PT_C_ARCHIVE names an archive of pt_c that was built before. `pundewo_build`, a text in the library, says whether it was
# proved, and has the checksum of that archive then.
# FOLDER gets include/pundewo.h and pundewo_text.h, lib/libpundewo.a and libpundewo.so, lib/pkgconfig/pundewo.pc,
# lib/pundewo_native.abi3.so for Python, and SHA256SUMS. It may be moved. The heap of the toolchain's C library is within both libraries, so a program links nothing
# else. The toolchain's own compiler and linker build all of it, so it is the same on each machine. RT names another 'rt'.
set -euo pipefail

proved=true
[ "${1:-}" != --unproved ] || { proved=false; shift; }
case ${1:-} in
    '' | -*) sed -n '2,/^set /{/^set /d;s/^# \{0,1\}//;p}' "$0" >&2; exit 2 ;;
esac
here=$(cd "$(dirname "$0")" && pwd)
mkdir -p "$1"
folder=$(cd "$1" && pwd)
archive=${PT_C_ARCHIVE:-}
rt=${RT:-rt}
kit=$(dirname "$("$rt" doc)")
tools=$kit/toolchain/bin

work=$(mktemp -d)
trap 'rm -rf "$work"' EXIT
if ! $proved; then
    "$here/../.ci/unproved_archive.py" "$work/libpt_c.a"
    archive=$work/libpt_c.a
elif [ -z "$archive" ] && kept=$("$here/proved.py" 2>/dev/null); then
    archive=$kept/libpt_c.a
elif [ -z "$archive" ]; then
    "$here/archive.sh" "$work/libpt_c.a"
    archive=$work/libpt_c.a
fi
[ -f "$archive" ] || { echo "build.sh: no archive at $archive" >&2; exit 1; }

value() { # MACRO
    sed -n "s/^#define $1 \"\{0,1\}\([^\"]*\)\"\{0,1\}\$/\1/p" "$here/c/pundewo.h"
}
version=$(value PUNDEWO_VERSION)
soname=libpundewo.so.${version%%.*}
build="pundewo $version, proved: $(sha256sum <"$archive" | cut -c 1-64)"
# (grep reads all that nm prints: if it stopped at the first match, nm would fail, and the archive would pass for proved)
if nm "$archive" 2>/dev/null | grep ' pt_c_is_not_proved$' >/dev/null; then
    build="pundewo $version, not proved: for trying out"
fi
"$tools/clang" --target=x86_64-unknown-linux-gnu -std=c11 -Wall -Wextra -Werror -O2 -fPIC "-DPUNDEWO_BUILD=\"$build\"" \
    "-DPUNDEWO_VERSION_NUMBER=$(value PUNDEWO_VERSION_NUMBER)" -c -o "$work/version.o" "$here/c/version.c"

rm -rf "${folder:?}/include" "${folder:?}/lib" "$folder/SHA256SUMS"
mkdir -p "$folder/include" "$folder/lib/pkgconfig"
cp "$here/c/pundewo.h" "$here/c/pundewo_text.h" "$folder/include/"
"$tools/llvm-ar" -M <<END
create $folder/lib/libpundewo.a
addlib $archive
addlib $kit/c/liblibc_c.a
addmod $work/version.o
save
end
END
# The shared library exports what the header declares. It names no library that it needs: the program has a C library, and
# it may be any.
{
    echo '{ global: pundewo_build;'
    sed -nE 's/^(uint32_t |void |unsigned |const char \*)(pt_\w+)\(.*/\2;/p' "$folder/include/pundewo.h"
    echo 'local: *; };'
} >"$work/exported"
"$tools/ld.lld" -shared -soname "$soname" --version-script "$work/exported" --build-id=sha1 --gc-sections \
    --strip-all --hash-style=gnu -z relro -z now -o "$folder/lib/libpundewo.so.$version" \
    --whole-archive "$folder/lib/libpundewo.a"
# The module for Python. It names no library either: its calls are Python's own, and those of libpundewo.so are told to it.
# (the toolchain's compiler has no headers: these are what pundewo.h includes)
mkdir "$work/headers"
echo '#define bool _Bool' >"$work/headers/stdbool.h"
printf '%s\n' 'typedef __SIZE_TYPE__ size_t;' 'typedef __PTRDIFF_TYPE__ ptrdiff_t;' '#define NULL ((void *)0)' >"$work/headers/stddef.h"
for bits in 8 16 32 64; do
    echo "typedef __UINT${bits}_TYPE__ uint${bits}_t; typedef __INT${bits}_TYPE__ int${bits}_t;"
done >"$work/headers/stdint.h"
"$tools/clang" --target=x86_64-unknown-linux-gnu -std=c11 -Wall -Wextra -Werror -O2 -fPIC -fvisibility=hidden "-DPUNDEWO_BUILD=\"$build\"" \
    -isystem "$work/headers" -I "$here/c" -c -o "$work/native.o" "$here/python/native.c"
"$tools/ld.lld" -shared --build-id=sha1 --gc-sections --strip-all --hash-style=gnu -z relro -z now -z noexecstack \
    -o "$folder/lib/pundewo_native.abi3.so" "$work/native.o"
ln -s "libpundewo.so.$version" "$folder/lib/$soname"
ln -s "$soname" "$folder/lib/libpundewo.so"
sed "s|@VERSION@|$version|" "$here/c/pundewo.pc.in" >"$folder/lib/pkgconfig/pundewo.pc"
(cd "$folder" && find include lib -type f | LC_ALL=C sort | xargs sha256sum >SHA256SUMS)
echo "$build"
echo "built in $folder: include/pundewo.h lib/libpundewo.a lib/libpundewo.so lib/pkgconfig/pundewo.pc"
