#!/bin/sh
# Installs the library as a packager does, then builds the example with what pkg-config says and nothing else: as a PIE, as none, and
# with the library in a shared object; and a C++ program. Each must print what is stored. Run by make installation.
set -eu
cd "$(dirname "$0")/.."
work=$(mktemp -d)
trap 'rm -rf "$work"' EXIT
prefix=$work/usr

make -s install PREFIX="$prefix" DESTDIR="$work/stage"
mv "$work/stage$prefix" "$prefix"
(cd "$prefix" && find . -type f -printf '%m %p\n' | sort -k 2) >"$work/files"
diff - "$work/files" <<'LIST'
644 ./include/dnscookie.h
644 ./lib/libdnscookie.a
644 ./lib/pkgconfig/dnscookie.pc
LIST

export PKG_CONFIG_PATH="$prefix/lib/pkgconfig"
pkg-config --validate dnscookie
cflags=$(pkg-config --cflags dnscookie)
libs=$(pkg-config --libs dnscookie)
strict='-Wall -Wextra -pedantic -Werror -O2'
link='-Wl,--fatal-warnings -Wl,-z,text -Wl,-z,defs'

# Compiles, runs and compares: a name, then what is added to the command.
compare() {
    name=$1
    shift
    ${CC:-cc} -std=c99 $strict $cflags tests/example.c -o "$work/$name" "$@"
    "$work/$name" "$work/$name.journal" | diff tests/example.expected -
    echo "installation: $name: the same output"
}

compare pie -fPIE -pie $link $libs
compare no-pie -fno-pie -no-pie $link $libs
# The whole archive, and nothing of libc: it needs nothing but itself.
${CC:-cc} -shared -nostdlib -o "$work/libshared.so" -Wl,--whole-archive $libs -Wl,--no-whole-archive $link
compare shared -L"$work" -lshared -Wl,-rpath,"$work"

cat >"$work/plus.cc" <<'PLUS'
#include <dnscookie.h>

int main() {
    uint8_t state[DNSCOOKIE_LEDGER_SIZE];
    dnscookie_found none = dnscookie_find(nullptr, 0);
    return dnscookie_ledger_fresh(state, sizeof state) == DNSCOOKIE_DONE && dnscookie_found_number(none) == DNSCOOKIE_WRONG_SIZE ? 0 : 1;
}
PLUS
${CXX:-c++} -std=c++11 $strict $cflags "$work/plus.cc" -o "$work/plus" $link $libs
"$work/plus"
echo 'installation: C++: linked and run'
