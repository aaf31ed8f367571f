#!/bin/sh
# Compiles, links and runs what users write over an installed library, by pkg-config and by CMake, shared and static:
#
#     check.sh PREFIX
#
# Each case has a line. gcc, g++, pkg-config and python3 are needed; for clang and cmake, where they are not there, a line says what was left
# out. The last line is how many passed, and the status is 0 only if none failed.
set -eu
prefix=$(cd "$1" && pwd)
here=$(cd "$(dirname "$0")" && pwd)
consumers=$here/consumers
work=$(mktemp -d)
trap 'rm -rf "$work"' EXIT
configured=$(find "$prefix/" -name povundiri.pc | head -n 1)
PKG_CONFIG_PATH=$(dirname "$configured")
LC_ALL=C
export PKG_CONFIG_PATH LC_ALL
version=$(pkg-config --modversion povundiri)
library=$(pkg-config --variable=libdir povundiri)
passed=0
cd "$work"

say() {
    passed=$((passed + 1))
    echo "passed: $*"
}

# run NAME COMMAND..: a program that counts in a folder of that name and says which version it ran with.
run() {
    name=$1
    shift
    "$@" "folder-$name" > said || { echo "FAILED: $name" >&2; exit 1; }
    grep -q "^$version: [0-9][0-9]* bytes\$" said || { echo "FAILED: $name said $(cat said)" >&2; exit 1; }
    say "$name"
}

# The words of a package are paths without spaces, or this could not be written in a Makefile either.
by_pkg_config() {
    for package in povundiri povundiri-static; do
        # shellcheck disable=SC2046
        $1 -std=c99 "$consumers/count.c" $(pkg-config --cflags --libs "$package") -o "$1-$package"
        # shellcheck disable=SC2046
        $2 -std=c++17 "$consumers/count.cpp" $(pkg-config --cflags --libs "$package") -o "$2-$package"
    done
    run "$1-povundiri" env LD_LIBRARY_PATH="$library" "./$1-povundiri"
    run "$2-povundiri" env LD_LIBRARY_PATH="$library" "./$2-povundiri"
    run "$1-povundiri-static" "./$1-povundiri-static"
    run "$2-povundiri-static" "./$2-povundiri-static"
}

# A shared object of the user's own that has the archive in it, and is loaded while the program runs.
own_object() {
    # shellcheck disable=SC2046
    $1 -shared -fPIC -std=c99 -Dmain=entry "$consumers/count.c" $(pkg-config --cflags --libs povundiri-static) -Wl,-z,nodelete -o "own-$1.so"
    run "own-$1.so" python3 -c "import ctypes, sys
exit(ctypes.CDLL('./own-$1.so').entry(2, (ctypes.c_char_p * 3)(b'entry', sys.argv[1].encode(), None)))"
}

by_cmake() {
    cmake -S "$consumers" -B build -DCMAKE_PREFIX_PATH="$prefix" -DPOVUNDIRI_WANTED="$version" > log 2>&1 || { cat log >&2; exit 1; }
    cmake --build build > log 2>&1 || { cat log >&2; exit 1; }
    for it in c_povundiri c_static cpp_povundiri cpp_static; do run "cmake-$it" "build/$it"; done
    if cmake -S "$consumers" -B later -DCMAKE_PREFIX_PATH="$prefix" -DPOVUNDIRI_WANTED=99 > log 2>&1; then
        echo "FAILED: CMake takes $version for version 99" >&2
        exit 1
    fi
    say "cmake-version"
}

by_pkg_config gcc g++
own_object gcc
if command -v clang > /dev/null && command -v clang++ > /dev/null; then
    by_pkg_config clang clang++
    own_object clang
else
    echo "left out: clang is not installed"
fi
if command -v cmake > /dev/null; then by_cmake; else echo "left out: cmake is not installed"; fi
python3 "$consumers/read.py" "$library/libpovundiri.so.1" folder-gcc-povundiri > said
grep -q '^request_us,total,1000,499500$' said || { echo "FAILED: read.py said $(cat said)" >&2; exit 1; }
say "read.py"
if [ -x "$prefix/bin/persist_report" ]; then
    "$prefix/bin/persist_report" report folder-g++-povundiri-static > said
    grep -q '^request_us,total,1000,499500$' said || { echo "FAILED: persist_report said $(cat said)" >&2; exit 1; }
    say "persist_report"
else
    echo "left out: persist_report is not installed"
fi
echo "$passed passed"
