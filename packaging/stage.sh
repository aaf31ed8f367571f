#!/bin/sh
# Lays out what is installed, as it will be below a prefix, from what was built:
#
#     stage.sh OUT HEADER..      in c/, where out/ has the libraries
#
# OUT is not there yet, or empty. In the environment SHARED is the shared library; STRIP, OBJCOPY and SONAME may name others than what is
# usual. PROGRAMS are those that are laid out too: one that is not built is left out, and a line says so, but with ALL_PROGRAMS=1 that is a
# fault. BUILT is a file with what packaging/built.py would say.
#
# The bytes depend on what was built, and not on folders, times or users. What fails ends it, and then OUT is not complete.
set -eu

here=$(cd "$(dirname "$0")" && pwd)
root=$(cd "$here/.." && pwd)
version=$(cat "$root/VERSION")
strip=${STRIP:-strip} objcopy=${OBJCOPY:-objcopy} soname=${SONAME:-libpovundiri.so.1}
programs=${PROGRAMS-"../crates/persist_report/out/persist_report ../crates/stepped/out/stepped"}
out=${1:?}
shift

if [ -n "$(ls -A "$out" 2> /dev/null)" ]; then
    echo "stage.sh: $out is not empty: nothing was done" >&2
    exit 1
fi

# The libraries: without what is for debuggers alone, and the shared one with what it was built of.
libraries() {
    for name in libpovundiri libpovundiri_raise; do
        cp "out/$name.a" "$out/lib/$name.a"
        "$strip" --strip-debug --enable-deterministic-archives "$out/lib/$name.a"
        chmod 644 "$out/lib/$name.a"
    done
    marked "$SHARED" "$out/lib/libpovundiri.so.$version" 644
    ln -s "libpovundiri.so.$version" "$out/lib/$soname"
    ln -s "$soname" "$out/lib/libpovundiri.so"
}

# marked FROM TO MODE: copies a program or a shared library, stripped and with the section .povundiri_built.
marked() {
    cp "$1" "$2"
    chmod u+w "$2"
    "$strip" --strip-unneeded "$2"
    "$objcopy" --add-section ".povundiri_built=$out/share/povundiri/BUILD" --set-section-flags .povundiri_built=noload,readonly "$2"
    chmod "$3" "$2"
}

# What pkg-config and CMake read. It finds the rest from where it lies, so the folder may be moved.
found_by() {
    for name in povundiri povundiri-static; do
        sed "s|@PREFIX@|\${pcfiledir}/../..|; s|@VERSION@|$version|" "$root/c/$name.pc.in" > "$out/lib/pkgconfig/$name.pc"
    done
    cp "$here/cmake/povundiriConfig.cmake" "$out/lib/cmake/povundiri"
    sed "s|@VERSION@|$version|" "$here/cmake/povundiriConfigVersion.cmake.in" > "$out/lib/cmake/povundiri/povundiriConfigVersion.cmake"
    chmod 644 "$out/lib/pkgconfig/"* "$out/lib/cmake/povundiri/"*
}

# The programs that are built, and what is made of their help.
programs() {
    there=
    for program in $programs; do
        if [ -x "$program" ]; then
            marked "$program" "$out/bin/$(basename "$program")" 755
            there="$there $program"
        else
            echo "$program is not built: left out" >&2
            [ "${ALL_PROGRAMS:-0}" = 0 ] || exit 1
        fi
    done
    # shellcheck disable=SC2086
    python3 "$here/manual.py" "$out" . $there
}

# The list by which it is installed and removed: each file and link, below the prefix.
listed() {
    (cd "$out" && find . \( -type f -o -type l \) | sed 's|^\./||' | LC_ALL=C sort) > "$out.files"
    { cat "$out.files"; echo share/povundiri/FILES; } | LC_ALL=C sort > "$out/share/povundiri/FILES"
    rm "$out.files"
}

umask 022
mkdir -p "$out/lib/pkgconfig" "$out/lib/cmake/povundiri" "$out/include" "$out/share/povundiri"
out=$(cd "$out" && pwd)
if [ -n "${BUILT:-}" ]; then cp "$BUILT" "$out/share/povundiri/BUILD"; else python3 "$here/built.py" show > "$out/share/povundiri/BUILD"; fi
libraries
install -m 644 "$@" "$out/include"
found_by
mkdir "$out/bin"
programs
rmdir "$out/bin" 2> /dev/null || true
listed
