#!/bin/sh
# Installs Povundiri below a folder, or removes it from there. No other folder is touched, and nothing is downloaded.
#
#     ./install.sh PREFIX                  from the folder of this script, of a release: "$HOME/.local", for example
#     ./install.sh --from STAGE PREFIX     from a folder that packaging/stage.sh has made
#     ./install.sh --uninstall PREFIX      removes what the list PREFIX/share/povundiri/FILES names, and the folders that are empty then
#
# What a version before has put there and this one does not have is removed. Each file is a new one, so programs that run go on with the
# old ones. The list is there from the beginning, so what was interrupted can be done again, or removed. The status is 0 only if all is done.
set -eu
umask 022
LIST=share/povundiri/FILES

fail() {
    echo "install.sh: $*" >&2
    exit 1
}

# Whether each line of a list is a path below the prefix.
is_list() {
    [ -s "$1" ] && ! grep -Eqv '^[A-Za-z0-9_][A-Za-z0-9_./+-]*$' "$1" && ! grep -Eq '(^|/)\.\.(/|$)' "$1"
}

# put FROM TO: a file, or a link, in the place of what is there.
put() {
    mkdir -p "$(dirname "$2")"
    if [ -L "$1" ]; then
        ln -sfT "$(readlink "$1")" "$2"
    elif [ -x "$1" ]; then
        install -T -m 755 "$1" "$2"
    else
        install -T -m 644 "$1" "$2"
    fi
}

# drop PREFIX FILE: a file, and the folders below the prefix that are empty then.
drop() {
    rm -f "$1/$2"
    folder=$(dirname "$2")
    while [ "$folder" != . ] && rmdir "$1/$folder" 2> /dev/null; do folder=$(dirname "$folder"); done
}

install_from() {
    is_list "$1/$LIST" || fail "$1/$LIST is no list of files"
    old=
    if [ -e "$2/$LIST" ]; then
        is_list "$2/$LIST" || fail "$2/$LIST is no list of files: nothing was installed"
        old=$(cat "$2/$LIST")
    fi
    mkdir -p "$2/$(dirname $LIST)"
    unfinished=$2/$LIST.new
    trap 'rm -f "$unfinished"' EXIT
    { printf '%s\n' "$old"; cat "$1/$LIST"; } | sed '/^$/d' | LC_ALL=C sort -u > "$unfinished"
    mv "$unfinished" "$2/$LIST"
    while read -r file; do
        [ "$file" = "$LIST" ] || put "$1/$file" "$2/$file"
    done < "$1/$LIST"
    for file in $old; do
        grep -qxF "$file" "$1/$LIST" || drop "$2" "$file"
    done
    put "$1/$LIST" "$2/$LIST"
}

uninstall() {
    is_list "$1/$LIST" || fail "there is no list $1/$LIST: nothing is installed there, or not by this"
    files=$(grep -vxF "$LIST" "$1/$LIST")
    for file in $files; do drop "$1" "$file"; done
    drop "$1" "$LIST"
}

# What a release was unpacked as, and whether it is whole.
of_release() {
    here=$(cd "$(dirname "$0")" && pwd)
    [ -f "$here/SHA256SUMS" ] && [ -d "$here/built" ] || fail "this is no release: --from says where to install from"
    (cd "$here" && sha256sum --quiet --strict -c SHA256SUMS) || fail "a file of the release is missing or damaged: nothing was installed"
    stage=$here/built
}

# How to use what was installed.
say_how() {
    prefix=$(cd "$1" && pwd)
    echo "Povundiri $(cat "$here/VERSION") is installed in $prefix. For this shell:"
    echo "    export PATH=\"$prefix/bin:\$PATH\" PKG_CONFIG_PATH=\"$prefix/lib/pkgconfig\""
}

usage() {
    sed -n '2,/^set/p' "$0" | sed '$d; s/^# \{0,1\}//'
    exit 2
}

case ${1:-} in
    --from) [ $# -eq 3 ] && [ -n "$3" ] || usage; install_from "$2" "$3" ;;
    --uninstall) [ $# -eq 2 ] && [ -n "$2" ] || usage; uninstall "$2" ;;
    -h | --help | '' | -*) usage ;;
    *) [ $# -eq 1 ] || usage; of_release; install_from "$stage" "$1"; say_how "$1" ;;
esac
