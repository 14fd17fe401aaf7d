#!/bin/sh
# Installs the package below a folder, or removes what was installed there. DESTDIR, if it is set, is put before the folder.
#     ./install.sh /usr/local
#     ./install.sh -u /usr/local
set -eu
use() {
    echo 'use: ./install.sh PREFIX     installs below PREFIX, a folder as /usr/local, in place of what an earlier run installed there
     ./install.sh -u PREFIX  removes what was installed there' >&2
    exit 2
}
task=install
[ "${1-}" != -u ] || { task=remove && shift; }
[ $# -eq 1 ] || use
case $1 in '' | -*) use ;; /*) prefix=${DESTDIR-}$1 ;; *) prefix=${DESTDIR-}$PWD/$1 ;; esac
pages=share/doc/planreader
list=$pages/installed.txt # the files that were installed, this one too, by their names below the folder

# Copies files below a folder of the package to the same places below one of the prefix, and adds their names to the list.
copy() { # FOLDER/ NAME..
    target=$1
    shift
    find "$@" -type f | while read -r file; do
        mkdir -p "$(dirname "$prefix/$target$file")"
        cp "$file" "$prefix/$target$file"
        echo "$target$file" >>"$prefix/$list"
    done
}

# Removes the files of the list, and the folders that are empty then.
remove() {
    cd "$prefix"
    names=$(cat "$list")
    for name in $names; do rm -f "$name"; done
    for name in $names; do rmdir -p "$(dirname "$name")" 2>/dev/null || :; done
}

if [ "$task" = remove ]; then
    [ -f "$prefix/$list" ] || { echo "install.sh: nothing is installed below $prefix" >&2 && exit 1; }
    remove
    echo "removed below $prefix"
    exit
fi
cd "$(dirname "$0")"
sha256sum --quiet -c SHA256SUMS
[ ! -f "$prefix/$list" ] || (remove)
mkdir -p "$prefix/$pages"
echo "$list" >"$prefix/$list"
copy '' bin include lib share
copy "$pages/" README.md CHANGELOG.md VERSION docs examples
echo "installed below $prefix: programs in bin, planreader.h in include, archives in lib, the manual page in share/man, documents in $pages"
