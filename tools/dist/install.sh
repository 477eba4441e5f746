#!/bin/sh
# install.sh [PREFIX]: puts the programs, the library for C, the manual pages, the documents and the examples below PREFIX
# (/usr/local). install.sh --remove [PREFIX] takes away just these files, and the folders that only they had. Nothing has to
# be installed: bin/p11 and bin/p11-terminal also run where they lie. Exit status 1: a file can't be written or taken away.

set -eu

from=$(dirname "$(readlink -f "$0")")
case ${1-} in
-h | --help) sed -n '2,/^$/s/^# \{0,1\}//p' "$0" && exit ;;
esac
removes=
if [ "${1-}" = --remove ]; then
    removes=yes
    shift
fi
prefix=${1:-/usr/local}
case $prefix in
/*) ;;
*) echo "install.sh: PREFIX is to begin with /, and $prefix doesn't" >&2 && exit 1 ;;
esac

files() { (cd "$from" && find bin include lib libexec share -type f | LC_ALL=C sort); }

# The folders that an installation made, the outermost first.
folders=$prefix/libexec/p11/folders

# Makes a folder and those around it that aren't there, and names each.
make_folder() {
    [ ! -d "$1" ] || return 0
    make_folder "$(dirname "$1")"
    mkdir "$1"
    echo "$1"
}

remove() {
    made=$(LC_ALL=C sort -r "$folders" 2>/dev/null) || made=
    files | while read -r file; do rm -f "$prefix/$file"; done
    rm -f "$folders"
    for folder in share/doc/p11 libexec/p11 lib/p11; do
        [ -d "$prefix/$folder" ] || continue
        find "$prefix/$folder" -depth -path '*/__pycache__/*' -delete
        find "$prefix/$folder" -depth -type d -empty -delete
    done
    echo "$made" | while read -r folder; do
        [ ! -d "$folder" ] || rmdir --ignore-fail-on-non-empty "$folder"
    done
}

put() {
    new=$(
        make_folder "$prefix/libexec/p11"
        files | while read -r file; do
            make_folder "$prefix/$(dirname "$file")"
            if [ -x "$from/$file" ]; then mode=755; else mode=644; fi
            install -m "$mode" "$from/$file" "$prefix/$file"
        done
    )
    [ ! "$new" ] || echo "$new" >>"$folders"
}

if [ "$removes" ]; then
    remove
else
    put
    echo "installed: $("$prefix/bin/p11" --version | head -n 1), in $prefix/bin; the manual is $prefix/share/doc/p11/docs/OPERATOR.md"
fi
