#!/bin/sh
# Installs the built program as bt878, its manual, and the completion for bash.
#
#     install.sh PREFIX [PROGRAM]
#     install.sh --uninstall PREFIX
#
# PROGRAM is the built program; without it the one that `rt run` leaves in crates/bt878_main.

set -eu

top=$(cd "$(dirname "$0")/.." && pwd)

usage() {
    sed -n '2,7s/^# \{0,1\}//p' "$0" >&2
    exit 2
}

uninstall=false
if [ "${1-}" = --uninstall ]; then
    uninstall=true
    shift
fi
[ $# -ge 1 ] && [ $# -le 2 ] || usage
prefix=$1
program=${2-$top/crates/bt878_main/out/bt878_main}

# where each file goes, with its mode and where it comes from
files="bin/bt878 755 $program
share/man/man1/bt878.1 644 $top/docs/bt878.1
share/bash-completion/completions/bt878 644 $top/tools/bt878.bash"

if $uninstall; then
    echo "$files" | while read -r to _; do
        if [ -e "$prefix/$to" ]; then
            rm -- "$prefix/$to"
            echo "removed $prefix/$to"
        fi
    done
    exit 0
fi

if [ ! -x "$program" ]; then
    echo "install.sh: there is no built program at $program" >&2
    exit 1
fi
echo "$files" | while read -r to mode from; do
    mkdir -p -- "$(dirname "$prefix/$to")"
    cp -- "$from" "$prefix/$to"
    chmod "$mode" "$prefix/$to"
    echo "installed $prefix/$to"
done
