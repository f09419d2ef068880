#!/bin/sh
# Installs futoncrane from its unpacked archive, or removes it.
#
# usage: ./install.sh [PREFIX]            (/usr/local; the files go to PREFIX/bin and PREFIX/share)
#        ./install.sh --remove [PREFIX]
#        ./install.sh --help
#
# Without an installation the command runs from the archive as it is unpacked: bin/futoncrane.
set -eu
cd "$(dirname "$0")"
action=install
case ${1:-} in
    --help | -h)
        sed -n '2,/^set /{s/^# \{0,1\}//p;}' install.sh
        exit
        ;;
    --remove)
        action=remove
        shift
        ;;
    -*)
        echo "install.sh: no option $1 (see ./install.sh --help)" >&2
        exit 2
        ;;
esac
if [ $# -gt 1 ]; then
    echo "install.sh: one folder is taken (see ./install.sh --help)" >&2
    exit 2
fi
prefix=${1:-/usr/local}
noted=$prefix/share/futoncrane/folders

if [ "$action" = remove ]; then
    [ -f "$noted" ] || { echo "install.sh: futoncrane is not installed in $prefix" >&2; exit 1; }
    folders=$(cat "$noted")
    rm -rf "$prefix/share/futoncrane/futoncrane/__pycache__" "$prefix/share/futoncrane/futoncrane/commands/__pycache__"
    rm -f "$noted"
    find bin share \( -type f -o -type l \) -exec sh -c 'prefix=$1; shift; for it; do rm -f "$prefix/$it"; done' sh "$prefix" {} +
    # the folders that the installation made, the deepest first
    printf '%s\n' "$folders" | LC_ALL=C sort -r | while read -r folder; do
        [ -z "$folder" ] || rmdir "$prefix/$folder" 2> /dev/null || true
    done
    echo "futoncrane is removed from $prefix"
    exit
fi

sha256sum --quiet -c SHA256SUMS
mkdir -p "$prefix"
made=$(if [ -f "$noted" ]; then cat "$noted"; fi)
for folder in $(find bin share -type d | LC_ALL=C sort); do
    if [ ! -d "$prefix/$folder" ]; then
        mkdir "$prefix/$folder"
        made="$made
$folder"
    fi
done
find bin share \( -type f -o -type l \) -exec sh -c 'prefix=$1; shift; for it; do rm -f "$prefix/$it"; cp -P -p "$it" "$prefix/$it"; done' sh "$prefix" {} +
printf '%s\n' "$made" > "$noted"
# so that a run begins the sooner; without it all is the same
python3 -m compileall -q "$prefix/share/futoncrane/futoncrane" > /dev/null 2>&1 || true
echo "futoncrane is installed in $prefix; try: $prefix/bin/futoncrane doctor"
echo "for Python: export PYTHONPATH=$prefix/share/futoncrane"
