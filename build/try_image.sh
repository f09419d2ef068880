#!/bin/sh
# Follows the steps of packaging/docker/Dockerfile in a root that debootstrap makes: for machines without Docker. As root, on Debian.
#
# usage: build/try_image.sh [ROOT]        (ROOT: a folder for the root, which is made where it is empty)
#
# The words are those of the Dockerfile: FROM is debootstrap, ADD unpacks the archive of dist/, RUN runs in the root, and ENTRYPOINT counts the
# example of this folder.
set -eu
cd "$(dirname "$0")/.."
version=$(cat VERSION)
file=packaging/docker/Dockerfile
work=$(mktemp -d)
root=${1:-$work/root}
trap 'umount "$root/proc" 2> /dev/null || true; rm -rf "$work"' EXIT
suite=$(sed -n 's/^FROM debian:\([a-z]*\)-slim$/\1/p' "$file")
[ "$(sed -n 's/^ARG VERSION=//p' "$file")" = "$version" ] || { echo "try_image.sh: the Dockerfile is of another version" >&2; exit 1; }
if [ ! -x "$root/bin/sh" ]; then
    debootstrap --variant=minbase "$suite" "$root" > "$work/log" 2>&1 || { tail -n 20 "$work/log" >&2; exit 1; }
fi
mount -t proc none "$root/proc"

# inside WORDS: a shell's words in the root
inside() {
    chroot "$root" /usr/bin/env -i PATH=/usr/local/sbin:/usr/local/bin:/usr/sbin:/usr/bin:/sbin:/bin DEBIAN_FRONTEND=noninteractive VERSION="$version" sh -eu -c "$1"
}

# each instruction on one line
sed -e ':a' -e '/\\$/{N;s/\\\n */ /;ba' -e '}' "$file" > "$work/steps"
while IFS= read -r line; do
    case $line in
        'RUN '*) inside "${line#RUN }" < /dev/null ;;
        'ADD '*) tar -xzf "dist/futoncrane-$version-x86_64.tar.gz" -C "$root/opt" ;;
        'WORKDIR '*) mkdir -p "$root${line#WORKDIR }" ;;
    esac
done < "$work/steps"
cp examples/reads.fastq "$root/data"
inside 'cd /data && futoncrane count -k25 -o dump.txt reads.fastq'
cmp "$root/data/dump.txt" examples/reads.dump
echo "the image counts the example"
