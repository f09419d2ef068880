#!/bin/sh
# Tries the archive and the package of `make dist` in an empty root: no kit, no compiler, no network. As root, on Debian.
#
# usage: build/try_dist.sh [ROOT]      (ROOT: an empty root that `debootstrap --variant=minbase --include=python3 bookworm ROOT` made; else it is made)
#
# The lines of README that begin with '$' are run, and the files that it links are looked for. Then each is installed, `futoncrane doctor` is
# run, the example is counted, plain and packed, and what was installed is removed. The files of the root must then be those of before.
set -eu
cd "$(dirname "$0")/.."
version=$(cat VERSION)
archive=futoncrane-$version-x86_64
package=futoncrane_${version}_amd64.deb
work=$(mktemp -d)
root=${1:-$work/root}
trap 'rm -rf "$work"' EXIT
if [ ! -x "$root/usr/bin/python3" ]; then
    echo "try_dist.sh: making an empty root"
    debootstrap --variant=minbase --include=python3 bookworm "$root" > "$work/log" 2>&1 || { tail -n 20 "$work/log" >&2; exit 1; }
fi
(cd dist && sha256sum --quiet -c SHA256SUMS)

# inside WORD..: a shell's words in the root, without any network
inside() {
    # shellcheck disable=SC2016
    unshare --net --mount --pid --fork sh -c 'mount -t proc none "$1/proc" && exec chroot "$1" /usr/bin/env -i PATH=/usr/local/sbin:/usr/local/bin:/usr/sbin:/usr/bin:/sbin:/bin HOME=/root sh -eu -c "$2"' sh "$root" "$1"
}

# files: the root's files and links, but for what the package manager notes of itself
files() {
    (cd "$root" && find . \( -path ./proc -o -path ./sys -o -path ./dev -o -path ./var/lib/dpkg -o -path ./var/log -o -path ./var/cache -o -path ./tmp \) -prune -o -print | LC_ALL=C sort)
}

trial='
    command -v rt gcc cc clang > /dev/null && { echo "there is a compiler or the kit" >&2; exit 1; }
    futoncrane --version
    futoncrane doctor
    example=$(dirname "$(readlink -f "$(command -v futoncrane)")")/../examples
    futoncrane count -k25 "$example/reads.fastq" | cmp - "$example/reads.dump"
    futoncrane count -k25 --quiet --slices 3 "$example/reads.fastq" | cmp - "$example/reads.dump"
    gzip -c "$example/reads.fastq" > /tmp/reads.gz
    futoncrane count -k25 -o /tmp/dump /tmp/reads.gz
    cmp /tmp/dump "$example/reads.dump"
    rm /tmp/dump /tmp/dump.json /tmp/reads.gz
    futoncrane count -k25 "$example/missing" && exit 1
    echo "the example is counted"
'
echo "== README"
files > "$work/before"
cp "dist/$archive.tar.gz" "$root/tmp"
lines=$(sed -n 's/^    \$ //p' README.md)
printf '%s\n' "$lines" > "$root/tmp/lines"
inside "cd /tmp; . /tmp/lines"
rm -f "$root/tmp/lines"
for link in $(grep -o '\](\([^)#:]*\))' README.md | sed 's/^](//; s/)$//'); do
    [ -e "$root/tmp/$archive/$link" ] || { echo "try_dist.sh: README links $link, which is not in the archive" >&2; exit 1; }
done
inside "/tmp/$archive/install.sh --help" | grep -q '^usage: ./install.sh'
rm -rf "$root/tmp/$archive" "$root/tmp/$archive.tar.gz"
files > "$work/after"
diff "$work/before" "$work/after"
for kind in archive package; do
    echo "== $kind"
    files > "$work/before"
    if [ "$kind" = archive ]; then
        tar -xzf "dist/$archive.tar.gz" -C "$root/tmp"
        # in place, without being installed
        inside "PATH=/tmp/$archive/bin:\$PATH; $trial"
        inside "cd /tmp/$archive && sha256sum --quiet -c SHA256SUMS && ./install.sh; $trial"
        inside "cd /tmp/$archive && ./install.sh --remove"
        rm -rf "$root/tmp/$archive"
    else
        cp "dist/$package" "$root/tmp"
        inside "dpkg -i /tmp/$package; $trial dpkg -s futoncrane | grep -E '^(Package|Status|Version)'"
        inside "dpkg -P futoncrane"
        rm "$root/tmp/$package"
    fi
    files > "$work/after"
    diff "$work/before" "$work/after"
    echo "== $kind: nothing is left"
done
