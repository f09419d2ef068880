#!/bin/sh
# Makes what is given to people who have neither the kit nor a compiler: `make dist` calls it once the programs are built.
#
# usage: build/dist.sh       (dist/futoncrane-VERSION-x86_64.tar.gz, dist/futoncrane_VERSION_amd64.deb and dist/SHA256SUMS)
#
# The programs in them are linked statically (build/link_alone.sh), and must give the example's dump before anything is packed. The archive
# has install.sh; the package needs Python 3.9 or later. build/try_dist.sh tries both in an empty root.
set -eu
cd "$(dirname "$0")/.."
version=$(cat VERSION)
when=$(git log -1 --format=%ct 2> /dev/null || date +%s)
work=$(mktemp -d)
trap 'rm -rf "$work"' EXIT
umask 022
mkdir -p dist "$work/built"
rm -f dist/futoncrane-"$version"-x86_64.tar.gz dist/futoncrane_"$version"_amd64.deb dist/SHA256SUMS

for program in kmc kmc_merge kmc_cut kmc_list kmc_db; do
    build/link_alone.sh "$program" "$work/built/$program"
done
"$work/built/kmc" < examples/reads.fastq | cmp - examples/reads.dump
"$work/built/kmc" -ci1 < examples/reads.fastq > "$work/all"
"$work/built/kmc_merge" "$work/all" | cmp - examples/reads.dump
"$work/built/kmc_db" intersect "$work/all" "$work/all" | cmp - examples/reads.dump
"$work/built/kmc_cut" -slices2 "$work/reads" < examples/reads.fastq
for slice in 0 1; do "$work/built/kmc_list" "$work/reads.$slice" > "$work/slice.$slice"; done
"$work/built/kmc_merge" -ci1 "$work/slice.0" "$work/slice.1" | cmp - examples/reads.dump

# laid_out ROOT: the programs, the command, pages, completions and the example below ROOT
laid_out() {
    make -s install DESTDIR="$1" PREFIX= KMC="$work/built/kmc" KMC_MERGE="$work/built/kmc_merge" KMC_CUT="$work/built/kmc_cut" \
        KMC_LIST="$work/built/kmc_list" KMC_DB="$work/built/kmc_db"
    rm "$1/share/futoncrane/folders" # which folders are new is seen where it is unpacked
}

# documents FOLDER: README.md and what it links, under the names that it has for them
documents() {
    mkdir -p "$1/docs" "$1/bench"
    cp README.md CHANGELOG.md CONTRIBUTING.md CITATION.cff "$1"
    cp docs/*.md "$1/docs"
    cp bench/RESULTS.md "$1/bench"
    cp -R examples "$1"
}

# the archive
name=futoncrane-$version-x86_64
laid_out "$work/$name"
documents "$work/$name"
documents "$work/$name/share/doc/futoncrane"
cp build/install.sh "$work/$name"
(cd "$work/$name" && find . -type f ! -name SHA256SUMS | LC_ALL=C sort | sed 's|^\./||' | xargs sha256sum > "$work/sums" && mv "$work/sums" SHA256SUMS)
tar -C "$work" --sort=name --owner=0 --group=0 --numeric-owner --mtime="@$when" -czf "dist/$name.tar.gz" "$name"

# the package
root=$work/package
laid_out "$root/usr"
mkdir -p "$root/DEBIAN"
documents "$root/usr/share/doc/futoncrane"
mv "$root/usr/share/zsh/site-functions" "$root/usr/share/zsh/vendor-completions"
cat > "$root/DEBIAN/control" << CONTROL
Package: futoncrane
Version: $version
Architecture: amd64
Maintainer: The authors of futoncrane <futoncrane@localhost>
Installed-Size: $(du -sk "$root/usr" | cut -f 1)
Depends: python3 (>= 3.9)
Recommends: pigz | gzip, bzip2, xz-utils, zstd
Suggests: gnuplot-nox, python3-distributed, samtools
Section: science
Priority: optional
Description: counts the k-mers of sequencing reads
 futoncrane counts the k-mers of FASTQ, FASTA and BAM files, plain or packed, by
 programs whose answer is proved: the dump is exactly the count of the reads.
CONTROL
printf '#!/bin/sh\npy3compile -p futoncrane || true\n' > "$root/DEBIAN/postinst"
printf '#!/bin/sh\npy3clean -p futoncrane || true\n' > "$root/DEBIAN/prerm"
chmod 755 "$root/DEBIAN/postinst" "$root/DEBIAN/prerm"
find "$root" -newermt "@$when" -exec touch -h -d "@$when" {} +
SOURCE_DATE_EPOCH=$when dpkg-deb --root-owner-group --build "$root" "dist/futoncrane_${version}_amd64.deb" > /dev/null
(cd dist && sha256sum "$name.tar.gz" "futoncrane_${version}_amd64.deb" > SHA256SUMS)
ls -l dist
