#!/bin/sh
# Puts what belongs to the command futoncrane below a folder, or removes it again: `make install`, `make uninstall` and build/dist.sh call it.
#
# usage: build/lay_out.sh --folders ROOT | build/lay_out.sh ROOT PROGRAM=NAME .. | build/lay_out.sh --remove ROOT
#
# ROOT has bin and share; NAME is what the program is called in ROOT/bin, as kmc_merge=futoncrane-kmc-merge. --folders comes first: it makes
# the folders, and notes those that were not there, which --remove takes away where nothing else is in them.
set -eu
cd "$(dirname "$0")/.."

# in the order in which they are made
folders='bin share share/man share/man/man1 share/bash-completion share/bash-completion/completions share/zsh share/zsh/site-functions'

# makes ROOT and its folders; the note has how many of ROOT and those above it were not there, and the names of those below it
make_folders() {
    note=$root/share/futoncrane/folders
    if [ -f "$note" ]; then return; fi
    levels=0
    folder=$root
    while [ ! -d "$folder" ]; do
        levels=$((levels + 1))
        folder=$(dirname "$folder")
    done
    made=''
    for folder in $folders; do
        if [ ! -d "$root/$folder" ]; then made="$folder $made"; fi
        install -d "$root/$folder"
    done
    install -d "$root/share/futoncrane"
    echo "$levels $made" > "$note"
}

# removes the files, and the folders that were made
remove_all() {
    note=$root/share/futoncrane/folders
    noted=$(if [ -f "$note" ]; then cat "$note"; else echo 0; fi)
    rm -f "$root/bin/futoncrane" "$root/share/man/man1/futoncrane.1" "$root/share/bash-completion/completions/futoncrane" \
        "$root/share/zsh/site-functions/_futoncrane"
    rm -rf "$root/share/futoncrane"
    for folder in ${noted#* }; do
        if [ -d "$root/$folder" ]; then rmdir "$root/$folder" 2> /dev/null || true; fi
    done
    levels=${noted%% *}
    folder=$root
    while [ "$levels" -gt 0 ] && rmdir "$folder" 2> /dev/null; do
        levels=$((levels - 1))
        folder=$(dirname "$folder")
    done
}

if [ "$1" = --folders ]; then
    root=$2
    make_folders
    exit
fi
if [ "$1" = --remove ]; then
    root=$2
    remove_all
    exit
fi

root=$1
shift
own=$root/share/futoncrane
rm -rf "$own/futoncrane" "$own/examples"
install -d "$own/futoncrane/commands" "$own/examples"
install -m 644 VERSION "$own/VERSION"
install -m 644 futoncrane/*.py "$own/futoncrane"
install -m 644 futoncrane/commands/*.py "$own/futoncrane/commands"
install -m 755 futoncrane/futoncrane "$own/futoncrane/futoncrane"
install -m 644 examples/reads.fastq examples/reads.dump "$own/examples"
# the command finds its package behind the link, and the programs behind the others, whatever their names are
ln -sf ../share/futoncrane/futoncrane/futoncrane "$root/bin/futoncrane"
for program; do
    ln -sf "../../bin/${program#*=}" "$own/${program%%=*}"
done
install -m 644 docs/futoncrane.1 "$root/share/man/man1/futoncrane.1"
build/completions.py bash > "$root/share/bash-completion/completions/futoncrane"
build/completions.py zsh > "$root/share/zsh/site-functions/_futoncrane"
chmod 644 "$root/share/bash-completion/completions/futoncrane" "$root/share/zsh/site-functions/_futoncrane"
