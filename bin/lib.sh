# shellcheck shell=bash disable=SC2034,SC2154
# What bin/melt and bin/build share. Each sets `top`, the folder of the checkout, and then reads this file.

# The program that bin/build makes, and the one that the repository keeps.
built=$top/crates/melt/out/melt
kept=$top/dist/melt

# Prints one checksum of all the sources: of the paths and contents of crates.txt and of every file in a
# crate's src, specs and proofs. No other file of the checkout has a say in the program's bytes.
sum_of_sources() (
    cd "$top" || exit
    shopt -s nullglob
    find crates.txt crates/*/{src,specs,proofs} \( -type f -o -type l \) -print0 |
        LC_ALL=C sort -z | xargs -0 sha256sum | sha256sum | cut -d ' ' -f 1 || {
        echo "bin/${0##*/}: the sources in $top can't be read" >&2
        exit 126
    }
)

# Prints what the file PROGRAM.sources says of the program $2: the checksum $1 of the sources that it was built
# from, and its own, so that a program that was replaced is not taken for the one that was built.
label() {
    printf 'sources %s\nprogram %s\n' "$1" "$(sha256sum <"$2" | cut -d ' ' -f 1)"
}

# Whether the program $2 is there and was built from the sources with the checksum $1.
is_of() {
    [ -x "$2" ] && [ -f "$2.sources" ] && [ "$(label "$1" "$2")" = "$(<"$2.sources")" ]
}
