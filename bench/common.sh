# What the scripts beside this file share: a repository of its own, over copies of crates, for one program.
# `program NAME CRATE..` makes it from the rows of crates.txt for these crates and the files NAME/*.txt, as the crate
# NAME_bench, which may use what its row names ("$uses"), and goes into that crate's folder.
set -e
here=$(cd "$(dirname "$0")" && pwd)
work=$(mktemp -d)
trap 'rm -rf "$work"' EXIT

program() {
    name=$1
    shift
    mkdir -p "$work/crates/${name}_bench/src"
    for crate in "$@"; do
        mkdir -p "$work/crates/$crate"
        for part in src specs proofs; do
            if [ -d "$here/../crates/$crate/$part" ]; then
                cp -r "$here/../crates/$crate/$part" "$work/crates/$crate/$part"
            fi
        done
        grep "^$crate:" "$here/../crates.txt" >> "$work/crates.txt"
    done
    echo "${name}_bench: $uses" >> "$work/crates.txt"
    cp "$here/$name/main.rt.txt" "$work/crates/${name}_bench/src/main.rt"
    cd "$work/crates/${name}_bench"
}
