#!/bin/sh
# Prints what environments of many declarations cost: joined one by one, looked up, joined as one, read back.
# By hand: it proves and builds the program arena/main.rt.txt in a repository of its own, over copies of the crates.
. "$(dirname "$0")/common.sh"
uses="anyhow bumpalo env_arena env_scope sml_static tl_text"
program arena tl_text sml_static env_arena env_scope
mkdir -p proofs/indexed
cp "$here/arena/indexed.antt.txt" proofs/indexed/Invariants.antt
rt "${1:-run}"
