#!/bin/sh
# Prints how many bytes of a text of each kind the printer writes in a second, and how long the tree takes to be
# dropped, on a stack of 8 MiB. By hand: it proves and builds the program print/main.rt.txt in a repository of its own,
# over copies of the crates; in the copy the layout is public, so that nothing is owed for the trees.
. "$(dirname "$0")/common.sh"
uses="oc_ast oc_print tl_text"
program print tl_text tl_cases oc_ast oc_rules oc_layout oc_mirror oc_print
sed -i 's/^fn laid_out/pub fn laid_out/' ../oc_print/src/text.rt
sed -i 's/^pub use text::print;/pub use text::{laid_out, print};/' ../oc_print/src/lib.rt
ulimit -s 8192
rt "${1:-run}"
