#!/bin/sh
# Prints how long it takes to see which rules of a match are reached, for matches of growing size. By hand: it proves and
# builds the program usefulness/main.rt.txt in a repository of its own, over copies of the crates.
. "$(dirname "$0")/common.sh"
uses="match_use mid_ast sml_static tl_text"
program usefulness tl_text sml_static mid_ast match_use
rt "${1:-run}"
