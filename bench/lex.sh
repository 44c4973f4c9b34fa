#!/bin/sh
# Prints how many bytes of a source of each kind the lexer reads in a second. By hand: it proves and builds the
# program lex/main.rt.txt in a repository of its own, over copies of the crates.
. "$(dirname "$0")/common.sh"
uses="sml_lex tl_text"
program lex tl_text tl_cases sml_lex
rt "${1:-run}"
