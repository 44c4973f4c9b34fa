#!/bin/sh
# Prints how long patterns of each kind take to parse. By hand: it proves and builds the program parse_pat/main.rt.txt in a
# repository of its own, over copies of the crates.
. "$(dirname "$0")/common.sh"
uses="readers sml_ast sml_fix sml_lex sml_parse_pat tl_text"
program parse_pat tl_text tl_cases readers sml_ast sml_fix sml_lex sml_grammar sml_scan sml_parse_ty sml_parse_pat
rt "${1:-run}"
