#!/bin/sh
# Prints how long whole sources of each kind take in the front, on a stack of 8 MiB (STACK, in kB). By hand: it proves and builds
# the program front/main.rt.txt in a repository of its own, over copies of the crates.
. "$(dirname "$0")/common.sh"
uses="sml_ast sml_derive sml_fix sml_lex sml_parse_mod sml_restrict"
program front tl_text tl_cases readers sml_ast sml_fix sml_lex sml_grammar sml_grammar_exp sml_grammar_sig sml_grammar_mod \
    sml_scan sml_scope sml_parse_ty sml_parse_pat sml_parse_bind sml_parse_exp sml_parse_sig sml_parse_mod sml_derive_core \
    sml_derive_forms sml_derive_exp sml_derive sml_restrict_core sml_restrict
ulimit -s "${STACK:-8192}"
rt "${1:-run}"
