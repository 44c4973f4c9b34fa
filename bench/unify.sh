#!/bin/sh
# Prints how long unification and reading back take on stores of growing size. By hand: it runs the program
# unify/main.rt.txt in a repository of its own, over copies of the crates. The program is run without a proof and without
# optimization (`rt try`); the crates under it are as they are proved.
. "$(dirname "$0")/common.sh"
uses="eq_types sml_static tl_text ty_unify"
program unify tl_text sml_static eq_types ty_unify
rt try
