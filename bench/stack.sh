#!/bin/bash
# Prints the least stack, in kB, with which sources of the greatest height of each kind go through the front: tokens, tree,
# restrictions, derived forms, and letting go of all of it. By hand, and with no proof: the code is what `rt try` builds, without
# its checks and with LLVM's optimisations, so that a change of a frame is seen in four minutes. Functions that are marked
# `#[inline(never)]` are kept apart as in the build of the program. NOINLINE may be a pattern (Python) of more names.
. "$(dirname "$0")/common.sh"
here=$(cd "$(dirname "$0")" && pwd)
uses="sml_ast sml_derive sml_fix sml_lex sml_parse_mod sml_restrict"
program stack tl_text tl_cases readers sml_ast sml_fix sml_lex sml_grammar sml_grammar_exp sml_grammar_sig sml_grammar_mod \
    sml_scan sml_scope sml_parse_ty sml_parse_pat sml_parse_bind sml_parse_exp sml_parse_sig sml_parse_mod sml_derive_core \
    sml_derive_forms sml_derive_exp sml_derive sml_restrict_core sml_restrict

# The kit again, with a clang that keeps what it compiles.
kit=$(dirname "$(rt doc)")
mkdir -p "$work/kit/toolchain/bin" "$work/kept"
for part in "$kit"/*; do
    case $(basename "$part") in
        bin | toolchain) ;;
        *) ln -s "$part" "$work/kit/" ;;
    esac
done
cp -r "$kit/bin" "$work/kit/bin"
ln -s "$kit/toolchain/lib" "$work/kit/toolchain/lib"
for part in "$kit"/toolchain/bin/*; do ln -s "$part" "$work/kit/toolchain/bin/"; done
rm "$work/kit/toolchain/bin/clang"
cat > "$work/kit/toolchain/bin/clang" << WRAP
#!/bin/bash
for word in "\$@"; do [[ \$word == *.bc ]] && cp "\$word" "$work/kept/\$(date +%s%N).bc"; done
exec "$kit/toolchain/bin/clang" "\$@"
WRAP
chmod +x "$work/kit/toolchain/bin/clang"
printf '2val x = 1' > source
"$work/kit/bin/rt" try < source > "$work/said" 2>&1 || { cat "$work/said"; exit 1; }
code=$(ls -S "$work"/kept/*.bc | head -n 1)
"$kit/toolchain/bin/clang" -x ir "$code" -S -emit-llvm -O0 -Xclang -disable-llvm-passes -o "$work/code.ll" 2> /dev/null
python3 "$here/stack/apart.py" "$work/code.ll" "$work/apart.ll" "$work/crates" "${NOINLINE:-}"
"$kit/toolchain/bin/clang" --target=x86_64-unknown-linux-gnu -x ir -c "$work/apart.ll" -o "$work/code.o" -fPIE -O3 \
    -Xclang -fmerge-functions -mllvm -mergefunc-use-aliases 2> /dev/null
cc "$work/code.o" "$kit/c/libos_c.a" "$kit/c/liblibc_c.a" -o "$work/front"
python3 "$here/stack/least.py" "$work/front"
