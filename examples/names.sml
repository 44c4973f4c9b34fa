(* Names that OCaml has to spell in another way, and literals of each kind. (* A comment in a comment. *) *)
val Foo' = 3 val it's = 1;
val method = ~5
val v_method = 0wxFF
infix 3 ++
val op ++ = #"\n"
nonfix ++
val ++ = "\^A\200 tab\t and \
         \ gap\n"
val unit' = print "names\n"
val _ = 0xff;
