val x = 1
(* a (* b *)
val y = 2
