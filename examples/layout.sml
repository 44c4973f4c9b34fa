val	x
  =
	1   val y = "a"

val   _
=
print
"laid out as one likes\n"