val x = 2
val _ = print "second\n"
val y = "a \\ and a \" in a name that no one prints"
