val _ = print "first, "
val x = 1
val _ = print "still the first\n"
val x = "one"
