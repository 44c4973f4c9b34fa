print "a";
val x = 1
