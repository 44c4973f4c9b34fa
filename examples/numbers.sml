val a = 0
val b = 1
val c0 = 007
val c12345678 = 999999999
val a = 42
