val s = "ab
val t = "cd"
