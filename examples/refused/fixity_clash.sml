infix 5 ++ infixr 5 **
val x = a ++ b ** c
