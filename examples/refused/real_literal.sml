val x = 1.5
