val rec f = 1
