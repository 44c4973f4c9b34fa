fun true x = 1
