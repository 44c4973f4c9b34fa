abstype t = A with val x = A end
