alg A 0 0
alg B 1 0
geo A 0 1
geo A 1 1
top B 0 2
