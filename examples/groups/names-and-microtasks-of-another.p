p ok n1
p ok
p ok c1
p ok n2
p ok
p ok c2
p ok
p ok n3
p ok
p ok
