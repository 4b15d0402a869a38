p ok n1
p ok
p ok c1
p ok
