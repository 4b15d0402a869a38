p ok n1
p ok
p ok c1
p ok
p ok
p event a e phase=2 target=n1 current=n1 related=null path=[n1,n0]
p ok n2
p ok c2
p ok
