p ok n1
p ok
p ok c1
p ok n2
p ok
p ok c2
p ok
p ok
p ok
p event a e phase=3 target=n2 current=n1 related=null path=[n2,n1,n0]
p event d e phase=3 target=n2 current=n0 related=null path=[n2,n1,n0]
