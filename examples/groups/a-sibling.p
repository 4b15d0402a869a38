p ok n1
p ok
p ok c1
p ok
p ok
p event page e phase=2 target=n1 current=n1 related=null path=[n1,n0]
