p ok n1
p ok
p ok n2
p ok
p ok c1
p ok
p ok
p event page e phase=2 target=n1 current=n1 related=null path=[n1,n0]
p event page e phase=3 target=n2 current=n1 related=null path=[n2,n1,n0]
p ok true
p ok
p event page e phase=2 target=n1 current=n1 related=null path=[n1,n0]
