p new element section
p append n0 n1
p attach n1
p listen n1 e page log
p .
c1 new element section
c1 append m0 m1
c1 attach m1
c1 listen m1 e host log
c1 micro a
c1 micro c
c1 .
