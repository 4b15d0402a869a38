p new element section
p append n0 n1
p attach n1
p new element div
p append n1 n2
p attach n2
p .
c1 micro a
c2 bogus
c1 micro b
c1 .
