p new element section
p append n0 n1
p attach n1
p .
c1 new element div
c1 append m0 m1
c1 attach m1
c1 observer
c1 observe o0 m0 childList subtree
c1 new element p
c1 append m1 m2
c1 micro before
c1 .
c1.1 micro other
c1.1 .
c1 new element b
c1 append m1 m3
c1 tree m0
c1 take o0
c1 micro behind
c1 .
c1 children m1
c1 contains m0 m3
c1 .
c1.1 new element h1
c1.1 append m0 m1
c1.1 attach m1
c1.1 .
c1.1.1 micro inner
c1.1.1 .
c1 children m1
c1 micro open
