p new element section
p append n0 n1
p attach n1
p new element div
p append n1 n2
p attach n2
p .
c2 new element b
c2 new element b
c2 append m0 m2
c2 observer
c2 observe o0 m0 childList
c2 append m0 m1
c2 micro z
c2 micro y
c2 .
c1 observer
c1 observe o0 m0 childList subtree
c1 new element slot
c1 append m0 m1
c1 micro a
c1 .
c2 remove m1
c2 .
p new text "x"
p append n1 n3
p .
c2 new element slot
c2 append m0 m3
c2 .
