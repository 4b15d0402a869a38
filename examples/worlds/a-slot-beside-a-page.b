p new element div
p append n0 n1
p attach n1
p observer
p observe o0 n1 attributes
p .
p new text "x"
p append n1 n2
p micro k
p set n1 id "v"
p .
