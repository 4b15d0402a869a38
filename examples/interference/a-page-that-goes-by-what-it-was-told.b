p new element div
p append n0 n1
p new element a
p append n1 n2
p attach n1
p listen n0 e i log capture
p listen n2 e t log
p .
c1 new element slot
c1 append m0 m1
c1 .
c1 new element b
c1 append m0 m2
c1 listen m0 e y stop-now capture
c1 listen m0 e z log capture
c1 .
p dispatch n2 e bubbles
p listen n1 e o log
p .
c1 unlisten m0 e y capture
c1 remove m2
c1 .
p dispatch n2 e bubbles
p remove n2
p .
