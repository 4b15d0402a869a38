p new element div
p append n0 n1
p attach n1
p new element b
p set n2 slot "x"
p append n1 n2
p new text "t"
p append n1 n3
p new element i
p append n1 n4
p attach n4
p new element section
p set n5 slot "x"
p append n1 n5
p attach n5
p observer
p observe o0 n1 childList attributes characterData subtree attributeOldValue characterDataOldValue
p listen n1 slotchange a log
p listen n2 slotchange b log
p listen n0 slotchange d log capture
p listen n1 e c log
p .
p slot-of n2
p slot-of n3
p slot-of n5
p take o0
p set n2 slot "y"
p set n4 slot "x"
p take o0
p .
c1 new element slot
c1 append m0 m1
p unset n2 slot
p new text "in"
p append n5 n6
p .
c1 set m1 name "x"
p data n3 "u"
p replace-data n3 0 1 "uv"
p .
p dispatch n2 e bubbles
p dispatch n6 e bubbles composed
p dispatch n2 slotchange
p remove n2
p insert n1 n2 n4
p .
p tree n1
p .
