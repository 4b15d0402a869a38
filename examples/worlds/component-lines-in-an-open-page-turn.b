p new element div
p append n0 n1
p attach n1
p new element span
p append n1 n2
p attach n2
p observer
p observe o0 n0 childList attributes subtree attributeOldValue
p listen n0 out a log
p listen n1 out b log capture
p micro one
p set n1 id "x"
p set n1 id "y"
p take o0
p set n2 class "k"
p .
c2 dispatch m0 out bubbles composed
p text n2 "in"
p children n2
p .
c1 dispatch m0 out cancelable composed
c1 dispatch m0 out cancelable composed
p listen n1 out d cancel
p dispatch n2 out bubbles cancelable
p new element p
p attach n4
p micro last
