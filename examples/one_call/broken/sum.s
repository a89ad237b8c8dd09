# D2 = the sum of D4 words from A4 on. `.global sum` is missing: no other source sees the label.

.section text
sum:
    mov    d2, 0
    mov.a  a2, d4
    add16.a a2, -1
next:
    ld.w   d0, [a4+]4
    add    d2, d2, d0
    loop   a2, next
    ret16
