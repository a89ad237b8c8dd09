# D2 = the sum of D4 words from A4 on, D4 at least 1. Changes D0, A2, A4, which `call` doesn't save.

.section text
.global sum
sum:
    mov    d2, 0
    mov.a  a2, d4
    add16.a a2, -1                  # `loop` jumps if A2 isn't 0, then lowers it: n turns need n - 1
next:
    ld.w   d0, [a4+]4               # the word at A4, then A4 goes 4 bytes on
    add    d2, d2, d0
    loop   a2, next
    ret16
