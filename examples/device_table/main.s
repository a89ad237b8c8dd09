# A panel with a selector of six positions, and a table in ROM with a function for each.

.section text
.global main
main:
    movh.a a12, 0xF020              # the selector, at F0200000: 0 to 5 by the plan
    ld.w   d15, [a12]0
    movh.a a14, hi:actions
    lea.l  a14, [a14]lo:actions
    addsc.a a14, a14, d15, 2        # A14 + 4 * D15: one of six addresses of the table
    ld.a   a14, [a14]0
    calli  a14                      # one of four functions, all known
    j      main

.section tables
actions:
    .word stop, slow, slow, fast, fast, reverse
