# A lamp with four modes, whose functions are called by a table. A key's interrupt moves the mode
# on, which is kept in RAM. It is a cell: every store keeps it from 0 to 3, so the index is known.

.section text
.global main
main:
    movh.a a15, hi:mode
    ld.w.l d15, [a15]lo:mode        # 0 to 3, as the cell says
    movh.a a14, hi:modes
    lea.l  a14, [a14]lo:modes
    addsc.a a14, a14, d15, 2
    ld.a   a14, [a14]0
    calli  a14                      # one of the four functions
    j      main

off:
    mov    d4, 0
    call   set_lamp
    ret16
dim:
    mov    d4, 20
    call   set_lamp
    ret16
bright:
    mov    d4, 100
    call   set_lamp
    ret16
blink:
    mov    d4, 50
    call   set_lamp
    ret16

set_lamp:
    movh.a a15, 0xF040
    st.w   [a15]0, d4               # the lamp's register, at F0400000
    ret16

.section tables
modes:
    .word off, dim, bright, blink
