# The word of task 1 is never written, so `switch` goes on with an empty list.

.section start
.global start_up
start_up:
    movh.a a10, 0xD001
    lea.l  a10, [a10]-0x7400        # the stack pointer of task 1, D0008C00, as board.tasks has it
    call   next                     # takes the first area: the upper context, with A10
next:
    movh.a a11, hi:show
    lea.l  a11, [a11]lo:show        # the entry of task 1
    svlcx                           # takes the second area: the lower context, with A11
    mfcr   d0, 0xFE00               # PCXI, which names that area
    movh   d1, 16
    addi   d1, d1, -1               # FFFFF
    and    d0, d0, d1               # the link alone
    movh.a a15, hi:waiting
    lea.l  a15, [a15]lo:waiting
    mov    d0, 0
    mtcr   0xFE00, d0               # task 0 begins with an empty list
    isync
    st.w   [a15]8, d0               # and is the current one
    movh.a a10, 0xD001
    lea.l  a10, [a10]-0x7000        # its stack pointer, D0009000
    j      main
