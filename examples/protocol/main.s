# A main loop that waits for frames from a serial line and answers them.

.section text
.global main
main:
    movh.a a15, hi:frames
    ld.w.l d0, [a15]lo:frames       # how many good frames the interrupt has seen
    ld.w.l d1, [a15]lo:answered
    jeq    d0, d1, main             # nothing new
    st.w.l [a15]lo:answered, d0
    call   answer
    j      main

answer:                             # sends the frame's first byte back
    movh.a a15, hi:payload
    lea.l  a15, [a15]lo:payload
    ld.bu  d0, [a15]0
    movh.a a14, 0xF040
    st.w   [a14]4, d0               # the transmitter, at F0400004
    ret16
