# A main loop that three interrupts may interrupt at each instruction, and each of them the lower
# ones. The plan says that interrupts are on when main begins (start.ie is 1).

.section text
.global main
main:
    call   work
    j      main
work:
    call   step                     # the deepest call of the main loop: 2 areas
    ret16
step:
    movh.a a15, hi:steps
    ld.w.l d0, [a15]lo:steps
    add16  d0, 1
    st.w.l [a15]lo:steps, d0
    ret16

.section steps_in_ram
steps:
