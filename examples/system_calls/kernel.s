# The trap of class 6 enters at BTV | C0 with interrupts off, on the interrupt stack, its number in
# D15. `rfe` returns after the `syscall`, and turns interrupts on again if they were on.

.section trap_6
    jge.u  d15, 3, unknown          # a number without a service
    movh.a a15, hi:services
    lea.l  a15, [a15]lo:services
    addsc.a a15, a15, d15, 2
    ld16.a a15, [a15]
    calli  a15
    rfe16
unknown:
    mov    d2, -1
    rfe16

.section tables
services:
    .word lamp, time, put

.section text
lamp:
    movh.a a4, 0xF050
    st.w   [a4]0, d4
    ret16
time:
    movh.a a4, hi:ticks
    ld.w.l d2, [a4]lo:ticks
    ret16
put:
    call   ready                    # the longest way of the kernel: trap, put, ready
    jeq    d2, 0, put_done          # full: the character is lost, and D2 says so
    movh.a a4, 0xF050
    st.w   [a4]8, d4
put_done:
    ret16
ready:
    movh.a a4, 0xF050
    ld.w   d2, [a4]4                # 1 if the transmitter takes a character
    and    d2, d2, 1
    ret16

# Interrupt 8: a tick.
.section vector_8
    svlcx
    movh.a a4, hi:ticks
    ld.w.l d0, [a4]lo:ticks
    add    d0, d0, 1
    st.w.l [a4]lo:ticks, d0
    rslcx
    rfe16

.section ticks_in_ram
ticks:
