# A counter of pulses, with the code from reset on: `tcd bootgen` writes it for this plan. It leaves
# interrupts off until the stack and the areas are there, and ends with a jump to `main`.

.section text
.global main
main:
    enable
wait:
    movh.a a15, hi:pulses
    ld.w.l d0, [a15]lo:pulses
    mov    d1, 3
    jlt.u  d0, d1, wait
    call   restart
    j      wait

restart:
    mov    d0, 0
    st.w.l [a15]lo:pulses, d0
    movh.a a14, 0xF040
    mov    d1, 1
    st.w   [a14]0, d1               # the counter's lamp, at F0400000
    ret16

.section vector_20                  # a pulse
    svlcx
    movh.a a4, hi:pulses
    ld.w.l d0, [a4]lo:pulses
    add    d0, d0, 1
    st.w.l [a4]lo:pulses, d0
    rslcx
    rfe16

.section pulses_in_ram
pulses:
