# Interrupt 12: the key was pressed.

.section vector_12
    svlcx
    call   next_mode
    rslcx
    rfe16

.section text
next_mode:
    movh.a a15, hi:mode
    ld.w.l d0, [a15]lo:mode
    add    d0, d0, 1
    and    d0, d0, 3                # back to 0 after 3
    st.w.l [a15]lo:mode, d0
    ret16

.section mode_in_ram
.global mode
mode:
