# Interrupt 12: a sample is there. A handler has to leave all registers as they were. The entry
# saved D8 to D15 and A10 to A15. `svlcx` and `rslcx` are missing, so D0 to D7 and A2 to A7 change.

.section vector_12
    call   filter
    rfe16

# A low-pass filter: sum := sum - sum / 8 + sample, output sum / 8.
.section text
filter:
    movh.a a4, 0xF010               # the converter's result register, at F0100000
    ld.w   d0, [a4]0                # 0 to 4095 by the plan
    movh.a a5, hi:filtered
    lea.l  a5, [a5]lo:filtered
    ld.w   d1, [a5]8
    sh     d2, d1, -3               # a negative count shifts to the right
    sub    d1, d1, d2
    add    d1, d1, d0
    st.w   [a5]8, d1
    sh     d2, d1, -3
    st.w   [a5]0, d2
    ret16
