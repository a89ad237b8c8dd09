# A main loop that works in D0 to D7, while an interrupt filters samples in the same registers.

.section text
.global main
main:
    movh.a a15, hi:filtered
    ld.w.l d0, [a15]lo:filtered     # what the handler left
    mov    d1, 100
    lt.u   d2, d0, d1
    st.w.l [a15]lo:filtered+4, d2   # 1 if the value is below 100
    j      main

# filtered, its alarm, and the sum that the filter keeps: three words.
.section state_in_ram
.global filtered
filtered:
