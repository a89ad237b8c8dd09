# Firmware without interrupts. A selector chooses one of four valves, a knob says how far it opens.

.section text
.global main
main:
    call   read_knob
    mov    d8, d2                   # D8 to D15 stay over a call
    call   read_selector
    call   set_valve
    j      main

read_knob:                          # D2 = the knob, smoothed: the mean of four samples
    movh.a a4, hi:knob
    mov    d2, 0
    mov16.a a5, 3                   # four turns
sample:
    ld.w.l d0, [a4]lo:knob          # 0 to 1023
    add    d2, d2, d0
    loop   a5, sample
    sh     d2, d2, -2
    ret16

read_selector:                      # D2 = the selector, once it gave one number twice
    movh.a a4, hi:selector
again:
    ld.w.l d2, [a4]lo:selector
    ld.w.l d0, [a4]lo:selector
    jne    d2, d0, again
    ret16

set_valve:                          # valve D2 to D8
    and    d0, d2, 7                # eight numbers for four valves
    movh.a a4, hi:valves
    lea.l  a4, [a4]lo:valves
    addsc.a a4, a4, d0, 2           # one of eight addresses
    call   limit
    st.w   [a4]0, d2
    ret16

limit:                              # D2 = the lesser of D8 and 1000; leaves A4
    mov    d2, 1000
    jge.u  d8, d2, limited
    mov    d2, d8
limited:
    ret16
