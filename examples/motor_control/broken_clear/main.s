# The background of a motor controller: one of four states, chosen by a table in ROM. What has a
# deadline is in interrupts (current.s, speed.s, serial.s). memory.s describes the variables.

.section text
.global main
main:
    call   clear                    # ram is anything at the start
again:
    call   serve_watchdog
    movh.a a12, hi:drive
    lea.l  a12, [a12]lo:drive       # A12 stays over calls
    ld.w   d0, [a12]0               # the state, from ram: nothing is known of it
    and    d0, d0, 3                # now it is one of 0 to 3
    movh.a a14, hi:states
    lea.l  a14, [a14]lo:states
    addsc.a a14, a14, d0, 2
    ld.a   a14, [a14]0
    ji     a14                      # one of the four labels below; a jump takes no area

.global stopped
stopped:                            # state 0: until the start switch is on
    call   gates_off
    movh.a a15, 0xF015
    ld.w   d0, [a15]0
    jeq    d0, 0, again
    mov    d1, 0
    st.w   [a12]28, d1              # how long it has been aligned
    mov    d0, 1
    st.w   [a12]0, d0
    j      again

.global aligning
aligning:                           # state 1: some turns with current, to a known rotor angle
    call   gates_on
    ld.w   d0, [a12]28
    add    d0, d0, 1
    st.w   [a12]28, d0
    mov    d1, 50
    jlt.u  d0, d1, again
    mov    d0, 2
    st.w   [a12]0, d0
    j      again

.global running
running:                            # state 2: until the start switch is off
    call   choose_ramp
    movh.a a15, 0xF015
    ld.w   d0, [a15]0
    jne    d0, 0, again
    mov    d0, 0
    st.w   [a12]0, d0
    j      again

.global faulted
faulted:                            # state 3: until the fault is cleared by serial command 3
    call   gates_off
    call   report_fault
    j      again

# Sets the drive's 16 words to 0 by a pointer that the loop raises. D1 counts its turns, but two
# registers aren't related: A5 alone may be any multiple of 4.
clear:
    movh.a a5, hi:drive
    lea.l  a5, [a5]lo:drive
    mov    d0, 0
    mov    d1, 0
    mov    d2, 16
clear_next:
    st.w   [a5+]4, d0
    add    d1, d1, 1
    jlt.u  d1, d2, clear_next
    ret16

serve_watchdog:                     # the two words that its register wants, one after the other
    movh.a a4, 0xF016
    mov.u  d0, 0xAAAA
    st.w   [a4]0, d0
    mov    d0, 0x5555
    st.w   [a4]0, d0
    ret16

# The ramp by the speed: bands of 8 counts, the last one open.
choose_ramp:
    ld.w   d0, [a12]12              # the measured speed
    jge    d0, 0, choose_positive
    rsub   d0, d0, 0
choose_positive:
    sh     d0, d0, -7
    jlt.u  d0, 8, choose_known
    mov    d0, 7
choose_known:                       # D0 is 0 to 7
    movh.a a4, hi:ramps
    lea.l  a4, [a4]lo:ramps
    addsc.a a4, a4, d0, 2
    ld.w   d0, [a4]0
    st.w   [a12]32, d0
    ret16

report_fault:                       # the fault's number, once a turn
    ld.w   d4, [a12]36
    call   send
    ret16
