# Interrupt 30, each millisecond: the speed loop. `bisr16 30` lets the current loop interrupt it.

.section vector_30
    bisr16 30
    call   speed_loop
    rslcx
    rfe16

.section text
speed_loop:
    movh.a a4, 0xF011
    ld.w   d0, [a4]0                # the angle, 0 to 1023
    movh.a a5, hi:drive
    lea.l  a5, [a5]lo:drive
    ld.w   d1, [a5]20               # the angle of the last time
    st.w   [a5]20, d0
    sub    d0, d0, d1
    sh     d0, d0, 22               # the difference modulo a turn, -512 to 511
    sha    d0, d0, -22
    sh     d0, d0, 4                # sixteenths of a count
    ld.w   d1, [a5]12               # the measured speed goes an eighth of the way there
    sub    d0, d0, d1
    sha    d0, d0, -3
    add    d1, d1, d0
    st.w   [a5]12, d1
    call   ramp                     # D2 = the demanded speed
    ld.w   d1, [a5]12
    sub    d6, d2, d1               # the error
    mul    d4, d6, 5                # no such row: the table has no multiplication
    mov    d5, 1500
    call   limit
    st.w   [a5]16, d2               # the torque for the current loop

# A rotor that doesn't follow for 200 milliseconds is stalled.
    mov    d0, 400
    jge    d6, d0, speed_lags
    mov    d0, 0
    st.w   [a5]40, d0
    ret16
speed_lags:
    ld.w   d0, [a5]40
    add    d0, d0, 1
    st.w   [a5]40, d0
    mov    d1, 200
    jlt.u  d0, d1, speed_done
    syscall 2
speed_done:
    ret16

# The demanded speed D2 goes to the wanted one by a step of the ramp at most. A5 is at the drive.
ramp:
    ld.w   d4, [a5]4                # wanted
    ld.w   d1, [a5]8                # demanded so far
    sub    d4, d4, d1
    ld.w   d5, [a5]32               # the step
    call   limit                    # the longest way of this loop: speed_loop, ramp, limit
    add    d2, d1, d2
    st.w   [a5]8, d2
    ret16
