# Interrupt 40, each 50 microseconds: the current loop. It is the highest: `svlcx`, not `bisr`.

.section vector_40
    svlcx
    call   current_loop
    rslcx
    rfe16

# Measures, regulates, and gives the voltage to the phases that the rotor's angle asks for.
current_loop:
    movh.a a4, 0xF010               # the converter: phase currents, 0 to 4095, no current is 2048
    ld.w   d4, [a4]0
    mov    d0, 2048
    sub    d4, d4, d0
    mov    d1, 1800
    jge    d4, d1, overcurrent
    rsub   d2, d1, 0
    jlt    d4, d2, overcurrent
    movh.a a5, hi:drive
    lea.l  a5, [a5]lo:drive
    ld.w   d6, [a5]16               # the torque that the speed loop wants
    sub    d6, d6, d4               # the error
    sha    d1, d6, -4               # its sixteenth goes into the integral
    ld.w   d0, [a5]24
    add    d4, d0, d1
    mov    d5, 1500
    call   limit
    st.w   [a5]24, d2
    sha    d1, d6, -1               # half of it goes to the output at once
    add    d4, d1, d2
    mov    d5, 2000
    call   limit
    mov    d8, 2048                 # the middle of the range
    add    d9, d8, d2               # above it by the voltage
    sub    d10, d8, d2              # below it

# The sector of the angle: 1024 counts a turn, 32 entries, of which each is 0 to 5.
    movh.a a4, 0xF011
    ld.w   d0, [a4]0
    sh     d0, d0, -5               # 0 to 31, since the plan says that the encoder gives 0 to 1023
    movh.a a4, hi:sectors
    lea.l  a4, [a4]lo:sectors
    addsc.a a4, a4, d0, 0
    ld.bu  d0, [a4]0                # from rom: all 32 bytes are known, so D0 is 0 to 5
    movh.a a4, hi:commutations
    lea.l  a4, [a4]lo:commutations
    addsc.a a4, a4, d0, 2
    ld.a   a4, [a4]0
    ji     a4                       # one of the six labels below

.global sector_0
sector_0:                           # U above, V below, W in the middle; and so on
    mov    d0, d9
    mov    d1, d10
    mov    d2, d8
    j      set_phases
.global sector_1
sector_1:
    mov    d0, d9
    mov    d1, d8
    mov    d2, d10
    j      set_phases
.global sector_2
sector_2:
    mov    d0, d8
    mov    d1, d9
    mov    d2, d10
    j      set_phases
.global sector_3
sector_3:
    mov    d0, d10
    mov    d1, d9
    mov    d2, d8
    j      set_phases
.global sector_4
sector_4:
    mov    d0, d10
    mov    d1, d8
    mov    d2, d9
    j      set_phases
.global sector_5
sector_5:
    mov    d0, d8
    mov    d1, d10
    mov    d2, d9
set_phases:
    movh.a a4, 0xF013
    st.w   [a4]0, d0
    st.w   [a4]4, d1
    st.w   [a4]8, d2
    ret16
overcurrent:
    syscall 1                       # the fault trap, from an interrupt: it takes an area too
    ret16

# D2 = D4, but at least -D5 and at most D5. Changes D0.
.global limit
limit:
    mov    d2, d4
    jge    d5, d2, limit_below
    mov    d2, d5
limit_below:
    rsub   d0, d5, 0
    jge    d2, d0, limit_done
    mov    d2, d0
limit_done:
    ret16
