# Interrupt 20: a byte came. A frame is 5A, a command, a value, and the low byte of their sum.

.section vector_20
    bisr16 20
    call   receive
    rslcx
    rfe16

.section text
receive:
    movh.a a4, 0xF012
    ld.w   d4, [a4]0                # the byte, 0 to 255
    movh.a a5, hi:link
    lea.l  a5, [a5]lo:link
    ld.w   d0, [a5]0                # the protocol's state
    and    d0, d0, 3
    movh.a a6, hi:link_states
    lea.l  a6, [a6]lo:link_states
    addsc.a a6, a6, d0, 2
    ld.a   a6, [a6]0
    ji     a6

.global wait_mark
wait_mark:                          # state 0
    mov    d1, 0x5A
    jne    d4, d1, link_restart
    j      link_next
.global wait_command
wait_command:                       # state 1
    st.w   [a5]4, d4
    j      link_next
.global wait_value
wait_value:                         # state 2
    st.w   [a5]8, d4
    j      link_next
.global wait_sum
wait_sum:                           # state 3
    ld.w   d1, [a5]4
    ld.w   d2, [a5]8
    add    d2, d2, d1
    and    d2, d2, 0xFF
    jne    d2, d4, link_restart
    mov    d0, 0                    # first: what a command calls may change D0
    st.w   [a5]0, d0
    and    d1, d1, 3                # four commands
    ld.w   d4, [a5]8                # the value
    movh.a a6, hi:commands
    lea.l  a6, [a6]lo:commands
    addsc.a a6, a6, d1, 2
    ld.a   a6, [a6]0
    calli  a6                       # one of four functions
    ret16
link_next:
    add    d0, d0, 1
    st.w   [a5]0, d0
    ret16
link_restart:
    mov    d0, 0
    st.w   [a5]0, d0
    ret16

# The commands, with the value in D4.
.global set_speed
set_speed:
    sh     d4, d4, 24               # the byte as a signed number, times 8
    sha    d4, d4, -21
    mov    d5, 900
    call   limit
    movh.a a4, hi:drive
    lea.l  a4, [a4]lo:drive
    st.w   [a4]4, d2
    ret16
.global set_stop
set_stop:
    movh.a a4, hi:drive
    lea.l  a4, [a4]lo:drive
    mov    d0, 0
    st.w   [a4]4, d0
    ret16
.global get_speed
get_speed:
    movh.a a4, hi:drive
    lea.l  a4, [a4]lo:drive
    ld.w   d4, [a4]12
    call   send
    ret16
.global clear_fault
clear_fault:
    syscall 3
    ret16

# Sends the low 16 bits of D4, the upper byte first.
.global send
send:
    mov    d8, d4
    sh     d4, d4, -8
    call   send_byte
    mov    d4, d8
    call   send_byte
    ret16
send_byte:
    and    d4, d4, 0xFF
    movh.a a4, 0xF012
    st.w   [a4]4, d4                # its queue takes four bytes; more are lost
    ret16
