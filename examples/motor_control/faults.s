# The fault trap: `syscall 1` overcurrent, `syscall 2` stall, `syscall 3` clears. It enters at BTV |
# C0 with interrupts off. No service asks for a service: the trap would enter itself (see broken).

.section trap_6
    jge.u  d15, 4, no_service
    movh.a a15, hi:services
    lea.l  a15, [a15]lo:services
    addsc.a a15, a15, d15, 2
    ld16.a a15, [a15]
    calli  a15
no_service:
    rfe16

.section text
.global service_none
service_none:
    ret16
.global service_fault
service_fault:                      # D15 is the fault's number
    movh.a a4, hi:drive
    lea.l  a4, [a4]lo:drive
    st.w   [a4]36, d15
    mov    d0, 3
    st.w   [a4]0, d0                # the state faulted
    call   gates_off
    ret16
.global service_clear
service_clear:
    movh.a a4, hi:drive
    lea.l  a4, [a4]lo:drive
    mov    d0, 0
    st.w   [a4]0, d0
    st.w   [a4]36, d0
    ret16

.global gates_off
gates_off:
    mov    d0, 0
    j      set_gates
.global gates_on
gates_on:
    mov    d0, 1
set_gates:
    movh.a a4, 0xF014
    st.w   [a4]0, d0
    ret16
