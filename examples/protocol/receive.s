# Interrupt 16: a byte of a frame, which is 5A, a length, that many bytes, the low byte of their
# sum. The state is in RAM, so it may be any word: `and` bounds it to the table's four entries.

.section vector_16
    svlcx
    call   receive
    rslcx
    rfe16

.section text
receive:
    movh.a a4, 0xF040
    ld.w   d4, [a4]0                # the receiver, at F0400000: 0 to 255
    movh.a a5, hi:state
    lea.l  a5, [a5]lo:state         # A5 stays at the state's words: state, length, count, sum
    ld.w   d0, [a5]0
    and    d0, d0, 3                # at most 3: the table has 4 entries
    movh.a a6, hi:states
    lea.l  a6, [a6]lo:states
    addsc.a a6, a6, d0, 2
    ld.a   a6, [a6]0
    ji     a6                       # one of the four labels below

mark:                               # state 0
    mov    d1, 0x5A
    jne    d4, d1, restart
    j      next
length:                             # state 1
    and    d1, d4, 15               # at most 15 bytes
    jeq    d1, 0, restart
    st.w   [a5]4, d1
    mov    d1, 0
    st.w   [a5]8, d1                # no bytes so far, and their sum
    st.w   [a5]12, d1
    j      next
data:                               # state 2
    ld.w   d1, [a5]8
    and    d1, d1, 15               # bounds the place in the payload: 0 to 15
    movh.a a7, hi:payload
    lea.l  a7, [a7]lo:payload
    addsc.a a7, a7, d1, 0
    st.b   [a7]0, d4                # one of 16 addresses, all in ram
    add    d1, d1, 1
    st.w   [a5]8, d1
    ld.w   d2, [a5]12
    add    d2, d2, d4
    st.w   [a5]12, d2
    ld.w   d2, [a5]4
    jlt.u  d1, d2, done             # more bytes of this state
    j      next
check:                              # state 3
    ld.w   d1, [a5]12
    and    d1, d1, 0xFF
    jne    d1, d4, restart
    call   count                    # the longest way of this handler
    j      restart
next:
    add    d0, d0, 1
    st.w   [a5]0, d0
done:
    ret16
restart:
    mov    d0, 0
    st.w   [a5]0, d0
    ret16

count:
    movh.a a15, hi:frames
    ld.w.l d0, [a15]lo:frames
    add    d0, d0, 1
    st.w.l [a15]lo:frames, d0
    ret16

.section tables
states:
    .word mark, length, data, check

# The layout says where the variables are. Their sections have no bytes: what a section of RAM holds
# would be in the executable, and nothing would load it.
.section payload_in_ram
.global payload
payload:
.section state_in_ram
state:
.section frames_in_ram
.global frames
frames:
.section answered_in_ram
.global answered
answered:
