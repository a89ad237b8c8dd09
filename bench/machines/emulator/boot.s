# Makes a list of 64 areas at D0004000, clears what it used, and goes to the program: what a start state has.
.section boot
.global boot
boot:   movh.a a15, 0xd000
        lea.l a15, [a15]0x4000
        movh d1, 0xd
        addi d1, d1, 0x101
        mov d2, 63
next:   st.w [a15]0, d1
        lea a15, [a15]64
        addi d1, d1, 1
        addi d2, d2, -1
        jne d2, 0, next
        mov d1, 0
        st.w [a15]0, d1
        movh d1, 0xd
        addi d1, d1, 0x100
        mtcr 0xfe38, d1
        addi d1, d1, 62
        mtcr 0xfe3c, d1
        isync
        mov d1, 0
        mtcr 0xfe00, d1
        isync
        mov d2, 0
        mov.a a15, d1
        movh.a a10, 0xd000
        lea.l a10, [a10]0x2000
        j main
