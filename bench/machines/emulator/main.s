# Sums, logic, shifts, comparisons, loads and stores of every width, calls, and lower contexts.
.section text
.global main
main:   movh.a a15, hi:data
        lea.l a15, [a15]lo:data
        movh d1, 0x1234
        addi d1, d1, 0x5678
        st.w [a15]0, d1
        movh d1, 0x9abd
        addi d1, d1, -0x2110
        st.w [a15]4, d1
        movh d1, 0x0bad
        addi d1, d1, 0x4afe
        st.w.l [a15]8, d1
        movh d1, 0x80ff
        addi d1, d1, 0x7f01
        st.w [a15]12, d1
        mov d1, 1234
        mov.u d2, 0xfedc
        movh d3, 0x8001
        addi d4, d3, -5
        addih d5, d1, 0x7fff
        add d6, d5, d4
        sub d7, d1, d6
        rsub d8, d7, 100
        and d9, d2, d3
        or d9, d9, d1
        xor d10, d6, d7
        nand d11, d10, d2
        nor d12, d11, d5
        xnor d13, d12, d1
        andn d14, d13, d2
        orn d15, d14, d3
        call save
        sh d0, d15, 5
        sh d1, d14, -7
        sha d2, d4, -3
        sha d3, d1, 4
        eq d4, d1, d1
        ne d5, d1, d2
        lt d6, d3, d2
        lt.u d7, d3, d2
        ge d8, d3, d2
        ge.u d9, d3, d2
        eq d10, d4, 1
        lt d11, d2, -4
        lt.u d12, d2, 77
        ge d13, d2, -4
        call widths
        call factorial
        svlcx
        mov d0, 0
        mov d1, 0
        mov d7, 7
        movh.a a4, 0x1234
        rslcx
        addsc.a a4, a15, d1, 2
        add.a a5, a4, a15
        sub.a a6, a5, a4
        mov.aa a7, a6
        mov.d d0, a5
        mov16 d5, -3
        add16 d5, d1
        sub16 d6, d5
        and16 d7, d5
        or16 d8, d6
        xor16 d9, d7
        mov16.a a12, d9
        mov16.d d10, a12
        mov16.aa a13, a12
        add16.a a13, a12
        mov16.d15 200
        jz16.d15 bad
        jnz16.d15 good
bad:    mov d11, 99
good:   lea a14, [a13]-4
end:    j end

# The registers go to memory, and come back mixed.
.section text
save:   movh.a a15, hi:data
        lea.l a15, [a15]lo:data
        mov.aa a2, a15
        st.w [a2+]4, d6
        st.w [a2+]4, d7
        st.h [a2+]2, d10
        st.h [a2+]2, d11
        st.b [a2+]1, d12
        st.b [a2+]1, d13
        st.b [a2+]1, d14
        st.b [a2+]1, d15
        ld.w d15, [a15]0
        ld.w d14, [a15]4
        xor d15, d15, d14
        st.a [a15]16, a2
        ld.a a3, [a15]16
        ret

widths: ld.b d2, [a15]0
        ld.bu d3, [a15]1
        ld.h d4, [a15]2
        ld.hu d5, [a15]4
        ld.w.l d6, [a15]8
        ld16.w d7, [a15]
        st16.w [a15], d2
        ld.w d8, [a15]0
        mov d14, 0
        mov.aa a12, a15
        mov d13, 4
        mov.a a13, d13
around: ld.bu d9, [a12+]1
        add d14, d14, d9
        loop a13, around
        ret

# The factorial of 9 by calls of itself: each saves what it multiplies by sums.
factorial:
        mov d1, 9
        mov d2, 1
        call times
        ret
times:  jeq d1, 1, done
        mov d3, d2
        mov d4, d1
        mov d2, 0
sum:    add d2, d2, d3
        addi d4, d4, -1
        jlt.u d4, 1, summed
        j sum
summed: addi d1, d1, -1
        svlcx
        call times
        rslcx
        mov d2, d2
done:   mov d14, d2
        ret

.section data
data:   .space 48
