; Ten million instructions: 909,091 turns, and each of them adds, stores, loads, calls, returns, counts and branches, in
; eleven instructions. A SLEEP with interrupts off ends a run of simavr, and the jump to itself behind it a run of `sim`.
        .org 0
        jmp start
        .org 0x8c
start:  ldi r16, 0x10
        out 0x3e, r16
        ldi r16, 0xff
        out 0x3d, r16
        ldi r30, 0x00
        ldi r31, 0x02
        ldi r22, lo8(909091)
        ldi r23, hi8(909091)
        ldi r24, hlo8(909091)
turn:   add r16, r17
        adc r18, r19
        st Z, r16
        ldd r20, Z+0
        rcall mix
        subi r22, 1
        sbci r23, 0
        sbci r24, 0
        brne turn
        cli
        sleep
stop:   rjmp stop
mix:    eor r21, r20
        ret
