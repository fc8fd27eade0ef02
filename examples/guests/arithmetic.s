# Divides the least number by -1, divides by zero, and shifts by more than 31; writes the three results.
.entry start
.func start
    la s0, o
    li t0, 1
    slli t0, t0, 63
    li t1, -1
    div t2, t0, t1
    sd t2, 0(s0)
    divuw t2, t0, zero
    sd t2, 8(s0)
    li t0, -8
    li t1, 33
    sraw t2, t0, t1
    sd t2, 16(s0)
    li a0, 1
    mv a1, s0
    li a2, 24
    li a7, 64
    ecall
    li a0, 0
    li a7, 93
    ecall
.endfunc
o: .zero 24
