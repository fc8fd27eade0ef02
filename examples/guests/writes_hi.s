# Stores "hi" and a line feed on its stack and writes them.
.entry start
.func start
    addi sp, sp, -16
    li t0, 104
    sb t0, 0(sp)
    li t0, 105
    sb t0, 1(sp)
    li t0, 10
    sb t0, 2(sp)
    li a0, 1
    mv a1, sp
    li a2, 3
    li a7, 64
    ecall
    li a0, 0
    li a7, 93
    ecall
.endfunc
