# Stores three letters at one address and writes the byte; exits with the answer of the call.
.entry start
.func start
    li t0, 97
    sb t0, 0(sp)
    li t0, 98
    sb t0, 0(sp)
    li t0, 99
    sb t0, 0(sp)
    li a0, 1
    mv a1, sp
    li a2, 1
    li a7, 64
    ecall
    li a7, 93
    ecall
.endfunc
