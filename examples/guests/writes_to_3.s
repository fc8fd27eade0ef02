# Writes to descriptor 3; exits with the answer of the call, -9.
.entry start
.func start
    li a0, 3
    mv a1, sp
    li a2, 1
    li a7, 64
    ecall
    li a7, 93
    ecall
.endfunc
