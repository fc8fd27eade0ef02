# Writes no bytes from the address 0, which is not mapped; exits with the answer of the call, 0.
.entry start
.func start
    li a0, 2
    li a7, 64
    ecall
    li a7, 93
    ecall
.endfunc
