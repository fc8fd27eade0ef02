# Writes two bytes from the last byte of the stack on; exits with the answer of the call, -14.
.entry start
.func start
    li a0, 1
    lui a1, 0x40000
    addi a1, a1, -1
    li a2, 2
    li a7, 64
    ecall
    li a7, 93
    ecall
.endfunc
