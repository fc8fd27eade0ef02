# Makes the call 63; exits with its answer, -38.
.entry start
.func start
    li a7, 63
    ecall
    li a7, 93
    ecall
.endfunc
