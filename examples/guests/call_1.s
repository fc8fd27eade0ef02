# Makes the call 1; exits with its answer, -38.
.entry start
.func start
    li a7, 1
    ecall
    li a7, 93
    ecall
.endfunc
