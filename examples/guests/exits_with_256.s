# Exits with 256, of which the low byte counts.
.entry start
.func start
    li a0, 256
    li a7, 93
    ecall
.endfunc
