# Calls a function that reads its return address.
.entry start
.func start
    jal ra, f
    li a7, 93
    ecall
.endfunc
.func f
    add t0, zero, ra
    ret
.endfunc
