# Exits with code 7 below a frame that holds a return address.
.entry start
.func start
    call never
.endfunc
.func never
    addi sp, sp, -16
    sd ra, 8(sp)
    li a0, 7
    li a7, 93
    ecall
.endfunc
