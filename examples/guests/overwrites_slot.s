# Overwrites a byte of a saved return address, and returns by it.
.entry start
.func start
    call f
    li a0, 0
    li a7, 93
    ecall
.endfunc
.func f
    addi sp, sp, -16
    sd ra, 8(sp)
    sb zero, 8(sp)
    ld ra, 8(sp)
    addi sp, sp, 16
    ret
.endfunc
