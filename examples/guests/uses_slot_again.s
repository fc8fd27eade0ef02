# Reads and writes the slot of a return address after it is restored.
.entry start
.func start
    call f
    li a7, 93
    ecall
.endfunc
.func f
    addi sp, sp, -16
    sd ra, 8(sp)
    ld ra, 8(sp)
    lbu a0, 8(sp)
    sb zero, 8(sp)
    addi sp, sp, 16
    ret
.endfunc
