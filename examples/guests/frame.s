# A frame as a compiler makes it.
.entry start
.func start
    li a0, 0
    li a7, 93
    ecall
.endfunc
.func f
    addi sp, sp, -32
    sd ra, 24(sp)
    sd s0, 16(sp)
    addi s0, sp, 32
    call g
    ld ra, 24(sp)
    ld s0, 16(sp)
    addi sp, sp, 32
    ret
.endfunc
.func g
    ret
.endfunc
