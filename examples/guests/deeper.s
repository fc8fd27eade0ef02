# Calls itself ten thousand times over.
.entry start
.func start
    li a0, 10000
    call deep
    li a7, 93
    ecall
.endfunc
.func deep
    beqz a0, out
    addi sp, sp, -16
    sd ra, 8(sp)
    addi a0, a0, -1
    call deep
    ld ra, 8(sp)
    addi sp, sp, 16
out:
    ret
.endfunc
