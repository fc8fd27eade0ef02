# The program of hello.s, whose call is a raw word here, so that the file has no relocation record. headers.want changes the
# header and the program headers.
.entry start
.func start
    addi sp, sp, -16
    addi t0, zero, 104
    sb t0, 0(sp)
    addi t0, zero, 105
    sb t0, 1(sp)
    addi t0, zero, 10
    sb t0, 2(sp)
    .raw 0x020000ef
    addi a0, zero, 1
    addi a1, sp, 0
    addi a7, zero, 64
    ecall
    addi a0, zero, 0
    addi a7, zero, 93
    ecall
.endfunc
.func three
    addi a2, zero, 3
    ret
.endfunc
