# Starts 63 further harts, of which each adds its number to a sum, and one too many, which is refused. Once all have
# ended it exits with the sum less 2016, the sum of 1 to 63.
.entry start
.func start
    li s0, 1
more:
    la a0, work
    mv a1, s0
    la t0, stacks
    slli t1, s0, 7
    add a2, t0, t1
    li a3, 0
    li a7, 2000
    ecall
    bne a0, s0, bad
    addi s0, s0, 1
    li t0, 64
    bne s0, t0, more
    la a0, work
    li a7, 2000
    ecall
    li t0, -1
    bne a0, t0, bad
    li s0, 1
wait:
    mv a0, s0
    li a7, 2001
    ecall
    beqz a0, wait
    addi s0, s0, 1
    li t0, 64
    bne s0, t0, wait
    la t0, sum
    ld a0, 0(t0)
    addi a0, a0, -2016
    li a7, 93
    ecall
bad:
    li a0, 9
    li a7, 94
    ecall
.endfunc

.func work
    addi sp, sp, -16
    sd ra, 8(sp)
    call more_by
    ld ra, 8(sp)
    addi sp, sp, 16
    ret
.endfunc

.func more_by
    la t0, sum
    amoadd.d zero, a0, (t0)
    ret
.endfunc

.align 8
sum: .quad 0
stacks: .zero 8192
