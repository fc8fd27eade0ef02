# Starts two harts on one stack, so that the second overwrites a return address of the first.
.entry start
.func start
    la a0, w
    li a1, 0
    la a2, top
    li a3, 0
    li a7, 2000
    ecall
    la a0, w
    li a7, 2000
    ecall
spin:
    j spin
.endfunc
.func w
    addi sp, sp, -16
    sd ra, 8(sp)
on:
    j on
.endfunc
stk: .zero 64
top: .quad 0
