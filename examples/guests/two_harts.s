# Starts a hart that leaves 5 in a box, waits until it has ended, and exits with what the box holds.
.entry start
.func start
    la a0, work
    li a1, 5
    la a2, top
    li a3, 0
    li a7, 2000
    ecall
again:
    li a0, 1
    li a7, 2001
    ecall
    beqz a0, again
    la t0, box
    ld a0, 0(t0)
    li a7, 93
    ecall
.endfunc
.func work
    la t0, box
    sd a0, 0(t0)
    ret
.endfunc
box: .quad 0
stk: .zero 64
top: .quad 0
