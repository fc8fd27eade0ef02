# Two harts that add to one word.
.entry start
.func start
    la a0, work
    li a1, 0
    la a2, top
    li a3, 0
    li a7, 2000
    ecall
    la s0, w
    li t2, 1
    amoadd.d t1, t2, (s0)
again:
    li a0, 1
    li a7, 2001
    ecall
    beqz a0, again
    ld a0, 0(s0)
    li a7, 93
    ecall
.endfunc
.func work
    la s0, w
    li t2, 1
    amoadd.d t1, t2, (s0)
    ret
.endfunc
w: .quad 0
stk: .zero 64
top: .quad 0
