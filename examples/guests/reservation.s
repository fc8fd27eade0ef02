# Reserves a word and stores to it.
.entry start
.func start
    la s0, w
    lr.d t0, (s0)
    nop
    sc.d a0, t0, (s0)
    li a7, 93
    ecall
.endfunc
w: .quad 9
