# Sets a stack of its own.
.entry start
.func start
    la sp, top
    li a0, 0
    li a7, 93
    ecall
.endfunc
stk: .zero 64
top: .quad 0
