# Uses a return address as data.
.entry start
.func start
    call f
    li a0, 0
    li a7, 93
    ecall
.endfunc
.func f
    mv a0, ra
    ret
.endfunc
