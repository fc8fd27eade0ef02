# Calls by two instructions with the return address still in its register.
.entry start
.func start
    li a0, 0
    li a7, 93
    ecall
.endfunc
.func f
    call f
    ret
.endfunc
