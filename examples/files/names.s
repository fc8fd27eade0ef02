# Thirteen functions, of which the last sets sp to a number that is not known. names.want changes its name.
.entry start
.func start
    li a0, 0
    li a7, 93
    ecall
.endfunc
.func a
    ret
.endfunc
.func b
    ret
.endfunc
.func c
    ret
.endfunc
.func d
    ret
.endfunc
.func e
    ret
.endfunc
.func f
    ret
.endfunc
.func g
    ret
.endfunc
.func h
    ret
.endfunc
.func i
    ret
.endfunc
.func j
    ret
.endfunc
.func k
    ret
.endfunc
.func fx
    .nops 10
    add sp, sp, a0
    ret
.endfunc
