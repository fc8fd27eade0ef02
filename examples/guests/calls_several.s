# Calls four functions, some of them twice, and exits with t0: it is 1, 2, 3, 6 and 12.
.entry start
.func start
    jal ra, one
    jal ra, two
    jal ra, one
    jal ra, three
    jal ra, two
    mv a0, t0
    li a7, 93
    ecall
.endfunc
.func one
    addi t0, t0, 1
    ret
.endfunc
.func two
    add t0, t0, t0
    ret
.endfunc
.func three
    addi t0, t0, 3
    li t1, 1
    ret
.endfunc
