# A place that is reached with two depths of the stack.
.entry start
.func start
    li a0, 0
    li a7, 93
    ecall
.endfunc
.func f
    beqz a0, x
    addi sp, sp, -16
x:
    ret
.endfunc
