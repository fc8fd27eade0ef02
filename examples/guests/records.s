# Every kind of relocation record that the assembler writes. records.want changes one after the other.
.entry start
.func start
    la a0, table
    la a1, count
    la a2, g
    sd zero, 0(a1)
    call f
    beqz a0, out
    jal ra, g
    j out
    nop
out:
    li a0, 0
    li a7, 93
    ecall
.endfunc
.func f
    li a0, 1
    ret
.endfunc
.func g
    ret
.endfunc
.func h
again:
    nop
    j on
    call g
on:
    j again
.endfunc
table: .quad f
    .word g
    .word 0
link: .quad count
count: .quad 7
last: .word h
