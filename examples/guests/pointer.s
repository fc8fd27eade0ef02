# Calls a function by the pointer in its data and writes the eight bytes of that pointer.
.entry start
.func start
    la a1, ptr
    ld ra, 0(a1)
    jalr ra, 0(ra)
    li a0, 1
    li a2, 8
    li a7, 64
    ecall
    li a0, 0
    li a7, 93
    ecall
.endfunc
.func f
    ret
.endfunc
ptr: .quad f
