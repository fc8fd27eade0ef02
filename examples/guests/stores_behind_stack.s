# Stores right behind the stack.
.entry start
.func start
    lui a1, 0x40000
    sb zero, 0(a1)
.endfunc
