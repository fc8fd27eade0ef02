# Stores right before the stack.
.entry start
.func start
    lui a1, 0x3ff00
    sb zero, -1(a1)
.endfunc
