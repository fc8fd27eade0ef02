# Executes a word that is no instruction.
.entry start
.func start
    .raw 0x0000102b
.endfunc
