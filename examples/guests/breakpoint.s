# Executes EBREAK.
.entry start
.func start
    ebreak
.endfunc
