# The entry calls itself.
.entry start
.func start
    jal ra, start
.endfunc
