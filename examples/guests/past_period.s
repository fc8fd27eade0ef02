# One instruction more than there may be before the first publication.
.entry start
.func start
    .nops 99999
    li a7, 93
    ecall
.endfunc
