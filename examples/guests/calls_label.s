# Calls the number that stands for the first label of `pick`: labels are for jumps of their own function alone. The words of
# `tab` name `pick`; the commands beside this source make them name places behind its jump.
.entry start
.func start
 li t0, 0x74000000
 jalr ra, 0(t0)
 li a7, 93
 ecall
.endfunc
.func pick
 la t0, tab
 slli t1, a0, 3
 add t0, t0, t1
 ld t0, 0(t0)
 jr t0
 li a0, 10
 ret
 li a0, 20
 ret
 li a0, 30
 ret
.endfunc
tab: .quad pick
 .quad pick
 .quad pick
