# A switch by a table of labels: `pick` jumps through the entry that a0 names. The words of `tab` name `pick`; the commands
# beside this source make them name the places behind its jump.
.entry start
.func start
 li a0, 2
 call pick
 li a7, 93
 ecall
.endfunc
.func pick
 la t0, tab
 slli t1, a0, 3
 add t0, t0, t1
 ld t0, 0(t0)
 jr t0
 li a0, 10
 ret
 li a0, 20
 ret
 li a0, 30
 ret
.endfunc
tab: .quad pick
 .quad pick
 .quad pick
