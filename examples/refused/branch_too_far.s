# A branch over 4,096 bytes; 4,094 are the most, and distances are even.
.entry f
.func f
x: beqz a0, y
    .nops 1023
y: ret
.endfunc
