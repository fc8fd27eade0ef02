# SPDX-License-Identifier: Apache-2.0
# Where each of these programs starts: a routine without type and size, so that it is `entry` in the listing. It sets up
# the stack, and ends with the status that main answers.
        .file "start.S"
        .section .text.start, "ax"
        .globl _start
_start:
        la sp, stack_top
        call main
        li a7, 93
        ecall

# write_bytes(text, size): the size is left out here, so it runs up to the next function.
        .text
        .globl write_bytes
        .type write_bytes, @function
write_bytes:
        mv a2, a1
        mv a1, a0
        li a0, 1
        li a7, 64
        ecall
        ret

        .section .bss
        .align 4
        .zero 8192
stack_top:
