# input.S: the file that the image's program reads.

        .section .rodata
        .globl  input_start, input_end
input_start:
        .incbin INPUT
input_end:
