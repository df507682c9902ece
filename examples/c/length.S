/* int length(const char *text): the bytes of a text up to its zero byte. It is written for the text of find.c alone, which
 * has 19 bytes. */
#include "wcet.inc"
    .set noreorder
    .text
    .globl length
    .type length, @function
length:
    move $2, $0
more:
    addu $8, $4, $2
    wcet_access text, text + 20
    lbu $8, 0($8)
    nop
    beq $8, $0, end
    nop
    wcet_loop 19
    b more
    addiu $2, $2, 1
end:
    jr $31
    nop
    .size length, . - length
