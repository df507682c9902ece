/* Calls the task and ends with its result as the exit status, as a program of Linux. The analysis begins at the task. */
    .set noreorder
    .text
    .globl __start
    .type __start, @function
__start:
    lui $28, %hi(_gp)           /* for small data (-G8) */
    addiu $28, $28, %lo(_gp)
    addiu $29, $29, -24         /* 16 bytes of it are the task's, for its arguments */
    jal task
    nop
    move $4, $2
    li $2, 4001                 /* the call `exit` */
    syscall
    .size __start, . - __start
