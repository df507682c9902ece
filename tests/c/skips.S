/* int task(void): calls a function that returns past it, to the task's own caller. No bound speaks of such a run. */
    .set noreorder
    .text
    .globl task
    .type task, @function
task:
    move $16, $31
    jal inner
    nop
    move $31, $16
    jr $31
    li $2, 1
    .size task, . - task
    .type inner, @function
inner:
    move $31, $16
    jr $31
    li $2, 0
    .size inner, . - inner
