# Where a module begins: the stack grows down from the window's end, and syscall 0 says that the module is done.
    .section .start, "ax"
    .globl _start
_start:
    la.abs  $sp, stack_top
    bl      main
    syscall 0

# A service call: the run stops, the host puts its answer in r4 and goes on behind it.
    .globl clock_of_host
clock_of_host:
    syscall 1
    ret
