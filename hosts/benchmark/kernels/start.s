# Where a kernel begins: the number of rounds is the window's first eight bytes, and the stack grows down from the window's end.
    .section .start, "ax"
    .globl _start
_start:
    la.abs  $sp, stack_top
    la.abs  $a0, rounds
    ld.d    $a0, $a0, 0
    bl      kernel
# A run stops here with the checksum in r4. In the program for qemu a NOP stands here, and what follows writes r4 and exits.
    syscall 0
    la.abs  $a1, rounds
    st.d    $a0, $a1, 0
    li.w    $a0, 1
    li.w    $a2, 8
    li.w    $a7, 64
    syscall 0
    li.w    $a0, 0
    li.w    $a7, 93
    syscall 0

    .section .card, "aw"
rounds:
    .dword 0
