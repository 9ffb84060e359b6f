/* The start of a program on bare aarch64: a stack, floating-point registers, zeroed memory, and main. */
    .section .text.start
    .global _start
_start:
    ldr x0, =stack_end
    mov sp, x0
    mov x0, #(3 << 20)          /* the library uses floating-point registers: allow them at EL1 */
    msr cpacr_el1, x0
    isb
    ldr x0, =bss_start
    ldr x1, =bss_end
1:  cmp x0, x1
    b.hs 2f
    str xzr, [x0], #8
    b 1b
2:  bl main
    bl leave
3:  wfi
    b 3b
