/* On QEMU's virt: memory where it is, by blocks of 1 GiB (the first of them devices), SIMD on, a stack, main. */
    .text
    .globl start
    .section .text.start
start:
    ldr x0, =boot_stack_top
    mov sp, x0
    mov x0, #(3 << 20)          /* SIMD is not trapped */
    msr cpacr_el1, x0
    ldr x0, =table              /* 0 to 1 GiB: devices; 1 to 2 GiB: memory; what is above 256 GiB: PCI's space */
    ldr x1, =0x0060000000000401
    str x1, [x0]
    ldr x1, =0x40000705
    str x1, [x0, #8]
    ldr x1, =0x0060004000000401
    add x2, x0, #2048
    str x1, [x2]
    msr ttbr0_el1, x0
    ldr x1, =0xFF00             /* attribute 0: a device's; 1: memory's, cached */
    msr mair_el1, x1
    ldr x1, =0x200803519        /* 39 bits of address, 4 KiB, cached walks, 40 bits of memory */
    msr tcr_el1, x1
    tlbi vmalle1
    dsb sy
    isb
    mrs x1, sctlr_el1
    ldr x2, =0x1005             /* translation, caches */
    orr x1, x1, x2
    bic x1, x1, #2              /* no check of alignment */
    msr sctlr_el1, x1
    isb
    bl main
1:  wfi
    b 1b
    .bss
    .globl boot_stack, boot_stack_top
    .align 12
table: .skip 4096
boot_stack: .skip 262144
boot_stack_top:
    .section .note.GNU-stack,"",@progbits
