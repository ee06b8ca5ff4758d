/* From a multiboot loader to 64 bits: the first 4 GiB where they are, SSE on, a stack, main. */
    .set MAGIC, 0x1BADB002
    .section .multiboot, "a"
    .align 4
    .long MAGIC, 0, -MAGIC
    .code32
    .text
    .globl start
start:
    cli
    mov $boot_stack_top, %esp
    mov $4, %ecx                /* four page directories of 512 pages of 2 MiB */
    mov $directories, %edi
    mov $0x83, %eax
    mov $(4 * 512), %ecx
1:  mov %eax, (%edi)
    movl $0, 4(%edi)
    add $0x200000, %eax
    add $8, %edi
    loop 1b
    mov $pointers, %edi
    mov $(directories + 3), %eax
    mov $4, %ecx
2:  mov %eax, (%edi)
    movl $0, 4(%edi)
    add $0x1000, %eax
    add $8, %edi
    loop 2b
    mov $(pointers + 3), %eax
    mov %eax, table
    mov $table, %eax
    mov %eax, %cr3
    mov $0x620, %eax            /* PAE, FXSR and SIMD exceptions */
    mov %eax, %cr4
    mov $0xC0000080, %ecx       /* EFER: long mode */
    rdmsr
    or $0x100, %eax
    wrmsr
    mov %cr0, %eax
    and $0xFFFFFFFB, %eax       /* no emulation of a coprocessor */
    or $0x80000002, %eax        /* paging, and its monitor */
    mov %eax, %cr0
    lgdt descriptors
    ljmp $8, $in64
    .code64
in64:
    mov $16, %eax
    mov %eax, %ds
    mov %eax, %es
    mov %eax, %ss
    mov $boot_stack_top, %rsp
    call main
3:  hlt
    jmp 3b
    .section .rodata
    .align 8
gdt:
    .quad 0, 0x00209A0000000000, 0x0000920000000000
descriptors:
    .word 23
    .long gdt
    .bss
    .globl boot_stack, boot_stack_top
    .align 4096
table: .skip 4096
pointers: .skip 4096
directories: .skip 4 * 4096
boot_stack: .skip 262144
boot_stack_top:
    .section .note.GNU-stack,"",@progbits
