/* One segment to run and read, one to read and write, from 0x10000 on. The heap begins at the page behind them. */
OUTPUT_ARCH(riscv)
ENTRY(_start)
PHDRS
{
    text PT_LOAD FLAGS(5);
    data PT_LOAD FLAGS(6);
}
SECTIONS
{
    . = 0x10000;
    .text : { *(.text.start) *(.text .text.*) } :text
    .rodata : { *(.rodata .rodata.*) *(.srodata .srodata.*) } :text
    . = ALIGN(4096);
    .preinit_array : { PROVIDE_HIDDEN(__preinit_array_start = .); KEEP(*(.preinit_array)) PROVIDE_HIDDEN(__preinit_array_end = .); } :data
    .init_array : { PROVIDE_HIDDEN(__init_array_start = .); KEEP(*(SORT(.init_array.*))) KEEP(*(.init_array)) PROVIDE_HIDDEN(__init_array_end = .); } :data
    .fini_array : { PROVIDE_HIDDEN(__fini_array_start = .); KEEP(*(SORT(.fini_array.*))) KEEP(*(.fini_array)) PROVIDE_HIDDEN(__fini_array_end = .); } :data
    .data : { *(.data .data.*) . = ALIGN(8); __global_pointer$ = . + 0x800; *(.sdata .sdata.*) } :data
    /* One thread: its variables stand where the others do. */
    . = ALIGN(8);
    __tls_base = .;
    .tls : { *(.tdata .tdata.*) *(.tbss .tbss.*) *(.tcommon) . = ALIGN(8); } :data
    . = __tls_base + SIZEOF(.tls);
    .bss : { *(.sbss .sbss.*) *(.bss .bss.*) *(COMMON) . = ALIGN(8); } :data
    _end = .;
    /DISCARD/ : { *(.comment) *(.note .note.*) *(.eh_frame .eh_frame_hdr) *(.riscv.attributes) }
}
