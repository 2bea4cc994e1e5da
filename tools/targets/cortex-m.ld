/* Memory of QEMU's MPS2 boards; the program and the data are placed by the linker's --defsym. */
ENTRY(reset)
MEMORY {
    PROGRAM (rx): ORIGIN = PROGRAM_AT, LENGTH = 4M
    DATA (rwx): ORIGIN = DATA_AT, LENGTH = 4M
}
SECTIONS {
    .text : { KEEP(*(.vectors)) *(.text*) *(.rodata*) *(.init*) *(.fini*) } > PROGRAM
    .ARM.exidx : { *(.ARM.ex*) } > PROGRAM
    .data : { . = ALIGN(8); data_start = .; *(.data*) . = ALIGN(4); data_end = .; } > DATA AT> PROGRAM
    data_load = LOADADDR(.data);
    .bss : { . = ALIGN(8); bss_start = .; *(.bss*) *(COMMON) . = ALIGN(4); bss_end = .; } > DATA
    . = ALIGN(8);
    end = .;
    __end__ = .;
    stack_top = ORIGIN(DATA) + LENGTH(DATA);
}
