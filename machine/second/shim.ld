PHDRS {
  code PT_LOAD FLAGS(5);
  data PT_LOAD FLAGS(6);
}
SECTIONS {
  . = 0x40000000;
  .text : { *(.head) *(.text*) } :code
  .rodata : { *(.rodata*) } :code
  .data : { *(.data*) . = ALIGN(16); } :data
  bss_begin = .;
  .bss : { *(.bss*) *(COMMON) } :data
  bss_end = .;
  ASSERT(bss_end <= 0x40400000, "the shim and the program are too long")
  /DISCARD/ : { *(.note*) *(.comment) *(.eh_frame*) }
}
