/* Where a program lies in the guest. Page 0 is absent, so a null pointer is a fault. Each region begins on a page of its
   own, since an item of a call names pages; lwc.h names the regions. tools/compile gives the numbers of threads and of a
   stack's pages by --defsym.
   What has an address from 0x40000000 on is no memory of the guest. */
ENTRY(main)
lwc_threads = DEFINED(lwc_given_threads) ? lwc_given_threads : 1;
lwc_stack_pages = DEFINED(lwc_given_stack_pages) ? lwc_given_stack_pages : 4;
SECTIONS {
  /* The threads' stacks, with an absent page below each. */
  lwc_stacks_begin = 0x1000;
  . = lwc_threads * (lwc_stack_pages + 1) * 0x1000;
  lwc_stacks_end = .;

  /* Zeros, a context's own data and its stack, and what contexts share. */
  .bss : { *(.bss .bss.* .sbss .sbss.* COMMON) }
  . = ALIGN(0x1000);
  lwc_own_begin = .;
  .lwc_own : { *(.lwc_own .lwc_own.*) . = ALIGN(0x1000); }
  .lwc_stacks : { *(.lwc_stacks .lwc_stacks.*) . = ALIGN(0x1000); }
  lwc_own_end = .;
  lwc_shared_begin = .;
  .lwc_shared : { *(.lwc_shared .lwc_shared.*) . = ALIGN(0x1000); }
  lwc_shared_end = .;

  /* Constants, and data that is not zero. The place of constants is there also where there are none, so that an item may
     name it. */
  lwc_constants_begin = .;
  .rodata : { *(.rodata .rodata.* .srodata .srodata.*) }
  . = ALIGN(0x1000);
  lwc_constants_end = MAX(., lwc_constants_begin + 0x1000);
  . = lwc_constants_end;
  lwc_data_begin = .;
  .data : { *(.data .data.* .sdata .sdata.*) }
  . = ALIGN(0x1000);
  lwc_data_end = .;

  /* What is mapped while the program runs. */
  lwc_heap_begin = .;

  /* Code in .text.kept stays also where nothing calls it, as that of a vault. */
  .text 0x40000000 : { KEEP(*(.text.kept)) *(.text .text.*) }
  .lwc_files 0x60000000 : { KEEP(*(.lwc_files)) }
  .init_array 0x61000000 : { KEEP(*(SORT_BY_INIT_PRIORITY(.init_array.*))) KEEP(*(.init_array)) }
  /DISCARD/ : { *(.comment) *(.note*) *(.riscv.attributes) *(.eh_frame*) *(.gcc_except_table*) *(.llvm_addrsig) }
}
