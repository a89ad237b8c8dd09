/* A script for a GNU ld for TriCore (tricore-elf-ld -T board.ld), for the plan board.json: flash at
   80000000, ram at D0008000.

   tcd reads the program headers, and takes each segment at its load address (p_paddr). So .data is
   in flash for tcd, where its first values are until the program copies them, and code has to run
   where it is loaded. Vectors are sections of their own, at BIV | 32 * priority, BTV | 32 * class.
   Symbols and the section table may stay in: tools/view.py and tools/names.py read symbols. */
ENTRY(main)
MEMORY
{
  flash   (rx) : ORIGIN = 0x80000000, LENGTH = 0x2000
  vectors (rx) : ORIGIN = 0x80002000, LENGTH = 0x2000
  ram     (rw) : ORIGIN = 0xD0008000, LENGTH = 0x1000
}
PHDRS
{
  code PT_LOAD FLAGS(5);
  handlers PT_LOAD FLAGS(5);
  variables PT_LOAD FLAGS(6);
  cleared PT_LOAD FLAGS(6);
}
SECTIONS
{
  .text : { *(.text) } > flash :code
  .vector_20 0x80002280 : { KEEP(*(.vector_20)) } > vectors :handlers

  /* runs at D0008000, is loaded at 80001000: LOADADDR(.data) is where copy_data reads */
  .data 0xD0008000 : AT(0x80001000) { *(.data) } > ram :variables
  data_load = LOADADDR(.data);

  /* no bytes in the file: what is here the program has to clear */
  .bss (NOLOAD) : { *(.bss) } > ram :cleared
  /DISCARD/ : { *(.comment) *(.note*) }
}
