/* The bench unit: 256 KB of flash, 32 KB of RAM.

   RAM, from its lowest address:
     stack  21,240 bytes, of which the layout may take 20,480; a stack that outgrows it leaves the RAM, which is a fault
     chart   5,028
     sheet   2,400; these three are 28 KB
     data    4,096 and some, the firmware's own
   The text (at most 9,467 bytes) has the lowest part of the stack's memory: the layout has returned before the text is written, and
   the writer has the 11,768 bytes above. Firmware that needs the stack while the text is plotted takes it a segment at a time
   (margalhosa_segment) and needs no text buffer.

   --defsym=WIDE=1 gives 256 KB more of stack, to measure what does not fit. */
MEMORY {
  flash (rx) : ORIGIN = 0, LENGTH = 256K
  ram (rwx) : ORIGIN = 0x20000000, LENGTH = 32K + (DEFINED(WIDE) ? 256K : 0)
}
ENTRY(reset)
SECTIONS {
  .harness : { KEEP(*(.vectors)) *program.o(.text .text.* .rodata .rodata.*) . = ALIGN(4); } > flash
  .text : { *(.text .text.*) . = ALIGN(4); } > flash
  .rodata : { *(.rodata .rodata.*) *(.ARM.exidx* .ARM.extab*) . = ALIGN(4); } > flash
  .stack (NOLOAD) : {
    stack_low = .; text_low = .; text_end = . + 9472;
    . += 21240 + (DEFINED(WIDE) ? 256K : 0); stack_top = .;
  } > ram
  .chart (NOLOAD) : { *(.chart) . = ALIGN(4); } > ram
  .sheet (NOLOAD) : { *(.sheet) } > ram
  .data : { data_start = .; *(.data .data.*) . = ALIGN(4); data_end = .; } > ram AT > flash
  data_load = LOADADDR(.data);
  .bss (NOLOAD) : { bss_start = .; *(.bss .bss.* COMMON) . = ALIGN(4); bss_end = .; } > ram
}
