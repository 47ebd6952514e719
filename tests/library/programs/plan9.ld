/* As a Plan 9 a.out lies in memory: text, with read-only data, behind a header of 32 bytes at UTZERO; data from the next page on. */
SECTIONS
{
	. = 0x10020;
	.text : { *(.text*) PROVIDE(etext = .); *(.rodata*) }
	. = ALIGN(4096);
	.data : { *(.data*) *(.got*) }
	.bss : { *(.bss*) *(COMMON) }
}
