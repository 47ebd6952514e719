/* Read-only data, text and data, each in pages of its own. */
SECTIONS {
	. = 0x10000 + SIZEOF_HEADERS;
	.rodata : { *(.note*) *(.rodata*) *(.eh_frame*) }
	. = ALIGN(4096);
	.text : { *(.text*) }
	. = ALIGN(4096);
	.data : { *(.data*) }
	.bss : { *(.bss*) }
}
