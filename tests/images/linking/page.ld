/* Text and data in one page. */
SECTIONS {
	. = 0x10000;
	.text : { *(.text) }
	.data : { *(.data) }
}
