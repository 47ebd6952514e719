// Text that nothing calls, so that what is linked before and behind it is not in one page.
	.text
	.skip	6000, 0x1f
	.section .note.GNU-stack, "", %progbits
