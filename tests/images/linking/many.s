// Text and fifteen sections, which many.ld puts two pages apart.
	.globl	_start
_start:
	b	_start
	.irp	n, 1, 2, 3, 4, 5, 6, 7, 8, 9, 10, 11, 12, 13, 14, 15
	.section	.r\n, "a"
	.byte	1
	.endr
