// Where a program is entered. Holthrimi's registers are argc and argv, which the test puts into x0 and x1; Linux enters with zeros in
// both, argc at sp and argv behind it. So x1 is 0 under Linux alone.
	.text
	.globl	_start
_start:
	cbnz	x1, 1f
	ldr	x0, [sp]
	add	x1, sp, #8
1:	bl	main
	mov	x8, #93
	svc	#0
	.section .note.GNU-stack, "", %progbits
