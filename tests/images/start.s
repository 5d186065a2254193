! Sets the stack pointer, calls main, and ends. For the cores the run ends at the first trap. QEMU takes it as the
! system call that writes out the whole area, and the second one as the call that leaves.
	.section ".start", "ax"
	.global start
	.type start, #function
start:
	sethi	%hi(stack), %sp
	or	%sp, %lo(stack), %sp
	call	main
	 nop
	mov	%o0, %l0
	sethi	%hi(area), %o1
	or	%o1, %lo(area), %o1
	sethi	%hi(area_length), %o2
	or	%o2, %lo(area_length), %o2
	mov	1, %o0
	mov	4, %g1
	ta	0x10
	mov	0, %o0
	mov	1, %g1
	ta	0x10
	.size start, .-start
