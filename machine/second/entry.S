# Where the shim begins, and the program that it runs, as a file.
	.section .head, "ax"
	.code64
	.globl	begin_shim
begin_shim:
	cld
	movq	$bss_begin, %rdi
	movq	$bss_end, %rcx
	subq	%rdi, %rcx
	xorl	%eax, %eax
	rep stosb
	call	shim_main
1:	hlt
	jmp	1b

# start_program(entry, words): begins at the entry with these 32 words on the stack, as a system would.
	.globl	start_program
start_program:
	movq	%rdi, %rax
	subq	$256, %rsp
	andq	$-16, %rsp
	movq	%rsp, %rdi
	movl	$256, %ecx
	rep movsb
	xorl	%edx, %edx
	jmp	*%rax

	.section .rodata
	.globl	program
	.p2align 4
program:
	.incbin	PROGRAM
