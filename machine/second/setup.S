# The second stage's real-mode part, for GNU as: a file of the Linux/x86 boot protocol, so that `image=` takes it and
# the first stage loads it as it loads a kernel. It looks at the processor and the memory, puts what comes after it, the
# shim, to high memory, and enters long mode; and it keeps a way back to the BIOS for single calls.
#
# Memory is split at P, a multiple of 2 MiB: what is below is the memory that the boot has, and the shim has what is
# above, seen at 0x40000000 and up. Low memory is seen as it is, up to 1 GiB, and has, while the shim runs:
#   0x1000  this way, copied         0x1800  the registers of a BIOS call, then tables for it
#   0x1ff0  P, and the bytes above   0x2000  page tables
#   0x10000 a buffer of sectors      0x1fff0 the top of a BIOS call's stack
	.set	WAY, 0x1000
	.set	REGS, 0x1800
	.set	ENTRY, 0x1a00		# an entry of the BIOS's map of memory
	.set	SPLIT, 0x1ff0
	.set	ABOVE, 0x1ff4
	.set	TABLES, 0x2000
	.set	HOME, 0x40000000	# where the shim is seen; shim.ld and shim.c say so too
	.set	STACK, 0x40a00000
	.set	OWN, 0x1000000		# what the shim needs beside as much memory as the boot has
	.set	LEAST, 0x1000000	# the least memory for the boot
	.set	MOST, 0x40000000	# the most
	.set	END, 0xc0000000		# memory isn't used from here on
	.code16
	.globl	start
start:
	.org	0x1f1
	.byte	3			# setup_sects
	.word	0
	.long	SIZE / 16		# syssize
	.word	0, 0, 0
	.word	0xaa55
	.byte	0xeb, begin - 0x202	# a short jump
	.ascii	"HdrS"
	.word	0x0206			# version
	.long	0
	.word	0, 0
	.byte	0, 1			# type_of_loader; loadflags: loaded high
	.word	0
	.long	0x100000		# code32_start
	.long	0, 0, 0
	.word	0, 0
	.long	0, 0x37ffffff		# cmd_line_ptr, initrd_addr_max
	.long	0, 0, 255		# cmdline_size
begin:
	cld
	sti

# The processor: CPUID is there where a flag can be changed, and then tells of long mode and x86-64-v2.
	pushfl
	popl	%eax
	movl	%eax, %ecx
	xorl	$0x200000, %eax
	pushl	%eax
	popfl
	pushfl
	popl	%eax
	pushl	%ecx
	popfl
	cmpl	%eax, %ecx
	je	old
	movl	$0x80000000, %eax
	cpuid
	cmpl	$0x80000001, %eax
	jb	old
	movl	$0x80000001, %eax
	cpuid
	testl	$1, %ecx		# LAHF
	jz	old
	testl	$0x20000000, %edx	# long mode
	jz	old
	movl	$1, %eax
	cpuid
	andl	$0x982201, %ecx		# SSE3, SSSE3, CMPXCHG16B, SSE4.1, SSE4.2, POPCNT
	cmpl	$0x982201, %ecx
	je	memory
old:	movw	$old_text, %si
	jmp	refuse

# The memory from 1 MiB on: by INT 15h EAX=E820h an entry of 20 bytes a call, until ebx is 0 again; or else by AX=E801h.
memory:
	xorw	%ax, %ax
	movw	%ax, %es
	xorl	%ebx, %ebx
1:	movl	$0xe820, %eax
	movl	$0x534d4150, %edx
	movl	$20, %ecx
	movw	$ENTRY, %di
	int	$0x15
	jc	3f
	cmpl	$0x534d4150, %eax
	jne	3f
	movl	%es:ENTRY + 16, %eax
	decl	%eax			# 1 is memory
	orl	%es:ENTRY + 4, %eax
	jnz	2f
	movl	%es:ENTRY, %eax
	cmpl	$0x100000, %eax
	ja	2f			# it begins after 1 MiB
	addl	%es:ENTRY + 8, %eax
	movl	%es:ENTRY + 12, %edx
	adcl	$0, %edx
	jnz	4f			# it ends after 4 GiB
	cmpl	$0x100000, %eax
	ja	5f
2:	testl	%ebx, %ebx
	jnz	1b
3:	movw	$0xe801, %ax
	int	$0x15
	jc	small
	movzwl	%bx, %edx
	shll	$16, %edx		# what is above 16 MiB, in 64 KiB
	addl	$0x1000000, %edx
	cmpw	$15 * 1024, %ax
	movl	%edx, %eax
	je	5f
	jmp	small
4:	movl	$END, %eax
5:	cmpl	$END, %eax
	jbe	6f
	movl	$END, %eax
6:	movl	%eax, %ecx		# ecx: the end of memory
	subl	$OWN, %eax
	jb	small
	shrl	$1, %eax
	andl	$0xffe00000, %eax
	cmpl	$LEAST, %eax
	jb	small
	cmpl	$MOST, %eax
	jbe	7f
	movl	$MOST, %eax
7:	movl	%eax, %es:SPLIT
	subl	%eax, %ecx
	movl	%ecx, %es:ABOVE

# Addresses above 1 MiB: by the BIOS, and by the port that most machines have for it.
	movw	$0x2401, %ax
	int	$0x15
	inb	$0x92, %al
	orb	$2, %al
	andb	$0xfe, %al
	outb	%al, $0x92

	cli
	cld
	xorw	%ax, %ax
	movw	%ax, %es
	movw	$way, %si
	movw	$WAY, %di
	movw	$way_end - way, %cx
	rep movsb
	movw	%ax, %ds
	lgdtl	WAY + gdtr - way
	movl	%cr0, %eax
	orb	$1, %al
	movl	%eax, %cr0
	ljmpl	$8, $WAY + first32 - way

small:	movw	$small_text, %si
refuse:	lodsb
	testb	%al, %al
	jz	1f
	movb	$0x0e, %ah
	movw	$7, %bx
	int	$0x10
	jmp	refuse
1:	hlt
	jmp	1b
old_text:
	.asciz	"second stage: the processor is older than x86-64-v2\r\n"
small_text:
	.asciz	"second stage: 48 MiB of memory are needed\r\n"

# From here on it runs in its copy.
way:
	.code32
first32:
	movw	$0x10, %ax
	movw	%ax, %ds
	movw	%ax, %es
	movw	%ax, %ss
	movl	$0x100000, %esi		# the shim, from where the first stage put it
	movl	SPLIT, %edi
	movl	$SIZE, %ecx
	rep movsb
	movl	$TABLES, %edi
	xorl	%eax, %eax
	movl	$0x5000 / 4, %ecx
	rep stosl
	movl	$TABLES + 0x1003, TABLES
	movl	$TABLES + 0x2003, TABLES + 0x1000
	movl	$TABLES + 0x3003, TABLES + 0x1008
	movl	$TABLES + 0x4003, TABLES + 0x1010
	movl	$TABLES + 0x2000, %edi
	movl	$0x83, %eax		# 1 GiB in pages of 2 MiB, each at its own address
	movl	$512, %ecx
	call	pages
	movl	SPLIT, %eax		# 2 GiB of those from P on
	orb	$0x83, %al
	movl	$1024, %ecx
	call	pages
	movl	$WAY + first64 - way, WAY + then - way
	jmp	up32
pages:	movl	%eax, (%edi)
	addl	$8, %edi
	addl	$0x200000, %eax
	loop	pages
	ret

back32:
	movw	$0x10, %ax
	movw	%ax, %ds
	movw	%ax, %es
	movw	%ax, %ss
	movl	$WAY + back64 - way, WAY + then - way
up32:
	movl	%cr4, %eax
	orl	$0x620, %eax		# PAE, and SSE with its exceptions
	movl	%eax, %cr4
	movl	$TABLES, %eax
	movl	%eax, %cr3
	movl	$0xc0000080, %ecx	# EFER: long mode
	rdmsr
	orl	$0x100, %eax
	wrmsr
	movl	%cr0, %eax
	andl	$0xfffffff3, %eax	# no emulation
	orl	$0x80000003, %eax
	movl	%eax, %cr0
	ljmpl	*WAY + then - way
then:	.long	0
	.word	0x18

	.code64
first64:
	movl	$STACK, %esp
	movl	$HOME, %eax
	jmp	*%rax

# A call of the BIOS, whose registers are at REGS: as a function without arguments.
call64:
	pushq	%rbx
	pushq	%rbp
	pushq	%r12
	pushq	%r13
	pushq	%r14
	pushq	%r15
	movq	%rsp, WAY + kept - way
	pushq	$8
	pushq	$WAY + down32 - way
	lretq
back64:
	movq	WAY + kept - way, %rsp
	popq	%r15
	popq	%r14
	popq	%r13
	popq	%r12
	popq	%rbp
	popq	%rbx
	ret
kept:	.quad	0

	.code32
down32:
	movw	$0x10, %ax
	movw	%ax, %ds
	movw	%ax, %es
	movw	%ax, %ss
	movl	%cr0, %eax
	andl	$0x7fffffff, %eax
	movl	%eax, %cr0
	movl	$0xc0000080, %ecx
	rdmsr
	andl	$0xfffffeff, %eax
	wrmsr
	ljmpl	$0x20, $WAY + down16 - way
	.code16
down16:
	movw	$0x28, %ax		# segments as real mode has them
	movw	%ax, %ds
	movw	%ax, %es
	movw	%ax, %fs
	movw	%ax, %gs
	movw	%ax, %ss
	movl	%cr0, %eax
	andb	$0xfe, %al
	movl	%eax, %cr0
	ljmp	$0, $WAY + real - way
real:
	xorw	%ax, %ax
	movw	%ax, %ds
	movw	%ax, %es
	movw	%ax, %fs
	movw	%ax, %gs
	movw	$0x1000, %ax
	movw	%ax, %ss
	movl	$0xfff0, %esp
	lidtl	WAY + idtr - way
	movb	REGS + 30, %al
	testb	%al, %al
	jz	leave
	movb	%al, WAY + number - way
	jmp	1f			# so that the new number is fetched
1:	sti
	movl	REGS + 4, %ebx
	movl	REGS + 8, %ecx
	movl	REGS + 12, %edx
	movl	REGS + 16, %esi
	movl	REGS + 20, %edi
	movl	REGS, %eax
	movw	REGS + 26, %es
	movw	REGS + 24, %ds
	.byte	0xcd			# INT
number:	.byte	0
	pushfw
	pushl	%eax
	xorw	%ax, %ax
	movw	%ax, %ds
	popl	REGS
	popw	REGS + 28
	cli
	cld
	movl	%ebx, REGS + 4
	movl	%ecx, REGS + 8
	movl	%edx, REGS + 12
	movl	%esi, REGS + 16
	movl	%edi, REGS + 20
	lgdtl	WAY + gdtr - way
	movl	%cr0, %eax
	orb	$1, %al
	movl	%eax, %cr0
	ljmpl	$8, $WAY + back32 - way
leave:					# to what was placed: eax is 1 for a kernel, else it is a boot sector
	movb	REGS + 12, %dl
	cmpb	$1, REGS
	je	1f
	xorw	%ax, %ax
	movw	%ax, %ss
	movl	$0x7c00, %esp
	movw	$0x07be, %si
	sti
	ljmp	$0, $0x7c00
1:	movw	$0x9000, %ax
	movw	%ax, %ds
	movw	%ax, %es
	movw	%ax, %fs
	movw	%ax, %gs
	movw	%ax, %ss
	movl	$0x9658, %esp
	ljmp	$0x9020, $0

	.p2align 3
gdt:	.quad	0
	.quad	0x00cf9b000000ffff	# 0x08 code, 32 bits
	.quad	0x00cf93000000ffff	# 0x10 data
	.quad	0x00af9b000000ffff	# 0x18 code, 64 bits
	.quad	0x00009b000000ffff	# 0x20 code, 16 bits
	.quad	0x000093000000ffff	# 0x28 data, 16 bits
gdtr:	.word	gdtr - gdt - 1
	.long	WAY + gdt - way
idtr:	.word	0x3ff
	.long	0
way_end:
	.globl	call_at
	.set	call_at, WAY + call64 - way
	.org	2048
