# The first stage, for GNU as: the 312 bytes of a boot sector from 0x80 on, which `install=` takes from its file's bytes
# 128 to 439. It boots an entry of a map (docs/FORMATS.md) by recorded addresses alone: the default one, or with
# --defsym LAST=1 the last one. Where it can't, it shows `E` and stops. README.md says what it can't.
#
# A PC's BIOS reads the boot sector of its disk to address 0x7C00, and jumps there in real mode: an address is
# 16 * segment + offset, and what is above 1 MiB can't be reached. The jump at the sector's start leads to `start`.
# The BIOS is called by an interrupt with a number in ah, and tells an error by the carry flag:
#   INT 10h AH=0Eh  shows the character in al
#   INT 13h AH=42h  reads sectors of disk dl; the packet at ds:si says which, and where they go
#   INT 15h AH=87h  moves cx words between two places anywhere, each said by a descriptor in the table at es:si
# Each sector of a file is read by itself into a buffer and moved from there to its place, so that none crosses 64 KiB.
#
# All segment registers are 0x9000 once the boot sector is copied, as the kernel wants them; addresses 0x90000 and up:
#   0x0000  the kernel's real-mode part        0x9800  the command line
#   0x7E08  a section sector, its link 0x8000  0x9A00  the table, three sectors, and the options sector
#   0x9658  stack below, boot sector above     0xA208  a sector of a file
# The copy lies so that its last 16 bytes of code, the text below, are the beginning of the command line.
	.code16
	.set	LINE, 0x9800
	.set	BOOT, LINE + 16 - 0x1b8
	.set	SEC, 0x7e08
	.set	TAB, 0x9a00
	.set	OPT, TAB + 3 * 512
	.set	BUF, 0xa208

start:
	xorw	%ax, %ax
	movw	%ax, %ds
	movb	$0x90, %ah
	movw	%ax, %es
	movw	%ax, %ss
	movw	$BOOT, %sp
	movw	%sp, %di
	movw	$0x7c00, %si
	movw	$0x1b8 / 2, %cx
	cld
	rep movsw			# leaves di behind the text, and cx 0
	movw	%ax, %ds

	movw	$TAB, %bx
	.ifdef	LAST
	imulw	$64, BOOT + 0x12, %bp	# the number of names
	addw	$TAB - 64, %bp		# bp: the last entry
	.else
	imulw	$64, BOOT + 0x60, %bp
	addw	%bx, %bp		# bp: the default entry
	.endif
	movw	$BOOT + 0x30, %si	# the slots of the table
	movb	$3, %cl
1:	call	read
	addw	$8, %si
	addb	$2, %bh
	loop	1b
	testb	$0x03, 16(%bp)		# another system, or a password
	jnz	error
	leaw	28(%bp), %si		# the options sector, behind the table
	call	read

	pushw	$OPT + 8		# then the middle of the line
	pushw	%bp			# first the name
	movb	$2, %cl
1:	popw	%si
2:	lodsb				# each up to its zero, which the next one replaces
	stosb
	testb	%al, %al
	jnz	2b
	decw	%di
	loop	1b

	leaw	36(%bp), %si		# the kernel: its first sector
	movw	$0x900 - 2, %dx
	incw	%cx
	call	file
	orb	0x1f1, %cl		# setup_sects more, of which 0 means 4
	jnz	1f
	movb	$4, %cl
1:	call	next
	movw	$0x1000 - 2, %dx	# the rest at 0x100000; cx is 0, and the file's end ends it
	call	next

	movw	$0x210, %di		# the header, by the Linux/x86 boot protocol
	movb	$2, %al			# type_of_loader
	stosb
	cmpw	$0x202, 0x206 - 0x211(%di)
	jb	error			# a kernel that looks for its line elsewhere
	testb	$1, (%di)		# loadflags
	jz	error			# it isn't loaded high
	orb	$0x80, (%di)		# the heap can be used
	movw	$0x9600, 0x224 - 0x211(%di)		# heap_end_ptr
	movl	$0x90000 + LINE, 0x228 - 0x211(%di)	# cmd_line_ptr

	movl	24(%bp), %eax		# the initrd's length, or 0
	movl	%eax, 0x21c - 0x211(%di)		# ramdisk_size
	negl	%eax			# it ends at or below 16 MiB, and begins at a multiple of 4096
	andl	$0x00fff000, %eax
	movl	%eax, 0x218 - 0x211(%di)		# ramdisk_image
	movw	0x219 - 0x211(%di), %ax	# 0 stands for 16 MiB
	decw	%ax
	decw	%ax
	cmpw	%ax, %dx		# dx: where the kernel's last sector is
	ja	error			# no room
	xchgw	%ax, %dx
	leaw	44(%bp), %si
	call	file
	cli
	ljmp	$0x9020, $0		# the kernel's entry

error:
	movw	$0x0e45, %ax		# "E"
	int	$0x10
1:	hlt
	jmp	1b

# Reads the first sector that the slot at si names to ds:bx. All registers stay.
read:
	pusha
	lodsw				# mode and device
	cmpb	$2, %al			# Linear and Lba32 are sector numbers, Chs isn't
	jb	error
	movb	%ah, %dl
	pushl	$0			# the packet, from its end: the sector's number, of 64 bits
	pushl	2(%si)
	pushw	%ds			# .. where it goes
	pushw	%bx
	pushw	$1			# .. one sector
	pushw	$16			# .. the packet's length
	movw	%sp, %si
	movb	$0x42, %ah
	int	$0x13
	jc	error
	popa				# the packet's 16 bytes
	popa
	ret

# The table of descriptors: a limit, here at least 511, 24 bits of an address, 0x93, and 0. The BIOS writes all but the
# third and the fourth, in the copy, over code that isn't run there.
	.set	gdt, BOOT + 0x80 + (. - start) - 2 - 16
	.set	TO, 0x18 + 3		# bits 8 to 23 of the address that is moved to
	.word	BUF			# from the buffer; its limit are the two bytes above
	.byte	0x09, 0x93, 0, 0
	.word	0xffff, 0
	.byte	0, 0x93, 0, 0

# Places up to cx sectors (0: 65,536) of a file one after another, the first 512 bytes above 256 * dx.
# file: from its start, si at the slot of its first section sector. next: from where it stopped, si as left.
1:	addw	$8, %si			# the next slot; zeros are passed over, up to the link at 0x8000
	jns	next
file:
	cmpb	$0, (%si)		# a zero link is the end
	je	3f
	movw	$SEC, %bx
	call	read
	movw	%bx, %si
	movb	$BUF >> 8, %bh
next:
	decb	2(%si)			# sectors left in this slot
	js	1b
	incw	%dx
	incw	%dx
	jz	error			# no room: 16 MiB are full
	call	read
	incl	4(%si)
	pusha
	movw	$gdt, %si
	movw	%dx, TO(%si)
	movw	$256, %cx
	movb	$0x87, %ah
	int	$0x15
	jc	error
	popa
	loop	next
3:	ret

	.org	312 - 16, 0x90
	.ascii	"auto BOOT_IMAGE="
