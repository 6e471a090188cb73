	.section	.note.gnu.property,"a",@note
	.p2align	3, 0x0
	.long	4
	.long	16
	.long	5
	.asciz	"GNU"
	.long	3221225474
	.long	4
	.long	3
	.p2align	3, 0x0
	.text
	.file	"rattle"
	.section	".text.des_tool::main+start","ax",@progbits
	.p2align	4
	.type	"des_tool::main+start",@function
"des_tool::main+start":
	.cfi_startproc
	pushq	%rbp
	.cfi_def_cfa_offset 16
	pushq	%r15
	.cfi_def_cfa_offset 24
	pushq	%r14
	.cfi_def_cfa_offset 32
	pushq	%r13
	.cfi_def_cfa_offset 40
	pushq	%r12
	.cfi_def_cfa_offset 48
	pushq	%rbx
	.cfi_def_cfa_offset 56
	subq	$1720, %rsp
	.cfi_def_cfa_offset 1776
	.cfi_offset %rbx, -56
	.cfi_offset %r12, -48
	.cfi_offset %r13, -40
	.cfi_offset %r14, -32
	.cfi_offset %r15, -24
	.cfi_offset %rbp, -16
	leaq	16(%rsp), %rax
	movq	%rax, 40(%rsp)
	movq	%rax, 1328(%rsp)
	pxor	%xmm0, %xmm0
	movdqu	%xmm0, 1336(%rsp)
	xorl	%ebx, %ebx
	movq	$0, 56(%rsp)
.LBB0_1:
	movl	$256, %r12d
	movl	$64, %r14d
	jmp	.LBB0_3
	.p2align	4
.LBB0_2:
	movq	%r12, %rax
	addq	%r12, %rax
	movq	$-1, %r12
	cmovaeq	%rax, %r12
	decl	%r14d
	je	.LBB0_152
.LBB0_3:
	leaq	16(%rsp), %r15
	movq	%r15, 272(%rsp)
	pxor	%xmm0, %xmm0
	leaq	280(%rsp), %rax
	movdqu	%xmm0, (%rax)
	testq	%r12, %r12
	jne	.LBB0_10
	xorl	%r13d, %r13d
.LBB0_5:
	movq	56(%rsp), %rdi
	movq	%r15, %rsi
	movq	%r13, %rdx
	callq	rattle_arg@PLT
	movq	%rax, %rbp
	movl	$22, %eax
	cmpq	$-1, %rbp
	je	.LBB0_7
	movl	$36, %eax
.LBB0_7:
	xorl	%edi, %edi
	testq	%rbp, %rbp
	cmovsl	%eax, %edi
	callq	rattle_set_errno@PLT
	callq	rattle_errno@PLT
	cmpl	$36, %eax
	jne	.LBB0_13
	cmpq	$0, 288(%rsp)
	je	.LBB0_2
	movq	%r15, %rdi
	callq	rattle_dealloc@PLT
	jmp	.LBB0_2
.LBB0_10:
	leaq	272(%rsp), %rdi
	movq	%r12, %rsi
	callq	"std_alloc::vec::Vec::grow_amortized::<#190e5f0f9e657029>"
	testb	%al, %al
	je	.LBB0_150
	movq	272(%rsp), %r15
	movq	280(%rsp), %rdi
	leaq	(%rdi,%r12), %r13
	cmpq	%r13, %rdi
	jae	.LBB0_5
	addq	%r15, %rdi
	xorl	%esi, %esi
	movq	%r12, %rdx
	callq	memset@PLT
	jmp	.LBB0_5
	.p2align	4
.LBB0_13:
	testl	%eax, %eax
	jne	.LBB0_73
	cmpq	%r13, %rbp
	cmovbq	%rbp, %r13
	xorl	%r12d, %r12d
	testq	%rbp, %rbp
	cmovgq	%r13, %r12
	movq	288(%rsp), %rbp
	testq	%r12, %r12
	je	.LBB0_69
	movabsq	$-9187201950435737472, %r13
	leaq	-8(%r12), %r14
	xorl	%ecx, %ecx
	jmp	.LBB0_19
.LBB0_40:
	movl	$1, %edx
.LBB0_17:
	addq	%rcx, %rdx
.LBB0_18:
	movq	%rdx, %rcx
	cmpq	%r12, %rdx
	jae	.LBB0_69
.LBB0_19:
	movzbl	(%r15,%rcx), %eax
	movq	%r12, %rsi
	subq	%rcx, %rsi
	cmpq	$2, %rsi
	jb	.LBB0_16
	testb	%al, %al
	js	.LBB0_16
	cmpb	$0, 1(%r15,%rcx)
	js	.LBB0_40
	movq	%r15, 272(%rsp)
	movq	%r12, 280(%rsp)
	cmpq	$7, %rsi
	ja	.LBB0_41
	cmpb	$0, (%r15,%rcx)
	js	.LBB0_51
	leaq	1(%rcx), %rdx
	cmpq	%r12, %rdx
	je	.LBB0_69
	cmpb	$0, (%r15,%rdx)
	js	.LBB0_18
	leaq	2(%rcx), %rdx
	cmpq	%r12, %rdx
	je	.LBB0_69
	cmpb	$0, (%r15,%rdx)
	js	.LBB0_18
	leaq	3(%rcx), %rdx
	cmpq	%r12, %rdx
	je	.LBB0_69
	cmpb	$0, (%r15,%rdx)
	js	.LBB0_18
	leaq	4(%rcx), %rdx
	cmpq	%r12, %rdx
	je	.LBB0_69
	cmpb	$0, (%r15,%rdx)
	js	.LBB0_18
	leaq	5(%rcx), %rdx
	cmpq	%r12, %rdx
	je	.LBB0_69
	cmpb	$0, (%r15,%rdx)
	js	.LBB0_18
	addq	$6, %rcx
	cmpq	%r12, %rcx
	je	.LBB0_69
	cmpb	$0, (%r15,%rcx)
	movq	%rcx, %rdx
	js	.LBB0_18
	jmp	.LBB0_69
	.p2align	4
.LBB0_16:
	movl	$1, %edx
	testb	%al, %al
	jns	.LBB0_17
	cmpb	$-62, %al
	jb	.LBB0_136
	movzbl	%al, %eax
	cmpb	$-33, %al
	ja	.LBB0_44
	cmpq	$2, %rsi
	jb	.LBB0_136
	movl	$2, %edx
	cmpb	$-65, 1(%r15,%rcx)
	jle	.LBB0_17
	jmp	.LBB0_136
.LBB0_41:
	movq	(%r15,%rcx), %rax
	andq	%r13, %rax
	je	.LBB0_52
	rep		bsfq	%rax, %rax
	shrl	$3, %eax
	addq	%rcx, %rax
	addq	$8, %rcx
	movq	%rax, %rdx
	cmpq	%rcx, %rax
	jb	.LBB0_18
	movq	%r12, %rcx
	subq	%rax, %rcx
	cmpq	$32, %rcx
	jae	.LBB0_53
	jmp	.LBB0_55
.LBB0_44:
	cmpb	$-17, %al
	ja	.LBB0_63
	cmpq	$3, %rsi
	jb	.LBB0_136
	movzbl	1(%r15,%rcx), %edx
	cmpb	$-65, %dl
	jg	.LBB0_136
	cmpb	$-65, 2(%r15,%rcx)
	jg	.LBB0_136
	shll	$6, %eax
	leal	(%rax,%rdx), %esi
	addl	$-14464, %esi
	cmpl	$32, %esi
	jb	.LBB0_136
	xorl	%eax, %eax
	cmpl	$896, %esi
	setae	%dil
	movl	$3, %edx
	cmpl	$864, %esi
	jb	.LBB0_17
	movb	%dil, %al
	leaq	(%rax,%rax,2), %rdx
	testq	%rdx, %rdx
	jne	.LBB0_17
	jmp	.LBB0_136
.LBB0_51:
	movq	%rcx, %rdx
	jmp	.LBB0_18
.LBB0_52:
	addq	$8, %rcx
	movq	%rcx, %rax
	movq	%r12, %rcx
	subq	%rax, %rcx
	cmpq	$32, %rcx
	jb	.LBB0_55
	.p2align	4
.LBB0_53:
	movdqu	(%r15,%rax), %xmm0
	movdqu	16(%r15,%rax), %xmm1
	por	%xmm0, %xmm1
	pshufd	$238, %xmm1, %xmm0
	por	%xmm1, %xmm0
	movq	%xmm0, %rcx
	testq	%r13, %rcx
	jne	.LBB0_55
	addq	$32, %rax
	leaq	272(%rsp), %rdi
	movq	%rax, %rsi
	movq	%r12, %rdx
	callq	"core::slice::words::skip_far::<#52f9edcae2f82f51>"
	movq	%r12, %rcx
	subq	%rax, %rcx
	cmpq	$31, %rcx
	ja	.LBB0_53
.LBB0_55:
	movq	%r12, %rcx
	subq	%rax, %rcx
	jmp	.LBB0_58
	.p2align	4
.LBB0_56:
	rep		bsfq	%rdx, %rdx
	shrl	$3, %edx
	addq	%rax, %rdx
	addq	$8, %rax
	addq	$-8, %rcx
	cmpq	%rax, %rdx
	jb	.LBB0_18
.LBB0_58:
	cmpq	$9, %rcx
	jb	.LBB0_61
	movq	(%r15,%rax), %rdx
	andq	%r13, %rdx
	jne	.LBB0_56
	leaq	8(%rax), %rdx
	addq	$8, %rax
	addq	$-8, %rcx
	cmpq	%rax, %rdx
	jae	.LBB0_58
	jmp	.LBB0_18
.LBB0_61:
	movq	(%r15,%r14), %rax
	andq	%r13, %rax
	je	.LBB0_69
	rep		bsfq	%rax, %rdx
	shrl	$3, %edx
	addq	%r14, %rdx
	jmp	.LBB0_18
.LBB0_63:
	cmpq	$4, %rsi
	jb	.LBB0_136
	movzbl	1(%r15,%rcx), %edx
	cmpb	$-65, %dl
	jg	.LBB0_136
	cmpb	$-65, 2(%r15,%rcx)
	jg	.LBB0_136
	cmpb	$-65, 3(%r15,%rcx)
	jg	.LBB0_136
	shll	$6, %eax
	leal	(%rax,%rdx), %esi
	addl	$-15488, %esi
	xorl	%edx, %edx
	cmpl	$272, %esi
	setb	%al
	cmpl	$16, %esi
	jb	.LBB0_136
	movb	%al, %dl
	shll	$2, %edx
	testq	%rdx, %rdx
	jne	.LBB0_17
	jmp	.LBB0_136
	.p2align	4
.LBB0_69:
	cmpq	%rbx, 1344(%rsp)
	je	.LBB0_71
.LBB0_70:
	leaq	(%rbx,%rbx,2), %rax
	movq	40(%rsp), %rcx
	movq	%r15, (%rcx,%rax,8)
	movq	%r12, 8(%rcx,%rax,8)
	movq	%rbp, 16(%rcx,%rax,8)
	incq	%rbx
	movq	%rbx, 1336(%rsp)
	movq	56(%rsp), %rcx
	incq	%rcx
	movq	%rcx, 56(%rsp)
	cmpq	$-1, %rcx
	jne	.LBB0_1
	jmp	.LBB0_75
.LBB0_71:
	leaq	1328(%rsp), %r13
	movl	$1, %esi
	movq	%r13, %rdi
	callq	"std_alloc::vec::Vec::grow_amortized::<#dddb8944fea4a04d>"
	testb	%al, %al
	je	.LBB0_243
	movq	1328(%rsp), %rax
	movq	%rax, 40(%rsp)
	movq	1336(%rsp), %rbx
	jmp	.LBB0_70
.LBB0_73:
	cmpq	$0, 288(%rsp)
	je	.LBB0_75
	movq	%r15, %rdi
	callq	rattle_dealloc@PLT
.LBB0_75:
	movq	1328(%rsp), %r10
	movq	1344(%rsp), %rax
	movq	%rax, 72(%rsp)
	pxor	%xmm0, %xmm0
	movdqa	%xmm0, 1296(%rsp)
	movdqu	%xmm0, 1310(%rsp)
	movdqa	%xmm0, 848(%rsp)
	movdqa	%xmm0, 864(%rsp)
	leaq	16(%rsp), %r12
	movq	%r12, 272(%rsp)
	leaq	24(%r10), %r11
	movq	$0, 56(%rsp)
	xorl	%ecx, %ecx
	xorl	%r14d, %r14d
	xorl	%eax, %eax
	movq	%r11, 40(%rsp)
.LBB0_76:
	testq	%rcx, %rcx
	movq	56(%rsp), %rbp
	movq	%rcx, %r13
	cmoveq	%rcx, %rbp
	testb	$1, %al
	je	.LBB0_78
	movq	%rbx, %rsi
	movq	%r14, %r15
	testq	%rsi, %rsi
	jne	.LBB0_82
	jmp	.LBB0_96
	.p2align	4
.LBB0_78:
	testq	%rbx, %rbx
	je	.LBB0_96
	leaq	1(%r14), %r15
	decq	%rbx
	shlq	$3, %r14
	leaq	(%r14,%r14,2), %rax
	cmpq	$0, 16(%r10,%rax)
	je	.LBB0_81
	movq	(%r10,%rax), %rdi
	movq	%r10, %r14
	callq	rattle_dealloc@PLT
	movq	40(%rsp), %r11
	movq	%r14, %r10
.LBB0_81:
	movq	%rbx, %rsi
	testq	%rsi, %rsi
	je	.LBB0_96
.LBB0_82:
	leaq	-1(%rsi), %rbx
	leaq	(,%r15,8), %rax
	leaq	(%rax,%rax,2), %r9
	leaq	(%r10,%r9), %rax
	cmpq	%rbp, %r13
	jne	.LBB0_84
	incq	%r15
	movq	%r15, %r14
	jmp	.LBB0_89
	.p2align	4
.LBB0_84:
	leaq	(,%r13,2), %rdx
	addq	%r13, %rdx
	movdqu	(%rax), %xmm0
	movq	16(%rax), %rax
	movq	%rax, 16(%r12,%rdx,8)
	movdqu	%xmm0, (%r12,%rdx,8)
	leaq	1(%r13), %rcx
	testq	%rbx, %rbx
	je	.LBB0_163
	leaq	(%r12,%rdx,8), %rdx
	addq	$24, %rdx
	subq	%rbp, %rcx
	addq	%r11, %r9
	leaq	-1(%rsi), %r8
	xorl	%edi, %edi
	movq	%r9, %rax
	.p2align	4
.LBB0_86:
	movq	%rcx, %r9
	addq	%rdi, %r9
	je	.LBB0_88
	movdqu	(%rax), %xmm0
	movq	16(%rax), %r9
	movq	%r9, 16(%rdx)
	movdqu	%xmm0, (%rdx)
	addq	$24, %rdx
	incq	%rdi
	addq	$24, %rax
	cmpq	%rdi, %r8
	jne	.LBB0_86
	jmp	.LBB0_95
	.p2align	4
.LBB0_88:
	leaq	(%r15,%rdi), %r14
	addq	$2, %r14
	subq	%rdi, %rsi
	leaq	-1(%rsi), %rcx
	addq	$-2, %rsi
	movq	%rsi, %rbx
	movq	%rcx, %rsi
.LBB0_89:
	movq	(%rax), %r15
	movq	16(%rax), %r12
	movdqu	8(%rax), %xmm0
	movq	%rbp, 280(%rsp)
	movq	56(%rsp), %rax
	movq	%rax, 288(%rsp)
	subq	%rbp, %rax
	cmpq	%rax, %rsi
	ja	.LBB0_91
.LBB0_90:
	movq	272(%rsp), %r12
	leaq	(,%rbp,2), %rax
	addq	%rbp, %rax
	movq	%r15, (%r12,%rax,8)
	movdqu	%xmm0, 8(%r12,%rax,8)
	incq	%rbp
	movq	%rbp, 280(%rsp)
	movb	$1, %al
	movq	%rbp, %rcx
	jmp	.LBB0_76
.LBB0_91:
	movdqa	%xmm0, 672(%rsp)
	movq	%r10, %r13
	leaq	272(%rsp), %rdi
	callq	"std_alloc::vec::Vec::grow_amortized::<#dddb8944fea4a04d>"
	movq	280(%rsp), %rbp
	movq	288(%rsp), %rdx
	movq	%rdx, 56(%rsp)
	cmpq	%rbp, %rdx
	setne	%cl
	orb	%al, %cl
	je	.LBB0_93
.LBB0_92:
	movq	%r13, %r10
	movq	40(%rsp), %r11
	movdqa	672(%rsp), %xmm0
	jmp	.LBB0_90
.LBB0_93:
	leaq	272(%rsp), %rdi
	movl	$1, %esi
	callq	"std_alloc::vec::Vec::grow_amortized::<#dddb8944fea4a04d>"
	testb	%al, %al
	je	.LBB0_405
	movq	280(%rsp), %rbp
	movq	288(%rsp), %rax
	movq	%rax, 56(%rsp)
	jmp	.LBB0_92
.LBB0_95:
	addq	%rdi, %r13
	incq	%r13
.LBB0_96:
	cmpq	$0, 72(%rsp)
	je	.LBB0_98
.LBB0_97:
	movq	%r10, %rdi
	callq	rattle_dealloc@PLT
.LBB0_98:
	movq	%r12, 40(%rsp)
	leaq	16(%rsp), %r9
	movq	%r9, 272(%rsp)
	pxor	%xmm0, %xmm0
	movdqu	%xmm0, 280(%rsp)
	testq	%r13, %r13
	je	.LBB0_113
	xorl	%ecx, %ecx
	xorl	%r8d, %r8d
	xorl	%eax, %eax
	movq	%r13, (%rsp)
	movq	%r13, %r12
	movq	40(%rsp), %rbx
.LBB0_100:
	movq	%rax, %rdx
	shlq	$4, %rdx
	addq	%r9, %rdx
	addq	$8, %rdx
	movq	%rax, %rsi
	subq	%rcx, %rsi
	addq	$24, %rbx
	xorl	%r13d, %r13d
	.p2align	4
.LBB0_101:
	movq	-24(%rbx), %r14
	movq	-16(%rbx), %rbp
	movq	%rsi, %rdi
	addq	%r13, %rdi
	je	.LBB0_103
	movq	%r14, -8(%rdx)
	movq	%rbp, (%rdx)
	addq	$16, %rdx
	incq	%r13
	addq	$24, %rbx
	cmpq	%r13, %r12
	jne	.LBB0_101
	jmp	.LBB0_108
	.p2align	4
.LBB0_103:
	movq	%r9, 272(%rsp)
	movq	%rcx, 280(%rsp)
	movq	%r8, 288(%rsp)
	movq	%r8, %rax
	subq	%rcx, %rax
	movq	%r12, %r15
	subq	%r13, %r15
	cmpq	%rax, %r15
	ja	.LBB0_105
.LBB0_104:
	decq	%r15
	decq	%r12
	movq	272(%rsp), %r9
	movq	%rcx, %rax
	shlq	$4, %rcx
	movq	%r14, (%r9,%rcx)
	movq	%rbp, 8(%r9,%rcx)
	xorl	%ecx, %ecx
	incq	%rax
	cmovneq	%r8, %rcx
	pxor	%xmm0, %xmm0
	leaq	280(%rsp), %rdx
	movdqu	%xmm0, (%rdx)
	cmpq	%r13, %r12
	movq	%r15, %r12
	jne	.LBB0_100
	jmp	.LBB0_109
.LBB0_105:
	leaq	272(%rsp), %rdi
	movq	%r15, %rsi
	callq	"std_alloc::vec::Vec::grow_amortized::<#f615b8dcee162320>"
	movq	280(%rsp), %rcx
	movq	288(%rsp), %r8
	cmpq	%rcx, %r8
	setne	%dl
	orb	%al, %dl
	jne	.LBB0_104
	leaq	272(%rsp), %rdi
	movl	$1, %esi
	callq	"std_alloc::vec::Vec::grow_amortized::<#f615b8dcee162320>"
	testb	%al, %al
	je	.LBB0_480
	movq	280(%rsp), %rcx
	movq	288(%rsp), %r8
	jmp	.LBB0_104
.LBB0_108:
	addq	%r13, %rax
.LBB0_109:
	pxor	%xmm0, %xmm0
	movdqa	%xmm0, 832(%rsp)
	movdqa	%xmm0, 816(%rsp)
	movb	$1, %bl
	cmpq	$2, %rax
	movq	%r8, 72(%rsp)
	movq	%r9, 672(%rsp)
	jae	.LBB0_129
.LBB0_110:
	xorl	%r14d, %r14d
.LBB0_111:
	xorl	%r12d, %r12d
	xorl	%r15d, %r15d
.LBB0_112:
	movq	(%rsp), %r13
	jmp	.LBB0_117
.LBB0_113:
	movq	$0, 816(%rsp)
	movb	$1, %bl
	leaq	16(%rsp), %rax
	movq	%rax, 672(%rsp)
	movq	$0, 72(%rsp)
.LBB0_114:
	xorl	%r14d, %r14d
.LBB0_115:
	xorl	%r12d, %r12d
.LBB0_116:
	xorl	%r15d, %r15d
.LBB0_117:
	movb	%bl, 816(%rsp)
	movb	%r14b, 817(%rsp)
	movq	%r12, 824(%rsp)
	movq	%r15, 832(%rsp)
	movq	%r15, 840(%rsp)
	leaq	816(%rsp), %rdi
	callq	"des_tool::command::status::show::<#8366a837468c3893>"
	movl	%eax, %ebp
	testb	%bl, %bl
	jne	.LBB0_120
	testq	%r15, %r15
	je	.LBB0_120
	movq	%r12, %rdi
	callq	rattle_dealloc@PLT
.LBB0_120:
	cmpq	$0, 72(%rsp)
	movq	672(%rsp), %rdi
	je	.LBB0_122
	callq	rattle_dealloc@PLT
.LBB0_122:
	testq	%r13, %r13
	movq	40(%rsp), %r14
	je	.LBB0_127
	leaq	16(%r14), %rbx
	jmp	.LBB0_125
	.p2align	4
.LBB0_124:
	addq	$24, %rbx
	decq	%r13
	je	.LBB0_127
.LBB0_125:
	cmpq	$0, (%rbx)
	je	.LBB0_124
	movq	-16(%rbx), %rdi
	callq	rattle_dealloc@PLT
	jmp	.LBB0_124
.LBB0_127:
	cmpq	$0, 56(%rsp)
	je	.LBB0_162
	movq	%r14, %rdi
	callq	rattle_dealloc@PLT
	jmp	.LBB0_162
.LBB0_129:
	jne	.LBB0_144
	cmpq	$4, 8(%r9)
	jne	.LBB0_110
	movq	(%r9), %rax
	movl	(%rax), %eax
	movq	%rax, %rcx
	shlq	$32, %rcx
	orq	%rax, %rcx
	movabsq	$7737577198376281463, %rax
	cmpq	%rax, %rcx
	movq	(%rsp), %r13
	jne	.LBB0_114
	movq	16(%r9), %rdx
	movq	24(%r9), %rdi
	movb	$1, %bl
	xorl	%eax, %eax
	cmpq	$16, %rdi
	je	.LBB0_174
	cmpq	$48, %rdi
	je	.LBB0_173
	cmpq	$32, %rdi
	jne	.LBB0_182
	movl	$16, %esi
	movb	$1, %al
	xorl	%ecx, %ecx
	jmp	.LBB0_175
.LBB0_136:
	testq	%rbp, %rbp
	je	.LBB0_138
	movq	%r15, %rdi
	callq	rattle_dealloc@PLT
.LBB0_138:
	movq	1344(%rsp), %r14
	testq	%rbx, %rbx
	je	.LBB0_143
	movq	40(%rsp), %rax
	leaq	16(%rax), %r15
	jmp	.LBB0_141
	.p2align	4
.LBB0_140:
	addq	$24, %r15
	decq	%rbx
	je	.LBB0_143
.LBB0_141:
	cmpq	$0, (%r15)
	je	.LBB0_140
	movq	-16(%r15), %rdi
	callq	rattle_dealloc@PLT
	jmp	.LBB0_140
.LBB0_143:
	leaq	272(%rsp), %r13
	testq	%r14, %r14
	jne	.LBB0_158
	jmp	.LBB0_160
.LBB0_144:
	cmpq	$4, %rax
	jb	.LBB0_110
	jne	.LBB0_164
	movq	(%r9), %rdx
	movq	8(%r9), %rsi
	movq	16(%r9), %rax
	movq	24(%r9), %rcx
	cmpq	$4, %rsi
	je	.LBB0_169
	cmpq	$3, %rsi
	movq	(%rsp), %r13
	jne	.LBB0_114
	movzbl	(%rdx), %esi
	movzbl	1(%rdx), %edi
	shll	$16, %esi
	shll	$8, %edi
	orl	%esi, %edi
	movzbl	2(%rdx), %esi
	orl	%edi, %esi
	xorl	%r12d, %r12d
	xorl	%edx, %edx
	cmpl	$6579571, %esi
	je	.LBB0_223
	xorl	%r14d, %r14d
	jmp	.LBB0_116
.LBB0_150:
	cmpq	$0, 288(%rsp)
	je	.LBB0_152
	movq	272(%rsp), %rdi
	callq	rattle_dealloc@PLT
.LBB0_152:
	movq	1344(%rsp), %r14
	testq	%rbx, %rbx
	je	.LBB0_157
	movq	40(%rsp), %rax
	leaq	16(%rax), %r15
	jmp	.LBB0_155
	.p2align	4
.LBB0_154:
	addq	$24, %r15
	decq	%rbx
	je	.LBB0_157
.LBB0_155:
	cmpq	$0, (%r15)
	je	.LBB0_154
	movq	-16(%r15), %rdi
	callq	rattle_dealloc@PLT
	jmp	.LBB0_154
.LBB0_157:
	leaq	1328(%rsp), %r13
	testq	%r14, %r14
	je	.LBB0_160
.LBB0_158:
	movq	40(%rsp), %rdi
.LBB0_159:
	callq	rattle_dealloc@PLT
.LBB0_160:
	pxor	%xmm0, %xmm0
	movdqa	%xmm0, 1296(%rsp)
	movdqu	%xmm0, 1310(%rsp)
	movq	$0, 848(%rsp)
	movb	$21, 272(%rsp)
	movb	$38, 1328(%rsp)
	xorl	%eax, %eax
	cmpb	$38, (%r13)
	sete	%al
	leal	(%rax,%rax,4), %ebx
.LBB0_161:
	movb	$1, 848(%rsp)
	movb	%bl, 849(%rsp)
	movdqu	1302(%rsp), %xmm0
	movdqu	%xmm0, 856(%rsp)
	movq	1318(%rsp), %rax
	movq	%rax, 872(%rsp)
	leaq	848(%rsp), %rdi
	callq	"des_tool::command::status::show::<#8366a837468c3893>"
	movl	%eax, %ebp
.LBB0_162:
	movzbl	%bpl, %eax
	addq	$1720, %rsp
	.cfi_def_cfa_offset 56
	popq	%rbx
	.cfi_def_cfa_offset 48
	popq	%r12
	.cfi_def_cfa_offset 40
	popq	%r13
	.cfi_def_cfa_offset 32
	popq	%r14
	.cfi_def_cfa_offset 24
	popq	%r15
	.cfi_def_cfa_offset 16
	popq	%rbp
	.cfi_def_cfa_offset 8
	retq
.LBB0_163:
	.cfi_def_cfa_offset 1776
	movq	%rcx, %r13
	cmpq	$0, 72(%rsp)
	jne	.LBB0_97
	jmp	.LBB0_98
.LBB0_164:
	cmpq	$5, %rax
	movq	(%rsp), %r13
	ja	.LBB0_114
	movq	(%r9), %rdx
	movq	8(%r9), %rsi
	movq	16(%r9), %rax
	movq	24(%r9), %rcx
	cmpq	$8, %rsi
	je	.LBB0_210
	cmpq	$7, %rsi
	jne	.LBB0_114
	movl	(%rdx), %esi
	movl	3(%rdx), %edx
	shlq	$32, %rdx
	orq	%rsi, %rdx
	movb	$1, %r12b
	movabsq	$7161395403159725412, %rsi
	cmpq	%rsi, %rdx
	je	.LBB0_211
	xorl	%r14d, %r14d
	movb	$1, %bl
	jmp	.LBB0_115
.LBB0_169:
	movl	(%rdx), %edx
	movq	%rdx, %rsi
	shlq	$32, %rsi
	orq	%rdx, %rsi
	movb	$1, %dl
	xorl	%r12d, %r12d
	xorl	%r14d, %r14d
	movabsq	$3703476654398858340, %rdi
	cmpq	%rdi, %rsi
	movq	(%rsp), %r13
	jg	.LBB0_217
	movabsq	$3631419060344153189, %rdx
	cmpq	%rdx, %rsi
	je	.LBB0_222
	movabsq	$3631420159855781221, %rdx
	cmpq	%rdx, %rsi
	jne	.LBB0_221
	movb	$4, %dl
	jmp	.LBB0_223
.LBB0_173:
	movl	$24, %esi
	xorl	%ecx, %ecx
	xorl	%eax, %eax
	jmp	.LBB0_175
.LBB0_174:
	movl	$8, %esi
	movb	$1, %cl
.LBB0_175:
	movdqa	%xmm0, 272(%rsp)
	movq	$0, 288(%rsp)
	leal	(%rsi,%rsi), %r8d
	xorl	%r12d, %r12d
	cmpq	%r8, %rdi
	jne	.LBB0_181
	xorl	%r8d, %r8d
.LBB0_177:
	cmpq	%r8, %rdi
	je	.LBB0_183
	movzbl	(%rdx,%r8), %r9d
	leal	-48(%r9), %r10d
	incq	%r8
	cmpb	$10, %r10b
	jb	.LBB0_177
	andb	$-33, %r9b
	addb	$-65, %r9b
	cmpb	$6, %r9b
	jb	.LBB0_177
	xorl	%r12d, %r12d
	movb	$2, %r14b
	jmp	.LBB0_116
.LBB0_181:
	movb	$1, %r14b
	jmp	.LBB0_116
.LBB0_182:
	movb	$1, %r14b
	jmp	.LBB0_115
.LBB0_183:
	testb	$1, %dil
	jne	.LBB0_666
	shrq	%rdi
	cmpq	%rsi, %rdi
	jne	.LBB0_666
	xorl	%edi, %edi
	jmp	.LBB0_188
.LBB0_186:
	addb	$-48, %r9b
.LBB0_187:
	shlb	$4, %r8b
	addb	%r9b, %r8b
	movb	%r8b, 272(%rsp,%rdi)
	incq	%rdi
	cmpq	%rdi, %rsi
	je	.LBB0_203
.LBB0_188:
	movzbl	(%rdx,%rdi,2), %r8d
	cmpb	$48, %r8b
	jb	.LBB0_666
	movzbl	1(%rdx,%rdi,2), %r9d
	cmpb	$57, %r8b
	ja	.LBB0_191
	addb	$-48, %r8b
	jmp	.LBB0_196
.LBB0_191:
	cmpb	$65, %r8b
	jb	.LBB0_666
	cmpb	$70, %r8b
	ja	.LBB0_194
	addb	$-55, %r8b
	jmp	.LBB0_196
.LBB0_194:
	leal	-97(%r8), %r10d
	cmpb	$5, %r10b
	ja	.LBB0_666
	addb	$-87, %r8b
.LBB0_196:
	cmpb	$48, %r9b
	jb	.LBB0_666
	cmpb	$57, %r9b
	jbe	.LBB0_186
	cmpb	$65, %r9b
	jb	.LBB0_666
	cmpb	$70, %r9b
	ja	.LBB0_201
	addb	$-55, %r9b
	jmp	.LBB0_187
.LBB0_201:
	leal	-97(%r9), %r10d
	cmpb	$5, %r10b
	ja	.LBB0_666
	addb	$-87, %r9b
	jmp	.LBB0_187
.LBB0_203:
	movabsq	$-72340172838076674, %rdx
	movq	272(%rsp), %rsi
	xorl	%edi, %edi
.LBB0_204:
	cmpq	$512, %rdi
	je	.LBB0_230
	leaq	.Lstatic.16(%rip), %r8
	movq	(%rdi,%r8), %r9
	xorq	%rsi, %r9
	movl	$8, %r15d
	leaq	.Lstatic.15(%rip), %r13
	testq	%rdx, %r9
	je	.LBB0_234
	movq	8(%rdi,%r8), %r9
	xorq	%rsi, %r9
	testq	%rdx, %r9
	je	.LBB0_234
	movq	16(%rdi,%r8), %r9
	xorq	%rsi, %r9
	testq	%rdx, %r9
	je	.LBB0_234
	movq	24(%rdi,%r8), %r8
	xorq	%rsi, %r8
	addq	$32, %rdi
	testq	%rdx, %r8
	jne	.LBB0_204
.LBB0_234:
	xorl	%ebx, %ebx
.LBB0_235:
	movl	$1, %esi
	movq	%r15, %rdi
	callq	rattle_alloc@PLT
	testb	$1, %al
	je	.LBB0_239
	movq	%rdx, %r12
	movq	%rdx, %rax
	subq	%r13, %rax
	cmpq	%r15, %rax
	jae	.LBB0_241
	movzbl	(%r13), %eax
	movb	%al, (%r12)
	movzbl	1(%r13), %eax
	movb	%al, 1(%r12)
	movzbl	2(%r13), %eax
	movb	%al, 2(%r12)
	testb	%bl, %bl
	jne	.LBB0_242
	movzbl	3(%r13), %eax
	movb	%al, 3(%r12)
	movzbl	4(%r13), %eax
	movb	%al, 4(%r12)
	movzbl	5(%r13), %eax
	movb	%al, 5(%r12)
	movzbl	6(%r13), %eax
	movb	%al, 6(%r12)
	movzbl	7(%r13), %eax
	movb	%al, 7(%r12)
	jmp	.LBB0_242
.LBB0_210:
	movabsq	$7161395403159725412, %rsi
	addq	$99745537, %rsi
	xorl	%r12d, %r12d
	xorl	%r14d, %r14d
	cmpq	%rsi, (%rdx)
	jne	.LBB0_116
.LBB0_211:
	cmpq	$7, %rcx
	jne	.LBB0_114
	movabsq	$8390339638243585637, %r14
	movl	(%rax), %ecx
	movl	3(%rax), %ebp
	shlq	$32, %rbp
	orq	%rcx, %rbp
	movabsq	$8390339638243583332, %rax
	cmpq	%rax, %rbp
	je	.LBB0_214
	cmpq	%r14, %rbp
	jne	.LBB0_114
.LBB0_214:
	movq	32(%r9), %r13
	movq	40(%r9), %r15
	movq	48(%r9), %rbx
	movq	56(%r9), %rax
	movq	%rax, 8(%rsp)
	movq	64(%r9), %rax
	movq	%rax, 64(%rsp)
	movq	72(%r9), %rax
	movq	%rax, 32(%rsp)
	testb	%r12b, %r12b
	je	.LBB0_391
	movdqa	%xmm0, 1328(%rsp)
	movdqa	%xmm0, 1344(%rsp)
	movdqa	%xmm0, 1360(%rsp)
	movdqa	%xmm0, 1376(%rsp)
	movdqa	%xmm0, 1392(%rsp)
	movdqa	%xmm0, 1408(%rsp)
	movdqa	%xmm0, 1424(%rsp)
	movdqa	%xmm0, 1440(%rsp)
	movq	$0, 1456(%rsp)
	movq	$0, 112(%rsp)
	movb	$0, 120(%rsp)
	movdqa	%xmm0, 912(%rsp)
	movdqa	%xmm0, 928(%rsp)
	leaq	1328(%rsp), %rdi
	movq	%r13, %rsi
	movq	%r15, %rdx
	callq	"des_tool::command::digits::parse_cipher_key::<#c792690d620903dd>"
	cmpb	$0, 1328(%rsp)
	je	.LBB0_401
	movb	$1, %bl
	movzbl	1329(%rsp), %r14d
	jmp	.LBB0_111
.LBB0_217:
	movabsq	$3703476654398858341, %rdi
	cmpq	%rdi, %rsi
	je	.LBB0_223
	movabsq	$3703477753910486373, %rdx
	cmpq	%rdx, %rsi
	jne	.LBB0_221
	movb	$2, %dl
	jmp	.LBB0_223
.LBB0_239:
	movb	$5, %r14b
.LBB0_240:
	xorl	%r12d, %r12d
	xorl	%r15d, %r15d
	movq	(%rsp), %r13
	movb	$1, %bl
	jmp	.LBB0_117
.LBB0_221:
	movb	$1, %bl
	jmp	.LBB0_116
.LBB0_222:
	movb	$3, %dl
.LBB0_223:
	cmpq	$7, %rcx
	jne	.LBB0_114
	movabsq	$8390339638243585637, %r15
	movl	(%rax), %ecx
	movl	3(%rax), %r12d
	shlq	$32, %r12
	orq	%rcx, %r12
	movabsq	$8390339638243583332, %rax
	cmpq	%rax, %r12
	je	.LBB0_226
	cmpq	%r15, %r12
	jne	.LBB0_114
.LBB0_226:
	movq	32(%r9), %r8
	movq	40(%r9), %rbp
	movq	48(%r9), %rdi
	movq	56(%r9), %rsi
	movzbl	%dl, %eax
	leaq	.LJTI0_0(%rip), %rcx
	movslq	(%rcx,%rax,4), %rax
	addq	%rcx, %rax
	notrack		jmpq	*%rax
.LBB0_227:
	movq	%rdi, %rbx
	movq	%rsi, %r14
	movdqa	%xmm0, 272(%rsp)
	movdqa	%xmm0, 288(%rsp)
	movdqa	%xmm0, 304(%rsp)
	movdqa	%xmm0, 320(%rsp)
	movdqa	%xmm0, 336(%rsp)
	movdqa	%xmm0, 352(%rsp)
	movdqa	%xmm0, 368(%rsp)
	movdqa	%xmm0, 384(%rsp)
	movq	$0, 400(%rsp)
	movdqa	%xmm0, 1328(%rsp)
	movdqa	%xmm0, 1344(%rsp)
	leaq	272(%rsp), %rdi
	movq	%r8, %rsi
	movq	%rbp, %rdx
	callq	"des_tool::command::digits::parse_cipher_key::<#c792690d620903dd>"
	cmpb	$0, 272(%rsp)
	jne	.LBB0_390
	leaq	1328(%rsp), %rdi
	movq	%rbx, %rsi
	movq	%r14, %rdx
	callq	"des_tool::command::digits::parse_blocks"
	cmpb	$0, 1328(%rsp)
	je	.LBB0_452
	movb	$1, %bl
	movzbl	1329(%rsp), %r14d
	jmp	.LBB0_115
.LBB0_241:
	movq	%r12, %rdi
	movq	%r13, %rsi
	movq	%r15, %rdx
	callq	memcpy@PLT
.LBB0_242:
	xorl	%ebx, %ebx
	xorl	%r14d, %r14d
	jmp	.LBB0_112
.LBB0_230:
	testb	%cl, %cl
	je	.LBB0_393
.LBB0_231:
	movl	$3, %r15d
	movb	$1, %bl
	leaq	.Lstatic.14(%rip), %r13
	jmp	.LBB0_235
.LBB0_243:
	testq	%rbp, %rbp
	je	.LBB0_245
	movq	%r15, %rdi
	callq	rattle_dealloc@PLT
.LBB0_245:
	movq	1328(%rsp), %rbx
	movq	1336(%rsp), %r15
	movq	1344(%rsp), %r14
	testq	%r15, %r15
	je	.LBB0_250
	leaq	16(%rbx), %r12
	jmp	.LBB0_248
.LBB0_247:
	addq	$24, %r12
	decq	%r15
	je	.LBB0_250
.LBB0_248:
	cmpq	$0, (%r12)
	je	.LBB0_247
	movq	-16(%r12), %rdi
	callq	rattle_dealloc@PLT
	jmp	.LBB0_247
.LBB0_250:
	testq	%r14, %r14
	je	.LBB0_160
	movq	%rbx, %rdi
	jmp	.LBB0_159
.LBB0_252:
	movdqa	%xmm0, 704(%rsp)
	movdqa	%xmm0, 688(%rsp)
	movdqa	%xmm0, 80(%rsp)
	movq	$0, 96(%rsp)
	movb	$1, %bl
	movb	$1, %r14b
	cmpq	$32, %rbp
	jne	.LBB0_115
	movzbl	(%r8), %eax
	leal	-48(%rax), %ecx
	movb	$2, %r14b
	cmpb	$10, %cl
	jb	.LBB0_255
	andb	$-33, %al
	addb	$-65, %al
	cmpb	$5, %al
	ja	.LBB0_115
.LBB0_255:
	movzbl	1(%r8), %eax
	leal	-48(%rax), %ecx
	cmpb	$10, %cl
	jb	.LBB0_257
	andb	$-33, %al
	addb	$-65, %al
	cmpb	$5, %al
	ja	.LBB0_115
.LBB0_257:
	movq	%rdi, %rbp
	movq	%rsi, 8(%rsp)
	movq	%r8, %rdi
	movzbl	2(%r8), %eax
	leal	-48(%rax), %ecx
	cmpb	$10, %cl
	jb	.LBB0_259
	andb	$-33, %al
	addb	$-65, %al
	cmpb	$5, %al
	ja	.LBB0_388
.LBB0_259:
	movzbl	3(%rdi), %eax
	leal	-48(%rax), %ecx
	cmpb	$10, %cl
	jb	.LBB0_261
	andb	$-33, %al
	addb	$-65, %al
	cmpb	$5, %al
	ja	.LBB0_388
.LBB0_261:
	movzbl	4(%rdi), %eax
	leal	-48(%rax), %ecx
	cmpb	$10, %cl
	jb	.LBB0_263
	andb	$-33, %al
	addb	$-65, %al
	cmpb	$5, %al
	ja	.LBB0_388
.LBB0_263:
	movzbl	5(%rdi), %eax
	leal	-48(%rax), %ecx
	cmpb	$10, %cl
	jb	.LBB0_265
	andb	$-33, %al
	addb	$-65, %al
	cmpb	$5, %al
	ja	.LBB0_388
.LBB0_265:
	movzbl	6(%rdi), %eax
	leal	-48(%rax), %ecx
	cmpb	$10, %cl
	jb	.LBB0_267
	andb	$-33, %al
	addb	$-65, %al
	cmpb	$5, %al
	ja	.LBB0_388
.LBB0_267:
	movzbl	7(%rdi), %eax
	leal	-48(%rax), %ecx
	cmpb	$10, %cl
	jb	.LBB0_269
	andb	$-33, %al
	addb	$-65, %al
	cmpb	$5, %al
	ja	.LBB0_388
.LBB0_269:
	movzbl	8(%rdi), %eax
	leal	-48(%rax), %ecx
	cmpb	$10, %cl
	jb	.LBB0_271
	andb	$-33, %al
	addb	$-65, %al
	cmpb	$5, %al
	ja	.LBB0_388
.LBB0_271:
	movzbl	9(%rdi), %eax
	leal	-48(%rax), %ecx
	cmpb	$10, %cl
	jb	.LBB0_273
	andb	$-33, %al
	addb	$-65, %al
	cmpb	$5, %al
	ja	.LBB0_388
.LBB0_273:
	movzbl	10(%rdi), %eax
	leal	-48(%rax), %ecx
	cmpb	$10, %cl
	jb	.LBB0_275
	andb	$-33, %al
	addb	$-65, %al
	cmpb	$5, %al
	ja	.LBB0_388
.LBB0_275:
	movzbl	11(%rdi), %eax
	leal	-48(%rax), %ecx
	cmpb	$10, %cl
	jb	.LBB0_277
	andb	$-33, %al
	addb	$-65, %al
	cmpb	$5, %al
	ja	.LBB0_388
.LBB0_277:
	movzbl	12(%rdi), %eax
	leal	-48(%rax), %ecx
	cmpb	$10, %cl
	jb	.LBB0_279
	andb	$-33, %al
	addb	$-65, %al
	cmpb	$5, %al
	ja	.LBB0_388
.LBB0_279:
	movzbl	13(%rdi), %eax
	leal	-48(%rax), %ecx
	cmpb	$10, %cl
	jb	.LBB0_281
	andb	$-33, %al
	addb	$-65, %al
	cmpb	$5, %al
	ja	.LBB0_388
.LBB0_281:
	movzbl	14(%rdi), %eax
	leal	-48(%rax), %ecx
	cmpb	$10, %cl
	jb	.LBB0_283
	andb	$-33, %al
	addb	$-65, %al
	cmpb	$5, %al
	ja	.LBB0_388
.LBB0_283:
	movzbl	15(%rdi), %eax
	leal	-48(%rax), %ecx
	cmpb	$10, %cl
	jb	.LBB0_285
	andb	$-33, %al
	addb	$-65, %al
	cmpb	$5, %al
	ja	.LBB0_388
.LBB0_285:
	movzbl	16(%rdi), %eax
	leal	-48(%rax), %ecx
	cmpb	$10, %cl
	jb	.LBB0_287
	andb	$-33, %al
	addb	$-65, %al
	cmpb	$5, %al
	ja	.LBB0_388
.LBB0_287:
	movzbl	17(%rdi), %eax
	leal	-48(%rax), %ecx
	cmpb	$10, %cl
	jb	.LBB0_289
	andb	$-33, %al
	addb	$-65, %al
	cmpb	$5, %al
	ja	.LBB0_388
.LBB0_289:
	movzbl	18(%rdi), %eax
	leal	-48(%rax), %ecx
	cmpb	$10, %cl
	jb	.LBB0_291
	andb	$-33, %al
	addb	$-65, %al
	cmpb	$5, %al
	ja	.LBB0_388
.LBB0_291:
	movzbl	19(%rdi), %eax
	leal	-48(%rax), %ecx
	cmpb	$10, %cl
	jb	.LBB0_293
	andb	$-33, %al
	addb	$-65, %al
	cmpb	$5, %al
	ja	.LBB0_388
.LBB0_293:
	movzbl	20(%rdi), %eax
	leal	-48(%rax), %ecx
	cmpb	$10, %cl
	jb	.LBB0_295
	andb	$-33, %al
	addb	$-65, %al
	cmpb	$5, %al
	ja	.LBB0_388
.LBB0_295:
	movzbl	21(%rdi), %eax
	leal	-48(%rax), %ecx
	cmpb	$10, %cl
	jb	.LBB0_297
	andb	$-33, %al
	addb	$-65, %al
	cmpb	$5, %al
	ja	.LBB0_388
.LBB0_297:
	movzbl	22(%rdi), %eax
	leal	-48(%rax), %ecx
	cmpb	$10, %cl
	jb	.LBB0_299
	andb	$-33, %al
	addb	$-65, %al
	cmpb	$5, %al
	ja	.LBB0_388
.LBB0_299:
	movzbl	23(%rdi), %eax
	leal	-48(%rax), %ecx
	cmpb	$10, %cl
	jb	.LBB0_301
	andb	$-33, %al
	addb	$-65, %al
	cmpb	$5, %al
	ja	.LBB0_388
.LBB0_301:
	movzbl	24(%rdi), %eax
	leal	-48(%rax), %ecx
	cmpb	$10, %cl
	jb	.LBB0_303
	andb	$-33, %al
	addb	$-65, %al
	cmpb	$5, %al
	ja	.LBB0_388
.LBB0_303:
	movzbl	25(%rdi), %eax
	leal	-48(%rax), %ecx
	cmpb	$10, %cl
	jb	.LBB0_305
	andb	$-33, %al
	addb	$-65, %al
	cmpb	$5, %al
	ja	.LBB0_388
.LBB0_305:
	movzbl	26(%rdi), %eax
	leal	-48(%rax), %ecx
	cmpb	$10, %cl
	jb	.LBB0_307
	andb	$-33, %al
	addb	$-65, %al
	cmpb	$5, %al
	ja	.LBB0_388
.LBB0_307:
	movzbl	27(%rdi), %eax
	leal	-48(%rax), %ecx
	cmpb	$10, %cl
	jb	.LBB0_309
	andb	$-33, %al
	addb	$-65, %al
	cmpb	$5, %al
	ja	.LBB0_388
.LBB0_309:
	movzbl	28(%rdi), %eax
	leal	-48(%rax), %ecx
	cmpb	$10, %cl
	jb	.LBB0_311
	andb	$-33, %al
	addb	$-65, %al
	cmpb	$5, %al
	ja	.LBB0_388
.LBB0_311:
	movzbl	29(%rdi), %eax
	leal	-48(%rax), %ecx
	cmpb	$10, %cl
	jb	.LBB0_313
	andb	$-33, %al
	addb	$-65, %al
	cmpb	$5, %al
	ja	.LBB0_388
.LBB0_313:
	movzbl	30(%rdi), %eax
	leal	-48(%rax), %ecx
	cmpb	$10, %cl
	jb	.LBB0_315
	andb	$-33, %al
	addb	$-65, %al
	cmpb	$5, %al
	ja	.LBB0_388
.LBB0_315:
	movzbl	31(%rdi), %eax
	leal	-48(%rax), %ecx
	cmpb	$10, %cl
	movq	(%rsp), %r13
	movb	$1, %bl
	jb	.LBB0_317
	andb	$-33, %al
	addb	$-65, %al
	cmpb	$5, %al
	ja	.LBB0_115
.LBB0_317:
	xorl	%eax, %eax
	jmp	.LBB0_591
.LBB0_318:
	movdqa	%xmm0, 96(%rsp)
	movdqa	%xmm0, 80(%rsp)
	movdqa	%xmm0, 880(%rsp)
	movq	$0, 896(%rsp)
	movb	$1, %bl
	movb	$1, %r14b
	cmpq	$48, %rbp
	jne	.LBB0_115
	xorl	%eax, %eax
.LBB0_320:
	cmpq	$48, %rax
	je	.LBB0_423
	movzbl	(%r8,%rax), %ecx
	leal	-48(%rcx), %edx
	movb	$2, %r14b
	cmpb	$10, %dl
	jb	.LBB0_323
	andb	$-33, %cl
	addb	$-65, %cl
	cmpb	$5, %cl
	ja	.LBB0_115
.LBB0_323:
	movzbl	1(%r8,%rax), %ecx
	leal	-48(%rcx), %edx
	addq	$2, %rax
	cmpb	$10, %dl
	jb	.LBB0_320
	andb	$-33, %cl
	addb	$-65, %cl
	cmpb	$6, %cl
	jb	.LBB0_320
	jmp	.LBB0_115
.LBB0_325:
	movdqa	%xmm0, 704(%rsp)
	movdqa	%xmm0, 688(%rsp)
	movdqa	%xmm0, 80(%rsp)
	movq	$0, 96(%rsp)
	movb	$1, %bl
	movb	$1, %r14b
	cmpq	$32, %rbp
	jne	.LBB0_115
	movzbl	(%r8), %eax
	leal	-48(%rax), %ecx
	movb	$2, %r14b
	cmpb	$10, %cl
	jb	.LBB0_328
	andb	$-33, %al
	addb	$-65, %al
	cmpb	$5, %al
	ja	.LBB0_115
.LBB0_328:
	movzbl	1(%r8), %eax
	leal	-48(%rax), %ecx
	cmpb	$10, %cl
	jb	.LBB0_330
	andb	$-33, %al
	addb	$-65, %al
	cmpb	$5, %al
	ja	.LBB0_115
.LBB0_330:
	movq	%rdi, %rbp
	movq	%rsi, 8(%rsp)
	movq	%r8, %rdi
	movzbl	2(%r8), %eax
	leal	-48(%rax), %ecx
	cmpb	$10, %cl
	jb	.LBB0_332
	andb	$-33, %al
	addb	$-65, %al
	cmpb	$5, %al
	ja	.LBB0_388
.LBB0_332:
	movzbl	3(%rdi), %eax
	leal	-48(%rax), %ecx
	cmpb	$10, %cl
	jb	.LBB0_334
	andb	$-33, %al
	addb	$-65, %al
	cmpb	$5, %al
	ja	.LBB0_388
.LBB0_334:
	movzbl	4(%rdi), %eax
	leal	-48(%rax), %ecx
	cmpb	$10, %cl
	jb	.LBB0_336
	andb	$-33, %al
	addb	$-65, %al
	cmpb	$5, %al
	ja	.LBB0_388
.LBB0_336:
	movzbl	5(%rdi), %eax
	leal	-48(%rax), %ecx
	cmpb	$10, %cl
	jb	.LBB0_338
	andb	$-33, %al
	addb	$-65, %al
	cmpb	$5, %al
	ja	.LBB0_388
.LBB0_338:
	movzbl	6(%rdi), %eax
	leal	-48(%rax), %ecx
	cmpb	$10, %cl
	jb	.LBB0_340
	andb	$-33, %al
	addb	$-65, %al
	cmpb	$5, %al
	ja	.LBB0_388
.LBB0_340:
	movzbl	7(%rdi), %eax
	leal	-48(%rax), %ecx
	cmpb	$10, %cl
	jb	.LBB0_342
	andb	$-33, %al
	addb	$-65, %al
	cmpb	$5, %al
	ja	.LBB0_388
.LBB0_342:
	movzbl	8(%rdi), %eax
	leal	-48(%rax), %ecx
	cmpb	$10, %cl
	jb	.LBB0_344
	andb	$-33, %al
	addb	$-65, %al
	cmpb	$5, %al
	ja	.LBB0_388
.LBB0_344:
	movzbl	9(%rdi), %eax
	leal	-48(%rax), %ecx
	cmpb	$10, %cl
	jb	.LBB0_346
	andb	$-33, %al
	addb	$-65, %al
	cmpb	$5, %al
	ja	.LBB0_388
.LBB0_346:
	movzbl	10(%rdi), %eax
	leal	-48(%rax), %ecx
	cmpb	$10, %cl
	jb	.LBB0_348
	andb	$-33, %al
	addb	$-65, %al
	cmpb	$5, %al
	ja	.LBB0_388
.LBB0_348:
	movzbl	11(%rdi), %eax
	leal	-48(%rax), %ecx
	cmpb	$10, %cl
	jb	.LBB0_350
	andb	$-33, %al
	addb	$-65, %al
	cmpb	$5, %al
	ja	.LBB0_388
.LBB0_350:
	movzbl	12(%rdi), %eax
	leal	-48(%rax), %ecx
	cmpb	$10, %cl
	jb	.LBB0_352
	andb	$-33, %al
	addb	$-65, %al
	cmpb	$5, %al
	ja	.LBB0_388
.LBB0_352:
	movzbl	13(%rdi), %eax
	leal	-48(%rax), %ecx
	cmpb	$10, %cl
	jb	.LBB0_354
	andb	$-33, %al
	addb	$-65, %al
	cmpb	$5, %al
	ja	.LBB0_388
.LBB0_354:
	movzbl	14(%rdi), %eax
	leal	-48(%rax), %ecx
	cmpb	$10, %cl
	jb	.LBB0_356
	andb	$-33, %al
	addb	$-65, %al
	cmpb	$5, %al
	ja	.LBB0_388
.LBB0_356:
	movzbl	15(%rdi), %eax
	leal	-48(%rax), %ecx
	cmpb	$10, %cl
	jb	.LBB0_358
	andb	$-33, %al
	addb	$-65, %al
	cmpb	$5, %al
	ja	.LBB0_388
.LBB0_358:
	movzbl	16(%rdi), %eax
	leal	-48(%rax), %ecx
	cmpb	$10, %cl
	jb	.LBB0_360
	andb	$-33, %al
	addb	$-65, %al
	cmpb	$5, %al
	ja	.LBB0_388
.LBB0_360:
	movzbl	17(%rdi), %eax
	leal	-48(%rax), %ecx
	cmpb	$10, %cl
	jb	.LBB0_362
	andb	$-33, %al
	addb	$-65, %al
	cmpb	$5, %al
	ja	.LBB0_388
.LBB0_362:
	movzbl	18(%rdi), %eax
	leal	-48(%rax), %ecx
	cmpb	$10, %cl
	jb	.LBB0_364
	andb	$-33, %al
	addb	$-65, %al
	cmpb	$5, %al
	ja	.LBB0_388
.LBB0_364:
	movzbl	19(%rdi), %eax
	leal	-48(%rax), %ecx
	cmpb	$10, %cl
	jb	.LBB0_366
	andb	$-33, %al
	addb	$-65, %al
	cmpb	$5, %al
	ja	.LBB0_388
.LBB0_366:
	movzbl	20(%rdi), %eax
	leal	-48(%rax), %ecx
	cmpb	$10, %cl
	jb	.LBB0_368
	andb	$-33, %al
	addb	$-65, %al
	cmpb	$5, %al
	ja	.LBB0_388
.LBB0_368:
	movzbl	21(%rdi), %eax
	leal	-48(%rax), %ecx
	cmpb	$10, %cl
	jb	.LBB0_370
	andb	$-33, %al
	addb	$-65, %al
	cmpb	$5, %al
	ja	.LBB0_388
.LBB0_370:
	movzbl	22(%rdi), %eax
	leal	-48(%rax), %ecx
	cmpb	$10, %cl
	jb	.LBB0_372
	andb	$-33, %al
	addb	$-65, %al
	cmpb	$5, %al
	ja	.LBB0_388
.LBB0_372:
	movzbl	23(%rdi), %eax
	leal	-48(%rax), %ecx
	cmpb	$10, %cl
	jb	.LBB0_374
	andb	$-33, %al
	addb	$-65, %al
	cmpb	$5, %al
	ja	.LBB0_388
.LBB0_374:
	movzbl	24(%rdi), %eax
	leal	-48(%rax), %ecx
	cmpb	$10, %cl
	jb	.LBB0_376
	andb	$-33, %al
	addb	$-65, %al
	cmpb	$5, %al
	ja	.LBB0_388
.LBB0_376:
	movzbl	25(%rdi), %eax
	leal	-48(%rax), %ecx
	cmpb	$10, %cl
	jb	.LBB0_378
	andb	$-33, %al
	addb	$-65, %al
	cmpb	$5, %al
	ja	.LBB0_388
.LBB0_378:
	movzbl	26(%rdi), %eax
	leal	-48(%rax), %ecx
	cmpb	$10, %cl
	jb	.LBB0_380
	andb	$-33, %al
	addb	$-65, %al
	cmpb	$5, %al
	ja	.LBB0_388
.LBB0_380:
	movzbl	27(%rdi), %eax
	leal	-48(%rax), %ecx
	cmpb	$10, %cl
	jb	.LBB0_382
	andb	$-33, %al
	addb	$-65, %al
	cmpb	$5, %al
	ja	.LBB0_388
.LBB0_382:
	movzbl	28(%rdi), %eax
	leal	-48(%rax), %ecx
	cmpb	$10, %cl
	jb	.LBB0_384
	andb	$-33, %al
	addb	$-65, %al
	cmpb	$5, %al
	ja	.LBB0_388
.LBB0_384:
	movzbl	29(%rdi), %eax
	leal	-48(%rax), %ecx
	cmpb	$10, %cl
	jb	.LBB0_386
	andb	$-33, %al
	addb	$-65, %al
	cmpb	$5, %al
	ja	.LBB0_388
.LBB0_386:
	movzbl	30(%rdi), %eax
	leal	-48(%rax), %ecx
	cmpb	$10, %cl
	jb	.LBB0_606
	andb	$-33, %al
	addb	$-65, %al
	cmpb	$5, %al
	jbe	.LBB0_606
.LBB0_388:
	movq	(%rsp), %r13
	movb	$1, %bl
	jmp	.LBB0_115
.LBB0_389:
	movq	%rdi, %r14
	movq	%rsi, 8(%rsp)
	leaq	272(%rsp), %r15
	movl	$392, %edx
	movq	%r15, %rdi
	xorl	%esi, %esi
	movq	%r8, %rbx
	callq	memset@PLT
	pxor	%xmm0, %xmm0
	movdqa	%xmm0, 912(%rsp)
	movdqa	%xmm0, 928(%rsp)
	movq	%r15, %rdi
	movq	%rbx, %rsi
	movq	%rbp, %rdx
	callq	"des_tool::command::digits::parse_cipher_key::<#cefa6fc48b8e262a>"
	cmpb	$0, 272(%rsp)
	je	.LBB0_399
.LBB0_390:
	movb	$1, %bl
	movzbl	273(%rsp), %r14d
	jmp	.LBB0_115
.LBB0_391:
	leaq	272(%rsp), %r12
	movl	$392, %edx
	movq	%r12, %rdi
	xorl	%esi, %esi
	callq	memset@PLT
	movq	$0, 688(%rsp)
	movb	$0, 696(%rsp)
	pxor	%xmm0, %xmm0
	movdqa	%xmm0, 112(%rsp)
	movdqa	%xmm0, 128(%rsp)
	movq	%r12, %rdi
	movq	%r13, %rsi
	movq	%r15, %rdx
	callq	"des_tool::command::digits::parse_cipher_key::<#cefa6fc48b8e262a>"
	cmpb	$0, 272(%rsp)
	je	.LBB0_403
	movb	$1, %bl
	movzbl	273(%rsp), %r14d
	jmp	.LBB0_111
.LBB0_393:
	movq	280(%rsp), %rcx
	xorl	%esi, %esi
.LBB0_394:
	cmpq	$512, %rsi
	je	.LBB0_443
	leaq	.Lstatic.16(%rip), %rdi
	movq	(%rsi,%rdi), %r8
	xorq	%rcx, %r8
	movl	$8, %r15d
	leaq	.Lstatic.15(%rip), %r13
	testq	%rdx, %r8
	je	.LBB0_234
	movq	8(%rsi,%rdi), %r8
	xorq	%rcx, %r8
	testq	%rdx, %r8
	je	.LBB0_234
	movq	16(%rsi,%rdi), %r8
	xorq	%rcx, %r8
	testq	%rdx, %r8
	je	.LBB0_234
	movq	24(%rsi,%rdi), %rdi
	xorq	%rcx, %rdi
	addq	$32, %rsi
	xorl	%ebx, %ebx
	testq	%rdx, %rdi
	jne	.LBB0_394
	jmp	.LBB0_235
.LBB0_399:
	leaq	280(%rsp), %rsi
	leaq	1328(%rsp), %rdi
	movl	$384, %edx
	callq	memcpy@PLT
	leaq	912(%rsp), %rdi
	movq	%r14, %rsi
	movq	8(%rsp), %rdx
	callq	"des_tool::command::digits::parse_blocks"
	cmpb	$0, 912(%rsp)
	je	.LBB0_456
	movb	$1, %bl
	movzbl	913(%rsp), %r14d
	jmp	.LBB0_115
.LBB0_401:
	movq	%r14, %r15
	leaq	112(%rsp), %rdi
	movq	%rbx, %rsi
	movq	8(%rsp), %rdx
	callq	"des_tool::command::digits::parse_vector"
	movq	113(%rsp), %r14
	cmpb	$0, 112(%rsp)
	jne	.LBB0_402
	leaq	912(%rsp), %rdi
	movq	64(%rsp), %rsi
	movq	32(%rsp), %rdx
	callq	"des_tool::command::digits::parse_blocks"
	cmpb	$0, 912(%rsp)
	je	.LBB0_509
	movb	$1, %bl
	movzbl	913(%rsp), %r14d
	jmp	.LBB0_111
.LBB0_403:
	movq	%r14, %r15
	leaq	280(%rsp), %rsi
	leaq	1328(%rsp), %rdi
	movl	$384, %edx
	callq	memcpy@PLT
	leaq	688(%rsp), %rdi
	movq	%rbx, %rsi
	movq	8(%rsp), %rdx
	callq	"des_tool::command::digits::parse_vector"
	movq	689(%rsp), %r14
	cmpb	$0, 688(%rsp)
	je	.LBB0_464
.LBB0_402:
	movb	$1, %bl
	jmp	.LBB0_111
.LBB0_405:
	testq	%r12, %r12
	je	.LBB0_407
	movq	%r15, %rdi
	callq	rattle_dealloc@PLT
.LBB0_407:
	testq	%rbx, %rbx
	je	.LBB0_413
	leaq	(%rbx,%r14), %rax
	cmpq	%rax, %r14
	jae	.LBB0_413
	leaq	(%r14,%r14,2), %rax
	leaq	16(,%rax,8), %r15
	addq	%r13, %r15
	jmp	.LBB0_411
.LBB0_410:
	addq	$24, %r15
	decq	%rbx
	je	.LBB0_413
.LBB0_411:
	cmpq	$0, (%r15)
	je	.LBB0_410
	movq	-16(%r15), %rdi
	callq	rattle_dealloc@PLT
	jmp	.LBB0_410
.LBB0_413:
	cmpq	$0, 72(%rsp)
	je	.LBB0_415
	movq	%r13, %rdi
	callq	rattle_dealloc@PLT
.LBB0_415:
	movq	272(%rsp), %rbx
	movq	280(%rsp), %r15
	movq	288(%rsp), %r14
	testq	%r15, %r15
	je	.LBB0_420
	leaq	16(%rbx), %r12
	jmp	.LBB0_418
.LBB0_417:
	addq	$24, %r12
	decq	%r15
	je	.LBB0_420
.LBB0_418:
	cmpq	$0, (%r12)
	je	.LBB0_417
	movq	-16(%r12), %rdi
	callq	rattle_dealloc@PLT
	jmp	.LBB0_417
.LBB0_420:
	testq	%r14, %r14
	je	.LBB0_422
	movq	%rbx, %rdi
	callq	rattle_dealloc@PLT
.LBB0_422:
	movb	$5, %bl
	jmp	.LBB0_161
.LBB0_423:
	movq	%rdi, %rbp
	movq	%rsi, %rbx
	movq	%r15, %r14
	xorl	%eax, %eax
	jmp	.LBB0_426
.LBB0_424:
	addb	$-48, %dl
.LBB0_425:
	shlb	$4, %cl
	addb	%dl, %cl
	movb	%cl, 880(%rsp,%rax)
	incq	%rax
	cmpq	$24, %rax
	je	.LBB0_441
.LBB0_426:
	movzbl	(%r8,%rax,2), %ecx
	cmpb	$48, %cl
	jb	.LBB0_666
	movzbl	1(%r8,%rax,2), %edx
	cmpb	$57, %cl
	ja	.LBB0_429
	addb	$-48, %cl
	jmp	.LBB0_434
.LBB0_429:
	cmpb	$65, %cl
	jb	.LBB0_666
	cmpb	$70, %cl
	ja	.LBB0_432
	addb	$-55, %cl
	jmp	.LBB0_434
.LBB0_432:
	leal	-97(%rcx), %esi
	cmpb	$5, %sil
	ja	.LBB0_666
	addb	$-87, %cl
.LBB0_434:
	cmpb	$48, %dl
	jb	.LBB0_666
	cmpb	$57, %dl
	jbe	.LBB0_424
	cmpb	$65, %dl
	jb	.LBB0_666
	cmpb	$70, %dl
	ja	.LBB0_439
	addb	$-55, %dl
	jmp	.LBB0_425
.LBB0_439:
	leal	-97(%rdx), %esi
	cmpb	$5, %sil
	ja	.LBB0_666
	addb	$-87, %dl
	jmp	.LBB0_425
.LBB0_441:
	movq	880(%rsp), %rsi
	movq	888(%rsp), %r15
	movq	896(%rsp), %r13
	pxor	%xmm0, %xmm0
	movdqa	%xmm0, 800(%rsp)
	movdqa	%xmm0, 784(%rsp)
	movdqa	%xmm0, 768(%rsp)
	movdqa	%xmm0, 752(%rsp)
	movdqa	%xmm0, 736(%rsp)
	movdqa	%xmm0, 720(%rsp)
	movdqa	%xmm0, 704(%rsp)
	movdqa	%xmm0, 688(%rsp)
	leaq	688(%rsp), %rdi
	callq	"des::des::DesKeyInit::new"
	pxor	%xmm0, %xmm0
	movdqa	%xmm0, 224(%rsp)
	movdqa	%xmm0, 208(%rsp)
	movdqa	%xmm0, 192(%rsp)
	movdqa	%xmm0, 176(%rsp)
	movdqa	%xmm0, 160(%rsp)
	movdqa	%xmm0, 144(%rsp)
	movdqa	%xmm0, 128(%rsp)
	movdqa	%xmm0, 112(%rsp)
	leaq	112(%rsp), %rdi
	movq	%r15, %rsi
	callq	"des::des::DesKeyInit::new"
	pxor	%xmm0, %xmm0
	movdqa	%xmm0, 384(%rsp)
	movdqa	%xmm0, 368(%rsp)
	movdqa	%xmm0, 352(%rsp)
	movdqa	%xmm0, 336(%rsp)
	movdqa	%xmm0, 320(%rsp)
	movdqa	%xmm0, 304(%rsp)
	movdqa	%xmm0, 288(%rsp)
	movdqa	%xmm0, 272(%rsp)
	leaq	272(%rsp), %rdi
	movq	%r13, %rsi
	callq	"des::des::DesKeyInit::new"
	movaps	800(%rsp), %xmm0
	movaps	%xmm0, 1024(%rsp)
	movaps	784(%rsp), %xmm0
	movaps	%xmm0, 1008(%rsp)
	movaps	768(%rsp), %xmm0
	movaps	%xmm0, 992(%rsp)
	movaps	752(%rsp), %xmm0
	movaps	%xmm0, 976(%rsp)
	movaps	688(%rsp), %xmm0
	movaps	704(%rsp), %xmm1
	movaps	720(%rsp), %xmm2
	movaps	736(%rsp), %xmm3
	movaps	%xmm3, 960(%rsp)
	movaps	%xmm2, 944(%rsp)
	movaps	%xmm1, 928(%rsp)
	movaps	%xmm0, 912(%rsp)
	movaps	112(%rsp), %xmm0
	movaps	128(%rsp), %xmm1
	movaps	144(%rsp), %xmm2
	movaps	160(%rsp), %xmm3
	movaps	%xmm0, 1040(%rsp)
	movaps	%xmm1, 1056(%rsp)
	movaps	%xmm2, 1072(%rsp)
	movaps	%xmm3, 1088(%rsp)
	movaps	176(%rsp), %xmm0
	movaps	%xmm0, 1104(%rsp)
	movaps	192(%rsp), %xmm0
	movaps	%xmm0, 1120(%rsp)
	movaps	208(%rsp), %xmm0
	movaps	%xmm0, 1136(%rsp)
	movaps	224(%rsp), %xmm0
	movaps	%xmm0, 1152(%rsp)
	movaps	384(%rsp), %xmm0
	movaps	%xmm0, 1280(%rsp)
	movaps	368(%rsp), %xmm0
	movaps	%xmm0, 1264(%rsp)
	movaps	352(%rsp), %xmm0
	movaps	%xmm0, 1248(%rsp)
	movaps	336(%rsp), %xmm0
	movaps	%xmm0, 1232(%rsp)
	movdqa	272(%rsp), %xmm0
	movdqa	288(%rsp), %xmm1
	movdqa	304(%rsp), %xmm2
	movdqa	320(%rsp), %xmm3
	movdqa	%xmm3, 1216(%rsp)
	movdqa	%xmm2, 1200(%rsp)
	movdqa	%xmm1, 1184(%rsp)
	movdqa	%xmm0, 1168(%rsp)
	leaq	279(%rsp), %r15
	leaq	912(%rsp), %rsi
	movl	$384, %edx
	movq	%r15, %rdi
	callq	memcpy@PLT
	leaq	1335(%rsp), %r13
	movl	$384, %edx
	movq	%r13, %rdi
	movq	%r15, %rsi
	callq	memcpy@PLT
	leaq	278(%rsp), %r15
	movl	$384, %edx
	movq	%r15, %rdi
	movq	%r13, %rsi
	callq	memcpy@PLT
	leaq	1328(%rsp), %rdi
	movl	$384, %edx
	movq	%r15, %rsi
	callq	memcpy@PLT
	leaq	80(%rsp), %rdi
	movq	%rbp, %rsi
	movq	%rbx, %rdx
	callq	"des_tool::command::digits::parse_blocks"
	cmpb	$0, 80(%rsp)
	je	.LBB0_476
	movzbl	81(%rsp), %r14d
	jmp	.LBB0_240
.LBB0_443:
	xorq	272(%rsp), %rcx
	movl	$8, %r15d
	leaq	.Lstatic.15(%rip), %r13
	testq	%rdx, %rcx
	je	.LBB0_234
	testb	%al, %al
	jne	.LBB0_231
	movq	288(%rsp), %rax
	xorl	%ecx, %ecx
.LBB0_446:
	cmpq	$512, %rcx
	je	.LBB0_575
	leaq	.Lstatic.16(%rip), %rsi
	movq	(%rcx,%rsi), %rdi
	xorq	%rax, %rdi
	testq	%rdx, %rdi
	je	.LBB0_234
	movq	8(%rcx,%rsi), %rdi
	xorq	%rax, %rdi
	testq	%rdx, %rdi
	je	.LBB0_234
	movq	16(%rcx,%rsi), %rdi
	xorq	%rax, %rdi
	testq	%rdx, %rdi
	je	.LBB0_234
	movq	24(%rcx,%rsi), %rsi
	xorq	%rax, %rsi
	addq	$32, %rcx
	xorl	%ebx, %ebx
	testq	%rdx, %rsi
	jne	.LBB0_446
	jmp	.LBB0_235
.LBB0_452:
	leaq	280(%rsp), %r15
	movq	1336(%rsp), %rbp
	movq	1344(%rsp), %r13
	movq	1352(%rsp), %rax
	movq	%rax, 8(%rsp)
	movabsq	$8390339638243585637, %rax
	cmpq	%rax, %r12
	jne	.LBB0_466
	testq	%r13, %r13
	je	.LBB0_489
	movq	%rbp, %r12
	movq	%r13, %rbx
.LBB0_455:
	movq	%r15, %rdi
	movq	%r12, %rsi
	callq	"des::des::DesBlockCipherEncrypt::encrypt_block"
	addq	$8, %r12
	decq	%rbx
	jne	.LBB0_455
	jmp	.LBB0_469
.LBB0_456:
	movq	920(%rsp), %rax
	movq	%rax, 8(%rsp)
	movq	928(%rsp), %rbx
	movq	936(%rsp), %rax
	movq	%rax, 32(%rsp)
	leaq	1456(%rsp), %r15
	leaq	1584(%rsp), %rbp
	movabsq	$8390339638243585637, %rax
	cmpq	%rax, %r12
	jne	.LBB0_471
	testq	%rbx, %rbx
	je	.LBB0_501
	movq	8(%rsp), %r13
	movq	%rbx, %r14
	leaq	280(%rsp), %r12
.LBB0_459:
	movq	%r12, %rdi
	movq	%r13, %rsi
	callq	"des::des::DesBlockCipherEncrypt::encrypt_block"
	movq	%r15, %rdi
	movq	%r13, %rsi
	callq	"des::des::DesBlockCipherDecrypt::decrypt_block"
	movq	%rbp, %rdi
	movq	%r13, %rsi
	callq	"des::des::DesBlockCipherEncrypt::encrypt_block"
	addq	$8, %r13
	decq	%r14
	jne	.LBB0_459
	jmp	.LBB0_474
.LBB0_464:
	leaq	112(%rsp), %rdi
	movq	64(%rsp), %rsi
	movq	32(%rsp), %rdx
	callq	"des_tool::command::digits::parse_blocks"
	cmpb	$0, 112(%rsp)
	je	.LBB0_513
	movb	$1, %bl
	movzbl	113(%rsp), %r14d
	jmp	.LBB0_111
.LBB0_466:
	testq	%r13, %r13
	je	.LBB0_489
	movq	%rbp, %r12
	movq	%r13, %rbx
.LBB0_468:
	movq	%r15, %rdi
	movq	%r12, %rsi
	callq	"des::des::DesBlockCipherDecrypt::decrypt_block"
	addq	$8, %r12
	decq	%rbx
	jne	.LBB0_468
.LBB0_469:
	movq	%r13, %rbx
	shlq	$4, %rbx
	js	.LBB0_498
	shlq	$3, %r13
	leaq	1(%rbx), %r15
	jmp	.LBB0_490
.LBB0_471:
	testq	%rbx, %rbx
	je	.LBB0_501
	movq	8(%rsp), %r13
	movq	%rbx, %r14
	leaq	280(%rsp), %r12
.LBB0_473:
	movq	%rbp, %rdi
	movq	%r13, %rsi
	callq	"des::des::DesBlockCipherDecrypt::decrypt_block"
	movq	%r15, %rdi
	movq	%r13, %rsi
	callq	"des::des::DesBlockCipherEncrypt::encrypt_block"
	movq	%r12, %rdi
	movq	%r13, %rsi
	callq	"des::des::DesBlockCipherDecrypt::decrypt_block"
	addq	$8, %r13
	decq	%r14
	jne	.LBB0_473
.LBB0_474:
	movq	%rbx, %rbp
	shlq	$4, %rbp
	js	.LBB0_663
	shlq	$3, %rbx
	leaq	1(%rbp), %r15
	jmp	.LBB0_502
.LBB0_476:
	movq	88(%rsp), %rax
	movq	%rax, 8(%rsp)
	movq	96(%rsp), %rbx
	movq	104(%rsp), %rax
	movq	%rax, 32(%rsp)
	leaq	1456(%rsp), %r15
	leaq	1584(%rsp), %r13
	cmpq	%r14, %r12
	jne	.LBB0_517
	testq	%rbx, %rbx
	je	.LBB0_564
	movq	8(%rsp), %rbp
	movq	%rbx, %r14
.LBB0_479:
	leaq	1328(%rsp), %rdi
	movq	%rbp, %rsi
	callq	"des::des::DesBlockCipherEncrypt::encrypt_block"
	movq	%r15, %rdi
	movq	%rbp, %rsi
	callq	"des::des::DesBlockCipherEncrypt::encrypt_block"
	movq	%r13, %rdi
	movq	%rbp, %rsi
	callq	"des::des::DesBlockCipherEncrypt::encrypt_block"
	addq	$8, %rbp
	decq	%r14
	jne	.LBB0_479
	jmp	.LBB0_520
.LBB0_480:
	cmpq	$0, 288(%rsp)
	je	.LBB0_482
	movq	272(%rsp), %rdi
	callq	rattle_dealloc@PLT
.LBB0_482:
	movq	40(%rsp), %rax
	leaq	16(%rax), %rbx
	movq	(%rsp), %r14
	jmp	.LBB0_484
.LBB0_483:
	addq	$24, %rbx
	decq	%r14
	je	.LBB0_486
.LBB0_484:
	cmpq	$0, (%rbx)
	je	.LBB0_483
	movq	-16(%rbx), %rdi
	callq	rattle_dealloc@PLT
	jmp	.LBB0_483
.LBB0_486:
	movb	$5, %bl
	cmpq	$0, 56(%rsp)
	je	.LBB0_161
	movq	40(%rsp), %rdi
	callq	rattle_dealloc@PLT
	jmp	.LBB0_161
.LBB0_489:
	movl	$1, %r15d
	xorl	%ebx, %ebx
	xorl	%r13d, %r13d
.LBB0_490:
	movl	$1, %esi
	movq	%r15, %rdi
	callq	rattle_alloc@PLT
	testb	$1, %al
	je	.LBB0_498
	movq	%rdx, %r12
	testq	%rbx, %rbx
	je	.LBB0_493
	movq	%r12, %rdi
	xorl	%esi, %esi
	movq	%rbx, %rdx
	callq	memset@PLT
.LBB0_493:
	movq	%rbx, %rax
	shrq	%rax
	cmpq	%r13, %rax
	jne	.LBB0_666
	testq	%r13, %r13
	je	.LBB0_497
	xorl	%eax, %eax
.LBB0_496:
	movzbl	(%rbp,%rax), %ecx
	movl	%ecx, %edx
	shrl	$4, %edx
	leaq	.Lstatic.13(%rip), %rsi
	movzbl	(%rdx,%rsi), %edx
	movb	%dl, (%r12,%rax,2)
	andl	$15, %ecx
	movzbl	(%rcx,%rsi), %ecx
	movb	%cl, 1(%r12,%rax,2)
	movzbl	1(%rbp,%rax), %ecx
	movl	%ecx, %edx
	shrl	$4, %edx
	movzbl	(%rdx,%rsi), %edx
	movb	%dl, 2(%r12,%rax,2)
	andl	$15, %ecx
	movzbl	(%rcx,%rsi), %ecx
	movb	%cl, 3(%r12,%rax,2)
	addq	$2, %rax
	cmpq	%rax, %r13
	jne	.LBB0_496
.LBB0_497:
	movb	$10, (%r12,%rbx)
	xorl	%ebx, %ebx
	xorl	%r14d, %r14d
	jmp	.LBB0_499
.LBB0_498:
	movb	$5, %r14b
	movb	$1, %bl
	xorl	%r15d, %r15d
	xorl	%r12d, %r12d
.LBB0_499:
	cmpq	$0, 8(%rsp)
	je	.LBB0_112
	movq	%rbp, %rdi
	callq	rattle_dealloc@PLT
	jmp	.LBB0_112
.LBB0_501:
	movl	$1, %r15d
	xorl	%ebp, %ebp
	xorl	%ebx, %ebx
.LBB0_502:
	movl	$1, %esi
	movq	%r15, %rdi
	callq	rattle_alloc@PLT
	testb	$1, %al
	je	.LBB0_663
	movq	%rdx, %r12
	testq	%rbp, %rbp
	je	.LBB0_505
	movq	%r12, %rdi
	xorl	%esi, %esi
	movq	%rbp, %rdx
	callq	memset@PLT
.LBB0_505:
	movq	%rbp, %rax
	shrq	%rax
	cmpq	%rbx, %rax
	jne	.LBB0_666
	testq	%rbx, %rbx
	movq	8(%rsp), %rdi
	je	.LBB0_572
	xorl	%eax, %eax
.LBB0_508:
	movzbl	(%rdi,%rax), %ecx
	movl	%ecx, %edx
	shrl	$4, %edx
	leaq	.Lstatic.13(%rip), %rsi
	movzbl	(%rdx,%rsi), %edx
	movb	%dl, (%r12,%rax,2)
	andl	$15, %ecx
	movzbl	(%rcx,%rsi), %ecx
	movb	%cl, 1(%r12,%rax,2)
	movzbl	1(%rdi,%rax), %ecx
	movl	%ecx, %edx
	shrl	$4, %edx
	movzbl	(%rdx,%rsi), %edx
	movb	%dl, 2(%r12,%rax,2)
	andl	$15, %ecx
	movzbl	(%rcx,%rsi), %ecx
	movb	%cl, 3(%r12,%rax,2)
	addq	$2, %rax
	cmpq	%rax, %rbx
	jne	.LBB0_508
	jmp	.LBB0_572
.LBB0_509:
	movq	920(%rsp), %rax
	movq	%rax, 48(%rsp)
	movq	928(%rsp), %rax
	movq	%rax, 24(%rsp)
	movq	936(%rsp), %rax
	movq	%rax, 248(%rsp)
	cmpq	%r15, %rbp
	jne	.LBB0_522
	cmpq	$0, 24(%rsp)
	je	.LBB0_573
	movq	48(%rsp), %r12
	movq	24(%rsp), %rbx
	leaq	1336(%rsp), %r15
.LBB0_512:
	xorq	%r14, (%r12)
	movq	%r15, %rdi
	movq	%r12, %rsi
	callq	"des::des::DesBlockCipherEncrypt::encrypt_block"
	movq	(%r12), %r14
	addq	$8, %r12
	decq	%rbx
	jne	.LBB0_512
	jmp	.LBB0_534
.LBB0_513:
	movq	120(%rsp), %rax
	movq	%rax, 48(%rsp)
	movq	128(%rsp), %rax
	movq	%rax, 24(%rsp)
	movq	136(%rsp), %rax
	movq	%rax, 248(%rsp)
	cmpq	%r15, %rbp
	jne	.LBB0_543
	cmpq	$0, 24(%rsp)
	je	.LBB0_573
	leaq	1456(%rsp), %r12
	leaq	1584(%rsp), %rbp
	movq	48(%rsp), %r15
	movq	24(%rsp), %rbx
	leaq	280(%rsp), %r13
.LBB0_516:
	xorq	%r14, (%r15)
	movq	%r13, %rdi
	movq	%r15, %rsi
	callq	"des::des::DesBlockCipherEncrypt::encrypt_block"
	movq	%r12, %rdi
	movq	%r15, %rsi
	callq	"des::des::DesBlockCipherDecrypt::decrypt_block"
	movq	%rbp, %rdi
	movq	%r15, %rsi
	callq	"des::des::DesBlockCipherEncrypt::encrypt_block"
	movq	(%r15), %r14
	addq	$8, %r15
	decq	%rbx
	jne	.LBB0_516
	jmp	.LBB0_555
.LBB0_517:
	testq	%rbx, %rbx
	je	.LBB0_564
	movq	8(%rsp), %rbp
	movq	%rbx, %r14
.LBB0_519:
	movq	%r13, %rdi
	movq	%rbp, %rsi
	callq	"des::des::DesBlockCipherDecrypt::decrypt_block"
	movq	%r15, %rdi
	movq	%rbp, %rsi
	callq	"des::des::DesBlockCipherDecrypt::decrypt_block"
	leaq	1328(%rsp), %rdi
	movq	%rbp, %rsi
	callq	"des::des::DesBlockCipherDecrypt::decrypt_block"
	addq	$8, %rbp
	decq	%r14
	jne	.LBB0_519
.LBB0_520:
	movq	%rbx, %rbp
	shlq	$4, %rbp
	js	.LBB0_663
	shlq	$3, %rbx
	leaq	1(%rbp), %r15
	jmp	.LBB0_565
.LBB0_522:
	pxor	%xmm0, %xmm0
	movdqa	%xmm0, 448(%rsp)
	movdqa	%xmm0, 432(%rsp)
	movdqa	%xmm0, 416(%rsp)
	movdqa	%xmm0, 400(%rsp)
	movdqa	%xmm0, 384(%rsp)
	movdqa	%xmm0, 368(%rsp)
	movdqa	%xmm0, 352(%rsp)
	movdqa	%xmm0, 336(%rsp)
	movdqa	%xmm0, 320(%rsp)
	movdqa	%xmm0, 304(%rsp)
	movdqa	%xmm0, 288(%rsp)
	movdqa	%xmm0, 272(%rsp)
	movq	24(%rsp), %rdx
	testq	%rdx, %rdx
	je	.LBB0_534
	movq	48(%rsp), %rax
	addq	$16, %rax
	movq	%rax, 256(%rsp)
	xorl	%esi, %esi
	jmp	.LBB0_525
.LBB0_524:
	addq	%rdi, %rsi
	cmpq	%rdx, %rsi
	jae	.LBB0_534
.LBB0_525:
	movq	%r14, %rbx
	subq	%rsi, %rdx
	cmpq	$24, %rdx
	movl	$24, %r13d
	movq	%rdx, 264(%rsp)
	cmovbq	%rdx, %r13
	leaq	(,%rsi,8), %r15
	movq	48(%rsp), %rax
	movq	%rsi, 8(%rsp)
	leaq	(%rax,%rsi,8), %rsi
	leal	(,%r13,8), %edx
	movq	-8(%rdx,%rsi), %r14
	leaq	272(%rsp), %rbp
	movq	%rbp, %rdi
	movq	%rsi, 64(%rsp)
	callq	memcpy@PLT
	movq	%r13, 32(%rsp)
	leaq	1336(%rsp), %r12
.LBB0_526:
	movq	%r12, %rdi
	movq	%rbp, %rsi
	callq	"des::des::DesBlockCipherDecrypt::decrypt_block"
	addq	$8, %rbp
	decq	%r13
	jne	.LBB0_526
	cmpq	$4, 264(%rsp)
	jae	.LBB0_529
	xorl	%eax, %eax
	movq	24(%rsp), %rdx
	movq	8(%rsp), %rsi
	movq	32(%rsp), %rdi
	movq	64(%rsp), %r8
	jmp	.LBB0_533
.LBB0_529:
	movq	32(%rsp), %rdi
	movl	%edi, %eax
	andl	$28, %eax
	movq	%rbx, %xmm0
	pshufd	$68, %xmm0, %xmm0
	addq	256(%rsp), %r15
	xorl	%ecx, %ecx
	movq	24(%rsp), %rdx
	movq	8(%rsp), %rsi
	movq	64(%rsp), %r8
.LBB0_530:
	movdqa	%xmm0, %xmm1
	movdqu	-16(%r15,%rcx,8), %xmm2
	movdqu	(%r15,%rcx,8), %xmm0
	movdqa	%xmm0, %xmm3
	palignr	$8, %xmm2, %xmm3
	palignr	$8, %xmm1, %xmm2
	movdqu	272(%rsp,%rcx,8), %xmm1
	pxor	%xmm2, %xmm1
	movdqu	288(%rsp,%rcx,8), %xmm2
	pxor	%xmm3, %xmm2
	movdqu	%xmm1, -16(%r15,%rcx,8)
	movdqu	%xmm2, (%r15,%rcx,8)
	addq	$4, %rcx
	cmpq	%rcx, %rax
	jne	.LBB0_530
	cmpq	%rax, %rdi
	je	.LBB0_524
	pextrq	$1, %xmm0, %rbx
.LBB0_533:
	movq	(%r8,%rax,8), %rcx
	xorq	272(%rsp,%rax,8), %rbx
	movq	%rbx, (%r8,%rax,8)
	incq	%rax
	movq	%rcx, %rbx
	cmpq	%rax, %rdi
	jne	.LBB0_533
	jmp	.LBB0_524
.LBB0_534:
	movq	24(%rsp), %r13
	shlq	$4, %r13
	movb	$5, %r14b
	movb	$1, %bl
	js	.LBB0_580
	leaq	1(%r13), %rdi
	movl	$1, %esi
	movq	%rdi, 8(%rsp)
	callq	rattle_alloc@PLT
	xorl	%r15d, %r15d
	movl	$0, %r12d
	testb	$1, %al
	je	.LBB0_586
	movq	%rdx, %rbp
	shlq	$3, 24(%rsp)
	testq	%r13, %r13
	je	.LBB0_538
	movq	%rbp, %rdi
	xorl	%esi, %esi
	movq	%r13, %rdx
	callq	memset@PLT
.LBB0_538:
	movq	%r13, %rax
	shrq	%rax
	cmpq	24(%rsp), %rax
	jne	.LBB0_666
	cmpq	$0, 24(%rsp)
	je	.LBB0_584
	xorl	%eax, %eax
	movq	48(%rsp), %rdi
	movq	24(%rsp), %r8
.LBB0_541:
	movzbl	(%rdi,%rax), %ecx
	movl	%ecx, %edx
	shrl	$4, %edx
	leaq	.Lstatic.13(%rip), %rsi
	movzbl	(%rdx,%rsi), %edx
	movb	%dl, (%rbp,%rax,2)
	andl	$15, %ecx
	movzbl	(%rcx,%rsi), %ecx
	movb	%cl, 1(%rbp,%rax,2)
	movzbl	1(%rdi,%rax), %ecx
	movl	%ecx, %edx
	shrl	$4, %edx
	movzbl	(%rdx,%rsi), %edx
	movb	%dl, 2(%rbp,%rax,2)
	andl	$15, %ecx
	movzbl	(%rcx,%rsi), %ecx
	movb	%cl, 3(%rbp,%rax,2)
	addq	$2, %rax
	cmpq	%rax, %r8
	jne	.LBB0_541
	jmp	.LBB0_584
.LBB0_543:
	pxor	%xmm0, %xmm0
	movdqa	%xmm0, 1088(%rsp)
	movdqa	%xmm0, 1072(%rsp)
	movdqa	%xmm0, 1056(%rsp)
	movdqa	%xmm0, 1040(%rsp)
	movdqa	%xmm0, 1024(%rsp)
	movdqa	%xmm0, 1008(%rsp)
	movdqa	%xmm0, 992(%rsp)
	movdqa	%xmm0, 976(%rsp)
	movdqa	%xmm0, 960(%rsp)
	movdqa	%xmm0, 944(%rsp)
	movdqa	%xmm0, 928(%rsp)
	movdqa	%xmm0, 912(%rsp)
	movq	24(%rsp), %rdx
	testq	%rdx, %rdx
	je	.LBB0_555
	movq	48(%rsp), %rax
	addq	$16, %rax
	movq	%rax, 256(%rsp)
	xorl	%esi, %esi
	jmp	.LBB0_546
.LBB0_545:
	addq	%rdi, %rsi
	cmpq	%rdx, %rsi
	jae	.LBB0_555
.LBB0_546:
	movq	%r14, %r13
	subq	%rsi, %rdx
	cmpq	$24, %rdx
	movl	$24, %r12d
	movq	%rdx, 264(%rsp)
	cmovbq	%rdx, %r12
	leaq	(,%rsi,8), %rbp
	movq	48(%rsp), %rax
	movq	%rsi, 8(%rsp)
	leaq	(%rax,%rsi,8), %rsi
	leal	(,%r12,8), %edx
	movq	-8(%rdx,%rsi), %r14
	leaq	912(%rsp), %r15
	movq	%r15, %rdi
	movq	%rsi, 64(%rsp)
	callq	memcpy@PLT
	movq	%r12, 32(%rsp)
	leaq	1584(%rsp), %rbx
.LBB0_547:
	movq	%rbx, %rdi
	movq	%r15, %rsi
	callq	"des::des::DesBlockCipherDecrypt::decrypt_block"
	leaq	1456(%rsp), %rdi
	movq	%r15, %rsi
	callq	"des::des::DesBlockCipherEncrypt::encrypt_block"
	leaq	280(%rsp), %rdi
	movq	%r15, %rsi
	callq	"des::des::DesBlockCipherDecrypt::decrypt_block"
	addq	$8, %r15
	decq	%r12
	jne	.LBB0_547
	cmpq	$4, 264(%rsp)
	jae	.LBB0_550
	xorl	%eax, %eax
	movq	24(%rsp), %rdx
	movq	8(%rsp), %rsi
	movq	32(%rsp), %rdi
	movq	64(%rsp), %r8
	jmp	.LBB0_554
.LBB0_550:
	movq	32(%rsp), %rdi
	movl	%edi, %eax
	andl	$28, %eax
	movq	%r13, %xmm0
	pshufd	$68, %xmm0, %xmm0
	addq	256(%rsp), %rbp
	xorl	%ecx, %ecx
	movq	24(%rsp), %rdx
	movq	8(%rsp), %rsi
	movq	64(%rsp), %r8
.LBB0_551:
	movdqa	%xmm0, %xmm1
	movdqu	-16(%rbp,%rcx,8), %xmm2
	movdqu	(%rbp,%rcx,8), %xmm0
	movdqa	%xmm0, %xmm3
	palignr	$8, %xmm2, %xmm3
	palignr	$8, %xmm1, %xmm2
	movdqu	912(%rsp,%rcx,8), %xmm1
	pxor	%xmm2, %xmm1
	movdqu	928(%rsp,%rcx,8), %xmm2
	pxor	%xmm3, %xmm2
	movdqu	%xmm1, -16(%rbp,%rcx,8)
	movdqu	%xmm2, (%rbp,%rcx,8)
	addq	$4, %rcx
	cmpq	%rcx, %rax
	jne	.LBB0_551
	cmpq	%rax, %rdi
	je	.LBB0_545
	pextrq	$1, %xmm0, %r13
.LBB0_554:
	movq	(%r8,%rax,8), %rcx
	xorq	912(%rsp,%rax,8), %r13
	movq	%r13, (%r8,%rax,8)
	incq	%rax
	movq	%rcx, %r13
	cmpq	%rax, %rdi
	jne	.LBB0_554
	jmp	.LBB0_545
.LBB0_555:
	movq	24(%rsp), %r13
	shlq	$4, %r13
	movb	$5, %r14b
	movb	$1, %bl
	js	.LBB0_580
	leaq	1(%r13), %rdi
	movl	$1, %esi
	movq	%rdi, 8(%rsp)
	callq	rattle_alloc@PLT
	xorl	%r15d, %r15d
	movl	$0, %r12d
	testb	$1, %al
	je	.LBB0_586
	movq	%rdx, %rbp
	shlq	$3, 24(%rsp)
	testq	%r13, %r13
	je	.LBB0_559
	movq	%rbp, %rdi
	xorl	%esi, %esi
	movq	%r13, %rdx
	callq	memset@PLT
.LBB0_559:
	movq	%r13, %rax
	shrq	%rax
	cmpq	24(%rsp), %rax
	jne	.LBB0_666
	cmpq	$0, 24(%rsp)
	je	.LBB0_584
	xorl	%eax, %eax
	movq	48(%rsp), %rdi
	movq	24(%rsp), %r8
.LBB0_562:
	movzbl	(%rdi,%rax), %ecx
	movl	%ecx, %edx
	shrl	$4, %edx
	leaq	.Lstatic.13(%rip), %rsi
	movzbl	(%rdx,%rsi), %edx
	movb	%dl, (%rbp,%rax,2)
	andl	$15, %ecx
	movzbl	(%rcx,%rsi), %ecx
	movb	%cl, 1(%rbp,%rax,2)
	movzbl	1(%rdi,%rax), %ecx
	movl	%ecx, %edx
	shrl	$4, %edx
	movzbl	(%rdx,%rsi), %edx
	movb	%dl, 2(%rbp,%rax,2)
	andl	$15, %ecx
	movzbl	(%rcx,%rsi), %ecx
	movb	%cl, 3(%rbp,%rax,2)
	addq	$2, %rax
	cmpq	%rax, %r8
	jne	.LBB0_562
.LBB0_584:
	movq	%rbp, %r12
	jmp	.LBB0_585
.LBB0_564:
	movl	$1, %r15d
	xorl	%ebp, %ebp
	xorl	%ebx, %ebx
.LBB0_565:
	movl	$1, %esi
	movq	%r15, %rdi
	callq	rattle_alloc@PLT
	testb	$1, %al
	je	.LBB0_663
	movq	%rdx, %r12
	testq	%rbp, %rbp
	je	.LBB0_568
	movq	%r12, %rdi
	xorl	%esi, %esi
	movq	%rbp, %rdx
	callq	memset@PLT
.LBB0_568:
	movq	%rbp, %rax
	shrq	%rax
	cmpq	%rbx, %rax
	jne	.LBB0_666
	testq	%rbx, %rbx
	movq	8(%rsp), %rdi
	je	.LBB0_572
	xorl	%eax, %eax
.LBB0_571:
	movzbl	(%rdi,%rax), %ecx
	movl	%ecx, %edx
	shrl	$4, %edx
	leaq	.Lstatic.13(%rip), %rsi
	movzbl	(%rdx,%rsi), %edx
	movb	%dl, (%r12,%rax,2)
	andl	$15, %ecx
	movzbl	(%rcx,%rsi), %ecx
	movb	%cl, 1(%r12,%rax,2)
	movzbl	1(%rdi,%rax), %ecx
	movl	%ecx, %edx
	shrl	$4, %edx
	movzbl	(%rdx,%rsi), %edx
	movb	%dl, 2(%r12,%rax,2)
	andl	$15, %ecx
	movzbl	(%rcx,%rsi), %ecx
	movb	%cl, 3(%r12,%rax,2)
	addq	$2, %rax
	cmpq	%rax, %rbx
	jne	.LBB0_571
.LBB0_572:
	movb	$10, (%r12,%rbp)
	xorl	%ebx, %ebx
	xorl	%r14d, %r14d
	jmp	.LBB0_664
.LBB0_573:
	movl	$1, %eax
	movq	%rax, 8(%rsp)
	movl	$1, %edi
	movl	$1, %esi
	callq	rattle_alloc@PLT
	testb	$1, %al
	je	.LBB0_579
	movq	%rdx, %r12
	xorl	%r13d, %r13d
.LBB0_585:
	movb	$10, (%r12,%r13)
	xorl	%ebx, %ebx
	movq	8(%rsp), %r15
	xorl	%r14d, %r14d
	jmp	.LBB0_586
.LBB0_575:
	movq	272(%rsp), %rcx
	xorq	%rax, %rcx
	testq	%rdx, %rcx
	je	.LBB0_234
	xorq	280(%rsp), %rax
	testq	%rdx, %rax
	jne	.LBB0_231
	jmp	.LBB0_234
.LBB0_579:
	movb	$5, %r14b
	movb	$1, %bl
.LBB0_580:
	xorl	%r15d, %r15d
	xorl	%r12d, %r12d
.LBB0_586:
	cmpq	$0, 248(%rsp)
	je	.LBB0_112
	movq	48(%rsp), %rdi
	callq	rattle_dealloc@PLT
	jmp	.LBB0_112
.LBB0_589:
	addb	$-48, %dl
.LBB0_590:
	shlb	$4, %cl
	addb	%dl, %cl
	movb	%cl, 80(%rsp,%rax)
	incq	%rax
	cmpq	$16, %rax
	je	.LBB0_626
.LBB0_591:
	movzbl	(%rdi,%rax,2), %ecx
	cmpb	$48, %cl
	jb	.LBB0_666
	movzbl	1(%rdi,%rax,2), %edx
	cmpb	$57, %cl
	ja	.LBB0_594
	addb	$-48, %cl
	jmp	.LBB0_599
.LBB0_594:
	cmpb	$65, %cl
	jb	.LBB0_666
	cmpb	$70, %cl
	ja	.LBB0_597
	addb	$-55, %cl
	jmp	.LBB0_599
.LBB0_597:
	leal	-97(%rcx), %esi
	cmpb	$5, %sil
	ja	.LBB0_666
	addb	$-87, %cl
.LBB0_599:
	cmpb	$48, %dl
	jb	.LBB0_666
	cmpb	$57, %dl
	jbe	.LBB0_589
	cmpb	$65, %dl
	jb	.LBB0_666
	cmpb	$70, %dl
	ja	.LBB0_604
	addb	$-55, %dl
	jmp	.LBB0_590
.LBB0_604:
	leal	-97(%rdx), %esi
	cmpb	$5, %sil
	ja	.LBB0_666
	addb	$-87, %dl
	jmp	.LBB0_590
.LBB0_606:
	movzbl	31(%rdi), %eax
	leal	-48(%rax), %ecx
	cmpb	$10, %cl
	movq	(%rsp), %r13
	movb	$1, %bl
	jb	.LBB0_608
	andb	$-33, %al
	addb	$-65, %al
	cmpb	$5, %al
	ja	.LBB0_115
.LBB0_608:
	xorl	%eax, %eax
	jmp	.LBB0_611
.LBB0_609:
	addb	$-48, %dl
.LBB0_610:
	shlb	$4, %cl
	addb	%dl, %cl
	movb	%cl, 80(%rsp,%rax)
	incq	%rax
	cmpq	$16, %rax
	je	.LBB0_631
.LBB0_611:
	movzbl	(%rdi,%rax,2), %ecx
	cmpb	$48, %cl
	jb	.LBB0_666
	movzbl	1(%rdi,%rax,2), %edx
	cmpb	$57, %cl
	ja	.LBB0_614
	addb	$-48, %cl
	jmp	.LBB0_619
.LBB0_614:
	cmpb	$65, %cl
	jb	.LBB0_666
	cmpb	$70, %cl
	ja	.LBB0_617
	addb	$-55, %cl
	jmp	.LBB0_619
.LBB0_617:
	leal	-97(%rcx), %esi
	cmpb	$5, %sil
	ja	.LBB0_666
	addb	$-87, %cl
.LBB0_619:
	cmpb	$48, %dl
	jb	.LBB0_666
	cmpb	$57, %dl
	jbe	.LBB0_609
	cmpb	$65, %dl
	jb	.LBB0_666
	cmpb	$70, %dl
	ja	.LBB0_624
	addb	$-55, %dl
	jmp	.LBB0_610
.LBB0_624:
	leal	-97(%rdx), %esi
	cmpb	$5, %sil
	ja	.LBB0_666
	addb	$-87, %dl
	jmp	.LBB0_610
.LBB0_626:
	movq	80(%rsp), %rsi
	movq	88(%rsp), %rbx
	pxor	%xmm0, %xmm0
	movdqa	%xmm0, 224(%rsp)
	movdqa	%xmm0, 208(%rsp)
	movdqa	%xmm0, 192(%rsp)
	movdqa	%xmm0, 176(%rsp)
	movdqa	%xmm0, 160(%rsp)
	movdqa	%xmm0, 144(%rsp)
	movdqa	%xmm0, 128(%rsp)
	movdqa	%xmm0, 112(%rsp)
	leaq	112(%rsp), %rdi
	callq	"des::des::DesKeyInit::new"
	pxor	%xmm0, %xmm0
	movdqa	%xmm0, 384(%rsp)
	movdqa	%xmm0, 368(%rsp)
	movdqa	%xmm0, 352(%rsp)
	movdqa	%xmm0, 336(%rsp)
	movdqa	%xmm0, 320(%rsp)
	movdqa	%xmm0, 304(%rsp)
	movdqa	%xmm0, 288(%rsp)
	movdqa	%xmm0, 272(%rsp)
	leaq	272(%rsp), %rdi
	movq	%rbx, %rsi
	callq	"des::des::DesKeyInit::new"
	movaps	224(%rsp), %xmm0
	movaps	%xmm0, 1024(%rsp)
	movaps	208(%rsp), %xmm0
	movaps	%xmm0, 1008(%rsp)
	movaps	192(%rsp), %xmm0
	movaps	%xmm0, 992(%rsp)
	movaps	176(%rsp), %xmm0
	movaps	%xmm0, 976(%rsp)
	movaps	112(%rsp), %xmm0
	movaps	128(%rsp), %xmm1
	movaps	144(%rsp), %xmm2
	movaps	160(%rsp), %xmm3
	movaps	%xmm3, 960(%rsp)
	movaps	%xmm2, 944(%rsp)
	movaps	%xmm1, 928(%rsp)
	movaps	%xmm0, 912(%rsp)
	movaps	272(%rsp), %xmm0
	movdqa	288(%rsp), %xmm1
	movdqa	304(%rsp), %xmm2
	movdqa	320(%rsp), %xmm3
	movaps	%xmm0, 1040(%rsp)
	movdqa	%xmm1, 1056(%rsp)
	movdqa	%xmm2, 1072(%rsp)
	movdqa	%xmm3, 1088(%rsp)
	movaps	336(%rsp), %xmm0
	movaps	%xmm0, 1104(%rsp)
	movaps	352(%rsp), %xmm0
	movaps	%xmm0, 1120(%rsp)
	movaps	368(%rsp), %xmm0
	movaps	%xmm0, 1136(%rsp)
	movdqa	384(%rsp), %xmm0
	movdqa	%xmm0, 1152(%rsp)
	leaq	279(%rsp), %rbx
	leaq	912(%rsp), %rsi
	movl	$256, %edx
	movq	%rbx, %rdi
	callq	memcpy@PLT
	leaq	1335(%rsp), %r13
	movl	$256, %edx
	movq	%r13, %rdi
	movq	%rbx, %rsi
	callq	memcpy@PLT
	leaq	278(%rsp), %rbx
	movl	$256, %edx
	movq	%rbx, %rdi
	movq	%r13, %rsi
	callq	memcpy@PLT
	leaq	1328(%rsp), %rdi
	movl	$256, %edx
	movq	%rbx, %rsi
	callq	memcpy@PLT
	leaq	688(%rsp), %rdi
	movq	%rbp, %rsi
	movq	8(%rsp), %rdx
	callq	"des_tool::command::digits::parse_blocks"
	cmpb	$0, 688(%rsp)
	jne	.LBB0_632
	movq	696(%rsp), %rax
	movq	%rax, 8(%rsp)
	movq	704(%rsp), %r13
	movq	712(%rsp), %rax
	movq	%rax, 32(%rsp)
	leaq	1456(%rsp), %r14
	cmpq	%r15, %r12
	jne	.LBB0_637
	testq	%r13, %r13
	je	.LBB0_647
	movq	8(%rsp), %r12
	movq	%r13, %rbx
.LBB0_630:
	leaq	1328(%rsp), %rbp
	movq	%rbp, %rdi
	movq	%r12, %rsi
	callq	"des::des::DesBlockCipherEncrypt::encrypt_block"
	movq	%r14, %rdi
	movq	%r12, %rsi
	callq	"des::des::DesBlockCipherEncrypt::encrypt_block"
	movq	%rbp, %rdi
	movq	%r12, %rsi
	callq	"des::des::DesBlockCipherEncrypt::encrypt_block"
	addq	$8, %r12
	decq	%rbx
	jne	.LBB0_630
	jmp	.LBB0_640
.LBB0_631:
	movq	80(%rsp), %rsi
	movq	88(%rsp), %rbx
	pxor	%xmm0, %xmm0
	movdqa	%xmm0, 224(%rsp)
	movdqa	%xmm0, 208(%rsp)
	movdqa	%xmm0, 192(%rsp)
	movdqa	%xmm0, 176(%rsp)
	movdqa	%xmm0, 160(%rsp)
	movdqa	%xmm0, 144(%rsp)
	movdqa	%xmm0, 128(%rsp)
	movdqa	%xmm0, 112(%rsp)
	leaq	112(%rsp), %rdi
	callq	"des::des::DesKeyInit::new"
	pxor	%xmm0, %xmm0
	movdqa	%xmm0, 384(%rsp)
	movdqa	%xmm0, 368(%rsp)
	movdqa	%xmm0, 352(%rsp)
	movdqa	%xmm0, 336(%rsp)
	movdqa	%xmm0, 320(%rsp)
	movdqa	%xmm0, 304(%rsp)
	movdqa	%xmm0, 288(%rsp)
	movdqa	%xmm0, 272(%rsp)
	leaq	272(%rsp), %rdi
	movq	%rbx, %rsi
	callq	"des::des::DesKeyInit::new"
	movaps	224(%rsp), %xmm0
	movaps	%xmm0, 1024(%rsp)
	movaps	208(%rsp), %xmm0
	movaps	%xmm0, 1008(%rsp)
	movaps	192(%rsp), %xmm0
	movaps	%xmm0, 992(%rsp)
	movaps	176(%rsp), %xmm0
	movaps	%xmm0, 976(%rsp)
	movaps	112(%rsp), %xmm0
	movaps	128(%rsp), %xmm1
	movaps	144(%rsp), %xmm2
	movaps	160(%rsp), %xmm3
	movaps	%xmm3, 960(%rsp)
	movaps	%xmm2, 944(%rsp)
	movaps	%xmm1, 928(%rsp)
	movaps	%xmm0, 912(%rsp)
	movaps	272(%rsp), %xmm0
	movdqa	288(%rsp), %xmm1
	movdqa	304(%rsp), %xmm2
	movdqa	320(%rsp), %xmm3
	movaps	%xmm0, 1040(%rsp)
	movdqa	%xmm1, 1056(%rsp)
	movdqa	%xmm2, 1072(%rsp)
	movdqa	%xmm3, 1088(%rsp)
	movaps	336(%rsp), %xmm0
	movaps	%xmm0, 1104(%rsp)
	movaps	352(%rsp), %xmm0
	movaps	%xmm0, 1120(%rsp)
	movaps	368(%rsp), %xmm0
	movaps	%xmm0, 1136(%rsp)
	movdqa	384(%rsp), %xmm0
	movdqa	%xmm0, 1152(%rsp)
	leaq	279(%rsp), %rbx
	leaq	912(%rsp), %rsi
	movl	$256, %edx
	movq	%rbx, %rdi
	callq	memcpy@PLT
	leaq	1335(%rsp), %r13
	movl	$256, %edx
	movq	%r13, %rdi
	movq	%rbx, %rsi
	callq	memcpy@PLT
	leaq	278(%rsp), %rbx
	movl	$256, %edx
	movq	%rbx, %rdi
	movq	%r13, %rsi
	callq	memcpy@PLT
	leaq	1328(%rsp), %rdi
	movl	$256, %edx
	movq	%rbx, %rsi
	callq	memcpy@PLT
	leaq	688(%rsp), %rdi
	movq	%rbp, %rsi
	movq	8(%rsp), %rdx
	callq	"des_tool::command::digits::parse_blocks"
	cmpb	$0, 688(%rsp)
	je	.LBB0_633
.LBB0_632:
	movzbl	689(%rsp), %r14d
	jmp	.LBB0_240
.LBB0_633:
	movq	696(%rsp), %rax
	movq	%rax, 8(%rsp)
	movq	704(%rsp), %r13
	movq	712(%rsp), %rax
	movq	%rax, 32(%rsp)
	leaq	1456(%rsp), %r14
	cmpq	%r15, %r12
	jne	.LBB0_642
	testq	%r13, %r13
	je	.LBB0_655
	movq	8(%rsp), %r12
	movq	%r13, %rbx
.LBB0_636:
	leaq	1328(%rsp), %rbp
	movq	%rbp, %rdi
	movq	%r12, %rsi
	callq	"des::des::DesBlockCipherEncrypt::encrypt_block"
	movq	%r14, %rdi
	movq	%r12, %rsi
	callq	"des::des::DesBlockCipherDecrypt::decrypt_block"
	movq	%rbp, %rdi
	movq	%r12, %rsi
	callq	"des::des::DesBlockCipherEncrypt::encrypt_block"
	addq	$8, %r12
	decq	%rbx
	jne	.LBB0_636
	jmp	.LBB0_645
.LBB0_637:
	testq	%r13, %r13
	je	.LBB0_647
	movq	8(%rsp), %r12
	movq	%r13, %rbx
.LBB0_639:
	leaq	1328(%rsp), %rbp
	movq	%rbp, %rdi
	movq	%r12, %rsi
	callq	"des::des::DesBlockCipherDecrypt::decrypt_block"
	movq	%r14, %rdi
	movq	%r12, %rsi
	callq	"des::des::DesBlockCipherDecrypt::decrypt_block"
	movq	%rbp, %rdi
	movq	%r12, %rsi
	callq	"des::des::DesBlockCipherDecrypt::decrypt_block"
	addq	$8, %r12
	decq	%rbx
	jne	.LBB0_639
.LBB0_640:
	movq	%r13, %rbp
	shlq	$4, %rbp
	js	.LBB0_663
	shlq	$3, %r13
	leaq	1(%rbp), %r15
	jmp	.LBB0_648
.LBB0_642:
	testq	%r13, %r13
	je	.LBB0_655
	movq	8(%rsp), %r12
	movq	%r13, %rbx
.LBB0_644:
	leaq	1328(%rsp), %rbp
	movq	%rbp, %rdi
	movq	%r12, %rsi
	callq	"des::des::DesBlockCipherDecrypt::decrypt_block"
	movq	%r14, %rdi
	movq	%r12, %rsi
	callq	"des::des::DesBlockCipherEncrypt::encrypt_block"
	movq	%rbp, %rdi
	movq	%r12, %rsi
	callq	"des::des::DesBlockCipherDecrypt::decrypt_block"
	addq	$8, %r12
	decq	%rbx
	jne	.LBB0_644
.LBB0_645:
	movq	%r13, %rbp
	shlq	$4, %rbp
	js	.LBB0_663
	shlq	$3, %r13
	leaq	1(%rbp), %r15
	jmp	.LBB0_656
.LBB0_647:
	movl	$1, %r15d
	xorl	%ebp, %ebp
	xorl	%r13d, %r13d
.LBB0_648:
	movl	$1, %esi
	movq	%r15, %rdi
	callq	rattle_alloc@PLT
	testb	$1, %al
	je	.LBB0_663
	movq	%rdx, %r12
	testq	%rbp, %rbp
	je	.LBB0_651
	movq	%r12, %rdi
	xorl	%esi, %esi
	movq	%rbp, %rdx
	callq	memset@PLT
.LBB0_651:
	movq	%rbp, %rax
	shrq	%rax
	cmpq	%r13, %rax
	jne	.LBB0_666
	testq	%r13, %r13
	je	.LBB0_572
	xorl	%eax, %eax
.LBB0_654:
	movq	8(%rsp), %rdi
	movzbl	(%rdi,%rax), %ecx
	movl	%ecx, %edx
	shrl	$4, %edx
	leaq	.Lstatic.13(%rip), %rsi
	movzbl	(%rdx,%rsi), %edx
	movb	%dl, (%r12,%rax,2)
	andl	$15, %ecx
	movzbl	(%rcx,%rsi), %ecx
	movb	%cl, 1(%r12,%rax,2)
	movzbl	1(%rdi,%rax), %ecx
	movl	%ecx, %edx
	shrl	$4, %edx
	movzbl	(%rdx,%rsi), %edx
	movb	%dl, 2(%r12,%rax,2)
	andl	$15, %ecx
	movzbl	(%rcx,%rsi), %ecx
	movb	%cl, 3(%r12,%rax,2)
	addq	$2, %rax
	cmpq	%rax, %r13
	jne	.LBB0_654
	jmp	.LBB0_572
.LBB0_655:
	movl	$1, %r15d
	xorl	%ebp, %ebp
	xorl	%r13d, %r13d
.LBB0_656:
	movl	$1, %esi
	movq	%r15, %rdi
	callq	rattle_alloc@PLT
	testb	$1, %al
	je	.LBB0_663
	movq	%rdx, %r12
	testq	%rbp, %rbp
	je	.LBB0_659
	movq	%r12, %rdi
	xorl	%esi, %esi
	movq	%rbp, %rdx
	callq	memset@PLT
.LBB0_659:
	movq	%rbp, %rax
	shrq	%rax
	cmpq	%r13, %rax
	jne	.LBB0_666
	testq	%r13, %r13
	je	.LBB0_572
	xorl	%eax, %eax
.LBB0_662:
	movq	8(%rsp), %rdi
	movzbl	(%rdi,%rax), %ecx
	movl	%ecx, %edx
	shrl	$4, %edx
	leaq	.Lstatic.13(%rip), %rsi
	movzbl	(%rdx,%rsi), %edx
	movb	%dl, (%r12,%rax,2)
	andl	$15, %ecx
	movzbl	(%rcx,%rsi), %ecx
	movb	%cl, 1(%r12,%rax,2)
	movzbl	1(%rdi,%rax), %ecx
	movl	%ecx, %edx
	shrl	$4, %edx
	movzbl	(%rdx,%rsi), %edx
	movb	%dl, 2(%r12,%rax,2)
	andl	$15, %ecx
	movzbl	(%rcx,%rsi), %ecx
	movb	%cl, 3(%r12,%rax,2)
	addq	$2, %rax
	cmpq	%rax, %r13
	jne	.LBB0_662
	jmp	.LBB0_572
.LBB0_663:
	movb	$5, %r14b
	movb	$1, %bl
	xorl	%r15d, %r15d
	xorl	%r12d, %r12d
.LBB0_664:
	cmpq	$0, 32(%rsp)
	je	.LBB0_112
	movq	8(%rsp), %rdi
	callq	rattle_dealloc@PLT
	jmp	.LBB0_112
.LBB0_666:
	ud2
.Lfunc_end0:
	.size	"des_tool::main+start", .Lfunc_end0-"des_tool::main+start"
	.cfi_endproc
	.section	".rodata.des_tool::main+start","a",@progbits
	.p2align	2, 0x0
.LJTI0_0:
	.long	.LBB0_227-.LJTI0_0
	.long	.LBB0_389-.LJTI0_0
	.long	.LBB0_318-.LJTI0_0
	.long	.LBB0_325-.LJTI0_0
	.long	.LBB0_252-.LJTI0_0

	.section	".text.unlikely.std_alloc::vec::Vec::grow_amortized::<#190e5f0f9e657029>","ax",@progbits
	.p2align	4
	.type	"std_alloc::vec::Vec::grow_amortized::<#190e5f0f9e657029>",@function
"std_alloc::vec::Vec::grow_amortized::<#190e5f0f9e657029>":
	.cfi_startproc
	movq	%rsi, %rax
	movq	8(%rdi), %rsi
	addq	%rsi, %rax
	jae	.LBB1_2
	xorl	%eax, %eax
	retq
.LBB1_2:
	pushq	%r14
	.cfi_def_cfa_offset 16
	pushq	%rbx
	.cfi_def_cfa_offset 24
	pushq	%rax
	.cfi_def_cfa_offset 32
	.cfi_offset %rbx, -24
	.cfi_offset %r14, -16
	cmpq	$9, %rax
	movl	$8, %ebx
	cmovaeq	%rax, %rbx
	movq	16(%rdi), %rcx
	movq	%rcx, %rdx
	shrq	$62, %rdx
	leaq	(%rcx,%rcx), %rax
	cmpq	%rax, %rbx
	cmovaq	%rbx, %rax
	testq	%rdx, %rdx
	cmoveq	%rax, %rbx
	testq	%rbx, %rbx
	js	.LBB1_6
	testq	%rcx, %rcx
	je	.LBB1_8
	movq	%rdi, %r14
	movq	(%rdi), %rdi
	movl	$1, %ecx
	movq	%rbx, %rdx
	callq	rattle_realloc@PLT
	testb	$1, %al
	je	.LBB1_6
.LBB1_9:
	movq	%rdx, (%r14)
	movq	%rbx, 16(%r14)
	movb	$1, %al
	addq	$8, %rsp
	.cfi_def_cfa_offset 24
	popq	%rbx
	.cfi_def_cfa_offset 16
	popq	%r14
	.cfi_def_cfa_offset 8
	.cfi_restore %rbx
	.cfi_restore %r14
	retq
.LBB1_8:
	.cfi_def_cfa_offset 32
	.cfi_offset %rbx, -24
	.cfi_offset %r14, -16
	movq	%rdi, %r14
	movl	$1, %esi
	movq	%rax, %rdi
	callq	rattle_alloc@PLT
	testb	$1, %al
	jne	.LBB1_9
.LBB1_6:
	xorl	%eax, %eax
	addq	$8, %rsp
	.cfi_def_cfa_offset 24
	popq	%rbx
	.cfi_def_cfa_offset 16
	popq	%r14
	.cfi_def_cfa_offset 8
	.cfi_restore %rbx
	.cfi_restore %r14
	retq
.Lfunc_end1:
	.size	"std_alloc::vec::Vec::grow_amortized::<#190e5f0f9e657029>", .Lfunc_end1-"std_alloc::vec::Vec::grow_amortized::<#190e5f0f9e657029>"
	.cfi_endproc

	.section	.rodata.cst16,"aM",@progbits,16
	.p2align	4, 0x0
.LCPI2_0:
	.zero	16,128
	.section	".text.core::slice::words::skip_far::<#52f9edcae2f82f51>","ax",@progbits
	.p2align	4
	.type	"core::slice::words::skip_far::<#52f9edcae2f82f51>",@function
"core::slice::words::skip_far::<#52f9edcae2f82f51>":
	.cfi_startproc
	movq	%rsi, %rax
	subq	%rsi, %rdx
	cmpq	$64, %rdx
	jb	.LBB2_4
	movq	(%rdi), %rcx
	.p2align	4
.LBB2_2:
	movdqu	(%rcx,%rax), %xmm0
	movdqu	16(%rcx,%rax), %xmm1
	movdqu	32(%rcx,%rax), %xmm2
	por	%xmm0, %xmm2
	movdqu	48(%rcx,%rax), %xmm0
	por	%xmm1, %xmm0
	por	%xmm2, %xmm0
	ptest	.LCPI2_0(%rip), %xmm0
	jne	.LBB2_4
	addq	$64, %rax
	addq	$-64, %rdx
	cmpq	$63, %rdx
	ja	.LBB2_2
.LBB2_4:
	retq
.Lfunc_end2:
	.size	"core::slice::words::skip_far::<#52f9edcae2f82f51>", .Lfunc_end2-"core::slice::words::skip_far::<#52f9edcae2f82f51>"
	.cfi_endproc

	.section	".text.unlikely.std_alloc::vec::Vec::grow_amortized::<#dddb8944fea4a04d>","ax",@progbits
	.p2align	4
	.type	"std_alloc::vec::Vec::grow_amortized::<#dddb8944fea4a04d>",@function
"std_alloc::vec::Vec::grow_amortized::<#dddb8944fea4a04d>":
	.cfi_startproc
	movq	8(%rdi), %rax
	addq	%rax, %rsi
	jae	.LBB3_2
	xorl	%eax, %eax
	retq
.LBB3_2:
	pushq	%r14
	.cfi_def_cfa_offset 16
	pushq	%rbx
	.cfi_def_cfa_offset 24
	pushq	%rax
	.cfi_def_cfa_offset 32
	.cfi_offset %rbx, -24
	.cfi_offset %r14, -16
	movq	16(%rdi), %rcx
	cmpq	$5, %rsi
	movl	$4, %ebx
	cmovaeq	%rsi, %rbx
	movq	%rcx, %rsi
	shrq	$62, %rsi
	leaq	(%rcx,%rcx), %rdx
	cmpq	%rdx, %rbx
	cmovaq	%rbx, %rdx
	testq	%rsi, %rsi
	cmoveq	%rdx, %rbx
	movabsq	$384307168202282325, %rsi
	cmpq	%rsi, %rbx
	ja	.LBB3_6
	testq	%rcx, %rcx
	je	.LBB3_8
	movq	%rdi, %r14
	movq	(%rdi), %rdi
	shlq	$3, %rax
	leaq	(%rax,%rax,2), %rsi
	leaq	(,%rbx,8), %rax
	leaq	(%rax,%rax,2), %rdx
	movl	$8, %ecx
	callq	rattle_realloc@PLT
	testb	$1, %al
	je	.LBB3_6
.LBB3_9:
	movq	%rdx, (%r14)
	movq	%rbx, 16(%r14)
	movb	$1, %al
	addq	$8, %rsp
	.cfi_def_cfa_offset 24
	popq	%rbx
	.cfi_def_cfa_offset 16
	popq	%r14
	.cfi_def_cfa_offset 8
	.cfi_restore %rbx
	.cfi_restore %r14
	retq
.LBB3_8:
	.cfi_def_cfa_offset 32
	.cfi_offset %rbx, -24
	.cfi_offset %r14, -16
	movq	%rdi, %r14
	shlq	$3, %rdx
	leaq	(%rdx,%rdx,2), %rdi
	movl	$8, %esi
	callq	rattle_alloc@PLT
	testb	$1, %al
	jne	.LBB3_9
.LBB3_6:
	xorl	%eax, %eax
	addq	$8, %rsp
	.cfi_def_cfa_offset 24
	popq	%rbx
	.cfi_def_cfa_offset 16
	popq	%r14
	.cfi_def_cfa_offset 8
	.cfi_restore %rbx
	.cfi_restore %r14
	retq
.Lfunc_end3:
	.size	"std_alloc::vec::Vec::grow_amortized::<#dddb8944fea4a04d>", .Lfunc_end3-"std_alloc::vec::Vec::grow_amortized::<#dddb8944fea4a04d>"
	.cfi_endproc

	.section	".text.unlikely.std_alloc::vec::Vec::grow_amortized::<#f615b8dcee162320>","ax",@progbits
	.p2align	4
	.type	"std_alloc::vec::Vec::grow_amortized::<#f615b8dcee162320>",@function
"std_alloc::vec::Vec::grow_amortized::<#f615b8dcee162320>":
	.cfi_startproc
	movq	%rsi, %rax
	movq	8(%rdi), %rsi
	addq	%rsi, %rax
	jae	.LBB4_2
	xorl	%eax, %eax
	retq
.LBB4_2:
	pushq	%r14
	.cfi_def_cfa_offset 16
	pushq	%rbx
	.cfi_def_cfa_offset 24
	pushq	%rax
	.cfi_def_cfa_offset 32
	.cfi_offset %rbx, -24
	.cfi_offset %r14, -16
	movq	16(%rdi), %rcx
	cmpq	$5, %rax
	movl	$4, %ebx
	cmovaeq	%rax, %rbx
	movq	%rcx, %rdx
	shrq	$62, %rdx
	leaq	(%rcx,%rcx), %rax
	cmpq	%rax, %rbx
	cmovaq	%rbx, %rax
	testq	%rdx, %rdx
	cmoveq	%rax, %rbx
	movq	%rbx, %rdx
	shrq	$59, %rdx
	jne	.LBB4_6
	testq	%rcx, %rcx
	je	.LBB4_8
	movq	%rdi, %r14
	movq	(%rdi), %rdi
	shlq	$4, %rsi
	movq	%rbx, %rdx
	shlq	$4, %rdx
	movl	$8, %ecx
	callq	rattle_realloc@PLT
	testb	$1, %al
	je	.LBB4_6
.LBB4_9:
	movq	%rdx, (%r14)
	movq	%rbx, 16(%r14)
	movb	$1, %al
	addq	$8, %rsp
	.cfi_def_cfa_offset 24
	popq	%rbx
	.cfi_def_cfa_offset 16
	popq	%r14
	.cfi_def_cfa_offset 8
	.cfi_restore %rbx
	.cfi_restore %r14
	retq
.LBB4_8:
	.cfi_def_cfa_offset 32
	.cfi_offset %rbx, -24
	.cfi_offset %r14, -16
	movq	%rdi, %r14
	shlq	$4, %rax
	movl	$8, %esi
	movq	%rax, %rdi
	callq	rattle_alloc@PLT
	testb	$1, %al
	jne	.LBB4_9
.LBB4_6:
	xorl	%eax, %eax
	addq	$8, %rsp
	.cfi_def_cfa_offset 24
	popq	%rbx
	.cfi_def_cfa_offset 16
	popq	%r14
	.cfi_def_cfa_offset 8
	.cfi_restore %rbx
	.cfi_restore %r14
	retq
.Lfunc_end4:
	.size	"std_alloc::vec::Vec::grow_amortized::<#f615b8dcee162320>", .Lfunc_end4-"std_alloc::vec::Vec::grow_amortized::<#f615b8dcee162320>"
	.cfi_endproc

	.section	".text.des_tool::command::digits::parse_cipher_key::<#c792690d620903dd>","ax",@progbits
	.p2align	4
	.type	"des_tool::command::digits::parse_cipher_key::<#c792690d620903dd>",@function
"des_tool::command::digits::parse_cipher_key::<#c792690d620903dd>":
	.cfi_startproc
	pushq	%rbp
	.cfi_def_cfa_offset 16
	pushq	%r15
	.cfi_def_cfa_offset 24
	pushq	%r14
	.cfi_def_cfa_offset 32
	pushq	%r13
	.cfi_def_cfa_offset 40
	pushq	%r12
	.cfi_def_cfa_offset 48
	pushq	%rbx
	.cfi_def_cfa_offset 56
	subq	$488, %rsp
	.cfi_def_cfa_offset 544
	.cfi_offset %rbx, -56
	.cfi_offset %r12, -48
	.cfi_offset %r13, -40
	.cfi_offset %r14, -32
	.cfi_offset %r15, -24
	.cfi_offset %rbp, -16
	movb	$1, %r14b
	cmpq	$16, %rdx
	jne	.LBB5_30
	movzbl	(%rsi), %r8d
	leal	-48(%r8), %edx
	movb	$2, %r14b
	cmpb	$10, %dl
	jb	.LBB5_3
	movl	%r8d, %eax
	andb	$-33, %al
	addb	$-65, %al
	cmpb	$6, %al
	jae	.LBB5_30
.LBB5_3:
	movzbl	1(%rsi), %ebp
	leal	-48(%rbp), %eax
	cmpb	$10, %al
	jb	.LBB5_5
	movl	%ebp, %ecx
	andb	$-33, %cl
	addb	$-65, %cl
	cmpb	$5, %cl
	ja	.LBB5_30
.LBB5_5:
	movzbl	2(%rsi), %r12d
	leal	-48(%r12), %r9d
	cmpb	$10, %r9b
	jb	.LBB5_7
	movl	%r12d, %ecx
	andb	$-33, %cl
	addb	$-65, %cl
	cmpb	$5, %cl
	ja	.LBB5_30
.LBB5_7:
	movzbl	3(%rsi), %r11d
	leal	-48(%r11), %ecx
	cmpb	$10, %cl
	jb	.LBB5_9
	movl	%r11d, %r10d
	andb	$-33, %r10b
	addb	$-65, %r10b
	cmpb	$5, %r10b
	ja	.LBB5_30
.LBB5_9:
	movzbl	4(%rsi), %ebx
	leal	-48(%rbx), %r10d
	cmpb	$10, %r10b
	jb	.LBB5_11
	movl	%ebx, %r15d
	andb	$-33, %r15b
	addb	$-65, %r15b
	cmpb	$5, %r15b
	ja	.LBB5_30
.LBB5_11:
	movzbl	5(%rsi), %r15d
	leal	-48(%r15), %r13d
	movl	%r13d, 84(%rsp)
	cmpb	$10, %r13b
	jb	.LBB5_13
	movl	%r15d, %r13d
	andb	$-33, %r13b
	addb	$-65, %r13b
	cmpb	$5, %r13b
	ja	.LBB5_30
.LBB5_13:
	movq	%r15, 48(%rsp)
	movzbl	6(%rsi), %r15d
	leal	-48(%r15), %r13d
	movl	%r13d, 80(%rsp)
	cmpb	$10, %r13b
	jb	.LBB5_15
	movl	%r15d, %r13d
	andb	$-33, %r13b
	addb	$-65, %r13b
	cmpb	$5, %r13b
	ja	.LBB5_30
.LBB5_15:
	movq	%r15, 40(%rsp)
	movzbl	7(%rsi), %r15d
	leal	-48(%r15), %r13d
	movl	%r13d, 76(%rsp)
	cmpb	$10, %r13b
	jb	.LBB5_17
	movl	%r15d, %r13d
	andb	$-33, %r13b
	addb	$-65, %r13b
	cmpb	$5, %r13b
	ja	.LBB5_30
.LBB5_17:
	movq	%r15, 32(%rsp)
	movl	%r10d, 68(%rsp)
	movzbl	8(%rsi), %r10d
	leal	-48(%r10), %r13d
	movl	%r13d, 72(%rsp)
	cmpb	$10, %r13b
	jb	.LBB5_19
	movl	%r10d, %r13d
	andb	$-33, %r13b
	addb	$-65, %r13b
	cmpb	$5, %r13b
	ja	.LBB5_30
.LBB5_19:
	movq	%r10, 24(%rsp)
	movzbl	9(%rsi), %r10d
	leal	-48(%r10), %r13d
	movl	%r13d, 64(%rsp)
	cmpb	$10, %r13b
	jb	.LBB5_21
	movl	%r10d, %r13d
	andb	$-33, %r13b
	addb	$-65, %r13b
	cmpb	$5, %r13b
	ja	.LBB5_30
.LBB5_21:
	movq	%r10, 16(%rsp)
	movzbl	10(%rsi), %r10d
	leal	-48(%r10), %r13d
	movl	%r13d, 60(%rsp)
	cmpb	$10, %r13b
	jb	.LBB5_23
	movl	%r10d, %r13d
	andb	$-33, %r13b
	addb	$-65, %r13b
	cmpb	$5, %r13b
	ja	.LBB5_30
.LBB5_23:
	movq	%r10, 8(%rsp)
	movzbl	11(%rsi), %r10d
	leal	-48(%r10), %r13d
	cmpb	$10, %r13b
	jb	.LBB5_25
	andb	$-33, %r10b
	addb	$-65, %r10b
	cmpb	$5, %r10b
	ja	.LBB5_30
.LBB5_25:
	movzbl	12(%rsi), %r10d
	leal	-48(%r10), %r13d
	cmpb	$10, %r13b
	jb	.LBB5_27
	andb	$-33, %r10b
	addb	$-65, %r10b
	cmpb	$5, %r10b
	ja	.LBB5_30
.LBB5_27:
	movq	%rdi, 88(%rsp)
	movzbl	13(%rsi), %edi
	leal	-48(%rdi), %r13d
	cmpb	$10, %r13b
	jb	.LBB5_32
	andb	$-33, %dil
	addb	$-65, %dil
	cmpb	$5, %dil
	ja	.LBB5_29
.LBB5_32:
	movzbl	14(%rsi), %edi
	leal	-48(%rdi), %r13d
	cmpb	$10, %r13b
	jb	.LBB5_34
	andb	$-33, %dil
	addb	$-65, %dil
	cmpb	$5, %dil
	jbe	.LBB5_34
.LBB5_29:
	movq	88(%rsp), %rdi
.LBB5_30:
	movb	$1, (%rdi)
	movb	%r14b, 1(%rdi)
	xorps	%xmm0, %xmm0
	movups	%xmm0, 8(%rdi)
	movups	%xmm0, 24(%rdi)
	movups	%xmm0, 40(%rdi)
	movups	%xmm0, 56(%rdi)
	movups	%xmm0, 72(%rdi)
	movups	%xmm0, 88(%rdi)
	movups	%xmm0, 104(%rdi)
	movups	%xmm0, 120(%rdi)
.LBB5_31:
	addq	$488, %rsp
	.cfi_def_cfa_offset 56
	popq	%rbx
	.cfi_def_cfa_offset 48
	popq	%r12
	.cfi_def_cfa_offset 40
	popq	%r13
	.cfi_def_cfa_offset 32
	popq	%r14
	.cfi_def_cfa_offset 24
	popq	%r15
	.cfi_def_cfa_offset 16
	popq	%rbp
	.cfi_def_cfa_offset 8
	retq
.LBB5_34:
	.cfi_def_cfa_offset 544
	movzbl	15(%rsi), %r10d
	leal	-48(%r10), %edi
	cmpb	$10, %dil
	movq	88(%rsp), %rdi
	jb	.LBB5_36
	andb	$-33, %r10b
	addb	$-65, %r10b
	cmpb	$6, %r10b
	jae	.LBB5_30
.LBB5_36:
	cmpb	$48, %r8b
	jb	.LBB5_165
	cmpb	$58, %r8b
	jb	.LBB5_44
	cmpb	$65, %r8b
	jb	.LBB5_165
	cmpb	$70, %r8b
	ja	.LBB5_41
	addb	$-55, %r8b
	jmp	.LBB5_43
.LBB5_41:
	leal	-97(%r8), %edx
	cmpb	$5, %dl
	ja	.LBB5_165
	addb	$-87, %r8b
.LBB5_43:
	movl	%r8d, %edx
.LBB5_44:
	cmpb	$48, %bpl
	jb	.LBB5_165
	cmpb	$58, %bpl
	jb	.LBB5_52
	cmpb	$65, %bpl
	jb	.LBB5_165
	cmpb	$70, %bpl
	ja	.LBB5_49
	addb	$-55, %bpl
	jmp	.LBB5_51
.LBB5_49:
	leal	-97(%rbp), %eax
	cmpb	$5, %al
	ja	.LBB5_165
	addb	$-87, %bpl
.LBB5_51:
	movl	%ebp, %eax
.LBB5_52:
	cmpb	$48, %r12b
	jb	.LBB5_165
	cmpb	$58, %r12b
	jb	.LBB5_60
	cmpb	$65, %r12b
	jb	.LBB5_165
	cmpb	$71, %r12b
	jae	.LBB5_56
	addb	$-55, %r12b
	jmp	.LBB5_59
.LBB5_56:
	leal	-97(%r12), %edi
	cmpb	$5, %dil
	ja	.LBB5_165
	addb	$-87, %r12b
.LBB5_59:
	movl	%r12d, %r9d
.LBB5_60:
	cmpb	$48, %r11b
	jb	.LBB5_165
	cmpb	$58, %r11b
	jb	.LBB5_68
	cmpb	$65, %r11b
	jb	.LBB5_165
	cmpb	$71, %r11b
	jae	.LBB5_64
	addb	$-55, %r11b
	jmp	.LBB5_67
.LBB5_64:
	leal	-97(%r11), %ecx
	cmpb	$5, %cl
	ja	.LBB5_165
	addb	$-87, %r11b
.LBB5_67:
	movl	%r11d, %ecx
.LBB5_68:
	cmpb	$48, %bl
	jb	.LBB5_165
	cmpb	$58, %bl
	jb	.LBB5_76
	cmpb	$65, %bl
	jb	.LBB5_165
	cmpb	$71, %bl
	jae	.LBB5_72
	addb	$-55, %bl
	jmp	.LBB5_75
.LBB5_72:
	leal	-97(%rbx), %edi
	cmpb	$5, %dil
	ja	.LBB5_165
	addb	$-87, %bl
.LBB5_75:
	movl	%ebx, %edi
	movl	%edi, 68(%rsp)
.LBB5_76:
	cmpb	$48, 48(%rsp)
	jb	.LBB5_165
	cmpb	$58, 48(%rsp)
	jb	.LBB5_84
	cmpb	$65, 48(%rsp)
	jb	.LBB5_165
	cmpb	$71, 48(%rsp)
	jae	.LBB5_80
	movq	48(%rsp), %rdi
	addb	$-55, %dil
	jmp	.LBB5_83
.LBB5_80:
	movq	48(%rsp), %rdi
	addl	$-97, %edi
	cmpb	$5, %dil
	ja	.LBB5_165
	movq	48(%rsp), %rdi
	addb	$-87, %dil
.LBB5_83:
	movl	%edi, 84(%rsp)
.LBB5_84:
	cmpb	$48, 40(%rsp)
	jb	.LBB5_165
	cmpb	$58, 40(%rsp)
	jb	.LBB5_92
	cmpb	$65, 40(%rsp)
	jb	.LBB5_165
	cmpb	$71, 40(%rsp)
	jae	.LBB5_88
	movq	40(%rsp), %rdi
	addb	$-55, %dil
	jmp	.LBB5_91
.LBB5_88:
	movq	40(%rsp), %rdi
	addl	$-97, %edi
	cmpb	$5, %dil
	ja	.LBB5_165
	movq	40(%rsp), %rdi
	addb	$-87, %dil
.LBB5_91:
	movl	%edi, 80(%rsp)
.LBB5_92:
	cmpb	$48, 32(%rsp)
	jb	.LBB5_165
	cmpb	$58, 32(%rsp)
	jb	.LBB5_100
	cmpb	$65, 32(%rsp)
	jb	.LBB5_165
	cmpb	$71, 32(%rsp)
	jae	.LBB5_96
	movq	32(%rsp), %rdi
	addb	$-55, %dil
	jmp	.LBB5_99
.LBB5_96:
	movq	32(%rsp), %rdi
	addl	$-97, %edi
	cmpb	$5, %dil
	ja	.LBB5_165
	movq	32(%rsp), %rdi
	addb	$-87, %dil
.LBB5_99:
	movl	%edi, 76(%rsp)
.LBB5_100:
	cmpb	$48, 24(%rsp)
	jb	.LBB5_165
	cmpb	$58, 24(%rsp)
	jb	.LBB5_108
	cmpb	$65, 24(%rsp)
	jb	.LBB5_165
	cmpb	$71, 24(%rsp)
	jae	.LBB5_104
	movq	24(%rsp), %rdi
	addb	$-55, %dil
	jmp	.LBB5_107
.LBB5_104:
	movq	24(%rsp), %rdi
	addl	$-97, %edi
	cmpb	$5, %dil
	ja	.LBB5_165
	movq	24(%rsp), %rdi
	addb	$-87, %dil
.LBB5_107:
	movl	%edi, 72(%rsp)
.LBB5_108:
	cmpb	$48, 16(%rsp)
	jb	.LBB5_165
	cmpb	$58, 16(%rsp)
	jb	.LBB5_116
	cmpb	$65, 16(%rsp)
	jb	.LBB5_165
	cmpb	$71, 16(%rsp)
	jae	.LBB5_112
	movq	16(%rsp), %rdi
	addb	$-55, %dil
	jmp	.LBB5_115
.LBB5_112:
	movq	16(%rsp), %rdi
	addl	$-97, %edi
	cmpb	$5, %dil
	ja	.LBB5_165
	movq	16(%rsp), %rdi
	addb	$-87, %dil
.LBB5_115:
	movl	%edi, 64(%rsp)
.LBB5_116:
	cmpb	$48, 8(%rsp)
	jb	.LBB5_165
	movzbl	11(%rsi), %edi
	cmpb	$58, 8(%rsp)
	jb	.LBB5_124
	cmpb	$65, 8(%rsp)
	jb	.LBB5_165
	cmpb	$71, 8(%rsp)
	jae	.LBB5_120
	movq	8(%rsp), %r8
	addb	$-55, %r8b
	jmp	.LBB5_123
.LBB5_120:
	movq	8(%rsp), %r8
	addl	$-97, %r8d
	cmpb	$5, %r8b
	ja	.LBB5_165
	movq	8(%rsp), %r8
	addb	$-87, %r8b
.LBB5_123:
	movl	%r8d, 60(%rsp)
.LBB5_124:
	cmpb	$48, %dil
	jb	.LBB5_165
	cmpb	$58, %dil
	jae	.LBB5_126
	addb	$-48, %dil
	jmp	.LBB5_132
.LBB5_126:
	cmpb	$65, %dil
	jb	.LBB5_165
	cmpb	$71, %dil
	jae	.LBB5_128
	addb	$-55, %dil
	jmp	.LBB5_132
.LBB5_128:
	leal	-97(%rdi), %r8d
	cmpb	$5, %r8b
	ja	.LBB5_165
	addb	$-87, %dil
.LBB5_132:
	movzbl	12(%rsi), %r11d
	cmpb	$48, %r11b
	jb	.LBB5_165
	movzbl	13(%rsi), %r8d
	cmpb	$58, %r11b
	jae	.LBB5_134
	addb	$-48, %r11b
	jmp	.LBB5_140
.LBB5_134:
	cmpb	$65, %r11b
	jb	.LBB5_165
	cmpb	$71, %r11b
	jae	.LBB5_136
	addb	$-55, %r11b
	jmp	.LBB5_140
.LBB5_136:
	leal	-97(%r11), %ebx
	cmpb	$5, %bl
	ja	.LBB5_165
	addb	$-87, %r11b
.LBB5_140:
	cmpb	$48, %r8b
	jb	.LBB5_165
	cmpb	$58, %r8b
	jae	.LBB5_142
	addb	$-48, %r8b
	jmp	.LBB5_148
.LBB5_142:
	cmpb	$65, %r8b
	jb	.LBB5_165
	cmpb	$71, %r8b
	jae	.LBB5_144
	addb	$-55, %r8b
	jmp	.LBB5_148
.LBB5_144:
	leal	-97(%r8), %ebx
	cmpb	$5, %bl
	ja	.LBB5_165
	addb	$-87, %r8b
.LBB5_148:
	movzbl	14(%rsi), %ebx
	cmpb	$48, %bl
	jb	.LBB5_165
	movzbl	15(%rsi), %esi
	cmpb	$58, %bl
	jae	.LBB5_150
	addb	$-48, %bl
	jmp	.LBB5_156
.LBB5_150:
	cmpb	$65, %bl
	jb	.LBB5_165
	cmpb	$71, %bl
	jae	.LBB5_152
	addb	$-55, %bl
	jmp	.LBB5_156
.LBB5_152:
	leal	-97(%rbx), %ebp
	cmpb	$5, %bpl
	ja	.LBB5_165
	addb	$-87, %bl
.LBB5_156:
	cmpb	$48, %sil
	jb	.LBB5_165
	cmpb	$58, %sil
	jae	.LBB5_158
	addb	$-48, %sil
	jmp	.LBB5_164
.LBB5_158:
	cmpb	$65, %sil
	jb	.LBB5_165
	cmpb	$71, %sil
	jae	.LBB5_160
	addb	$-55, %sil
	jmp	.LBB5_164
.LBB5_160:
	leal	-97(%rsi), %ebp
	cmpb	$5, %bpl
	ja	.LBB5_165
	addb	$-87, %sil
.LBB5_164:
	shlb	$4, %dl
	addb	%dl, %al
	shlb	$4, %r9b
	addb	%r9b, %cl
	movl	68(%rsp), %edx
	shlb	$4, %dl
	movl	84(%rsp), %r9d
	addb	%dl, %r9b
	movl	80(%rsp), %edx
	shlb	$4, %dl
	movl	76(%rsp), %r10d
	addb	%dl, %r10b
	movl	72(%rsp), %edx
	shlb	$4, %dl
	movl	64(%rsp), %ebp
	addb	%dl, %bpl
	movl	60(%rsp), %edx
	shlb	$4, %dl
	addb	%dl, %dil
	shlb	$4, %r11b
	addb	%r11b, %r8b
	shlb	$4, %bl
	addb	%sil, %bl
	movzbl	%bl, %edx
	shlq	$56, %rdx
	movzbl	%r8b, %esi
	shlq	$48, %rsi
	orq	%rdx, %rsi
	movzbl	%dil, %edx
	shlq	$40, %rdx
	orq	%rsi, %rdx
	movzbl	%bpl, %esi
	shlq	$32, %rsi
	orq	%rdx, %rsi
	movzbl	%r10b, %edx
	shll	$24, %edx
	orq	%rsi, %rdx
	movzbl	%r9b, %esi
	shll	$16, %esi
	orq	%rdx, %rsi
	movzbl	%cl, %ecx
	shll	$8, %ecx
	orq	%rsi, %rcx
	movzbl	%al, %esi
	orq	%rcx, %rsi
	xorps	%xmm0, %xmm0
	movaps	%xmm0, 208(%rsp)
	movaps	%xmm0, 192(%rsp)
	movaps	%xmm0, 176(%rsp)
	movaps	%xmm0, 160(%rsp)
	movaps	%xmm0, 144(%rsp)
	movaps	%xmm0, 128(%rsp)
	movaps	%xmm0, 112(%rsp)
	movaps	%xmm0, 96(%rsp)
	leaq	96(%rsp), %rdi
	callq	"des::des::DesKeyInit::new"
	movaps	208(%rsp), %xmm0
	movups	%xmm0, 472(%rsp)
	movaps	192(%rsp), %xmm1
	movups	%xmm1, 456(%rsp)
	movaps	176(%rsp), %xmm2
	movups	%xmm2, 440(%rsp)
	movaps	160(%rsp), %xmm3
	movups	%xmm3, 424(%rsp)
	movaps	96(%rsp), %xmm4
	movaps	112(%rsp), %xmm5
	movaps	128(%rsp), %xmm6
	movaps	144(%rsp), %xmm7
	movups	%xmm7, 408(%rsp)
	movups	%xmm4, 360(%rsp)
	movaps	%xmm4, 224(%rsp)
	movaps	%xmm5, 240(%rsp)
	movaps	%xmm6, 256(%rsp)
	movaps	%xmm7, 272(%rsp)
	movaps	%xmm3, 288(%rsp)
	movaps	%xmm2, 304(%rsp)
	movaps	%xmm1, 320(%rsp)
	movaps	%xmm0, 336(%rsp)
	movq	88(%rsp), %rax
	movw	$0, (%rax)
	movaps	224(%rsp), %xmm0
	movaps	240(%rsp), %xmm1
	movaps	256(%rsp), %xmm2
	movaps	272(%rsp), %xmm3
	movups	%xmm0, 8(%rax)
	movups	%xmm1, 24(%rax)
	movups	%xmm2, 40(%rax)
	movups	%xmm3, 56(%rax)
	movaps	288(%rsp), %xmm0
	movups	%xmm0, 72(%rax)
	movaps	304(%rsp), %xmm0
	movups	%xmm0, 88(%rax)
	movaps	320(%rsp), %xmm0
	movups	%xmm0, 104(%rax)
	movaps	336(%rsp), %xmm0
	movups	%xmm0, 120(%rax)
	jmp	.LBB5_31
.LBB5_165:
	ud2
.Lfunc_end5:
	.size	"des_tool::command::digits::parse_cipher_key::<#c792690d620903dd>", .Lfunc_end5-"des_tool::command::digits::parse_cipher_key::<#c792690d620903dd>"
	.cfi_endproc

	.section	".text.des::des::DesKeyInit::new","ax",@progbits
	.p2align	4
	.type	"des::des::DesKeyInit::new",@function
"des::des::DesKeyInit::new":
	.cfi_startproc
	pushq	%r15
	.cfi_def_cfa_offset 16
	pushq	%r14
	.cfi_def_cfa_offset 24
	pushq	%r12
	.cfi_def_cfa_offset 32
	pushq	%rbx
	.cfi_def_cfa_offset 40
	subq	$136, %rsp
	.cfi_def_cfa_offset 176
	.cfi_offset %rbx, -40
	.cfi_offset %r12, -32
	.cfi_offset %r14, -24
	.cfi_offset %r15, -16
	movabsq	$549755814081, %r8
	movl	$2485125633, %r9d
	bswapq	%rsi
	movq	%rsi, %rax
	shrq	$2, %rax
	xorq	%rsi, %rax
	movabsq	$3689292520605548544, %rcx
	andq	%rax, %rcx
	xorq	%rcx, %rsi
	shlq	$2, %rcx
	xorq	%rsi, %rcx
	movq	%rcx, %rax
	shrq	$4, %rax
	xorq	%rcx, %rax
	movabsq	$1085102592318504960, %rdx
	andq	%rax, %rdx
	xorq	%rdx, %rcx
	shlq	$4, %rdx
	xorq	%rcx, %rdx
	movq	%rdx, %rax
	shrq	$8, %rax
	xorq	%rdx, %rax
	movabsq	$43347189373730984, %rcx
	andq	%rax, %rcx
	xorq	%rcx, %rdx
	shlq	$8, %rcx
	xorq	%rdx, %rcx
	movq	%rcx, %rax
	shrq	$16, %rax
	xorq	%rcx, %rax
	movabsq	$119211112320204, %rdx
	andq	%rax, %rdx
	xorq	%rdx, %rcx
	shlq	$16, %rdx
	xorq	%rcx, %rdx
	movq	%rdx, %rax
	shrq	%rax
	xorq	%rdx, %rax
	movabsq	$1172431260410512720, %rcx
	andq	%rax, %rcx
	xorq	%rcx, %rdx
	addq	%rcx, %rcx
	xorq	%rdx, %rcx
	movq	%rcx, %rax
	shrq	$32, %rax
	xorl	%ecx, %eax
	andl	$-252643846, %eax
	xorq	%rax, %rcx
	shlq	$32, %rax
	xorq	%rcx, %rax
	movq	%rax, %rcx
	shrq	$8, %rcx
	xorq	%rax, %rcx
	movabsq	$23925738099572906, %rdx
	andq	%rcx, %rdx
	xorq	%rdx, %rax
	shlq	$8, %rdx
	xorq	%rax, %rdx
	movq	%rdx, %rax
	shrq	$2, %rax
	xorq	%rdx, %rax
	movabsq	$56294941655808, %rsi
	andq	%rax, %rsi
	andq	$-256, %rdx
	xorq	%rsi, %rdx
	shlq	$2, %rsi
	xorq	%rdx, %rsi
	movq	%rsi, %r10
	shrq	$36, %r10
	shrq	$8, %rsi
	andl	$268435455, %esi
	xorps	%xmm0, %xmm0
	movaps	%xmm0, -16(%rsp)
	movaps	%xmm0, -32(%rsp)
	movaps	%xmm0, -48(%rsp)
	movaps	%xmm0, -64(%rsp)
	movaps	%xmm0, -80(%rsp)
	movaps	%xmm0, -96(%rsp)
	movaps	%xmm0, -112(%rsp)
	movaps	%xmm0, -128(%rsp)
	xorl	%r11d, %r11d
	.p2align	4
.LBB6_1:
	leaq	.Lstatic.11(%rip), %rax
	movzbl	(%r11,%rax), %eax
	movq	%r10, %rbx
	movl	%eax, %ecx
	shlq	%cl, %rbx
	movb	$28, %dl
	subb	%al, %dl
	movl	%edx, %ecx
	shrq	%cl, %r10
	andl	$268435455, %ebx
	orq	%rbx, %r10
	movq	%rsi, %rbx
	movl	%eax, %ecx
	shlq	%cl, %rbx
	andl	$268435455, %ebx
	movl	%edx, %ecx
	shrq	%cl, %rsi
	orq	%rbx, %rsi
	movq	%r10, %rax
	shlq	$36, %rax
	movq	%rsi, %rbx
	shlq	$8, %rbx
	addq	%rax, %rbx
	movq	%rbx, %rcx
	shrq	$3, %rcx
	movq	%rbx, %rax
	shrq	$10, %rax
	movabsq	$72567767695360, %rdx
	andq	%rax, %rdx
	movq	%rbx, %rax
	shrq	$2, %rax
	movabsq	$4507998211801088, %r14
	andq	%rax, %r14
	movabsq	$598134325510144, %r15
	andq	%rcx, %r15
	movq	%rsi, %r12
	shlq	$24, %r12
	leaq	16777023(%r8), %rax
	andq	%r12, %rax
	orq	%r15, %rax
	orq	%r14, %rax
	orq	%rdx, %rax
	movq	%rbx, %rdx
	shrq	$13, %rdx
	movabsq	$1461405572136977, %r14
	andq	%rdx, %r14
	imulq	%r9, %r14
	movabsq	$-1567235041631666176, %rdx
	andq	%r14, %rdx
	movq	%rbx, %r14
	rolq	$4, %r14
	movabsq	$9588840905908225, %r15
	andq	%r14, %r15
	movabsq	$281474983067654, %r12
	imulq	%r15, %r12
	movabsq	$1262415562605068288, %r14
	andq	%r12, %r14
	rolq	$3, %rbx
	movabsq	$90161029316610, %r15
	andq	%rbx, %r15
	imulq	%r8, %r15
	movabsq	$11400904789983232, %rbx
	andq	%r15, %rbx
	movabsq	$72057614439092480, %r15
	andq	%rcx, %r15
	imulq	$17028, %r15, %r15
	movabsq	$288239319418667008, %rcx
	andq	%r15, %rcx
	orq	%rbx, %rcx
	leal	(%rsi,%rsi), %ebx
	andl	$8520320, %ebx
	imulq	$561153, %rbx, %rbx
	leaq	2087190015(%r9), %r15
	andq	%rbx, %r15
	movl	%esi, %ebx
	shrl	$10, %ebx
	andl	$147588, %ebx
	imull	$33816581, %ebx, %ebx
	andl	$167968768, %ebx
	orq	%r15, %rbx
	orq	%rax, %rbx
	orq	%rdx, %rbx
	orq	%r14, %rbx
	orq	%rcx, %rbx
	movq	%rbx, -128(%rsp,%r11,8)
	incq	%r11
	cmpq	$16, %r11
	jne	.LBB6_1
	movaps	-16(%rsp), %xmm0
	movaps	%xmm0, 112(%rsp)
	movaps	-32(%rsp), %xmm1
	movaps	%xmm1, 96(%rsp)
	movaps	-48(%rsp), %xmm2
	movaps	%xmm2, 80(%rsp)
	movaps	-64(%rsp), %xmm3
	movaps	%xmm3, 64(%rsp)
	movaps	-128(%rsp), %xmm4
	movaps	-112(%rsp), %xmm5
	movaps	-96(%rsp), %xmm6
	movaps	-80(%rsp), %xmm7
	movaps	%xmm7, 48(%rsp)
	movaps	%xmm6, 32(%rsp)
	movaps	%xmm5, 16(%rsp)
	movaps	%xmm4, (%rsp)
	movups	%xmm0, 112(%rdi)
	movups	%xmm1, 96(%rdi)
	movups	%xmm2, 80(%rdi)
	movups	%xmm3, 64(%rdi)
	movups	%xmm7, 48(%rdi)
	movups	%xmm6, 32(%rdi)
	movups	%xmm5, 16(%rdi)
	movups	%xmm4, (%rdi)
	addq	$136, %rsp
	.cfi_def_cfa_offset 40
	popq	%rbx
	.cfi_def_cfa_offset 32
	popq	%r12
	.cfi_def_cfa_offset 24
	popq	%r14
	.cfi_def_cfa_offset 16
	popq	%r15
	.cfi_def_cfa_offset 8
	retq
.Lfunc_end6:
	.size	"des::des::DesKeyInit::new", .Lfunc_end6-"des::des::DesKeyInit::new"
	.cfi_endproc

	.section	".text.des_tool::command::digits::parse_blocks","ax",@progbits
	.p2align	4
	.type	"des_tool::command::digits::parse_blocks",@function
"des_tool::command::digits::parse_blocks":
	.cfi_startproc
	pushq	%rbp
	.cfi_def_cfa_offset 16
	pushq	%r15
	.cfi_def_cfa_offset 24
	pushq	%r14
	.cfi_def_cfa_offset 32
	pushq	%r13
	.cfi_def_cfa_offset 40
	pushq	%r12
	.cfi_def_cfa_offset 48
	pushq	%rbx
	.cfi_def_cfa_offset 56
	subq	$136, %rsp
	.cfi_def_cfa_offset 192
	.cfi_offset %rbx, -56
	.cfi_offset %r12, -48
	.cfi_offset %r13, -40
	.cfi_offset %r14, -32
	.cfi_offset %r15, -24
	.cfi_offset %rbp, -16
	xorps	%xmm0, %xmm0
	movaps	%xmm0, 48(%rsp)
	movq	$0, 64(%rsp)
	testb	$15, %dl
	je	.LBB7_2
	movw	$769, (%rdi)
	jmp	.LBB7_7
.LBB7_2:
	xorl	%eax, %eax
	.p2align	4
.LBB7_3:
	cmpq	%rax, %rdx
	je	.LBB7_9
	movzbl	(%rsi,%rax), %ecx
	leal	-48(%rcx), %r8d
	incq	%rax
	cmpb	$10, %r8b
	jb	.LBB7_3
	andb	$-33, %cl
	addb	$-65, %cl
	cmpb	$6, %cl
	jb	.LBB7_3
	movw	$1025, (%rdi)
	xorps	%xmm0, %xmm0
.LBB7_7:
	movups	%xmm0, 8(%rdi)
	movq	$0, 24(%rdi)
.LBB7_8:
	addq	$136, %rsp
	.cfi_def_cfa_offset 56
	popq	%rbx
	.cfi_def_cfa_offset 48
	popq	%r12
	.cfi_def_cfa_offset 40
	popq	%r13
	.cfi_def_cfa_offset 32
	popq	%r14
	.cfi_def_cfa_offset 24
	popq	%r15
	.cfi_def_cfa_offset 16
	popq	%rbp
	.cfi_def_cfa_offset 8
	retq
.LBB7_9:
	.cfi_def_cfa_offset 192
	movq	%rdx, %rcx
	shrq	$4, %rcx
	testq	%rdx, %rdx
	movq	%rdi, 72(%rsp)
	je	.LBB7_147
	movq	%rcx, %r14
	movq	%rsi, %rbx
	shrq	%rdx
	movl	$1, %esi
	movq	%rdx, %rdi
	callq	rattle_alloc@PLT
	testb	$1, %al
	je	.LBB7_151
	movq	%rdx, %rcx
	movq	%rdx, 48(%rsp)
	movq	$0, 56(%rsp)
	movq	%r14, %rdi
	movq	%r14, 64(%rsp)
	movq	%rbx, %rdx
	addq	$15, %rdx
	xorl	%eax, %eax
	jmp	.LBB7_15
	.p2align	4
.LBB7_12:
	addb	$-48, %bpl
.LBB7_13:
	cmpq	%rax, 64(%rsp)
	je	.LBB7_145
.LBB7_14:
	movq	%rax, 80(%rsp)
	movq	%rcx, 88(%rsp)
	shlb	$4, %r8b
	addb	%r8b, %r10b
	movq	32(%rsp), %rsi
	shlb	$4, %sil
	addb	%sil, %r11b
	shlb	$4, %r9b
	movq	%r9, %rsi
	movq	16(%rsp), %r9
	addb	%sil, %r9b
	movq	24(%rsp), %rsi
	shlb	$4, %sil
	movq	%rdi, %rcx
	movq	8(%rsp), %rdi
	addb	%sil, %dil
	shlb	$4, %r12b
	movq	%r12, %rsi
	movq	%rdx, %r12
	movq	128(%rsp), %rdx
	addb	%sil, %dl
	shlb	$4, %r15b
	movq	(%rsp), %rax
	addb	%r15b, %al
	shlb	$4, %bl
	addb	%bl, %r14b
	shlb	$4, %r13b
	addb	%r13b, %bpl
	movzbl	%bpl, %esi
	shlq	$56, %rsi
	movzbl	%r14b, %r8d
	shlq	$48, %r8
	orq	%rsi, %r8
	movzbl	%al, %esi
	shlq	$40, %rsi
	orq	%r8, %rsi
	movzbl	%dl, %r8d
	movq	%r12, %rdx
	shlq	$32, %r8
	orq	%rsi, %r8
	movzbl	%dil, %esi
	movq	%rcx, %rdi
	movq	80(%rsp), %rax
	shll	$24, %esi
	orq	%r8, %rsi
	movzbl	%r9b, %r8d
	movq	88(%rsp), %rcx
	shll	$16, %r8d
	orq	%rsi, %r8
	movzbl	%r11b, %esi
	shll	$8, %esi
	orq	%r8, %rsi
	movzbl	%r10b, %r8d
	orq	%rsi, %r8
	movq	%r8, (%rcx,%rax,8)
	incq	%rax
	movq	%rax, 56(%rsp)
	addq	$16, %rdx
	decq	%rdi
	je	.LBB7_148
.LBB7_15:
	movzbl	-15(%rdx), %r8d
	cmpb	$48, %r8b
	jb	.LBB7_152
	movzbl	-14(%rdx), %r10d
	cmpb	$57, %r8b
	ja	.LBB7_18
	addb	$-48, %r8b
	jmp	.LBB7_23
	.p2align	4
.LBB7_18:
	cmpb	$65, %r8b
	jb	.LBB7_152
	cmpb	$70, %r8b
	ja	.LBB7_21
	addb	$-55, %r8b
	jmp	.LBB7_23
	.p2align	4
.LBB7_21:
	leal	-97(%r8), %esi
	cmpb	$5, %sil
	ja	.LBB7_152
	addb	$-87, %r8b
.LBB7_23:
	cmpb	$48, %r10b
	jb	.LBB7_152
	cmpb	$57, %r10b
	ja	.LBB7_26
	addb	$-48, %r10b
	jmp	.LBB7_31
	.p2align	4
.LBB7_26:
	cmpb	$65, %r10b
	jb	.LBB7_152
	cmpb	$70, %r10b
	ja	.LBB7_29
	addb	$-55, %r10b
	jmp	.LBB7_31
	.p2align	4
.LBB7_29:
	leal	-97(%r10), %esi
	cmpb	$5, %sil
	ja	.LBB7_152
	addb	$-87, %r10b
.LBB7_31:
	movzbl	-13(%rdx), %esi
	movq	%rsi, 32(%rsp)
	cmpb	$48, %sil
	jb	.LBB7_152
	movzbl	-12(%rdx), %r11d
	movq	32(%rsp), %rsi
	cmpb	$58, %sil
	jae	.LBB7_34
	addb	$-48, %sil
	jmp	.LBB7_39
	.p2align	4
.LBB7_34:
	cmpb	$65, %sil
	jb	.LBB7_152
	movq	32(%rsp), %rsi
	cmpb	$71, %sil
	jae	.LBB7_37
	addb	$-55, %sil
	jmp	.LBB7_39
	.p2align	4
.LBB7_37:
	addl	$-97, %esi
	cmpb	$5, %sil
	ja	.LBB7_152
	movq	32(%rsp), %rsi
	addb	$-87, %sil
.LBB7_39:
	movq	%rsi, 32(%rsp)
	cmpb	$48, %r11b
	jb	.LBB7_152
	cmpb	$58, %r11b
	jae	.LBB7_42
	addb	$-48, %r11b
	jmp	.LBB7_47
	.p2align	4
.LBB7_42:
	cmpb	$65, %r11b
	jb	.LBB7_152
	cmpb	$71, %r11b
	jae	.LBB7_45
	addb	$-55, %r11b
	jmp	.LBB7_47
	.p2align	4
.LBB7_45:
	leal	-97(%r11), %esi
	cmpb	$5, %sil
	ja	.LBB7_152
	addb	$-87, %r11b
.LBB7_47:
	movzbl	-11(%rdx), %r9d
	cmpb	$48, %r9b
	jb	.LBB7_152
	movzbl	-10(%rdx), %esi
	cmpb	$58, %r9b
	movq	%rsi, 16(%rsp)
	jae	.LBB7_50
	addb	$-48, %r9b
	jmp	.LBB7_56
	.p2align	4
.LBB7_50:
	cmpb	$65, %r9b
	jb	.LBB7_152
	cmpb	$71, %r9b
	jae	.LBB7_53
	addb	$-55, %r9b
	jmp	.LBB7_55
	.p2align	4
.LBB7_53:
	leal	-97(%r9), %esi
	cmpb	$5, %sil
	ja	.LBB7_152
	addb	$-87, %r9b
.LBB7_55:
	movq	16(%rsp), %rsi
.LBB7_56:
	cmpb	$48, %sil
	jb	.LBB7_152
	movq	16(%rsp), %rsi
	cmpb	$58, %sil
	jae	.LBB7_59
	addb	$-48, %sil
	jmp	.LBB7_64
	.p2align	4
.LBB7_59:
	cmpb	$65, %sil
	jb	.LBB7_152
	movq	16(%rsp), %rsi
	cmpb	$71, %sil
	jae	.LBB7_62
	addb	$-55, %sil
	jmp	.LBB7_64
	.p2align	4
.LBB7_62:
	addl	$-97, %esi
	cmpb	$5, %sil
	ja	.LBB7_152
	movq	16(%rsp), %rsi
	addb	$-87, %sil
.LBB7_64:
	movq	%rsi, 16(%rsp)
	movzbl	-9(%rdx), %esi
	movq	%rsi, 24(%rsp)
	cmpb	$48, %sil
	jb	.LBB7_152
	movzbl	-8(%rdx), %esi
	movq	24(%rsp), %rbx
	cmpb	$58, %bl
	movq	%rsi, 8(%rsp)
	jae	.LBB7_67
	addb	$-48, %bl
	movq	%rbx, 24(%rsp)
	jmp	.LBB7_73
	.p2align	4
.LBB7_67:
	cmpb	$65, %bl
	jb	.LBB7_152
	movq	24(%rsp), %rsi
	cmpb	$71, %sil
	jae	.LBB7_70
	addb	$-55, %sil
	jmp	.LBB7_72
	.p2align	4
.LBB7_70:
	addl	$-97, %esi
	cmpb	$5, %sil
	ja	.LBB7_152
	movq	24(%rsp), %rsi
	addb	$-87, %sil
.LBB7_72:
	movq	%rsi, 24(%rsp)
	movq	8(%rsp), %rsi
.LBB7_73:
	cmpb	$48, %sil
	jb	.LBB7_152
	movq	8(%rsp), %rsi
	cmpb	$58, %sil
	jae	.LBB7_76
	addb	$-48, %sil
	jmp	.LBB7_81
	.p2align	4
.LBB7_76:
	cmpb	$65, %sil
	jb	.LBB7_152
	movq	8(%rsp), %rsi
	cmpb	$71, %sil
	jae	.LBB7_79
	addb	$-55, %sil
	jmp	.LBB7_81
	.p2align	4
.LBB7_79:
	addl	$-97, %esi
	cmpb	$5, %sil
	ja	.LBB7_152
	movq	8(%rsp), %rsi
	addb	$-87, %sil
.LBB7_81:
	movq	%rsi, 8(%rsp)
	movzbl	-7(%rdx), %r12d
	cmpb	$48, %r12b
	jb	.LBB7_152
	movzbl	-6(%rdx), %esi
	cmpb	$58, %r12b
	jae	.LBB7_84
	addb	$-48, %r12b
	jmp	.LBB7_89
	.p2align	4
.LBB7_84:
	cmpb	$65, %r12b
	jb	.LBB7_152
	cmpb	$71, %r12b
	jae	.LBB7_87
	addb	$-55, %r12b
	jmp	.LBB7_89
	.p2align	4
.LBB7_87:
	movq	%rsi, %rbx
	leal	-97(%r12), %esi
	cmpb	$5, %sil
	ja	.LBB7_152
	movq	%rbx, %rsi
	addb	$-87, %r12b
.LBB7_89:
	cmpb	$48, %sil
	jb	.LBB7_152
	cmpb	$58, %sil
	jae	.LBB7_92
	addb	$-48, %sil
	jmp	.LBB7_97
	.p2align	4
.LBB7_92:
	cmpb	$65, %sil
	jb	.LBB7_152
	cmpb	$71, %sil
	jae	.LBB7_95
	addb	$-55, %sil
	jmp	.LBB7_97
	.p2align	4
.LBB7_95:
	movq	%rsi, %rbx
	addl	$-97, %esi
	cmpb	$5, %sil
	ja	.LBB7_152
	movq	%rbx, %rsi
	addb	$-87, %sil
.LBB7_97:
	movzbl	-5(%rdx), %r15d
	cmpb	$48, %r15b
	jb	.LBB7_152
	movzbl	-4(%rdx), %ebx
	cmpb	$58, %r15b
	movq	%rsi, 128(%rsp)
	movq	%rbx, (%rsp)
	jae	.LBB7_100
	addb	$-48, %r15b
	jmp	.LBB7_106
	.p2align	4
.LBB7_100:
	cmpb	$65, %r15b
	jb	.LBB7_152
	cmpb	$71, %r15b
	jae	.LBB7_103
	addb	$-55, %r15b
	jmp	.LBB7_105
	.p2align	4
.LBB7_103:
	leal	-97(%r15), %esi
	cmpb	$5, %sil
	ja	.LBB7_152
	addb	$-87, %r15b
.LBB7_105:
	movq	(%rsp), %rbx
.LBB7_106:
	cmpb	$48, %bl
	jb	.LBB7_152
	movq	(%rsp), %rsi
	cmpb	$58, %sil
	jae	.LBB7_109
	addb	$-48, %sil
	jmp	.LBB7_114
	.p2align	4
.LBB7_109:
	cmpb	$65, %sil
	jb	.LBB7_152
	movq	(%rsp), %rsi
	cmpb	$71, %sil
	jae	.LBB7_112
	addb	$-55, %sil
	jmp	.LBB7_114
	.p2align	4
.LBB7_112:
	addl	$-97, %esi
	cmpb	$5, %sil
	ja	.LBB7_152
	movq	(%rsp), %rsi
	addb	$-87, %sil
.LBB7_114:
	movq	%rsi, (%rsp)
	movzbl	-3(%rdx), %ebx
	cmpb	$48, %bl
	jb	.LBB7_152
	movzbl	-2(%rdx), %r14d
	cmpb	$58, %bl
	jae	.LBB7_117
	addb	$-48, %bl
	jmp	.LBB7_122
	.p2align	4
.LBB7_117:
	cmpb	$65, %bl
	jb	.LBB7_152
	cmpb	$71, %bl
	jae	.LBB7_120
	addb	$-55, %bl
	jmp	.LBB7_122
	.p2align	4
.LBB7_120:
	leal	-97(%rbx), %esi
	cmpb	$5, %sil
	ja	.LBB7_152
	addb	$-87, %bl
.LBB7_122:
	cmpb	$48, %r14b
	jb	.LBB7_152
	cmpb	$58, %r14b
	jae	.LBB7_125
	addb	$-48, %r14b
	jmp	.LBB7_130
	.p2align	4
.LBB7_125:
	cmpb	$65, %r14b
	jb	.LBB7_152
	cmpb	$71, %r14b
	jae	.LBB7_128
	addb	$-55, %r14b
	jmp	.LBB7_130
	.p2align	4
.LBB7_128:
	leal	-97(%r14), %esi
	cmpb	$5, %sil
	ja	.LBB7_152
	addb	$-87, %r14b
.LBB7_130:
	movzbl	-1(%rdx), %r13d
	cmpb	$48, %r13b
	jb	.LBB7_152
	movzbl	(%rdx), %ebp
	cmpb	$58, %r13b
	jae	.LBB7_133
	addb	$-48, %r13b
	jmp	.LBB7_138
	.p2align	4
.LBB7_133:
	cmpb	$65, %r13b
	jb	.LBB7_152
	cmpb	$71, %r13b
	jae	.LBB7_136
	addb	$-55, %r13b
	jmp	.LBB7_138
	.p2align	4
.LBB7_136:
	leal	-97(%r13), %esi
	cmpb	$5, %sil
	ja	.LBB7_152
	addb	$-87, %r13b
.LBB7_138:
	cmpb	$48, %bpl
	jb	.LBB7_152
	cmpb	$58, %bpl
	jb	.LBB7_12
	cmpb	$65, %bpl
	jb	.LBB7_152
	cmpb	$71, %bpl
	jae	.LBB7_143
	addb	$-55, %bpl
	jmp	.LBB7_13
	.p2align	4
.LBB7_143:
	leal	-97(%rbp), %esi
	cmpb	$5, %sil
	ja	.LBB7_152
	addb	$-87, %bpl
	jmp	.LBB7_13
.LBB7_145:
	movq	%r9, 96(%rsp)
	movq	%r11, 104(%rsp)
	movq	%r8, 112(%rsp)
	movq	%r10, 120(%rsp)
	movq	%rdi, 80(%rsp)
	movq	%rdx, 88(%rsp)
	leaq	48(%rsp), %rdi
	callq	"std_alloc::vec::Vec::grow_amortized::<#2c67c5f34a6d6c5d>"
	testb	%al, %al
	je	.LBB7_149
	movq	48(%rsp), %rcx
	movq	56(%rsp), %rax
	movq	88(%rsp), %rdx
	movq	80(%rsp), %rdi
	movq	120(%rsp), %r10
	movq	112(%rsp), %r8
	movq	104(%rsp), %r11
	movq	96(%rsp), %r9
	jmp	.LBB7_14
.LBB7_147:
	leaq	47(%rsp), %rax
	movq	%rax, 48(%rsp)
	movq	%rcx, 64(%rsp)
.LBB7_148:
	movq	72(%rsp), %rcx
	movw	$0, (%rcx)
	movq	48(%rsp), %rax
	movq	%rax, 8(%rcx)
	movq	56(%rsp), %rax
	movq	%rax, 16(%rcx)
	movq	64(%rsp), %rax
	movq	%rax, 24(%rcx)
	jmp	.LBB7_8
.LBB7_149:
	cmpq	$0, 64(%rsp)
	je	.LBB7_151
	movq	48(%rsp), %rdi
	callq	rattle_dealloc@PLT
.LBB7_151:
	movq	72(%rsp), %rax
	movw	$1281, (%rax)
	xorps	%xmm0, %xmm0
	movups	%xmm0, 8(%rax)
	movq	$0, 24(%rax)
	jmp	.LBB7_8
.LBB7_152:
	ud2
.Lfunc_end7:
	.size	"des_tool::command::digits::parse_blocks", .Lfunc_end7-"des_tool::command::digits::parse_blocks"
	.cfi_endproc

	.section	".text.unlikely.std_alloc::vec::Vec::grow_amortized::<#2c67c5f34a6d6c5d>","ax",@progbits
	.p2align	4
	.type	"std_alloc::vec::Vec::grow_amortized::<#2c67c5f34a6d6c5d>",@function
"std_alloc::vec::Vec::grow_amortized::<#2c67c5f34a6d6c5d>":
	.cfi_startproc
	movq	8(%rdi), %rsi
	cmpq	$-1, %rsi
	je	.LBB8_5
	pushq	%r14
	.cfi_def_cfa_offset 16
	pushq	%rbx
	.cfi_def_cfa_offset 24
	pushq	%rax
	.cfi_def_cfa_offset 32
	.cfi_offset %rbx, -24
	.cfi_offset %r14, -16
	movq	16(%rdi), %rcx
	cmpq	$4, %rsi
	movl	$3, %ebx
	cmovaeq	%rsi, %rbx
	incq	%rbx
	movq	%rcx, %rdx
	shrq	$62, %rdx
	leaq	(%rcx,%rcx), %rax
	cmpq	%rax, %rbx
	cmovaq	%rbx, %rax
	testq	%rdx, %rdx
	cmoveq	%rax, %rbx
	movq	%rbx, %rdx
	shrq	$60, %rdx
	jne	.LBB8_6
	testq	%rcx, %rcx
	je	.LBB8_8
	movq	%rdi, %r14
	movq	(%rdi), %rdi
	shlq	$3, %rsi
	leaq	(,%rbx,8), %rdx
	movl	$1, %ecx
	callq	rattle_realloc@PLT
	testb	$1, %al
	je	.LBB8_6
.LBB8_9:
	movq	%rdx, (%r14)
	movq	%rbx, 16(%r14)
	movb	$1, %al
	addq	$8, %rsp
	.cfi_def_cfa_offset 24
	popq	%rbx
	.cfi_def_cfa_offset 16
	popq	%r14
	.cfi_def_cfa_offset 8
	.cfi_restore %rbx
	.cfi_restore %r14
	retq
.LBB8_5:
	xorl	%eax, %eax
	retq
.LBB8_8:
	.cfi_def_cfa_offset 32
	.cfi_offset %rbx, -24
	.cfi_offset %r14, -16
	movq	%rdi, %r14
	shlq	$3, %rax
	movl	$1, %esi
	movq	%rax, %rdi
	callq	rattle_alloc@PLT
	testb	$1, %al
	jne	.LBB8_9
.LBB8_6:
	xorl	%eax, %eax
	addq	$8, %rsp
	.cfi_def_cfa_offset 24
	popq	%rbx
	.cfi_def_cfa_offset 16
	popq	%r14
	.cfi_def_cfa_offset 8
	.cfi_restore %rbx
	.cfi_restore %r14
	retq
.Lfunc_end8:
	.size	"std_alloc::vec::Vec::grow_amortized::<#2c67c5f34a6d6c5d>", .Lfunc_end8-"std_alloc::vec::Vec::grow_amortized::<#2c67c5f34a6d6c5d>"
	.cfi_endproc

	.section	.rodata.cst16,"aM",@progbits,16
	.p2align	4, 0x0
.LCPI9_0:
	.byte	128
	.byte	128
	.byte	5
	.byte	128
	.byte	128
	.byte	128
	.byte	128
	.byte	128
	.byte	128
	.byte	128
	.byte	128
	.byte	12
	.byte	128
	.byte	128
	.byte	128
	.byte	128
.LCPI9_1:
	.byte	128
	.byte	128
	.byte	128
	.byte	128
	.byte	128
	.byte	2
	.byte	128
	.byte	128
	.byte	128
	.byte	128
	.byte	128
	.byte	128
	.byte	128
	.byte	128
	.byte	9
	.byte	128
.LCPI9_2:
	.byte	7
	.byte	128
	.byte	128
	.byte	128
	.byte	128
	.byte	128
	.byte	128
	.byte	128
	.byte	128
	.byte	14
	.byte	128
	.byte	128
	.byte	128
	.byte	128
	.byte	128
	.byte	128
.LCPI9_3:
	.byte	128
	.byte	128
	.byte	128
	.byte	128
	.byte	128
	.byte	128
	.byte	128
	.byte	0
	.byte	128
	.byte	128
	.byte	128
	.byte	128
	.byte	11
	.byte	128
	.byte	128
	.byte	128
	.section	".text.des::des::DesBlockCipherEncrypt::encrypt_block","ax",@progbits
	.p2align	4
	.type	"des::des::DesBlockCipherEncrypt::encrypt_block",@function
"des::des::DesBlockCipherEncrypt::encrypt_block":
	.cfi_startproc
	pushq	%r15
	.cfi_def_cfa_offset 16
	pushq	%r14
	.cfi_def_cfa_offset 24
	pushq	%r13
	.cfi_def_cfa_offset 32
	pushq	%r12
	.cfi_def_cfa_offset 40
	pushq	%rbx
	.cfi_def_cfa_offset 48
	.cfi_offset %rbx, -48
	.cfi_offset %r12, -40
	.cfi_offset %r13, -32
	.cfi_offset %r14, -24
	.cfi_offset %r15, -16
	movq	%rsi, %rbx
	movq	%rdi, %r14
	movq	(%rsi), %rax
	bswapq	%rax
	movq	%rax, %rcx
	shrq	$9, %rcx
	xorq	%rax, %rcx
	movabsq	$23925738098196565, %r15
	andq	%r15, %rcx
	xorq	%rcx, %rax
	shlq	$9, %rcx
	xorq	%rax, %rcx
	movq	%rcx, %rdx
	shrq	$18, %rdx
	xorq	%rcx, %rdx
	movabsq	$56294136361779, %r12
	andq	%r12, %rdx
	xorq	%rdx, %rcx
	shlq	$18, %rdx
	xorq	%rcx, %rdx
	movq	%rdx, %rcx
	shrq	$36, %rcx
	xorl	%edx, %ecx
	andl	$252645135, %ecx
	movq	%rcx, %rax
	shlq	$36, %rax
	xorq	%rdx, %rax
	xorq	%rax, %rcx
	shrq	$24, %rax
	xorl	%ecx, %eax
	andl	$-16711936, %eax
	movq	%rax, %rdx
	shlq	$24, %rdx
	xorq	%rcx, %rdx
	xorq	%rdx, %rax
	movq	%rax, %rdi
	shrq	$24, %rdi
	xorq	%rdx, %rdi
	movabsq	$1095216660735, %r13
	andq	%r13, %rdi
	xorq	%rdi, %rax
	shlq	$24, %rdi
	xorq	%rax, %rdi
	movq	(%r14), %rsi
	callq	"des::utils::round"
	movq	8(%r14), %rsi
	movq	%rax, %rdi
	callq	"des::utils::round"
	movq	16(%r14), %rsi
	movq	%rax, %rdi
	callq	"des::utils::round"
	movq	24(%r14), %rsi
	movq	%rax, %rdi
	callq	"des::utils::round"
	movq	32(%r14), %rsi
	movq	%rax, %rdi
	callq	"des::utils::round"
	movq	40(%r14), %rsi
	movq	%rax, %rdi
	callq	"des::utils::round"
	movq	48(%r14), %rsi
	movq	%rax, %rdi
	callq	"des::utils::round"
	movq	56(%r14), %rsi
	movq	%rax, %rdi
	callq	"des::utils::round"
	movq	64(%r14), %rsi
	movq	%rax, %rdi
	callq	"des::utils::round"
	movq	72(%r14), %rsi
	movq	%rax, %rdi
	callq	"des::utils::round"
	movq	80(%r14), %rsi
	movq	%rax, %rdi
	callq	"des::utils::round"
	movq	88(%r14), %rsi
	movq	%rax, %rdi
	callq	"des::utils::round"
	movq	96(%r14), %rsi
	movq	%rax, %rdi
	callq	"des::utils::round"
	movq	104(%r14), %rsi
	movq	%rax, %rdi
	callq	"des::utils::round"
	movq	112(%r14), %rsi
	movq	%rax, %rdi
	callq	"des::utils::round"
	movq	120(%r14), %rsi
	movq	%rax, %rdi
	callq	"des::utils::round"
	rolq	$32, %rax
	movq	%rax, %rdx
	shrq	$24, %rdx
	xorq	%rax, %rdx
	andq	%r13, %rdx
	movq	%rdx, %rcx
	shlq	$24, %rcx
	xorq	%rax, %rcx
	xorq	%rcx, %rdx
	movq	%rdx, %rax
	shrq	$24, %rax
	xorl	%eax, %ecx
	andl	$-16711936, %ecx
	movq	%rcx, %rax
	shlq	$24, %rax
	xorq	%rdx, %rax
	xorq	%rax, %rcx
	shrq	$36, %rax
	xorl	%ecx, %eax
	andl	$252645135, %eax
	xorq	%rax, %rcx
	shlq	$36, %rax
	xorq	%rcx, %rax
	movq	%rax, %rcx
	shrq	$18, %rcx
	xorq	%rax, %rcx
	andq	%r12, %rcx
	xorq	%rcx, %rax
	shlq	$18, %rcx
	xorq	%rax, %rcx
	movq	%rcx, %rax
	shrq	$9, %rax
	xorq	%rcx, %rax
	andq	%r15, %rax
	movq	%rax, %rdx
	shlq	$9, %rdx
	xorq	%rcx, %rdx
	xorq	%rdx, %rax
	movq	%rax, %xmm0
	movq	%rdx, %xmm1
	movdqa	%xmm0, %xmm2
	punpcklqdq	%xmm1, %xmm2
	punpcklqdq	%xmm0, %xmm1
	movdqa	%xmm1, %xmm0
	pshufb	.LCPI9_0(%rip), %xmm0
	movdqa	%xmm2, %xmm3
	pshufb	.LCPI9_1(%rip), %xmm3
	pshufb	.LCPI9_2(%rip), %xmm1
	por	%xmm0, %xmm3
	pshufb	.LCPI9_3(%rip), %xmm2
	por	%xmm1, %xmm2
	por	%xmm3, %xmm2
	pshufd	$238, %xmm2, %xmm0
	por	%xmm2, %xmm0
	movq	%xmm0, (%rbx)
	popq	%rbx
	.cfi_def_cfa_offset 40
	popq	%r12
	.cfi_def_cfa_offset 32
	popq	%r13
	.cfi_def_cfa_offset 24
	popq	%r14
	.cfi_def_cfa_offset 16
	popq	%r15
	.cfi_def_cfa_offset 8
	retq
.Lfunc_end9:
	.size	"des::des::DesBlockCipherEncrypt::encrypt_block", .Lfunc_end9-"des::des::DesBlockCipherEncrypt::encrypt_block"
	.cfi_endproc

	.section	".text.des::utils::round","ax",@progbits
	.p2align	4
	.type	"des::utils::round",@function
"des::utils::round":
	.cfi_startproc
	pushq	%r14
	.cfi_def_cfa_offset 16
	pushq	%rbx
	.cfi_def_cfa_offset 24
	.cfi_offset %rbx, -24
	.cfi_offset %r14, -16
	movq	%rdi, %rax
	shlq	$63, %rax
	movl	%edi, %ecx
	andl	$-134217728, %ecx
	shlq	$31, %rcx
	orq	%rax, %rcx
	movl	%edi, %eax
	andl	$528482304, %eax
	shlq	$29, %rax
	orq	%rcx, %rax
	movl	%edi, %ecx
	andl	$33030144, %ecx
	shlq	$27, %rcx
	orq	%rax, %rcx
	movl	%edi, %eax
	andl	$2064384, %eax
	shlq	$25, %rax
	orq	%rcx, %rax
	movl	%edi, %ecx
	andl	$129024, %ecx
	shlq	$23, %rcx
	orq	%rax, %rcx
	movl	%edi, %eax
	andl	$8064, %eax
	shlq	$21, %rax
	orq	%rcx, %rax
	movl	%edi, %ecx
	shll	$19, %ecx
	andl	$264241152, %ecx
	movl	%edi, %r8d
	andl	$31, %r8d
	shll	$17, %r8d
	orl	%ecx, %r8d
	movl	%edi, %edx
	shrl	$15, %edx
	andl	$65536, %edx
	orl	%r8d, %edx
	orq	%rax, %rdx
	xorq	%rsi, %rdx
	movq	%rdx, %rax
	shrq	$58, %rax
	leaq	.Lstatic.12(%rip), %rsi
	movzbl	(%rax,%rsi), %eax
	movq	%rdx, %rcx
	shrq	$52, %rcx
	andl	$63, %ecx
	movzbl	64(%rcx,%rsi), %ecx
	movq	%rdx, %r8
	shrq	$46, %r8
	andl	$63, %r8d
	shll	$8, %eax
	shll	$4, %ecx
	movzbl	128(%r8,%rsi), %r8d
	orl	%eax, %r8d
	orl	%ecx, %r8d
	movq	%rdx, %rax
	shrq	$40, %rax
	andl	$63, %eax
	movzbl	192(%rax,%rsi), %r9d
	movq	%rdx, %rax
	shrq	$34, %rax
	andl	$63, %eax
	movzbl	256(%rax,%rsi), %ecx
	movq	%rdx, %rax
	shrq	$28, %rax
	andl	$63, %eax
	movzbl	320(%rax,%rsi), %eax
	movl	%edx, %r10d
	shrl	$22, %r10d
	andl	$63, %r10d
	shll	$16, %r8d
	shll	$12, %r9d
	shll	$8, %ecx
	orl	%r9d, %ecx
	orl	%r8d, %ecx
	shll	$4, %eax
	orl	%ecx, %eax
	movzbl	384(%r10,%rsi), %r9d
	orq	%rax, %r9
	shrl	$16, %edx
	andl	$63, %edx
	movzbl	448(%rdx,%rsi), %esi
	movq	%r9, %rdx
	shlq	$36, %rdx
	shlq	$32, %rsi
	orq	%rdx, %rsi
	movq	%rsi, %rdx
	shrq	$20, %rdx
	movl	%r9d, %r11d
	andl	$32, %r11d
	shlq	$48, %r11
	movq	%rsi, %r10
	shrq	$7, %r10
	movabsq	$38654705664, %r8
	andq	%r8, %r10
	andl	$142606336, %ecx
	shlq	$28, %rcx
	movq	%rsi, %rbx
	shlq	$5, %rbx
	movabsq	$4629739999355469824, %r14
	andq	%rbx, %r14
	movl	%eax, %ebx
	andl	$279040, %ebx
	shlq	$30, %rbx
	andl	$384, %r9d
	shlq	$53, %r9
	andl	$1024, %eax
	shlq	$40, %rax
	orq	%r11, %rax
	orq	%r9, %rax
	orq	%rcx, %rax
	orq	%rbx, %rax
	orq	%r10, %rax
	orq	%r14, %rax
	movabsq	$2209760759808, %rcx
	andq	%rdx, %rcx
	movabsq	$2201179127939, %r9
	imulq	%rcx, %r9
	movabsq	$144126612688863232, %rcx
	andq	%r9, %rcx
	orq	%rax, %rcx
	rolq	$9, %rsi
	movabsq	$72079584270483626, %rax
	andq	%rsi, %rax
	movabsq	$36292742119553, %rsi
	imulq	%rax, %rsi
	movabsq	$649292479836717056, %r9
	andq	%rsi, %r9
	orq	%rcx, %r9
	orq	$268697600, %r8
	andq	%rdx, %r8
	movabsq	$51606716448, %rcx
	imulq	%r8, %rcx
	movabsq	$-8930636961564065792, %rax
	andq	%rcx, %rax
	orq	%r9, %rax
	xorq	%rdi, %rax
	shrdq	$32, %rdi, %rax
	popq	%rbx
	.cfi_def_cfa_offset 16
	popq	%r14
	.cfi_def_cfa_offset 8
	retq
.Lfunc_end10:
	.size	"des::utils::round", .Lfunc_end10-"des::utils::round"
	.cfi_endproc

	.section	.rodata.cst16,"aM",@progbits,16
	.p2align	4, 0x0
.LCPI11_0:
	.byte	128
	.byte	128
	.byte	5
	.byte	128
	.byte	128
	.byte	128
	.byte	128
	.byte	128
	.byte	128
	.byte	128
	.byte	128
	.byte	12
	.byte	128
	.byte	128
	.byte	128
	.byte	128
.LCPI11_1:
	.byte	128
	.byte	128
	.byte	128
	.byte	128
	.byte	128
	.byte	2
	.byte	128
	.byte	128
	.byte	128
	.byte	128
	.byte	128
	.byte	128
	.byte	128
	.byte	128
	.byte	9
	.byte	128
.LCPI11_2:
	.byte	7
	.byte	128
	.byte	128
	.byte	128
	.byte	128
	.byte	128
	.byte	128
	.byte	128
	.byte	128
	.byte	14
	.byte	128
	.byte	128
	.byte	128
	.byte	128
	.byte	128
	.byte	128
.LCPI11_3:
	.byte	128
	.byte	128
	.byte	128
	.byte	128
	.byte	128
	.byte	128
	.byte	128
	.byte	0
	.byte	128
	.byte	128
	.byte	128
	.byte	128
	.byte	11
	.byte	128
	.byte	128
	.byte	128
	.section	".text.des::des::DesBlockCipherDecrypt::decrypt_block","ax",@progbits
	.p2align	4
	.type	"des::des::DesBlockCipherDecrypt::decrypt_block",@function
"des::des::DesBlockCipherDecrypt::decrypt_block":
	.cfi_startproc
	pushq	%r15
	.cfi_def_cfa_offset 16
	pushq	%r14
	.cfi_def_cfa_offset 24
	pushq	%r13
	.cfi_def_cfa_offset 32
	pushq	%r12
	.cfi_def_cfa_offset 40
	pushq	%rbx
	.cfi_def_cfa_offset 48
	.cfi_offset %rbx, -48
	.cfi_offset %r12, -40
	.cfi_offset %r13, -32
	.cfi_offset %r14, -24
	.cfi_offset %r15, -16
	movq	%rsi, %rbx
	movq	%rdi, %r14
	movq	(%rsi), %rax
	bswapq	%rax
	movq	%rax, %rcx
	shrq	$9, %rcx
	xorq	%rax, %rcx
	movabsq	$23925738098196565, %r15
	andq	%r15, %rcx
	xorq	%rcx, %rax
	shlq	$9, %rcx
	xorq	%rax, %rcx
	movq	%rcx, %rdx
	shrq	$18, %rdx
	xorq	%rcx, %rdx
	movabsq	$56294136361779, %r12
	andq	%r12, %rdx
	xorq	%rdx, %rcx
	shlq	$18, %rdx
	xorq	%rcx, %rdx
	movq	%rdx, %rcx
	shrq	$36, %rcx
	xorl	%edx, %ecx
	andl	$252645135, %ecx
	movq	%rcx, %rax
	shlq	$36, %rax
	xorq	%rdx, %rax
	xorq	%rax, %rcx
	shrq	$24, %rax
	xorl	%ecx, %eax
	andl	$-16711936, %eax
	movq	%rax, %rdx
	shlq	$24, %rdx
	xorq	%rcx, %rdx
	xorq	%rdx, %rax
	movq	%rax, %rdi
	shrq	$24, %rdi
	xorq	%rdx, %rdi
	movabsq	$1095216660735, %r13
	andq	%r13, %rdi
	xorq	%rdi, %rax
	shlq	$24, %rdi
	xorq	%rax, %rdi
	movq	120(%r14), %rsi
	callq	"des::utils::round"
	movq	112(%r14), %rsi
	movq	%rax, %rdi
	callq	"des::utils::round"
	movq	104(%r14), %rsi
	movq	%rax, %rdi
	callq	"des::utils::round"
	movq	96(%r14), %rsi
	movq	%rax, %rdi
	callq	"des::utils::round"
	movq	88(%r14), %rsi
	movq	%rax, %rdi
	callq	"des::utils::round"
	movq	80(%r14), %rsi
	movq	%rax, %rdi
	callq	"des::utils::round"
	movq	72(%r14), %rsi
	movq	%rax, %rdi
	callq	"des::utils::round"
	movq	64(%r14), %rsi
	movq	%rax, %rdi
	callq	"des::utils::round"
	movq	56(%r14), %rsi
	movq	%rax, %rdi
	callq	"des::utils::round"
	movq	48(%r14), %rsi
	movq	%rax, %rdi
	callq	"des::utils::round"
	movq	40(%r14), %rsi
	movq	%rax, %rdi
	callq	"des::utils::round"
	movq	32(%r14), %rsi
	movq	%rax, %rdi
	callq	"des::utils::round"
	movq	24(%r14), %rsi
	movq	%rax, %rdi
	callq	"des::utils::round"
	movq	16(%r14), %rsi
	movq	%rax, %rdi
	callq	"des::utils::round"
	movq	8(%r14), %rsi
	movq	%rax, %rdi
	callq	"des::utils::round"
	movq	(%r14), %rsi
	movq	%rax, %rdi
	callq	"des::utils::round"
	rolq	$32, %rax
	movq	%rax, %rdx
	shrq	$24, %rdx
	xorq	%rax, %rdx
	andq	%r13, %rdx
	movq	%rdx, %rcx
	shlq	$24, %rcx
	xorq	%rax, %rcx
	xorq	%rcx, %rdx
	movq	%rdx, %rax
	shrq	$24, %rax
	xorl	%eax, %ecx
	andl	$-16711936, %ecx
	movq	%rcx, %rax
	shlq	$24, %rax
	xorq	%rdx, %rax
	xorq	%rax, %rcx
	shrq	$36, %rax
	xorl	%ecx, %eax
	andl	$252645135, %eax
	xorq	%rax, %rcx
	shlq	$36, %rax
	xorq	%rcx, %rax
	movq	%rax, %rcx
	shrq	$18, %rcx
	xorq	%rax, %rcx
	andq	%r12, %rcx
	xorq	%rcx, %rax
	shlq	$18, %rcx
	xorq	%rax, %rcx
	movq	%rcx, %rax
	shrq	$9, %rax
	xorq	%rcx, %rax
	andq	%r15, %rax
	movq	%rax, %rdx
	shlq	$9, %rdx
	xorq	%rcx, %rdx
	xorq	%rdx, %rax
	movq	%rax, %xmm0
	movq	%rdx, %xmm1
	movdqa	%xmm0, %xmm2
	punpcklqdq	%xmm1, %xmm2
	punpcklqdq	%xmm0, %xmm1
	movdqa	%xmm1, %xmm0
	pshufb	.LCPI11_0(%rip), %xmm0
	movdqa	%xmm2, %xmm3
	pshufb	.LCPI11_1(%rip), %xmm3
	pshufb	.LCPI11_2(%rip), %xmm1
	por	%xmm0, %xmm3
	pshufb	.LCPI11_3(%rip), %xmm2
	por	%xmm1, %xmm2
	por	%xmm3, %xmm2
	pshufd	$238, %xmm2, %xmm0
	por	%xmm2, %xmm0
	movq	%xmm0, (%rbx)
	popq	%rbx
	.cfi_def_cfa_offset 40
	popq	%r12
	.cfi_def_cfa_offset 32
	popq	%r13
	.cfi_def_cfa_offset 24
	popq	%r14
	.cfi_def_cfa_offset 16
	popq	%r15
	.cfi_def_cfa_offset 8
	retq
.Lfunc_end11:
	.size	"des::des::DesBlockCipherDecrypt::decrypt_block", .Lfunc_end11-"des::des::DesBlockCipherDecrypt::decrypt_block"
	.cfi_endproc

	.section	".text.des_tool::command::digits::parse_cipher_key::<#cefa6fc48b8e262a>","ax",@progbits
	.p2align	4
	.type	"des_tool::command::digits::parse_cipher_key::<#cefa6fc48b8e262a>",@function
"des_tool::command::digits::parse_cipher_key::<#cefa6fc48b8e262a>":
	.cfi_startproc
	pushq	%r15
	.cfi_def_cfa_offset 16
	pushq	%r14
	.cfi_def_cfa_offset 24
	pushq	%rbx
	.cfi_def_cfa_offset 32
	subq	$1456, %rsp
	.cfi_def_cfa_offset 1488
	.cfi_offset %rbx, -32
	.cfi_offset %r14, -24
	.cfi_offset %r15, -16
	xorps	%xmm0, %xmm0
	movaps	%xmm0, (%rsp)
	movq	$0, 16(%rsp)
	movb	$1, %cl
	cmpq	$48, %rdx
	jne	.LBB12_11
	xorl	%eax, %eax
	.p2align	4
.LBB12_2:
	cmpq	$48, %rax
	je	.LBB12_3
	movzbl	(%rsi,%rax), %edx
	leal	-48(%rdx), %r8d
	movb	$2, %cl
	cmpb	$10, %r8b
	jb	.LBB12_9
	andb	$-33, %dl
	addb	$-65, %dl
	cmpb	$5, %dl
	ja	.LBB12_11
.LBB12_9:
	movzbl	1(%rsi,%rax), %edx
	leal	-48(%rdx), %r8d
	addq	$2, %rax
	cmpb	$10, %r8b
	jb	.LBB12_2
	andb	$-33, %dl
	addb	$-65, %dl
	cmpb	$6, %dl
	jb	.LBB12_2
.LBB12_11:
	movb	$1, (%rdi)
	movb	%cl, 1(%rdi)
	addq	$8, %rdi
	movl	$384, %edx
	xorl	%esi, %esi
	addq	$1456, %rsp
	.cfi_def_cfa_offset 32
	popq	%rbx
	.cfi_def_cfa_offset 24
	popq	%r14
	.cfi_def_cfa_offset 16
	popq	%r15
	.cfi_def_cfa_offset 8
	jmp	memset@PLT
.LBB12_3:
	.cfi_def_cfa_offset 1488
	movq	%rdi, %r15
	xorl	%eax, %eax
	jmp	.LBB12_4
	.p2align	4
.LBB12_19:
	addb	$-48, %dl
.LBB12_25:
	shlb	$4, %cl
	addb	%dl, %cl
	movb	%cl, (%rsp,%rax)
	incq	%rax
	cmpq	$24, %rax
	je	.LBB12_26
.LBB12_4:
	movzbl	(%rsi,%rax,2), %ecx
	cmpb	$48, %cl
	jb	.LBB12_27
	movzbl	1(%rsi,%rax,2), %edx
	cmpb	$57, %cl
	ja	.LBB12_12
	addb	$-48, %cl
	jmp	.LBB12_17
	.p2align	4
.LBB12_12:
	cmpb	$65, %cl
	jb	.LBB12_27
	cmpb	$70, %cl
	ja	.LBB12_15
	addb	$-55, %cl
	jmp	.LBB12_17
	.p2align	4
.LBB12_15:
	leal	-97(%rcx), %edi
	cmpb	$5, %dil
	ja	.LBB12_27
	addb	$-87, %cl
.LBB12_17:
	cmpb	$48, %dl
	jb	.LBB12_27
	cmpb	$57, %dl
	jbe	.LBB12_19
	cmpb	$65, %dl
	jb	.LBB12_27
	cmpb	$70, %dl
	ja	.LBB12_23
	addb	$-55, %dl
	jmp	.LBB12_25
	.p2align	4
.LBB12_23:
	leal	-97(%rdx), %edi
	cmpb	$5, %dil
	ja	.LBB12_27
	addb	$-87, %dl
	jmp	.LBB12_25
.LBB12_26:
	movq	(%rsp), %rsi
	movq	8(%rsp), %r14
	movq	16(%rsp), %rbx
	xorps	%xmm0, %xmm0
	movaps	%xmm0, 144(%rsp)
	movaps	%xmm0, 128(%rsp)
	movaps	%xmm0, 112(%rsp)
	movaps	%xmm0, 96(%rsp)
	movaps	%xmm0, 80(%rsp)
	movaps	%xmm0, 64(%rsp)
	movaps	%xmm0, 48(%rsp)
	movaps	%xmm0, 32(%rsp)
	leaq	32(%rsp), %rdi
	callq	"des::des::DesKeyInit::new"
	xorps	%xmm0, %xmm0
	movaps	%xmm0, 272(%rsp)
	movaps	%xmm0, 256(%rsp)
	movaps	%xmm0, 240(%rsp)
	movaps	%xmm0, 224(%rsp)
	movaps	%xmm0, 208(%rsp)
	movaps	%xmm0, 192(%rsp)
	movaps	%xmm0, 176(%rsp)
	movaps	%xmm0, 160(%rsp)
	leaq	160(%rsp), %rdi
	movq	%r14, %rsi
	callq	"des::des::DesKeyInit::new"
	xorps	%xmm0, %xmm0
	movaps	%xmm0, 784(%rsp)
	movaps	%xmm0, 768(%rsp)
	movaps	%xmm0, 752(%rsp)
	movaps	%xmm0, 736(%rsp)
	movaps	%xmm0, 720(%rsp)
	movaps	%xmm0, 704(%rsp)
	movaps	%xmm0, 688(%rsp)
	movaps	%xmm0, 672(%rsp)
	leaq	672(%rsp), %rdi
	movq	%rbx, %rsi
	callq	"des::des::DesKeyInit::new"
	movaps	144(%rsp), %xmm0
	movaps	%xmm0, 400(%rsp)
	movaps	128(%rsp), %xmm0
	movaps	%xmm0, 384(%rsp)
	movaps	112(%rsp), %xmm0
	movaps	%xmm0, 368(%rsp)
	movaps	96(%rsp), %xmm0
	movaps	%xmm0, 352(%rsp)
	movaps	32(%rsp), %xmm0
	movaps	48(%rsp), %xmm1
	movaps	64(%rsp), %xmm2
	movaps	80(%rsp), %xmm3
	movaps	%xmm3, 336(%rsp)
	movaps	%xmm2, 320(%rsp)
	movaps	%xmm1, 304(%rsp)
	movaps	%xmm0, 288(%rsp)
	movaps	160(%rsp), %xmm0
	movaps	176(%rsp), %xmm1
	movaps	192(%rsp), %xmm2
	movaps	208(%rsp), %xmm3
	movaps	%xmm0, 416(%rsp)
	movaps	%xmm1, 432(%rsp)
	movaps	%xmm2, 448(%rsp)
	movaps	%xmm3, 464(%rsp)
	movaps	224(%rsp), %xmm0
	movaps	%xmm0, 480(%rsp)
	movaps	240(%rsp), %xmm0
	movaps	%xmm0, 496(%rsp)
	movaps	256(%rsp), %xmm0
	movaps	%xmm0, 512(%rsp)
	movaps	272(%rsp), %xmm0
	movaps	%xmm0, 528(%rsp)
	movaps	784(%rsp), %xmm0
	movaps	%xmm0, 656(%rsp)
	movaps	768(%rsp), %xmm0
	movaps	%xmm0, 640(%rsp)
	movaps	752(%rsp), %xmm0
	movaps	%xmm0, 624(%rsp)
	movaps	736(%rsp), %xmm0
	movaps	%xmm0, 608(%rsp)
	movaps	672(%rsp), %xmm0
	movaps	688(%rsp), %xmm1
	movaps	704(%rsp), %xmm2
	movaps	720(%rsp), %xmm3
	movaps	%xmm3, 592(%rsp)
	movaps	%xmm2, 576(%rsp)
	movaps	%xmm1, 560(%rsp)
	movaps	%xmm0, 544(%rsp)
	leaq	679(%rsp), %rbx
	leaq	288(%rsp), %rsi
	movl	$384, %edx
	movq	%rbx, %rdi
	callq	memcpy@PLT
	leaq	1072(%rsp), %r14
	movl	$384, %edx
	movq	%r14, %rdi
	movq	%rbx, %rsi
	callq	memcpy@PLT
	movq	%r15, %rdi
	movw	$0, (%r15)
	addq	$8, %rdi
	movl	$384, %edx
	movq	%r14, %rsi
	callq	memcpy@PLT
	addq	$1456, %rsp
	.cfi_def_cfa_offset 32
	popq	%rbx
	.cfi_def_cfa_offset 24
	popq	%r14
	.cfi_def_cfa_offset 16
	popq	%r15
	.cfi_def_cfa_offset 8
	retq
.LBB12_27:
	.cfi_def_cfa_offset 1488
	ud2
.Lfunc_end12:
	.size	"des_tool::command::digits::parse_cipher_key::<#cefa6fc48b8e262a>", .Lfunc_end12-"des_tool::command::digits::parse_cipher_key::<#cefa6fc48b8e262a>"
	.cfi_endproc

	.section	".text.des_tool::command::digits::parse_vector","ax",@progbits
	.p2align	4
	.type	"des_tool::command::digits::parse_vector",@function
"des_tool::command::digits::parse_vector":
	.cfi_startproc
	pushq	%rbp
	.cfi_def_cfa_offset 16
	pushq	%r15
	.cfi_def_cfa_offset 24
	pushq	%r14
	.cfi_def_cfa_offset 32
	pushq	%r13
	.cfi_def_cfa_offset 40
	pushq	%r12
	.cfi_def_cfa_offset 48
	pushq	%rbx
	.cfi_def_cfa_offset 56
	.cfi_offset %rbx, -56
	.cfi_offset %r12, -48
	.cfi_offset %r13, -40
	.cfi_offset %r14, -32
	.cfi_offset %r15, -24
	.cfi_offset %rbp, -16
	cmpq	$16, %rdx
	jne	.LBB13_34
	movzbl	(%rsi), %ebp
	leal	-48(%rbp), %edx
	cmpb	$10, %dl
	jb	.LBB13_3
	movl	%ebp, %eax
	andb	$-33, %al
	addb	$-65, %al
	cmpb	$6, %al
	jae	.LBB13_33
.LBB13_3:
	movzbl	1(%rsi), %ebx
	leal	-48(%rbx), %eax
	cmpb	$10, %al
	jb	.LBB13_5
	movl	%ebx, %ecx
	andb	$-33, %cl
	addb	$-65, %cl
	cmpb	$5, %cl
	ja	.LBB13_33
.LBB13_5:
	movzbl	2(%rsi), %r15d
	leal	-48(%r15), %r9d
	cmpb	$10, %r9b
	jb	.LBB13_7
	movl	%r15d, %ecx
	andb	$-33, %cl
	addb	$-65, %cl
	cmpb	$5, %cl
	ja	.LBB13_33
.LBB13_7:
	movzbl	3(%rsi), %r11d
	leal	-48(%r11), %ecx
	cmpb	$10, %cl
	jb	.LBB13_9
	movl	%r11d, %r8d
	andb	$-33, %r8b
	addb	$-65, %r8b
	cmpb	$5, %r8b
	ja	.LBB13_33
.LBB13_9:
	movzbl	4(%rsi), %r13d
	leal	-48(%r13), %r10d
	cmpb	$10, %r10b
	jb	.LBB13_11
	movl	%r13d, %r8d
	andb	$-33, %r8b
	addb	$-65, %r8b
	cmpb	$5, %r8b
	ja	.LBB13_33
.LBB13_11:
	movzbl	5(%rsi), %r14d
	leal	-48(%r14), %r8d
	movl	%r8d, -4(%rsp)
	cmpb	$10, %r8b
	jb	.LBB13_13
	movl	%r14d, %r12d
	andb	$-33, %r12b
	addb	$-65, %r12b
	cmpb	$5, %r12b
	ja	.LBB13_33
.LBB13_13:
	movzbl	6(%rsi), %r12d
	leal	-48(%r12), %r8d
	movl	%r8d, -8(%rsp)
	cmpb	$10, %r8b
	jb	.LBB13_15
	movl	%r12d, %r8d
	andb	$-33, %r8b
	addb	$-65, %r8b
	cmpb	$5, %r8b
	ja	.LBB13_33
.LBB13_15:
	movzbl	7(%rsi), %r8d
	movq	%r8, -32(%rsp)
	addl	$-48, %r8d
	movl	%r8d, -12(%rsp)
	cmpb	$10, %r8b
	jb	.LBB13_17
	movq	-32(%rsp), %r8
	andb	$-33, %r8b
	addb	$-65, %r8b
	cmpb	$5, %r8b
	ja	.LBB13_33
.LBB13_17:
	movzbl	8(%rsi), %r8d
	movq	%r8, -40(%rsp)
	addl	$-48, %r8d
	movl	%r8d, -16(%rsp)
	cmpb	$10, %r8b
	jb	.LBB13_19
	movq	-40(%rsp), %r8
	andb	$-33, %r8b
	addb	$-65, %r8b
	cmpb	$5, %r8b
	ja	.LBB13_33
.LBB13_19:
	movzbl	9(%rsi), %r8d
	movq	%r8, -48(%rsp)
	addl	$-48, %r8d
	movl	%r8d, -20(%rsp)
	cmpb	$10, %r8b
	jb	.LBB13_21
	movq	-48(%rsp), %r8
	andb	$-33, %r8b
	addb	$-65, %r8b
	cmpb	$5, %r8b
	ja	.LBB13_33
.LBB13_21:
	movzbl	10(%rsi), %r8d
	movq	%r8, -56(%rsp)
	addl	$-48, %r8d
	movl	%r8d, -24(%rsp)
	cmpb	$10, %r8b
	jb	.LBB13_23
	movq	-56(%rsp), %r8
	andb	$-33, %r8b
	addb	$-65, %r8b
	cmpb	$5, %r8b
	ja	.LBB13_33
.LBB13_23:
	movzbl	11(%rsi), %r8d
	movq	%r8, -64(%rsp)
	addl	$-48, %r8d
	cmpb	$10, %r8b
	jb	.LBB13_25
	movq	-64(%rsp), %r8
	andb	$-33, %r8b
	addb	$-65, %r8b
	cmpb	$5, %r8b
	ja	.LBB13_33
.LBB13_25:
	movzbl	12(%rsi), %r8d
	movq	%r8, -64(%rsp)
	addl	$-48, %r8d
	cmpb	$10, %r8b
	jb	.LBB13_27
	movq	-64(%rsp), %r8
	andb	$-33, %r8b
	addb	$-65, %r8b
	cmpb	$5, %r8b
	ja	.LBB13_33
.LBB13_27:
	movzbl	13(%rsi), %r8d
	movq	%r8, -64(%rsp)
	addl	$-48, %r8d
	cmpb	$10, %r8b
	jb	.LBB13_29
	movq	-64(%rsp), %r8
	andb	$-33, %r8b
	addb	$-65, %r8b
	cmpb	$5, %r8b
	ja	.LBB13_33
.LBB13_29:
	movzbl	14(%rsi), %r8d
	movq	%r8, -64(%rsp)
	addl	$-48, %r8d
	cmpb	$10, %r8b
	jb	.LBB13_31
	movq	-64(%rsp), %r8
	andb	$-33, %r8b
	addb	$-65, %r8b
	cmpb	$5, %r8b
	ja	.LBB13_33
.LBB13_31:
	movzbl	15(%rsi), %r8d
	movq	%r8, -64(%rsp)
	addl	$-48, %r8d
	cmpb	$10, %r8b
	jb	.LBB13_36
	movq	-64(%rsp), %r8
	andb	$-33, %r8b
	addb	$-65, %r8b
	cmpb	$6, %r8b
	jb	.LBB13_36
.LBB13_33:
	movb	$1, (%rdi)
	movq	$4, 1(%rdi)
	jmp	.LBB13_35
.LBB13_34:
	movb	$1, (%rdi)
	movq	$3, 1(%rdi)
.LBB13_35:
	popq	%rbx
	.cfi_def_cfa_offset 48
	popq	%r12
	.cfi_def_cfa_offset 40
	popq	%r13
	.cfi_def_cfa_offset 32
	popq	%r14
	.cfi_def_cfa_offset 24
	popq	%r15
	.cfi_def_cfa_offset 16
	popq	%rbp
	.cfi_def_cfa_offset 8
	retq
.LBB13_36:
	.cfi_def_cfa_offset 56
	cmpb	$48, %bpl
	jb	.LBB13_165
	cmpb	$58, %bpl
	jb	.LBB13_44
	cmpb	$65, %bpl
	jb	.LBB13_165
	cmpb	$70, %bpl
	ja	.LBB13_41
	addb	$-55, %bpl
	jmp	.LBB13_43
.LBB13_41:
	leal	-97(%rbp), %edx
	cmpb	$5, %dl
	ja	.LBB13_165
	addb	$-87, %bpl
.LBB13_43:
	movl	%ebp, %edx
.LBB13_44:
	cmpb	$48, %bl
	jb	.LBB13_165
	cmpb	$58, %bl
	jb	.LBB13_52
	cmpb	$65, %bl
	jb	.LBB13_165
	cmpb	$70, %bl
	ja	.LBB13_49
	addb	$-55, %bl
	jmp	.LBB13_51
.LBB13_49:
	leal	-97(%rbx), %eax
	cmpb	$5, %al
	ja	.LBB13_165
	addb	$-87, %bl
.LBB13_51:
	movl	%ebx, %eax
.LBB13_52:
	cmpb	$48, %r15b
	jb	.LBB13_165
	cmpb	$58, %r15b
	jb	.LBB13_60
	cmpb	$65, %r15b
	jb	.LBB13_165
	cmpb	$71, %r15b
	jae	.LBB13_56
	addb	$-55, %r15b
	jmp	.LBB13_59
.LBB13_56:
	leal	-97(%r15), %r8d
	cmpb	$5, %r8b
	ja	.LBB13_165
	addb	$-87, %r15b
.LBB13_59:
	movl	%r15d, %r9d
.LBB13_60:
	cmpb	$48, %r11b
	jb	.LBB13_165
	cmpb	$58, %r11b
	jb	.LBB13_68
	cmpb	$65, %r11b
	jb	.LBB13_165
	cmpb	$71, %r11b
	jae	.LBB13_64
	addb	$-55, %r11b
	jmp	.LBB13_67
.LBB13_64:
	leal	-97(%r11), %ecx
	cmpb	$5, %cl
	ja	.LBB13_165
	addb	$-87, %r11b
.LBB13_67:
	movl	%r11d, %ecx
.LBB13_68:
	cmpb	$48, %r13b
	jb	.LBB13_165
	cmpb	$58, %r13b
	jb	.LBB13_76
	cmpb	$65, %r13b
	jb	.LBB13_165
	cmpb	$71, %r13b
	jae	.LBB13_72
	addb	$-55, %r13b
	jmp	.LBB13_75
.LBB13_72:
	leal	-97(%r13), %r8d
	cmpb	$5, %r8b
	ja	.LBB13_165
	addb	$-87, %r13b
.LBB13_75:
	movl	%r13d, %r10d
.LBB13_76:
	cmpb	$48, %r14b
	jb	.LBB13_165
	cmpb	$58, %r14b
	jb	.LBB13_84
	cmpb	$65, %r14b
	jb	.LBB13_165
	cmpb	$71, %r14b
	jae	.LBB13_80
	addb	$-55, %r14b
	jmp	.LBB13_83
.LBB13_80:
	leal	-97(%r14), %r8d
	cmpb	$5, %r8b
	ja	.LBB13_165
	addb	$-87, %r14b
.LBB13_83:
	movl	%r14d, %r8d
	movl	%r8d, -4(%rsp)
.LBB13_84:
	cmpb	$48, %r12b
	jb	.LBB13_165
	cmpb	$58, %r12b
	jb	.LBB13_92
	cmpb	$65, %r12b
	jb	.LBB13_165
	cmpb	$71, %r12b
	jae	.LBB13_88
	addb	$-55, %r12b
	jmp	.LBB13_91
.LBB13_88:
	leal	-97(%r12), %r8d
	cmpb	$5, %r8b
	ja	.LBB13_165
	addb	$-87, %r12b
.LBB13_91:
	movl	%r12d, %r8d
	movl	%r8d, -8(%rsp)
.LBB13_92:
	cmpb	$48, -32(%rsp)
	jb	.LBB13_165
	cmpb	$58, -32(%rsp)
	jb	.LBB13_100
	cmpb	$65, -32(%rsp)
	jb	.LBB13_165
	cmpb	$71, -32(%rsp)
	jae	.LBB13_96
	movq	-32(%rsp), %r8
	addb	$-55, %r8b
	jmp	.LBB13_99
.LBB13_96:
	movq	-32(%rsp), %r8
	addl	$-97, %r8d
	cmpb	$5, %r8b
	ja	.LBB13_165
	movq	-32(%rsp), %r8
	addb	$-87, %r8b
.LBB13_99:
	movl	%r8d, -12(%rsp)
.LBB13_100:
	cmpb	$48, -40(%rsp)
	jb	.LBB13_165
	cmpb	$58, -40(%rsp)
	jb	.LBB13_108
	cmpb	$65, -40(%rsp)
	jb	.LBB13_165
	cmpb	$71, -40(%rsp)
	jae	.LBB13_104
	movq	-40(%rsp), %r8
	addb	$-55, %r8b
	jmp	.LBB13_107
.LBB13_104:
	movq	-40(%rsp), %r8
	addl	$-97, %r8d
	cmpb	$5, %r8b
	ja	.LBB13_165
	movq	-40(%rsp), %r8
	addb	$-87, %r8b
.LBB13_107:
	movl	%r8d, -16(%rsp)
.LBB13_108:
	cmpb	$48, -48(%rsp)
	jb	.LBB13_165
	cmpb	$58, -48(%rsp)
	jb	.LBB13_116
	cmpb	$65, -48(%rsp)
	jb	.LBB13_165
	cmpb	$71, -48(%rsp)
	jae	.LBB13_112
	movq	-48(%rsp), %r8
	addb	$-55, %r8b
	jmp	.LBB13_115
.LBB13_112:
	movq	-48(%rsp), %r8
	addl	$-97, %r8d
	cmpb	$5, %r8b
	ja	.LBB13_165
	movq	-48(%rsp), %r8
	addb	$-87, %r8b
.LBB13_115:
	movl	%r8d, -20(%rsp)
.LBB13_116:
	cmpb	$48, -56(%rsp)
	jb	.LBB13_165
	movzbl	11(%rsi), %r11d
	cmpb	$58, -56(%rsp)
	jb	.LBB13_124
	cmpb	$65, -56(%rsp)
	jb	.LBB13_165
	cmpb	$71, -56(%rsp)
	jae	.LBB13_120
	movq	-56(%rsp), %r8
	addb	$-55, %r8b
	jmp	.LBB13_123
.LBB13_120:
	movq	-56(%rsp), %r8
	addl	$-97, %r8d
	cmpb	$5, %r8b
	ja	.LBB13_165
	movq	-56(%rsp), %r8
	addb	$-87, %r8b
.LBB13_123:
	movl	%r8d, -24(%rsp)
.LBB13_124:
	cmpb	$48, %r11b
	jb	.LBB13_165
	cmpb	$58, %r11b
	jae	.LBB13_126
	addb	$-48, %r11b
	jmp	.LBB13_132
.LBB13_126:
	cmpb	$65, %r11b
	jb	.LBB13_165
	cmpb	$71, %r11b
	jae	.LBB13_128
	addb	$-55, %r11b
	jmp	.LBB13_132
.LBB13_128:
	leal	-97(%r11), %r8d
	cmpb	$5, %r8b
	ja	.LBB13_165
	addb	$-87, %r11b
.LBB13_132:
	movzbl	12(%rsi), %r14d
	cmpb	$48, %r14b
	jb	.LBB13_165
	movzbl	13(%rsi), %ebx
	cmpb	$58, %r14b
	jae	.LBB13_134
	addb	$-48, %r14b
	jmp	.LBB13_140
.LBB13_134:
	cmpb	$65, %r14b
	jb	.LBB13_165
	cmpb	$71, %r14b
	jae	.LBB13_136
	addb	$-55, %r14b
	jmp	.LBB13_140
.LBB13_136:
	leal	-97(%r14), %r8d
	cmpb	$5, %r8b
	ja	.LBB13_165
	addb	$-87, %r14b
.LBB13_140:
	cmpb	$48, %bl
	jb	.LBB13_165
	cmpb	$58, %bl
	jae	.LBB13_142
	addb	$-48, %bl
	jmp	.LBB13_148
.LBB13_142:
	cmpb	$65, %bl
	jb	.LBB13_165
	cmpb	$71, %bl
	jae	.LBB13_144
	addb	$-55, %bl
	jmp	.LBB13_148
.LBB13_144:
	leal	-97(%rbx), %r8d
	cmpb	$5, %r8b
	ja	.LBB13_165
	addb	$-87, %bl
.LBB13_148:
	movzbl	14(%rsi), %r15d
	cmpb	$48, %r15b
	jb	.LBB13_165
	movzbl	15(%rsi), %esi
	cmpb	$58, %r15b
	jae	.LBB13_150
	addb	$-48, %r15b
	jmp	.LBB13_156
.LBB13_150:
	cmpb	$65, %r15b
	jb	.LBB13_165
	cmpb	$71, %r15b
	jae	.LBB13_152
	addb	$-55, %r15b
	jmp	.LBB13_156
.LBB13_152:
	leal	-97(%r15), %r8d
	cmpb	$5, %r8b
	ja	.LBB13_165
	addb	$-87, %r15b
.LBB13_156:
	cmpb	$48, %sil
	jb	.LBB13_165
	cmpb	$58, %sil
	jae	.LBB13_158
	addb	$-48, %sil
	jmp	.LBB13_164
.LBB13_158:
	cmpb	$65, %sil
	jb	.LBB13_165
	cmpb	$71, %sil
	jae	.LBB13_160
	addb	$-55, %sil
	jmp	.LBB13_164
.LBB13_160:
	leal	-97(%rsi), %r8d
	cmpb	$5, %r8b
	ja	.LBB13_165
	addb	$-87, %sil
.LBB13_164:
	shlb	$4, %dl
	addb	%dl, %al
	shlb	$4, %r9b
	addb	%r9b, %cl
	shlb	$4, %r10b
	movl	-4(%rsp), %r8d
	addb	%r10b, %r8b
	movl	-8(%rsp), %edx
	shlb	$4, %dl
	movl	-12(%rsp), %r9d
	addb	%dl, %r9b
	movl	-16(%rsp), %edx
	shlb	$4, %dl
	movl	-20(%rsp), %r10d
	addb	%dl, %r10b
	movl	-24(%rsp), %edx
	shlb	$4, %dl
	addb	%dl, %r11b
	shlb	$4, %r14b
	addb	%r14b, %bl
	shlb	$4, %r15b
	addb	%sil, %r15b
	movzbl	%r15b, %edx
	shlq	$56, %rdx
	movzbl	%bl, %esi
	shlq	$48, %rsi
	orq	%rdx, %rsi
	movzbl	%r11b, %edx
	shlq	$40, %rdx
	orq	%rsi, %rdx
	movzbl	%r10b, %esi
	shlq	$32, %rsi
	orq	%rdx, %rsi
	movzbl	%r9b, %edx
	shll	$24, %edx
	orq	%rsi, %rdx
	movzbl	%r8b, %esi
	shll	$16, %esi
	orq	%rdx, %rsi
	movzbl	%cl, %ecx
	shll	$8, %ecx
	orq	%rsi, %rcx
	movzbl	%al, %eax
	orq	%rcx, %rax
	movb	$0, (%rdi)
	movq	%rax, 1(%rdi)
	jmp	.LBB13_35
.LBB13_165:
	ud2
.Lfunc_end13:
	.size	"des_tool::command::digits::parse_vector", .Lfunc_end13-"des_tool::command::digits::parse_vector"
	.cfi_endproc

	.section	.rodata.cst16,"aM",@progbits,16
	.p2align	4, 0x0
.LCPI14_0:
	.byte	0
	.byte	1
	.byte	2
	.byte	3
	.byte	4
	.byte	5
	.byte	6
	.byte	7
	.byte	8
	.byte	9
	.byte	10
	.byte	11
	.byte	12
	.byte	13
	.byte	14
	.byte	15
.LCPI14_1:
	.byte	16
	.byte	17
	.byte	18
	.byte	19
	.byte	20
	.byte	21
	.byte	22
	.byte	23
	.byte	24
	.byte	25
	.byte	26
	.byte	27
	.byte	28
	.byte	29
	.byte	30
	.byte	31
	.section	".text.des_tool::command::status::show::<#8366a837468c3893>","ax",@progbits
	.p2align	4
	.type	"des_tool::command::status::show::<#8366a837468c3893>",@function
"des_tool::command::status::show::<#8366a837468c3893>":
	.cfi_startproc
	pushq	%r15
	.cfi_def_cfa_offset 16
	pushq	%r14
	.cfi_def_cfa_offset 24
	pushq	%r12
	.cfi_def_cfa_offset 32
	pushq	%rbx
	.cfi_def_cfa_offset 40
	subq	$200, %rsp
	.cfi_def_cfa_offset 240
	.cfi_offset %rbx, -40
	.cfi_offset %r12, -32
	.cfi_offset %r14, -24
	.cfi_offset %r15, -16
	movq	%rdi, %rbx
	cmpb	$0, (%rdi)
	je	.LBB14_5
	movzbl	1(%rbx), %eax
	xorps	%xmm0, %xmm0
	movaps	%xmm0, 176(%rsp)
	movaps	%xmm0, 160(%rsp)
	movaps	%xmm0, 144(%rsp)
	movaps	%xmm0, 128(%rsp)
	movaps	%xmm0, 112(%rsp)
	movaps	%xmm0, 96(%rsp)
	leaq	".Lswitch.table.des_tool::command::status::show::<#8366a837468c3893>"(%rip), %rcx
	movq	(%rcx,%rax,8), %rdx
	leaq	".Lswitch.table.des_tool::command::status::show::<#8366a837468c3893>.168.rel"(%rip), %rcx
	movslq	(%rcx,%rax,4), %rsi
	addq	%rcx, %rsi
	leaq	96(%rsp), %rdi
	callq	"des_tool::command::status::write_whole::<#03326aa510967ad1>"
	cmpb	$0, 96(%rsp)
	jne	.LBB14_3
	leaq	.Lstatic.18(%rip), %rsi
	movq	%rsp, %rdi
	movl	$1, %edx
	callq	"des_tool::command::status::write_whole::<#03326aa510967ad1>"
.LBB14_3:
	cmpb	$5, 1(%rbx)
	sete	%al
	orb	$2, %al
	jmp	.LBB14_4
.LBB14_5:
	movq	8(%rbx), %r14
	movq	16(%rbx), %rbx
	movq	$-1, %r15
	xorl	%r12d, %r12d
	jmp	.LBB14_7
	.p2align	4
.LBB14_6:
	decq	%r15
	je	.LBB14_17
.LBB14_7:
	movq	%rbx, %rcx
	subq	%r12, %rcx
	jbe	.LBB14_13
	leaq	(%r14,%r12), %rdx
	movq	%rsp, %rdi
	movl	$1, %esi
	callq	"std::io::write_fd"
	movq	8(%rsp), %rax
	cmpb	$0, (%rsp)
	je	.LBB14_11
	shrq	$8, %rax
	movaps	.LCPI14_0(%rip), %xmm0
	movaps	%xmm0, (%rsp)
	movaps	.LCPI14_1(%rip), %xmm0
	movaps	%xmm0, 16(%rsp)
	movabsq	$2820983053732684064, %rcx
	movq	%rcx, 32(%rsp)
	movb	$40, 40(%rsp)
	cmpb	$41, %al
	jae	.LBB14_17
	andl	$63, %eax
	cmpb	$35, (%rsp,%rax)
	je	.LBB14_6
	jmp	.LBB14_17
	.p2align	4
.LBB14_11:
	testq	%rax, %rax
	je	.LBB14_17
	addq	%rax, %r12
	jmp	.LBB14_6
.LBB14_17:
	movb	$4, %al
	jmp	.LBB14_4
.LBB14_13:
	xorl	%eax, %eax
.LBB14_4:
	addq	$200, %rsp
	.cfi_def_cfa_offset 40
	popq	%rbx
	.cfi_def_cfa_offset 32
	popq	%r12
	.cfi_def_cfa_offset 24
	popq	%r14
	.cfi_def_cfa_offset 16
	popq	%r15
	.cfi_def_cfa_offset 8
	retq
.Lfunc_end14:
	.size	"des_tool::command::status::show::<#8366a837468c3893>", .Lfunc_end14-"des_tool::command::status::show::<#8366a837468c3893>"
	.cfi_endproc

	.section	".text.std::io::write_fd","ax",@progbits
	.p2align	4
	.type	"std::io::write_fd",@function
"std::io::write_fd":
	.cfi_startproc
	pushq	%r14
	.cfi_def_cfa_offset 16
	pushq	%rbx
	.cfi_def_cfa_offset 24
	subq	$88, %rsp
	.cfi_def_cfa_offset 112
	.cfi_offset %rbx, -24
	.cfi_offset %r14, -16
	movq	%rcx, %r14
	movq	%rdi, %rbx
	xorps	%xmm0, %xmm0
	movaps	%xmm0, 64(%rsp)
	movaps	%xmm0, 48(%rsp)
	movaps	%xmm0, 32(%rsp)
	movaps	%xmm0, 16(%rsp)
	movaps	%xmm0, (%rsp)
	movl	%esi, %edi
	movq	%rdx, %rsi
	movq	%rcx, %rdx
	callq	write@PLT
	testq	%rax, %rax
	js	.LBB15_1
	cmpq	%r14, %rax
	cmovbq	%rax, %r14
	xorl	%eax, %eax
	jmp	.LBB15_43
.LBB15_1:
	callq	rattle_errno@PLT
	movl	%eax, %r14d
	movl	$10496, %eax
	testl	%r14d, %r14d
	js	.LBB15_41
	leal	-1(%r14), %ecx
	cmpl	$121, %ecx
	ja	.LBB15_40
	movl	$256, %eax
	leaq	.LJTI15_0(%rip), %rdx
	movslq	(%rdx,%rcx,4), %rcx
	addq	%rdx, %rcx
	notrack		jmpq	*%rcx
.LBB15_24:
	movl	$9216, %eax
	jmp	.LBB15_41
.LBB15_36:
	movl	$1024, %eax
	jmp	.LBB15_41
.LBB15_33:
	movl	$1792, %eax
	jmp	.LBB15_41
.LBB15_39:
	movl	$6656, %eax
	jmp	.LBB15_41
.LBB15_37:
	movl	$9984, %eax
	jmp	.LBB15_41
.LBB15_28:
	movl	$2304, %eax
	jmp	.LBB15_41
.LBB15_27:
	movl	$2048, %eax
	jmp	.LBB15_41
.LBB15_22:
	movl	$7680, %eax
	jmp	.LBB15_41
.LBB15_18:
	movl	$6400, %eax
	jmp	.LBB15_41
.LBB15_20:
	movl	$8192, %eax
	jmp	.LBB15_41
.LBB15_23:
	movl	$8448, %eax
	jmp	.LBB15_41
.LBB15_34:
	movl	$5632, %eax
	jmp	.LBB15_41
.LBB15_11:
	movl	$7936, %eax
	jmp	.LBB15_41
.LBB15_15:
	movl	$7424, %eax
	jmp	.LBB15_41
.LBB15_26:
	movl	$4608, %eax
	jmp	.LBB15_41
.LBB15_29:
	movl	$2560, %eax
	jmp	.LBB15_41
.LBB15_9:
	movl	$7168, %eax
	jmp	.LBB15_41
.LBB15_12:
	movl	$3584, %eax
	jmp	.LBB15_41
.LBB15_10:
	movl	$3072, %eax
	jmp	.LBB15_41
.LBB15_30:
	movl	$1280, %eax
	jmp	.LBB15_41
.LBB15_32:
	movl	$768, %eax
	jmp	.LBB15_41
.LBB15_4:
	xorl	%eax, %eax
	jmp	.LBB15_41
.LBB15_7:
	movl	$3328, %eax
	jmp	.LBB15_41
.LBB15_8:
	movl	$9728, %eax
	jmp	.LBB15_41
.LBB15_21:
	movl	$2816, %eax
	jmp	.LBB15_41
.LBB15_5:
	movl	$8960, %eax
	jmp	.LBB15_41
.LBB15_6:
	movl	$8704, %eax
	jmp	.LBB15_41
.LBB15_14:
	movl	$5120, %eax
	jmp	.LBB15_41
.LBB15_13:
	movl	$3840, %eax
	jmp	.LBB15_41
.LBB15_38:
	movl	$4864, %eax
	jmp	.LBB15_41
.LBB15_40:
	movl	$10496, %eax
	jmp	.LBB15_41
.LBB15_25:
	movl	$4096, %eax
	jmp	.LBB15_41
.LBB15_31:
	movl	$1536, %eax
	jmp	.LBB15_41
.LBB15_16:
	movl	$6912, %eax
	jmp	.LBB15_41
.LBB15_17:
	movl	$6144, %eax
	jmp	.LBB15_41
.LBB15_35:
	movl	$512, %eax
	jmp	.LBB15_41
.LBB15_19:
	movl	$4352, %eax
.LBB15_41:
	shlq	$32, %r14
	orq	%rax, %r14
	xorps	%xmm0, %xmm0
	movaps	%xmm0, 64(%rsp)
	movaps	%xmm0, 48(%rsp)
	movaps	%xmm0, 32(%rsp)
	movaps	%xmm0, 16(%rsp)
	movaps	%xmm0, (%rsp)
	movl	$1, %eax
.LBB15_43:
	movq	%rax, (%rbx)
	movq	%r14, 8(%rbx)
	movaps	(%rsp), %xmm0
	movaps	16(%rsp), %xmm1
	movaps	32(%rsp), %xmm2
	movaps	48(%rsp), %xmm3
	movups	%xmm0, 16(%rbx)
	movups	%xmm1, 32(%rbx)
	movups	%xmm2, 48(%rbx)
	movups	%xmm3, 64(%rbx)
	movaps	64(%rsp), %xmm0
	movups	%xmm0, 80(%rbx)
	addq	$88, %rsp
	.cfi_def_cfa_offset 24
	popq	%rbx
	.cfi_def_cfa_offset 16
	popq	%r14
	.cfi_def_cfa_offset 8
	retq
.Lfunc_end15:
	.size	"std::io::write_fd", .Lfunc_end15-"std::io::write_fd"
	.cfi_endproc
	.section	".rodata.std::io::write_fd","a",@progbits
	.p2align	2, 0x0
.LJTI15_0:
	.long	.LBB15_41-.LJTI15_0
	.long	.LBB15_4-.LJTI15_0
	.long	.LBB15_40-.LJTI15_0
	.long	.LBB15_5-.LJTI15_0
	.long	.LBB15_40-.LJTI15_0
	.long	.LBB15_40-.LJTI15_0
	.long	.LBB15_6-.LJTI15_0
	.long	.LBB15_40-.LJTI15_0
	.long	.LBB15_40-.LJTI15_0
	.long	.LBB15_40-.LJTI15_0
	.long	.LBB15_7-.LJTI15_0
	.long	.LBB15_8-.LJTI15_0
	.long	.LBB15_41-.LJTI15_0
	.long	.LBB15_40-.LJTI15_0
	.long	.LBB15_40-.LJTI15_0
	.long	.LBB15_9-.LJTI15_0
	.long	.LBB15_10-.LJTI15_0
	.long	.LBB15_11-.LJTI15_0
	.long	.LBB15_40-.LJTI15_0
	.long	.LBB15_12-.LJTI15_0
	.long	.LBB15_13-.LJTI15_0
	.long	.LBB15_14-.LJTI15_0
	.long	.LBB15_40-.LJTI15_0
	.long	.LBB15_40-.LJTI15_0
	.long	.LBB15_40-.LJTI15_0
	.long	.LBB15_15-.LJTI15_0
	.long	.LBB15_16-.LJTI15_0
	.long	.LBB15_17-.LJTI15_0
	.long	.LBB15_18-.LJTI15_0
	.long	.LBB15_19-.LJTI15_0
	.long	.LBB15_20-.LJTI15_0
	.long	.LBB15_21-.LJTI15_0
	.long	.LBB15_40-.LJTI15_0
	.long	.LBB15_40-.LJTI15_0
	.long	.LBB15_22-.LJTI15_0
	.long	.LBB15_23-.LJTI15_0
	.long	.LBB15_40-.LJTI15_0
	.long	.LBB15_24-.LJTI15_0
	.long	.LBB15_25-.LJTI15_0
	.long	.LBB15_26-.LJTI15_0
	.long	.LBB15_40-.LJTI15_0
	.long	.LBB15_40-.LJTI15_0
	.long	.LBB15_40-.LJTI15_0
	.long	.LBB15_40-.LJTI15_0
	.long	.LBB15_40-.LJTI15_0
	.long	.LBB15_40-.LJTI15_0
	.long	.LBB15_40-.LJTI15_0
	.long	.LBB15_40-.LJTI15_0
	.long	.LBB15_40-.LJTI15_0
	.long	.LBB15_40-.LJTI15_0
	.long	.LBB15_40-.LJTI15_0
	.long	.LBB15_40-.LJTI15_0
	.long	.LBB15_40-.LJTI15_0
	.long	.LBB15_40-.LJTI15_0
	.long	.LBB15_40-.LJTI15_0
	.long	.LBB15_40-.LJTI15_0
	.long	.LBB15_40-.LJTI15_0
	.long	.LBB15_40-.LJTI15_0
	.long	.LBB15_40-.LJTI15_0
	.long	.LBB15_40-.LJTI15_0
	.long	.LBB15_40-.LJTI15_0
	.long	.LBB15_40-.LJTI15_0
	.long	.LBB15_40-.LJTI15_0
	.long	.LBB15_40-.LJTI15_0
	.long	.LBB15_40-.LJTI15_0
	.long	.LBB15_40-.LJTI15_0
	.long	.LBB15_40-.LJTI15_0
	.long	.LBB15_40-.LJTI15_0
	.long	.LBB15_40-.LJTI15_0
	.long	.LBB15_40-.LJTI15_0
	.long	.LBB15_40-.LJTI15_0
	.long	.LBB15_40-.LJTI15_0
	.long	.LBB15_40-.LJTI15_0
	.long	.LBB15_40-.LJTI15_0
	.long	.LBB15_40-.LJTI15_0
	.long	.LBB15_40-.LJTI15_0
	.long	.LBB15_40-.LJTI15_0
	.long	.LBB15_40-.LJTI15_0
	.long	.LBB15_40-.LJTI15_0
	.long	.LBB15_40-.LJTI15_0
	.long	.LBB15_40-.LJTI15_0
	.long	.LBB15_40-.LJTI15_0
	.long	.LBB15_40-.LJTI15_0
	.long	.LBB15_40-.LJTI15_0
	.long	.LBB15_40-.LJTI15_0
	.long	.LBB15_40-.LJTI15_0
	.long	.LBB15_40-.LJTI15_0
	.long	.LBB15_40-.LJTI15_0
	.long	.LBB15_40-.LJTI15_0
	.long	.LBB15_40-.LJTI15_0
	.long	.LBB15_40-.LJTI15_0
	.long	.LBB15_40-.LJTI15_0
	.long	.LBB15_40-.LJTI15_0
	.long	.LBB15_40-.LJTI15_0
	.long	.LBB15_24-.LJTI15_0
	.long	.LBB15_40-.LJTI15_0
	.long	.LBB15_40-.LJTI15_0
	.long	.LBB15_27-.LJTI15_0
	.long	.LBB15_28-.LJTI15_0
	.long	.LBB15_29-.LJTI15_0
	.long	.LBB15_30-.LJTI15_0
	.long	.LBB15_40-.LJTI15_0
	.long	.LBB15_31-.LJTI15_0
	.long	.LBB15_32-.LJTI15_0
	.long	.LBB15_40-.LJTI15_0
	.long	.LBB15_40-.LJTI15_0
	.long	.LBB15_33-.LJTI15_0
	.long	.LBB15_40-.LJTI15_0
	.long	.LBB15_40-.LJTI15_0
	.long	.LBB15_34-.LJTI15_0
	.long	.LBB15_35-.LJTI15_0
	.long	.LBB15_40-.LJTI15_0
	.long	.LBB15_36-.LJTI15_0
	.long	.LBB15_40-.LJTI15_0
	.long	.LBB15_37-.LJTI15_0
	.long	.LBB15_38-.LJTI15_0
	.long	.LBB15_40-.LJTI15_0
	.long	.LBB15_40-.LJTI15_0
	.long	.LBB15_40-.LJTI15_0
	.long	.LBB15_40-.LJTI15_0
	.long	.LBB15_40-.LJTI15_0
	.long	.LBB15_39-.LJTI15_0

	.section	.rodata.cst16,"aM",@progbits,16
	.p2align	4, 0x0
.LCPI16_0:
	.byte	0
	.byte	1
	.byte	2
	.byte	3
	.byte	4
	.byte	5
	.byte	6
	.byte	7
	.byte	8
	.byte	9
	.byte	10
	.byte	11
	.byte	12
	.byte	13
	.byte	14
	.byte	15
.LCPI16_1:
	.byte	16
	.byte	17
	.byte	18
	.byte	19
	.byte	20
	.byte	21
	.byte	22
	.byte	23
	.byte	24
	.byte	25
	.byte	26
	.byte	27
	.byte	28
	.byte	29
	.byte	30
	.byte	31
	.section	".text.des_tool::command::status::write_whole::<#03326aa510967ad1>","ax",@progbits
	.p2align	4
	.type	"des_tool::command::status::write_whole::<#03326aa510967ad1>",@function
"des_tool::command::status::write_whole::<#03326aa510967ad1>":
	.cfi_startproc
	pushq	%rbp
	.cfi_def_cfa_offset 16
	pushq	%r15
	.cfi_def_cfa_offset 24
	pushq	%r14
	.cfi_def_cfa_offset 32
	pushq	%r13
	.cfi_def_cfa_offset 40
	pushq	%r12
	.cfi_def_cfa_offset 48
	pushq	%rbx
	.cfi_def_cfa_offset 56
	subq	$184, %rsp
	.cfi_def_cfa_offset 240
	.cfi_offset %rbx, -56
	.cfi_offset %r12, -48
	.cfi_offset %r13, -40
	.cfi_offset %r14, -32
	.cfi_offset %r15, -24
	.cfi_offset %rbp, -16
	movq	%rdx, %r14
	movq	%rsi, %r15
	movq	%rdi, %rbx
	movq	$-1, %r12
	leaq	96(%rsp), %r13
	xorl	%ebp, %ebp
	jmp	.LBB16_1
	.p2align	4
.LBB16_13:
	decq	%r12
	je	.LBB16_14
.LBB16_1:
	movq	%r14, %rcx
	subq	%rbp, %rcx
	jbe	.LBB16_2
	leaq	(%r15,%rbp), %rdx
	leaq	80(%rsp), %rdi
	movl	$2, %esi
	callq	"std::io::write_fd"
	movq	88(%rsp), %rax
	movups	(%r13), %xmm0
	movups	16(%r13), %xmm1
	movups	32(%r13), %xmm2
	movups	48(%r13), %xmm3
	movaps	%xmm0, (%rsp)
	movaps	%xmm1, 16(%rsp)
	movaps	%xmm2, 32(%rsp)
	movaps	%xmm3, 48(%rsp)
	movups	64(%r13), %xmm0
	movaps	%xmm0, 64(%rsp)
	cmpb	$0, 80(%rsp)
	je	.LBB16_4
	movq	%rax, %rcx
	shrq	$8, %rcx
	movaps	.LCPI16_0(%rip), %xmm0
	movaps	%xmm0, 80(%rsp)
	movaps	.LCPI16_1(%rip), %xmm0
	movaps	%xmm0, 96(%rsp)
	movabsq	$2820983053732684064, %rdx
	movq	%rdx, 112(%rsp)
	movb	$40, 120(%rsp)
	cmpb	$41, %cl
	jae	.LBB16_11
	andl	$63, %ecx
	cmpb	$35, 80(%rsp,%rcx)
	je	.LBB16_13
	jmp	.LBB16_11
	.p2align	4
.LBB16_4:
	testq	%rax, %rax
	je	.LBB16_5
	addq	%rax, %rbp
	jmp	.LBB16_13
.LBB16_11:
	movb	$1, (%rbx)
	movq	%rax, 8(%rbx)
	movaps	(%rsp), %xmm0
	movaps	16(%rsp), %xmm1
	movaps	32(%rsp), %xmm2
	movaps	48(%rsp), %xmm3
	movups	%xmm0, 16(%rbx)
	movups	%xmm1, 32(%rbx)
	movups	%xmm2, 48(%rbx)
	movups	%xmm3, 64(%rbx)
	movaps	64(%rsp), %xmm0
	jmp	.LBB16_7
.LBB16_2:
	movb	$0, (%rbx)
	xorps	%xmm0, %xmm0
	movups	%xmm0, 8(%rbx)
	movups	%xmm0, 24(%rbx)
	movups	%xmm0, 40(%rbx)
	movups	%xmm0, 56(%rbx)
	movups	%xmm0, 72(%rbx)
	movq	$0, 88(%rbx)
	jmp	.LBB16_8
.LBB16_14:
	movb	$1, (%rbx)
	movq	$5633, 8(%rbx)
	jmp	.LBB16_6
.LBB16_5:
	movb	$1, (%rbx)
	movq	$5889, 8(%rbx)
.LBB16_6:
	xorps	%xmm0, %xmm0
	movups	%xmm0, 16(%rbx)
	movups	%xmm0, 32(%rbx)
	movups	%xmm0, 48(%rbx)
	movups	%xmm0, 64(%rbx)
.LBB16_7:
	movups	%xmm0, 80(%rbx)
.LBB16_8:
	addq	$184, %rsp
	.cfi_def_cfa_offset 56
	popq	%rbx
	.cfi_def_cfa_offset 48
	popq	%r12
	.cfi_def_cfa_offset 40
	popq	%r13
	.cfi_def_cfa_offset 32
	popq	%r14
	.cfi_def_cfa_offset 24
	popq	%r15
	.cfi_def_cfa_offset 16
	popq	%rbp
	.cfi_def_cfa_offset 8
	retq
.Lfunc_end16:
	.size	"des_tool::command::status::write_whole::<#03326aa510967ad1>", .Lfunc_end16-"des_tool::command::status::write_whole::<#03326aa510967ad1>"
	.cfi_endproc

	.section	.rodata.cst16,"aM",@progbits,16
	.p2align	4, 0x0
.LCPI17_0:
	.byte	116
	.byte	104
	.byte	105
	.byte	115
	.byte	32
	.byte	109
	.byte	97
	.byte	99
	.byte	104
	.byte	105
	.byte	110
	.byte	101
	.byte	32
	.byte	108
	.byte	97
	.byte	99
.LCPI17_1:
	.byte	107
	.byte	115
	.byte	32
	.byte	97
	.byte	32
	.byte	102
	.byte	101
	.byte	97
	.byte	116
	.byte	117
	.byte	114
	.byte	101
	.byte	32
	.byte	111
	.byte	102
	.byte	32
.LCPI17_2:
	.byte	120
	.byte	56
	.byte	54
	.byte	45
	.byte	54
	.byte	52
	.byte	45
	.byte	118
	.byte	50
	.byte	44
	.byte	32
	.byte	119
	.byte	104
	.byte	105
	.byte	99
	.byte	104
.LCPI17_3:
	.byte	32
	.byte	116
	.byte	104
	.byte	105
	.byte	115
	.byte	32
	.byte	112
	.byte	114
	.byte	111
	.byte	103
	.byte	114
	.byte	97
	.byte	109
	.byte	32
	.byte	119
	.byte	97
.LCPI17_4:
	.byte	115
	.byte	32
	.byte	98
	.byte	117
	.byte	105
	.byte	108
	.byte	116
	.byte	32
	.byte	102
	.byte	111
	.byte	114
	.byte	58
	.byte	32
	.byte	114
	.byte	117
	.byte	110
.LCPI17_5:
	.byte	32
	.byte	105
	.byte	116
	.byte	32
	.byte	111
	.byte	110
	.byte	32
	.byte	97
	.byte	110
	.byte	111
	.byte	116
	.byte	104
	.byte	101
	.byte	114
	.byte	32
	.byte	109
.LCPI17_6:
	.byte	97
	.byte	99
	.byte	104
	.byte	105
	.byte	110
	.byte	101
	.byte	44
	.byte	32
	.byte	111
	.byte	114
	.byte	32
	.byte	98
	.byte	117
	.byte	105
	.byte	108
	.byte	100
.LCPI17_7:
	.byte	32
	.byte	105
	.byte	116
	.byte	32
	.byte	119
	.byte	105
	.byte	116
	.byte	104
	.byte	32
	.byte	45
	.byte	45
	.byte	99
	.byte	112
	.byte	117
	.byte	32
	.byte	120
	.section	.text.main,"ax",@progbits
	.globl	cukvashe_main
	.p2align	4
	.type	cukvashe_main,@function
cukvashe_main:
	.cfi_startproc
	endbr64
	pushq	%rbp
	.cfi_def_cfa_offset 16
	.cfi_offset %rbp, -16
	movq	%rsp, %rbp
	.cfi_def_cfa_register %rbp
	pushq	%rbx
	pushq	%rax
	.cfi_offset %rbx, -24
	movl	$1, %esi
	movl	$13, %edi
	callq	__sysv_signal@PLT
	xorl	%edi, %edi
	callq	__x86_get_cpuid_feature_leaf@PLT
	movl	24(%rax), %ebx
	movl	$2, %edi
	callq	__x86_get_cpuid_feature_leaf@PLT
	notl	%ebx
	testl	$9970177, %ebx
	jne	.LBB17_2
	movl	24(%rax), %eax
	andl	$1, %eax
	je	.LBB17_2
	leaq	-8(%rbp), %rsp
	popq	%rbx
	popq	%rbp
	.cfi_def_cfa %rsp, 8
	jmp	"des_tool::main+start"
.LBB17_2:
	.cfi_def_cfa %rbp, 16
	movq	%rsp, %rsi
	subq	$144, %rsi
	cmpq	%rsp, %rsi
	jge	.LBB17_5
.LBB17_4:
	xorq	$0, (%rsp)
	subq	$3072, %rsp
	cmpq	%rsp, %rsi
	jl	.LBB17_4
.LBB17_5:
	movq	%rsi, %rsp
	movaps	.LCPI17_0(%rip), %xmm0
	movaps	%xmm0, (%rsi)
	movaps	.LCPI17_1(%rip), %xmm0
	movaps	%xmm0, 16(%rsi)
	movaps	.LCPI17_2(%rip), %xmm0
	movaps	%xmm0, 32(%rsi)
	movaps	.LCPI17_3(%rip), %xmm0
	movaps	%xmm0, 48(%rsi)
	movaps	.LCPI17_4(%rip), %xmm0
	movaps	%xmm0, 64(%rsi)
	movaps	.LCPI17_5(%rip), %xmm0
	movaps	%xmm0, 80(%rsi)
	movaps	.LCPI17_6(%rip), %xmm0
	movaps	%xmm0, 96(%rsi)
	movaps	.LCPI17_7(%rip), %xmm0
	movaps	%xmm0, 112(%rsi)
	movl	$908932664, 128(%rsi)
	movw	$2612, 132(%rsi)
	movl	$134, %edx
	movl	$2, %edi
	callq	__write@PLT
	movl	$127, %eax
	leaq	-8(%rbp), %rsp
	popq	%rbx
	popq	%rbp
	.cfi_def_cfa %rsp, 8
	retq
.Lfunc_end17:
	.size	cukvashe_main, .Lfunc_end17-cukvashe_main
	.cfi_endproc

	.type	.Lstatic.11,@object
	.section	.rodata.cst16,"aM",@progbits,16
.Lstatic.11:
	.ascii	"\001\001\002\002\002\002\002\002\001\002\002\002\002\002\002\001"
	.size	.Lstatic.11, 16

	.type	.Lstatic.12,@object
	.section	.rodata..Lstatic.12,"a",@progbits
.Lstatic.12:
	.ascii	"\016\000\004\017\r\007\001\004\002\016\017\002\013\r\b\001\003\n\n\006\006\f\f\013\005\t\t\005\000\003\007\b\004\017\001\f\016\b\b\002\r\004\006\t\002\001\013\007\017\005\f\013\t\003\007\016\003\n\n\000\005\006\000\r\017\003\001\r\b\004\016\007\006\017\013\002\003\b\004\016\t\f\007\000\002\001\r\n\f\006\000\t\005\013\n\005\000\r\016\b\007\n\013\001\n\003\004\017\r\004\001\002\005\013\b\006\f\007\006\f\t\000\003\005\002\016\017\t\n\r\000\007\t\000\016\t\006\003\003\004\017\006\005\n\001\002\r\b\f\005\007\016\013\f\004\013\002\017\b\001\r\001\006\n\004\r\t\000\b\006\017\t\003\b\000\007\013\004\001\017\002\016\f\003\005\013\n\005\016\002\007\f\007\r\r\b\016\013\003\005\000\006\006\017\t\000\n\003\001\004\002\007\b\002\005\f\013\001\f\n\004\016\017\t\n\003\006\017\t\000\000\006\f\n\013\001\007\r\r\b\017\t\001\004\003\005\016\013\005\f\002\007\b\002\004\016\002\016\f\013\004\002\001\f\007\004\n\007\013\r\006\001\b\005\005\000\003\017\017\n\r\003\000\t\016\b\t\006\004\013\002\b\001\f\013\007\n\001\r\016\007\002\b\r\017\006\t\017\f\000\005\t\006\n\003\004\000\005\016\003\f\n\001\017\n\004\017\002\t\007\002\f\006\t\b\005\000\006\r\001\003\r\004\016\016\000\007\013\005\003\013\b\t\004\016\003\017\002\005\f\002\t\b\005\f\017\003\n\007\013\000\016\004\001\n\007\001\006\r\000\013\b\006\r\004\r\013\000\002\013\016\007\017\004\000\t\b\001\r\n\003\016\f\003\t\005\007\f\005\002\n\017\006\b\001\006\001\006\004\013\013\r\r\b\f\001\003\004\007\n\016\007\n\t\017\005\006\000\b\017\000\016\005\002\t\003\002\f\r\001\002\017\b\r\004\b\006\n\017\003\013\007\001\004\n\f\t\005\003\006\016\013\005\000\000\016\f\t\007\002\007\002\013\001\004\016\001\007\t\004\f\n\016\b\002\r\000\017\006\f\n\t\r\000\017\003\003\005\005\006\b\013"
	.size	.Lstatic.12, 512

	.type	.Lstatic.13,@object
	.section	.rodata.cst16,"aM",@progbits,16
.Lstatic.13:
	.ascii	"0123456789abcdef"
	.size	.Lstatic.13, 16

	.type	.Lstatic.14,@object
	.section	.rodata..Lstatic.14,"a",@progbits
.Lstatic.14:
	.ascii	"Ok\n"
	.size	.Lstatic.14, 3

	.type	.Lstatic.15,@object
	.section	.rodata.cst8,"aM",@progbits,8
.Lstatic.15:
	.ascii	"WeakKey\n"
	.size	.Lstatic.15, 8

	.type	.Lstatic.16,@object
	.section	.rodata..Lstatic.16,"a",@progbits
.Lstatic.16:
	.ascii	"\001\001\001\001\001\001\001\001\376\376\376\376\376\376\376\376\340\340\340\340\361\361\361\361\037\037\037\037\016\016\016\016\001\037\001\037\001\016\001\016\037\001\037\001\016\001\016\001\001\340\001\340\001\361\001\361\340\001\340\001\361\001\361\001\001\376\001\376\001\376\001\376\376\001\376\001\376\001\376\001\037\340\037\340\016\361\016\361\340\037\340\037\361\016\361\016\037\376\037\376\016\376\016\376\376\037\376\037\376\016\376\016\340\376\340\376\361\376\361\376\376\340\376\340\376\361\376\361\001\001\037\037\001\001\016\016\037\037\001\001\016\016\001\001\340\340\037\037\361\361\016\016\001\001\340\340\001\001\361\361\037\037\340\340\016\016\361\361\340\340\376\376\361\361\376\376\001\001\376\376\001\001\376\376\037\037\376\376\016\016\376\376\340\376\001\037\361\376\001\016\001\037\037\001\001\016\016\001\037\340\001\376\016\361\001\376\340\376\037\001\361\376\016\001\001\037\340\376\001\016\361\376\037\340\340\037\016\361\361\016\340\376\376\340\361\376\376\361\001\037\376\340\001\016\376\361\037\340\376\001\016\361\376\001\376\001\001\376\376\001\001\376\001\340\037\376\001\361\016\376\037\376\001\340\016\376\001\361\376\001\037\340\376\001\016\361\376\001\340\037\376\001\361\016\037\376\340\001\016\376\361\001\376\037\001\340\376\016\001\361\001\340\340\001\001\361\361\001\037\376\376\037\016\376\376\016\376\037\340\001\376\016\361\001\001\340\376\037\001\361\376\016\340\001\001\340\361\001\001\361\376\037\037\376\376\016\016\376\001\376\037\340\001\376\016\361\340\001\037\376\361\001\016\376\376\340\001\037\376\361\001\016\001\376\340\037\001\376\361\016\340\001\376\037\361\001\376\016\376\340\037\001\376\361\016\001\001\376\376\001\001\376\376\001\340\037\001\376\361\016\001\376\376\340\340\376\376\361\361\376\037\001\001\037\016\001\001\016\340\037\037\340\361\016\016\361\376\376\001\001\376\376\001\001\037\001\340\376\016\001\361\376\340\037\376\001\361\016\376\001\376\376\037\037\376\376\016\016\037\001\376\340\016\001\376\361\340\340\001\001\361\361\001\001\376\376\340\340\376\376\361\361"
	.size	.Lstatic.16, 512

	.type	.Lstatic.18,@object
	.section	.rodata..Lstatic.18,"a",@progbits
.Lstatic.18:
	.byte	10
	.size	.Lstatic.18, 1

	.type	.Lstatic.19,@object
	.section	.rodata..Lstatic.19,"a",@progbits
.Lstatic.19:
	.ascii	"Usage"
	.size	.Lstatic.19, 5

	.type	.Lstatic.20,@object
	.section	.rodata..Lstatic.20,"a",@progbits
.Lstatic.20:
	.ascii	"KeyLength"
	.size	.Lstatic.20, 9

	.type	.Lstatic.21,@object
	.section	.rodata..Lstatic.21,"a",@progbits
.Lstatic.21:
	.ascii	"KeyText"
	.size	.Lstatic.21, 7

	.type	.Lstatic.22,@object
	.section	.rodata..Lstatic.22,"a",@progbits
.Lstatic.22:
	.ascii	"BlockLength"
	.size	.Lstatic.22, 11

	.type	.Lstatic.23,@object
	.section	.rodata..Lstatic.23,"a",@progbits
.Lstatic.23:
	.ascii	"BlockText"
	.size	.Lstatic.23, 9

	.type	.Lstatic.24,@object
	.section	.rodata..Lstatic.24,"a",@progbits
.Lstatic.24:
	.ascii	"Memory"
	.size	.Lstatic.24, 6

	.type	".Lswitch.table.des_tool::command::status::show::<#8366a837468c3893>",@object
	.section	".rodata..Lswitch.table.des_tool::command::status::show::<#8366a837468c3893>","a",@progbits
	.p2align	3, 0x0
".Lswitch.table.des_tool::command::status::show::<#8366a837468c3893>":
	.quad	5
	.quad	9
	.quad	7
	.quad	11
	.quad	9
	.quad	6
	.size	".Lswitch.table.des_tool::command::status::show::<#8366a837468c3893>", 48

	.type	".Lswitch.table.des_tool::command::status::show::<#8366a837468c3893>.168.rel",@object
	.section	".rodata..Lswitch.table.des_tool::command::status::show::<#8366a837468c3893>.168.rel","a",@progbits
	.p2align	2, 0x0
".Lswitch.table.des_tool::command::status::show::<#8366a837468c3893>.168.rel":
	.long	.Lstatic.19-".Lswitch.table.des_tool::command::status::show::<#8366a837468c3893>.168.rel"
	.long	.Lstatic.20-".Lswitch.table.des_tool::command::status::show::<#8366a837468c3893>.168.rel"
	.long	.Lstatic.21-".Lswitch.table.des_tool::command::status::show::<#8366a837468c3893>.168.rel"
	.long	.Lstatic.22-".Lswitch.table.des_tool::command::status::show::<#8366a837468c3893>.168.rel"
	.long	.Lstatic.23-".Lswitch.table.des_tool::command::status::show::<#8366a837468c3893>.168.rel"
	.long	.Lstatic.24-".Lswitch.table.des_tool::command::status::show::<#8366a837468c3893>.168.rel"
	.size	".Lswitch.table.des_tool::command::status::show::<#8366a837468c3893>.168.rel", 24

	.ident	"rattle logic=dac8208d650f15bf3e2dc313a14fa4c783a3acf887bdfab66e1714b038d9e11b"
	.section	".note.GNU-stack","",@progbits
