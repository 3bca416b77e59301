	.file	"rattle"
	.section	".text.loading::load","ax",@progbits
	.p2align	4                               # -- Begin function loading::load
	.type	"loading::load",@function
"loading::load":                        # @"loading::load"
# %bb.0:                                # %start
	pushq	%rbp
	pushq	%r15
	pushq	%r14
	pushq	%r13
	pushq	%r12
	pushq	%rbx
	subq	$1336, %rsp                     # imm = 0x538
	movq	%rdx, %r14
	movq	%rsi, %r15
	movq	%rdi, %r13
	leaq	356(%rsp), %rdi
	xorl	%ebp, %ebp
	movl	$324, %edx                      # imm = 0x144
	xorl	%esi, %esi
	callq	memset@PLT
	leaq	688(%rsp), %r12
	movl	$320, %edx                      # imm = 0x140
	movq	%r12, %rdi
	xorl	%esi, %esi
	callq	memset@PLT
	testq	%r14, %r14
	je	.LBB0_97
# %bb.1:                                # %join.5.lr.ph.i
	xorl	%ebp, %ebp
	xorl	%ebx, %ebx
	movq	%r13, 8(%rsp)                   # 8-byte Spill
.LBB0_2:                                # %join.5.i
                                        # =>This Inner Loop Header: Depth=1
	cmpq	$64, %rbp
	je	.LBB0_3
# %bb.5:                                # %arm.3.i.i.i.i.i
                                        #   in Loop: Header=BB0_2 Depth=1
	movq	%r14, %rdx
	subq	%rbx, %rdx
	cmpq	$1, %rdx
	je	.LBB0_4
# %bb.6:                                # %arm.3.i.i.i.i.i
                                        #   in Loop: Header=BB0_2 Depth=1
	movzbl	(%r15,%rbx), %ecx
	leal	-9(%rcx), %eax
	cmpb	$2, %al
	jb	.LBB0_4
# %bb.7:                                # %arm.3.i.i.i.1.i.i
                                        #   in Loop: Header=BB0_2 Depth=1
	movzbl	1(%r15,%rbx), %eax
	leal	-9(%rax), %esi
	cmpb	$2, %sil
	jae	.LBB0_8
# %bb.14:                               # %"fields::place_of.exit.i.i"
                                        #   in Loop: Header=BB0_2 Depth=1
	addb	$-48, %cl
	cmpb	$9, %cl
	ja	.LBB0_4
# %bb.15:                               #   in Loop: Header=BB0_2 Depth=1
	addq	$2, %rbx
	movl	%eax, %edx
	movl	%ecx, %eax
	cmpb	$10, %dl
	jne	.LBB0_17
	jmp	.LBB0_4
	.p2align	4
.LBB0_8:                                # %join.9.i.i.i.1.i.i
                                        #   in Loop: Header=BB0_2 Depth=1
	cmpq	$2, %rdx
	je	.LBB0_4
# %bb.9:                                # %arm.3.i.i.i.2.i.i
                                        #   in Loop: Header=BB0_2 Depth=1
	movzbl	2(%r15,%rbx), %edx
	leal	-9(%rdx), %esi
	cmpb	$1, %sil
	ja	.LBB0_4
# %bb.10:                               # %then.9.i.i.i
                                        #   in Loop: Header=BB0_2 Depth=1
	addb	$-48, %cl
	cmpb	$9, %cl
	ja	.LBB0_4
# %bb.11:                               # %arm.12.i.i.i
                                        #   in Loop: Header=BB0_2 Depth=1
	addb	$-48, %al
	cmpb	$9, %al
	ja	.LBB0_4
# %bb.12:                               # %arm.17.i.i.i
                                        #   in Loop: Header=BB0_2 Depth=1
	movzbl	%cl, %ecx
	addl	%ecx, %ecx
	leal	(%rcx,%rcx,4), %ecx
	addb	%cl, %al
	leal	-64(%rax), %ecx
	cmpb	$-54, %cl
	jb	.LBB0_4
# %bb.13:                               #   in Loop: Header=BB0_2 Depth=1
	addq	$3, %rbx
	cmpb	$10, %dl
	je	.LBB0_4
.LBB0_17:                               # %arm.5.i.i
                                        #   in Loop: Header=BB0_2 Depth=1
	movzbl	%al, %eax
	cmpq	%rax, %rbp
	jne	.LBB0_4
# %bb.18:                               # %else.2.i.i.i
                                        #   in Loop: Header=BB0_2 Depth=1
	movq	%r14, %rsi
	subq	%rbx, %rsi
	je	.LBB0_4
# %bb.19:                               # %arm.3.i.i.i.i.i.i
                                        #   in Loop: Header=BB0_2 Depth=1
	movzbl	(%r15,%rbx), %eax
	leal	-9(%rax), %edx
	movb	$1, %cl
	cmpb	$2, %dl
	jae	.LBB0_21
# %bb.20:                               #   in Loop: Header=BB0_2 Depth=1
	xorl	%esi, %esi
	movl	%eax, %edx
	jmp	.LBB0_26
	.p2align	4
.LBB0_21:                               # %join.9.i.i.i.i.i.i
                                        #   in Loop: Header=BB0_2 Depth=1
	cmpq	$1, %rsi
	je	.LBB0_4
# %bb.22:                               # %arm.3.i.i.i.i.1.i.i
                                        #   in Loop: Header=BB0_2 Depth=1
	movzbl	1(%r15,%rbx), %edx
	leal	-9(%rdx), %edi
	cmpb	$2, %dil
	jae	.LBB0_24
# %bb.23:                               #   in Loop: Header=BB0_2 Depth=1
	movl	$1, %esi
	xorl	%ecx, %ecx
	jmp	.LBB0_26
.LBB0_24:                               # %join.9.i.i.i.i.1.i.i
                                        #   in Loop: Header=BB0_2 Depth=1
	cmpq	$2, %rsi
	je	.LBB0_4
# %bb.25:                               # %arm.3.i.i.i.i.2.i.i
                                        #   in Loop: Header=BB0_2 Depth=1
	movzbl	2(%r15,%rbx), %edx
	leal	-9(%rdx), %edi
	movl	$2, %esi
	cmpb	$1, %dil
	ja	.LBB0_4
.LBB0_26:                               # %arm.1.i.i.i.i
                                        #   in Loop: Header=BB0_2 Depth=1
	cmpb	$10, %dl
	je	.LBB0_4
# %bb.27:                               # %else.2.i32.i.i
                                        #   in Loop: Header=BB0_2 Depth=1
	leaq	(%rbx,%rsi), %rdx
	incq	%rdx
	movq	%r14, %r9
	subq	%rdx, %r9
	je	.LBB0_4
# %bb.28:                               # %arm.3.i.i.i.i42.i.i
                                        #   in Loop: Header=BB0_2 Depth=1
	cmpq	$1, %r9
	je	.LBB0_4
# %bb.29:                               # %arm.3.i.i.i.i42.i.i
                                        #   in Loop: Header=BB0_2 Depth=1
	movzbl	(%r15,%rdx), %r8d
	leal	-9(%r8), %esi
	cmpb	$2, %sil
	jb	.LBB0_4
# %bb.30:                               # %arm.3.i.i.i.i42.1.i.i
                                        #   in Loop: Header=BB0_2 Depth=1
	movzbl	1(%r15,%rdx), %esi
	leal	-9(%rsi), %edi
	cmpb	$2, %dil
	jae	.LBB0_31
# %bb.44:                               # %arm.1.i14.thread
                                        #   in Loop: Header=BB0_2 Depth=1
	movl	$1, %edi
	cmpb	$45, %r8b
	jne	.LBB0_36
# %bb.45:                               #   in Loop: Header=BB0_2 Depth=1
	xorl	%r10d, %r10d
	jmp	.LBB0_51
	.p2align	4
.LBB0_31:                               # %join.9.i.i.i.i45.1.i.i
                                        #   in Loop: Header=BB0_2 Depth=1
	cmpq	$2, %r9
	je	.LBB0_4
# %bb.32:                               # %arm.3.i.i.i.i42.2.i.i
                                        #   in Loop: Header=BB0_2 Depth=1
	movzbl	2(%r15,%rdx), %esi
	leal	-9(%rsi), %r10d
	movl	$2, %edi
	cmpb	$2, %r10b
	jb	.LBB0_35
# %bb.33:                               # %join.9.i.i.i.i45.2.i.i
                                        #   in Loop: Header=BB0_2 Depth=1
	cmpq	$3, %r9
	je	.LBB0_4
# %bb.34:                               # %arm.3.i.i.i.i42.3.i.i
                                        #   in Loop: Header=BB0_2 Depth=1
	movzbl	3(%r15,%rdx), %esi
	leal	-9(%rsi), %r9d
	movl	$3, %edi
	cmpb	$1, %r9b
	ja	.LBB0_4
.LBB0_35:                               # %arm.1.i14
                                        #   in Loop: Header=BB0_2 Depth=1
	cmpb	$45, %r8b
	je	.LBB0_4
.LBB0_36:                               # %default.9.i
                                        #   in Loop: Header=BB0_2 Depth=1
	addb	$-49, %r8b
	cmpb	$9, %r8b
	jae	.LBB0_4
# %bb.37:                               # %arm.1.i.i.i
                                        #   in Loop: Header=BB0_2 Depth=1
	movzbl	(%r15,%rdx), %r8d
	addb	$-48, %r8b
	cmpb	$9, %r8b
	ja	.LBB0_4
# %bb.38:                               # %"fields::longer.exit.i.i"
                                        #   in Loop: Header=BB0_2 Depth=1
	cmpl	$1, %edi
	je	.LBB0_50
# %bb.39:                               # %join.6.i.i.1
                                        #   in Loop: Header=BB0_2 Depth=1
	movzbl	1(%r15,%rdx), %r10d
	leal	-48(%r10), %r9d
	cmpb	$9, %r9b
	ja	.LBB0_4
# %bb.40:                               # %join.6.i.i.1
                                        #   in Loop: Header=BB0_2 Depth=1
	movzbl	%r8b, %r8d
	addl	%r8d, %r8d
	leal	(%r8,%r8,4), %r8d
	movb	$47, %r11b
	subb	%r10b, %r11b
	cmpb	%r11b, %r8b
	ja	.LBB0_4
# %bb.41:                               # %"fields::longer.exit.i.i.1"
                                        #   in Loop: Header=BB0_2 Depth=1
	addb	%r8b, %r9b
	cmpb	$-56, %r9b
	ja	.LBB0_4
# %bb.42:                               # %loop.3.i.i.1
                                        #   in Loop: Header=BB0_2 Depth=1
	cmpl	$2, %edi
	jne	.LBB0_46
# %bb.43:                               #   in Loop: Header=BB0_2 Depth=1
	movl	%r9d, %r8d
	jmp	.LBB0_50
.LBB0_46:                               # %join.6.i.i.2
                                        #   in Loop: Header=BB0_2 Depth=1
	cmpb	$25, %r9b
	ja	.LBB0_4
# %bb.47:                               # %arm.1.i.i.i.2
                                        #   in Loop: Header=BB0_2 Depth=1
	movzbl	2(%r15,%rdx), %r10d
	leal	-48(%r10), %r8d
	cmpb	$9, %r8b
	ja	.LBB0_4
# %bb.48:                               # %arm.1.i.i.i.2
                                        #   in Loop: Header=BB0_2 Depth=1
	movzbl	%r9b, %r9d
	addl	%r9d, %r9d
	leal	(%r9,%r9,4), %r9d
	movb	$47, %r11b
	subb	%r10b, %r11b
	cmpb	%r11b, %r9b
	ja	.LBB0_4
# %bb.49:                               # %arm.1.i.i.i.2
                                        #   in Loop: Header=BB0_2 Depth=1
	addb	%r9b, %r8b
	cmpb	$-56, %r8b
	ja	.LBB0_4
.LBB0_50:                               # %"fields::account_of.exit.loopexit"
                                        #   in Loop: Header=BB0_2 Depth=1
	movzbl	%r8b, %r10d
.LBB0_51:                               # %"fields::account_of.exit"
                                        #   in Loop: Header=BB0_2 Depth=1
	testb	%cl, %cl
	jne	.LBB0_4
# %bb.52:                               # %then.6.i82.i.i
                                        #   in Loop: Header=BB0_2 Depth=1
	leaq	(%rdx,%rdi), %rbx
	incq	%rbx
	cmpb	$10, %sil
	jne	.LBB0_55
# %bb.53:                               # %then.1.i
                                        #   in Loop: Header=BB0_2 Depth=1
	cmpb	$69, %al
	jne	.LBB0_70
# %bb.54:                               #   in Loop: Header=BB0_2 Depth=1
	xorl	%ecx, %ecx
	jmp	.LBB0_96
	.p2align	4
.LBB0_55:                               # %join.3.i
                                        #   in Loop: Header=BB0_2 Depth=1
	movq	%r14, %rcx
	subq	%rbx, %rcx
	je	.LBB0_70
# %bb.56:                               # %arm.3.i.i.i.i
                                        #   in Loop: Header=BB0_2 Depth=1
	leaq	(%r15,%rbx), %rdx
	movzbl	(%rdx), %edi
	leal	-9(%rdi), %esi
	cmpb	$2, %sil
	jae	.LBB0_58
# %bb.57:                               #   in Loop: Header=BB0_2 Depth=1
	xorl	%r8d, %r8d
	movl	%edi, %r9d
	xorl	%ecx, %ecx
	movzbl	%al, %esi
	addq	%rcx, %rbx
	incq	%rbx
	cmpb	$10, %r9b
	je	.LBB0_65
	jmp	.LBB0_86
.LBB0_58:                               # %join.9.i.i.i.i
                                        #   in Loop: Header=BB0_2 Depth=1
	cmpq	$1, %rcx
	je	.LBB0_70
# %bb.59:                               # %arm.3.i.i.i.1.i
                                        #   in Loop: Header=BB0_2 Depth=1
	movzbl	1(%rdx), %r9d
	leal	-9(%r9), %esi
	cmpb	$2, %sil
	jae	.LBB0_61
# %bb.60:                               #   in Loop: Header=BB0_2 Depth=1
	movl	$1, %ecx
	movb	$1, %r8b
	movzbl	%al, %esi
	addq	%rcx, %rbx
	incq	%rbx
	cmpb	$10, %r9b
	jne	.LBB0_86
.LBB0_65:                               # %then.11.i
                                        #   in Loop: Header=BB0_2 Depth=1
	cmpl	$75, %esi
	je	.LBB0_71
# %bb.66:                               # %then.11.i
                                        #   in Loop: Header=BB0_2 Depth=1
	cmpl	$90, %esi
	je	.LBB0_78
# %bb.67:                               # %then.11.i
                                        #   in Loop: Header=BB0_2 Depth=1
	cmpl	$76, %esi
	jne	.LBB0_70
# %bb.68:                               # %arm.1.i19.i
                                        #   in Loop: Header=BB0_2 Depth=1
	testb	%r8b, %r8b
	je	.LBB0_70
# %bb.69:                               # %"scanning::letter_of.exit.i.i"
                                        #   in Loop: Header=BB0_2 Depth=1
	movl	%edi, %ecx
	andb	$127, %cl
	addb	$-127, %cl
	movl	$256, %eax                      # imm = 0x100
	cmpb	$-94, %cl
	jae	.LBB0_85
	jmp	.LBB0_70
.LBB0_61:                               # %join.9.i.i.i.1.i
                                        #   in Loop: Header=BB0_2 Depth=1
	cmpq	$2, %rcx
	je	.LBB0_70
# %bb.62:                               # %arm.3.i.i.i.2.i
                                        #   in Loop: Header=BB0_2 Depth=1
	movzbl	2(%rdx), %r9d
	leal	-9(%r9), %ecx
	cmpb	$1, %cl
	ja	.LBB0_70
# %bb.63:                               #   in Loop: Header=BB0_2 Depth=1
	movl	$2, %ecx
	xorl	%r8d, %r8d
	movzbl	%al, %esi
	addq	%rcx, %rbx
	incq	%rbx
	cmpb	$10, %r9b
	je	.LBB0_65
.LBB0_86:                               # %join.13.i
                                        #   in Loop: Header=BB0_2 Depth=1
	movq	%r14, %rdi
	subq	%rbx, %rdi
	je	.LBB0_70
# %bb.87:                               # %arm.3.i.i.i49.i
                                        #   in Loop: Header=BB0_2 Depth=1
	leaq	(%r15,%rbx), %r8
	movzbl	(%r8), %eax
	leal	-9(%rax), %r9d
	cmpb	$2, %r9b
	jae	.LBB0_89
# %bb.88:                               #   in Loop: Header=BB0_2 Depth=1
	xorl	%r9d, %r9d
	jmp	.LBB0_93
.LBB0_89:                               # %join.9.i.i.i52.i
                                        #   in Loop: Header=BB0_2 Depth=1
	cmpq	$1, %rdi
	je	.LBB0_70
# %bb.90:                               # %arm.3.i.i.i49.1.i
                                        #   in Loop: Header=BB0_2 Depth=1
	movzbl	1(%r8), %eax
	leal	-9(%rax), %r11d
	movl	$1, %r9d
	cmpb	$2, %r11b
	jb	.LBB0_93
# %bb.91:                               # %join.9.i.i.i52.1.i
                                        #   in Loop: Header=BB0_2 Depth=1
	cmpq	$2, %rdi
	je	.LBB0_70
# %bb.92:                               # %arm.3.i.i.i49.2.i
                                        #   in Loop: Header=BB0_2 Depth=1
	movzbl	2(%r8), %eax
	leal	-9(%rax), %edi
	movl	$2, %r9d
	cmpb	$1, %dil
	ja	.LBB0_70
.LBB0_93:                               # %arm.17.i
                                        #   in Loop: Header=BB0_2 Depth=1
	cmpb	$10, %al
	jne	.LBB0_70
# %bb.94:                               # %then.20.i
                                        #   in Loop: Header=BB0_2 Depth=1
	leaq	3(%rsp), %rdi
	movq	%r14, %r13
	movq	%r10, %r14
	movq	%r12, 16(%rsp)                  # 8-byte Spill
	movq	%r9, %r12
	callq	"scanning::parse_two"
	movq	%r12, %rax
	movq	16(%rsp), %r12                  # 8-byte Reload
	cmpb	$1, 3(%rsp)
	jne	.LBB0_70
# %bb.95:                               # %arm.23.i
                                        #   in Loop: Header=BB0_2 Depth=1
	movq	%r14, %r10
	movq	%r13, %r14
	addq	%rax, %rbx
	incq	%rbx
	movl	4(%rsp), %ecx
	jmp	.LBB0_96
.LBB0_78:                               # %arm.3.i.i
                                        #   in Loop: Header=BB0_2 Depth=1
	cmpl	$1, %ecx
	je	.LBB0_83
# %bb.79:                               # %arm.3.i.i
                                        #   in Loop: Header=BB0_2 Depth=1
	testq	%rcx, %rcx
	je	.LBB0_70
# %bb.80:                               # %then.9.i23.i.i
                                        #   in Loop: Header=BB0_2 Depth=1
	addb	$-48, %dil
	cmpb	$9, %dil
	ja	.LBB0_70
# %bb.81:                               # %arm.12.i26.i.i
                                        #   in Loop: Header=BB0_2 Depth=1
	movzbl	1(%rdx), %ecx
	addb	$-48, %cl
	cmpb	$9, %cl
	ja	.LBB0_70
# %bb.82:                               # %arm.17.i30.i.i
                                        #   in Loop: Header=BB0_2 Depth=1
	movzbl	%dil, %eax
	addl	%eax, %eax
	leal	(%rax,%rax,4), %eax
	addb	%al, %cl
	leal	-64(%rcx), %edx
	movl	$259, %eax                      # imm = 0x103
	jmp	.LBB0_76
.LBB0_71:                               # %arm.2.i18.i
                                        #   in Loop: Header=BB0_2 Depth=1
	cmpl	$1, %ecx
	je	.LBB0_77
# %bb.72:                               # %arm.2.i18.i
                                        #   in Loop: Header=BB0_2 Depth=1
	testq	%rcx, %rcx
	je	.LBB0_70
# %bb.73:                               # %then.9.i.i.i7
                                        #   in Loop: Header=BB0_2 Depth=1
	addb	$-48, %dil
	cmpb	$9, %dil
	ja	.LBB0_70
# %bb.74:                               # %arm.12.i.i.i9
                                        #   in Loop: Header=BB0_2 Depth=1
	movzbl	1(%rdx), %ecx
	addb	$-48, %cl
	cmpb	$9, %cl
	ja	.LBB0_70
# %bb.75:                               # %arm.17.i.i.i11
                                        #   in Loop: Header=BB0_2 Depth=1
	movzbl	%dil, %eax
	addl	%eax, %eax
	leal	(%rax,%rax,4), %eax
	addb	%al, %cl
	leal	-64(%rcx), %edx
	movl	$3, %eax
.LBB0_76:                               # %arm.17.i.i.i11
                                        #   in Loop: Header=BB0_2 Depth=1
	movl	%ecx, %edi
	cmpb	$-54, %dl
	jae	.LBB0_85
	jmp	.LBB0_70
.LBB0_83:                               # %"fields::place_of.exit34.i.i"
                                        #   in Loop: Header=BB0_2 Depth=1
	addb	$-48, %dil
	movl	$259, %eax                      # imm = 0x103
	jmp	.LBB0_84
.LBB0_77:                               # %"fields::place_of.exit.i.i5"
                                        #   in Loop: Header=BB0_2 Depth=1
	addb	$-48, %dil
	movl	$3, %eax
.LBB0_84:                               # %"fields::place_of.exit34.i.i"
                                        #   in Loop: Header=BB0_2 Depth=1
	cmpb	$9, %dil
	ja	.LBB0_70
.LBB0_85:                               # %arm.14.i4
                                        #   in Loop: Header=BB0_2 Depth=1
	movzbl	%dil, %ecx
	shll	$16, %ecx
	orq	%rax, %rcx
.LBB0_96:                               # %arm.9.i
                                        #   in Loop: Header=BB0_2 Depth=1
	movq	%rcx, %rax
	shlq	$8, %rax
	orq	%r10, %rax
	shrl	$24, %ecx
	movb	%cl, 4(%r12)
	movl	%eax, (%r12)
	incq	%rbp
	addq	$5, %r12
	cmpq	%rbx, %r14
	movq	8(%rsp), %r13                   # 8-byte Reload
	ja	.LBB0_2
.LBB0_97:                               # %arm.1
	movq	%rbp, 680(%rsp)
	leaq	684(%rsp), %rsi
	leaq	1012(%rsp), %r14
	movl	$324, %edx                      # imm = 0x144
	movq	%r14, %rdi
	callq	memcpy@PLT
	movl	%ebp, 24(%rsp)
	leaq	28(%rsp), %rdi
	movl	$324, %edx                      # imm = 0x144
	movq	%r14, %rsi
	callq	memcpy@PLT
	movq	24(%rsp), %rbx
	testq	%rbx, %rbx
	je	.LBB0_98
# %bb.100:                              # %join.7
	leaq	24(%rsp), %rdi
	callq	"syntax::naming::tree_fault_of"
	movl	%eax, %ebp
	cmpb	$1, %al
	jne	.LBB0_102
# %bb.101:                              # %arm.8
	movq	%rdx, %rbx
	jmp	.LBB0_103
.LBB0_98:                               # %then.5
	movl	$1, (%r13)
	addq	$4, %r13
	movl	$332, %edx                      # imm = 0x14C
	jmp	.LBB0_99
.LBB0_102:                              # %arm.9
	leaq	356(%rsp), %rdi
	leaq	1012(%rsp), %rsi
	movl	$324, %edx                      # imm = 0x144
	callq	memcpy@PLT
.LBB0_103:                              # %join.10
	movzbl	%bpl, %eax
	movl	%eax, (%r13)
	movl	%eax, 4(%r13)
	movl	%ebx, 8(%r13)
	addq	$12, %r13
	leaq	356(%rsp), %rsi
	movl	$324, %edx                      # imm = 0x144
	movq	%r13, %rdi
	callq	memcpy@PLT
	addq	$1336, %rsp                     # imm = 0x538
	popq	%rbx
	popq	%r12
	popq	%r13
	popq	%r14
	popq	%r15
	popq	%rbp
	retq
.LBB0_70:                               # %"scanning::scan_node.exit.thread"
	movq	8(%rsp), %r13                   # 8-byte Reload
	jmp	.LBB0_4
.LBB0_3:
	movl	$64, %ebp
.LBB0_4:                                # %arm.2
	movq	$1, (%r13)
	movl	%ebp, 8(%r13)
	addq	$12, %r13
	movl	$324, %edx                      # imm = 0x144
.LBB0_99:                               # %then.5
	movq	%r13, %rdi
	xorl	%esi, %esi
	addq	$1336, %rsp                     # imm = 0x538
	popq	%rbx
	popq	%r12
	popq	%r13
	popq	%r14
	popq	%r15
	popq	%rbp
	jmp	memset@PLT                      # TAILCALL
.Lfunc_end0:
	.size	"loading::load", .Lfunc_end0-"loading::load"
                                        # -- End function
	.section	".text.scanning::parse_two","ax",@progbits
	.p2align	4                               # -- Begin function scanning::parse_two
	.type	"scanning::parse_two",@function
"scanning::parse_two":                  # @"scanning::parse_two"
# %bb.0:                                # %start
	cmpb	$65, %sil
	je	.LBB1_19
# %bb.1:                                # %start
	movzbl	%sil, %eax
	cmpl	$83, %eax
	je	.LBB1_12
# %bb.2:                                # %start
	cmpl	$82, %eax
	jne	.LBB1_8
# %bb.3:                                # %arm.1
	cmpq	$1, %rcx
	jne	.LBB1_8
# %bb.4:                                # %"scanning::letter_of.exit.i"
	xorl	%esi, %esi
	cmpq	$1, %r9
	jne	.LBB1_9
# %bb.5:                                # %"scanning::letter_of.exit.i"
	movzbl	(%rdx), %r10d
	movl	%r10d, %r11d
	andb	$127, %r11b
	addb	$-33, %r11b
	movl	$0, %edx
	movl	$0, %eax
	movl	$0, %ecx
	movl	$0, %r9d
	cmpb	$93, %r11b
	ja	.LBB1_11
# %bb.6:                                # %"scanning::letter_of.exit19.i"
	movzbl	(%r8), %r8d
	movl	%r8d, %r11d
	andb	$127, %r11b
	addb	$-127, %r11b
	xorl	%esi, %esi
	movl	$0, %eax
	movl	$0, %ecx
	cmpb	$-94, %r11b
	jb	.LBB1_11
# %bb.7:                                # %arm.5.i
	cmpb	%r8b, %r10b
	movzbl	%r10b, %ecx
	cmoval	%esi, %ecx
	movzbl	%r8b, %r9d
	cmoval	%esi, %r9d
	setbe	%sil
	leal	(%rsi,%rsi), %eax
	xorl	%edx, %edx
                                        # kill: def $sil killed $sil killed $rsi def $esi
	jmp	.LBB1_11
.LBB1_8:
	xorl	%esi, %esi
.LBB1_9:
	xorl	%edx, %edx
	xorl	%eax, %eax
	xorl	%ecx, %ecx
.LBB1_10:                               # %join.5
	xorl	%r9d, %r9d
.LBB1_11:                               # %join.5
	movb	%sil, (%rdi)
	movb	%dl, 1(%rdi)
	movb	%al, 2(%rdi)
	movb	%cl, 3(%rdi)
	movb	%r9b, 4(%rdi)
	retq
.LBB1_12:                               # %arm.2
	testq	%rcx, %rcx
	je	.LBB1_42
# %bb.13:                               # %arm.2
	cmpq	$1, %rcx
	jne	.LBB1_26
# %bb.14:                               # %"fields::place_of.exit"
	movzbl	(%rdx), %eax
	addb	$-48, %al
	cmpb	$9, %al
	ja	.LBB1_42
.LBB1_15:                               # %arm.6
	testq	%r9, %r9
	je	.LBB1_42
# %bb.16:                               # %arm.6
	cmpq	$1, %r9
	jne	.LBB1_34
# %bb.17:                               # %"fields::place_of.exit27"
	movzbl	(%r8), %ecx
	addb	$-48, %cl
	cmpb	$9, %cl
	ja	.LBB1_42
.LBB1_18:
	movb	$1, %sil
	xorl	%r9d, %r9d
	movb	$1, %dl
	jmp	.LBB1_11
.LBB1_19:                               # %arm.3
	testq	%rcx, %rcx
	je	.LBB1_42
# %bb.20:                               # %arm.3
	cmpq	$1, %rcx
	jne	.LBB1_30
# %bb.21:                               # %"fields::place_of.exit55"
	movzbl	(%rdx), %eax
	addb	$-48, %al
	cmpb	$9, %al
	ja	.LBB1_42
.LBB1_22:                               # %arm.13
	testq	%r9, %r9
	je	.LBB1_42
# %bb.23:                               # %arm.13
	cmpq	$1, %r9
	jne	.LBB1_38
# %bb.24:                               # %"fields::place_of.exit83"
	movzbl	(%r8), %ecx
	addb	$-48, %cl
	cmpb	$9, %cl
	ja	.LBB1_42
.LBB1_25:
	movb	$2, %dl
	movb	$1, %sil
	jmp	.LBB1_10
.LBB1_26:                               # %join.8.i
	cmpq	$2, %rcx
	ja	.LBB1_42
# %bb.27:                               # %then.9.i
	movzbl	(%rdx), %ecx
	addb	$-48, %cl
	cmpb	$9, %cl
	ja	.LBB1_42
# %bb.28:                               # %arm.12.i
	movzbl	1(%rdx), %eax
	addb	$-48, %al
	cmpb	$9, %al
	ja	.LBB1_42
# %bb.29:                               # %arm.17.i
	movzbl	%cl, %ecx
	addl	%ecx, %ecx
	leal	(%rcx,%rcx,4), %ecx
	addb	%cl, %al
	leal	-64(%rax), %ecx
	cmpb	$-54, %cl
	jae	.LBB1_15
	jmp	.LBB1_42
.LBB1_30:                               # %join.8.i42
	cmpq	$2, %rcx
	ja	.LBB1_42
# %bb.31:                               # %then.9.i44
	movzbl	(%rdx), %ecx
	addb	$-48, %cl
	cmpb	$9, %cl
	ja	.LBB1_42
# %bb.32:                               # %arm.12.i47
	movzbl	1(%rdx), %eax
	addb	$-48, %al
	cmpb	$9, %al
	ja	.LBB1_42
# %bb.33:                               # %arm.17.i51
	movzbl	%cl, %ecx
	addl	%ecx, %ecx
	leal	(%rcx,%rcx,4), %ecx
	addb	%cl, %al
	leal	-64(%rax), %ecx
	cmpb	$-54, %cl
	jae	.LBB1_22
	jmp	.LBB1_42
.LBB1_34:                               # %join.8.i14
	cmpq	$2, %r9
	ja	.LBB1_42
# %bb.35:                               # %then.9.i16
	movzbl	(%r8), %edx
	addb	$-48, %dl
	cmpb	$9, %dl
	ja	.LBB1_42
# %bb.36:                               # %arm.12.i19
	movzbl	1(%r8), %ecx
	addb	$-48, %cl
	cmpb	$9, %cl
	ja	.LBB1_42
# %bb.37:                               # %arm.17.i23
	movzbl	%dl, %edx
	addl	%edx, %edx
	leal	(%rdx,%rdx,4), %edx
	addb	%dl, %cl
	leal	-64(%rcx), %edx
	cmpb	$-54, %dl
	jae	.LBB1_18
	jmp	.LBB1_42
.LBB1_38:                               # %join.8.i70
	cmpq	$2, %r9
	ja	.LBB1_42
# %bb.39:                               # %then.9.i72
	movzbl	(%r8), %edx
	addb	$-48, %dl
	cmpb	$9, %dl
	ja	.LBB1_42
# %bb.40:                               # %arm.12.i75
	movzbl	1(%r8), %ecx
	addb	$-48, %cl
	cmpb	$9, %cl
	ja	.LBB1_42
# %bb.41:                               # %arm.17.i79
	movzbl	%dl, %edx
	addl	%edx, %edx
	leal	(%rdx,%rdx,4), %edx
	addb	%dl, %cl
	leal	-64(%rcx), %edx
	cmpb	$-54, %dl
	jae	.LBB1_25
.LBB1_42:                               # %arm.7
	movb	$0, 4(%rdi)
	movl	$0, (%rdi)
	retq
.Lfunc_end1:
	.size	"scanning::parse_two", .Lfunc_end1-"scanning::parse_two"
                                        # -- End function
	.section	".text.syntax::naming::tree_fault_of","ax",@progbits
	.p2align	4                               # -- Begin function syntax::naming::tree_fault_of
	.type	"syntax::naming::tree_fault_of",@function
"syntax::naming::tree_fault_of":        # @"syntax::naming::tree_fault_of"
# %bb.0:                                # %start
	pushq	%rbx
	subq	$736, %rsp                      # imm = 0x2E0
	movq	(%rdi), %rbx
	leaq	8(%rdi), %rsi
	leaq	416(%rsp), %rdi
	movl	$320, %edx                      # imm = 0x140
	callq	memcpy@PLT
	movq	%rbx, 408(%rsp)
	movl	$0, (%rsp)
	movl	$0, 3(%rsp)
	xorps	%xmm0, %xmm0
	movaps	%xmm0, 32(%rsp)
	movaps	%xmm0, 48(%rsp)
	movaps	%xmm0, 64(%rsp)
	movb	$0, 80(%rsp)
	testq	%rbx, %rbx
	je	.LBB2_1
# %bb.2:                                # %join.5.lr.ph.i
	leaq	175(%rsp), %rax
	leaq	359(%rsp), %rcx
	leaq	419(%rsp), %rsi
	xorl	%edx, %edx
	xorl	%edi, %edi
	jmp	.LBB2_3
	.p2align	4
.LBB2_5:                                # %"syntax::naming::name_parts.exit.thread21.i"
                                        #   in Loop: Header=BB2_3 Depth=1
	movl	(%rsp), %r8d
	movl	3(%rsp), %r9d
	movl	%r9d, 19(%rsp)
	movl	%r8d, 16(%rsp)
	movaps	32(%rsp), %xmm0
	movaps	48(%rsp), %xmm1
	movaps	64(%rsp), %xmm2
	movaps	%xmm0, 224(%rsp)
	movaps	%xmm1, 240(%rsp)
	movaps	%xmm2, 256(%rsp)
	movzbl	80(%rsp), %r8d
	movb	%r8b, 272(%rsp)
.LBB2_15:                               # %arm.6.i
                                        #   in Loop: Header=BB2_3 Depth=1
	movl	16(%rsp), %r8d
	movl	19(%rsp), %r9d
	movl	%r9d, 3(%rsp)
	movl	%r8d, (%rsp)
	movaps	224(%rsp), %xmm0
	movaps	240(%rsp), %xmm1
	movaps	256(%rsp), %xmm2
	movaps	%xmm0, 32(%rsp)
	movaps	%xmm1, 48(%rsp)
	movaps	%xmm2, 64(%rsp)
	movzbl	272(%rsp), %r8d
	movb	%r8b, 80(%rsp)
	incq	%rdx
	addq	$5, %rsi
	cmpq	%rdx, %rbx
	je	.LBB2_16
.LBB2_3:                                # %join.5.i
                                        # =>This Inner Loop Header: Depth=1
	movzbl	-2(%rsi), %r9d
	movzbl	(%rsi), %r8d
	leal	-1(%r9), %r10d
	cmpl	$2, %r10d
	jae	.LBB2_4
# %bb.10:                               # %after.2.i.i
                                        #   in Loop: Header=BB2_3 Depth=1
	movzbl	-1(%rsi), %r9d
	movl	(%rsp), %r10d
	movl	3(%rsp), %r11d
	movl	%r11d, 347(%rsp)
	movl	%r10d, 344(%rsp)
	movq	%rdi, 351(%rsp)
	movzbl	80(%rsp), %edi
	movb	%dil, 48(%rcx)
	movaps	32(%rsp), %xmm0
	movaps	48(%rsp), %xmm1
	movaps	64(%rsp), %xmm2
	movups	%xmm2, 32(%rcx)
	movups	%xmm1, 16(%rcx)
	movups	%xmm0, (%rcx)
	cmpq	%r9, %rdx
	jbe	.LBB2_20
# %bb.11:                               # %else.4.i8.i.i
                                        #   in Loop: Header=BB2_3 Depth=1
	cmpb	$0, 344(%rsp,%r9)
	jne	.LBB2_20
# %bb.12:                               # %arm.9.i.i
                                        #   in Loop: Header=BB2_3 Depth=1
	movb	$1, 344(%rsp,%r9)
	movups	344(%rsp), %xmm0
	movups	360(%rsp), %xmm1
	movups	376(%rsp), %xmm2
	movups	392(%rsp), %xmm3
	movaps	%xmm3, 208(%rsp)
	movaps	%xmm2, 192(%rsp)
	movaps	%xmm1, 176(%rsp)
	movaps	%xmm0, 160(%rsp)
	cmpq	%r8, %rdx
	ja	.LBB2_8
	jmp	.LBB2_9
	.p2align	4
.LBB2_4:                                # %join.5.i
                                        #   in Loop: Header=BB2_3 Depth=1
	cmpl	$3, %r9d
	jne	.LBB2_5
# %bb.6:                                # %arm.6.i.i
                                        #   in Loop: Header=BB2_3 Depth=1
	movl	(%rsp), %r9d
	movl	3(%rsp), %r10d
	movl	%r10d, 163(%rsp)
	movl	%r9d, 160(%rsp)
	movq	%rdi, 167(%rsp)
	movzbl	80(%rsp), %edi
	movb	%dil, 48(%rax)
	movaps	32(%rsp), %xmm0
	movaps	48(%rsp), %xmm1
	movaps	64(%rsp), %xmm2
	movups	%xmm2, 32(%rax)
	movups	%xmm1, 16(%rax)
	movups	%xmm0, (%rax)
	cmpq	%r8, %rdx
	jbe	.LBB2_9
.LBB2_8:                                # %else.4.i.i.i
                                        #   in Loop: Header=BB2_3 Depth=1
	cmpb	$1, 160(%rsp,%r8)
	jne	.LBB2_13
.LBB2_9:                                # %join.5.i.i.i
                                        #   in Loop: Header=BB2_3 Depth=1
	movl	$0, 11(%rsp)
	movl	$0, 8(%rsp)
	xorps	%xmm0, %xmm0
	movaps	%xmm0, 96(%rsp)
	movaps	%xmm0, 112(%rsp)
	movaps	%xmm0, 128(%rsp)
	movb	$0, 144(%rsp)
	xorl	%edi, %edi
	xorl	%r8d, %r8d
	jmp	.LBB2_14
.LBB2_13:                               # %after.1.i.i.i
                                        #   in Loop: Header=BB2_3 Depth=1
	movb	$1, 160(%rsp,%r8)
	movl	160(%rsp), %edi
	movl	163(%rsp), %r8d
	movl	%edi, 8(%rsp)
	movl	%r8d, 11(%rsp)
	movq	167(%rsp), %rdi
	movups	(%rax), %xmm0
	movups	16(%rax), %xmm1
	movups	32(%rax), %xmm2
	movaps	%xmm0, 96(%rsp)
	movaps	%xmm1, 112(%rsp)
	movaps	%xmm2, 128(%rsp)
	movzbl	48(%rax), %r8d
	movb	%r8b, 144(%rsp)
	movb	$1, %r8b
.LBB2_14:                               # %"syntax::naming::name_parts.exit.i"
                                        #   in Loop: Header=BB2_3 Depth=1
	movl	8(%rsp), %r9d
	movl	11(%rsp), %r10d
	movl	%r10d, 19(%rsp)
	movl	%r9d, 16(%rsp)
	movaps	96(%rsp), %xmm0
	movaps	112(%rsp), %xmm1
	movaps	128(%rsp), %xmm2
	movaps	%xmm0, 224(%rsp)
	movaps	%xmm1, 240(%rsp)
	movaps	%xmm2, 256(%rsp)
	movzbl	144(%rsp), %r9d
	movb	%r9b, 272(%rsp)
	testb	%r8b, %r8b
	jne	.LBB2_15
	jmp	.LBB2_20
.LBB2_1:
	xorl	%edi, %edi
.LBB2_16:                               # %arm.1
	movl	(%rsp), %eax
	movl	3(%rsp), %ecx
	movl	%ecx, 27(%rsp)
	movl	%eax, 24(%rsp)
	movaps	32(%rsp), %xmm0
	movaps	48(%rsp), %xmm1
	movaps	64(%rsp), %xmm2
	movaps	%xmm0, 288(%rsp)
	movaps	%xmm1, 304(%rsp)
	movaps	%xmm2, 320(%rsp)
	movzbl	80(%rsp), %eax
	movb	%al, 336(%rsp)
	movl	24(%rsp), %eax
	movl	27(%rsp), %ecx
	movl	%ecx, 411(%rsp)
	movl	%eax, 408(%rsp)
	movq	%rdi, 415(%rsp)
	movaps	288(%rsp), %xmm0
	movaps	304(%rsp), %xmm1
	movaps	320(%rsp), %xmm2
	movups	%xmm0, 423(%rsp)
	movups	%xmm1, 439(%rsp)
	movups	%xmm2, 455(%rsp)
	movzbl	336(%rsp), %eax
	movb	%al, 471(%rsp)
	cmpq	$1, %rbx
	movl	$1, %eax
	cmovbq	%rbx, %rax
	subq	%rbx, %rax
	movq	$-1, %rcx
	.p2align	4
.LBB2_17:                               # %loop.2.i
                                        # =>This Inner Loop Header: Depth=1
	leaq	(%rax,%rcx), %rdx
	cmpq	$-1, %rdx
	je	.LBB2_18
# %bb.19:                               # %join.5.i3
                                        #   in Loop: Header=BB2_17 Depth=1
	leaq	1(%rcx), %rdx
	cmpb	$0, 409(%rsp,%rcx)
	movq	%rdx, %rcx
	jne	.LBB2_17
.LBB2_20:                               # %arm.2
	movb	$1, %al
                                        # kill: def $al killed $al killed $rax
	addq	$736, %rsp                      # imm = 0x2E0
	popq	%rbx
	retq
.LBB2_18:
	xorl	%eax, %eax
	xorl	%edx, %edx
                                        # kill: def $al killed $al killed $rax
	addq	$736, %rsp                      # imm = 0x2E0
	popq	%rbx
	retq
.Lfunc_end2:
	.size	"syntax::naming::tree_fault_of", .Lfunc_end2-"syntax::naming::tree_fault_of"
                                        # -- End function
	.section	".text.codes::flatten","ax",@progbits
	.p2align	4                               # -- Begin function codes::flatten
	.type	"codes::flatten",@function
"codes::flatten":                       # @"codes::flatten"
# %bb.0:                                # %start
	pushq	%rbp
	pushq	%r15
	pushq	%r14
	pushq	%r13
	pushq	%r12
	pushq	%rbx
	subq	$3072, %rsp                     # imm = 0xC00
	movq	$0, (%rsp)
	subq	$2600, %rsp                     # imm = 0xA28
	movq	%r9, %r12
	movl	%r8d, 44(%rsp)                  # 4-byte Spill
	movq	%rcx, %r15
	movq	%rdx, 48(%rsp)                  # 8-byte Spill
	movq	%rsi, %r14
	movq	%rdi, %rbx
	leaq	392(%rsp), %rdi
	movl	$328, %edx                      # imm = 0x148
	callq	memcpy@PLT
	leaq	1048(%rsp), %rdi
	movl	$512, %edx                      # imm = 0x200
	xorl	%esi, %esi
	callq	memset@PLT
	movq	392(%rsp), %rbp
	leaq	-1(%rbp), %r13
	cmpq	$63, %r13
	ja	.LBB3_12
# %bb.1:                                # %arm.3.i.preheader.i.i
	movq	%r12, 56(%rsp)                  # 8-byte Spill
	movq	%rbp, 64(%rsp)
	leaq	72(%rsp), %r12
	addq	$8, %r14
	movl	$320, %edx                      # imm = 0x140
	movq	%r12, %rdi
	movq	%r14, %rsi
	callq	memcpy@PLT
	movq	%rbp, %rax
	jmp	.LBB3_4
.LBB3_2:                                # %arm.2.i.i.i.i.i.i.i.i
                                        #   in Loop: Header=BB3_4 Depth=1
	andb	$127, %cl
	addb	$-33, %cl
	cmpb	$94, %cl
	jae	.LBB3_12
	.p2align	4
.LBB3_3:                                # %loop.2.backedge.i.i.i
                                        #   in Loop: Header=BB3_4 Depth=1
	decq	%rax
	addq	$5, %r12
	testq	%rax, %rax
	je	.LBB3_11
.LBB3_4:                                # %arm.3.i.i.i
                                        # =>This Inner Loop Header: Depth=1
	cmpb	$-56, (%r12)
	ja	.LBB3_12
# %bb.5:                                # %then.1.i.i.i.i.i.i
                                        #   in Loop: Header=BB3_4 Depth=1
	cmpb	$0, 1(%r12)
	jne	.LBB3_3
# %bb.6:                                # %arm.1.i.i.i.i.i.i.i
                                        #   in Loop: Header=BB3_4 Depth=1
	movzbl	2(%r12), %edx
	testl	%edx, %edx
	je	.LBB3_3
# %bb.7:                                # %arm.1.i.i.i.i.i.i.i
                                        #   in Loop: Header=BB3_4 Depth=1
	movzbl	3(%r12), %ecx
	cmpl	$2, %edx
	jne	.LBB3_2
# %bb.8:                                # %arm.3.i.i.i.i.i.i.i.i
                                        #   in Loop: Header=BB3_4 Depth=1
	movzbl	4(%r12), %edx
	cmpb	%dl, %cl
	ja	.LBB3_12
# %bb.9:                                # %arm.3.i.i.i.i.i.i.i.i
                                        #   in Loop: Header=BB3_4 Depth=1
	andb	$127, %cl
	addb	$-33, %cl
	cmpb	$93, %cl
	ja	.LBB3_12
# %bb.10:                               # %arm.3.i.i.i.i.i.i.i.i
                                        #   in Loop: Header=BB3_4 Depth=1
	andb	$127, %dl
	addb	$-33, %dl
	cmpb	$93, %dl
	jbe	.LBB3_3
	jmp	.LBB3_12
.LBB3_11:                               # %"syntax::obeys_rules.exit"
	movq	%rbp, 720(%rsp)
	leaq	728(%rsp), %rdi
	movl	$320, %edx                      # imm = 0x140
	movq	%r14, %rsi
	callq	memcpy@PLT
	leaq	720(%rsp), %rdi
	callq	"syntax::naming::tree_fault_of"
	cmpb	$1, %al
	jne	.LBB3_16
.LBB3_12:                               # %then.1
	movabsq	$4294967297, %rax               # imm = 0x100000001
.LBB3_13:                               # %common.ret
	movq	%rax, (%rbx)
.LBB3_14:                               # %common.ret
	movl	$0, 8(%rbx)
.LBB3_15:                               # %common.ret
	addq	$5672, %rsp                     # imm = 0x1628
	popq	%rbx
	popq	%r12
	popq	%r13
	popq	%r14
	popq	%r15
	popq	%rbp
	retq
.LBB3_16:                               # %join.3
	leaq	1048(%rsp), %r14
	leaq	392(%rsp), %rsi
	movq	%r14, %rdi
	callq	"table::table_of"
	leaq	1560(%rsp), %rdi
	movl	$512, %edx                      # imm = 0x200
	movq	%r14, %rsi
	callq	memcpy@PLT
	leaq	2072(%rsp), %r14
	movl	$3600, %edx                     # imm = 0xE10
	movq	%r14, %rdi
	xorl	%esi, %esi
	callq	memset@PLT
	movl	$0, 72(%rsp)
	movq	$0, 64(%rsp)
	movq	%r15, %r9
	cmpq	$65536, %r15                    # imm = 0x10000
	movl	44(%rsp), %r15d                 # 4-byte Reload
	ja	.LBB3_23
# %bb.17:                               # %join.3.i.i
	movl	%r15d, %eax
	addq	$7, %rax
	shrq	$3, %rax
	cmpq	%rax, %r9
	jne	.LBB3_23
# %bb.18:                               # %then.4.i.i
	movl	%r15d, %eax
	andl	$7, %eax
	je	.LBB3_20
# %bb.19:                               # %"bits::handed_good.exit.i"
	movl	%r15d, %edx
	movb	$8, %cl
	subb	%al, %cl
	movl	$-1, %eax
	shll	%cl, %eax
	shrl	$3, %edx
	notb	%al
	movq	48(%rsp), %rcx                  # 8-byte Reload
	testb	%al, (%rcx,%rdx)
	jne	.LBB3_23
.LBB3_20:                               # %join.3.i
	leaq	43(%rsp), %rax
	movq	%rax, 16(%rsp)
	movq	%r14, 8(%rsp)
	movl	$0, 32(%rsp)
	movq	$0, 24(%rsp)
	movl	$0, (%rsp)
	leaq	64(%rsp), %rdi
	leaq	1560(%rsp), %rsi
	movq	%r13, %rdx
	xorl	%ecx, %ecx
	movq	48(%rsp), %r8                   # 8-byte Reload
	callq	"entries::put_entries"
	movq	68(%rsp), %r14
	cmpb	$1, 64(%rsp)
	sete	%al
	cmpl	%r14d, %r15d
	sete	%cl
	andb	%al, %cl
	cmpb	$1, %cl
	jne	.LBB3_23
# %bb.21:                               # %arm.4
	shrq	$32, %r14
	cmpq	$3600, %r14                     # imm = 0xE10
	jbe	.LBB3_24
# %bb.22:                               # %then.8
	movabsq	$8589934593, %rax               # imm = 0x200000001
	jmp	.LBB3_13
.LBB3_23:                               # %arm.5
	movabsq	$30064771073, %rax              # imm = 0x700000001
	jmp	.LBB3_13
.LBB3_24:                               # %join.10
	cmpq	%r14, 5728(%rsp)
	jae	.LBB3_26
# %bb.25:                               # %then.11
	movabsq	$34359738369, %rax              # imm = 0x800000001
	movq	%rax, (%rbx)
	movl	%r14d, 8(%rbx)
	jmp	.LBB3_15
.LBB3_26:                               # %join.13
	leaq	2072(%rsp), %rsi
	movq	56(%rsp), %rdi                  # 8-byte Reload
	movq	%r14, %rdx
	callq	memcpy@PLT
	movl	$0, (%rbx)
	movl	%r14d, 4(%rbx)
	jmp	.LBB3_14
.Lfunc_end3:
	.size	"codes::flatten", .Lfunc_end3-"codes::flatten"
                                        # -- End function
	.section	".text.table::table_of","ax",@progbits
	.p2align	4                               # -- Begin function table::table_of
	.type	"table::table_of",@function
"table::table_of":                      # @"table::table_of"
# %bb.0:                                # %start
	pushq	%r15
	pushq	%r14
	pushq	%rbx
	subq	$848, %rsp                      # imm = 0x350
	movq	%rdi, %rbx
	movq	(%rsi), %r14
	addq	$8, %rsi
	leaq	528(%rsp), %rdi
	movl	$320, %edx                      # imm = 0x140
	callq	memcpy@PLT
	leaq	8(%rsp), %rdi
	movl	$512, %edx                      # imm = 0x200
	xorl	%esi, %esi
	callq	memset@PLT
	movq	%r14, 520(%rsp)
	testq	%r14, %r14
	je	.LBB4_21
# %bb.1:                                # %join.5.i.preheader
	leaq	532(%rsp), %rax
	xorl	%ecx, %ecx
	movzbl	-4(%rax), %edx
	movzbl	-3(%rax), %r15d
	movzbl	-2(%rax), %r8d
	movzbl	-1(%rax), %edi
	movzbl	%r8b, %r9d
	movzbl	(%rax), %r11d
	movl	$3, %r10d
	leaq	.LJTI4_0(%rip), %rsi
	movslq	(%rsi,%r15,4), %r15
	addq	%rsi, %r15
	jmpq	*%r15
	.p2align	4
.LBB4_11:                               # %"table::cell_of.exit.i"
                                        # =>This Inner Loop Header: Depth=1
	movzbl	%r8b, %r8d
	shll	$8, %r8d
	orq	%r10, %r8
	movzbl	%dil, %edi
	shll	$16, %edi
	orq	%r8, %rdi
	shll	$24, %edx
	orq	%rdi, %rdx
	movq	%rdx, 8(%rsp,%rcx,8)
	incq	%rcx
	cmpq	%rcx, %r14
	je	.LBB4_12
# %bb.2:                                # %join.5.i
                                        #   in Loop: Header=BB4_11 Depth=1
	addq	$5, %rax
	movzbl	-4(%rax), %edx
	movzbl	-3(%rax), %r10d
	movzbl	-2(%rax), %r8d
	movzbl	-1(%rax), %edi
	movzbl	%r8b, %r9d
	movzbl	(%rax), %r11d
	movslq	(%rsi,%r10,4), %r15
	addq	%rsi, %r15
	movl	$3, %r10d
	jmpq	*%r15
.LBB4_3:                                # %arm.1.i.i.i
	testl	%r9d, %r9d
	je	.LBB4_4
# %bb.5:                                # %arm.1.i.i.i
	cmpl	$2, %r9d
	jne	.LBB4_6
# %bb.7:                                # %arm.9.i.i.i
	movl	$2, %r10d
	movl	%edi, %r8d
	movl	%r11d, %edi
	jmp	.LBB4_11
.LBB4_4:
	movq	%r9, %r10
	movl	%r8d, %edi
	jmp	.LBB4_11
.LBB4_6:                                # %arm.8.i.i.i
	movl	$1, %r10d
	jmp	.LBB4_10
.LBB4_8:                                # %arm.3.i.i.i
	movl	$4, %r10d
	jmp	.LBB4_11
.LBB4_9:                                # %arm.4.i.i.i
	andl	$1, %r9d
	addq	$5, %r9
	movq	%r9, %r10
.LBB4_10:                               # %"table::cell_of.exit.i"
	movl	%edi, %r8d
	xorl	%edi, %edi
	jmp	.LBB4_11
.LBB4_12:                               # %"table::put_lines.exit"
	movabsq	$-4294967296, %rax              # imm = 0xFFFFFFFF00000000
	movl	$64, 4(%rsp,%r14,8)
	decq	%r14
	jmp	.LBB4_13
	.p2align	4
.LBB4_17:                               # %"table::first_part.exit.thread.i"
                                        #   in Loop: Header=BB4_13 Depth=1
	shrq	$32, %rcx
	movq	%r14, %rdx
	movq	%rcx, %rsi
.LBB4_20:                               # %"table::first_follower.exit.i"
                                        #   in Loop: Header=BB4_13 Depth=1
	movl	%esi, 12(%rsp,%rdx,8)
	addq	$-1, %r14
	jae	.LBB4_21
.LBB4_13:                               # %join.5.i1
                                        # =>This Inner Loop Header: Depth=1
	movq	8(%rsp,%r14,8), %rcx
	cmpb	$3, %cl
	jb	.LBB4_17
# %bb.14:                               # %join.5.i1
                                        #   in Loop: Header=BB4_13 Depth=1
	movq	%rcx, %rdx
	shrq	$8, %rdx
	movq	%rcx, %rdi
	shrq	$16, %rdi
	movzbl	%cl, %esi
	cmpl	$3, %esi
	je	.LBB4_18
# %bb.15:                               # %join.5.i1
                                        #   in Loop: Header=BB4_13 Depth=1
	cmpl	$4, %esi
	jne	.LBB4_19
# %bb.16:                               # %"table::first_part.exit.thread80.i"
                                        #   in Loop: Header=BB4_13 Depth=1
	movq	%rcx, %rsi
	shrq	$32, %rsi
	movzbl	%dil, %edi
	movl	8(%rsp,%rdi,8), %r8d
	andq	%rax, %rcx
	orq	%r8, %rcx
	movq	%rcx, 8(%rsp,%rdi,8)
	movzbl	%dl, %edx
	jmp	.LBB4_20
.LBB4_18:                               # %arm.2.i.i
                                        #   in Loop: Header=BB4_13 Depth=1
	andq	%rax, %rcx
	movzbl	%dil, %esi
	movl	%esi, %edi
	movl	8(%rsp,%rdi,8), %r8d
	orq	%rcx, %r8
	movq	%r8, 8(%rsp,%rdi,8)
	movzbl	%dl, %edx
	jmp	.LBB4_20
.LBB4_19:                               # %arm.3.i.i
                                        #   in Loop: Header=BB4_13 Depth=1
	andq	%rax, %rcx
	movzbl	%dl, %esi
	movl	8(%rsp,%rsi,8), %edi
	orq	%rcx, %rdi
	movq	%rdi, 8(%rsp,%rsi,8)
	movzbl	%dl, %edx
	leaq	256(%r14), %rsi
	jmp	.LBB4_20
.LBB4_21:                               # %"table::put_followers.exit"
	leaq	8(%rsp), %rsi
	movl	$512, %edx                      # imm = 0x200
	movq	%rbx, %rdi
	callq	memcpy@PLT
	addq	$848, %rsp                      # imm = 0x350
	popq	%rbx
	popq	%r14
	popq	%r15
	retq
.Lfunc_end4:
	.size	"table::table_of", .Lfunc_end4-"table::table_of"
	.section	".rodata.table::table_of","a",@progbits
	.p2align	2, 0x0
.LJTI4_0:
	.long	.LBB4_3-.LJTI4_0
	.long	.LBB4_11-.LJTI4_0
	.long	.LBB4_8-.LJTI4_0
	.long	.LBB4_9-.LJTI4_0
                                        # -- End function
	.section	".text.entries::put_entries","ax",@progbits
	.p2align	4                               # -- Begin function entries::put_entries
	.type	"entries::put_entries",@function
"entries::put_entries":                 # @"entries::put_entries"
# %bb.0:                                # %start
	pushq	%rbp
	pushq	%r15
	pushq	%r14
	pushq	%r13
	pushq	%r12
	pushq	%rbx
	subq	$120, %rsp
	movq	%rdi, %rbx
	movl	208(%rsp), %r10d
	movq	200(%rsp), %r12
	movq	192(%rsp), %rdi
	movq	184(%rsp), %r11
	movl	$0, 56(%rsp)
	movq	$0, 48(%rsp)
	movq	$0, 96(%rsp)
	movl	$0, 104(%rsp)
	movq	$0, 80(%rsp)
	movl	$0, 88(%rsp)
	movq	(%rsi,%rdx,8), %r13
	movl	%r13d, %edx
	shrl	$24, %edx
	cmovel	%ecx, %edx
	movl	176(%rsp), %eax
	cmpb	$9, %cl
	cmovel	%ecx, %edx
	movl	%edx, 40(%rsp)                  # 4-byte Spill
	movq	%r13, %rdx
	shrq	$8, %rdx
	cmpb	$5, %r13b
	ja	.LBB5_16
# %bb.1:                                # %start
	movl	%r13d, %ecx
	movq	%rdi, %r15
	shrq	$16, %r13
	movzbl	%cl, %ecx
	leaq	.LJTI5_0(%rip), %rdi
	movslq	(%rdi,%rcx,4), %rcx
	addq	%rdi, %rcx
	jmpq	*%rcx
.LBB5_2:                                # %arm.1.i
	movl	%eax, %ecx
	shlq	$32, %r10
	orq	%rcx, %r10
	movl	$1, %ecx
	movq	%r10, %rdx
	jmp	.LBB5_33
.LBB5_3:                                # %arm.3
	leal	(,%r9,8), %ecx
	cmpl	%eax, %ecx
	jbe	.LBB5_9
# %bb.4:                                # %join.12
	movl	%eax, %ecx
	shrl	$3, %ecx
	movl	%eax, %edi
	notb	%dil
	movzbl	(%r8,%rcx), %ecx
	movzbl	%dil, %edi
	andl	$7, %edi
	btl	%edi, %ecx
	cmovaeq	%rdx, %r13
	movzbl	%r13b, %edx
	incl	%eax
	movl	%r10d, 32(%rsp)
	movq	%r12, 24(%rsp)
	movq	%r15, 16(%rsp)
	movq	%r11, 8(%rsp)
	movl	%eax, (%rsp)
	movzbl	40(%rsp), %ecx                  # 1-byte Folded Reload
	leaq	48(%rsp), %rdi
	callq	"entries::put_entries"
	jmp	.LBB5_34
.LBB5_5:                                # %arm.3.i
	shll	$3, %r9d
	leal	8(%rax), %edi
	cmpl	%edi, %r9d
	jae	.LBB5_22
# %bb.6:
	xorl	%ecx, %ecx
	xorl	%edx, %edx
	jmp	.LBB5_33
.LBB5_7:                                # %arm.2
	movzbl	%dl, %edx
	movl	%r10d, 32(%rsp)
	movq	%r12, 24(%rsp)
	movq	%r15, 16(%rsp)
	movq	%r11, 8(%rsp)
	movl	%eax, (%rsp)
	movzbl	40(%rsp), %ebp                  # 1-byte Folded Reload
	leaq	96(%rsp), %rdi
	movl	%ebp, %ecx
	movq	%r8, 40(%rsp)                   # 8-byte Spill
	movq	%rsi, %r14
	movq	%r9, %r15
	callq	"entries::put_entries"
	cmpb	$1, 96(%rsp)
	jne	.LBB5_9
# %bb.8:                                # %arm.7
	movq	100(%rsp), %rax
	movzbl	%r13b, %edx
	movl	%eax, %ecx
	shrq	$32, %rax
	movl	%eax, 32(%rsp)
	movq	%r12, 24(%rsp)
	movq	192(%rsp), %rax
	movq	%rax, 16(%rsp)
	movq	184(%rsp), %rax
	movq	%rax, 8(%rsp)
	movl	%ecx, (%rsp)
	leaq	48(%rsp), %rdi
	movq	%r14, %rsi
	movl	%ebp, %ecx
	movq	40(%rsp), %r8                   # 8-byte Reload
	movq	%r15, %r9
	callq	"entries::put_entries"
	jmp	.LBB5_34
.LBB5_9:                                # %arm.8
	movl	$0, (%rbx)
	movq	$0, 4(%rbx)
	jmp	.LBB5_35
.LBB5_10:                               # %arm.2.i
	movl	%r10d, %ecx
	cmpl	$3599, %r10d                    # imm = 0xE0F
	ja	.LBB5_12
# %bb.11:                               # %then.1.i.i.i
	movb	%dl, (%r11,%rcx)
.LBB5_12:                               # %"entries::put_cell.exit.i.i"
	cmpq	%rcx, %r12
	jbe	.LBB5_14
# %bb.13:                               # %then.1.i3.i.i
	movl	40(%rsp), %edx                  # 4-byte Reload
	movb	%dl, (%r15,%rcx)
.LBB5_14:                               # %"entries::put_entry.exit.i"
	incl	%r10d
	cmpl	$3601, %r10d                    # imm = 0xE11
	movl	$3601, %edx                     # imm = 0xE11
	cmovbl	%r10d, %edx
	movl	%eax, %eax
	jmp	.LBB5_32
.LBB5_15:
	movq	%rbx, 64(%rsp)                  # 8-byte Spill
	movl	$0, 60(%rsp)                    # 4-byte Folded Spill
	movq	%r15, %rdi
	leal	(,%r9,8), %ecx
	movl	%ecx, 76(%rsp)                  # 4-byte Spill
	cmpl	%ecx, %eax
	jb	.LBB5_17
	jmp	.LBB5_21
.LBB5_16:                               # %default.7.i.i
	movq	%rbx, 64(%rsp)                  # 8-byte Spill
	movb	$1, %cl
	movl	%ecx, 60(%rsp)                  # 4-byte Spill
	leal	(,%r9,8), %ecx
	movl	%ecx, 76(%rsp)                  # 4-byte Spill
	cmpl	%ecx, %eax
	jae	.LBB5_21
.LBB5_17:                               # %join.17.lr.ph
	movzbl	%dl, %ecx
	movq	%rcx, 112(%rsp)                 # 8-byte Spill
	.p2align	4
.LBB5_18:                               # %join.17
                                        # =>This Inner Loop Header: Depth=1
	movl	%eax, %ecx
	shrl	$3, %ecx
	movl	%eax, %edx
	notb	%dl
	movzbl	(%r8,%rcx), %ecx
	movzbl	%dl, %edx
	andl	$7, %edx
	incl	%eax
	btl	%edx, %ecx
	movl	60(%rsp), %ecx                  # 4-byte Reload
                                        # kill: def $cl killed $cl killed $ecx
	sbbb	$0, %cl
	jne	.LBB5_36
# %bb.19:                               # %join.20
                                        #   in Loop: Header=BB5_18 Depth=1
	movl	%r10d, 32(%rsp)
	movq	%r12, %r14
	movq	%r12, 24(%rsp)
	movq	%rdi, %r12
	movq	%rdi, 16(%rsp)
	movq	%r11, %rbx
	movq	%r11, 8(%rsp)
	movl	%eax, (%rsp)
	movzbl	40(%rsp), %ecx                  # 1-byte Folded Reload
	leaq	80(%rsp), %rdi
	movq	%rsi, %rbp
	movq	112(%rsp), %rdx                 # 8-byte Reload
	movq	%r8, %r13
	movq	%r9, %r15
	callq	"entries::put_entries"
	cmpb	$1, 80(%rsp)
	jne	.LBB5_37
# %bb.20:                               # %arm.21
                                        #   in Loop: Header=BB5_18 Depth=1
	movq	84(%rsp), %rax
	movq	%rax, %r10
	shrq	$32, %r10
	cmpl	%eax, 76(%rsp)                  # 4-byte Folded Reload
	movq	%r12, %rdi
	movq	%r14, %r12
	movq	%rbx, %r11
	movq	%r13, %r8
	movq	%r15, %r9
	movq	%rbp, %rsi
	ja	.LBB5_18
.LBB5_21:                               # %after.13
	movl	$0, 48(%rsp)
	movq	64(%rsp), %rbx                  # 8-byte Reload
	jmp	.LBB5_34
.LBB5_22:                               # %join.3.i.i
	movl	%eax, %ecx
	shrl	$3, %ecx
	movzbl	(%r8,%rcx), %r14d
	andl	$7, %eax
	je	.LBB5_24
# %bb.23:                               # %join.3.i.i.i
	movzbl	%r14b, %r9d
	shll	$8, %r9d
	movzbl	1(%r8,%rcx), %r14d
	orl	%r9d, %r14d
	movb	$8, %cl
	subb	%al, %cl
	shrl	%cl, %r14d
.LBB5_24:                               # %"bits::byte_at.exit.i.i"
	xorl	%ecx, %ecx
	cmpb	%r13b, %r14b
	ja	.LBB5_39
# %bb.25:                               # %"bits::byte_at.exit.i.i"
	cmpb	%dl, %r14b
	jb	.LBB5_39
# %bb.26:                               # %"bits::byte_at.exit.i.i"
	movl	%r14d, %esi
	andb	$127, %sil
	addb	$-33, %sil
	movl	$0, %edx
	cmpb	$93, %sil
	ja	.LBB5_33
# %bb.27:                               # %join.6.i.i
	movl	%r10d, %ecx
	cmpl	$3599, %r10d                    # imm = 0xE0F
	ja	.LBB5_29
# %bb.28:                               # %then.1.i.i.i.i
	movb	%r14b, (%r11,%rcx)
.LBB5_29:                               # %"entries::put_cell.exit.i.i.i"
	cmpq	%rcx, %r12
	jbe	.LBB5_31
# %bb.30:                               # %then.1.i3.i.i.i
	movl	40(%rsp), %eax                  # 4-byte Reload
	movb	%al, (%r15,%rcx)
.LBB5_31:                               # %"entries::put_entry.exit.i.i"
	incl	%r10d
	cmpl	$3601, %r10d                    # imm = 0xE11
	movl	$3601, %edx                     # imm = 0xE11
	cmovbl	%r10d, %edx
	movl	%edi, %eax
.LBB5_32:                               # %"entries::put_leaf.exit"
	shlq	$32, %rdx
	orq	%rax, %rdx
	movl	$1, %ecx
.LBB5_33:                               # %"entries::put_leaf.exit"
	movl	%ecx, 48(%rsp)
	movq	%rdx, 52(%rsp)
.LBB5_34:                               # %join.6
	movzbl	48(%rsp), %eax
	movq	52(%rsp), %rcx
	movl	%eax, (%rbx)
	movq	%rcx, 4(%rbx)
.LBB5_35:                               # %common.ret
	addq	$120, %rsp
	popq	%rbx
	popq	%r12
	popq	%r13
	popq	%r14
	popq	%r15
	popq	%rbp
	retq
.LBB5_36:                               # %then.18
	movl	%eax, %ecx
	shlq	$32, %r10
	orq	%rcx, %r10
	movq	64(%rsp), %rcx                  # 8-byte Reload
	movl	$1, (%rcx)
	movq	%r10, 4(%rcx)
	jmp	.LBB5_35
.LBB5_37:                               # %arm.22
	movq	64(%rsp), %rax                  # 8-byte Reload
	movl	$0, (%rax)
	movq	$0, 4(%rax)
	jmp	.LBB5_35
.LBB5_39:
	xorl	%edx, %edx
	jmp	.LBB5_33
.Lfunc_end5:
	.size	"entries::put_entries", .Lfunc_end5-"entries::put_entries"
	.section	".rodata.entries::put_entries","a",@progbits
	.p2align	2, 0x0
.LJTI5_0:
	.long	.LBB5_2-.LJTI5_0
	.long	.LBB5_10-.LJTI5_0
	.long	.LBB5_5-.LJTI5_0
	.long	.LBB5_7-.LJTI5_0
	.long	.LBB5_3-.LJTI5_0
	.long	.LBB5_15-.LJTI5_0
                                        # -- End function
	.section	".text.parser::parse","ax",@progbits
	.p2align	4                               # -- Begin function parser::parse
	.type	"parser::parse",@function
"parser::parse":                        # @"parser::parse"
# %bb.0:                                # %start
	pushq	%rbp
	pushq	%r15
	pushq	%r14
	pushq	%r13
	pushq	%r12
	pushq	%rbx
	subq	$3072, %rsp                     # imm = 0xC00
	movq	$0, (%rsp)
	subq	$1832, %rsp                     # imm = 0x728
	movq	%r9, 48(%rsp)                   # 8-byte Spill
	movq	%r8, %r13
	movq	%rcx, %r12
	movq	%rdx, %r15
	movq	%rsi, %rbp
	movq	%rdi, %r14
	leaq	2528(%rsp), %rbx
	movl	$328, %edx                      # imm = 0x148
	movq	%rbx, %rdi
	callq	memcpy@PLT
	movq	$0, 64(%rsp)
	movl	$0, 72(%rsp)
	leaq	64(%rsp), %rdi
	movq	%rbx, %rsi
	movq	%r15, %rdx
	movq	%r12, %rcx
	callq	"checks::check_tape"
	cmpb	$0, 64(%rsp)
	je	.LBB6_1
# %bb.31:                               # %arm.2
	movl	72(%rsp), %eax
	movzbl	68(%rsp), %ecx
	movl	$1, (%r14)
	movl	%ecx, 4(%r14)
	movl	%eax, 8(%r14)
	jmp	.LBB6_30
.LBB6_1:                                # %arm.1
	movq	%r14, %rbx
	movq	%r15, 56(%rsp)                  # 8-byte Spill
	leaq	664(%rsp), %rdi
	movl	$328, %edx                      # imm = 0x148
	movq	%rbp, %rsi
	callq	memcpy@PLT
	leaq	992(%rsp), %rdi
	movl	$512, %edx                      # imm = 0x200
	xorl	%esi, %esi
	callq	memset@PLT
	leaq	2(,%r12,2), %rcx
	cmpq	%rcx, 48(%rsp)                  # 8-byte Folded Reload
	jae	.LBB6_3
# %bb.2:                                # %then.1.i
	movl	$5, %eax
	movl	$1, %ebp
	jmp	.LBB6_29
.LBB6_3:                                # %join.3.i
	movq	%r13, 48(%rsp)                  # 8-byte Spill
	leaq	992(%rsp), %rbp
	leaq	664(%rsp), %rsi
	movq	%rbp, %rdi
	callq	"table::table_of"
	leaq	152(%rsp), %rdi
	movl	$512, %edx                      # imm = 0x200
	movq	%rbp, %rsi
	callq	memcpy@PLT
	movq	664(%rsp), %r13
	pxor	%xmm0, %xmm0
	movdqu	%xmm0, 88(%rsp)
	movq	$0, 104(%rsp)
	leaq	2016(%rsp), %r14
	movl	$512, %edx                      # imm = 0x200
	movq	%r14, %rdi
	xorl	%esi, %esi
	callq	memset@PLT
	leaq	1504(%rsp), %r15
	movl	$512, %edx                      # imm = 0x200
	movq	%r15, %rdi
	xorl	%esi, %esi
	callq	memset@PLT
	movq	%rbp, %rdi
	movq	%r13, %rsi
	movq	%r14, %rdx
	movq	%r15, %rcx
	callq	"masks::put_masks"
	movq	%rax, %r15
	leaq	2856(%rsp), %rdi
	movl	$2048, %edx                     # imm = 0x800
	xorl	%esi, %esi
	callq	memset@PLT
	testq	%r13, %r13
	je	.LBB6_22
# %bb.4:                                # %join.5.i.i.i.preheader
	leaq	2872(%rsp), %rbp
	xorl	%ecx, %ecx
	jmp	.LBB6_5
	.p2align	4
.LBB6_21:                               # %"masks::scatter::put_node.exit.i.i.i"
                                        #   in Loop: Header=BB6_5 Depth=1
	incq	%rcx
	cmpq	%r13, %rcx
	je	.LBB6_22
.LBB6_5:                                # %join.5.i.i.i
                                        # =>This Loop Header: Depth=1
                                        #     Child Loop BB6_11 Depth 2
                                        #     Child Loop BB6_13 Depth 2
                                        #     Child Loop BB6_18 Depth 2
                                        #     Child Loop BB6_20 Depth 2
	movq	152(%rsp,%rcx,8), %rsi
	movq	%rsi, %r9
	shrq	$8, %r9
	cmpb	$2, %sil
	je	.LBB6_8
# %bb.6:                                # %join.5.i.i.i
                                        #   in Loop: Header=BB6_5 Depth=1
	movzbl	%sil, %eax
	cmpl	$1, %eax
	jne	.LBB6_21
# %bb.7:                                # %arm.2.i.i5.i.i.i
                                        #   in Loop: Header=BB6_5 Depth=1
	movl	$1, %eax
	shlq	%cl, %rax
	movzbl	%r9b, %edx
	orq	%rax, 2856(%rsp,%rdx,8)
	jmp	.LBB6_21
	.p2align	4
.LBB6_8:                                # %arm.3.i.i4.i.i.i
                                        #   in Loop: Header=BB6_5 Depth=1
	shrq	$16, %rsi
	movzbl	%sil, %edx
	cmpb	$126, %dl
	movl	$126, %eax
	cmovbl	%edx, %eax
	cmpb	$-94, %r9b
	movl	$161, %edi
	cmovael	%r9d, %edi
	movl	$1, %edx
	shlq	%cl, %rdx
	cmpb	%r9b, %al
	jb	.LBB6_14
# %bb.9:                                # %join.5.preheader.i.i.i.i.i.i.i
                                        #   in Loop: Header=BB6_5 Depth=1
	movzbl	%al, %r8d
	movzbl	%r9b, %r9d
	incq	%r8
	movq	%r8, %r10
	subq	%r9, %r10
	cmpq	$4, %r10
	jb	.LBB6_13
# %bb.10:                               # %vector.ph16
                                        #   in Loop: Header=BB6_5 Depth=1
	movq	%r10, %r11
	andq	$-4, %r11
	movq	%rdx, %xmm0
	pshufd	$68, %xmm0, %xmm0               # xmm0 = xmm0[0,1,0,1]
	leaq	(,%r9,8), %r14
	addq	%rbp, %r14
	addq	%r11, %r9
	xorl	%eax, %eax
	.p2align	4
.LBB6_11:                               # %vector.body21
                                        #   Parent Loop BB6_5 Depth=1
                                        # =>  This Inner Loop Header: Depth=2
	movdqu	-16(%r14,%rax,8), %xmm1
	movdqu	(%r14,%rax,8), %xmm2
	por	%xmm0, %xmm1
	por	%xmm0, %xmm2
	movdqu	%xmm1, -16(%r14,%rax,8)
	movdqu	%xmm2, (%r14,%rax,8)
	addq	$4, %rax
	cmpq	%rax, %r11
	jne	.LBB6_11
# %bb.12:                               # %middle.block27
                                        #   in Loop: Header=BB6_5 Depth=1
	cmpl	%r11d, %r10d
	je	.LBB6_14
	.p2align	4
.LBB6_13:                               # %join.5.i.i.i.i.i.i.i
                                        #   Parent Loop BB6_5 Depth=1
                                        # =>  This Inner Loop Header: Depth=2
	orq	%rdx, 2856(%rsp,%r9,8)
	incq	%r9
	cmpq	%r9, %r8
	jne	.LBB6_13
.LBB6_14:                               # %"masks::scatter::put_between.exit.i.i.i.i.i.i"
                                        #   in Loop: Header=BB6_5 Depth=1
	cmpb	%sil, %dil
	ja	.LBB6_21
# %bb.15:                               # %join.5.preheader.i4.i.i.i.i.i.i
                                        #   in Loop: Header=BB6_5 Depth=1
	movzbl	%sil, %esi
	movzbl	%dil, %eax
	incq	%rsi
	movq	%rsi, %r8
	subq	%rax, %r8
	cmpq	$4, %r8
	jae	.LBB6_17
# %bb.16:                               #   in Loop: Header=BB6_5 Depth=1
	movq	%rax, %rdi
	jmp	.LBB6_20
.LBB6_17:                               # %vector.ph
                                        #   in Loop: Header=BB6_5 Depth=1
	movq	%r8, %r9
	andq	$-4, %r9
	leaq	(%r9,%rax), %rdi
	movq	%rdx, %xmm0
	pshufd	$68, %xmm0, %xmm0               # xmm0 = xmm0[0,1,0,1]
	leaq	(,%rax,8), %r10
	addq	%rbp, %r10
	xorl	%eax, %eax
	.p2align	4
.LBB6_18:                               # %vector.body
                                        #   Parent Loop BB6_5 Depth=1
                                        # =>  This Inner Loop Header: Depth=2
	movdqu	-16(%r10,%rax,8), %xmm1
	movdqu	(%r10,%rax,8), %xmm2
	por	%xmm0, %xmm1
	por	%xmm0, %xmm2
	movdqu	%xmm1, -16(%r10,%rax,8)
	movdqu	%xmm2, (%r10,%rax,8)
	addq	$4, %rax
	cmpq	%rax, %r9
	jne	.LBB6_18
# %bb.19:                               # %middle.block
                                        #   in Loop: Header=BB6_5 Depth=1
	cmpl	%r9d, %r8d
	je	.LBB6_21
	.p2align	4
.LBB6_20:                               # %join.5.i6.i.i.i.i.i.i
                                        #   Parent Loop BB6_5 Depth=1
                                        # =>  This Inner Loop Header: Depth=2
	orq	%rdx, 2856(%rsp,%rdi,8)
	incq	%rdi
	cmpq	%rdi, %rsi
	jne	.LBB6_20
	jmp	.LBB6_21
.LBB6_22:                               # %"first_sweep::fill.exit.i"
	movq	%r12, %r14
	shlq	$4, %r14
	movq	48(%rsp), %rbp                  # 8-byte Reload
	movq	$0, (%rbp,%r14)
	movq	%r15, 8(%rbp,%r14)
	movq	%r15, 80(%rsp)
	movb	$1, 88(%rsp)
	movq	%r12, 96(%rsp)
	movb	$0, 104(%rsp)
	movq	$192, 112(%rsp)
	leaq	2016(%rsp), %rax
	movq	%rax, 120(%rsp)
	leaq	1504(%rsp), %rax
	movq	%rax, 128(%rsp)
	leaq	152(%rsp), %rax
	movq	%rax, 136(%rsp)
	leaq	2856(%rsp), %rax
	movq	%rax, 144(%rsp)
	leaq	120(%rsp), %rdi
	leaq	80(%rsp), %rcx
	movq	56(%rsp), %rsi                  # 8-byte Reload
	movq	%r12, %rdx
	movq	%rbp, %r8
	callq	"first_sweep::sweep"
	decq	%r13
	movq	8(%rbp), %rax
	movl	$1, %ebp
	btq	%r13, %rax
	jae	.LBB6_23
# %bb.24:                               # %join.6.i
	movq	4968(%rsp), %r15
	leaq	(%r12,%r14), %rax
	addq	$8, %rax
	cmpq	%r15, %rax
	movq	48(%rsp), %r14                  # 8-byte Reload
	jbe	.LBB6_27
# %bb.25:                               # %"parser::bytes_missing.exit.i.i"
	leaq	47(%rsp), %rax
	movq	%rax, 8(%rsp)
	movl	$0, 24(%rsp)
	movq	$0, 16(%rsp)
	movl	$1, (%rsp)
	leaq	152(%rsp), %rdi
	movq	%r14, %rsi
	movq	56(%rsp), %rdx                  # 8-byte Reload
	movq	%r12, %rcx
	movq	%r13, %r8
	xorl	%r9d, %r9d
	callq	"second_sweep::sweep"
	movl	%eax, %ecx
	addq	$7, %rcx
	shrq	$3, %rcx
	cmpq	%rcx, %r15
	jae	.LBB6_27
# %bb.26:                               # %arm.1.i.i
	movl	$6, %eax
	jmp	.LBB6_29
.LBB6_27:                               # %join.4.i.i
	movq	4960(%rsp), %rax
	movq	%r15, 16(%rsp)
	movq	%rax, 8(%rsp)
	movl	$0, 24(%rsp)
	movl	$1, (%rsp)
	leaq	152(%rsp), %rdi
	xorl	%ebp, %ebp
	movq	%r14, %rsi
	movq	56(%rsp), %rdx                  # 8-byte Reload
	movq	%r12, %rcx
	movq	%r13, %r8
	xorl	%r9d, %r9d
	callq	"second_sweep::sweep"
	jmp	.LBB6_28
.LBB6_23:
	movl	$4, %eax
.LBB6_28:                               # %"parser::read.exit"
	xorl	%ecx, %ecx
.LBB6_29:                               # %"parser::read.exit"
	movl	%ebp, (%rbx)
	movl	%eax, 4(%rbx)
	movl	%ecx, 8(%rbx)
.LBB6_30:                               # %common.ret
	addq	$4904, %rsp                     # imm = 0x1328
	popq	%rbx
	popq	%r12
	popq	%r13
	popq	%r14
	popq	%r15
	popq	%rbp
	retq
.Lfunc_end6:
	.size	"parser::parse", .Lfunc_end6-"parser::parse"
                                        # -- End function
	.section	".text.checks::check_tape","ax",@progbits
	.p2align	4                               # -- Begin function checks::check_tape
	.type	"checks::check_tape",@function
"checks::check_tape":                   # @"checks::check_tape"
# %bb.0:                                # %start
	pushq	%rbp
	pushq	%r15
	pushq	%r14
	pushq	%r13
	pushq	%r12
	pushq	%rbx
	subq	$664, %rsp                      # imm = 0x298
	movq	%rdi, %rbx
	movq	(%rsi), %rbp
	leaq	-1(%rbp), %rax
	cmpq	$63, %rax
	ja	.LBB7_12
# %bb.1:                                # %arm.3.i.preheader.i.i
	movq	%rdx, %r12
	movq	%rcx, %r13
	addq	$8, %rsi
	movq	%rbp, 336(%rsp)
	leaq	344(%rsp), %r15
	movl	$320, %edx                      # imm = 0x140
	movq	%r15, %rdi
	movq	%rsi, %r14
	callq	memcpy@PLT
	movq	%rbp, %rax
	jmp	.LBB7_2
.LBB7_6:                                # %arm.2.i.i.i.i.i.i.i.i
                                        #   in Loop: Header=BB7_2 Depth=1
	andb	$127, %cl
	addb	$-33, %cl
	cmpb	$94, %cl
	jae	.LBB7_12
	.p2align	4
.LBB7_10:                               # %loop.2.backedge.i.i.i
                                        #   in Loop: Header=BB7_2 Depth=1
	decq	%rax
	addq	$5, %r15
	testq	%rax, %rax
	je	.LBB7_11
.LBB7_2:                                # %arm.3.i.i.i
                                        # =>This Inner Loop Header: Depth=1
	cmpb	$-56, (%r15)
	ja	.LBB7_12
# %bb.3:                                # %then.1.i.i.i.i.i.i
                                        #   in Loop: Header=BB7_2 Depth=1
	cmpb	$0, 1(%r15)
	jne	.LBB7_10
# %bb.4:                                # %arm.1.i.i.i.i.i.i.i
                                        #   in Loop: Header=BB7_2 Depth=1
	movzbl	2(%r15), %edx
	testl	%edx, %edx
	je	.LBB7_10
# %bb.5:                                # %arm.1.i.i.i.i.i.i.i
                                        #   in Loop: Header=BB7_2 Depth=1
	movzbl	3(%r15), %ecx
	cmpl	$2, %edx
	jne	.LBB7_6
# %bb.7:                                # %arm.3.i.i.i.i.i.i.i.i
                                        #   in Loop: Header=BB7_2 Depth=1
	movzbl	4(%r15), %edx
	cmpb	%dl, %cl
	ja	.LBB7_12
# %bb.8:                                # %arm.3.i.i.i.i.i.i.i.i
                                        #   in Loop: Header=BB7_2 Depth=1
	andb	$127, %cl
	addb	$-33, %cl
	cmpb	$93, %cl
	ja	.LBB7_12
# %bb.9:                                # %arm.3.i.i.i.i.i.i.i.i
                                        #   in Loop: Header=BB7_2 Depth=1
	andb	$127, %dl
	addb	$-33, %dl
	cmpb	$93, %dl
	jbe	.LBB7_10
	jmp	.LBB7_12
.LBB7_11:                               # %"syntax::obeys_rules.exit"
	movq	%rbp, 8(%rsp)
	leaq	16(%rsp), %rdi
	movl	$320, %edx                      # imm = 0x140
	movq	%r14, %rsi
	callq	memcpy@PLT
	leaq	8(%rsp), %rdi
	callq	"syntax::naming::tree_fault_of"
	cmpb	$1, %al
	jne	.LBB7_13
.LBB7_12:                               # %then.1
	movb	$1, (%rbx)
	movq	$1, 4(%rbx)
.LBB7_21:                               # %common.ret
	addq	$664, %rsp                      # imm = 0x298
	popq	%rbx
	popq	%r12
	popq	%r13
	popq	%r14
	popq	%r15
	popq	%rbp
	retq
.LBB7_13:                               # %join.3
	cmpq	$3601, %r13                     # imm = 0xE11
	jb	.LBB7_15
# %bb.14:                               # %then.4
	movb	$1, (%rbx)
	movq	$2, 4(%rbx)
	jmp	.LBB7_21
.LBB7_15:                               # %join.6
	xorl	%eax, %eax
	testq	%r13, %r13
	je	.LBB7_16
	.p2align	4
.LBB7_18:                               # %arm.3.i.i
                                        # =>This Inner Loop Header: Depth=1
	movzbl	(%r12,%rax), %ecx
	andb	$127, %cl
	addb	$-127, %cl
	cmpb	$-94, %cl
	jb	.LBB7_16
# %bb.19:                               # %join.9.i.i
                                        #   in Loop: Header=BB7_18 Depth=1
	incq	%rax
	cmpq	%rax, %r13
	jne	.LBB7_18
	jmp	.LBB7_20
.LBB7_16:                               # %"syntax::first_bad.exit"
	cmpq	%r13, %rax
	jae	.LBB7_20
# %bb.17:                               # %then.7
	movb	$1, (%rbx)
	movl	$3, 4(%rbx)
	movl	%eax, 8(%rbx)
	jmp	.LBB7_21
.LBB7_20:                               # %join.9
	movb	$0, (%rbx)
	movq	$0, 4(%rbx)
	jmp	.LBB7_21
.Lfunc_end7:
	.size	"checks::check_tape", .Lfunc_end7-"checks::check_tape"
                                        # -- End function
	.section	".text.masks::put_masks","ax",@progbits
	.p2align	4                               # -- Begin function masks::put_masks
	.type	"masks::put_masks",@function
"masks::put_masks":                     # @"masks::put_masks"
# %bb.0:                                # %start
	pushq	%rbp
	pushq	%r15
	pushq	%r14
	pushq	%r13
	pushq	%r12
	pushq	%rbx
	subq	$2616, %rsp                     # imm = 0xA38
	movq	%rcx, %r14
	movq	%rdx, %r15
	movq	%rsi, %rbx
	movq	%rdi, %r12
	leaq	48(%rsp), %rdi
	xorl	%r13d, %r13d
	movl	$1024, %edx                     # imm = 0x400
	xorl	%esi, %esi
	callq	memset@PLT
	xorps	%xmm0, %xmm0
	movaps	%xmm0, 48(%rsp)
	movaps	%xmm0, 64(%rsp)
	movaps	%xmm0, 80(%rsp)
	movaps	%xmm0, 96(%rsp)
	movaps	%xmm0, 112(%rsp)
	movaps	%xmm0, 128(%rsp)
	movaps	%xmm0, 144(%rsp)
	movaps	%xmm0, 160(%rsp)
	movaps	%xmm0, 176(%rsp)
	movaps	%xmm0, 192(%rsp)
	movaps	%xmm0, 208(%rsp)
	movaps	%xmm0, 224(%rsp)
	movaps	%xmm0, 240(%rsp)
	movaps	%xmm0, 256(%rsp)
	movaps	%xmm0, 272(%rsp)
	movaps	%xmm0, 288(%rsp)
	movaps	%xmm0, 304(%rsp)
	movaps	%xmm0, 320(%rsp)
	movaps	%xmm0, 336(%rsp)
	movaps	%xmm0, 352(%rsp)
	movaps	%xmm0, 368(%rsp)
	movaps	%xmm0, 384(%rsp)
	movaps	%xmm0, 400(%rsp)
	movaps	%xmm0, 416(%rsp)
	movaps	%xmm0, 432(%rsp)
	movaps	%xmm0, 448(%rsp)
	movaps	%xmm0, 464(%rsp)
	movaps	%xmm0, 480(%rsp)
	movaps	%xmm0, 496(%rsp)
	movaps	%xmm0, 512(%rsp)
	movaps	%xmm0, 528(%rsp)
	movaps	%xmm0, 544(%rsp)
	movaps	%xmm0, 560(%rsp)
	movaps	%xmm0, 576(%rsp)
	movaps	%xmm0, 592(%rsp)
	movaps	%xmm0, 608(%rsp)
	movaps	%xmm0, 624(%rsp)
	movaps	%xmm0, 640(%rsp)
	movaps	%xmm0, 656(%rsp)
	movaps	%xmm0, 672(%rsp)
	movaps	%xmm0, 688(%rsp)
	movaps	%xmm0, 704(%rsp)
	movaps	%xmm0, 720(%rsp)
	movaps	%xmm0, 736(%rsp)
	movaps	%xmm0, 752(%rsp)
	movaps	%xmm0, 768(%rsp)
	movaps	%xmm0, 784(%rsp)
	movaps	%xmm0, 800(%rsp)
	movaps	%xmm0, 816(%rsp)
	movaps	%xmm0, 832(%rsp)
	movaps	%xmm0, 848(%rsp)
	movaps	%xmm0, 864(%rsp)
	movaps	%xmm0, 880(%rsp)
	movaps	%xmm0, 896(%rsp)
	movaps	%xmm0, 912(%rsp)
	movaps	%xmm0, 928(%rsp)
	movaps	%xmm0, 944(%rsp)
	movaps	%xmm0, 960(%rsp)
	movaps	%xmm0, 976(%rsp)
	movaps	%xmm0, 992(%rsp)
	movaps	%xmm0, 1008(%rsp)
	movaps	%xmm0, 1024(%rsp)
	movaps	%xmm0, 1040(%rsp)
	movaps	%xmm0, 1056(%rsp)
	leaq	1080(%rsp), %rdi
	movl	$1536, %edx                     # imm = 0x600
	xorl	%esi, %esi
	callq	memset@PLT
	testq	%rbx, %rbx
	je	.LBB8_59
# %bb.1:                                # %join.5.i.preheader
	leaq	57(%rsp), %rax
	xorl	%ecx, %ecx
	jmp	.LBB8_4
	.p2align	4
.LBB8_2:                                # %arm.1.i.i.i
                                        #   in Loop: Header=BB8_4 Depth=1
	movl	$1, %esi
	shlq	%cl, %rsi
	xorl	%edx, %edx
.LBB8_3:                                # %"masks::firsts::line_first.exit.i"
                                        #   in Loop: Header=BB8_4 Depth=1
	movq	%rsi, -9(%rax)
	movb	%dl, -1(%rax)
	movl	$0, (%rax)
	movl	$0, 3(%rax)
	incq	%rcx
	addq	$16, %rax
	cmpq	%rcx, %rbx
	je	.LBB8_14
.LBB8_4:                                # %join.5.i
                                        # =>This Inner Loop Header: Depth=1
	movq	(%r12,%rcx,8), %rdi
	movq	%rdi, %r8
	shrq	$8, %r8
	movb	$1, %dl
	cmpb	$4, %dil
	ja	.LBB8_11
# %bb.5:                                # %join.5.i
                                        #   in Loop: Header=BB8_4 Depth=1
	movl	%edi, %esi
	shrq	$16, %rdi
	movzbl	%sil, %esi
	leaq	.LJTI8_0(%rip), %r9
	movslq	(%r9,%rsi,4), %r10
	addq	%r9, %r10
	jmpq	*%r10
.LBB8_6:                                # %arm.2.i.i.i
                                        #   in Loop: Header=BB8_4 Depth=1
	movzbl	%r8b, %r8d
	shll	$4, %r8d
	movl	56(%rsp,%r8), %edx
	testb	$1, %dl
	je	.LBB8_12
# %bb.7:                                # %arm.2.i.i.i
                                        #   in Loop: Header=BB8_4 Depth=1
	movzbl	%dil, %edx
	shll	$4, %edx
	movq	48(%rsp,%rdx), %rsi
	movl	56(%rsp,%rdx), %edx
	jmp	.LBB8_13
.LBB8_8:                                # %arm.3.i.i.i
                                        #   in Loop: Header=BB8_4 Depth=1
	movzbl	%r8b, %r8d
	shll	$4, %r8d
	movl	56(%rsp,%r8), %edx
	movzbl	%dil, %esi
	shll	$4, %esi
	testb	$1, %dl
	jne	.LBB8_10
# %bb.9:                                # %arm.3.i.i.i
                                        #   in Loop: Header=BB8_4 Depth=1
	movl	56(%rsp,%rsi), %edx
.LBB8_10:                               # %arm.3.i.i.i
                                        #   in Loop: Header=BB8_4 Depth=1
	movq	48(%rsp,%rsi), %rsi
	jmp	.LBB8_13
.LBB8_11:                               # %.thread57.i.i
                                        #   in Loop: Header=BB8_4 Depth=1
	movzbl	%r8b, %esi
	shll	$4, %esi
	movq	48(%rsp,%rsi), %rsi
	jmp	.LBB8_3
.LBB8_12:                               #   in Loop: Header=BB8_4 Depth=1
	xorl	%esi, %esi
.LBB8_13:                               # %"masks::firsts::line_first.exit.i"
                                        #   in Loop: Header=BB8_4 Depth=1
	orq	48(%rsp,%r8), %rsi
	andb	$1, %dl
	jmp	.LBB8_3
.LBB8_14:                               # %"masks::firsts::put_firsts.exit"
	leaq	(,%rbx,8), %rcx
	leaq	(%rcx,%rcx,2), %rax
	xorps	%xmm0, %xmm0
	movups	%xmm0, 1056(%rsp,%rax)
	movb	$1, 1072(%rsp,%rax)
	movl	$0, 1073(%rsp,%rax)
	movl	$0, 1076(%rsp,%rax)
	leaq	-1(%rbx), %rax
	leaq	(%rcx,%rcx,2), %rcx
	addq	$-24, %rcx
	movq	%rbx, 40(%rsp)                  # 8-byte Spill
	movq	%r12, 32(%rsp)                  # 8-byte Spill
	jmp	.LBB8_19
	.p2align	4
.LBB8_15:                               # %"masks::follows::to_first.exit.thread.i.i"
                                        #   in Loop: Header=BB8_19 Depth=1
	xorl	%esi, %esi
	testb	$1, %bpl
	cmoveq	%rsi, %r9
	cmoveq	%rsi, %rdi
	movzbl	%r8b, %esi
	movzbl	%bpl, %r8d
	cmovnel	%esi, %r8d
	orq	%r13, %r9
	orq	%r13, %rdi
	andb	$1, %r8b
	movl	$0, 15(%rsp)
	movl	$0, 12(%rsp)
.LBB8_16:                               # %after.2.i.i.i
                                        #   in Loop: Header=BB8_19 Depth=1
	movq	40(%rsp), %r10                  # 8-byte Reload
	movq	32(%rsp), %r12                  # 8-byte Reload
.LBB8_17:                               # %after.2.i.i.i
                                        #   in Loop: Header=BB8_19 Depth=1
	movzbl	%dl, %edx
	shll	$3, %edx
	leaq	(%rdx,%rdx,2), %rsi
.LBB8_18:                               # %"masks::follows::hand_on.exit.i"
                                        #   in Loop: Header=BB8_19 Depth=1
	movq	%r9, 1080(%rsp,%rsi)
	movq	%rdi, 1088(%rsp,%rsi)
	movb	%r8b, 1096(%rsp,%rsi)
	movl	12(%rsp), %edx
	movl	15(%rsp), %edi
	movl	%edx, 1097(%rsp,%rsi)
	movl	%edi, 1100(%rsp,%rsi)
	addq	$-24, %rcx
	addq	$-1, %rax
	jae	.LBB8_33
.LBB8_19:                               # %join.5.i2
                                        # =>This Inner Loop Header: Depth=1
	movq	(%r12,%rax,8), %rdx
	movl	%edx, %esi
	shrl	$8, %esi
	cmpb	$5, %dl
	ja	.LBB8_25
# %bb.20:                               # %join.5.i2
                                        #   in Loop: Header=BB8_19 Depth=1
	movl	%edx, %edi
	shrl	$16, %edi
	movzbl	%dl, %r8d
	leaq	.LJTI8_1(%rip), %r9
	movslq	(%r9,%r8,4), %r8
	addq	%r9, %r8
	jmpq	*%r8
.LBB8_21:                               # %arm.2.i.i.i10
                                        #   in Loop: Header=BB8_19 Depth=1
	movb	$1, %dil
	movl	%edi, 20(%rsp)                  # 4-byte Spill
	xorl	%r10d, %r10d
	movq	%rax, %r8
	jmp	.LBB8_30
.LBB8_22:                               #   in Loop: Header=BB8_19 Depth=1
	movb	$1, %r10b
	jmp	.LBB8_28
.LBB8_23:                               # %join.5.i2._crit_edge
                                        #   in Loop: Header=BB8_19 Depth=1
	movb	$1, %sil
	movl	%esi, 20(%rsp)                  # 4-byte Spill
	movl	%edx, %esi
	movl	%edx, %r10d
	movq	%rax, %r8
	jmp	.LBB8_30
.LBB8_24:                               # %arm.6.i.i.i
                                        #   in Loop: Header=BB8_19 Depth=1
	movb	$3, %r10b
	xorl	%edx, %edx
	jmp	.LBB8_26
.LBB8_25:                               # %default.7.i.i.i
                                        #   in Loop: Header=BB8_19 Depth=1
	movb	$1, %dl
	movb	$3, %r10b
.LBB8_26:                               # %"table::node_at.exit.thread.i"
                                        #   in Loop: Header=BB8_19 Depth=1
	movl	%esi, %edi
	jmp	.LBB8_29
.LBB8_27:                               # %arm.5.i.i.i
                                        #   in Loop: Header=BB8_19 Depth=1
	movb	$2, %r10b
.LBB8_28:                               # %"table::node_at.exit.thread.i"
                                        #   in Loop: Header=BB8_19 Depth=1
	movl	%esi, %edx
.LBB8_29:                               # %"table::node_at.exit.thread.i"
                                        #   in Loop: Header=BB8_19 Depth=1
	movzbl	%dil, %r8d
	movl	$0, 20(%rsp)                    # 4-byte Folded Spill
	movl	%edi, %esi
.LBB8_30:                               #   in Loop: Header=BB8_19 Depth=1
	leaq	(%r8,%r8,2), %r12
	shlq	$4, %r8
	movq	48(%rsp,%r8), %r13
	movzbl	56(%rsp,%r8), %ebp
	movq	1080(%rsp,%rcx), %r9
	movq	1088(%rsp,%rcx), %rdi
	movzbl	1096(%rsp,%rcx), %r8d
	movl	1097(%rsp,%rcx), %ebx
	movl	%ebx, 24(%rsp)
	movl	1100(%rsp,%rcx), %ebx
	movl	%ebx, 27(%rsp)
	movq	%r9, 1080(%rsp,%r12,8)
	movq	%rdi, 1088(%rsp,%r12,8)
	movb	%r8b, 1096(%rsp,%r12,8)
	movl	24(%rsp), %ebx
	movl	27(%rsp), %r11d
	movl	%ebx, 1097(%rsp,%r12,8)
	movl	%r11d, 1100(%rsp,%r12,8)
	movzbl	%r10b, %r10d
	leaq	.LJTI8_2(%rip), %r11
	movslq	(%r11,%r10,4), %r10
	addq	%r11, %r10
	jmpq	*%r10
.LBB8_31:                               # %"masks::follows::to_first.exit.i.i"
                                        #   in Loop: Header=BB8_19 Depth=1
	movl	24(%rsp), %esi
	movl	27(%rsp), %r10d
	movl	%r10d, 15(%rsp)
	movl	%esi, 12(%rsp)
	movq	%rcx, %rsi
	cmpb	$0, 20(%rsp)                    # 1-byte Folded Reload
	movq	40(%rsp), %r10                  # 8-byte Reload
	movq	32(%rsp), %r12                  # 8-byte Reload
	je	.LBB8_17
	jmp	.LBB8_18
	.p2align	4
.LBB8_32:                               # %"masks::follows::to_first.exit.thread29.i.i"
                                        #   in Loop: Header=BB8_19 Depth=1
	orq	%r13, %rdi
	andb	$1, %r8b
	movl	$0, 15(%rsp)
	movl	$0, 12(%rsp)
	xorl	%r9d, %r9d
	movl	%esi, %edx
	jmp	.LBB8_16
.LBB8_33:                               # %join.5.i11.preheader
	xorl	%ecx, %ecx
	jmp	.LBB8_35
	.p2align	4
.LBB8_34:                               # %"masks::scatter::put_row.exit.i"
                                        #   in Loop: Header=BB8_35 Depth=1
	incq	%rcx
	cmpq	%r10, %rcx
	je	.LBB8_39
.LBB8_35:                               # %join.5.i11
                                        # =>This Loop Header: Depth=1
                                        #     Child Loop BB8_38 Depth 2
	movq	%rcx, %rdx
	shlq	$4, %rdx
	testb	$1, 56(%rsp,%rdx)
	je	.LBB8_37
# %bb.36:                               # %join.5.i11
                                        #   in Loop: Header=BB8_35 Depth=1
	leaq	(%rcx,%rcx,2), %rax
	movq	1080(%rsp,%rax,8), %rax
	movl	$1, %esi
	shlq	%cl, %rsi
	orq	48(%rsp,%rdx), %rax
	jne	.LBB8_38
	jmp	.LBB8_34
	.p2align	4
.LBB8_37:                               #   in Loop: Header=BB8_35 Depth=1
	xorl	%eax, %eax
	movl	$1, %esi
	shlq	%cl, %rsi
	orq	48(%rsp,%rdx), %rax
	je	.LBB8_34
	.p2align	4
.LBB8_38:                               # %arm.3.i.i
                                        #   Parent Loop BB8_35 Depth=1
                                        # =>  This Inner Loop Header: Depth=2
	movq	%rax, %rdx
	rep		bsfq	%rax, %rdi
	decq	%rax
	orq	%rsi, (%r15,%rdi,8)
	andq	%rdx, %rax
	jne	.LBB8_38
	jmp	.LBB8_34
.LBB8_39:                               # %join.5.us.i.preheader
	xorl	%ecx, %ecx
	jmp	.LBB8_41
	.p2align	4
.LBB8_40:                               # %"masks::scatter::put_row.exit.us.i"
                                        #   in Loop: Header=BB8_41 Depth=1
	incq	%rcx
	cmpq	%r10, %rcx
	je	.LBB8_45
.LBB8_41:                               # %join.5.us.i
                                        # =>This Loop Header: Depth=1
                                        #     Child Loop BB8_44 Depth 2
	movq	%rcx, %rdx
	shlq	$4, %rdx
	testb	$1, 56(%rsp,%rdx)
	je	.LBB8_43
# %bb.42:                               # %join.5.us.i
                                        #   in Loop: Header=BB8_41 Depth=1
	leaq	(%rcx,%rcx,2), %rax
	movq	1088(%rsp,%rax,8), %rax
	movl	$1, %esi
	shlq	%cl, %rsi
	orq	48(%rsp,%rdx), %rax
	jne	.LBB8_44
	jmp	.LBB8_40
	.p2align	4
.LBB8_43:                               #   in Loop: Header=BB8_41 Depth=1
	xorl	%eax, %eax
	movl	$1, %esi
	shlq	%cl, %rsi
	orq	48(%rsp,%rdx), %rax
	je	.LBB8_40
	.p2align	4
.LBB8_44:                               # %arm.3.i.us.i
                                        #   Parent Loop BB8_41 Depth=1
                                        # =>  This Inner Loop Header: Depth=2
	movq	%rax, %rdx
	rep		bsfq	%rax, %rdi
	decq	%rax
	orq	%rsi, (%r14,%rdi,8)
	andq	%rdx, %rax
	jne	.LBB8_44
	jmp	.LBB8_40
.LBB8_45:                               # %join.5.i21.preheader
	cmpq	$1, %r10
	jne	.LBB8_47
# %bb.46:
	xorl	%r13d, %r13d
	xorl	%eax, %eax
	jmp	.LBB8_55
.LBB8_47:                               # %join.5.i21.preheader.new
	movq	%r10, %rdx
	andq	$-2, %rdx
	leaq	72(%rsp), %rsi
	leaq	1120(%rsp), %rdi
	xorl	%r13d, %r13d
	xorl	%eax, %eax
	jmp	.LBB8_50
	.p2align	4
.LBB8_48:                               # %then.6.i.1
                                        #   in Loop: Header=BB8_50 Depth=1
	movzbl	(%rdi), %r9d
.LBB8_49:                               # %join.8.i.1
                                        #   in Loop: Header=BB8_50 Depth=1
	leal	1(%rax), %ecx
                                        # kill: def $cl killed $cl killed $ecx
	shlq	%cl, %r9
	movq	%r13, %rcx
	addq	%r8, %rcx
	movq	%r9, %r13
	addq	%rcx, %r13
	addq	$2, %rax
	addq	$32, %rsi
	addq	$48, %rdi
	cmpq	%rdx, %rax
	je	.LBB8_54
.LBB8_50:                               # %join.5.i21
                                        # =>This Inner Loop Header: Depth=1
	cmpb	$1, -16(%rsi)
	jne	.LBB8_52
# %bb.51:                               # %then.6.i
                                        #   in Loop: Header=BB8_50 Depth=1
	movzbl	-24(%rdi), %r8d
	movl	%eax, %ecx
	shlq	%cl, %r8
	cmpb	$1, (%rsi)
	je	.LBB8_48
	jmp	.LBB8_53
	.p2align	4
.LBB8_52:                               #   in Loop: Header=BB8_50 Depth=1
	xorl	%r8d, %r8d
	movl	%eax, %ecx
	shlq	%cl, %r8
	cmpb	$1, (%rsi)
	je	.LBB8_48
.LBB8_53:                               #   in Loop: Header=BB8_50 Depth=1
	xorl	%r9d, %r9d
	jmp	.LBB8_49
.LBB8_54:                               # %"masks::scatter::ends_of.exit.loopexit.unr-lcssa"
	testb	$1, %r10b
	je	.LBB8_59
.LBB8_55:                               # %join.5.i21.epil.preheader
	movq	%rax, %rcx
	shlq	$4, %rcx
	cmpb	$1, 56(%rsp,%rcx)
	jne	.LBB8_57
# %bb.56:                               # %then.6.i.epil
	leaq	(%rax,%rax,2), %rcx
	movzbl	1096(%rsp,%rcx,8), %edx
	jmp	.LBB8_58
.LBB8_57:
	xorl	%edx, %edx
.LBB8_58:                               # %join.8.i.epil
	movl	%eax, %ecx
	shlq	%cl, %rdx
	addq	%rdx, %r13
.LBB8_59:                               # %"masks::scatter::ends_of.exit"
	movq	%r13, %rax
	addq	$2616, %rsp                     # imm = 0xA38
	popq	%rbx
	popq	%r12
	popq	%r13
	popq	%r14
	popq	%r15
	popq	%rbp
	retq
.Lfunc_end8:
	.size	"masks::put_masks", .Lfunc_end8-"masks::put_masks"
	.section	".rodata.masks::put_masks","a",@progbits
	.p2align	2, 0x0
.LJTI8_0:
	.long	.LBB8_3-.LJTI8_0
	.long	.LBB8_2-.LJTI8_0
	.long	.LBB8_2-.LJTI8_0
	.long	.LBB8_6-.LJTI8_0
	.long	.LBB8_8-.LJTI8_0
.LJTI8_1:
	.long	.LBB8_23-.LJTI8_1
	.long	.LBB8_21-.LJTI8_1
	.long	.LBB8_21-.LJTI8_1
	.long	.LBB8_22-.LJTI8_1
	.long	.LBB8_27-.LJTI8_1
	.long	.LBB8_24-.LJTI8_1
.LJTI8_2:
	.long	.LBB8_31-.LJTI8_2
	.long	.LBB8_15-.LJTI8_2
	.long	.LBB8_31-.LJTI8_2
	.long	.LBB8_32-.LJTI8_2
                                        # -- End function
	.section	".text.first_sweep::sweep","ax",@progbits
	.p2align	4                               # -- Begin function first_sweep::sweep
	.type	"first_sweep::sweep",@function
"first_sweep::sweep":                   # @"first_sweep::sweep"
# %bb.0:                                # %start
	pushq	%rbp
	pushq	%r15
	pushq	%r14
	pushq	%r13
	pushq	%r12
	pushq	%rbx
	subq	$3072, %rsp                     # imm = 0xC00
	movq	$0, (%rsp)
	subq	$712, %rsp                      # imm = 0x2C8
	movq	%r8, 48(%rsp)                   # 8-byte Spill
	movq	%rdx, %r14
	movq	%rsi, 40(%rsp)                  # 8-byte Spill
	movq	(%rdi), %r12
	movq	8(%rdi), %r13
	movq	16(%rdi), %rbp
	movq	24(%rdi), %rax
	movq	%rax, 32(%rsp)                  # 8-byte Spill
	movq	(%rcx), %rbx
	movq	16(%rcx), %rax
	movq	%rax, 24(%rsp)                  # 8-byte Spill
	movzbl	8(%rcx), %r15d
	movzbl	24(%rcx), %eax
	movb	%al, 15(%rsp)                   # 1-byte Spill
	movq	32(%rcx), %rax
	movq	%rax, 16(%rsp)                  # 8-byte Spill
	leaq	56(%rsp), %rdi
	movl	$648, %edx                      # imm = 0x288
	xorl	%esi, %esi
	callq	memset@PLT
	movq	16(%rsp), %rax                  # 8-byte Reload
	movq	%rax, 704(%rsp)
	leaq	712(%rsp), %rdi
	movl	$3072, %edx                     # imm = 0xC00
	xorl	%esi, %esi
	callq	memset@PLT
	testq	%r14, %r14
	je	.LBB9_25
# %bb.1:                                # %join.5.lr.ph
	andl	$1, %r15d
	xorl	%r8d, %r8d
	xorl	%ecx, %ecx
	jmp	.LBB9_2
.LBB9_26:                               # %arm.6.i
                                        #   in Loop: Header=BB9_2 Depth=1
	movq	$0, 704(%rsp)
.LBB9_11:                               #   in Loop: Header=BB9_2 Depth=1
	xorl	%r10d, %r10d
	xorl	%r11d, %r11d
.LBB9_24:                               # %join.9
                                        #   in Loop: Header=BB9_2 Depth=1
	decq	%r14
	movq	24(%rsp), %rax                  # 8-byte Reload
	subq	%r14, %rax
	testb	$1, 15(%rsp)                    # 1-byte Folded Reload
	cmoveq	%r14, %rax
	shlq	$4, %rax
	movq	48(%rsp), %rcx                  # 8-byte Reload
	movq	%rsi, (%rcx,%rax)
	movq	%rdx, 8(%rcx,%rax)
	xorl	%r15d, %r15d
	movq	%rdx, %rbx
	movl	%r11d, %r8d
	movq	%r10, %rcx
	testq	%r14, %r14
	je	.LBB9_25
.LBB9_2:                                # %join.5
                                        # =>This Loop Header: Depth=1
                                        #     Child Loop BB9_9 Depth 2
                                        #     Child Loop BB9_14 Depth 2
	movq	40(%rsp), %rax                  # 8-byte Reload
	movzbl	-1(%rax,%r14), %edx
	movq	32(%rsp), %rax                  # 8-byte Reload
	movq	(%rax,%rdx,8), %r9
	testb	%r8b, %r8b
	je	.LBB9_6
# %bb.3:                                # %arm.1.i
                                        #   in Loop: Header=BB9_2 Depth=1
	movl	$64, %edx
	rep		bsfq	%r9, %rdx
	andl	$63, %edx
	movl	%edx, %esi
	cmpq	%r9, 712(%rsp,%rsi,8)
	jne	.LBB9_6
# %bb.4:                                # %"steps::memory::Memo::known.exit"
                                        #   in Loop: Header=BB9_2 Depth=1
	leaq	(%rdx,%rdx,4), %rdx
	leaq	1224(%rsp), %rax
	leaq	(%rax,%rdx,8), %rdx
	movzbl	(%rcx,%rdx), %r10d
	testq	%r10, %r10
	je	.LBB9_6
# %bb.5:                                # %arm.6
                                        #   in Loop: Header=BB9_2 Depth=1
	decq	%r10
	movq	%r10, %rdx
	shlq	$4, %rdx
	movq	56(%rsp,%rdx), %rsi
	movq	64(%rsp,%rdx), %rdx
	movb	$1, %r11b
	jmp	.LBB9_24
	.p2align	4
.LBB9_6:                                # %arm.7
                                        #   in Loop: Header=BB9_2 Depth=1
	movq	%rcx, 16(%rsp)                  # 8-byte Spill
	testq	%r9, %r9
	je	.LBB9_7
# %bb.8:                                # %arm.3.i.preheader
                                        #   in Loop: Header=BB9_2 Depth=1
	xorl	%esi, %esi
	xorl	%edx, %edx
	movq	%r9, %r11
	.p2align	4
.LBB9_9:                                # %arm.3.i
                                        #   Parent Loop BB9_2 Depth=1
                                        # =>  This Inner Loop Header: Depth=2
	movq	%r11, %r10
	rep		bsfq	%r11, %rcx
	shll	$3, %ecx
	movq	(%rbp,%rcx), %rax
	movq	%rax, %r11
	shrq	$32, %r11
	xorl	%edi, %edi
	btq	%r11, %rbx
	setb	%dil
	movabsq	$824633720832, %r11             # imm = 0xC000000000
	testq	%r11, %rax
	cmovneq	%r15, %rdi
	leaq	-1(%r10), %r11
	movq	(%r12,%rcx), %rax
	imulq	%rdi, %rax
	orq	%rax, %rsi
	imulq	(%r13,%rcx), %rdi
	orq	%rdi, %rdx
	andq	%r10, %r11
	jne	.LBB9_9
# %bb.10:                               # %"steps::step.exit"
                                        #   in Loop: Header=BB9_2 Depth=1
	movq	704(%rsp), %r10
	testq	%r10, %r10
	jne	.LBB9_12
	jmp	.LBB9_11
	.p2align	4
.LBB9_7:                                #   in Loop: Header=BB9_2 Depth=1
	xorl	%edx, %edx
	xorl	%esi, %esi
	movq	704(%rsp), %r10
	testq	%r10, %r10
	je	.LBB9_11
.LBB9_12:                               # %join.3.i
                                        #   in Loop: Header=BB9_2 Depth=1
	decq	%r10
	movq	%r10, 704(%rsp)
	movq	696(%rsp), %r10
	testq	%r10, %r10
	je	.LBB9_19
# %bb.13:                               # %arm.3.i.i.i.i.preheader
                                        #   in Loop: Header=BB9_2 Depth=1
	xorl	%r11d, %r11d
	leaq	64(%rsp), %rbx
	jmp	.LBB9_14
	.p2align	4
.LBB9_17:                               # %join.9.i.i.i.i
                                        #   in Loop: Header=BB9_14 Depth=2
	incq	%r11
	addq	$16, %rbx
	cmpq	%r11, %r10
	je	.LBB9_18
.LBB9_14:                               # %arm.3.i.i.i.i
                                        #   Parent Loop BB9_2 Depth=1
                                        # =>  This Inner Loop Header: Depth=2
	cmpq	%rsi, -8(%rbx)
	jne	.LBB9_17
# %bb.15:                               # %"steps::memory::fn::find::position+FnMut::call_mut.exit.i.i.i.i"
                                        #   in Loop: Header=BB9_14 Depth=2
	cmpq	%rdx, (%rbx)
	jne	.LBB9_17
# %bb.16:                               #   in Loop: Header=BB9_2 Depth=1
	movq	%r11, %r10
	movb	$1, %r11b
	testb	$1, %r8b
	je	.LBB9_24
	jmp	.LBB9_21
	.p2align	4
.LBB9_18:                               # %join.4.i.i
                                        #   in Loop: Header=BB9_2 Depth=1
	cmpq	$40, %r10
	je	.LBB9_26
.LBB9_19:                               # %join.8.i.i
                                        #   in Loop: Header=BB9_2 Depth=1
	movq	%r10, %rax
	shlq	$4, %rax
	movq	%rsi, 56(%rsp,%rax)
	movq	%rdx, 64(%rsp,%rax)
	leaq	1(%r10), %rax
	movq	%rax, 696(%rsp)
	movb	$1, %r11b
	testb	$1, %r8b
	je	.LBB9_24
.LBB9_21:                               # %arm.9.i
                                        #   in Loop: Header=BB9_2 Depth=1
	movl	$64, %r8d
	rep		bsfq	%r9, %r8
	andl	$63, %r8d
	movl	%r8d, %eax
	movq	712(%rsp,%rax,8), %rcx
	testq	%rcx, %rcx
	sete	%bl
	movq	%rcx, %rdi
	cmoveq	%r9, %rdi
	movq	%rdi, 712(%rsp,%rax,8)
	cmpq	%r9, %rcx
	sete	%r15b
	testq	%r9, %r9
	je	.LBB9_24
# %bb.22:                               # %arm.9.i
                                        #   in Loop: Header=BB9_2 Depth=1
	orb	%r15b, %bl
	je	.LBB9_24
# %bb.23:                               # %then.1.i.i
                                        #   in Loop: Header=BB9_2 Depth=1
	leal	1(%r10), %eax
	leaq	(%r8,%r8,4), %rcx
	leaq	1224(%rsp), %rdi
	leaq	(%rdi,%rcx,8), %rcx
	movq	16(%rsp), %rdi                  # 8-byte Reload
	movb	%al, (%rdi,%rcx)
	jmp	.LBB9_24
.LBB9_25:                               # %after.1
	addq	$3784, %rsp                     # imm = 0xEC8
	popq	%rbx
	popq	%r12
	popq	%r13
	popq	%r14
	popq	%r15
	popq	%rbp
	retq
.Lfunc_end9:
	.size	"first_sweep::sweep", .Lfunc_end9-"first_sweep::sweep"
                                        # -- End function
	.section	".text.second_sweep::sweep","ax",@progbits
	.p2align	4                               # -- Begin function second_sweep::sweep
	.type	"second_sweep::sweep",@function
"second_sweep::sweep":                  # @"second_sweep::sweep"
# %bb.0:                                # %start
	pushq	%rbp
	pushq	%r15
	pushq	%r14
	pushq	%r13
	pushq	%r12
	pushq	%rbx
	subq	$56, %rsp
	movl	%r9d, %ebx
	movq	%r8, %rbp
	movq	%rcx, 40(%rsp)                  # 8-byte Spill
	movq	%rdx, 48(%rsp)                  # 8-byte Spill
	movq	%rsi, %r12
	movq	%rdi, %r13
	movl	136(%rsp), %eax
	movq	128(%rsp), %r11
	movzbl	112(%rsp), %r14d
	jmp	.LBB10_2
	.p2align	4
.LBB10_1:                               # %arm.2
                                        #   in Loop: Header=BB10_2 Depth=1
	movzbl	%dl, %r8d
	movl	%eax, 24(%rsp)
	movq	%r11, 16(%rsp)
	movq	120(%rsp), %rax
	movq	%rax, 8(%rsp)
	movzbl	%r14b, %eax
	andl	$1, %eax
	movl	%eax, (%rsp)
	movq	%r13, %rdi
	movq	%r12, %rsi
	movq	48(%rsp), %rdx                  # 8-byte Reload
	movq	40(%rsp), %rcx                  # 8-byte Reload
	movl	%ebx, %r9d
	callq	"second_sweep::sweep"
	movq	128(%rsp), %r11
	cmpw	%dx, %bx
	setb	%cl
	orb	%cl, %r14b
	movl	%edx, %ebx
	movzbl	%r15b, %ebp
.LBB10_2:                               # %tailrecurse
                                        # =>This Inner Loop Header: Depth=1
	movq	(%r13,%rbp,8), %r15
	movq	%r15, %rdx
	shrq	$8, %rdx
	cmpb	$5, %r15b
	ja	.LBB10_18
# %bb.3:                                # %tailrecurse
                                        #   in Loop: Header=BB10_2 Depth=1
	movl	%r15d, %ecx
	shrq	$16, %r15
	movzbl	%cl, %ecx
	leaq	.LJTI10_0(%rip), %rsi
	movslq	(%rsi,%rcx,4), %rcx
	addq	%rsi, %rcx
	jmpq	*%rcx
.LBB10_4:                               # %arm.3
                                        #   in Loop: Header=BB10_2 Depth=1
	movzwl	%bx, %esi
	shll	$4, %esi
	movzbl	%r14b, %r8d
	movl	$1, %edi
	movl	%edx, %ecx
	shlq	%cl, %rdi
	andl	$1, %r8d
	addq	%r12, %rsi
	andq	(%rsi,%r8,8), %rdi
	movl	%eax, %r8d
	shrl	$3, %r8d
	cmpq	%r8, %r11
	jbe	.LBB10_6
# %bb.5:                                # %then.1.i.i31
                                        #   in Loop: Header=BB10_2 Depth=1
	testq	%rdi, %rdi
	sete	%r9b
	movl	%eax, %esi
	andb	$7, %sil
	movb	$8, %cl
	subb	%sil, %cl
	movl	$-1, %r10d
	shll	%cl, %r10d
	xorb	$7, %sil
	movl	%esi, %ecx
	shlb	%cl, %r9b
	movq	120(%rsp), %rcx
	andb	(%rcx,%r8), %r10b
	orb	%r10b, %r9b
	movb	%r9b, (%rcx,%r8)
.LBB10_6:                               # %"second_sweep::choose.exit"
                                        #   in Loop: Header=BB10_2 Depth=1
	testq	%rdi, %rdi
	je	.LBB10_8
# %bb.7:                                # %"second_sweep::choose.exit"
                                        #   in Loop: Header=BB10_2 Depth=1
	movq	%rdx, %r15
.LBB10_8:                               # %"second_sweep::choose.exit"
                                        #   in Loop: Header=BB10_2 Depth=1
	incl	%eax
	movzbl	%r15b, %ebp
	jmp	.LBB10_2
.LBB10_9:                               # %arm.4.split
	movl	$1, %r15d
	movl	%edx, %ecx
	shlq	%cl, %r15
	movzwl	%bx, %ecx
	shll	$4, %ecx
	movq	(%r12,%rcx), %rcx
	movb	$1, %r14b
	btq	%rdx, %rcx
	jae	.LBB10_36
# %bb.10:                               # %join.12.preheader
	movzbl	%dl, %ebp
	jmp	.LBB10_12
	.p2align	4
.LBB10_11:                              # %"second_sweep::put_bit.exit"
                                        #   in Loop: Header=BB10_12 Depth=1
	incl	%eax
	movl	%eax, 24(%rsp)
	movq	%r11, 16(%rsp)
	movq	120(%rsp), %rax
	movq	%rax, 8(%rsp)
	movl	$0, (%rsp)
	movq	%r13, %rdi
	movq	%r12, %rsi
	movq	48(%rsp), %rdx                  # 8-byte Reload
	movq	40(%rsp), %rcx                  # 8-byte Reload
	movq	%rbp, %r8
	movl	%ebx, %r9d
	callq	"second_sweep::sweep"
	movq	128(%rsp), %r11
	movl	%edx, %ebx
	movzwl	%dx, %ecx
	shll	$4, %ecx
	testq	%r15, (%r12,%rcx)
	je	.LBB10_36
.LBB10_12:                              # %join.12
                                        # =>This Inner Loop Header: Depth=1
	movl	%eax, %edx
	shrl	$3, %edx
	cmpq	%rdx, %r11
	jbe	.LBB10_11
# %bb.13:                               # %then.1.i41
                                        #   in Loop: Header=BB10_12 Depth=1
	movl	%eax, %esi
	andb	$7, %sil
	movb	$8, %cl
	subb	%sil, %cl
	movl	$-1, %esi
	shll	%cl, %esi
	movq	120(%rsp), %rcx
	andb	%sil, (%rcx,%rdx)
	jmp	.LBB10_11
.LBB10_14:                              # %arm.2.i
	incl	%ebx
	jmp	.LBB10_39
.LBB10_15:                              # %arm.3.i
	leal	1(%rbx), %edi
	movl	%eax, %ecx
	addq	$7, %rcx
	shrq	$3, %rcx
	cmpq	%r11, %rcx
	jae	.LBB10_23
# %bb.16:                               # %then.1.i.i
	movzwl	%bx, %ecx
	movq	48(%rsp), %rdx                  # 8-byte Reload
	movzbl	(%rdx,%rcx), %r8d
	movl	%eax, %r9d
	shrl	$3, %r9d
	movl	%eax, %edx
	andl	$7, %edx
	je	.LBB10_22
# %bb.17:                               # %join.3.i.i.i
	movb	$8, %sil
	subb	%dl, %sil
	movl	$-1, %r10d
	movl	%esi, %ecx
	shll	%cl, %r10d
	movq	120(%rsp), %rbx
	andb	(%rbx,%r9), %r10b
	movl	%r8d, %r11d
	movl	%edx, %ecx
	shrb	%cl, %r11b
	orb	%r10b, %r11b
	movb	%r11b, (%rbx,%r9)
	movl	%esi, %ecx
	shlb	%cl, %r8b
	movb	%r8b, 1(%rbx,%r9)
	jmp	.LBB10_23
.LBB10_18:                              # %loop.9.us.preheader
	movq	%r15, %rcx
	shrq	$40, %rcx
	andl	$1, %ecx
	movl	%r14d, %esi
	notb	%sil
	testb	%cl, %sil
	jne	.LBB10_26
# %bb.19:                               # %join.3.i.i.us.peel
	movabsq	$824633720832, %rcx             # imm = 0xC000000000
	testq	%rcx, %r15
	je	.LBB10_24
# %bb.20:                               # %else.5.i.i.us.peel
	cmpw	40(%rsp), %bx                   # 2-byte Folded Reload
	sete	%cl
	testb	%cl, %r14b
	je	.LBB10_26
	jmp	.LBB10_21
.LBB10_22:                              # %then.1.i.i.i
	movq	120(%rsp), %rcx
	movb	%r8b, (%rcx,%r9)
.LBB10_23:                              # %"second_sweep::put_letter.exit.i"
	addl	$8, %eax
	movl	%edi, %ebx
	jmp	.LBB10_39
.LBB10_24:                              # %"second_sweep::may_stop.exit.i.us.peel"
	shrq	$32, %r15
	movzwl	%bx, %ecx
	shll	$4, %ecx
	movzbl	%r14b, %esi
	andl	$1, %esi
	addq	%r12, %rcx
	movq	(%rcx,%rsi,8), %rcx
	btq	%r15, %rcx
	jae	.LBB10_26
.LBB10_21:
	xorl	%r14d, %r14d
	movl	%eax, %esi
	shrl	$3, %esi
	cmpq	%rsi, %r11
	ja	.LBB10_37
	jmp	.LBB10_38
.LBB10_26:                              # %join.12.us.peel
	movzbl	%dl, %r15d
	movl	%eax, %esi
	shrl	$3, %esi
	cmpq	%rsi, %r11
	jbe	.LBB10_28
# %bb.27:                               # %then.1.i41.us.peel
	movl	%eax, %edx
	andl	$7, %edx
	movb	$8, %cl
	subb	%dl, %cl
	movl	$-1, %edi
	shll	%cl, %edi
	xorb	$7, %dl
	movb	$1, %r8b
	movl	%edx, %ecx
	shlb	%cl, %r8b
	movq	120(%rsp), %rcx
	andb	(%rcx,%rsi), %dil
	orb	%dil, %r8b
	movb	%r8b, (%rcx,%rsi)
.LBB10_28:                              # %"second_sweep::put_bit.exit.us.peel"
	incl	%eax
	movl	%eax, 24(%rsp)
	movq	%r11, 16(%rsp)
	movq	120(%rsp), %rax
	movq	%rax, 8(%rsp)
	movl	$0, (%rsp)
	movq	%r13, %rdi
	movq	%r12, %rsi
	movq	48(%rsp), %rdx                  # 8-byte Reload
	movq	40(%rsp), %rcx                  # 8-byte Reload
	movq	%r15, %r8
	movl	%ebx, %r9d
	callq	"second_sweep::sweep"
	movl	%edx, %ebx
	movabsq	$824633720832, %r14             # imm = 0xC000000000
	jmp	.LBB10_30
	.p2align	4
.LBB10_29:                              # %"second_sweep::put_bit.exit.us"
                                        #   in Loop: Header=BB10_30 Depth=1
	incl	%eax
	movl	%eax, 24(%rsp)
	movq	%r11, 16(%rsp)
	movq	120(%rsp), %rax
	movq	%rax, 8(%rsp)
	movl	$0, (%rsp)
	movq	%r13, %rdi
	movq	%r12, %rsi
	movq	48(%rsp), %rdx                  # 8-byte Reload
	movq	40(%rsp), %rcx                  # 8-byte Reload
	movq	%r15, %r8
	movl	%ebx, %r9d
	callq	"second_sweep::sweep"
	movl	%edx, %ebx
.LBB10_30:                              # %join.3.i.i.us
                                        # =>This Inner Loop Header: Depth=1
	movq	(%r13,%rbp,8), %rcx
	testq	%r14, %rcx
	je	.LBB10_32
# %bb.31:                               # %else.5.i.i.us
                                        #   in Loop: Header=BB10_30 Depth=1
	cmpw	40(%rsp), %bx                   # 2-byte Folded Reload
	movq	128(%rsp), %r11
	jne	.LBB10_33
	jmp	.LBB10_35
	.p2align	4
.LBB10_32:                              # %"second_sweep::may_stop.exit.i.us"
                                        #   in Loop: Header=BB10_30 Depth=1
	shrq	$32, %rcx
	movzwl	%bx, %edx
	shll	$4, %edx
	movq	8(%r12,%rdx), %rdx
	btq	%rcx, %rdx
	movq	128(%rsp), %r11
	jb	.LBB10_21
.LBB10_33:                              # %join.12.us
                                        #   in Loop: Header=BB10_30 Depth=1
	movl	%eax, %esi
	shrl	$3, %esi
	cmpq	%rsi, %r11
	jbe	.LBB10_29
# %bb.34:                               # %then.1.i41.us
                                        #   in Loop: Header=BB10_30 Depth=1
	movl	%eax, %edx
	andl	$7, %edx
	movb	$8, %cl
	subb	%dl, %cl
	movl	$-1, %edi
	shll	%cl, %edi
	xorb	$7, %dl
	movb	$1, %r8b
	movl	%edx, %ecx
	shlb	%cl, %r8b
	movq	120(%rsp), %rcx
	andb	(%rcx,%rsi), %dil
	orb	%dil, %r8b
	movb	%r8b, (%rcx,%rsi)
	jmp	.LBB10_29
.LBB10_35:
	xorl	%r14d, %r14d
.LBB10_36:                              # %after.8
	movl	%eax, %esi
	shrl	$3, %esi
	cmpq	%rsi, %r11
	jbe	.LBB10_38
.LBB10_37:                              # %then.1.i.i48
	movl	%eax, %edx
	andl	$7, %edx
	movb	$8, %cl
	subb	%dl, %cl
	movl	$-1, %edi
	shll	%cl, %edi
	xorb	$7, %dl
	movl	%edx, %ecx
	shlb	%cl, %r14b
	movq	120(%rsp), %rcx
	andb	(%rcx,%rsi), %dil
	orb	%dil, %r14b
	movb	%r14b, (%rcx,%rsi)
.LBB10_38:                              # %"second_sweep::stop.exit"
	incl	%eax
.LBB10_39:                              # %return.7
	movl	%ebx, %edx
	addq	$56, %rsp
	popq	%rbx
	popq	%r12
	popq	%r13
	popq	%r14
	popq	%r15
	popq	%rbp
	retq
.Lfunc_end10:
	.size	"second_sweep::sweep", .Lfunc_end10-"second_sweep::sweep"
	.section	".rodata.second_sweep::sweep","a",@progbits
	.p2align	2, 0x0
.LJTI10_0:
	.long	.LBB10_39-.LJTI10_0
	.long	.LBB10_14-.LJTI10_0
	.long	.LBB10_15-.LJTI10_0
	.long	.LBB10_1-.LJTI10_0
	.long	.LBB10_4-.LJTI10_0
	.long	.LBB10_9-.LJTI10_0
                                        # -- End function
	.section	".text.spans::find::find","ax",@progbits
	.p2align	4                               # -- Begin function spans::find::find
	.type	"spans::find::find",@function
"spans::find::find":                    # @"spans::find::find"
# %bb.0:                                # %start
	pushq	%rbp
	pushq	%r15
	pushq	%r14
	pushq	%r13
	pushq	%r12
	pushq	%rbx
	subq	$88, %rsp
                                        # kill: def $r8d killed $r8d def $r8
	movq	%rcx, %r15
	movq	%rdx, %r14
	movq	%rsi, %r12
	movq	%rdi, %rbx
	movl	152(%rsp), %r10d
	movl	144(%rsp), %r11d
	movl	%r10d, %eax
	cmpq	%r11, %rdx
	jne	.LBB11_2
# %bb.1:                                # %select.true.sink
	cmpl	$1, %r10d
	movl	%r10d, %eax
	adcl	$-1, %eax
.LBB11_2:                               # %select.end
	xorps	%xmm0, %xmm0
	movaps	%xmm0, 16(%rsp)
	movaps	%xmm0, 64(%rsp)
	movaps	%xmm0, 48(%rsp)
	movq	(%r12,%r14,8), %rdx
	movq	%rdx, %rcx
	shrq	$8, %rcx
	cmpb	$5, %dl
	ja	.LBB11_13
# %bb.3:                                # %select.end
	movq	%rdx, %r13
	shrq	$16, %r13
	xorl	%ebp, %ebp
	movzbl	%dl, %esi
	leaq	.LJTI11_0(%rip), %rdi
	movslq	(%rdi,%rsi,4), %rsi
	addq	%rdi, %rsi
	jmpq	*%rsi
.LBB11_5:                               # %arm.1.i.thread
	xorl	%ebp, %ebp
	xorl	%ecx, %ecx
	jmp	.LBB11_7
.LBB11_8:                               # %arm.2.i
	movzbl	%cl, %edx
	movl	%eax, 8(%rsp)
	movl	%r11d, (%rsp)
	leaq	64(%rsp), %rdi
	movq	%r12, %rsi
	movq	%r15, %rcx
                                        # kill: def $r8d killed $r8d killed $r8
	movl	%r9d, %ebp
	callq	"spans::find::find"
	movq	68(%rsp), %r8
	cmpb	$0, 64(%rsp)
	je	.LBB11_11
# %bb.9:
	xorl	%eax, %eax
	movb	$1, %cl
	movl	%ebp, %r9d
	jmp	.LBB11_10
.LBB11_4:
	movzbl	%dl, %ecx
	jmp	.LBB11_7
.LBB11_6:                               # %arm.3.i31
	movl	$1, %ecx
	movl	$8, %ebp
.LBB11_7:                               # %"spans::find::step_of.exit"
	addl	%r8d, %ebp
	addl	%r9d, %ecx
	movl	%ebp, 20(%rsp)
	movl	%ecx, 24(%rsp)
	movl	%eax, 28(%rsp)
	jmp	.LBB11_21
.LBB11_12:                              # %arm.3.i
	movl	%r8d, %edx
	shrl	$3, %edx
	movl	%r8d, %esi
	notb	%sil
	movzbl	(%r15,%rdx), %edx
	movzbl	%sil, %esi
	andl	$7, %esi
	btl	%esi, %edx
	cmovaeq	%rcx, %r13
	movzbl	%r13b, %edx
	incl	%r8d
	movl	%eax, 8(%rsp)
	movl	%r11d, (%rsp)
	leaq	16(%rsp), %rdi
	movq	%r12, %rsi
	movq	%r15, %rcx
                                        # kill: def $r8d killed $r8d killed $r8
	movl	%r9d, %ebp
	movl	%r10d, %r15d
	callq	"spans::find::find"
	movl	144(%rsp), %r11d
	movl	%r15d, %r10d
	movl	%ebp, %r9d
	jmp	.LBB11_21
.LBB11_13:                              # %default.7.i.i
	movb	$1, %bpl
.LBB11_14:                              # %arm.4.i
	movl	%r8d, %edx
	shrl	$3, %edx
	movl	%r8d, %esi
	notb	%sil
	movzbl	(%r15,%rdx), %edx
	movzbl	%sil, %esi
	andl	$7, %esi
	btl	%esi, %edx
	setb	%dl
	xorb	%bpl, %dl
	movl	%r9d, 44(%rsp)                  # 4-byte Spill
	je	.LBB11_16
# %bb.15:
                                        # kill: def $r9d killed $r9d def $r9
	jmp	.LBB11_20
.LBB11_16:                              # %join.14.i.lr.ph
	movzbl	%cl, %r13d
                                        # kill: def $r9d killed $r9d def $r9
	.p2align	4
.LBB11_17:                              # %join.14.i
                                        # =>This Inner Loop Header: Depth=1
	incl	%r8d
	movl	%eax, 8(%rsp)
	movl	%r11d, (%rsp)
	leaq	48(%rsp), %rdi
	movq	%r12, %rsi
	movq	%r13, %rdx
	movq	%r15, %rcx
                                        # kill: def $r8d killed $r8d killed $r8
                                        # kill: def $r9d killed $r9d killed $r9
	callq	"spans::find::find"
	movq	52(%rsp), %r8
	cmpb	$0, 48(%rsp)
	jne	.LBB11_18
# %bb.19:                               # %arm.15.i
                                        #   in Loop: Header=BB11_17 Depth=1
	movl	60(%rsp), %eax
	movq	%r8, %r9
	shrq	$32, %r9
	movl	%r8d, %ecx
	shrl	$3, %ecx
	movl	%r8d, %edx
	notb	%dl
	movzbl	(%r15,%rcx), %ecx
	movzbl	%dl, %edx
	andl	$7, %edx
	btl	%edx, %ecx
	movl	%ebp, %ecx
	sbbb	$0, %cl
	movl	144(%rsp), %r11d
	je	.LBB11_17
.LBB11_20:                              # %after.10.i
	incl	%r8d
	movl	$0, 16(%rsp)
	movl	%r8d, 20(%rsp)
	movl	%r9d, 24(%rsp)
	movl	%eax, 28(%rsp)
	movl	44(%rsp), %r9d                  # 4-byte Reload
	movl	152(%rsp), %r10d
	jmp	.LBB11_21
.LBB11_18:
	xorl	%eax, %eax
	movb	$1, %cl
	movl	44(%rsp), %r9d                  # 4-byte Reload
.LBB11_10:                              # %"spans::find::find_inside.exit"
	movl	152(%rsp), %r10d
	movl	144(%rsp), %r11d
	jmp	.LBB11_22
.LBB11_11:                              # %arm.7.i
	movl	76(%rsp), %eax
	movq	%r8, %r9
	shrq	$32, %r9
	movzbl	%r13b, %edx
	movl	%eax, 8(%rsp)
	movl	144(%rsp), %r13d
	movl	%r13d, (%rsp)
	leaq	16(%rsp), %rdi
	movq	%r12, %rsi
	movq	%r15, %rcx
                                        # kill: def $r8d killed $r8d killed $r8
                                        # kill: def $r9d killed $r9d killed $r9
	callq	"spans::find::find"
	movl	%ebp, %r9d
	movl	152(%rsp), %r10d
	movq	%r13, %r11
.LBB11_21:                              # %join.6.i
	movzbl	16(%rsp), %ecx
	movq	20(%rsp), %r8
	movl	28(%rsp), %eax
.LBB11_22:                              # %"spans::find::find_inside.exit"
	cmpq	%r11, %r14
	setne	%dl
	testl	%r10d, %r10d
	setne	%sil
	orb	%dl, %sil
	jne	.LBB11_24
# %bb.23:                               # %then.1
	movq	%r8, %rax
	shrq	$32, %rax
	subl	%r9d, %eax
	shlq	$32, %rax
	movl	%r9d, %edx
	orq	%rax, %rdx
	testb	%cl, %cl
	cmoveq	%rdx, %r8
	xorl	%eax, %eax
	movl	$1, %ecx
	jmp	.LBB11_25
.LBB11_24:                              # %else.2
	movzbl	%cl, %ecx
.LBB11_25:                              # %join.3
	movl	%ecx, (%rbx)
	movq	%r8, 4(%rbx)
	movl	%eax, 12(%rbx)
	addq	$88, %rsp
	popq	%rbx
	popq	%r12
	popq	%r13
	popq	%r14
	popq	%r15
	popq	%rbp
	retq
.Lfunc_end11:
	.size	"spans::find::find", .Lfunc_end11-"spans::find::find"
	.section	".rodata.spans::find::find","a",@progbits
	.p2align	2, 0x0
.LJTI11_0:
	.long	.LBB11_5-.LJTI11_0
	.long	.LBB11_4-.LJTI11_0
	.long	.LBB11_6-.LJTI11_0
	.long	.LBB11_8-.LJTI11_0
	.long	.LBB11_12-.LJTI11_0
	.long	.LBB11_14-.LJTI11_0
                                        # -- End function
	.section	".text.entries::gather","ax",@progbits
	.p2align	4                               # -- Begin function entries::gather
	.type	"entries::gather",@function
"entries::gather":                      # @"entries::gather"
# %bb.0:                                # %start
	pushq	%rbp
	pushq	%r15
	pushq	%r14
	pushq	%r13
	pushq	%r12
	pushq	%rbx
	subq	$2072, %rsp                     # imm = 0x818
	movq	%r9, 56(%rsp)                   # 8-byte Spill
	movl	%r8d, %r12d
	movq	%rcx, %r14
	movq	%rdx, 48(%rsp)                  # 8-byte Spill
	movq	%rsi, %r15
	movq	%rdi, %rbx
	movq	(%rsi), %rbp
	leaq	1048(%rsp), %rdi
	movl	$512, %edx                      # imm = 0x200
	xorl	%esi, %esi
	callq	memset@PLT
	leaq	-1(%rbp), %r13
	cmpq	$63, %r13
	ja	.LBB12_12
# %bb.1:                                # %arm.3.i.preheader.i.i
	movl	%r12d, 44(%rsp)                 # 4-byte Spill
	addq	$8, %r15
	movq	%rbp, 64(%rsp)
	leaq	72(%rsp), %r12
	movl	$320, %edx                      # imm = 0x140
	movq	%r12, %rdi
	movq	%r15, %rsi
	callq	memcpy@PLT
	movq	%rbp, %rax
	jmp	.LBB12_2
.LBB12_6:                               # %arm.2.i.i.i.i.i.i.i.i
                                        #   in Loop: Header=BB12_2 Depth=1
	andb	$127, %cl
	addb	$-33, %cl
	cmpb	$94, %cl
	jae	.LBB12_12
	.p2align	4
.LBB12_10:                              # %loop.2.backedge.i.i.i
                                        #   in Loop: Header=BB12_2 Depth=1
	decq	%rax
	addq	$5, %r12
	testq	%rax, %rax
	je	.LBB12_11
.LBB12_2:                               # %arm.3.i.i.i
                                        # =>This Inner Loop Header: Depth=1
	cmpb	$-56, (%r12)
	ja	.LBB12_12
# %bb.3:                                # %then.1.i.i.i.i.i.i
                                        #   in Loop: Header=BB12_2 Depth=1
	cmpb	$0, 1(%r12)
	jne	.LBB12_10
# %bb.4:                                # %arm.1.i.i.i.i.i.i.i
                                        #   in Loop: Header=BB12_2 Depth=1
	movzbl	2(%r12), %edx
	testl	%edx, %edx
	je	.LBB12_10
# %bb.5:                                # %arm.1.i.i.i.i.i.i.i
                                        #   in Loop: Header=BB12_2 Depth=1
	movzbl	3(%r12), %ecx
	cmpl	$2, %edx
	jne	.LBB12_6
# %bb.7:                                # %arm.3.i.i.i.i.i.i.i.i
                                        #   in Loop: Header=BB12_2 Depth=1
	movzbl	4(%r12), %edx
	cmpb	%dl, %cl
	ja	.LBB12_12
# %bb.8:                                # %arm.3.i.i.i.i.i.i.i.i
                                        #   in Loop: Header=BB12_2 Depth=1
	andb	$127, %cl
	addb	$-33, %cl
	cmpb	$93, %cl
	ja	.LBB12_12
# %bb.9:                                # %arm.3.i.i.i.i.i.i.i.i
                                        #   in Loop: Header=BB12_2 Depth=1
	andb	$127, %dl
	addb	$-33, %dl
	cmpb	$93, %dl
	jbe	.LBB12_10
	jmp	.LBB12_12
.LBB12_11:                              # %"syntax::obeys_rules.exit"
	movq	%rbp, 720(%rsp)
	leaq	728(%rsp), %rdi
	movl	$320, %edx                      # imm = 0x140
	movq	%r15, %rsi
	callq	memcpy@PLT
	leaq	720(%rsp), %rdi
	callq	"syntax::naming::tree_fault_of"
	cmpb	$1, %al
	jne	.LBB12_14
.LBB12_12:                              # %then.1
	movabsq	$4294967297, %rax               # imm = 0x100000001
.LBB12_13:                              # %common.ret
	movq	%rax, (%rbx)
	movq	$0, 8(%rbx)
.LBB12_22:                              # %common.ret
	addq	$2072, %rsp                     # imm = 0x818
	popq	%rbx
	popq	%r12
	popq	%r13
	popq	%r14
	popq	%r15
	popq	%rbp
	retq
.LBB12_14:                              # %join.3
	movq	%rbp, 392(%rsp)
	leaq	400(%rsp), %rdi
	movl	$320, %edx                      # imm = 0x140
	movq	%r15, %rsi
	callq	memcpy@PLT
	leaq	1048(%rsp), %r15
	leaq	392(%rsp), %rsi
	movq	%r15, %rdi
	callq	"table::table_of"
	leaq	1560(%rsp), %rdi
	movl	$512, %edx                      # imm = 0x200
	movq	%r15, %rsi
	callq	memcpy@PLT
	movl	$0, 72(%rsp)
	movq	$0, 64(%rsp)
	cmpq	$65536, %r14                    # imm = 0x10000
	movl	44(%rsp), %ebp                  # 4-byte Reload
	ja	.LBB12_23
# %bb.15:                               # %join.3.i.i
	movl	%ebp, %eax
	addq	$7, %rax
	shrq	$3, %rax
	cmpq	%rax, %r14
	jne	.LBB12_23
# %bb.16:                               # %then.4.i.i
	movl	%ebp, %eax
	andl	$7, %eax
	je	.LBB12_18
# %bb.17:                               # %"bits::handed_good.exit.i"
	movl	%ebp, %edx
	movb	$8, %cl
	subb	%al, %cl
	movl	$-1, %eax
	shll	%cl, %eax
	shrl	$3, %edx
	notb	%al
	movq	48(%rsp), %rcx                  # 8-byte Reload
	testb	%al, (%rcx,%rdx)
	jne	.LBB12_23
.LBB12_18:                              # %join.3.i
	movq	2128(%rsp), %rax
	movq	%rax, 16(%rsp)
	movq	56(%rsp), %rax                  # 8-byte Reload
	movq	%rax, 8(%rsp)
	movl	$0, 32(%rsp)
	movq	$3600, 24(%rsp)                 # imm = 0xE10
	movl	$0, (%rsp)
	leaq	64(%rsp), %rdi
	leaq	1560(%rsp), %rsi
	movq	%r13, %rdx
	xorl	%ecx, %ecx
	movq	48(%rsp), %r8                   # 8-byte Reload
	movq	%r14, %r9
	callq	"entries::put_entries"
	movq	68(%rsp), %rax
	cmpb	$1, 64(%rsp)
	sete	%cl
	cmpl	%eax, %ebp
	sete	%dl
	andb	%cl, %dl
	cmpb	$1, %dl
	jne	.LBB12_23
# %bb.19:                               # %arm.4
	shrq	$32, %rax
	cmpl	$3600, %eax                     # imm = 0xE10
	jbe	.LBB12_21
# %bb.20:                               # %then.8
	movabsq	$8589934593, %rax               # imm = 0x200000001
	jmp	.LBB12_13
.LBB12_23:                              # %arm.5
	movabsq	$30064771073, %rax              # imm = 0x700000001
	jmp	.LBB12_13
.LBB12_21:                              # %join.10
	movq	$0, (%rbx)
	movq	%rax, 8(%rbx)
	jmp	.LBB12_22
.Lfunc_end12:
	.size	"entries::gather", .Lfunc_end12-"entries::gather"
                                        # -- End function
	.section	.text.wumbyra_canonicalize,"ax",@progbits
	.globl	wumbyra_canonicalize            # -- Begin function wumbyra_canonicalize
	.p2align	4
	.type	wumbyra_canonicalize,@function
wumbyra_canonicalize:                   # @wumbyra_canonicalize
# %bb.0:                                # %start
	pushq	%rbp
	pushq	%r15
	pushq	%r14
	pushq	%r13
	pushq	%r12
	pushq	%rbx
	subq	$728, %rsp                      # imm = 0x2D8
	movl	%r8d, 44(%rsp)                  # 4-byte Spill
	movq	%rcx, 56(%rsp)                  # 8-byte Spill
	movq	%rsi, 48(%rsp)                  # 8-byte Spill
	xorl	%ebp, %ebp
	testq	%rdi, %rdi
	sete	%bpl
	shll	$12, %ebp
	addq	%rdi, %rbp
	xorl	%r12d, %r12d
	testq	%rdx, %rdx
	sete	%r12b
	shll	$12, %r12d
	addq	%rdx, %r12
	xorl	%r14d, %r14d
	testq	%r9, %r9
	sete	%r14b
	shll	$12, %r14d
	addq	%r9, %r14
	xorl	%ebx, %ebx
	cmpq	$0, 792(%rsp)
	sete	31(%rsp)                        # 1-byte Folded Spill
	xorl	%r13d, %r13d
	cmpq	$0, 808(%rsp)
	sete	30(%rsp)                        # 1-byte Folded Spill
	leaq	64(%rsp), %r15
	movl	$336, %edx                      # imm = 0x150
	movq	%r15, %rdi
	xorl	%esi, %esi
	callq	memset@PLT
	movq	%r15, %rdi
	movq	%rbp, %rsi
	movq	48(%rsp), %rdx                  # 8-byte Reload
	callq	"loading::load"
	cmpb	$0, 64(%rsp)
	je	.LBB13_1
# %bb.2:                                # %arm.2.i.i.i
	leaq	400(%rsp), %rdi
	movl	$328, %edx                      # imm = 0x148
	xorl	%esi, %esi
	callq	memset@PLT
	jmp	.LBB13_3
.LBB13_1:                               # %arm.1.i.i.i
	leaq	72(%rsp), %rsi
	leaq	400(%rsp), %rdi
	movl	$328, %edx                      # imm = 0x148
	callq	memcpy@PLT
.LBB13_3:                               # %"loading::pattern_of.exit.i.i"
	movq	$0, 64(%rsp)
	movl	$0, 72(%rsp)
	movq	$0, 32(%rsp)
	movl	$0, 40(%rsp)
	movq	784(%rsp), %rax
	movq	%rax, (%rsp)
	leaq	64(%rsp), %rdi
	leaq	400(%rsp), %rsi
	movq	%r12, %rdx
	movq	56(%rsp), %rcx                  # 8-byte Reload
	movl	44(%rsp), %r8d                  # 4-byte Reload
	movq	%r14, %r9
	callq	"codes::flatten"
	cmpb	$0, 64(%rsp)
	movl	68(%rsp), %eax
	je	.LBB13_4
# %bb.6:                                # %arm.2.i2.i.i
	movl	72(%rsp), %ecx
	jmp	.LBB13_7
.LBB13_4:                               # %arm.1.i3.i.i
	movzbl	31(%rsp), %ecx                  # 1-byte Folded Reload
	movb	%cl, %bl
	movzbl	30(%rsp), %ecx                  # 1-byte Folded Reload
	movb	%cl, %r13b
	shll	$12, %ebx
	shll	$12, %r13d
	movq	816(%rsp), %rcx
	movq	800(%rsp), %r9
	movq	792(%rsp), %r8
	addq	%rbx, %r8
	movq	808(%rsp), %rdx
	addq	%r13, %rdx
	movq	%rcx, 8(%rsp)
	movq	%rdx, (%rsp)
	leaq	32(%rsp), %rdi
	leaq	400(%rsp), %rsi
	movq	%r14, %rdx
	movq	%rax, %rcx
	callq	"parser::parse"
	cmpb	$0, 32(%rsp)
	movl	36(%rsp), %eax
	je	.LBB13_10
# %bb.5:                                # %arm.6.i.i.i
	movl	40(%rsp), %ecx
.LBB13_7:                               # %arm.2.i5.i.i
	movzbl	%al, %esi
	xorl	%edx, %edx
	movl	$363, %edi                      # imm = 0x16B
	btl	%esi, %edi
	jae	.LBB13_9
# %bb.8:                                # %after.2.i.i.i.i.i
	movl	%ecx, %edx
.LBB13_9:                               # %"packing::of_cause::<#ebb002963c42623e>.exit.i.i.i"
	movzbl	%al, %ecx
	shlq	$32, %rcx
	orq	%rdx, %rcx
	movabsq	$4294967296, %rax               # imm = 0x100000000
	addq	%rcx, %rax
.LBB13_10:                              # %"wumbyra_c::wumbyra_canonicalize.exit"
	addq	$728, %rsp                      # imm = 0x2D8
	popq	%rbx
	popq	%r12
	popq	%r13
	popq	%r14
	popq	%r15
	popq	%rbp
	retq
.Lfunc_end13:
	.size	wumbyra_canonicalize, .Lfunc_end13-wumbyra_canonicalize
                                        # -- End function
	.section	.text.wumbyra_desk_open,"ax",@progbits
	.globl	wumbyra_desk_open               # -- Begin function wumbyra_desk_open
	.p2align	4
	.type	wumbyra_desk_open,@function
wumbyra_desk_open:                      # @wumbyra_desk_open
# %bb.0:                                # %start
	pushq	%rbp
	pushq	%r15
	pushq	%r14
	pushq	%r13
	pushq	%r12
	pushq	%rbx
	subq	$2216, %rsp                     # imm = 0x8A8
	movq	%r9, 8(%rsp)                    # 8-byte Spill
	movq	%rcx, %r13
	movq	%rsi, %r14
	xorl	%ebp, %ebp
	testq	%rdi, %rdi
	sete	%bpl
	shll	$12, %ebp
	addq	%rdi, %rbp
	xorl	%r12d, %r12d
	movq	%rdx, 24(%rsp)                  # 8-byte Spill
	testq	%rdx, %rdx
	sete	%r15b
	movq	%r8, 16(%rsp)                   # 8-byte Spill
	testq	%r8, %r8
	sete	7(%rsp)                         # 1-byte Folded Spill
	leaq	352(%rsp), %rbx
	movl	$336, %edx                      # imm = 0x150
	movq	%rbx, %rdi
	xorl	%esi, %esi
	callq	memset@PLT
	movq	%rbx, %rdi
	movq	%rbp, %rsi
	movq	%r14, %rdx
	callq	"loading::load"
	cmpb	$0, 352(%rsp)
	je	.LBB14_14
# %bb.1:                                # %arm.2.i.i.i
	leaq	32(%rsp), %rdi
	xorl	%r14d, %r14d
	movl	$320, %edx                      # imm = 0x140
	xorl	%esi, %esi
	callq	memset@PLT
	cmpq	$31, %r13
	jne	.LBB14_15
.LBB14_2:                               # %join.3.i.i
	movq	%r14, 1376(%rsp)
	leaq	1384(%rsp), %rdi
	leaq	32(%rsp), %rsi
	movl	$320, %edx                      # imm = 0x140
	callq	memcpy@PLT
	leaq	1704(%rsp), %rdi
	movl	$512, %edx                      # imm = 0x200
	xorl	%esi, %esi
	callq	memset@PLT
	leaq	-1(%r14), %rax
	cmpq	$63, %rax
	ja	.LBB14_26
# %bb.3:                                # %arm.3.i.preheader.i.i.i.i11.i.i
	movb	%r15b, %r12b
	shll	$12, %r12d
	xorl	%ebx, %ebx
	movzbl	7(%rsp), %eax                   # 1-byte Folded Reload
	movb	%al, %bl
	shll	$12, %ebx
	movq	24(%rsp), %r15                  # 8-byte Reload
	addq	%r12, %r15
	movq	%r14, 352(%rsp)
	leaq	360(%rsp), %r13
	leaq	32(%rsp), %rsi
	movl	$320, %edx                      # imm = 0x140
	movq	%r13, %rdi
	callq	memcpy@PLT
	movq	%r14, %rax
	jmp	.LBB14_6
.LBB14_4:                               # %arm.2.i.i.i.i.i.i.i.i.i.i47.i.i
                                        #   in Loop: Header=BB14_6 Depth=1
	andb	$127, %cl
	addb	$-33, %cl
	cmpb	$94, %cl
	jae	.LBB14_26
	.p2align	4
.LBB14_5:                               # %loop.2.backedge.i.i.i.i.i30.i.i
                                        #   in Loop: Header=BB14_6 Depth=1
	decq	%rax
	addq	$5, %r13
	testq	%rax, %rax
	je	.LBB14_28
.LBB14_6:                               # %arm.3.i.i.i.i.i13.i.i
                                        # =>This Inner Loop Header: Depth=1
	cmpb	$-56, (%r13)
	ja	.LBB14_26
# %bb.7:                                # %then.1.i.i.i.i.i.i.i.i27.i.i
                                        #   in Loop: Header=BB14_6 Depth=1
	cmpb	$0, 1(%r13)
	jne	.LBB14_5
# %bb.8:                                # %arm.1.i.i.i.i.i.i.i.i.i40.i.i
                                        #   in Loop: Header=BB14_6 Depth=1
	movzbl	2(%r13), %edx
	testl	%edx, %edx
	je	.LBB14_5
# %bb.9:                                # %arm.1.i.i.i.i.i.i.i.i.i40.i.i
                                        #   in Loop: Header=BB14_6 Depth=1
	movzbl	3(%r13), %ecx
	cmpl	$2, %edx
	jne	.LBB14_4
# %bb.10:                               # %arm.3.i.i.i.i.i.i.i.i.i.i41.i.i
                                        #   in Loop: Header=BB14_6 Depth=1
	movzbl	4(%r13), %edx
	cmpb	%dl, %cl
	ja	.LBB14_26
# %bb.11:                               # %arm.3.i.i.i.i.i.i.i.i.i.i41.i.i
                                        #   in Loop: Header=BB14_6 Depth=1
	andb	$127, %cl
	addb	$-33, %cl
	cmpb	$93, %cl
	ja	.LBB14_26
# %bb.12:                               # %arm.3.i.i.i.i.i.i.i.i.i.i41.i.i
                                        #   in Loop: Header=BB14_6 Depth=1
	andb	$127, %dl
	addb	$-33, %dl
	cmpb	$93, %dl
	jbe	.LBB14_5
	jmp	.LBB14_26
.LBB14_14:                              # %arm.1.i.i.i
	movq	360(%rsp), %r14
	leaq	368(%rsp), %rsi
	leaq	32(%rsp), %rdi
	movl	$320, %edx                      # imm = 0x140
	callq	memcpy@PLT
	cmpq	$31, %r13
	je	.LBB14_2
.LBB14_15:                              # %then.1.i.i
	leaq	-1(%r14), %rax
	cmpq	$63, %rax
	ja	.LBB14_26
# %bb.16:                               # %arm.3.i.preheader.i.i.i.i.i.i
	movq	%r14, 352(%rsp)
	leaq	360(%rsp), %r15
	leaq	32(%rsp), %rsi
	movl	$320, %edx                      # imm = 0x140
	movq	%r15, %rdi
	callq	memcpy@PLT
	movq	%r14, %rax
	jmp	.LBB14_19
.LBB14_17:                              # %arm.2.i.i.i.i.i.i.i.i.i.i.i.i
                                        #   in Loop: Header=BB14_19 Depth=1
	andb	$127, %cl
	addb	$-33, %cl
	cmpb	$94, %cl
	jae	.LBB14_26
	.p2align	4
.LBB14_18:                              # %loop.2.backedge.i.i.i.i.i.i.i
                                        #   in Loop: Header=BB14_19 Depth=1
	decq	%rax
	addq	$5, %r15
	testq	%rax, %rax
	je	.LBB14_30
.LBB14_19:                              # %arm.3.i.i.i.i.i.i.i
                                        # =>This Inner Loop Header: Depth=1
	cmpb	$-56, (%r15)
	ja	.LBB14_26
# %bb.20:                               # %then.1.i.i.i.i.i.i.i.i.i.i
                                        #   in Loop: Header=BB14_19 Depth=1
	cmpb	$0, 1(%r15)
	jne	.LBB14_18
# %bb.21:                               # %arm.1.i.i.i.i.i.i.i.i.i.i.i
                                        #   in Loop: Header=BB14_19 Depth=1
	movzbl	2(%r15), %edx
	testl	%edx, %edx
	je	.LBB14_18
# %bb.22:                               # %arm.1.i.i.i.i.i.i.i.i.i.i.i
                                        #   in Loop: Header=BB14_19 Depth=1
	movzbl	3(%r15), %ecx
	cmpl	$2, %edx
	jne	.LBB14_17
# %bb.23:                               # %arm.3.i.i.i.i.i.i.i.i.i.i.i.i
                                        #   in Loop: Header=BB14_19 Depth=1
	movzbl	4(%r15), %edx
	cmpb	%dl, %cl
	ja	.LBB14_26
# %bb.24:                               # %arm.3.i.i.i.i.i.i.i.i.i.i.i.i
                                        #   in Loop: Header=BB14_19 Depth=1
	andb	$127, %cl
	addb	$-33, %cl
	cmpb	$93, %cl
	ja	.LBB14_26
# %bb.25:                               # %arm.3.i.i.i.i.i.i.i.i.i.i.i.i
                                        #   in Loop: Header=BB14_19 Depth=1
	andb	$127, %dl
	addb	$-33, %dl
	cmpb	$93, %dl
	jbe	.LBB14_18
	jmp	.LBB14_26
.LBB14_28:                              # %"syntax::obeys_rules.exit.i.i32.i.i"
	movq	%r14, 864(%rsp)
	leaq	872(%rsp), %rdi
	leaq	32(%rsp), %rsi
	movl	$320, %edx                      # imm = 0x140
	callq	memcpy@PLT
	leaq	864(%rsp), %rdi
	callq	"syntax::naming::tree_fault_of"
	cmpb	$1, %al
	je	.LBB14_26
# %bb.32:                               # %join.3.i.i37.i.i
	cmpq	$2, 8(%rsp)                     # 8-byte Folded Reload
	jae	.LBB14_35
# %bb.33:
	movabsq	$25769803778, %rax              # imm = 0x600000002
	jmp	.LBB14_27
.LBB14_30:                              # %"syntax::obeys_rules.exit.i.i.i.i"
	movq	%r14, 864(%rsp)
	leaq	872(%rsp), %rdi
	leaq	32(%rsp), %rsi
	movl	$320, %edx                      # imm = 0x140
	callq	memcpy@PLT
	leaq	864(%rsp), %rdi
	callq	"syntax::naming::tree_fault_of"
	cmpb	$1, %al
	jne	.LBB14_34
.LBB14_26:                              # %"syntax::obeys_rules.exit.thread.i.i.i.i"
	movabsq	$8589934592, %rax               # imm = 0x200000000
.LBB14_27:                              # %"wumbyra_c::wumbyra_desk_open.exit"
	addq	$2216, %rsp                     # imm = 0x8A8
	popq	%rbx
	popq	%r12
	popq	%r13
	popq	%r14
	popq	%r15
	popq	%rbp
	retq
.LBB14_34:                              # %join.3.i.i.i.i
	cmpq	$2, 8(%rsp)                     # 8-byte Folded Reload
	movabsq	$25769803778, %rcx              # imm = 0x600000002
	movabsq	$55834574848, %rax              # imm = 0xD00000000
	cmovbq	%rcx, %rax
	jmp	.LBB14_27
.LBB14_35:                              # %arm.1.i39.i.i
	leaq	1704(%rsp), %r12
	leaq	1376(%rsp), %rsi
	movq	%r12, %rdi
	callq	"table::table_of"
	leaq	352(%rsp), %r13
	movl	$512, %edx                      # imm = 0x200
	movq	%r13, %rdi
	xorl	%esi, %esi
	callq	memset@PLT
	leaq	864(%rsp), %rbp
	movl	$512, %edx                      # imm = 0x200
	movq	%rbp, %rdi
	xorl	%esi, %esi
	callq	memset@PLT
	movq	%r12, %rdi
	movq	%r14, %rsi
	movq	%r13, %rdx
	movq	%rbp, %rcx
	callq	"masks::put_masks"
	movq	%rax, %rcx
	xorl	%eax, %eax
	movq	16(%rsp), %rdx                  # 8-byte Reload
	movq	$0, (%rdx,%rbx)
	movq	%rcx, 8(%rdx,%rbx)
	xorps	%xmm0, %xmm0
	movups	%xmm0, 15(%r15)
	movups	%xmm0, (%r15)
	jmp	.LBB14_27
.Lfunc_end14:
	.size	wumbyra_desk_open, .Lfunc_end14-wumbyra_desk_open
                                        # -- End function
	.section	.text.wumbyra_desk_put,"ax",@progbits
	.globl	wumbyra_desk_put                # -- Begin function wumbyra_desk_put
	.p2align	4
	.type	wumbyra_desk_put,@function
wumbyra_desk_put:                       # @wumbyra_desk_put
# %bb.0:                                # %start
	pushq	%rbp
	pushq	%r15
	pushq	%r14
	pushq	%r13
	pushq	%r12
	pushq	%rbx
	subq	$3072, %rsp                     # imm = 0xC00
	movq	$0, (%rsp)
	subq	$1592, %rsp                     # imm = 0x638
	movq	%r9, 24(%rsp)                   # 8-byte Spill
	movq	%rsi, %r14
	xorl	%r13d, %r13d
	testq	%rdi, %rdi
	sete	%r13b
	shll	$12, %r13d
	addq	%rdi, %r13
	xorl	%eax, %eax
	testq	%rdx, %rdx
	sete	%al
	shll	$12, %eax
	addq	%rdx, %rax
	movq	%r8, 48(%rsp)                   # 8-byte Spill
	testq	%r8, %r8
	sete	16(%rsp)                        # 1-byte Folded Spill
	xorl	%r12d, %r12d
	cmpq	$0, 4720(%rsp)
	sete	32(%rsp)                        # 1-byte Folded Spill
	xorl	%r15d, %r15d
	cmpq	$0, 4736(%rsp)
	sete	%bl
	movq	%rcx, 56(%rsp)                  # 8-byte Spill
	cmpq	$31, %rcx
	movq	%rax, 88(%rsp)                  # 8-byte Spill
	jne	.LBB15_1
# %bb.2:                                # %join.3.i.i.i
	movups	1(%rax), %xmm0
	movdqu	15(%rax), %xmm1
	movdqu	%xmm1, 110(%rsp)
	movaps	%xmm0, 96(%rsp)
	movzbl	(%rax), %eax
	movb	%al, 15(%rsp)                   # 1-byte Spill
	jmp	.LBB15_3
.LBB15_1:                               # %then.1.i.i.i
	xorps	%xmm0, %xmm0
	movups	%xmm0, 110(%rsp)
	movaps	%xmm0, 96(%rsp)
	movb	$31, 15(%rsp)                   # 1-byte Folded Spill
.LBB15_3:                               # %"packing::desks::desk_of.exit.i.i"
	movups	110(%rsp), %xmm0
	movups	%xmm0, 192(%rsp)
	movdqa	96(%rsp), %xmm0
	movdqu	%xmm0, 178(%rsp)
	leaq	2616(%rsp), %rbp
	movl	$336, %edx                      # imm = 0x150
	movq	%rbp, %rdi
	xorl	%esi, %esi
	callq	memset@PLT
	movq	%rbp, %rdi
	movq	%r13, %rsi
	movq	%r14, %rdx
	callq	"loading::load"
	cmpb	$0, 2616(%rsp)
	je	.LBB15_4
# %bb.5:                                # %arm.2.i.i.i
	leaq	240(%rsp), %rdi
	movl	$328, %edx                      # imm = 0x148
	xorl	%esi, %esi
	callq	memset@PLT
	jmp	.LBB15_6
.LBB15_4:                               # %arm.1.i.i.i
	leaq	2624(%rsp), %rsi
	leaq	240(%rsp), %rdi
	movl	$328, %edx                      # imm = 0x148
	callq	memcpy@PLT
.LBB15_6:                               # %"loading::pattern_of.exit.i.i"
	leaq	752(%rsp), %rdi
	leaq	240(%rsp), %rsi
	movl	$328, %edx                      # imm = 0x148
	callq	memcpy@PLT
	movq	752(%rsp), %rbp
	leaq	1080(%rsp), %rdi
	xorl	%r14d, %r14d
	movl	$512, %edx                      # imm = 0x200
	xorl	%esi, %esi
	callq	memset@PLT
	leaq	-1(%rbp), %rax
	cmpq	$63, %rax
	ja	.LBB15_14
# %bb.7:                                # %arm.3.i.preheader.i.i.i.i.i.i.i
	xorl	%ecx, %ecx
	movzbl	16(%rsp), %eax                  # 1-byte Folded Reload
	movb	%al, %cl
	movzbl	32(%rsp), %eax                  # 1-byte Folded Reload
	movb	%al, %r12b
	movb	%bl, %r15b
	shll	$12, %ecx
	shll	$12, %r12d
	shll	$12, %r15d
	movq	48(%rsp), %rax                  # 8-byte Reload
	movq	%rcx, 32(%rsp)                  # 8-byte Spill
	addq	%rcx, %rax
	movq	%rax, 16(%rsp)                  # 8-byte Spill
	movq	4720(%rsp), %rbx
	addq	%r12, %rbx
	movq	4736(%rsp), %rax
	addq	%r15, %rax
	movq	%rax, %r15
	leaq	760(%rsp), %r13
	movq	%rbp, 2616(%rsp)
	leaq	2624(%rsp), %r14
	movl	$320, %edx                      # imm = 0x140
	movq	%r14, %rdi
	movq	%r13, %rsi
	callq	memcpy@PLT
	movq	%rbp, %rax
	jmp	.LBB15_8
.LBB15_12:                              # %arm.2.i.i.i.i.i.i.i.i.i.i.i.i.i
                                        #   in Loop: Header=BB15_8 Depth=1
	andb	$127, %cl
	addb	$-33, %cl
	cmpb	$94, %cl
	jae	.LBB15_13
	.p2align	4
.LBB15_19:                              # %loop.2.backedge.i.i.i.i.i.i.i.i
                                        #   in Loop: Header=BB15_8 Depth=1
	decq	%rax
	addq	$5, %r14
	testq	%rax, %rax
	je	.LBB15_20
.LBB15_8:                               # %arm.3.i.i.i.i.i.i.i.i
                                        # =>This Inner Loop Header: Depth=1
	cmpb	$-56, (%r14)
	ja	.LBB15_13
# %bb.9:                                # %then.1.i.i.i.i.i.i.i.i.i.i.i
                                        #   in Loop: Header=BB15_8 Depth=1
	cmpb	$0, 1(%r14)
	jne	.LBB15_19
# %bb.10:                               # %arm.1.i.i.i.i.i.i.i.i.i.i.i.i
                                        #   in Loop: Header=BB15_8 Depth=1
	movzbl	2(%r14), %edx
	testl	%edx, %edx
	je	.LBB15_19
# %bb.11:                               # %arm.1.i.i.i.i.i.i.i.i.i.i.i.i
                                        #   in Loop: Header=BB15_8 Depth=1
	movzbl	3(%r14), %ecx
	cmpl	$2, %edx
	jne	.LBB15_12
# %bb.16:                               # %arm.3.i.i.i.i.i.i.i.i.i.i.i.i.i
                                        #   in Loop: Header=BB15_8 Depth=1
	movzbl	4(%r14), %edx
	cmpb	%dl, %cl
	ja	.LBB15_13
# %bb.17:                               # %arm.3.i.i.i.i.i.i.i.i.i.i.i.i.i
                                        #   in Loop: Header=BB15_8 Depth=1
	andb	$127, %cl
	addb	$-33, %cl
	cmpb	$93, %cl
	ja	.LBB15_13
# %bb.18:                               # %arm.3.i.i.i.i.i.i.i.i.i.i.i.i.i
                                        #   in Loop: Header=BB15_8 Depth=1
	andb	$127, %dl
	addb	$-33, %dl
	cmpb	$93, %dl
	jbe	.LBB15_19
.LBB15_13:                              # %join.3.thread10.i.i.i.i.i.i
	xorl	%r14d, %r14d
.LBB15_14:                              # %"syntax::obeys_rules.exit.thread.i.i.i.i.i"
	movl	$1, %ecx
	movq	56(%rsp), %r12                  # 8-byte Reload
.LBB15_15:                              # %arm.2.i2.i.i
	movq	%rcx, %rdx
	shrq	$32, %rdx
	xorl	%eax, %eax
	cmpq	$31, %r12
	jne	.LBB15_82
.LBB15_81:                              # %then.1.i6.i.i
	leaq	178(%rsp), %rsi
	movq	88(%rsp), %rdi                  # 8-byte Reload
	movzbl	15(%rsp), %r8d                  # 1-byte Folded Reload
	movb	%r8b, (%rdi)
	movdqu	(%rsi), %xmm0
	movdqu	14(%rsi), %xmm1
	movdqu	%xmm0, 1(%rdi)
	movdqu	%xmm1, 15(%rdi)
.LBB15_82:                              # %"packing::desks::put_desk.exit.i.i"
	testb	%al, %al
	je	.LBB15_84
# %bb.83:                               # %arm.1.i13.i.i
	movl	%r14d, %eax
	jmp	.LBB15_91
.LBB15_84:                              # %arm.2.i10.i.i
	movzbl	%r14b, %eax
	leaq	.LJTI15_0(%rip), %rsi
	movslq	(%rsi,%rax,4), %rax
	addq	%rsi, %rax
	jmpq	*%rax
.LBB15_88:                              # %arm.1.i3.i.i.i.i
	movzbl	%cl, %ecx
	leal	1(%rcx), %eax
	movl	$363, %esi                      # imm = 0x16B
	btl	%ecx, %esi
	jb	.LBB15_90
	jmp	.LBB15_89
.LBB15_20:                              # %"syntax::obeys_rules.exit.i.i.i.i.i"
	movq	%rbp, 240(%rsp)
	leaq	248(%rsp), %rdi
	movl	$320, %edx                      # imm = 0x140
	movq	%r13, %rsi
	callq	memcpy@PLT
	leaq	240(%rsp), %rdi
	callq	"syntax::naming::tree_fault_of"
	movl	$1, %ecx
	cmpb	$1, %al
	movq	56(%rsp), %r12                  # 8-byte Reload
	jne	.LBB15_22
# %bb.21:
	xorl	%r14d, %r14d
	jmp	.LBB15_15
.LBB15_86:                              # %arm.3.i.i.i.i.i
	movl	$14, %eax
	jmp	.LBB15_89
.LBB15_87:                              # %arm.4.i.i.i11.i.i
	movl	$15, %eax
	jmp	.LBB15_89
.LBB15_85:
	movl	$13, %eax
.LBB15_89:
	xorl	%edx, %edx
.LBB15_90:                              # %"packing::of_cause::<#d974b9a18e3e0628>.exit.i.i.i"
	shlq	$32, %rax
	orq	%rdx, %rax
.LBB15_91:                              # %"wumbyra_c::wumbyra_desk_put.exit"
	addq	$4664, %rsp                     # imm = 0x1238
	popq	%rbx
	popq	%r12
	popq	%r13
	popq	%r14
	popq	%r15
	popq	%rbp
	retq
.LBB15_22:                              # %join.3.i.i.i.i.i
	cmpq	$3600, 4728(%rsp)               # imm = 0xE10
	movl	$0, %r14d
	jae	.LBB15_24
# %bb.23:
	movabsq	$15461882265608, %rcx           # imm = 0xE1000000008
	jmp	.LBB15_15
.LBB15_24:                              # %arm.1.i.i.i.i
	movq	24(%rsp), %rdi                  # 8-byte Reload
	leaq	-1(%rdi), %r8
	movl	$1, %r14d
	xorl	%ecx, %ecx
	cmpq	$119, %r8
	ja	.LBB15_15
# %bb.25:                               # %join.3.i6.i.i.i.i
	movzbl	15(%rsp), %edx                  # 1-byte Folded Reload
	cmpb	$31, %dl
	movzbl	%dl, %r13d
	movl	$0, %eax
	cmovbl	%r13d, %eax
	cmpb	$30, %r13b
	ja	.LBB15_15
# %bb.26:                               # %arm.1.i.i.i.i.i.i.i
	testb	%dl, %dl
	je	.LBB15_27
# %bb.28:                               # %join.6.i.i.i.i.i.i.i.i.preheader
	movzbl	%al, %eax
	xorl	%r14d, %r14d
	xorl	%ecx, %ecx
.LBB15_29:                              # %join.6.i.i.i.i.i.i.i.i
                                        # =>This Inner Loop Header: Depth=1
	movzbl	178(%rsp,%rcx), %edx
	leal	-1(%rdx), %esi
	cmpb	$119, %sil
	ja	.LBB15_30
# %bb.31:                               # %join.10.i.i.i.i.i.i.i.i
                                        #   in Loop: Header=BB15_29 Depth=1
	addq	%rdx, %r14
	incq	%rcx
	cmpq	%rcx, %rax
	jne	.LBB15_29
# %bb.32:                               # %"desk::limits::limits_of.exit.i.i.i.i.i.i"
	testq	%r14, %r14
	je	.LBB15_37
# %bb.33:                               # %arm.3.i.i.preheader.i.i.i.i.i.i
	movq	%rbx, %rax
	subq	%r14, %rax
	addq	$3600, %rax                     # imm = 0xE10
	movq	%r14, %rcx
	negq	%rcx
	xorl	%edx, %edx
.LBB15_34:                              # %arm.3.i.i.i.i7.i.i.i.i
                                        # =>This Inner Loop Header: Depth=1
	movzbl	(%rax,%rdx), %esi
	andb	$127, %sil
	addb	$-127, %sil
	cmpb	$-94, %sil
	jb	.LBB15_36
# %bb.35:                               # %join.9.i.i.i.i.i.i.i.i
                                        #   in Loop: Header=BB15_34 Depth=1
	incq	%rdx
	movq	%rcx, %rsi
	addq	%rdx, %rsi
	jne	.LBB15_34
	jmp	.LBB15_37
.LBB15_27:
	xorl	%r14d, %r14d
.LBB15_40:
	movq	16(%rsp), %rdx                  # 8-byte Reload
	xorl	%ecx, %ecx
.LBB15_41:                              # %arm.3.i.i.i.i.i.i.i
                                        # =>This Inner Loop Header: Depth=1
	movzbl	(%rdx,%rcx), %eax
	andb	$127, %al
	addb	$-127, %al
	cmpb	$-94, %al
	jb	.LBB15_46
# %bb.42:                               # %join.9.i.i.i.i.i.i.i
                                        #   in Loop: Header=BB15_41 Depth=1
	incq	%rcx
	cmpq	%rcx, %rdi
	jne	.LBB15_41
	jmp	.LBB15_43
.LBB15_36:                              # %"desk::limits::limits_held.exit.i.i.i.i.i"
	cmpq	%rdx, %r14
	ja	.LBB15_30
.LBB15_37:                              # %arm.4.i.i.i.i.i
	cmpb	$30, 15(%rsp)                   # 1-byte Folded Reload
	jne	.LBB15_39
# %bb.38:
	movl	$2, %r14d
	xorl	%ecx, %ecx
	jmp	.LBB15_15
.LBB15_30:
	xorl	%ecx, %ecx
	movl	$1, %r14d
	jmp	.LBB15_15
.LBB15_39:                              # %join.10.i.i.i.i.i
	testq	%rdi, %rdi
	jne	.LBB15_40
# %bb.45:
	xorl	%ecx, %ecx
.LBB15_46:                              # %"syntax::first_bad.exit.i.i.i.i.i"
	cmpq	%rdi, %rcx
	jae	.LBB15_43
# %bb.47:                               # %then.11.i.i.i.i.i
	shlq	$32, %rcx
	orq	$3, %rcx
	xorl	%r14d, %r14d
	jmp	.LBB15_15
.LBB15_43:                              # %join.13.i.i.i.i.i
	leaq	(%r14,%rdi), %rax
	movq	%rax, 80(%rsp)                  # 8-byte Spill
	leaq	2(,%rax,2), %rcx
	cmpq	%rcx, 4744(%rsp)
	jae	.LBB15_48
# %bb.44:                               # %then.14.i.i.i.i.i
	shlq	$32, %rcx
	orq	$5, %rcx
	xorl	%r14d, %r14d
	jmp	.LBB15_15
.LBB15_48:                              # %arm.1.i3.i.i
	movq	%r8, 64(%rsp)                   # 8-byte Spill
	leaq	1080(%rsp), %rdi
	leaq	752(%rsp), %rsi
	callq	"table::table_of"
	leaq	1592(%rsp), %rdi
	movl	$512, %edx                      # imm = 0x200
	leaq	1080(%rsp), %rsi
	callq	memcpy@PLT
	pxor	%xmm0, %xmm0
	movdqu	%xmm0, 144(%rsp)
	movq	$0, 160(%rsp)
	leaq	240(%rsp), %rdi
	movl	$512, %edx                      # imm = 0x200
	xorl	%esi, %esi
	callq	memset@PLT
	leaq	2104(%rsp), %rdi
	movl	$512, %edx                      # imm = 0x200
	xorl	%esi, %esi
	callq	memset@PLT
	leaq	1080(%rsp), %rdi
	movq	%rbp, %rsi
	leaq	240(%rsp), %rdx
	leaq	2104(%rsp), %rcx
	callq	"masks::put_masks"
	leaq	2616(%rsp), %rdi
	movl	$2048, %edx                     # imm = 0x800
	xorl	%esi, %esi
	callq	memset@PLT
	testq	%rbp, %rbp
	movq	%rbx, 40(%rsp)                  # 8-byte Spill
	je	.LBB15_67
# %bb.49:                               # %join.5.i.i.i.i.i.preheader
	leaq	2632(%rsp), %rbx
	xorl	%ecx, %ecx
	movq	%r15, 72(%rsp)                  # 8-byte Spill
	jmp	.LBB15_50
.LBB15_66:                              # %"masks::scatter::put_node.exit.i.i.i.i.i"
                                        #   in Loop: Header=BB15_50 Depth=1
	incq	%rcx
	cmpq	%rbp, %rcx
	je	.LBB15_67
.LBB15_50:                              # %join.5.i.i.i.i.i
                                        # =>This Loop Header: Depth=1
                                        #     Child Loop BB15_56 Depth 2
                                        #     Child Loop BB15_58 Depth 2
                                        #     Child Loop BB15_63 Depth 2
                                        #     Child Loop BB15_65 Depth 2
	movq	1592(%rsp,%rcx,8), %rsi
	movq	%rsi, %r9
	shrq	$8, %r9
	cmpb	$2, %sil
	je	.LBB15_53
# %bb.51:                               # %join.5.i.i.i.i.i
                                        #   in Loop: Header=BB15_50 Depth=1
	movzbl	%sil, %edx
	cmpl	$1, %edx
	jne	.LBB15_66
# %bb.52:                               # %arm.2.i.i5.i.i.i.i.i
                                        #   in Loop: Header=BB15_50 Depth=1
	movl	$1, %edx
	shlq	%cl, %rdx
	movzbl	%r9b, %esi
	orq	%rdx, 2616(%rsp,%rsi,8)
	jmp	.LBB15_66
.LBB15_53:                              # %arm.3.i.i4.i.i.i.i.i
                                        #   in Loop: Header=BB15_50 Depth=1
	shrq	$16, %rsi
	movzbl	%sil, %edx
	cmpb	$126, %dl
	movl	$126, %r8d
	cmovbl	%edx, %r8d
	cmpb	$-94, %r9b
	movl	$161, %edi
	cmovael	%r9d, %edi
	movl	$1, %edx
	shlq	%cl, %rdx
	cmpb	%r9b, %r8b
	jb	.LBB15_59
# %bb.54:                               # %join.5.preheader.i.i.i.i.i.i.i.i.i
                                        #   in Loop: Header=BB15_50 Depth=1
	movzbl	%r8b, %r8d
	movzbl	%r9b, %r9d
	incq	%r8
	movq	%r8, %r10
	subq	%r9, %r10
	cmpq	$4, %r10
	jb	.LBB15_58
# %bb.55:                               # %vector.ph12
                                        #   in Loop: Header=BB15_50 Depth=1
	movq	%r10, %r11
	andq	$-4, %r11
	movq	%rdx, %xmm0
	pshufd	$68, %xmm0, %xmm0               # xmm0 = xmm0[0,1,0,1]
	movq	%rbx, %rax
	leaq	(%rbx,%r9,8), %rbx
	addq	%r11, %r9
	xorl	%r15d, %r15d
.LBB15_56:                              # %vector.body17
                                        #   Parent Loop BB15_50 Depth=1
                                        # =>  This Inner Loop Header: Depth=2
	movdqu	-16(%rbx,%r15,8), %xmm1
	movdqu	(%rbx,%r15,8), %xmm2
	por	%xmm0, %xmm1
	por	%xmm0, %xmm2
	movdqu	%xmm1, -16(%rbx,%r15,8)
	movdqu	%xmm2, (%rbx,%r15,8)
	addq	$4, %r15
	cmpq	%r15, %r11
	jne	.LBB15_56
# %bb.57:                               # %middle.block23
                                        #   in Loop: Header=BB15_50 Depth=1
	cmpl	%r11d, %r10d
	movq	72(%rsp), %r15                  # 8-byte Reload
	movq	%rax, %rbx
	je	.LBB15_59
.LBB15_58:                              # %join.5.i.i.i.i.i.i.i.i.i
                                        #   Parent Loop BB15_50 Depth=1
                                        # =>  This Inner Loop Header: Depth=2
	orq	%rdx, 2616(%rsp,%r9,8)
	incq	%r9
	cmpq	%r9, %r8
	jne	.LBB15_58
.LBB15_59:                              # %"masks::scatter::put_between.exit.i.i.i.i.i.i.i.i"
                                        #   in Loop: Header=BB15_50 Depth=1
	cmpb	%sil, %dil
	ja	.LBB15_66
# %bb.60:                               # %join.5.preheader.i4.i.i.i.i.i.i.i.i
                                        #   in Loop: Header=BB15_50 Depth=1
	movzbl	%sil, %esi
	movzbl	%dil, %r10d
	incq	%rsi
	movq	%rsi, %r8
	subq	%r10, %r8
	cmpq	$4, %r8
	jae	.LBB15_62
# %bb.61:                               #   in Loop: Header=BB15_50 Depth=1
	movq	%r10, %rdi
	jmp	.LBB15_65
.LBB15_62:                              # %vector.ph
                                        #   in Loop: Header=BB15_50 Depth=1
	movq	%r8, %r9
	andq	$-4, %r9
	leaq	(%r9,%r10), %rdi
	movq	%rdx, %xmm0
	pshufd	$68, %xmm0, %xmm0               # xmm0 = xmm0[0,1,0,1]
	leaq	(%rbx,%r10,8), %r10
	xorl	%r11d, %r11d
.LBB15_63:                              # %vector.body
                                        #   Parent Loop BB15_50 Depth=1
                                        # =>  This Inner Loop Header: Depth=2
	movdqu	-16(%r10,%r11,8), %xmm1
	movdqu	(%r10,%r11,8), %xmm2
	por	%xmm0, %xmm1
	por	%xmm0, %xmm2
	movdqu	%xmm1, -16(%r10,%r11,8)
	movdqu	%xmm2, (%r10,%r11,8)
	addq	$4, %r11
	cmpq	%r11, %r9
	jne	.LBB15_63
# %bb.64:                               # %middle.block
                                        #   in Loop: Header=BB15_50 Depth=1
	cmpl	%r9d, %r8d
	je	.LBB15_66
.LBB15_65:                              # %join.5.i6.i.i.i.i.i.i.i.i
                                        #   Parent Loop BB15_50 Depth=1
                                        # =>  This Inner Loop Header: Depth=2
	orq	%rdx, 2616(%rsp,%rdi,8)
	incq	%rdi
	cmpq	%rdi, %rsi
	jne	.LBB15_65
	jmp	.LBB15_66
.LBB15_67:                              # %"first_sweep::grow.exit.i.i.i"
	movq	%r14, %rax
	shlq	$4, %rax
	movq	8(%r15,%rax), %rax
	testq	%r14, %r14
	movq	%rax, 136(%rsp)
	sete	144(%rsp)
	movq	80(%rsp), %r14                  # 8-byte Reload
	movq	%r14, 152(%rsp)
	movb	$1, 160(%rsp)
	movq	$32, 168(%rsp)
	leaq	240(%rsp), %rax
	movq	%rax, 208(%rsp)
	leaq	2104(%rsp), %rax
	movq	%rax, 216(%rsp)
	leaq	1592(%rsp), %rax
	movq	%rax, 224(%rsp)
	leaq	2616(%rsp), %rax
	movq	%rax, 232(%rsp)
	leaq	208(%rsp), %rdi
	leaq	136(%rsp), %rcx
	movq	16(%rsp), %rsi                  # 8-byte Reload
	movq	24(%rsp), %rbx                  # 8-byte Reload
	movq	%rbx, %rdx
	movq	%r15, %r8
	callq	"first_sweep::sweep"
	testq	%rbx, %rbx
	movzbl	15(%rsp), %edx                  # 1-byte Folded Reload
	movq	4728(%rsp), %r9
	je	.LBB15_79
# %bb.68:                               # %join.6.i.preheader.i.i.i
	movl	$3600, %eax                     # imm = 0xE10
	subq	%r14, %rax
	cmpq	%rax, %r9
	cmovbq	%r9, %rax
	cmpq	$0, 64(%rsp)                    # 8-byte Folded Reload
	je	.LBB15_69
# %bb.70:                               # %join.6.i.preheader.i.i.i.new
                                        # kill: def $ebx killed $ebx killed $rbx def $rbx
	andl	$126, %ebx
	movq	48(%rsp), %rcx                  # 8-byte Reload
	movq	32(%rsp), %rsi                  # 8-byte Reload
	addq	%rcx, %rsi
	incq	%rsi
	xorl	%ecx, %ecx
	movq	40(%rsp), %r8                   # 8-byte Reload
	jmp	.LBB15_71
.LBB15_75:                              # %"text::put::put_byte.exit.i.i.i.i.1"
                                        #   in Loop: Header=BB15_71 Depth=1
	addq	$2, %rcx
	cmpq	%rcx, %rbx
	je	.LBB15_76
.LBB15_71:                              # %join.6.i.i.i.i
                                        # =>This Inner Loop Header: Depth=1
	movq	%r9, %rdi
	cmpq	%r9, %rax
	jb	.LBB15_72
# %bb.73:                               # %"text::put::put_byte.exit.i.i.i.i"
                                        #   in Loop: Header=BB15_71 Depth=1
	movq	%r9, %rax
	cmpq	%r9, %rdi
	jae	.LBB15_75
	jmp	.LBB15_74
.LBB15_72:                              # %then.1.i.i.i.i.i
                                        #   in Loop: Header=BB15_71 Depth=1
	movzbl	-1(%rsi,%rcx), %edi
	movb	%dil, (%r8,%rax)
	incq	%rax
	movq	%rax, %rdi
	movq	%r9, %rax
	cmpq	%r9, %rdi
	jae	.LBB15_75
.LBB15_74:                              # %then.1.i.i.i.i.i.1
                                        #   in Loop: Header=BB15_71 Depth=1
	movzbl	(%rsi,%rcx), %eax
	movb	%al, (%r8,%rdi)
	incq	%rdi
	movq	%rdi, %rax
	jmp	.LBB15_75
.LBB15_76:                              # %"text::put::put_bytes.exit.i.i.i.loopexit.unr-lcssa"
	movq	24(%rsp), %rbx                  # 8-byte Reload
	testb	$1, %bl
	movzbl	15(%rsp), %edx                  # 1-byte Folded Reload
	jne	.LBB15_77
	jmp	.LBB15_79
.LBB15_69:
	xorl	%ecx, %ecx
.LBB15_77:                              # %join.6.i.i.i.i.epil.preheader
	cmpq	%r9, %rax
	jae	.LBB15_79
# %bb.78:                               # %then.1.i.i.i.i.i.epil
	movq	16(%rsp), %rsi                  # 8-byte Reload
	movzbl	(%rsi,%rcx), %ecx
	movq	40(%rsp), %rsi                  # 8-byte Reload
	movb	%cl, (%rsi,%rax)
.LBB15_79:                              # %"text::put::put_bytes.exit.i.i.i"
	movb	%bl, 178(%rsp,%r13)
	incb	%dl
	movb	%dl, 15(%rsp)                   # 1-byte Spill
	movb	$1, %al
	xorl	%ecx, %ecx
	xorl	%edx, %edx
	cmpq	$31, %r12
	je	.LBB15_81
	jmp	.LBB15_82
.Lfunc_end15:
	.size	wumbyra_desk_put, .Lfunc_end15-wumbyra_desk_put
	.section	.rodata.wumbyra_desk_put,"a",@progbits
	.p2align	2, 0x0
.LJTI15_0:
	.long	.LBB15_88-.LJTI15_0
	.long	.LBB15_85-.LJTI15_0
	.long	.LBB15_86-.LJTI15_0
	.long	.LBB15_87-.LJTI15_0
                                        # -- End function
	.section	.text.wumbyra_desk_withdraw,"ax",@progbits
	.globl	wumbyra_desk_withdraw           # -- Begin function wumbyra_desk_withdraw
	.p2align	4
	.type	wumbyra_desk_withdraw,@function
wumbyra_desk_withdraw:                  # @wumbyra_desk_withdraw
# %bb.0:                                # %start
	pushq	%rbp
	pushq	%r15
	pushq	%r14
	pushq	%r13
	pushq	%r12
	pushq	%rbx
	subq	$1080, %rsp                     # imm = 0x438
	movq	%rsi, %r12
	xorl	%r13d, %r13d
	testq	%rdi, %rdi
	sete	%r13b
	shll	$12, %r13d
	addq	%rdi, %r13
	xorl	%r15d, %r15d
	testq	%rdx, %rdx
	sete	%r15b
	shll	$12, %r15d
	addq	%rdx, %r15
	xorl	%ebx, %ebx
	testq	%r8, %r8
	sete	%r14b
	cmpq	$31, %rcx
	movq	%rcx, 8(%rsp)                   # 8-byte Spill
	movq	%r9, 48(%rsp)                   # 8-byte Spill
	movq	%r8, 56(%rsp)                   # 8-byte Spill
	jne	.LBB16_1
# %bb.2:                                # %join.3.i.i.i
	movups	1(%r15), %xmm0
	movups	15(%r15), %xmm1
	movups	%xmm1, 30(%rsp)
	movaps	%xmm0, 16(%rsp)
	movzbl	(%r15), %eax
	jmp	.LBB16_3
.LBB16_1:                               # %then.1.i.i.i
	xorps	%xmm0, %xmm0
	movups	%xmm0, 30(%rsp)
	movaps	%xmm0, 16(%rsp)
	movb	$31, %al
.LBB16_3:                               # %"packing::desks::desk_of.exit.i.i"
	movq	%rax, (%rsp)                    # 8-byte Spill
	movups	30(%rsp), %xmm0
	movups	%xmm0, 80(%rsp)
	movaps	16(%rsp), %xmm0
	movups	%xmm0, 66(%rsp)
	leaq	96(%rsp), %rbp
	movl	$336, %edx                      # imm = 0x150
	movq	%rbp, %rdi
	xorl	%esi, %esi
	callq	memset@PLT
	movq	%rbp, %rdi
	movq	%r13, %rsi
	movq	%r12, %rdx
	callq	"loading::load"
	cmpb	$0, 96(%rsp)
	jne	.LBB16_11
# %bb.4:                                # %"loading::pattern_of.exit.i.i"
	movq	104(%rsp), %r13
	leaq	112(%rsp), %rsi
	leaq	432(%rsp), %rdi
	movl	$320, %edx                      # imm = 0x140
	callq	memcpy@PLT
	leaq	-1(%r13), %rax
	cmpq	$63, %rax
	ja	.LBB16_11
# %bb.5:                                # %arm.3.i.preheader.i.i.i.i.i.i.i
	movb	%r14b, %bl
	shll	$12, %ebx
	movq	56(%rsp), %r14                  # 8-byte Reload
	addq	%rbx, %r14
	movq	%r13, 96(%rsp)
	leaq	104(%rsp), %r12
	leaq	432(%rsp), %rsi
	movl	$320, %edx                      # imm = 0x140
	movq	%r12, %rdi
	callq	memcpy@PLT
	movq	%r13, %rax
	jmp	.LBB16_6
.LBB16_10:                              # %arm.2.i.i.i.i.i.i.i.i.i.i.i.i.i
                                        #   in Loop: Header=BB16_6 Depth=1
	andb	$127, %cl
	addb	$-33, %cl
	cmpb	$94, %cl
	jae	.LBB16_11
	.p2align	4
.LBB16_16:                              # %loop.2.backedge.i.i.i.i.i.i.i.i
                                        #   in Loop: Header=BB16_6 Depth=1
	decq	%rax
	addq	$5, %r12
	testq	%rax, %rax
	je	.LBB16_17
.LBB16_6:                               # %arm.3.i.i.i.i.i.i.i.i
                                        # =>This Inner Loop Header: Depth=1
	cmpb	$-56, (%r12)
	ja	.LBB16_11
# %bb.7:                                # %then.1.i.i.i.i.i.i.i.i.i.i.i
                                        #   in Loop: Header=BB16_6 Depth=1
	cmpb	$0, 1(%r12)
	jne	.LBB16_16
# %bb.8:                                # %arm.1.i.i.i.i.i.i.i.i.i.i.i.i
                                        #   in Loop: Header=BB16_6 Depth=1
	movzbl	2(%r12), %edx
	testl	%edx, %edx
	je	.LBB16_16
# %bb.9:                                # %arm.1.i.i.i.i.i.i.i.i.i.i.i.i
                                        #   in Loop: Header=BB16_6 Depth=1
	movzbl	3(%r12), %ecx
	cmpl	$2, %edx
	jne	.LBB16_10
# %bb.13:                               # %arm.3.i.i.i.i.i.i.i.i.i.i.i.i.i
                                        #   in Loop: Header=BB16_6 Depth=1
	movzbl	4(%r12), %edx
	cmpb	%dl, %cl
	ja	.LBB16_11
# %bb.14:                               # %arm.3.i.i.i.i.i.i.i.i.i.i.i.i.i
                                        #   in Loop: Header=BB16_6 Depth=1
	andb	$127, %cl
	addb	$-33, %cl
	cmpb	$93, %cl
	ja	.LBB16_11
# %bb.15:                               # %arm.3.i.i.i.i.i.i.i.i.i.i.i.i.i
                                        #   in Loop: Header=BB16_6 Depth=1
	andb	$127, %dl
	addb	$-33, %dl
	cmpb	$93, %dl
	jbe	.LBB16_16
.LBB16_11:                              # %"syntax::obeys_rules.exit.thread.i.i.i.i.i"
	movl	$1, %edx
	xorl	%ecx, %ecx
.LBB16_12:                              # %"desk::withdraw.exit.i.i"
	xorl	%eax, %eax
	movq	8(%rsp), %r9                    # 8-byte Reload
.LBB16_35:                              # %"desk::withdraw.exit.i.i"
	cmpq	$31, %r9
	jne	.LBB16_37
# %bb.36:                               # %then.1.i6.i.i
	movq	(%rsp), %rsi                    # 8-byte Reload
	movb	%sil, (%r15)
	movaps	16(%rsp), %xmm0
	movups	%xmm0, 1(%r15)
	movups	30(%rsp), %xmm0
	movups	%xmm0, 15(%r15)
.LBB16_37:                              # %"packing::desks::put_desk.exit.i.i"
	testb	%cl, %cl
	je	.LBB16_39
# %bb.38:                               # %arm.1.i12.i.i
	movl	%eax, %eax
.LBB16_44:                              # %"wumbyra_c::wumbyra_desk_withdraw.exit"
	addq	$1080, %rsp                     # imm = 0x438
	popq	%rbx
	popq	%r12
	popq	%r13
	popq	%r14
	popq	%r15
	popq	%rbp
	retq
.LBB16_39:                              # %arm.2.i10.i.i
	movzbl	%al, %eax
	leaq	.LJTI16_0(%rip), %rcx
	movslq	(%rcx,%rax,4), %rax
	addq	%rcx, %rax
	jmpq	*%rax
.LBB16_43:                              # %arm.1.i3.i.i.i.i
	movq	%rdx, %rax
	shrq	$32, %rax
	movl	%edx, %ecx
	notl	%ecx
	xorl	%esi, %esi
	testb	$9, %cl
	cmovneq	%rax, %rsi
	shlq	$32, %rdx
	orq	%rsi, %rdx
	movabsq	$4294967296, %rax               # imm = 0x100000000
	addq	%rdx, %rax
	jmp	.LBB16_44
.LBB16_41:                              # %arm.3.i.i.i.i.i
	movabsq	$60129542144, %rax              # imm = 0xE00000000
	jmp	.LBB16_44
.LBB16_42:                              # %arm.4.i.i.i.i.i
	movabsq	$64424509440, %rax              # imm = 0xF00000000
	jmp	.LBB16_44
.LBB16_40:
	movabsq	$55834574848, %rax              # imm = 0xD00000000
	jmp	.LBB16_44
.LBB16_17:                              # %"syntax::obeys_rules.exit.i.i.i.i.i"
	movq	%r13, 752(%rsp)
	leaq	760(%rsp), %rdi
	leaq	432(%rsp), %rsi
	movl	$320, %edx                      # imm = 0x140
	callq	memcpy@PLT
	leaq	752(%rsp), %rdi
	callq	"syntax::naming::tree_fault_of"
	cmpb	$1, %al
	jne	.LBB16_19
# %bb.18:
	xorl	%ecx, %ecx
	movl	$1, %edx
	jmp	.LBB16_12
.LBB16_19:                              # %join.3.i.i.i.i.i
	cmpq	$3600, 48(%rsp)                 # 8-byte Folded Reload
                                        # imm = 0xE10
	movq	8(%rsp), %r9                    # 8-byte Reload
	jae	.LBB16_21
# %bb.20:
	movabsq	$15461882265608, %rdx           # imm = 0xE1000000008
	xorl	%ecx, %ecx
	xorl	%eax, %eax
	jmp	.LBB16_35
.LBB16_21:                              # %arm.1.i.i.i.i
	xorl	%ecx, %ecx
	movq	(%rsp), %rdi                    # 8-byte Reload
	cmpb	$31, %dil
	movzbl	%dil, %esi
	movl	$0, %edx
	cmovbl	%esi, %edx
	movl	$1, %eax
	cmpb	$30, %sil
	ja	.LBB16_22
# %bb.23:                               # %arm.1.i.i.i.i.i.i.i
	testb	%dil, %dil
	je	.LBB16_24
# %bb.25:                               # %join.6.i.i.i.i.i.i.i.i.preheader
	movzbl	%dl, %ecx
	xorl	%esi, %esi
	xorl	%edx, %edx
.LBB16_26:                              # %join.6.i.i.i.i.i.i.i.i
                                        # =>This Inner Loop Header: Depth=1
	movzbl	66(%rsp,%rdx), %edi
	leal	-1(%rdi), %r8d
	cmpb	$119, %r8b
	ja	.LBB16_27
# %bb.28:                               # %join.10.i.i.i.i.i.i.i.i
                                        #   in Loop: Header=BB16_26 Depth=1
	addq	%rdi, %rsi
	incq	%rdx
	cmpq	%rdx, %rcx
	jne	.LBB16_26
# %bb.29:                               # %"desk::limits::limits_of.exit.i.i.i.i.i.i"
	testq	%rsi, %rsi
	je	.LBB16_34
# %bb.30:                               # %arm.3.i.i.preheader.i.i.i.i.i.i
	subq	%rsi, %r14
	addq	$3600, %r14                     # imm = 0xE10
	movq	%rsi, %rcx
	negq	%rcx
	xorl	%edx, %edx
.LBB16_31:                              # %arm.3.i.i.i.i7.i.i.i.i
                                        # =>This Inner Loop Header: Depth=1
	movzbl	(%r14,%rdx), %edi
	andb	$127, %dil
	addb	$-127, %dil
	cmpb	$-94, %dil
	jb	.LBB16_33
# %bb.32:                               # %join.9.i.i.i.i.i.i.i.i
                                        #   in Loop: Header=BB16_31 Depth=1
	incq	%rdx
	movq	%rcx, %rdi
	addq	%rdx, %rdi
	jne	.LBB16_31
	jmp	.LBB16_34
.LBB16_22:
	xorl	%edx, %edx
	jmp	.LBB16_35
.LBB16_24:
	movl	$3, %eax
	movq	$0, (%rsp)                      # 8-byte Folded Spill
.LBB16_27:
	xorl	%ecx, %ecx
	xorl	%edx, %edx
	jmp	.LBB16_35
.LBB16_33:                              # %"desk::limits::limits_held.exit.i.i.i.i.i"
	cmpq	%rdx, %rsi
	ja	.LBB16_27
.LBB16_34:                              # %arm.1.i3.i.i
	movq	(%rsp), %rax                    # 8-byte Reload
	decb	%al
	movq	%rax, (%rsp)                    # 8-byte Spill
	movzbl	%al, %eax
	movzbl	66(%rsp,%rax), %eax
	subl	%eax, %esi
	movb	$1, %cl
	xorl	%edx, %edx
	movl	%esi, %eax
	jmp	.LBB16_35
.Lfunc_end16:
	.size	wumbyra_desk_withdraw, .Lfunc_end16-wumbyra_desk_withdraw
	.section	.rodata.wumbyra_desk_withdraw,"a",@progbits
	.p2align	2, 0x0
.LJTI16_0:
	.long	.LBB16_43-.LJTI16_0
	.long	.LBB16_40-.LJTI16_0
	.long	.LBB16_41-.LJTI16_0
	.long	.LBB16_42-.LJTI16_0
                                        # -- End function
	.section	.text.wumbyra_flatten,"ax",@progbits
	.globl	wumbyra_flatten                 # -- Begin function wumbyra_flatten
	.p2align	4
	.type	wumbyra_flatten,@function
wumbyra_flatten:                        # @wumbyra_flatten
# %bb.0:                                # %start
	pushq	%rbp
	pushq	%r15
	pushq	%r14
	pushq	%r13
	pushq	%r12
	pushq	%rbx
	subq	$696, %rsp                      # imm = 0x2B8
	movl	%r8d, 28(%rsp)                  # 4-byte Spill
	movq	%rcx, %r14
	movq	%rsi, %r13
	xorl	%ebp, %ebp
	testq	%rdi, %rdi
	sete	%bpl
	shll	$12, %ebp
	addq	%rdi, %rbp
	xorl	%r15d, %r15d
	testq	%rdx, %rdx
	sete	%r15b
	shll	$12, %r15d
	addq	%rdx, %r15
	xorl	%r12d, %r12d
	testq	%r9, %r9
	sete	%r12b
	shll	$12, %r12d
	addq	%r9, %r12
	movl	$0, 24(%rsp)
	movq	$0, 16(%rsp)
	leaq	360(%rsp), %rbx
	movl	$336, %edx                      # imm = 0x150
	movq	%rbx, %rdi
	xorl	%esi, %esi
	callq	memset@PLT
	movq	%rbx, %rdi
	movq	%rbp, %rsi
	movq	%r13, %rdx
	callq	"loading::load"
	cmpb	$0, 360(%rsp)
	je	.LBB17_1
# %bb.2:                                # %arm.2.i.i.i
	leaq	32(%rsp), %rdi
	movl	$328, %edx                      # imm = 0x148
	xorl	%esi, %esi
	callq	memset@PLT
	jmp	.LBB17_3
.LBB17_1:                               # %arm.1.i.i.i
	leaq	368(%rsp), %rsi
	leaq	32(%rsp), %rdi
	movl	$328, %edx                      # imm = 0x148
	callq	memcpy@PLT
.LBB17_3:                               # %"loading::pattern_of.exit.i.i"
	movq	752(%rsp), %rax
	movq	%rax, (%rsp)
	leaq	16(%rsp), %rdi
	leaq	32(%rsp), %rsi
	movq	%r15, %rdx
	movq	%r14, %rcx
	movl	28(%rsp), %r8d                  # 4-byte Reload
	movq	%r12, %r9
	callq	"codes::flatten"
	movl	20(%rsp), %eax
	cmpb	$0, 16(%rsp)
	je	.LBB17_7
# %bb.4:                                # %arm.2.i2.i.i
	movl	24(%rsp), %edx
	movzbl	%al, %esi
	xorl	%ecx, %ecx
	movl	$363, %edi                      # imm = 0x16B
	btl	%esi, %edi
	jae	.LBB17_6
# %bb.5:                                # %after.2.i.i.i.i.i
	movq	%rdx, %rcx
.LBB17_6:                               # %"packing::of_cause::<#ebb002963c42623e>.exit.i.i.i"
	movzbl	%al, %edx
	shlq	$32, %rdx
	orq	%rcx, %rdx
	movabsq	$4294967296, %rax               # imm = 0x100000000
	addq	%rdx, %rax
.LBB17_7:                               # %"wumbyra_c::wumbyra_flatten.exit"
	addq	$696, %rsp                      # imm = 0x2B8
	popq	%rbx
	popq	%r12
	popq	%r13
	popq	%r14
	popq	%r15
	popq	%rbp
	retq
.Lfunc_end17:
	.size	wumbyra_flatten, .Lfunc_end17-wumbyra_flatten
                                        # -- End function
	.section	.text.wumbyra_load,"ax",@progbits
	.globl	wumbyra_load                    # -- Begin function wumbyra_load
	.p2align	4
	.type	wumbyra_load,@function
wumbyra_load:                           # @wumbyra_load
# %bb.0:                                # %start
	pushq	%r15
	pushq	%r14
	pushq	%rbx
	subq	$336, %rsp                      # imm = 0x150
	movq	%rsi, %rbx
	xorl	%r14d, %r14d
	testq	%rdi, %rdi
	sete	%r14b
	shll	$12, %r14d
	addq	%rdi, %r14
	movq	%rsp, %r15
	movl	$336, %edx                      # imm = 0x150
	movq	%r15, %rdi
	xorl	%esi, %esi
	callq	memset@PLT
	movq	%r15, %rdi
	movq	%r14, %rsi
	movq	%rbx, %rdx
	callq	"loading::load"
	cmpb	$0, (%rsp)
	je	.LBB18_1
# %bb.2:                                # %arm.2.i.i
	movzbl	4(%rsp), %ecx
	xorl	%eax, %eax
	movl	$363, %edx                      # imm = 0x16B
	btl	%ecx, %edx
	jae	.LBB18_4
# %bb.3:                                # %after.2.i.i.i.i
	movl	8(%rsp), %eax
.LBB18_4:                               # %"packing::of_cause::<#ebb002963c42623e>.exit.i.i"
	shlq	$32, %rcx
	orq	%rax, %rcx
	movabsq	$4294967296, %rax               # imm = 0x100000000
	addq	%rcx, %rax
	jmp	.LBB18_5
.LBB18_1:                               # %arm.1.i.i
	movl	8(%rsp), %eax
.LBB18_5:                               # %"wumbyra_c::wumbyra_load.exit"
	addq	$336, %rsp                      # imm = 0x150
	popq	%rbx
	popq	%r14
	popq	%r15
	retq
.Lfunc_end18:
	.size	wumbyra_load, .Lfunc_end18-wumbyra_load
                                        # -- End function
	.section	.text.wumbyra_locate,"ax",@progbits
	.globl	wumbyra_locate                  # -- Begin function wumbyra_locate
	.p2align	4
	.type	wumbyra_locate,@function
wumbyra_locate:                         # @wumbyra_locate
# %bb.0:                                # %start
	pushq	%rbp
	pushq	%r15
	pushq	%r14
	pushq	%r13
	pushq	%r12
	pushq	%rbx
	subq	$3072, %rsp                     # imm = 0xC00
	movq	$0, (%rsp)
	subq	$1368, %rsp                     # imm = 0x558
	movq	%rcx, %rbx
	movq	%rsi, %r15
	xorl	%r12d, %r12d
	testq	%rdi, %rdi
	sete	%r12b
	shll	$12, %r12d
	addq	%rdi, %r12
	xorl	%r14d, %r14d
	testq	%rdx, %rdx
	sete	%r14b
	shll	$12, %r14d
	addq	%rdx, %r14
	leaq	1880(%rsp), %r13
	movl	$336, %edx                      # imm = 0x150
	movq	%r13, %rdi
	xorl	%esi, %esi
	callq	memset@PLT
	movq	%r13, %rdi
	movq	%r12, %rsi
	movq	%r15, %rdx
	callq	"loading::load"
	cmpb	$0, 1880(%rsp)
	je	.LBB19_1
# %bb.2:                                # %arm.2.i.i.i
	leaq	856(%rsp), %rdi
	movl	$328, %edx                      # imm = 0x148
	xorl	%esi, %esi
	callq	memset@PLT
	jmp	.LBB19_3
.LBB19_1:                               # %arm.1.i.i.i
	leaq	1888(%rsp), %rsi
	leaq	856(%rsp), %rdi
	movl	$328, %edx                      # imm = 0x148
	callq	memcpy@PLT
.LBB19_3:                               # %"loading::pattern_of.exit.i.i"
	leaq	16(%rsp), %r15
	leaq	856(%rsp), %rsi
	movl	$328, %edx                      # imm = 0x148
	movq	%r15, %rdi
	callq	memcpy@PLT
	movq	$0, (%rsp)
	movl	$0, 8(%rsp)
	leaq	3928(%rsp), %rdi
	movl	$512, %edx                      # imm = 0x200
	xorl	%esi, %esi
	callq	memset@PLT
	movq	%rsp, %rdi
	movq	%r15, %rsi
	movq	%r14, %rdx
	movq	%rbx, %rcx
	callq	"checks::check_tape"
	cmpb	$0, (%rsp)
	je	.LBB19_4
# %bb.40:                               # %arm.2.i5.i.i
	movl	8(%rsp), %edx
	movzbl	4(%rsp), %ecx
	xorl	%eax, %eax
	movl	$363, %esi                      # imm = 0x16B
	btl	%ecx, %esi
	jae	.LBB19_42
# %bb.41:                               # %after.2.i.i.i.i.i
	movq	%rdx, %rax
.LBB19_42:                              # %"packing::of_cause::<#ebb002963c42623e>.exit.i.i.i"
	shlq	$32, %rcx
	orq	%rax, %rcx
	movabsq	$4294967296, %rax               # imm = 0x100000000
	addq	%rcx, %rax
	jmp	.LBB19_43
.LBB19_4:                               # %arm.1.i3.i.i
	leaq	3928(%rsp), %r15
	leaq	16(%rsp), %rsi
	movq	%r15, %rdi
	callq	"table::table_of"
	leaq	344(%rsp), %rdi
	movl	$512, %edx                      # imm = 0x200
	movq	%r15, %rsi
	callq	memcpy@PLT
	movq	16(%rsp), %r12
	leaq	856(%rsp), %r13
	movl	$512, %edx                      # imm = 0x200
	movq	%r13, %rdi
	xorl	%esi, %esi
	callq	memset@PLT
	leaq	1368(%rsp), %rbp
	movl	$512, %edx                      # imm = 0x200
	movq	%rbp, %rdi
	xorl	%esi, %esi
	callq	memset@PLT
	movq	%r15, %rdi
	movq	%r12, %rsi
	movq	%r13, %rdx
	movq	%rbp, %rcx
	callq	"masks::put_masks"
	movq	%rax, %r15
	leaq	1880(%rsp), %rdi
	movl	$2048, %edx                     # imm = 0x800
	xorl	%esi, %esi
	callq	memset@PLT
	testq	%r12, %r12
	je	.LBB19_23
# %bb.5:                                # %join.5.i.i.i.i.i.preheader
	leaq	1896(%rsp), %rax
	xorl	%ecx, %ecx
	jmp	.LBB19_6
	.p2align	4
.LBB19_22:                              # %"masks::scatter::put_node.exit.i.i.i.i.i"
                                        #   in Loop: Header=BB19_6 Depth=1
	incq	%rcx
	cmpq	%r12, %rcx
	je	.LBB19_23
.LBB19_6:                               # %join.5.i.i.i.i.i
                                        # =>This Loop Header: Depth=1
                                        #     Child Loop BB19_12 Depth 2
                                        #     Child Loop BB19_14 Depth 2
                                        #     Child Loop BB19_19 Depth 2
                                        #     Child Loop BB19_21 Depth 2
	movq	344(%rsp,%rcx,8), %rsi
	movq	%rsi, %r9
	shrq	$8, %r9
	cmpb	$2, %sil
	je	.LBB19_9
# %bb.7:                                # %join.5.i.i.i.i.i
                                        #   in Loop: Header=BB19_6 Depth=1
	movzbl	%sil, %edx
	cmpl	$1, %edx
	jne	.LBB19_22
# %bb.8:                                # %arm.2.i.i5.i.i.i.i.i
                                        #   in Loop: Header=BB19_6 Depth=1
	movl	$1, %edx
	shlq	%cl, %rdx
	movzbl	%r9b, %esi
	orq	%rdx, 1880(%rsp,%rsi,8)
	jmp	.LBB19_22
	.p2align	4
.LBB19_9:                               # %arm.3.i.i4.i.i.i.i.i
                                        #   in Loop: Header=BB19_6 Depth=1
	shrq	$16, %rsi
	movzbl	%sil, %edx
	cmpb	$126, %dl
	movl	$126, %r8d
	cmovbl	%edx, %r8d
	cmpb	$-94, %r9b
	movl	$161, %edi
	cmovael	%r9d, %edi
	movl	$1, %edx
	shlq	%cl, %rdx
	cmpb	%r9b, %r8b
	jb	.LBB19_15
# %bb.10:                               # %join.5.preheader.i.i.i.i.i.i.i.i.i
                                        #   in Loop: Header=BB19_6 Depth=1
	movzbl	%r8b, %r8d
	movzbl	%r9b, %r9d
	incq	%r8
	movq	%r8, %r10
	subq	%r9, %r10
	cmpq	$4, %r10
	jb	.LBB19_14
# %bb.11:                               # %vector.ph4
                                        #   in Loop: Header=BB19_6 Depth=1
	movq	%r10, %r11
	andq	$-4, %r11
	movq	%rdx, %xmm0
	pshufd	$68, %xmm0, %xmm0               # xmm0 = xmm0[0,1,0,1]
	leaq	(%rax,%r9,8), %r13
	addq	%r11, %r9
	xorl	%ebp, %ebp
	.p2align	4
.LBB19_12:                              # %vector.body9
                                        #   Parent Loop BB19_6 Depth=1
                                        # =>  This Inner Loop Header: Depth=2
	movdqu	-16(%r13,%rbp,8), %xmm1
	movdqu	(%r13,%rbp,8), %xmm2
	por	%xmm0, %xmm1
	por	%xmm0, %xmm2
	movdqu	%xmm1, -16(%r13,%rbp,8)
	movdqu	%xmm2, (%r13,%rbp,8)
	addq	$4, %rbp
	cmpq	%rbp, %r11
	jne	.LBB19_12
# %bb.13:                               # %middle.block15
                                        #   in Loop: Header=BB19_6 Depth=1
	cmpl	%r11d, %r10d
	je	.LBB19_15
	.p2align	4
.LBB19_14:                              # %join.5.i.i.i.i.i.i.i.i.i
                                        #   Parent Loop BB19_6 Depth=1
                                        # =>  This Inner Loop Header: Depth=2
	orq	%rdx, 1880(%rsp,%r9,8)
	incq	%r9
	cmpq	%r9, %r8
	jne	.LBB19_14
.LBB19_15:                              # %"masks::scatter::put_between.exit.i.i.i.i.i.i.i.i"
                                        #   in Loop: Header=BB19_6 Depth=1
	cmpb	%sil, %dil
	ja	.LBB19_22
# %bb.16:                               # %join.5.preheader.i4.i.i.i.i.i.i.i.i
                                        #   in Loop: Header=BB19_6 Depth=1
	movzbl	%sil, %esi
	movzbl	%dil, %r10d
	incq	%rsi
	movq	%rsi, %r8
	subq	%r10, %r8
	cmpq	$4, %r8
	jae	.LBB19_18
# %bb.17:                               #   in Loop: Header=BB19_6 Depth=1
	movq	%r10, %rdi
	jmp	.LBB19_21
.LBB19_18:                              # %vector.ph
                                        #   in Loop: Header=BB19_6 Depth=1
	movq	%r8, %r9
	andq	$-4, %r9
	leaq	(%r9,%r10), %rdi
	movq	%rdx, %xmm0
	pshufd	$68, %xmm0, %xmm0               # xmm0 = xmm0[0,1,0,1]
	leaq	(%rax,%r10,8), %r10
	xorl	%r11d, %r11d
	.p2align	4
.LBB19_19:                              # %vector.body
                                        #   Parent Loop BB19_6 Depth=1
                                        # =>  This Inner Loop Header: Depth=2
	movdqu	-16(%r10,%r11,8), %xmm1
	movdqu	(%r10,%r11,8), %xmm2
	por	%xmm0, %xmm1
	por	%xmm0, %xmm2
	movdqu	%xmm1, -16(%r10,%r11,8)
	movdqu	%xmm2, (%r10,%r11,8)
	addq	$4, %r11
	cmpq	%r11, %r9
	jne	.LBB19_19
# %bb.20:                               # %middle.block
                                        #   in Loop: Header=BB19_6 Depth=1
	cmpl	%r9d, %r8d
	je	.LBB19_22
	.p2align	4
.LBB19_21:                              # %join.5.i6.i.i.i.i.i.i.i.i
                                        #   Parent Loop BB19_6 Depth=1
                                        # =>  This Inner Loop Header: Depth=2
	orq	%rdx, 1880(%rsp,%rdi,8)
	incq	%rdi
	cmpq	%rdi, %rsi
	jne	.LBB19_21
	jmp	.LBB19_22
.LBB19_23:                              # %"masks::scatter::put_takers.exit.i.i.i.i"
	testq	%rbx, %rbx
	je	.LBB19_24
# %bb.25:                               # %join.6.preheader.i.i.i.i.i
	movabsq	$824633720832, %rax             # imm = 0xC000000000
	decb	%r12b
	movl	$1, %esi
	movl	%r12d, %ecx
	shlq	%cl, %rsi
	xorl	%edx, %edx
	.p2align	4
.LBB19_26:                              # %join.6.i.i.i.i.i
                                        # =>This Loop Header: Depth=1
                                        #     Child Loop BB19_28 Depth 2
                                        #     Child Loop BB19_31 Depth 2
	movzbl	(%r14,%rdx), %ecx
	movq	1880(%rsp,%rcx,8), %rcx
	testq	%rcx, %rcx
	je	.LBB19_34
# %bb.27:                               # %arm.3.i.i.i.i.i.i.preheader
                                        #   in Loop: Header=BB19_26 Depth=1
	xorl	%edi, %edi
	.p2align	4
.LBB19_28:                              # %arm.3.i.i.i.i.i.i
                                        #   Parent Loop BB19_26 Depth=1
                                        # =>  This Inner Loop Header: Depth=2
	movq	%rcx, %r8
	rep		bsfq	%rcx, %rcx
	xorl	%r9d, %r9d
	testq	%rsi, 1368(%rsp,%rcx,8)
	setne	%r9b
                                        # kill: def $cl killed $cl killed $rcx
	shlq	%cl, %r9
	leaq	-1(%r8), %rcx
	orq	%r9, %rdi
	andq	%r8, %rcx
	jne	.LBB19_28
# %bb.29:                               # %"reach::matched.exit.i.i.i.i.i"
                                        #   in Loop: Header=BB19_26 Depth=1
	testq	%rdi, %rdi
	je	.LBB19_34
# %bb.30:                               # %arm.3.i7.i.i.i.i.i.preheader
                                        #   in Loop: Header=BB19_26 Depth=1
	xorl	%esi, %esi
	.p2align	4
.LBB19_31:                              # %arm.3.i7.i.i.i.i.i
                                        #   Parent Loop BB19_26 Depth=1
                                        # =>  This Inner Loop Header: Depth=2
	movq	%rdi, %r8
	rep		bsfq	%rdi, %rcx
	movq	344(%rsp,%rcx,8), %r9
	movq	%r9, %rcx
	shrq	$32, %rcx
	movl	$1, %r10d
                                        # kill: def $cl killed $cl killed $rcx
	shlq	%cl, %r10
	decq	%rdi
	xorl	%ecx, %ecx
	testq	%rax, %r9
	cmoveq	%r10, %rcx
	orq	%rcx, %rsi
	andq	%r8, %rdi
	jne	.LBB19_31
# %bb.32:                               # %"reach::follow.exit.i.i.i.i.i"
                                        #   in Loop: Header=BB19_26 Depth=1
	incq	%rdx
	cmpq	%rbx, %rdx
	jne	.LBB19_26
# %bb.33:
	movq	%rbx, %rdx
.LBB19_34:                              # %"reach::reach_over.exit.i.i.i.i"
	movl	$1, %edi
	movq	%rbx, %rsi
	jmp	.LBB19_35
	.p2align	4
.LBB19_38:                              # %"steps::step.exit.thread.i.i.i.i.i"
                                        #   in Loop: Header=BB19_35 Depth=1
	xorl	%edi, %edi
	movq	%r8, %r15
	testq	%rsi, %rsi
	je	.LBB19_39
.LBB19_35:                              # %arm.3.i.i.i.i.i
                                        # =>This Loop Header: Depth=1
                                        #     Child Loop BB19_36 Depth 2
	movzbl	-1(%r14,%rsi), %ecx
	decq	%rsi
	movq	1880(%rsp,%rcx,8), %r9
	xorl	%r8d, %r8d
	testq	%r9, %r9
	je	.LBB19_38
	.p2align	4
.LBB19_36:                              # %arm.3.i.i10.i.i.i.i
                                        #   Parent Loop BB19_35 Depth=1
                                        # =>  This Inner Loop Header: Depth=2
	movq	%r9, %r10
	rep		bsfq	%r9, %r11
	decq	%r9
	shll	$3, %r11d
	movq	344(%rsp,%r11), %r12
	movq	%r12, %rcx
	shrq	$32, %rcx
	movq	%r15, %r13
                                        # kill: def $cl killed $cl killed $rcx
	shrq	%cl, %r13
	andl	$1, %r13d
	testq	%rax, %r12
	cmovneq	%rdi, %r13
	imulq	1368(%rsp,%r11), %r13
	orq	%r13, %r8
	andq	%r10, %r9
	jne	.LBB19_36
# %bb.37:                               # %"steps::step.exit.i.i.i.i.i"
                                        #   in Loop: Header=BB19_35 Depth=1
	testq	%r8, %r8
	cmovneq	%rsi, %rbx
	jmp	.LBB19_38
.LBB19_39:                              # %"reach::resume_over.exit.loopexit.i.i.i.i"
	shll	$16, %ebx
	movzwl	%dx, %eax
	orl	%ebx, %eax
	roll	$16, %eax
	jmp	.LBB19_43
.LBB19_24:
	xorl	%eax, %eax
.LBB19_43:                              # %"wumbyra_c::wumbyra_locate.exit"
	addq	$4440, %rsp                     # imm = 0x1158
	popq	%rbx
	popq	%r12
	popq	%r13
	popq	%r14
	popq	%r15
	popq	%rbp
	retq
.Lfunc_end19:
	.size	wumbyra_locate, .Lfunc_end19-wumbyra_locate
                                        # -- End function
	.section	.text.wumbyra_parse,"ax",@progbits
	.globl	wumbyra_parse                   # -- Begin function wumbyra_parse
	.p2align	4
	.type	wumbyra_parse,@function
wumbyra_parse:                          # @wumbyra_parse
# %bb.0:                                # %start
	pushq	%rbp
	pushq	%r15
	pushq	%r14
	pushq	%r13
	pushq	%r12
	pushq	%rbx
	subq	$712, %rsp                      # imm = 0x2C8
	movq	%r9, 40(%rsp)                   # 8-byte Spill
	movq	%rcx, 32(%rsp)                  # 8-byte Spill
	movq	%rsi, %r13
	movq	768(%rsp), %rax
	xorl	%ebp, %ebp
	testq	%rdi, %rdi
	sete	%bpl
	shll	$12, %ebp
	addq	%rdi, %rbp
	xorl	%r15d, %r15d
	testq	%rdx, %rdx
	sete	%r15b
	shll	$12, %r15d
	addq	%rdx, %r15
	xorl	%r12d, %r12d
	testq	%r8, %r8
	sete	%r12b
	shll	$12, %r12d
	addq	%r8, %r12
	xorl	%r14d, %r14d
	testq	%rax, %rax
	sete	%r14b
	shll	$12, %r14d
	addq	%rax, %r14
	movl	$0, 24(%rsp)
	movq	$0, 16(%rsp)
	leaq	376(%rsp), %rbx
	movl	$336, %edx                      # imm = 0x150
	movq	%rbx, %rdi
	xorl	%esi, %esi
	callq	memset@PLT
	movq	%rbx, %rdi
	movq	%rbp, %rsi
	movq	%r13, %rdx
	callq	"loading::load"
	cmpb	$0, 376(%rsp)
	je	.LBB20_1
# %bb.2:                                # %arm.2.i.i.i
	leaq	48(%rsp), %rdi
	movl	$328, %edx                      # imm = 0x148
	xorl	%esi, %esi
	callq	memset@PLT
	jmp	.LBB20_3
.LBB20_1:                               # %arm.1.i.i.i
	leaq	384(%rsp), %rsi
	leaq	48(%rsp), %rdi
	movl	$328, %edx                      # imm = 0x148
	callq	memcpy@PLT
.LBB20_3:                               # %"loading::pattern_of.exit.i.i"
	movq	776(%rsp), %rax
	movq	%rax, 8(%rsp)
	movq	%r14, (%rsp)
	leaq	16(%rsp), %rdi
	leaq	48(%rsp), %rsi
	movq	%r15, %rdx
	movq	32(%rsp), %rcx                  # 8-byte Reload
	movq	%r12, %r8
	movq	40(%rsp), %r9                   # 8-byte Reload
	callq	"parser::parse"
	movl	20(%rsp), %eax
	cmpb	$0, 16(%rsp)
	je	.LBB20_7
# %bb.4:                                # %arm.2.i2.i.i
	movl	24(%rsp), %edx
	movzbl	%al, %esi
	xorl	%ecx, %ecx
	movl	$363, %edi                      # imm = 0x16B
	btl	%esi, %edi
	jae	.LBB20_6
# %bb.5:                                # %after.2.i.i.i.i.i
	movq	%rdx, %rcx
.LBB20_6:                               # %"packing::of_cause::<#ebb002963c42623e>.exit.i.i.i"
	movzbl	%al, %edx
	shlq	$32, %rdx
	orq	%rcx, %rdx
	movabsq	$4294967296, %rax               # imm = 0x100000000
	addq	%rdx, %rax
.LBB20_7:                               # %"wumbyra_c::wumbyra_parse.exit"
	addq	$712, %rsp                      # imm = 0x2C8
	popq	%rbx
	popq	%r12
	popq	%r13
	popq	%r14
	popq	%r15
	popq	%rbp
	retq
.Lfunc_end20:
	.size	wumbyra_parse, .Lfunc_end20-wumbyra_parse
                                        # -- End function
	.section	.text.wumbyra_span,"ax",@progbits
	.globl	wumbyra_span                    # -- Begin function wumbyra_span
	.p2align	4
	.type	wumbyra_span,@function
wumbyra_span:                           # @wumbyra_span
# %bb.0:                                # %start
	pushq	%rbp
	pushq	%r15
	pushq	%r14
	pushq	%r13
	pushq	%r12
	pushq	%rbx
	subq	$3072, %rsp                     # imm = 0xC00
	movq	$0, (%rsp)
	subq	$2008, %rsp                     # imm = 0x7D8
	movq	%r9, 120(%rsp)                  # 8-byte Spill
	movq	%rcx, %rbp
	movq	%rdx, %r13
	movq	%rsi, %r15
	xorl	%ebx, %ebx
	testq	%rdi, %rdi
	sete	%bl
	shll	$12, %ebx
	addq	%rdi, %rbx
	xorl	%r12d, %r12d
	testq	%rdx, %rdx
	sete	%r12b
	shll	$12, %r12d
	leaq	(%rdx,%r12), %rax
	movq	%rax, 112(%rsp)                 # 8-byte Spill
	movq	%r8, 56(%rsp)                   # 8-byte Spill
	testq	%r8, %r8
	sete	54(%rsp)                        # 1-byte Folded Spill
	leaq	968(%rsp), %r14
	movl	$336, %edx                      # imm = 0x150
	movq	%r14, %rdi
	xorl	%esi, %esi
	callq	memset@PLT
	movq	%r14, %rdi
	movq	%rbx, %rsi
	movq	%r15, %rdx
	callq	"loading::load"
	cmpb	$0, 968(%rsp)
	je	.LBB21_1
# %bb.2:                                # %arm.2.i.i.i
	leaq	128(%rsp), %rdi
	movl	$328, %edx                      # imm = 0x148
	xorl	%esi, %esi
	callq	memset@PLT
	jmp	.LBB21_3
.LBB21_1:                               # %arm.1.i.i.i
	leaq	976(%rsp), %rsi
	leaq	128(%rsp), %rdi
	movl	$328, %edx                      # imm = 0x148
	callq	memcpy@PLT
.LBB21_3:                               # %"loading::pattern_of.exit.i.i"
	leaq	640(%rsp), %rbx
	leaq	128(%rsp), %rsi
	movl	$328, %edx                      # imm = 0x148
	movq	%rbx, %rdi
	callq	memcpy@PLT
	movq	640(%rsp), %r15
	pxor	%xmm0, %xmm0
	movdqa	%xmm0, 96(%rsp)
	movq	$0, 64(%rsp)
	movl	$0, 72(%rsp)
	leaq	4568(%rsp), %rdi
	movl	$512, %edx                      # imm = 0x200
	xorl	%esi, %esi
	callq	memset@PLT
	leaq	64(%rsp), %rdi
	movq	%rbx, %rsi
	leaq	(%r12,%r13), %rdx
	movq	%rbp, %r14
	movq	%rbp, %rcx
	callq	"checks::check_tape"
	cmpb	$0, 64(%rsp)
	je	.LBB21_4
# %bb.36:                               # %arm.2.i.i
	movl	72(%rsp), %ebx
	movzbl	68(%rsp), %ecx
	movq	%rbx, %rax
	shlq	$32, %rax
	orq	%rcx, %rax
	movl	$363, %edx                      # imm = 0x16B
	btl	%ecx, %edx
	jb	.LBB21_38
	jmp	.LBB21_37
.LBB21_4:                               # %arm.1.i3.i.i
	movq	%r15, %rbp
	leaq	4568(%rsp), %rbx
	leaq	640(%rsp), %rsi
	movq	%rbx, %rdi
	callq	"table::table_of"
	leaq	128(%rsp), %rdi
	movl	$512, %edx                      # imm = 0x200
	movq	%rbx, %rsi
	callq	memcpy@PLT
	leaq	968(%rsp), %r15
	movl	$3600, %edx                     # imm = 0xE10
	movq	%r15, %rdi
	xorl	%esi, %esi
	callq	memset@PLT
	movl	$0, 88(%rsp)
	movq	$0, 80(%rsp)
	movq	120(%rsp), %r9                  # 8-byte Reload
	cmpq	$65536, %r9                     # imm = 0x10000
	ja	.LBB21_17
# %bb.5:                                # %join.3.i.i.i.i.i.i
	movl	5136(%rsp), %ebx
	movl	%ebx, %eax
	addq	$7, %rax
	shrq	$3, %rax
	cmpq	%rax, %r9
	jne	.LBB21_17
# %bb.6:                                # %then.4.i.i.i.i.i.i
	xorl	%eax, %eax
	movzbl	54(%rsp), %ecx                  # 1-byte Folded Reload
	movb	%cl, %al
	shll	$12, %eax
	addq	%rax, 56(%rsp)                  # 8-byte Folded Spill
	movl	%ebx, %eax
	andl	$7, %eax
	je	.LBB21_8
# %bb.7:                                # %"bits::handed_good.exit.i.i.i.i.i"
	movl	%ebx, %edx
	movb	$8, %cl
	subb	%al, %cl
	movl	$-1, %eax
	shll	%cl, %eax
	shrl	$3, %edx
	notb	%al
	movq	56(%rsp), %rcx                  # 8-byte Reload
	testb	%al, (%rcx,%rdx)
	jne	.LBB21_17
.LBB21_8:                               # %join.3.i.i.i.i.i
	movq	%rbp, %rdx
	decq	%rdx
	leaq	55(%rsp), %rax
	movq	%rax, 16(%rsp)
	movq	%r15, 8(%rsp)
	movl	$0, 32(%rsp)
	movq	$0, 24(%rsp)
	movl	$0, (%rsp)
	leaq	80(%rsp), %rdi
	leaq	128(%rsp), %rsi
	movq	%rdx, %r15
	xorl	%ecx, %ecx
	movq	56(%rsp), %r8                   # 8-byte Reload
	callq	"entries::put_entries"
	movq	84(%rsp), %rax
	cmpb	$1, 80(%rsp)
	sete	%cl
	cmpl	%eax, %ebx
	sete	%dl
	testb	%dl, %cl
	je	.LBB21_17
# %bb.9:                                # %arm.1.i.i.i.i
	shrq	$32, %rax
	cmpq	%rax, %r14
	setne	%al
	cmpq	$3601, %r14                     # imm = 0xE11
	setae	%cl
	orb	%al, %cl
	je	.LBB21_10
.LBB21_17:                              # %arm.2.i.thread4.i
	movl	$7, %eax
.LBB21_37:
	xorl	%ebx, %ebx
.LBB21_38:                              # %"packing::of_cause::<#ebb002963c42623e>.exit.i.i"
	movzbl	%al, %ecx
	shlq	$32, %rcx
	orq	%rbx, %rcx
	movabsq	$4294967296, %rax               # imm = 0x100000000
	addq	%rcx, %rax
.LBB21_39:                              # %"wumbyra_c::wumbyra_span.exit"
	addq	$5080, %rsp                     # imm = 0x13D8
	popq	%rbx
	popq	%r12
	popq	%r13
	popq	%r14
	popq	%r15
	popq	%rbp
	retq
.LBB21_10:                              # %join.3.i4.i.i.i.i
	cmpq	$3, %r14
	ja	.LBB21_15
# %bb.11:                               # %then.4.i.i.i.i.i.i.i
	testq	%r14, %r14
	movq	%r15, %rdx
	movq	112(%rsp), %rsi                 # 8-byte Reload
	je	.LBB21_33
# %bb.12:                               # %then.7.i.i.i.i.i.i.i
	movzbl	(%rsi), %eax
	cmpb	968(%rsp), %al
	jne	.LBB21_17
# %bb.13:                               # %then.7.i.i.i.i.i.i.i
	movq	%r14, %rax
	shrq	%rax
	movzbl	968(%rsp,%rax), %ecx
	cmpb	%cl, (%rsi,%rax)
	jne	.LBB21_17
# %bb.14:                               # %then.7.i.i.i.i.i.i.i
	movzbl	967(%rsp,%r14), %eax
	cmpb	%al, -1(%rsi,%r14)
	je	.LBB21_33
	jmp	.LBB21_17
.LBB21_15:                              # %join.6.i.i.i.i.i.i.i
	cmpq	$8, %r14
	movq	%r15, %rdx
	leaq	(%r13,%r12), %r8
	ja	.LBB21_18
# %bb.16:                               # %join.5.i.i.preheader.i.i.i.i.i.i
	movq	968(%rsp), %xmm0                # xmm0 = mem[0],zero
	movd	964(%rsp,%r14), %xmm1           # xmm1 = mem[0],zero,zero,zero
	punpckldq	%xmm1, %xmm0            # xmm0 = xmm0[0],xmm1[0],xmm0[1],xmm1[1]
	movd	-4(%r8,%r14), %xmm1             # xmm1 = mem[0],zero,zero,zero
	movd	(%r8), %xmm2                    # xmm2 = mem[0],zero,zero,zero
	punpckldq	%xmm1, %xmm2            # xmm2 = xmm2[0],xmm1[0],xmm2[1],xmm1[1]
	movq	%xmm2, %rax
	movq	%xmm0, %rcx
	cmpq	%rcx, %rax
	jne	.LBB21_17
	jmp	.LBB21_33
.LBB21_18:                              # %join.12.i.i.i.i.i.i.i
	cmpq	$32, %r14
	ja	.LBB21_20
# %bb.19:                               # %join.5.i.i17.preheader.i.i.i.i.i.i
	leaq	-8(%r14), %rax
	cmpq	$8, %rax
	movl	$8, %ecx
	cmovbq	%rax, %rcx
	cmpq	$16, %rax
	movl	$16, %esi
	cmovbq	%rax, %rsi
	movq	(%r8,%rcx), %xmm0               # xmm0 = mem[0],zero
	movq	(%r8), %xmm1                    # xmm1 = mem[0],zero
	punpcklqdq	%xmm0, %xmm1            # xmm1 = xmm1[0],xmm0[0]
	movq	(%r8,%rsi), %xmm0               # xmm0 = mem[0],zero
	movq	-8(%r8,%r14), %xmm2             # xmm2 = mem[0],zero
	punpcklqdq	%xmm2, %xmm0            # xmm0 = xmm0[0],xmm2[0]
	movq	968(%rsp,%rcx), %xmm2           # xmm2 = mem[0],zero
	movq	968(%rsp), %xmm3                # xmm3 = mem[0],zero
	punpcklqdq	%xmm2, %xmm3            # xmm3 = xmm3[0],xmm2[0]
	pcmpeqb	%xmm1, %xmm3
	movq	968(%rsp,%rsi), %xmm1           # xmm1 = mem[0],zero
	movq	960(%rsp,%r14), %xmm2           # xmm2 = mem[0],zero
	punpcklqdq	%xmm2, %xmm1            # xmm1 = xmm1[0],xmm2[0]
	pcmpeqb	%xmm0, %xmm1
	pand	%xmm3, %xmm1
	pmovmskb	%xmm1, %eax
	jmp	.LBB21_32
.LBB21_20:                              # %join.15.i.i.i.i.i.i.i
	cmpq	$65, %r14
	jae	.LBB21_21
# %bb.28:                               # %join.5.i.i31.preheader.i.i.i.i.i.i
	movdqu	(%r8), %xmm0
	movdqu	16(%r8), %xmm1
	movdqu	968(%rsp), %xmm2
	pcmpeqb	%xmm0, %xmm2
	movdqu	984(%rsp), %xmm0
	pcmpeqb	%xmm1, %xmm0
	movdqu	-32(%r8,%r14), %xmm1
	movdqu	-16(%r8,%r14), %xmm3
	movdqu	936(%rsp,%r14), %xmm4
	pcmpeqb	%xmm1, %xmm4
	pand	%xmm2, %xmm4
	movdqu	952(%rsp,%r14), %xmm1
	pcmpeqb	%xmm3, %xmm1
	pand	%xmm0, %xmm1
	pand	%xmm4, %xmm1
	pmovmskb	%xmm1, %eax
	jmp	.LBB21_32
.LBB21_21:                              # %vector.ph.preheader
	leaq	(%r12,%r13), %rdi
	addq	$48, %rdi
	xorl	%eax, %eax
	movq	%r14, %rcx
.LBB21_22:                              # %vector.ph
                                        # =>This Inner Loop Header: Depth=1
	movdqu	-48(%rdi,%rax), %xmm0
	movdqu	-32(%rdi,%rax), %xmm1
	movdqu	-16(%rdi,%rax), %xmm2
	movdqu	(%rdi,%rax), %xmm3
	movdqu	968(%rsp,%rax), %xmm4
	pcmpeqb	%xmm0, %xmm4
	movdqu	984(%rsp,%rax), %xmm0
	pcmpeqb	%xmm1, %xmm0
	movdqu	1000(%rsp,%rax), %xmm1
	pcmpeqb	%xmm2, %xmm1
	pand	%xmm4, %xmm1
	movdqu	1016(%rsp,%rax), %xmm2
	pcmpeqb	%xmm3, %xmm2
	pand	%xmm0, %xmm2
	pand	%xmm1, %xmm2
	pmovmskb	%xmm2, %esi
	cmpl	$65535, %esi                    # imm = 0xFFFF
	jne	.LBB21_24
# %bb.23:                               # %join.5.i.i.i.i.i.i.i
                                        #   in Loop: Header=BB21_22 Depth=1
	addq	$64, %rax
	addq	$-64, %rcx
	cmpq	$63, %rcx
	ja	.LBB21_22
.LBB21_24:                              # %"core::slice::scan::skip_groups::<#953750c03e87c3e2>.exit.i.i.i.i.i.i"
	cmpq	$32, %rcx
	jb	.LBB21_31
# %bb.25:                               # %join.5.i.preheader.i72.i.i.i.i.i.i.preheader
	movq	%r14, %rcx
	subq	%rax, %rcx
.LBB21_26:                              # %join.5.i.preheader.i72.i.i.i.i.i.i
                                        # =>This Inner Loop Header: Depth=1
	movdqu	(%r8,%rax), %xmm0
	movdqu	16(%r8,%rax), %xmm1
	movdqu	968(%rsp,%rax), %xmm2
	pcmpeqb	%xmm0, %xmm2
	movdqu	984(%rsp,%rax), %xmm0
	pcmpeqb	%xmm1, %xmm0
	pand	%xmm2, %xmm0
	pmovmskb	%xmm0, %esi
	xorl	$65535, %esi                    # imm = 0xFFFF
	jne	.LBB21_30
# %bb.27:                               # %join.5.i87.i.i.i.i.i.i
                                        #   in Loop: Header=BB21_26 Depth=1
	addq	$32, %rax
	addq	$-32, %rcx
	cmpq	$32, %rcx
	jae	.LBB21_26
	jmp	.LBB21_31
.LBB21_30:                              # %"core::slice::scan::skip_groups::<#953750c03e87c3e2>.exit92.i.i.i.i.i.i"
	cmpq	$32, %rcx
	jae	.LBB21_17
.LBB21_31:                              # %"codes::spells.exit.i.i.i"
	movdqu	-32(%r8,%r14), %xmm0
	movdqu	-16(%r8,%r14), %xmm1
	movdqu	936(%rsp,%r14), %xmm2
	pcmpeqb	%xmm0, %xmm2
	movdqu	952(%rsp,%r14), %xmm0
	pcmpeqb	%xmm1, %xmm0
	pand	%xmm2, %xmm0
	pmovmskb	%xmm0, %eax
.LBB21_32:                              # %"codes::spells.exit.i.i.i"
	xorl	$65535, %eax                    # imm = 0xFFFF
	jne	.LBB21_17
.LBB21_33:                              # %"spans::span.exit.i.i"
	movl	5152(%rsp), %eax
	movl	5144(%rsp), %ecx
	movl	%eax, 8(%rsp)
	movl	%ecx, (%rsp)
	leaq	96(%rsp), %rdi
	leaq	128(%rsp), %rsi
	xorl	%ebx, %ebx
	movq	56(%rsp), %rcx                  # 8-byte Reload
	xorl	%r8d, %r8d
	xorl	%r9d, %r9d
	callq	"spans::find::find"
	cmpb	$0, 96(%rsp)
	je	.LBB21_34
# %bb.35:                               # %arm.1.i.i
	movq	100(%rsp), %rax
	movq	%rax, %rcx
	shrq	$32, %rcx
	shll	$16, %eax
	orq	%rcx, %rax
	jmp	.LBB21_39
.LBB21_34:
	movl	$9, %eax
	jmp	.LBB21_38
.Lfunc_end21:
	.size	wumbyra_span, .Lfunc_end21-wumbyra_span
                                        # -- End function
	.section	.text.wumbyra_term_totals,"ax",@progbits
	.globl	wumbyra_term_totals             # -- Begin function wumbyra_term_totals
	.p2align	4
	.type	wumbyra_term_totals,@function
wumbyra_term_totals:                    # @wumbyra_term_totals
# %bb.0:                                # %start
	pushq	%rbp
	pushq	%r15
	pushq	%r14
	pushq	%r13
	pushq	%r12
	pushq	%rbx
	subq	$3072, %rsp                     # imm = 0xC00
	movq	$0, (%rsp)
	subq	$3072, %rsp                     # imm = 0xC00
	movq	$0, (%rsp)
	subq	$3072, %rsp                     # imm = 0xC00
	movq	$0, (%rsp)
	subq	$1576, %rsp                     # imm = 0x628
	movl	%r9d, 20(%rsp)                  # 4-byte Spill
	movl	%r8d, 24(%rsp)                  # 4-byte Spill
	movq	%rcx, %r13
	movq	%rsi, %r14
	xorl	%r15d, %r15d
	testq	%rdi, %rdi
	sete	%r15b
	shll	$12, %r15d
	addq	%rdi, %r15
	xorl	%ebp, %ebp
	testq	%rdx, %rdx
	sete	%bpl
	shll	$12, %ebp
	addq	%rdx, %rbp
	xorl	%eax, %eax
	cmpq	$0, 10864(%rsp)
	sete	%al
	shll	$12, %eax
	movq	%rax, 56(%rsp)                  # 8-byte Spill
	leaq	872(%rsp), %rdi
	movl	$808, %edx                      # imm = 0x328
	xorl	%esi, %esi
	callq	memset@PLT
	leaq	1680(%rsp), %rdi
	movl	$792, %edx                      # imm = 0x318
	xorl	%esi, %esi
	callq	memset@PLT
	leaq	3592(%rsp), %rbx
	movl	$336, %edx                      # imm = 0x150
	movq	%rbx, %rdi
	xorl	%esi, %esi
	callq	memset@PLT
	movq	%rbx, %rdi
	movq	%r15, %rsi
	movq	%r14, %rdx
	callq	"loading::load"
	cmpb	$0, 3592(%rsp)
	je	.LBB22_2
# %bb.1:                                # %arm.2.i.i.i
	leaq	7192(%rsp), %rdi
	movl	$328, %edx                      # imm = 0x148
	xorl	%esi, %esi
	callq	memset@PLT
	jmp	.LBB22_3
.LBB22_2:                               # %arm.1.i.i.i
	leaq	3600(%rsp), %rsi
	leaq	7192(%rsp), %rdi
	movl	$328, %edx                      # imm = 0x148
	callq	memcpy@PLT
.LBB22_3:                               # %"loading::pattern_of.exit.i.i"
	leaq	3264(%rsp), %r15
	leaq	7192(%rsp), %r12
	movl	$328, %edx                      # imm = 0x148
	movq	%r15, %rdi
	movq	%r12, %rsi
	callq	memcpy@PLT
	xorps	%xmm0, %xmm0
	movaps	%xmm0, 32(%rsp)
	leaq	3592(%rsp), %r14
	xorl	%ebx, %ebx
	movl	$3600, %edx                     # imm = 0xE10
	movq	%r14, %rdi
	xorl	%esi, %esi
	callq	memset@PLT
	movl	$3600, %edx                     # imm = 0xE10
	movq	%r12, %rdi
	xorl	%esi, %esi
	callq	memset@PLT
	movq	%r12, (%rsp)
	leaq	32(%rsp), %rdi
	movq	%r15, %rsi
	movq	%rbp, %rdx
	movq	%r13, %rcx
	movl	24(%rsp), %r8d                  # 4-byte Reload
	movq	%r14, %r9
	callq	"entries::gather"
	movq	40(%rsp), %r13
	cmpb	$0, 32(%rsp)
	je	.LBB22_5
# %bb.4:                                # %arm.2.i16.i.i
	movzbl	36(%rsp), %ebp
	leaq	1680(%rsp), %rdi
	movl	$792, %edx                      # imm = 0x318
	xorl	%esi, %esi
	callq	memset@PLT
	movl	$1, %r15d
	movq	10864(%rsp), %r12
	jmp	.LBB22_56
.LBB22_5:                               # %arm.1.i17.i.i
	movl	20(%rsp), %ebp                  # 4-byte Reload
	movl	%ebp, %eax
	movl	$3518437209, %ecx               # imm = 0xD1B71759
	imulq	%rax, %rcx
	shrq	$45, %rcx
	imulq	$1374389535, %rax, %rax         # imm = 0x51EB851F
	shrq	$37, %rax
	imulq	$42949673, %rax, %rdx           # imm = 0x28F5C29
	shrq	$32, %rdx
	imull	$100, %edx, %edx
	imull	$100, %eax, %esi
	subl	%edx, %eax
	subl	%esi, %ebp
	cmpq	$1, %r13
	movq	%r13, %rdx
	adcq	$-1, %rdx
	movl	%ecx, %esi
	movl	%eax, %r8d
	movl	%ebp, %edi
	cmpq	$2, %r13
	movq	10864(%rsp), %r12
	jae	.LBB22_11
.LBB22_6:                               # %"terms::days::last_date.exit.i.i.i.i"
	leal	-2000(%rsi), %edx
	cmpl	$99, %edx
	ja	.LBB22_41
# %bb.7:                                # %"terms::days::last_date.exit.i.i.i.i"
	leal	-1(%r8), %edx
	cmpl	$11, %edx
	ja	.LBB22_41
# %bb.8:                                # %then.6.i.i.i.i.i.i
	movl	%r8d, %edx
	leaq	.Lstatic.0(%rip), %r15
	movl	-4(%r15,%rdx,4), %r9d
	xorl	%r10d, %r10d
	cmpl	$2, %r8d
	jne	.LBB22_36
# %bb.9:                                # %then.1.i.i.i.i.i.i.i
	imull	$23593, %esi, %edx              # imm = 0x5C29
	rorw	$2, %dx
	movzwl	%dx, %edx
	cmpl	$655, %edx                      # imm = 0x28F
	jbe	.LBB22_34
# %bb.10:                               # %else.2.i.i.i.i.i.i.i.i
	andl	$3, %esi
	jmp	.LBB22_35
.LBB22_11:                              # %join.5.i.i.i.i.i.preheader
	xorl	%r9d, %r9d
	movl	%ebp, %edi
	movl	%eax, %r8d
	movl	%ecx, %esi
	jmp	.LBB22_14
.LBB22_12:                              #   in Loop: Header=BB22_14 Depth=1
	xorl	%edi, %edi
	.p2align	4
.LBB22_13:                              # %"terms::days::after_letter.exit.i.i.i.i.i"
                                        #   in Loop: Header=BB22_14 Depth=1
	incq	%r9
	cmpq	%rdx, %r9
	jae	.LBB22_6
.LBB22_14:                              # %join.5.i.i.i.i.i
                                        # =>This Inner Loop Header: Depth=1
	cmpb	$68, 3592(%rsp,%r9)
	jne	.LBB22_13
# %bb.15:                               # %join.5.i.i.i.i.i
                                        #   in Loop: Header=BB22_14 Depth=1
	leal	-2000(%rsi), %r10d
	cmpl	$99, %r10d
	ja	.LBB22_13
# %bb.16:                               # %then.1.i.i.i.i.i.i.i.i
                                        #   in Loop: Header=BB22_14 Depth=1
	leal	-1(%r8), %r10d
	movl	$0, %r11d
	cmpl	$11, %r10d
	ja	.LBB22_23
# %bb.17:                               # %then.6.i.i.i.i.i.i.i.i.i
                                        #   in Loop: Header=BB22_14 Depth=1
	xorl	%r11d, %r11d
	cmpl	$2, %r8d
	jne	.LBB22_22
# %bb.18:                               # %then.1.i.i.i.i.i.i.i.i.i.i
                                        #   in Loop: Header=BB22_14 Depth=1
	imull	$23593, %esi, %r11d             # imm = 0x5C29
	rorw	$2, %r11w
	movzwl	%r11w, %r11d
	cmpl	$655, %r11d                     # imm = 0x28F
	jbe	.LBB22_20
# %bb.19:                               # %else.2.i.i.i.i.i.i.i.i.i.i.i
                                        #   in Loop: Header=BB22_14 Depth=1
	movl	%esi, %ebx
	andl	$3, %ebx
	jmp	.LBB22_21
.LBB22_20:                              # %then.1.i.i.i.i.i.i.i.i.i.i.i
                                        #   in Loop: Header=BB22_14 Depth=1
	movzwl	%si, %r11d
	shrl	$4, %r11d
	imull	$2622, %r11d, %r11d             # imm = 0xA3E
	shrl	$16, %r11d
	imull	$400, %r11d, %r11d              # imm = 0x190
	movl	%esi, %ebx
	subl	%r11d, %ebx
	movzwl	%bx, %ebx
.LBB22_21:                              # %"calendar::is_leap.exit.i.i.i.i.i.i.i.i.i.i"
                                        #   in Loop: Header=BB22_14 Depth=1
	xorl	%r11d, %r11d
	testl	%ebx, %ebx
	sete	%r11b
.LBB22_22:                              # %"calendar::leap_day.exit.i.i.i.i.i.i.i.i.i"
                                        #   in Loop: Header=BB22_14 Depth=1
	movl	%r8d, %ebx
	leaq	.Lstatic.0(%rip), %r15
	addl	-4(%r15,%rbx,4), %r11d
.LBB22_23:                              # %"calendar::month_length.exit.i.i.i.i.i.i.i.i"
                                        #   in Loop: Header=BB22_14 Depth=1
	testl	%edi, %edi
	je	.LBB22_12
# %bb.24:                               # %"calendar::is_date.exit.i.i.i.i.i.i.i"
                                        #   in Loop: Header=BB22_14 Depth=1
	cmpl	%r11d, %edi
	ja	.LBB22_13
# %bb.25:                               # %else.2.i.i.i.i.i.i.i
                                        #   in Loop: Header=BB22_14 Depth=1
	cmpl	$11, %r10d
	ja	.LBB22_33
# %bb.26:                               # %then.6.i.i.i.i.i.i.i.i
                                        #   in Loop: Header=BB22_14 Depth=1
	xorl	%r10d, %r10d
	cmpl	$2, %r8d
	jne	.LBB22_31
# %bb.27:                               # %then.1.i.i.i.i.i.i.i.i.i
                                        #   in Loop: Header=BB22_14 Depth=1
	imull	$23593, %esi, %r10d             # imm = 0x5C29
	rorw	$2, %r10w
	movzwl	%r10w, %r10d
	cmpl	$655, %r10d                     # imm = 0x28F
	jbe	.LBB22_29
# %bb.28:                               # %else.2.i.i.i.i.i.i.i.i.i.i
                                        #   in Loop: Header=BB22_14 Depth=1
	movl	%esi, %r11d
	andl	$3, %r11d
	jmp	.LBB22_30
.LBB22_29:                              # %then.1.i.i.i6.i.i.i.i.i.i.i
                                        #   in Loop: Header=BB22_14 Depth=1
	movzwl	%si, %r10d
	shrl	$4, %r10d
	imull	$2622, %r10d, %r10d             # imm = 0xA3E
	shrl	$16, %r10d
	imull	$400, %r10d, %r10d              # imm = 0x190
	movl	%esi, %r11d
	subl	%r10d, %r11d
	movzwl	%r11w, %r11d
.LBB22_30:                              # %"calendar::is_leap.exit.i.i.i.i.i.i.i.i.i"
                                        #   in Loop: Header=BB22_14 Depth=1
	xorl	%r10d, %r10d
	testl	%r11d, %r11d
	sete	%r10b
.LBB22_31:                              # %"calendar::month_length.exit.i.i.i.i.i.i.i"
                                        #   in Loop: Header=BB22_14 Depth=1
	movl	%r8d, %r11d
	leaq	.Lstatic.0(%rip), %rbx
	addl	-4(%rbx,%r11,4), %r10d
	cmpl	%r10d, %edi
	jae	.LBB22_33
# %bb.32:                               # %then.4.i.i.i.i.i.i.i
                                        #   in Loop: Header=BB22_14 Depth=1
	incl	%edi
	jmp	.LBB22_13
.LBB22_33:                              # %else.5.i.i.i.i.i.i.i
                                        #   in Loop: Header=BB22_14 Depth=1
	cmpl	$12, %r8d
	sbbl	$-1, %esi
	cmpl	$12, %r8d
	leal	1(%r8), %r8d
	movl	$1, %edi
	cmovael	%edi, %r8d
                                        # kill: def $r8d killed $r8d def $r8
	jmp	.LBB22_13
.LBB22_34:                              # %then.1.i.i.i.i25.i.i.i.i
	movzwl	%si, %edx
	shrl	$4, %edx
	imull	$2622, %edx, %edx               # imm = 0xA3E
	shrl	$16, %edx
	imull	$400, %edx, %edx                # imm = 0x190
	subl	%edx, %esi
	movzwl	%si, %esi
.LBB22_35:                              # %"calendar::is_leap.exit.i.i.i.i.i.i.i"
	xorl	%r10d, %r10d
	testl	%esi, %esi
	sete	%r10b
.LBB22_36:                              # %"calendar::month_length.exit.i.i.i.i.i"
	addl	%r9d, %r10d
	decl	%edi
	cmpl	%r10d, %edi
	jae	.LBB22_41
# %bb.37:                               # %join.3.i.i.i.i
	movl	%ebp, 20(%rsp)                  # 4-byte Spill
	movl	10848(%rsp), %esi
	imulq	$1374389535, %rsi, %r11         # imm = 0x51EB851F
	shrq	$37, %r11
	imulq	$42949673, %r11, %rdx           # imm = 0x28F5C29
	movl	$3518437209, %edi               # imm = 0xD1B71759
	shrq	$32, %rdx
	movq	%rsi, %r8
	imulq	%rdi, %r8
	shrq	$45, %r8
	imull	$100, %edx, %edx
	movl	%r11d, %r9d
	subl	%edx, %r9d
	leal	-2000(%r8), %edx
	cmpl	$100, %edx
	setb	%dl
	leal	-1(%r9), %r10d
	cmpl	$12, %r10d
	setb	%r10b
	andb	%dl, %r10b
	cmpb	$1, %r10b
	jne	.LBB22_53
# %bb.38:                               # %then.6.i.i.i.i.i.i.i
	movl	10856(%rsp), %r10d
	imulq	$1374389535, %r10, %rbx         # imm = 0x51EB851F
	shrq	$37, %rbx
	imulq	$42949673, %rbx, %rdx           # imm = 0x28F5C29
	shrq	$32, %rdx
	imulq	%r10, %rdi
	imull	$100, %r11d, %r11d
	shrq	$45, %rdi
	imull	$100, %edx, %edx
	subl	%r11d, %esi
	movl	%ebx, %r14d
	subl	%edx, %r14d
	movl	%r9d, %edx
	movl	-4(%r15,%rdx,4), %ebp
	xorl	%r15d, %r15d
	cmpl	$2, %r9d
	jne	.LBB22_44
# %bb.39:                               # %then.1.i.i.i.i35.i.i.i.i
	imull	$23593, %r8d, %edx              # imm = 0x5C29
	rorw	$2, %dx
	movzwl	%dx, %edx
	cmpl	$655, %edx                      # imm = 0x28F
	jbe	.LBB22_42
# %bb.40:                               # %else.2.i.i.i.i.i.i.i.i.i
	movl	%r8d, %r12d
	andl	$3, %r12d
	jmp	.LBB22_43
.LBB22_41:                              # %then.1.i.i.i.i
	leaq	2472(%rsp), %rdi
	xorl	%ebp, %ebp
	movl	$792, %edx                      # imm = 0x318
	xorl	%esi, %esi
	callq	memset@PLT
	movl	$1, %r15d
	movl	$1, %ebx
	jmp	.LBB22_54
.LBB22_42:                              # %then.1.i.i.i.i.i36.i.i.i.i
	movzwl	%r8w, %edx
	shrl	$4, %edx
	imull	$2622, %edx, %edx               # imm = 0xA3E
	shrl	$16, %edx
	imull	$400, %edx, %edx                # imm = 0x190
	movl	%r8d, %r15d
	subl	%edx, %r15d
	movzwl	%r15w, %r12d
.LBB22_43:                              # %"calendar::is_leap.exit.i.i.i.i.i.i.i.i"
	xorl	%r15d, %r15d
	testl	%r12d, %r12d
	sete	%r15b
	movq	10864(%rsp), %r12
.LBB22_44:                              # %"calendar::month_length.exit.i.i.i.i.i.i"
	addl	%ebp, %r15d
	leal	-1(%rsi), %edx
	cmpl	%r15d, %edx
	setb	%dl
	leal	-2000(%rdi), %ebp
	cmpl	$100, %ebp
	setb	%bpl
	leal	-1(%r14), %r15d
	cmpl	$12, %r15d
	setb	%r15b
	andb	%bpl, %r15b
	andb	%dl, %r15b
	cmpb	$1, %r15b
	leaq	.Lstatic.0(%rip), %r10
	movl	10856(%rsp), %r11d
	jne	.LBB22_53
# %bb.45:                               # %then.6.i.i16.i.i.i.i.i
	imull	$100, %ebx, %edx
	subl	%edx, %r11d
	movl	%r14d, %edx
	movl	-4(%r10,%rdx,4), %ebx
	xorl	%ebp, %ebp
	cmpl	$2, %r14d
	jne	.LBB22_50
# %bb.46:                               # %then.1.i.i.i24.i.i.i.i.i
	imull	$23593, %edi, %edx              # imm = 0x5C29
	rorw	$2, %dx
	movzwl	%dx, %edx
	cmpl	$655, %edx                      # imm = 0x28F
	jbe	.LBB22_48
# %bb.47:                               # %else.2.i.i.i.i28.i.i.i.i.i
	movl	%edi, %r15d
	andl	$3, %r15d
	jmp	.LBB22_49
.LBB22_48:                              # %then.1.i.i.i.i33.i.i.i.i.i
	movzwl	%di, %edx
	shrl	$4, %edx
	imull	$2622, %edx, %edx               # imm = 0xA3E
	shrl	$16, %edx
	imull	$400, %edx, %edx                # imm = 0x190
	movl	%edi, %ebp
	subl	%edx, %ebp
	movzwl	%bp, %r15d
.LBB22_49:                              # %"calendar::is_leap.exit.i.i.i30.i.i.i.i.i"
	xorl	%ebp, %ebp
	testl	%r15d, %r15d
	sete	%bpl
.LBB22_50:                              # %"calendar::month_length.exit.i12.i.i.i.i.i"
	addl	%ebx, %ebp
	leal	-1(%r11), %edx
	cmpl	%ebp, %edx
	jae	.LBB22_53
# %bb.51:                               # %then.4.i.i.i.i.i
	cmpl	%edi, %r8d
	jne	.LBB22_82
# %bb.52:                               # %arm.7.i.i.i.i.i.i.i.i
	xorl	%edx, %edx
	cmpl	%r11d, %esi
	setbe	%dl
	xorl	%ebx, %ebx
	cmpl	%r14d, %r9d
	setb	%bl
	cmovel	%edx, %ebx
	testb	%bl, %bl
	jne	.LBB22_83
.LBB22_53:                              # %then.4.i.i.i.i
	leaq	2472(%rsp), %rdi
	xorl	%ebp, %ebp
	movl	$792, %edx                      # imm = 0x318
	xorl	%esi, %esi
	callq	memset@PLT
	movl	$2, %ebx
	movl	$1, %r15d
.LBB22_54:                              # %"terms::total_dates.exit.i.i.i"
	xorl	%r13d, %r13d
.LBB22_55:                              # %"terms::total_dates.exit.i.i.i"
	leaq	1680(%rsp), %rdi
	leaq	2472(%rsp), %rsi
	movl	$792, %edx                      # imm = 0x318
	callq	memcpy@PLT
.LBB22_56:                              # %"terms::term_totals.exit.i.i"
	movq	10872(%rsp), %r14
	addq	56(%rsp), %r12                  # 8-byte Folded Reload
	movl	%r15d, 872(%rsp)
	movl	%ebx, 876(%rsp)
	movl	%ebp, 880(%rsp)
	movl	%r13d, 884(%rsp)
	leaq	888(%rsp), %rdi
	leaq	1680(%rsp), %rsi
	movl	$792, %edx                      # imm = 0x318
	callq	memcpy@PLT
	testl	%r15d, %r15d
	je	.LBB22_64
# %bb.57:                               # %arm.2.i18.i.i
	cmpq	$201, %r14
	movl	$201, %r15d
	cmovbq	%r14, %r15
	testq	%r14, %r14
	je	.LBB22_61
# %bb.58:                               # %loop.5.preheader.i.i.i.i.i
	cmpq	$1, %r15
	je	.LBB22_60
# %bb.59:                               # %join.8.preheader.i.i.i.i.i
	leaq	-4(,%r15,4), %rdx
	movq	%r12, %rdi
	xorl	%esi, %esi
	callq	memset@PLT
.LBB22_60:                              # %after.4.i.i.i.i.i
	movl	$0, -4(%r12,%r15,4)
.LBB22_61:                              # %"packing::no_totals.exit.i.i.i"
	testb	%bl, %bl
	je	.LBB22_67
# %bb.62:                               # %"packing::no_totals.exit.i.i.i"
	movzbl	%bl, %eax
	cmpl	$1, %eax
	jne	.LBB22_69
# %bb.63:
	movl	$11, %eax
	jmp	.LBB22_70
.LBB22_64:                              # %arm.1.i22.i.i
	leaq	876(%rsp), %rsi
	testq	%r14, %r14
	je	.LBB22_73
# %bb.65:                               # %join.5.i.i.i.preheader.peel.i.i.i.i.i
	cmpq	$200, %r14
	jbe	.LBB22_74
.LBB22_66:                              # %else.2.i.i.i.i
	cmpq	$201, %r14
	movl	$201, %edx
	cmovbq	%r14, %rdx
	shll	$2, %edx
	movq	%r12, %rdi
	callq	memcpy@PLT
	xorl	%eax, %eax
	jmp	.LBB22_72
.LBB22_67:                              # %arm.1.i3.i.i.i.i
	movzbl	%bpl, %ecx
	leal	1(%rcx), %eax
	movzbl	%cl, %edx
	xorl	%ecx, %ecx
	movl	$363, %esi                      # imm = 0x16B
	btl	%edx, %esi
	jae	.LBB22_71
# %bb.68:                               # %after.2.i.i.i.i.i.i
	movl	%r13d, %ecx
	jmp	.LBB22_71
.LBB22_69:                              # %arm.3.i.i.i.i.i
	movl	$12, %eax
.LBB22_70:                              # %"packing::of_cause::<#e438ad65a00d0128>.exit.i.i.i"
	xorl	%ecx, %ecx
.LBB22_71:                              # %"packing::of_cause::<#e438ad65a00d0128>.exit.i.i.i"
	shlq	$32, %rax
	orq	%rcx, %rax
.LBB22_72:                              # %"wumbyra_c::wumbyra_term_totals.exit"
	addq	$10792, %rsp                    # imm = 0x2A28
	popq	%rbx
	popq	%r12
	popq	%r13
	popq	%r14
	popq	%r15
	popq	%rbp
	retq
.LBB22_73:
	movl	$201, %eax
	movq	%rsi, %rcx
	testl	%ebx, %ebx
	jne	.LBB22_78
	jmp	.LBB22_75
.LBB22_74:                              # %after.1.i.i.i.peel.i.i.i.arm.3.i.peel.i.i.i_crit_edge.i.i
	movl	$201, %eax
	subq	%r14, %rax
	leaq	(%rsi,%r14,4), %rcx
	movl	876(%rsp,%r14,4), %ebx
	testl	%ebx, %ebx
	jne	.LBB22_78
.LBB22_75:                              # %after.1.i.i.i.i.i.i.i.i.preheader
	movl	$1, %edx
	.p2align	4
.LBB22_76:                              # %after.1.i.i.i.i.i.i.i.i
                                        # =>This Inner Loop Header: Depth=1
	cmpq	%rdx, %rax
	je	.LBB22_66
# %bb.77:                               # %arm.3.i.i.i.i.i.i
                                        #   in Loop: Header=BB22_76 Depth=1
	cmpl	$0, (%rcx,%rdx,4)
	leaq	1(%rdx), %rdx
	je	.LBB22_76
.LBB22_78:                              # %then.1.i.i23.i.i
	cmpq	$201, %r14
	movl	$201, %ebx
	cmovbq	%r14, %rbx
	movabsq	$85899345920, %rax              # imm = 0x1400000000
	testq	%r14, %r14
	je	.LBB22_72
# %bb.79:                               # %loop.5.preheader.i.i.i.i.i.i
	cmpq	$1, %rbx
	je	.LBB22_81
# %bb.80:                               # %join.8.preheader.i.i.i.i.i.i
	leaq	-4(,%rbx,4), %rdx
	movq	%r12, %rdi
	xorl	%esi, %esi
	movq	%rax, %r14
	callq	memset@PLT
	movq	%r14, %rax
.LBB22_81:                              # %after.4.i.i.i.i.i.i
	movl	$0, -4(%r12,%rbx,4)
	jmp	.LBB22_72
.LBB22_82:                              # %"terms::days::is_term.exit.i.i.i.i"
	jae	.LBB22_53
.LBB22_83:                              # %join.6.i.i.i.i
	cmpl	%ecx, %r8d
	jne	.LBB22_87
# %bb.84:                               # %arm.7.i.i.i.i.i.i.i.i.i.i.i
	cmpl	%eax, %r9d
	movl	20(%rsp), %ebp                  # 4-byte Reload
	jne	.LBB22_88
# %bb.85:                               # %arm.7.i3.i.i.i.i.i.i.i.i.i.i
	cmpl	%ebp, %esi
	ja	.LBB22_86
.LBB22_89:                              # %else.5.i.i.i.i.i.i.i.i
	cmpl	%edi, %ecx
	jne	.LBB22_91
# %bb.90:                               # %arm.7.i.i.i29.i.i.i.i.i.i.i.i
	xorl	%edx, %edx
	cmpl	%r11d, %ebp
	setbe	%dl
	xorl	%ebx, %ebx
	cmpl	%r14d, %eax
	setb	%bl
	cmovel	%edx, %ebx
	jmp	.LBB22_92
.LBB22_87:                              # %"core::cmp::Ordering::or_partial_cmp::<#71cf2bb40f8db4f7>.exit.i.i.i.i.i.i.i.i.i.i"
	movl	20(%rsp), %ebp                  # 4-byte Reload
.LBB22_88:                              # %"core::cmp::PartialOrd::le::<#cb83eb2596469fa1>.exit.i.i.i.i.i.i.i.i"
	jb	.LBB22_89
.LBB22_86:
	xorl	%ebx, %ebx
	jmp	.LBB22_92
.LBB22_91:                              # %"core::cmp::Ordering::or_partial_cmp::<#71cf2bb40f8db4f7>.exit.i.i26.i.i.i.i.i.i.i.i"
	setb	%bl
.LBB22_92:                              # %"terms::days::day_of.exit.i.i.i.i.i"
	testq	%r13, %r13
	je	.LBB22_138
# %bb.93:                               # %join.5.i37.i.i.i.i.preheader
	xorl	%r15d, %r15d
	xorl	%r12d, %r12d
	movq	%r11, 24(%rsp)                  # 8-byte Spill
	jmp	.LBB22_96
.LBB22_94:                              #   in Loop: Header=BB22_96 Depth=1
	movl	%r10d, %ebp
.LBB22_95:                              # %join.11.i.i.i.i.i
                                        #   in Loop: Header=BB22_96 Depth=1
	incq	%r12
	cmpq	%r12, %r13
	je	.LBB22_131
.LBB22_96:                              # %join.5.i37.i.i.i.i
                                        # =>This Inner Loop Header: Depth=1
	movl	%ebp, %r10d
	movzbl	3592(%rsp,%r12), %ebp
	testb	$1, %bl
	je	.LBB22_98
# %bb.97:                               # %then.6.i.i.i.i.i
                                        #   in Loop: Header=BB22_96 Depth=1
	movb	%bpl, 3592(%rsp,%r15)
	movzbl	7192(%rsp,%r12), %edx
	movb	%dl, 7192(%rsp,%r15)
	incq	%r15
.LBB22_98:                              # %join.8.i.i.i.i.i
                                        #   in Loop: Header=BB22_96 Depth=1
	cmpb	$68, %bpl
	jne	.LBB22_94
# %bb.99:                               # %then.9.i.i.i.i.i
                                        #   in Loop: Header=BB22_96 Depth=1
	leal	-2000(%rcx), %edx
	cmpl	$99, %edx
	ja	.LBB22_104
# %bb.100:                              # %then.1.i.i.i39.i.i.i.i
                                        #   in Loop: Header=BB22_96 Depth=1
	leal	-1(%rax), %ebx
	movl	$0, %ebp
	cmpl	$11, %ebx
	ja	.LBB22_108
# %bb.101:                              # %then.6.i.i.i.i57.i.i.i.i
                                        #   in Loop: Header=BB22_96 Depth=1
	xorl	%ebp, %ebp
	cmpl	$2, %eax
	jne	.LBB22_107
# %bb.102:                              # %then.1.i.i.i.i.i63.i.i.i.i
                                        #   in Loop: Header=BB22_96 Depth=1
	imull	$23593, %ecx, %edx              # imm = 0x5C29
	rorw	$2, %dx
	movzwl	%dx, %edx
	cmpl	$655, %edx                      # imm = 0x28F
	jbe	.LBB22_105
# %bb.103:                              # %else.2.i.i.i.i.i.i65.i.i.i.i
                                        #   in Loop: Header=BB22_96 Depth=1
	movl	%ecx, %edx
	andl	$3, %edx
	jmp	.LBB22_106
.LBB22_104:                             #   in Loop: Header=BB22_96 Depth=1
	movl	%r10d, %ebp
	jmp	.LBB22_120
.LBB22_105:                             # %then.1.i.i.i.i.i.i70.i.i.i.i
                                        #   in Loop: Header=BB22_96 Depth=1
	movzwl	%cx, %edx
	shrl	$4, %edx
	imull	$2622, %edx, %edx               # imm = 0xA3E
	shrl	$16, %edx
	imull	$400, %edx, %edx                # imm = 0x190
	movl	%ecx, %ebp
	subl	%edx, %ebp
	movzwl	%bp, %edx
.LBB22_106:                             # %"calendar::is_leap.exit.i.i.i.i.i67.i.i.i.i"
                                        #   in Loop: Header=BB22_96 Depth=1
	xorl	%ebp, %ebp
	testl	%edx, %edx
	sete	%bpl
.LBB22_107:                             # %"calendar::leap_day.exit.i.i.i.i.i.i.i.i"
                                        #   in Loop: Header=BB22_96 Depth=1
	movl	%eax, %edx
	leaq	.Lstatic.0(%rip), %r11
	addl	-4(%r11,%rdx,4), %ebp
	movq	24(%rsp), %r11                  # 8-byte Reload
.LBB22_108:                             # %"calendar::month_length.exit.i.i.i41.i.i.i.i"
                                        #   in Loop: Header=BB22_96 Depth=1
	testl	%r10d, %r10d
	je	.LBB22_114
# %bb.109:                              # %"calendar::is_date.exit.i.i.i.i.i.i"
                                        #   in Loop: Header=BB22_96 Depth=1
	cmpl	%ebp, %r10d
	movl	%r10d, %ebp
	ja	.LBB22_120
# %bb.110:                              # %else.2.i.i.i.i.i.i
                                        #   in Loop: Header=BB22_96 Depth=1
	cmpl	$11, %ebx
	ja	.LBB22_119
# %bb.111:                              # %then.6.i.i.i42.i.i.i.i
                                        #   in Loop: Header=BB22_96 Depth=1
	xorl	%ebx, %ebx
	cmpl	$2, %eax
	jne	.LBB22_117
# %bb.112:                              # %then.1.i.i.i.i49.i.i.i.i
                                        #   in Loop: Header=BB22_96 Depth=1
	imull	$23593, %ecx, %edx              # imm = 0x5C29
	rorw	$2, %dx
	movzwl	%dx, %edx
	cmpl	$655, %edx                      # imm = 0x28F
	jbe	.LBB22_115
# %bb.113:                              # %else.2.i.i.i.i.i51.i.i.i.i
                                        #   in Loop: Header=BB22_96 Depth=1
	movl	%ecx, %edx
	andl	$3, %edx
	jmp	.LBB22_116
.LBB22_114:                             #   in Loop: Header=BB22_96 Depth=1
	xorl	%ebp, %ebp
	jmp	.LBB22_120
.LBB22_115:                             # %then.1.i.i.i6.i.i.i.i.i.i
                                        #   in Loop: Header=BB22_96 Depth=1
	movzwl	%cx, %edx
	shrl	$4, %edx
	imull	$2622, %edx, %edx               # imm = 0xA3E
	shrl	$16, %edx
	imull	$400, %edx, %edx                # imm = 0x190
	movl	%ecx, %ebx
	subl	%edx, %ebx
	movzwl	%bx, %edx
.LBB22_116:                             # %"calendar::is_leap.exit.i.i.i.i53.i.i.i.i"
                                        #   in Loop: Header=BB22_96 Depth=1
	xorl	%ebx, %ebx
	testl	%edx, %edx
	sete	%bl
.LBB22_117:                             # %"calendar::month_length.exit.i.i46.i.i.i.i"
                                        #   in Loop: Header=BB22_96 Depth=1
	movl	%eax, %edx
	leaq	.Lstatic.0(%rip), %r10
	addl	-4(%r10,%rdx,4), %ebx
	cmpl	%ebx, %ebp
	jae	.LBB22_119
# %bb.118:                              # %then.4.i.i.i.i.i.i
                                        #   in Loop: Header=BB22_96 Depth=1
	incl	%ebp
	jmp	.LBB22_120
.LBB22_119:                             # %else.5.i.i.i.i.i.i
                                        #   in Loop: Header=BB22_96 Depth=1
	cmpl	$12, %eax
	sbbl	$-1, %ecx
	cmpl	$12, %eax
	leal	1(%rax), %eax
	movl	$1, %ebp
	cmovael	%ebp, %eax
                                        # kill: def $eax killed $eax def $rax
.LBB22_120:                             # %"calendar::next_date.exit.i.i.i.i.i"
                                        #   in Loop: Header=BB22_96 Depth=1
	cmpl	%ecx, %r8d
	jne	.LBB22_124
# %bb.121:                              # %arm.7.i.i.i.i.i.i46.i.i.i.i.i
                                        #   in Loop: Header=BB22_96 Depth=1
	cmpl	%eax, %r9d
	jne	.LBB22_126
# %bb.122:                              # %arm.7.i3.i.i.i.i.i50.i.i.i.i.i
                                        #   in Loop: Header=BB22_96 Depth=1
	cmpl	%ebp, %esi
	jbe	.LBB22_127
# %bb.123:                              #   in Loop: Header=BB22_96 Depth=1
	xorl	%ebx, %ebx
	movl	%r8d, %ecx
	movl	%r9d, %eax
	jmp	.LBB22_95
.LBB22_124:                             # %"core::cmp::Ordering::or_partial_cmp::<#71cf2bb40f8db4f7>.exit.i.i.i.i.i30.i.i.i.i.i"
                                        #   in Loop: Header=BB22_96 Depth=1
	jb	.LBB22_127
# %bb.125:                              #   in Loop: Header=BB22_96 Depth=1
	xorl	%ebx, %ebx
	jmp	.LBB22_95
.LBB22_126:                             # %"core::cmp::PartialOrd::le::<#cb83eb2596469fa1>.exit.i.i.i48.i.i.i.i.i"
                                        #   in Loop: Header=BB22_96 Depth=1
	jae	.LBB22_130
.LBB22_127:                             # %else.5.i.i.i38.i.i.i.i.i
                                        #   in Loop: Header=BB22_96 Depth=1
	cmpl	%edi, %ecx
	jne	.LBB22_129
# %bb.128:                              # %arm.7.i.i.i29.i.i.i42.i.i.i.i.i
                                        #   in Loop: Header=BB22_96 Depth=1
	xorl	%ecx, %ecx
	cmpl	%r11d, %ebp
	setbe	%cl
	xorl	%ebx, %ebx
	cmpl	%r14d, %eax
	setb	%bl
	cmovel	%ecx, %ebx
	movl	%edi, %ecx
	jmp	.LBB22_95
.LBB22_129:                             # %"core::cmp::Ordering::or_partial_cmp::<#71cf2bb40f8db4f7>.exit.i.i26.i.i.i40.i.i.i.i.i"
                                        #   in Loop: Header=BB22_96 Depth=1
	setb	%bl
	jmp	.LBB22_95
.LBB22_130:                             #   in Loop: Header=BB22_96 Depth=1
	xorl	%ebx, %ebx
	movl	%r8d, %ecx
	jmp	.LBB22_95
.LBB22_131:                             # %"terms::selection::select_term.exit.i.i.i.i"
	leaq	68(%rsp), %rdi
	xorl	%r13d, %r13d
	movl	$804, %edx                      # imm = 0x324
	xorl	%esi, %esi
	callq	memset@PLT
	movl	$0, %ebp
	movl	$0, %ebx
	testq	%r15, %r15
	movq	10864(%rsp), %r12
	je	.LBB22_139
# %bb.132:                              # %arm.5.i.i.i.i.i.preheader
	movq	%r15, %rax
	testb	$1, %r15b
	leaq	3592(%rsp), %r14
	leaq	7192(%rsp), %r8
	je	.LBB22_134
# %bb.133:                              # %arm.5.i.i.i.i.i.prol
	leaq	-1(%r15), %rax
	leaq	3593(%rsp), %r14
	leaq	7193(%rsp), %r8
	movzbl	3592(%rsp), %ecx
	movzbl	7192(%rsp), %edx
	addb	$-48, %cl
	xorl	%esi, %esi
	cmpb	$10, %cl
	movzbl	%cl, %ecx
	cmovael	%esi, %ecx
	movzbl	%cl, %ecx
	addl	%ecx, 68(%rsp,%rdx,4)
.LBB22_134:                             # %arm.5.i.i.i.i.i.prol.loopexit
	cmpq	$1, %r15
	je	.LBB22_137
# %bb.135:                              # %arm.5.i.i.i.i.i.preheader2
	xorl	%ecx, %ecx
	xorl	%edx, %edx
.LBB22_136:                             # %arm.5.i.i.i.i.i
                                        # =>This Inner Loop Header: Depth=1
	movzbl	(%r14,%rdx), %esi
	movzbl	(%r8,%rdx), %edi
	addb	$-48, %sil
	cmpb	$10, %sil
	movzbl	%sil, %esi
	cmovael	%ecx, %esi
	movzbl	%sil, %esi
	addl	%esi, 68(%rsp,%rdi,4)
	movzbl	1(%r14,%rdx), %esi
	movzbl	1(%r8,%rdx), %edi
	addb	$-48, %sil
	cmpb	$10, %sil
	movzbl	%sil, %esi
	cmovael	%ecx, %esi
	movzbl	%sil, %esi
	addl	%esi, 68(%rsp,%rdi,4)
	addq	$2, %rdx
	cmpq	%rdx, %rax
	jne	.LBB22_136
.LBB22_137:                             # %"totals::add_up.exit.loopexit.i.i.i.i"
	movl	68(%rsp), %ebx
	movl	72(%rsp), %ebp
	movl	76(%rsp), %r13d
	jmp	.LBB22_139
.LBB22_138:                             # %"terms::selection::select_term.exit.thread.i.i.i.i"
	leaq	68(%rsp), %rdi
	xorl	%r13d, %r13d
	movl	$804, %edx                      # imm = 0x324
	xorl	%esi, %esi
	callq	memset@PLT
	xorl	%ebp, %ebp
	xorl	%ebx, %ebx
.LBB22_139:                             # %"totals::add_up.exit.i.i.i.i"
	leaq	80(%rsp), %rsi
	leaq	2472(%rsp), %rdi
	movl	$792, %edx                      # imm = 0x318
	callq	memcpy@PLT
	xorl	%r15d, %r15d
	jmp	.LBB22_55
.Lfunc_end22:
	.size	wumbyra_term_totals, .Lfunc_end22-wumbyra_term_totals
                                        # -- End function
	.section	.text.wumbyra_total,"ax",@progbits
	.globl	wumbyra_total                   # -- Begin function wumbyra_total
	.p2align	4
	.type	wumbyra_total,@function
wumbyra_total:                          # @wumbyra_total
# %bb.0:                                # %start
	pushq	%rbp
	pushq	%r15
	pushq	%r14
	pushq	%r13
	pushq	%r12
	pushq	%rbx
	subq	$3072, %rsp                     # imm = 0xC00
	movq	$0, (%rsp)
	subq	$3072, %rsp                     # imm = 0xC00
	movq	$0, (%rsp)
	subq	$3072, %rsp                     # imm = 0xC00
	movq	$0, (%rsp)
	subq	$776, %rsp                      # imm = 0x308
	movl	%r9d, 12(%rsp)                  # 4-byte Spill
	movl	%r8d, %ebp
	movq	%rcx, %r15
	movq	%rsi, %r14
	xorl	%r12d, %r12d
	testq	%rdi, %rdi
	sete	%r12b
	shll	$12, %r12d
	addq	%rdi, %r12
	xorl	%r13d, %r13d
	testq	%rdx, %rdx
	sete	%r13b
	shll	$12, %r13d
	addq	%rdx, %r13
	leaq	1192(%rsp), %rdi
	movl	$804, %edx                      # imm = 0x324
	xorl	%esi, %esi
	callq	memset@PLT
	leaq	1996(%rsp), %rdi
	movl	$796, %edx                      # imm = 0x31C
	xorl	%esi, %esi
	callq	memset@PLT
	leaq	2792(%rsp), %rbx
	movl	$336, %edx                      # imm = 0x150
	movq	%rbx, %rdi
	xorl	%esi, %esi
	callq	memset@PLT
	movq	%rbx, %rdi
	movq	%r12, %rsi
	movq	%r14, %rdx
	callq	"loading::load"
	cmpb	$0, 2792(%rsp)
	je	.LBB23_1
# %bb.2:                                # %arm.2.i.i.i
	leaq	56(%rsp), %rdi
	movl	$328, %edx                      # imm = 0x148
	xorl	%esi, %esi
	callq	memset@PLT
	jmp	.LBB23_3
.LBB23_1:                               # %arm.1.i.i.i
	leaq	2800(%rsp), %rsi
	leaq	56(%rsp), %rdi
	movl	$328, %edx                      # imm = 0x148
	callq	memcpy@PLT
.LBB23_3:                               # %"loading::pattern_of.exit.i.i"
	xorps	%xmm0, %xmm0
	movaps	%xmm0, 16(%rsp)
	leaq	2792(%rsp), %r14
	movl	$3600, %edx                     # imm = 0xE10
	movq	%r14, %rdi
	xorl	%esi, %esi
	callq	memset@PLT
	leaq	6392(%rsp), %r12
	movl	$3600, %edx                     # imm = 0xE10
	movq	%r12, %rdi
	xorl	%esi, %esi
	callq	memset@PLT
	movq	%r12, (%rsp)
	leaq	16(%rsp), %rdi
	leaq	56(%rsp), %rsi
	movq	%r13, %rdx
	movq	%r15, %rcx
	movl	%ebp, %r8d
	movq	%r14, %r9
	callq	"entries::gather"
	cmpb	$0, 16(%rsp)
	je	.LBB23_4
# %bb.14:                               # %arm.2.i.i
	movzbl	20(%rsp), %ecx
	shlq	$32, %rcx
	movabsq	$4294967296, %rax               # imm = 0x100000000
	addq	%rcx, %rax
	jmp	.LBB23_15
.LBB23_4:                               # %arm.1.i5.i.i
	xorps	%xmm0, %xmm0
	movaps	%xmm0, 32(%rsp)                 # 16-byte Spill
	movq	24(%rsp), %rbx
	leaq	384(%rsp), %rdi
	movl	$804, %edx                      # imm = 0x324
	xorl	%esi, %esi
	callq	memset@PLT
	testq	%rbx, %rbx
	je	.LBB23_11
# %bb.5:                                # %arm.5.i.i.i.i.preheader
	movq	%rbx, %rax
	testb	$1, %bl
	je	.LBB23_7
# %bb.6:                                # %arm.5.i.i.i.i.prol
	leaq	-1(%rbx), %rax
	leaq	2793(%rsp), %r14
	leaq	6393(%rsp), %r12
	movzbl	2792(%rsp), %ecx
	movzbl	6392(%rsp), %edx
	addb	$-48, %cl
	xorl	%esi, %esi
	cmpb	$10, %cl
	movzbl	%cl, %ecx
	cmovael	%esi, %ecx
	movzbl	%cl, %ecx
	addl	%ecx, 384(%rsp,%rdx,4)
.LBB23_7:                               # %arm.5.i.i.i.i.prol.loopexit
	cmpq	$1, %rbx
	je	.LBB23_10
# %bb.8:                                # %arm.5.i.i.i.i.preheader1
	xorl	%ecx, %ecx
	xorl	%edx, %edx
	.p2align	4
.LBB23_9:                               # %arm.5.i.i.i.i
                                        # =>This Inner Loop Header: Depth=1
	movzbl	(%r14,%rdx), %esi
	movzbl	(%r12,%rdx), %edi
	addb	$-48, %sil
	cmpb	$10, %sil
	movzbl	%sil, %esi
	cmovael	%ecx, %esi
	movzbl	%sil, %esi
	addl	%esi, 384(%rsp,%rdi,4)
	movzbl	1(%r14,%rdx), %esi
	movzbl	1(%r12,%rdx), %edi
	addb	$-48, %sil
	cmpb	$10, %sil
	movzbl	%sil, %esi
	cmovael	%ecx, %esi
	movzbl	%sil, %esi
	addl	%esi, 384(%rsp,%rdi,4)
	addq	$2, %rdx
	cmpq	%rdx, %rax
	jne	.LBB23_9
.LBB23_10:                              # %"totals::add_up.exit.loopexit.i.i.i"
	movsd	384(%rsp), %xmm0                # xmm0 = mem[0],zero
	movaps	%xmm0, 32(%rsp)                 # 16-byte Spill
.LBB23_11:                              # %arm.1.i.i
	leaq	392(%rsp), %rsi
	leaq	1996(%rsp), %rbx
	movl	$796, %edx                      # imm = 0x31C
	movq	%rbx, %rdi
	callq	memcpy@PLT
	movaps	32(%rsp), %xmm0                 # 16-byte Reload
	movlps	%xmm0, 1192(%rsp)
	leaq	1200(%rsp), %rdi
	movl	$796, %edx                      # imm = 0x31C
	movq	%rbx, %rsi
	callq	memcpy@PLT
	movl	12(%rsp), %eax                  # 4-byte Reload
	cmpl	$200, %eax
	ja	.LBB23_12
# %bb.13:                               # %arm.1.i.i.i.i
	movl	%eax, %eax
	movl	1192(%rsp,%rax,4), %eax
	jmp	.LBB23_15
.LBB23_12:
	xorl	%eax, %eax
.LBB23_15:                              # %"wumbyra_c::wumbyra_total.exit"
	addq	$9992, %rsp                     # imm = 0x2708
	popq	%rbx
	popq	%r12
	popq	%r13
	popq	%r14
	popq	%r15
	popq	%rbp
	retq
.Lfunc_end23:
	.size	wumbyra_total, .Lfunc_end23-wumbyra_total
                                        # -- End function
	.section	.text.wumbyra_totals,"ax",@progbits
	.globl	wumbyra_totals                  # -- Begin function wumbyra_totals
	.p2align	4
	.type	wumbyra_totals,@function
wumbyra_totals:                         # @wumbyra_totals
# %bb.0:                                # %start
	pushq	%rbp
	pushq	%r15
	pushq	%r14
	pushq	%r13
	pushq	%r12
	pushq	%rbx
	subq	$3072, %rsp                     # imm = 0xC00
	movq	$0, (%rsp)
	subq	$3072, %rsp                     # imm = 0xC00
	movq	$0, (%rsp)
	subq	$3072, %rsp                     # imm = 0xC00
	movq	$0, (%rsp)
	subq	$776, %rsp                      # imm = 0x308
	movl	%r8d, 16(%rsp)                  # 4-byte Spill
	movq	%rcx, %r14
	movq	%rsi, %r15
	xorl	%r12d, %r12d
	testq	%rdi, %rdi
	sete	%r12b
	shll	$12, %r12d
	addq	%rdi, %r12
	xorl	%r13d, %r13d
	testq	%rdx, %rdx
	sete	%r13b
	shll	$12, %r13d
	addq	%rdx, %r13
	xorl	%ebx, %ebx
	movq	%r9, 8(%rsp)                    # 8-byte Spill
	testq	%r9, %r9
	sete	%bl
	shll	$12, %ebx
	leaq	1996(%rsp), %rdi
	movl	$796, %edx                      # imm = 0x31C
	xorl	%esi, %esi
	callq	memset@PLT
	leaq	1188(%rsp), %rdi
	movl	$808, %edx                      # imm = 0x328
	xorl	%esi, %esi
	callq	memset@PLT
	leaq	2792(%rsp), %rbp
	movl	$336, %edx                      # imm = 0x150
	movq	%rbp, %rdi
	xorl	%esi, %esi
	callq	memset@PLT
	movq	%rbp, %rdi
	movq	%r12, %rsi
	movq	%r15, %rdx
	callq	"loading::load"
	cmpb	$0, 2792(%rsp)
	je	.LBB24_1
# %bb.2:                                # %arm.2.i.i.i
	leaq	56(%rsp), %rdi
	movl	$328, %edx                      # imm = 0x148
	xorl	%esi, %esi
	callq	memset@PLT
	jmp	.LBB24_3
.LBB24_1:                               # %arm.1.i.i.i
	leaq	2800(%rsp), %rsi
	leaq	56(%rsp), %rdi
	movl	$328, %edx                      # imm = 0x148
	callq	memcpy@PLT
.LBB24_3:                               # %"loading::pattern_of.exit.i.i"
	movq	10048(%rsp), %rbp
	addq	%rbx, 8(%rsp)                   # 8-byte Folded Spill
	pxor	%xmm0, %xmm0
	movdqa	%xmm0, 32(%rsp)
	leaq	2792(%rsp), %r15
	movl	$3600, %edx                     # imm = 0xE10
	movq	%r15, %rdi
	xorl	%esi, %esi
	callq	memset@PLT
	leaq	6392(%rsp), %r12
	movl	$3600, %edx                     # imm = 0xE10
	movq	%r12, %rdi
	xorl	%esi, %esi
	callq	memset@PLT
	movq	%r12, (%rsp)
	leaq	32(%rsp), %rdi
	leaq	56(%rsp), %rsi
	movq	%r13, %rdx
	movq	%r14, %rcx
	movl	16(%rsp), %r8d                  # 4-byte Reload
	movq	%r15, %r9
	callq	"entries::gather"
	movq	40(%rsp), %r14
	cmpb	$0, 32(%rsp)
	je	.LBB24_4
# %bb.24:                               # %arm.2.i6.i.i
	movzbl	36(%rsp), %ebx
	cmpq	$201, %rbp
	movl	$201, %r15d
	cmovbq	%rbp, %r15
	testq	%rbp, %rbp
	je	.LBB24_28
# %bb.25:                               # %loop.5.preheader.i.i.i.i.i
	cmpq	$1, %r15
	movq	8(%rsp), %r12                   # 8-byte Reload
	je	.LBB24_27
# %bb.26:                               # %join.8.preheader.i.i.i.i.i
	leaq	-4(,%r15,4), %rdx
	movq	%r12, %rdi
	xorl	%esi, %esi
	callq	memset@PLT
.LBB24_27:                              # %after.4.i.i.i.i.i
	movl	$0, -4(%r12,%r15,4)
.LBB24_28:                              # %"packing::no_totals.exit.i.i.i"
	xorl	%eax, %eax
	movl	$363, %ecx                      # imm = 0x16B
	btl	%ebx, %ecx
	jae	.LBB24_30
# %bb.29:                               # %after.2.i.i.i.i.i
	movl	%r14d, %eax
.LBB24_30:                              # %"packing::of_cause::<#ebb002963c42623e>.exit.i.i.i"
	shlq	$32, %rbx
	orq	%rax, %rbx
	movabsq	$4294967296, %rax               # imm = 0x100000000
	addq	%rbx, %rax
	jmp	.LBB24_31
.LBB24_4:                               # %arm.1.i5.i.i
	pxor	%xmm0, %xmm0
	movdqa	%xmm0, 16(%rsp)                 # 16-byte Spill
	leaq	384(%rsp), %rdi
	movl	$804, %edx                      # imm = 0x324
	xorl	%esi, %esi
	callq	memset@PLT
	testq	%r14, %r14
	je	.LBB24_11
# %bb.5:                                # %arm.5.i.i.i.i.preheader
	movq	%r14, %rax
	testb	$1, %r14b
	je	.LBB24_7
# %bb.6:                                # %arm.5.i.i.i.i.prol
	leaq	-1(%r14), %rax
	leaq	2793(%rsp), %r15
	leaq	6393(%rsp), %r12
	movzbl	2792(%rsp), %ecx
	movzbl	6392(%rsp), %edx
	addb	$-48, %cl
	xorl	%esi, %esi
	cmpb	$10, %cl
	movzbl	%cl, %ecx
	cmovael	%esi, %ecx
	movzbl	%cl, %ecx
	addl	%ecx, 384(%rsp,%rdx,4)
.LBB24_7:                               # %arm.5.i.i.i.i.prol.loopexit
	cmpq	$1, %r14
	je	.LBB24_10
# %bb.8:                                # %arm.5.i.i.i.i.preheader1
	xorl	%ecx, %ecx
	xorl	%edx, %edx
	.p2align	4
.LBB24_9:                               # %arm.5.i.i.i.i
                                        # =>This Inner Loop Header: Depth=1
	movzbl	(%r15,%rdx), %esi
	movzbl	(%r12,%rdx), %edi
	addb	$-48, %sil
	cmpb	$10, %sil
	movzbl	%sil, %esi
	cmovael	%ecx, %esi
	movzbl	%sil, %esi
	addl	%esi, 384(%rsp,%rdi,4)
	movzbl	1(%r15,%rdx), %esi
	movzbl	1(%r12,%rdx), %edi
	addb	$-48, %sil
	cmpb	$10, %sil
	movzbl	%sil, %esi
	cmovael	%ecx, %esi
	movzbl	%sil, %esi
	addl	%esi, 384(%rsp,%rdi,4)
	addq	$2, %rdx
	cmpq	%rdx, %rax
	jne	.LBB24_9
.LBB24_10:                              # %"totals::add_up.exit.loopexit.i.i.i"
	movq	384(%rsp), %xmm0                # xmm0 = mem[0],zero
	movdqa	%xmm0, 16(%rsp)                 # 16-byte Spill
.LBB24_11:                              # %arm.1.i8.i.i
	leaq	392(%rsp), %rsi
	leaq	1996(%rsp), %r15
	movl	$796, %edx                      # imm = 0x31C
	movq	%r15, %rdi
	callq	memcpy@PLT
	movl	$0, 1188(%rsp)
	leaq	1192(%rsp), %r14
	movdqa	16(%rsp), %xmm0                 # 16-byte Reload
	movq	%xmm0, 1192(%rsp)
	leaq	1200(%rsp), %rdi
	movl	$796, %edx                      # imm = 0x31C
	movq	%r15, %rsi
	callq	memcpy@PLT
	testq	%rbp, %rbp
	je	.LBB24_12
# %bb.13:                               # %join.5.i.i.i.preheader.peel.i.i.i.i.i
	cmpq	$200, %rbp
	jbe	.LBB24_14
.LBB24_23:                              # %else.2.i.i.i.i
	cmpq	$201, %rbp
	movl	$201, %edx
	cmovbq	%rbp, %rdx
	shll	$2, %edx
	movq	8(%rsp), %rdi                   # 8-byte Reload
	movq	%r14, %rsi
	callq	memcpy@PLT
	xorl	%eax, %eax
	jmp	.LBB24_31
.LBB24_12:
	movdqa	16(%rsp), %xmm0                 # 16-byte Reload
	movd	%xmm0, %edx
	movl	$201, %eax
	movq	%r14, %rcx
	testl	%edx, %edx
	jne	.LBB24_19
	jmp	.LBB24_16
.LBB24_14:                              # %after.1.i.i.i.peel.i.i.i.arm.3.i.peel.i.i.i_crit_edge.i.i
	movl	$201, %eax
	subq	%rbp, %rax
	leaq	(%r14,%rbp,4), %rcx
	movl	1192(%rsp,%rbp,4), %edx
	testl	%edx, %edx
	jne	.LBB24_19
.LBB24_16:                              # %after.1.i.i.i.i.i.i.i.i.preheader
	movl	$1, %edx
	.p2align	4
.LBB24_17:                              # %after.1.i.i.i.i.i.i.i.i
                                        # =>This Inner Loop Header: Depth=1
	cmpq	%rdx, %rax
	je	.LBB24_23
# %bb.18:                               # %arm.3.i.i.i.i.i.i
                                        #   in Loop: Header=BB24_17 Depth=1
	cmpl	$0, (%rcx,%rdx,4)
	leaq	1(%rdx), %rdx
	je	.LBB24_17
.LBB24_19:                              # %then.1.i.i.i.i
	cmpq	$201, %rbp
	movl	$201, %ebx
	cmovbq	%rbp, %rbx
	movabsq	$85899345920, %rax              # imm = 0x1400000000
	testq	%rbp, %rbp
	je	.LBB24_31
# %bb.20:                               # %loop.5.preheader.i.i.i.i.i.i
	cmpq	$1, %rbx
	movq	8(%rsp), %r15                   # 8-byte Reload
	je	.LBB24_22
# %bb.21:                               # %join.8.preheader.i.i.i.i.i.i
	leaq	-4(,%rbx,4), %rdx
	movq	%r15, %rdi
	xorl	%esi, %esi
	movq	%rax, %r14
	callq	memset@PLT
	movq	%r14, %rax
.LBB24_22:                              # %after.4.i.i.i.i.i.i
	movl	$0, -4(%r15,%rbx,4)
.LBB24_31:                              # %"wumbyra_c::wumbyra_totals.exit"
	addq	$9992, %rsp                     # imm = 0x2708
	popq	%rbx
	popq	%r12
	popq	%r13
	popq	%r14
	popq	%r15
	popq	%rbp
	retq
.Lfunc_end24:
	.size	wumbyra_totals, .Lfunc_end24-wumbyra_totals
                                        # -- End function
	.section	.text.wumbyra_version,"ax",@progbits
	.globl	wumbyra_version                 # -- Begin function wumbyra_version
	.p2align	4
	.type	wumbyra_version,@function
wumbyra_version:                        # @wumbyra_version
# %bb.0:                                # %start
	movl	$10700, %eax                    # imm = 0x29CC
	retq
.Lfunc_end25:
	.size	wumbyra_version, .Lfunc_end25-wumbyra_version
                                        # -- End function
	.type	.Lstatic.0,@object              # @static.0
	.section	.rodata..Lstatic.0,"a",@progbits
	.p2align	2, 0x0
.Lstatic.0:
	.asciz	"\037\000\000\000\034\000\000\000\037\000\000\000\036\000\000\000\037\000\000\000\036\000\000\000\037\000\000\000\037\000\000\000\036\000\000\000\037\000\000\000\036\000\000\000\037\000\000"
	.size	.Lstatic.0, 48

	.ident	"rattle logic=dac8208d650f15bf3e2dc313a14fa4c783a3acf887bdfab66e1714b038d9e11b"
	.section	".note.GNU-stack","",@progbits
