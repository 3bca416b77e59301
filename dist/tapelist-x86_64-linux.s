	.file	"rattle"
	.section	.rodata.cst16,"aM",@progbits,16
	.p2align	4, 0x0                          # -- Begin function tapelist::read_file::<#75e23eee2798bf10>
.LCPI0_0:
	.byte	0                               # 0x0
	.byte	1                               # 0x1
	.byte	2                               # 0x2
	.byte	3                               # 0x3
	.byte	4                               # 0x4
	.byte	5                               # 0x5
	.byte	6                               # 0x6
	.byte	7                               # 0x7
	.byte	8                               # 0x8
	.byte	9                               # 0x9
	.byte	10                              # 0xa
	.byte	11                              # 0xb
	.byte	12                              # 0xc
	.byte	13                              # 0xd
	.byte	14                              # 0xe
	.byte	15                              # 0xf
.LCPI0_1:
	.byte	16                              # 0x10
	.byte	17                              # 0x11
	.byte	18                              # 0x12
	.byte	19                              # 0x13
	.byte	20                              # 0x14
	.byte	21                              # 0x15
	.byte	22                              # 0x16
	.byte	23                              # 0x17
	.byte	24                              # 0x18
	.byte	25                              # 0x19
	.byte	26                              # 0x1a
	.byte	27                              # 0x1b
	.byte	28                              # 0x1c
	.byte	29                              # 0x1d
	.byte	30                              # 0x1e
	.byte	31                              # 0x1f
	.section	".text.tapelist::read_file::<#75e23eee2798bf10>","ax",@progbits
	.p2align	4
	.type	"tapelist::read_file::<#75e23eee2798bf10>",@function
"tapelist::read_file::<#75e23eee2798bf10>": # @"tapelist::read_file::<#75e23eee2798bf10>"
# %bb.0:                                # %start
	pushq	%rbp
	pushq	%r15
	pushq	%r14
	pushq	%r13
	pushq	%r12
	pushq	%rbx
	subq	$3072, %rsp                     # imm = 0xC00
	movq	$0, (%rsp)
	subq	$3072, %rsp                     # imm = 0xC00
	movq	$0, (%rsp)
	subq	$2552, %rsp                     # imm = 0x9F8
	movq	%rsi, %rbx
	movq	%rdi, %r14
	xorps	%xmm0, %xmm0
	movaps	%xmm0, 304(%rsp)
	movaps	%xmm0, 288(%rsp)
	movaps	%xmm0, 272(%rsp)
	movaps	%xmm0, 256(%rsp)
	movaps	%xmm0, 240(%rsp)
	movq	$0, 320(%rsp)
	xorl	%eax, %eax
	.p2align	4
.LBB0_1:                                # %join.5.i.i.i.i.i.i.i
                                        # =>This Inner Loop Header: Depth=1
	cmpb	$0, (%r14,%rax)
	je	.LBB0_3
# %bb.2:                                # %join.8.i.i.i.i.i.i.i
                                        #   in Loop: Header=BB0_1 Depth=1
	incq	%rax
	cmpq	%rax, %rbx
	jne	.LBB0_1
	jmp	.LBB0_4
.LBB0_3:                                # %"os::name_length.exit.i.i.i.i.i"
	cmpq	%rbx, %rax
	jae	.LBB0_4
# %bb.23:                               # %"std::fs::File::open::<#46ecfd078aeab46d>.exit.thread.i"
	leaq	.Lstatic.2(%rip), %rcx
	leaq	496(%rsp), %rdi
	movl	$42, %r8d
	movl	$42, %r9d
	movl	$2, %esi
	movl	$20, %edx
	callq	"std_io::io::error::Error::from_bytes"
	movq	496(%rsp), %rax
	movq	504(%rsp), %r12
	movq	576(%rsp), %rsi
	movq	%rsi, 64(%rsp)
	movups	560(%rsp), %xmm0
	movaps	%xmm0, 48(%rsp)
	movups	544(%rsp), %xmm1
	movaps	%xmm1, 32(%rsp)
	movups	528(%rsp), %xmm2
	movaps	%xmm2, 16(%rsp)
	movups	512(%rsp), %xmm3
	movaps	%xmm3, (%rsp)
	movl	%eax, %ecx
	shrl	$8, %ecx
	movq	%rax, %rdx
	shrq	$16, %rdx
	movaps	%xmm3, 160(%rsp)
	movaps	%xmm2, 176(%rsp)
	movaps	%xmm1, 192(%rsp)
	movaps	%xmm0, 208(%rsp)
	jmp	.LBB0_24
.LBB0_4:                                # %arm.5.i.i.i.i.i
	movq	%rdx, 72(%rsp)                  # 8-byte Spill
	movq	$-1, %rbp
	leaq	512(%rsp), %r15
	.p2align	4
.LBB0_5:                                # %loop.9.i.i.i.i.i
                                        # =>This Loop Header: Depth=1
                                        #     Child Loop BB0_7 Depth 2
	subq	$1, %rbp
	jb	.LBB0_19
# %bb.6:                                # %join.3.i.i28.i.i.i.i.i
                                        #   in Loop: Header=BB0_5 Depth=1
	xorl	%eax, %eax
	.p2align	4
.LBB0_7:                                # %join.5.i.i.i.i.i.i.i.i
                                        #   Parent Loop BB0_5 Depth=1
                                        # =>  This Inner Loop Header: Depth=2
	cmpb	$0, (%r14,%rax)
	je	.LBB0_14
# %bb.8:                                # %join.8.i.i.i.i.i.i.i.i
                                        #   in Loop: Header=BB0_7 Depth=2
	incq	%rax
	cmpq	%rax, %rbx
	jne	.LBB0_7
	jmp	.LBB0_9
	.p2align	4
.LBB0_14:                               # %"os::path::nul_position.exit.i.i.i.i.i.i.i"
                                        #   in Loop: Header=BB0_5 Depth=1
	cmpq	%rbx, %rax
	jae	.LBB0_9
# %bb.15:                               # %"os::open_with.exit.thread.i.i.i.i.i"
                                        #   in Loop: Header=BB0_5 Depth=1
	movl	$22, %edi
	callq	rattle_set_errno@PLT
	jmp	.LBB0_16
	.p2align	4
.LBB0_9:                                # %join.3.thread7.i.i.i.i.i.i
                                        #   in Loop: Header=BB0_5 Depth=1
	leaq	496(%rsp), %rdi
	movl	$4095, %edx                     # imm = 0xFFF
	xorl	%esi, %esi
	callq	memset@PLT
	leaq	496(%rsp), %r12
	movq	%r12, %rdi
	movq	%r14, %rsi
	movq	%rbx, %rdx
	callq	memcpy@PLT
	movb	$0, 4591(%rsp)
	leaq	4600(%rsp), %r13
	movl	$4096, %edx                     # imm = 0x1000
	movq	%r13, %rdi
	movq	%r12, %rsi
	callq	memcpy@PLT
	movq	%r13, %rdi
	movl	$524544, %esi                   # imm = 0x80100
	xorl	%eax, %eax
	callq	open@PLT
	testl	%eax, %eax
	jns	.LBB0_10
.LBB0_16:                               # %join.15.i.i.i.i.i
                                        #   in Loop: Header=BB0_5 Depth=1
	callq	rattle_errno@PLT
	leaq	496(%rsp), %rdi
	movl	%eax, %esi
	callq	"std_io::io::error::Error::from_raw_os_error"
	movzbl	496(%rsp), %eax
	movzbl	497(%rsp), %ecx
	movl	498(%rsp), %esi
	movzwl	502(%rsp), %edx
	movq	504(%rsp), %r12
	movups	(%r15), %xmm0
	movups	16(%r15), %xmm1
	movups	32(%r15), %xmm2
	movups	48(%r15), %xmm3
	movaps	%xmm0, 416(%rsp)
	movaps	%xmm1, 432(%rsp)
	movaps	%xmm2, 448(%rsp)
	movaps	%xmm3, 464(%rsp)
	movq	64(%r15), %rdi
	movq	%rdi, 480(%rsp)
	movaps	.LCPI0_0(%rip), %xmm0           # xmm0 = [0,1,2,3,4,5,6,7,8,9,10,11,12,13,14,15]
	movaps	%xmm0, 496(%rsp)
	movaps	.LCPI0_1(%rip), %xmm0           # xmm0 = [16,17,18,19,20,21,22,23,24,25,26,27,28,29,30,31]
	movaps	%xmm0, 512(%rsp)
	movabsq	$2820983053732684064, %rdi      # imm = 0x2726252423222120
	movq	%rdi, 528(%rsp)
	movb	$40, 536(%rsp)
	cmpq	$41, %rcx
	jae	.LBB0_18
# %bb.17:                               # %"std_io::io::error::Error::kind.exit.i.i.i.i.i"
                                        #   in Loop: Header=BB0_5 Depth=1
	cmpb	$35, 496(%rsp,%rcx)
	je	.LBB0_5
.LBB0_18:                               # %then.16.i.i.i.i.i
	shlq	$32, %rdx
	orq	%rsi, %rdx
	movq	480(%rsp), %rsi
	movq	%rsi, 64(%rsp)
	movaps	416(%rsp), %xmm0
	movaps	432(%rsp), %xmm1
	movaps	448(%rsp), %xmm2
	movaps	464(%rsp), %xmm3
	movaps	%xmm3, 48(%rsp)
	movaps	%xmm2, 32(%rsp)
	movaps	%xmm1, 16(%rsp)
	movaps	%xmm0, (%rsp)
	jmp	.LBB0_20
.LBB0_19:                               # %after.8.i.i.i.i.i
	leaq	.Lstatic.6(%rip), %rcx
	leaq	496(%rsp), %rdi
	movl	$43, %r8d
	movl	$43, %r9d
	movl	$2, %esi
	movl	$22, %edx
	callq	"std_io::io::error::Error::from_bytes"
	movzbl	496(%rsp), %eax
	movzbl	497(%rsp), %ecx
	movl	498(%rsp), %esi
	movzwl	502(%rsp), %edx
	shlq	$32, %rdx
	orq	%rsi, %rdx
	movq	504(%rsp), %r12
	movups	512(%rsp), %xmm0
	movaps	%xmm0, (%rsp)
	movups	528(%rsp), %xmm0
	movaps	%xmm0, 16(%rsp)
	movups	544(%rsp), %xmm0
	movaps	%xmm0, 32(%rsp)
	movups	560(%rsp), %xmm0
	movaps	%xmm0, 48(%rsp)
	movq	576(%rsp), %rsi
	movq	%rsi, 64(%rsp)
.LBB0_20:                               # %"std::fs::File::open::<#46ecfd078aeab46d>.exit.i.thread"
	movaps	(%rsp), %xmm0
	movaps	16(%rsp), %xmm1
	movaps	32(%rsp), %xmm2
	movaps	48(%rsp), %xmm3
	movaps	%xmm0, 160(%rsp)
	movaps	%xmm1, 176(%rsp)
	movaps	%xmm2, 192(%rsp)
	movaps	%xmm3, 208(%rsp)
	movq	64(%rsp), %rsi
.LBB0_24:                               # %"tapelist::read_open::<#19b0f5173678d6e0>.exit.thread"
	movq	%rsi, 224(%rsp)
	shlq	$16, %rdx
	movzbl	%cl, %ecx
	shll	$8, %ecx
	orq	%rdx, %rcx
	movzbl	%al, %r15d
	orq	%rcx, %r15
	movq	224(%rsp), %rax
	movq	%rax, 144(%rsp)
	movaps	160(%rsp), %xmm0
	movaps	176(%rsp), %xmm1
	movaps	192(%rsp), %xmm2
	movaps	208(%rsp), %xmm3
	movaps	%xmm3, 128(%rsp)
	movaps	%xmm2, 112(%rsp)
	movaps	%xmm1, 96(%rsp)
	movaps	%xmm0, 80(%rsp)
.LBB0_26:                               # %arm.2
	movq	%r15, 240(%rsp)
	movq	%r12, 248(%rsp)
	movaps	80(%rsp), %xmm0
	movaps	96(%rsp), %xmm1
	movaps	112(%rsp), %xmm2
	movaps	128(%rsp), %xmm3
	movaps	%xmm0, 256(%rsp)
	movaps	%xmm1, 272(%rsp)
	movaps	%xmm2, 288(%rsp)
	movaps	%xmm3, 304(%rsp)
	movq	144(%rsp), %rax
	movq	%rax, 320(%rsp)
	leaq	240(%rsp), %rdx
	movq	%r14, %rdi
	movq	%rbx, %rsi
	callq	"tapelist::fail::<#4e9da720f7635e46>"
	xorl	%eax, %eax
	xorl	%r12d, %r12d
.LBB0_27:                               # %join.4
                                        # kill: def $al killed $al killed $rax
	movq	%r12, %rdx
	addq	$8696, %rsp                     # imm = 0x21F8
	popq	%rbx
	popq	%r12
	popq	%r13
	popq	%r14
	popq	%r15
	popq	%rbp
	retq
.LBB0_10:                               # %arm.1.i
	xorl	%r12d, %r12d
	movq	72(%rsp), %r15                  # 8-byte Reload
	.p2align	4
.LBB0_11:                               # %join.5.i.i
                                        # =>This Inner Loop Header: Depth=1
	leaq	(%r15,%r12), %rsi
	movl	$4096, %r13d                    # imm = 0x1000
	subq	%r12, %r13
	movl	%eax, %ebp
	movl	%eax, %edi
	movq	%r13, %rdx
	callq	read@PLT
	testq	%rax, %rax
	js	.LBB0_25
# %bb.12:                               # %arm.6.i.i
                                        #   in Loop: Header=BB0_11 Depth=1
	je	.LBB0_13
# %bb.21:                               # %default.11.i.i
                                        #   in Loop: Header=BB0_11 Depth=1
	cmpq	%r13, %rax
	cmovbq	%rax, %r13
	addq	%r13, %r12
	cmpq	$4096, %r12                     # imm = 0x1000
	movl	%ebp, %eax
	jb	.LBB0_11
	jmp	.LBB0_22
.LBB0_25:                               # %"tapelist::read_open::<#19b0f5173678d6e0>.exit"
	callq	rattle_errno@PLT
	leaq	496(%rsp), %rdi
	movl	%eax, %esi
	callq	"std_io::io::error::Error::from_raw_os_error"
	movq	496(%rsp), %r15
	movq	504(%rsp), %r12
	movups	512(%rsp), %xmm0
	movaps	%xmm0, 336(%rsp)
	movups	528(%rsp), %xmm0
	movaps	%xmm0, 352(%rsp)
	movups	544(%rsp), %xmm0
	movaps	%xmm0, 368(%rsp)
	movups	560(%rsp), %xmm0
	movaps	%xmm0, 384(%rsp)
	movq	576(%rsp), %rax
	movq	%rax, 400(%rsp)
	movl	%ebp, %edi
	callq	close@PLT
	movaps	336(%rsp), %xmm0
	movaps	352(%rsp), %xmm1
	movaps	368(%rsp), %xmm2
	movaps	384(%rsp), %xmm3
	movaps	%xmm0, 80(%rsp)
	movaps	%xmm1, 96(%rsp)
	movaps	%xmm2, 112(%rsp)
	movaps	%xmm3, 128(%rsp)
	movq	400(%rsp), %rax
	movq	%rax, 144(%rsp)
	jmp	.LBB0_26
.LBB0_13:
	movl	%ebp, %eax
.LBB0_22:                               # %"tapelist::read_open::<#19b0f5173678d6e0>.exit.thread37"
	movl	%eax, %edi
	callq	close@PLT
	movb	$1, %al
	jmp	.LBB0_27
.Lfunc_end0:
	.size	"tapelist::read_file::<#75e23eee2798bf10>", .Lfunc_end0-"tapelist::read_file::<#75e23eee2798bf10>"
                                        # -- End function
	.section	".text.std_io::io::error::Error::from_bytes","ax",@progbits
	.p2align	4                               # -- Begin function std_io::io::error::Error::from_bytes
	.type	"std_io::io::error::Error::from_bytes",@function
"std_io::io::error::Error::from_bytes": # @"std_io::io::error::Error::from_bytes"
# %bb.0:                                # %start
	pushq	%rbp
	pushq	%r15
	pushq	%r14
	pushq	%r13
	pushq	%r12
	pushq	%rbx
	subq	$408, %rsp                      # imm = 0x198
	movq	%r9, 400(%rsp)                  # 8-byte Spill
	movl	%edx, 364(%rsp)                 # 4-byte Spill
	movl	%esi, 360(%rsp)                 # 4-byte Spill
	movq	%rdi, 392(%rsp)                 # 8-byte Spill
	movabsq	$3314649325744685056, %r13      # imm = 0x2E00000000000000
	movabsq	$12947848928690176, %rsi        # imm = 0x2E000000000000
	movabsq	$50577534877696, %r11           # imm = 0x2E0000000000
	movabsq	$197568495616, %r14             # imm = 0x2E00000000
	movl	$3014656, %eax                  # imm = 0x2E0000
	movq	%rax, 368(%rsp)                 # 8-byte Spill
	movb	$46, 223(%rsp)                  # 1-byte Folded Spill
	movl	$11776, %eax                    # imm = 0x2E00
	movq	%rax, 376(%rsp)                 # 8-byte Spill
	movl	$771751936, %eax                # imm = 0x2E000000
	movq	%rax, 384(%rsp)                 # 8-byte Spill
	testq	%r8, %r8
	movq	%rcx, -64(%rsp)                 # 8-byte Spill
	je	.LBB1_3
# %bb.1:                                # %"std_io::io::error::byte_or_dot.exit.i"
	movzbl	(%rcx), %eax
	movb	%al, 222(%rsp)                  # 1-byte Spill
	cmpq	$1, %r8
	movq	%r8, %r14
	jne	.LBB1_4
# %bb.2:
	movq	%r13, -104(%rsp)                # 8-byte Spill
	movq	%r11, -96(%rsp)                 # 8-byte Spill
	movl	$771751936, %eax                # imm = 0x2E000000
	movq	%rax, -88(%rsp)                 # 8-byte Spill
	movl	$11776, %eax                    # imm = 0x2E00
	movq	%rax, -80(%rsp)                 # 8-byte Spill
	movq	%r13, -72(%rsp)                 # 8-byte Spill
	movq	%r11, -56(%rsp)                 # 8-byte Spill
	movl	$771751936, %eax                # imm = 0x2E000000
	movq	%rax, -40(%rsp)                 # 8-byte Spill
	movl	$11776, %eax                    # imm = 0x2E00
	movq	%rax, -24(%rsp)                 # 8-byte Spill
	movq	%r13, -16(%rsp)                 # 8-byte Spill
	movq	%r11, (%rsp)                    # 8-byte Spill
	movl	$771751936, %eax                # imm = 0x2E000000
	movq	%rax, 16(%rsp)                  # 8-byte Spill
	movb	$46, -105(%rsp)                 # 1-byte Folded Spill
	movb	$46, -121(%rsp)                 # 1-byte Folded Spill
	movb	$46, -122(%rsp)                 # 1-byte Folded Spill
	movb	$46, -123(%rsp)                 # 1-byte Folded Spill
	movb	$46, -124(%rsp)                 # 1-byte Folded Spill
	movb	$46, -125(%rsp)                 # 1-byte Folded Spill
	movb	$46, -126(%rsp)                 # 1-byte Folded Spill
	movb	$46, -127(%rsp)                 # 1-byte Folded Spill
	movl	$11776, %eax                    # imm = 0x2E00
	movq	%rax, 32(%rsp)                  # 8-byte Spill
	movq	%r13, 40(%rsp)                  # 8-byte Spill
	movq	%r11, 56(%rsp)                  # 8-byte Spill
	movl	$771751936, %r12d               # imm = 0x2E000000
	movq	%rax, 80(%rsp)                  # 8-byte Spill
	movq	%r13, 88(%rsp)                  # 8-byte Spill
	movq	%r11, 104(%rsp)                 # 8-byte Spill
	movl	$771751936, %r15d               # imm = 0x2E000000
	movq	%rax, 128(%rsp)                 # 8-byte Spill
	movq	%r13, 136(%rsp)                 # 8-byte Spill
	movq	%r11, 152(%rsp)                 # 8-byte Spill
	movl	$771751936, %eax                # imm = 0x2E000000
	movq	%rax, 168(%rsp)                 # 8-byte Spill
	movl	$11776, %eax                    # imm = 0x2E00
	movq	%rax, 184(%rsp)                 # 8-byte Spill
	movq	%r13, 192(%rsp)                 # 8-byte Spill
	movq	%r11, 208(%rsp)                 # 8-byte Spill
	movl	$771751936, %eax                # imm = 0x2E000000
	movq	%rax, 232(%rsp)                 # 8-byte Spill
	movl	$11776, %eax                    # imm = 0x2E00
	movq	%rax, 248(%rsp)                 # 8-byte Spill
	movq	%r13, 256(%rsp)                 # 8-byte Spill
	movq	%r11, 272(%rsp)                 # 8-byte Spill
	movl	$771751936, %eax                # imm = 0x2E000000
	movq	%rax, 288(%rsp)                 # 8-byte Spill
	movl	$11776, %eax                    # imm = 0x2E00
	movq	%rax, 304(%rsp)                 # 8-byte Spill
	movq	%r13, 312(%rsp)                 # 8-byte Spill
	movq	%r11, 328(%rsp)                 # 8-byte Spill
	movl	$771751936, %eax                # imm = 0x2E000000
	movq	%rax, 344(%rsp)                 # 8-byte Spill
	movl	$11776, %ebx                    # imm = 0x2E00
	jmp	.LBB1_8
.LBB1_3:
	movq	%r13, -104(%rsp)                # 8-byte Spill
	movq	%r11, -96(%rsp)                 # 8-byte Spill
	movq	%rax, -88(%rsp)                 # 8-byte Spill
	movl	$11776, %eax                    # imm = 0x2E00
	movq	%rax, -80(%rsp)                 # 8-byte Spill
	movq	%r13, -72(%rsp)                 # 8-byte Spill
	movq	%r11, -56(%rsp)                 # 8-byte Spill
	movl	$771751936, %eax                # imm = 0x2E000000
	movq	%rax, -40(%rsp)                 # 8-byte Spill
	movl	$11776, %eax                    # imm = 0x2E00
	movq	%rax, -24(%rsp)                 # 8-byte Spill
	movq	%r13, -16(%rsp)                 # 8-byte Spill
	movq	%r11, (%rsp)                    # 8-byte Spill
	movl	$771751936, %eax                # imm = 0x2E000000
	movq	%rax, 16(%rsp)                  # 8-byte Spill
	movb	$46, 222(%rsp)                  # 1-byte Folded Spill
	movb	$46, -105(%rsp)                 # 1-byte Folded Spill
	movb	$46, -121(%rsp)                 # 1-byte Folded Spill
	movb	$46, -122(%rsp)                 # 1-byte Folded Spill
	movb	$46, -123(%rsp)                 # 1-byte Folded Spill
	movb	$46, -124(%rsp)                 # 1-byte Folded Spill
	movb	$46, -125(%rsp)                 # 1-byte Folded Spill
	movb	$46, -126(%rsp)                 # 1-byte Folded Spill
	movb	$46, -127(%rsp)                 # 1-byte Folded Spill
	movl	$11776, %eax                    # imm = 0x2E00
	movq	%rax, 32(%rsp)                  # 8-byte Spill
	movq	%r13, 40(%rsp)                  # 8-byte Spill
	movq	%r11, 56(%rsp)                  # 8-byte Spill
	movl	$771751936, %r12d               # imm = 0x2E000000
	movq	%rax, 80(%rsp)                  # 8-byte Spill
	movq	%r13, 88(%rsp)                  # 8-byte Spill
	movq	%r11, 104(%rsp)                 # 8-byte Spill
	movl	$771751936, %r15d               # imm = 0x2E000000
	movq	%rax, 128(%rsp)                 # 8-byte Spill
	movq	%r13, 136(%rsp)                 # 8-byte Spill
	movq	%r11, 152(%rsp)                 # 8-byte Spill
	movl	$771751936, %eax                # imm = 0x2E000000
	movq	%rax, 168(%rsp)                 # 8-byte Spill
	movl	$11776, %eax                    # imm = 0x2E00
	movq	%rax, 184(%rsp)                 # 8-byte Spill
	movq	%r13, 192(%rsp)                 # 8-byte Spill
	movq	%r11, 208(%rsp)                 # 8-byte Spill
	movl	$771751936, %eax                # imm = 0x2E000000
	movq	%rax, 232(%rsp)                 # 8-byte Spill
	movl	$11776, %eax                    # imm = 0x2E00
	movq	%rax, 248(%rsp)                 # 8-byte Spill
	movq	%r13, 256(%rsp)                 # 8-byte Spill
	movq	%r11, 272(%rsp)                 # 8-byte Spill
	movl	$771751936, %eax                # imm = 0x2E000000
	movq	%rax, 288(%rsp)                 # 8-byte Spill
	movl	$11776, %eax                    # imm = 0x2E00
	movq	%rax, 304(%rsp)                 # 8-byte Spill
	movq	%r13, 312(%rsp)                 # 8-byte Spill
	movq	%r11, 328(%rsp)                 # 8-byte Spill
	movl	$771751936, %eax                # imm = 0x2E000000
	movq	%rax, 344(%rsp)                 # 8-byte Spill
	movl	$3014656, %eax                  # imm = 0x2E0000
	movq	%rax, 352(%rsp)                 # 8-byte Spill
	movq	%r14, 336(%rsp)                 # 8-byte Spill
	movq	%rsi, 320(%rsp)                 # 8-byte Spill
	movq	%rax, 296(%rsp)                 # 8-byte Spill
	movq	%r14, 280(%rsp)                 # 8-byte Spill
	movq	%rsi, 264(%rsp)                 # 8-byte Spill
	movq	%rax, 240(%rsp)                 # 8-byte Spill
	movq	%r14, 224(%rsp)                 # 8-byte Spill
	movq	%rsi, 200(%rsp)                 # 8-byte Spill
	movq	%rax, 176(%rsp)                 # 8-byte Spill
	movq	%r14, 160(%rsp)                 # 8-byte Spill
	movq	%rsi, 144(%rsp)                 # 8-byte Spill
	movq	%rax, 120(%rsp)                 # 8-byte Spill
	movq	%r14, 112(%rsp)                 # 8-byte Spill
	movq	%rsi, 96(%rsp)                  # 8-byte Spill
	movq	%rax, 72(%rsp)                  # 8-byte Spill
	movq	%r14, 64(%rsp)                  # 8-byte Spill
	movq	%rsi, 48(%rsp)                  # 8-byte Spill
	movq	%rax, 24(%rsp)                  # 8-byte Spill
	movq	%r14, 8(%rsp)                   # 8-byte Spill
	movq	%rsi, -8(%rsp)                  # 8-byte Spill
	movq	%rax, -32(%rsp)                 # 8-byte Spill
	movq	%r14, -48(%rsp)                 # 8-byte Spill
	movq	%rsi, %rdi
	movl	$3014656, %r9d                  # imm = 0x2E0000
	movq	%r14, %rdx
	movq	%rsi, %r10
	movq	%r14, %rcx
	movq	%r8, %r14
	movl	$11776, %ebx                    # imm = 0x2E00
	cmpq	$78, %r14
	jae	.LBB1_13
.LBB1_68:
	movq	%rcx, %r8
	movq	%r11, %rcx
	jmp	.LBB1_69
.LBB1_4:                                # %"std_io::io::error::byte_or_dot.exit13.i"
	movzbl	1(%rcx), %ebx
	shll	$8, %ebx
	cmpq	$3, %r14
	jb	.LBB1_7
# %bb.5:                                # %"std_io::io::error::byte_or_dot.exit19.i"
	movzbl	2(%rcx), %eax
	shll	$16, %eax
	movq	%rax, 352(%rsp)                 # 8-byte Spill
	cmpq	$3, %r14
	jne	.LBB1_17
# %bb.6:
	movq	%r13, -104(%rsp)                # 8-byte Spill
	movq	%r11, -96(%rsp)                 # 8-byte Spill
	movl	$771751936, %eax                # imm = 0x2E000000
	movq	%rax, -88(%rsp)                 # 8-byte Spill
	movl	$11776, %eax                    # imm = 0x2E00
	movq	%rax, -80(%rsp)                 # 8-byte Spill
	movq	%r13, -72(%rsp)                 # 8-byte Spill
	movq	%r11, -56(%rsp)                 # 8-byte Spill
	movl	$771751936, %eax                # imm = 0x2E000000
	movq	%rax, -40(%rsp)                 # 8-byte Spill
	movl	$11776, %eax                    # imm = 0x2E00
	movq	%rax, -24(%rsp)                 # 8-byte Spill
	movq	%r13, -16(%rsp)                 # 8-byte Spill
	movq	%r11, (%rsp)                    # 8-byte Spill
	movl	$771751936, %eax                # imm = 0x2E000000
	movq	%rax, 16(%rsp)                  # 8-byte Spill
	movb	$46, -105(%rsp)                 # 1-byte Folded Spill
	movb	$46, -121(%rsp)                 # 1-byte Folded Spill
	movb	$46, -122(%rsp)                 # 1-byte Folded Spill
	movb	$46, -123(%rsp)                 # 1-byte Folded Spill
	movb	$46, -124(%rsp)                 # 1-byte Folded Spill
	movb	$46, -125(%rsp)                 # 1-byte Folded Spill
	movb	$46, -126(%rsp)                 # 1-byte Folded Spill
	movb	$46, -127(%rsp)                 # 1-byte Folded Spill
	movl	$11776, %eax                    # imm = 0x2E00
	movq	%rax, 32(%rsp)                  # 8-byte Spill
	movq	%r13, 40(%rsp)                  # 8-byte Spill
	movq	%r11, 56(%rsp)                  # 8-byte Spill
	movl	$771751936, %r12d               # imm = 0x2E000000
	movq	%rax, 80(%rsp)                  # 8-byte Spill
	movq	%r13, 88(%rsp)                  # 8-byte Spill
	movq	%r11, 104(%rsp)                 # 8-byte Spill
	movl	$771751936, %r15d               # imm = 0x2E000000
	movq	%rax, 128(%rsp)                 # 8-byte Spill
	movq	%r13, 136(%rsp)                 # 8-byte Spill
	movq	%r11, 152(%rsp)                 # 8-byte Spill
	movl	$771751936, %eax                # imm = 0x2E000000
	movq	%rax, 168(%rsp)                 # 8-byte Spill
	movl	$11776, %eax                    # imm = 0x2E00
	movq	%rax, 184(%rsp)                 # 8-byte Spill
	movq	%r13, 192(%rsp)                 # 8-byte Spill
	movq	%r11, 208(%rsp)                 # 8-byte Spill
	movl	$771751936, %eax                # imm = 0x2E000000
	movq	%rax, 232(%rsp)                 # 8-byte Spill
	movl	$11776, %eax                    # imm = 0x2E00
	movq	%rax, 248(%rsp)                 # 8-byte Spill
	movq	%r13, 256(%rsp)                 # 8-byte Spill
	movq	%r11, 272(%rsp)                 # 8-byte Spill
	movl	$771751936, %eax                # imm = 0x2E000000
	movq	%rax, 288(%rsp)                 # 8-byte Spill
	movl	$11776, %eax                    # imm = 0x2E00
	movq	%rax, 304(%rsp)                 # 8-byte Spill
	movq	%r13, 312(%rsp)                 # 8-byte Spill
	movq	%r11, 328(%rsp)                 # 8-byte Spill
	movl	$771751936, %eax                # imm = 0x2E000000
	movq	%rax, 344(%rsp)                 # 8-byte Spill
	jmp	.LBB1_21
.LBB1_7:
	movq	%r13, -104(%rsp)                # 8-byte Spill
	movq	%r11, -96(%rsp)                 # 8-byte Spill
	movl	$771751936, %eax                # imm = 0x2E000000
	movq	%rax, -88(%rsp)                 # 8-byte Spill
	movl	$11776, %eax                    # imm = 0x2E00
	movq	%rax, -80(%rsp)                 # 8-byte Spill
	movq	%r13, -72(%rsp)                 # 8-byte Spill
	movq	%r11, -56(%rsp)                 # 8-byte Spill
	movl	$771751936, %eax                # imm = 0x2E000000
	movq	%rax, -40(%rsp)                 # 8-byte Spill
	movl	$11776, %eax                    # imm = 0x2E00
	movq	%rax, -24(%rsp)                 # 8-byte Spill
	movq	%r13, -16(%rsp)                 # 8-byte Spill
	movq	%r11, (%rsp)                    # 8-byte Spill
	movl	$771751936, %eax                # imm = 0x2E000000
	movq	%rax, 16(%rsp)                  # 8-byte Spill
	movb	$46, -105(%rsp)                 # 1-byte Folded Spill
	movb	$46, -121(%rsp)                 # 1-byte Folded Spill
	movb	$46, -122(%rsp)                 # 1-byte Folded Spill
	movb	$46, -123(%rsp)                 # 1-byte Folded Spill
	movb	$46, -124(%rsp)                 # 1-byte Folded Spill
	movb	$46, -125(%rsp)                 # 1-byte Folded Spill
	movb	$46, -126(%rsp)                 # 1-byte Folded Spill
	movb	$46, -127(%rsp)                 # 1-byte Folded Spill
	movl	$11776, %eax                    # imm = 0x2E00
	movq	%rax, 32(%rsp)                  # 8-byte Spill
	movq	%r13, 40(%rsp)                  # 8-byte Spill
	movq	%r11, 56(%rsp)                  # 8-byte Spill
	movl	$771751936, %r12d               # imm = 0x2E000000
	movq	%rax, 80(%rsp)                  # 8-byte Spill
	movq	%r13, 88(%rsp)                  # 8-byte Spill
	movq	%r11, 104(%rsp)                 # 8-byte Spill
	movl	$771751936, %r15d               # imm = 0x2E000000
	movq	%rax, 128(%rsp)                 # 8-byte Spill
	movq	%r13, 136(%rsp)                 # 8-byte Spill
	movq	%r11, 152(%rsp)                 # 8-byte Spill
	movl	$771751936, %eax                # imm = 0x2E000000
	movq	%rax, 168(%rsp)                 # 8-byte Spill
	movl	$11776, %eax                    # imm = 0x2E00
	movq	%rax, 184(%rsp)                 # 8-byte Spill
	movq	%r13, 192(%rsp)                 # 8-byte Spill
	movq	%r11, 208(%rsp)                 # 8-byte Spill
	movl	$771751936, %eax                # imm = 0x2E000000
	movq	%rax, 232(%rsp)                 # 8-byte Spill
	movl	$11776, %eax                    # imm = 0x2E00
	movq	%rax, 248(%rsp)                 # 8-byte Spill
	movq	%r13, 256(%rsp)                 # 8-byte Spill
	movq	%r11, 272(%rsp)                 # 8-byte Spill
	movl	$771751936, %eax                # imm = 0x2E000000
	movq	%rax, 288(%rsp)                 # 8-byte Spill
	movl	$11776, %eax                    # imm = 0x2E00
	movq	%rax, 304(%rsp)                 # 8-byte Spill
	movq	%r13, 312(%rsp)                 # 8-byte Spill
	movq	%r11, 328(%rsp)                 # 8-byte Spill
	movl	$771751936, %eax                # imm = 0x2E000000
	movq	%rax, 344(%rsp)                 # 8-byte Spill
.LBB1_8:                                # %"std_io::io::error::byte_or_dot.exit31.i463"
	movl	$3014656, %eax                  # imm = 0x2E0000
	movq	%rax, 352(%rsp)                 # 8-byte Spill
	movabsq	$197568495616, %rcx             # imm = 0x2E00000000
	movq	%rcx, 336(%rsp)                 # 8-byte Spill
	movq	%rsi, 320(%rsp)                 # 8-byte Spill
.LBB1_9:                                # %"std_io::io::error::byte_or_dot.exit31.i463"
	movq	%rax, 296(%rsp)                 # 8-byte Spill
.LBB1_10:                               # %"std_io::io::error::byte_or_dot.exit31.i463"
	movq	%rcx, 280(%rsp)                 # 8-byte Spill
	movq	%rsi, 264(%rsp)                 # 8-byte Spill
.LBB1_11:                               # %"std_io::io::error::byte_or_dot.exit31.i463"
	movq	%rax, 240(%rsp)                 # 8-byte Spill
.LBB1_12:                               # %"std_io::io::error::byte_or_dot.exit31.i463"
	movq	%rcx, 224(%rsp)                 # 8-byte Spill
	movq	%rsi, 200(%rsp)                 # 8-byte Spill
	movq	%rax, 176(%rsp)                 # 8-byte Spill
	movq	%rcx, 160(%rsp)                 # 8-byte Spill
	movq	%rsi, 144(%rsp)                 # 8-byte Spill
	movq	%rax, 120(%rsp)                 # 8-byte Spill
	movq	%rcx, 112(%rsp)                 # 8-byte Spill
	movq	%rsi, 96(%rsp)                  # 8-byte Spill
	movq	%rax, 72(%rsp)                  # 8-byte Spill
	movq	%rcx, 64(%rsp)                  # 8-byte Spill
	movq	%rsi, 48(%rsp)                  # 8-byte Spill
	movq	%rax, 24(%rsp)                  # 8-byte Spill
	movq	%rcx, 8(%rsp)                   # 8-byte Spill
	movq	%rsi, -8(%rsp)                  # 8-byte Spill
	movq	%rax, -32(%rsp)                 # 8-byte Spill
	movq	%rcx, -48(%rsp)                 # 8-byte Spill
	movq	%rsi, %rdi
	movl	$3014656, %r9d                  # imm = 0x2E0000
	movq	%rcx, %rdx
	movq	%rsi, %r10
	cmpq	$78, %r14
	jb	.LBB1_68
.LBB1_13:                               # %"std_io::io::error::byte_or_dot.exit37.i466"
	movq	-64(%rsp), %rax                 # 8-byte Reload
	movzbl	77(%rax), %ebp
	shlq	$40, %rbp
	movq	%rcx, %r8
	cmpq	$78, %r14
	jne	.LBB1_15
# %bb.14:
	movq	%rbp, %rcx
	jmp	.LBB1_69
.LBB1_15:                               # %"std_io::io::error::byte_or_dot.exit43.i469"
	movzbl	78(%rax), %esi
	shlq	$48, %rsi
	movq	%rbp, %rcx
	cmpq	$80, %r14
	jb	.LBB1_69
# %bb.16:                               # %then.1.i46.i480
	movzbl	79(%rax), %r13d
	shlq	$56, %r13
.LBB1_69:                               # %"std_io::io::error::pack.exit504"
	orq	%r13, %rsi
	movq	-80(%rsp), %r14                 # 8-byte Reload
	orq	%r9, %r14
	movzbl	-127(%rsp), %eax                # 1-byte Folded Reload
	orq	%rax, %r14
	movq	-88(%rsp), %rax                 # 8-byte Reload
	orq	%rdx, %rax
	orq	-96(%rsp), %rax                 # 8-byte Folded Reload
	orq	%r14, %rax
	movq	%r10, %rbp
	orq	-104(%rsp), %rbp                # 8-byte Folded Reload
	orq	%rax, %rbp
	movq	-24(%rsp), %rdx                 # 8-byte Reload
	orq	-32(%rsp), %rdx                 # 8-byte Folded Reload
	movzbl	-126(%rsp), %eax                # 1-byte Folded Reload
	orq	%rax, %rdx
	movq	-40(%rsp), %rax                 # 8-byte Reload
	orq	-48(%rsp), %rax                 # 8-byte Folded Reload
	orq	-56(%rsp), %rax                 # 8-byte Folded Reload
	orq	%rdx, %rax
	movq	%rdi, %r9
	orq	-72(%rsp), %r9                  # 8-byte Folded Reload
	orq	%rax, %r9
	movq	32(%rsp), %rdx                  # 8-byte Reload
	orq	24(%rsp), %rdx                  # 8-byte Folded Reload
	movzbl	-125(%rsp), %eax                # 1-byte Folded Reload
	orq	%rax, %rdx
	movq	16(%rsp), %rax                  # 8-byte Reload
	orq	8(%rsp), %rax                   # 8-byte Folded Reload
	orq	(%rsp), %rax                    # 8-byte Folded Reload
	orq	%rdx, %rax
	movq	-8(%rsp), %rdi                  # 8-byte Reload
	orq	-16(%rsp), %rdi                 # 8-byte Folded Reload
	orq	%rax, %rdi
	movq	80(%rsp), %rdx                  # 8-byte Reload
	orq	72(%rsp), %rdx                  # 8-byte Folded Reload
	movzbl	-124(%rsp), %eax                # 1-byte Folded Reload
	orq	%rax, %rdx
	orq	64(%rsp), %r12                  # 8-byte Folded Reload
	orq	56(%rsp), %r12                  # 8-byte Folded Reload
	orq	%rdx, %r12
	movq	48(%rsp), %r10                  # 8-byte Reload
	orq	40(%rsp), %r10                  # 8-byte Folded Reload
	orq	%r12, %r10
	movq	128(%rsp), %rdx                 # 8-byte Reload
	orq	120(%rsp), %rdx                 # 8-byte Folded Reload
	movzbl	-123(%rsp), %eax                # 1-byte Folded Reload
	orq	%rax, %rdx
	orq	112(%rsp), %r15                 # 8-byte Folded Reload
	orq	104(%rsp), %r15                 # 8-byte Folded Reload
	orq	%rdx, %r15
	movq	%rsi, %r12
	movq	96(%rsp), %rsi                  # 8-byte Reload
	orq	88(%rsp), %rsi                  # 8-byte Folded Reload
	orq	%r15, %rsi
	movq	184(%rsp), %rdx                 # 8-byte Reload
	orq	176(%rsp), %rdx                 # 8-byte Folded Reload
	movzbl	-122(%rsp), %eax                # 1-byte Folded Reload
	orq	%rax, %rdx
	movq	168(%rsp), %rax                 # 8-byte Reload
	orq	160(%rsp), %rax                 # 8-byte Folded Reload
	orq	152(%rsp), %rax                 # 8-byte Folded Reload
	orq	%rdx, %rax
	movq	144(%rsp), %r11                 # 8-byte Reload
	orq	136(%rsp), %r11                 # 8-byte Folded Reload
	orq	%rax, %r11
	movq	248(%rsp), %rdx                 # 8-byte Reload
	orq	240(%rsp), %rdx                 # 8-byte Folded Reload
	movzbl	-121(%rsp), %eax                # 1-byte Folded Reload
	orq	%rax, %rdx
	movq	232(%rsp), %rax                 # 8-byte Reload
	orq	224(%rsp), %rax                 # 8-byte Folded Reload
	orq	208(%rsp), %rax                 # 8-byte Folded Reload
	orq	%rdx, %rax
	movq	200(%rsp), %r13                 # 8-byte Reload
	orq	192(%rsp), %r13                 # 8-byte Folded Reload
	orq	%rax, %r13
	movq	304(%rsp), %rdx                 # 8-byte Reload
	orq	296(%rsp), %rdx                 # 8-byte Folded Reload
	movzbl	-105(%rsp), %eax                # 1-byte Folded Reload
	orq	%rax, %rdx
	movq	288(%rsp), %rax                 # 8-byte Reload
	orq	280(%rsp), %rax                 # 8-byte Folded Reload
	orq	272(%rsp), %rax                 # 8-byte Folded Reload
	orq	%rdx, %rax
	movq	264(%rsp), %r15                 # 8-byte Reload
	orq	256(%rsp), %r15                 # 8-byte Folded Reload
	orq	%rax, %r15
	orq	352(%rsp), %rbx                 # 8-byte Folded Reload
	movzbl	222(%rsp), %eax                 # 1-byte Folded Reload
	orq	%rax, %rbx
	movq	344(%rsp), %rax                 # 8-byte Reload
	orq	336(%rsp), %rax                 # 8-byte Folded Reload
	orq	328(%rsp), %rax                 # 8-byte Folded Reload
	orq	%rbx, %rax
	movq	320(%rsp), %rdx                 # 8-byte Reload
	orq	312(%rsp), %rdx                 # 8-byte Folded Reload
	orq	%rax, %rdx
	movq	376(%rsp), %r14                 # 8-byte Reload
	orq	368(%rsp), %r14                 # 8-byte Folded Reload
	movzbl	223(%rsp), %eax                 # 1-byte Folded Reload
	orq	%rax, %r14
	movq	384(%rsp), %rbx                 # 8-byte Reload
	orq	%r8, %rbx
	orq	%rcx, %rbx
	orq	%r14, %rbx
	orq	%r12, %rbx
	movl	360(%rsp), %eax                 # 4-byte Reload
	movq	392(%rsp), %rcx                 # 8-byte Reload
	movb	%al, (%rcx)
	movl	364(%rsp), %eax                 # 4-byte Reload
	movb	%al, 1(%rcx)
	movq	400(%rsp), %rax                 # 8-byte Reload
	movb	%al, 2(%rcx)
	movb	$0, 3(%rcx)
	movl	$0, 4(%rcx)
	movq	%rdx, 8(%rcx)
	movq	%r15, 16(%rcx)
	movq	%r13, 24(%rcx)
	movq	%r11, 32(%rcx)
	movq	%rsi, 40(%rcx)
	movq	%r10, 48(%rcx)
	movq	%rdi, 56(%rcx)
	movq	%r9, 64(%rcx)
	movq	%rbp, 72(%rcx)
	movq	%rbx, 80(%rcx)
	addq	$408, %rsp                      # imm = 0x198
	popq	%rbx
	popq	%r12
	popq	%r13
	popq	%r14
	popq	%r15
	popq	%rbp
	retq
.LBB1_17:                               # %"std_io::io::error::byte_or_dot.exit25.i"
	movzbl	3(%rcx), %eax
	shll	$24, %eax
	movq	%rax, 344(%rsp)                 # 8-byte Spill
	cmpq	$5, %r14
	jb	.LBB1_20
# %bb.18:                               # %"std_io::io::error::byte_or_dot.exit31.i"
	movzbl	4(%rcx), %eax
	shlq	$32, %rax
	movq	%rax, 336(%rsp)                 # 8-byte Spill
	cmpq	$5, %r14
	jne	.LBB1_22
# %bb.19:
	movq	%r13, -104(%rsp)                # 8-byte Spill
	movq	%r11, -96(%rsp)                 # 8-byte Spill
	movl	$771751936, %eax                # imm = 0x2E000000
	movq	%rax, -88(%rsp)                 # 8-byte Spill
	movl	$11776, %eax                    # imm = 0x2E00
	movq	%rax, -80(%rsp)                 # 8-byte Spill
	movq	%r13, -72(%rsp)                 # 8-byte Spill
	movq	%r11, -56(%rsp)                 # 8-byte Spill
	movl	$771751936, %eax                # imm = 0x2E000000
	movq	%rax, -40(%rsp)                 # 8-byte Spill
	movl	$11776, %eax                    # imm = 0x2E00
	movq	%rax, -24(%rsp)                 # 8-byte Spill
	movq	%r13, -16(%rsp)                 # 8-byte Spill
	movq	%r11, (%rsp)                    # 8-byte Spill
	movl	$771751936, %eax                # imm = 0x2E000000
	movq	%rax, 16(%rsp)                  # 8-byte Spill
	movb	$46, -105(%rsp)                 # 1-byte Folded Spill
	movb	$46, -121(%rsp)                 # 1-byte Folded Spill
	movb	$46, -122(%rsp)                 # 1-byte Folded Spill
	movb	$46, -123(%rsp)                 # 1-byte Folded Spill
	movb	$46, -124(%rsp)                 # 1-byte Folded Spill
	movb	$46, -125(%rsp)                 # 1-byte Folded Spill
	movb	$46, -126(%rsp)                 # 1-byte Folded Spill
	movb	$46, -127(%rsp)                 # 1-byte Folded Spill
	movl	$11776, %eax                    # imm = 0x2E00
	movq	%rax, 32(%rsp)                  # 8-byte Spill
	movq	%r13, 40(%rsp)                  # 8-byte Spill
	movq	%r11, 56(%rsp)                  # 8-byte Spill
	movl	$771751936, %r12d               # imm = 0x2E000000
	movq	%rax, 80(%rsp)                  # 8-byte Spill
	movq	%r13, 88(%rsp)                  # 8-byte Spill
	movq	%r11, 104(%rsp)                 # 8-byte Spill
	movl	$771751936, %r15d               # imm = 0x2E000000
	movq	%rax, 128(%rsp)                 # 8-byte Spill
	movq	%r13, 136(%rsp)                 # 8-byte Spill
	movq	%r11, 152(%rsp)                 # 8-byte Spill
	movl	$771751936, %eax                # imm = 0x2E000000
	movq	%rax, 168(%rsp)                 # 8-byte Spill
	movl	$11776, %eax                    # imm = 0x2E00
	movq	%rax, 184(%rsp)                 # 8-byte Spill
	movq	%r13, 192(%rsp)                 # 8-byte Spill
	movq	%r11, 208(%rsp)                 # 8-byte Spill
	movl	$771751936, %eax                # imm = 0x2E000000
	movq	%rax, 232(%rsp)                 # 8-byte Spill
	movl	$11776, %eax                    # imm = 0x2E00
	movq	%rax, 248(%rsp)                 # 8-byte Spill
	movq	%r13, 256(%rsp)                 # 8-byte Spill
	movq	%r11, 272(%rsp)                 # 8-byte Spill
	movl	$771751936, %eax                # imm = 0x2E000000
	movq	%rax, 288(%rsp)                 # 8-byte Spill
	movl	$11776, %eax                    # imm = 0x2E00
	movq	%rax, 304(%rsp)                 # 8-byte Spill
	movq	%r13, 312(%rsp)                 # 8-byte Spill
	movq	%r11, 328(%rsp)                 # 8-byte Spill
	jmp	.LBB1_26
.LBB1_20:
	movq	%r13, -104(%rsp)                # 8-byte Spill
	movq	%r11, -96(%rsp)                 # 8-byte Spill
	movl	$771751936, %eax                # imm = 0x2E000000
	movq	%rax, -88(%rsp)                 # 8-byte Spill
	movl	$11776, %eax                    # imm = 0x2E00
	movq	%rax, -80(%rsp)                 # 8-byte Spill
	movq	%r13, -72(%rsp)                 # 8-byte Spill
	movq	%r11, -56(%rsp)                 # 8-byte Spill
	movl	$771751936, %eax                # imm = 0x2E000000
	movq	%rax, -40(%rsp)                 # 8-byte Spill
	movl	$11776, %eax                    # imm = 0x2E00
	movq	%rax, -24(%rsp)                 # 8-byte Spill
	movq	%r13, -16(%rsp)                 # 8-byte Spill
	movq	%r11, (%rsp)                    # 8-byte Spill
	movl	$771751936, %eax                # imm = 0x2E000000
	movq	%rax, 16(%rsp)                  # 8-byte Spill
	movb	$46, -105(%rsp)                 # 1-byte Folded Spill
	movb	$46, -121(%rsp)                 # 1-byte Folded Spill
	movb	$46, -122(%rsp)                 # 1-byte Folded Spill
	movb	$46, -123(%rsp)                 # 1-byte Folded Spill
	movb	$46, -124(%rsp)                 # 1-byte Folded Spill
	movb	$46, -125(%rsp)                 # 1-byte Folded Spill
	movb	$46, -126(%rsp)                 # 1-byte Folded Spill
	movb	$46, -127(%rsp)                 # 1-byte Folded Spill
	movl	$11776, %eax                    # imm = 0x2E00
	movq	%rax, 32(%rsp)                  # 8-byte Spill
	movq	%r13, 40(%rsp)                  # 8-byte Spill
	movq	%r11, 56(%rsp)                  # 8-byte Spill
	movl	$771751936, %r12d               # imm = 0x2E000000
	movq	%rax, 80(%rsp)                  # 8-byte Spill
	movq	%r13, 88(%rsp)                  # 8-byte Spill
	movq	%r11, 104(%rsp)                 # 8-byte Spill
	movl	$771751936, %r15d               # imm = 0x2E000000
	movq	%rax, 128(%rsp)                 # 8-byte Spill
	movq	%r13, 136(%rsp)                 # 8-byte Spill
	movq	%r11, 152(%rsp)                 # 8-byte Spill
	movl	$771751936, %eax                # imm = 0x2E000000
	movq	%rax, 168(%rsp)                 # 8-byte Spill
	movl	$11776, %eax                    # imm = 0x2E00
	movq	%rax, 184(%rsp)                 # 8-byte Spill
	movq	%r13, 192(%rsp)                 # 8-byte Spill
	movq	%r11, 208(%rsp)                 # 8-byte Spill
	movl	$771751936, %eax                # imm = 0x2E000000
	movq	%rax, 232(%rsp)                 # 8-byte Spill
	movl	$11776, %eax                    # imm = 0x2E00
	movq	%rax, 248(%rsp)                 # 8-byte Spill
	movq	%r13, 256(%rsp)                 # 8-byte Spill
	movq	%r11, 272(%rsp)                 # 8-byte Spill
	movl	$771751936, %eax                # imm = 0x2E000000
	movq	%rax, 288(%rsp)                 # 8-byte Spill
	movl	$11776, %eax                    # imm = 0x2E00
	movq	%rax, 304(%rsp)                 # 8-byte Spill
	movq	%r13, 312(%rsp)                 # 8-byte Spill
	movq	%r11, 328(%rsp)                 # 8-byte Spill
.LBB1_21:                               # %"std_io::io::error::byte_or_dot.exit31.i463"
	movabsq	$197568495616, %rcx             # imm = 0x2E00000000
	movq	%rcx, 336(%rsp)                 # 8-byte Spill
	movq	%rsi, 320(%rsp)                 # 8-byte Spill
	movl	$3014656, %eax                  # imm = 0x2E0000
	jmp	.LBB1_9
.LBB1_22:                               # %"std_io::io::error::byte_or_dot.exit37.i"
	movzbl	5(%rcx), %eax
	shlq	$40, %rax
	movq	%rax, 328(%rsp)                 # 8-byte Spill
	cmpq	$7, %r14
	jb	.LBB1_25
# %bb.23:                               # %"std_io::io::error::byte_or_dot.exit43.i"
	movzbl	6(%rcx), %eax
	shlq	$48, %rax
	movq	%rax, 320(%rsp)                 # 8-byte Spill
	cmpq	$7, %r14
	jne	.LBB1_28
# %bb.24:
	movq	%r13, -104(%rsp)                # 8-byte Spill
	movq	%r11, -96(%rsp)                 # 8-byte Spill
	movl	$771751936, %eax                # imm = 0x2E000000
	movq	%rax, -88(%rsp)                 # 8-byte Spill
	movl	$11776, %eax                    # imm = 0x2E00
	movq	%rax, -80(%rsp)                 # 8-byte Spill
	movq	%r13, -72(%rsp)                 # 8-byte Spill
	movq	%r11, -56(%rsp)                 # 8-byte Spill
	movl	$771751936, %eax                # imm = 0x2E000000
	movq	%rax, -40(%rsp)                 # 8-byte Spill
	movl	$11776, %eax                    # imm = 0x2E00
	movq	%rax, -24(%rsp)                 # 8-byte Spill
	movq	%r13, -16(%rsp)                 # 8-byte Spill
	movq	%r11, (%rsp)                    # 8-byte Spill
	movl	$771751936, %eax                # imm = 0x2E000000
	movq	%rax, 16(%rsp)                  # 8-byte Spill
	movb	$46, -105(%rsp)                 # 1-byte Folded Spill
	movb	$46, -121(%rsp)                 # 1-byte Folded Spill
	movb	$46, -122(%rsp)                 # 1-byte Folded Spill
	movb	$46, -123(%rsp)                 # 1-byte Folded Spill
	movb	$46, -124(%rsp)                 # 1-byte Folded Spill
	movb	$46, -125(%rsp)                 # 1-byte Folded Spill
	movb	$46, -126(%rsp)                 # 1-byte Folded Spill
	movb	$46, -127(%rsp)                 # 1-byte Folded Spill
	movl	$11776, %eax                    # imm = 0x2E00
	movq	%rax, 32(%rsp)                  # 8-byte Spill
	movq	%r13, 40(%rsp)                  # 8-byte Spill
	movq	%r11, 56(%rsp)                  # 8-byte Spill
	movl	$771751936, %r12d               # imm = 0x2E000000
	movq	%rax, 80(%rsp)                  # 8-byte Spill
	movq	%r13, 88(%rsp)                  # 8-byte Spill
	movq	%r11, 104(%rsp)                 # 8-byte Spill
	movl	$771751936, %r15d               # imm = 0x2E000000
	movq	%rax, 128(%rsp)                 # 8-byte Spill
	movq	%r13, 136(%rsp)                 # 8-byte Spill
	movq	%r11, 152(%rsp)                 # 8-byte Spill
	movl	$771751936, %eax                # imm = 0x2E000000
	movq	%rax, 168(%rsp)                 # 8-byte Spill
	movl	$11776, %eax                    # imm = 0x2E00
	movq	%rax, 184(%rsp)                 # 8-byte Spill
	movq	%r13, 192(%rsp)                 # 8-byte Spill
	movq	%r11, 208(%rsp)                 # 8-byte Spill
	movl	$771751936, %eax                # imm = 0x2E000000
	movq	%rax, 232(%rsp)                 # 8-byte Spill
	movl	$11776, %eax                    # imm = 0x2E00
	movq	%rax, 248(%rsp)                 # 8-byte Spill
	movq	%r13, 256(%rsp)                 # 8-byte Spill
	movq	%r11, 272(%rsp)                 # 8-byte Spill
	movl	$771751936, %eax                # imm = 0x2E000000
	movq	%rax, 288(%rsp)                 # 8-byte Spill
	movl	$11776, %eax                    # imm = 0x2E00
	movq	%rax, 304(%rsp)                 # 8-byte Spill
	movq	%r13, 312(%rsp)                 # 8-byte Spill
	jmp	.LBB1_27
.LBB1_25:
	movq	%r13, -104(%rsp)                # 8-byte Spill
	movq	%r11, -96(%rsp)                 # 8-byte Spill
	movl	$771751936, %eax                # imm = 0x2E000000
	movq	%rax, -88(%rsp)                 # 8-byte Spill
	movl	$11776, %eax                    # imm = 0x2E00
	movq	%rax, -80(%rsp)                 # 8-byte Spill
	movq	%r13, -72(%rsp)                 # 8-byte Spill
	movq	%r11, -56(%rsp)                 # 8-byte Spill
	movl	$771751936, %eax                # imm = 0x2E000000
	movq	%rax, -40(%rsp)                 # 8-byte Spill
	movl	$11776, %eax                    # imm = 0x2E00
	movq	%rax, -24(%rsp)                 # 8-byte Spill
	movq	%r13, -16(%rsp)                 # 8-byte Spill
	movq	%r11, (%rsp)                    # 8-byte Spill
	movl	$771751936, %eax                # imm = 0x2E000000
	movq	%rax, 16(%rsp)                  # 8-byte Spill
	movb	$46, -105(%rsp)                 # 1-byte Folded Spill
	movb	$46, -121(%rsp)                 # 1-byte Folded Spill
	movb	$46, -122(%rsp)                 # 1-byte Folded Spill
	movb	$46, -123(%rsp)                 # 1-byte Folded Spill
	movb	$46, -124(%rsp)                 # 1-byte Folded Spill
	movb	$46, -125(%rsp)                 # 1-byte Folded Spill
	movb	$46, -126(%rsp)                 # 1-byte Folded Spill
	movb	$46, -127(%rsp)                 # 1-byte Folded Spill
	movl	$11776, %eax                    # imm = 0x2E00
	movq	%rax, 32(%rsp)                  # 8-byte Spill
	movq	%r13, 40(%rsp)                  # 8-byte Spill
	movq	%r11, 56(%rsp)                  # 8-byte Spill
	movl	$771751936, %r12d               # imm = 0x2E000000
	movq	%rax, 80(%rsp)                  # 8-byte Spill
	movq	%r13, 88(%rsp)                  # 8-byte Spill
	movq	%r11, 104(%rsp)                 # 8-byte Spill
	movl	$771751936, %r15d               # imm = 0x2E000000
	movq	%rax, 128(%rsp)                 # 8-byte Spill
	movq	%r13, 136(%rsp)                 # 8-byte Spill
	movq	%r11, 152(%rsp)                 # 8-byte Spill
	movl	$771751936, %eax                # imm = 0x2E000000
	movq	%rax, 168(%rsp)                 # 8-byte Spill
	movl	$11776, %eax                    # imm = 0x2E00
	movq	%rax, 184(%rsp)                 # 8-byte Spill
	movq	%r13, 192(%rsp)                 # 8-byte Spill
	movq	%r11, 208(%rsp)                 # 8-byte Spill
	movl	$771751936, %eax                # imm = 0x2E000000
	movq	%rax, 232(%rsp)                 # 8-byte Spill
	movl	$11776, %eax                    # imm = 0x2E00
	movq	%rax, 248(%rsp)                 # 8-byte Spill
	movq	%r13, 256(%rsp)                 # 8-byte Spill
	movq	%r11, 272(%rsp)                 # 8-byte Spill
	movl	$771751936, %eax                # imm = 0x2E000000
	movq	%rax, 288(%rsp)                 # 8-byte Spill
	movl	$11776, %eax                    # imm = 0x2E00
	movq	%rax, 304(%rsp)                 # 8-byte Spill
	movq	%r13, 312(%rsp)                 # 8-byte Spill
.LBB1_26:                               # %"std_io::io::error::byte_or_dot.exit31.i463"
	movq	%rsi, 320(%rsp)                 # 8-byte Spill
.LBB1_27:                               # %"std_io::io::error::byte_or_dot.exit31.i463"
	movl	$3014656, %eax                  # imm = 0x2E0000
	movq	%rax, 296(%rsp)                 # 8-byte Spill
	movabsq	$197568495616, %rcx             # imm = 0x2E00000000
	jmp	.LBB1_10
.LBB1_28:                               # %"std_io::io::error::pack.exit"
	movzbl	7(%rcx), %eax
	shlq	$56, %rax
	movq	%rax, 312(%rsp)                 # 8-byte Spill
	cmpq	$9, %r14
	jb	.LBB1_31
# %bb.29:                               # %"std_io::io::error::byte_or_dot.exit.i12"
	movzbl	8(%rcx), %eax
	movb	%al, -105(%rsp)                 # 1-byte Spill
	jne	.LBB1_33
# %bb.30:
	movq	%r13, -104(%rsp)                # 8-byte Spill
	movq	%r11, -96(%rsp)                 # 8-byte Spill
	movl	$771751936, %eax                # imm = 0x2E000000
	movq	%rax, -88(%rsp)                 # 8-byte Spill
	movl	$11776, %eax                    # imm = 0x2E00
	movq	%rax, -80(%rsp)                 # 8-byte Spill
	movq	%r13, -72(%rsp)                 # 8-byte Spill
	movq	%r11, -56(%rsp)                 # 8-byte Spill
	movl	$771751936, %eax                # imm = 0x2E000000
	movq	%rax, -40(%rsp)                 # 8-byte Spill
	movl	$11776, %eax                    # imm = 0x2E00
	movq	%rax, -24(%rsp)                 # 8-byte Spill
	movq	%r13, -16(%rsp)                 # 8-byte Spill
	movq	%r11, (%rsp)                    # 8-byte Spill
	movl	$771751936, %eax                # imm = 0x2E000000
	movq	%rax, 16(%rsp)                  # 8-byte Spill
	movl	$11776, %eax                    # imm = 0x2E00
	movq	%rax, 32(%rsp)                  # 8-byte Spill
	movb	$46, -121(%rsp)                 # 1-byte Folded Spill
	movb	$46, -122(%rsp)                 # 1-byte Folded Spill
	movb	$46, -123(%rsp)                 # 1-byte Folded Spill
	movb	$46, -124(%rsp)                 # 1-byte Folded Spill
	movb	$46, -125(%rsp)                 # 1-byte Folded Spill
	movb	$46, -126(%rsp)                 # 1-byte Folded Spill
	movb	$46, -127(%rsp)                 # 1-byte Folded Spill
	jmp	.LBB1_32
.LBB1_31:
	movq	%r13, -104(%rsp)                # 8-byte Spill
	movq	%r11, -96(%rsp)                 # 8-byte Spill
	movl	$771751936, %eax                # imm = 0x2E000000
	movq	%rax, -88(%rsp)                 # 8-byte Spill
	movl	$11776, %eax                    # imm = 0x2E00
	movq	%rax, -80(%rsp)                 # 8-byte Spill
	movq	%r13, -72(%rsp)                 # 8-byte Spill
	movq	%r11, -56(%rsp)                 # 8-byte Spill
	movl	$771751936, %eax                # imm = 0x2E000000
	movq	%rax, -40(%rsp)                 # 8-byte Spill
	movl	$11776, %eax                    # imm = 0x2E00
	movq	%rax, -24(%rsp)                 # 8-byte Spill
	movq	%r13, -16(%rsp)                 # 8-byte Spill
	movq	%r11, (%rsp)                    # 8-byte Spill
	movl	$771751936, %eax                # imm = 0x2E000000
	movq	%rax, 16(%rsp)                  # 8-byte Spill
	movb	$46, -105(%rsp)                 # 1-byte Folded Spill
	movb	$46, -121(%rsp)                 # 1-byte Folded Spill
	movb	$46, -122(%rsp)                 # 1-byte Folded Spill
	movb	$46, -123(%rsp)                 # 1-byte Folded Spill
	movb	$46, -124(%rsp)                 # 1-byte Folded Spill
	movb	$46, -125(%rsp)                 # 1-byte Folded Spill
	movb	$46, -126(%rsp)                 # 1-byte Folded Spill
	movb	$46, -127(%rsp)                 # 1-byte Folded Spill
	movl	$11776, %eax                    # imm = 0x2E00
	movq	%rax, 32(%rsp)                  # 8-byte Spill
.LBB1_32:                               # %"std_io::io::error::byte_or_dot.exit31.i463"
	movq	%r13, 40(%rsp)                  # 8-byte Spill
	movq	%r11, 56(%rsp)                  # 8-byte Spill
	movl	$771751936, %r12d               # imm = 0x2E000000
	movq	%rax, 80(%rsp)                  # 8-byte Spill
	movq	%r13, 88(%rsp)                  # 8-byte Spill
	movq	%r11, 104(%rsp)                 # 8-byte Spill
	movl	$771751936, %r15d               # imm = 0x2E000000
	movq	%rax, 128(%rsp)                 # 8-byte Spill
	movq	%r13, 136(%rsp)                 # 8-byte Spill
	movq	%r11, 152(%rsp)                 # 8-byte Spill
	movl	$771751936, %eax                # imm = 0x2E000000
	movq	%rax, 168(%rsp)                 # 8-byte Spill
	movl	$11776, %eax                    # imm = 0x2E00
	movq	%rax, 184(%rsp)                 # 8-byte Spill
	movq	%r13, 192(%rsp)                 # 8-byte Spill
	movq	%r11, 208(%rsp)                 # 8-byte Spill
	movl	$771751936, %eax                # imm = 0x2E000000
	movq	%rax, 232(%rsp)                 # 8-byte Spill
	movl	$11776, %eax                    # imm = 0x2E00
	movq	%rax, 248(%rsp)                 # 8-byte Spill
	movq	%r13, 256(%rsp)                 # 8-byte Spill
	movq	%r11, 272(%rsp)                 # 8-byte Spill
	movl	$771751936, %eax                # imm = 0x2E000000
	movq	%rax, 288(%rsp)                 # 8-byte Spill
	movl	$11776, %eax                    # imm = 0x2E00
	movq	%rax, 304(%rsp)                 # 8-byte Spill
	jmp	.LBB1_27
.LBB1_33:                               # %"std_io::io::error::byte_or_dot.exit13.i15"
	movzbl	9(%rcx), %eax
	shll	$8, %eax
	movq	%rax, 304(%rsp)                 # 8-byte Spill
	cmpq	$11, %r14
	jb	.LBB1_36
# %bb.34:                               # %"std_io::io::error::byte_or_dot.exit19.i18"
	movzbl	10(%rcx), %eax
	shll	$16, %eax
	movq	%rax, 296(%rsp)                 # 8-byte Spill
	cmpq	$11, %r14
	jne	.LBB1_37
# %bb.35:
	movq	%r13, -104(%rsp)                # 8-byte Spill
	movq	%r11, -96(%rsp)                 # 8-byte Spill
	movl	$771751936, %eax                # imm = 0x2E000000
	movq	%rax, -88(%rsp)                 # 8-byte Spill
	movl	$11776, %eax                    # imm = 0x2E00
	movq	%rax, -80(%rsp)                 # 8-byte Spill
	movq	%r13, -72(%rsp)                 # 8-byte Spill
	movq	%r11, -56(%rsp)                 # 8-byte Spill
	movl	$771751936, %eax                # imm = 0x2E000000
	movq	%rax, -40(%rsp)                 # 8-byte Spill
	movl	$11776, %eax                    # imm = 0x2E00
	movq	%rax, -24(%rsp)                 # 8-byte Spill
	movq	%r13, -16(%rsp)                 # 8-byte Spill
	movq	%r11, (%rsp)                    # 8-byte Spill
	movl	$771751936, %eax                # imm = 0x2E000000
	movq	%rax, 16(%rsp)                  # 8-byte Spill
	movl	$11776, %eax                    # imm = 0x2E00
	movq	%rax, 32(%rsp)                  # 8-byte Spill
	movb	$46, -121(%rsp)                 # 1-byte Folded Spill
	movb	$46, -122(%rsp)                 # 1-byte Folded Spill
	movb	$46, -123(%rsp)                 # 1-byte Folded Spill
	movb	$46, -124(%rsp)                 # 1-byte Folded Spill
	movb	$46, -125(%rsp)                 # 1-byte Folded Spill
	movb	$46, -126(%rsp)                 # 1-byte Folded Spill
	movb	$46, -127(%rsp)                 # 1-byte Folded Spill
	movq	%r13, 40(%rsp)                  # 8-byte Spill
	movq	%r11, 56(%rsp)                  # 8-byte Spill
	movl	$771751936, %r12d               # imm = 0x2E000000
	movq	%rax, 80(%rsp)                  # 8-byte Spill
	movq	%r13, 88(%rsp)                  # 8-byte Spill
	movq	%r11, 104(%rsp)                 # 8-byte Spill
	movl	$771751936, %r15d               # imm = 0x2E000000
	movq	%rax, 128(%rsp)                 # 8-byte Spill
	movq	%r13, 136(%rsp)                 # 8-byte Spill
	movq	%r11, 152(%rsp)                 # 8-byte Spill
	movl	$771751936, %eax                # imm = 0x2E000000
	movq	%rax, 168(%rsp)                 # 8-byte Spill
	movl	$11776, %eax                    # imm = 0x2E00
	movq	%rax, 184(%rsp)                 # 8-byte Spill
	movq	%r13, 192(%rsp)                 # 8-byte Spill
	movq	%r11, 208(%rsp)                 # 8-byte Spill
	movl	$771751936, %eax                # imm = 0x2E000000
	movq	%rax, 232(%rsp)                 # 8-byte Spill
	movl	$11776, %eax                    # imm = 0x2E00
	movq	%rax, 248(%rsp)                 # 8-byte Spill
	movq	%r13, 256(%rsp)                 # 8-byte Spill
	movq	%r11, 272(%rsp)                 # 8-byte Spill
	movl	$771751936, %eax                # imm = 0x2E000000
	movq	%rax, 288(%rsp)                 # 8-byte Spill
	jmp	.LBB1_41
.LBB1_36:
	movq	%r13, -104(%rsp)                # 8-byte Spill
	movq	%r11, -96(%rsp)                 # 8-byte Spill
	movl	$771751936, %eax                # imm = 0x2E000000
	movq	%rax, -88(%rsp)                 # 8-byte Spill
	movl	$11776, %eax                    # imm = 0x2E00
	movq	%rax, -80(%rsp)                 # 8-byte Spill
	movq	%r13, -72(%rsp)                 # 8-byte Spill
	movq	%r11, -56(%rsp)                 # 8-byte Spill
	movl	$771751936, %eax                # imm = 0x2E000000
	movq	%rax, -40(%rsp)                 # 8-byte Spill
	movl	$11776, %eax                    # imm = 0x2E00
	movq	%rax, -24(%rsp)                 # 8-byte Spill
	movq	%r13, -16(%rsp)                 # 8-byte Spill
	movq	%r11, (%rsp)                    # 8-byte Spill
	movl	$771751936, %eax                # imm = 0x2E000000
	movq	%rax, 16(%rsp)                  # 8-byte Spill
	movl	$11776, %eax                    # imm = 0x2E00
	movq	%rax, 32(%rsp)                  # 8-byte Spill
	movb	$46, -121(%rsp)                 # 1-byte Folded Spill
	movb	$46, -122(%rsp)                 # 1-byte Folded Spill
	movb	$46, -123(%rsp)                 # 1-byte Folded Spill
	movb	$46, -124(%rsp)                 # 1-byte Folded Spill
	movb	$46, -125(%rsp)                 # 1-byte Folded Spill
	movb	$46, -126(%rsp)                 # 1-byte Folded Spill
	movb	$46, -127(%rsp)                 # 1-byte Folded Spill
	movq	%r13, 40(%rsp)                  # 8-byte Spill
	movq	%r11, 56(%rsp)                  # 8-byte Spill
	movl	$771751936, %r12d               # imm = 0x2E000000
	movq	%rax, 80(%rsp)                  # 8-byte Spill
	movq	%r13, 88(%rsp)                  # 8-byte Spill
	movq	%r11, 104(%rsp)                 # 8-byte Spill
	movl	$771751936, %r15d               # imm = 0x2E000000
	movq	%rax, 128(%rsp)                 # 8-byte Spill
	movq	%r13, 136(%rsp)                 # 8-byte Spill
	movq	%r11, 152(%rsp)                 # 8-byte Spill
	movl	$771751936, %eax                # imm = 0x2E000000
	movq	%rax, 168(%rsp)                 # 8-byte Spill
	movl	$11776, %eax                    # imm = 0x2E00
	movq	%rax, 184(%rsp)                 # 8-byte Spill
	movq	%r13, 192(%rsp)                 # 8-byte Spill
	movq	%r11, 208(%rsp)                 # 8-byte Spill
	movl	$771751936, %eax                # imm = 0x2E000000
	movq	%rax, 232(%rsp)                 # 8-byte Spill
	movl	$11776, %eax                    # imm = 0x2E00
	movq	%rax, 248(%rsp)                 # 8-byte Spill
	movq	%r13, 256(%rsp)                 # 8-byte Spill
	movq	%r11, 272(%rsp)                 # 8-byte Spill
	movl	$771751936, %eax                # imm = 0x2E000000
	movq	%rax, 288(%rsp)                 # 8-byte Spill
	jmp	.LBB1_27
.LBB1_37:                               # %"std_io::io::error::byte_or_dot.exit25.i21"
	movzbl	11(%rcx), %eax
	shll	$24, %eax
	movq	%rax, 288(%rsp)                 # 8-byte Spill
	cmpq	$13, %r14
	jb	.LBB1_40
# %bb.38:                               # %"std_io::io::error::byte_or_dot.exit31.i24"
	movzbl	12(%rcx), %eax
	shlq	$32, %rax
	movq	%rax, 280(%rsp)                 # 8-byte Spill
	cmpq	$13, %r14
	jne	.LBB1_42
# %bb.39:
	movq	%r13, -104(%rsp)                # 8-byte Spill
	movq	%r11, -96(%rsp)                 # 8-byte Spill
	movl	$771751936, %eax                # imm = 0x2E000000
	movq	%rax, -88(%rsp)                 # 8-byte Spill
	movl	$11776, %eax                    # imm = 0x2E00
	movq	%rax, -80(%rsp)                 # 8-byte Spill
	movq	%r13, -72(%rsp)                 # 8-byte Spill
	movq	%r11, -56(%rsp)                 # 8-byte Spill
	movl	$771751936, %eax                # imm = 0x2E000000
	movq	%rax, -40(%rsp)                 # 8-byte Spill
	movl	$11776, %eax                    # imm = 0x2E00
	movq	%rax, -24(%rsp)                 # 8-byte Spill
	movq	%r13, -16(%rsp)                 # 8-byte Spill
	movq	%r11, (%rsp)                    # 8-byte Spill
	movl	$771751936, %eax                # imm = 0x2E000000
	movq	%rax, 16(%rsp)                  # 8-byte Spill
	movl	$11776, %eax                    # imm = 0x2E00
	movq	%rax, 32(%rsp)                  # 8-byte Spill
	movb	$46, -121(%rsp)                 # 1-byte Folded Spill
	movb	$46, -122(%rsp)                 # 1-byte Folded Spill
	movb	$46, -123(%rsp)                 # 1-byte Folded Spill
	movb	$46, -124(%rsp)                 # 1-byte Folded Spill
	movb	$46, -125(%rsp)                 # 1-byte Folded Spill
	movb	$46, -126(%rsp)                 # 1-byte Folded Spill
	movb	$46, -127(%rsp)                 # 1-byte Folded Spill
	movq	%r13, 40(%rsp)                  # 8-byte Spill
	movq	%r11, 56(%rsp)                  # 8-byte Spill
	movl	$771751936, %r12d               # imm = 0x2E000000
	movq	%rax, 80(%rsp)                  # 8-byte Spill
	movq	%r13, 88(%rsp)                  # 8-byte Spill
	movq	%r11, 104(%rsp)                 # 8-byte Spill
	movl	$771751936, %r15d               # imm = 0x2E000000
	movq	%rax, 128(%rsp)                 # 8-byte Spill
	movq	%r13, 136(%rsp)                 # 8-byte Spill
	movq	%r11, 152(%rsp)                 # 8-byte Spill
	movl	$771751936, %eax                # imm = 0x2E000000
	movq	%rax, 168(%rsp)                 # 8-byte Spill
	movl	$11776, %eax                    # imm = 0x2E00
	movq	%rax, 184(%rsp)                 # 8-byte Spill
	movq	%r13, 192(%rsp)                 # 8-byte Spill
	movq	%r11, 208(%rsp)                 # 8-byte Spill
	movl	$771751936, %eax                # imm = 0x2E000000
	movq	%rax, 232(%rsp)                 # 8-byte Spill
	movl	$11776, %eax                    # imm = 0x2E00
	movq	%rax, 248(%rsp)                 # 8-byte Spill
	movq	%r13, 256(%rsp)                 # 8-byte Spill
	movq	%r11, 272(%rsp)                 # 8-byte Spill
	jmp	.LBB1_46
.LBB1_40:
	movq	%r13, -104(%rsp)                # 8-byte Spill
	movq	%r11, -96(%rsp)                 # 8-byte Spill
	movl	$771751936, %eax                # imm = 0x2E000000
	movq	%rax, -88(%rsp)                 # 8-byte Spill
	movl	$11776, %eax                    # imm = 0x2E00
	movq	%rax, -80(%rsp)                 # 8-byte Spill
	movq	%r13, -72(%rsp)                 # 8-byte Spill
	movq	%r11, -56(%rsp)                 # 8-byte Spill
	movl	$771751936, %eax                # imm = 0x2E000000
	movq	%rax, -40(%rsp)                 # 8-byte Spill
	movl	$11776, %eax                    # imm = 0x2E00
	movq	%rax, -24(%rsp)                 # 8-byte Spill
	movq	%r13, -16(%rsp)                 # 8-byte Spill
	movq	%r11, (%rsp)                    # 8-byte Spill
	movl	$771751936, %eax                # imm = 0x2E000000
	movq	%rax, 16(%rsp)                  # 8-byte Spill
	movl	$11776, %eax                    # imm = 0x2E00
	movq	%rax, 32(%rsp)                  # 8-byte Spill
	movb	$46, -121(%rsp)                 # 1-byte Folded Spill
	movb	$46, -122(%rsp)                 # 1-byte Folded Spill
	movb	$46, -123(%rsp)                 # 1-byte Folded Spill
	movb	$46, -124(%rsp)                 # 1-byte Folded Spill
	movb	$46, -125(%rsp)                 # 1-byte Folded Spill
	movb	$46, -126(%rsp)                 # 1-byte Folded Spill
	movb	$46, -127(%rsp)                 # 1-byte Folded Spill
	movq	%r13, 40(%rsp)                  # 8-byte Spill
	movq	%r11, 56(%rsp)                  # 8-byte Spill
	movl	$771751936, %r12d               # imm = 0x2E000000
	movq	%rax, 80(%rsp)                  # 8-byte Spill
	movq	%r13, 88(%rsp)                  # 8-byte Spill
	movq	%r11, 104(%rsp)                 # 8-byte Spill
	movl	$771751936, %r15d               # imm = 0x2E000000
	movq	%rax, 128(%rsp)                 # 8-byte Spill
	movq	%r13, 136(%rsp)                 # 8-byte Spill
	movq	%r11, 152(%rsp)                 # 8-byte Spill
	movl	$771751936, %eax                # imm = 0x2E000000
	movq	%rax, 168(%rsp)                 # 8-byte Spill
	movl	$11776, %eax                    # imm = 0x2E00
	movq	%rax, 184(%rsp)                 # 8-byte Spill
	movq	%r13, 192(%rsp)                 # 8-byte Spill
	movq	%r11, 208(%rsp)                 # 8-byte Spill
	movl	$771751936, %eax                # imm = 0x2E000000
	movq	%rax, 232(%rsp)                 # 8-byte Spill
	movl	$11776, %eax                    # imm = 0x2E00
	movq	%rax, 248(%rsp)                 # 8-byte Spill
	movq	%r13, 256(%rsp)                 # 8-byte Spill
	movq	%r11, 272(%rsp)                 # 8-byte Spill
.LBB1_41:                               # %"std_io::io::error::byte_or_dot.exit31.i463"
	movabsq	$197568495616, %rcx             # imm = 0x2E00000000
	movq	%rcx, 280(%rsp)                 # 8-byte Spill
	movq	%rsi, 264(%rsp)                 # 8-byte Spill
	movl	$3014656, %eax                  # imm = 0x2E0000
	jmp	.LBB1_11
.LBB1_42:                               # %"std_io::io::error::byte_or_dot.exit37.i27"
	movzbl	13(%rcx), %eax
	shlq	$40, %rax
	movq	%rax, 272(%rsp)                 # 8-byte Spill
	cmpq	$15, %r14
	jb	.LBB1_45
# %bb.43:                               # %"std_io::io::error::byte_or_dot.exit43.i30"
	movq	-64(%rsp), %rax                 # 8-byte Reload
	movzbl	14(%rax), %eax
	shlq	$48, %rax
	movq	%rax, 264(%rsp)                 # 8-byte Spill
	movq	%r14, -120(%rsp)                # 8-byte Spill
	cmpq	$15, %r14
	jne	.LBB1_47
# %bb.44:
	movq	%r13, -104(%rsp)                # 8-byte Spill
	movq	%r11, -96(%rsp)                 # 8-byte Spill
	movl	$771751936, %eax                # imm = 0x2E000000
	movq	%rax, -88(%rsp)                 # 8-byte Spill
	movl	$11776, %eax                    # imm = 0x2E00
	movq	%rax, -80(%rsp)                 # 8-byte Spill
	movq	%r13, -72(%rsp)                 # 8-byte Spill
	movq	%r11, -56(%rsp)                 # 8-byte Spill
	movl	$771751936, %eax                # imm = 0x2E000000
	movq	%rax, -40(%rsp)                 # 8-byte Spill
	movl	$11776, %eax                    # imm = 0x2E00
	movq	%rax, -24(%rsp)                 # 8-byte Spill
	movq	%r13, -16(%rsp)                 # 8-byte Spill
	movq	%r11, (%rsp)                    # 8-byte Spill
	movl	$771751936, %eax                # imm = 0x2E000000
	movq	%rax, 16(%rsp)                  # 8-byte Spill
	movl	$11776, %eax                    # imm = 0x2E00
	movq	%rax, 32(%rsp)                  # 8-byte Spill
	movb	$46, -121(%rsp)                 # 1-byte Folded Spill
	movb	$46, -122(%rsp)                 # 1-byte Folded Spill
	movb	$46, -123(%rsp)                 # 1-byte Folded Spill
	movb	$46, -124(%rsp)                 # 1-byte Folded Spill
	movb	$46, -125(%rsp)                 # 1-byte Folded Spill
	movb	$46, -126(%rsp)                 # 1-byte Folded Spill
	movb	$46, -127(%rsp)                 # 1-byte Folded Spill
	movq	%r13, 40(%rsp)                  # 8-byte Spill
	movq	%r11, 56(%rsp)                  # 8-byte Spill
	movl	$771751936, %r12d               # imm = 0x2E000000
	movq	%rax, 80(%rsp)                  # 8-byte Spill
	movq	%r13, 88(%rsp)                  # 8-byte Spill
	movq	%r11, 104(%rsp)                 # 8-byte Spill
	movl	$771751936, %r15d               # imm = 0x2E000000
	movq	%rax, 128(%rsp)                 # 8-byte Spill
	movq	%r13, 136(%rsp)                 # 8-byte Spill
	movq	%r11, 152(%rsp)                 # 8-byte Spill
	movl	$771751936, %eax                # imm = 0x2E000000
	movq	%rax, 168(%rsp)                 # 8-byte Spill
	movl	$11776, %eax                    # imm = 0x2E00
	movq	%rax, 184(%rsp)                 # 8-byte Spill
	movq	%r13, 192(%rsp)                 # 8-byte Spill
	movq	%r11, 208(%rsp)                 # 8-byte Spill
	movl	$771751936, %eax                # imm = 0x2E000000
	movq	%rax, 232(%rsp)                 # 8-byte Spill
	movl	$11776, %eax                    # imm = 0x2E00
	movq	%rax, 248(%rsp)                 # 8-byte Spill
	movq	%r13, 256(%rsp)                 # 8-byte Spill
	jmp	.LBB1_52
.LBB1_45:
	movq	%r13, -104(%rsp)                # 8-byte Spill
	movq	%r11, -96(%rsp)                 # 8-byte Spill
	movl	$771751936, %eax                # imm = 0x2E000000
	movq	%rax, -88(%rsp)                 # 8-byte Spill
	movl	$11776, %eax                    # imm = 0x2E00
	movq	%rax, -80(%rsp)                 # 8-byte Spill
	movq	%r13, -72(%rsp)                 # 8-byte Spill
	movq	%r11, -56(%rsp)                 # 8-byte Spill
	movl	$771751936, %eax                # imm = 0x2E000000
	movq	%rax, -40(%rsp)                 # 8-byte Spill
	movl	$11776, %eax                    # imm = 0x2E00
	movq	%rax, -24(%rsp)                 # 8-byte Spill
	movq	%r13, -16(%rsp)                 # 8-byte Spill
	movq	%r11, (%rsp)                    # 8-byte Spill
	movl	$771751936, %eax                # imm = 0x2E000000
	movq	%rax, 16(%rsp)                  # 8-byte Spill
	movl	$11776, %eax                    # imm = 0x2E00
	movq	%rax, 32(%rsp)                  # 8-byte Spill
	movb	$46, -121(%rsp)                 # 1-byte Folded Spill
	movb	$46, -122(%rsp)                 # 1-byte Folded Spill
	movb	$46, -123(%rsp)                 # 1-byte Folded Spill
	movb	$46, -124(%rsp)                 # 1-byte Folded Spill
	movb	$46, -125(%rsp)                 # 1-byte Folded Spill
	movb	$46, -126(%rsp)                 # 1-byte Folded Spill
	movb	$46, -127(%rsp)                 # 1-byte Folded Spill
	movq	%r13, 40(%rsp)                  # 8-byte Spill
	movq	%r11, 56(%rsp)                  # 8-byte Spill
	movl	$771751936, %r12d               # imm = 0x2E000000
	movq	%rax, 80(%rsp)                  # 8-byte Spill
	movq	%r13, 88(%rsp)                  # 8-byte Spill
	movq	%r11, 104(%rsp)                 # 8-byte Spill
	movl	$771751936, %r15d               # imm = 0x2E000000
	movq	%rax, 128(%rsp)                 # 8-byte Spill
	movq	%r13, 136(%rsp)                 # 8-byte Spill
	movq	%r11, 152(%rsp)                 # 8-byte Spill
	movl	$771751936, %eax                # imm = 0x2E000000
	movq	%rax, 168(%rsp)                 # 8-byte Spill
	movl	$11776, %eax                    # imm = 0x2E00
	movq	%rax, 184(%rsp)                 # 8-byte Spill
	movq	%r13, 192(%rsp)                 # 8-byte Spill
	movq	%r11, 208(%rsp)                 # 8-byte Spill
	movl	$771751936, %eax                # imm = 0x2E000000
	movq	%rax, 232(%rsp)                 # 8-byte Spill
	movl	$11776, %eax                    # imm = 0x2E00
	movq	%rax, 248(%rsp)                 # 8-byte Spill
	movq	%r13, 256(%rsp)                 # 8-byte Spill
.LBB1_46:                               # %"std_io::io::error::byte_or_dot.exit31.i463"
	movq	%rsi, 264(%rsp)                 # 8-byte Spill
	movl	$3014656, %eax                  # imm = 0x2E0000
	movq	%rax, 240(%rsp)                 # 8-byte Spill
	movabsq	$197568495616, %rcx             # imm = 0x2E00000000
	jmp	.LBB1_12
.LBB1_47:                               # %"std_io::io::error::pack.exit64"
	movq	-64(%rsp), %rax                 # 8-byte Reload
	movzbl	15(%rax), %eax
	shlq	$56, %rax
	movq	%rax, 256(%rsp)                 # 8-byte Spill
	cmpq	$17, -120(%rsp)                 # 8-byte Folded Reload
	jb	.LBB1_50
# %bb.48:                               # %"std_io::io::error::byte_or_dot.exit.i66"
	movq	-64(%rsp), %rax                 # 8-byte Reload
	movzbl	16(%rax), %eax
	movb	%al, -121(%rsp)                 # 1-byte Spill
	jne	.LBB1_70
# %bb.49:
	movq	%r13, -104(%rsp)                # 8-byte Spill
	movq	%r11, -96(%rsp)                 # 8-byte Spill
	movl	$771751936, %eax                # imm = 0x2E000000
	movq	%rax, -88(%rsp)                 # 8-byte Spill
	movl	$11776, %eax                    # imm = 0x2E00
	movq	%rax, -80(%rsp)                 # 8-byte Spill
	movq	%r13, -72(%rsp)                 # 8-byte Spill
	movq	%r11, -56(%rsp)                 # 8-byte Spill
	movl	$771751936, %eax                # imm = 0x2E000000
	movq	%rax, -40(%rsp)                 # 8-byte Spill
	movl	$11776, %eax                    # imm = 0x2E00
	movq	%rax, -24(%rsp)                 # 8-byte Spill
	movq	%r13, -16(%rsp)                 # 8-byte Spill
	movq	%r11, (%rsp)                    # 8-byte Spill
	movl	$771751936, %eax                # imm = 0x2E000000
	movq	%rax, 16(%rsp)                  # 8-byte Spill
	movl	$11776, %eax                    # imm = 0x2E00
	movq	%rax, 32(%rsp)                  # 8-byte Spill
	jmp	.LBB1_51
.LBB1_50:
	movq	%r13, -104(%rsp)                # 8-byte Spill
	movq	%r11, -96(%rsp)                 # 8-byte Spill
	movl	$771751936, %eax                # imm = 0x2E000000
	movq	%rax, -88(%rsp)                 # 8-byte Spill
	movl	$11776, %eax                    # imm = 0x2E00
	movq	%rax, -80(%rsp)                 # 8-byte Spill
	movq	%r13, -72(%rsp)                 # 8-byte Spill
	movq	%r11, -56(%rsp)                 # 8-byte Spill
	movl	$771751936, %eax                # imm = 0x2E000000
	movq	%rax, -40(%rsp)                 # 8-byte Spill
	movl	$11776, %eax                    # imm = 0x2E00
	movq	%rax, -24(%rsp)                 # 8-byte Spill
	movq	%r13, -16(%rsp)                 # 8-byte Spill
	movq	%r11, (%rsp)                    # 8-byte Spill
	movl	$771751936, %eax                # imm = 0x2E000000
	movq	%rax, 16(%rsp)                  # 8-byte Spill
	movl	$11776, %eax                    # imm = 0x2E00
	movq	%rax, 32(%rsp)                  # 8-byte Spill
	movb	$46, -121(%rsp)                 # 1-byte Folded Spill
.LBB1_51:                               # %"std_io::io::error::byte_or_dot.exit31.i463"
	movb	$46, -122(%rsp)                 # 1-byte Folded Spill
	movb	$46, -123(%rsp)                 # 1-byte Folded Spill
	movb	$46, -124(%rsp)                 # 1-byte Folded Spill
	movb	$46, -125(%rsp)                 # 1-byte Folded Spill
	movb	$46, -126(%rsp)                 # 1-byte Folded Spill
	movb	$46, -127(%rsp)                 # 1-byte Folded Spill
	movq	%r13, 40(%rsp)                  # 8-byte Spill
	movq	%r11, 56(%rsp)                  # 8-byte Spill
	movl	$771751936, %r12d               # imm = 0x2E000000
	movq	%rax, 80(%rsp)                  # 8-byte Spill
	movq	%r13, 88(%rsp)                  # 8-byte Spill
	movq	%r11, 104(%rsp)                 # 8-byte Spill
	movl	$771751936, %r15d               # imm = 0x2E000000
	movq	%rax, 128(%rsp)                 # 8-byte Spill
	movq	%r13, 136(%rsp)                 # 8-byte Spill
	movq	%r11, 152(%rsp)                 # 8-byte Spill
	movl	$771751936, %eax                # imm = 0x2E000000
	movq	%rax, 168(%rsp)                 # 8-byte Spill
	movl	$11776, %eax                    # imm = 0x2E00
	movq	%rax, 184(%rsp)                 # 8-byte Spill
	movq	%r13, 192(%rsp)                 # 8-byte Spill
	movq	%r11, 208(%rsp)                 # 8-byte Spill
	movl	$771751936, %eax                # imm = 0x2E000000
	movq	%rax, 232(%rsp)                 # 8-byte Spill
	movl	$11776, %eax                    # imm = 0x2E00
	movq	%rax, 248(%rsp)                 # 8-byte Spill
.LBB1_52:                               # %"std_io::io::error::byte_or_dot.exit31.i463"
	movl	$3014656, %eax                  # imm = 0x2E0000
	movq	%rax, 240(%rsp)                 # 8-byte Spill
	movabsq	$197568495616, %rcx             # imm = 0x2E00000000
	movq	%rcx, 224(%rsp)                 # 8-byte Spill
	movq	%rsi, 200(%rsp)                 # 8-byte Spill
.LBB1_53:                               # %"std_io::io::error::byte_or_dot.exit31.i463"
	movq	%rax, 176(%rsp)                 # 8-byte Spill
.LBB1_54:                               # %"std_io::io::error::byte_or_dot.exit31.i463"
	movq	%rcx, 160(%rsp)                 # 8-byte Spill
	movq	%rsi, 144(%rsp)                 # 8-byte Spill
.LBB1_55:                               # %"std_io::io::error::byte_or_dot.exit31.i463"
	movq	%rax, 120(%rsp)                 # 8-byte Spill
.LBB1_56:                               # %"std_io::io::error::byte_or_dot.exit31.i463"
	movq	%rcx, 112(%rsp)                 # 8-byte Spill
	movq	%rsi, 96(%rsp)                  # 8-byte Spill
.LBB1_57:                               # %"std_io::io::error::byte_or_dot.exit31.i463"
	movq	%rax, 72(%rsp)                  # 8-byte Spill
.LBB1_58:                               # %"std_io::io::error::byte_or_dot.exit31.i463"
	movq	%rcx, 64(%rsp)                  # 8-byte Spill
	movq	%rsi, 48(%rsp)                  # 8-byte Spill
.LBB1_59:                               # %"std_io::io::error::byte_or_dot.exit31.i463"
	movq	%rax, 24(%rsp)                  # 8-byte Spill
.LBB1_60:                               # %"std_io::io::error::byte_or_dot.exit31.i463"
	movq	%rcx, 8(%rsp)                   # 8-byte Spill
.LBB1_61:                               # %"std_io::io::error::byte_or_dot.exit31.i463"
	movq	%rsi, -8(%rsp)                  # 8-byte Spill
.LBB1_62:                               # %"std_io::io::error::byte_or_dot.exit31.i463"
	movq	%rax, -32(%rsp)                 # 8-byte Spill
.LBB1_63:                               # %"std_io::io::error::byte_or_dot.exit31.i463"
	movq	%rcx, -48(%rsp)                 # 8-byte Spill
.LBB1_64:                               # %"std_io::io::error::byte_or_dot.exit31.i463"
	movq	%rsi, %rdi
.LBB1_65:                               # %"std_io::io::error::byte_or_dot.exit31.i463"
	movl	$3014656, %r9d                  # imm = 0x2E0000
.LBB1_66:                               # %"std_io::io::error::byte_or_dot.exit31.i463"
	movq	%rcx, %rdx
	movq	%rsi, %r10
.LBB1_67:                               # %"std_io::io::error::byte_or_dot.exit31.i463"
	movq	-120(%rsp), %r14                # 8-byte Reload
	cmpq	$78, %r14
	jae	.LBB1_13
	jmp	.LBB1_68
.LBB1_70:                               # %"std_io::io::error::byte_or_dot.exit13.i69"
	movq	-64(%rsp), %rax                 # 8-byte Reload
	movzbl	17(%rax), %eax
	shll	$8, %eax
	movq	%rax, 248(%rsp)                 # 8-byte Spill
	cmpq	$19, -120(%rsp)                 # 8-byte Folded Reload
	jb	.LBB1_73
# %bb.71:                               # %"std_io::io::error::byte_or_dot.exit19.i72"
	movq	-64(%rsp), %rax                 # 8-byte Reload
	movzbl	18(%rax), %eax
	shll	$16, %eax
	movq	%rax, 240(%rsp)                 # 8-byte Spill
	cmpq	$19, -120(%rsp)                 # 8-byte Folded Reload
	jne	.LBB1_74
# %bb.72:
	movq	%r13, -104(%rsp)                # 8-byte Spill
	movq	%r11, -96(%rsp)                 # 8-byte Spill
	movl	$771751936, %eax                # imm = 0x2E000000
	movq	%rax, -88(%rsp)                 # 8-byte Spill
	movl	$11776, %eax                    # imm = 0x2E00
	movq	%rax, -80(%rsp)                 # 8-byte Spill
	movq	%r13, -72(%rsp)                 # 8-byte Spill
	movq	%r11, -56(%rsp)                 # 8-byte Spill
	movl	$771751936, %eax                # imm = 0x2E000000
	movq	%rax, -40(%rsp)                 # 8-byte Spill
	movl	$11776, %eax                    # imm = 0x2E00
	movq	%rax, -24(%rsp)                 # 8-byte Spill
	movq	%r13, -16(%rsp)                 # 8-byte Spill
	movq	%r11, (%rsp)                    # 8-byte Spill
	movl	$771751936, %eax                # imm = 0x2E000000
	movq	%rax, 16(%rsp)                  # 8-byte Spill
	movl	$11776, %eax                    # imm = 0x2E00
	movq	%rax, 32(%rsp)                  # 8-byte Spill
	movb	$46, -122(%rsp)                 # 1-byte Folded Spill
	movb	$46, -123(%rsp)                 # 1-byte Folded Spill
	movb	$46, -124(%rsp)                 # 1-byte Folded Spill
	movb	$46, -125(%rsp)                 # 1-byte Folded Spill
	movb	$46, -126(%rsp)                 # 1-byte Folded Spill
	movb	$46, -127(%rsp)                 # 1-byte Folded Spill
	movq	%r13, 40(%rsp)                  # 8-byte Spill
	movq	%r11, 56(%rsp)                  # 8-byte Spill
	movl	$771751936, %r12d               # imm = 0x2E000000
	movq	%rax, 80(%rsp)                  # 8-byte Spill
	movq	%r13, 88(%rsp)                  # 8-byte Spill
	movq	%r11, 104(%rsp)                 # 8-byte Spill
	movl	$771751936, %r15d               # imm = 0x2E000000
	movq	%rax, 128(%rsp)                 # 8-byte Spill
	movq	%r13, 136(%rsp)                 # 8-byte Spill
	movq	%r11, 152(%rsp)                 # 8-byte Spill
	movl	$771751936, %eax                # imm = 0x2E000000
	movq	%rax, 168(%rsp)                 # 8-byte Spill
	movl	$11776, %eax                    # imm = 0x2E00
	movq	%rax, 184(%rsp)                 # 8-byte Spill
	movq	%r13, 192(%rsp)                 # 8-byte Spill
	movq	%r11, 208(%rsp)                 # 8-byte Spill
	movl	$771751936, %eax                # imm = 0x2E000000
	movq	%rax, 232(%rsp)                 # 8-byte Spill
	jmp	.LBB1_78
.LBB1_73:
	movq	%r13, -104(%rsp)                # 8-byte Spill
	movq	%r11, -96(%rsp)                 # 8-byte Spill
	movl	$771751936, %eax                # imm = 0x2E000000
	movq	%rax, -88(%rsp)                 # 8-byte Spill
	movl	$11776, %eax                    # imm = 0x2E00
	movq	%rax, -80(%rsp)                 # 8-byte Spill
	movq	%r13, -72(%rsp)                 # 8-byte Spill
	movq	%r11, -56(%rsp)                 # 8-byte Spill
	movl	$771751936, %eax                # imm = 0x2E000000
	movq	%rax, -40(%rsp)                 # 8-byte Spill
	movl	$11776, %eax                    # imm = 0x2E00
	movq	%rax, -24(%rsp)                 # 8-byte Spill
	movq	%r13, -16(%rsp)                 # 8-byte Spill
	movq	%r11, (%rsp)                    # 8-byte Spill
	movl	$771751936, %eax                # imm = 0x2E000000
	movq	%rax, 16(%rsp)                  # 8-byte Spill
	movl	$11776, %eax                    # imm = 0x2E00
	movq	%rax, 32(%rsp)                  # 8-byte Spill
	movb	$46, -122(%rsp)                 # 1-byte Folded Spill
	movb	$46, -123(%rsp)                 # 1-byte Folded Spill
	movb	$46, -124(%rsp)                 # 1-byte Folded Spill
	movb	$46, -125(%rsp)                 # 1-byte Folded Spill
	movb	$46, -126(%rsp)                 # 1-byte Folded Spill
	movb	$46, -127(%rsp)                 # 1-byte Folded Spill
	movq	%r13, 40(%rsp)                  # 8-byte Spill
	movq	%r11, 56(%rsp)                  # 8-byte Spill
	movl	$771751936, %r12d               # imm = 0x2E000000
	movq	%rax, 80(%rsp)                  # 8-byte Spill
	movq	%r13, 88(%rsp)                  # 8-byte Spill
	movq	%r11, 104(%rsp)                 # 8-byte Spill
	movl	$771751936, %r15d               # imm = 0x2E000000
	movq	%rax, 128(%rsp)                 # 8-byte Spill
	movq	%r13, 136(%rsp)                 # 8-byte Spill
	movq	%r11, 152(%rsp)                 # 8-byte Spill
	movl	$771751936, %eax                # imm = 0x2E000000
	movq	%rax, 168(%rsp)                 # 8-byte Spill
	movl	$11776, %eax                    # imm = 0x2E00
	movq	%rax, 184(%rsp)                 # 8-byte Spill
	movq	%r13, 192(%rsp)                 # 8-byte Spill
	movq	%r11, 208(%rsp)                 # 8-byte Spill
	movl	$771751936, %eax                # imm = 0x2E000000
	movq	%rax, 232(%rsp)                 # 8-byte Spill
	jmp	.LBB1_52
.LBB1_74:                               # %"std_io::io::error::byte_or_dot.exit25.i75"
	movq	-64(%rsp), %rax                 # 8-byte Reload
	movzbl	19(%rax), %eax
	shll	$24, %eax
	movq	%rax, 232(%rsp)                 # 8-byte Spill
	cmpq	$21, -120(%rsp)                 # 8-byte Folded Reload
	jb	.LBB1_77
# %bb.75:                               # %"std_io::io::error::byte_or_dot.exit31.i78"
	movq	-64(%rsp), %rax                 # 8-byte Reload
	movzbl	20(%rax), %eax
	shlq	$32, %rax
	movq	%rax, 224(%rsp)                 # 8-byte Spill
	cmpq	$21, -120(%rsp)                 # 8-byte Folded Reload
	jne	.LBB1_79
# %bb.76:
	movq	%r13, -104(%rsp)                # 8-byte Spill
	movq	%r11, -96(%rsp)                 # 8-byte Spill
	movl	$771751936, %eax                # imm = 0x2E000000
	movq	%rax, -88(%rsp)                 # 8-byte Spill
	movl	$11776, %eax                    # imm = 0x2E00
	movq	%rax, -80(%rsp)                 # 8-byte Spill
	movq	%r13, -72(%rsp)                 # 8-byte Spill
	movq	%r11, -56(%rsp)                 # 8-byte Spill
	movl	$771751936, %eax                # imm = 0x2E000000
	movq	%rax, -40(%rsp)                 # 8-byte Spill
	movl	$11776, %eax                    # imm = 0x2E00
	movq	%rax, -24(%rsp)                 # 8-byte Spill
	movq	%r13, -16(%rsp)                 # 8-byte Spill
	movq	%r11, (%rsp)                    # 8-byte Spill
	movl	$771751936, %eax                # imm = 0x2E000000
	movq	%rax, 16(%rsp)                  # 8-byte Spill
	movl	$11776, %eax                    # imm = 0x2E00
	movq	%rax, 32(%rsp)                  # 8-byte Spill
	movb	$46, -122(%rsp)                 # 1-byte Folded Spill
	movb	$46, -123(%rsp)                 # 1-byte Folded Spill
	movb	$46, -124(%rsp)                 # 1-byte Folded Spill
	movb	$46, -125(%rsp)                 # 1-byte Folded Spill
	movb	$46, -126(%rsp)                 # 1-byte Folded Spill
	movb	$46, -127(%rsp)                 # 1-byte Folded Spill
	movq	%r13, 40(%rsp)                  # 8-byte Spill
	movq	%r11, 56(%rsp)                  # 8-byte Spill
	movl	$771751936, %r12d               # imm = 0x2E000000
	movq	%rax, 80(%rsp)                  # 8-byte Spill
	movq	%r13, 88(%rsp)                  # 8-byte Spill
	movq	%r11, 104(%rsp)                 # 8-byte Spill
	movl	$771751936, %r15d               # imm = 0x2E000000
	movq	%rax, 128(%rsp)                 # 8-byte Spill
	movq	%r13, 136(%rsp)                 # 8-byte Spill
	movq	%r11, 152(%rsp)                 # 8-byte Spill
	movl	$771751936, %eax                # imm = 0x2E000000
	movq	%rax, 168(%rsp)                 # 8-byte Spill
	movl	$11776, %eax                    # imm = 0x2E00
	movq	%rax, 184(%rsp)                 # 8-byte Spill
	movq	%r13, 192(%rsp)                 # 8-byte Spill
	movq	%r11, 208(%rsp)                 # 8-byte Spill
	jmp	.LBB1_83
.LBB1_77:
	movq	%r13, -104(%rsp)                # 8-byte Spill
	movq	%r11, -96(%rsp)                 # 8-byte Spill
	movl	$771751936, %eax                # imm = 0x2E000000
	movq	%rax, -88(%rsp)                 # 8-byte Spill
	movl	$11776, %eax                    # imm = 0x2E00
	movq	%rax, -80(%rsp)                 # 8-byte Spill
	movq	%r13, -72(%rsp)                 # 8-byte Spill
	movq	%r11, -56(%rsp)                 # 8-byte Spill
	movl	$771751936, %eax                # imm = 0x2E000000
	movq	%rax, -40(%rsp)                 # 8-byte Spill
	movl	$11776, %eax                    # imm = 0x2E00
	movq	%rax, -24(%rsp)                 # 8-byte Spill
	movq	%r13, -16(%rsp)                 # 8-byte Spill
	movq	%r11, (%rsp)                    # 8-byte Spill
	movl	$771751936, %eax                # imm = 0x2E000000
	movq	%rax, 16(%rsp)                  # 8-byte Spill
	movl	$11776, %eax                    # imm = 0x2E00
	movq	%rax, 32(%rsp)                  # 8-byte Spill
	movb	$46, -122(%rsp)                 # 1-byte Folded Spill
	movb	$46, -123(%rsp)                 # 1-byte Folded Spill
	movb	$46, -124(%rsp)                 # 1-byte Folded Spill
	movb	$46, -125(%rsp)                 # 1-byte Folded Spill
	movb	$46, -126(%rsp)                 # 1-byte Folded Spill
	movb	$46, -127(%rsp)                 # 1-byte Folded Spill
	movq	%r13, 40(%rsp)                  # 8-byte Spill
	movq	%r11, 56(%rsp)                  # 8-byte Spill
	movl	$771751936, %r12d               # imm = 0x2E000000
	movq	%rax, 80(%rsp)                  # 8-byte Spill
	movq	%r13, 88(%rsp)                  # 8-byte Spill
	movq	%r11, 104(%rsp)                 # 8-byte Spill
	movl	$771751936, %r15d               # imm = 0x2E000000
	movq	%rax, 128(%rsp)                 # 8-byte Spill
	movq	%r13, 136(%rsp)                 # 8-byte Spill
	movq	%r11, 152(%rsp)                 # 8-byte Spill
	movl	$771751936, %eax                # imm = 0x2E000000
	movq	%rax, 168(%rsp)                 # 8-byte Spill
	movl	$11776, %eax                    # imm = 0x2E00
	movq	%rax, 184(%rsp)                 # 8-byte Spill
	movq	%r13, 192(%rsp)                 # 8-byte Spill
	movq	%r11, 208(%rsp)                 # 8-byte Spill
.LBB1_78:                               # %"std_io::io::error::byte_or_dot.exit31.i463"
	movabsq	$197568495616, %rcx             # imm = 0x2E00000000
	movq	%rcx, 224(%rsp)                 # 8-byte Spill
	movq	%rsi, 200(%rsp)                 # 8-byte Spill
	movl	$3014656, %eax                  # imm = 0x2E0000
	jmp	.LBB1_53
.LBB1_79:                               # %"std_io::io::error::byte_or_dot.exit37.i81"
	movq	-64(%rsp), %rax                 # 8-byte Reload
	movzbl	21(%rax), %eax
	shlq	$40, %rax
	movq	%rax, 208(%rsp)                 # 8-byte Spill
	cmpq	$23, -120(%rsp)                 # 8-byte Folded Reload
	jb	.LBB1_82
# %bb.80:                               # %"std_io::io::error::byte_or_dot.exit43.i84"
	movq	-64(%rsp), %rax                 # 8-byte Reload
	movzbl	22(%rax), %eax
	shlq	$48, %rax
	movq	%rax, 200(%rsp)                 # 8-byte Spill
	cmpq	$23, -120(%rsp)                 # 8-byte Folded Reload
	jne	.LBB1_85
# %bb.81:
	movq	%r13, -104(%rsp)                # 8-byte Spill
	movq	%r11, -96(%rsp)                 # 8-byte Spill
	movl	$771751936, %eax                # imm = 0x2E000000
	movq	%rax, -88(%rsp)                 # 8-byte Spill
	movl	$11776, %eax                    # imm = 0x2E00
	movq	%rax, -80(%rsp)                 # 8-byte Spill
	movq	%r13, -72(%rsp)                 # 8-byte Spill
	movq	%r11, -56(%rsp)                 # 8-byte Spill
	movl	$771751936, %eax                # imm = 0x2E000000
	movq	%rax, -40(%rsp)                 # 8-byte Spill
	movl	$11776, %eax                    # imm = 0x2E00
	movq	%rax, -24(%rsp)                 # 8-byte Spill
	movq	%r13, -16(%rsp)                 # 8-byte Spill
	movq	%r11, (%rsp)                    # 8-byte Spill
	movl	$771751936, %eax                # imm = 0x2E000000
	movq	%rax, 16(%rsp)                  # 8-byte Spill
	movl	$11776, %eax                    # imm = 0x2E00
	movq	%rax, 32(%rsp)                  # 8-byte Spill
	movb	$46, -122(%rsp)                 # 1-byte Folded Spill
	movb	$46, -123(%rsp)                 # 1-byte Folded Spill
	movb	$46, -124(%rsp)                 # 1-byte Folded Spill
	movb	$46, -125(%rsp)                 # 1-byte Folded Spill
	movb	$46, -126(%rsp)                 # 1-byte Folded Spill
	movb	$46, -127(%rsp)                 # 1-byte Folded Spill
	movq	%r13, 40(%rsp)                  # 8-byte Spill
	movq	%r11, 56(%rsp)                  # 8-byte Spill
	movl	$771751936, %r12d               # imm = 0x2E000000
	movq	%rax, 80(%rsp)                  # 8-byte Spill
	movq	%r13, 88(%rsp)                  # 8-byte Spill
	movq	%r11, 104(%rsp)                 # 8-byte Spill
	movl	$771751936, %r15d               # imm = 0x2E000000
	movq	%rax, 128(%rsp)                 # 8-byte Spill
	movq	%r13, 136(%rsp)                 # 8-byte Spill
	movq	%r11, 152(%rsp)                 # 8-byte Spill
	movl	$771751936, %eax                # imm = 0x2E000000
	movq	%rax, 168(%rsp)                 # 8-byte Spill
	movl	$11776, %eax                    # imm = 0x2E00
	movq	%rax, 184(%rsp)                 # 8-byte Spill
	movq	%r13, 192(%rsp)                 # 8-byte Spill
	jmp	.LBB1_84
.LBB1_82:
	movq	%r13, -104(%rsp)                # 8-byte Spill
	movq	%r11, -96(%rsp)                 # 8-byte Spill
	movl	$771751936, %eax                # imm = 0x2E000000
	movq	%rax, -88(%rsp)                 # 8-byte Spill
	movl	$11776, %eax                    # imm = 0x2E00
	movq	%rax, -80(%rsp)                 # 8-byte Spill
	movq	%r13, -72(%rsp)                 # 8-byte Spill
	movq	%r11, -56(%rsp)                 # 8-byte Spill
	movl	$771751936, %eax                # imm = 0x2E000000
	movq	%rax, -40(%rsp)                 # 8-byte Spill
	movl	$11776, %eax                    # imm = 0x2E00
	movq	%rax, -24(%rsp)                 # 8-byte Spill
	movq	%r13, -16(%rsp)                 # 8-byte Spill
	movq	%r11, (%rsp)                    # 8-byte Spill
	movl	$771751936, %eax                # imm = 0x2E000000
	movq	%rax, 16(%rsp)                  # 8-byte Spill
	movl	$11776, %eax                    # imm = 0x2E00
	movq	%rax, 32(%rsp)                  # 8-byte Spill
	movb	$46, -122(%rsp)                 # 1-byte Folded Spill
	movb	$46, -123(%rsp)                 # 1-byte Folded Spill
	movb	$46, -124(%rsp)                 # 1-byte Folded Spill
	movb	$46, -125(%rsp)                 # 1-byte Folded Spill
	movb	$46, -126(%rsp)                 # 1-byte Folded Spill
	movb	$46, -127(%rsp)                 # 1-byte Folded Spill
	movq	%r13, 40(%rsp)                  # 8-byte Spill
	movq	%r11, 56(%rsp)                  # 8-byte Spill
	movl	$771751936, %r12d               # imm = 0x2E000000
	movq	%rax, 80(%rsp)                  # 8-byte Spill
	movq	%r13, 88(%rsp)                  # 8-byte Spill
	movq	%r11, 104(%rsp)                 # 8-byte Spill
	movl	$771751936, %r15d               # imm = 0x2E000000
	movq	%rax, 128(%rsp)                 # 8-byte Spill
	movq	%r13, 136(%rsp)                 # 8-byte Spill
	movq	%r11, 152(%rsp)                 # 8-byte Spill
	movl	$771751936, %eax                # imm = 0x2E000000
	movq	%rax, 168(%rsp)                 # 8-byte Spill
	movl	$11776, %eax                    # imm = 0x2E00
	movq	%rax, 184(%rsp)                 # 8-byte Spill
	movq	%r13, 192(%rsp)                 # 8-byte Spill
.LBB1_83:                               # %"std_io::io::error::byte_or_dot.exit31.i463"
	movq	%rsi, 200(%rsp)                 # 8-byte Spill
.LBB1_84:                               # %"std_io::io::error::byte_or_dot.exit31.i463"
	movl	$3014656, %eax                  # imm = 0x2E0000
	movq	%rax, 176(%rsp)                 # 8-byte Spill
	movabsq	$197568495616, %rcx             # imm = 0x2E00000000
	jmp	.LBB1_54
.LBB1_85:                               # %"std_io::io::error::pack.exit119"
	movq	-64(%rsp), %rax                 # 8-byte Reload
	movzbl	23(%rax), %eax
	shlq	$56, %rax
	movq	%rax, 192(%rsp)                 # 8-byte Spill
	cmpq	$25, -120(%rsp)                 # 8-byte Folded Reload
	jb	.LBB1_88
# %bb.86:                               # %"std_io::io::error::byte_or_dot.exit.i121"
	movq	-64(%rsp), %rax                 # 8-byte Reload
	movzbl	24(%rax), %eax
	movb	%al, -122(%rsp)                 # 1-byte Spill
	jne	.LBB1_90
# %bb.87:
	movq	%r13, -104(%rsp)                # 8-byte Spill
	movq	%r11, -96(%rsp)                 # 8-byte Spill
	movl	$771751936, %eax                # imm = 0x2E000000
	movq	%rax, -88(%rsp)                 # 8-byte Spill
	movl	$11776, %eax                    # imm = 0x2E00
	movq	%rax, -80(%rsp)                 # 8-byte Spill
	movq	%r13, -72(%rsp)                 # 8-byte Spill
	movq	%r11, -56(%rsp)                 # 8-byte Spill
	movl	$771751936, %eax                # imm = 0x2E000000
	movq	%rax, -40(%rsp)                 # 8-byte Spill
	movl	$11776, %eax                    # imm = 0x2E00
	movq	%rax, -24(%rsp)                 # 8-byte Spill
	movq	%r13, -16(%rsp)                 # 8-byte Spill
	movq	%r11, (%rsp)                    # 8-byte Spill
	movl	$771751936, %eax                # imm = 0x2E000000
	movq	%rax, 16(%rsp)                  # 8-byte Spill
	movl	$11776, %eax                    # imm = 0x2E00
	movq	%rax, 32(%rsp)                  # 8-byte Spill
	movq	%r13, 40(%rsp)                  # 8-byte Spill
	movb	$46, -123(%rsp)                 # 1-byte Folded Spill
	movb	$46, -124(%rsp)                 # 1-byte Folded Spill
	movb	$46, -125(%rsp)                 # 1-byte Folded Spill
	movb	$46, -126(%rsp)                 # 1-byte Folded Spill
	movb	$46, -127(%rsp)                 # 1-byte Folded Spill
	jmp	.LBB1_89
.LBB1_88:
	movq	%r13, -104(%rsp)                # 8-byte Spill
	movq	%r11, -96(%rsp)                 # 8-byte Spill
	movl	$771751936, %eax                # imm = 0x2E000000
	movq	%rax, -88(%rsp)                 # 8-byte Spill
	movl	$11776, %eax                    # imm = 0x2E00
	movq	%rax, -80(%rsp)                 # 8-byte Spill
	movq	%r13, -72(%rsp)                 # 8-byte Spill
	movq	%r11, -56(%rsp)                 # 8-byte Spill
	movl	$771751936, %eax                # imm = 0x2E000000
	movq	%rax, -40(%rsp)                 # 8-byte Spill
	movl	$11776, %eax                    # imm = 0x2E00
	movq	%rax, -24(%rsp)                 # 8-byte Spill
	movq	%r13, -16(%rsp)                 # 8-byte Spill
	movq	%r11, (%rsp)                    # 8-byte Spill
	movl	$771751936, %eax                # imm = 0x2E000000
	movq	%rax, 16(%rsp)                  # 8-byte Spill
	movl	$11776, %eax                    # imm = 0x2E00
	movq	%rax, 32(%rsp)                  # 8-byte Spill
	movb	$46, -122(%rsp)                 # 1-byte Folded Spill
	movb	$46, -123(%rsp)                 # 1-byte Folded Spill
	movb	$46, -124(%rsp)                 # 1-byte Folded Spill
	movb	$46, -125(%rsp)                 # 1-byte Folded Spill
	movb	$46, -126(%rsp)                 # 1-byte Folded Spill
	movb	$46, -127(%rsp)                 # 1-byte Folded Spill
	movq	%r13, 40(%rsp)                  # 8-byte Spill
.LBB1_89:                               # %"std_io::io::error::byte_or_dot.exit31.i463"
	movq	%r11, 56(%rsp)                  # 8-byte Spill
	movl	$771751936, %r12d               # imm = 0x2E000000
	movq	%rax, 80(%rsp)                  # 8-byte Spill
	movq	%r13, 88(%rsp)                  # 8-byte Spill
	movq	%r11, 104(%rsp)                 # 8-byte Spill
	movl	$771751936, %r15d               # imm = 0x2E000000
	movq	%rax, 128(%rsp)                 # 8-byte Spill
	movq	%r13, 136(%rsp)                 # 8-byte Spill
	movq	%r11, 152(%rsp)                 # 8-byte Spill
	movl	$771751936, %eax                # imm = 0x2E000000
	movq	%rax, 168(%rsp)                 # 8-byte Spill
	movl	$11776, %eax                    # imm = 0x2E00
	movq	%rax, 184(%rsp)                 # 8-byte Spill
	jmp	.LBB1_84
.LBB1_90:                               # %"std_io::io::error::byte_or_dot.exit13.i124"
	movq	-64(%rsp), %rax                 # 8-byte Reload
	movzbl	25(%rax), %eax
	shll	$8, %eax
	movq	%rax, 184(%rsp)                 # 8-byte Spill
	cmpq	$27, -120(%rsp)                 # 8-byte Folded Reload
	jb	.LBB1_93
# %bb.91:                               # %"std_io::io::error::byte_or_dot.exit19.i127"
	movq	-64(%rsp), %rax                 # 8-byte Reload
	movzbl	26(%rax), %eax
	shll	$16, %eax
	movq	%rax, 176(%rsp)                 # 8-byte Spill
	cmpq	$27, -120(%rsp)                 # 8-byte Folded Reload
	jne	.LBB1_94
# %bb.92:
	movq	%r13, -104(%rsp)                # 8-byte Spill
	movq	%r11, -96(%rsp)                 # 8-byte Spill
	movl	$771751936, %eax                # imm = 0x2E000000
	movq	%rax, -88(%rsp)                 # 8-byte Spill
	movl	$11776, %eax                    # imm = 0x2E00
	movq	%rax, -80(%rsp)                 # 8-byte Spill
	movq	%r13, -72(%rsp)                 # 8-byte Spill
	movq	%r11, -56(%rsp)                 # 8-byte Spill
	movl	$771751936, %eax                # imm = 0x2E000000
	movq	%rax, -40(%rsp)                 # 8-byte Spill
	movl	$11776, %eax                    # imm = 0x2E00
	movq	%rax, -24(%rsp)                 # 8-byte Spill
	movq	%r13, -16(%rsp)                 # 8-byte Spill
	movq	%r11, (%rsp)                    # 8-byte Spill
	movl	$771751936, %eax                # imm = 0x2E000000
	movq	%rax, 16(%rsp)                  # 8-byte Spill
	movl	$11776, %eax                    # imm = 0x2E00
	movq	%rax, 32(%rsp)                  # 8-byte Spill
	movq	%r13, 40(%rsp)                  # 8-byte Spill
	movb	$46, -123(%rsp)                 # 1-byte Folded Spill
	movb	$46, -124(%rsp)                 # 1-byte Folded Spill
	movb	$46, -125(%rsp)                 # 1-byte Folded Spill
	movb	$46, -126(%rsp)                 # 1-byte Folded Spill
	movb	$46, -127(%rsp)                 # 1-byte Folded Spill
	movq	%r11, 56(%rsp)                  # 8-byte Spill
	movl	$771751936, %r12d               # imm = 0x2E000000
	movq	%rax, 80(%rsp)                  # 8-byte Spill
	movq	%r13, 88(%rsp)                  # 8-byte Spill
	movq	%r11, 104(%rsp)                 # 8-byte Spill
	movl	$771751936, %r15d               # imm = 0x2E000000
	movq	%rax, 128(%rsp)                 # 8-byte Spill
	movq	%r13, 136(%rsp)                 # 8-byte Spill
	movq	%r11, 152(%rsp)                 # 8-byte Spill
	movl	$771751936, %eax                # imm = 0x2E000000
	movq	%rax, 168(%rsp)                 # 8-byte Spill
	jmp	.LBB1_98
.LBB1_93:
	movq	%r13, -104(%rsp)                # 8-byte Spill
	movq	%r11, -96(%rsp)                 # 8-byte Spill
	movl	$771751936, %eax                # imm = 0x2E000000
	movq	%rax, -88(%rsp)                 # 8-byte Spill
	movl	$11776, %eax                    # imm = 0x2E00
	movq	%rax, -80(%rsp)                 # 8-byte Spill
	movq	%r13, -72(%rsp)                 # 8-byte Spill
	movq	%r11, -56(%rsp)                 # 8-byte Spill
	movl	$771751936, %eax                # imm = 0x2E000000
	movq	%rax, -40(%rsp)                 # 8-byte Spill
	movl	$11776, %eax                    # imm = 0x2E00
	movq	%rax, -24(%rsp)                 # 8-byte Spill
	movq	%r13, -16(%rsp)                 # 8-byte Spill
	movq	%r11, (%rsp)                    # 8-byte Spill
	movl	$771751936, %eax                # imm = 0x2E000000
	movq	%rax, 16(%rsp)                  # 8-byte Spill
	movl	$11776, %eax                    # imm = 0x2E00
	movq	%rax, 32(%rsp)                  # 8-byte Spill
	movq	%r13, 40(%rsp)                  # 8-byte Spill
	movb	$46, -123(%rsp)                 # 1-byte Folded Spill
	movb	$46, -124(%rsp)                 # 1-byte Folded Spill
	movb	$46, -125(%rsp)                 # 1-byte Folded Spill
	movb	$46, -126(%rsp)                 # 1-byte Folded Spill
	movb	$46, -127(%rsp)                 # 1-byte Folded Spill
	movq	%r11, 56(%rsp)                  # 8-byte Spill
	movl	$771751936, %r12d               # imm = 0x2E000000
	movq	%rax, 80(%rsp)                  # 8-byte Spill
	movq	%r13, 88(%rsp)                  # 8-byte Spill
	movq	%r11, 104(%rsp)                 # 8-byte Spill
	movl	$771751936, %r15d               # imm = 0x2E000000
	movq	%rax, 128(%rsp)                 # 8-byte Spill
	movq	%r13, 136(%rsp)                 # 8-byte Spill
	movq	%r11, 152(%rsp)                 # 8-byte Spill
	movl	$771751936, %eax                # imm = 0x2E000000
	movq	%rax, 168(%rsp)                 # 8-byte Spill
	jmp	.LBB1_84
.LBB1_94:                               # %"std_io::io::error::byte_or_dot.exit25.i130"
	movq	-64(%rsp), %rax                 # 8-byte Reload
	movzbl	27(%rax), %eax
	shll	$24, %eax
	movq	%rax, 168(%rsp)                 # 8-byte Spill
	cmpq	$29, -120(%rsp)                 # 8-byte Folded Reload
	jb	.LBB1_97
# %bb.95:                               # %"std_io::io::error::byte_or_dot.exit31.i133"
	movq	-64(%rsp), %rax                 # 8-byte Reload
	movzbl	28(%rax), %eax
	shlq	$32, %rax
	movq	%rax, 160(%rsp)                 # 8-byte Spill
	cmpq	$29, -120(%rsp)                 # 8-byte Folded Reload
	jne	.LBB1_99
# %bb.96:
	movq	%r13, -104(%rsp)                # 8-byte Spill
	movq	%r11, -96(%rsp)                 # 8-byte Spill
	movl	$771751936, %eax                # imm = 0x2E000000
	movq	%rax, -88(%rsp)                 # 8-byte Spill
	movl	$11776, %eax                    # imm = 0x2E00
	movq	%rax, -80(%rsp)                 # 8-byte Spill
	movq	%r13, -72(%rsp)                 # 8-byte Spill
	movq	%r11, -56(%rsp)                 # 8-byte Spill
	movl	$771751936, %eax                # imm = 0x2E000000
	movq	%rax, -40(%rsp)                 # 8-byte Spill
	movl	$11776, %eax                    # imm = 0x2E00
	movq	%rax, -24(%rsp)                 # 8-byte Spill
	movq	%r13, -16(%rsp)                 # 8-byte Spill
	movq	%r11, (%rsp)                    # 8-byte Spill
	movl	$771751936, %eax                # imm = 0x2E000000
	movq	%rax, 16(%rsp)                  # 8-byte Spill
	movl	$11776, %eax                    # imm = 0x2E00
	movq	%rax, 32(%rsp)                  # 8-byte Spill
	movq	%r13, 40(%rsp)                  # 8-byte Spill
	movb	$46, -123(%rsp)                 # 1-byte Folded Spill
	movb	$46, -124(%rsp)                 # 1-byte Folded Spill
	movb	$46, -125(%rsp)                 # 1-byte Folded Spill
	movb	$46, -126(%rsp)                 # 1-byte Folded Spill
	movb	$46, -127(%rsp)                 # 1-byte Folded Spill
	movq	%r11, 56(%rsp)                  # 8-byte Spill
	movl	$771751936, %r12d               # imm = 0x2E000000
	movq	%rax, 80(%rsp)                  # 8-byte Spill
	movq	%r13, 88(%rsp)                  # 8-byte Spill
	movq	%r11, 104(%rsp)                 # 8-byte Spill
	movl	$771751936, %r15d               # imm = 0x2E000000
	movq	%rax, 128(%rsp)                 # 8-byte Spill
	movq	%r13, 136(%rsp)                 # 8-byte Spill
	movq	%r11, 152(%rsp)                 # 8-byte Spill
	jmp	.LBB1_103
.LBB1_97:
	movq	%r13, -104(%rsp)                # 8-byte Spill
	movq	%r11, -96(%rsp)                 # 8-byte Spill
	movl	$771751936, %eax                # imm = 0x2E000000
	movq	%rax, -88(%rsp)                 # 8-byte Spill
	movl	$11776, %eax                    # imm = 0x2E00
	movq	%rax, -80(%rsp)                 # 8-byte Spill
	movq	%r13, -72(%rsp)                 # 8-byte Spill
	movq	%r11, -56(%rsp)                 # 8-byte Spill
	movl	$771751936, %eax                # imm = 0x2E000000
	movq	%rax, -40(%rsp)                 # 8-byte Spill
	movl	$11776, %eax                    # imm = 0x2E00
	movq	%rax, -24(%rsp)                 # 8-byte Spill
	movq	%r13, -16(%rsp)                 # 8-byte Spill
	movq	%r11, (%rsp)                    # 8-byte Spill
	movl	$771751936, %eax                # imm = 0x2E000000
	movq	%rax, 16(%rsp)                  # 8-byte Spill
	movl	$11776, %eax                    # imm = 0x2E00
	movq	%rax, 32(%rsp)                  # 8-byte Spill
	movq	%r13, 40(%rsp)                  # 8-byte Spill
	movb	$46, -123(%rsp)                 # 1-byte Folded Spill
	movb	$46, -124(%rsp)                 # 1-byte Folded Spill
	movb	$46, -125(%rsp)                 # 1-byte Folded Spill
	movb	$46, -126(%rsp)                 # 1-byte Folded Spill
	movb	$46, -127(%rsp)                 # 1-byte Folded Spill
	movq	%r11, 56(%rsp)                  # 8-byte Spill
	movl	$771751936, %r12d               # imm = 0x2E000000
	movq	%rax, 80(%rsp)                  # 8-byte Spill
	movq	%r13, 88(%rsp)                  # 8-byte Spill
	movq	%r11, 104(%rsp)                 # 8-byte Spill
	movl	$771751936, %r15d               # imm = 0x2E000000
	movq	%rax, 128(%rsp)                 # 8-byte Spill
	movq	%r13, 136(%rsp)                 # 8-byte Spill
	movq	%r11, 152(%rsp)                 # 8-byte Spill
.LBB1_98:                               # %"std_io::io::error::byte_or_dot.exit31.i463"
	movabsq	$197568495616, %rcx             # imm = 0x2E00000000
	movq	%rcx, 160(%rsp)                 # 8-byte Spill
	movq	%rsi, 144(%rsp)                 # 8-byte Spill
	movl	$3014656, %eax                  # imm = 0x2E0000
	jmp	.LBB1_55
.LBB1_99:                               # %"std_io::io::error::byte_or_dot.exit37.i136"
	movq	-64(%rsp), %rax                 # 8-byte Reload
	movzbl	29(%rax), %eax
	shlq	$40, %rax
	movq	%rax, 152(%rsp)                 # 8-byte Spill
	cmpq	$31, -120(%rsp)                 # 8-byte Folded Reload
	jb	.LBB1_102
# %bb.100:                              # %"std_io::io::error::byte_or_dot.exit43.i139"
	movq	-64(%rsp), %rax                 # 8-byte Reload
	movzbl	30(%rax), %eax
	shlq	$48, %rax
	movq	%rax, 144(%rsp)                 # 8-byte Spill
	cmpq	$31, -120(%rsp)                 # 8-byte Folded Reload
	jne	.LBB1_105
# %bb.101:
	movq	%r13, -104(%rsp)                # 8-byte Spill
	movq	%r11, -96(%rsp)                 # 8-byte Spill
	movl	$771751936, %eax                # imm = 0x2E000000
	movq	%rax, -88(%rsp)                 # 8-byte Spill
	movl	$11776, %eax                    # imm = 0x2E00
	movq	%rax, -80(%rsp)                 # 8-byte Spill
	movq	%r13, -72(%rsp)                 # 8-byte Spill
	movq	%r11, -56(%rsp)                 # 8-byte Spill
	movl	$771751936, %eax                # imm = 0x2E000000
	movq	%rax, -40(%rsp)                 # 8-byte Spill
	movl	$11776, %eax                    # imm = 0x2E00
	movq	%rax, -24(%rsp)                 # 8-byte Spill
	movq	%r13, -16(%rsp)                 # 8-byte Spill
	movq	%r11, (%rsp)                    # 8-byte Spill
	movl	$771751936, %eax                # imm = 0x2E000000
	movq	%rax, 16(%rsp)                  # 8-byte Spill
	movl	$11776, %eax                    # imm = 0x2E00
	movq	%rax, 32(%rsp)                  # 8-byte Spill
	movq	%r13, 40(%rsp)                  # 8-byte Spill
	movb	$46, -123(%rsp)                 # 1-byte Folded Spill
	movb	$46, -124(%rsp)                 # 1-byte Folded Spill
	movb	$46, -125(%rsp)                 # 1-byte Folded Spill
	movb	$46, -126(%rsp)                 # 1-byte Folded Spill
	movb	$46, -127(%rsp)                 # 1-byte Folded Spill
	movq	%r11, 56(%rsp)                  # 8-byte Spill
	movl	$771751936, %r12d               # imm = 0x2E000000
	movq	%rax, 80(%rsp)                  # 8-byte Spill
	movq	%r13, 88(%rsp)                  # 8-byte Spill
	movq	%r11, 104(%rsp)                 # 8-byte Spill
	movl	$771751936, %r15d               # imm = 0x2E000000
	movq	%rax, 128(%rsp)                 # 8-byte Spill
	movq	%r13, 136(%rsp)                 # 8-byte Spill
	jmp	.LBB1_104
.LBB1_102:
	movq	%r13, -104(%rsp)                # 8-byte Spill
	movq	%r11, -96(%rsp)                 # 8-byte Spill
	movl	$771751936, %eax                # imm = 0x2E000000
	movq	%rax, -88(%rsp)                 # 8-byte Spill
	movl	$11776, %eax                    # imm = 0x2E00
	movq	%rax, -80(%rsp)                 # 8-byte Spill
	movq	%r13, -72(%rsp)                 # 8-byte Spill
	movq	%r11, -56(%rsp)                 # 8-byte Spill
	movl	$771751936, %eax                # imm = 0x2E000000
	movq	%rax, -40(%rsp)                 # 8-byte Spill
	movl	$11776, %eax                    # imm = 0x2E00
	movq	%rax, -24(%rsp)                 # 8-byte Spill
	movq	%r13, -16(%rsp)                 # 8-byte Spill
	movq	%r11, (%rsp)                    # 8-byte Spill
	movl	$771751936, %eax                # imm = 0x2E000000
	movq	%rax, 16(%rsp)                  # 8-byte Spill
	movl	$11776, %eax                    # imm = 0x2E00
	movq	%rax, 32(%rsp)                  # 8-byte Spill
	movq	%r13, 40(%rsp)                  # 8-byte Spill
	movb	$46, -123(%rsp)                 # 1-byte Folded Spill
	movb	$46, -124(%rsp)                 # 1-byte Folded Spill
	movb	$46, -125(%rsp)                 # 1-byte Folded Spill
	movb	$46, -126(%rsp)                 # 1-byte Folded Spill
	movb	$46, -127(%rsp)                 # 1-byte Folded Spill
	movq	%r11, 56(%rsp)                  # 8-byte Spill
	movl	$771751936, %r12d               # imm = 0x2E000000
	movq	%rax, 80(%rsp)                  # 8-byte Spill
	movq	%r13, 88(%rsp)                  # 8-byte Spill
	movq	%r11, 104(%rsp)                 # 8-byte Spill
	movl	$771751936, %r15d               # imm = 0x2E000000
	movq	%rax, 128(%rsp)                 # 8-byte Spill
	movq	%r13, 136(%rsp)                 # 8-byte Spill
.LBB1_103:                              # %"std_io::io::error::byte_or_dot.exit31.i463"
	movq	%rsi, 144(%rsp)                 # 8-byte Spill
.LBB1_104:                              # %"std_io::io::error::byte_or_dot.exit31.i463"
	movl	$3014656, %eax                  # imm = 0x2E0000
	movq	%rax, 120(%rsp)                 # 8-byte Spill
	movabsq	$197568495616, %rcx             # imm = 0x2E00000000
	jmp	.LBB1_56
.LBB1_105:                              # %"std_io::io::error::pack.exit174"
	movq	-64(%rsp), %rax                 # 8-byte Reload
	movzbl	31(%rax), %eax
	shlq	$56, %rax
	movq	%rax, 136(%rsp)                 # 8-byte Spill
	cmpq	$33, -120(%rsp)                 # 8-byte Folded Reload
	jb	.LBB1_108
# %bb.106:                              # %"std_io::io::error::byte_or_dot.exit.i176"
	movq	-64(%rsp), %rax                 # 8-byte Reload
	movzbl	32(%rax), %eax
	movb	%al, -123(%rsp)                 # 1-byte Spill
	jne	.LBB1_110
# %bb.107:
	movq	%r13, -104(%rsp)                # 8-byte Spill
	movq	%r11, -96(%rsp)                 # 8-byte Spill
	movl	$771751936, %eax                # imm = 0x2E000000
	movq	%rax, -88(%rsp)                 # 8-byte Spill
	movl	$11776, %eax                    # imm = 0x2E00
	movq	%rax, -80(%rsp)                 # 8-byte Spill
	movq	%r13, -72(%rsp)                 # 8-byte Spill
	movq	%r11, -56(%rsp)                 # 8-byte Spill
	movl	$771751936, %eax                # imm = 0x2E000000
	movq	%rax, -40(%rsp)                 # 8-byte Spill
	movl	$11776, %eax                    # imm = 0x2E00
	movq	%rax, -24(%rsp)                 # 8-byte Spill
	movq	%r13, -16(%rsp)                 # 8-byte Spill
	movq	%r11, (%rsp)                    # 8-byte Spill
	movl	$771751936, %eax                # imm = 0x2E000000
	movq	%rax, 16(%rsp)                  # 8-byte Spill
	movl	$11776, %eax                    # imm = 0x2E00
	movq	%rax, 32(%rsp)                  # 8-byte Spill
	movq	%r13, 40(%rsp)                  # 8-byte Spill
	jmp	.LBB1_109
.LBB1_108:
	movq	%r13, -104(%rsp)                # 8-byte Spill
	movq	%r11, -96(%rsp)                 # 8-byte Spill
	movl	$771751936, %eax                # imm = 0x2E000000
	movq	%rax, -88(%rsp)                 # 8-byte Spill
	movl	$11776, %eax                    # imm = 0x2E00
	movq	%rax, -80(%rsp)                 # 8-byte Spill
	movq	%r13, -72(%rsp)                 # 8-byte Spill
	movq	%r11, -56(%rsp)                 # 8-byte Spill
	movl	$771751936, %eax                # imm = 0x2E000000
	movq	%rax, -40(%rsp)                 # 8-byte Spill
	movl	$11776, %eax                    # imm = 0x2E00
	movq	%rax, -24(%rsp)                 # 8-byte Spill
	movq	%r13, -16(%rsp)                 # 8-byte Spill
	movq	%r11, (%rsp)                    # 8-byte Spill
	movl	$771751936, %eax                # imm = 0x2E000000
	movq	%rax, 16(%rsp)                  # 8-byte Spill
	movl	$11776, %eax                    # imm = 0x2E00
	movq	%rax, 32(%rsp)                  # 8-byte Spill
	movq	%r13, 40(%rsp)                  # 8-byte Spill
	movb	$46, -123(%rsp)                 # 1-byte Folded Spill
.LBB1_109:                              # %"std_io::io::error::byte_or_dot.exit31.i463"
	movb	$46, -124(%rsp)                 # 1-byte Folded Spill
	movb	$46, -125(%rsp)                 # 1-byte Folded Spill
	movb	$46, -126(%rsp)                 # 1-byte Folded Spill
	movb	$46, -127(%rsp)                 # 1-byte Folded Spill
	movq	%r11, 56(%rsp)                  # 8-byte Spill
	movl	$771751936, %r12d               # imm = 0x2E000000
	movq	%rax, 80(%rsp)                  # 8-byte Spill
	movq	%r13, 88(%rsp)                  # 8-byte Spill
	movq	%r11, 104(%rsp)                 # 8-byte Spill
	movl	$771751936, %r15d               # imm = 0x2E000000
	movq	%rax, 128(%rsp)                 # 8-byte Spill
	jmp	.LBB1_104
.LBB1_110:                              # %"std_io::io::error::byte_or_dot.exit13.i179"
	movq	-64(%rsp), %rax                 # 8-byte Reload
	movzbl	33(%rax), %eax
	shll	$8, %eax
	movq	%rax, 128(%rsp)                 # 8-byte Spill
	cmpq	$35, -120(%rsp)                 # 8-byte Folded Reload
	jb	.LBB1_113
# %bb.111:                              # %"std_io::io::error::byte_or_dot.exit19.i182"
	movq	-64(%rsp), %rax                 # 8-byte Reload
	movzbl	34(%rax), %eax
	shll	$16, %eax
	movq	%rax, 120(%rsp)                 # 8-byte Spill
	cmpq	$35, -120(%rsp)                 # 8-byte Folded Reload
	jne	.LBB1_114
# %bb.112:
	movq	%r13, -104(%rsp)                # 8-byte Spill
	movq	%r11, -96(%rsp)                 # 8-byte Spill
	movl	$771751936, %eax                # imm = 0x2E000000
	movq	%rax, -88(%rsp)                 # 8-byte Spill
	movl	$11776, %eax                    # imm = 0x2E00
	movq	%rax, -80(%rsp)                 # 8-byte Spill
	movq	%r13, -72(%rsp)                 # 8-byte Spill
	movq	%r11, -56(%rsp)                 # 8-byte Spill
	movl	$771751936, %eax                # imm = 0x2E000000
	movq	%rax, -40(%rsp)                 # 8-byte Spill
	movl	$11776, %eax                    # imm = 0x2E00
	movq	%rax, -24(%rsp)                 # 8-byte Spill
	movq	%r13, -16(%rsp)                 # 8-byte Spill
	movq	%r11, (%rsp)                    # 8-byte Spill
	movl	$771751936, %eax                # imm = 0x2E000000
	movq	%rax, 16(%rsp)                  # 8-byte Spill
	movl	$11776, %eax                    # imm = 0x2E00
	movq	%rax, 32(%rsp)                  # 8-byte Spill
	movq	%r13, 40(%rsp)                  # 8-byte Spill
	movb	$46, -124(%rsp)                 # 1-byte Folded Spill
	movb	$46, -125(%rsp)                 # 1-byte Folded Spill
	movb	$46, -126(%rsp)                 # 1-byte Folded Spill
	movb	$46, -127(%rsp)                 # 1-byte Folded Spill
	movq	%r11, 56(%rsp)                  # 8-byte Spill
	movl	$771751936, %r12d               # imm = 0x2E000000
	movq	%rax, 80(%rsp)                  # 8-byte Spill
	movq	%r13, 88(%rsp)                  # 8-byte Spill
	movq	%r11, 104(%rsp)                 # 8-byte Spill
	movl	$771751936, %r15d               # imm = 0x2E000000
	jmp	.LBB1_118
.LBB1_113:
	movq	%r13, -104(%rsp)                # 8-byte Spill
	movq	%r11, -96(%rsp)                 # 8-byte Spill
	movl	$771751936, %eax                # imm = 0x2E000000
	movq	%rax, -88(%rsp)                 # 8-byte Spill
	movl	$11776, %eax                    # imm = 0x2E00
	movq	%rax, -80(%rsp)                 # 8-byte Spill
	movq	%r13, -72(%rsp)                 # 8-byte Spill
	movq	%r11, -56(%rsp)                 # 8-byte Spill
	movl	$771751936, %eax                # imm = 0x2E000000
	movq	%rax, -40(%rsp)                 # 8-byte Spill
	movl	$11776, %eax                    # imm = 0x2E00
	movq	%rax, -24(%rsp)                 # 8-byte Spill
	movq	%r13, -16(%rsp)                 # 8-byte Spill
	movq	%r11, (%rsp)                    # 8-byte Spill
	movl	$771751936, %eax                # imm = 0x2E000000
	movq	%rax, 16(%rsp)                  # 8-byte Spill
	movl	$11776, %eax                    # imm = 0x2E00
	movq	%rax, 32(%rsp)                  # 8-byte Spill
	movq	%r13, 40(%rsp)                  # 8-byte Spill
	movb	$46, -124(%rsp)                 # 1-byte Folded Spill
	movb	$46, -125(%rsp)                 # 1-byte Folded Spill
	movb	$46, -126(%rsp)                 # 1-byte Folded Spill
	movb	$46, -127(%rsp)                 # 1-byte Folded Spill
	movq	%r11, 56(%rsp)                  # 8-byte Spill
	movl	$771751936, %r12d               # imm = 0x2E000000
	movq	%rax, 80(%rsp)                  # 8-byte Spill
	movq	%r13, 88(%rsp)                  # 8-byte Spill
	movq	%r11, 104(%rsp)                 # 8-byte Spill
	movl	$771751936, %r15d               # imm = 0x2E000000
	jmp	.LBB1_104
.LBB1_114:                              # %"std_io::io::error::byte_or_dot.exit25.i185"
	movq	-64(%rsp), %rax                 # 8-byte Reload
	movzbl	35(%rax), %r15d
	shll	$24, %r15d
	cmpq	$37, -120(%rsp)                 # 8-byte Folded Reload
	jb	.LBB1_117
# %bb.115:                              # %"std_io::io::error::byte_or_dot.exit31.i188"
	movq	-64(%rsp), %rax                 # 8-byte Reload
	movzbl	36(%rax), %eax
	shlq	$32, %rax
	movq	%rax, 112(%rsp)                 # 8-byte Spill
	cmpq	$37, -120(%rsp)                 # 8-byte Folded Reload
	jne	.LBB1_119
# %bb.116:
	movq	%r13, -104(%rsp)                # 8-byte Spill
	movq	%r11, -96(%rsp)                 # 8-byte Spill
	movl	$771751936, %eax                # imm = 0x2E000000
	movq	%rax, -88(%rsp)                 # 8-byte Spill
	movl	$11776, %eax                    # imm = 0x2E00
	movq	%rax, -80(%rsp)                 # 8-byte Spill
	movq	%r13, -72(%rsp)                 # 8-byte Spill
	movq	%r11, -56(%rsp)                 # 8-byte Spill
	movl	$771751936, %eax                # imm = 0x2E000000
	movq	%rax, -40(%rsp)                 # 8-byte Spill
	movl	$11776, %eax                    # imm = 0x2E00
	movq	%rax, -24(%rsp)                 # 8-byte Spill
	movq	%r13, -16(%rsp)                 # 8-byte Spill
	movq	%r11, (%rsp)                    # 8-byte Spill
	movl	$771751936, %eax                # imm = 0x2E000000
	movq	%rax, 16(%rsp)                  # 8-byte Spill
	movl	$11776, %eax                    # imm = 0x2E00
	movq	%rax, 32(%rsp)                  # 8-byte Spill
	movq	%r13, 40(%rsp)                  # 8-byte Spill
	movb	$46, -124(%rsp)                 # 1-byte Folded Spill
	movb	$46, -125(%rsp)                 # 1-byte Folded Spill
	movb	$46, -126(%rsp)                 # 1-byte Folded Spill
	movb	$46, -127(%rsp)                 # 1-byte Folded Spill
	movq	%r11, 56(%rsp)                  # 8-byte Spill
	movl	$771751936, %r12d               # imm = 0x2E000000
	movq	%rax, 80(%rsp)                  # 8-byte Spill
	movq	%r13, 88(%rsp)                  # 8-byte Spill
	movq	%r11, 104(%rsp)                 # 8-byte Spill
	jmp	.LBB1_123
.LBB1_117:
	movq	%r13, -104(%rsp)                # 8-byte Spill
	movq	%r11, -96(%rsp)                 # 8-byte Spill
	movl	$771751936, %eax                # imm = 0x2E000000
	movq	%rax, -88(%rsp)                 # 8-byte Spill
	movl	$11776, %eax                    # imm = 0x2E00
	movq	%rax, -80(%rsp)                 # 8-byte Spill
	movq	%r13, -72(%rsp)                 # 8-byte Spill
	movq	%r11, -56(%rsp)                 # 8-byte Spill
	movl	$771751936, %eax                # imm = 0x2E000000
	movq	%rax, -40(%rsp)                 # 8-byte Spill
	movl	$11776, %eax                    # imm = 0x2E00
	movq	%rax, -24(%rsp)                 # 8-byte Spill
	movq	%r13, -16(%rsp)                 # 8-byte Spill
	movq	%r11, (%rsp)                    # 8-byte Spill
	movl	$771751936, %eax                # imm = 0x2E000000
	movq	%rax, 16(%rsp)                  # 8-byte Spill
	movl	$11776, %eax                    # imm = 0x2E00
	movq	%rax, 32(%rsp)                  # 8-byte Spill
	movq	%r13, 40(%rsp)                  # 8-byte Spill
	movb	$46, -124(%rsp)                 # 1-byte Folded Spill
	movb	$46, -125(%rsp)                 # 1-byte Folded Spill
	movb	$46, -126(%rsp)                 # 1-byte Folded Spill
	movb	$46, -127(%rsp)                 # 1-byte Folded Spill
	movq	%r11, 56(%rsp)                  # 8-byte Spill
	movl	$771751936, %r12d               # imm = 0x2E000000
	movq	%rax, 80(%rsp)                  # 8-byte Spill
	movq	%r13, 88(%rsp)                  # 8-byte Spill
	movq	%r11, 104(%rsp)                 # 8-byte Spill
.LBB1_118:                              # %"std_io::io::error::byte_or_dot.exit31.i463"
	movabsq	$197568495616, %rcx             # imm = 0x2E00000000
	movq	%rcx, 112(%rsp)                 # 8-byte Spill
	movq	%rsi, 96(%rsp)                  # 8-byte Spill
	movl	$3014656, %eax                  # imm = 0x2E0000
	jmp	.LBB1_57
.LBB1_119:                              # %"std_io::io::error::byte_or_dot.exit37.i191"
	movq	-64(%rsp), %rax                 # 8-byte Reload
	movzbl	37(%rax), %eax
	shlq	$40, %rax
	movq	%rax, 104(%rsp)                 # 8-byte Spill
	cmpq	$39, -120(%rsp)                 # 8-byte Folded Reload
	jb	.LBB1_122
# %bb.120:                              # %"std_io::io::error::byte_or_dot.exit43.i194"
	movq	-64(%rsp), %rax                 # 8-byte Reload
	movzbl	38(%rax), %eax
	shlq	$48, %rax
	movq	%rax, 96(%rsp)                  # 8-byte Spill
	cmpq	$39, -120(%rsp)                 # 8-byte Folded Reload
	jne	.LBB1_125
# %bb.121:
	movq	%r13, -104(%rsp)                # 8-byte Spill
	movq	%r11, -96(%rsp)                 # 8-byte Spill
	movl	$771751936, %eax                # imm = 0x2E000000
	movq	%rax, -88(%rsp)                 # 8-byte Spill
	movl	$11776, %eax                    # imm = 0x2E00
	movq	%rax, -80(%rsp)                 # 8-byte Spill
	movq	%r13, -72(%rsp)                 # 8-byte Spill
	movq	%r11, -56(%rsp)                 # 8-byte Spill
	movl	$771751936, %eax                # imm = 0x2E000000
	movq	%rax, -40(%rsp)                 # 8-byte Spill
	movl	$11776, %eax                    # imm = 0x2E00
	movq	%rax, -24(%rsp)                 # 8-byte Spill
	movq	%r13, -16(%rsp)                 # 8-byte Spill
	movq	%r11, (%rsp)                    # 8-byte Spill
	movl	$771751936, %eax                # imm = 0x2E000000
	movq	%rax, 16(%rsp)                  # 8-byte Spill
	movl	$11776, %eax                    # imm = 0x2E00
	movq	%rax, 32(%rsp)                  # 8-byte Spill
	movq	%r13, 40(%rsp)                  # 8-byte Spill
	movb	$46, -124(%rsp)                 # 1-byte Folded Spill
	movb	$46, -125(%rsp)                 # 1-byte Folded Spill
	movb	$46, -126(%rsp)                 # 1-byte Folded Spill
	movb	$46, -127(%rsp)                 # 1-byte Folded Spill
	movq	%r11, 56(%rsp)                  # 8-byte Spill
	movl	$771751936, %r12d               # imm = 0x2E000000
	movq	%rax, 80(%rsp)                  # 8-byte Spill
	movq	%r13, 88(%rsp)                  # 8-byte Spill
	jmp	.LBB1_124
.LBB1_122:
	movq	%r13, -104(%rsp)                # 8-byte Spill
	movq	%r11, -96(%rsp)                 # 8-byte Spill
	movl	$771751936, %eax                # imm = 0x2E000000
	movq	%rax, -88(%rsp)                 # 8-byte Spill
	movl	$11776, %eax                    # imm = 0x2E00
	movq	%rax, -80(%rsp)                 # 8-byte Spill
	movq	%r13, -72(%rsp)                 # 8-byte Spill
	movq	%r11, -56(%rsp)                 # 8-byte Spill
	movl	$771751936, %eax                # imm = 0x2E000000
	movq	%rax, -40(%rsp)                 # 8-byte Spill
	movl	$11776, %eax                    # imm = 0x2E00
	movq	%rax, -24(%rsp)                 # 8-byte Spill
	movq	%r13, -16(%rsp)                 # 8-byte Spill
	movq	%r11, (%rsp)                    # 8-byte Spill
	movl	$771751936, %eax                # imm = 0x2E000000
	movq	%rax, 16(%rsp)                  # 8-byte Spill
	movl	$11776, %eax                    # imm = 0x2E00
	movq	%rax, 32(%rsp)                  # 8-byte Spill
	movq	%r13, 40(%rsp)                  # 8-byte Spill
	movb	$46, -124(%rsp)                 # 1-byte Folded Spill
	movb	$46, -125(%rsp)                 # 1-byte Folded Spill
	movb	$46, -126(%rsp)                 # 1-byte Folded Spill
	movb	$46, -127(%rsp)                 # 1-byte Folded Spill
	movq	%r11, 56(%rsp)                  # 8-byte Spill
	movl	$771751936, %r12d               # imm = 0x2E000000
	movq	%rax, 80(%rsp)                  # 8-byte Spill
	movq	%r13, 88(%rsp)                  # 8-byte Spill
.LBB1_123:                              # %"std_io::io::error::byte_or_dot.exit31.i463"
	movq	%rsi, 96(%rsp)                  # 8-byte Spill
.LBB1_124:                              # %"std_io::io::error::byte_or_dot.exit31.i463"
	movl	$3014656, %eax                  # imm = 0x2E0000
	movq	%rax, 72(%rsp)                  # 8-byte Spill
	movabsq	$197568495616, %rcx             # imm = 0x2E00000000
	jmp	.LBB1_58
.LBB1_125:                              # %"std_io::io::error::pack.exit229"
	movq	-64(%rsp), %rax                 # 8-byte Reload
	movzbl	39(%rax), %eax
	shlq	$56, %rax
	movq	%rax, 88(%rsp)                  # 8-byte Spill
	cmpq	$41, -120(%rsp)                 # 8-byte Folded Reload
	jb	.LBB1_128
# %bb.126:                              # %"std_io::io::error::byte_or_dot.exit.i231"
	movq	-64(%rsp), %rax                 # 8-byte Reload
	movzbl	40(%rax), %eax
	movb	%al, -124(%rsp)                 # 1-byte Spill
	jne	.LBB1_130
# %bb.127:
	movq	%r13, -104(%rsp)                # 8-byte Spill
	movq	%r11, -96(%rsp)                 # 8-byte Spill
	movl	$771751936, %eax                # imm = 0x2E000000
	movq	%rax, -88(%rsp)                 # 8-byte Spill
	movl	$11776, %eax                    # imm = 0x2E00
	movq	%rax, -80(%rsp)                 # 8-byte Spill
	movq	%r13, -72(%rsp)                 # 8-byte Spill
	movq	%r11, -56(%rsp)                 # 8-byte Spill
	movl	$771751936, %eax                # imm = 0x2E000000
	movq	%rax, -40(%rsp)                 # 8-byte Spill
	movl	$11776, %eax                    # imm = 0x2E00
	movq	%rax, -24(%rsp)                 # 8-byte Spill
	movq	%r13, -16(%rsp)                 # 8-byte Spill
	movq	%r11, (%rsp)                    # 8-byte Spill
	movl	$771751936, %eax                # imm = 0x2E000000
	movq	%rax, 16(%rsp)                  # 8-byte Spill
	movl	$11776, %eax                    # imm = 0x2E00
	movq	%rax, 32(%rsp)                  # 8-byte Spill
	movq	%r13, 40(%rsp)                  # 8-byte Spill
	movq	%r11, 56(%rsp)                  # 8-byte Spill
	movb	$46, -125(%rsp)                 # 1-byte Folded Spill
	movb	$46, -126(%rsp)                 # 1-byte Folded Spill
	movb	$46, -127(%rsp)                 # 1-byte Folded Spill
	jmp	.LBB1_129
.LBB1_128:
	movq	%r13, -104(%rsp)                # 8-byte Spill
	movq	%r11, -96(%rsp)                 # 8-byte Spill
	movl	$771751936, %eax                # imm = 0x2E000000
	movq	%rax, -88(%rsp)                 # 8-byte Spill
	movl	$11776, %eax                    # imm = 0x2E00
	movq	%rax, -80(%rsp)                 # 8-byte Spill
	movq	%r13, -72(%rsp)                 # 8-byte Spill
	movq	%r11, -56(%rsp)                 # 8-byte Spill
	movl	$771751936, %eax                # imm = 0x2E000000
	movq	%rax, -40(%rsp)                 # 8-byte Spill
	movl	$11776, %eax                    # imm = 0x2E00
	movq	%rax, -24(%rsp)                 # 8-byte Spill
	movq	%r13, -16(%rsp)                 # 8-byte Spill
	movq	%r11, (%rsp)                    # 8-byte Spill
	movl	$771751936, %eax                # imm = 0x2E000000
	movq	%rax, 16(%rsp)                  # 8-byte Spill
	movl	$11776, %eax                    # imm = 0x2E00
	movq	%rax, 32(%rsp)                  # 8-byte Spill
	movq	%r13, 40(%rsp)                  # 8-byte Spill
	movb	$46, -124(%rsp)                 # 1-byte Folded Spill
	movb	$46, -125(%rsp)                 # 1-byte Folded Spill
	movb	$46, -126(%rsp)                 # 1-byte Folded Spill
	movb	$46, -127(%rsp)                 # 1-byte Folded Spill
	movq	%r11, 56(%rsp)                  # 8-byte Spill
.LBB1_129:                              # %"std_io::io::error::byte_or_dot.exit31.i463"
	movl	$771751936, %r12d               # imm = 0x2E000000
	movq	%rax, 80(%rsp)                  # 8-byte Spill
	jmp	.LBB1_124
.LBB1_130:                              # %"std_io::io::error::byte_or_dot.exit13.i234"
	movq	-64(%rsp), %rax                 # 8-byte Reload
	movzbl	41(%rax), %eax
	shll	$8, %eax
	movq	%rax, 80(%rsp)                  # 8-byte Spill
	cmpq	$43, -120(%rsp)                 # 8-byte Folded Reload
	jb	.LBB1_133
# %bb.131:                              # %"std_io::io::error::byte_or_dot.exit19.i237"
	movq	-64(%rsp), %rax                 # 8-byte Reload
	movzbl	42(%rax), %eax
	shll	$16, %eax
	movq	%rax, 72(%rsp)                  # 8-byte Spill
	cmpq	$43, -120(%rsp)                 # 8-byte Folded Reload
	jne	.LBB1_134
# %bb.132:
	movq	%r13, -104(%rsp)                # 8-byte Spill
	movq	%r11, -96(%rsp)                 # 8-byte Spill
	movl	$771751936, %eax                # imm = 0x2E000000
	movq	%rax, -88(%rsp)                 # 8-byte Spill
	movl	$11776, %eax                    # imm = 0x2E00
	movq	%rax, -80(%rsp)                 # 8-byte Spill
	movq	%r13, -72(%rsp)                 # 8-byte Spill
	movq	%r11, -56(%rsp)                 # 8-byte Spill
	movl	$771751936, %eax                # imm = 0x2E000000
	movq	%rax, -40(%rsp)                 # 8-byte Spill
	movl	$11776, %eax                    # imm = 0x2E00
	movq	%rax, -24(%rsp)                 # 8-byte Spill
	movq	%r13, -16(%rsp)                 # 8-byte Spill
	movq	%r11, (%rsp)                    # 8-byte Spill
	movl	$771751936, %eax                # imm = 0x2E000000
	movq	%rax, 16(%rsp)                  # 8-byte Spill
	movl	$11776, %eax                    # imm = 0x2E00
	movq	%rax, 32(%rsp)                  # 8-byte Spill
	movq	%r13, 40(%rsp)                  # 8-byte Spill
	movq	%r11, 56(%rsp)                  # 8-byte Spill
	movb	$46, -125(%rsp)                 # 1-byte Folded Spill
	movb	$46, -126(%rsp)                 # 1-byte Folded Spill
	movb	$46, -127(%rsp)                 # 1-byte Folded Spill
	movl	$771751936, %r12d               # imm = 0x2E000000
	jmp	.LBB1_138
.LBB1_133:
	movq	%r13, -104(%rsp)                # 8-byte Spill
	movq	%r11, -96(%rsp)                 # 8-byte Spill
	movl	$771751936, %eax                # imm = 0x2E000000
	movq	%rax, -88(%rsp)                 # 8-byte Spill
	movl	$11776, %eax                    # imm = 0x2E00
	movq	%rax, -80(%rsp)                 # 8-byte Spill
	movq	%r13, -72(%rsp)                 # 8-byte Spill
	movq	%r11, -56(%rsp)                 # 8-byte Spill
	movl	$771751936, %eax                # imm = 0x2E000000
	movq	%rax, -40(%rsp)                 # 8-byte Spill
	movl	$11776, %eax                    # imm = 0x2E00
	movq	%rax, -24(%rsp)                 # 8-byte Spill
	movq	%r13, -16(%rsp)                 # 8-byte Spill
	movq	%r11, (%rsp)                    # 8-byte Spill
	movl	$771751936, %eax                # imm = 0x2E000000
	movq	%rax, 16(%rsp)                  # 8-byte Spill
	movl	$11776, %eax                    # imm = 0x2E00
	movq	%rax, 32(%rsp)                  # 8-byte Spill
	movq	%r13, 40(%rsp)                  # 8-byte Spill
	movq	%r11, 56(%rsp)                  # 8-byte Spill
	movb	$46, -125(%rsp)                 # 1-byte Folded Spill
	movb	$46, -126(%rsp)                 # 1-byte Folded Spill
	movb	$46, -127(%rsp)                 # 1-byte Folded Spill
	movl	$771751936, %r12d               # imm = 0x2E000000
	jmp	.LBB1_124
.LBB1_134:                              # %"std_io::io::error::byte_or_dot.exit25.i240"
	movq	-64(%rsp), %rax                 # 8-byte Reload
	movzbl	43(%rax), %r12d
	shll	$24, %r12d
	cmpq	$45, -120(%rsp)                 # 8-byte Folded Reload
	jb	.LBB1_137
# %bb.135:                              # %"std_io::io::error::byte_or_dot.exit31.i243"
	movq	-64(%rsp), %rax                 # 8-byte Reload
	movzbl	44(%rax), %eax
	shlq	$32, %rax
	movq	%rax, 64(%rsp)                  # 8-byte Spill
	cmpq	$45, -120(%rsp)                 # 8-byte Folded Reload
	jne	.LBB1_139
# %bb.136:
	movq	%r13, -104(%rsp)                # 8-byte Spill
	movq	%r11, -96(%rsp)                 # 8-byte Spill
	movl	$771751936, %eax                # imm = 0x2E000000
	movq	%rax, -88(%rsp)                 # 8-byte Spill
	movl	$11776, %eax                    # imm = 0x2E00
	movq	%rax, -80(%rsp)                 # 8-byte Spill
	movq	%r13, -72(%rsp)                 # 8-byte Spill
	movq	%r11, -56(%rsp)                 # 8-byte Spill
	movl	$771751936, %eax                # imm = 0x2E000000
	movq	%rax, -40(%rsp)                 # 8-byte Spill
	movl	$11776, %eax                    # imm = 0x2E00
	movq	%rax, -24(%rsp)                 # 8-byte Spill
	movq	%r13, -16(%rsp)                 # 8-byte Spill
	movq	%r11, (%rsp)                    # 8-byte Spill
	movl	$771751936, %eax                # imm = 0x2E000000
	movq	%rax, 16(%rsp)                  # 8-byte Spill
	movl	$11776, %eax                    # imm = 0x2E00
	movq	%rax, 32(%rsp)                  # 8-byte Spill
	movq	%r13, 40(%rsp)                  # 8-byte Spill
	movq	%r11, 56(%rsp)                  # 8-byte Spill
	movb	$46, -125(%rsp)                 # 1-byte Folded Spill
	movb	$46, -126(%rsp)                 # 1-byte Folded Spill
	movb	$46, -127(%rsp)                 # 1-byte Folded Spill
	movq	%rsi, 48(%rsp)                  # 8-byte Spill
	jmp	.LBB1_143
.LBB1_137:
	movq	%r13, -104(%rsp)                # 8-byte Spill
	movq	%r11, -96(%rsp)                 # 8-byte Spill
	movl	$771751936, %eax                # imm = 0x2E000000
	movq	%rax, -88(%rsp)                 # 8-byte Spill
	movl	$11776, %eax                    # imm = 0x2E00
	movq	%rax, -80(%rsp)                 # 8-byte Spill
	movq	%r13, -72(%rsp)                 # 8-byte Spill
	movq	%r11, -56(%rsp)                 # 8-byte Spill
	movl	$771751936, %eax                # imm = 0x2E000000
	movq	%rax, -40(%rsp)                 # 8-byte Spill
	movl	$11776, %eax                    # imm = 0x2E00
	movq	%rax, -24(%rsp)                 # 8-byte Spill
	movq	%r13, -16(%rsp)                 # 8-byte Spill
	movq	%r11, (%rsp)                    # 8-byte Spill
	movl	$771751936, %eax                # imm = 0x2E000000
	movq	%rax, 16(%rsp)                  # 8-byte Spill
	movl	$11776, %eax                    # imm = 0x2E00
	movq	%rax, 32(%rsp)                  # 8-byte Spill
	movq	%r13, 40(%rsp)                  # 8-byte Spill
	movq	%r11, 56(%rsp)                  # 8-byte Spill
	movb	$46, -125(%rsp)                 # 1-byte Folded Spill
	movb	$46, -126(%rsp)                 # 1-byte Folded Spill
	movb	$46, -127(%rsp)                 # 1-byte Folded Spill
.LBB1_138:                              # %"std_io::io::error::byte_or_dot.exit31.i463"
	movabsq	$197568495616, %rcx             # imm = 0x2E00000000
	movq	%rcx, 64(%rsp)                  # 8-byte Spill
	movq	%rsi, 48(%rsp)                  # 8-byte Spill
	movl	$3014656, %eax                  # imm = 0x2E0000
	jmp	.LBB1_59
.LBB1_139:                              # %"std_io::io::error::byte_or_dot.exit37.i246"
	movq	-64(%rsp), %rax                 # 8-byte Reload
	movzbl	45(%rax), %eax
	shlq	$40, %rax
	movq	%rax, 56(%rsp)                  # 8-byte Spill
	cmpq	$47, -120(%rsp)                 # 8-byte Folded Reload
	jb	.LBB1_142
# %bb.140:                              # %"std_io::io::error::byte_or_dot.exit43.i249"
	movq	-64(%rsp), %rax                 # 8-byte Reload
	movzbl	46(%rax), %eax
	shlq	$48, %rax
	movq	%rax, 48(%rsp)                  # 8-byte Spill
	cmpq	$47, -120(%rsp)                 # 8-byte Folded Reload
	jne	.LBB1_145
# %bb.141:
	movq	%r13, -104(%rsp)                # 8-byte Spill
	movq	%r11, -96(%rsp)                 # 8-byte Spill
	movl	$771751936, %eax                # imm = 0x2E000000
	movq	%rax, -88(%rsp)                 # 8-byte Spill
	movl	$11776, %eax                    # imm = 0x2E00
	movq	%rax, -80(%rsp)                 # 8-byte Spill
	movq	%r13, -72(%rsp)                 # 8-byte Spill
	movq	%r11, -56(%rsp)                 # 8-byte Spill
	movl	$771751936, %eax                # imm = 0x2E000000
	movq	%rax, -40(%rsp)                 # 8-byte Spill
	movl	$11776, %eax                    # imm = 0x2E00
	movq	%rax, -24(%rsp)                 # 8-byte Spill
	movq	%r13, -16(%rsp)                 # 8-byte Spill
	movq	%r11, (%rsp)                    # 8-byte Spill
	movl	$771751936, %eax                # imm = 0x2E000000
	movq	%rax, 16(%rsp)                  # 8-byte Spill
	movl	$11776, %eax                    # imm = 0x2E00
	movq	%rax, 32(%rsp)                  # 8-byte Spill
	movq	%r13, 40(%rsp)                  # 8-byte Spill
	movb	$46, -125(%rsp)                 # 1-byte Folded Spill
	movl	$3014656, %eax                  # imm = 0x2E0000
	movq	%rax, 24(%rsp)                  # 8-byte Spill
	movb	$46, -126(%rsp)                 # 1-byte Folded Spill
	movb	$46, -127(%rsp)                 # 1-byte Folded Spill
	jmp	.LBB1_144
.LBB1_142:
	movq	%r13, -104(%rsp)                # 8-byte Spill
	movq	%r11, -96(%rsp)                 # 8-byte Spill
	movl	$771751936, %eax                # imm = 0x2E000000
	movq	%rax, -88(%rsp)                 # 8-byte Spill
	movl	$11776, %eax                    # imm = 0x2E00
	movq	%rax, -80(%rsp)                 # 8-byte Spill
	movq	%r13, -72(%rsp)                 # 8-byte Spill
	movq	%r11, -56(%rsp)                 # 8-byte Spill
	movl	$771751936, %eax                # imm = 0x2E000000
	movq	%rax, -40(%rsp)                 # 8-byte Spill
	movl	$11776, %eax                    # imm = 0x2E00
	movq	%rax, -24(%rsp)                 # 8-byte Spill
	movq	%r13, -16(%rsp)                 # 8-byte Spill
	movq	%r11, (%rsp)                    # 8-byte Spill
	movl	$771751936, %eax                # imm = 0x2E000000
	movq	%rax, 16(%rsp)                  # 8-byte Spill
	movl	$11776, %eax                    # imm = 0x2E00
	movq	%rax, 32(%rsp)                  # 8-byte Spill
	movq	%r13, 40(%rsp)                  # 8-byte Spill
	movq	%rsi, 48(%rsp)                  # 8-byte Spill
	movb	$46, -125(%rsp)                 # 1-byte Folded Spill
	movb	$46, -126(%rsp)                 # 1-byte Folded Spill
	movb	$46, -127(%rsp)                 # 1-byte Folded Spill
.LBB1_143:                              # %"std_io::io::error::byte_or_dot.exit31.i463"
	movl	$3014656, %eax                  # imm = 0x2E0000
	movq	%rax, 24(%rsp)                  # 8-byte Spill
.LBB1_144:                              # %"std_io::io::error::byte_or_dot.exit31.i463"
	movabsq	$197568495616, %rcx             # imm = 0x2E00000000
	jmp	.LBB1_60
.LBB1_145:                              # %"std_io::io::error::pack.exit284"
	movq	-64(%rsp), %rax                 # 8-byte Reload
	movzbl	47(%rax), %eax
	shlq	$56, %rax
	movq	%rax, 40(%rsp)                  # 8-byte Spill
	cmpq	$49, -120(%rsp)                 # 8-byte Folded Reload
	jb	.LBB1_148
# %bb.146:                              # %"std_io::io::error::byte_or_dot.exit.i286"
	movq	-64(%rsp), %rax                 # 8-byte Reload
	movzbl	48(%rax), %eax
	movb	%al, -125(%rsp)                 # 1-byte Spill
	jne	.LBB1_150
# %bb.147:
	movq	%r13, -104(%rsp)                # 8-byte Spill
	movq	%r11, -96(%rsp)                 # 8-byte Spill
	movl	$771751936, %eax                # imm = 0x2E000000
	movq	%rax, -88(%rsp)                 # 8-byte Spill
	movl	$11776, %eax                    # imm = 0x2E00
	movq	%rax, -80(%rsp)                 # 8-byte Spill
	movq	%r13, -72(%rsp)                 # 8-byte Spill
	movq	%r11, -56(%rsp)                 # 8-byte Spill
	movl	$771751936, %eax                # imm = 0x2E000000
	movq	%rax, -40(%rsp)                 # 8-byte Spill
	movl	$11776, %eax                    # imm = 0x2E00
	movq	%rax, -24(%rsp)                 # 8-byte Spill
	movq	%r13, -16(%rsp)                 # 8-byte Spill
	movq	%r11, (%rsp)                    # 8-byte Spill
	movl	$771751936, %eax                # imm = 0x2E000000
	movq	%rax, 16(%rsp)                  # 8-byte Spill
	movl	$11776, %eax                    # imm = 0x2E00
	movq	%rax, 32(%rsp)                  # 8-byte Spill
	jmp	.LBB1_149
.LBB1_148:
	movq	%r13, -104(%rsp)                # 8-byte Spill
	movq	%r11, -96(%rsp)                 # 8-byte Spill
	movl	$771751936, %eax                # imm = 0x2E000000
	movq	%rax, -88(%rsp)                 # 8-byte Spill
	movl	$11776, %eax                    # imm = 0x2E00
	movq	%rax, -80(%rsp)                 # 8-byte Spill
	movq	%r13, -72(%rsp)                 # 8-byte Spill
	movq	%r11, -56(%rsp)                 # 8-byte Spill
	movl	$771751936, %eax                # imm = 0x2E000000
	movq	%rax, -40(%rsp)                 # 8-byte Spill
	movl	$11776, %eax                    # imm = 0x2E00
	movq	%rax, -24(%rsp)                 # 8-byte Spill
	movq	%r13, -16(%rsp)                 # 8-byte Spill
	movq	%r11, (%rsp)                    # 8-byte Spill
	movl	$771751936, %eax                # imm = 0x2E000000
	movq	%rax, 16(%rsp)                  # 8-byte Spill
	movl	$11776, %eax                    # imm = 0x2E00
	movq	%rax, 32(%rsp)                  # 8-byte Spill
	movb	$46, -125(%rsp)                 # 1-byte Folded Spill
.LBB1_149:                              # %"std_io::io::error::byte_or_dot.exit31.i463"
	movl	$3014656, %eax                  # imm = 0x2E0000
	movq	%rax, 24(%rsp)                  # 8-byte Spill
	movabsq	$197568495616, %rcx             # imm = 0x2E00000000
	movq	%rcx, 8(%rsp)                   # 8-byte Spill
	movb	$46, -126(%rsp)                 # 1-byte Folded Spill
	movb	$46, -127(%rsp)                 # 1-byte Folded Spill
	jmp	.LBB1_61
.LBB1_150:                              # %"std_io::io::error::byte_or_dot.exit13.i289"
	movq	-64(%rsp), %rax                 # 8-byte Reload
	movzbl	49(%rax), %eax
	shll	$8, %eax
	movq	%rax, 32(%rsp)                  # 8-byte Spill
	cmpq	$51, -120(%rsp)                 # 8-byte Folded Reload
	jb	.LBB1_153
# %bb.151:                              # %"std_io::io::error::byte_or_dot.exit19.i292"
	movq	-64(%rsp), %rax                 # 8-byte Reload
	movzbl	50(%rax), %eax
	shll	$16, %eax
	movq	%rax, 24(%rsp)                  # 8-byte Spill
	cmpq	$51, -120(%rsp)                 # 8-byte Folded Reload
	jne	.LBB1_154
# %bb.152:
	movq	%r13, -104(%rsp)                # 8-byte Spill
	movq	%r11, -96(%rsp)                 # 8-byte Spill
	movl	$771751936, %eax                # imm = 0x2E000000
	movq	%rax, -88(%rsp)                 # 8-byte Spill
	movl	$11776, %eax                    # imm = 0x2E00
	movq	%rax, -80(%rsp)                 # 8-byte Spill
	movq	%r13, -72(%rsp)                 # 8-byte Spill
	movq	%r11, -56(%rsp)                 # 8-byte Spill
	movl	$771751936, %eax                # imm = 0x2E000000
	movq	%rax, -40(%rsp)                 # 8-byte Spill
	movl	$11776, %eax                    # imm = 0x2E00
	movq	%rax, -24(%rsp)                 # 8-byte Spill
	movq	%r13, -16(%rsp)                 # 8-byte Spill
	movq	%r11, (%rsp)                    # 8-byte Spill
	movl	$771751936, %eax                # imm = 0x2E000000
	movq	%rax, 16(%rsp)                  # 8-byte Spill
	movabsq	$197568495616, %rcx             # imm = 0x2E00000000
	movq	%rcx, 8(%rsp)                   # 8-byte Spill
	movq	%rsi, -8(%rsp)                  # 8-byte Spill
	movb	$46, -126(%rsp)                 # 1-byte Folded Spill
	movl	$3014656, %eax                  # imm = 0x2E0000
	movq	%rax, -32(%rsp)                 # 8-byte Spill
	movb	$46, -127(%rsp)                 # 1-byte Folded Spill
	jmp	.LBB1_63
.LBB1_153:
	movq	%r13, -104(%rsp)                # 8-byte Spill
	movq	%r11, -96(%rsp)                 # 8-byte Spill
	movl	$771751936, %eax                # imm = 0x2E000000
	movq	%rax, -88(%rsp)                 # 8-byte Spill
	movl	$11776, %eax                    # imm = 0x2E00
	movq	%rax, -80(%rsp)                 # 8-byte Spill
	movq	%r13, -72(%rsp)                 # 8-byte Spill
	movq	%r11, -56(%rsp)                 # 8-byte Spill
	movl	$771751936, %eax                # imm = 0x2E000000
	movq	%rax, -40(%rsp)                 # 8-byte Spill
	movl	$11776, %eax                    # imm = 0x2E00
	movq	%rax, -24(%rsp)                 # 8-byte Spill
	movq	%r13, -16(%rsp)                 # 8-byte Spill
	movq	%r11, (%rsp)                    # 8-byte Spill
	movl	$771751936, %eax                # imm = 0x2E000000
	movq	%rax, 16(%rsp)                  # 8-byte Spill
	movl	$3014656, %eax                  # imm = 0x2E0000
	movq	%rax, 24(%rsp)                  # 8-byte Spill
	movabsq	$197568495616, %rcx             # imm = 0x2E00000000
	movq	%rcx, 8(%rsp)                   # 8-byte Spill
	movq	%rsi, -8(%rsp)                  # 8-byte Spill
	movb	$46, -126(%rsp)                 # 1-byte Folded Spill
	movb	$46, -127(%rsp)                 # 1-byte Folded Spill
	jmp	.LBB1_62
.LBB1_154:                              # %"std_io::io::error::byte_or_dot.exit25.i295"
	movq	-64(%rsp), %rax                 # 8-byte Reload
	movzbl	51(%rax), %eax
	shll	$24, %eax
	movq	%rax, 16(%rsp)                  # 8-byte Spill
	cmpq	$53, -120(%rsp)                 # 8-byte Folded Reload
	jb	.LBB1_157
# %bb.155:                              # %"std_io::io::error::byte_or_dot.exit31.i298"
	movq	-64(%rsp), %rax                 # 8-byte Reload
	movzbl	52(%rax), %eax
	shlq	$32, %rax
	movq	%rax, 8(%rsp)                   # 8-byte Spill
	cmpq	$53, -120(%rsp)                 # 8-byte Folded Reload
	jne	.LBB1_158
# %bb.156:
	movq	%r13, -104(%rsp)                # 8-byte Spill
	movq	%r11, -96(%rsp)                 # 8-byte Spill
	movl	$771751936, %eax                # imm = 0x2E000000
	movq	%rax, -88(%rsp)                 # 8-byte Spill
	movl	$11776, %eax                    # imm = 0x2E00
	movq	%rax, -80(%rsp)                 # 8-byte Spill
	movq	%r13, -72(%rsp)                 # 8-byte Spill
	movq	%r11, -56(%rsp)                 # 8-byte Spill
	movl	$771751936, %eax                # imm = 0x2E000000
	movq	%rax, -40(%rsp)                 # 8-byte Spill
	movl	$11776, %eax                    # imm = 0x2E00
	movq	%rax, -24(%rsp)                 # 8-byte Spill
	movq	%r13, -16(%rsp)                 # 8-byte Spill
	movq	%r11, (%rsp)                    # 8-byte Spill
	jmp	.LBB1_162
.LBB1_157:
	movq	%r13, -104(%rsp)                # 8-byte Spill
	movq	%r11, -96(%rsp)                 # 8-byte Spill
	movl	$771751936, %eax                # imm = 0x2E000000
	movq	%rax, -88(%rsp)                 # 8-byte Spill
	movl	$11776, %eax                    # imm = 0x2E00
	movq	%rax, -80(%rsp)                 # 8-byte Spill
	movq	%r13, -72(%rsp)                 # 8-byte Spill
	movq	%r11, -56(%rsp)                 # 8-byte Spill
	movl	$771751936, %eax                # imm = 0x2E000000
	movq	%rax, -40(%rsp)                 # 8-byte Spill
	movl	$11776, %eax                    # imm = 0x2E00
	movq	%rax, -24(%rsp)                 # 8-byte Spill
	movq	%r13, -16(%rsp)                 # 8-byte Spill
	movq	%r11, (%rsp)                    # 8-byte Spill
	movabsq	$197568495616, %rcx             # imm = 0x2E00000000
	movq	%rcx, 8(%rsp)                   # 8-byte Spill
	movq	%rsi, -8(%rsp)                  # 8-byte Spill
	movb	$46, -126(%rsp)                 # 1-byte Folded Spill
	movl	$3014656, %eax                  # imm = 0x2E0000
	movq	%rax, -32(%rsp)                 # 8-byte Spill
	movq	%rcx, -48(%rsp)                 # 8-byte Spill
	movb	$46, -127(%rsp)                 # 1-byte Folded Spill
	jmp	.LBB1_64
.LBB1_158:                              # %"std_io::io::error::byte_or_dot.exit37.i301"
	movq	-64(%rsp), %rax                 # 8-byte Reload
	movzbl	53(%rax), %eax
	shlq	$40, %rax
	movq	%rax, (%rsp)                    # 8-byte Spill
	cmpq	$55, -120(%rsp)                 # 8-byte Folded Reload
	jb	.LBB1_161
# %bb.159:                              # %"std_io::io::error::byte_or_dot.exit43.i304"
	movq	-64(%rsp), %rax                 # 8-byte Reload
	movzbl	54(%rax), %eax
	shlq	$48, %rax
	movq	%rax, -8(%rsp)                  # 8-byte Spill
	cmpq	$55, -120(%rsp)                 # 8-byte Folded Reload
	jne	.LBB1_163
# %bb.160:
	movq	%r13, -104(%rsp)                # 8-byte Spill
	movq	%r11, -96(%rsp)                 # 8-byte Spill
	movl	$771751936, %eax                # imm = 0x2E000000
	movq	%rax, -88(%rsp)                 # 8-byte Spill
	movl	$11776, %eax                    # imm = 0x2E00
	movq	%rax, -80(%rsp)                 # 8-byte Spill
	movq	%r13, -72(%rsp)                 # 8-byte Spill
	movq	%r11, -56(%rsp)                 # 8-byte Spill
	movl	$771751936, %eax                # imm = 0x2E000000
	movq	%rax, -40(%rsp)                 # 8-byte Spill
	movl	$11776, %eax                    # imm = 0x2E00
	movq	%rax, -24(%rsp)                 # 8-byte Spill
	movq	%r13, -16(%rsp)                 # 8-byte Spill
	jmp	.LBB1_167
.LBB1_161:
	movq	%r13, -104(%rsp)                # 8-byte Spill
	movq	%r11, -96(%rsp)                 # 8-byte Spill
	movl	$771751936, %eax                # imm = 0x2E000000
	movq	%rax, -88(%rsp)                 # 8-byte Spill
	movl	$11776, %eax                    # imm = 0x2E00
	movq	%rax, -80(%rsp)                 # 8-byte Spill
	movq	%r13, -72(%rsp)                 # 8-byte Spill
	movq	%r11, -56(%rsp)                 # 8-byte Spill
	movl	$771751936, %eax                # imm = 0x2E000000
	movq	%rax, -40(%rsp)                 # 8-byte Spill
	movl	$11776, %eax                    # imm = 0x2E00
	movq	%rax, -24(%rsp)                 # 8-byte Spill
	movq	%r13, -16(%rsp)                 # 8-byte Spill
.LBB1_162:                              # %"std_io::io::error::byte_or_dot.exit31.i463"
	movq	%rsi, -8(%rsp)                  # 8-byte Spill
	jmp	.LBB1_167
.LBB1_163:                              # %"std_io::io::error::pack.exit339"
	movq	-64(%rsp), %rax                 # 8-byte Reload
	movzbl	55(%rax), %eax
	shlq	$56, %rax
	movq	%rax, -16(%rsp)                 # 8-byte Spill
	cmpq	$57, -120(%rsp)                 # 8-byte Folded Reload
	jb	.LBB1_166
# %bb.164:                              # %"std_io::io::error::byte_or_dot.exit.i341"
	movq	-64(%rsp), %rax                 # 8-byte Reload
	movzbl	56(%rax), %eax
	movb	%al, -126(%rsp)                 # 1-byte Spill
	jne	.LBB1_168
# %bb.165:
	movq	%r13, -104(%rsp)                # 8-byte Spill
	movq	%r11, -96(%rsp)                 # 8-byte Spill
	movl	$771751936, %eax                # imm = 0x2E000000
	movq	%rax, -88(%rsp)                 # 8-byte Spill
	movl	$11776, %eax                    # imm = 0x2E00
	movq	%rax, -80(%rsp)                 # 8-byte Spill
	movq	%r13, -72(%rsp)                 # 8-byte Spill
	movq	%r11, -56(%rsp)                 # 8-byte Spill
	movl	$771751936, %eax                # imm = 0x2E000000
	movq	%rax, -40(%rsp)                 # 8-byte Spill
	movl	$11776, %eax                    # imm = 0x2E00
	movq	%rax, -24(%rsp)                 # 8-byte Spill
	jmp	.LBB1_172
.LBB1_166:
	movq	%r13, -104(%rsp)                # 8-byte Spill
	movq	%r11, -96(%rsp)                 # 8-byte Spill
	movl	$771751936, %eax                # imm = 0x2E000000
	movq	%rax, -88(%rsp)                 # 8-byte Spill
	movl	$11776, %eax                    # imm = 0x2E00
	movq	%rax, -80(%rsp)                 # 8-byte Spill
	movq	%r13, -72(%rsp)                 # 8-byte Spill
	movq	%r11, -56(%rsp)                 # 8-byte Spill
	movl	$771751936, %eax                # imm = 0x2E000000
	movq	%rax, -40(%rsp)                 # 8-byte Spill
	movl	$11776, %eax                    # imm = 0x2E00
	movq	%rax, -24(%rsp)                 # 8-byte Spill
.LBB1_167:                              # %"std_io::io::error::byte_or_dot.exit31.i463"
	movb	$46, -126(%rsp)                 # 1-byte Folded Spill
	jmp	.LBB1_172
.LBB1_168:                              # %"std_io::io::error::byte_or_dot.exit13.i344"
	movq	-64(%rsp), %rax                 # 8-byte Reload
	movzbl	57(%rax), %eax
	shll	$8, %eax
	movq	%rax, -24(%rsp)                 # 8-byte Spill
	cmpq	$59, -120(%rsp)                 # 8-byte Folded Reload
	jb	.LBB1_171
# %bb.169:                              # %"std_io::io::error::byte_or_dot.exit19.i347"
	movq	-64(%rsp), %rax                 # 8-byte Reload
	movzbl	58(%rax), %eax
	shll	$16, %eax
	movq	%rax, -32(%rsp)                 # 8-byte Spill
	cmpq	$59, -120(%rsp)                 # 8-byte Folded Reload
	jne	.LBB1_173
# %bb.170:
	movq	%r13, -104(%rsp)                # 8-byte Spill
	movq	%r11, -96(%rsp)                 # 8-byte Spill
	movl	$771751936, %eax                # imm = 0x2E000000
	movq	%rax, -88(%rsp)                 # 8-byte Spill
	movl	$11776, %eax                    # imm = 0x2E00
	movq	%rax, -80(%rsp)                 # 8-byte Spill
	movq	%r13, -72(%rsp)                 # 8-byte Spill
	movq	%r11, -56(%rsp)                 # 8-byte Spill
	movl	$771751936, %eax                # imm = 0x2E000000
	movq	%rax, -40(%rsp)                 # 8-byte Spill
	jmp	.LBB1_177
.LBB1_171:
	movq	%r13, -104(%rsp)                # 8-byte Spill
	movq	%r11, -96(%rsp)                 # 8-byte Spill
	movl	$771751936, %eax                # imm = 0x2E000000
	movq	%rax, -88(%rsp)                 # 8-byte Spill
	movl	$11776, %eax                    # imm = 0x2E00
	movq	%rax, -80(%rsp)                 # 8-byte Spill
	movq	%r13, -72(%rsp)                 # 8-byte Spill
	movq	%r11, -56(%rsp)                 # 8-byte Spill
	movl	$771751936, %eax                # imm = 0x2E000000
	movq	%rax, -40(%rsp)                 # 8-byte Spill
.LBB1_172:                              # %"std_io::io::error::byte_or_dot.exit31.i463"
	movl	$3014656, %eax                  # imm = 0x2E0000
	movq	%rax, -32(%rsp)                 # 8-byte Spill
	jmp	.LBB1_177
.LBB1_173:                              # %"std_io::io::error::byte_or_dot.exit25.i350"
	movq	-64(%rsp), %rax                 # 8-byte Reload
	movzbl	59(%rax), %eax
	shll	$24, %eax
	movq	%rax, -40(%rsp)                 # 8-byte Spill
	cmpq	$61, -120(%rsp)                 # 8-byte Folded Reload
	jb	.LBB1_176
# %bb.174:                              # %"std_io::io::error::byte_or_dot.exit31.i353"
	movq	-64(%rsp), %rax                 # 8-byte Reload
	movzbl	60(%rax), %eax
	shlq	$32, %rax
	movq	%rax, -48(%rsp)                 # 8-byte Spill
	cmpq	$61, -120(%rsp)                 # 8-byte Folded Reload
	jne	.LBB1_178
# %bb.175:
	movq	%r13, -104(%rsp)                # 8-byte Spill
	movq	%r11, -96(%rsp)                 # 8-byte Spill
	movl	$771751936, %eax                # imm = 0x2E000000
	movq	%rax, -88(%rsp)                 # 8-byte Spill
	movl	$11776, %eax                    # imm = 0x2E00
	movq	%rax, -80(%rsp)                 # 8-byte Spill
	movq	%r13, -72(%rsp)                 # 8-byte Spill
	movq	%r11, -56(%rsp)                 # 8-byte Spill
	jmp	.LBB1_182
.LBB1_176:
	movq	%r13, -104(%rsp)                # 8-byte Spill
	movq	%r11, -96(%rsp)                 # 8-byte Spill
	movl	$771751936, %eax                # imm = 0x2E000000
	movq	%rax, -88(%rsp)                 # 8-byte Spill
	movl	$11776, %eax                    # imm = 0x2E00
	movq	%rax, -80(%rsp)                 # 8-byte Spill
	movq	%r13, -72(%rsp)                 # 8-byte Spill
	movq	%r11, -56(%rsp)                 # 8-byte Spill
.LBB1_177:                              # %"std_io::io::error::byte_or_dot.exit31.i463"
	movabsq	$197568495616, %rcx             # imm = 0x2E00000000
	movq	%rcx, -48(%rsp)                 # 8-byte Spill
	movq	%rsi, %rdi
	movb	$46, -127(%rsp)                 # 1-byte Folded Spill
	jmp	.LBB1_65
.LBB1_178:                              # %"std_io::io::error::byte_or_dot.exit37.i356"
	movq	-64(%rsp), %rax                 # 8-byte Reload
	movzbl	61(%rax), %eax
	shlq	$40, %rax
	movq	%rax, -56(%rsp)                 # 8-byte Spill
	cmpq	$63, -120(%rsp)                 # 8-byte Folded Reload
	jb	.LBB1_181
# %bb.179:                              # %"std_io::io::error::byte_or_dot.exit43.i359"
	movq	-64(%rsp), %rax                 # 8-byte Reload
	movzbl	62(%rax), %edi
	shlq	$48, %rdi
	cmpq	$63, -120(%rsp)                 # 8-byte Folded Reload
	jne	.LBB1_183
# %bb.180:
	movq	%r13, -104(%rsp)                # 8-byte Spill
	movq	%r11, -96(%rsp)                 # 8-byte Spill
	movl	$771751936, %eax                # imm = 0x2E000000
	movq	%rax, -88(%rsp)                 # 8-byte Spill
	movl	$11776, %eax                    # imm = 0x2E00
	movq	%rax, -80(%rsp)                 # 8-byte Spill
	movq	%r13, -72(%rsp)                 # 8-byte Spill
	jmp	.LBB1_187
.LBB1_181:
	movq	%r13, -104(%rsp)                # 8-byte Spill
	movq	%r11, -96(%rsp)                 # 8-byte Spill
	movl	$771751936, %eax                # imm = 0x2E000000
	movq	%rax, -88(%rsp)                 # 8-byte Spill
	movl	$11776, %eax                    # imm = 0x2E00
	movq	%rax, -80(%rsp)                 # 8-byte Spill
	movq	%r13, -72(%rsp)                 # 8-byte Spill
.LBB1_182:                              # %"std_io::io::error::byte_or_dot.exit31.i463"
	movq	%rsi, %rdi
	jmp	.LBB1_187
.LBB1_183:                              # %"std_io::io::error::pack.exit394"
	movq	-64(%rsp), %rax                 # 8-byte Reload
	movzbl	63(%rax), %eax
	shlq	$56, %rax
	movq	%rax, -72(%rsp)                 # 8-byte Spill
	cmpq	$65, -120(%rsp)                 # 8-byte Folded Reload
	jb	.LBB1_186
# %bb.184:                              # %"std_io::io::error::byte_or_dot.exit.i396"
	movq	-64(%rsp), %rax                 # 8-byte Reload
	movzbl	64(%rax), %eax
	movb	%al, -127(%rsp)                 # 1-byte Spill
	jne	.LBB1_188
# %bb.185:
	movq	%r13, -104(%rsp)                # 8-byte Spill
	movq	%r11, -96(%rsp)                 # 8-byte Spill
	movl	$771751936, %eax                # imm = 0x2E000000
	movq	%rax, -88(%rsp)                 # 8-byte Spill
	movl	$11776, %eax                    # imm = 0x2E00
	movq	%rax, -80(%rsp)                 # 8-byte Spill
	jmp	.LBB1_192
.LBB1_186:
	movq	%r13, -104(%rsp)                # 8-byte Spill
	movq	%r11, -96(%rsp)                 # 8-byte Spill
	movl	$771751936, %eax                # imm = 0x2E000000
	movq	%rax, -88(%rsp)                 # 8-byte Spill
	movl	$11776, %eax                    # imm = 0x2E00
	movq	%rax, -80(%rsp)                 # 8-byte Spill
.LBB1_187:                              # %"std_io::io::error::byte_or_dot.exit31.i463"
	movb	$46, -127(%rsp)                 # 1-byte Folded Spill
	jmp	.LBB1_192
.LBB1_188:                              # %"std_io::io::error::byte_or_dot.exit13.i399"
	movq	-64(%rsp), %rax                 # 8-byte Reload
	movzbl	65(%rax), %eax
	shll	$8, %eax
	movq	%rax, -80(%rsp)                 # 8-byte Spill
	cmpq	$67, -120(%rsp)                 # 8-byte Folded Reload
	jb	.LBB1_191
# %bb.189:                              # %"std_io::io::error::byte_or_dot.exit19.i402"
	movq	-64(%rsp), %rax                 # 8-byte Reload
	movzbl	66(%rax), %r9d
	shll	$16, %r9d
	cmpq	$67, -120(%rsp)                 # 8-byte Folded Reload
	jne	.LBB1_193
# %bb.190:
	movq	%r13, -104(%rsp)                # 8-byte Spill
	movq	%r11, -96(%rsp)                 # 8-byte Spill
	movl	$771751936, %eax                # imm = 0x2E000000
	movq	%rax, -88(%rsp)                 # 8-byte Spill
	movabsq	$197568495616, %rcx             # imm = 0x2E00000000
	jmp	.LBB1_66
.LBB1_191:
	movq	%r13, -104(%rsp)                # 8-byte Spill
	movq	%r11, -96(%rsp)                 # 8-byte Spill
	movl	$771751936, %eax                # imm = 0x2E000000
	movq	%rax, -88(%rsp)                 # 8-byte Spill
.LBB1_192:                              # %"std_io::io::error::byte_or_dot.exit31.i463"
	movl	$3014656, %r9d                  # imm = 0x2E0000
	movabsq	$197568495616, %rcx             # imm = 0x2E00000000
	jmp	.LBB1_66
.LBB1_193:                              # %"std_io::io::error::byte_or_dot.exit25.i405"
	movq	-64(%rsp), %rax                 # 8-byte Reload
	movzbl	67(%rax), %eax
	shll	$24, %eax
	movq	%rax, -88(%rsp)                 # 8-byte Spill
	cmpq	$69, -120(%rsp)                 # 8-byte Folded Reload
	jb	.LBB1_196
# %bb.194:                              # %"std_io::io::error::byte_or_dot.exit31.i408"
	movq	-64(%rsp), %rax                 # 8-byte Reload
	movzbl	68(%rax), %edx
	shlq	$32, %rdx
	cmpq	$69, -120(%rsp)                 # 8-byte Folded Reload
	jne	.LBB1_197
# %bb.195:
	movq	%r13, -104(%rsp)                # 8-byte Spill
	movq	%r11, -96(%rsp)                 # 8-byte Spill
	movq	%rsi, %r10
	movabsq	$197568495616, %rcx             # imm = 0x2E00000000
	jmp	.LBB1_67
.LBB1_196:
	movq	%r13, -104(%rsp)                # 8-byte Spill
	movq	%r11, -96(%rsp)                 # 8-byte Spill
	movabsq	$197568495616, %rcx             # imm = 0x2E00000000
	jmp	.LBB1_66
.LBB1_197:                              # %"std_io::io::error::byte_or_dot.exit37.i411"
	movq	-64(%rsp), %rax                 # 8-byte Reload
	movzbl	69(%rax), %eax
	shlq	$40, %rax
	movq	%rax, -96(%rsp)                 # 8-byte Spill
	cmpq	$71, -120(%rsp)                 # 8-byte Folded Reload
	jb	.LBB1_200
# %bb.198:                              # %"std_io::io::error::byte_or_dot.exit43.i414"
	movq	-64(%rsp), %rax                 # 8-byte Reload
	movzbl	70(%rax), %r10d
	shlq	$48, %r10
	cmpq	$71, -120(%rsp)                 # 8-byte Folded Reload
	jne	.LBB1_201
# %bb.199:
	movq	%r13, -104(%rsp)                # 8-byte Spill
	movabsq	$197568495616, %rcx             # imm = 0x2E00000000
	jmp	.LBB1_67
.LBB1_200:
	movq	%r13, -104(%rsp)                # 8-byte Spill
	movq	%rsi, %r10
	movabsq	$197568495616, %rcx             # imm = 0x2E00000000
	jmp	.LBB1_67
.LBB1_201:                              # %"std_io::io::error::pack.exit449"
	movq	-64(%rsp), %rax                 # 8-byte Reload
	movzbl	71(%rax), %eax
	shlq	$56, %rax
	movq	%rax, -104(%rsp)                # 8-byte Spill
	cmpq	$73, -120(%rsp)                 # 8-byte Folded Reload
	jb	.LBB1_207
# %bb.202:                              # %"std_io::io::error::byte_or_dot.exit.i451"
	movq	-64(%rsp), %rax                 # 8-byte Reload
	movzbl	72(%rax), %eax
	movb	%al, 223(%rsp)                  # 1-byte Spill
	je	.LBB1_207
# %bb.203:                              # %"std_io::io::error::byte_or_dot.exit13.i454"
	movq	-64(%rsp), %rax                 # 8-byte Reload
	movzbl	73(%rax), %eax
	shll	$8, %eax
	movq	%rax, 376(%rsp)                 # 8-byte Spill
	cmpq	$75, -120(%rsp)                 # 8-byte Folded Reload
	jb	.LBB1_207
# %bb.204:                              # %"std_io::io::error::byte_or_dot.exit19.i457"
	movq	-64(%rsp), %rax                 # 8-byte Reload
	movzbl	74(%rax), %eax
	shll	$16, %eax
	movq	%rax, 368(%rsp)                 # 8-byte Spill
	cmpq	$75, -120(%rsp)                 # 8-byte Folded Reload
	je	.LBB1_207
# %bb.205:                              # %"std_io::io::error::byte_or_dot.exit25.i460"
	movq	-64(%rsp), %rax                 # 8-byte Reload
	movzbl	75(%rax), %eax
	shll	$24, %eax
	movq	%rax, 384(%rsp)                 # 8-byte Spill
	cmpq	$77, -120(%rsp)                 # 8-byte Folded Reload
	jb	.LBB1_207
# %bb.206:                              # %then.1.i28.i489
	movq	-64(%rsp), %rax                 # 8-byte Reload
	movzbl	76(%rax), %ecx
	shlq	$32, %rcx
	jmp	.LBB1_67
.LBB1_207:
	movabsq	$197568495616, %rcx             # imm = 0x2E00000000
	jmp	.LBB1_67
.Lfunc_end1:
	.size	"std_io::io::error::Error::from_bytes", .Lfunc_end1-"std_io::io::error::Error::from_bytes"
                                        # -- End function
	.section	".text.std_io::io::error::Error::from_raw_os_error","ax",@progbits
	.p2align	4                               # -- Begin function std_io::io::error::Error::from_raw_os_error
	.type	"std_io::io::error::Error::from_raw_os_error",@function
"std_io::io::error::Error::from_raw_os_error": # @"std_io::io::error::Error::from_raw_os_error"
# %bb.0:                                # %start
                                        # kill: def $esi killed $esi def $rsi
	movb	$41, %al
	testl	%esi, %esi
	js	.LBB2_40
# %bb.1:                                # %else.2.i
	leal	-1(%rsi), %ecx
	cmpl	$121, %ecx
	ja	.LBB2_40
# %bb.2:                                # %else.2.i
	leaq	.LJTI2_0(%rip), %rdx
	movslq	(%rdx,%rcx,4), %rcx
	addq	%rdx, %rcx
	jmpq	*%rcx
.LBB2_3:
	movb	$1, %al
	jmp	.LBB2_40
.LBB2_24:                               # %arm.23.i.i
	movb	$36, %al
	jmp	.LBB2_40
.LBB2_36:                               # %arm.36.i.i
	movb	$4, %al
	jmp	.LBB2_40
.LBB2_33:                               # %arm.33.i.i
	movb	$7, %al
	jmp	.LBB2_40
.LBB2_39:                               # %arm.39.i.i
	movb	$26, %al
	jmp	.LBB2_40
.LBB2_37:                               # %arm.37.i.i
	movb	$39, %al
	jmp	.LBB2_40
.LBB2_28:                               # %arm.28.i.i
	movb	$9, %al
	jmp	.LBB2_40
.LBB2_27:                               # %arm.27.i.i
	movb	$8, %al
	jmp	.LBB2_40
.LBB2_22:                               # %arm.21.i.i
	movb	$30, %al
	jmp	.LBB2_40
.LBB2_18:                               # %arm.17.i.i
	movb	$25, %al
	jmp	.LBB2_40
.LBB2_20:                               # %arm.19.i.i
	movb	$32, %al
	jmp	.LBB2_40
.LBB2_23:                               # %arm.22.i.i
	movb	$33, %al
	jmp	.LBB2_40
.LBB2_34:                               # %arm.34.i.i
	movb	$22, %al
	jmp	.LBB2_40
.LBB2_11:                               # %arm.10.i.i
	movb	$31, %al
	jmp	.LBB2_40
.LBB2_15:                               # %arm.14.i.i
	movb	$29, %al
	jmp	.LBB2_40
.LBB2_26:                               # %arm.25.i.i
	movb	$18, %al
	jmp	.LBB2_40
.LBB2_29:                               # %arm.29.i.i
	movb	$10, %al
	jmp	.LBB2_40
.LBB2_9:                                # %arm.8.i.i
	movb	$28, %al
	jmp	.LBB2_40
.LBB2_12:                               # %arm.11.i.i
	movb	$14, %al
	jmp	.LBB2_40
.LBB2_10:                               # %arm.9.i.i
	movb	$12, %al
	jmp	.LBB2_40
.LBB2_30:                               # %arm.30.i.i
	movb	$5, %al
	jmp	.LBB2_40
.LBB2_32:                               # %arm.32.i.i
	movb	$3, %al
	jmp	.LBB2_40
.LBB2_4:                                # %arm.2.i.i
	xorl	%eax, %eax
	jmp	.LBB2_40
.LBB2_7:                                # %arm.5.i.i
	movb	$13, %al
	jmp	.LBB2_40
.LBB2_8:                                # %arm.6.i.i
	movb	$38, %al
	jmp	.LBB2_40
.LBB2_21:                               # %arm.20.i.i
	movb	$11, %al
	jmp	.LBB2_40
.LBB2_5:                                # %arm.3.i.i
	movb	$35, %al
	jmp	.LBB2_40
.LBB2_6:                                # %arm.4.i.i
	movb	$34, %al
	jmp	.LBB2_40
.LBB2_14:                               # %arm.13.i.i
	movb	$20, %al
	jmp	.LBB2_40
.LBB2_13:                               # %arm.12.i.i
	movb	$15, %al
	jmp	.LBB2_40
.LBB2_38:                               # %arm.38.i.i
	movb	$19, %al
	jmp	.LBB2_40
.LBB2_25:                               # %arm.24.i.i
	movb	$16, %al
	jmp	.LBB2_40
.LBB2_31:                               # %arm.31.i.i
	movb	$6, %al
	jmp	.LBB2_40
.LBB2_16:                               # %arm.15.i.i
	movb	$27, %al
	jmp	.LBB2_40
.LBB2_17:                               # %arm.16.i.i
	movb	$24, %al
	jmp	.LBB2_40
.LBB2_35:                               # %arm.35.i.i
	movb	$2, %al
	jmp	.LBB2_40
.LBB2_19:                               # %arm.18.i.i
	movb	$17, %al
.LBB2_40:                               # %"std_io::io::kind::decode_error_kind.exit"
	movb	$0, (%rdi)
	movb	%al, 1(%rdi)
	movw	$0, 2(%rdi)
	movl	%esi, 4(%rdi)
	xorps	%xmm0, %xmm0
	movups	%xmm0, 8(%rdi)
	movups	%xmm0, 24(%rdi)
	movups	%xmm0, 40(%rdi)
	movups	%xmm0, 56(%rdi)
	movups	%xmm0, 72(%rdi)
	retq
.Lfunc_end2:
	.size	"std_io::io::error::Error::from_raw_os_error", .Lfunc_end2-"std_io::io::error::Error::from_raw_os_error"
	.section	".rodata.std_io::io::error::Error::from_raw_os_error","a",@progbits
	.p2align	2, 0x0
.LJTI2_0:
	.long	.LBB2_3-.LJTI2_0
	.long	.LBB2_4-.LJTI2_0
	.long	.LBB2_40-.LJTI2_0
	.long	.LBB2_5-.LJTI2_0
	.long	.LBB2_40-.LJTI2_0
	.long	.LBB2_40-.LJTI2_0
	.long	.LBB2_6-.LJTI2_0
	.long	.LBB2_40-.LJTI2_0
	.long	.LBB2_40-.LJTI2_0
	.long	.LBB2_40-.LJTI2_0
	.long	.LBB2_7-.LJTI2_0
	.long	.LBB2_8-.LJTI2_0
	.long	.LBB2_3-.LJTI2_0
	.long	.LBB2_40-.LJTI2_0
	.long	.LBB2_40-.LJTI2_0
	.long	.LBB2_9-.LJTI2_0
	.long	.LBB2_10-.LJTI2_0
	.long	.LBB2_11-.LJTI2_0
	.long	.LBB2_40-.LJTI2_0
	.long	.LBB2_12-.LJTI2_0
	.long	.LBB2_13-.LJTI2_0
	.long	.LBB2_14-.LJTI2_0
	.long	.LBB2_40-.LJTI2_0
	.long	.LBB2_40-.LJTI2_0
	.long	.LBB2_40-.LJTI2_0
	.long	.LBB2_15-.LJTI2_0
	.long	.LBB2_16-.LJTI2_0
	.long	.LBB2_17-.LJTI2_0
	.long	.LBB2_18-.LJTI2_0
	.long	.LBB2_19-.LJTI2_0
	.long	.LBB2_20-.LJTI2_0
	.long	.LBB2_21-.LJTI2_0
	.long	.LBB2_40-.LJTI2_0
	.long	.LBB2_40-.LJTI2_0
	.long	.LBB2_22-.LJTI2_0
	.long	.LBB2_23-.LJTI2_0
	.long	.LBB2_40-.LJTI2_0
	.long	.LBB2_24-.LJTI2_0
	.long	.LBB2_25-.LJTI2_0
	.long	.LBB2_26-.LJTI2_0
	.long	.LBB2_40-.LJTI2_0
	.long	.LBB2_40-.LJTI2_0
	.long	.LBB2_40-.LJTI2_0
	.long	.LBB2_40-.LJTI2_0
	.long	.LBB2_40-.LJTI2_0
	.long	.LBB2_40-.LJTI2_0
	.long	.LBB2_40-.LJTI2_0
	.long	.LBB2_40-.LJTI2_0
	.long	.LBB2_40-.LJTI2_0
	.long	.LBB2_40-.LJTI2_0
	.long	.LBB2_40-.LJTI2_0
	.long	.LBB2_40-.LJTI2_0
	.long	.LBB2_40-.LJTI2_0
	.long	.LBB2_40-.LJTI2_0
	.long	.LBB2_40-.LJTI2_0
	.long	.LBB2_40-.LJTI2_0
	.long	.LBB2_40-.LJTI2_0
	.long	.LBB2_40-.LJTI2_0
	.long	.LBB2_40-.LJTI2_0
	.long	.LBB2_40-.LJTI2_0
	.long	.LBB2_40-.LJTI2_0
	.long	.LBB2_40-.LJTI2_0
	.long	.LBB2_40-.LJTI2_0
	.long	.LBB2_40-.LJTI2_0
	.long	.LBB2_40-.LJTI2_0
	.long	.LBB2_40-.LJTI2_0
	.long	.LBB2_40-.LJTI2_0
	.long	.LBB2_40-.LJTI2_0
	.long	.LBB2_40-.LJTI2_0
	.long	.LBB2_40-.LJTI2_0
	.long	.LBB2_40-.LJTI2_0
	.long	.LBB2_40-.LJTI2_0
	.long	.LBB2_40-.LJTI2_0
	.long	.LBB2_40-.LJTI2_0
	.long	.LBB2_40-.LJTI2_0
	.long	.LBB2_40-.LJTI2_0
	.long	.LBB2_40-.LJTI2_0
	.long	.LBB2_40-.LJTI2_0
	.long	.LBB2_40-.LJTI2_0
	.long	.LBB2_40-.LJTI2_0
	.long	.LBB2_40-.LJTI2_0
	.long	.LBB2_40-.LJTI2_0
	.long	.LBB2_40-.LJTI2_0
	.long	.LBB2_40-.LJTI2_0
	.long	.LBB2_40-.LJTI2_0
	.long	.LBB2_40-.LJTI2_0
	.long	.LBB2_40-.LJTI2_0
	.long	.LBB2_40-.LJTI2_0
	.long	.LBB2_40-.LJTI2_0
	.long	.LBB2_40-.LJTI2_0
	.long	.LBB2_40-.LJTI2_0
	.long	.LBB2_40-.LJTI2_0
	.long	.LBB2_40-.LJTI2_0
	.long	.LBB2_40-.LJTI2_0
	.long	.LBB2_24-.LJTI2_0
	.long	.LBB2_40-.LJTI2_0
	.long	.LBB2_40-.LJTI2_0
	.long	.LBB2_27-.LJTI2_0
	.long	.LBB2_28-.LJTI2_0
	.long	.LBB2_29-.LJTI2_0
	.long	.LBB2_30-.LJTI2_0
	.long	.LBB2_40-.LJTI2_0
	.long	.LBB2_31-.LJTI2_0
	.long	.LBB2_32-.LJTI2_0
	.long	.LBB2_40-.LJTI2_0
	.long	.LBB2_40-.LJTI2_0
	.long	.LBB2_33-.LJTI2_0
	.long	.LBB2_40-.LJTI2_0
	.long	.LBB2_40-.LJTI2_0
	.long	.LBB2_34-.LJTI2_0
	.long	.LBB2_35-.LJTI2_0
	.long	.LBB2_40-.LJTI2_0
	.long	.LBB2_36-.LJTI2_0
	.long	.LBB2_40-.LJTI2_0
	.long	.LBB2_37-.LJTI2_0
	.long	.LBB2_38-.LJTI2_0
	.long	.LBB2_40-.LJTI2_0
	.long	.LBB2_40-.LJTI2_0
	.long	.LBB2_40-.LJTI2_0
	.long	.LBB2_40-.LJTI2_0
	.long	.LBB2_40-.LJTI2_0
	.long	.LBB2_39-.LJTI2_0
                                        # -- End function
	.section	.rodata.cst16,"aM",@progbits,16
	.p2align	4, 0x0                          # -- Begin function tapelist::fail::<#4e9da720f7635e46>
.LCPI3_0:
	.byte	16                              # 0x10
	.byte	15                              # 0xf
	.byte	14                              # 0xe
	.byte	13                              # 0xd
	.byte	12                              # 0xc
	.byte	11                              # 0xb
	.byte	10                              # 0xa
	.byte	9                               # 0x9
	.byte	8                               # 0x8
	.byte	7                               # 0x7
	.byte	6                               # 0x6
	.byte	5                               # 0x5
	.byte	4                               # 0x4
	.byte	3                               # 0x3
	.byte	2                               # 0x2
	.byte	1                               # 0x1
.LCPI3_1:
	.byte	0                               # 0x0
	.byte	1                               # 0x1
	.byte	2                               # 0x2
	.byte	3                               # 0x3
	.byte	4                               # 0x4
	.byte	5                               # 0x5
	.byte	6                               # 0x6
	.byte	7                               # 0x7
	.byte	8                               # 0x8
	.byte	9                               # 0x9
	.byte	10                              # 0xa
	.byte	11                              # 0xb
	.byte	12                              # 0xc
	.byte	13                              # 0xd
	.byte	14                              # 0xe
	.byte	15                              # 0xf
.LCPI3_2:
	.byte	16                              # 0x10
	.byte	17                              # 0x11
	.byte	18                              # 0x12
	.byte	19                              # 0x13
	.byte	20                              # 0x14
	.byte	21                              # 0x15
	.byte	22                              # 0x16
	.byte	23                              # 0x17
	.byte	24                              # 0x18
	.byte	25                              # 0x19
	.byte	26                              # 0x1a
	.byte	27                              # 0x1b
	.byte	28                              # 0x1c
	.byte	29                              # 0x1d
	.byte	30                              # 0x1e
	.byte	31                              # 0x1f
	.section	".text.tapelist::fail::<#4e9da720f7635e46>","ax",@progbits
	.p2align	4
	.type	"tapelist::fail::<#4e9da720f7635e46>",@function
"tapelist::fail::<#4e9da720f7635e46>":  # @"tapelist::fail::<#4e9da720f7635e46>"
# %bb.0:                                # %arm.3.lr.ph.i.i.i.i.i
	pushq	%rbp
	pushq	%r15
	pushq	%r14
	pushq	%r13
	pushq	%r12
	pushq	%rbx
	subq	$2600, %rsp                     # imm = 0xA28
	movq	%rsi, %r15
	movq	%rdi, %r12
	movzbl	(%rdx), %r14d
	movzbl	1(%rdx), %eax
	movq	%rax, 184(%rsp)                 # 8-byte Spill
	movzbl	2(%rdx), %eax
	movq	%rax, 192(%rsp)                 # 8-byte Spill
	movl	4(%rdx), %eax
	movl	%eax, 124(%rsp)                 # 4-byte Spill
	movups	8(%rdx), %xmm0
	movaps	%xmm0, 1440(%rsp)               # 16-byte Spill
	movups	24(%rdx), %xmm0
	movaps	%xmm0, 1424(%rsp)               # 16-byte Spill
	movups	40(%rdx), %xmm0
	movaps	%xmm0, 1408(%rsp)               # 16-byte Spill
	movups	56(%rdx), %xmm0
	movaps	%xmm0, 1392(%rsp)               # 16-byte Spill
	movdqu	72(%rdx), %xmm0
	movdqa	%xmm0, 1376(%rsp)               # 16-byte Spill
	movl	$2, 200(%rsp)
	leaq	204(%rsp), %rdi
	xorl	%r13d, %r13d
	movl	$1132, %edx                     # imm = 0x46C
	xorl	%esi, %esi
	callq	memset@PLT
	movl	$32, 1336(%rsp)
	movq	$0, 1340(%rsp)
	movl	$0, 1348(%rsp)
	movq	$-1, 1352(%rsp)
	pxor	%xmm0, %xmm0
	movdqu	%xmm0, 1360(%rsp)
	movl	1336(%rsp), %eax
	movl	%eax, 128(%rsp)
	movq	1340(%rsp), %rax
	movq	%rax, 132(%rsp)
	movl	1348(%rsp), %eax
	movl	%eax, 140(%rsp)
	movq	$-1, 144(%rsp)
	movl	$32, 1336(%rsp)
	movl	$0, 1348(%rsp)
	movq	$0, 1340(%rsp)
	xorl	%ebp, %ebp
	jmp	.LBB3_1
	.p2align	4
.LBB3_5:                                # %"std_io::io::buffer::Buffer::push.exit.i.i.i.i.i"
                                        #   in Loop: Header=BB3_1 Depth=1
	movb	%bl, 204(%rsp,%rax)
	leaq	1(%rax), %r13
	movq	%r13, 1232(%rsp)
	incq	%rbp
	cmpq	%rbp, %r15
	je	.LBB3_6
.LBB3_1:                                # %arm.3.i.i.i.i.i
                                        # =>This Inner Loop Header: Depth=1
	movzbl	(%r12,%rbp), %ebx
	movq	%r13, %rax
	cmpq	$1024, %r13                     # imm = 0x400
	jb	.LBB3_5
# %bb.2:                                # %then.2.i.i.i.i.i.i
                                        #   in Loop: Header=BB3_1 Depth=1
	pxor	%xmm0, %xmm0
	movdqa	%xmm0, 1536(%rsp)
	movdqa	%xmm0, 1520(%rsp)
	movdqa	%xmm0, 1504(%rsp)
	movdqa	%xmm0, 1488(%rsp)
	movdqa	%xmm0, 1472(%rsp)
	movdqa	%xmm0, 1456(%rsp)
	movq	$0, 1232(%rsp)
	jne	.LBB3_10
# %bb.3:                                # %join.3.i.i.i.i.i.i.i
                                        #   in Loop: Header=BB3_1 Depth=1
	movl	200(%rsp), %esi
	leaq	1456(%rsp), %rdi
	movl	$1024, %ecx                     # imm = 0x400
	leaq	204(%rsp), %rdx
	callq	"std_io::io::write_to"
	cmpb	$0, 1456(%rsp)
	jne	.LBB3_9
# %bb.4:                                # %after.1.i.i.i.i.i.i
                                        #   in Loop: Header=BB3_1 Depth=1
	movq	1232(%rsp), %rax
	cmpq	$1023, %rax                     # imm = 0x3FF
	jbe	.LBB3_5
	jmp	.LBB3_10
.LBB3_6:                                # %arm.1.i.i.i.i
	cmpq	$0, 1360(%rsp)
	movl	$32, 1336(%rsp)
	leaq	204(%rsp), %rcx
	movl	$0, 1144(%rcx)
	movq	$0, 1136(%rcx)
	movq	$-1, 1352(%rsp)
	jne	.LBB3_17
# %bb.7:                                # %arm.3.lr.ph.i.i63.i.i.i
	cmpq	$1023, %rax                     # imm = 0x3FF
	jne	.LBB3_12
# %bb.8:                                # %join.3.i.i.i.i83.i.i.i
	pxor	%xmm0, %xmm0
	movdqa	%xmm0, 1536(%rsp)
	movdqa	%xmm0, 1520(%rsp)
	movdqa	%xmm0, 1504(%rsp)
	movdqa	%xmm0, 1488(%rsp)
	movdqa	%xmm0, 1472(%rsp)
	movdqa	%xmm0, 1456(%rsp)
	movq	$0, 1232(%rsp)
	movl	200(%rsp), %esi
	leaq	1456(%rsp), %rdi
	movl	$1024, %ecx                     # imm = 0x400
	leaq	204(%rsp), %rdx
	callq	"std_io::io::write_to"
	cmpb	$0, 1456(%rsp)
	jne	.LBB3_9
# %bb.11:                               # %after.1.i.i.i90.i.i.i
	movq	1232(%rsp), %r13
	cmpq	$1023, %r13                     # imm = 0x3FF
	ja	.LBB3_10
.LBB3_12:                               # %"std_io::io::buffer::Buffer::push.exit.i.i75.i.i.i"
	movb	$58, 204(%rsp,%r13)
	cmpq	$1023, %r13                     # imm = 0x3FF
	jb	.LBB3_13
# %bb.14:                               # %join.3.i.i.i.i83.i.i.i.1
	pxor	%xmm0, %xmm0
	movdqa	%xmm0, 1536(%rsp)
	movdqa	%xmm0, 1520(%rsp)
	movdqa	%xmm0, 1504(%rsp)
	movdqa	%xmm0, 1488(%rsp)
	movdqa	%xmm0, 1472(%rsp)
	movdqa	%xmm0, 1456(%rsp)
	movq	$0, 1232(%rsp)
	movl	200(%rsp), %esi
	leaq	1456(%rsp), %rdi
	movl	$1024, %ecx                     # imm = 0x400
	leaq	204(%rsp), %rdx
	callq	"std_io::io::write_to"
	cmpb	$0, 1456(%rsp)
	je	.LBB3_15
.LBB3_9:                                # %"std_io::io::buffer::Buffer::flush.exit.thread.i.i.i82.i.i.i"
	movq	$1, 1240(%rsp)
	movups	1464(%rsp), %xmm0
	movdqu	1480(%rsp), %xmm1
	movups	1496(%rsp), %xmm2
	movups	1512(%rsp), %xmm3
	movups	%xmm0, 1248(%rsp)
	movdqu	%xmm1, 1264(%rsp)
	movups	%xmm2, 1280(%rsp)
	movups	%xmm3, 1296(%rsp)
	movdqu	1528(%rsp), %xmm0
	movdqu	%xmm0, 1312(%rsp)
	movq	1544(%rsp), %rax
	movq	%rax, 1328(%rsp)
.LBB3_10:                               # %"core::fmt::tuples::and_write1::<#4529a28abe3543b1>.exit.thread.i.i.i"
	movq	144(%rsp), %rax
	leaq	204(%rsp), %r13
.LBB3_36:                               # %join.4.i.i.i
	movq	%rax, 1148(%r13)
	movaps	128(%rsp), %xmm0
.LBB3_138:                              # %join.4.i.i.i
	movups	%xmm0, 1132(%r13)
.LBB3_139:                              # %join.4.i.i.i
	movl	200(%rsp), %ebp
	movl	%ebp, 1456(%rsp)
	leaq	1460(%rsp), %r14
	movl	$1132, %edx                     # imm = 0x46C
	movq	%r14, %rdi
	movq	%r13, %rsi
	callq	memcpy@PLT
	xorps	%xmm0, %xmm0
	movaps	%xmm0, 80(%rsp)
	movaps	%xmm0, 64(%rsp)
	movaps	%xmm0, 48(%rsp)
	movaps	%xmm0, 32(%rsp)
	movaps	%xmm0, 16(%rsp)
	movaps	%xmm0, (%rsp)
	movq	2488(%rsp), %rcx
	movq	$0, 2488(%rsp)
	cmpq	$1024, %rcx                     # imm = 0x400
	ja	.LBB3_141
# %bb.140:                              # %join.3.i.i.i.i.i
	movq	%rsp, %rdi
	movl	%ebp, %esi
	movq	%r14, %rdx
	callq	"std_io::io::write_to"
	cmpb	$0, (%rsp)
.LBB3_141:                              # %"std_io::io::LibcRuntimeEprint::eprintln::<#1a41170e1598af84>.exit"
	addq	$2600, %rsp                     # imm = 0xA28
	popq	%rbx
	popq	%r12
	popq	%r13
	popq	%r14
	popq	%r15
	popq	%rbp
	retq
.LBB3_13:
	incq	%r13
.LBB3_16:                               # %"std_io::io::buffer::Buffer::push.exit.i.i75.i.i.i.1"
	movb	$32, 204(%rsp,%r13)
	incq	%r13
	movq	%r13, 1232(%rsp)
.LBB3_18:                               # %arm.1.i19.i.i.i
	movl	$32, 1336(%rsp)
	leaq	204(%rsp), %r13
	movl	$0, 1144(%r13)
	movq	$0, 1136(%r13)
	movq	$-1, 1352(%rsp)
	pxor	%xmm0, %xmm0
	movdqa	%xmm0, 1696(%rsp)
	movdqa	%xmm0, 1680(%rsp)
	movdqa	%xmm0, 1664(%rsp)
	movdqa	%xmm0, 1648(%rsp)
	movdqa	%xmm0, 1632(%rsp)
	movdqa	%xmm0, 1616(%rsp)
	movdqa	%xmm0, 1600(%rsp)
	movdqa	%xmm0, 1584(%rsp)
	movdqa	%xmm0, 1568(%rsp)
	movdqa	%xmm0, 1552(%rsp)
	movdqa	%xmm0, 1536(%rsp)
	movdqa	%xmm0, 1520(%rsp)
	movdqa	%xmm0, 1504(%rsp)
	movdqa	%xmm0, 1488(%rsp)
	movdqa	%xmm0, 1472(%rsp)
	movdqa	%xmm0, 1456(%rsp)
	movl	%r14d, %ebx
	testl	%r14d, %r14d
	je	.LBB3_19
# %bb.25:                               # %join.3.i.i.i.i.i.i
	movaps	1440(%rsp), %xmm0               # 16-byte Reload
	movaps	%xmm0, 1456(%rsp)
	movaps	1424(%rsp), %xmm0               # 16-byte Reload
	movaps	%xmm0, 1472(%rsp)
	movaps	1408(%rsp), %xmm0               # 16-byte Reload
	movaps	%xmm0, 1488(%rsp)
	movaps	1392(%rsp), %xmm0               # 16-byte Reload
	movaps	%xmm0, 1504(%rsp)
	movdqa	1376(%rsp), %xmm0               # 16-byte Reload
	movdqa	%xmm0, 1520(%rsp)
	movq	192(%rsp), %rdx                 # 8-byte Reload
	jmp	.LBB3_26
.LBB3_19:                               # %then.1.i12.i.i.i.i.i
	leaq	1456(%rsp), %rsi
	movl	$256, %edx                      # imm = 0x100
	movl	124(%rsp), %edi                 # 4-byte Reload
	callq	__xpg_strerror_r@PLT
	movq	$-16, %rcx
	.p2align	4
.LBB3_20:                               # %vector.body
                                        # =>This Inner Loop Header: Depth=1
	movdqa	1472(%rsp,%rcx), %xmm0
	pxor	%xmm1, %xmm1
	pcmpeqb	%xmm0, %xmm1
	pmovmskb	%xmm1, %edx
	leaq	16(%rcx), %rax
	testl	%edx, %edx
	jne	.LBB3_22
# %bb.21:                               # %vector.body
                                        #   in Loop: Header=BB3_20 Depth=1
	cmpq	$224, %rcx
	movq	%rax, %rcx
	jne	.LBB3_20
.LBB3_22:                               # %middle.split
	testw	%dx, %dx
	je	.LBB3_23
# %bb.24:                               # %vector.early.exit
	pxor	%xmm1, %xmm1
	pcmpeqb	%xmm1, %xmm0
	pand	.LCPI3_0(%rip), %xmm0
	movdqa	%xmm0, 96(%rsp)
	movzbl	97(%rsp), %ecx
	movl	96(%rsp), %edx
	cmpb	%cl, %dl
	cmoval	%edx, %ecx
	movzbl	98(%rsp), %edx
	cmpb	%dl, %cl
	cmovbel	%edx, %ecx
	movl	100(%rsp), %edx
	movzbl	99(%rsp), %esi
	cmpb	%sil, %cl
	cmovbel	%esi, %ecx
	cmpb	%dl, %cl
	cmovbel	%edx, %ecx
	movzbl	101(%rsp), %edx
	cmpb	%dl, %cl
	cmovbel	%edx, %ecx
	movzbl	102(%rsp), %edx
	cmpb	%dl, %cl
	cmovbel	%edx, %ecx
	movzbl	103(%rsp), %edx
	cmpb	%dl, %cl
	cmovbel	%edx, %ecx
	movl	104(%rsp), %edx
	cmpb	%dl, %cl
	cmovbel	%edx, %ecx
	movzbl	105(%rsp), %edx
	cmpb	%dl, %cl
	cmovbel	%edx, %ecx
	movzbl	106(%rsp), %edx
	cmpb	%dl, %cl
	cmovbel	%edx, %ecx
	movzbl	107(%rsp), %edx
	cmpb	%dl, %cl
	cmovbel	%edx, %ecx
	movl	108(%rsp), %edx
	cmpb	%dl, %cl
	cmovbel	%edx, %ecx
	movzbl	109(%rsp), %edx
	cmpb	%dl, %cl
	cmovbel	%edx, %ecx
	movzbl	110(%rsp), %edx
	cmpb	%dl, %cl
	cmovbel	%edx, %ecx
	movzbl	111(%rsp), %edx
	cmpb	%dl, %cl
	cmovbel	%edx, %ecx
	movb	$16, %dl
	subb	%cl, %dl
	movzbl	%dl, %edx
	addq	%rax, %rdx
	jmp	.LBB3_26
.LBB3_15:                               # %after.1.i.i.i90.i.i.i.1
	movq	1232(%rsp), %r13
	cmpq	$1023, %r13                     # imm = 0x3FF
	ja	.LBB3_10
	jmp	.LBB3_16
.LBB3_17:                               # %"core::fmt::tuples::and_write1::<#27d1b31444f324f7>.exit.i.i.i"
	leaq	.Lstatic.7(%rip), %rsi
	leaq	200(%rsp), %rdi
	movl	$2, %edx
	callq	"core::fmt::formatter::Formatter::write_indented::<#bf264aed5fa78656>"
	testb	%al, %al
	jne	.LBB3_10
	jmp	.LBB3_18
.LBB3_23:
	movl	$256, %edx                      # imm = 0x100
.LBB3_26:                               # %"std_io::io::error::Error::write_message.exit.i.i.i.i.i"
	pxor	%xmm0, %xmm0
	movdqa	%xmm0, (%rsp)
	movq	$0, 16(%rsp)
	movq	%rsp, %rdi
	leaq	1456(%rsp), %rsi
	callq	"core::str::utf8::from_utf8"
	xorl	%edx, %edx
	cmpb	$0, (%rsp)
	leaq	.Lstatic.13(%rip), %r14
	cmoveq	8(%rsp), %r14
	movq	16(%rsp), %r15
	cmoveq	%r15, %rdx
	cmpl	$1, %ebx
	je	.LBB3_110
# %bb.27:                               # %"std_io::io::error::Error::write_message.exit.i.i.i.i.i"
	testl	%ebx, %ebx
	jne	.LBB3_113
# %bb.28:                               # %arm.1.i.i.i.i.i
	movl	$32, 1336(%rsp)
	movl	$0, 1144(%r13)
	movq	$0, 1136(%r13)
	movq	$-1, 1352(%rsp)
	cmpq	$0, 1360(%rsp)
	jne	.LBB3_39
# %bb.29:                               # %then.1.i.i.i.i.i.i.i
	movq	1232(%rsp), %rax
	testq	%rdx, %rdx
	je	.LBB3_42
# %bb.30:                               # %arm.3.i.i.i.i.i.i.i.preheader
	xorl	%r12d, %r12d
	jmp	.LBB3_31
	.p2align	4
.LBB3_38:                               # %"std_io::io::buffer::Buffer::push.exit.i.i.i.i.i.i.i"
                                        #   in Loop: Header=BB3_31 Depth=1
	movb	%bl, 204(%rsp,%rax)
	incq	%rax
	movq	%rax, 1232(%rsp)
	incq	%r12
	cmpq	%r12, %r15
	je	.LBB3_40
.LBB3_31:                               # %arm.3.i.i.i.i.i.i.i
                                        # =>This Inner Loop Header: Depth=1
	movzbl	(%r14,%r12), %ebx
	cmpq	$1024, %rax                     # imm = 0x400
	jb	.LBB3_38
# %bb.32:                               # %then.2.i.i.i.i.i.i.i.i
                                        #   in Loop: Header=BB3_31 Depth=1
	pxor	%xmm0, %xmm0
	movdqa	%xmm0, 80(%rsp)
	movdqa	%xmm0, 64(%rsp)
	movdqa	%xmm0, 48(%rsp)
	movdqa	%xmm0, 32(%rsp)
	movdqa	%xmm0, 16(%rsp)
	movdqa	%xmm0, (%rsp)
	movq	$0, 1232(%rsp)
	jne	.LBB3_35
# %bb.33:                               # %join.3.i.i.i.i.i.i.i.i.i
                                        #   in Loop: Header=BB3_31 Depth=1
	movl	200(%rsp), %esi
	movq	%rsp, %rdi
	movl	$1024, %ecx                     # imm = 0x400
	movq	%r13, %rdx
	callq	"std_io::io::write_to"
	cmpb	$0, (%rsp)
	jne	.LBB3_34
# %bb.37:                               # %after.1.i.i.i.i.i.i.i.i
                                        #   in Loop: Header=BB3_31 Depth=1
	movq	1232(%rsp), %rax
	cmpq	$1023, %rax                     # imm = 0x3FF
	jbe	.LBB3_38
	jmp	.LBB3_35
.LBB3_110:                              # %arm.2.i.i.i.i.i
	movaps	.LCPI3_1(%rip), %xmm0           # xmm0 = [0,1,2,3,4,5,6,7,8,9,10,11,12,13,14,15]
	movaps	%xmm0, (%rsp)
	movdqa	.LCPI3_2(%rip), %xmm0           # xmm0 = [16,17,18,19,20,21,22,23,24,25,26,27,28,29,30,31]
	movdqa	%xmm0, 16(%rsp)
	movabsq	$2820983053732684064, %rax      # imm = 0x2726252423222120
	movq	%rax, 32(%rsp)
	movb	$40, 40(%rsp)
	movb	$41, %al
	movq	184(%rsp), %rcx                 # 8-byte Reload
	cmpb	$40, %cl
	ja	.LBB3_112
# %bb.111:                              # %then.1.i.i152.i.i.i.i.i
	movzbl	(%rsp,%rcx), %eax
.LBB3_112:                              # %"std_io::io::error::Error::kind.exit.i.i.i.i.i"
	movzbl	%al, %edi
	leaq	200(%rsp), %rsi
	callq	"std_io::io::kind::ErrorKindDisplay::fmt::<#bf264aed5fa78656>"
	jmp	.LBB3_128
.LBB3_113:                              # %default.3.i.i.i.i.i
	cmpq	$0, 1344(%rsp)
	jne	.LBB3_125
# %bb.114:                              # %default.3.i.i.i.i.i
	cmpq	1352(%rsp), %rdx
	ja	.LBB3_125
# %bb.115:                              # %then.5.i.i.i.i.i.i
	cmpq	$0, 1360(%rsp)
	jne	.LBB3_124
# %bb.116:                              # %then.1.i.i.i.i.i.i
	testq	%rdx, %rdx
	je	.LBB3_123
# %bb.117:                              # %arm.3.lr.ph.i.i.i.i.i.i
	movq	1232(%rsp), %rax
	xorl	%r12d, %r12d
	jmp	.LBB3_118
.LBB3_122:                              # %"std_io::io::buffer::Buffer::push.exit.i.i.i.i.i.i"
                                        #   in Loop: Header=BB3_118 Depth=1
	movb	%bl, 204(%rsp,%rax)
	incq	%rax
	movq	%rax, 1232(%rsp)
	incq	%r12
	cmpq	%r12, %r15
	je	.LBB3_123
.LBB3_118:                              # %arm.3.i.i.i.i.i.i
                                        # =>This Inner Loop Header: Depth=1
	movzbl	(%r14,%r12), %ebx
	cmpq	$1024, %rax                     # imm = 0x400
	jb	.LBB3_122
# %bb.119:                              # %then.2.i.i.i.i.i.i.i
                                        #   in Loop: Header=BB3_118 Depth=1
	pxor	%xmm0, %xmm0
	movdqa	%xmm0, 80(%rsp)
	movdqa	%xmm0, 64(%rsp)
	movdqa	%xmm0, 48(%rsp)
	movdqa	%xmm0, 32(%rsp)
	movdqa	%xmm0, 16(%rsp)
	movdqa	%xmm0, (%rsp)
	movq	$0, 1232(%rsp)
	jne	.LBB3_35
# %bb.120:                              # %join.3.i.i.i.i.i.i.i.i
                                        #   in Loop: Header=BB3_118 Depth=1
	movl	200(%rsp), %esi
	movq	%rsp, %rdi
	movl	$1024, %ecx                     # imm = 0x400
	movq	%r13, %rdx
	callq	"std_io::io::write_to"
	cmpb	$0, (%rsp)
	jne	.LBB3_34
# %bb.121:                              # %after.1.i.i.i.i.i.i.i
                                        #   in Loop: Header=BB3_118 Depth=1
	movq	1232(%rsp), %rax
	cmpq	$1023, %rax                     # imm = 0x3FF
	jbe	.LBB3_122
	jmp	.LBB3_35
.LBB3_125:                              # %after.1.i.i.i102.i.i.i
	leaq	200(%rsp), %rdi
	movq	%r14, %rsi
	callq	"core::fmt::formatter::Formatter::cut_and_fill::<#bf264aed5fa78656>"
.LBB3_128:                              # %"core::fmt::tuples::and_write1::<#4529a28abe3543b1>.exit.i.i.i"
	movq	144(%rsp), %rcx
	movq	%rcx, 1148(%r13)
	movaps	128(%rsp), %xmm0
	movups	%xmm0, 1132(%r13)
	testb	%al, %al
	jne	.LBB3_139
	jmp	.LBB3_129
.LBB3_39:                               # %"core::fmt::formatter::Formatter::write_piece::<#4792e67e40da9d69>.exit.i.i.i.i.i"
	leaq	200(%rsp), %rdi
	movq	%r14, %rsi
	callq	"core::fmt::formatter::Formatter::write_indented::<#bf264aed5fa78656>"
	testb	%al, %al
	jne	.LBB3_35
.LBB3_40:                               # %arm.1.i2.i.i.i.i.i.i
	movl	$32, 1336(%rsp)
	cmpq	$0, 1360(%rsp)
	movl	$0, 1144(%r13)
	movq	$0, 1136(%r13)
	movq	$-1, 1352(%rsp)
	jne	.LBB3_87
# %bb.41:                               # %arm.1.i2.i.i.i.i.i.i.arm.3.lr.ph.i.i34.i.i.i.i.i_crit_edge
	movq	1232(%rsp), %rax
.LBB3_42:                               # %arm.3.lr.ph.i.i34.i.i.i.i.i
	cmpq	$1024, %rax                     # imm = 0x400
	jb	.LBB3_46
# %bb.43:                               # %then.2.i.i.i51.i.i.i.i.i
	pxor	%xmm0, %xmm0
	movdqa	%xmm0, 80(%rsp)
	movdqa	%xmm0, 64(%rsp)
	movdqa	%xmm0, 48(%rsp)
	movdqa	%xmm0, 32(%rsp)
	movdqa	%xmm0, 16(%rsp)
	movdqa	%xmm0, (%rsp)
	movq	$0, 1232(%rsp)
	jne	.LBB3_35
# %bb.44:                               # %join.3.i.i.i.i54.i.i.i.i.i
	movl	200(%rsp), %esi
	movq	%rsp, %rdi
	movl	$1024, %ecx                     # imm = 0x400
	movq	%r13, %rdx
	callq	"std_io::io::write_to"
	cmpb	$0, (%rsp)
	jne	.LBB3_34
# %bb.45:                               # %after.1.i.i.i61.i.i.i.i.i
	movq	1232(%rsp), %rax
	cmpq	$1023, %rax                     # imm = 0x3FF
	ja	.LBB3_35
.LBB3_46:                               # %"std_io::io::buffer::Buffer::push.exit.i.i46.i.i.i.i.i"
	movb	$32, 204(%rsp,%rax)
	cmpq	$1023, %rax                     # imm = 0x3FF
	jne	.LBB3_47
# %bb.48:                               # %join.3.i.i.i.i54.1.i.i.i.i.i
	pxor	%xmm0, %xmm0
	movdqa	%xmm0, 80(%rsp)
	movdqa	%xmm0, 64(%rsp)
	movdqa	%xmm0, 48(%rsp)
	movdqa	%xmm0, 32(%rsp)
	movdqa	%xmm0, 16(%rsp)
	movdqa	%xmm0, (%rsp)
	movq	$0, 1232(%rsp)
	movl	200(%rsp), %esi
	movq	%rsp, %rdi
	movl	$1024, %ecx                     # imm = 0x400
	movq	%r13, %rdx
	callq	"std_io::io::write_to"
	cmpb	$0, (%rsp)
	jne	.LBB3_34
# %bb.49:                               # %after.1.i.i.i61.1.i.i.i.i.i
	movq	1232(%rsp), %rax
	cmpq	$1023, %rax                     # imm = 0x3FF
	jbe	.LBB3_50
	jmp	.LBB3_35
.LBB3_47:
	incq	%rax
.LBB3_50:                               # %"std_io::io::buffer::Buffer::push.exit.i.i46.1.i.i.i.i.i"
	movb	$40, 204(%rsp,%rax)
	cmpq	$1023, %rax                     # imm = 0x3FF
	jb	.LBB3_51
# %bb.52:                               # %join.3.i.i.i.i54.2.i.i.i.i.i
	pxor	%xmm0, %xmm0
	movdqa	%xmm0, 80(%rsp)
	movdqa	%xmm0, 64(%rsp)
	movdqa	%xmm0, 48(%rsp)
	movdqa	%xmm0, 32(%rsp)
	movdqa	%xmm0, 16(%rsp)
	movdqa	%xmm0, (%rsp)
	movq	$0, 1232(%rsp)
	movl	200(%rsp), %esi
	movq	%rsp, %rdi
	movl	$1024, %ecx                     # imm = 0x400
	movq	%r13, %rdx
	callq	"std_io::io::write_to"
	cmpb	$0, (%rsp)
	jne	.LBB3_34
# %bb.53:                               # %after.1.i.i.i61.2.i.i.i.i.i
	movq	1232(%rsp), %rax
	cmpq	$1023, %rax                     # imm = 0x3FF
	jbe	.LBB3_54
	jmp	.LBB3_35
.LBB3_51:
	incq	%rax
.LBB3_54:                               # %"std_io::io::buffer::Buffer::push.exit.i.i46.2.i.i.i.i.i"
	movb	$111, 204(%rsp,%rax)
	cmpq	$1023, %rax                     # imm = 0x3FF
	jb	.LBB3_55
# %bb.56:                               # %join.3.i.i.i.i54.3.i.i.i.i.i
	pxor	%xmm0, %xmm0
	movdqa	%xmm0, 80(%rsp)
	movdqa	%xmm0, 64(%rsp)
	movdqa	%xmm0, 48(%rsp)
	movdqa	%xmm0, 32(%rsp)
	movdqa	%xmm0, 16(%rsp)
	movdqa	%xmm0, (%rsp)
	movq	$0, 1232(%rsp)
	movl	200(%rsp), %esi
	movq	%rsp, %rdi
	movl	$1024, %ecx                     # imm = 0x400
	movq	%r13, %rdx
	callq	"std_io::io::write_to"
	cmpb	$0, (%rsp)
	jne	.LBB3_34
# %bb.57:                               # %after.1.i.i.i61.3.i.i.i.i.i
	movq	1232(%rsp), %rax
	cmpq	$1023, %rax                     # imm = 0x3FF
	jbe	.LBB3_58
	jmp	.LBB3_35
.LBB3_55:
	incq	%rax
.LBB3_58:                               # %"std_io::io::buffer::Buffer::push.exit.i.i46.3.i.i.i.i.i"
	movb	$115, 204(%rsp,%rax)
	cmpq	$1023, %rax                     # imm = 0x3FF
	jb	.LBB3_59
# %bb.60:                               # %join.3.i.i.i.i54.4.i.i.i.i.i
	pxor	%xmm0, %xmm0
	movdqa	%xmm0, 80(%rsp)
	movdqa	%xmm0, 64(%rsp)
	movdqa	%xmm0, 48(%rsp)
	movdqa	%xmm0, 32(%rsp)
	movdqa	%xmm0, 16(%rsp)
	movdqa	%xmm0, (%rsp)
	movq	$0, 1232(%rsp)
	movl	200(%rsp), %esi
	movq	%rsp, %rdi
	movl	$1024, %ecx                     # imm = 0x400
	movq	%r13, %rdx
	callq	"std_io::io::write_to"
	cmpb	$0, (%rsp)
	jne	.LBB3_34
# %bb.61:                               # %after.1.i.i.i61.4.i.i.i.i.i
	movq	1232(%rsp), %rax
	cmpq	$1023, %rax                     # imm = 0x3FF
	jbe	.LBB3_62
	jmp	.LBB3_35
.LBB3_59:
	incq	%rax
.LBB3_62:                               # %"std_io::io::buffer::Buffer::push.exit.i.i46.4.i.i.i.i.i"
	movb	$32, 204(%rsp,%rax)
	cmpq	$1023, %rax                     # imm = 0x3FF
	jb	.LBB3_63
# %bb.64:                               # %join.3.i.i.i.i54.5.i.i.i.i.i
	pxor	%xmm0, %xmm0
	movdqa	%xmm0, 80(%rsp)
	movdqa	%xmm0, 64(%rsp)
	movdqa	%xmm0, 48(%rsp)
	movdqa	%xmm0, 32(%rsp)
	movdqa	%xmm0, 16(%rsp)
	movdqa	%xmm0, (%rsp)
	movq	$0, 1232(%rsp)
	movl	200(%rsp), %esi
	movq	%rsp, %rdi
	movl	$1024, %ecx                     # imm = 0x400
	movq	%r13, %rdx
	callq	"std_io::io::write_to"
	cmpb	$0, (%rsp)
	jne	.LBB3_34
# %bb.65:                               # %after.1.i.i.i61.5.i.i.i.i.i
	movq	1232(%rsp), %rax
	cmpq	$1023, %rax                     # imm = 0x3FF
	jbe	.LBB3_66
	jmp	.LBB3_35
.LBB3_124:                              # %else.2.i.i.i.i.i.i
	leaq	200(%rsp), %rdi
	movq	%r14, %rsi
.LBB3_127:                              # %"core::fmt::tuples::and_write1::<#4529a28abe3543b1>.exit.i.i.i"
	callq	"core::fmt::formatter::Formatter::write_indented::<#bf264aed5fa78656>"
	jmp	.LBB3_128
.LBB3_63:
	incq	%rax
.LBB3_66:                               # %"std_io::io::buffer::Buffer::push.exit.i.i46.5.i.i.i.i.i"
	movb	$101, 204(%rsp,%rax)
	cmpq	$1023, %rax                     # imm = 0x3FF
	jb	.LBB3_67
# %bb.68:                               # %join.3.i.i.i.i54.6.i.i.i.i.i
	pxor	%xmm0, %xmm0
	movdqa	%xmm0, 80(%rsp)
	movdqa	%xmm0, 64(%rsp)
	movdqa	%xmm0, 48(%rsp)
	movdqa	%xmm0, 32(%rsp)
	movdqa	%xmm0, 16(%rsp)
	movdqa	%xmm0, (%rsp)
	movq	$0, 1232(%rsp)
	movl	200(%rsp), %esi
	movq	%rsp, %rdi
	movl	$1024, %ecx                     # imm = 0x400
	movq	%r13, %rdx
	callq	"std_io::io::write_to"
	cmpb	$0, (%rsp)
	jne	.LBB3_34
# %bb.69:                               # %after.1.i.i.i61.6.i.i.i.i.i
	movq	1232(%rsp), %rax
	cmpq	$1023, %rax                     # imm = 0x3FF
	jbe	.LBB3_70
	jmp	.LBB3_35
.LBB3_87:                               # %"core::fmt::tuples::and_write1::<#27d1b31444f324f7>.exit4.i.i.i.i.i.i"
	leaq	.Lstatic.11(%rip), %rsi
	leaq	200(%rsp), %rdi
	movl	$11, %edx
	callq	"core::fmt::formatter::Formatter::write_indented::<#bf264aed5fa78656>"
	testb	%al, %al
	jne	.LBB3_35
	jmp	.LBB3_88
.LBB3_67:
	incq	%rax
.LBB3_70:                               # %"std_io::io::buffer::Buffer::push.exit.i.i46.6.i.i.i.i.i"
	movb	$114, 204(%rsp,%rax)
	cmpq	$1023, %rax                     # imm = 0x3FF
	jb	.LBB3_71
# %bb.72:                               # %join.3.i.i.i.i54.7.i.i.i.i.i
	pxor	%xmm0, %xmm0
	movdqa	%xmm0, 80(%rsp)
	movdqa	%xmm0, 64(%rsp)
	movdqa	%xmm0, 48(%rsp)
	movdqa	%xmm0, 32(%rsp)
	movdqa	%xmm0, 16(%rsp)
	movdqa	%xmm0, (%rsp)
	movq	$0, 1232(%rsp)
	movl	200(%rsp), %esi
	movq	%rsp, %rdi
	movl	$1024, %ecx                     # imm = 0x400
	movq	%r13, %rdx
	callq	"std_io::io::write_to"
	cmpb	$0, (%rsp)
	jne	.LBB3_34
# %bb.73:                               # %after.1.i.i.i61.7.i.i.i.i.i
	movq	1232(%rsp), %rax
	cmpq	$1023, %rax                     # imm = 0x3FF
	jbe	.LBB3_74
	jmp	.LBB3_35
.LBB3_71:
	incq	%rax
.LBB3_74:                               # %"std_io::io::buffer::Buffer::push.exit.i.i46.7.i.i.i.i.i"
	movb	$114, 204(%rsp,%rax)
	cmpq	$1023, %rax                     # imm = 0x3FF
	jb	.LBB3_75
# %bb.76:                               # %join.3.i.i.i.i54.8.i.i.i.i.i
	pxor	%xmm0, %xmm0
	movdqa	%xmm0, 80(%rsp)
	movdqa	%xmm0, 64(%rsp)
	movdqa	%xmm0, 48(%rsp)
	movdqa	%xmm0, 32(%rsp)
	movdqa	%xmm0, 16(%rsp)
	movdqa	%xmm0, (%rsp)
	movq	$0, 1232(%rsp)
	movl	200(%rsp), %esi
	movq	%rsp, %rdi
	movl	$1024, %ecx                     # imm = 0x400
	movq	%r13, %rdx
	callq	"std_io::io::write_to"
	cmpb	$0, (%rsp)
	jne	.LBB3_34
# %bb.77:                               # %after.1.i.i.i61.8.i.i.i.i.i
	movq	1232(%rsp), %rax
	cmpq	$1023, %rax                     # imm = 0x3FF
	jbe	.LBB3_78
	jmp	.LBB3_35
.LBB3_75:
	incq	%rax
.LBB3_78:                               # %"std_io::io::buffer::Buffer::push.exit.i.i46.8.i.i.i.i.i"
	movb	$111, 204(%rsp,%rax)
	cmpq	$1023, %rax                     # imm = 0x3FF
	jb	.LBB3_79
# %bb.80:                               # %join.3.i.i.i.i54.9.i.i.i.i.i
	pxor	%xmm0, %xmm0
	movdqa	%xmm0, 80(%rsp)
	movdqa	%xmm0, 64(%rsp)
	movdqa	%xmm0, 48(%rsp)
	movdqa	%xmm0, 32(%rsp)
	movdqa	%xmm0, 16(%rsp)
	movdqa	%xmm0, (%rsp)
	movq	$0, 1232(%rsp)
	movl	200(%rsp), %esi
	movq	%rsp, %rdi
	movl	$1024, %ecx                     # imm = 0x400
	movq	%r13, %rdx
	callq	"std_io::io::write_to"
	cmpb	$0, (%rsp)
	jne	.LBB3_34
# %bb.81:                               # %after.1.i.i.i61.9.i.i.i.i.i
	movq	1232(%rsp), %rax
	cmpq	$1023, %rax                     # imm = 0x3FF
	jbe	.LBB3_82
	jmp	.LBB3_35
.LBB3_79:
	incq	%rax
.LBB3_82:                               # %"std_io::io::buffer::Buffer::push.exit.i.i46.9.i.i.i.i.i"
	movb	$114, 204(%rsp,%rax)
	cmpq	$1023, %rax                     # imm = 0x3FF
	jb	.LBB3_83
# %bb.84:                               # %join.3.i.i.i.i54.10.i.i.i.i.i
	pxor	%xmm0, %xmm0
	movdqa	%xmm0, 80(%rsp)
	movdqa	%xmm0, 64(%rsp)
	movdqa	%xmm0, 48(%rsp)
	movdqa	%xmm0, 32(%rsp)
	movdqa	%xmm0, 16(%rsp)
	movdqa	%xmm0, (%rsp)
	movq	$0, 1232(%rsp)
	movl	200(%rsp), %esi
	movq	%rsp, %rdi
	movl	$1024, %ecx                     # imm = 0x400
	movq	%r13, %rdx
	callq	"std_io::io::write_to"
	cmpb	$0, (%rsp)
	je	.LBB3_85
.LBB3_34:                               # %arm.5.i.i.i.i.i.i.i.i.i
	movq	$1, 1240(%rsp)
	movups	8(%rsp), %xmm0
	movups	24(%rsp), %xmm1
	movups	40(%rsp), %xmm2
	movups	56(%rsp), %xmm3
	movups	%xmm0, 1248(%rsp)
	movups	%xmm1, 1264(%rsp)
	movups	%xmm2, 1280(%rsp)
	movups	%xmm3, 1296(%rsp)
	movups	72(%rsp), %xmm0
	movups	%xmm0, 1312(%rsp)
	movq	88(%rsp), %rax
	movq	%rax, 1328(%rsp)
.LBB3_35:                               # %"core::fmt::tuples::and_write1::<#4529a28abe3543b1>.exit.i.thread.i.i"
	movq	144(%rsp), %rax
	jmp	.LBB3_36
.LBB3_83:
	incq	%rax
.LBB3_86:                               # %"std_io::io::buffer::Buffer::push.exit.i.i46.10.i.i.i.i.i"
	movb	$32, 204(%rsp,%rax)
	incq	%rax
	movq	%rax, 1232(%rsp)
.LBB3_88:                               # %arm.1.i.i.i.i.i.i
	movl	$32, 1336(%rsp)
	movl	$0, 1144(%r13)
	movq	$0, 1136(%r13)
	movq	$-1, 1352(%rsp)
	movl	124(%rsp), %eax                 # 4-byte Reload
	movl	%eax, %edx
	negl	%edx
	cmovsl	%eax, %edx
	pxor	%xmm0, %xmm0
	movdqa	%xmm0, 160(%rsp)
	movq	$0, 176(%rsp)
	movl	$24, %eax
	cmpl	$100, %edx
	jb	.LBB3_89
.LBB3_90:                               # %join.5.i.i.i99.i.i.i.i.i
                                        # =>This Inner Loop Header: Depth=1
	movl	%edx, %ecx
	imulq	$1374389535, %rcx, %rcx         # imm = 0x51EB851F
	shrq	$37, %rcx
	imull	$100, %ecx, %esi
	movl	%edx, %edi
	subl	%esi, %edi
	imull	$103, %edi, %esi
	movzwl	%si, %esi
	shrl	$10, %esi
	leal	(%rsi,%rsi), %r8d
	leal	(%r8,%r8,4), %r8d
	subb	%r8b, %dil
	orb	$48, %dil
	movb	%dil, 159(%rsp,%rax)
	orb	$48, %sil
	movb	%sil, 158(%rsp,%rax)
	addq	$-2, %rax
	cmpq	$9999, %rdx                     # imm = 0x270F
	movq	%rcx, %rdx
	ja	.LBB3_90
	jmp	.LBB3_91
.LBB3_89:
	movq	%rdx, %rcx
.LBB3_91:                               # %after.1.i.i.i70.i.i.i.i.i
	cmpq	$10, %rcx
	jb	.LBB3_93
# %bb.92:                               # %then.6.i.i.i.i.i.i.i.i
	movzbl	%cl, %edx
	imull	$205, %edx, %edx
	shrl	$11, %edx
	leal	(%rdx,%rdx), %esi
	leal	(%rsi,%rsi,4), %esi
	subb	%sil, %cl
	orb	$48, %cl
	movb	%cl, 159(%rsp,%rax)
	orb	$48, %dl
	movb	%dl, 158(%rsp,%rax)
	addq	$-2, %rax
	jmp	.LBB3_94
.LBB3_93:                               # %join.8.i.i.i71.i.i.i.i.i
	orb	$48, %cl
	movb	%cl, 159(%rsp,%rax)
	decq	%rax
.LBB3_94:                               # %"core::fmt::int::decimal_text.exit.i.i.i.i.i.i"
	leaq	-1(%rax), %r14
	cmpl	$0, 124(%rsp)                   # 4-byte Folded Reload
	movb	$45, 159(%rsp,%rax)
	cmovnsq	%rax, %r14
	cmpq	$0, 1360(%rsp)
	jne	.LBB3_102
# %bb.95:                               # %then.1.i.i.i.i.i.i.i.i
	cmpq	$24, %r14
	jne	.LBB3_96
.LBB3_103:                              # %arm.1.i.i.i.i.i.i.i
	movl	$32, 1336(%rsp)
	movl	$0, 1144(%r13)
	movq	$0, 1136(%r13)
	movq	$-1, 1352(%rsp)
	cmpq	$0, 1360(%rsp)
	jne	.LBB3_126
# %bb.104:                              # %arm.3.lr.ph.i.i119.i.i.i.i.i
	movq	1232(%rsp), %rax
	cmpq	$1024, %rax                     # imm = 0x400
	jb	.LBB3_109
# %bb.105:                              # %then.2.i.i.i136.i.i.i.i.i
	pxor	%xmm0, %xmm0
	movdqa	%xmm0, 80(%rsp)
	movdqa	%xmm0, 64(%rsp)
	movdqa	%xmm0, 48(%rsp)
	movdqa	%xmm0, 32(%rsp)
	movdqa	%xmm0, 16(%rsp)
	movdqa	%xmm0, (%rsp)
	movq	$0, 1232(%rsp)
	jne	.LBB3_35
# %bb.106:                              # %join.3.i.i.i.i139.i.i.i.i.i
	movl	200(%rsp), %esi
	movq	%rsp, %rdi
	movl	$1024, %ecx                     # imm = 0x400
	movq	%r13, %rdx
	callq	"std_io::io::write_to"
	cmpb	$0, (%rsp)
	je	.LBB3_108
# %bb.107:                              # %arm.5.i.i.i.i142.i.i.i.i.i
	movq	$1, 1240(%rsp)
	movups	8(%rsp), %xmm0
	movdqu	24(%rsp), %xmm1
	movups	40(%rsp), %xmm2
	movups	56(%rsp), %xmm3
	movups	%xmm0, 1248(%rsp)
	movdqu	%xmm1, 1264(%rsp)
	movups	%xmm2, 1280(%rsp)
	movups	%xmm3, 1296(%rsp)
	movdqu	72(%rsp), %xmm0
	movdqu	%xmm0, 1312(%rsp)
	movq	88(%rsp), %rax
	movq	%rax, 1328(%rsp)
	leaq	204(%rsp), %r13
	jmp	.LBB3_35
.LBB3_96:                               # %arm.3.lr.ph.i.i74.i.i.i.i.i
	movq	1232(%rsp), %rax
	jmp	.LBB3_97
.LBB3_101:                              # %"std_io::io::buffer::Buffer::push.exit.i.i82.i.i.i.i.i"
                                        #   in Loop: Header=BB3_97 Depth=1
	movb	%bl, 204(%rsp,%rax)
	incq	%rax
	movq	%rax, 1232(%rsp)
	incq	%r14
	cmpq	$24, %r14
	je	.LBB3_103
.LBB3_97:                               # %arm.3.i.i77.i.i.i.i.i
                                        # =>This Inner Loop Header: Depth=1
	movzbl	160(%rsp,%r14), %ebx
	cmpq	$1024, %rax                     # imm = 0x400
	jb	.LBB3_101
# %bb.98:                               # %then.2.i.i.i87.i.i.i.i.i
                                        #   in Loop: Header=BB3_97 Depth=1
	pxor	%xmm0, %xmm0
	movdqa	%xmm0, 80(%rsp)
	movdqa	%xmm0, 64(%rsp)
	movdqa	%xmm0, 48(%rsp)
	movdqa	%xmm0, 32(%rsp)
	movdqa	%xmm0, 16(%rsp)
	movdqa	%xmm0, (%rsp)
	movq	$0, 1232(%rsp)
	jne	.LBB3_35
# %bb.99:                               # %join.3.i.i.i.i90.i.i.i.i.i
                                        #   in Loop: Header=BB3_97 Depth=1
	movl	200(%rsp), %esi
	movq	%rsp, %rdi
	movl	$1024, %ecx                     # imm = 0x400
	movq	%r13, %rdx
	callq	"std_io::io::write_to"
	cmpb	$0, (%rsp)
	jne	.LBB3_34
# %bb.100:                              # %after.1.i.i12.i.i.i.i.i.i
                                        #   in Loop: Header=BB3_97 Depth=1
	movq	1232(%rsp), %rax
	cmpq	$1023, %rax                     # imm = 0x3FF
	jbe	.LBB3_101
	jmp	.LBB3_35
.LBB3_85:                               # %after.1.i.i.i61.10.i.i.i.i.i
	movq	1232(%rsp), %rax
	cmpq	$1023, %rax                     # imm = 0x3FF
	ja	.LBB3_35
	jmp	.LBB3_86
.LBB3_108:                              # %after.1.i.i.i146.i.i.i.i.i
	movq	1232(%rsp), %rax
	cmpq	$1023, %rax                     # imm = 0x3FF
	leaq	204(%rsp), %r13
	ja	.LBB3_35
.LBB3_109:                              # %"core::fmt::tuples::and_write1::<#4529a28abe3543b1>.exit.i.thread3.i.i"
	movb	$41, 204(%rsp,%rax)
	incq	%rax
	movq	%rax, 1232(%rsp)
.LBB3_123:                              # %"core::fmt::tuples::and_write1::<#4529a28abe3543b1>.exit.thread67.i.i.i"
	movq	144(%rsp), %rax
	movq	%rax, 1148(%r13)
	movaps	128(%rsp), %xmm0
	movups	%xmm0, 1132(%r13)
.LBB3_129:                              # %arm.1.i.i.i
	movq	1148(%r13), %rax
	movq	%rax, 16(%rsp)
	movups	1132(%r13), %xmm0
	movaps	%xmm0, (%rsp)
	movl	$32, 1336(%rsp)
	movl	$0, 1144(%r13)
	movq	$0, 1136(%r13)
	movq	$-1, 1352(%rsp)
	cmpq	$0, 1360(%rsp)
	jne	.LBB3_136
# %bb.130:                              # %arm.3.lr.ph.i.i.i.i
	movq	1232(%rsp), %rax
	cmpq	$1024, %rax                     # imm = 0x400
	jb	.LBB3_135
# %bb.131:                              # %then.2.i.i110.i.i.i
	xorps	%xmm0, %xmm0
	movaps	%xmm0, 1536(%rsp)
	movaps	%xmm0, 1520(%rsp)
	movaps	%xmm0, 1504(%rsp)
	movaps	%xmm0, 1488(%rsp)
	movaps	%xmm0, 1472(%rsp)
	movaps	%xmm0, 1456(%rsp)
	movq	$0, 1232(%rsp)
	jne	.LBB3_137
# %bb.132:                              # %join.3.i.i.i111.i.i.i
	movl	200(%rsp), %esi
	leaq	1456(%rsp), %rdi
	movl	$1024, %ecx                     # imm = 0x400
	movq	%r13, %rdx
	callq	"std_io::io::write_to"
	cmpb	$0, 1456(%rsp)
	je	.LBB3_134
# %bb.133:                              # %arm.5.i.i.i.i.i.i
	movq	$1, 1240(%rsp)
	movups	1464(%rsp), %xmm0
	movdqu	1480(%rsp), %xmm1
	movups	1496(%rsp), %xmm2
	movups	1512(%rsp), %xmm3
	movups	%xmm0, 1248(%rsp)
	movdqu	%xmm1, 1264(%rsp)
	movups	%xmm2, 1280(%rsp)
	movups	%xmm3, 1296(%rsp)
	movups	1528(%rsp), %xmm0
	movups	%xmm0, 1312(%rsp)
	movq	1544(%rsp), %rax
	movq	%rax, 1328(%rsp)
	jmp	.LBB3_137
.LBB3_134:                              # %after.1.i.i114.i.i.i
	movq	1232(%rsp), %rax
	cmpq	$1023, %rax                     # imm = 0x3FF
	ja	.LBB3_137
.LBB3_135:                              # %"std_io::io::buffer::Buffer::push.exit.i.i.i.i"
	movb	$10, 204(%rsp,%rax)
	incq	%rax
	movq	%rax, 1232(%rsp)
.LBB3_137:                              # %"core::fmt::formatter::Formatter::write_with_spec::<#4792e67e40da9d69>.exit.i.i.i"
	movq	16(%rsp), %rax
	movq	%rax, 1148(%r13)
	movaps	(%rsp), %xmm0
	jmp	.LBB3_138
.LBB3_136:                              # %else.2.i.i.i.i.i
	leaq	.Lstatic.8(%rip), %rsi
	leaq	200(%rsp), %rdi
	movl	$1, %edx
	callq	"core::fmt::formatter::Formatter::write_indented::<#bf264aed5fa78656>"
	jmp	.LBB3_137
.LBB3_102:                              # %"core::fmt::tuples::and_write1::<#ce9962cae1a563cb>.exit.i.i.i.i.i"
	movl	$24, %edx
	subq	%r14, %rdx
	leaq	(%rsp,%r14), %rsi
	addq	$160, %rsi
	leaq	200(%rsp), %rdi
	callq	"core::fmt::formatter::Formatter::write_indented::<#bf264aed5fa78656>"
	testb	%al, %al
	jne	.LBB3_35
	jmp	.LBB3_103
.LBB3_126:                              # %else.2.i.i114.i.i.i.i.i
	leaq	.Lstatic.12(%rip), %rsi
	leaq	200(%rsp), %rdi
	movl	$1, %edx
	jmp	.LBB3_127
.Lfunc_end3:
	.size	"tapelist::fail::<#4e9da720f7635e46>", .Lfunc_end3-"tapelist::fail::<#4e9da720f7635e46>"
                                        # -- End function
	.section	.rodata.cst16,"aM",@progbits,16
	.p2align	4, 0x0                          # -- Begin function std_io::io::write_to
.LCPI4_0:
	.zero	16,46
	.section	".text.std_io::io::write_to","ax",@progbits
	.p2align	4
	.type	"std_io::io::write_to",@function
"std_io::io::write_to":                 # @"std_io::io::write_to"
# %bb.0:                                # %start
	pushq	%rbp
	pushq	%r15
	pushq	%r14
	pushq	%r13
	pushq	%r12
	pushq	%rbx
	subq	$104, %rsp
	movq	%rcx, %r14
	movq	%rdx, %r15
	movl	%esi, %ebp
	movq	%rdi, 8(%rsp)                   # 8-byte Spill
	movq	$-64, %rbx
	xorl	%r13d, %r13d
	jmp	.LBB4_1
	.p2align	4
.LBB4_5:                                # %then.10
                                        #   in Loop: Header=BB4_1 Depth=1
	callq	rattle_errno@PLT
	cmpl	$4, %eax
	jne	.LBB4_6
# %bb.10:                               # %join.12
                                        #   in Loop: Header=BB4_1 Depth=1
	incq	%rbx
	cmpq	%rbx, %r14
	je	.LBB4_11
.LBB4_1:                                # %arm.3
                                        # =>This Inner Loop Header: Depth=1
	movq	%r14, %r12
	subq	%r13, %r12
	jbe	.LBB4_2
# %bb.4:                                # %join.9
                                        #   in Loop: Header=BB4_1 Depth=1
	leaq	(%r15,%r13), %rsi
	movl	%ebp, %edi
	movq	%r12, %rdx
	callq	write@PLT
	testq	%rax, %rax
	js	.LBB4_5
# %bb.7:                                # %else.11
                                        #   in Loop: Header=BB4_1 Depth=1
	je	.LBB4_8
# %bb.9:                                # %else.17
                                        #   in Loop: Header=BB4_1 Depth=1
	cmpq	%r12, %rax
	cmovbq	%rax, %r12
	addq	%r12, %r13
	incq	%rbx
	cmpq	%rbx, %r14
	jne	.LBB4_1
.LBB4_11:                               # %after.1
	xorl	%eax, %eax
	xorl	%ecx, %ecx
	cmpq	%r13, %r14
	seta	%cl
	movl	$35, %edx
	cmovbel	%eax, %edx
	movq	8(%rsp), %rax                   # 8-byte Reload
	seta	(%rax)
	shll	$2, %ecx
	movb	$0, 8(%rax)
	movb	%dl, 9(%rax)
	movw	$0, 10(%rax)
	movl	%ecx, 12(%rax)
	xorps	%xmm0, %xmm0
	movups	%xmm0, 16(%rax)
	movups	%xmm0, 32(%rax)
	movups	%xmm0, 48(%rax)
	movups	%xmm0, 64(%rax)
	movups	%xmm0, 80(%rax)
	jmp	.LBB4_3
.LBB4_2:                                # %then.7
	movq	8(%rsp), %rax                   # 8-byte Reload
	movb	$0, (%rax)
	xorps	%xmm0, %xmm0
	movups	%xmm0, 8(%rax)
	movups	%xmm0, 24(%rax)
	movups	%xmm0, 40(%rax)
	movups	%xmm0, 56(%rax)
	movups	%xmm0, 72(%rax)
	movq	$0, 88(%rax)
	jmp	.LBB4_3
.LBB4_8:                                # %then.16
	movq	8(%rsp), %rcx                   # 8-byte Reload
	movb	$1, (%rcx)
	movq	$1840898, 8(%rcx)               # imm = 0x1C1702
	movabsq	$8367798494427701606, %rax      # imm = 0x742064656C696166
	movq	%rax, 16(%rcx)
	movabsq	$2334399978102268015, %rax      # imm = 0x206574697277206F
	movq	%rax, 24(%rcx)
	movabsq	$8458358670138239095, %rax      # imm = 0x756220656C6F6877
	movq	%rax, 32(%rcx)
	movabsq	$3327647951695996518, %rax      # imm = 0x2E2E2E2E72656666
	movq	%rax, 40(%rcx)
	movaps	.LCPI4_0(%rip), %xmm0           # xmm0 = [46,46,46,46,46,46,46,46,46,46,46,46,46,46,46,46]
	movups	%xmm0, 48(%rcx)
	movups	%xmm0, 64(%rcx)
	movups	%xmm0, 80(%rcx)
	jmp	.LBB4_3
.LBB4_6:                                # %then.13
	leaq	16(%rsp), %rdi
	movl	%eax, %esi
	callq	"std_io::io::error::Error::from_raw_os_error"
	movl	20(%rsp), %eax
	movq	8(%rsp), %rdx                   # 8-byte Reload
	movb	$1, (%rdx)
	movl	16(%rsp), %ecx
	movl	%ecx, 8(%rdx)
	movl	%eax, 12(%rdx)
	movups	24(%rsp), %xmm0
	movups	%xmm0, 16(%rdx)
	movups	40(%rsp), %xmm0
	movups	%xmm0, 32(%rdx)
	movups	56(%rsp), %xmm0
	movups	%xmm0, 48(%rdx)
	movups	72(%rsp), %xmm0
	movups	%xmm0, 64(%rdx)
	movups	88(%rsp), %xmm0
	movups	%xmm0, 80(%rdx)
.LBB4_3:                                # %then.7
	addq	$104, %rsp
	popq	%rbx
	popq	%r12
	popq	%r13
	popq	%r14
	popq	%r15
	popq	%rbp
	retq
.Lfunc_end4:
	.size	"std_io::io::write_to", .Lfunc_end4-"std_io::io::write_to"
                                        # -- End function
	.section	".text.unlikely.core::fmt::formatter::Formatter::write_indented::<#bf264aed5fa78656>","ax",@progbits
	.p2align	4                               # -- Begin function core::fmt::formatter::Formatter::write_indented::<#bf264aed5fa78656>
	.type	"core::fmt::formatter::Formatter::write_indented::<#bf264aed5fa78656>",@function
"core::fmt::formatter::Formatter::write_indented::<#bf264aed5fa78656>": # @"core::fmt::formatter::Formatter::write_indented::<#bf264aed5fa78656>"
# %bb.0:                                # %start
	pushq	%rbp
	pushq	%r15
	pushq	%r14
	pushq	%r13
	pushq	%r12
	pushq	%rbx
	pushq	%rax
	testq	%rdx, %rdx
	je	.LBB5_1
# %bb.2:                                # %"core::fmt::utf8::is_newline_at.exit.lr.ph"
	movq	%rsi, %r14
	movq	%rdi, %r15
	xorl	%ecx, %ecx
	xorl	%ebp, %ebp
	movq	%rdx, (%rsp)                    # 8-byte Spill
	jmp	.LBB5_3
	.p2align	4
.LBB5_7:                                # %"core::fmt::formatter::Formatter::write_indented_line::<#bf264aed5fa78656>.exit"
                                        #   in Loop: Header=BB5_3 Depth=1
	addq	%r14, %r13
	movb	$1, 1168(%r15)
	movq	%r15, %rdi
	movq	%r13, %rsi
	movq	%r12, %rdx
	callq	"core::fmt::formatter::Formatter::write_raw::<#bf264aed5fa78656>"
	movq	%rbp, %rcx
	testb	%al, %al
	movq	(%rsp), %rdx                    # 8-byte Reload
	jne	.LBB5_17
.LBB5_8:                                # %join.8
                                        #   in Loop: Header=BB5_3 Depth=1
	cmpq	%rdx, %rbp
	je	.LBB5_9
.LBB5_3:                                # %"core::fmt::utf8::is_newline_at.exit"
                                        # =>This Loop Header: Depth=1
                                        #     Child Loop BB5_14 Depth 2
	movq	%rbp, %rax
	incq	%rbp
	cmpb	$10, (%r14,%rax)
	jne	.LBB5_8
# %bb.4:                                # %then.6
                                        #   in Loop: Header=BB5_3 Depth=1
	xorl	%r13d, %r13d
	movq	%rbp, %r12
	subq	%rcx, %r12
	cmovaeq	%rcx, %r13
	cmpq	%rax, %rcx
	movq	%rbp, %rcx
	ja	.LBB5_8
# %bb.5:                                # %join.3.i
                                        #   in Loop: Header=BB5_3 Depth=1
	cmpb	$1, 1168(%r15)
	jne	.LBB5_7
# %bb.6:                                # %then.1.i.i
                                        #   in Loop: Header=BB5_3 Depth=1
	movq	1160(%r15), %rbx
	testq	%rbx, %rbx
	je	.LBB5_7
	.p2align	4
.LBB5_14:                               # %join.8.i.i
                                        #   Parent Loop BB5_3 Depth=1
                                        # =>  This Inner Loop Header: Depth=2
	leaq	.Lstatic.10(%rip), %rsi
	movl	$4, %edx
	movq	%r15, %rdi
	callq	"core::fmt::formatter::Formatter::write_raw::<#bf264aed5fa78656>"
	testb	%al, %al
	jne	.LBB5_17
# %bb.13:                               # %loop.5.i.i
                                        #   in Loop: Header=BB5_14 Depth=2
	decq	%rbx
	jne	.LBB5_14
	jmp	.LBB5_7
.LBB5_1:
	xorl	%eax, %eax
	jmp	.LBB5_18
.LBB5_9:                                # %after.1
	xorl	%eax, %eax
	cmpq	%rdx, %rcx
	movq	%rcx, %r12
	cmovaq	%rax, %r12
	subq	%rcx, %rdx
	cmovbq	%rax, %rdx
	jbe	.LBB5_18
# %bb.10:                               # %join.3.i21
	movq	%rdx, %r13
	cmpb	$1, 1168(%r15)
	jne	.LBB5_12
# %bb.11:                               # %then.1.i.i28
	movq	1160(%r15), %rbx
	testq	%rbx, %rbx
	je	.LBB5_12
	.p2align	4
.LBB5_16:                               # %join.8.i.i32
                                        # =>This Inner Loop Header: Depth=1
	leaq	.Lstatic.10(%rip), %rsi
	movl	$4, %edx
	movq	%r15, %rdi
	callq	"core::fmt::formatter::Formatter::write_raw::<#bf264aed5fa78656>"
	testb	%al, %al
	jne	.LBB5_17
# %bb.15:                               # %loop.5.i.i36
                                        #   in Loop: Header=BB5_16 Depth=1
	decq	%rbx
	jne	.LBB5_16
.LBB5_12:                               # %arm.5.i25
	addq	%r12, %r14
	movb	$0, 1168(%r15)
	movq	%r15, %rdi
	movq	%r14, %rsi
	movq	%r13, %rdx
	addq	$8, %rsp
	popq	%rbx
	popq	%r12
	popq	%r13
	popq	%r14
	popq	%r15
	popq	%rbp
	jmp	"core::fmt::formatter::Formatter::write_raw::<#bf264aed5fa78656>" # TAILCALL
.LBB5_17:
	movb	$1, %al
.LBB5_18:                               # %return.13
                                        # kill: def $al killed $al killed $rax
	addq	$8, %rsp
	popq	%rbx
	popq	%r12
	popq	%r13
	popq	%r14
	popq	%r15
	popq	%rbp
	retq
.Lfunc_end5:
	.size	"core::fmt::formatter::Formatter::write_indented::<#bf264aed5fa78656>", .Lfunc_end5-"core::fmt::formatter::Formatter::write_indented::<#bf264aed5fa78656>"
                                        # -- End function
	.section	".text.core::fmt::formatter::Formatter::write_raw::<#bf264aed5fa78656>","ax",@progbits
	.p2align	4                               # -- Begin function core::fmt::formatter::Formatter::write_raw::<#bf264aed5fa78656>
	.type	"core::fmt::formatter::Formatter::write_raw::<#bf264aed5fa78656>",@function
"core::fmt::formatter::Formatter::write_raw::<#bf264aed5fa78656>": # @"core::fmt::formatter::Formatter::write_raw::<#bf264aed5fa78656>"
# %bb.0:                                # %start
	testq	%rdx, %rdx
	je	.LBB6_18
# %bb.1:                                # %join.5.i.preheader
	pushq	%rbp
	pushq	%r15
	pushq	%r14
	pushq	%r13
	pushq	%r12
	pushq	%rbx
	subq	$104, %rsp
	movq	%rdx, %r14
	movq	%rsi, %r15
	movq	%rdi, %rbx
	xorl	%ecx, %ecx
	jmp	.LBB6_3
	.p2align	4
.LBB6_2:                                # %join.8.i
                                        #   in Loop: Header=BB6_3 Depth=1
	addq	%rdi, %rcx
	cmpq	%r14, %rcx
	jae	.LBB6_19
.LBB6_3:                                # %join.5.i
                                        # =>This Inner Loop Header: Depth=1
	movzbl	(%r15,%rcx), %edx
	movl	$1, %edi
	testb	%dl, %dl
	jns	.LBB6_2
# %bb.4:                                # %join.3.i.i
                                        #   in Loop: Header=BB6_3 Depth=1
	leaq	1(%rcx), %rsi
	movb	$1, %al
	cmpq	%rsi, %r14
	jbe	.LBB6_29
# %bb.5:                                # %join.3.i.i.i
                                        #   in Loop: Header=BB6_3 Depth=1
	movzbl	(%r15,%rsi), %esi
	testb	%sil, %sil
	jns	.LBB6_29
# %bb.6:                                # %"core::fmt::utf8::continuation_bits_at.exit.i.i"
                                        #   in Loop: Header=BB6_3 Depth=1
	movzbl	%sil, %edi
	cmpb	$-64, %sil
	movl	$192, %esi
	cmovbl	%edi, %esi
	cmpb	$-62, %dl
	jb	.LBB6_29
# %bb.7:                                # %"core::fmt::utf8::continuation_bits_at.exit.i.i"
                                        #   in Loop: Header=BB6_3 Depth=1
	movl	%esi, %edi
	andb	$127, %dil
	cmpb	$63, %dil
	ja	.LBB6_29
# %bb.8:                                # %join.9.i.i
                                        #   in Loop: Header=BB6_3 Depth=1
	movl	$2, %edi
	cmpb	$-32, %dl
	jb	.LBB6_2
# %bb.9:                                # %join.12.i.i
                                        #   in Loop: Header=BB6_3 Depth=1
	leaq	2(%rcx), %rdi
	cmpq	%rdi, %r14
	jbe	.LBB6_29
# %bb.10:                               # %join.3.i42.i.i
                                        #   in Loop: Header=BB6_3 Depth=1
	cmpb	$-65, (%r15,%rdi)
	jg	.LBB6_29
# %bb.11:                               # %join.15.i.i
                                        #   in Loop: Header=BB6_3 Depth=1
	andl	$127, %esi
	cmpb	$-17, %dl
	ja	.LBB6_15
# %bb.12:                               # %then.16.i.i
                                        #   in Loop: Header=BB6_3 Depth=1
	movl	%edx, %edi
	shll	$12, %edi
	shll	$6, %esi
	addl	%edi, %esi
	addl	$-917504, %esi                  # imm = 0xFFF20000
	cmpl	$2048, %esi                     # imm = 0x800
	jb	.LBB6_29
# %bb.13:                               # %join.21.i.i
                                        #   in Loop: Header=BB6_3 Depth=1
	movl	$3, %edi
	cmpl	$55296, %esi                    # imm = 0xD800
	jb	.LBB6_2
# %bb.14:                               # %join.21.i.i
                                        #   in Loop: Header=BB6_3 Depth=1
	cmpb	$-18, %dl
	jae	.LBB6_2
	jmp	.LBB6_29
.LBB6_15:                               # %join.18.i.i
                                        #   in Loop: Header=BB6_3 Depth=1
	leaq	3(%rcx), %rdi
	cmpq	%rdi, %r14
	jbe	.LBB6_29
# %bb.16:                               # %join.3.i52.i.i
                                        #   in Loop: Header=BB6_3 Depth=1
	cmpb	$-65, (%r15,%rdi)
	jg	.LBB6_29
# %bb.17:                               # %join.30.i.i
                                        #   in Loop: Header=BB6_3 Depth=1
	shll	$18, %edx
	shll	$12, %esi
	addl	%esi, %edx
	addl	$-62980096, %edx                # imm = 0xFC3F0000
	movl	$4, %edi
	cmpl	$1048575, %edx                  # imm = 0xFFFFF
	jbe	.LBB6_2
	jmp	.LBB6_29
.LBB6_18:
	xorl	%eax, %eax
                                        # kill: def $al killed $al killed $eax
	retq
.LBB6_19:                               # %arm.3.lr.ph.i
	leaq	4(%rbx), %r12
	movq	1032(%rbx), %rax
	xorl	%r13d, %r13d
	jmp	.LBB6_21
	.p2align	4
.LBB6_20:                               # %"std_io::io::buffer::Buffer::push.exit.i"
                                        #   in Loop: Header=BB6_21 Depth=1
	movb	%bpl, 4(%rbx,%rax)
	incq	%rax
	movq	%rax, 1032(%rbx)
	incq	%r13
	cmpq	%r13, %r14
	je	.LBB6_26
.LBB6_21:                               # %arm.3.i
                                        # =>This Inner Loop Header: Depth=1
	movzbl	(%r15,%r13), %ebp
	cmpq	$1024, %rax                     # imm = 0x400
	jb	.LBB6_20
# %bb.22:                               # %then.2.i.i
                                        #   in Loop: Header=BB6_21 Depth=1
	xorps	%xmm0, %xmm0
	movaps	%xmm0, 80(%rsp)
	movaps	%xmm0, 64(%rsp)
	movaps	%xmm0, 48(%rsp)
	movaps	%xmm0, 32(%rsp)
	movaps	%xmm0, 16(%rsp)
	movaps	%xmm0, (%rsp)
	movq	$0, 1032(%rbx)
	jne	.LBB6_28
# %bb.23:                               # %join.3.i.i.i2
                                        #   in Loop: Header=BB6_21 Depth=1
	movl	(%rbx), %esi
	movq	%rsp, %rdi
	movl	$1024, %ecx                     # imm = 0x400
	movq	%r12, %rdx
	callq	"std_io::io::write_to"
	cmpb	$0, (%rsp)
	jne	.LBB6_27
# %bb.24:                               # %after.1.i.i
                                        #   in Loop: Header=BB6_21 Depth=1
	movq	1032(%rbx), %rax
	cmpq	$1023, %rax                     # imm = 0x3FF
	jbe	.LBB6_20
	jmp	.LBB6_28
.LBB6_26:
	xorl	%eax, %eax
	jmp	.LBB6_29
.LBB6_27:                               # %arm.5.i.i.i
	movq	$1, 1040(%rbx)
	movups	8(%rsp), %xmm0
	movups	24(%rsp), %xmm1
	movups	40(%rsp), %xmm2
	movups	56(%rsp), %xmm3
	movups	%xmm0, 1048(%rbx)
	movups	%xmm1, 1064(%rbx)
	movups	%xmm2, 1080(%rbx)
	movups	%xmm3, 1096(%rbx)
	movups	72(%rsp), %xmm0
	movups	%xmm0, 1112(%rbx)
	movq	88(%rsp), %rax
	movq	%rax, 1128(%rbx)
.LBB6_28:                               # %"std_io::io::buffer::Buffer::flush.exit.thread.i.i"
	movb	$1, %al
.LBB6_29:
	addq	$104, %rsp
	popq	%rbx
	popq	%r12
	popq	%r13
	popq	%r14
	popq	%r15
	popq	%rbp
                                        # kill: def $al killed $al killed $eax
	retq
.Lfunc_end6:
	.size	"core::fmt::formatter::Formatter::write_raw::<#bf264aed5fa78656>", .Lfunc_end6-"core::fmt::formatter::Formatter::write_raw::<#bf264aed5fa78656>"
                                        # -- End function
	.section	".text.core::fmt::formatter::Formatter::cut_and_fill::<#bf264aed5fa78656>","ax",@progbits
	.p2align	4                               # -- Begin function core::fmt::formatter::Formatter::cut_and_fill::<#bf264aed5fa78656>
	.type	"core::fmt::formatter::Formatter::cut_and_fill::<#bf264aed5fa78656>",@function
"core::fmt::formatter::Formatter::cut_and_fill::<#bf264aed5fa78656>": # @"core::fmt::formatter::Formatter::cut_and_fill::<#bf264aed5fa78656>"
# %bb.0:                                # %start
	pushq	%rbp
	pushq	%r15
	pushq	%r14
	pushq	%r13
	pushq	%r12
	pushq	%rbx
	subq	$120, %rsp
	movq	%rsi, %r14
	movq	%rdi, %rbx
	movq	1152(%rdi), %rax
	movq	%rdx, %r15
	cmpq	%rax, %rdx
	jbe	.LBB7_8
# %bb.1:                                # %join.8.i.preheader
	xorl	%r15d, %r15d
	jmp	.LBB7_3
	.p2align	4
.LBB7_2:                                # %join.11.i
                                        #   in Loop: Header=BB7_3 Depth=1
	incq	%r15
	cmpq	%r15, %rdx
	je	.LBB7_6
.LBB7_3:                                # %join.8.i
                                        # =>This Inner Loop Header: Depth=1
	cmpb	$-64, (%r14,%r15)
	jl	.LBB7_2
# %bb.4:                                # %then.9.i
                                        #   in Loop: Header=BB7_3 Depth=1
	testq	%rax, %rax
	je	.LBB7_7
# %bb.5:                                # %join.14.i
                                        #   in Loop: Header=BB7_3 Depth=1
	decq	%rax
	jmp	.LBB7_2
.LBB7_6:
	movq	%rdx, %r15
	jmp	.LBB7_9
.LBB7_7:                                # %"core::fmt::utf8::end_of_chars.exit"
	movb	$1, %al
	cmpq	%r15, %rdx
	jb	.LBB7_39
.LBB7_8:                                # %join.3.i.i
	testq	%rdx, %rdx
	je	.LBB7_10
.LBB7_9:                                # %"core::iter::parts::str::is_char_boundary.exit.i.i"
	movb	$1, %al
	cmpb	$-64, (%r14)
	jl	.LBB7_39
.LBB7_10:                               # %join.6.i.i
	cmpq	%rdx, %r15
	je	.LBB7_12
# %bb.11:                               # %"core::iter::parts::str::is_char_boundary.exit23.i.i"
	movb	$1, %al
	cmpb	$-64, (%r14,%r15)
	jl	.LBB7_39
.LBB7_12:                               # %arm.1
	movq	1144(%rbx), %r12
	testq	%r15, %r15
	je	.LBB7_17
# %bb.13:                               # %arm.1
	testq	%r12, %r12
	je	.LBB7_17
# %bb.14:                               # %join.10.i.preheader
	movl	$1, %eax
	.p2align	4
.LBB7_15:                               # %join.10.i
                                        # =>This Inner Loop Header: Depth=1
	xorl	%ecx, %ecx
	cmpb	$-64, -1(%r14,%rax)
	setge	%cl
	subq	%rcx, %r12
	cmpq	%r15, %rax
	jae	.LBB7_17
# %bb.16:                               # %join.10.i
                                        #   in Loop: Header=BB7_15 Depth=1
	incq	%rax
	testq	%r12, %r12
	jne	.LBB7_15
.LBB7_17:                               # %"core::fmt::utf8::padding_to.exit"
	movzbl	1140(%rbx), %eax
	cmpb	$1, %al
	adcl	$0, %eax
	cmpb	$2, %al
	je	.LBB7_20
# %bb.18:                               # %"core::fmt::utf8::padding_to.exit"
	movzbl	%al, %eax
	movq	%r12, %rdx
	cmpl	$1, %eax
	jne	.LBB7_21
# %bb.19:                               # %"core::fmt::formatter::padding_before.exit.thread"
	movl	1136(%rbx), %eax
	movl	%eax, 4(%rsp)                   # 4-byte Spill
	jmp	.LBB7_23
.LBB7_20:                               # %then.7.i
	movq	%r12, %rdx
	shrq	%rdx
.LBB7_21:                               # %"core::fmt::formatter::padding_before.exit"
	movl	1136(%rbx), %esi
	testq	%rdx, %rdx
	movl	%esi, 4(%rsp)                   # 4-byte Spill
	je	.LBB7_23
# %bb.22:                               # %"core::fmt::formatter::Formatter::repeat_char::<#bf264aed5fa78656>.exit16"
	movq	%rbx, %rdi
	movq	%rdx, 8(%rsp)                   # 8-byte Spill
	callq	"core::fmt::formatter::Formatter::write_char_n_times::<#bf264aed5fa78656>"
	movl	%eax, %ecx
	movb	$1, %al
	testb	%cl, %cl
	jne	.LBB7_39
	jmp	.LBB7_24
.LBB7_23:
	movq	$0, 8(%rsp)                     # 8-byte Folded Spill
.LBB7_24:                               # %arm.6
	cmpq	$0, 1160(%rbx)
	jne	.LBB7_35
# %bb.25:                               # %then.1.i
	testq	%r15, %r15
	je	.LBB7_36
# %bb.26:                               # %arm.3.lr.ph.i
	movq	1032(%rbx), %rax
	xorl	%ebp, %ebp
	jmp	.LBB7_28
	.p2align	4
.LBB7_27:                               # %"std_io::io::buffer::Buffer::push.exit.i"
                                        #   in Loop: Header=BB7_28 Depth=1
	movb	%r13b, 4(%rbx,%rax)
	incq	%rax
	movq	%rax, 1032(%rbx)
	incq	%rbp
	cmpq	%rbp, %r15
	je	.LBB7_36
.LBB7_28:                               # %arm.3.i
                                        # =>This Inner Loop Header: Depth=1
	movzbl	(%r14,%rbp), %r13d
	cmpq	$1024, %rax                     # imm = 0x400
	jb	.LBB7_27
# %bb.29:                               # %then.2.i.i
                                        #   in Loop: Header=BB7_28 Depth=1
	xorps	%xmm0, %xmm0
	movaps	%xmm0, 96(%rsp)
	movaps	%xmm0, 80(%rsp)
	movaps	%xmm0, 64(%rsp)
	movaps	%xmm0, 48(%rsp)
	movaps	%xmm0, 32(%rsp)
	movaps	%xmm0, 16(%rsp)
	movq	$0, 1032(%rbx)
	jne	.LBB7_34
# %bb.30:                               # %join.3.i.i.i
                                        #   in Loop: Header=BB7_28 Depth=1
	movl	(%rbx), %esi
	leaq	16(%rsp), %rdi
	movl	$1024, %ecx                     # imm = 0x400
	leaq	4(%rbx), %rdx
	callq	"std_io::io::write_to"
	cmpb	$0, 16(%rsp)
	jne	.LBB7_33
# %bb.31:                               # %after.1.i.i
                                        #   in Loop: Header=BB7_28 Depth=1
	movq	1032(%rbx), %rax
	cmpq	$1023, %rax                     # imm = 0x3FF
	jbe	.LBB7_27
	jmp	.LBB7_34
.LBB7_33:                               # %arm.5.i.i.i
	movq	$1, 1040(%rbx)
	movups	24(%rsp), %xmm0
	movups	40(%rsp), %xmm1
	movups	56(%rsp), %xmm2
	movups	72(%rsp), %xmm3
	movups	%xmm0, 1048(%rbx)
	movups	%xmm1, 1064(%rbx)
	movups	%xmm2, 1080(%rbx)
	movups	%xmm3, 1096(%rbx)
	movups	88(%rsp), %xmm0
	movups	%xmm0, 1112(%rbx)
	movq	104(%rsp), %rax
	movq	%rax, 1128(%rbx)
.LBB7_34:                               # %"std_io::io::buffer::Buffer::flush.exit.thread.i.i"
	movb	$1, %al
	jmp	.LBB7_39
.LBB7_35:                               # %"core::fmt::formatter::Formatter::write_str::<#bf264aed5fa78656>.exit"
	movq	%rbx, %rdi
	movq	%r14, %rsi
	movq	%r15, %rdx
	callq	"core::fmt::formatter::Formatter::write_indented::<#bf264aed5fa78656>"
	movl	%eax, %ecx
	movb	$1, %al
	testb	%cl, %cl
	jne	.LBB7_39
.LBB7_36:                               # %arm.9
	subq	8(%rsp), %r12                   # 8-byte Folded Reload
	jbe	.LBB7_38
# %bb.37:                               # %else.2.i10
	movq	%rbx, %rdi
	movl	4(%rsp), %esi                   # 4-byte Reload
	movq	%r12, %rdx
	addq	$120, %rsp
	popq	%rbx
	popq	%r12
	popq	%r13
	popq	%r14
	popq	%r15
	popq	%rbp
	jmp	"core::fmt::formatter::Formatter::write_char_n_times::<#bf264aed5fa78656>" # TAILCALL
.LBB7_38:
	xorl	%eax, %eax
.LBB7_39:                               # %return.5
                                        # kill: def $al killed $al killed $eax
	addq	$120, %rsp
	popq	%rbx
	popq	%r12
	popq	%r13
	popq	%r14
	popq	%r15
	popq	%rbp
	retq
.Lfunc_end7:
	.size	"core::fmt::formatter::Formatter::cut_and_fill::<#bf264aed5fa78656>", .Lfunc_end7-"core::fmt::formatter::Formatter::cut_and_fill::<#bf264aed5fa78656>"
                                        # -- End function
	.section	.rodata.cst16,"aM",@progbits,16
	.p2align	4, 0x0                          # -- Begin function core::fmt::formatter::Formatter::write_char_n_times::<#bf264aed5fa78656>
.LCPI8_0:
	.byte	255                             # 0xff
	.byte	63                              # 0x3f
	.byte	63                              # 0x3f
	.byte	63                              # 0x3f
	.zero	1
	.zero	1
	.zero	1
	.zero	1
	.zero	1
	.zero	1
	.zero	1
	.zero	1
	.zero	1
	.zero	1
	.zero	1
	.zero	1
.LCPI8_1:
	.byte	240                             # 0xf0
	.byte	128                             # 0x80
	.byte	128                             # 0x80
	.byte	128                             # 0x80
	.zero	1
	.zero	1
	.zero	1
	.zero	1
	.zero	1
	.zero	1
	.zero	1
	.zero	1
	.zero	1
	.zero	1
	.zero	1
	.zero	1
	.section	".text.core::fmt::formatter::Formatter::write_char_n_times::<#bf264aed5fa78656>","ax",@progbits
	.p2align	4
	.type	"core::fmt::formatter::Formatter::write_char_n_times::<#bf264aed5fa78656>",@function
"core::fmt::formatter::Formatter::write_char_n_times::<#bf264aed5fa78656>": # @"core::fmt::formatter::Formatter::write_char_n_times::<#bf264aed5fa78656>"
# %bb.0:                                # %start
	pushq	%rbp
	pushq	%r15
	pushq	%r14
	pushq	%r13
	pushq	%r12
	pushq	%rbx
	subq	$168, %rsp
	movq	%rdx, %r14
                                        # kill: def $esi killed $esi def $rsi
	movq	%rdi, %rbx
	pxor	%xmm0, %xmm0
	movdqa	%xmm0, 128(%rsp)
	movq	$0, 144(%rsp)
	cmpl	$127, %esi
	ja	.LBB8_19
# %bb.1:                                # %then.1
	movd	%esi, %xmm0
	punpcklbw	%xmm0, %xmm0            # xmm0 = xmm0[0,0,1,1,2,2,3,3,4,4,5,5,6,6,7,7]
	pshuflw	$0, %xmm0, %xmm0                # xmm0 = xmm0[0,0,0,0,4,5,6,7]
	pshufd	$68, %xmm0, %xmm0               # xmm0 = xmm0[0,1,0,1]
	movdqa	%xmm0, 112(%rsp)
	cmpq	$17, %r14
	jb	.LBB8_12
# %bb.2:                                # %join.5.lr.ph.i
	leaq	4(%rbx), %r15
.LBB8_3:                                # %join.5.i
                                        # =>This Loop Header: Depth=1
                                        #     Child Loop BB8_6 Depth 2
	cmpq	$0, 1160(%rbx)
	jne	.LBB8_10
# %bb.4:                                # %arm.3.lr.ph.i.i
                                        #   in Loop: Header=BB8_3 Depth=1
	movq	1032(%rbx), %rax
	xorl	%r12d, %r12d
	jmp	.LBB8_6
	.p2align	4
.LBB8_5:                                # %"std_io::io::buffer::Buffer::push.exit.i.i"
                                        #   in Loop: Header=BB8_6 Depth=2
	movb	%bpl, 4(%rbx,%rax)
	incq	%rax
	movq	%rax, 1032(%rbx)
	incq	%r12
	cmpq	$16, %r12
	je	.LBB8_11
.LBB8_6:                                # %arm.3.i.i
                                        #   Parent Loop BB8_3 Depth=1
                                        # =>  This Inner Loop Header: Depth=2
	movzbl	112(%rsp,%r12), %ebp
	cmpq	$1024, %rax                     # imm = 0x400
	jb	.LBB8_5
# %bb.7:                                # %then.2.i.i.i
                                        #   in Loop: Header=BB8_6 Depth=2
	pxor	%xmm0, %xmm0
	movdqa	%xmm0, 96(%rsp)
	movdqa	%xmm0, 80(%rsp)
	movdqa	%xmm0, 64(%rsp)
	movdqa	%xmm0, 48(%rsp)
	movdqa	%xmm0, 32(%rsp)
	movdqa	%xmm0, 16(%rsp)
	movq	$0, 1032(%rbx)
	jne	.LBB8_26
# %bb.8:                                # %join.3.i.i.i.i
                                        #   in Loop: Header=BB8_6 Depth=2
	movl	(%rbx), %esi
	leaq	16(%rsp), %rdi
	movl	$1024, %ecx                     # imm = 0x400
	movq	%r15, %rdx
	callq	"std_io::io::write_to"
	cmpb	$0, 16(%rsp)
	jne	.LBB8_25
# %bb.9:                                # %after.1.i.i.i
                                        #   in Loop: Header=BB8_6 Depth=2
	movq	1032(%rbx), %rax
	cmpq	$1023, %rax                     # imm = 0x3FF
	jbe	.LBB8_5
	jmp	.LBB8_26
.LBB8_10:                               # %"core::fmt::formatter::Formatter::write_str::<#bf264aed5fa78656>.exit14.i"
                                        #   in Loop: Header=BB8_3 Depth=1
	leaq	112(%rsp), %rsi
	movl	$16, %edx
	movq	%rbx, %rdi
	callq	"core::fmt::formatter::Formatter::write_indented::<#bf264aed5fa78656>"
	testb	%al, %al
	jne	.LBB8_26
.LBB8_11:                               # %arm.7.i
                                        #   in Loop: Header=BB8_3 Depth=1
	addq	$-16, %r14
	cmpq	$16, %r14
	ja	.LBB8_3
.LBB8_12:                               # %after.1.i
	cmpq	$0, 1160(%rbx)
	jne	.LBB8_48
# %bb.13:                               # %arm.3.lr.ph.i21.i
	leaq	4(%rbx), %r15
	movq	1032(%rbx), %rax
	xorl	%r12d, %r12d
	jmp	.LBB8_15
	.p2align	4
.LBB8_14:                               # %"std_io::io::buffer::Buffer::push.exit.i33.i"
                                        #   in Loop: Header=BB8_15 Depth=1
	movb	%bpl, 4(%rbx,%rax)
	incq	%rax
	movq	%rax, 1032(%rbx)
	incq	%r12
	cmpq	%r12, %r14
	je	.LBB8_47
.LBB8_15:                               # %arm.3.i25.i
                                        # =>This Inner Loop Header: Depth=1
	movzbl	112(%rsp,%r12), %ebp
	cmpq	$1024, %rax                     # imm = 0x400
	jb	.LBB8_14
# %bb.16:                               # %then.2.i.i39.i
                                        #   in Loop: Header=BB8_15 Depth=1
	pxor	%xmm0, %xmm0
	movdqa	%xmm0, 96(%rsp)
	movdqa	%xmm0, 80(%rsp)
	movdqa	%xmm0, 64(%rsp)
	movdqa	%xmm0, 48(%rsp)
	movdqa	%xmm0, 32(%rsp)
	movdqa	%xmm0, 16(%rsp)
	movq	$0, 1032(%rbx)
	jne	.LBB8_26
# %bb.17:                               # %join.3.i.i.i42.i
                                        #   in Loop: Header=BB8_15 Depth=1
	movl	(%rbx), %esi
	leaq	16(%rsp), %rdi
	movl	$1024, %ecx                     # imm = 0x400
	movq	%r15, %rdx
	callq	"std_io::io::write_to"
	cmpb	$0, 16(%rsp)
	jne	.LBB8_25
# %bb.18:                               # %after.1.i.i49.i
                                        #   in Loop: Header=BB8_15 Depth=1
	movq	1032(%rbx), %rax
	cmpq	$1023, %rax                     # imm = 0x3FF
	jbe	.LBB8_14
	jmp	.LBB8_26
.LBB8_19:                               # %join.3
	movl	$0, 12(%rsp)
	cmpl	$2047, %esi                     # imm = 0x7FF
	ja	.LBB8_21
# %bb.20:                               # %then.4.i
	movl	%esi, %eax
	shrl	$6, %eax
	orb	$-64, %al
	movb	%al, 12(%rsp)
	andb	$63, %sil
	orb	$-128, %sil
	movb	%sil, 13(%rsp)
	movl	$2, %edx
	jmp	.LBB8_28
.LBB8_21:                               # %else.5.i
	cmpl	$55296, %esi                    # imm = 0xD800
	setb	%al
	leal	-57344(%rsi), %ecx
	cmpl	$1056768, %ecx                  # imm = 0x102000
	setb	%cl
	orb	%al, %cl
	je	.LBB8_24
# %bb.22:                               # %else.8.i
	movl	%esi, %eax
	cmpl	$65535, %esi                    # imm = 0xFFFF
	ja	.LBB8_27
# %bb.23:                               # %then.10.i
	shrl	$12, %eax
	orb	$-32, %al
	movb	%al, 12(%rsp)
	movl	%esi, %eax
	shrl	$6, %eax
	andb	$63, %al
	orb	$-128, %al
	movb	%al, 13(%rsp)
	andb	$63, %sil
	orb	$-128, %sil
	movb	%sil, 14(%rsp)
	movl	$3, %edx
	jmp	.LBB8_28
.LBB8_24:                               # %then.7.i
	movw	$-16401, 12(%rsp)               # imm = 0xBFEF
	movb	$-67, 14(%rsp)
	movl	$3, %edx
	jmp	.LBB8_28
.LBB8_27:                               # %else.11.i
	shrl	$18, %eax
	movl	%esi, %ecx
	shrl	$4, %ecx
	andl	$65280, %ecx                    # imm = 0xFF00
	orl	%eax, %ecx
	movl	%esi, %eax
	shll	$10, %eax
	andl	$16711680, %eax                 # imm = 0xFF0000
	orl	%ecx, %eax
	shll	$24, %esi
	orl	%eax, %esi
	movd	%esi, %xmm0
	pand	.LCPI8_0(%rip), %xmm0
	por	.LCPI8_1(%rip), %xmm0
	movd	%xmm0, 12(%rsp)
	movl	$4, %edx
.LBB8_28:                               # %"core::fmt::utf8::encode.exit"
	leaq	128(%rsp), %rdi
	leaq	12(%rsp), %rsi
	callq	"core::str::utf8::from_utf8"
	cmpb	$0, 128(%rsp)
	jne	.LBB8_26
# %bb.29:                               # %arm.5
	movq	136(%rsp), %r15
	movq	144(%rsp), %r12
	testq	%r12, %r12
	je	.LBB8_40
# %bb.30:                               # %join.5.i6.preheader
	xorl	%ecx, %ecx
.LBB8_31:                               # %join.5.i6
                                        # =>This Loop Header: Depth=1
                                        #     Child Loop BB8_34 Depth 2
	movq	%rcx, 160(%rsp)                 # 8-byte Spill
	cmpq	$0, 1160(%rbx)
	jne	.LBB8_38
# %bb.32:                               # %then.1.i.i
                                        #   in Loop: Header=BB8_31 Depth=1
	movq	1032(%rbx), %rax
	xorl	%r13d, %r13d
	jmp	.LBB8_34
	.p2align	4
.LBB8_33:                               # %"std_io::io::buffer::Buffer::push.exit.i.i21"
                                        #   in Loop: Header=BB8_34 Depth=2
	movb	%bpl, 4(%rbx,%rax)
	incq	%rax
	movq	%rax, 1032(%rbx)
	incq	%r13
	cmpq	%r13, %r12
	je	.LBB8_39
.LBB8_34:                               # %arm.3.i.i13
                                        #   Parent Loop BB8_31 Depth=1
                                        # =>  This Inner Loop Header: Depth=2
	movzbl	(%r15,%r13), %ebp
	cmpq	$1024, %rax                     # imm = 0x400
	jb	.LBB8_33
# %bb.35:                               # %then.2.i.i.i26
                                        #   in Loop: Header=BB8_34 Depth=2
	pxor	%xmm0, %xmm0
	movdqa	%xmm0, 96(%rsp)
	movdqa	%xmm0, 80(%rsp)
	movdqa	%xmm0, 64(%rsp)
	movdqa	%xmm0, 48(%rsp)
	movdqa	%xmm0, 32(%rsp)
	movdqa	%xmm0, 16(%rsp)
	movq	$0, 1032(%rbx)
	jne	.LBB8_26
# %bb.36:                               # %join.3.i.i.i.i29
                                        #   in Loop: Header=BB8_34 Depth=2
	movl	(%rbx), %esi
	leaq	16(%rsp), %rdi
	movl	$1024, %ecx                     # imm = 0x400
	leaq	4(%rbx), %rdx
	callq	"std_io::io::write_to"
	cmpb	$0, 16(%rsp)
	jne	.LBB8_25
# %bb.37:                               # %after.1.i.i.i36
                                        #   in Loop: Header=BB8_34 Depth=2
	movq	1032(%rbx), %rax
	cmpq	$1023, %rax                     # imm = 0x3FF
	jbe	.LBB8_33
	jmp	.LBB8_26
.LBB8_38:                               # %"core::fmt::formatter::Formatter::write_str::<#bf264aed5fa78656>.exit.i"
                                        #   in Loop: Header=BB8_31 Depth=1
	movq	%rbx, %rdi
	movq	%r15, %rsi
	movq	%r12, %rdx
	callq	"core::fmt::formatter::Formatter::write_indented::<#bf264aed5fa78656>"
	testb	%al, %al
	jne	.LBB8_26
.LBB8_39:                               # %arm.6.i
                                        #   in Loop: Header=BB8_31 Depth=1
	movq	160(%rsp), %rcx                 # 8-byte Reload
	incq	%rcx
	xorl	%eax, %eax
	cmpq	%r14, %rcx
	jne	.LBB8_31
	jmp	.LBB8_49
.LBB8_25:                               # %arm.5.i.i.i.i
	movq	$1, 1040(%rbx)
	movups	24(%rsp), %xmm0
	movups	40(%rsp), %xmm1
	movups	56(%rsp), %xmm2
	movups	72(%rsp), %xmm3
	movups	%xmm0, 1048(%rbx)
	movups	%xmm1, 1064(%rbx)
	movups	%xmm2, 1080(%rbx)
	movups	%xmm3, 1096(%rbx)
	movups	88(%rsp), %xmm0
	movups	%xmm0, 1112(%rbx)
	movq	104(%rsp), %rax
	movq	%rax, 1128(%rbx)
.LBB8_26:                               # %"std_io::io::buffer::Buffer::flush.exit.thread.i.i.i"
	movb	$1, %al
.LBB8_49:                               # %return.4
                                        # kill: def $al killed $al killed $eax
	addq	$168, %rsp
	popq	%rbx
	popq	%r12
	popq	%r13
	popq	%r14
	popq	%r15
	popq	%rbp
	retq
.LBB8_40:                               # %start.split.us.i
	cmpq	$0, 1160(%rbx)
	je	.LBB8_47
# %bb.41:                               # %join.5.us.i.preheader
	decq	%r14
	movl	$1, %eax
	testq	%rax, %rax
	je	.LBB8_42
	jmp	.LBB8_44
	.p2align	4
.LBB8_43:                               # %join.5.usthread-pre-split.i
                                        #   in Loop: Header=BB8_42 Depth=1
	movq	1160(%rbx), %rax
	testq	%rax, %rax
	je	.LBB8_42
.LBB8_44:                               # %"core::fmt::formatter::Formatter::write_str::<#bf264aed5fa78656>.exit.us.i"
	movq	%rbx, %rdi
	movq	%r15, %rsi
	xorl	%edx, %edx
	callq	"core::fmt::formatter::Formatter::write_indented::<#bf264aed5fa78656>"
	movl	%eax, %ecx
	movb	$1, %al
	testb	%cl, %cl
	jne	.LBB8_49
	.p2align	4
.LBB8_42:                               # %arm.6.us.i
                                        # =>This Inner Loop Header: Depth=1
	subq	$1, %r14
	jae	.LBB8_43
.LBB8_47:
	xorl	%eax, %eax
	jmp	.LBB8_49
.LBB8_48:                               # %else.2.i.i
	leaq	112(%rsp), %rsi
	movq	%rbx, %rdi
	movq	%r14, %rdx
	callq	"core::fmt::formatter::Formatter::write_indented::<#bf264aed5fa78656>"
                                        # kill: def $al killed $al def $eax
	jmp	.LBB8_49
.Lfunc_end8:
	.size	"core::fmt::formatter::Formatter::write_char_n_times::<#bf264aed5fa78656>", .Lfunc_end8-"core::fmt::formatter::Formatter::write_char_n_times::<#bf264aed5fa78656>"
                                        # -- End function
	.section	".text.core::str::utf8::from_utf8","ax",@progbits
	.p2align	4                               # -- Begin function core::str::utf8::from_utf8
	.type	"core::str::utf8::from_utf8",@function
"core::str::utf8::from_utf8":           # @"core::str::utf8::from_utf8"
# %bb.0:                                # %start
	pushq	%r15
	pushq	%r14
	pushq	%r13
	pushq	%r12
	pushq	%rbx
	subq	$16, %rsp
	movq	%rdx, %r15
	movq	%rsi, %r14
	movq	%rdi, %rbx
	testq	%rdx, %rdx
	je	.LBB9_57
# %bb.1:                                # %join.5.lr.ph
	movabsq	$-9187201950435737472, %r12     # imm = 0x8080808080808080
	leaq	-8(%r15), %r13
	xorl	%ecx, %ecx
	jmp	.LBB9_5
.LBB9_25:                               #   in Loop: Header=BB9_5 Depth=1
	movl	$1, %edi
.LBB9_3:                                # %join.11
                                        #   in Loop: Header=BB9_5 Depth=1
	addq	%rcx, %rdi
.LBB9_4:                                # %loop.2.backedge
                                        #   in Loop: Header=BB9_5 Depth=1
	movq	%rdi, %rcx
	cmpq	%r15, %rdi
	jae	.LBB9_57
.LBB9_5:                                # %join.5
                                        # =>This Loop Header: Depth=1
                                        #     Child Loop BB9_38 Depth 2
                                        #     Child Loop BB9_43 Depth 2
	movzbl	(%r14,%rcx), %esi
	testb	%sil, %sil
	sets	%dl
	movq	%r15, %rax
	subq	%rcx, %rax
	cmpq	$2, %rax
	setb	%dil
	orb	%dl, %dil
	jne	.LBB9_2
# %bb.6:                                # %"core::str::utf8::begins_ascii_run.exit"
                                        #   in Loop: Header=BB9_5 Depth=1
	cmpb	$0, 1(%r14,%rcx)
	js	.LBB9_25
# %bb.7:                                # %then.6
                                        #   in Loop: Header=BB9_5 Depth=1
	movq	%r14, (%rsp)
	movq	%r15, 8(%rsp)
	cmpq	$7, %rax
	ja	.LBB9_26
# %bb.8:                                # %join.5.i.i
                                        #   in Loop: Header=BB9_5 Depth=1
	cmpb	$0, (%r14,%rcx)
	js	.LBB9_36
# %bb.9:                                # %join.8.i.i
                                        #   in Loop: Header=BB9_5 Depth=1
	leaq	1(%rcx), %rdi
	cmpq	%r15, %rdi
	je	.LBB9_57
# %bb.10:                               # %join.5.i.i.1
                                        #   in Loop: Header=BB9_5 Depth=1
	cmpb	$0, (%r14,%rdi)
	js	.LBB9_4
# %bb.11:                               # %join.8.i.i.1
                                        #   in Loop: Header=BB9_5 Depth=1
	leaq	2(%rcx), %rdi
	cmpq	%r15, %rdi
	je	.LBB9_57
# %bb.12:                               # %join.5.i.i.2
                                        #   in Loop: Header=BB9_5 Depth=1
	cmpb	$0, (%r14,%rdi)
	js	.LBB9_4
# %bb.13:                               # %join.8.i.i.2
                                        #   in Loop: Header=BB9_5 Depth=1
	leaq	3(%rcx), %rdi
	cmpq	%r15, %rdi
	je	.LBB9_57
# %bb.14:                               # %join.5.i.i.3
                                        #   in Loop: Header=BB9_5 Depth=1
	cmpb	$0, (%r14,%rdi)
	js	.LBB9_4
# %bb.15:                               # %join.8.i.i.3
                                        #   in Loop: Header=BB9_5 Depth=1
	leaq	4(%rcx), %rdi
	cmpq	%r15, %rdi
	je	.LBB9_57
# %bb.16:                               # %join.5.i.i.4
                                        #   in Loop: Header=BB9_5 Depth=1
	cmpb	$0, (%r14,%rdi)
	js	.LBB9_4
# %bb.17:                               # %join.8.i.i.4
                                        #   in Loop: Header=BB9_5 Depth=1
	leaq	5(%rcx), %rdi
	cmpq	%r15, %rdi
	je	.LBB9_57
# %bb.18:                               # %join.5.i.i.5
                                        #   in Loop: Header=BB9_5 Depth=1
	cmpb	$0, (%r14,%rdi)
	js	.LBB9_4
# %bb.19:                               # %join.8.i.i.5
                                        #   in Loop: Header=BB9_5 Depth=1
	addq	$6, %rcx
	cmpq	%r15, %rcx
	je	.LBB9_57
# %bb.20:                               # %join.5.i.i.6
                                        #   in Loop: Header=BB9_5 Depth=1
	cmpb	$0, (%r14,%rcx)
	movq	%rcx, %rdi
	js	.LBB9_4
	jmp	.LBB9_57
	.p2align	4
.LBB9_2:                                # %join.8
                                        #   in Loop: Header=BB9_5 Depth=1
	movl	$1, %edi
	testb	%sil, %sil
	jns	.LBB9_3
# %bb.21:                               # %else.2.i
                                        #   in Loop: Header=BB9_5 Depth=1
	movl	$257, %edx                      # imm = 0x101
	cmpb	$-62, %sil
	jb	.LBB9_66
# %bb.22:                               # %else.5.i
                                        #   in Loop: Header=BB9_5 Depth=1
	cmpb	$-33, %sil
	ja	.LBB9_29
# %bb.23:                               # %then.7.i
                                        #   in Loop: Header=BB9_5 Depth=1
	cmpq	$2, %rax
	jb	.LBB9_58
# %bb.24:                               # %join.3.i.i
                                        #   in Loop: Header=BB9_5 Depth=1
	movzbl	1(%r14,%rcx), %r8d
	movl	$2, %edi
	cmpb	$-65, %r8b
	jle	.LBB9_3
	jmp	.LBB9_60
.LBB9_26:                               # %join.3.i
                                        #   in Loop: Header=BB9_5 Depth=1
	movq	(%r14,%rcx), %rax
	andq	%r12, %rax
	je	.LBB9_37
# %bb.27:                               # %"core::slice::words::first_in_word::<#52f9edcae2f82f51>.exit.i"
                                        #   in Loop: Header=BB9_5 Depth=1
	rep		bsfq	%rax, %rax
	shrl	$3, %eax
	addq	%rcx, %rax
	addq	$8, %rcx
	movq	%rax, %rdi
	cmpq	%rcx, %rax
	jb	.LBB9_4
# %bb.28:                               # %join.6.i
                                        #   in Loop: Header=BB9_5 Depth=1
	movq	%r15, %rcx
	subq	%rax, %rcx
	cmpq	$32, %rcx
	jae	.LBB9_38
	jmp	.LBB9_40
.LBB9_29:                               # %else.8.i
                                        #   in Loop: Header=BB9_5 Depth=1
	cmpb	$-17, %sil
	ja	.LBB9_48
# %bb.30:                               # %then.10.i
                                        #   in Loop: Header=BB9_5 Depth=1
	cmpq	$3, %rax
	jb	.LBB9_55
# %bb.31:                               # %join.3.i6.i
                                        #   in Loop: Header=BB9_5 Depth=1
	movzbl	1(%r14,%rcx), %r8d
	cmpb	$-65, %r8b
	jg	.LBB9_60
# %bb.32:                               # %join.3.i6.i
                                        #   in Loop: Header=BB9_5 Depth=1
	cmpb	$-65, 2(%r14,%rcx)
	jg	.LBB9_60
# %bb.33:                               # %join.15.i.i
                                        #   in Loop: Header=BB9_5 Depth=1
	movzbl	%r8b, %edi
	movl	%esi, %r9d
	shll	$6, %r9d
	addl	%edi, %r9d
	addl	$-14464, %r9d                   # imm = 0xC780
	cmpl	$32, %r9d
	jb	.LBB9_60
# %bb.34:                               # %else.17.i.i
                                        #   in Loop: Header=BB9_5 Depth=1
	xorl	%r8d, %r8d
	cmpl	$896, %r9d                      # imm = 0x380
	setae	%r10b
	movl	$3, %edi
	cmpl	$864, %r9d                      # imm = 0x360
	jb	.LBB9_3
# %bb.35:                               #   in Loop: Header=BB9_5 Depth=1
	movb	%r10b, %r8b
	leaq	(%r8,%r8,2), %rdi
	testq	%rdi, %rdi
	jne	.LBB9_3
	jmp	.LBB9_54
.LBB9_36:                               #   in Loop: Header=BB9_5 Depth=1
	movq	%rcx, %rdi
	jmp	.LBB9_4
.LBB9_37:                               # %"core::slice::words::first_in_word::<#52f9edcae2f82f51>.exit.thread.i"
                                        #   in Loop: Header=BB9_5 Depth=1
	addq	$8, %rcx
	movq	%rcx, %rax
	movq	%r15, %rcx
	subq	%rax, %rcx
	cmpq	$32, %rcx
	jb	.LBB9_40
	.p2align	4
.LBB9_38:                               # %then.3.i.i
                                        #   Parent Loop BB9_5 Depth=1
                                        # =>  This Inner Loop Header: Depth=2
	movdqu	(%r14,%rax), %xmm0
	movdqu	16(%r14,%rax), %xmm1
	por	%xmm0, %xmm1
	pshufd	$238, %xmm1, %xmm0              # xmm0 = xmm1[2,3,2,3]
	por	%xmm1, %xmm0
	movq	%xmm0, %rcx
	testq	%r12, %rcx
	jne	.LBB9_40
# %bb.39:                               # %join.5.i22.i
                                        #   in Loop: Header=BB9_38 Depth=2
	addq	$32, %rax
	movq	%rsp, %rdi
	movq	%rax, %rsi
	movq	%r15, %rdx
	callq	"core::slice::words::skip_far::<#52f9edcae2f82f51>"
	movq	%r15, %rcx
	subq	%rax, %rcx
	cmpq	$31, %rcx
	ja	.LBB9_38
.LBB9_40:                               # %loop.8.i.preheader
                                        #   in Loop: Header=BB9_5 Depth=1
	movq	%r15, %rcx
	subq	%rax, %rcx
	jmp	.LBB9_43
	.p2align	4
.LBB9_41:                               # %join.3.i28.i
                                        #   in Loop: Header=BB9_43 Depth=2
	rep		bsfq	%rdx, %rdi
	shrl	$3, %edi
	addq	%rax, %rdi
	addq	$8, %rax
	addq	$-8, %rcx
	cmpq	%rax, %rdi
	jb	.LBB9_4
.LBB9_43:                               # %loop.8.i
                                        #   Parent Loop BB9_5 Depth=1
                                        # =>  This Inner Loop Header: Depth=2
	cmpq	$9, %rcx
	jb	.LBB9_46
# %bb.44:                               # %join.11.i
                                        #   in Loop: Header=BB9_43 Depth=2
	movq	(%r14,%rax), %rdx
	andq	%r12, %rdx
	jne	.LBB9_41
# %bb.45:                               # %then.1.i33.i
                                        #   in Loop: Header=BB9_43 Depth=2
	leaq	8(%rax), %rdi
	addq	$8, %rax
	addq	$-8, %rcx
	cmpq	%rax, %rdi
	jae	.LBB9_43
	jmp	.LBB9_4
.LBB9_46:                               # %after.7.i
                                        #   in Loop: Header=BB9_5 Depth=1
	movq	(%r14,%r13), %rax
	andq	%r12, %rax
	je	.LBB9_57
# %bb.47:                               # %join.3.i40.i
                                        #   in Loop: Header=BB9_5 Depth=1
	rep		bsfq	%rax, %rdi
	shrl	$3, %edi
	addq	%r13, %rdi
	jmp	.LBB9_4
.LBB9_48:                               # %else.11.i
                                        #   in Loop: Header=BB9_5 Depth=1
	cmpq	$4, %rax
	jb	.LBB9_54
# %bb.49:                               # %join.3.i11.i
                                        #   in Loop: Header=BB9_5 Depth=1
	movzbl	1(%r14,%rcx), %edi
	cmpb	$-65, %dil
	jg	.LBB9_54
# %bb.50:                               # %join.3.i11.i
                                        #   in Loop: Header=BB9_5 Depth=1
	cmpb	$-65, 2(%r14,%rcx)
	jg	.LBB9_54
# %bb.51:                               # %join.3.i11.i
                                        #   in Loop: Header=BB9_5 Depth=1
	cmpb	$-65, 3(%r14,%rcx)
	jg	.LBB9_54
# %bb.52:                               # %join.21.i.i
                                        #   in Loop: Header=BB9_5 Depth=1
	movl	%esi, %r8d
	shll	$6, %r8d
	leal	(%r8,%rdi), %r9d
	addl	$-15488, %r9d                   # imm = 0xC380
	xorl	%edi, %edi
	cmpl	$272, %r9d                      # imm = 0x110
	setb	%r8b
	cmpl	$16, %r9d
	jb	.LBB9_54
# %bb.53:                               #   in Loop: Header=BB9_5 Depth=1
	movb	%r8b, %dil
	shll	$2, %edi
	testq	%rdi, %rdi
	jne	.LBB9_3
.LBB9_54:                               # %then.9
	cmpb	$-12, %sil
	ja	.LBB9_66
.LBB9_55:                               # %join.3.i.i26
	cmpq	$2, %rax
	jb	.LBB9_58
# %bb.59:                               # %join.3.i.i26.join.7.i.i_crit_edge
	movzbl	1(%r14,%rcx), %r8d
.LBB9_60:                               # %join.7.i.i
	cmpl	$240, %esi
	sete	%dil
	shlb	$4, %dil
	orb	$-128, %dil
	cmpl	$224, %esi
	movzbl	%dil, %edi
	movl	$160, %r9d
	cmovnel	%edi, %r9d
	cmpl	$244, %esi
	movl	$143, %edi
	movl	$191, %r10d
	cmovel	%edi, %r10d
	cmpl	$237, %esi
	movl	$159, %esi
	cmovnel	%r10d, %esi
	cmpb	%r8b, %r9b
	ja	.LBB9_66
# %bb.61:                               # %join.7.i.i
	cmpb	%sil, %r8b
	ja	.LBB9_66
# %bb.62:                               # %join.10.i.i
	cmpq	$2, %rax
	jne	.LBB9_64
.LBB9_58:
	xorl	%edx, %edx
.LBB9_66:                               # %"core::str::utf8::fault_len.exit"
	movq	$1, (%rbx)
	movq	%rcx, 8(%rbx)
	movq	%rdx, 16(%rbx)
	jmp	.LBB9_67
.LBB9_57:                               # %after.1
	movq	$0, (%rbx)
	movq	%r14, 8(%rbx)
	movq	%r15, 16(%rbx)
.LBB9_67:                               # %common.ret
	addq	$16, %rsp
	popq	%rbx
	popq	%r12
	popq	%r13
	popq	%r14
	popq	%r15
	retq
.LBB9_64:                               # %join.13.i.i
	movl	$513, %edx                      # imm = 0x201
	cmpb	$-65, 2(%r14,%rcx)
	jg	.LBB9_66
# %bb.65:                               # %join.16.i.i
	xorl	%esi, %esi
	cmpq	$4, %rax
	movl	$769, %edx                      # imm = 0x301
	cmovbq	%rsi, %rdx
	jmp	.LBB9_66
.Lfunc_end9:
	.size	"core::str::utf8::from_utf8", .Lfunc_end9-"core::str::utf8::from_utf8"
                                        # -- End function
	.section	".text.core::slice::words::skip_far::<#52f9edcae2f82f51>","ax",@progbits
	.p2align	4                               # -- Begin function core::slice::words::skip_far::<#52f9edcae2f82f51>
	.type	"core::slice::words::skip_far::<#52f9edcae2f82f51>",@function
"core::slice::words::skip_far::<#52f9edcae2f82f51>": # @"core::slice::words::skip_far::<#52f9edcae2f82f51>"
# %bb.0:                                # %start
	movq	%rsi, %rax
	subq	%rsi, %rdx
	cmpq	$64, %rdx
	jb	.LBB10_4
# %bb.1:                                # %then.3.lr.ph
	movq	(%rdi), %rcx
	.p2align	4
.LBB10_2:                               # %then.3
                                        # =>This Inner Loop Header: Depth=1
	movdqu	(%rcx,%rax), %xmm0
	movdqu	16(%rcx,%rax), %xmm1
	movdqu	32(%rcx,%rax), %xmm2
	por	%xmm0, %xmm2
	movdqu	48(%rcx,%rax), %xmm0
	por	%xmm1, %xmm0
	por	%xmm2, %xmm0
	pshufd	$238, %xmm0, %xmm1              # xmm1 = xmm0[2,3,2,3]
	por	%xmm0, %xmm1
	movq	%xmm1, %rsi
	movabsq	$-9187201950435737472, %rdi     # imm = 0x8080808080808080
	testq	%rdi, %rsi
	jne	.LBB10_4
# %bb.3:                                # %join.5
                                        #   in Loop: Header=BB10_2 Depth=1
	addq	$64, %rax
	addq	$-64, %rdx
	cmpq	$63, %rdx
	ja	.LBB10_2
.LBB10_4:                               # %after.1
	retq
.Lfunc_end10:
	.size	"core::slice::words::skip_far::<#52f9edcae2f82f51>", .Lfunc_end10-"core::slice::words::skip_far::<#52f9edcae2f82f51>"
                                        # -- End function
	.section	".text.std_io::io::kind::ErrorKindDisplay::fmt::<#bf264aed5fa78656>","ax",@progbits
	.p2align	4                               # -- Begin function std_io::io::kind::ErrorKindDisplay::fmt::<#bf264aed5fa78656>
	.type	"std_io::io::kind::ErrorKindDisplay::fmt::<#bf264aed5fa78656>",@function
"std_io::io::kind::ErrorKindDisplay::fmt::<#bf264aed5fa78656>": # @"std_io::io::kind::ErrorKindDisplay::fmt::<#bf264aed5fa78656>"
# %bb.0:                                # %start
	pushq	%rbp
	pushq	%r15
	pushq	%r14
	pushq	%rbx
	subq	$104, %rsp
	movq	%rsi, %rbx
	movq	1160(%rsi), %rax
	movzbl	%dil, %ecx
	leaq	.LJTI11_0(%rip), %rdx
	movslq	(%rdx,%rcx,4), %rcx
	addq	%rdx, %rcx
	jmpq	*%rcx
.LBB11_1:                               # %arm.1
	testq	%rax, %rax
	jne	.LBB11_609
# %bb.2:                                # %then.1.i490
	leaq	4(%rbx), %r14
	movq	1032(%rbx), %rcx
	xorl	%r15d, %r15d
	jmp	.LBB11_4
	.p2align	4
.LBB11_3:                               # %"std_io::io::buffer::Buffer::push.exit.i"
                                        #   in Loop: Header=BB11_4 Depth=1
	movb	%bpl, 4(%rbx,%rcx)
	incq	%rcx
	movq	%rcx, 1032(%rbx)
	incq	%r15
	xorl	%eax, %eax
	cmpq	$16, %r15
	je	.LBB11_589
.LBB11_4:                               # %arm.3.i
                                        # =>This Inner Loop Header: Depth=1
	leaq	.Lstatic.16(%rip), %rax
	movzbl	(%r15,%rax), %ebp
	cmpq	$1024, %rcx                     # imm = 0x400
	jb	.LBB11_3
# %bb.5:                                # %then.2.i.i
                                        #   in Loop: Header=BB11_4 Depth=1
	xorps	%xmm0, %xmm0
	movaps	%xmm0, 80(%rsp)
	movaps	%xmm0, 64(%rsp)
	movaps	%xmm0, 48(%rsp)
	movaps	%xmm0, 32(%rsp)
	movaps	%xmm0, 16(%rsp)
	movaps	%xmm0, (%rsp)
	movq	$0, 1032(%rbx)
	jne	.LBB11_588
# %bb.6:                                # %join.3.i.i.i
                                        #   in Loop: Header=BB11_4 Depth=1
	movl	(%rbx), %esi
	movq	%rsp, %rdi
	movl	$1024, %ecx                     # imm = 0x400
	movq	%r14, %rdx
	callq	"std_io::io::write_to"
	cmpb	$0, (%rsp)
	jne	.LBB11_587
# %bb.7:                                # %after.1.i.i
                                        #   in Loop: Header=BB11_4 Depth=1
	movq	1032(%rbx), %rcx
	cmpq	$1023, %rcx                     # imm = 0x3FF
	jbe	.LBB11_3
	jmp	.LBB11_588
.LBB11_8:                               # %arm.38
	testq	%rax, %rax
	jne	.LBB11_590
# %bb.9:                                # %then.1.i46
	leaq	4(%rbx), %r14
	movq	1032(%rbx), %rcx
	xorl	%r15d, %r15d
	jmp	.LBB11_11
	.p2align	4
.LBB11_10:                              # %"std_io::io::buffer::Buffer::push.exit.i1657"
                                        #   in Loop: Header=BB11_11 Depth=1
	movb	%bpl, 4(%rbx,%rcx)
	incq	%rcx
	movq	%rcx, 1032(%rbx)
	incq	%r15
	xorl	%eax, %eax
	cmpq	$22, %r15
	je	.LBB11_589
.LBB11_11:                              # %arm.3.i1649
                                        # =>This Inner Loop Header: Depth=1
	leaq	.Lstatic.53(%rip), %rax
	movzbl	(%r15,%rax), %ebp
	cmpq	$1024, %rcx                     # imm = 0x400
	jb	.LBB11_10
# %bb.12:                               # %then.2.i.i1663
                                        #   in Loop: Header=BB11_11 Depth=1
	xorps	%xmm0, %xmm0
	movaps	%xmm0, 80(%rsp)
	movaps	%xmm0, 64(%rsp)
	movaps	%xmm0, 48(%rsp)
	movaps	%xmm0, 32(%rsp)
	movaps	%xmm0, 16(%rsp)
	movaps	%xmm0, (%rsp)
	movq	$0, 1032(%rbx)
	jne	.LBB11_588
# %bb.13:                               # %join.3.i.i.i1666
                                        #   in Loop: Header=BB11_11 Depth=1
	movl	(%rbx), %esi
	movq	%rsp, %rdi
	movl	$1024, %ecx                     # imm = 0x400
	movq	%r14, %rdx
	callq	"std_io::io::write_to"
	cmpb	$0, (%rsp)
	jne	.LBB11_587
# %bb.14:                               # %after.1.i.i1673
                                        #   in Loop: Header=BB11_11 Depth=1
	movq	1032(%rbx), %rcx
	cmpq	$1023, %rcx                     # imm = 0x3FF
	jbe	.LBB11_10
	jmp	.LBB11_15
.LBB11_16:                              # %arm.36
	testq	%rax, %rax
	jne	.LBB11_591
# %bb.17:                               # %then.1.i70
	leaq	4(%rbx), %r14
	movq	1032(%rbx), %rcx
	xorl	%r15d, %r15d
	jmp	.LBB11_19
	.p2align	4
.LBB11_18:                              # %"std_io::io::buffer::Buffer::push.exit.i1593"
                                        #   in Loop: Header=BB11_19 Depth=1
	movb	%bpl, 4(%rbx,%rcx)
	incq	%rcx
	movq	%rcx, 1032(%rbx)
	incq	%r15
	xorl	%eax, %eax
	cmpq	$21, %r15
	je	.LBB11_589
.LBB11_19:                              # %arm.3.i1585
                                        # =>This Inner Loop Header: Depth=1
	leaq	.Lstatic.51(%rip), %rax
	movzbl	(%r15,%rax), %ebp
	cmpq	$1024, %rcx                     # imm = 0x400
	jb	.LBB11_18
# %bb.20:                               # %then.2.i.i1599
                                        #   in Loop: Header=BB11_19 Depth=1
	xorps	%xmm0, %xmm0
	movaps	%xmm0, 80(%rsp)
	movaps	%xmm0, 64(%rsp)
	movaps	%xmm0, 48(%rsp)
	movaps	%xmm0, 32(%rsp)
	movaps	%xmm0, 16(%rsp)
	movaps	%xmm0, (%rsp)
	movq	$0, 1032(%rbx)
	jne	.LBB11_588
# %bb.21:                               # %join.3.i.i.i1602
                                        #   in Loop: Header=BB11_19 Depth=1
	movl	(%rbx), %esi
	movq	%rsp, %rdi
	movl	$1024, %ecx                     # imm = 0x400
	movq	%r14, %rdx
	callq	"std_io::io::write_to"
	cmpb	$0, (%rsp)
	jne	.LBB11_587
# %bb.22:                               # %after.1.i.i1609
                                        #   in Loop: Header=BB11_19 Depth=1
	movq	1032(%rbx), %rcx
	cmpq	$1023, %rcx                     # imm = 0x3FF
	jbe	.LBB11_18
	jmp	.LBB11_15
.LBB11_24:                              # %arm.37
	testq	%rax, %rax
	jne	.LBB11_592
# %bb.25:                               # %then.1.i58
	leaq	4(%rbx), %r14
	movq	1032(%rbx), %rdx
	cmpq	$1024, %rdx                     # imm = 0x400
	jb	.LBB11_29
# %bb.26:                               # %then.2.i.i1631
	xorps	%xmm0, %xmm0
	movaps	%xmm0, 80(%rsp)
	movaps	%xmm0, 64(%rsp)
	movaps	%xmm0, 48(%rsp)
	movaps	%xmm0, 32(%rsp)
	movaps	%xmm0, 16(%rsp)
	movaps	%xmm0, (%rsp)
	movq	$0, 1032(%rbx)
	jne	.LBB11_588
# %bb.27:                               # %join.3.i.i.i1634
	movl	(%rbx), %esi
	movq	%rsp, %rdi
	movl	$1024, %ecx                     # imm = 0x400
	movq	%r14, %rdx
	callq	"std_io::io::write_to"
	cmpb	$0, (%rsp)
	jne	.LBB11_587
# %bb.28:                               # %after.1.i.i1641
	movq	1032(%rbx), %rdx
	movb	$1, %al
	cmpq	$1023, %rdx                     # imm = 0x3FF
	ja	.LBB11_589
.LBB11_29:                              # %"std_io::io::buffer::Buffer::push.exit.i1625"
	movb	$117, 4(%rbx,%rdx)
	leaq	1(%rdx), %rcx
	movq	%rcx, 1032(%rbx)
	cmpq	$1023, %rdx                     # imm = 0x3FF
	jne	.LBB11_32
# %bb.30:                               # %join.3.i.i.i1634.1
	xorps	%xmm0, %xmm0
	movaps	%xmm0, 80(%rsp)
	movaps	%xmm0, 64(%rsp)
	movaps	%xmm0, 48(%rsp)
	movaps	%xmm0, 32(%rsp)
	movaps	%xmm0, 16(%rsp)
	movaps	%xmm0, (%rsp)
	movq	$0, 1032(%rbx)
	movl	(%rbx), %esi
	movq	%rsp, %rdi
	movl	$1024, %ecx                     # imm = 0x400
	movq	%r14, %rdx
	callq	"std_io::io::write_to"
	cmpb	$0, (%rsp)
	jne	.LBB11_587
# %bb.31:                               # %after.1.i.i1641.1
	movq	1032(%rbx), %rcx
	movb	$1, %al
	cmpq	$1023, %rcx                     # imm = 0x3FF
	ja	.LBB11_589
.LBB11_32:                              # %"std_io::io::buffer::Buffer::push.exit.i1625.1"
	movb	$110, 4(%rbx,%rcx)
	leaq	1(%rcx), %rdx
	movq	%rdx, 1032(%rbx)
	cmpq	$1023, %rcx                     # imm = 0x3FF
	jb	.LBB11_35
# %bb.33:                               # %join.3.i.i.i1634.2
	xorps	%xmm0, %xmm0
	movaps	%xmm0, 80(%rsp)
	movaps	%xmm0, 64(%rsp)
	movaps	%xmm0, 48(%rsp)
	movaps	%xmm0, 32(%rsp)
	movaps	%xmm0, 16(%rsp)
	movaps	%xmm0, (%rsp)
	movq	$0, 1032(%rbx)
	movl	(%rbx), %esi
	movq	%rsp, %rdi
	movl	$1024, %ecx                     # imm = 0x400
	movq	%r14, %rdx
	callq	"std_io::io::write_to"
	cmpb	$0, (%rsp)
	jne	.LBB11_587
# %bb.34:                               # %after.1.i.i1641.2
	movq	1032(%rbx), %rdx
	movb	$1, %al
	cmpq	$1023, %rdx                     # imm = 0x3FF
	ja	.LBB11_589
.LBB11_35:                              # %"std_io::io::buffer::Buffer::push.exit.i1625.2"
	movb	$115, 4(%rbx,%rdx)
	leaq	1(%rdx), %rcx
	movq	%rcx, 1032(%rbx)
	cmpq	$1023, %rdx                     # imm = 0x3FF
	jb	.LBB11_38
# %bb.36:                               # %join.3.i.i.i1634.3
	xorps	%xmm0, %xmm0
	movaps	%xmm0, 80(%rsp)
	movaps	%xmm0, 64(%rsp)
	movaps	%xmm0, 48(%rsp)
	movaps	%xmm0, 32(%rsp)
	movaps	%xmm0, 16(%rsp)
	movaps	%xmm0, (%rsp)
	movq	$0, 1032(%rbx)
	movl	(%rbx), %esi
	movq	%rsp, %rdi
	movl	$1024, %ecx                     # imm = 0x400
	movq	%r14, %rdx
	callq	"std_io::io::write_to"
	cmpb	$0, (%rsp)
	jne	.LBB11_587
# %bb.37:                               # %after.1.i.i1641.3
	movq	1032(%rbx), %rcx
	movb	$1, %al
	cmpq	$1023, %rcx                     # imm = 0x3FF
	ja	.LBB11_589
.LBB11_38:                              # %"std_io::io::buffer::Buffer::push.exit.i1625.3"
	movb	$117, 4(%rbx,%rcx)
	leaq	1(%rcx), %rdx
	movq	%rdx, 1032(%rbx)
	cmpq	$1023, %rcx                     # imm = 0x3FF
	jb	.LBB11_41
# %bb.39:                               # %join.3.i.i.i1634.4
	xorps	%xmm0, %xmm0
	movaps	%xmm0, 80(%rsp)
	movaps	%xmm0, 64(%rsp)
	movaps	%xmm0, 48(%rsp)
	movaps	%xmm0, 32(%rsp)
	movaps	%xmm0, 16(%rsp)
	movaps	%xmm0, (%rsp)
	movq	$0, 1032(%rbx)
	movl	(%rbx), %esi
	movq	%rsp, %rdi
	movl	$1024, %ecx                     # imm = 0x400
	movq	%r14, %rdx
	callq	"std_io::io::write_to"
	cmpb	$0, (%rsp)
	jne	.LBB11_587
# %bb.40:                               # %after.1.i.i1641.4
	movq	1032(%rbx), %rdx
	movb	$1, %al
	cmpq	$1023, %rdx                     # imm = 0x3FF
	ja	.LBB11_589
.LBB11_41:                              # %"std_io::io::buffer::Buffer::push.exit.i1625.4"
	movb	$112, 4(%rbx,%rdx)
	leaq	1(%rdx), %rcx
	movq	%rcx, 1032(%rbx)
	cmpq	$1023, %rdx                     # imm = 0x3FF
	jb	.LBB11_44
# %bb.42:                               # %join.3.i.i.i1634.5
	xorps	%xmm0, %xmm0
	movaps	%xmm0, 80(%rsp)
	movaps	%xmm0, 64(%rsp)
	movaps	%xmm0, 48(%rsp)
	movaps	%xmm0, 32(%rsp)
	movaps	%xmm0, 16(%rsp)
	movaps	%xmm0, (%rsp)
	movq	$0, 1032(%rbx)
	movl	(%rbx), %esi
	movq	%rsp, %rdi
	movl	$1024, %ecx                     # imm = 0x400
	movq	%r14, %rdx
	callq	"std_io::io::write_to"
	cmpb	$0, (%rsp)
	jne	.LBB11_587
# %bb.43:                               # %after.1.i.i1641.5
	movq	1032(%rbx), %rcx
	movb	$1, %al
	cmpq	$1023, %rcx                     # imm = 0x3FF
	ja	.LBB11_589
.LBB11_44:                              # %"std_io::io::buffer::Buffer::push.exit.i1625.5"
	movb	$112, 4(%rbx,%rcx)
	leaq	1(%rcx), %rdx
	movq	%rdx, 1032(%rbx)
	cmpq	$1023, %rcx                     # imm = 0x3FF
	jb	.LBB11_47
# %bb.45:                               # %join.3.i.i.i1634.6
	xorps	%xmm0, %xmm0
	movaps	%xmm0, 80(%rsp)
	movaps	%xmm0, 64(%rsp)
	movaps	%xmm0, 48(%rsp)
	movaps	%xmm0, 32(%rsp)
	movaps	%xmm0, 16(%rsp)
	movaps	%xmm0, (%rsp)
	movq	$0, 1032(%rbx)
	movl	(%rbx), %esi
	movq	%rsp, %rdi
	movl	$1024, %ecx                     # imm = 0x400
	movq	%r14, %rdx
	callq	"std_io::io::write_to"
	cmpb	$0, (%rsp)
	jne	.LBB11_587
# %bb.46:                               # %after.1.i.i1641.6
	movq	1032(%rbx), %rdx
	movb	$1, %al
	cmpq	$1023, %rdx                     # imm = 0x3FF
	ja	.LBB11_589
.LBB11_47:                              # %"std_io::io::buffer::Buffer::push.exit.i1625.6"
	movb	$111, 4(%rbx,%rdx)
	leaq	1(%rdx), %rcx
	movq	%rcx, 1032(%rbx)
	cmpq	$1023, %rdx                     # imm = 0x3FF
	jb	.LBB11_50
# %bb.48:                               # %join.3.i.i.i1634.7
	xorps	%xmm0, %xmm0
	movaps	%xmm0, 80(%rsp)
	movaps	%xmm0, 64(%rsp)
	movaps	%xmm0, 48(%rsp)
	movaps	%xmm0, 32(%rsp)
	movaps	%xmm0, 16(%rsp)
	movaps	%xmm0, (%rsp)
	movq	$0, 1032(%rbx)
	movl	(%rbx), %esi
	movq	%rsp, %rdi
	movl	$1024, %ecx                     # imm = 0x400
	movq	%r14, %rdx
	callq	"std_io::io::write_to"
	cmpb	$0, (%rsp)
	jne	.LBB11_587
# %bb.49:                               # %after.1.i.i1641.7
	movq	1032(%rbx), %rcx
	movb	$1, %al
	cmpq	$1023, %rcx                     # imm = 0x3FF
	ja	.LBB11_589
.LBB11_50:                              # %"std_io::io::buffer::Buffer::push.exit.i1625.7"
	movb	$114, 4(%rbx,%rcx)
	leaq	1(%rcx), %rdx
	movq	%rdx, 1032(%rbx)
	cmpq	$1023, %rcx                     # imm = 0x3FF
	jb	.LBB11_53
# %bb.51:                               # %join.3.i.i.i1634.8
	xorps	%xmm0, %xmm0
	movaps	%xmm0, 80(%rsp)
	movaps	%xmm0, 64(%rsp)
	movaps	%xmm0, 48(%rsp)
	movaps	%xmm0, 32(%rsp)
	movaps	%xmm0, 16(%rsp)
	movaps	%xmm0, (%rsp)
	movq	$0, 1032(%rbx)
	movl	(%rbx), %esi
	movq	%rsp, %rdi
	movl	$1024, %ecx                     # imm = 0x400
	movq	%r14, %rdx
	callq	"std_io::io::write_to"
	cmpb	$0, (%rsp)
	jne	.LBB11_587
# %bb.52:                               # %after.1.i.i1641.8
	movq	1032(%rbx), %rdx
	movb	$1, %al
	cmpq	$1023, %rdx                     # imm = 0x3FF
	ja	.LBB11_589
.LBB11_53:                              # %"std_io::io::buffer::Buffer::push.exit.i1625.8"
	movb	$116, 4(%rbx,%rdx)
	leaq	1(%rdx), %rcx
	movq	%rcx, 1032(%rbx)
	cmpq	$1023, %rdx                     # imm = 0x3FF
	jb	.LBB11_56
# %bb.54:                               # %join.3.i.i.i1634.9
	xorps	%xmm0, %xmm0
	movaps	%xmm0, 80(%rsp)
	movaps	%xmm0, 64(%rsp)
	movaps	%xmm0, 48(%rsp)
	movaps	%xmm0, 32(%rsp)
	movaps	%xmm0, 16(%rsp)
	movaps	%xmm0, (%rsp)
	movq	$0, 1032(%rbx)
	movl	(%rbx), %esi
	movq	%rsp, %rdi
	movl	$1024, %ecx                     # imm = 0x400
	movq	%r14, %rdx
	callq	"std_io::io::write_to"
	cmpb	$0, (%rsp)
	jne	.LBB11_587
# %bb.55:                               # %after.1.i.i1641.9
	movq	1032(%rbx), %rcx
	movb	$1, %al
	cmpq	$1023, %rcx                     # imm = 0x3FF
	ja	.LBB11_589
.LBB11_56:                              # %"std_io::io::buffer::Buffer::push.exit.i1625.9"
	movb	$101, 4(%rbx,%rcx)
	leaq	1(%rcx), %rdx
	movq	%rdx, 1032(%rbx)
	cmpq	$1023, %rcx                     # imm = 0x3FF
	jb	.LBB11_641
# %bb.57:                               # %join.3.i.i.i1634.10
	xorps	%xmm0, %xmm0
	movaps	%xmm0, 80(%rsp)
	movaps	%xmm0, 64(%rsp)
	movaps	%xmm0, 48(%rsp)
	movaps	%xmm0, 32(%rsp)
	movaps	%xmm0, 16(%rsp)
	movaps	%xmm0, (%rsp)
	movq	$0, 1032(%rbx)
	movl	(%rbx), %esi
	movq	%rsp, %rdi
	movl	$1024, %ecx                     # imm = 0x400
	movq	%r14, %rdx
	callq	"std_io::io::write_to"
	cmpb	$0, (%rsp)
	jne	.LBB11_587
# %bb.640:                              # %after.1.i.i1641.10
	movq	1032(%rbx), %rdx
	movb	$1, %al
	cmpq	$1023, %rdx                     # imm = 0x3FF
	ja	.LBB11_589
.LBB11_641:                             # %"std_io::io::buffer::Buffer::push.exit.i1625.10"
	movb	$100, 4(%rbx,%rdx)
	jmp	.LBB11_648
.LBB11_59:                              # %arm.28
	testq	%rax, %rax
	jne	.LBB11_593
# %bb.60:                               # %then.1.i166
	leaq	4(%rbx), %r14
	movq	1032(%rbx), %rcx
	xorl	%r15d, %r15d
	jmp	.LBB11_62
	.p2align	4
.LBB11_61:                              # %"std_io::io::buffer::Buffer::push.exit.i1337"
                                        #   in Loop: Header=BB11_62 Depth=1
	movb	%bpl, 4(%rbx,%rcx)
	incq	%rcx
	movq	%rcx, 1032(%rbx)
	incq	%r15
	xorl	%eax, %eax
	cmpq	$14, %r15
	je	.LBB11_589
.LBB11_62:                              # %arm.3.i1329
                                        # =>This Inner Loop Header: Depth=1
	leaq	.Lstatic.43(%rip), %rax
	movzbl	(%r15,%rax), %ebp
	cmpq	$1024, %rcx                     # imm = 0x400
	jb	.LBB11_61
# %bb.63:                               # %then.2.i.i1343
                                        #   in Loop: Header=BB11_62 Depth=1
	xorps	%xmm0, %xmm0
	movaps	%xmm0, 80(%rsp)
	movaps	%xmm0, 64(%rsp)
	movaps	%xmm0, 48(%rsp)
	movaps	%xmm0, 32(%rsp)
	movaps	%xmm0, 16(%rsp)
	movaps	%xmm0, (%rsp)
	movq	$0, 1032(%rbx)
	jne	.LBB11_588
# %bb.64:                               # %join.3.i.i.i1346
                                        #   in Loop: Header=BB11_62 Depth=1
	movl	(%rbx), %esi
	movq	%rsp, %rdi
	movl	$1024, %ecx                     # imm = 0x400
	movq	%r14, %rdx
	callq	"std_io::io::write_to"
	cmpb	$0, (%rsp)
	jne	.LBB11_587
# %bb.65:                               # %after.1.i.i1353
                                        #   in Loop: Header=BB11_62 Depth=1
	movq	1032(%rbx), %rcx
	cmpq	$1023, %rcx                     # imm = 0x3FF
	jbe	.LBB11_61
	jmp	.LBB11_15
.LBB11_67:                              # %arm.35
	testq	%rax, %rax
	jne	.LBB11_594
# %bb.68:                               # %then.1.i82
	leaq	4(%rbx), %r14
	movq	1032(%rbx), %rcx
	xorl	%r15d, %r15d
	jmp	.LBB11_70
	.p2align	4
.LBB11_69:                              # %"std_io::io::buffer::Buffer::push.exit.i1561"
                                        #   in Loop: Header=BB11_70 Depth=1
	movb	%bpl, 4(%rbx,%rcx)
	incq	%rcx
	movq	%rcx, 1032(%rbx)
	incq	%r15
	xorl	%eax, %eax
	cmpq	$22, %r15
	je	.LBB11_589
.LBB11_70:                              # %arm.3.i1553
                                        # =>This Inner Loop Header: Depth=1
	leaq	.Lstatic.50(%rip), %rax
	movzbl	(%r15,%rax), %ebp
	cmpq	$1024, %rcx                     # imm = 0x400
	jb	.LBB11_69
# %bb.71:                               # %then.2.i.i1567
                                        #   in Loop: Header=BB11_70 Depth=1
	xorps	%xmm0, %xmm0
	movaps	%xmm0, 80(%rsp)
	movaps	%xmm0, 64(%rsp)
	movaps	%xmm0, 48(%rsp)
	movaps	%xmm0, 32(%rsp)
	movaps	%xmm0, 16(%rsp)
	movaps	%xmm0, (%rsp)
	movq	$0, 1032(%rbx)
	jne	.LBB11_588
# %bb.72:                               # %join.3.i.i.i1570
                                        #   in Loop: Header=BB11_70 Depth=1
	movl	(%rbx), %esi
	movq	%rsp, %rdi
	movl	$1024, %ecx                     # imm = 0x400
	movq	%r14, %rdx
	callq	"std_io::io::write_to"
	cmpb	$0, (%rsp)
	jne	.LBB11_587
# %bb.73:                               # %after.1.i.i1577
                                        #   in Loop: Header=BB11_70 Depth=1
	movq	1032(%rbx), %rcx
	cmpq	$1023, %rcx                     # imm = 0x3FF
	jbe	.LBB11_69
	jmp	.LBB11_15
.LBB11_75:                              # %arm.17
	testq	%rax, %rax
	jne	.LBB11_595
# %bb.76:                               # %then.1.i298
	leaq	4(%rbx), %r14
	movq	1032(%rbx), %rcx
	xorl	%r15d, %r15d
	jmp	.LBB11_78
	.p2align	4
.LBB11_77:                              # %"std_io::io::buffer::Buffer::push.exit.i985"
                                        #   in Loop: Header=BB11_78 Depth=1
	movb	%bpl, 4(%rbx,%rcx)
	incq	%rcx
	movq	%rcx, 1032(%rbx)
	incq	%r15
	xorl	%eax, %eax
	cmpq	$19, %r15
	je	.LBB11_589
.LBB11_78:                              # %arm.3.i977
                                        # =>This Inner Loop Header: Depth=1
	leaq	.Lstatic.32(%rip), %rax
	movzbl	(%r15,%rax), %ebp
	cmpq	$1024, %rcx                     # imm = 0x400
	jb	.LBB11_77
# %bb.79:                               # %then.2.i.i991
                                        #   in Loop: Header=BB11_78 Depth=1
	xorps	%xmm0, %xmm0
	movaps	%xmm0, 80(%rsp)
	movaps	%xmm0, 64(%rsp)
	movaps	%xmm0, 48(%rsp)
	movaps	%xmm0, 32(%rsp)
	movaps	%xmm0, 16(%rsp)
	movaps	%xmm0, (%rsp)
	movq	$0, 1032(%rbx)
	jne	.LBB11_588
# %bb.80:                               # %join.3.i.i.i994
                                        #   in Loop: Header=BB11_78 Depth=1
	movl	(%rbx), %esi
	movq	%rsp, %rdi
	movl	$1024, %ecx                     # imm = 0x400
	movq	%r14, %rdx
	callq	"std_io::io::write_to"
	cmpb	$0, (%rsp)
	jne	.LBB11_587
# %bb.81:                               # %after.1.i.i1001
                                        #   in Loop: Header=BB11_78 Depth=1
	movq	1032(%rbx), %rcx
	cmpq	$1023, %rcx                     # imm = 0x3FF
	jbe	.LBB11_77
	jmp	.LBB11_15
.LBB11_83:                              # %arm.15
	testq	%rax, %rax
	jne	.LBB11_596
# %bb.84:                               # %then.1.i322
	leaq	4(%rbx), %r14
	movq	1032(%rbx), %rcx
	xorl	%r15d, %r15d
	jmp	.LBB11_86
	.p2align	4
.LBB11_85:                              # %"std_io::io::buffer::Buffer::push.exit.i921"
                                        #   in Loop: Header=BB11_86 Depth=1
	movb	%bpl, 4(%rbx,%rcx)
	incq	%rcx
	movq	%rcx, 1032(%rbx)
	incq	%r15
	xorl	%eax, %eax
	cmpq	$15, %r15
	je	.LBB11_589
.LBB11_86:                              # %arm.3.i913
                                        # =>This Inner Loop Header: Depth=1
	leaq	.Lstatic.30(%rip), %rax
	movzbl	(%r15,%rax), %ebp
	cmpq	$1024, %rcx                     # imm = 0x400
	jb	.LBB11_85
# %bb.87:                               # %then.2.i.i927
                                        #   in Loop: Header=BB11_86 Depth=1
	xorps	%xmm0, %xmm0
	movaps	%xmm0, 80(%rsp)
	movaps	%xmm0, 64(%rsp)
	movaps	%xmm0, 48(%rsp)
	movaps	%xmm0, 32(%rsp)
	movaps	%xmm0, 16(%rsp)
	movaps	%xmm0, (%rsp)
	movq	$0, 1032(%rbx)
	jne	.LBB11_588
# %bb.88:                               # %join.3.i.i.i930
                                        #   in Loop: Header=BB11_86 Depth=1
	movl	(%rbx), %esi
	movq	%rsp, %rdi
	movl	$1024, %ecx                     # imm = 0x400
	movq	%r14, %rdx
	callq	"std_io::io::write_to"
	cmpb	$0, (%rsp)
	jne	.LBB11_587
# %bb.89:                               # %after.1.i.i937
                                        #   in Loop: Header=BB11_86 Depth=1
	movq	1032(%rbx), %rcx
	cmpq	$1023, %rcx                     # imm = 0x3FF
	jbe	.LBB11_85
	jmp	.LBB11_588
.LBB11_90:                              # %arm.34
	testq	%rax, %rax
	jne	.LBB11_597
# %bb.91:                               # %then.1.i94
	leaq	4(%rbx), %r14
	movq	1032(%rbx), %rcx
	xorl	%r15d, %r15d
	jmp	.LBB11_93
	.p2align	4
.LBB11_92:                              # %"std_io::io::buffer::Buffer::push.exit.i1529"
                                        #   in Loop: Header=BB11_93 Depth=1
	movb	%bpl, 4(%rbx,%rcx)
	incq	%rcx
	movq	%rcx, 1032(%rbx)
	incq	%r15
	xorl	%eax, %eax
	cmpq	$16, %r15
	je	.LBB11_589
.LBB11_93:                              # %arm.3.i1521
                                        # =>This Inner Loop Header: Depth=1
	leaq	.Lstatic.49(%rip), %rax
	movzbl	(%r15,%rax), %ebp
	cmpq	$1024, %rcx                     # imm = 0x400
	jb	.LBB11_92
# %bb.94:                               # %then.2.i.i1535
                                        #   in Loop: Header=BB11_93 Depth=1
	xorps	%xmm0, %xmm0
	movaps	%xmm0, 80(%rsp)
	movaps	%xmm0, 64(%rsp)
	movaps	%xmm0, 48(%rsp)
	movaps	%xmm0, 32(%rsp)
	movaps	%xmm0, 16(%rsp)
	movaps	%xmm0, (%rsp)
	movq	$0, 1032(%rbx)
	jne	.LBB11_588
# %bb.95:                               # %join.3.i.i.i1538
                                        #   in Loop: Header=BB11_93 Depth=1
	movl	(%rbx), %esi
	movq	%rsp, %rdi
	movl	$1024, %ecx                     # imm = 0x400
	movq	%r14, %rdx
	callq	"std_io::io::write_to"
	cmpb	$0, (%rsp)
	jne	.LBB11_587
# %bb.96:                               # %after.1.i.i1545
                                        #   in Loop: Header=BB11_93 Depth=1
	movq	1032(%rbx), %rcx
	cmpq	$1023, %rcx                     # imm = 0x3FF
	jbe	.LBB11_92
	jmp	.LBB11_15
.LBB11_98:                              # %arm.12
	testq	%rax, %rax
	jne	.LBB11_598
# %bb.99:                               # %then.1.i358
	leaq	4(%rbx), %r14
	movq	1032(%rbx), %rdx
	cmpq	$1024, %rdx                     # imm = 0x400
	jb	.LBB11_103
# %bb.100:                              # %then.2.i.i831
	xorps	%xmm0, %xmm0
	movaps	%xmm0, 80(%rsp)
	movaps	%xmm0, 64(%rsp)
	movaps	%xmm0, 48(%rsp)
	movaps	%xmm0, 32(%rsp)
	movaps	%xmm0, 16(%rsp)
	movaps	%xmm0, (%rsp)
	movq	$0, 1032(%rbx)
	jne	.LBB11_588
# %bb.101:                              # %join.3.i.i.i834
	movl	(%rbx), %esi
	movq	%rsp, %rdi
	movl	$1024, %ecx                     # imm = 0x400
	movq	%r14, %rdx
	callq	"std_io::io::write_to"
	cmpb	$0, (%rsp)
	jne	.LBB11_587
# %bb.102:                              # %after.1.i.i841
	movq	1032(%rbx), %rdx
	movb	$1, %al
	cmpq	$1023, %rdx                     # imm = 0x3FF
	ja	.LBB11_589
.LBB11_103:                             # %"std_io::io::buffer::Buffer::push.exit.i825"
	movb	$98, 4(%rbx,%rdx)
	leaq	1(%rdx), %rcx
	movq	%rcx, 1032(%rbx)
	cmpq	$1023, %rdx                     # imm = 0x3FF
	jne	.LBB11_106
# %bb.104:                              # %join.3.i.i.i834.1
	xorps	%xmm0, %xmm0
	movaps	%xmm0, 80(%rsp)
	movaps	%xmm0, 64(%rsp)
	movaps	%xmm0, 48(%rsp)
	movaps	%xmm0, 32(%rsp)
	movaps	%xmm0, 16(%rsp)
	movaps	%xmm0, (%rsp)
	movq	$0, 1032(%rbx)
	movl	(%rbx), %esi
	movq	%rsp, %rdi
	movl	$1024, %ecx                     # imm = 0x400
	movq	%r14, %rdx
	callq	"std_io::io::write_to"
	cmpb	$0, (%rsp)
	jne	.LBB11_587
# %bb.105:                              # %after.1.i.i841.1
	movq	1032(%rbx), %rcx
	movb	$1, %al
	cmpq	$1023, %rcx                     # imm = 0x3FF
	ja	.LBB11_589
.LBB11_106:                             # %"std_io::io::buffer::Buffer::push.exit.i825.1"
	movb	$114, 4(%rbx,%rcx)
	leaq	1(%rcx), %rdx
	movq	%rdx, 1032(%rbx)
	cmpq	$1023, %rcx                     # imm = 0x3FF
	jb	.LBB11_109
# %bb.107:                              # %join.3.i.i.i834.2
	xorps	%xmm0, %xmm0
	movaps	%xmm0, 80(%rsp)
	movaps	%xmm0, 64(%rsp)
	movaps	%xmm0, 48(%rsp)
	movaps	%xmm0, 32(%rsp)
	movaps	%xmm0, 16(%rsp)
	movaps	%xmm0, (%rsp)
	movq	$0, 1032(%rbx)
	movl	(%rbx), %esi
	movq	%rsp, %rdi
	movl	$1024, %ecx                     # imm = 0x400
	movq	%r14, %rdx
	callq	"std_io::io::write_to"
	cmpb	$0, (%rsp)
	jne	.LBB11_587
# %bb.108:                              # %after.1.i.i841.2
	movq	1032(%rbx), %rdx
	movb	$1, %al
	cmpq	$1023, %rdx                     # imm = 0x3FF
	ja	.LBB11_589
.LBB11_109:                             # %"std_io::io::buffer::Buffer::push.exit.i825.2"
	movb	$111, 4(%rbx,%rdx)
	leaq	1(%rdx), %rcx
	movq	%rcx, 1032(%rbx)
	cmpq	$1023, %rdx                     # imm = 0x3FF
	jb	.LBB11_112
# %bb.110:                              # %join.3.i.i.i834.3
	xorps	%xmm0, %xmm0
	movaps	%xmm0, 80(%rsp)
	movaps	%xmm0, 64(%rsp)
	movaps	%xmm0, 48(%rsp)
	movaps	%xmm0, 32(%rsp)
	movaps	%xmm0, 16(%rsp)
	movaps	%xmm0, (%rsp)
	movq	$0, 1032(%rbx)
	movl	(%rbx), %esi
	movq	%rsp, %rdi
	movl	$1024, %ecx                     # imm = 0x400
	movq	%r14, %rdx
	callq	"std_io::io::write_to"
	cmpb	$0, (%rsp)
	jne	.LBB11_587
# %bb.111:                              # %after.1.i.i841.3
	movq	1032(%rbx), %rcx
	movb	$1, %al
	cmpq	$1023, %rcx                     # imm = 0x3FF
	ja	.LBB11_589
.LBB11_112:                             # %"std_io::io::buffer::Buffer::push.exit.i825.3"
	movb	$107, 4(%rbx,%rcx)
	leaq	1(%rcx), %rdx
	movq	%rdx, 1032(%rbx)
	cmpq	$1023, %rcx                     # imm = 0x3FF
	jb	.LBB11_115
# %bb.113:                              # %join.3.i.i.i834.4
	xorps	%xmm0, %xmm0
	movaps	%xmm0, 80(%rsp)
	movaps	%xmm0, 64(%rsp)
	movaps	%xmm0, 48(%rsp)
	movaps	%xmm0, 32(%rsp)
	movaps	%xmm0, 16(%rsp)
	movaps	%xmm0, (%rsp)
	movq	$0, 1032(%rbx)
	movl	(%rbx), %esi
	movq	%rsp, %rdi
	movl	$1024, %ecx                     # imm = 0x400
	movq	%r14, %rdx
	callq	"std_io::io::write_to"
	cmpb	$0, (%rsp)
	jne	.LBB11_587
# %bb.114:                              # %after.1.i.i841.4
	movq	1032(%rbx), %rdx
	movb	$1, %al
	cmpq	$1023, %rdx                     # imm = 0x3FF
	ja	.LBB11_589
.LBB11_115:                             # %"std_io::io::buffer::Buffer::push.exit.i825.4"
	movb	$101, 4(%rbx,%rdx)
	leaq	1(%rdx), %rcx
	movq	%rcx, 1032(%rbx)
	cmpq	$1023, %rdx                     # imm = 0x3FF
	jb	.LBB11_118
# %bb.116:                              # %join.3.i.i.i834.5
	xorps	%xmm0, %xmm0
	movaps	%xmm0, 80(%rsp)
	movaps	%xmm0, 64(%rsp)
	movaps	%xmm0, 48(%rsp)
	movaps	%xmm0, 32(%rsp)
	movaps	%xmm0, 16(%rsp)
	movaps	%xmm0, (%rsp)
	movq	$0, 1032(%rbx)
	movl	(%rbx), %esi
	movq	%rsp, %rdi
	movl	$1024, %ecx                     # imm = 0x400
	movq	%r14, %rdx
	callq	"std_io::io::write_to"
	cmpb	$0, (%rsp)
	jne	.LBB11_587
# %bb.117:                              # %after.1.i.i841.5
	movq	1032(%rbx), %rcx
	movb	$1, %al
	cmpq	$1023, %rcx                     # imm = 0x3FF
	ja	.LBB11_589
.LBB11_118:                             # %"std_io::io::buffer::Buffer::push.exit.i825.5"
	movb	$110, 4(%rbx,%rcx)
	leaq	1(%rcx), %rdx
	movq	%rdx, 1032(%rbx)
	cmpq	$1023, %rcx                     # imm = 0x3FF
	jb	.LBB11_121
# %bb.119:                              # %join.3.i.i.i834.6
	xorps	%xmm0, %xmm0
	movaps	%xmm0, 80(%rsp)
	movaps	%xmm0, 64(%rsp)
	movaps	%xmm0, 48(%rsp)
	movaps	%xmm0, 32(%rsp)
	movaps	%xmm0, 16(%rsp)
	movaps	%xmm0, (%rsp)
	movq	$0, 1032(%rbx)
	movl	(%rbx), %esi
	movq	%rsp, %rdi
	movl	$1024, %ecx                     # imm = 0x400
	movq	%r14, %rdx
	callq	"std_io::io::write_to"
	cmpb	$0, (%rsp)
	jne	.LBB11_587
# %bb.120:                              # %after.1.i.i841.6
	movq	1032(%rbx), %rdx
	movb	$1, %al
	cmpq	$1023, %rdx                     # imm = 0x3FF
	ja	.LBB11_589
.LBB11_121:                             # %"std_io::io::buffer::Buffer::push.exit.i825.6"
	movb	$32, 4(%rbx,%rdx)
	leaq	1(%rdx), %rcx
	movq	%rcx, 1032(%rbx)
	cmpq	$1023, %rdx                     # imm = 0x3FF
	jb	.LBB11_124
# %bb.122:                              # %join.3.i.i.i834.7
	xorps	%xmm0, %xmm0
	movaps	%xmm0, 80(%rsp)
	movaps	%xmm0, 64(%rsp)
	movaps	%xmm0, 48(%rsp)
	movaps	%xmm0, 32(%rsp)
	movaps	%xmm0, 16(%rsp)
	movaps	%xmm0, (%rsp)
	movq	$0, 1032(%rbx)
	movl	(%rbx), %esi
	movq	%rsp, %rdi
	movl	$1024, %ecx                     # imm = 0x400
	movq	%r14, %rdx
	callq	"std_io::io::write_to"
	cmpb	$0, (%rsp)
	jne	.LBB11_587
# %bb.123:                              # %after.1.i.i841.7
	movq	1032(%rbx), %rcx
	movb	$1, %al
	cmpq	$1023, %rcx                     # imm = 0x3FF
	ja	.LBB11_589
.LBB11_124:                             # %"std_io::io::buffer::Buffer::push.exit.i825.7"
	movb	$112, 4(%rbx,%rcx)
	leaq	1(%rcx), %rdx
	movq	%rdx, 1032(%rbx)
	cmpq	$1023, %rcx                     # imm = 0x3FF
	jb	.LBB11_127
# %bb.125:                              # %join.3.i.i.i834.8
	xorps	%xmm0, %xmm0
	movaps	%xmm0, 80(%rsp)
	movaps	%xmm0, 64(%rsp)
	movaps	%xmm0, 48(%rsp)
	movaps	%xmm0, 32(%rsp)
	movaps	%xmm0, 16(%rsp)
	movaps	%xmm0, (%rsp)
	movq	$0, 1032(%rbx)
	movl	(%rbx), %esi
	movq	%rsp, %rdi
	movl	$1024, %ecx                     # imm = 0x400
	movq	%r14, %rdx
	callq	"std_io::io::write_to"
	cmpb	$0, (%rsp)
	jne	.LBB11_587
# %bb.126:                              # %after.1.i.i841.8
	movq	1032(%rbx), %rdx
	movb	$1, %al
	cmpq	$1023, %rdx                     # imm = 0x3FF
	ja	.LBB11_589
.LBB11_127:                             # %"std_io::io::buffer::Buffer::push.exit.i825.8"
	movb	$105, 4(%rbx,%rdx)
	leaq	1(%rdx), %rcx
	movq	%rcx, 1032(%rbx)
	cmpq	$1023, %rdx                     # imm = 0x3FF
	jb	.LBB11_130
# %bb.128:                              # %join.3.i.i.i834.9
	xorps	%xmm0, %xmm0
	movaps	%xmm0, 80(%rsp)
	movaps	%xmm0, 64(%rsp)
	movaps	%xmm0, 48(%rsp)
	movaps	%xmm0, 32(%rsp)
	movaps	%xmm0, 16(%rsp)
	movaps	%xmm0, (%rsp)
	movq	$0, 1032(%rbx)
	movl	(%rbx), %esi
	movq	%rsp, %rdi
	movl	$1024, %ecx                     # imm = 0x400
	movq	%r14, %rdx
	callq	"std_io::io::write_to"
	cmpb	$0, (%rsp)
	jne	.LBB11_587
# %bb.129:                              # %after.1.i.i841.9
	movq	1032(%rbx), %rcx
	movb	$1, %al
	cmpq	$1023, %rcx                     # imm = 0x3FF
	ja	.LBB11_589
.LBB11_130:                             # %"std_io::io::buffer::Buffer::push.exit.i825.9"
	movb	$112, 4(%rbx,%rcx)
	leaq	1(%rcx), %rdx
	movq	%rdx, 1032(%rbx)
	cmpq	$1023, %rcx                     # imm = 0x3FF
	jb	.LBB11_643
# %bb.131:                              # %join.3.i.i.i834.10
	xorps	%xmm0, %xmm0
	movaps	%xmm0, 80(%rsp)
	movaps	%xmm0, 64(%rsp)
	movaps	%xmm0, 48(%rsp)
	movaps	%xmm0, 32(%rsp)
	movaps	%xmm0, 16(%rsp)
	movaps	%xmm0, (%rsp)
	movq	$0, 1032(%rbx)
	movl	(%rbx), %esi
	movq	%rsp, %rdi
	movl	$1024, %ecx                     # imm = 0x400
	movq	%r14, %rdx
	callq	"std_io::io::write_to"
	cmpb	$0, (%rsp)
	jne	.LBB11_587
# %bb.642:                              # %after.1.i.i841.10
	movq	1032(%rbx), %rdx
	movb	$1, %al
	cmpq	$1023, %rdx                     # imm = 0x3FF
	ja	.LBB11_589
.LBB11_643:                             # %"std_io::io::buffer::Buffer::push.exit.i825.10"
	movb	$101, 4(%rbx,%rdx)
	jmp	.LBB11_648
.LBB11_133:                             # %arm.5
	testq	%rax, %rax
	jne	.LBB11_599
# %bb.134:                              # %then.1.i442
	leaq	4(%rbx), %r14
	movq	1032(%rbx), %rcx
	xorl	%r15d, %r15d
	jmp	.LBB11_136
	.p2align	4
.LBB11_135:                             # %"std_io::io::buffer::Buffer::push.exit.i601"
                                        #   in Loop: Header=BB11_136 Depth=1
	movb	%bpl, 4(%rbx,%rcx)
	incq	%rcx
	movq	%rcx, 1032(%rbx)
	incq	%r15
	xorl	%eax, %eax
	cmpq	$16, %r15
	je	.LBB11_589
.LBB11_136:                             # %arm.3.i593
                                        # =>This Inner Loop Header: Depth=1
	leaq	.Lstatic.20(%rip), %rax
	movzbl	(%r15,%rax), %ebp
	cmpq	$1024, %rcx                     # imm = 0x400
	jb	.LBB11_135
# %bb.137:                              # %then.2.i.i607
                                        #   in Loop: Header=BB11_136 Depth=1
	xorps	%xmm0, %xmm0
	movaps	%xmm0, 80(%rsp)
	movaps	%xmm0, 64(%rsp)
	movaps	%xmm0, 48(%rsp)
	movaps	%xmm0, 32(%rsp)
	movaps	%xmm0, 16(%rsp)
	movaps	%xmm0, (%rsp)
	movq	$0, 1032(%rbx)
	jne	.LBB11_588
# %bb.138:                              # %join.3.i.i.i610
                                        #   in Loop: Header=BB11_136 Depth=1
	movl	(%rbx), %esi
	movq	%rsp, %rdi
	movl	$1024, %ecx                     # imm = 0x400
	movq	%r14, %rdx
	callq	"std_io::io::write_to"
	cmpb	$0, (%rsp)
	jne	.LBB11_587
# %bb.139:                              # %after.1.i.i617
                                        #   in Loop: Header=BB11_136 Depth=1
	movq	1032(%rbx), %rcx
	cmpq	$1023, %rcx                     # imm = 0x3FF
	jbe	.LBB11_135
	jmp	.LBB11_588
.LBB11_140:                             # %arm.41
	testq	%rax, %rax
	jne	.LBB11_600
# %bb.141:                              # %then.1.i10
	leaq	4(%rbx), %r14
	movq	1032(%rbx), %rdx
	cmpq	$1024, %rdx                     # imm = 0x400
	jb	.LBB11_145
# %bb.142:                              # %then.2.i.i1759
	xorps	%xmm0, %xmm0
	movaps	%xmm0, 80(%rsp)
	movaps	%xmm0, 64(%rsp)
	movaps	%xmm0, 48(%rsp)
	movaps	%xmm0, 32(%rsp)
	movaps	%xmm0, 16(%rsp)
	movaps	%xmm0, (%rsp)
	movq	$0, 1032(%rbx)
	jne	.LBB11_588
# %bb.143:                              # %join.3.i.i.i1762
	movl	(%rbx), %esi
	movq	%rsp, %rdi
	movl	$1024, %ecx                     # imm = 0x400
	movq	%r14, %rdx
	callq	"std_io::io::write_to"
	cmpb	$0, (%rsp)
	jne	.LBB11_587
# %bb.144:                              # %after.1.i.i1769
	movq	1032(%rbx), %rdx
	movb	$1, %al
	cmpq	$1023, %rdx                     # imm = 0x3FF
	ja	.LBB11_589
.LBB11_145:                             # %"std_io::io::buffer::Buffer::push.exit.i1753"
	movb	$111, 4(%rbx,%rdx)
	leaq	1(%rdx), %rcx
	movq	%rcx, 1032(%rbx)
	cmpq	$1023, %rdx                     # imm = 0x3FF
	jne	.LBB11_148
# %bb.146:                              # %join.3.i.i.i1762.1
	xorps	%xmm0, %xmm0
	movaps	%xmm0, 80(%rsp)
	movaps	%xmm0, 64(%rsp)
	movaps	%xmm0, 48(%rsp)
	movaps	%xmm0, 32(%rsp)
	movaps	%xmm0, 16(%rsp)
	movaps	%xmm0, (%rsp)
	movq	$0, 1032(%rbx)
	movl	(%rbx), %esi
	movq	%rsp, %rdi
	movl	$1024, %ecx                     # imm = 0x400
	movq	%r14, %rdx
	callq	"std_io::io::write_to"
	cmpb	$0, (%rsp)
	jne	.LBB11_587
# %bb.147:                              # %after.1.i.i1769.1
	movq	1032(%rbx), %rcx
	movb	$1, %al
	cmpq	$1023, %rcx                     # imm = 0x3FF
	ja	.LBB11_589
.LBB11_148:                             # %"std_io::io::buffer::Buffer::push.exit.i1753.1"
	movb	$116, 4(%rbx,%rcx)
	leaq	1(%rcx), %rdx
	movq	%rdx, 1032(%rbx)
	cmpq	$1023, %rcx                     # imm = 0x3FF
	jb	.LBB11_151
# %bb.149:                              # %join.3.i.i.i1762.2
	xorps	%xmm0, %xmm0
	movaps	%xmm0, 80(%rsp)
	movaps	%xmm0, 64(%rsp)
	movaps	%xmm0, 48(%rsp)
	movaps	%xmm0, 32(%rsp)
	movaps	%xmm0, 16(%rsp)
	movaps	%xmm0, (%rsp)
	movq	$0, 1032(%rbx)
	movl	(%rbx), %esi
	movq	%rsp, %rdi
	movl	$1024, %ecx                     # imm = 0x400
	movq	%r14, %rdx
	callq	"std_io::io::write_to"
	cmpb	$0, (%rsp)
	jne	.LBB11_587
# %bb.150:                              # %after.1.i.i1769.2
	movq	1032(%rbx), %rdx
	movb	$1, %al
	cmpq	$1023, %rdx                     # imm = 0x3FF
	ja	.LBB11_589
.LBB11_151:                             # %"std_io::io::buffer::Buffer::push.exit.i1753.2"
	movb	$104, 4(%rbx,%rdx)
	leaq	1(%rdx), %rcx
	movq	%rcx, 1032(%rbx)
	cmpq	$1023, %rdx                     # imm = 0x3FF
	jb	.LBB11_154
# %bb.152:                              # %join.3.i.i.i1762.3
	xorps	%xmm0, %xmm0
	movaps	%xmm0, 80(%rsp)
	movaps	%xmm0, 64(%rsp)
	movaps	%xmm0, 48(%rsp)
	movaps	%xmm0, 32(%rsp)
	movaps	%xmm0, 16(%rsp)
	movaps	%xmm0, (%rsp)
	movq	$0, 1032(%rbx)
	movl	(%rbx), %esi
	movq	%rsp, %rdi
	movl	$1024, %ecx                     # imm = 0x400
	movq	%r14, %rdx
	callq	"std_io::io::write_to"
	cmpb	$0, (%rsp)
	jne	.LBB11_587
# %bb.153:                              # %after.1.i.i1769.3
	movq	1032(%rbx), %rcx
	movb	$1, %al
	cmpq	$1023, %rcx                     # imm = 0x3FF
	ja	.LBB11_589
.LBB11_154:                             # %"std_io::io::buffer::Buffer::push.exit.i1753.3"
	movb	$101, 4(%rbx,%rcx)
	leaq	1(%rcx), %rdx
	movq	%rdx, 1032(%rbx)
	cmpq	$1023, %rcx                     # imm = 0x3FF
	jb	.LBB11_157
# %bb.155:                              # %join.3.i.i.i1762.4
	xorps	%xmm0, %xmm0
	movaps	%xmm0, 80(%rsp)
	movaps	%xmm0, 64(%rsp)
	movaps	%xmm0, 48(%rsp)
	movaps	%xmm0, 32(%rsp)
	movaps	%xmm0, 16(%rsp)
	movaps	%xmm0, (%rsp)
	movq	$0, 1032(%rbx)
	movl	(%rbx), %esi
	movq	%rsp, %rdi
	movl	$1024, %ecx                     # imm = 0x400
	movq	%r14, %rdx
	callq	"std_io::io::write_to"
	cmpb	$0, (%rsp)
	jne	.LBB11_587
# %bb.156:                              # %after.1.i.i1769.4
	movq	1032(%rbx), %rdx
	movb	$1, %al
	cmpq	$1023, %rdx                     # imm = 0x3FF
	ja	.LBB11_589
.LBB11_157:                             # %"std_io::io::buffer::Buffer::push.exit.i1753.4"
	movb	$114, 4(%rbx,%rdx)
	leaq	1(%rdx), %rcx
	movq	%rcx, 1032(%rbx)
	cmpq	$1023, %rdx                     # imm = 0x3FF
	jb	.LBB11_160
# %bb.158:                              # %join.3.i.i.i1762.5
	xorps	%xmm0, %xmm0
	movaps	%xmm0, 80(%rsp)
	movaps	%xmm0, 64(%rsp)
	movaps	%xmm0, 48(%rsp)
	movaps	%xmm0, 32(%rsp)
	movaps	%xmm0, 16(%rsp)
	movaps	%xmm0, (%rsp)
	movq	$0, 1032(%rbx)
	movl	(%rbx), %esi
	movq	%rsp, %rdi
	movl	$1024, %ecx                     # imm = 0x400
	movq	%r14, %rdx
	callq	"std_io::io::write_to"
	cmpb	$0, (%rsp)
	jne	.LBB11_587
# %bb.159:                              # %after.1.i.i1769.5
	movq	1032(%rbx), %rcx
	movb	$1, %al
	cmpq	$1023, %rcx                     # imm = 0x3FF
	ja	.LBB11_589
.LBB11_160:                             # %"std_io::io::buffer::Buffer::push.exit.i1753.5"
	movb	$32, 4(%rbx,%rcx)
	leaq	1(%rcx), %rdx
	movq	%rdx, 1032(%rbx)
	cmpq	$1023, %rcx                     # imm = 0x3FF
	jb	.LBB11_163
# %bb.161:                              # %join.3.i.i.i1762.6
	xorps	%xmm0, %xmm0
	movaps	%xmm0, 80(%rsp)
	movaps	%xmm0, 64(%rsp)
	movaps	%xmm0, 48(%rsp)
	movaps	%xmm0, 32(%rsp)
	movaps	%xmm0, 16(%rsp)
	movaps	%xmm0, (%rsp)
	movq	$0, 1032(%rbx)
	movl	(%rbx), %esi
	movq	%rsp, %rdi
	movl	$1024, %ecx                     # imm = 0x400
	movq	%r14, %rdx
	callq	"std_io::io::write_to"
	cmpb	$0, (%rsp)
	jne	.LBB11_587
# %bb.162:                              # %after.1.i.i1769.6
	movq	1032(%rbx), %rdx
	movb	$1, %al
	cmpq	$1023, %rdx                     # imm = 0x3FF
	ja	.LBB11_589
.LBB11_163:                             # %"std_io::io::buffer::Buffer::push.exit.i1753.6"
	movb	$101, 4(%rbx,%rdx)
	leaq	1(%rdx), %rcx
	movq	%rcx, 1032(%rbx)
	cmpq	$1023, %rdx                     # imm = 0x3FF
	jb	.LBB11_166
# %bb.164:                              # %join.3.i.i.i1762.7
	xorps	%xmm0, %xmm0
	movaps	%xmm0, 80(%rsp)
	movaps	%xmm0, 64(%rsp)
	movaps	%xmm0, 48(%rsp)
	movaps	%xmm0, 32(%rsp)
	movaps	%xmm0, 16(%rsp)
	movaps	%xmm0, (%rsp)
	movq	$0, 1032(%rbx)
	movl	(%rbx), %esi
	movq	%rsp, %rdi
	movl	$1024, %ecx                     # imm = 0x400
	movq	%r14, %rdx
	callq	"std_io::io::write_to"
	cmpb	$0, (%rsp)
	jne	.LBB11_587
# %bb.165:                              # %after.1.i.i1769.7
	movq	1032(%rbx), %rcx
	movb	$1, %al
	cmpq	$1023, %rcx                     # imm = 0x3FF
	ja	.LBB11_589
.LBB11_166:                             # %"std_io::io::buffer::Buffer::push.exit.i1753.7"
	movb	$114, 4(%rbx,%rcx)
	leaq	1(%rcx), %rdx
	movq	%rdx, 1032(%rbx)
	cmpq	$1023, %rcx                     # imm = 0x3FF
	jb	.LBB11_169
# %bb.167:                              # %join.3.i.i.i1762.8
	xorps	%xmm0, %xmm0
	movaps	%xmm0, 80(%rsp)
	movaps	%xmm0, 64(%rsp)
	movaps	%xmm0, 48(%rsp)
	movaps	%xmm0, 32(%rsp)
	movaps	%xmm0, 16(%rsp)
	movaps	%xmm0, (%rsp)
	movq	$0, 1032(%rbx)
	movl	(%rbx), %esi
	movq	%rsp, %rdi
	movl	$1024, %ecx                     # imm = 0x400
	movq	%r14, %rdx
	callq	"std_io::io::write_to"
	cmpb	$0, (%rsp)
	jne	.LBB11_587
# %bb.168:                              # %after.1.i.i1769.8
	movq	1032(%rbx), %rdx
	movb	$1, %al
	cmpq	$1023, %rdx                     # imm = 0x3FF
	ja	.LBB11_589
.LBB11_169:                             # %"std_io::io::buffer::Buffer::push.exit.i1753.8"
	movb	$114, 4(%rbx,%rdx)
	leaq	1(%rdx), %rcx
	movq	%rcx, 1032(%rbx)
	cmpq	$1023, %rdx                     # imm = 0x3FF
	jb	.LBB11_172
# %bb.170:                              # %join.3.i.i.i1762.9
	xorps	%xmm0, %xmm0
	movaps	%xmm0, 80(%rsp)
	movaps	%xmm0, 64(%rsp)
	movaps	%xmm0, 48(%rsp)
	movaps	%xmm0, 32(%rsp)
	movaps	%xmm0, 16(%rsp)
	movaps	%xmm0, (%rsp)
	movq	$0, 1032(%rbx)
	movl	(%rbx), %esi
	movq	%rsp, %rdi
	movl	$1024, %ecx                     # imm = 0x400
	movq	%r14, %rdx
	callq	"std_io::io::write_to"
	cmpb	$0, (%rsp)
	jne	.LBB11_587
# %bb.171:                              # %after.1.i.i1769.9
	movq	1032(%rbx), %rcx
	movb	$1, %al
	cmpq	$1023, %rcx                     # imm = 0x3FF
	ja	.LBB11_589
.LBB11_172:                             # %"std_io::io::buffer::Buffer::push.exit.i1753.9"
	movb	$111, 4(%rbx,%rcx)
	leaq	1(%rcx), %rdx
	movq	%rdx, 1032(%rbx)
	cmpq	$1023, %rcx                     # imm = 0x3FF
	jb	.LBB11_645
# %bb.173:                              # %join.3.i.i.i1762.10
	xorps	%xmm0, %xmm0
	movaps	%xmm0, 80(%rsp)
	movaps	%xmm0, 64(%rsp)
	movaps	%xmm0, 48(%rsp)
	movaps	%xmm0, 32(%rsp)
	movaps	%xmm0, 16(%rsp)
	movaps	%xmm0, (%rsp)
	movq	$0, 1032(%rbx)
	movl	(%rbx), %esi
	movq	%rsp, %rdi
	movl	$1024, %ecx                     # imm = 0x400
	movq	%r14, %rdx
	callq	"std_io::io::write_to"
	cmpb	$0, (%rsp)
	jne	.LBB11_587
# %bb.644:                              # %after.1.i.i1769.10
	movq	1032(%rbx), %rdx
	movb	$1, %al
	cmpq	$1023, %rdx                     # imm = 0x3FF
	ja	.LBB11_589
.LBB11_645:                             # %"std_io::io::buffer::Buffer::push.exit.i1753.10"
	movb	$114, 4(%rbx,%rdx)
	jmp	.LBB11_648
.LBB11_175:                             # %arm.13
	testq	%rax, %rax
	jne	.LBB11_601
# %bb.176:                              # %then.1.i346
	leaq	4(%rbx), %r14
	movq	1032(%rbx), %rcx
	xorl	%r15d, %r15d
	jmp	.LBB11_178
	.p2align	4
.LBB11_177:                             # %"std_io::io::buffer::Buffer::push.exit.i857"
                                        #   in Loop: Header=BB11_178 Depth=1
	movb	%bpl, 4(%rbx,%rcx)
	incq	%rcx
	movq	%rcx, 1032(%rbx)
	incq	%r15
	xorl	%eax, %eax
	cmpq	$21, %r15
	je	.LBB11_589
.LBB11_178:                             # %arm.3.i849
                                        # =>This Inner Loop Header: Depth=1
	leaq	.Lstatic.28(%rip), %rax
	movzbl	(%r15,%rax), %ebp
	cmpq	$1024, %rcx                     # imm = 0x400
	jb	.LBB11_177
# %bb.179:                              # %then.2.i.i863
                                        #   in Loop: Header=BB11_178 Depth=1
	xorps	%xmm0, %xmm0
	movaps	%xmm0, 80(%rsp)
	movaps	%xmm0, 64(%rsp)
	movaps	%xmm0, 48(%rsp)
	movaps	%xmm0, 32(%rsp)
	movaps	%xmm0, 16(%rsp)
	movaps	%xmm0, (%rsp)
	movq	$0, 1032(%rbx)
	jne	.LBB11_588
# %bb.180:                              # %join.3.i.i.i866
                                        #   in Loop: Header=BB11_178 Depth=1
	movl	(%rbx), %esi
	movq	%rsp, %rdi
	movl	$1024, %ecx                     # imm = 0x400
	movq	%r14, %rdx
	callq	"std_io::io::write_to"
	cmpb	$0, (%rsp)
	jne	.LBB11_587
# %bb.181:                              # %after.1.i.i873
                                        #   in Loop: Header=BB11_178 Depth=1
	movq	1032(%rbx), %rcx
	cmpq	$1023, %rcx                     # imm = 0x3FF
	jbe	.LBB11_177
	jmp	.LBB11_588
.LBB11_182:                             # %arm.10
	testq	%rax, %rax
	jne	.LBB11_602
# %bb.183:                              # %then.1.i382
	leaq	4(%rbx), %r14
	movq	1032(%rbx), %rcx
	xorl	%r15d, %r15d
	jmp	.LBB11_185
	.p2align	4
.LBB11_184:                             # %"std_io::io::buffer::Buffer::push.exit.i761"
                                        #   in Loop: Header=BB11_185 Depth=1
	movb	%bpl, 4(%rbx,%rcx)
	incq	%rcx
	movq	%rcx, 1032(%rbx)
	incq	%r15
	xorl	%eax, %eax
	cmpq	$21, %r15
	je	.LBB11_589
.LBB11_185:                             # %arm.3.i753
                                        # =>This Inner Loop Header: Depth=1
	leaq	.Lstatic.25(%rip), %rax
	movzbl	(%r15,%rax), %ebp
	cmpq	$1024, %rcx                     # imm = 0x400
	jb	.LBB11_184
# %bb.186:                              # %then.2.i.i767
                                        #   in Loop: Header=BB11_185 Depth=1
	xorps	%xmm0, %xmm0
	movaps	%xmm0, 80(%rsp)
	movaps	%xmm0, 64(%rsp)
	movaps	%xmm0, 48(%rsp)
	movaps	%xmm0, 32(%rsp)
	movaps	%xmm0, 16(%rsp)
	movaps	%xmm0, (%rsp)
	movq	$0, 1032(%rbx)
	jne	.LBB11_588
# %bb.187:                              # %join.3.i.i.i770
                                        #   in Loop: Header=BB11_185 Depth=1
	movl	(%rbx), %esi
	movq	%rsp, %rdi
	movl	$1024, %ecx                     # imm = 0x400
	movq	%r14, %rdx
	callq	"std_io::io::write_to"
	cmpb	$0, (%rsp)
	jne	.LBB11_587
# %bb.188:                              # %after.1.i.i777
                                        #   in Loop: Header=BB11_185 Depth=1
	movq	1032(%rbx), %rcx
	cmpq	$1023, %rcx                     # imm = 0x3FF
	jbe	.LBB11_184
	jmp	.LBB11_588
.LBB11_189:                             # %arm.26
	testq	%rax, %rax
	jne	.LBB11_603
# %bb.190:                              # %then.1.i190
	leaq	4(%rbx), %r14
	movq	1032(%rbx), %rcx
	xorl	%r15d, %r15d
	jmp	.LBB11_192
	.p2align	4
.LBB11_191:                             # %"std_io::io::buffer::Buffer::push.exit.i1273"
                                        #   in Loop: Header=BB11_192 Depth=1
	movb	%bpl, 4(%rbx,%rcx)
	incq	%rcx
	movq	%rcx, 1032(%rbx)
	incq	%r15
	xorl	%eax, %eax
	cmpq	$23, %r15
	je	.LBB11_589
.LBB11_192:                             # %arm.3.i1265
                                        # =>This Inner Loop Header: Depth=1
	leaq	.Lstatic.41(%rip), %rax
	movzbl	(%r15,%rax), %ebp
	cmpq	$1024, %rcx                     # imm = 0x400
	jb	.LBB11_191
# %bb.193:                              # %then.2.i.i1279
                                        #   in Loop: Header=BB11_192 Depth=1
	xorps	%xmm0, %xmm0
	movaps	%xmm0, 80(%rsp)
	movaps	%xmm0, 64(%rsp)
	movaps	%xmm0, 48(%rsp)
	movaps	%xmm0, 32(%rsp)
	movaps	%xmm0, 16(%rsp)
	movaps	%xmm0, (%rsp)
	movq	$0, 1032(%rbx)
	jne	.LBB11_588
# %bb.194:                              # %join.3.i.i.i1282
                                        #   in Loop: Header=BB11_192 Depth=1
	movl	(%rbx), %esi
	movq	%rsp, %rdi
	movl	$1024, %ecx                     # imm = 0x400
	movq	%r14, %rdx
	callq	"std_io::io::write_to"
	cmpb	$0, (%rsp)
	jne	.LBB11_587
# %bb.195:                              # %after.1.i.i1289
                                        #   in Loop: Header=BB11_192 Depth=1
	movq	1032(%rbx), %rcx
	cmpq	$1023, %rcx                     # imm = 0x3FF
	jbe	.LBB11_191
	jmp	.LBB11_15
.LBB11_197:                             # %arm.25
	testq	%rax, %rax
	jne	.LBB11_604
# %bb.198:                              # %then.1.i202
	leaq	4(%rbx), %r14
	movq	1032(%rbx), %rcx
	xorl	%r15d, %r15d
	jmp	.LBB11_200
	.p2align	4
.LBB11_199:                             # %"std_io::io::buffer::Buffer::push.exit.i1241"
                                        #   in Loop: Header=BB11_200 Depth=1
	movb	%bpl, 4(%rbx,%rcx)
	incq	%rcx
	movq	%rcx, 1032(%rbx)
	incq	%r15
	xorl	%eax, %eax
	cmpq	$16, %r15
	je	.LBB11_589
.LBB11_200:                             # %arm.3.i1233
                                        # =>This Inner Loop Header: Depth=1
	leaq	.Lstatic.40(%rip), %rax
	movzbl	(%r15,%rax), %ebp
	cmpq	$1024, %rcx                     # imm = 0x400
	jb	.LBB11_199
# %bb.201:                              # %then.2.i.i1247
                                        #   in Loop: Header=BB11_200 Depth=1
	xorps	%xmm0, %xmm0
	movaps	%xmm0, 80(%rsp)
	movaps	%xmm0, 64(%rsp)
	movaps	%xmm0, 48(%rsp)
	movaps	%xmm0, 32(%rsp)
	movaps	%xmm0, 16(%rsp)
	movaps	%xmm0, (%rsp)
	movq	$0, 1032(%rbx)
	jne	.LBB11_588
# %bb.202:                              # %join.3.i.i.i1250
                                        #   in Loop: Header=BB11_200 Depth=1
	movl	(%rbx), %esi
	movq	%rsp, %rdi
	movl	$1024, %ecx                     # imm = 0x400
	movq	%r14, %rdx
	callq	"std_io::io::write_to"
	cmpb	$0, (%rsp)
	jne	.LBB11_587
# %bb.203:                              # %after.1.i.i1257
                                        #   in Loop: Header=BB11_200 Depth=1
	movq	1032(%rbx), %rcx
	cmpq	$1023, %rcx                     # imm = 0x3FF
	jbe	.LBB11_199
	jmp	.LBB11_15
.LBB11_205:                             # %arm.3
	testq	%rax, %rax
	jne	.LBB11_605
# %bb.206:                              # %then.1.i466
	leaq	4(%rbx), %r14
	movq	1032(%rbx), %rcx
	xorl	%r15d, %r15d
	jmp	.LBB11_208
	.p2align	4
.LBB11_207:                             # %"std_io::io::buffer::Buffer::push.exit.i537"
                                        #   in Loop: Header=BB11_208 Depth=1
	movb	%bpl, 4(%rbx,%rcx)
	incq	%rcx
	movq	%rcx, 1032(%rbx)
	incq	%r15
	xorl	%eax, %eax
	cmpq	$18, %r15
	je	.LBB11_589
.LBB11_208:                             # %arm.3.i529
                                        # =>This Inner Loop Header: Depth=1
	leaq	.Lstatic.18(%rip), %rax
	movzbl	(%r15,%rax), %ebp
	cmpq	$1024, %rcx                     # imm = 0x400
	jb	.LBB11_207
# %bb.209:                              # %then.2.i.i543
                                        #   in Loop: Header=BB11_208 Depth=1
	xorps	%xmm0, %xmm0
	movaps	%xmm0, 80(%rsp)
	movaps	%xmm0, 64(%rsp)
	movaps	%xmm0, 48(%rsp)
	movaps	%xmm0, 32(%rsp)
	movaps	%xmm0, 16(%rsp)
	movaps	%xmm0, (%rsp)
	movq	$0, 1032(%rbx)
	jne	.LBB11_588
# %bb.210:                              # %join.3.i.i.i546
                                        #   in Loop: Header=BB11_208 Depth=1
	movl	(%rbx), %esi
	movq	%rsp, %rdi
	movl	$1024, %ecx                     # imm = 0x400
	movq	%r14, %rdx
	callq	"std_io::io::write_to"
	cmpb	$0, (%rsp)
	jne	.LBB11_587
# %bb.211:                              # %after.1.i.i553
                                        #   in Loop: Header=BB11_208 Depth=1
	movq	1032(%rbx), %rcx
	cmpq	$1023, %rcx                     # imm = 0x3FF
	jbe	.LBB11_207
	jmp	.LBB11_588
.LBB11_212:                             # %arm.16
	testq	%rax, %rax
	jne	.LBB11_606
# %bb.213:                              # %then.1.i310
	leaq	4(%rbx), %r14
	movq	1032(%rbx), %rcx
	xorl	%r15d, %r15d
	jmp	.LBB11_215
	.p2align	4
.LBB11_214:                             # %"std_io::io::buffer::Buffer::push.exit.i953"
                                        #   in Loop: Header=BB11_215 Depth=1
	movb	%bpl, 4(%rbx,%rcx)
	incq	%rcx
	movq	%rcx, 1032(%rbx)
	incq	%r15
	xorl	%eax, %eax
	cmpq	$14, %r15
	je	.LBB11_589
.LBB11_215:                             # %arm.3.i945
                                        # =>This Inner Loop Header: Depth=1
	leaq	.Lstatic.31(%rip), %rax
	movzbl	(%r15,%rax), %ebp
	cmpq	$1024, %rcx                     # imm = 0x400
	jb	.LBB11_214
# %bb.216:                              # %then.2.i.i959
                                        #   in Loop: Header=BB11_215 Depth=1
	xorps	%xmm0, %xmm0
	movaps	%xmm0, 80(%rsp)
	movaps	%xmm0, 64(%rsp)
	movaps	%xmm0, 48(%rsp)
	movaps	%xmm0, 32(%rsp)
	movaps	%xmm0, 16(%rsp)
	movaps	%xmm0, (%rsp)
	movq	$0, 1032(%rbx)
	jne	.LBB11_588
# %bb.217:                              # %join.3.i.i.i962
                                        #   in Loop: Header=BB11_215 Depth=1
	movl	(%rbx), %esi
	movq	%rsp, %rdi
	movl	$1024, %ecx                     # imm = 0x400
	movq	%r14, %rdx
	callq	"std_io::io::write_to"
	cmpb	$0, (%rsp)
	jne	.LBB11_587
# %bb.218:                              # %after.1.i.i969
                                        #   in Loop: Header=BB11_215 Depth=1
	movq	1032(%rbx), %rcx
	cmpq	$1023, %rcx                     # imm = 0x3FF
	jbe	.LBB11_214
	jmp	.LBB11_15
.LBB11_220:                             # %arm.4
	testq	%rax, %rax
	jne	.LBB11_607
# %bb.221:                              # %then.1.i454
	leaq	4(%rbx), %r14
	movq	1032(%rbx), %rcx
	xorl	%r15d, %r15d
	jmp	.LBB11_223
	.p2align	4
.LBB11_222:                             # %"std_io::io::buffer::Buffer::push.exit.i569"
                                        #   in Loop: Header=BB11_223 Depth=1
	movb	%bpl, 4(%rbx,%rcx)
	incq	%rcx
	movq	%rcx, 1032(%rbx)
	incq	%r15
	xorl	%eax, %eax
	cmpq	$16, %r15
	je	.LBB11_589
.LBB11_223:                             # %arm.3.i561
                                        # =>This Inner Loop Header: Depth=1
	leaq	.Lstatic.19(%rip), %rax
	movzbl	(%r15,%rax), %ebp
	cmpq	$1024, %rcx                     # imm = 0x400
	jb	.LBB11_222
# %bb.224:                              # %then.2.i.i575
                                        #   in Loop: Header=BB11_223 Depth=1
	xorps	%xmm0, %xmm0
	movaps	%xmm0, 80(%rsp)
	movaps	%xmm0, 64(%rsp)
	movaps	%xmm0, 48(%rsp)
	movaps	%xmm0, 32(%rsp)
	movaps	%xmm0, 16(%rsp)
	movaps	%xmm0, (%rsp)
	movq	$0, 1032(%rbx)
	jne	.LBB11_588
# %bb.225:                              # %join.3.i.i.i578
                                        #   in Loop: Header=BB11_223 Depth=1
	movl	(%rbx), %esi
	movq	%rsp, %rdi
	movl	$1024, %ecx                     # imm = 0x400
	movq	%r14, %rdx
	callq	"std_io::io::write_to"
	cmpb	$0, (%rsp)
	jne	.LBB11_587
# %bb.226:                              # %after.1.i.i585
                                        #   in Loop: Header=BB11_223 Depth=1
	movq	1032(%rbx), %rcx
	cmpq	$1023, %rcx                     # imm = 0x3FF
	jbe	.LBB11_222
	jmp	.LBB11_588
.LBB11_227:                             # %arm.8
	testq	%rax, %rax
	jne	.LBB11_608
# %bb.228:                              # %then.1.i406
	leaq	4(%rbx), %r14
	movq	1032(%rbx), %rcx
	xorl	%r15d, %r15d
	jmp	.LBB11_230
	.p2align	4
.LBB11_229:                             # %"std_io::io::buffer::Buffer::push.exit.i697"
                                        #   in Loop: Header=BB11_230 Depth=1
	movb	%bpl, 4(%rbx,%rcx)
	incq	%rcx
	movq	%rcx, 1032(%rbx)
	incq	%r15
	xorl	%eax, %eax
	cmpq	$13, %r15
	je	.LBB11_589
.LBB11_230:                             # %arm.3.i689
                                        # =>This Inner Loop Header: Depth=1
	leaq	.Lstatic.23(%rip), %rax
	movzbl	(%r15,%rax), %ebp
	cmpq	$1024, %rcx                     # imm = 0x400
	jb	.LBB11_229
# %bb.231:                              # %then.2.i.i703
                                        #   in Loop: Header=BB11_230 Depth=1
	xorps	%xmm0, %xmm0
	movaps	%xmm0, 80(%rsp)
	movaps	%xmm0, 64(%rsp)
	movaps	%xmm0, 48(%rsp)
	movaps	%xmm0, 32(%rsp)
	movaps	%xmm0, 16(%rsp)
	movaps	%xmm0, (%rsp)
	movq	$0, 1032(%rbx)
	jne	.LBB11_588
# %bb.232:                              # %join.3.i.i.i706
                                        #   in Loop: Header=BB11_230 Depth=1
	movl	(%rbx), %esi
	movq	%rsp, %rdi
	movl	$1024, %ecx                     # imm = 0x400
	movq	%r14, %rdx
	callq	"std_io::io::write_to"
	cmpb	$0, (%rsp)
	jne	.LBB11_587
# %bb.233:                              # %after.1.i.i713
                                        #   in Loop: Header=BB11_230 Depth=1
	movq	1032(%rbx), %rcx
	cmpq	$1023, %rcx                     # imm = 0x3FF
	jbe	.LBB11_229
	jmp	.LBB11_588
.LBB11_234:                             # %arm.2
	testq	%rax, %rax
	jne	.LBB11_612
# %bb.235:                              # %then.1.i478
	leaq	4(%rbx), %r14
	movq	1032(%rbx), %rcx
	xorl	%r15d, %r15d
	jmp	.LBB11_237
	.p2align	4
.LBB11_236:                             # %"std_io::io::buffer::Buffer::push.exit.i505"
                                        #   in Loop: Header=BB11_237 Depth=1
	movb	%bpl, 4(%rbx,%rcx)
	incq	%rcx
	movq	%rcx, 1032(%rbx)
	incq	%r15
	xorl	%eax, %eax
	cmpq	$17, %r15
	je	.LBB11_589
.LBB11_237:                             # %arm.3.i497
                                        # =>This Inner Loop Header: Depth=1
	leaq	.Lstatic.17(%rip), %rax
	movzbl	(%r15,%rax), %ebp
	cmpq	$1024, %rcx                     # imm = 0x400
	jb	.LBB11_236
# %bb.238:                              # %then.2.i.i511
                                        #   in Loop: Header=BB11_237 Depth=1
	xorps	%xmm0, %xmm0
	movaps	%xmm0, 80(%rsp)
	movaps	%xmm0, 64(%rsp)
	movaps	%xmm0, 48(%rsp)
	movaps	%xmm0, 32(%rsp)
	movaps	%xmm0, 16(%rsp)
	movaps	%xmm0, (%rsp)
	movq	$0, 1032(%rbx)
	jne	.LBB11_588
# %bb.239:                              # %join.3.i.i.i514
                                        #   in Loop: Header=BB11_237 Depth=1
	movl	(%rbx), %esi
	movq	%rsp, %rdi
	movl	$1024, %ecx                     # imm = 0x400
	movq	%r14, %rdx
	callq	"std_io::io::write_to"
	cmpb	$0, (%rsp)
	jne	.LBB11_587
# %bb.240:                              # %after.1.i.i521
                                        #   in Loop: Header=BB11_237 Depth=1
	movq	1032(%rbx), %rcx
	cmpq	$1023, %rcx                     # imm = 0x3FF
	jbe	.LBB11_236
	jmp	.LBB11_588
.LBB11_241:                             # %arm.32
	testq	%rax, %rax
	jne	.LBB11_613
# %bb.242:                              # %then.1.i118
	leaq	4(%rbx), %r14
	movq	1032(%rbx), %rcx
	xorl	%r15d, %r15d
	jmp	.LBB11_244
	.p2align	4
.LBB11_243:                             # %"std_io::io::buffer::Buffer::push.exit.i1465"
                                        #   in Loop: Header=BB11_244 Depth=1
	movb	%bpl, 4(%rbx,%rcx)
	incq	%rcx
	movq	%rcx, 1032(%rbx)
	incq	%r15
	xorl	%eax, %eax
	cmpq	$27, %r15
	je	.LBB11_589
.LBB11_244:                             # %arm.3.i1457
                                        # =>This Inner Loop Header: Depth=1
	leaq	.Lstatic.47(%rip), %rax
	movzbl	(%r15,%rax), %ebp
	cmpq	$1024, %rcx                     # imm = 0x400
	jb	.LBB11_243
# %bb.245:                              # %then.2.i.i1471
                                        #   in Loop: Header=BB11_244 Depth=1
	xorps	%xmm0, %xmm0
	movaps	%xmm0, 80(%rsp)
	movaps	%xmm0, 64(%rsp)
	movaps	%xmm0, 48(%rsp)
	movaps	%xmm0, 32(%rsp)
	movaps	%xmm0, 16(%rsp)
	movaps	%xmm0, (%rsp)
	movq	$0, 1032(%rbx)
	jne	.LBB11_588
# %bb.246:                              # %join.3.i.i.i1474
                                        #   in Loop: Header=BB11_244 Depth=1
	movl	(%rbx), %esi
	movq	%rsp, %rdi
	movl	$1024, %ecx                     # imm = 0x400
	movq	%r14, %rdx
	callq	"std_io::io::write_to"
	cmpb	$0, (%rsp)
	jne	.LBB11_587
# %bb.247:                              # %after.1.i.i1481
                                        #   in Loop: Header=BB11_244 Depth=1
	movq	1032(%rbx), %rcx
	cmpq	$1023, %rcx                     # imm = 0x3FF
	jbe	.LBB11_243
	jmp	.LBB11_15
.LBB11_249:                             # %arm.18
	testq	%rax, %rax
	jne	.LBB11_614
# %bb.250:                              # %then.1.i286
	leaq	4(%rbx), %r14
	movq	1032(%rbx), %rcx
	xorl	%r15d, %r15d
	jmp	.LBB11_252
	.p2align	4
.LBB11_251:                             # %"std_io::io::buffer::Buffer::push.exit.i1017"
                                        #   in Loop: Header=BB11_252 Depth=1
	movb	%bpl, 4(%rbx,%rcx)
	incq	%rcx
	movq	%rcx, 1032(%rbx)
	incq	%r15
	xorl	%eax, %eax
	cmpq	$38, %r15
	je	.LBB11_589
.LBB11_252:                             # %arm.3.i1009
                                        # =>This Inner Loop Header: Depth=1
	leaq	.Lstatic.33(%rip), %rax
	movzbl	(%r15,%rax), %ebp
	cmpq	$1024, %rcx                     # imm = 0x400
	jb	.LBB11_251
# %bb.253:                              # %then.2.i.i1023
                                        #   in Loop: Header=BB11_252 Depth=1
	xorps	%xmm0, %xmm0
	movaps	%xmm0, 80(%rsp)
	movaps	%xmm0, 64(%rsp)
	movaps	%xmm0, 48(%rsp)
	movaps	%xmm0, 32(%rsp)
	movaps	%xmm0, 16(%rsp)
	movaps	%xmm0, (%rsp)
	movq	$0, 1032(%rbx)
	jne	.LBB11_588
# %bb.254:                              # %join.3.i.i.i1026
                                        #   in Loop: Header=BB11_252 Depth=1
	movl	(%rbx), %esi
	movq	%rsp, %rdi
	movl	$1024, %ecx                     # imm = 0x400
	movq	%r14, %rdx
	callq	"std_io::io::write_to"
	cmpb	$0, (%rsp)
	jne	.LBB11_587
# %bb.255:                              # %after.1.i.i1033
                                        #   in Loop: Header=BB11_252 Depth=1
	movq	1032(%rbx), %rcx
	cmpq	$1023, %rcx                     # imm = 0x3FF
	jbe	.LBB11_251
	jmp	.LBB11_15
.LBB11_257:                             # %arm.42
	testq	%rax, %rax
	jne	.LBB11_615
# %bb.258:                              # %then.1.i
	leaq	4(%rbx), %r14
	movq	1032(%rbx), %rcx
	xorl	%r15d, %r15d
	jmp	.LBB11_260
	.p2align	4
.LBB11_259:                             # %"std_io::io::buffer::Buffer::push.exit.i1785"
                                        #   in Loop: Header=BB11_260 Depth=1
	movb	%bpl, 4(%rbx,%rcx)
	incq	%rcx
	movq	%rcx, 1032(%rbx)
	incq	%r15
	xorl	%eax, %eax
	cmpq	$19, %r15
	je	.LBB11_589
.LBB11_260:                             # %arm.3.i1777
                                        # =>This Inner Loop Header: Depth=1
	leaq	.Lstatic.57(%rip), %rax
	movzbl	(%r15,%rax), %ebp
	cmpq	$1024, %rcx                     # imm = 0x400
	jb	.LBB11_259
# %bb.261:                              # %then.2.i.i1791
                                        #   in Loop: Header=BB11_260 Depth=1
	xorps	%xmm0, %xmm0
	movaps	%xmm0, 80(%rsp)
	movaps	%xmm0, 64(%rsp)
	movaps	%xmm0, 48(%rsp)
	movaps	%xmm0, 32(%rsp)
	movaps	%xmm0, 16(%rsp)
	movaps	%xmm0, (%rsp)
	movq	$0, 1032(%rbx)
	jne	.LBB11_588
# %bb.262:                              # %join.3.i.i.i1794
                                        #   in Loop: Header=BB11_260 Depth=1
	movl	(%rbx), %esi
	movq	%rsp, %rdi
	movl	$1024, %ecx                     # imm = 0x400
	movq	%r14, %rdx
	callq	"std_io::io::write_to"
	cmpb	$0, (%rsp)
	jne	.LBB11_587
# %bb.263:                              # %after.1.i.i1801
                                        #   in Loop: Header=BB11_260 Depth=1
	movq	1032(%rbx), %rcx
	cmpq	$1023, %rcx                     # imm = 0x3FF
	jbe	.LBB11_259
	jmp	.LBB11_15
.LBB11_265:                             # %arm.21
	testq	%rax, %rax
	jne	.LBB11_616
# %bb.266:                              # %then.1.i250
	leaq	4(%rbx), %r14
	movq	1032(%rbx), %rcx
	xorl	%r15d, %r15d
	jmp	.LBB11_268
	.p2align	4
.LBB11_267:                             # %"std_io::io::buffer::Buffer::push.exit.i1113"
                                        #   in Loop: Header=BB11_268 Depth=1
	movb	%bpl, 4(%rbx,%rcx)
	incq	%rcx
	movq	%rcx, 1032(%rbx)
	incq	%r15
	xorl	%eax, %eax
	cmpq	$23, %r15
	je	.LBB11_589
.LBB11_268:                             # %arm.3.i1105
                                        # =>This Inner Loop Header: Depth=1
	leaq	.Lstatic.36(%rip), %rax
	movzbl	(%r15,%rax), %ebp
	cmpq	$1024, %rcx                     # imm = 0x400
	jb	.LBB11_267
# %bb.269:                              # %then.2.i.i1119
                                        #   in Loop: Header=BB11_268 Depth=1
	xorps	%xmm0, %xmm0
	movaps	%xmm0, 80(%rsp)
	movaps	%xmm0, 64(%rsp)
	movaps	%xmm0, 48(%rsp)
	movaps	%xmm0, 32(%rsp)
	movaps	%xmm0, 16(%rsp)
	movaps	%xmm0, (%rsp)
	movq	$0, 1032(%rbx)
	jne	.LBB11_588
# %bb.270:                              # %join.3.i.i.i1122
                                        #   in Loop: Header=BB11_268 Depth=1
	movl	(%rbx), %esi
	movq	%rsp, %rdi
	movl	$1024, %ecx                     # imm = 0x400
	movq	%r14, %rdx
	callq	"std_io::io::write_to"
	cmpb	$0, (%rsp)
	jne	.LBB11_587
# %bb.271:                              # %after.1.i.i1129
                                        #   in Loop: Header=BB11_268 Depth=1
	movq	1032(%rbx), %rcx
	cmpq	$1023, %rcx                     # imm = 0x3FF
	jbe	.LBB11_267
	jmp	.LBB11_15
.LBB11_273:                             # %arm.6
	testq	%rax, %rax
	jne	.LBB11_617
# %bb.274:                              # %then.1.i430
	leaq	4(%rbx), %r14
	movq	1032(%rbx), %rcx
	xorl	%r15d, %r15d
	jmp	.LBB11_276
	.p2align	4
.LBB11_275:                             # %"std_io::io::buffer::Buffer::push.exit.i633"
                                        #   in Loop: Header=BB11_276 Depth=1
	movb	%bpl, 4(%rbx,%rcx)
	incq	%rcx
	movq	%rcx, 1032(%rbx)
	incq	%r15
	xorl	%eax, %eax
	cmpq	$19, %r15
	je	.LBB11_589
.LBB11_276:                             # %arm.3.i625
                                        # =>This Inner Loop Header: Depth=1
	leaq	.Lstatic.21(%rip), %rax
	movzbl	(%r15,%rax), %ebp
	cmpq	$1024, %rcx                     # imm = 0x400
	jb	.LBB11_275
# %bb.277:                              # %then.2.i.i639
                                        #   in Loop: Header=BB11_276 Depth=1
	xorps	%xmm0, %xmm0
	movaps	%xmm0, 80(%rsp)
	movaps	%xmm0, 64(%rsp)
	movaps	%xmm0, 48(%rsp)
	movaps	%xmm0, 32(%rsp)
	movaps	%xmm0, 16(%rsp)
	movaps	%xmm0, (%rsp)
	movq	$0, 1032(%rbx)
	jne	.LBB11_588
# %bb.278:                              # %join.3.i.i.i642
                                        #   in Loop: Header=BB11_276 Depth=1
	movl	(%rbx), %esi
	movq	%rsp, %rdi
	movl	$1024, %ecx                     # imm = 0x400
	movq	%r14, %rdx
	callq	"std_io::io::write_to"
	cmpb	$0, (%rsp)
	jne	.LBB11_587
# %bb.279:                              # %after.1.i.i649
                                        #   in Loop: Header=BB11_276 Depth=1
	movq	1032(%rbx), %rcx
	cmpq	$1023, %rcx                     # imm = 0x3FF
	jbe	.LBB11_275
	jmp	.LBB11_588
.LBB11_280:                             # %arm.22
	testq	%rax, %rax
	jne	.LBB11_618
# %bb.281:                              # %then.1.i238
	leaq	4(%rbx), %r14
	movq	1032(%rbx), %rdx
	cmpq	$1024, %rdx                     # imm = 0x400
	jb	.LBB11_285
# %bb.282:                              # %then.2.i.i1151
	xorps	%xmm0, %xmm0
	movaps	%xmm0, 80(%rsp)
	movaps	%xmm0, 64(%rsp)
	movaps	%xmm0, 48(%rsp)
	movaps	%xmm0, 32(%rsp)
	movaps	%xmm0, 16(%rsp)
	movaps	%xmm0, (%rsp)
	movq	$0, 1032(%rbx)
	jne	.LBB11_588
# %bb.283:                              # %join.3.i.i.i1154
	movl	(%rbx), %esi
	movq	%rsp, %rdi
	movl	$1024, %ecx                     # imm = 0x400
	movq	%r14, %rdx
	callq	"std_io::io::write_to"
	cmpb	$0, (%rsp)
	jne	.LBB11_587
# %bb.284:                              # %after.1.i.i1161
	movq	1032(%rbx), %rdx
	movb	$1, %al
	cmpq	$1023, %rdx                     # imm = 0x3FF
	ja	.LBB11_589
.LBB11_285:                             # %"std_io::io::buffer::Buffer::push.exit.i1145"
	movb	$105, 4(%rbx,%rdx)
	leaq	1(%rdx), %rcx
	movq	%rcx, 1032(%rbx)
	cmpq	$1023, %rdx                     # imm = 0x3FF
	jne	.LBB11_288
# %bb.286:                              # %join.3.i.i.i1154.1
	xorps	%xmm0, %xmm0
	movaps	%xmm0, 80(%rsp)
	movaps	%xmm0, 64(%rsp)
	movaps	%xmm0, 48(%rsp)
	movaps	%xmm0, 32(%rsp)
	movaps	%xmm0, 16(%rsp)
	movaps	%xmm0, (%rsp)
	movq	$0, 1032(%rbx)
	movl	(%rbx), %esi
	movq	%rsp, %rdi
	movl	$1024, %ecx                     # imm = 0x400
	movq	%r14, %rdx
	callq	"std_io::io::write_to"
	cmpb	$0, (%rsp)
	jne	.LBB11_587
# %bb.287:                              # %after.1.i.i1161.1
	movq	1032(%rbx), %rcx
	movb	$1, %al
	cmpq	$1023, %rcx                     # imm = 0x3FF
	ja	.LBB11_589
.LBB11_288:                             # %"std_io::io::buffer::Buffer::push.exit.i1145.1"
	movb	$110, 4(%rbx,%rcx)
	leaq	1(%rcx), %rdx
	movq	%rdx, 1032(%rbx)
	cmpq	$1023, %rcx                     # imm = 0x3FF
	jb	.LBB11_291
# %bb.289:                              # %join.3.i.i.i1154.2
	xorps	%xmm0, %xmm0
	movaps	%xmm0, 80(%rsp)
	movaps	%xmm0, 64(%rsp)
	movaps	%xmm0, 48(%rsp)
	movaps	%xmm0, 32(%rsp)
	movaps	%xmm0, 16(%rsp)
	movaps	%xmm0, (%rsp)
	movq	$0, 1032(%rbx)
	movl	(%rbx), %esi
	movq	%rsp, %rdi
	movl	$1024, %ecx                     # imm = 0x400
	movq	%r14, %rdx
	callq	"std_io::io::write_to"
	cmpb	$0, (%rsp)
	jne	.LBB11_587
# %bb.290:                              # %after.1.i.i1161.2
	movq	1032(%rbx), %rdx
	movb	$1, %al
	cmpq	$1023, %rdx                     # imm = 0x3FF
	ja	.LBB11_589
.LBB11_291:                             # %"std_io::io::buffer::Buffer::push.exit.i1145.2"
	movb	$118, 4(%rbx,%rdx)
	leaq	1(%rdx), %rcx
	movq	%rcx, 1032(%rbx)
	cmpq	$1023, %rdx                     # imm = 0x3FF
	jb	.LBB11_294
# %bb.292:                              # %join.3.i.i.i1154.3
	xorps	%xmm0, %xmm0
	movaps	%xmm0, 80(%rsp)
	movaps	%xmm0, 64(%rsp)
	movaps	%xmm0, 48(%rsp)
	movaps	%xmm0, 32(%rsp)
	movaps	%xmm0, 16(%rsp)
	movaps	%xmm0, (%rsp)
	movq	$0, 1032(%rbx)
	movl	(%rbx), %esi
	movq	%rsp, %rdi
	movl	$1024, %ecx                     # imm = 0x400
	movq	%r14, %rdx
	callq	"std_io::io::write_to"
	cmpb	$0, (%rsp)
	jne	.LBB11_587
# %bb.293:                              # %after.1.i.i1161.3
	movq	1032(%rbx), %rcx
	movb	$1, %al
	cmpq	$1023, %rcx                     # imm = 0x3FF
	ja	.LBB11_589
.LBB11_294:                             # %"std_io::io::buffer::Buffer::push.exit.i1145.3"
	movb	$97, 4(%rbx,%rcx)
	leaq	1(%rcx), %rdx
	movq	%rdx, 1032(%rbx)
	cmpq	$1023, %rcx                     # imm = 0x3FF
	jb	.LBB11_297
# %bb.295:                              # %join.3.i.i.i1154.4
	xorps	%xmm0, %xmm0
	movaps	%xmm0, 80(%rsp)
	movaps	%xmm0, 64(%rsp)
	movaps	%xmm0, 48(%rsp)
	movaps	%xmm0, 32(%rsp)
	movaps	%xmm0, 16(%rsp)
	movaps	%xmm0, (%rsp)
	movq	$0, 1032(%rbx)
	movl	(%rbx), %esi
	movq	%rsp, %rdi
	movl	$1024, %ecx                     # imm = 0x400
	movq	%r14, %rdx
	callq	"std_io::io::write_to"
	cmpb	$0, (%rsp)
	jne	.LBB11_587
# %bb.296:                              # %after.1.i.i1161.4
	movq	1032(%rbx), %rdx
	movb	$1, %al
	cmpq	$1023, %rdx                     # imm = 0x3FF
	ja	.LBB11_589
.LBB11_297:                             # %"std_io::io::buffer::Buffer::push.exit.i1145.4"
	movb	$108, 4(%rbx,%rdx)
	leaq	1(%rdx), %rcx
	movq	%rcx, 1032(%rbx)
	cmpq	$1023, %rdx                     # imm = 0x3FF
	jb	.LBB11_300
# %bb.298:                              # %join.3.i.i.i1154.5
	xorps	%xmm0, %xmm0
	movaps	%xmm0, 80(%rsp)
	movaps	%xmm0, 64(%rsp)
	movaps	%xmm0, 48(%rsp)
	movaps	%xmm0, 32(%rsp)
	movaps	%xmm0, 16(%rsp)
	movaps	%xmm0, (%rsp)
	movq	$0, 1032(%rbx)
	movl	(%rbx), %esi
	movq	%rsp, %rdi
	movl	$1024, %ecx                     # imm = 0x400
	movq	%r14, %rdx
	callq	"std_io::io::write_to"
	cmpb	$0, (%rsp)
	jne	.LBB11_587
# %bb.299:                              # %after.1.i.i1161.5
	movq	1032(%rbx), %rcx
	movb	$1, %al
	cmpq	$1023, %rcx                     # imm = 0x3FF
	ja	.LBB11_589
.LBB11_300:                             # %"std_io::io::buffer::Buffer::push.exit.i1145.5"
	movb	$105, 4(%rbx,%rcx)
	leaq	1(%rcx), %rdx
	movq	%rdx, 1032(%rbx)
	cmpq	$1023, %rcx                     # imm = 0x3FF
	jb	.LBB11_303
# %bb.301:                              # %join.3.i.i.i1154.6
	xorps	%xmm0, %xmm0
	movaps	%xmm0, 80(%rsp)
	movaps	%xmm0, 64(%rsp)
	movaps	%xmm0, 48(%rsp)
	movaps	%xmm0, 32(%rsp)
	movaps	%xmm0, 16(%rsp)
	movaps	%xmm0, (%rsp)
	movq	$0, 1032(%rbx)
	movl	(%rbx), %esi
	movq	%rsp, %rdi
	movl	$1024, %ecx                     # imm = 0x400
	movq	%r14, %rdx
	callq	"std_io::io::write_to"
	cmpb	$0, (%rsp)
	jne	.LBB11_587
# %bb.302:                              # %after.1.i.i1161.6
	movq	1032(%rbx), %rdx
	movb	$1, %al
	cmpq	$1023, %rdx                     # imm = 0x3FF
	ja	.LBB11_589
.LBB11_303:                             # %"std_io::io::buffer::Buffer::push.exit.i1145.6"
	movb	$100, 4(%rbx,%rdx)
	leaq	1(%rdx), %rcx
	movq	%rcx, 1032(%rbx)
	cmpq	$1023, %rdx                     # imm = 0x3FF
	jb	.LBB11_306
# %bb.304:                              # %join.3.i.i.i1154.7
	xorps	%xmm0, %xmm0
	movaps	%xmm0, 80(%rsp)
	movaps	%xmm0, 64(%rsp)
	movaps	%xmm0, 48(%rsp)
	movaps	%xmm0, 32(%rsp)
	movaps	%xmm0, 16(%rsp)
	movaps	%xmm0, (%rsp)
	movq	$0, 1032(%rbx)
	movl	(%rbx), %esi
	movq	%rsp, %rdi
	movl	$1024, %ecx                     # imm = 0x400
	movq	%r14, %rdx
	callq	"std_io::io::write_to"
	cmpb	$0, (%rsp)
	jne	.LBB11_587
# %bb.305:                              # %after.1.i.i1161.7
	movq	1032(%rbx), %rcx
	movb	$1, %al
	cmpq	$1023, %rcx                     # imm = 0x3FF
	ja	.LBB11_589
.LBB11_306:                             # %"std_io::io::buffer::Buffer::push.exit.i1145.7"
	movb	$32, 4(%rbx,%rcx)
	leaq	1(%rcx), %rdx
	movq	%rdx, 1032(%rbx)
	cmpq	$1023, %rcx                     # imm = 0x3FF
	jb	.LBB11_309
# %bb.307:                              # %join.3.i.i.i1154.8
	xorps	%xmm0, %xmm0
	movaps	%xmm0, 80(%rsp)
	movaps	%xmm0, 64(%rsp)
	movaps	%xmm0, 48(%rsp)
	movaps	%xmm0, 32(%rsp)
	movaps	%xmm0, 16(%rsp)
	movaps	%xmm0, (%rsp)
	movq	$0, 1032(%rbx)
	movl	(%rbx), %esi
	movq	%rsp, %rdi
	movl	$1024, %ecx                     # imm = 0x400
	movq	%r14, %rdx
	callq	"std_io::io::write_to"
	cmpb	$0, (%rsp)
	jne	.LBB11_587
# %bb.308:                              # %after.1.i.i1161.8
	movq	1032(%rbx), %rdx
	movb	$1, %al
	cmpq	$1023, %rdx                     # imm = 0x3FF
	ja	.LBB11_589
.LBB11_309:                             # %"std_io::io::buffer::Buffer::push.exit.i1145.8"
	movb	$100, 4(%rbx,%rdx)
	leaq	1(%rdx), %rcx
	movq	%rcx, 1032(%rbx)
	cmpq	$1023, %rdx                     # imm = 0x3FF
	jb	.LBB11_312
# %bb.310:                              # %join.3.i.i.i1154.9
	xorps	%xmm0, %xmm0
	movaps	%xmm0, 80(%rsp)
	movaps	%xmm0, 64(%rsp)
	movaps	%xmm0, 48(%rsp)
	movaps	%xmm0, 32(%rsp)
	movaps	%xmm0, 16(%rsp)
	movaps	%xmm0, (%rsp)
	movq	$0, 1032(%rbx)
	movl	(%rbx), %esi
	movq	%rsp, %rdi
	movl	$1024, %ecx                     # imm = 0x400
	movq	%r14, %rdx
	callq	"std_io::io::write_to"
	cmpb	$0, (%rsp)
	jne	.LBB11_587
# %bb.311:                              # %after.1.i.i1161.9
	movq	1032(%rbx), %rcx
	movb	$1, %al
	cmpq	$1023, %rcx                     # imm = 0x3FF
	ja	.LBB11_589
.LBB11_312:                             # %"std_io::io::buffer::Buffer::push.exit.i1145.9"
	movb	$97, 4(%rbx,%rcx)
	leaq	1(%rcx), %rdx
	movq	%rdx, 1032(%rbx)
	cmpq	$1023, %rcx                     # imm = 0x3FF
	jb	.LBB11_315
# %bb.313:                              # %join.3.i.i.i1154.10
	xorps	%xmm0, %xmm0
	movaps	%xmm0, 80(%rsp)
	movaps	%xmm0, 64(%rsp)
	movaps	%xmm0, 48(%rsp)
	movaps	%xmm0, 32(%rsp)
	movaps	%xmm0, 16(%rsp)
	movaps	%xmm0, (%rsp)
	movq	$0, 1032(%rbx)
	movl	(%rbx), %esi
	movq	%rsp, %rdi
	movl	$1024, %ecx                     # imm = 0x400
	movq	%r14, %rdx
	callq	"std_io::io::write_to"
	cmpb	$0, (%rsp)
	jne	.LBB11_587
# %bb.314:                              # %after.1.i.i1161.10
	movq	1032(%rbx), %rdx
	movb	$1, %al
	cmpq	$1023, %rdx                     # imm = 0x3FF
	ja	.LBB11_589
.LBB11_315:                             # %"std_io::io::buffer::Buffer::push.exit.i1145.10"
	movb	$116, 4(%rbx,%rdx)
	leaq	1(%rdx), %rcx
	movq	%rcx, 1032(%rbx)
	cmpq	$1023, %rdx                     # imm = 0x3FF
	jb	.LBB11_650
# %bb.316:                              # %join.3.i.i.i1154.11
	xorps	%xmm0, %xmm0
	movaps	%xmm0, 80(%rsp)
	movaps	%xmm0, 64(%rsp)
	movaps	%xmm0, 48(%rsp)
	movaps	%xmm0, 32(%rsp)
	movaps	%xmm0, 16(%rsp)
	movaps	%xmm0, (%rsp)
	movq	$0, 1032(%rbx)
	movl	(%rbx), %esi
	movq	%rsp, %rdi
	movl	$1024, %ecx                     # imm = 0x400
	movq	%r14, %rdx
	callq	"std_io::io::write_to"
	cmpb	$0, (%rsp)
	jne	.LBB11_587
# %bb.649:                              # %after.1.i.i1161.11
	movq	1032(%rbx), %rcx
	movb	$1, %al
	cmpq	$1023, %rcx                     # imm = 0x3FF
	ja	.LBB11_589
.LBB11_650:                             # %"std_io::io::buffer::Buffer::push.exit.i1145.11"
	movb	$97, 4(%rbx,%rcx)
	jmp	.LBB11_653
.LBB11_318:                             # %arm.14
	testq	%rax, %rax
	jne	.LBB11_619
# %bb.319:                              # %then.1.i334
	leaq	4(%rbx), %r14
	movq	1032(%rbx), %rcx
	xorl	%r15d, %r15d
	jmp	.LBB11_321
	.p2align	4
.LBB11_320:                             # %"std_io::io::buffer::Buffer::push.exit.i889"
                                        #   in Loop: Header=BB11_321 Depth=1
	movb	%bpl, 4(%rbx,%rcx)
	incq	%rcx
	movq	%rcx, 1032(%rbx)
	incq	%r15
	xorl	%eax, %eax
	cmpq	$21, %r15
	je	.LBB11_589
.LBB11_321:                             # %arm.3.i881
                                        # =>This Inner Loop Header: Depth=1
	leaq	.Lstatic.29(%rip), %rax
	movzbl	(%r15,%rax), %ebp
	cmpq	$1024, %rcx                     # imm = 0x400
	jb	.LBB11_320
# %bb.322:                              # %then.2.i.i895
                                        #   in Loop: Header=BB11_321 Depth=1
	xorps	%xmm0, %xmm0
	movaps	%xmm0, 80(%rsp)
	movaps	%xmm0, 64(%rsp)
	movaps	%xmm0, 48(%rsp)
	movaps	%xmm0, 32(%rsp)
	movaps	%xmm0, 16(%rsp)
	movaps	%xmm0, (%rsp)
	movq	$0, 1032(%rbx)
	jne	.LBB11_588
# %bb.323:                              # %join.3.i.i.i898
                                        #   in Loop: Header=BB11_321 Depth=1
	movl	(%rbx), %esi
	movq	%rsp, %rdi
	movl	$1024, %ecx                     # imm = 0x400
	movq	%r14, %rdx
	callq	"std_io::io::write_to"
	cmpb	$0, (%rsp)
	jne	.LBB11_587
# %bb.324:                              # %after.1.i.i905
                                        #   in Loop: Header=BB11_321 Depth=1
	movq	1032(%rbx), %rcx
	cmpq	$1023, %rcx                     # imm = 0x3FF
	jbe	.LBB11_320
	jmp	.LBB11_588
.LBB11_325:                             # %arm.7
	testq	%rax, %rax
	jne	.LBB11_620
# %bb.326:                              # %then.1.i418
	leaq	4(%rbx), %r14
	movq	1032(%rbx), %rcx
	xorl	%r15d, %r15d
	jmp	.LBB11_328
	.p2align	4
.LBB11_327:                             # %"std_io::io::buffer::Buffer::push.exit.i665"
                                        #   in Loop: Header=BB11_328 Depth=1
	movb	%bpl, 4(%rbx,%rcx)
	incq	%rcx
	movq	%rcx, 1032(%rbx)
	incq	%r15
	xorl	%eax, %eax
	cmpq	$18, %r15
	je	.LBB11_589
.LBB11_328:                             # %arm.3.i657
                                        # =>This Inner Loop Header: Depth=1
	leaq	.Lstatic.22(%rip), %rax
	movzbl	(%r15,%rax), %ebp
	cmpq	$1024, %rcx                     # imm = 0x400
	jb	.LBB11_327
# %bb.329:                              # %then.2.i.i671
                                        #   in Loop: Header=BB11_328 Depth=1
	xorps	%xmm0, %xmm0
	movaps	%xmm0, 80(%rsp)
	movaps	%xmm0, 64(%rsp)
	movaps	%xmm0, 48(%rsp)
	movaps	%xmm0, 32(%rsp)
	movaps	%xmm0, 16(%rsp)
	movaps	%xmm0, (%rsp)
	movq	$0, 1032(%rbx)
	jne	.LBB11_588
# %bb.330:                              # %join.3.i.i.i674
                                        #   in Loop: Header=BB11_328 Depth=1
	movl	(%rbx), %esi
	movq	%rsp, %rdi
	movl	$1024, %ecx                     # imm = 0x400
	movq	%r14, %rdx
	callq	"std_io::io::write_to"
	cmpb	$0, (%rsp)
	jne	.LBB11_587
# %bb.331:                              # %after.1.i.i681
                                        #   in Loop: Header=BB11_328 Depth=1
	movq	1032(%rbx), %rcx
	cmpq	$1023, %rcx                     # imm = 0x3FF
	jbe	.LBB11_327
	jmp	.LBB11_588
.LBB11_332:                             # %arm.19
	testq	%rax, %rax
	jne	.LBB11_621
# %bb.333:                              # %then.1.i274
	leaq	4(%rbx), %r14
	movq	1032(%rbx), %rcx
	xorl	%r15d, %r15d
	jmp	.LBB11_335
	.p2align	4
.LBB11_334:                             # %"std_io::io::buffer::Buffer::push.exit.i1049"
                                        #   in Loop: Header=BB11_335 Depth=1
	movb	%bpl, 4(%rbx,%rcx)
	incq	%rcx
	movq	%rcx, 1032(%rbx)
	incq	%r15
	xorl	%eax, %eax
	cmpq	$56, %r15
	je	.LBB11_589
.LBB11_335:                             # %arm.3.i1041
                                        # =>This Inner Loop Header: Depth=1
	leaq	.Lstatic.34(%rip), %rax
	movzbl	(%r15,%rax), %ebp
	cmpq	$1024, %rcx                     # imm = 0x400
	jb	.LBB11_334
# %bb.336:                              # %then.2.i.i1055
                                        #   in Loop: Header=BB11_335 Depth=1
	xorps	%xmm0, %xmm0
	movaps	%xmm0, 80(%rsp)
	movaps	%xmm0, 64(%rsp)
	movaps	%xmm0, 48(%rsp)
	movaps	%xmm0, 32(%rsp)
	movaps	%xmm0, 16(%rsp)
	movaps	%xmm0, (%rsp)
	movq	$0, 1032(%rbx)
	jne	.LBB11_588
# %bb.337:                              # %join.3.i.i.i1058
                                        #   in Loop: Header=BB11_335 Depth=1
	movl	(%rbx), %esi
	movq	%rsp, %rdi
	movl	$1024, %ecx                     # imm = 0x400
	movq	%r14, %rdx
	callq	"std_io::io::write_to"
	cmpb	$0, (%rsp)
	jne	.LBB11_587
# %bb.338:                              # %after.1.i.i1065
                                        #   in Loop: Header=BB11_335 Depth=1
	movq	1032(%rbx), %rcx
	cmpq	$1023, %rcx                     # imm = 0x3FF
	jbe	.LBB11_334
	jmp	.LBB11_15
.LBB11_340:                             # %arm.11
	testq	%rax, %rax
	jne	.LBB11_622
# %bb.341:                              # %then.1.i370
	leaq	4(%rbx), %r14
	movq	1032(%rbx), %rdx
	cmpq	$1024, %rdx                     # imm = 0x400
	jb	.LBB11_345
# %bb.342:                              # %then.2.i.i799
	xorps	%xmm0, %xmm0
	movaps	%xmm0, 80(%rsp)
	movaps	%xmm0, 64(%rsp)
	movaps	%xmm0, 48(%rsp)
	movaps	%xmm0, 32(%rsp)
	movaps	%xmm0, 16(%rsp)
	movaps	%xmm0, (%rsp)
	movq	$0, 1032(%rbx)
	jne	.LBB11_588
# %bb.343:                              # %join.3.i.i.i802
	movl	(%rbx), %esi
	movq	%rsp, %rdi
	movl	$1024, %ecx                     # imm = 0x400
	movq	%r14, %rdx
	callq	"std_io::io::write_to"
	cmpb	$0, (%rsp)
	jne	.LBB11_587
# %bb.344:                              # %after.1.i.i809
	movq	1032(%rbx), %rdx
	movb	$1, %al
	cmpq	$1023, %rdx                     # imm = 0x3FF
	ja	.LBB11_589
.LBB11_345:                             # %"std_io::io::buffer::Buffer::push.exit.i793"
	movb	$110, 4(%rbx,%rdx)
	leaq	1(%rdx), %rcx
	movq	%rcx, 1032(%rbx)
	cmpq	$1023, %rdx                     # imm = 0x3FF
	jne	.LBB11_348
# %bb.346:                              # %join.3.i.i.i802.1
	xorps	%xmm0, %xmm0
	movaps	%xmm0, 80(%rsp)
	movaps	%xmm0, 64(%rsp)
	movaps	%xmm0, 48(%rsp)
	movaps	%xmm0, 32(%rsp)
	movaps	%xmm0, 16(%rsp)
	movaps	%xmm0, (%rsp)
	movq	$0, 1032(%rbx)
	movl	(%rbx), %esi
	movq	%rsp, %rdi
	movl	$1024, %ecx                     # imm = 0x400
	movq	%r14, %rdx
	callq	"std_io::io::write_to"
	cmpb	$0, (%rsp)
	jne	.LBB11_587
# %bb.347:                              # %after.1.i.i809.1
	movq	1032(%rbx), %rcx
	movb	$1, %al
	cmpq	$1023, %rcx                     # imm = 0x3FF
	ja	.LBB11_589
.LBB11_348:                             # %"std_io::io::buffer::Buffer::push.exit.i793.1"
	movb	$101, 4(%rbx,%rcx)
	leaq	1(%rcx), %rdx
	movq	%rdx, 1032(%rbx)
	cmpq	$1023, %rcx                     # imm = 0x3FF
	jb	.LBB11_351
# %bb.349:                              # %join.3.i.i.i802.2
	xorps	%xmm0, %xmm0
	movaps	%xmm0, 80(%rsp)
	movaps	%xmm0, 64(%rsp)
	movaps	%xmm0, 48(%rsp)
	movaps	%xmm0, 32(%rsp)
	movaps	%xmm0, 16(%rsp)
	movaps	%xmm0, (%rsp)
	movq	$0, 1032(%rbx)
	movl	(%rbx), %esi
	movq	%rsp, %rdi
	movl	$1024, %ecx                     # imm = 0x400
	movq	%r14, %rdx
	callq	"std_io::io::write_to"
	cmpb	$0, (%rsp)
	jne	.LBB11_587
# %bb.350:                              # %after.1.i.i809.2
	movq	1032(%rbx), %rdx
	movb	$1, %al
	cmpq	$1023, %rdx                     # imm = 0x3FF
	ja	.LBB11_589
.LBB11_351:                             # %"std_io::io::buffer::Buffer::push.exit.i793.2"
	movb	$116, 4(%rbx,%rdx)
	leaq	1(%rdx), %rcx
	movq	%rcx, 1032(%rbx)
	cmpq	$1023, %rdx                     # imm = 0x3FF
	jb	.LBB11_354
# %bb.352:                              # %join.3.i.i.i802.3
	xorps	%xmm0, %xmm0
	movaps	%xmm0, 80(%rsp)
	movaps	%xmm0, 64(%rsp)
	movaps	%xmm0, 48(%rsp)
	movaps	%xmm0, 32(%rsp)
	movaps	%xmm0, 16(%rsp)
	movaps	%xmm0, (%rsp)
	movq	$0, 1032(%rbx)
	movl	(%rbx), %esi
	movq	%rsp, %rdi
	movl	$1024, %ecx                     # imm = 0x400
	movq	%r14, %rdx
	callq	"std_io::io::write_to"
	cmpb	$0, (%rsp)
	jne	.LBB11_587
# %bb.353:                              # %after.1.i.i809.3
	movq	1032(%rbx), %rcx
	movb	$1, %al
	cmpq	$1023, %rcx                     # imm = 0x3FF
	ja	.LBB11_589
.LBB11_354:                             # %"std_io::io::buffer::Buffer::push.exit.i793.3"
	movb	$119, 4(%rbx,%rcx)
	leaq	1(%rcx), %rdx
	movq	%rdx, 1032(%rbx)
	cmpq	$1023, %rcx                     # imm = 0x3FF
	jb	.LBB11_357
# %bb.355:                              # %join.3.i.i.i802.4
	xorps	%xmm0, %xmm0
	movaps	%xmm0, 80(%rsp)
	movaps	%xmm0, 64(%rsp)
	movaps	%xmm0, 48(%rsp)
	movaps	%xmm0, 32(%rsp)
	movaps	%xmm0, 16(%rsp)
	movaps	%xmm0, (%rsp)
	movq	$0, 1032(%rbx)
	movl	(%rbx), %esi
	movq	%rsp, %rdi
	movl	$1024, %ecx                     # imm = 0x400
	movq	%r14, %rdx
	callq	"std_io::io::write_to"
	cmpb	$0, (%rsp)
	jne	.LBB11_587
# %bb.356:                              # %after.1.i.i809.4
	movq	1032(%rbx), %rdx
	movb	$1, %al
	cmpq	$1023, %rdx                     # imm = 0x3FF
	ja	.LBB11_589
.LBB11_357:                             # %"std_io::io::buffer::Buffer::push.exit.i793.4"
	movb	$111, 4(%rbx,%rdx)
	leaq	1(%rdx), %rcx
	movq	%rcx, 1032(%rbx)
	cmpq	$1023, %rdx                     # imm = 0x3FF
	jb	.LBB11_360
# %bb.358:                              # %join.3.i.i.i802.5
	xorps	%xmm0, %xmm0
	movaps	%xmm0, 80(%rsp)
	movaps	%xmm0, 64(%rsp)
	movaps	%xmm0, 48(%rsp)
	movaps	%xmm0, 32(%rsp)
	movaps	%xmm0, 16(%rsp)
	movaps	%xmm0, (%rsp)
	movq	$0, 1032(%rbx)
	movl	(%rbx), %esi
	movq	%rsp, %rdi
	movl	$1024, %ecx                     # imm = 0x400
	movq	%r14, %rdx
	callq	"std_io::io::write_to"
	cmpb	$0, (%rsp)
	jne	.LBB11_587
# %bb.359:                              # %after.1.i.i809.5
	movq	1032(%rbx), %rcx
	movb	$1, %al
	cmpq	$1023, %rcx                     # imm = 0x3FF
	ja	.LBB11_589
.LBB11_360:                             # %"std_io::io::buffer::Buffer::push.exit.i793.5"
	movb	$114, 4(%rbx,%rcx)
	leaq	1(%rcx), %rdx
	movq	%rdx, 1032(%rbx)
	cmpq	$1023, %rcx                     # imm = 0x3FF
	jb	.LBB11_363
# %bb.361:                              # %join.3.i.i.i802.6
	xorps	%xmm0, %xmm0
	movaps	%xmm0, 80(%rsp)
	movaps	%xmm0, 64(%rsp)
	movaps	%xmm0, 48(%rsp)
	movaps	%xmm0, 32(%rsp)
	movaps	%xmm0, 16(%rsp)
	movaps	%xmm0, (%rsp)
	movq	$0, 1032(%rbx)
	movl	(%rbx), %esi
	movq	%rsp, %rdi
	movl	$1024, %ecx                     # imm = 0x400
	movq	%r14, %rdx
	callq	"std_io::io::write_to"
	cmpb	$0, (%rsp)
	jne	.LBB11_587
# %bb.362:                              # %after.1.i.i809.6
	movq	1032(%rbx), %rdx
	movb	$1, %al
	cmpq	$1023, %rdx                     # imm = 0x3FF
	ja	.LBB11_589
.LBB11_363:                             # %"std_io::io::buffer::Buffer::push.exit.i793.6"
	movb	$107, 4(%rbx,%rdx)
	leaq	1(%rdx), %rcx
	movq	%rcx, 1032(%rbx)
	cmpq	$1023, %rdx                     # imm = 0x3FF
	jb	.LBB11_366
# %bb.364:                              # %join.3.i.i.i802.7
	xorps	%xmm0, %xmm0
	movaps	%xmm0, 80(%rsp)
	movaps	%xmm0, 64(%rsp)
	movaps	%xmm0, 48(%rsp)
	movaps	%xmm0, 32(%rsp)
	movaps	%xmm0, 16(%rsp)
	movaps	%xmm0, (%rsp)
	movq	$0, 1032(%rbx)
	movl	(%rbx), %esi
	movq	%rsp, %rdi
	movl	$1024, %ecx                     # imm = 0x400
	movq	%r14, %rdx
	callq	"std_io::io::write_to"
	cmpb	$0, (%rsp)
	jne	.LBB11_587
# %bb.365:                              # %after.1.i.i809.7
	movq	1032(%rbx), %rcx
	movb	$1, %al
	cmpq	$1023, %rcx                     # imm = 0x3FF
	ja	.LBB11_589
.LBB11_366:                             # %"std_io::io::buffer::Buffer::push.exit.i793.7"
	movb	$32, 4(%rbx,%rcx)
	leaq	1(%rcx), %rdx
	movq	%rdx, 1032(%rbx)
	cmpq	$1023, %rcx                     # imm = 0x3FF
	jb	.LBB11_369
# %bb.367:                              # %join.3.i.i.i802.8
	xorps	%xmm0, %xmm0
	movaps	%xmm0, 80(%rsp)
	movaps	%xmm0, 64(%rsp)
	movaps	%xmm0, 48(%rsp)
	movaps	%xmm0, 32(%rsp)
	movaps	%xmm0, 16(%rsp)
	movaps	%xmm0, (%rsp)
	movq	$0, 1032(%rbx)
	movl	(%rbx), %esi
	movq	%rsp, %rdi
	movl	$1024, %ecx                     # imm = 0x400
	movq	%r14, %rdx
	callq	"std_io::io::write_to"
	cmpb	$0, (%rsp)
	jne	.LBB11_587
# %bb.368:                              # %after.1.i.i809.8
	movq	1032(%rbx), %rdx
	movb	$1, %al
	cmpq	$1023, %rdx                     # imm = 0x3FF
	ja	.LBB11_589
.LBB11_369:                             # %"std_io::io::buffer::Buffer::push.exit.i793.8"
	movb	$100, 4(%rbx,%rdx)
	leaq	1(%rdx), %rcx
	movq	%rcx, 1032(%rbx)
	cmpq	$1023, %rdx                     # imm = 0x3FF
	jb	.LBB11_372
# %bb.370:                              # %join.3.i.i.i802.9
	xorps	%xmm0, %xmm0
	movaps	%xmm0, 80(%rsp)
	movaps	%xmm0, 64(%rsp)
	movaps	%xmm0, 48(%rsp)
	movaps	%xmm0, 32(%rsp)
	movaps	%xmm0, 16(%rsp)
	movaps	%xmm0, (%rsp)
	movq	$0, 1032(%rbx)
	movl	(%rbx), %esi
	movq	%rsp, %rdi
	movl	$1024, %ecx                     # imm = 0x400
	movq	%r14, %rdx
	callq	"std_io::io::write_to"
	cmpb	$0, (%rsp)
	jne	.LBB11_587
# %bb.371:                              # %after.1.i.i809.9
	movq	1032(%rbx), %rcx
	movb	$1, %al
	cmpq	$1023, %rcx                     # imm = 0x3FF
	ja	.LBB11_589
.LBB11_372:                             # %"std_io::io::buffer::Buffer::push.exit.i793.9"
	movb	$111, 4(%rbx,%rcx)
	leaq	1(%rcx), %rdx
	movq	%rdx, 1032(%rbx)
	cmpq	$1023, %rcx                     # imm = 0x3FF
	jb	.LBB11_375
# %bb.373:                              # %join.3.i.i.i802.10
	xorps	%xmm0, %xmm0
	movaps	%xmm0, 80(%rsp)
	movaps	%xmm0, 64(%rsp)
	movaps	%xmm0, 48(%rsp)
	movaps	%xmm0, 32(%rsp)
	movaps	%xmm0, 16(%rsp)
	movaps	%xmm0, (%rsp)
	movq	$0, 1032(%rbx)
	movl	(%rbx), %esi
	movq	%rsp, %rdi
	movl	$1024, %ecx                     # imm = 0x400
	movq	%r14, %rdx
	callq	"std_io::io::write_to"
	cmpb	$0, (%rsp)
	jne	.LBB11_587
# %bb.374:                              # %after.1.i.i809.10
	movq	1032(%rbx), %rdx
	movb	$1, %al
	cmpq	$1023, %rdx                     # imm = 0x3FF
	ja	.LBB11_589
.LBB11_375:                             # %"std_io::io::buffer::Buffer::push.exit.i793.10"
	movb	$119, 4(%rbx,%rdx)
	leaq	1(%rdx), %rcx
	movq	%rcx, 1032(%rbx)
	cmpq	$1023, %rdx                     # imm = 0x3FF
	jb	.LBB11_652
# %bb.376:                              # %join.3.i.i.i802.11
	xorps	%xmm0, %xmm0
	movaps	%xmm0, 80(%rsp)
	movaps	%xmm0, 64(%rsp)
	movaps	%xmm0, 48(%rsp)
	movaps	%xmm0, 32(%rsp)
	movaps	%xmm0, 16(%rsp)
	movaps	%xmm0, (%rsp)
	movq	$0, 1032(%rbx)
	movl	(%rbx), %esi
	movq	%rsp, %rdi
	movl	$1024, %ecx                     # imm = 0x400
	movq	%r14, %rdx
	callq	"std_io::io::write_to"
	cmpb	$0, (%rsp)
	jne	.LBB11_587
# %bb.651:                              # %after.1.i.i809.11
	movq	1032(%rbx), %rcx
	movb	$1, %al
	cmpq	$1023, %rcx                     # imm = 0x3FF
	ja	.LBB11_589
.LBB11_652:                             # %"std_io::io::buffer::Buffer::push.exit.i793.11"
	movb	$110, 4(%rbx,%rcx)
	jmp	.LBB11_653
.LBB11_378:                             # %arm.9
	testq	%rax, %rax
	jne	.LBB11_623
# %bb.379:                              # %then.1.i394
	leaq	4(%rbx), %r14
	movq	1032(%rbx), %rcx
	xorl	%r15d, %r15d
	jmp	.LBB11_381
	.p2align	4
.LBB11_380:                             # %"std_io::io::buffer::Buffer::push.exit.i729"
                                        #   in Loop: Header=BB11_381 Depth=1
	movb	%bpl, 4(%rbx,%rcx)
	incq	%rcx
	movq	%rcx, 1032(%rbx)
	incq	%r15
	xorl	%eax, %eax
	cmpq	$14, %r15
	je	.LBB11_589
.LBB11_381:                             # %arm.3.i721
                                        # =>This Inner Loop Header: Depth=1
	leaq	.Lstatic.24(%rip), %rax
	movzbl	(%r15,%rax), %ebp
	cmpq	$1024, %rcx                     # imm = 0x400
	jb	.LBB11_380
# %bb.382:                              # %then.2.i.i735
                                        #   in Loop: Header=BB11_381 Depth=1
	xorps	%xmm0, %xmm0
	movaps	%xmm0, 80(%rsp)
	movaps	%xmm0, 64(%rsp)
	movaps	%xmm0, 48(%rsp)
	movaps	%xmm0, 32(%rsp)
	movaps	%xmm0, 16(%rsp)
	movaps	%xmm0, (%rsp)
	movq	$0, 1032(%rbx)
	jne	.LBB11_588
# %bb.383:                              # %join.3.i.i.i738
                                        #   in Loop: Header=BB11_381 Depth=1
	movl	(%rbx), %esi
	movq	%rsp, %rdi
	movl	$1024, %ecx                     # imm = 0x400
	movq	%r14, %rdx
	callq	"std_io::io::write_to"
	cmpb	$0, (%rsp)
	jne	.LBB11_587
# %bb.384:                              # %after.1.i.i745
                                        #   in Loop: Header=BB11_381 Depth=1
	movq	1032(%rbx), %rcx
	cmpq	$1023, %rcx                     # imm = 0x3FF
	jbe	.LBB11_380
	jmp	.LBB11_588
.LBB11_385:                             # %arm.31
	testq	%rax, %rax
	jne	.LBB11_624
# %bb.386:                              # %then.1.i130
	leaq	4(%rbx), %r14
	movq	1032(%rbx), %rdx
	cmpq	$1024, %rdx                     # imm = 0x400
	jb	.LBB11_390
# %bb.387:                              # %then.2.i.i1439
	xorps	%xmm0, %xmm0
	movaps	%xmm0, 80(%rsp)
	movaps	%xmm0, 64(%rsp)
	movaps	%xmm0, 48(%rsp)
	movaps	%xmm0, 32(%rsp)
	movaps	%xmm0, 16(%rsp)
	movaps	%xmm0, (%rsp)
	movq	$0, 1032(%rbx)
	jne	.LBB11_588
# %bb.388:                              # %join.3.i.i.i1442
	movl	(%rbx), %esi
	movq	%rsp, %rdi
	movl	$1024, %ecx                     # imm = 0x400
	movq	%r14, %rdx
	callq	"std_io::io::write_to"
	cmpb	$0, (%rsp)
	jne	.LBB11_587
# %bb.389:                              # %after.1.i.i1449
	movq	1032(%rbx), %rdx
	movb	$1, %al
	cmpq	$1023, %rdx                     # imm = 0x3FF
	ja	.LBB11_589
.LBB11_390:                             # %"std_io::io::buffer::Buffer::push.exit.i1433"
	movb	$100, 4(%rbx,%rdx)
	leaq	1(%rdx), %rcx
	movq	%rcx, 1032(%rbx)
	cmpq	$1023, %rdx                     # imm = 0x3FF
	jne	.LBB11_393
# %bb.391:                              # %join.3.i.i.i1442.1
	xorps	%xmm0, %xmm0
	movaps	%xmm0, 80(%rsp)
	movaps	%xmm0, 64(%rsp)
	movaps	%xmm0, 48(%rsp)
	movaps	%xmm0, 32(%rsp)
	movaps	%xmm0, 16(%rsp)
	movaps	%xmm0, (%rsp)
	movq	$0, 1032(%rbx)
	movl	(%rbx), %esi
	movq	%rsp, %rdi
	movl	$1024, %ecx                     # imm = 0x400
	movq	%r14, %rdx
	callq	"std_io::io::write_to"
	cmpb	$0, (%rsp)
	jne	.LBB11_587
# %bb.392:                              # %after.1.i.i1449.1
	movq	1032(%rbx), %rcx
	movb	$1, %al
	cmpq	$1023, %rcx                     # imm = 0x3FF
	ja	.LBB11_589
.LBB11_393:                             # %"std_io::io::buffer::Buffer::push.exit.i1433.1"
	movb	$101, 4(%rbx,%rcx)
	leaq	1(%rcx), %rdx
	movq	%rdx, 1032(%rbx)
	cmpq	$1023, %rcx                     # imm = 0x3FF
	jb	.LBB11_396
# %bb.394:                              # %join.3.i.i.i1442.2
	xorps	%xmm0, %xmm0
	movaps	%xmm0, 80(%rsp)
	movaps	%xmm0, 64(%rsp)
	movaps	%xmm0, 48(%rsp)
	movaps	%xmm0, 32(%rsp)
	movaps	%xmm0, 16(%rsp)
	movaps	%xmm0, (%rsp)
	movq	$0, 1032(%rbx)
	movl	(%rbx), %esi
	movq	%rsp, %rdi
	movl	$1024, %ecx                     # imm = 0x400
	movq	%r14, %rdx
	callq	"std_io::io::write_to"
	cmpb	$0, (%rsp)
	jne	.LBB11_587
# %bb.395:                              # %after.1.i.i1449.2
	movq	1032(%rbx), %rdx
	movb	$1, %al
	cmpq	$1023, %rdx                     # imm = 0x3FF
	ja	.LBB11_589
.LBB11_396:                             # %"std_io::io::buffer::Buffer::push.exit.i1433.2"
	movb	$97, 4(%rbx,%rdx)
	leaq	1(%rdx), %rcx
	movq	%rcx, 1032(%rbx)
	cmpq	$1023, %rdx                     # imm = 0x3FF
	jb	.LBB11_399
# %bb.397:                              # %join.3.i.i.i1442.3
	xorps	%xmm0, %xmm0
	movaps	%xmm0, 80(%rsp)
	movaps	%xmm0, 64(%rsp)
	movaps	%xmm0, 48(%rsp)
	movaps	%xmm0, 32(%rsp)
	movaps	%xmm0, 16(%rsp)
	movaps	%xmm0, (%rsp)
	movq	$0, 1032(%rbx)
	movl	(%rbx), %esi
	movq	%rsp, %rdi
	movl	$1024, %ecx                     # imm = 0x400
	movq	%r14, %rdx
	callq	"std_io::io::write_to"
	cmpb	$0, (%rsp)
	jne	.LBB11_587
# %bb.398:                              # %after.1.i.i1449.3
	movq	1032(%rbx), %rcx
	movb	$1, %al
	cmpq	$1023, %rcx                     # imm = 0x3FF
	ja	.LBB11_589
.LBB11_399:                             # %"std_io::io::buffer::Buffer::push.exit.i1433.3"
	movb	$100, 4(%rbx,%rcx)
	leaq	1(%rcx), %rdx
	movq	%rdx, 1032(%rbx)
	cmpq	$1023, %rcx                     # imm = 0x3FF
	jb	.LBB11_402
# %bb.400:                              # %join.3.i.i.i1442.4
	xorps	%xmm0, %xmm0
	movaps	%xmm0, 80(%rsp)
	movaps	%xmm0, 64(%rsp)
	movaps	%xmm0, 48(%rsp)
	movaps	%xmm0, 32(%rsp)
	movaps	%xmm0, 16(%rsp)
	movaps	%xmm0, (%rsp)
	movq	$0, 1032(%rbx)
	movl	(%rbx), %esi
	movq	%rsp, %rdi
	movl	$1024, %ecx                     # imm = 0x400
	movq	%r14, %rdx
	callq	"std_io::io::write_to"
	cmpb	$0, (%rsp)
	jne	.LBB11_587
# %bb.401:                              # %after.1.i.i1449.4
	movq	1032(%rbx), %rdx
	movb	$1, %al
	cmpq	$1023, %rdx                     # imm = 0x3FF
	ja	.LBB11_589
.LBB11_402:                             # %"std_io::io::buffer::Buffer::push.exit.i1433.4"
	movb	$108, 4(%rbx,%rdx)
	leaq	1(%rdx), %rcx
	movq	%rcx, 1032(%rbx)
	cmpq	$1023, %rdx                     # imm = 0x3FF
	jb	.LBB11_405
# %bb.403:                              # %join.3.i.i.i1442.5
	xorps	%xmm0, %xmm0
	movaps	%xmm0, 80(%rsp)
	movaps	%xmm0, 64(%rsp)
	movaps	%xmm0, 48(%rsp)
	movaps	%xmm0, 32(%rsp)
	movaps	%xmm0, 16(%rsp)
	movaps	%xmm0, (%rsp)
	movq	$0, 1032(%rbx)
	movl	(%rbx), %esi
	movq	%rsp, %rdi
	movl	$1024, %ecx                     # imm = 0x400
	movq	%r14, %rdx
	callq	"std_io::io::write_to"
	cmpb	$0, (%rsp)
	jne	.LBB11_587
# %bb.404:                              # %after.1.i.i1449.5
	movq	1032(%rbx), %rcx
	movb	$1, %al
	cmpq	$1023, %rcx                     # imm = 0x3FF
	ja	.LBB11_589
.LBB11_405:                             # %"std_io::io::buffer::Buffer::push.exit.i1433.5"
	movb	$111, 4(%rbx,%rcx)
	leaq	1(%rcx), %rdx
	movq	%rdx, 1032(%rbx)
	cmpq	$1023, %rcx                     # imm = 0x3FF
	jb	.LBB11_408
# %bb.406:                              # %join.3.i.i.i1442.6
	xorps	%xmm0, %xmm0
	movaps	%xmm0, 80(%rsp)
	movaps	%xmm0, 64(%rsp)
	movaps	%xmm0, 48(%rsp)
	movaps	%xmm0, 32(%rsp)
	movaps	%xmm0, 16(%rsp)
	movaps	%xmm0, (%rsp)
	movq	$0, 1032(%rbx)
	movl	(%rbx), %esi
	movq	%rsp, %rdi
	movl	$1024, %ecx                     # imm = 0x400
	movq	%r14, %rdx
	callq	"std_io::io::write_to"
	cmpb	$0, (%rsp)
	jne	.LBB11_587
# %bb.407:                              # %after.1.i.i1449.6
	movq	1032(%rbx), %rdx
	movb	$1, %al
	cmpq	$1023, %rdx                     # imm = 0x3FF
	ja	.LBB11_589
.LBB11_408:                             # %"std_io::io::buffer::Buffer::push.exit.i1433.6"
	movb	$99, 4(%rbx,%rdx)
	leaq	1(%rdx), %rcx
	movq	%rcx, 1032(%rbx)
	cmpq	$1023, %rdx                     # imm = 0x3FF
	jb	.LBB11_635
# %bb.409:                              # %join.3.i.i.i1442.7
	xorps	%xmm0, %xmm0
	movaps	%xmm0, 80(%rsp)
	movaps	%xmm0, 64(%rsp)
	movaps	%xmm0, 48(%rsp)
	movaps	%xmm0, 32(%rsp)
	movaps	%xmm0, 16(%rsp)
	movaps	%xmm0, (%rsp)
	movq	$0, 1032(%rbx)
	movl	(%rbx), %esi
	movq	%rsp, %rdi
	movl	$1024, %ecx                     # imm = 0x400
	movq	%r14, %rdx
	callq	"std_io::io::write_to"
	cmpb	$0, (%rsp)
	jne	.LBB11_587
# %bb.634:                              # %after.1.i.i1449.7
	movq	1032(%rbx), %rcx
	movb	$1, %al
	cmpq	$1023, %rcx                     # imm = 0x3FF
	ja	.LBB11_589
.LBB11_635:                             # %"std_io::io::buffer::Buffer::push.exit.i1433.7"
	movb	$107, 4(%rbx,%rcx)
	jmp	.LBB11_653
.LBB11_411:                             # %arm.33
	testq	%rax, %rax
	jne	.LBB11_625
# %bb.412:                              # %then.1.i106
	leaq	4(%rbx), %r14
	movq	1032(%rbx), %rcx
	xorl	%r15d, %r15d
	jmp	.LBB11_414
	.p2align	4
.LBB11_413:                             # %"std_io::io::buffer::Buffer::push.exit.i1497"
                                        #   in Loop: Header=BB11_414 Depth=1
	movb	%bpl, 4(%rbx,%rcx)
	incq	%rcx
	movq	%rcx, 1032(%rbx)
	incq	%r15
	xorl	%eax, %eax
	cmpq	$14, %r15
	je	.LBB11_589
.LBB11_414:                             # %arm.3.i1489
                                        # =>This Inner Loop Header: Depth=1
	leaq	.Lstatic.48(%rip), %rax
	movzbl	(%r15,%rax), %ebp
	cmpq	$1024, %rcx                     # imm = 0x400
	jb	.LBB11_413
# %bb.415:                              # %then.2.i.i1503
                                        #   in Loop: Header=BB11_414 Depth=1
	xorps	%xmm0, %xmm0
	movaps	%xmm0, 80(%rsp)
	movaps	%xmm0, 64(%rsp)
	movaps	%xmm0, 48(%rsp)
	movaps	%xmm0, 32(%rsp)
	movaps	%xmm0, 16(%rsp)
	movaps	%xmm0, (%rsp)
	movq	$0, 1032(%rbx)
	jne	.LBB11_588
# %bb.416:                              # %join.3.i.i.i1506
                                        #   in Loop: Header=BB11_414 Depth=1
	movl	(%rbx), %esi
	movq	%rsp, %rdi
	movl	$1024, %ecx                     # imm = 0x400
	movq	%r14, %rdx
	callq	"std_io::io::write_to"
	cmpb	$0, (%rsp)
	jne	.LBB11_587
# %bb.417:                              # %after.1.i.i1513
                                        #   in Loop: Header=BB11_414 Depth=1
	movq	1032(%rbx), %rcx
	cmpq	$1023, %rcx                     # imm = 0x3FF
	jbe	.LBB11_413
	jmp	.LBB11_15
.LBB11_419:                             # %arm.23
	testq	%rax, %rax
	jne	.LBB11_626
# %bb.420:                              # %then.1.i226
	leaq	4(%rbx), %r14
	movq	1032(%rbx), %rdx
	cmpq	$1024, %rdx                     # imm = 0x400
	jb	.LBB11_424
# %bb.421:                              # %then.2.i.i1183
	xorps	%xmm0, %xmm0
	movaps	%xmm0, 80(%rsp)
	movaps	%xmm0, 64(%rsp)
	movaps	%xmm0, 48(%rsp)
	movaps	%xmm0, 32(%rsp)
	movaps	%xmm0, 16(%rsp)
	movaps	%xmm0, (%rsp)
	movq	$0, 1032(%rbx)
	jne	.LBB11_588
# %bb.422:                              # %join.3.i.i.i1186
	movl	(%rbx), %esi
	movq	%rsp, %rdi
	movl	$1024, %ecx                     # imm = 0x400
	movq	%r14, %rdx
	callq	"std_io::io::write_to"
	cmpb	$0, (%rsp)
	jne	.LBB11_587
# %bb.423:                              # %after.1.i.i1193
	movq	1032(%rbx), %rdx
	movb	$1, %al
	cmpq	$1023, %rdx                     # imm = 0x3FF
	ja	.LBB11_589
.LBB11_424:                             # %"std_io::io::buffer::Buffer::push.exit.i1177"
	movb	$116, 4(%rbx,%rdx)
	leaq	1(%rdx), %rcx
	movq	%rcx, 1032(%rbx)
	cmpq	$1023, %rdx                     # imm = 0x3FF
	jne	.LBB11_427
# %bb.425:                              # %join.3.i.i.i1186.1
	xorps	%xmm0, %xmm0
	movaps	%xmm0, 80(%rsp)
	movaps	%xmm0, 64(%rsp)
	movaps	%xmm0, 48(%rsp)
	movaps	%xmm0, 32(%rsp)
	movaps	%xmm0, 16(%rsp)
	movaps	%xmm0, (%rsp)
	movq	$0, 1032(%rbx)
	movl	(%rbx), %esi
	movq	%rsp, %rdi
	movl	$1024, %ecx                     # imm = 0x400
	movq	%r14, %rdx
	callq	"std_io::io::write_to"
	cmpb	$0, (%rsp)
	jne	.LBB11_587
# %bb.426:                              # %after.1.i.i1193.1
	movq	1032(%rbx), %rcx
	movb	$1, %al
	cmpq	$1023, %rcx                     # imm = 0x3FF
	ja	.LBB11_589
.LBB11_427:                             # %"std_io::io::buffer::Buffer::push.exit.i1177.1"
	movb	$105, 4(%rbx,%rcx)
	leaq	1(%rcx), %rdx
	movq	%rdx, 1032(%rbx)
	cmpq	$1023, %rcx                     # imm = 0x3FF
	jb	.LBB11_430
# %bb.428:                              # %join.3.i.i.i1186.2
	xorps	%xmm0, %xmm0
	movaps	%xmm0, 80(%rsp)
	movaps	%xmm0, 64(%rsp)
	movaps	%xmm0, 48(%rsp)
	movaps	%xmm0, 32(%rsp)
	movaps	%xmm0, 16(%rsp)
	movaps	%xmm0, (%rsp)
	movq	$0, 1032(%rbx)
	movl	(%rbx), %esi
	movq	%rsp, %rdi
	movl	$1024, %ecx                     # imm = 0x400
	movq	%r14, %rdx
	callq	"std_io::io::write_to"
	cmpb	$0, (%rsp)
	jne	.LBB11_587
# %bb.429:                              # %after.1.i.i1193.2
	movq	1032(%rbx), %rdx
	movb	$1, %al
	cmpq	$1023, %rdx                     # imm = 0x3FF
	ja	.LBB11_589
.LBB11_430:                             # %"std_io::io::buffer::Buffer::push.exit.i1177.2"
	movb	$109, 4(%rbx,%rdx)
	leaq	1(%rdx), %rcx
	movq	%rcx, 1032(%rbx)
	cmpq	$1023, %rdx                     # imm = 0x3FF
	jb	.LBB11_433
# %bb.431:                              # %join.3.i.i.i1186.3
	xorps	%xmm0, %xmm0
	movaps	%xmm0, 80(%rsp)
	movaps	%xmm0, 64(%rsp)
	movaps	%xmm0, 48(%rsp)
	movaps	%xmm0, 32(%rsp)
	movaps	%xmm0, 16(%rsp)
	movaps	%xmm0, (%rsp)
	movq	$0, 1032(%rbx)
	movl	(%rbx), %esi
	movq	%rsp, %rdi
	movl	$1024, %ecx                     # imm = 0x400
	movq	%r14, %rdx
	callq	"std_io::io::write_to"
	cmpb	$0, (%rsp)
	jne	.LBB11_587
# %bb.432:                              # %after.1.i.i1193.3
	movq	1032(%rbx), %rcx
	movb	$1, %al
	cmpq	$1023, %rcx                     # imm = 0x3FF
	ja	.LBB11_589
.LBB11_433:                             # %"std_io::io::buffer::Buffer::push.exit.i1177.3"
	movb	$101, 4(%rbx,%rcx)
	leaq	1(%rcx), %rdx
	movq	%rdx, 1032(%rbx)
	cmpq	$1023, %rcx                     # imm = 0x3FF
	jb	.LBB11_436
# %bb.434:                              # %join.3.i.i.i1186.4
	xorps	%xmm0, %xmm0
	movaps	%xmm0, 80(%rsp)
	movaps	%xmm0, 64(%rsp)
	movaps	%xmm0, 48(%rsp)
	movaps	%xmm0, 32(%rsp)
	movaps	%xmm0, 16(%rsp)
	movaps	%xmm0, (%rsp)
	movq	$0, 1032(%rbx)
	movl	(%rbx), %esi
	movq	%rsp, %rdi
	movl	$1024, %ecx                     # imm = 0x400
	movq	%r14, %rdx
	callq	"std_io::io::write_to"
	cmpb	$0, (%rsp)
	jne	.LBB11_587
# %bb.435:                              # %after.1.i.i1193.4
	movq	1032(%rbx), %rdx
	movb	$1, %al
	cmpq	$1023, %rdx                     # imm = 0x3FF
	ja	.LBB11_589
.LBB11_436:                             # %"std_io::io::buffer::Buffer::push.exit.i1177.4"
	movb	$100, 4(%rbx,%rdx)
	leaq	1(%rdx), %rcx
	movq	%rcx, 1032(%rbx)
	cmpq	$1023, %rdx                     # imm = 0x3FF
	jb	.LBB11_439
# %bb.437:                              # %join.3.i.i.i1186.5
	xorps	%xmm0, %xmm0
	movaps	%xmm0, 80(%rsp)
	movaps	%xmm0, 64(%rsp)
	movaps	%xmm0, 48(%rsp)
	movaps	%xmm0, 32(%rsp)
	movaps	%xmm0, 16(%rsp)
	movaps	%xmm0, (%rsp)
	movq	$0, 1032(%rbx)
	movl	(%rbx), %esi
	movq	%rsp, %rdi
	movl	$1024, %ecx                     # imm = 0x400
	movq	%r14, %rdx
	callq	"std_io::io::write_to"
	cmpb	$0, (%rsp)
	jne	.LBB11_587
# %bb.438:                              # %after.1.i.i1193.5
	movq	1032(%rbx), %rcx
	movb	$1, %al
	cmpq	$1023, %rcx                     # imm = 0x3FF
	ja	.LBB11_589
.LBB11_439:                             # %"std_io::io::buffer::Buffer::push.exit.i1177.5"
	movb	$32, 4(%rbx,%rcx)
	leaq	1(%rcx), %rdx
	movq	%rdx, 1032(%rbx)
	cmpq	$1023, %rcx                     # imm = 0x3FF
	jb	.LBB11_442
# %bb.440:                              # %join.3.i.i.i1186.6
	xorps	%xmm0, %xmm0
	movaps	%xmm0, 80(%rsp)
	movaps	%xmm0, 64(%rsp)
	movaps	%xmm0, 48(%rsp)
	movaps	%xmm0, 32(%rsp)
	movaps	%xmm0, 16(%rsp)
	movaps	%xmm0, (%rsp)
	movq	$0, 1032(%rbx)
	movl	(%rbx), %esi
	movq	%rsp, %rdi
	movl	$1024, %ecx                     # imm = 0x400
	movq	%r14, %rdx
	callq	"std_io::io::write_to"
	cmpb	$0, (%rsp)
	jne	.LBB11_587
# %bb.441:                              # %after.1.i.i1193.6
	movq	1032(%rbx), %rdx
	movb	$1, %al
	cmpq	$1023, %rdx                     # imm = 0x3FF
	ja	.LBB11_589
.LBB11_442:                             # %"std_io::io::buffer::Buffer::push.exit.i1177.6"
	movb	$111, 4(%rbx,%rdx)
	leaq	1(%rdx), %rcx
	movq	%rcx, 1032(%rbx)
	cmpq	$1023, %rdx                     # imm = 0x3FF
	jb	.LBB11_445
# %bb.443:                              # %join.3.i.i.i1186.7
	xorps	%xmm0, %xmm0
	movaps	%xmm0, 80(%rsp)
	movaps	%xmm0, 64(%rsp)
	movaps	%xmm0, 48(%rsp)
	movaps	%xmm0, 32(%rsp)
	movaps	%xmm0, 16(%rsp)
	movaps	%xmm0, (%rsp)
	movq	$0, 1032(%rbx)
	movl	(%rbx), %esi
	movq	%rsp, %rdi
	movl	$1024, %ecx                     # imm = 0x400
	movq	%r14, %rdx
	callq	"std_io::io::write_to"
	cmpb	$0, (%rsp)
	jne	.LBB11_587
# %bb.444:                              # %after.1.i.i1193.7
	movq	1032(%rbx), %rcx
	movb	$1, %al
	cmpq	$1023, %rcx                     # imm = 0x3FF
	ja	.LBB11_589
.LBB11_445:                             # %"std_io::io::buffer::Buffer::push.exit.i1177.7"
	movb	$117, 4(%rbx,%rcx)
	leaq	1(%rcx), %rdx
	movq	%rdx, 1032(%rbx)
	cmpq	$1023, %rcx                     # imm = 0x3FF
	jb	.LBB11_637
# %bb.446:                              # %join.3.i.i.i1186.8
	xorps	%xmm0, %xmm0
	movaps	%xmm0, 80(%rsp)
	movaps	%xmm0, 64(%rsp)
	movaps	%xmm0, 48(%rsp)
	movaps	%xmm0, 32(%rsp)
	movaps	%xmm0, 16(%rsp)
	movaps	%xmm0, (%rsp)
	movq	$0, 1032(%rbx)
	movl	(%rbx), %esi
	movq	%rsp, %rdi
	movl	$1024, %ecx                     # imm = 0x400
	movq	%r14, %rdx
	callq	"std_io::io::write_to"
	cmpb	$0, (%rsp)
	jne	.LBB11_587
# %bb.636:                              # %after.1.i.i1193.8
	movq	1032(%rbx), %rdx
	movb	$1, %al
	cmpq	$1023, %rdx                     # imm = 0x3FF
	ja	.LBB11_589
.LBB11_637:                             # %"std_io::io::buffer::Buffer::push.exit.i1177.8"
	movb	$116, 4(%rbx,%rdx)
	jmp	.LBB11_648
.LBB11_448:                             # %arm.40
	testq	%rax, %rax
	jne	.LBB11_627
# %bb.449:                              # %then.1.i22
	leaq	4(%rbx), %r14
	movq	1032(%rbx), %rdx
	cmpq	$1024, %rdx                     # imm = 0x400
	jb	.LBB11_453
# %bb.450:                              # %then.2.i.i1727
	xorps	%xmm0, %xmm0
	movaps	%xmm0, 80(%rsp)
	movaps	%xmm0, 64(%rsp)
	movaps	%xmm0, 48(%rsp)
	movaps	%xmm0, 32(%rsp)
	movaps	%xmm0, 16(%rsp)
	movaps	%xmm0, (%rsp)
	movq	$0, 1032(%rbx)
	jne	.LBB11_588
# %bb.451:                              # %join.3.i.i.i1730
	movl	(%rbx), %esi
	movq	%rsp, %rdi
	movl	$1024, %ecx                     # imm = 0x400
	movq	%r14, %rdx
	callq	"std_io::io::write_to"
	cmpb	$0, (%rsp)
	jne	.LBB11_587
# %bb.452:                              # %after.1.i.i1737
	movq	1032(%rbx), %rdx
	movb	$1, %al
	cmpq	$1023, %rdx                     # imm = 0x3FF
	ja	.LBB11_589
.LBB11_453:                             # %"std_io::io::buffer::Buffer::push.exit.i1721"
	movb	$105, 4(%rbx,%rdx)
	leaq	1(%rdx), %rcx
	movq	%rcx, 1032(%rbx)
	cmpq	$1023, %rdx                     # imm = 0x3FF
	jne	.LBB11_456
# %bb.454:                              # %join.3.i.i.i1730.1
	xorps	%xmm0, %xmm0
	movaps	%xmm0, 80(%rsp)
	movaps	%xmm0, 64(%rsp)
	movaps	%xmm0, 48(%rsp)
	movaps	%xmm0, 32(%rsp)
	movaps	%xmm0, 16(%rsp)
	movaps	%xmm0, (%rsp)
	movq	$0, 1032(%rbx)
	movl	(%rbx), %esi
	movq	%rsp, %rdi
	movl	$1024, %ecx                     # imm = 0x400
	movq	%r14, %rdx
	callq	"std_io::io::write_to"
	cmpb	$0, (%rsp)
	jne	.LBB11_587
# %bb.455:                              # %after.1.i.i1737.1
	movq	1032(%rbx), %rcx
	movb	$1, %al
	cmpq	$1023, %rcx                     # imm = 0x3FF
	ja	.LBB11_589
.LBB11_456:                             # %"std_io::io::buffer::Buffer::push.exit.i1721.1"
	movb	$110, 4(%rbx,%rcx)
	leaq	1(%rcx), %rdx
	movq	%rdx, 1032(%rbx)
	cmpq	$1023, %rcx                     # imm = 0x3FF
	jb	.LBB11_459
# %bb.457:                              # %join.3.i.i.i1730.2
	xorps	%xmm0, %xmm0
	movaps	%xmm0, 80(%rsp)
	movaps	%xmm0, 64(%rsp)
	movaps	%xmm0, 48(%rsp)
	movaps	%xmm0, 32(%rsp)
	movaps	%xmm0, 16(%rsp)
	movaps	%xmm0, (%rsp)
	movq	$0, 1032(%rbx)
	movl	(%rbx), %esi
	movq	%rsp, %rdi
	movl	$1024, %ecx                     # imm = 0x400
	movq	%r14, %rdx
	callq	"std_io::io::write_to"
	cmpb	$0, (%rsp)
	jne	.LBB11_587
# %bb.458:                              # %after.1.i.i1737.2
	movq	1032(%rbx), %rdx
	movb	$1, %al
	cmpq	$1023, %rdx                     # imm = 0x3FF
	ja	.LBB11_589
.LBB11_459:                             # %"std_io::io::buffer::Buffer::push.exit.i1721.2"
	movb	$32, 4(%rbx,%rdx)
	leaq	1(%rdx), %rcx
	movq	%rcx, 1032(%rbx)
	cmpq	$1023, %rdx                     # imm = 0x3FF
	jb	.LBB11_462
# %bb.460:                              # %join.3.i.i.i1730.3
	xorps	%xmm0, %xmm0
	movaps	%xmm0, 80(%rsp)
	movaps	%xmm0, 64(%rsp)
	movaps	%xmm0, 48(%rsp)
	movaps	%xmm0, 32(%rsp)
	movaps	%xmm0, 16(%rsp)
	movaps	%xmm0, (%rsp)
	movq	$0, 1032(%rbx)
	movl	(%rbx), %esi
	movq	%rsp, %rdi
	movl	$1024, %ecx                     # imm = 0x400
	movq	%r14, %rdx
	callq	"std_io::io::write_to"
	cmpb	$0, (%rsp)
	jne	.LBB11_587
# %bb.461:                              # %after.1.i.i1737.3
	movq	1032(%rbx), %rcx
	movb	$1, %al
	cmpq	$1023, %rcx                     # imm = 0x3FF
	ja	.LBB11_589
.LBB11_462:                             # %"std_io::io::buffer::Buffer::push.exit.i1721.3"
	movb	$112, 4(%rbx,%rcx)
	leaq	1(%rcx), %rdx
	movq	%rdx, 1032(%rbx)
	cmpq	$1023, %rcx                     # imm = 0x3FF
	jb	.LBB11_465
# %bb.463:                              # %join.3.i.i.i1730.4
	xorps	%xmm0, %xmm0
	movaps	%xmm0, 80(%rsp)
	movaps	%xmm0, 64(%rsp)
	movaps	%xmm0, 48(%rsp)
	movaps	%xmm0, 32(%rsp)
	movaps	%xmm0, 16(%rsp)
	movaps	%xmm0, (%rsp)
	movq	$0, 1032(%rbx)
	movl	(%rbx), %esi
	movq	%rsp, %rdi
	movl	$1024, %ecx                     # imm = 0x400
	movq	%r14, %rdx
	callq	"std_io::io::write_to"
	cmpb	$0, (%rsp)
	jne	.LBB11_587
# %bb.464:                              # %after.1.i.i1737.4
	movq	1032(%rbx), %rdx
	movb	$1, %al
	cmpq	$1023, %rdx                     # imm = 0x3FF
	ja	.LBB11_589
.LBB11_465:                             # %"std_io::io::buffer::Buffer::push.exit.i1721.4"
	movb	$114, 4(%rbx,%rdx)
	leaq	1(%rdx), %rcx
	movq	%rcx, 1032(%rbx)
	cmpq	$1023, %rdx                     # imm = 0x3FF
	jb	.LBB11_468
# %bb.466:                              # %join.3.i.i.i1730.5
	xorps	%xmm0, %xmm0
	movaps	%xmm0, 80(%rsp)
	movaps	%xmm0, 64(%rsp)
	movaps	%xmm0, 48(%rsp)
	movaps	%xmm0, 32(%rsp)
	movaps	%xmm0, 16(%rsp)
	movaps	%xmm0, (%rsp)
	movq	$0, 1032(%rbx)
	movl	(%rbx), %esi
	movq	%rsp, %rdi
	movl	$1024, %ecx                     # imm = 0x400
	movq	%r14, %rdx
	callq	"std_io::io::write_to"
	cmpb	$0, (%rsp)
	jne	.LBB11_587
# %bb.467:                              # %after.1.i.i1737.5
	movq	1032(%rbx), %rcx
	movb	$1, %al
	cmpq	$1023, %rcx                     # imm = 0x3FF
	ja	.LBB11_589
.LBB11_468:                             # %"std_io::io::buffer::Buffer::push.exit.i1721.5"
	movb	$111, 4(%rbx,%rcx)
	leaq	1(%rcx), %rdx
	movq	%rdx, 1032(%rbx)
	cmpq	$1023, %rcx                     # imm = 0x3FF
	jb	.LBB11_471
# %bb.469:                              # %join.3.i.i.i1730.6
	xorps	%xmm0, %xmm0
	movaps	%xmm0, 80(%rsp)
	movaps	%xmm0, 64(%rsp)
	movaps	%xmm0, 48(%rsp)
	movaps	%xmm0, 32(%rsp)
	movaps	%xmm0, 16(%rsp)
	movaps	%xmm0, (%rsp)
	movq	$0, 1032(%rbx)
	movl	(%rbx), %esi
	movq	%rsp, %rdi
	movl	$1024, %ecx                     # imm = 0x400
	movq	%r14, %rdx
	callq	"std_io::io::write_to"
	cmpb	$0, (%rsp)
	jne	.LBB11_587
# %bb.470:                              # %after.1.i.i1737.6
	movq	1032(%rbx), %rdx
	movb	$1, %al
	cmpq	$1023, %rdx                     # imm = 0x3FF
	ja	.LBB11_589
.LBB11_471:                             # %"std_io::io::buffer::Buffer::push.exit.i1721.6"
	movb	$103, 4(%rbx,%rdx)
	leaq	1(%rdx), %rcx
	movq	%rcx, 1032(%rbx)
	cmpq	$1023, %rdx                     # imm = 0x3FF
	jb	.LBB11_474
# %bb.472:                              # %join.3.i.i.i1730.7
	xorps	%xmm0, %xmm0
	movaps	%xmm0, 80(%rsp)
	movaps	%xmm0, 64(%rsp)
	movaps	%xmm0, 48(%rsp)
	movaps	%xmm0, 32(%rsp)
	movaps	%xmm0, 16(%rsp)
	movaps	%xmm0, (%rsp)
	movq	$0, 1032(%rbx)
	movl	(%rbx), %esi
	movq	%rsp, %rdi
	movl	$1024, %ecx                     # imm = 0x400
	movq	%r14, %rdx
	callq	"std_io::io::write_to"
	cmpb	$0, (%rsp)
	jne	.LBB11_587
# %bb.473:                              # %after.1.i.i1737.7
	movq	1032(%rbx), %rcx
	movb	$1, %al
	cmpq	$1023, %rcx                     # imm = 0x3FF
	ja	.LBB11_589
.LBB11_474:                             # %"std_io::io::buffer::Buffer::push.exit.i1721.7"
	movb	$114, 4(%rbx,%rcx)
	leaq	1(%rcx), %rdx
	movq	%rdx, 1032(%rbx)
	cmpq	$1023, %rcx                     # imm = 0x3FF
	jb	.LBB11_477
# %bb.475:                              # %join.3.i.i.i1730.8
	xorps	%xmm0, %xmm0
	movaps	%xmm0, 80(%rsp)
	movaps	%xmm0, 64(%rsp)
	movaps	%xmm0, 48(%rsp)
	movaps	%xmm0, 32(%rsp)
	movaps	%xmm0, 16(%rsp)
	movaps	%xmm0, (%rsp)
	movq	$0, 1032(%rbx)
	movl	(%rbx), %esi
	movq	%rsp, %rdi
	movl	$1024, %ecx                     # imm = 0x400
	movq	%r14, %rdx
	callq	"std_io::io::write_to"
	cmpb	$0, (%rsp)
	jne	.LBB11_587
# %bb.476:                              # %after.1.i.i1737.8
	movq	1032(%rbx), %rdx
	movb	$1, %al
	cmpq	$1023, %rdx                     # imm = 0x3FF
	ja	.LBB11_589
.LBB11_477:                             # %"std_io::io::buffer::Buffer::push.exit.i1721.8"
	movb	$101, 4(%rbx,%rdx)
	leaq	1(%rdx), %rcx
	movq	%rcx, 1032(%rbx)
	cmpq	$1023, %rdx                     # imm = 0x3FF
	jb	.LBB11_480
# %bb.478:                              # %join.3.i.i.i1730.9
	xorps	%xmm0, %xmm0
	movaps	%xmm0, 80(%rsp)
	movaps	%xmm0, 64(%rsp)
	movaps	%xmm0, 48(%rsp)
	movaps	%xmm0, 32(%rsp)
	movaps	%xmm0, 16(%rsp)
	movaps	%xmm0, (%rsp)
	movq	$0, 1032(%rbx)
	movl	(%rbx), %esi
	movq	%rsp, %rdi
	movl	$1024, %ecx                     # imm = 0x400
	movq	%r14, %rdx
	callq	"std_io::io::write_to"
	cmpb	$0, (%rsp)
	jne	.LBB11_587
# %bb.479:                              # %after.1.i.i1737.9
	movq	1032(%rbx), %rcx
	movb	$1, %al
	cmpq	$1023, %rcx                     # imm = 0x3FF
	ja	.LBB11_589
.LBB11_480:                             # %"std_io::io::buffer::Buffer::push.exit.i1721.9"
	movb	$115, 4(%rbx,%rcx)
	leaq	1(%rcx), %rdx
	movq	%rdx, 1032(%rbx)
	cmpq	$1023, %rcx                     # imm = 0x3FF
	jb	.LBB11_647
# %bb.481:                              # %join.3.i.i.i1730.10
	xorps	%xmm0, %xmm0
	movaps	%xmm0, 80(%rsp)
	movaps	%xmm0, 64(%rsp)
	movaps	%xmm0, 48(%rsp)
	movaps	%xmm0, 32(%rsp)
	movaps	%xmm0, 16(%rsp)
	movaps	%xmm0, (%rsp)
	movq	$0, 1032(%rbx)
	movl	(%rbx), %esi
	movq	%rsp, %rdi
	movl	$1024, %ecx                     # imm = 0x400
	movq	%r14, %rdx
	callq	"std_io::io::write_to"
	cmpb	$0, (%rsp)
	jne	.LBB11_587
# %bb.646:                              # %after.1.i.i1737.10
	movq	1032(%rbx), %rdx
	movb	$1, %al
	cmpq	$1023, %rdx                     # imm = 0x3FF
	ja	.LBB11_589
.LBB11_647:                             # %"std_io::io::buffer::Buffer::push.exit.i1721.10"
	movb	$115, 4(%rbx,%rdx)
.LBB11_648:                             # %join.44
	incq	%rdx
	movq	%rdx, 1032(%rbx)
	xorl	%eax, %eax
	jmp	.LBB11_589
.LBB11_483:                             # %arm.20
	testq	%rax, %rax
	jne	.LBB11_628
# %bb.484:                              # %then.1.i262
	leaq	4(%rbx), %r14
	movq	1032(%rbx), %rcx
	xorl	%r15d, %r15d
	jmp	.LBB11_486
	.p2align	4
.LBB11_485:                             # %"std_io::io::buffer::Buffer::push.exit.i1081"
                                        #   in Loop: Header=BB11_486 Depth=1
	movb	%bpl, 4(%rbx,%rcx)
	incq	%rcx
	movq	%rcx, 1032(%rbx)
	incq	%r15
	xorl	%eax, %eax
	cmpq	$25, %r15
	je	.LBB11_589
.LBB11_486:                             # %arm.3.i1073
                                        # =>This Inner Loop Header: Depth=1
	leaq	.Lstatic.35(%rip), %rax
	movzbl	(%r15,%rax), %ebp
	cmpq	$1024, %rcx                     # imm = 0x400
	jb	.LBB11_485
# %bb.487:                              # %then.2.i.i1087
                                        #   in Loop: Header=BB11_486 Depth=1
	xorps	%xmm0, %xmm0
	movaps	%xmm0, 80(%rsp)
	movaps	%xmm0, 64(%rsp)
	movaps	%xmm0, 48(%rsp)
	movaps	%xmm0, 32(%rsp)
	movaps	%xmm0, 16(%rsp)
	movaps	%xmm0, (%rsp)
	movq	$0, 1032(%rbx)
	jne	.LBB11_588
# %bb.488:                              # %join.3.i.i.i1090
                                        #   in Loop: Header=BB11_486 Depth=1
	movl	(%rbx), %esi
	movq	%rsp, %rdi
	movl	$1024, %ecx                     # imm = 0x400
	movq	%r14, %rdx
	callq	"std_io::io::write_to"
	cmpb	$0, (%rsp)
	jne	.LBB11_587
# %bb.489:                              # %after.1.i.i1097
                                        #   in Loop: Header=BB11_486 Depth=1
	movq	1032(%rbx), %rcx
	cmpq	$1023, %rcx                     # imm = 0x3FF
	jbe	.LBB11_485
	jmp	.LBB11_15
.LBB11_491:                             # %arm.24
	testq	%rax, %rax
	jne	.LBB11_629
# %bb.492:                              # %then.1.i214
	leaq	4(%rbx), %r14
	movq	1032(%rbx), %rdx
	cmpq	$1024, %rdx                     # imm = 0x400
	jb	.LBB11_496
# %bb.493:                              # %then.2.i.i1215
	xorps	%xmm0, %xmm0
	movaps	%xmm0, 80(%rsp)
	movaps	%xmm0, 64(%rsp)
	movaps	%xmm0, 48(%rsp)
	movaps	%xmm0, 32(%rsp)
	movaps	%xmm0, 16(%rsp)
	movaps	%xmm0, (%rsp)
	movq	$0, 1032(%rbx)
	jne	.LBB11_588
# %bb.494:                              # %join.3.i.i.i1218
	movl	(%rbx), %esi
	movq	%rsp, %rdi
	movl	$1024, %ecx                     # imm = 0x400
	movq	%r14, %rdx
	callq	"std_io::io::write_to"
	cmpb	$0, (%rsp)
	jne	.LBB11_587
# %bb.495:                              # %after.1.i.i1225
	movq	1032(%rbx), %rdx
	movb	$1, %al
	cmpq	$1023, %rdx                     # imm = 0x3FF
	ja	.LBB11_589
.LBB11_496:                             # %"std_io::io::buffer::Buffer::push.exit.i1209"
	movb	$119, 4(%rbx,%rdx)
	leaq	1(%rdx), %rcx
	movq	%rcx, 1032(%rbx)
	cmpq	$1023, %rdx                     # imm = 0x3FF
	jne	.LBB11_499
# %bb.497:                              # %join.3.i.i.i1218.1
	xorps	%xmm0, %xmm0
	movaps	%xmm0, 80(%rsp)
	movaps	%xmm0, 64(%rsp)
	movaps	%xmm0, 48(%rsp)
	movaps	%xmm0, 32(%rsp)
	movaps	%xmm0, 16(%rsp)
	movaps	%xmm0, (%rsp)
	movq	$0, 1032(%rbx)
	movl	(%rbx), %esi
	movq	%rsp, %rdi
	movl	$1024, %ecx                     # imm = 0x400
	movq	%r14, %rdx
	callq	"std_io::io::write_to"
	cmpb	$0, (%rsp)
	jne	.LBB11_587
# %bb.498:                              # %after.1.i.i1225.1
	movq	1032(%rbx), %rcx
	movb	$1, %al
	cmpq	$1023, %rcx                     # imm = 0x3FF
	ja	.LBB11_589
.LBB11_499:                             # %"std_io::io::buffer::Buffer::push.exit.i1209.1"
	movb	$114, 4(%rbx,%rcx)
	leaq	1(%rcx), %rdx
	movq	%rdx, 1032(%rbx)
	cmpq	$1023, %rcx                     # imm = 0x3FF
	jb	.LBB11_502
# %bb.500:                              # %join.3.i.i.i1218.2
	xorps	%xmm0, %xmm0
	movaps	%xmm0, 80(%rsp)
	movaps	%xmm0, 64(%rsp)
	movaps	%xmm0, 48(%rsp)
	movaps	%xmm0, 32(%rsp)
	movaps	%xmm0, 16(%rsp)
	movaps	%xmm0, (%rsp)
	movq	$0, 1032(%rbx)
	movl	(%rbx), %esi
	movq	%rsp, %rdi
	movl	$1024, %ecx                     # imm = 0x400
	movq	%r14, %rdx
	callq	"std_io::io::write_to"
	cmpb	$0, (%rsp)
	jne	.LBB11_587
# %bb.501:                              # %after.1.i.i1225.2
	movq	1032(%rbx), %rdx
	movb	$1, %al
	cmpq	$1023, %rdx                     # imm = 0x3FF
	ja	.LBB11_589
.LBB11_502:                             # %"std_io::io::buffer::Buffer::push.exit.i1209.2"
	movb	$105, 4(%rbx,%rdx)
	leaq	1(%rdx), %rcx
	movq	%rcx, 1032(%rbx)
	cmpq	$1023, %rdx                     # imm = 0x3FF
	jb	.LBB11_505
# %bb.503:                              # %join.3.i.i.i1218.3
	xorps	%xmm0, %xmm0
	movaps	%xmm0, 80(%rsp)
	movaps	%xmm0, 64(%rsp)
	movaps	%xmm0, 48(%rsp)
	movaps	%xmm0, 32(%rsp)
	movaps	%xmm0, 16(%rsp)
	movaps	%xmm0, (%rsp)
	movq	$0, 1032(%rbx)
	movl	(%rbx), %esi
	movq	%rsp, %rdi
	movl	$1024, %ecx                     # imm = 0x400
	movq	%r14, %rdx
	callq	"std_io::io::write_to"
	cmpb	$0, (%rsp)
	jne	.LBB11_587
# %bb.504:                              # %after.1.i.i1225.3
	movq	1032(%rbx), %rcx
	movb	$1, %al
	cmpq	$1023, %rcx                     # imm = 0x3FF
	ja	.LBB11_589
.LBB11_505:                             # %"std_io::io::buffer::Buffer::push.exit.i1209.3"
	movb	$116, 4(%rbx,%rcx)
	leaq	1(%rcx), %rdx
	movq	%rdx, 1032(%rbx)
	cmpq	$1023, %rcx                     # imm = 0x3FF
	jb	.LBB11_508
# %bb.506:                              # %join.3.i.i.i1218.4
	xorps	%xmm0, %xmm0
	movaps	%xmm0, 80(%rsp)
	movaps	%xmm0, 64(%rsp)
	movaps	%xmm0, 48(%rsp)
	movaps	%xmm0, 32(%rsp)
	movaps	%xmm0, 16(%rsp)
	movaps	%xmm0, (%rsp)
	movq	$0, 1032(%rbx)
	movl	(%rbx), %esi
	movq	%rsp, %rdi
	movl	$1024, %ecx                     # imm = 0x400
	movq	%r14, %rdx
	callq	"std_io::io::write_to"
	cmpb	$0, (%rsp)
	jne	.LBB11_587
# %bb.507:                              # %after.1.i.i1225.4
	movq	1032(%rbx), %rdx
	movb	$1, %al
	cmpq	$1023, %rdx                     # imm = 0x3FF
	ja	.LBB11_589
.LBB11_508:                             # %"std_io::io::buffer::Buffer::push.exit.i1209.4"
	movb	$101, 4(%rbx,%rdx)
	leaq	1(%rdx), %rcx
	movq	%rcx, 1032(%rbx)
	cmpq	$1023, %rdx                     # imm = 0x3FF
	jb	.LBB11_511
# %bb.509:                              # %join.3.i.i.i1218.5
	xorps	%xmm0, %xmm0
	movaps	%xmm0, 80(%rsp)
	movaps	%xmm0, 64(%rsp)
	movaps	%xmm0, 48(%rsp)
	movaps	%xmm0, 32(%rsp)
	movaps	%xmm0, 16(%rsp)
	movaps	%xmm0, (%rsp)
	movq	$0, 1032(%rbx)
	movl	(%rbx), %esi
	movq	%rsp, %rdi
	movl	$1024, %ecx                     # imm = 0x400
	movq	%r14, %rdx
	callq	"std_io::io::write_to"
	cmpb	$0, (%rsp)
	jne	.LBB11_587
# %bb.510:                              # %after.1.i.i1225.5
	movq	1032(%rbx), %rcx
	movb	$1, %al
	cmpq	$1023, %rcx                     # imm = 0x3FF
	ja	.LBB11_589
.LBB11_511:                             # %"std_io::io::buffer::Buffer::push.exit.i1209.5"
	movb	$32, 4(%rbx,%rcx)
	leaq	1(%rcx), %rdx
	movq	%rdx, 1032(%rbx)
	cmpq	$1023, %rcx                     # imm = 0x3FF
	jb	.LBB11_514
# %bb.512:                              # %join.3.i.i.i1218.6
	xorps	%xmm0, %xmm0
	movaps	%xmm0, 80(%rsp)
	movaps	%xmm0, 64(%rsp)
	movaps	%xmm0, 48(%rsp)
	movaps	%xmm0, 32(%rsp)
	movaps	%xmm0, 16(%rsp)
	movaps	%xmm0, (%rsp)
	movq	$0, 1032(%rbx)
	movl	(%rbx), %esi
	movq	%rsp, %rdi
	movl	$1024, %ecx                     # imm = 0x400
	movq	%r14, %rdx
	callq	"std_io::io::write_to"
	cmpb	$0, (%rsp)
	jne	.LBB11_587
# %bb.513:                              # %after.1.i.i1225.6
	movq	1032(%rbx), %rdx
	movb	$1, %al
	cmpq	$1023, %rdx                     # imm = 0x3FF
	ja	.LBB11_589
.LBB11_514:                             # %"std_io::io::buffer::Buffer::push.exit.i1209.6"
	movb	$122, 4(%rbx,%rdx)
	leaq	1(%rdx), %rcx
	movq	%rcx, 1032(%rbx)
	cmpq	$1023, %rdx                     # imm = 0x3FF
	jb	.LBB11_517
# %bb.515:                              # %join.3.i.i.i1218.7
	xorps	%xmm0, %xmm0
	movaps	%xmm0, 80(%rsp)
	movaps	%xmm0, 64(%rsp)
	movaps	%xmm0, 48(%rsp)
	movaps	%xmm0, 32(%rsp)
	movaps	%xmm0, 16(%rsp)
	movaps	%xmm0, (%rsp)
	movq	$0, 1032(%rbx)
	movl	(%rbx), %esi
	movq	%rsp, %rdi
	movl	$1024, %ecx                     # imm = 0x400
	movq	%r14, %rdx
	callq	"std_io::io::write_to"
	cmpb	$0, (%rsp)
	jne	.LBB11_587
# %bb.516:                              # %after.1.i.i1225.7
	movq	1032(%rbx), %rcx
	movb	$1, %al
	cmpq	$1023, %rcx                     # imm = 0x3FF
	ja	.LBB11_589
.LBB11_517:                             # %"std_io::io::buffer::Buffer::push.exit.i1209.7"
	movb	$101, 4(%rbx,%rcx)
	leaq	1(%rcx), %rdx
	movq	%rdx, 1032(%rbx)
	cmpq	$1023, %rcx                     # imm = 0x3FF
	jb	.LBB11_520
# %bb.518:                              # %join.3.i.i.i1218.8
	xorps	%xmm0, %xmm0
	movaps	%xmm0, 80(%rsp)
	movaps	%xmm0, 64(%rsp)
	movaps	%xmm0, 48(%rsp)
	movaps	%xmm0, 32(%rsp)
	movaps	%xmm0, 16(%rsp)
	movaps	%xmm0, (%rsp)
	movq	$0, 1032(%rbx)
	movl	(%rbx), %esi
	movq	%rsp, %rdi
	movl	$1024, %ecx                     # imm = 0x400
	movq	%r14, %rdx
	callq	"std_io::io::write_to"
	cmpb	$0, (%rsp)
	jne	.LBB11_587
# %bb.519:                              # %after.1.i.i1225.8
	movq	1032(%rbx), %rdx
	movb	$1, %al
	cmpq	$1023, %rdx                     # imm = 0x3FF
	ja	.LBB11_589
.LBB11_520:                             # %"std_io::io::buffer::Buffer::push.exit.i1209.8"
	movb	$114, 4(%rbx,%rdx)
	leaq	1(%rdx), %rcx
	movq	%rcx, 1032(%rbx)
	cmpq	$1023, %rdx                     # imm = 0x3FF
	jb	.LBB11_639
# %bb.521:                              # %join.3.i.i.i1218.9
	xorps	%xmm0, %xmm0
	movaps	%xmm0, 80(%rsp)
	movaps	%xmm0, 64(%rsp)
	movaps	%xmm0, 48(%rsp)
	movaps	%xmm0, 32(%rsp)
	movaps	%xmm0, 16(%rsp)
	movaps	%xmm0, (%rsp)
	movq	$0, 1032(%rbx)
	movl	(%rbx), %esi
	movq	%rsp, %rdi
	movl	$1024, %ecx                     # imm = 0x400
	movq	%r14, %rdx
	callq	"std_io::io::write_to"
	cmpb	$0, (%rsp)
	je	.LBB11_638
.LBB11_587:                             # %arm.5.i.i.i1317
	movq	$1, 1040(%rbx)
	movups	8(%rsp), %xmm0
	movups	24(%rsp), %xmm1
	movups	40(%rsp), %xmm2
	movups	56(%rsp), %xmm3
	movups	%xmm0, 1048(%rbx)
	movups	%xmm1, 1064(%rbx)
	movups	%xmm2, 1080(%rbx)
	movups	%xmm3, 1096(%rbx)
	movups	72(%rsp), %xmm0
	movups	%xmm0, 1112(%rbx)
	movq	88(%rsp), %rax
	movq	%rax, 1128(%rbx)
.LBB11_588:                             # %"std_io::io::buffer::Buffer::flush.exit.thread.i.i1313"
	movb	$1, %al
.LBB11_589:                             # %join.44
                                        # kill: def $al killed $al killed $eax
	addq	$104, %rsp
	popq	%rbx
	popq	%r14
	popq	%r15
	popq	%rbp
	retq
.LBB11_523:                             # %arm.29
	testq	%rax, %rax
	jne	.LBB11_630
# %bb.524:                              # %then.1.i154
	leaq	4(%rbx), %r14
	movq	1032(%rbx), %rcx
	xorl	%r15d, %r15d
	jmp	.LBB11_526
	.p2align	4
.LBB11_525:                             # %"std_io::io::buffer::Buffer::push.exit.i1369"
                                        #   in Loop: Header=BB11_526 Depth=1
	movb	%bpl, 4(%rbx,%rcx)
	incq	%rcx
	movq	%rcx, 1032(%rbx)
	incq	%r15
	xorl	%eax, %eax
	cmpq	$13, %r15
	je	.LBB11_589
.LBB11_526:                             # %arm.3.i1361
                                        # =>This Inner Loop Header: Depth=1
	leaq	.Lstatic.44(%rip), %rax
	movzbl	(%r15,%rax), %ebp
	cmpq	$1024, %rcx                     # imm = 0x400
	jb	.LBB11_525
# %bb.527:                              # %then.2.i.i1375
                                        #   in Loop: Header=BB11_526 Depth=1
	xorps	%xmm0, %xmm0
	movaps	%xmm0, 80(%rsp)
	movaps	%xmm0, 64(%rsp)
	movaps	%xmm0, 48(%rsp)
	movaps	%xmm0, 32(%rsp)
	movaps	%xmm0, 16(%rsp)
	movaps	%xmm0, (%rsp)
	movq	$0, 1032(%rbx)
	jne	.LBB11_588
# %bb.528:                              # %join.3.i.i.i1378
                                        #   in Loop: Header=BB11_526 Depth=1
	movl	(%rbx), %esi
	movq	%rsp, %rdi
	movl	$1024, %ecx                     # imm = 0x400
	movq	%r14, %rdx
	callq	"std_io::io::write_to"
	cmpb	$0, (%rsp)
	jne	.LBB11_587
# %bb.529:                              # %after.1.i.i1385
                                        #   in Loop: Header=BB11_526 Depth=1
	movq	1032(%rbx), %rcx
	cmpq	$1023, %rcx                     # imm = 0x3FF
	jbe	.LBB11_525
	jmp	.LBB11_15
.LBB11_531:                             # %arm.30
	testq	%rax, %rax
	jne	.LBB11_631
# %bb.532:                              # %then.1.i142
	leaq	4(%rbx), %r14
	movq	1032(%rbx), %rcx
	xorl	%r15d, %r15d
	jmp	.LBB11_534
	.p2align	4
.LBB11_533:                             # %"std_io::io::buffer::Buffer::push.exit.i1401"
                                        #   in Loop: Header=BB11_534 Depth=1
	movb	%bpl, 4(%rbx,%rcx)
	incq	%rcx
	movq	%rcx, 1032(%rbx)
	incq	%r15
	xorl	%eax, %eax
	cmpq	$20, %r15
	je	.LBB11_589
.LBB11_534:                             # %arm.3.i1393
                                        # =>This Inner Loop Header: Depth=1
	leaq	.Lstatic.45(%rip), %rax
	movzbl	(%r15,%rax), %ebp
	cmpq	$1024, %rcx                     # imm = 0x400
	jb	.LBB11_533
# %bb.535:                              # %then.2.i.i1407
                                        #   in Loop: Header=BB11_534 Depth=1
	xorps	%xmm0, %xmm0
	movaps	%xmm0, 80(%rsp)
	movaps	%xmm0, 64(%rsp)
	movaps	%xmm0, 48(%rsp)
	movaps	%xmm0, 32(%rsp)
	movaps	%xmm0, 16(%rsp)
	movaps	%xmm0, (%rsp)
	movq	$0, 1032(%rbx)
	jne	.LBB11_588
# %bb.536:                              # %join.3.i.i.i1410
                                        #   in Loop: Header=BB11_534 Depth=1
	movl	(%rbx), %esi
	movq	%rsp, %rdi
	movl	$1024, %ecx                     # imm = 0x400
	movq	%r14, %rdx
	callq	"std_io::io::write_to"
	cmpb	$0, (%rsp)
	jne	.LBB11_587
# %bb.537:                              # %after.1.i.i1417
                                        #   in Loop: Header=BB11_534 Depth=1
	movq	1032(%rbx), %rcx
	cmpq	$1023, %rcx                     # imm = 0x3FF
	jbe	.LBB11_533
	jmp	.LBB11_15
.LBB11_539:                             # %arm.39
	testq	%rax, %rax
	jne	.LBB11_632
# %bb.540:                              # %then.1.i34
	leaq	4(%rbx), %r14
	movq	1032(%rbx), %rcx
	xorl	%r15d, %r15d
	jmp	.LBB11_542
	.p2align	4
.LBB11_541:                             # %"std_io::io::buffer::Buffer::push.exit.i1689"
                                        #   in Loop: Header=BB11_542 Depth=1
	movb	%bpl, 4(%rbx,%rcx)
	incq	%rcx
	movq	%rcx, 1032(%rbx)
	incq	%r15
	xorl	%eax, %eax
	cmpq	$13, %r15
	je	.LBB11_589
.LBB11_542:                             # %arm.3.i1681
                                        # =>This Inner Loop Header: Depth=1
	leaq	.Lstatic.54(%rip), %rax
	movzbl	(%r15,%rax), %ebp
	cmpq	$1024, %rcx                     # imm = 0x400
	jb	.LBB11_541
# %bb.543:                              # %then.2.i.i1695
                                        #   in Loop: Header=BB11_542 Depth=1
	xorps	%xmm0, %xmm0
	movaps	%xmm0, 80(%rsp)
	movaps	%xmm0, 64(%rsp)
	movaps	%xmm0, 48(%rsp)
	movaps	%xmm0, 32(%rsp)
	movaps	%xmm0, 16(%rsp)
	movaps	%xmm0, (%rsp)
	movq	$0, 1032(%rbx)
	jne	.LBB11_588
# %bb.544:                              # %join.3.i.i.i1698
                                        #   in Loop: Header=BB11_542 Depth=1
	movl	(%rbx), %esi
	movq	%rsp, %rdi
	movl	$1024, %ecx                     # imm = 0x400
	movq	%r14, %rdx
	callq	"std_io::io::write_to"
	cmpb	$0, (%rsp)
	jne	.LBB11_587
# %bb.545:                              # %after.1.i.i1705
                                        #   in Loop: Header=BB11_542 Depth=1
	movq	1032(%rbx), %rcx
	cmpq	$1023, %rcx                     # imm = 0x3FF
	jbe	.LBB11_541
	jmp	.LBB11_15
.LBB11_547:                             # %arm.27
	testq	%rax, %rax
	jne	.LBB11_633
# %bb.548:                              # %then.1.i178
	leaq	4(%rbx), %r14
	movq	1032(%rbx), %rcx
	xorl	%r15d, %r15d
	jmp	.LBB11_550
	.p2align	4
.LBB11_549:                             # %"std_io::io::buffer::Buffer::push.exit.i1305"
                                        #   in Loop: Header=BB11_550 Depth=1
	movb	%bpl, 4(%rbx,%rcx)
	incq	%rcx
	movq	%rcx, 1032(%rbx)
	incq	%r15
	xorl	%eax, %eax
	cmpq	$14, %r15
	je	.LBB11_589
.LBB11_550:                             # %arm.3.i1297
                                        # =>This Inner Loop Header: Depth=1
	leaq	.Lstatic.42(%rip), %rax
	movzbl	(%r15,%rax), %ebp
	cmpq	$1024, %rcx                     # imm = 0x400
	jb	.LBB11_549
# %bb.551:                              # %then.2.i.i1311
                                        #   in Loop: Header=BB11_550 Depth=1
	xorps	%xmm0, %xmm0
	movaps	%xmm0, 80(%rsp)
	movaps	%xmm0, 64(%rsp)
	movaps	%xmm0, 48(%rsp)
	movaps	%xmm0, 32(%rsp)
	movaps	%xmm0, 16(%rsp)
	movaps	%xmm0, (%rsp)
	movq	$0, 1032(%rbx)
	jne	.LBB11_588
# %bb.552:                              # %join.3.i.i.i1314
                                        #   in Loop: Header=BB11_550 Depth=1
	movl	(%rbx), %esi
	movq	%rsp, %rdi
	movl	$1024, %ecx                     # imm = 0x400
	movq	%r14, %rdx
	callq	"std_io::io::write_to"
	cmpb	$0, (%rsp)
	jne	.LBB11_587
# %bb.553:                              # %after.1.i.i1321
                                        #   in Loop: Header=BB11_550 Depth=1
	movq	1032(%rbx), %rcx
	cmpq	$1023, %rcx                     # imm = 0x3FF
	jbe	.LBB11_549
.LBB11_15:
	movb	$1, %al
	jmp	.LBB11_589
.LBB11_590:                             # %else.2.i40
	leaq	.Lstatic.53(%rip), %rsi
	movl	$22, %edx
	jmp	.LBB11_611
.LBB11_591:                             # %else.2.i64
	leaq	.Lstatic.51(%rip), %rsi
	movl	$21, %edx
	jmp	.LBB11_611
.LBB11_592:                             # %else.2.i52
	leaq	.Lstatic.52(%rip), %rsi
	movl	$11, %edx
	jmp	.LBB11_611
.LBB11_593:                             # %else.2.i160
	leaq	.Lstatic.43(%rip), %rsi
	movl	$14, %edx
	jmp	.LBB11_611
.LBB11_594:                             # %else.2.i76
	leaq	.Lstatic.50(%rip), %rsi
	movl	$22, %edx
	jmp	.LBB11_611
.LBB11_595:                             # %else.2.i292
	leaq	.Lstatic.32(%rip), %rsi
	movl	$19, %edx
	jmp	.LBB11_611
.LBB11_596:                             # %else.2.i316
	leaq	.Lstatic.30(%rip), %rsi
	movl	$15, %edx
	jmp	.LBB11_611
.LBB11_597:                             # %else.2.i88
	leaq	.Lstatic.49(%rip), %rsi
	jmp	.LBB11_610
.LBB11_598:                             # %else.2.i352
	leaq	.Lstatic.27(%rip), %rsi
	movl	$11, %edx
	jmp	.LBB11_611
.LBB11_599:                             # %else.2.i436
	leaq	.Lstatic.20(%rip), %rsi
	jmp	.LBB11_610
.LBB11_600:                             # %else.2.i4
	leaq	.Lstatic.56(%rip), %rsi
	movl	$11, %edx
	jmp	.LBB11_611
.LBB11_601:                             # %else.2.i340
	leaq	.Lstatic.28(%rip), %rsi
	movl	$21, %edx
	jmp	.LBB11_611
.LBB11_602:                             # %else.2.i376
	leaq	.Lstatic.25(%rip), %rsi
	movl	$21, %edx
	jmp	.LBB11_611
.LBB11_603:                             # %else.2.i184
	leaq	.Lstatic.41(%rip), %rsi
	movl	$23, %edx
	jmp	.LBB11_611
.LBB11_604:                             # %else.2.i196
	leaq	.Lstatic.40(%rip), %rsi
	jmp	.LBB11_610
.LBB11_605:                             # %else.2.i460
	leaq	.Lstatic.18(%rip), %rsi
	movl	$18, %edx
	jmp	.LBB11_611
.LBB11_606:                             # %else.2.i304
	leaq	.Lstatic.31(%rip), %rsi
	movl	$14, %edx
	jmp	.LBB11_611
.LBB11_607:                             # %else.2.i448
	leaq	.Lstatic.19(%rip), %rsi
	jmp	.LBB11_610
.LBB11_608:                             # %else.2.i400
	leaq	.Lstatic.23(%rip), %rsi
	movl	$13, %edx
	jmp	.LBB11_611
.LBB11_609:                             # %else.2.i484
	leaq	.Lstatic.16(%rip), %rsi
.LBB11_610:                             # %else.2.i484
	movl	$16, %edx
.LBB11_611:                             # %else.2.i484
	movq	%rbx, %rdi
	addq	$104, %rsp
	popq	%rbx
	popq	%r14
	popq	%r15
	popq	%rbp
	jmp	"core::fmt::formatter::Formatter::write_indented::<#bf264aed5fa78656>" # TAILCALL
.LBB11_612:                             # %else.2.i472
	leaq	.Lstatic.17(%rip), %rsi
	movl	$17, %edx
	jmp	.LBB11_611
.LBB11_613:                             # %else.2.i112
	leaq	.Lstatic.47(%rip), %rsi
	movl	$27, %edx
	jmp	.LBB11_611
.LBB11_614:                             # %else.2.i280
	leaq	.Lstatic.33(%rip), %rsi
	movl	$38, %edx
	jmp	.LBB11_611
.LBB11_615:                             # %else.2.i
	leaq	.Lstatic.57(%rip), %rsi
	movl	$19, %edx
	jmp	.LBB11_611
.LBB11_616:                             # %else.2.i244
	leaq	.Lstatic.36(%rip), %rsi
	movl	$23, %edx
	jmp	.LBB11_611
.LBB11_617:                             # %else.2.i424
	leaq	.Lstatic.21(%rip), %rsi
	movl	$19, %edx
	jmp	.LBB11_611
.LBB11_618:                             # %else.2.i232
	leaq	.Lstatic.37(%rip), %rsi
	movl	$12, %edx
	jmp	.LBB11_611
.LBB11_619:                             # %else.2.i328
	leaq	.Lstatic.29(%rip), %rsi
	movl	$21, %edx
	jmp	.LBB11_611
.LBB11_620:                             # %else.2.i412
	leaq	.Lstatic.22(%rip), %rsi
	movl	$18, %edx
	jmp	.LBB11_611
.LBB11_621:                             # %else.2.i268
	leaq	.Lstatic.34(%rip), %rsi
	movl	$56, %edx
	jmp	.LBB11_611
.LBB11_622:                             # %else.2.i364
	leaq	.Lstatic.26(%rip), %rsi
	movl	$12, %edx
	jmp	.LBB11_611
.LBB11_623:                             # %else.2.i388
	leaq	.Lstatic.24(%rip), %rsi
	movl	$14, %edx
	jmp	.LBB11_611
.LBB11_624:                             # %else.2.i124
	leaq	.Lstatic.46(%rip), %rsi
	movl	$8, %edx
	jmp	.LBB11_611
.LBB11_625:                             # %else.2.i100
	leaq	.Lstatic.48(%rip), %rsi
	movl	$14, %edx
	jmp	.LBB11_611
.LBB11_626:                             # %else.2.i220
	leaq	.Lstatic.38(%rip), %rsi
	movl	$9, %edx
	jmp	.LBB11_611
.LBB11_627:                             # %else.2.i16
	leaq	.Lstatic.55(%rip), %rsi
	movl	$11, %edx
	jmp	.LBB11_611
.LBB11_628:                             # %else.2.i256
	leaq	.Lstatic.35(%rip), %rsi
	movl	$25, %edx
	jmp	.LBB11_611
.LBB11_629:                             # %else.2.i208
	leaq	.Lstatic.39(%rip), %rsi
	movl	$10, %edx
	jmp	.LBB11_611
.LBB11_630:                             # %else.2.i148
	leaq	.Lstatic.44(%rip), %rsi
	movl	$13, %edx
	jmp	.LBB11_611
.LBB11_631:                             # %else.2.i136
	leaq	.Lstatic.45(%rip), %rsi
	movl	$20, %edx
	jmp	.LBB11_611
.LBB11_632:                             # %else.2.i28
	leaq	.Lstatic.54(%rip), %rsi
	movl	$13, %edx
	jmp	.LBB11_611
.LBB11_633:                             # %else.2.i172
	leaq	.Lstatic.42(%rip), %rsi
	movl	$14, %edx
	jmp	.LBB11_611
.LBB11_638:                             # %after.1.i.i1225.9
	movq	1032(%rbx), %rcx
	movb	$1, %al
	cmpq	$1023, %rcx                     # imm = 0x3FF
	ja	.LBB11_589
.LBB11_639:                             # %"std_io::io::buffer::Buffer::push.exit.i1209.9"
	movb	$111, 4(%rbx,%rcx)
.LBB11_653:                             # %join.44
	incq	%rcx
	movq	%rcx, 1032(%rbx)
	xorl	%eax, %eax
	jmp	.LBB11_589
.Lfunc_end11:
	.size	"std_io::io::kind::ErrorKindDisplay::fmt::<#bf264aed5fa78656>", .Lfunc_end11-"std_io::io::kind::ErrorKindDisplay::fmt::<#bf264aed5fa78656>"
	.section	".rodata.std_io::io::kind::ErrorKindDisplay::fmt::<#bf264aed5fa78656>","a",@progbits
	.p2align	2, 0x0
.LJTI11_0:
	.long	.LBB11_1-.LJTI11_0
	.long	.LBB11_234-.LJTI11_0
	.long	.LBB11_205-.LJTI11_0
	.long	.LBB11_220-.LJTI11_0
	.long	.LBB11_133-.LJTI11_0
	.long	.LBB11_273-.LJTI11_0
	.long	.LBB11_325-.LJTI11_0
	.long	.LBB11_227-.LJTI11_0
	.long	.LBB11_378-.LJTI11_0
	.long	.LBB11_182-.LJTI11_0
	.long	.LBB11_340-.LJTI11_0
	.long	.LBB11_98-.LJTI11_0
	.long	.LBB11_175-.LJTI11_0
	.long	.LBB11_318-.LJTI11_0
	.long	.LBB11_83-.LJTI11_0
	.long	.LBB11_212-.LJTI11_0
	.long	.LBB11_75-.LJTI11_0
	.long	.LBB11_249-.LJTI11_0
	.long	.LBB11_332-.LJTI11_0
	.long	.LBB11_483-.LJTI11_0
	.long	.LBB11_265-.LJTI11_0
	.long	.LBB11_280-.LJTI11_0
	.long	.LBB11_419-.LJTI11_0
	.long	.LBB11_491-.LJTI11_0
	.long	.LBB11_197-.LJTI11_0
	.long	.LBB11_189-.LJTI11_0
	.long	.LBB11_547-.LJTI11_0
	.long	.LBB11_59-.LJTI11_0
	.long	.LBB11_523-.LJTI11_0
	.long	.LBB11_531-.LJTI11_0
	.long	.LBB11_385-.LJTI11_0
	.long	.LBB11_241-.LJTI11_0
	.long	.LBB11_411-.LJTI11_0
	.long	.LBB11_90-.LJTI11_0
	.long	.LBB11_67-.LJTI11_0
	.long	.LBB11_16-.LJTI11_0
	.long	.LBB11_24-.LJTI11_0
	.long	.LBB11_8-.LJTI11_0
	.long	.LBB11_539-.LJTI11_0
	.long	.LBB11_448-.LJTI11_0
	.long	.LBB11_140-.LJTI11_0
	.long	.LBB11_257-.LJTI11_0
                                        # -- End function
	.section	".text.loading::load","ax",@progbits
	.p2align	4                               # -- Begin function loading::load
	.type	"loading::load",@function
"loading::load":                        # @"loading::load"
# %bb.0:                                # %start
	pushq	%rbp
	pushq	%r15
	pushq	%r14
	pushq	%r13
	pushq	%r12
	pushq	%rbx
	subq	$1336, %rsp                     # imm = 0x538
	movq	%rdx, %r14
	movq	%rsi, %r15
	movq	%rdi, %r13
	leaq	356(%rsp), %rdi
	xorl	%ebp, %ebp
	movl	$324, %edx                      # imm = 0x144
	xorl	%esi, %esi
	callq	memset@PLT
	leaq	688(%rsp), %r12
	movl	$320, %edx                      # imm = 0x140
	movq	%r12, %rdi
	xorl	%esi, %esi
	callq	memset@PLT
	testq	%r14, %r14
	je	.LBB12_97
# %bb.1:                                # %join.5.lr.ph.i
	xorl	%ebp, %ebp
	xorl	%ebx, %ebx
	movq	%r13, 8(%rsp)                   # 8-byte Spill
.LBB12_2:                               # %join.5.i
                                        # =>This Inner Loop Header: Depth=1
	cmpq	$64, %rbp
	je	.LBB12_3
# %bb.5:                                # %arm.3.i.i.i.i.i
                                        #   in Loop: Header=BB12_2 Depth=1
	movq	%r14, %rdx
	subq	%rbx, %rdx
	cmpq	$1, %rdx
	je	.LBB12_4
# %bb.6:                                # %arm.3.i.i.i.i.i
                                        #   in Loop: Header=BB12_2 Depth=1
	movzbl	(%r15,%rbx), %ecx
	leal	-9(%rcx), %eax
	cmpb	$2, %al
	jb	.LBB12_4
# %bb.7:                                # %arm.3.i.i.i.1.i.i
                                        #   in Loop: Header=BB12_2 Depth=1
	movzbl	1(%r15,%rbx), %eax
	leal	-9(%rax), %esi
	cmpb	$2, %sil
	jae	.LBB12_8
# %bb.14:                               # %"fields::place_of.exit.i.i"
                                        #   in Loop: Header=BB12_2 Depth=1
	addb	$-48, %cl
	cmpb	$9, %cl
	ja	.LBB12_4
# %bb.15:                               #   in Loop: Header=BB12_2 Depth=1
	addq	$2, %rbx
	movl	%eax, %edx
	movl	%ecx, %eax
	cmpb	$10, %dl
	jne	.LBB12_17
	jmp	.LBB12_4
	.p2align	4
.LBB12_8:                               # %join.9.i.i.i.1.i.i
                                        #   in Loop: Header=BB12_2 Depth=1
	cmpq	$2, %rdx
	je	.LBB12_4
# %bb.9:                                # %arm.3.i.i.i.2.i.i
                                        #   in Loop: Header=BB12_2 Depth=1
	movzbl	2(%r15,%rbx), %edx
	leal	-9(%rdx), %esi
	cmpb	$1, %sil
	ja	.LBB12_4
# %bb.10:                               # %then.9.i.i.i
                                        #   in Loop: Header=BB12_2 Depth=1
	addb	$-48, %cl
	cmpb	$9, %cl
	ja	.LBB12_4
# %bb.11:                               # %arm.12.i.i.i
                                        #   in Loop: Header=BB12_2 Depth=1
	addb	$-48, %al
	cmpb	$9, %al
	ja	.LBB12_4
# %bb.12:                               # %arm.17.i.i.i
                                        #   in Loop: Header=BB12_2 Depth=1
	movzbl	%cl, %ecx
	addl	%ecx, %ecx
	leal	(%rcx,%rcx,4), %ecx
	addb	%cl, %al
	leal	-64(%rax), %ecx
	cmpb	$-54, %cl
	jb	.LBB12_4
# %bb.13:                               #   in Loop: Header=BB12_2 Depth=1
	addq	$3, %rbx
	cmpb	$10, %dl
	je	.LBB12_4
.LBB12_17:                              # %arm.5.i.i
                                        #   in Loop: Header=BB12_2 Depth=1
	movzbl	%al, %eax
	cmpq	%rax, %rbp
	jne	.LBB12_4
# %bb.18:                               # %else.2.i.i.i
                                        #   in Loop: Header=BB12_2 Depth=1
	movq	%r14, %rsi
	subq	%rbx, %rsi
	je	.LBB12_4
# %bb.19:                               # %arm.3.i.i.i.i.i.i
                                        #   in Loop: Header=BB12_2 Depth=1
	movzbl	(%r15,%rbx), %eax
	leal	-9(%rax), %edx
	movb	$1, %cl
	cmpb	$2, %dl
	jae	.LBB12_21
# %bb.20:                               #   in Loop: Header=BB12_2 Depth=1
	xorl	%esi, %esi
	movl	%eax, %edx
	jmp	.LBB12_26
	.p2align	4
.LBB12_21:                              # %join.9.i.i.i.i.i.i
                                        #   in Loop: Header=BB12_2 Depth=1
	cmpq	$1, %rsi
	je	.LBB12_4
# %bb.22:                               # %arm.3.i.i.i.i.1.i.i
                                        #   in Loop: Header=BB12_2 Depth=1
	movzbl	1(%r15,%rbx), %edx
	leal	-9(%rdx), %edi
	cmpb	$2, %dil
	jae	.LBB12_24
# %bb.23:                               #   in Loop: Header=BB12_2 Depth=1
	movl	$1, %esi
	xorl	%ecx, %ecx
	jmp	.LBB12_26
.LBB12_24:                              # %join.9.i.i.i.i.1.i.i
                                        #   in Loop: Header=BB12_2 Depth=1
	cmpq	$2, %rsi
	je	.LBB12_4
# %bb.25:                               # %arm.3.i.i.i.i.2.i.i
                                        #   in Loop: Header=BB12_2 Depth=1
	movzbl	2(%r15,%rbx), %edx
	leal	-9(%rdx), %edi
	movl	$2, %esi
	cmpb	$1, %dil
	ja	.LBB12_4
.LBB12_26:                              # %arm.1.i.i.i.i
                                        #   in Loop: Header=BB12_2 Depth=1
	cmpb	$10, %dl
	je	.LBB12_4
# %bb.27:                               # %else.2.i32.i.i
                                        #   in Loop: Header=BB12_2 Depth=1
	leaq	(%rbx,%rsi), %rdx
	incq	%rdx
	movq	%r14, %r9
	subq	%rdx, %r9
	je	.LBB12_4
# %bb.28:                               # %arm.3.i.i.i.i42.i.i
                                        #   in Loop: Header=BB12_2 Depth=1
	cmpq	$1, %r9
	je	.LBB12_4
# %bb.29:                               # %arm.3.i.i.i.i42.i.i
                                        #   in Loop: Header=BB12_2 Depth=1
	movzbl	(%r15,%rdx), %r8d
	leal	-9(%r8), %esi
	cmpb	$2, %sil
	jb	.LBB12_4
# %bb.30:                               # %arm.3.i.i.i.i42.1.i.i
                                        #   in Loop: Header=BB12_2 Depth=1
	movzbl	1(%r15,%rdx), %esi
	leal	-9(%rsi), %edi
	cmpb	$2, %dil
	jae	.LBB12_31
# %bb.44:                               # %arm.1.i14.thread
                                        #   in Loop: Header=BB12_2 Depth=1
	movl	$1, %edi
	cmpb	$45, %r8b
	jne	.LBB12_36
# %bb.45:                               #   in Loop: Header=BB12_2 Depth=1
	xorl	%r10d, %r10d
	jmp	.LBB12_51
	.p2align	4
.LBB12_31:                              # %join.9.i.i.i.i45.1.i.i
                                        #   in Loop: Header=BB12_2 Depth=1
	cmpq	$2, %r9
	je	.LBB12_4
# %bb.32:                               # %arm.3.i.i.i.i42.2.i.i
                                        #   in Loop: Header=BB12_2 Depth=1
	movzbl	2(%r15,%rdx), %esi
	leal	-9(%rsi), %r10d
	movl	$2, %edi
	cmpb	$2, %r10b
	jb	.LBB12_35
# %bb.33:                               # %join.9.i.i.i.i45.2.i.i
                                        #   in Loop: Header=BB12_2 Depth=1
	cmpq	$3, %r9
	je	.LBB12_4
# %bb.34:                               # %arm.3.i.i.i.i42.3.i.i
                                        #   in Loop: Header=BB12_2 Depth=1
	movzbl	3(%r15,%rdx), %esi
	leal	-9(%rsi), %r9d
	movl	$3, %edi
	cmpb	$1, %r9b
	ja	.LBB12_4
.LBB12_35:                              # %arm.1.i14
                                        #   in Loop: Header=BB12_2 Depth=1
	cmpb	$45, %r8b
	je	.LBB12_4
.LBB12_36:                              # %default.9.i
                                        #   in Loop: Header=BB12_2 Depth=1
	addb	$-49, %r8b
	cmpb	$9, %r8b
	jae	.LBB12_4
# %bb.37:                               # %arm.1.i.i.i
                                        #   in Loop: Header=BB12_2 Depth=1
	movzbl	(%r15,%rdx), %r8d
	addb	$-48, %r8b
	cmpb	$9, %r8b
	ja	.LBB12_4
# %bb.38:                               # %"fields::longer.exit.i.i"
                                        #   in Loop: Header=BB12_2 Depth=1
	cmpl	$1, %edi
	je	.LBB12_50
# %bb.39:                               # %join.6.i.i.1
                                        #   in Loop: Header=BB12_2 Depth=1
	movzbl	1(%r15,%rdx), %r10d
	leal	-48(%r10), %r9d
	cmpb	$9, %r9b
	ja	.LBB12_4
# %bb.40:                               # %join.6.i.i.1
                                        #   in Loop: Header=BB12_2 Depth=1
	movzbl	%r8b, %r8d
	addl	%r8d, %r8d
	leal	(%r8,%r8,4), %r8d
	movb	$47, %r11b
	subb	%r10b, %r11b
	cmpb	%r11b, %r8b
	ja	.LBB12_4
# %bb.41:                               # %"fields::longer.exit.i.i.1"
                                        #   in Loop: Header=BB12_2 Depth=1
	addb	%r8b, %r9b
	cmpb	$-56, %r9b
	ja	.LBB12_4
# %bb.42:                               # %loop.3.i.i.1
                                        #   in Loop: Header=BB12_2 Depth=1
	cmpl	$2, %edi
	jne	.LBB12_46
# %bb.43:                               #   in Loop: Header=BB12_2 Depth=1
	movl	%r9d, %r8d
	jmp	.LBB12_50
.LBB12_46:                              # %join.6.i.i.2
                                        #   in Loop: Header=BB12_2 Depth=1
	cmpb	$25, %r9b
	ja	.LBB12_4
# %bb.47:                               # %arm.1.i.i.i.2
                                        #   in Loop: Header=BB12_2 Depth=1
	movzbl	2(%r15,%rdx), %r10d
	leal	-48(%r10), %r8d
	cmpb	$9, %r8b
	ja	.LBB12_4
# %bb.48:                               # %arm.1.i.i.i.2
                                        #   in Loop: Header=BB12_2 Depth=1
	movzbl	%r9b, %r9d
	addl	%r9d, %r9d
	leal	(%r9,%r9,4), %r9d
	movb	$47, %r11b
	subb	%r10b, %r11b
	cmpb	%r11b, %r9b
	ja	.LBB12_4
# %bb.49:                               # %arm.1.i.i.i.2
                                        #   in Loop: Header=BB12_2 Depth=1
	addb	%r9b, %r8b
	cmpb	$-56, %r8b
	ja	.LBB12_4
.LBB12_50:                              # %"fields::account_of.exit.loopexit"
                                        #   in Loop: Header=BB12_2 Depth=1
	movzbl	%r8b, %r10d
.LBB12_51:                              # %"fields::account_of.exit"
                                        #   in Loop: Header=BB12_2 Depth=1
	testb	%cl, %cl
	jne	.LBB12_4
# %bb.52:                               # %then.6.i82.i.i
                                        #   in Loop: Header=BB12_2 Depth=1
	leaq	(%rdx,%rdi), %rbx
	incq	%rbx
	cmpb	$10, %sil
	jne	.LBB12_55
# %bb.53:                               # %then.1.i
                                        #   in Loop: Header=BB12_2 Depth=1
	cmpb	$69, %al
	jne	.LBB12_70
# %bb.54:                               #   in Loop: Header=BB12_2 Depth=1
	xorl	%ecx, %ecx
	jmp	.LBB12_96
	.p2align	4
.LBB12_55:                              # %join.3.i
                                        #   in Loop: Header=BB12_2 Depth=1
	movq	%r14, %rcx
	subq	%rbx, %rcx
	je	.LBB12_70
# %bb.56:                               # %arm.3.i.i.i.i
                                        #   in Loop: Header=BB12_2 Depth=1
	leaq	(%r15,%rbx), %rdx
	movzbl	(%rdx), %edi
	leal	-9(%rdi), %esi
	cmpb	$2, %sil
	jae	.LBB12_58
# %bb.57:                               #   in Loop: Header=BB12_2 Depth=1
	xorl	%r8d, %r8d
	movl	%edi, %r9d
	xorl	%ecx, %ecx
	movzbl	%al, %esi
	addq	%rcx, %rbx
	incq	%rbx
	cmpb	$10, %r9b
	je	.LBB12_65
	jmp	.LBB12_86
.LBB12_58:                              # %join.9.i.i.i.i
                                        #   in Loop: Header=BB12_2 Depth=1
	cmpq	$1, %rcx
	je	.LBB12_70
# %bb.59:                               # %arm.3.i.i.i.1.i
                                        #   in Loop: Header=BB12_2 Depth=1
	movzbl	1(%rdx), %r9d
	leal	-9(%r9), %esi
	cmpb	$2, %sil
	jae	.LBB12_61
# %bb.60:                               #   in Loop: Header=BB12_2 Depth=1
	movl	$1, %ecx
	movb	$1, %r8b
	movzbl	%al, %esi
	addq	%rcx, %rbx
	incq	%rbx
	cmpb	$10, %r9b
	jne	.LBB12_86
.LBB12_65:                              # %then.11.i
                                        #   in Loop: Header=BB12_2 Depth=1
	cmpl	$75, %esi
	je	.LBB12_71
# %bb.66:                               # %then.11.i
                                        #   in Loop: Header=BB12_2 Depth=1
	cmpl	$90, %esi
	je	.LBB12_78
# %bb.67:                               # %then.11.i
                                        #   in Loop: Header=BB12_2 Depth=1
	cmpl	$76, %esi
	jne	.LBB12_70
# %bb.68:                               # %arm.1.i19.i
                                        #   in Loop: Header=BB12_2 Depth=1
	testb	%r8b, %r8b
	je	.LBB12_70
# %bb.69:                               # %"scanning::letter_of.exit.i.i"
                                        #   in Loop: Header=BB12_2 Depth=1
	movl	%edi, %ecx
	andb	$127, %cl
	addb	$-127, %cl
	movl	$256, %eax                      # imm = 0x100
	cmpb	$-94, %cl
	jae	.LBB12_85
	jmp	.LBB12_70
.LBB12_61:                              # %join.9.i.i.i.1.i
                                        #   in Loop: Header=BB12_2 Depth=1
	cmpq	$2, %rcx
	je	.LBB12_70
# %bb.62:                               # %arm.3.i.i.i.2.i
                                        #   in Loop: Header=BB12_2 Depth=1
	movzbl	2(%rdx), %r9d
	leal	-9(%r9), %ecx
	cmpb	$1, %cl
	ja	.LBB12_70
# %bb.63:                               #   in Loop: Header=BB12_2 Depth=1
	movl	$2, %ecx
	xorl	%r8d, %r8d
	movzbl	%al, %esi
	addq	%rcx, %rbx
	incq	%rbx
	cmpb	$10, %r9b
	je	.LBB12_65
.LBB12_86:                              # %join.13.i
                                        #   in Loop: Header=BB12_2 Depth=1
	movq	%r14, %rdi
	subq	%rbx, %rdi
	je	.LBB12_70
# %bb.87:                               # %arm.3.i.i.i49.i
                                        #   in Loop: Header=BB12_2 Depth=1
	leaq	(%r15,%rbx), %r8
	movzbl	(%r8), %eax
	leal	-9(%rax), %r9d
	cmpb	$2, %r9b
	jae	.LBB12_89
# %bb.88:                               #   in Loop: Header=BB12_2 Depth=1
	xorl	%r9d, %r9d
	jmp	.LBB12_93
.LBB12_89:                              # %join.9.i.i.i52.i
                                        #   in Loop: Header=BB12_2 Depth=1
	cmpq	$1, %rdi
	je	.LBB12_70
# %bb.90:                               # %arm.3.i.i.i49.1.i
                                        #   in Loop: Header=BB12_2 Depth=1
	movzbl	1(%r8), %eax
	leal	-9(%rax), %r11d
	movl	$1, %r9d
	cmpb	$2, %r11b
	jb	.LBB12_93
# %bb.91:                               # %join.9.i.i.i52.1.i
                                        #   in Loop: Header=BB12_2 Depth=1
	cmpq	$2, %rdi
	je	.LBB12_70
# %bb.92:                               # %arm.3.i.i.i49.2.i
                                        #   in Loop: Header=BB12_2 Depth=1
	movzbl	2(%r8), %eax
	leal	-9(%rax), %edi
	movl	$2, %r9d
	cmpb	$1, %dil
	ja	.LBB12_70
.LBB12_93:                              # %arm.17.i
                                        #   in Loop: Header=BB12_2 Depth=1
	cmpb	$10, %al
	jne	.LBB12_70
# %bb.94:                               # %then.20.i
                                        #   in Loop: Header=BB12_2 Depth=1
	leaq	3(%rsp), %rdi
	movq	%r14, %r13
	movq	%r10, %r14
	movq	%r12, 16(%rsp)                  # 8-byte Spill
	movq	%r9, %r12
	callq	"scanning::parse_two"
	movq	%r12, %rax
	movq	16(%rsp), %r12                  # 8-byte Reload
	cmpb	$1, 3(%rsp)
	jne	.LBB12_70
# %bb.95:                               # %arm.23.i
                                        #   in Loop: Header=BB12_2 Depth=1
	movq	%r14, %r10
	movq	%r13, %r14
	addq	%rax, %rbx
	incq	%rbx
	movl	4(%rsp), %ecx
	jmp	.LBB12_96
.LBB12_78:                              # %arm.3.i.i
                                        #   in Loop: Header=BB12_2 Depth=1
	cmpl	$1, %ecx
	je	.LBB12_83
# %bb.79:                               # %arm.3.i.i
                                        #   in Loop: Header=BB12_2 Depth=1
	testq	%rcx, %rcx
	je	.LBB12_70
# %bb.80:                               # %then.9.i23.i.i
                                        #   in Loop: Header=BB12_2 Depth=1
	addb	$-48, %dil
	cmpb	$9, %dil
	ja	.LBB12_70
# %bb.81:                               # %arm.12.i26.i.i
                                        #   in Loop: Header=BB12_2 Depth=1
	movzbl	1(%rdx), %ecx
	addb	$-48, %cl
	cmpb	$9, %cl
	ja	.LBB12_70
# %bb.82:                               # %arm.17.i30.i.i
                                        #   in Loop: Header=BB12_2 Depth=1
	movzbl	%dil, %eax
	addl	%eax, %eax
	leal	(%rax,%rax,4), %eax
	addb	%al, %cl
	leal	-64(%rcx), %edx
	movl	$259, %eax                      # imm = 0x103
	jmp	.LBB12_76
.LBB12_71:                              # %arm.2.i18.i
                                        #   in Loop: Header=BB12_2 Depth=1
	cmpl	$1, %ecx
	je	.LBB12_77
# %bb.72:                               # %arm.2.i18.i
                                        #   in Loop: Header=BB12_2 Depth=1
	testq	%rcx, %rcx
	je	.LBB12_70
# %bb.73:                               # %then.9.i.i.i7
                                        #   in Loop: Header=BB12_2 Depth=1
	addb	$-48, %dil
	cmpb	$9, %dil
	ja	.LBB12_70
# %bb.74:                               # %arm.12.i.i.i9
                                        #   in Loop: Header=BB12_2 Depth=1
	movzbl	1(%rdx), %ecx
	addb	$-48, %cl
	cmpb	$9, %cl
	ja	.LBB12_70
# %bb.75:                               # %arm.17.i.i.i11
                                        #   in Loop: Header=BB12_2 Depth=1
	movzbl	%dil, %eax
	addl	%eax, %eax
	leal	(%rax,%rax,4), %eax
	addb	%al, %cl
	leal	-64(%rcx), %edx
	movl	$3, %eax
.LBB12_76:                              # %arm.17.i.i.i11
                                        #   in Loop: Header=BB12_2 Depth=1
	movl	%ecx, %edi
	cmpb	$-54, %dl
	jae	.LBB12_85
	jmp	.LBB12_70
.LBB12_83:                              # %"fields::place_of.exit34.i.i"
                                        #   in Loop: Header=BB12_2 Depth=1
	addb	$-48, %dil
	movl	$259, %eax                      # imm = 0x103
	jmp	.LBB12_84
.LBB12_77:                              # %"fields::place_of.exit.i.i5"
                                        #   in Loop: Header=BB12_2 Depth=1
	addb	$-48, %dil
	movl	$3, %eax
.LBB12_84:                              # %"fields::place_of.exit34.i.i"
                                        #   in Loop: Header=BB12_2 Depth=1
	cmpb	$9, %dil
	ja	.LBB12_70
.LBB12_85:                              # %arm.14.i4
                                        #   in Loop: Header=BB12_2 Depth=1
	movzbl	%dil, %ecx
	shll	$16, %ecx
	orq	%rax, %rcx
.LBB12_96:                              # %arm.9.i
                                        #   in Loop: Header=BB12_2 Depth=1
	movq	%rcx, %rax
	shlq	$8, %rax
	orq	%r10, %rax
	shrl	$24, %ecx
	movb	%cl, 4(%r12)
	movl	%eax, (%r12)
	incq	%rbp
	addq	$5, %r12
	cmpq	%rbx, %r14
	movq	8(%rsp), %r13                   # 8-byte Reload
	ja	.LBB12_2
.LBB12_97:                              # %arm.1
	movq	%rbp, 680(%rsp)
	leaq	684(%rsp), %rsi
	leaq	1012(%rsp), %r14
	movl	$324, %edx                      # imm = 0x144
	movq	%r14, %rdi
	callq	memcpy@PLT
	movl	%ebp, 24(%rsp)
	leaq	28(%rsp), %rdi
	movl	$324, %edx                      # imm = 0x144
	movq	%r14, %rsi
	callq	memcpy@PLT
	movq	24(%rsp), %rbx
	testq	%rbx, %rbx
	je	.LBB12_98
# %bb.100:                              # %join.7
	leaq	24(%rsp), %rdi
	callq	"syntax::naming::tree_fault_of"
	movl	%eax, %ebp
	cmpb	$1, %al
	jne	.LBB12_102
# %bb.101:                              # %arm.8
	movq	%rdx, %rbx
	jmp	.LBB12_103
.LBB12_98:                              # %then.5
	movl	$1, (%r13)
	addq	$4, %r13
	movl	$332, %edx                      # imm = 0x14C
	jmp	.LBB12_99
.LBB12_102:                             # %arm.9
	leaq	356(%rsp), %rdi
	leaq	1012(%rsp), %rsi
	movl	$324, %edx                      # imm = 0x144
	callq	memcpy@PLT
.LBB12_103:                             # %join.10
	movzbl	%bpl, %eax
	movl	%eax, (%r13)
	movl	%eax, 4(%r13)
	movl	%ebx, 8(%r13)
	addq	$12, %r13
	leaq	356(%rsp), %rsi
	movl	$324, %edx                      # imm = 0x144
	movq	%r13, %rdi
	callq	memcpy@PLT
	addq	$1336, %rsp                     # imm = 0x538
	popq	%rbx
	popq	%r12
	popq	%r13
	popq	%r14
	popq	%r15
	popq	%rbp
	retq
.LBB12_70:                              # %"scanning::scan_node.exit.thread"
	movq	8(%rsp), %r13                   # 8-byte Reload
	jmp	.LBB12_4
.LBB12_3:
	movl	$64, %ebp
.LBB12_4:                               # %arm.2
	movq	$1, (%r13)
	movl	%ebp, 8(%r13)
	addq	$12, %r13
	movl	$324, %edx                      # imm = 0x144
.LBB12_99:                              # %then.5
	movq	%r13, %rdi
	xorl	%esi, %esi
	addq	$1336, %rsp                     # imm = 0x538
	popq	%rbx
	popq	%r12
	popq	%r13
	popq	%r14
	popq	%r15
	popq	%rbp
	jmp	memset@PLT                      # TAILCALL
.Lfunc_end12:
	.size	"loading::load", .Lfunc_end12-"loading::load"
                                        # -- End function
	.section	".text.scanning::parse_two","ax",@progbits
	.p2align	4                               # -- Begin function scanning::parse_two
	.type	"scanning::parse_two",@function
"scanning::parse_two":                  # @"scanning::parse_two"
# %bb.0:                                # %start
	cmpb	$65, %sil
	je	.LBB13_19
# %bb.1:                                # %start
	movzbl	%sil, %eax
	cmpl	$83, %eax
	je	.LBB13_12
# %bb.2:                                # %start
	cmpl	$82, %eax
	jne	.LBB13_8
# %bb.3:                                # %arm.1
	cmpq	$1, %rcx
	jne	.LBB13_8
# %bb.4:                                # %"scanning::letter_of.exit.i"
	xorl	%esi, %esi
	cmpq	$1, %r9
	jne	.LBB13_9
# %bb.5:                                # %"scanning::letter_of.exit.i"
	movzbl	(%rdx), %r10d
	movl	%r10d, %r11d
	andb	$127, %r11b
	addb	$-33, %r11b
	movl	$0, %edx
	movl	$0, %eax
	movl	$0, %ecx
	movl	$0, %r9d
	cmpb	$93, %r11b
	ja	.LBB13_11
# %bb.6:                                # %"scanning::letter_of.exit19.i"
	movzbl	(%r8), %r8d
	movl	%r8d, %r11d
	andb	$127, %r11b
	addb	$-127, %r11b
	xorl	%esi, %esi
	movl	$0, %eax
	movl	$0, %ecx
	cmpb	$-94, %r11b
	jb	.LBB13_11
# %bb.7:                                # %arm.5.i
	cmpb	%r8b, %r10b
	movzbl	%r10b, %ecx
	cmoval	%esi, %ecx
	movzbl	%r8b, %r9d
	cmoval	%esi, %r9d
	setbe	%sil
	leal	(%rsi,%rsi), %eax
	xorl	%edx, %edx
                                        # kill: def $sil killed $sil killed $rsi def $esi
	jmp	.LBB13_11
.LBB13_8:
	xorl	%esi, %esi
.LBB13_9:
	xorl	%edx, %edx
	xorl	%eax, %eax
	xorl	%ecx, %ecx
.LBB13_10:                              # %join.5
	xorl	%r9d, %r9d
.LBB13_11:                              # %join.5
	movb	%sil, (%rdi)
	movb	%dl, 1(%rdi)
	movb	%al, 2(%rdi)
	movb	%cl, 3(%rdi)
	movb	%r9b, 4(%rdi)
	retq
.LBB13_12:                              # %arm.2
	testq	%rcx, %rcx
	je	.LBB13_42
# %bb.13:                               # %arm.2
	cmpq	$1, %rcx
	jne	.LBB13_26
# %bb.14:                               # %"fields::place_of.exit"
	movzbl	(%rdx), %eax
	addb	$-48, %al
	cmpb	$9, %al
	ja	.LBB13_42
.LBB13_15:                              # %arm.6
	testq	%r9, %r9
	je	.LBB13_42
# %bb.16:                               # %arm.6
	cmpq	$1, %r9
	jne	.LBB13_34
# %bb.17:                               # %"fields::place_of.exit27"
	movzbl	(%r8), %ecx
	addb	$-48, %cl
	cmpb	$9, %cl
	ja	.LBB13_42
.LBB13_18:
	movb	$1, %sil
	xorl	%r9d, %r9d
	movb	$1, %dl
	jmp	.LBB13_11
.LBB13_19:                              # %arm.3
	testq	%rcx, %rcx
	je	.LBB13_42
# %bb.20:                               # %arm.3
	cmpq	$1, %rcx
	jne	.LBB13_30
# %bb.21:                               # %"fields::place_of.exit55"
	movzbl	(%rdx), %eax
	addb	$-48, %al
	cmpb	$9, %al
	ja	.LBB13_42
.LBB13_22:                              # %arm.13
	testq	%r9, %r9
	je	.LBB13_42
# %bb.23:                               # %arm.13
	cmpq	$1, %r9
	jne	.LBB13_38
# %bb.24:                               # %"fields::place_of.exit83"
	movzbl	(%r8), %ecx
	addb	$-48, %cl
	cmpb	$9, %cl
	ja	.LBB13_42
.LBB13_25:
	movb	$2, %dl
	movb	$1, %sil
	jmp	.LBB13_10
.LBB13_26:                              # %join.8.i
	cmpq	$2, %rcx
	ja	.LBB13_42
# %bb.27:                               # %then.9.i
	movzbl	(%rdx), %ecx
	addb	$-48, %cl
	cmpb	$9, %cl
	ja	.LBB13_42
# %bb.28:                               # %arm.12.i
	movzbl	1(%rdx), %eax
	addb	$-48, %al
	cmpb	$9, %al
	ja	.LBB13_42
# %bb.29:                               # %arm.17.i
	movzbl	%cl, %ecx
	addl	%ecx, %ecx
	leal	(%rcx,%rcx,4), %ecx
	addb	%cl, %al
	leal	-64(%rax), %ecx
	cmpb	$-54, %cl
	jae	.LBB13_15
	jmp	.LBB13_42
.LBB13_30:                              # %join.8.i42
	cmpq	$2, %rcx
	ja	.LBB13_42
# %bb.31:                               # %then.9.i44
	movzbl	(%rdx), %ecx
	addb	$-48, %cl
	cmpb	$9, %cl
	ja	.LBB13_42
# %bb.32:                               # %arm.12.i47
	movzbl	1(%rdx), %eax
	addb	$-48, %al
	cmpb	$9, %al
	ja	.LBB13_42
# %bb.33:                               # %arm.17.i51
	movzbl	%cl, %ecx
	addl	%ecx, %ecx
	leal	(%rcx,%rcx,4), %ecx
	addb	%cl, %al
	leal	-64(%rax), %ecx
	cmpb	$-54, %cl
	jae	.LBB13_22
	jmp	.LBB13_42
.LBB13_34:                              # %join.8.i14
	cmpq	$2, %r9
	ja	.LBB13_42
# %bb.35:                               # %then.9.i16
	movzbl	(%r8), %edx
	addb	$-48, %dl
	cmpb	$9, %dl
	ja	.LBB13_42
# %bb.36:                               # %arm.12.i19
	movzbl	1(%r8), %ecx
	addb	$-48, %cl
	cmpb	$9, %cl
	ja	.LBB13_42
# %bb.37:                               # %arm.17.i23
	movzbl	%dl, %edx
	addl	%edx, %edx
	leal	(%rdx,%rdx,4), %edx
	addb	%dl, %cl
	leal	-64(%rcx), %edx
	cmpb	$-54, %dl
	jae	.LBB13_18
	jmp	.LBB13_42
.LBB13_38:                              # %join.8.i70
	cmpq	$2, %r9
	ja	.LBB13_42
# %bb.39:                               # %then.9.i72
	movzbl	(%r8), %edx
	addb	$-48, %dl
	cmpb	$9, %dl
	ja	.LBB13_42
# %bb.40:                               # %arm.12.i75
	movzbl	1(%r8), %ecx
	addb	$-48, %cl
	cmpb	$9, %cl
	ja	.LBB13_42
# %bb.41:                               # %arm.17.i79
	movzbl	%dl, %edx
	addl	%edx, %edx
	leal	(%rdx,%rdx,4), %edx
	addb	%dl, %cl
	leal	-64(%rcx), %edx
	cmpb	$-54, %dl
	jae	.LBB13_25
.LBB13_42:                              # %arm.7
	movb	$0, 4(%rdi)
	movl	$0, (%rdi)
	retq
.Lfunc_end13:
	.size	"scanning::parse_two", .Lfunc_end13-"scanning::parse_two"
                                        # -- End function
	.section	".text.syntax::naming::tree_fault_of","ax",@progbits
	.p2align	4                               # -- Begin function syntax::naming::tree_fault_of
	.type	"syntax::naming::tree_fault_of",@function
"syntax::naming::tree_fault_of":        # @"syntax::naming::tree_fault_of"
# %bb.0:                                # %start
	pushq	%rbx
	subq	$736, %rsp                      # imm = 0x2E0
	movq	(%rdi), %rbx
	leaq	8(%rdi), %rsi
	leaq	416(%rsp), %rdi
	movl	$320, %edx                      # imm = 0x140
	callq	memcpy@PLT
	movq	%rbx, 408(%rsp)
	movl	$0, (%rsp)
	movl	$0, 3(%rsp)
	xorps	%xmm0, %xmm0
	movaps	%xmm0, 32(%rsp)
	movaps	%xmm0, 48(%rsp)
	movaps	%xmm0, 64(%rsp)
	movb	$0, 80(%rsp)
	testq	%rbx, %rbx
	je	.LBB14_1
# %bb.2:                                # %join.5.lr.ph.i
	leaq	175(%rsp), %rax
	leaq	359(%rsp), %rcx
	leaq	419(%rsp), %rsi
	xorl	%edx, %edx
	xorl	%edi, %edi
	jmp	.LBB14_3
	.p2align	4
.LBB14_5:                               # %"syntax::naming::name_parts.exit.thread21.i"
                                        #   in Loop: Header=BB14_3 Depth=1
	movl	(%rsp), %r8d
	movl	3(%rsp), %r9d
	movl	%r9d, 19(%rsp)
	movl	%r8d, 16(%rsp)
	movaps	32(%rsp), %xmm0
	movaps	48(%rsp), %xmm1
	movaps	64(%rsp), %xmm2
	movaps	%xmm0, 224(%rsp)
	movaps	%xmm1, 240(%rsp)
	movaps	%xmm2, 256(%rsp)
	movzbl	80(%rsp), %r8d
	movb	%r8b, 272(%rsp)
.LBB14_15:                              # %arm.6.i
                                        #   in Loop: Header=BB14_3 Depth=1
	movl	16(%rsp), %r8d
	movl	19(%rsp), %r9d
	movl	%r9d, 3(%rsp)
	movl	%r8d, (%rsp)
	movaps	224(%rsp), %xmm0
	movaps	240(%rsp), %xmm1
	movaps	256(%rsp), %xmm2
	movaps	%xmm0, 32(%rsp)
	movaps	%xmm1, 48(%rsp)
	movaps	%xmm2, 64(%rsp)
	movzbl	272(%rsp), %r8d
	movb	%r8b, 80(%rsp)
	incq	%rdx
	addq	$5, %rsi
	cmpq	%rdx, %rbx
	je	.LBB14_16
.LBB14_3:                               # %join.5.i
                                        # =>This Inner Loop Header: Depth=1
	movzbl	-2(%rsi), %r9d
	movzbl	(%rsi), %r8d
	leal	-1(%r9), %r10d
	cmpl	$2, %r10d
	jae	.LBB14_4
# %bb.10:                               # %after.2.i.i
                                        #   in Loop: Header=BB14_3 Depth=1
	movzbl	-1(%rsi), %r9d
	movl	(%rsp), %r10d
	movl	3(%rsp), %r11d
	movl	%r11d, 347(%rsp)
	movl	%r10d, 344(%rsp)
	movq	%rdi, 351(%rsp)
	movzbl	80(%rsp), %edi
	movb	%dil, 48(%rcx)
	movaps	32(%rsp), %xmm0
	movaps	48(%rsp), %xmm1
	movaps	64(%rsp), %xmm2
	movups	%xmm2, 32(%rcx)
	movups	%xmm1, 16(%rcx)
	movups	%xmm0, (%rcx)
	cmpq	%r9, %rdx
	jbe	.LBB14_20
# %bb.11:                               # %else.4.i8.i.i
                                        #   in Loop: Header=BB14_3 Depth=1
	cmpb	$0, 344(%rsp,%r9)
	jne	.LBB14_20
# %bb.12:                               # %arm.9.i.i
                                        #   in Loop: Header=BB14_3 Depth=1
	movb	$1, 344(%rsp,%r9)
	movups	344(%rsp), %xmm0
	movups	360(%rsp), %xmm1
	movups	376(%rsp), %xmm2
	movups	392(%rsp), %xmm3
	movaps	%xmm3, 208(%rsp)
	movaps	%xmm2, 192(%rsp)
	movaps	%xmm1, 176(%rsp)
	movaps	%xmm0, 160(%rsp)
	cmpq	%r8, %rdx
	ja	.LBB14_8
	jmp	.LBB14_9
	.p2align	4
.LBB14_4:                               # %join.5.i
                                        #   in Loop: Header=BB14_3 Depth=1
	cmpl	$3, %r9d
	jne	.LBB14_5
# %bb.6:                                # %arm.6.i.i
                                        #   in Loop: Header=BB14_3 Depth=1
	movl	(%rsp), %r9d
	movl	3(%rsp), %r10d
	movl	%r10d, 163(%rsp)
	movl	%r9d, 160(%rsp)
	movq	%rdi, 167(%rsp)
	movzbl	80(%rsp), %edi
	movb	%dil, 48(%rax)
	movaps	32(%rsp), %xmm0
	movaps	48(%rsp), %xmm1
	movaps	64(%rsp), %xmm2
	movups	%xmm2, 32(%rax)
	movups	%xmm1, 16(%rax)
	movups	%xmm0, (%rax)
	cmpq	%r8, %rdx
	jbe	.LBB14_9
.LBB14_8:                               # %else.4.i.i.i
                                        #   in Loop: Header=BB14_3 Depth=1
	cmpb	$1, 160(%rsp,%r8)
	jne	.LBB14_13
.LBB14_9:                               # %join.5.i.i.i
                                        #   in Loop: Header=BB14_3 Depth=1
	movl	$0, 11(%rsp)
	movl	$0, 8(%rsp)
	xorps	%xmm0, %xmm0
	movaps	%xmm0, 96(%rsp)
	movaps	%xmm0, 112(%rsp)
	movaps	%xmm0, 128(%rsp)
	movb	$0, 144(%rsp)
	xorl	%edi, %edi
	xorl	%r8d, %r8d
	jmp	.LBB14_14
.LBB14_13:                              # %after.1.i.i.i
                                        #   in Loop: Header=BB14_3 Depth=1
	movb	$1, 160(%rsp,%r8)
	movl	160(%rsp), %edi
	movl	163(%rsp), %r8d
	movl	%edi, 8(%rsp)
	movl	%r8d, 11(%rsp)
	movq	167(%rsp), %rdi
	movups	(%rax), %xmm0
	movups	16(%rax), %xmm1
	movups	32(%rax), %xmm2
	movaps	%xmm0, 96(%rsp)
	movaps	%xmm1, 112(%rsp)
	movaps	%xmm2, 128(%rsp)
	movzbl	48(%rax), %r8d
	movb	%r8b, 144(%rsp)
	movb	$1, %r8b
.LBB14_14:                              # %"syntax::naming::name_parts.exit.i"
                                        #   in Loop: Header=BB14_3 Depth=1
	movl	8(%rsp), %r9d
	movl	11(%rsp), %r10d
	movl	%r10d, 19(%rsp)
	movl	%r9d, 16(%rsp)
	movaps	96(%rsp), %xmm0
	movaps	112(%rsp), %xmm1
	movaps	128(%rsp), %xmm2
	movaps	%xmm0, 224(%rsp)
	movaps	%xmm1, 240(%rsp)
	movaps	%xmm2, 256(%rsp)
	movzbl	144(%rsp), %r9d
	movb	%r9b, 272(%rsp)
	testb	%r8b, %r8b
	jne	.LBB14_15
	jmp	.LBB14_20
.LBB14_1:
	xorl	%edi, %edi
.LBB14_16:                              # %arm.1
	movl	(%rsp), %eax
	movl	3(%rsp), %ecx
	movl	%ecx, 27(%rsp)
	movl	%eax, 24(%rsp)
	movaps	32(%rsp), %xmm0
	movaps	48(%rsp), %xmm1
	movaps	64(%rsp), %xmm2
	movaps	%xmm0, 288(%rsp)
	movaps	%xmm1, 304(%rsp)
	movaps	%xmm2, 320(%rsp)
	movzbl	80(%rsp), %eax
	movb	%al, 336(%rsp)
	movl	24(%rsp), %eax
	movl	27(%rsp), %ecx
	movl	%ecx, 411(%rsp)
	movl	%eax, 408(%rsp)
	movq	%rdi, 415(%rsp)
	movaps	288(%rsp), %xmm0
	movaps	304(%rsp), %xmm1
	movaps	320(%rsp), %xmm2
	movups	%xmm0, 423(%rsp)
	movups	%xmm1, 439(%rsp)
	movups	%xmm2, 455(%rsp)
	movzbl	336(%rsp), %eax
	movb	%al, 471(%rsp)
	cmpq	$1, %rbx
	movl	$1, %eax
	cmovbq	%rbx, %rax
	subq	%rbx, %rax
	movq	$-1, %rcx
	.p2align	4
.LBB14_17:                              # %loop.2.i
                                        # =>This Inner Loop Header: Depth=1
	leaq	(%rax,%rcx), %rdx
	cmpq	$-1, %rdx
	je	.LBB14_18
# %bb.19:                               # %join.5.i3
                                        #   in Loop: Header=BB14_17 Depth=1
	leaq	1(%rcx), %rdx
	cmpb	$0, 409(%rsp,%rcx)
	movq	%rdx, %rcx
	jne	.LBB14_17
.LBB14_20:                              # %arm.2
	movb	$1, %al
                                        # kill: def $al killed $al killed $rax
	addq	$736, %rsp                      # imm = 0x2E0
	popq	%rbx
	retq
.LBB14_18:
	xorl	%eax, %eax
	xorl	%edx, %edx
                                        # kill: def $al killed $al killed $rax
	addq	$736, %rsp                      # imm = 0x2E0
	popq	%rbx
	retq
.Lfunc_end14:
	.size	"syntax::naming::tree_fault_of", .Lfunc_end14-"syntax::naming::tree_fault_of"
                                        # -- End function
	.section	".text.checks::check_tape","ax",@progbits
	.p2align	4                               # -- Begin function checks::check_tape
	.type	"checks::check_tape",@function
"checks::check_tape":                   # @"checks::check_tape"
# %bb.0:                                # %start
	pushq	%rbp
	pushq	%r15
	pushq	%r14
	pushq	%r13
	pushq	%r12
	pushq	%rbx
	subq	$664, %rsp                      # imm = 0x298
	movq	%rdi, %rbx
	movq	(%rsi), %rbp
	leaq	-1(%rbp), %rax
	cmpq	$63, %rax
	ja	.LBB15_12
# %bb.1:                                # %arm.3.i.preheader.i.i
	movq	%rdx, %r12
	movq	%rcx, %r13
	addq	$8, %rsi
	movq	%rbp, 336(%rsp)
	leaq	344(%rsp), %r15
	movl	$320, %edx                      # imm = 0x140
	movq	%r15, %rdi
	movq	%rsi, %r14
	callq	memcpy@PLT
	movq	%rbp, %rax
	jmp	.LBB15_2
.LBB15_6:                               # %arm.2.i.i.i.i.i.i.i.i
                                        #   in Loop: Header=BB15_2 Depth=1
	andb	$127, %cl
	addb	$-33, %cl
	cmpb	$94, %cl
	jae	.LBB15_12
	.p2align	4
.LBB15_10:                              # %loop.2.backedge.i.i.i
                                        #   in Loop: Header=BB15_2 Depth=1
	decq	%rax
	addq	$5, %r15
	testq	%rax, %rax
	je	.LBB15_11
.LBB15_2:                               # %arm.3.i.i.i
                                        # =>This Inner Loop Header: Depth=1
	cmpb	$-56, (%r15)
	ja	.LBB15_12
# %bb.3:                                # %then.1.i.i.i.i.i.i
                                        #   in Loop: Header=BB15_2 Depth=1
	cmpb	$0, 1(%r15)
	jne	.LBB15_10
# %bb.4:                                # %arm.1.i.i.i.i.i.i.i
                                        #   in Loop: Header=BB15_2 Depth=1
	movzbl	2(%r15), %edx
	testl	%edx, %edx
	je	.LBB15_10
# %bb.5:                                # %arm.1.i.i.i.i.i.i.i
                                        #   in Loop: Header=BB15_2 Depth=1
	movzbl	3(%r15), %ecx
	cmpl	$2, %edx
	jne	.LBB15_6
# %bb.7:                                # %arm.3.i.i.i.i.i.i.i.i
                                        #   in Loop: Header=BB15_2 Depth=1
	movzbl	4(%r15), %edx
	cmpb	%dl, %cl
	ja	.LBB15_12
# %bb.8:                                # %arm.3.i.i.i.i.i.i.i.i
                                        #   in Loop: Header=BB15_2 Depth=1
	andb	$127, %cl
	addb	$-33, %cl
	cmpb	$93, %cl
	ja	.LBB15_12
# %bb.9:                                # %arm.3.i.i.i.i.i.i.i.i
                                        #   in Loop: Header=BB15_2 Depth=1
	andb	$127, %dl
	addb	$-33, %dl
	cmpb	$93, %dl
	jbe	.LBB15_10
	jmp	.LBB15_12
.LBB15_11:                              # %"syntax::obeys_rules.exit"
	movq	%rbp, 8(%rsp)
	leaq	16(%rsp), %rdi
	movl	$320, %edx                      # imm = 0x140
	movq	%r14, %rsi
	callq	memcpy@PLT
	leaq	8(%rsp), %rdi
	callq	"syntax::naming::tree_fault_of"
	cmpb	$1, %al
	jne	.LBB15_13
.LBB15_12:                              # %then.1
	movb	$1, (%rbx)
	movq	$1, 4(%rbx)
.LBB15_21:                              # %common.ret
	addq	$664, %rsp                      # imm = 0x298
	popq	%rbx
	popq	%r12
	popq	%r13
	popq	%r14
	popq	%r15
	popq	%rbp
	retq
.LBB15_13:                              # %join.3
	cmpq	$3601, %r13                     # imm = 0xE11
	jb	.LBB15_15
# %bb.14:                               # %then.4
	movb	$1, (%rbx)
	movq	$2, 4(%rbx)
	jmp	.LBB15_21
.LBB15_15:                              # %join.6
	xorl	%eax, %eax
	testq	%r13, %r13
	je	.LBB15_16
	.p2align	4
.LBB15_18:                              # %arm.3.i.i
                                        # =>This Inner Loop Header: Depth=1
	movzbl	(%r12,%rax), %ecx
	andb	$127, %cl
	addb	$-127, %cl
	cmpb	$-94, %cl
	jb	.LBB15_16
# %bb.19:                               # %join.9.i.i
                                        #   in Loop: Header=BB15_18 Depth=1
	incq	%rax
	cmpq	%rax, %r13
	jne	.LBB15_18
	jmp	.LBB15_20
.LBB15_16:                              # %"syntax::first_bad.exit"
	cmpq	%r13, %rax
	jae	.LBB15_20
# %bb.17:                               # %then.7
	movb	$1, (%rbx)
	movl	$3, 4(%rbx)
	movl	%eax, 8(%rbx)
	jmp	.LBB15_21
.LBB15_20:                              # %join.9
	movb	$0, (%rbx)
	movq	$0, 4(%rbx)
	jmp	.LBB15_21
.Lfunc_end15:
	.size	"checks::check_tape", .Lfunc_end15-"checks::check_tape"
                                        # -- End function
	.section	".text.table::table_of","ax",@progbits
	.p2align	4                               # -- Begin function table::table_of
	.type	"table::table_of",@function
"table::table_of":                      # @"table::table_of"
# %bb.0:                                # %start
	pushq	%r15
	pushq	%r14
	pushq	%rbx
	subq	$848, %rsp                      # imm = 0x350
	movq	%rdi, %rbx
	movq	(%rsi), %r14
	addq	$8, %rsi
	leaq	528(%rsp), %rdi
	movl	$320, %edx                      # imm = 0x140
	callq	memcpy@PLT
	leaq	8(%rsp), %rdi
	movl	$512, %edx                      # imm = 0x200
	xorl	%esi, %esi
	callq	memset@PLT
	movq	%r14, 520(%rsp)
	testq	%r14, %r14
	je	.LBB16_21
# %bb.1:                                # %join.5.i.preheader
	leaq	532(%rsp), %rax
	xorl	%ecx, %ecx
	movzbl	-4(%rax), %edx
	movzbl	-3(%rax), %r15d
	movzbl	-2(%rax), %r8d
	movzbl	-1(%rax), %edi
	movzbl	%r8b, %r9d
	movzbl	(%rax), %r11d
	movl	$3, %r10d
	leaq	.LJTI16_0(%rip), %rsi
	movslq	(%rsi,%r15,4), %r15
	addq	%rsi, %r15
	jmpq	*%r15
	.p2align	4
.LBB16_11:                              # %"table::cell_of.exit.i"
                                        # =>This Inner Loop Header: Depth=1
	movzbl	%r8b, %r8d
	shll	$8, %r8d
	orq	%r10, %r8
	movzbl	%dil, %edi
	shll	$16, %edi
	orq	%r8, %rdi
	shll	$24, %edx
	orq	%rdi, %rdx
	movq	%rdx, 8(%rsp,%rcx,8)
	incq	%rcx
	cmpq	%rcx, %r14
	je	.LBB16_12
# %bb.2:                                # %join.5.i
                                        #   in Loop: Header=BB16_11 Depth=1
	addq	$5, %rax
	movzbl	-4(%rax), %edx
	movzbl	-3(%rax), %r10d
	movzbl	-2(%rax), %r8d
	movzbl	-1(%rax), %edi
	movzbl	%r8b, %r9d
	movzbl	(%rax), %r11d
	movslq	(%rsi,%r10,4), %r15
	addq	%rsi, %r15
	movl	$3, %r10d
	jmpq	*%r15
.LBB16_3:                               # %arm.1.i.i.i
	testl	%r9d, %r9d
	je	.LBB16_4
# %bb.5:                                # %arm.1.i.i.i
	cmpl	$2, %r9d
	jne	.LBB16_6
# %bb.7:                                # %arm.9.i.i.i
	movl	$2, %r10d
	movl	%edi, %r8d
	movl	%r11d, %edi
	jmp	.LBB16_11
.LBB16_4:
	movq	%r9, %r10
	movl	%r8d, %edi
	jmp	.LBB16_11
.LBB16_6:                               # %arm.8.i.i.i
	movl	$1, %r10d
	jmp	.LBB16_10
.LBB16_8:                               # %arm.3.i.i.i
	movl	$4, %r10d
	jmp	.LBB16_11
.LBB16_9:                               # %arm.4.i.i.i
	andl	$1, %r9d
	addq	$5, %r9
	movq	%r9, %r10
.LBB16_10:                              # %"table::cell_of.exit.i"
	movl	%edi, %r8d
	xorl	%edi, %edi
	jmp	.LBB16_11
.LBB16_12:                              # %"table::put_lines.exit"
	movabsq	$-4294967296, %rax              # imm = 0xFFFFFFFF00000000
	movl	$64, 4(%rsp,%r14,8)
	decq	%r14
	jmp	.LBB16_13
	.p2align	4
.LBB16_17:                              # %"table::first_part.exit.thread.i"
                                        #   in Loop: Header=BB16_13 Depth=1
	shrq	$32, %rcx
	movq	%r14, %rdx
	movq	%rcx, %rsi
.LBB16_20:                              # %"table::first_follower.exit.i"
                                        #   in Loop: Header=BB16_13 Depth=1
	movl	%esi, 12(%rsp,%rdx,8)
	addq	$-1, %r14
	jae	.LBB16_21
.LBB16_13:                              # %join.5.i1
                                        # =>This Inner Loop Header: Depth=1
	movq	8(%rsp,%r14,8), %rcx
	cmpb	$3, %cl
	jb	.LBB16_17
# %bb.14:                               # %join.5.i1
                                        #   in Loop: Header=BB16_13 Depth=1
	movq	%rcx, %rdx
	shrq	$8, %rdx
	movq	%rcx, %rdi
	shrq	$16, %rdi
	movzbl	%cl, %esi
	cmpl	$3, %esi
	je	.LBB16_18
# %bb.15:                               # %join.5.i1
                                        #   in Loop: Header=BB16_13 Depth=1
	cmpl	$4, %esi
	jne	.LBB16_19
# %bb.16:                               # %"table::first_part.exit.thread80.i"
                                        #   in Loop: Header=BB16_13 Depth=1
	movq	%rcx, %rsi
	shrq	$32, %rsi
	movzbl	%dil, %edi
	movl	8(%rsp,%rdi,8), %r8d
	andq	%rax, %rcx
	orq	%r8, %rcx
	movq	%rcx, 8(%rsp,%rdi,8)
	movzbl	%dl, %edx
	jmp	.LBB16_20
.LBB16_18:                              # %arm.2.i.i
                                        #   in Loop: Header=BB16_13 Depth=1
	andq	%rax, %rcx
	movzbl	%dil, %esi
	movl	%esi, %edi
	movl	8(%rsp,%rdi,8), %r8d
	orq	%rcx, %r8
	movq	%r8, 8(%rsp,%rdi,8)
	movzbl	%dl, %edx
	jmp	.LBB16_20
.LBB16_19:                              # %arm.3.i.i
                                        #   in Loop: Header=BB16_13 Depth=1
	andq	%rax, %rcx
	movzbl	%dl, %esi
	movl	8(%rsp,%rsi,8), %edi
	orq	%rcx, %rdi
	movq	%rdi, 8(%rsp,%rsi,8)
	movzbl	%dl, %edx
	leaq	256(%r14), %rsi
	jmp	.LBB16_20
.LBB16_21:                              # %"table::put_followers.exit"
	leaq	8(%rsp), %rsi
	movl	$512, %edx                      # imm = 0x200
	movq	%rbx, %rdi
	callq	memcpy@PLT
	addq	$848, %rsp                      # imm = 0x350
	popq	%rbx
	popq	%r14
	popq	%r15
	retq
.Lfunc_end16:
	.size	"table::table_of", .Lfunc_end16-"table::table_of"
	.section	".rodata.table::table_of","a",@progbits
	.p2align	2, 0x0
.LJTI16_0:
	.long	.LBB16_3-.LJTI16_0
	.long	.LBB16_11-.LJTI16_0
	.long	.LBB16_8-.LJTI16_0
	.long	.LBB16_9-.LJTI16_0
                                        # -- End function
	.section	".text.masks::put_masks","ax",@progbits
	.p2align	4                               # -- Begin function masks::put_masks
	.type	"masks::put_masks",@function
"masks::put_masks":                     # @"masks::put_masks"
# %bb.0:                                # %start
	pushq	%rbp
	pushq	%r15
	pushq	%r14
	pushq	%r13
	pushq	%r12
	pushq	%rbx
	subq	$2616, %rsp                     # imm = 0xA38
	movq	%rcx, %r14
	movq	%rdx, %r15
	movq	%rsi, %rbx
	movq	%rdi, %r12
	leaq	48(%rsp), %rdi
	xorl	%r13d, %r13d
	movl	$1024, %edx                     # imm = 0x400
	xorl	%esi, %esi
	callq	memset@PLT
	xorps	%xmm0, %xmm0
	movaps	%xmm0, 48(%rsp)
	movaps	%xmm0, 64(%rsp)
	movaps	%xmm0, 80(%rsp)
	movaps	%xmm0, 96(%rsp)
	movaps	%xmm0, 112(%rsp)
	movaps	%xmm0, 128(%rsp)
	movaps	%xmm0, 144(%rsp)
	movaps	%xmm0, 160(%rsp)
	movaps	%xmm0, 176(%rsp)
	movaps	%xmm0, 192(%rsp)
	movaps	%xmm0, 208(%rsp)
	movaps	%xmm0, 224(%rsp)
	movaps	%xmm0, 240(%rsp)
	movaps	%xmm0, 256(%rsp)
	movaps	%xmm0, 272(%rsp)
	movaps	%xmm0, 288(%rsp)
	movaps	%xmm0, 304(%rsp)
	movaps	%xmm0, 320(%rsp)
	movaps	%xmm0, 336(%rsp)
	movaps	%xmm0, 352(%rsp)
	movaps	%xmm0, 368(%rsp)
	movaps	%xmm0, 384(%rsp)
	movaps	%xmm0, 400(%rsp)
	movaps	%xmm0, 416(%rsp)
	movaps	%xmm0, 432(%rsp)
	movaps	%xmm0, 448(%rsp)
	movaps	%xmm0, 464(%rsp)
	movaps	%xmm0, 480(%rsp)
	movaps	%xmm0, 496(%rsp)
	movaps	%xmm0, 512(%rsp)
	movaps	%xmm0, 528(%rsp)
	movaps	%xmm0, 544(%rsp)
	movaps	%xmm0, 560(%rsp)
	movaps	%xmm0, 576(%rsp)
	movaps	%xmm0, 592(%rsp)
	movaps	%xmm0, 608(%rsp)
	movaps	%xmm0, 624(%rsp)
	movaps	%xmm0, 640(%rsp)
	movaps	%xmm0, 656(%rsp)
	movaps	%xmm0, 672(%rsp)
	movaps	%xmm0, 688(%rsp)
	movaps	%xmm0, 704(%rsp)
	movaps	%xmm0, 720(%rsp)
	movaps	%xmm0, 736(%rsp)
	movaps	%xmm0, 752(%rsp)
	movaps	%xmm0, 768(%rsp)
	movaps	%xmm0, 784(%rsp)
	movaps	%xmm0, 800(%rsp)
	movaps	%xmm0, 816(%rsp)
	movaps	%xmm0, 832(%rsp)
	movaps	%xmm0, 848(%rsp)
	movaps	%xmm0, 864(%rsp)
	movaps	%xmm0, 880(%rsp)
	movaps	%xmm0, 896(%rsp)
	movaps	%xmm0, 912(%rsp)
	movaps	%xmm0, 928(%rsp)
	movaps	%xmm0, 944(%rsp)
	movaps	%xmm0, 960(%rsp)
	movaps	%xmm0, 976(%rsp)
	movaps	%xmm0, 992(%rsp)
	movaps	%xmm0, 1008(%rsp)
	movaps	%xmm0, 1024(%rsp)
	movaps	%xmm0, 1040(%rsp)
	movaps	%xmm0, 1056(%rsp)
	leaq	1080(%rsp), %rdi
	movl	$1536, %edx                     # imm = 0x600
	xorl	%esi, %esi
	callq	memset@PLT
	testq	%rbx, %rbx
	je	.LBB17_59
# %bb.1:                                # %join.5.i.preheader
	leaq	57(%rsp), %rax
	xorl	%ecx, %ecx
	jmp	.LBB17_4
	.p2align	4
.LBB17_2:                               # %arm.1.i.i.i
                                        #   in Loop: Header=BB17_4 Depth=1
	movl	$1, %esi
	shlq	%cl, %rsi
	xorl	%edx, %edx
.LBB17_3:                               # %"masks::firsts::line_first.exit.i"
                                        #   in Loop: Header=BB17_4 Depth=1
	movq	%rsi, -9(%rax)
	movb	%dl, -1(%rax)
	movl	$0, (%rax)
	movl	$0, 3(%rax)
	incq	%rcx
	addq	$16, %rax
	cmpq	%rcx, %rbx
	je	.LBB17_14
.LBB17_4:                               # %join.5.i
                                        # =>This Inner Loop Header: Depth=1
	movq	(%r12,%rcx,8), %rdi
	movq	%rdi, %r8
	shrq	$8, %r8
	movb	$1, %dl
	cmpb	$4, %dil
	ja	.LBB17_11
# %bb.5:                                # %join.5.i
                                        #   in Loop: Header=BB17_4 Depth=1
	movl	%edi, %esi
	shrq	$16, %rdi
	movzbl	%sil, %esi
	leaq	.LJTI17_0(%rip), %r9
	movslq	(%r9,%rsi,4), %r10
	addq	%r9, %r10
	jmpq	*%r10
.LBB17_6:                               # %arm.2.i.i.i
                                        #   in Loop: Header=BB17_4 Depth=1
	movzbl	%r8b, %r8d
	shll	$4, %r8d
	movl	56(%rsp,%r8), %edx
	testb	$1, %dl
	je	.LBB17_12
# %bb.7:                                # %arm.2.i.i.i
                                        #   in Loop: Header=BB17_4 Depth=1
	movzbl	%dil, %edx
	shll	$4, %edx
	movq	48(%rsp,%rdx), %rsi
	movl	56(%rsp,%rdx), %edx
	jmp	.LBB17_13
.LBB17_8:                               # %arm.3.i.i.i
                                        #   in Loop: Header=BB17_4 Depth=1
	movzbl	%r8b, %r8d
	shll	$4, %r8d
	movl	56(%rsp,%r8), %edx
	movzbl	%dil, %esi
	shll	$4, %esi
	testb	$1, %dl
	jne	.LBB17_10
# %bb.9:                                # %arm.3.i.i.i
                                        #   in Loop: Header=BB17_4 Depth=1
	movl	56(%rsp,%rsi), %edx
.LBB17_10:                              # %arm.3.i.i.i
                                        #   in Loop: Header=BB17_4 Depth=1
	movq	48(%rsp,%rsi), %rsi
	jmp	.LBB17_13
.LBB17_11:                              # %.thread57.i.i
                                        #   in Loop: Header=BB17_4 Depth=1
	movzbl	%r8b, %esi
	shll	$4, %esi
	movq	48(%rsp,%rsi), %rsi
	jmp	.LBB17_3
.LBB17_12:                              #   in Loop: Header=BB17_4 Depth=1
	xorl	%esi, %esi
.LBB17_13:                              # %"masks::firsts::line_first.exit.i"
                                        #   in Loop: Header=BB17_4 Depth=1
	orq	48(%rsp,%r8), %rsi
	andb	$1, %dl
	jmp	.LBB17_3
.LBB17_14:                              # %"masks::firsts::put_firsts.exit"
	leaq	(,%rbx,8), %rcx
	leaq	(%rcx,%rcx,2), %rax
	xorps	%xmm0, %xmm0
	movups	%xmm0, 1056(%rsp,%rax)
	movb	$1, 1072(%rsp,%rax)
	movl	$0, 1073(%rsp,%rax)
	movl	$0, 1076(%rsp,%rax)
	leaq	-1(%rbx), %rax
	leaq	(%rcx,%rcx,2), %rcx
	addq	$-24, %rcx
	movq	%rbx, 40(%rsp)                  # 8-byte Spill
	movq	%r12, 32(%rsp)                  # 8-byte Spill
	jmp	.LBB17_19
	.p2align	4
.LBB17_15:                              # %"masks::follows::to_first.exit.thread.i.i"
                                        #   in Loop: Header=BB17_19 Depth=1
	xorl	%esi, %esi
	testb	$1, %bpl
	cmoveq	%rsi, %r9
	cmoveq	%rsi, %rdi
	movzbl	%r8b, %esi
	movzbl	%bpl, %r8d
	cmovnel	%esi, %r8d
	orq	%r13, %r9
	orq	%r13, %rdi
	andb	$1, %r8b
	movl	$0, 15(%rsp)
	movl	$0, 12(%rsp)
.LBB17_16:                              # %after.2.i.i.i
                                        #   in Loop: Header=BB17_19 Depth=1
	movq	40(%rsp), %r10                  # 8-byte Reload
	movq	32(%rsp), %r12                  # 8-byte Reload
.LBB17_17:                              # %after.2.i.i.i
                                        #   in Loop: Header=BB17_19 Depth=1
	movzbl	%dl, %edx
	shll	$3, %edx
	leaq	(%rdx,%rdx,2), %rsi
.LBB17_18:                              # %"masks::follows::hand_on.exit.i"
                                        #   in Loop: Header=BB17_19 Depth=1
	movq	%r9, 1080(%rsp,%rsi)
	movq	%rdi, 1088(%rsp,%rsi)
	movb	%r8b, 1096(%rsp,%rsi)
	movl	12(%rsp), %edx
	movl	15(%rsp), %edi
	movl	%edx, 1097(%rsp,%rsi)
	movl	%edi, 1100(%rsp,%rsi)
	addq	$-24, %rcx
	addq	$-1, %rax
	jae	.LBB17_33
.LBB17_19:                              # %join.5.i2
                                        # =>This Inner Loop Header: Depth=1
	movq	(%r12,%rax,8), %rdx
	movl	%edx, %esi
	shrl	$8, %esi
	cmpb	$5, %dl
	ja	.LBB17_25
# %bb.20:                               # %join.5.i2
                                        #   in Loop: Header=BB17_19 Depth=1
	movl	%edx, %edi
	shrl	$16, %edi
	movzbl	%dl, %r8d
	leaq	.LJTI17_1(%rip), %r9
	movslq	(%r9,%r8,4), %r8
	addq	%r9, %r8
	jmpq	*%r8
.LBB17_21:                              # %arm.2.i.i.i10
                                        #   in Loop: Header=BB17_19 Depth=1
	movb	$1, %dil
	movl	%edi, 20(%rsp)                  # 4-byte Spill
	xorl	%r10d, %r10d
	movq	%rax, %r8
	jmp	.LBB17_30
.LBB17_22:                              #   in Loop: Header=BB17_19 Depth=1
	movb	$1, %r10b
	jmp	.LBB17_28
.LBB17_23:                              # %join.5.i2._crit_edge
                                        #   in Loop: Header=BB17_19 Depth=1
	movb	$1, %sil
	movl	%esi, 20(%rsp)                  # 4-byte Spill
	movl	%edx, %esi
	movl	%edx, %r10d
	movq	%rax, %r8
	jmp	.LBB17_30
.LBB17_24:                              # %arm.6.i.i.i
                                        #   in Loop: Header=BB17_19 Depth=1
	movb	$3, %r10b
	xorl	%edx, %edx
	jmp	.LBB17_26
.LBB17_25:                              # %default.7.i.i.i
                                        #   in Loop: Header=BB17_19 Depth=1
	movb	$1, %dl
	movb	$3, %r10b
.LBB17_26:                              # %"table::node_at.exit.thread.i"
                                        #   in Loop: Header=BB17_19 Depth=1
	movl	%esi, %edi
	jmp	.LBB17_29
.LBB17_27:                              # %arm.5.i.i.i
                                        #   in Loop: Header=BB17_19 Depth=1
	movb	$2, %r10b
.LBB17_28:                              # %"table::node_at.exit.thread.i"
                                        #   in Loop: Header=BB17_19 Depth=1
	movl	%esi, %edx
.LBB17_29:                              # %"table::node_at.exit.thread.i"
                                        #   in Loop: Header=BB17_19 Depth=1
	movzbl	%dil, %r8d
	movl	$0, 20(%rsp)                    # 4-byte Folded Spill
	movl	%edi, %esi
.LBB17_30:                              #   in Loop: Header=BB17_19 Depth=1
	leaq	(%r8,%r8,2), %r12
	shlq	$4, %r8
	movq	48(%rsp,%r8), %r13
	movzbl	56(%rsp,%r8), %ebp
	movq	1080(%rsp,%rcx), %r9
	movq	1088(%rsp,%rcx), %rdi
	movzbl	1096(%rsp,%rcx), %r8d
	movl	1097(%rsp,%rcx), %ebx
	movl	%ebx, 24(%rsp)
	movl	1100(%rsp,%rcx), %ebx
	movl	%ebx, 27(%rsp)
	movq	%r9, 1080(%rsp,%r12,8)
	movq	%rdi, 1088(%rsp,%r12,8)
	movb	%r8b, 1096(%rsp,%r12,8)
	movl	24(%rsp), %ebx
	movl	27(%rsp), %r11d
	movl	%ebx, 1097(%rsp,%r12,8)
	movl	%r11d, 1100(%rsp,%r12,8)
	movzbl	%r10b, %r10d
	leaq	.LJTI17_2(%rip), %r11
	movslq	(%r11,%r10,4), %r10
	addq	%r11, %r10
	jmpq	*%r10
.LBB17_31:                              # %"masks::follows::to_first.exit.i.i"
                                        #   in Loop: Header=BB17_19 Depth=1
	movl	24(%rsp), %esi
	movl	27(%rsp), %r10d
	movl	%r10d, 15(%rsp)
	movl	%esi, 12(%rsp)
	movq	%rcx, %rsi
	cmpb	$0, 20(%rsp)                    # 1-byte Folded Reload
	movq	40(%rsp), %r10                  # 8-byte Reload
	movq	32(%rsp), %r12                  # 8-byte Reload
	je	.LBB17_17
	jmp	.LBB17_18
	.p2align	4
.LBB17_32:                              # %"masks::follows::to_first.exit.thread29.i.i"
                                        #   in Loop: Header=BB17_19 Depth=1
	orq	%r13, %rdi
	andb	$1, %r8b
	movl	$0, 15(%rsp)
	movl	$0, 12(%rsp)
	xorl	%r9d, %r9d
	movl	%esi, %edx
	jmp	.LBB17_16
.LBB17_33:                              # %join.5.i11.preheader
	xorl	%ecx, %ecx
	jmp	.LBB17_35
	.p2align	4
.LBB17_34:                              # %"masks::scatter::put_row.exit.i"
                                        #   in Loop: Header=BB17_35 Depth=1
	incq	%rcx
	cmpq	%r10, %rcx
	je	.LBB17_39
.LBB17_35:                              # %join.5.i11
                                        # =>This Loop Header: Depth=1
                                        #     Child Loop BB17_38 Depth 2
	movq	%rcx, %rdx
	shlq	$4, %rdx
	testb	$1, 56(%rsp,%rdx)
	je	.LBB17_37
# %bb.36:                               # %join.5.i11
                                        #   in Loop: Header=BB17_35 Depth=1
	leaq	(%rcx,%rcx,2), %rax
	movq	1080(%rsp,%rax,8), %rax
	movl	$1, %esi
	shlq	%cl, %rsi
	orq	48(%rsp,%rdx), %rax
	jne	.LBB17_38
	jmp	.LBB17_34
	.p2align	4
.LBB17_37:                              #   in Loop: Header=BB17_35 Depth=1
	xorl	%eax, %eax
	movl	$1, %esi
	shlq	%cl, %rsi
	orq	48(%rsp,%rdx), %rax
	je	.LBB17_34
	.p2align	4
.LBB17_38:                              # %arm.3.i.i
                                        #   Parent Loop BB17_35 Depth=1
                                        # =>  This Inner Loop Header: Depth=2
	movq	%rax, %rdx
	rep		bsfq	%rax, %rdi
	decq	%rax
	orq	%rsi, (%r15,%rdi,8)
	andq	%rdx, %rax
	jne	.LBB17_38
	jmp	.LBB17_34
.LBB17_39:                              # %join.5.us.i.preheader
	xorl	%ecx, %ecx
	jmp	.LBB17_41
	.p2align	4
.LBB17_40:                              # %"masks::scatter::put_row.exit.us.i"
                                        #   in Loop: Header=BB17_41 Depth=1
	incq	%rcx
	cmpq	%r10, %rcx
	je	.LBB17_45
.LBB17_41:                              # %join.5.us.i
                                        # =>This Loop Header: Depth=1
                                        #     Child Loop BB17_44 Depth 2
	movq	%rcx, %rdx
	shlq	$4, %rdx
	testb	$1, 56(%rsp,%rdx)
	je	.LBB17_43
# %bb.42:                               # %join.5.us.i
                                        #   in Loop: Header=BB17_41 Depth=1
	leaq	(%rcx,%rcx,2), %rax
	movq	1088(%rsp,%rax,8), %rax
	movl	$1, %esi
	shlq	%cl, %rsi
	orq	48(%rsp,%rdx), %rax
	jne	.LBB17_44
	jmp	.LBB17_40
	.p2align	4
.LBB17_43:                              #   in Loop: Header=BB17_41 Depth=1
	xorl	%eax, %eax
	movl	$1, %esi
	shlq	%cl, %rsi
	orq	48(%rsp,%rdx), %rax
	je	.LBB17_40
	.p2align	4
.LBB17_44:                              # %arm.3.i.us.i
                                        #   Parent Loop BB17_41 Depth=1
                                        # =>  This Inner Loop Header: Depth=2
	movq	%rax, %rdx
	rep		bsfq	%rax, %rdi
	decq	%rax
	orq	%rsi, (%r14,%rdi,8)
	andq	%rdx, %rax
	jne	.LBB17_44
	jmp	.LBB17_40
.LBB17_45:                              # %join.5.i21.preheader
	cmpq	$1, %r10
	jne	.LBB17_47
# %bb.46:
	xorl	%r13d, %r13d
	xorl	%eax, %eax
	jmp	.LBB17_55
.LBB17_47:                              # %join.5.i21.preheader.new
	movq	%r10, %rdx
	andq	$-2, %rdx
	leaq	72(%rsp), %rsi
	leaq	1120(%rsp), %rdi
	xorl	%r13d, %r13d
	xorl	%eax, %eax
	jmp	.LBB17_50
	.p2align	4
.LBB17_48:                              # %then.6.i.1
                                        #   in Loop: Header=BB17_50 Depth=1
	movzbl	(%rdi), %r9d
.LBB17_49:                              # %join.8.i.1
                                        #   in Loop: Header=BB17_50 Depth=1
	leal	1(%rax), %ecx
                                        # kill: def $cl killed $cl killed $ecx
	shlq	%cl, %r9
	movq	%r13, %rcx
	addq	%r8, %rcx
	movq	%r9, %r13
	addq	%rcx, %r13
	addq	$2, %rax
	addq	$32, %rsi
	addq	$48, %rdi
	cmpq	%rdx, %rax
	je	.LBB17_54
.LBB17_50:                              # %join.5.i21
                                        # =>This Inner Loop Header: Depth=1
	cmpb	$1, -16(%rsi)
	jne	.LBB17_52
# %bb.51:                               # %then.6.i
                                        #   in Loop: Header=BB17_50 Depth=1
	movzbl	-24(%rdi), %r8d
	movl	%eax, %ecx
	shlq	%cl, %r8
	cmpb	$1, (%rsi)
	je	.LBB17_48
	jmp	.LBB17_53
	.p2align	4
.LBB17_52:                              #   in Loop: Header=BB17_50 Depth=1
	xorl	%r8d, %r8d
	movl	%eax, %ecx
	shlq	%cl, %r8
	cmpb	$1, (%rsi)
	je	.LBB17_48
.LBB17_53:                              #   in Loop: Header=BB17_50 Depth=1
	xorl	%r9d, %r9d
	jmp	.LBB17_49
.LBB17_54:                              # %"masks::scatter::ends_of.exit.loopexit.unr-lcssa"
	testb	$1, %r10b
	je	.LBB17_59
.LBB17_55:                              # %join.5.i21.epil.preheader
	movq	%rax, %rcx
	shlq	$4, %rcx
	cmpb	$1, 56(%rsp,%rcx)
	jne	.LBB17_57
# %bb.56:                               # %then.6.i.epil
	leaq	(%rax,%rax,2), %rcx
	movzbl	1096(%rsp,%rcx,8), %edx
	jmp	.LBB17_58
.LBB17_57:
	xorl	%edx, %edx
.LBB17_58:                              # %join.8.i.epil
	movl	%eax, %ecx
	shlq	%cl, %rdx
	addq	%rdx, %r13
.LBB17_59:                              # %"masks::scatter::ends_of.exit"
	movq	%r13, %rax
	addq	$2616, %rsp                     # imm = 0xA38
	popq	%rbx
	popq	%r12
	popq	%r13
	popq	%r14
	popq	%r15
	popq	%rbp
	retq
.Lfunc_end17:
	.size	"masks::put_masks", .Lfunc_end17-"masks::put_masks"
	.section	".rodata.masks::put_masks","a",@progbits
	.p2align	2, 0x0
.LJTI17_0:
	.long	.LBB17_3-.LJTI17_0
	.long	.LBB17_2-.LJTI17_0
	.long	.LBB17_2-.LJTI17_0
	.long	.LBB17_6-.LJTI17_0
	.long	.LBB17_8-.LJTI17_0
.LJTI17_1:
	.long	.LBB17_23-.LJTI17_1
	.long	.LBB17_21-.LJTI17_1
	.long	.LBB17_21-.LJTI17_1
	.long	.LBB17_22-.LJTI17_1
	.long	.LBB17_27-.LJTI17_1
	.long	.LBB17_24-.LJTI17_1
.LJTI17_2:
	.long	.LBB17_31-.LJTI17_2
	.long	.LBB17_15-.LJTI17_2
	.long	.LBB17_31-.LJTI17_2
	.long	.LBB17_32-.LJTI17_2
                                        # -- End function
	.section	".text.second_sweep::sweep","ax",@progbits
	.p2align	4                               # -- Begin function second_sweep::sweep
	.type	"second_sweep::sweep",@function
"second_sweep::sweep":                  # @"second_sweep::sweep"
# %bb.0:                                # %start
	pushq	%rbp
	pushq	%r15
	pushq	%r14
	pushq	%r13
	pushq	%r12
	pushq	%rbx
	subq	$56, %rsp
	movl	%r9d, %ebx
	movq	%r8, %rbp
	movq	%rcx, 40(%rsp)                  # 8-byte Spill
	movq	%rdx, 48(%rsp)                  # 8-byte Spill
	movq	%rsi, %r12
	movq	%rdi, %r13
	movl	136(%rsp), %eax
	movq	128(%rsp), %r11
	movzbl	112(%rsp), %r14d
	jmp	.LBB18_2
	.p2align	4
.LBB18_1:                               # %arm.2
                                        #   in Loop: Header=BB18_2 Depth=1
	movzbl	%dl, %r8d
	movl	%eax, 24(%rsp)
	movq	%r11, 16(%rsp)
	movq	120(%rsp), %rax
	movq	%rax, 8(%rsp)
	movzbl	%r14b, %eax
	andl	$1, %eax
	movl	%eax, (%rsp)
	movq	%r13, %rdi
	movq	%r12, %rsi
	movq	48(%rsp), %rdx                  # 8-byte Reload
	movq	40(%rsp), %rcx                  # 8-byte Reload
	movl	%ebx, %r9d
	callq	"second_sweep::sweep"
	movq	128(%rsp), %r11
	cmpw	%dx, %bx
	setb	%cl
	orb	%cl, %r14b
	movl	%edx, %ebx
	movzbl	%r15b, %ebp
.LBB18_2:                               # %tailrecurse
                                        # =>This Inner Loop Header: Depth=1
	movq	(%r13,%rbp,8), %r15
	movq	%r15, %rdx
	shrq	$8, %rdx
	cmpb	$5, %r15b
	ja	.LBB18_18
# %bb.3:                                # %tailrecurse
                                        #   in Loop: Header=BB18_2 Depth=1
	movl	%r15d, %ecx
	shrq	$16, %r15
	movzbl	%cl, %ecx
	leaq	.LJTI18_0(%rip), %rsi
	movslq	(%rsi,%rcx,4), %rcx
	addq	%rsi, %rcx
	jmpq	*%rcx
.LBB18_4:                               # %arm.3
                                        #   in Loop: Header=BB18_2 Depth=1
	movzwl	%bx, %esi
	shll	$4, %esi
	movzbl	%r14b, %r8d
	movl	$1, %edi
	movl	%edx, %ecx
	shlq	%cl, %rdi
	andl	$1, %r8d
	addq	%r12, %rsi
	andq	(%rsi,%r8,8), %rdi
	movl	%eax, %r8d
	shrl	$3, %r8d
	cmpq	%r8, %r11
	jbe	.LBB18_6
# %bb.5:                                # %then.1.i.i31
                                        #   in Loop: Header=BB18_2 Depth=1
	testq	%rdi, %rdi
	sete	%r9b
	movl	%eax, %esi
	andb	$7, %sil
	movb	$8, %cl
	subb	%sil, %cl
	movl	$-1, %r10d
	shll	%cl, %r10d
	xorb	$7, %sil
	movl	%esi, %ecx
	shlb	%cl, %r9b
	movq	120(%rsp), %rcx
	andb	(%rcx,%r8), %r10b
	orb	%r10b, %r9b
	movb	%r9b, (%rcx,%r8)
.LBB18_6:                               # %"second_sweep::choose.exit"
                                        #   in Loop: Header=BB18_2 Depth=1
	testq	%rdi, %rdi
	je	.LBB18_8
# %bb.7:                                # %"second_sweep::choose.exit"
                                        #   in Loop: Header=BB18_2 Depth=1
	movq	%rdx, %r15
.LBB18_8:                               # %"second_sweep::choose.exit"
                                        #   in Loop: Header=BB18_2 Depth=1
	incl	%eax
	movzbl	%r15b, %ebp
	jmp	.LBB18_2
.LBB18_9:                               # %arm.4.split
	movl	$1, %r15d
	movl	%edx, %ecx
	shlq	%cl, %r15
	movzwl	%bx, %ecx
	shll	$4, %ecx
	movq	(%r12,%rcx), %rcx
	movb	$1, %r14b
	btq	%rdx, %rcx
	jae	.LBB18_36
# %bb.10:                               # %join.12.preheader
	movzbl	%dl, %ebp
	jmp	.LBB18_12
	.p2align	4
.LBB18_11:                              # %"second_sweep::put_bit.exit"
                                        #   in Loop: Header=BB18_12 Depth=1
	incl	%eax
	movl	%eax, 24(%rsp)
	movq	%r11, 16(%rsp)
	movq	120(%rsp), %rax
	movq	%rax, 8(%rsp)
	movl	$0, (%rsp)
	movq	%r13, %rdi
	movq	%r12, %rsi
	movq	48(%rsp), %rdx                  # 8-byte Reload
	movq	40(%rsp), %rcx                  # 8-byte Reload
	movq	%rbp, %r8
	movl	%ebx, %r9d
	callq	"second_sweep::sweep"
	movq	128(%rsp), %r11
	movl	%edx, %ebx
	movzwl	%dx, %ecx
	shll	$4, %ecx
	testq	%r15, (%r12,%rcx)
	je	.LBB18_36
.LBB18_12:                              # %join.12
                                        # =>This Inner Loop Header: Depth=1
	movl	%eax, %edx
	shrl	$3, %edx
	cmpq	%rdx, %r11
	jbe	.LBB18_11
# %bb.13:                               # %then.1.i41
                                        #   in Loop: Header=BB18_12 Depth=1
	movl	%eax, %esi
	andb	$7, %sil
	movb	$8, %cl
	subb	%sil, %cl
	movl	$-1, %esi
	shll	%cl, %esi
	movq	120(%rsp), %rcx
	andb	%sil, (%rcx,%rdx)
	jmp	.LBB18_11
.LBB18_14:                              # %arm.2.i
	incl	%ebx
	jmp	.LBB18_39
.LBB18_15:                              # %arm.3.i
	leal	1(%rbx), %edi
	movl	%eax, %ecx
	addq	$7, %rcx
	shrq	$3, %rcx
	cmpq	%r11, %rcx
	jae	.LBB18_23
# %bb.16:                               # %then.1.i.i
	movzwl	%bx, %ecx
	movq	48(%rsp), %rdx                  # 8-byte Reload
	movzbl	(%rdx,%rcx), %r8d
	movl	%eax, %r9d
	shrl	$3, %r9d
	movl	%eax, %edx
	andl	$7, %edx
	je	.LBB18_22
# %bb.17:                               # %join.3.i.i.i
	movb	$8, %sil
	subb	%dl, %sil
	movl	$-1, %r10d
	movl	%esi, %ecx
	shll	%cl, %r10d
	movq	120(%rsp), %rbx
	andb	(%rbx,%r9), %r10b
	movl	%r8d, %r11d
	movl	%edx, %ecx
	shrb	%cl, %r11b
	orb	%r10b, %r11b
	movb	%r11b, (%rbx,%r9)
	movl	%esi, %ecx
	shlb	%cl, %r8b
	movb	%r8b, 1(%rbx,%r9)
	jmp	.LBB18_23
.LBB18_18:                              # %loop.9.us.preheader
	movq	%r15, %rcx
	shrq	$40, %rcx
	andl	$1, %ecx
	movl	%r14d, %esi
	notb	%sil
	testb	%cl, %sil
	jne	.LBB18_26
# %bb.19:                               # %join.3.i.i.us.peel
	movabsq	$824633720832, %rcx             # imm = 0xC000000000
	testq	%rcx, %r15
	je	.LBB18_24
# %bb.20:                               # %else.5.i.i.us.peel
	cmpw	40(%rsp), %bx                   # 2-byte Folded Reload
	sete	%cl
	testb	%cl, %r14b
	je	.LBB18_26
	jmp	.LBB18_21
.LBB18_22:                              # %then.1.i.i.i
	movq	120(%rsp), %rcx
	movb	%r8b, (%rcx,%r9)
.LBB18_23:                              # %"second_sweep::put_letter.exit.i"
	addl	$8, %eax
	movl	%edi, %ebx
	jmp	.LBB18_39
.LBB18_24:                              # %"second_sweep::may_stop.exit.i.us.peel"
	shrq	$32, %r15
	movzwl	%bx, %ecx
	shll	$4, %ecx
	movzbl	%r14b, %esi
	andl	$1, %esi
	addq	%r12, %rcx
	movq	(%rcx,%rsi,8), %rcx
	btq	%r15, %rcx
	jae	.LBB18_26
.LBB18_21:
	xorl	%r14d, %r14d
	movl	%eax, %esi
	shrl	$3, %esi
	cmpq	%rsi, %r11
	ja	.LBB18_37
	jmp	.LBB18_38
.LBB18_26:                              # %join.12.us.peel
	movzbl	%dl, %r15d
	movl	%eax, %esi
	shrl	$3, %esi
	cmpq	%rsi, %r11
	jbe	.LBB18_28
# %bb.27:                               # %then.1.i41.us.peel
	movl	%eax, %edx
	andl	$7, %edx
	movb	$8, %cl
	subb	%dl, %cl
	movl	$-1, %edi
	shll	%cl, %edi
	xorb	$7, %dl
	movb	$1, %r8b
	movl	%edx, %ecx
	shlb	%cl, %r8b
	movq	120(%rsp), %rcx
	andb	(%rcx,%rsi), %dil
	orb	%dil, %r8b
	movb	%r8b, (%rcx,%rsi)
.LBB18_28:                              # %"second_sweep::put_bit.exit.us.peel"
	incl	%eax
	movl	%eax, 24(%rsp)
	movq	%r11, 16(%rsp)
	movq	120(%rsp), %rax
	movq	%rax, 8(%rsp)
	movl	$0, (%rsp)
	movq	%r13, %rdi
	movq	%r12, %rsi
	movq	48(%rsp), %rdx                  # 8-byte Reload
	movq	40(%rsp), %rcx                  # 8-byte Reload
	movq	%r15, %r8
	movl	%ebx, %r9d
	callq	"second_sweep::sweep"
	movl	%edx, %ebx
	movabsq	$824633720832, %r14             # imm = 0xC000000000
	jmp	.LBB18_30
	.p2align	4
.LBB18_29:                              # %"second_sweep::put_bit.exit.us"
                                        #   in Loop: Header=BB18_30 Depth=1
	incl	%eax
	movl	%eax, 24(%rsp)
	movq	%r11, 16(%rsp)
	movq	120(%rsp), %rax
	movq	%rax, 8(%rsp)
	movl	$0, (%rsp)
	movq	%r13, %rdi
	movq	%r12, %rsi
	movq	48(%rsp), %rdx                  # 8-byte Reload
	movq	40(%rsp), %rcx                  # 8-byte Reload
	movq	%r15, %r8
	movl	%ebx, %r9d
	callq	"second_sweep::sweep"
	movl	%edx, %ebx
.LBB18_30:                              # %join.3.i.i.us
                                        # =>This Inner Loop Header: Depth=1
	movq	(%r13,%rbp,8), %rcx
	testq	%r14, %rcx
	je	.LBB18_32
# %bb.31:                               # %else.5.i.i.us
                                        #   in Loop: Header=BB18_30 Depth=1
	cmpw	40(%rsp), %bx                   # 2-byte Folded Reload
	movq	128(%rsp), %r11
	jne	.LBB18_33
	jmp	.LBB18_35
	.p2align	4
.LBB18_32:                              # %"second_sweep::may_stop.exit.i.us"
                                        #   in Loop: Header=BB18_30 Depth=1
	shrq	$32, %rcx
	movzwl	%bx, %edx
	shll	$4, %edx
	movq	8(%r12,%rdx), %rdx
	btq	%rcx, %rdx
	movq	128(%rsp), %r11
	jb	.LBB18_21
.LBB18_33:                              # %join.12.us
                                        #   in Loop: Header=BB18_30 Depth=1
	movl	%eax, %esi
	shrl	$3, %esi
	cmpq	%rsi, %r11
	jbe	.LBB18_29
# %bb.34:                               # %then.1.i41.us
                                        #   in Loop: Header=BB18_30 Depth=1
	movl	%eax, %edx
	andl	$7, %edx
	movb	$8, %cl
	subb	%dl, %cl
	movl	$-1, %edi
	shll	%cl, %edi
	xorb	$7, %dl
	movb	$1, %r8b
	movl	%edx, %ecx
	shlb	%cl, %r8b
	movq	120(%rsp), %rcx
	andb	(%rcx,%rsi), %dil
	orb	%dil, %r8b
	movb	%r8b, (%rcx,%rsi)
	jmp	.LBB18_29
.LBB18_35:
	xorl	%r14d, %r14d
.LBB18_36:                              # %after.8
	movl	%eax, %esi
	shrl	$3, %esi
	cmpq	%rsi, %r11
	jbe	.LBB18_38
.LBB18_37:                              # %then.1.i.i48
	movl	%eax, %edx
	andl	$7, %edx
	movb	$8, %cl
	subb	%dl, %cl
	movl	$-1, %edi
	shll	%cl, %edi
	xorb	$7, %dl
	movl	%edx, %ecx
	shlb	%cl, %r14b
	movq	120(%rsp), %rcx
	andb	(%rcx,%rsi), %dil
	orb	%dil, %r14b
	movb	%r14b, (%rcx,%rsi)
.LBB18_38:                              # %"second_sweep::stop.exit"
	incl	%eax
.LBB18_39:                              # %return.7
	movl	%ebx, %edx
	addq	$56, %rsp
	popq	%rbx
	popq	%r12
	popq	%r13
	popq	%r14
	popq	%r15
	popq	%rbp
	retq
.Lfunc_end18:
	.size	"second_sweep::sweep", .Lfunc_end18-"second_sweep::sweep"
	.section	".rodata.second_sweep::sweep","a",@progbits
	.p2align	2, 0x0
.LJTI18_0:
	.long	.LBB18_39-.LJTI18_0
	.long	.LBB18_14-.LJTI18_0
	.long	.LBB18_15-.LJTI18_0
	.long	.LBB18_1-.LJTI18_0
	.long	.LBB18_4-.LJTI18_0
	.long	.LBB18_9-.LJTI18_0
                                        # -- End function
	.section	".text.entries::put_entries","ax",@progbits
	.p2align	4                               # -- Begin function entries::put_entries
	.type	"entries::put_entries",@function
"entries::put_entries":                 # @"entries::put_entries"
# %bb.0:                                # %start
	pushq	%rbp
	pushq	%r15
	pushq	%r14
	pushq	%r13
	pushq	%r12
	pushq	%rbx
	subq	$120, %rsp
	movq	%rdi, %rbx
	movl	200(%rsp), %r15d
	movq	192(%rsp), %r10
	movq	184(%rsp), %r11
	movl	$0, 48(%rsp)
	movq	$0, 40(%rsp)
	movq	$0, 88(%rsp)
	movl	$0, 96(%rsp)
	movq	$0, 72(%rsp)
	movl	$0, 80(%rsp)
	movq	(%rsi,%rdx,8), %r13
	movl	%r13d, %ebp
	shrl	$24, %ebp
	cmovel	%ecx, %ebp
	movl	176(%rsp), %eax
	cmpb	$9, %cl
	cmovel	%ecx, %ebp
	movq	%r13, %rdx
	shrq	$8, %rdx
	cmpb	$5, %r13b
	ja	.LBB19_14
# %bb.1:                                # %start
	movl	%r13d, %ecx
	shrq	$16, %r13
	movzbl	%cl, %ecx
	leaq	.LJTI19_0(%rip), %rdi
	movslq	(%rdi,%rcx,4), %rcx
	addq	%rdi, %rcx
	jmpq	*%rcx
.LBB19_2:                               # %arm.1.i
	movl	%eax, %ecx
	shlq	$32, %r15
	orq	%rcx, %r15
	movl	$1, %ecx
	movq	%r15, %rdx
	jmp	.LBB19_29
.LBB19_3:                               # %arm.3
	leal	(,%r9,8), %ecx
	cmpl	%eax, %ecx
	jbe	.LBB19_9
# %bb.4:                                # %join.12
	movl	%eax, %ecx
	shrl	$3, %ecx
	movl	%eax, %edi
	notb	%dil
	movzbl	(%r8,%rcx), %ecx
	movzbl	%dil, %edi
	andl	$7, %edi
	btl	%edi, %ecx
	cmovaeq	%rdx, %r13
	movzbl	%r13b, %edx
	incl	%eax
	movl	%r15d, 24(%rsp)
	movq	%r10, 16(%rsp)
	movq	%r11, 8(%rsp)
	movl	%eax, (%rsp)
	movzbl	%bpl, %ecx
	leaq	40(%rsp), %rdi
	callq	"entries::put_entries"
	jmp	.LBB19_30
.LBB19_5:                               # %arm.3.i
	shll	$3, %r9d
	leal	8(%rax), %edi
	cmpl	%edi, %r9d
	jae	.LBB19_20
# %bb.6:
	xorl	%ecx, %ecx
	xorl	%edx, %edx
	jmp	.LBB19_29
.LBB19_7:                               # %arm.2
	movzbl	%dl, %edx
	movl	%r15d, 24(%rsp)
	movq	%r10, 16(%rsp)
	movq	%r11, 8(%rsp)
	movl	%eax, (%rsp)
	movzbl	%bpl, %ebp
	leaq	88(%rsp), %rdi
	movl	%ebp, %ecx
	movq	%r8, %r12
	movq	%r9, %r14
	movq	%rsi, %r15
	callq	"entries::put_entries"
	cmpb	$1, 88(%rsp)
	jne	.LBB19_9
# %bb.8:                                # %arm.7
	movq	92(%rsp), %rax
	movzbl	%r13b, %edx
	movl	%eax, %ecx
	shrq	$32, %rax
	movl	%eax, 24(%rsp)
	movq	192(%rsp), %rax
	movq	%rax, 16(%rsp)
	movq	184(%rsp), %rax
	movq	%rax, 8(%rsp)
	movl	%ecx, (%rsp)
	leaq	40(%rsp), %rdi
	movq	%r15, %rsi
	movl	%ebp, %ecx
	movq	%r12, %r8
	movq	%r14, %r9
	callq	"entries::put_entries"
	jmp	.LBB19_30
.LBB19_9:                               # %arm.8
	movl	$0, (%rbx)
	movq	$0, 4(%rbx)
	jmp	.LBB19_31
.LBB19_10:                              # %arm.2.i
	cmpl	$3599, %r15d                    # imm = 0xE0F
	ja	.LBB19_12
# %bb.11:                               # %then.1.i2.i.i
	movl	%r15d, %ecx
	movb	%dl, (%r11,%rcx)
	movb	%bpl, (%r10,%rcx)
.LBB19_12:                              # %"entries::put_entry.exit.i"
	incl	%r15d
	cmpl	$3601, %r15d                    # imm = 0xE11
	movl	$3601, %edx                     # imm = 0xE11
	cmovbl	%r15d, %edx
	movl	%eax, %eax
	jmp	.LBB19_28
.LBB19_13:
	movq	%rsi, 104(%rsp)                 # 8-byte Spill
	movq	%rbx, 56(%rsp)                  # 8-byte Spill
	movl	$0, 52(%rsp)                    # 4-byte Folded Spill
	leal	(,%r9,8), %ecx
	movl	%ecx, 68(%rsp)                  # 4-byte Spill
	cmpl	%ecx, %eax
	jb	.LBB19_15
	jmp	.LBB19_19
.LBB19_14:                              # %default.7.i.i
	movq	%rsi, 104(%rsp)                 # 8-byte Spill
	movq	%rbx, 56(%rsp)                  # 8-byte Spill
	movb	$1, %cl
	movl	%ecx, 52(%rsp)                  # 4-byte Spill
	leal	(,%r9,8), %ecx
	movl	%ecx, 68(%rsp)                  # 4-byte Spill
	cmpl	%ecx, %eax
	jae	.LBB19_19
.LBB19_15:                              # %join.17.lr.ph
	movzbl	%dl, %ecx
	movq	%rcx, 112(%rsp)                 # 8-byte Spill
	.p2align	4
.LBB19_16:                              # %join.17
                                        # =>This Inner Loop Header: Depth=1
	movl	%eax, %ecx
	shrl	$3, %ecx
	movl	%eax, %edx
	notb	%dl
	movzbl	(%r8,%rcx), %ecx
	movzbl	%dl, %edx
	andl	$7, %edx
	incl	%eax
	btl	%edx, %ecx
	movl	52(%rsp), %ecx                  # 4-byte Reload
                                        # kill: def $cl killed $cl killed $ecx
	sbbb	$0, %cl
	jne	.LBB19_32
# %bb.17:                               # %join.20
                                        #   in Loop: Header=BB19_16 Depth=1
	movl	%r15d, 24(%rsp)
	movq	%r10, %r12
	movq	%r10, 16(%rsp)
	movq	%r11, %r14
	movq	%r11, 8(%rsp)
	movl	%eax, (%rsp)
	movzbl	%bpl, %ecx
	leaq	72(%rsp), %rdi
	movq	104(%rsp), %rsi                 # 8-byte Reload
	movq	112(%rsp), %rdx                 # 8-byte Reload
	movq	%r8, %rbx
	movq	%r9, %r13
	callq	"entries::put_entries"
	cmpb	$1, 72(%rsp)
	jne	.LBB19_33
# %bb.18:                               # %arm.21
                                        #   in Loop: Header=BB19_16 Depth=1
	movq	76(%rsp), %rax
	movq	%rax, %r15
	shrq	$32, %r15
	cmpl	%eax, 68(%rsp)                  # 4-byte Folded Reload
	movq	%r12, %r10
	movq	%r14, %r11
	movq	%rbx, %r8
	movq	%r13, %r9
	ja	.LBB19_16
.LBB19_19:                              # %after.13
	movl	$0, 40(%rsp)
	movq	56(%rsp), %rbx                  # 8-byte Reload
	jmp	.LBB19_30
.LBB19_20:                              # %join.3.i.i
	movl	%eax, %ecx
	shrl	$3, %ecx
	movzbl	(%r8,%rcx), %r14d
	andl	$7, %eax
	je	.LBB19_22
# %bb.21:                               # %join.3.i.i.i
	movzbl	%r14b, %r9d
	shll	$8, %r9d
	movzbl	1(%r8,%rcx), %r14d
	orl	%r9d, %r14d
	movb	$8, %cl
	subb	%al, %cl
	shrl	%cl, %r14d
.LBB19_22:                              # %"bits::byte_at.exit.i.i"
	xorl	%ecx, %ecx
	cmpb	%r13b, %r14b
	ja	.LBB19_35
# %bb.23:                               # %"bits::byte_at.exit.i.i"
	cmpb	%dl, %r14b
	jb	.LBB19_35
# %bb.24:                               # %"bits::byte_at.exit.i.i"
	movl	%r14d, %esi
	andb	$127, %sil
	addb	$-33, %sil
	movl	$0, %edx
	cmpb	$93, %sil
	ja	.LBB19_29
# %bb.25:                               # %join.6.i.i
	cmpl	$3599, %r15d                    # imm = 0xE0F
	ja	.LBB19_27
# %bb.26:                               # %then.1.i2.i.i.i
	movl	%r15d, %ecx
	movb	%r14b, (%r11,%rcx)
	movb	%bpl, (%r10,%rcx)
.LBB19_27:                              # %"entries::put_entry.exit.i.i"
	incl	%r15d
	cmpl	$3601, %r15d                    # imm = 0xE11
	movl	$3601, %edx                     # imm = 0xE11
	cmovbl	%r15d, %edx
	movl	%edi, %eax
.LBB19_28:                              # %"entries::put_leaf.exit"
	shlq	$32, %rdx
	orq	%rax, %rdx
	movl	$1, %ecx
.LBB19_29:                              # %"entries::put_leaf.exit"
	movl	%ecx, 40(%rsp)
	movq	%rdx, 44(%rsp)
.LBB19_30:                              # %join.6
	movzbl	40(%rsp), %eax
	movq	44(%rsp), %rcx
	movl	%eax, (%rbx)
	movq	%rcx, 4(%rbx)
.LBB19_31:                              # %common.ret
	addq	$120, %rsp
	popq	%rbx
	popq	%r12
	popq	%r13
	popq	%r14
	popq	%r15
	popq	%rbp
	retq
.LBB19_32:                              # %then.18
	movl	%eax, %ecx
	shlq	$32, %r15
	orq	%rcx, %r15
	movq	56(%rsp), %rcx                  # 8-byte Reload
	movl	$1, (%rcx)
	movq	%r15, 4(%rcx)
	jmp	.LBB19_31
.LBB19_33:                              # %arm.22
	movq	56(%rsp), %rax                  # 8-byte Reload
	movl	$0, (%rax)
	movq	$0, 4(%rax)
	jmp	.LBB19_31
.LBB19_35:
	xorl	%edx, %edx
	jmp	.LBB19_29
.Lfunc_end19:
	.size	"entries::put_entries", .Lfunc_end19-"entries::put_entries"
	.section	".rodata.entries::put_entries","a",@progbits
	.p2align	2, 0x0
.LJTI19_0:
	.long	.LBB19_2-.LJTI19_0
	.long	.LBB19_10-.LJTI19_0
	.long	.LBB19_5-.LJTI19_0
	.long	.LBB19_7-.LJTI19_0
	.long	.LBB19_3-.LJTI19_0
	.long	.LBB19_13-.LJTI19_0
                                        # -- End function
	.section	".text.text::digits::put_decimal","ax",@progbits
	.p2align	4                               # -- Begin function text::digits::put_decimal
	.type	"text::digits::put_decimal",@function
"text::digits::put_decimal":            # @"text::digits::put_decimal"
# %bb.0:                                # %start
	pushq	%rbp
	pushq	%r14
	pushq	%rbx
	movq	%rcx, %r8
	movq	%rdx, %rcx
	movq	%rsi, %rbx
	movq	%rdi, %r14
	movabsq	$-3689348814741910323, %rdx     # imm = 0xCCCCCCCCCCCCCCCD
	movq	%r8, %rax
	mulq	%rdx
	movq	%rdx, %rax
	shrq	$3, %rax
	leal	(%rax,%rax), %edx
	leal	(%rdx,%rdx,4), %edx
	movl	%r8d, %ebp
	subl	%edx, %ebp
	orb	$48, %bpl
	cmpq	$10, %r8
	jae	.LBB20_3
# %bb.1:                                # %then.1
	cmpq	%rbx, %rcx
	jae	.LBB20_5
# %bb.2:                                # %then.1.i
	movb	%bpl, (%r14,%rcx)
	incq	%rcx
	movq	%rcx, %rbx
	jmp	.LBB20_5
.LBB20_3:                               # %join.3
	movq	%r14, %rdi
	movq	%rbx, %rsi
	movq	%rcx, %rdx
	movq	%rax, %rcx
	callq	"text::digits::put_decimal"
	cmpq	%rbx, %rax
	jae	.LBB20_5
# %bb.4:                                # %then.1.i8
	movb	%bpl, (%r14,%rax)
	incq	%rax
	movq	%rax, %rbx
.LBB20_5:                               # %common.ret
	movq	%rbx, %rax
	popq	%rbx
	popq	%r14
	popq	%rbp
	retq
.Lfunc_end20:
	.size	"text::digits::put_decimal", .Lfunc_end20-"text::digits::put_decimal"
                                        # -- End function
	.section	.text.main,"ax",@progbits
	.globl	main                            # -- Begin function main
	.p2align	4
	.type	main,@function
main:                                   # @main
# %bb.0:                                # %start
	pushq	%rbp
	pushq	%r15
	pushq	%r14
	pushq	%r13
	pushq	%r12
	pushq	%rbx
	movq	%rsp, %r11
	subq	$402432, %r11                   # imm = 0x62400
.LBB21_1:                               # %start
                                        # =>This Inner Loop Header: Depth=1
	subq	$3072, %rsp                     # imm = 0xC00
	movq	$0, (%rsp)
	cmpq	%r11, %rsp
	jne	.LBB21_1
# %bb.2:                                # %start
	subq	$2760, %rsp                     # imm = 0xAC8
	movl	$1, %esi
	movl	$13, %edi
	callq	__sysv_signal@PLT
	leaq	15792(%rsp), %rbx
	movl	$4096, %edx                     # imm = 0x1000
	movq	%rbx, %rdi
	xorl	%esi, %esi
	callq	memset@PLT
	leaq	11696(%rsp), %rdi
	movl	$4096, %edx                     # imm = 0x1000
	xorl	%esi, %esi
	callq	memset@PLT
	leaq	.Lstatic.0(%rip), %rdi
	movl	$11, %esi
	movq	%rbx, %rdx
	callq	"tapelist::read_file::<#75e23eee2798bf10>"
	cmpb	$1, %al
	jne	.LBB21_211
# %bb.3:                                # %arm.1.i.i.i
	movq	%rdx, %rbp
	leaq	.Lstatic.1(%rip), %rdi
	leaq	11696(%rsp), %rdx
	movl	$8, %esi
	callq	"tapelist::read_file::<#75e23eee2798bf10>"
	cmpb	$1, %al
	jne	.LBB21_211
# %bb.4:                                # %arm.5.i.i.i
	movq	%rdx, %rbx
	leaq	143040(%rsp), %rdi
	movl	$262144, %edx                   # imm = 0x40000
	xorl	%esi, %esi
	callq	memset@PLT
	leaq	776(%rsp), %r15
	movl	$336, %edx                      # imm = 0x150
	movq	%r15, %rdi
	xorl	%esi, %esi
	callq	memset@PLT
	leaq	15792(%rsp), %rsi
	movq	%r15, %rdi
	movq	%rbp, %rdx
	callq	"loading::load"
	cmpb	$0, 776(%rsp)
	movabsq	$676777390577706354, %r14       # imm = 0x964657375666572
	movq	%rbx, 112(%rsp)                 # 8-byte Spill
	je	.LBB21_5
# %bb.141:                              # %arm.2.i.i.i.i.i.i
	movzbl	780(%rsp), %eax
	leaq	1(%rax), %rcx
	xorl	%r15d, %r15d
	movl	$363, %edx                      # imm = 0x16B
	btl	%eax, %edx
	jae	.LBB21_143
# %bb.142:                              # %after.2.i.i.i.i.i.i.i.i
	movl	784(%rsp), %r15d
	jmp	.LBB21_143
.LBB21_5:                               # %arm.1.i.i.i.i.i.i
	movq	784(%rsp), %rax
	movq	%rax, 64(%rsp)                  # 8-byte Spill
	leaq	792(%rsp), %r12
	testq	%rbx, %rbx
	je	.LBB21_6
# %bb.7:                                # %"core::slice::parts::slice+T::strip_suffix::<i8,31'core::cmp::numbers::U8PartialEq{}>.exit.i.i.i.i.i.i.i"
	leaq	-1(%rbx), %r15
	cmpb	$10, 11695(%rsp,%rbx)
	cmovneq	%rbx, %r15
	jmp	.LBB21_8
.LBB21_6:
	xorl	%r15d, %r15d
.LBB21_8:                               # %"listing::letters_of.exit.i.i.i.i.i.i"
	leaq	19888(%rsp), %rdi
	movl	$57616, %edx                    # imm = 0xE110
	xorl	%esi, %esi
	callq	memset@PLT
	leaq	77504(%rsp), %rdi
	movl	$65536, %edx                    # imm = 0x10000
	xorl	%esi, %esi
	callq	memset@PLT
	movq	64(%rsp), %r13                  # 8-byte Reload
	movq	%r13, 1624(%rsp)
	leaq	1632(%rsp), %rdi
	movl	$320, %edx                      # imm = 0x140
	movq	%r12, %rsi
	callq	memcpy@PLT
	movq	$0, 120(%rsp)
	movl	$0, 128(%rsp)
	leaq	120(%rsp), %rdi
	leaq	1624(%rsp), %rsi
	leaq	11696(%rsp), %rdx
	movq	%r15, %rcx
	callq	"checks::check_tape"
	cmpb	$0, 120(%rsp)
	je	.LBB21_9
# %bb.138:                              # %"parser::parse.exit.thread.i.i.i.i.i.i.i.i"
	movl	128(%rsp), %esi
	movzbl	124(%rsp), %eax
	jmp	.LBB21_139
.LBB21_9:                               # %arm.1.i.i.i.i.i.i.i.i.i
	movq	%rbp, 96(%rsp)                  # 8-byte Spill
	movq	%r13, 448(%rsp)
	leaq	456(%rsp), %rbp
	movl	$320, %edx                      # imm = 0x140
	movq	%rbp, %rdi
	movq	%r12, %rsi
	callq	memcpy@PLT
	leaq	1112(%rsp), %rdi
	movl	$512, %edx                      # imm = 0x200
	xorl	%esi, %esi
	callq	memset@PLT
	leaq	2(,%r15,2), %rsi
	cmpq	$7203, %rsi                     # imm = 0x1C23
	jb	.LBB21_11
# %bb.10:                               # %then.1.i.i.i.i.i.i.i.i.i.i
	movb	$5, %al
	jmp	.LBB21_60
.LBB21_11:                              # %join.3.i.i.i.i.i.i.i.i.i.i
	movq	%r15, 56(%rsp)                  # 8-byte Spill
	leaq	1112(%rsp), %r15
	leaq	448(%rsp), %rsi
	movq	%r15, %rdi
	callq	"table::table_of"
	leaq	3568(%rsp), %rdi
	movl	$512, %edx                      # imm = 0x200
	movq	%r15, %rsi
	callq	memcpy@PLT
	leaq	1952(%rsp), %rbx
	movl	$512, %edx                      # imm = 0x200
	movq	%rbx, %rdi
	xorl	%esi, %esi
	callq	memset@PLT
	leaq	2760(%rsp), %r12
	movl	$512, %edx                      # imm = 0x200
	movq	%r12, %rdi
	xorl	%esi, %esi
	callq	memset@PLT
	movq	%r15, %rdi
	movq	%r13, %rsi
	movq	%rbx, %rdx
	movq	%r12, %rcx
	callq	"masks::put_masks"
	movq	%rax, %r12
	leaq	8096(%rsp), %rdi
	movl	$2048, %edx                     # imm = 0x800
	xorl	%esi, %esi
	callq	memset@PLT
	testq	%r13, %r13
	je	.LBB21_30
# %bb.12:                               # %join.5.i.i.i.i.i.i.i.i.i.i.i.i.preheader
	leaq	8112(%rsp), %rbx
	xorl	%ecx, %ecx
	jmp	.LBB21_13
	.p2align	4
.LBB21_29:                              # %"masks::scatter::put_node.exit.i.i.i.i.i.i.i.i.i.i.i.i"
                                        #   in Loop: Header=BB21_13 Depth=1
	incq	%rcx
	cmpq	%r13, %rcx
	je	.LBB21_30
.LBB21_13:                              # %join.5.i.i.i.i.i.i.i.i.i.i.i.i
                                        # =>This Loop Header: Depth=1
                                        #     Child Loop BB21_19 Depth 2
                                        #     Child Loop BB21_21 Depth 2
                                        #     Child Loop BB21_26 Depth 2
                                        #     Child Loop BB21_28 Depth 2
	movq	3568(%rsp,%rcx,8), %rsi
	movq	%rsi, %r9
	shrq	$8, %r9
	cmpb	$2, %sil
	je	.LBB21_16
# %bb.14:                               # %join.5.i.i.i.i.i.i.i.i.i.i.i.i
                                        #   in Loop: Header=BB21_13 Depth=1
	movzbl	%sil, %eax
	cmpl	$1, %eax
	jne	.LBB21_29
# %bb.15:                               # %arm.2.i.i5.i.i.i.i.i.i.i.i.i.i.i.i
                                        #   in Loop: Header=BB21_13 Depth=1
	movl	$1, %eax
	shlq	%cl, %rax
	movzbl	%r9b, %edx
	orq	%rax, 8096(%rsp,%rdx,8)
	jmp	.LBB21_29
.LBB21_16:                              # %arm.3.i.i4.i.i.i.i.i.i.i.i.i.i.i.i
                                        #   in Loop: Header=BB21_13 Depth=1
	shrq	$16, %rsi
	movzbl	%sil, %edx
	cmpb	$126, %dl
	movl	$126, %eax
	cmovbl	%edx, %eax
	cmpb	$-94, %r9b
	movl	$161, %edi
	cmovael	%r9d, %edi
	movl	$1, %edx
	shlq	%cl, %rdx
	cmpb	%r9b, %al
	jb	.LBB21_22
# %bb.17:                               # %join.5.preheader.i.i.i.i.i.i.i.i.i.i.i.i.i.i.i.i
                                        #   in Loop: Header=BB21_13 Depth=1
	movzbl	%al, %r8d
	movzbl	%r9b, %r9d
	incq	%r8
	movq	%r8, %r10
	subq	%r9, %r10
	cmpq	$4, %r10
	jb	.LBB21_21
# %bb.18:                               # %vector.ph24
                                        #   in Loop: Header=BB21_13 Depth=1
	movq	%r10, %r11
	andq	$-4, %r11
	movq	%rdx, %xmm0
	pshufd	$68, %xmm0, %xmm0               # xmm0 = xmm0[0,1,0,1]
	leaq	(%rbx,%r9,8), %r15
	addq	%r11, %r9
	xorl	%eax, %eax
	.p2align	4
.LBB21_19:                              # %vector.body29
                                        #   Parent Loop BB21_13 Depth=1
                                        # =>  This Inner Loop Header: Depth=2
	movdqu	-16(%r15,%rax,8), %xmm1
	movdqu	(%r15,%rax,8), %xmm2
	por	%xmm0, %xmm1
	por	%xmm0, %xmm2
	movdqu	%xmm1, -16(%r15,%rax,8)
	movdqu	%xmm2, (%r15,%rax,8)
	addq	$4, %rax
	cmpq	%rax, %r11
	jne	.LBB21_19
# %bb.20:                               # %middle.block35
                                        #   in Loop: Header=BB21_13 Depth=1
	cmpl	%r11d, %r10d
	movq	64(%rsp), %r13                  # 8-byte Reload
	je	.LBB21_22
	.p2align	4
.LBB21_21:                              # %join.5.i.i.i.i.i.i.i.i.i.i.i.i.i.i.i.i
                                        #   Parent Loop BB21_13 Depth=1
                                        # =>  This Inner Loop Header: Depth=2
	orq	%rdx, 8096(%rsp,%r9,8)
	incq	%r9
	cmpq	%r9, %r8
	jne	.LBB21_21
.LBB21_22:                              # %"masks::scatter::put_between.exit.i.i.i.i.i.i.i.i.i.i.i.i.i.i.i"
                                        #   in Loop: Header=BB21_13 Depth=1
	cmpb	%sil, %dil
	ja	.LBB21_29
# %bb.23:                               # %join.5.preheader.i4.i.i.i.i.i.i.i.i.i.i.i.i.i.i.i
                                        #   in Loop: Header=BB21_13 Depth=1
	movzbl	%sil, %esi
	movzbl	%dil, %eax
	incq	%rsi
	movq	%rsi, %r8
	subq	%rax, %r8
	cmpq	$4, %r8
	jae	.LBB21_25
# %bb.24:                               #   in Loop: Header=BB21_13 Depth=1
	movq	%rax, %rdi
	jmp	.LBB21_28
.LBB21_25:                              # %vector.ph
                                        #   in Loop: Header=BB21_13 Depth=1
	movq	%r8, %r9
	andq	$-4, %r9
	leaq	(%r9,%rax), %rdi
	movq	%rdx, %xmm0
	pshufd	$68, %xmm0, %xmm0               # xmm0 = xmm0[0,1,0,1]
	leaq	(%rbx,%rax,8), %r10
	xorl	%eax, %eax
	.p2align	4
.LBB21_26:                              # %vector.body
                                        #   Parent Loop BB21_13 Depth=1
                                        # =>  This Inner Loop Header: Depth=2
	movdqu	-16(%r10,%rax,8), %xmm1
	movdqu	(%r10,%rax,8), %xmm2
	por	%xmm0, %xmm1
	por	%xmm0, %xmm2
	movdqu	%xmm1, -16(%r10,%rax,8)
	movdqu	%xmm2, (%r10,%rax,8)
	addq	$4, %rax
	cmpq	%rax, %r9
	jne	.LBB21_26
# %bb.27:                               # %middle.block
                                        #   in Loop: Header=BB21_13 Depth=1
	cmpl	%r9d, %r8d
	je	.LBB21_29
	.p2align	4
.LBB21_28:                              # %join.5.i6.i.i.i.i.i.i.i.i.i.i.i.i.i.i.i
                                        #   Parent Loop BB21_13 Depth=1
                                        # =>  This Inner Loop Header: Depth=2
	orq	%rdx, 8096(%rsp,%rdi,8)
	incq	%rdi
	cmpq	%rdi, %rsi
	jne	.LBB21_28
	jmp	.LBB21_29
.LBB21_30:                              # %"masks::scatter::put_takers.exit.i.i.i.i.i.i.i.i.i.i.i"
	movq	56(%rsp), %rbx                  # 8-byte Reload
	movq	%rbx, %rax
	shlq	$4, %rax
	movq	$0, 19888(%rsp,%rax)
	movq	%rax, 48(%rsp)                  # 8-byte Spill
	movq	%r12, 19896(%rsp,%rax)
	leaq	4368(%rsp), %rdi
	movl	$648, %edx                      # imm = 0x288
	xorl	%esi, %esi
	callq	memset@PLT
	movq	$192, 5016(%rsp)
	leaq	5024(%rsp), %rdi
	movl	$3072, %edx                     # imm = 0xC00
	xorl	%esi, %esi
	callq	memset@PLT
	testq	%rbx, %rbx
	je	.LBB21_55
# %bb.31:                               # %join.5.lr.ph.i.i.i.i.i.i.i.i.i.i.i.i
	movabsq	$824633720832, %rax             # imm = 0xC000000000
	movl	$1, %ecx
	xorl	%r10d, %r10d
	xorl	%edx, %edx
	movq	56(%rsp), %rsi                  # 8-byte Reload
	jmp	.LBB21_32
.LBB21_212:                             # %arm.6.i.i.i.i.i.i.i.i.i.i.i.i.i
                                        #   in Loop: Header=BB21_32 Depth=1
	movq	$0, 5016(%rsp)
.LBB21_41:                              #   in Loop: Header=BB21_32 Depth=1
	xorl	%r9d, %r9d
	xorl	%r15d, %r15d
.LBB21_54:                              # %join.9.i.i.i.i.i.i.i.i.i.i.i.i
                                        #   in Loop: Header=BB21_32 Depth=1
	decq	%rsi
	movq	%rsi, %rcx
	shlq	$4, %rcx
	movq	%r8, 19888(%rsp,%rcx)
	movq	%rdi, 19896(%rsp,%rcx)
	xorl	%ecx, %ecx
	movq	%rdi, %r12
	movl	%r15d, %r10d
	movq	%r9, %rdx
	testq	%rsi, %rsi
	je	.LBB21_55
.LBB21_32:                              # %join.5.i9.i.i.i.i.i.i.i.i.i.i.i
                                        # =>This Loop Header: Depth=1
                                        #     Child Loop BB21_39 Depth 2
                                        #     Child Loop BB21_44 Depth 2
	movzbl	11695(%rsp,%rsi), %edi
	movq	8096(%rsp,%rdi,8), %r11
	testb	%r10b, %r10b
	je	.LBB21_36
# %bb.33:                               # %arm.1.i.i.i.i.i.i.i.i.i.i.i.i.i
                                        #   in Loop: Header=BB21_32 Depth=1
	movl	$64, %edi
	rep		bsfq	%r11, %rdi
	andl	$63, %edi
	movl	%edi, %r8d
	cmpq	%r11, 5024(%rsp,%r8,8)
	jne	.LBB21_36
# %bb.34:                               # %"steps::memory::Memo::known.exit.i.i.i.i.i.i.i.i.i.i.i.i"
                                        #   in Loop: Header=BB21_32 Depth=1
	leaq	(%rdi,%rdi,4), %rdi
	leaq	5536(%rsp), %r8
	leaq	(%r8,%rdi,8), %rdi
	movzbl	(%rdx,%rdi), %r9d
	testq	%r9, %r9
	je	.LBB21_36
# %bb.35:                               # %arm.6.i.i.i.i.i.i.i.i.i.i.i.i
                                        #   in Loop: Header=BB21_32 Depth=1
	decq	%r9
	movq	%r9, %rcx
	shlq	$4, %rcx
	movq	4368(%rsp,%rcx), %r8
	movq	4376(%rsp,%rcx), %rdi
	movb	$1, %r15b
	jmp	.LBB21_54
	.p2align	4
.LBB21_36:                              # %arm.7.i.i.i.i.i.i.i.i.i.i.i.i
                                        #   in Loop: Header=BB21_32 Depth=1
	testq	%r11, %r11
	je	.LBB21_37
# %bb.38:                               # %arm.3.i.i.i.i.i.i.i.i.i.i.i.i.i.preheader
                                        #   in Loop: Header=BB21_32 Depth=1
	xorl	%r8d, %r8d
	xorl	%edi, %edi
	movq	%r11, %r15
	.p2align	4
.LBB21_39:                              # %arm.3.i.i.i.i.i.i.i.i.i.i.i.i.i
                                        #   Parent Loop BB21_32 Depth=1
                                        # =>  This Inner Loop Header: Depth=2
	movq	%r15, %r9
	rep		bsfq	%r15, %rbx
	shll	$3, %ebx
	movq	3568(%rsp,%rbx), %r13
	movq	%r13, %r15
	shrq	$32, %r15
	xorl	%r14d, %r14d
	btq	%r15, %r12
	setb	%r14b
	testq	%rax, %r13
	cmovneq	%rcx, %r14
	leaq	-1(%r9), %r15
	movq	1952(%rsp,%rbx), %r13
	imulq	%r14, %r13
	orq	%r13, %r8
	imulq	2760(%rsp,%rbx), %r14
	orq	%r14, %rdi
	andq	%r9, %r15
	jne	.LBB21_39
# %bb.40:                               # %"steps::step.exit.i.i.i.i.i.i.i.i.i.i.i.i"
                                        #   in Loop: Header=BB21_32 Depth=1
	movq	5016(%rsp), %rcx
	testq	%rcx, %rcx
	jne	.LBB21_42
	jmp	.LBB21_41
.LBB21_37:                              #   in Loop: Header=BB21_32 Depth=1
	xorl	%edi, %edi
	xorl	%r8d, %r8d
	movq	5016(%rsp), %rcx
	testq	%rcx, %rcx
	je	.LBB21_41
.LBB21_42:                              # %join.3.i.i.i.i.i.i.i.i.i.i.i.i.i
                                        #   in Loop: Header=BB21_32 Depth=1
	decq	%rcx
	movq	%rcx, 5016(%rsp)
	movq	5008(%rsp), %r9
	testq	%r9, %r9
	je	.LBB21_49
# %bb.43:                               # %arm.3.i.i.i.i.i.i.i.i.i.i.i.i.i.i.i.i.preheader
                                        #   in Loop: Header=BB21_32 Depth=1
	xorl	%ecx, %ecx
	leaq	4376(%rsp), %r15
	jmp	.LBB21_44
	.p2align	4
.LBB21_47:                              # %join.9.i.i.i.i.i.i.i.i.i.i.i.i.i.i.i.i
                                        #   in Loop: Header=BB21_44 Depth=2
	incq	%rcx
	addq	$16, %r15
	cmpq	%rcx, %r9
	je	.LBB21_48
.LBB21_44:                              # %arm.3.i.i.i.i.i.i.i.i.i.i.i.i.i.i.i.i
                                        #   Parent Loop BB21_32 Depth=1
                                        # =>  This Inner Loop Header: Depth=2
	cmpq	%r8, -8(%r15)
	jne	.LBB21_47
# %bb.45:                               # %"steps::memory::fn::find::position+FnMut::call_mut.exit.i.i.i.i.i.i.i.i.i.i.i.i.i.i.i.i"
                                        #   in Loop: Header=BB21_44 Depth=2
	cmpq	%rdi, (%r15)
	jne	.LBB21_47
# %bb.46:                               #   in Loop: Header=BB21_32 Depth=1
	movq	%rcx, %r9
	jmp	.LBB21_50
.LBB21_48:                              # %join.4.i.i.i.i.i.i.i.i.i.i.i.i.i.i
                                        #   in Loop: Header=BB21_32 Depth=1
	cmpq	$40, %r9
	je	.LBB21_212
.LBB21_49:                              # %join.8.i.i.i.i.i.i.i.i.i.i.i.i.i.i
                                        #   in Loop: Header=BB21_32 Depth=1
	movq	%r9, %rcx
	shlq	$4, %rcx
	movq	%r8, 4368(%rsp,%rcx)
	movq	%rdi, 4376(%rsp,%rcx)
	leaq	1(%r9), %rcx
	movq	%rcx, 5008(%rsp)
.LBB21_50:                              # %arm.5.i.i.i.i.i.i.i.i.i.i.i.i.i
                                        #   in Loop: Header=BB21_32 Depth=1
	movb	$1, %r15b
	testb	$1, %r10b
	je	.LBB21_54
# %bb.51:                               # %arm.9.i.i.i.i.i.i.i.i.i.i.i.i.i
                                        #   in Loop: Header=BB21_32 Depth=1
	movl	$64, %ecx
	rep		bsfq	%r11, %rcx
	andl	$63, %ecx
	movl	%ecx, %ebx
	movq	5024(%rsp,%rbx,8), %r14
	testq	%r14, %r14
	sete	%r10b
	movq	%r14, %r12
	cmoveq	%r11, %r12
	movq	%r12, 5024(%rsp,%rbx,8)
	cmpq	%r11, %r14
	sete	%r12b
	testq	%r11, %r11
	je	.LBB21_54
# %bb.52:                               # %arm.9.i.i.i.i.i.i.i.i.i.i.i.i.i
                                        #   in Loop: Header=BB21_32 Depth=1
	orb	%r12b, %r10b
	je	.LBB21_54
# %bb.53:                               # %then.1.i.i.i.i.i.i.i.i.i.i.i.i.i.i
                                        #   in Loop: Header=BB21_32 Depth=1
	leal	1(%r9), %r10d
	leaq	(%rcx,%rcx,4), %rcx
	leaq	5536(%rsp), %r11
	leaq	(%r11,%rcx,8), %rcx
	movb	%r10b, (%rdx,%rcx)
	jmp	.LBB21_54
.LBB21_55:                              # %"first_sweep::fill.exit.i.i.i.i.i.i.i.i.i.i"
	movq	64(%rsp), %rax                  # 8-byte Reload
	leaq	-1(%rax), %r14
	movq	19896(%rsp), %rax
	btq	%r14, %rax
	leaq	77504(%rsp), %rcx
	jae	.LBB21_56
# %bb.57:                               # %join.6.i.i.i.i.i.i.i.i.i.i
	movq	56(%rsp), %rbx                  # 8-byte Reload
	movq	48(%rsp), %rax                  # 8-byte Reload
	addq	%rbx, %rax
	addq	$8, %rax
	cmpq	$65537, %rax                    # imm = 0x10001
	jb	.LBB21_61
# %bb.58:                               # %"parser::bytes_missing.exit.i.i.i.i.i.i.i.i.i.i.i"
	leaq	47(%rsp), %rax
	movq	%rax, 8(%rsp)
	movl	$0, 24(%rsp)
	movq	$0, 16(%rsp)
	movl	$1, (%rsp)
	leaq	3568(%rsp), %rdi
	leaq	19888(%rsp), %rsi
	leaq	11696(%rsp), %rdx
	movq	%rbx, %rcx
	movq	%r14, %r8
	xorl	%r9d, %r9d
	callq	"second_sweep::sweep"
	leaq	77504(%rsp), %rcx
	cmpl	$524289, %eax                   # imm = 0x80001
	jb	.LBB21_61
# %bb.59:                               # %arm.1.i.i.i.i.i.i.i.i.i.i.i
	movl	%eax, %esi
	addq	$7, %rsi
	shrq	$3, %rsi
	movb	$6, %al
	jmp	.LBB21_60
.LBB21_61:                              # %arm.1.i.i.i.i.i.i.i.i
	movq	%rcx, 8(%rsp)
	movl	$0, 24(%rsp)
	movq	$65536, 16(%rsp)                # imm = 0x10000
	movl	$1, (%rsp)
	leaq	3568(%rsp), %rdi
	leaq	19888(%rsp), %rsi
	leaq	11696(%rsp), %rdx
	movq	%rbx, %rcx
	movq	%r14, %r8
	xorl	%r9d, %r9d
	callq	"second_sweep::sweep"
	movl	%eax, %ebx
	leaq	2760(%rsp), %rdi
	movl	$804, %edx                      # imm = 0x324
	xorl	%esi, %esi
	callq	memset@PLT
	leaq	3568(%rsp), %rdi
	movl	$796, %edx                      # imm = 0x31C
	xorl	%esi, %esi
	callq	memset@PLT
	leaq	4368(%rsp), %r12
	movl	$3600, %edx                     # imm = 0xE10
	movq	%r12, %rdi
	xorl	%esi, %esi
	callq	memset@PLT
	leaq	8096(%rsp), %r15
	movl	$3600, %edx                     # imm = 0xE10
	movq	%r15, %rdi
	xorl	%esi, %esi
	callq	memset@PLT
	leaq	1112(%rsp), %rdi
	movl	$512, %edx                      # imm = 0x200
	xorl	%esi, %esi
	callq	memset@PLT
	movq	%r14, 104(%rsp)                 # 8-byte Spill
	cmpq	$63, %r14
	ja	.LBB21_68
# %bb.62:                               # %arm.3.i.preheader.i.i.i.i.i.i.i.i.i.i.i.i.i
	movl	%ebx, %r13d
	leaq	7(%r13), %r14
	shrq	$3, %r14
	movq	64(%rsp), %rbx                  # 8-byte Reload
	movq	%rbx, 448(%rsp)
	movl	$320, %edx                      # imm = 0x140
	movq	%rbp, %rdi
	leaq	792(%rsp), %rsi
	callq	memcpy@PLT
	movq	%rbx, %r8
	movq	%rbx, %rax
	jmp	.LBB21_63
.LBB21_67:                              # %arm.2.i.i.i.i.i.i.i.i.i.i.i.i.i.i.i.i.i.i.i
                                        #   in Loop: Header=BB21_63 Depth=1
	andb	$127, %cl
	addb	$-33, %cl
	cmpb	$94, %cl
	jae	.LBB21_68
	.p2align	4
.LBB21_72:                              # %loop.2.backedge.i.i.i.i.i.i.i.i.i.i.i.i.i.i
                                        #   in Loop: Header=BB21_63 Depth=1
	decq	%rax
	addq	$5, %rbp
	testq	%rax, %rax
	je	.LBB21_73
.LBB21_63:                              # %arm.3.i.i.i.i.i.i.i.i.i.i.i.i.i.i
                                        # =>This Inner Loop Header: Depth=1
	cmpb	$-56, (%rbp)
	ja	.LBB21_68
# %bb.64:                               # %then.1.i.i.i.i.i.i.i.i.i.i.i.i.i.i.i.i.i
                                        #   in Loop: Header=BB21_63 Depth=1
	cmpb	$0, 1(%rbp)
	jne	.LBB21_72
# %bb.65:                               # %arm.1.i.i.i.i.i.i.i.i.i.i.i.i.i.i.i.i.i.i
                                        #   in Loop: Header=BB21_63 Depth=1
	movzbl	2(%rbp), %edx
	testl	%edx, %edx
	je	.LBB21_72
# %bb.66:                               # %arm.1.i.i.i.i.i.i.i.i.i.i.i.i.i.i.i.i.i.i
                                        #   in Loop: Header=BB21_63 Depth=1
	movzbl	3(%rbp), %ecx
	cmpl	$2, %edx
	jne	.LBB21_67
# %bb.69:                               # %arm.3.i.i.i.i.i.i.i.i.i.i.i.i.i.i.i.i.i.i.i
                                        #   in Loop: Header=BB21_63 Depth=1
	movzbl	4(%rbp), %edx
	cmpb	%dl, %cl
	ja	.LBB21_68
# %bb.70:                               # %arm.3.i.i.i.i.i.i.i.i.i.i.i.i.i.i.i.i.i.i.i
                                        #   in Loop: Header=BB21_63 Depth=1
	andb	$127, %cl
	addb	$-33, %cl
	cmpb	$93, %cl
	ja	.LBB21_68
# %bb.71:                               # %arm.3.i.i.i.i.i.i.i.i.i.i.i.i.i.i.i.i.i.i.i
                                        #   in Loop: Header=BB21_63 Depth=1
	andb	$127, %dl
	addb	$-33, %dl
	cmpb	$93, %dl
	jbe	.LBB21_72
	jmp	.LBB21_68
.LBB21_73:                              # %"syntax::obeys_rules.exit.i.i.i.i.i.i.i.i.i.i.i"
	movq	%r13, 48(%rsp)                  # 8-byte Spill
	movq	%r14, 88(%rsp)                  # 8-byte Spill
	movq	%r8, 1624(%rsp)
	leaq	1632(%rsp), %rdi
	movl	$320, %edx                      # imm = 0x140
	leaq	792(%rsp), %rbx
	movq	%rbx, %rsi
	movq	%r8, %r14
	callq	memcpy@PLT
	leaq	1624(%rsp), %rdi
	callq	"syntax::naming::tree_fault_of"
	cmpb	$1, %al
	je	.LBB21_68
# %bb.74:                               # %join.3.i.i.i.i.i.i.i.i.i.i.i
	movq	%r14, 120(%rsp)
	leaq	128(%rsp), %rdi
	movl	$320, %edx                      # imm = 0x140
	movq	%rbx, %rsi
	callq	memcpy@PLT
	leaq	1112(%rsp), %r13
	leaq	120(%rsp), %rsi
	movq	%r13, %rdi
	callq	"table::table_of"
	leaq	1952(%rsp), %rdi
	movl	$512, %edx                      # imm = 0x200
	movq	%r13, %rsi
	callq	memcpy@PLT
	movl	$0, 456(%rsp)
	movq	$0, 448(%rsp)
	movq	48(%rsp), %rbx                  # 8-byte Reload
	cmpl	$524288, %ebx                   # imm = 0x80000
	ja	.LBB21_68
# %bb.75:                               # %then.4.i.i.i.i.i.i.i.i.i.i.i.i.i
	movl	%ebx, %eax
	andl	$7, %eax
	je	.LBB21_77
# %bb.76:                               # %"bits::handed_good.exit.i.i.i.i.i.i.i.i.i.i.i.i"
	movl	%ebx, %edx
	movb	$8, %cl
	subb	%al, %cl
	movl	$-1, %eax
	shll	%cl, %eax
	shrl	$3, %edx
	notb	%al
	testb	%al, 77504(%rsp,%rdx)
	jne	.LBB21_68
.LBB21_77:                              # %join.3.i.i.i.i.i.i.i.i.i.i.i.i
	movq	%r15, 16(%rsp)
	movq	%r12, 8(%rsp)
	movl	$0, 24(%rsp)
	movl	$0, (%rsp)
	leaq	448(%rsp), %rdi
	leaq	1952(%rsp), %rsi
	leaq	77504(%rsp), %r8
	movq	104(%rsp), %rdx                 # 8-byte Reload
	xorl	%ecx, %ecx
	movq	88(%rsp), %r9                   # 8-byte Reload
	callq	"entries::put_entries"
	cmpb	$1, 448(%rsp)
	jne	.LBB21_68
# %bb.78:                               # %join.3.i.i.i.i.i.i.i.i.i.i.i.i
	movq	452(%rsp), %rbp
	cmpl	%ebp, %ebx
	jne	.LBB21_68
# %bb.79:                               # %arm.4.i.i.i.i.i.i.i.i.i.i.i
	movq	%rbp, %r13
	shrq	$32, %r13
	cmpl	$3600, %r13d                    # imm = 0xE10
	ja	.LBB21_68
# %bb.80:                               # %arm.1.i.i.i.i.i.i.i.i.i.i
	leaq	1952(%rsp), %rdi
	movl	$804, %edx                      # imm = 0x324
	xorl	%esi, %esi
	callq	memset@PLT
	testq	%r13, %r13
	je	.LBB21_81
# %bb.82:                               # %arm.5.i2.i.i.i.i.i.i.i.i.i.i.preheader
	btq	$32, %rbp
	movq	%r13, %rax
	jae	.LBB21_84
# %bb.83:                               # %arm.5.i2.i.i.i.i.i.i.i.i.i.i.prol
	leaq	-1(%r13), %rax
	leaq	4369(%rsp), %r12
	leaq	8097(%rsp), %r15
	movzbl	4368(%rsp), %ecx
	movzbl	8096(%rsp), %edx
	addb	$-48, %cl
	xorl	%esi, %esi
	cmpb	$10, %cl
	movzbl	%cl, %ecx
	cmovael	%esi, %ecx
	movzbl	%cl, %ecx
	addl	%ecx, 1952(%rsp,%rdx,4)
.LBB21_84:                              # %arm.5.i2.i.i.i.i.i.i.i.i.i.i.prol.loopexit
	cmpl	$1, %r13d
	movabsq	$676777390577706354, %r14       # imm = 0x964657375666572
	movq	96(%rsp), %rbp                  # 8-byte Reload
	je	.LBB21_87
# %bb.85:                               # %arm.5.i2.i.i.i.i.i.i.i.i.i.i.preheader80
	xorl	%ecx, %ecx
	xorl	%edx, %edx
.LBB21_86:                              # %arm.5.i2.i.i.i.i.i.i.i.i.i.i
                                        # =>This Inner Loop Header: Depth=1
	movzbl	(%r12,%rdx), %esi
	movzbl	(%r15,%rdx), %edi
	addb	$-48, %sil
	cmpb	$10, %sil
	movzbl	%sil, %esi
	cmovael	%ecx, %esi
	movzbl	%sil, %esi
	addl	%esi, 1952(%rsp,%rdi,4)
	movzbl	1(%r12,%rdx), %esi
	movzbl	1(%r15,%rdx), %edi
	addb	$-48, %sil
	cmpb	$10, %sil
	movzbl	%sil, %esi
	cmovael	%ecx, %esi
	movzbl	%sil, %esi
	addl	%esi, 1952(%rsp,%rdi,4)
	addq	$2, %rdx
	cmpq	%rdx, %rax
	jne	.LBB21_86
.LBB21_87:                              # %"totals::add_up.exit.loopexit.i.i.i.i.i.i.i.i.i.i"
	movq	1952(%rsp), %xmm0               # xmm0 = mem[0],zero
	movdqa	%xmm0, 64(%rsp)                 # 16-byte Spill
	jmp	.LBB21_88
.LBB21_56:
	movb	$4, %al
	xorl	%esi, %esi
.LBB21_60:                              # %"parser::parse.exit.thread61.i.i.i.i.i.i.i.i"
	movabsq	$676777390577706354, %r14       # imm = 0x964657375666572
	movq	96(%rsp), %rbp                  # 8-byte Reload
.LBB21_139:                             # %arm.2.i.i.i.i.i.i.i.i
	movzbl	%al, %eax
	leaq	1(%rax), %rcx
	xorl	%r15d, %r15d
	movl	$363, %edx                      # imm = 0x16B
	btl	%eax, %edx
	jae	.LBB21_143
# %bb.140:                              # %after.2.i.i.i.i.i.i.i.i.i.i
	movl	%esi, %r15d
.LBB21_143:                             # %"refusals::RefusalCause::value.exit.i.i.i.i.i.i.i"
	movq	%r14, 143040(%rsp)
	leaq	143040(%rsp), %rdi
	movl	$262144, %r12d                  # imm = 0x40000
	movl	$262144, %esi                   # imm = 0x40000
	movl	$8, %edx
	callq	"text::digits::put_decimal"
	movl	$262144, %edx                   # imm = 0x40000
	cmpq	$262143, %rax                   # imm = 0x3FFFF
	ja	.LBB21_145
# %bb.144:                              # %then.1.i.i.i.i.i.i.i6.i.i.i.i.i.i
	movb	$9, 143040(%rsp,%rax)
	incq	%rax
	movq	%rax, %rdx
.LBB21_145:                             # %"text::lines::put_entry.exit.i.i.i.i.i.i.i.i.i"
	leaq	143040(%rsp), %rdi
	movl	$262144, %esi                   # imm = 0x40000
	movq	%r15, %rcx
	callq	"text::digits::put_decimal"
	cmpq	$262143, %rax                   # imm = 0x3FFFF
	ja	.LBB21_147
# %bb.146:                              # %then.1.i.i.i.i5.i.i.i.i.i.i
	movb	$10, 143040(%rsp,%rax)
	incq	%rax
	movq	%rax, %r12
.LBB21_147:                             # %"listing::list.exit.i.i.i.i"
	pxor	%xmm0, %xmm0
	movdqa	%xmm0, 77584(%rsp)
	movdqa	%xmm0, 77568(%rsp)
	movdqa	%xmm0, 77552(%rsp)
	movdqa	%xmm0, 77536(%rsp)
	movdqa	%xmm0, 77520(%rsp)
	movdqa	%xmm0, 77504(%rsp)
	leaq	77504(%rsp), %rdi
	leaq	143040(%rsp), %rdx
	movl	$1, %esi
	movq	%r12, %rcx
	callq	"std_io::io::write_to"
	movzbl	77504(%rsp), %eax
	movdqu	77512(%rsp), %xmm0
	movdqu	%xmm0, 19895(%rsp)
	movq	77592(%rsp), %rcx
	movdqu	77576(%rsp), %xmm1
	movdqu	77560(%rsp), %xmm2
	movups	77544(%rsp), %xmm3
	movups	77528(%rsp), %xmm4
	movdqu	%xmm0, 77511(%rsp)
	movups	%xmm4, 77527(%rsp)
	movups	%xmm3, 77543(%rsp)
	movdqu	%xmm2, 77559(%rsp)
	movdqu	%xmm1, 77575(%rsp)
	movq	%rcx, 77591(%rsp)
	cmpb	$1, %al
	jne	.LBB21_149
# %bb.148:                              # %arm.1.i.i3.i.i.i.i
	leaq	77511(%rsp), %rax
	movq	80(%rax), %rcx
	movq	%rcx, 19968(%rsp)
	movups	64(%rax), %xmm0
	movaps	%xmm0, 19952(%rsp)
	movdqu	(%rax), %xmm0
	movdqu	16(%rax), %xmm1
	movdqu	32(%rax), %xmm2
	movups	48(%rax), %xmm3
	movaps	%xmm3, 19936(%rsp)
	movdqa	%xmm2, 19920(%rsp)
	movdqa	%xmm1, 19904(%rsp)
	movdqa	%xmm0, 19888(%rsp)
	leaq	.Lstatic.63(%rip), %rdi
	leaq	19888(%rsp), %rdx
	movl	$15, %esi
	callq	"tapelist::fail::<#4e9da720f7635e46>"
.LBB21_149:                             # %"tapelist::print_listing::<#58479109a033be3c>.exit.i.i.i"
	xorl	%ebx, %ebx
	leaq	47(%rsp), %rsi
	movl	$1, %edi
	xorl	%edx, %edx
	callq	rattle_arg@PLT
	cmpq	$-1, %rax
	movl	$22, %ecx
	movl	$36, %edi
	cmovel	%ecx, %edi
	testq	%rax, %rax
	cmovnsl	%ebx, %edi
	callq	rattle_set_errno@PLT
	callq	rattle_errno@PLT
	cmpl	$36, %eax
	movq	112(%rsp), %r12                 # 8-byte Reload
	je	.LBB21_151
# %bb.150:                              # %"tapelist::print_listing::<#58479109a033be3c>.exit.i.i.i"
	testl	%eax, %eax
	jne	.LBB21_211
.LBB21_151:                             # %then.8.i.i.i
	movq	%r14, %rbx
	leaq	1952(%rsp), %r15
	movq	%rbp, %r14
	xorl	%ebp, %ebp
	movl	$336, %edx                      # imm = 0x150
	movq	%r15, %rdi
	xorl	%esi, %esi
	callq	memset@PLT
	leaq	15792(%rsp), %rsi
	movq	%r15, %rdi
	movq	%r14, %rdx
	callq	"loading::load"
	cmpb	$0, 1952(%rsp)
	je	.LBB21_152
# %bb.153:                              # %arm.2.i.i.i.i.i
	leaq	3568(%rsp), %rdi
	movl	$324, %edx                      # imm = 0x144
	xorl	%esi, %esi
	callq	memset@PLT
	testq	%r12, %r12
	je	.LBB21_155
.LBB21_156:                             # %"core::slice::parts::slice+T::strip_suffix::<i8,31'core::cmp::numbers::U8PartialEq{}>.exit.i.i.i.i.i"
	leaq	-1(%r12), %r14
	cmpb	$10, 11695(%rsp,%r12)
	cmovneq	%r12, %r14
	jmp	.LBB21_157
.LBB21_152:                             # %arm.1.i.i.i.i.i
	leaq	1964(%rsp), %rsi
	movl	1960(%rsp), %ebp
	leaq	3568(%rsp), %rdi
	movl	$324, %edx                      # imm = 0x144
	callq	memcpy@PLT
	testq	%r12, %r12
	jne	.LBB21_156
.LBB21_155:
	xorl	%r14d, %r14d
.LBB21_157:                             # %"listing::letters_of.exit.i.i.i.i"
	movl	%ebp, 2760(%rsp)
	leaq	2764(%rsp), %rdi
	leaq	3568(%rsp), %rsi
	movl	$324, %edx                      # imm = 0x144
	callq	memcpy@PLT
	movq	$0, 1112(%rsp)
	movl	$0, 1120(%rsp)
	leaq	8096(%rsp), %rdi
	movl	$512, %edx                      # imm = 0x200
	xorl	%esi, %esi
	callq	memset@PLT
	leaq	1112(%rsp), %rdi
	leaq	2760(%rsp), %rsi
	leaq	11696(%rsp), %rdx
	movq	%r14, %rcx
	callq	"checks::check_tape"
	cmpb	$0, 1112(%rsp)
	je	.LBB21_158
# %bb.202:                              # %arm.2.i6.i.i.i.i
	movl	1120(%rsp), %eax
	movzbl	1116(%rsp), %edx
	pxor	%xmm0, %xmm0
	movdqu	%xmm0, 19896(%rsp)
	movq	$0, 19912(%rsp)
	leaq	1(%rdx), %rcx
	xorl	%r14d, %r14d
	movl	$363, %esi                      # imm = 0x16B
	btl	%edx, %esi
	jae	.LBB21_204
# %bb.203:                              # %after.2.i.i.i.i.i.i.i
	movq	%rax, %r14
.LBB21_204:                             # %"refusals::RefusalCause::value.exit.i.i.i.i.i.i"
	movq	%rbx, 19888(%rsp)
	leaq	19888(%rsp), %rdi
	movl	$32, %ebx
	movl	$32, %esi
	movl	$8, %edx
	callq	"text::digits::put_decimal"
	movl	$32, %edx
	cmpq	$31, %rax
	ja	.LBB21_207
.LBB21_206:                             # %then.1.i.i.i.i.i.i.i.i.i17.i.i.i
	movb	$9, 19888(%rsp,%rax)
	incq	%rax
	movq	%rax, %rdx
.LBB21_207:                             # %"text::lines::put_entry.exit.i.i.i.i.i.i.i.i"
	leaq	19888(%rsp), %rdi
	movl	$32, %esi
	movq	%r14, %rcx
	callq	"text::digits::put_decimal"
	cmpq	$31, %rax
	ja	.LBB21_209
# %bb.208:                              # %then.1.i.i.i.i7.i.i.i.i.i
	movb	$10, 19888(%rsp,%rax)
	incq	%rax
	movq	%rax, %rbx
.LBB21_209:                             # %"tapelist::put_located.exit.i.i.i.i"
	pxor	%xmm0, %xmm0
	movdqa	%xmm0, 143120(%rsp)
	movdqa	%xmm0, 143104(%rsp)
	movdqa	%xmm0, 143088(%rsp)
	movdqa	%xmm0, 143072(%rsp)
	movdqa	%xmm0, 143056(%rsp)
	movdqa	%xmm0, 143040(%rsp)
	leaq	143040(%rsp), %rdi
	leaq	19888(%rsp), %rdx
	movl	$1, %esi
	movq	%rbx, %rcx
	callq	"std_io::io::write_to"
	movzbl	143040(%rsp), %eax
	movdqu	143048(%rsp), %xmm0
	movdqu	%xmm0, 77511(%rsp)
	movq	143128(%rsp), %rcx
	movdqu	143112(%rsp), %xmm1
	movdqu	143096(%rsp), %xmm2
	movups	143080(%rsp), %xmm3
	movups	143064(%rsp), %xmm4
	movdqu	%xmm0, 143047(%rsp)
	movups	%xmm4, 143063(%rsp)
	movups	%xmm3, 143079(%rsp)
	movdqu	%xmm2, 143095(%rsp)
	movdqu	%xmm1, 143111(%rsp)
	movq	%rcx, 143127(%rsp)
	cmpb	$1, %al
	jne	.LBB21_211
# %bb.210:                              # %arm.1.i.i.i16.i.i.i
	leaq	143047(%rsp), %rax
	movq	80(%rax), %rcx
	movq	%rcx, 77584(%rsp)
	movups	64(%rax), %xmm0
	movaps	%xmm0, 77568(%rsp)
	movdqu	(%rax), %xmm0
	movdqu	16(%rax), %xmm1
	movdqu	32(%rax), %xmm2
	movups	48(%rax), %xmm3
	movaps	%xmm3, 77552(%rsp)
	movdqa	%xmm2, 77536(%rsp)
	movdqa	%xmm1, 77520(%rsp)
	movdqa	%xmm0, 77504(%rsp)
	leaq	.Lstatic.63(%rip), %rdi
	leaq	77504(%rsp), %rdx
	movl	$15, %esi
	callq	"tapelist::fail::<#4e9da720f7635e46>"
.LBB21_211:                             # %"tapelist::main+start.exit"
	xorl	%eax, %eax
	addq	$405192, %rsp                   # imm = 0x62EC8
	popq	%rbx
	popq	%r12
	popq	%r13
	popq	%r14
	popq	%r15
	popq	%rbp
	retq
.LBB21_158:                             # %arm.1.i4.i.i.i.i
	leaq	8096(%rsp), %rbx
	leaq	2760(%rsp), %rsi
	movq	%rbx, %rdi
	callq	"table::table_of"
	leaq	4368(%rsp), %rdi
	movl	$512, %edx                      # imm = 0x200
	movq	%rbx, %rsi
	callq	memcpy@PLT
	movq	2760(%rsp), %r15
	leaq	77504(%rsp), %r12
	xorl	%ebp, %ebp
	movl	$512, %edx                      # imm = 0x200
	movq	%r12, %rdi
	xorl	%esi, %esi
	callq	memset@PLT
	leaq	19888(%rsp), %r13
	movl	$512, %edx                      # imm = 0x200
	movq	%r13, %rdi
	xorl	%esi, %esi
	callq	memset@PLT
	movq	%rbx, %rdi
	movq	%r15, %rsi
	movq	%r12, %rdx
	movq	%r13, %rcx
	callq	"masks::put_masks"
	movq	%rax, %rbx
	leaq	143040(%rsp), %rdi
	movl	$2048, %edx                     # imm = 0x800
	xorl	%esi, %esi
	callq	memset@PLT
	testq	%r15, %r15
	je	.LBB21_177
# %bb.159:                              # %join.5.i.i.i.i.i.i.i.preheader
	leaq	143056(%rsp), %rax
	xorl	%ecx, %ecx
	jmp	.LBB21_160
	.p2align	4
.LBB21_176:                             # %"masks::scatter::put_node.exit.i.i.i.i.i.i.i"
                                        #   in Loop: Header=BB21_160 Depth=1
	incq	%rcx
	cmpq	%r15, %rcx
	je	.LBB21_177
.LBB21_160:                             # %join.5.i.i.i.i.i.i.i
                                        # =>This Loop Header: Depth=1
                                        #     Child Loop BB21_166 Depth 2
                                        #     Child Loop BB21_168 Depth 2
                                        #     Child Loop BB21_173 Depth 2
                                        #     Child Loop BB21_175 Depth 2
	movq	4368(%rsp,%rcx,8), %rsi
	movq	%rsi, %r9
	shrq	$8, %r9
	cmpb	$2, %sil
	je	.LBB21_163
# %bb.161:                              # %join.5.i.i.i.i.i.i.i
                                        #   in Loop: Header=BB21_160 Depth=1
	movzbl	%sil, %edx
	cmpl	$1, %edx
	jne	.LBB21_176
# %bb.162:                              # %arm.2.i.i5.i.i.i.i.i.i.i
                                        #   in Loop: Header=BB21_160 Depth=1
	movl	$1, %edx
	shlq	%cl, %rdx
	movzbl	%r9b, %esi
	orq	%rdx, 143040(%rsp,%rsi,8)
	jmp	.LBB21_176
	.p2align	4
.LBB21_163:                             # %arm.3.i.i4.i.i.i.i.i.i.i
                                        #   in Loop: Header=BB21_160 Depth=1
	shrq	$16, %rsi
	movzbl	%sil, %edx
	cmpb	$126, %dl
	movl	$126, %r8d
	cmovbl	%edx, %r8d
	cmpb	$-94, %r9b
	movl	$161, %edi
	cmovael	%r9d, %edi
	movl	$1, %edx
	shlq	%cl, %rdx
	cmpb	%r9b, %r8b
	jb	.LBB21_169
# %bb.164:                              # %join.5.preheader.i.i.i.i.i.i.i.i.i.i.i
                                        #   in Loop: Header=BB21_160 Depth=1
	movzbl	%r8b, %r8d
	movzbl	%r9b, %r9d
	incq	%r8
	movq	%r8, %r10
	subq	%r9, %r10
	cmpq	$4, %r10
	jb	.LBB21_168
# %bb.165:                              # %vector.ph56
                                        #   in Loop: Header=BB21_160 Depth=1
	movq	%r10, %r11
	andq	$-4, %r11
	movq	%rdx, %xmm0
	pshufd	$68, %xmm0, %xmm0               # xmm0 = xmm0[0,1,0,1]
	leaq	(%rax,%r9,8), %r12
	addq	%r11, %r9
	xorl	%r13d, %r13d
	.p2align	4
.LBB21_166:                             # %vector.body61
                                        #   Parent Loop BB21_160 Depth=1
                                        # =>  This Inner Loop Header: Depth=2
	movdqu	-16(%r12,%r13,8), %xmm1
	movdqu	(%r12,%r13,8), %xmm2
	por	%xmm0, %xmm1
	por	%xmm0, %xmm2
	movdqu	%xmm1, -16(%r12,%r13,8)
	movdqu	%xmm2, (%r12,%r13,8)
	addq	$4, %r13
	cmpq	%r13, %r11
	jne	.LBB21_166
# %bb.167:                              # %middle.block67
                                        #   in Loop: Header=BB21_160 Depth=1
	cmpl	%r11d, %r10d
	je	.LBB21_169
	.p2align	4
.LBB21_168:                             # %join.5.i.i.i.i.i.i.i.i.i.i.i
                                        #   Parent Loop BB21_160 Depth=1
                                        # =>  This Inner Loop Header: Depth=2
	orq	%rdx, 143040(%rsp,%r9,8)
	incq	%r9
	cmpq	%r9, %r8
	jne	.LBB21_168
.LBB21_169:                             # %"masks::scatter::put_between.exit.i.i.i.i.i.i.i.i.i.i"
                                        #   in Loop: Header=BB21_160 Depth=1
	cmpb	%sil, %dil
	ja	.LBB21_176
# %bb.170:                              # %join.5.preheader.i4.i.i.i.i.i.i.i.i.i.i
                                        #   in Loop: Header=BB21_160 Depth=1
	movzbl	%sil, %esi
	movzbl	%dil, %r10d
	incq	%rsi
	movq	%rsi, %r8
	subq	%r10, %r8
	cmpq	$4, %r8
	jae	.LBB21_172
# %bb.171:                              #   in Loop: Header=BB21_160 Depth=1
	movq	%r10, %rdi
	jmp	.LBB21_175
.LBB21_172:                             # %vector.ph40
                                        #   in Loop: Header=BB21_160 Depth=1
	movq	%r8, %r9
	andq	$-4, %r9
	leaq	(%r9,%r10), %rdi
	movq	%rdx, %xmm0
	pshufd	$68, %xmm0, %xmm0               # xmm0 = xmm0[0,1,0,1]
	leaq	(%rax,%r10,8), %r10
	xorl	%r11d, %r11d
	.p2align	4
.LBB21_173:                             # %vector.body45
                                        #   Parent Loop BB21_160 Depth=1
                                        # =>  This Inner Loop Header: Depth=2
	movdqu	-16(%r10,%r11,8), %xmm1
	movdqu	(%r10,%r11,8), %xmm2
	por	%xmm0, %xmm1
	por	%xmm0, %xmm2
	movdqu	%xmm1, -16(%r10,%r11,8)
	movdqu	%xmm2, (%r10,%r11,8)
	addq	$4, %r11
	cmpq	%r11, %r9
	jne	.LBB21_173
# %bb.174:                              # %middle.block51
                                        #   in Loop: Header=BB21_160 Depth=1
	cmpl	%r9d, %r8d
	je	.LBB21_176
	.p2align	4
.LBB21_175:                             # %join.5.i6.i.i.i.i.i.i.i.i.i.i
                                        #   Parent Loop BB21_160 Depth=1
                                        # =>  This Inner Loop Header: Depth=2
	orq	%rdx, 143040(%rsp,%rdi,8)
	incq	%rdi
	cmpq	%rdi, %rsi
	jne	.LBB21_175
	jmp	.LBB21_176
.LBB21_177:                             # %"masks::scatter::put_takers.exit.i.i.i.i.i.i"
	testq	%r14, %r14
	je	.LBB21_193
# %bb.178:                              # %join.6.preheader.i.i.i.i.i.i.i
	movabsq	$824633720832, %rax             # imm = 0xC000000000
	decb	%r15b
	movl	$1, %esi
	movl	%r15d, %ecx
	shlq	%cl, %rsi
	xorl	%edx, %edx
	.p2align	4
.LBB21_179:                             # %join.6.i.i.i.i.i.i.i
                                        # =>This Loop Header: Depth=1
                                        #     Child Loop BB21_181 Depth 2
                                        #     Child Loop BB21_184 Depth 2
	movzbl	11696(%rsp,%rdx), %ecx
	movq	143040(%rsp,%rcx,8), %rcx
	testq	%rcx, %rcx
	je	.LBB21_187
# %bb.180:                              # %arm.3.i.i.i.i.i.i.i.i.preheader
                                        #   in Loop: Header=BB21_179 Depth=1
	xorl	%edi, %edi
	.p2align	4
.LBB21_181:                             # %arm.3.i.i.i.i.i.i.i.i
                                        #   Parent Loop BB21_179 Depth=1
                                        # =>  This Inner Loop Header: Depth=2
	movq	%rcx, %r8
	rep		bsfq	%rcx, %rcx
	xorl	%r9d, %r9d
	testq	%rsi, 19888(%rsp,%rcx,8)
	setne	%r9b
                                        # kill: def $cl killed $cl killed $rcx
	shlq	%cl, %r9
	leaq	-1(%r8), %rcx
	orq	%r9, %rdi
	andq	%r8, %rcx
	jne	.LBB21_181
# %bb.182:                              # %"reach::matched.exit.i.i.i.i.i.i.i"
                                        #   in Loop: Header=BB21_179 Depth=1
	testq	%rdi, %rdi
	je	.LBB21_187
# %bb.183:                              # %arm.3.i7.i.i.i.i.i.i.i.preheader
                                        #   in Loop: Header=BB21_179 Depth=1
	xorl	%esi, %esi
	.p2align	4
.LBB21_184:                             # %arm.3.i7.i.i.i.i.i.i.i
                                        #   Parent Loop BB21_179 Depth=1
                                        # =>  This Inner Loop Header: Depth=2
	movq	%rdi, %r8
	rep		bsfq	%rdi, %rcx
	movq	4368(%rsp,%rcx,8), %r9
	movq	%r9, %rcx
	shrq	$32, %rcx
	movl	$1, %r10d
                                        # kill: def $cl killed $cl killed $rcx
	shlq	%cl, %r10
	decq	%rdi
	xorl	%ecx, %ecx
	testq	%rax, %r9
	cmoveq	%r10, %rcx
	orq	%rcx, %rsi
	andq	%r8, %rdi
	jne	.LBB21_184
# %bb.185:                              # %"reach::follow.exit.i.i.i.i.i.i.i"
                                        #   in Loop: Header=BB21_179 Depth=1
	incq	%rdx
	cmpq	%r14, %rdx
	jne	.LBB21_179
# %bb.186:
	movq	%r14, %rdx
.LBB21_187:                             # %"reach::reach_over.exit.i.i.i.i.i.i"
	movl	$1, %edi
	movq	%r14, %rsi
	jmp	.LBB21_188
	.p2align	4
.LBB21_191:                             # %"steps::step.exit.thread.i.i.i.i.i.i.i"
                                        #   in Loop: Header=BB21_188 Depth=1
	xorl	%edi, %edi
	movq	%r8, %rbx
	testq	%rsi, %rsi
	je	.LBB21_192
.LBB21_188:                             # %arm.3.i.i.i.i.i.i.i
                                        # =>This Loop Header: Depth=1
                                        #     Child Loop BB21_189 Depth 2
	movzbl	11695(%rsp,%rsi), %ecx
	decq	%rsi
	movq	143040(%rsp,%rcx,8), %r9
	xorl	%r8d, %r8d
	testq	%r9, %r9
	je	.LBB21_191
	.p2align	4
.LBB21_189:                             # %arm.3.i.i10.i.i.i.i.i.i
                                        #   Parent Loop BB21_188 Depth=1
                                        # =>  This Inner Loop Header: Depth=2
	movq	%r9, %r10
	rep		bsfq	%r9, %r11
	decq	%r9
	shll	$3, %r11d
	movq	4368(%rsp,%r11), %r15
	movq	%r15, %rcx
	shrq	$32, %rcx
	movq	%rbx, %r12
                                        # kill: def $cl killed $cl killed $rcx
	shrq	%cl, %r12
	andl	$1, %r12d
	testq	%rax, %r15
	cmovneq	%rdi, %r12
	imulq	19888(%rsp,%r11), %r12
	orq	%r12, %r8
	andq	%r10, %r9
	jne	.LBB21_189
# %bb.190:                              # %"steps::step.exit.i.i.i.i.i.i.i"
                                        #   in Loop: Header=BB21_188 Depth=1
	testq	%r8, %r8
	cmovneq	%rsi, %r14
	jmp	.LBB21_191
.LBB21_192:                             # %"reach::resume_over.exit.loopexit.i.i.i.i.i.i"
	shll	$16, %r14d
	movzwl	%dx, %ebp
	orl	%r14d, %ebp
.LBB21_193:                             # %arm.1.i8.i.i.i.i
	movl	%ebp, %r14d
	shrl	$16, %r14d
	pxor	%xmm0, %xmm0
	movdqa	%xmm0, 19888(%rsp)
	movdqa	%xmm0, 19904(%rsp)
	movzwl	%bp, %ecx
	xorl	%esi, %esi
	xorl	%eax, %eax
	jmp	.LBB21_194
	.p2align	4
.LBB21_197:                             # %"text::put::put_byte.exit.i.i.i.thread.i.i.i.i.i"
                                        #   in Loop: Header=BB21_194 Depth=1
	movl	$32, %edx
	cmpq	$6, %rax
	je	.LBB21_201
.LBB21_198:                             # %join.6.i.i.i.i.i.i.i.i.backedge
                                        #   in Loop: Header=BB21_194 Depth=1
	incq	%rax
	movq	%rdx, %rsi
.LBB21_194:                             # %join.6.i.i.i.i.i.i.i.i
                                        # =>This Inner Loop Header: Depth=1
	cmpq	$31, %rsi
	ja	.LBB21_197
# %bb.195:                              # %"text::put::put_byte.exit.i.i.i.i.i.i.i.i"
                                        #   in Loop: Header=BB21_194 Depth=1
	leaq	.Lstatic.64(%rip), %rdx
	movzbl	(%rax,%rdx), %edx
	movb	%dl, 19888(%rsp,%rsi)
	cmpq	$6, %rax
	je	.LBB21_199
# %bb.196:                              #   in Loop: Header=BB21_194 Depth=1
	incq	%rsi
	movq	%rsi, %rdx
	jmp	.LBB21_198
.LBB21_199:                             # %"text::put::put_bytes.exit.i.i.i.i.i.i.i"
	movl	$32, %edx
	cmpq	$31, %rsi
	je	.LBB21_201
# %bb.200:                              # %then.1.i.i.i.i.i.i.i.i
	movb	$9, 19889(%rsp,%rsi)
	addq	$2, %rsi
	movq	%rsi, %rdx
.LBB21_201:                             # %"text::put::put_byte.exit.i.i.i.i.i.i.i"
	leaq	19888(%rsp), %rdi
	movl	$32, %ebx
	movl	$32, %esi
	callq	"text::digits::put_decimal"
	movl	$32, %edx
	cmpq	$31, %rax
	jbe	.LBB21_206
	jmp	.LBB21_207
.LBB21_81:
	pxor	%xmm0, %xmm0
	movdqa	%xmm0, 64(%rsp)                 # 16-byte Spill
	movabsq	$676777390577706354, %r14       # imm = 0x964657375666572
	movq	96(%rsp), %rbp                  # 8-byte Reload
.LBB21_88:                              # %"core::result::Result::unwrap::<[201]i32,17'refusals::Refusal>.exit.i.i.i.i.i.i.i.i.i"
	movq	88(%rsp), %rbx                  # 8-byte Reload
	movq	48(%rsp), %r12                  # 8-byte Reload
	leaq	1960(%rsp), %rsi
	leaq	3568(%rsp), %r15
	movl	$796, %edx                      # imm = 0x31C
	movq	%r15, %rdi
	callq	memcpy@PLT
	movdqa	64(%rsp), %xmm0                 # 16-byte Reload
	movq	%xmm0, 2760(%rsp)
	leaq	2768(%rsp), %rdi
	movl	$796, %edx                      # imm = 0x31C
	movq	%r15, %rsi
	callq	memcpy@PLT
	xorl	%esi, %esi
	xorl	%eax, %eax
	movq	56(%rsp), %rcx                  # 8-byte Reload
	jmp	.LBB21_89
.LBB21_92:                              # %"text::put::put_byte.exit.i.i.thread.i.i.i.i.i.i.i.i.i.i"
                                        #   in Loop: Header=BB21_89 Depth=1
	movl	$262144, %edx                   # imm = 0x40000
	cmpq	$3, %rax
	je	.LBB21_96
.LBB21_93:                              # %join.6.i.i.i.i.i.i.i.i.i.i.i.i.backedge
                                        #   in Loop: Header=BB21_89 Depth=1
	incq	%rax
	movq	%rdx, %rsi
.LBB21_89:                              # %join.6.i.i.i.i.i.i.i.i.i.i.i.i
                                        # =>This Inner Loop Header: Depth=1
	cmpq	$262143, %rsi                   # imm = 0x3FFFF
	ja	.LBB21_92
# %bb.90:                               # %"text::put::put_byte.exit.i.i.i.i.i.i.i.i.i.i.i.i"
                                        #   in Loop: Header=BB21_89 Depth=1
	leaq	.Lstatic.59(%rip), %rdx
	movzbl	(%rax,%rdx), %edx
	movb	%dl, 143040(%rsp,%rsi)
	cmpq	$3, %rax
	je	.LBB21_94
# %bb.91:                               #   in Loop: Header=BB21_89 Depth=1
	incq	%rsi
	movq	%rsi, %rdx
	jmp	.LBB21_93
.LBB21_94:                              # %"text::put::put_bytes.exit.i.i.i.i.i.i.i.i.i.i.i"
	movl	$262144, %edx                   # imm = 0x40000
	cmpq	$262143, %rsi                   # imm = 0x3FFFF
	je	.LBB21_96
# %bb.95:                               # %then.1.i.i.i.i.i.i.i.i.i.i.i.i
	movb	$9, 143041(%rsp,%rsi)
	addq	$2, %rsi
	movq	%rsi, %rdx
.LBB21_96:                              # %"text::put::put_byte.exit.i.i.i.i.i.i.i.i.i.i.i"
	leaq	143040(%rsp), %rdi
	movl	$262144, %r15d                  # imm = 0x40000
	movl	$262144, %esi                   # imm = 0x40000
	callq	"text::digits::put_decimal"
	movl	$262144, %edx                   # imm = 0x40000
	cmpq	$262143, %rax                   # imm = 0x3FFFF
	ja	.LBB21_98
# %bb.97:                               # %then.1.i.i.i.i.i.i29.i.i.i.i.i.i.i.i
	movb	$9, 143040(%rsp,%rax)
	incq	%rax
	movq	%rax, %rdx
.LBB21_98:                              # %"text::lines::put_entry.exit.i.i.i.i.i.i.i.i.i.i"
	leaq	143040(%rsp), %rdi
	movl	$262144, %esi                   # imm = 0x40000
	movq	%r12, %rcx
	callq	"text::digits::put_decimal"
	cmpq	$262143, %rax                   # imm = 0x3FFFF
	ja	.LBB21_100
# %bb.99:                               # %then.1.i.i.i.i.i.i.i.i.i.i.i
	movb	$9, 143040(%rsp,%rax)
	incq	%rax
	movq	%rax, %r15
.LBB21_100:                             # %"text::put::put_byte.exit.i.i.i.i.i.i.i.i.i.i"
	testq	%rbx, %rbx
	je	.LBB21_101
# %bb.102:                              # %join.6.i.i.i.i.i.i.i.i.i.i.i.preheader
	xorl	%eax, %eax
	jmp	.LBB21_103
.LBB21_106:                             # %"text::digits::put_hex_byte.exit.i.i.i.i.i.i.i.i.i.i.i"
                                        #   in Loop: Header=BB21_103 Depth=1
	incq	%rax
	movq	%rcx, %r15
	cmpq	%rax, %rbx
	je	.LBB21_107
.LBB21_103:                             # %join.6.i.i.i.i.i.i.i.i.i.i.i
                                        # =>This Inner Loop Header: Depth=1
	movl	$262144, %ecx                   # imm = 0x40000
	cmpq	$262143, %r15                   # imm = 0x3FFFF
	ja	.LBB21_106
# %bb.104:                              # %"text::put::put_byte.exit.i.i5.i.i.i.i.i.i.i.i.i.i"
                                        #   in Loop: Header=BB21_103 Depth=1
	movzbl	77504(%rsp,%rax), %edx
	movl	%edx, %esi
	shrb	$4, %sil
	leal	48(%rsi), %edi
	addb	$87, %sil
	cmpb	$-96, %dl
	movzbl	%dil, %edi
	movzbl	%sil, %esi
	cmovbl	%edi, %esi
	movb	%sil, 143040(%rsp,%r15)
	cmpq	$262143, %r15                   # imm = 0x3FFFF
	je	.LBB21_106
# %bb.105:                              # %then.1.i11.i.i.i.i.i.i.i.i.i.i.i.i
                                        #   in Loop: Header=BB21_103 Depth=1
	andb	$15, %dl
	leal	48(%rdx), %ecx
	leal	87(%rdx), %esi
	cmpb	$10, %dl
	movzbl	%cl, %ecx
	movzbl	%sil, %edx
	cmovbl	%ecx, %edx
	movb	%dl, 143041(%rsp,%r15)
	addq	$2, %r15
	movq	%r15, %rcx
	jmp	.LBB21_106
.LBB21_101:
	movq	%r15, %rcx
.LBB21_107:                             # %"text::digits::put_hex.exit.i.i.i.i.i.i.i.i.i.i"
	movl	$262144, %r12d                  # imm = 0x40000
	cmpq	$262143, %rcx                   # imm = 0x3FFFF
	ja	.LBB21_109
# %bb.108:                              # %then.1.i9.i.i.i.i.i.i.i.i.i.i
	movb	$10, 143040(%rsp,%rcx)
	incq	%rcx
	movq	%rcx, %r12
.LBB21_109:                             # %join.6.i.i21.i.i.i.i.i.i.i.i.preheader
	xorl	%r15d, %r15d
	jmp	.LBB21_110
	.p2align	4
.LBB21_123:                             # %"listing_lines::put_account.exit.i.i.i.i.i.i.i.i.i.i"
                                        #   in Loop: Header=BB21_110 Depth=1
	incq	%r15
	cmpq	$201, %r15
	je	.LBB21_124
.LBB21_110:                             # %join.6.i.i21.i.i.i.i.i.i.i.i
                                        # =>This Loop Header: Depth=1
                                        #     Child Loop BB21_112 Depth 2
	movl	2760(%rsp,%r15,4), %r13d
	testq	%r13, %r13
	je	.LBB21_123
# %bb.111:                              # %join.3.i.i9.i.i.i.i.i.i.i.i.i
                                        #   in Loop: Header=BB21_110 Depth=1
	xorl	%eax, %eax
	jmp	.LBB21_112
	.p2align	4
.LBB21_115:                             # %"text::put::put_byte.exit.i.i.i.thread.i.i.i.i.i.i.i.i.i.i.i"
                                        #   in Loop: Header=BB21_112 Depth=2
	movl	$262144, %edx                   # imm = 0x40000
	cmpq	$6, %rax
	je	.LBB21_119
.LBB21_116:                             # %join.6.i.i.i.i.i.i.i.i.i.i.i.i.i.i.backedge
                                        #   in Loop: Header=BB21_112 Depth=2
	incq	%rax
	movq	%rdx, %r12
.LBB21_112:                             # %join.6.i.i.i.i.i.i.i.i.i.i.i.i.i.i
                                        #   Parent Loop BB21_110 Depth=1
                                        # =>  This Inner Loop Header: Depth=2
	cmpq	$262143, %r12                   # imm = 0x3FFFF
	ja	.LBB21_115
# %bb.113:                              # %"text::put::put_byte.exit.i.i.i.i.i.i.i.i.i.i.i.i.i.i"
                                        #   in Loop: Header=BB21_112 Depth=2
	leaq	.Lstatic.60(%rip), %rcx
	movzbl	(%rax,%rcx), %ecx
	movb	%cl, 143040(%rsp,%r12)
	cmpq	$6, %rax
	je	.LBB21_117
# %bb.114:                              #   in Loop: Header=BB21_112 Depth=2
	incq	%r12
	movq	%r12, %rdx
	jmp	.LBB21_116
.LBB21_117:                             # %"text::put::put_bytes.exit.i.i.i.i.i.i.i.i.i.i.i.i.i"
                                        #   in Loop: Header=BB21_110 Depth=1
	movl	$262144, %edx                   # imm = 0x40000
	cmpq	$262143, %r12                   # imm = 0x3FFFF
	je	.LBB21_119
# %bb.118:                              # %then.1.i.i.i.i.i15.i.i.i.i.i.i.i.i.i
                                        #   in Loop: Header=BB21_110 Depth=1
	movb	$9, 143041(%rsp,%r12)
	addq	$2, %r12
	movq	%r12, %rdx
.LBB21_119:                             # %"text::put::put_byte.exit.i.i.i.i.i.i.i.i.i.i.i.i.i"
                                        #   in Loop: Header=BB21_110 Depth=1
	leaq	143040(%rsp), %rdi
	movl	$262144, %r12d                  # imm = 0x40000
	movl	$262144, %esi                   # imm = 0x40000
	movq	%r15, %rcx
	callq	"text::digits::put_decimal"
	movl	$262144, %edx                   # imm = 0x40000
	cmpq	$262143, %rax                   # imm = 0x3FFFF
	ja	.LBB21_121
# %bb.120:                              # %then.1.i.i.i.i.i.i.i.i.i.i.i.i.i.i.i.i
                                        #   in Loop: Header=BB21_110 Depth=1
	movb	$9, 143040(%rsp,%rax)
	incq	%rax
	movq	%rax, %rdx
.LBB21_121:                             # %"text::lines::put_entry.exit.i.i.i.i.i.i.i.i.i.i.i.i"
                                        #   in Loop: Header=BB21_110 Depth=1
	leaq	143040(%rsp), %rdi
	movl	$262144, %esi                   # imm = 0x40000
	movq	%r13, %rcx
	callq	"text::digits::put_decimal"
	cmpq	$262143, %rax                   # imm = 0x3FFFF
	ja	.LBB21_123
# %bb.122:                              # %then.1.i.i.i.i.i.i.i.i.i.i.i.i.i
                                        #   in Loop: Header=BB21_110 Depth=1
	movb	$10, 143040(%rsp,%rax)
	incq	%rax
	movq	%rax, %r12
	jmp	.LBB21_123
.LBB21_124:                             # %join.5.i.i.i.i.i.i.i.i.i.i.preheader
	xorl	%r15d, %r15d
	jmp	.LBB21_125
	.p2align	4
.LBB21_137:                             # %"text::lines::put_line.exit.i.i.i.i.i.i.i.i.i.i"
                                        #   in Loop: Header=BB21_125 Depth=1
	cmpq	56(%rsp), %r15                  # 8-byte Folded Reload
	leaq	1(%r15), %r15
	je	.LBB21_147
.LBB21_125:                             # %join.5.i.i.i.i.i.i.i.i.i.i
                                        # =>This Loop Header: Depth=1
                                        #     Child Loop BB21_126 Depth 2
	movq	%r15, %rax
	shlq	$4, %rax
	movq	19896(%rsp,%rax), %rax
	movq	%rax, %rcx
	shrq	%rcx
	movabsq	$6148914691236517205, %rdx      # imm = 0x5555555555555555
	andq	%rcx, %rdx
	subq	%rdx, %rax
	movabsq	$3689348814741910323, %rcx      # imm = 0x3333333333333333
	movq	%rax, %rdx
	andq	%rcx, %rdx
	shrq	$2, %rax
	andq	%rcx, %rax
	addq	%rdx, %rax
	movq	%rax, %rcx
	shrq	$4, %rcx
	addq	%rax, %rcx
	movabsq	$1085102592571150095, %rax      # imm = 0xF0F0F0F0F0F0F0F
	andq	%rcx, %rax
	movabsq	$72340172838076673, %r13        # imm = 0x101010101010101
	imulq	%rax, %r13
	shrq	$56, %r13
	xorl	%eax, %eax
	jmp	.LBB21_126
	.p2align	4
.LBB21_129:                             # %"text::put::put_byte.exit.i.i.i.thread.i.i.i.i.i.i.i.i.i.i"
                                        #   in Loop: Header=BB21_126 Depth=2
	movl	$262144, %edx                   # imm = 0x40000
	cmpq	$3, %rax
	je	.LBB21_133
.LBB21_130:                             # %join.6.i.i.i.i.i.i.i.i.i.i.i.i.i.backedge
                                        #   in Loop: Header=BB21_126 Depth=2
	incq	%rax
	movq	%rdx, %r12
.LBB21_126:                             # %join.6.i.i.i.i.i.i.i.i.i.i.i.i.i
                                        #   Parent Loop BB21_125 Depth=1
                                        # =>  This Inner Loop Header: Depth=2
	cmpq	$262143, %r12                   # imm = 0x3FFFF
	ja	.LBB21_129
# %bb.127:                              # %"text::put::put_byte.exit.i.i.i.i28.i.i.i.i.i.i.i.i.i"
                                        #   in Loop: Header=BB21_126 Depth=2
	leaq	.Lstatic.61(%rip), %rcx
	movzbl	(%rax,%rcx), %ecx
	movb	%cl, 143040(%rsp,%r12)
	cmpq	$3, %rax
	je	.LBB21_131
# %bb.128:                              #   in Loop: Header=BB21_126 Depth=2
	incq	%r12
	movq	%r12, %rdx
	jmp	.LBB21_130
.LBB21_131:                             # %"text::put::put_bytes.exit.i.i.i.i.i.i.i.i.i.i.i.i"
                                        #   in Loop: Header=BB21_125 Depth=1
	movl	$262144, %edx                   # imm = 0x40000
	cmpq	$262143, %r12                   # imm = 0x3FFFF
	je	.LBB21_133
# %bb.132:                              # %then.1.i.i.i.i32.i.i.i.i.i.i.i.i.i
                                        #   in Loop: Header=BB21_125 Depth=1
	movb	$9, 143041(%rsp,%r12)
	addq	$2, %r12
	movq	%r12, %rdx
.LBB21_133:                             # %"text::put::put_byte.exit.i.i.i19.i.i.i.i.i.i.i.i.i"
                                        #   in Loop: Header=BB21_125 Depth=1
	leaq	143040(%rsp), %rdi
	movl	$262144, %r12d                  # imm = 0x40000
	movl	$262144, %esi                   # imm = 0x40000
	movq	%r15, %rcx
	callq	"text::digits::put_decimal"
	movl	$262144, %edx                   # imm = 0x40000
	cmpq	$262143, %rax                   # imm = 0x3FFFF
	ja	.LBB21_135
# %bb.134:                              # %then.1.i.i.i.i.i.i.i.i.i.i.i.i.i.i.i
                                        #   in Loop: Header=BB21_125 Depth=1
	movb	$9, 143040(%rsp,%rax)
	incq	%rax
	movq	%rax, %rdx
.LBB21_135:                             # %"text::lines::put_entry.exit.i.i.i.i.i.i.i.i.i.i.i"
                                        #   in Loop: Header=BB21_125 Depth=1
	leaq	143040(%rsp), %rdi
	movl	$262144, %esi                   # imm = 0x40000
	movq	%r13, %rcx
	callq	"text::digits::put_decimal"
	cmpq	$262143, %rax                   # imm = 0x3FFFF
	ja	.LBB21_137
# %bb.136:                              # %then.1.i.i.i23.i.i.i.i.i.i.i.i.i
                                        #   in Loop: Header=BB21_125 Depth=1
	movb	$10, 143040(%rsp,%rax)
	incq	%rax
	movq	%rax, %r12
	jmp	.LBB21_137
.LBB21_68:                              # %arm.2.i5.i.i.i.i.i.i.i.i.i
	ud2
.Lfunc_end21:
	.size	main, .Lfunc_end21-main
                                        # -- End function
	.type	.Lstatic.0,@object              # @static.0
	.section	.rodata..Lstatic.0,"a",@progbits
.Lstatic.0:
	.ascii	"pattern.tsv"
	.size	.Lstatic.0, 11

	.type	.Lstatic.1,@object              # @static.1
	.section	.rodata.cst8,"aM",@progbits,8
.Lstatic.1:
	.ascii	"tape.txt"
	.size	.Lstatic.1, 8

	.type	.Lstatic.2,@object              # @static.2
	.section	.rodata..Lstatic.2,"a",@progbits
.Lstatic.2:
	.ascii	"file name contained an unexpected NUL byte"
	.size	.Lstatic.2, 42

	.type	.Lstatic.6,@object              # @static.6
	.section	.rodata..Lstatic.6,"a",@progbits
.Lstatic.6:
	.ascii	"gave up reading or writing after 2^64 tries"
	.size	.Lstatic.6, 43

	.type	.Lstatic.7,@object              # @static.7
	.section	.rodata..Lstatic.7,"a",@progbits
.Lstatic.7:
	.ascii	": "
	.size	.Lstatic.7, 2

	.type	.Lstatic.8,@object              # @static.8
	.section	.rodata..Lstatic.8,"a",@progbits
.Lstatic.8:
	.byte	10
	.size	.Lstatic.8, 1

	.type	.Lstatic.10,@object             # @static.10
	.section	.rodata.cst4,"aM",@progbits,4
.Lstatic.10:
	.zero	4,32
	.size	.Lstatic.10, 4

	.type	.Lstatic.11,@object             # @static.11
	.section	.rodata..Lstatic.11,"a",@progbits
.Lstatic.11:
	.ascii	" (os error "
	.size	.Lstatic.11, 11

	.type	.Lstatic.12,@object             # @static.12
	.section	.rodata..Lstatic.12,"a",@progbits
.Lstatic.12:
	.byte	41
	.size	.Lstatic.12, 1

	.type	.Lstatic.13,@object             # @static.13
	.section	.rodata..Lstatic.13,"a",@progbits
.Lstatic.13:
	.size	.Lstatic.13, 0

	.type	.Lstatic.16,@object             # @static.16
	.section	.rodata.cst16,"aM",@progbits,16
.Lstatic.16:
	.ascii	"entity not found"
	.size	.Lstatic.16, 16

	.type	.Lstatic.17,@object             # @static.17
	.section	.rodata..Lstatic.17,"a",@progbits
.Lstatic.17:
	.ascii	"permission denied"
	.size	.Lstatic.17, 17

	.type	.Lstatic.18,@object             # @static.18
	.section	.rodata..Lstatic.18,"a",@progbits
.Lstatic.18:
	.ascii	"connection refused"
	.size	.Lstatic.18, 18

	.type	.Lstatic.19,@object             # @static.19
	.section	.rodata.cst16,"aM",@progbits,16
.Lstatic.19:
	.ascii	"connection reset"
	.size	.Lstatic.19, 16

	.type	.Lstatic.20,@object             # @static.20
.Lstatic.20:
	.ascii	"host unreachable"
	.size	.Lstatic.20, 16

	.type	.Lstatic.21,@object             # @static.21
	.section	.rodata..Lstatic.21,"a",@progbits
.Lstatic.21:
	.ascii	"network unreachable"
	.size	.Lstatic.21, 19

	.type	.Lstatic.22,@object             # @static.22
	.section	.rodata..Lstatic.22,"a",@progbits
.Lstatic.22:
	.ascii	"connection aborted"
	.size	.Lstatic.22, 18

	.type	.Lstatic.23,@object             # @static.23
	.section	.rodata..Lstatic.23,"a",@progbits
.Lstatic.23:
	.ascii	"not connected"
	.size	.Lstatic.23, 13

	.type	.Lstatic.24,@object             # @static.24
	.section	.rodata..Lstatic.24,"a",@progbits
.Lstatic.24:
	.ascii	"address in use"
	.size	.Lstatic.24, 14

	.type	.Lstatic.25,@object             # @static.25
	.section	.rodata..Lstatic.25,"a",@progbits
.Lstatic.25:
	.ascii	"address not available"
	.size	.Lstatic.25, 21

	.type	.Lstatic.26,@object             # @static.26
	.section	.rodata..Lstatic.26,"a",@progbits
.Lstatic.26:
	.ascii	"network down"
	.size	.Lstatic.26, 12

	.type	.Lstatic.27,@object             # @static.27
	.section	.rodata..Lstatic.27,"a",@progbits
.Lstatic.27:
	.ascii	"broken pipe"
	.size	.Lstatic.27, 11

	.type	.Lstatic.28,@object             # @static.28
	.section	.rodata..Lstatic.28,"a",@progbits
.Lstatic.28:
	.ascii	"entity already exists"
	.size	.Lstatic.28, 21

	.type	.Lstatic.29,@object             # @static.29
	.section	.rodata..Lstatic.29,"a",@progbits
.Lstatic.29:
	.ascii	"operation would block"
	.size	.Lstatic.29, 21

	.type	.Lstatic.30,@object             # @static.30
	.section	.rodata..Lstatic.30,"a",@progbits
.Lstatic.30:
	.ascii	"not a directory"
	.size	.Lstatic.30, 15

	.type	.Lstatic.31,@object             # @static.31
	.section	.rodata..Lstatic.31,"a",@progbits
.Lstatic.31:
	.ascii	"is a directory"
	.size	.Lstatic.31, 14

	.type	.Lstatic.32,@object             # @static.32
	.section	.rodata..Lstatic.32,"a",@progbits
.Lstatic.32:
	.ascii	"directory not empty"
	.size	.Lstatic.32, 19

	.type	.Lstatic.33,@object             # @static.33
	.section	.rodata..Lstatic.33,"a",@progbits
.Lstatic.33:
	.ascii	"read-only filesystem or storage medium"
	.size	.Lstatic.33, 38

	.type	.Lstatic.34,@object             # @static.34
	.section	.rodata..Lstatic.34,"a",@progbits
.Lstatic.34:
	.ascii	"filesystem loop or indirection limit (e.g. symlink loop)"
	.size	.Lstatic.34, 56

	.type	.Lstatic.35,@object             # @static.35
	.section	.rodata..Lstatic.35,"a",@progbits
.Lstatic.35:
	.ascii	"stale network file handle"
	.size	.Lstatic.35, 25

	.type	.Lstatic.36,@object             # @static.36
	.section	.rodata..Lstatic.36,"a",@progbits
.Lstatic.36:
	.ascii	"invalid input parameter"
	.size	.Lstatic.36, 23

	.type	.Lstatic.37,@object             # @static.37
	.section	.rodata..Lstatic.37,"a",@progbits
.Lstatic.37:
	.ascii	"invalid data"
	.size	.Lstatic.37, 12

	.type	.Lstatic.38,@object             # @static.38
	.section	.rodata..Lstatic.38,"a",@progbits
.Lstatic.38:
	.ascii	"timed out"
	.size	.Lstatic.38, 9

	.type	.Lstatic.39,@object             # @static.39
	.section	.rodata..Lstatic.39,"a",@progbits
.Lstatic.39:
	.ascii	"write zero"
	.size	.Lstatic.39, 10

	.type	.Lstatic.40,@object             # @static.40
	.section	.rodata.cst16,"aM",@progbits,16
.Lstatic.40:
	.ascii	"no storage space"
	.size	.Lstatic.40, 16

	.type	.Lstatic.41,@object             # @static.41
	.section	.rodata..Lstatic.41,"a",@progbits
.Lstatic.41:
	.ascii	"seek on unseekable file"
	.size	.Lstatic.41, 23

	.type	.Lstatic.42,@object             # @static.42
	.section	.rodata..Lstatic.42,"a",@progbits
.Lstatic.42:
	.ascii	"quota exceeded"
	.size	.Lstatic.42, 14

	.type	.Lstatic.43,@object             # @static.43
	.section	.rodata..Lstatic.43,"a",@progbits
.Lstatic.43:
	.ascii	"file too large"
	.size	.Lstatic.43, 14

	.type	.Lstatic.44,@object             # @static.44
	.section	.rodata..Lstatic.44,"a",@progbits
.Lstatic.44:
	.ascii	"resource busy"
	.size	.Lstatic.44, 13

	.type	.Lstatic.45,@object             # @static.45
	.section	.rodata..Lstatic.45,"a",@progbits
.Lstatic.45:
	.ascii	"executable file busy"
	.size	.Lstatic.45, 20

	.type	.Lstatic.46,@object             # @static.46
	.section	.rodata.cst8,"aM",@progbits,8
.Lstatic.46:
	.ascii	"deadlock"
	.size	.Lstatic.46, 8

	.type	.Lstatic.47,@object             # @static.47
	.section	.rodata..Lstatic.47,"a",@progbits
.Lstatic.47:
	.ascii	"cross-device link or rename"
	.size	.Lstatic.47, 27

	.type	.Lstatic.48,@object             # @static.48
	.section	.rodata..Lstatic.48,"a",@progbits
.Lstatic.48:
	.ascii	"too many links"
	.size	.Lstatic.48, 14

	.type	.Lstatic.49,@object             # @static.49
	.section	.rodata.cst16,"aM",@progbits,16
.Lstatic.49:
	.ascii	"invalid filename"
	.size	.Lstatic.49, 16

	.type	.Lstatic.50,@object             # @static.50
	.section	.rodata..Lstatic.50,"a",@progbits
.Lstatic.50:
	.ascii	"argument list too long"
	.size	.Lstatic.50, 22

	.type	.Lstatic.51,@object             # @static.51
	.section	.rodata..Lstatic.51,"a",@progbits
.Lstatic.51:
	.ascii	"operation interrupted"
	.size	.Lstatic.51, 21

	.type	.Lstatic.52,@object             # @static.52
	.section	.rodata..Lstatic.52,"a",@progbits
.Lstatic.52:
	.ascii	"unsupported"
	.size	.Lstatic.52, 11

	.type	.Lstatic.53,@object             # @static.53
	.section	.rodata..Lstatic.53,"a",@progbits
.Lstatic.53:
	.ascii	"unexpected end of file"
	.size	.Lstatic.53, 22

	.type	.Lstatic.54,@object             # @static.54
	.section	.rodata..Lstatic.54,"a",@progbits
.Lstatic.54:
	.ascii	"out of memory"
	.size	.Lstatic.54, 13

	.type	.Lstatic.55,@object             # @static.55
	.section	.rodata..Lstatic.55,"a",@progbits
.Lstatic.55:
	.ascii	"in progress"
	.size	.Lstatic.55, 11

	.type	.Lstatic.56,@object             # @static.56
	.section	.rodata..Lstatic.56,"a",@progbits
.Lstatic.56:
	.ascii	"other error"
	.size	.Lstatic.56, 11

	.type	.Lstatic.57,@object             # @static.57
	.section	.rodata..Lstatic.57,"a",@progbits
.Lstatic.57:
	.ascii	"uncategorized error"
	.size	.Lstatic.57, 19

	.type	.Lstatic.59,@object             # @static.59
	.section	.rodata.cst4,"aM",@progbits,4
.Lstatic.59:
	.ascii	"tape"
	.size	.Lstatic.59, 4

	.type	.Lstatic.60,@object             # @static.60
	.section	.rodata..Lstatic.60,"a",@progbits
.Lstatic.60:
	.ascii	"account"
	.size	.Lstatic.60, 7

	.type	.Lstatic.61,@object             # @static.61
	.section	.rodata.cst4,"aM",@progbits,4
.Lstatic.61:
	.ascii	"open"
	.size	.Lstatic.61, 4

	.type	.Lstatic.63,@object             # @static.63
	.section	.rodata..Lstatic.63,"a",@progbits
.Lstatic.63:
	.ascii	"standard output"
	.size	.Lstatic.63, 15

	.type	.Lstatic.64,@object             # @static.64
	.section	.rodata..Lstatic.64,"a",@progbits
.Lstatic.64:
	.ascii	"located"
	.size	.Lstatic.64, 7

	.ident	"rattle logic=dac8208d650f15bf3e2dc313a14fa4c783a3acf887bdfab66e1714b038d9e11b"
	.section	".note.GNU-stack","",@progbits
