	.file	"rattle"
	.section	.rodata.cst16,"aM",@progbits,16
	.p2align	4, 0x0                          // -- Begin function tapelist::read_file::<#75e23eee2798bf10>
.LCPI0_0:
	.byte	0                               // 0x0
	.byte	1                               // 0x1
	.byte	2                               // 0x2
	.byte	3                               // 0x3
	.byte	4                               // 0x4
	.byte	5                               // 0x5
	.byte	6                               // 0x6
	.byte	7                               // 0x7
	.byte	8                               // 0x8
	.byte	9                               // 0x9
	.byte	10                              // 0xa
	.byte	11                              // 0xb
	.byte	12                              // 0xc
	.byte	13                              // 0xd
	.byte	14                              // 0xe
	.byte	15                              // 0xf
.LCPI0_1:
	.byte	16                              // 0x10
	.byte	17                              // 0x11
	.byte	18                              // 0x12
	.byte	19                              // 0x13
	.byte	20                              // 0x14
	.byte	21                              // 0x15
	.byte	22                              // 0x16
	.byte	23                              // 0x17
	.byte	24                              // 0x18
	.byte	25                              // 0x19
	.byte	26                              // 0x1a
	.byte	27                              // 0x1b
	.byte	28                              // 0x1c
	.byte	29                              // 0x1d
	.byte	30                              // 0x1e
	.byte	31                              // 0x1f
	.section	.rodata.cst8,"aM",@progbits,8
	.p2align	3, 0x0
.LCPI0_2:
	.byte	32                              // 0x20
	.byte	33                              // 0x21
	.byte	34                              // 0x22
	.byte	35                              // 0x23
	.byte	36                              // 0x24
	.byte	37                              // 0x25
	.byte	38                              // 0x26
	.byte	39                              // 0x27
	.section	".text.tapelist::read_file::<#75e23eee2798bf10>","ax",@progbits
	.p2align	2
	.type	"tapelist::read_file::<#75e23eee2798bf10>",@function
"tapelist::read_file::<#75e23eee2798bf10>": // @"tapelist::read_file::<#75e23eee2798bf10>"
// %bb.0:                               // %start
	stp	x29, x30, [sp, #-96]!           // 16-byte Folded Spill
	str	x28, [sp, #16]                  // 8-byte Spill
	mov	x29, sp
	stp	x26, x25, [sp, #32]             // 16-byte Folded Spill
	stp	x24, x23, [sp, #48]             // 16-byte Folded Spill
	stp	x22, x21, [sp, #64]             // 16-byte Folded Spill
	stp	x20, x19, [sp, #80]             // 16-byte Folded Spill
	sub	sp, sp, #3072
	str	xzr, [sp]
	sub	sp, sp, #3072
	str	xzr, [sp]
	sub	sp, sp, #2544
	movi	v0.2d, #0000000000000000
	add	x22, sp, #1, lsl #12            // =4096
	mov	x21, x2
	mov	x19, x1
	mov	x20, x0
	mov	x8, xzr
	add	x22, x22, #496
	str	xzr, [sp]
	str	xzr, [sp, #160]
	stp	q0, q0, [sp, #96]
	stp	q0, q0, [sp, #128]
	str	q0, [sp, #80]
.LBB0_1:                                // %join.5.i.i.i.i.i.i.i
                                        // =>This Inner Loop Header: Depth=1
	ldrb	w9, [x20, x8]
	cbz	w9, .LBB0_3
// %bb.2:                               // %join.8.i.i.i.i.i.i.i
                                        //   in Loop: Header=BB0_1 Depth=1
	add	x8, x8, #1
	cmp	x19, x8
	b.ne	.LBB0_1
	b	.LBB0_5
.LBB0_3:                                // %"os::name_length.exit.i.i.i.i.i"
	cmp	x8, x19
	b.hs	.LBB0_5
// %bb.4:                               // %"std::fs::File::open::<#46ecfd078aeab46d>.exit.thread.i"
	add	x0, sp, #1, lsl #12             // =4096
	adrp	x3, .Lstatic.2
	add	x3, x3, :lo12:.Lstatic.2
	add	x0, x0, #496
	mov	w1, #2                          // =0x2
	mov	w2, #20                         // =0x14
	mov	w4, #42                         // =0x2a
	mov	w5, #42                         // =0x2a
	bl	"std_io::io::error::Error::from_bytes"
	ldr	x8, [sp, #4672]
	ldr	q0, [sp, #4656]
	ldr	q1, [sp, #4640]
	ldr	q2, [sp, #4608]
	ldr	q3, [sp, #4624]
	ldr	x23, [sp, #4600]
	str	x8, [sp, #400]
	str	x8, [sp, #240]
	ldr	x8, [sp, #4592]
	stp	q2, q3, [sp, #176]
	ubfx	w9, w8, #8, #8
	lsr	x10, x8, #16
	stp	q1, q0, [sp, #208]
	stp	q2, q3, [sp, #336]
                                        // kill: def $w8 killed $w8 killed $x8 def $x8
	stp	q1, q0, [sp, #368]
	b	.LBB0_18
.LBB0_5:                                // %arm.5.i.i.i.i.i
	add	x24, sp, #1, lsl #12            // =4096
	mov	x25, #-1                        // =0xffffffffffffffff
	add	x24, x24, #496
.LBB0_6:                                // %loop.9.i.i.i.i.i
                                        // =>This Loop Header: Depth=1
                                        //     Child Loop BB0_8 Depth 2
	cbz	x25, .LBB0_16
// %bb.7:                               // %join.3.i.i27.i.i.i.i.i
                                        //   in Loop: Header=BB0_6 Depth=1
	mov	x8, xzr
	sub	x25, x25, #1
.LBB0_8:                                // %join.5.i.i.i.i.i.i.i.i
                                        //   Parent Loop BB0_6 Depth=1
                                        // =>  This Inner Loop Header: Depth=2
	ldrb	w9, [x20, x8]
	cbz	w9, .LBB0_10
// %bb.9:                               // %join.8.i.i.i.i.i.i.i.i
                                        //   in Loop: Header=BB0_8 Depth=2
	add	x8, x8, #1
	cmp	x19, x8
	b.ne	.LBB0_8
	b	.LBB0_12
.LBB0_10:                               // %"os::path::nul_position.exit.i.i.i.i.i.i.i"
                                        //   in Loop: Header=BB0_6 Depth=1
	cmp	x8, x19
	b.hs	.LBB0_12
// %bb.11:                              // %"os::open_with.exit.thread.i.i.i.i.i"
                                        //   in Loop: Header=BB0_6 Depth=1
	mov	w0, #22                         // =0x16
	bl	rattle_set_errno
	b	.LBB0_13
.LBB0_12:                               // %join.3.thread7.i.i.i.i.i.i
                                        //   in Loop: Header=BB0_6 Depth=1
	add	x0, sp, #1, lsl #12             // =4096
	mov	w1, wzr
	mov	w2, #4095                       // =0xfff
	add	x0, x0, #496
	bl	memset
	add	x0, sp, #1, lsl #12             // =4096
	mov	x1, x20
	mov	x2, x19
	add	x0, x0, #496
	bl	memcpy
	add	x1, sp, #1, lsl #12             // =4096
	add	x0, sp, #496
	mov	w2, #4096                       // =0x1000
	add	x1, x1, #496
	strb	wzr, [x22, #4095]
	bl	memcpy
	mov	w1, #256                        // =0x100
	add	x0, sp, #496
	movk	w1, #8, lsl #16
	bl	open
	tbz	w0, #31, .LBB0_21
.LBB0_13:                               // %join.15.i.i.i.i.i
                                        //   in Loop: Header=BB0_6 Depth=1
	bl	rattle_errno
	mov	w1, w0
	add	x0, sp, #1, lsl #12             // =4096
	add	x26, sp, #1, lsl #12            // =4096
	add	x0, x0, #496
	add	x26, x26, #496
	bl	"std_io::io::error::Error::from_raw_os_error"
	ldp	q0, q1, [x24, #32]
	adrp	x11, .LCPI0_0
	adrp	x12, .LCPI0_1
	adrp	x13, .LCPI0_2
	ldrb	w9, [x22, #1]
	ldur	q2, [x24, #16]
	ldrb	w8, [x22]
	ldrh	w10, [sp, #4598]
	stp	q0, q1, [sp, #432]
	ldur	q0, [x24, #64]
	cmp	w9, #41
	ldr	q1, [x12, :lo12:.LCPI0_1]
	ldur	x12, [x24, #80]
	ldr	x23, [sp, #4600]
	str	q0, [sp, #464]
	ldr	q0, [x11, :lo12:.LCPI0_0]
	ldur	w11, [x22, #2]
	str	x12, [sp, #480]
	mov	w12, #40                        // =0x28
	str	q0, [sp, #4592]
	ldr	d0, [x13, :lo12:.LCPI0_2]
	str	q2, [sp, #416]
	str	q1, [sp, #4608]
	str	d0, [sp, #4624]
	strb	w12, [x22, #40]
	b.hs	.LBB0_15
// %bb.14:                              // %"std_io::io::error::Error::kind.exit.i.i.i.i.i"
                                        //   in Loop: Header=BB0_6 Depth=1
	ldrb	w12, [x26, w9, uxtw]
	cmp	w12, #35
	b.eq	.LBB0_6
.LBB0_15:                               // %then.16.i.i.i.i.i
	ldp	q0, q1, [sp, #448]
	orr	x10, x11, x10, lsl #32
	ldr	x12, [sp, #480]
	stp	q0, q1, [sp, #368]
	ldp	q1, q0, [sp, #416]
	str	x12, [sp, #400]
	b	.LBB0_17
.LBB0_16:                               // %after.8.i.i.i.i.i
	add	x0, sp, #1, lsl #12             // =4096
	adrp	x3, .Lstatic.6
	add	x3, x3, :lo12:.Lstatic.6
	add	x0, x0, #496
	mov	w1, #2                          // =0x2
	mov	w2, #22                         // =0x16
	mov	w4, #43                         // =0x2b
	mov	w5, #43                         // =0x2b
	bl	"std_io::io::error::Error::from_bytes"
	ldr	q0, [sp, #4640]
	ldrh	w9, [sp, #4598]
	ldr	q1, [sp, #4656]
	ldur	w10, [x22, #2]
	ldr	x11, [sp, #4672]
	ldrb	w8, [x22]
	stp	q0, q1, [sp, #368]
	ldr	q0, [sp, #4624]
	ldr	q1, [sp, #4608]
	orr	x10, x10, x9, lsl #32
	ldrb	w9, [x22, #1]
	ldr	x23, [sp, #4600]
	str	x11, [sp, #400]
.LBB0_17:                               // %"std::fs::File::open::<#46ecfd078aeab46d>.exit.i.thread"
	stp	q1, q0, [sp, #336]
	ldp	q0, q1, [sp, #368]
	ldr	x11, [sp, #400]
	stp	q0, q1, [sp, #208]
	ldp	q1, q0, [sp, #336]
	str	x11, [sp, #240]
	stp	q1, q0, [sp, #176]
.LBB0_18:                               // %"tapelist::read_open::<#19b0f5173678d6e0>.exit.thread"
	ldp	q0, q1, [sp, #208]
	lsl	x10, x10, #16
	mov	w9, w9
	ldr	x11, [sp, #240]
	orr	x21, x10, x9, lsl #8
	stp	q0, q1, [sp, #32]
	ldp	q1, q0, [sp, #176]
	str	x11, [sp, #64]
	bfxil	x21, x8, #0, #8
.LBB0_19:                               // %arm.2
	stp	q1, q0, [sp]
	ldp	q0, q1, [sp, #32]
	ldr	x8, [sp, #64]
	add	x2, sp, #80
	mov	x0, x20
	mov	x1, x19
	stp	x21, x23, [sp, #80]
	stp	q0, q1, [sp, #128]
	ldp	q1, q0, [sp]
	str	x8, [sp, #160]
	stp	q1, q0, [sp, #96]
	bl	"tapelist::fail::<#4e9da720f7635e46>"
	mov	w0, wzr
	mov	x23, xzr
.LBB0_20:                               // %join.4
	mov	x1, x23
	add	sp, sp, #2, lsl #12             // =8192
	add	sp, sp, #496
	ldp	x20, x19, [sp, #80]             // 16-byte Folded Reload
	ldr	x28, [sp, #16]                  // 8-byte Reload
	ldp	x22, x21, [sp, #64]             // 16-byte Folded Reload
	ldp	x24, x23, [sp, #48]             // 16-byte Folded Reload
	ldp	x26, x25, [sp, #32]             // 16-byte Folded Reload
	ldp	x29, x30, [sp], #96             // 16-byte Folded Reload
	ret
.LBB0_21:                               // %arm.1.i
	mov	x23, xzr
.LBB0_22:                               // %join.5.i.i
                                        // =>This Inner Loop Header: Depth=1
	mov	w8, #4096                       // =0x1000
	add	x1, x21, x23
	mov	w22, w0
	sub	x24, x8, x23
	mov	x2, x24
	bl	read
	tbnz	x0, #63, .LBB0_25
// %bb.23:                              // %arm.6.i.i
                                        //   in Loop: Header=BB0_22 Depth=1
	cbz	x0, .LBB0_26
// %bb.24:                              // %default.11.i.i
                                        //   in Loop: Header=BB0_22 Depth=1
	cmp	x0, x24
	csel	x8, x0, x24, lo
	mov	w0, w22
	add	x23, x8, x23
	cmp	x23, #1, lsl #12                // =4096
	b.lo	.LBB0_22
	b	.LBB0_27
.LBB0_25:                               // %"tapelist::read_open::<#19b0f5173678d6e0>.exit"
	bl	rattle_errno
	mov	w1, w0
	add	x0, sp, #1, lsl #12             // =4096
	add	x0, x0, #496
	bl	"std_io::io::error::Error::from_raw_os_error"
	ldr	q0, [sp, #4640]
	ldr	q1, [sp, #4656]
	mov	w0, w22
	ldr	x8, [sp, #4672]
	ldr	x21, [sp, #4592]
	ldr	x23, [sp, #4600]
	stp	q0, q1, [sp, #288]
	ldr	q0, [sp, #4624]
	ldr	q1, [sp, #4608]
	str	x8, [sp, #320]
	stp	q1, q0, [sp, #256]
	bl	close
	ldp	q0, q1, [sp, #288]
	ldr	x8, [sp, #320]
	str	x8, [sp, #64]
	stp	q0, q1, [sp, #32]
	ldp	q1, q0, [sp, #256]
	b	.LBB0_19
.LBB0_26:
	mov	w0, w22
.LBB0_27:                               // %"tapelist::read_open::<#19b0f5173678d6e0>.exit.thread37"
	bl	close
	mov	w0, #1                          // =0x1
	b	.LBB0_20
.Lfunc_end0:
	.size	"tapelist::read_file::<#75e23eee2798bf10>", .Lfunc_end0-"tapelist::read_file::<#75e23eee2798bf10>"
                                        // -- End function
	.section	".text.std_io::io::error::Error::from_bytes","ax",@progbits
	.p2align	2                               // -- Begin function std_io::io::error::Error::from_bytes
	.type	"std_io::io::error::Error::from_bytes",@function
"std_io::io::error::Error::from_bytes": // @"std_io::io::error::Error::from_bytes"
// %bb.0:                               // %start
	str	x30, [sp, #-96]!                // 8-byte Folded Spill
	stp	x28, x27, [sp, #16]             // 16-byte Folded Spill
	stp	x26, x25, [sp, #32]             // 16-byte Folded Spill
	stp	x24, x23, [sp, #48]             // 16-byte Folded Spill
	stp	x22, x21, [sp, #64]             // 16-byte Folded Spill
	stp	x20, x19, [sp, #80]             // 16-byte Folded Spill
	sub	sp, sp, #448
	str	x5, [sp, #440]                  // 8-byte Spill
	str	w2, [sp, #436]                  // 4-byte Spill
	str	w1, [sp, #428]                  // 4-byte Spill
	str	x0, [sp, #456]                  // 8-byte Spill
	cbz	x4, .LBB1_3
// %bb.1:                               // %"std_io::io::error::byte_or_dot.exit.i"
	ldrb	w8, [x3]
	cmp	x4, #1
	str	w8, [sp, #432]                  // 4-byte Spill
	b.ne	.LBB1_4
// %bb.2:
	mov	w8, #46                         // =0x2e
	mov	x18, #50577534877696            // =0x2e0000000000
	mov	x15, #3314649325744685056       // =0x2e00000000000000
	str	w8, [sp, #404]                  // 4-byte Spill
	mov	x8, #12947848928690176          // =0x2e000000000000
	mov	w5, #11776                      // =0x2e00
	str	x8, [sp, #392]                  // 8-byte Spill
	mov	x8, #197568495616               // =0x2e00000000
	mov	w12, #771751936                 // =0x2e000000
	str	x8, [sp, #408]                  // 8-byte Spill
	mov	w8, #3014656                    // =0x2e0000
	mov	w17, #771751936                 // =0x2e000000
	str	x8, [sp, #416]                  // 8-byte Spill
	mov	w8, #11776                      // =0x2e00
	mov	w9, #11776                      // =0x2e00
	str	x8, [sp, #72]                   // 8-byte Spill
	mov	x8, #3314649325744685056        // =0x2e00000000000000
	mov	x7, #3314649325744685056        // =0x2e00000000000000
	str	x8, [sp, #80]                   // 8-byte Spill
	mov	x8, #50577534877696             // =0x2e0000000000
	mov	x13, #50577534877696            // =0x2e0000000000
	str	x8, [sp, #88]                   // 8-byte Spill
	mov	w8, #771751936                  // =0x2e000000
	mov	w0, #771751936                  // =0x2e000000
	str	x8, [sp, #96]                   // 8-byte Spill
	mov	w8, #11776                      // =0x2e00
	str	x8, [sp, #104]                  // 8-byte Spill
	mov	x8, #3314649325744685056        // =0x2e00000000000000
	str	x8, [sp, #120]                  // 8-byte Spill
	mov	x8, #50577534877696             // =0x2e0000000000
	str	x8, [sp, #128]                  // 8-byte Spill
	mov	w8, #771751936                  // =0x2e000000
	str	x8, [sp, #136]                  // 8-byte Spill
	mov	w8, #11776                      // =0x2e00
	str	x8, [sp, #144]                  // 8-byte Spill
	mov	x8, #3314649325744685056        // =0x2e00000000000000
	str	x8, [sp, #152]                  // 8-byte Spill
	mov	x8, #50577534877696             // =0x2e0000000000
	str	x8, [sp, #168]                  // 8-byte Spill
	mov	w8, #771751936                  // =0x2e000000
	str	x8, [sp, #176]                  // 8-byte Spill
	mov	w8, #11776                      // =0x2e00
	str	x8, [sp, #192]                  // 8-byte Spill
	mov	x8, #3314649325744685056        // =0x2e00000000000000
	str	x8, [sp, #200]                  // 8-byte Spill
	mov	x8, #50577534877696             // =0x2e0000000000
	str	x8, [sp, #208]                  // 8-byte Spill
	mov	w8, #771751936                  // =0x2e000000
	str	x8, [sp, #216]                  // 8-byte Spill
	mov	w8, #11776                      // =0x2e00
	str	x8, [sp, #224]                  // 8-byte Spill
	mov	x8, #3314649325744685056        // =0x2e00000000000000
	str	x8, [sp, #240]                  // 8-byte Spill
	mov	x8, #50577534877696             // =0x2e0000000000
	str	x8, [sp, #256]                  // 8-byte Spill
	mov	w8, #771751936                  // =0x2e000000
	str	x8, [sp, #264]                  // 8-byte Spill
	mov	w8, #11776                      // =0x2e00
	str	x8, [sp, #280]                  // 8-byte Spill
	mov	x8, #3314649325744685056        // =0x2e00000000000000
	str	x8, [sp, #296]                  // 8-byte Spill
	mov	x8, #50577534877696             // =0x2e0000000000
	str	x8, [sp, #304]                  // 8-byte Spill
	mov	w8, #771751936                  // =0x2e000000
	str	x8, [sp, #312]                  // 8-byte Spill
	mov	w8, #11776                      // =0x2e00
	str	x8, [sp, #328]                  // 8-byte Spill
	mov	x8, #3314649325744685056        // =0x2e00000000000000
	str	x8, [sp, #344]                  // 8-byte Spill
	mov	x8, #50577534877696             // =0x2e0000000000
	str	x8, [sp, #360]                  // 8-byte Spill
	mov	w8, #771751936                  // =0x2e000000
	str	x8, [sp, #376]                  // 8-byte Spill
	mov	w8, #11776                      // =0x2e00
	str	x8, [sp, #384]                  // 8-byte Spill
	b	.LBB1_8
.LBB1_3:
	mov	x8, #12947848928690176          // =0x2e000000000000
	mov	x18, #50577534877696            // =0x2e0000000000
	mov	x15, #3314649325744685056       // =0x2e00000000000000
	str	x8, [sp, #392]                  // 8-byte Spill
	mov	x8, #197568495616               // =0x2e00000000
	mov	w5, #11776                      // =0x2e00
	str	x8, [sp, #408]                  // 8-byte Spill
	mov	w8, #46                         // =0x2e
	mov	w12, #771751936                 // =0x2e000000
	str	w8, [sp, #432]                  // 4-byte Spill
	mov	w8, #3014656                    // =0x2e0000
	mov	w17, #771751936                 // =0x2e000000
	str	x8, [sp, #416]                  // 8-byte Spill
	mov	w8, #11776                      // =0x2e00
	mov	w9, #11776                      // =0x2e00
	str	x8, [sp, #72]                   // 8-byte Spill
	mov	x8, #3314649325744685056        // =0x2e00000000000000
	mov	x7, #3314649325744685056        // =0x2e00000000000000
	str	x8, [sp, #80]                   // 8-byte Spill
	mov	x8, #50577534877696             // =0x2e0000000000
	mov	x13, #50577534877696            // =0x2e0000000000
	str	x8, [sp, #88]                   // 8-byte Spill
	mov	w8, #771751936                  // =0x2e000000
	mov	w0, #771751936                  // =0x2e000000
	str	x8, [sp, #96]                   // 8-byte Spill
	mov	w8, #11776                      // =0x2e00
	str	x8, [sp, #104]                  // 8-byte Spill
	mov	x8, #3314649325744685056        // =0x2e00000000000000
	str	x8, [sp, #120]                  // 8-byte Spill
	mov	x8, #50577534877696             // =0x2e0000000000
	str	x8, [sp, #128]                  // 8-byte Spill
	mov	w8, #771751936                  // =0x2e000000
	str	x8, [sp, #136]                  // 8-byte Spill
	mov	w8, #11776                      // =0x2e00
	str	x8, [sp, #144]                  // 8-byte Spill
	mov	x8, #3314649325744685056        // =0x2e00000000000000
	str	x8, [sp, #152]                  // 8-byte Spill
	mov	x8, #50577534877696             // =0x2e0000000000
	str	x8, [sp, #168]                  // 8-byte Spill
	mov	w8, #771751936                  // =0x2e000000
	str	x8, [sp, #176]                  // 8-byte Spill
	mov	w8, #11776                      // =0x2e00
	str	x8, [sp, #192]                  // 8-byte Spill
	mov	x8, #3314649325744685056        // =0x2e00000000000000
	str	x8, [sp, #200]                  // 8-byte Spill
	mov	x8, #50577534877696             // =0x2e0000000000
	str	x8, [sp, #208]                  // 8-byte Spill
	mov	w8, #771751936                  // =0x2e000000
	str	x8, [sp, #216]                  // 8-byte Spill
	mov	w8, #11776                      // =0x2e00
	str	x8, [sp, #224]                  // 8-byte Spill
	mov	x8, #3314649325744685056        // =0x2e00000000000000
	str	x8, [sp, #240]                  // 8-byte Spill
	mov	x8, #50577534877696             // =0x2e0000000000
	str	x8, [sp, #256]                  // 8-byte Spill
	mov	w8, #771751936                  // =0x2e000000
	str	x8, [sp, #264]                  // 8-byte Spill
	mov	w8, #11776                      // =0x2e00
	str	x8, [sp, #280]                  // 8-byte Spill
	mov	x8, #3314649325744685056        // =0x2e00000000000000
	str	x8, [sp, #296]                  // 8-byte Spill
	mov	x8, #50577534877696             // =0x2e0000000000
	str	x8, [sp, #304]                  // 8-byte Spill
	mov	w8, #771751936                  // =0x2e000000
	str	x8, [sp, #312]                  // 8-byte Spill
	mov	w8, #11776                      // =0x2e00
	str	x8, [sp, #328]                  // 8-byte Spill
	mov	x8, #3314649325744685056        // =0x2e00000000000000
	str	x8, [sp, #344]                  // 8-byte Spill
	mov	x8, #50577534877696             // =0x2e0000000000
	str	x8, [sp, #360]                  // 8-byte Spill
	mov	w8, #771751936                  // =0x2e000000
	str	x8, [sp, #376]                  // 8-byte Spill
	mov	w8, #11776                      // =0x2e00
	str	x8, [sp, #384]                  // 8-byte Spill
	mov	w8, #46                         // =0x2e
	str	w8, [sp, #404]                  // 4-byte Spill
	b	.LBB1_8
.LBB1_4:                                // %"std_io::io::error::byte_or_dot.exit13.i"
	ldrb	w8, [x3, #1]
	cmp	x4, #3
	lsl	x8, x8, #8
	str	x8, [sp, #384]                  // 8-byte Spill
	b.lo	.LBB1_7
// %bb.5:                               // %"std_io::io::error::byte_or_dot.exit19.i"
	ldrb	w8, [x3, #2]
	cmp	x4, #3
	lsl	x8, x8, #16
	str	x8, [sp, #416]                  // 8-byte Spill
	b.ne	.LBB1_39
// %bb.6:
	mov	w8, #46                         // =0x2e
	mov	x18, #50577534877696            // =0x2e0000000000
	mov	x15, #3314649325744685056       // =0x2e00000000000000
	str	w8, [sp, #404]                  // 4-byte Spill
	mov	x8, #12947848928690176          // =0x2e000000000000
	mov	w5, #11776                      // =0x2e00
	str	x8, [sp, #392]                  // 8-byte Spill
	mov	x8, #197568495616               // =0x2e00000000
	mov	w12, #771751936                 // =0x2e000000
	str	x8, [sp, #408]                  // 8-byte Spill
	mov	w8, #3014656                    // =0x2e0000
	mov	w17, #771751936                 // =0x2e000000
	str	x8, [sp, #368]                  // 8-byte Spill
	mov	w8, #11776                      // =0x2e00
	mov	w9, #11776                      // =0x2e00
	str	x8, [sp, #72]                   // 8-byte Spill
	mov	x8, #3314649325744685056        // =0x2e00000000000000
	mov	x7, #3314649325744685056        // =0x2e00000000000000
	str	x8, [sp, #80]                   // 8-byte Spill
	mov	x8, #50577534877696             // =0x2e0000000000
	mov	x13, #50577534877696            // =0x2e0000000000
	str	x8, [sp, #88]                   // 8-byte Spill
	mov	w8, #771751936                  // =0x2e000000
	mov	w0, #771751936                  // =0x2e000000
	str	x8, [sp, #96]                   // 8-byte Spill
	mov	w8, #11776                      // =0x2e00
	str	x8, [sp, #104]                  // 8-byte Spill
	mov	x8, #3314649325744685056        // =0x2e00000000000000
	str	x8, [sp, #120]                  // 8-byte Spill
	mov	x8, #50577534877696             // =0x2e0000000000
	str	x8, [sp, #128]                  // 8-byte Spill
	mov	w8, #771751936                  // =0x2e000000
	str	x8, [sp, #136]                  // 8-byte Spill
	mov	w8, #11776                      // =0x2e00
	str	x8, [sp, #144]                  // 8-byte Spill
	mov	x8, #3314649325744685056        // =0x2e00000000000000
	str	x8, [sp, #152]                  // 8-byte Spill
	mov	x8, #50577534877696             // =0x2e0000000000
	str	x8, [sp, #168]                  // 8-byte Spill
	mov	w8, #771751936                  // =0x2e000000
	str	x8, [sp, #176]                  // 8-byte Spill
	mov	w8, #11776                      // =0x2e00
	str	x8, [sp, #192]                  // 8-byte Spill
	mov	x8, #3314649325744685056        // =0x2e00000000000000
	str	x8, [sp, #200]                  // 8-byte Spill
	mov	x8, #50577534877696             // =0x2e0000000000
	str	x8, [sp, #208]                  // 8-byte Spill
	mov	w8, #771751936                  // =0x2e000000
	str	x8, [sp, #216]                  // 8-byte Spill
	mov	w8, #11776                      // =0x2e00
	str	x8, [sp, #224]                  // 8-byte Spill
	mov	x8, #3314649325744685056        // =0x2e00000000000000
	str	x8, [sp, #240]                  // 8-byte Spill
	mov	x8, #50577534877696             // =0x2e0000000000
	str	x8, [sp, #256]                  // 8-byte Spill
	mov	w8, #771751936                  // =0x2e000000
	str	x8, [sp, #264]                  // 8-byte Spill
	mov	w8, #11776                      // =0x2e00
	str	x8, [sp, #280]                  // 8-byte Spill
	mov	x8, #3314649325744685056        // =0x2e00000000000000
	str	x8, [sp, #296]                  // 8-byte Spill
	mov	x8, #50577534877696             // =0x2e0000000000
	str	x8, [sp, #304]                  // 8-byte Spill
	mov	w8, #771751936                  // =0x2e000000
	str	x8, [sp, #312]                  // 8-byte Spill
	mov	w8, #11776                      // =0x2e00
	str	x8, [sp, #328]                  // 8-byte Spill
	mov	x8, #3314649325744685056        // =0x2e00000000000000
	str	x8, [sp, #344]                  // 8-byte Spill
	mov	x8, #50577534877696             // =0x2e0000000000
	str	x8, [sp, #360]                  // 8-byte Spill
	mov	w8, #771751936                  // =0x2e000000
	str	x8, [sp, #376]                  // 8-byte Spill
	b	.LBB1_9
.LBB1_7:
	mov	w8, #46                         // =0x2e
	mov	x18, #50577534877696            // =0x2e0000000000
	mov	x15, #3314649325744685056       // =0x2e00000000000000
	str	w8, [sp, #404]                  // 4-byte Spill
	mov	x8, #12947848928690176          // =0x2e000000000000
	mov	w5, #11776                      // =0x2e00
	str	x8, [sp, #392]                  // 8-byte Spill
	mov	x8, #197568495616               // =0x2e00000000
	mov	w12, #771751936                 // =0x2e000000
	str	x8, [sp, #408]                  // 8-byte Spill
	mov	w8, #3014656                    // =0x2e0000
	mov	w17, #771751936                 // =0x2e000000
	str	x8, [sp, #416]                  // 8-byte Spill
	mov	w8, #11776                      // =0x2e00
	mov	w9, #11776                      // =0x2e00
	str	x8, [sp, #72]                   // 8-byte Spill
	mov	x8, #3314649325744685056        // =0x2e00000000000000
	mov	x7, #3314649325744685056        // =0x2e00000000000000
	str	x8, [sp, #80]                   // 8-byte Spill
	mov	x8, #50577534877696             // =0x2e0000000000
	mov	x13, #50577534877696            // =0x2e0000000000
	str	x8, [sp, #88]                   // 8-byte Spill
	mov	w8, #771751936                  // =0x2e000000
	mov	w0, #771751936                  // =0x2e000000
	str	x8, [sp, #96]                   // 8-byte Spill
	mov	w8, #11776                      // =0x2e00
	str	x8, [sp, #104]                  // 8-byte Spill
	mov	x8, #3314649325744685056        // =0x2e00000000000000
	str	x8, [sp, #120]                  // 8-byte Spill
	mov	x8, #50577534877696             // =0x2e0000000000
	str	x8, [sp, #128]                  // 8-byte Spill
	mov	w8, #771751936                  // =0x2e000000
	str	x8, [sp, #136]                  // 8-byte Spill
	mov	w8, #11776                      // =0x2e00
	str	x8, [sp, #144]                  // 8-byte Spill
	mov	x8, #3314649325744685056        // =0x2e00000000000000
	str	x8, [sp, #152]                  // 8-byte Spill
	mov	x8, #50577534877696             // =0x2e0000000000
	str	x8, [sp, #168]                  // 8-byte Spill
	mov	w8, #771751936                  // =0x2e000000
	str	x8, [sp, #176]                  // 8-byte Spill
	mov	w8, #11776                      // =0x2e00
	str	x8, [sp, #192]                  // 8-byte Spill
	mov	x8, #3314649325744685056        // =0x2e00000000000000
	str	x8, [sp, #200]                  // 8-byte Spill
	mov	x8, #50577534877696             // =0x2e0000000000
	str	x8, [sp, #208]                  // 8-byte Spill
	mov	w8, #771751936                  // =0x2e000000
	str	x8, [sp, #216]                  // 8-byte Spill
	mov	w8, #11776                      // =0x2e00
	str	x8, [sp, #224]                  // 8-byte Spill
	mov	x8, #3314649325744685056        // =0x2e00000000000000
	str	x8, [sp, #240]                  // 8-byte Spill
	mov	x8, #50577534877696             // =0x2e0000000000
	str	x8, [sp, #256]                  // 8-byte Spill
	mov	w8, #771751936                  // =0x2e000000
	str	x8, [sp, #264]                  // 8-byte Spill
	mov	w8, #11776                      // =0x2e00
	str	x8, [sp, #280]                  // 8-byte Spill
	mov	x8, #3314649325744685056        // =0x2e00000000000000
	str	x8, [sp, #296]                  // 8-byte Spill
	mov	x8, #50577534877696             // =0x2e0000000000
	str	x8, [sp, #304]                  // 8-byte Spill
	mov	w8, #771751936                  // =0x2e000000
	str	x8, [sp, #312]                  // 8-byte Spill
	mov	w8, #11776                      // =0x2e00
	str	x8, [sp, #328]                  // 8-byte Spill
	mov	x8, #3314649325744685056        // =0x2e00000000000000
	str	x8, [sp, #344]                  // 8-byte Spill
	mov	x8, #50577534877696             // =0x2e0000000000
	str	x8, [sp, #360]                  // 8-byte Spill
	mov	w8, #771751936                  // =0x2e000000
	str	x8, [sp, #376]                  // 8-byte Spill
.LBB1_8:                                // %"std_io::io::error::byte_or_dot.exit31.i463"
	mov	w8, #3014656                    // =0x2e0000
	str	x8, [sp, #368]                  // 8-byte Spill
.LBB1_9:                                // %"std_io::io::error::byte_or_dot.exit31.i463"
	mov	x8, #197568495616               // =0x2e00000000
	str	x8, [sp, #352]                  // 8-byte Spill
.LBB1_10:                               // %"std_io::io::error::byte_or_dot.exit31.i463"
	mov	x8, #12947848928690176          // =0x2e000000000000
	str	x8, [sp, #336]                  // 8-byte Spill
.LBB1_11:                               // %"std_io::io::error::byte_or_dot.exit31.i463"
	mov	w8, #46                         // =0x2e
	str	w8, [sp, #324]                  // 4-byte Spill
.LBB1_12:                               // %"std_io::io::error::byte_or_dot.exit31.i463"
	mov	w8, #3014656                    // =0x2e0000
	str	x8, [sp, #288]                  // 8-byte Spill
.LBB1_13:                               // %"std_io::io::error::byte_or_dot.exit31.i463"
	mov	x8, #197568495616               // =0x2e00000000
	str	x8, [sp, #272]                  // 8-byte Spill
.LBB1_14:                               // %"std_io::io::error::byte_or_dot.exit31.i463"
	mov	x8, #12947848928690176          // =0x2e000000000000
	str	x8, [sp, #248]                  // 8-byte Spill
.LBB1_15:                               // %"std_io::io::error::byte_or_dot.exit31.i463"
	mov	w8, #46                         // =0x2e
	str	w8, [sp, #236]                  // 4-byte Spill
.LBB1_16:                               // %"std_io::io::error::byte_or_dot.exit31.i463"
	mov	w8, #3014656                    // =0x2e0000
	str	x8, [sp, #184]                  // 8-byte Spill
.LBB1_17:                               // %"std_io::io::error::byte_or_dot.exit31.i463"
	mov	x8, #197568495616               // =0x2e00000000
	str	x8, [sp, #160]                  // 8-byte Spill
.LBB1_18:                               // %"std_io::io::error::byte_or_dot.exit31.i463"
	mov	x8, #12947848928690176          // =0x2e000000000000
	str	x8, [sp, #112]                  // 8-byte Spill
.LBB1_19:                               // %"std_io::io::error::byte_or_dot.exit31.i463"
	mov	w8, #46                         // =0x2e
	mov	w10, #3014656                   // =0x2e0000
	mov	x25, #197568495616              // =0x2e00000000
	str	w8, [sp, #68]                   // 4-byte Spill
	mov	x2, #12947848928690176          // =0x2e000000000000
.LBB1_20:                               // %"std_io::io::error::byte_or_dot.exit31.i463"
	str	w8, [sp, #64]                   // 4-byte Spill
	mov	w1, #3014656                    // =0x2e0000
	mov	x30, #197568495616              // =0x2e00000000
	mov	x26, #12947848928690176         // =0x2e000000000000
.LBB1_21:                               // %"std_io::io::error::byte_or_dot.exit31.i463"
	str	w8, [sp, #60]                   // 4-byte Spill
	mov	w27, #3014656                   // =0x2e0000
	mov	x28, #197568495616              // =0x2e00000000
	mov	x6, #12947848928690176          // =0x2e000000000000
.LBB1_22:                               // %"std_io::io::error::byte_or_dot.exit31.i463"
	str	w8, [sp, #56]                   // 4-byte Spill
	mov	w19, #3014656                   // =0x2e0000
	mov	x20, #197568495616              // =0x2e00000000
	mov	x21, #12947848928690176         // =0x2e000000000000
.LBB1_23:                               // %"std_io::io::error::byte_or_dot.exit31.i463"
	str	w8, [sp, #52]                   // 4-byte Spill
.LBB1_24:                               // %"std_io::io::error::byte_or_dot.exit31.i463"
	mov	w23, #3014656                   // =0x2e0000
.LBB1_25:                               // %"std_io::io::error::byte_or_dot.exit31.i463"
	mov	x24, #197568495616              // =0x2e00000000
.LBB1_26:                               // %"std_io::io::error::byte_or_dot.exit31.i463"
	mov	x16, #12947848928690176         // =0x2e000000000000
.LBB1_27:                               // %"std_io::io::error::byte_or_dot.exit31.i463"
	mov	w11, #46                        // =0x2e
.LBB1_28:                               // %"std_io::io::error::byte_or_dot.exit31.i463"
	mov	w14, #3014656                   // =0x2e0000
.LBB1_29:                               // %"std_io::io::error::byte_or_dot.exit31.i463"
	mov	x8, #197568495616               // =0x2e00000000
.LBB1_30:                               // %"std_io::io::error::byte_or_dot.exit31.i463"
	str	w11, [sp, #48]                  // 4-byte Spill
	mov	x11, x17
	cmp	x4, #78
	stp	x8, x14, [sp, #32]              // 16-byte Folded Spill
	b.lo	.LBB1_33
// %bb.31:                              // %"std_io::io::error::byte_or_dot.exit37.i466"
	ldrb	w8, [x3, #77]
	mov	x14, x12
	cmp	x4, #78
	lsl	x17, x8, #40
	b.ne	.LBB1_36
// %bb.32:
	mov	x12, #3314649325744685056       // =0x2e00000000000000
	b	.LBB1_34
.LBB1_33:
	mov	x14, x12
	mov	x12, #3314649325744685056       // =0x2e00000000000000
	mov	x17, #50577534877696            // =0x2e0000000000
.LBB1_34:                               // %"std_io::io::error::pack.exit504"
	mov	x22, #12947848928690176         // =0x2e000000000000
.LBB1_35:                               // %"std_io::io::error::pack.exit504"
	orr	x8, x9, x23
	orr	x9, x11, x24
	orr	x11, x16, x15
	str	x11, [sp, #24]                  // 8-byte Spill
	orr	x11, x9, x18
	ldr	x9, [sp, #72]                   // 8-byte Reload
	orr	x0, x0, x20
	orr	x12, x22, x12
	orr	x16, x9, x19
	orr	x9, x0, x13
	str	x9, [sp, #16]                   // 8-byte Spill
	orr	x9, x21, x7
	str	x9, [sp, #72]                   // 8-byte Spill
	ldr	x9, [sp, #104]                  // 8-byte Reload
	orr	x27, x9, x27
	ldr	x9, [sp, #96]                   // 8-byte Reload
	orr	x13, x9, x28
	ldr	x9, [sp, #80]                   // 8-byte Reload
	orr	x9, x6, x9
	str	x9, [sp, #104]                  // 8-byte Spill
	ldr	x9, [sp, #144]                  // 8-byte Reload
	orr	x28, x9, x1
	ldr	x9, [sp, #88]                   // 8-byte Reload
	orr	x3, x13, x9
	ldr	x9, [sp, #136]                  // 8-byte Reload
	orr	x13, x9, x30
	ldr	x9, [sp, #120]                  // 8-byte Reload
	orr	x0, x26, x9
	ldr	x9, [sp, #128]                  // 8-byte Reload
	orr	x18, x13, x9
	ldp	x13, x9, [sp, #184]             // 16-byte Folded Reload
	orr	x26, x9, x10
	ldr	x9, [sp, #176]                  // 8-byte Reload
	orr	x10, x9, x25
	ldr	x9, [sp, #168]                  // 8-byte Reload
	orr	x10, x10, x9
	ldr	x9, [sp, #152]                  // 8-byte Reload
	orr	x15, x2, x9
	ldr	x9, [sp, #224]                  // 8-byte Reload
	orr	x7, x9, x13
	ldr	x9, [sp, #216]                  // 8-byte Reload
	ldr	x13, [sp, #160]                 // 8-byte Reload
	orr	x2, x9, x13
	ldr	x9, [sp, #200]                  // 8-byte Reload
	ldr	x13, [sp, #112]                 // 8-byte Reload
	orr	x1, x13, x9
	ldp	x13, x9, [sp, #280]             // 16-byte Folded Reload
	orr	x13, x13, x9
	ldr	x9, [sp, #208]                  // 8-byte Reload
	orr	x6, x2, x9
	ldp	x2, x9, [sp, #264]              // 16-byte Folded Reload
	orr	x2, x2, x9
	ldp	x4, x9, [sp, #240]              // 16-byte Folded Reload
	orr	x19, x9, x4
	ldr	x9, [sp, #256]                  // 8-byte Reload
	ldr	x4, [sp, #312]                  // 8-byte Reload
	orr	x20, x2, x9
	ldr	x9, [sp, #368]                  // 8-byte Reload
	ldr	x2, [sp, #328]                  // 8-byte Reload
	orr	x2, x2, x9
	ldr	x9, [sp, #352]                  // 8-byte Reload
	orr	x4, x4, x9
	ldr	x9, [sp, #304]                  // 8-byte Reload
	orr	x23, x4, x9
	ldr	x9, [sp, #336]                  // 8-byte Reload
	ldr	x4, [sp, #296]                  // 8-byte Reload
	orr	x21, x9, x4
	ldr	x9, [sp, #416]                  // 8-byte Reload
	ldr	x4, [sp, #384]                  // 8-byte Reload
	orr	x30, x4, x9
	ldr	x9, [sp, #408]                  // 8-byte Reload
	ldr	x4, [sp, #376]                  // 8-byte Reload
	orr	x25, x4, x9
	ldr	x9, [sp, #392]                  // 8-byte Reload
	ldr	x4, [sp, #344]                  // 8-byte Reload
	orr	x24, x9, x4
	ldr	x9, [sp, #40]                   // 8-byte Reload
	orr	x4, x5, x9
	ldr	x9, [sp, #360]                  // 8-byte Reload
	orr	x25, x25, x9
	ldr	x9, [sp, #32]                   // 8-byte Reload
	orr	x5, x14, x9
	ldr	x9, [sp, #456]                  // 8-byte Reload
	ldr	w14, [sp, #52]                  // 4-byte Reload
	orr	x5, x5, x17
	ldr	w17, [sp, #428]                 // 4-byte Reload
	strb	wzr, [x9, #3]
	strb	w17, [x9]
	mov	w17, w14
	ldr	w14, [sp, #48]                  // 4-byte Reload
	orr	x8, x8, x17
	ldr	w17, [sp, #324]                 // 4-byte Reload
	str	wzr, [x9, #4]
	orr	x22, x8, x11
	ldp	w8, w11, [sp, #56]              // 8-byte Folded Reload
	mov	w17, w17
	orr	x13, x13, x17
	ldr	w17, [sp, #404]                 // 4-byte Reload
	mov	w8, w8
	mov	w11, w11
	orr	x13, x13, x20
	orr	x16, x16, x8
	ldr	w8, [sp, #64]                   // 4-byte Reload
	orr	x27, x27, x11
	ldr	w11, [sp, #236]                 // 4-byte Reload
	orr	x13, x13, x19
	mov	w17, w17
	mov	w8, w8
	orr	x17, x2, x17
	orr	x28, x28, x8
	ldr	w8, [sp, #68]                   // 4-byte Reload
	mov	w11, w11
	orr	x11, x7, x11
	ldr	w7, [sp, #432]                  // 4-byte Reload
	orr	x17, x17, x23
	mov	w8, w8
	orr	x11, x11, x6
	orr	x17, x17, x21
	orr	x8, x26, x8
	mov	w7, w7
	orr	x8, x8, x10
	orr	x10, x11, x1
	orr	x11, x28, x18
	stp	x13, x10, [x9, #24]
	orr	x8, x8, x15
	orr	x10, x11, x0
	stp	x8, x10, [x9, #40]
	ldr	x8, [sp, #16]                   // 8-byte Reload
	orr	x2, x30, x7
	ldr	w7, [sp, #436]                  // 4-byte Reload
	ldr	x11, [sp, #104]                 // 8-byte Reload
	ldr	x10, [sp, #72]                  // 8-byte Reload
	orr	x13, x27, x3
	orr	x8, x16, x8
	orr	x2, x2, x25
	strb	w7, [x9, #1]
	mov	w7, w14
	orr	x11, x13, x11
	orr	x8, x8, x10
	orr	x10, x4, x7
	ldr	x25, [sp, #440]                 // 8-byte Reload
	stp	x11, x8, [x9, #56]
	ldr	x11, [sp, #24]                  // 8-byte Reload
	orr	x10, x10, x5
	orr	x2, x2, x24
	orr	x8, x10, x12
	strb	w25, [x9, #2]
	orr	x11, x22, x11
	stp	x2, x17, [x9, #8]
	stp	x11, x8, [x9, #72]
	add	sp, sp, #448
	ldp	x20, x19, [sp, #80]             // 16-byte Folded Reload
	ldp	x22, x21, [sp, #64]             // 16-byte Folded Reload
	ldp	x24, x23, [sp, #48]             // 16-byte Folded Reload
	ldp	x26, x25, [sp, #32]             // 16-byte Folded Reload
	ldp	x28, x27, [sp, #16]             // 16-byte Folded Reload
	ldr	x30, [sp], #96                  // 8-byte Folded Reload
	ret
.LBB1_36:                               // %"std_io::io::error::byte_or_dot.exit43.i469"
	ldrb	w8, [x3, #78]
	cmp	x4, #80
	lsl	x22, x8, #48
	b.lo	.LBB1_38
// %bb.37:                              // %then.1.i46.i480
	ldrb	w8, [x3, #79]
	lsl	x12, x8, #56
	b	.LBB1_35
.LBB1_38:
	mov	x12, #3314649325744685056       // =0x2e00000000000000
	b	.LBB1_35
.LBB1_39:                               // %"std_io::io::error::byte_or_dot.exit25.i"
	ldrb	w8, [x3, #3]
	cmp	x4, #5
	lsl	x8, x8, #24
	str	x8, [sp, #376]                  // 8-byte Spill
	b.lo	.LBB1_42
// %bb.40:                              // %"std_io::io::error::byte_or_dot.exit31.i"
	ldrb	w8, [x3, #4]
	cmp	x4, #5
	lsl	x8, x8, #32
	str	x8, [sp, #408]                  // 8-byte Spill
	b.ne	.LBB1_43
// %bb.41:
	mov	x8, #197568495616               // =0x2e00000000
	mov	x18, #50577534877696            // =0x2e0000000000
	mov	x15, #3314649325744685056       // =0x2e00000000000000
	str	x8, [sp, #352]                  // 8-byte Spill
	mov	w8, #46                         // =0x2e
	mov	w5, #11776                      // =0x2e00
	str	w8, [sp, #404]                  // 4-byte Spill
	mov	x8, #12947848928690176          // =0x2e000000000000
	mov	w12, #771751936                 // =0x2e000000
	str	x8, [sp, #392]                  // 8-byte Spill
	mov	w8, #3014656                    // =0x2e0000
	mov	w17, #771751936                 // =0x2e000000
	str	x8, [sp, #368]                  // 8-byte Spill
	mov	w8, #11776                      // =0x2e00
	mov	w9, #11776                      // =0x2e00
	str	x8, [sp, #72]                   // 8-byte Spill
	mov	x8, #3314649325744685056        // =0x2e00000000000000
	mov	x7, #3314649325744685056        // =0x2e00000000000000
	str	x8, [sp, #80]                   // 8-byte Spill
	mov	x8, #50577534877696             // =0x2e0000000000
	mov	x13, #50577534877696            // =0x2e0000000000
	str	x8, [sp, #88]                   // 8-byte Spill
	mov	w8, #771751936                  // =0x2e000000
	mov	w0, #771751936                  // =0x2e000000
	str	x8, [sp, #96]                   // 8-byte Spill
	mov	w8, #11776                      // =0x2e00
	str	x8, [sp, #104]                  // 8-byte Spill
	mov	x8, #3314649325744685056        // =0x2e00000000000000
	str	x8, [sp, #120]                  // 8-byte Spill
	mov	x8, #50577534877696             // =0x2e0000000000
	str	x8, [sp, #128]                  // 8-byte Spill
	mov	w8, #771751936                  // =0x2e000000
	str	x8, [sp, #136]                  // 8-byte Spill
	mov	w8, #11776                      // =0x2e00
	str	x8, [sp, #144]                  // 8-byte Spill
	mov	x8, #3314649325744685056        // =0x2e00000000000000
	str	x8, [sp, #152]                  // 8-byte Spill
	mov	x8, #50577534877696             // =0x2e0000000000
	str	x8, [sp, #168]                  // 8-byte Spill
	mov	w8, #771751936                  // =0x2e000000
	str	x8, [sp, #176]                  // 8-byte Spill
	mov	w8, #11776                      // =0x2e00
	str	x8, [sp, #192]                  // 8-byte Spill
	mov	x8, #3314649325744685056        // =0x2e00000000000000
	str	x8, [sp, #200]                  // 8-byte Spill
	mov	x8, #50577534877696             // =0x2e0000000000
	str	x8, [sp, #208]                  // 8-byte Spill
	mov	w8, #771751936                  // =0x2e000000
	str	x8, [sp, #216]                  // 8-byte Spill
	mov	w8, #11776                      // =0x2e00
	str	x8, [sp, #224]                  // 8-byte Spill
	mov	x8, #3314649325744685056        // =0x2e00000000000000
	str	x8, [sp, #240]                  // 8-byte Spill
	mov	x8, #50577534877696             // =0x2e0000000000
	str	x8, [sp, #256]                  // 8-byte Spill
	mov	w8, #771751936                  // =0x2e000000
	str	x8, [sp, #264]                  // 8-byte Spill
	mov	w8, #11776                      // =0x2e00
	str	x8, [sp, #280]                  // 8-byte Spill
	mov	x8, #3314649325744685056        // =0x2e00000000000000
	str	x8, [sp, #296]                  // 8-byte Spill
	mov	x8, #50577534877696             // =0x2e0000000000
	str	x8, [sp, #304]                  // 8-byte Spill
	mov	w8, #771751936                  // =0x2e000000
	str	x8, [sp, #312]                  // 8-byte Spill
	mov	w8, #11776                      // =0x2e00
	str	x8, [sp, #328]                  // 8-byte Spill
	mov	x8, #3314649325744685056        // =0x2e00000000000000
	str	x8, [sp, #344]                  // 8-byte Spill
	mov	x8, #50577534877696             // =0x2e0000000000
	str	x8, [sp, #360]                  // 8-byte Spill
	b	.LBB1_10
.LBB1_42:
	mov	w8, #46                         // =0x2e
	mov	x18, #50577534877696            // =0x2e0000000000
	mov	x15, #3314649325744685056       // =0x2e00000000000000
	str	w8, [sp, #404]                  // 4-byte Spill
	mov	x8, #12947848928690176          // =0x2e000000000000
	mov	w5, #11776                      // =0x2e00
	str	x8, [sp, #392]                  // 8-byte Spill
	mov	x8, #197568495616               // =0x2e00000000
	mov	w12, #771751936                 // =0x2e000000
	str	x8, [sp, #408]                  // 8-byte Spill
	mov	w8, #3014656                    // =0x2e0000
	mov	w17, #771751936                 // =0x2e000000
	str	x8, [sp, #368]                  // 8-byte Spill
	mov	w8, #11776                      // =0x2e00
	mov	w9, #11776                      // =0x2e00
	str	x8, [sp, #72]                   // 8-byte Spill
	mov	x8, #3314649325744685056        // =0x2e00000000000000
	mov	x7, #3314649325744685056        // =0x2e00000000000000
	str	x8, [sp, #80]                   // 8-byte Spill
	mov	x8, #50577534877696             // =0x2e0000000000
	mov	x13, #50577534877696            // =0x2e0000000000
	str	x8, [sp, #88]                   // 8-byte Spill
	mov	w8, #771751936                  // =0x2e000000
	mov	w0, #771751936                  // =0x2e000000
	str	x8, [sp, #96]                   // 8-byte Spill
	mov	w8, #11776                      // =0x2e00
	str	x8, [sp, #104]                  // 8-byte Spill
	mov	x8, #3314649325744685056        // =0x2e00000000000000
	str	x8, [sp, #120]                  // 8-byte Spill
	mov	x8, #50577534877696             // =0x2e0000000000
	str	x8, [sp, #128]                  // 8-byte Spill
	mov	w8, #771751936                  // =0x2e000000
	str	x8, [sp, #136]                  // 8-byte Spill
	mov	w8, #11776                      // =0x2e00
	str	x8, [sp, #144]                  // 8-byte Spill
	mov	x8, #3314649325744685056        // =0x2e00000000000000
	str	x8, [sp, #152]                  // 8-byte Spill
	mov	x8, #50577534877696             // =0x2e0000000000
	str	x8, [sp, #168]                  // 8-byte Spill
	mov	w8, #771751936                  // =0x2e000000
	str	x8, [sp, #176]                  // 8-byte Spill
	mov	w8, #11776                      // =0x2e00
	str	x8, [sp, #192]                  // 8-byte Spill
	mov	x8, #3314649325744685056        // =0x2e00000000000000
	str	x8, [sp, #200]                  // 8-byte Spill
	mov	x8, #50577534877696             // =0x2e0000000000
	str	x8, [sp, #208]                  // 8-byte Spill
	mov	w8, #771751936                  // =0x2e000000
	str	x8, [sp, #216]                  // 8-byte Spill
	mov	w8, #11776                      // =0x2e00
	str	x8, [sp, #224]                  // 8-byte Spill
	mov	x8, #3314649325744685056        // =0x2e00000000000000
	str	x8, [sp, #240]                  // 8-byte Spill
	mov	x8, #50577534877696             // =0x2e0000000000
	str	x8, [sp, #256]                  // 8-byte Spill
	mov	w8, #771751936                  // =0x2e000000
	str	x8, [sp, #264]                  // 8-byte Spill
	mov	w8, #11776                      // =0x2e00
	str	x8, [sp, #280]                  // 8-byte Spill
	mov	x8, #3314649325744685056        // =0x2e00000000000000
	str	x8, [sp, #296]                  // 8-byte Spill
	mov	x8, #50577534877696             // =0x2e0000000000
	str	x8, [sp, #304]                  // 8-byte Spill
	mov	w8, #771751936                  // =0x2e000000
	str	x8, [sp, #312]                  // 8-byte Spill
	mov	w8, #11776                      // =0x2e00
	str	x8, [sp, #328]                  // 8-byte Spill
	mov	x8, #3314649325744685056        // =0x2e00000000000000
	str	x8, [sp, #344]                  // 8-byte Spill
	mov	x8, #50577534877696             // =0x2e0000000000
	str	x8, [sp, #360]                  // 8-byte Spill
	b	.LBB1_9
.LBB1_43:                               // %"std_io::io::error::byte_or_dot.exit37.i"
	ldrb	w8, [x3, #5]
	cmp	x4, #7
	lsl	x8, x8, #40
	str	x8, [sp, #360]                  // 8-byte Spill
	b.lo	.LBB1_46
// %bb.44:                              // %"std_io::io::error::byte_or_dot.exit43.i"
	ldrb	w8, [x3, #6]
	cmp	x4, #7
	lsl	x8, x8, #48
	str	x8, [sp, #392]                  // 8-byte Spill
	b.ne	.LBB1_47
// %bb.45:
	mov	x8, #12947848928690176          // =0x2e000000000000
	mov	x18, #50577534877696            // =0x2e0000000000
	mov	x15, #3314649325744685056       // =0x2e00000000000000
	str	x8, [sp, #336]                  // 8-byte Spill
	mov	x8, #197568495616               // =0x2e00000000
	mov	w5, #11776                      // =0x2e00
	str	x8, [sp, #352]                  // 8-byte Spill
	mov	w8, #46                         // =0x2e
	mov	w12, #771751936                 // =0x2e000000
	str	w8, [sp, #404]                  // 4-byte Spill
	mov	w8, #3014656                    // =0x2e0000
	mov	w17, #771751936                 // =0x2e000000
	str	x8, [sp, #368]                  // 8-byte Spill
	mov	w8, #11776                      // =0x2e00
	mov	w9, #11776                      // =0x2e00
	str	x8, [sp, #72]                   // 8-byte Spill
	mov	x8, #3314649325744685056        // =0x2e00000000000000
	mov	x7, #3314649325744685056        // =0x2e00000000000000
	str	x8, [sp, #80]                   // 8-byte Spill
	mov	x8, #50577534877696             // =0x2e0000000000
	mov	x13, #50577534877696            // =0x2e0000000000
	str	x8, [sp, #88]                   // 8-byte Spill
	mov	w8, #771751936                  // =0x2e000000
	mov	w0, #771751936                  // =0x2e000000
	str	x8, [sp, #96]                   // 8-byte Spill
	mov	w8, #11776                      // =0x2e00
	str	x8, [sp, #104]                  // 8-byte Spill
	mov	x8, #3314649325744685056        // =0x2e00000000000000
	str	x8, [sp, #120]                  // 8-byte Spill
	mov	x8, #50577534877696             // =0x2e0000000000
	str	x8, [sp, #128]                  // 8-byte Spill
	mov	w8, #771751936                  // =0x2e000000
	str	x8, [sp, #136]                  // 8-byte Spill
	mov	w8, #11776                      // =0x2e00
	str	x8, [sp, #144]                  // 8-byte Spill
	mov	x8, #3314649325744685056        // =0x2e00000000000000
	str	x8, [sp, #152]                  // 8-byte Spill
	mov	x8, #50577534877696             // =0x2e0000000000
	str	x8, [sp, #168]                  // 8-byte Spill
	mov	w8, #771751936                  // =0x2e000000
	str	x8, [sp, #176]                  // 8-byte Spill
	mov	w8, #11776                      // =0x2e00
	str	x8, [sp, #192]                  // 8-byte Spill
	mov	x8, #3314649325744685056        // =0x2e00000000000000
	str	x8, [sp, #200]                  // 8-byte Spill
	mov	x8, #50577534877696             // =0x2e0000000000
	str	x8, [sp, #208]                  // 8-byte Spill
	mov	w8, #771751936                  // =0x2e000000
	str	x8, [sp, #216]                  // 8-byte Spill
	mov	w8, #11776                      // =0x2e00
	str	x8, [sp, #224]                  // 8-byte Spill
	mov	x8, #3314649325744685056        // =0x2e00000000000000
	str	x8, [sp, #240]                  // 8-byte Spill
	mov	x8, #50577534877696             // =0x2e0000000000
	str	x8, [sp, #256]                  // 8-byte Spill
	mov	w8, #771751936                  // =0x2e000000
	str	x8, [sp, #264]                  // 8-byte Spill
	mov	w8, #11776                      // =0x2e00
	str	x8, [sp, #280]                  // 8-byte Spill
	mov	x8, #3314649325744685056        // =0x2e00000000000000
	str	x8, [sp, #296]                  // 8-byte Spill
	mov	x8, #50577534877696             // =0x2e0000000000
	str	x8, [sp, #304]                  // 8-byte Spill
	mov	w8, #771751936                  // =0x2e000000
	str	x8, [sp, #312]                  // 8-byte Spill
	mov	w8, #11776                      // =0x2e00
	str	x8, [sp, #328]                  // 8-byte Spill
	mov	x8, #3314649325744685056        // =0x2e00000000000000
	str	x8, [sp, #344]                  // 8-byte Spill
	b	.LBB1_11
.LBB1_46:
	mov	x8, #197568495616               // =0x2e00000000
	mov	x18, #50577534877696            // =0x2e0000000000
	mov	x15, #3314649325744685056       // =0x2e00000000000000
	str	x8, [sp, #352]                  // 8-byte Spill
	mov	w8, #46                         // =0x2e
	mov	w5, #11776                      // =0x2e00
	str	w8, [sp, #404]                  // 4-byte Spill
	mov	x8, #12947848928690176          // =0x2e000000000000
	mov	w12, #771751936                 // =0x2e000000
	str	x8, [sp, #392]                  // 8-byte Spill
	mov	w8, #3014656                    // =0x2e0000
	mov	w17, #771751936                 // =0x2e000000
	str	x8, [sp, #368]                  // 8-byte Spill
	mov	w8, #11776                      // =0x2e00
	mov	w9, #11776                      // =0x2e00
	str	x8, [sp, #72]                   // 8-byte Spill
	mov	x8, #3314649325744685056        // =0x2e00000000000000
	mov	x7, #3314649325744685056        // =0x2e00000000000000
	str	x8, [sp, #80]                   // 8-byte Spill
	mov	x8, #50577534877696             // =0x2e0000000000
	mov	x13, #50577534877696            // =0x2e0000000000
	str	x8, [sp, #88]                   // 8-byte Spill
	mov	w8, #771751936                  // =0x2e000000
	mov	w0, #771751936                  // =0x2e000000
	str	x8, [sp, #96]                   // 8-byte Spill
	mov	w8, #11776                      // =0x2e00
	str	x8, [sp, #104]                  // 8-byte Spill
	mov	x8, #3314649325744685056        // =0x2e00000000000000
	str	x8, [sp, #120]                  // 8-byte Spill
	mov	x8, #50577534877696             // =0x2e0000000000
	str	x8, [sp, #128]                  // 8-byte Spill
	mov	w8, #771751936                  // =0x2e000000
	str	x8, [sp, #136]                  // 8-byte Spill
	mov	w8, #11776                      // =0x2e00
	str	x8, [sp, #144]                  // 8-byte Spill
	mov	x8, #3314649325744685056        // =0x2e00000000000000
	str	x8, [sp, #152]                  // 8-byte Spill
	mov	x8, #50577534877696             // =0x2e0000000000
	str	x8, [sp, #168]                  // 8-byte Spill
	mov	w8, #771751936                  // =0x2e000000
	str	x8, [sp, #176]                  // 8-byte Spill
	mov	w8, #11776                      // =0x2e00
	str	x8, [sp, #192]                  // 8-byte Spill
	mov	x8, #3314649325744685056        // =0x2e00000000000000
	str	x8, [sp, #200]                  // 8-byte Spill
	mov	x8, #50577534877696             // =0x2e0000000000
	str	x8, [sp, #208]                  // 8-byte Spill
	mov	w8, #771751936                  // =0x2e000000
	str	x8, [sp, #216]                  // 8-byte Spill
	mov	w8, #11776                      // =0x2e00
	str	x8, [sp, #224]                  // 8-byte Spill
	mov	x8, #3314649325744685056        // =0x2e00000000000000
	str	x8, [sp, #240]                  // 8-byte Spill
	mov	x8, #50577534877696             // =0x2e0000000000
	str	x8, [sp, #256]                  // 8-byte Spill
	mov	w8, #771751936                  // =0x2e000000
	str	x8, [sp, #264]                  // 8-byte Spill
	mov	w8, #11776                      // =0x2e00
	str	x8, [sp, #280]                  // 8-byte Spill
	mov	x8, #3314649325744685056        // =0x2e00000000000000
	str	x8, [sp, #296]                  // 8-byte Spill
	mov	x8, #50577534877696             // =0x2e0000000000
	str	x8, [sp, #304]                  // 8-byte Spill
	mov	w8, #771751936                  // =0x2e000000
	str	x8, [sp, #312]                  // 8-byte Spill
	mov	w8, #11776                      // =0x2e00
	str	x8, [sp, #328]                  // 8-byte Spill
	mov	x8, #3314649325744685056        // =0x2e00000000000000
	str	x8, [sp, #344]                  // 8-byte Spill
	b	.LBB1_10
.LBB1_47:                               // %"std_io::io::error::pack.exit"
	ldrb	w8, [x3, #7]
	cmp	x4, #9
	lsl	x8, x8, #56
	str	x8, [sp, #344]                  // 8-byte Spill
	b.lo	.LBB1_50
// %bb.48:                              // %"std_io::io::error::byte_or_dot.exit.i12"
	ldrb	w8, [x3, #8]
	cmp	x4, #9
	str	w8, [sp, #404]                  // 4-byte Spill
	b.ne	.LBB1_51
// %bb.49:
	mov	w8, #46                         // =0x2e
	mov	x18, #50577534877696            // =0x2e0000000000
	mov	x15, #3314649325744685056       // =0x2e00000000000000
	str	w8, [sp, #324]                  // 4-byte Spill
	mov	x8, #12947848928690176          // =0x2e000000000000
	mov	w5, #11776                      // =0x2e00
	str	x8, [sp, #336]                  // 8-byte Spill
	mov	x8, #197568495616               // =0x2e00000000
	mov	w12, #771751936                 // =0x2e000000
	str	x8, [sp, #352]                  // 8-byte Spill
	mov	w8, #3014656                    // =0x2e0000
	mov	w17, #771751936                 // =0x2e000000
	str	x8, [sp, #368]                  // 8-byte Spill
	mov	w8, #11776                      // =0x2e00
	mov	w9, #11776                      // =0x2e00
	str	x8, [sp, #72]                   // 8-byte Spill
	mov	x8, #3314649325744685056        // =0x2e00000000000000
	mov	x7, #3314649325744685056        // =0x2e00000000000000
	str	x8, [sp, #80]                   // 8-byte Spill
	mov	x8, #50577534877696             // =0x2e0000000000
	mov	x13, #50577534877696            // =0x2e0000000000
	str	x8, [sp, #88]                   // 8-byte Spill
	mov	w8, #771751936                  // =0x2e000000
	mov	w0, #771751936                  // =0x2e000000
	str	x8, [sp, #96]                   // 8-byte Spill
	mov	w8, #11776                      // =0x2e00
	str	x8, [sp, #104]                  // 8-byte Spill
	mov	x8, #3314649325744685056        // =0x2e00000000000000
	str	x8, [sp, #120]                  // 8-byte Spill
	mov	x8, #50577534877696             // =0x2e0000000000
	str	x8, [sp, #128]                  // 8-byte Spill
	mov	w8, #771751936                  // =0x2e000000
	str	x8, [sp, #136]                  // 8-byte Spill
	mov	w8, #11776                      // =0x2e00
	str	x8, [sp, #144]                  // 8-byte Spill
	mov	x8, #3314649325744685056        // =0x2e00000000000000
	str	x8, [sp, #152]                  // 8-byte Spill
	mov	x8, #50577534877696             // =0x2e0000000000
	str	x8, [sp, #168]                  // 8-byte Spill
	mov	w8, #771751936                  // =0x2e000000
	str	x8, [sp, #176]                  // 8-byte Spill
	mov	w8, #11776                      // =0x2e00
	str	x8, [sp, #192]                  // 8-byte Spill
	mov	x8, #3314649325744685056        // =0x2e00000000000000
	str	x8, [sp, #200]                  // 8-byte Spill
	mov	x8, #50577534877696             // =0x2e0000000000
	str	x8, [sp, #208]                  // 8-byte Spill
	mov	w8, #771751936                  // =0x2e000000
	str	x8, [sp, #216]                  // 8-byte Spill
	mov	w8, #11776                      // =0x2e00
	str	x8, [sp, #224]                  // 8-byte Spill
	mov	x8, #3314649325744685056        // =0x2e00000000000000
	str	x8, [sp, #240]                  // 8-byte Spill
	mov	x8, #50577534877696             // =0x2e0000000000
	str	x8, [sp, #256]                  // 8-byte Spill
	mov	w8, #771751936                  // =0x2e000000
	str	x8, [sp, #264]                  // 8-byte Spill
	mov	w8, #11776                      // =0x2e00
	str	x8, [sp, #280]                  // 8-byte Spill
	mov	x8, #3314649325744685056        // =0x2e00000000000000
	str	x8, [sp, #296]                  // 8-byte Spill
	mov	x8, #50577534877696             // =0x2e0000000000
	str	x8, [sp, #304]                  // 8-byte Spill
	mov	w8, #771751936                  // =0x2e000000
	str	x8, [sp, #312]                  // 8-byte Spill
	mov	w8, #11776                      // =0x2e00
	str	x8, [sp, #328]                  // 8-byte Spill
	b	.LBB1_12
.LBB1_50:
	mov	x8, #12947848928690176          // =0x2e000000000000
	mov	x18, #50577534877696            // =0x2e0000000000
	mov	x15, #3314649325744685056       // =0x2e00000000000000
	str	x8, [sp, #336]                  // 8-byte Spill
	mov	x8, #197568495616               // =0x2e00000000
	mov	w5, #11776                      // =0x2e00
	str	x8, [sp, #352]                  // 8-byte Spill
	mov	w8, #46                         // =0x2e
	mov	w12, #771751936                 // =0x2e000000
	str	w8, [sp, #404]                  // 4-byte Spill
	mov	w8, #3014656                    // =0x2e0000
	mov	w17, #771751936                 // =0x2e000000
	str	x8, [sp, #368]                  // 8-byte Spill
	mov	w8, #11776                      // =0x2e00
	mov	w9, #11776                      // =0x2e00
	str	x8, [sp, #72]                   // 8-byte Spill
	mov	x8, #3314649325744685056        // =0x2e00000000000000
	mov	x7, #3314649325744685056        // =0x2e00000000000000
	str	x8, [sp, #80]                   // 8-byte Spill
	mov	x8, #50577534877696             // =0x2e0000000000
	mov	x13, #50577534877696            // =0x2e0000000000
	str	x8, [sp, #88]                   // 8-byte Spill
	mov	w8, #771751936                  // =0x2e000000
	mov	w0, #771751936                  // =0x2e000000
	str	x8, [sp, #96]                   // 8-byte Spill
	mov	w8, #11776                      // =0x2e00
	str	x8, [sp, #104]                  // 8-byte Spill
	mov	x8, #3314649325744685056        // =0x2e00000000000000
	str	x8, [sp, #120]                  // 8-byte Spill
	mov	x8, #50577534877696             // =0x2e0000000000
	str	x8, [sp, #128]                  // 8-byte Spill
	mov	w8, #771751936                  // =0x2e000000
	str	x8, [sp, #136]                  // 8-byte Spill
	mov	w8, #11776                      // =0x2e00
	str	x8, [sp, #144]                  // 8-byte Spill
	mov	x8, #3314649325744685056        // =0x2e00000000000000
	str	x8, [sp, #152]                  // 8-byte Spill
	mov	x8, #50577534877696             // =0x2e0000000000
	str	x8, [sp, #168]                  // 8-byte Spill
	mov	w8, #771751936                  // =0x2e000000
	str	x8, [sp, #176]                  // 8-byte Spill
	mov	w8, #11776                      // =0x2e00
	str	x8, [sp, #192]                  // 8-byte Spill
	mov	x8, #3314649325744685056        // =0x2e00000000000000
	str	x8, [sp, #200]                  // 8-byte Spill
	mov	x8, #50577534877696             // =0x2e0000000000
	str	x8, [sp, #208]                  // 8-byte Spill
	mov	w8, #771751936                  // =0x2e000000
	str	x8, [sp, #216]                  // 8-byte Spill
	mov	w8, #11776                      // =0x2e00
	str	x8, [sp, #224]                  // 8-byte Spill
	mov	x8, #3314649325744685056        // =0x2e00000000000000
	str	x8, [sp, #240]                  // 8-byte Spill
	mov	x8, #50577534877696             // =0x2e0000000000
	str	x8, [sp, #256]                  // 8-byte Spill
	mov	w8, #771751936                  // =0x2e000000
	str	x8, [sp, #264]                  // 8-byte Spill
	mov	w8, #11776                      // =0x2e00
	str	x8, [sp, #280]                  // 8-byte Spill
	mov	x8, #3314649325744685056        // =0x2e00000000000000
	str	x8, [sp, #296]                  // 8-byte Spill
	mov	x8, #50577534877696             // =0x2e0000000000
	str	x8, [sp, #304]                  // 8-byte Spill
	mov	w8, #771751936                  // =0x2e000000
	str	x8, [sp, #312]                  // 8-byte Spill
	mov	w8, #11776                      // =0x2e00
	str	x8, [sp, #328]                  // 8-byte Spill
	b	.LBB1_11
.LBB1_51:                               // %"std_io::io::error::byte_or_dot.exit13.i15"
	ldrb	w8, [x3, #9]
	cmp	x4, #11
	lsl	x8, x8, #8
	str	x8, [sp, #328]                  // 8-byte Spill
	b.lo	.LBB1_54
// %bb.52:                              // %"std_io::io::error::byte_or_dot.exit19.i18"
	ldrb	w8, [x3, #10]
	cmp	x4, #11
	lsl	x8, x8, #16
	str	x8, [sp, #368]                  // 8-byte Spill
	b.ne	.LBB1_55
// %bb.53:
	mov	w8, #46                         // =0x2e
	mov	x18, #50577534877696            // =0x2e0000000000
	mov	x15, #3314649325744685056       // =0x2e00000000000000
	str	w8, [sp, #324]                  // 4-byte Spill
	mov	x8, #12947848928690176          // =0x2e000000000000
	mov	w5, #11776                      // =0x2e00
	str	x8, [sp, #336]                  // 8-byte Spill
	mov	x8, #197568495616               // =0x2e00000000
	mov	w12, #771751936                 // =0x2e000000
	str	x8, [sp, #352]                  // 8-byte Spill
	mov	w8, #3014656                    // =0x2e0000
	mov	w17, #771751936                 // =0x2e000000
	str	x8, [sp, #288]                  // 8-byte Spill
	mov	w8, #11776                      // =0x2e00
	mov	w9, #11776                      // =0x2e00
	str	x8, [sp, #72]                   // 8-byte Spill
	mov	x8, #3314649325744685056        // =0x2e00000000000000
	mov	x7, #3314649325744685056        // =0x2e00000000000000
	str	x8, [sp, #80]                   // 8-byte Spill
	mov	x8, #50577534877696             // =0x2e0000000000
	mov	x13, #50577534877696            // =0x2e0000000000
	str	x8, [sp, #88]                   // 8-byte Spill
	mov	w8, #771751936                  // =0x2e000000
	mov	w0, #771751936                  // =0x2e000000
	str	x8, [sp, #96]                   // 8-byte Spill
	mov	w8, #11776                      // =0x2e00
	str	x8, [sp, #104]                  // 8-byte Spill
	mov	x8, #3314649325744685056        // =0x2e00000000000000
	str	x8, [sp, #120]                  // 8-byte Spill
	mov	x8, #50577534877696             // =0x2e0000000000
	str	x8, [sp, #128]                  // 8-byte Spill
	mov	w8, #771751936                  // =0x2e000000
	str	x8, [sp, #136]                  // 8-byte Spill
	mov	w8, #11776                      // =0x2e00
	str	x8, [sp, #144]                  // 8-byte Spill
	mov	x8, #3314649325744685056        // =0x2e00000000000000
	str	x8, [sp, #152]                  // 8-byte Spill
	mov	x8, #50577534877696             // =0x2e0000000000
	str	x8, [sp, #168]                  // 8-byte Spill
	mov	w8, #771751936                  // =0x2e000000
	str	x8, [sp, #176]                  // 8-byte Spill
	mov	w8, #11776                      // =0x2e00
	str	x8, [sp, #192]                  // 8-byte Spill
	mov	x8, #3314649325744685056        // =0x2e00000000000000
	str	x8, [sp, #200]                  // 8-byte Spill
	mov	x8, #50577534877696             // =0x2e0000000000
	str	x8, [sp, #208]                  // 8-byte Spill
	mov	w8, #771751936                  // =0x2e000000
	str	x8, [sp, #216]                  // 8-byte Spill
	mov	w8, #11776                      // =0x2e00
	str	x8, [sp, #224]                  // 8-byte Spill
	mov	x8, #3314649325744685056        // =0x2e00000000000000
	str	x8, [sp, #240]                  // 8-byte Spill
	mov	x8, #50577534877696             // =0x2e0000000000
	str	x8, [sp, #256]                  // 8-byte Spill
	mov	w8, #771751936                  // =0x2e000000
	str	x8, [sp, #264]                  // 8-byte Spill
	mov	w8, #11776                      // =0x2e00
	str	x8, [sp, #280]                  // 8-byte Spill
	mov	x8, #3314649325744685056        // =0x2e00000000000000
	str	x8, [sp, #296]                  // 8-byte Spill
	mov	x8, #50577534877696             // =0x2e0000000000
	str	x8, [sp, #304]                  // 8-byte Spill
	mov	w8, #771751936                  // =0x2e000000
	str	x8, [sp, #312]                  // 8-byte Spill
	b	.LBB1_13
.LBB1_54:
	mov	w8, #46                         // =0x2e
	mov	x18, #50577534877696            // =0x2e0000000000
	mov	x15, #3314649325744685056       // =0x2e00000000000000
	str	w8, [sp, #324]                  // 4-byte Spill
	mov	x8, #12947848928690176          // =0x2e000000000000
	mov	w5, #11776                      // =0x2e00
	str	x8, [sp, #336]                  // 8-byte Spill
	mov	x8, #197568495616               // =0x2e00000000
	mov	w12, #771751936                 // =0x2e000000
	str	x8, [sp, #352]                  // 8-byte Spill
	mov	w8, #3014656                    // =0x2e0000
	mov	w17, #771751936                 // =0x2e000000
	str	x8, [sp, #368]                  // 8-byte Spill
	mov	w8, #11776                      // =0x2e00
	mov	w9, #11776                      // =0x2e00
	str	x8, [sp, #72]                   // 8-byte Spill
	mov	x8, #3314649325744685056        // =0x2e00000000000000
	mov	x7, #3314649325744685056        // =0x2e00000000000000
	str	x8, [sp, #80]                   // 8-byte Spill
	mov	x8, #50577534877696             // =0x2e0000000000
	mov	x13, #50577534877696            // =0x2e0000000000
	str	x8, [sp, #88]                   // 8-byte Spill
	mov	w8, #771751936                  // =0x2e000000
	mov	w0, #771751936                  // =0x2e000000
	str	x8, [sp, #96]                   // 8-byte Spill
	mov	w8, #11776                      // =0x2e00
	str	x8, [sp, #104]                  // 8-byte Spill
	mov	x8, #3314649325744685056        // =0x2e00000000000000
	str	x8, [sp, #120]                  // 8-byte Spill
	mov	x8, #50577534877696             // =0x2e0000000000
	str	x8, [sp, #128]                  // 8-byte Spill
	mov	w8, #771751936                  // =0x2e000000
	str	x8, [sp, #136]                  // 8-byte Spill
	mov	w8, #11776                      // =0x2e00
	str	x8, [sp, #144]                  // 8-byte Spill
	mov	x8, #3314649325744685056        // =0x2e00000000000000
	str	x8, [sp, #152]                  // 8-byte Spill
	mov	x8, #50577534877696             // =0x2e0000000000
	str	x8, [sp, #168]                  // 8-byte Spill
	mov	w8, #771751936                  // =0x2e000000
	str	x8, [sp, #176]                  // 8-byte Spill
	mov	w8, #11776                      // =0x2e00
	str	x8, [sp, #192]                  // 8-byte Spill
	mov	x8, #3314649325744685056        // =0x2e00000000000000
	str	x8, [sp, #200]                  // 8-byte Spill
	mov	x8, #50577534877696             // =0x2e0000000000
	str	x8, [sp, #208]                  // 8-byte Spill
	mov	w8, #771751936                  // =0x2e000000
	str	x8, [sp, #216]                  // 8-byte Spill
	mov	w8, #11776                      // =0x2e00
	str	x8, [sp, #224]                  // 8-byte Spill
	mov	x8, #3314649325744685056        // =0x2e00000000000000
	str	x8, [sp, #240]                  // 8-byte Spill
	mov	x8, #50577534877696             // =0x2e0000000000
	str	x8, [sp, #256]                  // 8-byte Spill
	mov	w8, #771751936                  // =0x2e000000
	str	x8, [sp, #264]                  // 8-byte Spill
	mov	w8, #11776                      // =0x2e00
	str	x8, [sp, #280]                  // 8-byte Spill
	mov	x8, #3314649325744685056        // =0x2e00000000000000
	str	x8, [sp, #296]                  // 8-byte Spill
	mov	x8, #50577534877696             // =0x2e0000000000
	str	x8, [sp, #304]                  // 8-byte Spill
	mov	w8, #771751936                  // =0x2e000000
	str	x8, [sp, #312]                  // 8-byte Spill
	b	.LBB1_12
.LBB1_55:                               // %"std_io::io::error::byte_or_dot.exit25.i21"
	ldrb	w8, [x3, #11]
	cmp	x4, #13
	lsl	x8, x8, #24
	str	x8, [sp, #312]                  // 8-byte Spill
	b.lo	.LBB1_58
// %bb.56:                              // %"std_io::io::error::byte_or_dot.exit31.i24"
	ldrb	w8, [x3, #12]
	cmp	x4, #13
	lsl	x8, x8, #32
	str	x8, [sp, #352]                  // 8-byte Spill
	b.ne	.LBB1_59
// %bb.57:
	mov	x8, #197568495616               // =0x2e00000000
	mov	x18, #50577534877696            // =0x2e0000000000
	mov	x15, #3314649325744685056       // =0x2e00000000000000
	str	x8, [sp, #272]                  // 8-byte Spill
	mov	w8, #46                         // =0x2e
	mov	w5, #11776                      // =0x2e00
	str	w8, [sp, #324]                  // 4-byte Spill
	mov	x8, #12947848928690176          // =0x2e000000000000
	mov	w12, #771751936                 // =0x2e000000
	str	x8, [sp, #336]                  // 8-byte Spill
	mov	w8, #3014656                    // =0x2e0000
	mov	w17, #771751936                 // =0x2e000000
	str	x8, [sp, #288]                  // 8-byte Spill
	mov	w8, #11776                      // =0x2e00
	mov	w9, #11776                      // =0x2e00
	str	x8, [sp, #72]                   // 8-byte Spill
	mov	x8, #3314649325744685056        // =0x2e00000000000000
	mov	x7, #3314649325744685056        // =0x2e00000000000000
	str	x8, [sp, #80]                   // 8-byte Spill
	mov	x8, #50577534877696             // =0x2e0000000000
	mov	x13, #50577534877696            // =0x2e0000000000
	str	x8, [sp, #88]                   // 8-byte Spill
	mov	w8, #771751936                  // =0x2e000000
	mov	w0, #771751936                  // =0x2e000000
	str	x8, [sp, #96]                   // 8-byte Spill
	mov	w8, #11776                      // =0x2e00
	str	x8, [sp, #104]                  // 8-byte Spill
	mov	x8, #3314649325744685056        // =0x2e00000000000000
	str	x8, [sp, #120]                  // 8-byte Spill
	mov	x8, #50577534877696             // =0x2e0000000000
	str	x8, [sp, #128]                  // 8-byte Spill
	mov	w8, #771751936                  // =0x2e000000
	str	x8, [sp, #136]                  // 8-byte Spill
	mov	w8, #11776                      // =0x2e00
	str	x8, [sp, #144]                  // 8-byte Spill
	mov	x8, #3314649325744685056        // =0x2e00000000000000
	str	x8, [sp, #152]                  // 8-byte Spill
	mov	x8, #50577534877696             // =0x2e0000000000
	str	x8, [sp, #168]                  // 8-byte Spill
	mov	w8, #771751936                  // =0x2e000000
	str	x8, [sp, #176]                  // 8-byte Spill
	mov	w8, #11776                      // =0x2e00
	str	x8, [sp, #192]                  // 8-byte Spill
	mov	x8, #3314649325744685056        // =0x2e00000000000000
	str	x8, [sp, #200]                  // 8-byte Spill
	mov	x8, #50577534877696             // =0x2e0000000000
	str	x8, [sp, #208]                  // 8-byte Spill
	mov	w8, #771751936                  // =0x2e000000
	str	x8, [sp, #216]                  // 8-byte Spill
	mov	w8, #11776                      // =0x2e00
	str	x8, [sp, #224]                  // 8-byte Spill
	mov	x8, #3314649325744685056        // =0x2e00000000000000
	str	x8, [sp, #240]                  // 8-byte Spill
	mov	x8, #50577534877696             // =0x2e0000000000
	str	x8, [sp, #256]                  // 8-byte Spill
	mov	w8, #771751936                  // =0x2e000000
	str	x8, [sp, #264]                  // 8-byte Spill
	mov	w8, #11776                      // =0x2e00
	str	x8, [sp, #280]                  // 8-byte Spill
	mov	x8, #3314649325744685056        // =0x2e00000000000000
	str	x8, [sp, #296]                  // 8-byte Spill
	mov	x8, #50577534877696             // =0x2e0000000000
	str	x8, [sp, #304]                  // 8-byte Spill
	b	.LBB1_14
.LBB1_58:
	mov	w8, #46                         // =0x2e
	mov	x18, #50577534877696            // =0x2e0000000000
	mov	x15, #3314649325744685056       // =0x2e00000000000000
	str	w8, [sp, #324]                  // 4-byte Spill
	mov	x8, #12947848928690176          // =0x2e000000000000
	mov	w5, #11776                      // =0x2e00
	str	x8, [sp, #336]                  // 8-byte Spill
	mov	x8, #197568495616               // =0x2e00000000
	mov	w12, #771751936                 // =0x2e000000
	str	x8, [sp, #352]                  // 8-byte Spill
	mov	w8, #3014656                    // =0x2e0000
	mov	w17, #771751936                 // =0x2e000000
	str	x8, [sp, #288]                  // 8-byte Spill
	mov	w8, #11776                      // =0x2e00
	mov	w9, #11776                      // =0x2e00
	str	x8, [sp, #72]                   // 8-byte Spill
	mov	x8, #3314649325744685056        // =0x2e00000000000000
	mov	x7, #3314649325744685056        // =0x2e00000000000000
	str	x8, [sp, #80]                   // 8-byte Spill
	mov	x8, #50577534877696             // =0x2e0000000000
	mov	x13, #50577534877696            // =0x2e0000000000
	str	x8, [sp, #88]                   // 8-byte Spill
	mov	w8, #771751936                  // =0x2e000000
	mov	w0, #771751936                  // =0x2e000000
	str	x8, [sp, #96]                   // 8-byte Spill
	mov	w8, #11776                      // =0x2e00
	str	x8, [sp, #104]                  // 8-byte Spill
	mov	x8, #3314649325744685056        // =0x2e00000000000000
	str	x8, [sp, #120]                  // 8-byte Spill
	mov	x8, #50577534877696             // =0x2e0000000000
	str	x8, [sp, #128]                  // 8-byte Spill
	mov	w8, #771751936                  // =0x2e000000
	str	x8, [sp, #136]                  // 8-byte Spill
	mov	w8, #11776                      // =0x2e00
	str	x8, [sp, #144]                  // 8-byte Spill
	mov	x8, #3314649325744685056        // =0x2e00000000000000
	str	x8, [sp, #152]                  // 8-byte Spill
	mov	x8, #50577534877696             // =0x2e0000000000
	str	x8, [sp, #168]                  // 8-byte Spill
	mov	w8, #771751936                  // =0x2e000000
	str	x8, [sp, #176]                  // 8-byte Spill
	mov	w8, #11776                      // =0x2e00
	str	x8, [sp, #192]                  // 8-byte Spill
	mov	x8, #3314649325744685056        // =0x2e00000000000000
	str	x8, [sp, #200]                  // 8-byte Spill
	mov	x8, #50577534877696             // =0x2e0000000000
	str	x8, [sp, #208]                  // 8-byte Spill
	mov	w8, #771751936                  // =0x2e000000
	str	x8, [sp, #216]                  // 8-byte Spill
	mov	w8, #11776                      // =0x2e00
	str	x8, [sp, #224]                  // 8-byte Spill
	mov	x8, #3314649325744685056        // =0x2e00000000000000
	str	x8, [sp, #240]                  // 8-byte Spill
	mov	x8, #50577534877696             // =0x2e0000000000
	str	x8, [sp, #256]                  // 8-byte Spill
	mov	w8, #771751936                  // =0x2e000000
	str	x8, [sp, #264]                  // 8-byte Spill
	mov	w8, #11776                      // =0x2e00
	str	x8, [sp, #280]                  // 8-byte Spill
	mov	x8, #3314649325744685056        // =0x2e00000000000000
	str	x8, [sp, #296]                  // 8-byte Spill
	mov	x8, #50577534877696             // =0x2e0000000000
	str	x8, [sp, #304]                  // 8-byte Spill
	b	.LBB1_13
.LBB1_59:                               // %"std_io::io::error::byte_or_dot.exit37.i27"
	ldrb	w8, [x3, #13]
	cmp	x4, #15
	lsl	x8, x8, #40
	str	x8, [sp, #304]                  // 8-byte Spill
	b.lo	.LBB1_62
// %bb.60:                              // %"std_io::io::error::byte_or_dot.exit43.i30"
	ldrb	w8, [x3, #14]
	cmp	x4, #15
	lsl	x8, x8, #48
	str	x8, [sp, #336]                  // 8-byte Spill
	b.ne	.LBB1_63
// %bb.61:
	mov	x8, #12947848928690176          // =0x2e000000000000
	mov	x18, #50577534877696            // =0x2e0000000000
	mov	x15, #3314649325744685056       // =0x2e00000000000000
	str	x8, [sp, #248]                  // 8-byte Spill
	mov	x8, #197568495616               // =0x2e00000000
	mov	w5, #11776                      // =0x2e00
	str	x8, [sp, #272]                  // 8-byte Spill
	mov	w8, #46                         // =0x2e
	mov	w12, #771751936                 // =0x2e000000
	str	w8, [sp, #324]                  // 4-byte Spill
	mov	w8, #3014656                    // =0x2e0000
	mov	w17, #771751936                 // =0x2e000000
	str	x8, [sp, #288]                  // 8-byte Spill
	mov	w8, #11776                      // =0x2e00
	mov	w9, #11776                      // =0x2e00
	str	x8, [sp, #72]                   // 8-byte Spill
	mov	x8, #3314649325744685056        // =0x2e00000000000000
	mov	x7, #3314649325744685056        // =0x2e00000000000000
	str	x8, [sp, #80]                   // 8-byte Spill
	mov	x8, #50577534877696             // =0x2e0000000000
	mov	x13, #50577534877696            // =0x2e0000000000
	str	x8, [sp, #88]                   // 8-byte Spill
	mov	w8, #771751936                  // =0x2e000000
	mov	w0, #771751936                  // =0x2e000000
	str	x8, [sp, #96]                   // 8-byte Spill
	mov	w8, #11776                      // =0x2e00
	str	x8, [sp, #104]                  // 8-byte Spill
	mov	x8, #3314649325744685056        // =0x2e00000000000000
	str	x8, [sp, #120]                  // 8-byte Spill
	mov	x8, #50577534877696             // =0x2e0000000000
	str	x8, [sp, #128]                  // 8-byte Spill
	mov	w8, #771751936                  // =0x2e000000
	str	x8, [sp, #136]                  // 8-byte Spill
	mov	w8, #11776                      // =0x2e00
	str	x8, [sp, #144]                  // 8-byte Spill
	mov	x8, #3314649325744685056        // =0x2e00000000000000
	str	x8, [sp, #152]                  // 8-byte Spill
	mov	x8, #50577534877696             // =0x2e0000000000
	str	x8, [sp, #168]                  // 8-byte Spill
	mov	w8, #771751936                  // =0x2e000000
	str	x8, [sp, #176]                  // 8-byte Spill
	mov	w8, #11776                      // =0x2e00
	str	x8, [sp, #192]                  // 8-byte Spill
	mov	x8, #3314649325744685056        // =0x2e00000000000000
	str	x8, [sp, #200]                  // 8-byte Spill
	mov	x8, #50577534877696             // =0x2e0000000000
	str	x8, [sp, #208]                  // 8-byte Spill
	mov	w8, #771751936                  // =0x2e000000
	str	x8, [sp, #216]                  // 8-byte Spill
	mov	w8, #11776                      // =0x2e00
	str	x8, [sp, #224]                  // 8-byte Spill
	mov	x8, #3314649325744685056        // =0x2e00000000000000
	str	x8, [sp, #240]                  // 8-byte Spill
	mov	x8, #50577534877696             // =0x2e0000000000
	str	x8, [sp, #256]                  // 8-byte Spill
	mov	w8, #771751936                  // =0x2e000000
	str	x8, [sp, #264]                  // 8-byte Spill
	mov	w8, #11776                      // =0x2e00
	str	x8, [sp, #280]                  // 8-byte Spill
	mov	x8, #3314649325744685056        // =0x2e00000000000000
	str	x8, [sp, #296]                  // 8-byte Spill
	b	.LBB1_15
.LBB1_62:
	mov	x8, #197568495616               // =0x2e00000000
	mov	x18, #50577534877696            // =0x2e0000000000
	mov	x15, #3314649325744685056       // =0x2e00000000000000
	str	x8, [sp, #272]                  // 8-byte Spill
	mov	w8, #46                         // =0x2e
	mov	w5, #11776                      // =0x2e00
	str	w8, [sp, #324]                  // 4-byte Spill
	mov	x8, #12947848928690176          // =0x2e000000000000
	mov	w12, #771751936                 // =0x2e000000
	str	x8, [sp, #336]                  // 8-byte Spill
	mov	w8, #3014656                    // =0x2e0000
	mov	w17, #771751936                 // =0x2e000000
	str	x8, [sp, #288]                  // 8-byte Spill
	mov	w8, #11776                      // =0x2e00
	mov	w9, #11776                      // =0x2e00
	str	x8, [sp, #72]                   // 8-byte Spill
	mov	x8, #3314649325744685056        // =0x2e00000000000000
	mov	x7, #3314649325744685056        // =0x2e00000000000000
	str	x8, [sp, #80]                   // 8-byte Spill
	mov	x8, #50577534877696             // =0x2e0000000000
	mov	x13, #50577534877696            // =0x2e0000000000
	str	x8, [sp, #88]                   // 8-byte Spill
	mov	w8, #771751936                  // =0x2e000000
	mov	w0, #771751936                  // =0x2e000000
	str	x8, [sp, #96]                   // 8-byte Spill
	mov	w8, #11776                      // =0x2e00
	str	x8, [sp, #104]                  // 8-byte Spill
	mov	x8, #3314649325744685056        // =0x2e00000000000000
	str	x8, [sp, #120]                  // 8-byte Spill
	mov	x8, #50577534877696             // =0x2e0000000000
	str	x8, [sp, #128]                  // 8-byte Spill
	mov	w8, #771751936                  // =0x2e000000
	str	x8, [sp, #136]                  // 8-byte Spill
	mov	w8, #11776                      // =0x2e00
	str	x8, [sp, #144]                  // 8-byte Spill
	mov	x8, #3314649325744685056        // =0x2e00000000000000
	str	x8, [sp, #152]                  // 8-byte Spill
	mov	x8, #50577534877696             // =0x2e0000000000
	str	x8, [sp, #168]                  // 8-byte Spill
	mov	w8, #771751936                  // =0x2e000000
	str	x8, [sp, #176]                  // 8-byte Spill
	mov	w8, #11776                      // =0x2e00
	str	x8, [sp, #192]                  // 8-byte Spill
	mov	x8, #3314649325744685056        // =0x2e00000000000000
	str	x8, [sp, #200]                  // 8-byte Spill
	mov	x8, #50577534877696             // =0x2e0000000000
	str	x8, [sp, #208]                  // 8-byte Spill
	mov	w8, #771751936                  // =0x2e000000
	str	x8, [sp, #216]                  // 8-byte Spill
	mov	w8, #11776                      // =0x2e00
	str	x8, [sp, #224]                  // 8-byte Spill
	mov	x8, #3314649325744685056        // =0x2e00000000000000
	str	x8, [sp, #240]                  // 8-byte Spill
	mov	x8, #50577534877696             // =0x2e0000000000
	str	x8, [sp, #256]                  // 8-byte Spill
	mov	w8, #771751936                  // =0x2e000000
	str	x8, [sp, #264]                  // 8-byte Spill
	mov	w8, #11776                      // =0x2e00
	str	x8, [sp, #280]                  // 8-byte Spill
	mov	x8, #3314649325744685056        // =0x2e00000000000000
	str	x8, [sp, #296]                  // 8-byte Spill
	b	.LBB1_14
.LBB1_63:                               // %"std_io::io::error::pack.exit64"
	ldrb	w8, [x3, #15]
	cmp	x4, #17
	lsl	x8, x8, #56
	str	x8, [sp, #296]                  // 8-byte Spill
	b.lo	.LBB1_66
// %bb.64:                              // %"std_io::io::error::byte_or_dot.exit.i66"
	ldrb	w8, [x3, #16]
	cmp	x4, #17
	str	w8, [sp, #324]                  // 4-byte Spill
	b.ne	.LBB1_67
// %bb.65:
	mov	w8, #46                         // =0x2e
	mov	x18, #50577534877696            // =0x2e0000000000
	mov	x15, #3314649325744685056       // =0x2e00000000000000
	str	w8, [sp, #236]                  // 4-byte Spill
	mov	x8, #12947848928690176          // =0x2e000000000000
	mov	w5, #11776                      // =0x2e00
	str	x8, [sp, #248]                  // 8-byte Spill
	mov	x8, #197568495616               // =0x2e00000000
	mov	w12, #771751936                 // =0x2e000000
	str	x8, [sp, #272]                  // 8-byte Spill
	mov	w8, #3014656                    // =0x2e0000
	mov	w17, #771751936                 // =0x2e000000
	str	x8, [sp, #288]                  // 8-byte Spill
	mov	w8, #11776                      // =0x2e00
	mov	w9, #11776                      // =0x2e00
	str	x8, [sp, #72]                   // 8-byte Spill
	mov	x8, #3314649325744685056        // =0x2e00000000000000
	mov	x7, #3314649325744685056        // =0x2e00000000000000
	str	x8, [sp, #80]                   // 8-byte Spill
	mov	x8, #50577534877696             // =0x2e0000000000
	mov	x13, #50577534877696            // =0x2e0000000000
	str	x8, [sp, #88]                   // 8-byte Spill
	mov	w8, #771751936                  // =0x2e000000
	mov	w0, #771751936                  // =0x2e000000
	str	x8, [sp, #96]                   // 8-byte Spill
	mov	w8, #11776                      // =0x2e00
	str	x8, [sp, #104]                  // 8-byte Spill
	mov	x8, #3314649325744685056        // =0x2e00000000000000
	str	x8, [sp, #120]                  // 8-byte Spill
	mov	x8, #50577534877696             // =0x2e0000000000
	str	x8, [sp, #128]                  // 8-byte Spill
	mov	w8, #771751936                  // =0x2e000000
	str	x8, [sp, #136]                  // 8-byte Spill
	mov	w8, #11776                      // =0x2e00
	str	x8, [sp, #144]                  // 8-byte Spill
	mov	x8, #3314649325744685056        // =0x2e00000000000000
	str	x8, [sp, #152]                  // 8-byte Spill
	mov	x8, #50577534877696             // =0x2e0000000000
	str	x8, [sp, #168]                  // 8-byte Spill
	mov	w8, #771751936                  // =0x2e000000
	str	x8, [sp, #176]                  // 8-byte Spill
	mov	w8, #11776                      // =0x2e00
	str	x8, [sp, #192]                  // 8-byte Spill
	mov	x8, #3314649325744685056        // =0x2e00000000000000
	str	x8, [sp, #200]                  // 8-byte Spill
	mov	x8, #50577534877696             // =0x2e0000000000
	str	x8, [sp, #208]                  // 8-byte Spill
	mov	w8, #771751936                  // =0x2e000000
	str	x8, [sp, #216]                  // 8-byte Spill
	mov	w8, #11776                      // =0x2e00
	str	x8, [sp, #224]                  // 8-byte Spill
	mov	x8, #3314649325744685056        // =0x2e00000000000000
	str	x8, [sp, #240]                  // 8-byte Spill
	mov	x8, #50577534877696             // =0x2e0000000000
	str	x8, [sp, #256]                  // 8-byte Spill
	mov	w8, #771751936                  // =0x2e000000
	str	x8, [sp, #264]                  // 8-byte Spill
	mov	w8, #11776                      // =0x2e00
	str	x8, [sp, #280]                  // 8-byte Spill
	b	.LBB1_16
.LBB1_66:
	mov	x8, #12947848928690176          // =0x2e000000000000
	mov	x18, #50577534877696            // =0x2e0000000000
	mov	x15, #3314649325744685056       // =0x2e00000000000000
	str	x8, [sp, #248]                  // 8-byte Spill
	mov	x8, #197568495616               // =0x2e00000000
	mov	w5, #11776                      // =0x2e00
	str	x8, [sp, #272]                  // 8-byte Spill
	mov	w8, #46                         // =0x2e
	mov	w12, #771751936                 // =0x2e000000
	str	w8, [sp, #324]                  // 4-byte Spill
	mov	w8, #3014656                    // =0x2e0000
	mov	w17, #771751936                 // =0x2e000000
	str	x8, [sp, #288]                  // 8-byte Spill
	mov	w8, #11776                      // =0x2e00
	mov	w9, #11776                      // =0x2e00
	str	x8, [sp, #72]                   // 8-byte Spill
	mov	x8, #3314649325744685056        // =0x2e00000000000000
	mov	x7, #3314649325744685056        // =0x2e00000000000000
	str	x8, [sp, #80]                   // 8-byte Spill
	mov	x8, #50577534877696             // =0x2e0000000000
	mov	x13, #50577534877696            // =0x2e0000000000
	str	x8, [sp, #88]                   // 8-byte Spill
	mov	w8, #771751936                  // =0x2e000000
	mov	w0, #771751936                  // =0x2e000000
	str	x8, [sp, #96]                   // 8-byte Spill
	mov	w8, #11776                      // =0x2e00
	str	x8, [sp, #104]                  // 8-byte Spill
	mov	x8, #3314649325744685056        // =0x2e00000000000000
	str	x8, [sp, #120]                  // 8-byte Spill
	mov	x8, #50577534877696             // =0x2e0000000000
	str	x8, [sp, #128]                  // 8-byte Spill
	mov	w8, #771751936                  // =0x2e000000
	str	x8, [sp, #136]                  // 8-byte Spill
	mov	w8, #11776                      // =0x2e00
	str	x8, [sp, #144]                  // 8-byte Spill
	mov	x8, #3314649325744685056        // =0x2e00000000000000
	str	x8, [sp, #152]                  // 8-byte Spill
	mov	x8, #50577534877696             // =0x2e0000000000
	str	x8, [sp, #168]                  // 8-byte Spill
	mov	w8, #771751936                  // =0x2e000000
	str	x8, [sp, #176]                  // 8-byte Spill
	mov	w8, #11776                      // =0x2e00
	str	x8, [sp, #192]                  // 8-byte Spill
	mov	x8, #3314649325744685056        // =0x2e00000000000000
	str	x8, [sp, #200]                  // 8-byte Spill
	mov	x8, #50577534877696             // =0x2e0000000000
	str	x8, [sp, #208]                  // 8-byte Spill
	mov	w8, #771751936                  // =0x2e000000
	str	x8, [sp, #216]                  // 8-byte Spill
	mov	w8, #11776                      // =0x2e00
	str	x8, [sp, #224]                  // 8-byte Spill
	mov	x8, #3314649325744685056        // =0x2e00000000000000
	str	x8, [sp, #240]                  // 8-byte Spill
	mov	x8, #50577534877696             // =0x2e0000000000
	str	x8, [sp, #256]                  // 8-byte Spill
	mov	w8, #771751936                  // =0x2e000000
	str	x8, [sp, #264]                  // 8-byte Spill
	mov	w8, #11776                      // =0x2e00
	str	x8, [sp, #280]                  // 8-byte Spill
	b	.LBB1_15
.LBB1_67:                               // %"std_io::io::error::byte_or_dot.exit13.i69"
	ldrb	w8, [x3, #17]
	cmp	x4, #19
	lsl	x8, x8, #8
	str	x8, [sp, #280]                  // 8-byte Spill
	b.lo	.LBB1_70
// %bb.68:                              // %"std_io::io::error::byte_or_dot.exit19.i72"
	ldrb	w8, [x3, #18]
	cmp	x4, #19
	lsl	x8, x8, #16
	str	x8, [sp, #288]                  // 8-byte Spill
	b.ne	.LBB1_71
// %bb.69:
	mov	w8, #46                         // =0x2e
	mov	x18, #50577534877696            // =0x2e0000000000
	mov	x15, #3314649325744685056       // =0x2e00000000000000
	str	w8, [sp, #236]                  // 4-byte Spill
	mov	x8, #12947848928690176          // =0x2e000000000000
	mov	w5, #11776                      // =0x2e00
	str	x8, [sp, #248]                  // 8-byte Spill
	mov	x8, #197568495616               // =0x2e00000000
	mov	w12, #771751936                 // =0x2e000000
	str	x8, [sp, #272]                  // 8-byte Spill
	mov	w8, #3014656                    // =0x2e0000
	mov	w17, #771751936                 // =0x2e000000
	str	x8, [sp, #184]                  // 8-byte Spill
	mov	w8, #11776                      // =0x2e00
	mov	w9, #11776                      // =0x2e00
	str	x8, [sp, #72]                   // 8-byte Spill
	mov	x8, #3314649325744685056        // =0x2e00000000000000
	mov	x7, #3314649325744685056        // =0x2e00000000000000
	str	x8, [sp, #80]                   // 8-byte Spill
	mov	x8, #50577534877696             // =0x2e0000000000
	mov	x13, #50577534877696            // =0x2e0000000000
	str	x8, [sp, #88]                   // 8-byte Spill
	mov	w8, #771751936                  // =0x2e000000
	mov	w0, #771751936                  // =0x2e000000
	str	x8, [sp, #96]                   // 8-byte Spill
	mov	w8, #11776                      // =0x2e00
	str	x8, [sp, #104]                  // 8-byte Spill
	mov	x8, #3314649325744685056        // =0x2e00000000000000
	str	x8, [sp, #120]                  // 8-byte Spill
	mov	x8, #50577534877696             // =0x2e0000000000
	str	x8, [sp, #128]                  // 8-byte Spill
	mov	w8, #771751936                  // =0x2e000000
	str	x8, [sp, #136]                  // 8-byte Spill
	mov	w8, #11776                      // =0x2e00
	str	x8, [sp, #144]                  // 8-byte Spill
	mov	x8, #3314649325744685056        // =0x2e00000000000000
	str	x8, [sp, #152]                  // 8-byte Spill
	mov	x8, #50577534877696             // =0x2e0000000000
	str	x8, [sp, #168]                  // 8-byte Spill
	mov	w8, #771751936                  // =0x2e000000
	str	x8, [sp, #176]                  // 8-byte Spill
	mov	w8, #11776                      // =0x2e00
	str	x8, [sp, #192]                  // 8-byte Spill
	mov	x8, #3314649325744685056        // =0x2e00000000000000
	str	x8, [sp, #200]                  // 8-byte Spill
	mov	x8, #50577534877696             // =0x2e0000000000
	str	x8, [sp, #208]                  // 8-byte Spill
	mov	w8, #771751936                  // =0x2e000000
	str	x8, [sp, #216]                  // 8-byte Spill
	mov	w8, #11776                      // =0x2e00
	str	x8, [sp, #224]                  // 8-byte Spill
	mov	x8, #3314649325744685056        // =0x2e00000000000000
	str	x8, [sp, #240]                  // 8-byte Spill
	mov	x8, #50577534877696             // =0x2e0000000000
	str	x8, [sp, #256]                  // 8-byte Spill
	mov	w8, #771751936                  // =0x2e000000
	str	x8, [sp, #264]                  // 8-byte Spill
	b	.LBB1_17
.LBB1_70:
	mov	w8, #46                         // =0x2e
	mov	x18, #50577534877696            // =0x2e0000000000
	mov	x15, #3314649325744685056       // =0x2e00000000000000
	str	w8, [sp, #236]                  // 4-byte Spill
	mov	x8, #12947848928690176          // =0x2e000000000000
	mov	w5, #11776                      // =0x2e00
	str	x8, [sp, #248]                  // 8-byte Spill
	mov	x8, #197568495616               // =0x2e00000000
	mov	w12, #771751936                 // =0x2e000000
	str	x8, [sp, #272]                  // 8-byte Spill
	mov	w8, #3014656                    // =0x2e0000
	mov	w17, #771751936                 // =0x2e000000
	str	x8, [sp, #288]                  // 8-byte Spill
	mov	w8, #11776                      // =0x2e00
	mov	w9, #11776                      // =0x2e00
	str	x8, [sp, #72]                   // 8-byte Spill
	mov	x8, #3314649325744685056        // =0x2e00000000000000
	mov	x7, #3314649325744685056        // =0x2e00000000000000
	str	x8, [sp, #80]                   // 8-byte Spill
	mov	x8, #50577534877696             // =0x2e0000000000
	mov	x13, #50577534877696            // =0x2e0000000000
	str	x8, [sp, #88]                   // 8-byte Spill
	mov	w8, #771751936                  // =0x2e000000
	mov	w0, #771751936                  // =0x2e000000
	str	x8, [sp, #96]                   // 8-byte Spill
	mov	w8, #11776                      // =0x2e00
	str	x8, [sp, #104]                  // 8-byte Spill
	mov	x8, #3314649325744685056        // =0x2e00000000000000
	str	x8, [sp, #120]                  // 8-byte Spill
	mov	x8, #50577534877696             // =0x2e0000000000
	str	x8, [sp, #128]                  // 8-byte Spill
	mov	w8, #771751936                  // =0x2e000000
	str	x8, [sp, #136]                  // 8-byte Spill
	mov	w8, #11776                      // =0x2e00
	str	x8, [sp, #144]                  // 8-byte Spill
	mov	x8, #3314649325744685056        // =0x2e00000000000000
	str	x8, [sp, #152]                  // 8-byte Spill
	mov	x8, #50577534877696             // =0x2e0000000000
	str	x8, [sp, #168]                  // 8-byte Spill
	mov	w8, #771751936                  // =0x2e000000
	str	x8, [sp, #176]                  // 8-byte Spill
	mov	w8, #11776                      // =0x2e00
	str	x8, [sp, #192]                  // 8-byte Spill
	mov	x8, #3314649325744685056        // =0x2e00000000000000
	str	x8, [sp, #200]                  // 8-byte Spill
	mov	x8, #50577534877696             // =0x2e0000000000
	str	x8, [sp, #208]                  // 8-byte Spill
	mov	w8, #771751936                  // =0x2e000000
	str	x8, [sp, #216]                  // 8-byte Spill
	mov	w8, #11776                      // =0x2e00
	str	x8, [sp, #224]                  // 8-byte Spill
	mov	x8, #3314649325744685056        // =0x2e00000000000000
	str	x8, [sp, #240]                  // 8-byte Spill
	mov	x8, #50577534877696             // =0x2e0000000000
	str	x8, [sp, #256]                  // 8-byte Spill
	mov	w8, #771751936                  // =0x2e000000
	str	x8, [sp, #264]                  // 8-byte Spill
	b	.LBB1_16
.LBB1_71:                               // %"std_io::io::error::byte_or_dot.exit25.i75"
	ldrb	w8, [x3, #19]
	cmp	x4, #21
	lsl	x8, x8, #24
	str	x8, [sp, #264]                  // 8-byte Spill
	b.lo	.LBB1_74
// %bb.72:                              // %"std_io::io::error::byte_or_dot.exit31.i78"
	ldrb	w8, [x3, #20]
	cmp	x4, #21
	lsl	x8, x8, #32
	str	x8, [sp, #272]                  // 8-byte Spill
	b.ne	.LBB1_75
// %bb.73:
	mov	x8, #197568495616               // =0x2e00000000
	mov	x18, #50577534877696            // =0x2e0000000000
	mov	x15, #3314649325744685056       // =0x2e00000000000000
	str	x8, [sp, #160]                  // 8-byte Spill
	mov	w8, #46                         // =0x2e
	mov	w5, #11776                      // =0x2e00
	str	w8, [sp, #236]                  // 4-byte Spill
	mov	x8, #12947848928690176          // =0x2e000000000000
	mov	w12, #771751936                 // =0x2e000000
	str	x8, [sp, #248]                  // 8-byte Spill
	mov	w8, #3014656                    // =0x2e0000
	mov	w17, #771751936                 // =0x2e000000
	str	x8, [sp, #184]                  // 8-byte Spill
	mov	w8, #11776                      // =0x2e00
	mov	w9, #11776                      // =0x2e00
	str	x8, [sp, #72]                   // 8-byte Spill
	mov	x8, #3314649325744685056        // =0x2e00000000000000
	mov	x7, #3314649325744685056        // =0x2e00000000000000
	str	x8, [sp, #80]                   // 8-byte Spill
	mov	x8, #50577534877696             // =0x2e0000000000
	mov	x13, #50577534877696            // =0x2e0000000000
	str	x8, [sp, #88]                   // 8-byte Spill
	mov	w8, #771751936                  // =0x2e000000
	mov	w0, #771751936                  // =0x2e000000
	str	x8, [sp, #96]                   // 8-byte Spill
	mov	w8, #11776                      // =0x2e00
	str	x8, [sp, #104]                  // 8-byte Spill
	mov	x8, #3314649325744685056        // =0x2e00000000000000
	str	x8, [sp, #120]                  // 8-byte Spill
	mov	x8, #50577534877696             // =0x2e0000000000
	str	x8, [sp, #128]                  // 8-byte Spill
	mov	w8, #771751936                  // =0x2e000000
	str	x8, [sp, #136]                  // 8-byte Spill
	mov	w8, #11776                      // =0x2e00
	str	x8, [sp, #144]                  // 8-byte Spill
	mov	x8, #3314649325744685056        // =0x2e00000000000000
	str	x8, [sp, #152]                  // 8-byte Spill
	mov	x8, #50577534877696             // =0x2e0000000000
	str	x8, [sp, #168]                  // 8-byte Spill
	mov	w8, #771751936                  // =0x2e000000
	str	x8, [sp, #176]                  // 8-byte Spill
	mov	w8, #11776                      // =0x2e00
	str	x8, [sp, #192]                  // 8-byte Spill
	mov	x8, #3314649325744685056        // =0x2e00000000000000
	str	x8, [sp, #200]                  // 8-byte Spill
	mov	x8, #50577534877696             // =0x2e0000000000
	str	x8, [sp, #208]                  // 8-byte Spill
	mov	w8, #771751936                  // =0x2e000000
	str	x8, [sp, #216]                  // 8-byte Spill
	mov	w8, #11776                      // =0x2e00
	str	x8, [sp, #224]                  // 8-byte Spill
	mov	x8, #3314649325744685056        // =0x2e00000000000000
	str	x8, [sp, #240]                  // 8-byte Spill
	mov	x8, #50577534877696             // =0x2e0000000000
	str	x8, [sp, #256]                  // 8-byte Spill
	b	.LBB1_18
.LBB1_74:
	mov	w8, #46                         // =0x2e
	mov	x18, #50577534877696            // =0x2e0000000000
	mov	x15, #3314649325744685056       // =0x2e00000000000000
	str	w8, [sp, #236]                  // 4-byte Spill
	mov	x8, #12947848928690176          // =0x2e000000000000
	mov	w5, #11776                      // =0x2e00
	str	x8, [sp, #248]                  // 8-byte Spill
	mov	x8, #197568495616               // =0x2e00000000
	mov	w12, #771751936                 // =0x2e000000
	str	x8, [sp, #272]                  // 8-byte Spill
	mov	w8, #3014656                    // =0x2e0000
	mov	w17, #771751936                 // =0x2e000000
	str	x8, [sp, #184]                  // 8-byte Spill
	mov	w8, #11776                      // =0x2e00
	mov	w9, #11776                      // =0x2e00
	str	x8, [sp, #72]                   // 8-byte Spill
	mov	x8, #3314649325744685056        // =0x2e00000000000000
	mov	x7, #3314649325744685056        // =0x2e00000000000000
	str	x8, [sp, #80]                   // 8-byte Spill
	mov	x8, #50577534877696             // =0x2e0000000000
	mov	x13, #50577534877696            // =0x2e0000000000
	str	x8, [sp, #88]                   // 8-byte Spill
	mov	w8, #771751936                  // =0x2e000000
	mov	w0, #771751936                  // =0x2e000000
	str	x8, [sp, #96]                   // 8-byte Spill
	mov	w8, #11776                      // =0x2e00
	str	x8, [sp, #104]                  // 8-byte Spill
	mov	x8, #3314649325744685056        // =0x2e00000000000000
	str	x8, [sp, #120]                  // 8-byte Spill
	mov	x8, #50577534877696             // =0x2e0000000000
	str	x8, [sp, #128]                  // 8-byte Spill
	mov	w8, #771751936                  // =0x2e000000
	str	x8, [sp, #136]                  // 8-byte Spill
	mov	w8, #11776                      // =0x2e00
	str	x8, [sp, #144]                  // 8-byte Spill
	mov	x8, #3314649325744685056        // =0x2e00000000000000
	str	x8, [sp, #152]                  // 8-byte Spill
	mov	x8, #50577534877696             // =0x2e0000000000
	str	x8, [sp, #168]                  // 8-byte Spill
	mov	w8, #771751936                  // =0x2e000000
	str	x8, [sp, #176]                  // 8-byte Spill
	mov	w8, #11776                      // =0x2e00
	str	x8, [sp, #192]                  // 8-byte Spill
	mov	x8, #3314649325744685056        // =0x2e00000000000000
	str	x8, [sp, #200]                  // 8-byte Spill
	mov	x8, #50577534877696             // =0x2e0000000000
	str	x8, [sp, #208]                  // 8-byte Spill
	mov	w8, #771751936                  // =0x2e000000
	str	x8, [sp, #216]                  // 8-byte Spill
	mov	w8, #11776                      // =0x2e00
	str	x8, [sp, #224]                  // 8-byte Spill
	mov	x8, #3314649325744685056        // =0x2e00000000000000
	str	x8, [sp, #240]                  // 8-byte Spill
	mov	x8, #50577534877696             // =0x2e0000000000
	str	x8, [sp, #256]                  // 8-byte Spill
	b	.LBB1_17
.LBB1_75:                               // %"std_io::io::error::byte_or_dot.exit37.i81"
	ldrb	w8, [x3, #21]
	cmp	x4, #23
	lsl	x8, x8, #40
	str	x8, [sp, #256]                  // 8-byte Spill
	b.lo	.LBB1_78
// %bb.76:                              // %"std_io::io::error::byte_or_dot.exit43.i84"
	ldrb	w8, [x3, #22]
	cmp	x4, #23
	lsl	x8, x8, #48
	str	x8, [sp, #248]                  // 8-byte Spill
	b.ne	.LBB1_79
// %bb.77:
	mov	x8, #12947848928690176          // =0x2e000000000000
	mov	x18, #50577534877696            // =0x2e0000000000
	mov	x15, #3314649325744685056       // =0x2e00000000000000
	str	x8, [sp, #112]                  // 8-byte Spill
	mov	x8, #197568495616               // =0x2e00000000
	mov	w5, #11776                      // =0x2e00
	str	x8, [sp, #160]                  // 8-byte Spill
	mov	w8, #46                         // =0x2e
	mov	w12, #771751936                 // =0x2e000000
	str	w8, [sp, #236]                  // 4-byte Spill
	mov	w8, #3014656                    // =0x2e0000
	mov	w17, #771751936                 // =0x2e000000
	str	x8, [sp, #184]                  // 8-byte Spill
	mov	w8, #11776                      // =0x2e00
	mov	w9, #11776                      // =0x2e00
	str	x8, [sp, #72]                   // 8-byte Spill
	mov	x8, #3314649325744685056        // =0x2e00000000000000
	mov	x7, #3314649325744685056        // =0x2e00000000000000
	str	x8, [sp, #80]                   // 8-byte Spill
	mov	x8, #50577534877696             // =0x2e0000000000
	mov	x13, #50577534877696            // =0x2e0000000000
	str	x8, [sp, #88]                   // 8-byte Spill
	mov	w8, #771751936                  // =0x2e000000
	mov	w0, #771751936                  // =0x2e000000
	str	x8, [sp, #96]                   // 8-byte Spill
	mov	w8, #11776                      // =0x2e00
	str	x8, [sp, #104]                  // 8-byte Spill
	mov	x8, #3314649325744685056        // =0x2e00000000000000
	str	x8, [sp, #120]                  // 8-byte Spill
	mov	x8, #50577534877696             // =0x2e0000000000
	str	x8, [sp, #128]                  // 8-byte Spill
	mov	w8, #771751936                  // =0x2e000000
	str	x8, [sp, #136]                  // 8-byte Spill
	mov	w8, #11776                      // =0x2e00
	str	x8, [sp, #144]                  // 8-byte Spill
	mov	x8, #3314649325744685056        // =0x2e00000000000000
	str	x8, [sp, #152]                  // 8-byte Spill
	mov	x8, #50577534877696             // =0x2e0000000000
	str	x8, [sp, #168]                  // 8-byte Spill
	mov	w8, #771751936                  // =0x2e000000
	str	x8, [sp, #176]                  // 8-byte Spill
	mov	w8, #11776                      // =0x2e00
	str	x8, [sp, #192]                  // 8-byte Spill
	mov	x8, #3314649325744685056        // =0x2e00000000000000
	str	x8, [sp, #200]                  // 8-byte Spill
	mov	x8, #50577534877696             // =0x2e0000000000
	str	x8, [sp, #208]                  // 8-byte Spill
	mov	w8, #771751936                  // =0x2e000000
	str	x8, [sp, #216]                  // 8-byte Spill
	mov	w8, #11776                      // =0x2e00
	str	x8, [sp, #224]                  // 8-byte Spill
	mov	x8, #3314649325744685056        // =0x2e00000000000000
	str	x8, [sp, #240]                  // 8-byte Spill
	b	.LBB1_19
.LBB1_78:
	mov	x8, #197568495616               // =0x2e00000000
	mov	x18, #50577534877696            // =0x2e0000000000
	mov	x15, #3314649325744685056       // =0x2e00000000000000
	str	x8, [sp, #160]                  // 8-byte Spill
	mov	w8, #46                         // =0x2e
	mov	w5, #11776                      // =0x2e00
	str	w8, [sp, #236]                  // 4-byte Spill
	mov	x8, #12947848928690176          // =0x2e000000000000
	mov	w12, #771751936                 // =0x2e000000
	str	x8, [sp, #248]                  // 8-byte Spill
	mov	w8, #3014656                    // =0x2e0000
	mov	w17, #771751936                 // =0x2e000000
	str	x8, [sp, #184]                  // 8-byte Spill
	mov	w8, #11776                      // =0x2e00
	mov	w9, #11776                      // =0x2e00
	str	x8, [sp, #72]                   // 8-byte Spill
	mov	x8, #3314649325744685056        // =0x2e00000000000000
	mov	x7, #3314649325744685056        // =0x2e00000000000000
	str	x8, [sp, #80]                   // 8-byte Spill
	mov	x8, #50577534877696             // =0x2e0000000000
	mov	x13, #50577534877696            // =0x2e0000000000
	str	x8, [sp, #88]                   // 8-byte Spill
	mov	w8, #771751936                  // =0x2e000000
	mov	w0, #771751936                  // =0x2e000000
	str	x8, [sp, #96]                   // 8-byte Spill
	mov	w8, #11776                      // =0x2e00
	str	x8, [sp, #104]                  // 8-byte Spill
	mov	x8, #3314649325744685056        // =0x2e00000000000000
	str	x8, [sp, #120]                  // 8-byte Spill
	mov	x8, #50577534877696             // =0x2e0000000000
	str	x8, [sp, #128]                  // 8-byte Spill
	mov	w8, #771751936                  // =0x2e000000
	str	x8, [sp, #136]                  // 8-byte Spill
	mov	w8, #11776                      // =0x2e00
	str	x8, [sp, #144]                  // 8-byte Spill
	mov	x8, #3314649325744685056        // =0x2e00000000000000
	str	x8, [sp, #152]                  // 8-byte Spill
	mov	x8, #50577534877696             // =0x2e0000000000
	str	x8, [sp, #168]                  // 8-byte Spill
	mov	w8, #771751936                  // =0x2e000000
	str	x8, [sp, #176]                  // 8-byte Spill
	mov	w8, #11776                      // =0x2e00
	str	x8, [sp, #192]                  // 8-byte Spill
	mov	x8, #3314649325744685056        // =0x2e00000000000000
	str	x8, [sp, #200]                  // 8-byte Spill
	mov	x8, #50577534877696             // =0x2e0000000000
	str	x8, [sp, #208]                  // 8-byte Spill
	mov	w8, #771751936                  // =0x2e000000
	str	x8, [sp, #216]                  // 8-byte Spill
	mov	w8, #11776                      // =0x2e00
	str	x8, [sp, #224]                  // 8-byte Spill
	mov	x8, #3314649325744685056        // =0x2e00000000000000
	str	x8, [sp, #240]                  // 8-byte Spill
	b	.LBB1_18
.LBB1_79:                               // %"std_io::io::error::pack.exit119"
	ldrb	w8, [x3, #23]
	cmp	x4, #25
	lsl	x8, x8, #56
	str	x8, [sp, #240]                  // 8-byte Spill
	b.lo	.LBB1_82
// %bb.80:                              // %"std_io::io::error::byte_or_dot.exit.i121"
	ldrb	w8, [x3, #24]
	cmp	x4, #25
	str	w8, [sp, #236]                  // 4-byte Spill
	b.ne	.LBB1_83
// %bb.81:
	mov	w8, #46                         // =0x2e
	mov	x18, #50577534877696            // =0x2e0000000000
	mov	x15, #3314649325744685056       // =0x2e00000000000000
	str	w8, [sp, #68]                   // 4-byte Spill
	mov	x8, #12947848928690176          // =0x2e000000000000
	mov	w5, #11776                      // =0x2e00
	str	x8, [sp, #112]                  // 8-byte Spill
	mov	x8, #197568495616               // =0x2e00000000
	mov	w12, #771751936                 // =0x2e000000
	str	x8, [sp, #160]                  // 8-byte Spill
	mov	w8, #3014656                    // =0x2e0000
	mov	w17, #771751936                 // =0x2e000000
	str	x8, [sp, #184]                  // 8-byte Spill
	mov	w8, #11776                      // =0x2e00
	mov	w9, #11776                      // =0x2e00
	str	x8, [sp, #72]                   // 8-byte Spill
	mov	x8, #3314649325744685056        // =0x2e00000000000000
	mov	x7, #3314649325744685056        // =0x2e00000000000000
	str	x8, [sp, #80]                   // 8-byte Spill
	mov	x8, #50577534877696             // =0x2e0000000000
	mov	x13, #50577534877696            // =0x2e0000000000
	str	x8, [sp, #88]                   // 8-byte Spill
	mov	w8, #771751936                  // =0x2e000000
	mov	w0, #771751936                  // =0x2e000000
	str	x8, [sp, #96]                   // 8-byte Spill
	mov	w8, #11776                      // =0x2e00
	str	x8, [sp, #104]                  // 8-byte Spill
	mov	x8, #3314649325744685056        // =0x2e00000000000000
	str	x8, [sp, #120]                  // 8-byte Spill
	mov	x8, #50577534877696             // =0x2e0000000000
	str	x8, [sp, #128]                  // 8-byte Spill
	mov	w8, #771751936                  // =0x2e000000
	str	x8, [sp, #136]                  // 8-byte Spill
	mov	w8, #11776                      // =0x2e00
	str	x8, [sp, #144]                  // 8-byte Spill
	mov	x8, #3314649325744685056        // =0x2e00000000000000
	str	x8, [sp, #152]                  // 8-byte Spill
	mov	x8, #50577534877696             // =0x2e0000000000
	str	x8, [sp, #168]                  // 8-byte Spill
	mov	w8, #771751936                  // =0x2e000000
	str	x8, [sp, #176]                  // 8-byte Spill
	mov	w8, #11776                      // =0x2e00
	str	x8, [sp, #192]                  // 8-byte Spill
	mov	x8, #3314649325744685056        // =0x2e00000000000000
	str	x8, [sp, #200]                  // 8-byte Spill
	mov	x8, #50577534877696             // =0x2e0000000000
	str	x8, [sp, #208]                  // 8-byte Spill
	mov	w8, #771751936                  // =0x2e000000
	str	x8, [sp, #216]                  // 8-byte Spill
	mov	w8, #11776                      // =0x2e00
	str	x8, [sp, #224]                  // 8-byte Spill
	b	.LBB1_87
.LBB1_82:
	mov	x8, #12947848928690176          // =0x2e000000000000
	mov	x18, #50577534877696            // =0x2e0000000000
	mov	x15, #3314649325744685056       // =0x2e00000000000000
	str	x8, [sp, #112]                  // 8-byte Spill
	mov	x8, #197568495616               // =0x2e00000000
	mov	w5, #11776                      // =0x2e00
	str	x8, [sp, #160]                  // 8-byte Spill
	mov	w8, #46                         // =0x2e
	mov	w12, #771751936                 // =0x2e000000
	str	w8, [sp, #236]                  // 4-byte Spill
	mov	w8, #3014656                    // =0x2e0000
	mov	w17, #771751936                 // =0x2e000000
	str	x8, [sp, #184]                  // 8-byte Spill
	mov	w8, #11776                      // =0x2e00
	mov	w9, #11776                      // =0x2e00
	str	x8, [sp, #72]                   // 8-byte Spill
	mov	x8, #3314649325744685056        // =0x2e00000000000000
	mov	x7, #3314649325744685056        // =0x2e00000000000000
	str	x8, [sp, #80]                   // 8-byte Spill
	mov	x8, #50577534877696             // =0x2e0000000000
	mov	x13, #50577534877696            // =0x2e0000000000
	str	x8, [sp, #88]                   // 8-byte Spill
	mov	w8, #771751936                  // =0x2e000000
	mov	w0, #771751936                  // =0x2e000000
	str	x8, [sp, #96]                   // 8-byte Spill
	mov	w8, #11776                      // =0x2e00
	str	x8, [sp, #104]                  // 8-byte Spill
	mov	x8, #3314649325744685056        // =0x2e00000000000000
	str	x8, [sp, #120]                  // 8-byte Spill
	mov	x8, #50577534877696             // =0x2e0000000000
	str	x8, [sp, #128]                  // 8-byte Spill
	mov	w8, #771751936                  // =0x2e000000
	str	x8, [sp, #136]                  // 8-byte Spill
	mov	w8, #11776                      // =0x2e00
	str	x8, [sp, #144]                  // 8-byte Spill
	mov	x8, #3314649325744685056        // =0x2e00000000000000
	str	x8, [sp, #152]                  // 8-byte Spill
	mov	x8, #50577534877696             // =0x2e0000000000
	str	x8, [sp, #168]                  // 8-byte Spill
	mov	w8, #771751936                  // =0x2e000000
	str	x8, [sp, #176]                  // 8-byte Spill
	mov	w8, #11776                      // =0x2e00
	str	x8, [sp, #192]                  // 8-byte Spill
	mov	x8, #3314649325744685056        // =0x2e00000000000000
	str	x8, [sp, #200]                  // 8-byte Spill
	mov	x8, #50577534877696             // =0x2e0000000000
	str	x8, [sp, #208]                  // 8-byte Spill
	mov	w8, #771751936                  // =0x2e000000
	str	x8, [sp, #216]                  // 8-byte Spill
	mov	w8, #11776                      // =0x2e00
	str	x8, [sp, #224]                  // 8-byte Spill
	b	.LBB1_19
.LBB1_83:                               // %"std_io::io::error::byte_or_dot.exit13.i124"
	ldrb	w8, [x3, #25]
	cmp	x4, #27
	lsl	x8, x8, #8
	str	x8, [sp, #224]                  // 8-byte Spill
	b.lo	.LBB1_86
// %bb.84:                              // %"std_io::io::error::byte_or_dot.exit19.i127"
	ldrb	w8, [x3, #26]
	cmp	x4, #27
	lsl	x8, x8, #16
	str	x8, [sp, #184]                  // 8-byte Spill
	b.ne	.LBB1_91
// %bb.85:
	mov	w8, #46                         // =0x2e
	mov	x18, #50577534877696            // =0x2e0000000000
	mov	x15, #3314649325744685056       // =0x2e00000000000000
	str	w8, [sp, #68]                   // 4-byte Spill
	mov	x8, #12947848928690176          // =0x2e000000000000
	mov	w10, #3014656                   // =0x2e0000
	str	x8, [sp, #112]                  // 8-byte Spill
	mov	x8, #197568495616               // =0x2e00000000
	mov	w5, #11776                      // =0x2e00
	str	x8, [sp, #160]                  // 8-byte Spill
	mov	w8, #11776                      // =0x2e00
	mov	w12, #771751936                 // =0x2e000000
	str	x8, [sp, #72]                   // 8-byte Spill
	mov	x8, #3314649325744685056        // =0x2e00000000000000
	mov	w17, #771751936                 // =0x2e000000
	str	x8, [sp, #80]                   // 8-byte Spill
	mov	x8, #50577534877696             // =0x2e0000000000
	mov	w9, #11776                      // =0x2e00
	str	x8, [sp, #88]                   // 8-byte Spill
	mov	w8, #771751936                  // =0x2e000000
	mov	x7, #3314649325744685056        // =0x2e00000000000000
	str	x8, [sp, #96]                   // 8-byte Spill
	mov	w8, #11776                      // =0x2e00
	mov	x13, #50577534877696            // =0x2e0000000000
	str	x8, [sp, #104]                  // 8-byte Spill
	mov	x8, #3314649325744685056        // =0x2e00000000000000
	mov	w0, #771751936                  // =0x2e000000
	str	x8, [sp, #120]                  // 8-byte Spill
	mov	x8, #50577534877696             // =0x2e0000000000
	str	x8, [sp, #128]                  // 8-byte Spill
	mov	w8, #771751936                  // =0x2e000000
	str	x8, [sp, #136]                  // 8-byte Spill
	mov	w8, #11776                      // =0x2e00
	str	x8, [sp, #144]                  // 8-byte Spill
	mov	x8, #3314649325744685056        // =0x2e00000000000000
	str	x8, [sp, #152]                  // 8-byte Spill
	mov	x8, #50577534877696             // =0x2e0000000000
	str	x8, [sp, #168]                  // 8-byte Spill
	mov	w8, #771751936                  // =0x2e000000
	str	x8, [sp, #176]                  // 8-byte Spill
	mov	w8, #11776                      // =0x2e00
	str	x8, [sp, #192]                  // 8-byte Spill
	mov	x8, #3314649325744685056        // =0x2e00000000000000
	str	x8, [sp, #200]                  // 8-byte Spill
	mov	x8, #50577534877696             // =0x2e0000000000
	str	x8, [sp, #208]                  // 8-byte Spill
	mov	w8, #771751936                  // =0x2e000000
	str	x8, [sp, #216]                  // 8-byte Spill
	b	.LBB1_88
.LBB1_86:
	mov	w8, #46                         // =0x2e
	mov	x18, #50577534877696            // =0x2e0000000000
	mov	x15, #3314649325744685056       // =0x2e00000000000000
	str	w8, [sp, #68]                   // 4-byte Spill
	mov	x8, #12947848928690176          // =0x2e000000000000
	mov	w5, #11776                      // =0x2e00
	str	x8, [sp, #112]                  // 8-byte Spill
	mov	x8, #197568495616               // =0x2e00000000
	mov	w12, #771751936                 // =0x2e000000
	str	x8, [sp, #160]                  // 8-byte Spill
	mov	w8, #3014656                    // =0x2e0000
	mov	w17, #771751936                 // =0x2e000000
	str	x8, [sp, #184]                  // 8-byte Spill
	mov	w8, #11776                      // =0x2e00
	mov	w9, #11776                      // =0x2e00
	str	x8, [sp, #72]                   // 8-byte Spill
	mov	x8, #3314649325744685056        // =0x2e00000000000000
	mov	x7, #3314649325744685056        // =0x2e00000000000000
	str	x8, [sp, #80]                   // 8-byte Spill
	mov	x8, #50577534877696             // =0x2e0000000000
	mov	x13, #50577534877696            // =0x2e0000000000
	str	x8, [sp, #88]                   // 8-byte Spill
	mov	w8, #771751936                  // =0x2e000000
	mov	w0, #771751936                  // =0x2e000000
	str	x8, [sp, #96]                   // 8-byte Spill
	mov	w8, #11776                      // =0x2e00
	str	x8, [sp, #104]                  // 8-byte Spill
	mov	x8, #3314649325744685056        // =0x2e00000000000000
	str	x8, [sp, #120]                  // 8-byte Spill
	mov	x8, #50577534877696             // =0x2e0000000000
	str	x8, [sp, #128]                  // 8-byte Spill
	mov	w8, #771751936                  // =0x2e000000
	str	x8, [sp, #136]                  // 8-byte Spill
	mov	w8, #11776                      // =0x2e00
	str	x8, [sp, #144]                  // 8-byte Spill
	mov	x8, #3314649325744685056        // =0x2e00000000000000
	str	x8, [sp, #152]                  // 8-byte Spill
	mov	x8, #50577534877696             // =0x2e0000000000
	str	x8, [sp, #168]                  // 8-byte Spill
	mov	w8, #771751936                  // =0x2e000000
	str	x8, [sp, #176]                  // 8-byte Spill
	mov	w8, #11776                      // =0x2e00
	str	x8, [sp, #192]                  // 8-byte Spill
	mov	x8, #3314649325744685056        // =0x2e00000000000000
	str	x8, [sp, #200]                  // 8-byte Spill
	mov	x8, #50577534877696             // =0x2e0000000000
	str	x8, [sp, #208]                  // 8-byte Spill
	mov	w8, #771751936                  // =0x2e000000
	str	x8, [sp, #216]                  // 8-byte Spill
.LBB1_87:                               // %"std_io::io::error::byte_or_dot.exit31.i463"
	mov	w10, #3014656                   // =0x2e0000
.LBB1_88:                               // %"std_io::io::error::byte_or_dot.exit31.i463"
	mov	x25, #197568495616              // =0x2e00000000
.LBB1_89:                               // %"std_io::io::error::byte_or_dot.exit31.i463"
	mov	x2, #12947848928690176          // =0x2e000000000000
.LBB1_90:                               // %"std_io::io::error::byte_or_dot.exit31.i463"
	mov	w8, #46                         // =0x2e
	b	.LBB1_20
.LBB1_91:                               // %"std_io::io::error::byte_or_dot.exit25.i130"
	ldrb	w8, [x3, #27]
	cmp	x4, #29
	lsl	x8, x8, #24
	str	x8, [sp, #216]                  // 8-byte Spill
	b.lo	.LBB1_94
// %bb.92:                              // %"std_io::io::error::byte_or_dot.exit31.i133"
	ldrb	w8, [x3, #28]
	cmp	x4, #29
	lsl	x8, x8, #32
	str	x8, [sp, #160]                  // 8-byte Spill
	b.ne	.LBB1_95
// %bb.93:
	mov	w8, #46                         // =0x2e
	mov	x25, #197568495616              // =0x2e00000000
	mov	x18, #50577534877696            // =0x2e0000000000
	str	w8, [sp, #68]                   // 4-byte Spill
	mov	x8, #12947848928690176          // =0x2e000000000000
	mov	x15, #3314649325744685056       // =0x2e00000000000000
	str	x8, [sp, #112]                  // 8-byte Spill
	mov	w8, #11776                      // =0x2e00
	mov	w10, #3014656                   // =0x2e0000
	str	x8, [sp, #72]                   // 8-byte Spill
	mov	x8, #3314649325744685056        // =0x2e00000000000000
	mov	w5, #11776                      // =0x2e00
	str	x8, [sp, #80]                   // 8-byte Spill
	mov	x8, #50577534877696             // =0x2e0000000000
	mov	w12, #771751936                 // =0x2e000000
	str	x8, [sp, #88]                   // 8-byte Spill
	mov	w8, #771751936                  // =0x2e000000
	mov	w17, #771751936                 // =0x2e000000
	str	x8, [sp, #96]                   // 8-byte Spill
	mov	w8, #11776                      // =0x2e00
	mov	w9, #11776                      // =0x2e00
	str	x8, [sp, #104]                  // 8-byte Spill
	mov	x8, #3314649325744685056        // =0x2e00000000000000
	mov	x7, #3314649325744685056        // =0x2e00000000000000
	str	x8, [sp, #120]                  // 8-byte Spill
	mov	x8, #50577534877696             // =0x2e0000000000
	mov	x13, #50577534877696            // =0x2e0000000000
	str	x8, [sp, #128]                  // 8-byte Spill
	mov	w8, #771751936                  // =0x2e000000
	mov	w0, #771751936                  // =0x2e000000
	str	x8, [sp, #136]                  // 8-byte Spill
	mov	w8, #11776                      // =0x2e00
	str	x8, [sp, #144]                  // 8-byte Spill
	mov	x8, #3314649325744685056        // =0x2e00000000000000
	str	x8, [sp, #152]                  // 8-byte Spill
	mov	x8, #50577534877696             // =0x2e0000000000
	str	x8, [sp, #168]                  // 8-byte Spill
	mov	w8, #771751936                  // =0x2e000000
	str	x8, [sp, #176]                  // 8-byte Spill
	mov	w8, #11776                      // =0x2e00
	str	x8, [sp, #192]                  // 8-byte Spill
	mov	x8, #3314649325744685056        // =0x2e00000000000000
	str	x8, [sp, #200]                  // 8-byte Spill
	mov	x8, #50577534877696             // =0x2e0000000000
	str	x8, [sp, #208]                  // 8-byte Spill
	b	.LBB1_89
.LBB1_94:
	mov	w8, #46                         // =0x2e
	mov	x18, #50577534877696            // =0x2e0000000000
	mov	x15, #3314649325744685056       // =0x2e00000000000000
	str	w8, [sp, #68]                   // 4-byte Spill
	mov	x8, #12947848928690176          // =0x2e000000000000
	mov	w10, #3014656                   // =0x2e0000
	str	x8, [sp, #112]                  // 8-byte Spill
	mov	x8, #197568495616               // =0x2e00000000
	mov	w5, #11776                      // =0x2e00
	str	x8, [sp, #160]                  // 8-byte Spill
	mov	w8, #11776                      // =0x2e00
	mov	w12, #771751936                 // =0x2e000000
	str	x8, [sp, #72]                   // 8-byte Spill
	mov	x8, #3314649325744685056        // =0x2e00000000000000
	mov	w17, #771751936                 // =0x2e000000
	str	x8, [sp, #80]                   // 8-byte Spill
	mov	x8, #50577534877696             // =0x2e0000000000
	mov	w9, #11776                      // =0x2e00
	str	x8, [sp, #88]                   // 8-byte Spill
	mov	w8, #771751936                  // =0x2e000000
	mov	x7, #3314649325744685056        // =0x2e00000000000000
	str	x8, [sp, #96]                   // 8-byte Spill
	mov	w8, #11776                      // =0x2e00
	mov	x13, #50577534877696            // =0x2e0000000000
	str	x8, [sp, #104]                  // 8-byte Spill
	mov	x8, #3314649325744685056        // =0x2e00000000000000
	mov	w0, #771751936                  // =0x2e000000
	str	x8, [sp, #120]                  // 8-byte Spill
	mov	x8, #50577534877696             // =0x2e0000000000
	str	x8, [sp, #128]                  // 8-byte Spill
	mov	w8, #771751936                  // =0x2e000000
	str	x8, [sp, #136]                  // 8-byte Spill
	mov	w8, #11776                      // =0x2e00
	str	x8, [sp, #144]                  // 8-byte Spill
	mov	x8, #3314649325744685056        // =0x2e00000000000000
	str	x8, [sp, #152]                  // 8-byte Spill
	mov	x8, #50577534877696             // =0x2e0000000000
	str	x8, [sp, #168]                  // 8-byte Spill
	mov	w8, #771751936                  // =0x2e000000
	str	x8, [sp, #176]                  // 8-byte Spill
	mov	w8, #11776                      // =0x2e00
	str	x8, [sp, #192]                  // 8-byte Spill
	mov	x8, #3314649325744685056        // =0x2e00000000000000
	str	x8, [sp, #200]                  // 8-byte Spill
	mov	x8, #50577534877696             // =0x2e0000000000
	str	x8, [sp, #208]                  // 8-byte Spill
	b	.LBB1_88
.LBB1_95:                               // %"std_io::io::error::byte_or_dot.exit37.i136"
	ldrb	w8, [x3, #29]
	cmp	x4, #31
	lsl	x8, x8, #40
	str	x8, [sp, #208]                  // 8-byte Spill
	b.lo	.LBB1_98
// %bb.96:                              // %"std_io::io::error::byte_or_dot.exit43.i139"
	ldrb	w8, [x3, #30]
	cmp	x4, #31
	lsl	x8, x8, #48
	str	x8, [sp, #112]                  // 8-byte Spill
	b.ne	.LBB1_99
// %bb.97:
	mov	w8, #46                         // =0x2e
	mov	x2, #12947848928690176          // =0x2e000000000000
	mov	x25, #197568495616              // =0x2e00000000
	str	w8, [sp, #68]                   // 4-byte Spill
	mov	w8, #11776                      // =0x2e00
	mov	x18, #50577534877696            // =0x2e0000000000
	str	x8, [sp, #72]                   // 8-byte Spill
	mov	x8, #3314649325744685056        // =0x2e00000000000000
	mov	x15, #3314649325744685056       // =0x2e00000000000000
	str	x8, [sp, #80]                   // 8-byte Spill
	mov	x8, #50577534877696             // =0x2e0000000000
	mov	w10, #3014656                   // =0x2e0000
	str	x8, [sp, #88]                   // 8-byte Spill
	mov	w8, #771751936                  // =0x2e000000
	mov	w5, #11776                      // =0x2e00
	str	x8, [sp, #96]                   // 8-byte Spill
	mov	w8, #11776                      // =0x2e00
	mov	w12, #771751936                 // =0x2e000000
	str	x8, [sp, #104]                  // 8-byte Spill
	mov	x8, #3314649325744685056        // =0x2e00000000000000
	mov	w17, #771751936                 // =0x2e000000
	str	x8, [sp, #120]                  // 8-byte Spill
	mov	x8, #50577534877696             // =0x2e0000000000
	mov	w9, #11776                      // =0x2e00
	str	x8, [sp, #128]                  // 8-byte Spill
	mov	w8, #771751936                  // =0x2e000000
	mov	x7, #3314649325744685056        // =0x2e00000000000000
	str	x8, [sp, #136]                  // 8-byte Spill
	mov	w8, #11776                      // =0x2e00
	mov	x13, #50577534877696            // =0x2e0000000000
	str	x8, [sp, #144]                  // 8-byte Spill
	mov	x8, #3314649325744685056        // =0x2e00000000000000
	mov	w0, #771751936                  // =0x2e000000
	str	x8, [sp, #152]                  // 8-byte Spill
	mov	x8, #50577534877696             // =0x2e0000000000
	str	x8, [sp, #168]                  // 8-byte Spill
	mov	w8, #771751936                  // =0x2e000000
	str	x8, [sp, #176]                  // 8-byte Spill
	mov	w8, #11776                      // =0x2e00
	str	x8, [sp, #192]                  // 8-byte Spill
	mov	x8, #3314649325744685056        // =0x2e00000000000000
	str	x8, [sp, #200]                  // 8-byte Spill
	b	.LBB1_90
.LBB1_98:
	mov	w8, #46                         // =0x2e
	mov	x25, #197568495616              // =0x2e00000000
	mov	x18, #50577534877696            // =0x2e0000000000
	str	w8, [sp, #68]                   // 4-byte Spill
	mov	x8, #12947848928690176          // =0x2e000000000000
	mov	x15, #3314649325744685056       // =0x2e00000000000000
	str	x8, [sp, #112]                  // 8-byte Spill
	mov	w8, #11776                      // =0x2e00
	mov	w10, #3014656                   // =0x2e0000
	str	x8, [sp, #72]                   // 8-byte Spill
	mov	x8, #3314649325744685056        // =0x2e00000000000000
	mov	w5, #11776                      // =0x2e00
	str	x8, [sp, #80]                   // 8-byte Spill
	mov	x8, #50577534877696             // =0x2e0000000000
	mov	w12, #771751936                 // =0x2e000000
	str	x8, [sp, #88]                   // 8-byte Spill
	mov	w8, #771751936                  // =0x2e000000
	mov	w17, #771751936                 // =0x2e000000
	str	x8, [sp, #96]                   // 8-byte Spill
	mov	w8, #11776                      // =0x2e00
	mov	w9, #11776                      // =0x2e00
	str	x8, [sp, #104]                  // 8-byte Spill
	mov	x8, #3314649325744685056        // =0x2e00000000000000
	mov	x7, #3314649325744685056        // =0x2e00000000000000
	str	x8, [sp, #120]                  // 8-byte Spill
	mov	x8, #50577534877696             // =0x2e0000000000
	mov	x13, #50577534877696            // =0x2e0000000000
	str	x8, [sp, #128]                  // 8-byte Spill
	mov	w8, #771751936                  // =0x2e000000
	mov	w0, #771751936                  // =0x2e000000
	str	x8, [sp, #136]                  // 8-byte Spill
	mov	w8, #11776                      // =0x2e00
	str	x8, [sp, #144]                  // 8-byte Spill
	mov	x8, #3314649325744685056        // =0x2e00000000000000
	str	x8, [sp, #152]                  // 8-byte Spill
	mov	x8, #50577534877696             // =0x2e0000000000
	str	x8, [sp, #168]                  // 8-byte Spill
	mov	w8, #771751936                  // =0x2e000000
	str	x8, [sp, #176]                  // 8-byte Spill
	mov	w8, #11776                      // =0x2e00
	str	x8, [sp, #192]                  // 8-byte Spill
	mov	x8, #3314649325744685056        // =0x2e00000000000000
	str	x8, [sp, #200]                  // 8-byte Spill
	b	.LBB1_89
.LBB1_99:                               // %"std_io::io::error::pack.exit174"
	ldrb	w8, [x3, #31]
	cmp	x4, #33
	lsl	x8, x8, #56
	str	x8, [sp, #200]                  // 8-byte Spill
	b.lo	.LBB1_102
// %bb.100:                             // %"std_io::io::error::byte_or_dot.exit.i176"
	ldrb	w8, [x3, #32]
	cmp	x4, #33
	str	w8, [sp, #68]                   // 4-byte Spill
	b.ne	.LBB1_103
// %bb.101:
	mov	w8, #46                         // =0x2e
	mov	x2, #12947848928690176          // =0x2e000000000000
	mov	x25, #197568495616              // =0x2e00000000
	str	w8, [sp, #64]                   // 4-byte Spill
	mov	w8, #11776                      // =0x2e00
	mov	x18, #50577534877696            // =0x2e0000000000
	str	x8, [sp, #72]                   // 8-byte Spill
	mov	x8, #3314649325744685056        // =0x2e00000000000000
	mov	x15, #3314649325744685056       // =0x2e00000000000000
	str	x8, [sp, #80]                   // 8-byte Spill
	mov	x8, #50577534877696             // =0x2e0000000000
	mov	w10, #3014656                   // =0x2e0000
	str	x8, [sp, #88]                   // 8-byte Spill
	mov	w8, #771751936                  // =0x2e000000
	mov	w5, #11776                      // =0x2e00
	str	x8, [sp, #96]                   // 8-byte Spill
	mov	w8, #11776                      // =0x2e00
	mov	w12, #771751936                 // =0x2e000000
	str	x8, [sp, #104]                  // 8-byte Spill
	mov	x8, #3314649325744685056        // =0x2e00000000000000
	mov	w17, #771751936                 // =0x2e000000
	str	x8, [sp, #120]                  // 8-byte Spill
	mov	x8, #50577534877696             // =0x2e0000000000
	mov	w9, #11776                      // =0x2e00
	str	x8, [sp, #128]                  // 8-byte Spill
	mov	w8, #771751936                  // =0x2e000000
	mov	x7, #3314649325744685056        // =0x2e00000000000000
	str	x8, [sp, #136]                  // 8-byte Spill
	mov	w8, #11776                      // =0x2e00
	mov	x13, #50577534877696            // =0x2e0000000000
	str	x8, [sp, #144]                  // 8-byte Spill
	mov	x8, #3314649325744685056        // =0x2e00000000000000
	mov	w0, #771751936                  // =0x2e000000
	str	x8, [sp, #152]                  // 8-byte Spill
	mov	x8, #50577534877696             // =0x2e0000000000
	str	x8, [sp, #168]                  // 8-byte Spill
	mov	w8, #771751936                  // =0x2e000000
	str	x8, [sp, #176]                  // 8-byte Spill
	mov	w8, #11776                      // =0x2e00
	str	x8, [sp, #192]                  // 8-byte Spill
	b	.LBB1_107
.LBB1_102:
	mov	w8, #46                         // =0x2e
	mov	x2, #12947848928690176          // =0x2e000000000000
	mov	x25, #197568495616              // =0x2e00000000
	str	w8, [sp, #68]                   // 4-byte Spill
	mov	w8, #11776                      // =0x2e00
	mov	x18, #50577534877696            // =0x2e0000000000
	str	x8, [sp, #72]                   // 8-byte Spill
	mov	x8, #3314649325744685056        // =0x2e00000000000000
	mov	x15, #3314649325744685056       // =0x2e00000000000000
	str	x8, [sp, #80]                   // 8-byte Spill
	mov	x8, #50577534877696             // =0x2e0000000000
	mov	w10, #3014656                   // =0x2e0000
	str	x8, [sp, #88]                   // 8-byte Spill
	mov	w8, #771751936                  // =0x2e000000
	mov	w5, #11776                      // =0x2e00
	str	x8, [sp, #96]                   // 8-byte Spill
	mov	w8, #11776                      // =0x2e00
	mov	w12, #771751936                 // =0x2e000000
	str	x8, [sp, #104]                  // 8-byte Spill
	mov	x8, #3314649325744685056        // =0x2e00000000000000
	mov	w17, #771751936                 // =0x2e000000
	str	x8, [sp, #120]                  // 8-byte Spill
	mov	x8, #50577534877696             // =0x2e0000000000
	mov	w9, #11776                      // =0x2e00
	str	x8, [sp, #128]                  // 8-byte Spill
	mov	w8, #771751936                  // =0x2e000000
	mov	x7, #3314649325744685056        // =0x2e00000000000000
	str	x8, [sp, #136]                  // 8-byte Spill
	mov	w8, #11776                      // =0x2e00
	mov	x13, #50577534877696            // =0x2e0000000000
	str	x8, [sp, #144]                  // 8-byte Spill
	mov	x8, #3314649325744685056        // =0x2e00000000000000
	mov	w0, #771751936                  // =0x2e000000
	str	x8, [sp, #152]                  // 8-byte Spill
	mov	x8, #50577534877696             // =0x2e0000000000
	str	x8, [sp, #168]                  // 8-byte Spill
	mov	w8, #771751936                  // =0x2e000000
	str	x8, [sp, #176]                  // 8-byte Spill
	mov	w8, #11776                      // =0x2e00
	str	x8, [sp, #192]                  // 8-byte Spill
	b	.LBB1_90
.LBB1_103:                              // %"std_io::io::error::byte_or_dot.exit13.i179"
	ldrb	w8, [x3, #33]
	cmp	x4, #35
	lsl	x8, x8, #8
	str	x8, [sp, #192]                  // 8-byte Spill
	b.lo	.LBB1_106
// %bb.104:                             // %"std_io::io::error::byte_or_dot.exit19.i182"
	ldrb	w8, [x3, #34]
	cmp	x4, #35
	lsl	x10, x8, #16
	b.ne	.LBB1_111
// %bb.105:
	mov	w8, #46                         // =0x2e
	mov	x2, #12947848928690176          // =0x2e000000000000
	mov	x25, #197568495616              // =0x2e00000000
	str	w8, [sp, #64]                   // 4-byte Spill
	mov	w8, #11776                      // =0x2e00
	mov	x18, #50577534877696            // =0x2e0000000000
	str	x8, [sp, #72]                   // 8-byte Spill
	mov	x8, #3314649325744685056        // =0x2e00000000000000
	mov	x15, #3314649325744685056       // =0x2e00000000000000
	str	x8, [sp, #80]                   // 8-byte Spill
	mov	x8, #50577534877696             // =0x2e0000000000
	mov	w1, #3014656                    // =0x2e0000
	str	x8, [sp, #88]                   // 8-byte Spill
	mov	w8, #771751936                  // =0x2e000000
	mov	w5, #11776                      // =0x2e00
	str	x8, [sp, #96]                   // 8-byte Spill
	mov	w8, #11776                      // =0x2e00
	mov	w12, #771751936                 // =0x2e000000
	str	x8, [sp, #104]                  // 8-byte Spill
	mov	x8, #3314649325744685056        // =0x2e00000000000000
	mov	w17, #771751936                 // =0x2e000000
	str	x8, [sp, #120]                  // 8-byte Spill
	mov	x8, #50577534877696             // =0x2e0000000000
	mov	w9, #11776                      // =0x2e00
	str	x8, [sp, #128]                  // 8-byte Spill
	mov	w8, #771751936                  // =0x2e000000
	mov	x7, #3314649325744685056        // =0x2e00000000000000
	str	x8, [sp, #136]                  // 8-byte Spill
	mov	w8, #11776                      // =0x2e00
	mov	x13, #50577534877696            // =0x2e0000000000
	str	x8, [sp, #144]                  // 8-byte Spill
	mov	x8, #3314649325744685056        // =0x2e00000000000000
	mov	w0, #771751936                  // =0x2e000000
	str	x8, [sp, #152]                  // 8-byte Spill
	mov	x8, #50577534877696             // =0x2e0000000000
	str	x8, [sp, #168]                  // 8-byte Spill
	mov	w8, #771751936                  // =0x2e000000
	str	x8, [sp, #176]                  // 8-byte Spill
	b	.LBB1_108
.LBB1_106:
	mov	w8, #46                         // =0x2e
	mov	x2, #12947848928690176          // =0x2e000000000000
	mov	x25, #197568495616              // =0x2e00000000
	str	w8, [sp, #64]                   // 4-byte Spill
	mov	w8, #11776                      // =0x2e00
	mov	x18, #50577534877696            // =0x2e0000000000
	str	x8, [sp, #72]                   // 8-byte Spill
	mov	x8, #3314649325744685056        // =0x2e00000000000000
	mov	x15, #3314649325744685056       // =0x2e00000000000000
	str	x8, [sp, #80]                   // 8-byte Spill
	mov	x8, #50577534877696             // =0x2e0000000000
	mov	w10, #3014656                   // =0x2e0000
	str	x8, [sp, #88]                   // 8-byte Spill
	mov	w8, #771751936                  // =0x2e000000
	mov	w5, #11776                      // =0x2e00
	str	x8, [sp, #96]                   // 8-byte Spill
	mov	w8, #11776                      // =0x2e00
	mov	w12, #771751936                 // =0x2e000000
	str	x8, [sp, #104]                  // 8-byte Spill
	mov	x8, #3314649325744685056        // =0x2e00000000000000
	mov	w17, #771751936                 // =0x2e000000
	str	x8, [sp, #120]                  // 8-byte Spill
	mov	x8, #50577534877696             // =0x2e0000000000
	mov	w9, #11776                      // =0x2e00
	str	x8, [sp, #128]                  // 8-byte Spill
	mov	w8, #771751936                  // =0x2e000000
	mov	x7, #3314649325744685056        // =0x2e00000000000000
	str	x8, [sp, #136]                  // 8-byte Spill
	mov	w8, #11776                      // =0x2e00
	mov	x13, #50577534877696            // =0x2e0000000000
	str	x8, [sp, #144]                  // 8-byte Spill
	mov	x8, #3314649325744685056        // =0x2e00000000000000
	mov	w0, #771751936                  // =0x2e000000
	str	x8, [sp, #152]                  // 8-byte Spill
	mov	x8, #50577534877696             // =0x2e0000000000
	str	x8, [sp, #168]                  // 8-byte Spill
	mov	w8, #771751936                  // =0x2e000000
	str	x8, [sp, #176]                  // 8-byte Spill
.LBB1_107:                              // %"std_io::io::error::byte_or_dot.exit31.i463"
	mov	w1, #3014656                    // =0x2e0000
.LBB1_108:                              // %"std_io::io::error::byte_or_dot.exit31.i463"
	mov	x30, #197568495616              // =0x2e00000000
.LBB1_109:                              // %"std_io::io::error::byte_or_dot.exit31.i463"
	mov	x26, #12947848928690176         // =0x2e000000000000
.LBB1_110:                              // %"std_io::io::error::byte_or_dot.exit31.i463"
	mov	w8, #46                         // =0x2e
	b	.LBB1_21
.LBB1_111:                              // %"std_io::io::error::byte_or_dot.exit25.i185"
	ldrb	w8, [x3, #35]
	cmp	x4, #37
	lsl	x8, x8, #24
	str	x8, [sp, #176]                  // 8-byte Spill
	b.lo	.LBB1_114
// %bb.112:                             // %"std_io::io::error::byte_or_dot.exit31.i188"
	ldrb	w8, [x3, #36]
	cmp	x4, #37
	lsl	x25, x8, #32
	b.ne	.LBB1_115
// %bb.113:
	mov	w8, #46                         // =0x2e
	mov	x30, #197568495616              // =0x2e00000000
	mov	x2, #12947848928690176          // =0x2e000000000000
	str	w8, [sp, #64]                   // 4-byte Spill
	mov	w8, #11776                      // =0x2e00
	mov	x18, #50577534877696            // =0x2e0000000000
	str	x8, [sp, #72]                   // 8-byte Spill
	mov	x8, #3314649325744685056        // =0x2e00000000000000
	mov	x15, #3314649325744685056       // =0x2e00000000000000
	str	x8, [sp, #80]                   // 8-byte Spill
	mov	x8, #50577534877696             // =0x2e0000000000
	mov	w1, #3014656                    // =0x2e0000
	str	x8, [sp, #88]                   // 8-byte Spill
	mov	w8, #771751936                  // =0x2e000000
	mov	w5, #11776                      // =0x2e00
	str	x8, [sp, #96]                   // 8-byte Spill
	mov	w8, #11776                      // =0x2e00
	mov	w12, #771751936                 // =0x2e000000
	str	x8, [sp, #104]                  // 8-byte Spill
	mov	x8, #3314649325744685056        // =0x2e00000000000000
	mov	w17, #771751936                 // =0x2e000000
	str	x8, [sp, #120]                  // 8-byte Spill
	mov	x8, #50577534877696             // =0x2e0000000000
	mov	w9, #11776                      // =0x2e00
	str	x8, [sp, #128]                  // 8-byte Spill
	mov	w8, #771751936                  // =0x2e000000
	mov	x7, #3314649325744685056        // =0x2e00000000000000
	str	x8, [sp, #136]                  // 8-byte Spill
	mov	w8, #11776                      // =0x2e00
	mov	x13, #50577534877696            // =0x2e0000000000
	str	x8, [sp, #144]                  // 8-byte Spill
	mov	x8, #3314649325744685056        // =0x2e00000000000000
	mov	w0, #771751936                  // =0x2e000000
	str	x8, [sp, #152]                  // 8-byte Spill
	mov	x8, #50577534877696             // =0x2e0000000000
	str	x8, [sp, #168]                  // 8-byte Spill
	b	.LBB1_109
.LBB1_114:
	mov	w8, #46                         // =0x2e
	mov	x2, #12947848928690176          // =0x2e000000000000
	mov	x25, #197568495616              // =0x2e00000000
	str	w8, [sp, #64]                   // 4-byte Spill
	mov	w8, #11776                      // =0x2e00
	mov	x18, #50577534877696            // =0x2e0000000000
	str	x8, [sp, #72]                   // 8-byte Spill
	mov	x8, #3314649325744685056        // =0x2e00000000000000
	mov	x15, #3314649325744685056       // =0x2e00000000000000
	str	x8, [sp, #80]                   // 8-byte Spill
	mov	x8, #50577534877696             // =0x2e0000000000
	mov	w1, #3014656                    // =0x2e0000
	str	x8, [sp, #88]                   // 8-byte Spill
	mov	w8, #771751936                  // =0x2e000000
	mov	w5, #11776                      // =0x2e00
	str	x8, [sp, #96]                   // 8-byte Spill
	mov	w8, #11776                      // =0x2e00
	mov	w12, #771751936                 // =0x2e000000
	str	x8, [sp, #104]                  // 8-byte Spill
	mov	x8, #3314649325744685056        // =0x2e00000000000000
	mov	w17, #771751936                 // =0x2e000000
	str	x8, [sp, #120]                  // 8-byte Spill
	mov	x8, #50577534877696             // =0x2e0000000000
	mov	w9, #11776                      // =0x2e00
	str	x8, [sp, #128]                  // 8-byte Spill
	mov	w8, #771751936                  // =0x2e000000
	mov	x7, #3314649325744685056        // =0x2e00000000000000
	str	x8, [sp, #136]                  // 8-byte Spill
	mov	w8, #11776                      // =0x2e00
	mov	x13, #50577534877696            // =0x2e0000000000
	str	x8, [sp, #144]                  // 8-byte Spill
	mov	x8, #3314649325744685056        // =0x2e00000000000000
	mov	w0, #771751936                  // =0x2e000000
	str	x8, [sp, #152]                  // 8-byte Spill
	mov	x8, #50577534877696             // =0x2e0000000000
	str	x8, [sp, #168]                  // 8-byte Spill
	b	.LBB1_108
.LBB1_115:                              // %"std_io::io::error::byte_or_dot.exit37.i191"
	ldrb	w8, [x3, #37]
	cmp	x4, #39
	lsl	x8, x8, #40
	str	x8, [sp, #168]                  // 8-byte Spill
	b.lo	.LBB1_118
// %bb.116:                             // %"std_io::io::error::byte_or_dot.exit43.i194"
	ldrb	w8, [x3, #38]
	cmp	x4, #39
	lsl	x2, x8, #48
	b.ne	.LBB1_119
// %bb.117:
	mov	w8, #46                         // =0x2e
	mov	x26, #12947848928690176         // =0x2e000000000000
	mov	x30, #197568495616              // =0x2e00000000
	str	w8, [sp, #64]                   // 4-byte Spill
	mov	w8, #11776                      // =0x2e00
	mov	x18, #50577534877696            // =0x2e0000000000
	str	x8, [sp, #72]                   // 8-byte Spill
	mov	x8, #3314649325744685056        // =0x2e00000000000000
	mov	x15, #3314649325744685056       // =0x2e00000000000000
	str	x8, [sp, #80]                   // 8-byte Spill
	mov	x8, #50577534877696             // =0x2e0000000000
	mov	w1, #3014656                    // =0x2e0000
	str	x8, [sp, #88]                   // 8-byte Spill
	mov	w8, #771751936                  // =0x2e000000
	mov	w5, #11776                      // =0x2e00
	str	x8, [sp, #96]                   // 8-byte Spill
	mov	w8, #11776                      // =0x2e00
	mov	w12, #771751936                 // =0x2e000000
	str	x8, [sp, #104]                  // 8-byte Spill
	mov	x8, #3314649325744685056        // =0x2e00000000000000
	mov	w17, #771751936                 // =0x2e000000
	str	x8, [sp, #120]                  // 8-byte Spill
	mov	x8, #50577534877696             // =0x2e0000000000
	mov	w9, #11776                      // =0x2e00
	str	x8, [sp, #128]                  // 8-byte Spill
	mov	w8, #771751936                  // =0x2e000000
	mov	x7, #3314649325744685056        // =0x2e00000000000000
	str	x8, [sp, #136]                  // 8-byte Spill
	mov	w8, #11776                      // =0x2e00
	mov	x13, #50577534877696            // =0x2e0000000000
	str	x8, [sp, #144]                  // 8-byte Spill
	mov	x8, #3314649325744685056        // =0x2e00000000000000
	mov	w0, #771751936                  // =0x2e000000
	str	x8, [sp, #152]                  // 8-byte Spill
	b	.LBB1_110
.LBB1_118:
	mov	w8, #46                         // =0x2e
	mov	x30, #197568495616              // =0x2e00000000
	mov	x2, #12947848928690176          // =0x2e000000000000
	str	w8, [sp, #64]                   // 4-byte Spill
	mov	w8, #11776                      // =0x2e00
	mov	x18, #50577534877696            // =0x2e0000000000
	str	x8, [sp, #72]                   // 8-byte Spill
	mov	x8, #3314649325744685056        // =0x2e00000000000000
	mov	x15, #3314649325744685056       // =0x2e00000000000000
	str	x8, [sp, #80]                   // 8-byte Spill
	mov	x8, #50577534877696             // =0x2e0000000000
	mov	w1, #3014656                    // =0x2e0000
	str	x8, [sp, #88]                   // 8-byte Spill
	mov	w8, #771751936                  // =0x2e000000
	mov	w5, #11776                      // =0x2e00
	str	x8, [sp, #96]                   // 8-byte Spill
	mov	w8, #11776                      // =0x2e00
	mov	w12, #771751936                 // =0x2e000000
	str	x8, [sp, #104]                  // 8-byte Spill
	mov	x8, #3314649325744685056        // =0x2e00000000000000
	mov	w17, #771751936                 // =0x2e000000
	str	x8, [sp, #120]                  // 8-byte Spill
	mov	x8, #50577534877696             // =0x2e0000000000
	mov	w9, #11776                      // =0x2e00
	str	x8, [sp, #128]                  // 8-byte Spill
	mov	w8, #771751936                  // =0x2e000000
	mov	x7, #3314649325744685056        // =0x2e00000000000000
	str	x8, [sp, #136]                  // 8-byte Spill
	mov	w8, #11776                      // =0x2e00
	mov	x13, #50577534877696            // =0x2e0000000000
	str	x8, [sp, #144]                  // 8-byte Spill
	mov	x8, #3314649325744685056        // =0x2e00000000000000
	mov	w0, #771751936                  // =0x2e000000
	str	x8, [sp, #152]                  // 8-byte Spill
	b	.LBB1_109
.LBB1_119:                              // %"std_io::io::error::pack.exit229"
	ldrb	w8, [x3, #39]
	cmp	x4, #41
	lsl	x8, x8, #56
	str	x8, [sp, #152]                  // 8-byte Spill
	b.lo	.LBB1_122
// %bb.120:                             // %"std_io::io::error::byte_or_dot.exit.i231"
	ldrb	w8, [x3, #40]
	cmp	x4, #41
	str	w8, [sp, #64]                   // 4-byte Spill
	b.ne	.LBB1_123
// %bb.121:
	mov	w8, #46                         // =0x2e
	mov	x26, #12947848928690176         // =0x2e000000000000
	mov	x30, #197568495616              // =0x2e00000000
	str	w8, [sp, #60]                   // 4-byte Spill
	mov	w8, #11776                      // =0x2e00
	mov	x18, #50577534877696            // =0x2e0000000000
	str	x8, [sp, #72]                   // 8-byte Spill
	mov	x8, #3314649325744685056        // =0x2e00000000000000
	mov	x15, #3314649325744685056       // =0x2e00000000000000
	str	x8, [sp, #80]                   // 8-byte Spill
	mov	x8, #50577534877696             // =0x2e0000000000
	mov	w1, #3014656                    // =0x2e0000
	str	x8, [sp, #88]                   // 8-byte Spill
	mov	w8, #771751936                  // =0x2e000000
	mov	w5, #11776                      // =0x2e00
	str	x8, [sp, #96]                   // 8-byte Spill
	mov	w8, #11776                      // =0x2e00
	mov	w12, #771751936                 // =0x2e000000
	str	x8, [sp, #104]                  // 8-byte Spill
	mov	x8, #3314649325744685056        // =0x2e00000000000000
	mov	w17, #771751936                 // =0x2e000000
	str	x8, [sp, #120]                  // 8-byte Spill
	mov	x8, #50577534877696             // =0x2e0000000000
	mov	w9, #11776                      // =0x2e00
	str	x8, [sp, #128]                  // 8-byte Spill
	mov	w8, #771751936                  // =0x2e000000
	mov	x7, #3314649325744685056        // =0x2e00000000000000
	str	x8, [sp, #136]                  // 8-byte Spill
	mov	w8, #11776                      // =0x2e00
	mov	x13, #50577534877696            // =0x2e0000000000
	mov	w0, #771751936                  // =0x2e000000
	str	x8, [sp, #144]                  // 8-byte Spill
	b	.LBB1_127
.LBB1_122:
	mov	w8, #46                         // =0x2e
	mov	x26, #12947848928690176         // =0x2e000000000000
	mov	x30, #197568495616              // =0x2e00000000
	str	w8, [sp, #64]                   // 4-byte Spill
	mov	w8, #11776                      // =0x2e00
	mov	x18, #50577534877696            // =0x2e0000000000
	str	x8, [sp, #72]                   // 8-byte Spill
	mov	x8, #3314649325744685056        // =0x2e00000000000000
	mov	x15, #3314649325744685056       // =0x2e00000000000000
	str	x8, [sp, #80]                   // 8-byte Spill
	mov	x8, #50577534877696             // =0x2e0000000000
	mov	w1, #3014656                    // =0x2e0000
	str	x8, [sp, #88]                   // 8-byte Spill
	mov	w8, #771751936                  // =0x2e000000
	mov	w5, #11776                      // =0x2e00
	str	x8, [sp, #96]                   // 8-byte Spill
	mov	w8, #11776                      // =0x2e00
	mov	w12, #771751936                 // =0x2e000000
	str	x8, [sp, #104]                  // 8-byte Spill
	mov	x8, #3314649325744685056        // =0x2e00000000000000
	mov	w17, #771751936                 // =0x2e000000
	str	x8, [sp, #120]                  // 8-byte Spill
	mov	x8, #50577534877696             // =0x2e0000000000
	mov	w9, #11776                      // =0x2e00
	str	x8, [sp, #128]                  // 8-byte Spill
	mov	w8, #771751936                  // =0x2e000000
	mov	x7, #3314649325744685056        // =0x2e00000000000000
	str	x8, [sp, #136]                  // 8-byte Spill
	mov	w8, #11776                      // =0x2e00
	mov	x13, #50577534877696            // =0x2e0000000000
	mov	w0, #771751936                  // =0x2e000000
	str	x8, [sp, #144]                  // 8-byte Spill
	b	.LBB1_110
.LBB1_123:                              // %"std_io::io::error::byte_or_dot.exit13.i234"
	ldrb	w8, [x3, #41]
	cmp	x4, #43
	lsl	x8, x8, #8
	str	x8, [sp, #144]                  // 8-byte Spill
	b.lo	.LBB1_126
// %bb.124:                             // %"std_io::io::error::byte_or_dot.exit19.i237"
	ldrb	w8, [x3, #42]
	cmp	x4, #43
	lsl	x1, x8, #16
	b.ne	.LBB1_131
// %bb.125:
	mov	w8, #46                         // =0x2e
	mov	x26, #12947848928690176         // =0x2e000000000000
	mov	x30, #197568495616              // =0x2e00000000
	str	w8, [sp, #60]                   // 4-byte Spill
	mov	w8, #11776                      // =0x2e00
	mov	x18, #50577534877696            // =0x2e0000000000
	str	x8, [sp, #72]                   // 8-byte Spill
	mov	x8, #3314649325744685056        // =0x2e00000000000000
	mov	x15, #3314649325744685056       // =0x2e00000000000000
	str	x8, [sp, #80]                   // 8-byte Spill
	mov	x8, #50577534877696             // =0x2e0000000000
	mov	w27, #3014656                   // =0x2e0000
	str	x8, [sp, #88]                   // 8-byte Spill
	mov	w8, #771751936                  // =0x2e000000
	mov	w5, #11776                      // =0x2e00
	str	x8, [sp, #96]                   // 8-byte Spill
	mov	w8, #11776                      // =0x2e00
	mov	w12, #771751936                 // =0x2e000000
	str	x8, [sp, #104]                  // 8-byte Spill
	mov	x8, #3314649325744685056        // =0x2e00000000000000
	mov	w17, #771751936                 // =0x2e000000
	str	x8, [sp, #120]                  // 8-byte Spill
	mov	x8, #50577534877696             // =0x2e0000000000
	mov	w9, #11776                      // =0x2e00
	str	x8, [sp, #128]                  // 8-byte Spill
	mov	w8, #771751936                  // =0x2e000000
	mov	x7, #3314649325744685056        // =0x2e00000000000000
	mov	x13, #50577534877696            // =0x2e0000000000
	mov	w0, #771751936                  // =0x2e000000
	str	x8, [sp, #136]                  // 8-byte Spill
	b	.LBB1_128
.LBB1_126:
	mov	w8, #46                         // =0x2e
	mov	x26, #12947848928690176         // =0x2e000000000000
	mov	x30, #197568495616              // =0x2e00000000
	str	w8, [sp, #60]                   // 4-byte Spill
	mov	w8, #11776                      // =0x2e00
	mov	x18, #50577534877696            // =0x2e0000000000
	str	x8, [sp, #72]                   // 8-byte Spill
	mov	x8, #3314649325744685056        // =0x2e00000000000000
	mov	x15, #3314649325744685056       // =0x2e00000000000000
	str	x8, [sp, #80]                   // 8-byte Spill
	mov	x8, #50577534877696             // =0x2e0000000000
	mov	w1, #3014656                    // =0x2e0000
	str	x8, [sp, #88]                   // 8-byte Spill
	mov	w8, #771751936                  // =0x2e000000
	mov	w5, #11776                      // =0x2e00
	str	x8, [sp, #96]                   // 8-byte Spill
	mov	w8, #11776                      // =0x2e00
	mov	w12, #771751936                 // =0x2e000000
	str	x8, [sp, #104]                  // 8-byte Spill
	mov	x8, #3314649325744685056        // =0x2e00000000000000
	mov	w17, #771751936                 // =0x2e000000
	str	x8, [sp, #120]                  // 8-byte Spill
	mov	x8, #50577534877696             // =0x2e0000000000
	mov	w9, #11776                      // =0x2e00
	mov	x7, #3314649325744685056        // =0x2e00000000000000
	mov	x13, #50577534877696            // =0x2e0000000000
	mov	w0, #771751936                  // =0x2e000000
	str	x8, [sp, #128]                  // 8-byte Spill
	mov	w8, #771751936                  // =0x2e000000
	str	x8, [sp, #136]                  // 8-byte Spill
.LBB1_127:                              // %"std_io::io::error::byte_or_dot.exit31.i463"
	mov	w27, #3014656                   // =0x2e0000
.LBB1_128:                              // %"std_io::io::error::byte_or_dot.exit31.i463"
	mov	x28, #197568495616              // =0x2e00000000
.LBB1_129:                              // %"std_io::io::error::byte_or_dot.exit31.i463"
	mov	x6, #12947848928690176          // =0x2e000000000000
.LBB1_130:                              // %"std_io::io::error::byte_or_dot.exit31.i463"
	mov	w8, #46                         // =0x2e
	b	.LBB1_22
.LBB1_131:                              // %"std_io::io::error::byte_or_dot.exit25.i240"
	ldrb	w8, [x3, #43]
	cmp	x4, #45
	lsl	x8, x8, #24
	str	x8, [sp, #136]                  // 8-byte Spill
	b.lo	.LBB1_134
// %bb.132:                             // %"std_io::io::error::byte_or_dot.exit31.i243"
	ldrb	w8, [x3, #44]
	cmp	x4, #45
	lsl	x30, x8, #32
	b.ne	.LBB1_135
// %bb.133:
	mov	w8, #46                         // =0x2e
	mov	x28, #197568495616              // =0x2e00000000
	mov	x26, #12947848928690176         // =0x2e000000000000
	str	w8, [sp, #60]                   // 4-byte Spill
	mov	w8, #11776                      // =0x2e00
	mov	x18, #50577534877696            // =0x2e0000000000
	str	x8, [sp, #72]                   // 8-byte Spill
	mov	x8, #3314649325744685056        // =0x2e00000000000000
	mov	x15, #3314649325744685056       // =0x2e00000000000000
	str	x8, [sp, #80]                   // 8-byte Spill
	mov	x8, #50577534877696             // =0x2e0000000000
	mov	w27, #3014656                   // =0x2e0000
	str	x8, [sp, #88]                   // 8-byte Spill
	mov	w8, #771751936                  // =0x2e000000
	mov	w5, #11776                      // =0x2e00
	str	x8, [sp, #96]                   // 8-byte Spill
	mov	w8, #11776                      // =0x2e00
	mov	w12, #771751936                 // =0x2e000000
	str	x8, [sp, #104]                  // 8-byte Spill
	mov	x8, #3314649325744685056        // =0x2e00000000000000
	mov	w17, #771751936                 // =0x2e000000
	str	x8, [sp, #120]                  // 8-byte Spill
	mov	x8, #50577534877696             // =0x2e0000000000
	mov	w9, #11776                      // =0x2e00
	mov	x7, #3314649325744685056        // =0x2e00000000000000
	mov	x13, #50577534877696            // =0x2e0000000000
	mov	w0, #771751936                  // =0x2e000000
	str	x8, [sp, #128]                  // 8-byte Spill
	b	.LBB1_129
.LBB1_134:
	mov	w8, #46                         // =0x2e
	mov	x26, #12947848928690176         // =0x2e000000000000
	mov	x30, #197568495616              // =0x2e00000000
	str	w8, [sp, #60]                   // 4-byte Spill
	mov	w8, #11776                      // =0x2e00
	mov	x18, #50577534877696            // =0x2e0000000000
	str	x8, [sp, #72]                   // 8-byte Spill
	mov	x8, #3314649325744685056        // =0x2e00000000000000
	mov	x15, #3314649325744685056       // =0x2e00000000000000
	str	x8, [sp, #80]                   // 8-byte Spill
	mov	x8, #50577534877696             // =0x2e0000000000
	mov	w27, #3014656                   // =0x2e0000
	str	x8, [sp, #88]                   // 8-byte Spill
	mov	w8, #771751936                  // =0x2e000000
	mov	w5, #11776                      // =0x2e00
	str	x8, [sp, #96]                   // 8-byte Spill
	mov	w8, #11776                      // =0x2e00
	mov	w12, #771751936                 // =0x2e000000
	str	x8, [sp, #104]                  // 8-byte Spill
	mov	x8, #3314649325744685056        // =0x2e00000000000000
	mov	w17, #771751936                 // =0x2e000000
	str	x8, [sp, #120]                  // 8-byte Spill
	mov	x8, #50577534877696             // =0x2e0000000000
	mov	w9, #11776                      // =0x2e00
	mov	x7, #3314649325744685056        // =0x2e00000000000000
	mov	x13, #50577534877696            // =0x2e0000000000
	mov	w0, #771751936                  // =0x2e000000
	str	x8, [sp, #128]                  // 8-byte Spill
	b	.LBB1_128
.LBB1_135:                              // %"std_io::io::error::byte_or_dot.exit37.i246"
	ldrb	w8, [x3, #45]
	cmp	x4, #47
	lsl	x8, x8, #40
	str	x8, [sp, #128]                  // 8-byte Spill
	b.lo	.LBB1_138
// %bb.136:                             // %"std_io::io::error::byte_or_dot.exit43.i249"
	ldrb	w8, [x3, #46]
	cmp	x4, #47
	lsl	x26, x8, #48
	b.ne	.LBB1_139
// %bb.137:
	mov	w8, #46                         // =0x2e
	mov	x6, #12947848928690176          // =0x2e000000000000
	mov	x28, #197568495616              // =0x2e00000000
	str	w8, [sp, #60]                   // 4-byte Spill
	mov	w8, #11776                      // =0x2e00
	mov	x18, #50577534877696            // =0x2e0000000000
	str	x8, [sp, #72]                   // 8-byte Spill
	mov	x8, #3314649325744685056        // =0x2e00000000000000
	mov	x15, #3314649325744685056       // =0x2e00000000000000
	str	x8, [sp, #80]                   // 8-byte Spill
	mov	x8, #50577534877696             // =0x2e0000000000
	mov	w27, #3014656                   // =0x2e0000
	str	x8, [sp, #88]                   // 8-byte Spill
	mov	w8, #771751936                  // =0x2e000000
	mov	w5, #11776                      // =0x2e00
	str	x8, [sp, #96]                   // 8-byte Spill
	mov	w8, #11776                      // =0x2e00
	mov	w12, #771751936                 // =0x2e000000
	str	x8, [sp, #104]                  // 8-byte Spill
	mov	x8, #3314649325744685056        // =0x2e00000000000000
	mov	w17, #771751936                 // =0x2e000000
	mov	w9, #11776                      // =0x2e00
	mov	x7, #3314649325744685056        // =0x2e00000000000000
	mov	x13, #50577534877696            // =0x2e0000000000
	mov	w0, #771751936                  // =0x2e000000
	str	x8, [sp, #120]                  // 8-byte Spill
	b	.LBB1_130
.LBB1_138:
	mov	w8, #46                         // =0x2e
	mov	x28, #197568495616              // =0x2e00000000
	mov	x26, #12947848928690176         // =0x2e000000000000
	str	w8, [sp, #60]                   // 4-byte Spill
	mov	w8, #11776                      // =0x2e00
	mov	x18, #50577534877696            // =0x2e0000000000
	str	x8, [sp, #72]                   // 8-byte Spill
	mov	x8, #3314649325744685056        // =0x2e00000000000000
	mov	x15, #3314649325744685056       // =0x2e00000000000000
	str	x8, [sp, #80]                   // 8-byte Spill
	mov	x8, #50577534877696             // =0x2e0000000000
	mov	w27, #3014656                   // =0x2e0000
	str	x8, [sp, #88]                   // 8-byte Spill
	mov	w8, #771751936                  // =0x2e000000
	mov	w5, #11776                      // =0x2e00
	str	x8, [sp, #96]                   // 8-byte Spill
	mov	w8, #11776                      // =0x2e00
	mov	w12, #771751936                 // =0x2e000000
	str	x8, [sp, #104]                  // 8-byte Spill
	mov	x8, #3314649325744685056        // =0x2e00000000000000
	mov	w17, #771751936                 // =0x2e000000
	mov	w9, #11776                      // =0x2e00
	mov	x7, #3314649325744685056        // =0x2e00000000000000
	mov	x13, #50577534877696            // =0x2e0000000000
	mov	w0, #771751936                  // =0x2e000000
	str	x8, [sp, #120]                  // 8-byte Spill
	b	.LBB1_129
.LBB1_139:                              // %"std_io::io::error::pack.exit284"
	ldrb	w8, [x3, #47]
	cmp	x4, #49
	lsl	x8, x8, #56
	str	x8, [sp, #120]                  // 8-byte Spill
	b.lo	.LBB1_142
// %bb.140:                             // %"std_io::io::error::byte_or_dot.exit.i286"
	ldrb	w8, [x3, #48]
	cmp	x4, #49
	str	w8, [sp, #60]                   // 4-byte Spill
	b.ne	.LBB1_143
// %bb.141:
	mov	w8, #46                         // =0x2e
	mov	x6, #12947848928690176          // =0x2e000000000000
	mov	x28, #197568495616              // =0x2e00000000
	str	w8, [sp, #56]                   // 4-byte Spill
	mov	w8, #11776                      // =0x2e00
	mov	x18, #50577534877696            // =0x2e0000000000
	str	x8, [sp, #72]                   // 8-byte Spill
	mov	x8, #3314649325744685056        // =0x2e00000000000000
	mov	x15, #3314649325744685056       // =0x2e00000000000000
	str	x8, [sp, #80]                   // 8-byte Spill
	mov	x8, #50577534877696             // =0x2e0000000000
	mov	w27, #3014656                   // =0x2e0000
	str	x8, [sp, #88]                   // 8-byte Spill
	mov	w8, #771751936                  // =0x2e000000
	mov	w5, #11776                      // =0x2e00
	str	x8, [sp, #96]                   // 8-byte Spill
	mov	w8, #11776                      // =0x2e00
	mov	w12, #771751936                 // =0x2e000000
	mov	w17, #771751936                 // =0x2e000000
	mov	w9, #11776                      // =0x2e00
	mov	x7, #3314649325744685056        // =0x2e00000000000000
	mov	x13, #50577534877696            // =0x2e0000000000
	mov	w0, #771751936                  // =0x2e000000
	str	x8, [sp, #104]                  // 8-byte Spill
	b	.LBB1_147
.LBB1_142:
	mov	w8, #46                         // =0x2e
	mov	x6, #12947848928690176          // =0x2e000000000000
	mov	x28, #197568495616              // =0x2e00000000
	str	w8, [sp, #60]                   // 4-byte Spill
	mov	w8, #11776                      // =0x2e00
	mov	x18, #50577534877696            // =0x2e0000000000
	str	x8, [sp, #72]                   // 8-byte Spill
	mov	x8, #3314649325744685056        // =0x2e00000000000000
	mov	x15, #3314649325744685056       // =0x2e00000000000000
	str	x8, [sp, #80]                   // 8-byte Spill
	mov	x8, #50577534877696             // =0x2e0000000000
	mov	w27, #3014656                   // =0x2e0000
	str	x8, [sp, #88]                   // 8-byte Spill
	mov	w8, #771751936                  // =0x2e000000
	mov	w5, #11776                      // =0x2e00
	str	x8, [sp, #96]                   // 8-byte Spill
	mov	w8, #11776                      // =0x2e00
	mov	w12, #771751936                 // =0x2e000000
	mov	w17, #771751936                 // =0x2e000000
	mov	w9, #11776                      // =0x2e00
	mov	x7, #3314649325744685056        // =0x2e00000000000000
	mov	x13, #50577534877696            // =0x2e0000000000
	mov	w0, #771751936                  // =0x2e000000
	str	x8, [sp, #104]                  // 8-byte Spill
	b	.LBB1_130
.LBB1_143:                              // %"std_io::io::error::byte_or_dot.exit13.i289"
	ldrb	w8, [x3, #49]
	cmp	x4, #51
	lsl	x8, x8, #8
	str	x8, [sp, #104]                  // 8-byte Spill
	b.lo	.LBB1_146
// %bb.144:                             // %"std_io::io::error::byte_or_dot.exit19.i292"
	ldrb	w8, [x3, #50]
	cmp	x4, #51
	lsl	x27, x8, #16
	b.ne	.LBB1_151
// %bb.145:
	mov	w8, #46                         // =0x2e
	mov	x6, #12947848928690176          // =0x2e000000000000
	mov	x28, #197568495616              // =0x2e00000000
	str	w8, [sp, #56]                   // 4-byte Spill
	mov	w8, #11776                      // =0x2e00
	mov	x18, #50577534877696            // =0x2e0000000000
	str	x8, [sp, #72]                   // 8-byte Spill
	mov	x8, #3314649325744685056        // =0x2e00000000000000
	mov	x15, #3314649325744685056       // =0x2e00000000000000
	str	x8, [sp, #80]                   // 8-byte Spill
	mov	x8, #50577534877696             // =0x2e0000000000
	mov	w19, #3014656                   // =0x2e0000
	str	x8, [sp, #88]                   // 8-byte Spill
	mov	w8, #771751936                  // =0x2e000000
	mov	w5, #11776                      // =0x2e00
	mov	w12, #771751936                 // =0x2e000000
	mov	w17, #771751936                 // =0x2e000000
	mov	w9, #11776                      // =0x2e00
	mov	x7, #3314649325744685056        // =0x2e00000000000000
	mov	x13, #50577534877696            // =0x2e0000000000
	mov	w0, #771751936                  // =0x2e000000
	str	x8, [sp, #96]                   // 8-byte Spill
	b	.LBB1_148
.LBB1_146:
	mov	w8, #46                         // =0x2e
	mov	x6, #12947848928690176          // =0x2e000000000000
	mov	x28, #197568495616              // =0x2e00000000
	str	w8, [sp, #56]                   // 4-byte Spill
	mov	w8, #11776                      // =0x2e00
	mov	x18, #50577534877696            // =0x2e0000000000
	str	x8, [sp, #72]                   // 8-byte Spill
	mov	x8, #3314649325744685056        // =0x2e00000000000000
	mov	x15, #3314649325744685056       // =0x2e00000000000000
	str	x8, [sp, #80]                   // 8-byte Spill
	mov	x8, #50577534877696             // =0x2e0000000000
	mov	w27, #3014656                   // =0x2e0000
	mov	w5, #11776                      // =0x2e00
	mov	w12, #771751936                 // =0x2e000000
	mov	w17, #771751936                 // =0x2e000000
	mov	w9, #11776                      // =0x2e00
	mov	x7, #3314649325744685056        // =0x2e00000000000000
	mov	x13, #50577534877696            // =0x2e0000000000
	mov	w0, #771751936                  // =0x2e000000
	str	x8, [sp, #88]                   // 8-byte Spill
	mov	w8, #771751936                  // =0x2e000000
	str	x8, [sp, #96]                   // 8-byte Spill
.LBB1_147:                              // %"std_io::io::error::byte_or_dot.exit31.i463"
	mov	w19, #3014656                   // =0x2e0000
.LBB1_148:                              // %"std_io::io::error::byte_or_dot.exit31.i463"
	mov	x20, #197568495616              // =0x2e00000000
.LBB1_149:                              // %"std_io::io::error::byte_or_dot.exit31.i463"
	mov	x21, #12947848928690176         // =0x2e000000000000
.LBB1_150:                              // %"std_io::io::error::byte_or_dot.exit31.i463"
	mov	w8, #46                         // =0x2e
	b	.LBB1_23
.LBB1_151:                              // %"std_io::io::error::byte_or_dot.exit25.i295"
	ldrb	w8, [x3, #51]
	cmp	x4, #53
	lsl	x8, x8, #24
	str	x8, [sp, #96]                   // 8-byte Spill
	b.lo	.LBB1_154
// %bb.152:                             // %"std_io::io::error::byte_or_dot.exit31.i298"
	ldrb	w8, [x3, #52]
	cmp	x4, #53
	lsl	x28, x8, #32
	b.ne	.LBB1_155
// %bb.153:
	mov	w8, #46                         // =0x2e
	mov	x20, #197568495616              // =0x2e00000000
	mov	x6, #12947848928690176          // =0x2e000000000000
	str	w8, [sp, #56]                   // 4-byte Spill
	mov	w8, #11776                      // =0x2e00
	mov	x18, #50577534877696            // =0x2e0000000000
	str	x8, [sp, #72]                   // 8-byte Spill
	mov	x8, #3314649325744685056        // =0x2e00000000000000
	mov	x15, #3314649325744685056       // =0x2e00000000000000
	str	x8, [sp, #80]                   // 8-byte Spill
	mov	x8, #50577534877696             // =0x2e0000000000
	mov	w19, #3014656                   // =0x2e0000
	mov	w5, #11776                      // =0x2e00
	mov	w12, #771751936                 // =0x2e000000
	mov	w17, #771751936                 // =0x2e000000
	mov	w9, #11776                      // =0x2e00
	mov	x7, #3314649325744685056        // =0x2e00000000000000
	mov	x13, #50577534877696            // =0x2e0000000000
	mov	w0, #771751936                  // =0x2e000000
	str	x8, [sp, #88]                   // 8-byte Spill
	b	.LBB1_149
.LBB1_154:
	mov	w8, #46                         // =0x2e
	mov	x6, #12947848928690176          // =0x2e000000000000
	mov	x28, #197568495616              // =0x2e00000000
	str	w8, [sp, #56]                   // 4-byte Spill
	mov	w8, #11776                      // =0x2e00
	mov	x18, #50577534877696            // =0x2e0000000000
	str	x8, [sp, #72]                   // 8-byte Spill
	mov	x8, #3314649325744685056        // =0x2e00000000000000
	mov	x15, #3314649325744685056       // =0x2e00000000000000
	str	x8, [sp, #80]                   // 8-byte Spill
	mov	x8, #50577534877696             // =0x2e0000000000
	mov	w19, #3014656                   // =0x2e0000
	mov	w5, #11776                      // =0x2e00
	mov	w12, #771751936                 // =0x2e000000
	mov	w17, #771751936                 // =0x2e000000
	mov	w9, #11776                      // =0x2e00
	mov	x7, #3314649325744685056        // =0x2e00000000000000
	mov	x13, #50577534877696            // =0x2e0000000000
	mov	w0, #771751936                  // =0x2e000000
	str	x8, [sp, #88]                   // 8-byte Spill
	b	.LBB1_148
.LBB1_155:                              // %"std_io::io::error::byte_or_dot.exit37.i301"
	ldrb	w8, [x3, #53]
	cmp	x4, #55
	lsl	x8, x8, #40
	str	x8, [sp, #88]                   // 8-byte Spill
	b.lo	.LBB1_158
// %bb.156:                             // %"std_io::io::error::byte_or_dot.exit43.i304"
	ldrb	w8, [x3, #54]
	cmp	x4, #55
	lsl	x6, x8, #48
	b.ne	.LBB1_159
// %bb.157:
	mov	w8, #46                         // =0x2e
	mov	x21, #12947848928690176         // =0x2e000000000000
	mov	x20, #197568495616              // =0x2e00000000
	str	w8, [sp, #56]                   // 4-byte Spill
	mov	w8, #11776                      // =0x2e00
	mov	x18, #50577534877696            // =0x2e0000000000
	str	x8, [sp, #72]                   // 8-byte Spill
	mov	x8, #3314649325744685056        // =0x2e00000000000000
	mov	x15, #3314649325744685056       // =0x2e00000000000000
	mov	w19, #3014656                   // =0x2e0000
	mov	w5, #11776                      // =0x2e00
	mov	w12, #771751936                 // =0x2e000000
	mov	w17, #771751936                 // =0x2e000000
	mov	w9, #11776                      // =0x2e00
	mov	x7, #3314649325744685056        // =0x2e00000000000000
	mov	x13, #50577534877696            // =0x2e0000000000
	mov	w0, #771751936                  // =0x2e000000
	str	x8, [sp, #80]                   // 8-byte Spill
	b	.LBB1_150
.LBB1_158:
	mov	w8, #46                         // =0x2e
	mov	x20, #197568495616              // =0x2e00000000
	mov	x6, #12947848928690176          // =0x2e000000000000
	str	w8, [sp, #56]                   // 4-byte Spill
	mov	w8, #11776                      // =0x2e00
	mov	x18, #50577534877696            // =0x2e0000000000
	str	x8, [sp, #72]                   // 8-byte Spill
	mov	x8, #3314649325744685056        // =0x2e00000000000000
	mov	x15, #3314649325744685056       // =0x2e00000000000000
	mov	w19, #3014656                   // =0x2e0000
	mov	w5, #11776                      // =0x2e00
	mov	w12, #771751936                 // =0x2e000000
	mov	w17, #771751936                 // =0x2e000000
	mov	w9, #11776                      // =0x2e00
	mov	x7, #3314649325744685056        // =0x2e00000000000000
	mov	x13, #50577534877696            // =0x2e0000000000
	mov	w0, #771751936                  // =0x2e000000
	str	x8, [sp, #80]                   // 8-byte Spill
	b	.LBB1_149
.LBB1_159:                              // %"std_io::io::error::pack.exit339"
	ldrb	w8, [x3, #55]
	cmp	x4, #57
	lsl	x8, x8, #56
	str	x8, [sp, #80]                   // 8-byte Spill
	b.lo	.LBB1_162
// %bb.160:                             // %"std_io::io::error::byte_or_dot.exit.i341"
	ldrb	w8, [x3, #56]
	cmp	x4, #57
	str	w8, [sp, #56]                   // 4-byte Spill
	b.ne	.LBB1_163
// %bb.161:
	mov	w8, #46                         // =0x2e
	mov	x21, #12947848928690176         // =0x2e000000000000
	mov	x20, #197568495616              // =0x2e00000000
	str	w8, [sp, #52]                   // 4-byte Spill
	mov	w8, #11776                      // =0x2e00
	mov	x18, #50577534877696            // =0x2e0000000000
	mov	x15, #3314649325744685056       // =0x2e00000000000000
	mov	w19, #3014656                   // =0x2e0000
	mov	w5, #11776                      // =0x2e00
	mov	w12, #771751936                 // =0x2e000000
	mov	w17, #771751936                 // =0x2e000000
	mov	w9, #11776                      // =0x2e00
	mov	x7, #3314649325744685056        // =0x2e00000000000000
	mov	x13, #50577534877696            // =0x2e0000000000
	mov	w0, #771751936                  // =0x2e000000
	str	x8, [sp, #72]                   // 8-byte Spill
	b	.LBB1_24
.LBB1_162:
	mov	w8, #46                         // =0x2e
	mov	x21, #12947848928690176         // =0x2e000000000000
	mov	x20, #197568495616              // =0x2e00000000
	str	w8, [sp, #56]                   // 4-byte Spill
	mov	w8, #11776                      // =0x2e00
	mov	x18, #50577534877696            // =0x2e0000000000
	mov	x15, #3314649325744685056       // =0x2e00000000000000
	mov	w19, #3014656                   // =0x2e0000
	mov	w5, #11776                      // =0x2e00
	mov	w12, #771751936                 // =0x2e000000
	mov	w17, #771751936                 // =0x2e000000
	mov	w9, #11776                      // =0x2e00
	mov	x7, #3314649325744685056        // =0x2e00000000000000
	mov	x13, #50577534877696            // =0x2e0000000000
	mov	w0, #771751936                  // =0x2e000000
	str	x8, [sp, #72]                   // 8-byte Spill
	b	.LBB1_150
.LBB1_163:                              // %"std_io::io::error::byte_or_dot.exit13.i344"
	ldrb	w8, [x3, #57]
	cmp	x4, #59
	lsl	x8, x8, #8
	str	x8, [sp, #72]                   // 8-byte Spill
	b.lo	.LBB1_166
// %bb.164:                             // %"std_io::io::error::byte_or_dot.exit19.i347"
	ldrb	w8, [x3, #58]
	cmp	x4, #59
	lsl	x19, x8, #16
	b.ne	.LBB1_167
// %bb.165:
	mov	w8, #46                         // =0x2e
	mov	x21, #12947848928690176         // =0x2e000000000000
	mov	x20, #197568495616              // =0x2e00000000
	str	w8, [sp, #52]                   // 4-byte Spill
	mov	x18, #50577534877696            // =0x2e0000000000
	mov	x15, #3314649325744685056       // =0x2e00000000000000
	mov	w23, #3014656                   // =0x2e0000
	mov	w5, #11776                      // =0x2e00
	mov	w12, #771751936                 // =0x2e000000
	mov	w17, #771751936                 // =0x2e000000
	mov	w9, #11776                      // =0x2e00
	mov	x7, #3314649325744685056        // =0x2e00000000000000
	mov	x13, #50577534877696            // =0x2e0000000000
	mov	w0, #771751936                  // =0x2e000000
	b	.LBB1_25
.LBB1_166:
	mov	w8, #46                         // =0x2e
	mov	x21, #12947848928690176         // =0x2e000000000000
	mov	x20, #197568495616              // =0x2e00000000
	str	w8, [sp, #52]                   // 4-byte Spill
	mov	x18, #50577534877696            // =0x2e0000000000
	mov	x15, #3314649325744685056       // =0x2e00000000000000
	mov	w19, #3014656                   // =0x2e0000
	mov	w5, #11776                      // =0x2e00
	mov	w12, #771751936                 // =0x2e000000
	mov	w17, #771751936                 // =0x2e000000
	mov	w9, #11776                      // =0x2e00
	mov	x7, #3314649325744685056        // =0x2e00000000000000
	mov	x13, #50577534877696            // =0x2e0000000000
	mov	w0, #771751936                  // =0x2e000000
	b	.LBB1_24
.LBB1_167:                              // %"std_io::io::error::byte_or_dot.exit25.i350"
	ldrb	w8, [x3, #59]
	cmp	x4, #61
	lsl	x0, x8, #24
	b.lo	.LBB1_170
// %bb.168:                             // %"std_io::io::error::byte_or_dot.exit31.i353"
	ldrb	w8, [x3, #60]
	cmp	x4, #61
	lsl	x20, x8, #32
	b.ne	.LBB1_171
// %bb.169:
	mov	w8, #46                         // =0x2e
	mov	x24, #197568495616              // =0x2e00000000
	mov	x21, #12947848928690176         // =0x2e000000000000
	str	w8, [sp, #52]                   // 4-byte Spill
	mov	x18, #50577534877696            // =0x2e0000000000
	mov	x15, #3314649325744685056       // =0x2e00000000000000
	mov	w23, #3014656                   // =0x2e0000
	mov	w5, #11776                      // =0x2e00
	mov	w12, #771751936                 // =0x2e000000
	mov	w17, #771751936                 // =0x2e000000
	mov	w9, #11776                      // =0x2e00
	mov	x7, #3314649325744685056        // =0x2e00000000000000
	mov	x13, #50577534877696            // =0x2e0000000000
	b	.LBB1_26
.LBB1_170:
	mov	w8, #46                         // =0x2e
	mov	x21, #12947848928690176         // =0x2e000000000000
	mov	x20, #197568495616              // =0x2e00000000
	str	w8, [sp, #52]                   // 4-byte Spill
	mov	x18, #50577534877696            // =0x2e0000000000
	mov	x15, #3314649325744685056       // =0x2e00000000000000
	mov	w23, #3014656                   // =0x2e0000
	mov	w5, #11776                      // =0x2e00
	mov	w12, #771751936                 // =0x2e000000
	mov	w17, #771751936                 // =0x2e000000
	mov	w9, #11776                      // =0x2e00
	mov	x7, #3314649325744685056        // =0x2e00000000000000
	mov	x13, #50577534877696            // =0x2e0000000000
	b	.LBB1_25
.LBB1_171:                              // %"std_io::io::error::byte_or_dot.exit37.i356"
	ldrb	w8, [x3, #61]
	cmp	x4, #63
	lsl	x13, x8, #40
	b.lo	.LBB1_174
// %bb.172:                             // %"std_io::io::error::byte_or_dot.exit43.i359"
	ldrb	w8, [x3, #62]
	cmp	x4, #63
	lsl	x21, x8, #48
	b.ne	.LBB1_175
// %bb.173:
	mov	w8, #46                         // =0x2e
	mov	x16, #12947848928690176         // =0x2e000000000000
	mov	x24, #197568495616              // =0x2e00000000
	str	w8, [sp, #52]                   // 4-byte Spill
	mov	x18, #50577534877696            // =0x2e0000000000
	mov	x15, #3314649325744685056       // =0x2e00000000000000
	mov	w23, #3014656                   // =0x2e0000
	mov	w5, #11776                      // =0x2e00
	mov	w12, #771751936                 // =0x2e000000
	mov	w17, #771751936                 // =0x2e000000
	mov	w9, #11776                      // =0x2e00
	mov	x7, #3314649325744685056        // =0x2e00000000000000
	b	.LBB1_27
.LBB1_174:
	mov	w8, #46                         // =0x2e
	mov	x24, #197568495616              // =0x2e00000000
	mov	x21, #12947848928690176         // =0x2e000000000000
	str	w8, [sp, #52]                   // 4-byte Spill
	mov	x18, #50577534877696            // =0x2e0000000000
	mov	x15, #3314649325744685056       // =0x2e00000000000000
	mov	w23, #3014656                   // =0x2e0000
	mov	w5, #11776                      // =0x2e00
	mov	w12, #771751936                 // =0x2e000000
	mov	w17, #771751936                 // =0x2e000000
	mov	w9, #11776                      // =0x2e00
	mov	x7, #3314649325744685056        // =0x2e00000000000000
	b	.LBB1_26
.LBB1_175:                              // %"std_io::io::error::pack.exit394"
	ldrb	w8, [x3, #63]
	cmp	x4, #65
	lsl	x7, x8, #56
	b.lo	.LBB1_178
// %bb.176:                             // %"std_io::io::error::byte_or_dot.exit.i396"
	ldrb	w8, [x3, #64]
	cmp	x4, #65
	str	w8, [sp, #52]                   // 4-byte Spill
	b.ne	.LBB1_179
// %bb.177:
	mov	w11, #46                        // =0x2e
	mov	x16, #12947848928690176         // =0x2e000000000000
	mov	x24, #197568495616              // =0x2e00000000
	mov	x18, #50577534877696            // =0x2e0000000000
	mov	x15, #3314649325744685056       // =0x2e00000000000000
	mov	w23, #3014656                   // =0x2e0000
	mov	w5, #11776                      // =0x2e00
	mov	w12, #771751936                 // =0x2e000000
	mov	w17, #771751936                 // =0x2e000000
	mov	w9, #11776                      // =0x2e00
	b	.LBB1_28
.LBB1_178:
	mov	w8, #46                         // =0x2e
	mov	x16, #12947848928690176         // =0x2e000000000000
	mov	x24, #197568495616              // =0x2e00000000
	str	w8, [sp, #52]                   // 4-byte Spill
	mov	x18, #50577534877696            // =0x2e0000000000
	mov	x15, #3314649325744685056       // =0x2e00000000000000
	mov	w23, #3014656                   // =0x2e0000
	mov	w5, #11776                      // =0x2e00
	mov	w12, #771751936                 // =0x2e000000
	mov	w17, #771751936                 // =0x2e000000
	mov	w9, #11776                      // =0x2e00
	b	.LBB1_27
.LBB1_179:                              // %"std_io::io::error::byte_or_dot.exit13.i399"
	ldrb	w8, [x3, #65]
	cmp	x4, #67
	lsl	x9, x8, #8
	b.lo	.LBB1_182
// %bb.180:                             // %"std_io::io::error::byte_or_dot.exit19.i402"
	ldrb	w8, [x3, #66]
	cmp	x4, #67
	lsl	x23, x8, #16
	b.ne	.LBB1_183
// %bb.181:
	mov	w11, #46                        // =0x2e
	mov	x16, #12947848928690176         // =0x2e000000000000
	mov	x24, #197568495616              // =0x2e00000000
	mov	x18, #50577534877696            // =0x2e0000000000
	mov	x15, #3314649325744685056       // =0x2e00000000000000
	mov	w14, #3014656                   // =0x2e0000
	mov	w5, #11776                      // =0x2e00
	mov	w12, #771751936                 // =0x2e000000
	mov	w17, #771751936                 // =0x2e000000
	b	.LBB1_29
.LBB1_182:
	mov	w11, #46                        // =0x2e
	mov	x16, #12947848928690176         // =0x2e000000000000
	mov	x24, #197568495616              // =0x2e00000000
	mov	x18, #50577534877696            // =0x2e0000000000
	mov	x15, #3314649325744685056       // =0x2e00000000000000
	mov	w23, #3014656                   // =0x2e0000
	mov	w5, #11776                      // =0x2e00
	mov	w12, #771751936                 // =0x2e000000
	mov	w17, #771751936                 // =0x2e000000
	b	.LBB1_28
.LBB1_183:                              // %"std_io::io::error::byte_or_dot.exit25.i405"
	ldrb	w8, [x3, #67]
	cmp	x4, #69
	lsl	x17, x8, #24
	b.lo	.LBB1_186
// %bb.184:                             // %"std_io::io::error::byte_or_dot.exit31.i408"
	ldrb	w8, [x3, #68]
	cmp	x4, #69
	lsl	x24, x8, #32
	b.ne	.LBB1_187
// %bb.185:
	mov	x8, #197568495616               // =0x2e00000000
	mov	w11, #46                        // =0x2e
	mov	x16, #12947848928690176         // =0x2e000000000000
	mov	x18, #50577534877696            // =0x2e0000000000
	b	.LBB1_191
.LBB1_186:
	mov	w11, #46                        // =0x2e
	mov	x16, #12947848928690176         // =0x2e000000000000
	mov	x24, #197568495616              // =0x2e00000000
	mov	x18, #50577534877696            // =0x2e0000000000
	mov	x15, #3314649325744685056       // =0x2e00000000000000
	mov	w14, #3014656                   // =0x2e0000
	mov	w5, #11776                      // =0x2e00
	mov	w12, #771751936                 // =0x2e000000
	b	.LBB1_29
.LBB1_187:                              // %"std_io::io::error::byte_or_dot.exit37.i411"
	ldrb	w8, [x3, #69]
	cmp	x4, #71
	lsl	x18, x8, #40
	b.lo	.LBB1_190
// %bb.188:                             // %"std_io::io::error::byte_or_dot.exit43.i414"
	ldrb	w8, [x3, #70]
	cmp	x4, #71
	lsl	x16, x8, #48
	b.ne	.LBB1_192
// %bb.189:
	mov	x8, #197568495616               // =0x2e00000000
	mov	w11, #46                        // =0x2e
	b	.LBB1_191
.LBB1_190:
	mov	x8, #197568495616               // =0x2e00000000
	mov	w11, #46                        // =0x2e
	mov	x16, #12947848928690176         // =0x2e000000000000
.LBB1_191:                              // %"std_io::io::error::byte_or_dot.exit31.i463"
	mov	x15, #3314649325744685056       // =0x2e00000000000000
	b	.LBB1_196
.LBB1_192:                              // %"std_io::io::error::pack.exit449"
	ldrb	w8, [x3, #71]
	cmp	x4, #73
	lsl	x15, x8, #56
	b.lo	.LBB1_195
// %bb.193:                             // %"std_io::io::error::byte_or_dot.exit.i451"
	ldrb	w11, [x3, #72]
	cmp	x4, #73
	b.ne	.LBB1_197
// %bb.194:
	mov	x8, #197568495616               // =0x2e00000000
	b	.LBB1_196
.LBB1_195:
	mov	x8, #197568495616               // =0x2e00000000
	mov	w11, #46                        // =0x2e
.LBB1_196:                              // %"std_io::io::error::byte_or_dot.exit31.i463"
	mov	w14, #3014656                   // =0x2e0000
	mov	w5, #11776                      // =0x2e00
	mov	w12, #771751936                 // =0x2e000000
	b	.LBB1_30
.LBB1_197:                              // %"std_io::io::error::byte_or_dot.exit13.i454"
	ldrb	w8, [x3, #73]
	cmp	x4, #75
	lsl	x5, x8, #8
	b.lo	.LBB1_200
// %bb.198:                             // %"std_io::io::error::byte_or_dot.exit19.i457"
	ldrb	w8, [x3, #74]
	cmp	x4, #75
	lsl	x14, x8, #16
	b.ne	.LBB1_201
// %bb.199:
	mov	x8, #197568495616               // =0x2e00000000
	mov	w12, #771751936                 // =0x2e000000
	b	.LBB1_30
.LBB1_200:
	mov	x8, #197568495616               // =0x2e00000000
	mov	w14, #3014656                   // =0x2e0000
	mov	w12, #771751936                 // =0x2e000000
	b	.LBB1_30
.LBB1_201:                              // %"std_io::io::error::byte_or_dot.exit25.i460"
	ldrb	w8, [x3, #75]
	cmp	x4, #77
	lsl	x12, x8, #24
	b.lo	.LBB1_29
// %bb.202:                             // %then.1.i28.i489
	ldrb	w8, [x3, #76]
	lsl	x8, x8, #32
	b	.LBB1_30
.Lfunc_end1:
	.size	"std_io::io::error::Error::from_bytes", .Lfunc_end1-"std_io::io::error::Error::from_bytes"
                                        // -- End function
	.section	".text.std_io::io::error::Error::from_raw_os_error","ax",@progbits
	.p2align	2                               // -- Begin function std_io::io::error::Error::from_raw_os_error
	.type	"std_io::io::error::Error::from_raw_os_error",@function
"std_io::io::error::Error::from_raw_os_error": // @"std_io::io::error::Error::from_raw_os_error"
// %bb.0:                               // %start
	tbnz	w1, #31, .LBB2_4
// %bb.1:                               // %else.2.i
	sub	w8, w1, #1
	cmp	w8, #121
	b.hi	.LBB2_4
// %bb.2:                               // %else.2.i
	adrp	x9, .LJTI2_0
	add	x9, x9, :lo12:.LJTI2_0
	adr	x10, .LBB2_3
	ldrb	w11, [x9, x8]
	add	x10, x10, x11, lsl #2
	mov	w8, #1                          // =0x1
	br	x10
.LBB2_3:                                // %arm.23.i.i
	mov	w8, #36                         // =0x24
	b	.LBB2_5
.LBB2_4:                                // %default.40.i.i
	mov	w8, #41                         // =0x29
.LBB2_5:                                // %"std_io::io::kind::decode_error_kind.exit"
	movi	v0.2d, #0000000000000000
	strb	wzr, [x0]
	strb	w8, [x0, #1]
	strh	wzr, [x0, #2]
	str	w1, [x0, #4]
	stur	q0, [x0, #8]
	stur	q0, [x0, #24]
	stur	q0, [x0, #40]
	stur	q0, [x0, #56]
	stur	q0, [x0, #72]
	ret
.LBB2_6:                                // %arm.36.i.i
	mov	w8, #4                          // =0x4
	b	.LBB2_5
.LBB2_7:                                // %arm.33.i.i
	mov	w8, #7                          // =0x7
	b	.LBB2_5
.LBB2_8:                                // %arm.39.i.i
	mov	w8, #26                         // =0x1a
	b	.LBB2_5
.LBB2_9:                                // %arm.37.i.i
	mov	w8, #39                         // =0x27
	b	.LBB2_5
.LBB2_10:                               // %arm.28.i.i
	mov	w8, #9                          // =0x9
	b	.LBB2_5
.LBB2_11:                               // %arm.27.i.i
	mov	w8, #8                          // =0x8
	b	.LBB2_5
.LBB2_12:                               // %arm.21.i.i
	mov	w8, #30                         // =0x1e
	b	.LBB2_5
.LBB2_13:                               // %arm.17.i.i
	mov	w8, #25                         // =0x19
	b	.LBB2_5
.LBB2_14:                               // %arm.19.i.i
	mov	w8, #32                         // =0x20
	b	.LBB2_5
.LBB2_15:                               // %arm.22.i.i
	mov	w8, #33                         // =0x21
	b	.LBB2_5
.LBB2_16:                               // %arm.34.i.i
	mov	w8, #22                         // =0x16
	b	.LBB2_5
.LBB2_17:                               // %arm.10.i.i
	mov	w8, #31                         // =0x1f
	b	.LBB2_5
.LBB2_18:                               // %arm.14.i.i
	mov	w8, #29                         // =0x1d
	b	.LBB2_5
.LBB2_19:                               // %arm.25.i.i
	mov	w8, #18                         // =0x12
	b	.LBB2_5
.LBB2_20:                               // %arm.29.i.i
	mov	w8, #10                         // =0xa
	b	.LBB2_5
.LBB2_21:                               // %arm.8.i.i
	mov	w8, #28                         // =0x1c
	b	.LBB2_5
.LBB2_22:                               // %arm.11.i.i
	mov	w8, #14                         // =0xe
	b	.LBB2_5
.LBB2_23:                               // %arm.9.i.i
	mov	w8, #12                         // =0xc
	b	.LBB2_5
.LBB2_24:                               // %arm.30.i.i
	mov	w8, #5                          // =0x5
	b	.LBB2_5
.LBB2_25:                               // %arm.32.i.i
	mov	w8, #3                          // =0x3
	b	.LBB2_5
.LBB2_26:                               // %arm.2.i.i
	mov	w8, wzr
	b	.LBB2_5
.LBB2_27:                               // %arm.5.i.i
	mov	w8, #13                         // =0xd
	b	.LBB2_5
.LBB2_28:                               // %arm.6.i.i
	mov	w8, #38                         // =0x26
	b	.LBB2_5
.LBB2_29:                               // %arm.20.i.i
	mov	w8, #11                         // =0xb
	b	.LBB2_5
.LBB2_30:                               // %arm.3.i.i
	mov	w8, #35                         // =0x23
	b	.LBB2_5
.LBB2_31:                               // %arm.4.i.i
	mov	w8, #34                         // =0x22
	b	.LBB2_5
.LBB2_32:                               // %arm.13.i.i
	mov	w8, #20                         // =0x14
	b	.LBB2_5
.LBB2_33:                               // %arm.12.i.i
	mov	w8, #15                         // =0xf
	b	.LBB2_5
.LBB2_34:                               // %arm.38.i.i
	mov	w8, #19                         // =0x13
	b	.LBB2_5
.LBB2_35:                               // %arm.24.i.i
	mov	w8, #16                         // =0x10
	b	.LBB2_5
.LBB2_36:                               // %arm.31.i.i
	mov	w8, #6                          // =0x6
	b	.LBB2_5
.LBB2_37:                               // %arm.15.i.i
	mov	w8, #27                         // =0x1b
	b	.LBB2_5
.LBB2_38:                               // %arm.16.i.i
	mov	w8, #24                         // =0x18
	b	.LBB2_5
.LBB2_39:                               // %arm.35.i.i
	mov	w8, #2                          // =0x2
	b	.LBB2_5
.LBB2_40:                               // %arm.18.i.i
	mov	w8, #17                         // =0x11
	b	.LBB2_5
.Lfunc_end2:
	.size	"std_io::io::error::Error::from_raw_os_error", .Lfunc_end2-"std_io::io::error::Error::from_raw_os_error"
	.section	".rodata.std_io::io::error::Error::from_raw_os_error","a",@progbits
.LJTI2_0:
	.byte	(.LBB2_5-.LBB2_3)>>2
	.byte	(.LBB2_26-.LBB2_3)>>2
	.byte	(.LBB2_4-.LBB2_3)>>2
	.byte	(.LBB2_30-.LBB2_3)>>2
	.byte	(.LBB2_4-.LBB2_3)>>2
	.byte	(.LBB2_4-.LBB2_3)>>2
	.byte	(.LBB2_31-.LBB2_3)>>2
	.byte	(.LBB2_4-.LBB2_3)>>2
	.byte	(.LBB2_4-.LBB2_3)>>2
	.byte	(.LBB2_4-.LBB2_3)>>2
	.byte	(.LBB2_27-.LBB2_3)>>2
	.byte	(.LBB2_28-.LBB2_3)>>2
	.byte	(.LBB2_5-.LBB2_3)>>2
	.byte	(.LBB2_4-.LBB2_3)>>2
	.byte	(.LBB2_4-.LBB2_3)>>2
	.byte	(.LBB2_21-.LBB2_3)>>2
	.byte	(.LBB2_23-.LBB2_3)>>2
	.byte	(.LBB2_17-.LBB2_3)>>2
	.byte	(.LBB2_4-.LBB2_3)>>2
	.byte	(.LBB2_22-.LBB2_3)>>2
	.byte	(.LBB2_33-.LBB2_3)>>2
	.byte	(.LBB2_32-.LBB2_3)>>2
	.byte	(.LBB2_4-.LBB2_3)>>2
	.byte	(.LBB2_4-.LBB2_3)>>2
	.byte	(.LBB2_4-.LBB2_3)>>2
	.byte	(.LBB2_18-.LBB2_3)>>2
	.byte	(.LBB2_37-.LBB2_3)>>2
	.byte	(.LBB2_38-.LBB2_3)>>2
	.byte	(.LBB2_13-.LBB2_3)>>2
	.byte	(.LBB2_40-.LBB2_3)>>2
	.byte	(.LBB2_14-.LBB2_3)>>2
	.byte	(.LBB2_29-.LBB2_3)>>2
	.byte	(.LBB2_4-.LBB2_3)>>2
	.byte	(.LBB2_4-.LBB2_3)>>2
	.byte	(.LBB2_12-.LBB2_3)>>2
	.byte	(.LBB2_15-.LBB2_3)>>2
	.byte	(.LBB2_4-.LBB2_3)>>2
	.byte	(.LBB2_3-.LBB2_3)>>2
	.byte	(.LBB2_35-.LBB2_3)>>2
	.byte	(.LBB2_19-.LBB2_3)>>2
	.byte	(.LBB2_4-.LBB2_3)>>2
	.byte	(.LBB2_4-.LBB2_3)>>2
	.byte	(.LBB2_4-.LBB2_3)>>2
	.byte	(.LBB2_4-.LBB2_3)>>2
	.byte	(.LBB2_4-.LBB2_3)>>2
	.byte	(.LBB2_4-.LBB2_3)>>2
	.byte	(.LBB2_4-.LBB2_3)>>2
	.byte	(.LBB2_4-.LBB2_3)>>2
	.byte	(.LBB2_4-.LBB2_3)>>2
	.byte	(.LBB2_4-.LBB2_3)>>2
	.byte	(.LBB2_4-.LBB2_3)>>2
	.byte	(.LBB2_4-.LBB2_3)>>2
	.byte	(.LBB2_4-.LBB2_3)>>2
	.byte	(.LBB2_4-.LBB2_3)>>2
	.byte	(.LBB2_4-.LBB2_3)>>2
	.byte	(.LBB2_4-.LBB2_3)>>2
	.byte	(.LBB2_4-.LBB2_3)>>2
	.byte	(.LBB2_4-.LBB2_3)>>2
	.byte	(.LBB2_4-.LBB2_3)>>2
	.byte	(.LBB2_4-.LBB2_3)>>2
	.byte	(.LBB2_4-.LBB2_3)>>2
	.byte	(.LBB2_4-.LBB2_3)>>2
	.byte	(.LBB2_4-.LBB2_3)>>2
	.byte	(.LBB2_4-.LBB2_3)>>2
	.byte	(.LBB2_4-.LBB2_3)>>2
	.byte	(.LBB2_4-.LBB2_3)>>2
	.byte	(.LBB2_4-.LBB2_3)>>2
	.byte	(.LBB2_4-.LBB2_3)>>2
	.byte	(.LBB2_4-.LBB2_3)>>2
	.byte	(.LBB2_4-.LBB2_3)>>2
	.byte	(.LBB2_4-.LBB2_3)>>2
	.byte	(.LBB2_4-.LBB2_3)>>2
	.byte	(.LBB2_4-.LBB2_3)>>2
	.byte	(.LBB2_4-.LBB2_3)>>2
	.byte	(.LBB2_4-.LBB2_3)>>2
	.byte	(.LBB2_4-.LBB2_3)>>2
	.byte	(.LBB2_4-.LBB2_3)>>2
	.byte	(.LBB2_4-.LBB2_3)>>2
	.byte	(.LBB2_4-.LBB2_3)>>2
	.byte	(.LBB2_4-.LBB2_3)>>2
	.byte	(.LBB2_4-.LBB2_3)>>2
	.byte	(.LBB2_4-.LBB2_3)>>2
	.byte	(.LBB2_4-.LBB2_3)>>2
	.byte	(.LBB2_4-.LBB2_3)>>2
	.byte	(.LBB2_4-.LBB2_3)>>2
	.byte	(.LBB2_4-.LBB2_3)>>2
	.byte	(.LBB2_4-.LBB2_3)>>2
	.byte	(.LBB2_4-.LBB2_3)>>2
	.byte	(.LBB2_4-.LBB2_3)>>2
	.byte	(.LBB2_4-.LBB2_3)>>2
	.byte	(.LBB2_4-.LBB2_3)>>2
	.byte	(.LBB2_4-.LBB2_3)>>2
	.byte	(.LBB2_4-.LBB2_3)>>2
	.byte	(.LBB2_4-.LBB2_3)>>2
	.byte	(.LBB2_3-.LBB2_3)>>2
	.byte	(.LBB2_4-.LBB2_3)>>2
	.byte	(.LBB2_4-.LBB2_3)>>2
	.byte	(.LBB2_11-.LBB2_3)>>2
	.byte	(.LBB2_10-.LBB2_3)>>2
	.byte	(.LBB2_20-.LBB2_3)>>2
	.byte	(.LBB2_24-.LBB2_3)>>2
	.byte	(.LBB2_4-.LBB2_3)>>2
	.byte	(.LBB2_36-.LBB2_3)>>2
	.byte	(.LBB2_25-.LBB2_3)>>2
	.byte	(.LBB2_4-.LBB2_3)>>2
	.byte	(.LBB2_4-.LBB2_3)>>2
	.byte	(.LBB2_7-.LBB2_3)>>2
	.byte	(.LBB2_4-.LBB2_3)>>2
	.byte	(.LBB2_4-.LBB2_3)>>2
	.byte	(.LBB2_16-.LBB2_3)>>2
	.byte	(.LBB2_39-.LBB2_3)>>2
	.byte	(.LBB2_4-.LBB2_3)>>2
	.byte	(.LBB2_6-.LBB2_3)>>2
	.byte	(.LBB2_4-.LBB2_3)>>2
	.byte	(.LBB2_9-.LBB2_3)>>2
	.byte	(.LBB2_34-.LBB2_3)>>2
	.byte	(.LBB2_4-.LBB2_3)>>2
	.byte	(.LBB2_4-.LBB2_3)>>2
	.byte	(.LBB2_4-.LBB2_3)>>2
	.byte	(.LBB2_4-.LBB2_3)>>2
	.byte	(.LBB2_4-.LBB2_3)>>2
	.byte	(.LBB2_8-.LBB2_3)>>2
                                        // -- End function
	.section	.rodata.cst16,"aM",@progbits,16
	.p2align	4, 0x0                          // -- Begin function tapelist::fail::<#4e9da720f7635e46>
.LCPI3_0:
	.byte	1                               // 0x1
	.byte	2                               // 0x2
	.byte	4                               // 0x4
	.byte	8                               // 0x8
	.byte	16                              // 0x10
	.byte	32                              // 0x20
	.byte	64                              // 0x40
	.byte	128                             // 0x80
	.byte	1                               // 0x1
	.byte	2                               // 0x2
	.byte	4                               // 0x4
	.byte	8                               // 0x8
	.byte	16                              // 0x10
	.byte	32                              // 0x20
	.byte	64                              // 0x40
	.byte	128                             // 0x80
.LCPI3_1:
	.byte	16                              // 0x10
	.byte	15                              // 0xf
	.byte	14                              // 0xe
	.byte	13                              // 0xd
	.byte	12                              // 0xc
	.byte	11                              // 0xb
	.byte	10                              // 0xa
	.byte	9                               // 0x9
	.byte	8                               // 0x8
	.byte	7                               // 0x7
	.byte	6                               // 0x6
	.byte	5                               // 0x5
	.byte	4                               // 0x4
	.byte	3                               // 0x3
	.byte	2                               // 0x2
	.byte	1                               // 0x1
.LCPI3_2:
	.byte	0                               // 0x0
	.byte	1                               // 0x1
	.byte	2                               // 0x2
	.byte	3                               // 0x3
	.byte	4                               // 0x4
	.byte	5                               // 0x5
	.byte	6                               // 0x6
	.byte	7                               // 0x7
	.byte	8                               // 0x8
	.byte	9                               // 0x9
	.byte	10                              // 0xa
	.byte	11                              // 0xb
	.byte	12                              // 0xc
	.byte	13                              // 0xd
	.byte	14                              // 0xe
	.byte	15                              // 0xf
.LCPI3_3:
	.byte	16                              // 0x10
	.byte	17                              // 0x11
	.byte	18                              // 0x12
	.byte	19                              // 0x13
	.byte	20                              // 0x14
	.byte	21                              // 0x15
	.byte	22                              // 0x16
	.byte	23                              // 0x17
	.byte	24                              // 0x18
	.byte	25                              // 0x19
	.byte	26                              // 0x1a
	.byte	27                              // 0x1b
	.byte	28                              // 0x1c
	.byte	29                              // 0x1d
	.byte	30                              // 0x1e
	.byte	31                              // 0x1f
	.section	.rodata.cst8,"aM",@progbits,8
	.p2align	3, 0x0
.LCPI3_4:
	.byte	32                              // 0x20
	.byte	33                              // 0x21
	.byte	34                              // 0x22
	.byte	35                              // 0x23
	.byte	36                              // 0x24
	.byte	37                              // 0x25
	.byte	38                              // 0x26
	.byte	39                              // 0x27
	.section	".text.tapelist::fail::<#4e9da720f7635e46>","ax",@progbits
	.p2align	2
	.type	"tapelist::fail::<#4e9da720f7635e46>",@function
"tapelist::fail::<#4e9da720f7635e46>":  // @"tapelist::fail::<#4e9da720f7635e46>"
// %bb.0:                               // %arm.3.lr.ph.i.i.i.i.i
	stp	x29, x30, [sp, #-96]!           // 16-byte Folded Spill
	stp	x28, x27, [sp, #16]             // 16-byte Folded Spill
	mov	x29, sp
	stp	x26, x25, [sp, #32]             // 16-byte Folded Spill
	stp	x24, x23, [sp, #48]             // 16-byte Folded Spill
	stp	x22, x21, [sp, #64]             // 16-byte Folded Spill
	stp	x20, x19, [sp, #80]             // 16-byte Folded Spill
	sub	sp, sp, #2560
	str	xzr, [sp]
	add	x28, sp, #88
	mov	x22, x1
	ldur	q0, [x2, #24]
	ldrb	w8, [x2, #1]
	mov	x23, x0
	ldp	x25, x24, [x2, #72]
	ldrb	w20, [x2]
	str	q0, [sp, #64]                   // 16-byte Spill
	ldur	q0, [x2, #8]
	orr	x0, x28, #0x4
	str	x8, [sp]                        // 8-byte Spill
	ldr	w8, [x2, #4]
	mov	w1, wzr
	str	q0, [sp, #32]                   // 16-byte Spill
	ldur	q0, [x2, #56]
	add	x26, sp, #1264
	ldrb	w21, [x2, #2]
	str	w8, [sp, #12]                   // 4-byte Spill
	mov	w8, #2                          // =0x2
	str	q0, [sp, #48]                   // 16-byte Spill
	ldur	q0, [x2, #40]
	mov	w2, #1132                       // =0x46c
	str	w8, [sp, #88]
	orr	x19, x28, #0x4
	str	q0, [sp, #16]                   // 16-byte Spill
	bl	memset
	movi	v0.2d, #0000000000000000
	mov	w9, #32                         // =0x20
	add	x27, x28, #1140
	str	wzr, [sp, #1236]
	add	x10, x28, #1160
	add	x11, sp, #969
	str	w9, [sp, #1224]
	mov	x8, xzr
	str	xzr, [x27]
	str	q0, [x10]
	ldur	q0, [x11, #255]
	mov	x10, #-1                        // =0xffffffffffffffff
	str	w9, [sp, #1224]
	add	x9, x28, #1136
	str	x10, [sp, #1240]
	str	q0, [x26]
	str	x10, [sp, #1280]
	str	xzr, [x27]
	str	x9, [sp, #80]                   // 8-byte Spill
	str	wzr, [sp, #1236]
	b	.LBB3_3
.LBB3_1:                                //   in Loop: Header=BB3_3 Depth=1
	mov	x9, x8
.LBB3_2:                                // %"std_io::io::buffer::Buffer::push.exit.i.i.i.i.i"
                                        //   in Loop: Header=BB3_3 Depth=1
	sub	x22, x22, #1
	add	x8, x9, #1
	strb	w28, [x19, x9]
	str	x8, [sp, #1120]
	cbz	x22, .LBB3_7
.LBB3_3:                                // %arm.3.i.i.i.i.i
                                        // =>This Inner Loop Header: Depth=1
	ldrb	w28, [x23], #1
	cmp	x8, #1024
	b.lo	.LBB3_1
// %bb.4:                               // %then.2.i.i.i.i.i.i
                                        //   in Loop: Header=BB3_3 Depth=1
	movi	v0.2d, #0000000000000000
	cmp	x8, #1024
	str	xzr, [sp, #1120]
	stp	q0, q0, [x26, #48]
	stp	q0, q0, [x26, #80]
	stp	q0, q0, [x26, #112]
	b.ne	.LBB3_14
// %bb.5:                               // %join.3.i.i.i.i.i.i.i
                                        //   in Loop: Header=BB3_3 Depth=1
	ldr	w1, [sp, #88]
	add	x0, sp, #1312
	mov	x2, x19
	mov	w3, #1024                       // =0x400
	bl	"std_io::io::write_to"
	ldrb	w8, [sp, #1312]
	cbnz	w8, .LBB3_13
// %bb.6:                               // %after.1.i.i.i.i.i.i
                                        //   in Loop: Header=BB3_3 Depth=1
	ldr	x9, [sp, #1120]
	cmp	x9, #1023
	b.ls	.LBB3_2
	b	.LBB3_14
.LBB3_7:                                // %arm.1.i.i.i.i
	mov	w10, #32                        // =0x20
	ldr	x11, [sp, #1248]
	str	xzr, [x27]
	str	w10, [sp, #1224]
	mov	x10, #-1                        // =0xffffffffffffffff
	str	wzr, [x27, #8]
	str	x10, [sp, #1240]
	cbnz	x11, .LBB3_29
// %bb.8:                               // %arm.3.lr.ph.i.i63.i.i.i
	cmp	x9, #1023
	b.ne	.LBB3_11
// %bb.9:                               // %join.3.i.i.i.i83.i.i.i
	movi	v0.2d, #0000000000000000
	ldr	w1, [sp, #88]
	add	x0, sp, #1312
	mov	x2, x19
	mov	w3, #1024                       // =0x400
	str	xzr, [sp, #1120]
	stp	q0, q0, [x26, #48]
	stp	q0, q0, [x26, #80]
	stp	q0, q0, [x26, #112]
	bl	"std_io::io::write_to"
	ldrb	w8, [sp, #1312]
	cbnz	w8, .LBB3_13
// %bb.10:                              // %after.1.i.i.i90.i.i.i
	ldr	x8, [sp, #1120]
	cmp	x8, #1023
	b.hi	.LBB3_14
.LBB3_11:                               // %"std_io::io::buffer::Buffer::push.exit.i.i75.i.i.i"
	cmp	x8, #1023
	mov	w9, #58                         // =0x3a
	strb	w9, [x19, x8]
	b.lo	.LBB3_19
// %bb.12:                              // %join.3.i.i.i.i83.i.i.i.1
	movi	v0.2d, #0000000000000000
	ldr	w1, [sp, #88]
	add	x0, sp, #1312
	mov	x2, x19
	mov	w3, #1024                       // =0x400
	str	xzr, [sp, #1120]
	stp	q0, q0, [x26, #48]
	stp	q0, q0, [x26, #80]
	stp	q0, q0, [x26, #112]
	bl	"std_io::io::write_to"
	ldrb	w8, [sp, #1312]
	cbz	w8, .LBB3_28
.LBB3_13:                               // %"std_io::io::buffer::Buffer::flush.exit.thread.i.i.i82.i.i.i"
	mov	w8, #1                          // =0x1
	add	x9, sp, #88
	ldur	q0, [x26, #88]
	ldur	q1, [x26, #104]
	str	x8, [sp, #1128]
	add	x8, x9, #1048
	ldur	q2, [x26, #120]
	ldr	x9, [sp, #1400]
	stp	q0, q1, [x8, #32]
	ldur	q0, [x26, #56]
	ldur	q1, [x26, #72]
	str	q2, [x8, #64]
	stp	q0, q1, [x8]
	str	x9, [sp, #1216]
.LBB3_14:                               // %"core::fmt::tuples::and_write1::<#4529a28abe3543b1>.exit.thread.i.i.i"
	ldr	q0, [x26]
	ldr	x8, [sp, #1280]
	sub	x23, x29, #112
.LBB3_15:                               // %join.4.i.i.i
	ldr	x9, [sp, #80]                   // 8-byte Reload
	str	q0, [x9]
	str	x8, [x9, #16]
.LBB3_16:                               // %join.4.i.i.i
	ldr	w20, [sp, #88]
	add	x21, sp, #1312
	mov	x1, x19
	orr	x0, x21, #0x4
	mov	w2, #1132                       // =0x46c
	str	w20, [sp, #1312]
	bl	memcpy
	movi	v0.2d, #0000000000000000
	ldr	x3, [sp, #2344]
	str	xzr, [sp, #2344]
	cmp	x3, #1024
	stp	q0, q0, [x23]
	stp	q0, q0, [x23, #32]
	stp	q0, q0, [x23, #64]
	b.hi	.LBB3_18
// %bb.17:                              // %join.3.i.i.i.i.i
	sub	x0, x29, #112
	orr	x2, x21, #0x4
	mov	w1, w20
	bl	"std_io::io::write_to"
	ldurb	w8, [x29, #-112]
.LBB3_18:                               // %"std_io::io::LibcRuntimeEprint::eprintln::<#1a41170e1598af84>.exit"
	add	sp, sp, #2560
	ldp	x20, x19, [sp, #80]             // 16-byte Folded Reload
	ldp	x22, x21, [sp, #64]             // 16-byte Folded Reload
	ldp	x24, x23, [sp, #48]             // 16-byte Folded Reload
	ldp	x26, x25, [sp, #32]             // 16-byte Folded Reload
	ldp	x28, x27, [sp, #16]             // 16-byte Folded Reload
	ldp	x29, x30, [sp], #96             // 16-byte Folded Reload
	ret
.LBB3_19:
	add	x8, x8, #1
.LBB3_20:                               // %"std_io::io::buffer::Buffer::push.exit.i.i75.i.i.i.1"
	mov	w9, #32                         // =0x20
	strb	w9, [x19, x8]
	add	x8, x8, #1
	str	x8, [sp, #1120]
.LBB3_21:                               // %arm.1.i19.i.i.i
	movi	v0.2d, #0000000000000000
	mov	w8, #32                         // =0x20
	str	xzr, [x27]
	str	w8, [sp, #1224]
	mov	x8, #-1                         // =0xffffffffffffffff
	str	wzr, [x27, #8]
	str	x8, [sp, #1240]
	stp	q0, q0, [x26, #48]
	stp	q0, q0, [x26, #80]
	stp	q0, q0, [x26, #112]
	stp	q0, q0, [x26, #144]
	stp	q0, q0, [x26, #176]
	stp	q0, q0, [x26, #208]
	stp	q0, q0, [x26, #240]
	stp	q0, q0, [x26, #272]
	cbz	w20, .LBB3_23
// %bb.22:                              // %join.3.i.i.i.i.i.i
	ldr	q0, [sp, #32]                   // 16-byte Reload
	sub	x23, x29, #112
	str	x25, [sp, #1376]
	str	x24, [sp, #1384]
	str	q0, [x26, #48]
	ldr	q0, [sp, #64]                   // 16-byte Reload
	str	q0, [x26, #64]
	ldr	q0, [sp, #16]                   // 16-byte Reload
	str	q0, [x26, #80]
	ldr	q0, [sp, #48]                   // 16-byte Reload
	str	q0, [x26, #96]
	b	.LBB3_31
.LBB3_23:                               // %then.1.i12.i.i.i.i.i
	ldr	w0, [sp, #12]                   // 4-byte Reload
	add	x1, sp, #1312
	mov	w2, #256                        // =0x100
	add	x21, sp, #1312
	bl	__xpg_strerror_r
	mov	x9, xzr
.LBB3_24:                               // %vector.body
                                        // =>This Inner Loop Header: Depth=1
	ldr	q0, [x21], #16
	sub	x8, x9, #16
	cmeq	v0.16b, v0.16b, #0
	umaxv	b1, v0.16b
	fmov	w10, s1
	tbnz	w10, #0, .LBB3_26
// %bb.25:                              // %vector.body
                                        //   in Loop: Header=BB3_24 Depth=1
	cmn	x9, #240
	mov	x9, x8
	b.ne	.LBB3_24
.LBB3_26:                               // %middle.split
	adrp	x9, .LCPI3_0
	sub	x23, x29, #112
	ldr	q1, [x9, :lo12:.LCPI3_0]
	and	v1.16b, v0.16b, v1.16b
	ext	v2.16b, v1.16b, v1.16b, #8
	zip1	v1.16b, v1.16b, v2.16b
	addv	h1, v1.8h
	fmov	w9, s1
	tst	w9, #0xffff
	b.eq	.LBB3_30
// %bb.27:                              // %vector.early.exit
	adrp	x9, .LCPI3_1
	mov	w10, #16                        // =0x10
	ldr	q1, [x9, :lo12:.LCPI3_1]
	and	v0.16b, v0.16b, v1.16b
	umaxv	b0, v0.16b
	fmov	w9, s0
	sub	w9, w10, w9
	and	x9, x9, #0xff
	sub	x8, x9, x8
	sub	x21, x8, #16
	b	.LBB3_31
.LBB3_28:                               // %after.1.i.i.i90.i.i.i.1
	ldr	x8, [sp, #1120]
	cmp	x8, #1023
	b.hi	.LBB3_14
	b	.LBB3_20
.LBB3_29:                               // %"core::fmt::tuples::and_write1::<#27d1b31444f324f7>.exit.i.i.i"
	adrp	x1, .Lstatic.7
	add	x1, x1, :lo12:.Lstatic.7
	add	x0, sp, #88
	mov	w2, #2                          // =0x2
	bl	"core::fmt::formatter::Formatter::write_indented::<#bf264aed5fa78656>"
	and	w8, w0, #0xff
	tbnz	w8, #0, .LBB3_14
	b	.LBB3_21
.LBB3_30:
	mov	w21, #256                       // =0x100
.LBB3_31:                               // %"std_io::io::error::Error::write_message.exit.i.i.i.i.i"
	sub	x0, x29, #112
	add	x1, sp, #1312
	mov	x2, x21
	stp	xzr, xzr, [x29, #-112]
	stur	xzr, [x29, #-96]
	bl	"core::str::utf8::from_utf8"
	ldurb	w8, [x29, #-112]
	ldp	x9, x22, [x29, #-104]
	adrp	x10, .Lstatic.13
	add	x10, x10, :lo12:.Lstatic.13
	cmp	w8, #0
	csel	x21, x9, x10, eq
	csel	x2, x22, xzr, eq
	cmp	w20, #1
	b.eq	.LBB3_40
// %bb.32:                              // %"std_io::io::error::Error::write_message.exit.i.i.i.i.i"
	cbnz	w20, .LBB3_42
// %bb.33:                              // %arm.1.i.i.i.i.i
	mov	w8, #32                         // =0x20
	ldr	x9, [sp, #1248]
	str	xzr, [x27]
	str	w8, [sp, #1224]
	mov	x8, #-1                         // =0xffffffffffffffff
	str	wzr, [x27, #8]
	str	x8, [sp, #1240]
	cbnz	x9, .LBB3_65
// %bb.34:                              // %then.1.i.i.i.i.i.i.i
	ldr	x8, [sp, #1120]
	cbnz	x2, .LBB3_36
	b	.LBB3_68
.LBB3_35:                               // %"std_io::io::buffer::Buffer::push.exit.i.i.i.i.i.i.i"
                                        //   in Loop: Header=BB3_36 Depth=1
	sub	x22, x22, #1
	strb	w20, [x19, x8]
	add	x8, x8, #1
	str	x8, [sp, #1120]
	cbz	x22, .LBB3_66
.LBB3_36:                               // %arm.3.i.i.i.i.i.i.i
                                        // =>This Inner Loop Header: Depth=1
	ldrb	w20, [x21], #1
	cmp	x8, #1024
	b.lo	.LBB3_35
// %bb.37:                              // %then.2.i.i.i.i.i.i.i.i
                                        //   in Loop: Header=BB3_36 Depth=1
	movi	v0.2d, #0000000000000000
	cmp	x8, #1024
	str	xzr, [sp, #1120]
	str	q0, [x26, #1264]
	str	q0, [x26, #1248]
	str	q0, [x26, #1232]
	str	q0, [x26, #1216]
	str	q0, [x26, #1200]
	str	q0, [x26, #1184]
	b.ne	.LBB3_116
// %bb.38:                              // %join.3.i.i.i.i.i.i.i.i.i
                                        //   in Loop: Header=BB3_36 Depth=1
	ldr	w1, [sp, #88]
	sub	x0, x29, #112
	mov	x2, x19
	mov	w3, #1024                       // =0x400
	bl	"std_io::io::write_to"
	ldurb	w8, [x29, #-112]
	cbnz	w8, .LBB3_114
// %bb.39:                              // %after.1.i.i.i.i.i.i.i.i
                                        //   in Loop: Header=BB3_36 Depth=1
	ldr	x8, [sp, #1120]
	cmp	x8, #1023
	b.ls	.LBB3_35
	b	.LBB3_116
.LBB3_40:                               // %arm.2.i.i.i.i.i
	adrp	x8, .LCPI3_2
	adrp	x9, .LCPI3_3
	ldr	q0, [x8, :lo12:.LCPI3_2]
	adrp	x8, .LCPI3_4
	ldr	q1, [x9, :lo12:.LCPI3_3]
	ldr	x9, [sp]                        // 8-byte Reload
	ldr	d2, [x8, :lo12:.LCPI3_4]
	mov	w8, #40                         // =0x28
	stp	q0, q1, [x23]
	cmp	w9, #40
	stur	d2, [x29, #-80]
	sturb	w8, [x29, #-72]
	b.hi	.LBB3_52
// %bb.41:                              // %then.1.i.i152.i.i.i.i.i
	sub	x8, x29, #112
	ldrb	w0, [x8, x9]
	b	.LBB3_53
.LBB3_42:                               // %default.3.i.i.i.i.i
	ldr	x8, [sp, #1232]
	cbnz	x8, .LBB3_54
// %bb.43:                              // %default.3.i.i.i.i.i
	ldr	x8, [sp, #1240]
	cmp	x2, x8
	b.hi	.LBB3_54
// %bb.44:                              // %then.5.i.i.i.i.i.i
	ldr	x8, [sp, #1248]
	cbnz	x8, .LBB3_92
// %bb.45:                              // %then.1.i.i.i.i.i.i
	cbz	x2, .LBB3_56
// %bb.46:                              // %arm.3.lr.ph.i.i.i.i.i.i
	ldr	x8, [sp, #1120]
	b	.LBB3_48
.LBB3_47:                               // %"std_io::io::buffer::Buffer::push.exit.i.i.i.i.i.i"
                                        //   in Loop: Header=BB3_48 Depth=1
	sub	x22, x22, #1
	strb	w20, [x19, x8]
	add	x8, x8, #1
	str	x8, [sp, #1120]
	cbz	x22, .LBB3_56
.LBB3_48:                               // %arm.3.i.i.i.i.i.i
                                        // =>This Inner Loop Header: Depth=1
	ldrb	w20, [x21], #1
	cmp	x8, #1024
	b.lo	.LBB3_47
// %bb.49:                              // %then.2.i.i.i.i.i.i.i
                                        //   in Loop: Header=BB3_48 Depth=1
	movi	v0.2d, #0000000000000000
	cmp	x8, #1024
	str	xzr, [sp, #1120]
	stp	q0, q0, [x23]
	stp	q0, q0, [x23, #32]
	stp	q0, q0, [x23, #64]
	b.ne	.LBB3_116
// %bb.50:                              // %join.3.i.i.i.i.i.i.i.i
                                        //   in Loop: Header=BB3_48 Depth=1
	ldr	w1, [sp, #88]
	sub	x0, x29, #112
	mov	x2, x19
	mov	w3, #1024                       // =0x400
	bl	"std_io::io::write_to"
	ldurb	w8, [x29, #-112]
	cbnz	w8, .LBB3_114
// %bb.51:                              // %after.1.i.i.i.i.i.i.i
                                        //   in Loop: Header=BB3_48 Depth=1
	ldr	x8, [sp, #1120]
	cmp	x8, #1023
	b.ls	.LBB3_47
	b	.LBB3_116
.LBB3_52:
	mov	w0, #41                         // =0x29
.LBB3_53:                               // %"std_io::io::error::Error::kind.exit.i.i.i.i.i"
	ldr	x20, [sp, #80]                  // 8-byte Reload
	add	x1, sp, #88
	bl	"std_io::io::kind::ErrorKindDisplay::fmt::<#bf264aed5fa78656>"
	and	w8, w0, #0xff
	ldr	q0, [x26]
	ldr	x9, [sp, #1280]
	str	q0, [x20]
	str	x9, [x20, #16]
	tbnz	w8, #0, .LBB3_16
	b	.LBB3_57
.LBB3_54:                               // %after.1.i.i.i102.i.i.i
	add	x0, sp, #88
	mov	x1, x21
	bl	"core::fmt::formatter::Formatter::cut_and_fill::<#bf264aed5fa78656>"
.LBB3_55:                               // %"core::fmt::tuples::and_write1::<#4529a28abe3543b1>.exit.i.i.i"
	ldr	x20, [sp, #80]                  // 8-byte Reload
	and	w8, w0, #0xff
	ldr	q0, [x26]
	ldr	x9, [sp, #1280]
	str	q0, [x20]
	str	x9, [x20, #16]
	tbnz	w8, #0, .LBB3_16
	b	.LBB3_57
.LBB3_56:                               // %"core::fmt::tuples::and_write1::<#4529a28abe3543b1>.exit.thread67.i.i.i"
	ldr	q0, [x26]
	ldr	x8, [sp, #1280]
	ldr	x20, [sp, #80]                  // 8-byte Reload
	str	q0, [x20]
	str	x8, [x20, #16]
.LBB3_57:                               // %arm.1.i.i.i
	mov	w8, #32                         // =0x20
	ldr	x9, [x20, #16]
	ldr	q0, [x20]
	str	w8, [sp, #1224]
	ldr	x8, [sp, #1248]
	stur	x9, [x29, #-96]
	mov	x9, #-1                         // =0xffffffffffffffff
	str	q0, [x23]
	str	xzr, [x27]
	str	wzr, [x27, #8]
	str	x9, [sp, #1240]
	cbnz	x8, .LBB3_87
// %bb.58:                              // %arm.3.lr.ph.i.i.i.i
	ldr	x8, [sp, #1120]
	cmp	x8, #1024
	b.lo	.LBB3_63
// %bb.59:                              // %then.2.i.i110.i.i.i
	movi	v0.2d, #0000000000000000
	cmp	x8, #1024
	str	xzr, [sp, #1120]
	stp	q0, q0, [x26, #48]
	stp	q0, q0, [x26, #80]
	stp	q0, q0, [x26, #112]
	b.ne	.LBB3_64
// %bb.60:                              // %join.3.i.i.i111.i.i.i
	ldr	w1, [sp, #88]
	add	x0, sp, #1312
	mov	x2, x19
	mov	w3, #1024                       // =0x400
	bl	"std_io::io::write_to"
	ldrb	w8, [sp, #1312]
	cbz	w8, .LBB3_62
// %bb.61:                              // %arm.5.i.i.i.i.i.i
	mov	w8, #1                          // =0x1
	add	x9, sp, #88
	ldur	q0, [x26, #88]
	ldur	q1, [x26, #104]
	str	x8, [sp, #1128]
	add	x8, x9, #1048
	ldur	q2, [x26, #120]
	ldr	x9, [sp, #1400]
	stp	q0, q1, [x8, #32]
	ldur	q0, [x26, #56]
	ldur	q1, [x26, #72]
	str	q2, [x8, #64]
	stp	q0, q1, [x8]
	str	x9, [sp, #1216]
	b	.LBB3_64
.LBB3_62:                               // %after.1.i.i114.i.i.i
	ldr	x8, [sp, #1120]
	cmp	x8, #1023
	b.hi	.LBB3_64
.LBB3_63:                               // %"std_io::io::buffer::Buffer::push.exit.i.i.i.i"
	mov	w9, #10                         // =0xa
	strb	w9, [x19, x8]
	add	x8, x8, #1
	str	x8, [sp, #1120]
.LBB3_64:                               // %"core::fmt::formatter::Formatter::write_with_spec::<#4792e67e40da9d69>.exit.i.i.i"
	ldr	q0, [x23]
	ldur	x8, [x29, #-96]
	str	q0, [x20]
	str	x8, [x20, #16]
	b	.LBB3_16
.LBB3_65:                               // %"core::fmt::formatter::Formatter::write_piece::<#4792e67e40da9d69>.exit.i.i.i.i.i"
	add	x0, sp, #88
	mov	x1, x21
	bl	"core::fmt::formatter::Formatter::write_indented::<#bf264aed5fa78656>"
	and	w8, w0, #0xff
	tbnz	w8, #0, .LBB3_116
.LBB3_66:                               // %arm.1.i2.i.i.i.i.i.i
	mov	w8, #32                         // =0x20
	ldr	x9, [sp, #1248]
	str	xzr, [x27]
	str	w8, [sp, #1224]
	mov	x8, #-1                         // =0xffffffffffffffff
	str	wzr, [x27, #8]
	str	x8, [sp, #1240]
	cbnz	x9, .LBB3_98
// %bb.67:                              // %arm.1.i2.i.i.i.i.i.i.arm.3.lr.ph.i.i34.i.i.i.i.i_crit_edge
	ldr	x8, [sp, #1120]
.LBB3_68:                               // %arm.3.lr.ph.i.i34.i.i.i.i.i
	cmp	x8, #1024
	b.lo	.LBB3_72
// %bb.69:                              // %then.2.i.i.i51.i.i.i.i.i
	movi	v0.2d, #0000000000000000
	cmp	x8, #1024
	str	xzr, [sp, #1120]
	stp	q0, q0, [x23]
	stp	q0, q0, [x23, #32]
	stp	q0, q0, [x23, #64]
	b.ne	.LBB3_116
// %bb.70:                              // %join.3.i.i.i.i54.i.i.i.i.i
	ldr	w1, [sp, #88]
	sub	x0, x29, #112
	mov	x2, x19
	mov	w3, #1024                       // =0x400
	bl	"std_io::io::write_to"
	ldurb	w8, [x29, #-112]
	cbnz	w8, .LBB3_114
// %bb.71:                              // %after.1.i.i.i61.i.i.i.i.i
	ldr	x8, [sp, #1120]
	cmp	x8, #1023
	b.hi	.LBB3_116
.LBB3_72:                               // %"std_io::io::buffer::Buffer::push.exit.i.i46.i.i.i.i.i"
	cmp	x8, #1023
	mov	w9, #32                         // =0x20
	strb	w9, [x19, x8]
	b.ne	.LBB3_75
// %bb.73:                              // %join.3.i.i.i.i54.1.i.i.i.i.i
	movi	v0.2d, #0000000000000000
	ldr	w1, [sp, #88]
	sub	x0, x29, #112
	mov	x2, x19
	mov	w3, #1024                       // =0x400
	str	xzr, [sp, #1120]
	stp	q0, q0, [x23]
	stp	q0, q0, [x23, #32]
	stp	q0, q0, [x23, #64]
	bl	"std_io::io::write_to"
	ldurb	w8, [x29, #-112]
	cbnz	w8, .LBB3_114
// %bb.74:                              // %after.1.i.i.i61.1.i.i.i.i.i
	ldr	x8, [sp, #1120]
	cmp	x8, #1023
	b.ls	.LBB3_76
	b	.LBB3_116
.LBB3_75:
	add	x8, x8, #1
.LBB3_76:                               // %"std_io::io::buffer::Buffer::push.exit.i.i46.1.i.i.i.i.i"
	cmp	x8, #1023
	mov	w9, #40                         // =0x28
	strb	w9, [x19, x8]
	b.lo	.LBB3_79
// %bb.77:                              // %join.3.i.i.i.i54.2.i.i.i.i.i
	movi	v0.2d, #0000000000000000
	ldr	w1, [sp, #88]
	sub	x0, x29, #112
	mov	x2, x19
	mov	w3, #1024                       // =0x400
	str	xzr, [sp, #1120]
	stp	q0, q0, [x23]
	stp	q0, q0, [x23, #32]
	stp	q0, q0, [x23, #64]
	bl	"std_io::io::write_to"
	ldurb	w8, [x29, #-112]
	cbnz	w8, .LBB3_114
// %bb.78:                              // %after.1.i.i.i61.2.i.i.i.i.i
	ldr	x8, [sp, #1120]
	cmp	x8, #1023
	b.ls	.LBB3_80
	b	.LBB3_116
.LBB3_79:
	add	x8, x8, #1
.LBB3_80:                               // %"std_io::io::buffer::Buffer::push.exit.i.i46.2.i.i.i.i.i"
	cmp	x8, #1023
	mov	w9, #111                        // =0x6f
	strb	w9, [x19, x8]
	b.lo	.LBB3_83
// %bb.81:                              // %join.3.i.i.i.i54.3.i.i.i.i.i
	movi	v0.2d, #0000000000000000
	ldr	w1, [sp, #88]
	sub	x0, x29, #112
	mov	x2, x19
	mov	w3, #1024                       // =0x400
	str	xzr, [sp, #1120]
	stp	q0, q0, [x23]
	stp	q0, q0, [x23, #32]
	stp	q0, q0, [x23, #64]
	bl	"std_io::io::write_to"
	ldurb	w8, [x29, #-112]
	cbnz	w8, .LBB3_114
// %bb.82:                              // %after.1.i.i.i61.3.i.i.i.i.i
	ldr	x8, [sp, #1120]
	cmp	x8, #1023
	b.ls	.LBB3_84
	b	.LBB3_116
.LBB3_83:
	add	x8, x8, #1
.LBB3_84:                               // %"std_io::io::buffer::Buffer::push.exit.i.i46.3.i.i.i.i.i"
	cmp	x8, #1023
	mov	w9, #115                        // =0x73
	strb	w9, [x19, x8]
	b.lo	.LBB3_88
// %bb.85:                              // %join.3.i.i.i.i54.4.i.i.i.i.i
	movi	v0.2d, #0000000000000000
	ldr	w1, [sp, #88]
	sub	x0, x29, #112
	mov	x2, x19
	mov	w3, #1024                       // =0x400
	str	xzr, [sp, #1120]
	stp	q0, q0, [x23]
	stp	q0, q0, [x23, #32]
	stp	q0, q0, [x23, #64]
	bl	"std_io::io::write_to"
	ldurb	w8, [x29, #-112]
	cbnz	w8, .LBB3_114
// %bb.86:                              // %after.1.i.i.i61.4.i.i.i.i.i
	ldr	x8, [sp, #1120]
	cmp	x8, #1023
	b.ls	.LBB3_89
	b	.LBB3_116
.LBB3_87:                               // %else.2.i.i.i.i.i
	adrp	x1, .Lstatic.8
	add	x1, x1, :lo12:.Lstatic.8
	add	x0, sp, #88
	mov	w2, #1                          // =0x1
	bl	"core::fmt::formatter::Formatter::write_indented::<#bf264aed5fa78656>"
	b	.LBB3_64
.LBB3_88:
	add	x8, x8, #1
.LBB3_89:                               // %"std_io::io::buffer::Buffer::push.exit.i.i46.4.i.i.i.i.i"
	cmp	x8, #1023
	mov	w9, #32                         // =0x20
	strb	w9, [x19, x8]
	b.lo	.LBB3_94
// %bb.90:                              // %join.3.i.i.i.i54.5.i.i.i.i.i
	movi	v0.2d, #0000000000000000
	ldr	w1, [sp, #88]
	sub	x0, x29, #112
	mov	x2, x19
	mov	w3, #1024                       // =0x400
	str	xzr, [sp, #1120]
	stp	q0, q0, [x23]
	stp	q0, q0, [x23, #32]
	stp	q0, q0, [x23, #64]
	bl	"std_io::io::write_to"
	ldurb	w8, [x29, #-112]
	cbnz	w8, .LBB3_114
// %bb.91:                              // %after.1.i.i.i61.5.i.i.i.i.i
	ldr	x8, [sp, #1120]
	cmp	x8, #1023
	b.ls	.LBB3_95
	b	.LBB3_116
.LBB3_92:                               // %else.2.i.i.i.i.i.i
	add	x0, sp, #88
	mov	x1, x21
.LBB3_93:                               // %"core::fmt::tuples::and_write1::<#4529a28abe3543b1>.exit.i.i.i"
	bl	"core::fmt::formatter::Formatter::write_indented::<#bf264aed5fa78656>"
	b	.LBB3_55
.LBB3_94:
	add	x8, x8, #1
.LBB3_95:                               // %"std_io::io::buffer::Buffer::push.exit.i.i46.5.i.i.i.i.i"
	cmp	x8, #1023
	mov	w9, #101                        // =0x65
	strb	w9, [x19, x8]
	b.lo	.LBB3_99
// %bb.96:                              // %join.3.i.i.i.i54.6.i.i.i.i.i
	movi	v0.2d, #0000000000000000
	ldr	w1, [sp, #88]
	sub	x0, x29, #112
	mov	x2, x19
	mov	w3, #1024                       // =0x400
	str	xzr, [sp, #1120]
	stp	q0, q0, [x23]
	stp	q0, q0, [x23, #32]
	stp	q0, q0, [x23, #64]
	bl	"std_io::io::write_to"
	ldurb	w8, [x29, #-112]
	cbnz	w8, .LBB3_114
// %bb.97:                              // %after.1.i.i.i61.6.i.i.i.i.i
	ldr	x8, [sp, #1120]
	cmp	x8, #1023
	b.ls	.LBB3_100
	b	.LBB3_116
.LBB3_98:                               // %"core::fmt::tuples::and_write1::<#27d1b31444f324f7>.exit4.i.i.i.i.i.i"
	adrp	x1, .Lstatic.11
	add	x1, x1, :lo12:.Lstatic.11
	add	x0, sp, #88
	mov	w2, #11                         // =0xb
	bl	"core::fmt::formatter::Formatter::write_indented::<#bf264aed5fa78656>"
	and	w8, w0, #0xff
	tbnz	w8, #0, .LBB3_116
	b	.LBB3_119
.LBB3_99:
	add	x8, x8, #1
.LBB3_100:                              // %"std_io::io::buffer::Buffer::push.exit.i.i46.6.i.i.i.i.i"
	cmp	x8, #1023
	mov	w20, #114                       // =0x72
	strb	w20, [x19, x8]
	b.lo	.LBB3_103
// %bb.101:                             // %join.3.i.i.i.i54.7.i.i.i.i.i
	movi	v0.2d, #0000000000000000
	ldr	w1, [sp, #88]
	sub	x0, x29, #112
	mov	x2, x19
	mov	w3, #1024                       // =0x400
	str	xzr, [sp, #1120]
	stp	q0, q0, [x23]
	stp	q0, q0, [x23, #32]
	stp	q0, q0, [x23, #64]
	bl	"std_io::io::write_to"
	ldurb	w8, [x29, #-112]
	cbnz	w8, .LBB3_114
// %bb.102:                             // %after.1.i.i.i61.7.i.i.i.i.i
	ldr	x8, [sp, #1120]
	cmp	x8, #1023
	b.ls	.LBB3_104
	b	.LBB3_116
.LBB3_103:
	add	x8, x8, #1
.LBB3_104:                              // %"std_io::io::buffer::Buffer::push.exit.i.i46.7.i.i.i.i.i"
	cmp	x8, #1023
	strb	w20, [x19, x8]
	b.lo	.LBB3_107
// %bb.105:                             // %join.3.i.i.i.i54.8.i.i.i.i.i
	movi	v0.2d, #0000000000000000
	ldr	w1, [sp, #88]
	sub	x0, x29, #112
	mov	x2, x19
	mov	w3, #1024                       // =0x400
	str	xzr, [sp, #1120]
	stp	q0, q0, [x23]
	stp	q0, q0, [x23, #32]
	stp	q0, q0, [x23, #64]
	bl	"std_io::io::write_to"
	ldurb	w8, [x29, #-112]
	cbnz	w8, .LBB3_114
// %bb.106:                             // %after.1.i.i.i61.8.i.i.i.i.i
	ldr	x8, [sp, #1120]
	cmp	x8, #1023
	b.ls	.LBB3_108
	b	.LBB3_116
.LBB3_107:
	add	x8, x8, #1
.LBB3_108:                              // %"std_io::io::buffer::Buffer::push.exit.i.i46.8.i.i.i.i.i"
	cmp	x8, #1023
	mov	w9, #111                        // =0x6f
	strb	w9, [x19, x8]
	b.lo	.LBB3_111
// %bb.109:                             // %join.3.i.i.i.i54.9.i.i.i.i.i
	movi	v0.2d, #0000000000000000
	ldr	w1, [sp, #88]
	sub	x0, x29, #112
	mov	x2, x19
	mov	w3, #1024                       // =0x400
	str	xzr, [sp, #1120]
	stp	q0, q0, [x23]
	stp	q0, q0, [x23, #32]
	stp	q0, q0, [x23, #64]
	bl	"std_io::io::write_to"
	ldurb	w8, [x29, #-112]
	cbnz	w8, .LBB3_114
// %bb.110:                             // %after.1.i.i.i61.9.i.i.i.i.i
	ldr	x8, [sp, #1120]
	cmp	x8, #1023
	b.ls	.LBB3_112
	b	.LBB3_116
.LBB3_111:
	add	x8, x8, #1
.LBB3_112:                              // %"std_io::io::buffer::Buffer::push.exit.i.i46.9.i.i.i.i.i"
	cmp	x8, #1023
	mov	w9, #114                        // =0x72
	strb	w9, [x19, x8]
	b.lo	.LBB3_117
// %bb.113:                             // %join.3.i.i.i.i54.10.i.i.i.i.i
	movi	v0.2d, #0000000000000000
	ldr	w1, [sp, #88]
	sub	x0, x29, #112
	mov	x2, x19
	mov	w3, #1024                       // =0x400
	str	xzr, [sp, #1120]
	stp	q0, q0, [x23]
	stp	q0, q0, [x23, #32]
	stp	q0, q0, [x23, #64]
	bl	"std_io::io::write_to"
	ldurb	w8, [x29, #-112]
	cbz	w8, .LBB3_140
.LBB3_114:                              // %arm.5.i.i.i.i.i.i.i.i.i
	mov	w8, #1                          // =0x1
	add	x9, sp, #88
.LBB3_115:                              // %"core::fmt::tuples::and_write1::<#4529a28abe3543b1>.exit.i.thread.i.i"
	ldur	q0, [x23, #40]
	ldur	q1, [x23, #56]
	str	x8, [sp, #1128]
	add	x8, x9, #1048
	ldur	q2, [x23, #72]
	ldur	x9, [x29, #-24]
	stp	q0, q1, [x8, #32]
	ldur	q0, [x23, #8]
	ldur	q1, [x23, #24]
	str	q2, [x8, #64]
	stp	q0, q1, [x8]
	str	x9, [sp, #1216]
.LBB3_116:                              // %"core::fmt::tuples::and_write1::<#4529a28abe3543b1>.exit.i.thread.i.i"
	ldr	q0, [x26]
	ldr	x8, [sp, #1280]
	b	.LBB3_15
.LBB3_117:
	add	x8, x8, #1
.LBB3_118:                              // %"std_io::io::buffer::Buffer::push.exit.i.i46.10.i.i.i.i.i"
	mov	w9, #32                         // =0x20
	strb	w9, [x19, x8]
	add	x8, x8, #1
	str	x8, [sp, #1120]
.LBB3_119:                              // %arm.1.i.i.i.i.i.i
	mov	w8, #32                         // =0x20
	str	xzr, [x27]
	str	w8, [sp, #1224]
	mov	x8, #-1                         // =0xffffffffffffffff
	str	x8, [sp, #1240]
	ldr	w8, [sp, #12]                   // 4-byte Reload
	str	wzr, [x27, #8]
	cmp	w8, #0
	str	xzr, [sp, #1296]
	cneg	w8, w8, mi
	str	xzr, [sp, #1288]
	cmp	w8, #100
	str	xzr, [sp, #1304]
	b.lo	.LBB3_123
// %bb.120:                             // %join.5.i.i.i99.i.i.i.i.i.preheader
	mov	x9, xzr
.LBB3_121:                              // %join.5.i.i.i99.i.i.i.i.i
                                        // =>This Inner Loop Header: Depth=1
	mov	x11, #62915                     // =0xf5c3
	mov	x10, x8
	lsr	x8, x8, #2
	movk	x11, #23592, lsl #16
	mov	w12, #205                       // =0xcd
	movk	x11, #49807, lsl #32
	movk	x11, #10485, lsl #48
	umulh	x8, x8, x11
	mov	w11, #100                       // =0x64
	lsr	x8, x8, #2
	msub	w11, w8, w11, w10
	lsr	x10, x10, #4
	cmp	x10, #624
	and	w13, w11, #0xff
	mul	w12, w13, w12
	mov	w13, #10                        // =0xa
	lsr	w12, w12, #11
	msub	w11, w12, w13, w11
	add	x13, sp, #1288
	orr	w10, w12, #0x30
	add	x13, x13, x9
	sub	x9, x9, #2
	strb	w10, [x13, #22]
	orr	w11, w11, #0x30
	strb	w11, [x13, #23]
	b.hi	.LBB3_121
// %bb.122:                             // %after.1.i.i.i70.i.i.i.i.i.loopexit
	add	x9, x9, #24
	b	.LBB3_124
.LBB3_123:
	mov	w9, #24                         // =0x18
.LBB3_124:                              // %after.1.i.i.i70.i.i.i.i.i
	cmp	x8, #10
	b.lo	.LBB3_126
// %bb.125:                             // %then.6.i.i.i.i.i.i.i.i
	and	w10, w8, #0xff
	mov	w11, #205                       // =0xcd
	mul	w10, w10, w11
	mov	w11, #10                        // =0xa
	lsr	w10, w10, #11
	msub	w8, w10, w11, w8
	add	x11, sp, #1288
	orr	w10, w10, #0x30
	add	x11, x11, x9
	sub	x9, x9, #2
	sturb	w10, [x11, #-2]
	orr	w8, w8, #0x30
	sturb	w8, [x11, #-1]
	b	.LBB3_127
.LBB3_126:                              // %join.8.i.i.i71.i.i.i.i.i
	sub	x9, x9, #1
	add	x10, sp, #1288
	orr	w8, w8, #0x30
	strb	w8, [x10, x9]
.LBB3_127:                              // %"core::fmt::int::decimal_text.exit.i.i.i.i.i.i"
	ldr	w12, [sp, #12]                  // 4-byte Reload
	ldr	x10, [sp, #1248]
	sub	x11, x9, #1
	add	x8, sp, #1288
	cmp	w12, #0
	mov	w12, #45                        // =0x2d
	strb	w12, [x8, x11]
	csel	x20, x11, x9, mi
	cbnz	x10, .LBB3_143
// %bb.128:                             // %then.1.i.i.i.i.i.i.i.i
	cmp	x20, #24
	b.ne	.LBB3_134
.LBB3_129:                              // %arm.1.i.i.i.i.i.i.i
	mov	w8, #32                         // =0x20
	ldr	x9, [sp, #1248]
	str	xzr, [x27]
	str	w8, [sp, #1224]
	mov	x8, #-1                         // =0xffffffffffffffff
	str	wzr, [x27, #8]
	str	x8, [sp, #1240]
	cbnz	x9, .LBB3_144
// %bb.130:                             // %arm.3.lr.ph.i.i119.i.i.i.i.i
	ldr	x8, [sp, #1120]
	cmp	x8, #1024
	b.lo	.LBB3_142
// %bb.131:                             // %then.2.i.i.i136.i.i.i.i.i
	movi	v0.2d, #0000000000000000
	cmp	x8, #1024
	str	xzr, [sp, #1120]
	stp	q0, q0, [x23]
	stp	q0, q0, [x23, #32]
	stp	q0, q0, [x23, #64]
	b.ne	.LBB3_116
// %bb.132:                             // %join.3.i.i.i.i139.i.i.i.i.i
	ldr	w1, [sp, #88]
	sub	x0, x29, #112
	mov	x2, x19
	mov	w3, #1024                       // =0x400
	bl	"std_io::io::write_to"
	ldurb	w8, [x29, #-112]
	cbz	w8, .LBB3_141
// %bb.133:                             // %arm.5.i.i.i.i142.i.i.i.i.i
	mov	w8, #1                          // =0x1
	add	x9, sp, #88
	sub	x23, x29, #112
	b	.LBB3_115
.LBB3_134:                              // %arm.3.lr.ph.i.i74.i.i.i.i.i
	ldr	x8, [sp, #1120]
	b	.LBB3_136
.LBB3_135:                              // %"std_io::io::buffer::Buffer::push.exit.i.i82.i.i.i.i.i"
                                        //   in Loop: Header=BB3_136 Depth=1
	add	x20, x20, #1
	strb	w21, [x19, x8]
	add	x8, x8, #1
	cmp	x20, #24
	str	x8, [sp, #1120]
	b.eq	.LBB3_129
.LBB3_136:                              // %arm.3.i.i77.i.i.i.i.i
                                        // =>This Inner Loop Header: Depth=1
	add	x9, sp, #1288
	cmp	x8, #1024
	ldrb	w21, [x9, x20]
	b.lo	.LBB3_135
// %bb.137:                             // %then.2.i.i.i87.i.i.i.i.i
                                        //   in Loop: Header=BB3_136 Depth=1
	movi	v0.2d, #0000000000000000
	cmp	x8, #1024
	str	xzr, [sp, #1120]
	stp	q0, q0, [x23]
	stp	q0, q0, [x23, #32]
	stp	q0, q0, [x23, #64]
	b.ne	.LBB3_116
// %bb.138:                             // %join.3.i.i.i.i90.i.i.i.i.i
                                        //   in Loop: Header=BB3_136 Depth=1
	ldr	w1, [sp, #88]
	sub	x0, x29, #112
	mov	x2, x19
	mov	w3, #1024                       // =0x400
	bl	"std_io::io::write_to"
	ldurb	w8, [x29, #-112]
	cbnz	w8, .LBB3_114
// %bb.139:                             // %after.1.i.i12.i.i.i.i.i.i
                                        //   in Loop: Header=BB3_136 Depth=1
	ldr	x8, [sp, #1120]
	cmp	x8, #1023
	b.ls	.LBB3_135
	b	.LBB3_116
.LBB3_140:                              // %after.1.i.i.i61.10.i.i.i.i.i
	ldr	x8, [sp, #1120]
	cmp	x8, #1023
	b.hi	.LBB3_116
	b	.LBB3_118
.LBB3_141:                              // %after.1.i.i.i146.i.i.i.i.i
	ldr	x8, [sp, #1120]
	sub	x23, x29, #112
	cmp	x8, #1023
	b.hi	.LBB3_116
.LBB3_142:                              // %"core::fmt::tuples::and_write1::<#4529a28abe3543b1>.exit.i.thread3.i.i"
	mov	w9, #41                         // =0x29
	strb	w9, [x19, x8]
	ldr	q0, [x26]
	ldr	x9, [sp, #1280]
	ldr	x20, [sp, #80]                  // 8-byte Reload
	add	x8, x8, #1
	str	x8, [sp, #1120]
	str	q0, [x20]
	str	x9, [x20, #16]
	b	.LBB3_57
.LBB3_143:                              // %"core::fmt::tuples::and_write1::<#ce9962cae1a563cb>.exit.i.i.i.i.i"
	mov	w9, #24                         // =0x18
	add	x0, sp, #88
	add	x1, x8, x20
	sub	x2, x9, x20
	bl	"core::fmt::formatter::Formatter::write_indented::<#bf264aed5fa78656>"
	and	w8, w0, #0xff
	tbnz	w8, #0, .LBB3_116
	b	.LBB3_129
.LBB3_144:                              // %else.2.i.i114.i.i.i.i.i
	adrp	x1, .Lstatic.12
	add	x1, x1, :lo12:.Lstatic.12
	add	x0, sp, #88
	mov	w2, #1                          // =0x1
	b	.LBB3_93
.Lfunc_end3:
	.size	"tapelist::fail::<#4e9da720f7635e46>", .Lfunc_end3-"tapelist::fail::<#4e9da720f7635e46>"
                                        // -- End function
	.section	.rodata.cst8,"aM",@progbits,8
	.p2align	3, 0x0                          // -- Begin function std_io::io::write_to
.LCPI4_0:
	.byte	2                               // 0x2
	.byte	23                              // 0x17
	.byte	28                              // 0x1c
	.byte	0                               // 0x0
	.zero	1
	.zero	1
	.zero	1
	.zero	1
	.section	.rodata.cst16,"aM",@progbits,16
	.p2align	4, 0x0
.LCPI4_1:
	.xword	8367798494427701606             // 0x742064656c696166
	.xword	2334399978102268015             // 0x206574697277206f
.LCPI4_2:
	.xword	8458358670138239095             // 0x756220656c6f6877
	.xword	3327647951695996518             // 0x2e2e2e2e72656666
	.section	".text.std_io::io::write_to","ax",@progbits
	.p2align	2
	.type	"std_io::io::write_to",@function
"std_io::io::write_to":                 // @"std_io::io::write_to"
// %bb.0:                               // %start
	sub	sp, sp, #176
	str	x25, [sp, #112]                 // 8-byte Spill
	add	x25, x3, #64
	stp	x24, x23, [sp, #128]            // 16-byte Folded Spill
	mov	x24, xzr
	stp	x22, x21, [sp, #144]            // 16-byte Folded Spill
	mov	x21, x2
	mov	w22, w1
	stp	x20, x19, [sp, #160]            // 16-byte Folded Spill
	mov	x20, x3
	mov	x19, x0
	stp	x29, x30, [sp, #96]             // 16-byte Folded Spill
	add	x29, sp, #96
	b	.LBB4_3
.LBB4_1:                                // %then.10
                                        //   in Loop: Header=BB4_3 Depth=1
	bl	rattle_errno
	cmp	w0, #4
	b.ne	.LBB4_13
// %bb.2:                               // %join.12
                                        //   in Loop: Header=BB4_3 Depth=1
	subs	x25, x25, #1
	b.eq	.LBB4_7
.LBB4_3:                                // %arm.3
                                        // =>This Inner Loop Header: Depth=1
	subs	x23, x20, x24
	b.ls	.LBB4_8
// %bb.4:                               // %join.9
                                        //   in Loop: Header=BB4_3 Depth=1
	add	x1, x21, x24
	mov	w0, w22
	mov	x2, x23
	bl	write
	tbnz	x0, #63, .LBB4_1
// %bb.5:                               // %else.11
                                        //   in Loop: Header=BB4_3 Depth=1
	cbz	x0, .LBB4_9
// %bb.6:                               // %else.17
                                        //   in Loop: Header=BB4_3 Depth=1
	cmp	x0, x23
	csel	x8, x0, x23, lo
	add	x24, x8, x24
	subs	x25, x25, #1
	b.ne	.LBB4_3
.LBB4_7:                                // %after.1
	cmp	x20, x24
	movi	v0.2d, #0000000000000000
	mov	w8, #35                         // =0x23
	cset	w9, hi
	csel	w8, w8, wzr, hi
	strb	wzr, [x19, #8]
	strb	w9, [x19]
	mov	w9, #4                          // =0x4
	strb	w8, [x19, #9]
	csel	w8, w9, wzr, hi
	strh	wzr, [x19, #10]
	str	w8, [x19, #12]
	stp	q0, q0, [x19, #16]
	b	.LBB4_10
.LBB4_8:                                // %then.7
	movi	v0.2d, #0000000000000000
	strb	wzr, [x19]
	str	xzr, [x19, #88]
	stur	q0, [x19, #8]
	stur	q0, [x19, #24]
	stur	q0, [x19, #40]
	stur	q0, [x19, #56]
	stur	q0, [x19, #72]
	b	.LBB4_12
.LBB4_9:                                // %then.16
	adrp	x8, .LCPI4_0
	str	wzr, [x19, #12]
	ldr	d0, [x8, :lo12:.LCPI4_0]
	adrp	x8, .LCPI4_1
	ldr	q1, [x8, :lo12:.LCPI4_1]
	adrp	x8, .LCPI4_2
	str	s0, [x19, #8]
	movi	v0.16b, #46
	ldr	q2, [x8, :lo12:.LCPI4_2]
	mov	w8, #1                          // =0x1
	stp	q1, q2, [x19, #16]
	strb	w8, [x19]
.LBB4_10:                               // %then.16
	stp	q0, q0, [x19, #48]
.LBB4_11:                               // %then.16
	str	q0, [x19, #80]
.LBB4_12:                               // %then.16
	ldp	x20, x19, [sp, #160]            // 16-byte Folded Reload
	ldr	x25, [sp, #112]                 // 8-byte Reload
	ldp	x22, x21, [sp, #144]            // 16-byte Folded Reload
	ldp	x24, x23, [sp, #128]            // 16-byte Folded Reload
	ldp	x29, x30, [sp, #96]             // 16-byte Folded Reload
	add	sp, sp, #176
	ret
.LBB4_13:                               // %then.13
	mov	w1, w0
	add	x0, sp, #8
	bl	"std_io::io::error::Error::from_raw_os_error"
	ldp	q0, q1, [sp, #16]
	mov	w8, #1                          // =0x1
	strb	w8, [x19]
	ldp	w8, w9, [sp, #8]
	stp	q0, q1, [x19, #16]
	ldp	q2, q0, [sp, #48]
	stp	w8, w9, [x19, #8]
	stp	q2, q0, [x19, #48]
	ldur	q0, [sp, #80]
	b	.LBB4_11
.Lfunc_end4:
	.size	"std_io::io::write_to", .Lfunc_end4-"std_io::io::write_to"
                                        // -- End function
	.section	".text.unlikely.core::fmt::formatter::Formatter::write_indented::<#bf264aed5fa78656>","ax",@progbits
	.p2align	2                               // -- Begin function core::fmt::formatter::Formatter::write_indented::<#bf264aed5fa78656>
	.type	"core::fmt::formatter::Formatter::write_indented::<#bf264aed5fa78656>",@function
"core::fmt::formatter::Formatter::write_indented::<#bf264aed5fa78656>": // @"core::fmt::formatter::Formatter::write_indented::<#bf264aed5fa78656>"
// %bb.0:                               // %start
	stp	x29, x30, [sp, #-80]!           // 16-byte Folded Spill
	str	x25, [sp, #16]                  // 8-byte Spill
	mov	x29, sp
	stp	x24, x23, [sp, #32]             // 16-byte Folded Spill
	stp	x22, x21, [sp, #48]             // 16-byte Folded Spill
	stp	x20, x19, [sp, #64]             // 16-byte Folded Spill
	cbz	x2, .LBB5_16
// %bb.1:                               // %"core::fmt::utf8::is_newline_at.exit.lr.ph"
	mov	x21, x2
	mov	x20, x1
	mov	x19, x0
	mov	x8, xzr
	mov	x24, xzr
	b	.LBB5_4
.LBB5_2:                                // %"core::fmt::formatter::Formatter::write_indented_line::<#bf264aed5fa78656>.exit"
                                        //   in Loop: Header=BB5_4 Depth=1
	mov	w23, #1                         // =0x1
	add	x1, x20, x25
	mov	x0, x19
	mov	x2, x22
	strb	w23, [x19, #1168]
	bl	"core::fmt::formatter::Formatter::write_raw::<#bf264aed5fa78656>"
	and	w9, w0, #0xff
	mov	x8, x24
	tbnz	w9, #0, .LBB5_18
.LBB5_3:                                // %join.8
                                        //   in Loop: Header=BB5_4 Depth=1
	cmp	x24, x21
	b.eq	.LBB5_10
.LBB5_4:                                // %"core::fmt::utf8::is_newline_at.exit"
                                        // =>This Loop Header: Depth=1
                                        //     Child Loop BB5_8 Depth 2
	ldrb	w10, [x20, x24]
	mov	x9, x24
	add	x24, x24, #1
	cmp	w10, #10
	b.ne	.LBB5_3
// %bb.5:                               // %then.6
                                        //   in Loop: Header=BB5_4 Depth=1
	subs	x22, x24, x8
	csel	x25, xzr, x8, lo
	cmp	x8, x9
	mov	x8, x24
	b.hi	.LBB5_3
// %bb.6:                               // %join.3.i
                                        //   in Loop: Header=BB5_4 Depth=1
	ldrb	w8, [x19, #1168]
	cmp	w8, #1
	b.ne	.LBB5_2
// %bb.7:                               // %then.1.i.i
                                        //   in Loop: Header=BB5_4 Depth=1
	ldr	x23, [x19, #1160]
	cbz	x23, .LBB5_2
.LBB5_8:                                // %join.8.i.i
                                        //   Parent Loop BB5_4 Depth=1
                                        // =>  This Inner Loop Header: Depth=2
	adrp	x1, .Lstatic.10
	add	x1, x1, :lo12:.Lstatic.10
	mov	x0, x19
	mov	w2, #4                          // =0x4
	bl	"core::fmt::formatter::Formatter::write_raw::<#bf264aed5fa78656>"
	and	w8, w0, #0xff
	tbnz	w8, #0, .LBB5_17
// %bb.9:                               // %loop.5.i.i
                                        //   in Loop: Header=BB5_8 Depth=2
	subs	x23, x23, #1
	b.ne	.LBB5_8
	b	.LBB5_2
.LBB5_10:                               // %after.1
	cmp	x8, x21
	csel	x22, xzr, x8, hi
	subs	x8, x21, x8
	csel	x21, xzr, x8, lo
	b.ls	.LBB5_16
// %bb.11:                              // %join.3.i21
	ldrb	w8, [x19, #1168]
	cmp	w8, #1
	b.ne	.LBB5_15
// %bb.12:                              // %then.1.i.i28
	ldr	x23, [x19, #1160]
	cbz	x23, .LBB5_15
.LBB5_13:                               // %join.8.i.i32
                                        // =>This Inner Loop Header: Depth=1
	adrp	x1, .Lstatic.10
	add	x1, x1, :lo12:.Lstatic.10
	mov	x0, x19
	mov	w2, #4                          // =0x4
	bl	"core::fmt::formatter::Formatter::write_raw::<#bf264aed5fa78656>"
	and	w8, w0, #0xff
	tbnz	w8, #0, .LBB5_17
// %bb.14:                              // %loop.5.i.i36
                                        //   in Loop: Header=BB5_13 Depth=1
	subs	x23, x23, #1
	b.ne	.LBB5_13
.LBB5_15:                               // %arm.5.i25
	add	x1, x20, x22
	mov	x0, x19
	mov	x2, x21
	strb	wzr, [x19, #1168]
	ldp	x20, x19, [sp, #64]             // 16-byte Folded Reload
	ldp	x22, x21, [sp, #48]             // 16-byte Folded Reload
	ldr	x25, [sp, #16]                  // 8-byte Reload
	ldp	x24, x23, [sp, #32]             // 16-byte Folded Reload
	ldp	x29, x30, [sp], #80             // 16-byte Folded Reload
	b	"core::fmt::formatter::Formatter::write_raw::<#bf264aed5fa78656>"
.LBB5_16:
	mov	w23, wzr
	b	.LBB5_18
.LBB5_17:
	mov	w23, #1                         // =0x1
.LBB5_18:                               // %return.13
	mov	w0, w23
	ldp	x20, x19, [sp, #64]             // 16-byte Folded Reload
	ldp	x22, x21, [sp, #48]             // 16-byte Folded Reload
	ldr	x25, [sp, #16]                  // 8-byte Reload
	ldp	x24, x23, [sp, #32]             // 16-byte Folded Reload
	ldp	x29, x30, [sp], #80             // 16-byte Folded Reload
	ret
.Lfunc_end5:
	.size	"core::fmt::formatter::Formatter::write_indented::<#bf264aed5fa78656>", .Lfunc_end5-"core::fmt::formatter::Formatter::write_indented::<#bf264aed5fa78656>"
                                        // -- End function
	.section	".text.core::fmt::formatter::Formatter::write_raw::<#bf264aed5fa78656>","ax",@progbits
	.p2align	2                               // -- Begin function core::fmt::formatter::Formatter::write_raw::<#bf264aed5fa78656>
	.type	"core::fmt::formatter::Formatter::write_raw::<#bf264aed5fa78656>",@function
"core::fmt::formatter::Formatter::write_raw::<#bf264aed5fa78656>": // @"core::fmt::formatter::Formatter::write_raw::<#bf264aed5fa78656>"
// %bb.0:                               // %start
	cbz	x2, .LBB6_21
// %bb.1:                               // %join.5.i.preheader
	sub	sp, sp, #160
	stp	x22, x21, [sp, #128]            // 16-byte Folded Spill
	mov	x21, x1
	mov	x8, xzr
	stp	x20, x19, [sp, #144]            // 16-byte Folded Spill
	mov	x20, x2
	mov	x19, x0
	stp	x29, x30, [sp, #96]             // 16-byte Folded Spill
	add	x29, sp, #96
	str	x23, [sp, #112]                 // 8-byte Spill
	b	.LBB6_4
.LBB6_2:                                //   in Loop: Header=BB6_4 Depth=1
	mov	w10, #1                         // =0x1
.LBB6_3:                                // %join.8.i
                                        //   in Loop: Header=BB6_4 Depth=1
	add	x8, x10, x8
	cmp	x8, x20
	b.hs	.LBB6_22
.LBB6_4:                                // %join.5.i
                                        // =>This Inner Loop Header: Depth=1
	ldrsb	w9, [x21, x8]
	tbz	w9, #31, .LBB6_2
// %bb.5:                               // %join.3.i.i
                                        //   in Loop: Header=BB6_4 Depth=1
	add	x10, x8, #1
	cmp	x20, x10
	b.ls	.LBB6_32
// %bb.6:                               // %join.3.i.i.i
                                        //   in Loop: Header=BB6_4 Depth=1
	ldrsb	w10, [x21, x10]
	tbz	w10, #31, .LBB6_32
// %bb.7:                               // %"core::fmt::utf8::continuation_bits_at.exit.i.i"
                                        //   in Loop: Header=BB6_4 Depth=1
	and	w9, w9, #0xff
	cmn	w10, #64
	mov	w11, #-64                       // =0xffffffc0
	csel	w10, w10, w11, lo
	cmp	w9, #194
	mov	w0, #1                          // =0x1
	b.lo	.LBB6_29
// %bb.8:                               // %"core::fmt::utf8::continuation_bits_at.exit.i.i"
                                        //   in Loop: Header=BB6_4 Depth=1
	and	w10, w10, #0x7f
	cmp	w10, #63
	b.hi	.LBB6_29
// %bb.9:                               // %join.9.i.i
                                        //   in Loop: Header=BB6_4 Depth=1
	cmp	w9, #224
	b.hs	.LBB6_11
// %bb.10:                              //   in Loop: Header=BB6_4 Depth=1
	mov	w10, #2                         // =0x2
	b	.LBB6_3
.LBB6_11:                               // %join.12.i.i
                                        //   in Loop: Header=BB6_4 Depth=1
	add	x11, x8, #2
	cmp	x20, x11
	b.ls	.LBB6_29
// %bb.12:                              // %join.3.i42.i.i
                                        //   in Loop: Header=BB6_4 Depth=1
	ldrsb	w11, [x21, x11]
	cmn	w11, #65
	b.gt	.LBB6_29
// %bb.13:                              // %join.15.i.i
                                        //   in Loop: Header=BB6_4 Depth=1
	cmp	w9, #239
	b.hi	.LBB6_17
// %bb.14:                              // %then.16.i.i
                                        //   in Loop: Header=BB6_4 Depth=1
	lsl	w11, w9, #12
	add	w10, w11, w10, lsl #6
	sub	w10, w10, #224, lsl #12         // =917504
	cmp	w10, #2048
	b.lo	.LBB6_29
// %bb.15:                              // %join.21.i.i
                                        //   in Loop: Header=BB6_4 Depth=1
	lsr	w10, w10, #11
	cmp	w10, #27
	mov	w10, #3                         // =0x3
	b.lo	.LBB6_3
// %bb.16:                              // %join.21.i.i
                                        //   in Loop: Header=BB6_4 Depth=1
	cmp	w9, #238
	b.hs	.LBB6_3
	b	.LBB6_29
.LBB6_17:                               // %join.18.i.i
                                        //   in Loop: Header=BB6_4 Depth=1
	add	x11, x8, #3
	cmp	x20, x11
	b.ls	.LBB6_29
// %bb.18:                              // %join.3.i52.i.i
                                        //   in Loop: Header=BB6_4 Depth=1
	ldrsb	w11, [x21, x11]
	cmn	w11, #65
	b.gt	.LBB6_29
// %bb.19:                              // %join.30.i.i
                                        //   in Loop: Header=BB6_4 Depth=1
	lsl	w9, w9, #18
	add	w9, w9, w10, lsl #12
	mov	w10, #-62980096                 // =0xfc3f0000
	add	w9, w9, w10
	lsr	w9, w9, #20
	cbnz	w9, .LBB6_29
// %bb.20:                              //   in Loop: Header=BB6_4 Depth=1
	mov	w10, #4                         // =0x4
	b	.LBB6_3
.LBB6_21:
	mov	w0, wzr
	ret
.LBB6_22:                               // %arm.3.lr.ph.i
	ldr	x8, [x19, #1032]
	add	x22, x19, #4
	b	.LBB6_24
.LBB6_23:                               // %"std_io::io::buffer::Buffer::push.exit.i"
                                        //   in Loop: Header=BB6_24 Depth=1
	sub	x20, x20, #1
	strb	w23, [x22, x8]
	add	x8, x8, #1
	str	x8, [x19, #1032]
	cbz	x20, .LBB6_30
.LBB6_24:                               // %arm.3.i
                                        // =>This Inner Loop Header: Depth=1
	ldrb	w23, [x21], #1
	cmp	x8, #1024
	b.lo	.LBB6_23
// %bb.25:                              // %then.2.i.i
                                        //   in Loop: Header=BB6_24 Depth=1
	movi	v0.2d, #0000000000000000
	cmp	x8, #1024
	str	xzr, [x19, #1032]
	stp	q0, q0, [sp]
	stp	q0, q0, [sp, #32]
	stp	q0, q0, [sp, #64]
	b.ne	.LBB6_32
// %bb.26:                              // %join.3.i.i.i2
                                        //   in Loop: Header=BB6_24 Depth=1
	ldr	w1, [x19]
	mov	x0, sp
	add	x2, x19, #4
	mov	w3, #1024                       // =0x400
	bl	"std_io::io::write_to"
	ldrb	w8, [sp]
	cbnz	w8, .LBB6_31
// %bb.27:                              // %after.1.i.i
                                        //   in Loop: Header=BB6_24 Depth=1
	ldr	x8, [x19, #1032]
	cmp	x8, #1023
	b.ls	.LBB6_23
// %bb.28:
	mov	w0, #1                          // =0x1
.LBB6_29:
	ldp	x20, x19, [sp, #144]            // 16-byte Folded Reload
	ldr	x23, [sp, #112]                 // 8-byte Reload
	ldp	x22, x21, [sp, #128]            // 16-byte Folded Reload
	ldp	x29, x30, [sp, #96]             // 16-byte Folded Reload
	add	sp, sp, #160
	ret
.LBB6_30:
	mov	w0, wzr
	ldp	x20, x19, [sp, #144]            // 16-byte Folded Reload
	ldr	x23, [sp, #112]                 // 8-byte Reload
	ldp	x22, x21, [sp, #128]            // 16-byte Folded Reload
	ldp	x29, x30, [sp, #96]             // 16-byte Folded Reload
	add	sp, sp, #160
	ret
.LBB6_31:                               // %arm.5.i.i.i
	mov	w8, #1                          // =0x1
	ldur	q0, [sp, #40]
	ldur	q1, [sp, #56]
	str	x8, [x19, #1040]
	add	x8, x19, #1048
	ldr	x9, [sp, #88]
	ldur	q2, [sp, #72]
	stp	q0, q1, [x8, #32]
	ldur	q0, [sp, #8]
	ldur	q1, [sp, #24]
	str	x9, [x19, #1128]
	str	q2, [x8, #64]
	stp	q0, q1, [x8]
.LBB6_32:
	mov	w0, #1                          // =0x1
	ldp	x20, x19, [sp, #144]            // 16-byte Folded Reload
	ldr	x23, [sp, #112]                 // 8-byte Reload
	ldp	x22, x21, [sp, #128]            // 16-byte Folded Reload
	ldp	x29, x30, [sp, #96]             // 16-byte Folded Reload
	add	sp, sp, #160
	ret
.Lfunc_end6:
	.size	"core::fmt::formatter::Formatter::write_raw::<#bf264aed5fa78656>", .Lfunc_end6-"core::fmt::formatter::Formatter::write_raw::<#bf264aed5fa78656>"
                                        // -- End function
	.section	".text.core::fmt::formatter::Formatter::cut_and_fill::<#bf264aed5fa78656>","ax",@progbits
	.p2align	2                               // -- Begin function core::fmt::formatter::Formatter::cut_and_fill::<#bf264aed5fa78656>
	.type	"core::fmt::formatter::Formatter::cut_and_fill::<#bf264aed5fa78656>",@function
"core::fmt::formatter::Formatter::cut_and_fill::<#bf264aed5fa78656>": // @"core::fmt::formatter::Formatter::cut_and_fill::<#bf264aed5fa78656>"
// %bb.0:                               // %start
	sub	sp, sp, #176
	ldr	x8, [x0, #1152]
	stp	x22, x21, [sp, #144]            // 16-byte Folded Spill
	mov	x21, x2
	stp	x20, x19, [sp, #160]            // 16-byte Folded Spill
	mov	x20, x1
	mov	x19, x0
	cmp	x2, x8
	stp	x29, x30, [sp, #96]             // 16-byte Folded Spill
	add	x29, sp, #96
	stp	x26, x25, [sp, #112]            // 16-byte Folded Spill
	stp	x24, x23, [sp, #128]            // 16-byte Folded Spill
	b.ls	.LBB7_8
// %bb.1:                               // %join.8.i.preheader
	mov	x21, xzr
	b	.LBB7_3
.LBB7_2:                                // %join.11.i
                                        //   in Loop: Header=BB7_3 Depth=1
	add	x21, x21, #1
	cmp	x2, x21
	b.eq	.LBB7_6
.LBB7_3:                                // %join.8.i
                                        // =>This Inner Loop Header: Depth=1
	ldrsb	w9, [x20, x21]
	cmn	w9, #64
	b.lt	.LBB7_2
// %bb.4:                               // %then.9.i
                                        //   in Loop: Header=BB7_3 Depth=1
	cbz	x8, .LBB7_7
// %bb.5:                               // %join.14.i
                                        //   in Loop: Header=BB7_3 Depth=1
	sub	x8, x8, #1
	b	.LBB7_2
.LBB7_6:
	mov	x21, x2
	b	.LBB7_9
.LBB7_7:                                // %"core::fmt::utf8::end_of_chars.exit"
	cmp	x2, x21
	b.lo	.LBB7_32
.LBB7_8:                                // %join.3.i.i
	cbz	x2, .LBB7_10
.LBB7_9:                                // %"core::iter::parts::str::is_char_boundary.exit.i.i"
	ldrsb	w8, [x20]
	cmn	w8, #64
	b.lt	.LBB7_32
.LBB7_10:                               // %join.6.i.i
	cmp	x21, x2
	b.eq	.LBB7_12
// %bb.11:                              // %"core::iter::parts::str::is_char_boundary.exit23.i.i"
	ldrsb	w8, [x20, x21]
	cmn	w8, #64
	b.lt	.LBB7_32
.LBB7_12:                               // %arm.1
	ldr	x24, [x19, #1144]
	cbz	x21, .LBB7_17
// %bb.13:                              // %arm.1
	cbz	x24, .LBB7_17
// %bb.14:                              // %join.10.i.preheader
	mov	x8, xzr
.LBB7_15:                               // %join.10.i
                                        // =>This Inner Loop Header: Depth=1
	ldrsb	w9, [x20, x8]
	add	x8, x8, #1
	cmn	w9, #65
	cset	w9, gt
	cmp	x8, x21
	sub	x24, x24, x9
	b.hs	.LBB7_17
// %bb.16:                              // %join.10.i
                                        //   in Loop: Header=BB7_15 Depth=1
	cbnz	x24, .LBB7_15
.LBB7_17:                               // %"core::fmt::utf8::padding_to.exit"
	ldrb	w8, [x19, #1140]
	cmp	w8, #1
	csinc	w8, w8, wzr, hi
	cmp	w8, #2
	b.eq	.LBB7_20
// %bb.18:                              // %"core::fmt::utf8::padding_to.exit"
	cmp	w8, #1
	mov	x23, x24
	b.ne	.LBB7_21
// %bb.19:                              // %"core::fmt::formatter::padding_before.exit.thread"
	ldr	w22, [x19, #1136]
	mov	x23, xzr
	b	.LBB7_23
.LBB7_20:                               // %then.7.i
	lsr	x23, x24, #1
.LBB7_21:                               // %"core::fmt::formatter::padding_before.exit"
	ldr	w22, [x19, #1136]
	cbz	x23, .LBB7_23
// %bb.22:                              // %"core::fmt::formatter::Formatter::repeat_char::<#bf264aed5fa78656>.exit16"
	mov	x0, x19
	mov	w1, w22
	mov	x2, x23
	bl	"core::fmt::formatter::Formatter::write_char_n_times::<#bf264aed5fa78656>"
	and	w8, w0, #0xff
	tbnz	w8, #0, .LBB7_32
.LBB7_23:                               // %arm.6
	ldr	x8, [x19, #1160]
	cbnz	x8, .LBB7_34
// %bb.24:                              // %then.1.i
	cbz	x21, .LBB7_35
// %bb.25:                              // %arm.3.lr.ph.i
	ldr	x8, [x19, #1032]
	add	x25, x19, #4
	b	.LBB7_27
.LBB7_26:                               // %"std_io::io::buffer::Buffer::push.exit.i"
                                        //   in Loop: Header=BB7_27 Depth=1
	sub	x21, x21, #1
	strb	w26, [x25, x8]
	add	x8, x8, #1
	str	x8, [x19, #1032]
	cbz	x21, .LBB7_35
.LBB7_27:                               // %arm.3.i
                                        // =>This Inner Loop Header: Depth=1
	ldrb	w26, [x20], #1
	cmp	x8, #1024
	b.lo	.LBB7_26
// %bb.28:                              // %then.2.i.i
                                        //   in Loop: Header=BB7_27 Depth=1
	movi	v0.2d, #0000000000000000
	cmp	x8, #1024
	str	xzr, [x19, #1032]
	stp	q0, q0, [sp]
	stp	q0, q0, [sp, #32]
	stp	q0, q0, [sp, #64]
	b.ne	.LBB7_32
// %bb.29:                              // %join.3.i.i.i
                                        //   in Loop: Header=BB7_27 Depth=1
	ldr	w1, [x19]
	mov	x0, sp
	add	x2, x19, #4
	mov	w3, #1024                       // =0x400
	bl	"std_io::io::write_to"
	ldrb	w8, [sp]
	cbnz	w8, .LBB7_31
// %bb.30:                              // %after.1.i.i
                                        //   in Loop: Header=BB7_27 Depth=1
	ldr	x8, [x19, #1032]
	cmp	x8, #1023
	b.ls	.LBB7_26
	b	.LBB7_32
.LBB7_31:                               // %arm.5.i.i.i
	mov	w8, #1                          // =0x1
	ldur	q0, [sp, #40]
	ldur	q1, [sp, #56]
	str	x8, [x19, #1040]
	add	x8, x19, #1048
	ldr	x9, [sp, #88]
	ldur	q2, [sp, #72]
	stp	q0, q1, [x8, #32]
	ldur	q0, [sp, #8]
	ldur	q1, [sp, #24]
	str	x9, [x19, #1128]
	str	q2, [x8, #64]
	stp	q0, q1, [x8]
.LBB7_32:
	mov	w0, #1                          // =0x1
.LBB7_33:                               // %return.5
	ldp	x20, x19, [sp, #160]            // 16-byte Folded Reload
	ldp	x22, x21, [sp, #144]            // 16-byte Folded Reload
	ldp	x24, x23, [sp, #128]            // 16-byte Folded Reload
	ldp	x26, x25, [sp, #112]            // 16-byte Folded Reload
	ldp	x29, x30, [sp, #96]             // 16-byte Folded Reload
	add	sp, sp, #176
	ret
.LBB7_34:                               // %"core::fmt::formatter::Formatter::write_str::<#bf264aed5fa78656>.exit"
	mov	x0, x19
	mov	x1, x20
	mov	x2, x21
	bl	"core::fmt::formatter::Formatter::write_indented::<#bf264aed5fa78656>"
	and	w8, w0, #0xff
	tbnz	w8, #0, .LBB7_32
.LBB7_35:                               // %arm.9
	subs	x2, x24, x23
	b.ls	.LBB7_37
// %bb.36:                              // %else.2.i10
	mov	x0, x19
	mov	w1, w22
	ldp	x20, x19, [sp, #160]            // 16-byte Folded Reload
	ldp	x22, x21, [sp, #144]            // 16-byte Folded Reload
	ldp	x24, x23, [sp, #128]            // 16-byte Folded Reload
	ldp	x26, x25, [sp, #112]            // 16-byte Folded Reload
	ldp	x29, x30, [sp, #96]             // 16-byte Folded Reload
	add	sp, sp, #176
	b	"core::fmt::formatter::Formatter::write_char_n_times::<#bf264aed5fa78656>"
.LBB7_37:
	mov	w0, wzr
	b	.LBB7_33
.Lfunc_end7:
	.size	"core::fmt::formatter::Formatter::cut_and_fill::<#bf264aed5fa78656>", .Lfunc_end7-"core::fmt::formatter::Formatter::cut_and_fill::<#bf264aed5fa78656>"
                                        // -- End function
	.section	.rodata.cst16,"aM",@progbits,16
	.p2align	4, 0x0                          // -- Begin function core::fmt::formatter::Formatter::write_char_n_times::<#bf264aed5fa78656>
.LCPI8_0:
	.word	4294967278                      // 0xffffffee
	.word	4294967284                      // 0xfffffff4
	.word	4294967290                      // 0xfffffffa
	.word	0                               // 0x0
	.section	.rodata.cst8,"aM",@progbits,8
	.p2align	3, 0x0
.LCPI8_1:
	.hword	255                             // 0xff
	.hword	63                              // 0x3f
	.hword	63                              // 0x3f
	.hword	63                              // 0x3f
.LCPI8_2:
	.hword	240                             // 0xf0
	.hword	128                             // 0x80
	.hword	128                             // 0x80
	.hword	128                             // 0x80
	.section	".text.core::fmt::formatter::Formatter::write_char_n_times::<#bf264aed5fa78656>","ax",@progbits
	.p2align	2
	.type	"core::fmt::formatter::Formatter::write_char_n_times::<#bf264aed5fa78656>",@function
"core::fmt::formatter::Formatter::write_char_n_times::<#bf264aed5fa78656>": // @"core::fmt::formatter::Formatter::write_char_n_times::<#bf264aed5fa78656>"
// %bb.0:                               // %start
	sub	sp, sp, #240
	stp	x20, x19, [sp, #224]            // 16-byte Folded Spill
	mov	x20, x2
	mov	x19, x0
	cmp	w1, #127
	stp	x29, x30, [sp, #144]            // 16-byte Folded Spill
	add	x29, sp, #144
	str	x27, [sp, #160]                 // 8-byte Spill
	stp	x26, x25, [sp, #176]            // 16-byte Folded Spill
	stp	x24, x23, [sp, #192]            // 16-byte Folded Spill
	stp	x22, x21, [sp, #208]            // 16-byte Folded Spill
	stp	xzr, xzr, [sp, #8]
	str	xzr, [sp, #24]
	b.hi	.LBB8_19
// %bb.1:                               // %then.1
	mov	w8, w1
	mov	x9, #72340172838076673          // =0x101010101010101
	cmp	x20, #17
	mul	x8, x8, x9
	stp	x8, x8, [sp, #32]
	b.lo	.LBB8_12
// %bb.2:                               // %join.5.lr.ph.i
	add	x21, x19, #4
.LBB8_3:                                // %join.5.i
                                        // =>This Loop Header: Depth=1
                                        //     Child Loop BB8_6 Depth 2
	ldr	x8, [x19, #1160]
	cbnz	x8, .LBB8_10
// %bb.4:                               // %arm.3.lr.ph.i.i
                                        //   in Loop: Header=BB8_3 Depth=1
	ldr	x8, [x19, #1032]
	mov	x22, xzr
	b	.LBB8_6
.LBB8_5:                                // %"std_io::io::buffer::Buffer::push.exit.i.i"
                                        //   in Loop: Header=BB8_6 Depth=2
	add	x22, x22, #1
	strb	w23, [x21, x8]
	add	x8, x8, #1
	cmp	x22, #16
	str	x8, [x19, #1032]
	b.eq	.LBB8_11
.LBB8_6:                                // %arm.3.i.i
                                        //   Parent Loop BB8_3 Depth=1
                                        // =>  This Inner Loop Header: Depth=2
	add	x9, sp, #32
	cmp	x8, #1024
	ldrb	w23, [x9, x22]
	b.lo	.LBB8_5
// %bb.7:                               // %then.2.i.i.i
                                        //   in Loop: Header=BB8_6 Depth=2
	movi	v0.2d, #0000000000000000
	cmp	x8, #1024
	str	xzr, [x19, #1032]
	stp	q0, q0, [sp, #48]
	stp	q0, q0, [sp, #80]
	stp	q0, q0, [sp, #112]
	b.ne	.LBB8_39
// %bb.8:                               // %join.3.i.i.i.i
                                        //   in Loop: Header=BB8_6 Depth=2
	ldr	w1, [x19]
	add	x0, sp, #48
	add	x2, x19, #4
	mov	w3, #1024                       // =0x400
	bl	"std_io::io::write_to"
	ldrb	w8, [sp, #48]
	cbnz	w8, .LBB8_38
// %bb.9:                               // %after.1.i.i.i
                                        //   in Loop: Header=BB8_6 Depth=2
	ldr	x8, [x19, #1032]
	cmp	x8, #1023
	b.ls	.LBB8_5
	b	.LBB8_39
.LBB8_10:                               // %"core::fmt::formatter::Formatter::write_str::<#bf264aed5fa78656>.exit14.i"
                                        //   in Loop: Header=BB8_3 Depth=1
	add	x1, sp, #32
	mov	x0, x19
	mov	w2, #16                         // =0x10
	bl	"core::fmt::formatter::Formatter::write_indented::<#bf264aed5fa78656>"
	and	w8, w0, #0xff
	tbnz	w8, #0, .LBB8_39
.LBB8_11:                               // %arm.7.i
                                        //   in Loop: Header=BB8_3 Depth=1
	sub	x20, x20, #16
	cmp	x20, #16
	b.hi	.LBB8_3
.LBB8_12:                               // %after.1.i
	ldr	x8, [x19, #1160]
	cbnz	x8, .LBB8_47
// %bb.13:                              // %arm.3.lr.ph.i21.i
	ldr	x8, [x19, #1032]
	add	x21, x19, #4
	add	x22, sp, #32
	b	.LBB8_15
.LBB8_14:                               // %"std_io::io::buffer::Buffer::push.exit.i33.i"
                                        //   in Loop: Header=BB8_15 Depth=1
	sub	x20, x20, #1
	strb	w23, [x21, x8]
	add	x8, x8, #1
	str	x8, [x19, #1032]
	cbz	x20, .LBB8_46
.LBB8_15:                               // %arm.3.i25.i
                                        // =>This Inner Loop Header: Depth=1
	ldrb	w23, [x22], #1
	cmp	x8, #1024
	b.lo	.LBB8_14
// %bb.16:                              // %then.2.i.i39.i
                                        //   in Loop: Header=BB8_15 Depth=1
	movi	v0.2d, #0000000000000000
	cmp	x8, #1024
	str	xzr, [x19, #1032]
	stp	q0, q0, [sp, #48]
	stp	q0, q0, [sp, #80]
	stp	q0, q0, [sp, #112]
	b.ne	.LBB8_39
// %bb.17:                              // %join.3.i.i.i42.i
                                        //   in Loop: Header=BB8_15 Depth=1
	ldr	w1, [x19]
	add	x0, sp, #48
	add	x2, x19, #4
	mov	w3, #1024                       // =0x400
	bl	"std_io::io::write_to"
	ldrb	w8, [sp, #48]
	cbnz	w8, .LBB8_38
// %bb.18:                              // %after.1.i.i49.i
                                        //   in Loop: Header=BB8_15 Depth=1
	ldr	x8, [x19, #1032]
	cmp	x8, #1023
	b.ls	.LBB8_14
	b	.LBB8_39
.LBB8_19:                               // %join.3
	cmp	w1, #2047
	str	wzr, [x29, #28]
	b.hi	.LBB8_21
// %bb.20:                              // %then.4.i
	lsr	w8, w1, #6
	mov	w9, #128                        // =0x80
	mov	w2, #2                          // =0x2
	bfxil	w9, w1, #0, #6
	orr	w8, w8, #0xc0
	strb	w8, [x29, #28]
	strb	w9, [x29, #29]
	add	x0, sp, #8
	add	x1, x29, #28
	bl	"core::str::utf8::from_utf8"
	ldrb	w8, [sp, #8]
	cbnz	w8, .LBB8_39
	b	.LBB8_27
.LBB8_21:                               // %else.5.i
	lsr	w8, w1, #11
	cmp	w8, #27
	b.lo	.LBB8_24
// %bb.22:                              // %else.5.i
	sub	w8, w1, #14, lsl #12            // =57344
	cmp	w8, #258, lsl #12               // =1056768
	b.lo	.LBB8_24
// %bb.23:                              // %then.7.i
	mov	w8, #49135                      // =0xbfef
	mov	w9, #189                        // =0xbd
	mov	w2, #3                          // =0x3
	strh	w8, [x29, #28]
	strb	w9, [x29, #30]
	add	x0, sp, #8
	add	x1, x29, #28
	bl	"core::str::utf8::from_utf8"
	ldrb	w8, [sp, #8]
	cbnz	w8, .LBB8_39
	b	.LBB8_27
.LBB8_24:                               // %else.8.i
	lsr	w8, w1, #16
	cbnz	w8, .LBB8_26
// %bb.25:                              // %then.10.i
	lsr	w8, w1, #12
	mov	w9, #128                        // =0x80
	mov	w10, #128                       // =0x80
	bfxil	w9, w1, #6, #6
	bfxil	w10, w1, #0, #6
	mov	w2, #3                          // =0x3
	orr	w8, w8, #0xe0
	strb	w8, [x29, #28]
	strb	w9, [x29, #29]
	strb	w10, [x29, #30]
	add	x0, sp, #8
	add	x1, x29, #28
	bl	"core::str::utf8::from_utf8"
	ldrb	w8, [sp, #8]
	cbnz	w8, .LBB8_39
	b	.LBB8_27
.LBB8_26:                               // %else.11.i
	dup	v0.4s, w1
	adrp	x8, .LCPI8_0
	mov	w2, #4                          // =0x4
	ldr	q1, [x8, :lo12:.LCPI8_0]
	adrp	x8, .LCPI8_1
	ushl	v0.4s, v0.4s, v1.4s
	ldr	d1, [x8, :lo12:.LCPI8_1]
	adrp	x8, .LCPI8_2
	xtn	v0.4h, v0.4s
	and	v0.8b, v0.8b, v1.8b
	ldr	d1, [x8, :lo12:.LCPI8_2]
	orr	v0.8b, v0.8b, v1.8b
	uzp1	v0.8b, v0.8b, v0.8b
	str	s0, [x29, #28]
	add	x0, sp, #8
	add	x1, x29, #28
	bl	"core::str::utf8::from_utf8"
	ldrb	w8, [sp, #8]
	cbnz	w8, .LBB8_39
.LBB8_27:                               // %arm.5
	ldp	x21, x22, [sp, #16]
	cbz	x22, .LBB8_41
// %bb.28:                              // %join.5.i6.preheader
	mov	x23, xzr
	add	x24, x19, #4
.LBB8_29:                               // %join.5.i6
                                        // =>This Loop Header: Depth=1
                                        //     Child Loop BB8_32 Depth 2
	ldr	x8, [x19, #1160]
	cbnz	x8, .LBB8_36
// %bb.30:                              // %then.1.i.i
                                        //   in Loop: Header=BB8_29 Depth=1
	ldr	x8, [x19, #1032]
	mov	x25, x22
	mov	x26, x21
	b	.LBB8_32
.LBB8_31:                               // %"std_io::io::buffer::Buffer::push.exit.i.i21"
                                        //   in Loop: Header=BB8_32 Depth=2
	sub	x25, x25, #1
	strb	w27, [x24, x8]
	add	x8, x8, #1
	str	x8, [x19, #1032]
	cbz	x25, .LBB8_37
.LBB8_32:                               // %arm.3.i.i13
                                        //   Parent Loop BB8_29 Depth=1
                                        // =>  This Inner Loop Header: Depth=2
	ldrb	w27, [x26], #1
	cmp	x8, #1024
	b.lo	.LBB8_31
// %bb.33:                              // %then.2.i.i.i26
                                        //   in Loop: Header=BB8_32 Depth=2
	movi	v0.2d, #0000000000000000
	cmp	x8, #1024
	str	xzr, [x19, #1032]
	stp	q0, q0, [sp, #48]
	stp	q0, q0, [sp, #80]
	stp	q0, q0, [sp, #112]
	b.ne	.LBB8_39
// %bb.34:                              // %join.3.i.i.i.i29
                                        //   in Loop: Header=BB8_32 Depth=2
	ldr	w1, [x19]
	add	x0, sp, #48
	add	x2, x19, #4
	mov	w3, #1024                       // =0x400
	bl	"std_io::io::write_to"
	ldrb	w8, [sp, #48]
	cbnz	w8, .LBB8_38
// %bb.35:                              // %after.1.i.i.i36
                                        //   in Loop: Header=BB8_32 Depth=2
	ldr	x8, [x19, #1032]
	cmp	x8, #1023
	b.ls	.LBB8_31
	b	.LBB8_39
.LBB8_36:                               // %"core::fmt::formatter::Formatter::write_str::<#bf264aed5fa78656>.exit.i"
                                        //   in Loop: Header=BB8_29 Depth=1
	mov	x0, x19
	mov	x1, x21
	mov	x2, x22
	bl	"core::fmt::formatter::Formatter::write_indented::<#bf264aed5fa78656>"
	and	w8, w0, #0xff
	tbnz	w8, #0, .LBB8_39
.LBB8_37:                               // %arm.6.i
                                        //   in Loop: Header=BB8_29 Depth=1
	add	x23, x23, #1
	mov	w0, wzr
	cmp	x23, x20
	b.ne	.LBB8_29
	b	.LBB8_40
.LBB8_38:                               // %arm.5.i.i.i.i
	mov	w8, #1                          // =0x1
	ldur	q0, [sp, #88]
	ldur	q1, [sp, #104]
	str	x8, [x19, #1040]
	add	x8, x19, #1048
	ldr	x9, [sp, #136]
	ldur	q2, [sp, #120]
	stp	q0, q1, [x8, #32]
	ldur	q0, [sp, #56]
	ldur	q1, [sp, #72]
	str	x9, [x19, #1128]
	str	q2, [x8, #64]
	stp	q0, q1, [x8]
.LBB8_39:                               // %"std_io::io::buffer::Buffer::flush.exit.thread.i.i.i"
	mov	w0, #1                          // =0x1
.LBB8_40:                               // %return.4
	ldp	x20, x19, [sp, #224]            // 16-byte Folded Reload
	ldr	x27, [sp, #160]                 // 8-byte Reload
	ldp	x22, x21, [sp, #208]            // 16-byte Folded Reload
	ldp	x24, x23, [sp, #192]            // 16-byte Folded Reload
	ldp	x26, x25, [sp, #176]            // 16-byte Folded Reload
	ldp	x29, x30, [sp, #144]            // 16-byte Folded Reload
	add	sp, sp, #240
	ret
.LBB8_41:                               // %start.split.us.i
	ldr	x8, [x19, #1160]
	cbz	x8, .LBB8_46
// %bb.42:                              // %join.5.us.i.preheader
	sub	x20, x20, #1
	mov	w8, #1                          // =0x1
	cbz	x8, .LBB8_45
	b	.LBB8_44
.LBB8_43:                               // %join.5.usthread-pre-split.i
                                        //   in Loop: Header=BB8_45 Depth=1
	ldr	x8, [x19, #1160]
	sub	x20, x20, #1
	cbz	x8, .LBB8_45
.LBB8_44:                               // %"core::fmt::formatter::Formatter::write_str::<#bf264aed5fa78656>.exit.us.i"
	mov	x0, x19
	mov	x1, x21
	mov	x2, xzr
	bl	"core::fmt::formatter::Formatter::write_indented::<#bf264aed5fa78656>"
	and	w8, w0, #0xff
	tbnz	w8, #0, .LBB8_39
.LBB8_45:                               // %arm.6.us.i
                                        // =>This Inner Loop Header: Depth=1
	cbnz	x20, .LBB8_43
.LBB8_46:
	mov	w0, wzr
	b	.LBB8_40
.LBB8_47:                               // %else.2.i.i
	add	x1, sp, #32
	mov	x0, x19
	mov	x2, x20
	bl	"core::fmt::formatter::Formatter::write_indented::<#bf264aed5fa78656>"
	and	w0, w0, #0xff
	b	.LBB8_40
.Lfunc_end8:
	.size	"core::fmt::formatter::Formatter::write_char_n_times::<#bf264aed5fa78656>", .Lfunc_end8-"core::fmt::formatter::Formatter::write_char_n_times::<#bf264aed5fa78656>"
                                        // -- End function
	.section	".text.core::str::utf8::from_utf8","ax",@progbits
	.p2align	2                               // -- Begin function core::str::utf8::from_utf8
	.type	"core::str::utf8::from_utf8",@function
"core::str::utf8::from_utf8":           // @"core::str::utf8::from_utf8"
// %bb.0:                               // %start
	sub	sp, sp, #64
	stp	x22, x21, [sp, #32]             // 16-byte Folded Spill
	mov	x21, x1
	stp	x20, x19, [sp, #48]             // 16-byte Folded Spill
	mov	x20, x2
	mov	x19, x0
	stp	x29, x30, [sp, #16]             // 16-byte Folded Spill
	add	x29, sp, #16
	cbz	x2, .LBB9_51
// %bb.1:                               // %join.5.lr.ph
	mov	x9, xzr
	sub	x22, x20, #8
	b	.LBB9_6
.LBB9_2:                                // %join.8
                                        //   in Loop: Header=BB9_6 Depth=1
	and	w11, w11, #0xff
	tbnz	w11, #7, .LBB9_23
.LBB9_3:                                //   in Loop: Header=BB9_6 Depth=1
	mov	w12, #1                         // =0x1
.LBB9_4:                                // %join.11
                                        //   in Loop: Header=BB9_6 Depth=1
	add	x8, x12, x9
.LBB9_5:                                // %loop.2.backedge
                                        //   in Loop: Header=BB9_6 Depth=1
	cmp	x8, x20
	mov	x9, x8
	b.hs	.LBB9_51
.LBB9_6:                                // %join.5
                                        // =>This Loop Header: Depth=1
                                        //     Child Loop BB9_30 Depth 2
                                        //     Child Loop BB9_33 Depth 2
	add	x8, x21, x9
	sub	x10, x20, x9
	ldrsb	w11, [x8]
	cmp	x10, #2
	b.lo	.LBB9_2
// %bb.7:                               // %join.5
                                        //   in Loop: Header=BB9_6 Depth=1
	tbnz	w11, #31, .LBB9_2
// %bb.8:                               // %"core::str::utf8::begins_ascii_run.exit"
                                        //   in Loop: Header=BB9_6 Depth=1
	ldrsb	w11, [x8, #1]
	tbnz	w11, #31, .LBB9_3
// %bb.9:                               // %then.6
                                        //   in Loop: Header=BB9_6 Depth=1
	cmp	x10, #7
	stp	x21, x20, [sp]
	b.hi	.LBB9_28
// %bb.10:                              // %join.5.i.i
                                        //   in Loop: Header=BB9_6 Depth=1
	ldrsb	w8, [x21, x9]
	tbnz	w8, #31, .LBB9_43
// %bb.11:                              // %join.8.i.i
                                        //   in Loop: Header=BB9_6 Depth=1
	add	x8, x9, #1
	cmp	x8, x20
	b.eq	.LBB9_51
// %bb.12:                              // %join.5.i.i.1
                                        //   in Loop: Header=BB9_6 Depth=1
	ldrsb	w10, [x21, x8]
	tbnz	w10, #31, .LBB9_5
// %bb.13:                              // %join.8.i.i.1
                                        //   in Loop: Header=BB9_6 Depth=1
	add	x8, x9, #2
	cmp	x8, x20
	b.eq	.LBB9_51
// %bb.14:                              // %join.5.i.i.2
                                        //   in Loop: Header=BB9_6 Depth=1
	ldrsb	w10, [x21, x8]
	tbnz	w10, #31, .LBB9_5
// %bb.15:                              // %join.8.i.i.2
                                        //   in Loop: Header=BB9_6 Depth=1
	add	x8, x9, #3
	cmp	x8, x20
	b.eq	.LBB9_51
// %bb.16:                              // %join.5.i.i.3
                                        //   in Loop: Header=BB9_6 Depth=1
	ldrsb	w10, [x21, x8]
	tbnz	w10, #31, .LBB9_5
// %bb.17:                              // %join.8.i.i.3
                                        //   in Loop: Header=BB9_6 Depth=1
	add	x8, x9, #4
	cmp	x8, x20
	b.eq	.LBB9_51
// %bb.18:                              // %join.5.i.i.4
                                        //   in Loop: Header=BB9_6 Depth=1
	ldrsb	w10, [x21, x8]
	tbnz	w10, #31, .LBB9_5
// %bb.19:                              // %join.8.i.i.4
                                        //   in Loop: Header=BB9_6 Depth=1
	add	x8, x9, #5
	cmp	x8, x20
	b.eq	.LBB9_51
// %bb.20:                              // %join.5.i.i.5
                                        //   in Loop: Header=BB9_6 Depth=1
	ldrsb	w10, [x21, x8]
	tbnz	w10, #31, .LBB9_5
// %bb.21:                              // %join.8.i.i.5
                                        //   in Loop: Header=BB9_6 Depth=1
	add	x8, x9, #6
	cmp	x8, x20
	b.eq	.LBB9_51
// %bb.22:                              // %join.5.i.i.6
                                        //   in Loop: Header=BB9_6 Depth=1
	ldrsb	w9, [x21, x8]
	tbnz	w9, #31, .LBB9_5
	b	.LBB9_51
.LBB9_23:                               // %else.2.i
                                        //   in Loop: Header=BB9_6 Depth=1
	cmp	w11, #194
	b.lo	.LBB9_59
// %bb.24:                              // %else.5.i
                                        //   in Loop: Header=BB9_6 Depth=1
	cmp	w11, #223
	b.hi	.LBB9_36
// %bb.25:                              // %then.7.i
                                        //   in Loop: Header=BB9_6 Depth=1
	cmp	x10, #2
	b.lo	.LBB9_58
// %bb.26:                              // %join.3.i.i
                                        //   in Loop: Header=BB9_6 Depth=1
	ldrsb	w12, [x8, #1]
	cmn	w12, #65
	b.gt	.LBB9_55
// %bb.27:                              //   in Loop: Header=BB9_6 Depth=1
	mov	w12, #2                         // =0x2
	b	.LBB9_4
.LBB9_28:                               // %join.3.i
                                        //   in Loop: Header=BB9_6 Depth=1
	ldr	x8, [x8]
	mov	w10, #8                         // =0x8
	ands	x8, x8, #0x8080808080808080
	rbit	x8, x8
	clz	x8, x8
	lsr	x8, x8, #3
	csel	x8, x10, x8, eq
	add	x8, x8, x9
	add	x9, x9, #8
	cmp	x8, x9
	b.lo	.LBB9_5
// %bb.29:                              // %join.6.i
                                        //   in Loop: Header=BB9_6 Depth=1
	sub	x9, x20, x8
	cmp	x9, #32
	b.lo	.LBB9_32
.LBB9_30:                               // %then.3.i.i
                                        //   Parent Loop BB9_6 Depth=1
                                        // =>  This Inner Loop Header: Depth=2
	add	x9, x21, x8
	ldp	q1, q0, [x9]
	orr	v0.16b, v1.16b, v0.16b
	ext	v1.16b, v0.16b, v0.16b, #8
	orr	v0.8b, v0.8b, v1.8b
	fmov	x9, d0
	tst	x9, #0x8080808080808080
	b.ne	.LBB9_32
// %bb.31:                              // %join.5.i22.i
                                        //   in Loop: Header=BB9_30 Depth=2
	mov	x0, sp
	add	x1, x8, #32
	mov	x2, x20
	bl	"core::slice::words::skip_far::<#52f9edcae2f82f51>"
	sub	x9, x20, x0
	mov	x8, x0
	cmp	x9, #31
	b.hi	.LBB9_30
.LBB9_32:                               // %loop.8.i.preheader
                                        //   in Loop: Header=BB9_6 Depth=1
	sub	x9, x20, x8
.LBB9_33:                               // %loop.8.i
                                        //   Parent Loop BB9_6 Depth=1
                                        // =>  This Inner Loop Header: Depth=2
	cmp	x9, #9
	b.lo	.LBB9_50
// %bb.34:                              // %join.11.i
                                        //   in Loop: Header=BB9_33 Depth=2
	ldr	x10, [x21, x8]
	mov	w11, #8                         // =0x8
	sub	x9, x9, #8
	ands	x10, x10, #0x8080808080808080
	rbit	x10, x10
	clz	x10, x10
	lsr	x10, x10, #3
	csel	x10, x11, x10, eq
	add	x11, x10, x8
	add	x8, x8, #8
	cmp	x11, x8
	b.hs	.LBB9_33
// %bb.35:                              // %loop.2.backedge.loopexit
                                        //   in Loop: Header=BB9_6 Depth=1
	add	x8, x10, x8
	sub	x8, x8, #8
	b	.LBB9_5
.LBB9_36:                               // %else.8.i
                                        //   in Loop: Header=BB9_6 Depth=1
	cmp	w11, #239
	b.hi	.LBB9_44
// %bb.37:                              // %then.10.i
                                        //   in Loop: Header=BB9_6 Depth=1
	cmp	x10, #3
	b.lo	.LBB9_53
// %bb.38:                              // %join.3.i6.i
                                        //   in Loop: Header=BB9_6 Depth=1
	ldrsb	w12, [x8, #1]
	cmn	w12, #65
	b.gt	.LBB9_55
// %bb.39:                              // %join.3.i6.i
                                        //   in Loop: Header=BB9_6 Depth=1
	ldrsb	w13, [x8, #2]
	cmn	w13, #65
	b.gt	.LBB9_55
// %bb.40:                              // %join.15.i.i
                                        //   in Loop: Header=BB9_6 Depth=1
	and	w13, w12, #0xff
	mov	w14, #-14464                    // =0xffffc780
	add	w13, w13, w11, lsl #6
	add	w13, w13, w14
	cmp	w13, #32
	b.lo	.LBB9_55
// %bb.41:                              // %else.17.i.i
                                        //   in Loop: Header=BB9_6 Depth=1
	cmp	w13, #896
	mov	w12, #3                         // =0x3
	csel	x14, xzr, x12, lo
	cmp	w13, #864
	b.lo	.LBB9_4
// %bb.42:                              //   in Loop: Header=BB9_6 Depth=1
	mov	x12, x14
	b	.LBB9_49
.LBB9_43:                               //   in Loop: Header=BB9_6 Depth=1
	mov	x8, x9
	b	.LBB9_5
.LBB9_44:                               // %else.11.i
                                        //   in Loop: Header=BB9_6 Depth=1
	cmp	x10, #4
	b.lo	.LBB9_52
// %bb.45:                              // %join.3.i11.i
                                        //   in Loop: Header=BB9_6 Depth=1
	ldrsb	w12, [x8, #1]
	cmn	w12, #65
	b.gt	.LBB9_52
// %bb.46:                              // %join.3.i11.i
                                        //   in Loop: Header=BB9_6 Depth=1
	ldrsb	w13, [x8, #2]
	cmn	w13, #65
	b.gt	.LBB9_52
// %bb.47:                              // %join.3.i11.i
                                        //   in Loop: Header=BB9_6 Depth=1
	ldrsb	w13, [x8, #3]
	cmn	w13, #65
	b.gt	.LBB9_52
// %bb.48:                              // %join.21.i.i
                                        //   in Loop: Header=BB9_6 Depth=1
	and	w12, w12, #0xff
	mov	w13, #-15488                    // =0xffffc380
	add	w12, w12, w11, lsl #6
	add	w13, w12, w13
	mov	w12, #4                         // =0x4
	cmp	w13, #272
	csel	x12, x12, xzr, lo
	cmp	w13, #16
	b.lo	.LBB9_52
.LBB9_49:                               // %"core::str::utf8::char_len_at.exit"
                                        //   in Loop: Header=BB9_6 Depth=1
	cbnz	x12, .LBB9_4
	b	.LBB9_52
.LBB9_50:                               // %after.7.i
                                        //   in Loop: Header=BB9_6 Depth=1
	ldr	x8, [x21, x22]
	mov	w9, #8                          // =0x8
	ands	x8, x8, #0x8080808080808080
	rbit	x8, x8
	clz	x8, x8
	lsr	x8, x8, #3
	csel	x8, x9, x8, eq
	add	x8, x8, x22
	b	.LBB9_5
.LBB9_51:                               // %after.1
	stp	xzr, x21, [x19]
	str	x20, [x19, #16]
	ldp	x20, x19, [sp, #48]             // 16-byte Folded Reload
	ldp	x22, x21, [sp, #32]             // 16-byte Folded Reload
	ldp	x29, x30, [sp, #16]             // 16-byte Folded Reload
	add	sp, sp, #64
	ret
.LBB9_52:                               // %then.9
	cmp	w11, #244
	b.hi	.LBB9_59
.LBB9_53:                               // %join.3.i.i27
	cmp	x10, #2
	b.lo	.LBB9_58
// %bb.54:                              // %join.3.i.i27.join.7.i.i_crit_edge
	ldrb	w12, [x8, #1]
.LBB9_55:                               // %join.7.i.i
	cmp	w11, #240
	mov	w13, #-128                      // =0xffffff80
	mov	w14, #-112                      // =0xffffff90
	mov	w15, #-96                       // =0xffffffa0
	csel	w13, w14, w13, eq
	cmp	w11, #224
	mov	w14, #-65                       // =0xffffffbf
	csel	w13, w15, w13, eq
	mov	w15, #-113                      // =0xffffff8f
	cmp	w11, #244
	and	w16, w13, #0xf0
	csel	w13, w15, w14, eq
	cmp	w11, #237
	mov	w11, #-97                       // =0xffffff9f
	csel	w13, w11, w13, eq
	cmp	w16, w12, uxtb
	mov	w11, #257                       // =0x101
	b.hi	.LBB9_60
// %bb.56:                              // %join.7.i.i
	and	w12, w12, #0xff
	cmp	w12, w13, uxtb
	b.hi	.LBB9_60
// %bb.57:                              // %join.10.i.i
	cmp	x10, #2
	b.ne	.LBB9_61
.LBB9_58:
	mov	x11, xzr
	b	.LBB9_60
.LBB9_59:
	mov	w11, #257                       // =0x101
.LBB9_60:                               // %"core::str::utf8::fault_len.exit"
	mov	w8, #1                          // =0x1
	str	x11, [x19, #16]
	stp	x8, x9, [x19]
	ldp	x20, x19, [sp, #48]             // 16-byte Folded Reload
	ldp	x22, x21, [sp, #32]             // 16-byte Folded Reload
	ldp	x29, x30, [sp, #16]             // 16-byte Folded Reload
	add	sp, sp, #64
	ret
.LBB9_61:                               // %join.13.i.i
	ldrsb	w8, [x8, #2]
	cmn	w8, #65
	b.gt	.LBB9_63
// %bb.62:                              // %join.16.i.i
	cmp	x10, #3
	mov	w8, #769                        // =0x301
	csel	x11, x8, xzr, hi
	b	.LBB9_60
.LBB9_63:
	mov	w11, #513                       // =0x201
	b	.LBB9_60
.Lfunc_end9:
	.size	"core::str::utf8::from_utf8", .Lfunc_end9-"core::str::utf8::from_utf8"
                                        // -- End function
	.section	".text.core::slice::words::skip_far::<#52f9edcae2f82f51>","ax",@progbits
	.p2align	2                               // -- Begin function core::slice::words::skip_far::<#52f9edcae2f82f51>
	.type	"core::slice::words::skip_far::<#52f9edcae2f82f51>",@function
"core::slice::words::skip_far::<#52f9edcae2f82f51>": // @"core::slice::words::skip_far::<#52f9edcae2f82f51>"
// %bb.0:                               // %start
	sub	x8, x2, x1
	cmp	x8, #64
	b.lo	.LBB10_4
// %bb.1:                               // %then.3.lr.ph
	ldr	x9, [x0]
.LBB10_2:                               // %then.3
                                        // =>This Inner Loop Header: Depth=1
	add	x10, x9, x1
	ldp	q0, q1, [x10, #32]
	ldp	q2, q3, [x10]
	orr	v1.16b, v3.16b, v1.16b
	orr	v0.16b, v2.16b, v0.16b
	orr	v0.16b, v0.16b, v1.16b
	ext	v1.16b, v0.16b, v0.16b, #8
	orr	v0.8b, v0.8b, v1.8b
	fmov	x10, d0
	tst	x10, #0x8080808080808080
	b.ne	.LBB10_4
// %bb.3:                               // %join.5
                                        //   in Loop: Header=BB10_2 Depth=1
	sub	x8, x8, #64
	add	x1, x1, #64
	cmp	x8, #63
	b.hi	.LBB10_2
.LBB10_4:                               // %after.1
	mov	x0, x1
	ret
.Lfunc_end10:
	.size	"core::slice::words::skip_far::<#52f9edcae2f82f51>", .Lfunc_end10-"core::slice::words::skip_far::<#52f9edcae2f82f51>"
                                        // -- End function
	.section	".text.std_io::io::kind::ErrorKindDisplay::fmt::<#bf264aed5fa78656>","ax",@progbits
	.p2align	2                               // -- Begin function std_io::io::kind::ErrorKindDisplay::fmt::<#bf264aed5fa78656>
	.type	"std_io::io::kind::ErrorKindDisplay::fmt::<#bf264aed5fa78656>",@function
"std_io::io::kind::ErrorKindDisplay::fmt::<#bf264aed5fa78656>": // @"std_io::io::kind::ErrorKindDisplay::fmt::<#bf264aed5fa78656>"
// %bb.0:                               // %start
	sub	sp, sp, #144
                                        // kill: def $w0 killed $w0 def $x0
	and	x9, x0, #0xff
	adrp	x10, .LJTI11_0
	add	x10, x10, :lo12:.LJTI11_0
	stp	x29, x30, [sp, #96]             // 16-byte Folded Spill
	ldr	x8, [x1, #1160]
	add	x29, sp, #96
	stp	x22, x21, [sp, #112]            // 16-byte Folded Spill
	stp	x20, x19, [sp, #128]            // 16-byte Folded Spill
	adr	x11, .LBB11_1
	ldrh	w12, [x10, x9, lsl #1]
	add	x11, x11, x12, lsl #2
	mov	x19, x1
	br	x11
.LBB11_1:                               // %arm.1
	cbnz	x8, .LBB11_585
// %bb.2:                               // %then.1.i490
	ldr	x8, [x19, #1032]
	mov	x20, xzr
	add	x21, x19, #4
	b	.LBB11_4
.LBB11_3:                               // %"std_io::io::buffer::Buffer::push.exit.i"
                                        //   in Loop: Header=BB11_4 Depth=1
	add	x20, x20, #1
	mov	w0, wzr
	strb	w22, [x21, x8]
	add	x8, x8, #1
	cmp	x20, #16
	str	x8, [x19, #1032]
	b.eq	.LBB11_784
.LBB11_4:                               // %arm.3.i
                                        // =>This Inner Loop Header: Depth=1
	adrp	x9, .Lstatic.16
	add	x9, x9, :lo12:.Lstatic.16
	cmp	x8, #1024
	ldrb	w22, [x9, x20]
	b.lo	.LBB11_3
// %bb.5:                               // %then.2.i.i
                                        //   in Loop: Header=BB11_4 Depth=1
	movi	v0.2d, #0000000000000000
	cmp	x8, #1024
	str	xzr, [x19, #1032]
	stp	q0, q0, [sp]
	stp	q0, q0, [sp, #32]
	stp	q0, q0, [sp, #64]
	b.ne	.LBB11_424
// %bb.6:                               // %join.3.i.i.i
                                        //   in Loop: Header=BB11_4 Depth=1
	ldr	w1, [x19]
	mov	x0, sp
	add	x2, x19, #4
	mov	w3, #1024                       // =0x400
	bl	"std_io::io::write_to"
	ldrb	w8, [sp]
	cbnz	w8, .LBB11_423
// %bb.7:                               // %after.1.i.i
                                        //   in Loop: Header=BB11_4 Depth=1
	ldr	x8, [x19, #1032]
	cmp	x8, #1023
	b.ls	.LBB11_3
// %bb.8:
	mov	w0, #1                          // =0x1
	ldp	x20, x19, [sp, #128]            // 16-byte Folded Reload
	ldp	x22, x21, [sp, #112]            // 16-byte Folded Reload
	ldp	x29, x30, [sp, #96]             // 16-byte Folded Reload
	add	sp, sp, #144
	ret
.LBB11_9:                               // %arm.38
	cbnz	x8, .LBB11_565
// %bb.10:                              // %then.1.i46
	ldr	x8, [x19, #1032]
	mov	x20, xzr
	add	x21, x19, #4
	b	.LBB11_12
.LBB11_11:                              // %"std_io::io::buffer::Buffer::push.exit.i1657"
                                        //   in Loop: Header=BB11_12 Depth=1
	add	x20, x20, #1
	mov	w0, wzr
	strb	w22, [x21, x8]
	add	x8, x8, #1
	cmp	x20, #22
	str	x8, [x19, #1032]
	b.eq	.LBB11_784
.LBB11_12:                              // %arm.3.i1649
                                        // =>This Inner Loop Header: Depth=1
	adrp	x9, .Lstatic.53
	add	x9, x9, :lo12:.Lstatic.53
	cmp	x8, #1024
	ldrb	w22, [x9, x20]
	b.lo	.LBB11_11
// %bb.13:                              // %then.2.i.i1663
                                        //   in Loop: Header=BB11_12 Depth=1
	movi	v0.2d, #0000000000000000
	cmp	x8, #1024
	str	xzr, [x19, #1032]
	stp	q0, q0, [sp]
	stp	q0, q0, [sp, #32]
	stp	q0, q0, [sp, #64]
	b.ne	.LBB11_392
// %bb.14:                              // %join.3.i.i.i1666
                                        //   in Loop: Header=BB11_12 Depth=1
	ldr	w1, [x19]
	mov	x0, sp
	add	x2, x19, #4
	mov	w3, #1024                       // =0x400
	bl	"std_io::io::write_to"
	ldrb	w8, [sp]
	cbnz	w8, .LBB11_391
// %bb.15:                              // %after.1.i.i1673
                                        //   in Loop: Header=BB11_12 Depth=1
	ldr	x8, [x19, #1032]
	cmp	x8, #1023
	b.ls	.LBB11_11
// %bb.16:
	mov	w0, #1                          // =0x1
	ldp	x20, x19, [sp, #128]            // 16-byte Folded Reload
	ldp	x22, x21, [sp, #112]            // 16-byte Folded Reload
	ldp	x29, x30, [sp, #96]             // 16-byte Folded Reload
	add	sp, sp, #144
	ret
.LBB11_17:                              // %arm.36
	cbnz	x8, .LBB11_566
// %bb.18:                              // %then.1.i70
	ldr	x8, [x19, #1032]
	mov	x20, xzr
	add	x21, x19, #4
	b	.LBB11_20
.LBB11_19:                              // %"std_io::io::buffer::Buffer::push.exit.i1593"
                                        //   in Loop: Header=BB11_20 Depth=1
	add	x20, x20, #1
	mov	w0, wzr
	strb	w22, [x21, x8]
	add	x8, x8, #1
	cmp	x20, #21
	str	x8, [x19, #1032]
	b.eq	.LBB11_784
.LBB11_20:                              // %arm.3.i1585
                                        // =>This Inner Loop Header: Depth=1
	adrp	x9, .Lstatic.51
	add	x9, x9, :lo12:.Lstatic.51
	cmp	x8, #1024
	ldrb	w22, [x9, x20]
	b.lo	.LBB11_19
// %bb.21:                              // %then.2.i.i1599
                                        //   in Loop: Header=BB11_20 Depth=1
	movi	v0.2d, #0000000000000000
	cmp	x8, #1024
	str	xzr, [x19, #1032]
	stp	q0, q0, [sp]
	stp	q0, q0, [sp, #32]
	stp	q0, q0, [sp, #64]
	b.ne	.LBB11_394
// %bb.22:                              // %join.3.i.i.i1602
                                        //   in Loop: Header=BB11_20 Depth=1
	ldr	w1, [x19]
	mov	x0, sp
	add	x2, x19, #4
	mov	w3, #1024                       // =0x400
	bl	"std_io::io::write_to"
	ldrb	w8, [sp]
	cbnz	w8, .LBB11_393
// %bb.23:                              // %after.1.i.i1609
                                        //   in Loop: Header=BB11_20 Depth=1
	ldr	x8, [x19, #1032]
	cmp	x8, #1023
	b.ls	.LBB11_19
// %bb.24:
	mov	w0, #1                          // =0x1
	ldp	x20, x19, [sp, #128]            // 16-byte Folded Reload
	ldp	x22, x21, [sp, #112]            // 16-byte Folded Reload
	ldp	x29, x30, [sp, #96]             // 16-byte Folded Reload
	add	sp, sp, #144
	ret
.LBB11_25:                              // %arm.37
	cbnz	x8, .LBB11_567
// %bb.26:                              // %then.1.i58
	ldr	x8, [x19, #1032]
	add	x20, x19, #4
	cmp	x8, #1024
	b.lo	.LBB11_319
// %bb.27:                              // %then.2.i.i1631
	movi	v0.2d, #0000000000000000
	cmp	x8, #1024
	str	xzr, [x19, #1032]
	stp	q0, q0, [sp]
	stp	q0, q0, [sp, #32]
	stp	q0, q0, [sp, #64]
	b.ne	.LBB11_752
// %bb.28:                              // %join.3.i.i.i1634
	ldr	w1, [x19]
	mov	x0, sp
	add	x2, x19, #4
	mov	w3, #1024                       // =0x400
	bl	"std_io::io::write_to"
	ldrb	w8, [sp]
	cbnz	w8, .LBB11_751
// %bb.29:                              // %after.1.i.i1641
	ldr	x8, [x19, #1032]
	cmp	x8, #1023
	b.ls	.LBB11_319
// %bb.30:
	mov	w0, #1                          // =0x1
	ldp	x20, x19, [sp, #128]            // 16-byte Folded Reload
	ldp	x22, x21, [sp, #112]            // 16-byte Folded Reload
	ldp	x29, x30, [sp, #96]             // 16-byte Folded Reload
	add	sp, sp, #144
	ret
.LBB11_31:                              // %arm.28
	cbnz	x8, .LBB11_568
// %bb.32:                              // %then.1.i166
	ldr	x8, [x19, #1032]
	mov	x20, xzr
	add	x21, x19, #4
	b	.LBB11_34
.LBB11_33:                              // %"std_io::io::buffer::Buffer::push.exit.i1337"
                                        //   in Loop: Header=BB11_34 Depth=1
	add	x20, x20, #1
	mov	w0, wzr
	strb	w22, [x21, x8]
	add	x8, x8, #1
	cmp	x20, #14
	str	x8, [x19, #1032]
	b.eq	.LBB11_784
.LBB11_34:                              // %arm.3.i1329
                                        // =>This Inner Loop Header: Depth=1
	adrp	x9, .Lstatic.43
	add	x9, x9, :lo12:.Lstatic.43
	cmp	x8, #1024
	ldrb	w22, [x9, x20]
	b.lo	.LBB11_33
// %bb.35:                              // %then.2.i.i1343
                                        //   in Loop: Header=BB11_34 Depth=1
	movi	v0.2d, #0000000000000000
	cmp	x8, #1024
	str	xzr, [x19, #1032]
	stp	q0, q0, [sp]
	stp	q0, q0, [sp, #32]
	stp	q0, q0, [sp, #64]
	b.ne	.LBB11_396
// %bb.36:                              // %join.3.i.i.i1346
                                        //   in Loop: Header=BB11_34 Depth=1
	ldr	w1, [x19]
	mov	x0, sp
	add	x2, x19, #4
	mov	w3, #1024                       // =0x400
	bl	"std_io::io::write_to"
	ldrb	w8, [sp]
	cbnz	w8, .LBB11_395
// %bb.37:                              // %after.1.i.i1353
                                        //   in Loop: Header=BB11_34 Depth=1
	ldr	x8, [x19, #1032]
	cmp	x8, #1023
	b.ls	.LBB11_33
// %bb.38:
	mov	w0, #1                          // =0x1
	ldp	x20, x19, [sp, #128]            // 16-byte Folded Reload
	ldp	x22, x21, [sp, #112]            // 16-byte Folded Reload
	ldp	x29, x30, [sp, #96]             // 16-byte Folded Reload
	add	sp, sp, #144
	ret
.LBB11_39:                              // %arm.35
	cbnz	x8, .LBB11_569
// %bb.40:                              // %then.1.i82
	ldr	x8, [x19, #1032]
	mov	x20, xzr
	add	x21, x19, #4
	b	.LBB11_42
.LBB11_41:                              // %"std_io::io::buffer::Buffer::push.exit.i1561"
                                        //   in Loop: Header=BB11_42 Depth=1
	add	x20, x20, #1
	mov	w0, wzr
	strb	w22, [x21, x8]
	add	x8, x8, #1
	cmp	x20, #22
	str	x8, [x19, #1032]
	b.eq	.LBB11_784
.LBB11_42:                              // %arm.3.i1553
                                        // =>This Inner Loop Header: Depth=1
	adrp	x9, .Lstatic.50
	add	x9, x9, :lo12:.Lstatic.50
	cmp	x8, #1024
	ldrb	w22, [x9, x20]
	b.lo	.LBB11_41
// %bb.43:                              // %then.2.i.i1567
                                        //   in Loop: Header=BB11_42 Depth=1
	movi	v0.2d, #0000000000000000
	cmp	x8, #1024
	str	xzr, [x19, #1032]
	stp	q0, q0, [sp]
	stp	q0, q0, [sp, #32]
	stp	q0, q0, [sp, #64]
	b.ne	.LBB11_398
// %bb.44:                              // %join.3.i.i.i1570
                                        //   in Loop: Header=BB11_42 Depth=1
	ldr	w1, [x19]
	mov	x0, sp
	add	x2, x19, #4
	mov	w3, #1024                       // =0x400
	bl	"std_io::io::write_to"
	ldrb	w8, [sp]
	cbnz	w8, .LBB11_397
// %bb.45:                              // %after.1.i.i1577
                                        //   in Loop: Header=BB11_42 Depth=1
	ldr	x8, [x19, #1032]
	cmp	x8, #1023
	b.ls	.LBB11_41
// %bb.46:
	mov	w0, #1                          // =0x1
	ldp	x20, x19, [sp, #128]            // 16-byte Folded Reload
	ldp	x22, x21, [sp, #112]            // 16-byte Folded Reload
	ldp	x29, x30, [sp, #96]             // 16-byte Folded Reload
	add	sp, sp, #144
	ret
.LBB11_47:                              // %arm.17
	cbnz	x8, .LBB11_571
// %bb.48:                              // %then.1.i298
	ldr	x8, [x19, #1032]
	mov	x20, xzr
	add	x21, x19, #4
	b	.LBB11_50
.LBB11_49:                              // %"std_io::io::buffer::Buffer::push.exit.i985"
                                        //   in Loop: Header=BB11_50 Depth=1
	add	x20, x20, #1
	mov	w0, wzr
	strb	w22, [x21, x8]
	add	x8, x8, #1
	cmp	x20, #19
	str	x8, [x19, #1032]
	b.eq	.LBB11_784
.LBB11_50:                              // %arm.3.i977
                                        // =>This Inner Loop Header: Depth=1
	adrp	x9, .Lstatic.32
	add	x9, x9, :lo12:.Lstatic.32
	cmp	x8, #1024
	ldrb	w22, [x9, x20]
	b.lo	.LBB11_49
// %bb.51:                              // %then.2.i.i991
                                        //   in Loop: Header=BB11_50 Depth=1
	movi	v0.2d, #0000000000000000
	cmp	x8, #1024
	str	xzr, [x19, #1032]
	stp	q0, q0, [sp]
	stp	q0, q0, [sp, #32]
	stp	q0, q0, [sp, #64]
	b.ne	.LBB11_400
// %bb.52:                              // %join.3.i.i.i994
                                        //   in Loop: Header=BB11_50 Depth=1
	ldr	w1, [x19]
	mov	x0, sp
	add	x2, x19, #4
	mov	w3, #1024                       // =0x400
	bl	"std_io::io::write_to"
	ldrb	w8, [sp]
	cbnz	w8, .LBB11_399
// %bb.53:                              // %after.1.i.i1001
                                        //   in Loop: Header=BB11_50 Depth=1
	ldr	x8, [x19, #1032]
	cmp	x8, #1023
	b.ls	.LBB11_49
// %bb.54:
	mov	w0, #1                          // =0x1
	ldp	x20, x19, [sp, #128]            // 16-byte Folded Reload
	ldp	x22, x21, [sp, #112]            // 16-byte Folded Reload
	ldp	x29, x30, [sp, #96]             // 16-byte Folded Reload
	add	sp, sp, #144
	ret
.LBB11_55:                              // %arm.15
	cbnz	x8, .LBB11_572
// %bb.56:                              // %then.1.i322
	ldr	x8, [x19, #1032]
	mov	x20, xzr
	add	x21, x19, #4
	b	.LBB11_58
.LBB11_57:                              // %"std_io::io::buffer::Buffer::push.exit.i921"
                                        //   in Loop: Header=BB11_58 Depth=1
	add	x20, x20, #1
	mov	w0, wzr
	strb	w22, [x21, x8]
	add	x8, x8, #1
	cmp	x20, #15
	str	x8, [x19, #1032]
	b.eq	.LBB11_784
.LBB11_58:                              // %arm.3.i913
                                        // =>This Inner Loop Header: Depth=1
	adrp	x9, .Lstatic.30
	add	x9, x9, :lo12:.Lstatic.30
	cmp	x8, #1024
	ldrb	w22, [x9, x20]
	b.lo	.LBB11_57
// %bb.59:                              // %then.2.i.i927
                                        //   in Loop: Header=BB11_58 Depth=1
	movi	v0.2d, #0000000000000000
	cmp	x8, #1024
	str	xzr, [x19, #1032]
	stp	q0, q0, [sp]
	stp	q0, q0, [sp, #32]
	stp	q0, q0, [sp, #64]
	b.ne	.LBB11_402
// %bb.60:                              // %join.3.i.i.i930
                                        //   in Loop: Header=BB11_58 Depth=1
	ldr	w1, [x19]
	mov	x0, sp
	add	x2, x19, #4
	mov	w3, #1024                       // =0x400
	bl	"std_io::io::write_to"
	ldrb	w8, [sp]
	cbnz	w8, .LBB11_401
// %bb.61:                              // %after.1.i.i937
                                        //   in Loop: Header=BB11_58 Depth=1
	ldr	x8, [x19, #1032]
	cmp	x8, #1023
	b.ls	.LBB11_57
// %bb.62:
	mov	w0, #1                          // =0x1
	ldp	x20, x19, [sp, #128]            // 16-byte Folded Reload
	ldp	x22, x21, [sp, #112]            // 16-byte Folded Reload
	ldp	x29, x30, [sp, #96]             // 16-byte Folded Reload
	add	sp, sp, #144
	ret
.LBB11_63:                              // %arm.34
	cbnz	x8, .LBB11_573
// %bb.64:                              // %then.1.i94
	ldr	x8, [x19, #1032]
	mov	x20, xzr
	add	x21, x19, #4
	b	.LBB11_66
.LBB11_65:                              // %"std_io::io::buffer::Buffer::push.exit.i1529"
                                        //   in Loop: Header=BB11_66 Depth=1
	add	x20, x20, #1
	mov	w0, wzr
	strb	w22, [x21, x8]
	add	x8, x8, #1
	cmp	x20, #16
	str	x8, [x19, #1032]
	b.eq	.LBB11_784
.LBB11_66:                              // %arm.3.i1521
                                        // =>This Inner Loop Header: Depth=1
	adrp	x9, .Lstatic.49
	add	x9, x9, :lo12:.Lstatic.49
	cmp	x8, #1024
	ldrb	w22, [x9, x20]
	b.lo	.LBB11_65
// %bb.67:                              // %then.2.i.i1535
                                        //   in Loop: Header=BB11_66 Depth=1
	movi	v0.2d, #0000000000000000
	cmp	x8, #1024
	str	xzr, [x19, #1032]
	stp	q0, q0, [sp]
	stp	q0, q0, [sp, #32]
	stp	q0, q0, [sp, #64]
	b.ne	.LBB11_404
// %bb.68:                              // %join.3.i.i.i1538
                                        //   in Loop: Header=BB11_66 Depth=1
	ldr	w1, [x19]
	mov	x0, sp
	add	x2, x19, #4
	mov	w3, #1024                       // =0x400
	bl	"std_io::io::write_to"
	ldrb	w8, [sp]
	cbnz	w8, .LBB11_403
// %bb.69:                              // %after.1.i.i1545
                                        //   in Loop: Header=BB11_66 Depth=1
	ldr	x8, [x19, #1032]
	cmp	x8, #1023
	b.ls	.LBB11_65
// %bb.70:
	mov	w0, #1                          // =0x1
	ldp	x20, x19, [sp, #128]            // 16-byte Folded Reload
	ldp	x22, x21, [sp, #112]            // 16-byte Folded Reload
	ldp	x29, x30, [sp, #96]             // 16-byte Folded Reload
	add	sp, sp, #144
	ret
.LBB11_71:                              // %arm.12
	cbnz	x8, .LBB11_574
// %bb.72:                              // %then.1.i358
	ldr	x8, [x19, #1032]
	add	x20, x19, #4
	cmp	x8, #1024
	b.lo	.LBB11_323
// %bb.73:                              // %then.2.i.i831
	movi	v0.2d, #0000000000000000
	cmp	x8, #1024
	str	xzr, [x19, #1032]
	stp	q0, q0, [sp]
	stp	q0, q0, [sp, #32]
	stp	q0, q0, [sp, #64]
	b.ne	.LBB11_756
// %bb.74:                              // %join.3.i.i.i834
	ldr	w1, [x19]
	mov	x0, sp
	add	x2, x19, #4
	mov	w3, #1024                       // =0x400
	bl	"std_io::io::write_to"
	ldrb	w8, [sp]
	cbnz	w8, .LBB11_755
// %bb.75:                              // %after.1.i.i841
	ldr	x8, [x19, #1032]
	cmp	x8, #1023
	b.ls	.LBB11_323
// %bb.76:
	mov	w0, #1                          // =0x1
	ldp	x20, x19, [sp, #128]            // 16-byte Folded Reload
	ldp	x22, x21, [sp, #112]            // 16-byte Folded Reload
	ldp	x29, x30, [sp, #96]             // 16-byte Folded Reload
	add	sp, sp, #144
	ret
.LBB11_77:                              // %arm.5
	cbnz	x8, .LBB11_575
// %bb.78:                              // %then.1.i442
	ldr	x8, [x19, #1032]
	mov	x20, xzr
	add	x21, x19, #4
	b	.LBB11_80
.LBB11_79:                              // %"std_io::io::buffer::Buffer::push.exit.i601"
                                        //   in Loop: Header=BB11_80 Depth=1
	add	x20, x20, #1
	mov	w0, wzr
	strb	w22, [x21, x8]
	add	x8, x8, #1
	cmp	x20, #16
	str	x8, [x19, #1032]
	b.eq	.LBB11_784
.LBB11_80:                              // %arm.3.i593
                                        // =>This Inner Loop Header: Depth=1
	adrp	x9, .Lstatic.20
	add	x9, x9, :lo12:.Lstatic.20
	cmp	x8, #1024
	ldrb	w22, [x9, x20]
	b.lo	.LBB11_79
// %bb.81:                              // %then.2.i.i607
                                        //   in Loop: Header=BB11_80 Depth=1
	movi	v0.2d, #0000000000000000
	cmp	x8, #1024
	str	xzr, [x19, #1032]
	stp	q0, q0, [sp]
	stp	q0, q0, [sp, #32]
	stp	q0, q0, [sp, #64]
	b.ne	.LBB11_406
// %bb.82:                              // %join.3.i.i.i610
                                        //   in Loop: Header=BB11_80 Depth=1
	ldr	w1, [x19]
	mov	x0, sp
	add	x2, x19, #4
	mov	w3, #1024                       // =0x400
	bl	"std_io::io::write_to"
	ldrb	w8, [sp]
	cbnz	w8, .LBB11_405
// %bb.83:                              // %after.1.i.i617
                                        //   in Loop: Header=BB11_80 Depth=1
	ldr	x8, [x19, #1032]
	cmp	x8, #1023
	b.ls	.LBB11_79
// %bb.84:
	mov	w0, #1                          // =0x1
	ldp	x20, x19, [sp, #128]            // 16-byte Folded Reload
	ldp	x22, x21, [sp, #112]            // 16-byte Folded Reload
	ldp	x29, x30, [sp, #96]             // 16-byte Folded Reload
	add	sp, sp, #144
	ret
.LBB11_85:                              // %arm.41
	cbnz	x8, .LBB11_576
// %bb.86:                              // %then.1.i10
	ldr	x8, [x19, #1032]
	add	x20, x19, #4
	cmp	x8, #1024
	b.lo	.LBB11_327
// %bb.87:                              // %then.2.i.i1759
	movi	v0.2d, #0000000000000000
	cmp	x8, #1024
	str	xzr, [x19, #1032]
	stp	q0, q0, [sp]
	stp	q0, q0, [sp, #32]
	stp	q0, q0, [sp, #64]
	b.ne	.LBB11_760
// %bb.88:                              // %join.3.i.i.i1762
	ldr	w1, [x19]
	mov	x0, sp
	add	x2, x19, #4
	mov	w3, #1024                       // =0x400
	bl	"std_io::io::write_to"
	ldrb	w8, [sp]
	cbnz	w8, .LBB11_759
// %bb.89:                              // %after.1.i.i1769
	ldr	x8, [x19, #1032]
	cmp	x8, #1023
	b.ls	.LBB11_327
// %bb.90:
	mov	w0, #1                          // =0x1
	ldp	x20, x19, [sp, #128]            // 16-byte Folded Reload
	ldp	x22, x21, [sp, #112]            // 16-byte Folded Reload
	ldp	x29, x30, [sp, #96]             // 16-byte Folded Reload
	add	sp, sp, #144
	ret
.LBB11_91:                              // %arm.13
	cbnz	x8, .LBB11_577
// %bb.92:                              // %then.1.i346
	ldr	x8, [x19, #1032]
	mov	x20, xzr
	add	x21, x19, #4
	b	.LBB11_94
.LBB11_93:                              // %"std_io::io::buffer::Buffer::push.exit.i857"
                                        //   in Loop: Header=BB11_94 Depth=1
	add	x20, x20, #1
	mov	w0, wzr
	strb	w22, [x21, x8]
	add	x8, x8, #1
	cmp	x20, #21
	str	x8, [x19, #1032]
	b.eq	.LBB11_784
.LBB11_94:                              // %arm.3.i849
                                        // =>This Inner Loop Header: Depth=1
	adrp	x9, .Lstatic.28
	add	x9, x9, :lo12:.Lstatic.28
	cmp	x8, #1024
	ldrb	w22, [x9, x20]
	b.lo	.LBB11_93
// %bb.95:                              // %then.2.i.i863
                                        //   in Loop: Header=BB11_94 Depth=1
	movi	v0.2d, #0000000000000000
	cmp	x8, #1024
	str	xzr, [x19, #1032]
	stp	q0, q0, [sp]
	stp	q0, q0, [sp, #32]
	stp	q0, q0, [sp, #64]
	b.ne	.LBB11_408
// %bb.96:                              // %join.3.i.i.i866
                                        //   in Loop: Header=BB11_94 Depth=1
	ldr	w1, [x19]
	mov	x0, sp
	add	x2, x19, #4
	mov	w3, #1024                       // =0x400
	bl	"std_io::io::write_to"
	ldrb	w8, [sp]
	cbnz	w8, .LBB11_407
// %bb.97:                              // %after.1.i.i873
                                        //   in Loop: Header=BB11_94 Depth=1
	ldr	x8, [x19, #1032]
	cmp	x8, #1023
	b.ls	.LBB11_93
// %bb.98:
	mov	w0, #1                          // =0x1
	ldp	x20, x19, [sp, #128]            // 16-byte Folded Reload
	ldp	x22, x21, [sp, #112]            // 16-byte Folded Reload
	ldp	x29, x30, [sp, #96]             // 16-byte Folded Reload
	add	sp, sp, #144
	ret
.LBB11_99:                              // %arm.10
	cbnz	x8, .LBB11_578
// %bb.100:                             // %then.1.i382
	ldr	x8, [x19, #1032]
	mov	x20, xzr
	add	x21, x19, #4
	b	.LBB11_102
.LBB11_101:                             // %"std_io::io::buffer::Buffer::push.exit.i761"
                                        //   in Loop: Header=BB11_102 Depth=1
	add	x20, x20, #1
	mov	w0, wzr
	strb	w22, [x21, x8]
	add	x8, x8, #1
	cmp	x20, #21
	str	x8, [x19, #1032]
	b.eq	.LBB11_784
.LBB11_102:                             // %arm.3.i753
                                        // =>This Inner Loop Header: Depth=1
	adrp	x9, .Lstatic.25
	add	x9, x9, :lo12:.Lstatic.25
	cmp	x8, #1024
	ldrb	w22, [x9, x20]
	b.lo	.LBB11_101
// %bb.103:                             // %then.2.i.i767
                                        //   in Loop: Header=BB11_102 Depth=1
	movi	v0.2d, #0000000000000000
	cmp	x8, #1024
	str	xzr, [x19, #1032]
	stp	q0, q0, [sp]
	stp	q0, q0, [sp, #32]
	stp	q0, q0, [sp, #64]
	b.ne	.LBB11_410
// %bb.104:                             // %join.3.i.i.i770
                                        //   in Loop: Header=BB11_102 Depth=1
	ldr	w1, [x19]
	mov	x0, sp
	add	x2, x19, #4
	mov	w3, #1024                       // =0x400
	bl	"std_io::io::write_to"
	ldrb	w8, [sp]
	cbnz	w8, .LBB11_409
// %bb.105:                             // %after.1.i.i777
                                        //   in Loop: Header=BB11_102 Depth=1
	ldr	x8, [x19, #1032]
	cmp	x8, #1023
	b.ls	.LBB11_101
// %bb.106:
	mov	w0, #1                          // =0x1
	ldp	x20, x19, [sp, #128]            // 16-byte Folded Reload
	ldp	x22, x21, [sp, #112]            // 16-byte Folded Reload
	ldp	x29, x30, [sp, #96]             // 16-byte Folded Reload
	add	sp, sp, #144
	ret
.LBB11_107:                             // %arm.26
	cbnz	x8, .LBB11_579
// %bb.108:                             // %then.1.i190
	ldr	x8, [x19, #1032]
	mov	x20, xzr
	add	x21, x19, #4
	b	.LBB11_110
.LBB11_109:                             // %"std_io::io::buffer::Buffer::push.exit.i1273"
                                        //   in Loop: Header=BB11_110 Depth=1
	add	x20, x20, #1
	mov	w0, wzr
	strb	w22, [x21, x8]
	add	x8, x8, #1
	cmp	x20, #23
	str	x8, [x19, #1032]
	b.eq	.LBB11_784
.LBB11_110:                             // %arm.3.i1265
                                        // =>This Inner Loop Header: Depth=1
	adrp	x9, .Lstatic.41
	add	x9, x9, :lo12:.Lstatic.41
	cmp	x8, #1024
	ldrb	w22, [x9, x20]
	b.lo	.LBB11_109
// %bb.111:                             // %then.2.i.i1279
                                        //   in Loop: Header=BB11_110 Depth=1
	movi	v0.2d, #0000000000000000
	cmp	x8, #1024
	str	xzr, [x19, #1032]
	stp	q0, q0, [sp]
	stp	q0, q0, [sp, #32]
	stp	q0, q0, [sp, #64]
	b.ne	.LBB11_412
// %bb.112:                             // %join.3.i.i.i1282
                                        //   in Loop: Header=BB11_110 Depth=1
	ldr	w1, [x19]
	mov	x0, sp
	add	x2, x19, #4
	mov	w3, #1024                       // =0x400
	bl	"std_io::io::write_to"
	ldrb	w8, [sp]
	cbnz	w8, .LBB11_411
// %bb.113:                             // %after.1.i.i1289
                                        //   in Loop: Header=BB11_110 Depth=1
	ldr	x8, [x19, #1032]
	cmp	x8, #1023
	b.ls	.LBB11_109
// %bb.114:
	mov	w0, #1                          // =0x1
	ldp	x20, x19, [sp, #128]            // 16-byte Folded Reload
	ldp	x22, x21, [sp, #112]            // 16-byte Folded Reload
	ldp	x29, x30, [sp, #96]             // 16-byte Folded Reload
	add	sp, sp, #144
	ret
.LBB11_115:                             // %arm.25
	cbnz	x8, .LBB11_580
// %bb.116:                             // %then.1.i202
	ldr	x8, [x19, #1032]
	mov	x20, xzr
	add	x21, x19, #4
	b	.LBB11_118
.LBB11_117:                             // %"std_io::io::buffer::Buffer::push.exit.i1241"
                                        //   in Loop: Header=BB11_118 Depth=1
	add	x20, x20, #1
	mov	w0, wzr
	strb	w22, [x21, x8]
	add	x8, x8, #1
	cmp	x20, #16
	str	x8, [x19, #1032]
	b.eq	.LBB11_784
.LBB11_118:                             // %arm.3.i1233
                                        // =>This Inner Loop Header: Depth=1
	adrp	x9, .Lstatic.40
	add	x9, x9, :lo12:.Lstatic.40
	cmp	x8, #1024
	ldrb	w22, [x9, x20]
	b.lo	.LBB11_117
// %bb.119:                             // %then.2.i.i1247
                                        //   in Loop: Header=BB11_118 Depth=1
	movi	v0.2d, #0000000000000000
	cmp	x8, #1024
	str	xzr, [x19, #1032]
	stp	q0, q0, [sp]
	stp	q0, q0, [sp, #32]
	stp	q0, q0, [sp, #64]
	b.ne	.LBB11_414
// %bb.120:                             // %join.3.i.i.i1250
                                        //   in Loop: Header=BB11_118 Depth=1
	ldr	w1, [x19]
	mov	x0, sp
	add	x2, x19, #4
	mov	w3, #1024                       // =0x400
	bl	"std_io::io::write_to"
	ldrb	w8, [sp]
	cbnz	w8, .LBB11_413
// %bb.121:                             // %after.1.i.i1257
                                        //   in Loop: Header=BB11_118 Depth=1
	ldr	x8, [x19, #1032]
	cmp	x8, #1023
	b.ls	.LBB11_117
// %bb.122:
	mov	w0, #1                          // =0x1
	ldp	x20, x19, [sp, #128]            // 16-byte Folded Reload
	ldp	x22, x21, [sp, #112]            // 16-byte Folded Reload
	ldp	x29, x30, [sp, #96]             // 16-byte Folded Reload
	add	sp, sp, #144
	ret
.LBB11_123:                             // %arm.3
	cbnz	x8, .LBB11_581
// %bb.124:                             // %then.1.i466
	ldr	x8, [x19, #1032]
	mov	x20, xzr
	add	x21, x19, #4
	b	.LBB11_126
.LBB11_125:                             // %"std_io::io::buffer::Buffer::push.exit.i537"
                                        //   in Loop: Header=BB11_126 Depth=1
	add	x20, x20, #1
	mov	w0, wzr
	strb	w22, [x21, x8]
	add	x8, x8, #1
	cmp	x20, #18
	str	x8, [x19, #1032]
	b.eq	.LBB11_784
.LBB11_126:                             // %arm.3.i529
                                        // =>This Inner Loop Header: Depth=1
	adrp	x9, .Lstatic.18
	add	x9, x9, :lo12:.Lstatic.18
	cmp	x8, #1024
	ldrb	w22, [x9, x20]
	b.lo	.LBB11_125
// %bb.127:                             // %then.2.i.i543
                                        //   in Loop: Header=BB11_126 Depth=1
	movi	v0.2d, #0000000000000000
	cmp	x8, #1024
	str	xzr, [x19, #1032]
	stp	q0, q0, [sp]
	stp	q0, q0, [sp, #32]
	stp	q0, q0, [sp, #64]
	b.ne	.LBB11_416
// %bb.128:                             // %join.3.i.i.i546
                                        //   in Loop: Header=BB11_126 Depth=1
	ldr	w1, [x19]
	mov	x0, sp
	add	x2, x19, #4
	mov	w3, #1024                       // =0x400
	bl	"std_io::io::write_to"
	ldrb	w8, [sp]
	cbnz	w8, .LBB11_415
// %bb.129:                             // %after.1.i.i553
                                        //   in Loop: Header=BB11_126 Depth=1
	ldr	x8, [x19, #1032]
	cmp	x8, #1023
	b.ls	.LBB11_125
// %bb.130:
	mov	w0, #1                          // =0x1
	ldp	x20, x19, [sp, #128]            // 16-byte Folded Reload
	ldp	x22, x21, [sp, #112]            // 16-byte Folded Reload
	ldp	x29, x30, [sp, #96]             // 16-byte Folded Reload
	add	sp, sp, #144
	ret
.LBB11_131:                             // %arm.16
	cbnz	x8, .LBB11_582
// %bb.132:                             // %then.1.i310
	ldr	x8, [x19, #1032]
	mov	x20, xzr
	add	x21, x19, #4
	b	.LBB11_134
.LBB11_133:                             // %"std_io::io::buffer::Buffer::push.exit.i953"
                                        //   in Loop: Header=BB11_134 Depth=1
	add	x20, x20, #1
	mov	w0, wzr
	strb	w22, [x21, x8]
	add	x8, x8, #1
	cmp	x20, #14
	str	x8, [x19, #1032]
	b.eq	.LBB11_784
.LBB11_134:                             // %arm.3.i945
                                        // =>This Inner Loop Header: Depth=1
	adrp	x9, .Lstatic.31
	add	x9, x9, :lo12:.Lstatic.31
	cmp	x8, #1024
	ldrb	w22, [x9, x20]
	b.lo	.LBB11_133
// %bb.135:                             // %then.2.i.i959
                                        //   in Loop: Header=BB11_134 Depth=1
	movi	v0.2d, #0000000000000000
	cmp	x8, #1024
	str	xzr, [x19, #1032]
	stp	q0, q0, [sp]
	stp	q0, q0, [sp, #32]
	stp	q0, q0, [sp, #64]
	b.ne	.LBB11_418
// %bb.136:                             // %join.3.i.i.i962
                                        //   in Loop: Header=BB11_134 Depth=1
	ldr	w1, [x19]
	mov	x0, sp
	add	x2, x19, #4
	mov	w3, #1024                       // =0x400
	bl	"std_io::io::write_to"
	ldrb	w8, [sp]
	cbnz	w8, .LBB11_417
// %bb.137:                             // %after.1.i.i969
                                        //   in Loop: Header=BB11_134 Depth=1
	ldr	x8, [x19, #1032]
	cmp	x8, #1023
	b.ls	.LBB11_133
// %bb.138:
	mov	w0, #1                          // =0x1
	ldp	x20, x19, [sp, #128]            // 16-byte Folded Reload
	ldp	x22, x21, [sp, #112]            // 16-byte Folded Reload
	ldp	x29, x30, [sp, #96]             // 16-byte Folded Reload
	add	sp, sp, #144
	ret
.LBB11_139:                             // %arm.4
	cbnz	x8, .LBB11_583
// %bb.140:                             // %then.1.i454
	ldr	x8, [x19, #1032]
	mov	x20, xzr
	add	x21, x19, #4
	b	.LBB11_142
.LBB11_141:                             // %"std_io::io::buffer::Buffer::push.exit.i569"
                                        //   in Loop: Header=BB11_142 Depth=1
	add	x20, x20, #1
	mov	w0, wzr
	strb	w22, [x21, x8]
	add	x8, x8, #1
	cmp	x20, #16
	str	x8, [x19, #1032]
	b.eq	.LBB11_784
.LBB11_142:                             // %arm.3.i561
                                        // =>This Inner Loop Header: Depth=1
	adrp	x9, .Lstatic.19
	add	x9, x9, :lo12:.Lstatic.19
	cmp	x8, #1024
	ldrb	w22, [x9, x20]
	b.lo	.LBB11_141
// %bb.143:                             // %then.2.i.i575
                                        //   in Loop: Header=BB11_142 Depth=1
	movi	v0.2d, #0000000000000000
	cmp	x8, #1024
	str	xzr, [x19, #1032]
	stp	q0, q0, [sp]
	stp	q0, q0, [sp, #32]
	stp	q0, q0, [sp, #64]
	b.ne	.LBB11_420
// %bb.144:                             // %join.3.i.i.i578
                                        //   in Loop: Header=BB11_142 Depth=1
	ldr	w1, [x19]
	mov	x0, sp
	add	x2, x19, #4
	mov	w3, #1024                       // =0x400
	bl	"std_io::io::write_to"
	ldrb	w8, [sp]
	cbnz	w8, .LBB11_419
// %bb.145:                             // %after.1.i.i585
                                        //   in Loop: Header=BB11_142 Depth=1
	ldr	x8, [x19, #1032]
	cmp	x8, #1023
	b.ls	.LBB11_141
// %bb.146:
	mov	w0, #1                          // =0x1
	ldp	x20, x19, [sp, #128]            // 16-byte Folded Reload
	ldp	x22, x21, [sp, #112]            // 16-byte Folded Reload
	ldp	x29, x30, [sp, #96]             // 16-byte Folded Reload
	add	sp, sp, #144
	ret
.LBB11_147:                             // %arm.8
	cbnz	x8, .LBB11_584
// %bb.148:                             // %then.1.i406
	ldr	x8, [x19, #1032]
	mov	x20, xzr
	add	x21, x19, #4
	b	.LBB11_150
.LBB11_149:                             // %"std_io::io::buffer::Buffer::push.exit.i697"
                                        //   in Loop: Header=BB11_150 Depth=1
	add	x20, x20, #1
	mov	w0, wzr
	strb	w22, [x21, x8]
	add	x8, x8, #1
	cmp	x20, #13
	str	x8, [x19, #1032]
	b.eq	.LBB11_784
.LBB11_150:                             // %arm.3.i689
                                        // =>This Inner Loop Header: Depth=1
	adrp	x9, .Lstatic.23
	add	x9, x9, :lo12:.Lstatic.23
	cmp	x8, #1024
	ldrb	w22, [x9, x20]
	b.lo	.LBB11_149
// %bb.151:                             // %then.2.i.i703
                                        //   in Loop: Header=BB11_150 Depth=1
	movi	v0.2d, #0000000000000000
	cmp	x8, #1024
	str	xzr, [x19, #1032]
	stp	q0, q0, [sp]
	stp	q0, q0, [sp, #32]
	stp	q0, q0, [sp, #64]
	b.ne	.LBB11_422
// %bb.152:                             // %join.3.i.i.i706
                                        //   in Loop: Header=BB11_150 Depth=1
	ldr	w1, [x19]
	mov	x0, sp
	add	x2, x19, #4
	mov	w3, #1024                       // =0x400
	bl	"std_io::io::write_to"
	ldrb	w8, [sp]
	cbnz	w8, .LBB11_421
// %bb.153:                             // %after.1.i.i713
                                        //   in Loop: Header=BB11_150 Depth=1
	ldr	x8, [x19, #1032]
	cmp	x8, #1023
	b.ls	.LBB11_149
// %bb.154:
	mov	w0, #1                          // =0x1
	ldp	x20, x19, [sp, #128]            // 16-byte Folded Reload
	ldp	x22, x21, [sp, #112]            // 16-byte Folded Reload
	ldp	x29, x30, [sp, #96]             // 16-byte Folded Reload
	add	sp, sp, #144
	ret
.LBB11_155:                             // %arm.2
	cbnz	x8, .LBB11_587
// %bb.156:                             // %then.1.i478
	ldr	x8, [x19, #1032]
	mov	x20, xzr
	add	x21, x19, #4
	b	.LBB11_158
.LBB11_157:                             // %"std_io::io::buffer::Buffer::push.exit.i505"
                                        //   in Loop: Header=BB11_158 Depth=1
	add	x20, x20, #1
	mov	w0, wzr
	strb	w22, [x21, x8]
	add	x8, x8, #1
	cmp	x20, #17
	str	x8, [x19, #1032]
	b.eq	.LBB11_784
.LBB11_158:                             // %arm.3.i497
                                        // =>This Inner Loop Header: Depth=1
	adrp	x9, .Lstatic.17
	add	x9, x9, :lo12:.Lstatic.17
	cmp	x8, #1024
	ldrb	w22, [x9, x20]
	b.lo	.LBB11_157
// %bb.159:                             // %then.2.i.i511
                                        //   in Loop: Header=BB11_158 Depth=1
	movi	v0.2d, #0000000000000000
	cmp	x8, #1024
	str	xzr, [x19, #1032]
	stp	q0, q0, [sp]
	stp	q0, q0, [sp, #32]
	stp	q0, q0, [sp, #64]
	b.ne	.LBB11_426
// %bb.160:                             // %join.3.i.i.i514
                                        //   in Loop: Header=BB11_158 Depth=1
	ldr	w1, [x19]
	mov	x0, sp
	add	x2, x19, #4
	mov	w3, #1024                       // =0x400
	bl	"std_io::io::write_to"
	ldrb	w8, [sp]
	cbnz	w8, .LBB11_425
// %bb.161:                             // %after.1.i.i521
                                        //   in Loop: Header=BB11_158 Depth=1
	ldr	x8, [x19, #1032]
	cmp	x8, #1023
	b.ls	.LBB11_157
// %bb.162:
	mov	w0, #1                          // =0x1
	ldp	x20, x19, [sp, #128]            // 16-byte Folded Reload
	ldp	x22, x21, [sp, #112]            // 16-byte Folded Reload
	ldp	x29, x30, [sp, #96]             // 16-byte Folded Reload
	add	sp, sp, #144
	ret
.LBB11_163:                             // %arm.32
	cbnz	x8, .LBB11_588
// %bb.164:                             // %then.1.i118
	ldr	x8, [x19, #1032]
	mov	x20, xzr
	add	x21, x19, #4
	b	.LBB11_166
.LBB11_165:                             // %"std_io::io::buffer::Buffer::push.exit.i1465"
                                        //   in Loop: Header=BB11_166 Depth=1
	add	x20, x20, #1
	mov	w0, wzr
	strb	w22, [x21, x8]
	add	x8, x8, #1
	cmp	x20, #27
	str	x8, [x19, #1032]
	b.eq	.LBB11_784
.LBB11_166:                             // %arm.3.i1457
                                        // =>This Inner Loop Header: Depth=1
	adrp	x9, .Lstatic.47
	add	x9, x9, :lo12:.Lstatic.47
	cmp	x8, #1024
	ldrb	w22, [x9, x20]
	b.lo	.LBB11_165
// %bb.167:                             // %then.2.i.i1471
                                        //   in Loop: Header=BB11_166 Depth=1
	movi	v0.2d, #0000000000000000
	cmp	x8, #1024
	str	xzr, [x19, #1032]
	stp	q0, q0, [sp]
	stp	q0, q0, [sp, #32]
	stp	q0, q0, [sp, #64]
	b.ne	.LBB11_428
// %bb.168:                             // %join.3.i.i.i1474
                                        //   in Loop: Header=BB11_166 Depth=1
	ldr	w1, [x19]
	mov	x0, sp
	add	x2, x19, #4
	mov	w3, #1024                       // =0x400
	bl	"std_io::io::write_to"
	ldrb	w8, [sp]
	cbnz	w8, .LBB11_427
// %bb.169:                             // %after.1.i.i1481
                                        //   in Loop: Header=BB11_166 Depth=1
	ldr	x8, [x19, #1032]
	cmp	x8, #1023
	b.ls	.LBB11_165
// %bb.170:
	mov	w0, #1                          // =0x1
	ldp	x20, x19, [sp, #128]            // 16-byte Folded Reload
	ldp	x22, x21, [sp, #112]            // 16-byte Folded Reload
	ldp	x29, x30, [sp, #96]             // 16-byte Folded Reload
	add	sp, sp, #144
	ret
.LBB11_171:                             // %arm.18
	cbnz	x8, .LBB11_589
// %bb.172:                             // %then.1.i286
	ldr	x8, [x19, #1032]
	mov	x20, xzr
	add	x21, x19, #4
	b	.LBB11_174
.LBB11_173:                             // %"std_io::io::buffer::Buffer::push.exit.i1017"
                                        //   in Loop: Header=BB11_174 Depth=1
	add	x20, x20, #1
	mov	w0, wzr
	strb	w22, [x21, x8]
	add	x8, x8, #1
	cmp	x20, #38
	str	x8, [x19, #1032]
	b.eq	.LBB11_784
.LBB11_174:                             // %arm.3.i1009
                                        // =>This Inner Loop Header: Depth=1
	adrp	x9, .Lstatic.33
	add	x9, x9, :lo12:.Lstatic.33
	cmp	x8, #1024
	ldrb	w22, [x9, x20]
	b.lo	.LBB11_173
// %bb.175:                             // %then.2.i.i1023
                                        //   in Loop: Header=BB11_174 Depth=1
	movi	v0.2d, #0000000000000000
	cmp	x8, #1024
	str	xzr, [x19, #1032]
	stp	q0, q0, [sp]
	stp	q0, q0, [sp, #32]
	stp	q0, q0, [sp, #64]
	b.ne	.LBB11_430
// %bb.176:                             // %join.3.i.i.i1026
                                        //   in Loop: Header=BB11_174 Depth=1
	ldr	w1, [x19]
	mov	x0, sp
	add	x2, x19, #4
	mov	w3, #1024                       // =0x400
	bl	"std_io::io::write_to"
	ldrb	w8, [sp]
	cbnz	w8, .LBB11_429
// %bb.177:                             // %after.1.i.i1033
                                        //   in Loop: Header=BB11_174 Depth=1
	ldr	x8, [x19, #1032]
	cmp	x8, #1023
	b.ls	.LBB11_173
// %bb.178:
	mov	w0, #1                          // =0x1
	ldp	x20, x19, [sp, #128]            // 16-byte Folded Reload
	ldp	x22, x21, [sp, #112]            // 16-byte Folded Reload
	ldp	x29, x30, [sp, #96]             // 16-byte Folded Reload
	add	sp, sp, #144
	ret
.LBB11_179:                             // %arm.42
	cbnz	x8, .LBB11_590
// %bb.180:                             // %then.1.i
	ldr	x8, [x19, #1032]
	mov	x20, xzr
	add	x21, x19, #4
	b	.LBB11_182
.LBB11_181:                             // %"std_io::io::buffer::Buffer::push.exit.i1785"
                                        //   in Loop: Header=BB11_182 Depth=1
	add	x20, x20, #1
	mov	w0, wzr
	strb	w22, [x21, x8]
	add	x8, x8, #1
	cmp	x20, #19
	str	x8, [x19, #1032]
	b.eq	.LBB11_784
.LBB11_182:                             // %arm.3.i1777
                                        // =>This Inner Loop Header: Depth=1
	adrp	x9, .Lstatic.57
	add	x9, x9, :lo12:.Lstatic.57
	cmp	x8, #1024
	ldrb	w22, [x9, x20]
	b.lo	.LBB11_181
// %bb.183:                             // %then.2.i.i1791
                                        //   in Loop: Header=BB11_182 Depth=1
	movi	v0.2d, #0000000000000000
	cmp	x8, #1024
	str	xzr, [x19, #1032]
	stp	q0, q0, [sp]
	stp	q0, q0, [sp, #32]
	stp	q0, q0, [sp, #64]
	b.ne	.LBB11_432
// %bb.184:                             // %join.3.i.i.i1794
                                        //   in Loop: Header=BB11_182 Depth=1
	ldr	w1, [x19]
	mov	x0, sp
	add	x2, x19, #4
	mov	w3, #1024                       // =0x400
	bl	"std_io::io::write_to"
	ldrb	w8, [sp]
	cbnz	w8, .LBB11_431
// %bb.185:                             // %after.1.i.i1801
                                        //   in Loop: Header=BB11_182 Depth=1
	ldr	x8, [x19, #1032]
	cmp	x8, #1023
	b.ls	.LBB11_181
// %bb.186:
	mov	w0, #1                          // =0x1
	ldp	x20, x19, [sp, #128]            // 16-byte Folded Reload
	ldp	x22, x21, [sp, #112]            // 16-byte Folded Reload
	ldp	x29, x30, [sp, #96]             // 16-byte Folded Reload
	add	sp, sp, #144
	ret
.LBB11_187:                             // %arm.21
	cbnz	x8, .LBB11_591
// %bb.188:                             // %then.1.i250
	ldr	x8, [x19, #1032]
	mov	x20, xzr
	add	x21, x19, #4
	b	.LBB11_190
.LBB11_189:                             // %"std_io::io::buffer::Buffer::push.exit.i1113"
                                        //   in Loop: Header=BB11_190 Depth=1
	add	x20, x20, #1
	mov	w0, wzr
	strb	w22, [x21, x8]
	add	x8, x8, #1
	cmp	x20, #23
	str	x8, [x19, #1032]
	b.eq	.LBB11_784
.LBB11_190:                             // %arm.3.i1105
                                        // =>This Inner Loop Header: Depth=1
	adrp	x9, .Lstatic.36
	add	x9, x9, :lo12:.Lstatic.36
	cmp	x8, #1024
	ldrb	w22, [x9, x20]
	b.lo	.LBB11_189
// %bb.191:                             // %then.2.i.i1119
                                        //   in Loop: Header=BB11_190 Depth=1
	movi	v0.2d, #0000000000000000
	cmp	x8, #1024
	str	xzr, [x19, #1032]
	stp	q0, q0, [sp]
	stp	q0, q0, [sp, #32]
	stp	q0, q0, [sp, #64]
	b.ne	.LBB11_434
// %bb.192:                             // %join.3.i.i.i1122
                                        //   in Loop: Header=BB11_190 Depth=1
	ldr	w1, [x19]
	mov	x0, sp
	add	x2, x19, #4
	mov	w3, #1024                       // =0x400
	bl	"std_io::io::write_to"
	ldrb	w8, [sp]
	cbnz	w8, .LBB11_433
// %bb.193:                             // %after.1.i.i1129
                                        //   in Loop: Header=BB11_190 Depth=1
	ldr	x8, [x19, #1032]
	cmp	x8, #1023
	b.ls	.LBB11_189
// %bb.194:
	mov	w0, #1                          // =0x1
	ldp	x20, x19, [sp, #128]            // 16-byte Folded Reload
	ldp	x22, x21, [sp, #112]            // 16-byte Folded Reload
	ldp	x29, x30, [sp, #96]             // 16-byte Folded Reload
	add	sp, sp, #144
	ret
.LBB11_195:                             // %arm.6
	cbnz	x8, .LBB11_593
// %bb.196:                             // %then.1.i430
	ldr	x8, [x19, #1032]
	mov	x20, xzr
	add	x21, x19, #4
	b	.LBB11_198
.LBB11_197:                             // %"std_io::io::buffer::Buffer::push.exit.i633"
                                        //   in Loop: Header=BB11_198 Depth=1
	add	x20, x20, #1
	mov	w0, wzr
	strb	w22, [x21, x8]
	add	x8, x8, #1
	cmp	x20, #19
	str	x8, [x19, #1032]
	b.eq	.LBB11_784
.LBB11_198:                             // %arm.3.i625
                                        // =>This Inner Loop Header: Depth=1
	adrp	x9, .Lstatic.21
	add	x9, x9, :lo12:.Lstatic.21
	cmp	x8, #1024
	ldrb	w22, [x9, x20]
	b.lo	.LBB11_197
// %bb.199:                             // %then.2.i.i639
                                        //   in Loop: Header=BB11_198 Depth=1
	movi	v0.2d, #0000000000000000
	cmp	x8, #1024
	str	xzr, [x19, #1032]
	stp	q0, q0, [sp]
	stp	q0, q0, [sp, #32]
	stp	q0, q0, [sp, #64]
	b.ne	.LBB11_436
// %bb.200:                             // %join.3.i.i.i642
                                        //   in Loop: Header=BB11_198 Depth=1
	ldr	w1, [x19]
	mov	x0, sp
	add	x2, x19, #4
	mov	w3, #1024                       // =0x400
	bl	"std_io::io::write_to"
	ldrb	w8, [sp]
	cbnz	w8, .LBB11_435
// %bb.201:                             // %after.1.i.i649
                                        //   in Loop: Header=BB11_198 Depth=1
	ldr	x8, [x19, #1032]
	cmp	x8, #1023
	b.ls	.LBB11_197
// %bb.202:
	mov	w0, #1                          // =0x1
	ldp	x20, x19, [sp, #128]            // 16-byte Folded Reload
	ldp	x22, x21, [sp, #112]            // 16-byte Folded Reload
	ldp	x29, x30, [sp, #96]             // 16-byte Folded Reload
	add	sp, sp, #144
	ret
.LBB11_203:                             // %arm.22
	cbnz	x8, .LBB11_595
// %bb.204:                             // %then.1.i238
	ldr	x8, [x19, #1032]
	add	x20, x19, #4
	cmp	x8, #1024
	b.lo	.LBB11_331
// %bb.205:                             // %then.2.i.i1151
	movi	v0.2d, #0000000000000000
	cmp	x8, #1024
	str	xzr, [x19, #1032]
	stp	q0, q0, [sp]
	stp	q0, q0, [sp, #32]
	stp	q0, q0, [sp, #64]
	b.ne	.LBB11_779
// %bb.206:                             // %join.3.i.i.i1154
	ldr	w1, [x19]
	mov	x0, sp
	add	x2, x19, #4
	mov	w3, #1024                       // =0x400
	bl	"std_io::io::write_to"
	ldrb	w8, [sp]
	cbnz	w8, .LBB11_778
// %bb.207:                             // %after.1.i.i1161
	ldr	x8, [x19, #1032]
	cmp	x8, #1023
	b.ls	.LBB11_331
// %bb.208:
	mov	w0, #1                          // =0x1
	ldp	x20, x19, [sp, #128]            // 16-byte Folded Reload
	ldp	x22, x21, [sp, #112]            // 16-byte Folded Reload
	ldp	x29, x30, [sp, #96]             // 16-byte Folded Reload
	add	sp, sp, #144
	ret
.LBB11_209:                             // %arm.14
	cbnz	x8, .LBB11_596
// %bb.210:                             // %then.1.i334
	ldr	x8, [x19, #1032]
	mov	x20, xzr
	add	x21, x19, #4
	b	.LBB11_212
.LBB11_211:                             // %"std_io::io::buffer::Buffer::push.exit.i889"
                                        //   in Loop: Header=BB11_212 Depth=1
	add	x20, x20, #1
	mov	w0, wzr
	strb	w22, [x21, x8]
	add	x8, x8, #1
	cmp	x20, #21
	str	x8, [x19, #1032]
	b.eq	.LBB11_784
.LBB11_212:                             // %arm.3.i881
                                        // =>This Inner Loop Header: Depth=1
	adrp	x9, .Lstatic.29
	add	x9, x9, :lo12:.Lstatic.29
	cmp	x8, #1024
	ldrb	w22, [x9, x20]
	b.lo	.LBB11_211
// %bb.213:                             // %then.2.i.i895
                                        //   in Loop: Header=BB11_212 Depth=1
	movi	v0.2d, #0000000000000000
	cmp	x8, #1024
	str	xzr, [x19, #1032]
	stp	q0, q0, [sp]
	stp	q0, q0, [sp, #32]
	stp	q0, q0, [sp, #64]
	b.ne	.LBB11_438
// %bb.214:                             // %join.3.i.i.i898
                                        //   in Loop: Header=BB11_212 Depth=1
	ldr	w1, [x19]
	mov	x0, sp
	add	x2, x19, #4
	mov	w3, #1024                       // =0x400
	bl	"std_io::io::write_to"
	ldrb	w8, [sp]
	cbnz	w8, .LBB11_437
// %bb.215:                             // %after.1.i.i905
                                        //   in Loop: Header=BB11_212 Depth=1
	ldr	x8, [x19, #1032]
	cmp	x8, #1023
	b.ls	.LBB11_211
// %bb.216:
	mov	w0, #1                          // =0x1
	ldp	x20, x19, [sp, #128]            // 16-byte Folded Reload
	ldp	x22, x21, [sp, #112]            // 16-byte Folded Reload
	ldp	x29, x30, [sp, #96]             // 16-byte Folded Reload
	add	sp, sp, #144
	ret
.LBB11_217:                             // %arm.7
	cbnz	x8, .LBB11_598
// %bb.218:                             // %then.1.i418
	ldr	x8, [x19, #1032]
	mov	x20, xzr
	add	x21, x19, #4
	b	.LBB11_220
.LBB11_219:                             // %"std_io::io::buffer::Buffer::push.exit.i665"
                                        //   in Loop: Header=BB11_220 Depth=1
	add	x20, x20, #1
	mov	w0, wzr
	strb	w22, [x21, x8]
	add	x8, x8, #1
	cmp	x20, #18
	str	x8, [x19, #1032]
	b.eq	.LBB11_784
.LBB11_220:                             // %arm.3.i657
                                        // =>This Inner Loop Header: Depth=1
	adrp	x9, .Lstatic.22
	add	x9, x9, :lo12:.Lstatic.22
	cmp	x8, #1024
	ldrb	w22, [x9, x20]
	b.lo	.LBB11_219
// %bb.221:                             // %then.2.i.i671
                                        //   in Loop: Header=BB11_220 Depth=1
	movi	v0.2d, #0000000000000000
	cmp	x8, #1024
	str	xzr, [x19, #1032]
	stp	q0, q0, [sp]
	stp	q0, q0, [sp, #32]
	stp	q0, q0, [sp, #64]
	b.ne	.LBB11_440
// %bb.222:                             // %join.3.i.i.i674
                                        //   in Loop: Header=BB11_220 Depth=1
	ldr	w1, [x19]
	mov	x0, sp
	add	x2, x19, #4
	mov	w3, #1024                       // =0x400
	bl	"std_io::io::write_to"
	ldrb	w8, [sp]
	cbnz	w8, .LBB11_439
// %bb.223:                             // %after.1.i.i681
                                        //   in Loop: Header=BB11_220 Depth=1
	ldr	x8, [x19, #1032]
	cmp	x8, #1023
	b.ls	.LBB11_219
// %bb.224:
	mov	w0, #1                          // =0x1
	ldp	x20, x19, [sp, #128]            // 16-byte Folded Reload
	ldp	x22, x21, [sp, #112]            // 16-byte Folded Reload
	ldp	x29, x30, [sp, #96]             // 16-byte Folded Reload
	add	sp, sp, #144
	ret
.LBB11_225:                             // %arm.19
	cbnz	x8, .LBB11_600
// %bb.226:                             // %then.1.i274
	ldr	x8, [x19, #1032]
	mov	x20, xzr
	add	x21, x19, #4
	b	.LBB11_228
.LBB11_227:                             // %"std_io::io::buffer::Buffer::push.exit.i1049"
                                        //   in Loop: Header=BB11_228 Depth=1
	add	x20, x20, #1
	mov	w0, wzr
	strb	w22, [x21, x8]
	add	x8, x8, #1
	cmp	x20, #56
	str	x8, [x19, #1032]
	b.eq	.LBB11_784
.LBB11_228:                             // %arm.3.i1041
                                        // =>This Inner Loop Header: Depth=1
	adrp	x9, .Lstatic.34
	add	x9, x9, :lo12:.Lstatic.34
	cmp	x8, #1024
	ldrb	w22, [x9, x20]
	b.lo	.LBB11_227
// %bb.229:                             // %then.2.i.i1055
                                        //   in Loop: Header=BB11_228 Depth=1
	movi	v0.2d, #0000000000000000
	cmp	x8, #1024
	str	xzr, [x19, #1032]
	stp	q0, q0, [sp]
	stp	q0, q0, [sp, #32]
	stp	q0, q0, [sp, #64]
	b.ne	.LBB11_442
// %bb.230:                             // %join.3.i.i.i1058
                                        //   in Loop: Header=BB11_228 Depth=1
	ldr	w1, [x19]
	mov	x0, sp
	add	x2, x19, #4
	mov	w3, #1024                       // =0x400
	bl	"std_io::io::write_to"
	ldrb	w8, [sp]
	cbnz	w8, .LBB11_441
// %bb.231:                             // %after.1.i.i1065
                                        //   in Loop: Header=BB11_228 Depth=1
	ldr	x8, [x19, #1032]
	cmp	x8, #1023
	b.ls	.LBB11_227
// %bb.232:
	mov	w0, #1                          // =0x1
	ldp	x20, x19, [sp, #128]            // 16-byte Folded Reload
	ldp	x22, x21, [sp, #112]            // 16-byte Folded Reload
	ldp	x29, x30, [sp, #96]             // 16-byte Folded Reload
	add	sp, sp, #144
	ret
.LBB11_233:                             // %arm.11
	cbnz	x8, .LBB11_601
// %bb.234:                             // %then.1.i370
	ldr	x8, [x19, #1032]
	add	x20, x19, #4
	cmp	x8, #1024
	b.lo	.LBB11_335
// %bb.235:                             // %then.2.i.i799
	movi	v0.2d, #0000000000000000
	cmp	x8, #1024
	str	xzr, [x19, #1032]
	stp	q0, q0, [sp]
	stp	q0, q0, [sp, #32]
	stp	q0, q0, [sp, #64]
	b.ne	.LBB11_783
// %bb.236:                             // %join.3.i.i.i802
	ldr	w1, [x19]
	mov	x0, sp
	add	x2, x19, #4
	mov	w3, #1024                       // =0x400
	bl	"std_io::io::write_to"
	ldrb	w8, [sp]
	cbnz	w8, .LBB11_782
// %bb.237:                             // %after.1.i.i809
	ldr	x8, [x19, #1032]
	cmp	x8, #1023
	b.ls	.LBB11_335
// %bb.238:
	mov	w0, #1                          // =0x1
	ldp	x20, x19, [sp, #128]            // 16-byte Folded Reload
	ldp	x22, x21, [sp, #112]            // 16-byte Folded Reload
	ldp	x29, x30, [sp, #96]             // 16-byte Folded Reload
	add	sp, sp, #144
	ret
.LBB11_239:                             // %arm.9
	cbnz	x8, .LBB11_603
// %bb.240:                             // %then.1.i394
	ldr	x8, [x19, #1032]
	mov	x20, xzr
	add	x21, x19, #4
	b	.LBB11_242
.LBB11_241:                             // %"std_io::io::buffer::Buffer::push.exit.i729"
                                        //   in Loop: Header=BB11_242 Depth=1
	add	x20, x20, #1
	mov	w0, wzr
	strb	w22, [x21, x8]
	add	x8, x8, #1
	cmp	x20, #14
	str	x8, [x19, #1032]
	b.eq	.LBB11_784
.LBB11_242:                             // %arm.3.i721
                                        // =>This Inner Loop Header: Depth=1
	adrp	x9, .Lstatic.24
	add	x9, x9, :lo12:.Lstatic.24
	cmp	x8, #1024
	ldrb	w22, [x9, x20]
	b.lo	.LBB11_241
// %bb.243:                             // %then.2.i.i735
                                        //   in Loop: Header=BB11_242 Depth=1
	movi	v0.2d, #0000000000000000
	cmp	x8, #1024
	str	xzr, [x19, #1032]
	stp	q0, q0, [sp]
	stp	q0, q0, [sp, #32]
	stp	q0, q0, [sp, #64]
	b.ne	.LBB11_444
// %bb.244:                             // %join.3.i.i.i738
                                        //   in Loop: Header=BB11_242 Depth=1
	ldr	w1, [x19]
	mov	x0, sp
	add	x2, x19, #4
	mov	w3, #1024                       // =0x400
	bl	"std_io::io::write_to"
	ldrb	w8, [sp]
	cbnz	w8, .LBB11_443
// %bb.245:                             // %after.1.i.i745
                                        //   in Loop: Header=BB11_242 Depth=1
	ldr	x8, [x19, #1032]
	cmp	x8, #1023
	b.ls	.LBB11_241
// %bb.246:
	mov	w0, #1                          // =0x1
	ldp	x20, x19, [sp, #128]            // 16-byte Folded Reload
	ldp	x22, x21, [sp, #112]            // 16-byte Folded Reload
	ldp	x29, x30, [sp, #96]             // 16-byte Folded Reload
	add	sp, sp, #144
	ret
.LBB11_247:                             // %arm.31
	cbnz	x8, .LBB11_604
// %bb.248:                             // %then.1.i130
	ldr	x8, [x19, #1032]
	add	x20, x19, #4
	cmp	x8, #1024
	b.lo	.LBB11_339
// %bb.249:                             // %then.2.i.i1439
	movi	v0.2d, #0000000000000000
	cmp	x8, #1024
	str	xzr, [x19, #1032]
	stp	q0, q0, [sp]
	stp	q0, q0, [sp, #32]
	stp	q0, q0, [sp, #64]
	b.ne	.LBB11_676
// %bb.250:                             // %join.3.i.i.i1442
	ldr	w1, [x19]
	mov	x0, sp
	add	x2, x19, #4
	mov	w3, #1024                       // =0x400
	bl	"std_io::io::write_to"
	ldrb	w8, [sp]
	cbnz	w8, .LBB11_675
// %bb.251:                             // %after.1.i.i1449
	ldr	x8, [x19, #1032]
	cmp	x8, #1023
	b.ls	.LBB11_339
// %bb.252:
	mov	w0, #1                          // =0x1
	ldp	x20, x19, [sp, #128]            // 16-byte Folded Reload
	ldp	x22, x21, [sp, #112]            // 16-byte Folded Reload
	ldp	x29, x30, [sp, #96]             // 16-byte Folded Reload
	add	sp, sp, #144
	ret
.LBB11_253:                             // %arm.33
	cbnz	x8, .LBB11_605
// %bb.254:                             // %then.1.i106
	ldr	x8, [x19, #1032]
	mov	x20, xzr
	add	x21, x19, #4
	b	.LBB11_256
.LBB11_255:                             // %"std_io::io::buffer::Buffer::push.exit.i1497"
                                        //   in Loop: Header=BB11_256 Depth=1
	add	x20, x20, #1
	mov	w0, wzr
	strb	w22, [x21, x8]
	add	x8, x8, #1
	cmp	x20, #14
	str	x8, [x19, #1032]
	b.eq	.LBB11_784
.LBB11_256:                             // %arm.3.i1489
                                        // =>This Inner Loop Header: Depth=1
	adrp	x9, .Lstatic.48
	add	x9, x9, :lo12:.Lstatic.48
	cmp	x8, #1024
	ldrb	w22, [x9, x20]
	b.lo	.LBB11_255
// %bb.257:                             // %then.2.i.i1503
                                        //   in Loop: Header=BB11_256 Depth=1
	movi	v0.2d, #0000000000000000
	cmp	x8, #1024
	str	xzr, [x19, #1032]
	stp	q0, q0, [sp]
	stp	q0, q0, [sp, #32]
	stp	q0, q0, [sp, #64]
	b.ne	.LBB11_446
// %bb.258:                             // %join.3.i.i.i1506
                                        //   in Loop: Header=BB11_256 Depth=1
	ldr	w1, [x19]
	mov	x0, sp
	add	x2, x19, #4
	mov	w3, #1024                       // =0x400
	bl	"std_io::io::write_to"
	ldrb	w8, [sp]
	cbnz	w8, .LBB11_445
// %bb.259:                             // %after.1.i.i1513
                                        //   in Loop: Header=BB11_256 Depth=1
	ldr	x8, [x19, #1032]
	cmp	x8, #1023
	b.ls	.LBB11_255
// %bb.260:
	mov	w0, #1                          // =0x1
	ldp	x20, x19, [sp, #128]            // 16-byte Folded Reload
	ldp	x22, x21, [sp, #112]            // 16-byte Folded Reload
	ldp	x29, x30, [sp, #96]             // 16-byte Folded Reload
	add	sp, sp, #144
	ret
.LBB11_261:                             // %arm.23
	cbnz	x8, .LBB11_606
// %bb.262:                             // %then.1.i226
	ldr	x8, [x19, #1032]
	add	x20, x19, #4
	cmp	x8, #1024
	b.lo	.LBB11_343
// %bb.263:                             // %then.2.i.i1183
	movi	v0.2d, #0000000000000000
	cmp	x8, #1024
	str	xzr, [x19, #1032]
	stp	q0, q0, [sp]
	stp	q0, q0, [sp, #32]
	stp	q0, q0, [sp, #64]
	b.ne	.LBB11_712
// %bb.264:                             // %join.3.i.i.i1186
	ldr	w1, [x19]
	mov	x0, sp
	add	x2, x19, #4
	mov	w3, #1024                       // =0x400
	bl	"std_io::io::write_to"
	ldrb	w8, [sp]
	cbnz	w8, .LBB11_711
// %bb.265:                             // %after.1.i.i1193
	ldr	x8, [x19, #1032]
	cmp	x8, #1023
	b.ls	.LBB11_343
// %bb.266:
	mov	w0, #1                          // =0x1
	ldp	x20, x19, [sp, #128]            // 16-byte Folded Reload
	ldp	x22, x21, [sp, #112]            // 16-byte Folded Reload
	ldp	x29, x30, [sp, #96]             // 16-byte Folded Reload
	add	sp, sp, #144
	ret
.LBB11_267:                             // %arm.40
	cbnz	x8, .LBB11_607
// %bb.268:                             // %then.1.i22
	ldr	x8, [x19, #1032]
	add	x20, x19, #4
	cmp	x8, #1024
	b.lo	.LBB11_347
// %bb.269:                             // %then.2.i.i1727
	movi	v0.2d, #0000000000000000
	cmp	x8, #1024
	str	xzr, [x19, #1032]
	stp	q0, q0, [sp]
	stp	q0, q0, [sp, #32]
	stp	q0, q0, [sp, #64]
	b.ne	.LBB11_772
// %bb.270:                             // %join.3.i.i.i1730
	ldr	w1, [x19]
	mov	x0, sp
	add	x2, x19, #4
	mov	w3, #1024                       // =0x400
	bl	"std_io::io::write_to"
	ldrb	w8, [sp]
	cbnz	w8, .LBB11_771
// %bb.271:                             // %after.1.i.i1737
	ldr	x8, [x19, #1032]
	cmp	x8, #1023
	b.ls	.LBB11_347
// %bb.272:
	mov	w0, #1                          // =0x1
	ldp	x20, x19, [sp, #128]            // 16-byte Folded Reload
	ldp	x22, x21, [sp, #112]            // 16-byte Folded Reload
	ldp	x29, x30, [sp, #96]             // 16-byte Folded Reload
	add	sp, sp, #144
	ret
.LBB11_273:                             // %arm.20
	cbnz	x8, .LBB11_609
// %bb.274:                             // %then.1.i262
	ldr	x8, [x19, #1032]
	mov	x20, xzr
	add	x21, x19, #4
	b	.LBB11_276
.LBB11_275:                             // %"std_io::io::buffer::Buffer::push.exit.i1081"
                                        //   in Loop: Header=BB11_276 Depth=1
	add	x20, x20, #1
	mov	w0, wzr
	strb	w22, [x21, x8]
	add	x8, x8, #1
	cmp	x20, #25
	str	x8, [x19, #1032]
	b.eq	.LBB11_784
.LBB11_276:                             // %arm.3.i1073
                                        // =>This Inner Loop Header: Depth=1
	adrp	x9, .Lstatic.35
	add	x9, x9, :lo12:.Lstatic.35
	cmp	x8, #1024
	ldrb	w22, [x9, x20]
	b.lo	.LBB11_275
// %bb.277:                             // %then.2.i.i1087
                                        //   in Loop: Header=BB11_276 Depth=1
	movi	v0.2d, #0000000000000000
	cmp	x8, #1024
	str	xzr, [x19, #1032]
	stp	q0, q0, [sp]
	stp	q0, q0, [sp, #32]
	stp	q0, q0, [sp, #64]
	b.ne	.LBB11_448
// %bb.278:                             // %join.3.i.i.i1090
                                        //   in Loop: Header=BB11_276 Depth=1
	ldr	w1, [x19]
	mov	x0, sp
	add	x2, x19, #4
	mov	w3, #1024                       // =0x400
	bl	"std_io::io::write_to"
	ldrb	w8, [sp]
	cbnz	w8, .LBB11_447
// %bb.279:                             // %after.1.i.i1097
                                        //   in Loop: Header=BB11_276 Depth=1
	ldr	x8, [x19, #1032]
	cmp	x8, #1023
	b.ls	.LBB11_275
// %bb.280:
	mov	w0, #1                          // =0x1
	ldp	x20, x19, [sp, #128]            // 16-byte Folded Reload
	ldp	x22, x21, [sp, #112]            // 16-byte Folded Reload
	ldp	x29, x30, [sp, #96]             // 16-byte Folded Reload
	add	sp, sp, #144
	ret
.LBB11_281:                             // %arm.24
	cbnz	x8, .LBB11_610
// %bb.282:                             // %then.1.i214
	ldr	x8, [x19, #1032]
	add	x20, x19, #4
	cmp	x8, #1024
	b.lo	.LBB11_351
// %bb.283:                             // %then.2.i.i1215
	movi	v0.2d, #0000000000000000
	cmp	x8, #1024
	str	xzr, [x19, #1032]
	stp	q0, q0, [sp]
	stp	q0, q0, [sp, #32]
	stp	q0, q0, [sp, #64]
	b.ne	.LBB11_748
// %bb.284:                             // %join.3.i.i.i1218
	ldr	w1, [x19]
	mov	x0, sp
	add	x2, x19, #4
	mov	w3, #1024                       // =0x400
	bl	"std_io::io::write_to"
	ldrb	w8, [sp]
	cbnz	w8, .LBB11_747
// %bb.285:                             // %after.1.i.i1225
	ldr	x8, [x19, #1032]
	cmp	x8, #1023
	b.ls	.LBB11_351
// %bb.286:
	mov	w0, #1                          // =0x1
	ldp	x20, x19, [sp, #128]            // 16-byte Folded Reload
	ldp	x22, x21, [sp, #112]            // 16-byte Folded Reload
	ldp	x29, x30, [sp, #96]             // 16-byte Folded Reload
	add	sp, sp, #144
	ret
.LBB11_287:                             // %arm.29
	cbnz	x8, .LBB11_611
// %bb.288:                             // %then.1.i154
	ldr	x8, [x19, #1032]
	mov	x20, xzr
	add	x21, x19, #4
	b	.LBB11_290
.LBB11_289:                             // %"std_io::io::buffer::Buffer::push.exit.i1369"
                                        //   in Loop: Header=BB11_290 Depth=1
	add	x20, x20, #1
	mov	w0, wzr
	strb	w22, [x21, x8]
	add	x8, x8, #1
	cmp	x20, #13
	str	x8, [x19, #1032]
	b.eq	.LBB11_784
.LBB11_290:                             // %arm.3.i1361
                                        // =>This Inner Loop Header: Depth=1
	adrp	x9, .Lstatic.44
	add	x9, x9, :lo12:.Lstatic.44
	cmp	x8, #1024
	ldrb	w22, [x9, x20]
	b.lo	.LBB11_289
// %bb.291:                             // %then.2.i.i1375
                                        //   in Loop: Header=BB11_290 Depth=1
	movi	v0.2d, #0000000000000000
	cmp	x8, #1024
	str	xzr, [x19, #1032]
	stp	q0, q0, [sp]
	stp	q0, q0, [sp, #32]
	stp	q0, q0, [sp, #64]
	b.ne	.LBB11_450
// %bb.292:                             // %join.3.i.i.i1378
                                        //   in Loop: Header=BB11_290 Depth=1
	ldr	w1, [x19]
	mov	x0, sp
	add	x2, x19, #4
	mov	w3, #1024                       // =0x400
	bl	"std_io::io::write_to"
	ldrb	w8, [sp]
	cbnz	w8, .LBB11_449
// %bb.293:                             // %after.1.i.i1385
                                        //   in Loop: Header=BB11_290 Depth=1
	ldr	x8, [x19, #1032]
	cmp	x8, #1023
	b.ls	.LBB11_289
// %bb.294:
	mov	w0, #1                          // =0x1
	ldp	x20, x19, [sp, #128]            // 16-byte Folded Reload
	ldp	x22, x21, [sp, #112]            // 16-byte Folded Reload
	ldp	x29, x30, [sp, #96]             // 16-byte Folded Reload
	add	sp, sp, #144
	ret
.LBB11_295:                             // %arm.30
	cbnz	x8, .LBB11_612
// %bb.296:                             // %then.1.i142
	ldr	x8, [x19, #1032]
	mov	x20, xzr
	add	x21, x19, #4
	b	.LBB11_298
.LBB11_297:                             // %"std_io::io::buffer::Buffer::push.exit.i1401"
                                        //   in Loop: Header=BB11_298 Depth=1
	add	x20, x20, #1
	mov	w0, wzr
	strb	w22, [x21, x8]
	add	x8, x8, #1
	cmp	x20, #20
	str	x8, [x19, #1032]
	b.eq	.LBB11_784
.LBB11_298:                             // %arm.3.i1393
                                        // =>This Inner Loop Header: Depth=1
	adrp	x9, .Lstatic.45
	add	x9, x9, :lo12:.Lstatic.45
	cmp	x8, #1024
	ldrb	w22, [x9, x20]
	b.lo	.LBB11_297
// %bb.299:                             // %then.2.i.i1407
                                        //   in Loop: Header=BB11_298 Depth=1
	movi	v0.2d, #0000000000000000
	cmp	x8, #1024
	str	xzr, [x19, #1032]
	stp	q0, q0, [sp]
	stp	q0, q0, [sp, #32]
	stp	q0, q0, [sp, #64]
	b.ne	.LBB11_452
// %bb.300:                             // %join.3.i.i.i1410
                                        //   in Loop: Header=BB11_298 Depth=1
	ldr	w1, [x19]
	mov	x0, sp
	add	x2, x19, #4
	mov	w3, #1024                       // =0x400
	bl	"std_io::io::write_to"
	ldrb	w8, [sp]
	cbnz	w8, .LBB11_451
// %bb.301:                             // %after.1.i.i1417
                                        //   in Loop: Header=BB11_298 Depth=1
	ldr	x8, [x19, #1032]
	cmp	x8, #1023
	b.ls	.LBB11_297
// %bb.302:
	mov	w0, #1                          // =0x1
	ldp	x20, x19, [sp, #128]            // 16-byte Folded Reload
	ldp	x22, x21, [sp, #112]            // 16-byte Folded Reload
	ldp	x29, x30, [sp, #96]             // 16-byte Folded Reload
	add	sp, sp, #144
	ret
.LBB11_303:                             // %arm.39
	cbnz	x8, .LBB11_613
// %bb.304:                             // %then.1.i34
	ldr	x8, [x19, #1032]
	mov	x20, xzr
	add	x21, x19, #4
	b	.LBB11_306
.LBB11_305:                             // %"std_io::io::buffer::Buffer::push.exit.i1689"
                                        //   in Loop: Header=BB11_306 Depth=1
	add	x20, x20, #1
	mov	w0, wzr
	strb	w22, [x21, x8]
	add	x8, x8, #1
	cmp	x20, #13
	str	x8, [x19, #1032]
	b.eq	.LBB11_784
.LBB11_306:                             // %arm.3.i1681
                                        // =>This Inner Loop Header: Depth=1
	adrp	x9, .Lstatic.54
	add	x9, x9, :lo12:.Lstatic.54
	cmp	x8, #1024
	ldrb	w22, [x9, x20]
	b.lo	.LBB11_305
// %bb.307:                             // %then.2.i.i1695
                                        //   in Loop: Header=BB11_306 Depth=1
	movi	v0.2d, #0000000000000000
	cmp	x8, #1024
	str	xzr, [x19, #1032]
	stp	q0, q0, [sp]
	stp	q0, q0, [sp, #32]
	stp	q0, q0, [sp, #64]
	b.ne	.LBB11_454
// %bb.308:                             // %join.3.i.i.i1698
                                        //   in Loop: Header=BB11_306 Depth=1
	ldr	w1, [x19]
	mov	x0, sp
	add	x2, x19, #4
	mov	w3, #1024                       // =0x400
	bl	"std_io::io::write_to"
	ldrb	w8, [sp]
	cbnz	w8, .LBB11_453
// %bb.309:                             // %after.1.i.i1705
                                        //   in Loop: Header=BB11_306 Depth=1
	ldr	x8, [x19, #1032]
	cmp	x8, #1023
	b.ls	.LBB11_305
// %bb.310:
	mov	w0, #1                          // =0x1
	ldp	x20, x19, [sp, #128]            // 16-byte Folded Reload
	ldp	x22, x21, [sp, #112]            // 16-byte Folded Reload
	ldp	x29, x30, [sp, #96]             // 16-byte Folded Reload
	add	sp, sp, #144
	ret
.LBB11_311:                             // %arm.27
	cbnz	x8, .LBB11_615
// %bb.312:                             // %then.1.i178
	ldr	x8, [x19, #1032]
	mov	x20, xzr
	add	x21, x19, #4
	b	.LBB11_314
.LBB11_313:                             // %"std_io::io::buffer::Buffer::push.exit.i1305"
                                        //   in Loop: Header=BB11_314 Depth=1
	add	x20, x20, #1
	mov	w0, wzr
	strb	w22, [x21, x8]
	add	x8, x8, #1
	cmp	x20, #14
	str	x8, [x19, #1032]
	b.eq	.LBB11_784
.LBB11_314:                             // %arm.3.i1297
                                        // =>This Inner Loop Header: Depth=1
	adrp	x9, .Lstatic.42
	add	x9, x9, :lo12:.Lstatic.42
	cmp	x8, #1024
	ldrb	w22, [x9, x20]
	b.lo	.LBB11_313
// %bb.315:                             // %then.2.i.i1311
                                        //   in Loop: Header=BB11_314 Depth=1
	movi	v0.2d, #0000000000000000
	cmp	x8, #1024
	str	xzr, [x19, #1032]
	stp	q0, q0, [sp]
	stp	q0, q0, [sp, #32]
	stp	q0, q0, [sp, #64]
	b.ne	.LBB11_456
// %bb.316:                             // %join.3.i.i.i1314
                                        //   in Loop: Header=BB11_314 Depth=1
	ldr	w1, [x19]
	mov	x0, sp
	add	x2, x19, #4
	mov	w3, #1024                       // =0x400
	bl	"std_io::io::write_to"
	ldrb	w8, [sp]
	cbnz	w8, .LBB11_455
// %bb.317:                             // %after.1.i.i1321
                                        //   in Loop: Header=BB11_314 Depth=1
	ldr	x8, [x19, #1032]
	cmp	x8, #1023
	b.ls	.LBB11_313
// %bb.318:
	mov	w0, #1                          // =0x1
	ldp	x20, x19, [sp, #128]            // 16-byte Folded Reload
	ldp	x22, x21, [sp, #112]            // 16-byte Folded Reload
	ldp	x29, x30, [sp, #96]             // 16-byte Folded Reload
	add	sp, sp, #144
	ret
.LBB11_319:                             // %"std_io::io::buffer::Buffer::push.exit.i1625"
	mov	w9, #117                        // =0x75
	strb	w9, [x20, x8]
	cmp	x8, #1023
	add	x9, x8, #1
	str	x9, [x19, #1032]
	b.ne	.LBB11_355
// %bb.320:                             // %join.3.i.i.i1634.1
	movi	v0.2d, #0000000000000000
	ldr	w1, [x19]
	mov	x0, sp
	add	x2, x19, #4
	mov	w3, #1024                       // =0x400
	str	xzr, [x19, #1032]
	stp	q0, q0, [sp]
	stp	q0, q0, [sp, #32]
	stp	q0, q0, [sp, #64]
	bl	"std_io::io::write_to"
	ldrb	w8, [sp]
	cbnz	w8, .LBB11_751
// %bb.321:                             // %after.1.i.i1641.1
	ldr	x9, [x19, #1032]
	cmp	x9, #1023
	b.ls	.LBB11_355
// %bb.322:
	mov	w0, #1                          // =0x1
	ldp	x20, x19, [sp, #128]            // 16-byte Folded Reload
	ldp	x22, x21, [sp, #112]            // 16-byte Folded Reload
	ldp	x29, x30, [sp, #96]             // 16-byte Folded Reload
	add	sp, sp, #144
	ret
.LBB11_323:                             // %"std_io::io::buffer::Buffer::push.exit.i825"
	mov	w9, #98                         // =0x62
	strb	w9, [x20, x8]
	cmp	x8, #1023
	add	x9, x8, #1
	str	x9, [x19, #1032]
	b.ne	.LBB11_359
// %bb.324:                             // %join.3.i.i.i834.1
	movi	v0.2d, #0000000000000000
	ldr	w1, [x19]
	mov	x0, sp
	add	x2, x19, #4
	mov	w3, #1024                       // =0x400
	str	xzr, [x19, #1032]
	stp	q0, q0, [sp]
	stp	q0, q0, [sp, #32]
	stp	q0, q0, [sp, #64]
	bl	"std_io::io::write_to"
	ldrb	w8, [sp]
	cbnz	w8, .LBB11_755
// %bb.325:                             // %after.1.i.i841.1
	ldr	x9, [x19, #1032]
	cmp	x9, #1023
	b.ls	.LBB11_359
// %bb.326:
	mov	w0, #1                          // =0x1
	ldp	x20, x19, [sp, #128]            // 16-byte Folded Reload
	ldp	x22, x21, [sp, #112]            // 16-byte Folded Reload
	ldp	x29, x30, [sp, #96]             // 16-byte Folded Reload
	add	sp, sp, #144
	ret
.LBB11_327:                             // %"std_io::io::buffer::Buffer::push.exit.i1753"
	mov	w9, #111                        // =0x6f
	strb	w9, [x20, x8]
	cmp	x8, #1023
	add	x9, x8, #1
	str	x9, [x19, #1032]
	b.ne	.LBB11_363
// %bb.328:                             // %join.3.i.i.i1762.1
	movi	v0.2d, #0000000000000000
	ldr	w1, [x19]
	mov	x0, sp
	add	x2, x19, #4
	mov	w3, #1024                       // =0x400
	str	xzr, [x19, #1032]
	stp	q0, q0, [sp]
	stp	q0, q0, [sp, #32]
	stp	q0, q0, [sp, #64]
	bl	"std_io::io::write_to"
	ldrb	w8, [sp]
	cbnz	w8, .LBB11_759
// %bb.329:                             // %after.1.i.i1769.1
	ldr	x9, [x19, #1032]
	cmp	x9, #1023
	b.ls	.LBB11_363
// %bb.330:
	mov	w0, #1                          // =0x1
	ldp	x20, x19, [sp, #128]            // 16-byte Folded Reload
	ldp	x22, x21, [sp, #112]            // 16-byte Folded Reload
	ldp	x29, x30, [sp, #96]             // 16-byte Folded Reload
	add	sp, sp, #144
	ret
.LBB11_331:                             // %"std_io::io::buffer::Buffer::push.exit.i1145"
	mov	w9, #105                        // =0x69
	strb	w9, [x20, x8]
	cmp	x8, #1023
	add	x9, x8, #1
	str	x9, [x19, #1032]
	b.ne	.LBB11_367
// %bb.332:                             // %join.3.i.i.i1154.1
	movi	v0.2d, #0000000000000000
	ldr	w1, [x19]
	mov	x0, sp
	add	x2, x19, #4
	mov	w3, #1024                       // =0x400
	str	xzr, [x19, #1032]
	stp	q0, q0, [sp]
	stp	q0, q0, [sp, #32]
	stp	q0, q0, [sp, #64]
	bl	"std_io::io::write_to"
	ldrb	w8, [sp]
	cbnz	w8, .LBB11_778
// %bb.333:                             // %after.1.i.i1161.1
	ldr	x9, [x19, #1032]
	cmp	x9, #1023
	b.ls	.LBB11_367
// %bb.334:
	mov	w0, #1                          // =0x1
	ldp	x20, x19, [sp, #128]            // 16-byte Folded Reload
	ldp	x22, x21, [sp, #112]            // 16-byte Folded Reload
	ldp	x29, x30, [sp, #96]             // 16-byte Folded Reload
	add	sp, sp, #144
	ret
.LBB11_335:                             // %"std_io::io::buffer::Buffer::push.exit.i793"
	mov	w9, #110                        // =0x6e
	strb	w9, [x20, x8]
	cmp	x8, #1023
	add	x9, x8, #1
	str	x9, [x19, #1032]
	b.ne	.LBB11_371
// %bb.336:                             // %join.3.i.i.i802.1
	movi	v0.2d, #0000000000000000
	ldr	w1, [x19]
	mov	x0, sp
	add	x2, x19, #4
	mov	w3, #1024                       // =0x400
	str	xzr, [x19, #1032]
	stp	q0, q0, [sp]
	stp	q0, q0, [sp, #32]
	stp	q0, q0, [sp, #64]
	bl	"std_io::io::write_to"
	ldrb	w8, [sp]
	cbnz	w8, .LBB11_782
// %bb.337:                             // %after.1.i.i809.1
	ldr	x9, [x19, #1032]
	cmp	x9, #1023
	b.ls	.LBB11_371
// %bb.338:
	mov	w0, #1                          // =0x1
	ldp	x20, x19, [sp, #128]            // 16-byte Folded Reload
	ldp	x22, x21, [sp, #112]            // 16-byte Folded Reload
	ldp	x29, x30, [sp, #96]             // 16-byte Folded Reload
	add	sp, sp, #144
	ret
.LBB11_339:                             // %"std_io::io::buffer::Buffer::push.exit.i1433"
	mov	w9, #100                        // =0x64
	strb	w9, [x20, x8]
	cmp	x8, #1023
	add	x9, x8, #1
	str	x9, [x19, #1032]
	b.ne	.LBB11_375
// %bb.340:                             // %join.3.i.i.i1442.1
	movi	v0.2d, #0000000000000000
	ldr	w1, [x19]
	mov	x0, sp
	add	x2, x19, #4
	mov	w3, #1024                       // =0x400
	str	xzr, [x19, #1032]
	stp	q0, q0, [sp]
	stp	q0, q0, [sp, #32]
	stp	q0, q0, [sp, #64]
	bl	"std_io::io::write_to"
	ldrb	w8, [sp]
	cbnz	w8, .LBB11_675
// %bb.341:                             // %after.1.i.i1449.1
	ldr	x9, [x19, #1032]
	cmp	x9, #1023
	b.ls	.LBB11_375
// %bb.342:
	mov	w0, #1                          // =0x1
	ldp	x20, x19, [sp, #128]            // 16-byte Folded Reload
	ldp	x22, x21, [sp, #112]            // 16-byte Folded Reload
	ldp	x29, x30, [sp, #96]             // 16-byte Folded Reload
	add	sp, sp, #144
	ret
.LBB11_343:                             // %"std_io::io::buffer::Buffer::push.exit.i1177"
	mov	w9, #116                        // =0x74
	strb	w9, [x20, x8]
	cmp	x8, #1023
	add	x9, x8, #1
	str	x9, [x19, #1032]
	b.ne	.LBB11_379
// %bb.344:                             // %join.3.i.i.i1186.1
	movi	v0.2d, #0000000000000000
	ldr	w1, [x19]
	mov	x0, sp
	add	x2, x19, #4
	mov	w3, #1024                       // =0x400
	str	xzr, [x19, #1032]
	stp	q0, q0, [sp]
	stp	q0, q0, [sp, #32]
	stp	q0, q0, [sp, #64]
	bl	"std_io::io::write_to"
	ldrb	w8, [sp]
	cbnz	w8, .LBB11_711
// %bb.345:                             // %after.1.i.i1193.1
	ldr	x9, [x19, #1032]
	cmp	x9, #1023
	b.ls	.LBB11_379
// %bb.346:
	mov	w0, #1                          // =0x1
	ldp	x20, x19, [sp, #128]            // 16-byte Folded Reload
	ldp	x22, x21, [sp, #112]            // 16-byte Folded Reload
	ldp	x29, x30, [sp, #96]             // 16-byte Folded Reload
	add	sp, sp, #144
	ret
.LBB11_347:                             // %"std_io::io::buffer::Buffer::push.exit.i1721"
	mov	w9, #105                        // =0x69
	strb	w9, [x20, x8]
	cmp	x8, #1023
	add	x9, x8, #1
	str	x9, [x19, #1032]
	b.ne	.LBB11_383
// %bb.348:                             // %join.3.i.i.i1730.1
	movi	v0.2d, #0000000000000000
	ldr	w1, [x19]
	mov	x0, sp
	add	x2, x19, #4
	mov	w3, #1024                       // =0x400
	str	xzr, [x19, #1032]
	stp	q0, q0, [sp]
	stp	q0, q0, [sp, #32]
	stp	q0, q0, [sp, #64]
	bl	"std_io::io::write_to"
	ldrb	w8, [sp]
	cbnz	w8, .LBB11_771
// %bb.349:                             // %after.1.i.i1737.1
	ldr	x9, [x19, #1032]
	cmp	x9, #1023
	b.ls	.LBB11_383
// %bb.350:
	mov	w0, #1                          // =0x1
	ldp	x20, x19, [sp, #128]            // 16-byte Folded Reload
	ldp	x22, x21, [sp, #112]            // 16-byte Folded Reload
	ldp	x29, x30, [sp, #96]             // 16-byte Folded Reload
	add	sp, sp, #144
	ret
.LBB11_351:                             // %"std_io::io::buffer::Buffer::push.exit.i1209"
	mov	w9, #119                        // =0x77
	strb	w9, [x20, x8]
	cmp	x8, #1023
	add	x9, x8, #1
	str	x9, [x19, #1032]
	b.ne	.LBB11_387
// %bb.352:                             // %join.3.i.i.i1218.1
	movi	v0.2d, #0000000000000000
	ldr	w1, [x19]
	mov	x0, sp
	add	x2, x19, #4
	mov	w3, #1024                       // =0x400
	str	xzr, [x19, #1032]
	stp	q0, q0, [sp]
	stp	q0, q0, [sp, #32]
	stp	q0, q0, [sp, #64]
	bl	"std_io::io::write_to"
	ldrb	w8, [sp]
	cbnz	w8, .LBB11_747
// %bb.353:                             // %after.1.i.i1225.1
	ldr	x9, [x19, #1032]
	cmp	x9, #1023
	b.ls	.LBB11_387
// %bb.354:
	mov	w0, #1                          // =0x1
	ldp	x20, x19, [sp, #128]            // 16-byte Folded Reload
	ldp	x22, x21, [sp, #112]            // 16-byte Folded Reload
	ldp	x29, x30, [sp, #96]             // 16-byte Folded Reload
	add	sp, sp, #144
	ret
.LBB11_355:                             // %"std_io::io::buffer::Buffer::push.exit.i1625.1"
	mov	w8, #110                        // =0x6e
	strb	w8, [x20, x9]
	cmp	x9, #1023
	add	x8, x9, #1
	str	x8, [x19, #1032]
	b.lo	.LBB11_457
// %bb.356:                             // %join.3.i.i.i1634.2
	movi	v0.2d, #0000000000000000
	ldr	w1, [x19]
	mov	x0, sp
	add	x2, x19, #4
	mov	w3, #1024                       // =0x400
	str	xzr, [x19, #1032]
	stp	q0, q0, [sp]
	stp	q0, q0, [sp, #32]
	stp	q0, q0, [sp, #64]
	bl	"std_io::io::write_to"
	ldrb	w8, [sp]
	cbnz	w8, .LBB11_751
// %bb.357:                             // %after.1.i.i1641.2
	ldr	x8, [x19, #1032]
	cmp	x8, #1023
	b.ls	.LBB11_457
// %bb.358:
	mov	w0, #1                          // =0x1
	ldp	x20, x19, [sp, #128]            // 16-byte Folded Reload
	ldp	x22, x21, [sp, #112]            // 16-byte Folded Reload
	ldp	x29, x30, [sp, #96]             // 16-byte Folded Reload
	add	sp, sp, #144
	ret
.LBB11_359:                             // %"std_io::io::buffer::Buffer::push.exit.i825.1"
	mov	w8, #114                        // =0x72
	strb	w8, [x20, x9]
	cmp	x9, #1023
	add	x8, x9, #1
	str	x8, [x19, #1032]
	b.lo	.LBB11_461
// %bb.360:                             // %join.3.i.i.i834.2
	movi	v0.2d, #0000000000000000
	ldr	w1, [x19]
	mov	x0, sp
	add	x2, x19, #4
	mov	w3, #1024                       // =0x400
	str	xzr, [x19, #1032]
	stp	q0, q0, [sp]
	stp	q0, q0, [sp, #32]
	stp	q0, q0, [sp, #64]
	bl	"std_io::io::write_to"
	ldrb	w8, [sp]
	cbnz	w8, .LBB11_755
// %bb.361:                             // %after.1.i.i841.2
	ldr	x8, [x19, #1032]
	cmp	x8, #1023
	b.ls	.LBB11_461
// %bb.362:
	mov	w0, #1                          // =0x1
	ldp	x20, x19, [sp, #128]            // 16-byte Folded Reload
	ldp	x22, x21, [sp, #112]            // 16-byte Folded Reload
	ldp	x29, x30, [sp, #96]             // 16-byte Folded Reload
	add	sp, sp, #144
	ret
.LBB11_363:                             // %"std_io::io::buffer::Buffer::push.exit.i1753.1"
	mov	w8, #116                        // =0x74
	strb	w8, [x20, x9]
	cmp	x9, #1023
	add	x8, x9, #1
	str	x8, [x19, #1032]
	b.lo	.LBB11_465
// %bb.364:                             // %join.3.i.i.i1762.2
	movi	v0.2d, #0000000000000000
	ldr	w1, [x19]
	mov	x0, sp
	add	x2, x19, #4
	mov	w3, #1024                       // =0x400
	str	xzr, [x19, #1032]
	stp	q0, q0, [sp]
	stp	q0, q0, [sp, #32]
	stp	q0, q0, [sp, #64]
	bl	"std_io::io::write_to"
	ldrb	w8, [sp]
	cbnz	w8, .LBB11_759
// %bb.365:                             // %after.1.i.i1769.2
	ldr	x8, [x19, #1032]
	cmp	x8, #1023
	b.ls	.LBB11_465
// %bb.366:
	mov	w0, #1                          // =0x1
	ldp	x20, x19, [sp, #128]            // 16-byte Folded Reload
	ldp	x22, x21, [sp, #112]            // 16-byte Folded Reload
	ldp	x29, x30, [sp, #96]             // 16-byte Folded Reload
	add	sp, sp, #144
	ret
.LBB11_367:                             // %"std_io::io::buffer::Buffer::push.exit.i1145.1"
	mov	w8, #110                        // =0x6e
	strb	w8, [x20, x9]
	cmp	x9, #1023
	add	x8, x9, #1
	str	x8, [x19, #1032]
	b.lo	.LBB11_469
// %bb.368:                             // %join.3.i.i.i1154.2
	movi	v0.2d, #0000000000000000
	ldr	w1, [x19]
	mov	x0, sp
	add	x2, x19, #4
	mov	w3, #1024                       // =0x400
	str	xzr, [x19, #1032]
	stp	q0, q0, [sp]
	stp	q0, q0, [sp, #32]
	stp	q0, q0, [sp, #64]
	bl	"std_io::io::write_to"
	ldrb	w8, [sp]
	cbnz	w8, .LBB11_778
// %bb.369:                             // %after.1.i.i1161.2
	ldr	x8, [x19, #1032]
	cmp	x8, #1023
	b.ls	.LBB11_469
// %bb.370:
	mov	w0, #1                          // =0x1
	ldp	x20, x19, [sp, #128]            // 16-byte Folded Reload
	ldp	x22, x21, [sp, #112]            // 16-byte Folded Reload
	ldp	x29, x30, [sp, #96]             // 16-byte Folded Reload
	add	sp, sp, #144
	ret
.LBB11_371:                             // %"std_io::io::buffer::Buffer::push.exit.i793.1"
	mov	w8, #101                        // =0x65
	strb	w8, [x20, x9]
	cmp	x9, #1023
	add	x8, x9, #1
	str	x8, [x19, #1032]
	b.lo	.LBB11_473
// %bb.372:                             // %join.3.i.i.i802.2
	movi	v0.2d, #0000000000000000
	ldr	w1, [x19]
	mov	x0, sp
	add	x2, x19, #4
	mov	w3, #1024                       // =0x400
	str	xzr, [x19, #1032]
	stp	q0, q0, [sp]
	stp	q0, q0, [sp, #32]
	stp	q0, q0, [sp, #64]
	bl	"std_io::io::write_to"
	ldrb	w8, [sp]
	cbnz	w8, .LBB11_782
// %bb.373:                             // %after.1.i.i809.2
	ldr	x8, [x19, #1032]
	cmp	x8, #1023
	b.ls	.LBB11_473
// %bb.374:
	mov	w0, #1                          // =0x1
	ldp	x20, x19, [sp, #128]            // 16-byte Folded Reload
	ldp	x22, x21, [sp, #112]            // 16-byte Folded Reload
	ldp	x29, x30, [sp, #96]             // 16-byte Folded Reload
	add	sp, sp, #144
	ret
.LBB11_375:                             // %"std_io::io::buffer::Buffer::push.exit.i1433.1"
	mov	w8, #101                        // =0x65
	strb	w8, [x20, x9]
	cmp	x9, #1023
	add	x8, x9, #1
	str	x8, [x19, #1032]
	b.lo	.LBB11_477
// %bb.376:                             // %join.3.i.i.i1442.2
	movi	v0.2d, #0000000000000000
	ldr	w1, [x19]
	mov	x0, sp
	add	x2, x19, #4
	mov	w3, #1024                       // =0x400
	str	xzr, [x19, #1032]
	stp	q0, q0, [sp]
	stp	q0, q0, [sp, #32]
	stp	q0, q0, [sp, #64]
	bl	"std_io::io::write_to"
	ldrb	w8, [sp]
	cbnz	w8, .LBB11_675
// %bb.377:                             // %after.1.i.i1449.2
	ldr	x8, [x19, #1032]
	cmp	x8, #1023
	b.ls	.LBB11_477
// %bb.378:
	mov	w0, #1                          // =0x1
	ldp	x20, x19, [sp, #128]            // 16-byte Folded Reload
	ldp	x22, x21, [sp, #112]            // 16-byte Folded Reload
	ldp	x29, x30, [sp, #96]             // 16-byte Folded Reload
	add	sp, sp, #144
	ret
.LBB11_379:                             // %"std_io::io::buffer::Buffer::push.exit.i1177.1"
	mov	w8, #105                        // =0x69
	strb	w8, [x20, x9]
	cmp	x9, #1023
	add	x8, x9, #1
	str	x8, [x19, #1032]
	b.lo	.LBB11_481
// %bb.380:                             // %join.3.i.i.i1186.2
	movi	v0.2d, #0000000000000000
	ldr	w1, [x19]
	mov	x0, sp
	add	x2, x19, #4
	mov	w3, #1024                       // =0x400
	str	xzr, [x19, #1032]
	stp	q0, q0, [sp]
	stp	q0, q0, [sp, #32]
	stp	q0, q0, [sp, #64]
	bl	"std_io::io::write_to"
	ldrb	w8, [sp]
	cbnz	w8, .LBB11_711
// %bb.381:                             // %after.1.i.i1193.2
	ldr	x8, [x19, #1032]
	cmp	x8, #1023
	b.ls	.LBB11_481
// %bb.382:
	mov	w0, #1                          // =0x1
	ldp	x20, x19, [sp, #128]            // 16-byte Folded Reload
	ldp	x22, x21, [sp, #112]            // 16-byte Folded Reload
	ldp	x29, x30, [sp, #96]             // 16-byte Folded Reload
	add	sp, sp, #144
	ret
.LBB11_383:                             // %"std_io::io::buffer::Buffer::push.exit.i1721.1"
	mov	w8, #110                        // =0x6e
	strb	w8, [x20, x9]
	cmp	x9, #1023
	add	x8, x9, #1
	str	x8, [x19, #1032]
	b.lo	.LBB11_485
// %bb.384:                             // %join.3.i.i.i1730.2
	movi	v0.2d, #0000000000000000
	ldr	w1, [x19]
	mov	x0, sp
	add	x2, x19, #4
	mov	w3, #1024                       // =0x400
	str	xzr, [x19, #1032]
	stp	q0, q0, [sp]
	stp	q0, q0, [sp, #32]
	stp	q0, q0, [sp, #64]
	bl	"std_io::io::write_to"
	ldrb	w8, [sp]
	cbnz	w8, .LBB11_771
// %bb.385:                             // %after.1.i.i1737.2
	ldr	x8, [x19, #1032]
	cmp	x8, #1023
	b.ls	.LBB11_485
// %bb.386:
	mov	w0, #1                          // =0x1
	ldp	x20, x19, [sp, #128]            // 16-byte Folded Reload
	ldp	x22, x21, [sp, #112]            // 16-byte Folded Reload
	ldp	x29, x30, [sp, #96]             // 16-byte Folded Reload
	add	sp, sp, #144
	ret
.LBB11_387:                             // %"std_io::io::buffer::Buffer::push.exit.i1209.1"
	mov	w8, #114                        // =0x72
	strb	w8, [x20, x9]
	cmp	x9, #1023
	add	x8, x9, #1
	str	x8, [x19, #1032]
	b.lo	.LBB11_489
// %bb.388:                             // %join.3.i.i.i1218.2
	movi	v0.2d, #0000000000000000
	ldr	w1, [x19]
	mov	x0, sp
	add	x2, x19, #4
	mov	w3, #1024                       // =0x400
	str	xzr, [x19, #1032]
	stp	q0, q0, [sp]
	stp	q0, q0, [sp, #32]
	stp	q0, q0, [sp, #64]
	bl	"std_io::io::write_to"
	ldrb	w8, [sp]
	cbnz	w8, .LBB11_747
// %bb.389:                             // %after.1.i.i1225.2
	ldr	x8, [x19, #1032]
	cmp	x8, #1023
	b.ls	.LBB11_489
// %bb.390:
	mov	w0, #1                          // =0x1
	ldp	x20, x19, [sp, #128]            // 16-byte Folded Reload
	ldp	x22, x21, [sp, #112]            // 16-byte Folded Reload
	ldp	x29, x30, [sp, #96]             // 16-byte Folded Reload
	add	sp, sp, #144
	ret
.LBB11_391:                             // %arm.5.i.i.i1669
	mov	w8, #1                          // =0x1
	ldur	q0, [sp, #40]
	ldur	q1, [sp, #56]
	str	x8, [x19, #1040]
	add	x8, x19, #1048
	ldr	x9, [sp, #88]
	ldur	q2, [sp, #72]
	stp	q0, q1, [x8, #32]
	ldur	q0, [sp, #8]
	ldur	q1, [sp, #24]
	str	x9, [x19, #1128]
	str	q2, [x8, #64]
	stp	q0, q1, [x8]
.LBB11_392:                             // %"std_io::io::buffer::Buffer::flush.exit.thread.i.i1665"
	mov	w0, #1                          // =0x1
	ldp	x20, x19, [sp, #128]            // 16-byte Folded Reload
	ldp	x22, x21, [sp, #112]            // 16-byte Folded Reload
	ldp	x29, x30, [sp, #96]             // 16-byte Folded Reload
	add	sp, sp, #144
	ret
.LBB11_393:                             // %arm.5.i.i.i1605
	mov	w8, #1                          // =0x1
	ldur	q0, [sp, #40]
	ldur	q1, [sp, #56]
	str	x8, [x19, #1040]
	add	x8, x19, #1048
	ldr	x9, [sp, #88]
	ldur	q2, [sp, #72]
	stp	q0, q1, [x8, #32]
	ldur	q0, [sp, #8]
	ldur	q1, [sp, #24]
	str	x9, [x19, #1128]
	str	q2, [x8, #64]
	stp	q0, q1, [x8]
.LBB11_394:                             // %"std_io::io::buffer::Buffer::flush.exit.thread.i.i1601"
	mov	w0, #1                          // =0x1
	ldp	x20, x19, [sp, #128]            // 16-byte Folded Reload
	ldp	x22, x21, [sp, #112]            // 16-byte Folded Reload
	ldp	x29, x30, [sp, #96]             // 16-byte Folded Reload
	add	sp, sp, #144
	ret
.LBB11_395:                             // %arm.5.i.i.i1349
	mov	w8, #1                          // =0x1
	ldur	q0, [sp, #40]
	ldur	q1, [sp, #56]
	str	x8, [x19, #1040]
	add	x8, x19, #1048
	ldr	x9, [sp, #88]
	ldur	q2, [sp, #72]
	stp	q0, q1, [x8, #32]
	ldur	q0, [sp, #8]
	ldur	q1, [sp, #24]
	str	x9, [x19, #1128]
	str	q2, [x8, #64]
	stp	q0, q1, [x8]
.LBB11_396:                             // %"std_io::io::buffer::Buffer::flush.exit.thread.i.i1345"
	mov	w0, #1                          // =0x1
	ldp	x20, x19, [sp, #128]            // 16-byte Folded Reload
	ldp	x22, x21, [sp, #112]            // 16-byte Folded Reload
	ldp	x29, x30, [sp, #96]             // 16-byte Folded Reload
	add	sp, sp, #144
	ret
.LBB11_397:                             // %arm.5.i.i.i1573
	mov	w8, #1                          // =0x1
	ldur	q0, [sp, #40]
	ldur	q1, [sp, #56]
	str	x8, [x19, #1040]
	add	x8, x19, #1048
	ldr	x9, [sp, #88]
	ldur	q2, [sp, #72]
	stp	q0, q1, [x8, #32]
	ldur	q0, [sp, #8]
	ldur	q1, [sp, #24]
	str	x9, [x19, #1128]
	str	q2, [x8, #64]
	stp	q0, q1, [x8]
.LBB11_398:                             // %"std_io::io::buffer::Buffer::flush.exit.thread.i.i1569"
	mov	w0, #1                          // =0x1
	ldp	x20, x19, [sp, #128]            // 16-byte Folded Reload
	ldp	x22, x21, [sp, #112]            // 16-byte Folded Reload
	ldp	x29, x30, [sp, #96]             // 16-byte Folded Reload
	add	sp, sp, #144
	ret
.LBB11_399:                             // %arm.5.i.i.i997
	mov	w8, #1                          // =0x1
	ldur	q0, [sp, #40]
	ldur	q1, [sp, #56]
	str	x8, [x19, #1040]
	add	x8, x19, #1048
	ldr	x9, [sp, #88]
	ldur	q2, [sp, #72]
	stp	q0, q1, [x8, #32]
	ldur	q0, [sp, #8]
	ldur	q1, [sp, #24]
	str	x9, [x19, #1128]
	str	q2, [x8, #64]
	stp	q0, q1, [x8]
.LBB11_400:                             // %"std_io::io::buffer::Buffer::flush.exit.thread.i.i993"
	mov	w0, #1                          // =0x1
	ldp	x20, x19, [sp, #128]            // 16-byte Folded Reload
	ldp	x22, x21, [sp, #112]            // 16-byte Folded Reload
	ldp	x29, x30, [sp, #96]             // 16-byte Folded Reload
	add	sp, sp, #144
	ret
.LBB11_401:                             // %arm.5.i.i.i933
	mov	w8, #1                          // =0x1
	ldur	q0, [sp, #40]
	ldur	q1, [sp, #56]
	str	x8, [x19, #1040]
	add	x8, x19, #1048
	ldr	x9, [sp, #88]
	ldur	q2, [sp, #72]
	stp	q0, q1, [x8, #32]
	ldur	q0, [sp, #8]
	ldur	q1, [sp, #24]
	str	x9, [x19, #1128]
	str	q2, [x8, #64]
	stp	q0, q1, [x8]
.LBB11_402:                             // %"std_io::io::buffer::Buffer::flush.exit.thread.i.i929"
	mov	w0, #1                          // =0x1
	ldp	x20, x19, [sp, #128]            // 16-byte Folded Reload
	ldp	x22, x21, [sp, #112]            // 16-byte Folded Reload
	ldp	x29, x30, [sp, #96]             // 16-byte Folded Reload
	add	sp, sp, #144
	ret
.LBB11_403:                             // %arm.5.i.i.i1541
	mov	w8, #1                          // =0x1
	ldur	q0, [sp, #40]
	ldur	q1, [sp, #56]
	str	x8, [x19, #1040]
	add	x8, x19, #1048
	ldr	x9, [sp, #88]
	ldur	q2, [sp, #72]
	stp	q0, q1, [x8, #32]
	ldur	q0, [sp, #8]
	ldur	q1, [sp, #24]
	str	x9, [x19, #1128]
	str	q2, [x8, #64]
	stp	q0, q1, [x8]
.LBB11_404:                             // %"std_io::io::buffer::Buffer::flush.exit.thread.i.i1537"
	mov	w0, #1                          // =0x1
	ldp	x20, x19, [sp, #128]            // 16-byte Folded Reload
	ldp	x22, x21, [sp, #112]            // 16-byte Folded Reload
	ldp	x29, x30, [sp, #96]             // 16-byte Folded Reload
	add	sp, sp, #144
	ret
.LBB11_405:                             // %arm.5.i.i.i613
	mov	w8, #1                          // =0x1
	ldur	q0, [sp, #40]
	ldur	q1, [sp, #56]
	str	x8, [x19, #1040]
	add	x8, x19, #1048
	ldr	x9, [sp, #88]
	ldur	q2, [sp, #72]
	stp	q0, q1, [x8, #32]
	ldur	q0, [sp, #8]
	ldur	q1, [sp, #24]
	str	x9, [x19, #1128]
	str	q2, [x8, #64]
	stp	q0, q1, [x8]
.LBB11_406:                             // %"std_io::io::buffer::Buffer::flush.exit.thread.i.i609"
	mov	w0, #1                          // =0x1
	ldp	x20, x19, [sp, #128]            // 16-byte Folded Reload
	ldp	x22, x21, [sp, #112]            // 16-byte Folded Reload
	ldp	x29, x30, [sp, #96]             // 16-byte Folded Reload
	add	sp, sp, #144
	ret
.LBB11_407:                             // %arm.5.i.i.i869
	mov	w8, #1                          // =0x1
	ldur	q0, [sp, #40]
	ldur	q1, [sp, #56]
	str	x8, [x19, #1040]
	add	x8, x19, #1048
	ldr	x9, [sp, #88]
	ldur	q2, [sp, #72]
	stp	q0, q1, [x8, #32]
	ldur	q0, [sp, #8]
	ldur	q1, [sp, #24]
	str	x9, [x19, #1128]
	str	q2, [x8, #64]
	stp	q0, q1, [x8]
.LBB11_408:                             // %"std_io::io::buffer::Buffer::flush.exit.thread.i.i865"
	mov	w0, #1                          // =0x1
	ldp	x20, x19, [sp, #128]            // 16-byte Folded Reload
	ldp	x22, x21, [sp, #112]            // 16-byte Folded Reload
	ldp	x29, x30, [sp, #96]             // 16-byte Folded Reload
	add	sp, sp, #144
	ret
.LBB11_409:                             // %arm.5.i.i.i773
	mov	w8, #1                          // =0x1
	ldur	q0, [sp, #40]
	ldur	q1, [sp, #56]
	str	x8, [x19, #1040]
	add	x8, x19, #1048
	ldr	x9, [sp, #88]
	ldur	q2, [sp, #72]
	stp	q0, q1, [x8, #32]
	ldur	q0, [sp, #8]
	ldur	q1, [sp, #24]
	str	x9, [x19, #1128]
	str	q2, [x8, #64]
	stp	q0, q1, [x8]
.LBB11_410:                             // %"std_io::io::buffer::Buffer::flush.exit.thread.i.i769"
	mov	w0, #1                          // =0x1
	ldp	x20, x19, [sp, #128]            // 16-byte Folded Reload
	ldp	x22, x21, [sp, #112]            // 16-byte Folded Reload
	ldp	x29, x30, [sp, #96]             // 16-byte Folded Reload
	add	sp, sp, #144
	ret
.LBB11_411:                             // %arm.5.i.i.i1285
	mov	w8, #1                          // =0x1
	ldur	q0, [sp, #40]
	ldur	q1, [sp, #56]
	str	x8, [x19, #1040]
	add	x8, x19, #1048
	ldr	x9, [sp, #88]
	ldur	q2, [sp, #72]
	stp	q0, q1, [x8, #32]
	ldur	q0, [sp, #8]
	ldur	q1, [sp, #24]
	str	x9, [x19, #1128]
	str	q2, [x8, #64]
	stp	q0, q1, [x8]
.LBB11_412:                             // %"std_io::io::buffer::Buffer::flush.exit.thread.i.i1281"
	mov	w0, #1                          // =0x1
	ldp	x20, x19, [sp, #128]            // 16-byte Folded Reload
	ldp	x22, x21, [sp, #112]            // 16-byte Folded Reload
	ldp	x29, x30, [sp, #96]             // 16-byte Folded Reload
	add	sp, sp, #144
	ret
.LBB11_413:                             // %arm.5.i.i.i1253
	mov	w8, #1                          // =0x1
	ldur	q0, [sp, #40]
	ldur	q1, [sp, #56]
	str	x8, [x19, #1040]
	add	x8, x19, #1048
	ldr	x9, [sp, #88]
	ldur	q2, [sp, #72]
	stp	q0, q1, [x8, #32]
	ldur	q0, [sp, #8]
	ldur	q1, [sp, #24]
	str	x9, [x19, #1128]
	str	q2, [x8, #64]
	stp	q0, q1, [x8]
.LBB11_414:                             // %"std_io::io::buffer::Buffer::flush.exit.thread.i.i1249"
	mov	w0, #1                          // =0x1
	ldp	x20, x19, [sp, #128]            // 16-byte Folded Reload
	ldp	x22, x21, [sp, #112]            // 16-byte Folded Reload
	ldp	x29, x30, [sp, #96]             // 16-byte Folded Reload
	add	sp, sp, #144
	ret
.LBB11_415:                             // %arm.5.i.i.i549
	mov	w8, #1                          // =0x1
	ldur	q0, [sp, #40]
	ldur	q1, [sp, #56]
	str	x8, [x19, #1040]
	add	x8, x19, #1048
	ldr	x9, [sp, #88]
	ldur	q2, [sp, #72]
	stp	q0, q1, [x8, #32]
	ldur	q0, [sp, #8]
	ldur	q1, [sp, #24]
	str	x9, [x19, #1128]
	str	q2, [x8, #64]
	stp	q0, q1, [x8]
.LBB11_416:                             // %"std_io::io::buffer::Buffer::flush.exit.thread.i.i545"
	mov	w0, #1                          // =0x1
	ldp	x20, x19, [sp, #128]            // 16-byte Folded Reload
	ldp	x22, x21, [sp, #112]            // 16-byte Folded Reload
	ldp	x29, x30, [sp, #96]             // 16-byte Folded Reload
	add	sp, sp, #144
	ret
.LBB11_417:                             // %arm.5.i.i.i965
	mov	w8, #1                          // =0x1
	ldur	q0, [sp, #40]
	ldur	q1, [sp, #56]
	str	x8, [x19, #1040]
	add	x8, x19, #1048
	ldr	x9, [sp, #88]
	ldur	q2, [sp, #72]
	stp	q0, q1, [x8, #32]
	ldur	q0, [sp, #8]
	ldur	q1, [sp, #24]
	str	x9, [x19, #1128]
	str	q2, [x8, #64]
	stp	q0, q1, [x8]
.LBB11_418:                             // %"std_io::io::buffer::Buffer::flush.exit.thread.i.i961"
	mov	w0, #1                          // =0x1
	ldp	x20, x19, [sp, #128]            // 16-byte Folded Reload
	ldp	x22, x21, [sp, #112]            // 16-byte Folded Reload
	ldp	x29, x30, [sp, #96]             // 16-byte Folded Reload
	add	sp, sp, #144
	ret
.LBB11_419:                             // %arm.5.i.i.i581
	mov	w8, #1                          // =0x1
	ldur	q0, [sp, #40]
	ldur	q1, [sp, #56]
	str	x8, [x19, #1040]
	add	x8, x19, #1048
	ldr	x9, [sp, #88]
	ldur	q2, [sp, #72]
	stp	q0, q1, [x8, #32]
	ldur	q0, [sp, #8]
	ldur	q1, [sp, #24]
	str	x9, [x19, #1128]
	str	q2, [x8, #64]
	stp	q0, q1, [x8]
.LBB11_420:                             // %"std_io::io::buffer::Buffer::flush.exit.thread.i.i577"
	mov	w0, #1                          // =0x1
	ldp	x20, x19, [sp, #128]            // 16-byte Folded Reload
	ldp	x22, x21, [sp, #112]            // 16-byte Folded Reload
	ldp	x29, x30, [sp, #96]             // 16-byte Folded Reload
	add	sp, sp, #144
	ret
.LBB11_421:                             // %arm.5.i.i.i709
	mov	w8, #1                          // =0x1
	ldur	q0, [sp, #40]
	ldur	q1, [sp, #56]
	str	x8, [x19, #1040]
	add	x8, x19, #1048
	ldr	x9, [sp, #88]
	ldur	q2, [sp, #72]
	stp	q0, q1, [x8, #32]
	ldur	q0, [sp, #8]
	ldur	q1, [sp, #24]
	str	x9, [x19, #1128]
	str	q2, [x8, #64]
	stp	q0, q1, [x8]
.LBB11_422:                             // %"std_io::io::buffer::Buffer::flush.exit.thread.i.i705"
	mov	w0, #1                          // =0x1
	ldp	x20, x19, [sp, #128]            // 16-byte Folded Reload
	ldp	x22, x21, [sp, #112]            // 16-byte Folded Reload
	ldp	x29, x30, [sp, #96]             // 16-byte Folded Reload
	add	sp, sp, #144
	ret
.LBB11_423:                             // %arm.5.i.i.i
	mov	w8, #1                          // =0x1
	ldur	q0, [sp, #40]
	ldur	q1, [sp, #56]
	str	x8, [x19, #1040]
	add	x8, x19, #1048
	ldr	x9, [sp, #88]
	ldur	q2, [sp, #72]
	stp	q0, q1, [x8, #32]
	ldur	q0, [sp, #8]
	ldur	q1, [sp, #24]
	str	x9, [x19, #1128]
	str	q2, [x8, #64]
	stp	q0, q1, [x8]
.LBB11_424:                             // %"std_io::io::buffer::Buffer::flush.exit.thread.i.i"
	mov	w0, #1                          // =0x1
	ldp	x20, x19, [sp, #128]            // 16-byte Folded Reload
	ldp	x22, x21, [sp, #112]            // 16-byte Folded Reload
	ldp	x29, x30, [sp, #96]             // 16-byte Folded Reload
	add	sp, sp, #144
	ret
.LBB11_425:                             // %arm.5.i.i.i517
	mov	w8, #1                          // =0x1
	ldur	q0, [sp, #40]
	ldur	q1, [sp, #56]
	str	x8, [x19, #1040]
	add	x8, x19, #1048
	ldr	x9, [sp, #88]
	ldur	q2, [sp, #72]
	stp	q0, q1, [x8, #32]
	ldur	q0, [sp, #8]
	ldur	q1, [sp, #24]
	str	x9, [x19, #1128]
	str	q2, [x8, #64]
	stp	q0, q1, [x8]
.LBB11_426:                             // %"std_io::io::buffer::Buffer::flush.exit.thread.i.i513"
	mov	w0, #1                          // =0x1
	ldp	x20, x19, [sp, #128]            // 16-byte Folded Reload
	ldp	x22, x21, [sp, #112]            // 16-byte Folded Reload
	ldp	x29, x30, [sp, #96]             // 16-byte Folded Reload
	add	sp, sp, #144
	ret
.LBB11_427:                             // %arm.5.i.i.i1477
	mov	w8, #1                          // =0x1
	ldur	q0, [sp, #40]
	ldur	q1, [sp, #56]
	str	x8, [x19, #1040]
	add	x8, x19, #1048
	ldr	x9, [sp, #88]
	ldur	q2, [sp, #72]
	stp	q0, q1, [x8, #32]
	ldur	q0, [sp, #8]
	ldur	q1, [sp, #24]
	str	x9, [x19, #1128]
	str	q2, [x8, #64]
	stp	q0, q1, [x8]
.LBB11_428:                             // %"std_io::io::buffer::Buffer::flush.exit.thread.i.i1473"
	mov	w0, #1                          // =0x1
	ldp	x20, x19, [sp, #128]            // 16-byte Folded Reload
	ldp	x22, x21, [sp, #112]            // 16-byte Folded Reload
	ldp	x29, x30, [sp, #96]             // 16-byte Folded Reload
	add	sp, sp, #144
	ret
.LBB11_429:                             // %arm.5.i.i.i1029
	mov	w8, #1                          // =0x1
	ldur	q0, [sp, #40]
	ldur	q1, [sp, #56]
	str	x8, [x19, #1040]
	add	x8, x19, #1048
	ldr	x9, [sp, #88]
	ldur	q2, [sp, #72]
	stp	q0, q1, [x8, #32]
	ldur	q0, [sp, #8]
	ldur	q1, [sp, #24]
	str	x9, [x19, #1128]
	str	q2, [x8, #64]
	stp	q0, q1, [x8]
.LBB11_430:                             // %"std_io::io::buffer::Buffer::flush.exit.thread.i.i1025"
	mov	w0, #1                          // =0x1
	ldp	x20, x19, [sp, #128]            // 16-byte Folded Reload
	ldp	x22, x21, [sp, #112]            // 16-byte Folded Reload
	ldp	x29, x30, [sp, #96]             // 16-byte Folded Reload
	add	sp, sp, #144
	ret
.LBB11_431:                             // %arm.5.i.i.i1797
	mov	w8, #1                          // =0x1
	ldur	q0, [sp, #40]
	ldur	q1, [sp, #56]
	str	x8, [x19, #1040]
	add	x8, x19, #1048
	ldr	x9, [sp, #88]
	ldur	q2, [sp, #72]
	stp	q0, q1, [x8, #32]
	ldur	q0, [sp, #8]
	ldur	q1, [sp, #24]
	str	x9, [x19, #1128]
	str	q2, [x8, #64]
	stp	q0, q1, [x8]
.LBB11_432:                             // %"std_io::io::buffer::Buffer::flush.exit.thread.i.i1793"
	mov	w0, #1                          // =0x1
	ldp	x20, x19, [sp, #128]            // 16-byte Folded Reload
	ldp	x22, x21, [sp, #112]            // 16-byte Folded Reload
	ldp	x29, x30, [sp, #96]             // 16-byte Folded Reload
	add	sp, sp, #144
	ret
.LBB11_433:                             // %arm.5.i.i.i1125
	mov	w8, #1                          // =0x1
	ldur	q0, [sp, #40]
	ldur	q1, [sp, #56]
	str	x8, [x19, #1040]
	add	x8, x19, #1048
	ldr	x9, [sp, #88]
	ldur	q2, [sp, #72]
	stp	q0, q1, [x8, #32]
	ldur	q0, [sp, #8]
	ldur	q1, [sp, #24]
	str	x9, [x19, #1128]
	str	q2, [x8, #64]
	stp	q0, q1, [x8]
.LBB11_434:                             // %"std_io::io::buffer::Buffer::flush.exit.thread.i.i1121"
	mov	w0, #1                          // =0x1
	ldp	x20, x19, [sp, #128]            // 16-byte Folded Reload
	ldp	x22, x21, [sp, #112]            // 16-byte Folded Reload
	ldp	x29, x30, [sp, #96]             // 16-byte Folded Reload
	add	sp, sp, #144
	ret
.LBB11_435:                             // %arm.5.i.i.i645
	mov	w8, #1                          // =0x1
	ldur	q0, [sp, #40]
	ldur	q1, [sp, #56]
	str	x8, [x19, #1040]
	add	x8, x19, #1048
	ldr	x9, [sp, #88]
	ldur	q2, [sp, #72]
	stp	q0, q1, [x8, #32]
	ldur	q0, [sp, #8]
	ldur	q1, [sp, #24]
	str	x9, [x19, #1128]
	str	q2, [x8, #64]
	stp	q0, q1, [x8]
.LBB11_436:                             // %"std_io::io::buffer::Buffer::flush.exit.thread.i.i641"
	mov	w0, #1                          // =0x1
	ldp	x20, x19, [sp, #128]            // 16-byte Folded Reload
	ldp	x22, x21, [sp, #112]            // 16-byte Folded Reload
	ldp	x29, x30, [sp, #96]             // 16-byte Folded Reload
	add	sp, sp, #144
	ret
.LBB11_437:                             // %arm.5.i.i.i901
	mov	w8, #1                          // =0x1
	ldur	q0, [sp, #40]
	ldur	q1, [sp, #56]
	str	x8, [x19, #1040]
	add	x8, x19, #1048
	ldr	x9, [sp, #88]
	ldur	q2, [sp, #72]
	stp	q0, q1, [x8, #32]
	ldur	q0, [sp, #8]
	ldur	q1, [sp, #24]
	str	x9, [x19, #1128]
	str	q2, [x8, #64]
	stp	q0, q1, [x8]
.LBB11_438:                             // %"std_io::io::buffer::Buffer::flush.exit.thread.i.i897"
	mov	w0, #1                          // =0x1
	ldp	x20, x19, [sp, #128]            // 16-byte Folded Reload
	ldp	x22, x21, [sp, #112]            // 16-byte Folded Reload
	ldp	x29, x30, [sp, #96]             // 16-byte Folded Reload
	add	sp, sp, #144
	ret
.LBB11_439:                             // %arm.5.i.i.i677
	mov	w8, #1                          // =0x1
	ldur	q0, [sp, #40]
	ldur	q1, [sp, #56]
	str	x8, [x19, #1040]
	add	x8, x19, #1048
	ldr	x9, [sp, #88]
	ldur	q2, [sp, #72]
	stp	q0, q1, [x8, #32]
	ldur	q0, [sp, #8]
	ldur	q1, [sp, #24]
	str	x9, [x19, #1128]
	str	q2, [x8, #64]
	stp	q0, q1, [x8]
.LBB11_440:                             // %"std_io::io::buffer::Buffer::flush.exit.thread.i.i673"
	mov	w0, #1                          // =0x1
	ldp	x20, x19, [sp, #128]            // 16-byte Folded Reload
	ldp	x22, x21, [sp, #112]            // 16-byte Folded Reload
	ldp	x29, x30, [sp, #96]             // 16-byte Folded Reload
	add	sp, sp, #144
	ret
.LBB11_441:                             // %arm.5.i.i.i1061
	mov	w8, #1                          // =0x1
	ldur	q0, [sp, #40]
	ldur	q1, [sp, #56]
	str	x8, [x19, #1040]
	add	x8, x19, #1048
	ldr	x9, [sp, #88]
	ldur	q2, [sp, #72]
	stp	q0, q1, [x8, #32]
	ldur	q0, [sp, #8]
	ldur	q1, [sp, #24]
	str	x9, [x19, #1128]
	str	q2, [x8, #64]
	stp	q0, q1, [x8]
.LBB11_442:                             // %"std_io::io::buffer::Buffer::flush.exit.thread.i.i1057"
	mov	w0, #1                          // =0x1
	ldp	x20, x19, [sp, #128]            // 16-byte Folded Reload
	ldp	x22, x21, [sp, #112]            // 16-byte Folded Reload
	ldp	x29, x30, [sp, #96]             // 16-byte Folded Reload
	add	sp, sp, #144
	ret
.LBB11_443:                             // %arm.5.i.i.i741
	mov	w8, #1                          // =0x1
	ldur	q0, [sp, #40]
	ldur	q1, [sp, #56]
	str	x8, [x19, #1040]
	add	x8, x19, #1048
	ldr	x9, [sp, #88]
	ldur	q2, [sp, #72]
	stp	q0, q1, [x8, #32]
	ldur	q0, [sp, #8]
	ldur	q1, [sp, #24]
	str	x9, [x19, #1128]
	str	q2, [x8, #64]
	stp	q0, q1, [x8]
.LBB11_444:                             // %"std_io::io::buffer::Buffer::flush.exit.thread.i.i737"
	mov	w0, #1                          // =0x1
	ldp	x20, x19, [sp, #128]            // 16-byte Folded Reload
	ldp	x22, x21, [sp, #112]            // 16-byte Folded Reload
	ldp	x29, x30, [sp, #96]             // 16-byte Folded Reload
	add	sp, sp, #144
	ret
.LBB11_445:                             // %arm.5.i.i.i1509
	mov	w8, #1                          // =0x1
	ldur	q0, [sp, #40]
	ldur	q1, [sp, #56]
	str	x8, [x19, #1040]
	add	x8, x19, #1048
	ldr	x9, [sp, #88]
	ldur	q2, [sp, #72]
	stp	q0, q1, [x8, #32]
	ldur	q0, [sp, #8]
	ldur	q1, [sp, #24]
	str	x9, [x19, #1128]
	str	q2, [x8, #64]
	stp	q0, q1, [x8]
.LBB11_446:                             // %"std_io::io::buffer::Buffer::flush.exit.thread.i.i1505"
	mov	w0, #1                          // =0x1
	ldp	x20, x19, [sp, #128]            // 16-byte Folded Reload
	ldp	x22, x21, [sp, #112]            // 16-byte Folded Reload
	ldp	x29, x30, [sp, #96]             // 16-byte Folded Reload
	add	sp, sp, #144
	ret
.LBB11_447:                             // %arm.5.i.i.i1093
	mov	w8, #1                          // =0x1
	ldur	q0, [sp, #40]
	ldur	q1, [sp, #56]
	str	x8, [x19, #1040]
	add	x8, x19, #1048
	ldr	x9, [sp, #88]
	ldur	q2, [sp, #72]
	stp	q0, q1, [x8, #32]
	ldur	q0, [sp, #8]
	ldur	q1, [sp, #24]
	str	x9, [x19, #1128]
	str	q2, [x8, #64]
	stp	q0, q1, [x8]
.LBB11_448:                             // %"std_io::io::buffer::Buffer::flush.exit.thread.i.i1089"
	mov	w0, #1                          // =0x1
	ldp	x20, x19, [sp, #128]            // 16-byte Folded Reload
	ldp	x22, x21, [sp, #112]            // 16-byte Folded Reload
	ldp	x29, x30, [sp, #96]             // 16-byte Folded Reload
	add	sp, sp, #144
	ret
.LBB11_449:                             // %arm.5.i.i.i1381
	mov	w8, #1                          // =0x1
	ldur	q0, [sp, #40]
	ldur	q1, [sp, #56]
	str	x8, [x19, #1040]
	add	x8, x19, #1048
	ldr	x9, [sp, #88]
	ldur	q2, [sp, #72]
	stp	q0, q1, [x8, #32]
	ldur	q0, [sp, #8]
	ldur	q1, [sp, #24]
	str	x9, [x19, #1128]
	str	q2, [x8, #64]
	stp	q0, q1, [x8]
.LBB11_450:                             // %"std_io::io::buffer::Buffer::flush.exit.thread.i.i1377"
	mov	w0, #1                          // =0x1
	ldp	x20, x19, [sp, #128]            // 16-byte Folded Reload
	ldp	x22, x21, [sp, #112]            // 16-byte Folded Reload
	ldp	x29, x30, [sp, #96]             // 16-byte Folded Reload
	add	sp, sp, #144
	ret
.LBB11_451:                             // %arm.5.i.i.i1413
	mov	w8, #1                          // =0x1
	ldur	q0, [sp, #40]
	ldur	q1, [sp, #56]
	str	x8, [x19, #1040]
	add	x8, x19, #1048
	ldr	x9, [sp, #88]
	ldur	q2, [sp, #72]
	stp	q0, q1, [x8, #32]
	ldur	q0, [sp, #8]
	ldur	q1, [sp, #24]
	str	x9, [x19, #1128]
	str	q2, [x8, #64]
	stp	q0, q1, [x8]
.LBB11_452:                             // %"std_io::io::buffer::Buffer::flush.exit.thread.i.i1409"
	mov	w0, #1                          // =0x1
	ldp	x20, x19, [sp, #128]            // 16-byte Folded Reload
	ldp	x22, x21, [sp, #112]            // 16-byte Folded Reload
	ldp	x29, x30, [sp, #96]             // 16-byte Folded Reload
	add	sp, sp, #144
	ret
.LBB11_453:                             // %arm.5.i.i.i1701
	mov	w8, #1                          // =0x1
	ldur	q0, [sp, #40]
	ldur	q1, [sp, #56]
	str	x8, [x19, #1040]
	add	x8, x19, #1048
	ldr	x9, [sp, #88]
	ldur	q2, [sp, #72]
	stp	q0, q1, [x8, #32]
	ldur	q0, [sp, #8]
	ldur	q1, [sp, #24]
	str	x9, [x19, #1128]
	str	q2, [x8, #64]
	stp	q0, q1, [x8]
.LBB11_454:                             // %"std_io::io::buffer::Buffer::flush.exit.thread.i.i1697"
	mov	w0, #1                          // =0x1
	ldp	x20, x19, [sp, #128]            // 16-byte Folded Reload
	ldp	x22, x21, [sp, #112]            // 16-byte Folded Reload
	ldp	x29, x30, [sp, #96]             // 16-byte Folded Reload
	add	sp, sp, #144
	ret
.LBB11_455:                             // %arm.5.i.i.i1317
	mov	w8, #1                          // =0x1
	ldur	q0, [sp, #40]
	ldur	q1, [sp, #56]
	str	x8, [x19, #1040]
	add	x8, x19, #1048
	ldr	x9, [sp, #88]
	ldur	q2, [sp, #72]
	stp	q0, q1, [x8, #32]
	ldur	q0, [sp, #8]
	ldur	q1, [sp, #24]
	str	x9, [x19, #1128]
	str	q2, [x8, #64]
	stp	q0, q1, [x8]
.LBB11_456:                             // %"std_io::io::buffer::Buffer::flush.exit.thread.i.i1313"
	mov	w0, #1                          // =0x1
	ldp	x20, x19, [sp, #128]            // 16-byte Folded Reload
	ldp	x22, x21, [sp, #112]            // 16-byte Folded Reload
	ldp	x29, x30, [sp, #96]             // 16-byte Folded Reload
	add	sp, sp, #144
	ret
.LBB11_457:                             // %"std_io::io::buffer::Buffer::push.exit.i1625.2"
	mov	w9, #115                        // =0x73
	strb	w9, [x20, x8]
	cmp	x8, #1023
	add	x9, x8, #1
	str	x9, [x19, #1032]
	b.lo	.LBB11_493
// %bb.458:                             // %join.3.i.i.i1634.3
	movi	v0.2d, #0000000000000000
	ldr	w1, [x19]
	mov	x0, sp
	add	x2, x19, #4
	mov	w3, #1024                       // =0x400
	str	xzr, [x19, #1032]
	stp	q0, q0, [sp]
	stp	q0, q0, [sp, #32]
	stp	q0, q0, [sp, #64]
	bl	"std_io::io::write_to"
	ldrb	w8, [sp]
	cbnz	w8, .LBB11_751
// %bb.459:                             // %after.1.i.i1641.3
	ldr	x9, [x19, #1032]
	cmp	x9, #1023
	b.ls	.LBB11_493
// %bb.460:
	mov	w0, #1                          // =0x1
	ldp	x20, x19, [sp, #128]            // 16-byte Folded Reload
	ldp	x22, x21, [sp, #112]            // 16-byte Folded Reload
	ldp	x29, x30, [sp, #96]             // 16-byte Folded Reload
	add	sp, sp, #144
	ret
.LBB11_461:                             // %"std_io::io::buffer::Buffer::push.exit.i825.2"
	mov	w9, #111                        // =0x6f
	strb	w9, [x20, x8]
	cmp	x8, #1023
	add	x9, x8, #1
	str	x9, [x19, #1032]
	b.lo	.LBB11_497
// %bb.462:                             // %join.3.i.i.i834.3
	movi	v0.2d, #0000000000000000
	ldr	w1, [x19]
	mov	x0, sp
	add	x2, x19, #4
	mov	w3, #1024                       // =0x400
	str	xzr, [x19, #1032]
	stp	q0, q0, [sp]
	stp	q0, q0, [sp, #32]
	stp	q0, q0, [sp, #64]
	bl	"std_io::io::write_to"
	ldrb	w8, [sp]
	cbnz	w8, .LBB11_755
// %bb.463:                             // %after.1.i.i841.3
	ldr	x9, [x19, #1032]
	cmp	x9, #1023
	b.ls	.LBB11_497
// %bb.464:
	mov	w0, #1                          // =0x1
	ldp	x20, x19, [sp, #128]            // 16-byte Folded Reload
	ldp	x22, x21, [sp, #112]            // 16-byte Folded Reload
	ldp	x29, x30, [sp, #96]             // 16-byte Folded Reload
	add	sp, sp, #144
	ret
.LBB11_465:                             // %"std_io::io::buffer::Buffer::push.exit.i1753.2"
	mov	w9, #104                        // =0x68
	strb	w9, [x20, x8]
	cmp	x8, #1023
	add	x9, x8, #1
	str	x9, [x19, #1032]
	b.lo	.LBB11_501
// %bb.466:                             // %join.3.i.i.i1762.3
	movi	v0.2d, #0000000000000000
	ldr	w1, [x19]
	mov	x0, sp
	add	x2, x19, #4
	mov	w3, #1024                       // =0x400
	str	xzr, [x19, #1032]
	stp	q0, q0, [sp]
	stp	q0, q0, [sp, #32]
	stp	q0, q0, [sp, #64]
	bl	"std_io::io::write_to"
	ldrb	w8, [sp]
	cbnz	w8, .LBB11_759
// %bb.467:                             // %after.1.i.i1769.3
	ldr	x9, [x19, #1032]
	cmp	x9, #1023
	b.ls	.LBB11_501
// %bb.468:
	mov	w0, #1                          // =0x1
	ldp	x20, x19, [sp, #128]            // 16-byte Folded Reload
	ldp	x22, x21, [sp, #112]            // 16-byte Folded Reload
	ldp	x29, x30, [sp, #96]             // 16-byte Folded Reload
	add	sp, sp, #144
	ret
.LBB11_469:                             // %"std_io::io::buffer::Buffer::push.exit.i1145.2"
	mov	w9, #118                        // =0x76
	strb	w9, [x20, x8]
	cmp	x8, #1023
	add	x9, x8, #1
	str	x9, [x19, #1032]
	b.lo	.LBB11_505
// %bb.470:                             // %join.3.i.i.i1154.3
	movi	v0.2d, #0000000000000000
	ldr	w1, [x19]
	mov	x0, sp
	add	x2, x19, #4
	mov	w3, #1024                       // =0x400
	str	xzr, [x19, #1032]
	stp	q0, q0, [sp]
	stp	q0, q0, [sp, #32]
	stp	q0, q0, [sp, #64]
	bl	"std_io::io::write_to"
	ldrb	w8, [sp]
	cbnz	w8, .LBB11_778
// %bb.471:                             // %after.1.i.i1161.3
	ldr	x9, [x19, #1032]
	cmp	x9, #1023
	b.ls	.LBB11_505
// %bb.472:
	mov	w0, #1                          // =0x1
	ldp	x20, x19, [sp, #128]            // 16-byte Folded Reload
	ldp	x22, x21, [sp, #112]            // 16-byte Folded Reload
	ldp	x29, x30, [sp, #96]             // 16-byte Folded Reload
	add	sp, sp, #144
	ret
.LBB11_473:                             // %"std_io::io::buffer::Buffer::push.exit.i793.2"
	mov	w9, #116                        // =0x74
	strb	w9, [x20, x8]
	cmp	x8, #1023
	add	x9, x8, #1
	str	x9, [x19, #1032]
	b.lo	.LBB11_509
// %bb.474:                             // %join.3.i.i.i802.3
	movi	v0.2d, #0000000000000000
	ldr	w1, [x19]
	mov	x0, sp
	add	x2, x19, #4
	mov	w3, #1024                       // =0x400
	str	xzr, [x19, #1032]
	stp	q0, q0, [sp]
	stp	q0, q0, [sp, #32]
	stp	q0, q0, [sp, #64]
	bl	"std_io::io::write_to"
	ldrb	w8, [sp]
	cbnz	w8, .LBB11_782
// %bb.475:                             // %after.1.i.i809.3
	ldr	x9, [x19, #1032]
	cmp	x9, #1023
	b.ls	.LBB11_509
// %bb.476:
	mov	w0, #1                          // =0x1
	ldp	x20, x19, [sp, #128]            // 16-byte Folded Reload
	ldp	x22, x21, [sp, #112]            // 16-byte Folded Reload
	ldp	x29, x30, [sp, #96]             // 16-byte Folded Reload
	add	sp, sp, #144
	ret
.LBB11_477:                             // %"std_io::io::buffer::Buffer::push.exit.i1433.2"
	mov	w9, #97                         // =0x61
	strb	w9, [x20, x8]
	cmp	x8, #1023
	add	x9, x8, #1
	str	x9, [x19, #1032]
	b.lo	.LBB11_513
// %bb.478:                             // %join.3.i.i.i1442.3
	movi	v0.2d, #0000000000000000
	ldr	w1, [x19]
	mov	x0, sp
	add	x2, x19, #4
	mov	w3, #1024                       // =0x400
	str	xzr, [x19, #1032]
	stp	q0, q0, [sp]
	stp	q0, q0, [sp, #32]
	stp	q0, q0, [sp, #64]
	bl	"std_io::io::write_to"
	ldrb	w8, [sp]
	cbnz	w8, .LBB11_675
// %bb.479:                             // %after.1.i.i1449.3
	ldr	x9, [x19, #1032]
	cmp	x9, #1023
	b.ls	.LBB11_513
// %bb.480:
	mov	w0, #1                          // =0x1
	ldp	x20, x19, [sp, #128]            // 16-byte Folded Reload
	ldp	x22, x21, [sp, #112]            // 16-byte Folded Reload
	ldp	x29, x30, [sp, #96]             // 16-byte Folded Reload
	add	sp, sp, #144
	ret
.LBB11_481:                             // %"std_io::io::buffer::Buffer::push.exit.i1177.2"
	mov	w9, #109                        // =0x6d
	strb	w9, [x20, x8]
	cmp	x8, #1023
	add	x9, x8, #1
	str	x9, [x19, #1032]
	b.lo	.LBB11_517
// %bb.482:                             // %join.3.i.i.i1186.3
	movi	v0.2d, #0000000000000000
	ldr	w1, [x19]
	mov	x0, sp
	add	x2, x19, #4
	mov	w3, #1024                       // =0x400
	str	xzr, [x19, #1032]
	stp	q0, q0, [sp]
	stp	q0, q0, [sp, #32]
	stp	q0, q0, [sp, #64]
	bl	"std_io::io::write_to"
	ldrb	w8, [sp]
	cbnz	w8, .LBB11_711
// %bb.483:                             // %after.1.i.i1193.3
	ldr	x9, [x19, #1032]
	cmp	x9, #1023
	b.ls	.LBB11_517
// %bb.484:
	mov	w0, #1                          // =0x1
	ldp	x20, x19, [sp, #128]            // 16-byte Folded Reload
	ldp	x22, x21, [sp, #112]            // 16-byte Folded Reload
	ldp	x29, x30, [sp, #96]             // 16-byte Folded Reload
	add	sp, sp, #144
	ret
.LBB11_485:                             // %"std_io::io::buffer::Buffer::push.exit.i1721.2"
	mov	w9, #32                         // =0x20
	strb	w9, [x20, x8]
	cmp	x8, #1023
	add	x9, x8, #1
	str	x9, [x19, #1032]
	b.lo	.LBB11_521
// %bb.486:                             // %join.3.i.i.i1730.3
	movi	v0.2d, #0000000000000000
	ldr	w1, [x19]
	mov	x0, sp
	add	x2, x19, #4
	mov	w3, #1024                       // =0x400
	str	xzr, [x19, #1032]
	stp	q0, q0, [sp]
	stp	q0, q0, [sp, #32]
	stp	q0, q0, [sp, #64]
	bl	"std_io::io::write_to"
	ldrb	w8, [sp]
	cbnz	w8, .LBB11_771
// %bb.487:                             // %after.1.i.i1737.3
	ldr	x9, [x19, #1032]
	cmp	x9, #1023
	b.ls	.LBB11_521
// %bb.488:
	mov	w0, #1                          // =0x1
	ldp	x20, x19, [sp, #128]            // 16-byte Folded Reload
	ldp	x22, x21, [sp, #112]            // 16-byte Folded Reload
	ldp	x29, x30, [sp, #96]             // 16-byte Folded Reload
	add	sp, sp, #144
	ret
.LBB11_489:                             // %"std_io::io::buffer::Buffer::push.exit.i1209.2"
	mov	w9, #105                        // =0x69
	strb	w9, [x20, x8]
	cmp	x8, #1023
	add	x9, x8, #1
	str	x9, [x19, #1032]
	b.lo	.LBB11_525
// %bb.490:                             // %join.3.i.i.i1218.3
	movi	v0.2d, #0000000000000000
	ldr	w1, [x19]
	mov	x0, sp
	add	x2, x19, #4
	mov	w3, #1024                       // =0x400
	str	xzr, [x19, #1032]
	stp	q0, q0, [sp]
	stp	q0, q0, [sp, #32]
	stp	q0, q0, [sp, #64]
	bl	"std_io::io::write_to"
	ldrb	w8, [sp]
	cbnz	w8, .LBB11_747
// %bb.491:                             // %after.1.i.i1225.3
	ldr	x9, [x19, #1032]
	cmp	x9, #1023
	b.ls	.LBB11_525
// %bb.492:
	mov	w0, #1                          // =0x1
	ldp	x20, x19, [sp, #128]            // 16-byte Folded Reload
	ldp	x22, x21, [sp, #112]            // 16-byte Folded Reload
	ldp	x29, x30, [sp, #96]             // 16-byte Folded Reload
	add	sp, sp, #144
	ret
.LBB11_493:                             // %"std_io::io::buffer::Buffer::push.exit.i1625.3"
	mov	w8, #117                        // =0x75
	strb	w8, [x20, x9]
	cmp	x9, #1023
	add	x8, x9, #1
	str	x8, [x19, #1032]
	b.lo	.LBB11_529
// %bb.494:                             // %join.3.i.i.i1634.4
	movi	v0.2d, #0000000000000000
	ldr	w1, [x19]
	mov	x0, sp
	add	x2, x19, #4
	mov	w3, #1024                       // =0x400
	str	xzr, [x19, #1032]
	stp	q0, q0, [sp]
	stp	q0, q0, [sp, #32]
	stp	q0, q0, [sp, #64]
	bl	"std_io::io::write_to"
	ldrb	w8, [sp]
	cbnz	w8, .LBB11_751
// %bb.495:                             // %after.1.i.i1641.4
	ldr	x8, [x19, #1032]
	cmp	x8, #1023
	b.ls	.LBB11_529
// %bb.496:
	mov	w0, #1                          // =0x1
	ldp	x20, x19, [sp, #128]            // 16-byte Folded Reload
	ldp	x22, x21, [sp, #112]            // 16-byte Folded Reload
	ldp	x29, x30, [sp, #96]             // 16-byte Folded Reload
	add	sp, sp, #144
	ret
.LBB11_497:                             // %"std_io::io::buffer::Buffer::push.exit.i825.3"
	mov	w8, #107                        // =0x6b
	strb	w8, [x20, x9]
	cmp	x9, #1023
	add	x8, x9, #1
	str	x8, [x19, #1032]
	b.lo	.LBB11_533
// %bb.498:                             // %join.3.i.i.i834.4
	movi	v0.2d, #0000000000000000
	ldr	w1, [x19]
	mov	x0, sp
	add	x2, x19, #4
	mov	w3, #1024                       // =0x400
	str	xzr, [x19, #1032]
	stp	q0, q0, [sp]
	stp	q0, q0, [sp, #32]
	stp	q0, q0, [sp, #64]
	bl	"std_io::io::write_to"
	ldrb	w8, [sp]
	cbnz	w8, .LBB11_755
// %bb.499:                             // %after.1.i.i841.4
	ldr	x8, [x19, #1032]
	cmp	x8, #1023
	b.ls	.LBB11_533
// %bb.500:
	mov	w0, #1                          // =0x1
	ldp	x20, x19, [sp, #128]            // 16-byte Folded Reload
	ldp	x22, x21, [sp, #112]            // 16-byte Folded Reload
	ldp	x29, x30, [sp, #96]             // 16-byte Folded Reload
	add	sp, sp, #144
	ret
.LBB11_501:                             // %"std_io::io::buffer::Buffer::push.exit.i1753.3"
	mov	w8, #101                        // =0x65
	strb	w8, [x20, x9]
	cmp	x9, #1023
	add	x8, x9, #1
	str	x8, [x19, #1032]
	b.lo	.LBB11_537
// %bb.502:                             // %join.3.i.i.i1762.4
	movi	v0.2d, #0000000000000000
	ldr	w1, [x19]
	mov	x0, sp
	add	x2, x19, #4
	mov	w3, #1024                       // =0x400
	str	xzr, [x19, #1032]
	stp	q0, q0, [sp]
	stp	q0, q0, [sp, #32]
	stp	q0, q0, [sp, #64]
	bl	"std_io::io::write_to"
	ldrb	w8, [sp]
	cbnz	w8, .LBB11_759
// %bb.503:                             // %after.1.i.i1769.4
	ldr	x8, [x19, #1032]
	cmp	x8, #1023
	b.ls	.LBB11_537
// %bb.504:
	mov	w0, #1                          // =0x1
	ldp	x20, x19, [sp, #128]            // 16-byte Folded Reload
	ldp	x22, x21, [sp, #112]            // 16-byte Folded Reload
	ldp	x29, x30, [sp, #96]             // 16-byte Folded Reload
	add	sp, sp, #144
	ret
.LBB11_505:                             // %"std_io::io::buffer::Buffer::push.exit.i1145.3"
	mov	w8, #97                         // =0x61
	strb	w8, [x20, x9]
	cmp	x9, #1023
	add	x8, x9, #1
	str	x8, [x19, #1032]
	b.lo	.LBB11_541
// %bb.506:                             // %join.3.i.i.i1154.4
	movi	v0.2d, #0000000000000000
	ldr	w1, [x19]
	mov	x0, sp
	add	x2, x19, #4
	mov	w3, #1024                       // =0x400
	str	xzr, [x19, #1032]
	stp	q0, q0, [sp]
	stp	q0, q0, [sp, #32]
	stp	q0, q0, [sp, #64]
	bl	"std_io::io::write_to"
	ldrb	w8, [sp]
	cbnz	w8, .LBB11_778
// %bb.507:                             // %after.1.i.i1161.4
	ldr	x8, [x19, #1032]
	cmp	x8, #1023
	b.ls	.LBB11_541
// %bb.508:
	mov	w0, #1                          // =0x1
	ldp	x20, x19, [sp, #128]            // 16-byte Folded Reload
	ldp	x22, x21, [sp, #112]            // 16-byte Folded Reload
	ldp	x29, x30, [sp, #96]             // 16-byte Folded Reload
	add	sp, sp, #144
	ret
.LBB11_509:                             // %"std_io::io::buffer::Buffer::push.exit.i793.3"
	mov	w8, #119                        // =0x77
	strb	w8, [x20, x9]
	cmp	x9, #1023
	add	x8, x9, #1
	str	x8, [x19, #1032]
	b.lo	.LBB11_545
// %bb.510:                             // %join.3.i.i.i802.4
	movi	v0.2d, #0000000000000000
	ldr	w1, [x19]
	mov	x0, sp
	add	x2, x19, #4
	mov	w3, #1024                       // =0x400
	str	xzr, [x19, #1032]
	stp	q0, q0, [sp]
	stp	q0, q0, [sp, #32]
	stp	q0, q0, [sp, #64]
	bl	"std_io::io::write_to"
	ldrb	w8, [sp]
	cbnz	w8, .LBB11_782
// %bb.511:                             // %after.1.i.i809.4
	ldr	x8, [x19, #1032]
	cmp	x8, #1023
	b.ls	.LBB11_545
// %bb.512:
	mov	w0, #1                          // =0x1
	ldp	x20, x19, [sp, #128]            // 16-byte Folded Reload
	ldp	x22, x21, [sp, #112]            // 16-byte Folded Reload
	ldp	x29, x30, [sp, #96]             // 16-byte Folded Reload
	add	sp, sp, #144
	ret
.LBB11_513:                             // %"std_io::io::buffer::Buffer::push.exit.i1433.3"
	mov	w8, #100                        // =0x64
	strb	w8, [x20, x9]
	cmp	x9, #1023
	add	x8, x9, #1
	str	x8, [x19, #1032]
	b.lo	.LBB11_549
// %bb.514:                             // %join.3.i.i.i1442.4
	movi	v0.2d, #0000000000000000
	ldr	w1, [x19]
	mov	x0, sp
	add	x2, x19, #4
	mov	w3, #1024                       // =0x400
	str	xzr, [x19, #1032]
	stp	q0, q0, [sp]
	stp	q0, q0, [sp, #32]
	stp	q0, q0, [sp, #64]
	bl	"std_io::io::write_to"
	ldrb	w8, [sp]
	cbnz	w8, .LBB11_675
// %bb.515:                             // %after.1.i.i1449.4
	ldr	x8, [x19, #1032]
	cmp	x8, #1023
	b.ls	.LBB11_549
// %bb.516:
	mov	w0, #1                          // =0x1
	ldp	x20, x19, [sp, #128]            // 16-byte Folded Reload
	ldp	x22, x21, [sp, #112]            // 16-byte Folded Reload
	ldp	x29, x30, [sp, #96]             // 16-byte Folded Reload
	add	sp, sp, #144
	ret
.LBB11_517:                             // %"std_io::io::buffer::Buffer::push.exit.i1177.3"
	mov	w8, #101                        // =0x65
	strb	w8, [x20, x9]
	cmp	x9, #1023
	add	x8, x9, #1
	str	x8, [x19, #1032]
	b.lo	.LBB11_553
// %bb.518:                             // %join.3.i.i.i1186.4
	movi	v0.2d, #0000000000000000
	ldr	w1, [x19]
	mov	x0, sp
	add	x2, x19, #4
	mov	w3, #1024                       // =0x400
	str	xzr, [x19, #1032]
	stp	q0, q0, [sp]
	stp	q0, q0, [sp, #32]
	stp	q0, q0, [sp, #64]
	bl	"std_io::io::write_to"
	ldrb	w8, [sp]
	cbnz	w8, .LBB11_711
// %bb.519:                             // %after.1.i.i1193.4
	ldr	x8, [x19, #1032]
	cmp	x8, #1023
	b.ls	.LBB11_553
// %bb.520:
	mov	w0, #1                          // =0x1
	ldp	x20, x19, [sp, #128]            // 16-byte Folded Reload
	ldp	x22, x21, [sp, #112]            // 16-byte Folded Reload
	ldp	x29, x30, [sp, #96]             // 16-byte Folded Reload
	add	sp, sp, #144
	ret
.LBB11_521:                             // %"std_io::io::buffer::Buffer::push.exit.i1721.3"
	mov	w8, #112                        // =0x70
	strb	w8, [x20, x9]
	cmp	x9, #1023
	add	x8, x9, #1
	str	x8, [x19, #1032]
	b.lo	.LBB11_557
// %bb.522:                             // %join.3.i.i.i1730.4
	movi	v0.2d, #0000000000000000
	ldr	w1, [x19]
	mov	x0, sp
	add	x2, x19, #4
	mov	w3, #1024                       // =0x400
	str	xzr, [x19, #1032]
	stp	q0, q0, [sp]
	stp	q0, q0, [sp, #32]
	stp	q0, q0, [sp, #64]
	bl	"std_io::io::write_to"
	ldrb	w8, [sp]
	cbnz	w8, .LBB11_771
// %bb.523:                             // %after.1.i.i1737.4
	ldr	x8, [x19, #1032]
	cmp	x8, #1023
	b.ls	.LBB11_557
// %bb.524:
	mov	w0, #1                          // =0x1
	ldp	x20, x19, [sp, #128]            // 16-byte Folded Reload
	ldp	x22, x21, [sp, #112]            // 16-byte Folded Reload
	ldp	x29, x30, [sp, #96]             // 16-byte Folded Reload
	add	sp, sp, #144
	ret
.LBB11_525:                             // %"std_io::io::buffer::Buffer::push.exit.i1209.3"
	mov	w8, #116                        // =0x74
	strb	w8, [x20, x9]
	cmp	x9, #1023
	add	x8, x9, #1
	str	x8, [x19, #1032]
	b.lo	.LBB11_561
// %bb.526:                             // %join.3.i.i.i1218.4
	movi	v0.2d, #0000000000000000
	ldr	w1, [x19]
	mov	x0, sp
	add	x2, x19, #4
	mov	w3, #1024                       // =0x400
	str	xzr, [x19, #1032]
	stp	q0, q0, [sp]
	stp	q0, q0, [sp, #32]
	stp	q0, q0, [sp, #64]
	bl	"std_io::io::write_to"
	ldrb	w8, [sp]
	cbnz	w8, .LBB11_747
// %bb.527:                             // %after.1.i.i1225.4
	ldr	x8, [x19, #1032]
	cmp	x8, #1023
	b.ls	.LBB11_561
// %bb.528:
	mov	w0, #1                          // =0x1
	ldp	x20, x19, [sp, #128]            // 16-byte Folded Reload
	ldp	x22, x21, [sp, #112]            // 16-byte Folded Reload
	ldp	x29, x30, [sp, #96]             // 16-byte Folded Reload
	add	sp, sp, #144
	ret
.LBB11_529:                             // %"std_io::io::buffer::Buffer::push.exit.i1625.4"
	mov	w21, #112                       // =0x70
	add	x9, x8, #1
	cmp	x8, #1023
	strb	w21, [x20, x8]
	str	x9, [x19, #1032]
	b.lo	.LBB11_617
// %bb.530:                             // %join.3.i.i.i1634.5
	movi	v0.2d, #0000000000000000
	ldr	w1, [x19]
	mov	x0, sp
	add	x2, x19, #4
	mov	w3, #1024                       // =0x400
	str	xzr, [x19, #1032]
	stp	q0, q0, [sp]
	stp	q0, q0, [sp, #32]
	stp	q0, q0, [sp, #64]
	bl	"std_io::io::write_to"
	ldrb	w8, [sp]
	cbnz	w8, .LBB11_751
// %bb.531:                             // %after.1.i.i1641.5
	ldr	x9, [x19, #1032]
	cmp	x9, #1023
	b.ls	.LBB11_617
// %bb.532:
	mov	w0, #1                          // =0x1
	ldp	x20, x19, [sp, #128]            // 16-byte Folded Reload
	ldp	x22, x21, [sp, #112]            // 16-byte Folded Reload
	ldp	x29, x30, [sp, #96]             // 16-byte Folded Reload
	add	sp, sp, #144
	ret
.LBB11_533:                             // %"std_io::io::buffer::Buffer::push.exit.i825.4"
	mov	w9, #101                        // =0x65
	strb	w9, [x20, x8]
	cmp	x8, #1023
	add	x9, x8, #1
	str	x9, [x19, #1032]
	b.lo	.LBB11_621
// %bb.534:                             // %join.3.i.i.i834.5
	movi	v0.2d, #0000000000000000
	ldr	w1, [x19]
	mov	x0, sp
	add	x2, x19, #4
	mov	w3, #1024                       // =0x400
	str	xzr, [x19, #1032]
	stp	q0, q0, [sp]
	stp	q0, q0, [sp, #32]
	stp	q0, q0, [sp, #64]
	bl	"std_io::io::write_to"
	ldrb	w8, [sp]
	cbnz	w8, .LBB11_755
// %bb.535:                             // %after.1.i.i841.5
	ldr	x9, [x19, #1032]
	cmp	x9, #1023
	b.ls	.LBB11_621
// %bb.536:
	mov	w0, #1                          // =0x1
	ldp	x20, x19, [sp, #128]            // 16-byte Folded Reload
	ldp	x22, x21, [sp, #112]            // 16-byte Folded Reload
	ldp	x29, x30, [sp, #96]             // 16-byte Folded Reload
	add	sp, sp, #144
	ret
.LBB11_537:                             // %"std_io::io::buffer::Buffer::push.exit.i1753.4"
	mov	w9, #114                        // =0x72
	strb	w9, [x20, x8]
	cmp	x8, #1023
	add	x9, x8, #1
	str	x9, [x19, #1032]
	b.lo	.LBB11_625
// %bb.538:                             // %join.3.i.i.i1762.5
	movi	v0.2d, #0000000000000000
	ldr	w1, [x19]
	mov	x0, sp
	add	x2, x19, #4
	mov	w3, #1024                       // =0x400
	str	xzr, [x19, #1032]
	stp	q0, q0, [sp]
	stp	q0, q0, [sp, #32]
	stp	q0, q0, [sp, #64]
	bl	"std_io::io::write_to"
	ldrb	w8, [sp]
	cbnz	w8, .LBB11_759
// %bb.539:                             // %after.1.i.i1769.5
	ldr	x9, [x19, #1032]
	cmp	x9, #1023
	b.ls	.LBB11_625
// %bb.540:
	mov	w0, #1                          // =0x1
	ldp	x20, x19, [sp, #128]            // 16-byte Folded Reload
	ldp	x22, x21, [sp, #112]            // 16-byte Folded Reload
	ldp	x29, x30, [sp, #96]             // 16-byte Folded Reload
	add	sp, sp, #144
	ret
.LBB11_541:                             // %"std_io::io::buffer::Buffer::push.exit.i1145.4"
	mov	w9, #108                        // =0x6c
	strb	w9, [x20, x8]
	cmp	x8, #1023
	add	x9, x8, #1
	str	x9, [x19, #1032]
	b.lo	.LBB11_629
// %bb.542:                             // %join.3.i.i.i1154.5
	movi	v0.2d, #0000000000000000
	ldr	w1, [x19]
	mov	x0, sp
	add	x2, x19, #4
	mov	w3, #1024                       // =0x400
	str	xzr, [x19, #1032]
	stp	q0, q0, [sp]
	stp	q0, q0, [sp, #32]
	stp	q0, q0, [sp, #64]
	bl	"std_io::io::write_to"
	ldrb	w8, [sp]
	cbnz	w8, .LBB11_778
// %bb.543:                             // %after.1.i.i1161.5
	ldr	x9, [x19, #1032]
	cmp	x9, #1023
	b.ls	.LBB11_629
// %bb.544:
	mov	w0, #1                          // =0x1
	ldp	x20, x19, [sp, #128]            // 16-byte Folded Reload
	ldp	x22, x21, [sp, #112]            // 16-byte Folded Reload
	ldp	x29, x30, [sp, #96]             // 16-byte Folded Reload
	add	sp, sp, #144
	ret
.LBB11_545:                             // %"std_io::io::buffer::Buffer::push.exit.i793.4"
	mov	w9, #111                        // =0x6f
	strb	w9, [x20, x8]
	cmp	x8, #1023
	add	x9, x8, #1
	str	x9, [x19, #1032]
	b.lo	.LBB11_633
// %bb.546:                             // %join.3.i.i.i802.5
	movi	v0.2d, #0000000000000000
	ldr	w1, [x19]
	mov	x0, sp
	add	x2, x19, #4
	mov	w3, #1024                       // =0x400
	str	xzr, [x19, #1032]
	stp	q0, q0, [sp]
	stp	q0, q0, [sp, #32]
	stp	q0, q0, [sp, #64]
	bl	"std_io::io::write_to"
	ldrb	w8, [sp]
	cbnz	w8, .LBB11_782
// %bb.547:                             // %after.1.i.i809.5
	ldr	x9, [x19, #1032]
	cmp	x9, #1023
	b.ls	.LBB11_633
// %bb.548:
	mov	w0, #1                          // =0x1
	ldp	x20, x19, [sp, #128]            // 16-byte Folded Reload
	ldp	x22, x21, [sp, #112]            // 16-byte Folded Reload
	ldp	x29, x30, [sp, #96]             // 16-byte Folded Reload
	add	sp, sp, #144
	ret
.LBB11_549:                             // %"std_io::io::buffer::Buffer::push.exit.i1433.4"
	mov	w9, #108                        // =0x6c
	strb	w9, [x20, x8]
	cmp	x8, #1023
	add	x9, x8, #1
	str	x9, [x19, #1032]
	b.lo	.LBB11_637
// %bb.550:                             // %join.3.i.i.i1442.5
	movi	v0.2d, #0000000000000000
	ldr	w1, [x19]
	mov	x0, sp
	add	x2, x19, #4
	mov	w3, #1024                       // =0x400
	str	xzr, [x19, #1032]
	stp	q0, q0, [sp]
	stp	q0, q0, [sp, #32]
	stp	q0, q0, [sp, #64]
	bl	"std_io::io::write_to"
	ldrb	w8, [sp]
	cbnz	w8, .LBB11_675
// %bb.551:                             // %after.1.i.i1449.5
	ldr	x9, [x19, #1032]
	cmp	x9, #1023
	b.ls	.LBB11_637
// %bb.552:
	mov	w0, #1                          // =0x1
	ldp	x20, x19, [sp, #128]            // 16-byte Folded Reload
	ldp	x22, x21, [sp, #112]            // 16-byte Folded Reload
	ldp	x29, x30, [sp, #96]             // 16-byte Folded Reload
	add	sp, sp, #144
	ret
.LBB11_553:                             // %"std_io::io::buffer::Buffer::push.exit.i1177.4"
	mov	w9, #100                        // =0x64
	strb	w9, [x20, x8]
	cmp	x8, #1023
	add	x9, x8, #1
	str	x9, [x19, #1032]
	b.lo	.LBB11_641
// %bb.554:                             // %join.3.i.i.i1186.5
	movi	v0.2d, #0000000000000000
	ldr	w1, [x19]
	mov	x0, sp
	add	x2, x19, #4
	mov	w3, #1024                       // =0x400
	str	xzr, [x19, #1032]
	stp	q0, q0, [sp]
	stp	q0, q0, [sp, #32]
	stp	q0, q0, [sp, #64]
	bl	"std_io::io::write_to"
	ldrb	w8, [sp]
	cbnz	w8, .LBB11_711
// %bb.555:                             // %after.1.i.i1193.5
	ldr	x9, [x19, #1032]
	cmp	x9, #1023
	b.ls	.LBB11_641
// %bb.556:
	mov	w0, #1                          // =0x1
	ldp	x20, x19, [sp, #128]            // 16-byte Folded Reload
	ldp	x22, x21, [sp, #112]            // 16-byte Folded Reload
	ldp	x29, x30, [sp, #96]             // 16-byte Folded Reload
	add	sp, sp, #144
	ret
.LBB11_557:                             // %"std_io::io::buffer::Buffer::push.exit.i1721.4"
	mov	w9, #114                        // =0x72
	strb	w9, [x20, x8]
	cmp	x8, #1023
	add	x9, x8, #1
	str	x9, [x19, #1032]
	b.lo	.LBB11_645
// %bb.558:                             // %join.3.i.i.i1730.5
	movi	v0.2d, #0000000000000000
	ldr	w1, [x19]
	mov	x0, sp
	add	x2, x19, #4
	mov	w3, #1024                       // =0x400
	str	xzr, [x19, #1032]
	stp	q0, q0, [sp]
	stp	q0, q0, [sp, #32]
	stp	q0, q0, [sp, #64]
	bl	"std_io::io::write_to"
	ldrb	w8, [sp]
	cbnz	w8, .LBB11_771
// %bb.559:                             // %after.1.i.i1737.5
	ldr	x9, [x19, #1032]
	cmp	x9, #1023
	b.ls	.LBB11_645
// %bb.560:
	mov	w0, #1                          // =0x1
	ldp	x20, x19, [sp, #128]            // 16-byte Folded Reload
	ldp	x22, x21, [sp, #112]            // 16-byte Folded Reload
	ldp	x29, x30, [sp, #96]             // 16-byte Folded Reload
	add	sp, sp, #144
	ret
.LBB11_561:                             // %"std_io::io::buffer::Buffer::push.exit.i1209.4"
	mov	w9, #101                        // =0x65
	strb	w9, [x20, x8]
	cmp	x8, #1023
	add	x9, x8, #1
	str	x9, [x19, #1032]
	b.lo	.LBB11_649
// %bb.562:                             // %join.3.i.i.i1218.5
	movi	v0.2d, #0000000000000000
	ldr	w1, [x19]
	mov	x0, sp
	add	x2, x19, #4
	mov	w3, #1024                       // =0x400
	str	xzr, [x19, #1032]
	stp	q0, q0, [sp]
	stp	q0, q0, [sp, #32]
	stp	q0, q0, [sp, #64]
	bl	"std_io::io::write_to"
	ldrb	w8, [sp]
	cbnz	w8, .LBB11_747
// %bb.563:                             // %after.1.i.i1225.5
	ldr	x9, [x19, #1032]
	cmp	x9, #1023
	b.ls	.LBB11_649
// %bb.564:
	mov	w0, #1                          // =0x1
	ldp	x20, x19, [sp, #128]            // 16-byte Folded Reload
	ldp	x22, x21, [sp, #112]            // 16-byte Folded Reload
	ldp	x29, x30, [sp, #96]             // 16-byte Folded Reload
	add	sp, sp, #144
	ret
.LBB11_565:                             // %else.2.i40
	adrp	x1, .Lstatic.53
	add	x1, x1, :lo12:.Lstatic.53
	b	.LBB11_570
.LBB11_566:                             // %else.2.i64
	adrp	x1, .Lstatic.51
	add	x1, x1, :lo12:.Lstatic.51
	b	.LBB11_597
.LBB11_567:                             // %else.2.i52
	adrp	x1, .Lstatic.52
	add	x1, x1, :lo12:.Lstatic.52
	b	.LBB11_608
.LBB11_568:                             // %else.2.i160
	adrp	x1, .Lstatic.43
	add	x1, x1, :lo12:.Lstatic.43
	b	.LBB11_616
.LBB11_569:                             // %else.2.i76
	adrp	x1, .Lstatic.50
	add	x1, x1, :lo12:.Lstatic.50
.LBB11_570:                             // %else.2.i76
	mov	x0, x19
	mov	w2, #22                         // =0x16
	ldp	x20, x19, [sp, #128]            // 16-byte Folded Reload
	ldp	x22, x21, [sp, #112]            // 16-byte Folded Reload
	ldp	x29, x30, [sp, #96]             // 16-byte Folded Reload
	add	sp, sp, #144
	b	"core::fmt::formatter::Formatter::write_indented::<#bf264aed5fa78656>"
.LBB11_571:                             // %else.2.i292
	adrp	x1, .Lstatic.32
	add	x1, x1, :lo12:.Lstatic.32
	b	.LBB11_594
.LBB11_572:                             // %else.2.i316
	adrp	x1, .Lstatic.30
	add	x1, x1, :lo12:.Lstatic.30
	mov	x0, x19
	mov	w2, #15                         // =0xf
	ldp	x20, x19, [sp, #128]            // 16-byte Folded Reload
	ldp	x22, x21, [sp, #112]            // 16-byte Folded Reload
	ldp	x29, x30, [sp, #96]             // 16-byte Folded Reload
	add	sp, sp, #144
	b	"core::fmt::formatter::Formatter::write_indented::<#bf264aed5fa78656>"
.LBB11_573:                             // %else.2.i88
	adrp	x1, .Lstatic.49
	add	x1, x1, :lo12:.Lstatic.49
	b	.LBB11_586
.LBB11_574:                             // %else.2.i352
	adrp	x1, .Lstatic.27
	add	x1, x1, :lo12:.Lstatic.27
	b	.LBB11_608
.LBB11_575:                             // %else.2.i436
	adrp	x1, .Lstatic.20
	add	x1, x1, :lo12:.Lstatic.20
	b	.LBB11_586
.LBB11_576:                             // %else.2.i4
	adrp	x1, .Lstatic.56
	add	x1, x1, :lo12:.Lstatic.56
	b	.LBB11_608
.LBB11_577:                             // %else.2.i340
	adrp	x1, .Lstatic.28
	add	x1, x1, :lo12:.Lstatic.28
	b	.LBB11_597
.LBB11_578:                             // %else.2.i376
	adrp	x1, .Lstatic.25
	add	x1, x1, :lo12:.Lstatic.25
	b	.LBB11_597
.LBB11_579:                             // %else.2.i184
	adrp	x1, .Lstatic.41
	add	x1, x1, :lo12:.Lstatic.41
	b	.LBB11_592
.LBB11_580:                             // %else.2.i196
	adrp	x1, .Lstatic.40
	add	x1, x1, :lo12:.Lstatic.40
	b	.LBB11_586
.LBB11_581:                             // %else.2.i460
	adrp	x1, .Lstatic.18
	add	x1, x1, :lo12:.Lstatic.18
	b	.LBB11_599
.LBB11_582:                             // %else.2.i304
	adrp	x1, .Lstatic.31
	add	x1, x1, :lo12:.Lstatic.31
	b	.LBB11_616
.LBB11_583:                             // %else.2.i448
	adrp	x1, .Lstatic.19
	add	x1, x1, :lo12:.Lstatic.19
	b	.LBB11_586
.LBB11_584:                             // %else.2.i400
	adrp	x1, .Lstatic.23
	add	x1, x1, :lo12:.Lstatic.23
	b	.LBB11_614
.LBB11_585:                             // %else.2.i484
	adrp	x1, .Lstatic.16
	add	x1, x1, :lo12:.Lstatic.16
.LBB11_586:                             // %else.2.i484
	mov	x0, x19
	mov	w2, #16                         // =0x10
	ldp	x20, x19, [sp, #128]            // 16-byte Folded Reload
	ldp	x22, x21, [sp, #112]            // 16-byte Folded Reload
	ldp	x29, x30, [sp, #96]             // 16-byte Folded Reload
	add	sp, sp, #144
	b	"core::fmt::formatter::Formatter::write_indented::<#bf264aed5fa78656>"
.LBB11_587:                             // %else.2.i472
	adrp	x1, .Lstatic.17
	add	x1, x1, :lo12:.Lstatic.17
	mov	x0, x19
	mov	w2, #17                         // =0x11
	ldp	x20, x19, [sp, #128]            // 16-byte Folded Reload
	ldp	x22, x21, [sp, #112]            // 16-byte Folded Reload
	ldp	x29, x30, [sp, #96]             // 16-byte Folded Reload
	add	sp, sp, #144
	b	"core::fmt::formatter::Formatter::write_indented::<#bf264aed5fa78656>"
.LBB11_588:                             // %else.2.i112
	adrp	x1, .Lstatic.47
	add	x1, x1, :lo12:.Lstatic.47
	mov	x0, x19
	mov	w2, #27                         // =0x1b
	ldp	x20, x19, [sp, #128]            // 16-byte Folded Reload
	ldp	x22, x21, [sp, #112]            // 16-byte Folded Reload
	ldp	x29, x30, [sp, #96]             // 16-byte Folded Reload
	add	sp, sp, #144
	b	"core::fmt::formatter::Formatter::write_indented::<#bf264aed5fa78656>"
.LBB11_589:                             // %else.2.i280
	adrp	x1, .Lstatic.33
	add	x1, x1, :lo12:.Lstatic.33
	mov	x0, x19
	mov	w2, #38                         // =0x26
	ldp	x20, x19, [sp, #128]            // 16-byte Folded Reload
	ldp	x22, x21, [sp, #112]            // 16-byte Folded Reload
	ldp	x29, x30, [sp, #96]             // 16-byte Folded Reload
	add	sp, sp, #144
	b	"core::fmt::formatter::Formatter::write_indented::<#bf264aed5fa78656>"
.LBB11_590:                             // %else.2.i
	adrp	x1, .Lstatic.57
	add	x1, x1, :lo12:.Lstatic.57
	b	.LBB11_594
.LBB11_591:                             // %else.2.i244
	adrp	x1, .Lstatic.36
	add	x1, x1, :lo12:.Lstatic.36
.LBB11_592:                             // %else.2.i244
	mov	x0, x19
	mov	w2, #23                         // =0x17
	ldp	x20, x19, [sp, #128]            // 16-byte Folded Reload
	ldp	x22, x21, [sp, #112]            // 16-byte Folded Reload
	ldp	x29, x30, [sp, #96]             // 16-byte Folded Reload
	add	sp, sp, #144
	b	"core::fmt::formatter::Formatter::write_indented::<#bf264aed5fa78656>"
.LBB11_593:                             // %else.2.i424
	adrp	x1, .Lstatic.21
	add	x1, x1, :lo12:.Lstatic.21
.LBB11_594:                             // %else.2.i424
	mov	x0, x19
	mov	w2, #19                         // =0x13
	ldp	x20, x19, [sp, #128]            // 16-byte Folded Reload
	ldp	x22, x21, [sp, #112]            // 16-byte Folded Reload
	ldp	x29, x30, [sp, #96]             // 16-byte Folded Reload
	add	sp, sp, #144
	b	"core::fmt::formatter::Formatter::write_indented::<#bf264aed5fa78656>"
.LBB11_595:                             // %else.2.i232
	adrp	x1, .Lstatic.37
	add	x1, x1, :lo12:.Lstatic.37
	b	.LBB11_602
.LBB11_596:                             // %else.2.i328
	adrp	x1, .Lstatic.29
	add	x1, x1, :lo12:.Lstatic.29
.LBB11_597:                             // %else.2.i376
	mov	x0, x19
	mov	w2, #21                         // =0x15
	ldp	x20, x19, [sp, #128]            // 16-byte Folded Reload
	ldp	x22, x21, [sp, #112]            // 16-byte Folded Reload
	ldp	x29, x30, [sp, #96]             // 16-byte Folded Reload
	add	sp, sp, #144
	b	"core::fmt::formatter::Formatter::write_indented::<#bf264aed5fa78656>"
.LBB11_598:                             // %else.2.i412
	adrp	x1, .Lstatic.22
	add	x1, x1, :lo12:.Lstatic.22
.LBB11_599:                             // %else.2.i460
	mov	x0, x19
	mov	w2, #18                         // =0x12
	ldp	x20, x19, [sp, #128]            // 16-byte Folded Reload
	ldp	x22, x21, [sp, #112]            // 16-byte Folded Reload
	ldp	x29, x30, [sp, #96]             // 16-byte Folded Reload
	add	sp, sp, #144
	b	"core::fmt::formatter::Formatter::write_indented::<#bf264aed5fa78656>"
.LBB11_600:                             // %else.2.i268
	adrp	x1, .Lstatic.34
	add	x1, x1, :lo12:.Lstatic.34
	mov	x0, x19
	mov	w2, #56                         // =0x38
	ldp	x20, x19, [sp, #128]            // 16-byte Folded Reload
	ldp	x22, x21, [sp, #112]            // 16-byte Folded Reload
	ldp	x29, x30, [sp, #96]             // 16-byte Folded Reload
	add	sp, sp, #144
	b	"core::fmt::formatter::Formatter::write_indented::<#bf264aed5fa78656>"
.LBB11_601:                             // %else.2.i364
	adrp	x1, .Lstatic.26
	add	x1, x1, :lo12:.Lstatic.26
.LBB11_602:                             // %else.2.i364
	mov	x0, x19
	mov	w2, #12                         // =0xc
	ldp	x20, x19, [sp, #128]            // 16-byte Folded Reload
	ldp	x22, x21, [sp, #112]            // 16-byte Folded Reload
	ldp	x29, x30, [sp, #96]             // 16-byte Folded Reload
	add	sp, sp, #144
	b	"core::fmt::formatter::Formatter::write_indented::<#bf264aed5fa78656>"
.LBB11_603:                             // %else.2.i388
	adrp	x1, .Lstatic.24
	add	x1, x1, :lo12:.Lstatic.24
	b	.LBB11_616
.LBB11_604:                             // %else.2.i124
	adrp	x1, .Lstatic.46
	add	x1, x1, :lo12:.Lstatic.46
	mov	x0, x19
	mov	w2, #8                          // =0x8
	ldp	x20, x19, [sp, #128]            // 16-byte Folded Reload
	ldp	x22, x21, [sp, #112]            // 16-byte Folded Reload
	ldp	x29, x30, [sp, #96]             // 16-byte Folded Reload
	add	sp, sp, #144
	b	"core::fmt::formatter::Formatter::write_indented::<#bf264aed5fa78656>"
.LBB11_605:                             // %else.2.i100
	adrp	x1, .Lstatic.48
	add	x1, x1, :lo12:.Lstatic.48
	b	.LBB11_616
.LBB11_606:                             // %else.2.i220
	adrp	x1, .Lstatic.38
	add	x1, x1, :lo12:.Lstatic.38
	mov	x0, x19
	mov	w2, #9                          // =0x9
	ldp	x20, x19, [sp, #128]            // 16-byte Folded Reload
	ldp	x22, x21, [sp, #112]            // 16-byte Folded Reload
	ldp	x29, x30, [sp, #96]             // 16-byte Folded Reload
	add	sp, sp, #144
	b	"core::fmt::formatter::Formatter::write_indented::<#bf264aed5fa78656>"
.LBB11_607:                             // %else.2.i16
	adrp	x1, .Lstatic.55
	add	x1, x1, :lo12:.Lstatic.55
.LBB11_608:                             // %else.2.i352
	mov	x0, x19
	mov	w2, #11                         // =0xb
	ldp	x20, x19, [sp, #128]            // 16-byte Folded Reload
	ldp	x22, x21, [sp, #112]            // 16-byte Folded Reload
	ldp	x29, x30, [sp, #96]             // 16-byte Folded Reload
	add	sp, sp, #144
	b	"core::fmt::formatter::Formatter::write_indented::<#bf264aed5fa78656>"
.LBB11_609:                             // %else.2.i256
	adrp	x1, .Lstatic.35
	add	x1, x1, :lo12:.Lstatic.35
	mov	x0, x19
	mov	w2, #25                         // =0x19
	ldp	x20, x19, [sp, #128]            // 16-byte Folded Reload
	ldp	x22, x21, [sp, #112]            // 16-byte Folded Reload
	ldp	x29, x30, [sp, #96]             // 16-byte Folded Reload
	add	sp, sp, #144
	b	"core::fmt::formatter::Formatter::write_indented::<#bf264aed5fa78656>"
.LBB11_610:                             // %else.2.i208
	adrp	x1, .Lstatic.39
	add	x1, x1, :lo12:.Lstatic.39
	mov	x0, x19
	mov	w2, #10                         // =0xa
	ldp	x20, x19, [sp, #128]            // 16-byte Folded Reload
	ldp	x22, x21, [sp, #112]            // 16-byte Folded Reload
	ldp	x29, x30, [sp, #96]             // 16-byte Folded Reload
	add	sp, sp, #144
	b	"core::fmt::formatter::Formatter::write_indented::<#bf264aed5fa78656>"
.LBB11_611:                             // %else.2.i148
	adrp	x1, .Lstatic.44
	add	x1, x1, :lo12:.Lstatic.44
	b	.LBB11_614
.LBB11_612:                             // %else.2.i136
	adrp	x1, .Lstatic.45
	add	x1, x1, :lo12:.Lstatic.45
	mov	x0, x19
	mov	w2, #20                         // =0x14
	ldp	x20, x19, [sp, #128]            // 16-byte Folded Reload
	ldp	x22, x21, [sp, #112]            // 16-byte Folded Reload
	ldp	x29, x30, [sp, #96]             // 16-byte Folded Reload
	add	sp, sp, #144
	b	"core::fmt::formatter::Formatter::write_indented::<#bf264aed5fa78656>"
.LBB11_613:                             // %else.2.i28
	adrp	x1, .Lstatic.54
	add	x1, x1, :lo12:.Lstatic.54
.LBB11_614:                             // %else.2.i400
	mov	x0, x19
	mov	w2, #13                         // =0xd
	ldp	x20, x19, [sp, #128]            // 16-byte Folded Reload
	ldp	x22, x21, [sp, #112]            // 16-byte Folded Reload
	ldp	x29, x30, [sp, #96]             // 16-byte Folded Reload
	add	sp, sp, #144
	b	"core::fmt::formatter::Formatter::write_indented::<#bf264aed5fa78656>"
.LBB11_615:                             // %else.2.i172
	adrp	x1, .Lstatic.42
	add	x1, x1, :lo12:.Lstatic.42
.LBB11_616:                             // %else.2.i388
	mov	x0, x19
	mov	w2, #14                         // =0xe
	ldp	x20, x19, [sp, #128]            // 16-byte Folded Reload
	ldp	x22, x21, [sp, #112]            // 16-byte Folded Reload
	ldp	x29, x30, [sp, #96]             // 16-byte Folded Reload
	add	sp, sp, #144
	b	"core::fmt::formatter::Formatter::write_indented::<#bf264aed5fa78656>"
.LBB11_617:                             // %"std_io::io::buffer::Buffer::push.exit.i1625.5"
	add	x8, x9, #1
	cmp	x9, #1023
	strb	w21, [x20, x9]
	str	x8, [x19, #1032]
	b.lo	.LBB11_653
// %bb.618:                             // %join.3.i.i.i1634.6
	movi	v0.2d, #0000000000000000
	ldr	w1, [x19]
	mov	x0, sp
	add	x2, x19, #4
	mov	w3, #1024                       // =0x400
	str	xzr, [x19, #1032]
	stp	q0, q0, [sp]
	stp	q0, q0, [sp, #32]
	stp	q0, q0, [sp, #64]
	bl	"std_io::io::write_to"
	ldrb	w8, [sp]
	cbnz	w8, .LBB11_751
// %bb.619:                             // %after.1.i.i1641.6
	ldr	x8, [x19, #1032]
	cmp	x8, #1023
	b.ls	.LBB11_653
// %bb.620:
	mov	w0, #1                          // =0x1
	ldp	x20, x19, [sp, #128]            // 16-byte Folded Reload
	ldp	x22, x21, [sp, #112]            // 16-byte Folded Reload
	ldp	x29, x30, [sp, #96]             // 16-byte Folded Reload
	add	sp, sp, #144
	ret
.LBB11_621:                             // %"std_io::io::buffer::Buffer::push.exit.i825.5"
	mov	w8, #110                        // =0x6e
	strb	w8, [x20, x9]
	cmp	x9, #1023
	add	x8, x9, #1
	str	x8, [x19, #1032]
	b.lo	.LBB11_657
// %bb.622:                             // %join.3.i.i.i834.6
	movi	v0.2d, #0000000000000000
	ldr	w1, [x19]
	mov	x0, sp
	add	x2, x19, #4
	mov	w3, #1024                       // =0x400
	str	xzr, [x19, #1032]
	stp	q0, q0, [sp]
	stp	q0, q0, [sp, #32]
	stp	q0, q0, [sp, #64]
	bl	"std_io::io::write_to"
	ldrb	w8, [sp]
	cbnz	w8, .LBB11_755
// %bb.623:                             // %after.1.i.i841.6
	ldr	x8, [x19, #1032]
	cmp	x8, #1023
	b.ls	.LBB11_657
// %bb.624:
	mov	w0, #1                          // =0x1
	ldp	x20, x19, [sp, #128]            // 16-byte Folded Reload
	ldp	x22, x21, [sp, #112]            // 16-byte Folded Reload
	ldp	x29, x30, [sp, #96]             // 16-byte Folded Reload
	add	sp, sp, #144
	ret
.LBB11_625:                             // %"std_io::io::buffer::Buffer::push.exit.i1753.5"
	mov	w8, #32                         // =0x20
	strb	w8, [x20, x9]
	cmp	x9, #1023
	add	x8, x9, #1
	str	x8, [x19, #1032]
	b.lo	.LBB11_661
// %bb.626:                             // %join.3.i.i.i1762.6
	movi	v0.2d, #0000000000000000
	ldr	w1, [x19]
	mov	x0, sp
	add	x2, x19, #4
	mov	w3, #1024                       // =0x400
	str	xzr, [x19, #1032]
	stp	q0, q0, [sp]
	stp	q0, q0, [sp, #32]
	stp	q0, q0, [sp, #64]
	bl	"std_io::io::write_to"
	ldrb	w8, [sp]
	cbnz	w8, .LBB11_759
// %bb.627:                             // %after.1.i.i1769.6
	ldr	x8, [x19, #1032]
	cmp	x8, #1023
	b.ls	.LBB11_661
// %bb.628:
	mov	w0, #1                          // =0x1
	ldp	x20, x19, [sp, #128]            // 16-byte Folded Reload
	ldp	x22, x21, [sp, #112]            // 16-byte Folded Reload
	ldp	x29, x30, [sp, #96]             // 16-byte Folded Reload
	add	sp, sp, #144
	ret
.LBB11_629:                             // %"std_io::io::buffer::Buffer::push.exit.i1145.5"
	mov	w8, #105                        // =0x69
	strb	w8, [x20, x9]
	cmp	x9, #1023
	add	x8, x9, #1
	str	x8, [x19, #1032]
	b.lo	.LBB11_665
// %bb.630:                             // %join.3.i.i.i1154.6
	movi	v0.2d, #0000000000000000
	ldr	w1, [x19]
	mov	x0, sp
	add	x2, x19, #4
	mov	w3, #1024                       // =0x400
	str	xzr, [x19, #1032]
	stp	q0, q0, [sp]
	stp	q0, q0, [sp, #32]
	stp	q0, q0, [sp, #64]
	bl	"std_io::io::write_to"
	ldrb	w8, [sp]
	cbnz	w8, .LBB11_778
// %bb.631:                             // %after.1.i.i1161.6
	ldr	x8, [x19, #1032]
	cmp	x8, #1023
	b.ls	.LBB11_665
// %bb.632:
	mov	w0, #1                          // =0x1
	ldp	x20, x19, [sp, #128]            // 16-byte Folded Reload
	ldp	x22, x21, [sp, #112]            // 16-byte Folded Reload
	ldp	x29, x30, [sp, #96]             // 16-byte Folded Reload
	add	sp, sp, #144
	ret
.LBB11_633:                             // %"std_io::io::buffer::Buffer::push.exit.i793.5"
	mov	w8, #114                        // =0x72
	strb	w8, [x20, x9]
	cmp	x9, #1023
	add	x8, x9, #1
	str	x8, [x19, #1032]
	b.lo	.LBB11_669
// %bb.634:                             // %join.3.i.i.i802.6
	movi	v0.2d, #0000000000000000
	ldr	w1, [x19]
	mov	x0, sp
	add	x2, x19, #4
	mov	w3, #1024                       // =0x400
	str	xzr, [x19, #1032]
	stp	q0, q0, [sp]
	stp	q0, q0, [sp, #32]
	stp	q0, q0, [sp, #64]
	bl	"std_io::io::write_to"
	ldrb	w8, [sp]
	cbnz	w8, .LBB11_782
// %bb.635:                             // %after.1.i.i809.6
	ldr	x8, [x19, #1032]
	cmp	x8, #1023
	b.ls	.LBB11_669
// %bb.636:
	mov	w0, #1                          // =0x1
	ldp	x20, x19, [sp, #128]            // 16-byte Folded Reload
	ldp	x22, x21, [sp, #112]            // 16-byte Folded Reload
	ldp	x29, x30, [sp, #96]             // 16-byte Folded Reload
	add	sp, sp, #144
	ret
.LBB11_637:                             // %"std_io::io::buffer::Buffer::push.exit.i1433.5"
	mov	w8, #111                        // =0x6f
	strb	w8, [x20, x9]
	cmp	x9, #1023
	add	x8, x9, #1
	str	x8, [x19, #1032]
	b.lo	.LBB11_673
// %bb.638:                             // %join.3.i.i.i1442.6
	movi	v0.2d, #0000000000000000
	ldr	w1, [x19]
	mov	x0, sp
	add	x2, x19, #4
	mov	w3, #1024                       // =0x400
	str	xzr, [x19, #1032]
	stp	q0, q0, [sp]
	stp	q0, q0, [sp, #32]
	stp	q0, q0, [sp, #64]
	bl	"std_io::io::write_to"
	ldrb	w8, [sp]
	cbnz	w8, .LBB11_675
// %bb.639:                             // %after.1.i.i1449.6
	ldr	x8, [x19, #1032]
	cmp	x8, #1023
	b.ls	.LBB11_673
// %bb.640:
	mov	w0, #1                          // =0x1
	ldp	x20, x19, [sp, #128]            // 16-byte Folded Reload
	ldp	x22, x21, [sp, #112]            // 16-byte Folded Reload
	ldp	x29, x30, [sp, #96]             // 16-byte Folded Reload
	add	sp, sp, #144
	ret
.LBB11_641:                             // %"std_io::io::buffer::Buffer::push.exit.i1177.5"
	mov	w8, #32                         // =0x20
	strb	w8, [x20, x9]
	cmp	x9, #1023
	add	x8, x9, #1
	str	x8, [x19, #1032]
	b.lo	.LBB11_677
// %bb.642:                             // %join.3.i.i.i1186.6
	movi	v0.2d, #0000000000000000
	ldr	w1, [x19]
	mov	x0, sp
	add	x2, x19, #4
	mov	w3, #1024                       // =0x400
	str	xzr, [x19, #1032]
	stp	q0, q0, [sp]
	stp	q0, q0, [sp, #32]
	stp	q0, q0, [sp, #64]
	bl	"std_io::io::write_to"
	ldrb	w8, [sp]
	cbnz	w8, .LBB11_711
// %bb.643:                             // %after.1.i.i1193.6
	ldr	x8, [x19, #1032]
	cmp	x8, #1023
	b.ls	.LBB11_677
// %bb.644:
	mov	w0, #1                          // =0x1
	ldp	x20, x19, [sp, #128]            // 16-byte Folded Reload
	ldp	x22, x21, [sp, #112]            // 16-byte Folded Reload
	ldp	x29, x30, [sp, #96]             // 16-byte Folded Reload
	add	sp, sp, #144
	ret
.LBB11_645:                             // %"std_io::io::buffer::Buffer::push.exit.i1721.5"
	mov	w8, #111                        // =0x6f
	strb	w8, [x20, x9]
	cmp	x9, #1023
	add	x8, x9, #1
	str	x8, [x19, #1032]
	b.lo	.LBB11_681
// %bb.646:                             // %join.3.i.i.i1730.6
	movi	v0.2d, #0000000000000000
	ldr	w1, [x19]
	mov	x0, sp
	add	x2, x19, #4
	mov	w3, #1024                       // =0x400
	str	xzr, [x19, #1032]
	stp	q0, q0, [sp]
	stp	q0, q0, [sp, #32]
	stp	q0, q0, [sp, #64]
	bl	"std_io::io::write_to"
	ldrb	w8, [sp]
	cbnz	w8, .LBB11_771
// %bb.647:                             // %after.1.i.i1737.6
	ldr	x8, [x19, #1032]
	cmp	x8, #1023
	b.ls	.LBB11_681
// %bb.648:
	mov	w0, #1                          // =0x1
	ldp	x20, x19, [sp, #128]            // 16-byte Folded Reload
	ldp	x22, x21, [sp, #112]            // 16-byte Folded Reload
	ldp	x29, x30, [sp, #96]             // 16-byte Folded Reload
	add	sp, sp, #144
	ret
.LBB11_649:                             // %"std_io::io::buffer::Buffer::push.exit.i1209.5"
	mov	w8, #32                         // =0x20
	strb	w8, [x20, x9]
	cmp	x9, #1023
	add	x8, x9, #1
	str	x8, [x19, #1032]
	b.lo	.LBB11_685
// %bb.650:                             // %join.3.i.i.i1218.6
	movi	v0.2d, #0000000000000000
	ldr	w1, [x19]
	mov	x0, sp
	add	x2, x19, #4
	mov	w3, #1024                       // =0x400
	str	xzr, [x19, #1032]
	stp	q0, q0, [sp]
	stp	q0, q0, [sp, #32]
	stp	q0, q0, [sp, #64]
	bl	"std_io::io::write_to"
	ldrb	w8, [sp]
	cbnz	w8, .LBB11_747
// %bb.651:                             // %after.1.i.i1225.6
	ldr	x8, [x19, #1032]
	cmp	x8, #1023
	b.ls	.LBB11_685
// %bb.652:
	mov	w0, #1                          // =0x1
	ldp	x20, x19, [sp, #128]            // 16-byte Folded Reload
	ldp	x22, x21, [sp, #112]            // 16-byte Folded Reload
	ldp	x29, x30, [sp, #96]             // 16-byte Folded Reload
	add	sp, sp, #144
	ret
.LBB11_653:                             // %"std_io::io::buffer::Buffer::push.exit.i1625.6"
	mov	w9, #111                        // =0x6f
	strb	w9, [x20, x8]
	cmp	x8, #1023
	add	x9, x8, #1
	str	x9, [x19, #1032]
	b.lo	.LBB11_689
// %bb.654:                             // %join.3.i.i.i1634.7
	movi	v0.2d, #0000000000000000
	ldr	w1, [x19]
	mov	x0, sp
	add	x2, x19, #4
	mov	w3, #1024                       // =0x400
	str	xzr, [x19, #1032]
	stp	q0, q0, [sp]
	stp	q0, q0, [sp, #32]
	stp	q0, q0, [sp, #64]
	bl	"std_io::io::write_to"
	ldrb	w8, [sp]
	cbnz	w8, .LBB11_751
// %bb.655:                             // %after.1.i.i1641.7
	ldr	x9, [x19, #1032]
	cmp	x9, #1023
	b.ls	.LBB11_689
// %bb.656:
	mov	w0, #1                          // =0x1
	ldp	x20, x19, [sp, #128]            // 16-byte Folded Reload
	ldp	x22, x21, [sp, #112]            // 16-byte Folded Reload
	ldp	x29, x30, [sp, #96]             // 16-byte Folded Reload
	add	sp, sp, #144
	ret
.LBB11_657:                             // %"std_io::io::buffer::Buffer::push.exit.i825.6"
	mov	w9, #32                         // =0x20
	strb	w9, [x20, x8]
	cmp	x8, #1023
	add	x9, x8, #1
	str	x9, [x19, #1032]
	b.lo	.LBB11_693
// %bb.658:                             // %join.3.i.i.i834.7
	movi	v0.2d, #0000000000000000
	ldr	w1, [x19]
	mov	x0, sp
	add	x2, x19, #4
	mov	w3, #1024                       // =0x400
	str	xzr, [x19, #1032]
	stp	q0, q0, [sp]
	stp	q0, q0, [sp, #32]
	stp	q0, q0, [sp, #64]
	bl	"std_io::io::write_to"
	ldrb	w8, [sp]
	cbnz	w8, .LBB11_755
// %bb.659:                             // %after.1.i.i841.7
	ldr	x9, [x19, #1032]
	cmp	x9, #1023
	b.ls	.LBB11_693
// %bb.660:
	mov	w0, #1                          // =0x1
	ldp	x20, x19, [sp, #128]            // 16-byte Folded Reload
	ldp	x22, x21, [sp, #112]            // 16-byte Folded Reload
	ldp	x29, x30, [sp, #96]             // 16-byte Folded Reload
	add	sp, sp, #144
	ret
.LBB11_661:                             // %"std_io::io::buffer::Buffer::push.exit.i1753.6"
	mov	w9, #101                        // =0x65
	strb	w9, [x20, x8]
	cmp	x8, #1023
	add	x9, x8, #1
	str	x9, [x19, #1032]
	b.lo	.LBB11_697
// %bb.662:                             // %join.3.i.i.i1762.7
	movi	v0.2d, #0000000000000000
	ldr	w1, [x19]
	mov	x0, sp
	add	x2, x19, #4
	mov	w3, #1024                       // =0x400
	str	xzr, [x19, #1032]
	stp	q0, q0, [sp]
	stp	q0, q0, [sp, #32]
	stp	q0, q0, [sp, #64]
	bl	"std_io::io::write_to"
	ldrb	w8, [sp]
	cbnz	w8, .LBB11_759
// %bb.663:                             // %after.1.i.i1769.7
	ldr	x9, [x19, #1032]
	cmp	x9, #1023
	b.ls	.LBB11_697
// %bb.664:
	mov	w0, #1                          // =0x1
	ldp	x20, x19, [sp, #128]            // 16-byte Folded Reload
	ldp	x22, x21, [sp, #112]            // 16-byte Folded Reload
	ldp	x29, x30, [sp, #96]             // 16-byte Folded Reload
	add	sp, sp, #144
	ret
.LBB11_665:                             // %"std_io::io::buffer::Buffer::push.exit.i1145.6"
	mov	w9, #100                        // =0x64
	strb	w9, [x20, x8]
	cmp	x8, #1023
	add	x9, x8, #1
	str	x9, [x19, #1032]
	b.lo	.LBB11_701
// %bb.666:                             // %join.3.i.i.i1154.7
	movi	v0.2d, #0000000000000000
	ldr	w1, [x19]
	mov	x0, sp
	add	x2, x19, #4
	mov	w3, #1024                       // =0x400
	str	xzr, [x19, #1032]
	stp	q0, q0, [sp]
	stp	q0, q0, [sp, #32]
	stp	q0, q0, [sp, #64]
	bl	"std_io::io::write_to"
	ldrb	w8, [sp]
	cbnz	w8, .LBB11_778
// %bb.667:                             // %after.1.i.i1161.7
	ldr	x9, [x19, #1032]
	cmp	x9, #1023
	b.ls	.LBB11_701
// %bb.668:
	mov	w0, #1                          // =0x1
	ldp	x20, x19, [sp, #128]            // 16-byte Folded Reload
	ldp	x22, x21, [sp, #112]            // 16-byte Folded Reload
	ldp	x29, x30, [sp, #96]             // 16-byte Folded Reload
	add	sp, sp, #144
	ret
.LBB11_669:                             // %"std_io::io::buffer::Buffer::push.exit.i793.6"
	mov	w9, #107                        // =0x6b
	strb	w9, [x20, x8]
	cmp	x8, #1023
	add	x9, x8, #1
	str	x9, [x19, #1032]
	b.lo	.LBB11_705
// %bb.670:                             // %join.3.i.i.i802.7
	movi	v0.2d, #0000000000000000
	ldr	w1, [x19]
	mov	x0, sp
	add	x2, x19, #4
	mov	w3, #1024                       // =0x400
	str	xzr, [x19, #1032]
	stp	q0, q0, [sp]
	stp	q0, q0, [sp, #32]
	stp	q0, q0, [sp, #64]
	bl	"std_io::io::write_to"
	ldrb	w8, [sp]
	cbnz	w8, .LBB11_782
// %bb.671:                             // %after.1.i.i809.7
	ldr	x9, [x19, #1032]
	cmp	x9, #1023
	b.ls	.LBB11_705
// %bb.672:
	mov	w0, #1                          // =0x1
	ldp	x20, x19, [sp, #128]            // 16-byte Folded Reload
	ldp	x22, x21, [sp, #112]            // 16-byte Folded Reload
	ldp	x29, x30, [sp, #96]             // 16-byte Folded Reload
	add	sp, sp, #144
	ret
.LBB11_673:                             // %"std_io::io::buffer::Buffer::push.exit.i1433.6"
	mov	w9, #99                         // =0x63
	strb	w9, [x20, x8]
	cmp	x8, #1023
	add	x9, x8, #1
	str	x9, [x19, #1032]
	b.lo	.LBB11_775
// %bb.674:                             // %join.3.i.i.i1442.7
	movi	v0.2d, #0000000000000000
	ldr	w1, [x19]
	mov	x0, sp
	add	x2, x19, #4
	mov	w3, #1024                       // =0x400
	str	xzr, [x19, #1032]
	stp	q0, q0, [sp]
	stp	q0, q0, [sp, #32]
	stp	q0, q0, [sp, #64]
	bl	"std_io::io::write_to"
	ldrb	w8, [sp]
	cbz	w8, .LBB11_773
.LBB11_675:                             // %arm.5.i.i.i1445
	mov	w8, #1                          // =0x1
	ldur	q0, [sp, #40]
	ldur	q1, [sp, #56]
	str	x8, [x19, #1040]
	add	x8, x19, #1048
	ldr	x9, [sp, #88]
	ldur	q2, [sp, #72]
	stp	q0, q1, [x8, #32]
	ldur	q0, [sp, #8]
	ldur	q1, [sp, #24]
	str	x9, [x19, #1128]
	str	q2, [x8, #64]
	stp	q0, q1, [x8]
.LBB11_676:                             // %"std_io::io::buffer::Buffer::flush.exit.thread.i.i1441"
	mov	w0, #1                          // =0x1
	ldp	x20, x19, [sp, #128]            // 16-byte Folded Reload
	ldp	x22, x21, [sp, #112]            // 16-byte Folded Reload
	ldp	x29, x30, [sp, #96]             // 16-byte Folded Reload
	add	sp, sp, #144
	ret
.LBB11_677:                             // %"std_io::io::buffer::Buffer::push.exit.i1177.6"
	mov	w9, #111                        // =0x6f
	strb	w9, [x20, x8]
	cmp	x8, #1023
	add	x9, x8, #1
	str	x9, [x19, #1032]
	b.lo	.LBB11_709
// %bb.678:                             // %join.3.i.i.i1186.7
	movi	v0.2d, #0000000000000000
	ldr	w1, [x19]
	mov	x0, sp
	add	x2, x19, #4
	mov	w3, #1024                       // =0x400
	str	xzr, [x19, #1032]
	stp	q0, q0, [sp]
	stp	q0, q0, [sp, #32]
	stp	q0, q0, [sp, #64]
	bl	"std_io::io::write_to"
	ldrb	w8, [sp]
	cbnz	w8, .LBB11_711
// %bb.679:                             // %after.1.i.i1193.7
	ldr	x9, [x19, #1032]
	cmp	x9, #1023
	b.ls	.LBB11_709
// %bb.680:
	mov	w0, #1                          // =0x1
	ldp	x20, x19, [sp, #128]            // 16-byte Folded Reload
	ldp	x22, x21, [sp, #112]            // 16-byte Folded Reload
	ldp	x29, x30, [sp, #96]             // 16-byte Folded Reload
	add	sp, sp, #144
	ret
.LBB11_681:                             // %"std_io::io::buffer::Buffer::push.exit.i1721.6"
	mov	w9, #103                        // =0x67
	strb	w9, [x20, x8]
	cmp	x8, #1023
	add	x9, x8, #1
	str	x9, [x19, #1032]
	b.lo	.LBB11_713
// %bb.682:                             // %join.3.i.i.i1730.7
	movi	v0.2d, #0000000000000000
	ldr	w1, [x19]
	mov	x0, sp
	add	x2, x19, #4
	mov	w3, #1024                       // =0x400
	str	xzr, [x19, #1032]
	stp	q0, q0, [sp]
	stp	q0, q0, [sp, #32]
	stp	q0, q0, [sp, #64]
	bl	"std_io::io::write_to"
	ldrb	w8, [sp]
	cbnz	w8, .LBB11_771
// %bb.683:                             // %after.1.i.i1737.7
	ldr	x9, [x19, #1032]
	cmp	x9, #1023
	b.ls	.LBB11_713
// %bb.684:
	mov	w0, #1                          // =0x1
	ldp	x20, x19, [sp, #128]            // 16-byte Folded Reload
	ldp	x22, x21, [sp, #112]            // 16-byte Folded Reload
	ldp	x29, x30, [sp, #96]             // 16-byte Folded Reload
	add	sp, sp, #144
	ret
.LBB11_685:                             // %"std_io::io::buffer::Buffer::push.exit.i1209.6"
	mov	w9, #122                        // =0x7a
	strb	w9, [x20, x8]
	cmp	x8, #1023
	add	x9, x8, #1
	str	x9, [x19, #1032]
	b.lo	.LBB11_717
// %bb.686:                             // %join.3.i.i.i1218.7
	movi	v0.2d, #0000000000000000
	ldr	w1, [x19]
	mov	x0, sp
	add	x2, x19, #4
	mov	w3, #1024                       // =0x400
	str	xzr, [x19, #1032]
	stp	q0, q0, [sp]
	stp	q0, q0, [sp, #32]
	stp	q0, q0, [sp, #64]
	bl	"std_io::io::write_to"
	ldrb	w8, [sp]
	cbnz	w8, .LBB11_747
// %bb.687:                             // %after.1.i.i1225.7
	ldr	x9, [x19, #1032]
	cmp	x9, #1023
	b.ls	.LBB11_717
// %bb.688:
	mov	w0, #1                          // =0x1
	ldp	x20, x19, [sp, #128]            // 16-byte Folded Reload
	ldp	x22, x21, [sp, #112]            // 16-byte Folded Reload
	ldp	x29, x30, [sp, #96]             // 16-byte Folded Reload
	add	sp, sp, #144
	ret
.LBB11_689:                             // %"std_io::io::buffer::Buffer::push.exit.i1625.7"
	mov	w8, #114                        // =0x72
	strb	w8, [x20, x9]
	cmp	x9, #1023
	add	x8, x9, #1
	str	x8, [x19, #1032]
	b.lo	.LBB11_721
// %bb.690:                             // %join.3.i.i.i1634.8
	movi	v0.2d, #0000000000000000
	ldr	w1, [x19]
	mov	x0, sp
	add	x2, x19, #4
	mov	w3, #1024                       // =0x400
	str	xzr, [x19, #1032]
	stp	q0, q0, [sp]
	stp	q0, q0, [sp, #32]
	stp	q0, q0, [sp, #64]
	bl	"std_io::io::write_to"
	ldrb	w8, [sp]
	cbnz	w8, .LBB11_751
// %bb.691:                             // %after.1.i.i1641.8
	ldr	x8, [x19, #1032]
	cmp	x8, #1023
	b.ls	.LBB11_721
// %bb.692:
	mov	w0, #1                          // =0x1
	ldp	x20, x19, [sp, #128]            // 16-byte Folded Reload
	ldp	x22, x21, [sp, #112]            // 16-byte Folded Reload
	ldp	x29, x30, [sp, #96]             // 16-byte Folded Reload
	add	sp, sp, #144
	ret
.LBB11_693:                             // %"std_io::io::buffer::Buffer::push.exit.i825.7"
	mov	w8, #112                        // =0x70
	strb	w8, [x20, x9]
	cmp	x9, #1023
	add	x8, x9, #1
	str	x8, [x19, #1032]
	b.lo	.LBB11_725
// %bb.694:                             // %join.3.i.i.i834.8
	movi	v0.2d, #0000000000000000
	ldr	w1, [x19]
	mov	x0, sp
	add	x2, x19, #4
	mov	w3, #1024                       // =0x400
	str	xzr, [x19, #1032]
	stp	q0, q0, [sp]
	stp	q0, q0, [sp, #32]
	stp	q0, q0, [sp, #64]
	bl	"std_io::io::write_to"
	ldrb	w8, [sp]
	cbnz	w8, .LBB11_755
// %bb.695:                             // %after.1.i.i841.8
	ldr	x8, [x19, #1032]
	cmp	x8, #1023
	b.ls	.LBB11_725
// %bb.696:
	mov	w0, #1                          // =0x1
	ldp	x20, x19, [sp, #128]            // 16-byte Folded Reload
	ldp	x22, x21, [sp, #112]            // 16-byte Folded Reload
	ldp	x29, x30, [sp, #96]             // 16-byte Folded Reload
	add	sp, sp, #144
	ret
.LBB11_697:                             // %"std_io::io::buffer::Buffer::push.exit.i1753.7"
	mov	w21, #114                       // =0x72
	add	x10, x9, #1
	cmp	x9, #1023
	strb	w21, [x20, x9]
	str	x10, [x19, #1032]
	b.lo	.LBB11_729
// %bb.698:                             // %join.3.i.i.i1762.8
	movi	v0.2d, #0000000000000000
	ldr	w1, [x19]
	mov	x0, sp
	add	x2, x19, #4
	mov	w3, #1024                       // =0x400
	str	xzr, [x19, #1032]
	stp	q0, q0, [sp]
	stp	q0, q0, [sp, #32]
	stp	q0, q0, [sp, #64]
	bl	"std_io::io::write_to"
	ldrb	w8, [sp]
	cbnz	w8, .LBB11_759
// %bb.699:                             // %after.1.i.i1769.8
	ldr	x10, [x19, #1032]
	cmp	x10, #1023
	b.ls	.LBB11_729
// %bb.700:
	mov	w0, #1                          // =0x1
	ldp	x20, x19, [sp, #128]            // 16-byte Folded Reload
	ldp	x22, x21, [sp, #112]            // 16-byte Folded Reload
	ldp	x29, x30, [sp, #96]             // 16-byte Folded Reload
	add	sp, sp, #144
	ret
.LBB11_701:                             // %"std_io::io::buffer::Buffer::push.exit.i1145.7"
	mov	w8, #32                         // =0x20
	strb	w8, [x20, x9]
	cmp	x9, #1023
	add	x8, x9, #1
	str	x8, [x19, #1032]
	b.lo	.LBB11_733
// %bb.702:                             // %join.3.i.i.i1154.8
	movi	v0.2d, #0000000000000000
	ldr	w1, [x19]
	mov	x0, sp
	add	x2, x19, #4
	mov	w3, #1024                       // =0x400
	str	xzr, [x19, #1032]
	stp	q0, q0, [sp]
	stp	q0, q0, [sp, #32]
	stp	q0, q0, [sp, #64]
	bl	"std_io::io::write_to"
	ldrb	w8, [sp]
	cbnz	w8, .LBB11_778
// %bb.703:                             // %after.1.i.i1161.8
	ldr	x8, [x19, #1032]
	cmp	x8, #1023
	b.ls	.LBB11_733
// %bb.704:
	mov	w0, #1                          // =0x1
	ldp	x20, x19, [sp, #128]            // 16-byte Folded Reload
	ldp	x22, x21, [sp, #112]            // 16-byte Folded Reload
	ldp	x29, x30, [sp, #96]             // 16-byte Folded Reload
	add	sp, sp, #144
	ret
.LBB11_705:                             // %"std_io::io::buffer::Buffer::push.exit.i793.7"
	mov	w8, #32                         // =0x20
	strb	w8, [x20, x9]
	cmp	x9, #1023
	add	x8, x9, #1
	str	x8, [x19, #1032]
	b.lo	.LBB11_737
// %bb.706:                             // %join.3.i.i.i802.8
	movi	v0.2d, #0000000000000000
	ldr	w1, [x19]
	mov	x0, sp
	add	x2, x19, #4
	mov	w3, #1024                       // =0x400
	str	xzr, [x19, #1032]
	stp	q0, q0, [sp]
	stp	q0, q0, [sp, #32]
	stp	q0, q0, [sp, #64]
	bl	"std_io::io::write_to"
	ldrb	w8, [sp]
	cbnz	w8, .LBB11_782
// %bb.707:                             // %after.1.i.i809.8
	ldr	x8, [x19, #1032]
	cmp	x8, #1023
	b.ls	.LBB11_737
// %bb.708:
	mov	w0, #1                          // =0x1
	ldp	x20, x19, [sp, #128]            // 16-byte Folded Reload
	ldp	x22, x21, [sp, #112]            // 16-byte Folded Reload
	ldp	x29, x30, [sp, #96]             // 16-byte Folded Reload
	add	sp, sp, #144
	ret
.LBB11_709:                             // %"std_io::io::buffer::Buffer::push.exit.i1177.7"
	mov	w8, #117                        // =0x75
	strb	w8, [x20, x9]
	cmp	x9, #1023
	add	x8, x9, #1
	str	x8, [x19, #1032]
	b.lo	.LBB11_787
// %bb.710:                             // %join.3.i.i.i1186.8
	movi	v0.2d, #0000000000000000
	ldr	w1, [x19]
	mov	x0, sp
	add	x2, x19, #4
	mov	w3, #1024                       // =0x400
	str	xzr, [x19, #1032]
	stp	q0, q0, [sp]
	stp	q0, q0, [sp, #32]
	stp	q0, q0, [sp, #64]
	bl	"std_io::io::write_to"
	ldrb	w8, [sp]
	cbz	w8, .LBB11_785
.LBB11_711:                             // %arm.5.i.i.i1189
	mov	w8, #1                          // =0x1
	ldur	q0, [sp, #40]
	ldur	q1, [sp, #56]
	str	x8, [x19, #1040]
	add	x8, x19, #1048
	ldr	x9, [sp, #88]
	ldur	q2, [sp, #72]
	stp	q0, q1, [x8, #32]
	ldur	q0, [sp, #8]
	ldur	q1, [sp, #24]
	str	x9, [x19, #1128]
	str	q2, [x8, #64]
	stp	q0, q1, [x8]
.LBB11_712:                             // %"std_io::io::buffer::Buffer::flush.exit.thread.i.i1185"
	mov	w0, #1                          // =0x1
	ldp	x20, x19, [sp, #128]            // 16-byte Folded Reload
	ldp	x22, x21, [sp, #112]            // 16-byte Folded Reload
	ldp	x29, x30, [sp, #96]             // 16-byte Folded Reload
	add	sp, sp, #144
	ret
.LBB11_713:                             // %"std_io::io::buffer::Buffer::push.exit.i1721.7"
	mov	w8, #114                        // =0x72
	strb	w8, [x20, x9]
	cmp	x9, #1023
	add	x8, x9, #1
	str	x8, [x19, #1032]
	b.lo	.LBB11_741
// %bb.714:                             // %join.3.i.i.i1730.8
	movi	v0.2d, #0000000000000000
	ldr	w1, [x19]
	mov	x0, sp
	add	x2, x19, #4
	mov	w3, #1024                       // =0x400
	str	xzr, [x19, #1032]
	stp	q0, q0, [sp]
	stp	q0, q0, [sp, #32]
	stp	q0, q0, [sp, #64]
	bl	"std_io::io::write_to"
	ldrb	w8, [sp]
	cbnz	w8, .LBB11_771
// %bb.715:                             // %after.1.i.i1737.8
	ldr	x8, [x19, #1032]
	cmp	x8, #1023
	b.ls	.LBB11_741
// %bb.716:
	mov	w0, #1                          // =0x1
	ldp	x20, x19, [sp, #128]            // 16-byte Folded Reload
	ldp	x22, x21, [sp, #112]            // 16-byte Folded Reload
	ldp	x29, x30, [sp, #96]             // 16-byte Folded Reload
	add	sp, sp, #144
	ret
.LBB11_717:                             // %"std_io::io::buffer::Buffer::push.exit.i1209.7"
	mov	w8, #101                        // =0x65
	strb	w8, [x20, x9]
	cmp	x9, #1023
	add	x8, x9, #1
	str	x8, [x19, #1032]
	b.lo	.LBB11_745
// %bb.718:                             // %join.3.i.i.i1218.8
	movi	v0.2d, #0000000000000000
	ldr	w1, [x19]
	mov	x0, sp
	add	x2, x19, #4
	mov	w3, #1024                       // =0x400
	str	xzr, [x19, #1032]
	stp	q0, q0, [sp]
	stp	q0, q0, [sp, #32]
	stp	q0, q0, [sp, #64]
	bl	"std_io::io::write_to"
	ldrb	w8, [sp]
	cbnz	w8, .LBB11_747
// %bb.719:                             // %after.1.i.i1225.8
	ldr	x8, [x19, #1032]
	cmp	x8, #1023
	b.ls	.LBB11_745
// %bb.720:
	mov	w0, #1                          // =0x1
	ldp	x20, x19, [sp, #128]            // 16-byte Folded Reload
	ldp	x22, x21, [sp, #112]            // 16-byte Folded Reload
	ldp	x29, x30, [sp, #96]             // 16-byte Folded Reload
	add	sp, sp, #144
	ret
.LBB11_721:                             // %"std_io::io::buffer::Buffer::push.exit.i1625.8"
	mov	w9, #116                        // =0x74
	strb	w9, [x20, x8]
	cmp	x8, #1023
	add	x9, x8, #1
	str	x9, [x19, #1032]
	b.lo	.LBB11_749
// %bb.722:                             // %join.3.i.i.i1634.9
	movi	v0.2d, #0000000000000000
	ldr	w1, [x19]
	mov	x0, sp
	add	x2, x19, #4
	mov	w3, #1024                       // =0x400
	str	xzr, [x19, #1032]
	stp	q0, q0, [sp]
	stp	q0, q0, [sp, #32]
	stp	q0, q0, [sp, #64]
	bl	"std_io::io::write_to"
	ldrb	w8, [sp]
	cbnz	w8, .LBB11_751
// %bb.723:                             // %after.1.i.i1641.9
	ldr	x9, [x19, #1032]
	cmp	x9, #1023
	b.ls	.LBB11_749
// %bb.724:
	mov	w0, #1                          // =0x1
	ldp	x20, x19, [sp, #128]            // 16-byte Folded Reload
	ldp	x22, x21, [sp, #112]            // 16-byte Folded Reload
	ldp	x29, x30, [sp, #96]             // 16-byte Folded Reload
	add	sp, sp, #144
	ret
.LBB11_725:                             // %"std_io::io::buffer::Buffer::push.exit.i825.8"
	mov	w9, #105                        // =0x69
	strb	w9, [x20, x8]
	cmp	x8, #1023
	add	x9, x8, #1
	str	x9, [x19, #1032]
	b.lo	.LBB11_753
// %bb.726:                             // %join.3.i.i.i834.9
	movi	v0.2d, #0000000000000000
	ldr	w1, [x19]
	mov	x0, sp
	add	x2, x19, #4
	mov	w3, #1024                       // =0x400
	str	xzr, [x19, #1032]
	stp	q0, q0, [sp]
	stp	q0, q0, [sp, #32]
	stp	q0, q0, [sp, #64]
	bl	"std_io::io::write_to"
	ldrb	w8, [sp]
	cbnz	w8, .LBB11_755
// %bb.727:                             // %after.1.i.i841.9
	ldr	x9, [x19, #1032]
	cmp	x9, #1023
	b.ls	.LBB11_753
// %bb.728:
	mov	w0, #1                          // =0x1
	ldp	x20, x19, [sp, #128]            // 16-byte Folded Reload
	ldp	x22, x21, [sp, #112]            // 16-byte Folded Reload
	ldp	x29, x30, [sp, #96]             // 16-byte Folded Reload
	add	sp, sp, #144
	ret
.LBB11_729:                             // %"std_io::io::buffer::Buffer::push.exit.i1753.8"
	add	x8, x10, #1
	cmp	x10, #1023
	strb	w21, [x20, x10]
	str	x8, [x19, #1032]
	b.lo	.LBB11_757
// %bb.730:                             // %join.3.i.i.i1762.9
	movi	v0.2d, #0000000000000000
	ldr	w1, [x19]
	mov	x0, sp
	add	x2, x19, #4
	mov	w3, #1024                       // =0x400
	str	xzr, [x19, #1032]
	stp	q0, q0, [sp]
	stp	q0, q0, [sp, #32]
	stp	q0, q0, [sp, #64]
	bl	"std_io::io::write_to"
	ldrb	w8, [sp]
	cbnz	w8, .LBB11_759
// %bb.731:                             // %after.1.i.i1769.9
	ldr	x8, [x19, #1032]
	cmp	x8, #1023
	b.ls	.LBB11_757
// %bb.732:
	mov	w0, #1                          // =0x1
	ldp	x20, x19, [sp, #128]            // 16-byte Folded Reload
	ldp	x22, x21, [sp, #112]            // 16-byte Folded Reload
	ldp	x29, x30, [sp, #96]             // 16-byte Folded Reload
	add	sp, sp, #144
	ret
.LBB11_733:                             // %"std_io::io::buffer::Buffer::push.exit.i1145.8"
	mov	w9, #100                        // =0x64
	strb	w9, [x20, x8]
	cmp	x8, #1023
	add	x9, x8, #1
	str	x9, [x19, #1032]
	b.lo	.LBB11_761
// %bb.734:                             // %join.3.i.i.i1154.9
	movi	v0.2d, #0000000000000000
	ldr	w1, [x19]
	mov	x0, sp
	add	x2, x19, #4
	mov	w3, #1024                       // =0x400
	str	xzr, [x19, #1032]
	stp	q0, q0, [sp]
	stp	q0, q0, [sp, #32]
	stp	q0, q0, [sp, #64]
	bl	"std_io::io::write_to"
	ldrb	w8, [sp]
	cbnz	w8, .LBB11_778
// %bb.735:                             // %after.1.i.i1161.9
	ldr	x9, [x19, #1032]
	cmp	x9, #1023
	b.ls	.LBB11_761
// %bb.736:
	mov	w0, #1                          // =0x1
	ldp	x20, x19, [sp, #128]            // 16-byte Folded Reload
	ldp	x22, x21, [sp, #112]            // 16-byte Folded Reload
	ldp	x29, x30, [sp, #96]             // 16-byte Folded Reload
	add	sp, sp, #144
	ret
.LBB11_737:                             // %"std_io::io::buffer::Buffer::push.exit.i793.8"
	mov	w9, #100                        // =0x64
	strb	w9, [x20, x8]
	cmp	x8, #1023
	add	x9, x8, #1
	str	x9, [x19, #1032]
	b.lo	.LBB11_765
// %bb.738:                             // %join.3.i.i.i802.9
	movi	v0.2d, #0000000000000000
	ldr	w1, [x19]
	mov	x0, sp
	add	x2, x19, #4
	mov	w3, #1024                       // =0x400
	str	xzr, [x19, #1032]
	stp	q0, q0, [sp]
	stp	q0, q0, [sp, #32]
	stp	q0, q0, [sp, #64]
	bl	"std_io::io::write_to"
	ldrb	w8, [sp]
	cbnz	w8, .LBB11_782
// %bb.739:                             // %after.1.i.i809.9
	ldr	x9, [x19, #1032]
	cmp	x9, #1023
	b.ls	.LBB11_765
// %bb.740:
	mov	w0, #1                          // =0x1
	ldp	x20, x19, [sp, #128]            // 16-byte Folded Reload
	ldp	x22, x21, [sp, #112]            // 16-byte Folded Reload
	ldp	x29, x30, [sp, #96]             // 16-byte Folded Reload
	add	sp, sp, #144
	ret
.LBB11_741:                             // %"std_io::io::buffer::Buffer::push.exit.i1721.8"
	mov	w9, #101                        // =0x65
	strb	w9, [x20, x8]
	cmp	x8, #1023
	add	x9, x8, #1
	str	x9, [x19, #1032]
	b.lo	.LBB11_769
// %bb.742:                             // %join.3.i.i.i1730.9
	movi	v0.2d, #0000000000000000
	ldr	w1, [x19]
	mov	x0, sp
	add	x2, x19, #4
	mov	w3, #1024                       // =0x400
	str	xzr, [x19, #1032]
	stp	q0, q0, [sp]
	stp	q0, q0, [sp, #32]
	stp	q0, q0, [sp, #64]
	bl	"std_io::io::write_to"
	ldrb	w8, [sp]
	cbnz	w8, .LBB11_771
// %bb.743:                             // %after.1.i.i1737.9
	ldr	x9, [x19, #1032]
	cmp	x9, #1023
	b.ls	.LBB11_769
// %bb.744:
	mov	w0, #1                          // =0x1
	ldp	x20, x19, [sp, #128]            // 16-byte Folded Reload
	ldp	x22, x21, [sp, #112]            // 16-byte Folded Reload
	ldp	x29, x30, [sp, #96]             // 16-byte Folded Reload
	add	sp, sp, #144
	ret
.LBB11_745:                             // %"std_io::io::buffer::Buffer::push.exit.i1209.8"
	mov	w9, #114                        // =0x72
	strb	w9, [x20, x8]
	cmp	x8, #1023
	add	x9, x8, #1
	str	x9, [x19, #1032]
	b.lo	.LBB11_790
// %bb.746:                             // %join.3.i.i.i1218.9
	movi	v0.2d, #0000000000000000
	ldr	w1, [x19]
	mov	x0, sp
	add	x2, x19, #4
	mov	w3, #1024                       // =0x400
	str	xzr, [x19, #1032]
	stp	q0, q0, [sp]
	stp	q0, q0, [sp, #32]
	stp	q0, q0, [sp, #64]
	bl	"std_io::io::write_to"
	ldrb	w8, [sp]
	cbz	w8, .LBB11_788
.LBB11_747:                             // %arm.5.i.i.i1221
	mov	w8, #1                          // =0x1
	ldur	q0, [sp, #40]
	ldur	q1, [sp, #56]
	str	x8, [x19, #1040]
	add	x8, x19, #1048
	ldr	x9, [sp, #88]
	ldur	q2, [sp, #72]
	stp	q0, q1, [x8, #32]
	ldur	q0, [sp, #8]
	ldur	q1, [sp, #24]
	str	x9, [x19, #1128]
	str	q2, [x8, #64]
	stp	q0, q1, [x8]
.LBB11_748:                             // %"std_io::io::buffer::Buffer::flush.exit.thread.i.i1217"
	mov	w0, #1                          // =0x1
	ldp	x20, x19, [sp, #128]            // 16-byte Folded Reload
	ldp	x22, x21, [sp, #112]            // 16-byte Folded Reload
	ldp	x29, x30, [sp, #96]             // 16-byte Folded Reload
	add	sp, sp, #144
	ret
.LBB11_749:                             // %"std_io::io::buffer::Buffer::push.exit.i1625.9"
	mov	w8, #101                        // =0x65
	strb	w8, [x20, x9]
	cmp	x9, #1023
	add	x8, x9, #1
	str	x8, [x19, #1032]
	b.lo	.LBB11_793
// %bb.750:                             // %join.3.i.i.i1634.10
	movi	v0.2d, #0000000000000000
	ldr	w1, [x19]
	mov	x0, sp
	add	x2, x19, #4
	mov	w3, #1024                       // =0x400
	str	xzr, [x19, #1032]
	stp	q0, q0, [sp]
	stp	q0, q0, [sp, #32]
	stp	q0, q0, [sp, #64]
	bl	"std_io::io::write_to"
	ldrb	w8, [sp]
	cbz	w8, .LBB11_791
.LBB11_751:                             // %arm.5.i.i.i1637
	mov	w8, #1                          // =0x1
	ldur	q0, [sp, #40]
	ldur	q1, [sp, #56]
	str	x8, [x19, #1040]
	add	x8, x19, #1048
	ldr	x9, [sp, #88]
	ldur	q2, [sp, #72]
	stp	q0, q1, [x8, #32]
	ldur	q0, [sp, #8]
	ldur	q1, [sp, #24]
	str	x9, [x19, #1128]
	str	q2, [x8, #64]
	stp	q0, q1, [x8]
.LBB11_752:                             // %"std_io::io::buffer::Buffer::flush.exit.thread.i.i1633"
	mov	w0, #1                          // =0x1
	ldp	x20, x19, [sp, #128]            // 16-byte Folded Reload
	ldp	x22, x21, [sp, #112]            // 16-byte Folded Reload
	ldp	x29, x30, [sp, #96]             // 16-byte Folded Reload
	add	sp, sp, #144
	ret
.LBB11_753:                             // %"std_io::io::buffer::Buffer::push.exit.i825.9"
	mov	w8, #112                        // =0x70
	strb	w8, [x20, x9]
	cmp	x9, #1023
	add	x8, x9, #1
	str	x8, [x19, #1032]
	b.lo	.LBB11_796
// %bb.754:                             // %join.3.i.i.i834.10
	movi	v0.2d, #0000000000000000
	ldr	w1, [x19]
	mov	x0, sp
	add	x2, x19, #4
	mov	w3, #1024                       // =0x400
	str	xzr, [x19, #1032]
	stp	q0, q0, [sp]
	stp	q0, q0, [sp, #32]
	stp	q0, q0, [sp, #64]
	bl	"std_io::io::write_to"
	ldrb	w8, [sp]
	cbz	w8, .LBB11_794
.LBB11_755:                             // %arm.5.i.i.i837
	mov	w8, #1                          // =0x1
	ldur	q0, [sp, #40]
	ldur	q1, [sp, #56]
	str	x8, [x19, #1040]
	add	x8, x19, #1048
	ldr	x9, [sp, #88]
	ldur	q2, [sp, #72]
	stp	q0, q1, [x8, #32]
	ldur	q0, [sp, #8]
	ldur	q1, [sp, #24]
	str	x9, [x19, #1128]
	str	q2, [x8, #64]
	stp	q0, q1, [x8]
.LBB11_756:                             // %"std_io::io::buffer::Buffer::flush.exit.thread.i.i833"
	mov	w0, #1                          // =0x1
	ldp	x20, x19, [sp, #128]            // 16-byte Folded Reload
	ldp	x22, x21, [sp, #112]            // 16-byte Folded Reload
	ldp	x29, x30, [sp, #96]             // 16-byte Folded Reload
	add	sp, sp, #144
	ret
.LBB11_757:                             // %"std_io::io::buffer::Buffer::push.exit.i1753.9"
	mov	w9, #111                        // =0x6f
	strb	w9, [x20, x8]
	cmp	x8, #1023
	add	x9, x8, #1
	str	x9, [x19, #1032]
	b.lo	.LBB11_801
// %bb.758:                             // %join.3.i.i.i1762.10
	movi	v0.2d, #0000000000000000
	ldr	w1, [x19]
	mov	x0, sp
	add	x2, x19, #4
	mov	w3, #1024                       // =0x400
	str	xzr, [x19, #1032]
	stp	q0, q0, [sp]
	stp	q0, q0, [sp, #32]
	stp	q0, q0, [sp, #64]
	bl	"std_io::io::write_to"
	ldrb	w8, [sp]
	cbz	w8, .LBB11_799
.LBB11_759:                             // %arm.5.i.i.i1765
	mov	w8, #1                          // =0x1
	ldur	q0, [sp, #40]
	ldur	q1, [sp, #56]
	str	x8, [x19, #1040]
	add	x8, x19, #1048
	ldr	x9, [sp, #88]
	ldur	q2, [sp, #72]
	stp	q0, q1, [x8, #32]
	ldur	q0, [sp, #8]
	ldur	q1, [sp, #24]
	str	x9, [x19, #1128]
	str	q2, [x8, #64]
	stp	q0, q1, [x8]
.LBB11_760:                             // %"std_io::io::buffer::Buffer::flush.exit.thread.i.i1761"
	mov	w0, #1                          // =0x1
	ldp	x20, x19, [sp, #128]            // 16-byte Folded Reload
	ldp	x22, x21, [sp, #112]            // 16-byte Folded Reload
	ldp	x29, x30, [sp, #96]             // 16-byte Folded Reload
	add	sp, sp, #144
	ret
.LBB11_761:                             // %"std_io::io::buffer::Buffer::push.exit.i1145.9"
	mov	w8, #97                         // =0x61
	strb	w8, [x20, x9]
	cmp	x9, #1023
	add	x8, x9, #1
	str	x8, [x19, #1032]
	b.lo	.LBB11_776
// %bb.762:                             // %join.3.i.i.i1154.10
	movi	v0.2d, #0000000000000000
	ldr	w1, [x19]
	mov	x0, sp
	add	x2, x19, #4
	mov	w3, #1024                       // =0x400
	str	xzr, [x19, #1032]
	stp	q0, q0, [sp]
	stp	q0, q0, [sp, #32]
	stp	q0, q0, [sp, #64]
	bl	"std_io::io::write_to"
	ldrb	w8, [sp]
	cbnz	w8, .LBB11_778
// %bb.763:                             // %after.1.i.i1161.10
	ldr	x8, [x19, #1032]
	cmp	x8, #1023
	b.ls	.LBB11_776
// %bb.764:
	mov	w0, #1                          // =0x1
	ldp	x20, x19, [sp, #128]            // 16-byte Folded Reload
	ldp	x22, x21, [sp, #112]            // 16-byte Folded Reload
	ldp	x29, x30, [sp, #96]             // 16-byte Folded Reload
	add	sp, sp, #144
	ret
.LBB11_765:                             // %"std_io::io::buffer::Buffer::push.exit.i793.9"
	mov	w8, #111                        // =0x6f
	strb	w8, [x20, x9]
	cmp	x9, #1023
	add	x8, x9, #1
	str	x8, [x19, #1032]
	b.lo	.LBB11_780
// %bb.766:                             // %join.3.i.i.i802.10
	movi	v0.2d, #0000000000000000
	ldr	w1, [x19]
	mov	x0, sp
	add	x2, x19, #4
	mov	w3, #1024                       // =0x400
	str	xzr, [x19, #1032]
	stp	q0, q0, [sp]
	stp	q0, q0, [sp, #32]
	stp	q0, q0, [sp, #64]
	bl	"std_io::io::write_to"
	ldrb	w8, [sp]
	cbnz	w8, .LBB11_782
// %bb.767:                             // %after.1.i.i809.10
	ldr	x8, [x19, #1032]
	cmp	x8, #1023
	b.ls	.LBB11_780
// %bb.768:
	mov	w0, #1                          // =0x1
	ldp	x20, x19, [sp, #128]            // 16-byte Folded Reload
	ldp	x22, x21, [sp, #112]            // 16-byte Folded Reload
	ldp	x29, x30, [sp, #96]             // 16-byte Folded Reload
	add	sp, sp, #144
	ret
.LBB11_769:                             // %"std_io::io::buffer::Buffer::push.exit.i1721.9"
	mov	w21, #115                       // =0x73
	add	x8, x9, #1
	cmp	x9, #1023
	strb	w21, [x20, x9]
	str	x8, [x19, #1032]
	b.lo	.LBB11_804
// %bb.770:                             // %join.3.i.i.i1730.10
	movi	v0.2d, #0000000000000000
	ldr	w1, [x19]
	mov	x0, sp
	add	x2, x19, #4
	mov	w3, #1024                       // =0x400
	str	xzr, [x19, #1032]
	stp	q0, q0, [sp]
	stp	q0, q0, [sp, #32]
	stp	q0, q0, [sp, #64]
	bl	"std_io::io::write_to"
	ldrb	w8, [sp]
	cbz	w8, .LBB11_802
.LBB11_771:                             // %arm.5.i.i.i1733
	mov	w8, #1                          // =0x1
	ldur	q0, [sp, #40]
	ldur	q1, [sp, #56]
	str	x8, [x19, #1040]
	add	x8, x19, #1048
	ldr	x9, [sp, #88]
	ldur	q2, [sp, #72]
	stp	q0, q1, [x8, #32]
	ldur	q0, [sp, #8]
	ldur	q1, [sp, #24]
	str	x9, [x19, #1128]
	str	q2, [x8, #64]
	stp	q0, q1, [x8]
.LBB11_772:                             // %"std_io::io::buffer::Buffer::flush.exit.thread.i.i1729"
	mov	w0, #1                          // =0x1
	ldp	x20, x19, [sp, #128]            // 16-byte Folded Reload
	ldp	x22, x21, [sp, #112]            // 16-byte Folded Reload
	ldp	x29, x30, [sp, #96]             // 16-byte Folded Reload
	add	sp, sp, #144
	ret
.LBB11_773:                             // %after.1.i.i1449.7
	ldr	x9, [x19, #1032]
	cmp	x9, #1023
	b.ls	.LBB11_775
// %bb.774:
	mov	w0, #1                          // =0x1
	ldp	x20, x19, [sp, #128]            // 16-byte Folded Reload
	ldp	x22, x21, [sp, #112]            // 16-byte Folded Reload
	ldp	x29, x30, [sp, #96]             // 16-byte Folded Reload
	add	sp, sp, #144
	ret
.LBB11_775:                             // %"std_io::io::buffer::Buffer::push.exit.i1433.7"
	mov	w0, wzr
	mov	w8, #107                        // =0x6b
	b	.LBB11_811
.LBB11_776:                             // %"std_io::io::buffer::Buffer::push.exit.i1145.10"
	mov	w9, #116                        // =0x74
	strb	w9, [x20, x8]
	cmp	x8, #1023
	add	x9, x8, #1
	str	x9, [x19, #1032]
	b.lo	.LBB11_807
// %bb.777:                             // %join.3.i.i.i1154.11
	movi	v0.2d, #0000000000000000
	ldr	w1, [x19]
	mov	x0, sp
	add	x2, x19, #4
	mov	w3, #1024                       // =0x400
	str	xzr, [x19, #1032]
	stp	q0, q0, [sp]
	stp	q0, q0, [sp, #32]
	stp	q0, q0, [sp, #64]
	bl	"std_io::io::write_to"
	ldrb	w8, [sp]
	cbz	w8, .LBB11_805
.LBB11_778:                             // %arm.5.i.i.i1157
	mov	w8, #1                          // =0x1
	ldur	q0, [sp, #40]
	ldur	q1, [sp, #56]
	str	x8, [x19, #1040]
	add	x8, x19, #1048
	ldr	x9, [sp, #88]
	ldur	q2, [sp, #72]
	stp	q0, q1, [x8, #32]
	ldur	q0, [sp, #8]
	ldur	q1, [sp, #24]
	str	x9, [x19, #1128]
	str	q2, [x8, #64]
	stp	q0, q1, [x8]
.LBB11_779:                             // %"std_io::io::buffer::Buffer::flush.exit.thread.i.i1153"
	mov	w0, #1                          // =0x1
	ldp	x20, x19, [sp, #128]            // 16-byte Folded Reload
	ldp	x22, x21, [sp, #112]            // 16-byte Folded Reload
	ldp	x29, x30, [sp, #96]             // 16-byte Folded Reload
	add	sp, sp, #144
	ret
.LBB11_780:                             // %"std_io::io::buffer::Buffer::push.exit.i793.10"
	mov	w9, #119                        // =0x77
	strb	w9, [x20, x8]
	cmp	x8, #1023
	add	x9, x8, #1
	str	x9, [x19, #1032]
	b.lo	.LBB11_810
// %bb.781:                             // %join.3.i.i.i802.11
	movi	v0.2d, #0000000000000000
	ldr	w1, [x19]
	mov	x0, sp
	add	x2, x19, #4
	mov	w3, #1024                       // =0x400
	str	xzr, [x19, #1032]
	stp	q0, q0, [sp]
	stp	q0, q0, [sp, #32]
	stp	q0, q0, [sp, #64]
	bl	"std_io::io::write_to"
	ldrb	w8, [sp]
	cbz	w8, .LBB11_808
.LBB11_782:                             // %arm.5.i.i.i805
	mov	w8, #1                          // =0x1
	ldur	q0, [sp, #40]
	ldur	q1, [sp, #56]
	str	x8, [x19, #1040]
	add	x8, x19, #1048
	ldr	x9, [sp, #88]
	ldur	q2, [sp, #72]
	stp	q0, q1, [x8, #32]
	ldur	q0, [sp, #8]
	ldur	q1, [sp, #24]
	str	x9, [x19, #1128]
	str	q2, [x8, #64]
	stp	q0, q1, [x8]
.LBB11_783:                             // %"std_io::io::buffer::Buffer::flush.exit.thread.i.i801"
	mov	w0, #1                          // =0x1
.LBB11_784:                             // %join.44
	ldp	x20, x19, [sp, #128]            // 16-byte Folded Reload
	ldp	x22, x21, [sp, #112]            // 16-byte Folded Reload
	ldp	x29, x30, [sp, #96]             // 16-byte Folded Reload
	add	sp, sp, #144
	ret
.LBB11_785:                             // %after.1.i.i1193.8
	ldr	x8, [x19, #1032]
	cmp	x8, #1023
	b.ls	.LBB11_787
// %bb.786:
	mov	w0, #1                          // =0x1
	ldp	x20, x19, [sp, #128]            // 16-byte Folded Reload
	ldp	x22, x21, [sp, #112]            // 16-byte Folded Reload
	ldp	x29, x30, [sp, #96]             // 16-byte Folded Reload
	add	sp, sp, #144
	ret
.LBB11_787:                             // %"std_io::io::buffer::Buffer::push.exit.i1177.8"
	mov	w0, wzr
	mov	w9, #116                        // =0x74
	b	.LBB11_797
.LBB11_788:                             // %after.1.i.i1225.9
	ldr	x9, [x19, #1032]
	cmp	x9, #1023
	b.ls	.LBB11_790
// %bb.789:
	mov	w0, #1                          // =0x1
	ldp	x20, x19, [sp, #128]            // 16-byte Folded Reload
	ldp	x22, x21, [sp, #112]            // 16-byte Folded Reload
	ldp	x29, x30, [sp, #96]             // 16-byte Folded Reload
	add	sp, sp, #144
	ret
.LBB11_790:                             // %"std_io::io::buffer::Buffer::push.exit.i1209.9"
	mov	w0, wzr
	mov	w8, #111                        // =0x6f
	b	.LBB11_811
.LBB11_791:                             // %after.1.i.i1641.10
	ldr	x8, [x19, #1032]
	cmp	x8, #1023
	b.ls	.LBB11_793
// %bb.792:
	mov	w0, #1                          // =0x1
	ldp	x20, x19, [sp, #128]            // 16-byte Folded Reload
	ldp	x22, x21, [sp, #112]            // 16-byte Folded Reload
	ldp	x29, x30, [sp, #96]             // 16-byte Folded Reload
	add	sp, sp, #144
	ret
.LBB11_793:                             // %"std_io::io::buffer::Buffer::push.exit.i1625.10"
	mov	w0, wzr
	mov	w9, #100                        // =0x64
	b	.LBB11_797
.LBB11_794:                             // %after.1.i.i841.10
	ldr	x8, [x19, #1032]
	cmp	x8, #1023
	b.ls	.LBB11_796
// %bb.795:
	mov	w0, #1                          // =0x1
	ldp	x20, x19, [sp, #128]            // 16-byte Folded Reload
	ldp	x22, x21, [sp, #112]            // 16-byte Folded Reload
	ldp	x29, x30, [sp, #96]             // 16-byte Folded Reload
	add	sp, sp, #144
	ret
.LBB11_796:                             // %"std_io::io::buffer::Buffer::push.exit.i825.10"
	mov	w0, wzr
	mov	w9, #101                        // =0x65
.LBB11_797:                             // %join.44
	strb	w9, [x20, x8]
.LBB11_798:                             // %join.44
	add	x8, x8, #1
	str	x8, [x19, #1032]
	ldp	x20, x19, [sp, #128]            // 16-byte Folded Reload
	ldp	x22, x21, [sp, #112]            // 16-byte Folded Reload
	ldp	x29, x30, [sp, #96]             // 16-byte Folded Reload
	add	sp, sp, #144
	ret
.LBB11_799:                             // %after.1.i.i1769.10
	ldr	x9, [x19, #1032]
	cmp	x9, #1023
	b.ls	.LBB11_801
// %bb.800:
	mov	w0, #1                          // =0x1
	ldp	x20, x19, [sp, #128]            // 16-byte Folded Reload
	ldp	x22, x21, [sp, #112]            // 16-byte Folded Reload
	ldp	x29, x30, [sp, #96]             // 16-byte Folded Reload
	add	sp, sp, #144
	ret
.LBB11_801:                             // %"std_io::io::buffer::Buffer::push.exit.i1753.10"
	mov	w0, wzr
	mov	w8, #114                        // =0x72
	b	.LBB11_811
.LBB11_802:                             // %after.1.i.i1737.10
	ldr	x8, [x19, #1032]
	cmp	x8, #1023
	b.ls	.LBB11_804
// %bb.803:
	mov	w0, #1                          // =0x1
	ldp	x20, x19, [sp, #128]            // 16-byte Folded Reload
	ldp	x22, x21, [sp, #112]            // 16-byte Folded Reload
	ldp	x29, x30, [sp, #96]             // 16-byte Folded Reload
	add	sp, sp, #144
	ret
.LBB11_804:                             // %"std_io::io::buffer::Buffer::push.exit.i1721.10"
	mov	w0, wzr
	strb	w21, [x20, x8]
	b	.LBB11_798
.LBB11_805:                             // %after.1.i.i1161.11
	ldr	x9, [x19, #1032]
	cmp	x9, #1023
	b.ls	.LBB11_807
// %bb.806:
	mov	w0, #1                          // =0x1
	ldp	x20, x19, [sp, #128]            // 16-byte Folded Reload
	ldp	x22, x21, [sp, #112]            // 16-byte Folded Reload
	ldp	x29, x30, [sp, #96]             // 16-byte Folded Reload
	add	sp, sp, #144
	ret
.LBB11_807:                             // %"std_io::io::buffer::Buffer::push.exit.i1145.11"
	mov	w0, wzr
	mov	w8, #97                         // =0x61
	b	.LBB11_811
.LBB11_808:                             // %after.1.i.i809.11
	ldr	x9, [x19, #1032]
	cmp	x9, #1023
	b.ls	.LBB11_810
// %bb.809:
	mov	w0, #1                          // =0x1
	ldp	x20, x19, [sp, #128]            // 16-byte Folded Reload
	ldp	x22, x21, [sp, #112]            // 16-byte Folded Reload
	ldp	x29, x30, [sp, #96]             // 16-byte Folded Reload
	add	sp, sp, #144
	ret
.LBB11_810:                             // %"std_io::io::buffer::Buffer::push.exit.i793.11"
	mov	w0, wzr
	mov	w8, #110                        // =0x6e
.LBB11_811:                             // %join.44
	strb	w8, [x20, x9]
	add	x8, x9, #1
	str	x8, [x19, #1032]
	ldp	x20, x19, [sp, #128]            // 16-byte Folded Reload
	ldp	x22, x21, [sp, #112]            // 16-byte Folded Reload
	ldp	x29, x30, [sp, #96]             // 16-byte Folded Reload
	add	sp, sp, #144
	ret
.Lfunc_end11:
	.size	"std_io::io::kind::ErrorKindDisplay::fmt::<#bf264aed5fa78656>", .Lfunc_end11-"std_io::io::kind::ErrorKindDisplay::fmt::<#bf264aed5fa78656>"
	.section	".rodata.std_io::io::kind::ErrorKindDisplay::fmt::<#bf264aed5fa78656>","a",@progbits
	.p2align	1, 0x0
.LJTI11_0:
	.hword	(.LBB11_1-.LBB11_1)>>2
	.hword	(.LBB11_155-.LBB11_1)>>2
	.hword	(.LBB11_123-.LBB11_1)>>2
	.hword	(.LBB11_139-.LBB11_1)>>2
	.hword	(.LBB11_77-.LBB11_1)>>2
	.hword	(.LBB11_195-.LBB11_1)>>2
	.hword	(.LBB11_217-.LBB11_1)>>2
	.hword	(.LBB11_147-.LBB11_1)>>2
	.hword	(.LBB11_239-.LBB11_1)>>2
	.hword	(.LBB11_99-.LBB11_1)>>2
	.hword	(.LBB11_233-.LBB11_1)>>2
	.hword	(.LBB11_71-.LBB11_1)>>2
	.hword	(.LBB11_91-.LBB11_1)>>2
	.hword	(.LBB11_209-.LBB11_1)>>2
	.hword	(.LBB11_55-.LBB11_1)>>2
	.hword	(.LBB11_131-.LBB11_1)>>2
	.hword	(.LBB11_47-.LBB11_1)>>2
	.hword	(.LBB11_171-.LBB11_1)>>2
	.hword	(.LBB11_225-.LBB11_1)>>2
	.hword	(.LBB11_273-.LBB11_1)>>2
	.hword	(.LBB11_187-.LBB11_1)>>2
	.hword	(.LBB11_203-.LBB11_1)>>2
	.hword	(.LBB11_261-.LBB11_1)>>2
	.hword	(.LBB11_281-.LBB11_1)>>2
	.hword	(.LBB11_115-.LBB11_1)>>2
	.hword	(.LBB11_107-.LBB11_1)>>2
	.hword	(.LBB11_311-.LBB11_1)>>2
	.hword	(.LBB11_31-.LBB11_1)>>2
	.hword	(.LBB11_287-.LBB11_1)>>2
	.hword	(.LBB11_295-.LBB11_1)>>2
	.hword	(.LBB11_247-.LBB11_1)>>2
	.hword	(.LBB11_163-.LBB11_1)>>2
	.hword	(.LBB11_253-.LBB11_1)>>2
	.hword	(.LBB11_63-.LBB11_1)>>2
	.hword	(.LBB11_39-.LBB11_1)>>2
	.hword	(.LBB11_17-.LBB11_1)>>2
	.hword	(.LBB11_25-.LBB11_1)>>2
	.hword	(.LBB11_9-.LBB11_1)>>2
	.hword	(.LBB11_303-.LBB11_1)>>2
	.hword	(.LBB11_267-.LBB11_1)>>2
	.hword	(.LBB11_85-.LBB11_1)>>2
	.hword	(.LBB11_179-.LBB11_1)>>2
                                        // -- End function
	.section	.rodata.cst8,"aM",@progbits,8
	.p2align	3, 0x0                          // -- Begin function loading::load
.LCPI12_0:
	.word	1                               // 0x1
	.word	0                               // 0x0
	.section	".text.loading::load","ax",@progbits
	.p2align	2
	.type	"loading::load",@function
"loading::load":                        // @"loading::load"
// %bb.0:                               // %start
	stp	x29, x30, [sp, #-96]!           // 16-byte Folded Spill
	stp	x28, x27, [sp, #16]             // 16-byte Folded Spill
	mov	x29, sp
	stp	x26, x25, [sp, #32]             // 16-byte Folded Spill
	stp	x24, x23, [sp, #48]             // 16-byte Folded Spill
	stp	x22, x21, [sp, #64]             // 16-byte Folded Spill
	stp	x20, x19, [sp, #80]             // 16-byte Folded Spill
	sub	sp, sp, #1312
	movi	v0.2d, #0000000000000000
	add	x21, sp, #976
	mov	x19, x0
	add	x23, x21, #8
	str	xzr, [sp]
	str	wzr, [sp, #320]
	stp	q0, q0, [sp]
	stp	q0, q0, [sp, #32]
	stp	q0, q0, [sp, #64]
	stp	q0, q0, [sp, #96]
	stp	q0, q0, [sp, #128]
	stp	q0, q0, [sp, #160]
	stp	q0, q0, [sp, #192]
	stp	q0, q0, [sp, #224]
	stp	q0, q0, [sp, #256]
	stp	q0, q0, [sp, #288]
	stp	q0, q0, [x23, #256]
	stp	q0, q0, [x23, #288]
	stur	q0, [x21, #248]
	stur	q0, [x21, #232]
	stur	q0, [x21, #216]
	stur	q0, [x21, #200]
	stur	q0, [x21, #184]
	stur	q0, [x21, #168]
	stur	q0, [x21, #152]
	stur	q0, [x21, #136]
	stur	q0, [x21, #120]
	stur	q0, [x21, #104]
	stur	q0, [x21, #88]
	stur	q0, [x21, #72]
	stur	q0, [x21, #56]
	stur	q0, [x21, #40]
	stur	q0, [x21, #24]
	stur	q0, [x21, #8]
	cbz	x2, .LBB12_97
// %bb.1:                               // %join.5.lr.ph.i
	mov	x24, xzr
	mov	x22, xzr
.LBB12_2:                               // %join.5.i
                                        // =>This Inner Loop Header: Depth=1
	cmp	x22, #64
	b.eq	.LBB12_95
// %bb.3:                               // %arm.3.i.i.i.i.i
                                        //   in Loop: Header=BB12_2 Depth=1
	sub	x8, x2, x24
	cmp	x8, #1
	b.eq	.LBB12_95
// %bb.4:                               // %arm.3.i.i.i.i.i
                                        //   in Loop: Header=BB12_2 Depth=1
	add	x10, x1, x24
	ldrb	w9, [x10]
	sub	w11, w9, #9
	and	w11, w11, #0xff
	cmp	w11, #2
	b.lo	.LBB12_95
// %bb.5:                               // %arm.3.i.i.i.1.i.i
                                        //   in Loop: Header=BB12_2 Depth=1
	ldrb	w11, [x10, #1]
	sub	w12, w11, #9
	and	w12, w12, #0xff
	cmp	w12, #2
	b.hs	.LBB12_8
// %bb.6:                               // %"fields::place_of.exit.i.i"
                                        //   in Loop: Header=BB12_2 Depth=1
	sub	w9, w9, #48
	cmp	w9, #9
	b.hi	.LBB12_95
// %bb.7:                               //   in Loop: Header=BB12_2 Depth=1
	add	x10, x24, #2
	cmp	w11, #10
	b.ne	.LBB12_14
	b	.LBB12_95
.LBB12_8:                               // %join.9.i.i.i.1.i.i
                                        //   in Loop: Header=BB12_2 Depth=1
	cmp	x8, #2
	b.eq	.LBB12_95
// %bb.9:                               // %arm.3.i.i.i.2.i.i
                                        //   in Loop: Header=BB12_2 Depth=1
	ldrb	w8, [x10, #2]
	sub	w10, w8, #9
	and	w10, w10, #0xff
	cmp	w10, #1
	b.hi	.LBB12_95
// %bb.10:                              // %then.9.i.i.i
                                        //   in Loop: Header=BB12_2 Depth=1
	sub	w9, w9, #48
	cmp	w9, #9
	b.hi	.LBB12_95
// %bb.11:                              // %arm.12.i.i.i
                                        //   in Loop: Header=BB12_2 Depth=1
	sub	w10, w11, #48
	cmp	w10, #9
	b.hi	.LBB12_95
// %bb.12:                              // %arm.17.i.i.i
                                        //   in Loop: Header=BB12_2 Depth=1
	mov	w11, #10                        // =0xa
	madd	w9, w9, w11, w10
	sub	w10, w9, #10
	and	w10, w10, #0xff
	cmp	w10, #54
	b.hs	.LBB12_95
// %bb.13:                              //   in Loop: Header=BB12_2 Depth=1
	add	x10, x24, #3
	cmp	w8, #10
	b.eq	.LBB12_95
.LBB12_14:                              // %arm.5.i.i
                                        //   in Loop: Header=BB12_2 Depth=1
	and	x8, x9, #0xff
	cmp	x22, x8
	b.ne	.LBB12_95
// %bb.15:                              // %else.2.i.i.i
                                        //   in Loop: Header=BB12_2 Depth=1
	subs	x12, x2, x10
	b.eq	.LBB12_95
// %bb.16:                              // %arm.3.i.i.i.i.i.i
                                        //   in Loop: Header=BB12_2 Depth=1
	add	x9, x1, x10
	ldrb	w8, [x9]
	sub	w11, w8, #9
	and	w11, w11, #0xff
	cmp	w11, #2
	b.hs	.LBB12_18
// %bb.17:                              //   in Loop: Header=BB12_2 Depth=1
	mov	w9, wzr
	mov	x12, xzr
	cmp	w8, #10
	b.ne	.LBB12_24
	b	.LBB12_95
.LBB12_18:                              // %join.9.i.i.i.i.i.i
                                        //   in Loop: Header=BB12_2 Depth=1
	cmp	x12, #1
	b.eq	.LBB12_95
// %bb.19:                              // %arm.3.i.i.i.i.1.i.i
                                        //   in Loop: Header=BB12_2 Depth=1
	ldrb	w11, [x9, #1]
	sub	w13, w11, #9
	and	w13, w13, #0xff
	cmp	w13, #2
	b.hs	.LBB12_21
// %bb.20:                              //   in Loop: Header=BB12_2 Depth=1
	mov	w9, #1                          // =0x1
	mov	w12, #1                         // =0x1
	cmp	w11, #10
	b.ne	.LBB12_24
	b	.LBB12_95
.LBB12_21:                              // %join.9.i.i.i.i.1.i.i
                                        //   in Loop: Header=BB12_2 Depth=1
	cmp	x12, #2
	b.eq	.LBB12_95
// %bb.22:                              // %arm.3.i.i.i.i.2.i.i
                                        //   in Loop: Header=BB12_2 Depth=1
	ldrb	w11, [x9, #2]
	sub	w9, w11, #9
	and	w9, w9, #0xff
	cmp	w9, #1
	b.hi	.LBB12_95
// %bb.23:                              //   in Loop: Header=BB12_2 Depth=1
	mov	w9, wzr
	mov	w12, #2                         // =0x2
	cmp	w11, #10
	b.eq	.LBB12_95
.LBB12_24:                              // %else.2.i32.i.i
                                        //   in Loop: Header=BB12_2 Depth=1
	add	x10, x10, x12
	add	x10, x10, #1
	subs	x12, x2, x10
	b.eq	.LBB12_95
// %bb.25:                              // %arm.3.i.i.i.i42.i.i
                                        //   in Loop: Header=BB12_2 Depth=1
	cmp	x12, #1
	b.eq	.LBB12_95
// %bb.26:                              // %arm.3.i.i.i.i42.i.i
                                        //   in Loop: Header=BB12_2 Depth=1
	add	x13, x1, x10
	ldrb	w14, [x13]
	sub	w11, w14, #9
	cmp	w11, #2
	b.lo	.LBB12_95
// %bb.27:                              // %arm.3.i.i.i.i42.1.i.i
                                        //   in Loop: Header=BB12_2 Depth=1
	ldrb	w11, [x13, #1]
	sub	w15, w11, #9
	cmp	w15, #2
	b.hs	.LBB12_30
// %bb.28:                              // %arm.1.i14.thread
                                        //   in Loop: Header=BB12_2 Depth=1
	cmp	w14, #45
	mov	w12, #1                         // =0x1
	b.ne	.LBB12_36
// %bb.29:                              //   in Loop: Header=BB12_2 Depth=1
	mov	x25, xzr
	b	.LBB12_48
.LBB12_30:                              // %join.9.i.i.i.i45.1.i.i
                                        //   in Loop: Header=BB12_2 Depth=1
	cmp	x12, #2
	b.eq	.LBB12_95
// %bb.31:                              // %arm.3.i.i.i.i42.2.i.i
                                        //   in Loop: Header=BB12_2 Depth=1
	ldrb	w11, [x13, #2]
	sub	w15, w11, #9
	cmp	w15, #2
	b.hs	.LBB12_33
// %bb.32:                              //   in Loop: Header=BB12_2 Depth=1
	mov	w12, #2                         // =0x2
	cmp	w14, #45
	b.ne	.LBB12_36
	b	.LBB12_95
.LBB12_33:                              // %join.9.i.i.i.i45.2.i.i
                                        //   in Loop: Header=BB12_2 Depth=1
	cmp	x12, #3
	b.eq	.LBB12_95
// %bb.34:                              // %arm.3.i.i.i.i42.3.i.i
                                        //   in Loop: Header=BB12_2 Depth=1
	ldrb	w11, [x13, #3]
	sub	w12, w11, #9
	cmp	w12, #1
	b.hi	.LBB12_95
// %bb.35:                              //   in Loop: Header=BB12_2 Depth=1
	mov	w12, #3                         // =0x3
	cmp	w14, #45
	b.eq	.LBB12_95
.LBB12_36:                              // %default.9.i
                                        //   in Loop: Header=BB12_2 Depth=1
	sub	w14, w14, #49
	cmp	w14, #9
	b.hs	.LBB12_95
// %bb.37:                              // %arm.1.i.i.i
                                        //   in Loop: Header=BB12_2 Depth=1
	ldrb	w14, [x13]
	sub	w14, w14, #48
	cmp	w14, #9
	b.hi	.LBB12_95
// %bb.38:                              // %arm.9.i.i.i
                                        //   in Loop: Header=BB12_2 Depth=1
	cmp	x12, #1
	b.eq	.LBB12_47
// %bb.39:                              // %join.6.i.i.1
                                        //   in Loop: Header=BB12_2 Depth=1
	ldrb	w16, [x13, #1]
	sub	w15, w16, #48
	cmp	w15, #9
	b.hi	.LBB12_95
// %bb.40:                              // %join.6.i.i.1
                                        //   in Loop: Header=BB12_2 Depth=1
	add	w14, w14, w14, lsl #2
	mov	w17, #47                        // =0x2f
	sub	w16, w17, w16
	lsl	w14, w14, #1
	and	w17, w14, #0xff
	cmp	w17, w16, uxtb
	b.hi	.LBB12_95
// %bb.41:                              // %arm.9.i.i.i.1
                                        //   in Loop: Header=BB12_2 Depth=1
	add	w14, w15, w14
	and	w15, w14, #0xff
	cmp	w15, #200
	b.hi	.LBB12_95
// %bb.42:                              // %loop.3.i.i.1
                                        //   in Loop: Header=BB12_2 Depth=1
	cmp	x12, #2
	b.eq	.LBB12_47
// %bb.43:                              // %join.6.i.i.2
                                        //   in Loop: Header=BB12_2 Depth=1
	and	w15, w14, #0xff
	cmp	w15, #25
	b.hi	.LBB12_95
// %bb.44:                              // %arm.1.i.i.i.2
                                        //   in Loop: Header=BB12_2 Depth=1
	ldrb	w15, [x13, #2]
	sub	w13, w15, #48
	cmp	w13, #9
	b.hi	.LBB12_95
// %bb.45:                              // %arm.1.i.i.i.2
                                        //   in Loop: Header=BB12_2 Depth=1
	add	w14, w14, w14, lsl #2
	mov	w16, #47                        // =0x2f
	sub	w15, w16, w15
	lsl	w14, w14, #1
	and	w16, w14, #0xff
	cmp	w16, w15, uxtb
	b.hi	.LBB12_95
// %bb.46:                              // %arm.1.i.i.i.2
                                        //   in Loop: Header=BB12_2 Depth=1
	add	w14, w13, w14
	and	w13, w14, #0xff
	cmp	w13, #201
	b.hs	.LBB12_95
.LBB12_47:                              // %"fields::account_of.exit.loopexit"
                                        //   in Loop: Header=BB12_2 Depth=1
	and	x25, x14, #0xff
.LBB12_48:                              // %"fields::account_of.exit"
                                        //   in Loop: Header=BB12_2 Depth=1
	cbz	w9, .LBB12_95
// %bb.49:                              // %then.6.i83.i.i
                                        //   in Loop: Header=BB12_2 Depth=1
	add	x9, x10, x12
	cmp	w11, #10
	add	x24, x9, #1
	b.ne	.LBB12_52
// %bb.50:                              // %then.1.i
                                        //   in Loop: Header=BB12_2 Depth=1
	cmp	w8, #69
	b.ne	.LBB12_95
// %bb.51:                              //   in Loop: Header=BB12_2 Depth=1
	mov	x8, xzr
	b	.LBB12_94
.LBB12_52:                              // %join.3.i
                                        //   in Loop: Header=BB12_2 Depth=1
	subs	x11, x2, x24
	b.eq	.LBB12_95
// %bb.53:                              // %arm.3.i.i.i.i
                                        //   in Loop: Header=BB12_2 Depth=1
	add	x9, x1, x24
	ldrb	w10, [x9]
	sub	w12, w10, #9
	and	w12, w12, #0xff
	cmp	w12, #2
	b.hs	.LBB12_61
// %bb.54:                              //   in Loop: Header=BB12_2 Depth=1
	mov	w11, wzr
	mov	x3, xzr
	add	x13, x24, xzr
	cmp	w10, #10
	add	x24, x13, #1
	b.ne	.LBB12_64
.LBB12_55:                              // %then.11.i
                                        //   in Loop: Header=BB12_2 Depth=1
	cmp	w8, #75
	b.eq	.LBB12_78
// %bb.56:                              // %then.11.i
                                        //   in Loop: Header=BB12_2 Depth=1
	cmp	w8, #90
	b.eq	.LBB12_73
// %bb.57:                              // %then.11.i
                                        //   in Loop: Header=BB12_2 Depth=1
	cmp	w8, #76
	b.ne	.LBB12_95
// %bb.58:                              // %arm.1.i19.i
                                        //   in Loop: Header=BB12_2 Depth=1
	cbz	w11, .LBB12_95
// %bb.59:                              // %then.6.i.i.i.i
                                        //   in Loop: Header=BB12_2 Depth=1
	and	w8, w10, #0x7f
	sub	w8, w8, #33
	and	w8, w8, #0xff
	cmp	w8, #94
	b.hs	.LBB12_95
// %bb.60:                              //   in Loop: Header=BB12_2 Depth=1
	mov	w8, #256                        // =0x100
	b	.LBB12_93
.LBB12_61:                              // %join.9.i.i.i.i
                                        //   in Loop: Header=BB12_2 Depth=1
	cmp	x11, #1
	b.eq	.LBB12_95
// %bb.62:                              // %arm.3.i.i.i.1.i
                                        //   in Loop: Header=BB12_2 Depth=1
	ldrb	w12, [x9, #1]
	sub	w13, w12, #9
	and	w13, w13, #0xff
	cmp	w13, #2
	b.hs	.LBB12_67
// %bb.63:                              //   in Loop: Header=BB12_2 Depth=1
	mov	w11, #1                         // =0x1
	mov	w3, #1                          // =0x1
	add	x13, x24, x3
	cmp	w12, #10
	add	x24, x13, #1
	b.eq	.LBB12_55
.LBB12_64:                              // %join.13.i
                                        //   in Loop: Header=BB12_2 Depth=1
	subs	x12, x2, x24
	b.eq	.LBB12_95
// %bb.65:                              // %arm.3.i.i.i49.i
                                        //   in Loop: Header=BB12_2 Depth=1
	add	x11, x1, x24
	ldrb	w10, [x11]
	sub	w13, w10, #9
	cmp	w13, #2
	b.hs	.LBB12_70
// %bb.66:                              //   in Loop: Header=BB12_2 Depth=1
	mov	x20, xzr
	b	.LBB12_86
.LBB12_67:                              // %join.9.i.i.i.1.i
                                        //   in Loop: Header=BB12_2 Depth=1
	cmp	x11, #2
	b.eq	.LBB12_95
// %bb.68:                              // %arm.3.i.i.i.2.i
                                        //   in Loop: Header=BB12_2 Depth=1
	ldrb	w12, [x9, #2]
	sub	w11, w12, #9
	and	w11, w11, #0xff
	cmp	w11, #1
	b.hi	.LBB12_95
// %bb.69:                              //   in Loop: Header=BB12_2 Depth=1
	mov	w11, wzr
	mov	w3, #2                          // =0x2
	add	x13, x24, x3
	cmp	w12, #10
	add	x24, x13, #1
	b.eq	.LBB12_55
	b	.LBB12_64
.LBB12_70:                              // %join.9.i.i.i52.i
                                        //   in Loop: Header=BB12_2 Depth=1
	cmp	x12, #1
	b.eq	.LBB12_95
// %bb.71:                              // %arm.3.i.i.i49.1.i
                                        //   in Loop: Header=BB12_2 Depth=1
	ldrb	w10, [x11, #1]
	sub	w13, w10, #9
	cmp	w13, #2
	b.hs	.LBB12_83
// %bb.72:                              //   in Loop: Header=BB12_2 Depth=1
	mov	w20, #1                         // =0x1
	b	.LBB12_86
.LBB12_73:                              // %arm.3.i.i
                                        //   in Loop: Header=BB12_2 Depth=1
	cmp	x3, #1
	b.eq	.LBB12_89
// %bb.74:                              // %arm.3.i.i
                                        //   in Loop: Header=BB12_2 Depth=1
	cbz	x3, .LBB12_95
// %bb.75:                              // %then.9.i24.i.i
                                        //   in Loop: Header=BB12_2 Depth=1
	sub	w8, w10, #48
	cmp	w8, #9
	b.hi	.LBB12_95
// %bb.76:                              // %arm.12.i27.i.i
                                        //   in Loop: Header=BB12_2 Depth=1
	ldrb	w9, [x9, #1]
	sub	w9, w9, #48
	cmp	w9, #9
	b.hi	.LBB12_95
// %bb.77:                              // %arm.17.i31.i.i
                                        //   in Loop: Header=BB12_2 Depth=1
	mov	w10, #10                        // =0xa
	madd	w10, w8, w10, w9
	sub	w8, w10, #10
	and	w8, w8, #0xff
	cmp	w8, #54
	b.lo	.LBB12_90
	b	.LBB12_95
.LBB12_78:                              // %arm.2.i18.i
                                        //   in Loop: Header=BB12_2 Depth=1
	cmp	x3, #1
	b.eq	.LBB12_91
// %bb.79:                              // %arm.2.i18.i
                                        //   in Loop: Header=BB12_2 Depth=1
	cbz	x3, .LBB12_95
// %bb.80:                              // %then.9.i.i.i7
                                        //   in Loop: Header=BB12_2 Depth=1
	sub	w8, w10, #48
	cmp	w8, #9
	b.hi	.LBB12_95
// %bb.81:                              // %arm.12.i.i.i9
                                        //   in Loop: Header=BB12_2 Depth=1
	ldrb	w9, [x9, #1]
	sub	w9, w9, #48
	cmp	w9, #9
	b.hi	.LBB12_95
// %bb.82:                              // %arm.17.i.i.i11
                                        //   in Loop: Header=BB12_2 Depth=1
	mov	w10, #10                        // =0xa
	madd	w10, w8, w10, w9
	sub	w8, w10, #10
	and	w8, w8, #0xff
	cmp	w8, #54
	b.lo	.LBB12_92
	b	.LBB12_95
.LBB12_83:                              // %join.9.i.i.i52.1.i
                                        //   in Loop: Header=BB12_2 Depth=1
	cmp	x12, #2
	b.eq	.LBB12_95
// %bb.84:                              // %arm.3.i.i.i49.2.i
                                        //   in Loop: Header=BB12_2 Depth=1
	ldrb	w10, [x11, #2]
	sub	w11, w10, #9
	cmp	w11, #1
	b.hi	.LBB12_95
// %bb.85:                              //   in Loop: Header=BB12_2 Depth=1
	mov	w20, #2                         // =0x2
.LBB12_86:                              // %arm.17.i
                                        //   in Loop: Header=BB12_2 Depth=1
	cmp	w10, #10
	b.ne	.LBB12_95
// %bb.87:                              // %then.20.i
                                        //   in Loop: Header=BB12_2 Depth=1
	sub	x0, x29, #8
	add	x4, x1, x24
	mov	x26, x1
	mov	w1, w8
	mov	x27, x2
	mov	x2, x9
	mov	x5, x20
	bl	"scanning::parse_two"
	ldurb	w8, [x29, #-8]
	cmp	w8, #1
	b.ne	.LBB12_95
// %bb.88:                              // %arm.23.i
                                        //   in Loop: Header=BB12_2 Depth=1
	add	x9, x24, x20
	ldur	w8, [x29, #-7]
	mov	x1, x26
	mov	x2, x27
	add	x24, x9, #1
	b	.LBB12_94
.LBB12_89:                              // %"fields::place_of.exit35.i.i"
                                        //   in Loop: Header=BB12_2 Depth=1
	sub	w10, w10, #48
	cmp	w10, #9
	b.hi	.LBB12_95
.LBB12_90:                              //   in Loop: Header=BB12_2 Depth=1
	mov	w8, #259                        // =0x103
	b	.LBB12_93
.LBB12_91:                              // %"fields::place_of.exit.i.i5"
                                        //   in Loop: Header=BB12_2 Depth=1
	sub	w10, w10, #48
	cmp	w10, #10
	b.hs	.LBB12_95
.LBB12_92:                              //   in Loop: Header=BB12_2 Depth=1
	mov	w8, #3                          // =0x3
.LBB12_93:                              // %arm.9.i
                                        //   in Loop: Header=BB12_2 Depth=1
	bfi	x8, x10, #16, #8
.LBB12_94:                              // %arm.9.i
                                        //   in Loop: Header=BB12_2 Depth=1
	lsr	x9, x8, #24
	orr	w8, w25, w8, lsl #8
	cmp	x2, x24
	add	x22, x22, #1
	strb	w9, [x23, #4]
	str	w8, [x23], #5
	b.hi	.LBB12_2
	b	.LBB12_98
.LBB12_95:                              // %arm.2
	movi	v0.2d, #0000000000000000
	adrp	x8, .LCPI12_0
	str	w22, [x19, #8]
	ldr	d1, [x8, :lo12:.LCPI12_0]
	str	wzr, [x19, #332]
	str	d1, [x19]
	stur	q0, [x19, #28]
	stur	q0, [x19, #44]
	stur	q0, [x19, #60]
	stur	q0, [x19, #76]
	stur	q0, [x19, #92]
	stur	q0, [x19, #108]
	stur	q0, [x19, #124]
	stur	q0, [x19, #140]
	stur	q0, [x19, #156]
	stur	q0, [x19, #172]
	stur	q0, [x19, #188]
	stur	q0, [x19, #204]
	stur	q0, [x19, #220]
	stur	q0, [x19, #236]
	stur	q0, [x19, #252]
	str	q0, [x19, #12]!
.LBB12_96:                              // %then.5
	stp	q0, q0, [x19, #256]
	stp	q0, q0, [x19, #288]
	b	.LBB12_102
.LBB12_97:
	mov	x22, xzr
.LBB12_98:                              // %arm.1
	add	x0, sp, #324
	orr	x1, x21, #0x4
	mov	w2, #324                        // =0x144
	str	x22, [sp, #976]
	bl	memcpy
	add	x8, sp, #648
	add	x1, sp, #324
	mov	w2, #324                        // =0x144
	orr	x0, x8, #0x4
	str	w22, [sp, #648]
	bl	memcpy
	ldr	x21, [sp, #648]
	cbz	x21, .LBB12_103
// %bb.99:                              // %join.7
	add	x0, sp, #648
	bl	"syntax::naming::tree_fault_of"
	and	w8, w0, #0xff
	mov	w20, w0
	cmp	w8, #1
	b.eq	.LBB12_101
// %bb.100:                             // %arm.9
	mov	x0, sp
	add	x1, sp, #324
	mov	w2, #324                        // =0x144
	bl	memcpy
	mov	x1, x21
.LBB12_101:                             // %join.10
	and	w8, w20, #0xff
	str	w1, [x19, #8]
	add	x0, x19, #12
	mov	x1, sp
	mov	w2, #324                        // =0x144
	stp	w8, w8, [x19]
	bl	memcpy
.LBB12_102:                             // %then.5
	add	sp, sp, #1312
	ldp	x20, x19, [sp, #80]             // 16-byte Folded Reload
	ldp	x22, x21, [sp, #64]             // 16-byte Folded Reload
	ldp	x24, x23, [sp, #48]             // 16-byte Folded Reload
	ldp	x26, x25, [sp, #32]             // 16-byte Folded Reload
	ldp	x28, x27, [sp, #16]             // 16-byte Folded Reload
	ldp	x29, x30, [sp], #96             // 16-byte Folded Reload
	ret
.LBB12_103:                             // %then.5
	movi	v0.2d, #0000000000000000
	mov	w8, #1                          // =0x1
	str	w8, [x19]
	stur	q0, [x19, #20]
	stur	q0, [x19, #36]
	stur	q0, [x19, #52]
	stur	q0, [x19, #68]
	stur	q0, [x19, #84]
	stur	q0, [x19, #100]
	stur	q0, [x19, #116]
	stur	q0, [x19, #132]
	stur	q0, [x19, #148]
	stur	q0, [x19, #164]
	stur	q0, [x19, #180]
	stur	q0, [x19, #196]
	stur	q0, [x19, #212]
	stur	q0, [x19, #228]
	stur	q0, [x19, #244]
	str	q0, [x19, #320]
	str	q0, [x19, #4]!
	b	.LBB12_96
.Lfunc_end12:
	.size	"loading::load", .Lfunc_end12-"loading::load"
                                        // -- End function
	.section	".text.scanning::parse_two","ax",@progbits
	.p2align	2                               // -- Begin function scanning::parse_two
	.type	"scanning::parse_two",@function
"scanning::parse_two":                  // @"scanning::parse_two"
// %bb.0:                               // %start
	and	w8, w1, #0xff
	cmp	w8, #65
	b.eq	.LBB13_17
// %bb.1:                               // %start
	cmp	w8, #83
	b.eq	.LBB13_10
// %bb.2:                               // %start
	cmp	w8, #82
	b.ne	.LBB13_9
// %bb.3:                               // %arm.1
	cmp	x3, #1
	b.ne	.LBB13_9
// %bb.4:                               // %then.6.i.i.i
	cmp	x5, #1
	mov	w10, wzr
	b.ne	.LBB13_32
// %bb.5:                               // %then.6.i.i.i
	ldrb	w13, [x2]
	mov	w11, w10
	mov	w9, w10
	mov	w12, w10
	and	w8, w13, #0x7f
	sub	w8, w8, #33
	and	w8, w8, #0xff
	cmp	w8, #93
	mov	w8, w10
	b.hi	.LBB13_8
// %bb.6:                               // %then.6.i.i14.i
	ldrb	w12, [x4]
	and	w8, w12, #0x7f
	sub	w8, w8, #33
	and	w8, w8, #0xff
	cmp	w8, #93
	b.hi	.LBB13_9
// %bb.7:                               // %arm.5.i
	cmp	w13, w12
	mov	w8, #2                          // =0x2
	mov	w11, wzr
	cset	w10, ls
	csel	w8, w8, wzr, ls
	csel	w9, w13, wzr, ls
	csel	w12, w12, wzr, ls
.LBB13_8:                               // %join.5
	strb	w10, [x0]
	strb	w11, [x0, #1]
	strb	w8, [x0, #2]
	strb	w9, [x0, #3]
	strb	w12, [x0, #4]
	ret
.LBB13_9:
	strb	wzr, [x0]
	strb	wzr, [x0, #1]
	strb	wzr, [x0, #2]
	strb	wzr, [x0, #3]
	strb	wzr, [x0, #4]
	ret
.LBB13_10:                              // %arm.2
	cbz	x3, .LBB13_41
// %bb.11:                              // %arm.2
	cmp	x3, #1
	b.ne	.LBB13_24
// %bb.12:                              // %"fields::place_of.exit"
	ldrb	w8, [x2]
	sub	w8, w8, #48
	cmp	w8, #9
	b.hi	.LBB13_41
.LBB13_13:                              // %arm.6
	cbz	x5, .LBB13_41
// %bb.14:                              // %arm.6
	cmp	x5, #1
	b.ne	.LBB13_33
// %bb.15:                              // %"fields::place_of.exit28"
	ldrb	w9, [x4]
	sub	w9, w9, #48
	cmp	w9, #10
	b.hs	.LBB13_41
.LBB13_16:
	mov	w10, #1                         // =0x1
	mov	w11, #1                         // =0x1
	strb	w10, [x0]
	strb	w11, [x0, #1]
	strb	w8, [x0, #2]
	strb	w9, [x0, #3]
	strb	wzr, [x0, #4]
	ret
.LBB13_17:                              // %arm.3
	cbz	x3, .LBB13_41
// %bb.18:                              // %arm.3
	cmp	x3, #1
	b.ne	.LBB13_28
// %bb.19:                              // %"fields::place_of.exit57"
	ldrb	w8, [x2]
	sub	w8, w8, #48
	cmp	w8, #9
	b.hi	.LBB13_41
.LBB13_20:                              // %arm.13
	cbz	x5, .LBB13_41
// %bb.21:                              // %arm.13
	cmp	x5, #1
	b.ne	.LBB13_37
// %bb.22:                              // %"fields::place_of.exit86"
	ldrb	w9, [x4]
	sub	w9, w9, #48
	cmp	w9, #10
	b.hs	.LBB13_41
.LBB13_23:
	mov	w11, #2                         // =0x2
	mov	w10, #1                         // =0x1
	strb	w10, [x0]
	strb	w11, [x0, #1]
	strb	w8, [x0, #2]
	strb	w9, [x0, #3]
	strb	wzr, [x0, #4]
	ret
.LBB13_24:                              // %join.8.i
	cmp	x3, #2
	b.hi	.LBB13_41
// %bb.25:                              // %then.9.i
	ldrb	w8, [x2]
	sub	w8, w8, #48
	cmp	w8, #9
	b.hi	.LBB13_41
// %bb.26:                              // %arm.12.i
	ldrb	w9, [x2, #1]
	sub	w9, w9, #48
	cmp	w9, #9
	b.hi	.LBB13_41
// %bb.27:                              // %arm.17.i
	mov	w10, #10                        // =0xa
	madd	w8, w8, w10, w9
	sub	w9, w8, #10
	and	w9, w9, #0xff
	cmp	w9, #54
	b.lo	.LBB13_13
	b	.LBB13_41
.LBB13_28:                              // %join.8.i44
	cmp	x3, #2
	b.hi	.LBB13_41
// %bb.29:                              // %then.9.i46
	ldrb	w8, [x2]
	sub	w8, w8, #48
	cmp	w8, #9
	b.hi	.LBB13_41
// %bb.30:                              // %arm.12.i49
	ldrb	w9, [x2, #1]
	sub	w9, w9, #48
	cmp	w9, #9
	b.hi	.LBB13_41
// %bb.31:                              // %arm.17.i53
	mov	w10, #10                        // =0xa
	madd	w8, w8, w10, w9
	sub	w9, w8, #10
	and	w9, w9, #0xff
	cmp	w9, #54
	b.lo	.LBB13_20
	b	.LBB13_41
.LBB13_32:
	strb	w10, [x0]
	strb	w10, [x0, #1]
	strb	w10, [x0, #2]
	strb	w10, [x0, #3]
	strb	w10, [x0, #4]
	ret
.LBB13_33:                              // %join.8.i15
	cmp	x5, #2
	b.hi	.LBB13_41
// %bb.34:                              // %then.9.i17
	ldrb	w9, [x4]
	sub	w9, w9, #48
	cmp	w9, #9
	b.hi	.LBB13_41
// %bb.35:                              // %arm.12.i20
	ldrb	w10, [x4, #1]
	sub	w10, w10, #48
	cmp	w10, #9
	b.hi	.LBB13_41
// %bb.36:                              // %arm.17.i24
	mov	w11, #10                        // =0xa
	madd	w9, w9, w11, w10
	sub	w10, w9, #10
	and	w10, w10, #0xff
	cmp	w10, #54
	b.lo	.LBB13_16
	b	.LBB13_41
.LBB13_37:                              // %join.8.i73
	cmp	x5, #2
	b.hi	.LBB13_41
// %bb.38:                              // %then.9.i75
	ldrb	w9, [x4]
	sub	w9, w9, #48
	cmp	w9, #9
	b.hi	.LBB13_41
// %bb.39:                              // %arm.12.i78
	ldrb	w10, [x4, #1]
	sub	w10, w10, #48
	cmp	w10, #9
	b.hi	.LBB13_41
// %bb.40:                              // %arm.17.i82
	mov	w11, #10                        // =0xa
	madd	w9, w9, w11, w10
	sub	w10, w9, #10
	and	w10, w10, #0xff
	cmp	w10, #54
	b.lo	.LBB13_23
.LBB13_41:                              // %arm.7
	strb	wzr, [x0, #4]
	str	wzr, [x0]
	ret
.Lfunc_end13:
	.size	"scanning::parse_two", .Lfunc_end13-"scanning::parse_two"
                                        // -- End function
	.section	".text.syntax::naming::tree_fault_of","ax",@progbits
	.p2align	2                               // -- Begin function syntax::naming::tree_fault_of
	.type	"syntax::naming::tree_fault_of",@function
"syntax::naming::tree_fault_of":        // @"syntax::naming::tree_fault_of"
// %bb.0:                               // %start
	stp	x29, x30, [sp, #-48]!           // 16-byte Folded Spill
	stp	x28, x21, [sp, #16]             // 16-byte Folded Spill
	mov	x29, sp
	stp	x20, x19, [sp, #32]             // 16-byte Folded Spill
	sub	sp, sp, #720
	mov	x1, x0
	add	x21, sp, #200
	mov	w2, #320                        // =0x140
	ldr	x19, [x1], #8
	add	x0, x21, #8
	add	x20, sp, #192
	bl	memcpy
	movi	v0.2d, #0000000000000000
	str	x19, [sp, #200]
	str	wzr, [sp, #192]
	stur	wzr, [x20, #3]
	strb	wzr, [sp, #176]
	stp	q0, q0, [sp, #128]
	str	q0, [sp, #160]
	cbz	x19, .LBB14_14
// %bb.1:                               // %join.5.lr.ph.i
	mov	x1, xzr
	mov	x12, xzr
	sub	x8, x29, #136
	sub	x9, x29, #64
	sub	x10, x29, #128
	add	x11, x21, #11
	b	.LBB14_4
.LBB14_2:                               // %"syntax::naming::name_parts.exit.thread21.i"
                                        //   in Loop: Header=BB14_4 Depth=1
	ldr	w13, [sp, #192]
	ldp	q0, q1, [sp, #128]
	ldur	w14, [x20, #3]
	ldr	q2, [sp, #160]
	str	w13, [sp, #120]
	ldrb	w13, [sp, #176]
	stur	w14, [sp, #123]
	stp	q0, q1, [sp, #64]
	str	q2, [sp, #96]
	strb	w13, [sp, #112]
.LBB14_3:                               // %arm.6.i
                                        //   in Loop: Header=BB14_4 Depth=1
	ldp	q0, q1, [sp, #64]
	add	x1, x1, #1
	ldr	w13, [sp, #120]
	ldur	w14, [sp, #123]
	cmp	x19, x1
	add	x11, x11, #5
	str	w13, [sp, #192]
	ldrb	w13, [sp, #112]
	stp	q0, q1, [sp, #128]
	ldr	q0, [sp, #96]
	stur	w14, [x20, #3]
	str	q0, [sp, #160]
	strb	w13, [sp, #176]
	b.eq	.LBB14_15
.LBB14_4:                               // %join.5.i
                                        // =>This Inner Loop Header: Depth=1
	ldurb	w13, [x11, #-2]
	ldrb	w14, [x11]
	sub	w15, w13, #1
	cmp	w15, #2
	b.hs	.LBB14_8
// %bb.5:                               // %after.2.i.i
                                        //   in Loop: Header=BB14_4 Depth=1
	ldp	q0, q1, [sp, #128]
	ldr	w13, [sp, #192]
	stur	x12, [x8, #15]
	ldurb	w12, [x11, #-1]
	ldur	w15, [x20, #3]
	stur	w13, [x29, #-128]
	ldrb	w13, [sp, #176]
	cmp	x1, x12
	stur	q0, [x10, #15]
	ldr	q0, [sp, #160]
	stur	w15, [x8, #11]
	stur	q1, [x10, #31]
	stur	q0, [x10, #47]
	sturb	w13, [x10, #63]
	b.ls	.LBB14_19
// %bb.6:                               // %else.4.i8.i.i
                                        //   in Loop: Header=BB14_4 Depth=1
	sub	x13, x29, #128
	ldrb	w15, [x13, x12]
	tbnz	w15, #0, .LBB14_19
// %bb.7:                               // %arm.9.i.i
                                        //   in Loop: Header=BB14_4 Depth=1
	mov	w15, #1                         // =0x1
	strb	w15, [x13, x12]
	cmp	x1, x14
	ldp	q0, q1, [x29, #-128]
	stp	q0, q1, [x29, #-64]
	ldp	q0, q2, [x29, #-96]
	stp	q0, q2, [x29, #-32]
	b.hi	.LBB14_10
	b	.LBB14_11
.LBB14_8:                               // %join.5.i
                                        //   in Loop: Header=BB14_4 Depth=1
	cmp	w13, #3
	b.ne	.LBB14_2
// %bb.9:                               // %arm.6.i.i
                                        //   in Loop: Header=BB14_4 Depth=1
	ldp	q0, q1, [sp, #128]
	cmp	x1, x14
	ldr	w13, [sp, #192]
	ldur	w15, [x20, #3]
	stur	x12, [x8, #79]
	ldrb	w12, [sp, #176]
	stur	q0, [x9, #15]
	ldr	q0, [sp, #160]
	stur	w13, [x29, #-64]
	stur	w15, [x8, #75]
	stur	q1, [x9, #31]
	stur	q0, [x9, #47]
	sturb	w12, [x9, #63]
	b.ls	.LBB14_11
.LBB14_10:                              // %else.4.i.i.i
                                        //   in Loop: Header=BB14_4 Depth=1
	sub	x12, x29, #64
	ldrb	w13, [x12, x14]
	cmp	w13, #1
	b.ne	.LBB14_12
.LBB14_11:                              // %join.5.i.i.i
                                        //   in Loop: Header=BB14_4 Depth=1
	movi	v0.2d, #0000000000000000
	mov	x12, xzr
	mov	w13, wzr
	stur	wzr, [x8, #3]
	stur	wzr, [x29, #-136]
	sturb	wzr, [x29, #-144]
	stp	q0, q0, [x29, #-192]
	stur	q0, [x29, #-160]
	b	.LBB14_13
.LBB14_12:                              // %after.1.i.i.i
                                        //   in Loop: Header=BB14_4 Depth=1
	mov	w13, #1                         // =0x1
	strb	w13, [x12, x14]
	ldur	w12, [x29, #-64]
	ldur	w14, [x8, #75]
	ldur	q0, [x9, #15]
	ldur	q1, [x9, #31]
	ldur	q2, [x9, #47]
	stur	w12, [x29, #-136]
	ldur	x12, [x8, #79]
	stur	w14, [x8, #3]
	ldurb	w14, [x9, #63]
	stp	q0, q1, [x29, #-192]
	stur	q2, [x29, #-160]
	sturb	w14, [x29, #-144]
.LBB14_13:                              // %"syntax::naming::name_parts.exit.i"
                                        //   in Loop: Header=BB14_4 Depth=1
	ldur	w14, [x29, #-136]
	ldp	q0, q1, [x29, #-192]
	ldur	w15, [x8, #3]
	ldur	q2, [x29, #-160]
	str	w14, [sp, #120]
	ldurb	w14, [x29, #-144]
	stur	w15, [sp, #123]
	stp	q0, q1, [sp, #64]
	str	q2, [sp, #96]
	strb	w14, [sp, #112]
	cbnz	w13, .LBB14_3
	b	.LBB14_19
.LBB14_14:
	mov	x12, xzr
.LBB14_15:                              // %arm.1
	ldp	q0, q1, [sp, #128]
	cmp	x19, #0
	ldr	w9, [sp, #192]
	ldur	w10, [x20, #3]
	mov	x8, xzr
	ldr	q2, [sp, #160]
	stur	x12, [x20, #15]
	str	w9, [sp, #56]
	ldrb	w9, [sp, #176]
	stp	q0, q1, [sp]
	stur	w10, [sp, #59]
	ldp	q0, q1, [sp]
	ldr	w10, [sp, #56]
	strb	w9, [sp, #48]
	ldur	w9, [sp, #59]
	str	q2, [sp, #32]
	stur	q0, [x20, #23]
	ldr	q0, [sp, #32]
	str	w10, [sp, #200]
	ldrb	w10, [sp, #48]
	stur	w9, [x20, #11]
	cset	w9, ne
	sub	x9, x19, x9
	stur	q1, [x20, #39]
	stur	q0, [x20, #55]
	strb	w10, [sp, #263]
.LBB14_16:                              // %loop.2.i
                                        // =>This Inner Loop Header: Depth=1
	cmp	x9, x8
	b.eq	.LBB14_20
// %bb.17:                              // %join.5.i3
                                        //   in Loop: Header=BB14_16 Depth=1
	add	x10, sp, #200
	ldrb	w11, [x10, x8]
	add	x10, x8, #1
	mov	x8, x10
	tbnz	w11, #0, .LBB14_16
// %bb.18:                              // %"join.5.i3.syntax::naming::unnamed_of.exit_crit_edge"
	sub	x1, x10, #1
.LBB14_19:                              // %arm.2
	mov	w0, #1                          // =0x1
	add	sp, sp, #720
	ldp	x20, x19, [sp, #32]             // 16-byte Folded Reload
	ldp	x28, x21, [sp, #16]             // 16-byte Folded Reload
	ldp	x29, x30, [sp], #48             // 16-byte Folded Reload
	ret
.LBB14_20:
	mov	w0, wzr
	mov	x1, xzr
	add	sp, sp, #720
	ldp	x20, x19, [sp, #32]             // 16-byte Folded Reload
	ldp	x28, x21, [sp, #16]             // 16-byte Folded Reload
	ldp	x29, x30, [sp], #48             // 16-byte Folded Reload
	ret
.Lfunc_end14:
	.size	"syntax::naming::tree_fault_of", .Lfunc_end14-"syntax::naming::tree_fault_of"
                                        // -- End function
	.section	.rodata.cst8,"aM",@progbits,8
	.p2align	3, 0x0                          // -- Begin function checks::check_tape
.LCPI15_0:
	.word	2                               // 0x2
	.word	0                               // 0x0
.LCPI15_1:
	.word	1                               // 0x1
	.word	0                               // 0x0
	.section	".text.checks::check_tape","ax",@progbits
	.p2align	2
	.type	"checks::check_tape",@function
"checks::check_tape":                   // @"checks::check_tape"
// %bb.0:                               // %start
	stp	x29, x30, [sp, #-80]!           // 16-byte Folded Spill
	str	x28, [sp, #16]                  // 8-byte Spill
	mov	x29, sp
	stp	x24, x23, [sp, #32]             // 16-byte Folded Spill
	stp	x22, x21, [sp, #48]             // 16-byte Folded Spill
	stp	x20, x19, [sp, #64]             // 16-byte Folded Spill
	sub	sp, sp, #656
	ldr	x24, [x1], #8
	mov	x19, x0
	sub	x8, x24, #1
	cmp	x8, #63
	b.hi	.LBB15_12
// %bb.1:                               // %arm.3.i.preheader.i.i
	add	x8, sp, #328
	mov	x22, x2
	mov	w2, #320                        // =0x140
	add	x21, x8, #8
	mov	x23, x3
	str	x24, [sp, #328]
	mov	x0, x21
	mov	x20, x1
	bl	memcpy
	mov	x8, x24
	b	.LBB15_4
.LBB15_2:                               // %arm.2.i.i.i.i.i.i.i.i
                                        //   in Loop: Header=BB15_4 Depth=1
	and	w9, w9, #0x7f
	sub	w9, w9, #33
	cmp	w9, #94
	b.hs	.LBB15_12
.LBB15_3:                               // %loop.2.backedge.i.i.i
                                        //   in Loop: Header=BB15_4 Depth=1
	sub	x8, x8, #1
	add	x21, x21, #5
	cbz	x8, .LBB15_11
.LBB15_4:                               // %arm.3.i.i.i
                                        // =>This Inner Loop Header: Depth=1
	ldrb	w9, [x21]
	cmp	w9, #200
	b.hi	.LBB15_12
// %bb.5:                               // %then.1.i.i.i.i.i.i
                                        //   in Loop: Header=BB15_4 Depth=1
	ldrb	w9, [x21, #1]
	cbnz	w9, .LBB15_3
// %bb.6:                               // %arm.1.i.i.i.i.i.i.i
                                        //   in Loop: Header=BB15_4 Depth=1
	ldrb	w10, [x21, #2]
	cbz	w10, .LBB15_3
// %bb.7:                               // %arm.1.i.i.i.i.i.i.i
                                        //   in Loop: Header=BB15_4 Depth=1
	ldrb	w9, [x21, #3]
	cmp	w10, #2
	b.ne	.LBB15_2
// %bb.8:                               // %arm.3.i.i.i.i.i.i.i.i
                                        //   in Loop: Header=BB15_4 Depth=1
	ldrb	w10, [x21, #4]
	cmp	w9, w10
	b.hi	.LBB15_12
// %bb.9:                               // %arm.3.i.i.i.i.i.i.i.i
                                        //   in Loop: Header=BB15_4 Depth=1
	and	w9, w9, #0x7f
	sub	w9, w9, #33
	cmp	w9, #93
	b.hi	.LBB15_12
// %bb.10:                              // %arm.3.i.i.i.i.i.i.i.i
                                        //   in Loop: Header=BB15_4 Depth=1
	and	w9, w10, #0x7f
	sub	w9, w9, #33
	cmp	w9, #93
	b.ls	.LBB15_3
	b	.LBB15_12
.LBB15_11:                              // %"syntax::obeys_rules.exit"
	mov	x8, sp
	mov	x1, x20
	mov	w2, #320                        // =0x140
	add	x0, x8, #8
	str	x24, [sp]
	bl	memcpy
	mov	x0, sp
	bl	"syntax::naming::tree_fault_of"
	and	w8, w0, #0xff
	cmp	w8, #1
	b.ne	.LBB15_15
.LBB15_12:                              // %then.1
	adrp	x8, .LCPI15_1
	mov	w9, #1                          // =0x1
	ldr	d0, [x8, :lo12:.LCPI15_1]
.LBB15_13:                              // %common.ret
	strb	w9, [x19]
	stur	d0, [x19, #4]
.LBB15_14:                              // %common.ret
	add	sp, sp, #656
	ldp	x20, x19, [sp, #64]             // 16-byte Folded Reload
	ldr	x28, [sp, #16]                  // 8-byte Reload
	ldp	x22, x21, [sp, #48]             // 16-byte Folded Reload
	ldp	x24, x23, [sp, #32]             // 16-byte Folded Reload
	ldp	x29, x30, [sp], #80             // 16-byte Folded Reload
	ret
.LBB15_15:                              // %join.3
	cmp	x23, #3601
	b.lo	.LBB15_17
// %bb.16:                              // %then.4
	adrp	x8, .LCPI15_0
	mov	w9, #1                          // =0x1
	ldr	d0, [x8, :lo12:.LCPI15_0]
	b	.LBB15_13
.LBB15_17:                              // %join.6
	mov	x8, xzr
	cbz	x23, .LBB15_20
.LBB15_18:                              // %arm.3.i.i
                                        // =>This Inner Loop Header: Depth=1
	ldrb	w9, [x22, x8]
	and	w9, w9, #0x7f
	sub	w9, w9, #127
	cmn	w9, #94
	b.lo	.LBB15_20
// %bb.19:                              // %join.9.i.i
                                        //   in Loop: Header=BB15_18 Depth=1
	add	x8, x8, #1
	cmp	x23, x8
	b.ne	.LBB15_18
	b	.LBB15_22
.LBB15_20:                              // %"syntax::first_bad.exit"
	cmp	x8, x23
	b.hs	.LBB15_22
// %bb.21:                              // %then.7
	mov	w9, #1                          // =0x1
	mov	w10, #3                         // =0x3
	strb	w9, [x19]
	stp	w10, w8, [x19, #4]
	b	.LBB15_14
.LBB15_22:                              // %join.9
	strb	wzr, [x19]
	stp	wzr, wzr, [x19, #4]
	b	.LBB15_14
.Lfunc_end15:
	.size	"checks::check_tape", .Lfunc_end15-"checks::check_tape"
                                        // -- End function
	.section	".text.table::table_of","ax",@progbits
	.p2align	2                               // -- Begin function table::table_of
	.type	"table::table_of",@function
"table::table_of":                      // @"table::table_of"
// %bb.0:                               // %start
	stp	x29, x30, [sp, #-48]!           // 16-byte Folded Spill
	stp	x28, x21, [sp, #16]             // 16-byte Folded Spill
	mov	x29, sp
	stp	x20, x19, [sp, #32]             // 16-byte Folded Spill
	sub	sp, sp, #848
	add	x21, sp, #520
	mov	x19, x0
	mov	w2, #320                        // =0x140
	ldr	x20, [x1], #8
	add	x0, x21, #8
	bl	memcpy
	movi	v0.2d, #0000000000000000
	str	x20, [sp, #520]
	stp	q0, q0, [sp]
	stp	q0, q0, [sp, #32]
	stp	q0, q0, [sp, #64]
	stp	q0, q0, [sp, #96]
	stp	q0, q0, [sp, #128]
	stp	q0, q0, [sp, #160]
	stp	q0, q0, [sp, #192]
	stp	q0, q0, [sp, #224]
	stp	q0, q0, [sp, #256]
	stp	q0, q0, [sp, #288]
	stp	q0, q0, [sp, #320]
	stp	q0, q0, [sp, #352]
	stp	q0, q0, [sp, #384]
	stp	q0, q0, [sp, #416]
	stp	q0, q0, [sp, #448]
	stp	q0, q0, [sp, #480]
	cbz	x20, .LBB16_21
// %bb.1:                               // %join.5.i.preheader
	add	x8, x21, #12
	mov	x9, sp
	mov	x10, x20
	b	.LBB16_4
.LBB16_2:                               // %join.5.i
                                        //   in Loop: Header=BB16_4 Depth=1
	and	x14, x12, #0x1
	cmp	w13, #2
	mov	w13, #4                         // =0x4
	add	x14, x14, #5
	csel	x12, x12, x11, eq
	csel	x11, x11, xzr, eq
	csel	x13, x13, x14, eq
.LBB16_3:                               // %"table::cell_of.exit.i"
                                        //   in Loop: Header=BB16_4 Depth=1
	orr	x12, x13, x12, lsl #8
	ldurb	w13, [x8, #-4]
	subs	x10, x10, #1
	add	x8, x8, #5
	orr	x11, x12, x11, lsl #16
	orr	x11, x11, x13, lsl #24
	str	x11, [x9], #8
	b.eq	.LBB16_12
.LBB16_4:                               // %join.5.i
                                        // =>This Inner Loop Header: Depth=1
	ldurb	w13, [x8, #-3]
	ldurb	w12, [x8, #-2]
	ldurb	w11, [x8, #-1]
	cmp	w13, #1
	b.gt	.LBB16_2
// %bb.5:                               // %join.5.i
                                        //   in Loop: Header=BB16_4 Depth=1
	cbnz	w13, .LBB16_9
// %bb.6:                               // %arm.1.i.i.i
                                        //   in Loop: Header=BB16_4 Depth=1
	cbz	x12, .LBB16_10
// %bb.7:                               // %arm.1.i.i.i
                                        //   in Loop: Header=BB16_4 Depth=1
	cmp	x12, #2
	b.ne	.LBB16_11
// %bb.8:                               // %arm.9.i.i.i
                                        //   in Loop: Header=BB16_4 Depth=1
	ldrb	w14, [x8]
	mov	x12, x11
	mov	w13, #2                         // =0x2
	mov	x11, x14
	b	.LBB16_3
.LBB16_9:                               //   in Loop: Header=BB16_4 Depth=1
	mov	w13, #3                         // =0x3
	b	.LBB16_3
.LBB16_10:                              //   in Loop: Header=BB16_4 Depth=1
	mov	x13, x12
	mov	x11, x12
	b	.LBB16_3
.LBB16_11:                              // %arm.8.i.i.i
                                        //   in Loop: Header=BB16_4 Depth=1
	mov	w13, #1                         // =0x1
	mov	x12, x11
	mov	x11, xzr
	b	.LBB16_3
.LBB16_12:                              // %"table::put_lines.exit"
	mov	x8, sp
	mov	w10, #64                        // =0x40
	add	x9, x8, x20, lsl #3
	stur	w10, [x9, #-4]
	sub	x9, x20, #1
	b	.LBB16_15
.LBB16_13:                              // %"table::first_part.exit.thread.i"
                                        //   in Loop: Header=BB16_15 Depth=1
	mov	x11, x9
.LBB16_14:                              // %"table::first_follower.exit.i"
                                        //   in Loop: Header=BB16_15 Depth=1
	mov	x12, sp
	sub	x9, x9, #1
	add	x11, x12, x11, lsl #3
	cmn	x9, #1
	str	w10, [x11, #4]
	b.eq	.LBB16_21
.LBB16_15:                              // %join.5.i1
                                        // =>This Inner Loop Header: Depth=1
	ldr	x12, [x8, x9, lsl #3]
	and	w14, w12, #0xff
	lsr	x10, x12, #32
	cmp	w14, #3
	b.lo	.LBB16_13
// %bb.16:                              // %join.5.i1
                                        //   in Loop: Header=BB16_15 Depth=1
	lsr	x13, x12, #16
	ubfx	x11, x12, #8, #8
	b.eq	.LBB16_19
// %bb.17:                              // %join.5.i1
                                        //   in Loop: Header=BB16_15 Depth=1
	cmp	w14, #4
	b.ne	.LBB16_20
// %bb.18:                              // %"table::first_part.exit.thread80.i"
                                        //   in Loop: Header=BB16_15 Depth=1
	ubfiz	x12, x13, #3, #8
	mov	x13, sp
	add	x12, x13, x12
	str	w10, [x12, #4]
	b	.LBB16_14
.LBB16_19:                              // %arm.2.i.i
                                        //   in Loop: Header=BB16_15 Depth=1
	mov	x14, sp
	ubfx	x12, x12, #16, #8
	add	x13, x14, w13, uxtb #3
	str	w10, [x13, #4]
	mov	x10, x12
	b	.LBB16_14
.LBB16_20:                              // %arm.3.i.i
                                        //   in Loop: Header=BB16_15 Depth=1
	lsr	x12, x12, #8
	mov	x13, sp
	ubfiz	x12, x12, #3, #8
	add	x12, x13, x12
	str	w10, [x12, #4]
	add	x10, x9, #256
	b	.LBB16_14
.LBB16_21:                              // %"table::put_followers.exit"
	mov	x1, sp
	mov	x0, x19
	mov	w2, #512                        // =0x200
	bl	memcpy
	add	sp, sp, #848
	ldp	x20, x19, [sp, #32]             // 16-byte Folded Reload
	ldp	x28, x21, [sp, #16]             // 16-byte Folded Reload
	ldp	x29, x30, [sp], #48             // 16-byte Folded Reload
	ret
.Lfunc_end16:
	.size	"table::table_of", .Lfunc_end16-"table::table_of"
                                        // -- End function
	.section	".text.masks::put_masks","ax",@progbits
	.p2align	2                               // -- Begin function masks::put_masks
	.type	"masks::put_masks",@function
"masks::put_masks":                     // @"masks::put_masks"
// %bb.0:                               // %start
	stp	x29, x30, [sp, #-64]!           // 16-byte Folded Spill
	stp	x28, x23, [sp, #16]             // 16-byte Folded Spill
	mov	x29, sp
	stp	x22, x21, [sp, #32]             // 16-byte Folded Spill
	stp	x20, x19, [sp, #48]             // 16-byte Folded Spill
	sub	sp, sp, #2576
	mov	x21, x2
	mov	x19, x1
	mov	x22, x0
	add	x0, sp, #1536
	mov	w1, wzr
	mov	w2, #1024                       // =0x400
	str	xzr, [sp]
	mov	x20, x3
	add	x23, sp, #1536
	bl	memset
	movi	v0.2d, #0000000000000000
	mov	x0, sp
	mov	w1, wzr
	mov	w2, #1536                       // =0x600
	str	q0, [sp, #1536]
	str	q0, [sp, #1552]
	str	q0, [sp, #1568]
	str	q0, [sp, #1584]
	str	q0, [sp, #1600]
	str	q0, [sp, #1616]
	str	q0, [sp, #1632]
	str	q0, [sp, #1648]
	str	q0, [sp, #1664]
	str	q0, [sp, #1680]
	str	q0, [sp, #1696]
	str	q0, [sp, #1712]
	str	q0, [sp, #1728]
	str	q0, [sp, #1744]
	str	q0, [sp, #1760]
	str	q0, [sp, #1776]
	str	q0, [sp, #1792]
	str	q0, [sp, #1808]
	str	q0, [sp, #1824]
	str	q0, [sp, #1840]
	str	q0, [sp, #1856]
	str	q0, [sp, #1872]
	str	q0, [sp, #1888]
	str	q0, [sp, #1904]
	str	q0, [sp, #1920]
	str	q0, [sp, #1936]
	str	q0, [sp, #1952]
	str	q0, [sp, #1968]
	str	q0, [sp, #1984]
	str	q0, [sp, #2000]
	str	q0, [sp, #2016]
	str	q0, [sp, #2032]
	str	q0, [sp, #2048]
	str	q0, [sp, #2064]
	str	q0, [sp, #2080]
	str	q0, [sp, #2096]
	str	q0, [sp, #2112]
	str	q0, [sp, #2128]
	str	q0, [sp, #2144]
	str	q0, [sp, #2160]
	str	q0, [sp, #2176]
	str	q0, [sp, #2192]
	str	q0, [sp, #2208]
	str	q0, [sp, #2224]
	str	q0, [sp, #2240]
	str	q0, [sp, #2256]
	str	q0, [sp, #2272]
	str	q0, [sp, #2288]
	str	q0, [sp, #2304]
	str	q0, [sp, #2320]
	str	q0, [sp, #2336]
	str	q0, [sp, #2352]
	str	q0, [sp, #2368]
	str	q0, [sp, #2384]
	str	q0, [sp, #2400]
	str	q0, [sp, #2416]
	str	q0, [sp, #2432]
	str	q0, [sp, #2448]
	str	q0, [sp, #2464]
	str	q0, [sp, #2480]
	str	q0, [sp, #2496]
	str	q0, [sp, #2512]
	str	q0, [sp, #2528]
	str	q0, [sp, #2544]
	bl	memset
	cbz	x19, .LBB17_51
// %bb.1:                               // %join.5.i.preheader
	mov	x9, xzr
	sub	x8, x29, #16
	add	x10, x23, #9
	b	.LBB17_4
.LBB17_2:                               // %arm.1.i.i.i
                                        //   in Loop: Header=BB17_4 Depth=1
	mov	w11, #1                         // =0x1
	mov	w12, wzr
	lsl	x11, x11, x9
.LBB17_3:                               // %"masks::firsts::line_first.exit.i"
                                        //   in Loop: Header=BB17_4 Depth=1
	add	x9, x9, #1
	stur	x11, [x10, #-9]
	sturb	w12, [x10, #-1]
	cmp	x19, x9
	str	wzr, [x10]
	stur	wzr, [x10, #3]
	add	x10, x10, #16
	b.eq	.LBB17_13
.LBB17_4:                               // %join.5.i
                                        // =>This Inner Loop Header: Depth=1
	ldr	x12, [x22, x9, lsl #3]
	and	w13, w12, #0xff
	lsr	x11, x12, #8
	cmp	w13, #2
	b.gt	.LBB17_8
// %bb.5:                               // %join.5.i
                                        //   in Loop: Header=BB17_4 Depth=1
	sub	w14, w13, #1
	cmp	w14, #2
	b.lo	.LBB17_2
// %bb.6:                               // %join.5.i
                                        //   in Loop: Header=BB17_4 Depth=1
	cbnz	w13, .LBB17_12
// %bb.7:                               //   in Loop: Header=BB17_4 Depth=1
	and	x11, x12, #0xff
	mov	w12, #1                         // =0x1
	b	.LBB17_3
.LBB17_8:                               // %join.5.i
                                        //   in Loop: Header=BB17_4 Depth=1
	lsr	x12, x12, #16
	cmp	w13, #3
	b.eq	.LBB17_11
// %bb.9:                               // %join.5.i
                                        //   in Loop: Header=BB17_4 Depth=1
	cmp	w13, #4
	b.ne	.LBB17_12
// %bb.10:                              // %arm.3.i.i.i
                                        //   in Loop: Header=BB17_4 Depth=1
	ubfiz	x11, x11, #4, #8
	ubfiz	x12, x12, #4, #8
	add	x13, sp, #1536
	add	x11, x13, x11
	add	x12, x13, x12
	ldrb	w13, [x11, #8]
	ldrb	w14, [x12, #8]
	ldr	x11, [x11]
	ldr	x15, [x12]
	orr	w12, w14, w13
	and	w12, w12, #0x1
	orr	x11, x15, x11
	b	.LBB17_3
.LBB17_11:                              // %arm.2.i.i.i
                                        //   in Loop: Header=BB17_4 Depth=1
	ubfiz	x11, x11, #4, #8
	add	x13, sp, #1536
	ubfiz	x12, x12, #4, #8
	add	x11, x13, x11
	add	x12, x13, x12
	ldrb	w14, [x11, #8]
	ldr	x13, [x12]
	ldr	x11, [x11]
	ldrb	w12, [x12, #8]
	ands	w14, w14, #0x1
	csel	x13, x13, xzr, ne
	and	w12, w14, w12
	orr	x11, x13, x11
	b	.LBB17_3
.LBB17_12:                              // %.thread57.i.i
                                        //   in Loop: Header=BB17_4 Depth=1
	ubfiz	x11, x11, #4, #8
	add	x12, sp, #1536
	ldr	x11, [x12, x11]
	mov	w12, #1                         // =0x1
	b	.LBB17_3
.LBB17_13:                              // %"masks::firsts::put_firsts.exit"
	add	x9, x19, x19, lsl #1
	mov	w11, #1                         // =0x1
	lsl	x10, x9, #3
	mov	x9, sp
	add	x9, x9, x10
	sub	x10, x10, #24
	stp	xzr, xzr, [x9, #-24]
	sturb	w11, [x9, #-8]
	stur	wzr, [x9, #-7]
	stur	wzr, [x9, #-4]
	sub	x9, x19, #1
	b	.LBB17_17
.LBB17_14:                              // %"masks::follows::to_first.exit.thread29.i.i"
                                        //   in Loop: Header=BB17_17 Depth=1
	mov	x18, xzr
	orr	x16, x16, x14
	stur	wzr, [x8, #3]
	and	w15, w15, #0x1
	stur	wzr, [x29, #-16]
	mov	x11, x13
.LBB17_15:                              // %after.2.i.i.i
                                        //   in Loop: Header=BB17_17 Depth=1
	add	x11, x11, x11, lsl #1
	lsl	x13, x11, #3
.LBB17_16:                              // %"masks::follows::hand_on.exit.i"
                                        //   in Loop: Header=BB17_17 Depth=1
	mov	x11, sp
	ldur	w12, [x29, #-16]
	sub	x9, x9, #1
	add	x11, x11, x13
	ldur	w13, [x8, #3]
	cmn	x9, #1
	sub	x10, x10, #24
	stp	x18, x16, [x11]
	strb	w15, [x11, #16]
	stur	w12, [x11, #17]
	str	w13, [x11, #20]
	b.eq	.LBB17_36
.LBB17_17:                              // %join.5.i2
                                        // =>This Inner Loop Header: Depth=1
	ldr	x12, [x22, x9, lsl #3]
	and	x11, x12, #0xff
	ubfx	x14, x12, #8, #8
	cmp	x11, #2
	b.gt	.LBB17_20
// %bb.18:                              // %join.5.i2
                                        //   in Loop: Header=BB17_17 Depth=1
	sub	x12, x11, #1
	cmp	x12, #2
	b.hs	.LBB17_24
// %bb.19:                              // %arm.2.i.i.i9
                                        //   in Loop: Header=BB17_17 Depth=1
	mov	x17, xzr
	mov	w12, #1                         // =0x1
	mov	x13, x14
	mov	x14, x9
	b	.LBB17_31
.LBB17_20:                              // %join.5.i2
                                        //   in Loop: Header=BB17_17 Depth=1
	ubfx	x13, x12, #16, #8
	cmp	x11, #3
	b.eq	.LBB17_26
// %bb.21:                              // %join.5.i2
                                        //   in Loop: Header=BB17_17 Depth=1
	cmp	x11, #4
	b.eq	.LBB17_29
// %bb.22:                              // %join.5.i2
                                        //   in Loop: Header=BB17_17 Depth=1
	cmp	x11, #5
	b.ne	.LBB17_27
// %bb.23:                              // %arm.6.i.i.i
                                        //   in Loop: Header=BB17_17 Depth=1
	mov	x11, xzr
	mov	w12, wzr
	mov	w17, #3                         // =0x3
	b	.LBB17_28
.LBB17_24:                              // %join.5.i2
                                        //   in Loop: Header=BB17_17 Depth=1
	cbnz	x11, .LBB17_27
// %bb.25:                              // %join.5.i2._crit_edge
                                        //   in Loop: Header=BB17_17 Depth=1
	mov	w12, #1                         // =0x1
	mov	x13, x11
	mov	x17, x11
	mov	x14, x9
	b	.LBB17_31
.LBB17_26:                              //   in Loop: Header=BB17_17 Depth=1
	mov	w12, wzr
	mov	w17, #1                         // =0x1
	b	.LBB17_30
.LBB17_27:                              // %default.7.i.i.i
                                        //   in Loop: Header=BB17_17 Depth=1
	mov	w12, wzr
	mov	w17, #3                         // =0x3
	mov	w11, #1                         // =0x1
.LBB17_28:                              //   in Loop: Header=BB17_17 Depth=1
	mov	x13, x14
	b	.LBB17_31
.LBB17_29:                              // %arm.5.i.i.i
                                        //   in Loop: Header=BB17_17 Depth=1
	mov	w12, wzr
	mov	w17, #2                         // =0x2
.LBB17_30:                              //   in Loop: Header=BB17_17 Depth=1
	mov	x11, x14
	mov	x14, x13
.LBB17_31:                              //   in Loop: Header=BB17_17 Depth=1
	mov	x15, sp
	mov	w16, #24                        // =0x18
	cmp	x17, #1
	add	x0, x15, x10
	madd	x1, x14, x16, x15
	ldur	w15, [x0, #17]
	ldr	w2, [x0, #20]
	ldp	x18, x16, [x0]
	stur	w15, [x29, #-8]
	ldrb	w15, [x0, #16]
	stur	w2, [x8, #11]
	add	x2, sp, #1536
	add	x0, x2, x14, lsl #4
	ldur	w2, [x29, #-8]
	ldur	w3, [x8, #11]
	stp	x18, x16, [x1]
	ldr	x14, [x0]
	ldrb	w0, [x0, #8]
	strb	w15, [x1, #16]
	stur	w2, [x1, #17]
	str	w3, [x1, #20]
	b.gt	.LBB17_34
// %bb.32:                              //   in Loop: Header=BB17_17 Depth=1
	cbz	x17, .LBB17_35
// %bb.33:                              // %"masks::follows::to_first.exit.thread.i.i"
                                        //   in Loop: Header=BB17_17 Depth=1
	ands	w12, w0, #0x1
	stur	wzr, [x8, #3]
	csel	x13, x18, xzr, ne
	csel	x16, x16, xzr, ne
	and	w15, w12, w15
	orr	x18, x13, x14
	orr	x16, x16, x14
	stur	wzr, [x29, #-16]
	b	.LBB17_15
.LBB17_34:                              //   in Loop: Header=BB17_17 Depth=1
	cmp	x17, #2
	b.ne	.LBB17_14
.LBB17_35:                              // %"masks::follows::to_first.exit.i.i"
                                        //   in Loop: Header=BB17_17 Depth=1
	ldur	w13, [x29, #-8]
	ldur	w14, [x8, #11]
	stur	w13, [x29, #-16]
	mov	x13, x10
	stur	w14, [x8, #3]
	tbz	w12, #0, .LBB17_15
	b	.LBB17_16
.LBB17_36:                              // %join.5.i10.preheader
	mov	x8, xzr
	b	.LBB17_38
.LBB17_37:                              // %"masks::scatter::put_row.exit.i"
                                        //   in Loop: Header=BB17_38 Depth=1
	add	x8, x8, #1
	cmp	x8, x19
	b.eq	.LBB17_41
.LBB17_38:                              // %join.5.i10
                                        // =>This Loop Header: Depth=1
                                        //     Child Loop BB17_40 Depth 2
	mov	w9, #24                         // =0x18
	add	x10, sp, #1536
	mov	x12, sp
	mul	x9, x8, x9
	add	x10, x10, x8, lsl #4
	ldrb	w11, [x10, #8]
	ldr	x10, [x10]
	tst	w11, #0x1
	ldr	x9, [x12, x9]
	csel	x9, x9, xzr, ne
	orr	x9, x9, x10
	cbz	x9, .LBB17_37
// %bb.39:                              // %arm.3.i.i.preheader
                                        //   in Loop: Header=BB17_38 Depth=1
	mov	w10, #1                         // =0x1
	lsl	x10, x10, x8
.LBB17_40:                              // %arm.3.i.i
                                        //   Parent Loop BB17_38 Depth=1
                                        // =>  This Inner Loop Header: Depth=2
	rbit	x11, x9
	sub	x12, x9, #1
	ands	x9, x12, x9
	clz	x11, x11
	ldr	x13, [x21, x11, lsl #3]
	orr	x12, x13, x10
	str	x12, [x21, x11, lsl #3]
	b.ne	.LBB17_40
	b	.LBB17_37
.LBB17_41:                              // %join.5.us.i.preheader
	mov	x8, xzr
	b	.LBB17_43
.LBB17_42:                              // %"masks::scatter::put_row.exit.us.i"
                                        //   in Loop: Header=BB17_43 Depth=1
	add	x8, x8, #1
	cmp	x8, x19
	b.eq	.LBB17_46
.LBB17_43:                              // %join.5.us.i
                                        // =>This Loop Header: Depth=1
                                        //     Child Loop BB17_45 Depth 2
	mov	w9, #24                         // =0x18
	mov	x10, sp
	madd	x9, x8, x9, x10
	add	x10, sp, #1536
	add	x10, x10, x8, lsl #4
	ldrb	w11, [x10, #8]
	ldr	x10, [x10]
	ldr	x9, [x9, #8]
	tst	w11, #0x1
	csel	x9, x9, xzr, ne
	orr	x9, x9, x10
	cbz	x9, .LBB17_42
// %bb.44:                              // %arm.3.i.us.i.preheader
                                        //   in Loop: Header=BB17_43 Depth=1
	mov	w10, #1                         // =0x1
	lsl	x10, x10, x8
.LBB17_45:                              // %arm.3.i.us.i
                                        //   Parent Loop BB17_43 Depth=1
                                        // =>  This Inner Loop Header: Depth=2
	rbit	x11, x9
	sub	x12, x9, #1
	ands	x9, x12, x9
	clz	x11, x11
	ldr	x13, [x20, x11, lsl #3]
	orr	x12, x13, x10
	str	x12, [x20, x11, lsl #3]
	b.ne	.LBB17_45
	b	.LBB17_42
.LBB17_46:                              // %join.5.i20.preheader
	mov	x9, sp
	add	x10, sp, #1536
	mov	x0, xzr
	mov	x8, xzr
	add	x9, x9, #16
	add	x10, x10, #8
	b	.LBB17_48
.LBB17_47:                              // %then.6.i
                                        //   in Loop: Header=BB17_48 Depth=1
	ldrb	w11, [x9], #24
	lsl	x11, x11, x8
	add	x8, x8, #1
	cmp	x19, x8
	add	x0, x11, x0
	b.eq	.LBB17_50
.LBB17_48:                              // %join.5.i20
                                        // =>This Inner Loop Header: Depth=1
	ldrb	w11, [x10], #16
	cmp	w11, #1
	b.eq	.LBB17_47
// %bb.49:                              //   in Loop: Header=BB17_48 Depth=1
	lsl	x11, xzr, x8
	add	x8, x8, #1
	add	x9, x9, #24
	cmp	x19, x8
	add	x0, x11, x0
	b.ne	.LBB17_48
.LBB17_50:                              // %"masks::scatter::ends_of.exit"
	add	sp, sp, #2576
	ldp	x20, x19, [sp, #48]             // 16-byte Folded Reload
	ldp	x22, x21, [sp, #32]             // 16-byte Folded Reload
	ldp	x28, x23, [sp, #16]             // 16-byte Folded Reload
	ldp	x29, x30, [sp], #64             // 16-byte Folded Reload
	ret
.LBB17_51:
	mov	x0, xzr
	add	sp, sp, #2576
	ldp	x20, x19, [sp, #48]             // 16-byte Folded Reload
	ldp	x22, x21, [sp, #32]             // 16-byte Folded Reload
	ldp	x28, x23, [sp, #16]             // 16-byte Folded Reload
	ldp	x29, x30, [sp], #64             // 16-byte Folded Reload
	ret
.Lfunc_end17:
	.size	"masks::put_masks", .Lfunc_end17-"masks::put_masks"
                                        // -- End function
	.section	".text.second_sweep::sweep","ax",@progbits
	.p2align	2                               // -- Begin function second_sweep::sweep
	.type	"second_sweep::sweep",@function
"second_sweep::sweep":                  // @"second_sweep::sweep"
// %bb.0:                               // %start
	sub	sp, sp, #112
	stp	x29, x30, [sp, #16]             // 16-byte Folded Spill
	add	x29, sp, #16
	ldr	w8, [x29, #104]
	stp	x28, x27, [sp, #32]             // 16-byte Folded Spill
	ldr	x27, [x29, #96]
	stp	x26, x25, [sp, #48]             // 16-byte Folded Spill
	mov	w26, w6
	mov	x25, x4
	stp	x24, x23, [sp, #64]             // 16-byte Folded Spill
	mov	x23, x1
	mov	x24, x0
	stp	x22, x21, [sp, #80]             // 16-byte Folded Spill
	mov	x22, x3
	mov	x21, x2
	stp	x20, x19, [sp, #96]             // 16-byte Folded Spill
	mov	x19, x7
	mov	w20, w5
	mov	w0, w8
.LBB18_1:                               // %tailrecurse
                                        // =>This Inner Loop Header: Depth=1
	ldr	x8, [x24, x25, lsl #3]
	and	w10, w8, #0xff
	cmp	w10, #2
	b.le	.LBB18_8
// %bb.2:                               // %tailrecurse
                                        //   in Loop: Header=BB18_1 Depth=1
	lsr	x28, x8, #16
	cmp	w10, #3
	b.eq	.LBB18_7
// %bb.3:                               // %tailrecurse
                                        //   in Loop: Header=BB18_1 Depth=1
	lsr	x9, x8, #8
	cmp	w10, #4
	b.ne	.LBB18_17
// %bb.4:                               // %arm.3
                                        //   in Loop: Header=BB18_1 Depth=1
	tst	w26, #0x1
	mov	w8, #8                          // =0x8
	add	x11, x23, w20, uxth #4
	mov	w10, w0
	csel	x12, x8, xzr, ne
	mov	w13, #1                         // =0x1
	lsr	x10, x10, #3
	ldr	x11, [x11, x12]
	lsl	x12, x13, x9
	cmp	x27, x10
	and	x11, x11, x12
	b.ls	.LBB18_6
// %bb.5:                               // %then.1.i.i31
                                        //   in Loop: Header=BB18_1 Depth=1
	and	w12, w0, #0x7
	ldrb	w13, [x19, x10]
	cmp	x11, #0
	sub	w8, w8, w12
	cset	w14, eq
	eor	w12, w12, #0x7
	lsr	w13, w13, w8
	lsl	w12, w14, w12
	lsl	w8, w13, w8
	orr	w8, w8, w12
	strb	w8, [x19, x10]
.LBB18_6:                               // %"second_sweep::choose.exit"
                                        //   in Loop: Header=BB18_1 Depth=1
	cmp	x11, #0
	add	w0, w0, #1
	csel	x28, x28, x9, eq
	and	x25, x28, #0xff
	b	.LBB18_1
.LBB18_7:                               // %arm.2
                                        //   in Loop: Header=BB18_1 Depth=1
	ubfx	x4, x8, #8, #8
	str	w0, [sp, #8]
	and	w6, w26, #0x1
	mov	x0, x24
	mov	x1, x23
	mov	x2, x21
	mov	x3, x22
	mov	w5, w20
	mov	x7, x19
	str	x27, [sp]
	bl	"second_sweep::sweep"
	and	w8, w20, #0xffff
	mov	w20, w1
	and	x25, x28, #0xff
	cmp	w8, w1, uxth
	cset	w8, lo
	orr	w26, w26, w8
	b	.LBB18_1
.LBB18_8:                               // %tailrecurse
	cbz	w10, .LBB18_39
// %bb.9:                               // %tailrecurse
	cmp	w10, #1
	b.eq	.LBB18_14
// %bb.10:                              // %tailrecurse
	cmp	w10, #2
	b.ne	.LBB18_23
// %bb.11:                              // %arm.3.i
	mov	w8, w0
	add	x8, x8, #7
	cmp	x27, x8, lsr #3
	add	w8, w20, #1
	b.ls	.LBB18_16
// %bb.12:                              // %then.1.i.i
                                        // kill: def $w20 killed $w20 killed $x20 def $x20
	and	x9, x20, #0xffff
	lsr	w12, w0, #3
	ands	w11, w0, #0x7
	ldrb	w10, [x21, x9]
	add	x9, x19, x12
	b.eq	.LBB18_15
// %bb.13:                              // %join.3.i.i.i
	ldrb	w12, [x9]
	mov	w13, #8                         // =0x8
	sub	w13, w13, w11
	lsr	w11, w10, w11
	lsr	w12, w12, w13
	lsl	w10, w10, w13
	lsl	w12, w12, w13
	strb	w10, [x9, #1]
	orr	w11, w12, w11
	strb	w11, [x9]
	b	.LBB18_16
.LBB18_14:                              // %arm.2.i
	add	w20, w20, #1
	b	.LBB18_39
.LBB18_15:                              // %then.1.i.i.i
	strb	w10, [x9]
.LBB18_16:                              // %"second_sweep::put_letter.exit.i"
	add	w0, w0, #8
	mov	w20, w8
	b	.LBB18_39
.LBB18_17:                              // %tailrecurse
	cmp	w10, #5
	b.ne	.LBB18_23
// %bb.18:                              // %arm.4.split
	mov	w10, w20
	and	x10, x10, #0xffff
	lsl	x11, x10, #4
	mov	w10, #1                         // =0x1
	lsl	x26, x10, x9
	ldr	x9, [x23, x11]
	tst	x9, x26
	b.eq	.LBB18_36
// %bb.19:                              // %join.12.preheader
	ubfx	x25, x8, #8, #8
	b	.LBB18_21
.LBB18_20:                              // %"second_sweep::put_bit.exit"
                                        //   in Loop: Header=BB18_21 Depth=1
	add	w8, w0, #1
	mov	w6, wzr
	mov	x0, x24
	mov	x1, x23
	mov	x2, x21
	mov	x3, x22
	mov	x4, x25
	mov	w5, w20
	mov	x7, x19
	str	w8, [sp, #8]
	str	x27, [sp]
	bl	"second_sweep::sweep"
	mov	w20, w1
	and	x8, x20, #0xffff
	lsl	x8, x8, #4
	ldr	x8, [x23, x8]
	tst	x8, x26
	b.eq	.LBB18_40
.LBB18_21:                              // %join.12
                                        // =>This Inner Loop Header: Depth=1
	mov	w8, w0
	lsr	x8, x8, #3
	cmp	x27, x8
	b.ls	.LBB18_20
// %bb.22:                              // %then.1.i41
                                        //   in Loop: Header=BB18_21 Depth=1
	and	w9, w0, #0x7
	ldrb	w10, [x19, x8]
	mov	w11, #8                         // =0x8
	sub	w9, w11, w9
	lsr	w10, w10, w9
	lsl	w9, w10, w9
	strb	w9, [x19, x8]
	b	.LBB18_20
.LBB18_23:                              // %loop.9.us.preheader
	ubfx	x9, x8, #40, #1
	bic	w9, w9, w26
	tbnz	w9, #0, .LBB18_27
// %bb.24:                              // %join.3.i.i.us.peel
	tst	x8, #0xc000000000
	b.eq	.LBB18_26
// %bb.25:                              // %else.5.i.i.us.peel
	and	w9, w20, #0xffff
	cmp	w9, w22, uxth
	cset	w9, eq
	and	w9, w26, w9
	tbz	w9, #0, .LBB18_27
	b	.LBB18_34
.LBB18_26:                              // %"second_sweep::may_stop.exit.i.us.peel"
	tst	w26, #0x1
	mov	w9, #8                          // =0x8
	add	x10, x23, w20, uxth #4
	csel	x9, x9, xzr, ne
	lsr	x11, x8, #32
	ldr	x9, [x10, x9]
	lsr	x9, x9, x11
	tbnz	w9, #0, .LBB18_34
.LBB18_27:                              // %join.12.us.peel
	mov	w9, w0
	ubfx	x26, x8, #8, #8
	lsr	x9, x9, #3
	cmp	x27, x9
	b.ls	.LBB18_32
// %bb.28:                              // %then.1.i41.us.peel
	and	w8, w0, #0x7
	ldrb	w10, [x19, x9]
	mov	w11, #8                         // =0x8
	sub	w11, w11, w8
	eor	w8, w8, #0x7
	mov	w12, #1                         // =0x1
	lsr	w10, w10, w11
	lsl	w8, w12, w8
	lsl	w10, w10, w11
	orr	w8, w10, w8
	strb	w8, [x19, x9]
	b	.LBB18_32
.LBB18_29:                              // %"second_sweep::may_stop.exit.i.us"
                                        //   in Loop: Header=BB18_32 Depth=1
	add	x9, x23, w20, uxth #4
	lsr	x8, x8, #32
	ldr	x9, [x9, #8]
	lsr	x8, x9, x8
	tbnz	w8, #0, .LBB18_35
.LBB18_30:                              // %join.12.us
                                        //   in Loop: Header=BB18_32 Depth=1
	mov	w8, w0
	lsr	x8, x8, #3
	cmp	x27, x8
	b.ls	.LBB18_32
// %bb.31:                              // %then.1.i41.us
                                        //   in Loop: Header=BB18_32 Depth=1
	and	w9, w0, #0x7
	ldrb	w10, [x19, x8]
	mov	w11, #8                         // =0x8
	sub	w11, w11, w9
	eor	w9, w9, #0x7
	mov	w12, #1                         // =0x1
	lsr	w10, w10, w11
	lsl	w9, w12, w9
	lsl	w10, w10, w11
	orr	w9, w10, w9
	strb	w9, [x19, x8]
.LBB18_32:                              // %"second_sweep::put_bit.exit.us.peel"
                                        // =>This Inner Loop Header: Depth=1
	add	w8, w0, #1
	mov	w6, wzr
	mov	x0, x24
	mov	x1, x23
	mov	x2, x21
	mov	x3, x22
	mov	x4, x26
	mov	w5, w20
	mov	x7, x19
	str	w8, [sp, #8]
	str	x27, [sp]
	bl	"second_sweep::sweep"
	ldr	x8, [x24, x25, lsl #3]
	mov	w20, w1
	tst	x8, #0xc000000000
	b.eq	.LBB18_29
// %bb.33:                              // %else.5.i.i.us
                                        //   in Loop: Header=BB18_32 Depth=1
	and	w8, w20, #0xffff
	cmp	w8, w22, uxth
	b.ne	.LBB18_30
.LBB18_34:
	mov	w10, wzr
	mov	w8, w0
	lsr	x8, x8, #3
	cmp	x27, x8
	b.hi	.LBB18_37
	b	.LBB18_38
.LBB18_35:
	mov	w10, wzr
.LBB18_36:                              // %after.8
	mov	w8, w0
	lsr	x8, x8, #3
	cmp	x27, x8
	b.ls	.LBB18_38
.LBB18_37:                              // %then.1.i.i48
	and	w9, w0, #0x7
	ldrb	w11, [x19, x8]
	mov	w12, #8                         // =0x8
	sub	w12, w12, w9
	eor	w9, w9, #0x7
	lsr	w11, w11, w12
	lsl	w9, w10, w9
	lsl	w11, w11, w12
	orr	w9, w11, w9
	strb	w9, [x19, x8]
.LBB18_38:                              // %"second_sweep::stop.exit"
	add	w0, w0, #1
.LBB18_39:                              // %return.7
	mov	w1, w20
	ldp	x20, x19, [sp, #96]             // 16-byte Folded Reload
	ldp	x22, x21, [sp, #80]             // 16-byte Folded Reload
	ldp	x24, x23, [sp, #64]             // 16-byte Folded Reload
	ldp	x26, x25, [sp, #48]             // 16-byte Folded Reload
	ldp	x28, x27, [sp, #32]             // 16-byte Folded Reload
	ldp	x29, x30, [sp, #16]             // 16-byte Folded Reload
	add	sp, sp, #112
	ret
.LBB18_40:
	mov	w10, #1                         // =0x1
	mov	w8, w0
	lsr	x8, x8, #3
	cmp	x27, x8
	b.hi	.LBB18_37
	b	.LBB18_38
.Lfunc_end18:
	.size	"second_sweep::sweep", .Lfunc_end18-"second_sweep::sweep"
                                        // -- End function
	.section	".text.entries::put_entries","ax",@progbits
	.p2align	2                               // -- Begin function entries::put_entries
	.type	"entries::put_entries",@function
"entries::put_entries":                 // @"entries::put_entries"
// %bb.0:                               // %start
	sub	sp, sp, #160
	ldr	x9, [x1, x2, lsl #3]
	stp	x29, x30, [sp, #64]             // 16-byte Folded Spill
	add	x29, sp, #64
	and	w10, w3, #0xff
	stp	x28, x27, [sp, #80]             // 16-byte Folded Spill
	ldr	w8, [x29, #104]
	lsr	x11, x9, #24
	stp	x26, x25, [sp, #96]             // 16-byte Folded Spill
	ldr	x27, [x29, #96]
	ubfx	x25, x9, #8, #8
	ubfx	x26, x9, #16, #8
	stp	x24, x23, [sp, #112]            // 16-byte Folded Spill
	tst	w11, #0xff
	stp	x22, x21, [sp, #128]            // 16-byte Folded Spill
	mov	x23, x5
	ccmp	w10, #9, #4, ne
	and	w10, w9, #0xff
	stp	x20, x19, [sp, #144]            // 16-byte Folded Spill
	mov	x20, x7
	mov	x24, x1
	mov	x22, x4
	mov	x19, x0
	csel	w21, w3, w11, eq
	cmp	w10, #2
	stur	wzr, [x29, #-8]
	stur	xzr, [x29, #-16]
	str	xzr, [sp, #32]
	str	wzr, [sp, #40]
	str	xzr, [sp, #16]
	str	wzr, [sp, #24]
	b.gt	.LBB19_6
// %bb.1:                               // %start
	cbz	w10, .LBB19_20
// %bb.2:                               // %start
	cmp	w10, #1
	b.eq	.LBB19_17
// %bb.3:                               // %start
	cmp	w10, #2
	b.ne	.LBB19_15
// %bb.4:                               // %arm.3.i
	add	w9, w6, #8
	cmp	w9, w23, lsl #3
	b.ls	.LBB19_28
// %bb.5:
	mov	w11, wzr
	mov	x10, xzr
	b	.LBB19_22
.LBB19_6:                               // %start
	cmp	w10, #3
	b.eq	.LBB19_13
// %bb.7:                               // %start
	cmp	w10, #4
	b.eq	.LBB19_23
// %bb.8:                               // %start
	cmp	w10, #5
	mov	w26, wzr
	b.ne	.LBB19_15
// %bb.9:                               // %arm.4
	lsl	w28, w23, #3
	cmp	w6, w28
	b.hs	.LBB19_16
.LBB19_10:                              // %join.17
                                        // =>This Inner Loop Header: Depth=1
	mov	w9, w6
	mov	w10, #7                         // =0x7
	lsr	x9, x9, #3
	bic	w10, w10, w6
	add	w6, w6, #1
	ldrb	w9, [x22, x9]
	lsr	w9, w9, w10
	and	w9, w9, #0x1
	cmp	w26, w9
	b.ne	.LBB19_36
// %bb.11:                              // %join.20
                                        //   in Loop: Header=BB19_10 Depth=1
	add	x0, sp, #16
	mov	x1, x24
	mov	x2, x25
	mov	w3, w21
	mov	x4, x22
	mov	x5, x23
	mov	x7, x20
	str	w8, [sp, #8]
                                        // kill: def $w6 killed $w6 killed $x6
	str	x27, [sp]
	bl	"entries::put_entries"
	ldrb	w8, [sp, #16]
	cmp	w8, #1
	b.ne	.LBB19_27
// %bb.12:                              // %arm.21
                                        //   in Loop: Header=BB19_10 Depth=1
	ldp	w6, w8, [sp, #20]
	cmp	w28, w6
	b.hi	.LBB19_10
	b	.LBB19_16
.LBB19_13:                              // %arm.2
	add	x0, sp, #32
	mov	x1, x24
	mov	x2, x25
	mov	w3, w21
	mov	x4, x22
	mov	x5, x23
	mov	x7, x20
	str	w8, [sp, #8]
	str	x27, [sp]
	bl	"entries::put_entries"
	ldrb	w8, [sp, #32]
	cmp	w8, #1
	b.ne	.LBB19_27
// %bb.14:                              // %arm.7
	ldur	x6, [sp, #36]
	sub	x0, x29, #16
	mov	x1, x24
	mov	x2, x26
	mov	w3, w21
	mov	x4, x22
	lsr	x8, x6, #32
	mov	x5, x23
                                        // kill: def $w6 killed $w6 killed $x6
	str	w8, [sp, #8]
	b	.LBB19_25
.LBB19_15:                              // %default.7.i.i
	mov	w26, #1                         // =0x1
	lsl	w28, w23, #3
	cmp	w6, w28
	b.lo	.LBB19_10
.LBB19_16:                              // %after.13
	stur	wzr, [x29, #-16]
	b	.LBB19_26
.LBB19_17:                              // %arm.2.i
	cmp	w8, #3599
	b.hi	.LBB19_19
// %bb.18:                              // %then.1.i2.i.i
	strb	w25, [x20, w8, uxtw]
	strb	w21, [x27, w8, uxtw]
.LBB19_19:                              // %"entries::put_entry.exit.i"
	add	w9, w8, #1
	cmp	w9, #3601
	mov	w9, #3601                       // =0xe11
	csinc	w8, w9, w8, hs
.LBB19_20:                              // %arm.1.i
	mov	w9, w6
.LBB19_21:                              // %"entries::put_leaf.exit"
	orr	x10, x9, x8, lsl #32
	mov	w11, #1                         // =0x1
.LBB19_22:                              // %"entries::put_leaf.exit"
	stur	w11, [x29, #-16]
	stur	x10, [x29, #-12]
	b	.LBB19_26
.LBB19_23:                              // %arm.3
	cmp	w6, w23, lsl #3
	b.hs	.LBB19_27
// %bb.24:                              // %join.12
	mov	w10, w6
	mov	w11, #7                         // =0x7
	sub	x0, x29, #16
	lsr	x10, x10, #3
	bic	w11, w11, w6
	add	w6, w6, #1
	mov	x1, x24
	mov	w3, w21
	mov	x4, x22
	ldrb	w10, [x22, x10]
	str	w8, [sp, #8]
	mov	x5, x23
	lsr	w10, w10, w11
	lsr	x11, x9, #8
	lsr	x9, x9, #16
	tst	w10, #0x1
	csel	x9, x11, x9, eq
	and	x2, x9, #0xff
.LBB19_25:                              // %join.6
	mov	x7, x20
	str	x27, [sp]
	bl	"entries::put_entries"
.LBB19_26:                              // %join.6
	ldurb	w8, [x29, #-16]
	ldur	x9, [x29, #-12]
	str	w8, [x19]
	stur	x9, [x19, #4]
	b	.LBB19_37
.LBB19_27:                              // %arm.8
	str	wzr, [x19]
	stur	xzr, [x19, #4]
	b	.LBB19_37
.LBB19_28:                              // %join.3.i.i
	mov	w10, w6
	add	x11, x22, x10, lsr #3
	ands	w10, w6, #0x7
	ldrb	w12, [x11]
	b.eq	.LBB19_30
// %bb.29:                              // %join.3.i.i.i
	ldrb	w11, [x11, #1]
	orr	w11, w11, w12, lsl #8
	mov	w12, #8                         // =0x8
	sub	w10, w12, w10
	lsr	w10, w11, w10
	and	w12, w10, #0xff
.LBB19_30:                              // %"bits::byte_at.exit.i.i"
	mov	x10, xzr
	cmp	w12, w26
	mov	w11, wzr
	b.hi	.LBB19_22
// %bb.31:                              // %"bits::byte_at.exit.i.i"
	cmp	w12, w25
	b.lo	.LBB19_22
// %bb.32:                              // %"bits::byte_at.exit.i.i"
	and	w13, w12, #0x7f
	sub	w13, w13, #33
	cmp	w13, #93
	b.hi	.LBB19_22
// %bb.33:                              // %join.6.i.i
	cmp	w8, #3599
	b.hi	.LBB19_35
// %bb.34:                              // %then.1.i2.i.i.i
	strb	w12, [x20, w8, uxtw]
	strb	w21, [x27, w8, uxtw]
.LBB19_35:                              // %"entries::put_entry.exit.i.i"
	add	w10, w8, #1
	cmp	w10, #3601
	mov	w10, #3601                      // =0xe11
	csinc	w8, w10, w8, hs
	b	.LBB19_21
.LBB19_36:                              // %then.18
                                        // kill: def $w8 killed $w8 killed $x8 def $x8
	mov	w9, #1                          // =0x1
	orr	x8, x6, x8, lsl #32
	str	w9, [x19]
	stur	x8, [x19, #4]
.LBB19_37:                              // %common.ret
	ldp	x20, x19, [sp, #144]            // 16-byte Folded Reload
	ldp	x22, x21, [sp, #128]            // 16-byte Folded Reload
	ldp	x24, x23, [sp, #112]            // 16-byte Folded Reload
	ldp	x26, x25, [sp, #96]             // 16-byte Folded Reload
	ldp	x28, x27, [sp, #80]             // 16-byte Folded Reload
	ldp	x29, x30, [sp, #64]             // 16-byte Folded Reload
	add	sp, sp, #160
	ret
.Lfunc_end19:
	.size	"entries::put_entries", .Lfunc_end19-"entries::put_entries"
                                        // -- End function
	.section	".text.text::digits::put_decimal","ax",@progbits
	.p2align	2                               // -- Begin function text::digits::put_decimal
	.type	"text::digits::put_decimal",@function
"text::digits::put_decimal":            // @"text::digits::put_decimal"
// %bb.0:                               // %start
	stp	x29, x30, [sp, #-48]!           // 16-byte Folded Spill
	mov	x9, #-3689348814741910324       // =0xcccccccccccccccc
	mov	x8, x3
	str	x21, [sp, #16]                  // 8-byte Spill
	movk	x9, #52429
	stp	x20, x19, [sp, #32]             // 16-byte Folded Spill
	mov	x19, x1
	umulh	x9, x3, x9
	mov	x20, x0
	cmp	x3, #10
	mov	x29, sp
	lsr	x3, x9, #3
	mov	w9, #10                         // =0xa
	msub	w9, w3, w9, w8
	orr	w21, w9, #0x30
	b.hs	.LBB20_4
// %bb.1:                               // %then.1
	cmp	x2, x19
	b.hs	.LBB20_3
// %bb.2:                               // %then.1.i
	strb	w21, [x20, x2]
	add	x19, x2, #1
.LBB20_3:                               // %common.ret
	mov	x0, x19
	ldp	x20, x19, [sp, #32]             // 16-byte Folded Reload
	ldr	x21, [sp, #16]                  // 8-byte Reload
	ldp	x29, x30, [sp], #48             // 16-byte Folded Reload
	ret
.LBB20_4:                               // %join.3
	mov	x0, x20
	mov	x1, x19
	bl	"text::digits::put_decimal"
	cmp	x0, x19
	b.hs	.LBB20_3
// %bb.5:                               // %then.1.i8
	add	x19, x0, #1
	strb	w21, [x20, x0]
	mov	x0, x19
	ldp	x20, x19, [sp, #32]             // 16-byte Folded Reload
	ldr	x21, [sp, #16]                  // 8-byte Reload
	ldp	x29, x30, [sp], #48             // 16-byte Folded Reload
	ret
.Lfunc_end20:
	.size	"text::digits::put_decimal", .Lfunc_end20-"text::digits::put_decimal"
                                        // -- End function
	.section	.rodata.cst8,"aM",@progbits,8
	.p2align	3, 0x0                          // -- Begin function main
.LCPI21_0:
	.byte	114                             // 0x72
	.byte	101                             // 0x65
	.byte	102                             // 0x66
	.byte	117                             // 0x75
	.byte	115                             // 0x73
	.byte	101                             // 0x65
	.byte	100                             // 0x64
	.byte	9                               // 0x9
	.section	.text.main,"ax",@progbits
	.globl	main
	.p2align	2
	.type	main,@function
main:                                   // @main
// %bb.0:                               // %start
	stp	x29, x30, [sp, #-96]!           // 16-byte Folded Spill
	sub	x9, sp, #98, lsl #12            // =401408
	stp	x28, x27, [sp, #16]             // 16-byte Folded Spill
	mov	x29, sp
	sub	x9, x9, #1024
	stp	x26, x25, [sp, #32]             // 16-byte Folded Spill
	stp	x24, x23, [sp, #48]             // 16-byte Folded Spill
	stp	x22, x21, [sp, #64]             // 16-byte Folded Spill
	stp	x20, x19, [sp, #80]             // 16-byte Folded Spill
.LBB21_1:                               // %start
                                        // =>This Inner Loop Header: Depth=1
	sub	sp, sp, #3072
	cmp	sp, x9
	str	xzr, [sp]
	b.ne	.LBB21_1
// %bb.2:                               // %start
	sub	sp, sp, #2720
	mov	w0, #13                         // =0xd
	mov	w1, #1                          // =0x1
	str	xzr, [sp]
	bl	__sysv_signal
	add	x0, sp, #1, lsl #12             // =4096
	mov	w1, wzr
	mov	w2, #4096                       // =0x1000
	add	x0, x0, #48
	bl	memset
	add	x0, sp, #48
	mov	w1, wzr
	mov	w2, #4096                       // =0x1000
	bl	memset
	add	x2, sp, #1, lsl #12             // =4096
	adrp	x0, .Lstatic.0
	add	x0, x0, :lo12:.Lstatic.0
	add	x2, x2, #48
	mov	w1, #11                         // =0xb
	bl	"tapelist::read_file::<#75e23eee2798bf10>"
	and	w8, w0, #0xff
	cmp	w8, #1
	b.ne	.LBB21_112
// %bb.3:                               // %arm.1.i.i.i
	mov	x20, x1
	adrp	x0, .Lstatic.1
	add	x0, x0, :lo12:.Lstatic.1
	add	x2, sp, #48
	mov	w1, #8                          // =0x8
	bl	"tapelist::read_file::<#75e23eee2798bf10>"
	and	w8, w0, #0xff
	cmp	w8, #1
	b.ne	.LBB21_112
// %bb.4:                               // %arm.5.i.i.i
	add	x0, sp, #2, lsl #12             // =8192
	mov	x21, x1
	add	x25, sp, #98, lsl #12           // =401408
	add	x28, sp, #96, lsl #12           // =393216
	add	x27, sp, #82, lsl #12           // =335872
	add	x19, sp, #66, lsl #12           // =270336
	add	x0, x0, #48
	mov	w1, wzr
	mov	w2, #262144                     // =0x40000
	add	x25, x25, #1744
	add	x28, x28, #656
	add	x27, x27, #384
	add	x19, x19, #48
	bl	memset
	movi	v0.2d, #0000000000000000
	add	x0, sp, #66, lsl #12            // =270336
	add	x1, sp, #1, lsl #12             // =4096
	add	x0, x0, #48
	add	x1, x1, #48
	mov	x2, x20
	add	x23, sp, #66, lsl #12           // =270336
	add	x23, x23, #48
	stp	q0, q0, [x19, #16]
	stp	q0, q0, [x19, #48]
	stp	q0, q0, [x19, #80]
	stp	q0, q0, [x19, #112]
	stp	q0, q0, [x19, #144]
	stp	q0, q0, [x19, #176]
	stp	q0, q0, [x19, #208]
	stp	q0, q0, [x19, #240]
	stp	q0, q0, [x19, #272]
	stp	q0, q0, [x19, #304]
	str	q0, [x19]
	bl	"loading::load"
	ldrb	w8, [x19]
	adrp	x24, .LCPI21_0
	str	x21, [sp, #40]                  // 8-byte Spill
	cbz	w8, .LBB21_8
// %bb.5:                               // %arm.2.i.i.i.i.i.i
	ldrb	w8, [x19, #4]
	mov	w9, #1                          // =0x1
	mov	w10, #363                       // =0x16b
	mov	x21, xzr
	lsl	w9, w9, w8
	tst	w9, w10
	b.eq	.LBB21_7
// %bb.6:                               // %after.2.i.i.i.i.i.i.i.i
	ldr	w21, [x19, #8]
.LBB21_7:                               // %"refusals::RefusalCause::value.exit.i.i.i.i.i.i.i"
	ldr	d0, [x24, :lo12:.LCPI21_0]
	add	x0, sp, #2, lsl #12             // =8192
	add	x3, x8, #1
	b	.LBB21_90
.LBB21_8:                               // %arm.1.i.i.i.i.i.i
	ldr	x22, [x19, #8]
	add	x26, sp, #98, lsl #12           // =401408
	add	x26, x26, #1416
	cbz	x21, .LBB21_10
// %bb.9:                               // %"core::slice::parts::slice+T::strip_suffix::<i8,31'core::cmp::numbers::U8PartialEq{}>.exit.i.i.i.i.i.i.i"
	sub	x8, x21, #1
	add	x9, sp, #48
	ldrb	w9, [x9, x8]
	cmp	w9, #10
	csel	x21, x8, x21, eq
.LBB21_10:                              // %"listing::letters_of.exit.i.i.i.i.i.i"
	add	x0, sp, #82, lsl #12            // =335872
	mov	w1, wzr
	mov	w2, #57616                      // =0xe110
	add	x0, x0, #384
	bl	memset
	add	x0, sp, #66, lsl #12            // =270336
	mov	w1, wzr
	mov	w2, #65536                      // =0x10000
	add	x0, x0, #384
	bl	memset
	add	x8, sp, #98, lsl #12            // =401408
	add	x1, x23, #16
	mov	w2, #320                        // =0x140
	add	x8, x8, #2256
	str	x22, [x25, #512]
	add	x0, x8, #8
	bl	memcpy
	add	x0, sp, #98, lsl #12            // =401408
	add	x1, sp, #98, lsl #12            // =401408
	add	x2, sp, #48
	add	x0, x0, #1416
	add	x1, x1, #2256
	mov	x3, x21
	str	xzr, [x28, #8952]
	str	wzr, [x28, #8960]
	bl	"checks::check_tape"
	ldrb	w8, [x26]
	cbz	w8, .LBB21_12
// %bb.11:                              // %"parser::parse.exit.thread.i.i.i.i.i.i.i.i"
	ldr	w8, [x26, #8]
	ldrb	w9, [x26, #4]
	b	.LBB21_87
.LBB21_12:                              // %arm.1.i.i.i.i.i.i.i.i.i
	add	x8, sp, #98, lsl #12            // =401408
	add	x1, x23, #16
	mov	w2, #320                        // =0x140
	add	x8, x8, #2584
	str	x22, [x25, #840]
	add	x0, x8, #8
	bl	memcpy
	movi	v0.2d, #0000000000000000
	lsl	x8, x21, #1
	mov	w9, #7203                       // =0x1c23
	add	x8, x8, #2
	cmp	x8, x9
	stp	q0, q0, [x25]
	stp	q0, q0, [x25, #32]
	stp	q0, q0, [x25, #64]
	stp	q0, q0, [x25, #96]
	stp	q0, q0, [x25, #128]
	stp	q0, q0, [x25, #160]
	stp	q0, q0, [x25, #192]
	stp	q0, q0, [x25, #224]
	stp	q0, q0, [x25, #256]
	stp	q0, q0, [x25, #288]
	stp	q0, q0, [x25, #320]
	stp	q0, q0, [x25, #352]
	stp	q0, q0, [x25, #384]
	stp	q0, q0, [x25, #416]
	stp	q0, q0, [x25, #448]
	stp	q0, q0, [x25, #480]
	b.lo	.LBB21_14
// %bb.13:                              // %then.1.i.i.i.i.i.i.i.i.i.i
	mov	w9, #5                          // =0x5
	b	.LBB21_87
.LBB21_14:                              // %join.3.i.i.i.i.i.i.i.i.i.i
	add	x0, sp, #98, lsl #12            // =401408
	add	x1, sp, #98, lsl #12            // =401408
	add	x0, x0, #1744
	add	x1, x1, #2584
	bl	"table::table_of"
	add	x0, sp, #97, lsl #12            // =397312
	add	x1, sp, #98, lsl #12            // =401408
	mov	w2, #512                        // =0x200
	add	x0, x0, #288
	add	x1, x1, #1744
	bl	memcpy
	movi	v0.2d, #0000000000000000
	add	x0, sp, #98, lsl #12            // =401408
	add	x2, sp, #98, lsl #12            // =401408
	add	x3, sp, #97, lsl #12            // =397312
	add	x0, x0, #1744
	add	x2, x2, #2912
	add	x3, x3, #1088
	mov	x1, x22
	str	q0, [x25, #1168]
	str	q0, [x25, #1184]
	str	q0, [x25, #1200]
	str	q0, [x25, #1216]
	str	q0, [x25, #1232]
	str	q0, [x25, #1248]
	str	q0, [x25, #1264]
	str	q0, [x25, #1280]
	str	q0, [x25, #1296]
	str	q0, [x25, #1312]
	str	q0, [x25, #1328]
	str	q0, [x25, #1344]
	str	q0, [x25, #1360]
	str	q0, [x25, #1376]
	str	q0, [x25, #1392]
	str	q0, [x25, #1408]
	str	q0, [x25, #1424]
	str	q0, [x25, #1440]
	str	q0, [x25, #1456]
	str	q0, [x25, #1472]
	str	q0, [x25, #1488]
	str	q0, [x25, #1504]
	str	q0, [x25, #1520]
	str	q0, [x25, #1536]
	str	q0, [x25, #1552]
	str	q0, [x25, #1568]
	str	q0, [x25, #1584]
	str	q0, [x25, #1600]
	str	q0, [x25, #1616]
	str	q0, [x25, #1632]
	str	q0, [x25, #1648]
	str	q0, [x25, #1664]
	str	q0, [x28, #5024]
	str	q0, [x28, #5008]
	str	q0, [x28, #4992]
	str	q0, [x28, #4976]
	str	q0, [x28, #4960]
	str	q0, [x28, #4944]
	str	q0, [x28, #4928]
	str	q0, [x28, #4912]
	str	q0, [x28, #4896]
	str	q0, [x28, #4880]
	str	q0, [x28, #4864]
	str	q0, [x28, #4848]
	str	q0, [x28, #4832]
	str	q0, [x28, #4816]
	str	q0, [x28, #4800]
	str	q0, [x28, #4784]
	str	q0, [x28, #4768]
	str	q0, [x28, #4752]
	str	q0, [x28, #4736]
	str	q0, [x28, #4720]
	str	q0, [x28, #4704]
	str	q0, [x28, #4688]
	str	q0, [x28, #4672]
	str	q0, [x28, #4656]
	str	q0, [x28, #4640]
	str	q0, [x28, #4624]
	str	q0, [x28, #4608]
	str	q0, [x28, #4592]
	str	q0, [x28, #4576]
	str	q0, [x28, #4560]
	str	q0, [x28, #4544]
	str	q0, [x28, #4528]
	bl	"masks::put_masks"
	mov	x23, x0
	add	x0, sp, #97, lsl #12            // =397312
	mov	w1, wzr
	add	x0, x0, #1904
	mov	w2, #2048                       // =0x800
	add	x24, sp, #97, lsl #12           // =397312
	add	x24, x24, #1904
	bl	memset
	cbz	x22, .LBB21_34
// %bb.15:                              // %join.5.i.i.i.i.i.i.i.i.i.i.i.i.preheader
	mov	x8, xzr
	add	x9, x24, #16
	b	.LBB21_17
.LBB21_16:                              // %"masks::scatter::put_node.exit.i.i.i.i.i.i.i.i.i.i.i.i"
                                        //   in Loop: Header=BB21_17 Depth=1
	add	x8, x8, #1
	cmp	x8, x22
	b.eq	.LBB21_34
.LBB21_17:                              // %join.5.i.i.i.i.i.i.i.i.i.i.i.i
                                        // =>This Loop Header: Depth=1
                                        //     Child Loop BB21_23 Depth 2
                                        //     Child Loop BB21_26 Depth 2
                                        //     Child Loop BB21_30 Depth 2
                                        //     Child Loop BB21_33 Depth 2
	add	x10, sp, #97, lsl #12           // =397312
	add	x10, x10, #288
	ldr	x11, [x10, x8, lsl #3]
	and	w10, w11, #0xff
	cmp	w10, #2
	b.eq	.LBB21_20
// %bb.18:                              // %join.5.i.i.i.i.i.i.i.i.i.i.i.i
                                        //   in Loop: Header=BB21_17 Depth=1
	cmp	w10, #1
	b.ne	.LBB21_16
// %bb.19:                              // %arm.2.i.i5.i.i.i.i.i.i.i.i.i.i.i.i
                                        //   in Loop: Header=BB21_17 Depth=1
	lsr	x10, x11, #8
	add	x12, sp, #97, lsl #12           // =397312
	mov	w11, #1                         // =0x1
	add	x12, x12, #1904
	lsl	x11, x11, x8
	ubfiz	x10, x10, #3, #8
	ldr	x13, [x12, x10]
	orr	x11, x13, x11
	str	x11, [x12, x10]
	b	.LBB21_16
.LBB21_20:                              // %arm.3.i.i4.i.i.i.i.i.i.i.i.i.i.i.i
                                        //   in Loop: Header=BB21_17 Depth=1
	lsr	x13, x11, #16
	ubfx	w15, w11, #8, #8
	mov	w12, #126                       // =0x7e
	mov	w16, #1                         // =0x1
	and	w10, w13, #0xff
	cmp	w10, #126
	csel	w14, w10, w12, lo
	cmp	w15, #161
	mov	w10, #161                       // =0xa1
	csel	w12, w15, w10, hi
	lsl	x10, x16, x8
	cmp	w14, w15
	b.lo	.LBB21_27
// %bb.21:                              // %join.5.preheader.i.i.i.i.i.i.i.i.i.i.i.i.i.i.i.i
                                        //   in Loop: Header=BB21_17 Depth=1
	ubfx	x0, x11, #8, #8
	sub	x15, x14, x0
	add	x16, x15, #1
	mov	x15, x0
	cmp	x16, #4
	b.lo	.LBB21_25
// %bb.22:                              // %vector.ph24
                                        //   in Loop: Header=BB21_17 Depth=1
	dup	v0.2d, x10
	and	x17, x16, #0xfffffffffffffffc
	add	x18, x9, x0, lsl #3
	add	x15, x0, x17
	and	x0, x16, #0xfffffffffffffffc
.LBB21_23:                              // %vector.body29
                                        //   Parent Loop BB21_17 Depth=1
                                        // =>  This Inner Loop Header: Depth=2
	ldp	q1, q2, [x18, #-16]
	subs	x0, x0, #4
	orr	v1.16b, v1.16b, v0.16b
	orr	v2.16b, v2.16b, v0.16b
	stp	q1, q2, [x18, #-16]
	add	x18, x18, #32
	b.ne	.LBB21_23
// %bb.24:                              // %middle.block35
                                        //   in Loop: Header=BB21_17 Depth=1
	cmp	x16, x17
	b.eq	.LBB21_27
.LBB21_25:                              // %join.5.i.i.i.i.i.i.i.i.i.i.i.i.i.i.i.i.preheader
                                        //   in Loop: Header=BB21_17 Depth=1
	add	x16, sp, #97, lsl #12           // =397312
	sub	x17, x14, x15
	add	x16, x16, #1904
	add	x14, x16, x15, lsl #3
	add	x15, x17, #1
.LBB21_26:                              // %join.5.i.i.i.i.i.i.i.i.i.i.i.i.i.i.i.i
                                        //   Parent Loop BB21_17 Depth=1
                                        // =>  This Inner Loop Header: Depth=2
	ldr	x16, [x14]
	subs	x15, x15, #1
	orr	x16, x16, x10
	str	x16, [x14], #8
	b.ne	.LBB21_26
.LBB21_27:                              // %"masks::scatter::put_between.exit.i.i.i.i.i.i.i.i.i.i.i.i.i.i.i"
                                        //   in Loop: Header=BB21_17 Depth=1
	cmp	w12, w13, uxtb
	b.hi	.LBB21_16
// %bb.28:                              // %join.5.preheader.i4.i.i.i.i.i.i.i.i.i.i.i.i.i.i.i
                                        //   in Loop: Header=BB21_17 Depth=1
	ubfx	x11, x11, #16, #8
	sub	x13, x11, x12
	add	x13, x13, #1
	cmp	x13, #4
	b.lo	.LBB21_32
// %bb.29:                              // %vector.ph
                                        //   in Loop: Header=BB21_17 Depth=1
	dup	v0.2d, x10
	and	x14, x13, #0xfffffffffffffffc
	add	x15, x9, x12, lsl #3
	add	x12, x14, x12
	and	x16, x13, #0xfffffffffffffffc
.LBB21_30:                              // %vector.body
                                        //   Parent Loop BB21_17 Depth=1
                                        // =>  This Inner Loop Header: Depth=2
	ldp	q1, q2, [x15, #-16]
	subs	x16, x16, #4
	orr	v1.16b, v1.16b, v0.16b
	orr	v2.16b, v2.16b, v0.16b
	stp	q1, q2, [x15, #-16]
	add	x15, x15, #32
	b.ne	.LBB21_30
// %bb.31:                              // %middle.block
                                        //   in Loop: Header=BB21_17 Depth=1
	cmp	x13, x14
	b.eq	.LBB21_16
.LBB21_32:                              // %join.5.i6.i.i.i.i.i.i.i.i.i.i.i.i.i.i.i.preheader
                                        //   in Loop: Header=BB21_17 Depth=1
	add	x13, sp, #97, lsl #12           // =397312
	sub	x14, x11, x12
	add	x13, x13, #1904
	add	x11, x13, x12, lsl #3
	add	x12, x14, #1
.LBB21_33:                              // %join.5.i6.i.i.i.i.i.i.i.i.i.i.i.i.i.i.i
                                        //   Parent Loop BB21_17 Depth=1
                                        // =>  This Inner Loop Header: Depth=2
	ldr	x13, [x11]
	subs	x12, x12, #1
	orr	x13, x13, x10
	str	x13, [x11], #8
	b.ne	.LBB21_33
	b	.LBB21_16
.LBB21_34:                              // %"masks::scatter::put_takers.exit.i.i.i.i.i.i.i.i.i.i.i"
	add	x8, sp, #82, lsl #12            // =335872
	add	x0, sp, #96, lsl #12            // =393216
	mov	w1, wzr
	add	x8, x8, #384
	add	x0, x0, #656
	mov	w2, #648                        // =0x288
	add	x8, x8, x21, lsl #4
	add	x24, sp, #96, lsl #12           // =393216
	add	x24, x24, #656
	stp	xzr, x23, [x8]
	bl	memset
	mov	w8, #192                        // =0xc0
	add	x0, x24, #656
	mov	w1, wzr
	mov	w2, #3072                       // =0xc00
	str	x8, [x28, #648]
	add	x26, x24, #656
	bl	memset
	cbz	x21, .LBB21_60
// %bb.35:                              // %join.5.lr.ph.i.i.i.i.i.i.i.i.i.i.i.i
	mov	w11, wzr
	mov	x14, xzr
	add	x8, x24, #1168
	add	x9, x24, #8
	mov	w17, #1                         // =0x1
	mov	x10, x21
	b	.LBB21_40
.LBB21_36:                              // %"steps::memory::Memo::known.exit.i.i.i.i.i.i.i.i.i.i.i.i"
                                        //   in Loop: Header=BB21_40 Depth=1
	mov	w13, #40                        // =0x28
	umaddl	x12, w12, w13, x8
	ldrb	w12, [x12, x14]
	cbz	x12, .LBB21_42
// %bb.37:                              // %arm.6.i.i.i.i.i.i.i.i.i.i.i.i
                                        //   in Loop: Header=BB21_40 Depth=1
	add	x11, sp, #96, lsl #12           // =393216
	sub	x16, x12, #1
	add	x11, x11, #656
	add	x11, x11, x16, lsl #4
	ldp	x13, x12, [x11]
.LBB21_38:                              // %join.9.i.i.i.i.i.i.i.i.i.i.i.i
                                        //   in Loop: Header=BB21_40 Depth=1
	mov	w11, #1                         // =0x1
.LBB21_39:                              // %join.9.i.i.i.i.i.i.i.i.i.i.i.i
                                        //   in Loop: Header=BB21_40 Depth=1
	add	x14, sp, #82, lsl #12           // =335872
	mov	x17, xzr
	mov	x23, x12
	add	x14, x14, #384
	add	x14, x14, x10, lsl #4
	stp	x13, x12, [x14]
	mov	x14, x16
	cbz	x10, .LBB21_60
.LBB21_40:                              // %join.5.i9.i.i.i.i.i.i.i.i.i.i.i
                                        // =>This Loop Header: Depth=1
                                        //     Child Loop BB21_44 Depth 2
                                        //     Child Loop BB21_49 Depth 2
	sub	x10, x10, #1
	add	x12, sp, #48
	add	x13, sp, #97, lsl #12           // =397312
	ldrb	w12, [x12, x10]
	add	x13, x13, #1904
	ldr	x15, [x13, x12, lsl #3]
	tbz	w11, #0, .LBB21_42
// %bb.41:                              // %arm.1.i.i.i.i.i.i.i.i.i.i.i.i.i
                                        //   in Loop: Header=BB21_40 Depth=1
	rbit	x12, x15
	clz	x12, x12
	and	x12, x12, #0x3f
	ldr	x13, [x26, x12, lsl #3]
	cmp	x13, x15
	b.eq	.LBB21_36
.LBB21_42:                              // %arm.7.i.i.i.i.i.i.i.i.i.i.i.i
                                        //   in Loop: Header=BB21_40 Depth=1
	cbz	x15, .LBB21_51
// %bb.43:                              // %arm.3.i.i.i.i.i.i.i.i.i.i.i.i.i.preheader
                                        //   in Loop: Header=BB21_40 Depth=1
	mov	x13, xzr
	mov	x12, xzr
	mov	x16, x15
.LBB21_44:                              // %arm.3.i.i.i.i.i.i.i.i.i.i.i.i.i
                                        //   Parent Loop BB21_40 Depth=1
                                        // =>  This Inner Loop Header: Depth=2
	rbit	x18, x16
	add	x0, sp, #97, lsl #12            // =397312
	add	x2, sp, #98, lsl #12            // =401408
	add	x0, x0, #288
	add	x2, x2, #2912
	clz	x18, x18
	ldr	x0, [x0, x18, lsl #3]
	ldr	x2, [x2, x18, lsl #3]
	lsr	x1, x0, #32
	tst	x0, #0xc000000000
	lsr	x1, x23, x1
	and	x0, x1, #0x1
	add	x1, sp, #97, lsl #12            // =397312
	add	x1, x1, #1088
	csel	x0, x0, x17, eq
	ldr	x18, [x1, x18, lsl #3]
	mul	x1, x0, x2
	mul	x18, x0, x18
	sub	x0, x16, #1
	and	x16, x0, x16
	orr	x13, x1, x13
	orr	x12, x18, x12
	cbnz	x16, .LBB21_44
// %bb.45:                              // %"steps::step.exit.i.i.i.i.i.i.i.i.i.i.i.i"
                                        //   in Loop: Header=BB21_40 Depth=1
	ldr	x16, [x28, #648]
	cbz	x16, .LBB21_52
.LBB21_46:                              // %join.3.i.i.i.i.i.i.i.i.i.i.i.i.i
                                        //   in Loop: Header=BB21_40 Depth=1
	ldr	x17, [x28, #640]
	sub	x16, x16, #1
	str	x16, [x28, #648]
	cbz	x17, .LBB21_55
// %bb.47:                              // %arm.3.i.i.i.i.i.i.i.i.i.i.i.i.i.i.i.i.preheader
                                        //   in Loop: Header=BB21_40 Depth=1
	mov	x16, xzr
	mov	x18, x9
	b	.LBB21_49
.LBB21_48:                              // %join.9.i.i.i.i.i.i.i.i.i.i.i.i.i.i.i.i
                                        //   in Loop: Header=BB21_49 Depth=2
	add	x16, x16, #1
	add	x18, x18, #16
	cmp	x17, x16
	b.eq	.LBB21_53
.LBB21_49:                              // %arm.3.i.i.i.i.i.i.i.i.i.i.i.i.i.i.i.i
                                        //   Parent Loop BB21_40 Depth=1
                                        // =>  This Inner Loop Header: Depth=2
	ldur	x0, [x18, #-8]
	cmp	x0, x13
	b.ne	.LBB21_48
// %bb.50:                              // %"steps::memory::fn::find::position+FnMut::call_mut.exit.i.i.i.i.i.i.i.i.i.i.i.i.i.i.i.i"
                                        //   in Loop: Header=BB21_49 Depth=2
	ldr	x0, [x18]
	cmp	x0, x12
	b.ne	.LBB21_48
	b	.LBB21_56
.LBB21_51:                              //   in Loop: Header=BB21_40 Depth=1
	mov	x12, xzr
	mov	x13, xzr
	ldr	x16, [x28, #648]
	cbnz	x16, .LBB21_46
.LBB21_52:                              //   in Loop: Header=BB21_40 Depth=1
	mov	w11, wzr
	b	.LBB21_39
.LBB21_53:                              // %join.4.i.i.i.i.i.i.i.i.i.i.i.i.i.i
                                        //   in Loop: Header=BB21_40 Depth=1
	cmp	x17, #40
	b.ne	.LBB21_55
// %bb.54:                              // %arm.6.i.i.i.i.i.i.i.i.i.i.i.i.i
                                        //   in Loop: Header=BB21_40 Depth=1
	mov	x16, xzr
	mov	w11, wzr
	str	xzr, [x28, #648]
	b	.LBB21_39
.LBB21_55:                              // %join.8.i.i.i.i.i.i.i.i.i.i.i.i.i.i
                                        //   in Loop: Header=BB21_40 Depth=1
	add	x16, sp, #96, lsl #12           // =393216
	add	x18, x17, #1
	add	x16, x16, #656
	add	x16, x16, x17, lsl #4
	stp	x13, x12, [x16]
	mov	x16, x17
	str	x18, [x28, #640]
.LBB21_56:                              // %arm.5.i.i.i.i.i.i.i.i.i.i.i.i.i
                                        //   in Loop: Header=BB21_40 Depth=1
	tbz	w11, #0, .LBB21_38
// %bb.57:                              // %arm.9.i.i.i.i.i.i.i.i.i.i.i.i.i
                                        //   in Loop: Header=BB21_40 Depth=1
	rbit	x11, x15
	clz	x11, x11
	and	x17, x11, #0x3f
	ldr	x11, [x26, x17, lsl #3]
	cmp	x11, #0
	cset	w18, eq
	csel	x0, x15, x11, eq
	cmp	x11, x15
	csinc	w18, w18, wzr, ne
	mov	w11, #1                         // =0x1
	str	x0, [x26, x17, lsl #3]
	cbz	x15, .LBB21_39
// %bb.58:                              // %arm.9.i.i.i.i.i.i.i.i.i.i.i.i.i
                                        //   in Loop: Header=BB21_40 Depth=1
	cbz	w18, .LBB21_39
// %bb.59:                              // %then.1.i.i.i.i.i.i.i.i.i.i.i.i.i.i
                                        //   in Loop: Header=BB21_40 Depth=1
	mov	w11, #40                        // =0x28
	add	w15, w16, #1
	umaddl	x11, w17, w11, x8
	strb	w15, [x11, x14]
	b	.LBB21_38
.LBB21_60:                              // %"first_sweep::fill.exit.i.i.i.i.i.i.i.i.i.i"
	ldr	x8, [x27, #8]
	sub	x26, x22, #1
	lsr	x8, x8, x26
	tbz	w8, #0, .LBB21_86
// %bb.61:                              // %join.6.i.i.i.i.i.i.i.i.i.i
	add	x8, x21, x21, lsl #4
	adrp	x24, .LCPI21_0
	add	x8, x8, #8
	cmp	x8, #16, lsl #12                // =65536
	b.ls	.LBB21_64
// %bb.62:                              // %"parser::bytes_missing.exit.i.i.i.i.i.i.i.i.i.i.i"
	add	x0, sp, #97, lsl #12            // =397312
	add	x1, sp, #82, lsl #12            // =335872
	mov	w5, wzr
	add	x0, x0, #288
	add	x1, x1, #384
	add	x2, sp, #48
	sub	x4, x22, #1
	sub	x7, x29, #17
	mov	x3, x21
	mov	w6, #1                          // =0x1
	str	wzr, [sp, #8]
	str	xzr, [sp]
	bl	"second_sweep::sweep"
	cmp	w0, #128, lsl #12               // =524288
	b.ls	.LBB21_64
// %bb.63:                              // %arm.1.i.i.i.i.i.i.i.i.i.i.i
	mov	w8, w0
	mov	w9, #6                          // =0x6
	add	x8, x8, #7
	lsr	x8, x8, #3
                                        // kill: def $w8 killed $w8 killed $x8 def $x8
	b	.LBB21_87
.LBB21_64:                              // %arm.1.i.i.i.i.i.i.i.i
	add	x0, sp, #97, lsl #12            // =397312
	add	x1, sp, #82, lsl #12            // =335872
	add	x7, sp, #66, lsl #12            // =270336
	mov	w5, wzr
	mov	w8, #65536                      // =0x10000
	add	x0, x0, #288
	add	x1, x1, #384
	add	x2, sp, #48
	sub	x4, x22, #1
	add	x7, x7, #384
	mov	x3, x21
	mov	w6, #1                          // =0x1
	str	wzr, [sp, #8]
	str	x8, [sp]
	bl	"second_sweep::sweep"
	mov	w23, w0
	add	x0, sp, #97, lsl #12            // =397312
	mov	w1, wzr
	add	x0, x0, #1088
	mov	w2, #804                        // =0x324
	bl	memset
	add	x0, sp, #97, lsl #12            // =397312
	mov	w1, wzr
	mov	w2, #796                        // =0x31c
	add	x0, x0, #288
	bl	memset
	add	x0, sp, #96, lsl #12            // =393216
	mov	w1, wzr
	mov	w2, #3600                       // =0xe10
	add	x0, x0, #656
	bl	memset
	add	x0, sp, #97, lsl #12            // =397312
	mov	w1, wzr
	mov	w2, #3600                       // =0xe10
	add	x0, x0, #1904
	bl	memset
	movi	v0.2d, #0000000000000000
	sub	x8, x22, #1
	cmp	x26, #63
	str	x8, [sp, #16]                   // 8-byte Spill
	stp	q0, q0, [x25]
	stp	q0, q0, [x25, #32]
	stp	q0, q0, [x25, #64]
	stp	q0, q0, [x25, #96]
	stp	q0, q0, [x25, #128]
	stp	q0, q0, [x25, #160]
	stp	q0, q0, [x25, #192]
	stp	q0, q0, [x25, #224]
	stp	q0, q0, [x25, #256]
	stp	q0, q0, [x25, #288]
	stp	q0, q0, [x25, #320]
	stp	q0, q0, [x25, #352]
	stp	q0, q0, [x25, #384]
	stp	q0, q0, [x25, #416]
	stp	q0, q0, [x25, #448]
	stp	q0, q0, [x25, #480]
	b.hi	.LBB21_212
// %bb.65:                              // %arm.3.i.preheader.i.i.i.i.i.i.i.i.i.i.i.i.i
	mov	w8, w23
	mov	w2, #320                        // =0x140
	str	x22, [x25, #840]
	str	x8, [sp, #32]                   // 8-byte Spill
	add	x8, x8, #7
	lsr	x23, x8, #3
	add	x8, sp, #98, lsl #12            // =401408
	add	x8, x8, #2584
	add	x26, x8, #8
	add	x8, sp, #66, lsl #12            // =270336
	add	x8, x8, #48
	mov	x0, x26
	add	x1, x8, #16
	bl	memcpy
	mov	x8, x22
	b	.LBB21_68
.LBB21_66:                              // %arm.2.i.i.i.i.i.i.i.i.i.i.i.i.i.i.i.i.i.i.i
                                        //   in Loop: Header=BB21_68 Depth=1
	and	w9, w9, #0x7f
	sub	w9, w9, #33
	cmp	w9, #94
	b.hs	.LBB21_212
.LBB21_67:                              // %loop.2.backedge.i.i.i.i.i.i.i.i.i.i.i.i.i.i
                                        //   in Loop: Header=BB21_68 Depth=1
	sub	x8, x8, #1
	add	x26, x26, #5
	cbz	x8, .LBB21_75
.LBB21_68:                              // %arm.3.i.i.i.i.i.i.i.i.i.i.i.i.i.i
                                        // =>This Inner Loop Header: Depth=1
	ldrb	w9, [x26]
	cmp	w9, #200
	b.hi	.LBB21_212
// %bb.69:                              // %then.1.i.i.i.i.i.i.i.i.i.i.i.i.i.i.i.i.i
                                        //   in Loop: Header=BB21_68 Depth=1
	ldrb	w9, [x26, #1]
	cbnz	w9, .LBB21_67
// %bb.70:                              // %arm.1.i.i.i.i.i.i.i.i.i.i.i.i.i.i.i.i.i.i
                                        //   in Loop: Header=BB21_68 Depth=1
	ldrb	w10, [x26, #2]
	cbz	w10, .LBB21_67
// %bb.71:                              // %arm.1.i.i.i.i.i.i.i.i.i.i.i.i.i.i.i.i.i.i
                                        //   in Loop: Header=BB21_68 Depth=1
	ldrb	w9, [x26, #3]
	cmp	w10, #2
	b.ne	.LBB21_66
// %bb.72:                              // %arm.3.i.i.i.i.i.i.i.i.i.i.i.i.i.i.i.i.i.i.i
                                        //   in Loop: Header=BB21_68 Depth=1
	ldrb	w10, [x26, #4]
	cmp	w9, w10
	b.hi	.LBB21_212
// %bb.73:                              // %arm.3.i.i.i.i.i.i.i.i.i.i.i.i.i.i.i.i.i.i.i
                                        //   in Loop: Header=BB21_68 Depth=1
	and	w9, w9, #0x7f
	sub	w9, w9, #33
	cmp	w9, #93
	b.hi	.LBB21_212
// %bb.74:                              // %arm.3.i.i.i.i.i.i.i.i.i.i.i.i.i.i.i.i.i.i.i
                                        //   in Loop: Header=BB21_68 Depth=1
	and	w9, w10, #0x7f
	sub	w9, w9, #33
	cmp	w9, #93
	b.ls	.LBB21_67
	b	.LBB21_212
.LBB21_75:                              // %"syntax::obeys_rules.exit.i.i.i.i.i.i.i.i.i.i.i"
	add	x8, sp, #98, lsl #12            // =401408
	add	x24, sp, #66, lsl #12           // =270336
	mov	w2, #320                        // =0x140
	add	x8, x8, #2256
	add	x24, x24, #48
	str	x22, [x25, #512]
	add	x0, x8, #8
	add	x1, x24, #16
	bl	memcpy
	add	x0, sp, #98, lsl #12            // =401408
	add	x0, x0, #2256
	bl	"syntax::naming::tree_fault_of"
	and	w8, w0, #0xff
	ldr	x26, [sp, #32]                  // 8-byte Reload
	cmp	w8, #1
	b.eq	.LBB21_212
// %bb.76:                              // %join.3.i.i.i.i.i.i.i.i.i.i.i
	add	x8, sp, #98, lsl #12            // =401408
	add	x1, x24, #16
	mov	w2, #320                        // =0x140
	add	x8, x8, #1416
	str	x22, [x8]
	add	x8, sp, #98, lsl #12            // =401408
	add	x8, x8, #1416
	add	x0, x8, #8
	bl	memcpy
	add	x0, sp, #98, lsl #12            // =401408
	add	x1, sp, #98, lsl #12            // =401408
	add	x0, x0, #1744
	add	x1, x1, #1416
	bl	"table::table_of"
	add	x0, sp, #98, lsl #12            // =401408
	add	x1, sp, #98, lsl #12            // =401408
	mov	w2, #512                        // =0x200
	add	x0, x0, #2912
	add	x1, x1, #1744
	bl	memcpy
	cmp	w26, #128, lsl #12              // =524288
	str	wzr, [x25, #848]
	str	xzr, [x25, #840]
	b.hi	.LBB21_212
// %bb.77:                              // %then.4.i.i.i.i.i.i.i.i.i.i.i.i.i
	ands	w8, w26, #0x7
	b.eq	.LBB21_79
// %bb.78:                              // %"bits::handed_good.exit.i.i.i.i.i.i.i.i.i.i.i.i"
	lsr	x9, x26, #3
	mov	w10, #8                         // =0x8
	add	x11, sp, #66, lsl #12           // =270336
	add	x11, x11, #384
	sub	w8, w10, w8
	mov	w10, #-1                        // =0xffffffff
	ldrb	w9, [x11, x9]
	lsl	w8, w10, w8
	bics	wzr, w9, w8
	b.ne	.LBB21_212
.LBB21_79:                              // %join.3.i.i.i.i.i.i.i.i.i.i.i.i
	add	x8, sp, #97, lsl #12            // =397312
	add	x0, sp, #98, lsl #12            // =401408
	add	x1, sp, #98, lsl #12            // =401408
	add	x4, sp, #66, lsl #12            // =270336
	add	x7, sp, #96, lsl #12            // =393216
	ldr	x2, [sp, #16]                   // 8-byte Reload
	mov	w3, wzr
	mov	w6, wzr
	add	x8, x8, #1904
	add	x0, x0, #2584
	add	x1, x1, #2912
	add	x4, x4, #384
	add	x7, x7, #656
	mov	x5, x23
	str	wzr, [sp, #8]
	str	x8, [sp]
	bl	"entries::put_entries"
	ldrb	w8, [x25, #840]
	cmp	w8, #1
	b.ne	.LBB21_212
// %bb.80:                              // %join.3.i.i.i.i.i.i.i.i.i.i.i.i
	add	x8, sp, #98, lsl #12            // =401408
	add	x8, x8, #2333
	ldur	x8, [x8, #255]
	cmp	w26, w8
	b.ne	.LBB21_212
// %bb.81:                              // %arm.4.i.i.i.i.i.i.i.i.i.i.i
	lsr	x24, x8, #32
	cmp	x24, #3600
	b.hi	.LBB21_212
// %bb.82:                              // %arm.1.i.i.i.i.i.i.i.i.i.i
	add	x0, sp, #98, lsl #12            // =401408
	mov	w1, wzr
	mov	w2, #804                        // =0x324
	add	x0, x0, #2912
	add	x22, sp, #98, lsl #12           // =401408
	add	x22, x22, #2912
	bl	memset
	cbz	x24, .LBB21_160
// %bb.83:                              // %arm.5.i2.i.i.i.i.i.i.i.i.i.i.preheader
	add	x8, sp, #96, lsl #12            // =393216
	add	x9, sp, #97, lsl #12            // =397312
	add	x8, x8, #656
	add	x9, x9, #1904
.LBB21_84:                              // %arm.5.i2.i.i.i.i.i.i.i.i.i.i
                                        // =>This Inner Loop Header: Depth=1
	ldrb	w10, [x8], #1
	add	x12, sp, #98, lsl #12           // =401408
	ldrb	w11, [x9], #1
	add	x12, x12, #2912
	sub	w10, w10, #48
	sub	x24, x24, #1
	cmp	w10, #10
	ldr	w13, [x12, x11, lsl #2]
	csel	w10, w10, wzr, lo
	add	w10, w13, w10, uxtb
	str	w10, [x12, x11, lsl #2]
	cbnz	x24, .LBB21_84
// %bb.85:                              // %"totals::add_up.exit.loopexit.i.i.i.i.i.i.i.i.i.i"
	ldr	d0, [x25, #1168]
	b	.LBB21_161
.LBB21_86:
	mov	w8, wzr
	mov	w9, #4                          // =0x4
	adrp	x24, .LCPI21_0
.LBB21_87:                              // %arm.2.i.i.i.i.i.i.i.i
	mov	w11, #1                         // =0x1
	mov	w10, w9
	mov	x21, xzr
	lsl	w9, w11, w9
	mov	w11, #363                       // =0x16b
	tst	w9, w11
	b.eq	.LBB21_89
// %bb.88:                              // %after.2.i.i.i.i.i.i.i.i.i.i
	mov	w21, w8
.LBB21_89:                              // %"refusals::RefusalCause::value.exit.i.i.i.i.i.i.i.i.i"
	ldr	d0, [x24, :lo12:.LCPI21_0]
	add	x0, sp, #2, lsl #12             // =8192
	add	x3, x10, #1
.LBB21_90:                              // %"refusals::RefusalCause::value.exit.i.i.i.i.i.i.i"
	add	x0, x0, #48
	str	d0, [sp, #8240]
	mov	w1, #262144                     // =0x40000
	mov	w2, #8                          // =0x8
	add	x23, sp, #2, lsl #12            // =8192
	mov	w22, #262144                    // =0x40000
	add	x23, x23, #48
	bl	"text::digits::put_decimal"
	lsr	x8, x0, #18
	cbnz	x8, .LBB21_92
// %bb.91:                              // %then.1.i.i.i.i.i.i.i6.i.i.i.i.i.i
	add	x22, x0, #1
	mov	w8, #9                          // =0x9
	strb	w8, [x23, x0]
.LBB21_92:                              // %"text::lines::put_entry.exit.i.i.i.i.i.i.i.i.i"
	add	x0, sp, #2, lsl #12             // =8192
	mov	w1, #262144                     // =0x40000
	mov	x2, x22
	add	x0, x0, #48
	mov	x3, x21
	add	x21, sp, #2, lsl #12            // =8192
	mov	w22, #262144                    // =0x40000
	add	x21, x21, #48
	bl	"text::digits::put_decimal"
	lsr	x8, x0, #18
	cbnz	x8, .LBB21_94
// %bb.93:                              // %then.1.i.i.i.i5.i.i.i.i.i.i
	add	x22, x0, #1
	mov	w8, #10                         // =0xa
	strb	w8, [x21, x0]
.LBB21_94:                              // %"listing::list.exit.i.i.i.i"
	movi	v0.2d, #0000000000000000
	add	x0, sp, #66, lsl #12            // =270336
	add	x2, sp, #2, lsl #12             // =8192
	add	x23, sp, #66, lsl #12           // =270336
	add	x0, x0, #384
	add	x2, x2, #48
	mov	w1, #1                          // =0x1
	mov	x3, x22
	add	x23, x23, #384
	stp	q0, q0, [x19, #336]
	stp	q0, q0, [x19, #368]
	stp	q0, q0, [x19, #400]
	bl	"std_io::io::write_to"
	ldur	q0, [x23, #41]
	ldur	q1, [x23, #57]
	ldur	q2, [x23, #73]
	ldr	x8, [x23, #88]
	ldrb	w9, [x19, #336]
	stp	q0, q1, [x27, #32]
	ldur	q0, [x23, #9]
	ldur	q1, [x23, #25]
	cmp	w9, #1
	str	q2, [x27, #64]
	stur	x8, [x27, #79]
	ldrb	w8, [x19, #344]
	stp	q0, q1, [x27]
	b.ne	.LBB21_96
// %bb.95:                              // %arm.1.i.i3.i.i.i.i
	ldp	q0, q1, [x27, #32]
	add	x2, sp, #66, lsl #12            // =270336
	strb	w8, [x23]
	ldr	q2, [x27, #64]
	adrp	x0, .Lstatic.63
	add	x0, x0, :lo12:.Lstatic.63
	ldur	x8, [x27, #79]
	add	x2, x2, #384
	stur	q0, [x23, #33]
	mov	w1, #15                         // =0xf
	stur	q1, [x23, #49]
	ldp	q0, q1, [x27]
	stur	q2, [x23, #65]
	str	x8, [x23, #80]
	stur	q0, [x23, #1]
	stur	q1, [x23, #17]
	bl	"tapelist::fail::<#4e9da720f7635e46>"
.LBB21_96:                              // %"tapelist::print_listing::<#58479109a033be3c>.exit.i.i.i"
	sub	x1, x29, #17
	mov	w0, #1                          // =0x1
	mov	x2, xzr
	bl	rattle_arg
	mov	w8, #36                         // =0x24
	cmn	x0, #1
	mov	w9, #22                         // =0x16
	csel	w8, w9, w8, eq
	csel	w0, wzr, w8, gt
	bl	rattle_set_errno
	bl	rattle_errno
	ldr	x21, [sp, #40]                  // 8-byte Reload
	cmp	w0, #36
	b.eq	.LBB21_98
// %bb.97:                              // %"tapelist::print_listing::<#58479109a033be3c>.exit.i.i.i"
	cbnz	w0, .LBB21_112
.LBB21_98:                              // %then.8.i.i.i
	movi	v0.2d, #0000000000000000
	add	x0, sp, #98, lsl #12            // =401408
	add	x1, sp, #1, lsl #12             // =4096
	add	x0, x0, #2912
	add	x1, x1, #48
	mov	x2, x20
	add	x19, sp, #98, lsl #12           // =401408
	add	x19, x19, #2912
	str	q0, [x25, #1488]
	str	q0, [x25, #1472]
	str	q0, [x25, #1456]
	str	q0, [x25, #1440]
	str	q0, [x25, #1424]
	str	q0, [x25, #1408]
	str	q0, [x25, #1392]
	str	q0, [x25, #1376]
	str	q0, [x25, #1360]
	str	q0, [x25, #1344]
	str	q0, [x25, #1328]
	str	q0, [x25, #1312]
	str	q0, [x25, #1296]
	str	q0, [x25, #1280]
	str	q0, [x25, #1264]
	str	q0, [x25, #1248]
	str	q0, [x25, #1232]
	str	q0, [x25, #1216]
	str	q0, [x25, #1200]
	str	q0, [x25, #1184]
	str	q0, [x25, #1168]
	bl	"loading::load"
	ldrb	w8, [x25, #1168]
	cbz	w8, .LBB21_101
// %bb.99:                              // %arm.2.i.i.i.i.i
	movi	v0.2d, #0000000000000000
	mov	w20, wzr
	str	wzr, [x28, #4048]
	str	q0, [x28, #4032]
	str	q0, [x28, #4016]
	str	q0, [x28, #4000]
	str	q0, [x28, #3984]
	str	q0, [x28, #3968]
	str	q0, [x28, #3952]
	str	q0, [x28, #3936]
	str	q0, [x28, #3920]
	str	q0, [x28, #3904]
	str	q0, [x28, #3888]
	str	q0, [x28, #3872]
	str	q0, [x28, #3856]
	str	q0, [x28, #3840]
	str	q0, [x28, #3824]
	str	q0, [x28, #3808]
	str	q0, [x28, #3792]
	str	q0, [x28, #3776]
	str	q0, [x28, #3760]
	str	q0, [x28, #3744]
	str	q0, [x28, #3728]
	cbz	x21, .LBB21_102
.LBB21_100:                             // %"core::slice::parts::slice+T::strip_suffix::<i8,31'core::cmp::numbers::U8PartialEq{}>.exit.i.i.i.i.i"
	sub	x8, x21, #1
	add	x9, sp, #48
	ldrb	w9, [x9, x8]
	cmp	w9, #10
	csel	x19, x8, x21, eq
	b	.LBB21_103
.LBB21_101:                             // %arm.1.i.i.i.i.i
	add	x0, sp, #97, lsl #12            // =397312
	ldr	w20, [x25, #1176]
	orr	x1, x19, #0xc
	add	x0, x0, #288
	mov	w2, #324                        // =0x144
	bl	memcpy
	cbnz	x21, .LBB21_100
.LBB21_102:
	mov	x19, xzr
.LBB21_103:                             // %"listing::letters_of.exit.i.i.i.i"
	add	x8, sp, #97, lsl #12            // =397312
	add	x1, sp, #97, lsl #12            // =397312
	add	x22, sp, #2, lsl #12            // =8192
	add	x8, x8, #1088
	add	x1, x1, #288
	mov	w2, #324                        // =0x144
	orr	x0, x8, #0x4
	add	x22, x22, #48
	str	w20, [x28, #4528]
	bl	memcpy
	movi	v0.2d, #0000000000000000
	add	x0, sp, #98, lsl #12            // =401408
	add	x1, sp, #97, lsl #12            // =397312
	add	x0, x0, #1744
	add	x1, x1, #1088
	add	x2, sp, #48
	mov	x3, x19
	str	xzr, [x25]
	str	wzr, [x25, #8]
	str	q0, [x28, #5344]
	str	q0, [x28, #5360]
	str	q0, [x28, #5376]
	str	q0, [x28, #5392]
	str	q0, [x28, #5408]
	str	q0, [x28, #5424]
	str	q0, [x28, #5440]
	str	q0, [x28, #5456]
	str	q0, [x28, #5472]
	str	q0, [x28, #5488]
	str	q0, [x28, #5504]
	str	q0, [x28, #5520]
	str	q0, [x28, #5536]
	str	q0, [x28, #5552]
	str	q0, [x28, #5568]
	str	q0, [x28, #5584]
	str	q0, [x28, #5600]
	str	q0, [x28, #5616]
	str	q0, [x28, #5632]
	str	q0, [x28, #5648]
	str	q0, [x28, #5664]
	str	q0, [x28, #5680]
	str	q0, [x28, #5696]
	str	q0, [x28, #5712]
	str	q0, [x28, #5728]
	str	q0, [x28, #5744]
	str	q0, [x28, #5760]
	str	q0, [x28, #5776]
	str	q0, [x28, #5792]
	str	q0, [x28, #5808]
	str	q0, [x28, #5824]
	str	q0, [x28, #5840]
	bl	"checks::check_tape"
	ldrb	w8, [x25]
	cbz	w8, .LBB21_113
// %bb.104:                             // %arm.2.i6.i.i.i.i
	ldrb	w8, [x25, #4]
	mov	w10, #1                         // =0x1
	ldr	w9, [x25, #8]
	mov	w11, #363                       // =0x16b
	mov	x19, xzr
	stp	xzr, xzr, [x27, #16]
	lsl	w10, w10, w8
	str	xzr, [x27, #8]
	tst	w10, w11
	b.eq	.LBB21_106
// %bb.105:                             // %after.2.i.i.i.i.i.i.i
	mov	x19, x9
.LBB21_106:                             // %"refusals::RefusalCause::value.exit.i.i.i.i.i.i"
	ldr	d0, [x24, :lo12:.LCPI21_0]
	add	x0, sp, #82, lsl #12            // =335872
	add	x3, x8, #1
	add	x0, x0, #384
	mov	w1, #32                         // =0x20
	mov	w2, #8                          // =0x8
	str	d0, [x27]
	add	x21, sp, #82, lsl #12           // =335872
	mov	w20, #32                        // =0x20
	add	x21, x21, #384
	bl	"text::digits::put_decimal"
	cmp	x0, #31
	b.hi	.LBB21_108
.LBB21_107:                             // %then.1.i.i.i.i.i.i.i.i.i17.i.i.i
	add	x20, x0, #1
	mov	w8, #9                          // =0x9
	strb	w8, [x21, x0]
.LBB21_108:                             // %"text::lines::put_entry.exit.i.i.i.i.i.i.i.i"
	add	x0, sp, #82, lsl #12            // =335872
	mov	w1, #32                         // =0x20
	mov	x2, x20
	add	x0, x0, #384
	mov	x3, x19
	add	x20, sp, #82, lsl #12           // =335872
	mov	w19, #32                        // =0x20
	add	x20, x20, #384
	bl	"text::digits::put_decimal"
	cmp	x0, #31
	b.hi	.LBB21_110
// %bb.109:                             // %then.1.i.i.i.i7.i.i.i.i.i
	add	x19, x0, #1
	mov	w8, #10                         // =0xa
	strb	w8, [x20, x0]
.LBB21_110:                             // %"tapelist::put_located.exit.i.i.i.i"
	movi	v0.2d, #0000000000000000
	add	x0, sp, #2, lsl #12             // =8192
	add	x2, sp, #82, lsl #12            // =335872
	add	x0, x0, #48
	add	x2, x2, #384
	mov	w1, #1                          // =0x1
	mov	x3, x19
	str	q0, [sp, #8320]
	str	q0, [sp, #8304]
	str	q0, [sp, #8288]
	str	q0, [sp, #8272]
	str	q0, [sp, #8256]
	str	q0, [sp, #8240]
	bl	"std_io::io::write_to"
	ldur	q0, [x22, #41]
	ldur	q1, [x22, #57]
	ldur	q2, [x22, #73]
	ldr	x8, [sp, #8328]
	ldrb	w9, [x22]
	stp	q0, q1, [x23, #32]
	ldur	q0, [x22, #9]
	ldur	q1, [x22, #25]
	cmp	w9, #1
	str	q2, [x23, #64]
	stur	x8, [x23, #79]
	ldrb	w8, [x22, #8]
	stp	q0, q1, [x23]
	b.ne	.LBB21_112
// %bb.111:                             // %arm.1.i.i.i15.i.i.i
	ldp	q0, q1, [x23, #32]
	add	x2, sp, #2, lsl #12             // =8192
	strb	w8, [x22]
	ldr	q2, [x23, #64]
	adrp	x0, .Lstatic.63
	add	x0, x0, :lo12:.Lstatic.63
	ldur	x8, [x23, #79]
	add	x2, x2, #48
	stur	q0, [x22, #33]
	mov	w1, #15                         // =0xf
	stur	q1, [x22, #49]
	ldp	q0, q1, [x23]
	stur	q2, [x22, #65]
	str	x8, [sp, #8320]
	stur	q0, [x22, #1]
	stur	q1, [x22, #17]
	bl	"tapelist::fail::<#4e9da720f7635e46>"
.LBB21_112:                             // %"tapelist::main+start.exit"
	mov	w0, wzr
	add	sp, sp, #98, lsl #12            // =401408
	add	sp, sp, #3744
	ldp	x20, x19, [sp, #80]             // 16-byte Folded Reload
	ldp	x22, x21, [sp, #64]             // 16-byte Folded Reload
	ldp	x24, x23, [sp, #48]             // 16-byte Folded Reload
	ldp	x26, x25, [sp, #32]             // 16-byte Folded Reload
	ldp	x28, x27, [sp, #16]             // 16-byte Folded Reload
	ldp	x29, x30, [sp], #96             // 16-byte Folded Reload
	ret
.LBB21_113:                             // %arm.1.i4.i.i.i.i
	add	x0, sp, #97, lsl #12            // =397312
	add	x1, sp, #97, lsl #12            // =397312
	add	x0, x0, #1904
	add	x1, x1, #1088
	bl	"table::table_of"
	add	x0, sp, #96, lsl #12            // =393216
	add	x1, sp, #97, lsl #12            // =397312
	mov	w2, #512                        // =0x200
	add	x0, x0, #656
	add	x1, x1, #1904
	bl	memcpy
	movi	v0.2d, #0000000000000000
	ldr	x21, [x28, #4528]
	add	x0, sp, #97, lsl #12            // =397312
	add	x2, sp, #66, lsl #12            // =270336
	add	x3, sp, #82, lsl #12            // =335872
	add	x0, x0, #1904
	add	x2, x2, #384
	add	x3, x3, #384
	mov	x1, x21
	stp	q0, q0, [x23]
	stp	q0, q0, [x23, #32]
	stp	q0, q0, [x23, #64]
	stp	q0, q0, [x23, #96]
	stp	q0, q0, [x23, #128]
	stp	q0, q0, [x23, #160]
	stp	q0, q0, [x23, #192]
	stp	q0, q0, [x23, #224]
	stp	q0, q0, [x23, #256]
	stp	q0, q0, [x23, #288]
	stp	q0, q0, [x23, #320]
	stp	q0, q0, [x23, #352]
	stp	q0, q0, [x23, #384]
	stp	q0, q0, [x23, #416]
	stp	q0, q0, [x23, #448]
	stp	q0, q0, [x23, #480]
	stp	q0, q0, [x27]
	stp	q0, q0, [x27, #32]
	stp	q0, q0, [x27, #64]
	stp	q0, q0, [x27, #96]
	stp	q0, q0, [x27, #128]
	stp	q0, q0, [x27, #160]
	stp	q0, q0, [x27, #192]
	stp	q0, q0, [x27, #224]
	stp	q0, q0, [x27, #256]
	stp	q0, q0, [x27, #288]
	stp	q0, q0, [x27, #320]
	stp	q0, q0, [x27, #352]
	stp	q0, q0, [x27, #384]
	stp	q0, q0, [x27, #416]
	stp	q0, q0, [x27, #448]
	stp	q0, q0, [x27, #480]
	bl	"masks::put_masks"
	mov	x20, x0
	add	x0, sp, #2, lsl #12             // =8192
	mov	w1, wzr
	add	x0, x0, #48
	mov	w2, #2048                       // =0x800
	add	x24, sp, #2, lsl #12            // =8192
	add	x24, x24, #48
	bl	memset
	cbz	x21, .LBB21_133
// %bb.114:                             // %join.5.i.i.i.i.i.i.i.preheader
	mov	x8, xzr
	add	x9, x24, #16
	b	.LBB21_116
.LBB21_115:                             // %"masks::scatter::put_node.exit.i.i.i.i.i.i.i"
                                        //   in Loop: Header=BB21_116 Depth=1
	add	x8, x8, #1
	cmp	x8, x21
	b.eq	.LBB21_133
.LBB21_116:                             // %join.5.i.i.i.i.i.i.i
                                        // =>This Loop Header: Depth=1
                                        //     Child Loop BB21_122 Depth 2
                                        //     Child Loop BB21_125 Depth 2
                                        //     Child Loop BB21_129 Depth 2
                                        //     Child Loop BB21_132 Depth 2
	add	x10, sp, #96, lsl #12           // =393216
	add	x10, x10, #656
	ldr	x11, [x10, x8, lsl #3]
	and	w10, w11, #0xff
	cmp	w10, #2
	b.eq	.LBB21_119
// %bb.117:                             // %join.5.i.i.i.i.i.i.i
                                        //   in Loop: Header=BB21_116 Depth=1
	cmp	w10, #1
	b.ne	.LBB21_115
// %bb.118:                             // %arm.2.i.i5.i.i.i.i.i.i.i
                                        //   in Loop: Header=BB21_116 Depth=1
	lsr	x10, x11, #8
	add	x12, sp, #2, lsl #12            // =8192
	mov	w11, #1                         // =0x1
	add	x12, x12, #48
	lsl	x11, x11, x8
	ubfiz	x10, x10, #3, #8
	ldr	x13, [x12, x10]
	orr	x11, x13, x11
	str	x11, [x12, x10]
	b	.LBB21_115
.LBB21_119:                             // %arm.3.i.i4.i.i.i.i.i.i.i
                                        //   in Loop: Header=BB21_116 Depth=1
	lsr	x13, x11, #16
	ubfx	w15, w11, #8, #8
	mov	w12, #126                       // =0x7e
	mov	w16, #1                         // =0x1
	and	w10, w13, #0xff
	cmp	w10, #126
	csel	w14, w10, w12, lo
	cmp	w15, #161
	mov	w10, #161                       // =0xa1
	csel	w12, w15, w10, hi
	lsl	x10, x16, x8
	cmp	w14, w15
	b.lo	.LBB21_126
// %bb.120:                             // %join.5.preheader.i.i.i.i.i.i.i.i.i.i.i
                                        //   in Loop: Header=BB21_116 Depth=1
	ubfx	x0, x11, #8, #8
	sub	x15, x14, x0
	add	x16, x15, #1
	mov	x15, x0
	cmp	x16, #4
	b.lo	.LBB21_124
// %bb.121:                             // %vector.ph56
                                        //   in Loop: Header=BB21_116 Depth=1
	dup	v0.2d, x10
	and	x17, x16, #0xfffffffffffffffc
	add	x18, x9, x0, lsl #3
	add	x15, x0, x17
	and	x0, x16, #0xfffffffffffffffc
.LBB21_122:                             // %vector.body61
                                        //   Parent Loop BB21_116 Depth=1
                                        // =>  This Inner Loop Header: Depth=2
	ldp	q1, q2, [x18, #-16]
	subs	x0, x0, #4
	orr	v1.16b, v1.16b, v0.16b
	orr	v2.16b, v2.16b, v0.16b
	stp	q1, q2, [x18, #-16]
	add	x18, x18, #32
	b.ne	.LBB21_122
// %bb.123:                             // %middle.block67
                                        //   in Loop: Header=BB21_116 Depth=1
	cmp	x16, x17
	b.eq	.LBB21_126
.LBB21_124:                             // %join.5.i.i.i.i.i.i.i.i.i.i.i.preheader
                                        //   in Loop: Header=BB21_116 Depth=1
	add	x16, sp, #2, lsl #12            // =8192
	sub	x17, x14, x15
	add	x16, x16, #48
	add	x14, x16, x15, lsl #3
	add	x15, x17, #1
.LBB21_125:                             // %join.5.i.i.i.i.i.i.i.i.i.i.i
                                        //   Parent Loop BB21_116 Depth=1
                                        // =>  This Inner Loop Header: Depth=2
	ldr	x16, [x14]
	subs	x15, x15, #1
	orr	x16, x16, x10
	str	x16, [x14], #8
	b.ne	.LBB21_125
.LBB21_126:                             // %"masks::scatter::put_between.exit.i.i.i.i.i.i.i.i.i.i"
                                        //   in Loop: Header=BB21_116 Depth=1
	cmp	w12, w13, uxtb
	b.hi	.LBB21_115
// %bb.127:                             // %join.5.preheader.i4.i.i.i.i.i.i.i.i.i.i
                                        //   in Loop: Header=BB21_116 Depth=1
	ubfx	x11, x11, #16, #8
	sub	x13, x11, x12
	add	x13, x13, #1
	cmp	x13, #4
	b.lo	.LBB21_131
// %bb.128:                             // %vector.ph40
                                        //   in Loop: Header=BB21_116 Depth=1
	dup	v0.2d, x10
	and	x14, x13, #0xfffffffffffffffc
	add	x15, x9, x12, lsl #3
	add	x12, x14, x12
	and	x16, x13, #0xfffffffffffffffc
.LBB21_129:                             // %vector.body45
                                        //   Parent Loop BB21_116 Depth=1
                                        // =>  This Inner Loop Header: Depth=2
	ldp	q1, q2, [x15, #-16]
	subs	x16, x16, #4
	orr	v1.16b, v1.16b, v0.16b
	orr	v2.16b, v2.16b, v0.16b
	stp	q1, q2, [x15, #-16]
	add	x15, x15, #32
	b.ne	.LBB21_129
// %bb.130:                             // %middle.block51
                                        //   in Loop: Header=BB21_116 Depth=1
	cmp	x13, x14
	b.eq	.LBB21_115
.LBB21_131:                             // %join.5.i6.i.i.i.i.i.i.i.i.i.i.preheader
                                        //   in Loop: Header=BB21_116 Depth=1
	add	x13, sp, #2, lsl #12            // =8192
	sub	x14, x11, x12
	add	x13, x13, #48
	add	x11, x13, x12, lsl #3
	add	x12, x14, #1
.LBB21_132:                             // %join.5.i6.i.i.i.i.i.i.i.i.i.i
                                        //   Parent Loop BB21_116 Depth=1
                                        // =>  This Inner Loop Header: Depth=2
	ldr	x13, [x11]
	subs	x12, x12, #1
	orr	x13, x13, x10
	str	x13, [x11], #8
	b.ne	.LBB21_132
	b	.LBB21_115
.LBB21_133:                             // %"masks::scatter::put_takers.exit.i.i.i.i.i.i"
	cbz	x19, .LBB21_150
// %bb.134:                             // %join.6.preheader.i.i.i.i.i.i.i
	sub	x8, x21, #1
	mov	w9, #1                          // =0x1
	lsl	x9, x9, x8
	mov	x8, xzr
.LBB21_135:                             // %join.6.i.i.i.i.i.i.i
                                        // =>This Loop Header: Depth=1
                                        //     Child Loop BB21_137 Depth 2
                                        //     Child Loop BB21_140 Depth 2
	add	x10, sp, #48
	add	x11, sp, #2, lsl #12            // =8192
	ldrb	w10, [x10, x8]
	add	x11, x11, #48
	ldr	x11, [x11, x10, lsl #3]
	cbz	x11, .LBB21_143
// %bb.136:                             // %arm.3.i.i.i.i.i.i.i.i.preheader
                                        //   in Loop: Header=BB21_135 Depth=1
	mov	x10, xzr
.LBB21_137:                             // %arm.3.i.i.i.i.i.i.i.i
                                        //   Parent Loop BB21_135 Depth=1
                                        // =>  This Inner Loop Header: Depth=2
	rbit	x12, x11
	add	x13, sp, #82, lsl #12           // =335872
	sub	x14, x11, #1
	add	x13, x13, #384
	and	x11, x14, x11
	clz	x12, x12
	ldr	x13, [x13, x12, lsl #3]
	tst	x13, x9
	cset	w13, ne
	lsl	x12, x13, x12
	orr	x10, x12, x10
	cbnz	x11, .LBB21_137
// %bb.138:                             // %"reach::matched.exit.i.i.i.i.i.i.i"
                                        //   in Loop: Header=BB21_135 Depth=1
	cbz	x10, .LBB21_143
// %bb.139:                             // %arm.3.i7.i.i.i.i.i.i.i.preheader
                                        //   in Loop: Header=BB21_135 Depth=1
	mov	x9, xzr
.LBB21_140:                             // %arm.3.i7.i.i.i.i.i.i.i
                                        //   Parent Loop BB21_135 Depth=1
                                        // =>  This Inner Loop Header: Depth=2
	rbit	x11, x10
	add	x12, sp, #96, lsl #12           // =393216
	mov	w13, #1                         // =0x1
	add	x12, x12, #656
	clz	x11, x11
	ldr	x11, [x12, x11, lsl #3]
	lsr	x12, x11, #32
	tst	x11, #0xc000000000
	lsl	x12, x13, x12
	sub	x13, x10, #1
	and	x10, x13, x10
	csel	x11, x12, xzr, eq
	orr	x9, x11, x9
	cbnz	x10, .LBB21_140
// %bb.141:                             // %"reach::follow.exit.i.i.i.i.i.i.i"
                                        //   in Loop: Header=BB21_135 Depth=1
	add	x8, x8, #1
	cmp	x8, x19
	b.ne	.LBB21_135
// %bb.142:
	mov	x8, x19
.LBB21_143:                             // %"reach::reach_over.exit.i.i.i.i.i.i"
	mov	w10, #1                         // =0x1
	mov	x9, x19
	b	.LBB21_145
.LBB21_144:                             //   in Loop: Header=BB21_145 Depth=1
	mov	x11, xzr
	mov	x10, xzr
	mov	x20, x11
	cbz	x9, .LBB21_149
.LBB21_145:                             // %arm.3.i.i.i.i.i.i.i
                                        // =>This Loop Header: Depth=1
                                        //     Child Loop BB21_147 Depth 2
	sub	x9, x9, #1
	add	x11, sp, #48
	add	x12, sp, #2, lsl #12            // =8192
	ldrb	w11, [x11, x9]
	add	x12, x12, #48
	ldr	x12, [x12, x11, lsl #3]
	cbz	x12, .LBB21_144
// %bb.146:                             // %arm.3.i.i10.i.i.i.i.i.i.preheader
                                        //   in Loop: Header=BB21_145 Depth=1
	mov	x11, xzr
.LBB21_147:                             // %arm.3.i.i10.i.i.i.i.i.i
                                        //   Parent Loop BB21_145 Depth=1
                                        // =>  This Inner Loop Header: Depth=2
	rbit	x13, x12
	add	x14, sp, #96, lsl #12           // =393216
	add	x16, sp, #82, lsl #12           // =335872
	add	x14, x14, #656
	add	x16, x16, #384
	clz	x13, x13
	ldr	x14, [x14, x13, lsl #3]
	ldr	x13, [x16, x13, lsl #3]
	lsr	x15, x14, #32
	tst	x14, #0xc000000000
	lsr	x15, x20, x15
	and	x15, x15, #0x1
	csel	x14, x15, x10, eq
	mul	x13, x14, x13
	sub	x14, x12, #1
	and	x12, x14, x12
	orr	x11, x13, x11
	cbnz	x12, .LBB21_147
// %bb.148:                             // %"steps::step.exit.i.i.i.i.i.i.i"
                                        //   in Loop: Header=BB21_145 Depth=1
	cmp	x11, #0
	csel	x19, x19, x9, eq
	mov	x10, xzr
	mov	x20, x11
	cbnz	x9, .LBB21_145
.LBB21_149:                             // %"reach::resume_over.exit.loopexit.i.i.i.i.i.i"
	bfi	w8, w19, #16, #16
	b	.LBB21_151
.LBB21_150:
	mov	w8, wzr
.LBB21_151:                             // %arm.1.i8.i.i.i.i
	movi	v0.2d, #0000000000000000
	lsr	w19, w8, #16
	mov	x9, xzr
	mov	x10, xzr
	and	w3, w8, #0xffff
	stp	q0, q0, [x27]
	b	.LBB21_154
.LBB21_152:                             // %"text::put::put_byte.exit.i.i.i.thread.i.i.i.i.i"
                                        //   in Loop: Header=BB21_154 Depth=1
	cmp	x9, #6
	mov	w2, #32                         // =0x20
	b.eq	.LBB21_159
.LBB21_153:                             // %join.6.i.i.i.i.i.i.i.i.backedge
                                        //   in Loop: Header=BB21_154 Depth=1
	add	x9, x9, #1
	mov	x10, x2
.LBB21_154:                             // %join.6.i.i.i.i.i.i.i.i
                                        // =>This Inner Loop Header: Depth=1
	cmp	x10, #31
	b.hi	.LBB21_152
// %bb.155:                             // %"text::put::put_byte.exit.i.i.i.i.i.i.i.i"
                                        //   in Loop: Header=BB21_154 Depth=1
	adrp	x8, .Lstatic.64
	add	x8, x8, :lo12:.Lstatic.64
	add	x11, sp, #82, lsl #12           // =335872
	ldrb	w8, [x8, x9]
	add	x11, x11, #384
	cmp	x9, #6
	add	x2, x10, #1
	strb	w8, [x11, x10]
	b.ne	.LBB21_153
// %bb.156:                             // %"text::put::put_bytes.exit.i.i.i.i.i.i.i"
	cmp	x10, #31
	b.ne	.LBB21_158
// %bb.157:
	mov	w2, #32                         // =0x20
	b	.LBB21_159
.LBB21_158:                             // %then.1.i.i.i.i.i.i.i.i
	add	x8, sp, #82, lsl #12            // =335872
	mov	w9, #9                          // =0x9
	add	x8, x8, #384
	strb	w9, [x8, x2]
	add	x2, x10, #2
.LBB21_159:                             // %"text::put::put_byte.exit.i.i.i.i.i.i.i"
	add	x0, sp, #82, lsl #12            // =335872
	mov	w1, #32                         // =0x20
	add	x0, x0, #384
	add	x21, sp, #82, lsl #12           // =335872
	mov	w20, #32                        // =0x20
	add	x21, x21, #384
	bl	"text::digits::put_decimal"
	cmp	x0, #31
	b.ls	.LBB21_107
	b	.LBB21_108
.LBB21_160:
	movi	v0.2d, #0000000000000000
.LBB21_161:                             // %"core::result::Result::unwrap::<[201]i32,17'refusals::Refusal>.exit.i.i.i.i.i.i.i.i.i"
	add	x0, sp, #97, lsl #12            // =397312
	add	x1, x22, #8
	mov	w2, #796                        // =0x31c
	add	x0, x0, #288
	str	q0, [sp, #16]                   // 16-byte Spill
	bl	memcpy
	add	x8, sp, #97, lsl #12            // =397312
	ldr	q0, [sp, #16]                   // 16-byte Reload
	add	x1, sp, #97, lsl #12            // =397312
	add	x8, x8, #1088
	add	x1, x1, #288
	mov	w2, #796                        // =0x31c
	add	x0, x8, #8
	str	d0, [x28, #4528]
	bl	memcpy
	mov	x8, xzr
	mov	x9, xzr
	b	.LBB21_164
.LBB21_162:                             // %"text::put::put_byte.exit.i.i.thread.i.i.i.i.i.i.i.i.i.i"
                                        //   in Loop: Header=BB21_164 Depth=1
	cmp	x8, #3
	mov	w2, #262144                     // =0x40000
	b.eq	.LBB21_169
.LBB21_163:                             // %join.6.i.i.i.i.i.i.i.i.i.i.i.i.backedge
                                        //   in Loop: Header=BB21_164 Depth=1
	add	x8, x8, #1
	mov	x9, x2
.LBB21_164:                             // %join.6.i.i.i.i.i.i.i.i.i.i.i.i
                                        // =>This Inner Loop Header: Depth=1
	lsr	x10, x9, #18
	cbnz	x10, .LBB21_162
// %bb.165:                             // %"text::put::put_byte.exit.i.i.i.i.i.i.i.i.i.i.i.i"
                                        //   in Loop: Header=BB21_164 Depth=1
	adrp	x10, .Lstatic.59
	add	x10, x10, :lo12:.Lstatic.59
	add	x11, sp, #2, lsl #12            // =8192
	ldrb	w10, [x10, x8]
	add	x11, x11, #48
	cmp	x8, #3
	add	x2, x9, #1
	strb	w10, [x11, x9]
	b.ne	.LBB21_163
// %bb.166:                             // %"text::put::put_bytes.exit.i.i.i.i.i.i.i.i.i.i.i"
	mov	w8, #262143                     // =0x3ffff
	cmp	x9, x8
	b.ne	.LBB21_168
// %bb.167:
	mov	w2, #262144                     // =0x40000
	b	.LBB21_169
.LBB21_168:                             // %then.1.i.i.i.i.i.i.i.i.i.i.i.i
	add	x8, sp, #2, lsl #12             // =8192
	mov	w10, #9                         // =0x9
	add	x8, x8, #48
	strb	w10, [x8, x2]
	add	x2, x9, #2
.LBB21_169:                             // %"text::put::put_byte.exit.i.i.i.i.i.i.i.i.i.i.i"
	add	x0, sp, #2, lsl #12             // =8192
	mov	w1, #262144                     // =0x40000
	mov	x3, x21
	add	x0, x0, #48
	add	x24, sp, #2, lsl #12            // =8192
	mov	w22, #262144                    // =0x40000
	add	x24, x24, #48
	bl	"text::digits::put_decimal"
	lsr	x8, x0, #18
	cbnz	x8, .LBB21_171
// %bb.170:                             // %then.1.i.i.i.i.i.i30.i.i.i.i.i.i.i.i
	add	x22, x0, #1
	mov	w8, #9                          // =0x9
	strb	w8, [x24, x0]
.LBB21_171:                             // %"text::lines::put_entry.exit.i.i.i.i.i.i.i.i.i.i"
	add	x0, sp, #2, lsl #12             // =8192
	mov	w1, #262144                     // =0x40000
	mov	x2, x22
	add	x0, x0, #48
	mov	x3, x26
	add	x24, sp, #2, lsl #12            // =8192
	mov	w22, #262144                    // =0x40000
	add	x24, x24, #48
	bl	"text::digits::put_decimal"
	lsr	x8, x0, #18
	cbnz	x8, .LBB21_173
// %bb.172:                             // %then.1.i.i.i.i.i.i.i.i.i.i.i
	add	x22, x0, #1
	mov	w8, #9                          // =0x9
	strb	w8, [x24, x0]
.LBB21_173:                             // %"text::put::put_byte.exit.i.i.i.i.i.i.i.i.i.i"
	cbz	x23, .LBB21_179
// %bb.174:                             // %join.6.i.i.i.i.i.i.i.i.i.i.i.preheader
	add	x8, sp, #66, lsl #12            // =270336
	add	x8, x8, #384
	b	.LBB21_176
.LBB21_175:                             //   in Loop: Header=BB21_176 Depth=1
	mov	w22, #262144                    // =0x40000
	subs	x23, x23, #1
	b.eq	.LBB21_179
.LBB21_176:                             // %join.6.i.i.i.i.i.i.i.i.i.i.i
                                        // =>This Inner Loop Header: Depth=1
	lsr	x10, x22, #18
	ldrb	w9, [x8], #1
	cbnz	x10, .LBB21_175
// %bb.177:                             // %"text::put::put_byte.exit.i.i5.i.i.i.i.i.i.i.i.i.i"
                                        //   in Loop: Header=BB21_176 Depth=1
	lsr	w10, w9, #4
	add	x12, sp, #2, lsl #12            // =8192
	cmp	w9, #160
	add	x12, x12, #48
	mov	w13, #262143                    // =0x3ffff
	orr	w11, w10, #0x30
	add	w10, w10, #87
	csel	w11, w11, w10, lo
	add	x10, x12, x22
	cmp	x22, x13
	strb	w11, [x10]
	b.eq	.LBB21_175
// %bb.178:                             // %then.1.i11.i.i.i.i.i.i.i.i.i.i.i.i
                                        //   in Loop: Header=BB21_176 Depth=1
	mov	w11, #48                        // =0x30
	and	w12, w9, #0xf
	add	x22, x22, #2
	bfxil	w11, w9, #0, #4
	add	w9, w12, #87
	cmp	w12, #10
	csel	w9, w11, w9, lo
	strb	w9, [x10, #1]
	subs	x23, x23, #1
	b.ne	.LBB21_176
.LBB21_179:                             // %"text::digits::put_hex.exit.i.i.i.i.i.i.i.i.i.i"
	lsr	x8, x22, #18
	cbnz	x8, .LBB21_181
// %bb.180:                             // %then.1.i9.i.i.i.i.i.i.i.i.i.i
	add	x8, sp, #2, lsl #12             // =8192
	mov	w9, #10                         // =0xa
	add	x8, x8, #48
	strb	w9, [x8, x22]
	add	x22, x22, #1
	b	.LBB21_182
.LBB21_181:
	mov	w22, #262144                    // =0x40000
.LBB21_182:                             // %join.6.i.i22.i.i.i.i.i.i.i.i.preheader
	mov	x23, xzr
	b	.LBB21_184
.LBB21_183:                             // %"listing_lines::put_account.exit.i.i.i.i.i.i.i.i.i.i"
                                        //   in Loop: Header=BB21_184 Depth=1
	add	x23, x23, #1
	cmp	x23, #201
	b.eq	.LBB21_197
.LBB21_184:                             // %join.6.i.i22.i.i.i.i.i.i.i.i
                                        // =>This Loop Header: Depth=1
                                        //     Child Loop BB21_188 Depth 2
	add	x8, sp, #97, lsl #12            // =397312
	add	x8, x8, #1088
	ldr	w24, [x8, x23, lsl #2]
	cbz	w24, .LBB21_183
// %bb.185:                             // %join.3.i.i9.i.i.i.i.i.i.i.i.i
                                        //   in Loop: Header=BB21_184 Depth=1
	mov	x8, xzr
	b	.LBB21_188
.LBB21_186:                             // %"text::put::put_byte.exit.i.i.i.thread.i.i.i.i.i.i.i.i.i.i.i"
                                        //   in Loop: Header=BB21_188 Depth=2
	cmp	x8, #6
	mov	w2, #262144                     // =0x40000
	b.eq	.LBB21_193
.LBB21_187:                             // %join.6.i.i.i.i.i.i.i.i.i.i.i.i.i.i.backedge
                                        //   in Loop: Header=BB21_188 Depth=2
	add	x8, x8, #1
	mov	x22, x2
.LBB21_188:                             // %join.6.i.i.i.i.i.i.i.i.i.i.i.i.i.i
                                        //   Parent Loop BB21_184 Depth=1
                                        // =>  This Inner Loop Header: Depth=2
	lsr	x9, x22, #18
	cbnz	x9, .LBB21_186
// %bb.189:                             // %"text::put::put_byte.exit.i.i.i.i.i.i.i.i.i.i.i.i.i.i"
                                        //   in Loop: Header=BB21_188 Depth=2
	adrp	x9, .Lstatic.60
	add	x9, x9, :lo12:.Lstatic.60
	add	x10, sp, #2, lsl #12            // =8192
	ldrb	w9, [x9, x8]
	add	x10, x10, #48
	cmp	x8, #6
	add	x2, x22, #1
	strb	w9, [x10, x22]
	b.ne	.LBB21_187
// %bb.190:                             // %"text::put::put_bytes.exit.i.i.i.i.i.i.i.i.i.i.i.i.i"
                                        //   in Loop: Header=BB21_184 Depth=1
	mov	w8, #262143                     // =0x3ffff
	cmp	x22, x8
	b.ne	.LBB21_192
// %bb.191:                             //   in Loop: Header=BB21_184 Depth=1
	mov	w2, #262144                     // =0x40000
	b	.LBB21_193
.LBB21_192:                             // %then.1.i.i.i.i.i15.i.i.i.i.i.i.i.i.i
                                        //   in Loop: Header=BB21_184 Depth=1
	add	x8, sp, #2, lsl #12             // =8192
	mov	w9, #9                          // =0x9
	add	x8, x8, #48
	strb	w9, [x8, x2]
	add	x2, x22, #2
.LBB21_193:                             // %"text::put::put_byte.exit.i.i.i.i.i.i.i.i.i.i.i.i.i"
                                        //   in Loop: Header=BB21_184 Depth=1
	add	x0, sp, #2, lsl #12             // =8192
	mov	w1, #262144                     // =0x40000
	mov	x3, x23
	add	x0, x0, #48
	add	x26, sp, #2, lsl #12            // =8192
	mov	w22, #262144                    // =0x40000
	add	x26, x26, #48
	bl	"text::digits::put_decimal"
	lsr	x8, x0, #18
	cbnz	x8, .LBB21_195
// %bb.194:                             // %then.1.i.i.i.i.i.i.i.i.i.i.i.i.i.i.i.i
                                        //   in Loop: Header=BB21_184 Depth=1
	add	x22, x0, #1
	mov	w8, #9                          // =0x9
	strb	w8, [x26, x0]
.LBB21_195:                             // %"text::lines::put_entry.exit.i.i.i.i.i.i.i.i.i.i.i.i"
                                        //   in Loop: Header=BB21_184 Depth=1
	add	x0, sp, #2, lsl #12             // =8192
	mov	w1, #262144                     // =0x40000
	mov	x2, x22
	add	x0, x0, #48
	mov	x3, x24
	add	x24, sp, #2, lsl #12            // =8192
	mov	w22, #262144                    // =0x40000
	add	x24, x24, #48
	bl	"text::digits::put_decimal"
	lsr	x8, x0, #18
	cbnz	x8, .LBB21_183
// %bb.196:                             // %then.1.i.i.i.i.i.i.i.i.i.i.i.i.i
                                        //   in Loop: Header=BB21_184 Depth=1
	add	x22, x0, #1
	mov	w8, #10                         // =0xa
	strb	w8, [x24, x0]
	b	.LBB21_183
.LBB21_197:                             // %join.5.i.i.i.i.i.i.i.i.i.i.preheader
	mov	x23, xzr
	b	.LBB21_199
.LBB21_198:                             // %"text::lines::put_line.exit.i.i.i.i.i.i.i.i.i.i"
                                        //   in Loop: Header=BB21_199 Depth=1
	cmp	x23, x21
	add	x23, x23, #1
	b.eq	.LBB21_211
.LBB21_199:                             // %join.5.i.i.i.i.i.i.i.i.i.i
                                        // =>This Loop Header: Depth=1
                                        //     Child Loop BB21_202 Depth 2
	add	x9, sp, #82, lsl #12            // =335872
	mov	x8, xzr
	add	x9, x9, #384
	add	x9, x9, x23, lsl #4
	ldr	d0, [x9, #8]
	cnt	v0.8b, v0.8b
	addv	b0, v0.8b
	fmov	x24, d0
	b	.LBB21_202
.LBB21_200:                             // %"text::put::put_byte.exit.i.i.i.thread.i.i.i.i.i.i.i.i.i.i"
                                        //   in Loop: Header=BB21_202 Depth=2
	cmp	x8, #3
	mov	w2, #262144                     // =0x40000
	b.eq	.LBB21_207
.LBB21_201:                             // %join.6.i.i.i.i.i.i.i.i.i.i.i.i.i.backedge
                                        //   in Loop: Header=BB21_202 Depth=2
	add	x8, x8, #1
	mov	x22, x2
.LBB21_202:                             // %join.6.i.i.i.i.i.i.i.i.i.i.i.i.i
                                        //   Parent Loop BB21_199 Depth=1
                                        // =>  This Inner Loop Header: Depth=2
	lsr	x9, x22, #18
	cbnz	x9, .LBB21_200
// %bb.203:                             // %"text::put::put_byte.exit.i.i.i.i28.i.i.i.i.i.i.i.i.i"
                                        //   in Loop: Header=BB21_202 Depth=2
	adrp	x9, .Lstatic.61
	add	x9, x9, :lo12:.Lstatic.61
	add	x10, sp, #2, lsl #12            // =8192
	ldrb	w9, [x9, x8]
	add	x10, x10, #48
	cmp	x8, #3
	add	x2, x22, #1
	strb	w9, [x10, x22]
	b.ne	.LBB21_201
// %bb.204:                             // %"text::put::put_bytes.exit.i.i.i.i.i.i.i.i.i.i.i.i"
                                        //   in Loop: Header=BB21_199 Depth=1
	mov	w8, #262143                     // =0x3ffff
	cmp	x22, x8
	b.ne	.LBB21_206
// %bb.205:                             //   in Loop: Header=BB21_199 Depth=1
	mov	w2, #262144                     // =0x40000
	b	.LBB21_207
.LBB21_206:                             // %then.1.i.i.i.i32.i.i.i.i.i.i.i.i.i
                                        //   in Loop: Header=BB21_199 Depth=1
	add	x8, sp, #2, lsl #12             // =8192
	mov	w9, #9                          // =0x9
	add	x8, x8, #48
	strb	w9, [x8, x2]
	add	x2, x22, #2
.LBB21_207:                             // %"text::put::put_byte.exit.i.i.i19.i.i.i.i.i.i.i.i.i"
                                        //   in Loop: Header=BB21_199 Depth=1
	add	x0, sp, #2, lsl #12             // =8192
	mov	w1, #262144                     // =0x40000
	mov	x3, x23
	add	x0, x0, #48
	add	x26, sp, #2, lsl #12            // =8192
	mov	w22, #262144                    // =0x40000
	add	x26, x26, #48
	bl	"text::digits::put_decimal"
	lsr	x8, x0, #18
	cbnz	x8, .LBB21_209
// %bb.208:                             // %then.1.i.i.i.i.i.i.i.i.i.i.i.i.i.i.i
                                        //   in Loop: Header=BB21_199 Depth=1
	add	x22, x0, #1
	mov	w8, #9                          // =0x9
	strb	w8, [x26, x0]
.LBB21_209:                             // %"text::lines::put_entry.exit.i.i.i.i.i.i.i.i.i.i.i"
                                        //   in Loop: Header=BB21_199 Depth=1
	add	x0, sp, #2, lsl #12             // =8192
	mov	w1, #262144                     // =0x40000
	mov	x2, x22
	add	x0, x0, #48
	mov	x3, x24
	add	x24, sp, #2, lsl #12            // =8192
	mov	w22, #262144                    // =0x40000
	add	x24, x24, #48
	bl	"text::digits::put_decimal"
	lsr	x8, x0, #18
	cbnz	x8, .LBB21_198
// %bb.210:                             // %then.1.i.i.i23.i.i.i.i.i.i.i.i.i
                                        //   in Loop: Header=BB21_199 Depth=1
	add	x22, x0, #1
	mov	w8, #10                         // =0xa
	strb	w8, [x24, x0]
	b	.LBB21_198
.LBB21_211:                             // %"listing::list_read.exit.i.i.i.i.i.i.i.i"
	adrp	x24, .LCPI21_0
	b	.LBB21_94
.LBB21_212:                             // %arm.2.i5.i.i.i.i.i.i.i.i.i
	brk	#0x1
.Lfunc_end21:
	.size	main, .Lfunc_end21-main
                                        // -- End function
	.type	.Lstatic.0,@object              // @static.0
	.section	.rodata..Lstatic.0,"a",@progbits
.Lstatic.0:
	.ascii	"pattern.tsv"
	.size	.Lstatic.0, 11

	.type	.Lstatic.1,@object              // @static.1
	.section	.rodata.cst8,"aM",@progbits,8
.Lstatic.1:
	.ascii	"tape.txt"
	.size	.Lstatic.1, 8

	.type	.Lstatic.2,@object              // @static.2
	.section	.rodata..Lstatic.2,"a",@progbits
.Lstatic.2:
	.ascii	"file name contained an unexpected NUL byte"
	.size	.Lstatic.2, 42

	.type	.Lstatic.6,@object              // @static.6
	.section	.rodata..Lstatic.6,"a",@progbits
.Lstatic.6:
	.ascii	"gave up reading or writing after 2^64 tries"
	.size	.Lstatic.6, 43

	.type	.Lstatic.7,@object              // @static.7
	.section	.rodata..Lstatic.7,"a",@progbits
.Lstatic.7:
	.ascii	": "
	.size	.Lstatic.7, 2

	.type	.Lstatic.8,@object              // @static.8
	.section	.rodata..Lstatic.8,"a",@progbits
.Lstatic.8:
	.byte	10
	.size	.Lstatic.8, 1

	.type	.Lstatic.10,@object             // @static.10
	.section	.rodata.cst4,"aM",@progbits,4
.Lstatic.10:
	.zero	4,32
	.size	.Lstatic.10, 4

	.type	.Lstatic.11,@object             // @static.11
	.section	.rodata..Lstatic.11,"a",@progbits
.Lstatic.11:
	.ascii	" (os error "
	.size	.Lstatic.11, 11

	.type	.Lstatic.12,@object             // @static.12
	.section	.rodata..Lstatic.12,"a",@progbits
.Lstatic.12:
	.byte	41
	.size	.Lstatic.12, 1

	.type	.Lstatic.13,@object             // @static.13
	.section	.rodata..Lstatic.13,"a",@progbits
.Lstatic.13:
	.size	.Lstatic.13, 0

	.type	.Lstatic.16,@object             // @static.16
	.section	.rodata.cst16,"aM",@progbits,16
.Lstatic.16:
	.ascii	"entity not found"
	.size	.Lstatic.16, 16

	.type	.Lstatic.17,@object             // @static.17
	.section	.rodata..Lstatic.17,"a",@progbits
.Lstatic.17:
	.ascii	"permission denied"
	.size	.Lstatic.17, 17

	.type	.Lstatic.18,@object             // @static.18
	.section	.rodata..Lstatic.18,"a",@progbits
.Lstatic.18:
	.ascii	"connection refused"
	.size	.Lstatic.18, 18

	.type	.Lstatic.19,@object             // @static.19
	.section	.rodata.cst16,"aM",@progbits,16
.Lstatic.19:
	.ascii	"connection reset"
	.size	.Lstatic.19, 16

	.type	.Lstatic.20,@object             // @static.20
.Lstatic.20:
	.ascii	"host unreachable"
	.size	.Lstatic.20, 16

	.type	.Lstatic.21,@object             // @static.21
	.section	.rodata..Lstatic.21,"a",@progbits
.Lstatic.21:
	.ascii	"network unreachable"
	.size	.Lstatic.21, 19

	.type	.Lstatic.22,@object             // @static.22
	.section	.rodata..Lstatic.22,"a",@progbits
.Lstatic.22:
	.ascii	"connection aborted"
	.size	.Lstatic.22, 18

	.type	.Lstatic.23,@object             // @static.23
	.section	.rodata..Lstatic.23,"a",@progbits
.Lstatic.23:
	.ascii	"not connected"
	.size	.Lstatic.23, 13

	.type	.Lstatic.24,@object             // @static.24
	.section	.rodata..Lstatic.24,"a",@progbits
.Lstatic.24:
	.ascii	"address in use"
	.size	.Lstatic.24, 14

	.type	.Lstatic.25,@object             // @static.25
	.section	.rodata..Lstatic.25,"a",@progbits
.Lstatic.25:
	.ascii	"address not available"
	.size	.Lstatic.25, 21

	.type	.Lstatic.26,@object             // @static.26
	.section	.rodata..Lstatic.26,"a",@progbits
.Lstatic.26:
	.ascii	"network down"
	.size	.Lstatic.26, 12

	.type	.Lstatic.27,@object             // @static.27
	.section	.rodata..Lstatic.27,"a",@progbits
.Lstatic.27:
	.ascii	"broken pipe"
	.size	.Lstatic.27, 11

	.type	.Lstatic.28,@object             // @static.28
	.section	.rodata..Lstatic.28,"a",@progbits
.Lstatic.28:
	.ascii	"entity already exists"
	.size	.Lstatic.28, 21

	.type	.Lstatic.29,@object             // @static.29
	.section	.rodata..Lstatic.29,"a",@progbits
.Lstatic.29:
	.ascii	"operation would block"
	.size	.Lstatic.29, 21

	.type	.Lstatic.30,@object             // @static.30
	.section	.rodata..Lstatic.30,"a",@progbits
.Lstatic.30:
	.ascii	"not a directory"
	.size	.Lstatic.30, 15

	.type	.Lstatic.31,@object             // @static.31
	.section	.rodata..Lstatic.31,"a",@progbits
.Lstatic.31:
	.ascii	"is a directory"
	.size	.Lstatic.31, 14

	.type	.Lstatic.32,@object             // @static.32
	.section	.rodata..Lstatic.32,"a",@progbits
.Lstatic.32:
	.ascii	"directory not empty"
	.size	.Lstatic.32, 19

	.type	.Lstatic.33,@object             // @static.33
	.section	.rodata..Lstatic.33,"a",@progbits
.Lstatic.33:
	.ascii	"read-only filesystem or storage medium"
	.size	.Lstatic.33, 38

	.type	.Lstatic.34,@object             // @static.34
	.section	.rodata..Lstatic.34,"a",@progbits
.Lstatic.34:
	.ascii	"filesystem loop or indirection limit (e.g. symlink loop)"
	.size	.Lstatic.34, 56

	.type	.Lstatic.35,@object             // @static.35
	.section	.rodata..Lstatic.35,"a",@progbits
.Lstatic.35:
	.ascii	"stale network file handle"
	.size	.Lstatic.35, 25

	.type	.Lstatic.36,@object             // @static.36
	.section	.rodata..Lstatic.36,"a",@progbits
.Lstatic.36:
	.ascii	"invalid input parameter"
	.size	.Lstatic.36, 23

	.type	.Lstatic.37,@object             // @static.37
	.section	.rodata..Lstatic.37,"a",@progbits
.Lstatic.37:
	.ascii	"invalid data"
	.size	.Lstatic.37, 12

	.type	.Lstatic.38,@object             // @static.38
	.section	.rodata..Lstatic.38,"a",@progbits
.Lstatic.38:
	.ascii	"timed out"
	.size	.Lstatic.38, 9

	.type	.Lstatic.39,@object             // @static.39
	.section	.rodata..Lstatic.39,"a",@progbits
.Lstatic.39:
	.ascii	"write zero"
	.size	.Lstatic.39, 10

	.type	.Lstatic.40,@object             // @static.40
	.section	.rodata.cst16,"aM",@progbits,16
.Lstatic.40:
	.ascii	"no storage space"
	.size	.Lstatic.40, 16

	.type	.Lstatic.41,@object             // @static.41
	.section	.rodata..Lstatic.41,"a",@progbits
.Lstatic.41:
	.ascii	"seek on unseekable file"
	.size	.Lstatic.41, 23

	.type	.Lstatic.42,@object             // @static.42
	.section	.rodata..Lstatic.42,"a",@progbits
.Lstatic.42:
	.ascii	"quota exceeded"
	.size	.Lstatic.42, 14

	.type	.Lstatic.43,@object             // @static.43
	.section	.rodata..Lstatic.43,"a",@progbits
.Lstatic.43:
	.ascii	"file too large"
	.size	.Lstatic.43, 14

	.type	.Lstatic.44,@object             // @static.44
	.section	.rodata..Lstatic.44,"a",@progbits
.Lstatic.44:
	.ascii	"resource busy"
	.size	.Lstatic.44, 13

	.type	.Lstatic.45,@object             // @static.45
	.section	.rodata..Lstatic.45,"a",@progbits
.Lstatic.45:
	.ascii	"executable file busy"
	.size	.Lstatic.45, 20

	.type	.Lstatic.46,@object             // @static.46
	.section	.rodata.cst8,"aM",@progbits,8
.Lstatic.46:
	.ascii	"deadlock"
	.size	.Lstatic.46, 8

	.type	.Lstatic.47,@object             // @static.47
	.section	.rodata..Lstatic.47,"a",@progbits
.Lstatic.47:
	.ascii	"cross-device link or rename"
	.size	.Lstatic.47, 27

	.type	.Lstatic.48,@object             // @static.48
	.section	.rodata..Lstatic.48,"a",@progbits
.Lstatic.48:
	.ascii	"too many links"
	.size	.Lstatic.48, 14

	.type	.Lstatic.49,@object             // @static.49
	.section	.rodata.cst16,"aM",@progbits,16
.Lstatic.49:
	.ascii	"invalid filename"
	.size	.Lstatic.49, 16

	.type	.Lstatic.50,@object             // @static.50
	.section	.rodata..Lstatic.50,"a",@progbits
.Lstatic.50:
	.ascii	"argument list too long"
	.size	.Lstatic.50, 22

	.type	.Lstatic.51,@object             // @static.51
	.section	.rodata..Lstatic.51,"a",@progbits
.Lstatic.51:
	.ascii	"operation interrupted"
	.size	.Lstatic.51, 21

	.type	.Lstatic.52,@object             // @static.52
	.section	.rodata..Lstatic.52,"a",@progbits
.Lstatic.52:
	.ascii	"unsupported"
	.size	.Lstatic.52, 11

	.type	.Lstatic.53,@object             // @static.53
	.section	.rodata..Lstatic.53,"a",@progbits
.Lstatic.53:
	.ascii	"unexpected end of file"
	.size	.Lstatic.53, 22

	.type	.Lstatic.54,@object             // @static.54
	.section	.rodata..Lstatic.54,"a",@progbits
.Lstatic.54:
	.ascii	"out of memory"
	.size	.Lstatic.54, 13

	.type	.Lstatic.55,@object             // @static.55
	.section	.rodata..Lstatic.55,"a",@progbits
.Lstatic.55:
	.ascii	"in progress"
	.size	.Lstatic.55, 11

	.type	.Lstatic.56,@object             // @static.56
	.section	.rodata..Lstatic.56,"a",@progbits
.Lstatic.56:
	.ascii	"other error"
	.size	.Lstatic.56, 11

	.type	.Lstatic.57,@object             // @static.57
	.section	.rodata..Lstatic.57,"a",@progbits
.Lstatic.57:
	.ascii	"uncategorized error"
	.size	.Lstatic.57, 19

	.type	.Lstatic.59,@object             // @static.59
	.section	.rodata.cst4,"aM",@progbits,4
.Lstatic.59:
	.ascii	"tape"
	.size	.Lstatic.59, 4

	.type	.Lstatic.60,@object             // @static.60
	.section	.rodata..Lstatic.60,"a",@progbits
.Lstatic.60:
	.ascii	"account"
	.size	.Lstatic.60, 7

	.type	.Lstatic.61,@object             // @static.61
	.section	.rodata.cst4,"aM",@progbits,4
.Lstatic.61:
	.ascii	"open"
	.size	.Lstatic.61, 4

	.type	.Lstatic.63,@object             // @static.63
	.section	.rodata..Lstatic.63,"a",@progbits
.Lstatic.63:
	.ascii	"standard output"
	.size	.Lstatic.63, 15

	.type	.Lstatic.64,@object             // @static.64
	.section	.rodata..Lstatic.64,"a",@progbits
.Lstatic.64:
	.ascii	"located"
	.size	.Lstatic.64, 7

	.ident	"rattle logic=dac8208d650f15bf3e2dc313a14fa4c783a3acf887bdfab66e1714b038d9e11b"
	.section	".note.GNU-stack","",@progbits
