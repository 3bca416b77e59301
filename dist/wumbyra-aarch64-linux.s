	.file	"rattle"
	.section	.rodata.cst8,"aM",@progbits,8
	.p2align	3, 0x0                          // -- Begin function loading::load
.LCPI0_0:
	.word	1                               // 0x1
	.word	0                               // 0x0
	.section	".text.loading::load","ax",@progbits
	.p2align	2
	.type	"loading::load",@function
"loading::load":                        // @"loading::load"
// %bb.0:                               // %start
	stp	x29, x30, [sp, #-96]!           // 16-byte Folded Spill
	stp	x28, x27, [sp, #16]             // 16-byte Folded Spill
	mov	x29, sp
	stp	x26, x25, [sp, #32]             // 16-byte Folded Spill
	stp	x24, x23, [sp, #48]             // 16-byte Folded Spill
	stp	x22, x21, [sp, #64]             // 16-byte Folded Spill
	stp	x20, x19, [sp, #80]             // 16-byte Folded Spill
	sub	sp, sp, #1312
	movi	v0.2d, #0000000000000000
	add	x21, sp, #976
	mov	x19, x0
	add	x23, x21, #8
	str	xzr, [sp]
	str	wzr, [sp, #320]
	stp	q0, q0, [sp]
	stp	q0, q0, [sp, #32]
	stp	q0, q0, [sp, #64]
	stp	q0, q0, [sp, #96]
	stp	q0, q0, [sp, #128]
	stp	q0, q0, [sp, #160]
	stp	q0, q0, [sp, #192]
	stp	q0, q0, [sp, #224]
	stp	q0, q0, [sp, #256]
	stp	q0, q0, [sp, #288]
	stp	q0, q0, [x23, #256]
	stp	q0, q0, [x23, #288]
	stur	q0, [x21, #248]
	stur	q0, [x21, #232]
	stur	q0, [x21, #216]
	stur	q0, [x21, #200]
	stur	q0, [x21, #184]
	stur	q0, [x21, #168]
	stur	q0, [x21, #152]
	stur	q0, [x21, #136]
	stur	q0, [x21, #120]
	stur	q0, [x21, #104]
	stur	q0, [x21, #88]
	stur	q0, [x21, #72]
	stur	q0, [x21, #56]
	stur	q0, [x21, #40]
	stur	q0, [x21, #24]
	stur	q0, [x21, #8]
	cbz	x2, .LBB0_97
// %bb.1:                               // %join.5.lr.ph.i
	mov	x24, xzr
	mov	x22, xzr
.LBB0_2:                                // %join.5.i
                                        // =>This Inner Loop Header: Depth=1
	cmp	x22, #64
	b.eq	.LBB0_95
// %bb.3:                               // %arm.3.i.i.i.i.i
                                        //   in Loop: Header=BB0_2 Depth=1
	sub	x8, x2, x24
	cmp	x8, #1
	b.eq	.LBB0_95
// %bb.4:                               // %arm.3.i.i.i.i.i
                                        //   in Loop: Header=BB0_2 Depth=1
	add	x10, x1, x24
	ldrb	w9, [x10]
	sub	w11, w9, #9
	and	w11, w11, #0xff
	cmp	w11, #2
	b.lo	.LBB0_95
// %bb.5:                               // %arm.3.i.i.i.1.i.i
                                        //   in Loop: Header=BB0_2 Depth=1
	ldrb	w11, [x10, #1]
	sub	w12, w11, #9
	and	w12, w12, #0xff
	cmp	w12, #2
	b.hs	.LBB0_8
// %bb.6:                               // %"fields::place_of.exit.i.i"
                                        //   in Loop: Header=BB0_2 Depth=1
	sub	w9, w9, #48
	cmp	w9, #9
	b.hi	.LBB0_95
// %bb.7:                               //   in Loop: Header=BB0_2 Depth=1
	add	x10, x24, #2
	cmp	w11, #10
	b.ne	.LBB0_14
	b	.LBB0_95
.LBB0_8:                                // %join.9.i.i.i.1.i.i
                                        //   in Loop: Header=BB0_2 Depth=1
	cmp	x8, #2
	b.eq	.LBB0_95
// %bb.9:                               // %arm.3.i.i.i.2.i.i
                                        //   in Loop: Header=BB0_2 Depth=1
	ldrb	w8, [x10, #2]
	sub	w10, w8, #9
	and	w10, w10, #0xff
	cmp	w10, #1
	b.hi	.LBB0_95
// %bb.10:                              // %then.9.i.i.i
                                        //   in Loop: Header=BB0_2 Depth=1
	sub	w9, w9, #48
	cmp	w9, #9
	b.hi	.LBB0_95
// %bb.11:                              // %arm.12.i.i.i
                                        //   in Loop: Header=BB0_2 Depth=1
	sub	w10, w11, #48
	cmp	w10, #9
	b.hi	.LBB0_95
// %bb.12:                              // %arm.17.i.i.i
                                        //   in Loop: Header=BB0_2 Depth=1
	mov	w11, #10                        // =0xa
	madd	w9, w9, w11, w10
	sub	w10, w9, #10
	and	w10, w10, #0xff
	cmp	w10, #54
	b.hs	.LBB0_95
// %bb.13:                              //   in Loop: Header=BB0_2 Depth=1
	add	x10, x24, #3
	cmp	w8, #10
	b.eq	.LBB0_95
.LBB0_14:                               // %arm.5.i.i
                                        //   in Loop: Header=BB0_2 Depth=1
	and	x8, x9, #0xff
	cmp	x22, x8
	b.ne	.LBB0_95
// %bb.15:                              // %else.2.i.i.i
                                        //   in Loop: Header=BB0_2 Depth=1
	subs	x12, x2, x10
	b.eq	.LBB0_95
// %bb.16:                              // %arm.3.i.i.i.i.i.i
                                        //   in Loop: Header=BB0_2 Depth=1
	add	x9, x1, x10
	ldrb	w8, [x9]
	sub	w11, w8, #9
	and	w11, w11, #0xff
	cmp	w11, #2
	b.hs	.LBB0_18
// %bb.17:                              //   in Loop: Header=BB0_2 Depth=1
	mov	w9, wzr
	mov	x12, xzr
	cmp	w8, #10
	b.ne	.LBB0_24
	b	.LBB0_95
.LBB0_18:                               // %join.9.i.i.i.i.i.i
                                        //   in Loop: Header=BB0_2 Depth=1
	cmp	x12, #1
	b.eq	.LBB0_95
// %bb.19:                              // %arm.3.i.i.i.i.1.i.i
                                        //   in Loop: Header=BB0_2 Depth=1
	ldrb	w11, [x9, #1]
	sub	w13, w11, #9
	and	w13, w13, #0xff
	cmp	w13, #2
	b.hs	.LBB0_21
// %bb.20:                              //   in Loop: Header=BB0_2 Depth=1
	mov	w9, #1                          // =0x1
	mov	w12, #1                         // =0x1
	cmp	w11, #10
	b.ne	.LBB0_24
	b	.LBB0_95
.LBB0_21:                               // %join.9.i.i.i.i.1.i.i
                                        //   in Loop: Header=BB0_2 Depth=1
	cmp	x12, #2
	b.eq	.LBB0_95
// %bb.22:                              // %arm.3.i.i.i.i.2.i.i
                                        //   in Loop: Header=BB0_2 Depth=1
	ldrb	w11, [x9, #2]
	sub	w9, w11, #9
	and	w9, w9, #0xff
	cmp	w9, #1
	b.hi	.LBB0_95
// %bb.23:                              //   in Loop: Header=BB0_2 Depth=1
	mov	w9, wzr
	mov	w12, #2                         // =0x2
	cmp	w11, #10
	b.eq	.LBB0_95
.LBB0_24:                               // %else.2.i32.i.i
                                        //   in Loop: Header=BB0_2 Depth=1
	add	x10, x10, x12
	add	x10, x10, #1
	subs	x12, x2, x10
	b.eq	.LBB0_95
// %bb.25:                              // %arm.3.i.i.i.i42.i.i
                                        //   in Loop: Header=BB0_2 Depth=1
	cmp	x12, #1
	b.eq	.LBB0_95
// %bb.26:                              // %arm.3.i.i.i.i42.i.i
                                        //   in Loop: Header=BB0_2 Depth=1
	add	x13, x1, x10
	ldrb	w14, [x13]
	sub	w11, w14, #9
	cmp	w11, #2
	b.lo	.LBB0_95
// %bb.27:                              // %arm.3.i.i.i.i42.1.i.i
                                        //   in Loop: Header=BB0_2 Depth=1
	ldrb	w11, [x13, #1]
	sub	w15, w11, #9
	cmp	w15, #2
	b.hs	.LBB0_30
// %bb.28:                              // %arm.1.i14.thread
                                        //   in Loop: Header=BB0_2 Depth=1
	cmp	w14, #45
	mov	w12, #1                         // =0x1
	b.ne	.LBB0_36
// %bb.29:                              //   in Loop: Header=BB0_2 Depth=1
	mov	x25, xzr
	b	.LBB0_48
.LBB0_30:                               // %join.9.i.i.i.i45.1.i.i
                                        //   in Loop: Header=BB0_2 Depth=1
	cmp	x12, #2
	b.eq	.LBB0_95
// %bb.31:                              // %arm.3.i.i.i.i42.2.i.i
                                        //   in Loop: Header=BB0_2 Depth=1
	ldrb	w11, [x13, #2]
	sub	w15, w11, #9
	cmp	w15, #2
	b.hs	.LBB0_33
// %bb.32:                              //   in Loop: Header=BB0_2 Depth=1
	mov	w12, #2                         // =0x2
	cmp	w14, #45
	b.ne	.LBB0_36
	b	.LBB0_95
.LBB0_33:                               // %join.9.i.i.i.i45.2.i.i
                                        //   in Loop: Header=BB0_2 Depth=1
	cmp	x12, #3
	b.eq	.LBB0_95
// %bb.34:                              // %arm.3.i.i.i.i42.3.i.i
                                        //   in Loop: Header=BB0_2 Depth=1
	ldrb	w11, [x13, #3]
	sub	w12, w11, #9
	cmp	w12, #1
	b.hi	.LBB0_95
// %bb.35:                              //   in Loop: Header=BB0_2 Depth=1
	mov	w12, #3                         // =0x3
	cmp	w14, #45
	b.eq	.LBB0_95
.LBB0_36:                               // %default.9.i
                                        //   in Loop: Header=BB0_2 Depth=1
	sub	w14, w14, #49
	cmp	w14, #9
	b.hs	.LBB0_95
// %bb.37:                              // %arm.1.i.i.i
                                        //   in Loop: Header=BB0_2 Depth=1
	ldrb	w14, [x13]
	sub	w14, w14, #48
	cmp	w14, #9
	b.hi	.LBB0_95
// %bb.38:                              // %arm.9.i.i.i
                                        //   in Loop: Header=BB0_2 Depth=1
	cmp	x12, #1
	b.eq	.LBB0_47
// %bb.39:                              // %join.6.i.i.1
                                        //   in Loop: Header=BB0_2 Depth=1
	ldrb	w16, [x13, #1]
	sub	w15, w16, #48
	cmp	w15, #9
	b.hi	.LBB0_95
// %bb.40:                              // %join.6.i.i.1
                                        //   in Loop: Header=BB0_2 Depth=1
	add	w14, w14, w14, lsl #2
	mov	w17, #47                        // =0x2f
	sub	w16, w17, w16
	lsl	w14, w14, #1
	and	w17, w14, #0xff
	cmp	w17, w16, uxtb
	b.hi	.LBB0_95
// %bb.41:                              // %arm.9.i.i.i.1
                                        //   in Loop: Header=BB0_2 Depth=1
	add	w14, w15, w14
	and	w15, w14, #0xff
	cmp	w15, #200
	b.hi	.LBB0_95
// %bb.42:                              // %loop.3.i.i.1
                                        //   in Loop: Header=BB0_2 Depth=1
	cmp	x12, #2
	b.eq	.LBB0_47
// %bb.43:                              // %join.6.i.i.2
                                        //   in Loop: Header=BB0_2 Depth=1
	and	w15, w14, #0xff
	cmp	w15, #25
	b.hi	.LBB0_95
// %bb.44:                              // %arm.1.i.i.i.2
                                        //   in Loop: Header=BB0_2 Depth=1
	ldrb	w15, [x13, #2]
	sub	w13, w15, #48
	cmp	w13, #9
	b.hi	.LBB0_95
// %bb.45:                              // %arm.1.i.i.i.2
                                        //   in Loop: Header=BB0_2 Depth=1
	add	w14, w14, w14, lsl #2
	mov	w16, #47                        // =0x2f
	sub	w15, w16, w15
	lsl	w14, w14, #1
	and	w16, w14, #0xff
	cmp	w16, w15, uxtb
	b.hi	.LBB0_95
// %bb.46:                              // %arm.1.i.i.i.2
                                        //   in Loop: Header=BB0_2 Depth=1
	add	w14, w13, w14
	and	w13, w14, #0xff
	cmp	w13, #201
	b.hs	.LBB0_95
.LBB0_47:                               // %"fields::account_of.exit.loopexit"
                                        //   in Loop: Header=BB0_2 Depth=1
	and	x25, x14, #0xff
.LBB0_48:                               // %"fields::account_of.exit"
                                        //   in Loop: Header=BB0_2 Depth=1
	cbz	w9, .LBB0_95
// %bb.49:                              // %then.6.i83.i.i
                                        //   in Loop: Header=BB0_2 Depth=1
	add	x9, x10, x12
	cmp	w11, #10
	add	x24, x9, #1
	b.ne	.LBB0_52
// %bb.50:                              // %then.1.i
                                        //   in Loop: Header=BB0_2 Depth=1
	cmp	w8, #69
	b.ne	.LBB0_95
// %bb.51:                              //   in Loop: Header=BB0_2 Depth=1
	mov	x8, xzr
	b	.LBB0_94
.LBB0_52:                               // %join.3.i
                                        //   in Loop: Header=BB0_2 Depth=1
	subs	x11, x2, x24
	b.eq	.LBB0_95
// %bb.53:                              // %arm.3.i.i.i.i
                                        //   in Loop: Header=BB0_2 Depth=1
	add	x9, x1, x24
	ldrb	w10, [x9]
	sub	w12, w10, #9
	and	w12, w12, #0xff
	cmp	w12, #2
	b.hs	.LBB0_61
// %bb.54:                              //   in Loop: Header=BB0_2 Depth=1
	mov	w11, wzr
	mov	x3, xzr
	add	x13, x24, xzr
	cmp	w10, #10
	add	x24, x13, #1
	b.ne	.LBB0_64
.LBB0_55:                               // %then.11.i
                                        //   in Loop: Header=BB0_2 Depth=1
	cmp	w8, #75
	b.eq	.LBB0_78
// %bb.56:                              // %then.11.i
                                        //   in Loop: Header=BB0_2 Depth=1
	cmp	w8, #90
	b.eq	.LBB0_73
// %bb.57:                              // %then.11.i
                                        //   in Loop: Header=BB0_2 Depth=1
	cmp	w8, #76
	b.ne	.LBB0_95
// %bb.58:                              // %arm.1.i19.i
                                        //   in Loop: Header=BB0_2 Depth=1
	cbz	w11, .LBB0_95
// %bb.59:                              // %then.6.i.i.i.i
                                        //   in Loop: Header=BB0_2 Depth=1
	and	w8, w10, #0x7f
	sub	w8, w8, #33
	and	w8, w8, #0xff
	cmp	w8, #94
	b.hs	.LBB0_95
// %bb.60:                              //   in Loop: Header=BB0_2 Depth=1
	mov	w8, #256                        // =0x100
	b	.LBB0_93
.LBB0_61:                               // %join.9.i.i.i.i
                                        //   in Loop: Header=BB0_2 Depth=1
	cmp	x11, #1
	b.eq	.LBB0_95
// %bb.62:                              // %arm.3.i.i.i.1.i
                                        //   in Loop: Header=BB0_2 Depth=1
	ldrb	w12, [x9, #1]
	sub	w13, w12, #9
	and	w13, w13, #0xff
	cmp	w13, #2
	b.hs	.LBB0_67
// %bb.63:                              //   in Loop: Header=BB0_2 Depth=1
	mov	w11, #1                         // =0x1
	mov	w3, #1                          // =0x1
	add	x13, x24, x3
	cmp	w12, #10
	add	x24, x13, #1
	b.eq	.LBB0_55
.LBB0_64:                               // %join.13.i
                                        //   in Loop: Header=BB0_2 Depth=1
	subs	x12, x2, x24
	b.eq	.LBB0_95
// %bb.65:                              // %arm.3.i.i.i49.i
                                        //   in Loop: Header=BB0_2 Depth=1
	add	x11, x1, x24
	ldrb	w10, [x11]
	sub	w13, w10, #9
	cmp	w13, #2
	b.hs	.LBB0_70
// %bb.66:                              //   in Loop: Header=BB0_2 Depth=1
	mov	x20, xzr
	b	.LBB0_86
.LBB0_67:                               // %join.9.i.i.i.1.i
                                        //   in Loop: Header=BB0_2 Depth=1
	cmp	x11, #2
	b.eq	.LBB0_95
// %bb.68:                              // %arm.3.i.i.i.2.i
                                        //   in Loop: Header=BB0_2 Depth=1
	ldrb	w12, [x9, #2]
	sub	w11, w12, #9
	and	w11, w11, #0xff
	cmp	w11, #1
	b.hi	.LBB0_95
// %bb.69:                              //   in Loop: Header=BB0_2 Depth=1
	mov	w11, wzr
	mov	w3, #2                          // =0x2
	add	x13, x24, x3
	cmp	w12, #10
	add	x24, x13, #1
	b.eq	.LBB0_55
	b	.LBB0_64
.LBB0_70:                               // %join.9.i.i.i52.i
                                        //   in Loop: Header=BB0_2 Depth=1
	cmp	x12, #1
	b.eq	.LBB0_95
// %bb.71:                              // %arm.3.i.i.i49.1.i
                                        //   in Loop: Header=BB0_2 Depth=1
	ldrb	w10, [x11, #1]
	sub	w13, w10, #9
	cmp	w13, #2
	b.hs	.LBB0_83
// %bb.72:                              //   in Loop: Header=BB0_2 Depth=1
	mov	w20, #1                         // =0x1
	b	.LBB0_86
.LBB0_73:                               // %arm.3.i.i
                                        //   in Loop: Header=BB0_2 Depth=1
	cmp	x3, #1
	b.eq	.LBB0_89
// %bb.74:                              // %arm.3.i.i
                                        //   in Loop: Header=BB0_2 Depth=1
	cbz	x3, .LBB0_95
// %bb.75:                              // %then.9.i24.i.i
                                        //   in Loop: Header=BB0_2 Depth=1
	sub	w8, w10, #48
	cmp	w8, #9
	b.hi	.LBB0_95
// %bb.76:                              // %arm.12.i27.i.i
                                        //   in Loop: Header=BB0_2 Depth=1
	ldrb	w9, [x9, #1]
	sub	w9, w9, #48
	cmp	w9, #9
	b.hi	.LBB0_95
// %bb.77:                              // %arm.17.i31.i.i
                                        //   in Loop: Header=BB0_2 Depth=1
	mov	w10, #10                        // =0xa
	madd	w10, w8, w10, w9
	sub	w8, w10, #10
	and	w8, w8, #0xff
	cmp	w8, #54
	b.lo	.LBB0_90
	b	.LBB0_95
.LBB0_78:                               // %arm.2.i18.i
                                        //   in Loop: Header=BB0_2 Depth=1
	cmp	x3, #1
	b.eq	.LBB0_91
// %bb.79:                              // %arm.2.i18.i
                                        //   in Loop: Header=BB0_2 Depth=1
	cbz	x3, .LBB0_95
// %bb.80:                              // %then.9.i.i.i7
                                        //   in Loop: Header=BB0_2 Depth=1
	sub	w8, w10, #48
	cmp	w8, #9
	b.hi	.LBB0_95
// %bb.81:                              // %arm.12.i.i.i9
                                        //   in Loop: Header=BB0_2 Depth=1
	ldrb	w9, [x9, #1]
	sub	w9, w9, #48
	cmp	w9, #9
	b.hi	.LBB0_95
// %bb.82:                              // %arm.17.i.i.i11
                                        //   in Loop: Header=BB0_2 Depth=1
	mov	w10, #10                        // =0xa
	madd	w10, w8, w10, w9
	sub	w8, w10, #10
	and	w8, w8, #0xff
	cmp	w8, #54
	b.lo	.LBB0_92
	b	.LBB0_95
.LBB0_83:                               // %join.9.i.i.i52.1.i
                                        //   in Loop: Header=BB0_2 Depth=1
	cmp	x12, #2
	b.eq	.LBB0_95
// %bb.84:                              // %arm.3.i.i.i49.2.i
                                        //   in Loop: Header=BB0_2 Depth=1
	ldrb	w10, [x11, #2]
	sub	w11, w10, #9
	cmp	w11, #1
	b.hi	.LBB0_95
// %bb.85:                              //   in Loop: Header=BB0_2 Depth=1
	mov	w20, #2                         // =0x2
.LBB0_86:                               // %arm.17.i
                                        //   in Loop: Header=BB0_2 Depth=1
	cmp	w10, #10
	b.ne	.LBB0_95
// %bb.87:                              // %then.20.i
                                        //   in Loop: Header=BB0_2 Depth=1
	sub	x0, x29, #8
	add	x4, x1, x24
	mov	x26, x1
	mov	w1, w8
	mov	x27, x2
	mov	x2, x9
	mov	x5, x20
	bl	"scanning::parse_two"
	ldurb	w8, [x29, #-8]
	cmp	w8, #1
	b.ne	.LBB0_95
// %bb.88:                              // %arm.23.i
                                        //   in Loop: Header=BB0_2 Depth=1
	add	x9, x24, x20
	ldur	w8, [x29, #-7]
	mov	x1, x26
	mov	x2, x27
	add	x24, x9, #1
	b	.LBB0_94
.LBB0_89:                               // %"fields::place_of.exit35.i.i"
                                        //   in Loop: Header=BB0_2 Depth=1
	sub	w10, w10, #48
	cmp	w10, #9
	b.hi	.LBB0_95
.LBB0_90:                               //   in Loop: Header=BB0_2 Depth=1
	mov	w8, #259                        // =0x103
	b	.LBB0_93
.LBB0_91:                               // %"fields::place_of.exit.i.i5"
                                        //   in Loop: Header=BB0_2 Depth=1
	sub	w10, w10, #48
	cmp	w10, #10
	b.hs	.LBB0_95
.LBB0_92:                               //   in Loop: Header=BB0_2 Depth=1
	mov	w8, #3                          // =0x3
.LBB0_93:                               // %arm.9.i
                                        //   in Loop: Header=BB0_2 Depth=1
	bfi	x8, x10, #16, #8
.LBB0_94:                               // %arm.9.i
                                        //   in Loop: Header=BB0_2 Depth=1
	lsr	x9, x8, #24
	orr	w8, w25, w8, lsl #8
	cmp	x2, x24
	add	x22, x22, #1
	strb	w9, [x23, #4]
	str	w8, [x23], #5
	b.hi	.LBB0_2
	b	.LBB0_98
.LBB0_95:                               // %arm.2
	movi	v0.2d, #0000000000000000
	adrp	x8, .LCPI0_0
	str	w22, [x19, #8]
	ldr	d1, [x8, :lo12:.LCPI0_0]
	str	wzr, [x19, #332]
	str	d1, [x19]
	stur	q0, [x19, #28]
	stur	q0, [x19, #44]
	stur	q0, [x19, #60]
	stur	q0, [x19, #76]
	stur	q0, [x19, #92]
	stur	q0, [x19, #108]
	stur	q0, [x19, #124]
	stur	q0, [x19, #140]
	stur	q0, [x19, #156]
	stur	q0, [x19, #172]
	stur	q0, [x19, #188]
	stur	q0, [x19, #204]
	stur	q0, [x19, #220]
	stur	q0, [x19, #236]
	stur	q0, [x19, #252]
	str	q0, [x19, #12]!
.LBB0_96:                               // %then.5
	stp	q0, q0, [x19, #256]
	stp	q0, q0, [x19, #288]
	b	.LBB0_102
.LBB0_97:
	mov	x22, xzr
.LBB0_98:                               // %arm.1
	add	x0, sp, #324
	orr	x1, x21, #0x4
	mov	w2, #324                        // =0x144
	str	x22, [sp, #976]
	bl	memcpy
	add	x8, sp, #648
	add	x1, sp, #324
	mov	w2, #324                        // =0x144
	orr	x0, x8, #0x4
	str	w22, [sp, #648]
	bl	memcpy
	ldr	x21, [sp, #648]
	cbz	x21, .LBB0_103
// %bb.99:                              // %join.7
	add	x0, sp, #648
	bl	"syntax::naming::tree_fault_of"
	and	w8, w0, #0xff
	mov	w20, w0
	cmp	w8, #1
	b.eq	.LBB0_101
// %bb.100:                             // %arm.9
	mov	x0, sp
	add	x1, sp, #324
	mov	w2, #324                        // =0x144
	bl	memcpy
	mov	x1, x21
.LBB0_101:                              // %join.10
	and	w8, w20, #0xff
	str	w1, [x19, #8]
	add	x0, x19, #12
	mov	x1, sp
	mov	w2, #324                        // =0x144
	stp	w8, w8, [x19]
	bl	memcpy
.LBB0_102:                              // %then.5
	add	sp, sp, #1312
	ldp	x20, x19, [sp, #80]             // 16-byte Folded Reload
	ldp	x22, x21, [sp, #64]             // 16-byte Folded Reload
	ldp	x24, x23, [sp, #48]             // 16-byte Folded Reload
	ldp	x26, x25, [sp, #32]             // 16-byte Folded Reload
	ldp	x28, x27, [sp, #16]             // 16-byte Folded Reload
	ldp	x29, x30, [sp], #96             // 16-byte Folded Reload
	ret
.LBB0_103:                              // %then.5
	movi	v0.2d, #0000000000000000
	mov	w8, #1                          // =0x1
	str	w8, [x19]
	stur	q0, [x19, #20]
	stur	q0, [x19, #36]
	stur	q0, [x19, #52]
	stur	q0, [x19, #68]
	stur	q0, [x19, #84]
	stur	q0, [x19, #100]
	stur	q0, [x19, #116]
	stur	q0, [x19, #132]
	stur	q0, [x19, #148]
	stur	q0, [x19, #164]
	stur	q0, [x19, #180]
	stur	q0, [x19, #196]
	stur	q0, [x19, #212]
	stur	q0, [x19, #228]
	stur	q0, [x19, #244]
	str	q0, [x19, #320]
	str	q0, [x19, #4]!
	b	.LBB0_96
.Lfunc_end0:
	.size	"loading::load", .Lfunc_end0-"loading::load"
                                        // -- End function
	.section	".text.scanning::parse_two","ax",@progbits
	.p2align	2                               // -- Begin function scanning::parse_two
	.type	"scanning::parse_two",@function
"scanning::parse_two":                  // @"scanning::parse_two"
// %bb.0:                               // %start
	and	w8, w1, #0xff
	cmp	w8, #65
	b.eq	.LBB1_17
// %bb.1:                               // %start
	cmp	w8, #83
	b.eq	.LBB1_10
// %bb.2:                               // %start
	cmp	w8, #82
	b.ne	.LBB1_9
// %bb.3:                               // %arm.1
	cmp	x3, #1
	b.ne	.LBB1_9
// %bb.4:                               // %then.6.i.i.i
	cmp	x5, #1
	mov	w10, wzr
	b.ne	.LBB1_32
// %bb.5:                               // %then.6.i.i.i
	ldrb	w13, [x2]
	mov	w11, w10
	mov	w9, w10
	mov	w12, w10
	and	w8, w13, #0x7f
	sub	w8, w8, #33
	and	w8, w8, #0xff
	cmp	w8, #93
	mov	w8, w10
	b.hi	.LBB1_8
// %bb.6:                               // %then.6.i.i14.i
	ldrb	w12, [x4]
	and	w8, w12, #0x7f
	sub	w8, w8, #33
	and	w8, w8, #0xff
	cmp	w8, #93
	b.hi	.LBB1_9
// %bb.7:                               // %arm.5.i
	cmp	w13, w12
	mov	w8, #2                          // =0x2
	mov	w11, wzr
	cset	w10, ls
	csel	w8, w8, wzr, ls
	csel	w9, w13, wzr, ls
	csel	w12, w12, wzr, ls
.LBB1_8:                                // %join.5
	strb	w10, [x0]
	strb	w11, [x0, #1]
	strb	w8, [x0, #2]
	strb	w9, [x0, #3]
	strb	w12, [x0, #4]
	ret
.LBB1_9:
	strb	wzr, [x0]
	strb	wzr, [x0, #1]
	strb	wzr, [x0, #2]
	strb	wzr, [x0, #3]
	strb	wzr, [x0, #4]
	ret
.LBB1_10:                               // %arm.2
	cbz	x3, .LBB1_41
// %bb.11:                              // %arm.2
	cmp	x3, #1
	b.ne	.LBB1_24
// %bb.12:                              // %"fields::place_of.exit"
	ldrb	w8, [x2]
	sub	w8, w8, #48
	cmp	w8, #9
	b.hi	.LBB1_41
.LBB1_13:                               // %arm.6
	cbz	x5, .LBB1_41
// %bb.14:                              // %arm.6
	cmp	x5, #1
	b.ne	.LBB1_33
// %bb.15:                              // %"fields::place_of.exit28"
	ldrb	w9, [x4]
	sub	w9, w9, #48
	cmp	w9, #10
	b.hs	.LBB1_41
.LBB1_16:
	mov	w10, #1                         // =0x1
	mov	w11, #1                         // =0x1
	strb	w10, [x0]
	strb	w11, [x0, #1]
	strb	w8, [x0, #2]
	strb	w9, [x0, #3]
	strb	wzr, [x0, #4]
	ret
.LBB1_17:                               // %arm.3
	cbz	x3, .LBB1_41
// %bb.18:                              // %arm.3
	cmp	x3, #1
	b.ne	.LBB1_28
// %bb.19:                              // %"fields::place_of.exit57"
	ldrb	w8, [x2]
	sub	w8, w8, #48
	cmp	w8, #9
	b.hi	.LBB1_41
.LBB1_20:                               // %arm.13
	cbz	x5, .LBB1_41
// %bb.21:                              // %arm.13
	cmp	x5, #1
	b.ne	.LBB1_37
// %bb.22:                              // %"fields::place_of.exit86"
	ldrb	w9, [x4]
	sub	w9, w9, #48
	cmp	w9, #10
	b.hs	.LBB1_41
.LBB1_23:
	mov	w11, #2                         // =0x2
	mov	w10, #1                         // =0x1
	strb	w10, [x0]
	strb	w11, [x0, #1]
	strb	w8, [x0, #2]
	strb	w9, [x0, #3]
	strb	wzr, [x0, #4]
	ret
.LBB1_24:                               // %join.8.i
	cmp	x3, #2
	b.hi	.LBB1_41
// %bb.25:                              // %then.9.i
	ldrb	w8, [x2]
	sub	w8, w8, #48
	cmp	w8, #9
	b.hi	.LBB1_41
// %bb.26:                              // %arm.12.i
	ldrb	w9, [x2, #1]
	sub	w9, w9, #48
	cmp	w9, #9
	b.hi	.LBB1_41
// %bb.27:                              // %arm.17.i
	mov	w10, #10                        // =0xa
	madd	w8, w8, w10, w9
	sub	w9, w8, #10
	and	w9, w9, #0xff
	cmp	w9, #54
	b.lo	.LBB1_13
	b	.LBB1_41
.LBB1_28:                               // %join.8.i44
	cmp	x3, #2
	b.hi	.LBB1_41
// %bb.29:                              // %then.9.i46
	ldrb	w8, [x2]
	sub	w8, w8, #48
	cmp	w8, #9
	b.hi	.LBB1_41
// %bb.30:                              // %arm.12.i49
	ldrb	w9, [x2, #1]
	sub	w9, w9, #48
	cmp	w9, #9
	b.hi	.LBB1_41
// %bb.31:                              // %arm.17.i53
	mov	w10, #10                        // =0xa
	madd	w8, w8, w10, w9
	sub	w9, w8, #10
	and	w9, w9, #0xff
	cmp	w9, #54
	b.lo	.LBB1_20
	b	.LBB1_41
.LBB1_32:
	strb	w10, [x0]
	strb	w10, [x0, #1]
	strb	w10, [x0, #2]
	strb	w10, [x0, #3]
	strb	w10, [x0, #4]
	ret
.LBB1_33:                               // %join.8.i15
	cmp	x5, #2
	b.hi	.LBB1_41
// %bb.34:                              // %then.9.i17
	ldrb	w9, [x4]
	sub	w9, w9, #48
	cmp	w9, #9
	b.hi	.LBB1_41
// %bb.35:                              // %arm.12.i20
	ldrb	w10, [x4, #1]
	sub	w10, w10, #48
	cmp	w10, #9
	b.hi	.LBB1_41
// %bb.36:                              // %arm.17.i24
	mov	w11, #10                        // =0xa
	madd	w9, w9, w11, w10
	sub	w10, w9, #10
	and	w10, w10, #0xff
	cmp	w10, #54
	b.lo	.LBB1_16
	b	.LBB1_41
.LBB1_37:                               // %join.8.i73
	cmp	x5, #2
	b.hi	.LBB1_41
// %bb.38:                              // %then.9.i75
	ldrb	w9, [x4]
	sub	w9, w9, #48
	cmp	w9, #9
	b.hi	.LBB1_41
// %bb.39:                              // %arm.12.i78
	ldrb	w10, [x4, #1]
	sub	w10, w10, #48
	cmp	w10, #9
	b.hi	.LBB1_41
// %bb.40:                              // %arm.17.i82
	mov	w11, #10                        // =0xa
	madd	w9, w9, w11, w10
	sub	w10, w9, #10
	and	w10, w10, #0xff
	cmp	w10, #54
	b.lo	.LBB1_23
.LBB1_41:                               // %arm.7
	strb	wzr, [x0, #4]
	str	wzr, [x0]
	ret
.Lfunc_end1:
	.size	"scanning::parse_two", .Lfunc_end1-"scanning::parse_two"
                                        // -- End function
	.section	".text.syntax::naming::tree_fault_of","ax",@progbits
	.p2align	2                               // -- Begin function syntax::naming::tree_fault_of
	.type	"syntax::naming::tree_fault_of",@function
"syntax::naming::tree_fault_of":        // @"syntax::naming::tree_fault_of"
// %bb.0:                               // %start
	stp	x29, x30, [sp, #-48]!           // 16-byte Folded Spill
	stp	x28, x21, [sp, #16]             // 16-byte Folded Spill
	mov	x29, sp
	stp	x20, x19, [sp, #32]             // 16-byte Folded Spill
	sub	sp, sp, #720
	mov	x1, x0
	add	x21, sp, #200
	mov	w2, #320                        // =0x140
	ldr	x19, [x1], #8
	add	x0, x21, #8
	add	x20, sp, #192
	bl	memcpy
	movi	v0.2d, #0000000000000000
	str	x19, [sp, #200]
	str	wzr, [sp, #192]
	stur	wzr, [x20, #3]
	strb	wzr, [sp, #176]
	stp	q0, q0, [sp, #128]
	str	q0, [sp, #160]
	cbz	x19, .LBB2_14
// %bb.1:                               // %join.5.lr.ph.i
	mov	x1, xzr
	mov	x12, xzr
	sub	x8, x29, #136
	sub	x9, x29, #64
	sub	x10, x29, #128
	add	x11, x21, #11
	b	.LBB2_4
.LBB2_2:                                // %"syntax::naming::name_parts.exit.thread21.i"
                                        //   in Loop: Header=BB2_4 Depth=1
	ldr	w13, [sp, #192]
	ldp	q0, q1, [sp, #128]
	ldur	w14, [x20, #3]
	ldr	q2, [sp, #160]
	str	w13, [sp, #120]
	ldrb	w13, [sp, #176]
	stur	w14, [sp, #123]
	stp	q0, q1, [sp, #64]
	str	q2, [sp, #96]
	strb	w13, [sp, #112]
.LBB2_3:                                // %arm.6.i
                                        //   in Loop: Header=BB2_4 Depth=1
	ldp	q0, q1, [sp, #64]
	add	x1, x1, #1
	ldr	w13, [sp, #120]
	ldur	w14, [sp, #123]
	cmp	x19, x1
	add	x11, x11, #5
	str	w13, [sp, #192]
	ldrb	w13, [sp, #112]
	stp	q0, q1, [sp, #128]
	ldr	q0, [sp, #96]
	stur	w14, [x20, #3]
	str	q0, [sp, #160]
	strb	w13, [sp, #176]
	b.eq	.LBB2_15
.LBB2_4:                                // %join.5.i
                                        // =>This Inner Loop Header: Depth=1
	ldurb	w13, [x11, #-2]
	ldrb	w14, [x11]
	sub	w15, w13, #1
	cmp	w15, #2
	b.hs	.LBB2_8
// %bb.5:                               // %after.2.i.i
                                        //   in Loop: Header=BB2_4 Depth=1
	ldp	q0, q1, [sp, #128]
	ldr	w13, [sp, #192]
	stur	x12, [x8, #15]
	ldurb	w12, [x11, #-1]
	ldur	w15, [x20, #3]
	stur	w13, [x29, #-128]
	ldrb	w13, [sp, #176]
	cmp	x1, x12
	stur	q0, [x10, #15]
	ldr	q0, [sp, #160]
	stur	w15, [x8, #11]
	stur	q1, [x10, #31]
	stur	q0, [x10, #47]
	sturb	w13, [x10, #63]
	b.ls	.LBB2_19
// %bb.6:                               // %else.4.i8.i.i
                                        //   in Loop: Header=BB2_4 Depth=1
	sub	x13, x29, #128
	ldrb	w15, [x13, x12]
	tbnz	w15, #0, .LBB2_19
// %bb.7:                               // %arm.9.i.i
                                        //   in Loop: Header=BB2_4 Depth=1
	mov	w15, #1                         // =0x1
	strb	w15, [x13, x12]
	cmp	x1, x14
	ldp	q0, q1, [x29, #-128]
	stp	q0, q1, [x29, #-64]
	ldp	q0, q2, [x29, #-96]
	stp	q0, q2, [x29, #-32]
	b.hi	.LBB2_10
	b	.LBB2_11
.LBB2_8:                                // %join.5.i
                                        //   in Loop: Header=BB2_4 Depth=1
	cmp	w13, #3
	b.ne	.LBB2_2
// %bb.9:                               // %arm.6.i.i
                                        //   in Loop: Header=BB2_4 Depth=1
	ldp	q0, q1, [sp, #128]
	cmp	x1, x14
	ldr	w13, [sp, #192]
	ldur	w15, [x20, #3]
	stur	x12, [x8, #79]
	ldrb	w12, [sp, #176]
	stur	q0, [x9, #15]
	ldr	q0, [sp, #160]
	stur	w13, [x29, #-64]
	stur	w15, [x8, #75]
	stur	q1, [x9, #31]
	stur	q0, [x9, #47]
	sturb	w12, [x9, #63]
	b.ls	.LBB2_11
.LBB2_10:                               // %else.4.i.i.i
                                        //   in Loop: Header=BB2_4 Depth=1
	sub	x12, x29, #64
	ldrb	w13, [x12, x14]
	cmp	w13, #1
	b.ne	.LBB2_12
.LBB2_11:                               // %join.5.i.i.i
                                        //   in Loop: Header=BB2_4 Depth=1
	movi	v0.2d, #0000000000000000
	mov	x12, xzr
	mov	w13, wzr
	stur	wzr, [x8, #3]
	stur	wzr, [x29, #-136]
	sturb	wzr, [x29, #-144]
	stp	q0, q0, [x29, #-192]
	stur	q0, [x29, #-160]
	b	.LBB2_13
.LBB2_12:                               // %after.1.i.i.i
                                        //   in Loop: Header=BB2_4 Depth=1
	mov	w13, #1                         // =0x1
	strb	w13, [x12, x14]
	ldur	w12, [x29, #-64]
	ldur	w14, [x8, #75]
	ldur	q0, [x9, #15]
	ldur	q1, [x9, #31]
	ldur	q2, [x9, #47]
	stur	w12, [x29, #-136]
	ldur	x12, [x8, #79]
	stur	w14, [x8, #3]
	ldurb	w14, [x9, #63]
	stp	q0, q1, [x29, #-192]
	stur	q2, [x29, #-160]
	sturb	w14, [x29, #-144]
.LBB2_13:                               // %"syntax::naming::name_parts.exit.i"
                                        //   in Loop: Header=BB2_4 Depth=1
	ldur	w14, [x29, #-136]
	ldp	q0, q1, [x29, #-192]
	ldur	w15, [x8, #3]
	ldur	q2, [x29, #-160]
	str	w14, [sp, #120]
	ldurb	w14, [x29, #-144]
	stur	w15, [sp, #123]
	stp	q0, q1, [sp, #64]
	str	q2, [sp, #96]
	strb	w14, [sp, #112]
	cbnz	w13, .LBB2_3
	b	.LBB2_19
.LBB2_14:
	mov	x12, xzr
.LBB2_15:                               // %arm.1
	ldp	q0, q1, [sp, #128]
	cmp	x19, #0
	ldr	w9, [sp, #192]
	ldur	w10, [x20, #3]
	mov	x8, xzr
	ldr	q2, [sp, #160]
	stur	x12, [x20, #15]
	str	w9, [sp, #56]
	ldrb	w9, [sp, #176]
	stp	q0, q1, [sp]
	stur	w10, [sp, #59]
	ldp	q0, q1, [sp]
	ldr	w10, [sp, #56]
	strb	w9, [sp, #48]
	ldur	w9, [sp, #59]
	str	q2, [sp, #32]
	stur	q0, [x20, #23]
	ldr	q0, [sp, #32]
	str	w10, [sp, #200]
	ldrb	w10, [sp, #48]
	stur	w9, [x20, #11]
	cset	w9, ne
	sub	x9, x19, x9
	stur	q1, [x20, #39]
	stur	q0, [x20, #55]
	strb	w10, [sp, #263]
.LBB2_16:                               // %loop.2.i
                                        // =>This Inner Loop Header: Depth=1
	cmp	x9, x8
	b.eq	.LBB2_20
// %bb.17:                              // %join.5.i3
                                        //   in Loop: Header=BB2_16 Depth=1
	add	x10, sp, #200
	ldrb	w11, [x10, x8]
	add	x10, x8, #1
	mov	x8, x10
	tbnz	w11, #0, .LBB2_16
// %bb.18:                              // %"join.5.i3.syntax::naming::unnamed_of.exit_crit_edge"
	sub	x1, x10, #1
.LBB2_19:                               // %arm.2
	mov	w0, #1                          // =0x1
	add	sp, sp, #720
	ldp	x20, x19, [sp, #32]             // 16-byte Folded Reload
	ldp	x28, x21, [sp, #16]             // 16-byte Folded Reload
	ldp	x29, x30, [sp], #48             // 16-byte Folded Reload
	ret
.LBB2_20:
	mov	w0, wzr
	mov	x1, xzr
	add	sp, sp, #720
	ldp	x20, x19, [sp, #32]             // 16-byte Folded Reload
	ldp	x28, x21, [sp, #16]             // 16-byte Folded Reload
	ldp	x29, x30, [sp], #48             // 16-byte Folded Reload
	ret
.Lfunc_end2:
	.size	"syntax::naming::tree_fault_of", .Lfunc_end2-"syntax::naming::tree_fault_of"
                                        // -- End function
	.section	.rodata.cst8,"aM",@progbits,8
	.p2align	3, 0x0                          // -- Begin function codes::flatten
.LCPI3_0:
	.word	1                               // 0x1
	.word	8                               // 0x8
.LCPI3_1:
	.word	1                               // 0x1
	.word	2                               // 0x2
.LCPI3_2:
	.word	1                               // 0x1
	.word	7                               // 0x7
	.section	".text.codes::flatten","ax",@progbits
	.p2align	2
	.type	"codes::flatten",@function
"codes::flatten":                       // @"codes::flatten"
// %bb.0:                               // %start
	stp	x29, x30, [sp, #-96]!           // 16-byte Folded Spill
	stp	x28, x27, [sp, #16]             // 16-byte Folded Spill
	mov	x29, sp
	stp	x26, x25, [sp, #32]             // 16-byte Folded Spill
	stp	x24, x23, [sp, #48]             // 16-byte Folded Spill
	stp	x22, x21, [sp, #64]             // 16-byte Folded Spill
	stp	x20, x19, [sp, #80]             // 16-byte Folded Spill
	sub	sp, sp, #3072
	str	xzr, [sp]
	sub	sp, sp, #2592
	mov	x19, x0
	add	x0, sp, #1, lsl #12             // =4096
	mov	x24, x2
	add	x0, x0, #560
	mov	w2, #328                        // =0x148
	str	xzr, [sp]
	mov	x21, x6
	mov	x20, x5
	mov	w22, w4
	mov	x23, x3
	mov	x26, x1
	bl	memcpy
	movi	v0.2d, #0000000000000000
	ldr	x28, [sp, #4656]
	sub	x25, x28, #1
	cmp	x25, #63
	stp	q0, q0, [sp, #32]
	stp	q0, q0, [sp, #64]
	stp	q0, q0, [sp, #96]
	stp	q0, q0, [sp, #128]
	stp	q0, q0, [sp, #160]
	stp	q0, q0, [sp, #192]
	stp	q0, q0, [sp, #224]
	stp	q0, q0, [sp, #256]
	stp	q0, q0, [sp, #288]
	stp	q0, q0, [sp, #320]
	stp	q0, q0, [sp, #352]
	stp	q0, q0, [sp, #384]
	stp	q0, q0, [sp, #416]
	stp	q0, q0, [sp, #448]
	stp	q0, q0, [sp, #480]
	stp	q0, q0, [sp, #512]
	b.hi	.LBB3_12
// %bb.1:                               // %arm.3.i.preheader.i.i
	add	x27, sp, #1, lsl #12            // =4096
	add	x1, x26, #8
	mov	w2, #320                        // =0x140
	add	x27, x27, #1216
	str	x20, [sp, #24]                  // 8-byte Spill
	add	x0, x27, #8
	str	x28, [sp, #5312]
	add	x20, x27, #8
	bl	memcpy
	mov	x8, x28
	b	.LBB3_4
.LBB3_2:                                // %arm.2.i.i.i.i.i.i.i.i
                                        //   in Loop: Header=BB3_4 Depth=1
	and	w9, w9, #0x7f
	sub	w9, w9, #33
	cmp	w9, #94
	b.hs	.LBB3_12
.LBB3_3:                                // %loop.2.backedge.i.i.i
                                        //   in Loop: Header=BB3_4 Depth=1
	sub	x8, x8, #1
	add	x20, x20, #5
	cbz	x8, .LBB3_11
.LBB3_4:                                // %arm.3.i.i.i
                                        // =>This Inner Loop Header: Depth=1
	ldrb	w9, [x20]
	cmp	w9, #200
	b.hi	.LBB3_12
// %bb.5:                               // %then.1.i.i.i.i.i.i
                                        //   in Loop: Header=BB3_4 Depth=1
	ldrb	w9, [x20, #1]
	cbnz	w9, .LBB3_3
// %bb.6:                               // %arm.1.i.i.i.i.i.i.i
                                        //   in Loop: Header=BB3_4 Depth=1
	ldrb	w10, [x20, #2]
	cbz	w10, .LBB3_3
// %bb.7:                               // %arm.1.i.i.i.i.i.i.i
                                        //   in Loop: Header=BB3_4 Depth=1
	ldrb	w9, [x20, #3]
	cmp	w10, #2
	b.ne	.LBB3_2
// %bb.8:                               // %arm.3.i.i.i.i.i.i.i.i
                                        //   in Loop: Header=BB3_4 Depth=1
	ldrb	w10, [x20, #4]
	cmp	w9, w10
	b.hi	.LBB3_12
// %bb.9:                               // %arm.3.i.i.i.i.i.i.i.i
                                        //   in Loop: Header=BB3_4 Depth=1
	and	w9, w9, #0x7f
	sub	w9, w9, #33
	cmp	w9, #93
	b.hi	.LBB3_12
// %bb.10:                              // %arm.3.i.i.i.i.i.i.i.i
                                        //   in Loop: Header=BB3_4 Depth=1
	and	w9, w10, #0x7f
	sub	w9, w9, #33
	cmp	w9, #93
	b.ls	.LBB3_3
	b	.LBB3_12
.LBB3_11:                               // %"syntax::obeys_rules.exit"
	add	x8, sp, #1, lsl #12             // =4096
	add	x1, x26, #8
	mov	w2, #320                        // =0x140
	add	x8, x8, #888
	str	x28, [sp, #4984]
	add	x0, x8, #8
	bl	memcpy
	add	x0, sp, #1, lsl #12             // =4096
	add	x0, x0, #888
	bl	"syntax::naming::tree_fault_of"
	and	w8, w0, #0xff
	cmp	w8, #1
	b.ne	.LBB3_16
.LBB3_12:                               // %then.1
	movi	v0.2s, #1
.LBB3_13:                               // %common.ret
	str	d0, [x19]
.LBB3_14:                               // %common.ret
	str	wzr, [x19, #8]
.LBB3_15:                               // %common.ret
	add	sp, sp, #1, lsl #12             // =4096
	add	sp, sp, #1568
	ldp	x20, x19, [sp, #80]             // 16-byte Folded Reload
	ldp	x22, x21, [sp, #64]             // 16-byte Folded Reload
	ldp	x24, x23, [sp, #48]             // 16-byte Folded Reload
	ldp	x26, x25, [sp, #32]             // 16-byte Folded Reload
	ldp	x28, x27, [sp, #16]             // 16-byte Folded Reload
	ldp	x29, x30, [sp], #96             // 16-byte Folded Reload
	ret
.LBB3_16:                               // %join.3
	add	x1, sp, #1, lsl #12             // =4096
	add	x0, sp, #32
	add	x1, x1, #560
	bl	"table::table_of"
	add	x0, sp, #1, lsl #12             // =4096
	add	x1, sp, #32
	mov	w2, #512                        // =0x200
	add	x0, x0, #48
	bl	memcpy
	add	x0, sp, #544
	mov	w1, wzr
	mov	w2, #3600                       // =0xe10
	bl	memset
	cmp	x23, #16, lsl #12               // =65536
	str	wzr, [sp, #5320]
	str	xzr, [sp, #5312]
	b.hi	.LBB3_24
// %bb.17:                              // %join.3.i.i
	mov	w8, w22
	add	x9, x8, #7
	cmp	x23, x9, lsr #3
	b.ne	.LBB3_24
// %bb.18:                              // %then.4.i.i
	and	w9, w22, #0x7
	cbz	w9, .LBB3_20
// %bb.19:                              // %"bits::handed_good.exit.i"
	lsr	x8, x8, #3
	mov	w10, #8                         // =0x8
	sub	w9, w10, w9
	mov	w10, #-1                        // =0xffffffff
	ldrb	w8, [x24, x8]
	lsl	w9, w10, w9
	bics	wzr, w8, w9
	b.ne	.LBB3_24
.LBB3_20:                               // %join.3.i
	add	x0, sp, #1, lsl #12             // =4096
	add	x1, sp, #1, lsl #12             // =4096
	mov	w3, wzr
	mov	w6, wzr
	sub	x8, x29, #17
	add	x0, x0, #1216
	add	x1, x1, #48
	add	x7, sp, #544
	mov	x2, x25
	mov	x4, x24
	mov	x5, x23
	str	wzr, [sp, #16]
	stp	x8, xzr, [sp]
	bl	"entries::put_entries"
	ldrb	w8, [x27]
	cmp	w8, #1
	b.ne	.LBB3_24
// %bb.21:                              // %join.3.i
	ldur	x8, [x27, #4]
	cmp	w22, w8
	b.ne	.LBB3_24
// %bb.22:                              // %arm.4
	lsr	x22, x8, #32
	cmp	x22, #3600
	b.ls	.LBB3_25
// %bb.23:                              // %then.8
	adrp	x8, .LCPI3_1
	ldr	d0, [x8, :lo12:.LCPI3_1]
	b	.LBB3_13
.LBB3_24:                               // %arm.5
	adrp	x8, .LCPI3_2
	ldr	d0, [x8, :lo12:.LCPI3_2]
	b	.LBB3_13
.LBB3_25:                               // %join.10
	cmp	x21, x22
	b.hs	.LBB3_27
// %bb.26:                              // %then.11
	adrp	x8, .LCPI3_0
	str	w22, [x19, #8]
	ldr	d0, [x8, :lo12:.LCPI3_0]
	str	d0, [x19]
	b	.LBB3_15
.LBB3_27:                               // %join.13
	ldr	x0, [sp, #24]                   // 8-byte Reload
	add	x1, sp, #544
	mov	x2, x22
	bl	memcpy
	stp	wzr, w22, [x19]
	b	.LBB3_14
.Lfunc_end3:
	.size	"codes::flatten", .Lfunc_end3-"codes::flatten"
                                        // -- End function
	.section	".text.table::table_of","ax",@progbits
	.p2align	2                               // -- Begin function table::table_of
	.type	"table::table_of",@function
"table::table_of":                      // @"table::table_of"
// %bb.0:                               // %start
	stp	x29, x30, [sp, #-48]!           // 16-byte Folded Spill
	stp	x28, x21, [sp, #16]             // 16-byte Folded Spill
	mov	x29, sp
	stp	x20, x19, [sp, #32]             // 16-byte Folded Spill
	sub	sp, sp, #848
	add	x21, sp, #520
	mov	x19, x0
	mov	w2, #320                        // =0x140
	ldr	x20, [x1], #8
	add	x0, x21, #8
	bl	memcpy
	movi	v0.2d, #0000000000000000
	str	x20, [sp, #520]
	stp	q0, q0, [sp]
	stp	q0, q0, [sp, #32]
	stp	q0, q0, [sp, #64]
	stp	q0, q0, [sp, #96]
	stp	q0, q0, [sp, #128]
	stp	q0, q0, [sp, #160]
	stp	q0, q0, [sp, #192]
	stp	q0, q0, [sp, #224]
	stp	q0, q0, [sp, #256]
	stp	q0, q0, [sp, #288]
	stp	q0, q0, [sp, #320]
	stp	q0, q0, [sp, #352]
	stp	q0, q0, [sp, #384]
	stp	q0, q0, [sp, #416]
	stp	q0, q0, [sp, #448]
	stp	q0, q0, [sp, #480]
	cbz	x20, .LBB4_21
// %bb.1:                               // %join.5.i.preheader
	add	x8, x21, #12
	mov	x9, sp
	mov	x10, x20
	b	.LBB4_4
.LBB4_2:                                // %join.5.i
                                        //   in Loop: Header=BB4_4 Depth=1
	and	x14, x12, #0x1
	cmp	w13, #2
	mov	w13, #4                         // =0x4
	add	x14, x14, #5
	csel	x12, x12, x11, eq
	csel	x11, x11, xzr, eq
	csel	x13, x13, x14, eq
.LBB4_3:                                // %"table::cell_of.exit.i"
                                        //   in Loop: Header=BB4_4 Depth=1
	orr	x12, x13, x12, lsl #8
	ldurb	w13, [x8, #-4]
	subs	x10, x10, #1
	add	x8, x8, #5
	orr	x11, x12, x11, lsl #16
	orr	x11, x11, x13, lsl #24
	str	x11, [x9], #8
	b.eq	.LBB4_12
.LBB4_4:                                // %join.5.i
                                        // =>This Inner Loop Header: Depth=1
	ldurb	w13, [x8, #-3]
	ldurb	w12, [x8, #-2]
	ldurb	w11, [x8, #-1]
	cmp	w13, #1
	b.gt	.LBB4_2
// %bb.5:                               // %join.5.i
                                        //   in Loop: Header=BB4_4 Depth=1
	cbnz	w13, .LBB4_9
// %bb.6:                               // %arm.1.i.i.i
                                        //   in Loop: Header=BB4_4 Depth=1
	cbz	x12, .LBB4_10
// %bb.7:                               // %arm.1.i.i.i
                                        //   in Loop: Header=BB4_4 Depth=1
	cmp	x12, #2
	b.ne	.LBB4_11
// %bb.8:                               // %arm.9.i.i.i
                                        //   in Loop: Header=BB4_4 Depth=1
	ldrb	w14, [x8]
	mov	x12, x11
	mov	w13, #2                         // =0x2
	mov	x11, x14
	b	.LBB4_3
.LBB4_9:                                //   in Loop: Header=BB4_4 Depth=1
	mov	w13, #3                         // =0x3
	b	.LBB4_3
.LBB4_10:                               //   in Loop: Header=BB4_4 Depth=1
	mov	x13, x12
	mov	x11, x12
	b	.LBB4_3
.LBB4_11:                               // %arm.8.i.i.i
                                        //   in Loop: Header=BB4_4 Depth=1
	mov	w13, #1                         // =0x1
	mov	x12, x11
	mov	x11, xzr
	b	.LBB4_3
.LBB4_12:                               // %"table::put_lines.exit"
	mov	x8, sp
	mov	w10, #64                        // =0x40
	add	x9, x8, x20, lsl #3
	stur	w10, [x9, #-4]
	sub	x9, x20, #1
	b	.LBB4_15
.LBB4_13:                               // %"table::first_part.exit.thread.i"
                                        //   in Loop: Header=BB4_15 Depth=1
	mov	x11, x9
.LBB4_14:                               // %"table::first_follower.exit.i"
                                        //   in Loop: Header=BB4_15 Depth=1
	mov	x12, sp
	sub	x9, x9, #1
	add	x11, x12, x11, lsl #3
	cmn	x9, #1
	str	w10, [x11, #4]
	b.eq	.LBB4_21
.LBB4_15:                               // %join.5.i1
                                        // =>This Inner Loop Header: Depth=1
	ldr	x12, [x8, x9, lsl #3]
	and	w14, w12, #0xff
	lsr	x10, x12, #32
	cmp	w14, #3
	b.lo	.LBB4_13
// %bb.16:                              // %join.5.i1
                                        //   in Loop: Header=BB4_15 Depth=1
	lsr	x13, x12, #16
	ubfx	x11, x12, #8, #8
	b.eq	.LBB4_19
// %bb.17:                              // %join.5.i1
                                        //   in Loop: Header=BB4_15 Depth=1
	cmp	w14, #4
	b.ne	.LBB4_20
// %bb.18:                              // %"table::first_part.exit.thread80.i"
                                        //   in Loop: Header=BB4_15 Depth=1
	ubfiz	x12, x13, #3, #8
	mov	x13, sp
	add	x12, x13, x12
	str	w10, [x12, #4]
	b	.LBB4_14
.LBB4_19:                               // %arm.2.i.i
                                        //   in Loop: Header=BB4_15 Depth=1
	mov	x14, sp
	ubfx	x12, x12, #16, #8
	add	x13, x14, w13, uxtb #3
	str	w10, [x13, #4]
	mov	x10, x12
	b	.LBB4_14
.LBB4_20:                               // %arm.3.i.i
                                        //   in Loop: Header=BB4_15 Depth=1
	lsr	x12, x12, #8
	mov	x13, sp
	ubfiz	x12, x12, #3, #8
	add	x12, x13, x12
	str	w10, [x12, #4]
	add	x10, x9, #256
	b	.LBB4_14
.LBB4_21:                               // %"table::put_followers.exit"
	mov	x1, sp
	mov	x0, x19
	mov	w2, #512                        // =0x200
	bl	memcpy
	add	sp, sp, #848
	ldp	x20, x19, [sp, #32]             // 16-byte Folded Reload
	ldp	x28, x21, [sp, #16]             // 16-byte Folded Reload
	ldp	x29, x30, [sp], #48             // 16-byte Folded Reload
	ret
.Lfunc_end4:
	.size	"table::table_of", .Lfunc_end4-"table::table_of"
                                        // -- End function
	.section	".text.entries::put_entries","ax",@progbits
	.p2align	2                               // -- Begin function entries::put_entries
	.type	"entries::put_entries",@function
"entries::put_entries":                 // @"entries::put_entries"
// %bb.0:                               // %start
	sub	sp, sp, #176
	ldr	x9, [x1, x2, lsl #3]
	stp	x29, x30, [sp, #80]             // 16-byte Folded Spill
	add	x29, sp, #80
	stp	x28, x27, [sp, #96]             // 16-byte Folded Spill
	and	w10, w3, #0xff
	ldr	w8, [x29, #112]
	lsr	x11, x9, #24
	ldp	x27, x28, [x29, #96]
	stp	x26, x25, [sp, #112]            // 16-byte Folded Spill
	ubfx	x25, x9, #8, #8
	ubfx	x26, x9, #16, #8
	tst	w11, #0xff
	stp	x24, x23, [sp, #128]            // 16-byte Folded Spill
	mov	x23, x5
	ccmp	w10, #9, #4, ne
	and	w10, w9, #0xff
	stp	x22, x21, [sp, #144]            // 16-byte Folded Spill
	stp	x20, x19, [sp, #160]            // 16-byte Folded Spill
	mov	x20, x7
	mov	x24, x1
	mov	x22, x4
	csel	w21, w3, w11, eq
	cmp	w10, #2
	stur	wzr, [x29, #-8]
	stur	xzr, [x29, #-16]
	stur	xzr, [x29, #-32]
	stur	wzr, [x29, #-24]
	str	xzr, [sp, #32]
	str	wzr, [sp, #40]
	b.gt	.LBB5_6
// %bb.1:                               // %start
	cbz	w10, .LBB5_22
// %bb.2:                               // %start
	cmp	w10, #1
	b.eq	.LBB5_17
// %bb.3:                               // %start
	cmp	w10, #2
	b.ne	.LBB5_15
// %bb.4:                               // %arm.3.i
	add	w9, w6, #8
	cmp	w9, w23, lsl #3
	b.ls	.LBB5_31
// %bb.5:
	mov	w11, wzr
	mov	x10, xzr
	b	.LBB5_24
.LBB5_6:                                // %start
	cmp	w10, #3
	b.eq	.LBB5_13
// %bb.7:                               // %start
	cmp	w10, #4
	b.eq	.LBB5_25
// %bb.8:                               // %start
	cmp	w10, #5
	mov	w26, wzr
	b.ne	.LBB5_15
// %bb.9:                               // %arm.4
	lsl	w19, w23, #3
	str	x0, [sp, #24]                   // 8-byte Spill
	cmp	w6, w19
	b.hs	.LBB5_16
.LBB5_10:                               // %join.17
                                        // =>This Inner Loop Header: Depth=1
	mov	w9, w6
	mov	w10, #7                         // =0x7
	lsr	x9, x9, #3
	bic	w10, w10, w6
	add	w6, w6, #1
	ldrb	w9, [x22, x9]
	lsr	w9, w9, w10
	and	w9, w9, #0x1
	cmp	w26, w9
	b.ne	.LBB5_42
// %bb.11:                              // %join.20
                                        //   in Loop: Header=BB5_10 Depth=1
	add	x0, sp, #32
	mov	x1, x24
	mov	x2, x25
	mov	w3, w21
	mov	x4, x22
	mov	x5, x23
	mov	x7, x20
	str	w8, [sp, #16]
                                        // kill: def $w6 killed $w6 killed $x6
	stp	x27, x28, [sp]
	bl	"entries::put_entries"
	ldrb	w8, [sp, #32]
	cmp	w8, #1
	b.ne	.LBB5_43
// %bb.12:                              // %arm.21
                                        //   in Loop: Header=BB5_10 Depth=1
	ldp	w6, w8, [sp, #36]
	cmp	w19, w6
	b.hi	.LBB5_10
	b	.LBB5_16
.LBB5_13:                               // %arm.2
	mov	x19, x0
	sub	x0, x29, #32
	mov	x1, x24
	mov	x2, x25
	mov	w3, w21
	mov	x4, x22
	mov	x5, x23
	mov	x7, x20
	str	w8, [sp, #16]
	stp	x27, x28, [sp]
	bl	"entries::put_entries"
	ldurb	w8, [x29, #-32]
	cmp	w8, #1
	b.ne	.LBB5_30
// %bb.14:                              // %arm.7
	ldur	x6, [x29, #-28]
	sub	x0, x29, #16
	mov	x1, x24
	mov	x2, x26
	mov	w3, w21
	mov	x4, x22
	lsr	x8, x6, #32
	mov	x5, x23
	str	x28, [sp, #8]
                                        // kill: def $w6 killed $w6 killed $x6
	str	w8, [sp, #16]
	b	.LBB5_27
.LBB5_15:                               // %default.7.i.i
	mov	w26, #1                         // =0x1
	lsl	w19, w23, #3
	str	x0, [sp, #24]                   // 8-byte Spill
	cmp	w6, w19
	b.lo	.LBB5_10
.LBB5_16:                               // %after.13
	ldr	x0, [sp, #24]                   // 8-byte Reload
	stur	wzr, [x29, #-16]
	b	.LBB5_28
.LBB5_17:                               // %arm.2.i
	cmp	w8, #3599
	b.hi	.LBB5_19
// %bb.18:                              // %then.1.i.i.i
	strb	w25, [x20, x8]
.LBB5_19:                               // %"entries::put_cell.exit.i.i"
	cmp	x28, x8
	b.ls	.LBB5_21
// %bb.20:                              // %then.1.i3.i.i
	strb	w21, [x27, x8]
.LBB5_21:                               // %"entries::put_entry.exit.i"
	add	w9, w8, #1
	cmp	w9, #3601
	mov	w9, #3601                       // =0xe11
	csinc	w8, w9, w8, hs
.LBB5_22:                               // %arm.1.i
	mov	w9, w6
.LBB5_23:                               // %"entries::put_leaf.exit"
	orr	x10, x9, x8, lsl #32
	mov	w11, #1                         // =0x1
.LBB5_24:                               // %"entries::put_leaf.exit"
	stur	w11, [x29, #-16]
	stur	x10, [x29, #-12]
	b	.LBB5_28
.LBB5_25:                               // %arm.3
	cmp	w6, w23, lsl #3
	b.hs	.LBB5_41
// %bb.26:                              // %join.12
	mov	w10, w6
	mov	w11, #7                         // =0x7
	mov	x19, x0
	lsr	x10, x10, #3
	bic	w11, w11, w6
	sub	x0, x29, #16
	add	w6, w6, #1
	mov	x1, x24
	mov	w3, w21
	ldrb	w10, [x22, x10]
	str	w8, [sp, #16]
	mov	x4, x22
	str	x28, [sp, #8]
	mov	x5, x23
	lsr	w10, w10, w11
	lsr	x11, x9, #8
	lsr	x9, x9, #16
	tst	w10, #0x1
	csel	x9, x11, x9, eq
	and	x2, x9, #0xff
.LBB5_27:                               // %join.6
	mov	x7, x20
	str	x27, [sp]
	bl	"entries::put_entries"
	mov	x0, x19
.LBB5_28:                               // %join.6
	ldurb	w8, [x29, #-16]
	ldur	x9, [x29, #-12]
	str	w8, [x0]
	stur	x9, [x0, #4]
.LBB5_29:                               // %common.ret
	ldp	x20, x19, [sp, #160]            // 16-byte Folded Reload
	ldp	x22, x21, [sp, #144]            // 16-byte Folded Reload
	ldp	x24, x23, [sp, #128]            // 16-byte Folded Reload
	ldp	x26, x25, [sp, #112]            // 16-byte Folded Reload
	ldp	x28, x27, [sp, #96]             // 16-byte Folded Reload
	ldp	x29, x30, [sp, #80]             // 16-byte Folded Reload
	add	sp, sp, #176
	ret
.LBB5_30:                               // %arm.8
	str	wzr, [x19]
	stur	xzr, [x19, #4]
	b	.LBB5_29
.LBB5_31:                               // %join.3.i.i
	mov	w10, w6
	add	x11, x22, x10, lsr #3
	ands	w10, w6, #0x7
	ldrb	w12, [x11]
	b.eq	.LBB5_33
// %bb.32:                              // %join.3.i.i.i
	ldrb	w11, [x11, #1]
	orr	w11, w11, w12, lsl #8
	mov	w12, #8                         // =0x8
	sub	w10, w12, w10
	lsr	w10, w11, w10
	and	w12, w10, #0xff
.LBB5_33:                               // %"bits::byte_at.exit.i.i"
	mov	x10, xzr
	cmp	w12, w26
	mov	w11, wzr
	b.hi	.LBB5_24
// %bb.34:                              // %"bits::byte_at.exit.i.i"
	cmp	w12, w25
	b.lo	.LBB5_24
// %bb.35:                              // %"bits::byte_at.exit.i.i"
	and	w13, w12, #0x7f
	sub	w13, w13, #33
	cmp	w13, #93
	b.hi	.LBB5_24
// %bb.36:                              // %join.6.i.i
	cmp	w8, #3599
	b.hi	.LBB5_38
// %bb.37:                              // %then.1.i.i.i.i
	strb	w12, [x20, x8]
.LBB5_38:                               // %"entries::put_cell.exit.i.i.i"
	cmp	x28, x8
	b.ls	.LBB5_40
// %bb.39:                              // %then.1.i3.i.i.i
	strb	w21, [x27, x8]
.LBB5_40:                               // %"entries::put_entry.exit.i.i"
	add	w10, w8, #1
	cmp	w10, #3601
	mov	w10, #3601                      // =0xe11
	csinc	w8, w10, w8, hs
	b	.LBB5_23
.LBB5_41:                               // %then.10
	str	wzr, [x0]
	stur	xzr, [x0, #4]
	b	.LBB5_29
.LBB5_42:                               // %then.18
                                        // kill: def $w8 killed $w8 killed $x8 def $x8
	ldr	x10, [sp, #24]                  // 8-byte Reload
	mov	w9, #1                          // =0x1
	orr	x8, x6, x8, lsl #32
	str	w9, [x10]
	stur	x8, [x10, #4]
	b	.LBB5_29
.LBB5_43:                               // %arm.22
	ldr	x8, [sp, #24]                   // 8-byte Reload
	str	wzr, [x8]
	stur	xzr, [x8, #4]
	b	.LBB5_29
.Lfunc_end5:
	.size	"entries::put_entries", .Lfunc_end5-"entries::put_entries"
                                        // -- End function
	.section	".text.parser::parse","ax",@progbits
	.p2align	2                               // -- Begin function parser::parse
	.type	"parser::parse",@function
"parser::parse":                        // @"parser::parse"
// %bb.0:                               // %start
	stp	x29, x30, [sp, #-96]!           // 16-byte Folded Spill
	stp	x28, x27, [sp, #16]             // 16-byte Folded Spill
	mov	x29, sp
	stp	x26, x25, [sp, #32]             // 16-byte Folded Spill
	stp	x24, x23, [sp, #48]             // 16-byte Folded Spill
	stp	x22, x21, [sp, #64]             // 16-byte Folded Spill
	stp	x20, x19, [sp, #80]             // 16-byte Folded Spill
	sub	sp, sp, #3072
	str	xzr, [sp]
	sub	sp, sp, #1824
	mov	x24, x2
	mov	x19, x0
	add	x0, sp, #40
	mov	w2, #328                        // =0x148
	str	xzr, [sp]
	mov	x20, x7
	mov	x21, x6
	mov	x25, x5
	mov	x23, x4
	mov	x22, x3
	mov	x26, x1
	bl	memcpy
	add	x0, sp, #24
	add	x1, sp, #40
	mov	x2, x24
	mov	x3, x22
	str	xzr, [sp, #24]
	str	wzr, [sp, #32]
	bl	"checks::check_tape"
	ldrb	w8, [sp, #24]
	cbz	w8, .LBB6_2
// %bb.1:                               // %arm.2
	ldrb	w8, [sp, #28]
	ldr	w10, [sp, #32]
	mov	w9, #1                          // =0x1
	stp	w9, w8, [x19]
	str	w10, [x19, #8]
	b	.LBB6_31
.LBB6_2:                                // %arm.1
	add	x0, sp, #1392
	mov	x1, x26
	mov	w2, #328                        // =0x148
	add	x27, sp, #368
	bl	memcpy
	movi	v0.2d, #0000000000000000
	lsl	x8, x22, #1
	add	x8, x8, #2
	cmp	x25, x8
	stp	q0, q0, [x27]
	stp	q0, q0, [x27, #32]
	stp	q0, q0, [x27, #64]
	stp	q0, q0, [x27, #96]
	stp	q0, q0, [x27, #128]
	stp	q0, q0, [x27, #160]
	stp	q0, q0, [x27, #192]
	stp	q0, q0, [x27, #224]
	stp	q0, q0, [x27, #256]
	stp	q0, q0, [x27, #288]
	stp	q0, q0, [x27, #320]
	stp	q0, q0, [x27, #352]
	stp	q0, q0, [x27, #384]
	stp	q0, q0, [x27, #416]
	stp	q0, q0, [x27, #448]
	stp	q0, q0, [x27, #480]
	b.hs	.LBB6_4
// %bb.3:                               // %then.1.i
	mov	w0, #5                          // =0x5
	mov	w28, #1                         // =0x1
	b	.LBB6_30
.LBB6_4:                                // %join.3.i
	add	x0, sp, #368
	add	x1, sp, #1392
	bl	"table::table_of"
	add	x0, sp, #880
	add	x1, sp, #368
	mov	w2, #512                        // =0x200
	bl	memcpy
	movi	v0.2d, #0000000000000000
	ldr	x25, [sp, #1392]
	add	x2, sp, #1, lsl #12             // =4096
	add	x0, sp, #368
	add	x2, x2, #256
	add	x3, sp, #3840
	mov	x1, x25
	str	xzr, [sp, #1776]
	str	xzr, [sp, #1760]
	str	xzr, [sp, #1768]
	str	q0, [x27, #3984]
	str	q0, [x27, #4000]
	str	q0, [x27, #4016]
	str	q0, [x27, #4032]
	str	q0, [x27, #4048]
	str	q0, [x27, #4064]
	str	q0, [x27, #4080]
	str	q0, [x27, #4096]
	str	q0, [x27, #4112]
	str	q0, [x27, #4128]
	str	q0, [x27, #4144]
	str	q0, [x27, #4160]
	str	q0, [x27, #4176]
	str	q0, [x27, #4192]
	str	q0, [x27, #4208]
	str	q0, [x27, #4224]
	str	q0, [x27, #4240]
	str	q0, [x27, #4256]
	str	q0, [x27, #4272]
	str	q0, [x27, #4288]
	str	q0, [x27, #4304]
	str	q0, [x27, #4320]
	str	q0, [x27, #4336]
	str	q0, [x27, #4352]
	str	q0, [x27, #4368]
	str	q0, [x27, #4384]
	str	q0, [x27, #4400]
	str	q0, [x27, #4416]
	str	q0, [x27, #4432]
	str	q0, [x27, #4448]
	str	q0, [x27, #4464]
	str	q0, [x27, #4480]
	str	q0, [x27, #3968]
	str	q0, [x27, #3952]
	str	q0, [x27, #3936]
	str	q0, [x27, #3920]
	str	q0, [x27, #3904]
	str	q0, [x27, #3888]
	str	q0, [x27, #3872]
	str	q0, [x27, #3856]
	str	q0, [x27, #3840]
	str	q0, [x27, #3824]
	str	q0, [x27, #3808]
	str	q0, [x27, #3792]
	str	q0, [x27, #3776]
	str	q0, [x27, #3760]
	str	q0, [x27, #3744]
	str	q0, [x27, #3728]
	str	q0, [x27, #3712]
	str	q0, [x27, #3696]
	str	q0, [x27, #3680]
	str	q0, [x27, #3664]
	str	q0, [x27, #3648]
	str	q0, [x27, #3632]
	str	q0, [x27, #3616]
	str	q0, [x27, #3600]
	str	q0, [x27, #3584]
	str	q0, [x27, #3568]
	str	q0, [x27, #3552]
	str	q0, [x27, #3536]
	str	q0, [x27, #3520]
	str	q0, [x27, #3504]
	str	q0, [x27, #3488]
	str	q0, [x27, #3472]
	bl	"masks::put_masks"
	mov	x26, x0
	add	x0, sp, #1792
	mov	w1, wzr
	mov	w2, #2048                       // =0x800
	add	x27, sp, #1792
	bl	memset
	cbz	x25, .LBB6_24
// %bb.5:                               // %join.5.i.i.i.preheader
	mov	x8, xzr
	add	x9, x27, #16
	b	.LBB6_7
.LBB6_6:                                // %"masks::scatter::put_node.exit.i.i.i"
                                        //   in Loop: Header=BB6_7 Depth=1
	add	x8, x8, #1
	cmp	x8, x25
	b.eq	.LBB6_24
.LBB6_7:                                // %join.5.i.i.i
                                        // =>This Loop Header: Depth=1
                                        //     Child Loop BB6_13 Depth 2
                                        //     Child Loop BB6_16 Depth 2
                                        //     Child Loop BB6_20 Depth 2
                                        //     Child Loop BB6_23 Depth 2
	add	x10, sp, #880
	ldr	x11, [x10, x8, lsl #3]
	and	w10, w11, #0xff
	cmp	w10, #2
	b.eq	.LBB6_10
// %bb.8:                               // %join.5.i.i.i
                                        //   in Loop: Header=BB6_7 Depth=1
	cmp	w10, #1
	b.ne	.LBB6_6
// %bb.9:                               // %arm.2.i.i5.i.i.i
                                        //   in Loop: Header=BB6_7 Depth=1
	lsr	x10, x11, #8
	mov	w11, #1                         // =0x1
	add	x12, sp, #1792
	lsl	x11, x11, x8
	ubfiz	x10, x10, #3, #8
	ldr	x13, [x12, x10]
	orr	x11, x13, x11
	str	x11, [x12, x10]
	b	.LBB6_6
.LBB6_10:                               // %arm.3.i.i4.i.i.i
                                        //   in Loop: Header=BB6_7 Depth=1
	lsr	x13, x11, #16
	ubfx	w15, w11, #8, #8
	mov	w12, #126                       // =0x7e
	mov	w16, #1                         // =0x1
	and	w10, w13, #0xff
	cmp	w10, #126
	csel	w14, w10, w12, lo
	cmp	w15, #161
	mov	w10, #161                       // =0xa1
	csel	w12, w15, w10, hi
	lsl	x10, x16, x8
	cmp	w14, w15
	b.lo	.LBB6_17
// %bb.11:                              // %join.5.preheader.i.i.i.i.i.i.i
                                        //   in Loop: Header=BB6_7 Depth=1
	ubfx	x0, x11, #8, #8
	sub	x15, x14, x0
	add	x16, x15, #1
	mov	x15, x0
	cmp	x16, #4
	b.lo	.LBB6_15
// %bb.12:                              // %vector.ph16
                                        //   in Loop: Header=BB6_7 Depth=1
	dup	v0.2d, x10
	and	x17, x16, #0xfffffffffffffffc
	add	x18, x9, x0, lsl #3
	add	x15, x0, x17
	and	x0, x16, #0xfffffffffffffffc
.LBB6_13:                               // %vector.body21
                                        //   Parent Loop BB6_7 Depth=1
                                        // =>  This Inner Loop Header: Depth=2
	ldp	q1, q2, [x18, #-16]
	subs	x0, x0, #4
	orr	v1.16b, v1.16b, v0.16b
	orr	v2.16b, v2.16b, v0.16b
	stp	q1, q2, [x18, #-16]
	add	x18, x18, #32
	b.ne	.LBB6_13
// %bb.14:                              // %middle.block27
                                        //   in Loop: Header=BB6_7 Depth=1
	cmp	x16, x17
	b.eq	.LBB6_17
.LBB6_15:                               // %join.5.i.i.i.i.i.i.i.preheader
                                        //   in Loop: Header=BB6_7 Depth=1
	add	x16, sp, #1792
	sub	x17, x14, x15
	add	x14, x16, x15, lsl #3
	add	x15, x17, #1
.LBB6_16:                               // %join.5.i.i.i.i.i.i.i
                                        //   Parent Loop BB6_7 Depth=1
                                        // =>  This Inner Loop Header: Depth=2
	ldr	x16, [x14]
	subs	x15, x15, #1
	orr	x16, x16, x10
	str	x16, [x14], #8
	b.ne	.LBB6_16
.LBB6_17:                               // %"masks::scatter::put_between.exit.i.i.i.i.i.i"
                                        //   in Loop: Header=BB6_7 Depth=1
	cmp	w12, w13, uxtb
	b.hi	.LBB6_6
// %bb.18:                              // %join.5.preheader.i4.i.i.i.i.i.i
                                        //   in Loop: Header=BB6_7 Depth=1
	ubfx	x11, x11, #16, #8
	sub	x13, x11, x12
	add	x13, x13, #1
	cmp	x13, #4
	b.lo	.LBB6_22
// %bb.19:                              // %vector.ph
                                        //   in Loop: Header=BB6_7 Depth=1
	dup	v0.2d, x10
	and	x14, x13, #0xfffffffffffffffc
	add	x15, x9, x12, lsl #3
	add	x12, x14, x12
	and	x16, x13, #0xfffffffffffffffc
.LBB6_20:                               // %vector.body
                                        //   Parent Loop BB6_7 Depth=1
                                        // =>  This Inner Loop Header: Depth=2
	ldp	q1, q2, [x15, #-16]
	subs	x16, x16, #4
	orr	v1.16b, v1.16b, v0.16b
	orr	v2.16b, v2.16b, v0.16b
	stp	q1, q2, [x15, #-16]
	add	x15, x15, #32
	b.ne	.LBB6_20
// %bb.21:                              // %middle.block
                                        //   in Loop: Header=BB6_7 Depth=1
	cmp	x13, x14
	b.eq	.LBB6_6
.LBB6_22:                               // %join.5.i6.i.i.i.i.i.i.preheader
                                        //   in Loop: Header=BB6_7 Depth=1
	add	x13, sp, #1792
	sub	x14, x11, x12
	add	x11, x13, x12, lsl #3
	add	x12, x14, #1
.LBB6_23:                               // %join.5.i6.i.i.i.i.i.i
                                        //   Parent Loop BB6_7 Depth=1
                                        // =>  This Inner Loop Header: Depth=2
	ldr	x13, [x11]
	subs	x12, x12, #1
	orr	x13, x13, x10
	str	x13, [x11], #8
	b.ne	.LBB6_23
	b	.LBB6_6
.LBB6_24:                               // %"first_sweep::fill.exit.i"
	add	x8, x23, x22, lsl #4
	mov	w28, #1                         // =0x1
	add	x0, sp, #1720
	add	x3, sp, #1752
	mov	x1, x24
	mov	x2, x22
	stp	xzr, x26, [x8]
	mov	w8, #192                        // =0xc0
	mov	x4, x23
	str	x8, [sp, #1784]
	add	x8, sp, #1, lsl #12             // =4096
	add	x8, x8, #256
	str	x26, [sp, #1752]
	str	x8, [sp, #1720]
	add	x8, sp, #3840
	str	x8, [sp, #1728]
	add	x8, sp, #880
	strb	w28, [sp, #1760]
	str	x22, [sp, #1768]
	strb	wzr, [sp, #1776]
	str	x8, [sp, #1736]
	str	x27, [sp, #1744]
	bl	"first_sweep::sweep"
	ldr	x8, [x23, #8]
	sub	x25, x25, #1
	lsr	x8, x8, x25
	tbz	w8, #0, .LBB6_29
// %bb.25:                              // %join.6.i
	add	x8, x22, x22, lsl #4
	add	x8, x8, #8
	cmp	x8, x20
	b.ls	.LBB6_28
// %bb.26:                              // %"parser::bytes_missing.exit.i.i"
	mov	w5, wzr
	add	x0, sp, #880
	sub	x7, x29, #17
	mov	x1, x23
	mov	x2, x24
	mov	x3, x22
	mov	x4, x25
	mov	w6, #1                          // =0x1
	str	wzr, [sp, #8]
	str	xzr, [sp]
	bl	"second_sweep::sweep"
	mov	w8, w0
	add	x8, x8, #7
	cmp	x20, x8, lsr #3
	b.hs	.LBB6_28
// %bb.27:                              // %arm.1.i.i
	lsr	x8, x8, #3
	mov	w0, #6                          // =0x6
                                        // kill: def $w8 killed $w8 killed $x8 def $x8
	b	.LBB6_30
.LBB6_28:                               // %join.4.i.i
	mov	w5, wzr
	add	x0, sp, #880
	mov	x1, x23
	mov	x2, x24
	mov	x3, x22
	mov	x4, x25
	mov	w6, #1                          // =0x1
	mov	x7, x21
	str	wzr, [sp, #8]
	str	x20, [sp]
	bl	"second_sweep::sweep"
	mov	w28, wzr
	mov	w8, wzr
	b	.LBB6_30
.LBB6_29:
	mov	w8, wzr
	mov	w0, #4                          // =0x4
.LBB6_30:                               // %"parser::read.exit"
	stp	w28, w0, [x19]
	str	w8, [x19, #8]
.LBB6_31:                               // %common.ret
	add	sp, sp, #1, lsl #12             // =4096
	add	sp, sp, #800
	ldp	x20, x19, [sp, #80]             // 16-byte Folded Reload
	ldp	x22, x21, [sp, #64]             // 16-byte Folded Reload
	ldp	x24, x23, [sp, #48]             // 16-byte Folded Reload
	ldp	x26, x25, [sp, #32]             // 16-byte Folded Reload
	ldp	x28, x27, [sp, #16]             // 16-byte Folded Reload
	ldp	x29, x30, [sp], #96             // 16-byte Folded Reload
	ret
.Lfunc_end6:
	.size	"parser::parse", .Lfunc_end6-"parser::parse"
                                        // -- End function
	.section	.rodata.cst8,"aM",@progbits,8
	.p2align	3, 0x0                          // -- Begin function checks::check_tape
.LCPI7_0:
	.word	2                               // 0x2
	.word	0                               // 0x0
.LCPI7_1:
	.word	1                               // 0x1
	.word	0                               // 0x0
	.section	".text.checks::check_tape","ax",@progbits
	.p2align	2
	.type	"checks::check_tape",@function
"checks::check_tape":                   // @"checks::check_tape"
// %bb.0:                               // %start
	stp	x29, x30, [sp, #-80]!           // 16-byte Folded Spill
	str	x28, [sp, #16]                  // 8-byte Spill
	mov	x29, sp
	stp	x24, x23, [sp, #32]             // 16-byte Folded Spill
	stp	x22, x21, [sp, #48]             // 16-byte Folded Spill
	stp	x20, x19, [sp, #64]             // 16-byte Folded Spill
	sub	sp, sp, #656
	ldr	x24, [x1], #8
	mov	x19, x0
	sub	x8, x24, #1
	cmp	x8, #63
	b.hi	.LBB7_12
// %bb.1:                               // %arm.3.i.preheader.i.i
	add	x8, sp, #328
	mov	x22, x2
	mov	w2, #320                        // =0x140
	add	x21, x8, #8
	mov	x23, x3
	str	x24, [sp, #328]
	mov	x0, x21
	mov	x20, x1
	bl	memcpy
	mov	x8, x24
	b	.LBB7_4
.LBB7_2:                                // %arm.2.i.i.i.i.i.i.i.i
                                        //   in Loop: Header=BB7_4 Depth=1
	and	w9, w9, #0x7f
	sub	w9, w9, #33
	cmp	w9, #94
	b.hs	.LBB7_12
.LBB7_3:                                // %loop.2.backedge.i.i.i
                                        //   in Loop: Header=BB7_4 Depth=1
	sub	x8, x8, #1
	add	x21, x21, #5
	cbz	x8, .LBB7_11
.LBB7_4:                                // %arm.3.i.i.i
                                        // =>This Inner Loop Header: Depth=1
	ldrb	w9, [x21]
	cmp	w9, #200
	b.hi	.LBB7_12
// %bb.5:                               // %then.1.i.i.i.i.i.i
                                        //   in Loop: Header=BB7_4 Depth=1
	ldrb	w9, [x21, #1]
	cbnz	w9, .LBB7_3
// %bb.6:                               // %arm.1.i.i.i.i.i.i.i
                                        //   in Loop: Header=BB7_4 Depth=1
	ldrb	w10, [x21, #2]
	cbz	w10, .LBB7_3
// %bb.7:                               // %arm.1.i.i.i.i.i.i.i
                                        //   in Loop: Header=BB7_4 Depth=1
	ldrb	w9, [x21, #3]
	cmp	w10, #2
	b.ne	.LBB7_2
// %bb.8:                               // %arm.3.i.i.i.i.i.i.i.i
                                        //   in Loop: Header=BB7_4 Depth=1
	ldrb	w10, [x21, #4]
	cmp	w9, w10
	b.hi	.LBB7_12
// %bb.9:                               // %arm.3.i.i.i.i.i.i.i.i
                                        //   in Loop: Header=BB7_4 Depth=1
	and	w9, w9, #0x7f
	sub	w9, w9, #33
	cmp	w9, #93
	b.hi	.LBB7_12
// %bb.10:                              // %arm.3.i.i.i.i.i.i.i.i
                                        //   in Loop: Header=BB7_4 Depth=1
	and	w9, w10, #0x7f
	sub	w9, w9, #33
	cmp	w9, #93
	b.ls	.LBB7_3
	b	.LBB7_12
.LBB7_11:                               // %"syntax::obeys_rules.exit"
	mov	x8, sp
	mov	x1, x20
	mov	w2, #320                        // =0x140
	add	x0, x8, #8
	str	x24, [sp]
	bl	memcpy
	mov	x0, sp
	bl	"syntax::naming::tree_fault_of"
	and	w8, w0, #0xff
	cmp	w8, #1
	b.ne	.LBB7_15
.LBB7_12:                               // %then.1
	adrp	x8, .LCPI7_1
	mov	w9, #1                          // =0x1
	ldr	d0, [x8, :lo12:.LCPI7_1]
.LBB7_13:                               // %common.ret
	strb	w9, [x19]
	stur	d0, [x19, #4]
.LBB7_14:                               // %common.ret
	add	sp, sp, #656
	ldp	x20, x19, [sp, #64]             // 16-byte Folded Reload
	ldr	x28, [sp, #16]                  // 8-byte Reload
	ldp	x22, x21, [sp, #48]             // 16-byte Folded Reload
	ldp	x24, x23, [sp, #32]             // 16-byte Folded Reload
	ldp	x29, x30, [sp], #80             // 16-byte Folded Reload
	ret
.LBB7_15:                               // %join.3
	cmp	x23, #3601
	b.lo	.LBB7_17
// %bb.16:                              // %then.4
	adrp	x8, .LCPI7_0
	mov	w9, #1                          // =0x1
	ldr	d0, [x8, :lo12:.LCPI7_0]
	b	.LBB7_13
.LBB7_17:                               // %join.6
	mov	x8, xzr
	cbz	x23, .LBB7_20
.LBB7_18:                               // %arm.3.i.i
                                        // =>This Inner Loop Header: Depth=1
	ldrb	w9, [x22, x8]
	and	w9, w9, #0x7f
	sub	w9, w9, #127
	cmn	w9, #94
	b.lo	.LBB7_20
// %bb.19:                              // %join.9.i.i
                                        //   in Loop: Header=BB7_18 Depth=1
	add	x8, x8, #1
	cmp	x23, x8
	b.ne	.LBB7_18
	b	.LBB7_22
.LBB7_20:                               // %"syntax::first_bad.exit"
	cmp	x8, x23
	b.hs	.LBB7_22
// %bb.21:                              // %then.7
	mov	w9, #1                          // =0x1
	mov	w10, #3                         // =0x3
	strb	w9, [x19]
	stp	w10, w8, [x19, #4]
	b	.LBB7_14
.LBB7_22:                               // %join.9
	strb	wzr, [x19]
	stp	wzr, wzr, [x19, #4]
	b	.LBB7_14
.Lfunc_end7:
	.size	"checks::check_tape", .Lfunc_end7-"checks::check_tape"
                                        // -- End function
	.section	".text.masks::put_masks","ax",@progbits
	.p2align	2                               // -- Begin function masks::put_masks
	.type	"masks::put_masks",@function
"masks::put_masks":                     // @"masks::put_masks"
// %bb.0:                               // %start
	stp	x29, x30, [sp, #-64]!           // 16-byte Folded Spill
	stp	x28, x23, [sp, #16]             // 16-byte Folded Spill
	mov	x29, sp
	stp	x22, x21, [sp, #32]             // 16-byte Folded Spill
	stp	x20, x19, [sp, #48]             // 16-byte Folded Spill
	sub	sp, sp, #2576
	mov	x21, x2
	mov	x19, x1
	mov	x22, x0
	add	x0, sp, #1536
	mov	w1, wzr
	mov	w2, #1024                       // =0x400
	str	xzr, [sp]
	mov	x20, x3
	add	x23, sp, #1536
	bl	memset
	movi	v0.2d, #0000000000000000
	mov	x0, sp
	mov	w1, wzr
	mov	w2, #1536                       // =0x600
	str	q0, [sp, #1536]
	str	q0, [sp, #1552]
	str	q0, [sp, #1568]
	str	q0, [sp, #1584]
	str	q0, [sp, #1600]
	str	q0, [sp, #1616]
	str	q0, [sp, #1632]
	str	q0, [sp, #1648]
	str	q0, [sp, #1664]
	str	q0, [sp, #1680]
	str	q0, [sp, #1696]
	str	q0, [sp, #1712]
	str	q0, [sp, #1728]
	str	q0, [sp, #1744]
	str	q0, [sp, #1760]
	str	q0, [sp, #1776]
	str	q0, [sp, #1792]
	str	q0, [sp, #1808]
	str	q0, [sp, #1824]
	str	q0, [sp, #1840]
	str	q0, [sp, #1856]
	str	q0, [sp, #1872]
	str	q0, [sp, #1888]
	str	q0, [sp, #1904]
	str	q0, [sp, #1920]
	str	q0, [sp, #1936]
	str	q0, [sp, #1952]
	str	q0, [sp, #1968]
	str	q0, [sp, #1984]
	str	q0, [sp, #2000]
	str	q0, [sp, #2016]
	str	q0, [sp, #2032]
	str	q0, [sp, #2048]
	str	q0, [sp, #2064]
	str	q0, [sp, #2080]
	str	q0, [sp, #2096]
	str	q0, [sp, #2112]
	str	q0, [sp, #2128]
	str	q0, [sp, #2144]
	str	q0, [sp, #2160]
	str	q0, [sp, #2176]
	str	q0, [sp, #2192]
	str	q0, [sp, #2208]
	str	q0, [sp, #2224]
	str	q0, [sp, #2240]
	str	q0, [sp, #2256]
	str	q0, [sp, #2272]
	str	q0, [sp, #2288]
	str	q0, [sp, #2304]
	str	q0, [sp, #2320]
	str	q0, [sp, #2336]
	str	q0, [sp, #2352]
	str	q0, [sp, #2368]
	str	q0, [sp, #2384]
	str	q0, [sp, #2400]
	str	q0, [sp, #2416]
	str	q0, [sp, #2432]
	str	q0, [sp, #2448]
	str	q0, [sp, #2464]
	str	q0, [sp, #2480]
	str	q0, [sp, #2496]
	str	q0, [sp, #2512]
	str	q0, [sp, #2528]
	str	q0, [sp, #2544]
	bl	memset
	cbz	x19, .LBB8_51
// %bb.1:                               // %join.5.i.preheader
	mov	x9, xzr
	sub	x8, x29, #16
	add	x10, x23, #9
	b	.LBB8_4
.LBB8_2:                                // %arm.1.i.i.i
                                        //   in Loop: Header=BB8_4 Depth=1
	mov	w11, #1                         // =0x1
	mov	w12, wzr
	lsl	x11, x11, x9
.LBB8_3:                                // %"masks::firsts::line_first.exit.i"
                                        //   in Loop: Header=BB8_4 Depth=1
	add	x9, x9, #1
	stur	x11, [x10, #-9]
	sturb	w12, [x10, #-1]
	cmp	x19, x9
	str	wzr, [x10]
	stur	wzr, [x10, #3]
	add	x10, x10, #16
	b.eq	.LBB8_13
.LBB8_4:                                // %join.5.i
                                        // =>This Inner Loop Header: Depth=1
	ldr	x12, [x22, x9, lsl #3]
	and	w13, w12, #0xff
	lsr	x11, x12, #8
	cmp	w13, #2
	b.gt	.LBB8_8
// %bb.5:                               // %join.5.i
                                        //   in Loop: Header=BB8_4 Depth=1
	sub	w14, w13, #1
	cmp	w14, #2
	b.lo	.LBB8_2
// %bb.6:                               // %join.5.i
                                        //   in Loop: Header=BB8_4 Depth=1
	cbnz	w13, .LBB8_12
// %bb.7:                               //   in Loop: Header=BB8_4 Depth=1
	and	x11, x12, #0xff
	mov	w12, #1                         // =0x1
	b	.LBB8_3
.LBB8_8:                                // %join.5.i
                                        //   in Loop: Header=BB8_4 Depth=1
	lsr	x12, x12, #16
	cmp	w13, #3
	b.eq	.LBB8_11
// %bb.9:                               // %join.5.i
                                        //   in Loop: Header=BB8_4 Depth=1
	cmp	w13, #4
	b.ne	.LBB8_12
// %bb.10:                              // %arm.3.i.i.i
                                        //   in Loop: Header=BB8_4 Depth=1
	ubfiz	x11, x11, #4, #8
	ubfiz	x12, x12, #4, #8
	add	x13, sp, #1536
	add	x11, x13, x11
	add	x12, x13, x12
	ldrb	w13, [x11, #8]
	ldrb	w14, [x12, #8]
	ldr	x11, [x11]
	ldr	x15, [x12]
	orr	w12, w14, w13
	and	w12, w12, #0x1
	orr	x11, x15, x11
	b	.LBB8_3
.LBB8_11:                               // %arm.2.i.i.i
                                        //   in Loop: Header=BB8_4 Depth=1
	ubfiz	x11, x11, #4, #8
	add	x13, sp, #1536
	ubfiz	x12, x12, #4, #8
	add	x11, x13, x11
	add	x12, x13, x12
	ldrb	w14, [x11, #8]
	ldr	x13, [x12]
	ldr	x11, [x11]
	ldrb	w12, [x12, #8]
	ands	w14, w14, #0x1
	csel	x13, x13, xzr, ne
	and	w12, w14, w12
	orr	x11, x13, x11
	b	.LBB8_3
.LBB8_12:                               // %.thread57.i.i
                                        //   in Loop: Header=BB8_4 Depth=1
	ubfiz	x11, x11, #4, #8
	add	x12, sp, #1536
	ldr	x11, [x12, x11]
	mov	w12, #1                         // =0x1
	b	.LBB8_3
.LBB8_13:                               // %"masks::firsts::put_firsts.exit"
	add	x9, x19, x19, lsl #1
	mov	w11, #1                         // =0x1
	lsl	x10, x9, #3
	mov	x9, sp
	add	x9, x9, x10
	sub	x10, x10, #24
	stp	xzr, xzr, [x9, #-24]
	sturb	w11, [x9, #-8]
	stur	wzr, [x9, #-7]
	stur	wzr, [x9, #-4]
	sub	x9, x19, #1
	b	.LBB8_17
.LBB8_14:                               // %"masks::follows::to_first.exit.thread29.i.i"
                                        //   in Loop: Header=BB8_17 Depth=1
	mov	x18, xzr
	orr	x16, x16, x14
	stur	wzr, [x8, #3]
	and	w15, w15, #0x1
	stur	wzr, [x29, #-16]
	mov	x11, x13
.LBB8_15:                               // %after.2.i.i.i
                                        //   in Loop: Header=BB8_17 Depth=1
	add	x11, x11, x11, lsl #1
	lsl	x13, x11, #3
.LBB8_16:                               // %"masks::follows::hand_on.exit.i"
                                        //   in Loop: Header=BB8_17 Depth=1
	mov	x11, sp
	ldur	w12, [x29, #-16]
	sub	x9, x9, #1
	add	x11, x11, x13
	ldur	w13, [x8, #3]
	cmn	x9, #1
	sub	x10, x10, #24
	stp	x18, x16, [x11]
	strb	w15, [x11, #16]
	stur	w12, [x11, #17]
	str	w13, [x11, #20]
	b.eq	.LBB8_36
.LBB8_17:                               // %join.5.i2
                                        // =>This Inner Loop Header: Depth=1
	ldr	x12, [x22, x9, lsl #3]
	and	x11, x12, #0xff
	ubfx	x14, x12, #8, #8
	cmp	x11, #2
	b.gt	.LBB8_20
// %bb.18:                              // %join.5.i2
                                        //   in Loop: Header=BB8_17 Depth=1
	sub	x12, x11, #1
	cmp	x12, #2
	b.hs	.LBB8_24
// %bb.19:                              // %arm.2.i.i.i9
                                        //   in Loop: Header=BB8_17 Depth=1
	mov	x17, xzr
	mov	w12, #1                         // =0x1
	mov	x13, x14
	mov	x14, x9
	b	.LBB8_31
.LBB8_20:                               // %join.5.i2
                                        //   in Loop: Header=BB8_17 Depth=1
	ubfx	x13, x12, #16, #8
	cmp	x11, #3
	b.eq	.LBB8_26
// %bb.21:                              // %join.5.i2
                                        //   in Loop: Header=BB8_17 Depth=1
	cmp	x11, #4
	b.eq	.LBB8_29
// %bb.22:                              // %join.5.i2
                                        //   in Loop: Header=BB8_17 Depth=1
	cmp	x11, #5
	b.ne	.LBB8_27
// %bb.23:                              // %arm.6.i.i.i
                                        //   in Loop: Header=BB8_17 Depth=1
	mov	x11, xzr
	mov	w12, wzr
	mov	w17, #3                         // =0x3
	b	.LBB8_28
.LBB8_24:                               // %join.5.i2
                                        //   in Loop: Header=BB8_17 Depth=1
	cbnz	x11, .LBB8_27
// %bb.25:                              // %join.5.i2._crit_edge
                                        //   in Loop: Header=BB8_17 Depth=1
	mov	w12, #1                         // =0x1
	mov	x13, x11
	mov	x17, x11
	mov	x14, x9
	b	.LBB8_31
.LBB8_26:                               //   in Loop: Header=BB8_17 Depth=1
	mov	w12, wzr
	mov	w17, #1                         // =0x1
	b	.LBB8_30
.LBB8_27:                               // %default.7.i.i.i
                                        //   in Loop: Header=BB8_17 Depth=1
	mov	w12, wzr
	mov	w17, #3                         // =0x3
	mov	w11, #1                         // =0x1
.LBB8_28:                               //   in Loop: Header=BB8_17 Depth=1
	mov	x13, x14
	b	.LBB8_31
.LBB8_29:                               // %arm.5.i.i.i
                                        //   in Loop: Header=BB8_17 Depth=1
	mov	w12, wzr
	mov	w17, #2                         // =0x2
.LBB8_30:                               //   in Loop: Header=BB8_17 Depth=1
	mov	x11, x14
	mov	x14, x13
.LBB8_31:                               //   in Loop: Header=BB8_17 Depth=1
	mov	x15, sp
	mov	w16, #24                        // =0x18
	cmp	x17, #1
	add	x0, x15, x10
	madd	x1, x14, x16, x15
	ldur	w15, [x0, #17]
	ldr	w2, [x0, #20]
	ldp	x18, x16, [x0]
	stur	w15, [x29, #-8]
	ldrb	w15, [x0, #16]
	stur	w2, [x8, #11]
	add	x2, sp, #1536
	add	x0, x2, x14, lsl #4
	ldur	w2, [x29, #-8]
	ldur	w3, [x8, #11]
	stp	x18, x16, [x1]
	ldr	x14, [x0]
	ldrb	w0, [x0, #8]
	strb	w15, [x1, #16]
	stur	w2, [x1, #17]
	str	w3, [x1, #20]
	b.gt	.LBB8_34
// %bb.32:                              //   in Loop: Header=BB8_17 Depth=1
	cbz	x17, .LBB8_35
// %bb.33:                              // %"masks::follows::to_first.exit.thread.i.i"
                                        //   in Loop: Header=BB8_17 Depth=1
	ands	w12, w0, #0x1
	stur	wzr, [x8, #3]
	csel	x13, x18, xzr, ne
	csel	x16, x16, xzr, ne
	and	w15, w12, w15
	orr	x18, x13, x14
	orr	x16, x16, x14
	stur	wzr, [x29, #-16]
	b	.LBB8_15
.LBB8_34:                               //   in Loop: Header=BB8_17 Depth=1
	cmp	x17, #2
	b.ne	.LBB8_14
.LBB8_35:                               // %"masks::follows::to_first.exit.i.i"
                                        //   in Loop: Header=BB8_17 Depth=1
	ldur	w13, [x29, #-8]
	ldur	w14, [x8, #11]
	stur	w13, [x29, #-16]
	mov	x13, x10
	stur	w14, [x8, #3]
	tbz	w12, #0, .LBB8_15
	b	.LBB8_16
.LBB8_36:                               // %join.5.i10.preheader
	mov	x8, xzr
	b	.LBB8_38
.LBB8_37:                               // %"masks::scatter::put_row.exit.i"
                                        //   in Loop: Header=BB8_38 Depth=1
	add	x8, x8, #1
	cmp	x8, x19
	b.eq	.LBB8_41
.LBB8_38:                               // %join.5.i10
                                        // =>This Loop Header: Depth=1
                                        //     Child Loop BB8_40 Depth 2
	mov	w9, #24                         // =0x18
	add	x10, sp, #1536
	mov	x12, sp
	mul	x9, x8, x9
	add	x10, x10, x8, lsl #4
	ldrb	w11, [x10, #8]
	ldr	x10, [x10]
	tst	w11, #0x1
	ldr	x9, [x12, x9]
	csel	x9, x9, xzr, ne
	orr	x9, x9, x10
	cbz	x9, .LBB8_37
// %bb.39:                              // %arm.3.i.i.preheader
                                        //   in Loop: Header=BB8_38 Depth=1
	mov	w10, #1                         // =0x1
	lsl	x10, x10, x8
.LBB8_40:                               // %arm.3.i.i
                                        //   Parent Loop BB8_38 Depth=1
                                        // =>  This Inner Loop Header: Depth=2
	rbit	x11, x9
	sub	x12, x9, #1
	ands	x9, x12, x9
	clz	x11, x11
	ldr	x13, [x21, x11, lsl #3]
	orr	x12, x13, x10
	str	x12, [x21, x11, lsl #3]
	b.ne	.LBB8_40
	b	.LBB8_37
.LBB8_41:                               // %join.5.us.i.preheader
	mov	x8, xzr
	b	.LBB8_43
.LBB8_42:                               // %"masks::scatter::put_row.exit.us.i"
                                        //   in Loop: Header=BB8_43 Depth=1
	add	x8, x8, #1
	cmp	x8, x19
	b.eq	.LBB8_46
.LBB8_43:                               // %join.5.us.i
                                        // =>This Loop Header: Depth=1
                                        //     Child Loop BB8_45 Depth 2
	mov	w9, #24                         // =0x18
	mov	x10, sp
	madd	x9, x8, x9, x10
	add	x10, sp, #1536
	add	x10, x10, x8, lsl #4
	ldrb	w11, [x10, #8]
	ldr	x10, [x10]
	ldr	x9, [x9, #8]
	tst	w11, #0x1
	csel	x9, x9, xzr, ne
	orr	x9, x9, x10
	cbz	x9, .LBB8_42
// %bb.44:                              // %arm.3.i.us.i.preheader
                                        //   in Loop: Header=BB8_43 Depth=1
	mov	w10, #1                         // =0x1
	lsl	x10, x10, x8
.LBB8_45:                               // %arm.3.i.us.i
                                        //   Parent Loop BB8_43 Depth=1
                                        // =>  This Inner Loop Header: Depth=2
	rbit	x11, x9
	sub	x12, x9, #1
	ands	x9, x12, x9
	clz	x11, x11
	ldr	x13, [x20, x11, lsl #3]
	orr	x12, x13, x10
	str	x12, [x20, x11, lsl #3]
	b.ne	.LBB8_45
	b	.LBB8_42
.LBB8_46:                               // %join.5.i20.preheader
	mov	x9, sp
	add	x10, sp, #1536
	mov	x0, xzr
	mov	x8, xzr
	add	x9, x9, #16
	add	x10, x10, #8
	b	.LBB8_48
.LBB8_47:                               // %then.6.i
                                        //   in Loop: Header=BB8_48 Depth=1
	ldrb	w11, [x9], #24
	lsl	x11, x11, x8
	add	x8, x8, #1
	cmp	x19, x8
	add	x0, x11, x0
	b.eq	.LBB8_50
.LBB8_48:                               // %join.5.i20
                                        // =>This Inner Loop Header: Depth=1
	ldrb	w11, [x10], #16
	cmp	w11, #1
	b.eq	.LBB8_47
// %bb.49:                              //   in Loop: Header=BB8_48 Depth=1
	lsl	x11, xzr, x8
	add	x8, x8, #1
	add	x9, x9, #24
	cmp	x19, x8
	add	x0, x11, x0
	b.ne	.LBB8_48
.LBB8_50:                               // %"masks::scatter::ends_of.exit"
	add	sp, sp, #2576
	ldp	x20, x19, [sp, #48]             // 16-byte Folded Reload
	ldp	x22, x21, [sp, #32]             // 16-byte Folded Reload
	ldp	x28, x23, [sp, #16]             // 16-byte Folded Reload
	ldp	x29, x30, [sp], #64             // 16-byte Folded Reload
	ret
.LBB8_51:
	mov	x0, xzr
	add	sp, sp, #2576
	ldp	x20, x19, [sp, #48]             // 16-byte Folded Reload
	ldp	x22, x21, [sp, #32]             // 16-byte Folded Reload
	ldp	x28, x23, [sp, #16]             // 16-byte Folded Reload
	ldp	x29, x30, [sp], #64             // 16-byte Folded Reload
	ret
.Lfunc_end8:
	.size	"masks::put_masks", .Lfunc_end8-"masks::put_masks"
                                        // -- End function
	.section	".text.first_sweep::sweep","ax",@progbits
	.p2align	2                               // -- Begin function first_sweep::sweep
	.type	"first_sweep::sweep",@function
"first_sweep::sweep":                   // @"first_sweep::sweep"
// %bb.0:                               // %start
	stp	x29, x30, [sp, #-96]!           // 16-byte Folded Spill
	stp	x28, x27, [sp, #16]             // 16-byte Folded Spill
	mov	x29, sp
	stp	x26, x25, [sp, #32]             // 16-byte Folded Spill
	stp	x24, x23, [sp, #48]             // 16-byte Folded Spill
	stp	x22, x21, [sp, #64]             // 16-byte Folded Spill
	stp	x20, x19, [sp, #80]             // 16-byte Folded Spill
	sub	sp, sp, #3072
	str	xzr, [sp]
	sub	sp, sp, #688
	ldrb	w8, [x3, #8]
	ldp	x22, x23, [x0]
	ldp	x24, x25, [x0, #16]
	mov	x20, x2
	str	x8, [sp, #8]                    // 8-byte Spill
	mov	x21, x1
	add	x0, sp, #24
	ldr	x8, [x3, #32]
	ldr	x28, [x3]
	mov	w1, wzr
	ldr	x26, [x3, #16]
	ldrb	w27, [x3, #24]
	mov	w2, #648                        // =0x288
	mov	x19, x4
	str	x8, [sp, #16]                   // 8-byte Spill
	bl	memset
	ldr	x8, [sp, #16]                   // 8-byte Reload
	mov	w1, wzr
	mov	w2, #3072                       // =0xc00
	str	x8, [sp, #672]
	add	x8, sp, #24
	add	x0, x8, #656
	bl	memset
	add	x9, sp, #24
	add	x1, x9, #656
	cbz	x20, .LBB9_26
// %bb.1:                               // %join.5.lr.ph
	ldr	x8, [sp, #8]                    // 8-byte Reload
	mov	w10, wzr
	mov	x13, xzr
	and	x16, x8, #0x1
	add	x8, x9, #1168
	add	x9, x9, #8
	b	.LBB9_6
.LBB9_2:                                // %"steps::memory::Memo::known.exit"
                                        //   in Loop: Header=BB9_6 Depth=1
	mov	w12, #40                        // =0x28
	umaddl	x11, w11, w12, x8
	ldrb	w11, [x11, x13]
	cbz	x11, .LBB9_8
// %bb.3:                               // %arm.6
                                        //   in Loop: Header=BB9_6 Depth=1
	sub	x15, x11, #1
	add	x10, sp, #24
	add	x10, x10, x15, lsl #4
	ldp	x12, x11, [x10]
.LBB9_4:                                // %join.9
                                        //   in Loop: Header=BB9_6 Depth=1
	mov	w10, #1                         // =0x1
.LBB9_5:                                // %join.9
                                        //   in Loop: Header=BB9_6 Depth=1
	sub	x13, x26, x20
	tst	w27, #0x1
	mov	x16, xzr
	csel	x13, x13, x20, ne
	mov	x28, x11
	add	x13, x19, x13, lsl #4
	stp	x12, x11, [x13]
	mov	x13, x15
	cbz	x20, .LBB9_26
.LBB9_6:                                // %join.5
                                        // =>This Loop Header: Depth=1
                                        //     Child Loop BB9_10 Depth 2
                                        //     Child Loop BB9_15 Depth 2
	sub	x20, x20, #1
	ldrb	w11, [x21, x20]
	ldr	x14, [x25, x11, lsl #3]
	tbz	w10, #0, .LBB9_8
// %bb.7:                               // %arm.1.i
                                        //   in Loop: Header=BB9_6 Depth=1
	rbit	x11, x14
	clz	x11, x11
	and	x11, x11, #0x3f
	ldr	x12, [x1, x11, lsl #3]
	cmp	x12, x14
	b.eq	.LBB9_2
.LBB9_8:                                // %arm.7
                                        //   in Loop: Header=BB9_6 Depth=1
	cbz	x14, .LBB9_18
// %bb.9:                               // %arm.3.i.preheader
                                        //   in Loop: Header=BB9_6 Depth=1
	mov	x12, xzr
	mov	x11, xzr
	mov	x15, x14
.LBB9_10:                               // %arm.3.i
                                        //   Parent Loop BB9_6 Depth=1
                                        // =>  This Inner Loop Header: Depth=2
	rbit	x17, x15
	clz	x17, x17
	ldr	x18, [x24, x17, lsl #3]
	lsr	x0, x18, #32
	tst	x18, #0xc000000000
	ldr	x18, [x22, x17, lsl #3]
	ldr	x17, [x23, x17, lsl #3]
	lsr	x0, x28, x0
	and	x0, x0, #0x1
	csel	x0, x0, x16, eq
	mul	x18, x0, x18
	mul	x17, x0, x17
	sub	x0, x15, #1
	and	x15, x0, x15
	orr	x12, x18, x12
	orr	x11, x17, x11
	cbnz	x15, .LBB9_10
// %bb.11:                              // %"steps::step.exit"
                                        //   in Loop: Header=BB9_6 Depth=1
	ldr	x15, [sp, #672]
	cbz	x15, .LBB9_19
.LBB9_12:                               // %join.3.i
                                        //   in Loop: Header=BB9_6 Depth=1
	ldr	x16, [sp, #664]
	sub	x15, x15, #1
	str	x15, [sp, #672]
	cbz	x16, .LBB9_22
// %bb.13:                              // %arm.3.i.i.i.i.preheader
                                        //   in Loop: Header=BB9_6 Depth=1
	mov	x15, xzr
	mov	x17, x9
	b	.LBB9_15
.LBB9_14:                               // %join.9.i.i.i.i
                                        //   in Loop: Header=BB9_15 Depth=2
	add	x15, x15, #1
	add	x17, x17, #16
	cmp	x16, x15
	b.eq	.LBB9_20
.LBB9_15:                               // %arm.3.i.i.i.i
                                        //   Parent Loop BB9_6 Depth=1
                                        // =>  This Inner Loop Header: Depth=2
	ldur	x18, [x17, #-8]
	cmp	x18, x12
	b.ne	.LBB9_14
// %bb.16:                              // %"steps::memory::fn::find::position+FnMut::call_mut.exit.i.i.i.i"
                                        //   in Loop: Header=BB9_15 Depth=2
	ldr	x18, [x17]
	cmp	x18, x11
	b.ne	.LBB9_14
// %bb.17:                              // %arm.5.i
                                        //   in Loop: Header=BB9_6 Depth=1
	tbz	w10, #0, .LBB9_4
	b	.LBB9_23
.LBB9_18:                               //   in Loop: Header=BB9_6 Depth=1
	mov	x11, xzr
	mov	x12, xzr
	ldr	x15, [sp, #672]
	cbnz	x15, .LBB9_12
.LBB9_19:                               //   in Loop: Header=BB9_6 Depth=1
	mov	w10, wzr
	b	.LBB9_5
.LBB9_20:                               // %join.4.i.i
                                        //   in Loop: Header=BB9_6 Depth=1
	cmp	x16, #40
	b.ne	.LBB9_22
// %bb.21:                              // %arm.6.i
                                        //   in Loop: Header=BB9_6 Depth=1
	mov	x15, xzr
	mov	w10, wzr
	str	xzr, [sp, #672]
	b	.LBB9_5
.LBB9_22:                               // %join.8.i.i
                                        //   in Loop: Header=BB9_6 Depth=1
	add	x15, sp, #24
	add	x17, x16, #1
	add	x15, x15, x16, lsl #4
	stp	x12, x11, [x15]
	mov	x15, x16
	str	x17, [sp, #664]
	tbz	w10, #0, .LBB9_4
.LBB9_23:                               // %arm.9.i
                                        //   in Loop: Header=BB9_6 Depth=1
	rbit	x10, x14
	clz	x10, x10
	and	x16, x10, #0x3f
	ldr	x10, [x1, x16, lsl #3]
	cmp	x10, #0
	cset	w17, eq
	csel	x18, x14, x10, eq
	cmp	x10, x14
	csinc	w17, w17, wzr, ne
	mov	w10, #1                         // =0x1
	str	x18, [x1, x16, lsl #3]
	cbz	x14, .LBB9_5
// %bb.24:                              // %arm.9.i
                                        //   in Loop: Header=BB9_6 Depth=1
	cbz	w17, .LBB9_5
// %bb.25:                              // %then.1.i.i
                                        //   in Loop: Header=BB9_6 Depth=1
	mov	w10, #40                        // =0x28
	add	w14, w15, #1
	umaddl	x10, w16, w10, x8
	strb	w14, [x10, x13]
	b	.LBB9_4
.LBB9_26:                               // %after.1
	add	sp, sp, #3760
	ldp	x20, x19, [sp, #80]             // 16-byte Folded Reload
	ldp	x22, x21, [sp, #64]             // 16-byte Folded Reload
	ldp	x24, x23, [sp, #48]             // 16-byte Folded Reload
	ldp	x26, x25, [sp, #32]             // 16-byte Folded Reload
	ldp	x28, x27, [sp, #16]             // 16-byte Folded Reload
	ldp	x29, x30, [sp], #96             // 16-byte Folded Reload
	ret
.Lfunc_end9:
	.size	"first_sweep::sweep", .Lfunc_end9-"first_sweep::sweep"
                                        // -- End function
	.section	".text.second_sweep::sweep","ax",@progbits
	.p2align	2                               // -- Begin function second_sweep::sweep
	.type	"second_sweep::sweep",@function
"second_sweep::sweep":                  // @"second_sweep::sweep"
// %bb.0:                               // %start
	sub	sp, sp, #112
	stp	x29, x30, [sp, #16]             // 16-byte Folded Spill
	add	x29, sp, #16
	ldr	w8, [x29, #104]
	stp	x28, x27, [sp, #32]             // 16-byte Folded Spill
	ldr	x27, [x29, #96]
	stp	x26, x25, [sp, #48]             // 16-byte Folded Spill
	mov	w26, w6
	mov	x25, x4
	stp	x24, x23, [sp, #64]             // 16-byte Folded Spill
	mov	x23, x1
	mov	x24, x0
	stp	x22, x21, [sp, #80]             // 16-byte Folded Spill
	mov	x22, x3
	mov	x21, x2
	stp	x20, x19, [sp, #96]             // 16-byte Folded Spill
	mov	x19, x7
	mov	w20, w5
	mov	w0, w8
.LBB10_1:                               // %tailrecurse
                                        // =>This Inner Loop Header: Depth=1
	ldr	x8, [x24, x25, lsl #3]
	and	w10, w8, #0xff
	cmp	w10, #2
	b.le	.LBB10_8
// %bb.2:                               // %tailrecurse
                                        //   in Loop: Header=BB10_1 Depth=1
	lsr	x28, x8, #16
	cmp	w10, #3
	b.eq	.LBB10_7
// %bb.3:                               // %tailrecurse
                                        //   in Loop: Header=BB10_1 Depth=1
	lsr	x9, x8, #8
	cmp	w10, #4
	b.ne	.LBB10_17
// %bb.4:                               // %arm.3
                                        //   in Loop: Header=BB10_1 Depth=1
	tst	w26, #0x1
	mov	w8, #8                          // =0x8
	add	x11, x23, w20, uxth #4
	mov	w10, w0
	csel	x12, x8, xzr, ne
	mov	w13, #1                         // =0x1
	lsr	x10, x10, #3
	ldr	x11, [x11, x12]
	lsl	x12, x13, x9
	cmp	x27, x10
	and	x11, x11, x12
	b.ls	.LBB10_6
// %bb.5:                               // %then.1.i.i31
                                        //   in Loop: Header=BB10_1 Depth=1
	and	w12, w0, #0x7
	ldrb	w13, [x19, x10]
	cmp	x11, #0
	sub	w8, w8, w12
	cset	w14, eq
	eor	w12, w12, #0x7
	lsr	w13, w13, w8
	lsl	w12, w14, w12
	lsl	w8, w13, w8
	orr	w8, w8, w12
	strb	w8, [x19, x10]
.LBB10_6:                               // %"second_sweep::choose.exit"
                                        //   in Loop: Header=BB10_1 Depth=1
	cmp	x11, #0
	add	w0, w0, #1
	csel	x28, x28, x9, eq
	and	x25, x28, #0xff
	b	.LBB10_1
.LBB10_7:                               // %arm.2
                                        //   in Loop: Header=BB10_1 Depth=1
	ubfx	x4, x8, #8, #8
	str	w0, [sp, #8]
	and	w6, w26, #0x1
	mov	x0, x24
	mov	x1, x23
	mov	x2, x21
	mov	x3, x22
	mov	w5, w20
	mov	x7, x19
	str	x27, [sp]
	bl	"second_sweep::sweep"
	and	w8, w20, #0xffff
	mov	w20, w1
	and	x25, x28, #0xff
	cmp	w8, w1, uxth
	cset	w8, lo
	orr	w26, w26, w8
	b	.LBB10_1
.LBB10_8:                               // %tailrecurse
	cbz	w10, .LBB10_39
// %bb.9:                               // %tailrecurse
	cmp	w10, #1
	b.eq	.LBB10_14
// %bb.10:                              // %tailrecurse
	cmp	w10, #2
	b.ne	.LBB10_23
// %bb.11:                              // %arm.3.i
	mov	w8, w0
	add	x8, x8, #7
	cmp	x27, x8, lsr #3
	add	w8, w20, #1
	b.ls	.LBB10_16
// %bb.12:                              // %then.1.i.i
                                        // kill: def $w20 killed $w20 killed $x20 def $x20
	and	x9, x20, #0xffff
	lsr	w12, w0, #3
	ands	w11, w0, #0x7
	ldrb	w10, [x21, x9]
	add	x9, x19, x12
	b.eq	.LBB10_15
// %bb.13:                              // %join.3.i.i.i
	ldrb	w12, [x9]
	mov	w13, #8                         // =0x8
	sub	w13, w13, w11
	lsr	w11, w10, w11
	lsr	w12, w12, w13
	lsl	w10, w10, w13
	lsl	w12, w12, w13
	strb	w10, [x9, #1]
	orr	w11, w12, w11
	strb	w11, [x9]
	b	.LBB10_16
.LBB10_14:                              // %arm.2.i
	add	w20, w20, #1
	b	.LBB10_39
.LBB10_15:                              // %then.1.i.i.i
	strb	w10, [x9]
.LBB10_16:                              // %"second_sweep::put_letter.exit.i"
	add	w0, w0, #8
	mov	w20, w8
	b	.LBB10_39
.LBB10_17:                              // %tailrecurse
	cmp	w10, #5
	b.ne	.LBB10_23
// %bb.18:                              // %arm.4.split
	mov	w10, w20
	and	x10, x10, #0xffff
	lsl	x11, x10, #4
	mov	w10, #1                         // =0x1
	lsl	x26, x10, x9
	ldr	x9, [x23, x11]
	tst	x9, x26
	b.eq	.LBB10_36
// %bb.19:                              // %join.12.preheader
	ubfx	x25, x8, #8, #8
	b	.LBB10_21
.LBB10_20:                              // %"second_sweep::put_bit.exit"
                                        //   in Loop: Header=BB10_21 Depth=1
	add	w8, w0, #1
	mov	w6, wzr
	mov	x0, x24
	mov	x1, x23
	mov	x2, x21
	mov	x3, x22
	mov	x4, x25
	mov	w5, w20
	mov	x7, x19
	str	w8, [sp, #8]
	str	x27, [sp]
	bl	"second_sweep::sweep"
	mov	w20, w1
	and	x8, x20, #0xffff
	lsl	x8, x8, #4
	ldr	x8, [x23, x8]
	tst	x8, x26
	b.eq	.LBB10_40
.LBB10_21:                              // %join.12
                                        // =>This Inner Loop Header: Depth=1
	mov	w8, w0
	lsr	x8, x8, #3
	cmp	x27, x8
	b.ls	.LBB10_20
// %bb.22:                              // %then.1.i41
                                        //   in Loop: Header=BB10_21 Depth=1
	and	w9, w0, #0x7
	ldrb	w10, [x19, x8]
	mov	w11, #8                         // =0x8
	sub	w9, w11, w9
	lsr	w10, w10, w9
	lsl	w9, w10, w9
	strb	w9, [x19, x8]
	b	.LBB10_20
.LBB10_23:                              // %loop.9.us.preheader
	ubfx	x9, x8, #40, #1
	bic	w9, w9, w26
	tbnz	w9, #0, .LBB10_27
// %bb.24:                              // %join.3.i.i.us.peel
	tst	x8, #0xc000000000
	b.eq	.LBB10_26
// %bb.25:                              // %else.5.i.i.us.peel
	and	w9, w20, #0xffff
	cmp	w9, w22, uxth
	cset	w9, eq
	and	w9, w26, w9
	tbz	w9, #0, .LBB10_27
	b	.LBB10_34
.LBB10_26:                              // %"second_sweep::may_stop.exit.i.us.peel"
	tst	w26, #0x1
	mov	w9, #8                          // =0x8
	add	x10, x23, w20, uxth #4
	csel	x9, x9, xzr, ne
	lsr	x11, x8, #32
	ldr	x9, [x10, x9]
	lsr	x9, x9, x11
	tbnz	w9, #0, .LBB10_34
.LBB10_27:                              // %join.12.us.peel
	mov	w9, w0
	ubfx	x26, x8, #8, #8
	lsr	x9, x9, #3
	cmp	x27, x9
	b.ls	.LBB10_32
// %bb.28:                              // %then.1.i41.us.peel
	and	w8, w0, #0x7
	ldrb	w10, [x19, x9]
	mov	w11, #8                         // =0x8
	sub	w11, w11, w8
	eor	w8, w8, #0x7
	mov	w12, #1                         // =0x1
	lsr	w10, w10, w11
	lsl	w8, w12, w8
	lsl	w10, w10, w11
	orr	w8, w10, w8
	strb	w8, [x19, x9]
	b	.LBB10_32
.LBB10_29:                              // %"second_sweep::may_stop.exit.i.us"
                                        //   in Loop: Header=BB10_32 Depth=1
	add	x9, x23, w20, uxth #4
	lsr	x8, x8, #32
	ldr	x9, [x9, #8]
	lsr	x8, x9, x8
	tbnz	w8, #0, .LBB10_35
.LBB10_30:                              // %join.12.us
                                        //   in Loop: Header=BB10_32 Depth=1
	mov	w8, w0
	lsr	x8, x8, #3
	cmp	x27, x8
	b.ls	.LBB10_32
// %bb.31:                              // %then.1.i41.us
                                        //   in Loop: Header=BB10_32 Depth=1
	and	w9, w0, #0x7
	ldrb	w10, [x19, x8]
	mov	w11, #8                         // =0x8
	sub	w11, w11, w9
	eor	w9, w9, #0x7
	mov	w12, #1                         // =0x1
	lsr	w10, w10, w11
	lsl	w9, w12, w9
	lsl	w10, w10, w11
	orr	w9, w10, w9
	strb	w9, [x19, x8]
.LBB10_32:                              // %"second_sweep::put_bit.exit.us.peel"
                                        // =>This Inner Loop Header: Depth=1
	add	w8, w0, #1
	mov	w6, wzr
	mov	x0, x24
	mov	x1, x23
	mov	x2, x21
	mov	x3, x22
	mov	x4, x26
	mov	w5, w20
	mov	x7, x19
	str	w8, [sp, #8]
	str	x27, [sp]
	bl	"second_sweep::sweep"
	ldr	x8, [x24, x25, lsl #3]
	mov	w20, w1
	tst	x8, #0xc000000000
	b.eq	.LBB10_29
// %bb.33:                              // %else.5.i.i.us
                                        //   in Loop: Header=BB10_32 Depth=1
	and	w8, w20, #0xffff
	cmp	w8, w22, uxth
	b.ne	.LBB10_30
.LBB10_34:
	mov	w10, wzr
	mov	w8, w0
	lsr	x8, x8, #3
	cmp	x27, x8
	b.hi	.LBB10_37
	b	.LBB10_38
.LBB10_35:
	mov	w10, wzr
.LBB10_36:                              // %after.8
	mov	w8, w0
	lsr	x8, x8, #3
	cmp	x27, x8
	b.ls	.LBB10_38
.LBB10_37:                              // %then.1.i.i48
	and	w9, w0, #0x7
	ldrb	w11, [x19, x8]
	mov	w12, #8                         // =0x8
	sub	w12, w12, w9
	eor	w9, w9, #0x7
	lsr	w11, w11, w12
	lsl	w9, w10, w9
	lsl	w11, w11, w12
	orr	w9, w11, w9
	strb	w9, [x19, x8]
.LBB10_38:                              // %"second_sweep::stop.exit"
	add	w0, w0, #1
.LBB10_39:                              // %return.7
	mov	w1, w20
	ldp	x20, x19, [sp, #96]             // 16-byte Folded Reload
	ldp	x22, x21, [sp, #80]             // 16-byte Folded Reload
	ldp	x24, x23, [sp, #64]             // 16-byte Folded Reload
	ldp	x26, x25, [sp, #48]             // 16-byte Folded Reload
	ldp	x28, x27, [sp, #32]             // 16-byte Folded Reload
	ldp	x29, x30, [sp, #16]             // 16-byte Folded Reload
	add	sp, sp, #112
	ret
.LBB10_40:
	mov	w10, #1                         // =0x1
	mov	w8, w0
	lsr	x8, x8, #3
	cmp	x27, x8
	b.hi	.LBB10_37
	b	.LBB10_38
.Lfunc_end10:
	.size	"second_sweep::sweep", .Lfunc_end10-"second_sweep::sweep"
                                        // -- End function
	.section	".text.spans::find::find","ax",@progbits
	.p2align	2                               // -- Begin function spans::find::find
	.type	"spans::find::find",@function
"spans::find::find":                    // @"spans::find::find"
// %bb.0:                               // %start
	sub	sp, sp, #144
	stp	x26, x25, [sp, #80]             // 16-byte Folded Spill
	cmp	w7, #0
	ldr	x26, [x1, x2, lsl #3]
	stp	x28, x27, [sp, #64]             // 16-byte Folded Spill
	cset	w8, ne
	mov	w27, w6
	sub	w9, w7, w8
	cmp	x2, x27
	and	w8, w26, #0xff
	stp	x29, x30, [sp, #48]             // 16-byte Folded Spill
	add	x29, sp, #48
	mov	x25, x1
	stp	x24, x23, [sp, #96]             // 16-byte Folded Spill
	mov	w23, w6
	mov	x24, x3
	stp	x22, x21, [sp, #112]            // 16-byte Folded Spill
	mov	w21, w7
	mov	x22, x2
	stp	x20, x19, [sp, #128]            // 16-byte Folded Spill
	mov	w20, w5
	mov	x19, x0
	csel	w7, w9, w7, eq
	cmp	w8, #2
                                        // kill: def $w4 killed $w4 def $x4
	stp	xzr, xzr, [x29, #-16]
	stp	xzr, xzr, [sp, #16]
	stp	xzr, xzr, [sp]
	b.gt	.LBB11_5
// %bb.1:                               // %start
	cbz	w8, .LBB11_11
// %bb.2:                               // %start
	cmp	w8, #1
	b.eq	.LBB11_11
// %bb.3:                               // %start
	cmp	w8, #2
	b.ne	.LBB11_8
// %bb.4:                               // %arm.3.i32
	mov	w8, #1                          // =0x1
	mov	w9, #8                          // =0x8
	b	.LBB11_12
.LBB11_5:                               // %start
	cmp	w8, #3
	b.eq	.LBB11_13
// %bb.6:                               // %start
	cmp	w8, #4
	b.eq	.LBB11_20
// %bb.7:                               // %start
	cmp	w8, #5
	mov	w28, wzr
	b.eq	.LBB11_9
.LBB11_8:                               // %default.7.i.i
	mov	w28, #1                         // =0x1
.LBB11_9:                               // %arm.4.i
	mov	w8, w4
	mov	w9, #7                          // =0x7
	lsr	x8, x8, #3
	bic	w9, w9, w4
	ldrb	w8, [x24, x8]
	lsr	w8, w8, w9
	eor	w8, w28, w8
	tbz	w8, #0, .LBB11_15
// %bb.10:
	mov	w5, w20
	b	.LBB11_18
.LBB11_11:
	mov	w9, wzr
.LBB11_12:                              // %"spans::find::step_of.exit"
	add	w9, w9, w4
	add	w8, w8, w20
	stp	w9, w8, [x29, #-12]
	b	.LBB11_19
.LBB11_13:                              // %arm.2.i
	ubfx	x2, x26, #8, #8
	add	x0, sp, #16
	mov	x1, x25
	mov	x3, x24
	mov	w5, w20
	mov	w6, w23
                                        // kill: def $w4 killed $w4 killed $x4
	bl	"spans::find::find"
	ldrb	w8, [sp, #16]
	ldur	x4, [sp, #20]
	cbz	w8, .LBB11_21
.LBB11_14:
	mov	w8, wzr
	mov	w9, #1                          // =0x1
	cmp	x22, x27
	b.eq	.LBB11_23
	b	.LBB11_25
.LBB11_15:                              // %join.14.i.lr.ph
	ubfx	x26, x26, #8, #8
	mov	w5, w20
.LBB11_16:                              // %join.14.i
                                        // =>This Inner Loop Header: Depth=1
	mov	x0, sp
	add	w4, w4, #1
	mov	x1, x25
	mov	x2, x26
	mov	x3, x24
	mov	w6, w23
                                        // kill: def $w5 killed $w5 killed $x5
	bl	"spans::find::find"
	ldrb	w8, [sp]
	ldur	x4, [sp, #4]
	cbnz	w8, .LBB11_14
// %bb.17:                              // %arm.15.i
                                        //   in Loop: Header=BB11_16 Depth=1
	lsr	w8, w4, #3
	mov	w9, #7                          // =0x7
	ldr	w7, [sp, #12]
	bic	w9, w9, w4
	lsr	x5, x4, #32
	ldrb	w8, [x24, x8]
	lsr	w8, w8, w9
	and	w8, w8, #0x1
	cmp	w28, w8
	b.eq	.LBB11_16
.LBB11_18:                              // %after.10.i
	add	w8, w4, #1
	stur	w5, [x29, #-8]
	stp	wzr, w8, [x29, #-16]
.LBB11_19:                              // %join.6.i
	stur	w7, [x29, #-4]
	ldurb	w9, [x29, #-16]
	ldur	x4, [x29, #-12]
	mov	w8, w7
	cmp	x22, x27
	b.eq	.LBB11_23
	b	.LBB11_25
.LBB11_20:                              // %arm.3.i
	mov	w8, w4
	mov	w9, #7                          // =0x7
	lsr	x10, x26, #16
	lsr	x8, x8, #3
	bic	w9, w9, w4
	sub	x0, x29, #16
	add	w4, w4, #1
	mov	x1, x25
	mov	x3, x24
	ldrb	w8, [x24, x8]
	mov	w5, w20
	lsr	w8, w8, w9
	lsr	x9, x26, #8
	tst	w8, #0x1
	csel	x8, x9, x10, eq
	and	x2, x8, #0xff
	b	.LBB11_22
.LBB11_21:                              // %arm.7.i
	ldr	w7, [sp, #28]
	ubfx	x2, x26, #16, #8
	lsr	x5, x4, #32
	sub	x0, x29, #16
	mov	x1, x25
	mov	x3, x24
                                        // kill: def $w4 killed $w4 killed $x4
                                        // kill: def $w5 killed $w5 killed $x5
.LBB11_22:                              // %join.6.i
	mov	w6, w23
	bl	"spans::find::find"
	ldurb	w9, [x29, #-16]
	ldur	x4, [x29, #-12]
	ldur	w8, [x29, #-4]
	cmp	x22, x27
	b.ne	.LBB11_25
.LBB11_23:                              // %"spans::find::find_inside.exit"
	cbnz	w21, .LBB11_25
// %bb.24:                              // %then.1
	lsr	x10, x4, #32
	mov	w11, w20
	cmp	w9, #0
	mov	w8, wzr
	mov	w9, #1                          // =0x1
	sub	w10, w10, w20
	orr	x10, x11, x10, lsl #32
	csel	x4, x10, x4, eq
.LBB11_25:                              // %join.3
	str	w9, [x19]
	ldp	x22, x21, [sp, #112]            // 16-byte Folded Reload
	stur	x4, [x19, #4]
	ldp	x24, x23, [sp, #96]             // 16-byte Folded Reload
	str	w8, [x19, #12]
	ldp	x20, x19, [sp, #128]            // 16-byte Folded Reload
	ldp	x26, x25, [sp, #80]             // 16-byte Folded Reload
	ldp	x28, x27, [sp, #64]             // 16-byte Folded Reload
	ldp	x29, x30, [sp, #48]             // 16-byte Folded Reload
	add	sp, sp, #144
	ret
.Lfunc_end11:
	.size	"spans::find::find", .Lfunc_end11-"spans::find::find"
                                        // -- End function
	.section	.rodata.cst8,"aM",@progbits,8
	.p2align	3, 0x0                          // -- Begin function entries::gather
.LCPI12_0:
	.word	1                               // 0x1
	.word	2                               // 0x2
.LCPI12_1:
	.word	1                               // 0x1
	.word	7                               // 0x7
	.section	".text.entries::gather","ax",@progbits
	.p2align	2
	.type	"entries::gather",@function
"entries::gather":                      // @"entries::gather"
// %bb.0:                               // %start
	stp	x29, x30, [sp, #-96]!           // 16-byte Folded Spill
	stp	x28, x27, [sp, #16]             // 16-byte Folded Spill
	mov	x29, sp
	stp	x26, x25, [sp, #32]             // 16-byte Folded Spill
	stp	x24, x23, [sp, #48]             // 16-byte Folded Spill
	stp	x22, x21, [sp, #64]             // 16-byte Folded Spill
	stp	x20, x19, [sp, #80]             // 16-byte Folded Spill
	sub	sp, sp, #2048
	str	xzr, [sp]
	mov	x23, x1
	movi	v0.2d, #0000000000000000
	ldr	x28, [x23], #8
	mov	x19, x0
	add	x8, sp, #352
	sub	x20, x28, #1
	cmp	x20, #63
	stp	q0, q0, [x8]
	stp	q0, q0, [x8, #32]
	stp	q0, q0, [x8, #64]
	stp	q0, q0, [x8, #96]
	stp	q0, q0, [x8, #128]
	stp	q0, q0, [x8, #160]
	stp	q0, q0, [x8, #192]
	stp	q0, q0, [x8, #224]
	stp	q0, q0, [x8, #256]
	stp	q0, q0, [x8, #288]
	stp	q0, q0, [x8, #320]
	stp	q0, q0, [x8, #352]
	stp	q0, q0, [x8, #384]
	stp	q0, q0, [x8, #416]
	stp	q0, q0, [x8, #448]
	stp	q0, q0, [x8, #480]
	b.hi	.LBB12_12
// %bb.1:                               // %arm.3.i.preheader.i.i
	add	x8, sp, #1704
	mov	x22, x2
	mov	x1, x23
	add	x24, x8, #8
	mov	w2, #320                        // =0x140
	mov	x27, x3
	mov	x0, x24
	mov	x21, x5
	mov	x26, x6
	mov	w25, w4
	str	x28, [sp, #1704]
	bl	memcpy
	mov	x8, x28
	b	.LBB12_4
.LBB12_2:                               // %arm.2.i.i.i.i.i.i.i.i
                                        //   in Loop: Header=BB12_4 Depth=1
	and	w9, w9, #0x7f
	sub	w9, w9, #33
	cmp	w9, #94
	b.hs	.LBB12_12
.LBB12_3:                               // %loop.2.backedge.i.i.i
                                        //   in Loop: Header=BB12_4 Depth=1
	sub	x8, x8, #1
	add	x24, x24, #5
	cbz	x8, .LBB12_11
.LBB12_4:                               // %arm.3.i.i.i
                                        // =>This Inner Loop Header: Depth=1
	ldrb	w9, [x24]
	cmp	w9, #200
	b.hi	.LBB12_12
// %bb.5:                               // %then.1.i.i.i.i.i.i
                                        //   in Loop: Header=BB12_4 Depth=1
	ldrb	w9, [x24, #1]
	cbnz	w9, .LBB12_3
// %bb.6:                               // %arm.1.i.i.i.i.i.i.i
                                        //   in Loop: Header=BB12_4 Depth=1
	ldrb	w10, [x24, #2]
	cbz	w10, .LBB12_3
// %bb.7:                               // %arm.1.i.i.i.i.i.i.i
                                        //   in Loop: Header=BB12_4 Depth=1
	ldrb	w9, [x24, #3]
	cmp	w10, #2
	b.ne	.LBB12_2
// %bb.8:                               // %arm.3.i.i.i.i.i.i.i.i
                                        //   in Loop: Header=BB12_4 Depth=1
	ldrb	w10, [x24, #4]
	cmp	w9, w10
	b.hi	.LBB12_12
// %bb.9:                               // %arm.3.i.i.i.i.i.i.i.i
                                        //   in Loop: Header=BB12_4 Depth=1
	and	w9, w9, #0x7f
	sub	w9, w9, #33
	cmp	w9, #93
	b.hi	.LBB12_12
// %bb.10:                              // %arm.3.i.i.i.i.i.i.i.i
                                        //   in Loop: Header=BB12_4 Depth=1
	and	w9, w10, #0x7f
	sub	w9, w9, #33
	cmp	w9, #93
	b.ls	.LBB12_3
	b	.LBB12_12
.LBB12_11:                              // %"syntax::obeys_rules.exit"
	add	x8, sp, #1376
	mov	x1, x23
	mov	w2, #320                        // =0x140
	add	x0, x8, #8
	str	x28, [sp, #1376]
	bl	memcpy
	add	x0, sp, #1376
	bl	"syntax::naming::tree_fault_of"
	and	w8, w0, #0xff
	cmp	w8, #1
	b.ne	.LBB12_15
.LBB12_12:                              // %then.1
	movi	v0.2s, #1
.LBB12_13:                              // %common.ret
	str	d0, [x19]
	str	xzr, [x19, #8]
.LBB12_14:                              // %common.ret
	add	sp, sp, #2048
	ldp	x20, x19, [sp, #80]             // 16-byte Folded Reload
	ldp	x22, x21, [sp, #64]             // 16-byte Folded Reload
	ldp	x24, x23, [sp, #48]             // 16-byte Folded Reload
	ldp	x26, x25, [sp, #32]             // 16-byte Folded Reload
	ldp	x28, x27, [sp, #16]             // 16-byte Folded Reload
	ldp	x29, x30, [sp], #96             // 16-byte Folded Reload
	ret
.LBB12_15:                              // %join.3
	add	x8, sp, #24
	mov	x1, x23
	mov	w2, #320                        // =0x140
	add	x0, x8, #8
	str	x28, [sp, #24]
	bl	memcpy
	add	x0, sp, #352
	add	x1, sp, #24
	bl	"table::table_of"
	add	x0, sp, #864
	add	x1, sp, #352
	mov	w2, #512                        // =0x200
	bl	memcpy
	cmp	x27, #16, lsl #12               // =65536
	str	wzr, [sp, #1712]
	str	xzr, [sp, #1704]
	b.hi	.LBB12_23
// %bb.16:                              // %join.3.i.i
	mov	w8, w25
	mov	w9, w25
	add	x10, x8, #7
	cmp	x27, x10, lsr #3
	b.ne	.LBB12_23
// %bb.17:                              // %then.4.i.i
	and	w9, w9, #0x7
	cbz	w9, .LBB12_19
// %bb.18:                              // %"bits::handed_good.exit.i"
	lsr	x8, x8, #3
	mov	w10, #8                         // =0x8
	sub	w9, w10, w9
	mov	w10, #-1                        // =0xffffffff
	ldrb	w8, [x22, x8]
	lsl	w9, w10, w9
	bics	wzr, w8, w9
	b.ne	.LBB12_23
.LBB12_19:                              // %join.3.i
	mov	x5, x27
	mov	w3, wzr
	mov	w6, wzr
	mov	w8, #3600                       // =0xe10
	add	x0, sp, #1704
	add	x1, sp, #864
	mov	x2, x20
	mov	x4, x22
	mov	x7, x21
	str	wzr, [sp, #16]
	stp	x26, x8, [sp]
	bl	"entries::put_entries"
	ldrb	w8, [sp, #1704]
	cmp	w8, #1
	b.ne	.LBB12_23
// %bb.20:                              // %join.3.i
	add	x8, sp, #1453
	ldur	x8, [x8, #255]
	cmp	w25, w8
	b.ne	.LBB12_23
// %bb.21:                              // %arm.4
	lsr	x8, x8, #32
	cmp	x8, #3600
	b.ls	.LBB12_24
// %bb.22:                              // %then.8
	adrp	x8, .LCPI12_0
	ldr	d0, [x8, :lo12:.LCPI12_0]
	b	.LBB12_13
.LBB12_23:                              // %arm.5
	adrp	x8, .LCPI12_1
	ldr	d0, [x8, :lo12:.LCPI12_1]
	b	.LBB12_13
.LBB12_24:                              // %join.10
	stp	xzr, x8, [x19]
	b	.LBB12_14
.Lfunc_end12:
	.size	"entries::gather", .Lfunc_end12-"entries::gather"
                                        // -- End function
	.section	.text.wumbyra_canonicalize,"ax",@progbits
	.globl	wumbyra_canonicalize            // -- Begin function wumbyra_canonicalize
	.p2align	2
	.type	wumbyra_canonicalize,@function
wumbyra_canonicalize:                   // @wumbyra_canonicalize
// %bb.0:                               // %start
	stp	x29, x30, [sp, #-96]!           // 16-byte Folded Spill
	stp	x28, x27, [sp, #16]             // 16-byte Folded Spill
	mov	x29, sp
	stp	x26, x25, [sp, #32]             // 16-byte Folded Spill
	stp	x24, x23, [sp, #48]             // 16-byte Folded Spill
	stp	x22, x21, [sp, #64]             // 16-byte Folded Spill
	stp	x20, x19, [sp, #80]             // 16-byte Folded Spill
	sub	sp, sp, #720
	mov	x24, x2
	cmp	x0, #0
	mov	w9, #4096                       // =0x1000
	csel	x10, x9, xzr, eq
	cmp	x2, #0
	movi	v0.2d, #0000000000000000
	ldr	x25, [x29, #104]
	csel	x27, x9, xzr, eq
	cmp	x5, #0
	csel	x26, x9, xzr, eq
	cmp	x7, #0
	mov	x8, x0
	csel	x11, x9, xzr, eq
	cmp	x25, #0
	mov	x2, x1
	csel	x9, x9, xzr, eq
	add	x0, sp, #352
	add	x1, x8, x10
	mov	x19, x7
	mov	x21, x6
	mov	x20, x5
	mov	w22, w4
	mov	x23, x3
	stp	q0, q0, [sp, #368]
	stp	q0, q0, [sp, #400]
	add	x28, sp, #352
	stp	q0, q0, [sp, #432]
	stp	q0, q0, [sp, #464]
	stp	q0, q0, [sp, #496]
	stp	q0, q0, [sp, #528]
	stp	q0, q0, [sp, #560]
	stp	q0, q0, [sp, #592]
	stp	q0, q0, [sp, #624]
	stp	q0, q0, [sp, #656]
	stp	x9, x11, [sp]                   // 16-byte Folded Spill
	str	q0, [sp, #352]
	bl	"loading::load"
	ldrb	w8, [sp, #352]
	cbz	w8, .LBB13_2
// %bb.1:                               // %arm.2.i.i.i
	movi	v0.2d, #0000000000000000
	str	xzr, [sp, #336]
	stp	q0, q0, [sp, #16]
	stp	q0, q0, [sp, #48]
	stp	q0, q0, [sp, #80]
	stp	q0, q0, [sp, #112]
	stp	q0, q0, [sp, #144]
	stp	q0, q0, [sp, #176]
	stp	q0, q0, [sp, #208]
	stp	q0, q0, [sp, #240]
	stp	q0, q0, [sp, #272]
	stp	q0, q0, [sp, #304]
	b	.LBB13_3
.LBB13_2:                               // %arm.1.i.i.i
	add	x0, sp, #16
	orr	x1, x28, #0x8
	mov	w2, #328                        // =0x148
	bl	memcpy
.LBB13_3:                               // %"loading::pattern_of.exit.i.i"
	add	x0, sp, #352
	add	x1, sp, #16
	add	x2, x24, x27
	add	x5, x20, x26
	mov	x3, x23
	mov	w4, w22
	mov	x6, x21
	str	xzr, [sp, #352]
	str	wzr, [sp, #360]
	stur	xzr, [x29, #-24]
	stur	wzr, [x29, #-16]
	bl	"codes::flatten"
	ldrb	w8, [sp, #352]
	ldr	w3, [sp, #356]
	cbz	w8, .LBB13_5
// %bb.4:                               // %arm.2.i2.i.i
	ldr	w8, [sp, #360]
	b	.LBB13_7
.LBB13_5:                               // %arm.1.i3.i.i
	ldr	x8, [sp, #8]                    // 8-byte Reload
	ldr	x7, [x29, #112]
	sub	x0, x29, #24
	ldr	x5, [x29, #96]
	add	x1, sp, #16
	add	x2, x20, x26
	add	x4, x19, x8
	ldr	x8, [sp]                        // 8-byte Reload
	add	x6, x25, x8
	bl	"parser::parse"
	ldurb	w8, [x29, #-24]
	ldur	w0, [x29, #-20]
	cbz	w8, .LBB13_10
// %bb.6:                               // %arm.6.i.i.i
	ldur	w8, [x29, #-16]
	mov	w3, w0
.LBB13_7:                               // %arm.2.i5.i.i
	and	w10, w3, #0xff
	mov	w11, #1                         // =0x1
	mov	x9, xzr
	lsl	w10, w11, w10
	mov	w11, #363                       // =0x16b
	tst	w10, w11
	b.eq	.LBB13_9
// %bb.8:                               // %after.2.i.i.i.i.i
	mov	w9, w8
.LBB13_9:                               // %"packing::of_cause::<#ebb002963c42623e>.exit.i.i.i"
	and	w8, w3, #0xff
	orr	x8, x9, x8, lsl #32
	mov	x9, #4294967296                 // =0x100000000
	add	x0, x8, x9
.LBB13_10:                              // %"wumbyra_c::wumbyra_canonicalize.exit"
	add	sp, sp, #720
	ldp	x20, x19, [sp, #80]             // 16-byte Folded Reload
	ldp	x22, x21, [sp, #64]             // 16-byte Folded Reload
	ldp	x24, x23, [sp, #48]             // 16-byte Folded Reload
	ldp	x26, x25, [sp, #32]             // 16-byte Folded Reload
	ldp	x28, x27, [sp, #16]             // 16-byte Folded Reload
	ldp	x29, x30, [sp], #96             // 16-byte Folded Reload
	ret
.Lfunc_end13:
	.size	wumbyra_canonicalize, .Lfunc_end13-wumbyra_canonicalize
                                        // -- End function
	.section	.text.wumbyra_desk_open,"ax",@progbits
	.globl	wumbyra_desk_open               // -- Begin function wumbyra_desk_open
	.p2align	2
	.type	wumbyra_desk_open,@function
wumbyra_desk_open:                      // @wumbyra_desk_open
// %bb.0:                               // %start
	stp	x29, x30, [sp, #-96]!           // 16-byte Folded Spill
	str	x28, [sp, #16]                  // 8-byte Spill
	mov	x29, sp
	stp	x26, x25, [sp, #32]             // 16-byte Folded Spill
	stp	x24, x23, [sp, #48]             // 16-byte Folded Spill
	stp	x22, x21, [sp, #64]             // 16-byte Folded Spill
	stp	x20, x19, [sp, #80]             // 16-byte Folded Spill
	sub	sp, sp, #2192
	movi	v0.2d, #0000000000000000
	mov	x22, x2
	cmp	x0, #0
	mov	w9, #4096                       // =0x1000
	mov	x8, x0
	mov	x2, x1
	csel	x10, x9, xzr, eq
	cmp	x22, #0
	add	x0, sp, #1680
	csel	x25, x9, xzr, eq
	cmp	x4, #0
	add	x1, x8, x10
	str	xzr, [sp]
	mov	x20, x5
	mov	x21, x4
	mov	x23, x3
	str	q0, [sp, #2000]
	csel	x24, x9, xzr, eq
	str	q0, [sp, #1984]
	add	x26, sp, #1680
	str	q0, [sp, #1968]
	str	q0, [sp, #1952]
	str	q0, [sp, #1936]
	str	q0, [sp, #1920]
	str	q0, [sp, #1904]
	str	q0, [sp, #1888]
	str	q0, [sp, #1872]
	str	q0, [sp, #1856]
	str	q0, [sp, #1840]
	str	q0, [sp, #1824]
	str	q0, [sp, #1808]
	str	q0, [sp, #1792]
	str	q0, [sp, #1776]
	str	q0, [sp, #1760]
	str	q0, [sp, #1744]
	str	q0, [sp, #1728]
	str	q0, [sp, #1712]
	str	q0, [sp, #1696]
	str	q0, [sp, #1680]
	bl	"loading::load"
	ldrb	w8, [sp, #1680]
	cbz	w8, .LBB14_13
// %bb.1:                               // %arm.2.i.i.i
	movi	v0.2d, #0000000000000000
	mov	x19, xzr
	stp	q0, q0, [sp]
	stp	q0, q0, [sp, #32]
	stp	q0, q0, [sp, #64]
	stp	q0, q0, [sp, #96]
	stp	q0, q0, [sp, #128]
	stp	q0, q0, [sp, #160]
	stp	q0, q0, [sp, #192]
	stp	q0, q0, [sp, #224]
	stp	q0, q0, [sp, #256]
	stp	q0, q0, [sp, #288]
	cmp	x23, #31
	b.ne	.LBB14_14
.LBB14_2:                               // %join.3.i.i
	add	x8, sp, #840
	mov	x1, sp
	mov	w2, #320                        // =0x140
	add	x0, x8, #8
	str	x19, [sp, #840]
	bl	memcpy
	movi	v0.2d, #0000000000000000
	sub	x8, x19, #1
	cmp	x8, #63
	stp	q0, q0, [sp, #320]
	stp	q0, q0, [sp, #352]
	stp	q0, q0, [sp, #384]
	stp	q0, q0, [sp, #416]
	stp	q0, q0, [sp, #448]
	stp	q0, q0, [sp, #480]
	stp	q0, q0, [sp, #512]
	stp	q0, q0, [sp, #544]
	stp	q0, q0, [sp, #576]
	stp	q0, q0, [sp, #608]
	stp	q0, q0, [sp, #640]
	stp	q0, q0, [sp, #672]
	stp	q0, q0, [sp, #704]
	stp	q0, q0, [sp, #736]
	stp	q0, q0, [sp, #768]
	stp	q0, q0, [sp, #800]
	b.hi	.LBB14_29
// %bb.3:                               // %arm.3.i.preheader.i.i.i.i11.i.i
	add	x8, sp, #1680
	add	x23, x21, x24
	mov	x1, sp
	add	x21, x8, #8
	mov	w2, #320                        // =0x140
	add	x22, x22, x25
	mov	x0, x21
	str	x19, [sp, #1680]
	bl	memcpy
	mov	x8, x19
	b	.LBB14_6
.LBB14_4:                               // %arm.2.i.i.i.i.i.i.i.i.i.i47.i.i
                                        //   in Loop: Header=BB14_6 Depth=1
	and	w9, w9, #0x7f
	sub	w9, w9, #33
	cmp	w9, #94
	b.hs	.LBB14_29
.LBB14_5:                               // %loop.2.backedge.i.i.i.i.i30.i.i
                                        //   in Loop: Header=BB14_6 Depth=1
	sub	x8, x8, #1
	add	x21, x21, #5
	cbz	x8, .LBB14_25
.LBB14_6:                               // %arm.3.i.i.i.i.i13.i.i
                                        // =>This Inner Loop Header: Depth=1
	ldrb	w9, [x21]
	cmp	w9, #200
	b.hi	.LBB14_29
// %bb.7:                               // %then.1.i.i.i.i.i.i.i.i27.i.i
                                        //   in Loop: Header=BB14_6 Depth=1
	ldrb	w9, [x21, #1]
	cbnz	w9, .LBB14_5
// %bb.8:                               // %arm.1.i.i.i.i.i.i.i.i.i40.i.i
                                        //   in Loop: Header=BB14_6 Depth=1
	ldrb	w10, [x21, #2]
	cbz	w10, .LBB14_5
// %bb.9:                               // %arm.1.i.i.i.i.i.i.i.i.i40.i.i
                                        //   in Loop: Header=BB14_6 Depth=1
	ldrb	w9, [x21, #3]
	cmp	w10, #2
	b.ne	.LBB14_4
// %bb.10:                              // %arm.3.i.i.i.i.i.i.i.i.i.i41.i.i
                                        //   in Loop: Header=BB14_6 Depth=1
	ldrb	w10, [x21, #4]
	cmp	w9, w10
	b.hi	.LBB14_29
// %bb.11:                              // %arm.3.i.i.i.i.i.i.i.i.i.i41.i.i
                                        //   in Loop: Header=BB14_6 Depth=1
	and	w9, w9, #0x7f
	sub	w9, w9, #33
	cmp	w9, #93
	b.hi	.LBB14_29
// %bb.12:                              // %arm.3.i.i.i.i.i.i.i.i.i.i41.i.i
                                        //   in Loop: Header=BB14_6 Depth=1
	and	w9, w10, #0x7f
	sub	w9, w9, #33
	cmp	w9, #93
	b.ls	.LBB14_5
	b	.LBB14_29
.LBB14_13:                              // %arm.1.i.i.i
	ldr	x19, [sp, #1688]
	mov	x0, sp
	add	x1, x26, #16
	mov	w2, #320                        // =0x140
	bl	memcpy
	cmp	x23, #31
	b.eq	.LBB14_2
.LBB14_14:                              // %then.1.i.i
	sub	x8, x19, #1
	cmp	x8, #63
	b.hi	.LBB14_29
// %bb.15:                              // %arm.3.i.preheader.i.i.i.i.i.i
	add	x8, sp, #1680
	mov	x1, sp
	mov	w2, #320                        // =0x140
	add	x21, x8, #8
	str	x19, [sp, #1680]
	mov	x0, x21
	bl	memcpy
	mov	x8, x19
	b	.LBB14_18
.LBB14_16:                              // %arm.2.i.i.i.i.i.i.i.i.i.i.i.i
                                        //   in Loop: Header=BB14_18 Depth=1
	and	w9, w9, #0x7f
	sub	w9, w9, #33
	cmp	w9, #94
	b.hs	.LBB14_29
.LBB14_17:                              // %loop.2.backedge.i.i.i.i.i.i.i
                                        //   in Loop: Header=BB14_18 Depth=1
	sub	x8, x8, #1
	add	x21, x21, #5
	cbz	x8, .LBB14_28
.LBB14_18:                              // %arm.3.i.i.i.i.i.i.i
                                        // =>This Inner Loop Header: Depth=1
	ldrb	w9, [x21]
	cmp	w9, #200
	b.hi	.LBB14_29
// %bb.19:                              // %then.1.i.i.i.i.i.i.i.i.i.i
                                        //   in Loop: Header=BB14_18 Depth=1
	ldrb	w9, [x21, #1]
	cbnz	w9, .LBB14_17
// %bb.20:                              // %arm.1.i.i.i.i.i.i.i.i.i.i.i
                                        //   in Loop: Header=BB14_18 Depth=1
	ldrb	w10, [x21, #2]
	cbz	w10, .LBB14_17
// %bb.21:                              // %arm.1.i.i.i.i.i.i.i.i.i.i.i
                                        //   in Loop: Header=BB14_18 Depth=1
	ldrb	w9, [x21, #3]
	cmp	w10, #2
	b.ne	.LBB14_16
// %bb.22:                              // %arm.3.i.i.i.i.i.i.i.i.i.i.i.i
                                        //   in Loop: Header=BB14_18 Depth=1
	ldrb	w10, [x21, #4]
	cmp	w9, w10
	b.hi	.LBB14_29
// %bb.23:                              // %arm.3.i.i.i.i.i.i.i.i.i.i.i.i
                                        //   in Loop: Header=BB14_18 Depth=1
	and	w9, w9, #0x7f
	sub	w9, w9, #33
	cmp	w9, #93
	b.hi	.LBB14_29
// %bb.24:                              // %arm.3.i.i.i.i.i.i.i.i.i.i.i.i
                                        //   in Loop: Header=BB14_18 Depth=1
	and	w9, w10, #0x7f
	sub	w9, w9, #33
	cmp	w9, #93
	b.ls	.LBB14_17
	b	.LBB14_29
.LBB14_25:                              // %"syntax::obeys_rules.exit.i.i32.i.i"
	add	x8, sp, #1168
	mov	x1, sp
	mov	w2, #320                        // =0x140
	add	x0, x8, #8
	str	x19, [sp, #1168]
	bl	memcpy
	add	x0, sp, #1168
	bl	"syntax::naming::tree_fault_of"
	and	w8, w0, #0xff
	cmp	w8, #1
	b.eq	.LBB14_29
// %bb.26:                              // %join.3.i.i37.i.i
	cmp	x20, #2
	b.hs	.LBB14_32
// %bb.27:
	mov	x0, #2                          // =0x2
	movk	x0, #6, lsl #32
	b	.LBB14_30
.LBB14_28:                              // %"syntax::obeys_rules.exit.i.i.i.i"
	add	x8, sp, #1168
	mov	x1, sp
	mov	w2, #320                        // =0x140
	add	x0, x8, #8
	str	x19, [sp, #1168]
	bl	memcpy
	add	x0, sp, #1168
	bl	"syntax::naming::tree_fault_of"
	and	w8, w0, #0xff
	cmp	w8, #1
	b.ne	.LBB14_31
.LBB14_29:                              // %"syntax::obeys_rules.exit.thread.i.i.i.i"
	mov	x0, #8589934592                 // =0x200000000
.LBB14_30:                              // %"wumbyra_c::wumbyra_desk_open.exit"
	add	sp, sp, #2192
	ldp	x20, x19, [sp, #80]             // 16-byte Folded Reload
	ldr	x28, [sp, #16]                  // 8-byte Reload
	ldp	x22, x21, [sp, #64]             // 16-byte Folded Reload
	ldp	x24, x23, [sp, #48]             // 16-byte Folded Reload
	ldp	x26, x25, [sp, #32]             // 16-byte Folded Reload
	ldp	x29, x30, [sp], #96             // 16-byte Folded Reload
	ret
.LBB14_31:                              // %join.3.i.i.i.i
	mov	x9, #2                          // =0x2
	cmp	x20, #2
	mov	x8, #55834574848                // =0xd00000000
	movk	x9, #6, lsl #32
	csel	x0, x9, x8, lo
	b	.LBB14_30
.LBB14_32:                              // %arm.1.i39.i.i
	add	x0, sp, #320
	add	x1, sp, #840
	bl	"table::table_of"
	movi	v0.2d, #0000000000000000
	add	x0, sp, #320
	add	x2, sp, #1680
	add	x3, sp, #1168
	mov	x1, x19
	str	q0, [sp, #1680]
	str	q0, [sp, #1696]
	str	q0, [sp, #1712]
	str	q0, [sp, #1728]
	str	q0, [sp, #1744]
	str	q0, [sp, #1760]
	str	q0, [sp, #1776]
	str	q0, [sp, #1792]
	str	q0, [sp, #1808]
	str	q0, [sp, #1824]
	str	q0, [sp, #1840]
	str	q0, [sp, #1856]
	str	q0, [sp, #1872]
	str	q0, [sp, #1888]
	str	q0, [sp, #1904]
	str	q0, [sp, #1920]
	str	q0, [sp, #1936]
	str	q0, [sp, #1952]
	str	q0, [sp, #1968]
	str	q0, [sp, #1984]
	str	q0, [sp, #2000]
	str	q0, [sp, #2016]
	str	q0, [sp, #2032]
	str	q0, [sp, #2048]
	str	q0, [sp, #2064]
	str	q0, [sp, #2080]
	str	q0, [sp, #2096]
	str	q0, [sp, #2112]
	str	q0, [sp, #2128]
	str	q0, [sp, #2144]
	str	q0, [sp, #2160]
	str	q0, [sp, #2176]
	str	q0, [sp, #1664]
	str	q0, [sp, #1648]
	str	q0, [sp, #1632]
	str	q0, [sp, #1616]
	str	q0, [sp, #1600]
	str	q0, [sp, #1584]
	str	q0, [sp, #1568]
	str	q0, [sp, #1552]
	str	q0, [sp, #1536]
	str	q0, [sp, #1520]
	str	q0, [sp, #1504]
	str	q0, [sp, #1488]
	str	q0, [sp, #1472]
	str	q0, [sp, #1456]
	str	q0, [sp, #1440]
	str	q0, [sp, #1424]
	str	q0, [sp, #1408]
	str	q0, [sp, #1392]
	str	q0, [sp, #1376]
	str	q0, [sp, #1360]
	str	q0, [sp, #1344]
	str	q0, [sp, #1328]
	str	q0, [sp, #1312]
	str	q0, [sp, #1296]
	str	q0, [sp, #1280]
	str	q0, [sp, #1264]
	str	q0, [sp, #1248]
	str	q0, [sp, #1232]
	str	q0, [sp, #1216]
	str	q0, [sp, #1200]
	str	q0, [sp, #1184]
	str	q0, [sp, #1168]
	bl	"masks::put_masks"
	mov	x8, x0
	mov	x0, xzr
	stp	xzr, x8, [x23]
	stp	xzr, xzr, [x22]
	stur	xzr, [x22, #23]
	str	xzr, [x22, #16]
	b	.LBB14_30
.Lfunc_end14:
	.size	wumbyra_desk_open, .Lfunc_end14-wumbyra_desk_open
                                        // -- End function
	.section	.text.wumbyra_desk_put,"ax",@progbits
	.globl	wumbyra_desk_put                // -- Begin function wumbyra_desk_put
	.p2align	2
	.type	wumbyra_desk_put,@function
wumbyra_desk_put:                       // @wumbyra_desk_put
// %bb.0:                               // %start
	stp	x29, x30, [sp, #-96]!           // 16-byte Folded Spill
	stp	x28, x27, [sp, #16]             // 16-byte Folded Spill
	mov	x29, sp
	stp	x26, x25, [sp, #32]             // 16-byte Folded Spill
	stp	x24, x23, [sp, #48]             // 16-byte Folded Spill
	stp	x22, x21, [sp, #64]             // 16-byte Folded Spill
	stp	x20, x19, [sp, #80]             // 16-byte Folded Spill
	sub	sp, sp, #3072
	str	xzr, [sp]
	sub	sp, sp, #1568
	cmp	x0, #0
	mov	w11, #4096                      // =0x1000
	ldr	x26, [x29, #96]
	csel	x10, x11, xzr, eq
	cmp	x2, #0
	mov	x25, x6
	csel	x12, x11, xzr, eq
	cmp	x4, #0
	mov	x8, x0
	csel	x23, x11, xzr, eq
	cmp	x6, #0
	mov	x22, x4
	csel	x21, x11, xzr, eq
	cmp	x26, #0
	mov	x9, x1
	csel	x28, x11, xzr, eq
	cmp	x3, #31
	add	x27, x2, x12
	add	x20, sp, #384
	str	xzr, [sp]
	stp	x5, x7, [sp, #16]               // 16-byte Folded Spill
	str	x3, [sp, #48]                   // 8-byte Spill
	b.ne	.LBB15_2
// %bb.1:                               // %join.3.i.i.i
	ldur	q0, [x27, #1]
	ldur	q1, [x27, #15]
	ldrb	w11, [x27]
	str	w11, [sp, #44]                  // 4-byte Spill
	str	q0, [x20]
	stur	q1, [x20, #14]
	b	.LBB15_3
.LBB15_2:                               // %then.1.i.i.i
	mov	w11, #31                        // =0x1f
	stp	xzr, xzr, [sp, #384]
	stur	xzr, [x20, #22]
	str	w11, [sp, #44]                  // 4-byte Spill
	str	xzr, [sp, #400]
.LBB15_3:                               // %"packing::desks::desk_of.exit.i.i"
	movi	v2.2d, #0000000000000000
	ldr	q0, [x20]
	ldur	q1, [x20, #14]
	add	x0, sp, #1552
	add	x1, x8, x10
	mov	x2, x9
	stur	q0, [x20, #34]
	add	x19, sp, #417
	add	x24, sp, #1552
	stur	q1, [x20, #48]
	str	q2, [x20, #1168]
	str	q2, [x20, #1184]
	str	q2, [x20, #1200]
	str	q2, [x20, #1216]
	str	q2, [x20, #1232]
	str	q2, [x20, #1248]
	str	q2, [x20, #1264]
	str	q2, [x20, #1280]
	str	q2, [x20, #1296]
	str	q2, [x20, #1312]
	str	q2, [x20, #1328]
	str	q2, [x20, #1344]
	str	q2, [x20, #1360]
	str	q2, [x20, #1376]
	str	q2, [x20, #1392]
	str	q2, [x20, #1408]
	str	q2, [x20, #1424]
	str	q2, [x20, #1440]
	str	q2, [x20, #1456]
	str	q2, [x20, #1472]
	str	q2, [x20, #1488]
	bl	"loading::load"
	ldrb	w8, [sp, #1552]
	cbz	w8, .LBB15_5
// %bb.4:                               // %arm.2.i.i.i
	movi	v0.2d, #0000000000000000
	str	xzr, [sp, #4432]
	str	q0, [x20, #4032]
	str	q0, [x20, #4016]
	str	q0, [x20, #4000]
	str	q0, [x20, #3984]
	str	q0, [x20, #3968]
	str	q0, [x20, #3952]
	str	q0, [x20, #3936]
	str	q0, [x20, #3920]
	str	q0, [x20, #3904]
	str	q0, [x20, #3888]
	str	q0, [x20, #3872]
	str	q0, [x20, #3856]
	str	q0, [x20, #3840]
	str	q0, [x20, #3824]
	str	q0, [x20, #3808]
	str	q0, [x20, #3792]
	str	q0, [x20, #3776]
	str	q0, [x20, #3760]
	str	q0, [x20, #3744]
	str	q0, [x20, #3728]
	b	.LBB15_6
.LBB15_5:                               // %arm.1.i.i.i
	add	x0, sp, #1, lsl #12             // =4096
	orr	x1, x24, #0x8
	mov	w2, #328                        // =0x148
	add	x0, x0, #16
	bl	memcpy
.LBB15_6:                               // %"loading::pattern_of.exit.i.i"
	add	x1, sp, #1, lsl #12             // =4096
	add	x8, x19, #1
	add	x0, sp, #56
	add	x1, x1, #16
	mov	w2, #328                        // =0x148
	str	x8, [sp, #32]                   // 8-byte Spill
	add	x19, sp, #56
	bl	memcpy
	movi	v0.2d, #0000000000000000
	ldr	x24, [sp, #56]
	sub	x8, x24, #1
	cmp	x8, #63
	stp	q0, q0, [x20, #64]
	stp	q0, q0, [x20, #96]
	stp	q0, q0, [x20, #128]
	stp	q0, q0, [x20, #160]
	stp	q0, q0, [x20, #192]
	stp	q0, q0, [x20, #224]
	stp	q0, q0, [x20, #256]
	stp	q0, q0, [x20, #288]
	stp	q0, q0, [x20, #320]
	stp	q0, q0, [x20, #352]
	stp	q0, q0, [x20, #384]
	stp	q0, q0, [x20, #416]
	stp	q0, q0, [x20, #448]
	stp	q0, q0, [x20, #480]
	stp	q0, q0, [x20, #512]
	stp	q0, q0, [x20, #544]
	b.hi	.LBB15_18
// %bb.7:                               // %arm.3.i.preheader.i.i.i.i.i.i.i
	add	x8, x25, x21
	add	x28, x26, x28
	add	x23, x22, x23
	str	x8, [sp, #8]                    // 8-byte Spill
	add	x8, sp, #1552
	ldr	x22, [x29, #104]
	add	x26, x8, #8
	add	x1, x19, #8
	mov	w2, #320                        // =0x140
	mov	x0, x26
	str	x24, [sp, #1552]
	bl	memcpy
	mov	x8, x24
	b	.LBB15_10
.LBB15_8:                               // %arm.2.i.i.i.i.i.i.i.i.i.i.i.i.i
                                        //   in Loop: Header=BB15_10 Depth=1
	and	w9, w9, #0x7f
	sub	w9, w9, #33
	cmp	w9, #94
	b.hs	.LBB15_18
.LBB15_9:                               // %loop.2.backedge.i.i.i.i.i.i.i.i
                                        //   in Loop: Header=BB15_10 Depth=1
	sub	x8, x8, #1
	add	x26, x26, #5
	cbz	x8, .LBB15_17
.LBB15_10:                              // %arm.3.i.i.i.i.i.i.i.i
                                        // =>This Inner Loop Header: Depth=1
	ldrb	w9, [x26]
	cmp	w9, #200
	b.hi	.LBB15_18
// %bb.11:                              // %then.1.i.i.i.i.i.i.i.i.i.i.i
                                        //   in Loop: Header=BB15_10 Depth=1
	ldrb	w9, [x26, #1]
	cbnz	w9, .LBB15_9
// %bb.12:                              // %arm.1.i.i.i.i.i.i.i.i.i.i.i.i
                                        //   in Loop: Header=BB15_10 Depth=1
	ldrb	w10, [x26, #2]
	cbz	w10, .LBB15_9
// %bb.13:                              // %arm.1.i.i.i.i.i.i.i.i.i.i.i.i
                                        //   in Loop: Header=BB15_10 Depth=1
	ldrb	w9, [x26, #3]
	cmp	w10, #2
	b.ne	.LBB15_8
// %bb.14:                              // %arm.3.i.i.i.i.i.i.i.i.i.i.i.i.i
                                        //   in Loop: Header=BB15_10 Depth=1
	ldrb	w10, [x26, #4]
	cmp	w9, w10
	b.hi	.LBB15_18
// %bb.15:                              // %arm.3.i.i.i.i.i.i.i.i.i.i.i.i.i
                                        //   in Loop: Header=BB15_10 Depth=1
	and	w9, w9, #0x7f
	sub	w9, w9, #33
	cmp	w9, #93
	b.hi	.LBB15_18
// %bb.16:                              // %arm.3.i.i.i.i.i.i.i.i.i.i.i.i.i
                                        //   in Loop: Header=BB15_10 Depth=1
	and	w9, w10, #0x7f
	sub	w9, w9, #33
	cmp	w9, #93
	b.ls	.LBB15_9
	b	.LBB15_18
.LBB15_17:                              // %"syntax::obeys_rules.exit.i.i.i.i.i"
	add	x8, sp, #1, lsl #12             // =4096
	add	x1, x19, #8
	mov	w2, #320                        // =0x140
	add	x8, x8, #16
	str	x24, [sp, #4112]
	add	x0, x8, #8
	bl	memcpy
	add	x0, sp, #1, lsl #12             // =4096
	add	x0, x0, #16
	bl	"syntax::naming::tree_fault_of"
	and	w8, w0, #0xff
	cmp	w8, #1
	b.ne	.LBB15_32
.LBB15_18:                              // %"syntax::obeys_rules.exit.thread.i.i.i.i.i"
	mov	w25, wzr
	mov	w8, #1                          // =0x1
	ldr	x19, [sp, #48]                  // 8-byte Reload
	lsr	x9, x8, #32
	mov	w10, wzr
	cmp	x19, #31
	b.ne	.LBB15_20
.LBB15_19:                              // %then.1.i6.i.i
	ldr	x12, [sp, #32]                  // 8-byte Reload
	ldr	w11, [sp, #44]                  // 4-byte Reload
	ldr	q0, [x12]
	ldur	q1, [x12, #14]
	strb	w11, [x27]
	stur	q0, [x27, #1]
	stur	q1, [x27, #15]
.LBB15_20:                              // %"packing::desks::put_desk.exit.i.i"
	cbz	w10, .LBB15_22
// %bb.21:                              // %arm.1.i13.i.i
	mov	w0, w25
	b	.LBB15_31
.LBB15_22:                              // %arm.2.i10.i.i
	and	w10, w25, #0xff
	cmp	w10, #1
	b.gt	.LBB15_26
// %bb.23:                              // %arm.2.i10.i.i
	cbnz	w10, .LBB15_28
// %bb.24:                              // %arm.1.i3.i.i.i.i
	and	w10, w8, #0xff
	mov	w11, #1                         // =0x1
	add	w8, w10, #1
	lsl	w10, w11, w10
	mov	w11, #363                       // =0x16b
	tst	w10, w11
	b.ne	.LBB15_30
// %bb.25:
	mov	x9, xzr
	b	.LBB15_30
.LBB15_26:                              // %arm.2.i10.i.i
	cmp	w10, #3
	b.ne	.LBB15_29
// %bb.27:                              // %arm.4.i.i.i11.i.i
	mov	x9, xzr
	mov	w8, #15                         // =0xf
	b	.LBB15_30
.LBB15_28:
	mov	x9, xzr
	mov	w8, #13                         // =0xd
	b	.LBB15_30
.LBB15_29:                              // %arm.3.i.i.i.i.i
	mov	x9, xzr
	mov	w8, #14                         // =0xe
.LBB15_30:                              // %"packing::of_cause::<#d974b9a18e3e0628>.exit.i.i.i"
	orr	x0, x9, x8, lsl #32
.LBB15_31:                              // %"wumbyra_c::wumbyra_desk_put.exit"
	add	sp, sp, #1, lsl #12             // =4096
	add	sp, sp, #544
	ldp	x20, x19, [sp, #80]             // 16-byte Folded Reload
	ldp	x22, x21, [sp, #64]             // 16-byte Folded Reload
	ldp	x24, x23, [sp, #48]             // 16-byte Folded Reload
	ldp	x26, x25, [sp, #32]             // 16-byte Folded Reload
	ldp	x28, x27, [sp, #16]             // 16-byte Folded Reload
	ldp	x29, x30, [sp], #96             // 16-byte Folded Reload
	ret
.LBB15_32:                              // %join.3.i.i.i.i.i
	ldr	x14, [sp, #24]                  // 8-byte Reload
	cmp	x14, #3600
	b.hs	.LBB15_34
// %bb.33:
	mov	x8, #8                          // =0x8
	mov	w25, wzr
	movk	x8, #3600, lsl #32
	ldr	x19, [sp, #48]                  // 8-byte Reload
	lsr	x9, x8, #32
	mov	w10, wzr
	cmp	x19, #31
	b.eq	.LBB15_19
	b	.LBB15_20
.LBB15_34:                              // %arm.1.i.i.i.i
	ldr	x13, [sp, #16]                  // 8-byte Reload
	sub	x8, x13, #1
	cmp	x8, #119
	b.hi	.LBB15_47
// %bb.35:                              // %join.3.i6.i.i.i.i
	ldr	w12, [sp, #44]                  // 4-byte Reload
	cmp	w12, #31
	csel	w8, w12, wzr, lo
	cmp	w12, #30
	b.hi	.LBB15_47
// %bb.36:                              // %arm.1.i.i.i.i.i.i.i
	mov	x26, xzr
	cbz	w12, .LBB15_49
// %bb.37:                              // %join.6.i.i.i.i.i.i.i.i.preheader
	ldr	x10, [sp, #32]                  // 8-byte Reload
.LBB15_38:                              // %join.6.i.i.i.i.i.i.i.i
                                        // =>This Inner Loop Header: Depth=1
	ldrb	w9, [x10], #1
	sub	w11, w9, #1
	cmp	w11, #119
	b.hi	.LBB15_47
// %bb.39:                              // %join.10.i.i.i.i.i.i.i.i
                                        //   in Loop: Header=BB15_38 Depth=1
	mov	x11, x26
	subs	x8, x8, #1
	add	x26, x26, x9
	b.ne	.LBB15_38
// %bb.40:                              // %"desk::limits::limits_of.exit.i.i.i.i.i.i"
	cbz	x26, .LBB15_45
// %bb.41:                              // %arm.3.i.i.preheader.i.i.i.i.i.i
	add	x10, x21, x25
	neg	x11, x11
	mov	x8, xzr
	add	x10, x10, #3600
	sub	x9, x11, x9
.LBB15_42:                              // %arm.3.i.i.i.i7.i.i.i.i
                                        // =>This Inner Loop Header: Depth=1
	ldrb	w11, [x10, x9]
	and	w11, w11, #0x7f
	sub	w11, w11, #127
	cmn	w11, #94
	b.lo	.LBB15_44
// %bb.43:                              // %join.9.i.i.i.i.i.i.i.i
                                        //   in Loop: Header=BB15_42 Depth=1
	add	x9, x9, #1
	add	x8, x8, #1
	cbnz	x9, .LBB15_42
	b	.LBB15_45
.LBB15_44:                              // %"desk::limits::limits_held.exit.i.i.i.i.i"
	cmp	x26, x8
	b.hi	.LBB15_47
.LBB15_45:                              // %arm.4.i.i.i.i.i
	cmp	w12, #30
	b.ne	.LBB15_48
// %bb.46:
	mov	x8, xzr
	mov	w25, #2                         // =0x2
	ldr	x19, [sp, #48]                  // 8-byte Reload
	lsr	x9, xzr, #32
	mov	w10, wzr
	cmp	x19, #31
	b.eq	.LBB15_19
	b	.LBB15_20
.LBB15_47:
	mov	x8, xzr
	mov	w25, #1                         // =0x1
	ldr	x19, [sp, #48]                  // 8-byte Reload
	lsr	x9, xzr, #32
	mov	w10, wzr
	cmp	x19, #31
	b.eq	.LBB15_19
	b	.LBB15_20
.LBB15_48:                              // %join.10.i.i.i.i.i
	cbz	x13, .LBB15_52
.LBB15_49:                              // %arm.3.i.i.preheader.i.i.i.i.i
	mov	x8, xzr
.LBB15_50:                              // %arm.3.i.i.i.i.i.i.i
                                        // =>This Inner Loop Header: Depth=1
	ldrb	w9, [x23, x8]
	and	w9, w9, #0x7f
	sub	w9, w9, #127
	cmn	w9, #94
	b.lo	.LBB15_53
// %bb.51:                              // %join.9.i.i.i.i.i.i.i
                                        //   in Loop: Header=BB15_50 Depth=1
	add	x8, x8, #1
	cmp	x13, x8
	b.ne	.LBB15_50
	b	.LBB15_55
.LBB15_52:
	mov	x8, xzr
.LBB15_53:                              // %"syntax::first_bad.exit.i.i.i.i.i"
	cmp	x8, x13
	b.hs	.LBB15_55
// %bb.54:                              // %then.11.i.i.i.i.i
	mov	w9, #3                          // =0x3
	b	.LBB15_57
.LBB15_55:                              // %join.13.i.i.i.i.i
	add	x25, x26, x13
	lsl	x8, x25, #1
	add	x8, x8, #2
	cmp	x22, x8
	b.hs	.LBB15_58
// %bb.56:                              // %then.14.i.i.i.i.i
	mov	w9, #5                          // =0x5
.LBB15_57:                              // %arm.2.i2.i.i
	orr	x8, x9, x8, lsl #32
	mov	w25, wzr
	ldr	x19, [sp, #48]                  // 8-byte Reload
	lsr	x9, x8, #32
	mov	w10, wzr
	cmp	x19, #31
	b.eq	.LBB15_19
	b	.LBB15_20
.LBB15_58:                              // %arm.1.i3.i.i
	add	x0, sp, #448
	add	x1, sp, #56
	mov	x22, x14
	bl	"table::table_of"
	add	x0, sp, #968
	add	x1, sp, #448
	mov	w2, #512                        // =0x200
	bl	memcpy
	movi	v0.2d, #0000000000000000
	add	x2, sp, #1, lsl #12             // =4096
	add	x0, sp, #448
	add	x2, x2, #16
	add	x3, sp, #3600
	mov	x1, x24
	str	xzr, [sp, #1536]
	add	x21, sp, #3600
	str	xzr, [sp, #1520]
	str	xzr, [sp, #1528]
	str	q0, [x20, #3728]
	str	q0, [x20, #3744]
	str	q0, [x20, #3760]
	str	q0, [x20, #3776]
	str	q0, [x20, #3792]
	str	q0, [x20, #3808]
	str	q0, [x20, #3824]
	str	q0, [x20, #3840]
	str	q0, [x20, #3856]
	str	q0, [x20, #3872]
	str	q0, [x20, #3888]
	str	q0, [x20, #3904]
	str	q0, [x20, #3920]
	str	q0, [x20, #3936]
	str	q0, [x20, #3952]
	str	q0, [x20, #3968]
	str	q0, [x20, #3984]
	str	q0, [x20, #4000]
	str	q0, [x20, #4016]
	str	q0, [x20, #4032]
	str	q0, [x20, #4048]
	str	q0, [x20, #4064]
	str	q0, [x20, #4080]
	str	q0, [x20, #4096]
	str	q0, [x20, #4112]
	str	q0, [x20, #4128]
	str	q0, [x20, #4144]
	str	q0, [x20, #4160]
	str	q0, [x20, #4176]
	str	q0, [x20, #4192]
	str	q0, [x20, #4208]
	str	q0, [x20, #4224]
	str	q0, [x20, #3712]
	str	q0, [x20, #3696]
	str	q0, [x20, #3680]
	str	q0, [x20, #3664]
	str	q0, [x20, #3648]
	str	q0, [x20, #3632]
	str	q0, [x20, #3616]
	str	q0, [x20, #3600]
	str	q0, [x20, #3584]
	str	q0, [x20, #3568]
	str	q0, [x20, #3552]
	str	q0, [x20, #3536]
	str	q0, [x20, #3520]
	str	q0, [x20, #3504]
	str	q0, [x20, #3488]
	str	q0, [x20, #3472]
	str	q0, [x20, #3456]
	str	q0, [x20, #3440]
	str	q0, [x20, #3424]
	str	q0, [x20, #3408]
	str	q0, [x20, #3392]
	str	q0, [x20, #3376]
	str	q0, [x20, #3360]
	str	q0, [x20, #3344]
	str	q0, [x20, #3328]
	str	q0, [x20, #3312]
	str	q0, [x20, #3296]
	str	q0, [x20, #3280]
	str	q0, [x20, #3264]
	str	q0, [x20, #3248]
	str	q0, [x20, #3232]
	str	q0, [x20, #3216]
	bl	"masks::put_masks"
	add	x0, sp, #1552
	mov	w1, wzr
	mov	w2, #2048                       // =0x800
	add	x20, sp, #1552
	bl	memset
	ldr	x19, [sp, #48]                  // 8-byte Reload
	cbz	x24, .LBB15_78
// %bb.59:                              // %join.5.i.i.i.i.i.preheader
	mov	x8, xzr
	add	x9, x20, #16
	b	.LBB15_61
.LBB15_60:                              // %"masks::scatter::put_node.exit.i.i.i.i.i"
                                        //   in Loop: Header=BB15_61 Depth=1
	add	x8, x8, #1
	cmp	x8, x24
	b.eq	.LBB15_78
.LBB15_61:                              // %join.5.i.i.i.i.i
                                        // =>This Loop Header: Depth=1
                                        //     Child Loop BB15_67 Depth 2
                                        //     Child Loop BB15_70 Depth 2
                                        //     Child Loop BB15_74 Depth 2
                                        //     Child Loop BB15_77 Depth 2
	add	x10, sp, #968
	ldr	x11, [x10, x8, lsl #3]
	and	w10, w11, #0xff
	cmp	w10, #2
	b.eq	.LBB15_64
// %bb.62:                              // %join.5.i.i.i.i.i
                                        //   in Loop: Header=BB15_61 Depth=1
	cmp	w10, #1
	b.ne	.LBB15_60
// %bb.63:                              // %arm.2.i.i5.i.i.i.i.i
                                        //   in Loop: Header=BB15_61 Depth=1
	lsr	x10, x11, #8
	mov	w11, #1                         // =0x1
	add	x12, sp, #1552
	lsl	x11, x11, x8
	ubfiz	x10, x10, #3, #8
	ldr	x13, [x12, x10]
	orr	x11, x13, x11
	str	x11, [x12, x10]
	b	.LBB15_60
.LBB15_64:                              // %arm.3.i.i4.i.i.i.i.i
                                        //   in Loop: Header=BB15_61 Depth=1
	lsr	x13, x11, #16
	ubfx	w15, w11, #8, #8
	mov	w12, #126                       // =0x7e
	mov	w16, #1                         // =0x1
	and	w10, w13, #0xff
	cmp	w10, #126
	csel	w14, w10, w12, lo
	cmp	w15, #161
	mov	w10, #161                       // =0xa1
	csel	w12, w15, w10, hi
	lsl	x10, x16, x8
	cmp	w14, w15
	b.lo	.LBB15_71
// %bb.65:                              // %join.5.preheader.i.i.i.i.i.i.i.i.i
                                        //   in Loop: Header=BB15_61 Depth=1
	ubfx	x0, x11, #8, #8
	sub	x15, x14, x0
	add	x16, x15, #1
	mov	x15, x0
	cmp	x16, #4
	b.lo	.LBB15_69
// %bb.66:                              // %vector.ph12
                                        //   in Loop: Header=BB15_61 Depth=1
	dup	v0.2d, x10
	and	x17, x16, #0xfffffffffffffffc
	add	x18, x9, x0, lsl #3
	add	x15, x0, x17
	and	x0, x16, #0xfffffffffffffffc
.LBB15_67:                              // %vector.body17
                                        //   Parent Loop BB15_61 Depth=1
                                        // =>  This Inner Loop Header: Depth=2
	ldp	q1, q2, [x18, #-16]
	subs	x0, x0, #4
	orr	v1.16b, v1.16b, v0.16b
	orr	v2.16b, v2.16b, v0.16b
	stp	q1, q2, [x18, #-16]
	add	x18, x18, #32
	b.ne	.LBB15_67
// %bb.68:                              // %middle.block23
                                        //   in Loop: Header=BB15_61 Depth=1
	cmp	x16, x17
	b.eq	.LBB15_71
.LBB15_69:                              // %join.5.i.i.i.i.i.i.i.i.i.preheader
                                        //   in Loop: Header=BB15_61 Depth=1
	add	x16, sp, #1552
	sub	x17, x14, x15
	add	x14, x16, x15, lsl #3
	add	x15, x17, #1
.LBB15_70:                              // %join.5.i.i.i.i.i.i.i.i.i
                                        //   Parent Loop BB15_61 Depth=1
                                        // =>  This Inner Loop Header: Depth=2
	ldr	x16, [x14]
	subs	x15, x15, #1
	orr	x16, x16, x10
	str	x16, [x14], #8
	b.ne	.LBB15_70
.LBB15_71:                              // %"masks::scatter::put_between.exit.i.i.i.i.i.i.i.i"
                                        //   in Loop: Header=BB15_61 Depth=1
	cmp	w12, w13, uxtb
	b.hi	.LBB15_60
// %bb.72:                              // %join.5.preheader.i4.i.i.i.i.i.i.i.i
                                        //   in Loop: Header=BB15_61 Depth=1
	ubfx	x11, x11, #16, #8
	sub	x13, x11, x12
	add	x13, x13, #1
	cmp	x13, #4
	b.lo	.LBB15_76
// %bb.73:                              // %vector.ph
                                        //   in Loop: Header=BB15_61 Depth=1
	dup	v0.2d, x10
	and	x14, x13, #0xfffffffffffffffc
	add	x15, x9, x12, lsl #3
	add	x12, x14, x12
	and	x16, x13, #0xfffffffffffffffc
.LBB15_74:                              // %vector.body
                                        //   Parent Loop BB15_61 Depth=1
                                        // =>  This Inner Loop Header: Depth=2
	ldp	q1, q2, [x15, #-16]
	subs	x16, x16, #4
	orr	v1.16b, v1.16b, v0.16b
	orr	v2.16b, v2.16b, v0.16b
	stp	q1, q2, [x15, #-16]
	add	x15, x15, #32
	b.ne	.LBB15_74
// %bb.75:                              // %middle.block
                                        //   in Loop: Header=BB15_61 Depth=1
	cmp	x13, x14
	b.eq	.LBB15_60
.LBB15_76:                              // %join.5.i6.i.i.i.i.i.i.i.i.preheader
                                        //   in Loop: Header=BB15_61 Depth=1
	add	x13, sp, #1552
	sub	x14, x11, x12
	add	x11, x13, x12, lsl #3
	add	x12, x14, #1
.LBB15_77:                              // %join.5.i6.i.i.i.i.i.i.i.i
                                        //   Parent Loop BB15_61 Depth=1
                                        // =>  This Inner Loop Header: Depth=2
	ldr	x13, [x11]
	subs	x12, x12, #1
	orr	x13, x13, x10
	str	x13, [x11], #8
	b.ne	.LBB15_77
	b	.LBB15_60
.LBB15_78:                              // %"first_sweep::grow.exit.i.i.i"
	add	x8, x28, x26, lsl #4
	str	x20, [sp, #1504]
	ldr	x20, [sp, #16]                  // 8-byte Reload
	mov	w9, #1                          // =0x1
	cmp	x26, #0
	mov	w10, #32                        // =0x20
	ldr	x8, [x8, #8]
	strb	w9, [sp, #1536]
	cset	w9, eq
	add	x0, sp, #1480
	add	x3, sp, #1512
	mov	x1, x23
	str	x8, [sp, #1512]
	add	x8, sp, #1, lsl #12             // =4096
	mov	x2, x20
	add	x8, x8, #16
	mov	x4, x28
	str	x25, [sp, #1528]
	str	x8, [sp, #1480]
	add	x8, sp, #968
	str	x10, [sp, #1544]
	strb	w9, [sp, #1520]
	str	x21, [sp, #1488]
	str	x8, [sp, #1496]
	bl	"first_sweep::sweep"
	ldr	x12, [sp, #8]                   // 8-byte Reload
	cbz	x20, .LBB15_83
// %bb.79:                              // %join.6.i.preheader.i.i.i
	mov	w8, #3600                       // =0xe10
	mov	x11, x22
	sub	x8, x8, x25
	cmp	x22, x8
	csel	x9, x22, x8, lo
	mov	x8, x20
	b	.LBB15_81
.LBB15_80:                              // %"text::put::put_byte.exit.i.i.i.i"
                                        //   in Loop: Header=BB15_81 Depth=1
	subs	x8, x8, #1
	add	x23, x23, #1
	mov	x9, x10
	b.eq	.LBB15_83
.LBB15_81:                              // %join.6.i.i.i.i
                                        // =>This Inner Loop Header: Depth=1
	cmp	x9, x11
	mov	x10, x11
	b.hs	.LBB15_80
// %bb.82:                              // %then.1.i.i.i.i.i
                                        //   in Loop: Header=BB15_81 Depth=1
	ldrb	w10, [x23]
	strb	w10, [x12, x9]
	add	x10, x9, #1
	b	.LBB15_80
.LBB15_83:                              // %"text::put::put_bytes.exit.i.i.i"
	ldr	w10, [sp, #44]                  // 4-byte Reload
	ldr	x11, [sp, #32]                  // 8-byte Reload
	mov	w8, wzr
	mov	x9, xzr
	strb	w20, [x11, w10, uxtw]
	add	w10, w10, #1
	str	w10, [sp, #44]                  // 4-byte Spill
	mov	w10, #1                         // =0x1
	cmp	x19, #31
	b.eq	.LBB15_19
	b	.LBB15_20
.Lfunc_end15:
	.size	wumbyra_desk_put, .Lfunc_end15-wumbyra_desk_put
                                        // -- End function
	.section	.text.wumbyra_desk_withdraw,"ax",@progbits
	.globl	wumbyra_desk_withdraw           // -- Begin function wumbyra_desk_withdraw
	.p2align	2
	.type	wumbyra_desk_withdraw,@function
wumbyra_desk_withdraw:                  // @wumbyra_desk_withdraw
// %bb.0:                               // %start
	stp	x29, x30, [sp, #-96]!           // 16-byte Folded Spill
	stp	x28, x27, [sp, #16]             // 16-byte Folded Spill
	mov	x29, sp
	stp	x26, x25, [sp, #32]             // 16-byte Folded Spill
	stp	x24, x23, [sp, #48]             // 16-byte Folded Spill
	stp	x22, x21, [sp, #64]             // 16-byte Folded Spill
	stp	x20, x19, [sp, #80]             // 16-byte Folded Spill
	sub	sp, sp, #1072
	cmp	x0, #0
	mov	w11, #4096                      // =0x1000
	mov	x21, x5
	csel	x10, x11, xzr, eq
	cmp	x2, #0
	mov	x20, x4
	csel	x12, x11, xzr, eq
	cmp	x4, #0
	mov	x19, x3
	mov	x8, x0
	mov	x9, x1
	csel	x26, x11, xzr, eq
	cmp	x3, #31
	add	x24, sp, #320
	add	x23, x2, x12
	str	xzr, [sp]
	b.ne	.LBB16_2
// %bb.1:                               // %join.3.i.i.i
	ldur	q0, [x23, #1]
	ldur	q1, [x23, #15]
	ldrb	w25, [x23]
	str	q0, [sp, #320]
	stur	q1, [x24, #14]
	b	.LBB16_3
.LBB16_2:                               // %then.1.i.i.i
	stp	xzr, xzr, [sp, #320]
	mov	w25, #31                        // =0x1f
	stur	xzr, [x24, #22]
	str	xzr, [sp, #336]
.LBB16_3:                               // %"packing::desks::desk_of.exit.i.i"
	movi	v1.2d, #0000000000000000
	ldr	q0, [sp, #320]
	ldur	q2, [x24, #14]
	add	x0, sp, #384
	add	x1, x8, x10
	mov	x2, x9
	stur	q0, [x24, #34]
	add	x22, sp, #384
	stur	q2, [x24, #48]
	stp	q1, q1, [sp, #400]
	stp	q1, q1, [sp, #432]
	stp	q1, q1, [sp, #464]
	stp	q1, q1, [sp, #496]
	stp	q1, q1, [sp, #528]
	stp	q1, q1, [sp, #560]
	stp	q1, q1, [sp, #592]
	stp	q1, q1, [sp, #624]
	stp	q1, q1, [sp, #656]
	stp	q1, q1, [sp, #688]
	str	q1, [sp, #384]
	bl	"loading::load"
	ldrb	w8, [sp, #384]
	cbnz	w8, .LBB16_16
// %bb.4:                               // %"loading::pattern_of.exit.i.i"
	ldr	x28, [sp, #392]
	mov	x0, sp
	add	x1, x22, #16
	mov	w2, #320                        // =0x140
	bl	memcpy
	sub	x8, x28, #1
	cmp	x8, #63
	b.hi	.LBB16_16
// %bb.5:                               // %arm.3.i.preheader.i.i.i.i.i.i.i
	add	x9, sp, #384
	add	x8, sp, #353
	mov	x1, sp
	add	x22, x9, #8
	mov	w2, #320                        // =0x140
	add	x27, x8, #1
	mov	x0, x22
	str	x28, [sp, #384]
	bl	memcpy
	mov	x8, x28
	b	.LBB16_8
.LBB16_6:                               // %arm.2.i.i.i.i.i.i.i.i.i.i.i.i.i
                                        //   in Loop: Header=BB16_8 Depth=1
	and	w9, w9, #0x7f
	sub	w9, w9, #33
	cmp	w9, #94
	b.hs	.LBB16_16
.LBB16_7:                               // %loop.2.backedge.i.i.i.i.i.i.i.i
                                        //   in Loop: Header=BB16_8 Depth=1
	sub	x8, x8, #1
	add	x22, x22, #5
	cbz	x8, .LBB16_15
.LBB16_8:                               // %arm.3.i.i.i.i.i.i.i.i
                                        // =>This Inner Loop Header: Depth=1
	ldrb	w9, [x22]
	cmp	w9, #200
	b.hi	.LBB16_16
// %bb.9:                               // %then.1.i.i.i.i.i.i.i.i.i.i.i
                                        //   in Loop: Header=BB16_8 Depth=1
	ldrb	w9, [x22, #1]
	cbnz	w9, .LBB16_7
// %bb.10:                              // %arm.1.i.i.i.i.i.i.i.i.i.i.i.i
                                        //   in Loop: Header=BB16_8 Depth=1
	ldrb	w10, [x22, #2]
	cbz	w10, .LBB16_7
// %bb.11:                              // %arm.1.i.i.i.i.i.i.i.i.i.i.i.i
                                        //   in Loop: Header=BB16_8 Depth=1
	ldrb	w9, [x22, #3]
	cmp	w10, #2
	b.ne	.LBB16_6
// %bb.12:                              // %arm.3.i.i.i.i.i.i.i.i.i.i.i.i.i
                                        //   in Loop: Header=BB16_8 Depth=1
	ldrb	w10, [x22, #4]
	cmp	w9, w10
	b.hi	.LBB16_16
// %bb.13:                              // %arm.3.i.i.i.i.i.i.i.i.i.i.i.i.i
                                        //   in Loop: Header=BB16_8 Depth=1
	and	w9, w9, #0x7f
	sub	w9, w9, #33
	cmp	w9, #93
	b.hi	.LBB16_16
// %bb.14:                              // %arm.3.i.i.i.i.i.i.i.i.i.i.i.i.i
                                        //   in Loop: Header=BB16_8 Depth=1
	and	w9, w10, #0x7f
	sub	w9, w9, #33
	cmp	w9, #93
	b.ls	.LBB16_7
	b	.LBB16_16
.LBB16_15:                              // %"syntax::obeys_rules.exit.i.i.i.i.i"
	add	x8, sp, #728
	mov	x1, sp
	mov	w2, #320                        // =0x140
	add	x0, x8, #8
	str	x28, [sp, #728]
	bl	memcpy
	add	x0, sp, #728
	bl	"syntax::naming::tree_fault_of"
	and	w8, w0, #0xff
	cmp	w8, #1
	b.ne	.LBB16_29
.LBB16_16:                              // %"syntax::obeys_rules.exit.thread.i.i.i.i.i"
	mov	w9, wzr
	mov	w10, wzr
	mov	w8, #1                          // =0x1
.LBB16_17:                              // %"desk::withdraw.exit.i.i"
	cmp	x19, #31
	b.ne	.LBB16_19
// %bb.18:                              // %then.1.i6.i.i
	ldr	q0, [sp, #320]
	ldur	q1, [x24, #14]
	strb	w25, [x23]
	stur	q0, [x23, #1]
	stur	q1, [x23, #15]
.LBB16_19:                              // %"packing::desks::put_desk.exit.i.i"
	cbz	w9, .LBB16_22
// %bb.20:                              // %arm.1.i12.i.i
	mov	w0, w10
.LBB16_21:                              // %"wumbyra_c::wumbyra_desk_withdraw.exit"
	add	sp, sp, #1072
	ldp	x20, x19, [sp, #80]             // 16-byte Folded Reload
	ldp	x22, x21, [sp, #64]             // 16-byte Folded Reload
	ldp	x24, x23, [sp, #48]             // 16-byte Folded Reload
	ldp	x26, x25, [sp, #32]             // 16-byte Folded Reload
	ldp	x28, x27, [sp, #16]             // 16-byte Folded Reload
	ldp	x29, x30, [sp], #96             // 16-byte Folded Reload
	ret
.LBB16_22:                              // %arm.2.i10.i.i
	and	w9, w10, #0xff
	cmp	w9, #1
	b.gt	.LBB16_25
// %bb.23:                              // %arm.2.i10.i.i
	cbnz	w9, .LBB16_27
// %bb.24:                              // %arm.1.i3.i.i.i.i
	lsr	x9, x8, #32
	mvn	w10, w8
	mov	w11, #9                         // =0x9
	tst	x10, x11
	csel	x9, xzr, x9, eq
	orr	x8, x9, x8, lsl #32
	mov	x9, #4294967296                 // =0x100000000
	add	x0, x8, x9
	b	.LBB16_21
.LBB16_25:                              // %arm.2.i10.i.i
	cmp	w9, #3
	b.ne	.LBB16_28
// %bb.26:                              // %arm.4.i.i.i.i.i
	mov	x0, #64424509440                // =0xf00000000
	b	.LBB16_21
.LBB16_27:
	mov	x0, #55834574848                // =0xd00000000
	b	.LBB16_21
.LBB16_28:                              // %arm.3.i.i.i.i.i
	mov	x0, #60129542144                // =0xe00000000
	b	.LBB16_21
.LBB16_29:                              // %join.3.i.i.i.i.i
	cmp	x21, #3600
	b.hs	.LBB16_31
// %bb.30:
	mov	x8, #8                          // =0x8
	mov	w9, wzr
	mov	w10, wzr
	movk	x8, #3600, lsl #32
	b	.LBB16_17
.LBB16_31:                              // %arm.1.i.i.i.i
	cmp	w25, #31
	csel	w8, w25, wzr, lo
	cmp	w25, #30
	b.hi	.LBB16_43
// %bb.32:                              // %arm.1.i.i.i.i.i.i.i
	cbz	w25, .LBB16_40
// %bb.33:                              // %join.6.i.i.i.i.i.i.i.i.preheader
	mov	x9, xzr
	mov	x11, x27
.LBB16_34:                              // %join.6.i.i.i.i.i.i.i.i
                                        // =>This Inner Loop Header: Depth=1
	ldrb	w10, [x11], #1
	sub	w12, w10, #1
	cmp	w12, #119
	b.hi	.LBB16_43
// %bb.35:                              // %join.10.i.i.i.i.i.i.i.i
                                        //   in Loop: Header=BB16_34 Depth=1
	mov	x12, x9
	subs	x8, x8, #1
	add	x9, x9, x10
	b.ne	.LBB16_34
// %bb.36:                              // %"desk::limits::limits_of.exit.i.i.i.i.i.i"
	cbz	x9, .LBB16_42
// %bb.37:                              // %arm.3.i.i.preheader.i.i.i.i.i.i
	add	x11, x26, x20
	neg	x12, x12
	mov	x8, xzr
	add	x11, x11, #3600
	sub	x10, x12, x10
.LBB16_38:                              // %arm.3.i.i.i.i7.i.i.i.i
                                        // =>This Inner Loop Header: Depth=1
	ldrb	w12, [x11, x10]
	and	w12, w12, #0x7f
	sub	w12, w12, #127
	cmn	w12, #94
	b.lo	.LBB16_41
// %bb.39:                              // %join.9.i.i.i.i.i.i.i.i
                                        //   in Loop: Header=BB16_38 Depth=1
	add	x10, x10, #1
	add	x8, x8, #1
	cbnz	x10, .LBB16_38
	b	.LBB16_42
.LBB16_40:
	mov	w9, wzr
	mov	x8, xzr
	mov	w10, #3                         // =0x3
	b	.LBB16_17
.LBB16_41:                              // %"desk::limits::limits_held.exit.i.i.i.i.i"
	cmp	x9, x8
	b.hi	.LBB16_43
.LBB16_42:                              // %arm.1.i3.i.i
	sub	w25, w25, #1
	mov	x8, xzr
	and	x10, x25, #0xff
	ldrb	w10, [x27, x10]
	sub	w10, w9, w10
	mov	w9, #1                          // =0x1
	b	.LBB16_17
.LBB16_43:
	mov	w9, wzr
	mov	x8, xzr
	mov	w10, #1                         // =0x1
	b	.LBB16_17
.Lfunc_end16:
	.size	wumbyra_desk_withdraw, .Lfunc_end16-wumbyra_desk_withdraw
                                        // -- End function
	.section	.text.wumbyra_flatten,"ax",@progbits
	.globl	wumbyra_flatten                 // -- Begin function wumbyra_flatten
	.p2align	2
	.type	wumbyra_flatten,@function
wumbyra_flatten:                        // @wumbyra_flatten
// %bb.0:                               // %start
	stp	x29, x30, [sp, #-96]!           // 16-byte Folded Spill
	str	x28, [sp, #16]                  // 8-byte Spill
	mov	x29, sp
	stp	x26, x25, [sp, #32]             // 16-byte Folded Spill
	stp	x24, x23, [sp, #48]             // 16-byte Folded Spill
	stp	x22, x21, [sp, #64]             // 16-byte Folded Spill
	stp	x20, x19, [sp, #80]             // 16-byte Folded Spill
	sub	sp, sp, #688
	movi	v0.2d, #0000000000000000
	mov	x23, x2
	cmp	x0, #0
	mov	w9, #4096                       // =0x1000
	mov	x8, x0
	mov	x2, x1
	csel	x10, x9, xzr, eq
	cmp	x23, #0
	add	x0, sp, #352
	csel	x24, x9, xzr, eq
	cmp	x5, #0
	add	x1, x8, x10
	mov	x19, x6
	mov	x21, x5
	mov	w20, w4
	mov	x22, x3
	str	wzr, [sp, #8]
	csel	x25, x9, xzr, eq
	str	xzr, [sp]
	add	x26, sp, #352
	stp	q0, q0, [sp, #368]
	stp	q0, q0, [sp, #400]
	stp	q0, q0, [sp, #432]
	stp	q0, q0, [sp, #464]
	stp	q0, q0, [sp, #496]
	stp	q0, q0, [sp, #528]
	stp	q0, q0, [sp, #560]
	stp	q0, q0, [sp, #592]
	stp	q0, q0, [sp, #624]
	stp	q0, q0, [sp, #656]
	str	q0, [sp, #352]
	bl	"loading::load"
	ldrb	w8, [sp, #352]
	cbz	w8, .LBB17_2
// %bb.1:                               // %arm.2.i.i.i
	movi	v0.2d, #0000000000000000
	str	xzr, [sp, #336]
	stp	q0, q0, [sp, #16]
	stp	q0, q0, [sp, #48]
	stp	q0, q0, [sp, #80]
	stp	q0, q0, [sp, #112]
	stp	q0, q0, [sp, #144]
	stp	q0, q0, [sp, #176]
	stp	q0, q0, [sp, #208]
	stp	q0, q0, [sp, #240]
	stp	q0, q0, [sp, #272]
	stp	q0, q0, [sp, #304]
	b	.LBB17_3
.LBB17_2:                               // %arm.1.i.i.i
	add	x0, sp, #16
	orr	x1, x26, #0x8
	mov	w2, #328                        // =0x148
	bl	memcpy
.LBB17_3:                               // %"loading::pattern_of.exit.i.i"
	mov	x0, sp
	add	x1, sp, #16
	add	x2, x23, x24
	add	x5, x21, x25
	mov	x3, x22
	mov	w4, w20
	mov	x6, x19
	bl	"codes::flatten"
	ldrb	w8, [sp]
	ldr	w0, [sp, #4]
	cbz	w8, .LBB17_7
// %bb.4:                               // %arm.2.i2.i.i
	and	w10, w0, #0xff
	mov	w11, #1                         // =0x1
	ldr	w9, [sp, #8]
	lsl	w10, w11, w10
	mov	w11, #363                       // =0x16b
	mov	x8, xzr
	tst	w10, w11
	b.eq	.LBB17_6
// %bb.5:                               // %after.2.i.i.i.i.i
	mov	x8, x9
.LBB17_6:                               // %"packing::of_cause::<#ebb002963c42623e>.exit.i.i.i"
	and	w9, w0, #0xff
	orr	x8, x8, x9, lsl #32
	mov	x9, #4294967296                 // =0x100000000
	add	x0, x8, x9
.LBB17_7:                               // %"wumbyra_c::wumbyra_flatten.exit"
	add	sp, sp, #688
	ldp	x20, x19, [sp, #80]             // 16-byte Folded Reload
	ldr	x28, [sp, #16]                  // 8-byte Reload
	ldp	x22, x21, [sp, #64]             // 16-byte Folded Reload
	ldp	x24, x23, [sp, #48]             // 16-byte Folded Reload
	ldp	x26, x25, [sp, #32]             // 16-byte Folded Reload
	ldp	x29, x30, [sp], #96             // 16-byte Folded Reload
	ret
.Lfunc_end17:
	.size	wumbyra_flatten, .Lfunc_end17-wumbyra_flatten
                                        // -- End function
	.section	.text.wumbyra_load,"ax",@progbits
	.globl	wumbyra_load                    // -- Begin function wumbyra_load
	.p2align	2
	.type	wumbyra_load,@function
wumbyra_load:                           // @wumbyra_load
// %bb.0:                               // %start
	sub	sp, sp, #368
	movi	v0.2d, #0000000000000000
	cmp	x0, #0
	mov	w9, #4096                       // =0x1000
	mov	x8, x0
	csel	x9, x9, xzr, eq
	mov	x2, x1
	mov	x0, sp
	add	x1, x8, x9
	stp	x29, x30, [sp, #336]            // 16-byte Folded Spill
	str	x28, [sp, #352]                 // 8-byte Spill
	add	x29, sp, #336
	stp	q0, q0, [sp, #16]
	stp	q0, q0, [sp, #48]
	stp	q0, q0, [sp, #80]
	stp	q0, q0, [sp, #112]
	stp	q0, q0, [sp, #144]
	stp	q0, q0, [sp, #176]
	stp	q0, q0, [sp, #208]
	stp	q0, q0, [sp, #240]
	stp	q0, q0, [sp, #272]
	stp	q0, q0, [sp, #304]
	str	q0, [sp]
	bl	"loading::load"
	ldrb	w8, [sp]
	cbz	w8, .LBB18_4
// %bb.1:                               // %arm.2.i.i
	ldrb	w8, [sp, #4]
	mov	w10, #1                         // =0x1
	mov	w11, #363                       // =0x16b
	mov	x9, xzr
	lsl	w10, w10, w8
	tst	w10, w11
	b.eq	.LBB18_3
// %bb.2:                               // %after.2.i.i.i.i
	ldr	w9, [sp, #8]
.LBB18_3:                               // %"packing::of_cause::<#ebb002963c42623e>.exit.i.i"
	orr	x8, x9, x8, lsl #32
	mov	x9, #4294967296                 // =0x100000000
	add	x0, x8, x9
	ldp	x29, x30, [sp, #336]            // 16-byte Folded Reload
	ldr	x28, [sp, #352]                 // 8-byte Reload
	add	sp, sp, #368
	ret
.LBB18_4:                               // %arm.1.i.i
	ldr	w0, [sp, #8]
	ldp	x29, x30, [sp, #336]            // 16-byte Folded Reload
	ldr	x28, [sp, #352]                 // 8-byte Reload
	add	sp, sp, #368
	ret
.Lfunc_end18:
	.size	wumbyra_load, .Lfunc_end18-wumbyra_load
                                        // -- End function
	.section	.text.wumbyra_locate,"ax",@progbits
	.globl	wumbyra_locate                  // -- Begin function wumbyra_locate
	.p2align	2
	.type	wumbyra_locate,@function
wumbyra_locate:                         // @wumbyra_locate
// %bb.0:                               // %start
	stp	x29, x30, [sp, #-64]!           // 16-byte Folded Spill
	stp	x28, x23, [sp, #16]             // 16-byte Folded Spill
	mov	x29, sp
	stp	x22, x21, [sp, #32]             // 16-byte Folded Spill
	stp	x20, x19, [sp, #48]             // 16-byte Folded Spill
	sub	sp, sp, #3072
	str	xzr, [sp]
	sub	sp, sp, #1376
	movi	v0.2d, #0000000000000000
	cmp	x0, #0
	mov	w10, #4096                      // =0x1000
	csel	x11, x10, xzr, eq
	cmp	x2, #0
	mov	x8, x1
	mov	x9, x0
	csel	x10, x10, xzr, eq
	add	x21, sp, #336
	add	x20, x2, x10
	add	x0, sp, #1376
	add	x1, x9, x11
	mov	x2, x8
	str	xzr, [sp]
	mov	x19, x3
	str	q0, [x21, #1040]
	add	x22, sp, #1376
	str	q0, [x21, #1056]
	str	q0, [x21, #1072]
	str	q0, [x21, #1088]
	str	q0, [x21, #1104]
	str	q0, [x21, #1120]
	str	q0, [x21, #1136]
	str	q0, [x21, #1152]
	str	q0, [x21, #1168]
	str	q0, [x21, #1184]
	str	q0, [x21, #1200]
	str	q0, [x21, #1216]
	str	q0, [x21, #1232]
	str	q0, [x21, #1248]
	str	q0, [x21, #1264]
	str	q0, [x21, #1280]
	str	q0, [x21, #1296]
	str	q0, [x21, #1312]
	str	q0, [x21, #1328]
	str	q0, [x21, #1344]
	str	q0, [x21, #1360]
	bl	"loading::load"
	ldrb	w8, [sp, #1376]
	cbz	w8, .LBB19_2
// %bb.1:                               // %arm.2.i.i.i
	movi	v0.2d, #0000000000000000
	str	xzr, [sp, #4256]
	str	q0, [x21, #3904]
	str	q0, [x21, #3888]
	str	q0, [x21, #3872]
	str	q0, [x21, #3856]
	str	q0, [x21, #3840]
	str	q0, [x21, #3824]
	str	q0, [x21, #3808]
	str	q0, [x21, #3792]
	str	q0, [x21, #3776]
	str	q0, [x21, #3760]
	str	q0, [x21, #3744]
	str	q0, [x21, #3728]
	str	q0, [x21, #3712]
	str	q0, [x21, #3696]
	str	q0, [x21, #3680]
	str	q0, [x21, #3664]
	str	q0, [x21, #3648]
	str	q0, [x21, #3632]
	str	q0, [x21, #3616]
	str	q0, [x21, #3600]
	b	.LBB19_3
.LBB19_2:                               // %arm.1.i.i.i
	add	x0, sp, #3936
	orr	x1, x22, #0x8
	mov	w2, #328                        // =0x148
	bl	memcpy
.LBB19_3:                               // %"loading::pattern_of.exit.i.i"
	add	x0, sp, #8
	add	x1, sp, #3936
	mov	w2, #328                        // =0x148
	bl	memcpy
	movi	v0.2d, #0000000000000000
	add	x0, sp, #848
	add	x1, sp, #8
	mov	x2, x20
	mov	x3, x19
	str	xzr, [sp, #848]
	str	wzr, [sp, #856]
	stp	q0, q0, [x21]
	stp	q0, q0, [x21, #32]
	stp	q0, q0, [x21, #64]
	stp	q0, q0, [x21, #96]
	stp	q0, q0, [x21, #128]
	stp	q0, q0, [x21, #160]
	stp	q0, q0, [x21, #192]
	stp	q0, q0, [x21, #224]
	stp	q0, q0, [x21, #256]
	stp	q0, q0, [x21, #288]
	stp	q0, q0, [x21, #320]
	stp	q0, q0, [x21, #352]
	stp	q0, q0, [x21, #384]
	stp	q0, q0, [x21, #416]
	stp	q0, q0, [x21, #448]
	stp	q0, q0, [x21, #480]
	bl	"checks::check_tape"
	ldrb	w8, [sp, #848]
	cbz	w8, .LBB19_7
// %bb.4:                               // %arm.2.i5.i.i
	ldrb	w8, [sp, #852]
	mov	w11, #1                         // =0x1
	ldr	w9, [sp, #856]
	mov	w12, #363                       // =0x16b
	mov	x10, xzr
	lsl	w11, w11, w8
	tst	w11, w12
	b.eq	.LBB19_6
// %bb.5:                               // %after.2.i.i.i.i.i
	mov	x10, x9
.LBB19_6:                               // %"packing::of_cause::<#ebb002963c42623e>.exit.i.i.i"
	orr	x8, x10, x8, lsl #32
	mov	x9, #4294967296                 // =0x100000000
	add	x0, x8, x9
	b	.LBB19_45
.LBB19_7:                               // %arm.1.i3.i.i
	add	x0, sp, #336
	add	x1, sp, #8
	bl	"table::table_of"
	add	x0, sp, #864
	add	x1, sp, #336
	mov	w2, #512                        // =0x200
	bl	memcpy
	movi	v0.2d, #0000000000000000
	ldr	x22, [sp, #8]
	add	x0, sp, #336
	add	x2, sp, #3936
	add	x3, sp, #3424
	mov	x1, x22
	str	q0, [x21, #3600]
	str	q0, [x21, #3616]
	str	q0, [x21, #3632]
	str	q0, [x21, #3648]
	str	q0, [x21, #3664]
	str	q0, [x21, #3680]
	str	q0, [x21, #3696]
	str	q0, [x21, #3712]
	str	q0, [x21, #3728]
	str	q0, [x21, #3744]
	str	q0, [x21, #3760]
	str	q0, [x21, #3776]
	str	q0, [x21, #3792]
	str	q0, [x21, #3808]
	str	q0, [x21, #3824]
	str	q0, [x21, #3840]
	str	q0, [x21, #3856]
	str	q0, [x21, #3872]
	str	q0, [x21, #3888]
	str	q0, [x21, #3904]
	str	q0, [x21, #3920]
	str	q0, [x21, #3936]
	str	q0, [x21, #3952]
	str	q0, [x21, #3968]
	str	q0, [x21, #3984]
	str	q0, [x21, #4000]
	str	q0, [x21, #4016]
	str	q0, [x21, #4032]
	str	q0, [x21, #4048]
	str	q0, [x21, #4064]
	str	q0, [x21, #4080]
	str	q0, [x21, #4096]
	str	q0, [x21, #3584]
	str	q0, [x21, #3568]
	str	q0, [x21, #3552]
	str	q0, [x21, #3536]
	str	q0, [x21, #3520]
	str	q0, [x21, #3504]
	str	q0, [x21, #3488]
	str	q0, [x21, #3472]
	str	q0, [x21, #3456]
	str	q0, [x21, #3440]
	str	q0, [x21, #3424]
	str	q0, [x21, #3408]
	str	q0, [x21, #3392]
	str	q0, [x21, #3376]
	str	q0, [x21, #3360]
	str	q0, [x21, #3344]
	str	q0, [x21, #3328]
	str	q0, [x21, #3312]
	str	q0, [x21, #3296]
	str	q0, [x21, #3280]
	str	q0, [x21, #3264]
	str	q0, [x21, #3248]
	str	q0, [x21, #3232]
	str	q0, [x21, #3216]
	str	q0, [x21, #3200]
	str	q0, [x21, #3184]
	str	q0, [x21, #3168]
	str	q0, [x21, #3152]
	str	q0, [x21, #3136]
	str	q0, [x21, #3120]
	str	q0, [x21, #3104]
	str	q0, [x21, #3088]
	bl	"masks::put_masks"
	mov	x21, x0
	add	x0, sp, #1376
	mov	w1, wzr
	mov	w2, #2048                       // =0x800
	add	x23, sp, #1376
	bl	memset
	cbz	x22, .LBB19_27
// %bb.8:                               // %join.5.i.i.i.i.i.preheader
	mov	x8, xzr
	add	x9, x23, #16
	b	.LBB19_10
.LBB19_9:                               // %"masks::scatter::put_node.exit.i.i.i.i.i"
                                        //   in Loop: Header=BB19_10 Depth=1
	add	x8, x8, #1
	cmp	x8, x22
	b.eq	.LBB19_27
.LBB19_10:                              // %join.5.i.i.i.i.i
                                        // =>This Loop Header: Depth=1
                                        //     Child Loop BB19_16 Depth 2
                                        //     Child Loop BB19_19 Depth 2
                                        //     Child Loop BB19_23 Depth 2
                                        //     Child Loop BB19_26 Depth 2
	add	x10, sp, #864
	ldr	x11, [x10, x8, lsl #3]
	and	w10, w11, #0xff
	cmp	w10, #2
	b.eq	.LBB19_13
// %bb.11:                              // %join.5.i.i.i.i.i
                                        //   in Loop: Header=BB19_10 Depth=1
	cmp	w10, #1
	b.ne	.LBB19_9
// %bb.12:                              // %arm.2.i.i5.i.i.i.i.i
                                        //   in Loop: Header=BB19_10 Depth=1
	lsr	x10, x11, #8
	mov	w11, #1                         // =0x1
	add	x12, sp, #1376
	lsl	x11, x11, x8
	ubfiz	x10, x10, #3, #8
	ldr	x13, [x12, x10]
	orr	x11, x13, x11
	str	x11, [x12, x10]
	b	.LBB19_9
.LBB19_13:                              // %arm.3.i.i4.i.i.i.i.i
                                        //   in Loop: Header=BB19_10 Depth=1
	lsr	x13, x11, #16
	ubfx	w15, w11, #8, #8
	mov	w12, #126                       // =0x7e
	mov	w16, #1                         // =0x1
	and	w10, w13, #0xff
	cmp	w10, #126
	csel	w14, w10, w12, lo
	cmp	w15, #161
	mov	w10, #161                       // =0xa1
	csel	w12, w15, w10, hi
	lsl	x10, x16, x8
	cmp	w14, w15
	b.lo	.LBB19_20
// %bb.14:                              // %join.5.preheader.i.i.i.i.i.i.i.i.i
                                        //   in Loop: Header=BB19_10 Depth=1
	ubfx	x0, x11, #8, #8
	sub	x15, x14, x0
	add	x16, x15, #1
	mov	x15, x0
	cmp	x16, #4
	b.lo	.LBB19_18
// %bb.15:                              // %vector.ph4
                                        //   in Loop: Header=BB19_10 Depth=1
	dup	v0.2d, x10
	and	x17, x16, #0xfffffffffffffffc
	add	x18, x9, x0, lsl #3
	add	x15, x0, x17
	and	x0, x16, #0xfffffffffffffffc
.LBB19_16:                              // %vector.body9
                                        //   Parent Loop BB19_10 Depth=1
                                        // =>  This Inner Loop Header: Depth=2
	ldp	q1, q2, [x18, #-16]
	subs	x0, x0, #4
	orr	v1.16b, v1.16b, v0.16b
	orr	v2.16b, v2.16b, v0.16b
	stp	q1, q2, [x18, #-16]
	add	x18, x18, #32
	b.ne	.LBB19_16
// %bb.17:                              // %middle.block15
                                        //   in Loop: Header=BB19_10 Depth=1
	cmp	x16, x17
	b.eq	.LBB19_20
.LBB19_18:                              // %join.5.i.i.i.i.i.i.i.i.i.preheader
                                        //   in Loop: Header=BB19_10 Depth=1
	add	x16, sp, #1376
	sub	x17, x14, x15
	add	x14, x16, x15, lsl #3
	add	x15, x17, #1
.LBB19_19:                              // %join.5.i.i.i.i.i.i.i.i.i
                                        //   Parent Loop BB19_10 Depth=1
                                        // =>  This Inner Loop Header: Depth=2
	ldr	x16, [x14]
	subs	x15, x15, #1
	orr	x16, x16, x10
	str	x16, [x14], #8
	b.ne	.LBB19_19
.LBB19_20:                              // %"masks::scatter::put_between.exit.i.i.i.i.i.i.i.i"
                                        //   in Loop: Header=BB19_10 Depth=1
	cmp	w12, w13, uxtb
	b.hi	.LBB19_9
// %bb.21:                              // %join.5.preheader.i4.i.i.i.i.i.i.i.i
                                        //   in Loop: Header=BB19_10 Depth=1
	ubfx	x11, x11, #16, #8
	sub	x13, x11, x12
	add	x13, x13, #1
	cmp	x13, #4
	b.lo	.LBB19_25
// %bb.22:                              // %vector.ph
                                        //   in Loop: Header=BB19_10 Depth=1
	dup	v0.2d, x10
	and	x14, x13, #0xfffffffffffffffc
	add	x15, x9, x12, lsl #3
	add	x12, x14, x12
	and	x16, x13, #0xfffffffffffffffc
.LBB19_23:                              // %vector.body
                                        //   Parent Loop BB19_10 Depth=1
                                        // =>  This Inner Loop Header: Depth=2
	ldp	q1, q2, [x15, #-16]
	subs	x16, x16, #4
	orr	v1.16b, v1.16b, v0.16b
	orr	v2.16b, v2.16b, v0.16b
	stp	q1, q2, [x15, #-16]
	add	x15, x15, #32
	b.ne	.LBB19_23
// %bb.24:                              // %middle.block
                                        //   in Loop: Header=BB19_10 Depth=1
	cmp	x13, x14
	b.eq	.LBB19_9
.LBB19_25:                              // %join.5.i6.i.i.i.i.i.i.i.i.preheader
                                        //   in Loop: Header=BB19_10 Depth=1
	add	x13, sp, #1376
	sub	x14, x11, x12
	add	x11, x13, x12, lsl #3
	add	x12, x14, #1
.LBB19_26:                              // %join.5.i6.i.i.i.i.i.i.i.i
                                        //   Parent Loop BB19_10 Depth=1
                                        // =>  This Inner Loop Header: Depth=2
	ldr	x13, [x11]
	subs	x12, x12, #1
	orr	x13, x13, x10
	str	x13, [x11], #8
	b.ne	.LBB19_26
	b	.LBB19_9
.LBB19_27:                              // %"masks::scatter::put_takers.exit.i.i.i.i"
	cbz	x19, .LBB19_44
// %bb.28:                              // %join.6.preheader.i.i.i.i.i
	sub	x8, x22, #1
	mov	w9, #1                          // =0x1
	lsl	x9, x9, x8
	mov	x8, xzr
.LBB19_29:                              // %join.6.i.i.i.i.i
                                        // =>This Loop Header: Depth=1
                                        //     Child Loop BB19_31 Depth 2
                                        //     Child Loop BB19_34 Depth 2
	ldrb	w10, [x20, x8]
	add	x11, sp, #1376
	ldr	x11, [x11, x10, lsl #3]
	cbz	x11, .LBB19_37
// %bb.30:                              // %arm.3.i.i.i.i.i.i.preheader
                                        //   in Loop: Header=BB19_29 Depth=1
	mov	x10, xzr
.LBB19_31:                              // %arm.3.i.i.i.i.i.i
                                        //   Parent Loop BB19_29 Depth=1
                                        // =>  This Inner Loop Header: Depth=2
	rbit	x12, x11
	add	x13, sp, #3424
	sub	x14, x11, #1
	and	x11, x14, x11
	clz	x12, x12
	ldr	x13, [x13, x12, lsl #3]
	tst	x13, x9
	cset	w13, ne
	lsl	x12, x13, x12
	orr	x10, x12, x10
	cbnz	x11, .LBB19_31
// %bb.32:                              // %"reach::matched.exit.i.i.i.i.i"
                                        //   in Loop: Header=BB19_29 Depth=1
	cbz	x10, .LBB19_37
// %bb.33:                              // %arm.3.i7.i.i.i.i.i.preheader
                                        //   in Loop: Header=BB19_29 Depth=1
	mov	x9, xzr
.LBB19_34:                              // %arm.3.i7.i.i.i.i.i
                                        //   Parent Loop BB19_29 Depth=1
                                        // =>  This Inner Loop Header: Depth=2
	rbit	x11, x10
	add	x12, sp, #864
	mov	w13, #1                         // =0x1
	clz	x11, x11
	ldr	x11, [x12, x11, lsl #3]
	lsr	x12, x11, #32
	tst	x11, #0xc000000000
	lsl	x12, x13, x12
	sub	x13, x10, #1
	and	x10, x13, x10
	csel	x11, x12, xzr, eq
	orr	x9, x11, x9
	cbnz	x10, .LBB19_34
// %bb.35:                              // %"reach::follow.exit.i.i.i.i.i"
                                        //   in Loop: Header=BB19_29 Depth=1
	add	x8, x8, #1
	cmp	x8, x19
	b.ne	.LBB19_29
// %bb.36:
	mov	x8, x19
.LBB19_37:                              // %"reach::reach_over.exit.i.i.i.i"
	mov	w10, #1                         // =0x1
	mov	x9, x19
	b	.LBB19_39
.LBB19_38:                              //   in Loop: Header=BB19_39 Depth=1
	mov	x11, xzr
	mov	x10, xzr
	mov	x21, x11
	cbz	x9, .LBB19_43
.LBB19_39:                              // %arm.3.i.i.i.i.i
                                        // =>This Loop Header: Depth=1
                                        //     Child Loop BB19_41 Depth 2
	sub	x9, x9, #1
	add	x12, sp, #1376
	ldrb	w11, [x20, x9]
	ldr	x12, [x12, x11, lsl #3]
	cbz	x12, .LBB19_38
// %bb.40:                              // %arm.3.i.i10.i.i.i.i.preheader
                                        //   in Loop: Header=BB19_39 Depth=1
	mov	x11, xzr
.LBB19_41:                              // %arm.3.i.i10.i.i.i.i
                                        //   Parent Loop BB19_39 Depth=1
                                        // =>  This Inner Loop Header: Depth=2
	rbit	x13, x12
	add	x14, sp, #864
	add	x16, sp, #3424
	clz	x13, x13
	ldr	x14, [x14, x13, lsl #3]
	ldr	x13, [x16, x13, lsl #3]
	lsr	x15, x14, #32
	tst	x14, #0xc000000000
	lsr	x15, x21, x15
	and	x15, x15, #0x1
	csel	x14, x15, x10, eq
	mul	x13, x14, x13
	sub	x14, x12, #1
	and	x12, x14, x12
	orr	x11, x13, x11
	cbnz	x12, .LBB19_41
// %bb.42:                              // %"steps::step.exit.i.i.i.i.i"
                                        //   in Loop: Header=BB19_39 Depth=1
	cmp	x11, #0
	csel	x19, x19, x9, eq
	mov	x10, xzr
	mov	x21, x11
	cbnz	x9, .LBB19_39
.LBB19_43:                              // %"reach::resume_over.exit.loopexit.i.i.i.i"
	bfi	w8, w19, #16, #16
	ror	w0, w8, #16
	b	.LBB19_45
.LBB19_44:
	mov	x0, xzr
.LBB19_45:                              // %"wumbyra_c::wumbyra_locate.exit"
	add	sp, sp, #1, lsl #12             // =4096
	add	sp, sp, #352
	ldp	x20, x19, [sp, #48]             // 16-byte Folded Reload
	ldp	x22, x21, [sp, #32]             // 16-byte Folded Reload
	ldp	x28, x23, [sp, #16]             // 16-byte Folded Reload
	ldp	x29, x30, [sp], #64             // 16-byte Folded Reload
	ret
.Lfunc_end19:
	.size	wumbyra_locate, .Lfunc_end19-wumbyra_locate
                                        // -- End function
	.section	.text.wumbyra_parse,"ax",@progbits
	.globl	wumbyra_parse                   // -- Begin function wumbyra_parse
	.p2align	2
	.type	wumbyra_parse,@function
wumbyra_parse:                          // @wumbyra_parse
// %bb.0:                               // %start
	stp	x29, x30, [sp, #-96]!           // 16-byte Folded Spill
	stp	x28, x27, [sp, #16]             // 16-byte Folded Spill
	mov	x29, sp
	stp	x26, x25, [sp, #32]             // 16-byte Folded Spill
	stp	x24, x23, [sp, #48]             // 16-byte Folded Spill
	stp	x22, x21, [sp, #64]             // 16-byte Folded Spill
	stp	x20, x19, [sp, #80]             // 16-byte Folded Spill
	sub	sp, sp, #704
	mov	x24, x2
	movi	v0.2d, #0000000000000000
	cmp	x0, #0
	mov	w9, #4096                       // =0x1000
	mov	x8, x0
	mov	x2, x1
	csel	x10, x9, xzr, eq
	cmp	x24, #0
	add	x0, sp, #352
	csel	x25, x9, xzr, eq
	cmp	x4, #0
	add	x1, x8, x10
	csel	x26, x9, xzr, eq
	cmp	x6, #0
	mov	x19, x7
	mov	x21, x6
	mov	x20, x5
	mov	x23, x4
	mov	x22, x3
	str	wzr, [sp, #8]
	csel	x27, x9, xzr, eq
	str	xzr, [sp]
	add	x28, sp, #352
	stp	q0, q0, [sp, #368]
	stp	q0, q0, [sp, #400]
	stp	q0, q0, [sp, #432]
	stp	q0, q0, [sp, #464]
	stp	q0, q0, [sp, #496]
	stp	q0, q0, [sp, #528]
	stp	q0, q0, [sp, #560]
	stp	q0, q0, [sp, #592]
	stp	q0, q0, [sp, #624]
	stp	q0, q0, [sp, #656]
	str	q0, [sp, #352]
	bl	"loading::load"
	ldrb	w8, [sp, #352]
	cbz	w8, .LBB20_2
// %bb.1:                               // %arm.2.i.i.i
	movi	v0.2d, #0000000000000000
	str	xzr, [sp, #336]
	stp	q0, q0, [sp, #16]
	stp	q0, q0, [sp, #48]
	stp	q0, q0, [sp, #80]
	stp	q0, q0, [sp, #112]
	stp	q0, q0, [sp, #144]
	stp	q0, q0, [sp, #176]
	stp	q0, q0, [sp, #208]
	stp	q0, q0, [sp, #240]
	stp	q0, q0, [sp, #272]
	stp	q0, q0, [sp, #304]
	b	.LBB20_3
.LBB20_2:                               // %arm.1.i.i.i
	add	x0, sp, #16
	orr	x1, x28, #0x8
	mov	w2, #328                        // =0x148
	bl	memcpy
.LBB20_3:                               // %"loading::pattern_of.exit.i.i"
	mov	x0, sp
	add	x1, sp, #16
	add	x2, x24, x25
	add	x4, x23, x26
	add	x6, x21, x27
	mov	x3, x22
	mov	x5, x20
	mov	x7, x19
	bl	"parser::parse"
	ldrb	w8, [sp]
	ldr	w0, [sp, #4]
	cbz	w8, .LBB20_7
// %bb.4:                               // %arm.2.i2.i.i
	and	w10, w0, #0xff
	mov	w11, #1                         // =0x1
	ldr	w9, [sp, #8]
	lsl	w10, w11, w10
	mov	w11, #363                       // =0x16b
	mov	x8, xzr
	tst	w10, w11
	b.eq	.LBB20_6
// %bb.5:                               // %after.2.i.i.i.i.i
	mov	x8, x9
.LBB20_6:                               // %"packing::of_cause::<#ebb002963c42623e>.exit.i.i.i"
	and	w9, w0, #0xff
	orr	x8, x8, x9, lsl #32
	mov	x9, #4294967296                 // =0x100000000
	add	x0, x8, x9
.LBB20_7:                               // %"wumbyra_c::wumbyra_parse.exit"
	add	sp, sp, #704
	ldp	x20, x19, [sp, #80]             // 16-byte Folded Reload
	ldp	x22, x21, [sp, #64]             // 16-byte Folded Reload
	ldp	x24, x23, [sp, #48]             // 16-byte Folded Reload
	ldp	x26, x25, [sp, #32]             // 16-byte Folded Reload
	ldp	x28, x27, [sp, #16]             // 16-byte Folded Reload
	ldp	x29, x30, [sp], #96             // 16-byte Folded Reload
	ret
.Lfunc_end20:
	.size	wumbyra_parse, .Lfunc_end20-wumbyra_parse
                                        // -- End function
	.section	.rodata.cst16,"aM",@progbits,16
	.p2align	4, 0x0                          // -- Begin function wumbyra_span
.LCPI21_0:
	.byte	1                               // 0x1
	.byte	2                               // 0x2
	.byte	4                               // 0x4
	.byte	8                               // 0x8
	.byte	16                              // 0x10
	.byte	32                              // 0x20
	.byte	64                              // 0x40
	.byte	128                             // 0x80
	.byte	1                               // 0x1
	.byte	2                               // 0x2
	.byte	4                               // 0x4
	.byte	8                               // 0x8
	.byte	16                              // 0x10
	.byte	32                              // 0x20
	.byte	64                              // 0x40
	.byte	128                             // 0x80
	.section	.text.wumbyra_span,"ax",@progbits
	.globl	wumbyra_span
	.p2align	2
	.type	wumbyra_span,@function
wumbyra_span:                           // @wumbyra_span
// %bb.0:                               // %start
	stp	x29, x30, [sp, #-96]!           // 16-byte Folded Spill
	stp	x28, x27, [sp, #16]             // 16-byte Folded Spill
	mov	x29, sp
	stp	x26, x25, [sp, #32]             // 16-byte Folded Spill
	stp	x24, x23, [sp, #48]             // 16-byte Folded Spill
	stp	x22, x21, [sp, #64]             // 16-byte Folded Spill
	stp	x20, x19, [sp, #80]             // 16-byte Folded Spill
	sub	sp, sp, #3072
	str	xzr, [sp]
	sub	sp, sp, #1984
	mov	x23, x2
	movi	v0.2d, #0000000000000000
	cmp	x0, #0
	mov	w9, #4096                       // =0x1000
	mov	x8, x0
	mov	x2, x1
	csel	x10, x9, xzr, eq
	cmp	x23, #0
	add	x26, sp, #896
	csel	x28, x9, xzr, eq
	cmp	x4, #0
	add	x0, sp, #1424
	add	x11, x23, x28
	add	x1, x8, x10
	str	xzr, [sp]
	str	w7, [sp, #28]                   // 4-byte Spill
	mov	w24, w6
	mov	x25, x5
	mov	x20, x4
	mov	x22, x3
	stp	q0, q0, [x26, #528]
	stp	q0, q0, [x26, #560]
	add	x19, sp, #368
	csel	x21, x9, xzr, eq
	stp	q0, q0, [x26, #592]
	add	x27, sp, #1424
	stp	q0, q0, [x26, #624]
	stp	q0, q0, [x26, #656]
	stp	q0, q0, [x26, #688]
	stp	q0, q0, [x26, #720]
	stp	q0, q0, [x26, #752]
	stp	q0, q0, [x26, #784]
	stp	q0, q0, [x26, #816]
	str	x11, [sp, #32]                  // 8-byte Spill
	str	q0, [x26, #848]
	bl	"loading::load"
	ldrb	w8, [sp, #1424]
	cbz	w8, .LBB21_2
// %bb.1:                               // %arm.2.i.i.i
	movi	v0.2d, #0000000000000000
	str	xzr, [sp, #1232]
	stp	q0, q0, [x26, #16]
	stp	q0, q0, [x26, #48]
	stp	q0, q0, [x26, #80]
	stp	q0, q0, [x26, #112]
	stp	q0, q0, [x26, #144]
	stp	q0, q0, [x26, #176]
	stp	q0, q0, [x26, #208]
	stp	q0, q0, [x26, #240]
	stp	q0, q0, [x26, #272]
	stp	q0, q0, [x26, #304]
	b	.LBB21_3
.LBB21_2:                               // %arm.1.i.i.i
	add	x0, sp, #912
	orr	x1, x27, #0x8
	mov	w2, #328                        // =0x148
	bl	memcpy
.LBB21_3:                               // %"loading::pattern_of.exit.i.i"
	add	x0, sp, #40
	add	x1, sp, #912
	mov	w2, #328                        // =0x148
	bl	memcpy
	movi	v0.2d, #0000000000000000
	ldr	x27, [sp, #40]
	add	x0, sp, #880
	add	x1, sp, #40
	add	x2, x23, x28
	mov	x3, x22
	str	xzr, [sp, #904]
	str	xzr, [sp, #896]
	str	xzr, [sp, #880]
	str	wzr, [sp, #888]
	stp	q0, q0, [x19]
	stp	q0, q0, [x19, #32]
	stp	q0, q0, [x19, #64]
	stp	q0, q0, [x19, #96]
	stp	q0, q0, [x19, #128]
	stp	q0, q0, [x19, #160]
	stp	q0, q0, [x19, #192]
	stp	q0, q0, [x19, #224]
	stp	q0, q0, [x19, #256]
	stp	q0, q0, [x19, #288]
	stp	q0, q0, [x19, #320]
	stp	q0, q0, [x19, #352]
	stp	q0, q0, [x19, #384]
	stp	q0, q0, [x19, #416]
	stp	q0, q0, [x19, #448]
	stp	q0, q0, [x19, #480]
	bl	"checks::check_tape"
	ldrb	w8, [sp, #880]
	cbz	w8, .LBB21_6
// %bb.4:                               // %arm.2.i.i
	ldr	w8, [sp, #888]
	ldrb	w10, [sp, #884]
	mov	w11, #1                         // =0x1
	orr	x9, x10, x8, lsl #32
	lsl	w10, w11, w10
	mov	w11, #363                       // =0x16b
	tst	w10, w11
	b.ne	.LBB21_38
// %bb.5:
	mov	x8, xzr
	b	.LBB21_38
.LBB21_6:                               // %arm.1.i3.i.i
	add	x0, sp, #368
	add	x1, sp, #40
	bl	"table::table_of"
	add	x0, sp, #912
	add	x1, sp, #368
	mov	w2, #512                        // =0x200
	bl	memcpy
	add	x0, sp, #1424
	mov	w1, wzr
	mov	w2, #3600                       // =0xe10
	bl	memset
	cmp	x25, #16, lsl #12               // =65536
	stur	wzr, [x29, #-24]
	stur	xzr, [x29, #-32]
	b.hi	.LBB21_37
// %bb.7:                               // %join.3.i.i.i.i.i.i
	mov	w8, w24
	add	x9, x8, #7
	cmp	x25, x9, lsr #3
	b.ne	.LBB21_37
// %bb.8:                               // %then.4.i.i.i.i.i.i
	and	w9, w24, #0x7
	add	x20, x20, x21
	cbz	w9, .LBB21_10
// %bb.9:                               // %"bits::handed_good.exit.i.i.i.i.i"
	lsr	x8, x8, #3
	mov	w10, #8                         // =0x8
	sub	w9, w10, w9
	mov	w10, #-1                        // =0xffffffff
	ldrb	w8, [x20, x8]
	lsl	w9, w10, w9
	bics	wzr, w8, w9
	b.ne	.LBB21_37
.LBB21_10:                              // %join.3.i.i.i.i.i
	sub	x21, x27, #1
	mov	w3, wzr
	mov	w6, wzr
	sub	x8, x29, #17
	sub	x0, x29, #32
	add	x1, sp, #912
	add	x7, sp, #1424
	mov	x2, x21
	mov	x4, x20
	mov	x5, x25
	sub	x19, x29, #32
	str	wzr, [sp, #16]
	stp	x8, xzr, [sp]
	bl	"entries::put_entries"
	ldrb	w8, [x19]
	cmp	w8, #1
	b.ne	.LBB21_37
// %bb.11:                              // %join.3.i.i.i.i.i
	ldur	x8, [x19, #4]
	cmp	w24, w8
	b.ne	.LBB21_37
// %bb.12:                              // %arm.1.i.i.i.i
	cmp	x22, x8, lsr #32
	b.ne	.LBB21_37
// %bb.13:                              // %arm.1.i.i.i.i
	cmp	x22, #3600
	b.hi	.LBB21_37
// %bb.14:                              // %join.3.i4.i.i.i.i
	cmp	x22, #3
	b.hi	.LBB21_19
// %bb.15:                              // %then.4.i.i.i.i.i.i.i
	cbz	x22, .LBB21_40
// %bb.16:                              // %then.7.i.i.i.i.i.i.i
	ldr	x11, [sp, #32]                  // 8-byte Reload
	ldrb	w9, [sp, #1424]
	ldrb	w8, [x11]
	cmp	w8, w9
	b.ne	.LBB21_37
// %bb.17:                              // %then.7.i.i.i.i.i.i.i
	lsr	x9, x22, #1
	add	x8, sp, #1424
	ldrb	w10, [x11, x9]
	ldrb	w9, [x8, x9]
	cmp	w10, w9
	b.ne	.LBB21_37
// %bb.18:                              // %then.7.i.i.i.i.i.i.i
	sub	x9, x22, #1
	ldrb	w10, [x11, x9]
	ldrb	w8, [x8, x9]
	cmp	w10, w8
	b.eq	.LBB21_40
	b	.LBB21_37
.LBB21_19:                              // %join.6.i.i.i.i.i.i.i
	subs	x9, x22, #8
	b.hi	.LBB21_21
// %bb.20:                              // %join.5.i.i.preheader.i.i.i.i.i.i
	ldr	x10, [sp, #32]                  // 8-byte Reload
	sub	x8, x22, #4
	add	x9, sp, #1424
	ldr	s1, [sp, #1424]
	ldr	s0, [x10]
	add	x10, x10, x8
	add	x8, x9, x8
	ld1	{ v1.s }[1], [x8]
	ld1	{ v0.s }[1], [x10]
	fmov	x9, d1
	fmov	x8, d0
	cmp	x8, x9
	b.ne	.LBB21_37
	b	.LBB21_40
.LBB21_21:                              // %join.12.i.i.i.i.i.i.i
	subs	x8, x22, #32
	b.hi	.LBB21_23
// %bb.22:                              // %join.5.i.i17.preheader.i.i.i.i.i.i
	cmp	x9, #8
	mov	w8, #8                          // =0x8
	mov	w10, #16                        // =0x10
	ldr	x12, [sp, #32]                  // 8-byte Reload
	csel	x8, x9, x8, lo
	cmp	x9, #16
	add	x11, sp, #1424
	csel	x10, x9, x10, lo
	ldr	d1, [sp, #1424]
	ldr	d4, [x12, x10]
	ldr	d5, [x11, x10]
	ldr	d6, [x12, x9]
	ldr	d7, [x11, x9]
	ldr	d0, [x12]
	ldr	d2, [x12, x8]
	ldr	d3, [x11, x8]
	mov	v4.d[1], v6.d[0]
	adrp	x8, .LCPI21_0
	mov	v5.d[1], v7.d[0]
	mov	v0.d[1], v2.d[0]
	mov	v1.d[1], v3.d[0]
	cmeq	v2.16b, v4.16b, v5.16b
	cmeq	v0.16b, v0.16b, v1.16b
	ldr	q1, [x8, :lo12:.LCPI21_0]
	bic	v2.16b, v1.16b, v2.16b
	bic	v0.16b, v1.16b, v0.16b
	ext	v1.16b, v2.16b, v2.16b, #8
	ext	v3.16b, v0.16b, v0.16b, #8
	zip1	v1.16b, v2.16b, v1.16b
	b	.LBB21_35
.LBB21_23:                              // %join.15.i.i.i.i.i.i.i
	cmp	x22, #65
	b.hs	.LBB21_25
// %bb.24:                              // %join.5.i.i31.preheader.i.i.i.i.i.i
	ldr	x11, [sp, #32]                  // 8-byte Reload
	add	x10, sp, #1424
	ldp	q7, q6, [x26, #528]
	add	x9, x11, x8
	add	x8, x10, x8
	ldp	q1, q0, [x11]
	ldp	q3, q2, [x9]
	ldp	q5, q4, [x8]
	adrp	x8, .LCPI21_0
	cmeq	v1.16b, v1.16b, v7.16b
	cmeq	v0.16b, v0.16b, v6.16b
	ldr	q16, [x8, :lo12:.LCPI21_0]
	cmeq	v3.16b, v3.16b, v5.16b
	cmeq	v2.16b, v2.16b, v4.16b
	bic	v1.16b, v16.16b, v1.16b
	bic	v0.16b, v16.16b, v0.16b
	bic	v3.16b, v16.16b, v3.16b
	bic	v2.16b, v16.16b, v2.16b
	ext	v5.16b, v1.16b, v1.16b, #8
	ext	v6.16b, v0.16b, v0.16b, #8
	ext	v4.16b, v3.16b, v3.16b, #8
	ext	v7.16b, v2.16b, v2.16b, #8
	zip1	v1.16b, v1.16b, v5.16b
	zip1	v0.16b, v0.16b, v6.16b
	zip1	v3.16b, v3.16b, v4.16b
	zip1	v2.16b, v2.16b, v7.16b
	addv	h1, v1.8h
	addv	h0, v0.8h
	addv	h3, v3.8h
	addv	h2, v2.8h
	fmov	w9, s1
	fmov	w11, s0
	fmov	w8, s3
	fmov	w10, s2
	orr	w8, w9, w8
	orr	w9, w11, w10
	orr	w8, w8, w9
	b	.LBB21_36
.LBB21_25:                              // %join.5.i.preheader.i.preheader.i.i.i.i.i.i
	add	x9, x28, x23
	add	x11, sp, #1424
	and	x10, x22, #0xfc0
	add	x9, x9, #32
	add	x12, x11, #32
	mov	w11, #32                        // =0x20
	mov	x13, x22
.LBB21_26:                              // %vector.ph
                                        // =>This Inner Loop Header: Depth=1
	ldp	q0, q3, [x12, #-32]
	ldp	q1, q2, [x9, #-32]
	ldp	q4, q5, [x12], #64
	cmeq	v0.16b, v1.16b, v0.16b
	cmeq	v1.16b, v2.16b, v3.16b
	ldp	q2, q3, [x9], #64
	mvn	v0.16b, v0.16b
	mvn	v1.16b, v1.16b
	cmeq	v2.16b, v2.16b, v4.16b
	cmeq	v3.16b, v3.16b, v5.16b
	orn	v0.16b, v0.16b, v2.16b
	orn	v1.16b, v1.16b, v3.16b
	orr	v0.16b, v1.16b, v0.16b
	umaxv	b0, v0.16b
	fmov	w14, s0
	tbnz	w14, #0, .LBB21_28
// %bb.27:                              // %join.5.i.i.i.i.i.i.i
                                        //   in Loop: Header=BB21_26 Depth=1
	sub	x13, x13, #64
	add	x11, x11, #64
	cmp	x13, #64
	b.hs	.LBB21_26
	b	.LBB21_29
.LBB21_28:                              // %"vector.ph.core::slice::scan::skip_groups::<#953750c03e87c3e2>.exit.i.i.i.i.i.i_crit_edge"
	sub	x10, x11, #32
.LBB21_29:                              // %"core::slice::scan::skip_groups::<#953750c03e87c3e2>.exit.i.i.i.i.i.i"
	sub	x11, x22, x10
	adrp	x9, .LCPI21_0
	cmp	x11, #32
	b.lo	.LBB21_34
// %bb.30:                              // %join.5.i.preheader.i72.i.i.i.i.i.i.preheader
	add	x12, sp, #1424
	add	x13, x28, x10
	add	x10, x12, x10
	add	x12, x23, x13
.LBB21_31:                              // %join.5.i.preheader.i72.i.i.i.i.i.i
                                        // =>This Inner Loop Header: Depth=1
	ldp	q0, q1, [x12], #32
	ldp	q2, q3, [x10], #32
	cmeq	v1.16b, v1.16b, v3.16b
	cmeq	v0.16b, v0.16b, v2.16b
	ldr	q2, [x9, :lo12:.LCPI21_0]
	bic	v1.16b, v2.16b, v1.16b
	bic	v0.16b, v2.16b, v0.16b
	ext	v2.16b, v1.16b, v1.16b, #8
	ext	v3.16b, v0.16b, v0.16b, #8
	zip1	v1.16b, v1.16b, v2.16b
	zip1	v0.16b, v0.16b, v3.16b
	addv	h1, v1.8h
	addv	h0, v0.8h
	fmov	w13, s1
	fmov	w14, s0
	orr	w13, w14, w13
	tst	w13, #0xffff
	b.ne	.LBB21_33
// %bb.32:                              // %join.5.i87.i.i.i.i.i.i
                                        //   in Loop: Header=BB21_31 Depth=1
	sub	x11, x11, #32
	cmp	x11, #32
	b.hs	.LBB21_31
	b	.LBB21_34
.LBB21_33:                              // %"core::slice::scan::skip_groups::<#953750c03e87c3e2>.exit92.i.i.i.i.i.i"
	cmp	x11, #32
	b.hs	.LBB21_37
.LBB21_34:                              // %"codes::spells.exit.i.i.i"
	ldr	x10, [sp, #32]                  // 8-byte Reload
	add	x11, sp, #1424
	add	x10, x10, x8
	add	x8, x11, x8
	ldp	q0, q1, [x10]
	ldp	q2, q3, [x8]
	cmeq	v1.16b, v1.16b, v3.16b
	cmeq	v0.16b, v0.16b, v2.16b
	ldr	q2, [x9, :lo12:.LCPI21_0]
	bic	v1.16b, v2.16b, v1.16b
	bic	v0.16b, v2.16b, v0.16b
	ext	v2.16b, v1.16b, v1.16b, #8
	ext	v3.16b, v0.16b, v0.16b, #8
	zip1	v1.16b, v1.16b, v2.16b
.LBB21_35:                              // %"codes::spells.exit.i.i.i"
	zip1	v0.16b, v0.16b, v3.16b
	addv	h1, v1.8h
	fmov	w8, s1
	addv	h0, v0.8h
	fmov	w9, s0
	orr	w8, w9, w8
.LBB21_36:                              // %"codes::spells.exit.i.i.i"
	tst	w8, #0xffff
	b.eq	.LBB21_40
.LBB21_37:                              // %arm.2.i.thread4.i
	mov	x8, xzr
	mov	w9, #7                          // =0x7
.LBB21_38:                              // %"packing::of_cause::<#ebb002963c42623e>.exit.i.i"
	bfi	x8, x9, #32, #8
	mov	x9, #4294967296                 // =0x100000000
	add	x0, x8, x9
.LBB21_39:                              // %"wumbyra_c::wumbyra_span.exit"
	add	sp, sp, #1, lsl #12             // =4096
	add	sp, sp, #960
	ldp	x20, x19, [sp, #80]             // 16-byte Folded Reload
	ldp	x22, x21, [sp, #64]             // 16-byte Folded Reload
	ldp	x24, x23, [sp, #48]             // 16-byte Folded Reload
	ldp	x26, x25, [sp, #32]             // 16-byte Folded Reload
	ldp	x28, x27, [sp, #16]             // 16-byte Folded Reload
	ldp	x29, x30, [sp], #96             // 16-byte Folded Reload
	ret
.LBB21_40:                              // %"spans::span.exit.i.i"
	ldr	w7, [x29, #96]
	ldr	w6, [sp, #28]                   // 4-byte Reload
	add	x0, sp, #896
	add	x1, sp, #912
	mov	x2, x21
	mov	x3, x20
	mov	w4, wzr
	mov	w5, wzr
	bl	"spans::find::find"
	ldrb	w8, [sp, #896]
	cbz	w8, .LBB21_42
// %bb.41:                              // %arm.1.i.i
	ldur	x8, [x26, #4]
	lsl	w9, w8, #16
	orr	x0, x9, x8, lsr #32
	b	.LBB21_39
.LBB21_42:
	mov	x8, xzr
	mov	w9, #9                          // =0x9
	b	.LBB21_38
.Lfunc_end21:
	.size	wumbyra_span, .Lfunc_end21-wumbyra_span
                                        // -- End function
	.section	.text.wumbyra_term_totals,"ax",@progbits
	.globl	wumbyra_term_totals             // -- Begin function wumbyra_term_totals
	.p2align	2
	.type	wumbyra_term_totals,@function
wumbyra_term_totals:                    // @wumbyra_term_totals
// %bb.0:                               // %start
	stp	x29, x30, [sp, #-96]!           // 16-byte Folded Spill
	stp	x28, x27, [sp, #16]             // 16-byte Folded Spill
	mov	x29, sp
	stp	x26, x25, [sp, #32]             // 16-byte Folded Spill
	stp	x24, x23, [sp, #48]             // 16-byte Folded Spill
	stp	x22, x21, [sp, #64]             // 16-byte Folded Spill
	stp	x20, x19, [sp, #80]             // 16-byte Folded Spill
	sub	sp, sp, #3072
	str	xzr, [sp]
	sub	sp, sp, #3072
	str	xzr, [sp]
	sub	sp, sp, #3072
	str	xzr, [sp]
	sub	sp, sp, #1568
	ldr	x28, [x29, #96]
	cmp	x0, #0
	mov	w8, #4096                       // =0x1000
	csel	x22, x8, xzr, eq
	cmp	x2, #0
	mov	x19, x0
	mov	x25, x2
	mov	x26, x1
	csel	x27, x8, xzr, eq
	cmp	x28, #0
	add	x0, sp, #1144
	mov	w1, wzr
	mov	w2, #808                        // =0x328
	str	xzr, [sp]
	mov	w23, w4
	stp	w7, w5, [sp, #12]               // 8-byte Folded Spill
	mov	x24, x3
	add	x21, sp, #1968
	str	w6, [sp, #20]                   // 4-byte Spill
	csel	x20, x8, xzr, eq
	bl	memset
	add	x0, sp, #352
	mov	w1, wzr
	mov	w2, #792                        // =0x318
	bl	memset
	movi	v0.2d, #0000000000000000
	add	x0, sp, #1, lsl #12             // =4096
	add	x1, x19, x22
	add	x0, x0, #1472
	mov	x2, x26
	add	x19, sp, #1, lsl #12            // =4096
	add	x19, x19, #1472
	str	q0, [x21, #3600]
	str	q0, [x21, #3616]
	str	q0, [x21, #3632]
	str	q0, [x21, #3648]
	str	q0, [x21, #3664]
	str	q0, [x21, #3680]
	str	q0, [x21, #3696]
	str	q0, [x21, #3712]
	str	q0, [x21, #3728]
	str	q0, [x21, #3744]
	str	q0, [x21, #3760]
	str	q0, [x21, #3776]
	str	q0, [x21, #3792]
	str	q0, [x21, #3808]
	str	q0, [x21, #3824]
	str	q0, [x21, #3840]
	str	q0, [x21, #3856]
	str	q0, [x21, #3872]
	str	q0, [x21, #3888]
	str	q0, [x21, #3904]
	str	q0, [x21, #3920]
	bl	"loading::load"
	ldrb	w8, [x21, #3600]
	cbz	w8, .LBB22_2
// %bb.1:                               // %arm.2.i.i.i
	movi	v0.2d, #0000000000000000
	str	xzr, [sp, #2288]
	stp	q0, q0, [x21]
	stp	q0, q0, [x21, #32]
	stp	q0, q0, [x21, #64]
	stp	q0, q0, [x21, #96]
	stp	q0, q0, [x21, #128]
	stp	q0, q0, [x21, #160]
	stp	q0, q0, [x21, #192]
	stp	q0, q0, [x21, #224]
	stp	q0, q0, [x21, #256]
	stp	q0, q0, [x21, #288]
	b	.LBB22_3
.LBB22_2:                               // %arm.1.i.i.i
	add	x0, sp, #1968
	orr	x1, x19, #0x8
	mov	w2, #328                        // =0x148
	bl	memcpy
.LBB22_3:                               // %"loading::pattern_of.exit.i.i"
	ldr	x26, [x29, #104]
	add	x0, sp, #24
	add	x1, sp, #1968
	mov	w2, #328                        // =0x148
	add	x19, x28, x20
	bl	memcpy
	add	x0, sp, #1, lsl #12             // =4096
	mov	w1, wzr
	mov	w2, #3600                       // =0xe10
	add	x0, x0, #1472
	str	xzr, [sp, #1960]
	str	xzr, [sp, #1952]
	bl	memset
	add	x0, sp, #1968
	mov	w1, wzr
	mov	w2, #3600                       // =0xe10
	bl	memset
	add	x5, sp, #1, lsl #12             // =4096
	add	x0, sp, #1952
	add	x1, sp, #24
	add	x2, x25, x27
	add	x5, x5, #1472
	add	x6, sp, #1968
	mov	x3, x24
	mov	w4, w23
	bl	"entries::gather"
	ldrb	w8, [sp, #1952]
	ldr	x23, [sp, #1960]
	cbz	w8, .LBB22_5
// %bb.4:                               // %arm.2.i16.i.i
	ldrb	w20, [sp, #1956]
	add	x0, sp, #352
	mov	w1, wzr
	mov	w2, #792                        // =0x318
	bl	memset
	mov	w21, wzr
	mov	w22, #1                         // =0x1
	b	.LBB22_58
.LBB22_5:                               // %arm.1.i17.i.i
	mov	w8, #34079                      // =0x851f
	ldp	w13, w1, [sp, #16]              // 8-byte Folded Reload
	mov	w10, #5977                      // =0x1759
	movk	w8, #20971, lsl #16
	movk	w10, #53687, lsl #16
	mov	w11, #100                       // =0x64
	umull	x8, w13, w8
	cmp	x23, #0
	umull	x12, w13, w10
	cset	w16, ne
	cmp	x23, #2
	lsr	x9, x8, #37
	mov	w8, #23593                      // =0x5c29
	movk	w8, #655, lsl #16
	umull	x8, w9, w8
	msub	w10, w9, w11, w13
	lsr	x8, x8, #32
	msub	w8, w8, w11, w9
	lsr	x11, x12, #45
	adrp	x9, .Lstatic.0
	add	x9, x9, :lo12:.Lstatic.0
	mov	w12, w10
	mov	w13, w11
	mov	w14, w8
	b.hs	.LBB22_12
.LBB22_6:                               // %"terms::days::last_date.exit.i.i.i.i"
	sub	w15, w13, #2000
	cmp	w15, #99
	b.hi	.LBB22_11
// %bb.7:                               // %"terms::days::last_date.exit.i.i.i.i"
	sub	w15, w14, #1
	cmp	w15, #11
	b.hi	.LBB22_11
// %bb.8:                               // %then.6.i.i.i.i.i.i
	lsl	w15, w14, #2
	cmp	w14, #2
	add	x15, x9, x15
	ldur	w15, [x15, #-4]
	b.ne	.LBB22_34
// %bb.9:                               // %then.1.i.i.i.i.i.i.i
	mov	w14, #23593                     // =0x5c29
	mov	w16, #23592                     // =0x5c28
	movk	w14, #49807, lsl #16
	movk	w16, #655, lsl #16
	mul	w14, w13, w14
	ror	w14, w14, #2
	cmp	w14, w16
	b.ls	.LBB22_40
// %bb.10:                              // %else.2.i.i.i.i.i.i.i.i
	and	w13, w13, #0x3
	cmp	w13, #0
	cset	w13, eq
	add	w13, w13, w15
	sub	w12, w12, #1
	cmp	w12, w13
	b.lo	.LBB22_35
.LBB22_11:                              // %then.1.i.i.i.i
	add	x0, sp, #2, lsl #12             // =8192
	mov	w1, wzr
	mov	w2, #792                        // =0x318
	add	x0, x0, #980
	bl	memset
	mov	w20, wzr
	mov	w23, wzr
	mov	w22, #1                         // =0x1
	mov	w21, #1                         // =0x1
	b	.LBB22_57
.LBB22_12:                              // %join.5.i.i.i.i.i.preheader
	mov	x15, xzr
	sub	x16, x23, x16
	mov	w12, w10
	mov	w14, w8
	mov	w13, w11
	b	.LBB22_15
.LBB22_13:                              // %else.5.i.i.i.i.i.i.i
                                        //   in Loop: Header=BB22_15 Depth=1
	cmp	w14, #11
	mov	w12, #1                         // =0x1
	cinc	w13, w13, hi
	csinc	w14, w12, w14, hi
.LBB22_14:                              // %"terms::days::after_letter.exit.i.i.i.i.i"
                                        //   in Loop: Header=BB22_15 Depth=1
	add	x15, x15, #1
	cmp	x15, x16
	b.hs	.LBB22_6
.LBB22_15:                              // %join.5.i.i.i.i.i
                                        // =>This Inner Loop Header: Depth=1
	add	x17, sp, #1, lsl #12            // =4096
	add	x17, x17, #1472
	ldrb	w17, [x17, x15]
	cmp	w17, #68
	b.ne	.LBB22_14
// %bb.16:                              // %join.5.i.i.i.i.i
                                        //   in Loop: Header=BB22_15 Depth=1
	sub	w17, w13, #2000
	cmp	w17, #99
	b.hi	.LBB22_14
// %bb.17:                              // %then.1.i.i.i.i.i.i.i.i
                                        //   in Loop: Header=BB22_15 Depth=1
	sub	w17, w14, #1
	cmp	w17, #11
	b.hi	.LBB22_21
// %bb.18:                              // %then.6.i.i.i.i.i.i.i.i.i
                                        //   in Loop: Header=BB22_15 Depth=1
	cmp	w14, #2
	b.ne	.LBB22_22
// %bb.19:                              // %then.1.i.i.i.i.i.i.i.i.i.i
                                        //   in Loop: Header=BB22_15 Depth=1
	mov	w18, #23593                     // =0x5c29
	mov	w0, #23592                      // =0x5c28
	movk	w18, #49807, lsl #16
	movk	w0, #655, lsl #16
	mul	w18, w13, w18
	ror	w18, w18, #2
	cmp	w18, w0
	b.ls	.LBB22_23
// %bb.20:                              // %else.2.i.i.i.i.i.i.i.i.i.i.i
                                        //   in Loop: Header=BB22_15 Depth=1
	and	w18, w13, #0x3
	b	.LBB22_24
.LBB22_21:                              //   in Loop: Header=BB22_15 Depth=1
	mov	w18, wzr
	cbnz	w12, .LBB22_25
	b	.LBB22_14
.LBB22_22:                              //   in Loop: Header=BB22_15 Depth=1
	lsl	w0, w14, #2
	add	x0, x9, x0
	ldur	w0, [x0, #-4]
	add	w18, wzr, w0
	cbnz	w12, .LBB22_25
	b	.LBB22_14
.LBB22_23:                              // %then.1.i.i.i.i.i.i.i.i.i.i.i
                                        //   in Loop: Header=BB22_15 Depth=1
	mov	w18, #34079                     // =0x851f
	mov	w0, #400                        // =0x190
	movk	w18, #20971, lsl #16
	umull	x18, w13, w18
	lsr	x18, x18, #39
	msub	w18, w18, w0, w13
.LBB22_24:                              // %"calendar::is_leap.exit.i.i.i.i.i.i.i.i.i.i"
                                        //   in Loop: Header=BB22_15 Depth=1
	cmp	w18, #0
	cset	w18, eq
	lsl	w0, w14, #2
	add	x0, x9, x0
	ldur	w0, [x0, #-4]
	add	w18, w18, w0
	cbz	w12, .LBB22_14
.LBB22_25:                              // %"calendar::is_date.exit.i.i.i.i.i.i.i"
                                        //   in Loop: Header=BB22_15 Depth=1
	cmp	w12, w18
	b.hi	.LBB22_14
// %bb.26:                              // %else.2.i.i.i.i.i.i.i
                                        //   in Loop: Header=BB22_15 Depth=1
	cmp	w17, #11
	b.hi	.LBB22_13
// %bb.27:                              // %then.6.i.i.i.i.i.i.i.i
                                        //   in Loop: Header=BB22_15 Depth=1
	cmp	w14, #2
	b.ne	.LBB22_30
// %bb.28:                              // %then.1.i.i.i.i.i.i.i.i.i
                                        //   in Loop: Header=BB22_15 Depth=1
	mov	w17, #23593                     // =0x5c29
	mov	w18, #23592                     // =0x5c28
	movk	w17, #49807, lsl #16
	movk	w18, #655, lsl #16
	mul	w17, w13, w17
	ror	w17, w17, #2
	cmp	w17, w18
	b.ls	.LBB22_31
// %bb.29:                              // %else.2.i.i.i.i.i.i.i.i.i.i
                                        //   in Loop: Header=BB22_15 Depth=1
	and	w17, w13, #0x3
	b	.LBB22_32
.LBB22_30:                              //   in Loop: Header=BB22_15 Depth=1
	lsl	w18, w14, #2
	add	x18, x9, x18
	ldur	w18, [x18, #-4]
	add	w17, wzr, w18
	cmp	w12, w17
	b.lo	.LBB22_33
	b	.LBB22_13
.LBB22_31:                              // %then.1.i.i.i6.i.i.i.i.i.i.i
                                        //   in Loop: Header=BB22_15 Depth=1
	mov	w17, #34079                     // =0x851f
	mov	w18, #400                       // =0x190
	movk	w17, #20971, lsl #16
	umull	x17, w13, w17
	lsr	x17, x17, #39
	msub	w17, w17, w18, w13
.LBB22_32:                              // %"calendar::is_leap.exit.i.i.i.i.i.i.i.i.i"
                                        //   in Loop: Header=BB22_15 Depth=1
	cmp	w17, #0
	cset	w17, eq
	lsl	w18, w14, #2
	add	x18, x9, x18
	ldur	w18, [x18, #-4]
	add	w17, w17, w18
	cmp	w12, w17
	b.hs	.LBB22_13
.LBB22_33:                              // %then.4.i.i.i.i.i.i.i
                                        //   in Loop: Header=BB22_15 Depth=1
	add	w12, w12, #1
	b	.LBB22_14
.LBB22_34:
	add	w13, wzr, w15
	sub	w12, w12, #1
	cmp	w12, w13
	b.hs	.LBB22_11
.LBB22_35:                              // %join.3.i.i.i.i
	mov	w15, #5977                      // =0x1759
	movk	w15, #53687, lsl #16
	umull	x12, w1, w15
	lsr	x12, x12, #45
	sub	w13, w12, #2000
	cmp	w13, #99
	b.hi	.LBB22_56
// %bb.36:                              // %join.3.i.i.i.i
	mov	w16, #34079                     // =0x851f
	mov	w18, #23593                     // =0x5c29
	mov	w17, #100                       // =0x64
	movk	w16, #20971, lsl #16
	movk	w18, #655, lsl #16
	umull	x13, w1, w16
	lsr	x14, x13, #37
	umull	x13, w14, w18
	lsr	x13, x13, #32
	msub	w13, w13, w17, w14
	sub	w0, w13, #1
	cmp	w0, #11
	b.hi	.LBB22_56
// %bb.37:                              // %then.6.i.i.i.i.i.i.i
	lsl	w0, w13, #2
	msub	w14, w14, w17, w1
	cmp	w13, #2
	add	x0, x9, x0
	ldur	w0, [x0, #-4]
	b.ne	.LBB22_41
// %bb.38:                              // %then.1.i.i.i.i35.i.i.i.i
	mov	w1, #23593                      // =0x5c29
	mov	w2, #23592                      // =0x5c28
	movk	w1, #49807, lsl #16
	movk	w2, #655, lsl #16
	mul	w1, w12, w1
	ror	w1, w1, #2
	cmp	w1, w2
	b.ls	.LBB22_42
// %bb.39:                              // %else.2.i.i.i.i.i.i.i.i.i
	and	w1, w12, #0x3
	b	.LBB22_43
.LBB22_40:                              // %then.1.i.i.i.i25.i.i.i.i
	mov	w14, #34079                     // =0x851f
	mov	w16, #400                       // =0x190
	movk	w14, #20971, lsl #16
	umull	x14, w13, w14
	lsr	x14, x14, #39
	msub	w13, w14, w16, w13
	cmp	w13, #0
	cset	w13, eq
	add	w13, w13, w15
	sub	w12, w12, #1
	cmp	w12, w13
	b.hs	.LBB22_11
	b	.LBB22_35
.LBB22_41:
	mov	w1, wzr
	b	.LBB22_44
.LBB22_42:                              // %then.1.i.i.i.i.i36.i.i.i.i
	mov	w1, #55051                      // =0xd70b
	mov	w2, #400                        // =0x190
	movk	w1, #163, lsl #16
	umull	x1, w12, w1
	lsr	x1, x1, #32
	msub	w1, w1, w2, w12
.LBB22_43:                              // %"calendar::is_leap.exit.i.i.i.i.i.i.i.i"
	cmp	w1, #0
	cset	w1, eq
.LBB22_44:                              // %"calendar::month_length.exit.i.i.i.i.i.i"
	add	w0, w1, w0
	sub	w1, w14, #1
	cmp	w1, w0
	b.hs	.LBB22_56
// %bb.45:                              // %"calendar::month_length.exit.i.i.i.i.i.i"
	ldr	w0, [sp, #12]                   // 4-byte Reload
	umull	x15, w0, w15
	lsr	x15, x15, #45
	sub	w0, w15, #2000
	cmp	w0, #99
	b.hi	.LBB22_56
// %bb.46:                              // %"calendar::month_length.exit.i.i.i.i.i.i"
	ldr	w0, [sp, #12]                   // 4-byte Reload
	umull	x16, w0, w16
	lsr	x0, x16, #37
	umull	x16, w0, w18
	lsr	x16, x16, #32
	msub	w16, w16, w17, w0
	sub	w18, w16, #1
	cmp	w18, #11
	b.hi	.LBB22_56
// %bb.47:                              // %then.6.i.i16.i.i.i.i.i
	lsl	w18, w16, #2
	ldr	w1, [sp, #12]                   // 4-byte Reload
	msub	w17, w0, w17, w1
	cmp	w16, #2
	add	x18, x9, x18
	ldur	w18, [x18, #-4]
	b.ne	.LBB22_50
// %bb.48:                              // %then.1.i.i.i24.i.i.i.i.i
	mov	w0, #23593                      // =0x5c29
	mov	w1, #23592                      // =0x5c28
	movk	w0, #49807, lsl #16
	movk	w1, #655, lsl #16
	mul	w0, w15, w0
	ror	w0, w0, #2
	cmp	w0, w1
	b.ls	.LBB22_51
// %bb.49:                              // %else.2.i.i.i.i28.i.i.i.i.i
	and	w0, w15, #0x3
	b	.LBB22_52
.LBB22_50:
	mov	w0, wzr
	b	.LBB22_53
.LBB22_51:                              // %then.1.i.i.i.i33.i.i.i.i.i
	mov	w0, #55051                      // =0xd70b
	mov	w1, #400                        // =0x190
	movk	w0, #163, lsl #16
	umull	x0, w15, w0
	lsr	x0, x0, #32
	msub	w0, w0, w1, w15
.LBB22_52:                              // %"calendar::is_leap.exit.i.i.i30.i.i.i.i.i"
	cmp	w0, #0
	cset	w0, eq
.LBB22_53:                              // %"calendar::month_length.exit.i12.i.i.i.i.i"
	add	w18, w0, w18
	sub	w0, w17, #1
	cmp	w0, w18
	b.hs	.LBB22_56
// %bb.54:                              // %then.4.i.i.i.i.i
	cmp	w12, w15
	b.ne	.LBB22_85
// %bb.55:                              // %arm.7.i.i.i.i.i.i.i.i
	cmp	w14, w17
	cset	w18, ls
	cmp	w13, w16
	cset	w0, lo
	csel	w18, w18, w0, eq
	tbnz	w18, #0, .LBB22_86
.LBB22_56:                              // %then.4.i.i.i.i
	add	x0, sp, #2, lsl #12             // =8192
	mov	w1, wzr
	mov	w2, #792                        // =0x318
	add	x0, x0, #980
	bl	memset
	mov	w20, wzr
	mov	w23, wzr
	mov	w21, #2                         // =0x2
	mov	w22, #1                         // =0x1
.LBB22_57:                              // %"terms::total_dates.exit.i.i.i"
	add	x1, sp, #2, lsl #12             // =8192
	add	x0, sp, #352
	mov	w2, #792                        // =0x318
	add	x1, x1, #980
	bl	memcpy
.LBB22_58:                              // %"terms::term_totals.exit.i.i"
	add	x24, sp, #1144
	add	x1, sp, #352
	mov	w2, #792                        // =0x318
	add	x0, x24, #16
	str	w22, [sp, #1144]
	str	w21, [sp, #1148]
	str	w20, [sp, #1152]
	str	w23, [sp, #1156]
	bl	memcpy
	cbz	w22, .LBB22_66
// %bb.59:                              // %arm.2.i18.i.i
	cmp	x26, #201
	mov	w8, #201                        // =0xc9
	csel	x8, x26, x8, lo
	cbz	x26, .LBB22_63
// %bb.60:                              // %loop.5.preheader.i.i.i.i.i
	subs	x22, x8, #1
	b.eq	.LBB22_62
// %bb.61:                              // %join.8.preheader.i.i.i.i.i
	lsl	x8, x8, #2
	mov	x0, x19
	mov	w1, wzr
	sub	x2, x8, #4
	bl	memset
.LBB22_62:                              // %after.4.i.i.i.i.i
	str	wzr, [x19, x22, lsl #2]
.LBB22_63:                              // %"packing::no_totals.exit.i.i.i"
	ands	w8, w21, #0xff
	b.eq	.LBB22_69
// %bb.64:                              // %"packing::no_totals.exit.i.i.i"
	cmp	w8, #1
	b.ne	.LBB22_71
// %bb.65:
	mov	x8, xzr
	mov	w9, #11                         // =0xb
	b	.LBB22_82
.LBB22_66:                              // %arm.1.i22.i.i
	add	x1, x24, #4
	cbz	x26, .LBB22_72
// %bb.67:                              // %join.5.i.i.i.preheader.peel.i.i.i.i.i
	cmp	x26, #200
	b.ls	.LBB22_73
.LBB22_68:                              // %else.2.i.i.i.i
	cmp	x26, #201
	mov	w8, #201                        // =0xc9
	mov	x0, x19
	csel	x8, x26, x8, lo
	lsl	x2, x8, #2
	bl	memcpy
	mov	x0, xzr
	b	.LBB22_83
.LBB22_69:                              // %arm.1.i3.i.i.i.i
	and	w10, w20, #0xff
	mov	w11, #1                         // =0x1
	add	w9, w10, #1
	lsl	w10, w11, w10
	mov	w11, #363                       // =0x16b
	tst	w10, w11
	b.eq	.LBB22_81
// %bb.70:                              // %after.2.i.i.i.i.i.i
	mov	w8, w23
	b	.LBB22_82
.LBB22_71:                              // %arm.3.i.i.i.i.i
	mov	x8, xzr
	mov	w9, #12                         // =0xc
	b	.LBB22_82
.LBB22_72:
	mov	w9, #201                        // =0xc9
	mov	x8, x1
	cbnz	w21, .LBB22_77
	b	.LBB22_74
.LBB22_73:                              // %after.1.i.i.i.peel.i.i.i.arm.3.i.peel.i.i.i_crit_edge.i.i
	add	x8, x1, x26, lsl #2
	mov	w9, #201                        // =0xc9
	sub	x9, x9, x26
	ldr	w21, [x8]
	cbnz	w21, .LBB22_77
.LBB22_74:                              // %after.1.i.i.i.i.i.i.i.i.preheader
	add	x8, x8, #4
	sub	x9, x9, #1
.LBB22_75:                              // %after.1.i.i.i.i.i.i.i.i
                                        // =>This Inner Loop Header: Depth=1
	cbz	x9, .LBB22_68
// %bb.76:                              // %arm.3.i.i.i.i.i.i
                                        //   in Loop: Header=BB22_75 Depth=1
	ldr	w10, [x8], #4
	sub	x9, x9, #1
	cbz	w10, .LBB22_75
.LBB22_77:                              // %then.1.i.i23.i.i
	cmp	x26, #201
	mov	w8, #201                        // =0xc9
	csel	x8, x26, x8, lo
	cbz	x26, .LBB22_84
// %bb.78:                              // %loop.5.preheader.i.i.i.i.i.i
	subs	x20, x8, #1
	b.eq	.LBB22_80
// %bb.79:                              // %join.8.preheader.i.i.i.i.i.i
	lsl	x8, x8, #2
	mov	x0, x19
	mov	w1, wzr
	sub	x2, x8, #4
	bl	memset
.LBB22_80:                              // %after.4.i.i.i.i.i.i
	str	wzr, [x19, x20, lsl #2]
	mov	x0, #85899345920                // =0x1400000000
	b	.LBB22_83
.LBB22_81:
	mov	x8, xzr
.LBB22_82:                              // %"packing::of_cause::<#e438ad65a00d0128>.exit.i.i.i"
	orr	x0, x8, x9, lsl #32
.LBB22_83:                              // %"wumbyra_c::wumbyra_term_totals.exit"
	add	sp, sp, #2, lsl #12             // =8192
	add	sp, sp, #2592
	ldp	x20, x19, [sp, #80]             // 16-byte Folded Reload
	ldp	x22, x21, [sp, #64]             // 16-byte Folded Reload
	ldp	x24, x23, [sp, #48]             // 16-byte Folded Reload
	ldp	x26, x25, [sp, #32]             // 16-byte Folded Reload
	ldp	x28, x27, [sp, #16]             // 16-byte Folded Reload
	ldp	x29, x30, [sp], #96             // 16-byte Folded Reload
	ret
.LBB22_84:
	mov	x0, #85899345920                // =0x1400000000
	b	.LBB22_83
.LBB22_85:                              // %"terms::days::is_term.exit.i.i.i.i"
	b.hs	.LBB22_56
.LBB22_86:                              // %join.6.i.i.i.i
	cmp	w12, w11
	b.ne	.LBB22_91
// %bb.87:                              // %arm.7.i.i.i.i.i.i.i.i.i.i.i
	cmp	w13, w8
	b.ne	.LBB22_91
// %bb.88:                              // %arm.7.i3.i.i.i.i.i.i.i.i.i.i
	cmp	w14, w10
	b.hi	.LBB22_92
.LBB22_89:                              // %else.5.i.i.i.i.i.i.i.i
	cmp	w11, w15
	b.ne	.LBB22_93
// %bb.90:                              // %arm.7.i.i.i29.i.i.i.i.i.i.i.i
	cmp	w10, w17
	cset	w18, ls
	cmp	w8, w16
	cset	w0, lo
	csel	w1, w18, w0, eq
	b	.LBB22_94
.LBB22_91:                              // %"core::cmp::PartialOrd::le::<#cb83eb2596469fa1>.exit.i.i.i.i.i.i.i.i"
	b.lo	.LBB22_89
.LBB22_92:
	mov	w1, wzr
	b	.LBB22_94
.LBB22_93:                              // %"core::cmp::Ordering::or_partial_cmp::<#71cf2bb40f8db4f7>.exit.i.i26.i.i.i.i.i.i.i.i"
	cset	w1, lo
.LBB22_94:                              // %"terms::days::day_of.exit.i.i.i.i.i"
	cbz	x23, .LBB22_137
// %bb.95:                              // %join.5.i37.i.i.i.i.preheader
	add	x0, sp, #1, lsl #12             // =4096
	mov	x20, xzr
	add	x18, sp, #1968
	add	x0, x0, #1472
	b	.LBB22_98
.LBB22_96:                              // %"core::cmp::Ordering::or_partial_cmp::<#71cf2bb40f8db4f7>.exit.i.i26.i.i.i40.i.i.i.i.i"
                                        //   in Loop: Header=BB22_98 Depth=1
	cset	w1, lo
.LBB22_97:                              // %join.11.i.i.i.i.i
                                        //   in Loop: Header=BB22_98 Depth=1
	subs	x23, x23, #1
	add	x18, x18, #1
	b.eq	.LBB22_133
.LBB22_98:                              // %join.5.i37.i.i.i.i
                                        // =>This Inner Loop Header: Depth=1
	ldrb	w2, [x0], #1
	tbz	w1, #0, .LBB22_100
// %bb.99:                              // %then.6.i.i.i.i.i
                                        //   in Loop: Header=BB22_98 Depth=1
	add	x3, sp, #1, lsl #12             // =4096
	ldrb	w4, [x18]
	add	x5, sp, #1968
	add	x3, x3, #1472
	strb	w4, [x5, x20]
	strb	w2, [x3, x20]
	add	x20, x20, #1
	cmp	w2, #68
	b.ne	.LBB22_97
	b	.LBB22_101
.LBB22_100:                             // %join.8.i.i.i.i.i
                                        //   in Loop: Header=BB22_98 Depth=1
	cmp	w2, #68
	b.ne	.LBB22_97
.LBB22_101:                             // %then.9.i.i.i.i.i
                                        //   in Loop: Header=BB22_98 Depth=1
	sub	w1, w11, #2000
	cmp	w1, #99
	b.hi	.LBB22_123
// %bb.102:                             // %then.1.i.i.i39.i.i.i.i
                                        //   in Loop: Header=BB22_98 Depth=1
	sub	w1, w8, #1
	cmp	w1, #11
	b.hi	.LBB22_106
// %bb.103:                             // %then.6.i.i.i.i57.i.i.i.i
                                        //   in Loop: Header=BB22_98 Depth=1
	cmp	w8, #2
	b.ne	.LBB22_107
// %bb.104:                             // %then.1.i.i.i.i.i63.i.i.i.i
                                        //   in Loop: Header=BB22_98 Depth=1
	mov	w2, #23593                      // =0x5c29
	mov	w3, #23592                      // =0x5c28
	movk	w2, #49807, lsl #16
	movk	w3, #655, lsl #16
	mul	w2, w11, w2
	ror	w2, w2, #2
	cmp	w2, w3
	b.ls	.LBB22_108
// %bb.105:                             // %else.2.i.i.i.i.i.i65.i.i.i.i
                                        //   in Loop: Header=BB22_98 Depth=1
	and	w2, w11, #0x3
	b	.LBB22_109
.LBB22_106:                             //   in Loop: Header=BB22_98 Depth=1
	mov	w2, wzr
	b	.LBB22_111
.LBB22_107:                             //   in Loop: Header=BB22_98 Depth=1
	mov	w2, wzr
	b	.LBB22_110
.LBB22_108:                             // %then.1.i.i.i.i.i.i70.i.i.i.i
                                        //   in Loop: Header=BB22_98 Depth=1
	mov	w2, #34079                      // =0x851f
	mov	w3, #400                        // =0x190
	movk	w2, #20971, lsl #16
	umull	x2, w11, w2
	lsr	x2, x2, #39
	msub	w2, w2, w3, w11
.LBB22_109:                             // %"calendar::is_leap.exit.i.i.i.i.i67.i.i.i.i"
                                        //   in Loop: Header=BB22_98 Depth=1
	cmp	w2, #0
	cset	w2, eq
.LBB22_110:                             // %"calendar::leap_day.exit.i.i.i.i.i.i.i.i"
                                        //   in Loop: Header=BB22_98 Depth=1
	lsl	w3, w8, #2
	add	x3, x9, x3
	ldur	w3, [x3, #-4]
	add	w2, w2, w3
.LBB22_111:                             // %"calendar::month_length.exit.i.i.i41.i.i.i.i"
                                        //   in Loop: Header=BB22_98 Depth=1
	cbz	w10, .LBB22_123
// %bb.112:                             // %"calendar::is_date.exit.i.i.i.i.i.i"
                                        //   in Loop: Header=BB22_98 Depth=1
	cmp	w10, w2
	b.hi	.LBB22_123
// %bb.113:                             // %else.2.i.i.i.i.i.i
                                        //   in Loop: Header=BB22_98 Depth=1
	cmp	w1, #11
	b.hi	.LBB22_122
// %bb.114:                             // %then.6.i.i.i42.i.i.i.i
                                        //   in Loop: Header=BB22_98 Depth=1
	cmp	w8, #2
	b.ne	.LBB22_117
// %bb.115:                             // %then.1.i.i.i.i49.i.i.i.i
                                        //   in Loop: Header=BB22_98 Depth=1
	mov	w1, #23593                      // =0x5c29
	mov	w2, #23592                      // =0x5c28
	movk	w1, #49807, lsl #16
	movk	w2, #655, lsl #16
	mul	w1, w11, w1
	ror	w1, w1, #2
	cmp	w1, w2
	b.ls	.LBB22_118
// %bb.116:                             // %else.2.i.i.i.i.i51.i.i.i.i
                                        //   in Loop: Header=BB22_98 Depth=1
	and	w1, w11, #0x3
	b	.LBB22_119
.LBB22_117:                             //   in Loop: Header=BB22_98 Depth=1
	mov	w1, wzr
	b	.LBB22_120
.LBB22_118:                             // %then.1.i.i.i6.i.i.i.i.i.i
                                        //   in Loop: Header=BB22_98 Depth=1
	mov	w1, #34079                      // =0x851f
	mov	w2, #400                        // =0x190
	movk	w1, #20971, lsl #16
	umull	x1, w11, w1
	lsr	x1, x1, #39
	msub	w1, w1, w2, w11
.LBB22_119:                             // %"calendar::is_leap.exit.i.i.i.i53.i.i.i.i"
                                        //   in Loop: Header=BB22_98 Depth=1
	cmp	w1, #0
	cset	w1, eq
.LBB22_120:                             // %"calendar::month_length.exit.i.i46.i.i.i.i"
                                        //   in Loop: Header=BB22_98 Depth=1
	lsl	w2, w8, #2
	add	x2, x9, x2
	ldur	w2, [x2, #-4]
	add	w1, w1, w2
	cmp	w10, w1
	b.hs	.LBB22_122
// %bb.121:                             // %then.4.i.i.i.i.i.i
                                        //   in Loop: Header=BB22_98 Depth=1
	add	w10, w10, #1
	b	.LBB22_123
.LBB22_122:                             // %else.5.i.i.i.i.i.i
                                        //   in Loop: Header=BB22_98 Depth=1
	cmp	w8, #11
	mov	w10, #1                         // =0x1
	cinc	w11, w11, hi
	csinc	w8, w10, w8, hi
.LBB22_123:                             // %"calendar::next_date.exit.i.i.i.i.i"
                                        //   in Loop: Header=BB22_98 Depth=1
	cmp	w12, w11
	b.ne	.LBB22_127
// %bb.124:                             // %arm.7.i.i.i.i.i.i46.i.i.i.i.i
                                        //   in Loop: Header=BB22_98 Depth=1
	cmp	w13, w8
	b.ne	.LBB22_129
// %bb.125:                             // %arm.7.i3.i.i.i.i.i50.i.i.i.i.i
                                        //   in Loop: Header=BB22_98 Depth=1
	cmp	w14, w10
	b.ls	.LBB22_130
// %bb.126:                             //   in Loop: Header=BB22_98 Depth=1
	mov	w1, wzr
	mov	w11, w12
	mov	w8, w13
	b	.LBB22_97
.LBB22_127:                             // %"core::cmp::Ordering::or_partial_cmp::<#71cf2bb40f8db4f7>.exit.i.i.i.i.i30.i.i.i.i.i"
                                        //   in Loop: Header=BB22_98 Depth=1
	b.lo	.LBB22_130
// %bb.128:                             //   in Loop: Header=BB22_98 Depth=1
	mov	w1, wzr
	b	.LBB22_97
.LBB22_129:                             // %"core::cmp::PartialOrd::le::<#cb83eb2596469fa1>.exit.i.i.i48.i.i.i.i.i"
                                        //   in Loop: Header=BB22_98 Depth=1
	b.hs	.LBB22_132
.LBB22_130:                             // %else.5.i.i.i38.i.i.i.i.i
                                        //   in Loop: Header=BB22_98 Depth=1
	cmp	w11, w15
	b.ne	.LBB22_96
// %bb.131:                             // %arm.7.i.i.i29.i.i.i42.i.i.i.i.i
                                        //   in Loop: Header=BB22_98 Depth=1
	cmp	w10, w17
	cset	w11, ls
	cmp	w8, w16
	cset	w1, lo
	csel	w1, w11, w1, eq
	mov	w11, w15
	b	.LBB22_97
.LBB22_132:                             //   in Loop: Header=BB22_98 Depth=1
	mov	w1, wzr
	mov	w11, w12
	b	.LBB22_97
.LBB22_133:                             // %"terms::selection::select_term.exit.i.i.i.i"
	add	x0, sp, #2, lsl #12             // =8192
	mov	w1, wzr
	mov	w2, #804                        // =0x324
	add	x0, x0, #1772
	bl	memset
	cbz	x20, .LBB22_138
// %bb.134:                             // %arm.5.i.i.i.i.i.preheader
	add	x8, sp, #1, lsl #12             // =4096
	add	x9, sp, #1968
	add	x8, x8, #1472
.LBB22_135:                             // %arm.5.i.i.i.i.i
                                        // =>This Inner Loop Header: Depth=1
	ldrb	w10, [x8], #1
	add	x12, sp, #2, lsl #12            // =8192
	ldrb	w11, [x9], #1
	add	x12, x12, #1772
	sub	w10, w10, #48
	sub	x20, x20, #1
	cmp	w10, #10
	ldr	w13, [x12, x11, lsl #2]
	csel	w10, w10, wzr, lo
	add	w10, w13, w10, uxtb
	str	w10, [x12, x11, lsl #2]
	cbnz	x20, .LBB22_135
// %bb.136:                             // %"totals::add_up.exit.loopexit.i.i.i.i"
	ldr	w21, [sp, #9964]
	ldr	w20, [sp, #9968]
	ldr	w23, [sp, #9972]
	b	.LBB22_140
.LBB22_137:                             // %"terms::selection::select_term.exit.thread.i.i.i.i"
	add	x0, sp, #2, lsl #12             // =8192
	mov	w1, wzr
	mov	w2, #804                        // =0x324
	add	x0, x0, #1772
	bl	memset
	mov	w20, wzr
	b	.LBB22_139
.LBB22_138:
	mov	w23, wzr
.LBB22_139:                             // %"totals::add_up.exit.i.i.i.i"
	mov	w21, wzr
.LBB22_140:                             // %"totals::add_up.exit.i.i.i.i"
	add	x8, sp, #2, lsl #12             // =8192
	add	x0, sp, #2, lsl #12             // =8192
	mov	w2, #792                        // =0x318
	add	x8, x8, #1772
	add	x0, x0, #980
	add	x1, x8, #12
	bl	memcpy
	mov	w22, wzr
	b	.LBB22_57
.Lfunc_end22:
	.size	wumbyra_term_totals, .Lfunc_end22-wumbyra_term_totals
                                        // -- End function
	.section	.text.wumbyra_total,"ax",@progbits
	.globl	wumbyra_total                   // -- Begin function wumbyra_total
	.p2align	2
	.type	wumbyra_total,@function
wumbyra_total:                          // @wumbyra_total
// %bb.0:                               // %start
	stp	x29, x30, [sp, #-96]!           // 16-byte Folded Spill
	stp	x28, x27, [sp, #16]             // 16-byte Folded Spill
	mov	x29, sp
	stp	x26, x25, [sp, #32]             // 16-byte Folded Spill
	stp	x24, x23, [sp, #48]             // 16-byte Folded Spill
	stp	x22, x21, [sp, #64]             // 16-byte Folded Spill
	stp	x20, x19, [sp, #80]             // 16-byte Folded Spill
	sub	sp, sp, #3072
	str	xzr, [sp]
	sub	sp, sp, #3072
	str	xzr, [sp]
	sub	sp, sp, #3072
	str	xzr, [sp]
	sub	sp, sp, #800
	cmp	x0, #0
	mov	w8, #4096                       // =0x1000
	mov	x23, x0
	mov	x22, x2
	mov	x24, x1
	csel	x28, x8, xzr, eq
	cmp	x2, #0
	add	x0, sp, #824
	mov	w1, wzr
	mov	w2, #804                        // =0x324
	mov	w19, w5
	mov	w20, w4
	mov	x21, x3
	add	x26, sp, #1632
	add	x25, sp, #824
	csel	x27, x8, xzr, eq
	bl	memset
	add	x0, sp, #28
	mov	w1, wzr
	mov	w2, #796                        // =0x31c
	bl	memset
	movi	v0.2d, #0000000000000000
	add	x0, sp, #1, lsl #12             // =4096
	add	x1, x23, x28
	add	x0, x0, #1488
	mov	x2, x24
	add	x23, sp, #1, lsl #12            // =4096
	add	x23, x23, #1488
	str	q0, [x26, #4272]
	str	q0, [x26, #4256]
	str	q0, [x26, #4240]
	str	q0, [x26, #4224]
	str	q0, [x26, #4208]
	str	q0, [x26, #4192]
	str	q0, [x26, #4176]
	str	q0, [x26, #4160]
	str	q0, [x26, #4144]
	str	q0, [x26, #4128]
	str	q0, [x26, #4112]
	str	q0, [x26, #4096]
	str	q0, [x26, #4080]
	str	q0, [x26, #4064]
	str	q0, [x26, #4048]
	str	q0, [x26, #4032]
	str	q0, [x26, #4016]
	str	q0, [x26, #4000]
	str	q0, [x26, #3984]
	str	q0, [x26, #3968]
	str	q0, [x26, #3952]
	bl	"loading::load"
	ldrb	w8, [x26, #3952]
	cbz	w8, .LBB23_2
// %bb.1:                               // %arm.2.i.i.i
	movi	v0.2d, #0000000000000000
	str	xzr, [x25, #1128]
	stp	q0, q0, [x26]
	stp	q0, q0, [x26, #32]
	stp	q0, q0, [x26, #64]
	stp	q0, q0, [x26, #96]
	stp	q0, q0, [x26, #128]
	stp	q0, q0, [x26, #160]
	stp	q0, q0, [x26, #192]
	stp	q0, q0, [x26, #224]
	stp	q0, q0, [x26, #256]
	stp	q0, q0, [x26, #288]
	b	.LBB23_3
.LBB23_2:                               // %arm.1.i.i.i
	add	x0, sp, #1632
	orr	x1, x23, #0x8
	mov	w2, #328                        // =0x148
	bl	memcpy
.LBB23_3:                               // %"loading::pattern_of.exit.i.i"
	add	x0, sp, #1, lsl #12             // =4096
	mov	w1, wzr
	mov	w2, #3600                       // =0xe10
	add	x0, x0, #1488
	stp	xzr, xzr, [x26, #336]
	bl	memset
	add	x0, sp, #1984
	mov	w1, wzr
	mov	w2, #3600                       // =0xe10
	bl	memset
	add	x5, sp, #1, lsl #12             // =4096
	add	x0, sp, #1968
	add	x1, sp, #1632
	add	x2, x22, x27
	add	x5, x5, #1488
	add	x6, sp, #1984
	mov	x3, x21
	mov	w4, w20
	bl	"entries::gather"
	ldrb	w8, [sp, #1968]
	cbz	w8, .LBB23_5
// %bb.4:                               // %arm.2.i.i
	ldrb	w8, [sp, #1972]
	mov	x9, #4294967296                 // =0x100000000
	add	x0, x9, x8, lsl #32
	b	.LBB23_13
.LBB23_5:                               // %arm.1.i5.i.i
	add	x0, sp, #2, lsl #12             // =8192
	ldr	x21, [x26, #344]
	mov	w1, wzr
	add	x0, x0, #1000
	mov	w2, #804                        // =0x324
	add	x20, sp, #2, lsl #12            // =8192
	add	x20, x20, #1000
	bl	memset
	cbz	x21, .LBB23_9
// %bb.6:                               // %arm.5.i.i.i.i.preheader
	add	x8, sp, #1, lsl #12             // =4096
	add	x9, sp, #1984
	add	x8, x8, #1488
.LBB23_7:                               // %arm.5.i.i.i.i
                                        // =>This Inner Loop Header: Depth=1
	ldrb	w10, [x8], #1
	add	x12, sp, #2, lsl #12            // =8192
	ldrb	w11, [x9], #1
	add	x12, x12, #1000
	sub	w10, w10, #48
	sub	x21, x21, #1
	cmp	w10, #10
	ldr	w13, [x12, x11, lsl #2]
	csel	w10, w10, wzr, lo
	add	w10, w13, w10, uxtb
	str	w10, [x12, x11, lsl #2]
	cbnz	x21, .LBB23_7
// %bb.8:                               // %"totals::add_up.exit.loopexit.i.i.i"
	ldr	d0, [x26, #7560]
	b	.LBB23_10
.LBB23_9:
	movi	v0.2d, #0000000000000000
.LBB23_10:                              // %arm.1.i.i
	add	x0, sp, #28
	add	x1, x20, #8
	mov	w2, #796                        // =0x31c
	str	q0, [sp]                        // 16-byte Spill
	bl	memcpy
	ldr	q0, [sp]                        // 16-byte Reload
	add	x20, sp, #824
	add	x1, sp, #28
	add	x0, x20, #8
	mov	w2, #796                        // =0x31c
	str	d0, [x25]
	bl	memcpy
	cmp	w19, #200
	b.hi	.LBB23_12
// %bb.11:                              // %arm.1.i.i.i.i
	ldr	w0, [x20, w19, uxtw #2]
	b	.LBB23_13
.LBB23_12:
	mov	x0, xzr
.LBB23_13:                              // %"wumbyra_c::wumbyra_total.exit"
	add	sp, sp, #2, lsl #12             // =8192
	add	sp, sp, #1824
	ldp	x20, x19, [sp, #80]             // 16-byte Folded Reload
	ldp	x22, x21, [sp, #64]             // 16-byte Folded Reload
	ldp	x24, x23, [sp, #48]             // 16-byte Folded Reload
	ldp	x26, x25, [sp, #32]             // 16-byte Folded Reload
	ldp	x28, x27, [sp, #16]             // 16-byte Folded Reload
	ldp	x29, x30, [sp], #96             // 16-byte Folded Reload
	ret
.Lfunc_end23:
	.size	wumbyra_total, .Lfunc_end23-wumbyra_total
                                        // -- End function
	.section	.text.wumbyra_totals,"ax",@progbits
	.globl	wumbyra_totals                  // -- Begin function wumbyra_totals
	.p2align	2
	.type	wumbyra_totals,@function
wumbyra_totals:                         // @wumbyra_totals
// %bb.0:                               // %start
	stp	x29, x30, [sp, #-96]!           // 16-byte Folded Spill
	stp	x28, x27, [sp, #16]             // 16-byte Folded Spill
	mov	x29, sp
	stp	x26, x25, [sp, #32]             // 16-byte Folded Spill
	stp	x24, x23, [sp, #48]             // 16-byte Folded Spill
	stp	x22, x21, [sp, #64]             // 16-byte Folded Spill
	stp	x20, x19, [sp, #80]             // 16-byte Folded Spill
	sub	sp, sp, #3072
	str	xzr, [sp]
	sub	sp, sp, #3072
	str	xzr, [sp]
	sub	sp, sp, #3072
	str	xzr, [sp]
	sub	sp, sp, #784
	cmp	x0, #0
	mov	w8, #4096                       // =0x1000
	mov	x24, x0
	csel	x28, x8, xzr, eq
	cmp	x2, #0
	mov	x23, x2
	csel	x27, x8, xzr, eq
	cmp	x5, #0
	mov	x25, x1
	csel	x8, x8, xzr, eq
	add	x0, sp, #820
	mov	w1, wzr
	mov	w2, #796                        // =0x31c
	mov	x20, x6
	mov	w21, w4
	mov	x22, x3
	add	x26, sp, #1616
	add	x19, x5, x8
	bl	memset
	add	x0, sp, #12
	mov	w1, wzr
	mov	w2, #808                        // =0x328
	bl	memset
	movi	v0.2d, #0000000000000000
	add	x0, sp, #1, lsl #12             // =4096
	add	x1, x24, x28
	add	x0, x0, #1472
	mov	x2, x25
	add	x24, sp, #1, lsl #12            // =4096
	add	x24, x24, #1472
	str	q0, [x26, #4272]
	str	q0, [x26, #4256]
	str	q0, [x26, #4240]
	str	q0, [x26, #4224]
	str	q0, [x26, #4208]
	str	q0, [x26, #4192]
	str	q0, [x26, #4176]
	str	q0, [x26, #4160]
	str	q0, [x26, #4144]
	str	q0, [x26, #4128]
	str	q0, [x26, #4112]
	str	q0, [x26, #4096]
	str	q0, [x26, #4080]
	str	q0, [x26, #4064]
	str	q0, [x26, #4048]
	str	q0, [x26, #4032]
	str	q0, [x26, #4016]
	str	q0, [x26, #4000]
	str	q0, [x26, #3984]
	str	q0, [x26, #3968]
	str	q0, [x26, #3952]
	bl	"loading::load"
	ldrb	w8, [x26, #3952]
	cbz	w8, .LBB24_2
// %bb.1:                               // %arm.2.i.i.i
	movi	v0.2d, #0000000000000000
	str	xzr, [x26, #320]
	stp	q0, q0, [x26]
	stp	q0, q0, [x26, #32]
	stp	q0, q0, [x26, #64]
	stp	q0, q0, [x26, #96]
	stp	q0, q0, [x26, #128]
	stp	q0, q0, [x26, #160]
	stp	q0, q0, [x26, #192]
	stp	q0, q0, [x26, #224]
	stp	q0, q0, [x26, #256]
	stp	q0, q0, [x26, #288]
	b	.LBB24_3
.LBB24_2:                               // %arm.1.i.i.i
	add	x0, sp, #1616
	orr	x1, x24, #0x8
	mov	w2, #328                        // =0x148
	bl	memcpy
.LBB24_3:                               // %"loading::pattern_of.exit.i.i"
	add	x0, sp, #1, lsl #12             // =4096
	mov	w1, wzr
	mov	w2, #3600                       // =0xe10
	add	x0, x0, #1472
	stp	xzr, xzr, [x26, #336]
	bl	memset
	add	x0, sp, #1968
	mov	w1, wzr
	mov	w2, #3600                       // =0xe10
	bl	memset
	add	x5, sp, #1, lsl #12             // =4096
	add	x0, sp, #1952
	add	x1, sp, #1616
	add	x2, x23, x27
	add	x5, x5, #1472
	add	x6, sp, #1968
	mov	x3, x22
	mov	w4, w21
	bl	"entries::gather"
	ldrb	w8, [sp, #1952]
	ldr	x21, [x26, #344]
	cbz	w8, .LBB24_11
// %bb.4:                               // %arm.2.i6.i.i
	ldrb	w22, [sp, #1956]
	cmp	x20, #201
	mov	w8, #201                        // =0xc9
	csel	x8, x20, x8, lo
	cbz	x20, .LBB24_8
// %bb.5:                               // %loop.5.preheader.i.i.i.i.i
	subs	x20, x8, #1
	b.eq	.LBB24_7
// %bb.6:                               // %join.8.preheader.i.i.i.i.i
	lsl	x8, x8, #2
	mov	x0, x19
	mov	w1, wzr
	sub	x2, x8, #4
	bl	memset
.LBB24_7:                               // %after.4.i.i.i.i.i
	str	wzr, [x19, x20, lsl #2]
.LBB24_8:                               // %"packing::no_totals.exit.i.i.i"
	mov	w9, #1                          // =0x1
	mov	w10, #363                       // =0x16b
	mov	x8, xzr
	lsl	w9, w9, w22
	tst	w9, w10
	b.eq	.LBB24_10
// %bb.9:                               // %after.2.i.i.i.i.i
	mov	w8, w21
.LBB24_10:                              // %"packing::of_cause::<#ebb002963c42623e>.exit.i.i.i"
	orr	x8, x8, x22, lsl #32
	mov	x9, #4294967296                 // =0x100000000
	add	x0, x8, x9
	b	.LBB24_29
.LBB24_11:                              // %arm.1.i5.i.i
	add	x0, sp, #2, lsl #12             // =8192
	mov	w1, wzr
	mov	w2, #804                        // =0x324
	add	x0, x0, #988
	add	x22, sp, #2, lsl #12            // =8192
	add	x22, x22, #988
	bl	memset
	cbz	x21, .LBB24_15
// %bb.12:                              // %arm.5.i.i.i.i.preheader
	add	x8, sp, #1, lsl #12             // =4096
	add	x9, sp, #1968
	add	x8, x8, #1472
.LBB24_13:                              // %arm.5.i.i.i.i
                                        // =>This Inner Loop Header: Depth=1
	ldrb	w10, [x8], #1
	add	x12, sp, #2, lsl #12            // =8192
	ldrb	w11, [x9], #1
	add	x12, x12, #988
	sub	w10, w10, #48
	sub	x21, x21, #1
	cmp	w10, #10
	ldr	w13, [x12, x11, lsl #2]
	csel	w10, w10, wzr, lo
	add	w10, w13, w10, uxtb
	str	w10, [x12, x11, lsl #2]
	cbnz	x21, .LBB24_13
// %bb.14:                              // %"totals::add_up.exit.loopexit.i.i.i"
	ldr	w23, [sp, #9180]
	ldr	w24, [sp, #9184]
	b	.LBB24_16
.LBB24_15:
	mov	w24, wzr
	mov	w23, wzr
.LBB24_16:                              // %arm.1.i8.i.i
	add	x0, sp, #820
	add	x1, x22, #8
	mov	w2, #796                        // =0x31c
	bl	memcpy
	add	x8, sp, #12
	add	x1, sp, #820
	mov	w2, #796                        // =0x31c
	add	x0, x8, #12
	stp	wzr, w23, [sp, #12]
	add	x21, x8, #4
	str	w24, [sp, #20]
	bl	memcpy
	cbz	x20, .LBB24_19
// %bb.17:                              // %join.5.i.i.i.preheader.peel.i.i.i.i.i
	cmp	x20, #200
	b.ls	.LBB24_20
.LBB24_18:                              // %else.2.i.i.i.i
	cmp	x20, #201
	mov	w8, #201                        // =0xc9
	mov	x0, x19
	csel	x8, x20, x8, lo
	mov	x1, x21
	lsl	x2, x8, #2
	bl	memcpy
	mov	x0, xzr
	b	.LBB24_29
.LBB24_19:
	mov	w9, #201                        // =0xc9
	mov	x8, x21
	cbnz	w23, .LBB24_24
	b	.LBB24_21
.LBB24_20:                              // %after.1.i.i.i.peel.i.i.i.arm.3.i.peel.i.i.i_crit_edge.i.i
	add	x8, x21, x20, lsl #2
	mov	w9, #201                        // =0xc9
	sub	x9, x9, x20
	ldr	w23, [x8]
	cbnz	w23, .LBB24_24
.LBB24_21:                              // %after.1.i.i.i.i.i.i.i.i.preheader
	add	x8, x8, #4
	sub	x9, x9, #1
.LBB24_22:                              // %after.1.i.i.i.i.i.i.i.i
                                        // =>This Inner Loop Header: Depth=1
	cbz	x9, .LBB24_18
// %bb.23:                              // %arm.3.i.i.i.i.i.i
                                        //   in Loop: Header=BB24_22 Depth=1
	ldr	w10, [x8], #4
	sub	x9, x9, #1
	cbz	w10, .LBB24_22
.LBB24_24:                              // %then.1.i.i.i.i
	cmp	x20, #201
	mov	w8, #201                        // =0xc9
	csel	x8, x20, x8, lo
	cbz	x20, .LBB24_28
// %bb.25:                              // %loop.5.preheader.i.i.i.i.i.i
	subs	x20, x8, #1
	b.eq	.LBB24_27
// %bb.26:                              // %join.8.preheader.i.i.i.i.i.i
	lsl	x8, x8, #2
	mov	x0, x19
	mov	w1, wzr
	sub	x2, x8, #4
	bl	memset
.LBB24_27:                              // %after.4.i.i.i.i.i.i
	str	wzr, [x19, x20, lsl #2]
.LBB24_28:
	mov	x0, #85899345920                // =0x1400000000
.LBB24_29:                              // %"wumbyra_c::wumbyra_totals.exit"
	add	sp, sp, #2, lsl #12             // =8192
	add	sp, sp, #1808
	ldp	x20, x19, [sp, #80]             // 16-byte Folded Reload
	ldp	x22, x21, [sp, #64]             // 16-byte Folded Reload
	ldp	x24, x23, [sp, #48]             // 16-byte Folded Reload
	ldp	x26, x25, [sp, #32]             // 16-byte Folded Reload
	ldp	x28, x27, [sp, #16]             // 16-byte Folded Reload
	ldp	x29, x30, [sp], #96             // 16-byte Folded Reload
	ret
.Lfunc_end24:
	.size	wumbyra_totals, .Lfunc_end24-wumbyra_totals
                                        // -- End function
	.section	.text.wumbyra_version,"ax",@progbits
	.globl	wumbyra_version                 // -- Begin function wumbyra_version
	.p2align	2
	.type	wumbyra_version,@function
wumbyra_version:                        // @wumbyra_version
// %bb.0:                               // %start
	mov	w0, #10700                      // =0x29cc
	ret
.Lfunc_end25:
	.size	wumbyra_version, .Lfunc_end25-wumbyra_version
                                        // -- End function
	.type	.Lstatic.0,@object              // @static.0
	.section	.rodata..Lstatic.0,"a",@progbits
	.p2align	2, 0x0
.Lstatic.0:
	.asciz	"\037\000\000\000\034\000\000\000\037\000\000\000\036\000\000\000\037\000\000\000\036\000\000\000\037\000\000\000\037\000\000\000\036\000\000\000\037\000\000\000\036\000\000\000\037\000\000"
	.size	.Lstatic.0, 48

	.ident	"rattle logic=dac8208d650f15bf3e2dc313a14fa4c783a3acf887bdfab66e1714b038d9e11b"
	.section	".note.GNU-stack","",@progbits
