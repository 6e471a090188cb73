	.section	.note.gnu.property,"a",@note
	.p2align	3, 0x0
	.word	4
	.word	16
	.word	5
	.asciz	"GNU"
	.word	3221225472
	.word	4
	.word	3
	.word	0
.Lsec_end0:
	.text
	.file	"rattle"
	.section	".text.unlikely.std_alloc::vec::Vec::grow_amortized::<#190e5f0f9e657029>","ax",@progbits
	.p2align	2
	.type	"std_alloc::vec::Vec::grow_amortized::<#190e5f0f9e657029>",@function
"std_alloc::vec::Vec::grow_amortized::<#190e5f0f9e657029>":
	.cfi_startproc
	ldr	x8, [x0, #8]
	cmn	x8, x1
	b.lo	.LBB0_2
	mov	w0, wzr
	ret
.LBB0_2:
	hint	#25
	.cfi_negate_ra_state
	stp	x29, x30, [sp, #-32]!
	.cfi_def_cfa_offset 32
	stp	x20, x19, [sp, #16]
	mov	x29, sp
	.cfi_def_cfa w29, 32
	.cfi_offset w19, -8
	.cfi_offset w20, -16
	.cfi_offset w30, -24
	.cfi_offset w29, -32
	.cfi_remember_state
	ldr	x10, [x0, #16]
	add	x9, x8, x1
	mov	w11, #8
	cmp	x9, #8
	lsl	x12, x10, #1
	csel	x11, x9, x11, hi
	lsr	x13, x10, #62
	cmp	x11, x12
	csel	x9, x11, x12, hi
	cmp	x13, #0
	csel	x19, x9, x11, eq
	tbnz	x19, #63, .LBB0_7
	cbz	x10, .LBB0_6
	mov	x20, x0
	ldr	x0, [x0]
	mov	x1, x8
	mov	x2, x19
	mov	w3, #1
	bl	rattle_realloc
	tbz	w0, #0, .LBB0_7
.LBB0_5:
	mov	w0, #1
	str	x1, [x20]
	str	x19, [x20, #16]
	.cfi_def_cfa wsp, 32
	ldp	x20, x19, [sp, #16]
	ldp	x29, x30, [sp], #32
	.cfi_def_cfa_offset 0
	.cfi_restore w19
	.cfi_restore w20
	.cfi_restore w30
	.cfi_restore w29
	hint	#29
	.cfi_negate_ra_state
	ret
.LBB0_6:
	.cfi_restore_state
	mov	x20, x0
	mov	x0, x9
	mov	w1, #1
	bl	rattle_alloc
	tbnz	w0, #0, .LBB0_5
.LBB0_7:
	mov	w0, wzr
	.cfi_def_cfa wsp, 32
	ldp	x20, x19, [sp, #16]
	ldp	x29, x30, [sp], #32
	.cfi_def_cfa_offset 0
	.cfi_restore w19
	.cfi_restore w20
	.cfi_restore w30
	.cfi_restore w29
	hint	#29
	.cfi_negate_ra_state
	ret
.Lfunc_end0:
	.size	"std_alloc::vec::Vec::grow_amortized::<#190e5f0f9e657029>", .Lfunc_end0-"std_alloc::vec::Vec::grow_amortized::<#190e5f0f9e657029>"
	.cfi_endproc

	.section	".text.core::slice::words::skip_far::<#52f9edcae2f82f51>","ax",@progbits
	.p2align	2
	.type	"core::slice::words::skip_far::<#52f9edcae2f82f51>",@function
"core::slice::words::skip_far::<#52f9edcae2f82f51>":
	.cfi_startproc
	sub	x8, x2, x1
	cmp	x8, #64
	b.lo	.LBB1_4
	ldr	x9, [x0]
.LBB1_2:
	add	x10, x9, x1
	ldp	q0, q1, [x10, #32]
	ldp	q2, q3, [x10]
	orr	v1.16b, v3.16b, v1.16b
	orr	v0.16b, v2.16b, v0.16b
	orr	v0.16b, v0.16b, v1.16b
	ext	v1.16b, v0.16b, v0.16b, #8
	orr	v0.8b, v0.8b, v1.8b
	fmov	x10, d0
	tst	x10, #0x8080808080808080
	b.ne	.LBB1_4
	sub	x8, x8, #64
	add	x1, x1, #64
	cmp	x8, #63
	b.hi	.LBB1_2
.LBB1_4:
	mov	x0, x1
	ret
.Lfunc_end1:
	.size	"core::slice::words::skip_far::<#52f9edcae2f82f51>", .Lfunc_end1-"core::slice::words::skip_far::<#52f9edcae2f82f51>"
	.cfi_endproc

	.section	".text.unlikely.std_alloc::vec::Vec::grow_amortized::<#dddb8944fea4a04d>","ax",@progbits
	.p2align	2
	.type	"std_alloc::vec::Vec::grow_amortized::<#dddb8944fea4a04d>",@function
"std_alloc::vec::Vec::grow_amortized::<#dddb8944fea4a04d>":
	.cfi_startproc
	ldr	x8, [x0, #8]
	cmn	x8, x1
	b.lo	.LBB2_2
	mov	w0, wzr
	ret
.LBB2_2:
	hint	#25
	.cfi_negate_ra_state
	stp	x29, x30, [sp, #-32]!
	.cfi_def_cfa_offset 32
	stp	x20, x19, [sp, #16]
	mov	x29, sp
	.cfi_def_cfa w29, 32
	.cfi_offset w19, -8
	.cfi_offset w20, -16
	.cfi_offset w30, -24
	.cfi_offset w29, -32
	.cfi_remember_state
	ldr	x9, [x0, #16]
	add	x10, x8, x1
	mov	w11, #4
	cmp	x10, #4
	lsl	x12, x9, #1
	csel	x11, x10, x11, hi
	lsr	x13, x9, #62
	cmp	x11, x12
	csel	x10, x11, x12, hi
	cmp	x13, #0
	csel	x19, x10, x11, eq
	mov	x11, #6148914691236517205
	movk	x11, #1365, lsl #48
	cmp	x19, x11
	b.hi	.LBB2_7
	cbz	x9, .LBB2_6
	add	x8, x8, x8, lsl #1
	add	x9, x19, x19, lsl #1
	mov	x20, x0
	ldr	x0, [x0]
	mov	w3, #8
	lsl	x1, x8, #3
	lsl	x2, x9, #3
	bl	rattle_realloc
	tbz	w0, #0, .LBB2_7
.LBB2_5:
	mov	w0, #1
	str	x1, [x20]
	str	x19, [x20, #16]
	.cfi_def_cfa wsp, 32
	ldp	x20, x19, [sp, #16]
	ldp	x29, x30, [sp], #32
	.cfi_def_cfa_offset 0
	.cfi_restore w19
	.cfi_restore w20
	.cfi_restore w30
	.cfi_restore w29
	hint	#29
	.cfi_negate_ra_state
	ret
.LBB2_6:
	.cfi_restore_state
	add	x8, x10, x10, lsl #1
	mov	x20, x0
	mov	w1, #8
	lsl	x0, x8, #3
	bl	rattle_alloc
	tbnz	w0, #0, .LBB2_5
.LBB2_7:
	mov	w0, wzr
	.cfi_def_cfa wsp, 32
	ldp	x20, x19, [sp, #16]
	ldp	x29, x30, [sp], #32
	.cfi_def_cfa_offset 0
	.cfi_restore w19
	.cfi_restore w20
	.cfi_restore w30
	.cfi_restore w29
	hint	#29
	.cfi_negate_ra_state
	ret
.Lfunc_end2:
	.size	"std_alloc::vec::Vec::grow_amortized::<#dddb8944fea4a04d>", .Lfunc_end2-"std_alloc::vec::Vec::grow_amortized::<#dddb8944fea4a04d>"
	.cfi_endproc

	.section	".text.unlikely.std_alloc::vec::Vec::grow_amortized::<#f615b8dcee162320>","ax",@progbits
	.p2align	2
	.type	"std_alloc::vec::Vec::grow_amortized::<#f615b8dcee162320>",@function
"std_alloc::vec::Vec::grow_amortized::<#f615b8dcee162320>":
	.cfi_startproc
	ldr	x8, [x0, #8]
	cmn	x8, x1
	b.lo	.LBB3_2
	mov	w0, wzr
	ret
.LBB3_2:
	hint	#25
	.cfi_negate_ra_state
	stp	x29, x30, [sp, #-32]!
	.cfi_def_cfa_offset 32
	stp	x20, x19, [sp, #16]
	mov	x29, sp
	.cfi_def_cfa w29, 32
	.cfi_offset w19, -8
	.cfi_offset w20, -16
	.cfi_offset w30, -24
	.cfi_offset w29, -32
	.cfi_remember_state
	ldr	x9, [x0, #16]
	add	x10, x8, x1
	mov	w11, #4
	cmp	x10, #4
	lsl	x12, x9, #1
	csel	x11, x10, x11, hi
	lsr	x13, x9, #62
	cmp	x11, x12
	csel	x10, x11, x12, hi
	cmp	x13, #0
	csel	x19, x10, x11, eq
	lsr	x11, x19, #59
	cbnz	x11, .LBB3_7
	cbz	x9, .LBB3_6
	mov	x20, x0
	ldr	x0, [x0]
	lsl	x1, x8, #4
	lsl	x2, x19, #4
	mov	w3, #8
	bl	rattle_realloc
	tbz	w0, #0, .LBB3_7
.LBB3_5:
	mov	w0, #1
	str	x1, [x20]
	str	x19, [x20, #16]
	.cfi_def_cfa wsp, 32
	ldp	x20, x19, [sp, #16]
	ldp	x29, x30, [sp], #32
	.cfi_def_cfa_offset 0
	.cfi_restore w19
	.cfi_restore w20
	.cfi_restore w30
	.cfi_restore w29
	hint	#29
	.cfi_negate_ra_state
	ret
.LBB3_6:
	.cfi_restore_state
	mov	x20, x0
	lsl	x0, x10, #4
	mov	w1, #8
	bl	rattle_alloc
	tbnz	w0, #0, .LBB3_5
.LBB3_7:
	mov	w0, wzr
	.cfi_def_cfa wsp, 32
	ldp	x20, x19, [sp, #16]
	ldp	x29, x30, [sp], #32
	.cfi_def_cfa_offset 0
	.cfi_restore w19
	.cfi_restore w20
	.cfi_restore w30
	.cfi_restore w29
	hint	#29
	.cfi_negate_ra_state
	ret
.Lfunc_end3:
	.size	"std_alloc::vec::Vec::grow_amortized::<#f615b8dcee162320>", .Lfunc_end3-"std_alloc::vec::Vec::grow_amortized::<#f615b8dcee162320>"
	.cfi_endproc

	.section	.rodata.cst16,"aM",@progbits,16
	.p2align	4, 0x0
.LCPI4_0:
	.byte	1
	.byte	2
	.byte	4
	.byte	8
	.byte	16
	.byte	32
	.byte	64
	.byte	128
	.byte	1
	.byte	2
	.byte	4
	.byte	8
	.byte	16
	.byte	32
	.byte	64
	.byte	128
	.section	".text.core::cmp::text::RefStrPartialEq::eq","ax",@progbits
	.p2align	2
	.type	"core::cmp::text::RefStrPartialEq::eq",@function
"core::cmp::text::RefStrPartialEq::eq":
	.cfi_startproc
	cmp	x1, x3
	b.ne	.LBB4_4
	cmp	x1, #7
	b.hi	.LBB4_5
	subs	x8, x1, #4
	b.lo	.LBB4_7
	ldr	w9, [x0]
	ldr	w10, [x0, x8]
	ldr	w11, [x2]
	ldr	w8, [x2, x8]
	orr	x9, x9, x10, lsl #32
	orr	x10, x11, x8, lsl #32
	rev	x8, x9
	rev	x9, x10
	cmp	x8, x9
	cset	w0, eq
	ret
.LBB4_4:
	mov	w0, wzr
	ret
.LBB4_5:
	cmp	x1, #32
	b.hi	.LBB4_9
	sub	x8, x1, #8
	mov	w11, #8
	ldr	x9, [x0]
	cmp	x8, #8
	ldr	x10, [x2]
	mov	w12, #16
	csel	x11, x8, x11, lo
	cmp	x8, #16
	csel	x12, x8, x12, lo
	ldr	x13, [x0, x11]
	ldr	x11, [x2, x11]
	cmp	x9, x10
	ldr	x9, [x0, x12]
	ldr	x10, [x2, x12]
	ccmp	x13, x11, #0, eq
	ldr	x11, [x0, x8]
	ldr	x8, [x2, x8]
	ccmp	x9, x10, #0, eq
	ccmp	x11, x8, #0, eq
	cset	w0, eq
	ret
.LBB4_7:
	cbz	x1, .LBB4_14
	ldrb	w8, [x0]
	lsr	x9, x1, #1
	ldrb	w10, [x2]
	sub	x12, x1, #1
	ldrb	w11, [x0, x9]
	lsl	x8, x8, #16
	ldrb	w9, [x2, x9]
	lsl	x10, x10, #16
	orr	x8, x8, x11, lsl #8
	ldrb	w11, [x0, x12]
	orr	x9, x10, x9, lsl #8
	ldrb	w10, [x2, x12]
	orr	x8, x8, x11
	orr	x9, x9, x10
	cmp	x8, x9
	cset	w0, eq
	ret
.LBB4_9:
	cmp	x1, #65
	mov	x8, x0
	mov	x9, x2
	mov	x10, x1
	b.hs	.LBB4_11
	ldp	q0, q2, [x0]
	sub	x8, x1, #16
	ldp	q1, q3, [x2]
	adrp	x9, .LCPI4_0
	mov	w10, #32
	cmp	x8, #32
	ldr	q5, [x2, x8]
	cmeq	v0.16b, v0.16b, v1.16b
	ldr	q1, [x9, :lo12:.LCPI4_0]
	cmeq	v2.16b, v2.16b, v3.16b
	csel	x9, x8, x10, lo
	ldr	q3, [x0, x9]
	ldr	q4, [x2, x9]
	bic	v0.16b, v1.16b, v0.16b
	bic	v2.16b, v1.16b, v2.16b
	cmeq	v3.16b, v3.16b, v4.16b
	ldr	q4, [x0, x8]
	addp	v0.16b, v0.16b, v0.16b
	cmeq	v4.16b, v4.16b, v5.16b
	addp	v2.16b, v2.16b, v2.16b
	bic	v3.16b, v1.16b, v3.16b
	addp	v0.16b, v0.16b, v0.16b
	bic	v1.16b, v1.16b, v4.16b
	addp	v2.16b, v2.16b, v2.16b
	addp	v3.16b, v3.16b, v3.16b
	addp	v0.16b, v0.16b, v0.16b
	addp	v2.16b, v2.16b, v2.16b
	addp	v1.16b, v1.16b, v1.16b
	addp	v3.16b, v3.16b, v3.16b
	orr	v0.16b, v2.16b, v0.16b
	addp	v1.16b, v1.16b, v1.16b
	addp	v2.16b, v3.16b, v3.16b
	addp	v1.16b, v1.16b, v1.16b
	orr	v0.16b, v0.16b, v2.16b
	orr	v0.16b, v0.16b, v1.16b
	umov	w8, v0.h[0]
	tst	w8, #0xffff
	cset	w8, ne
	eor	w0, w8, #0x1
	ret
.LBB4_11:
	ldp	q0, q6, [x8]
	adrp	x11, .LCPI4_0
	ldp	q1, q2, [x8, #32]
	ldp	q3, q7, [x9]
	ldp	q5, q4, [x9, #32]
	cmeq	v3.16b, v0.16b, v3.16b
	ldr	q0, [x11, :lo12:.LCPI4_0]
	cmeq	v2.16b, v2.16b, v4.16b
	cmeq	v1.16b, v1.16b, v5.16b
	cmeq	v4.16b, v6.16b, v7.16b
	bic	v3.16b, v0.16b, v3.16b
	bic	v4.16b, v0.16b, v4.16b
	bic	v1.16b, v0.16b, v1.16b
	bic	v2.16b, v0.16b, v2.16b
	addp	v3.16b, v3.16b, v4.16b
	addp	v1.16b, v1.16b, v2.16b
	addp	v1.16b, v3.16b, v1.16b
	addp	v1.16b, v1.16b, v1.16b
	fmov	x11, d1
	cbnz	x11, .LBB4_15
	sub	x10, x10, #64
	add	x9, x9, #64
	add	x8, x8, #64
	cmp	x10, #65
	b.hs	.LBB4_11
	sub	x8, x1, #64
	add	x9, x0, x8
	add	x8, x2, x8
	ldp	q1, q2, [x9]
	ldp	q3, q4, [x9, #32]
	ldp	q5, q6, [x8]
	ldp	q7, q16, [x8, #32]
	cmeq	v1.16b, v1.16b, v5.16b
	cmeq	v2.16b, v2.16b, v6.16b
	cmeq	v4.16b, v4.16b, v16.16b
	cmeq	v3.16b, v3.16b, v7.16b
	bic	v1.16b, v0.16b, v1.16b
	bic	v2.16b, v0.16b, v2.16b
	bic	v3.16b, v0.16b, v3.16b
	bic	v0.16b, v0.16b, v4.16b
	addp	v1.16b, v1.16b, v2.16b
	addp	v0.16b, v3.16b, v0.16b
	addp	v0.16b, v1.16b, v0.16b
	addp	v0.16b, v0.16b, v0.16b
	fmov	x8, d0
	cmp	x8, #0
	cset	w8, ne
	eor	w0, w8, #0x1
	ret
.LBB4_14:
	cmp	xzr, xzr
	cset	w0, eq
	ret
.LBB4_15:
	mov	w8, #1
	eor	w0, w8, #0x1
	ret
.Lfunc_end4:
	.size	"core::cmp::text::RefStrPartialEq::eq", .Lfunc_end4-"core::cmp::text::RefStrPartialEq::eq"
	.cfi_endproc

	.section	".text.des_tool::command::digits::parse_cipher_key::<#c792690d620903dd>","ax",@progbits
	.p2align	2
	.type	"des_tool::command::digits::parse_cipher_key::<#c792690d620903dd>",@function
"des_tool::command::digits::parse_cipher_key::<#c792690d620903dd>":
	.cfi_startproc
	hint	#25
	.cfi_negate_ra_state
	sub	sp, sp, #352
	.cfi_def_cfa_offset 352
	stp	x29, x30, [sp, #256]
	str	x28, [sp, #272]
	stp	x26, x25, [sp, #288]
	stp	x24, x23, [sp, #304]
	stp	x22, x21, [sp, #320]
	stp	x20, x19, [sp, #336]
	add	x29, sp, #256
	.cfi_def_cfa w29, 96
	.cfi_offset w19, -8
	.cfi_offset w20, -16
	.cfi_offset w21, -24
	.cfi_offset w22, -32
	.cfi_offset w23, -40
	.cfi_offset w24, -48
	.cfi_offset w25, -56
	.cfi_offset w26, -64
	.cfi_offset w28, -80
	.cfi_offset w30, -88
	.cfi_offset w29, -96
	.cfi_remember_state
	cmp	x2, #16
	mov	w20, #1
	mov	w8, #1
	b.ne	.LBB5_35
	ldrb	w24, [x1]
	sub	w8, w24, #48
	cmp	w8, #10
	b.lo	.LBB5_3
	and	w9, w24, #0xffffffdf
	sub	w9, w9, #65
	and	w9, w9, #0xff
	cmp	w9, #6
	b.hs	.LBB5_34
.LBB5_3:
	ldrb	w23, [x1, #1]
	sub	w9, w23, #48
	cmp	w9, #10
	b.lo	.LBB5_5
	and	w10, w23, #0xffffffdf
	sub	w10, w10, #65
	and	w10, w10, #0xff
	cmp	w10, #5
	b.hi	.LBB5_34
.LBB5_5:
	ldrb	w22, [x1, #2]
	sub	w10, w22, #48
	cmp	w10, #10
	b.lo	.LBB5_7
	and	w11, w22, #0xffffffdf
	sub	w11, w11, #65
	and	w11, w11, #0xff
	cmp	w11, #5
	b.hi	.LBB5_34
.LBB5_7:
	ldrb	w21, [x1, #3]
	sub	w11, w21, #48
	cmp	w11, #10
	b.lo	.LBB5_9
	and	w12, w21, #0xffffffdf
	sub	w12, w12, #65
	and	w12, w12, #0xff
	cmp	w12, #5
	b.hi	.LBB5_34
.LBB5_9:
	ldrb	w19, [x1, #4]
	sub	w12, w19, #48
	cmp	w12, #10
	b.lo	.LBB5_11
	and	w13, w19, #0xffffffdf
	sub	w13, w13, #65
	and	w13, w13, #0xff
	cmp	w13, #5
	b.hi	.LBB5_34
.LBB5_11:
	ldrb	w7, [x1, #5]
	sub	w13, w7, #48
	cmp	w13, #10
	b.lo	.LBB5_13
	and	w14, w7, #0xffffffdf
	sub	w14, w14, #65
	and	w14, w14, #0xff
	cmp	w14, #5
	b.hi	.LBB5_34
.LBB5_13:
	ldrb	w6, [x1, #6]
	sub	w14, w6, #48
	cmp	w14, #10
	b.lo	.LBB5_15
	and	w15, w6, #0xffffffdf
	sub	w15, w15, #65
	and	w15, w15, #0xff
	cmp	w15, #5
	b.hi	.LBB5_34
.LBB5_15:
	ldrb	w5, [x1, #7]
	sub	w15, w5, #48
	cmp	w15, #10
	b.lo	.LBB5_17
	and	w16, w5, #0xffffffdf
	sub	w16, w16, #65
	and	w16, w16, #0xff
	cmp	w16, #5
	b.hi	.LBB5_34
.LBB5_17:
	ldrb	w4, [x1, #8]
	sub	w16, w4, #48
	cmp	w16, #10
	b.lo	.LBB5_19
	and	w17, w4, #0xffffffdf
	sub	w17, w17, #65
	and	w17, w17, #0xff
	cmp	w17, #5
	b.hi	.LBB5_34
.LBB5_19:
	ldrb	w3, [x1, #9]
	sub	w17, w3, #48
	cmp	w17, #10
	b.lo	.LBB5_21
	and	w18, w3, #0xffffffdf
	sub	w18, w18, #65
	and	w18, w18, #0xff
	cmp	w18, #5
	b.hi	.LBB5_34
.LBB5_21:
	ldrb	w2, [x1, #10]
	sub	w18, w2, #48
	cmp	w18, #10
	b.lo	.LBB5_23
	and	w25, w2, #0xffffffdf
	sub	w25, w25, #65
	and	w25, w25, #0xff
	cmp	w25, #5
	b.hi	.LBB5_34
.LBB5_23:
	ldrb	w25, [x1, #11]
	sub	w26, w25, #48
	cmp	w26, #10
	b.lo	.LBB5_25
	and	w25, w25, #0xffffffdf
	sub	w25, w25, #65
	cmp	w25, #5
	b.hi	.LBB5_34
.LBB5_25:
	ldrb	w25, [x1, #12]
	sub	w26, w25, #48
	cmp	w26, #10
	b.lo	.LBB5_27
	and	w25, w25, #0xffffffdf
	sub	w25, w25, #65
	cmp	w25, #5
	b.hi	.LBB5_34
.LBB5_27:
	str	x0, [x29, #24]
	ldrb	w0, [x1, #13]
	sub	w25, w0, #48
	cmp	w25, #10
	b.lo	.LBB5_29
	and	w0, w0, #0xffffffdf
	sub	w0, w0, #65
	cmp	w0, #5
	b.hi	.LBB5_33
.LBB5_29:
	ldrb	w0, [x1, #14]
	sub	w25, w0, #48
	cmp	w25, #10
	b.lo	.LBB5_31
	and	w0, w0, #0xffffffdf
	sub	w0, w0, #65
	cmp	w0, #5
	b.hi	.LBB5_33
.LBB5_31:
	ldrb	w0, [x1, #15]
	sub	w25, w0, #48
	cmp	w25, #10
	b.lo	.LBB5_37
	and	w0, w0, #0xffffffdf
	sub	w0, w0, #65
	cmp	w0, #6
	b.lo	.LBB5_37
.LBB5_33:
	ldr	x0, [x29, #24]
.LBB5_34:
	mov	w8, #2
.LBB5_35:
	movi	v0.2d, #0000000000000000
	strb	w20, [x0]
	strb	w8, [x0, #1]
	stur	q0, [x0, #8]
	stur	q0, [x0, #24]
	stur	q0, [x0, #40]
	stur	q0, [x0, #56]
	stur	q0, [x0, #72]
	stur	q0, [x0, #88]
	stur	q0, [x0, #104]
	stur	q0, [x0, #120]
	.cfi_def_cfa wsp, 352
.LBB5_36:
	ldp	x20, x19, [sp, #336]
	ldr	x28, [sp, #272]
	ldp	x22, x21, [sp, #320]
	ldp	x24, x23, [sp, #304]
	ldp	x26, x25, [sp, #288]
	ldp	x29, x30, [sp, #256]
	add	sp, sp, #352
	.cfi_def_cfa_offset 0
	.cfi_restore w19
	.cfi_restore w20
	.cfi_restore w21
	.cfi_restore w22
	.cfi_restore w23
	.cfi_restore w24
	.cfi_restore w25
	.cfi_restore w26
	.cfi_restore w28
	.cfi_restore w30
	.cfi_restore w29
	hint	#29
	.cfi_negate_ra_state
	ret
.LBB5_37:
	.cfi_restore_state
	.cfi_remember_state
	cmp	w24, #48
	b.lo	.LBB5_150
	cmp	w24, #58
	b.lo	.LBB5_44
	cmp	w24, #65
	b.lo	.LBB5_150
	cmp	w24, #70
	b.hi	.LBB5_42
	sub	w8, w24, #55
	b	.LBB5_44
.LBB5_42:
	sub	w8, w24, #97
	cmp	w8, #5
	b.hi	.LBB5_150
	sub	w8, w24, #87
.LBB5_44:
	cmp	w23, #48
	b.lo	.LBB5_150
	cmp	w23, #58
	b.lo	.LBB5_51
	cmp	w23, #65
	b.lo	.LBB5_150
	cmp	w23, #70
	b.hi	.LBB5_49
	sub	w9, w23, #55
	b	.LBB5_51
.LBB5_49:
	sub	w9, w23, #97
	cmp	w9, #5
	b.hi	.LBB5_150
	sub	w9, w23, #87
.LBB5_51:
	cmp	w22, #48
	b.lo	.LBB5_150
	cmp	w22, #58
	b.lo	.LBB5_58
	cmp	w22, #65
	b.lo	.LBB5_150
	cmp	w22, #71
	b.hs	.LBB5_56
	sub	w10, w22, #55
	b	.LBB5_58
.LBB5_56:
	sub	w10, w22, #97
	cmp	w10, #5
	b.hi	.LBB5_150
	sub	w10, w22, #87
.LBB5_58:
	cmp	w21, #48
	b.lo	.LBB5_150
	cmp	w21, #58
	b.lo	.LBB5_65
	cmp	w21, #65
	b.lo	.LBB5_150
	cmp	w21, #71
	b.hs	.LBB5_63
	sub	w11, w21, #55
	b	.LBB5_65
.LBB5_63:
	sub	w11, w21, #97
	cmp	w11, #5
	b.hi	.LBB5_150
	sub	w11, w21, #87
.LBB5_65:
	cmp	w19, #48
	b.lo	.LBB5_150
	cmp	w19, #58
	b.lo	.LBB5_72
	cmp	w19, #65
	b.lo	.LBB5_150
	cmp	w19, #71
	b.hs	.LBB5_70
	sub	w12, w19, #55
	b	.LBB5_72
.LBB5_70:
	sub	w12, w19, #97
	cmp	w12, #5
	b.hi	.LBB5_150
	sub	w12, w19, #87
.LBB5_72:
	cmp	w7, #48
	b.lo	.LBB5_150
	cmp	w7, #58
	b.lo	.LBB5_79
	cmp	w7, #65
	b.lo	.LBB5_150
	cmp	w7, #71
	b.hs	.LBB5_77
	sub	w13, w7, #55
	b	.LBB5_79
.LBB5_77:
	sub	w13, w7, #97
	cmp	w13, #5
	b.hi	.LBB5_150
	sub	w13, w7, #87
.LBB5_79:
	cmp	w6, #48
	b.lo	.LBB5_150
	cmp	w6, #58
	b.lo	.LBB5_86
	cmp	w6, #65
	b.lo	.LBB5_150
	cmp	w6, #71
	b.hs	.LBB5_84
	sub	w14, w6, #55
	b	.LBB5_86
.LBB5_84:
	sub	w14, w6, #97
	cmp	w14, #5
	b.hi	.LBB5_150
	sub	w14, w6, #87
.LBB5_86:
	cmp	w5, #48
	b.lo	.LBB5_150
	cmp	w5, #58
	b.lo	.LBB5_93
	cmp	w5, #65
	b.lo	.LBB5_150
	cmp	w5, #71
	b.hs	.LBB5_91
	sub	w15, w5, #55
	b	.LBB5_93
.LBB5_91:
	sub	w15, w5, #97
	cmp	w15, #5
	b.hi	.LBB5_150
	sub	w15, w5, #87
.LBB5_93:
	cmp	w4, #48
	b.lo	.LBB5_150
	cmp	w4, #58
	b.lo	.LBB5_100
	cmp	w4, #65
	b.lo	.LBB5_150
	cmp	w4, #71
	b.hs	.LBB5_98
	sub	w16, w4, #55
	b	.LBB5_100
.LBB5_98:
	sub	w16, w4, #97
	cmp	w16, #5
	b.hi	.LBB5_150
	sub	w16, w4, #87
.LBB5_100:
	cmp	w3, #48
	b.lo	.LBB5_150
	cmp	w3, #58
	b.lo	.LBB5_107
	cmp	w3, #65
	b.lo	.LBB5_150
	cmp	w3, #71
	b.hs	.LBB5_105
	sub	w17, w3, #55
	b	.LBB5_107
.LBB5_105:
	sub	w17, w3, #97
	cmp	w17, #5
	b.hi	.LBB5_150
	sub	w17, w3, #87
.LBB5_107:
	cmp	w2, #48
	b.lo	.LBB5_150
	ldrb	w3, [x1, #11]
	cmp	w2, #58
	b.lo	.LBB5_114
	cmp	w2, #65
	b.lo	.LBB5_150
	cmp	w2, #71
	b.hs	.LBB5_112
	sub	w18, w2, #55
	b	.LBB5_114
.LBB5_112:
	sub	w18, w2, #97
	cmp	w18, #5
	b.hi	.LBB5_150
	sub	w18, w2, #87
.LBB5_114:
	subs	w0, w3, #48
	b.lo	.LBB5_150
	cmp	w3, #58
	b.lo	.LBB5_121
	cmp	w3, #65
	b.lo	.LBB5_150
	cmp	w3, #71
	b.hs	.LBB5_119
	sub	w0, w3, #55
	b	.LBB5_121
.LBB5_119:
	sub	w0, w3, #97
	cmp	w0, #5
	b.hi	.LBB5_150
	sub	w0, w3, #87
.LBB5_121:
	ldrb	w3, [x1, #12]
	subs	w2, w3, #48
	b.lo	.LBB5_150
	ldrb	w4, [x1, #13]
	cmp	w3, #58
	b.lo	.LBB5_128
	cmp	w3, #65
	b.lo	.LBB5_150
	cmp	w3, #71
	b.hs	.LBB5_126
	sub	w2, w3, #55
	b	.LBB5_128
.LBB5_126:
	sub	w2, w3, #97
	cmp	w2, #5
	b.hi	.LBB5_150
	sub	w2, w3, #87
.LBB5_128:
	subs	w3, w4, #48
	b.lo	.LBB5_150
	cmp	w4, #58
	b.lo	.LBB5_135
	cmp	w4, #65
	b.lo	.LBB5_150
	cmp	w4, #71
	b.hs	.LBB5_133
	sub	w3, w4, #55
	b	.LBB5_135
.LBB5_133:
	sub	w3, w4, #97
	cmp	w3, #5
	b.hi	.LBB5_150
	sub	w3, w4, #87
.LBB5_135:
	ldrb	w5, [x1, #14]
	subs	w4, w5, #48
	b.lo	.LBB5_150
	ldrb	w1, [x1, #15]
	cmp	w5, #58
	b.lo	.LBB5_142
	cmp	w5, #65
	b.lo	.LBB5_150
	cmp	w5, #71
	b.hs	.LBB5_140
	sub	w4, w5, #55
	b	.LBB5_142
.LBB5_140:
	sub	w4, w5, #97
	cmp	w4, #5
	b.hi	.LBB5_150
	sub	w4, w5, #87
.LBB5_142:
	subs	w5, w1, #48
	b.lo	.LBB5_150
	cmp	w1, #58
	b.lo	.LBB5_149
	cmp	w1, #65
	b.lo	.LBB5_150
	cmp	w1, #71
	b.hs	.LBB5_147
	sub	w5, w1, #55
	b	.LBB5_149
.LBB5_147:
	sub	w5, w1, #97
	cmp	w5, #5
	b.hi	.LBB5_150
	sub	w5, w1, #87
.LBB5_149:
	add	w1, w3, w2, lsl #4
	add	w2, w5, w4, lsl #4
	add	w18, w0, w18, lsl #4
	add	w16, w17, w16, lsl #4
	add	w14, w15, w14, lsl #4
	add	w12, w13, w12, lsl #4
	and	w1, w1, #0xff
	and	w17, w18, #0xff
	add	w10, w11, w10, lsl #4
	lsl	x1, x1, #48
	and	w16, w16, #0xff
	lsl	w14, w14, #24
	movi	v0.2d, #0000000000000000
	add	w8, w9, w8, lsl #4
	add	x19, sp, #128
	orr	x0, x1, x2, lsl #56
	and	x8, x8, #0xff
	orr	x15, x0, x17, lsl #40
	add	x0, sp, #128
	stp	q0, q0, [sp, #128]
	orr	x15, x15, x16, lsl #32
	stp	q0, q0, [sp, #160]
	stp	q0, q0, [sp, #192]
	orr	x13, x15, x14
	stp	q0, q0, [sp, #224]
	bfi	x13, x12, #16, #8
	bfi	x13, x10, #8, #8
	orr	x1, x13, x8
	bl	"des::des::DesKeyInit::new"
	ldur	q0, [x19, #65]
	ldur	q1, [x19, #81]
	ldur	q2, [x19, #97]
	ldr	x8, [x29, #24]
	ldrb	w9, [sp, #128]
	stp	q0, q1, [sp, #64]
	ldr	q0, [sp, #240]
	ldur	q1, [x19, #1]
	str	q2, [sp, #96]
	ldur	q2, [x19, #33]
	stur	q0, [sp, #111]
	ldur	q0, [x19, #17]
	strh	wzr, [x8]
	stp	q1, q0, [sp]
	ldur	q0, [x19, #49]
	strb	w9, [x8, #8]
	stp	q2, q0, [sp, #32]
	ldp	q1, q0, [sp, #64]
	stur	q1, [x8, #73]
	ldr	q1, [sp, #96]
	stur	q0, [x8, #89]
	ldur	q0, [sp, #111]
	stur	q1, [x8, #105]
	stur	q0, [x8, #120]
	ldp	q1, q0, [sp]
	stur	q1, [x8, #9]
	stur	q0, [x8, #25]
	ldp	q1, q0, [sp, #32]
	stur	q1, [x8, #41]
	stur	q0, [x8, #57]
	.cfi_def_cfa wsp, 352
	b	.LBB5_36
.LBB5_150:
	.cfi_restore_state
	brk	#0x1
.Lfunc_end5:
	.size	"des_tool::command::digits::parse_cipher_key::<#c792690d620903dd>", .Lfunc_end5-"des_tool::command::digits::parse_cipher_key::<#c792690d620903dd>"
	.cfi_endproc

	.section	".text.des::des::DesKeyInit::new","ax",@progbits
	.p2align	2
	.type	"des::des::DesKeyInit::new",@function
"des::des::DesKeyInit::new":
	.cfi_startproc
	hint	#25
	.cfi_negate_ra_state
	sub	sp, sp, #272
	.cfi_def_cfa_offset 272
	str	x30, [sp, #256]
	.cfi_offset w30, -16
	rev	x9, x1
	mov	x11, #858980352
	movi	v0.2d, #0000000000000000
	eor	x10, x9, x9, lsr #2
	movk	x11, #13107, lsl #48
	mov	x8, xzr
	and	x10, x10, x11
	mov	x11, #16557098926080
	eor	x9, x9, x10, lsl #2
	movk	x11, #3855, lsl #48
	stp	q0, q0, [sp, #128]
	stp	q0, q0, [sp, #160]
	eor	x9, x9, x10
	stp	q0, q0, [sp, #192]
	eor	x10, x9, x9, lsr #4
	stp	q0, q0, [sp, #224]
	and	x10, x10, x11
	mov	x11, #168
	eor	x9, x9, x10, lsl #4
	movk	x11, #162, lsl #16
	movk	x11, #10, lsl #32
	eor	x9, x9, x10
	movk	x11, #154, lsl #48
	eor	x10, x9, x9, lsr #8
	and	x10, x10, x11
	mov	x11, #52428
	eor	x9, x9, x10, lsl #8
	movk	x11, #27756, lsl #32
	eor	x9, x9, x10
	eor	x10, x9, x9, lsr #16
	and	x10, x10, x11
	mov	x11, #1360
	eor	x9, x9, x10, lsl #16
	movk	x11, #85, lsl #16
	movk	x11, #20485, lsl #32
	eor	x9, x9, x10
	movk	x11, #4165, lsl #48
	eor	x10, x9, x9, lsr #1
	and	x10, x10, x11
	mov	w11, #62970
	eor	x9, x9, x10, lsl #1
	movk	w11, #61680, lsl #16
	eor	x9, x9, x10
	lsr	x10, x9, #32
	eor	w10, w10, w9
	and	x10, x10, x11
	mov	x11, #170
	eor	x9, x9, x10, lsl #32
	movk	x11, #106, lsl #16
	movk	x11, #85, lsl #32
	eor	x9, x9, x10
	movk	x11, #85, lsl #48
	eor	x10, x9, x9, lsr #8
	and	x10, x10, x11
	mov	x11, #768
	eor	x9, x9, x10, lsl #8
	movk	x11, #12288, lsl #16
	movk	x11, #13107, lsl #32
	eor	x9, x9, x10
	eor	x10, x9, x9, lsr #2
	and	x9, x9, #0xffffffffffffff00
	and	x10, x10, x11
	eor	x9, x9, x10, lsl #2
	eor	x10, x9, x10
	lsr	x9, x10, #36
	ubfx	x10, x10, #8, #28
.LBB6_1:
	adrp	x11, .Lstatic.11
	add	x11, x11, :lo12:.Lstatic.11
	mov	w1, #640
	ldrb	w14, [x11, x8]
	mov	w11, #28
	movk	w1, #130, lsl #16
	mov	w3, #36865
	mov	w4, #5
	mov	w18, #513
	sub	w16, w11, w14
	lsl	x17, x10, x14
	lsl	x15, x9, x14
	lsr	x10, x10, x16
	lsr	x9, x9, x16
	movk	w3, #8, lsl #16
	and	x16, x17, #0xfffffff
	and	x15, x15, #0xfffffff
	movk	w4, #516, lsl #16
	orr	x10, x16, x10
	orr	x9, x15, x9
	mov	x15, #17
	and	x1, x1, x10, lsl #1
	lsl	x17, x9, #36
	mov	w16, #16516
	movk	x15, #12580, lsl #32
	movk	w16, #2, lsl #16
	mov	x5, #6
	umull	x1, w1, w3
	mov	x3, #8193
	add	x17, x17, x10, lsl #8
	movk	x3, #1, lsl #16
	movk	x15, #5, lsl #48
	and	w16, w16, w10, lsr #10
	movk	x3, #4352, lsl #32
	and	x15, x15, x17, lsr #13
	movk	w18, #37920, lsl #16
	movk	x3, #34, lsl #48
	movk	x5, #97, lsl #16
	mul	w16, w16, w4
	and	x3, x3, x17, ror #60
	movk	x5, #1, lsl #48
	mul	x15, x15, x18
	mov	x18, #2
	mov	x13, #537919488
	mov	x4, #277348352
	movk	x18, #16416, lsl #16
	mul	x3, x3, x5
	mov	w5, #167968768
	mov	x12, #262144
	movk	x13, #1024, lsl #32
	movk	x4, #1, lsl #32
	movk	x18, #20992, lsl #32
	and	x16, x16, x5
	mov	x5, #4352
	movk	x12, #16896, lsl #32
	movk	x13, #16, lsl #48
	mov	x14, #16777216
	and	x1, x1, x4
	mov	x4, #193
	and	x18, x18, x17, ror #61
	movk	x5, #49153, lsl #16
	movk	x14, #128, lsl #32
	movk	x4, #128, lsl #32
	and	x12, x12, x17, lsr #10
	and	x13, x13, x17, lsr #2
	lsr	x17, x17, #3
	movk	x5, #4, lsl #32
	mov	x11, #35184372088832
	mov	x2, #2147483648
	movk	x5, #256, lsl #48
	mul	x18, x18, x4
	and	x14, x14, x10, lsl #24
	movk	x11, #2, lsl #48
	movk	x2, #4104, lsl #32
	mov	w4, #17028
	and	x5, x17, x5
	movk	x2, #59968, lsl #48
	and	x11, x17, x11
	mul	x17, x5, x4
	orr	x13, x14, x13
	orr	x12, x12, x1
	mov	x14, #2097152
	and	x15, x15, x2
	mov	x2, #292057776128
	movk	x14, #33040, lsl #32
	orr	x11, x11, x13
	orr	x12, x12, x16
	movk	x2, #4485, lsl #48
	movk	x14, #40, lsl #48
	orr	x11, x11, x12
	mov	x12, #1145044992
	and	x13, x3, x2
	and	x14, x18, x14
	movk	x12, #2082, lsl #32
	orr	x11, x11, x15
	orr	x13, x13, x14
	movk	x12, #1024, lsl #48
	orr	x11, x11, x13
	add	x13, sp, #128
	and	x12, x17, x12
	orr	x11, x11, x12
	str	x11, [x13, x8, lsl #3]
	add	x8, x8, #1
	cmp	x8, #16
	b.ne	.LBB6_1
	ldp	q0, q1, [sp, #192]
	ldr	x30, [sp, #256]
	ldp	q2, q3, [sp, #224]
	ldp	q4, q5, [sp, #128]
	ldp	q6, q7, [sp, #160]
	stp	q0, q1, [sp, #64]
	stp	q2, q3, [sp, #96]
	stp	q4, q5, [sp]
	stp	q6, q7, [sp, #32]
	stp	q4, q5, [x0]
	stp	q6, q7, [x0, #32]
	stp	q0, q1, [x0, #64]
	stp	q2, q3, [x0, #96]
	add	sp, sp, #272
	.cfi_def_cfa_offset 0
	.cfi_restore w30
	hint	#29
	.cfi_negate_ra_state
	ret
.Lfunc_end6:
	.size	"des::des::DesKeyInit::new", .Lfunc_end6-"des::des::DesKeyInit::new"
	.cfi_endproc

	.section	".text.des_tool::command::digits::parse_blocks","ax",@progbits
	.p2align	2
	.type	"des_tool::command::digits::parse_blocks",@function
"des_tool::command::digits::parse_blocks":
	.cfi_startproc
	hint	#25
	.cfi_negate_ra_state
	sub	sp, sp, #176
	.cfi_def_cfa_offset 176
	stp	x29, x30, [sp, #80]
	stp	x28, x27, [sp, #96]
	stp	x26, x25, [sp, #112]
	stp	x24, x23, [sp, #128]
	stp	x22, x21, [sp, #144]
	stp	x20, x19, [sp, #160]
	add	x29, sp, #80
	.cfi_def_cfa w29, 96
	.cfi_offset w19, -8
	.cfi_offset w20, -16
	.cfi_offset w21, -24
	.cfi_offset w22, -32
	.cfi_offset w23, -40
	.cfi_offset w24, -48
	.cfi_offset w25, -56
	.cfi_offset w26, -64
	.cfi_offset w27, -72
	.cfi_offset w28, -80
	.cfi_offset w30, -88
	.cfi_offset w29, -96
	.cfi_remember_state
	tst	x2, #0xf
	stp	xzr, xzr, [x29, #-32]
	stur	xzr, [x29, #-16]
	b.eq	.LBB7_2
	mov	w8, #769
	b	.LBB7_7
.LBB7_2:
	mov	x8, xzr
.LBB7_3:
	cmp	x2, x8
	b.eq	.LBB7_9
	ldrb	w9, [x1, x8]
	add	x8, x8, #1
	sub	w10, w9, #48
	cmp	w10, #10
	b.lo	.LBB7_3
	and	w9, w9, #0xffffffdf
	sub	w9, w9, #65
	cmp	w9, #6
	b.lo	.LBB7_3
	mov	w8, #1025
.LBB7_7:
	stp	xzr, xzr, [x0, #16]
	strh	w8, [x0]
	str	xzr, [x0, #8]
	.cfi_def_cfa wsp, 176
.LBB7_8:
	ldp	x20, x19, [sp, #160]
	ldp	x22, x21, [sp, #144]
	ldp	x24, x23, [sp, #128]
	ldp	x26, x25, [sp, #112]
	ldp	x28, x27, [sp, #96]
	ldp	x29, x30, [sp, #80]
	add	sp, sp, #176
	.cfi_def_cfa_offset 0
	.cfi_restore w19
	.cfi_restore w20
	.cfi_restore w21
	.cfi_restore w22
	.cfi_restore w23
	.cfi_restore w24
	.cfi_restore w25
	.cfi_restore w26
	.cfi_restore w27
	.cfi_restore w28
	.cfi_restore w30
	.cfi_restore w29
	hint	#29
	.cfi_negate_ra_state
	ret
.LBB7_9:
	.cfi_restore_state
	.cfi_remember_state
	lsr	x20, x2, #4
	cbz	x2, .LBB7_128
	str	x0, [sp, #40]
	lsr	x0, x2, #1
	mov	x19, x1
	mov	w1, #1
	bl	rattle_alloc
	tbz	w0, #0, .LBB7_132
	ldr	x0, [sp, #40]
	mov	x8, xzr
	add	x21, x19, #7
	mov	x13, x20
	stp	x1, xzr, [x29, #-32]
	stur	x20, [x29, #-16]
	b	.LBB7_15
.LBB7_12:
	sub	w28, w9, #55
.LBB7_13:
	ldur	x9, [x29, #-16]
	cmp	x9, x8
	b.eq	.LBB7_126
.LBB7_14:
	add	w9, w26, w20, lsl #4
	add	w10, w28, w27, lsl #4
	add	w11, w25, w24, lsl #4
	add	w12, w19, w12, lsl #4
	subs	x13, x13, #1
	add	x21, x21, #16
	and	w9, w9, #0xff
	and	w11, w11, #0xff
	lsl	x9, x9, #48
	orr	x9, x9, x10, lsl #56
	add	w10, w23, w22, lsl #4
	orr	x9, x9, x11, lsl #40
	and	w10, w10, #0xff
	lsl	w11, w12, #24
	orr	x9, x9, x10, lsl #32
	add	w10, w2, w18, lsl #4
	orr	x9, x9, x11
	add	w11, w17, w16, lsl #4
	bfi	x9, x10, #16, #8
	add	w10, w15, w14, lsl #4
	bfi	x9, x11, #8, #8
	and	x10, x10, #0xff
	orr	x9, x9, x10
	str	x9, [x1, x8, lsl #3]
	add	x8, x8, #1
	stur	x8, [x29, #-24]
	b.eq	.LBB7_129
.LBB7_15:
	ldurb	w10, [x21, #-7]
	subs	w14, w10, #48
	b.lo	.LBB7_133
	ldurb	w9, [x21, #-6]
	cmp	w10, #57
	b.ls	.LBB7_22
	cmp	w10, #65
	b.lo	.LBB7_133
	cmp	w10, #70
	b.hi	.LBB7_20
	sub	w14, w10, #55
	b	.LBB7_22
.LBB7_20:
	sub	w11, w10, #97
	cmp	w11, #5
	b.hi	.LBB7_133
	sub	w14, w10, #87
.LBB7_22:
	subs	w15, w9, #48
	b.lo	.LBB7_133
	cmp	w9, #57
	b.ls	.LBB7_29
	cmp	w9, #65
	b.lo	.LBB7_133
	cmp	w9, #70
	b.hi	.LBB7_27
	sub	w15, w9, #55
	b	.LBB7_29
.LBB7_27:
	sub	w10, w9, #97
	cmp	w10, #5
	b.hi	.LBB7_133
	sub	w15, w9, #87
.LBB7_29:
	ldurb	w10, [x21, #-5]
	subs	w16, w10, #48
	b.lo	.LBB7_133
	ldurb	w9, [x21, #-4]
	cmp	w10, #58
	b.lo	.LBB7_36
	cmp	w10, #65
	b.lo	.LBB7_133
	cmp	w10, #71
	b.hs	.LBB7_34
	sub	w16, w10, #55
	b	.LBB7_36
.LBB7_34:
	sub	w11, w10, #97
	cmp	w11, #5
	b.hi	.LBB7_133
	sub	w16, w10, #87
.LBB7_36:
	subs	w17, w9, #48
	b.lo	.LBB7_133
	cmp	w9, #58
	b.lo	.LBB7_43
	cmp	w9, #65
	b.lo	.LBB7_133
	cmp	w9, #71
	b.hs	.LBB7_41
	sub	w17, w9, #55
	b	.LBB7_43
.LBB7_41:
	sub	w10, w9, #97
	cmp	w10, #5
	b.hi	.LBB7_133
	sub	w17, w9, #87
.LBB7_43:
	ldurb	w10, [x21, #-3]
	subs	w18, w10, #48
	b.lo	.LBB7_133
	ldurb	w9, [x21, #-2]
	cmp	w10, #58
	b.lo	.LBB7_50
	cmp	w10, #65
	b.lo	.LBB7_133
	cmp	w10, #71
	b.hs	.LBB7_48
	sub	w18, w10, #55
	b	.LBB7_50
.LBB7_48:
	sub	w11, w10, #97
	cmp	w11, #5
	b.hi	.LBB7_133
	sub	w18, w10, #87
.LBB7_50:
	subs	w2, w9, #48
	b.lo	.LBB7_133
	cmp	w9, #58
	b.lo	.LBB7_57
	cmp	w9, #65
	b.lo	.LBB7_133
	cmp	w9, #71
	b.hs	.LBB7_55
	sub	w2, w9, #55
	b	.LBB7_57
.LBB7_55:
	sub	w10, w9, #97
	cmp	w10, #5
	b.hi	.LBB7_133
	sub	w2, w9, #87
.LBB7_57:
	ldurb	w10, [x21, #-1]
	subs	w12, w10, #48
	b.lo	.LBB7_133
	ldrb	w9, [x21]
	cmp	w10, #58
	b.lo	.LBB7_64
	cmp	w10, #65
	b.lo	.LBB7_133
	cmp	w10, #71
	b.hs	.LBB7_62
	sub	w12, w10, #55
	b	.LBB7_64
.LBB7_62:
	sub	w11, w10, #97
	cmp	w11, #5
	b.hi	.LBB7_133
	sub	w12, w10, #87
.LBB7_64:
	subs	w19, w9, #48
	b.lo	.LBB7_133
	cmp	w9, #58
	b.lo	.LBB7_71
	cmp	w9, #65
	b.lo	.LBB7_133
	cmp	w9, #71
	b.hs	.LBB7_69
	sub	w19, w9, #55
	b	.LBB7_71
.LBB7_69:
	sub	w10, w9, #97
	cmp	w10, #5
	b.hi	.LBB7_133
	sub	w19, w9, #87
.LBB7_71:
	ldrb	w10, [x21, #1]
	subs	w22, w10, #48
	b.lo	.LBB7_133
	ldrb	w9, [x21, #2]
	cmp	w10, #58
	b.lo	.LBB7_78
	cmp	w10, #65
	b.lo	.LBB7_133
	cmp	w10, #71
	b.hs	.LBB7_76
	sub	w22, w10, #55
	b	.LBB7_78
.LBB7_76:
	sub	w11, w10, #97
	cmp	w11, #5
	b.hi	.LBB7_133
	sub	w22, w10, #87
.LBB7_78:
	subs	w23, w9, #48
	b.lo	.LBB7_133
	cmp	w9, #58
	b.lo	.LBB7_85
	cmp	w9, #65
	b.lo	.LBB7_133
	cmp	w9, #71
	b.hs	.LBB7_83
	sub	w23, w9, #55
	b	.LBB7_85
.LBB7_83:
	sub	w10, w9, #97
	cmp	w10, #5
	b.hi	.LBB7_133
	sub	w23, w9, #87
.LBB7_85:
	ldrb	w10, [x21, #3]
	subs	w24, w10, #48
	b.lo	.LBB7_133
	ldrb	w9, [x21, #4]
	cmp	w10, #58
	b.lo	.LBB7_92
	cmp	w10, #65
	b.lo	.LBB7_133
	cmp	w10, #71
	b.hs	.LBB7_90
	sub	w24, w10, #55
	b	.LBB7_92
.LBB7_90:
	sub	w11, w10, #97
	cmp	w11, #5
	b.hi	.LBB7_133
	sub	w24, w10, #87
.LBB7_92:
	subs	w25, w9, #48
	b.lo	.LBB7_133
	cmp	w9, #58
	b.lo	.LBB7_99
	cmp	w9, #65
	b.lo	.LBB7_133
	cmp	w9, #71
	b.hs	.LBB7_97
	sub	w25, w9, #55
	b	.LBB7_99
.LBB7_97:
	sub	w10, w9, #97
	cmp	w10, #5
	b.hi	.LBB7_133
	sub	w25, w9, #87
.LBB7_99:
	ldrb	w10, [x21, #5]
	subs	w20, w10, #48
	b.lo	.LBB7_133
	ldrb	w9, [x21, #6]
	cmp	w10, #58
	b.lo	.LBB7_106
	cmp	w10, #65
	b.lo	.LBB7_133
	cmp	w10, #71
	b.hs	.LBB7_104
	sub	w20, w10, #55
	b	.LBB7_106
.LBB7_104:
	sub	w11, w10, #97
	cmp	w11, #5
	b.hi	.LBB7_133
	sub	w20, w10, #87
.LBB7_106:
	subs	w26, w9, #48
	b.lo	.LBB7_133
	cmp	w9, #58
	b.lo	.LBB7_113
	cmp	w9, #65
	b.lo	.LBB7_133
	cmp	w9, #71
	b.hs	.LBB7_111
	sub	w26, w9, #55
	b	.LBB7_113
.LBB7_111:
	sub	w10, w9, #97
	cmp	w10, #5
	b.hi	.LBB7_133
	sub	w26, w9, #87
.LBB7_113:
	ldrb	w10, [x21, #7]
	subs	w27, w10, #48
	b.lo	.LBB7_133
	ldrb	w9, [x21, #8]
	cmp	w10, #58
	b.lo	.LBB7_120
	cmp	w10, #65
	b.lo	.LBB7_133
	cmp	w10, #71
	b.hs	.LBB7_118
	sub	w27, w10, #55
	b	.LBB7_120
.LBB7_118:
	sub	w11, w10, #97
	cmp	w11, #5
	b.hi	.LBB7_133
	sub	w27, w10, #87
.LBB7_120:
	subs	w28, w9, #48
	b.lo	.LBB7_133
	cmp	w9, #58
	b.lo	.LBB7_13
	cmp	w9, #65
	b.lo	.LBB7_133
	cmp	w9, #71
	b.lo	.LBB7_12
	sub	w10, w9, #97
	cmp	w10, #5
	b.hi	.LBB7_133
	sub	w28, w9, #87
	b	.LBB7_13
.LBB7_126:
	sub	x0, x29, #32
	stp	w12, w2, [sp, #4]
	stp	w18, w17, [sp, #12]
	stp	w16, w15, [sp, #20]
	str	w14, [sp, #28]
	str	x13, [sp, #32]
	bl	"std_alloc::vec::Vec::grow_amortized::<#2c67c5f34a6d6c5d>"
	cbz	w0, .LBB7_130
	ldp	x1, x8, [x29, #-32]
	ldr	w12, [sp, #4]
	ldp	x13, x0, [sp, #32]
	ldp	w15, w14, [sp, #24]
	ldp	w17, w16, [sp, #16]
	ldp	w2, w18, [sp, #8]
	b	.LBB7_14
.LBB7_128:
	sub	x8, x29, #1
	stur	x20, [x29, #-16]
	stur	x8, [x29, #-32]
.LBB7_129:
	ldur	q0, [x29, #-32]
	ldur	x8, [x29, #-16]
	strh	wzr, [x0]
	stur	q0, [x0, #8]
	str	x8, [x0, #24]
	.cfi_def_cfa wsp, 176
	b	.LBB7_8
.LBB7_130:
	.cfi_restore_state
	.cfi_remember_state
	ldur	x8, [x29, #-16]
	cbz	x8, .LBB7_132
	ldur	x0, [x29, #-32]
	bl	rattle_dealloc
.LBB7_132:
	ldr	x9, [sp, #40]
	mov	w8, #1281
	stp	xzr, xzr, [x9, #16]
	strh	w8, [x9]
	str	xzr, [x9, #8]
	.cfi_def_cfa wsp, 176
	b	.LBB7_8
.LBB7_133:
	.cfi_restore_state
	brk	#0x1
.Lfunc_end7:
	.size	"des_tool::command::digits::parse_blocks", .Lfunc_end7-"des_tool::command::digits::parse_blocks"
	.cfi_endproc

	.section	".text.unlikely.std_alloc::vec::Vec::grow_amortized::<#2c67c5f34a6d6c5d>","ax",@progbits
	.p2align	2
	.type	"std_alloc::vec::Vec::grow_amortized::<#2c67c5f34a6d6c5d>",@function
"std_alloc::vec::Vec::grow_amortized::<#2c67c5f34a6d6c5d>":
	.cfi_startproc
	ldr	x8, [x0, #8]
	cmn	x8, #1
	b.eq	.LBB8_5
	hint	#25
	.cfi_negate_ra_state
	stp	x29, x30, [sp, #-32]!
	.cfi_def_cfa_offset 32
	stp	x20, x19, [sp, #16]
	mov	x29, sp
	.cfi_def_cfa w29, 32
	.cfi_offset w19, -8
	.cfi_offset w20, -16
	.cfi_offset w30, -24
	.cfi_offset w29, -32
	.cfi_remember_state
	ldr	x9, [x0, #16]
	cmp	x8, #3
	mov	w10, #3
	csel	x11, x8, x10, hi
	lsl	x10, x9, #1
	add	x12, x11, #1
	lsr	x13, x9, #62
	cmp	x12, x10
	csinc	x10, x10, x11, ls
	cmp	x13, #0
	csinc	x19, x10, x11, eq
	lsr	x11, x19, #60
	cbnz	x11, .LBB8_7
	cbz	x9, .LBB8_6
	mov	x20, x0
	ldr	x0, [x0]
	lsl	x1, x8, #3
	lsl	x2, x19, #3
	mov	w3, #1
	bl	rattle_realloc
	tbz	w0, #0, .LBB8_7
.LBB8_4:
	mov	w0, #1
	str	x1, [x20]
	str	x19, [x20, #16]
	.cfi_def_cfa wsp, 32
	ldp	x20, x19, [sp, #16]
	ldp	x29, x30, [sp], #32
	.cfi_def_cfa_offset 0
	.cfi_restore w19
	.cfi_restore w20
	.cfi_restore w30
	.cfi_restore w29
	hint	#29
	.cfi_negate_ra_state
	ret
.LBB8_5:
	mov	w0, wzr
	ret
.LBB8_6:
	.cfi_restore_state
	mov	x20, x0
	lsl	x0, x10, #3
	mov	w1, #1
	bl	rattle_alloc
	tbnz	w0, #0, .LBB8_4
.LBB8_7:
	mov	w0, wzr
	.cfi_def_cfa wsp, 32
	ldp	x20, x19, [sp, #16]
	ldp	x29, x30, [sp], #32
	.cfi_def_cfa_offset 0
	.cfi_restore w19
	.cfi_restore w20
	.cfi_restore w30
	.cfi_restore w29
	hint	#29
	.cfi_negate_ra_state
	ret
.Lfunc_end8:
	.size	"std_alloc::vec::Vec::grow_amortized::<#2c67c5f34a6d6c5d>", .Lfunc_end8-"std_alloc::vec::Vec::grow_amortized::<#2c67c5f34a6d6c5d>"
	.cfi_endproc

	.section	".text.des::des::DesBlockCipherEncrypt::encrypt_block","ax",@progbits
	.p2align	2
	.type	"des::des::DesBlockCipherEncrypt::encrypt_block",@function
"des::des::DesBlockCipherEncrypt::encrypt_block":
	.cfi_startproc
	hint	#25
	.cfi_negate_ra_state
	stp	x29, x30, [sp, #-64]!
	.cfi_def_cfa_offset 64
	stp	x24, x23, [sp, #16]
	stp	x22, x21, [sp, #32]
	stp	x20, x19, [sp, #48]
	mov	x29, sp
	.cfi_def_cfa w29, 64
	.cfi_offset w19, -8
	.cfi_offset w20, -16
	.cfi_offset w21, -24
	.cfi_offset w22, -32
	.cfi_offset w23, -40
	.cfi_offset w24, -48
	.cfi_offset w30, -56
	.cfi_offset w29, -64
	ldr	x8, [x1]
	mov	x21, #6148914691236517205
	mov	x22, #13107
	and	x21, x21, #0xff00ff00ff00ff
	movk	x22, #13107, lsl #32
	mov	w23, #252645135
	rev	x8, x8
	mov	w24, #-16711936
	mov	x19, x1
	eor	x9, x8, x8, lsr #9
	ldr	x1, [x0]
	mov	x20, x0
	and	x9, x9, x21
	eor	x8, x8, x9, lsl #9
	eor	x8, x8, x9
	eor	x9, x8, x8, lsr #18
	and	x9, x9, x22
	eor	x8, x8, x9, lsl #18
	eor	x8, x8, x9
	lsr	x9, x8, #36
	eor	w9, w9, w8
	and	x9, x9, x23
	eor	x8, x8, x9, lsl #36
	lsr	x10, x8, #24
	eor	x8, x8, x9
	eor	w9, w10, w8
	and	x9, x9, x24
	eor	x8, x8, x9, lsl #24
	eor	x9, x8, x9
	eor	x8, x8, x9, lsr #24
	and	x8, x8, #0xff000000ff
	eor	x9, x9, x8, lsl #24
	eor	x0, x9, x8
	bl	"des::utils::round"
	ldr	x1, [x20, #8]
	bl	"des::utils::round"
	ldr	x1, [x20, #16]
	bl	"des::utils::round"
	ldr	x1, [x20, #24]
	bl	"des::utils::round"
	ldr	x1, [x20, #32]
	bl	"des::utils::round"
	ldr	x1, [x20, #40]
	bl	"des::utils::round"
	ldr	x1, [x20, #48]
	bl	"des::utils::round"
	ldr	x1, [x20, #56]
	bl	"des::utils::round"
	ldr	x1, [x20, #64]
	bl	"des::utils::round"
	ldr	x1, [x20, #72]
	bl	"des::utils::round"
	ldr	x1, [x20, #80]
	bl	"des::utils::round"
	ldr	x1, [x20, #88]
	bl	"des::utils::round"
	ldr	x1, [x20, #96]
	bl	"des::utils::round"
	ldr	x1, [x20, #104]
	bl	"des::utils::round"
	ldr	x1, [x20, #112]
	bl	"des::utils::round"
	ldr	x1, [x20, #120]
	bl	"des::utils::round"
	ror	x8, x0, #32
	eor	x9, x8, x8, lsr #24
	and	x9, x9, #0xff000000ff
	eor	x8, x8, x9, lsl #24
	eor	x9, x8, x9
	lsr	x10, x9, #24
	eor	w8, w10, w8
	and	x8, x8, x24
	eor	x9, x9, x8, lsl #24
	lsr	x10, x9, #36
	eor	x8, x9, x8
	eor	w9, w10, w8
	and	x9, x9, x23
	eor	x8, x8, x9, lsl #36
	eor	x8, x8, x9
	eor	x9, x8, x8, lsr #18
	and	x9, x9, x22
	eor	x8, x8, x9, lsl #18
	eor	x8, x8, x9
	eor	x9, x8, x8, lsr #9
	and	x9, x9, x21
	eor	x8, x8, x9, lsl #9
	lsl	x10, x8, #40
	eor	x9, x8, x9
	lsr	x12, x8, #24
	lsr	x11, x9, #16
	lsr	x13, x9, #8
	and	x10, x10, #0xff000000000000
	orr	x10, x10, x9, lsl #56
	lsr	x9, x9, #40
	bfi	x10, x11, #40, #8
	and	x11, x13, #0xff000000
	and	x13, x12, #0xff0000
	and	x9, x9, #0xff00
	orr	x11, x11, x13
	bfi	x10, x12, #32, #8
	orr	x9, x11, x9
	orr	x9, x10, x9
	orr	x8, x9, x8, lsr #56
	str	x8, [x19]
	.cfi_def_cfa wsp, 64
	ldp	x20, x19, [sp, #48]
	ldp	x22, x21, [sp, #32]
	ldp	x24, x23, [sp, #16]
	ldp	x29, x30, [sp], #64
	.cfi_def_cfa_offset 0
	.cfi_restore w19
	.cfi_restore w20
	.cfi_restore w21
	.cfi_restore w22
	.cfi_restore w23
	.cfi_restore w24
	.cfi_restore w30
	.cfi_restore w29
	hint	#29
	.cfi_negate_ra_state
	ret
.Lfunc_end9:
	.size	"des::des::DesBlockCipherEncrypt::encrypt_block", .Lfunc_end9-"des::des::DesBlockCipherEncrypt::encrypt_block"
	.cfi_endproc

	.section	".text.des::utils::round","ax",@progbits
	.p2align	2
	.type	"des::utils::round",@function
"des::utils::round":
	.cfi_startproc
	lsl	x8, x0, #31
	lsr	x9, x0, #23
	lsr	x10, x0, #19
	lsl	x11, x0, #19
	lsr	x12, x0, #7
	mov	x16, #170
	and	x8, x8, #0x7c00000000000000
	movk	x16, #5120, lsl #32
	mov	x17, #32897
	orr	x8, x8, x0, lsl #63
	and	x11, x11, #0xfc00000
	movk	x16, #256, lsl #48
	bfi	x11, x0, #17, #5
	movk	x17, #4096, lsl #16
	bfi	x8, x9, #52, #6
	lsr	x9, x0, #15
	movk	x17, #8450, lsl #32
	bfi	x8, x10, #46, #6
	lsr	x10, x0, #11
	bfi	x8, x9, #40, #6
	and	x9, x9, #0x10000
	orr	x9, x11, x9
	bfi	x8, x10, #34, #6
	adrp	x10, .Lstatic.12
	add	x10, x10, :lo12:.Lstatic.12
	bfi	x8, x12, #28, #6
	orr	x8, x9, x8
	eor	x8, x8, x1
	ubfx	x9, x8, #52, #6
	ubfx	x11, x8, #34, #6
	lsr	x12, x8, #58
	ubfx	x13, x8, #40, #6
	ubfx	x14, x8, #46, #6
	ubfx	x15, x8, #28, #6
	add	x9, x10, x9
	add	x11, x10, x11
	ldrb	w12, [x10, x12]
	ldrb	w9, [x9, #64]
	ldrb	w11, [x11, #256]
	add	x13, x10, x13
	add	x14, x10, x14
	ldrb	w13, [x13, #192]
	lsl	x9, x9, #4
	lsl	x11, x11, #8
	ldrb	w14, [x14, #128]
	orr	x9, x9, x12, lsl #8
	orr	x11, x11, x13, lsl #12
	ubfx	x12, x8, #22, #6
	add	x13, x10, x15
	ubfx	x8, x8, #16, #6
	mov	x15, #18141941858304
	orr	x9, x9, x14
	ldrb	w13, [x13, #320]
	add	x12, x10, x12
	orr	x11, x11, x9, lsl #16
	ldrb	w12, [x12, #384]
	add	x8, x10, x8
	ldrb	w8, [x8, #448]
	mov	x14, #38280596832649216
	movk	x15, #1, lsl #48
	orr	x11, x11, x13, lsl #4
	and	x9, x14, x9, lsl #44
	mov	x13, #38654705664
	orr	x10, x11, x12
	lsl	x14, x11, #40
	and	x11, x15, x11, lsl #30
	lsl	x12, x10, #36
	lsr	x15, x10, #5
	lsr	x10, x10, #7
	and	x14, x14, #0x4000000000000
	orr	x9, x9, x11
	mov	x11, #11424613007360
	orr	x8, x12, x8, lsl #32
	mov	x12, #20480
	bfi	x14, x15, #53, #1
	movk	x12, #32769, lsl #16
	mov	x15, #268697600
	movk	x11, #512, lsl #48
	and	x16, x16, x8, ror #55
	lsr	x18, x8, #20
	movk	x12, #514, lsl #32
	movk	x15, #9, lsl #32
	and	x13, x13, x8, lsr #7
	bfi	x14, x10, #60, #2
	mul	x16, x16, x17
	mov	x17, #131
	and	x12, x18, x12
	movk	x17, #32896, lsl #16
	and	x15, x18, x15
	mov	x18, #32
	movk	x17, #512, lsl #32
	movk	x18, #1024, lsl #16
	mov	x10, #211183541944320
	mul	x12, x12, x17
	mov	x17, #39582418599936
	movk	x18, #12, lsl #32
	movk	x17, #16448, lsl #48
	movk	x10, #2306, lsl #48
	orr	x9, x14, x9
	and	x8, x17, x8, lsl #5
	mul	x15, x15, x18
	and	x10, x16, x10
	orr	x8, x13, x8
	orr	x8, x9, x8
	and	x9, x12, x11
	mov	x11, #1099511627776
	movk	x11, #33808, lsl #48
	orr	x8, x8, x10
	and	x10, x15, x11
	orr	x8, x8, x9
	orr	x8, x8, x10
	eor	x8, x8, x0
	extr	x0, x0, x8, #32
	ret
.Lfunc_end10:
	.size	"des::utils::round", .Lfunc_end10-"des::utils::round"
	.cfi_endproc

	.section	".text.des::des::DesBlockCipherDecrypt::decrypt_block","ax",@progbits
	.p2align	2
	.type	"des::des::DesBlockCipherDecrypt::decrypt_block",@function
"des::des::DesBlockCipherDecrypt::decrypt_block":
	.cfi_startproc
	hint	#25
	.cfi_negate_ra_state
	stp	x29, x30, [sp, #-64]!
	.cfi_def_cfa_offset 64
	stp	x24, x23, [sp, #16]
	stp	x22, x21, [sp, #32]
	stp	x20, x19, [sp, #48]
	mov	x29, sp
	.cfi_def_cfa w29, 64
	.cfi_offset w19, -8
	.cfi_offset w20, -16
	.cfi_offset w21, -24
	.cfi_offset w22, -32
	.cfi_offset w23, -40
	.cfi_offset w24, -48
	.cfi_offset w30, -56
	.cfi_offset w29, -64
	ldr	x8, [x1]
	mov	x21, #6148914691236517205
	mov	x22, #13107
	and	x21, x21, #0xff00ff00ff00ff
	movk	x22, #13107, lsl #32
	mov	w23, #252645135
	rev	x8, x8
	mov	w24, #-16711936
	mov	x19, x1
	eor	x9, x8, x8, lsr #9
	ldr	x1, [x0, #120]
	mov	x20, x0
	and	x9, x9, x21
	eor	x8, x8, x9, lsl #9
	eor	x8, x8, x9
	eor	x9, x8, x8, lsr #18
	and	x9, x9, x22
	eor	x8, x8, x9, lsl #18
	eor	x8, x8, x9
	lsr	x9, x8, #36
	eor	w9, w9, w8
	and	x9, x9, x23
	eor	x8, x8, x9, lsl #36
	lsr	x10, x8, #24
	eor	x8, x8, x9
	eor	w9, w10, w8
	and	x9, x9, x24
	eor	x8, x8, x9, lsl #24
	eor	x9, x8, x9
	eor	x8, x8, x9, lsr #24
	and	x8, x8, #0xff000000ff
	eor	x9, x9, x8, lsl #24
	eor	x0, x9, x8
	bl	"des::utils::round"
	ldr	x1, [x20, #112]
	bl	"des::utils::round"
	ldr	x1, [x20, #104]
	bl	"des::utils::round"
	ldr	x1, [x20, #96]
	bl	"des::utils::round"
	ldr	x1, [x20, #88]
	bl	"des::utils::round"
	ldr	x1, [x20, #80]
	bl	"des::utils::round"
	ldr	x1, [x20, #72]
	bl	"des::utils::round"
	ldr	x1, [x20, #64]
	bl	"des::utils::round"
	ldr	x1, [x20, #56]
	bl	"des::utils::round"
	ldr	x1, [x20, #48]
	bl	"des::utils::round"
	ldr	x1, [x20, #40]
	bl	"des::utils::round"
	ldr	x1, [x20, #32]
	bl	"des::utils::round"
	ldr	x1, [x20, #24]
	bl	"des::utils::round"
	ldr	x1, [x20, #16]
	bl	"des::utils::round"
	ldr	x1, [x20, #8]
	bl	"des::utils::round"
	ldr	x1, [x20]
	bl	"des::utils::round"
	ror	x8, x0, #32
	eor	x9, x8, x8, lsr #24
	and	x9, x9, #0xff000000ff
	eor	x8, x8, x9, lsl #24
	eor	x9, x8, x9
	lsr	x10, x9, #24
	eor	w8, w10, w8
	and	x8, x8, x24
	eor	x9, x9, x8, lsl #24
	lsr	x10, x9, #36
	eor	x8, x9, x8
	eor	w9, w10, w8
	and	x9, x9, x23
	eor	x8, x8, x9, lsl #36
	eor	x8, x8, x9
	eor	x9, x8, x8, lsr #18
	and	x9, x9, x22
	eor	x8, x8, x9, lsl #18
	eor	x8, x8, x9
	eor	x9, x8, x8, lsr #9
	and	x9, x9, x21
	eor	x8, x8, x9, lsl #9
	lsl	x10, x8, #40
	eor	x9, x8, x9
	lsr	x12, x8, #24
	lsr	x11, x9, #16
	lsr	x13, x9, #8
	and	x10, x10, #0xff000000000000
	orr	x10, x10, x9, lsl #56
	lsr	x9, x9, #40
	bfi	x10, x11, #40, #8
	and	x11, x13, #0xff000000
	and	x13, x12, #0xff0000
	and	x9, x9, #0xff00
	orr	x11, x11, x13
	bfi	x10, x12, #32, #8
	orr	x9, x11, x9
	orr	x9, x10, x9
	orr	x8, x9, x8, lsr #56
	str	x8, [x19]
	.cfi_def_cfa wsp, 64
	ldp	x20, x19, [sp, #48]
	ldp	x22, x21, [sp, #32]
	ldp	x24, x23, [sp, #16]
	ldp	x29, x30, [sp], #64
	.cfi_def_cfa_offset 0
	.cfi_restore w19
	.cfi_restore w20
	.cfi_restore w21
	.cfi_restore w22
	.cfi_restore w23
	.cfi_restore w24
	.cfi_restore w30
	.cfi_restore w29
	hint	#29
	.cfi_negate_ra_state
	ret
.Lfunc_end11:
	.size	"des::des::DesBlockCipherDecrypt::decrypt_block", .Lfunc_end11-"des::des::DesBlockCipherDecrypt::decrypt_block"
	.cfi_endproc

	.section	".text.des_tool::command::digits::parse_cipher_key::<#cefa6fc48b8e262a>","ax",@progbits
	.p2align	2
	.type	"des_tool::command::digits::parse_cipher_key::<#cefa6fc48b8e262a>",@function
"des_tool::command::digits::parse_cipher_key::<#cefa6fc48b8e262a>":
	.cfi_startproc
	hint	#25
	.cfi_negate_ra_state
	stp	x29, x30, [sp, #-64]!
	.cfi_def_cfa_offset 64
	stp	x28, x23, [sp, #16]
	stp	x22, x21, [sp, #32]
	stp	x20, x19, [sp, #48]
	mov	x29, sp
	.cfi_def_cfa w29, 64
	.cfi_offset w19, -8
	.cfi_offset w20, -16
	.cfi_offset w21, -24
	.cfi_offset w22, -32
	.cfi_offset w23, -40
	.cfi_offset w28, -48
	.cfi_offset w30, -56
	.cfi_offset w29, -64
	.cfi_remember_state
	sub	sp, sp, #800
	cmp	x2, #48
	mov	w8, #1
	mov	w9, #1
	stp	xzr, xzr, [sp, #8]
	str	xzr, [sp, #24]
	b.ne	.LBB12_6
	mov	x9, xzr
	add	x22, sp, #416
	add	x21, sp, #32
.LBB12_2:
	cmp	x9, #48
	b.eq	.LBB12_7
	ldrb	w10, [x1, x9]
	add	x9, x9, #1
	sub	w11, w10, #48
	cmp	w11, #10
	b.lo	.LBB12_2
	and	w10, w10, #0xffffffdf
	sub	w10, w10, #65
	cmp	w10, #6
	b.lo	.LBB12_2
	mov	w9, #2
.LBB12_6:
	movi	v0.2d, #0000000000000000
	strb	w8, [x0]
	strb	w9, [x0, #1]
	stur	q0, [x0, #24]
	stur	q0, [x0, #40]
	stur	q0, [x0, #56]
	stur	q0, [x0, #72]
	stur	q0, [x0, #88]
	stur	q0, [x0, #104]
	stur	q0, [x0, #120]
	stur	q0, [x0, #136]
	stur	q0, [x0, #152]
	stur	q0, [x0, #168]
	stur	q0, [x0, #184]
	stur	q0, [x0, #200]
	stur	q0, [x0, #216]
	stur	q0, [x0, #232]
	stur	q0, [x0, #248]
	str	q0, [x0, #8]!
	stp	q0, q0, [x0, #256]
	stp	q0, q0, [x0, #288]
	stp	q0, q0, [x0, #320]
	stp	q0, q0, [x0, #352]
	b	.LBB12_24
.LBB12_7:
	mov	x23, x0
	mov	x8, xzr
	add	x9, x1, #1
	b	.LBB12_10
.LBB12_8:
	sub	w12, w11, #55
.LBB12_9:
	add	w10, w12, w10, lsl #4
	add	x11, sp, #8
	add	x9, x9, #2
	strb	w10, [x11, x8]
	add	x8, x8, #1
	cmp	x8, #24
	b.eq	.LBB12_23
.LBB12_10:
	ldurb	w12, [x9, #-1]
	subs	w10, w12, #48
	b.lo	.LBB12_25
	ldrb	w11, [x9]
	cmp	w12, #57
	b.ls	.LBB12_17
	cmp	w12, #65
	b.lo	.LBB12_25
	cmp	w12, #70
	b.hi	.LBB12_15
	sub	w10, w12, #55
	b	.LBB12_17
.LBB12_15:
	sub	w10, w12, #97
	cmp	w10, #5
	b.hi	.LBB12_25
	sub	w10, w12, #87
.LBB12_17:
	subs	w12, w11, #48
	b.lo	.LBB12_25
	cmp	w11, #57
	b.ls	.LBB12_9
	cmp	w11, #65
	b.lo	.LBB12_25
	cmp	w11, #70
	b.ls	.LBB12_8
	sub	w12, w11, #97
	cmp	w12, #5
	b.hi	.LBB12_25
	sub	w12, w11, #87
	b	.LBB12_9
.LBB12_23:
	movi	v0.2d, #0000000000000000
	ldp	x1, x19, [sp, #8]
	ldr	x20, [sp, #24]
	add	x0, sp, #416
	stp	q0, q0, [x21, #384]
	stp	q0, q0, [x21, #416]
	stp	q0, q0, [x21, #448]
	stp	q0, q0, [x21, #480]
	bl	"des::des::DesKeyInit::new"
	movi	v0.2d, #0000000000000000
	sub	x0, x29, #256
	mov	x1, x19
	stp	q0, q0, [x22, #128]
	stp	q0, q0, [x22, #160]
	stp	q0, q0, [x22, #192]
	stp	q0, q0, [x22, #224]
	bl	"des::des::DesKeyInit::new"
	movi	v0.2d, #0000000000000000
	sub	x0, x29, #128
	mov	x1, x20
	stp	q0, q0, [x22, #256]
	stp	q0, q0, [x22, #288]
	stp	q0, q0, [x22, #320]
	stp	q0, q0, [x22, #352]
	bl	"des::des::DesKeyInit::new"
	ldur	q0, [x22, #65]
	ldur	q1, [x22, #81]
	add	x8, sp, #32
	ldur	q2, [x22, #97]
	ldur	q3, [x22, #33]
	add	x8, x8, #255
	stp	q0, q1, [sp, #96]
	ldur	q1, [x22, #1]
	add	x0, x23, #9
	str	q2, [sp, #128]
	ldp	q0, q2, [x22, #112]
	add	x1, sp, #32
	mov	w2, #383
	strh	wzr, [x23]
	stur	q0, [x21, #111]
	ldur	q0, [x22, #17]
	stur	q2, [x21, #127]
	stp	q1, q0, [sp, #32]
	ldur	q0, [x22, #49]
	stp	q3, q0, [sp, #64]
	ldp	q1, q0, [x22, #192]
	ldp	q2, q3, [x22, #160]
	stur	q1, [x21, #191]
	stur	q0, [x21, #207]
	ldp	q1, q0, [x22, #224]
	stur	q2, [x21, #159]
	stur	q3, [x21, #175]
	stur	q0, [x21, #239]
	ldr	q0, [x22, #144]
	stur	q1, [x21, #223]
	ldp	q1, q2, [x22, #256]
	stur	q0, [x21, #143]
	ldr	q0, [x22, #288]
	stp	q2, q0, [x8, #16]
	ldp	q0, q3, [x22, #352]
	stur	q1, [x21, #255]
	stp	q0, q3, [x8, #96]
	ldp	q3, q2, [x22, #320]
	ldr	q0, [x22, #304]
	stp	q3, q2, [x8, #64]
	str	q0, [x8, #48]
	ldrb	w8, [sp, #416]
	strb	w8, [x23, #8]
	bl	memcpy
.LBB12_24:
	add	sp, sp, #800
	.cfi_def_cfa wsp, 64
	ldp	x20, x19, [sp, #48]
	ldp	x22, x21, [sp, #32]
	ldp	x28, x23, [sp, #16]
	ldp	x29, x30, [sp], #64
	.cfi_def_cfa_offset 0
	.cfi_restore w19
	.cfi_restore w20
	.cfi_restore w21
	.cfi_restore w22
	.cfi_restore w23
	.cfi_restore w28
	.cfi_restore w30
	.cfi_restore w29
	hint	#29
	.cfi_negate_ra_state
	ret
.LBB12_25:
	.cfi_restore_state
	brk	#0x1
.Lfunc_end12:
	.size	"des_tool::command::digits::parse_cipher_key::<#cefa6fc48b8e262a>", .Lfunc_end12-"des_tool::command::digits::parse_cipher_key::<#cefa6fc48b8e262a>"
	.cfi_endproc

	.section	".text.des_tool::command::digits::parse_vector","ax",@progbits
	.p2align	2
	.type	"des_tool::command::digits::parse_vector",@function
"des_tool::command::digits::parse_vector":
	.cfi_startproc
	str	x25, [sp, #-64]!
	.cfi_def_cfa_offset 64
	stp	x24, x23, [sp, #16]
	stp	x22, x21, [sp, #32]
	stp	x20, x19, [sp, #48]
	.cfi_offset w19, -8
	.cfi_offset w20, -16
	.cfi_offset w21, -24
	.cfi_offset w22, -32
	.cfi_offset w23, -40
	.cfi_offset w24, -48
	.cfi_offset w25, -64
	.cfi_remember_state
	cmp	x2, #16
	b.ne	.LBB13_34
	ldrb	w23, [x1]
	sub	w8, w23, #48
	cmp	w8, #10
	b.lo	.LBB13_3
	and	w9, w23, #0xffffffdf
	sub	w9, w9, #65
	and	w9, w9, #0xff
	cmp	w9, #6
	b.hs	.LBB13_33
.LBB13_3:
	ldrb	w22, [x1, #1]
	sub	w9, w22, #48
	cmp	w9, #10
	b.lo	.LBB13_5
	and	w10, w22, #0xffffffdf
	sub	w10, w10, #65
	and	w10, w10, #0xff
	cmp	w10, #5
	b.hi	.LBB13_33
.LBB13_5:
	ldrb	w21, [x1, #2]
	sub	w10, w21, #48
	cmp	w10, #10
	b.lo	.LBB13_7
	and	w11, w21, #0xffffffdf
	sub	w11, w11, #65
	and	w11, w11, #0xff
	cmp	w11, #5
	b.hi	.LBB13_33
.LBB13_7:
	ldrb	w20, [x1, #3]
	sub	w11, w20, #48
	cmp	w11, #10
	b.lo	.LBB13_9
	and	w12, w20, #0xffffffdf
	sub	w12, w12, #65
	and	w12, w12, #0xff
	cmp	w12, #5
	b.hi	.LBB13_33
.LBB13_9:
	ldrb	w19, [x1, #4]
	sub	w12, w19, #48
	cmp	w12, #10
	b.lo	.LBB13_11
	and	w13, w19, #0xffffffdf
	sub	w13, w13, #65
	and	w13, w13, #0xff
	cmp	w13, #5
	b.hi	.LBB13_33
.LBB13_11:
	ldrb	w7, [x1, #5]
	sub	w13, w7, #48
	cmp	w13, #10
	b.lo	.LBB13_13
	and	w14, w7, #0xffffffdf
	sub	w14, w14, #65
	and	w14, w14, #0xff
	cmp	w14, #5
	b.hi	.LBB13_33
.LBB13_13:
	ldrb	w6, [x1, #6]
	sub	w14, w6, #48
	cmp	w14, #10
	b.lo	.LBB13_15
	and	w15, w6, #0xffffffdf
	sub	w15, w15, #65
	and	w15, w15, #0xff
	cmp	w15, #5
	b.hi	.LBB13_33
.LBB13_15:
	ldrb	w5, [x1, #7]
	sub	w15, w5, #48
	cmp	w15, #10
	b.lo	.LBB13_17
	and	w16, w5, #0xffffffdf
	sub	w16, w16, #65
	and	w16, w16, #0xff
	cmp	w16, #5
	b.hi	.LBB13_33
.LBB13_17:
	ldrb	w4, [x1, #8]
	sub	w16, w4, #48
	cmp	w16, #10
	b.lo	.LBB13_19
	and	w17, w4, #0xffffffdf
	sub	w17, w17, #65
	and	w17, w17, #0xff
	cmp	w17, #5
	b.hi	.LBB13_33
.LBB13_19:
	ldrb	w3, [x1, #9]
	sub	w17, w3, #48
	cmp	w17, #10
	b.lo	.LBB13_21
	and	w18, w3, #0xffffffdf
	sub	w18, w18, #65
	and	w18, w18, #0xff
	cmp	w18, #5
	b.hi	.LBB13_33
.LBB13_21:
	ldrb	w2, [x1, #10]
	sub	w18, w2, #48
	cmp	w18, #10
	b.lo	.LBB13_23
	and	w24, w2, #0xffffffdf
	sub	w24, w24, #65
	and	w24, w24, #0xff
	cmp	w24, #5
	b.hi	.LBB13_33
.LBB13_23:
	ldrb	w24, [x1, #11]
	sub	w25, w24, #48
	cmp	w25, #10
	b.lo	.LBB13_25
	and	w24, w24, #0xffffffdf
	sub	w24, w24, #65
	cmp	w24, #5
	b.hi	.LBB13_33
.LBB13_25:
	ldrb	w24, [x1, #12]
	sub	w25, w24, #48
	cmp	w25, #10
	b.lo	.LBB13_27
	and	w24, w24, #0xffffffdf
	sub	w24, w24, #65
	cmp	w24, #5
	b.hi	.LBB13_33
.LBB13_27:
	ldrb	w24, [x1, #13]
	sub	w25, w24, #48
	cmp	w25, #10
	b.lo	.LBB13_29
	and	w24, w24, #0xffffffdf
	sub	w24, w24, #65
	cmp	w24, #5
	b.hi	.LBB13_33
.LBB13_29:
	ldrb	w24, [x1, #14]
	sub	w25, w24, #48
	cmp	w25, #10
	b.lo	.LBB13_31
	and	w24, w24, #0xffffffdf
	sub	w24, w24, #65
	cmp	w24, #5
	b.hi	.LBB13_33
.LBB13_31:
	ldrb	w24, [x1, #15]
	sub	w25, w24, #48
	cmp	w25, #10
	b.lo	.LBB13_36
	and	w24, w24, #0xffffffdf
	sub	w24, w24, #65
	cmp	w24, #6
	b.lo	.LBB13_36
.LBB13_33:
	mov	w8, #1
	mov	w9, #4
	b	.LBB13_35
.LBB13_34:
	mov	w8, #1
	mov	w9, #3
.LBB13_35:
	strb	w8, [x0]
	stur	x9, [x0, #1]
	ldp	x20, x19, [sp, #48]
	ldp	x22, x21, [sp, #32]
	ldp	x24, x23, [sp, #16]
	ldr	x25, [sp], #64
	.cfi_def_cfa_offset 0
	.cfi_restore w19
	.cfi_restore w20
	.cfi_restore w21
	.cfi_restore w22
	.cfi_restore w23
	.cfi_restore w24
	.cfi_restore w25
	ret
.LBB13_36:
	.cfi_restore_state
	.cfi_remember_state
	cmp	w23, #48
	b.lo	.LBB13_149
	cmp	w23, #58
	b.lo	.LBB13_43
	cmp	w23, #65
	b.lo	.LBB13_149
	cmp	w23, #70
	b.hi	.LBB13_41
	sub	w8, w23, #55
	b	.LBB13_43
.LBB13_41:
	sub	w8, w23, #97
	cmp	w8, #5
	b.hi	.LBB13_149
	sub	w8, w23, #87
.LBB13_43:
	cmp	w22, #48
	b.lo	.LBB13_149
	cmp	w22, #58
	b.lo	.LBB13_50
	cmp	w22, #65
	b.lo	.LBB13_149
	cmp	w22, #70
	b.hi	.LBB13_48
	sub	w9, w22, #55
	b	.LBB13_50
.LBB13_48:
	sub	w9, w22, #97
	cmp	w9, #5
	b.hi	.LBB13_149
	sub	w9, w22, #87
.LBB13_50:
	cmp	w21, #48
	b.lo	.LBB13_149
	cmp	w21, #58
	b.lo	.LBB13_57
	cmp	w21, #65
	b.lo	.LBB13_149
	cmp	w21, #71
	b.hs	.LBB13_55
	sub	w10, w21, #55
	b	.LBB13_57
.LBB13_55:
	sub	w10, w21, #97
	cmp	w10, #5
	b.hi	.LBB13_149
	sub	w10, w21, #87
.LBB13_57:
	cmp	w20, #48
	b.lo	.LBB13_149
	cmp	w20, #58
	b.lo	.LBB13_64
	cmp	w20, #65
	b.lo	.LBB13_149
	cmp	w20, #71
	b.hs	.LBB13_62
	sub	w11, w20, #55
	b	.LBB13_64
.LBB13_62:
	sub	w11, w20, #97
	cmp	w11, #5
	b.hi	.LBB13_149
	sub	w11, w20, #87
.LBB13_64:
	cmp	w19, #48
	b.lo	.LBB13_149
	cmp	w19, #58
	b.lo	.LBB13_71
	cmp	w19, #65
	b.lo	.LBB13_149
	cmp	w19, #71
	b.hs	.LBB13_69
	sub	w12, w19, #55
	b	.LBB13_71
.LBB13_69:
	sub	w12, w19, #97
	cmp	w12, #5
	b.hi	.LBB13_149
	sub	w12, w19, #87
.LBB13_71:
	cmp	w7, #48
	b.lo	.LBB13_149
	cmp	w7, #58
	b.lo	.LBB13_78
	cmp	w7, #65
	b.lo	.LBB13_149
	cmp	w7, #71
	b.hs	.LBB13_76
	sub	w13, w7, #55
	b	.LBB13_78
.LBB13_76:
	sub	w13, w7, #97
	cmp	w13, #5
	b.hi	.LBB13_149
	sub	w13, w7, #87
.LBB13_78:
	cmp	w6, #48
	b.lo	.LBB13_149
	cmp	w6, #58
	b.lo	.LBB13_85
	cmp	w6, #65
	b.lo	.LBB13_149
	cmp	w6, #71
	b.hs	.LBB13_83
	sub	w14, w6, #55
	b	.LBB13_85
.LBB13_83:
	sub	w14, w6, #97
	cmp	w14, #5
	b.hi	.LBB13_149
	sub	w14, w6, #87
.LBB13_85:
	cmp	w5, #48
	b.lo	.LBB13_149
	cmp	w5, #58
	b.lo	.LBB13_92
	cmp	w5, #65
	b.lo	.LBB13_149
	cmp	w5, #71
	b.hs	.LBB13_90
	sub	w15, w5, #55
	b	.LBB13_92
.LBB13_90:
	sub	w15, w5, #97
	cmp	w15, #5
	b.hi	.LBB13_149
	sub	w15, w5, #87
.LBB13_92:
	cmp	w4, #48
	b.lo	.LBB13_149
	cmp	w4, #58
	b.lo	.LBB13_99
	cmp	w4, #65
	b.lo	.LBB13_149
	cmp	w4, #71
	b.hs	.LBB13_97
	sub	w16, w4, #55
	b	.LBB13_99
.LBB13_97:
	sub	w16, w4, #97
	cmp	w16, #5
	b.hi	.LBB13_149
	sub	w16, w4, #87
.LBB13_99:
	cmp	w3, #48
	b.lo	.LBB13_149
	cmp	w3, #58
	b.lo	.LBB13_106
	cmp	w3, #65
	b.lo	.LBB13_149
	cmp	w3, #71
	b.hs	.LBB13_104
	sub	w17, w3, #55
	b	.LBB13_106
.LBB13_104:
	sub	w17, w3, #97
	cmp	w17, #5
	b.hi	.LBB13_149
	sub	w17, w3, #87
.LBB13_106:
	cmp	w2, #48
	b.lo	.LBB13_149
	ldrb	w3, [x1, #11]
	cmp	w2, #58
	b.lo	.LBB13_113
	cmp	w2, #65
	b.lo	.LBB13_149
	cmp	w2, #71
	b.hs	.LBB13_111
	sub	w18, w2, #55
	b	.LBB13_113
.LBB13_111:
	sub	w18, w2, #97
	cmp	w18, #5
	b.hi	.LBB13_149
	sub	w18, w2, #87
.LBB13_113:
	subs	w2, w3, #48
	b.lo	.LBB13_149
	cmp	w3, #58
	b.lo	.LBB13_120
	cmp	w3, #65
	b.lo	.LBB13_149
	cmp	w3, #71
	b.hs	.LBB13_118
	sub	w2, w3, #55
	b	.LBB13_120
.LBB13_118:
	sub	w2, w3, #97
	cmp	w2, #5
	b.hi	.LBB13_149
	sub	w2, w3, #87
.LBB13_120:
	ldrb	w4, [x1, #12]
	subs	w3, w4, #48
	b.lo	.LBB13_149
	ldrb	w5, [x1, #13]
	cmp	w4, #58
	b.lo	.LBB13_127
	cmp	w4, #65
	b.lo	.LBB13_149
	cmp	w4, #71
	b.hs	.LBB13_125
	sub	w3, w4, #55
	b	.LBB13_127
.LBB13_125:
	sub	w3, w4, #97
	cmp	w3, #5
	b.hi	.LBB13_149
	sub	w3, w4, #87
.LBB13_127:
	subs	w4, w5, #48
	b.lo	.LBB13_149
	cmp	w5, #58
	b.lo	.LBB13_134
	cmp	w5, #65
	b.lo	.LBB13_149
	cmp	w5, #71
	b.hs	.LBB13_132
	sub	w4, w5, #55
	b	.LBB13_134
.LBB13_132:
	sub	w4, w5, #97
	cmp	w4, #5
	b.hi	.LBB13_149
	sub	w4, w5, #87
.LBB13_134:
	ldrb	w6, [x1, #14]
	subs	w5, w6, #48
	b.lo	.LBB13_149
	ldrb	w1, [x1, #15]
	cmp	w6, #58
	b.lo	.LBB13_141
	cmp	w6, #65
	b.lo	.LBB13_149
	cmp	w6, #71
	b.hs	.LBB13_139
	sub	w5, w6, #55
	b	.LBB13_141
.LBB13_139:
	sub	w5, w6, #97
	cmp	w5, #5
	b.hi	.LBB13_149
	sub	w5, w6, #87
.LBB13_141:
	subs	w6, w1, #48
	b.lo	.LBB13_149
	cmp	w1, #58
	b.lo	.LBB13_148
	cmp	w1, #65
	b.lo	.LBB13_149
	cmp	w1, #71
	b.hs	.LBB13_146
	sub	w6, w1, #55
	b	.LBB13_148
.LBB13_146:
	sub	w6, w1, #97
	cmp	w6, #5
	b.hi	.LBB13_149
	sub	w6, w1, #87
.LBB13_148:
	add	w1, w4, w3, lsl #4
	add	w3, w6, w5, lsl #4
	add	w18, w2, w18, lsl #4
	add	w16, w17, w16, lsl #4
	add	w14, w15, w14, lsl #4
	add	w12, w13, w12, lsl #4
	and	w1, w1, #0xff
	and	w17, w18, #0xff
	add	w10, w11, w10, lsl #4
	lsl	x1, x1, #48
	and	w16, w16, #0xff
	lsl	w14, w14, #24
	add	w8, w9, w8, lsl #4
	strb	wzr, [x0]
	orr	x1, x1, x3, lsl #56
	and	x8, x8, #0xff
	orr	x15, x1, x17, lsl #40
	orr	x15, x15, x16, lsl #32
	orr	x13, x15, x14
	bfi	x13, x12, #16, #8
	bfi	x13, x10, #8, #8
	orr	x8, x13, x8
	stur	x8, [x0, #1]
	ldp	x20, x19, [sp, #48]
	ldp	x22, x21, [sp, #32]
	ldp	x24, x23, [sp, #16]
	ldr	x25, [sp], #64
	.cfi_def_cfa_offset 0
	.cfi_restore w19
	.cfi_restore w20
	.cfi_restore w21
	.cfi_restore w22
	.cfi_restore w23
	.cfi_restore w24
	.cfi_restore w25
	ret
.LBB13_149:
	.cfi_restore_state
	brk	#0x1
.Lfunc_end13:
	.size	"des_tool::command::digits::parse_vector", .Lfunc_end13-"des_tool::command::digits::parse_vector"
	.cfi_endproc

	.section	.rodata.cst16,"aM",@progbits,16
	.p2align	4, 0x0
.LCPI14_0:
	.byte	0
	.byte	1
	.byte	2
	.byte	3
	.byte	4
	.byte	5
	.byte	6
	.byte	7
	.byte	8
	.byte	9
	.byte	10
	.byte	11
	.byte	12
	.byte	13
	.byte	14
	.byte	15
.LCPI14_1:
	.byte	16
	.byte	17
	.byte	18
	.byte	19
	.byte	20
	.byte	21
	.byte	22
	.byte	23
	.byte	24
	.byte	25
	.byte	26
	.byte	27
	.byte	28
	.byte	29
	.byte	30
	.byte	31
	.section	.rodata.cst8,"aM",@progbits,8
	.p2align	3, 0x0
.LCPI14_2:
	.byte	32
	.byte	33
	.byte	34
	.byte	35
	.byte	36
	.byte	37
	.byte	38
	.byte	39
	.section	".text.des_tool::command::status::show::<#8366a837468c3893>","ax",@progbits
	.p2align	2
	.type	"des_tool::command::status::show::<#8366a837468c3893>",@function
"des_tool::command::status::show::<#8366a837468c3893>":
	.cfi_startproc
	hint	#25
	.cfi_negate_ra_state
	sub	sp, sp, #240
	.cfi_def_cfa_offset 240
	stp	x29, x30, [sp, #192]
	stp	x22, x21, [sp, #208]
	stp	x20, x19, [sp, #224]
	add	x29, sp, #192
	.cfi_def_cfa w29, 48
	.cfi_offset w19, -8
	.cfi_offset w20, -16
	.cfi_offset w21, -24
	.cfi_offset w22, -32
	.cfi_offset w30, -40
	.cfi_offset w29, -48
	.cfi_remember_state
	ldrb	w8, [x0]
	mov	x19, x0
	cbz	w8, .LBB14_4
	ldrb	w8, [x19, #1]
	movi	v0.2d, #0000000000000000
	adrp	x9, ".Lswitch.table.des_tool::command::status::show::<#8366a837468c3893>"
	add	x9, x9, :lo12:".Lswitch.table.des_tool::command::status::show::<#8366a837468c3893>"
	adrp	x10, ".Lswitch.table.des_tool::command::status::show::<#8366a837468c3893>.168.rel"
	add	x10, x10, :lo12:".Lswitch.table.des_tool::command::status::show::<#8366a837468c3893>.168.rel"
	ldr	x2, [x9, x8, lsl #3]
	ldrsw	x8, [x10, x8, lsl #2]
	mov	x0, sp
	add	x1, x10, x8
	stp	q0, q0, [sp]
	stp	q0, q0, [sp, #32]
	stp	q0, q0, [sp, #64]
	bl	"des_tool::command::status::write_whole::<#03326aa510967ad1>"
	ldrb	w8, [sp]
	cbnz	w8, .LBB14_3
	adrp	x1, .Lstatic.18
	add	x1, x1, :lo12:.Lstatic.18
	add	x0, sp, #96
	mov	w2, #1
	bl	"des_tool::command::status::write_whole::<#03326aa510967ad1>"
.LBB14_3:
	ldrb	w8, [x19, #1]
	cmp	w8, #5
	mov	w8, #2
	cinc	w0, w8, eq
	.cfi_def_cfa wsp, 240
	ldp	x20, x19, [sp, #224]
	ldp	x22, x21, [sp, #208]
	ldp	x29, x30, [sp, #192]
	add	sp, sp, #240
	.cfi_def_cfa_offset 0
	.cfi_restore w19
	.cfi_restore w20
	.cfi_restore w21
	.cfi_restore w22
	.cfi_restore w30
	.cfi_restore w29
	hint	#29
	.cfi_negate_ra_state
	ret
.LBB14_4:
	.cfi_restore_state
	.cfi_remember_state
	ldp	x21, x19, [x19, #8]
	mov	x20, xzr
	mov	x22, #-1
	b	.LBB14_6
.LBB14_5:
	subs	x22, x22, #1
	b.eq	.LBB14_12
.LBB14_6:
	subs	x3, x19, x20
	b.ls	.LBB14_13
	add	x0, sp, #96
	add	x2, x21, x20
	mov	w1, #1
	bl	"std::io::write_fd"
	ldrb	w9, [sp, #96]
	ldr	x8, [sp, #104]
	cbz	w9, .LBB14_10
	adrp	x9, .LCPI14_0
	adrp	x10, .LCPI14_1
	ldr	q0, [x9, :lo12:.LCPI14_0]
	adrp	x9, .LCPI14_2
	ldr	q1, [x10, :lo12:.LCPI14_1]
	ubfx	w10, w8, #8, #8
	ldr	d2, [x9, :lo12:.LCPI14_2]
	mov	w9, #40
	stp	q0, q1, [sp, #96]
	cmp	w10, #41
	str	d2, [sp, #128]
	strb	w9, [sp, #136]
	b.hs	.LBB14_12
	ubfx	x8, x8, #8, #6
	add	x9, sp, #96
	ldrb	w8, [x9, x8]
	cmp	w8, #35
	b.eq	.LBB14_5
	b	.LBB14_12
.LBB14_10:
	cbz	x8, .LBB14_12
	add	x20, x8, x20
	b	.LBB14_5
.LBB14_12:
	mov	w0, #4
	.cfi_def_cfa wsp, 240
	ldp	x20, x19, [sp, #224]
	ldp	x22, x21, [sp, #208]
	ldp	x29, x30, [sp, #192]
	add	sp, sp, #240
	.cfi_def_cfa_offset 0
	.cfi_restore w19
	.cfi_restore w20
	.cfi_restore w21
	.cfi_restore w22
	.cfi_restore w30
	.cfi_restore w29
	hint	#29
	.cfi_negate_ra_state
	ret
.LBB14_13:
	.cfi_restore_state
	mov	w0, wzr
	.cfi_def_cfa wsp, 240
	ldp	x20, x19, [sp, #224]
	ldp	x22, x21, [sp, #208]
	ldp	x29, x30, [sp, #192]
	add	sp, sp, #240
	.cfi_def_cfa_offset 0
	.cfi_restore w19
	.cfi_restore w20
	.cfi_restore w21
	.cfi_restore w22
	.cfi_restore w30
	.cfi_restore w29
	hint	#29
	.cfi_negate_ra_state
	ret
.Lfunc_end14:
	.size	"des_tool::command::status::show::<#8366a837468c3893>", .Lfunc_end14-"des_tool::command::status::show::<#8366a837468c3893>"
	.cfi_endproc

	.section	".text.std::io::write_fd","ax",@progbits
	.p2align	2
	.type	"std::io::write_fd",@function
"std::io::write_fd":
	.cfi_startproc
	hint	#25
	.cfi_negate_ra_state
	sub	sp, sp, #112
	.cfi_def_cfa_offset 112
	stp	x29, x30, [sp, #80]
	stp	x20, x19, [sp, #96]
	add	x29, sp, #80
	.cfi_def_cfa w29, 32
	.cfi_offset w19, -8
	.cfi_offset w20, -16
	.cfi_offset w30, -24
	.cfi_offset w29, -32
	.cfi_remember_state
	movi	v0.2d, #0000000000000000
	mov	x19, x0
	mov	w0, w1
	mov	x1, x2
	mov	x2, x3
	mov	x20, x3
	stp	q0, q0, [sp, #16]
	stp	q0, q0, [sp, #48]
	str	q0, [sp]
	bl	write
	tbnz	x0, #63, .LBB15_2
	cmp	x0, x20
	mov	x9, xzr
	csel	x8, x0, x20, lo
	b	.LBB15_8
.LBB15_2:
	bl	rattle_errno
	tbnz	w0, #31, .LBB15_6
	sub	w8, w0, #1
	cmp	w8, #121
	b.hi	.LBB15_6
	adrp	x9, .LJTI15_0
	add	x9, x9, :lo12:.LJTI15_0
	adr	x10, .LBB15_5
	ldrb	w11, [x9, x8]
	add	x10, x10, x11, lsl #2
	mov	w8, #256
	br	x10
.LBB15_5:
	hint	#36
	mov	w8, #9216
	b	.LBB15_7
.LBB15_6:
	hint	#36
	mov	w8, #10496
.LBB15_7:
	hint	#36
	movi	v0.2d, #0000000000000000
	orr	x8, x8, x0, lsl #32
	mov	w9, #1
	stp	q0, q0, [sp, #16]
	stp	q0, q0, [sp, #48]
	str	q0, [sp]
.LBB15_8:
	ldp	q0, q1, [sp, #32]
	ldr	q2, [sp, #64]
	stp	x9, x8, [x19]
	str	q2, [x19, #80]
	stp	q0, q1, [x19, #48]
	ldp	q1, q0, [sp]
	stp	q1, q0, [x19, #16]
	.cfi_def_cfa wsp, 112
	ldp	x20, x19, [sp, #96]
	ldp	x29, x30, [sp, #80]
	add	sp, sp, #112
	.cfi_def_cfa_offset 0
	.cfi_restore w19
	.cfi_restore w20
	.cfi_restore w30
	.cfi_restore w29
	hint	#29
	.cfi_negate_ra_state
	ret
.LBB15_9:
	.cfi_restore_state
	hint	#36
	mov	w8, #1024
	b	.LBB15_7
.LBB15_10:
	hint	#36
	mov	w8, #1792
	b	.LBB15_7
.LBB15_11:
	hint	#36
	mov	w8, #6656
	b	.LBB15_7
.LBB15_12:
	hint	#36
	mov	w8, #9984
	b	.LBB15_7
.LBB15_13:
	hint	#36
	mov	w8, #2304
	b	.LBB15_7
.LBB15_14:
	hint	#36
	mov	w8, #2048
	b	.LBB15_7
.LBB15_15:
	hint	#36
	mov	w8, #7680
	b	.LBB15_7
.LBB15_16:
	hint	#36
	mov	w8, #6400
	b	.LBB15_7
.LBB15_17:
	hint	#36
	mov	w8, #8192
	b	.LBB15_7
.LBB15_18:
	hint	#36
	mov	w8, #8448
	b	.LBB15_7
.LBB15_19:
	hint	#36
	mov	w8, #5632
	b	.LBB15_7
.LBB15_20:
	hint	#36
	mov	w8, #7936
	b	.LBB15_7
.LBB15_21:
	hint	#36
	mov	w8, #7424
	b	.LBB15_7
.LBB15_22:
	hint	#36
	mov	w8, #4608
	b	.LBB15_7
.LBB15_23:
	hint	#36
	mov	w8, #2560
	b	.LBB15_7
.LBB15_24:
	hint	#36
	mov	w8, #7168
	b	.LBB15_7
.LBB15_25:
	hint	#36
	mov	w8, #3584
	b	.LBB15_7
.LBB15_26:
	hint	#36
	mov	w8, #3072
	b	.LBB15_7
.LBB15_27:
	hint	#36
	mov	w8, #1280
	b	.LBB15_7
.LBB15_28:
	hint	#36
	mov	w8, #768
	b	.LBB15_7
.LBB15_29:
	hint	#36
	mov	x8, xzr
	b	.LBB15_7
.LBB15_30:
	hint	#36
	mov	w8, #3328
	b	.LBB15_7
.LBB15_31:
	hint	#36
	mov	w8, #9728
	b	.LBB15_7
.LBB15_32:
	hint	#36
	mov	w8, #2816
	b	.LBB15_7
.LBB15_33:
	hint	#36
	mov	w8, #8960
	b	.LBB15_7
.LBB15_34:
	hint	#36
	mov	w8, #8704
	b	.LBB15_7
.LBB15_35:
	hint	#36
	mov	w8, #5120
	b	.LBB15_7
.LBB15_36:
	hint	#36
	mov	w8, #3840
	b	.LBB15_7
.LBB15_37:
	hint	#36
	mov	w8, #4864
	b	.LBB15_7
.LBB15_38:
	hint	#36
	mov	w8, #4096
	b	.LBB15_7
.LBB15_39:
	hint	#36
	mov	w8, #1536
	b	.LBB15_7
.LBB15_40:
	hint	#36
	mov	w8, #6912
	b	.LBB15_7
.LBB15_41:
	hint	#36
	mov	w8, #6144
	b	.LBB15_7
.LBB15_42:
	hint	#36
	mov	w8, #512
	b	.LBB15_7
.LBB15_43:
	hint	#36
	mov	w8, #4352
	b	.LBB15_7
.Lfunc_end15:
	.size	"std::io::write_fd", .Lfunc_end15-"std::io::write_fd"
	.cfi_endproc
	.section	".rodata.std::io::write_fd","a",@progbits
.LJTI15_0:
	.byte	(.LBB15_7-.LBB15_5)>>2
	.byte	(.LBB15_29-.LBB15_5)>>2
	.byte	(.LBB15_6-.LBB15_5)>>2
	.byte	(.LBB15_33-.LBB15_5)>>2
	.byte	(.LBB15_6-.LBB15_5)>>2
	.byte	(.LBB15_6-.LBB15_5)>>2
	.byte	(.LBB15_34-.LBB15_5)>>2
	.byte	(.LBB15_6-.LBB15_5)>>2
	.byte	(.LBB15_6-.LBB15_5)>>2
	.byte	(.LBB15_6-.LBB15_5)>>2
	.byte	(.LBB15_30-.LBB15_5)>>2
	.byte	(.LBB15_31-.LBB15_5)>>2
	.byte	(.LBB15_7-.LBB15_5)>>2
	.byte	(.LBB15_6-.LBB15_5)>>2
	.byte	(.LBB15_6-.LBB15_5)>>2
	.byte	(.LBB15_24-.LBB15_5)>>2
	.byte	(.LBB15_26-.LBB15_5)>>2
	.byte	(.LBB15_20-.LBB15_5)>>2
	.byte	(.LBB15_6-.LBB15_5)>>2
	.byte	(.LBB15_25-.LBB15_5)>>2
	.byte	(.LBB15_36-.LBB15_5)>>2
	.byte	(.LBB15_35-.LBB15_5)>>2
	.byte	(.LBB15_6-.LBB15_5)>>2
	.byte	(.LBB15_6-.LBB15_5)>>2
	.byte	(.LBB15_6-.LBB15_5)>>2
	.byte	(.LBB15_21-.LBB15_5)>>2
	.byte	(.LBB15_40-.LBB15_5)>>2
	.byte	(.LBB15_41-.LBB15_5)>>2
	.byte	(.LBB15_16-.LBB15_5)>>2
	.byte	(.LBB15_43-.LBB15_5)>>2
	.byte	(.LBB15_17-.LBB15_5)>>2
	.byte	(.LBB15_32-.LBB15_5)>>2
	.byte	(.LBB15_6-.LBB15_5)>>2
	.byte	(.LBB15_6-.LBB15_5)>>2
	.byte	(.LBB15_15-.LBB15_5)>>2
	.byte	(.LBB15_18-.LBB15_5)>>2
	.byte	(.LBB15_6-.LBB15_5)>>2
	.byte	(.LBB15_5-.LBB15_5)>>2
	.byte	(.LBB15_38-.LBB15_5)>>2
	.byte	(.LBB15_22-.LBB15_5)>>2
	.byte	(.LBB15_6-.LBB15_5)>>2
	.byte	(.LBB15_6-.LBB15_5)>>2
	.byte	(.LBB15_6-.LBB15_5)>>2
	.byte	(.LBB15_6-.LBB15_5)>>2
	.byte	(.LBB15_6-.LBB15_5)>>2
	.byte	(.LBB15_6-.LBB15_5)>>2
	.byte	(.LBB15_6-.LBB15_5)>>2
	.byte	(.LBB15_6-.LBB15_5)>>2
	.byte	(.LBB15_6-.LBB15_5)>>2
	.byte	(.LBB15_6-.LBB15_5)>>2
	.byte	(.LBB15_6-.LBB15_5)>>2
	.byte	(.LBB15_6-.LBB15_5)>>2
	.byte	(.LBB15_6-.LBB15_5)>>2
	.byte	(.LBB15_6-.LBB15_5)>>2
	.byte	(.LBB15_6-.LBB15_5)>>2
	.byte	(.LBB15_6-.LBB15_5)>>2
	.byte	(.LBB15_6-.LBB15_5)>>2
	.byte	(.LBB15_6-.LBB15_5)>>2
	.byte	(.LBB15_6-.LBB15_5)>>2
	.byte	(.LBB15_6-.LBB15_5)>>2
	.byte	(.LBB15_6-.LBB15_5)>>2
	.byte	(.LBB15_6-.LBB15_5)>>2
	.byte	(.LBB15_6-.LBB15_5)>>2
	.byte	(.LBB15_6-.LBB15_5)>>2
	.byte	(.LBB15_6-.LBB15_5)>>2
	.byte	(.LBB15_6-.LBB15_5)>>2
	.byte	(.LBB15_6-.LBB15_5)>>2
	.byte	(.LBB15_6-.LBB15_5)>>2
	.byte	(.LBB15_6-.LBB15_5)>>2
	.byte	(.LBB15_6-.LBB15_5)>>2
	.byte	(.LBB15_6-.LBB15_5)>>2
	.byte	(.LBB15_6-.LBB15_5)>>2
	.byte	(.LBB15_6-.LBB15_5)>>2
	.byte	(.LBB15_6-.LBB15_5)>>2
	.byte	(.LBB15_6-.LBB15_5)>>2
	.byte	(.LBB15_6-.LBB15_5)>>2
	.byte	(.LBB15_6-.LBB15_5)>>2
	.byte	(.LBB15_6-.LBB15_5)>>2
	.byte	(.LBB15_6-.LBB15_5)>>2
	.byte	(.LBB15_6-.LBB15_5)>>2
	.byte	(.LBB15_6-.LBB15_5)>>2
	.byte	(.LBB15_6-.LBB15_5)>>2
	.byte	(.LBB15_6-.LBB15_5)>>2
	.byte	(.LBB15_6-.LBB15_5)>>2
	.byte	(.LBB15_6-.LBB15_5)>>2
	.byte	(.LBB15_6-.LBB15_5)>>2
	.byte	(.LBB15_6-.LBB15_5)>>2
	.byte	(.LBB15_6-.LBB15_5)>>2
	.byte	(.LBB15_6-.LBB15_5)>>2
	.byte	(.LBB15_6-.LBB15_5)>>2
	.byte	(.LBB15_6-.LBB15_5)>>2
	.byte	(.LBB15_6-.LBB15_5)>>2
	.byte	(.LBB15_6-.LBB15_5)>>2
	.byte	(.LBB15_6-.LBB15_5)>>2
	.byte	(.LBB15_5-.LBB15_5)>>2
	.byte	(.LBB15_6-.LBB15_5)>>2
	.byte	(.LBB15_6-.LBB15_5)>>2
	.byte	(.LBB15_14-.LBB15_5)>>2
	.byte	(.LBB15_13-.LBB15_5)>>2
	.byte	(.LBB15_23-.LBB15_5)>>2
	.byte	(.LBB15_27-.LBB15_5)>>2
	.byte	(.LBB15_6-.LBB15_5)>>2
	.byte	(.LBB15_39-.LBB15_5)>>2
	.byte	(.LBB15_28-.LBB15_5)>>2
	.byte	(.LBB15_6-.LBB15_5)>>2
	.byte	(.LBB15_6-.LBB15_5)>>2
	.byte	(.LBB15_10-.LBB15_5)>>2
	.byte	(.LBB15_6-.LBB15_5)>>2
	.byte	(.LBB15_6-.LBB15_5)>>2
	.byte	(.LBB15_19-.LBB15_5)>>2
	.byte	(.LBB15_42-.LBB15_5)>>2
	.byte	(.LBB15_6-.LBB15_5)>>2
	.byte	(.LBB15_9-.LBB15_5)>>2
	.byte	(.LBB15_6-.LBB15_5)>>2
	.byte	(.LBB15_12-.LBB15_5)>>2
	.byte	(.LBB15_37-.LBB15_5)>>2
	.byte	(.LBB15_6-.LBB15_5)>>2
	.byte	(.LBB15_6-.LBB15_5)>>2
	.byte	(.LBB15_6-.LBB15_5)>>2
	.byte	(.LBB15_6-.LBB15_5)>>2
	.byte	(.LBB15_6-.LBB15_5)>>2
	.byte	(.LBB15_11-.LBB15_5)>>2

	.section	.rodata.cst16,"aM",@progbits,16
	.p2align	4, 0x0
.LCPI16_0:
	.byte	0
	.byte	1
	.byte	2
	.byte	3
	.byte	4
	.byte	5
	.byte	6
	.byte	7
	.byte	8
	.byte	9
	.byte	10
	.byte	11
	.byte	12
	.byte	13
	.byte	14
	.byte	15
.LCPI16_1:
	.byte	16
	.byte	17
	.byte	18
	.byte	19
	.byte	20
	.byte	21
	.byte	22
	.byte	23
	.byte	24
	.byte	25
	.byte	26
	.byte	27
	.byte	28
	.byte	29
	.byte	30
	.byte	31
	.section	.rodata.cst8,"aM",@progbits,8
	.p2align	3, 0x0
.LCPI16_2:
	.byte	32
	.byte	33
	.byte	34
	.byte	35
	.byte	36
	.byte	37
	.byte	38
	.byte	39
	.section	".text.des_tool::command::status::write_whole::<#03326aa510967ad1>","ax",@progbits
	.p2align	2
	.type	"des_tool::command::status::write_whole::<#03326aa510967ad1>",@function
"des_tool::command::status::write_whole::<#03326aa510967ad1>":
	.cfi_startproc
	hint	#25
	.cfi_negate_ra_state
	sub	sp, sp, #240
	.cfi_def_cfa_offset 240
	stp	x29, x30, [sp, #176]
	stp	x24, x23, [sp, #192]
	stp	x22, x21, [sp, #208]
	stp	x20, x19, [sp, #224]
	add	x29, sp, #176
	.cfi_def_cfa w29, 64
	.cfi_offset w19, -8
	.cfi_offset w20, -16
	.cfi_offset w21, -24
	.cfi_offset w22, -32
	.cfi_offset w23, -40
	.cfi_offset w24, -48
	.cfi_offset w30, -56
	.cfi_offset w29, -64
	.cfi_remember_state
	mov	x20, x2
	mov	x21, x1
	mov	x19, x0
	mov	x22, xzr
	add	x23, sp, #80
	mov	x24, #-1
	b	.LBB16_2
.LBB16_1:
	subs	x24, x24, #1
	b.eq	.LBB16_10
.LBB16_2:
	subs	x3, x20, x22
	b.ls	.LBB16_9
	add	x0, sp, #80
	add	x2, x21, x22
	mov	w1, #2
	bl	"std::io::write_fd"
	ldp	q0, q1, [x23, #48]
	ldur	q2, [x23, #80]
	ldrb	w9, [sp, #80]
	ldr	x8, [sp, #88]
	str	q2, [sp, #64]
	stp	q0, q1, [sp, #32]
	ldp	q1, q0, [x23, #16]
	stp	q1, q0, [sp]
	cbz	w9, .LBB16_6
	adrp	x9, .LCPI16_0
	adrp	x10, .LCPI16_1
	ldr	q0, [x9, :lo12:.LCPI16_0]
	adrp	x9, .LCPI16_2
	ldr	q1, [x10, :lo12:.LCPI16_1]
	ubfx	w10, w8, #8, #8
	ldr	d2, [x9, :lo12:.LCPI16_2]
	mov	w9, #40
	stp	q0, q1, [sp, #80]
	cmp	w10, #41
	str	d2, [sp, #112]
	strb	w9, [sp, #120]
	b.hs	.LBB16_8
	ubfx	x9, x8, #8, #6
	add	x10, sp, #80
	ldrb	w9, [x10, x9]
	cmp	w9, #35
	b.eq	.LBB16_1
	b	.LBB16_8
.LBB16_6:
	cbz	x8, .LBB16_11
	add	x22, x8, x22
	b	.LBB16_1
.LBB16_8:
	ldp	q0, q1, [sp, #32]
	mov	w9, #1
	ldr	q2, [sp, #64]
	str	x8, [x19, #8]
	strb	w9, [x19]
	stp	q0, q1, [x19, #48]
	ldp	q1, q0, [sp]
	str	q2, [x19, #80]
	stp	q1, q0, [x19, #16]
	.cfi_def_cfa wsp, 240
	b	.LBB16_13
.LBB16_9:
	.cfi_restore_state
	.cfi_remember_state
	movi	v0.2d, #0000000000000000
	strb	wzr, [x19]
	stur	q0, [x19, #8]
	stur	q0, [x19, #24]
	stur	q0, [x19, #40]
	stur	q0, [x19, #56]
	stur	q0, [x19, #72]
	str	xzr, [x19, #88]
	.cfi_def_cfa wsp, 240
	b	.LBB16_13
.LBB16_10:
	.cfi_restore_state
	movi	v0.2d, #0000000000000000
	mov	w8, #1
	mov	w9, #5633
	b	.LBB16_12
.LBB16_11:
	movi	v0.2d, #0000000000000000
	mov	w8, #1
	mov	w9, #5889
.LBB16_12:
	strb	w8, [x19]
	str	x9, [x19, #8]
	stp	q0, q0, [x19, #16]
	stp	q0, q0, [x19, #48]
	str	q0, [x19, #80]
	.cfi_def_cfa wsp, 240
.LBB16_13:
	ldp	x20, x19, [sp, #224]
	ldp	x22, x21, [sp, #208]
	ldp	x24, x23, [sp, #192]
	ldp	x29, x30, [sp, #176]
	add	sp, sp, #240
	.cfi_def_cfa_offset 0
	.cfi_restore w19
	.cfi_restore w20
	.cfi_restore w21
	.cfi_restore w22
	.cfi_restore w23
	.cfi_restore w24
	.cfi_restore w30
	.cfi_restore w29
	hint	#29
	.cfi_negate_ra_state
	ret
.Lfunc_end16:
	.size	"des_tool::command::status::write_whole::<#03326aa510967ad1>", .Lfunc_end16-"des_tool::command::status::write_whole::<#03326aa510967ad1>"
	.cfi_endproc

	.section	.rodata.cst16,"aM",@progbits,16
	.p2align	4, 0x0
.LCPI17_0:
	.xword	-48
	.xword	-56
.LCPI17_1:
	.xword	-32
	.xword	-40
.LCPI17_2:
	.xword	-16
	.xword	-24
.LCPI17_3:
	.xword	0
	.xword	-8
.LCPI17_4:
	.byte	0
	.byte	8
	.byte	16
	.byte	24
	.byte	32
	.byte	40
	.byte	48
	.byte	56
	.byte	255
	.byte	255
	.byte	255
	.byte	255
	.byte	255
	.byte	255
	.byte	255
	.byte	255
	.section	.text.main,"ax",@progbits
	.globl	cukvashe_main
	.p2align	2
	.type	cukvashe_main,@function
cukvashe_main:
	.cfi_startproc
	hint	#25
	.cfi_negate_ra_state
	stp	x29, x30, [sp, #-96]!
	.cfi_def_cfa_offset 96
	stp	x28, x27, [sp, #16]
	stp	x26, x25, [sp, #32]
	stp	x24, x23, [sp, #48]
	stp	x22, x21, [sp, #64]
	stp	x20, x19, [sp, #80]
	mov	x29, sp
	.cfi_def_cfa w29, 96
	.cfi_offset w19, -8
	.cfi_offset w20, -16
	.cfi_offset w21, -24
	.cfi_offset w22, -32
	.cfi_offset w23, -40
	.cfi_offset w24, -48
	.cfi_offset w25, -56
	.cfi_offset w26, -64
	.cfi_offset w27, -72
	.cfi_offset w28, -80
	.cfi_offset w30, -88
	.cfi_offset w29, -96
	.cfi_remember_state
	sub	sp, sp, #2080
	mov	w0, #13
	mov	w1, #1
	str	xzr, [sp]
	add	x26, sp, #1264
	bl	__sysv_signal
	mov	x25, xzr
	mov	x20, xzr
	sub	x19, x29, #24
	str	xzr, [sp, #1680]
	str	x19, [sp, #1664]
	str	xzr, [sp, #1672]
.LBB17_1:
	mov	w27, #64
	mov	w22, #256
	b	.LBB17_3
.LBB17_2:
	adds	x8, x22, x22
	csinv	x22, x8, xzr, lo
	subs	w27, w27, #1
	b.eq	.LBB17_142
.LBB17_3:
	sub	x21, x29, #24
	stp	xzr, xzr, [x26, #8]
	str	x21, [sp, #1264]
	cbnz	x22, .LBB17_8
	mov	x23, xzr
.LBB17_5:
	mov	x0, x20
	mov	x1, x21
	mov	x2, x23
	bl	rattle_arg
	mov	w8, #36
	cmn	x0, #1
	mov	w9, #22
	csel	w8, w9, w8, eq
	mov	x24, x0
	csel	w0, wzr, w8, gt
	bl	rattle_set_errno
	bl	rattle_errno
	cmp	w0, #36
	b.ne	.LBB17_11
	ldr	x8, [sp, #1280]
	cbz	x8, .LBB17_2
	mov	x0, x21
	bl	rattle_dealloc
	b	.LBB17_2
.LBB17_8:
	add	x0, sp, #1264
	mov	x1, x22
	bl	"std_alloc::vec::Vec::grow_amortized::<#190e5f0f9e657029>"
	cbz	w0, .LBB17_140
	ldr	x8, [sp, #1272]
	ldr	x21, [sp, #1264]
	add	x23, x8, x22
	cmp	x8, x23
	b.hs	.LBB17_5
	add	x0, x21, x8
	mov	w1, wzr
	mov	x2, x22
	bl	memset
	b	.LBB17_5
.LBB17_11:
	cbnz	w0, .LBB17_67
	cmp	x24, x23
	csel	x8, x24, x23, lo
	cmp	x24, #0
	ldr	x23, [sp, #1280]
	csel	x22, x8, xzr, gt
	cbz	x22, .LBB17_63
	mov	x9, xzr
	sub	x24, x22, #8
	b	.LBB17_18
.LBB17_14:
	and	w10, w10, #0xff
	tbnz	w10, #7, .LBB17_35
.LBB17_15:
	mov	w8, #1
.LBB17_16:
	add	x8, x8, x9
.LBB17_17:
	cmp	x8, x22
	mov	x9, x8
	b.hs	.LBB17_63
.LBB17_18:
	add	x8, x21, x9
	sub	x11, x22, x9
	ldrsb	w10, [x8]
	cmp	x11, #2
	b.lo	.LBB17_14
	tbnz	w10, #31, .LBB17_14
	ldrsb	w10, [x8, #1]
	tbnz	w10, #31, .LBB17_15
	cmp	x11, #7
	str	x21, [sp, #1264]
	str	x22, [sp, #1272]
	b.hi	.LBB17_40
	ldrsb	w8, [x21, x9]
	tbnz	w8, #31, .LBB17_55
	add	x8, x9, #1
	cmp	x8, x22
	b.eq	.LBB17_63
	ldrsb	w10, [x21, x8]
	tbnz	w10, #31, .LBB17_17
	add	x8, x9, #2
	cmp	x8, x22
	b.eq	.LBB17_63
	ldrsb	w10, [x21, x8]
	tbnz	w10, #31, .LBB17_17
	add	x8, x9, #3
	cmp	x8, x22
	b.eq	.LBB17_63
	ldrsb	w10, [x21, x8]
	tbnz	w10, #31, .LBB17_17
	add	x8, x9, #4
	cmp	x8, x22
	b.eq	.LBB17_63
	ldrsb	w10, [x21, x8]
	tbnz	w10, #31, .LBB17_17
	add	x8, x9, #5
	cmp	x8, x22
	b.eq	.LBB17_63
	ldrsb	w10, [x21, x8]
	tbnz	w10, #31, .LBB17_17
	add	x8, x9, #6
	cmp	x8, x22
	b.eq	.LBB17_63
	ldrsb	w9, [x21, x8]
	tbnz	w9, #31, .LBB17_17
	b	.LBB17_63
.LBB17_35:
	cmp	w10, #194
	b.lo	.LBB17_126
	cmp	w10, #223
	b.hi	.LBB17_48
	cmp	x11, #2
	b.lo	.LBB17_126
	ldrsb	w8, [x8, #1]
	cmn	w8, #65
	b.gt	.LBB17_126
	mov	w8, #2
	b	.LBB17_16
.LBB17_40:
	ldr	x8, [x8]
	mov	w10, #8
	ands	x8, x8, #0x8080808080808080
	rbit	x8, x8
	clz	x8, x8
	lsr	x8, x8, #3
	csel	x8, x10, x8, eq
	add	x8, x8, x9
	add	x9, x9, #8
	cmp	x8, x9
	b.lo	.LBB17_17
	sub	x9, x22, x8
	cmp	x9, #32
	b.lo	.LBB17_44
.LBB17_42:
	add	x9, x21, x8
	ldp	q1, q0, [x9]
	orr	v0.16b, v1.16b, v0.16b
	ext	v1.16b, v0.16b, v0.16b, #8
	orr	v0.8b, v0.8b, v1.8b
	fmov	x9, d0
	tst	x9, #0x8080808080808080
	b.ne	.LBB17_44
	add	x0, sp, #1264
	add	x1, x8, #32
	mov	x2, x22
	bl	"core::slice::words::skip_far::<#52f9edcae2f82f51>"
	sub	x9, x22, x0
	mov	x8, x0
	cmp	x9, #31
	b.hi	.LBB17_42
.LBB17_44:
	sub	x9, x22, x8
.LBB17_45:
	cmp	x9, #9
	b.lo	.LBB17_62
	ldr	x10, [x21, x8]
	mov	w11, #8
	sub	x9, x9, #8
	ands	x10, x10, #0x8080808080808080
	rbit	x10, x10
	clz	x10, x10
	lsr	x10, x10, #3
	csel	x10, x11, x10, eq
	add	x11, x10, x8
	add	x8, x8, #8
	cmp	x11, x8
	b.hs	.LBB17_45
	add	x8, x10, x8
	sub	x8, x8, #8
	b	.LBB17_17
.LBB17_48:
	cmp	w10, #239
	b.hi	.LBB17_56
	cmp	x11, #3
	b.lo	.LBB17_126
	ldrsb	w11, [x8, #1]
	cmn	w11, #65
	b.gt	.LBB17_126
	ldrsb	w8, [x8, #2]
	cmn	w8, #65
	b.gt	.LBB17_126
	and	w8, w11, #0xff
	add	w8, w8, w10, lsl #6
	mov	w10, #-14464
	add	w10, w8, w10
	cmp	w10, #32
	b.lo	.LBB17_126
	cmp	w10, #896
	mov	w8, #3
	csel	x11, xzr, x8, lo
	cmp	w10, #864
	b.lo	.LBB17_16
	mov	x8, x11
	b	.LBB17_61
.LBB17_55:
	mov	x8, x9
	b	.LBB17_17
.LBB17_56:
	cmp	x11, #4
	b.lo	.LBB17_126
	ldrsb	w11, [x8, #1]
	cmn	w11, #65
	b.gt	.LBB17_126
	ldrsb	w12, [x8, #2]
	cmn	w12, #65
	b.gt	.LBB17_126
	ldrsb	w8, [x8, #3]
	cmn	w8, #65
	b.gt	.LBB17_126
	and	w8, w11, #0xff
	add	w8, w8, w10, lsl #6
	mov	w10, #-15488
	add	w10, w8, w10
	mov	w8, #4
	cmp	w10, #272
	csel	x8, x8, xzr, lo
	cmp	w10, #16
	b.lo	.LBB17_126
.LBB17_61:
	cbnz	x8, .LBB17_16
	b	.LBB17_126
.LBB17_62:
	ldr	x8, [x21, x24]
	mov	w9, #8
	ands	x8, x8, #0x8080808080808080
	rbit	x8, x8
	clz	x8, x8
	lsr	x8, x8, #3
	csel	x8, x9, x8, eq
	add	x8, x8, x24
	b	.LBB17_17
.LBB17_63:
	ldr	x8, [sp, #1680]
	cmp	x8, x25
	b.eq	.LBB17_65
.LBB17_64:
	mov	w8, #24
	add	x20, x20, #1
	madd	x8, x25, x8, x19
	add	x25, x25, #1
	cmn	x20, #1
	stp	x21, x22, [x8]
	str	x23, [x8, #16]
	str	x25, [sp, #1672]
	b.ne	.LBB17_1
	b	.LBB17_69
.LBB17_65:
	add	x0, sp, #1664
	mov	w1, #1
	bl	"std_alloc::vec::Vec::grow_amortized::<#dddb8944fea4a04d>"
	cbz	w0, .LBB17_385
	ldr	x25, [sp, #1672]
	ldr	x19, [sp, #1664]
	b	.LBB17_64
.LBB17_67:
	ldr	x8, [sp, #1280]
	cbz	x8, .LBB17_69
	mov	x0, x21
	bl	rattle_dealloc
.LBB17_69:
	movi	v0.2d, #0000000000000000
	ldr	x20, [sp, #1664]
	ldr	x23, [sp, #1680]
	mov	x24, xzr
	mov	x28, xzr
	mov	x27, xzr
	sub	x10, x29, #24
	add	x13, x20, #24
	sub	x9, x29, #24
	stp	xzr, xzr, [sp, #120]
	str	xzr, [sp, #112]
	stur	xzr, [sp, #134]
	stp	q0, q0, [sp, #80]
	str	x9, [sp, #72]
	str	x10, [sp, #1264]
	cmp	x28, #0
	csel	x19, xzr, xzr, eq
.LBB17_70:
	ldr	x22, [sp, #72]
	cbz	x25, .LBB17_91
	mov	w8, #24
	sub	x21, x25, #1
	madd	x8, x27, x8, x20
	add	x27, x27, #1
	ldr	x9, [x8, #16]
	cbz	x9, .LBB17_74
	ldr	x0, [x8]
	bl	rattle_dealloc
	add	x13, x20, #24
	b	.LBB17_74
.LBB17_73:
	ldr	x22, [sp, #72]
	mov	x21, x25
.LBB17_74:
	cbz	x21, .LBB17_91
	add	x8, x27, x27, lsl #1
	cmp	x28, x19
	sub	x25, x21, #1
	lsl	x12, x8, #3
	add	x8, x20, x12
	b.ne	.LBB17_77
	add	x27, x27, #1
	b	.LBB17_82
.LBB17_77:
	mov	w9, #24
	ldr	x10, [x8, #16]
	ldr	q0, [x8]
	madd	x9, x28, x9, x22
	add	x8, x28, #1
	str	x10, [x9, #16]
	str	q0, [x9]
	cbz	x25, .LBB17_153
	mov	w10, #24
	mov	x9, xzr
	sub	x11, x8, x19
	madd	x10, x28, x10, x22
	add	x8, x13, x12
	add	x10, x10, #24
.LBB17_79:
	cmn	x11, x9
	b.eq	.LBB17_81
	ldr	x12, [x8, #16]
	ldr	q0, [x8], #24
	add	x9, x9, #1
	cmp	x25, x9
	str	x12, [x10, #16]
	str	q0, [x10], #24
	b.ne	.LBB17_79
	b	.LBB17_90
.LBB17_81:
	add	x10, x27, x9
	sub	x9, x21, x9
	add	x27, x10, #2
	sub	x21, x9, #1
	sub	x25, x9, #2
.LBB17_82:
	ldp	x22, x28, [x8]
	sub	x9, x24, x19
	mov	x10, x24
	ldr	x24, [x8, #16]
	cmp	x21, x9
	mov	x9, x10
	str	x19, [sp, #1272]
	str	x10, [sp, #1280]
	b.hi	.LBB17_84
.LBB17_83:
	mov	w8, #24
	ldr	x10, [sp, #1264]
	madd	x8, x19, x8, x10
	str	x10, [sp, #72]
	stp	x22, x28, [x8]
	add	x28, x19, #1
	str	x24, [x8, #16]
	mov	w8, #1
	mov	x24, x9
	str	x28, [sp, #1272]
	cmp	x28, #0
	csel	x19, xzr, x9, eq
	tbz	w8, #0, .LBB17_70
	b	.LBB17_73
.LBB17_84:
	add	x0, sp, #1264
	mov	x1, x21
	bl	"std_alloc::vec::Vec::grow_amortized::<#dddb8944fea4a04d>"
	ldr	x19, [sp, #1272]
	ldr	x8, [sp, #1280]
	tbnz	w0, #0, .LBB17_88
	mov	x9, x8
	cmp	x8, x19
	add	x13, x20, #24
	b.ne	.LBB17_83
	add	x0, sp, #1264
	mov	w1, #1
	bl	"std_alloc::vec::Vec::grow_amortized::<#dddb8944fea4a04d>"
	cbz	w0, .LBB17_457
	ldr	x19, [sp, #1272]
	ldr	x9, [sp, #1280]
	b	.LBB17_89
.LBB17_88:
	mov	x9, x8
.LBB17_89:
	add	x13, x20, #24
	b	.LBB17_83
.LBB17_90:
	add	x8, x28, x9
	add	x28, x8, #1
.LBB17_91:
	cbz	x23, .LBB17_93
.LBB17_92:
	mov	x0, x20
	bl	rattle_dealloc
.LBB17_93:
	sub	x8, x29, #24
	str	x24, [sp, #64]
	str	xzr, [sp, #1280]
	str	x8, [sp, #1264]
	str	xzr, [sp, #1272]
	cbz	x28, .LBB17_107
	mov	x8, xzr
	mov	x27, xzr
	mov	x9, xzr
	add	x19, sp, #1264
	sub	x20, x29, #24
	mov	x23, x28
	mov	x21, x22
.LBB17_95:
	add	x10, x20, x9, lsl #4
	mov	x22, xzr
	sub	x11, x9, x8
	add	x21, x21, #24
	add	x10, x10, #8
.LBB17_96:
	ldp	x25, x24, [x21, #-24]
	cmn	x11, x22
	b.eq	.LBB17_98
	add	x22, x22, #1
	stp	x25, x24, [x10, #-8]
	add	x21, x21, #24
	cmp	x23, x22
	add	x10, x10, #16
	b.ne	.LBB17_96
	b	.LBB17_104
.LBB17_98:
	sub	x9, x27, x8
	mov	x12, x27
	sub	x27, x23, x22
	cmp	x27, x9
	str	x20, [sp, #1264]
	str	x8, [sp, #1272]
	str	x12, [sp, #1280]
	b.hi	.LBB17_100
.LBB17_99:
	ldr	x20, [sp, #1264]
	sub	x11, x23, #1
	adds	x9, x8, #1
	sub	x23, x27, #1
	mov	x27, x12
	add	x10, x20, x8, lsl #4
	csel	x8, xzr, x12, hs
	cmp	x11, x22
	stp	x25, x24, [x10]
	stp	xzr, xzr, [x19, #8]
	b.ne	.LBB17_95
	b	.LBB17_105
.LBB17_100:
	add	x0, sp, #1264
	sub	x1, x23, x22
	bl	"std_alloc::vec::Vec::grow_amortized::<#f615b8dcee162320>"
	ldr	x8, [sp, #1272]
	ldr	x12, [sp, #1280]
	tbnz	w0, #0, .LBB17_99
	cmp	x12, x8
	b.ne	.LBB17_99
	add	x0, sp, #1264
	mov	w1, #1
	bl	"std_alloc::vec::Vec::grow_amortized::<#f615b8dcee162320>"
	cbz	w0, .LBB17_527
	ldr	x8, [sp, #1272]
	ldr	x12, [sp, #1280]
	b	.LBB17_99
.LBB17_104:
	add	x9, x9, x22
.LBB17_105:
	movi	v0.2d, #0000000000000000
	cmp	x9, #2
	stp	q0, q0, [sp, #144]
	b.hs	.LBB17_120
.LBB17_106:
	mov	w24, wzr
	mov	x22, xzr
	mov	x21, xzr
	mov	w26, #1
	b	.LBB17_108
.LBB17_107:
	mov	x27, xzr
	mov	w24, wzr
	mov	x22, xzr
	mov	x21, xzr
	str	xzr, [sp, #144]
	mov	w26, #1
	sub	x20, x29, #24
.LBB17_108:
	add	x0, sp, #144
	strb	w26, [sp, #144]
	strb	w24, [sp, #145]
	stp	x22, x21, [sp, #152]
	str	x21, [sp, #168]
	bl	"des_tool::command::status::show::<#8366a837468c3893>"
	mov	w23, w0
	cbnz	w26, .LBB17_111
	cbz	x21, .LBB17_111
	mov	x0, x22
	bl	rattle_dealloc
.LBB17_111:
	ldr	x21, [sp, #64]
	cbz	x27, .LBB17_113
	mov	x0, x20
	bl	rattle_dealloc
.LBB17_113:
	ldr	x22, [sp, #72]
	and	w20, w23, #0xff
	cbz	x28, .LBB17_118
	add	x19, x22, #16
	b	.LBB17_116
.LBB17_115:
	subs	x28, x28, #1
	add	x19, x19, #24
	b.eq	.LBB17_118
.LBB17_116:
	ldr	x8, [x19]
	cbz	x8, .LBB17_115
	ldur	x0, [x19, #-16]
	bl	rattle_dealloc
	b	.LBB17_115
.LBB17_118:
	cbz	x21, .LBB17_152
	mov	x0, x22
	bl	rattle_dealloc
	b	.LBB17_152
.LBB17_120:
	b.ne	.LBB17_135
	ldp	x0, x1, [x20]
	adrp	x2, .Lstatic.1
	add	x2, x2, :lo12:.Lstatic.1
	mov	w3, #4
	bl	"core::cmp::text::RefStrPartialEq::eq"
	tbz	w0, #0, .LBB17_106
	ldp	x10, x11, [x20, #16]
	mov	w26, #1
	cmp	x11, #16
	b.eq	.LBB17_165
	cmp	x11, #48
	b.eq	.LBB17_164
	cmp	x11, #32
	b.ne	.LBB17_175
	mov	w26, wzr
	mov	w8, #1
	mov	w9, #16
	b	.LBB17_166
.LBB17_126:
	cbz	x23, .LBB17_128
	mov	x0, x21
	bl	rattle_dealloc
.LBB17_128:
	ldr	x20, [sp, #1680]
	cbz	x25, .LBB17_133
	add	x21, x19, #16
	b	.LBB17_131
.LBB17_130:
	subs	x25, x25, #1
	add	x21, x21, #24
	b.eq	.LBB17_133
.LBB17_131:
	ldr	x8, [x21]
	cbz	x8, .LBB17_130
	ldur	x0, [x21, #-16]
	bl	rattle_dealloc
	b	.LBB17_130
.LBB17_133:
	cbz	x20, .LBB17_139
	mov	x0, x19
	bl	rattle_dealloc
	add	x8, sp, #1264
	b	.LBB17_150
.LBB17_135:
	cmp	x9, #4
	b.lo	.LBB17_106
	b.ne	.LBB17_154
	ldp	x21, x24, [x20]
	adrp	x2, .Lstatic.2
	add	x2, x2, :lo12:.Lstatic.2
	ldp	x22, x23, [x20, #16]
	mov	w3, #3
	mov	x0, x21
	mov	x1, x24
	bl	"core::cmp::text::RefStrPartialEq::eq"
	tbz	w0, #0, .LBB17_173
	mov	w19, wzr
	b	.LBB17_210
.LBB17_139:
	add	x8, sp, #1264
	b	.LBB17_150
.LBB17_140:
	ldr	x8, [sp, #1280]
	cbz	x8, .LBB17_142
	ldr	x0, [sp, #1264]
	bl	rattle_dealloc
.LBB17_142:
	ldr	x20, [sp, #1680]
	cbz	x25, .LBB17_147
	add	x21, x19, #16
	b	.LBB17_145
.LBB17_144:
	subs	x25, x25, #1
	add	x21, x21, #24
	b.eq	.LBB17_147
.LBB17_145:
	ldr	x8, [x21]
	cbz	x8, .LBB17_144
	ldur	x0, [x21, #-16]
	bl	rattle_dealloc
	b	.LBB17_144
.LBB17_147:
	cbz	x20, .LBB17_149
.LBB17_148:
	mov	x0, x19
	bl	rattle_dealloc
.LBB17_149:
	add	x8, sp, #1664
.LBB17_150:
	mov	w9, #21
	mov	w10, #38
	stp	xzr, xzr, [sp, #120]
	strb	w9, [sp, #1264]
	strb	w10, [sp, #1664]
	ldrb	w8, [x8]
	str	xzr, [sp, #112]
	stur	xzr, [sp, #134]
	and	w8, w8, #0xff
	str	xzr, [sp, #80]
	cmp	w8, #38
	mov	w8, #5
	csel	w8, w8, wzr, eq
.LBB17_151:
	strb	w8, [sp, #81]
	ldur	q0, [sp, #118]
	ldur	x8, [sp, #134]
	mov	w9, #1
	add	x0, sp, #80
	strb	w9, [sp, #80]
	stur	q0, [sp, #88]
	str	x8, [sp, #104]
	bl	"des_tool::command::status::show::<#8366a837468c3893>"
	and	w20, w0, #0xff
.LBB17_152:
	mov	w0, w20
	add	sp, sp, #2080
	.cfi_def_cfa wsp, 96
	ldp	x20, x19, [sp, #80]
	ldp	x22, x21, [sp, #64]
	ldp	x24, x23, [sp, #48]
	ldp	x26, x25, [sp, #32]
	ldp	x28, x27, [sp, #16]
	ldp	x29, x30, [sp], #96
	.cfi_def_cfa_offset 0
	.cfi_restore w19
	.cfi_restore w20
	.cfi_restore w21
	.cfi_restore w22
	.cfi_restore w23
	.cfi_restore w24
	.cfi_restore w25
	.cfi_restore w26
	.cfi_restore w27
	.cfi_restore w28
	.cfi_restore w30
	.cfi_restore w29
	hint	#29
	.cfi_negate_ra_state
	ret
.LBB17_153:
	.cfi_restore_state
	mov	x28, x8
	cbnz	x23, .LBB17_92
	b	.LBB17_93
.LBB17_154:
	cmp	x9, #5
	b.hi	.LBB17_106
	ldp	x21, x24, [x20]
	adrp	x2, .Lstatic.7
	add	x2, x2, :lo12:.Lstatic.7
	ldp	x22, x23, [x20, #16]
	mov	w3, #7
	mov	x0, x21
	mov	x1, x24
	bl	"core::cmp::text::RefStrPartialEq::eq"
	mov	w26, w0
	tbnz	w0, #0, .LBB17_157
	adrp	x2, .Lstatic.8
	add	x2, x2, :lo12:.Lstatic.8
	mov	x0, x21
	mov	x1, x24
	mov	w3, #8
	bl	"core::cmp::text::RefStrPartialEq::eq"
	cbz	w0, .LBB17_106
.LBB17_157:
	adrp	x2, .Lstatic.9
	add	x2, x2, :lo12:.Lstatic.9
	mov	x0, x22
	mov	x1, x23
	mov	w3, #7
	bl	"core::cmp::text::RefStrPartialEq::eq"
	mov	w21, w0
	tbnz	w0, #0, .LBB17_159
	adrp	x2, .Lstatic.10
	add	x2, x2, :lo12:.Lstatic.10
	mov	x0, x22
	mov	x1, x23
	mov	w3, #7
	bl	"core::cmp::text::RefStrPartialEq::eq"
	tbz	w0, #0, .LBB17_106
.LBB17_159:
	movi	v0.2d, #0000000000000000
	ldp	x1, x2, [x20, #32]
	ldp	x24, x22, [x20, #48]
	ldp	x19, x23, [x20, #64]
	cbz	w26, .LBB17_201
	add	x0, sp, #1664
	str	q0, [sp, #1664]
	add	x26, sp, #1664
	str	q0, [sp, #1680]
	str	q0, [sp, #1696]
	str	q0, [sp, #1712]
	str	q0, [sp, #1728]
	str	q0, [sp, #1744]
	str	q0, [sp, #1760]
	str	q0, [sp, #1776]
	str	xzr, [sp, #1792]
	str	xzr, [sp, #1008]
	strb	wzr, [sp, #1016]
	stp	q0, q0, [sp, #240]
	bl	"des_tool::command::digits::parse_cipher_key::<#c792690d620903dd>"
	ldrb	w8, [sp, #1664]
	cbnz	w8, .LBB17_284
	add	x0, sp, #1008
	mov	x1, x24
	mov	x2, x22
	bl	"des_tool::command::digits::parse_vector"
	add	x9, sp, #1008
	ldrb	w8, [sp, #1008]
	ldur	x24, [x9, #1]
	cbnz	w8, .LBB17_357
	add	x0, sp, #240
	mov	x1, x19
	mov	x2, x23
	bl	"des_tool::command::digits::parse_blocks"
	ldrb	w8, [sp, #240]
	cbz	w8, .LBB17_444
	ldrb	w24, [sp, #241]
	mov	x22, xzr
	mov	x21, xzr
	mov	w26, #1
	b	.LBB17_108
.LBB17_164:
	mov	w26, wzr
	mov	w8, wzr
	mov	w9, #24
	b	.LBB17_166
.LBB17_165:
	mov	w8, wzr
	mov	w9, #8
.LBB17_166:
	cmp	x11, x9, lsl #1
	str	xzr, [sp, #1272]
	str	xzr, [sp, #1264]
	str	xzr, [sp, #1280]
	b.ne	.LBB17_172
	mov	x12, x10
	mov	x13, x11
.LBB17_168:
	cbz	x13, .LBB17_176
	ldrb	w14, [x12], #1
	sub	x13, x13, #1
	sub	w15, w14, #48
	cmp	w15, #10
	b.lo	.LBB17_168
	and	w14, w14, #0xffffffdf
	sub	w14, w14, #65
	cmp	w14, #6
	b.lo	.LBB17_168
	mov	x22, xzr
	mov	x21, xzr
	mov	w24, #2
	mov	w26, #1
	b	.LBB17_108
.LBB17_172:
	mov	w26, #1
	mov	x22, xzr
	mov	x21, xzr
	mov	w24, w26
	b	.LBB17_108
.LBB17_173:
	adrp	x2, .Lstatic.3
	add	x2, x2, :lo12:.Lstatic.3
	mov	x0, x21
	mov	x1, x24
	mov	w3, #4
	bl	"core::cmp::text::RefStrPartialEq::eq"
	tbz	w0, #0, .LBB17_197
	mov	w19, #1
	b	.LBB17_210
.LBB17_175:
	mov	x22, xzr
	mov	x21, xzr
	mov	w24, w26
	b	.LBB17_108
.LBB17_176:
	tbnz	w11, #0, .LBB17_620
	lsr	x11, x11, #1
	cmp	x11, x9
	b.ne	.LBB17_620
	mov	x11, xzr
	add	x10, x10, #1
	b	.LBB17_181
.LBB17_179:
	sub	w14, w13, #55
.LBB17_180:
	add	w12, w14, w12, lsl #4
	add	x13, sp, #1264
	add	x10, x10, #2
	strb	w12, [x13, x11]
	add	x11, x11, #1
	cmp	x9, x11
	b.eq	.LBB17_194
.LBB17_181:
	ldurb	w14, [x10, #-1]
	subs	w12, w14, #48
	b.lo	.LBB17_620
	ldrb	w13, [x10]
	cmp	w14, #57
	b.ls	.LBB17_188
	cmp	w14, #65
	b.lo	.LBB17_620
	cmp	w14, #70
	b.hi	.LBB17_186
	sub	w12, w14, #55
	b	.LBB17_188
.LBB17_186:
	sub	w12, w14, #97
	cmp	w12, #5
	b.hi	.LBB17_620
	sub	w12, w14, #87
.LBB17_188:
	subs	w14, w13, #48
	b.lo	.LBB17_620
	cmp	w13, #57
	b.ls	.LBB17_180
	cmp	w13, #65
	b.lo	.LBB17_620
	cmp	w13, #70
	b.ls	.LBB17_179
	sub	w14, w13, #97
	cmp	w14, #5
	b.hi	.LBB17_620
	sub	w14, w13, #87
	b	.LBB17_180
.LBB17_194:
	ldr	x10, [sp, #1264]
	mov	x11, xzr
.LBB17_195:
	cmp	x11, #512
	adrp	x9, .Lstatic.16
	add	x9, x9, :lo12:.Lstatic.16
	b.eq	.LBB17_199
	ldr	x9, [x9, x11]
	add	x11, x11, #8
	eor	x9, x9, x10
	tst	x9, #0xfefefefefefefefe
	b.ne	.LBB17_195
	b	.LBB17_419
.LBB17_197:
	adrp	x2, .Lstatic.4
	add	x2, x2, :lo12:.Lstatic.4
	mov	x0, x21
	mov	x1, x24
	mov	w3, #4
	bl	"core::cmp::text::RefStrPartialEq::eq"
	tbz	w0, #0, .LBB17_204
	mov	w19, #2
	b	.LBB17_210
.LBB17_199:
	tbz	w26, #0, .LBB17_206
.LBB17_200:
	mov	w19, #1
	adrp	x23, .Lstatic.14
	add	x23, x23, :lo12:.Lstatic.14
	mov	w21, #3
	b	.LBB17_420
.LBB17_201:
	add	x0, sp, #1264
	str	q0, [sp, #1264]
	add	x25, sp, #1264
	str	q0, [sp, #1280]
	str	q0, [sp, #1296]
	str	q0, [sp, #1312]
	str	q0, [sp, #1328]
	str	q0, [sp, #1344]
	str	q0, [sp, #1360]
	str	q0, [sp, #1376]
	str	q0, [sp, #1392]
	str	q0, [sp, #1408]
	str	q0, [sp, #1424]
	str	q0, [sp, #1440]
	str	q0, [sp, #1456]
	str	q0, [sp, #1472]
	str	q0, [sp, #1488]
	str	q0, [sp, #1504]
	str	q0, [sp, #1520]
	str	q0, [sp, #1536]
	str	q0, [sp, #1552]
	str	q0, [sp, #1568]
	str	q0, [sp, #1584]
	str	q0, [sp, #1600]
	str	q0, [sp, #1616]
	str	q0, [sp, #1632]
	str	xzr, [sp, #1648]
	strb	wzr, [sp, #760]
	str	xzr, [sp, #752]
	stp	q0, q0, [sp, #1008]
	bl	"des_tool::command::digits::parse_cipher_key::<#cefa6fc48b8e262a>"
	ldrb	w8, [sp, #1264]
	cbnz	w8, .LBB17_359
	add	x0, sp, #1664
	orr	x1, x25, #0x8
	mov	w2, #384
	bl	memcpy
	add	x0, sp, #752
	mov	x1, x24
	mov	x2, x22
	bl	"des_tool::command::digits::parse_vector"
	add	x9, sp, #752
	ldrb	w8, [sp, #752]
	ldur	x24, [x9, #1]
	cbz	w8, .LBB17_401
	mov	x22, xzr
	mov	x21, xzr
	mov	w26, #1
	b	.LBB17_108
.LBB17_204:
	adrp	x2, .Lstatic.5
	add	x2, x2, :lo12:.Lstatic.5
	mov	x0, x21
	mov	x1, x24
	mov	w3, #4
	bl	"core::cmp::text::RefStrPartialEq::eq"
	tbz	w0, #0, .LBB17_209
	mov	w19, #3
	b	.LBB17_210
.LBB17_206:
	ldr	x10, [sp, #1272]
	mov	x11, xzr
.LBB17_207:
	cmp	x11, #512
	b.eq	.LBB17_362
	ldr	x12, [x9, x11]
	add	x11, x11, #8
	eor	x12, x12, x10
	tst	x12, #0xfefefefefefefefe
	b.ne	.LBB17_207
	b	.LBB17_419
.LBB17_209:
	adrp	x2, .Lstatic.6
	add	x2, x2, :lo12:.Lstatic.6
	mov	x0, x21
	mov	x1, x24
	mov	w3, #4
	mov	w19, #4
	bl	"core::cmp::text::RefStrPartialEq::eq"
	cbz	w0, .LBB17_106
.LBB17_210:
	adrp	x2, .Lstatic.9
	add	x2, x2, :lo12:.Lstatic.9
	mov	x0, x22
	mov	x1, x23
	mov	w3, #7
	bl	"core::cmp::text::RefStrPartialEq::eq"
	mov	w21, w0
	tbnz	w0, #0, .LBB17_212
	adrp	x2, .Lstatic.10
	add	x2, x2, :lo12:.Lstatic.10
	mov	x0, x22
	mov	x1, x23
	mov	w3, #7
	bl	"core::cmp::text::RefStrPartialEq::eq"
	tbz	w0, #0, .LBB17_106
.LBB17_212:
	movi	v0.2d, #0000000000000000
	ldp	x1, x2, [x20, #32]
	ldp	x23, x22, [x20, #48]
	cmp	w19, #1
	b.le	.LBB17_281
	cmp	w19, #2
	b.eq	.LBB17_285
	cmp	w19, #3
	b.ne	.LBB17_290
	cmp	x2, #32
	stp	xzr, xzr, [sp, #176]
	stp	q0, q0, [sp, #624]
	str	xzr, [sp, #192]
	b.ne	.LBB17_356
	ldrb	w8, [x1]
	sub	w9, w8, #48
	cmp	w9, #10
	b.lo	.LBB17_218
	and	w8, w8, #0xffffffdf
	sub	w8, w8, #65
	cmp	w8, #5
	b.hi	.LBB17_355
.LBB17_218:
	ldrb	w8, [x1, #1]
	sub	w9, w8, #48
	cmp	w9, #10
	b.lo	.LBB17_220
	and	w8, w8, #0xffffffdf
	sub	w8, w8, #65
	cmp	w8, #5
	b.hi	.LBB17_355
.LBB17_220:
	ldrb	w8, [x1, #2]
	sub	w9, w8, #48
	cmp	w9, #10
	b.lo	.LBB17_222
	and	w8, w8, #0xffffffdf
	sub	w8, w8, #65
	cmp	w8, #5
	b.hi	.LBB17_355
.LBB17_222:
	ldrb	w8, [x1, #3]
	sub	w9, w8, #48
	cmp	w9, #10
	b.lo	.LBB17_224
	and	w8, w8, #0xffffffdf
	sub	w8, w8, #65
	cmp	w8, #5
	b.hi	.LBB17_355
.LBB17_224:
	ldrb	w8, [x1, #4]
	sub	w9, w8, #48
	cmp	w9, #10
	b.lo	.LBB17_226
	and	w8, w8, #0xffffffdf
	sub	w8, w8, #65
	cmp	w8, #5
	b.hi	.LBB17_355
.LBB17_226:
	ldrb	w8, [x1, #5]
	sub	w9, w8, #48
	cmp	w9, #10
	b.lo	.LBB17_228
	and	w8, w8, #0xffffffdf
	sub	w8, w8, #65
	cmp	w8, #5
	b.hi	.LBB17_355
.LBB17_228:
	ldrb	w8, [x1, #6]
	sub	w9, w8, #48
	cmp	w9, #10
	b.lo	.LBB17_230
	and	w8, w8, #0xffffffdf
	sub	w8, w8, #65
	cmp	w8, #5
	b.hi	.LBB17_355
.LBB17_230:
	ldrb	w8, [x1, #7]
	sub	w9, w8, #48
	cmp	w9, #10
	b.lo	.LBB17_232
	and	w8, w8, #0xffffffdf
	sub	w8, w8, #65
	cmp	w8, #5
	b.hi	.LBB17_355
.LBB17_232:
	ldrb	w8, [x1, #8]
	sub	w9, w8, #48
	cmp	w9, #10
	b.lo	.LBB17_234
	and	w8, w8, #0xffffffdf
	sub	w8, w8, #65
	cmp	w8, #5
	b.hi	.LBB17_355
.LBB17_234:
	ldrb	w8, [x1, #9]
	sub	w9, w8, #48
	cmp	w9, #10
	b.lo	.LBB17_236
	and	w8, w8, #0xffffffdf
	sub	w8, w8, #65
	cmp	w8, #5
	b.hi	.LBB17_355
.LBB17_236:
	ldrb	w8, [x1, #10]
	sub	w9, w8, #48
	cmp	w9, #10
	b.lo	.LBB17_238
	and	w8, w8, #0xffffffdf
	sub	w8, w8, #65
	cmp	w8, #5
	b.hi	.LBB17_355
.LBB17_238:
	ldrb	w8, [x1, #11]
	sub	w9, w8, #48
	cmp	w9, #10
	b.lo	.LBB17_240
	and	w8, w8, #0xffffffdf
	sub	w8, w8, #65
	cmp	w8, #5
	b.hi	.LBB17_355
.LBB17_240:
	ldrb	w8, [x1, #12]
	sub	w9, w8, #48
	cmp	w9, #10
	b.lo	.LBB17_242
	and	w8, w8, #0xffffffdf
	sub	w8, w8, #65
	cmp	w8, #5
	b.hi	.LBB17_355
.LBB17_242:
	ldrb	w8, [x1, #13]
	sub	w9, w8, #48
	cmp	w9, #10
	b.lo	.LBB17_244
	and	w8, w8, #0xffffffdf
	sub	w8, w8, #65
	cmp	w8, #5
	b.hi	.LBB17_355
.LBB17_244:
	ldrb	w8, [x1, #14]
	sub	w9, w8, #48
	cmp	w9, #10
	b.lo	.LBB17_246
	and	w8, w8, #0xffffffdf
	sub	w8, w8, #65
	cmp	w8, #5
	b.hi	.LBB17_355
.LBB17_246:
	ldrb	w8, [x1, #15]
	sub	w9, w8, #48
	cmp	w9, #10
	b.lo	.LBB17_248
	and	w8, w8, #0xffffffdf
	sub	w8, w8, #65
	cmp	w8, #5
	b.hi	.LBB17_355
.LBB17_248:
	ldrb	w8, [x1, #16]
	sub	w9, w8, #48
	cmp	w9, #10
	b.lo	.LBB17_250
	and	w8, w8, #0xffffffdf
	sub	w8, w8, #65
	cmp	w8, #5
	b.hi	.LBB17_355
.LBB17_250:
	ldrb	w8, [x1, #17]
	sub	w9, w8, #48
	cmp	w9, #10
	b.lo	.LBB17_252
	and	w8, w8, #0xffffffdf
	sub	w8, w8, #65
	cmp	w8, #5
	b.hi	.LBB17_355
.LBB17_252:
	ldrb	w8, [x1, #18]
	sub	w9, w8, #48
	cmp	w9, #10
	b.lo	.LBB17_254
	and	w8, w8, #0xffffffdf
	sub	w8, w8, #65
	cmp	w8, #5
	b.hi	.LBB17_355
.LBB17_254:
	ldrb	w8, [x1, #19]
	sub	w9, w8, #48
	cmp	w9, #10
	b.lo	.LBB17_256
	and	w8, w8, #0xffffffdf
	sub	w8, w8, #65
	cmp	w8, #5
	b.hi	.LBB17_355
.LBB17_256:
	ldrb	w8, [x1, #20]
	sub	w9, w8, #48
	cmp	w9, #10
	b.lo	.LBB17_258
	and	w8, w8, #0xffffffdf
	sub	w8, w8, #65
	cmp	w8, #5
	b.hi	.LBB17_355
.LBB17_258:
	ldrb	w8, [x1, #21]
	sub	w9, w8, #48
	cmp	w9, #10
	b.lo	.LBB17_260
	and	w8, w8, #0xffffffdf
	sub	w8, w8, #65
	cmp	w8, #5
	b.hi	.LBB17_355
.LBB17_260:
	ldrb	w8, [x1, #22]
	sub	w9, w8, #48
	cmp	w9, #10
	b.lo	.LBB17_262
	and	w8, w8, #0xffffffdf
	sub	w8, w8, #65
	cmp	w8, #5
	b.hi	.LBB17_355
.LBB17_262:
	ldrb	w8, [x1, #23]
	sub	w9, w8, #48
	cmp	w9, #10
	b.lo	.LBB17_264
	and	w8, w8, #0xffffffdf
	sub	w8, w8, #65
	cmp	w8, #5
	b.hi	.LBB17_355
.LBB17_264:
	ldrb	w8, [x1, #24]
	sub	w9, w8, #48
	cmp	w9, #10
	b.lo	.LBB17_266
	and	w8, w8, #0xffffffdf
	sub	w8, w8, #65
	cmp	w8, #5
	b.hi	.LBB17_355
.LBB17_266:
	ldrb	w8, [x1, #25]
	sub	w9, w8, #48
	cmp	w9, #10
	b.lo	.LBB17_268
	and	w8, w8, #0xffffffdf
	sub	w8, w8, #65
	cmp	w8, #5
	b.hi	.LBB17_355
.LBB17_268:
	ldrb	w8, [x1, #26]
	sub	w9, w8, #48
	cmp	w9, #10
	b.lo	.LBB17_270
	and	w8, w8, #0xffffffdf
	sub	w8, w8, #65
	cmp	w8, #5
	b.hi	.LBB17_355
.LBB17_270:
	ldrb	w8, [x1, #27]
	sub	w9, w8, #48
	cmp	w9, #10
	b.lo	.LBB17_272
	and	w8, w8, #0xffffffdf
	sub	w8, w8, #65
	cmp	w8, #5
	b.hi	.LBB17_355
.LBB17_272:
	ldrb	w8, [x1, #28]
	sub	w9, w8, #48
	cmp	w9, #10
	b.lo	.LBB17_274
	and	w8, w8, #0xffffffdf
	sub	w8, w8, #65
	cmp	w8, #5
	b.hi	.LBB17_355
.LBB17_274:
	ldrb	w8, [x1, #29]
	sub	w9, w8, #48
	cmp	w9, #10
	b.lo	.LBB17_276
	and	w8, w8, #0xffffffdf
	sub	w8, w8, #65
	cmp	w8, #5
	b.hi	.LBB17_355
.LBB17_276:
	ldrb	w8, [x1, #30]
	sub	w9, w8, #48
	cmp	w9, #10
	b.lo	.LBB17_278
	and	w8, w8, #0xffffffdf
	sub	w8, w8, #65
	cmp	w8, #5
	b.hi	.LBB17_355
.LBB17_278:
	ldrb	w8, [x1, #31]
	sub	w9, w8, #48
	cmp	w9, #10
	b.lo	.LBB17_280
	and	w8, w8, #0xffffffdf
	sub	w8, w8, #65
	cmp	w8, #5
	b.hi	.LBB17_355
.LBB17_280:
	mov	x8, xzr
	add	x9, x1, #1
	b	.LBB17_551
.LBB17_281:
	cbnz	w19, .LBB17_358
	add	x0, sp, #1264
	str	q0, [sp, #1264]
	add	x19, sp, #1264
	str	q0, [sp, #1280]
	str	q0, [sp, #1296]
	str	q0, [sp, #1312]
	str	q0, [sp, #1328]
	str	q0, [sp, #1344]
	str	q0, [sp, #1360]
	str	q0, [sp, #1376]
	str	xzr, [sp, #1392]
	str	q0, [sp, #1664]
	str	q0, [sp, #1680]
	bl	"des_tool::command::digits::parse_cipher_key::<#c792690d620903dd>"
	ldrb	w8, [sp, #1264]
	cbnz	w8, .LBB17_359
	add	x0, sp, #1664
	mov	x1, x23
	mov	x2, x22
	bl	"des_tool::command::digits::parse_blocks"
	ldrb	w8, [sp, #1664]
	cbz	w8, .LBB17_393
.LBB17_284:
	ldrb	w24, [sp, #1665]
	mov	x22, xzr
	mov	x21, xzr
	mov	w26, #1
	b	.LBB17_108
.LBB17_285:
	cmp	x2, #48
	stp	xzr, xzr, [sp, #216]
	stp	q0, q0, [sp, #176]
	str	xzr, [sp, #232]
	b.ne	.LBB17_356
	mov	x8, xzr
.LBB17_287:
	cmp	x8, #48
	b.eq	.LBB17_367
	ldrb	w9, [x1, x8]
	add	x8, x8, #1
	sub	w10, w9, #48
	cmp	w10, #10
	b.lo	.LBB17_287
	and	w9, w9, #0xffffffdf
	sub	w9, w9, #65
	cmp	w9, #6
	b.lo	.LBB17_287
	b	.LBB17_355
.LBB17_290:
	cmp	x2, #32
	stp	xzr, xzr, [sp, #176]
	stp	q0, q0, [sp, #624]
	str	xzr, [sp, #192]
	b.ne	.LBB17_356
	ldrb	w8, [x1]
	sub	w9, w8, #48
	cmp	w9, #10
	b.lo	.LBB17_293
	and	w8, w8, #0xffffffdf
	sub	w8, w8, #65
	cmp	w8, #5
	b.hi	.LBB17_355
.LBB17_293:
	ldrb	w8, [x1, #1]
	sub	w9, w8, #48
	cmp	w9, #10
	b.lo	.LBB17_295
	and	w8, w8, #0xffffffdf
	sub	w8, w8, #65
	cmp	w8, #5
	b.hi	.LBB17_355
.LBB17_295:
	ldrb	w8, [x1, #2]
	sub	w9, w8, #48
	cmp	w9, #10
	b.lo	.LBB17_297
	and	w8, w8, #0xffffffdf
	sub	w8, w8, #65
	cmp	w8, #5
	b.hi	.LBB17_355
.LBB17_297:
	ldrb	w8, [x1, #3]
	sub	w9, w8, #48
	cmp	w9, #10
	b.lo	.LBB17_299
	and	w8, w8, #0xffffffdf
	sub	w8, w8, #65
	cmp	w8, #5
	b.hi	.LBB17_355
.LBB17_299:
	ldrb	w8, [x1, #4]
	sub	w9, w8, #48
	cmp	w9, #10
	b.lo	.LBB17_301
	and	w8, w8, #0xffffffdf
	sub	w8, w8, #65
	cmp	w8, #5
	b.hi	.LBB17_355
.LBB17_301:
	ldrb	w8, [x1, #5]
	sub	w9, w8, #48
	cmp	w9, #10
	b.lo	.LBB17_303
	and	w8, w8, #0xffffffdf
	sub	w8, w8, #65
	cmp	w8, #5
	b.hi	.LBB17_355
.LBB17_303:
	ldrb	w8, [x1, #6]
	sub	w9, w8, #48
	cmp	w9, #10
	b.lo	.LBB17_305
	and	w8, w8, #0xffffffdf
	sub	w8, w8, #65
	cmp	w8, #5
	b.hi	.LBB17_355
.LBB17_305:
	ldrb	w8, [x1, #7]
	sub	w9, w8, #48
	cmp	w9, #10
	b.lo	.LBB17_307
	and	w8, w8, #0xffffffdf
	sub	w8, w8, #65
	cmp	w8, #5
	b.hi	.LBB17_355
.LBB17_307:
	ldrb	w8, [x1, #8]
	sub	w9, w8, #48
	cmp	w9, #10
	b.lo	.LBB17_309
	and	w8, w8, #0xffffffdf
	sub	w8, w8, #65
	cmp	w8, #5
	b.hi	.LBB17_355
.LBB17_309:
	ldrb	w8, [x1, #9]
	sub	w9, w8, #48
	cmp	w9, #10
	b.lo	.LBB17_311
	and	w8, w8, #0xffffffdf
	sub	w8, w8, #65
	cmp	w8, #5
	b.hi	.LBB17_355
.LBB17_311:
	ldrb	w8, [x1, #10]
	sub	w9, w8, #48
	cmp	w9, #10
	b.lo	.LBB17_313
	and	w8, w8, #0xffffffdf
	sub	w8, w8, #65
	cmp	w8, #5
	b.hi	.LBB17_355
.LBB17_313:
	ldrb	w8, [x1, #11]
	sub	w9, w8, #48
	cmp	w9, #10
	b.lo	.LBB17_315
	and	w8, w8, #0xffffffdf
	sub	w8, w8, #65
	cmp	w8, #5
	b.hi	.LBB17_355
.LBB17_315:
	ldrb	w8, [x1, #12]
	sub	w9, w8, #48
	cmp	w9, #10
	b.lo	.LBB17_317
	and	w8, w8, #0xffffffdf
	sub	w8, w8, #65
	cmp	w8, #5
	b.hi	.LBB17_355
.LBB17_317:
	ldrb	w8, [x1, #13]
	sub	w9, w8, #48
	cmp	w9, #10
	b.lo	.LBB17_319
	and	w8, w8, #0xffffffdf
	sub	w8, w8, #65
	cmp	w8, #5
	b.hi	.LBB17_355
.LBB17_319:
	ldrb	w8, [x1, #14]
	sub	w9, w8, #48
	cmp	w9, #10
	b.lo	.LBB17_321
	and	w8, w8, #0xffffffdf
	sub	w8, w8, #65
	cmp	w8, #5
	b.hi	.LBB17_355
.LBB17_321:
	ldrb	w8, [x1, #15]
	sub	w9, w8, #48
	cmp	w9, #10
	b.lo	.LBB17_323
	and	w8, w8, #0xffffffdf
	sub	w8, w8, #65
	cmp	w8, #5
	b.hi	.LBB17_355
.LBB17_323:
	ldrb	w8, [x1, #16]
	sub	w9, w8, #48
	cmp	w9, #10
	b.lo	.LBB17_325
	and	w8, w8, #0xffffffdf
	sub	w8, w8, #65
	cmp	w8, #5
	b.hi	.LBB17_355
.LBB17_325:
	ldrb	w8, [x1, #17]
	sub	w9, w8, #48
	cmp	w9, #10
	b.lo	.LBB17_327
	and	w8, w8, #0xffffffdf
	sub	w8, w8, #65
	cmp	w8, #5
	b.hi	.LBB17_355
.LBB17_327:
	ldrb	w8, [x1, #18]
	sub	w9, w8, #48
	cmp	w9, #10
	b.lo	.LBB17_329
	and	w8, w8, #0xffffffdf
	sub	w8, w8, #65
	cmp	w8, #5
	b.hi	.LBB17_355
.LBB17_329:
	ldrb	w8, [x1, #19]
	sub	w9, w8, #48
	cmp	w9, #10
	b.lo	.LBB17_331
	and	w8, w8, #0xffffffdf
	sub	w8, w8, #65
	cmp	w8, #5
	b.hi	.LBB17_355
.LBB17_331:
	ldrb	w8, [x1, #20]
	sub	w9, w8, #48
	cmp	w9, #10
	b.lo	.LBB17_333
	and	w8, w8, #0xffffffdf
	sub	w8, w8, #65
	cmp	w8, #5
	b.hi	.LBB17_355
.LBB17_333:
	ldrb	w8, [x1, #21]
	sub	w9, w8, #48
	cmp	w9, #10
	b.lo	.LBB17_335
	and	w8, w8, #0xffffffdf
	sub	w8, w8, #65
	cmp	w8, #5
	b.hi	.LBB17_355
.LBB17_335:
	ldrb	w8, [x1, #22]
	sub	w9, w8, #48
	cmp	w9, #10
	b.lo	.LBB17_337
	and	w8, w8, #0xffffffdf
	sub	w8, w8, #65
	cmp	w8, #5
	b.hi	.LBB17_355
.LBB17_337:
	ldrb	w8, [x1, #23]
	sub	w9, w8, #48
	cmp	w9, #10
	b.lo	.LBB17_339
	and	w8, w8, #0xffffffdf
	sub	w8, w8, #65
	cmp	w8, #5
	b.hi	.LBB17_355
.LBB17_339:
	ldrb	w8, [x1, #24]
	sub	w9, w8, #48
	cmp	w9, #10
	b.lo	.LBB17_341
	and	w8, w8, #0xffffffdf
	sub	w8, w8, #65
	cmp	w8, #5
	b.hi	.LBB17_355
.LBB17_341:
	ldrb	w8, [x1, #25]
	sub	w9, w8, #48
	cmp	w9, #10
	b.lo	.LBB17_343
	and	w8, w8, #0xffffffdf
	sub	w8, w8, #65
	cmp	w8, #5
	b.hi	.LBB17_355
.LBB17_343:
	ldrb	w8, [x1, #26]
	sub	w9, w8, #48
	cmp	w9, #10
	b.lo	.LBB17_345
	and	w8, w8, #0xffffffdf
	sub	w8, w8, #65
	cmp	w8, #5
	b.hi	.LBB17_355
.LBB17_345:
	ldrb	w8, [x1, #27]
	sub	w9, w8, #48
	cmp	w9, #10
	b.lo	.LBB17_347
	and	w8, w8, #0xffffffdf
	sub	w8, w8, #65
	cmp	w8, #5
	b.hi	.LBB17_355
.LBB17_347:
	ldrb	w8, [x1, #28]
	sub	w9, w8, #48
	cmp	w9, #10
	b.lo	.LBB17_349
	and	w8, w8, #0xffffffdf
	sub	w8, w8, #65
	cmp	w8, #5
	b.hi	.LBB17_355
.LBB17_349:
	ldrb	w8, [x1, #29]
	sub	w9, w8, #48
	cmp	w9, #10
	b.lo	.LBB17_351
	and	w8, w8, #0xffffffdf
	sub	w8, w8, #65
	cmp	w8, #5
	b.hi	.LBB17_355
.LBB17_351:
	ldrb	w8, [x1, #30]
	sub	w9, w8, #48
	cmp	w9, #10
	b.lo	.LBB17_353
	and	w8, w8, #0xffffffdf
	sub	w8, w8, #65
	cmp	w8, #5
	b.hi	.LBB17_355
.LBB17_353:
	ldrb	w8, [x1, #31]
	sub	w9, w8, #48
	cmp	w9, #10
	b.lo	.LBB17_564
	and	w8, w8, #0xffffffdf
	sub	w8, w8, #65
	cmp	w8, #5
	b.ls	.LBB17_564
.LBB17_355:
	mov	w24, #2
	b	.LBB17_357
.LBB17_356:
	mov	w24, #1
.LBB17_357:
	mov	x22, xzr
	mov	x21, xzr
	mov	w26, #1
	b	.LBB17_108
.LBB17_358:
	add	x0, sp, #1264
	str	q0, [sp, #1264]
	add	x19, sp, #1264
	str	q0, [sp, #1280]
	str	q0, [sp, #1296]
	str	q0, [sp, #1312]
	str	q0, [sp, #1328]
	str	q0, [sp, #1344]
	str	q0, [sp, #1360]
	str	q0, [sp, #1376]
	str	q0, [sp, #1392]
	str	q0, [sp, #1408]
	str	q0, [sp, #1424]
	str	q0, [sp, #1440]
	str	q0, [sp, #1456]
	str	q0, [sp, #1472]
	str	q0, [sp, #1488]
	str	q0, [sp, #1504]
	str	q0, [sp, #1520]
	str	q0, [sp, #1536]
	str	q0, [sp, #1552]
	str	q0, [sp, #1568]
	str	q0, [sp, #1584]
	str	q0, [sp, #1600]
	str	q0, [sp, #1616]
	str	q0, [sp, #1632]
	str	xzr, [sp, #1648]
	stp	q0, q0, [sp, #624]
	bl	"des_tool::command::digits::parse_cipher_key::<#cefa6fc48b8e262a>"
	ldrb	w8, [sp, #1264]
	cbz	w8, .LBB17_360
.LBB17_359:
	ldrb	w24, [sp, #1265]
	mov	x22, xzr
	mov	x21, xzr
	mov	w26, #1
	b	.LBB17_108
.LBB17_360:
	add	x0, sp, #1664
	orr	x1, x19, #0x8
	mov	w2, #384
	add	x24, sp, #1664
	bl	memcpy
	add	x0, sp, #624
	mov	x1, x23
	mov	x2, x22
	bl	"des_tool::command::digits::parse_blocks"
	ldrb	w8, [sp, #624]
	cbz	w8, .LBB17_397
.LBB17_361:
	ldrb	w24, [sp, #625]
	mov	x22, xzr
	mov	x21, xzr
	mov	w26, #1
	b	.LBB17_108
.LBB17_362:
	ldr	x11, [sp, #1264]
	eor	x10, x11, x10
	tst	x10, #0xfefefefefefefefe
	b.eq	.LBB17_419
	tbnz	w8, #0, .LBB17_200
	ldr	x8, [sp, #1280]
	mov	x10, xzr
.LBB17_365:
	cmp	x10, #512
	b.eq	.LBB17_417
	ldr	x11, [x9, x10]
	mov	w19, wzr
	add	x10, x10, #8
	adrp	x23, .Lstatic.15
	add	x23, x23, :lo12:.Lstatic.15
	mov	w21, #8
	eor	x11, x11, x8
	tst	x11, #0xfefefefefefefefe
	b.ne	.LBB17_365
	b	.LBB17_420
.LBB17_367:
	mov	x8, xzr
	add	x9, x1, #1
	b	.LBB17_370
.LBB17_368:
	sub	w12, w11, #55
.LBB17_369:
	add	w10, w12, w10, lsl #4
	add	x11, sp, #216
	add	x9, x9, #2
	strb	w10, [x11, x8]
	add	x8, x8, #1
	cmp	x8, #24
	b.eq	.LBB17_383
.LBB17_370:
	ldurb	w12, [x9, #-1]
	subs	w10, w12, #48
	b.lo	.LBB17_620
	ldrb	w11, [x9]
	cmp	w12, #57
	b.ls	.LBB17_377
	cmp	w12, #65
	b.lo	.LBB17_620
	cmp	w12, #70
	b.hi	.LBB17_375
	sub	w10, w12, #55
	b	.LBB17_377
.LBB17_375:
	sub	w10, w12, #97
	cmp	w10, #5
	b.hi	.LBB17_620
	sub	w10, w12, #87
.LBB17_377:
	subs	w12, w11, #48
	b.lo	.LBB17_620
	cmp	w11, #57
	b.ls	.LBB17_369
	cmp	w11, #65
	b.lo	.LBB17_620
	cmp	w11, #70
	b.ls	.LBB17_368
	sub	w12, w11, #97
	cmp	w12, #5
	b.hi	.LBB17_620
	sub	w12, w11, #87
	b	.LBB17_369
.LBB17_383:
	movi	v0.2d, #0000000000000000
	ldp	x1, x24, [sp, #216]
	ldr	x26, [sp, #232]
	add	x0, sp, #624
	stp	q0, q0, [sp, #624]
	stp	q0, q0, [sp, #656]
	stp	q0, q0, [sp, #688]
	stp	q0, q0, [sp, #720]
	bl	"des::des::DesKeyInit::new"
	movi	v0.2d, #0000000000000000
	add	x0, sp, #1664
	mov	x1, x24
	str	q0, [sp, #1776]
	str	q0, [sp, #1760]
	str	q0, [sp, #1744]
	str	q0, [sp, #1728]
	str	q0, [sp, #1712]
	str	q0, [sp, #1696]
	str	q0, [sp, #1680]
	str	q0, [sp, #1664]
	bl	"des::des::DesKeyInit::new"
	movi	v0.2d, #0000000000000000
	add	x0, sp, #1264
	mov	x1, x26
	add	x19, sp, #1264
	str	q0, [sp, #1376]
	str	q0, [sp, #1360]
	str	q0, [sp, #1344]
	str	q0, [sp, #1328]
	str	q0, [sp, #1312]
	str	q0, [sp, #1296]
	str	q0, [sp, #1280]
	str	q0, [sp, #1264]
	bl	"des::des::DesKeyInit::new"
	add	x8, sp, #624
	add	x10, sp, #240
	ldr	q3, [sp, #1328]
	ldur	q0, [x8, #65]
	ldur	q1, [x8, #81]
	ldur	q2, [x8, #97]
	ldr	q4, [sp, #1344]
	ldrb	w9, [sp, #624]
	orr	x0, x19, #0x1
	stp	q0, q1, [sp, #304]
	ldr	q0, [sp, #736]
	add	x1, sp, #240
	str	q2, [sp, #336]
	ldur	q1, [x8, #1]
	mov	w2, #383
	stur	q0, [x10, #111]
	ldur	q0, [x8, #17]
	ldur	q2, [x8, #33]
	stp	q1, q0, [sp, #240]
	ldur	q0, [x8, #49]
	ldr	q1, [sp, #1728]
	add	x8, sp, #240
	stp	q2, q0, [sp, #272]
	ldr	q0, [sp, #1744]
	ldr	q2, [sp, #1312]
	stur	q1, [x10, #191]
	ldr	q1, [sp, #1760]
	add	x8, x8, #255
	stur	q0, [x10, #207]
	ldr	q0, [sp, #1776]
	stur	q1, [x10, #223]
	ldr	q1, [sp, #1664]
	stur	q0, [x10, #239]
	ldr	q0, [sp, #1680]
	stur	q1, [x10, #127]
	ldr	q1, [sp, #1696]
	stur	q0, [x10, #143]
	ldr	q0, [sp, #1712]
	stur	q1, [x10, #159]
	ldr	q1, [sp, #1296]
	stur	q0, [x10, #175]
	ldr	q0, [sp, #1280]
	stp	q1, q2, [x8, #32]
	ldr	q1, [sp, #1376]
	ldr	q2, [sp, #1360]
	str	q0, [x8, #16]
	ldr	q0, [sp, #1264]
	stp	q3, q4, [x8, #64]
	stp	q2, q1, [x8, #96]
	stur	q0, [x10, #255]
	strb	w9, [sp, #1264]
	bl	memcpy
	add	x0, sp, #176
	mov	x1, x23
	mov	x2, x22
	bl	"des_tool::command::digits::parse_blocks"
	ldrb	w8, [sp, #176]
	cbz	w8, .LBB17_403
	ldrb	w24, [sp, #177]
	mov	x22, xzr
	mov	x21, xzr
	mov	w26, #1
	b	.LBB17_108
.LBB17_385:
	cbz	x23, .LBB17_387
	mov	x0, x21
	bl	rattle_dealloc
.LBB17_387:
	ldr	x20, [sp, #1672]
	ldr	x19, [sp, #1664]
	ldr	x21, [sp, #1680]
	cbz	x20, .LBB17_392
	add	x22, x19, #16
	b	.LBB17_390
.LBB17_389:
	subs	x20, x20, #1
	add	x22, x22, #24
	b.eq	.LBB17_392
.LBB17_390:
	ldr	x8, [x22]
	cbz	x8, .LBB17_389
	ldur	x0, [x22, #-16]
	bl	rattle_dealloc
	b	.LBB17_389
.LBB17_392:
	cbnz	x21, .LBB17_148
	b	.LBB17_149
.LBB17_393:
	ldr	x23, [sp, #1672]
	ldr	x22, [sp, #1680]
	ldr	x8, [sp, #1688]
	str	x8, [sp, #56]
	cbz	w21, .LBB17_407
	cbz	x22, .LBB17_427
	mov	x21, x23
	mov	x24, x22
.LBB17_396:
	orr	x0, x19, #0x8
	mov	x1, x21
	bl	"des::des::DesBlockCipherEncrypt::encrypt_block"
	subs	x24, x24, #1
	add	x21, x21, #8
	b.ne	.LBB17_396
	b	.LBB17_410
.LBB17_397:
	ldr	x23, [sp, #632]
	ldr	x22, [sp, #640]
	ldr	x8, [sp, #648]
	str	x8, [sp, #56]
	cbz	w21, .LBB17_412
	cbz	x22, .LBB17_436
	mov	x21, x23
	mov	x25, x22
.LBB17_400:
	orr	x0, x19, #0x8
	mov	x1, x21
	bl	"des::des::DesBlockCipherEncrypt::encrypt_block"
	add	x0, x24, #128
	mov	x1, x21
	bl	"des::des::DesBlockCipherDecrypt::decrypt_block"
	add	x0, x24, #256
	mov	x1, x21
	bl	"des::des::DesBlockCipherEncrypt::encrypt_block"
	subs	x25, x25, #1
	add	x21, x21, #8
	b.ne	.LBB17_400
	b	.LBB17_415
.LBB17_401:
	add	x0, sp, #1008
	mov	x1, x19
	mov	x2, x23
	bl	"des_tool::command::digits::parse_blocks"
	ldrb	w8, [sp, #1008]
	cbz	w8, .LBB17_448
	ldrb	w24, [sp, #1009]
	mov	x22, xzr
	mov	x21, xzr
	mov	w26, #1
	b	.LBB17_108
.LBB17_403:
	ldp	x23, x22, [sp, #184]
	ldr	x8, [sp, #200]
	str	x8, [sp, #56]
	cbz	w21, .LBB17_452
	cbz	x22, .LBB17_474
	mov	x21, x23
	mov	x24, x22
.LBB17_406:
	add	x0, sp, #1264
	mov	x1, x21
	bl	"des::des::DesBlockCipherEncrypt::encrypt_block"
	add	x0, x19, #128
	mov	x1, x21
	bl	"des::des::DesBlockCipherEncrypt::encrypt_block"
	add	x0, x19, #256
	mov	x1, x21
	bl	"des::des::DesBlockCipherEncrypt::encrypt_block"
	subs	x24, x24, #1
	add	x21, x21, #8
	b.ne	.LBB17_406
	b	.LBB17_455
.LBB17_407:
	cbz	x22, .LBB17_427
	mov	x21, x23
	mov	x24, x22
.LBB17_409:
	orr	x0, x19, #0x8
	mov	x1, x21
	bl	"des::des::DesBlockCipherDecrypt::decrypt_block"
	subs	x24, x24, #1
	add	x21, x21, #8
	b.ne	.LBB17_409
.LBB17_410:
	lsl	x25, x22, #4
	mov	w21, #1
	tbnz	x25, #63, .LBB17_600
	lsl	x19, x22, #3
	bfi	x21, x22, #4, #60
	b	.LBB17_428
.LBB17_412:
	cbz	x22, .LBB17_436
	mov	x21, x23
	mov	x25, x22
.LBB17_414:
	add	x0, x24, #256
	mov	x1, x21
	bl	"des::des::DesBlockCipherDecrypt::decrypt_block"
	add	x0, x24, #128
	mov	x1, x21
	bl	"des::des::DesBlockCipherEncrypt::encrypt_block"
	orr	x0, x19, #0x8
	mov	x1, x21
	bl	"des::des::DesBlockCipherDecrypt::decrypt_block"
	subs	x25, x25, #1
	add	x21, x21, #8
	b.ne	.LBB17_414
.LBB17_415:
	lsl	x25, x22, #4
	mov	w21, #1
	tbnz	x25, #63, .LBB17_600
	lsl	x19, x22, #3
	bfi	x21, x22, #4, #60
	b	.LBB17_437
.LBB17_417:
	ldr	x9, [sp, #1264]
	eor	x9, x9, x8
	tst	x9, #0xfefefefefefefefe
	b.eq	.LBB17_419
	ldr	x9, [sp, #1272]
	eor	x8, x9, x8
	tst	x8, #0xfefefefefefefefe
	b.ne	.LBB17_200
.LBB17_419:
	mov	w19, wzr
	adrp	x23, .Lstatic.15
	add	x23, x23, :lo12:.Lstatic.15
	mov	w21, #8
.LBB17_420:
	mov	x0, x21
	mov	w1, #1
	mov	w26, #1
	bl	rattle_alloc
	tbz	w0, #0, .LBB17_424
	sub	x8, x1, x23
	mov	x22, x1
	cmp	x8, x21
	b.hs	.LBB17_425
	ldrh	w8, [x23]
	strh	w8, [x22]
	ldrb	w8, [x23, #2]
	strb	w8, [x22, #2]
	tbnz	w19, #0, .LBB17_426
	ldur	w8, [x23, #3]
	mov	w26, wzr
	mov	w24, wzr
	stur	w8, [x22, #3]
	ldrb	w8, [x23, #7]
	strb	w8, [x22, #7]
	b	.LBB17_108
.LBB17_424:
	mov	x22, xzr
	mov	x21, xzr
	mov	w24, #5
	b	.LBB17_108
.LBB17_425:
	mov	x0, x22
	mov	x1, x23
	mov	x2, x21
	bl	memcpy
.LBB17_426:
	mov	w26, wzr
	mov	w24, wzr
	b	.LBB17_108
.LBB17_427:
	mov	x25, xzr
	mov	x19, xzr
	mov	w21, #1
.LBB17_428:
	mov	x0, x21
	mov	w1, #1
	mov	w26, #1
	bl	rattle_alloc
	tbz	w0, #0, .LBB17_435
	mov	x22, x1
	cbz	x25, .LBB17_431
	mov	x0, x22
	mov	w1, wzr
	mov	x2, x25
	bl	memset
.LBB17_431:
	cmp	x19, x25, lsr #1
	b.ne	.LBB17_620
	cbz	x19, .LBB17_482
	add	x8, x22, #1
	mov	x9, x23
.LBB17_434:
	ldrb	w10, [x9], #1
	adrp	x12, .Lstatic.13
	add	x12, x12, :lo12:.Lstatic.13
	subs	x19, x19, #1
	lsr	x11, x10, #4
	and	x10, x10, #0xf
	ldrb	w11, [x12, x11]
	sturb	w11, [x8, #-1]
	ldrb	w10, [x12, x10]
	strb	w10, [x8], #2
	b.ne	.LBB17_434
	b	.LBB17_482
.LBB17_435:
	mov	x21, xzr
	mov	x22, xzr
	mov	w24, #5
	b	.LBB17_618
.LBB17_436:
	mov	x25, xzr
	mov	x19, xzr
	mov	w21, #1
.LBB17_437:
	mov	x0, x21
	mov	w1, #1
	mov	w26, #1
	bl	rattle_alloc
	tbz	w0, #0, .LBB17_617
	mov	x22, x1
	cbz	x25, .LBB17_440
	mov	x0, x22
	mov	w1, wzr
	mov	x2, x25
	bl	memset
.LBB17_440:
	cmp	x19, x25, lsr #1
	b.ne	.LBB17_620
	cbz	x19, .LBB17_482
	add	x8, x22, #1
	mov	x9, x23
.LBB17_443:
	ldrb	w10, [x9], #1
	adrp	x12, .Lstatic.13
	add	x12, x12, :lo12:.Lstatic.13
	subs	x19, x19, #1
	lsr	x11, x10, #4
	and	x10, x10, #0xf
	ldrb	w11, [x12, x11]
	sturb	w11, [x8, #-1]
	ldrb	w10, [x12, x10]
	strb	w10, [x8], #2
	b.ne	.LBB17_443
	b	.LBB17_482
.LBB17_444:
	ldp	x8, x22, [sp, #248]
	stp	x22, x8, [sp, #40]
	ldr	x8, [sp, #264]
	stp	x27, x8, [sp, #8]
	cbz	w21, .LBB17_483
	cbz	x22, .LBB17_537
	ldp	x22, x21, [sp, #40]
	mov	x19, x22
.LBB17_447:
	dup	v0.2d, x24
	adrp	x8, .LCPI17_0
	orr	x0, x26, #0x8
	ldr	q1, [x8, :lo12:.LCPI17_0]
	adrp	x8, .LCPI17_1
	mov	x1, x21
	ldr	q2, [x8, :lo12:.LCPI17_1]
	adrp	x8, .LCPI17_2
	ushl	v6.2d, v0.2d, v1.2d
	ldr	q1, [x8, :lo12:.LCPI17_2]
	adrp	x8, .LCPI17_3
	ushl	v5.2d, v0.2d, v2.2d
	ldr	q2, [x8, :lo12:.LCPI17_3]
	adrp	x8, .LCPI17_4
	ushl	v4.2d, v0.2d, v1.2d
	ldr	d1, [x21]
	ushl	v3.2d, v0.2d, v2.2d
	ldr	q0, [x8, :lo12:.LCPI17_4]
	tbl	v0.16b, { v3.16b, v4.16b, v5.16b, v6.16b }, v0.16b
	eor	v0.8b, v1.8b, v0.8b
	str	d0, [x21]
	bl	"des::des::DesBlockCipherEncrypt::encrypt_block"
	ldr	x24, [x21], #8
	subs	x19, x19, #1
	b.ne	.LBB17_447
	b	.LBB17_496
.LBB17_448:
	ldr	x8, [sp, #1016]
	ldr	x23, [sp, #1024]
	stp	x23, x8, [sp, #32]
	ldr	x8, [sp, #1032]
	stp	x8, x27, [sp]
	cbz	w21, .LBB17_504
	cbz	x23, .LBB17_543
	ldp	x23, x21, [sp, #32]
	add	x19, sp, #1664
	mov	x22, x23
.LBB17_451:
	dup	v0.2d, x24
	adrp	x8, .LCPI17_0
	orr	x0, x25, #0x8
	ldr	q1, [x8, :lo12:.LCPI17_0]
	adrp	x8, .LCPI17_1
	mov	x1, x21
	ldr	q2, [x8, :lo12:.LCPI17_1]
	adrp	x8, .LCPI17_2
	ushl	v6.2d, v0.2d, v1.2d
	ldr	q1, [x8, :lo12:.LCPI17_2]
	adrp	x8, .LCPI17_3
	ushl	v5.2d, v0.2d, v2.2d
	ldr	q2, [x8, :lo12:.LCPI17_3]
	adrp	x8, .LCPI17_4
	ushl	v4.2d, v0.2d, v1.2d
	ldr	d1, [x21]
	ushl	v3.2d, v0.2d, v2.2d
	ldr	q0, [x8, :lo12:.LCPI17_4]
	tbl	v0.16b, { v3.16b, v4.16b, v5.16b, v6.16b }, v0.16b
	eor	v0.8b, v1.8b, v0.8b
	str	d0, [x21]
	bl	"des::des::DesBlockCipherEncrypt::encrypt_block"
	add	x0, x19, #128
	mov	x1, x21
	bl	"des::des::DesBlockCipherDecrypt::decrypt_block"
	add	x0, x19, #256
	mov	x1, x21
	bl	"des::des::DesBlockCipherEncrypt::encrypt_block"
	ldr	x24, [x21], #8
	subs	x22, x22, #1
	b.ne	.LBB17_451
	b	.LBB17_517
.LBB17_452:
	cbz	x22, .LBB17_474
	mov	x21, x23
	mov	x24, x22
.LBB17_454:
	add	x0, x19, #256
	mov	x1, x21
	bl	"des::des::DesBlockCipherDecrypt::decrypt_block"
	add	x0, x19, #128
	mov	x1, x21
	bl	"des::des::DesBlockCipherDecrypt::decrypt_block"
	add	x0, sp, #1264
	mov	x1, x21
	bl	"des::des::DesBlockCipherDecrypt::decrypt_block"
	subs	x24, x24, #1
	add	x21, x21, #8
	b.ne	.LBB17_454
.LBB17_455:
	lsl	x25, x22, #4
	mov	w21, #1
	tbnz	x25, #63, .LBB17_600
	lsl	x19, x22, #3
	bfi	x21, x22, #4, #60
	b	.LBB17_475
.LBB17_457:
	cbz	x24, .LBB17_459
	mov	x0, x22
	bl	rattle_dealloc
.LBB17_459:
	cbz	x25, .LBB17_465
	add	x8, x25, x27
	cmp	x27, x8
	b.hs	.LBB17_465
	mov	w8, #24
	madd	x8, x27, x8, x20
	add	x19, x8, #16
	b	.LBB17_463
.LBB17_462:
	subs	x25, x25, #1
	add	x19, x19, #24
	b.eq	.LBB17_465
.LBB17_463:
	ldr	x8, [x19]
	cbz	x8, .LBB17_462
	ldur	x0, [x19, #-16]
	bl	rattle_dealloc
	b	.LBB17_462
.LBB17_465:
	cbz	x23, .LBB17_467
	mov	x0, x20
	bl	rattle_dealloc
.LBB17_467:
	ldr	x20, [sp, #1272]
	ldr	x19, [sp, #1264]
	ldr	x21, [sp, #1280]
	cbz	x20, .LBB17_472
	add	x22, x19, #16
	b	.LBB17_470
.LBB17_469:
	subs	x20, x20, #1
	add	x22, x22, #24
	b.eq	.LBB17_472
.LBB17_470:
	ldr	x8, [x22]
	cbz	x8, .LBB17_469
	ldur	x0, [x22, #-16]
	bl	rattle_dealloc
	b	.LBB17_469
.LBB17_472:
	cbz	x21, .LBB17_536
	mov	x0, x19
	b	.LBB17_535
.LBB17_474:
	mov	x25, xzr
	mov	x19, xzr
	mov	w21, #1
.LBB17_475:
	mov	x0, x21
	mov	w1, #1
	mov	w26, #1
	bl	rattle_alloc
	tbz	w0, #0, .LBB17_617
	mov	x22, x1
	cbz	x25, .LBB17_478
	mov	x0, x22
	mov	w1, wzr
	mov	x2, x25
	bl	memset
.LBB17_478:
	cmp	x19, x25, lsr #1
	b.ne	.LBB17_620
	cbz	x19, .LBB17_482
	add	x8, x22, #1
	mov	x9, x23
.LBB17_481:
	ldrb	w10, [x9], #1
	adrp	x12, .Lstatic.13
	add	x12, x12, :lo12:.Lstatic.13
	subs	x19, x19, #1
	lsr	x11, x10, #4
	and	x10, x10, #0xf
	ldrb	w11, [x12, x11]
	sturb	w11, [x8, #-1]
	ldrb	w10, [x12, x10]
	strb	w10, [x8], #2
	b.ne	.LBB17_481
.LBB17_482:
	mov	w26, wzr
	mov	w24, wzr
	mov	w8, #10
	strb	w8, [x22, x25]
	b	.LBB17_618
.LBB17_483:
	movi	v0.2d, #0000000000000000
	str	q0, [sp, #1440]
	str	q0, [sp, #1424]
	str	q0, [sp, #1408]
	str	q0, [sp, #1392]
	str	q0, [sp, #1376]
	str	q0, [sp, #1360]
	str	q0, [sp, #1344]
	str	q0, [sp, #1328]
	str	q0, [sp, #1312]
	str	q0, [sp, #1296]
	str	q0, [sp, #1280]
	str	q0, [sp, #1264]
	cbz	x22, .LBB17_496
	add	x8, sp, #1264
	mov	x19, xzr
	add	x8, x8, #16
	str	x8, [sp, #32]
	ldr	x8, [sp, #48]
	add	x8, x8, #16
	str	x8, [sp, #24]
	b	.LBB17_486
.LBB17_485:
	ldr	x22, [sp, #40]
	add	x19, x23, x19
	cmp	x19, x22
	b.hs	.LBB17_496
.LBB17_486:
	sub	x9, x22, x19
	mov	w8, #24
	lsl	x22, x19, #3
	cmp	x9, #24
	str	x9, [sp, #56]
	mov	x25, x24
	csel	x23, x9, x8, lo
	ldr	x9, [sp, #48]
	add	x0, sp, #1264
	lsl	x2, x23, #3
	add	x21, sp, #1264
	add	x8, x9, x22
	add	x1, x9, x22
	add	x8, x8, x2
	ldur	x24, [x8, #-8]
	bl	memcpy
	mov	x27, x23
.LBB17_487:
	orr	x0, x26, #0x8
	mov	x1, x21
	bl	"des::des::DesBlockCipherDecrypt::decrypt_block"
	subs	x27, x27, #1
	add	x21, x21, #8
	b.ne	.LBB17_487
	ldr	x8, [sp, #56]
	cmp	x8, #4
	b.hs	.LBB17_490
	mov	x8, xzr
	b	.LBB17_494
.LBB17_490:
	ldp	x9, x10, [sp, #24]
	dup	v0.2d, x25
	and	x8, x23, #0x1c
	and	x11, x23, #0x1c
	add	x9, x9, x22
.LBB17_491:
	mov	v2.16b, v0.16b
	ldp	q1, q0, [x9, #-16]
	ldp	q3, q4, [x10, #-16]
	subs	x11, x11, #4
	add	x10, x10, #32
	ext	v2.16b, v2.16b, v1.16b, #8
	ext	v1.16b, v1.16b, v0.16b, #8
	eor	v2.16b, v3.16b, v2.16b
	eor	v1.16b, v4.16b, v1.16b
	stp	q2, q1, [x9, #-16]
	add	x9, x9, #32
	b.ne	.LBB17_491
	cmp	x23, x8
	b.eq	.LBB17_485
	mov	x25, v0.d[1]
.LBB17_494:
	ldr	x11, [sp, #48]
	lsl	x10, x8, #3
	add	x9, sp, #1264
	sub	x8, x23, x8
	add	x11, x11, x22
	add	x9, x9, x10
	add	x10, x11, x10
.LBB17_495:
	ldr	x11, [x9], #8
	subs	x8, x8, #1
	eor	x11, x11, x25
	ldr	x25, [x10]
	str	x11, [x10], #8
	b.ne	.LBB17_495
	b	.LBB17_485
.LBB17_496:
	lsl	x23, x22, #4
	mov	w21, #1
	tbnz	x23, #63, .LBB17_525
	bfi	x21, x22, #4, #60
	mov	w1, #1
	mov	w26, #1
	mov	x0, x21
	bl	rattle_alloc
	tbz	w0, #0, .LBB17_540
	ldr	x8, [sp, #40]
	mov	x22, x1
	lsl	x19, x8, #3
	cbz	x23, .LBB17_500
	mov	x0, x22
	mov	w1, wzr
	mov	x2, x23
	bl	memset
.LBB17_500:
	cmp	x19, x23, lsr #1
	b.ne	.LBB17_620
	cbz	x19, .LBB17_539
	ldr	x9, [sp, #48]
	add	x8, x22, #1
.LBB17_503:
	ldrb	w10, [x9], #1
	adrp	x12, .Lstatic.13
	add	x12, x12, :lo12:.Lstatic.13
	subs	x19, x19, #1
	lsr	x11, x10, #4
	and	x10, x10, #0xf
	ldrb	w11, [x12, x11]
	sturb	w11, [x8, #-1]
	ldrb	w10, [x12, x10]
	strb	w10, [x8], #2
	b.ne	.LBB17_503
	b	.LBB17_539
.LBB17_504:
	movi	v0.2d, #0000000000000000
	str	x24, [sp, #56]
	stp	q0, q0, [sp, #240]
	stp	q0, q0, [sp, #272]
	stp	q0, q0, [sp, #304]
	stp	q0, q0, [sp, #336]
	stp	q0, q0, [sp, #368]
	stp	q0, q0, [sp, #400]
	cbz	x23, .LBB17_517
	add	x8, sp, #240
	mov	x19, xzr
	add	x22, sp, #1664
	add	x8, x8, #16
	str	x8, [sp, #24]
	ldr	x8, [sp, #40]
	add	x8, x8, #16
	str	x8, [sp, #16]
	b	.LBB17_507
.LBB17_506:
	ldr	x23, [sp, #32]
	add	x19, x26, x19
	cmp	x19, x23
	b.hs	.LBB17_517
.LBB17_507:
	sub	x9, x23, x19
	mov	w8, #24
	lsl	x23, x19, #3
	cmp	x9, #24
	str	x9, [sp, #48]
	ldr	x24, [sp, #56]
	csel	x26, x9, x8, lo
	ldr	x9, [sp, #40]
	add	x0, sp, #240
	lsl	x2, x26, #3
	add	x21, sp, #240
	add	x8, x9, x23
	add	x1, x9, x23
	add	x8, x8, x2
	ldur	x8, [x8, #-8]
	str	x8, [sp, #56]
	bl	memcpy
	mov	x27, x26
.LBB17_508:
	add	x0, x22, #256
	mov	x1, x21
	bl	"des::des::DesBlockCipherDecrypt::decrypt_block"
	add	x0, x22, #128
	mov	x1, x21
	bl	"des::des::DesBlockCipherEncrypt::encrypt_block"
	orr	x0, x25, #0x8
	mov	x1, x21
	bl	"des::des::DesBlockCipherDecrypt::decrypt_block"
	subs	x27, x27, #1
	add	x21, x21, #8
	b.ne	.LBB17_508
	ldr	x8, [sp, #48]
	cmp	x8, #4
	b.hs	.LBB17_511
	mov	x8, xzr
	b	.LBB17_515
.LBB17_511:
	ldp	x9, x10, [sp, #16]
	dup	v0.2d, x24
	and	x8, x26, #0x1c
	and	x11, x26, #0x1c
	add	x9, x9, x23
.LBB17_512:
	mov	v2.16b, v0.16b
	ldp	q1, q0, [x9, #-16]
	ldp	q3, q4, [x10, #-16]
	subs	x11, x11, #4
	add	x10, x10, #32
	ext	v2.16b, v2.16b, v1.16b, #8
	ext	v1.16b, v1.16b, v0.16b, #8
	eor	v2.16b, v3.16b, v2.16b
	eor	v1.16b, v4.16b, v1.16b
	stp	q2, q1, [x9, #-16]
	add	x9, x9, #32
	b.ne	.LBB17_512
	cmp	x26, x8
	b.eq	.LBB17_506
	mov	x24, v0.d[1]
.LBB17_515:
	ldr	x11, [sp, #40]
	lsl	x10, x8, #3
	add	x9, sp, #240
	sub	x8, x26, x8
	add	x11, x11, x23
	add	x9, x9, x10
	add	x10, x11, x10
.LBB17_516:
	ldr	x11, [x9], #8
	subs	x8, x8, #1
	eor	x11, x11, x24
	ldr	x24, [x10]
	str	x11, [x10], #8
	b.ne	.LBB17_516
	b	.LBB17_506
.LBB17_517:
	lsl	x19, x23, #4
	mov	w21, #1
	tbnz	x19, #63, .LBB17_526
	bfi	x21, x23, #4, #60
	mov	w1, #1
	mov	w26, #1
	mov	x0, x21
	bl	rattle_alloc
	tbz	w0, #0, .LBB17_546
	ldr	x8, [sp, #32]
	mov	x22, x1
	lsl	x23, x8, #3
	cbz	x19, .LBB17_521
	mov	x0, x22
	mov	w1, wzr
	mov	x2, x19
	bl	memset
.LBB17_521:
	cmp	x23, x19, lsr #1
	b.ne	.LBB17_620
	cbz	x23, .LBB17_545
	ldr	x9, [sp, #40]
	add	x8, x22, #1
.LBB17_524:
	ldrb	w10, [x9], #1
	adrp	x12, .Lstatic.13
	add	x12, x12, :lo12:.Lstatic.13
	subs	x23, x23, #1
	lsr	x11, x10, #4
	and	x10, x10, #0xf
	ldrb	w11, [x12, x11]
	sturb	w11, [x8, #-1]
	ldrb	w10, [x12, x10]
	strb	w10, [x8], #2
	b.ne	.LBB17_524
	b	.LBB17_545
.LBB17_525:
	mov	x21, xzr
	mov	x22, xzr
	mov	w24, #5
	mov	w26, #1
	b	.LBB17_541
.LBB17_526:
	mov	x21, xzr
	mov	x22, xzr
	mov	w24, #5
	mov	w26, #1
	b	.LBB17_547
.LBB17_527:
	ldr	x8, [sp, #1280]
	cbz	x8, .LBB17_529
	ldr	x0, [sp, #1264]
	bl	rattle_dealloc
.LBB17_529:
	ldr	x8, [sp, #72]
	add	x19, x8, #16
	b	.LBB17_531
.LBB17_530:
	subs	x28, x28, #1
	add	x19, x19, #24
	b.eq	.LBB17_533
.LBB17_531:
	ldr	x8, [x19]
	cbz	x8, .LBB17_530
	ldur	x0, [x19, #-16]
	bl	rattle_dealloc
	b	.LBB17_530
.LBB17_533:
	ldr	x8, [sp, #64]
	cbz	x8, .LBB17_536
	ldr	x0, [sp, #72]
.LBB17_535:
	bl	rattle_dealloc
.LBB17_536:
	mov	w8, #5
	b	.LBB17_151
.LBB17_537:
	mov	w0, #1
	mov	w1, #1
	mov	w26, #1
	bl	rattle_alloc
	tbz	w0, #0, .LBB17_540
	mov	x22, x1
	mov	x23, xzr
	mov	w21, #1
.LBB17_539:
	mov	w26, wzr
	mov	w24, wzr
	mov	w8, #10
	strb	w8, [x22, x23]
	b	.LBB17_541
.LBB17_540:
	mov	x21, xzr
	mov	x22, xzr
	mov	w24, #5
.LBB17_541:
	ldp	x27, x8, [sp, #8]
	cbz	x8, .LBB17_108
	ldr	x0, [sp, #48]
	bl	rattle_dealloc
	b	.LBB17_108
.LBB17_543:
	mov	w0, #1
	mov	w1, #1
	mov	w26, #1
	bl	rattle_alloc
	tbz	w0, #0, .LBB17_546
	mov	x22, x1
	mov	x19, xzr
	mov	w21, #1
.LBB17_545:
	mov	w26, wzr
	mov	w24, wzr
	mov	w8, #10
	strb	w8, [x22, x19]
	b	.LBB17_547
.LBB17_546:
	mov	x21, xzr
	mov	x22, xzr
	mov	w24, #5
.LBB17_547:
	ldp	x8, x27, [sp]
	cbz	x8, .LBB17_108
	ldr	x0, [sp, #40]
	bl	rattle_dealloc
	b	.LBB17_108
.LBB17_549:
	sub	w12, w11, #55
.LBB17_550:
	add	w10, w12, w10, lsl #4
	add	x11, sp, #176
	add	x9, x9, #2
	strb	w10, [x11, x8]
	add	x8, x8, #1
	cmp	x8, #16
	b.eq	.LBB17_580
.LBB17_551:
	ldurb	w12, [x9, #-1]
	subs	w10, w12, #48
	b.lo	.LBB17_620
	ldrb	w11, [x9]
	cmp	w12, #57
	b.ls	.LBB17_558
	cmp	w12, #65
	b.lo	.LBB17_620
	cmp	w12, #70
	b.hi	.LBB17_556
	sub	w10, w12, #55
	b	.LBB17_558
.LBB17_556:
	sub	w10, w12, #97
	cmp	w10, #5
	b.hi	.LBB17_620
	sub	w10, w12, #87
.LBB17_558:
	subs	w12, w11, #48
	b.lo	.LBB17_620
	cmp	w11, #57
	b.ls	.LBB17_550
	cmp	w11, #65
	b.lo	.LBB17_620
	cmp	w11, #70
	b.ls	.LBB17_549
	sub	w12, w11, #97
	cmp	w12, #5
	b.hi	.LBB17_620
	sub	w12, w11, #87
	b	.LBB17_550
.LBB17_564:
	mov	x8, xzr
	add	x9, x1, #1
	b	.LBB17_567
.LBB17_565:
	sub	w12, w11, #55
.LBB17_566:
	add	w10, w12, w10, lsl #4
	add	x11, sp, #176
	add	x9, x9, #2
	strb	w10, [x11, x8]
	add	x8, x8, #1
	cmp	x8, #16
	b.eq	.LBB17_585
.LBB17_567:
	ldurb	w12, [x9, #-1]
	subs	w10, w12, #48
	b.lo	.LBB17_620
	ldrb	w11, [x9]
	cmp	w12, #57
	b.ls	.LBB17_574
	cmp	w12, #65
	b.lo	.LBB17_620
	cmp	w12, #70
	b.hi	.LBB17_572
	sub	w10, w12, #55
	b	.LBB17_574
.LBB17_572:
	sub	w10, w12, #97
	cmp	w10, #5
	b.hi	.LBB17_620
	sub	w10, w12, #87
.LBB17_574:
	subs	w12, w11, #48
	b.lo	.LBB17_620
	cmp	w11, #57
	b.ls	.LBB17_566
	cmp	w11, #65
	b.lo	.LBB17_620
	cmp	w11, #70
	b.ls	.LBB17_565
	sub	w12, w11, #97
	cmp	w12, #5
	b.hi	.LBB17_620
	sub	w12, w11, #87
	b	.LBB17_566
.LBB17_580:
	movi	v0.2d, #0000000000000000
	ldp	x1, x24, [sp, #176]
	add	x0, sp, #1664
	str	q0, [sp, #1776]
	str	q0, [sp, #1760]
	str	q0, [sp, #1744]
	str	q0, [sp, #1728]
	str	q0, [sp, #1712]
	str	q0, [sp, #1696]
	str	q0, [sp, #1680]
	str	q0, [sp, #1664]
	bl	"des::des::DesKeyInit::new"
	movi	v0.2d, #0000000000000000
	add	x0, sp, #1264
	mov	x1, x24
	add	x24, sp, #1264
	str	q0, [sp, #1376]
	str	q0, [sp, #1360]
	str	q0, [sp, #1344]
	str	q0, [sp, #1328]
	str	q0, [sp, #1312]
	str	q0, [sp, #1296]
	str	q0, [sp, #1280]
	str	q0, [sp, #1264]
	bl	"des::des::DesKeyInit::new"
	add	x8, sp, #1664
	add	x9, sp, #624
	add	x0, sp, #624
	ldur	q0, [x8, #65]
	ldur	q1, [x8, #81]
	ldur	q2, [x8, #97]
	mov	x1, x23
	mov	x2, x22
	stp	q0, q1, [sp, #816]
	ldr	q0, [sp, #1776]
	ldur	q1, [x8, #1]
	str	q2, [sp, #848]
	ldur	q2, [x8, #33]
	stur	q0, [x9, #239]
	ldur	q0, [x8, #17]
	add	x9, sp, #752
	stp	q1, q0, [sp, #752]
	ldur	q0, [x8, #49]
	ldr	q1, [sp, #1328]
	ldrb	w8, [sp, #1664]
	stp	q2, q0, [sp, #784]
	ldr	q0, [sp, #1344]
	ldr	q2, [sp, #1376]
	stur	q1, [x9, #191]
	ldr	q1, [sp, #1360]
	stur	q0, [x9, #207]
	ldr	q0, [sp, #1264]
	stur	q1, [x9, #223]
	ldr	q1, [sp, #1280]
	stur	q0, [x9, #127]
	ldr	q0, [sp, #1296]
	stur	q1, [x9, #143]
	ldr	q1, [sp, #1312]
	stur	q0, [x9, #159]
	stur	q1, [x9, #175]
	ldp	q1, q0, [sp, #912]
	stur	q2, [x9, #239]
	strb	w8, [sp, #1264]
	stur	q0, [x26, #177]
	ldp	q2, q0, [sp, #880]
	stur	q1, [x26, #161]
	stur	q0, [x26, #145]
	ldp	q1, q0, [sp, #784]
	stur	q2, [x26, #129]
	stur	q0, [x26, #49]
	ldp	q2, q0, [sp, #752]
	stur	q1, [x26, #33]
	stur	q0, [x26, #17]
	ldp	q1, q0, [sp, #848]
	stur	q2, [x26, #1]
	stur	q0, [x26, #113]
	ldp	q2, q0, [sp, #816]
	stur	q1, [x26, #97]
	stur	q0, [x26, #81]
	ldur	q0, [x9, #239]
	stur	q2, [x26, #65]
	ldr	q2, [sp, #944]
	str	q0, [sp, #1504]
	ldp	q0, q1, [sp, #960]
	stur	q2, [x26, #193]
	stur	q1, [x26, #225]
	stur	q0, [x26, #209]
	bl	"des_tool::command::digits::parse_blocks"
	ldrb	w8, [sp, #624]
	cbnz	w8, .LBB17_361
	ldr	x23, [sp, #632]
	ldr	x22, [sp, #640]
	ldr	x8, [sp, #648]
	str	x8, [sp, #56]
	cbz	w21, .LBB17_590
	cbz	x22, .LBB17_601
	mov	x21, x23
	mov	x19, x22
.LBB17_584:
	add	x0, sp, #1264
	mov	x1, x21
	bl	"des::des::DesBlockCipherEncrypt::encrypt_block"
	add	x0, x24, #128
	mov	x1, x21
	bl	"des::des::DesBlockCipherDecrypt::decrypt_block"
	add	x0, sp, #1264
	mov	x1, x21
	bl	"des::des::DesBlockCipherEncrypt::encrypt_block"
	subs	x19, x19, #1
	add	x21, x21, #8
	b.ne	.LBB17_584
	b	.LBB17_593
.LBB17_585:
	movi	v0.2d, #0000000000000000
	ldp	x1, x24, [sp, #176]
	add	x0, sp, #1664
	str	q0, [sp, #1776]
	str	q0, [sp, #1760]
	str	q0, [sp, #1744]
	str	q0, [sp, #1728]
	str	q0, [sp, #1712]
	str	q0, [sp, #1696]
	str	q0, [sp, #1680]
	str	q0, [sp, #1664]
	bl	"des::des::DesKeyInit::new"
	movi	v0.2d, #0000000000000000
	add	x0, sp, #1264
	mov	x1, x24
	add	x24, sp, #1264
	str	q0, [sp, #1376]
	str	q0, [sp, #1360]
	str	q0, [sp, #1344]
	str	q0, [sp, #1328]
	str	q0, [sp, #1312]
	str	q0, [sp, #1296]
	str	q0, [sp, #1280]
	str	q0, [sp, #1264]
	bl	"des::des::DesKeyInit::new"
	add	x8, sp, #1664
	add	x9, sp, #1008
	add	x0, sp, #624
	ldur	q0, [x8, #65]
	ldur	q1, [x8, #81]
	ldur	q2, [x8, #97]
	mov	x1, x23
	mov	x2, x22
	str	q0, [sp, #1072]
	ldr	q0, [sp, #1776]
	str	q1, [sp, #1088]
	ldur	q1, [x8, #1]
	str	q2, [sp, #1104]
	ldur	q2, [x8, #33]
	stur	q0, [x9, #111]
	ldur	q0, [x8, #17]
	str	q2, [sp, #1040]
	ldr	q2, [sp, #1376]
	stp	q1, q0, [sp, #1008]
	ldur	q0, [x8, #49]
	ldr	q1, [sp, #1328]
	stur	q2, [x9, #239]
	ldrb	w8, [sp, #1664]
	str	q0, [sp, #1056]
	ldr	q0, [sp, #1344]
	stur	q1, [x9, #191]
	ldr	q1, [sp, #1360]
	stur	q0, [x9, #207]
	ldr	q0, [sp, #1264]
	stur	q1, [x9, #223]
	ldr	q1, [sp, #1280]
	stur	q0, [x9, #127]
	ldr	q0, [sp, #1296]
	stur	q1, [x9, #143]
	ldr	q1, [sp, #1312]
	stur	q0, [x9, #159]
	ldr	q2, [sp, #1136]
	stur	q1, [x9, #175]
	ldr	q0, [sp, #1184]
	stur	q2, [x26, #129]
	ldr	q1, [sp, #1168]
	strb	w8, [sp, #1264]
	stur	q0, [x26, #177]
	ldr	q0, [sp, #1152]
	stur	q1, [x26, #161]
	ldr	q1, [sp, #1040]
	stur	q0, [x26, #145]
	ldr	q0, [sp, #1056]
	stur	q1, [x26, #33]
	ldr	q1, [sp, #1104]
	stur	q0, [x26, #49]
	ldp	q2, q0, [sp, #1008]
	stur	q1, [x26, #97]
	ldr	q1, [sp, #1232]
	stur	q0, [x26, #17]
	ldr	q0, [sp, #1120]
	stur	q2, [x26, #1]
	ldr	q2, [sp, #1072]
	stur	q0, [x26, #113]
	ldr	q0, [sp, #1088]
	stur	q2, [x26, #65]
	ldr	q2, [sp, #1200]
	stur	q0, [x26, #81]
	ldur	q0, [x9, #239]
	stur	q2, [x26, #193]
	str	q0, [sp, #1504]
	ldr	q0, [sp, #1216]
	stur	q1, [x26, #225]
	stur	q0, [x26, #209]
	bl	"des_tool::command::digits::parse_blocks"
	ldrb	w8, [sp, #624]
	cbnz	w8, .LBB17_361
	ldr	x23, [sp, #632]
	ldr	x22, [sp, #640]
	ldr	x8, [sp, #648]
	str	x8, [sp, #56]
	cbz	w21, .LBB17_595
	cbz	x22, .LBB17_609
	mov	x21, x23
	mov	x19, x22
.LBB17_589:
	add	x0, sp, #1264
	mov	x1, x21
	bl	"des::des::DesBlockCipherEncrypt::encrypt_block"
	add	x0, x24, #128
	mov	x1, x21
	bl	"des::des::DesBlockCipherEncrypt::encrypt_block"
	add	x0, sp, #1264
	mov	x1, x21
	bl	"des::des::DesBlockCipherEncrypt::encrypt_block"
	subs	x19, x19, #1
	add	x21, x21, #8
	b.ne	.LBB17_589
	b	.LBB17_598
.LBB17_590:
	cbz	x22, .LBB17_601
	mov	x21, x23
	mov	x19, x22
.LBB17_592:
	add	x0, sp, #1264
	mov	x1, x21
	bl	"des::des::DesBlockCipherDecrypt::decrypt_block"
	add	x0, x24, #128
	mov	x1, x21
	bl	"des::des::DesBlockCipherEncrypt::encrypt_block"
	add	x0, sp, #1264
	mov	x1, x21
	bl	"des::des::DesBlockCipherDecrypt::decrypt_block"
	subs	x19, x19, #1
	add	x21, x21, #8
	b.ne	.LBB17_592
.LBB17_593:
	lsl	x25, x22, #4
	mov	w21, #1
	tbnz	x25, #63, .LBB17_600
	lsl	x19, x22, #3
	bfi	x21, x22, #4, #60
	b	.LBB17_602
.LBB17_595:
	cbz	x22, .LBB17_609
	mov	x21, x23
	mov	x19, x22
.LBB17_597:
	add	x0, sp, #1264
	mov	x1, x21
	bl	"des::des::DesBlockCipherDecrypt::decrypt_block"
	add	x0, x24, #128
	mov	x1, x21
	bl	"des::des::DesBlockCipherDecrypt::decrypt_block"
	add	x0, sp, #1264
	mov	x1, x21
	bl	"des::des::DesBlockCipherDecrypt::decrypt_block"
	subs	x19, x19, #1
	add	x21, x21, #8
	b.ne	.LBB17_597
.LBB17_598:
	lsl	x25, x22, #4
	mov	w21, #1
	tbnz	x25, #63, .LBB17_600
	lsl	x19, x22, #3
	bfi	x21, x22, #4, #60
	b	.LBB17_610
.LBB17_600:
	mov	x21, xzr
	mov	x22, xzr
	mov	w24, #5
	mov	w26, #1
	b	.LBB17_618
.LBB17_601:
	mov	x25, xzr
	mov	x19, xzr
	mov	w21, #1
.LBB17_602:
	mov	x0, x21
	mov	w1, #1
	mov	w26, #1
	bl	rattle_alloc
	tbz	w0, #0, .LBB17_617
	mov	x22, x1
	cbz	x25, .LBB17_605
	mov	x0, x22
	mov	w1, wzr
	mov	x2, x25
	bl	memset
.LBB17_605:
	cmp	x19, x25, lsr #1
	b.ne	.LBB17_620
	cbz	x19, .LBB17_482
	add	x8, x22, #1
	mov	x9, x23
.LBB17_608:
	ldrb	w10, [x9], #1
	adrp	x12, .Lstatic.13
	add	x12, x12, :lo12:.Lstatic.13
	subs	x19, x19, #1
	lsr	x11, x10, #4
	and	x10, x10, #0xf
	ldrb	w11, [x12, x11]
	sturb	w11, [x8, #-1]
	ldrb	w10, [x12, x10]
	strb	w10, [x8], #2
	b.ne	.LBB17_608
	b	.LBB17_482
.LBB17_609:
	mov	x25, xzr
	mov	x19, xzr
	mov	w21, #1
.LBB17_610:
	mov	x0, x21
	mov	w1, #1
	mov	w26, #1
	bl	rattle_alloc
	tbz	w0, #0, .LBB17_617
	mov	x22, x1
	cbz	x25, .LBB17_613
	mov	x0, x22
	mov	w1, wzr
	mov	x2, x25
	bl	memset
.LBB17_613:
	cmp	x19, x25, lsr #1
	b.ne	.LBB17_620
	cbz	x19, .LBB17_482
	add	x8, x22, #1
	mov	x9, x23
.LBB17_616:
	ldrb	w10, [x9], #1
	adrp	x12, .Lstatic.13
	add	x12, x12, :lo12:.Lstatic.13
	subs	x19, x19, #1
	lsr	x11, x10, #4
	and	x10, x10, #0xf
	ldrb	w11, [x12, x11]
	sturb	w11, [x8, #-1]
	ldrb	w10, [x12, x10]
	strb	w10, [x8], #2
	b.ne	.LBB17_616
	b	.LBB17_482
.LBB17_617:
	mov	x21, xzr
	mov	x22, xzr
	mov	w24, #5
.LBB17_618:
	ldr	x8, [sp, #56]
	cbz	x8, .LBB17_108
	mov	x0, x23
	bl	rattle_dealloc
	b	.LBB17_108
.LBB17_620:
	brk	#0x1
.Lfunc_end17:
	.size	cukvashe_main, .Lfunc_end17-cukvashe_main
	.cfi_endproc

	.type	.Lstatic.1,@object
	.section	.rodata.cst4,"aM",@progbits,4
.Lstatic.1:
	.ascii	"weak"
	.size	.Lstatic.1, 4

	.type	.Lstatic.2,@object
	.section	.rodata..Lstatic.2,"a",@progbits
.Lstatic.2:
	.ascii	"des"
	.size	.Lstatic.2, 3

	.type	.Lstatic.3,@object
	.section	.rodata.cst4,"aM",@progbits,4
.Lstatic.3:
	.ascii	"ede3"
	.size	.Lstatic.3, 4

	.type	.Lstatic.4,@object
.Lstatic.4:
	.ascii	"eee3"
	.size	.Lstatic.4, 4

	.type	.Lstatic.5,@object
.Lstatic.5:
	.ascii	"ede2"
	.size	.Lstatic.5, 4

	.type	.Lstatic.6,@object
.Lstatic.6:
	.ascii	"eee2"
	.size	.Lstatic.6, 4

	.type	.Lstatic.7,@object
	.section	.rodata..Lstatic.7,"a",@progbits
.Lstatic.7:
	.ascii	"des-cbc"
	.size	.Lstatic.7, 7

	.type	.Lstatic.8,@object
	.section	.rodata.cst8,"aM",@progbits,8
.Lstatic.8:
	.ascii	"ede3-cbc"
	.size	.Lstatic.8, 8

	.type	.Lstatic.9,@object
	.section	.rodata..Lstatic.9,"a",@progbits
.Lstatic.9:
	.ascii	"encrypt"
	.size	.Lstatic.9, 7

	.type	.Lstatic.10,@object
	.section	.rodata..Lstatic.10,"a",@progbits
.Lstatic.10:
	.ascii	"decrypt"
	.size	.Lstatic.10, 7

	.type	.Lstatic.11,@object
	.section	.rodata.cst16,"aM",@progbits,16
.Lstatic.11:
	.ascii	"\001\001\002\002\002\002\002\002\001\002\002\002\002\002\002\001"
	.size	.Lstatic.11, 16

	.type	.Lstatic.12,@object
	.section	.rodata..Lstatic.12,"a",@progbits
.Lstatic.12:
	.ascii	"\016\000\004\017\r\007\001\004\002\016\017\002\013\r\b\001\003\n\n\006\006\f\f\013\005\t\t\005\000\003\007\b\004\017\001\f\016\b\b\002\r\004\006\t\002\001\013\007\017\005\f\013\t\003\007\016\003\n\n\000\005\006\000\r\017\003\001\r\b\004\016\007\006\017\013\002\003\b\004\016\t\f\007\000\002\001\r\n\f\006\000\t\005\013\n\005\000\r\016\b\007\n\013\001\n\003\004\017\r\004\001\002\005\013\b\006\f\007\006\f\t\000\003\005\002\016\017\t\n\r\000\007\t\000\016\t\006\003\003\004\017\006\005\n\001\002\r\b\f\005\007\016\013\f\004\013\002\017\b\001\r\001\006\n\004\r\t\000\b\006\017\t\003\b\000\007\013\004\001\017\002\016\f\003\005\013\n\005\016\002\007\f\007\r\r\b\016\013\003\005\000\006\006\017\t\000\n\003\001\004\002\007\b\002\005\f\013\001\f\n\004\016\017\t\n\003\006\017\t\000\000\006\f\n\013\001\007\r\r\b\017\t\001\004\003\005\016\013\005\f\002\007\b\002\004\016\002\016\f\013\004\002\001\f\007\004\n\007\013\r\006\001\b\005\005\000\003\017\017\n\r\003\000\t\016\b\t\006\004\013\002\b\001\f\013\007\n\001\r\016\007\002\b\r\017\006\t\017\f\000\005\t\006\n\003\004\000\005\016\003\f\n\001\017\n\004\017\002\t\007\002\f\006\t\b\005\000\006\r\001\003\r\004\016\016\000\007\013\005\003\013\b\t\004\016\003\017\002\005\f\002\t\b\005\f\017\003\n\007\013\000\016\004\001\n\007\001\006\r\000\013\b\006\r\004\r\013\000\002\013\016\007\017\004\000\t\b\001\r\n\003\016\f\003\t\005\007\f\005\002\n\017\006\b\001\006\001\006\004\013\013\r\r\b\f\001\003\004\007\n\016\007\n\t\017\005\006\000\b\017\000\016\005\002\t\003\002\f\r\001\002\017\b\r\004\b\006\n\017\003\013\007\001\004\n\f\t\005\003\006\016\013\005\000\000\016\f\t\007\002\007\002\013\001\004\016\001\007\t\004\f\n\016\b\002\r\000\017\006\f\n\t\r\000\017\003\003\005\005\006\b\013"
	.size	.Lstatic.12, 512

	.type	.Lstatic.13,@object
	.section	.rodata.cst16,"aM",@progbits,16
.Lstatic.13:
	.ascii	"0123456789abcdef"
	.size	.Lstatic.13, 16

	.type	.Lstatic.14,@object
	.section	.rodata..Lstatic.14,"a",@progbits
.Lstatic.14:
	.ascii	"Ok\n"
	.size	.Lstatic.14, 3

	.type	.Lstatic.15,@object
	.section	.rodata.cst8,"aM",@progbits,8
.Lstatic.15:
	.ascii	"WeakKey\n"
	.size	.Lstatic.15, 8

	.type	.Lstatic.16,@object
	.section	.rodata..Lstatic.16,"a",@progbits
.Lstatic.16:
	.ascii	"\001\001\001\001\001\001\001\001\376\376\376\376\376\376\376\376\340\340\340\340\361\361\361\361\037\037\037\037\016\016\016\016\001\037\001\037\001\016\001\016\037\001\037\001\016\001\016\001\001\340\001\340\001\361\001\361\340\001\340\001\361\001\361\001\001\376\001\376\001\376\001\376\376\001\376\001\376\001\376\001\037\340\037\340\016\361\016\361\340\037\340\037\361\016\361\016\037\376\037\376\016\376\016\376\376\037\376\037\376\016\376\016\340\376\340\376\361\376\361\376\376\340\376\340\376\361\376\361\001\001\037\037\001\001\016\016\037\037\001\001\016\016\001\001\340\340\037\037\361\361\016\016\001\001\340\340\001\001\361\361\037\037\340\340\016\016\361\361\340\340\376\376\361\361\376\376\001\001\376\376\001\001\376\376\037\037\376\376\016\016\376\376\340\376\001\037\361\376\001\016\001\037\037\001\001\016\016\001\037\340\001\376\016\361\001\376\340\376\037\001\361\376\016\001\001\037\340\376\001\016\361\376\037\340\340\037\016\361\361\016\340\376\376\340\361\376\376\361\001\037\376\340\001\016\376\361\037\340\376\001\016\361\376\001\376\001\001\376\376\001\001\376\001\340\037\376\001\361\016\376\037\376\001\340\016\376\001\361\376\001\037\340\376\001\016\361\376\001\340\037\376\001\361\016\037\376\340\001\016\376\361\001\376\037\001\340\376\016\001\361\001\340\340\001\001\361\361\001\037\376\376\037\016\376\376\016\376\037\340\001\376\016\361\001\001\340\376\037\001\361\376\016\340\001\001\340\361\001\001\361\376\037\037\376\376\016\016\376\001\376\037\340\001\376\016\361\340\001\037\376\361\001\016\376\376\340\001\037\376\361\001\016\001\376\340\037\001\376\361\016\340\001\376\037\361\001\376\016\376\340\037\001\376\361\016\001\001\376\376\001\001\376\376\001\340\037\001\376\361\016\001\376\376\340\340\376\376\361\361\376\037\001\001\037\016\001\001\016\340\037\037\340\361\016\016\361\376\376\001\001\376\376\001\001\037\001\340\376\016\001\361\376\340\037\376\001\361\016\376\001\376\376\037\037\376\376\016\016\037\001\376\340\016\001\376\361\340\340\001\001\361\361\001\001\376\376\340\340\376\376\361\361"
	.size	.Lstatic.16, 512

	.type	.Lstatic.18,@object
	.section	.rodata..Lstatic.18,"a",@progbits
.Lstatic.18:
	.byte	10
	.size	.Lstatic.18, 1

	.type	.Lstatic.19,@object
	.section	.rodata..Lstatic.19,"a",@progbits
.Lstatic.19:
	.ascii	"Usage"
	.size	.Lstatic.19, 5

	.type	.Lstatic.20,@object
	.section	.rodata..Lstatic.20,"a",@progbits
.Lstatic.20:
	.ascii	"KeyLength"
	.size	.Lstatic.20, 9

	.type	.Lstatic.21,@object
	.section	.rodata..Lstatic.21,"a",@progbits
.Lstatic.21:
	.ascii	"KeyText"
	.size	.Lstatic.21, 7

	.type	.Lstatic.22,@object
	.section	.rodata..Lstatic.22,"a",@progbits
.Lstatic.22:
	.ascii	"BlockLength"
	.size	.Lstatic.22, 11

	.type	.Lstatic.23,@object
	.section	.rodata..Lstatic.23,"a",@progbits
.Lstatic.23:
	.ascii	"BlockText"
	.size	.Lstatic.23, 9

	.type	.Lstatic.24,@object
	.section	.rodata..Lstatic.24,"a",@progbits
.Lstatic.24:
	.ascii	"Memory"
	.size	.Lstatic.24, 6

	.type	".Lswitch.table.des_tool::command::status::show::<#8366a837468c3893>",@object
	.section	".rodata..Lswitch.table.des_tool::command::status::show::<#8366a837468c3893>","a",@progbits
	.p2align	3, 0x0
".Lswitch.table.des_tool::command::status::show::<#8366a837468c3893>":
	.xword	5
	.xword	9
	.xword	7
	.xword	11
	.xword	9
	.xword	6
	.size	".Lswitch.table.des_tool::command::status::show::<#8366a837468c3893>", 48

	.type	".Lswitch.table.des_tool::command::status::show::<#8366a837468c3893>.168.rel",@object
	.section	".rodata..Lswitch.table.des_tool::command::status::show::<#8366a837468c3893>.168.rel","a",@progbits
	.p2align	2, 0x0
".Lswitch.table.des_tool::command::status::show::<#8366a837468c3893>.168.rel":
	.word	.Lstatic.19-".Lswitch.table.des_tool::command::status::show::<#8366a837468c3893>.168.rel"
	.word	.Lstatic.20-".Lswitch.table.des_tool::command::status::show::<#8366a837468c3893>.168.rel"
	.word	.Lstatic.21-".Lswitch.table.des_tool::command::status::show::<#8366a837468c3893>.168.rel"
	.word	.Lstatic.22-".Lswitch.table.des_tool::command::status::show::<#8366a837468c3893>.168.rel"
	.word	.Lstatic.23-".Lswitch.table.des_tool::command::status::show::<#8366a837468c3893>.168.rel"
	.word	.Lstatic.24-".Lswitch.table.des_tool::command::status::show::<#8366a837468c3893>.168.rel"
	.size	".Lswitch.table.des_tool::command::status::show::<#8366a837468c3893>.168.rel", 24

	.ident	"rattle logic=dac8208d650f15bf3e2dc313a14fa4c783a3acf887bdfab66e1714b038d9e11b"
	.section	".note.GNU-stack","",@progbits
