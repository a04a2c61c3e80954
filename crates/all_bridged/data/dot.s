	.text
	.globl	dot
	.type	dot,@function
	.p2align	4
dot:
	// frame 0
.Ldot_entry:
	{ r3 = #0 }
.Ldot_loop:
	{ r4 = memw(r0+#0); r5 = memw(r1+#0); r0 = add(r0,#4); r1 = add(r1,#4) }
	{ r2 = add(r2,#-1) }
	{ r4 = mpyi(r4,r5); p0 = cmp.gt(r2,#0) }
	{ nop }
	{ r3 = add(r3,r4); if (p0) jump .Ldot_loop }
.Ldot_exit:
	{ jumpr r31; r0 = r3 }
	.size	dot, .-dot
