	.text
	.globl	total
	.type	total,@function
	.p2align	4
total:
	// frame 32
.Ltotal_entry:
	{ r29 = add(r29,#-32) }
	{ memw(r29+#8) = r18; r18 = #0 }
	{ memw(r29+#0) = r16; r16 = r1 }
	{ memw(r29+#4) = r17; r17 = r0 }
	{ memw(r29+#24) = r31 }
.Ltotal_test:
	{ p0 = cmp.gt(r16,#0); if (!p0.new) jump:nt .Ltotal_exit }
.Ltotal_loop:
	{ r0 = memw(r17+#0); r17 = add(r17,#4); r16 = add(r16,#-1) }
	{ nop }
	{ call price }
	{ r18 = add(r18,r0); jump .Ltotal_test }
.Ltotal_exit:
	{ r31 = memw(r29+#24); r0 = r18; r16 = memw(r29+#0) }
	{ r29 = add(r29,#32); r17 = memw(r29+#4); r18 = memw(r29+#8) }
	{ jumpr r31 }
	.size	total, .-total
