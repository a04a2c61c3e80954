define dso_local i32 @digits(i32 noundef %0, i32* nocapture noundef writeonly %1) local_unnamed_addr {
  br label %3

3:                                                ; preds = %3, %2
  %4 = phi i32 [ %0, %2 ], [ %7, %3 ]
  %5 = phi i32 [ 0, %2 ], [ %10, %3 ]
  %6 = freeze i32 %4
  %7 = udiv i32 %6, 10
  %8 = mul i32 %7, 10
  %9 = sub i32 %6, %8
  %10 = add nuw nsw i32 %5, 1
  %11 = getelementptr inbounds i32, i32* %1, i32 %5
  store i32 %9, i32* %11, align 4
  %12 = icmp ult i32 %4, 10
  br i1 %12, label %13, label %3

13:                                               ; preds = %3
  ret i32 %10
}
