
define dso_local i32 @crc(i32* nocapture noundef readonly %0, i32 noundef %1) local_unnamed_addr {
  %3 = icmp sgt i32 %1, 0
  br i1 %3, label %8, label %6

4:                                                ; preds = %14
  %5 = xor i32 %24, -1
  br label %6

6:                                                ; preds = %4, %2
  %7 = phi i32 [ 0, %2 ], [ %5, %4 ]
  ret i32 %7

8:                                                ; preds = %2, %14
  %9 = phi i32 [ %15, %14 ], [ 0, %2 ]
  %10 = phi i32 [ %24, %14 ], [ -1, %2 ]
  %11 = getelementptr inbounds i32, i32* %0, i32 %9
  %12 = load i32, i32* %11, align 4, !tbaa !5
  %13 = xor i32 %12, %10
  br label %17

14:                                               ; preds = %17
  %15 = add nuw nsw i32 %9, 1
  %16 = icmp eq i32 %15, %1
  br i1 %16, label %4, label %8, !llvm.loop !9

17:                                               ; preds = %8, %17
  %18 = phi i32 [ 0, %8 ], [ %25, %17 ]
  %19 = phi i32 [ %13, %8 ], [ %24, %17 ]
  %20 = lshr i32 %19, 1
  %21 = and i32 %19, 1
  %22 = icmp eq i32 %21, 0
  %23 = select i1 %22, i32 0, i32 -306674912
  %24 = xor i32 %23, %20
  %25 = add nuw nsw i32 %18, 1
  %26 = icmp eq i32 %25, 8
  br i1 %26, label %14, label %17, !llvm.loop !12
}

!5 = !{!6, !6, i64 0}
!6 = !{!"int", !7, i64 0}
!7 = !{!"omnipotent char", !8, i64 0}
!8 = !{!"Simple C/C++ TBAA"}
!9 = distinct !{!9, !10, !11}
!10 = !{!"llvm.loop.mustprogress"}
!11 = !{!"llvm.loop.unroll.disable"}
!12 = distinct !{!12, !10, !11}
