
%struct.node = type { i32, %struct.node* }

define dso_local %struct.node* @list_find(%struct.node* noundef readonly %0, i32 noundef %1, i32 noundef %2) local_unnamed_addr {
  %4 = icmp eq %struct.node* %0, null
  br i1 %4, label %18, label %5

5:                                                ; preds = %3, %14
  %6 = phi i32 [ %8, %14 ], [ %2, %3 ]
  %7 = phi %struct.node* [ %16, %14 ], [ %0, %3 ]
  %8 = add nsw i32 %6, -1
  %9 = icmp sgt i32 %6, 0
  br i1 %9, label %10, label %18

10:                                               ; preds = %5
  %11 = getelementptr inbounds %struct.node, %struct.node* %7, i32 0, i32 0
  %12 = load i32, i32* %11, align 4, !tbaa !5
  %13 = icmp eq i32 %12, %1
  br i1 %13, label %18, label %14

14:                                               ; preds = %10
  %15 = getelementptr inbounds %struct.node, %struct.node* %7, i32 0, i32 1
  %16 = load %struct.node*, %struct.node** %15, align 4, !tbaa !11
  %17 = icmp eq %struct.node* %16, null
  br i1 %17, label %18, label %5, !llvm.loop !12

18:                                               ; preds = %10, %14, %5, %3
  %19 = phi %struct.node* [ null, %3 ], [ null, %5 ], [ null, %14 ], [ %7, %10 ]
  ret %struct.node* %19
}

!5 = !{!6, !7, i64 0}
!6 = !{!"node", !7, i64 0, !10, i64 4}
!7 = !{!"int", !8, i64 0}
!8 = !{!"omnipotent char", !9, i64 0}
!9 = !{!"Simple C/C++ TBAA"}
!10 = !{!"any pointer", !8, i64 0}
!11 = !{!6, !10, i64 4}
!12 = distinct !{!12, !13, !14}
!13 = !{!"llvm.loop.mustprogress"}
!14 = !{!"llvm.loop.unroll.disable"}
