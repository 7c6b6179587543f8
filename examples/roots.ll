; ModuleID = 'roots.c'
source_filename = "roots.c"
target datalayout = "e-m:e-p270:32:32-p271:32:32-p272:64:64-i64:64-f80:128-n8:16:32:64-S128"
target triple = "x86_64-pc-linux-gnu"

; Function Attrs: nofree norecurse nosync nounwind readnone uwtable
define dso_local i32 @root(i16 noundef zeroext %0) local_unnamed_addr #0 {
  %2 = zext i16 %0 to i32
  br label %4

3:                                                ; preds = %4
  ret i32 %10

4:                                                ; preds = %1, %4
  %5 = phi i32 [ 0, %1 ], [ %10, %4 ]
  %6 = phi i32 [ 128, %1 ], [ %11, %4 ]
  %7 = or i32 %5, %6
  %8 = mul i32 %7, %7
  %9 = icmp ugt i32 %8, %2
  %10 = select i1 %9, i32 %5, i32 %7
  %11 = lshr i32 %6, 1
  %12 = icmp ult i32 %6, 2
  br i1 %12, label %3, label %4, !llvm.loop !5
}

; Function Attrs: nofree norecurse nosync nounwind readnone uwtable
define dso_local i32 @highest_place(i32 noundef %0) local_unnamed_addr #0 {
  %2 = icmp ugt i32 %0, 1
  br i1 %2, label %3, label %9

3:                                                ; preds = %1, %3
  %4 = phi i32 [ %7, %3 ], [ 0, %1 ]
  %5 = phi i32 [ %6, %3 ], [ %0, %1 ]
  %6 = lshr i32 %5, 1
  %7 = add nuw nsw i32 %4, 1
  %8 = icmp ugt i32 %5, 3
  br i1 %8, label %3, label %9, !llvm.loop !8

9:                                                ; preds = %3, %1
  %10 = phi i32 [ 0, %1 ], [ %7, %3 ]
  ret i32 %10
}

; Function Attrs: nofree norecurse nosync nounwind readnone uwtable
define dso_local i32 @common_divisor(i8 noundef zeroext %0, i8 noundef zeroext %1) local_unnamed_addr #0 {
  %3 = zext i8 %0 to i32
  %4 = icmp eq i8 %1, 0
  br i1 %4, label %12, label %5

5:                                                ; preds = %2
  %6 = zext i8 %1 to i32
  br label %7

7:                                                ; preds = %5, %7
  %8 = phi i32 [ %9, %7 ], [ %3, %5 ]
  %9 = phi i32 [ %10, %7 ], [ %6, %5 ]
  %10 = urem i32 %8, %9
  %11 = icmp eq i32 %10, 0
  br i1 %11, label %12, label %7, !llvm.loop !9

12:                                               ; preds = %7, %2
  %13 = phi i32 [ %3, %2 ], [ %9, %7 ]
  ret i32 %13
}

; Function Attrs: nofree norecurse nosync nounwind readnone uwtable
define dso_local i32 @turns(i16 noundef zeroext %0) local_unnamed_addr #0 {
  %2 = icmp ugt i16 %0, 1
  br i1 %2, label %3, label %18

3:                                                ; preds = %1
  %4 = zext i16 %0 to i64
  br label %5

5:                                                ; preds = %3, %5
  %6 = phi i32 [ %14, %5 ], [ 0, %3 ]
  %7 = phi i64 [ %13, %5 ], [ %4, %3 ]
  %8 = and i64 %7, 1
  %9 = icmp eq i64 %8, 0
  %10 = lshr i64 %7, 1
  %11 = mul i64 %7, 3
  %12 = add i64 %11, 1
  %13 = select i1 %9, i64 %10, i64 %12
  %14 = add nuw nsw i32 %6, 1
  %15 = icmp ugt i64 %13, 1
  %16 = icmp ult i32 %6, 99
  %17 = select i1 %15, i1 %16, i1 false
  br i1 %17, label %5, label %18, !llvm.loop !10

18:                                               ; preds = %5, %1
  %19 = phi i32 [ 0, %1 ], [ %14, %5 ]
  ret i32 %19
}

; Function Attrs: nofree norecurse nosync nounwind readnone uwtable
define dso_local i32 @power(i32 noundef %0, i32 noundef %1) local_unnamed_addr #0 {
  %3 = icmp ugt i32 %0, 10
  %4 = icmp ugt i32 %1, 3
  %5 = or i1 %3, %4
  br i1 %5, label %14, label %6

6:                                                ; preds = %2
  %7 = icmp eq i32 %1, 0
  br i1 %7, label %14, label %8

8:                                                ; preds = %6, %8
  %9 = phi i32 [ %12, %8 ], [ 0, %6 ]
  %10 = phi i32 [ %11, %8 ], [ 1, %6 ]
  %11 = mul i32 %10, %0
  %12 = add nuw i32 %9, 1
  %13 = icmp eq i32 %12, %1
  br i1 %13, label %14, label %8, !llvm.loop !11

14:                                               ; preds = %8, %6, %2
  %15 = phi i32 [ 0, %2 ], [ 1, %6 ], [ %11, %8 ]
  ret i32 %15
}

; Function Attrs: nofree norecurse nosync nounwind readnone uwtable
define dso_local i32 @digit_sum(i8 noundef zeroext %0) local_unnamed_addr #0 {
  %2 = zext i8 %0 to i32
  br label %3

3:                                                ; preds = %3, %1
  %4 = phi i32 [ 0, %1 ], [ %7, %3 ]
  %5 = phi i32 [ %2, %1 ], [ %8, %3 ]
  %6 = urem i32 %5, 10
  %7 = add i32 %6, %4
  %8 = udiv i32 %5, 10
  %9 = icmp ult i32 %5, 10
  br i1 %9, label %10, label %3, !llvm.loop !12

10:                                               ; preds = %3
  ret i32 %7
}

attributes #0 = { nofree norecurse nosync nounwind readnone uwtable "frame-pointer"="none" "min-legal-vector-width"="0" "no-jump-tables"="true" "no-trapping-math"="true" "stack-protector-buffer-size"="8" "target-cpu"="x86-64" "target-features"="+cx8,+fxsr,+mmx,+sse,+sse2,+x87" "tune-cpu"="generic" }

!llvm.module.flags = !{!0, !1, !2, !3}
!llvm.ident = !{!4}

!0 = !{i32 1, !"wchar_size", i32 4}
!1 = !{i32 7, !"PIC Level", i32 2}
!2 = !{i32 7, !"PIE Level", i32 2}
!3 = !{i32 7, !"uwtable", i32 1}
!4 = !{!"Debian clang version 14.0.6"}
!5 = distinct !{!5, !6, !7}
!6 = !{!"llvm.loop.mustprogress"}
!7 = !{!"llvm.loop.unroll.disable"}
!8 = distinct !{!8, !6, !7}
!9 = distinct !{!9, !6, !7}
!10 = distinct !{!10, !6, !7}
!11 = distinct !{!11, !6, !7}
!12 = distinct !{!12, !6, !7}
