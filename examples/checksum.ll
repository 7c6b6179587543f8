; ModuleID = 'checksum.c'
source_filename = "checksum.c"
target datalayout = "e-m:e-p270:32:32-p271:32:32-p272:64:64-i64:64-f80:128-n8:16:32:64-S128"
target triple = "x86_64-pc-linux-gnu"

; Function Attrs: mustprogress nofree norecurse nosync nounwind readnone uwtable willreturn
define dso_local i32 @carried_sum(i32 noundef %0, i16 noundef zeroext %1) local_unnamed_addr #0 {
  %3 = and i32 %0, 65535
  %4 = zext i16 %1 to i32
  %5 = add nuw nsw i32 %3, %4
  %6 = and i32 %5, 65535
  %7 = lshr i32 %5, 16
  %8 = add nuw nsw i32 %6, %7
  ret i32 %8
}

; Function Attrs: mustprogress nofree norecurse nosync nounwind readnone uwtable willreturn
define dso_local i32 @two_sums(i32 noundef %0, i8 noundef zeroext %1) local_unnamed_addr #0 {
  %3 = and i32 %0, 255
  %4 = urem i32 %3, 255
  %5 = lshr i32 %0, 8
  %6 = and i32 %5, 255
  %7 = urem i32 %6, 255
  %8 = zext i8 %1 to i32
  %9 = add nuw nsw i32 %4, %8
  %10 = urem i32 %9, 255
  %11 = add nuw nsw i32 %10, %7
  %12 = urem i32 %11, 255
  %13 = shl nuw nsw i32 %12, 8
  %14 = or i32 %13, %10
  ret i32 %14
}

; Function Attrs: nofree norecurse nosync nounwind readnone uwtable
define dso_local zeroext i16 @remainder_step(i16 noundef zeroext %0, i8 noundef zeroext %1) local_unnamed_addr #1 {
  %3 = zext i16 %0 to i32
  %4 = zext i8 %1 to i32
  %5 = shl nuw nsw i32 %4, 8
  %6 = xor i32 %5, %3
  br label %9

7:                                                ; preds = %9
  %8 = trunc i32 %16 to i16
  ret i16 %8

9:                                                ; preds = %2, %9
  %10 = phi i32 [ 0, %2 ], [ %17, %9 ]
  %11 = phi i32 [ %6, %2 ], [ %16, %9 ]
  %12 = and i32 %11, 32768
  %13 = icmp eq i32 %12, 0
  %14 = shl i32 %11, 1
  %15 = xor i32 %14, 4129
  %16 = select i1 %13, i32 %14, i32 %15
  %17 = add nuw nsw i32 %10, 1
  %18 = icmp eq i32 %17, 8
  br i1 %18, label %7, label %9, !llvm.loop !5
}

; Function Attrs: mustprogress nofree norecurse nosync nounwind readnone uwtable willreturn
define dso_local i32 @doubled_digit(i32 noundef %0) local_unnamed_addr #0 {
  %2 = icmp ugt i32 %0, 9
  br i1 %2, label %8, label %3

3:                                                ; preds = %1
  %4 = shl i32 %0, 1
  %5 = udiv i32 %4, 10
  %6 = urem i32 %4, 10
  %7 = add nuw nsw i32 %5, %6
  br label %8

8:                                                ; preds = %1, %3
  %9 = phi i32 [ %7, %3 ], [ 0, %1 ]
  ret i32 %9
}

; Function Attrs: mustprogress nofree norecurse nosync nounwind readnone uwtable willreturn
define dso_local i32 @check_digit(i32 noundef %0) local_unnamed_addr #0 {
  %2 = urem i32 %0, 10
  %3 = sub nuw nsw i32 10, %2
  %4 = urem i32 %3, 10
  ret i32 %4
}

; Function Attrs: mustprogress nofree norecurse nosync nounwind readnone uwtable willreturn
define dso_local i32 @weighted(i32 noundef %0) local_unnamed_addr #0 {
  %2 = urem i32 %0, 10
  %3 = udiv i32 %0, 10
  %4 = urem i32 %3, 10
  %5 = udiv i32 %0, 100
  %6 = urem i32 %5, 10
  %7 = shl nuw nsw i32 %2, 1
  %8 = mul nuw nsw i32 %4, 3
  %9 = add nuw nsw i32 %8, %7
  %10 = shl nuw nsw i32 %6, 2
  %11 = add nuw nsw i32 %9, %10
  %12 = urem i32 %11, 11
  %13 = icmp eq i32 %12, 0
  %14 = sub nuw nsw i32 11, %12
  %15 = select i1 %13, i32 0, i32 %14
  ret i32 %15
}

attributes #0 = { mustprogress nofree norecurse nosync nounwind readnone uwtable willreturn "frame-pointer"="none" "min-legal-vector-width"="0" "no-jump-tables"="true" "no-trapping-math"="true" "stack-protector-buffer-size"="8" "target-cpu"="x86-64" "target-features"="+cx8,+fxsr,+mmx,+sse,+sse2,+x87" "tune-cpu"="generic" }
attributes #1 = { nofree norecurse nosync nounwind readnone uwtable "frame-pointer"="none" "min-legal-vector-width"="0" "no-jump-tables"="true" "no-trapping-math"="true" "stack-protector-buffer-size"="8" "target-cpu"="x86-64" "target-features"="+cx8,+fxsr,+mmx,+sse,+sse2,+x87" "tune-cpu"="generic" }

!llvm.module.flags = !{!0, !1, !2, !3}
!llvm.ident = !{!4}

!0 = !{i32 1, !"wchar_size", i32 4}
!1 = !{i32 7, !"PIC Level", i32 2}
!2 = !{i32 7, !"PIE Level", i32 2}
!3 = !{i32 7, !"uwtable", i32 1}
!4 = !{!"Debian clang version 14.0.6"}
!5 = distinct !{!5, !6, !7}
!6 = !{!"llvm.loop.mustprogress"}
!7 = !{!"llvm.loop.unroll.disable"}
