; ModuleID = 'bits.c'
source_filename = "bits.c"
target datalayout = "e-m:e-p270:32:32-p271:32:32-p272:64:64-i64:64-f80:128-n8:16:32:64-S128"
target triple = "x86_64-pc-linux-gnu"

; Function Attrs: mustprogress nofree norecurse nosync nounwind readnone uwtable willreturn
define dso_local i32 @lowest_bit(i32 noundef %0) local_unnamed_addr #0 {
  %2 = sub i32 0, %0
  %3 = and i32 %2, %0
  ret i32 %3
}

; Function Attrs: mustprogress nofree norecurse nosync nounwind readnone uwtable willreturn
define dso_local i32 @without_lowest_bit(i32 noundef %0) local_unnamed_addr #0 {
  %2 = add i32 %0, -1
  %3 = and i32 %2, %0
  ret i32 %3
}

; Function Attrs: mustprogress nofree nosync nounwind readnone uwtable willreturn
define dso_local i32 @is_power_of_two(i32 noundef %0) local_unnamed_addr #1 {
  %2 = icmp eq i32 %0, 0
  br i1 %2, label %7, label %3

3:
  %4 = call i32 @llvm.ctpop.i32(i32 %0)
  %5 = icmp samesign ult i32 %4, 2
  %6 = zext i1 %5 to i32
  br label %7

7:
  %8 = phi i32 [ 0, %1 ], [ %6, %3 ]
  ret i32 %8
}

; Function Attrs: mustprogress nofree norecurse nosync nounwind readnone uwtable willreturn
define dso_local i32 @ones_of_nibble(i32 noundef %0) local_unnamed_addr #0 {
  %2 = and i32 %0, 5
  %3 = lshr i32 %0, 1
  %4 = and i32 %3, 5
  %5 = add nuw nsw i32 %4, %2
  %6 = and i32 %5, 3
  %7 = lshr i32 %5, 2
  %8 = add nuw nsw i32 %6, %7
  ret i32 %8
}

; Function Attrs: mustprogress nofree norecurse nosync nounwind readnone uwtable willreturn
define dso_local i32 @ones_of_byte(i8 noundef zeroext %0) local_unnamed_addr #0 {
  %2 = zext i8 %0 to i32
  %3 = and i32 %2, 85
  %4 = lshr i32 %2, 1
  %5 = and i32 %4, 85
  %6 = add nuw nsw i32 %5, %3
  %7 = and i32 %6, 51
  %8 = lshr i32 %6, 2
  %9 = and i32 %8, 51
  %10 = add nuw nsw i32 %9, %7
  %11 = and i32 %10, 7
  %12 = lshr i32 %10, 4
  %13 = add nuw nsw i32 %11, %12
  ret i32 %13
}

; Function Attrs: mustprogress nofree norecurse nosync nounwind readnone uwtable willreturn
define dso_local i32 @parity(i32 noundef %0) local_unnamed_addr #0 {
  %2 = lshr i32 %0, 16
  %3 = xor i32 %2, %0
  %4 = lshr i32 %3, 8
  %5 = xor i32 %4, %3
  %6 = lshr i32 %5, 4
  %7 = xor i32 %6, %5
  %8 = lshr i32 %7, 2
  %9 = xor i32 %8, %7
  %10 = lshr i32 %9, 1
  %11 = xor i32 %10, %9
  %12 = and i32 %11, 1
  ret i32 %12
}

; Function Attrs: mustprogress nofree nosync nounwind readnone uwtable willreturn
define dso_local zeroext i8 @swapped_nibbles(i8 noundef zeroext %0) local_unnamed_addr #1 {
  %2 = call i8 @llvm.fshl.i8(i8 %0, i8 %0, i8 4)
  ret i8 %2
}

; Function Attrs: mustprogress nofree norecurse nosync nounwind readnone uwtable willreturn
define dso_local i32 @spread(i8 noundef zeroext %0) local_unnamed_addr #0 {
  %2 = zext i8 %0 to i32
  %3 = shl nuw nsw i32 %2, 4
  %4 = or i32 %3, %2
  %5 = and i32 %4, 3855
  %6 = shl nuw nsw i32 %5, 2
  %7 = or i32 %6, %5
  %8 = and i32 %7, 13107
  %9 = shl nuw nsw i32 %8, 1
  %10 = or i32 %9, %8
  %11 = and i32 %10, 21845
  ret i32 %11
}

; Function Attrs: mustprogress nofree norecurse nosync nounwind readnone uwtable willreturn
define dso_local i32 @interleaved(i8 noundef zeroext %0, i8 noundef zeroext %1) local_unnamed_addr #0 {
  %3 = zext i8 %0 to i32
  %4 = shl nuw nsw i32 %3, 4
  %5 = or i32 %4, %3
  %6 = and i32 %5, 3855
  %7 = shl nuw nsw i32 %6, 2
  %8 = or i32 %7, %6
  %9 = and i32 %8, 13107
  %10 = shl nuw nsw i32 %9, 1
  %11 = or i32 %10, %9
  %12 = and i32 %11, 21845
  %13 = zext i8 %1 to i32
  %14 = shl nuw nsw i32 %13, 4
  %15 = or i32 %14, %13
  %16 = and i32 %15, 3855
  %17 = shl nuw nsw i32 %16, 2
  %18 = or i32 %17, %16
  %19 = and i32 %18, 13107
  %20 = shl nuw nsw i32 %19, 2
  %21 = shl nuw nsw i32 %19, 1
  %22 = or i32 %20, %21
  %23 = and i32 %22, 43690
  %24 = or disjoint i32 %23, %12
  ret i32 %24
}

; Function Attrs: mustprogress nofree nosync nounwind readnone uwtable willreturn
define dso_local i32 @places_of_byte(i8 noundef zeroext %0) local_unnamed_addr #1 {
  %2 = icmp eq i8 %0, 0
  br i1 %2, label %7, label %3

3:
  %4 = zext i8 %0 to i32
  %5 = call i32 @llvm.ctlz.i32(i32 %4, i1 true)
  %6 = sub nuw nsw i32 32, %5
  br label %7

7:
  %8 = phi i32 [ %6, %3 ], [ 0, %1 ]
  ret i32 %8
}

; Function Attrs: mustprogress nofree nosync nounwind readnone speculatable willreturn
declare i32 @llvm.ctlz.i32(i32, i1 immarg) #2

; Function Attrs: mustprogress nofree norecurse nosync nounwind readnone uwtable willreturn
define dso_local i32 @odd_part(i32 noundef %0) local_unnamed_addr #0 {
  %2 = and i32 %0, 3
  %3 = icmp eq i32 %2, 1
  br i1 %3, label %4, label %7

4:
  br label %5

5:
  %6 = udiv i32 %0, 12
  br label %7

7:
  %8 = phi i32 [ %6, %5 ], [ 0, %1 ]
  ret i32 %8
}

; Function Attrs: nofree nosync nounwind readnone speculatable willreturn
declare i32 @llvm.ctpop.i32(i32) #3

; Function Attrs: nofree nosync nounwind readnone speculatable willreturn
declare i8 @llvm.fshl.i8(i8, i8, i8) #3

attributes #0 = { mustprogress nofree norecurse nosync nounwind readnone uwtable willreturn "frame-pointer"="none" "min-legal-vector-width"="0" "no-jump-tables"="true" "no-trapping-math"="true" "stack-protector-buffer-size"="8" "target-cpu"="x86-64" "target-features"="+cx8,+fxsr,+mmx,+sse,+sse2,+x87" "tune-cpu"="generic" }
attributes #1 = { mustprogress nofree nosync nounwind readnone uwtable willreturn "frame-pointer"="none" "min-legal-vector-width"="0" "no-jump-tables"="true" "no-trapping-math"="true" "stack-protector-buffer-size"="8" "target-cpu"="x86-64" "target-features"="+cx8,+fxsr,+mmx,+sse,+sse2,+x87" "tune-cpu"="generic" }
attributes #2 = { mustprogress nofree nosync nounwind readnone speculatable willreturn }
attributes #3 = { nofree nosync nounwind readnone speculatable willreturn }

!llvm.module.flags = !{!0, !1, !2, !3}
!llvm.ident = !{!4}

!0 = !{i32 1, !"wchar_size", i32 4}
!1 = !{i32 7, !"PIC Level", i32 2}
!2 = !{i32 7, !"PIE Level", i32 2}
!3 = !{i32 7, !"uwtable", i32 1}
!4 = !{!"Debian clang version 14.0.6"}
!5 = !{i32 0, i32 33}
!6 = !{i32 24, i32 33}
