; ModuleID = 'digits.c'
source_filename = "digits.c"
target datalayout = "e-m:e-p270:32:32-p271:32:32-p272:64:64-i64:64-f80:128-n8:16:32:64-S128"
target triple = "x86_64-pc-linux-gnu"

; Function Attrs: mustprogress nofree norecurse nosync nounwind readnone uwtable willreturn
define dso_local i32 @decimal(i8 noundef zeroext %0) local_unnamed_addr #0 {
  %2 = add i8 %0, -58
  %3 = icmp ult i8 %2, -10
  %4 = zext i8 %0 to i32
  %5 = add nsw i32 %4, -48
  %6 = select i1 %3, i32 -1, i32 %5
  ret i32 %6
}

; Function Attrs: mustprogress nofree norecurse nosync nounwind readnone uwtable willreturn
define dso_local i32 @hexadecimal(i8 noundef zeroext %0) local_unnamed_addr #0 {
  %2 = zext i8 %0 to i32
  %3 = add i8 %0, -48
  %4 = icmp ult i8 %3, 10
  br i1 %4, label %5, label %7

5:
  %6 = add nsw i32 %2, -48
  br label %17

7:
  %8 = add i8 %0, -97
  %9 = icmp ult i8 %8, 6
  br i1 %9, label %10, label %12

10:
  %11 = add nsw i32 %2, -87
  br label %17

12:
  %13 = add i8 %0, -65
  %14 = icmp ult i8 %13, 6
  %15 = add nsw i32 %2, -55
  %16 = select i1 %14, i32 %15, i32 -1
  br label %17

17:
  %18 = phi i32 [ %6, %5 ], [ %11, %10 ], [ %16, %12 ]
  ret i32 %18
}

; Function Attrs: mustprogress nofree norecurse nosync nounwind readnone uwtable willreturn
define dso_local i32 @two_digits(i8 noundef zeroext %0, i8 noundef zeroext %1) local_unnamed_addr #0 {
  %3 = add i8 %0, -58
  %4 = icmp ult i8 %3, -10
  %5 = zext i8 %0 to i32
  %6 = add nsw i32 %5, -48
  %7 = select i1 %4, i32 -1, i32 %6
  %8 = add i8 %1, -58
  %9 = icmp ult i8 %8, -10
  %10 = zext i8 %1 to i32
  %11 = add nsw i32 %10, -48
  %12 = select i1 %9, i32 -1, i32 %11
  %13 = icmp slt i32 %7, 0
  %14 = icmp slt i32 %12, 0
  %15 = select i1 %13, i1 true, i1 %14
  %16 = mul nsw i32 %7, 10
  %17 = add nsw i32 %16, %12
  %18 = icmp sgt i32 %17, 99
  %19 = select i1 %18, i32 -1, i32 %17
  %20 = select i1 %15, i32 100, i32 %19
  ret i32 %20
}

; Function Attrs: mustprogress nofree norecurse nosync nounwind readnone uwtable willreturn
define dso_local i32 @with_digit(i32 noundef %0, i8 noundef zeroext %1) local_unnamed_addr #0 {
  %3 = zext i8 %1 to i32
  %4 = add nsw i32 %3, -48
  %5 = icmp ugt i32 %4, 9
  br i1 %5, label %11, label %6

6:
  %7 = icmp ugt i32 %0, 429496728
  br i1 %7, label %11, label %8

8:
  %9 = mul nuw i32 %0, 10
  %10 = add nuw i32 %4, %9
  br label %11

11:
  %12 = phi i32 [ %10, %8 ], [ %0, %2 ], [ -1, %6 ]
  ret i32 %12
}

; Function Attrs: mustprogress nofree norecurse nosync nounwind readnone uwtable willreturn
define dso_local zeroext i8 @last_digit(i32 noundef %0) local_unnamed_addr #0 {
  %2 = urem i32 %0, 10
  %3 = trunc nuw nsw i32 %2 to i8
  %4 = or disjoint i8 %3, 48
  ret i8 %4
}

; Function Attrs: mustprogress nofree norecurse nosync nounwind readnone uwtable willreturn
define dso_local zeroext i8 @hexadecimal_digit(i32 noundef %0) local_unnamed_addr #0 {
  %2 = and i32 %0, 15
  %3 = icmp samesign ult i32 %2, 10
  %4 = or disjoint i32 %2, 48
  %5 = add nuw nsw i32 %2, 87
  %6 = select i1 %3, i32 %4, i32 %5
  %7 = trunc nuw nsw i32 %6 to i8
  ret i8 %7
}

; Function Attrs: nofree norecurse nosync nounwind readnone uwtable
define dso_local i32 @decimal_places(i16 noundef zeroext %0) local_unnamed_addr #1 {
  %2 = icmp ugt i16 %0, 9
  br i1 %2, label %3, label %13

3:
  %4 = zext i16 %0 to i32
  br label %5

5:
  %6 = phi i32 [ %10, %5 ], [ %4, %3 ]
  %7 = phi i32 [ %11, %5 ], [ 1, %3 ]
  %8 = trunc i32 %6 to i16
  %9 = udiv i16 %8, 10
  %10 = zext i16 %9 to i32
  %11 = add i32 %7, 1
  %12 = icmp samesign ugt i32 %6, 99
  br i1 %12, label %5, label %13

13:
  %14 = phi i32 [ 1, %1 ], [ %11, %5 ]
  ret i32 %14
}

; Function Attrs: mustprogress nofree norecurse nosync nounwind readnone uwtable willreturn
define dso_local zeroext i8 @upper(i8 noundef zeroext %0) local_unnamed_addr #0 {
  %2 = add i8 %0, -97
  %3 = icmp ult i8 %2, 26
  %4 = add i8 %0, -32
  %5 = select i1 %3, i8 %4, i8 %0
  ret i8 %5
}

attributes #0 = { mustprogress nofree norecurse nosync nounwind readnone uwtable willreturn "frame-pointer"="none" "min-legal-vector-width"="0" "no-jump-tables"="true" "no-trapping-math"="true" "stack-protector-buffer-size"="8" "target-cpu"="x86-64" "target-features"="+cx8,+fxsr,+mmx,+sse,+sse2,+x87" "tune-cpu"="generic" }
attributes #1 = { nofree norecurse nosync nounwind readnone uwtable "frame-pointer"="none" "min-legal-vector-width"="0" "no-jump-tables"="true" "no-trapping-math"="true" "stack-protector-buffer-size"="8" "target-cpu"="x86-64" "target-features"="+cx8,+fxsr,+mmx,+sse,+sse2,+x87" "tune-cpu"="generic" }

!llvm.module.flags = !{!0, !1, !2, !3}
!llvm.ident = !{!4}

!0 = !{i32 1, !"wchar_size", i32 4}
!1 = !{i32 7, !"PIC Level", i32 2}
!2 = !{i32 7, !"PIE Level", i32 2}
!3 = !{i32 7, !"uwtable", i32 1}
!4 = !{!"Debian clang version 14.0.6"}
!5 = distinct !{!5, !6, !7}
!6 = !{!"llvm.loop.mustprogress"}
!7 = !{!"llvm.loop.unroll.disable"}
