; ModuleID = 'calendar.c'
source_filename = "calendar.c"
target datalayout = "e-m:e-p270:32:32-p271:32:32-p272:64:64-i64:64-f80:128-n8:16:32:64-S128"
target triple = "x86_64-pc-linux-gnu"

; Function Attrs: mustprogress nofree norecurse nosync nounwind readnone uwtable willreturn
define dso_local i32 @is_leap(i32 noundef %0) local_unnamed_addr #0 {
  %2 = and i32 %0, 3
  %3 = icmp eq i32 %2, 0
  br i1 %3, label %4, label %11

4:
  %5 = urem i32 %0, 100
  %6 = icmp eq i32 %5, 0
  br i1 %6, label %7, label %11

7:
  %8 = urem i32 %0, 400
  %9 = icmp eq i32 %8, 0
  %10 = zext i1 %9 to i32
  br label %11

11:
  %12 = phi i32 [ 0, %1 ], [ 1, %4 ], [ %10, %7 ]
  ret i32 %12
}

; Function Attrs: mustprogress nofree norecurse nosync nounwind readnone uwtable willreturn
define dso_local i32 @days_of_month(i32 noundef %0, i32 noundef %1) local_unnamed_addr #0 {
  %3 = add i32 %0, -13
  %4 = icmp ult i32 %3, -12
  br i1 %4, label %15, label %5

5:
  %6 = icmp eq i32 %0, 2
  br i1 %6, label %7, label %10

7:
  %8 = icmp eq i32 %1, 0
  %9 = select i1 %8, i32 28, i32 29
  br label %15

10:
  %11 = lshr i32 %0, 3
  %12 = add nuw nsw i32 %11, %0
  %13 = and i32 %12, 1
  %14 = or disjoint i32 %13, 30
  br label %15

15:
  %16 = phi i32 [ %9, %7 ], [ %14, %10 ], [ 0, %2 ]
  ret i32 %16
}

; Function Attrs: mustprogress nofree norecurse nosync nounwind readnone uwtable willreturn
define dso_local i32 @days_before(i32 noundef %0) local_unnamed_addr #0 {
  %2 = icmp ugt i32 %0, 11
  br i1 %2, label %9, label %3

3:
  %4 = mul nuw nsw i32 %0, 153
  %5 = add nuw nsw i32 %4, 2
  %6 = trunc i32 %5 to i16
  %7 = udiv i16 %6, 5
  %8 = zext i16 %7 to i32
  br label %9

9:
  %10 = phi i32 [ %8, %3 ], [ -1, %1 ]
  ret i32 %10
}

; Function Attrs: mustprogress nofree norecurse nosync nounwind readnone uwtable willreturn
define dso_local i32 @weekday(i32 noundef %0) local_unnamed_addr #0 {
  %2 = urem i32 %0, 7
  %3 = add nuw nsw i32 %2, 4
  %4 = trunc i32 %3 to i8
  %5 = urem i8 %4, 7
  %6 = zext i8 %5 to i32
  ret i32 %6
}

; Function Attrs: mustprogress nofree norecurse nosync nounwind readnone uwtable willreturn
define dso_local i32 @next_weekday(i32 noundef %0) local_unnamed_addr #0 {
  %2 = icmp ult i32 %0, 6
  %3 = add i32 %0, 1
  %4 = select i1 %2, i32 %3, i32 0
  ret i32 %4
}

; Function Attrs: mustprogress nofree norecurse nosync nounwind readnone uwtable willreturn
define dso_local i32 @hour(i32 noundef %0) local_unnamed_addr #0 {
  %2 = udiv i32 %0, 3600
  %3 = urem i32 %2, 24
  ret i32 %3
}

; Function Attrs: mustprogress nofree norecurse nosync nounwind readnone uwtable willreturn
define dso_local i32 @minute(i32 noundef %0) local_unnamed_addr #0 {
  %2 = urem i32 %0, 3600
  %3 = trunc i32 %2 to i16
  %4 = udiv i16 %3, 60
  %5 = zext i16 %4 to i32
  ret i32 %5
}

; Function Attrs: mustprogress nofree norecurse nosync nounwind readnone uwtable willreturn
define dso_local i32 @twelve(i32 noundef %0) local_unnamed_addr #0 {
  %2 = udiv i32 %0, 3600
  %3 = urem i32 %2, 24
  %4 = trunc i32 %3 to i8
  %5 = urem i8 %4, 12
  %6 = zext i8 %5 to i32
  %7 = icmp eq i32 %6, 0
  %8 = select i1 %7, i32 12, i32 %6
  ret i32 %8
}

; Function Attrs: mustprogress nofree norecurse nosync nounwind readnone uwtable willreturn
define dso_local i32 @seconds_of(i8 noundef zeroext %0, i8 noundef zeroext %1, i8 noundef zeroext %2) local_unnamed_addr #0 {
  %4 = icmp ugt i8 %0, 23
  %5 = icmp ugt i8 %1, 59
  %6 = or i1 %4, %5
  %7 = icmp ugt i8 %2, 59
  %8 = or i1 %6, %7
  br i1 %8, label %17, label %9

9:
  %10 = zext nneg i8 %2 to i32
  %11 = zext nneg i8 %1 to i32
  %12 = zext nneg i8 %0 to i32
  %13 = mul nuw nsw i32 %12, 3600
  %14 = mul nuw nsw i32 %11, 60
  %15 = add nuw nsw i32 %14, %13
  %16 = add nuw nsw i32 %15, %10
  br label %17

17:
  %18 = phi i32 [ %16, %9 ], [ 86400, %3 ]
  ret i32 %18
}

; Function Attrs: mustprogress nofree norecurse nosync nounwind readnone uwtable willreturn
define dso_local i32 @quarter_of_month(i32 noundef %0) local_unnamed_addr #0 {
  %2 = add i32 %0, -13
  %3 = icmp ult i32 %2, -12
  br i1 %3, label %10, label %4

4:
  %5 = add nsw i32 %0, -1
  %6 = trunc i32 %5 to i8
  %7 = udiv i8 %6, 3
  %8 = zext i8 %7 to i32
  %9 = add nuw nsw i32 %8, 1
  br label %10

10:
  %11 = phi i32 [ %9, %4 ], [ 0, %1 ]
  ret i32 %11
}

attributes #0 = { mustprogress nofree norecurse nosync nounwind readnone uwtable willreturn "frame-pointer"="none" "min-legal-vector-width"="0" "no-jump-tables"="true" "no-trapping-math"="true" "stack-protector-buffer-size"="8" "target-cpu"="x86-64" "target-features"="+cx8,+fxsr,+mmx,+sse,+sse2,+x87" "tune-cpu"="generic" }

!llvm.module.flags = !{!0, !1, !2, !3}
!llvm.ident = !{!4}

!0 = !{i32 1, !"wchar_size", i32 4}
!1 = !{i32 7, !"PIC Level", i32 2}
!2 = !{i32 7, !"PIE Level", i32 2}
!3 = !{i32 7, !"uwtable", i32 1}
!4 = !{!"Debian clang version 14.0.6"}
