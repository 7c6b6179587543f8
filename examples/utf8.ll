; ModuleID = 'utf8.c'
source_filename = "utf8.c"
target datalayout = "e-m:e-p270:32:32-p271:32:32-p272:64:64-i64:64-f80:128-n8:16:32:64-S128"
target triple = "x86_64-pc-linux-gnu"

; Function Attrs: mustprogress nofree norecurse nosync nounwind readnone uwtable willreturn
define dso_local i32 @continues(i8 noundef zeroext %0) local_unnamed_addr #0 {
  %2 = and i8 %0, -64
  %3 = icmp eq i8 %2, -128
  %4 = zext i1 %3 to i32
  ret i32 %4
}

; Function Attrs: mustprogress nofree norecurse nosync nounwind readnone uwtable willreturn
define dso_local i32 @length(i8 noundef zeroext %0) local_unnamed_addr #0 {
  %2 = icmp sgt i8 %0, -1
  br i1 %2, label %12, label %3

3:                                                ; preds = %1
  %4 = icmp ult i8 %0, -62
  br i1 %4, label %12, label %5

5:                                                ; preds = %3
  %6 = icmp ult i8 %0, -32
  br i1 %6, label %12, label %7

7:                                                ; preds = %5
  %8 = icmp ult i8 %0, -16
  br i1 %8, label %12, label %9

9:                                                ; preds = %7
  %10 = icmp ult i8 %0, -11
  %11 = select i1 %10, i32 4, i32 0
  br label %12

12:                                               ; preds = %7, %5, %3, %1, %9
  %13 = phi i32 [ %11, %9 ], [ 1, %1 ], [ 0, %3 ], [ 2, %5 ], [ 3, %7 ]
  ret i32 %13
}

; Function Attrs: mustprogress nofree norecurse nosync nounwind readnone uwtable willreturn
define dso_local i32 @follow(i8 noundef zeroext %0) local_unnamed_addr #0 {
  %2 = and i8 %0, -16
  %3 = icmp eq i8 %2, -32
  br i1 %3, label %4, label %13

4:                                                ; preds = %1
  %5 = icmp ult i8 %0, -62
  br i1 %5, label %13, label %6

6:                                                ; preds = %4
  %7 = icmp ult i8 %0, -32
  br i1 %7, label %13, label %8

8:                                                ; preds = %6
  %9 = icmp ult i8 %0, -16
  br i1 %9, label %13, label %10

10:                                               ; preds = %8
  %11 = icmp ult i8 %0, -11
  %12 = select i1 %11, i32 3, i32 -1
  br label %13

13:                                               ; preds = %10, %8, %6, %4, %1
  %14 = phi i32 [ 0, %1 ], [ %12, %10 ], [ -1, %4 ], [ 1, %6 ], [ 2, %8 ]
  ret i32 %14
}

; Function Attrs: mustprogress nofree norecurse nosync nounwind readnone uwtable willreturn
define dso_local i32 @of_two(i8 noundef zeroext %0, i8 noundef zeroext %1) local_unnamed_addr #0 {
  %3 = add i8 %0, 62
  %4 = icmp ult i8 %3, 30
  %5 = and i8 %1, -64
  %6 = icmp eq i8 %5, -128
  %7 = and i1 %4, %6
  br i1 %7, label %8, label %17

8:                                                ; preds = %2
  %9 = and i8 %0, 31
  %10 = zext i8 %9 to i32
  %11 = shl nuw nsw i32 %10, 6
  %12 = and i8 %1, 63
  %13 = zext i8 %12 to i32
  %14 = or i32 %11, %13
  %15 = icmp ult i32 %14, 128
  %16 = select i1 %15, i32 -1, i32 %14
  br label %17

17:                                               ; preds = %2, %8
  %18 = phi i32 [ %16, %8 ], [ -1, %2 ]
  ret i32 %18
}

; Function Attrs: mustprogress nofree norecurse nosync nounwind readnone uwtable willreturn
define dso_local i32 @of_three(i8 noundef zeroext %0, i8 noundef zeroext %1, i8 noundef zeroext %2) local_unnamed_addr #0 {
  %4 = zext i8 %0 to i32
  %5 = and i32 %4, 240
  %6 = icmp eq i32 %5, 224
  %7 = and i8 %1, -64
  %8 = icmp eq i8 %7, -128
  %9 = and i1 %6, %8
  %10 = and i8 %2, -64
  %11 = icmp eq i8 %10, -128
  %12 = and i1 %9, %11
  br i1 %12, label %13, label %28

13:                                               ; preds = %3
  %14 = shl nuw nsw i32 %4, 12
  %15 = and i32 %14, 61440
  %16 = and i8 %1, 63
  %17 = zext i8 %16 to i32
  %18 = shl nuw nsw i32 %17, 6
  %19 = or i32 %18, %15
  %20 = and i8 %2, 63
  %21 = zext i8 %20 to i32
  %22 = or i32 %19, %21
  %23 = icmp ult i32 %22, 2048
  %24 = and i32 %19, 63488
  %25 = icmp eq i32 %24, 55296
  %26 = or i1 %23, %25
  %27 = select i1 %26, i32 -1, i32 %22
  br label %28

28:                                               ; preds = %3, %13
  %29 = phi i32 [ %27, %13 ], [ -1, %3 ]
  ret i32 %29
}

; Function Attrs: mustprogress nofree norecurse nosync nounwind readnone uwtable willreturn
define dso_local i32 @of_four(i8 noundef zeroext %0, i8 noundef zeroext %1, i8 noundef zeroext %2, i8 noundef zeroext %3) local_unnamed_addr #0 {
  %5 = add i8 %0, 16
  %6 = icmp ult i8 %5, 5
  %7 = and i8 %1, -64
  %8 = icmp eq i8 %7, -128
  %9 = and i1 %6, %8
  %10 = and i8 %2, -64
  %11 = icmp eq i8 %10, -128
  %12 = and i1 %9, %11
  %13 = and i8 %3, -64
  %14 = icmp eq i8 %13, -128
  %15 = and i1 %12, %14
  br i1 %15, label %16, label %34

16:                                               ; preds = %4
  %17 = and i8 %0, 7
  %18 = zext i8 %17 to i32
  %19 = shl nuw nsw i32 %18, 18
  %20 = and i8 %1, 63
  %21 = zext i8 %20 to i32
  %22 = shl nuw nsw i32 %21, 12
  %23 = or i32 %22, %19
  %24 = and i8 %2, 63
  %25 = zext i8 %24 to i32
  %26 = shl nuw nsw i32 %25, 6
  %27 = or i32 %23, %26
  %28 = and i8 %3, 63
  %29 = zext i8 %28 to i32
  %30 = or i32 %27, %29
  %31 = add nsw i32 %30, -1114112
  %32 = icmp ult i32 %31, -1048576
  %33 = select i1 %32, i32 -1, i32 %30
  br label %34

34:                                               ; preds = %4, %16
  %35 = phi i32 [ %33, %16 ], [ -1, %4 ]
  ret i32 %35
}

; Function Attrs: mustprogress nofree norecurse nosync nounwind readnone uwtable willreturn
define dso_local zeroext i8 @first_byte(i32 noundef %0) local_unnamed_addr #0 {
  %2 = icmp ult i32 %0, 128
  br i1 %2, label %3, label %5

3:                                                ; preds = %1
  %4 = trunc i32 %0 to i8
  br label %23

5:                                                ; preds = %1
  %6 = icmp ult i32 %0, 2048
  br i1 %6, label %7, label %11

7:                                                ; preds = %5
  %8 = lshr i32 %0, 6
  %9 = trunc i32 %8 to i8
  %10 = or i8 %9, -64
  br label %23

11:                                               ; preds = %5
  %12 = icmp ult i32 %0, 65536
  br i1 %12, label %13, label %17

13:                                               ; preds = %11
  %14 = lshr i32 %0, 12
  %15 = trunc i32 %14 to i8
  %16 = or i8 %15, -32
  br label %23

17:                                               ; preds = %11
  %18 = icmp ugt i32 %0, 1114111
  br i1 %18, label %23, label %19

19:                                               ; preds = %17
  %20 = lshr i32 %0, 18
  %21 = trunc i32 %20 to i8
  %22 = or i8 %21, -16
  br label %23

23:                                               ; preds = %17, %19, %13, %7, %3
  %24 = phi i8 [ %4, %3 ], [ %10, %7 ], [ %16, %13 ], [ %22, %19 ], [ -1, %17 ]
  ret i8 %24
}

; Function Attrs: mustprogress nofree norecurse nosync nounwind readnone uwtable willreturn
define dso_local zeroext i8 @last_byte(i32 noundef %0) local_unnamed_addr #0 {
  %2 = icmp ult i32 %0, 128
  %3 = and i32 %0, 63
  %4 = or i32 %3, 128
  %5 = select i1 %2, i32 %0, i32 %4
  %6 = trunc i32 %5 to i8
  ret i8 %6
}

attributes #0 = { mustprogress nofree norecurse nosync nounwind readnone uwtable willreturn "frame-pointer"="none" "min-legal-vector-width"="0" "no-jump-tables"="true" "no-trapping-math"="true" "stack-protector-buffer-size"="8" "target-cpu"="x86-64" "target-features"="+cx8,+fxsr,+mmx,+sse,+sse2,+x87" "tune-cpu"="generic" }

!llvm.module.flags = !{!0, !1, !2, !3}
!llvm.ident = !{!4}

!0 = !{i32 1, !"wchar_size", i32 4}
!1 = !{i32 7, !"PIC Level", i32 2}
!2 = !{i32 7, !"PIE Level", i32 2}
!3 = !{i32 7, !"uwtable", i32 1}
!4 = !{!"Debian clang version 14.0.6"}
