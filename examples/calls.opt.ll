; ModuleID = 'calls.c'
source_filename = "calls.c"
target datalayout = "e-m:e-p270:32:32-p271:32:32-p272:64:64-i64:64-i128:128-f80:128-n8:16:32:64-S128"
target triple = "x86_64-pc-linux-gnu"

; Function Attrs: nounwind uwtable
define dso_local i32 @packed(i8 noundef zeroext %0, i8 noundef zeroext %1) local_unnamed_addr #0 {
  %3 = zext i8 %0 to i32
  %4 = shl nuw nsw i32 %3, 8
  %5 = zext i8 %1 to i32
  %6 = or disjoint i32 %4, %5
  %7 = call i32 @scan(i32 noundef %6)
  ret i32 %7
}

declare i32 @scan(i32 noundef) local_unnamed_addr #1

; Function Attrs: nounwind uwtable
define dso_local i32 @tagged(i32 noundef %0) local_unnamed_addr #0 {
  %2 = and i32 %0, 240
  %3 = or disjoint i32 %2, 3
  %4 = call i32 @scan(i32 noundef %3)
  ret i32 %4
}

; Function Attrs: nounwind uwtable
define dso_local zeroext i8 @high_byte(i32 noundef %0) local_unnamed_addr #0 {
  %2 = lshr i32 %0, 24
  %3 = trunc nuw i32 %2 to i8
  %4 = call zeroext i8 @step(i8 noundef zeroext %3)
  ret i8 %4
}

declare zeroext i8 @step(i8 noundef zeroext) local_unnamed_addr #1

; Function Attrs: nounwind uwtable
define dso_local zeroext i8 @rounded(i32 noundef %0) local_unnamed_addr #0 {
  %2 = icmp sgt i32 %0, 100
  %3 = lshr i32 %0, 7
  %4 = trunc i32 %3 to i8
  %5 = and i8 %4, 127
  %6 = select i1 %2, i8 %5, i8 1
  %7 = call zeroext i8 @step(i8 noundef zeroext %6)
  ret i8 %7
}

; Function Attrs: nounwind uwtable
define dso_local i64 @element(i32 noundef %0) local_unnamed_addr #0 {
  %2 = call i32 @llvm.smax.i32(i32 %0, i32 0)
  %3 = zext nneg i32 %2 to i64
  %4 = call i64 @at(i64 noundef %3)
  ret i64 %4
}

declare i64 @at(i64 noundef) local_unnamed_addr #1

; Function Attrs: nounwind uwtable
define dso_local i64 @shifted(i32 noundef %0) local_unnamed_addr #0 {
  %2 = lshr i32 %0, 1
  %3 = zext nneg i32 %2 to i64
  %4 = call i64 @at(i64 noundef %3)
  ret i64 %4
}

; Function Attrs: nounwind uwtable
define dso_local i32 @halved(i8 noundef zeroext %0) local_unnamed_addr #0 {
  %2 = lshr i8 %0, 1
  %3 = add nuw i8 %2, 1
  %4 = zext i8 %3 to i32
  %5 = call i32 @scan(i32 noundef %4)
  ret i32 %5
}

; Function Attrs: nounwind uwtable
define dso_local i32 @twice(i32 noundef %0) local_unnamed_addr #0 {
  %2 = call i32 @next(i32 noundef %0)
  %3 = call i32 @next(i32 noundef %2)
  ret i32 %3
}

declare i32 @next(i32 noundef) local_unnamed_addr #1

; Function Attrs: nounwind uwtable
define dso_local i32 @chosen(i32 noundef %0, i32 noundef %1) local_unnamed_addr #0 {
  %3 = icmp sgt i32 %0, %1
  br i1 %3, label %4, label %7

4:
  %5 = call i32 @next(i32 noundef %0)
  %6 = add nsw i32 %5, %1
  br label %10

7:
  %8 = call i32 @next(i32 noundef %1)
  %9 = sub nsw i32 %8, %0
  br label %10

10:
  %11 = phi i32 [ %6, %4 ], [ %9, %7 ]
  ret i32 %11
}

; Function Attrs: nounwind uwtable
define dso_local i32 @ordered(i32 noundef %0, i32 noundef %1) local_unnamed_addr #0 {
  %3 = or i32 %1, %0
  %4 = icmp sgt i32 %3, -1
  %5 = icmp slt i32 %0, %1
  %6 = sub nsw i32 %1, %0
  %7 = select i1 %5, i32 %0, i32 %6
  %8 = select i1 %4, i32 %7, i32 -1
  %9 = call i32 @next(i32 noundef %8)
  ret i32 %9
}

; Function Attrs: nounwind uwtable
define dso_local noundef i32 @reported(i32 noundef returned %0) local_unnamed_addr #0 {
  %2 = trunc i32 %0 to i8
  call void @tell(i32 noundef %0, i8 noundef zeroext %2)
  call void @tell(i32 noundef 0, i8 noundef zeroext 1)
  ret i32 %0
}

declare void @tell(i32 noundef, i8 noundef zeroext) local_unnamed_addr #1

; Function Attrs: nounwind uwtable
define dso_local zeroext i8 @stepped(i8 noundef zeroext %0) local_unnamed_addr #0 {
  %2 = call zeroext i8 @step(i8 noundef zeroext %0)
  %3 = and i8 %2, 15
  %4 = call zeroext i8 @step(i8 noundef zeroext %3)
  ret i8 %4
}

; Function Attrs: nounwind uwtable
define dso_local i64 @summed(i32 noundef %0) local_unnamed_addr #0 {
  %2 = icmp sgt i32 %0, 0
  br i1 %2, label %5, label %3

3:
  %4 = phi i64 [ 0, %1 ], [ %9, %5 ]
  ret i64 %4

5:
  %6 = phi i32 [ %10, %5 ], [ 0, %1 ]
  %7 = phi i64 [ %9, %5 ], [ 0, %1 ]
  %8 = call i64 @wide(i64 noundef %7, i32 noundef %6)
  %9 = add nsw i64 %8, %7
  %10 = add nuw nsw i32 %6, 1
  %11 = icmp eq i32 %10, %0
  br i1 %11, label %3, label %5
}

declare i64 @wide(i64 noundef, i32 noundef) local_unnamed_addr #1

; Function Attrs: nounwind uwtable
define dso_local i32 @counted(i32 noundef %0) local_unnamed_addr #0 {
  %2 = icmp eq i32 %0, 0
  br i1 %2, label %11, label %3

3:
  %4 = phi i32 [ %9, %3 ], [ 0, %1 ]
  %5 = phi i32 [ %7, %3 ], [ %0, %1 ]
  %6 = add i32 %5, -1
  %7 = and i32 %6, %5
  %8 = call i32 @next(i32 noundef %4)
  %9 = add nsw i32 %8, %4
  %10 = icmp eq i32 %7, 0
  br i1 %10, label %11, label %3

11:
  %12 = phi i32 [ 0, %1 ], [ %9, %3 ]
  ret i32 %12
}

; Function Attrs: nounwind uwtable
define dso_local i32 @quotient(i32 noundef %0, i32 noundef %1) local_unnamed_addr #0 {
  %3 = icmp sgt i32 %1, 0
  %4 = icmp sgt i32 %0, -1
  %5 = and i1 %4, %3
  br i1 %5, label %6, label %8

6:
  %7 = udiv i32 %0, %1
  br label %8

8:
  %9 = phi i32 [ %7, %6 ], [ %0, %2 ]
  %10 = call i32 @next(i32 noundef %9)
  ret i32 %10
}

; Function Attrs: nounwind uwtable
define dso_local i32 @hours(i32 noundef %0) local_unnamed_addr #0 {
  %2 = udiv i32 %0, 3600
  %3 = urem i32 %2, 24
  %4 = call i32 @scan(i32 noundef %3)
  ret i32 %4
}

; Function Attrs: nounwind uwtable
define dso_local i32 @mixed(i32 noundef %0, i32 noundef %1) local_unnamed_addr #0 {
  %3 = shl i32 %0, 16
  %4 = and i32 %1, 65535
  %5 = or disjoint i32 %4, %3
  %6 = call i32 @scan(i32 noundef %5)
  %7 = xor i32 %6, %0
  ret i32 %7
}

; Function Attrs: nounwind uwtable
define dso_local i32 @weekday(i32 noundef %0) local_unnamed_addr #0 {
  switch i32 %0, label %6 [
    i32 0, label %3
    i32 6, label %2
  ]

2:
  br label %3

3:
  %4 = phi i32 [ 5, %2 ], [ 6, %1 ]
  %5 = call i32 @next(i32 noundef %4)
  br label %6

6:
  %7 = phi i32 [ %0, %1 ], [ %5, %3 ]
  ret i32 %7
}

; Function Attrs: nounwind uwtable
define dso_local i32 @digit(i8 noundef signext %0) local_unnamed_addr #0 {
  %2 = sext i8 %0 to i32
  %3 = add i8 %0, -48
  %4 = icmp ult i8 %3, 10
  %5 = add nsw i32 %2, -48
  %6 = select i1 %4, i32 %5, i32 %2
  %7 = call i32 @next(i32 noundef %6)
  ret i32 %7
}

; Function Attrs: nounwind uwtable
define dso_local i32 @average(i32 noundef %0, i32 noundef %1) local_unnamed_addr #0 {
  %3 = or i32 %1, %0
  %4 = add nuw nsw i32 %1, %0
  %5 = lshr i32 %4, 1
  %6 = icmp slt i32 %3, 0
  %7 = select i1 %6, i32 0, i32 %5
  %8 = call i32 @next(i32 noundef %7)
  ret i32 %8
}

; Function Attrs: nounwind uwtable
define dso_local i32 @below(i8 noundef zeroext %0, i8 noundef zeroext %1) local_unnamed_addr #0 {
  %3 = zext i8 %0 to i32
  %4 = lshr i32 %3, 1
  %5 = zext i8 %1 to i32
  %6 = lshr i32 %5, 1
  %7 = icmp samesign ult i32 %4, %6
  %8 = select i1 %7, i32 %3, i32 %5
  %9 = call i32 @next(i32 noundef %8)
  ret i32 %9
}

; Function Attrs: nocallback nocreateundeforpoison nofree nosync nounwind speculatable willreturn memory(none)
declare i32 @llvm.smax.i32(i32, i32) #2

attributes #0 = { nounwind uwtable "min-legal-vector-width"="0" "no-trapping-math"="true" "stack-protector-buffer-size"="8" "target-cpu"="x86-64" "target-features"="+cmov,+cx8,+fxsr,+mmx,+sse,+sse2,+x87" "tune-cpu"="generic" }
attributes #1 = { "no-trapping-math"="true" "stack-protector-buffer-size"="8" "target-cpu"="x86-64" "target-features"="+cmov,+cx8,+fxsr,+mmx,+sse,+sse2,+x87" "tune-cpu"="generic" }
attributes #2 = { nocallback nocreateundeforpoison nofree nosync nounwind speculatable willreturn memory(none) }
attributes #3 = { nounwind }

!llvm.module.flags = !{!0, !1, !2, !3}
!llvm.ident = !{!4}
!llvm.errno.tbaa = !{!5}

!0 = !{i32 1, !"wchar_size", i32 4}
!1 = !{i32 8, !"PIC Level", i32 2}
!2 = !{i32 7, !"PIE Level", i32 2}
!3 = !{i32 7, !"uwtable", i32 2}
!4 = !{!"Debian clang version 22.1.8 (1~deb12u1)"}
!5 = !{!6, !6, i64 0}
!6 = !{!"int", !7, i64 0}
!7 = !{!"omnipotent char", !8, i64 0}
!8 = !{!"Simple C/C++ TBAA"}
!9 = distinct !{!9, !10, !11}
!10 = !{!"llvm.loop.mustprogress"}
!11 = !{!"llvm.loop.unroll.disable"}
!12 = distinct !{!12, !10, !11}
