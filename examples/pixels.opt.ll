; ModuleID = 'pixels.c'
source_filename = "pixels.c"
target datalayout = "e-m:e-p270:32:32-p271:32:32-p272:64:64-i64:64-f80:128-n8:16:32:64-S128"
target triple = "x86_64-pc-linux-gnu"

; Function Attrs: mustprogress nofree norecurse nosync nounwind readnone uwtable willreturn
define dso_local i32 @packed(i8 noundef zeroext %0, i8 noundef zeroext %1, i8 noundef zeroext %2) local_unnamed_addr #0 {
  %4 = zext i8 %0 to i32
  %5 = shl nuw nsw i32 %4, 16
  %6 = zext i8 %1 to i32
  %7 = shl nuw nsw i32 %6, 8
  %8 = or disjoint i32 %7, %5
  %9 = zext i8 %2 to i32
  %10 = or disjoint i32 %8, %9
  ret i32 %10
}

; Function Attrs: mustprogress nofree norecurse nosync nounwind readnone uwtable willreturn
define dso_local zeroext i16 @short_of(i32 noundef %0) local_unnamed_addr #0 {
  %2 = lshr i32 %0, 8
  %3 = and i32 %2, 63488
  %4 = lshr i32 %0, 5
  %5 = and i32 %4, 2016
  %6 = or disjoint i32 %3, %5
  %7 = lshr i32 %0, 3
  %8 = and i32 %7, 31
  %9 = or disjoint i32 %6, %8
  %10 = trunc nuw i32 %9 to i16
  ret i16 %10
}

; Function Attrs: mustprogress nofree norecurse nosync nounwind readnone uwtable willreturn
define dso_local i32 @colour_of(i16 noundef zeroext %0) local_unnamed_addr #0 {
  %2 = zext i16 %0 to i32
  %3 = lshr i32 %2, 11
  %4 = lshr i32 %2, 5
  %5 = and i32 %4, 63
  %6 = and i32 %2, 31
  %7 = mul nuw nsw i32 %3, 255
  %8 = trunc i32 %7 to i16
  %9 = udiv i16 %8, 31
  %10 = zext i16 %9 to i32
  %11 = shl nuw nsw i32 %10, 16
  %12 = mul nuw nsw i32 %5, 255
  %13 = trunc i32 %12 to i16
  %14 = udiv i16 %13, 63
  %15 = zext i16 %14 to i32
  %16 = shl nuw nsw i32 %15, 8
  %17 = mul nuw nsw i32 %6, 255
  %18 = trunc i32 %17 to i16
  %19 = udiv i16 %18, 31
  %20 = zext i16 %19 to i32
  %21 = or disjoint i32 %11, %20
  %22 = or disjoint i32 %21, %16
  ret i32 %22
}

; Function Attrs: mustprogress nofree norecurse nosync nounwind readnone uwtable willreturn
define dso_local i32 @brightness(i32 noundef %0) local_unnamed_addr #0 {
  %2 = lshr i32 %0, 16
  %3 = and i32 %2, 255
  %4 = mul nuw nsw i32 %3, 77
  %5 = lshr i32 %0, 8
  %6 = and i32 %5, 255
  %7 = mul nuw nsw i32 %6, 150
  %8 = and i32 %0, 255
  %9 = mul nuw nsw i32 %8, 29
  %10 = add nuw nsw i32 %7, %9
  %11 = add nuw nsw i32 %10, %4
  %12 = lshr i32 %11, 8
  ret i32 %12
}

; Function Attrs: mustprogress nofree norecurse nosync nounwind readnone uwtable willreturn
define dso_local zeroext i8 @over(i8 noundef zeroext %0, i8 noundef zeroext %1, i8 noundef zeroext %2) local_unnamed_addr #0 {
  %4 = zext i8 %0 to i32
  %5 = zext i8 %2 to i32
  %6 = mul nuw nsw i32 %5, %4
  %7 = zext i8 %1 to i32
  %8 = xor i32 %5, 255
  %9 = mul nuw nsw i32 %8, %7
  %10 = add nuw nsw i32 %9, %6
  %11 = udiv i32 %10, 255
  %12 = trunc i32 %11 to i8
  ret i8 %12
}

; Function Attrs: mustprogress nofree norecurse nosync nounwind readnone uwtable willreturn
define dso_local zeroext i8 @halfway(i8 noundef zeroext %0, i8 noundef zeroext %1) local_unnamed_addr #0 {
  %3 = zext i8 %0 to i16
  %4 = zext i8 %1 to i16
  %5 = add nuw nsw i16 %4, %3
  %6 = lshr i16 %5, 1
  %7 = trunc nuw i16 %6 to i8
  ret i8 %7
}

; Function Attrs: mustprogress nofree nosync nounwind readnone uwtable willreturn
define dso_local i32 @distance(i8 noundef zeroext %0, i8 noundef zeroext %1) local_unnamed_addr #1 {
  %3 = zext i8 %0 to i32
  %4 = zext i8 %1 to i32
  %5 = sub nsw i32 %3, %4
  %6 = call i32 @llvm.abs.i32(i32 %5, i1 true)
  ret i32 %6
}

; Function Attrs: mustprogress nofree norecurse nosync nounwind readnone uwtable willreturn
define dso_local i32 @inverted(i32 noundef %0) local_unnamed_addr #0 {
  %2 = and i32 %0, 16777215
  %3 = xor i32 %2, 16777215
  ret i32 %3
}

; Function Attrs: mustprogress nofree norecurse nosync nounwind readnone uwtable willreturn
define dso_local i32 @place(i32 noundef %0, i32 noundef %1) local_unnamed_addr #0 {
  %3 = icmp ugt i32 %0, 639
  %4 = icmp ugt i32 %1, 479
  %5 = or i1 %3, %4
  %6 = mul i32 %1, 640
  %7 = add i32 %6, %0
  %8 = select i1 %5, i32 307200, i32 %7
  ret i32 %8
}

; Function Attrs: mustprogress nofree norecurse nosync nounwind readnone uwtable willreturn
define dso_local i32 @column(i32 noundef %0) local_unnamed_addr #0 {
  %2 = icmp ult i32 %0, 307200
  %3 = urem i32 %0, 640
  %4 = select i1 %2, i32 %3, i32 0
  ret i32 %4
}

; Function Attrs: mustprogress nofree norecurse nosync nounwind readnone uwtable willreturn
define dso_local i32 @row(i32 noundef %0) local_unnamed_addr #0 {
  %2 = icmp ult i32 %0, 307200
  %3 = udiv i32 %0, 640
  %4 = select i1 %2, i32 %3, i32 0
  ret i32 %4
}

; Function Attrs: nofree nosync nounwind readnone speculatable willreturn
declare i32 @llvm.abs.i32(i32, i1 immarg) #2

attributes #0 = { mustprogress nofree norecurse nosync nounwind readnone uwtable willreturn "frame-pointer"="none" "min-legal-vector-width"="0" "no-jump-tables"="true" "no-trapping-math"="true" "stack-protector-buffer-size"="8" "target-cpu"="x86-64" "target-features"="+cx8,+fxsr,+mmx,+sse,+sse2,+x87" "tune-cpu"="generic" }
attributes #1 = { mustprogress nofree nosync nounwind readnone uwtable willreturn "frame-pointer"="none" "min-legal-vector-width"="0" "no-jump-tables"="true" "no-trapping-math"="true" "stack-protector-buffer-size"="8" "target-cpu"="x86-64" "target-features"="+cx8,+fxsr,+mmx,+sse,+sse2,+x87" "tune-cpu"="generic" }
attributes #2 = { nofree nosync nounwind readnone speculatable willreturn }

!llvm.module.flags = !{!0, !1, !2, !3}
!llvm.ident = !{!4}

!0 = !{i32 1, !"wchar_size", i32 4}
!1 = !{i32 7, !"PIC Level", i32 2}
!2 = !{i32 7, !"PIE Level", i32 2}
!3 = !{i32 7, !"uwtable", i32 1}
!4 = !{!"Debian clang version 14.0.6"}
