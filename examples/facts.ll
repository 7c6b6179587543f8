define i4 @carry(i4 %x) {
entry:
  %a = and i4 %x, 2
  %b = or i4 %a, 1
  %r = add i4 %b, 1
  ret i4 %r
}

define i32 @count(i32 noundef %x) {
entry:
  br label %head

head:
  %i = phi i32 [ 0, %entry ], [ %n, %body ]
  %c = icmp ult i32 %i, 10
  br i1 %c, label %body, label %exit

body:
  %n = add i32 %i, 1
  br label %head

exit:
  %done = icmp eq i32 %i, 10
  br i1 %done, label %yes, label %no

yes:
  ret i32 %i

no:
  ret i32 %x
}

declare void @llvm.assume(i1)

define i8 @dead(i8 %x) {
entry:
  call void @llvm.assume(i1 false)
  br label %next

next:
  ret i8 %x
}

define ptr @outside(ptr %p) {
  ret ptr %p
}
