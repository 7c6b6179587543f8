define i8 @f(i8 %x) {
entry:
  ret i8 0
}
