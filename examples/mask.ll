define i8 @f(i8 %x) {
entry:
  %a = and i8 %x, 15
  %b = and i8 %a, -16
  ret i8 %b
}
