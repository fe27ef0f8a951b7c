subroutine square(x, y)
  !
  integer(kind=8) :: x, y
  y = x*x
end subroutine square
