subroutine over(n, x)
  integer :: n, k
  integer(kind=8) :: x
  k = n + 1
  x = x + k
end subroutine over
