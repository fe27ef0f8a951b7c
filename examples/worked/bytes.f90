subroutine bytes(n, x, y)
  integer :: n, i
  integer(kind=1) :: x(n), y(n), t
  t = 1
  do i = 1, n
    y(i) = x(i)*t + max(x(i), t)
    t = t*x(i) - 3
  end do
end subroutine bytes
