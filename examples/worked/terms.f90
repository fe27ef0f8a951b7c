subroutine terms(n, c, s, x, y)
  integer :: n, i, c(n)
  integer(kind=8) :: s, x(n), y(n)
  s = s + x(1) - 2*x(2) + x(1)*x(2)
  s = x(1)*x(1) + s
  !$omp parallel do reduction(+: s)
  do i = 1, n
    s = s - x(i) + x(i)*x(c(i)) - 3
    !$omp atomic
    y(c(i)) = y(c(i)) + x(i) + x(c(i)) + i
  end do
  x(1) = s*s
  y(1) = y(1)*y(2)
end subroutine terms
