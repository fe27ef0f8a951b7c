subroutine scale(n, a, x, y)
  integer :: n, i
  integer(kind=8) :: a, x(n), y(n)
  !$omp parallel do
  do i = 1, n
    y(i) = a*x(i)
  end do
end subroutine scale
