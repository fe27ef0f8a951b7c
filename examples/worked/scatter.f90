subroutine scatter(n, c, x, y)
  integer :: n, i, c(n)
  integer(kind=8) :: x(n), y(n)
  !$omp parallel do
  do i = 1, n
    y(c(i)) = x(c(i))*x(c(i))
  end do
end subroutine scatter
