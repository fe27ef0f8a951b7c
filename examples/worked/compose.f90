subroutine compose(n, c, d, x, y)
  integer :: n, i, c(n), d(n)
  integer(kind=8) :: x(n), y(n)
  !$omp parallel do
  do i = 1, n
    y(d(c(i))) = x(c(i))
  end do
end subroutine compose
