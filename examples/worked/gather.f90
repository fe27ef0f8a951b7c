subroutine gather(n, p, c, x, y)
  integer :: n, p, i, c(n)
  integer(kind=8) :: x(p), y(n)
  !$omp parallel do
  do i = 1, n
    y(i) = x(c(i))
  end do
end subroutine gather
