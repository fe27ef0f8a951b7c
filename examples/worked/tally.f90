subroutine tally(n, c, x, y)
  integer :: n, i, c(n)
  integer(kind=8) :: x(n), y(n)
  !$omp parallel do
  do i = 1, n
    !$omp atomic
    y(c(i)) = y(c(i)) + x(i)*x(i)
  end do
end subroutine tally
