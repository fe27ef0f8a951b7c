subroutine pass(n, x, y)
  integer :: n, i
  integer(kind=8) :: x(n), y(n)
  !$omp parallel do
  do i = 1, n
    y(i) = x(i)
  end do
end subroutine pass
