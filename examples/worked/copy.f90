subroutine copy(n, x, y)
  integer :: n, i
  integer(kind=8) :: x(n), y(3)
  !$omp parallel do
  do i = 1, n
    y(i) = x(i)
  end do
end subroutine copy
