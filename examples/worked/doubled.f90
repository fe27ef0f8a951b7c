subroutine doubled(n, c, x, y)
  integer :: n, i, c(n)
  integer(kind=8) :: x(n), y(2*n)
  !$omp parallel do
  do i = 1, n
    y(2*c(i)) = x(c(i))
  end do
end subroutine doubled
