subroutine stencil(n, x, y)
  integer :: n, i
  integer(kind=8) :: x(n), y(n)
  !$omp parallel do
  do i = 2, n-1
    y(i) = x(i-1) + x(i+1)
  end do
end subroutine stencil
