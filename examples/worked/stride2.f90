subroutine stride2(n, x, y)
  integer :: n, i
  integer(kind=8) :: x(n+2), y(n)
  !$omp parallel do
  do i = 1, n, 2
    y(i) = x(i)*x(i+2)
  end do
end subroutine stride2
