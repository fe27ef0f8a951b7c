subroutine stride(n, x, y)
  integer :: n, i
  integer(kind=8) :: x(n), y(n)
  !$omp parallel do
  do i = 1, n, 2
    y(i) = x(i)*x(i+1)
  end do
end subroutine stride
