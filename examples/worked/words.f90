subroutine words(n, x, y)
  integer :: n, i
  integer(kind=2) :: x(0:n), y(n)
  !$omp parallel do
  do i = n, 1, -1
    y(i) = x(i)*x(i)*x(0) - abs(x(i)*300)
  end do
end subroutine words
