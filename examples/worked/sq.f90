subroutine sq(n, x)
  integer :: n, i
  integer(kind=8) :: x(n)
  !$omp parallel do
  do i = 1, n
    x(i) = x(i)*x(i)
  end do
end subroutine sq
