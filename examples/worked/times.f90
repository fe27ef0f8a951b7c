subroutine times(q, n, x, y)
  integer :: q, n, i, t
  integer(kind=8) :: x(n), y(n)
  do t = q, 1, -1
    !$omp parallel do schedule(dynamic, 2)
    do i = 1, n
      y(i) = y(i)*x(n+1-i) + t
    end do
    !$omp parallel do
    do i = 1, n
      x(i) = x(i) + y(i)*y(i)
    end do
  end do
end subroutine times
