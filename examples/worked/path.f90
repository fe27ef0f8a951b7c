subroutine path(n, m, p, z, w, y)
  integer :: n, i, m(n), p(n)
  integer(kind=8) :: z(n), w(n), y(n)
  !$omp parallel do
  do i = 1, n
    if (m(i) > 0) y(p(i)) = 1
    w(i) = z(p(i))
  end do
end subroutine path
