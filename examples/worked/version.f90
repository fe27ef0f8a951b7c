subroutine version(n, b, c, z, w, y)
  integer :: n, i, k, b(n), c(n)
  integer(kind=8) :: z(n), w(n), y(n)
  !$omp parallel do private(k)
  do i = 1, n
    k = c(i)
    y(k) = 1
    k = b(i)
    w(i) = z(k)
  end do
end subroutine version
