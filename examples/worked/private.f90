subroutine private(n, a, x, y)
  integer :: n, i, k
  integer(kind=8) :: a, x(n), y(n), t, u
  !$omp parallel do private(t, u, k) firstprivate(a)
  do i = 1, n
    k = n + 1 - i
    t = a*x(k)
    u = t*t + t
    t = u - a
    y(k) = t*u
  end do
end subroutine private
