subroutine edges(n, m, q, a, b, u, r)
  integer :: n, m, q, a(m), b(m), e, i, t
  integer(kind=8) :: u(n), r(n), d
  do t = 1, q
    !$omp parallel do private(d)
    do e = 1, m
      d = u(a(e))*u(b(e))
      !$omp atomic
      r(a(e)) = r(a(e)) + d
      !$omp atomic
      r(b(e)) = r(b(e)) - d
    end do
    !$omp parallel do
    do i = 1, n
      u(i) = u(i) + r(i)
    end do
  end do
end subroutine edges
