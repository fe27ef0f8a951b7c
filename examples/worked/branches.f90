subroutine branches(n, m, x, y)
  integer :: n, i, j, m(n)
  integer(kind=8) :: x(n), y(n)
  !$omp parallel do private(j)
  do i = 1, n
    do j = 1, 3
      if (m(i) > j) then
        if (x(i) < 0) then
          y(i) = y(i)*x(i)
        else if (mod(j, 2) == 0) then
          y(i) = x(i)**2
        else
          y(i) = y(i) - x(i)*j
        end if
      else if (m(i) == j) then
        x(i) = -x(i)
      end if
    end do
  end do
end subroutine branches
