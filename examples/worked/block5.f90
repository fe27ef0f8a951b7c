subroutine block5(n, s, x)
  integer :: n, i, j
  integer(kind=8) :: s(n), x(4*n+1)
  !$omp parallel do
  do i = 1, n
    do j = 1, 5
      s(i) = s(i) + x(4*(i-1)+j)
    end do
  end do
end subroutine block5
