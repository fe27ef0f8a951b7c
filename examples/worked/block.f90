subroutine block(n, s, x)
  integer :: n, i, j
  integer(kind=8) :: s(n), x(4*n)
  !$omp parallel do
  do i = 1, n
    do j = 1, 4
      s(i) = s(i) + x(4*(i-1)+j)
    end do
  end do
end subroutine block
