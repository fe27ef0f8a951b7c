subroutine lin(n, x, y)
  integer :: n, i, j
  integer(kind=8) :: x(4*n), y(n,4)
  !$omp parallel do collapse(2)
  do i = 1, n
    do j = 1, 4
      y(i,j) = x(4*(i-1)+j)
    end do
  end do
end subroutine lin
