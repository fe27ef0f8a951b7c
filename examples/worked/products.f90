subroutine products(a, b, c, y, z)
  integer(kind=8) :: a, b, c, y, z
  y = a*b*(a + c)*c*b
  z = max(a*b, b*c) + 2*abs(a - b)**3
  y = y*min(z, -a*c)
end subroutine products
