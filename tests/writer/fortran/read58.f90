! Reads one dataset 58 from standard input, its data by the FORMATs of source document 001, and prints
! the bits of each stored number in hexadecimal, one number a line.
program read58
  use, intrinsic :: iso_fortran_env, only: input_unit, int64, output_unit, real64
  implicit none

  integer :: ordinate_type, values, spacing, numbers_in_value
  real(real64), allocatable :: numbers(:)

  ! The delimiter, the number line and records 1 to 6.
  call skip(8)
  read (input_unit, '(3I10)') ordinate_type, values, spacing
  call skip(4)

  numbers_in_value = 1
  if (ordinate_type > 4) numbers_in_value = 2
  if (spacing == 0) numbers_in_value = numbers_in_value + 1
  allocate (numbers(values * numbers_in_value))

  if (ordinate_type == 2 .or. ordinate_type == 5) then
    read (input_unit, '(6E13.5)', blank='null') numbers
  else if (spacing == 1) then
    read (input_unit, '(4E20.12)', blank='null') numbers
  else if (ordinate_type == 4) then
    read (input_unit, '(2(E13.5,E20.12))', blank='null') numbers
  else
    read (input_unit, '(E13.5,2E20.12)', blank='null') numbers
  end if
  write (output_unit, '(Z16.16)') transfer(numbers, [0_int64])

contains

  subroutine skip(lines)
    integer, intent(in) :: lines
    integer :: i

    do i = 1, lines
      read (input_unit, '(A)')
    end do
  end subroutine skip

end program read58
