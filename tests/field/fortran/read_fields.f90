! Reads lines by FORMATs with gfortran's own formatted READ. Each question on standard input is four lines: the FORMAT in brackets, the number of
! rounds, for each round how many integers, reals and texts follow each other, and the line. Printed is a line for each item: an integer, the bits
! of a real in hexadecimal, a text; a question that gfortran refuses is one line that begins with a question mark.
program read_fields
  use, intrinsic :: iso_fortran_env, only: input_unit, int64, output_unit, real64
  implicit none

  integer, parameter :: most = 80, longest = 200
  integer, parameter :: wide = selected_int_kind(30)
  character(len=longest) :: layout, line, message
  integer :: rounds, n, k, status
  integer :: items(3, most)
  integer(wide) :: integers(most, most)
  real(real64) :: reals(most, most)
  character(len=most) :: texts(most, most)

  do
    read (input_unit, '(A)', iostat=status) layout
    if (status /= 0) exit
    read (input_unit, *) rounds
    read (input_unit, *) items(:, 1:rounds)
    read (input_unit, '(A)') line
    read (line(1:most), layout, iostat=status, iomsg=message) &
      ((integers(n, k), n=1, items(1, k)), (reals(n, k), n=1, items(2, k)), (texts(n, k), n=1, items(3, k)), k=1, rounds)
    if (status /= 0) then
      write (output_unit, '(2A)') '? ', trim(message)
      cycle
    end if
    do k = 1, rounds
      do n = 1, items(1, k)
        write (output_unit, '(I0)') integers(n, k)
      end do
      do n = 1, items(2, k)
        write (output_unit, '(Z16.16)') transfer(reals(n, k), 0_int64)
      end do
      do n = 1, items(3, k)
        write (output_unit, '(A)') trim(texts(n, k))
      end do
    end do
  end do

end program read_fields
