! All stored numbers of a 58 by a formatted READ. Nothing is judged, and the lines are already cut into
! records of 80 columns: an internal file, so that no system call is timed.
subroutine read_by_format(records, lines, layout, numbers, count) bind(C)
  use, intrinsic :: iso_c_binding, only: c_double, c_f_pointer, c_int, c_ptr
  implicit none
  type(c_ptr), value :: records
  integer(c_int), value :: lines, layout, count
  real(c_double), intent(out) :: numbers(count)
  character(len=80), pointer :: record(:)

  call c_f_pointer(records, record, [lines])
  ! Document 01's eight cases.
  select case (layout)
  case (1:4)
    read (record, '(6E13.5)') numbers
  case (5, 7)
    read (record, '(4E20.12)') numbers
  case (6)
    read (record, '(2(E13.5,E20.12))') numbers
  case default
    read (record, '(E13.5,2E20.12)') numbers
  end select
end subroutine read_by_format
