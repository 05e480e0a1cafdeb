! Writes one small dataset 58 in each of the eight cases with the FORMATs of source document 001:
! case1.uff to case8.uff with the FORMATs as printed there (0.12345E+01), and case1-1p.uff to
! case8-1p.uff with the scale factor 1P before them (1.23450E+00). The last line holds only the
! numbers that are left: the whole list is written by one statement, whose FORMAT starts a new
! line when it is used up.
!
! exponents.uff and exponents-1p.uff have a dataset 164 and the eight cases one after the other, with
! numbers of sizes 10^-300 to 10^300: where an exponent needs three digits, the letter is dropped.
!
! full-old.uff and full-zero.uff have the eight cases with several counts each, written by the output
! statements of Addendum B as printed there but in case 8 (in capitals below): they write whole lines, so that the last
! line is full past the count. What stands there is what the arrays still hold: in full-old.uff the line
! before's numbers, or those of an earlier capture; in full-zero.uff zeros, the arrays being cleared.
program write58
  implicit none

  ! Record 12's FORMATs, with or without the scale factor.
  character(len=40) :: single, double, mixed, mixed_complex

  ! What the arrays of Addendum B hold before the first line.
  double precision, parameter :: earlier = -987.5d0

  call write_all('', '.uff')
  call write_all('1P,', '-1p.uff')
  call write_exponents('', 'exponents.uff')
  call write_exponents('1P,', 'exponents-1p.uff')
  call write_full('full-old.uff', .false.)
  call write_full('full-zero.uff', .true.)

contains

  subroutine write_all(scale_factor, suffix)
    character(len=*), intent(in) :: scale_factor, suffix

    integer :: lun, i, j

    real :: y1(7), x2(4), y2(4), x4(3), x6(3), x8(3)
    complex :: y3(4), y4(3)
    double precision :: y5(5), y6(3), y7(2, 3), y8(2, 3)

    y1 = [0.1, -0.2, 0.3, -0.4, 0.5, -0.6, 0.7]
    x2 = [0.0, 1.25e-3, 2.5e-3, 1.0e-2]
    y2 = [1.2345e5, -9.9999e-1, 3.0e38, -2.5e-37]
    y3 = [(1.0, -1.0), (1.5, 2.5), (0.0, 3.1416), (-4.0e-6, 0.0)]
    x4 = [10.0, 20.0, 31.5]
    y4 = [(0.5, -0.5), (-6.25e-2, 1.0e10), (7.0, 8.0)]
    y5 = [1.23456789012d0, -9.99999999999d12, 0.0d0, 9.87654321012d98, -1.0d-99]
    x6 = [0.0, 5.0e-1, -1.2345e-7]
    y6 = [-3.14159265359d0, 2.0d0, 6.02214076d23]
    y7 = reshape([1.0d0, -1.0d0, 2.5d-1, 7.5d-1, 1.0d6, -1.000001d0], [2, 3])
    x8 = [1.0, 2.0, 4.0]
    y8 = reshape([1.0d-5, -2.0d5, 0.0d0, 3.33333333333d-1, -4.4d0, 5.5d50], [2, 3])

    call set_formats(scale_factor)

    call open_set(lun, '1' // suffix, scale_factor, 2, size(y1), 1)
    write (lun, single) (y1(i), i=1,size(y1))
    call close_set(lun)

    call open_set(lun, '2' // suffix, scale_factor, 2, size(y2), 0)
    write (lun, single) (x2(i), y2(i), i=1,size(y2))
    call close_set(lun)

    call open_set(lun, '3' // suffix, scale_factor, 5, size(y3), 1)
    write (lun, single) (y3(i), i=1,size(y3))
    call close_set(lun)

    call open_set(lun, '4' // suffix, scale_factor, 5, size(y4), 0)
    write (lun, single) (x4(i), y4(i), i=1,size(y4))
    call close_set(lun)

    call open_set(lun, '5' // suffix, scale_factor, 4, size(y5), 1)
    write (lun, double) (y5(i), i=1,size(y5))
    call close_set(lun)

    call open_set(lun, '6' // suffix, scale_factor, 4, size(y6), 0)
    write (lun, mixed) (x6(i), y6(i), i=1,size(y6))
    call close_set(lun)

    call open_set(lun, '7' // suffix, scale_factor, 6, size(y7, 2), 1)
    write (lun, double) ((y7(i,j), i=1,2), j=1,size(y7, 2))
    call close_set(lun)

    ! Document 001 prints (X,Y(I),I=1,2), which would write X twice.
    call open_set(lun, '8' // suffix, scale_factor, 6, size(y8, 2), 0)
    write (lun, mixed_complex) (x8(j), (y8(i,j), i=1,2), j=1,size(y8, 2))
    call close_set(lun)
  end subroutine write_all

  ! Double precision in every case, E13.5 too. Each case has 1.0D-101 and 1.0D+150.
  subroutine write_exponents(scale_factor, name)
    character(len=*), intent(in) :: scale_factor, name

    integer :: lun, i, j

    double precision :: y1(8), x2(4), y2(4), y3(2, 4), x4(3), y4(2, 3)
    double precision :: y5(6), x6(3), y6(3), y7(2, 3), x8(3), y8(2, 3)

    y1 = [1.0d-101, 1.0d150, -1.2345d-300, 9.9999d299, 1.0d99, -1.0d-100, 1.0d100, -1.0d300]
    x2 = [0.0d0, 1.0d-300, 2.5d-200, 1.0d-101]
    y2 = [1.0d150, -9.8765d-150, 9.9999d98, -1.0d-101]
    y3 = reshape([1.0d-101, 1.0d150, -6.25d200, 7.5d-200, 0.0d0, 1.0d300, -1.0d-99, 3.1416d101], [2, 4])
    x4 = [1.0d-250, 1.0d-101, 1.0d2]
    y4 = reshape([1.0d150, -1.0d-150, 1.0d0, -1.0d0, 9.9999d-300, -2.0d299], [2, 3])
    y5 = [1.0d-101, 1.0d150, -1.23456789012d-101, 9.99999999999d299, 1.0d99, -9.87654321012d-300]
    x6 = [0.0d0, 1.0d-101, 1.2345d105]
    y6 = [1.0d150, -3.14159265359d-200, 6.02214076d223]
    y7 = reshape([1.0d-101, -1.0d-101, 1.0d150, 0.0d0, -1.00000000001d-100, 1.0d300], [2, 3])
    x8 = [1.0d-300, 1.0d-101, 1.0d150]
    y8 = reshape([1.0d-101, -1.0d150, 0.0d0, 3.33333333333d-150, -4.4d0, 5.5d250], [2, 3])

    call set_formats(scale_factor)

    open (newunit=lun, file=name, status='replace', action='write')
    call write_units(lun, scale_factor)

    call write_head(lun, '1', scale_factor, 2, size(y1), 1, [-1.0d-300, 1.0d-101, 1.0d150])
    write (lun, single) (y1(i), i=1,size(y1))
    call write_delimiter(lun)

    call write_head(lun, '2', scale_factor, 2, size(y2), 0, [0.0d0, 0.0d0, 1.0d150])
    write (lun, single) (x2(i), y2(i), i=1,size(y2))
    call write_delimiter(lun)

    call write_head(lun, '3', scale_factor, 5, size(y3, 2), 1, [0.0d0, 1.0d-101, -1.0d-101])
    write (lun, single) ((y3(i,j), i=1,2), j=1,size(y3, 2))
    call write_delimiter(lun)

    call write_head(lun, '4', scale_factor, 5, size(y4, 2), 0, [0.0d0, 0.0d0, -1.0d-101])
    write (lun, single) (x4(j), (y4(i,j), i=1,2), j=1,size(y4, 2))
    call write_delimiter(lun)

    call write_head(lun, '5', scale_factor, 4, size(y5), 1, [0.0d0, 1.0d-101, 0.0d0])
    write (lun, double) (y5(i), i=1,size(y5))
    call write_delimiter(lun)

    call write_head(lun, '6', scale_factor, 4, size(y6), 0, [0.0d0, 0.0d0, 0.0d0])
    write (lun, mixed) (x6(i), y6(i), i=1,size(y6))
    call write_delimiter(lun)

    call write_head(lun, '7', scale_factor, 6, size(y7, 2), 1, [1.0d150, 1.0d100, 1.0d99])
    write (lun, double) ((y7(i,j), i=1,2), j=1,size(y7, 2))
    call write_delimiter(lun)

    call write_head(lun, '8', scale_factor, 6, size(y8, 2), 0, [0.0d0, 0.0d0, 0.0d0])
    write (lun, mixed_complex) (x8(j), (y8(i,j), i=1,2), j=1,size(y8, 2))
    call close_set(lun)
  end subroutine write_exponents

  ! Sets of each case, with one value and with counts whose last number stands in the second line.
  subroutine write_full(name, cleared)
    character(len=*), intent(in) :: name
    logical, intent(in) :: cleared

    integer, parameter :: most(8) = [6, 3, 3, 2, 4, 2, 2, 1]
    integer :: lun, k, values

    open (newunit=lun, file=name, status='replace', action='write')
    do k = 1, 8
      call write_case(lun, k, 1, cleared)
      do values = most(k) + 1, 2 * most(k)
        call write_case(lun, k, values, cleared)
      end do
    end do
    close (lun)
  end subroutine write_full

  subroutine write_case(lun, k, nval, cleared)
    integer, intent(in) :: lun, k, nval
    logical, intent(in) :: cleared

    integer, parameter :: ordinate_type(8) = [2, 2, 5, 5, 4, 4, 6, 6]
    double precision :: increment

    increment = 0.0d0
    if (mod(k, 2) == 1) increment = 1.0d-3
    call write_head(lun, achar(iachar('0') + k), '', ordinate_type(k), nval, mod(k, 2), [0.0d0, increment, 0.0d0])
    select case (k)
    case (1)
      call case_1(lun, nval, cleared)
    case (2)
      call case_2(lun, nval, cleared)
    case (3)
      call case_3(lun, nval, cleared)
    case (4)
      call case_4(lun, nval, cleared)
    case (5)
      call case_5(lun, nval, cleared)
    case (6)
      call case_6(lun, nval, cleared)
    case (7)
      call case_7(lun, nval, cleared)
    case (8)
      call case_8(lun, nval)
    end select
    call write_delimiter(lun)
  end subroutine write_case

  ! Stored number k of a set (from 1): k eighths, with signs in turn.
  pure double precision function stored(k)
    integer, intent(in) :: k

    stored = 0.125d0 * k
    if (mod(k, 2) == 0) stored = -stored
  end function stored

  subroutine case_1(lun, nval, cleared)
    integer, intent(in) :: lun, nval
    logical, intent(in) :: cleared

    REAL Y(6)
    integer :: i, npro

    y = real(earlier)
    NPRO=0
10  CONTINUE
    if (cleared) y = 0.0
    do i = 1, min(6, nval - npro)
      y(i) = real(stored(npro + i))
    end do
    WRITE(LUN,1000)(Y(I),I=1,6)
1000 FORMAT(6E13.5)
    NPRO=NPRO+6
    IF(NPRO.LT.NVAL)GO TO 10
  end subroutine case_1

  subroutine case_2(lun, nval, cleared)
    integer, intent(in) :: lun, nval
    logical, intent(in) :: cleared

    REAL X(3),Y(3)
    integer :: i, npro

    x = real(earlier)
    y = real(earlier)
    NPRO=0
10  CONTINUE
    if (cleared) x = 0.0
    if (cleared) y = 0.0
    do i = 1, min(3, nval - npro)
      x(i) = real(stored(2 * (npro + i) - 1))
      y(i) = real(stored(2 * (npro + i)))
    end do
    WRITE(LUN,1000)(X(I),Y(I),I=1,3)
1000 FORMAT(6E13.5)
    NPRO=NPRO+3
    IF(NPRO.LT.NVAL)GO TO 10
  end subroutine case_2

  subroutine case_3(lun, nval, cleared)
    integer, intent(in) :: lun, nval
    logical, intent(in) :: cleared

    COMPLEX Y(3)
    integer :: i, npro

    y = cmplx(earlier, earlier, kind(1.0))
    NPRO=0
10  CONTINUE
    if (cleared) y = (0.0, 0.0)
    do i = 1, min(3, nval - npro)
      y(i) = cmplx(stored(2 * (npro + i) - 1), stored(2 * (npro + i)), kind(1.0))
    end do
    WRITE(LUN,1000)(Y(I),I=1,3)
1000 FORMAT(6E13.5)
    NPRO=NPRO+3
    IF(NPRO.LT.NVAL)GO TO 10
  end subroutine case_3

  subroutine case_4(lun, nval, cleared)
    integer, intent(in) :: lun, nval
    logical, intent(in) :: cleared

    REAL X(2)
    COMPLEX Y(2)
    integer :: i, npro

    x = real(earlier)
    y = cmplx(earlier, earlier, kind(1.0))
    NPRO=0
10  CONTINUE
    if (cleared) x = 0.0
    if (cleared) y = (0.0, 0.0)
    do i = 1, min(2, nval - npro)
      x(i) = real(stored(3 * (npro + i) - 2))
      y(i) = cmplx(stored(3 * (npro + i) - 1), stored(3 * (npro + i)), kind(1.0))
    end do
    WRITE(LUN,1000)(X(I),Y(I),I=1,2)
1000 FORMAT(6E13.5)
    NPRO=NPRO+2
    IF(NPRO.LT.NVAL)GO TO 10
  end subroutine case_4

  subroutine case_5(lun, nval, cleared)
    integer, intent(in) :: lun, nval
    logical, intent(in) :: cleared

    DOUBLE PRECISION Y(4)
    integer :: i, npro

    y = earlier
    NPRO=0
10  CONTINUE
    if (cleared) y = 0.0d0
    do i = 1, min(4, nval - npro)
      y(i) = stored(npro + i)
    end do
    WRITE(LUN,1000)(Y(I),I=1,4)
1000 FORMAT(4E20.12)
    NPRO=NPRO+4
    IF(NPRO.LT.NVAL)GO TO 10
  end subroutine case_5

  subroutine case_6(lun, nval, cleared)
    integer, intent(in) :: lun, nval
    logical, intent(in) :: cleared

    REAL X(2)
    DOUBLE PRECISION Y(2)
    integer :: i, npro

    x = real(earlier)
    y = earlier
    NPRO=0
10  CONTINUE
    if (cleared) x = 0.0
    if (cleared) y = 0.0d0
    do i = 1, min(2, nval - npro)
      x(i) = real(stored(2 * (npro + i) - 1))
      y(i) = stored(2 * (npro + i))
    end do
    WRITE(LUN,1000)(X(I),Y(I),I=1,2)
1000 FORMAT(2(E13.5,E20.12))
    NPRO=NPRO+2
    IF(NPRO.LT.NVAL)GO TO 10
  end subroutine case_6

  subroutine case_7(lun, nval, cleared)
    integer, intent(in) :: lun, nval
    logical, intent(in) :: cleared

    DOUBLE PRECISION Y(2,2)
    integer :: i, j, npro

    y = earlier
    NPRO=0
10  CONTINUE
    if (cleared) y = 0.0d0
    do j = 1, min(2, nval - npro)
      y(1, j) = stored(2 * (npro + j) - 1)
      y(2, j) = stored(2 * (npro + j))
    end do
    WRITE(LUN,1000)((Y(I,J),I=1,2),J=1,2)
1000 FORMAT(4E20.12)
    NPRO=NPRO+2
    IF(NPRO.LT.NVAL)GO TO 10
  end subroutine case_7

  ! A line is a value, so that it is never more than full. Addendum B prints (X,Y(I),I=1,2), which would
  ! write X twice.
  subroutine case_8(lun, nval)
    integer, intent(in) :: lun, nval

    REAL X
    DOUBLE PRECISION Y(2)
    integer :: i, npro

    NPRO=0
10  CONTINUE
    x = real(stored(3 * npro + 1))
    y = [stored(3 * npro + 2), stored(3 * npro + 3)]
    WRITE(LUN,1000)X,(Y(I),I=1,2)
1000 FORMAT(E13.5,2E20.12)
    NPRO=NPRO+1
    IF(NPRO.LT.NVAL)GO TO 10
  end subroutine case_8

  subroutine set_formats(scale_factor)
    character(len=*), intent(in) :: scale_factor

    single = '(' // scale_factor // '6E13.5)'
    double = '(' // scale_factor // '4E20.12)'
    mixed = '(' // scale_factor // '2(E13.5,E20.12))'
    mixed_complex = '(' // scale_factor // 'E13.5,2E20.12)'
  end subroutine set_formats

  ! A whole dataset 164.
  subroutine write_units(lun, scale_factor)
    integer, intent(in) :: lun
    character(len=*), intent(in) :: scale_factor

    character(len=20) :: description
    integer :: i

    description = 'SI: Meter (newton)'
    call write_delimiter(lun)
    write (lun, '(I6)') 164
    write (lun, '(I10,20A1,I10)') 1, (description(i:i), i=1,20), 2
    write (lun, '(' // scale_factor // '3D25.17)') 1.0d-101, 1.0d150, 1.2345d-300
    write (lun, '(' // scale_factor // 'D25.17)') -1.0d300
    call write_delimiter(lun)
  end subroutine write_units

  ! Opens a file and writes the delimiter, the number line and records 1 to 11.
  subroutine open_set(lun, name, scale_factor, ordinate_type, values, spacing)
    integer, intent(out) :: lun
    character(len=*), intent(in) :: name, scale_factor
    integer, intent(in) :: ordinate_type, values, spacing

    double precision :: increment

    increment = 0.0d0
    if (spacing == 1) increment = 1.0d-3
    open (newunit=lun, file='case' // name, status='replace', action='write')
    call write_head(lun, name(1:1), scale_factor, ordinate_type, values, spacing, [0.0d0, increment, 0.0d0])
  end subroutine open_set

  ! Writes the delimiter, the number line and records 1 to 11 of a case, named by its digit; record 7
  ! ends in abscissa minimum, increment and Z value.
  subroutine write_head(lun, digit, scale_factor, ordinate_type, values, spacing, abscissa)
    integer, intent(in) :: lun, ordinate_type, values, spacing
    character(len=*), intent(in) :: digit, scale_factor
    double precision, intent(in) :: abscissa(3)

    character(len=80) :: id_lines(5)
    character(len=10) :: entity
    integer :: i, k

    id_lines = 'NONE'
    id_lines(1) = 'Case ' // digit // ' written by Fortran'
    id_lines(3) = '30-JUN-99 12:00:00'
    entity = 'NONE'

    call write_delimiter(lun)
    write (lun, '(I6)') 58
    do k = 1, 5
      write (lun, '(80A1)') (id_lines(k)(i:i), i=1,80)
    end do
    write (lun, '(2(I5,I10),2(1X,10A1,I10,I4))') 1, 1, 0, 0, &
      (entity(i:i), i=1,10), 7, 3, (entity(i:i), i=1,10), 0, 0
    write (lun, '(' // scale_factor // '3I10,3E13.5)') ordinate_type, values, spacing, abscissa
    call write_axis(lun, 17, 'Time', 's')
    call write_axis(lun, 12, 'Acceleration', 'm/s2')
    call write_axis(lun, 0, 'NONE', 'NONE')
    call write_axis(lun, 0, 'NONE', 'NONE')
  end subroutine write_head

  ! One of the records 8 to 11.
  subroutine write_axis(lun, data_type, label, units)
    integer, intent(in) :: lun, data_type
    character(len=*), intent(in) :: label, units

    character(len=20) :: texts(2)
    integer :: i, k

    texts(1) = label
    texts(2) = units
    write (lun, '(I10,3I5,2(1X,20A1))') data_type, 0, 0, 0, ((texts(k)(i:i), i=1,20), k=1,2)
  end subroutine write_axis

  subroutine close_set(lun)
    integer, intent(in) :: lun

    call write_delimiter(lun)
    close (lun)
  end subroutine close_set

  subroutine write_delimiter(lun)
    integer, intent(in) :: lun

    write (lun, '(I6)') -1
  end subroutine write_delimiter

end program write58
