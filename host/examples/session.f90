! An example host in Fortran 2003: document 01's session by numbers. It prints the
! same lines as session.c and numbers.c. It holds a module with the interfaces of
! the calls that the session makes (a const array of the header is intent(in)
! here), and the program with a subroutine for each call, which makes it and
! prints its answer.
!
! Fortran has no unsigned integers. A count is an integer of kind c_int64_t, which
! goes up to 2^63 - 1, some 9.2 * 10^18: a column goes up to 10^16, and all that an
! accepted call takes or gives to 2.7 * 10^17. A number below zero that is handed
! over is read as one of 2^63 or more, which is above every ceiling and no permitted
! figure. Columns are counted from 1 here: a column's place is one more than in the
! header.
module jilghvani
    use, intrinsic :: iso_c_binding, only: c_int64_t
    implicit none

    integer, parameter :: i64 = c_int64_t
    integer, parameter :: asm1_columns = 13
    integer, parameter :: record_numbers = 61

    interface
        subroutine jilghvani_fresh(record) bind(c, name='jilghvani_fresh')
            import :: i64, record_numbers
            integer(i64), intent(out) :: record(record_numbers)
        end subroutine jilghvani_fresh

        function jilghvani_receive(record, v) result(refusal) bind(c, name='jilghvani_receive')
            import :: i64, record_numbers, asm1_columns
            integer(i64), intent(inout) :: record(record_numbers)
            integer(i64), intent(in) :: v(asm1_columns)
            integer(i64) :: refusal
        end function jilghvani_receive

        function jilghvani_feed(record, k, told) result(refusal) bind(c, name='jilghvani_feed')
            import :: i64, record_numbers
            integer(i64), intent(inout) :: record(record_numbers)
            integer(i64), value :: k
            integer(i64), intent(out) :: told(4)
            integer(i64) :: refusal
        end function jilghvani_feed

        function jilghvani_return(record, k, told) result(refusal) bind(c, name='jilghvani_return')
            import :: i64, record_numbers
            integer(i64), intent(inout) :: record(record_numbers)
            integer(i64), value :: k
            integer(i64), intent(out) :: told(1)
            integer(i64) :: refusal
        end function jilghvani_return

        function jilghvani_release(record, k, v) result(refusal) bind(c, name='jilghvani_release')
            import :: i64, record_numbers, asm1_columns
            integer(i64), intent(inout) :: record(record_numbers)
            integer(i64), value :: k
            integer(i64), intent(out) :: v(asm1_columns)
            integer(i64) :: refusal
        end function jilghvani_release

        function jilghvani_totals(record, told) result(refusal) bind(c, name='jilghvani_totals')
            import :: i64, record_numbers
            integer(i64), intent(in) :: record(record_numbers)
            integer(i64), intent(out) :: told(4)
            integer(i64) :: refusal
        end function jilghvani_totals
    end interface
end module jilghvani

program session
    use jilghvani
    implicit none

    integer, parameter :: ss = 2, xs = 4, so = 8, sno = 9
    character(len=4), parameter :: names(asm1_columns) = [character(len=4) :: &
        'si', 'ss', 'xi', 'xs', 'xbh', 'xba', 'xp', 'so', 'sno', 'snh', 'snd', 'xnd', 'salk']
    integer(i64) :: record(record_numbers), sludge(asm1_columns)

    call jilghvani_fresh(record)
    sludge = 0
    sludge(ss) = 10000
    sludge(xs) = 30000
    sludge(so) = 5000
    sludge(sno) = 100000000
    call receive(sludge)
    call feed(1000_i64)
    call feed(0_i64)
    call give_back(1000_i64)
    call release(1000_i64)
    call print_held()

contains

    ! Whether there was a refusal; prints the answer to a call that was refused.
    function refused(refusal)
        integer(i64), intent(in) :: refusal
        logical :: refused

        refused = refusal /= 0
        if (refused) print '(a, i0, a)', '(no ', refusal, ')'
    end function refused

    ! Receives a vector into the sludge tank.
    subroutine receive(v)
        integer(i64), intent(in) :: v(asm1_columns)

        if (refused(jilghvani_receive(record, v))) return
        print '(a)', '(ok receive)'
    end subroutine receive

    ! Feeds k thousandths of the sludge to the digester.
    subroutine feed(k)
        integer(i64), intent(in) :: k
        integer(i64) :: told(4)

        if (refused(jilghvani_feed(record, k, told))) return
        print '(4(a, i0), a)', '(ok feed burnt ', told(1), ' oxygen ', told(2), &
            ' nitrate ', told(3), ' warn ', told(4), ')'
    end subroutine feed

    ! Returns k thousandths of the digester to the reject tank.
    subroutine give_back(k)
        integer(i64), intent(in) :: k
        integer(i64) :: stripped(1)

        if (refused(jilghvani_return(record, k, stripped))) return
        print '(a, i0, a)', '(ok return stripped ', stripped(1), ')'
    end subroutine give_back

    ! Releases k thousandths of the reject tank.
    subroutine release(k)
        integer(i64), intent(in) :: k
        integer(i64) :: v(asm1_columns)
        integer :: i

        if (refused(jilghvani_release(record, k, v))) return
        print '(a, 13(3a, i0, a), a)', '(ok release', &
            (' (', trim(names(i)), ' ', v(i), ')', i = 1, asm1_columns), ')'
    end subroutine release

    ! Prints what the three tanks hold, as the held line does.
    subroutine print_held()
        integer(i64) :: told(4)

        if (refused(jilghvani_totals(record, told))) return
        print '(4(a, i0), a)', '(held cod ', told(1), ' tkn ', told(2), &
            ' oxygen ', told(3), ' nitrate ', told(4), ')'
    end subroutine print_held
end program session
