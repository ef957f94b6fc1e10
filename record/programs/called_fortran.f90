! a Fortran library makes the calls: a report names its line, and that of the Fortran program which called it; rank 2 leaves a loop a step early
program called
  use mpi
  use, intrinsic :: iso_c_binding
  interface
    function found(handle, name) bind(c, name='dlsym')
      use, intrinsic :: iso_c_binding
      type(c_ptr), value :: handle
      character(kind=c_char) :: name(*)
      type(c_funptr) :: found
    end function
    subroutine solves(comm, is_wrong)
      integer :: comm
      logical :: is_wrong
    end subroutine
  end interface
  procedure(solves), pointer :: solve
  integer :: me, step, e
  call c_f_procpointer(found(c_null_ptr, 'solve_in_fortran_' // c_null_char), solve)
  call MPI_Init(e)
  call MPI_Comm_rank(MPI_COMM_WORLD, me, e)
  call solve(MPI_COMM_WORLD, me == 2)
  do step = 1, 4
    if (me == 2 .and. step == 4) exit
    call solve(MPI_COMM_WORLD, .false.)
  end do
  call MPI_Barrier(MPI_COMM_WORLD, e)
  call MPI_Finalize(e)
end program
