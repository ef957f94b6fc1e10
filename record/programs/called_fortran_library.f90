! The library of called_fortran.f90: where it is told to, it takes another operation than the other ranks.
subroutine solve_in_fortran(comm, is_wrong)
  use mpi
  integer :: comm, x, y, e
  logical :: is_wrong
  x = 1
  if (is_wrong) then
    call MPI_Allreduce(x, y, 1, MPI_INTEGER, MPI_MAX, comm, e)
  else
    call MPI_Allreduce(x, y, 1, MPI_INTEGER, MPI_SUM, comm, e)
  end if
end subroutine
