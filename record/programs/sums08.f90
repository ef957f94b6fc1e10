! Fortran with the module of 2008, whose calls go another way to the C ones
program sums08
  use mpi_f08
  integer :: me, x(2), y(2)
  type(MPI_Comm) :: half
  call MPI_Init()
  call MPI_Comm_rank(MPI_COMM_WORLD, me)
  x = (/ me, 5 /)
  call MPI_Allreduce(x, y, 2, MPI_INTEGER, MPI_SUM, MPI_COMM_WORLD)
  call MPI_Comm_split(MPI_COMM_WORLD, mod(me, 2), 0, half)
  call MPI_Allreduce(MPI_IN_PLACE, x, 2, MPI_INTEGER, MPI_MAX, half)
  call MPI_Finalize()
end program
