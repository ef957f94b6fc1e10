! LOGICAL: its operations, and that it is sent
program logicals
  use mpi
  integer :: me, e
  logical :: mine(2), one(2), all(2), each(6)
  call MPI_Init(e)
  call MPI_Comm_rank(MPI_COMM_WORLD, me, e)
  mine = (/ me == 1, me < 2 /)
  call MPI_Allreduce(mine, one, 2, MPI_LOGICAL, MPI_LOR, MPI_COMM_WORLD, e)
  call MPI_Allreduce(mine, all, 2, MPI_LOGICAL, MPI_LAND, MPI_COMM_WORLD, e)
  call MPI_Allreduce(mine, all, 2, MPI_LOGICAL, MPI_LXOR, MPI_COMM_WORLD, e)
  call MPI_Bcast(one, 2, MPI_LOGICAL, 0, MPI_COMM_WORLD, e)
  call MPI_Allgather(mine, 2, MPI_LOGICAL, each, 2, MPI_LOGICAL, MPI_COMM_WORLD, e)
  call MPI_Finalize(e)
end program
