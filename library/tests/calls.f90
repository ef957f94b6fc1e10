! Calls each function of the module gossipmpi.
program calls
  use gossipmpi
  implicit none
  character(:), allocatable :: text
  character, parameter :: feed = new_line('a')
  character(*), parameter :: script = 'ranks 2'//feed//'0: allreduce world sum i32 1 2'//feed// &
    '1: allreduce world sum i32 3 4'//feed
  if (gossipmpi_eval(script, text) /= gossipmpi_finished) error stop 1
  if (text /= '0: 4 6'//feed//'1: 4 6'//feed) error stop 2
  if (gossipmpi_check('ranks 65', text) /= gossipmpi_refused) error stop 3
  if (text /= 'script line 1: RanksOutOfRange') error stop 4
  if (gossipmpi_explain('ranks 2'//feed//'0: barrier world', text) /= gossipmpi_waiting) error stop 5
  if (gossipmpi_eval('ranks 64'//feed//'*: allgather world i64 1 2 3 4 5 6 7 8', text) /= gossipmpi_finished) error stop 6
  if (len(text) < 2048) error stop 7
  if (gossipmpi_run(script, '--seed 7 --loss 20', text) /= gossipmpi_finished) error stop 8
  if (text /= '0: 4 6'//feed//'1: 4 6'//feed) error stop 9
  if (gossipmpi_run_says(script, '--trace', text) /= gossipmpi_finished) error stop 10
  if (index(text, 'turn 1: rank 1 posts world 0, line 3: allreduce world sum i32 3 4') == 0) error stop 11
end program
