! gossipmpi for Fortran 2003: status = gossipmpi_eval(script, text); also _check and _explain; status = gossipmpi_run(script, options, text); also
! _run_says. gossipmpi.h has statuses and texts.
module gossipmpi
  use iso_c_binding
  implicit none
  private
  public :: gossipmpi_eval, gossipmpi_check, gossipmpi_explain, gossipmpi_run, gossipmpi_run_says
  integer, parameter, public :: gossipmpi_finished = 0, gossipmpi_usage = 1, gossipmpi_refused = 2, gossipmpi_waiting = 3, &
    gossipmpi_memory = 4, gossipmpi_faults = 6

  abstract interface
    function c_call(script, length, out, room, needed) bind(c) result(status)
      import
      character(kind=c_char), intent(in) :: script(*)
      integer(c_size_t), value :: length, room
      character(kind=c_char), intent(inout) :: out(*)
      integer(c_size_t), intent(out) :: needed
      integer(c_int8_t) :: status
    end function

    function c_run(script, length, options, many, out, room, needed) bind(c) result(status)
      import
      character(kind=c_char), intent(in) :: script(*), options(*)
      integer(c_size_t), value :: length, many, room
      character(kind=c_char), intent(inout) :: out(*)
      integer(c_size_t), intent(out) :: needed
      integer(c_int8_t) :: status
    end function
  end interface
  procedure(c_call), bind(c, name='gossipmpi_eval') :: c_eval
  procedure(c_call), bind(c, name='gossipmpi_check') :: c_check
  procedure(c_call), bind(c, name='gossipmpi_explain') :: c_explain
  procedure(c_run), bind(c, name='gossipmpi_run') :: c_prints
  procedure(c_run), bind(c, name='gossipmpi_run_says') :: c_says
contains
  function gossipmpi_eval(script, text) result(status)
    character(*), intent(in) :: script
    character(:), allocatable, intent(out) :: text
    integer :: status
    status = asked(c_eval, script, text)
  end function

  function gossipmpi_check(script, text) result(status)
    character(*), intent(in) :: script
    character(:), allocatable, intent(out) :: text
    integer :: status
    status = asked(c_check, script, text)
  end function

  function gossipmpi_explain(script, text) result(status)
    character(*), intent(in) :: script
    character(:), allocatable, intent(out) :: text
    integer :: status
    status = asked(c_explain, script, text)
  end function

  function gossipmpi_run(script, options, text) result(status)
    character(*), intent(in) :: script, options
    character(:), allocatable, intent(out) :: text
    integer :: status
    status = ran(c_prints, script, options, text)
  end function

  function gossipmpi_run_says(script, options, text) result(status)
    character(*), intent(in) :: script, options
    character(:), allocatable, intent(out) :: text
    integer :: status
    status = ran(c_says, script, options, text)
  end function

  function ran(call, script, options, text) result(status)
    procedure(c_run) :: call
    character(*), intent(in) :: script, options
    character(:), allocatable, intent(out) :: text
    integer :: status
    integer(c_size_t) :: needed
    allocate (character(1024) :: text)
    status = call(script, len(script, c_size_t), options, len(options, c_size_t), text, len(text, c_size_t), needed)
    if (needed > len(text)) then
      deallocate (text)
      allocate (character(needed) :: text)
      status = call(script, len(script, c_size_t), options, len(options, c_size_t), text, len(text, c_size_t), needed)
    end if
    if (needed > len(text)) needed = 0
    text = text(1:needed)
  end function

  ! Asks once more where the text doesn't fit.
  function asked(call, script, text) result(status)
    procedure(c_call) :: call
    character(*), intent(in) :: script
    character(:), allocatable, intent(out) :: text
    integer :: status
    integer(c_size_t) :: needed
    allocate (character(1024) :: text)
    status = call(script, len(script, c_size_t), text, len(text, c_size_t), needed)
    if (needed > len(text)) then
      deallocate (text)
      allocate (character(needed) :: text)
      status = call(script, len(script, c_size_t), text, len(text, c_size_t), needed)
    end if
    if (needed > len(text)) needed = 0
    text = text(1:needed)
  end function
end module
