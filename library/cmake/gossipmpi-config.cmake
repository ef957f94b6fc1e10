# find_package(gossipmpi): the library gossipmpi::gossipmpi, the program gossipmpi::program, and gossipmpi_add_test.
get_filename_component(_gossipmpi "${CMAKE_CURRENT_LIST_DIR}/../../.." ABSOLUTE)
# the Fortran module, to be compiled with your own files
set(GOSSIPMPI_FORTRAN "${_gossipmpi}/include/gossipmpi.f90")
if(NOT TARGET gossipmpi::gossipmpi)
  add_library(gossipmpi::gossipmpi STATIC IMPORTED)
  set_target_properties(gossipmpi::gossipmpi PROPERTIES IMPORTED_LOCATION "${_gossipmpi}/lib/libgossipmpi.a"
    INTERFACE_INCLUDE_DIRECTORIES "${_gossipmpi}/include")
  add_executable(gossipmpi::program IMPORTED)
  set_target_properties(gossipmpi::program PROPERTIES IMPORTED_LOCATION "${_gossipmpi}/bin/gossipmpi")
endif()

# gossipmpi_add_test(NAME TARGET SCRIPT RANKS): under mpiexec, TARGET prints on RANKS ranks what SCRIPT gives each. After find_package(MPI). A relative
# SCRIPT is in the source folder. It fails where the script has a call that is refused or doesn't fit.
function(gossipmpi_add_test name target script ranks)
  get_filename_component(script "${script}" ABSOLUTE BASE_DIR "${CMAKE_CURRENT_SOURCE_DIR}")
  add_test(NAME ${name} COMMAND bash -eo pipefail -c [[
    "$0" eval --strict --explain < "$1" > "$2.expected"
    "${@:5}" "$3" "$4" "$2" | sort -s -n > "$2.got"
    diff "$2.expected" "$2.got"
]] $<TARGET_FILE:gossipmpi::program> ${script} $<TARGET_FILE:${target}> ${MPIEXEC_NUMPROC_FLAG} ${ranks} ${MPIEXEC_EXECUTABLE} ${MPIEXEC_PREFLAGS})
  set_tests_properties(${name} PROPERTIES TIMEOUT 60 PROCESSORS ${ranks})
endfunction()
