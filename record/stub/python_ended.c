/* a program that is Python to the recorder, and calls after Python's end */
#include <mpi.h>
#include <stdlib.h>
static int is_running = 1;
int Py_IsInitialized(void) { return is_running; }
int PyGILState_Ensure(void) { if (!is_running) _Exit(3); return 0; }
void PyGILState_Release(int state) {}
void Py_DecRef(void *object) {}
void *PyEval_GetFrame(void) { return 0; }
void *PyFrame_GetCode(void *frame) { return 0; }
void *PyObject_GetAttrString(void *object, const char *name) { return 0; }
int PyFrame_GetLineNumber(void *frame) { return 0; }
const char *PyUnicode_AsUTF8(void *text) { return 0; }

int main(int argc, char **argv)
{
    MPI_Init(&argc, &argv); MPI_Barrier(MPI_COMM_WORLD); is_running = 0; MPI_Barrier(MPI_COMM_WORLD); MPI_Finalize();
    return 0;
}
