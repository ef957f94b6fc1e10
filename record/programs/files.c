/* collectives on a window and on a file, and one of another kind: none is recorded, each is counted under its name */
#include <mpi.h>
#include <stdio.h>
#include <unistd.h>
#define W MPI_COMM_WORLD
int main(int argc, char **argv)
{
    int me, x = 3, y = 0;
    char path[64];
    MPI_Init(&argc, &argv);
    MPI_Comm_rank(W, &me);
    MPI_Win window;
    MPI_Win_create(&x, sizeof x, sizeof x, MPI_INFO_NULL, W, &window);
    MPI_Win_fence(0, window);
    MPI_Get(&y, 1, MPI_INT, 0, 0, 1, MPI_INT, window);
    MPI_Win_fence(0, window);
    MPI_Win_free(&window);
    MPI_File file;
    snprintf(path, sizeof path, "/tmp/record_files.%d", (int)getuid());
    MPI_File_open(W, path, MPI_MODE_CREATE | MPI_MODE_RDWR | MPI_MODE_DELETE_ON_CLOSE, MPI_INFO_NULL, &file);
    MPI_File_write_at_all(file, me * sizeof me, &me, 1, MPI_INT, MPI_STATUS_IGNORE);
    MPI_File_close(&file);
    MPI_Info info;
    MPI_Info_create(&info);
    MPI_Comm_set_info(W, info);
    MPI_Info_free(&info);
    MPI_Allreduce(&me, &y, 1, MPI_INT, MPI_SUM, W);
    MPI_Finalize();
    return 0;
}
