/* what is received lies where something else is received, or what is sent: by displacements, and by a buffer that begins inside the other. Blocks
 * that are sent may overlap, and blocks with gaps may lie in each other's gaps */
#include <mpi.h>
#define W MPI_COMM_WORLD
int main(int argc, char **argv)
{
    int me, n, x[128], y[256], ones[64], twos[64], near[64], far[64], none[64] = {0};
    MPI_Init(&argc, &argv);
    MPI_Comm_rank(W, &me); MPI_Comm_size(W, &n);
    for (int i = 0; i < 128; i++) x[i] = 100 * me + i;
    for (int i = 0; i < 64; i++) { ones[i] = 1; twos[i] = 2; near[i] = i; far[i] = 2 * i; }
    MPI_Alltoallv(x, twos, far, MPI_INT, y, twos, near, MPI_INT, W);
    MPI_Gatherv(x, 2, MPI_INT, y, twos, near, MPI_INT, 0, W);
    MPI_Allgatherv(x, 2, MPI_INT, y, twos, near, MPI_INT, W);
    for (int i = 0; i < n + 1; i++) y[i] = 10 * me + i;
    MPI_Alltoall(y, 1, MPI_INT, y + 1, 1, MPI_INT, W);
    MPI_Scatterv(x, twos, none, MPI_INT, y, 2, MPI_INT, 0, W);
    MPI_Datatype column, narrow;
    MPI_Type_vector(2, 1, n, MPI_INT, &column);
    MPI_Type_create_resized(column, 0, sizeof(int), &narrow);
    MPI_Type_commit(&narrow);
    MPI_Gatherv(x, 2, MPI_INT, y, ones, near, narrow, 0, W);
    for (int i = 0; i < n; i++) near[i] = 0;
    MPI_Gatherv(x, 2, MPI_INT, y, ones, near, narrow, 0, W);
    MPI_Type_free(&column); MPI_Type_free(&narrow);
    MPI_Finalize();
    return 0;
}
