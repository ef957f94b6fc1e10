/* persistent collectives, each started three times, one by one and together; MPI_INT and an own type */
#include <mpi.h>
#if MPI_VERSION < 4                     /* Open MPI 4 has them under other names */
#include <mpi-ext.h>
#define MPI_Allreduce_init MPIX_Allreduce_init
#define MPI_Allgather_init MPIX_Allgather_init
#define MPI_Bcast_init MPIX_Bcast_init
#endif
#define W MPI_COMM_WORLD
int main(int argc, char **argv)
{
    int me, n, x = 0, y = 0, z[64] = {0}, v[6] = {0};
    double d, e;
    MPI_Init(&argc, &argv);
    MPI_Comm_rank(W, &me); MPI_Comm_size(W, &n);
    MPI_Request r[4];
    MPI_Datatype gaps;
    MPI_Type_vector(3, 1, 2, MPI_INT, &gaps); MPI_Type_commit(&gaps);
    MPI_Allreduce_init(&x, &y, 1, MPI_INT, MPI_SUM, W, MPI_INFO_NULL, &r[0]);
    MPI_Allgather_init(&x, 1, MPI_INT, z, 1, MPI_INT, W, MPI_INFO_NULL, &r[1]);
    MPI_Bcast_init(v, 1, gaps, 1 % n, W, MPI_INFO_NULL, &r[2]);
    MPI_Allreduce_init(&d, &e, 1, MPI_DOUBLE, MPI_MAX, W, MPI_INFO_NULL, &r[3]);
    for (int i = 0; i < 3; i++) {
        x = 10 * me + i; d = -x; v[2] = i;
        MPI_Start(&r[0]);
        MPI_Wait(&r[0], MPI_STATUS_IGNORE);
        MPI_Startall(3, r + 1);
        MPI_Waitall(3, r + 1, MPI_STATUSES_IGNORE);
    }
    for (int i = 0; i < 4; i++) MPI_Request_free(&r[i]);
    MPI_Type_free(&gaps);
    MPI_Finalize();
    return 0;
}
