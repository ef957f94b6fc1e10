/* an operation that is declared commutative, and isn't: what follows what, of functions a*x + b modulo 97; then it is declared as it is. And one
 * that isn't associative */
#include <mpi.h>
#define W MPI_COMM_WORLD
static void follow(void *first, void *then, int *n, MPI_Datatype *type)
{
    int *f = first, *g = then;
    (void)type;
    for (int i = 0; i < *n; i++) {
        int factor = f[2 * i] * g[2 * i] % 97, rest = (f[2 * i + 1] * g[2 * i] + g[2 * i + 1]) % 97;
        g[2 * i] = factor;
        g[2 * i + 1] = rest;
    }
}
static void subtract(void *from, void *what, int *n, MPI_Datatype *type)
{
    (void)type;
    for (int i = 0; i < *n; i++) ((int *)what)[i] = ((int *)from)[i] - ((int *)what)[i];
}
int main(int argc, char **argv)
{
    int me, x[2], y[2];
    MPI_Op op, right, less;
    MPI_Datatype map;
    MPI_Init(&argc, &argv);
    MPI_Comm_rank(W, &me);
    MPI_Type_contiguous(2, MPI_INT, &map);
    MPI_Type_commit(&map);
    x[0] = me + 2; x[1] = 3 * me + 1;
    MPI_Op_create(follow, 1, &op);
    MPI_Op_create(follow, 0, &right);
    MPI_Allreduce(x, y, 1, map, op, W);
    MPI_Allreduce(x, y, 1, map, right, W);
    MPI_Op_create(subtract, 0, &less);
    MPI_Allreduce(x, y, 2, MPI_INT, less, W);
    MPI_Op_free(&op); MPI_Op_free(&right); MPI_Op_free(&less);
    MPI_Type_free(&map);
    MPI_Finalize();
    return 0;
}
