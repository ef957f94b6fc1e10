/* reductions by operations of the program's own, of integers, floats and a structure */
#include <mpi.h>
#include <stddef.h>
#define W MPI_COMM_WORLD
static void greatest(void *in, void *out, int *n, MPI_Datatype *type)
{
    (void)type;
    for (int i = 0; i < *n; i++) if (((int *)in)[i] > ((int *)out)[i]) ((int *)out)[i] = ((int *)in)[i];
}
static void sum(void *in, void *out, int *n, MPI_Datatype *type)
{
    (void)type;
    for (int i = 0; i < *n; i++) ((double *)out)[i] += ((double *)in)[i];
}
static void last_of(void *in, void *out, int *n, MPI_Datatype *type) { (void)in; (void)out; (void)n; (void)type; }      /* the right one */
typedef struct { char mark; int number; } Marked;
static void join(void *in, void *out, int *n, MPI_Datatype *type)
{
    Marked *a = in, *b = out;
    (void)type;
    for (int i = 0; i < *n; i++) { b[i].mark |= a[i].mark; b[i].number += a[i].number; }
}
int main(int argc, char **argv)
{
    int me, n, x[4], y[64], counts[64];
    double d[2], e[2];
    MPI_Op most, adds, last, joins;
    MPI_Init(&argc, &argv);
    MPI_Comm_rank(W, &me); MPI_Comm_size(W, &n);
    for (int i = 0; i < 4; i++) x[i] = (me * 7 + i * 5) % 11;
    for (int i = 0; i < 64; i++) { y[i] = me + i; counts[i] = i % 2; }
    d[0] = 1.0 / (me + 3); d[1] = me == 1 ? 1e16 : me == 2 ? -1e16 : 1;          /* whose sum depends on the order */
    MPI_Op_create(greatest, 1, &most); MPI_Op_create(sum, 1, &adds); MPI_Op_create(last_of, 0, &last); MPI_Op_create(join, 1, &joins);
    MPI_Allreduce(x, y, 4, MPI_INT, most, W);
    MPI_Reduce(me == 1 ? MPI_IN_PLACE : x, me == 1 ? x : 0, 4, MPI_INT, most, 1, W);
    MPI_Scan(x, y, 4, MPI_INT, last, W);
    MPI_Exscan(x, y, 4, MPI_INT, last, W);
    for (int i = 0; i < 64; i++) y[i] = me + i;
    int got[2];
    MPI_Reduce_scatter_block(y, got, 2, MPI_INT, most, W);
    MPI_Reduce_scatter(y, got, counts, MPI_INT, most, W);
    MPI_Allreduce(d, e, 2, MPI_DOUBLE, adds, W);
    Marked one = {1 << me, me}, all;
    int lengths[2] = {1, 1};
    MPI_Aint places[2] = {offsetof(Marked, mark), offsetof(Marked, number)};
    MPI_Datatype types[2] = {MPI_CHAR, MPI_INT}, marked;
    MPI_Type_create_struct(2, lengths, places, types, &marked);
    MPI_Type_commit(&marked);
    MPI_Allreduce(&one, &all, 1, marked, joins, W);
    MPI_Type_free(&marked);
    MPI_Op_free(&most); MPI_Op_free(&adds); MPI_Op_free(&last); MPI_Op_free(&joins);
    MPI_Finalize();
    return 0;
}
