/* reductions of floats of all sizes, of complex numbers, of pairs, and by an operation of the program's own */
#include <mpi.h>
#include <complex.h>
#include <math.h>
#define W MPI_COMM_WORLD
static void harmonic(void *in, void *out, int *n, MPI_Datatype *t)
{
    (void)t;
    for (int i = 0; i < *n; i++) ((double *)out)[i] = 1 / (1 / ((double *)in)[i] + 1 / ((double *)out)[i]);
}
int main(int argc, char **argv)
{
    int me, n;
    MPI_Init(&argc, &argv);
    MPI_Comm_rank(W, &me); MPI_Comm_size(W, &n);
    double d[5] = {me + 0.1, -1e300 * me, 1e-310, me % 2 ? -0.0 : 0.0, me == 1 ? INFINITY : -1}, e[64];
    float f[3] = {me / 3.0f, -me * 1e30f, 0.1f}, g[64];
    long double l[2] = {me + 0.1L, -3}, m[64];
    MPI_Allreduce(d, e, 5, MPI_DOUBLE, MPI_MAX, W);
    MPI_Allreduce(d, e, 5, MPI_DOUBLE, MPI_MIN, W);
    MPI_Reduce(f, g, 3, MPI_FLOAT, MPI_MAX, 0, W);
    MPI_Scan(f, g, 3, MPI_FLOAT, MPI_MIN, W);
    MPI_Allreduce(l, m, 2, MPI_LONG_DOUBLE, MPI_MIN, W);
    struct { double value; int at; } p[2] = {{0.5 - me % 2, me}, {7, n - me}}, q[2];
    MPI_Allreduce(p, q, 2, MPI_DOUBLE_INT, MPI_MAXLOC, W);
    MPI_Allreduce(p, q, 2, MPI_DOUBLE_INT, MPI_MINLOC, W);
    struct { float value; int at; } r[1] = {{me * 0.25f - 1, me}}, s[1];
    MPI_Exscan(r, s, 1, MPI_FLOAT_INT, MPI_MINLOC, W);
    MPI_Allreduce(d, e, 3, MPI_DOUBLE, MPI_SUM, W);
    MPI_Allreduce(f, g, 3, MPI_FLOAT, MPI_SUM, W);
    MPI_Allreduce(l, m, 2, MPI_LONG_DOUBLE, MPI_SUM, W);
    MPI_Allreduce(f, g, 3, MPI_FLOAT, MPI_PROD, W);
    MPI_Scan(d, e, 1, MPI_DOUBLE, MPI_SUM, W);
    MPI_Exscan(d, e, 1, MPI_DOUBLE, MPI_SUM, W);
    for (int i = 0; i < n; i++) e[i] = i + me / 7.0;
    MPI_Reduce_scatter_block(e, g, 1, MPI_DOUBLE, MPI_SUM, W);
    double complex c = me + 0.3 * I, k;
    MPI_Allreduce(&c, &k, 1, MPI_C_DOUBLE_COMPLEX, MPI_SUM, W);
    MPI_Request request;
    MPI_Iallreduce(MPI_IN_PLACE, f, 3, MPI_FLOAT, MPI_SUM, W, &request);
    MPI_Wait(&request, MPI_STATUS_IGNORE);
    MPI_Iallreduce(MPI_IN_PLACE, d, 2, MPI_DOUBLE, MPI_MAX, W, &request);
    MPI_Wait(&request, MPI_STATUS_IGNORE);
    MPI_Op op;
    MPI_Op_create(harmonic, 1, &op);
    d[0] = me + 1;
    MPI_Allreduce(d, e, 1, MPI_DOUBLE, op, W);
    MPI_Op_free(&op);
    MPI_Finalize();
    return 0;
}
