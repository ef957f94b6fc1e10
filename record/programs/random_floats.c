/* reductions of floats drawn at random:  random_floats.c SEED CALLS  (all ranks draw the same kinds, types and counts) */
#include <mpi.h>
#include <complex.h>
#include <stdlib.h>
#include <string.h>
#define W MPI_COMM_WORLD
static unsigned long state, own;
static unsigned draw(unsigned long *from, unsigned below)
{
    *from = *from * 6364136223846793005u + 1442695040888963407u;
    return (*from >> 33) % below;
}
static double number(int wide)
{
    double value = (int)draw(&own, 2000001) / 1000.0 - 1000;
    int scale = draw(&own, wide ? 60 : 3);
    for (int i = 0; i < scale; i++) value *= draw(&own, 2) ? 3.7 : 0.21;
    return value;
}
typedef struct { float value; int at; } FloatInt;
typedef struct { double value; int at; } DoubleInt;
typedef struct { long value; int at; } LongInt;
typedef struct { short value; int at; } ShortInt;
typedef struct { long double value; int at; } LongDoubleInt;
static void fill(char *at, int type, int wide)
{
    switch (type) {
    case 0: *(float *)at = number(0); break;
    case 1: *(double *)at = number(wide); break;
    case 2: *(long double *)at = number(wide) / 3.0L; break;
    case 3: *(float complex *)at = number(0) + number(0) * I; break;
    case 4: *(double complex *)at = number(wide) + number(wide) * I; break;
    case 5: *(FloatInt *)at = (FloatInt){draw(&own, 5) - 2.5f, draw(&own, 9)}; break;
    case 6: *(DoubleInt *)at = (DoubleInt){draw(&own, 5) / 3.0, draw(&own, 9)}; break;
    case 7: *(LongInt *)at = (LongInt){(long)draw(&own, 3) << 40, draw(&own, 9)}; break;
    case 8: *(ShortInt *)at = (ShortInt){draw(&own, 4) - 2, draw(&own, 9)}; break;
    case 9: *(LongDoubleInt *)at = (LongDoubleInt){draw(&own, 4) / 7.0L, draw(&own, 9)}; break;
    }
}
int main(int argc, char **argv)
{
    int me, n, calls = argc > 2 ? atoi(argv[2]) : 100;
    MPI_Init(&argc, &argv);
    MPI_Comm_rank(W, &me); MPI_Comm_size(W, &n);
    state = argc > 1 ? atoi(argv[1]) : 1;
    own = state * 1000 + me;
    MPI_Datatype types[10] = {MPI_FLOAT, MPI_DOUBLE, MPI_LONG_DOUBLE, MPI_C_FLOAT_COMPLEX, MPI_C_DOUBLE_COMPLEX, MPI_FLOAT_INT, MPI_DOUBLE_INT,
        MPI_LONG_INT, MPI_SHORT_INT, MPI_LONG_DOUBLE_INT};
    int sizes[10] = {4, 8, 16, 8, 16, sizeof(FloatInt), sizeof(DoubleInt), sizeof(LongInt), sizeof(ShortInt), sizeof(LongDoubleInt)};
    MPI_Op plain[4] = {MPI_SUM, MPI_PROD, MPI_MAX, MPI_MIN}, located[2] = {MPI_MAXLOC, MPI_MINLOC};
    static char in[1 << 20], out[1 << 20];
    for (int call = 0; call < calls; call++) {
        int type = draw(&state, 10), kind = draw(&state, 8), root = draw(&state, n), wide = draw(&state, 2);
        int count = draw(&state, 4) ? draw(&state, 6) : draw(&state, 300), counts[64], total = 0, in_place = draw(&state, 3) == 0;
        MPI_Op op = type > 4 ? located[draw(&state, 2)] : plain[draw(&state, type > 2 ? 1 : 4)];
        for (int i = 0; i < n; i++) total += counts[i] = draw(&state, 4);
        memset(in, 0, sizeof in); memset(out, 0, sizeof out);
        for (int i = 0; i < count * n + total; i++) fill(in + i * sizes[type], type, wide);
        if (in_place) memcpy(out, in, sizeof out);
        const void *from = in_place ? MPI_IN_PLACE : in;
        MPI_Request request = MPI_REQUEST_NULL;
        switch (kind) {
        case 0: MPI_Reduce(in, out, count, types[type], op, root, W); break;
        case 1: MPI_Allreduce(from, out, count, types[type], op, W); break;
        case 2: MPI_Scan(from, out, count, types[type], op, W); break;
        case 3: MPI_Exscan(from, out, count, types[type], op, W); break;
        case 4: MPI_Reduce_scatter_block(in, out, count, types[type], op, W); break;
        case 5: MPI_Reduce_scatter(in, out, counts, types[type], op, W); break;
        case 6: MPI_Iallreduce(from, out, count, types[type], op, W, &request); break;
        case 7: MPI_Iscan(from, out, count, types[type], op, W, &request); break;
        }
        MPI_Wait(&request, MPI_STATUS_IGNORE);
    }
    MPI_Finalize();
    return 0;
}
