/* Stencils, paths and filters, as the benchmarks of PolyBench name them, written here anew. */
#include <assert.h>
#include <math.h>

void deriche(int W, int H, double a1, double a2, double a3, double b1, double b2, double in[W][H], double out[W][H], double y1[W][H],
             double y2[W][H])
{
    double xm1, ym1, ym2, xp1, xp2, yp1, yp2, tm1, tp1;
    for (int i = 0; i < W; i++) {
        ym1 = 0;
        ym2 = 0;
        xm1 = 0;
        for (int j = 0; j < H; j++) {
            y1[i][j] = a1 * in[i][j] + a2 * xm1 + b1 * ym1 + b2 * ym2;
            xm1 = in[i][j];
            ym2 = ym1;
            ym1 = y1[i][j];
        }
    }
    for (int i = 0; i < W; i++) {
        yp1 = 0;
        yp2 = 0;
        xp1 = 0;
        xp2 = 0;
        for (int j = H - 1; j >= 0; j--) {
            y2[i][j] = a2 * xp1 + a3 * xp2 + b1 * yp1 + b2 * yp2;
            xp2 = xp1;
            xp1 = in[i][j];
            yp2 = yp1;
            yp1 = y2[i][j];
        }
    }
    for (int i = 0; i < W; i++)
        for (int j = 0; j < H; j++)
            out[i][j] = a1 * (y1[i][j] + y2[i][j]);
    for (int j = 0; j < H; j++) {
        tm1 = 0;
        ym1 = 0;
        ym2 = 0;
        for (int i = 0; i < W; i++) {
            y1[i][j] = a3 * out[i][j] + a1 * tm1 + b1 * ym1 + b2 * ym2;
            tm1 = out[i][j];
            ym2 = ym1;
            ym1 = y1[i][j];
        }
    }
    for (int j = 0; j < H; j++) {
        tp1 = 0;
        yp1 = 0;
        yp2 = 0;
        for (int i = W - 1; i >= 0; i--) {
            y2[i][j] = a3 * tp1 + b1 * yp1 + b2 * yp2;
            tp1 = out[i][j];
            yp2 = yp1;
            yp1 = y2[i][j];
        }
    }
    for (int i = 0; i < W; i++)
        for (int j = 0; j < H; j++)
            out[i][j] = a2 * (y1[i][j] + y2[i][j]);
}

void floyd_warshall(int N, double path[N][N])
{
    for (int k = 0; k < N; k++)
        for (int i = 0; i < N; i++)
            for (int j = 0; j < N; j++)
                path[i][j] = fmin(path[i][j], path[i][k] + path[k][j]);
}

void nussinov(int N, double seq[N], double table[N][N])
{
    for (int i = N - 1; i >= 0; i--)
        for (int j = i + 1; j < N; j++) {
            if (j - 1 >= 0)
                table[i][j] = fmax(table[i][j], table[i][j - 1]);
            if (i + 1 < N)
                table[i][j] = fmax(table[i][j], table[i + 1][j]);
            if (j - 1 >= 0 && i + 1 < N) {
                if (i < j - 1)
                    table[i][j] = fmax(table[i][j], table[i + 1][j - 1] + fabs(seq[i] - seq[j]));
                else
                    table[i][j] = fmax(table[i][j], table[i + 1][j - 1]);
            }
            for (int k = i + 1; k < j; k++)
                table[i][j] = fmax(table[i][j], table[i][k] + table[k + 1][j]);
        }
}

void adi(int T, int N, double u[N][N], double v[N][N], double p[N][N], double q[N][N])
{
    for (int t = 1; t <= T; t++) {
        for (int i = 1; i < N - 1; i++) {
            v[0][i] = 1;
            p[i][0] = 0;
            q[i][0] = v[0][i];
            for (int j = 1; j < N - 1; j++) {
                p[i][j] = 1 / (p[i][j - 1] + 2);
                q[i][j] = (u[j][i - 1] + 3 * u[j][i] - u[j][i + 1] - q[i][j - 1]) / (p[i][j - 1] + 2);
            }
            v[N - 1][i] = 1;
            for (int j = N - 2; j >= 1; j--)
                v[j][i] = p[i][j] * v[j + 1][i] + q[i][j];
        }
        for (int i = 1; i < N - 1; i++) {
            u[i][0] = 1;
            p[i][0] = 0;
            q[i][0] = u[i][0];
            for (int j = 1; j < N - 1; j++) {
                p[i][j] = 1 / (p[i][j - 1] + 2);
                q[i][j] = (v[i - 1][j] + 3 * v[i][j] - v[i + 1][j] - q[i][j - 1]) / (p[i][j - 1] + 2);
            }
            u[i][N - 1] = 1;
            for (int j = N - 2; j >= 1; j--)
                u[i][j] = p[i][j] * u[i][j + 1] + q[i][j];
        }
    }
}

void fdtd_2d(int T, int NX, int NY, double ex[NX][NY], double ey[NX][NY], double hz[NX][NY], double field[T])
{
    assert(NX >= 1);
    for (int t = 0; t < T; t++) {
        for (int j = 0; j < NY; j++)
            ey[0][j] = field[t];
        for (int i = 1; i < NX; i++)
            for (int j = 0; j < NY; j++)
                ey[i][j] = ey[i][j] - 0.5 * (hz[i][j] - hz[i - 1][j]);
        for (int i = 0; i < NX; i++)
            for (int j = 1; j < NY; j++)
                ex[i][j] = ex[i][j] - 0.5 * (hz[i][j] - hz[i][j - 1]);
        for (int i = 0; i < NX - 1; i++)
            for (int j = 0; j < NY - 1; j++)
                hz[i][j] = hz[i][j] - 0.7 * (ex[i][j + 1] - ex[i][j] + ey[i + 1][j] - ey[i][j]);
    }
}

void heat_3d(int T, int N, double A[N][N][N], double B[N][N][N])
{
    for (int t = 1; t <= T; t++) {
        for (int i = 1; i < N - 1; i++)
            for (int j = 1; j < N - 1; j++)
                for (int k = 1; k < N - 1; k++)
                    B[i][j][k] = 0.125 * (A[i + 1][j][k] - 2 * A[i][j][k] + A[i - 1][j][k])
                        + 0.125 * (A[i][j + 1][k] - 2 * A[i][j][k] + A[i][j - 1][k])
                        + 0.125 * (A[i][j][k + 1] - 2 * A[i][j][k] + A[i][j][k - 1]) + A[i][j][k];
        for (int i = 1; i < N - 1; i++)
            for (int j = 1; j < N - 1; j++)
                for (int k = 1; k < N - 1; k++)
                    A[i][j][k] = 0.125 * (B[i + 1][j][k] - 2 * B[i][j][k] + B[i - 1][j][k])
                        + 0.125 * (B[i][j + 1][k] - 2 * B[i][j][k] + B[i][j - 1][k])
                        + 0.125 * (B[i][j][k + 1] - 2 * B[i][j][k] + B[i][j][k - 1]) + B[i][j][k];
    }
}

void jacobi_1d(int T, int N, double A[N], double B[N])
{
    for (int t = 0; t < T; t++) {
        for (int i = 1; i < N - 1; i++)
            B[i] = 0.33333 * (A[i - 1] + A[i] + A[i + 1]);
        for (int i = 1; i < N - 1; i++)
            A[i] = 0.33333 * (B[i - 1] + B[i] + B[i + 1]);
    }
}

void jacobi_2d(int T, int N, double A[N][N], double B[N][N])
{
    for (int t = 0; t < T; t++) {
        for (int i = 1; i < N - 1; i++)
            for (int j = 1; j < N - 1; j++)
                B[i][j] = 0.2 * (A[i][j] + A[i][j - 1] + A[i][1 + j] + A[1 + i][j] + A[i - 1][j]);
        for (int i = 1; i < N - 1; i++)
            for (int j = 1; j < N - 1; j++)
                A[i][j] = 0.2 * (B[i][j] + B[i][j - 1] + B[i][1 + j] + B[1 + i][j] + B[i - 1][j]);
    }
}

void seidel_2d(int T, int N, double A[N][N])
{
    for (int t = 0; t <= T - 1; t++)
        for (int i = 1; i <= N - 2; i++)
            for (int j = 1; j <= N - 2; j++)
                A[i][j] = (A[i - 1][j - 1] + A[i - 1][j] + A[i - 1][j + 1] + A[i][j - 1] + A[i][j] + A[i][j + 1] + A[i + 1][j - 1]
                    + A[i + 1][j] + A[i + 1][j + 1]) / 9;
}
