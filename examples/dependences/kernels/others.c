/* What the benchmarks of PolyBench have not: strides, tiles, branches, diagonals, quotients and remainders, variables of several
   loops, subscripts that are not affine, loops that run downwards or below 0. */
#include <assert.h>
#include <math.h>

#define min(a, b) ((a) < (b) ? (a) : (b))
#define max(a, b) ((a) > (b) ? (a) : (b))

void red_black(int T, int N, double A[N])
{
    for (int t = 0; t < T; t++) {
        for (int i = 1; i < N - 1; i += 2)
            A[i] = A[i - 1] + A[i + 1];
        for (int i = 2; i < N - 1; i += 2)
            A[i] = A[i - 1] + A[i + 1];
    }
}

void tiles(int N, double A[N], double B[N])
{
    for (int b = 0; b < N; b += 4)
        for (int i = b; i < min(N, b + 4); i++)
            B[i] = A[i];
    for (int b = 0; b < N; b += 3)
        for (int i = b; i < min(N, b + 3); i++)
            A[i] = B[N - 1 - i];
}

void halves(int N, double A[4 * N], double B[4 * N])
{
    for (int i = 0; i < N; i++) {
        B[i] = A[2 * i];
        B[i + N] = A[2 * i + 1];
    }
    for (int i = 0; i < 2 * N; i++)
        A[i] = B[i];
    for (int i = 0; i < N; i++) {
        B[2 * i] = A[i];
        B[2 * i + 1] = A[3 * i];
    }
    for (int i = 0; i < 2 * N; i++)
        A[i] = B[i] + B[N];
}

void borders(int N, int M, double A[N][M])
{
    for (int i = 0; i < N; i++)
        for (int j = 0; j < M; j++) {
            if (i == 0 || j == 0 || i == N - 1)
                A[i][j] = 1;
            else if (i != j && !(i + j > M))
                A[i][j] = A[i - 1][j] + A[i][j - 1];
            else
                A[i][j] = A[i - 1][j - 1] + A[i + 1][j];
        }
}

void downwards(int N, double A[N], double B[N])
{
    for (int i = N - 1; i >= 1; i -= 3) {
        A[i] = B[i] + A[i - 1];
        B[i - 1] = A[i];
    }
    for (int i = N - 1; i >= 0; i--)
        A[i] = B[i] + A[N - 1 - i];
}

void diagonals(int N, int M, double A[N][M])
{
    for (int d = 2; d <= N + M - 2; d++)
        for (int i = max(1, d - M + 1); i <= min(N - 1, d - 1); i++)
            A[i][d - i] = A[i - 1][d - i] + A[i][d - i - 1];
}

void skewed(int T, int N, double A[N])
{
    for (int t = 0; t < T; t++)
        for (int s = t + 1; s < t + N - 1; s++)
            A[s - t] = A[s - t - 1] + A[s - t] + A[s - t + 1];
}

void below_zero(int N, int M, double A[N + M + 1], double B[N + M + 1])
{
    for (int i = -N; i <= M; i++)
        for (int j = max(-N, i - 2); j <= min(M, i + 1); j++)
            A[i + N] += B[j + N] + A[j + N];
    for (int i = M; i >= -N; i -= 2)
        B[i + N] = A[M - i] + B[M - i];
}

void parity(int N, double A[N], double B[N])
{
    for (int i = 0; i < N; i++) {
        if (!(i % 2))
            A[i] = B[i / 2];
        else
            A[i / 2] = A[i - 1];
        B[(N - 1 - i) / 3] = A[i];
    }
}

void middle(int N, double A[N + 1], double B[N + 1])
{
    for (int i = N / 2; i < N; i++)
        A[i] = B[N - 1 - i] + A[i / 2];
    for (int i = (N + 1) / 2; i >= N / 4; i -= 2)
        B[i] = A[i % 3] + A[i - i / 2 % 2];
}

void guarded(int N, double A[N])
{
    for (int i = 0; i < N; i++)
        if (i >= 3 && (i - 3) % 4 != 1)
            A[i] = A[(i - 3) / 2] + A[i - 3 + i / 3 / 2 % 2];
        else
            A[i] = A[7 / 2 - 3];
}

void clamped(int N, double A[N + 2])
{
    for (int i = 0; i < N; i++)
        for (int j = max(0, (i - 3) / 2); j < i; j++)
            A[j] = A[i - j] + A[i];
    for (int i = N - 1; i >= 0; i--)
        for (int j = i + 1; j > max((i - 5) / 3, 1); j--)
            A[j] = A[j - 1] + A[i / 2];
}

void declared(int N, double A[N], double B[N])
{
    int i, j;
    for (i = 0; i < N; i++) {
        for (j = 0; j < i; j++) {
            int k;
            for (k = j; k <= i; ++k)
                B[k] += A[k - j];
        }
        if (2 * i < N) {
            int k;
            for (k = N - 1; k > i; k -= 2)
                A[k] = B[k - i];
        }
    }
    for (j = N - 1; j >= 0; --j)
        B[j] = A[j];
}

void scattered(int N, int at[N], double H[11], double A[N][11], double B[N * N])
{
    for (int i = 0; i < 11; i++)
        H[i] = 0;
    for (int i = N - 1; i >= 0; i--) {
        H[at[i]] += A[0][at[i]];
        A[i][at[i]] = H[i / 2 % 11] + A[i][2];
        B[i * i] = A[i][2] + B[i];
    }
    H[3] = 1;
    for (int i = 0; i < N; i++) {
        B[i] = B[i * (N - i)] + H[3] + H[4];
        at[(3 * i + 1) % N] = 2 * i % 11;
        at[N - 1] = at[at[i] % N];
    }
}

void turning(int N, int M, double A[N], double T[M + 1])
{
    for (int i = 0; i < N; i++) {
        int last[1];
        last[0] = i;
        T[i % (M + 1)] = A[last[0]] + T[(i + 1) % (M + 1)];
        for (int j = 0; j <= M; j += 2)
            T[j] = T[j] + T[0];
        A[i] = T[M];
    }
}
