/* Conditions and bounds of loops that hang on data, or are not affine otherwise. */
#include <assert.h>

#define min(a, b) ((a) < (b) ? (a) : (b))
#define max(a, b) ((a) > (b) ? (a) : (b))

void clipped(int N, double A[N], double low, double high, double B[N])
{
    for (int i = 0; i < N; i++) {
        if (A[i] < low)
            A[i] = low;
        else if (A[i] > high)
            A[i] = high;
        B[i] = A[i];
    }
}

void greatest(int N, double A[N], double out[2])
{
    double most = A[0];
    int at[1];
    at[0] = 0;
    for (int i = 1; i < N; i++)
        if (A[i] > most) {
            most = A[i];
            at[0] = i;
            out[0] = most + out[0];
        }
    out[0] = most;
    out[1] = at[0];
}

void relaxed(int N, double D[N][N], double B[N])
{
    for (int k = 0; k < N; k++)
        for (int i = 0; i < N; i++)
            for (int j = 0; j < N; j++)
                if (D[i][k] + D[k][j] < D[i][j])
                    D[i][j] = D[i][k] + D[k][j];
    for (int i = 0; i < N; i++)
        B[i] = D[i][N - 1 - i];
}

void mixed(int N, double A[N + 1], double B[N + 1])
{
    for (int i = 0; i < N; i++) {
        if (i > 2 && A[i] > B[i])
            A[i + 1] = B[i];
        else
            B[i] = A[i];
        if (A[i] < 1 || i % 2 == 0)
            B[i + 1] = A[i + 1];
        if (!(B[i] < 1 && i < 5)) {
            A[i] = B[i + 1];
            if (A[i] - 1)
                B[i] = A[i];
            B[i + 1] = A[i] + B[i];
        }
    }
}

void both_branches(int N, double A[N], double B[N])
{
    double x = 0, y = 1;
    for (int i = 0; i < N; i++) {
        if (x < y) {
            x = A[i];
            if (i > 0)
                A[i] = B[i - 1] + x;
            y = A[i] - x;
        } else {
            y = B[i];
            x = x + y;
        }
        B[i] = x * y;
        x = y;
    }
}

void ragged(int N, int M, int L[N], double A[N][M], double B[N])
{
    double sum;
    for (int i = 0; i < N; i++) {
        sum = 0;
        for (int j = 0; j < min(M, L[i]); j++) {
            sum += A[i][j];
            A[i][j] = sum;
        }
        B[i] = sum + A[i][0];
        for (int j = M - 1; j >= max(0, L[N - 1 - i] - 2); j--) {
            A[i][j] = A[i][M - 1] + B[i];
            B[i] = A[i][j];
        }
    }
}

void starting(int N, int L[N + 1], double A[N], double B[N])
{
    for (int i = 0; i < N; i++) {
        for (int j = max(0, L[i] - 3); j < min(N, L[i + 1]); j++) {
            A[j] = B[j];
            B[i] += A[j] + A[i];
        }
        for (int j = 1; j < min(i, L[i]); j += 2)
            A[j] = A[j - 1] + A[N - 1 - j];
    }
}

void squares(int N, double A[N], double B[N])
{
    for (int i = 0; i < N; i++) {
        if (i * i < N)
            A[i] = B[i];
        if (i > 2 && !(i == 5 || A[(i - 3) / 2] < B[i - 3]))
            A[i - 1] = A[i];
        B[i] = A[i] + A[i / 2];
    }
}

void chosen(int N, int at[N], double H[11], double A[N])
{
    for (int i = 0; i < N; i++) {
        if (at[i] > 4)
            H[at[i]] += A[i];
        A[i] = H[3] + H[at[i]];
        if (A[i] > 2)
            H[3] = 0;
    }
}
