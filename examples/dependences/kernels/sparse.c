/* Loops over the rows of sparse matrices, whose bounds hang on data alone: rows in one run (CSR), rows by their lengths, single
   elements with their places (COO). A row has at most 10 elements here. */

void csr(int N, int row[N + 1], int col[11], double a[11], double x[N + 11], double y[N])
{
    for (int i = 0; i < N; i++) {
        y[i] = 0;
        for (int k = row[i]; k < row[i + 1]; k++)
            y[i] += a[k] * x[col[k]];
        x[i] = y[i];
    }
}

void csr_dense(int N, int M, int row[N + 1], int col[11], double a[11], double B[11][M], double C[N][M])
{
    for (int i = 0; i < N; i++) {
        for (int k = row[i]; k < row[i + 1]; k++) {
            a[k] = 2 * a[k];
            for (int j = 0; j < M; j++)
                C[i][j] += a[k] * B[col[k]][j];
        }
        for (int j = 1; j < M; j++)
            C[i][j] += C[i][j - 1];
    }
}

void csr_solve(int N, int row[N + 1], int col[11], double a[11], double b[N], double x[N + 11])
{
    for (int i = 0; i < N; i++) {
        double sum = b[i], diagonal = 1;
        for (int k = row[i]; k < row[i + 1]; k++) {
            double product;
            product = a[k] * x[col[k]];
            if (col[k] < i)
                sum -= product;
            else if (col[k] == i)
                diagonal = a[k];
        }
        x[i] = sum / diagonal;
    }
    for (int i = N - 1; i >= 0; i--) {
        for (int k = row[i + 1] - 1; k >= row[i]; k--)
            x[i] -= a[k] * x[col[k]];
        b[i] = x[i];
    }
}

void csr_product(int N, int row[N + 1], int col[11], double a[11], int other_row[12], int other_col[11], double b[11], double C[N][11])
{
    for (int i = 0; i < N; i++) {
        for (int k = row[i]; k < row[i + 1]; k++)
            for (int l = other_row[col[k]]; l < other_row[col[k] + 1]; l++)
                C[i][other_col[l]] += a[k] * b[l];
        C[i][0] = C[i][3];
    }
}

void lengths(int N, int length[N], double a[N][11], double x[11], double y[N])
{
    for (int i = 0; i < N; i++) {
        y[i] = 0;
        for (int k = 0; k < length[i]; k++) {
            a[i][k] = a[i][k] * x[k];
            y[i] += a[i][k];
        }
        for (int k = 1; k <= length[N - 1 - i] - 1; k += 2)
            x[k] = a[i][k] + x[k - 1];
        for (int k = 9; k >= length[i]; k--)
            x[k] += x[k + 1];
    }
}

void histogram(int N, int row[N + 1], int bin[11], double weight[11], double H[11], double out[N])
{
    for (int b = 0; b < 11; b++)
        H[b] = 0;
    for (int i = 0; i < N; i++) {
        for (int k = row[i]; k < row[i + 1]; k++)
            H[bin[k]] += weight[k];
        out[i] = H[3];
    }
    for (int b = 1; b < 11; b++)
        H[b] += H[b - 1];
}

void coo(int N, int count[1], int row[11], int col[11], double a[11], double x[11], double y[11])
{
    for (int i = 0; i < 11; i++)
        y[i] = 0;
    for (int k = 0; k < count[0]; k++) {
        a[k] = a[k] / N;
        y[row[k]] += a[k] * x[col[k]];
    }
    x[0] = y[0] + a[5];
}

void windows(int N, int from[N], int to[N], double A[N + 22], double B[N])
{
    for (int i = 0; i < N; i++)
        for (int k = from[i]; k < to[i]; k++) {
            A[k] = A[2 * k] + B[i];
            if (k < i)
                A[k + 1] += A[k];
            B[i] = A[k] + A[i];
        }
    for (int k = 8; k >= from[0]; k--)
        B[0] += A[k];
}

void triangles(int N, int from[N], int to[N], double A[11], double B[N])
{
    for (int i = 0; i < N; i++) {
        for (int k = to[i] - 1; k >= from[i]; k--)
            for (int j = k; j > 0; j--)
                A[j] += A[j - 1];
        B[i] = A[i % 11];
    }
}
