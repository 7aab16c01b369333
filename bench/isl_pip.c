/* Times isl on an integer problem: prints the processor seconds of one solving, without reading and printing, and `solved`.
 *
 *     isl_pip SECONDS
 *
 * The problem is solved again and again for SECONDS. Its numbers stand on standard input, with blanks between:
 * how many unknowns, parameters, rows and context rows there are, then these rows as in docs/FORMATS.md.
 * Where isl finds while making the set that it is empty, nothing is left to solve: then it prints the seconds of making
 * the set, and `made`.
 */
#include <stdio.h>
#include <stdlib.h>
#include <time.h>
#include <isl/aff.h>
#include <isl/mat.h>
#include <isl/set.h>
#include <isl/space.h>
#include <isl/val.h>

static double processor_seconds(void)
{
	struct timespec spent;

	clock_gettime(CLOCK_PROCESS_CPUTIME_ID, &spent);
	return spent.tv_sec + spent.tv_nsec * 1e-9;
}

static isl_val *read_number(isl_ctx *ctx)
{
	char digits[64];

	if (scanf("%63s", digits) != 1)
		exit(1);
	return isl_val_read_from_str(ctx, digits);
}

static int read_size(isl_ctx *ctx)
{
	isl_val *number = read_number(ctx);
	int size = isl_val_get_num_si(number);

	isl_val_free(number);
	return size;
}

/* The rows that are read, then one that says that it isn't negative for each of the first columns. */
static isl_mat *read_rows(isl_ctx *ctx, int count, int columns, int nonnegative)
{
	isl_mat *rows = isl_mat_alloc(ctx, count + nonnegative, columns);

	for (int i = 0; i < count; ++i)
		for (int j = 0; j < columns; ++j)
			rows = isl_mat_set_element_val(rows, i, j, read_number(ctx));
	for (int i = 0; i < nonnegative; ++i)
		for (int j = 0; j < columns; ++j)
			rows = isl_mat_set_element_si(rows, count + i, j, i == j);
	return rows;
}

static void solve(isl_basic_set *rows, isl_basic_set *context)
{
	isl_set *empty;

	rows = isl_basic_set_copy(rows);
	context = isl_basic_set_copy(context);
	isl_pw_multi_aff_free(isl_basic_set_partial_lexmin_pw_multi_aff(rows, context, &empty));
	isl_set_free(empty);
}

/* The set of the rows over parameters and unknowns. */
static isl_basic_set *make(isl_ctx *ctx, int unknowns, int parameters, isl_mat *rows)
{
	return isl_basic_set_from_constraint_matrices(
		isl_space_set_alloc(ctx, parameters, unknowns),
		isl_mat_alloc(ctx, 0, unknowns + 1 + parameters),
		isl_mat_copy(rows),
		isl_dim_set, isl_dim_cst, isl_dim_param, isl_dim_div);
}

int main(int argc, char **argv)
{
	isl_ctx *ctx = isl_ctx_alloc();
	double enough = argc > 1 ? atof(argv[1]) : 0, begun, spent;
	int unknowns, parameters, row_count, context_count, times = 0, is_empty;
	isl_mat *inequalities;
	isl_basic_set *rows, *context;

	unknowns = read_size(ctx);
	parameters = read_size(ctx);
	row_count = read_size(ctx);
	context_count = read_size(ctx);
	inequalities = read_rows(ctx, row_count, unknowns + 1 + parameters, unknowns);
	rows = make(ctx, unknowns, parameters, inequalities);
	context = isl_basic_set_from_constraint_matrices(
		isl_space_params_alloc(ctx, parameters),
		isl_mat_alloc(ctx, 0, parameters + 1),
		read_rows(ctx, context_count, parameters + 1, parameters),
		isl_dim_param, isl_dim_cst, isl_dim_set, isl_dim_div);
	is_empty = isl_basic_set_plain_is_empty(rows);
	begun = processor_seconds();
	do {
		if (is_empty)
			isl_basic_set_free(make(ctx, unknowns, parameters, inequalities));
		else
			solve(rows, context);
		++times;
		spent = processor_seconds() - begun;
	} while (spent < enough);
	printf("%.9f %s\n", spent / times, is_empty ? "made" : "solved");
	isl_mat_free(inequalities);
	isl_basic_set_free(rows);
	isl_basic_set_free(context);
	isl_ctx_free(ctx);
	return 0;
}
