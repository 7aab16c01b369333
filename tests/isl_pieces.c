/* Writes of each problem that is read how many pieces isl's least point has, -1 where isl makes more than its operations of it.
 *
 * A problem's numbers stand with blanks between: how many unknowns, parameters, rows and context rows there are, then these rows as
 * in docs/FORMATS.md. 0 as the number of unknowns ends the input. */
#include <stdio.h>
#include <stdlib.h>
#include <isl/aff.h>
#include <isl/ctx.h>
#include <isl/mat.h>
#include <isl/options.h>
#include <isl/set.h>
#include <isl/space.h>
#include <isl/val.h>

static int read_size(void)
{
	int size;
	return scanf("%d", &size) == 1 ? size : 0;
}

/* The rows that are read, then one for each of the first columns that says that it is from 0 on. */
static isl_mat *read_rows(isl_ctx *ctx, int count, int columns, int signs)
{
	isl_mat *rows = isl_mat_alloc(ctx, count + signs, columns);
	char digits[64];
	for (int i = 0; i < count; ++i)
		for (int j = 0; j < columns; ++j) {
			if (scanf("%63s", digits) != 1)
				exit(1);
			rows = isl_mat_set_element_val(rows, i, j, isl_val_read_from_str(ctx, digits));
		}
	for (int i = 0; i < signs; ++i)
		for (int j = 0; j < columns; ++j)
			rows = isl_mat_set_element_si(rows, count + i, j, i == j);
	return rows;
}

int main(void)
{
	int unknowns;
	while ((unknowns = read_size()) > 0) {
		isl_ctx *ctx = isl_ctx_alloc();
		isl_options_set_on_error(ctx, ISL_ON_ERROR_CONTINUE);
		int parameters = read_size(), row_count = read_size(), context_count = read_size();
		isl_mat *own = read_rows(ctx, row_count, unknowns + 1 + parameters, unknowns);
		isl_basic_set *rows = isl_basic_set_from_constraint_matrices(isl_space_set_alloc(ctx, parameters, unknowns),
			isl_mat_alloc(ctx, 0, unknowns + 1 + parameters), own, isl_dim_set, isl_dim_cst, isl_dim_param, isl_dim_div);
		isl_basic_set *context = isl_basic_set_from_constraint_matrices(isl_space_params_alloc(ctx, parameters),
			isl_mat_alloc(ctx, 0, parameters + 1), read_rows(ctx, context_count, parameters + 1, parameters),
			isl_dim_param, isl_dim_cst, isl_dim_set, isl_dim_div);
		isl_set *empty = NULL;
		isl_ctx_set_max_operations(ctx, 3000000);
		isl_pw_multi_aff *found = isl_basic_set_partial_lexmin_pw_multi_aff(rows, context, &empty);
		printf("%d\n", found ? (int) isl_pw_multi_aff_n_piece(found) : -1);
		fflush(stdout);
		isl_pw_multi_aff_free(found);
		isl_set_free(empty);
	}
	return 0;
}
