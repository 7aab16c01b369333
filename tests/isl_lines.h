/* What isl_same.c and isl_flow.c have in common: a line of standard input is four parts apart by tabs, and its verdict is
 * written, `fault` where there are fewer. */
#include <stdio.h>
#include <string.h>
#include <isl/ctx.h>
#include <isl/options.h>

typedef const char *verdict_of(isl_ctx *ctx, char *part[4]);

static int judge_lines(verdict_of *verdict, unsigned long operations)
{
	static char line[1 << 20];
	isl_ctx *ctx = isl_ctx_alloc();
	isl_options_set_on_error(ctx, ISL_ON_ERROR_CONTINUE);
	isl_ctx_set_max_operations(ctx, operations);
	while (fgets(line, sizeof line, stdin)) {
		char *part[4];
		int count = 0;
		line[strcspn(line, "\n")] = 0;
		isl_ctx_reset_operations(ctx);
		isl_ctx_reset_error(ctx);
		for (char *it = strtok(line, "\t"); it && count < 4; it = strtok(NULL, "\t"))
			part[count++] = it;
		puts(count == 4 ? verdict(ctx, part) : "fault");
		fflush(stdout);
	}
	isl_ctx_free(ctx);
	return 0;
}
