/* Reads lines of four texts apart by tabs: `least` or `greatest`, a set, a set of parameters, and a set that is said to be
 * its lexmin or lexmax there. Writes `same` or `other` of each, `late` where isl makes more than its operations of it, or `fault`
 * where isl does not read it. */
#include "isl_lines.h"
#include <string.h>
#include <isl/map.h>
#include <isl/set.h>

static const char *verdict(isl_ctx *ctx, char *part[4])
{
	isl_set *set = isl_set_read_from_str(ctx, part[1]);
	isl_set *held = isl_set_read_from_str(ctx, part[2]);
	isl_set *said = isl_set_read_from_str(ctx, part[3]);
	if (!set || !held || !said) {
		isl_set_free(set);
		isl_set_free(held);
		isl_set_free(said);
		return "fault";
	}
	set = strcmp(part[0], "greatest") == 0 ? isl_set_lexmax(set) : isl_set_lexmin(set);
	set = isl_set_intersect_params(set, held);
	isl_bool same = isl_set_is_equal(set, said);
	isl_set_free(set);
	isl_set_free(said);
	if (same == isl_bool_error)
		return isl_ctx_last_error(ctx) == isl_error_quota ? "late" : "fault";
	return same ? "same" : "other";
}

int main(void)
{
	return judge_lines(verdict, 30000000);
}
