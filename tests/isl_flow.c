/* Reads lines of four maps apart by tabs: what is read by which instances, what is written, the schedule, and for each reading
 * instance the one that is said to have written last what it reads. Writes `same` of each where isl's dataflow analysis finds that, or
 * `other`, `late` where isl makes more than its operations of it, or `fault` where isl does not read it. */
#include "isl_lines.h"
#include <isl/flow.h>
#include <isl/union_map.h>
#include <isl/union_set.h>

static const char *verdict(isl_ctx *ctx, char *part[4])
{
	isl_union_map *map[4];
	for (int i = 0; i < 4; i++)
		map[i] = isl_union_map_read_from_str(ctx, part[i]);
	isl_union_set *reading = isl_union_map_domain(isl_union_map_copy(map[0]));
	isl_union_access_info *info = isl_union_access_info_from_sink(map[0]);
	info = isl_union_access_info_set_must_source(info, map[1]);
	info = isl_union_access_info_set_schedule_map(info, map[2]);
	isl_union_flow *flow = isl_union_access_info_compute_flow(info);
	isl_union_map *found = isl_union_map_reverse(isl_union_flow_get_must_dependence(flow));
	isl_union_map *said = isl_union_map_intersect_domain(map[3], reading);
	isl_bool same = isl_union_map_is_equal(found, said);
	isl_union_map_free(found);
	isl_union_map_free(said);
	isl_union_flow_free(flow);
	if (same == isl_bool_error)
		return isl_ctx_last_error(ctx) == isl_error_quota ? "late" : "fault";
	return same ? "same" : "other";
}

int main(void)
{
	return judge_lines(verdict, 100000000);
}
