/* A planner extension that makes a PostgreSQL server take the plan that a statement's hints name. It reads the notation of pg_hint_plan,
 * for which Debian has no package, as far as tools/plan_hints.py writes it:
 *
 *   Leading(((a b) c))    the order of the joins, the outer side first
 *   NestLoop(a b)  MergeJoin(a b c)  HashJoin(a b)    how the relations of a join are joined
 *   SeqScan(a)  IndexScan(a i)  IndexOnlyScan(a i)  BitmapScan(a i j)    how a relation is scanned, and by which indexes
 *
 * A hint that cannot be met gives a WARNING. It is made for tests and measurements on a server of one's own: the first hint comment
 * anywhere in the text of a statement counts, and text is not checked for quotes. tools/forced_plans.py compiles and loads it. */
#include "postgres.h"
#include "fmgr.h"
#include "optimizer/cost.h"
#include "optimizer/pathnode.h"
#include "optimizer/paths.h"
#include "optimizer/planner.h"
#include "utils/lsyscache.h"

PG_MODULE_MAGIC;
void _PG_init(void);

/* The order of joins: a relation by its name, or a pair of sides. */
typedef struct Order { char *name; struct Order *outer, *inner; } Order;
typedef struct Hint { char *kind; List *words; } Hint;

static List *hints = NIL;
static Order *leading = NULL;
/* The outer side and the method of the join that is being made, while one is. */
static bool joining = false;
static Relids outer_wanted = NULL;
static NodeTag method_wanted = T_Invalid;

static planner_hook_type next_planner;
static set_rel_pathlist_hook_type next_scans;
static set_join_pathlist_hook_type next_joins;
static join_search_hook_type next_search;

/* ---- reading hints */

static void skip_blanks(const char **at) {
    while (**at && strchr(" \n\t\r", **at)) (*at)++;
}

/* The next word, or NULL where none stands. One in double quotes has any signs but these. */
static char *read_word(const char **at) {
    const char *begin;
    bool quoted;
    skip_blanks(at);
    quoted = **at == '"';
    begin = *at += quoted;
    while (**at && !strchr(quoted ? "\"" : " \n\t\r()*", **at)) (*at)++;
    if (*at == begin) return NULL;
    *at += quoted && **at;
    return pnstrdup(begin, *at - begin - quoted);
}

static void need(const char **at, char sign) {
    skip_blanks(at);
    if (**at != sign) ereport(ERROR, (errmsg("hints: no %c at \"%.20s\"", sign, *at)));
    (*at)++;
}

static Order *read_order(const char **at) {
    Order *order = palloc0(sizeof(Order));
    skip_blanks(at);
    if (**at == '(') {
        (*at)++;
        order->outer = read_order(at);
        order->inner = read_order(at);
        need(at, ')');
    } else if (!(order->name = read_word(at)))
        ereport(ERROR, (errmsg("hints: no name at \"%.20s\"", *at)));
    return order;
}

static void read_hints(const char *statement) {
    const char *at = strstr(statement, "/*+");
    hints = NIL;
    leading = NULL;
    if (!at) return;
    for (at += 3, skip_blanks(&at); *at && strncmp(at, "*/", 2) != 0; skip_blanks(&at)) {
        char *kind = read_word(&at), *word;
        if (!kind) ereport(ERROR, (errmsg("hints: no hint at \"%.20s\"", at)));
        need(&at, '(');
        if (pg_strcasecmp(kind, "Leading") == 0) leading = read_order(&at);
        else {
            Hint *hint = palloc0(sizeof(Hint));
            hint->kind = kind;
            while ((word = read_word(&at))) hint->words = lappend(hint->words, word);
            if (hint->words == NIL) ereport(ERROR, (errmsg("hints: nothing in %s", kind)));
            hints = lappend(hints, hint);
        }
        need(&at, ')');
    }
}

static PlannedStmt *plan_with_hints(Query *query, const char *statement, int options, ParamListInfo parameters) {
    PlannedStmt *planned;
    List *old_hints = hints;
    Order *old_leading = leading;
    PG_TRY();
    {
        if (statement) read_hints(statement);
        planned = next_planner ? next_planner(query, statement, options, parameters)
                               : standard_planner(query, statement, options, parameters);
    }
    PG_FINALLY();
    {
        hints = old_hints;
        leading = old_leading;
        joining = false;
    }
    PG_END_TRY();
    return planned;
}

/* ---- scans */

static NodeTag scan_of(const Hint *hint) {
    if (pg_strcasecmp(hint->kind, "SeqScan") == 0) return T_SeqScan;
    if (pg_strcasecmp(hint->kind, "IndexScan") == 0) return T_IndexScan;
    if (pg_strcasecmp(hint->kind, "IndexOnlyScan") == 0) return T_IndexOnlyScan;
    return pg_strcasecmp(hint->kind, "BitmapScan") == 0 ? T_BitmapHeapScan : T_Invalid;
}

/* The indexes of a relation that a hint names, or all where it names none. */
static List *indexes_of(const Hint *hint, List *all) {
    List *named = NIL;
    ListCell *cell;
    if (list_length(hint->words) == 1) return all;
    foreach(cell, all) {
        IndexOptInfo *index = lfirst(cell);
        char *name = get_rel_name(index->indexoid);
        for (int n = 1; name && n < list_length(hint->words); n++)
            if (strcmp(name, list_nth(hint->words, n)) == 0) {
                named = lappend(named, index);
                break;
            }
    }
    return named;
}

static void add_index_paths(PlannerInfo *root, RelOptInfo *rel, const Hint *hint) {
    bool index = enable_indexscan, only = enable_indexonlyscan, bitmap = enable_bitmapscan;
    List *all = rel->indexlist;
    enable_bitmapscan = scan_of(hint) == T_BitmapHeapScan;
    enable_indexscan = !enable_bitmapscan;
    enable_indexonlyscan = scan_of(hint) == T_IndexOnlyScan;
    rel->indexlist = indexes_of(hint, all);
    create_index_paths(root, rel);
    rel->indexlist = all;
    enable_indexscan = index;
    enable_indexonlyscan = only;
    enable_bitmapscan = bitmap;
}

static void force_scan(PlannerInfo *root, RelOptInfo *rel, const Hint *hint) {
    List *old = rel->pathlist, *kept = NIL;
    ListCell *cell;
    rel->pathlist = NIL;
    rel->partial_pathlist = NIL;
    if (scan_of(hint) == T_SeqScan) add_path(rel, create_seqscan_path(root, rel, rel->lateral_relids, 0));
    else add_index_paths(root, rel, hint);
    foreach(cell, rel->pathlist)
        if (((Path *) lfirst(cell))->pathtype == scan_of(hint)) kept = lappend(kept, lfirst(cell));
    if (kept == NIL) ereport(WARNING, (errmsg("hints: no %s of %s", hint->kind, (char *) linitial(hint->words))));
    rel->pathlist = kept == NIL ? old : kept;
}

static void choose_scans(PlannerInfo *root, RelOptInfo *rel, Index number, RangeTblEntry *entry) {
    ListCell *cell;
    if (next_scans) next_scans(root, rel, number, entry);
    if (entry->rtekind != RTE_RELATION || rel->reloptkind != RELOPT_BASEREL) return;
    foreach(cell, hints) {
        Hint *hint = lfirst(cell);
        if (scan_of(hint) != T_Invalid && strcmp(linitial(hint->words), entry->eref->aliasname) == 0) force_scan(root, rel, hint);
    }
}

/* ---- joins */

static char *alias_of(PlannerInfo *root, int relation) {
    return root->simple_rte_array[relation]->eref->aliasname;
}

/* Whether a hint names exactly these relations. */
static bool names(PlannerInfo *root, const Hint *hint, Relids relations) {
    int relation = -1;
    if (list_length(hint->words) != bms_num_members(relations)) return false;
    while ((relation = bms_next_member(relations, relation)) >= 0) {
        bool found = false;
        ListCell *cell;
        foreach(cell, hint->words) found |= strcmp(lfirst(cell), alias_of(root, relation)) == 0;
        if (!found) return false;
    }
    return true;
}

/* The method by which these relations are joined, if a hint tells it. */
static NodeTag method_of(PlannerInfo *root, Relids relations) {
    ListCell *cell;
    foreach(cell, hints) {
        Hint *hint = lfirst(cell);
        if (scan_of(hint) != T_Invalid || !names(root, hint, relations)) continue;
        if (pg_strcasecmp(hint->kind, "NestLoop") == 0) return T_NestLoop;
        if (pg_strcasecmp(hint->kind, "MergeJoin") == 0) return T_MergeJoin;
        if (pg_strcasecmp(hint->kind, "HashJoin") == 0) return T_HashJoin;
    }
    return T_Invalid;
}

/* Keeps the paths with the wanted outer side and method. */
static void choose_joins(PlannerInfo *root, RelOptInfo *join, RelOptInfo *outer, RelOptInfo *inner, JoinType type,
                         JoinPathExtraData *extra) {
    List *kept = NIL;
    ListCell *cell;
    if (next_joins) next_joins(root, join, outer, inner, type, extra);
    if (!joining) return;
    foreach(cell, join->pathlist)
        if (method_wanted == T_Invalid || ((Path *) lfirst(cell))->pathtype == method_wanted) kept = lappend(kept, lfirst(cell));
    if (!bms_equal(outer->relids, outer_wanted)) kept = NIL;
    else if (kept == NIL)
        ereport(WARNING, (errmsg("hints: no such join with the outer side %s", alias_of(root, bms_next_member(outer->relids, -1)))));
    join->pathlist = kept;
}

static RelOptInfo *relation_of(PlannerInfo *root, const char *name, List *relations) {
    ListCell *cell;
    foreach(cell, relations) {
        RelOptInfo *rel = lfirst(cell);
        if (rel->reloptkind == RELOPT_BASEREL && strcmp(alias_of(root, rel->relid), name) == 0) return rel;
    }
    ereport(ERROR, (errmsg("hints: no relation %s", name)));
}

/* Makes the joins of an order. The server tries both orders of a join, and the wanted one last, so that its paths meet no others. */
static RelOptInfo *make_joins(PlannerInfo *root, Order *order, List *relations) {
    bool nest = enable_nestloop, merge = enable_mergejoin, hash = enable_hashjoin;
    RelOptInfo *outer, *inner, *join;
    if (order->name) return relation_of(root, order->name, relations);
    outer = make_joins(root, order->outer, relations);
    inner = make_joins(root, order->inner, relations);
    outer_wanted = outer->relids;
    method_wanted = method_of(root, bms_union(outer->relids, inner->relids));
    if (method_wanted != T_Invalid) {
        enable_nestloop = method_wanted == T_NestLoop;
        enable_mergejoin = method_wanted == T_MergeJoin;
        enable_hashjoin = method_wanted == T_HashJoin;
    }
    joining = true;
    join = make_join_rel(root, inner, outer);
    joining = false;
    enable_nestloop = nest;
    enable_mergejoin = merge;
    enable_hashjoin = hash;
    if (!join || join->pathlist == NIL) ereport(ERROR, (errmsg("hints: a join of Leading cannot be made")));
    set_cheapest(join);
    return join;
}

static RelOptInfo *search_joins(PlannerInfo *root, int levels, List *relations) {
    if (leading && leading->outer) return make_joins(root, leading, relations);
    return next_search ? next_search(root, levels, relations) : standard_join_search(root, levels, relations);
}

void _PG_init(void) {
    next_planner = planner_hook;
    planner_hook = plan_with_hints;
    next_scans = set_rel_pathlist_hook;
    set_rel_pathlist_hook = choose_scans;
    next_joins = set_join_pathlist_hook;
    set_join_pathlist_hook = choose_joins;
    next_search = join_search_hook;
    join_search_hook = search_joins;
}
