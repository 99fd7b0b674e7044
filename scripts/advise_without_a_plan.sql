-- A query with no plan below the limit of costs has an advice only where an index gives it one.
CREATE TABLE t (a int4, b int4);
CREATE TABLE u (a int4, b int4);
STATISTICS t ROWS 1000000000 PAGES 1000000000;
STATISTICS t.a DISTINCT 1000000000 NULLS 0;
STATISTICS u ROWS 1000000000 PAGES 1000000000;
STATISTICS u.a DISTINCT 1000000000 NULLS 0;
ADVISE 1 (ta ON t (a)) (SELECT * FROM t, u WHERE t.a = u.a);
ADVISE 1 (tb ON t (b)) (SELECT * FROM t, u WHERE t.b < u.b);
