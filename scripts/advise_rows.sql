-- One index of two, and both, for one query and for two.
CREATE TABLE t (a int4, b int4);
STATISTICS t ROWS 1000 PAGES 10;
STATISTICS t.a DISTINCT 100 NULLS 0;
ADVISE 1 (ta ON t (a), tb ON t (b)) (SELECT * FROM t WHERE a = 5);
ADVISE 0 (ta ON t (a), tb ON t (b)) (SELECT * FROM t WHERE a = 5);
ADVISE 1 (ta ON t (a), tb ON t (b)) (SELECT * FROM t WHERE a = 5) (SELECT * FROM t WHERE b = 5);
ADVISE 2 (ta ON t (a), tb ON t (b)) (SELECT * FROM t WHERE a = 5) (SELECT * FROM t WHERE b = 5);
