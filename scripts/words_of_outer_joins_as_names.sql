-- left, right, full, natural and outer are names, and aliases behind AS.
CREATE TABLE x (a int4, b int4);
CREATE TABLE y (a int4, b int4);
COPY x FROM STDIN WITH (FORMAT CSV, NULL '\N');
1,2
\.
COPY y FROM STDIN WITH (FORMAT CSV, NULL '\N');
1,3
4,4
\.
SELECT left.b, full.b FROM x AS left JOIN y AS full ON left.a = full.a;
SELECT * FROM x SEMI JOIN y ON semi.a = y.a;
CREATE TABLE left (outer int4, right int4, full int4, natural int4);
COPY left FROM STDIN WITH (FORMAT CSV, NULL '\N');
7,1,2,3
\.
SELECT left.outer FROM left WHERE outer IN (7) ORDER BY outer;
SELECT natural, right, full FROM left AS natural;
SELECT * FROM x AS natural JOIN y AS outer ON natural.a = outer.a;
