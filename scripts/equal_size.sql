CREATE TABLE x (a int4);
CREATE TABLE y (a int4);
COPY x FROM STDIN WITH (FORMAT CSV, NULL '\N');
3
4
\.
COPY y FROM STDIN WITH (FORMAT CSV, NULL '\N');
-3
3
5
\.
SELECT x.a, y.a FROM x, y WHERE x.a |=| y.a AND x.a = 3;
