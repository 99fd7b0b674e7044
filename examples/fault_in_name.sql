-- Look at where it stops: the replies before a fault stand, and the fault ends the run with status 3.
CREATE TABLE parts (id int4 NOT NULL, name text);
COPY parts FROM STDIN WITH (FORMAT CSV, NULL '\N');
1,bolt
2,nut
\.
SELECT * FROM parts;
SELECT p.id, p.weight FROM parts AS p;
SELECT * FROM parts;
