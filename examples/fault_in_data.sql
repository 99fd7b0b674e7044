-- Look at the error: the whole block is refused, with the number of the record and the column.
CREATE TABLE parts (id int2 NOT NULL, name text);
COPY parts FROM STDIN WITH (FORMAT CSV, NULL '\N');
1,bolt
32768,nut
\.
SELECT * FROM parts;
