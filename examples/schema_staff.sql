-- Look at a table joined with itself, at a partial index of two conditions, and at where NULLs stand in an order.
CREATE TABLE staff (id int4 NOT NULL, boss int4, name text NOT NULL, dept int2);
CREATE TABLE depts (id int2 NOT NULL, name text NOT NULL, parent int2);
CREATE TABLE leave (staff int4 NOT NULL, starts int4 NOT NULL, ends int4, approved bool);
CREATE TABLE rooms (id int4, dept int2, seats int2);
CREATE TABLE keys (room int4 NOT NULL, staff int4 NOT NULL);
CREATE INDEX staff_id ON staff (id);
CREATE INDEX staff_boss ON staff (boss);
CREATE INDEX staff_dept ON staff (dept, name);
CREATE INDEX leave_open ON leave (staff, starts) WHERE ends IS NULL AND approved;
CREATE INDEX keys_staff ON keys USING hash (staff);
COPY staff FROM STDIN WITH (FORMAT CSV, NULL '\N');
1,\N,Ada,1
2,1,Bea,1
3,1,Cid,2
4,2,Dov,2
5,9,Eli,\N
\.
COPY depts FROM STDIN WITH (FORMAT CSV, NULL '\N');
1,Board,\N
2,Lab,1
\.
COPY leave FROM STDIN WITH (FORMAT CSV, NULL '\N');
2,100,\N,t
3,90,95,t
4,80,\N,f
4,120,\N,\N
\.
COPY rooms FROM STDIN WITH (FORMAT CSV, NULL '\N');
1,1,10
2,2,4
3,\N,2
\.
COPY keys FROM STDIN WITH (FORMAT CSV, NULL '\N');
1,1
1,2
2,4
\.
STATISTICS staff ROWS 30000 PAGES 400;
STATISTICS staff.id DISTINCT 30000 NULLS 0;
STATISTICS staff.boss DISTINCT 3000 NULLS 100;
STATISTICS staff.dept DISTINCT 60 NULLS 20000;
STATISTICS staff.name DISTINCT 25000 NULLS 0;
STATISTICS depts ROWS 60 PAGES 1;
STATISTICS depts.id DISTINCT 60 NULLS 0;
STATISTICS leave ROWS 500000 PAGES 4000;
STATISTICS leave.staff DISTINCT 29000 NULLS 0;
STATISTICS leave.ends DISTINCT 4000 NULLS 10000;
STATISTICS rooms ROWS 2000 PAGES 20;
STATISTICS rooms.id DISTINCT 2000 NULLS 0;
STATISTICS rooms.dept DISTINCT 60 NULLS 50000;
STATISTICS keys ROWS 90000 PAGES 800;
STATISTICS keys.staff DISTINCT 29000 NULLS 0;
STATISTICS keys.room DISTINCT 2000 NULLS 0;
-- Each with the boss's name: an inner join, so Ada, who has no boss, and Eli, whose boss has left, do not come.
SELECT s.name, b.name FROM staff s JOIN staff b ON b.id = s.boss WHERE s.dept = 2 OR s.dept IS NULL OR s.id < 3 ORDER BY b.name, s.name DESC;
-- Who is away: the conditions of the query imply those of the index.
SELECT s.name, l.starts FROM staff s, leave l WHERE l.staff = s.id AND l.ends IS NULL AND l.approved ORDER BY s.id;
-- The rooms that one person has a key to, with the departments that they belong to.
SELECT r.id, d.name, d.parent FROM staff s JOIN keys k ON k.staff = s.id JOIN rooms r ON r.id = k.room JOIN depts d ON d.id = r.dept
  WHERE s.name = 'Ada' AND s.dept = 1 ORDER BY d.parent NULLS FIRST, r.id;
-- NOT of a comparison with NULL is Unknown too.
SELECT name FROM staff WHERE NOT boss = 1;
