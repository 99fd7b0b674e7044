-- Look at five tables of an issue tracker with the sizes of a large site and a few rows: each query shows what one index is for.
CREATE TABLE tenants (id int4 NOT NULL, name text NOT NULL, plan text);
CREATE TABLE users (id int8 NOT NULL, tenant_id int4 NOT NULL, email text NOT NULL, active bool NOT NULL);
CREATE TABLE projects (id int8 NOT NULL, tenant_id int4 NOT NULL, key text NOT NULL, archived bool NOT NULL);
CREATE TABLE issues (id int8 NOT NULL, project_id int8 NOT NULL, assignee_id int8, status text NOT NULL, priority int2 NOT NULL, created_at int8 NOT NULL);
CREATE TABLE comments (id int8 NOT NULL, issue_id int8 NOT NULL, author_id int8 NOT NULL, body text, created_at int8 NOT NULL);
CREATE INDEX tenants_id ON tenants (id);
CREATE INDEX users_id ON users (id);
CREATE INDEX users_tenant ON users (tenant_id, active);
CREATE INDEX projects_id ON projects (id);
CREATE INDEX projects_tenant ON projects (tenant_id) WHERE NOT archived;
CREATE INDEX issues_id ON issues (id);
CREATE INDEX issues_board ON issues (project_id, status, priority DESC) INCLUDE (id);
CREATE INDEX issues_assignee ON issues (assignee_id);
CREATE INDEX comments_issue ON comments (issue_id, created_at);
COPY tenants FROM STDIN WITH (FORMAT CSV, NULL '\N');
3,Acme,gold
17,Globex,\N
\.
COPY users FROM STDIN WITH (FORMAT CSV, NULL '\N');
1,17,ann@example.com,t
2,17,bob@example.com,f
3,3,eve@example.com,t
\.
COPY projects FROM STDIN WITH (FORMAT CSV, NULL '\N');
42,17,WEB,f
43,17,OLD,t
44,3,API,f
\.
COPY issues FROM STDIN WITH (FORMAT CSV, NULL '\N');
100,42,1,open,1,1700000000
101,42,\N,open,3,1710000000
102,42,1,blocked,2,1720000000
103,43,2,open,2,1500000000
104,44,3,closed,3,1600000000
\.
COPY comments FROM STDIN WITH (FORMAT CSV, NULL '\N');
1,102,1,"waits for ""legal""",1720000100
2,102,2,\N,1720000200
3,100,3,done?,1700000300
\.
STATISTICS tenants ROWS 2000 PAGES 30;
STATISTICS tenants.id DISTINCT 2000 NULLS 0;
STATISTICS users ROWS 400000 PAGES 5000;
STATISTICS users.id DISTINCT 400000 NULLS 0;
STATISTICS users.tenant_id DISTINCT 2000 NULLS 0 COMMON (17 120000, 3 50000);
STATISTICS users.email DISTINCT 400000 NULLS 0;
STATISTICS projects ROWS 30000 PAGES 300;
STATISTICS projects.id DISTINCT 30000 NULLS 0;
STATISTICS projects.tenant_id DISTINCT 2000 NULLS 0;
STATISTICS issues ROWS 12000000 PAGES 180000;
STATISTICS issues.id DISTINCT 12000000 NULLS 0;
STATISTICS issues.project_id DISTINCT 30000 NULLS 0;
STATISTICS issues.assignee_id DISTINCT 300000 NULLS 210000;
STATISTICS issues.status DISTINCT 5 NULLS 0 COMMON ('closed' 800000, 'open' 150000, 'blocked' 30000);
STATISTICS issues.priority DISTINCT 5 NULLS 0 COMMON (1 10000, 2 200000, 3 600000);
STATISTICS issues.created_at DISTINCT 11000000 NULLS 0 HISTOGRAM (1500000000, 1600000000, 1650000000, 1700000000, 1720000000);
STATISTICS comments ROWS 90000000 PAGES 2000000;
STATISTICS comments.issue_id DISTINCT 9000000 NULLS 0;
-- The board of a project: an index has every column, in the order that is asked for, so no row of the table is read.
SELECT i.id, i.priority FROM issues i WHERE i.project_id = 42 AND i.status = 'open' ORDER BY i.priority DESC;
-- A tenant's open issues: the partial index answers for the projects that are not archived.
SELECT p.key, i.id, i.priority FROM tenants t JOIN projects p ON p.tenant_id = t.id JOIN issues i ON i.project_id = p.id
  WHERE t.id = 17 AND NOT p.archived AND i.status = 'open' ORDER BY i.priority DESC, i.id;
-- Comments on the blocked issues of one person, of whom only the address is known: an index on it is missing.
SELECT c.body FROM users u, issues i, comments c
  WHERE u.email = 'ann@example.com' AND i.assignee_id = u.id AND c.issue_id = i.id AND i.status = 'blocked' ORDER BY c.created_at DESC;
CREATE INDEX users_email ON users USING hash (email);
SELECT c.body FROM users u, issues i, comments c
  WHERE u.email = 'ann@example.com' AND i.assignee_id = u.id AND c.issue_id = i.id AND i.status = 'blocked' ORDER BY c.created_at DESC;
-- Either of two columns: two indexes in one bitmap. Where one half has no index to serve it, the other's is of no use.
SELECT i.id FROM issues i WHERE i.assignee_id = 3 OR i.project_id = 43;
SELECT i.id FROM issues i WHERE i.assignee_id = 3 OR i.created_at < 1550000000;
