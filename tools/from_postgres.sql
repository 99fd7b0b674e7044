-- Prints a pgplan script for the tables of one schema of a PostgreSQL server: CREATE TABLE, CREATE INDEX and STATISTICS, as far as
-- pgplan has the types and the indexes, and a comment line for each thing that is left out or written in another way. pgplan accepts
-- every script that it prints.
--
-- usage: psql -X -q -v schema=public -f tools/from_postgres.sql DATABASE > tables.sql
--
-- It reads the catalogue alone, and no table: sizes and values are those that the server's last ANALYZE found. Tried with versions 15.18 and 15.20.
\set QUIET on
\set ON_ERROR_STOP on
\pset format unaligned
\pset tuples_only on
\pset pager off
-- Schemas of users may have functions, operators and tables with the names of those below, and a role or a database its own settings.
SET search_path = pg_catalog, pg_temp;
SET standard_conforming_strings = on;
SET quote_all_identifiers = off;
SET datestyle = ISO;
SET timezone = UTC;
-- The script has the bytes that the server compares.
SELECT set_config('client_encoding', getdatabaseencoding(), false) AS encoding \gset
\if :{?schema}
\else
    \set schema public
\endif
WITH RECURSIVE
-- Words that pgplan never takes as names.
reserved AS (
    SELECT string_to_array('and as asc create cross desc false from group inner is join limit not null offset on or order select '
                           'table true using where with', ' ') AS words),
-- Locales of the C library that compare texts byte by byte.
bytes AS (SELECT '^(C|POSIX|C\.(UTF|utf)-?8)$' AS locale),
-- Whether the database's default collation compares byte by byte, and whether each collation does.
database AS (
    SELECT CASE coalesce(to_jsonb(d) ->> 'datlocprovider', 'c') WHEN 'c' THEN d.datcollate ~ b.locale ELSE
                to_jsonb(d) ->> 'datlocprovider' = 'b' END AS by_bytes
    FROM pg_database d, bytes b WHERE d.datname = current_database()),
collated AS (
    SELECT k.oid, CASE coalesce(to_jsonb(k) ->> 'collprovider', 'c') WHEN 'd' THEN d.by_bytes WHEN 'c' THEN k.collcollate ~ b.locale ELSE
                      to_jsonb(k) ->> 'collprovider' = 'b' END AS by_bytes
    FROM pg_collation k, database d, bytes b),
relation AS (
    SELECT c.oid, c.relname::text AS name, c.relkind AS kind, c.reltuples AS tuples, c.relpages AS pages,
           c.relname ~ '^[a-z_][a-z0-9_$]*$' AND c.relname <> ALL (r.words) AS spelt
    FROM pg_class c JOIN pg_namespace n ON n.oid = c.relnamespace, reserved r
    WHERE n.nspname = :'schema' AND c.relkind IN ('r', 'p', 'v', 'm', 'f')),
-- How pgplan has a type: a form, which is one character, its own type, and what a comment says of it.
form (theirs, form, typ, meaning) AS (
    VALUES ('int2'::regtype, 'i', 'int2', NULL), ('int4', 'i', 'int4', NULL), ('int8', 'i', 'int8', NULL), ('bool', 'b', 'bool', NULL),
           ('text', 't', 'text', NULL), ('varchar', 't', 'varchar', NULL), ('bpchar', 'h', 'text', 'text without trailing blanks'),
           ('uuid', 'u', 'uuid', NULL), ('inet', 'y', 'text', 'text'), ('date', 'd', 'date', NULL), ('timestamp', 'm', 'timestamp', NULL),
           ('timestamptz', 'w', 'timestamptz', NULL), ('numeric', 's', 'numeric', NULL), ('anyenum', 'e', 'int4', 'the rank of its label')),
label AS (
    SELECT e.enumtypid AS type, e.enumlabel::text AS label, rank() OVER (PARTITION BY e.enumtypid ORDER BY e.enumsortorder) AS rank
    FROM pg_enum e),
-- A column whose type pgplan does not have becomes a stand-in: a text column without statistics, so that * names it. So does a numeric
-- without a scale from 0 to 18. One of more than 18 digits keeps the values that pgplan has.
typed AS (
    SELECT r.oid, r.name AS tab, a.attnum, a.attname::text AS name, a.attnotnull, format_type(a.atttypid, a.atttypmod) AS theirs,
           coalesce(f.typ, 'text') || CASE WHEN f.form = 's' THEN '(' || s.digits || ',' || s.scale || ')'
                                           WHEN f.typ = 'varchar' AND a.atttypmod > 4 THEN '(' || a.atttypmod - 4 || ')' ELSE '' END AS typ,
           coalesce(f.form, 'x') AS form, f.typ IS NULL AS stand_in, y.typcategory = 'C' AS is_row, a.attcollation, a.atttypid AS type, s.digits, s.scale,
           CASE WHEN f.form = 's' AND s.digits <> s.precision THEN 'numeric(' || s.digits || ',' || s.scale || ')' ELSE f.meaning END AS meaning,
           CASE f.form WHEN 'h' THEN 'bpchar' ELSE format_type(a.atttypid, NULL) END AS cast_name,
           a.attname ~ '^[a-z_][a-z0-9_$]*$' AND a.attname <> ALL (w.words) AS spelt, coalesce(l.by_bytes, true) AS by_bytes
    FROM relation r JOIN pg_attribute a ON a.attrelid = r.oid JOIN pg_type y ON y.oid = a.atttypid
    CROSS JOIN LATERAL (SELECT (a.atttypmod - 4) >> 16 AS precision, (a.atttypmod - 4) & 65535 AS scale) n
    CROSS JOIN LATERAL (SELECT n.precision, n.scale, least(18, greatest(n.precision, n.scale)) AS digits) s
    LEFT JOIN collated l ON l.oid = a.attcollation
    LEFT JOIN form f ON f.theirs = CASE y.typtype WHEN 'e' THEN 'anyenum'::regtype ELSE a.atttypid END
                    AND (f.form <> 's' OR a.atttypmod >= 4 AND s.scale BETWEEN 0 AND 18), reserved w
    WHERE r.kind = 'r' AND r.spelt AND a.attnum > 0 AND NOT a.attisdropped),
numbered AS (SELECT t.*, row_number() OVER (PARTITION BY t.oid, t.spelt ORDER BY t.stand_in, t.attnum) AS place FROM typed t),
col AS (SELECT * FROM numbered WHERE spelt AND place <= 32),
tab AS (
    SELECT r.*, row_number() OVER (ORDER BY r.name) AS place FROM relation r
    WHERE r.kind = 'r' AND r.spelt AND EXISTS (SELECT FROM col WHERE col.oid = r.oid)),
kept_tab AS (SELECT * FROM tab WHERE place <= 64),
-- Indexes of the tables that are kept, with what keeps each from being written.
index AS (
    SELECT t.oid AS tab_oid, t.name AS tab, i.indexrelid AS oid, c.relname::text AS name, m.amname::text AS method, i.indisunique AS uniq, i.indisexclusion AS excludes,
           i.indkey::int2[] AS keys, i.indoption::int2[] AS options, i.indnkeyatts AS count, i.indnatts AS all_count,
           pg_get_expr(i.indpred, i.indrelid) AS pred,
           CASE WHEN NOT i.indisvalid THEN 'it is not valid'
                WHEN m.amname NOT IN ('btree', 'hash') THEN 'method ' || m.amname
                WHEN NOT (c.relname ~ '^[a-z_][a-z0-9_$]*$' AND c.relname <> ALL (w.words)) THEN 'its name'
                WHEN 0 = ANY (i.indkey::int2[]) THEN 'a key is an expression'
                WHEN i.indnatts > 32 THEN 'more than 32 columns'
                WHEN (SELECT count(DISTINCT k) < i.indnatts FROM unnest(i.indkey::int2[]) k) THEN 'a column stands twice'
                WHEN EXISTS (SELECT FROM unnest(i.indkey::int2[]) k WHERE NOT EXISTS (SELECT FROM col WHERE col.oid = t.oid AND col.attnum = k))
                    THEN 'a column is left out'
                WHEN k.theirs IS NOT NULL THEN 'a key of type ' || k.theirs
                WHEN k.collates THEN 'the collation of a key'
                WHEN EXISTS (SELECT FROM unnest(i.indclass::oid[]) k JOIN pg_opclass o ON o.oid = k WHERE NOT o.opcdefault)
                    THEN 'its operator class' END AS bar
    FROM kept_tab t JOIN pg_index i ON i.indrelid = t.oid JOIN pg_class c ON c.oid = i.indexrelid JOIN pg_am m ON m.oid = c.relam
    CROSS JOIN LATERAL (
        SELECT min(col.theirs) FILTER (WHERE col.stand_in) AS theirs, bool_or(k.sorts <> col.attcollation) AS collates
        FROM unnest(i.indkey::int2[], i.indcollation::oid[]) WITH ORDINALITY AS k(att, sorts, n)
        JOIN col ON col.oid = t.oid AND col.attnum = k.att WHERE k.n <= i.indnkeyatts) k, reserved w),
-- The condition of a partial index is split into words. A literal with its cast is one word, whatever its quotes contain. So is a
-- comparison with an array of literals, which is what the server makes of IN, and so is a column with its cast to text. Backslashes
-- stand for themselves, as standard_conforming_strings is on. A type of a user has its schema before its name.
literal AS (
    SELECT $$'(?:[^']|'')*'::(?:text|character varying|bigint|integer|smallint|numeric|date|timestamp with(?:out)? time zone|uuid|bpchar|inet$$
        || $$|(?:[a-z_][a-z0-9_$]*|"(?:[^"]|"")+")\.(?:[a-z_][a-z0-9_$]*|"(?:[^"]|"")+"))(?![\[a-zA-Z0-9_$.(])$$
        || $$|\('(?:[^']|'')*'::character varying\)::text(?![\[a-zA-Z0-9_(])|\('-?[0-9]+'::(?:bigint|integer)\)::numeric(?![\[a-zA-Z0-9_(])$$
        || $$|\([0-9]+\)::(?:bigint|smallint|numeric(?![\[a-zA-Z0-9_(]))|[0-9]+(?:\.[0-9]+)?|true|false$$ AS pattern),
word AS (
    SELECT i.oid, i.tab_oid, w.n, w.word[1] AS word, w.word[1] ~ '^(= ANY|<> ALL) ' AS is_list,
           w.word[1] ~ ('^(?:' || l.pattern || ')$') AS is_literal, l.pattern
    FROM index i, literal l, regexp_matches(i.pred, replace($$(?:= ANY|<> ALL) \((?:ARRAY\[(?:@)(?:, (?:@))*\]|\(ARRAY\[(?:@)(?:, (?:@))*\]\)::text\[\])\)$$
        || $$|@|'(?:[^']|'')*'|\([a-z_][a-z0-9_$]*\)::text(?![\[a-zA-Z0-9_(])|IS (?:NOT )?NULL|[a-zA-Z_][a-zA-Z0-9_$]*|[<=>!]+|.$$, '@', l.pattern), 'g')
        WITH ORDINALITY AS w(word, n)
    WHERE i.bar IS NULL),
-- The columns among the words. A literal stands four words before or behind the column that it is compared with, a list two behind it.
named AS (
    SELECT w.oid, w.n, c.name, c.is_row, c.digits, c.scale, c.type, c.cast_name,
           CASE WHEN w.word LIKE '(%' AND c.type <> 'varchar'::regtype THEN '?' ELSE c.form END AS form
    FROM word w JOIN col c ON c.oid = w.tab_oid AND NOT w.is_literal
        AND c.name = regexp_replace(w.word, '^\(([a-z_][a-z0-9_$]*)\)::text$', '\1')),
compared AS (
    SELECT w.oid, w.n, min(c.form) AS form, min(c.type) AS type, min(c.digits) AS digits, min(c.scale) AS scale, min(c.cast_name) AS cast_name
    FROM word w JOIN named c ON c.oid = w.oid AND (w.is_list AND c.n = w.n - 2 OR w.is_literal AND c.n IN (w.n - 4, w.n + 4)
        AND EXISTS (SELECT FROM word o WHERE o.oid = w.oid AND o.n = (w.n + c.n) / 2 AND o.word ~ '^[<=>]+$'))
    WHERE c.form NOT IN ('i', 't', 'b', 'x', '?') GROUP BY w.oid, w.n HAVING count(*) = 1),
-- The literals of conditions. Beside a column of a further form a literal fits if it is cast to the column's type, or if it is a number
-- and the column a numeric; elsewhere it fits without such a cast. Its kind is k beside such a column, else n for a number, q for a text
-- and c for a boolean. Casts are not written, and quotes are not written about integers.
value AS (
    SELECT w.oid, w.n, v.place, v.of[1] AS literal, c.form, c.type, c.digits, c.scale,
           replace(substring(v.of[1] FROM $$^\(?'((?:[^']|'')*)'$$), '''''', '''') AS quoted,
           substring(v.of[1] FROM $$^\(?([0-9]+(?:\.[0-9]+)?)$$) AS number,
           CASE WHEN c.form IS NULL THEN v.of[1] ~ ($$^(?:true|false|[0-9]+|\([0-9]+\)::(?:bigint|smallint)|\(?'(?:[^']|'')*'$$
                    || $$::(?:text|character varying|bigint|integer|smallint)(?:\)::text)?)$$ || '$')
                WHEN c.form = 's' THEN v.of[1] ~ '^[0-9.]+$|::numeric$'
                ELSE right(v.of[1], length(c.cast_name) + 3) = '''::' || c.cast_name END AS fits,
           CASE WHEN c.form IS NOT NULL THEN 'k' WHEN v.of[1] IN ('true', 'false') THEN 'c'
                WHEN v.of[1] ~ '^\(?[0-9]|::(bigint|integer|smallint)$' THEN 'n' ELSE 'q' END AS kind
    FROM word w LEFT JOIN compared c ON c.oid = w.oid AND c.n = w.n,
         regexp_matches(w.word, w.pattern, 'g') WITH ORDINALITY AS v(of, place)
    WHERE w.is_list OR w.is_literal),
-- What the last ANALYZE found of a column.
found AS (
    SELECT col.oid, col.tab, col.attnum, col.name, col.form, col.type, col.digits, col.scale, col.by_bytes, s.null_frac,
           s.most_common_vals::text::text[] AS vals,
           s.most_common_freqs AS freqs, s.histogram_bounds::text::text[] AS bounds, floor(s.null_frac * 1000000)::int8 AS nulls,
           least(1e9, greatest(1, round(CASE WHEN s.n_distinct < 0 THEN -s.n_distinct * greatest(1, t.tuples) ELSE s.n_distinct END::numeric)))::int8 AS d
    FROM kept_tab t JOIN col ON col.oid = t.oid AND NOT col.stand_in
    JOIN pg_stats s ON s.schemaname = :'schema' AND s.tablename = t.name AND s.attname = col.name AND NOT s.inherited
    WHERE t.tuples >= 0),
-- Values as the server prints them: of conditions, common ones and bounds of histograms. What they belong to has two numbers.
printed AS (
    SELECT 'condition' AS role, v.oid, v.n AS part, v.place,
           CASE v.kind WHEN 'k' THEN v.form WHEN 'n' THEN 'i' WHEN 'c' THEN 'b' ELSE 't' END AS form, v.type, v.digits, v.scale,
           coalesce(v.quoted, v.number, left(v.literal, 1)) AS value, NULL::real AS freq
    FROM value v WHERE v.fits
    UNION ALL
    SELECT 'common', f.oid, f.attnum, v.n, f.form, f.type, f.digits, f.scale, v.value, v.freq
    FROM found f, unnest(f.vals, f.freqs) WITH ORDINALITY AS v(value, freq, n)
    UNION ALL
    SELECT 'bound', f.oid, f.attnum, b.n, f.form, f.type, f.digits, f.scale, b.value, NULL FROM found f, unnest(f.bounds) WITH ORDINALITY AS b(value, n)),
-- The same as pgplan has them: bare, without quotes, or NULL where pgplan has no such value. Days and times have years from 1 to 9999.
bare AS (
    SELECT p.*, CASE p.form
        WHEN 'b' THEN CASE p.value WHEN 't' THEN 'TRUE' ELSE 'FALSE' END
        WHEN 'd' THEN substring(p.value FROM '^[0-9]{4}-[0-9]{2}-[0-9]{2}$')
        WHEN 'm' THEN substring(p.value FROM '^[0-9]{4}-[0-9]{2}-[0-9]{2} [0-9:.]+$')
        WHEN 'w' THEN substring(p.value FROM '^[0-9]{4}-[0-9]{2}-[0-9]{2} [0-9:.]+\+00$')
        WHEN 's' THEN CASE WHEN abs(p.value::numeric) < power(10::numeric, p.digits - p.scale) AND p.value::numeric = trunc(p.value::numeric, p.scale)
            THEN trunc(p.value::numeric, p.scale)::text END
        WHEN 'e' THEN (SELECT l.rank::text FROM label l WHERE l.type = p.type AND l.label = p.value)
        WHEN 'h' THEN rtrim(p.value, ' ')
        WHEN 'u' THEN lower(p.value)
        ELSE p.value END AS bare
    FROM printed p),
written_value AS (
    SELECT b.*, CASE WHEN b.form IN ('i', 'b', 'e') THEN b.bare WHEN octet_length(b.bare) <= 8192 THEN '''' || replace(b.bare, '''', '''''') || ''''
        END AS text
    FROM bare b),
listed AS (
    SELECT v.oid, v.n, string_agg(w.text, ', ' ORDER BY v.place) AS text, count(*) AS count,
           CASE WHEN min(v.kind) = max(v.kind) AND count(w.text) = count(*) THEN min(v.kind) ELSE '?' END AS kind
    FROM value v LEFT JOIN written_value w ON w.role = 'condition' AND w.oid = v.oid AND w.part = v.n AND w.place = v.place
    GROUP BY v.oid, v.n),
-- A word's kind is one character: the form of a column, x for a stand-in, N, Q, C or K for a list, Z for a null test, = for = and <>, o for
-- the other comparison operators, & for AND and OR, ! for NOT, and ? for whatever pgplan does not have.
meant AS (
    SELECT w.oid, w.n, l.count,
           CASE WHEN w.is_literal THEN l.text WHEN w.is_list THEN CASE WHEN w.word LIKE '=%' THEN 'IN (' ELSE 'NOT IN (' END || l.text || ')'
                WHEN c.name IS NOT NULL THEN c.name ELSE w.word END AS text,
           CASE WHEN w.is_literal THEN l.kind WHEN w.is_list THEN upper(l.kind)
                WHEN c.is_row THEN '?' WHEN c.form IS NOT NULL THEN c.form WHEN w.word ~ '^\([a-z]' THEN '?'
                WHEN w.word IN ('IS NULL', 'IS NOT NULL') THEN 'Z' WHEN w.word IN ('=', '<>') THEN '='
                WHEN w.word IN ('<', '<=', '>', '>=') THEN 'o'
                WHEN w.word IN ('AND', 'OR') THEN '&' WHEN w.word = 'NOT' THEN '!' WHEN w.word IN ('(', ')') THEN w.word WHEN w.word = ' ' THEN ''
                ELSE '?' END AS kind
    FROM word w LEFT JOIN listed l ON l.oid = w.oid AND l.n = w.n LEFT JOIN named c ON c.oid = w.oid AND c.n = w.n),
-- Comparisons, null tests and boolean columns become @. pgplan allows 256 of them, and each literal of a list is one. An inet has no
-- order in pgplan, and two numerics may have different scales.
shape AS (
    SELECT m.oid, string_agg(m.text, '' ORDER BY m.n) AS cond, coalesce(sum(m.count - 1) FILTER (WHERE m.count > 1), 0) AS further,
           regexp_replace(string_agg(m.kind, '' ORDER BY m.n), '[in][=o][in]|[tq][=o][tq]|[bc][=o][bc]|d[=o]d|m[=o]m|w[=o]w|e[=o]e|u[=o]u|h[=o]h|y=y|'
               '[dmwesuh][=o]k|k[=o][dmwesuh]|y=k|k=y|iN|tQ|bC|[dmwesuhy]K|[itbxdmwesuhy]Z|b', '@', 'g') AS atoms
    FROM meant m GROUP BY m.oid),
-- Each step removes the innermost level, a pair of parentheses or a NOT. pgplan allows 32. A condition that it can read ends as @.
level AS (
    SELECT s.oid, 0 AS level, replace(s.atoms, 'c', '@') AS form FROM shape s
    UNION ALL
    SELECT l.oid, l.level + 1, regexp_replace(l.form, '\(@(?:&@)*\)|!@', '@', 'g') FROM level l WHERE l.level < 32 AND l.form <> '@'),
judged AS (
    SELECT i.*, s.cond AS listed,
           CASE WHEN i.bar IS NULL AND i.pred IS NOT NULL
                     AND (NOT EXISTS (SELECT FROM level l WHERE l.oid = i.oid AND l.form = '@')
                          OR length(s.atoms) - length(replace(s.atoms, '@', '')) + s.further > 256)
                THEN 'its condition ' || CASE WHEN length(i.pred) > 300 THEN left(i.pred, 300) || ' ..' ELSE i.pred END ELSE i.bar END AS why
    FROM index i LEFT JOIN shape s ON s.oid = i.oid),
placed AS (SELECT j.*, row_number() OVER (PARTITION BY j.tab_oid, j.why IS NULL ORDER BY j.name) AS place FROM judged j),
written AS (
    SELECT p.*, 'CREATE INDEX ' || p.name || ' ON ' || p.tab || CASE WHEN p.method = 'hash' THEN ' USING hash' ELSE '' END || ' ('
        || (SELECT string_agg(col.name || CASE p.options[k.n - 1] & 3 WHEN 1 THEN ' DESC NULLS LAST' WHEN 2 THEN ' NULLS FIRST'
                                                WHEN 3 THEN ' DESC' ELSE '' END, ', ' ORDER BY k.n)
            FROM unnest(p.keys) WITH ORDINALITY AS k(att, n) JOIN col ON col.oid = p.tab_oid AND col.attnum = k.att WHERE k.n <= p.count) || ')'
        || coalesce(' INCLUDE (' || (SELECT string_agg(col.name, ', ' ORDER BY k.n) FROM unnest(p.keys) WITH ORDINALITY AS k(att, n)
            JOIN col ON col.oid = p.tab_oid AND col.attnum = k.att WHERE k.n > p.count) || ')', '')
        || coalesce(' WHERE ' || p.listed, '') || ';' AS line
    FROM placed p WHERE p.why IS NULL AND p.place <= 8),
common AS (
    SELECT f.oid, f.attnum, v.text, v.place, floor(v.freq * 1000000)::int8 AS share,
           f.nulls + sum(floor(v.freq * 1000000)::int8) OVER (PARTITION BY f.oid, f.attnum ORDER BY v.place) AS total
    FROM found f JOIN written_value v ON v.role = 'common' AND v.oid = f.oid AND v.part = f.attnum
    WHERE v.place <= least(16, f.d) AND v.freq >= 0.000001 AND v.text IS NOT NULL),
-- A histogram is written if pgplan has each bound and sorts them in the same way.
histogram AS (
    SELECT f.oid, f.attnum, count(*) AS count, count(v.text) = count(*) AS is_whole,
           f.form <> 'y' AND (f.form NOT IN ('t', 'h') OR f.by_bytes AND
               array_agg(v.bare ORDER BY v.place) = array_agg(v.bare ORDER BY v.bare COLLATE "C")) AS in_order
    FROM found f JOIN written_value v ON v.role = 'bound' AND v.oid = f.oid AND v.part = f.attnum
    GROUP BY f.oid, f.attnum, f.form, f.by_bytes),
bound AS (
    SELECT h.oid, h.attnum, v.text, v.place
    FROM histogram h JOIN written_value v ON v.role = 'bound' AND v.oid = h.oid AND v.part = h.attnum
    WHERE h.in_order AND h.is_whole AND h.count >= 2
      AND (h.count <= 101 OR v.place IN (SELECT 1 + j::int8 * (h.count - 1) / 100 FROM generate_series(0, 100) j))),
known AS (
    SELECT f.*, h.in_order, h.is_whole,
        (SELECT string_agg(c.text || ' ' || c.share, ', ' ORDER BY c.place)
         FROM common c WHERE c.oid = f.oid AND c.attnum = f.attnum AND c.total <= 1000000) AS values_of,
        (SELECT string_agg(b.text, ', ' ORDER BY b.place) FROM bound b WHERE b.oid = f.oid AND b.attnum = f.attnum) AS bounds_of
    FROM found f LEFT JOIN histogram h ON h.oid = f.oid AND h.attnum = f.attnum),
line AS (
    SELECT ''::text AS tab, 0 AS part, ''::text AS key, 0 AS n,
        '-- Tables of the schema ' || :'schema' || ' of ' || current_database() || ', with the sizes and values that the last ANALYZE found.' AS text
    UNION ALL
    SELECT '', 0, '', 2, '-- There is no such schema.' WHERE NOT EXISTS (SELECT FROM pg_namespace WHERE nspname = :'schema')
    UNION ALL
    SELECT '', 0, '', 1, '-- Texts compare byte by byte in pgplan, also where their collation here says otherwise.'
    WHERE EXISTS (SELECT FROM col WHERE form IN ('t', 'h') AND NOT by_bytes)
    UNION ALL
    SELECT r.name, 1, '', 0, '-- left out: ' || CASE r.kind WHEN 'p' THEN 'partitioned table ' WHEN 'v' THEN 'view ' WHEN 'm' THEN 'materialized view '
        WHEN 'f' THEN 'foreign table ' ELSE 'table ' END || quote_ident(r.name)
        || CASE WHEN r.kind = 'r' AND NOT r.spelt THEN ' (its name)' WHEN r.kind = 'r' AND t.place IS NULL THEN ' (no column is left)'
                WHEN r.kind = 'r' THEN ' (more than 64 tables)' ELSE '' END
    FROM relation r LEFT JOIN tab t ON t.oid = r.oid WHERE r.kind <> 'r' OR t.place IS NULL OR t.place > 64
    UNION ALL
    SELECT t.name, 2, '', c.attnum, '-- left out: column ' || quote_ident(t.name) || '.' || quote_ident(c.name) || ' of type ' || c.theirs
        || CASE WHEN NOT c.spelt THEN ' (its name)' ELSE ' (more than 32 columns)' END
    FROM kept_tab t JOIN numbered c ON c.oid = t.oid WHERE NOT c.spelt OR c.place > 32
    UNION ALL
    SELECT t.name, 3, '', c.attnum, CASE WHEN c.stand_in THEN '-- as text, without statistics: column ' ELSE '-- as ' || c.meaning || ': column ' END || t.name || '.' || c.name || ' of type ' || c.theirs
    FROM kept_tab t JOIN col c ON c.oid = t.oid WHERE c.meaning IS NOT NULL OR c.stand_in
    UNION ALL
    SELECT t.name, 4, '', 0, 'CREATE TABLE ' || t.name || ' ('
        || (SELECT string_agg(c.name || ' ' || c.typ || CASE WHEN c.attnotnull THEN ' NOT NULL' ELSE '' END, ', ' ORDER BY c.attnum)
            FROM col c WHERE c.oid = t.oid) || ');'
    FROM kept_tab t
    UNION ALL
    SELECT p.tab, 5, p.name, 0, '-- left out: index ' || quote_ident(p.name) || ' on ' || p.tab || ' (' || coalesce(p.why, 'more than 8 indexes') || ')'
    FROM placed p WHERE p.why IS NOT NULL OR p.place > 8
    UNION ALL
    SELECT w.tab, 6, w.name, 0, '-- as a plain index: ' || CASE WHEN w.uniq THEN 'unique index ' ELSE 'exclusion constraint ' END || w.name
    FROM written w WHERE w.uniq OR w.excludes
    UNION ALL
    SELECT w.tab, 6, w.name, 1, w.line FROM written w
    UNION ALL
    SELECT t.name, 7, '', 0, CASE WHEN t.tuples < 0 THEN '-- no statistics: table ' || t.name || ' was never analyzed' ELSE
        'STATISTICS ' || t.name || ' ROWS ' || least(1e9, greatest(1, t.tuples::numeric))::int8 || ' PAGES ' || least(1000000000, greatest(1, t.pages)) || ';' END
    FROM kept_tab t
    UNION ALL
    SELECT k.tab, 8, '', k.attnum * 3, 'STATISTICS ' || k.tab || '.' || k.name || ' DISTINCT ' || k.d || ' NULLS ' || k.nulls
        || coalesce(' COMMON (' || k.values_of || ')', '') || coalesce(' HISTOGRAM (' || k.bounds_of || ')', '') || ';'
    FROM known k
    UNION ALL
    SELECT k.tab, 8, '', k.attnum * 3 - 1, '-- left out: ' || cardinality(k.vals) - 16 || ' further common values of ' || k.tab || '.' || k.name
    FROM known k WHERE cardinality(k.vals) > 16
    UNION ALL
    SELECT k.tab, 8, '', k.attnum * 3 - 2, '-- left out: the histogram of ' || k.tab || '.' || k.name
        || CASE WHEN k.in_order THEN ' (a bound has no value in pgplan)' WHEN k.by_bytes THEN ' (its bounds are not in the order of their bytes)'
                ELSE ' (its collation is not C)' END
    FROM known k WHERE NOT (k.in_order AND k.is_whole) AND k.bounds IS NOT NULL
    UNION ALL
    SELECT t.name, 9, e.stxname::text, 0, '-- left out: extended statistics ' || quote_ident(e.stxname::text) || ' on ' || t.name
    FROM kept_tab t JOIN pg_statistic_ext e ON e.stxrelid = t.oid),
-- A script has at most 16 MiB. After 15 million bytes only CREATE TABLE is written.
sized AS (
    SELECT l.*, l.part = 4 OR sum(octet_length(l.text) + 1) OVER (ORDER BY l.tab, l.part, l.key, l.n) <= 15000000 AS fits FROM line l)
-- A comment ends at its line's end.
SELECT CASE WHEN text LIKE '--%' THEN regexp_replace(text, '[\n\r]', ' ', 'g') ELSE text END
FROM (SELECT 0 AS last, tab, part, key, n, text FROM sized WHERE fits
      UNION ALL
      SELECT 1, '', 0, '', 0, '-- left out: the last ' || count(*) || ' lines that are no CREATE TABLE (a script has at most 16 MiB)'
      FROM sized WHERE NOT fits HAVING count(*) > 0) shown
ORDER BY last, tab, part, key, n;
