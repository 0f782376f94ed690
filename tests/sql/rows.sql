-- The table of tests/sql/memory.sql.
CREATE TABLE r(element, direction, vehicles, domain);
INSERT INTO r VALUES (1, 'both', 0, '(h10){h4}'), (1, 'positive', '11;12', NULL),
    (2, 'negative', '!11', '[(t7h5){h10}]*[(M3){M2}]'), (3, 'both', 0, '(h25){h1}'), (4, NULL, NULL, NULL);
CREATE INDEX i ON r(gtd_canon(domain)) WHERE element < 3;
