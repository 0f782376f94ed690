-- Each function of the extension of SQLite, with what it answers and what it refuses, over the table of tests/sql/rows.sql, for
-- runs in which memory is watched or refused. Errors are on standard error.
SELECT element, gtd_check(domain) FROM r;
SELECT element, gtd_canon(domain), gtd_words(domain) FROM r WHERE gtd_check(domain) IS NULL;
SELECT element, gtd_holds(domain, '2024-03-16T10:00:00'), gtd_holds(domain, 0) FROM r WHERE gtd_check(domain) IS NULL;
SELECT gtd_next(domain, '2024-03-16 10:00:00', '2024-03-17'), gtd_ever(domain, 0) FROM r WHERE gtd_check(domain) IS NULL;
SELECT element, begins, ends FROM r, gtd_spans(domain, '2024-03-15', '2024-03-17 12:00:00') WHERE gtd_check(domain) IS NULL;
SELECT begins FROM gtd_spans('(h10){h1}', 0, 864000) LIMIT 3;
SELECT element, gtd_closed(direction, vehicles, domain, 'negative', 12, '2024-03-16T10:00:00') FROM r
WHERE element <> 3 GROUP BY element;
SELECT gtd_closed(direction, vehicles, domain, 'positive', NULL, 0) FROM r WHERE element = 2;
WITH RECURSIVE n(i) AS (SELECT 1 UNION ALL SELECT i + 1 FROM n WHERE i < 20)
SELECT count(gtd_canon('(h1){m' || i || '}')), sum(gtd_holds('(h1){m' || (i % 7) || '}', 3600)) FROM n;
SELECT a.element, b.element, gtd_same(a.domain, b.domain), gtd_apart(a.domain, b.domain, '2024-03-16 10:00:00') FROM r a, r b
WHERE gtd_check(a.domain) IS NULL AND gtd_check(b.domain) IS NULL;
SELECT gtd_hours('Mo-Fr 08:00-12:00,22:00-04:00; Dec 24-26 off'), gtd_same('(h10){h4}', gtd_hours('10:00-14:00'));
SELECT gtd_canon(domain) FROM r;
SELECT gtd_words('(h1)');
SELECT gtd_holds('(h1){h1}', 'today');
SELECT gtd_next('(h1){h1}', 0, 0);
SELECT gtd_ever('(y2024){d1}', 0);
SELECT gtd_same('(h1', '(h1){h1}');
SELECT gtd_same('(h1){h1}', '(h1');
SELECT gtd_apart('(h1){h1}', '(h1){h2}', '2200-01-01T00:00:00');
SELECT gtd_hours('Mo-Fr 08:00-17:00; PH off');
SELECT begins FROM gtd_spans('(h1', 0, 1);
SELECT begins FROM gtd_spans('(h1){h1}', 0, 'x');
SELECT begins FROM gtd_spans('(h1){h1}', 1, 0);
SELECT begins FROM gtd_spans('(h1){h1}');
SELECT gtd_closed('up', 0, '', 'positive', 11, 0);
SELECT gtd_closed('both', 100, '', 'positive', 11, 0);
SELECT gtd_closed('both', 0, '(h1', 'positive', 11, 0);
SELECT gtd_closed('both', 0, '', 'both', 11, 0);
SELECT gtd_closed('both', 0, '', 'positive', 0, 0);
SELECT gtd_closed('both', 0, '', 'positive', 11, 'x');
SELECT element FROM r INDEXED BY i WHERE element < 3 AND gtd_canon(domain) = '[(h10){h4}]';
