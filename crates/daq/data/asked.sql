SELECT SUM(price) FROM t
SELECT MAX(price), COUNT(*) FROM t WHERE price > 8
