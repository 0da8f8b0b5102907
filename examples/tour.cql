-- A tour of the language. Run it with the words: --clock manual --shards 1 store
-- A line holds one statement or one command. A comment, as this one, prints nothing.

-- A table: a sensor's readings stand together, the latest day first and each day's hours in order.
CREATE TABLE readings (sensor text, day int, hour int, celsius int, note text, PRIMARY KEY (sensor, day, hour)) WITH CLUSTERING ORDER BY (day DESC, hour ASC) AND gc_grace_seconds = 86400;

-- INSERT and UPDATE both write, and print the write's number. A quote in a string is written twice.
INSERT INTO readings (sensor, day, hour, celsius) VALUES ('roof', 1, 6, -4);
INSERT INTO readings (sensor, day, hour, celsius) VALUES ('roof', 1, 18, 3);
INSERT INTO readings (sensor, day, hour, celsius, note) VALUES ('roof', 2, 6, 1, 'it''s wet');
UPDATE readings SET celsius = 5, note = 'sun' WHERE sensor = 'roof' AND day = 3 AND hour = 12;
SELECT * FROM readings WHERE sensor = 'roof';

-- Words and names ignore case, the semicolon may be left out, and the one keyspace is local.
select Celsius from LOCAL.readings where sensor = 'roof' and day = 2 /* wet */ and hour = 6 // one row

-- Slices: = on the first clustering columns, then bounds on the next one.
SELECT day, celsius FROM readings WHERE sensor = 'roof' AND day >= 1 AND day < 3;
SELECT hour, celsius FROM readings WHERE sensor = 'roof' AND day = 1 AND hour > 6;

-- The whole order reversed, and its first two rows.
SELECT day, hour FROM readings WHERE sensor = 'roof' ORDER BY day ASC, hour DESC LIMIT 2;

-- Of two values with one timestamp the greater wins, whichever came first. A deletion beats both.
-- A row that UPDATE alone wrote is gone with its last value.
UPDATE readings USING TIMESTAMP 100 SET note = 'b' WHERE sensor = 'cellar' AND day = 1 AND hour = 0;
UPDATE readings USING TIMESTAMP 100 SET note = 'a' WHERE sensor = 'cellar' AND day = 1 AND hour = 0;
SELECT note, writetime(note) FROM readings WHERE sensor = 'cellar';
DELETE note FROM readings USING TIMESTAMP 100 WHERE sensor = 'cellar' AND day = 1 AND hour = 0;
SELECT * FROM readings WHERE sensor = 'cellar';

-- The clock stands at the second that \clock sets. What has a TTL is there as long as that says.
\clock 100
INSERT INTO readings (sensor, day, hour, celsius) VALUES ('attic', 1, 0, 20) USING TTL 60;
\clock 130
SELECT celsius, ttl(celsius), writetime(celsius) FROM readings WHERE sensor = 'attic';
\clock 160
SELECT * FROM readings WHERE sensor = 'attic';

-- A table may have a TTL of its own. TTL 0 is none.
CREATE TABLE guests (id int PRIMARY KEY, name text) WITH default_time_to_live = 30;
INSERT INTO guests (id, name) VALUES (1, 'Ada');
INSERT INTO guests (id, name) VALUES (2, 'Bea') USING TTL 0;
SELECT name, ttl(name) FROM guests WHERE id = 1;
SELECT name, ttl(name) FROM guests WHERE id = 2;

-- Deleted are a value, by DELETE or by null (the row of an INSERT stays), a row, a range of rows,
DELETE note FROM readings WHERE sensor = 'roof' AND day = 2 AND hour = 6;
UPDATE readings SET celsius = null WHERE sensor = 'roof' AND day = 1 AND hour = 6;
DELETE FROM readings WHERE sensor = 'roof' AND day = 3 AND hour = 12;
DELETE FROM readings WHERE sensor = 'roof' AND day = 1 AND hour > 6;
SELECT * FROM readings WHERE sensor = 'roof';
-- and a whole partition.
DELETE FROM readings WHERE sensor = 'roof';
SELECT * FROM readings WHERE sensor = 'roof';

-- Collections: a set, a list and a map are written whole, added to, and taken from.
CREATE TABLE pages (path text PRIMARY KEY, tags set<text>, trail list<int>, links map<text, int>) WITH compaction = {'class': 'LeveledCompactionStrategy', 'sstable_size_in_mb': 16};
INSERT INTO pages (path, tags, trail, links) VALUES ('/home', {'top', 'new'}, [2, 3], {'news': 7});
UPDATE pages SET tags = tags + {'big'}, trail = trail + [4], links['about'] = 1 WHERE path = '/home';
UPDATE pages SET tags = tags - {'new'}, trail = [0, 1] + trail WHERE path = '/home';
SELECT * FROM pages WHERE path = '/home';
DELETE links['about'], tags FROM pages WHERE path = '/home';
UPDATE pages SET trail = [7, 7] WHERE path = '/home';
SELECT links, tags, trail FROM pages WHERE path = '/home';

-- A static column belongs to the partition. Where no row is there, it is shown without one.
CREATE TABLE orders (customer int, number int, address text STATIC, amount bigint, PRIMARY KEY (customer, number));
INSERT INTO orders (customer, address) VALUES (7, 'Elm Street 1');
SELECT * FROM orders WHERE customer = 7;
INSERT INTO orders (customer, number, amount) VALUES (7, 1, 2500);
INSERT INTO orders (customer, number, amount) VALUES (7, 2, 9000000000);
UPDATE orders SET address = 'Oak Street 2' WHERE customer = 7;
SELECT number, address, amount, writetime(amount) FROM orders WHERE customer = 7;

-- Columns that are added later read null in the rows that are there.
ALTER TABLE orders ADD paid boolean, marks set<ascii>;
UPDATE orders SET paid = true, marks = {'gift'} WHERE customer = 7 AND number = 2;
SELECT * FROM orders WHERE customer = 7;

-- A flush brings what memory has of a table into a table file, and prints that file's number. It changes no answer;
-- what is written after it lies over the file. A status tells which table files each table has in each shard.
\flush orders
\status
SELECT * FROM orders WHERE customer = 7;
DELETE address FROM orders WHERE customer = 7;
SELECT * FROM orders WHERE customer = 7;

-- Names in quotes keep their case. A partition key may have several columns. More constants: uuids,
-- a blob, a date as the number of its day (of which 2147483648 is 1970-01-01), a time in nanoseconds
-- and a timestamp in milliseconds.
CREATE TABLE "Events" (id uuid, day date, "At" time, raw blob, seen timestamp, cause timeuuid, level tinyint, PRIMARY KEY ((id, day), "At"));
INSERT INTO "Events" (id, day, "At", raw, seen, cause, level) VALUES (550e8400-e29b-41d4-a716-446655440000, 2147504102, 28800000000000, 0xCAFE, 1767254400000, 50554d6e-29bb-11e5-b345-feff819cdc9f, -128);
SELECT * FROM "Events" WHERE id = 550e8400-e29b-41d4-a716-446655440000 AND day = 2147504102;
