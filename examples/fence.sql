-- The fence of a database that one group of members shares, for SQLite and PostgreSQL (docs/QUEUES.md, "A database behind a fence").
-- One row: the count, tag and nodes of the fence that was accepted last, and the floor. A fence up to the floor is rejected.
CREATE TABLE fence (floor BIGINT NOT NULL, count BIGINT NOT NULL, tag TEXT NOT NULL, nodes TEXT NOT NULL);
INSERT INTO fence VALUES (0, 0, '', '');
