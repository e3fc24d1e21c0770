-- Planets stand at the node that their name gives, kinds at every node.
CREATE TABLE planets (radius INT, name TEXT NOT NULL, moons INT) WITH (DISTRIBUTION = HASH(name));
CREATE TABLE kinds (kind TEXT, meaning TEXT) WITH (DISTRIBUTION = REPLICATE);
LOAD planets FROM 'planets.csv';
LOAD kinds FROM 'kinds.csv';
SELECT * FROM planets;
SELECT * FROM kinds;
DROP TABLE kinds;
