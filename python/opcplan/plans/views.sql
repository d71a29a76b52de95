-- Temporary views of a plan for stock sqlite3: nothing of them stands in the file. Ask a copy of the plan:
--   sqlite3 plan.db ".backup copy.db"      (while no stream runs)
--   sqlite3 -header -column copy.db -init python/opcplan/plans/views.sql
-- readable    each occurrence: where it stands, and how far it is
-- late        what is neither complete nor deleted past its deadline, the longest first
-- blocked_by  each occurrence that isn't complete, and what it waits for that isn't either, one step down
-- why         each occurrence to be done: how far it is, how many it waits for, and which of these wait for nothing
-- They go by the clock, in local time. As of another moment:
--   UPDATE clock SET now = strftime('%s', '2024-01-02 06:00') / 60;

CREATE TEMP TABLE IF NOT EXISTS clock AS SELECT strftime('%s', 'now', 'localtime') / 60 AS now;

-- The rows of all four sets: `place` is the status in the current plan, else L, H, or the reason in small letters.
CREATE TEMP VIEW IF NOT EXISTS occurrence AS
SELECT serial, app, ia, deadline, run_cycle, 'L' AS place, 'long-term plan' AS stands_in FROM ltp_row
UNION ALL SELECT serial, app, ia, deadline, run_cycle, status, 'current plan' FROM cp_row
UNION ALL SELECT serial, app, ia, deadline, run_cycle, 'H', 'history' FROM history_row
UNION ALL SELECT serial, app, ia, deadline, run_cycle, lower(reason), 'deletions' FROM deletion_row;

-- The pairs of which neither end is complete: these hold up.
CREATE TEMP VIEW IF NOT EXISTS open_pair AS
SELECT d.successor, d.predecessor FROM dependency d
JOIN occurrence s ON s.serial = d.successor JOIN occurrence p ON p.serial = d.predecessor
WHERE s.place IN ('W', 'L') AND p.place NOT IN ('C', 'H');

CREATE TEMP VIEW IF NOT EXISTS readable AS
SELECT o.serial, o.app AS application,
    strftime('%Y-%m-%d %H.%M', o.ia * 60, 'unixepoch') AS arrives,
    strftime('%Y-%m-%d %H.%M', o.deadline * 60, 'unixepoch') AS due,
    o.stands_in,
    CASE o.place
        WHEN 'W' THEN CASE
            WHEN o.ia > (SELECT now FROM clock) THEN 'its time is to come'
            WHEN EXISTS (SELECT 1 FROM open_pair b WHERE b.successor = o.serial) THEN 'blocked'
            ELSE 'ready' END
        WHEN 'L' THEN 'planned' WHEN 'S' THEN 'started' WHEN 'E' THEN 'in error'
        WHEN 'C' THEN 'complete' WHEN 'H' THEN 'complete' WHEN 'w' THEN 'withdrawn' ELSE 'deleted'
    END AS state,
    coalesce(o.run_cycle, 'by hand') AS run_cycle
FROM occurrence o;

CREATE TEMP VIEW IF NOT EXISTS late AS
SELECT r.serial, r.application, r.arrives, r.due, r.state, (SELECT now FROM clock) - c.deadline AS minutes_late
FROM cp_row c JOIN readable r ON r.serial = c.serial
WHERE c.status IN ('W', 'S', 'E') AND c.deadline < (SELECT now FROM clock)
ORDER BY c.deadline, c.app, c.serial;

CREATE TEMP VIEW IF NOT EXISTS blocked_by AS
SELECT s.serial, s.application, s.arrives, p.application AS waits_for, p.arrives AS its_arrival, p.state AS its_state,
    p.serial AS its_serial
FROM open_pair b JOIN readable s ON s.serial = b.successor JOIN readable p ON p.serial = b.predecessor;

-- The chain of an occurrence is followed when its row is asked for, not before.
CREATE TEMP VIEW IF NOT EXISTS why AS
SELECT r.serial, r.application, r.arrives, r.due, r.stands_in, r.state,
    (WITH RECURSIVE chain (serial) AS (
        SELECT predecessor FROM open_pair WHERE successor = r.serial
        UNION SELECT b.predecessor FROM chain JOIN open_pair b ON b.successor = chain.serial
    ) SELECT count(*) FROM chain) AS waits_for,
    (WITH RECURSIVE chain (serial) AS (
        SELECT predecessor FROM open_pair WHERE successor = r.serial
        UNION SELECT b.predecessor FROM chain JOIN open_pair b ON b.successor = chain.serial
    ) SELECT group_concat(told, '; ') FROM (
        SELECT p.application || ' ' || p.arrives || ' ' || p.state AS told FROM chain JOIN readable p USING (serial)
        WHERE NOT EXISTS (SELECT 1 FROM open_pair b WHERE b.successor = chain.serial)
        ORDER BY p.arrives, p.application, p.serial
    )) AS down_to
FROM readable r
WHERE r.stands_in = 'long-term plan' OR r.stands_in = 'current plan' AND r.state NOT IN ('complete', 'deleted');
