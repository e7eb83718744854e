"""The tables and views of a database, as the scripts that make them: one per version."""

MARK = 0x5244536D  # the mark of a database of this program, in the header of its file: "RDSm"

TABLES = """
CREATE TABLE recordings(
  id INTEGER PRIMARY KEY, name TEXT NOT NULL UNIQUE, station TEXT);
-- A stream that was restarted in one file has several. start: the UTC of the first bit in seconds since 1970, if known.
CREATE TABLE sessions(
  id INTEGER PRIMARY KEY, recording INTEGER NOT NULL REFERENCES recordings ON DELETE CASCADE, number INTEGER NOT NULL,
  start REAL, rate REAL NOT NULL, minute_bits REAL NOT NULL, begin_place INTEGER NOT NULL, end_place INTEGER NOT NULL,
  finished INTEGER NOT NULL, UNIQUE(recording, number));
CREATE TABLE totals(
  session INTEGER NOT NULL REFERENCES sessions ON DELETE CASCADE, name TEXT NOT NULL, value INTEGER NOT NULL,
  PRIMARY KEY(session, name)) WITHOUT ROWID;
-- Each value that an item of the contents had, as text.
CREATE TABLE facts(
  id INTEGER PRIMARY KEY, item TEXT NOT NULL, value TEXT, UNIQUE(item, value));
-- Blocks by the clock; mix: groups by type, as JSON; the facts that held at the end of the minute; clock_s: the clock
-- of the station less that of the recording; more: events that were left out, since an item changed too often.
CREATE TABLE minute_rows(
  session INTEGER NOT NULL REFERENCES sessions ON DELETE CASCADE, minute INTEGER NOT NULL,
  sent INTEGER NOT NULL, valid INTEGER NOT NULL, corrected INTEGER NOT NULL, lost INTEGER NOT NULL,
  missing INTEGER NOT NULL,
  mix TEXT, pi INTEGER REFERENCES facts, ps INTEGER REFERENCES facts, rt INTEGER REFERENCES facts,
  pty INTEGER REFERENCES facts, tp INTEGER REFERENCES facts, ta INTEGER REFERENCES facts, ms INTEGER REFERENCES facts,
  clock_s REAL, more INTEGER NOT NULL,
  PRIMARY KEY(session, minute)) WITHOUT ROWID;
CREATE TABLE event_rows(
  session INTEGER NOT NULL REFERENCES sessions ON DELETE CASCADE, place INTEGER NOT NULL, number INTEGER NOT NULL,
  fact INTEGER NOT NULL REFERENCES facts, PRIMARY KEY(session, place, number)) WITHOUT ROWID;
CREATE TABLE outage_rows(
  session INTEGER NOT NULL REFERENCES sessions ON DELETE CASCADE, begin_place INTEGER NOT NULL,
  end_place INTEGER NOT NULL,
  PRIMARY KEY(session, begin_place)) WITHOUT ROWID;
CREATE TABLE group_rows(
  session INTEGER NOT NULL REFERENCES sessions ON DELETE CASCADE, place INTEGER NOT NULL, type INTEGER,
  version TEXT NOT NULL,
  valid INTEGER NOT NULL, block1 TEXT NOT NULL, block2 TEXT NOT NULL, block3 TEXT NOT NULL, block4 TEXT NOT NULL,
  PRIMARY KEY(session, place)) WITHOUT ROWID;
"""


def _utc(seconds: str) -> str:
    return f"strftime('%Y-%m-%dT%H:%M:%fZ', {seconds}, 'unixepoch')"


OF = "recordings.name AS recording, station, session"
JOIN = "JOIN sessions ON sessions.id = session JOIN recordings ON recordings.id = recording"
# The contents that a minute names; all others are found in the events.
HELD = ("pi", "ps", "rt", "pty", "tp", "ta", "ms")

# All other views are those of later versions.
VIEWS = f"""
CREATE VIEW events AS
  SELECT {OF}, place, {_utc('start + place / rate')} AS utc, place / rate AS time_s, item, value
  FROM event_rows {JOIN} JOIN facts ON facts.id = fact;
CREATE VIEW groups AS
  SELECT {OF}, place, {_utc('start + place / rate')} AS utc, place / rate AS time_s, type, version, valid,
    block1, block2, block3, block4
  FROM group_rows {JOIN};
"""

# What `watch` writes besides. hour_files: up to which byte the rows of an hour's file are in the tables above, and whether
# it is being written. station_rows: when a station was last looked at, and its state, as JSON.
WATCH = f"""
CREATE TABLE hour_files(
  session INTEGER PRIMARY KEY REFERENCES sessions ON DELETE CASCADE, path TEXT NOT NULL, bytes INTEGER NOT NULL,
  is_open INTEGER NOT NULL);
CREATE TABLE alarm_rows(
  id INTEGER PRIMARY KEY, station TEXT NOT NULL, alarm TEXT NOT NULL, begin_at REAL NOT NULL, end_at REAL,
  text TEXT NOT NULL);
CREATE INDEX alarm_rows_by_station ON alarm_rows(station, begin_at);
CREATE TABLE run_rows(
  id INTEGER PRIMARY KEY, station TEXT NOT NULL, begin_at REAL NOT NULL, end_at REAL, reason TEXT NOT NULL);
CREATE INDEX run_rows_by_station ON run_rows(station, begin_at);
CREATE TABLE station_rows(station TEXT PRIMARY KEY, looked_at REAL NOT NULL, state TEXT NOT NULL) WITHOUT ROWID;
CREATE INDEX sessions_by_recording ON sessions(recording, start);
CREATE INDEX recordings_by_station ON recordings(station);
CREATE VIEW alarms AS
  SELECT station, alarm, {_utc('begin_at')} AS begin_utc, {_utc('end_at')} AS end_utc,
    ROUND(end_at - begin_at, 1) AS length_s, text
  FROM alarm_rows;
CREATE VIEW runs AS
  SELECT station, {_utc('begin_at')} AS begin_utc, {_utc('end_at')} AS end_utc, reason FROM run_rows;
CREATE VIEW stations AS
  SELECT station, {_utc('looked_at')} AS looked_utc, state FROM station_rows;
"""

# watched_rows: when a station was watched. quiet_place: where an outage began that lasts.
# spans: when a station was watched, was in a session, and in it had no RDS. down: when it was watched and had no session.
STANDING = f"""
CREATE TABLE watched_rows(
  id INTEGER PRIMARY KEY, station TEXT NOT NULL, begin_at REAL NOT NULL, end_at REAL NOT NULL);
CREATE INDEX watched_rows_by_station ON watched_rows(station, begin_at);
ALTER TABLE sessions ADD COLUMN quiet_place INTEGER;
-- It is one alarm of the watch.
UPDATE alarm_rows SET station = '' WHERE alarm = 'disk' AND end_at IS NULL;
DROP VIEW IF EXISTS outages;
DROP VIEW IF EXISTS days;
DROP VIEW IF EXISTS station_outages;
CREATE VIEW outages AS
  WITH every AS (
    SELECT session, outage_rows.begin_place AS first, outage_rows.end_place AS after, 0 AS lasts FROM outage_rows
    UNION ALL SELECT id, quiet_place, end_place, 1 FROM sessions WHERE quiet_place IS NOT NULL)
  SELECT {OF}, first AS begin_place, CASE lasts WHEN 0 THEN after END AS end_place,
    {_utc('start + first / rate')} AS begin_utc, CASE lasts WHEN 0 THEN {_utc('start + after / rate')} END AS end_utc,
    (after - first) / rate AS length_s
  FROM every {JOIN};
CREATE VIEW spans AS
  SELECT station, 'watched' AS kind, begin_at, end_at, 0 AS lasts FROM watched_rows
  UNION ALL SELECT station, 'session', start + begin_place / rate, start + end_place / rate, 0
    FROM recordings JOIN sessions ON recording = recordings.id WHERE start IS NOT NULL
  UNION ALL SELECT station, 'noise', start + outage_rows.begin_place / rate, start + outage_rows.end_place / rate, 0
    FROM recordings JOIN sessions ON recording = recordings.id JOIN outage_rows ON session = sessions.id WHERE start IS NOT NULL
  UNION ALL SELECT station, 'noise', start + quiet_place / rate, start + end_place / rate, 1
    FROM recordings JOIN sessions ON recording = recordings.id WHERE quiet_place IS NOT NULL;
CREATE VIEW down AS
  WITH covered AS (
    SELECT watched_rows.id, spans.begin_at, spans.end_at FROM watched_rows
      JOIN spans ON spans.station = watched_rows.station AND kind = 'session'
      AND spans.begin_at < watched_rows.end_at AND spans.end_at > watched_rows.begin_at
    UNION ALL SELECT id, begin_at, begin_at FROM watched_rows
    UNION ALL SELECT id, end_at, end_at FROM watched_rows),
  gaps AS (
    SELECT id, MAX(end_at) OVER (
      PARTITION BY id ORDER BY begin_at, end_at ROWS BETWEEN UNBOUNDED PRECEDING AND 1 PRECEDING) AS begin_at,
      begin_at AS end_at FROM covered)
  SELECT station, gaps.begin_at, gaps.end_at, gaps.end_at = watched_rows.end_at AS lasts
  FROM gaps JOIN watched_rows ON watched_rows.id = gaps.id WHERE gaps.end_at - gaps.begin_at > 0.1;
-- By station and time. Those on both sides of a cut between two sessions are one. An end that is not known yet is empty.
CREATE VIEW station_outages AS
  WITH told AS (
    SELECT station, kind, begin_at, end_at, lasts FROM spans WHERE kind = 'noise'
    UNION ALL SELECT station, 'down', begin_at, end_at, lasts FROM down),
  apart AS (
    SELECT *, begin_at > 0.1 + MAX(end_at) OVER (
      PARTITION BY station, kind ORDER BY begin_at ROWS BETWEEN UNBOUNDED PRECEDING AND 1 PRECEDING) AS new
    FROM told),
  numbered AS (SELECT *, SUM(COALESCE(new, 1)) OVER (PARTITION BY station, kind ORDER BY begin_at) AS number FROM apart)
  SELECT station, {_utc('MIN(begin_at)')} AS begin_utc,
    CASE MAX(lasts) WHEN 0 THEN {_utc('MAX(end_at)')} END AS end_utc,
    ROUND(MAX(end_at) - MIN(begin_at), 3) AS length_s, kind
  FROM numbered GROUP BY station, kind, number ORDER BY MIN(begin_at);
"""

# How strong the signal of a minute was, of a watch that demodulates: the power of the station's channel, of IQ, and the signal-to-noise
# ratio of RDS.
STRENGTHS = f"""
ALTER TABLE minute_rows ADD COLUMN level_dbfs REAL;
ALTER TABLE minute_rows ADD COLUMN snr_db REAL;
DROP VIEW IF EXISTS minutes;
CREATE VIEW minutes AS
  SELECT {OF}, minute, {_utc('start + minute * minute_bits / rate')} AS begin_utc,
    minute * minute_bits / rate AS begin_s, sent, valid, corrected, lost, missing,
    ROUND(100.0 * (sent - valid) / sent, 2) AS bad_percent, mix,
    {', '.join(f'(SELECT value FROM facts WHERE facts.id = minute_rows.{item}) AS {item}' for item in HELD)}, clock_s, more, level_dbfs, snr_db
  FROM minute_rows {JOIN};
"""

DAYS = f"""
DROP VIEW IF EXISTS days;
-- By day of UTC, of the sessions whose start is known. A minute belongs to the day in which it begins. The last four add up to a day:
-- times that a clock passed twice, since it was set back, count once.
CREATE VIEW days AS
  WITH RECURSIVE cut(station, kind, day, begin_at, end_at) AS (
    SELECT station, kind, CAST(begin_at / 86400 AS INTEGER), begin_at, end_at FROM spans
    UNION ALL SELECT station, kind, day + 1, (day + 1) * 86400.0, end_at FROM cut WHERE end_at > (day + 1) * 86400.0),
  seconds AS (
    SELECT station, day, MIN(SUM((kind = 'watched') * length), 86400) AS watched,
      MIN(SUM((kind = 'session') * length), 86400) AS session,
      MIN(SUM((kind = 'noise') * length), SUM((kind = 'session') * length), 86400) AS noise
    FROM (SELECT station, kind, day, MIN(end_at, (day + 1) * 86400.0) - begin_at AS length FROM cut) GROUP BY station, day),
  counted AS (
    SELECT station, CAST((start + minute * minute_bits / rate) / 86400 AS INTEGER) AS day,
      SUM(sent * 26 / rate) / 3600 AS hours, SUM(sent) AS sent, SUM(valid) AS valid
    FROM minute_rows {JOIN} WHERE start IS NOT NULL GROUP BY 1, 2)
  SELECT seconds.station, date(seconds.day * 86400, 'unixepoch') AS day, ROUND(COALESCE(hours, 0), 2) AS hours,
    COALESCE(sent, 0) AS sent, COALESCE(valid, 0) AS valid, ROUND(100.0 * valid / sent, 2) AS valid_percent,
    ROUND(session - noise, 3) AS received_s, ROUND(noise, 3) AS noise_s, ROUND(MAX(watched - session, 0), 3) AS down_s,
    ROUND(86400 - MAX(watched, session), 3) AS unknown_s
  FROM seconds LEFT JOIN counted ON counted.station IS seconds.station AND counted.day = seconds.day;
"""

# The script of each version, which makes it of the one before: a database is brought up to date when it is opened.
MIGRATIONS = (TABLES + VIEWS, WATCH, STANDING, STRENGTHS, DAYS)
