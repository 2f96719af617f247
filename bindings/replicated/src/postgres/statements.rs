//! The statements. Version 1 of the tables.

/// One at a time, since each may be there already.
pub const MAKE_TABLES: [&str; 3] = [
    "CREATE TABLE IF NOT EXISTS dilluvas_log (
        id bigint GENERATED ALWAYS AS IDENTITY PRIMARY KEY,
        name text NOT NULL UNIQUE,
        version int NOT NULL,
        piece int NOT NULL,
        length bigint NOT NULL,
        epoch bigint NOT NULL)",
    "CREATE TABLE IF NOT EXISTS dilluvas_piece (
        log bigint NOT NULL,
        number bigint NOT NULL,
        epoch bigint NOT NULL,
        bytes bytea NOT NULL,
        PRIMARY KEY (log, number))",
    // neither compressed nor joined: a part of a piece is read without the rest
    "ALTER TABLE dilluvas_piece ALTER COLUMN bytes SET STORAGE EXTERNAL",
];

/// What a session is set to, whatever the role, the database or the connection string say. The server ends the session of a program that is
/// gone without a word after 25 seconds, so that it doesn't hold the log's row for longer.
pub const SET_SESSION: &str = "SELECT
    set_config('synchronous_commit', 'remote_apply', false),
    set_config('client_encoding', 'UTF8', false),
    set_config('default_transaction_isolation', 'read committed', false),
    set_config('tcp_keepalives_idle', '10', false),
    set_config('tcp_keepalives_interval', '5', false),
    set_config('tcp_keepalives_count', '3', false)";

/// Whether the server is a standby, names standbys, and syncs.
pub const LOOK_AT_SERVER: &str = "SELECT pg_is_in_recovery(),
    current_setting('synchronous_standby_names') <> '',
    current_setting('fsync') = 'on'";

/// $1: the name. The log, and of its pieces how many there are, how many of them aren't the one that comes next or have another length than
/// they should, the first place where that is so, and the greatest epoch: all at one moment, since another writer may be there.
pub const FIND: &str = "SELECT log.id, log.version, log.piece, log.length, log.epoch, pieces.*
    FROM dilluvas_log AS log, LATERAL (
        SELECT count(*), count(*) FILTER (WHERE bad), coalesce(min(place) FILTER (WHERE bad), 0), coalesce(max(epoch), 0)
        FROM (
            SELECT place, epoch, number <> place
                OR octet_length(bytes) <> least(log.length - place * log.piece, log.piece) AS bad
            FROM (
                SELECT number, epoch, bytes, row_number() OVER (ORDER BY number) - 1 AS place
                FROM dilluvas_piece WHERE dilluvas_piece.log = log.id
            ) AS numbered
        ) AS piece
    ) AS pieces
    WHERE log.name = $1::text";

/// $1: the name, $2: the size of a piece.
pub const MAKE: &str = "INSERT INTO dilluvas_log (name, version, piece, length, epoch)
    VALUES ($1::text, 1, $2::int4, 0, 0) ON CONFLICT (name) DO NOTHING";

/// $1: the id, $2: the epoch that was found.
pub const RAISE: &str = "UPDATE dilluvas_log SET epoch = epoch + 1
    WHERE id = $1::int8 AND epoch = $2::int8 AND version = 1 RETURNING epoch, length";

/// $1: the id, $2: the epoch, $3 and $4: from where to where, $5: the size of a piece. Nothing where the epoch is another one.
pub const READ: &str = "PREPARE dilluvas_read (int8, int8, int8, int8, int4) AS
    SELECT piece.number, piece.epoch, substring(piece.bytes
        FROM (greatest($3 - piece.number * $5, 0) + 1)::int4
        FOR (least($4 - piece.number * $5, $5) - greatest($3 - piece.number * $5, 0))::int4)
    FROM dilluvas_log AS log JOIN dilluvas_piece AS piece ON piece.log = log.id
    WHERE log.id = $1 AND log.epoch = $2
        AND piece.number BETWEEN $3 / $5 AND ($4 - 1) / $5
    ORDER BY piece.number";

/// $1: the id, $2: the epoch, $3: the length, $4: the numbers of the pieces, $5: the place in each, $6: the bytes, $7: how many pieces there
/// are, $8: whether one server is enough.
///
/// It is one transaction of one statement, which divides by zero, and so changes nothing, where the epoch is another one, a piece is missing or
/// too short, or the server has been set so that a commit wouldn't wait or not be durable.
pub const SYNC: &str = "PREPARE dilluvas_sync (int8, int8, int8, int8[], int4[], bytea[], int8, bool) AS
    WITH held AS (
        UPDATE dilluvas_log SET length = $3 WHERE id = $1 AND epoch = $2 AND version = 1 RETURNING id
    ), patch AS (
        SELECT * FROM unnest($4, $5, $6) AS patch (number, start, bytes)
    ), changed AS (
        UPDATE dilluvas_piece AS piece
        SET bytes = overlay(piece.bytes PLACING patch.bytes FROM patch.start + 1), epoch = $2
        FROM held, patch
        WHERE piece.log = held.id AND piece.number = patch.number AND patch.number < $7
            AND octet_length(piece.bytes) >= patch.start
        RETURNING 1
    ), added AS (
        INSERT INTO dilluvas_piece (log, number, epoch, bytes)
        SELECT held.id, patch.number, $2, patch.bytes FROM held, patch
        WHERE patch.number >= $7 AND patch.start = 0
        RETURNING 1
    )
    SELECT 1 / ((SELECT count(*) FROM changed) + (SELECT count(*) FROM added) = cardinality($4)
        AND current_setting('fsync') = 'on'
        AND current_setting('synchronous_commit') = 'remote_apply'
        AND ($8 OR current_setting('synchronous_standby_names') <> ''))::int4";

/// What a prepared statement is called.
pub const READ_NAME: &str = "dilluvas_read";
pub const SYNC_NAME: &str = "dilluvas_sync";

/// $1: the id.
pub const LOOK_AT_EPOCH: &str = "SELECT epoch FROM dilluvas_log WHERE id = $1::int8";

/// $1: the name.
pub const REMOVE: &str = "WITH gone AS (
        DELETE FROM dilluvas_log WHERE name = $1::text RETURNING id
    ), pieces AS (
        DELETE FROM dilluvas_piece USING gone WHERE log = gone.id
    )
    SELECT count(*) FROM gone";
