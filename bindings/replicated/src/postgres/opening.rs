//! Where a log is, and how it is opened.

use super::answer::{Params, Rows};
use super::connection::{Connection, Statement};
use super::{Ahead, Log, Pending, PostgresDevice, statements};
use crate::refusal::Refusal;
use std::fmt;
use std::time::Duration;

/// On how many servers a change has to be before a sync answers.
#[derive(Clone, Copy, Debug, Default, PartialEq, Eq)]
pub enum Servers {
    /// On the primary and a synchronous standby. A server that names none in `synchronous_standby_names` is refused.
    #[default]
    Standby,
    /// On one server is enough, as after a failover that has no second one yet. Where it names standbys, a sync waits for them still.
    One,
}

/// Where a log is: a server and a name.
///
/// ```no_run
/// use dilluvas::{Db, FileSettings};
/// use dilluvas_replicated::Place;
///
/// # fn main() -> Result<(), Box<dyn std::error::Error>> {
/// let place = Place::new("service=shop", "orders");
/// place.make_tables()?;
/// let db = Db::on_device(place.open_or_make()?, &FileSettings::default())?;
/// db.map("orders").insert("1", "two apples")?;
/// db.flush()?;
/// # Ok(())
/// # }
/// ```
#[derive(Clone)]
pub struct Place {
    conninfo: String,
    name: String,
    servers: Servers,
    wait: Option<Duration>,
    piece: u32,
}

// Without the connection string, in which somebody may have put a password.
impl fmt::Debug for Place {
    fn fmt(&self, f: &mut fmt::Formatter<'_>) -> fmt::Result {
        f.debug_struct("Place")
            .field("name", &self.name)
            .field("servers", &self.servers)
            .finish_non_exhaustive()
    }
}

// The only version of the tables.
const VERSION: i32 = 1;
// A flush of one change writes a piece anew twice, so it isn't a large one: docs/SCALE.md has what that takes.
const USUAL_PIECE: u32 = 1 << 13;
const PIECES: std::ops::RangeInclusive<i32> = 1 << 10..=1 << 20;

impl Place {
    /// A log of a name on a server. `conninfo` is a connection string of libpq, without a password: that is in `~/.pgpass` or in a service
    /// file. How long a connection may take to be made, and when a silent one is given up, is said there too (`connect_timeout`,
    /// `tcp_user_timeout`, `keepalives_idle`).
    #[must_use]
    pub fn new(conninfo: impl Into<String>, name: impl Into<String>) -> Place {
        Place {
            conninfo: conninfo.into(),
            name: name.into(),
            servers: Servers::Standby,
            wait: None,
            piece: USUAL_PIECE,
        }
    }

    /// On how many servers a change has to be.
    #[must_use]
    pub fn servers(mut self, servers: Servers) -> Place {
        self.servers = servers;
        self
    }

    /// How long an answer is waited for, after which the connection is given up: for ever where this isn't called, as where a standby is gone.
    #[must_use]
    pub fn wait(mut self, wait: Duration) -> Place {
        self.wait = Some(wait);
        self
    }

    /// How many bytes a piece has of a log that is made: a power of two from 1 KiB to 1 MiB, 8 KiB where this isn't called. A sync writes each
    /// piece anew that it changes. Another number is refused where the log would be made.
    #[must_use]
    pub fn piece(mut self, bytes: u32) -> Place {
        self.piece = bytes;
        self
    }

    /// Makes the tables of logs, where they aren't there.
    ///
    /// # Errors
    ///
    /// Those of a connection and of the server.
    pub fn make_tables(&self) -> Result<(), Refusal> {
        let mut connection = self.connect()?;
        for statement in statements::MAKE_TABLES {
            connection.call(Statement::Text(statement), &Params::default())?;
        }
        Ok(())
    }

    /// Opens the log. The opening raises the log's epoch, which is durable then: from then on no earlier opening commits or reads anything,
    /// however late it asks to.
    ///
    /// # Errors
    ///
    /// [`NoLog`](Refusal::NoLog), and those of a connection, of the server, and of bad input, at which nothing was written:
    /// [`OtherVersion`](Refusal::OtherVersion), [`ImpossibleEpoch`](Refusal::ImpossibleEpoch), [`BadLength`](Refusal::BadLength),
    /// [`BadPiece`](Refusal::BadPiece). [`Superseded`](Refusal::Superseded) where another opening came first.
    pub fn open(&self) -> Result<PostgresDevice, Refusal> {
        let connection = self.connect()?;
        self.open_on(connection)
    }

    /// The same, and makes an empty log where there is none of the name.
    ///
    /// # Errors
    ///
    /// As of [`open`](Place::open), but for [`NoLog`](Refusal::NoLog). [`BadLength`](Refusal::BadLength) for a piece of another length than
    /// [`piece`](Place::piece) names, also where the log is there.
    pub fn open_or_make(&self) -> Result<PostgresDevice, Refusal> {
        if !is_piece(self.piece.cast_signed()) {
            return Err(Refusal::BadLength(self.piece.into()));
        }
        let mut connection = self.connect()?;
        let params = Params::default().text(&self.name).int4(self.piece as i32);
        in_tables(connection.call(Statement::Text(statements::MAKE), &params))?;
        self.open_on(connection)
    }

    /// Removes the log with all its pieces, also one that is damaged. A device that has it open fails at its next sync.
    ///
    /// # Errors
    ///
    /// [`NoLog`](Refusal::NoLog), and those of a connection and of the server.
    pub fn remove(&self) -> Result<(), Refusal> {
        let mut connection = self.connect()?;
        let params = Params::default().text(&self.name);
        let gone = in_tables(connection.call(Statement::Text(statements::REMOVE), &params))?;
        match gone.int8(0, 0)? {
            0 => Err(Refusal::NoLog),
            _ => Ok(()),
        }
    }

    // A connection whose session is set, to a server that keeps what is wanted.
    fn connect(&self) -> Result<Connection, Refusal> {
        let mut connection = Connection::new(&self.conninfo, self.wait)?;
        look_at_server(&mut connection, self.servers == Servers::One)?;
        connection.call(Statement::Text(statements::SET_SESSION), &Params::default())?;
        Ok(connection)
    }

    // The log as it was found, which its pieces fit.
    fn find(&self, connection: &mut Connection) -> Result<Log, Refusal> {
        let params = Params::default().text(&self.name);
        let rows = in_tables(connection.call(Statement::Text(statements::FIND), &params))?;
        if rows.count() == 0 {
            return Err(Refusal::NoLog);
        }
        let version = rows.int4(0, 1)?;
        if version != VERSION {
            return Err(Refusal::OtherVersion(version));
        }
        let (piece, length) = (rows.int4(0, 2)?, rows.int8(0, 3)?);
        if !is_piece(piece) {
            return Err(Refusal::BadLength(piece.into()));
        }
        if length < 0 {
            return Err(Refusal::BadLength(length));
        }
        let log = Log {
            id: rows.int8(0, 0)?,
            epoch: rows.int8(0, 4)?,
            piece: piece as u64,
        };
        check_pieces(&rows, &log, length)?;
        Ok(log)
    }

    fn open_on(&self, mut connection: Connection) -> Result<PostgresDevice, Refusal> {
        let mut log = self.find(&mut connection)?;
        let params = Params::default().int8(log.id).int8(log.epoch);
        let raised = connection.call(Statement::Text(statements::RAISE), &params)?;
        if raised.count() == 0 {
            return Err(superseded(log.epoch));
        }
        log.epoch = raised.int8(0, 0)?;
        // an earlier writer may have made it longer since
        let length = raised.int8(0, 1)? as u64;
        for statement in [statements::READ, statements::SYNC] {
            connection.call(Statement::Text(statement), &Params::default())?;
        }
        Ok(PostgresDevice {
            connection,
            log,
            one_server: self.servers == Servers::One,
            stored: length,
            length,
            pending: Pending::default(),
            ahead: Ahead::default(),
            failed: None,
        })
    }
}

fn is_piece(bytes: i32) -> bool {
    PIECES.contains(&bytes) && bytes.count_ones() == 1
}

// That another opening came between two looks at the log.
fn superseded(ours: i64) -> Refusal {
    Refusal::Superseded {
        ours,
        theirs: ours.saturating_add(1),
    }
}

// That tables or their columns aren't there is an error of its own.
fn in_tables<T>(answer: Result<T, Refusal>) -> Result<T, Refusal> {
    answer.map_err(|refusal| match refusal {
        Refusal::Server(state, _) if state == "42P01" => Refusal::NoTables,
        Refusal::Server(state, _) if state == "42703" => Refusal::OtherVersion(0),
        refusal => refusal,
    })
}

/// Refuses a server whose commits wouldn't be on as many servers as is wanted, or wouldn't be durable.
pub(super) fn look_at_server(connection: &mut Connection, one_server: bool) -> Result<(), Refusal> {
    let look = Statement::Text(statements::LOOK_AT_SERVER);
    let rows = connection.call(look, &Params::default())?;
    if rows.bool(0, 0)? {
        return Err(Refusal::InRecovery);
    }
    if !rows.bool(0, 2)? {
        return Err(Refusal::NoFsync);
    }
    if !one_server && !rows.bool(0, 1)? {
        return Err(Refusal::NoStandby);
    }
    Ok(())
}

// Refuses a log whose epoch can't be, or whose pieces aren't those of its length.
fn check_pieces(rows: &Rows, log: &Log, length: i64) -> Result<(), Refusal> {
    if log.epoch < 0 || log.epoch == i64::MAX {
        return Err(Refusal::ImpossibleEpoch(log.epoch));
    }
    let (count, bad, epoch) = (rows.int8(0, 5)?, rows.int8(0, 6)?, rows.int8(0, 8)?);
    if bad > 0 {
        return Err(Refusal::BadPiece(rows.int8(0, 7)?));
    }
    if count as u64 != (length as u64).div_ceil(log.piece) {
        return Err(Refusal::BadPiece(count));
    }
    if epoch > log.epoch {
        return Err(Refusal::ImpossibleEpoch(epoch));
    }
    Ok(())
}
