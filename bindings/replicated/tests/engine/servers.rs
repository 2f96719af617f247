//! A primary and a synchronous standby on loopback, with folders of their own: copies of two that are made once.

use std::fs::{self, File};
use std::net::TcpListener;
use std::os::unix::process::CommandExt;
use std::path::{Path, PathBuf};
use std::process::{Child, Command, Stdio};
use std::sync::atomic::{AtomicU32, Ordering};
use std::sync::{Arc, LazyLock, Mutex, Weak};
use std::time::{Duration, Instant};
use std::{env, process, thread};

/// Where the programs of the engine are.
fn programs() -> PathBuf {
    env::var_os("PG_BIN").map_or_else(|| "/usr/lib/postgresql/15/bin".into(), PathBuf::from)
}

// A program of the engine, as a user that its servers accept: they don't run as root.
fn program(name: &str) -> Command {
    static OWNER: LazyLock<Option<(u32, u32)>> = LazyLock::new(|| {
        let number = |words: &[&str]| {
            let told = Command::new("id").args(words).output().unwrap().stdout;
            String::from_utf8(told)
                .unwrap()
                .trim()
                .parse::<u32>()
                .unwrap()
        };
        (number(&["-u"]) == 0).then(|| (number(&["-u", "postgres"]), number(&["-g", "postgres"])))
    });
    let mut command = Command::new(programs().join(name));
    if let Some((user, group)) = *OWNER {
        command.uid(user).gid(group);
    }
    command
        .current_dir("/")
        .env("LC_ALL", "C")
        .stdin(Stdio::null());
    command
}

fn run(command: &mut Command) -> String {
    let told = command.output().unwrap();
    let errors = String::from_utf8_lossy(&told.stderr);
    assert!(told.status.success(), "{command:?}: {errors}");
    String::from_utf8(told.stdout).unwrap()
}

/// Tries until it succeeds, for some time.
pub fn wait_until(what: &str, mut is_so: impl FnMut() -> bool) {
    let start = Instant::now();
    while !is_so() {
        assert!(
            start.elapsed() < Duration::from_secs(60),
            "{what}: it took too long"
        );
        thread::sleep(Duration::from_millis(10));
    }
}

/// A folder of tests of this process, in memory where there is a place for that.
pub fn folder(name: &str) -> PathBuf {
    let place = match env::var_os("DILLUVAS_REPLICATED_FOLDER") {
        Some(place) => place.into(),
        None if Path::new("/dev/shm").is_dir() => PathBuf::from("/dev/shm"),
        None => env::temp_dir(),
    };
    let folder = place.join(format!("dilluvas-replicated-{}-{name}", process::id()));
    fs::create_dir_all(&folder).unwrap();
    run(Command::new("chmod").arg("777").arg(&folder));
    folder
}

fn spawn(folder: &Path, port: u16, more: &[String]) -> Child {
    let mut log = File::options();
    let log = log
        .create(true)
        .append(true)
        .open(folder.with_extension("log"));
    let mut command = program("postgres");
    command
        .arg("-D")
        .arg(folder)
        .args(["-p", &port.to_string()])
        .args(more);
    command.stdout(Stdio::null()).stderr(log.unwrap());
    command.spawn().unwrap()
}

// A port that nobody has, below those that the system gives to connections: it would give away one of these before the server has it.
fn free_port() -> u16 {
    static NEXT: AtomicU32 = AtomicU32::new(0);
    loop {
        let number = process::id().wrapping_mul(97) + NEXT.fetch_add(1, Ordering::Relaxed);
        let port = 10_000 + (number % 22_000) as u16;
        if TcpListener::bind(("127.0.0.1", port)).is_ok() {
            return port;
        }
    }
}

/// A server, which is killed where it is dropped.
pub struct Server {
    folder: PathBuf,
    port: u16,
    child: Child,
}

impl Server {
    fn start(folder: &Path, more: &[String]) -> Server {
        let port = free_port();
        Server {
            child: spawn(folder, port, more),
            folder: folder.to_path_buf(),
            port,
        }
    }

    /// Starts one that was killed, at the same port.
    pub fn start_again(&mut self) {
        self.child = spawn(&self.folder, self.port, &[]);
    }

    pub fn port(&self) -> u16 {
        self.port
    }

    pub fn conninfo(&self) -> String {
        conninfo(self.port)
    }

    /// What it answers to a statement, or says against it.
    pub fn query(&self, statement: &str) -> Result<String, String> {
        let mut command = program("psql");
        command.args(["-XAtq", "-d", &self.conninfo(), "-c", statement]);
        let told = command.output().unwrap();
        let text = |bytes| String::from_utf8(bytes).unwrap().trim().to_string();
        match told.status.success() {
            true => Ok(text(told.stdout)),
            false => Err(text(told.stderr)),
        }
    }

    pub fn wait(&self) {
        let what = format!("{} starts", self.folder.display());
        wait_until(&what, || self.query("SELECT 1").is_ok());
    }

    // The last lines of what it said.
    fn last_words(&self) -> String {
        let log = fs::read_to_string(self.folder.with_extension("log")).unwrap_or_default();
        let lines: Vec<_> = log.lines().rev().take(8).collect();
        lines.into_iter().rev().collect::<Vec<_>>().join("\n")
    }

    pub fn stop(&mut self) {
        run(program("pg_ctl")
            .arg("stop")
            .arg("-D")
            .arg(&self.folder)
            .args(["-m", "fast", "-w"]));
        self.child.wait().unwrap();
    }

    /// Kills it with all its processes, and gives back what the system keeps for it.
    pub fn kill(&mut self) {
        self.signal("-9");
        self.child.wait().unwrap();
        // its seventh line has the key and the id of a piece of shared memory
        let told = fs::read_to_string(self.folder.join("postmaster.pid")).unwrap_or_default();
        if let Some(id) = told
            .lines()
            .nth(6)
            .and_then(|line| line.split_whitespace().nth(1))
        {
            let _ = Command::new("ipcrm")
                .args(["-m", id])
                .stderr(Stdio::null())
                .status();
        }
    }

    /// Sends a signal to it and all its processes.
    pub fn signal(&self, name: &str) {
        // one of them may have ended by itself
        let mut command = Command::new("kill");
        let _ = command
            .arg(name)
            .args(self.pids())
            .stderr(Stdio::null())
            .status();
    }

    // Itself and its processes.
    fn pids(&self) -> Vec<String> {
        let pid = self.child.id();
        let children = fs::read_to_string(format!("/proc/{pid}/task/{pid}/children"));
        let mut pids = vec![pid.to_string()];
        pids.extend(
            children
                .unwrap_or_default()
                .split_whitespace()
                .map(str::to_string),
        );
        pids
    }

    pub fn promote(&self) {
        run(program("pg_ctl")
            .arg("promote")
            .arg("-D")
            .arg(&self.folder)
            .arg("-w"));
    }
}

impl Drop for Server {
    fn drop(&mut self) {
        if matches!(self.child.try_wait(), Ok(None)) {
            self.kill();
        }
    }
}

pub fn conninfo(port: u16) -> String {
    format!("host=127.0.0.1 port={port} user=postgres dbname=postgres connect_timeout=10")
}

/// A primary and its standby.
pub struct Pair {
    pub primary: Server,
    pub standby: Server,
    folder: PathBuf,
    _made: Arc<Template>,
}

impl Pair {
    /// Starts two that have the tables of logs and nothing else, and waits until the standby is a synchronous one.
    pub fn start(name: &str) -> Pair {
        Pair::start_through(name, |port| port)
    }

    /// The same, where the standby connects to another port than the primary's.
    pub fn start_through(name: &str, port: impl FnOnce(u16) -> u16) -> Pair {
        let folder = folder(name);
        let made = template();
        let parts = ["primary", "standby"].map(|part| made.0.join(part));
        run(Command::new("cp").arg("-a").args(parts).arg(&folder));
        let primary = Server::start(&folder.join("primary"), &[]);
        let standby = start_standby(&folder.join("standby"), port(primary.port));
        let pair = Pair {
            primary,
            standby,
            folder,
            _made: made,
        };
        pair.wait();
        pair
    }

    pub fn wait(&self) {
        self.standby.wait();
        let is_sync = "SELECT count(*) FROM pg_stat_replication WHERE sync_state = 'sync'";
        let start = Instant::now();
        while !self.primary.query(is_sync).is_ok_and(|count| count == "1") {
            let words = [&self.primary, &self.standby].map(Server::last_words);
            let [first, second] = &words;
            let took = start.elapsed();
            assert!(
                took < Duration::from_secs(60),
                "no synchronous standby:\n{first}\n\n{second}"
            );
            thread::sleep(Duration::from_millis(10));
        }
    }

    pub fn folder(&self) -> &Path {
        &self.folder
    }
}

impl Drop for Pair {
    fn drop(&mut self) {
        self.primary.kill();
        self.standby.kill();
        if !thread::panicking() {
            let _ = fs::remove_dir_all(&self.folder);
        }
    }
}

fn start_standby(folder: &Path, port: u16) -> Server {
    let to = format!(
        "primary_conninfo={} application_name=standby",
        conninfo(port)
    );
    Server::start(folder, &["-c".to_string(), to])
}

const SETTINGS: &str = "
listen_addresses = '127.0.0.1'
unix_socket_directories = ''
shared_buffers = 16MB
max_connections = 40
min_wal_size = 4MB
max_wal_size = 64MB
dynamic_shared_memory_type = mmap
wal_retrieve_retry_interval = 200ms
";

/// The two folders that are copied. They are gone once nobody has them.
pub struct Template(PathBuf);

impl Drop for Template {
    fn drop(&mut self) {
        let _ = fs::remove_dir_all(&self.0);
    }
}

pub fn template() -> Arc<Template> {
    static MADE: Mutex<Weak<Template>> = Mutex::new(Weak::new());
    let mut made = MADE.lock().unwrap();
    made.upgrade().unwrap_or_else(|| {
        let template = Arc::new(Template(make_template()));
        *made = Arc::downgrade(&template);
        template
    })
}

fn make_template() -> PathBuf {
    let folder = folder("template");
    let [first, second] = ["primary", "standby"].map(|part| folder.join(part));
    run(program("initdb").arg("-D").arg(&first).args([
        "-A",
        "trust",
        "-U",
        "postgres",
        "--wal-segsize=1",
        "-N",
    ]));
    let settings = first.join("postgresql.conf");
    fs::write(&settings, fs::read_to_string(&settings).unwrap() + SETTINGS).unwrap();
    let rules = first.join("pg_hba.conf");
    let locked = "host all locked 127.0.0.1/32 scram-sha-256\n".to_string();
    fs::write(&rules, locked + &fs::read_to_string(&rules).unwrap()).unwrap();
    let mut primary = Server::start(&first, &[]);
    primary.wait();
    let mut copy = program("pg_basebackup");
    run(copy
        .arg("-D")
        .arg(&second)
        .args(["-d", &primary.conninfo(), "-c", "fast", "-R"]));
    let place = dilluvas_replicated::Place::new(primary.conninfo(), "any");
    place
        .servers(dilluvas_replicated::Servers::One)
        .make_tables()
        .unwrap();
    let mut standby = start_standby(&second, primary.port);
    standby.wait();
    // it sends all that it has before it ends
    primary.stop();
    standby.stop();
    let settings_with =
        fs::read_to_string(&settings).unwrap() + "synchronous_standby_names = 'standby'\n";
    fs::write(&settings, settings_with).unwrap();
    folder
}
