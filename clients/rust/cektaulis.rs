//! A client of `worldd`, the world server Cektaulis. It is this one file, for Rust 1.63 or later, over the standard library.
//!
//! ```ignore
//! mod cektaulis;
//! use cektaulis::{Action, World};
//!
//! let mut world = World::open("/run/worldd/socket", Some(Duration::from_secs(5)))?;
//! let tick = world.play(&[Action::Set { cell: 0, value: 5 }, Action::Get { cell: 0 }])?;
//! println!("{} {:?}", tick.number, tick.answers); // 1 [Done, Value(5)]
//!
//! // It counts once, though the server is killed meanwhile.
//! world.play_once(9, 1, &[Action::Add { cell: 0, difference: 1 }], Duration::from_secs(30))?;
//! ```
//!
//! A batch is the actions of one tick. Its answer comes once the tick is durable. The page docs/CLIENT.md of the server has the
//! protocol and the worth of an answer.

use std::collections::{HashMap, VecDeque};
use std::fmt;
use std::io::{self, ErrorKind, Read, Write};
use std::net::{Ipv4Addr, SocketAddr, TcpStream};
use std::os::unix::io::{AsRawFd, RawFd};
use std::os::unix::net::UnixStream;
use std::path::PathBuf;
use std::thread;
use std::time::{Duration, Instant};

/// The greatest number that a cell holds.
pub const LIMIT: u64 = 999_999_999_999_999_999;
/// The most cells that a world has.
pub const CELLS: u32 = 1_048_576;
/// The most actions of a batch, `Get`s among them.
pub const BATCH_LINES: usize = 1024;
/// The most changes of a batch, which are all actions except `Get`.
pub const BATCH_CHANGES: usize = 256;

// No answer is that long: it has at most 1,024 words of 20 bytes.
const ANSWER_BYTES: usize = 65_536;
// The most bytes that the path of a socket has.
const MOST_PATH: usize = 107;
// How long lies between two tries: at first, and at most.
const PAUSE: Duration = Duration::from_millis(10);
const LONGEST_PAUSE: Duration = Duration::from_secs(1);
// How long a silent server is waited for before another address is tried, if no timeout says it.
const TURN: Duration = Duration::from_secs(5);
// How long a call waits at once before it looks at its bound again.
const STEP: Duration = Duration::from_millis(1);

/// An action of a batch.
#[derive(Clone, Copy, Debug, PartialEq, Eq)]
pub enum Action {
    /// Puts a value into a cell.
    Set { cell: u32, value: u64 },
    /// Adds a difference, which may be below 0, to a cell.
    Add { cell: u32, difference: i64 },
    /// Takes an amount from the cell `source` and adds it to the cell `target`.
    Move {
        source: u32,
        target: u32,
        amount: u64,
    },
    /// Exchanges the words of two cells.
    Swap { first: u32, second: u32 },
    /// Lowers a cell to a value if it holds more.
    Cap { cell: u32, value: u64 },
    /// Reads a cell as it is at this place of the batch.
    Get { cell: u32 },
}

impl Action {
    fn is_change(&self) -> bool {
        !matches!(self, Action::Get { .. })
    }

    /// Whether it may change a cell.
    fn changes(&self, it: u32) -> bool {
        match *self {
            Action::Set { cell, .. } | Action::Add { cell, .. } | Action::Cap { cell, .. } => {
                cell == it
            }
            Action::Move { source, target, .. } => source == it || target == it,
            Action::Swap { first, second } => first == it || second == it,
            Action::Get { .. } => false,
        }
    }
}

impl fmt::Display for Action {
    fn fmt(&self, to: &mut fmt::Formatter<'_>) -> fmt::Result {
        match self {
            Action::Set { cell, value } => write!(to, "set {cell} {value}"),
            Action::Add { cell, difference } => write!(to, "add {cell} {difference}"),
            Action::Move {
                source,
                target,
                amount,
            } => write!(to, "move {source} {target} {amount}"),
            Action::Swap { first, second } => write!(to, "swap {first} {second}"),
            Action::Cap { cell, value } => write!(to, "cap {cell} {value}"),
            Action::Get { cell } => write!(to, "get {cell}"),
        }
    }
}

/// Why one action of a batch was refused. It changed nothing; the other actions of its batch count.
#[derive(Clone, Copy, Debug, PartialEq, Eq)]
pub enum Refusal {
    BadCell = 1,
    BadValue = 2,
    OutOfRange = 3,
    SameCell = 4,
    TickFull = 5,
    BadLine = 16,
}

impl Refusal {
    const ALL: [Refusal; 6] = [
        Refusal::BadCell,
        Refusal::BadValue,
        Refusal::OutOfRange,
        Refusal::SameCell,
        Refusal::TickFull,
        Refusal::BadLine,
    ];
}

impl fmt::Display for Refusal {
    fn fmt(&self, to: &mut fmt::Formatter<'_>) -> fmt::Result {
        to.write_str(match self {
            Refusal::BadCell => "there is no such cell",
            Refusal::BadValue => "a number is out of range",
            Refusal::OutOfRange => "a result would be below 0 or above 999,999,999,999,999,999",
            Refusal::SameCell => "one cell is named twice",
            Refusal::TickFull => "the batch has 256 accepted actions already",
            Refusal::BadLine => "the line isn't understood",
        })
    }
}

/// Why a whole batch was refused.
#[derive(Clone, Copy, Debug, PartialEq, Eq)]
pub enum Fault {
    SegmentFull = 6,
    LogDown = 12,
    BatchTooLong = 16,
    NoMemory = 17,
    TicksEnded = 21,
}

impl Fault {
    const ALL: [Fault; 5] = [
        Fault::SegmentFull,
        Fault::LogDown,
        Fault::BatchTooLong,
        Fault::NoMemory,
        Fault::TicksEnded,
    ];
}

impl fmt::Display for Fault {
    fn fmt(&self, to: &mut fmt::Formatter<'_>) -> fmt::Result {
        to.write_str(match self {
            Fault::SegmentFull => "65,536 ticks have ended since the last image was begun: images are too slow, or down",
            Fault::LogDown => "the log failed. Nobody knows whether the tick of this batch is there after a restart",
            Fault::BatchTooLong => "the batch has more than 1,024 lines; the session is closed",
            Fault::NoMemory => "there was no memory for the batch",
            Fault::TicksEnded => "the greatest tick number, 10^18, has been reached",
        })
    }
}

/// What came of one action.
#[derive(Clone, Copy, Debug, PartialEq, Eq)]
pub enum Answer {
    Done,
    Value(u64),
    Refused(Refusal),
}

/// The answer to a batch: the number of its tick, which is durable, and what came of each action, in order.
#[derive(Clone, Debug, PartialEq, Eq)]
pub struct Tick {
    pub number: u64,
    pub answers: Vec<Answer>,
}

/// Why a call failed.
#[derive(Debug)]
pub enum Error {
    /// The address is empty, too long for a socket, or a port outside 1 to 65,535.
    BadAddress,
    /// A number is no marker's, an action changes the cell of the marker, has a difference of `i64::MIN`, or does harm twice.
    /// Nothing was sent.
    BadAction,
    /// The batch has too many actions or changes. Nothing was sent.
    TooLarge,
    /// There is no connection. Nothing was sent. `reconnect` connects again.
    NotConnected(io::Error),
    /// The server refused the whole batch, which changed nothing.
    BatchRefused(Fault),
    /// The connection broke, was silent for too long or has a failed log, and is closed. Each batch that wasn't answered was
    /// played as a whole or not at all. `reconnect` connects again, and returns these batches.
    Unanswered(io::Error),
    /// The same, since the server answered `fault 12`.
    LogDown,
    /// The other side answered with a line that no `worldd` sends.
    Garbled(String),
    /// A marker shows nothing: the world has no such cell, or the cell holds a greater number.
    MarkerRefused,
    /// The server refused an action of `read` or `load`.
    ActionRefused(Action, Refusal),
}

impl fmt::Display for Error {
    fn fmt(&self, to: &mut fmt::Formatter<'_>) -> fmt::Result {
        match self {
            Error::BadAddress => {
                to.write_str("the address is no port from 1 to 65535 and no path of a socket")
            }
            Error::BadAction => {
                to.write_str("there is no such action, or it changes the cell of the marker")
            }
            Error::TooLarge => to.write_str("the batch is too large"),
            Error::NotConnected(why) => {
                write!(to, "no server answers, and nothing was sent: {why}")
            }
            Error::BatchRefused(fault) => write!(to, "fault {}: {fault}", *fault as u8),
            Error::Unanswered(why) => {
                write!(to, "nobody knows whether the batch was played: {why}")
            }
            Error::LogDown => write!(to, "fault {}: {}", Fault::LogDown as u8, Fault::LogDown),
            Error::Garbled(line) => write!(to, "the answer is of no worldd: {line:?}"),
            Error::MarkerRefused => {
                to.write_str("there is no such cell for the marker, or it holds a greater number")
            }
            Error::ActionRefused(action, refusal) => write!(to, "`{action}` is refused: {refusal}"),
        }
    }
}

impl std::error::Error for Error {}

/// A batch as it was sent.
pub type Batch = Vec<Action>;

/// How many of the first actions make a batch that is as long as it may be.
pub fn batch_length(actions: &[Action]) -> usize {
    let mut changes = 0;
    actions
        .iter()
        .take(BATCH_LINES)
        .take_while(|action| {
            changes += usize::from(action.is_change());
            changes <= BATCH_CHANGES
        })
        .count()
}

/// Whether these actions leave the same world if they are played twice, with nothing in between.
pub fn does_no_harm_twice(actions: &[Action]) -> bool {
    actions.iter().all(|action| {
        matches!(
            action,
            Action::Set { .. } | Action::Cap { .. } | Action::Get { .. }
        )
    })
}

/// Refuses what is no batch.
fn check(actions: &[Action]) -> Result<(), Error> {
    if actions.iter().any(|action| {
        matches!(
            action,
            Action::Add {
                difference: i64::MIN,
                ..
            }
        )
    }) {
        return Err(Error::BadAction);
    }
    if batch_length(actions) < actions.len() {
        return Err(Error::TooLarge);
    }
    Ok(())
}

/// A marker, whose number is one that a cell holds once it was written.
fn marker_of(cell: u32, number: u64) -> Result<Action, Error> {
    if number == 0 || number > LIMIT {
        return Err(Error::BadAction);
    }
    Ok(Action::Set {
        cell,
        value: number,
    })
}

/// A port of this machine, or the path of a socket.
enum Address {
    Port(u16),
    Socket(PathBuf),
}

impl Address {
    /// An address of only digits is a port.
    fn of(text: &str) -> Result<Address, Error> {
        if !text.is_empty() && text.bytes().all(|byte| byte.is_ascii_digit()) {
            return match text.parse::<u16>() {
                Ok(port) if port > 0 => Ok(Address::Port(port)),
                _ => Err(Error::BadAddress),
            };
        }
        if text.is_empty() || text.len() > MOST_PATH || text.contains('\0') {
            return Err(Error::BadAddress);
        }
        Ok(Address::Socket(PathBuf::from(text)))
    }

    fn connect(&self, limit: Duration) -> io::Result<Stream> {
        let stream = match self {
            Address::Port(port) => {
                let server = SocketAddr::from((Ipv4Addr::LOCALHOST, *port));
                let stream = TcpStream::connect_timeout(&server, limit)?;
                // The system may choose the port of a server that isn't there for the client.
                if stream.local_addr()? == server {
                    return Err(ErrorKind::ConnectionRefused.into());
                }
                stream.set_nodelay(true)?;
                Stream::Port(stream)
            }
            Address::Socket(path) => Stream::Socket(UnixStream::connect(path)?),
        };
        stream.set_nonblocking(true)?;
        Ok(stream)
    }
}

/// A connection, whose calls don't wait.
enum Stream {
    Port(TcpStream),
    Socket(UnixStream),
}

impl Stream {
    fn set_nonblocking(&self, is_so: bool) -> io::Result<()> {
        match self {
            Stream::Port(stream) => stream.set_nonblocking(is_so),
            Stream::Socket(stream) => stream.set_nonblocking(is_so),
        }
    }

    fn read(&mut self, to: &mut [u8]) -> io::Result<usize> {
        match self {
            Stream::Port(stream) => stream.read(to),
            Stream::Socket(stream) => stream.read(to),
        }
    }

    /// Reads, and waits so long for the first byte.
    fn wait_and_read(&mut self, to: &mut [u8], limit: Option<Duration>) -> io::Result<usize> {
        match self {
            Stream::Port(stream) => stream.set_read_timeout(limit)?,
            Stream::Socket(stream) => stream.set_read_timeout(limit)?,
        }
        self.set_nonblocking(false)?;
        let read = self.read(to);
        self.set_nonblocking(true)?;
        read
    }

    fn write(&mut self, bytes: &[u8]) -> io::Result<usize> {
        match self {
            Stream::Port(stream) => stream.write(bytes),
            Stream::Socket(stream) => stream.write(bytes),
        }
    }

    /// Puts what the server sent after other bytes. False: it has sent nothing, within a time to be waited.
    fn take(&mut self, rest: &mut Vec<u8>, wait: Option<Option<Duration>>) -> io::Result<bool> {
        let mut piece = [0; ANSWER_BYTES];
        let read = match wait {
            Some(limit) => self.wait_and_read(&mut piece, limit),
            None => self.read(&mut piece),
        };
        match read {
            Ok(0) => Err(io::Error::new(
                ErrorKind::ConnectionReset,
                "the server closed the connection",
            )),
            Ok(count) => {
                rest.extend_from_slice(&piece[..count]);
                Ok(true)
            }
            Err(error) if is_for_now(&error) => Ok(false),
            Err(error) => Err(error),
        }
    }
}

impl AsRawFd for Stream {
    fn as_raw_fd(&self) -> RawFd {
        match self {
            Stream::Port(stream) => stream.as_raw_fd(),
            Stream::Socket(stream) => stream.as_raw_fd(),
        }
    }
}

/// Whether a call failed only since it would have to wait.
fn is_for_now(error: &io::Error) -> bool {
    matches!(
        error.kind(),
        ErrorKind::WouldBlock | ErrorKind::TimedOut | ErrorKind::Interrupted
    )
}

fn silent() -> io::Error {
    io::Error::new(ErrorKind::TimedOut, "the server is silent")
}

fn closed() -> io::Error {
    io::Error::new(ErrorKind::NotConnected, "there is no connection")
}

/// A number of at most 19 digits.
fn number(word: &str) -> Option<u64> {
    let is_number =
        !word.is_empty() && word.len() <= 19 && word.bytes().all(|byte| byte.is_ascii_digit());
    if is_number {
        word.parse().ok()
    } else {
        None
    }
}

/// What a word of an answer says.
fn answer_of(word: &str) -> Option<Answer> {
    if word == "+" {
        return Some(Answer::Done);
    }
    if let Some(value) = word.strip_prefix('=') {
        return number(value).map(Answer::Value);
    }
    let code = number(word.strip_prefix('-')?)?;
    Refusal::ALL
        .into_iter()
        .find(|refusal| *refusal as u64 == code)
        .map(Answer::Refused)
}

/// What a line says of a batch of so many actions. None: no `worldd` sends it.
fn line_of(line: &[u8], count: usize) -> Option<Result<Tick, Fault>> {
    let text = std::str::from_utf8(line).ok()?;
    if let Some(word) = text.strip_prefix("fault ") {
        let code = number(word)?;
        return Fault::ALL
            .into_iter()
            .find(|fault| *fault as u64 == code)
            .map(Err);
    }
    let (head, words) = text.strip_prefix("tick ")?.split_once(':')?;
    let answers: Option<Vec<Answer>> = words.split(' ').skip(1).map(answer_of).collect();
    let tick = Tick {
        number: number(head)?,
        answers: answers?,
    };
    if tick.answers.len() == count {
        Some(Ok(tick))
    } else {
        None
    }
}

/// A connection to a server. It bears so much silence as `open` says. One that broke stays broken until `reconnect`.
pub struct World {
    // The first one is that of the connection, or of the next one.
    addresses: VecDeque<Address>,
    timeout: Option<Duration>,
    stream: Option<Stream>,
    // A connection on which the server wasn't heard yet. Of several addresses the next one is tried after this time.
    coming: Option<Stream>,
    coming_until: Instant,
    // Whether the running call looks for another address that serves.
    insists: bool,
    connections: usize,
    rest: Vec<u8>,
    // Answers that have come and weren't received, of which so many are of earlier connections.
    answers: VecDeque<Result<Tick, Fault>>,
    kept: usize,
    // Batches of this connection without an answer, and batches of earlier ones whose end nobody knows.
    sent: VecDeque<Batch>,
    doubtful: Vec<Batch>,
    // The numbers that cells of markers are known to hold.
    marks: HashMap<u32, u64>,
}

impl World {
    /// Connects to a port of this machine, or to the path of a socket. An address of only digits is a port. Each call bears so much
    /// silence; None waits for ever.
    pub fn open(address: &str, timeout: Option<Duration>) -> Result<World, Error> {
        World::open_any(&[address], timeout)
    }

    /// Connects to the first of several addresses at which somebody is. They are for one world that at most one of them serves
    /// at a time. `reconnect` tries them in turn: a server that is silent for `timeout`, or for 5 seconds, is left for the next
    /// address. Calls that send a batch again leave one only if another address answers.
    pub fn open_any(addresses: &[&str], timeout: Option<Duration>) -> Result<World, Error> {
        let addresses: Result<VecDeque<Address>, Error> =
            addresses.iter().map(|it| Address::of(it)).collect();
        let (mut addresses, mut why) = (addresses?, Error::BadAddress);
        for _ in 0..addresses.len() {
            match addresses[0].connect(timeout.unwrap_or(Duration::from_secs(60))) {
                Ok(stream) => return Ok(World::over(stream, addresses, timeout)),
                Err(error) => why = Error::NotConnected(error),
            }
            addresses.rotate_left(1);
        }
        Err(why)
    }

    fn over(stream: Stream, addresses: VecDeque<Address>, timeout: Option<Duration>) -> World {
        World {
            addresses,
            timeout,
            stream: Some(stream),
            coming: None,
            coming_until: Instant::now(),
            insists: false,
            connections: 1,
            rest: Vec::new(),
            answers: VecDeque::new(),
            kept: 0,
            sent: VecDeque::new(),
            doubtful: Vec::new(),
            marks: HashMap::new(),
        }
    }

    /// How long a silent server is waited for before another address is tried.
    fn turn(&self) -> Duration {
        self.timeout.unwrap_or(TURN)
    }

    /// How often it connected.
    pub fn connections(&self) -> usize {
        self.connections
    }

    /// How many batches were sent whose answers weren't received yet.
    pub fn waiting(&self) -> usize {
        self.answers.len() + self.sent.len()
    }

    /// The descriptor of the connection, for an event loop. Call `try_receive` until it returns None before you wait for it.
    pub fn descriptor(&self) -> Option<RawFd> {
        self.stream.as_ref().map(Stream::as_raw_fd)
    }

    /// Ends the connection. Answers that have come can still be received.
    pub fn close(&mut self) {
        self.stream = None;
        self.coming = None;
    }

    /// Plays a batch and returns its tick. Answers that still wait are to be received first.
    pub fn play(&mut self, actions: &[Action]) -> Result<Tick, Error> {
        check(actions)?;
        let tick = self.play_in(actions, self.timeout)?;
        self.doubtful.clear();
        Ok(tick)
    }

    /// Sends a batch, whose answer `receive` returns later. The server answers the batches of a connection in order.
    pub fn send(&mut self, actions: &[Action]) -> Result<(), Error> {
        check(actions)?;
        self.send_in(actions, self.timeout)
    }

    /// The answer to the oldest batch that waits for one. It panics if none waits.
    pub fn receive(&mut self) -> Result<Tick, Error> {
        assert!(self.waiting() > 0, "no batch waits for an answer");
        while self.answers.is_empty() {
            self.wait_for_some(self.timeout)?;
        }
        self.next_answer()
    }

    /// The same without waiting. None: no answer has come.
    pub fn try_receive(&mut self) -> Result<Option<Tick>, Error> {
        if self.answers.is_empty() && !self.sent.is_empty() {
            self.take_some(None)?;
        }
        if self.answers.is_empty() {
            Ok(None)
        } else {
            self.next_answer().map(Some)
        }
    }

    /// Plays a batch exactly once, though its connection breaks, and returns its tick. None: it was played, and its answer is
    /// lost.
    ///
    /// The batch gets the marker `Set { cell, value: number }`. Only this client writes the cell, with ever greater numbers. If
    /// the connection breaks, it connects again and looks at the cell. The batch is sent again if it wasn't played, or was
    /// refused for now (faults 6 and 17). Nothing is sent if the cell holds the number at the beginning.
    ///
    /// It gives up after `patience`: by `Unanswered` if the batch may have been played. The same call goes on once the server
    /// was started again. `MarkerRefused` if the world has no such cell, or if it holds a greater number.
    pub fn play_once(
        &mut self,
        cell: u32,
        number: u64,
        actions: &[Action],
        patience: Duration,
    ) -> Result<Option<Tick>, Error> {
        let mut batch = vec![marker_of(cell, number)?];
        batch.extend_from_slice(actions);
        check(&batch)?;
        if actions.iter().any(|action| action.changes(cell)) {
            return Err(Error::BadAction);
        }
        self.insist(patience, |world, limit| {
            world.try_once(cell, number, &batch, limit)
        })
    }

    /// Plays a batch that does no harm twice. If the connection breaks, it connects again and sends the batch again. It gives
    /// up after `patience`. No other client should write these cells meanwhile.
    pub fn play_again(&mut self, actions: &[Action], patience: Duration) -> Result<Tick, Error> {
        check(actions)?;
        if !does_no_harm_twice(actions) {
            return Err(Error::BadAction);
        }
        self.insist(patience, |world, limit| {
            world.doubtful.retain(|batch| batch != actions);
            world.play_in(actions, Some(limit))
        })
    }

    /// Reads any number of cells, 1,024 in a tick. Other clients may play between two ticks. If the connection breaks, it
    /// connects again and reads on. It gives up if that takes as long as `patience`.
    pub fn read(&mut self, cells: &[u32], patience: Duration) -> Result<Vec<u64>, Error> {
        let gets: Vec<Action> = cells.iter().map(|&cell| Action::Get { cell }).collect();
        let answers = self.play_bulk(&gets, patience)?;
        Ok(answers
            .into_iter()
            .filter_map(|it| {
                if let Answer::Value(word) = it {
                    Some(word)
                } else {
                    None
                }
            })
            .collect())
    }

    /// Sets the cells from `first` on to any number of words, 256 in a tick. No other client should write these cells
    /// meanwhile. The rest is as for `read`.
    pub fn load(&mut self, first: u32, words: &[u64], patience: Duration) -> Result<(), Error> {
        let sets: Vec<Action> = (first..)
            .zip(words)
            .map(|(cell, &value)| Action::Set { cell, value })
            .collect();
        self.play_bulk(&sets, patience).map(|_| ())
    }

    /// Connects again, waits until the server answers an empty batch, and returns the batches that weren't answered. It tries
    /// for `patience`, and fails by `NotConnected` then.
    ///
    /// Each of these batches was played as a whole or not at all. `was_played` finds out which. If the connection breaks again
    /// before another batch is answered, the next call returns them again. Answers that had come stay for `receive`.
    pub fn reconnect(&mut self, patience: Duration) -> Result<Vec<Batch>, Error> {
        let (deadline, mut pause) = (Instant::now() + patience, PAUSE);
        loop {
            let why = match self.come_back(Some(STEP))? {
                Ok(()) => return Ok(self.doubtful.clone()),
                Err(why) => why,
            };
            let left = deadline.saturating_duration_since(Instant::now());
            if self.coming.is_some() && !left.is_zero() {
                continue;
            }
            if pause >= left {
                self.close();
                return Err(Error::NotConnected(why));
            }
            thread::sleep(pause);
            pause = LONGEST_PAUSE.min(pause * 2);
        }
    }

    /// One step of `reconnect`, which doesn't wait, except for a socket whose server accepts no client. None: the server hasn't
    /// answered yet.
    pub fn try_reconnect(&mut self) -> Result<Option<Vec<Batch>>, Error> {
        Ok(self.come_back(None)?.ok().map(|()| self.doubtful.clone()))
    }

    /// Whether a batch with `Set { cell, value: number }` in it was played, if only this client writes the cell, with ever
    /// greater numbers. `MarkerRefused` if the world has no such cell.
    ///
    /// True is certain. False is certain once the server was started again. If only the connection broke, a batch that had
    /// arrived may still be played later.
    pub fn was_played(&mut self, cell: u32, number: u64) -> Result<bool, Error> {
        let marker = marker_of(cell, number)?;
        let held = self.held(cell, self.timeout)?;
        self.doubtful.retain(|batch| !batch.contains(&marker));
        Ok(held >= number)
    }

    /// What a call returns. It is called again if the connection breaks, and after a refusal that passes. It gets the time that
    /// is left: a server that is silent has the batch, so nothing is sent again before the connection ends, or another address
    /// serves.
    fn insist<T>(
        &mut self,
        patience: Duration,
        mut call: impl FnMut(&mut World, Duration) -> Result<T, Error>,
    ) -> Result<T, Error> {
        let (deadline, mut pause) = (Instant::now() + patience, PAUSE);
        loop {
            let left = deadline
                .saturating_duration_since(Instant::now())
                .max(PAUSE);
            let back = if self.stream.is_none() {
                self.reconnect(left).map(|_| ())
            } else {
                Ok(())
            };
            let left = deadline
                .saturating_duration_since(Instant::now())
                .max(PAUSE);
            self.insists = self.addresses.len() > 1;
            let called = back.and_then(|()| call(self, left));
            self.insists = false;
            let error = match called {
                Err(error) => error,
                done => return done,
            };
            let passes = matches!(
                error,
                Error::BatchRefused(Fault::SegmentFull | Fault::NoMemory)
                    | Error::NotConnected(_)
                    | Error::Unanswered(_)
                    | Error::LogDown
            );
            if matches!(error, Error::Garbled(_) | Error::MarkerRefused) {
                return Err(error);
            }
            if !passes || Instant::now() + pause >= deadline {
                return Err(self.given_up(error));
            }
            thread::sleep(pause);
            pause = LONGEST_PAUSE.min(pause * 2);
        }
    }

    /// What a call fails by that gives up for an error: `Unanswered` if a batch is in doubt.
    fn given_up(&mut self, error: Error) -> Error {
        if self.doubtful.is_empty() && self.sent.is_empty() {
            return match error {
                Error::Unanswered(why) => Error::NotConnected(why),
                Error::LogDown => Error::NotConnected(io::Error::new(
                    ErrorKind::Other,
                    Fault::LogDown.to_string(),
                )),
                other => other,
            };
        }
        match error {
            Error::Unanswered(_) | Error::LogDown => error,
            other => {
                self.close();
                Error::Unanswered(io::Error::new(ErrorKind::Other, other.to_string()))
            }
        }
    }

    /// Plays a batch with a marker, unless the marker shows that it was played.
    fn try_once(
        &mut self,
        cell: u32,
        number: u64,
        batch: &[Action],
        limit: Duration,
    ) -> Result<Option<Tick>, Error> {
        let held = match self.marks.get(&cell) {
            Some(&held) => held,
            None => self.held(cell, Some(limit))?,
        };
        self.marks.insert(cell, held);
        if held > number {
            return Err(Error::MarkerRefused);
        }
        self.doubtful
            .retain(|doubtful| !doubtful.contains(&batch[0]));
        if held == number {
            return Ok(None);
        }
        self.marks.remove(&cell);
        let mut tick = match self.play_in(batch, Some(limit)) {
            Ok(tick) => tick,
            Err(error) => {
                if matches!(error, Error::BatchRefused(_)) {
                    self.marks.insert(cell, held);
                }
                return Err(error);
            }
        };
        if tick.answers.remove(0) != Answer::Done {
            return Err(Error::MarkerRefused);
        }
        self.marks.insert(cell, number);
        Ok(Some(tick))
    }

    /// What a marker's cell holds. Such a batch changes nothing, so it leaves nothing in doubt if its answer is lost.
    fn held(&mut self, cell: u32, limit: Option<Duration>) -> Result<u64, Error> {
        let played = self.play_in(&[Action::Get { cell }], limit);
        if matches!(
            played,
            Err(Error::Garbled(_) | Error::Unanswered(_) | Error::LogDown)
        ) {
            self.sent.clear();
        }
        match played?.answers[0] {
            Answer::Value(held) => Ok(held),
            _ => Err(Error::MarkerRefused),
        }
    }

    /// Plays actions that do no harm twice, and returns all answers.
    fn play_bulk(&mut self, actions: &[Action], patience: Duration) -> Result<Vec<Answer>, Error> {
        let (mut left, mut answers) = (actions, Vec::new());
        while !left.is_empty() {
            let (batch, others) = left.split_at(batch_length(left));
            let tick = self.play_again(batch, patience)?;
            for (action, answer) in batch.iter().zip(&tick.answers) {
                if let Answer::Refused(refusal) = answer {
                    return Err(Error::ActionRefused(*action, *refusal));
                }
            }
            answers.extend(tick.answers);
            left = others;
        }
        Ok(answers)
    }

    /// Plays a batch, and bears so much silence. It panics if answers of this connection wait.
    fn play_in(&mut self, batch: &[Action], limit: Option<Duration>) -> Result<Tick, Error> {
        assert!(
            self.stream.is_none() || self.waiting() == self.kept,
            "batches wait for their answers: receive them first"
        );
        let mut played = self.send_in(batch, limit);
        while played.is_ok() && !self.sent.is_empty() {
            played = self.wait_for_some(limit);
        }
        // The answer may have come just before the connection was closed.
        if !matches!(played, Err(Error::Unanswered(_)) if self.sent.is_empty()) {
            played?;
        }
        // Answers of earlier connections are before this one.
        self.answers
            .pop_back()
            .unwrap_or(Err(Fault::NoMemory))
            .map_err(Error::BatchRefused)
    }

    fn next_answer(&mut self) -> Result<Tick, Error> {
        if self.kept > 0 {
            self.kept -= 1;
        } else {
            self.doubtful.clear();
        }
        self.answers
            .pop_front()
            .unwrap_or(Err(Fault::NoMemory))
            .map_err(Error::BatchRefused)
    }

    /// Sends a batch, and takes what the server sends meanwhile. So no answer that nobody receives holds up the server, which
    /// would read no more.
    fn send_in(&mut self, batch: &[Action], limit: Option<Duration>) -> Result<(), Error> {
        let stream = self
            .stream
            .as_mut()
            .ok_or_else(|| Error::NotConnected(closed()))?;
        let lines: String = batch
            .iter()
            .map(|action| format!("{action}\n"))
            .chain([String::from("end\n")])
            .collect();
        self.sent.push_back(batch.to_vec());
        let (mut left, mut heard) = (lines.as_bytes(), Instant::now());
        while !left.is_empty() {
            let written = stream
                .take(&mut self.rest, None)
                .and_then(|_| stream.write(left));
            let moved = match written {
                Ok(count) => {
                    left = &left[count..];
                    Ok(count > 0)
                }
                Err(error) if is_for_now(&error) => stream.take(&mut self.rest, Some(Some(STEP))),
                Err(error) => Err(error),
            };
            let broken = match moved {
                Ok(true) => {
                    heard = Instant::now();
                    continue;
                }
                Ok(false) if limit.map_or(true, |limit| heard.elapsed() < limit) => continue,
                Ok(false) => silent(),
                Err(error) => error,
            };
            return Err(self.broken(broken));
        }
        self.sort();
        Ok(())
    }

    /// Waits so long for what the server sends, and takes it.
    fn wait_for_some(&mut self, limit: Option<Duration>) -> Result<(), Error> {
        let start = Instant::now();
        loop {
            let mut left = limit.map(|limit| limit.saturating_sub(start.elapsed()).max(STEP));
            if self.insists {
                left = left.map(|left| left.min(self.turn()));
            }
            if self.take_some(Some(left))? {
                return Ok(());
            }
            if self.insists && self.serves_elsewhere() {
                return Err(self.broken(silent()));
            }
            if limit.map_or(false, |limit| start.elapsed() >= limit) {
                return Err(self.broken(silent()));
            }
        }
    }

    /// Whether another address answers an empty batch. It is the next one then: the server of this connection is off.
    fn serves_elsewhere(&mut self) -> bool {
        for _ in 1..self.addresses.len() {
            self.addresses.rotate_left(1);
            if self.is_served() {
                return true;
            }
        }
        self.addresses.rotate_left(1);
        false
    }

    /// Whether the first address answers an empty batch.
    fn is_served(&self) -> bool {
        let (start, mut rest) = (Instant::now(), Vec::new());
        let mut other = match self.addresses[0].connect(STEP) {
            Ok(other) => other,
            Err(_) => return false,
        };
        if !matches!(other.write(b"end\n"), Ok(4)) {
            return false;
        }
        while rest.is_empty() && start.elapsed() < self.turn() {
            if other.take(&mut rest, Some(Some(STEP))).is_err() {
                return false;
            }
        }
        rest.first() == Some(&b't')
    }

    /// Takes what the server has sent. False: nothing.
    fn take_some(&mut self, wait: Option<Option<Duration>>) -> Result<bool, Error> {
        self.refuse_answer()?;
        let stream = match self.stream.as_mut() {
            Some(stream) => stream,
            None => return Err(Error::Unanswered(closed())),
        };
        let taken = stream.take(&mut self.rest, wait);
        self.sort();
        taken.map_err(|error| self.broken(error))
    }

    /// Takes all that the server has sent, before the connection is closed.
    fn drain(&mut self) {
        if let Some(stream) = self.stream.as_mut() {
            while matches!(stream.take(&mut self.rest, None), Ok(true)) {}
        }
        self.sort();
    }

    /// Makes answers of the lines that have come, up to one that `refuse_answer` refuses.
    fn sort(&mut self) {
        let mut at = 0;
        while let (Some(batch), Some(length)) = (
            self.sent.front(),
            self.rest[at..].iter().position(|byte| *byte == b'\n'),
        ) {
            match line_of(&self.rest[at..at + length], batch.len()) {
                None | Some(Err(Fault::LogDown)) => break,
                Some(answer) => self.answers.push_back(answer),
            }
            self.sent.pop_front();
            at += length + 1;
        }
        self.rest.drain(..at);
    }

    /// Refuses a line that is no answer, or leaves its batch in doubt.
    fn refuse_answer(&mut self) -> Result<(), Error> {
        let end = self.rest.iter().position(|byte| *byte == b'\n');
        if end.is_none() && self.rest.len() <= ANSWER_BYTES {
            return Ok(());
        }
        let line = String::from_utf8_lossy(&self.rest[..end.unwrap_or(80)]).into_owned();
        self.close();
        self.rest.clear();
        Err(if line == "fault 12" {
            Error::LogDown
        } else {
            Error::Garbled(line)
        })
    }

    /// Closes the connection, and returns what says so. Its batches are kept for `reconnect`.
    fn broken(&mut self, why: io::Error) -> Error {
        self.drain();
        self.close();
        self.rest.clear();
        Error::Unanswered(why)
    }

    /// One step of `reconnect`, which waits so long for the server. Its inner error says why the server wasn't heard yet.
    fn come_back(&mut self, wait: Option<Duration>) -> Result<Result<(), io::Error>, Error> {
        let mut step = self.step_back(wait.map(Some));
        if matches!(step, Ok(false))
            && self.addresses.len() > 1
            && Instant::now() >= self.coming_until
        {
            step = Err(silent());
        }
        if step.is_err() {
            self.close();
            self.addresses.rotate_left(1);
        }
        match step {
            Ok(false) => Ok(Err(silent())),
            Ok(true) => {
                let line = String::from_utf8_lossy(&self.rest).trim_end().to_string();
                self.rest.clear();
                match line_of(line.as_bytes(), 0) {
                    None => {
                        self.close();
                        Err(Error::Garbled(line))
                    }
                    Some(Err(Fault::LogDown)) => {
                        self.close();
                        self.addresses.rotate_left(1);
                        Ok(Err(io::Error::new(
                            ErrorKind::Other,
                            Fault::LogDown.to_string(),
                        )))
                    }
                    Some(_) => {
                        self.stream = self.coming.take();
                        self.connections += 1;
                        Ok(Ok(()))
                    }
                }
            }
            Err(error) => Ok(Err(error)),
        }
    }

    /// Connects and sends an empty batch, or looks for its answer. False: it hasn't come.
    fn step_back(&mut self, wait: Option<Option<Duration>>) -> io::Result<bool> {
        if self.coming.is_none() {
            // Answers that have come stay, and batches without one are in doubt.
            self.drain();
            self.close();
            self.doubtful.extend(self.sent.drain(..));
            self.kept = self.answers.len();
            self.rest.clear();
            self.coming_until = Instant::now() + self.turn();
            let mut coming = self.addresses[0].connect(STEP)?;
            if coming.write(b"end\n")? != 4 {
                return Err(silent());
            }
            self.coming = Some(coming);
        }
        let coming = self.coming.as_mut().ok_or_else(closed)?;
        coming.take(&mut self.rest, wait)?;
        Ok(self.rest.contains(&b'\n') || self.rest.len() > ANSWER_BYTES)
    }
}
