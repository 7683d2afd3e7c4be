//! The start-up of a whole unit by one session. `start_up` has the shape of
//! ironsight's `sync_dsp`, and stands for it, `sync_avr_for` and `sync_pi`; a
//! made-up Mevo+ stands in the unit's place. Prints what goes to the unit and
//! what comes, and then the result and the sheets.
//!
//!     cargo run --offline --example session

#[allow(dead_code)]
#[path = "../tests/made_up/mod.rs"]
mod made_up;

use std::time::{Duration, Instant, SystemTime, UNIX_EPOCH};

use made_up::{Device, Made};
use wigtalom::{Action, Envelope, Refusal, Session, SessionSync, StartUp};

/// What a driver's connection does: ironsight's `BinaryConnection`, with a
/// read timeout of 100 ms.
trait Connection {
    /// Encodes a command and sends it.
    fn send(&mut self, action: &Action);
    /// What came, decoded; nothing where nothing came in time.
    fn recv(&mut self) -> Option<Envelope>;
}

/// Why a start-up came to nothing.
enum Failed {
    /// Its time is over. The session's sheets tell how far it came.
    Timeout(Box<Session>),
    Refused(Refusal),
}

impl From<Refusal> for Failed {
    fn from(refusal: Refusal) -> Self {
        Failed::Refused(refusal)
    }
}

/// The longest that a start-up may take.
const LIMIT: Duration = Duration::from_secs(30);

/// Starts a unit up, whichever it is.
fn start_up(conn: &mut impl Connection) -> Result<Session, Failed> {
    let clock = Instant::now();
    let (mut session, first) = Session::new();
    first.iter().for_each(|action| conn.send(action));
    while !session.is_complete() {
        if clock.elapsed() >= LIMIT {
            return Err(Failed::Timeout(session.into()));
        }
        for action in session.check(reading(clock))? {
            conn.send(&action);
        }
        let Some(env) = conn.recv() else { continue };
        for action in session.feed(&env, reading(clock), wall())? {
            conn.send(&action);
        }
    }
    Ok(session)
}

/// The clock's reading in nanoseconds.
fn reading(clock: Instant) -> u64 {
    u64::try_from(clock.elapsed().as_nanos()).expect("584 years")
}

/// The seconds since 1970.
fn wall() -> u64 {
    let since = SystemTime::now().duration_since(UNIX_EPOCH);
    since.map_or(0, |since| since.as_secs())
}

// ---- a unit without hardware

/// Answers at once.
struct MadeUp(Device);

impl Connection for MadeUp {
    fn send(&mut self, action: &Action) {
        let Action::Send(command, dest) = action;
        println!("to   {:<4} {}", name(dest), name(command));
        self.0.take(action);
    }

    fn recv(&mut self) -> Option<Envelope> {
        let env = self.0.outbox.pop_front()?;
        println!("from {:<4} {}", name(&env.src), name(&env.message));
        Some(env)
    }
}

/// Of a device, a command or a message, without its fields.
fn name(value: &impl std::fmt::Debug) -> String {
    let told = format!("{value:?}");
    let end = told.find(['(', ' ']).unwrap_or(told.len());
    told[..end].into()
}

fn main() -> Result<(), Refusal> {
    let session = match start_up(&mut MadeUp(Device::new(Made::Plus))) {
        Ok(session) => session,
        Err(Failed::Timeout(session)) => *session,
        Err(Failed::Refused(refusal)) => return Err(refusal),
    };
    match session.into_result() {
        Ok(result) => tell(&result),
        Err(refusal) => println!("\n{refusal}"),
    }
    for start_up in [StartUp::Dsp, StartUp::Avr, StartUp::Pi] {
        print!("\n{}", session.sheet(start_up));
    }
    Ok(())
}

fn tell(result: &SessionSync) {
    println!("\n{:?}", result.dsp.model);
    if let Some(pi) = &result.pi {
        let camera = &pi.cam_config;
        let (width, height) = (camera.resolution_width, camera.resolution_height);
        println!("a camera of {width} x {height}");
    }
}
