//! Reads a line of a list of calls, as docs/REPLAY.md says.

mod bad;
mod cursor;
mod kind;
mod settings;
mod which;

pub use bad::{Bad, Reason};
use cursor::{Cursor, Number};
pub use which::Which;

use crate::addr::BusAddr;
use crate::model::Model;
use crate::protocol::Message;
use crate::seq::{AvrSettings, MevoSettings};

/// The longest line that is read, in bytes without its line feed.
pub const LONGEST: usize = 65_536;

/// The most bytes that are lent for a sheet.
pub const MOST_LENT: usize = 1024;

/// The words that calls begin with, but for a feed's.
const CALLS: [&[u8]; 17] = [
    b"dsp",
    b"avr",
    b"pi",
    b"avr_config",
    b"mode_only",
    b"mevo_settings",
    b"disarm",
    b"arm",
    b"session",
    b"check",
    b"result",
    b"sheet",
    b"take",
    b"retries",
    b"ack",
    b"keepalive",
    b"model",
];

/// A call of a list.
pub enum Call {
    Begin(Begin),
    Feed(Box<Feed>),
    Check {
        now: u64,
    },
    Result,
    /// With the place and how many bytes are lent, if they are given.
    Sheet {
        lent: Option<(u64, usize)>,
    },
    /// The same in a session, of one of its start-ups.
    SheetOf {
        which: Which,
        lent: Option<(u64, usize)>,
    },
    Take,
    Retries,
    Ack {
        model: Model,
        src: BusAddr,
        type_id: u8,
    },
    Keepalive {
        model: Option<Model>,
    },
    Model {
        payload: Vec<u8>,
    },
}

/// The sequence that a line begins.
pub enum Begin {
    Dsp,
    /// With the model, if one is given.
    Avr(Option<Model>),
    Pi,
    AvrConfig(Settings),
    Disarm,
    /// With the model, if one is given.
    Arm(Option<Model>),
    Session,
}

/// What a settings run is begun with: the settings, or what makes them.
pub enum Settings {
    Given(AvrSettings),
    /// The mode of `AvrSettings::mode_only`.
    ModeOnly(u8),
    Mevo(MevoSettings),
}

impl Begin {
    pub fn which(&self) -> Which {
        match self {
            Begin::Dsp => Which::Dsp,
            Begin::Avr(_) => Which::Avr,
            Begin::Pi => Which::Pi,
            Begin::AvrConfig(_) => Which::AvrConfig,
            Begin::Disarm => Which::Disarm,
            Begin::Arm(_) => Which::Arm,
            Begin::Session => Which::Session,
        }
    }
}

/// The message holds the numbers only; its bytes stand beside it.
pub struct Feed {
    pub now: u64,
    pub src: BusAddr,
    pub type_id: u8,
    pub message: Message,
    pub text: Vec<u8>,
    pub payload: Vec<u8>,
    /// The wall clock's seconds.
    pub wall: u64,
}

/// Reads a line without its line feed, for the sequence that runs. A
/// comment gives no call.
pub fn read(line: &[u8], running: Option<Which>) -> Result<Option<Call>, Bad> {
    if line.len() > LONGEST {
        return Err(Bad::at(LONGEST, Reason::LineTooLong));
    }
    let mut c = Cursor::new(line.strip_suffix(b"\r").unwrap_or(line));
    let (at, word) = c.word();
    if word.is_empty() || word.starts_with(b"#") {
        return Ok(None);
    }
    belongs(word, running)?;
    let call = match begin(word, &mut c)? {
        Some(begin) => Call::Begin(begin),
        None => call(word, &mut c, running)?.ok_or(Bad::at(at, Reason::UnknownCall))?,
    };
    c.end()?;
    Ok(Some(call))
}

/// Whether it feeds a network reply.
pub fn is_network_reply(feed: &Feed) -> bool {
    matches!(feed.message, Message::NetConfigResp(_))
}

/// Whether a line, of which not all need be readable, names another call than
/// a feed, or where its kind stands another kind than a network reply.
pub fn names_another(line: &[u8]) -> bool {
    let words = line.split(|b| matches!(b, b' ' | b'\t'));
    let mut words = words.filter(|word| !word.is_empty());
    match words.next() {
        Some(b"feed") => words.nth(3).is_some_and(kind::is_another),
        first => first.is_some_and(|word| CALLS.contains(&word)),
    }
}

/// A call of a sequence can't be read while none runs, or one without it.
fn belongs(word: &[u8], running: Option<Which>) -> Result<(), Bad> {
    let has: fn(Which) -> bool = match word {
        b"feed" => |_| true,
        b"check" => Which::has_check,
        b"result" => Which::has_result,
        b"sheet" => Which::has_sheet,
        b"take" => Which::has_take,
        b"retries" => Which::has_retries,
        _ => return Ok(()),
    };
    match running {
        None => Err(Bad::at(0, Reason::NoSequence)),
        Some(which) if !has(which) => Err(Bad::at(0, Reason::NotOfSequence)),
        Some(_) => Ok(()),
    }
}

/// A call that begins a sequence, if the word is one's.
fn begin(word: &[u8], c: &mut Cursor) -> Result<Option<Begin>, Bad> {
    Ok(Some(match word {
        b"dsp" => Begin::Dsp,
        b"avr" => Begin::Avr(given_model(c)?),
        b"pi" => Begin::Pi,
        b"avr_config" => Begin::AvrConfig(settings::given(c)?),
        b"mode_only" => Begin::AvrConfig(settings::mode_only(c)?),
        b"mevo_settings" => Begin::AvrConfig(settings::mevo(c)?),
        b"disarm" => Begin::Disarm,
        b"arm" => Begin::Arm(given_model(c)?),
        b"session" => Begin::Session,
        _ => return Ok(None),
    }))
}

/// Any other call, if the word is one's.
fn call(word: &[u8], c: &mut Cursor, running: Option<Which>) -> Result<Option<Call>, Bad> {
    Ok(Some(match word {
        b"feed" => Call::Feed(Box::new(feed(c)?)),
        b"check" => Call::Check { now: c.number()? },
        b"result" => Call::Result,
        b"sheet" => sheet(c, running)?,
        b"take" => Call::Take,
        b"retries" => Call::Retries,
        b"ack" => ack(c)?,
        b"keepalive" => Call::Keepalive {
            model: given_model(c)?,
        },
        b"model" => model_of(c)?,
        _ => return Ok(None),
    }))
}

fn feed(c: &mut Cursor) -> Result<Feed, Bad> {
    let now = c.number()?;
    let src = source(c)?;
    let type_id = c.number()?;
    Ok(Feed {
        now,
        src,
        type_id,
        message: kind::kind(c, src, type_id)?,
        text: lent(c, "text")?,
        payload: lent(c, "payload")?,
        wall: wall(c)?,
    })
}

/// The bytes of a field that may be left out.
fn lent(c: &mut Cursor, name: &str) -> Result<Vec<u8>, Bad> {
    if c.named(name) {
        c.bytes()
    } else {
        Ok(Vec::new())
    }
}

fn wall(c: &mut Cursor) -> Result<u64, Bad> {
    if c.next_is("wall") {
        c.number_field("wall")
    } else {
        Ok(0)
    }
}

/// How many bytes are lent.
struct Lent(usize);

impl TryFrom<i128> for Lent {
    type Error = ();

    fn try_from(number: i128) -> Result<Self, ()> {
        match usize::try_from(number) {
            Ok(length @ 0..=MOST_LENT) => Ok(Lent(length)),
            _ => Err(()),
        }
    }
}

impl Number for Lent {
    const SIGNED: bool = false;
}

/// In a session it is told of which start-up.
fn sheet(c: &mut Cursor, running: Option<Which>) -> Result<Call, Bad> {
    if running != Some(Which::Session) {
        return Ok(Call::Sheet { lent: buffer(c)? });
    }
    Ok(Call::SheetOf {
        which: start_up(c)?,
        lent: buffer(c)?,
    })
}

fn buffer(c: &mut Cursor) -> Result<Option<(u64, usize)>, Bad> {
    if c.at_end() {
        return Ok(None);
    }
    let at = c.number()?;
    let Lent(length) = c.number()?;
    Ok(Some((at, length)))
}

fn start_up(c: &mut Cursor) -> Result<Which, Bad> {
    let (at, word) = c.word();
    Which::of_letter(word).ok_or(Bad::at(at, Reason::UnknownStartUp))
}

fn ack(c: &mut Cursor) -> Result<Call, Bad> {
    Ok(Call::Ack {
        model: model(c)?,
        src: source(c)?,
        type_id: c.number()?,
    })
}

/// The model that ends a line, if one does.
fn given_model(c: &mut Cursor) -> Result<Option<Model>, Bad> {
    if c.at_end() {
        return Ok(None);
    }
    model(c).map(Some)
}

fn model_of(c: &mut Cursor) -> Result<Call, Bad> {
    c.skip_blanks();
    Ok(Call::Model {
        payload: c.bytes()?,
    })
}

fn model(c: &mut Cursor) -> Result<Model, Bad> {
    let (at, word) = c.word();
    Model::read(word).ok_or(Bad::at(at, Reason::UnknownModel))
}

fn source(c: &mut Cursor) -> Result<BusAddr, Bad> {
    let (at, word) = c.word();
    match word {
        b"App" => Ok(BusAddr::App),
        b"Pi" => Ok(BusAddr::Pi),
        b"Avr" => Ok(BusAddr::Avr),
        b"Dsp" => Ok(BusAddr::Dsp),
        _ => Err(Bad::at(at, Reason::UnknownSource)),
    }
}
