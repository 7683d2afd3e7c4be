//! Feeds and checks of a sequence: the one that is awaited, one much like
//! it, or any.

use super::kinds::{self, KINDS, Kind};
use super::random::Random;
use super::readings::Readings;
use super::{arm, avr, avr_config, bytes, disarm, dsp, pi};
use crate::armed;
use crate::list::Which;
use crate::protocol::handshake::DeviceModel;
use crate::running::View;

/// Makes a feed or a check for a state.
pub struct Caller<'a> {
    pub random: &'a mut Random,
    pub model: DeviceModel,
    pub first: u64,
    pub view: View,
    /// Whether there are checks, and readings are looked at.
    pub has_clock: bool,
    /// Whether feeds may have wall seconds.
    pub walls: bool,
    /// Whether device infos have a rig's tag, too.
    pub rigs: bool,
}

/// A feed before it is written.
pub struct Feed {
    now: u64,
    src: &'static str,
    type_id: u8,
    kind: Vec<String>,
    text: Vec<u8>,
    payload: Vec<u8>,
}

impl Feed {
    /// Gives a field of the kind, counted from 0, another value.
    pub fn set(&mut self, field: usize, value: String) {
        let word = &mut self.kind[1 + field];
        let name = word.split('=').next().unwrap_or("").to_string();
        *word = format!("{name}={value}");
    }
}

impl Caller<'_> {
    pub fn words(&mut self) -> Vec<String> {
        match self.random.below(100) {
            0..50 => self.awaited(),
            50..70 => self.near(),
            70..80 if self.has_clock => {
                let now = self.readings().any();
                self.check(now)
            }
            _ => self.any(),
        }
    }

    fn readings(&mut self) -> Readings<'_> {
        Readings {
            random: self.random,
            first: self.first,
            view: self.view,
            has_clock: self.has_clock,
        }
    }

    /// What ticks the row that is awaited.
    fn awaited(&mut self) -> Vec<String> {
        if let Some(deadline) = self.view.deadline
            && self.random.chance(30)
        {
            let now = self.readings().from(deadline);
            return self.check(now);
        }
        let mut feed = self.reply();
        if self.random.chance(95) {
            feed.now = self.readings().next();
        }
        self.write(feed)
    }

    fn reply(&mut self) -> Feed {
        match self.view.which {
            Which::Dsp => dsp::reply(self),
            Which::Avr => avr::reply(self),
            Which::Pi => pi::reply(self),
            Which::AvrConfig => avr_config::reply(self),
            Which::Disarm => disarm::reply(self),
            Which::Arm => arm::reply(self),
            Which::Session => unreachable!("it is one of its start-ups"),
        }
    }

    /// A kind that some row awaits.
    fn usual(&mut self) -> Feed {
        match self.view.which {
            Which::Dsp => dsp::usual(self),
            Which::Avr => avr::usual(self),
            Which::Pi => pi::usual(self),
            Which::AvrConfig => avr_config::usual(self),
            Which::Disarm => disarm::usual(self),
            Which::Arm => arm::usual(self),
            Which::Session => unreachable!("it is one of its start-ups"),
        }
    }

    /// Much like what is awaited, but with something wrong.
    fn near(&mut self) -> Vec<String> {
        let mut feed = self.reply();
        match self.random.below(8) {
            0 => feed.src = self.random.pick(&self.others()),
            1 => feed.text = bytes::text(self.random, 257),
            2 => feed.payload = bytes::payload(self.random, 257),
            3 => feed.now = self.readings().fallen(),
            4 => feed.now = self.readings().past_limit(),
            5 => feed = self.wrong_ack(),
            7 if self.has_clock => {
                let deadline = self.view.deadline.unwrap_or(self.first);
                return self.check(deadline.saturating_sub(1));
            }
            _ => feed = self.usual(),
        }
        self.write(feed)
    }

    /// An ack or a nack that ticks no row, or another row.
    pub fn wrong_ack(&mut self) -> Feed {
        let other = self.random.byte();
        let commands = match self.view.which {
            Which::Avr => [0x2A, 0x2A, 0x2A, 0xAA, 0x2B, 0x29, 0x48, other],
            _ => [0x48, 0x3F, 0xC8, 0xBF, 0x3E, 0x47, 0x2A, other],
        };
        let command = self.random.pick(&commands);
        let kind = self.random.pick(&["ConfigAck", "ConfigNack", "ModeAck"]);
        if kind == "ModeAck" {
            return self.feed(kind);
        }
        self.ack(kind, command)
    }

    /// Any kind from any source.
    fn any(&mut self) -> Vec<String> {
        let place = self.random.index(KINDS.len());
        let mut feed = self.feed(KINDS[place].name);
        feed.kind = kinds::words(self.random, &KINDS[place]);
        let (own, [a, b, c]) = (self.source(), self.others());
        feed.src = self.random.pick(&[own, own, c, b, a]);
        self.write(feed)
    }

    /// The source of the reply that is awaited.
    fn source(&self) -> &'static str {
        match (self.view.which, self.view.step.name) {
            (Which::Dsp, _) | (Which::Arm, "WaitDspStatus") => "Dsp",
            (Which::Pi, _) => "Pi",
            _ => "Avr",
        }
    }

    fn others(&self) -> [&'static str; 3] {
        match self.source() {
            "Dsp" => ["App", "Pi", "Avr"],
            "Avr" => ["App", "Pi", "Dsp"],
            _ => ["App", "Avr", "Dsp"],
        }
    }

    pub fn feed(&mut self, name: &str) -> Feed {
        self.feed_of(kinds::find(name))
    }

    fn feed_of(&mut self, kind: &Kind) -> Feed {
        let (text, payload) = (bytes::length(self.random), bytes::length(self.random));
        let odd = self.random.chance(10);
        Feed {
            now: self.readings().any(),
            src: self.source(),
            type_id: if odd {
                self.random.byte()
            } else {
                kind.type_id
            },
            kind: kinds::words(self.random, kind),
            text: bytes::text(self.random, text),
            payload: bytes::payload(self.random, payload),
        }
    }

    pub fn ack(&mut self, name: &str, command: u8) -> Feed {
        let mut feed = self.feed(name);
        let command = kinds::number(self.random, command);
        feed.set(1, command);
        feed
    }

    /// Where the source doesn't matter.
    pub fn feed_from_any(&mut self, name: &str) -> Feed {
        let mut feed = self.feed(name);
        feed.src = self.random.pick(&["Pi", "Avr", "Avr", "Dsp", "App"]);
        feed
    }

    /// A text with one of these needles; now and then it is lent to a kind
    /// that isn't looked at.
    pub fn text(&mut self, needles: &[&str]) -> Feed {
        let kinds = ["ProdInfoResp", "NetConfigResp", "DevInfoResp", "Other"];
        let kind = match self.random.chance(8) {
            true => self.random.pick(&kinds),
            false => "Text",
        };
        let needle = self.random.pick(needles);
        let mut feed = self.feed_from_any(kind);
        feed.text = bytes::with_needle(self.random, needle);
        feed
    }

    /// One on which the rules for an arm don't differ: what is drawn before the
    /// needle may be a capital letter.
    pub fn agreed_text(&mut self, needles: &[&str]) -> Feed {
        loop {
            let feed = self.text(needles);
            if !armed::differs(&feed.text) {
                return feed;
            }
        }
    }

    /// A text with both, apart.
    pub fn text_with_both(&mut self, first: &str, second: &str) -> Feed {
        let mut feed = self.feed_from_any("Text");
        feed.text = bytes::with_both(self.random, first, second);
        feed
    }

    /// With an integer or a float.
    pub fn param_value(&mut self) -> Feed {
        let values: Vec<&Kind> = KINDS.iter().filter(|k| k.name == "ParamValue").collect();
        let kind = self.random.pick(&values);
        self.feed_of(kind)
    }

    /// A device info, in so many cases of a hundred one of the other model.
    /// Where rigs are among them each is as likely.
    pub fn device_info(&mut self, other: u64) -> Feed {
        let other = if self.rigs { 50 } else { other };
        let model = match (self.model, self.random.chance(other)) {
            (DeviceModel::Xi, false) | (DeviceModel::Mevo, true) => DeviceModel::Xi,
            _ => DeviceModel::Mevo,
        };
        let mut feed = self.feed("DevInfoResp");
        feed.payload = bytes::device_info(self.random, model);
        if self.rigs && self.random.chance(60) {
            feed.payload = bytes::with_rig(self.random, feed.payload);
        }
        feed
    }

    pub fn network(&mut self) -> Feed {
        let mut feed = self.feed("NetConfigResp");
        feed.text = bytes::network(self.random);
        feed
    }

    fn check(&mut self, now: u64) -> Vec<String> {
        vec!["check".into(), kinds::number(self.random, now)]
    }

    fn write(&mut self, feed: Feed) -> Vec<String> {
        let mut words = vec!["feed".into(), kinds::number(self.random, feed.now)];
        words.push(feed.src.into());
        let hex = self.random.chance(80);
        words.push(match hex {
            true => format!("0x{:02X}", feed.type_id),
            false => feed.type_id.to_string(),
        });
        words.extend(feed.kind);
        for (name, lent) in [("text", feed.text), ("payload", feed.payload)] {
            if !lent.is_empty() || self.random.chance(5) {
                words.push(format!("{name}={}", bytes::written(self.random, &lent)));
            }
        }
        words.extend(self.wall());
        words
    }

    /// Often where a `TimeSync` carries them.
    fn wall(&mut self) -> Option<String> {
        let often = self.view.step.name == "WaitParam64";
        if !self.walls || !self.random.chance(if often { 85 } else { 10 }) {
            return None;
        }
        let seconds = kinds::wall_seconds(self.random);
        Some(format!("wall={}", kinds::number(self.random, seconds)))
    }
}
