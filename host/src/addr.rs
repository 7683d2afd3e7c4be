//! Devices on the unit's bus.

/// A device on the unit's bus. Its number is its byte there.
#[derive(Debug, Clone, Copy, PartialEq, Eq, Hash)]
#[repr(u8)]
pub enum BusAddr {
    /// The client application.
    App = 0x10,
    /// The camera's Raspberry Pi.
    Pi = 0x12,
    /// The AVR microcontroller (radar I/O, battery).
    Avr = 0x30,
    /// The digital signal processor (radar core).
    Dsp = 0x40,
}

impl BusAddr {
    /// The device at this byte.
    #[must_use]
    pub fn from_byte(byte: u8) -> Option<Self> {
        match byte {
            0x10 => Some(Self::App),
            0x12 => Some(Self::Pi),
            0x30 => Some(Self::Avr),
            0x40 => Some(Self::Dsp),
            _ => None,
        }
    }

    /// Its byte.
    #[must_use]
    pub fn as_byte(self) -> u8 {
        self as u8
    }
}
