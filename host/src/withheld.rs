//! What `Debug` doesn't print: the camera's network. Its fields are public, and
//! all else of what holds them is printed as a derived `Debug` would.

use std::fmt;

/// Printed for a text, whatever it is. Its length isn't told, either.
pub struct Withheld;

impl fmt::Debug for Withheld {
    fn fmt(&self, f: &mut fmt::Formatter<'_>) -> fmt::Result {
        f.write_str("(withheld)")
    }
}
