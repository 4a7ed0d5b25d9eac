//! The editions of a record.

/// How wide the units of a record's names and strings are. All else is the
/// same in both.
#[derive(Clone, Copy, Debug, PartialEq, Eq, Hash)]
pub enum Edition {
    /// Units of two bytes, UTF-16.
    Unicode,
    /// Units of one byte.
    Ansi,
}

/// Calls a function over the width of a unit: the edition is asked once, before
/// the first record.
macro_rules! by_width {
    ($edition:expr, $function:ident($($argument:expr),*)) => {
        match $edition {
            $crate::edition::Edition::Unicode => $function::<2>($($argument),*),
            $crate::edition::Edition::Ansi => $function::<1>($($argument),*),
        }
    };
}

pub(crate) use by_width;
