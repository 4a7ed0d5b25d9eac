//! The calls that are measured, by the same names in each library. An edition is
//! the plain library's.

use plain::Edition;

/// How a log is read: the flags, the set of types, and the size of each read.
#[derive(Clone, Copy)]
pub struct Reads {
    pub flags: u32,
    pub types: u32,
    pub size: usize,
}

/// A call that writes to an output and answers how many bytes.
pub type Output<'a> = Box<dyn Fn(&mut [u8]) -> usize + 'a>;

/// A function of every version, by its name in each of them.
macro_rules! versions {
    ($function:ident) => {
        [
            $crate::calls::proved::$function,
            $crate::calls::tuned::$function,
            $crate::calls::untuned::$function,
        ]
    };
    ($function:ident($($argument:expr),*)) => {
        [
            $crate::calls::proved::$function($($argument),*),
            $crate::calls::tuned::$function($($argument),*),
            $crate::calls::untuned::$function($($argument),*),
        ]
    };
}

pub(crate) use versions;

/// What is the same in all libraries.
macro_rules! common {
    ($library:ident) => {
        use super::{Edition, Output, Reads};
        use compare::make::Made;
        use std::hint::black_box;

        /// The same edition of this library.
        fn edition(edition: Edition) -> $library::Edition {
            match edition {
                Edition::Unicode => $library::Edition::Unicode,
                Edition::Ansi => $library::Edition::Ansi,
            }
        }

        /// The events with their numbers.
        fn events(made: &[Made]) -> Vec<(u32, Event<'_>)> {
            let numbers = made.iter().map(|made| made.fields.record_number);
            numbers.zip(made.iter().map(event)).collect()
        }

        /// Steps over the whole log; answers the bytes of all parts.
        pub fn steps(e: Edition, log: &[u8]) -> usize {
            let edition = edition(e);
            let (mut at, mut sum) = (0, 0);
            while at < log.len() {
                let record = $library::step(edition, log, at).expect("it is good");
                // All of the record is shown, also where a library is compiled into this loop.
                sum += parts(black_box(&record));
                at += record.length;
            }
            sum
        }

        /// Appends the events in turn until the log is full; answers its bytes.
        pub fn appends(e: Edition, made: &[Made]) -> Output<'_> {
            let (edition, events) = (edition(e), events(made));
            Box::new(move |log| {
                let mut used = 0;
                for (_, event) in events.iter().cycle() {
                    match $library::append(edition, log, used, event) {
                        Ok(more) => used = more,
                        Err(_) => break,
                    }
                }
                used
            })
        }

        /// Writes the events in turn to the output's start, so many bytes in all.
        pub fn writes(e: Edition, made: &[Made], bytes: usize) -> Output<'_> {
            let (edition, events) = (edition(e), events(made));
            Box::new(move |out| {
                let mut sum = 0;
                for (number, event) in events.iter().cycle() {
                    sum += write(edition, *number, event, out).expect("it has room");
                    if sum >= bytes {
                        break;
                    }
                }
                sum
            })
        }

        /// A log to a card's image; answers the image's length.
        pub fn card_write(log: &[u8], image: &mut [u8]) -> usize {
            $library::card::write(log, image).unwrap_or(0)
        }

        /// The log of a card's image; answers its length.
        pub fn card_read(image: &[u8], log: &mut [u8]) -> usize {
            $library::card::read(image, log).unwrap_or(0)
        }

        /// Text in windows-1252 to UTF-16; answers its length.
        pub fn to_utf16(text: &[u8], units: &mut [u8]) -> usize {
            $library::windows_1252::to_utf16(text, units).unwrap_or(0)
        }

        /// And back.
        pub fn from_utf16(units: &[u8], text: &mut [u8]) -> usize {
            $library::windows_1252::from_utf16(units, text).unwrap_or(0)
        }
    };
}

/// The proved library, through the binding; and its searches by themselves.
pub mod proved {
    use eventlog::{write, Event, Handle, Record, Status, StoppedWalk, Types};

    common!(eventlog);

    /// How many records a walk found; the batches are good.
    fn counted(walked: Result<usize, StoppedWalk>) -> usize {
        walked.unwrap_or_else(|stopped| stopped.count)
    }

    pub fn walk(e: Edition, log: &[u8]) -> usize {
        counted(eventlog::walk(edition(e), log))
    }

    pub fn walk_back(e: Edition, log: &[u8]) -> usize {
        counted(eventlog::walk_back(edition(e), log))
    }

    fn parts(record: &Record<'_>) -> usize {
        let event = &record.event;
        let names = event.source_name.as_bytes().len() + event.computer_name.as_bytes().len();
        names + event.sid.len() + event.strings.len() + event.event_data.len()
    }

    /// Reads the whole log, one direction; answers the bytes read.
    pub fn reads(e: Edition, log: &[u8], reads: Reads, out: &mut [u8]) -> usize {
        let edition = edition(e);
        let mut handle = Handle::fresh(Types::from_bits(reads.types));
        let mut sum = 0;
        loop {
            match handle.read_with_flags(edition, log, reads.flags, 0, reads.size, out) {
                Ok(batch) => {
                    sum += batch.bytes.len();
                    handle = batch.handle;
                }
                Err(error) => {
                    assert_eq!(error.status, Status::EndOfFile);
                    return sum;
                }
            }
        }
    }

    /// One read of the record with this number; answers its bytes.
    pub fn seek(e: Edition, log: &[u8], number: u32, out: &mut [u8]) -> usize {
        let handle = Handle::fresh(Types::ALL);
        let read = handle.read_with_flags(edition(e), log, super::SEEK, number, out.len(), out);
        read.expect("the number is there").bytes.len()
    }

    /// The listings of some batches, each at the output's start; answers their
    /// bytes.
    pub fn listings(e: Edition, batches: &[&[u8]], out: &mut [u8]) -> usize {
        let edition = edition(e);
        let listing = |batch: &&[u8]| eventlog::listing(edition, batch, out).map_or(0, str::len);
        batches.iter().map(listing).sum()
    }

    /// The listing of one batch.
    pub fn listed(e: Edition, batch: &[u8]) -> String {
        let mut out = vec![0; batch.len() + eventlog::LISTING_ROOM];
        let listing = eventlog::listing(edition(e), batch, &mut out);
        listing.expect("it has room").into()
    }

    fn event(made: &Made) -> Event<'_> {
        made.proved()
    }

    /// All strings of a record, after a step in turn; answers their bytes.
    pub fn strings_in_turn(e: Edition, record: &[u8]) -> usize {
        let found = eventlog::step(edition(e), record, 0).expect("it is good");
        found.strings().map(|s| s.as_bytes().len()).sum()
    }

    /// One string of a record by its number; answers its bytes.
    pub fn string(e: Edition, record: &[u8], k: u32) -> usize {
        eventlog::string(edition(e), record, 0, k).map_or(0, |s| s.as_bytes().len())
    }

    unsafe extern "C" {
        fn searches_text_len(t: *const u8, len: usize) -> usize;
        fn searches_strings_end(t: *const u8, len: usize, count: u32) -> usize;
    }

    /// The place after the first zero unit.
    pub fn name_end(t: &[u8]) -> usize {
        // SAFETY: `t` is readable for its length.
        unsafe { searches_text_len(t.as_ptr(), t.len()) + 2 }
    }

    /// The place after so many strings.
    pub fn strings_end(t: &[u8], count: u32) -> usize {
        // SAFETY: as in `name_end`.
        unsafe { searches_strings_end(t.as_ptr(), t.len(), count) }
    }
}

/// The flags of a seek forwards.
const SEEK: u32 = plain::flags::SEEK | plain::flags::FORWARDS;

/// The proved searches as they were before K5, unit by unit.
pub mod by_unit {
    unsafe extern "C" {
        fn searches_text_len_by_unit(t: *const u8, len: usize) -> usize;
        fn searches_strings_end_by_unit(t: *const u8, len: usize, count: u32) -> usize;
    }

    pub fn name_end(t: &[u8]) -> usize {
        // SAFETY: `t` is readable for its length.
        unsafe { searches_text_len_by_unit(t.as_ptr(), t.len()) + 2 }
    }

    pub fn strings_end(t: &[u8], count: u32) -> usize {
        // SAFETY: as in `name_end`.
        unsafe { searches_strings_end_by_unit(t.as_ptr(), t.len(), count) }
    }
}

/// An ordinary library.
macro_rules! ordinary {
    ($module:ident, $library:ident) => {
        pub mod $module {
            use $library::{status, Event, Fields, Handle, Record, Types};

            common!($library);

            pub fn walk(e: Edition, log: &[u8]) -> usize {
                $library::walk(edition(e), log).count
            }

            pub fn walk_back(e: Edition, log: &[u8]) -> usize {
                $library::walk_back(edition(e), log).count
            }

            fn parts(record: &Record<'_>) -> usize {
                let names = record.source_name.len() + record.computer_name.len();
                names + record.sid.len() + record.strings.len() + record.event_data.len()
            }

            pub fn reads(e: Edition, log: &[u8], reads: Reads, out: &mut [u8]) -> usize {
                let edition = edition(e);
                let mut handle = Handle::fresh(Types(reads.types));
                let mut sum = 0;
                loop {
                    let answer = handle.read(edition, log, reads.flags, 0, reads.size, out);
                    if answer.status != 0 {
                        assert_eq!(answer.status, status::END_OF_FILE);
                        return sum;
                    }
                    sum += answer.read;
                    handle = answer.handle;
                }
            }

            pub fn seek(e: Edition, log: &[u8], number: u32, out: &mut [u8]) -> usize {
                let handle = Handle::fresh(Types::ALL);
                let answer = handle.read(edition(e), log, super::SEEK, number, out.len(), out);
                assert_eq!(answer.status, status::SUCCESS);
                answer.read
            }

            /// They need no output: each is a `String`.
            pub fn listings(e: Edition, batches: &[&[u8]], _: &mut [u8]) -> usize {
                let edition = edition(e);
                let listing = |batch: &&[u8]| $library::listing(edition, batch).len();
                batches.iter().map(listing).sum()
            }

            pub fn listed(e: Edition, batch: &[u8]) -> String {
                $library::listing(edition(e), batch)
            }

            fn event(made: &Made) -> Event<'_> {
                let f = made.fields;
                let fields = Fields {
                    record_number: f.record_number,
                    time_generated: f.time_generated,
                    time_written: f.time_written,
                    event_id: f.event_id,
                    event_type: f.event_type,
                    num_strings: f.num_strings,
                    event_category: f.event_category,
                    reserved_flags: f.reserved_flags,
                };
                Event {
                    fields,
                    source_name: &made.source,
                    computer_name: &made.computer,
                    sid: &made.sid,
                    strings: &made.strings,
                    event_data: &made.data,
                }
            }

            /// The number is in the event.
            fn write(
                edition: $library::Edition,
                _: u32,
                event: &Event<'_>,
                out: &mut [u8],
            ) -> Result<usize, u32> {
                $library::write(edition, event, out)
            }

            pub fn strings_in_turn(e: Edition, record: &[u8]) -> usize {
                let edition = edition(e);
                let found = $library::step(edition, record, 0).expect("it is good");
                let run = (found.strings_at, found.strings.len());
                let mut next = $library::next_string(edition, record, run, run.0);
                let mut sum = 0;
                while next.refusal == 0 {
                    sum += next.len;
                    next = $library::next_string(edition, record, run, next.next);
                }
                sum
            }

            pub fn string(e: Edition, record: &[u8], k: u32) -> usize {
                $library::string(edition(e), record, 0, k).len()
            }

            /// A call that answers a length, as the proved one does.
            #[inline(never)]
            fn text_len(t: &[u8]) -> usize {
                $library::after_zero_units::<2>(t, 0, 1).unwrap_or(2) - 2
            }

            #[inline(never)]
            fn run_end(t: &[u8], count: u32) -> usize {
                $library::after_zero_units::<2>(t, 0, count as usize).unwrap_or(0)
            }

            pub fn name_end(t: &[u8]) -> usize {
                text_len(t) + 2
            }

            pub fn strings_end(t: &[u8], count: u32) -> usize {
                run_end(t, count)
            }
        }
    };
}

ordinary!(tuned, plain);
ordinary!(untuned, simple);
