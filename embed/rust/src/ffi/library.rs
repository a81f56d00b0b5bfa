//! The calls of `yimarotu.h`.

use std::cell::UnsafeCell;
use std::ffi::c_void;

/// The numbers of the header; embed/test compares them with it.
pub(crate) mod numbers {
    pub(crate) const OK: u8 = 0;
    pub(crate) const SCRIPT: u8 = 1;
    pub(crate) const NO_MEMORY: u8 = 3;
    pub(crate) const HOSTS: u8 = 4;
    pub(crate) const ROOM: u8 = 5;
    pub(crate) const MESSAGE: u8 = 6;
    pub(crate) const UNWRITABLE: u8 = 7;
    pub(crate) const IN_USE: u8 = 10;
    pub(crate) const NO_LOOKUP: u8 = 11;
    pub(crate) const WAITS: u8 = 12;
    pub(crate) const DONE: u8 = 13;
    pub(crate) const FOUND: u8 = 0;
    pub(crate) const NO_RECORDS: u8 = 1;
    pub(crate) const RESPONSE_CODE: u8 = 2;
    pub(crate) const TIMED_OUT: u8 = 3;
    pub(crate) const UPSTREAM: u8 = 4;
    pub(crate) const BAD_NAME: u8 = 5;
    pub(crate) const RAN_OUT: u8 = 8;
    pub(crate) const FAIL_TIMEOUT: u8 = 1;
    pub(crate) const FAIL_REFUSED: u8 = 2;
    pub(crate) const FAIL_UPSTREAM: u8 = 3;
    pub(crate) const FAIL_MEMORY: u8 = 4;
    pub(crate) const CHANNEL_REFUSED: u8 = 1;
    pub(crate) const CHANNEL_UNREACHABLE: u8 = 2;
    pub(crate) const CHANNEL_CLOSED: u8 = 3;
    pub(crate) const CHANNEL_LOCAL: u8 = 4;
    pub(crate) const CONTINUE: u8 = 1;
    pub(crate) const OPEN: u8 = 2;
    pub(crate) const SEND: u8 = 3;
    pub(crate) const CLOSE: u8 = 4;
    pub(crate) const LOOKED_UP: u8 = 5;
    pub(crate) const STREAM: u8 = 2;
}

#[repr(C)]
struct YimarotuSession {
    is_open: bool,
    inside: *mut c_void,
}

#[repr(C)]
pub(crate) struct YimarotuWritten {
    pub(crate) status: u8,
    pub(crate) fault: u8,
    pub(crate) length: usize,
}

#[repr(C)]
pub(crate) struct YimarotuOpened {
    pub(crate) status: u8,
    pub(crate) line: usize,
}

#[repr(C)]
pub(crate) struct YimarotuAction {
    pub(crate) status: u8,
    pub(crate) kind: u8,
    pub(crate) protocol: u8,
    pub(crate) family: u8,
    pub(crate) port: u16,
    pub(crate) channel: u64,
    pub(crate) number: u64,
    pub(crate) length: usize,
}

#[repr(C)]
pub(crate) struct YimarotuWaits {
    pub(crate) status: u8,
    pub(crate) has_deadline: bool,
    pub(crate) milliseconds: u64,
}

#[repr(C)]
pub(crate) struct YimarotuStatisticsTold {
    pub(crate) status: u8,
    pub(crate) is_bounded: bool,
    pub(crate) started: u64,
    pub(crate) done_at_once: u64,
    pub(crate) sent: u64,
    pub(crate) timed_out: u64,
    pub(crate) entries: u64,
    pub(crate) octets: u64,
}

#[repr(C)]
pub(crate) struct YimarotuProgress {
    pub(crate) status: u8,
    pub(crate) fault: u8,
    pub(crate) waits: bool,
}

#[repr(C)]
pub(crate) struct YimarotuAnswered {
    pub(crate) status: u8,
    pub(crate) error: u8,
    pub(crate) fault: u8,
    pub(crate) has_ttl: bool,
    pub(crate) code: u16,
    pub(crate) ttl: u32,
    pub(crate) until: u64,
    pub(crate) length: usize,
}

#[repr(C)]
#[derive(Clone, Copy, Default)]
pub(crate) struct YimarotuAddress {
    pub(crate) family: u8,
    pub(crate) octets: [u8; 16],
}

#[repr(C)]
pub(crate) struct YimarotuFound {
    pub(crate) status: u8,
    pub(crate) error: u8,
    pub(crate) code: u16,
    pub(crate) ttl: u64,
    pub(crate) count: usize,
}

#[repr(C)]
pub(crate) struct YimarotuAsked {
    pub(crate) status: u8,
    pub(crate) fault: u8,
    pub(crate) mixed: bool,
    pub(crate) length: usize,
}

#[repr(C)]
pub(crate) struct YimarotuServersRead {
    pub(crate) status: u8,
    pub(crate) length: usize,
}

#[repr(C)]
pub(crate) struct YimarotuReplayed {
    pub(crate) status: u8,
    pub(crate) length: usize,
    pub(crate) line: usize,
}

#[rustfmt::skip]
unsafe extern "C" {
    fn yimarotu_version() -> u32;
    fn yimarotu_rewrite(message: *const u8, message_length: usize, limit: usize, room: *mut u8,
                        room_length: usize) -> YimarotuWritten;
    fn yimarotu_open(session: *mut YimarotuSession, conf: *const u8, conf_length: usize,
                     hostname: *const u8, hostname_length: usize, settings: *const u8,
                     settings_length: usize, hosts: *const u8, hosts_length: usize, seed: *const u8,
                     seed_length: usize, moment: u64) -> YimarotuOpened;
    fn yimarotu_close(session: *mut YimarotuSession);
    fn yimarotu_next(session: *mut YimarotuSession, room: *mut u8,
                     room_length: usize) -> YimarotuAction;
    fn yimarotu_came(session: *mut YimarotuSession, channel: u64, octets: *const u8,
                     octets_length: usize, moment: u64) -> u8;
    fn yimarotu_failed(session: *mut YimarotuSession, channel: u64, failure: u8, moment: u64) -> u8;
    fn yimarotu_tick(session: *mut YimarotuSession, moment: u64) -> u8;
    fn yimarotu_wait(session: *mut YimarotuSession, moment: u64) -> YimarotuWaits;
    fn yimarotu_servers(session: *mut YimarotuSession, conf: *const u8, conf_length: usize,
                        clears: bool) -> u8;
    fn yimarotu_statistics(session: *mut YimarotuSession) -> YimarotuStatisticsTold;
    fn yimarotu_start(session: *mut YimarotuSession, number: u64, name: *const u8,
                      name_length: usize, record_type: u16, moment: u64) -> YimarotuProgress;
    fn yimarotu_start_ip(session: *mut YimarotuSession, number: u64, host: *const u8,
                         host_length: usize, moment: u64) -> YimarotuProgress;
    fn yimarotu_answer(session: *mut YimarotuSession, number: u64, limit: usize, room: *mut u8,
                       room_length: usize) -> YimarotuAnswered;
    fn yimarotu_addresses(session: *mut YimarotuSession, number: u64, moment: u64,
                          room: *mut YimarotuAddress, room_length: usize) -> YimarotuFound;
    fn yimarotu_cancel(session: *mut YimarotuSession, number: u64, moment: u64) -> u8;
    fn yimarotu_clear_name(session: *mut YimarotuSession, name: *const u8, name_length: usize,
                           record_type: u16) -> u8;
    fn yimarotu_clear(session: *mut YimarotuSession) -> u8;
    fn yimarotu_open_fed(session: *mut YimarotuSession, settings: *const u8, settings_length: usize,
                         hosts: *const u8, hosts_length: usize, moment: u64) -> YimarotuOpened;
    fn yimarotu_open_fed_with(session: *mut YimarotuSession, conf: *const u8, conf_length: usize,
                              hostname: *const u8, hostname_length: usize, settings: *const u8,
                              settings_length: usize, hosts: *const u8, hosts_length: usize,
                              moment: u64) -> YimarotuOpened;
    fn yimarotu_question(session: *mut YimarotuSession, number: u64, room: *mut u8,
                         room_length: usize) -> YimarotuAsked;
    fn yimarotu_feed(session: *mut YimarotuSession, number: u64, message: *const u8,
                     message_length: usize) -> YimarotuProgress;
    fn yimarotu_fail(session: *mut YimarotuSession, number: u64, failure: u8) -> YimarotuProgress;
    fn yimarotu_read_servers(conf: *const u8, conf_length: usize, room: *mut u8,
                             room_length: usize) -> YimarotuServersRead;
    fn yimarotu_replay(script: *const u8, script_length: usize, hosts: *const u8,
                       hosts_length: usize, room: *mut u8, room_length: usize) -> YimarotuReplayed;
}

pub(crate) fn version() -> u32 {
    // SAFETY: it takes and changes nothing.
    unsafe { yimarotu_version() }
}

pub(crate) fn rewrite(message: &[u8], limit: usize, room: &mut [u8]) -> YimarotuWritten {
    let (at, length) = (room.as_mut_ptr(), room.len());
    // SAFETY: each pointer is of a slice with that length, and so not null; the room, borrowed as
    // mutable, overlaps nothing.
    unsafe { yimarotu_rewrite(message.as_ptr(), message.len(), limit, at, length) }
}

pub(crate) fn read_servers(conf: &[u8], room: &mut [u8]) -> YimarotuServersRead {
    // SAFETY: as in `rewrite`.
    unsafe { yimarotu_read_servers(conf.as_ptr(), conf.len(), room.as_mut_ptr(), room.len()) }
}

pub(crate) fn replay(script: &[u8], hosts: &[u8], room: &mut [u8]) -> YimarotuReplayed {
    let (script, hosts) = (
        (script.as_ptr(), script.len()),
        (hosts.as_ptr(), hosts.len()),
    );
    // SAFETY: as in `rewrite`.
    unsafe {
        yimarotu_replay(
            script.0,
            script.1,
            hosts.0,
            hosts.1,
            room.as_mut_ptr(),
            room.len(),
        )
    }
}

/// The texts over which a session is opened.
#[derive(Clone, Copy)]
pub(crate) struct Texts<'a> {
    pub(crate) conf: &'a [u8],
    pub(crate) hostname: &'a [u8],
    pub(crate) settings: &'a [u8],
    pub(crate) hosts: &'a [u8],
}

/// A session of the library, of either kind. It is closed when it is dropped.
///
/// Its calls take `&self`, since some that only read change what is inside; so the cell makes it
/// not `Sync`, and two threads can make no call of it at once.
pub(crate) struct Handle(UnsafeCell<YimarotuSession>);

// SAFETY: the header lets calls be made from any thread, of one session one at a time: it is not
// `Sync`, and calls end before it can be moved.
unsafe impl Send for Handle {}

// SAFETY of the calls below: the pointer of the session is that of the cell, to which no reference
// is ever made, and calls do not call back; the session has one owner, which makes no copy of it.
// Each other pointer is of a slice with that length, and so not null; a room, borrowed as mutable,
// overlaps nothing else. The library keeps none of them.
impl Handle {
    /// One that is closed: each call of it tells so.
    pub(crate) fn closed() -> Handle {
        Handle(UnsafeCell::new(YimarotuSession {
            is_open: false,
            inside: std::ptr::null_mut(),
        }))
    }

    pub(crate) fn open(&self, texts: &Texts, seed: &[u8; 32], moment: u64) -> YimarotuOpened {
        let Texts {
            conf,
            hostname,
            settings,
            hosts,
        } = texts;
        let (conf, hostname) = (
            (conf.as_ptr(), conf.len()),
            (hostname.as_ptr(), hostname.len()),
        );
        let (settings, hosts) = (
            (settings.as_ptr(), settings.len()),
            (hosts.as_ptr(), hosts.len()),
        );
        let (seed, of_seed) = (seed.as_ptr(), seed.len());
        // SAFETY: as above.
        unsafe {
            yimarotu_open(
                self.0.get(),
                conf.0,
                conf.1,
                hostname.0,
                hostname.1,
                settings.0,
                settings.1,
                hosts.0,
                hosts.1,
                seed,
                of_seed,
                moment,
            )
        }
    }

    pub(crate) fn open_fed(&self, settings: &[u8], hosts: &[u8], moment: u64) -> YimarotuOpened {
        let (settings, hosts) = (
            (settings.as_ptr(), settings.len()),
            (hosts.as_ptr(), hosts.len()),
        );
        // SAFETY: as above.
        unsafe {
            yimarotu_open_fed(
                self.0.get(),
                settings.0,
                settings.1,
                hosts.0,
                hosts.1,
                moment,
            )
        }
    }

    pub(crate) fn open_fed_with(&self, texts: &Texts, moment: u64) -> YimarotuOpened {
        let Texts {
            conf,
            hostname,
            settings,
            hosts,
        } = texts;
        let (conf, hostname) = (
            (conf.as_ptr(), conf.len()),
            (hostname.as_ptr(), hostname.len()),
        );
        let (settings, hosts) = (
            (settings.as_ptr(), settings.len()),
            (hosts.as_ptr(), hosts.len()),
        );
        // SAFETY: as above.
        unsafe {
            yimarotu_open_fed_with(
                self.0.get(),
                conf.0,
                conf.1,
                hostname.0,
                hostname.1,
                settings.0,
                settings.1,
                hosts.0,
                hosts.1,
                moment,
            )
        }
    }

    pub(crate) fn next(&self, room: &mut [u8]) -> YimarotuAction {
        // SAFETY: as above.
        unsafe { yimarotu_next(self.0.get(), room.as_mut_ptr(), room.len()) }
    }

    pub(crate) fn came(&self, channel: u64, octets: &[u8], moment: u64) -> u8 {
        // SAFETY: as above.
        unsafe { yimarotu_came(self.0.get(), channel, octets.as_ptr(), octets.len(), moment) }
    }

    pub(crate) fn failed(&self, channel: u64, failure: u8, moment: u64) -> u8 {
        // SAFETY: as above.
        unsafe { yimarotu_failed(self.0.get(), channel, failure, moment) }
    }

    pub(crate) fn tick(&self, moment: u64) -> u8 {
        // SAFETY: as above.
        unsafe { yimarotu_tick(self.0.get(), moment) }
    }

    pub(crate) fn wait(&self, moment: u64) -> YimarotuWaits {
        // SAFETY: as above.
        unsafe { yimarotu_wait(self.0.get(), moment) }
    }

    pub(crate) fn servers(&self, conf: &[u8], clears: bool) -> u8 {
        // SAFETY: as above.
        unsafe { yimarotu_servers(self.0.get(), conf.as_ptr(), conf.len(), clears) }
    }

    pub(crate) fn statistics(&self) -> YimarotuStatisticsTold {
        // SAFETY: as above.
        unsafe { yimarotu_statistics(self.0.get()) }
    }

    pub(crate) fn start(
        &self,
        number: u64,
        name: &[u8],
        record_type: u16,
        moment: u64,
    ) -> YimarotuProgress {
        // SAFETY: as above.
        unsafe {
            yimarotu_start(
                self.0.get(),
                number,
                name.as_ptr(),
                name.len(),
                record_type,
                moment,
            )
        }
    }

    pub(crate) fn start_ip(&self, number: u64, host: &[u8], moment: u64) -> YimarotuProgress {
        // SAFETY: as above.
        unsafe { yimarotu_start_ip(self.0.get(), number, host.as_ptr(), host.len(), moment) }
    }

    pub(crate) fn answer(&self, number: u64, limit: usize, room: &mut [u8]) -> YimarotuAnswered {
        // SAFETY: as above.
        unsafe { yimarotu_answer(self.0.get(), number, limit, room.as_mut_ptr(), room.len()) }
    }

    pub(crate) fn addresses(
        &self,
        number: u64,
        moment: u64,
        room: &mut [YimarotuAddress],
    ) -> YimarotuFound {
        let length = size_of_val(room);
        // SAFETY: as above; the length of this room is in bytes.
        unsafe { yimarotu_addresses(self.0.get(), number, moment, room.as_mut_ptr(), length) }
    }

    pub(crate) fn cancel(&self, number: u64, moment: u64) -> u8 {
        // SAFETY: as above.
        unsafe { yimarotu_cancel(self.0.get(), number, moment) }
    }

    pub(crate) fn clear_name(&self, name: &[u8], record_type: u16) -> u8 {
        // SAFETY: as above.
        unsafe { yimarotu_clear_name(self.0.get(), name.as_ptr(), name.len(), record_type) }
    }

    pub(crate) fn clear(&self) -> u8 {
        // SAFETY: as above.
        unsafe { yimarotu_clear(self.0.get()) }
    }

    pub(crate) fn question(&self, number: u64, room: &mut [u8]) -> YimarotuAsked {
        // SAFETY: as above.
        unsafe { yimarotu_question(self.0.get(), number, room.as_mut_ptr(), room.len()) }
    }

    pub(crate) fn feed(&self, number: u64, message: &[u8]) -> YimarotuProgress {
        // SAFETY: as above.
        unsafe { yimarotu_feed(self.0.get(), number, message.as_ptr(), message.len()) }
    }

    pub(crate) fn fail(&self, number: u64, failure: u8) -> YimarotuProgress {
        // SAFETY: as above.
        unsafe { yimarotu_fail(self.0.get(), number, failure) }
    }
}

impl Drop for Handle {
    fn drop(&mut self) {
        // SAFETY: as above; of a session that is closed nothing changes.
        unsafe { yimarotu_close(self.0.get()) }
    }
}
