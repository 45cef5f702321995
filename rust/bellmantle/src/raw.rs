//! The library's calls as they are: a safe function for each of include/bellmantle.h, by its name without the prefix, over
//! arrays of the fixed widths and slices of any length. The other modules stand on these.
//!
//! Every call returns 0 or the number of its refusal (docs/RULES.md). On a refusal no word that was lent is changed, those lent
//! for the answer included. [`parse_script`] and [`network_tick`] return more than a number.
//!
//! What the header asks of pointers holds for every reference: none is null, each is of words that nobody else reads or writes
//! meanwhile, those that are written overlap no other, and a length that is fixed is that of the array's type.

use crate::sys;

/// The words of an event: tick, fault, id.
pub const EVENT_WORDS: usize = 3;

/// The words of a network's head.
pub const HEAD_WORDS: usize = 12;

/// Where the words of a head stand.
pub mod head {
    /// The bits of the loss probability.
    pub const LOSS: usize = 0;
    /// The bits of the replay probability.
    pub const REPLAY: usize = 1;
    /// The minimum delay.
    pub const MIN: usize = 2;
    /// The mean delay.
    pub const MEAN: usize = 3;
    /// Whether client messages are faulted: 0 or 1.
    pub const FLAG: usize = 4;
    /// Messages in flight.
    pub const PENDING: usize = 5;
    /// The number of the last copy queued.
    pub const SEQ: usize = 6;
    /// Messages sent.
    pub const SENT: usize = 7;
    /// Copies delivered.
    pub const DELIVERED: usize = 8;
    /// Messages lost.
    pub const LOST: usize = 9;
    /// Messages replayed.
    pub const REPLAYED: usize = 10;
    /// Copies delayed beyond the minimum.
    pub const DELAYED: usize = 11;
}

/// The words that tell a message's fate: lost, replayed, draws, extras, the copy's due tick, the original's.
pub const FATE_WORDS: usize = 6;

/// The words of a message in flight.
pub const RECORD_WORDS: usize = 8;

/// Where the words of a record stand.
pub mod record {
    /// The tick at which it is due.
    pub const DUE: usize = 0;
    /// Its number.
    pub const SEQ: usize = 1;
    /// The tick at which it was sent.
    pub const SENT_AT: usize = 2;
    /// The sender's sort: 0 a replica, 1 a client.
    pub const SORT: usize = 3;
    /// The sender's id.
    pub const ORIGIN: usize = 4;
    /// The receiver.
    pub const TO: usize = 5;
    /// The kind, 0 to 10; 0 is a Request.
    pub const KIND: usize = 6;
    /// Names a body that the host keeps.
    pub const HANDLE: usize = 7;
}

/// The most messages in flight.
pub const CAPACITY: usize = 128;

/// The words of the records.
pub const RECORDS_WORDS: usize = CAPACITY * RECORD_WORDS;

/// The words of a message of a tick: the tick it is sent at, the sender's sort and id, the receiver, kind and handle.
pub const MESSAGE_WORDS: usize = 6;

/// The most messages of a tick.
pub const TICK_MESSAGES: usize = 65_536;

/// The words of a journal before its records: calls held, and words used.
pub const JOURNAL_HEADER: usize = 2;

/// The most plants.
pub const MOST_PLANTS: usize = 15;

/// The words of a state of plants.
pub const PLANTS_WORDS: usize = 49;

/// Where the words of a state of plants stand.
pub mod plants {
    /// How many plants.
    pub const N: usize = 0;
    /// Whether each runs: 15 flags.
    pub const UP: usize = 1;
    /// Whether each is cut off: 15 flags.
    pub const PARTITIONED: usize = 16;
    /// The tick until which each is stable: 15 ticks.
    pub const STABLE: usize = 31;
    /// How often a plant went down.
    pub const CRASHES: usize = 46;
    /// How often one came up.
    pub const RESTARTS: usize = 47;
    /// How often one came up without memory.
    pub const REBOOTS: usize = 48;
}

/// The words told of a core: its size, how many picks were used, and 15 ids.
pub const CORE_WORDS: usize = 17;

/// Where the words told of a core stand.
pub mod core {
    /// Its size.
    pub const SIZE: usize = 0;
    /// How many picks were used.
    pub const PICKS: usize = 1;
    /// Its ids, rising, with zeros behind them.
    pub const IDS: usize = 2;
}

/// The words of a plant in a snapshot: recovering, commit, op number, log length.
pub const SNAPSHOT_PLANT_WORDS: usize = 4;

/// The words of an entry of a log: client, request, op id, op body.
pub const ENTRY_WORDS: usize = 4;

/// The most entries of a log.
pub const LOG_ENTRIES: usize = 128;

/// The words of a plant's log in a snapshot.
pub const LOG_WORDS: usize = LOG_ENTRIES * ENTRY_WORDS;

/// The words of a tracker of n plants, at most 15: n, the canonical length, n last commits, 512 canonical words, 128n seen ids.
pub const fn tracker_words(n: usize) -> usize {
    2 + LOG_WORDS + n * (1 + LOG_ENTRIES)
}

/// Where the words told of a property stand.
pub mod told {
    /// The property that broke, or 0.
    pub const PROPERTY: usize = 0;
    /// The plant.
    pub const PLANT: usize = 1;
    /// The index, 0 where the test has none.
    pub const INDEX: usize = 2;
    /// The test.
    pub const TEST: usize = 3;
}

// ---- Fault scripts

/// Reads a fault script: 1 to 8. Returns how many events there are, which stand in front of the lent words; or a refusal, which
/// [`refused_number`] and the functions behind it take apart.
pub fn parse_script(text: &[u8], events: &mut [u64]) -> u64 {
    // SAFETY: as the module says of every reference.
    unsafe {
        sys::bellmantle_parse_script(text.as_ptr(), text.len(), events.as_mut_ptr(), events.len())
    }
}

/// The number of a refusal in what [`parse_script`] returned; 0 where the script was read.
pub const fn refused_number(packed: u64) -> u64 {
    packed >> 56
}

/// Its line, counted from 1; 0 for a text too long.
pub const fn refused_line(packed: u64) -> u64 {
    packed & 0xff_ffff
}

/// For 4 and 7 why the word is no number: 1 no digit, 2 a stray byte, 3 too large. 0 otherwise.
pub const fn refused_why(packed: u64) -> u64 {
    packed >> 48 & 0xff
}

/// For 4 and 7 at which byte of the word, counted from 0. 0 otherwise.
pub const fn refused_byte(packed: u64) -> u64 {
    packed >> 24 & 0xff_ffff
}

// ---- The network

/// A fresh network: 20, 21, 22. All words are written.
pub fn network_new(
    head: &mut [u64; HEAD_WORDS],
    records: &mut [u64; RECORDS_WORDS],
    loss: u64,
    replay: u64,
    min: u64,
    mean: u64,
    flag: u64,
) -> u64 {
    // SAFETY: as the module says of every reference.
    unsafe { sys::bellmantle_network_new(head, records, loss, replay, min, mean, flag) }
}

/// Other options: 23, 20, 21, 22.
pub fn network_set_options(
    head: &mut [u64; HEAD_WORDS],
    records: &[u64; RECORDS_WORDS],
    loss: u64,
    replay: u64,
    min: u64,
    mean: u64,
    flag: u64,
) -> u64 {
    // SAFETY: as the module says of every reference.
    unsafe { sys::bellmantle_network_set_options(head, records, loss, replay, min, mean, flag) }
}

/// A message sent at tick `now`: 23 to 29. Told: whether it was lost, whether it was replayed, how many draws and how many extras
/// were used, from each list's front.
#[allow(clippy::too_many_arguments)]
pub fn network_send(
    head: &mut [u64; HEAD_WORDS],
    records: &mut [u64; RECORDS_WORDS],
    now: u64,
    sort: u64,
    origin: u64,
    to: u64,
    kind: u64,
    handle: u64,
    draws: &[u64],
    extras: &[u64],
    told: &mut [u64; 4],
) -> u64 {
    // SAFETY: as the module says of every reference.
    unsafe {
        sys::bellmantle_network_send(
            head,
            records,
            now,
            sort,
            origin,
            to,
            kind,
            handle,
            draws.as_ptr(),
            draws.len(),
            extras.as_ptr(),
            extras.len(),
            told,
        )
    }
}

/// What becomes of a message of a kind that is sent at tick `now` under these options, with no network: 20, 21, 22, 24, 26, 27, 28.
/// Told: whether it is lost, whether it is replayed, the draws and extras used, when the copy and when the original is due.
#[inline]
pub fn fate(
    options: [u64; 5],
    now: u64,
    kind: u64,
    draws: &[u64],
    extras: &[u64],
    told: &mut [u64; FATE_WORDS],
) -> u64 {
    let [loss, replay, min, mean, flag] = options;
    // SAFETY: as the module says of every reference.
    unsafe {
        sys::bellmantle_fate(
            loss,
            replay,
            min,
            mean,
            flag,
            now,
            kind,
            draws.as_ptr(),
            draws.len(),
            extras.as_ptr(),
            extras.len(),
            told,
        )
    }
}

/// Takes every message due at tick `now` to the front of the output, in the order of delivery: 23, 30. Told: how many.
pub fn network_take_due(
    head: &mut [u64; HEAD_WORDS],
    records: &mut [u64; RECORDS_WORDS],
    now: u64,
    out: &mut [u64],
    told: &mut [u64; 1],
) -> u64 {
    // SAFETY: as the module says of every reference.
    unsafe {
        sys::bellmantle_network_take_due(head, records, now, out.as_mut_ptr(), out.len(), told)
    }
}

/// How many messages are in flight: 23.
pub fn network_pending(
    head: &[u64; HEAD_WORDS],
    records: &[u64; RECORDS_WORDS],
    told: &mut [u64; 1],
) -> u64 {
    // SAFETY: as the module says of every reference.
    unsafe { sys::bellmantle_network_pending(head, records, told) }
}

/// The messages in flight, to the front of the output, in the order of delivery: 23, 30. Told: how many.
pub fn network_in_flight(
    head: &[u64; HEAD_WORDS],
    records: &[u64; RECORDS_WORDS],
    out: &mut [u64],
    told: &mut [u64; 1],
) -> u64 {
    // SAFETY: as the module says of every reference.
    unsafe { sys::bellmantle_network_in_flight(head, records, out.as_mut_ptr(), out.len(), told) }
}

/// A tick: messages sent one after the other, [`MESSAGE_WORDS`] each, and then a take at tick `now`. Told: draws used, extras
/// used, records taken. Returns 0, or the number of the first refusal times 2^32 and its call's place, the take's being the number
/// of messages; then nothing is changed.
#[allow(clippy::too_many_arguments)]
pub fn network_tick(
    head: &mut [u64; HEAD_WORDS],
    records: &mut [u64; RECORDS_WORDS],
    sends: &[u64],
    draws: &[u64],
    extras: &[u64],
    now: u64,
    out: &mut [u64],
    told: &mut [u64; 3],
) -> u64 {
    // SAFETY: as the module says of every reference.
    unsafe {
        sys::bellmantle_network_tick(
            head,
            records,
            sends.as_ptr(),
            sends.len(),
            draws.as_ptr(),
            draws.len(),
            extras.as_ptr(),
            extras.len(),
            now,
            out.as_mut_ptr(),
            out.len(),
            told,
        )
    }
}

// ---- The journal

/// Forgets the calls that a journal holds: 32.
pub fn journal_mark(journal: &mut [u64]) -> u64 {
    // SAFETY: as the module says of every reference.
    unsafe { sys::bellmantle_journal_mark(journal.as_mut_ptr(), journal.len()) }
}

/// [`network_send`] with its record: the plain call's refusals, then 31, 32.
#[allow(clippy::too_many_arguments)]
pub fn journal_send(
    head: &mut [u64; HEAD_WORDS],
    records: &mut [u64; RECORDS_WORDS],
    now: u64,
    sort: u64,
    origin: u64,
    to: u64,
    kind: u64,
    handle: u64,
    draws: &[u64],
    extras: &[u64],
    journal: &mut [u64],
    told: &mut [u64; 4],
) -> u64 {
    // SAFETY: as the module says of every reference.
    unsafe {
        sys::bellmantle_journal_send(
            head,
            records,
            now,
            sort,
            origin,
            to,
            kind,
            handle,
            draws.as_ptr(),
            draws.len(),
            extras.as_ptr(),
            extras.len(),
            journal.as_mut_ptr(),
            journal.len(),
            told,
        )
    }
}

/// [`network_take_due`] with its record: the plain call's refusals, then 31, 32.
pub fn journal_take_due(
    head: &mut [u64; HEAD_WORDS],
    records: &mut [u64; RECORDS_WORDS],
    now: u64,
    out: &mut [u64],
    journal: &mut [u64],
    told: &mut [u64; 1],
) -> u64 {
    // SAFETY: as the module says of every reference.
    unsafe {
        sys::bellmantle_journal_take_due(
            head,
            records,
            now,
            out.as_mut_ptr(),
            out.len(),
            journal.as_mut_ptr(),
            journal.len(),
            told,
        )
    }
}

/// [`network_set_options`] with its record: the plain call's refusals, then 31, 32.
#[allow(clippy::too_many_arguments)]
pub fn journal_set_options(
    head: &mut [u64; HEAD_WORDS],
    records: &[u64; RECORDS_WORDS],
    loss: u64,
    replay: u64,
    min: u64,
    mean: u64,
    flag: u64,
    journal: &mut [u64],
) -> u64 {
    // SAFETY: as the module says of every reference.
    unsafe {
        sys::bellmantle_journal_set_options(
            head,
            records,
            loss,
            replay,
            min,
            mean,
            flag,
            journal.as_mut_ptr(),
            journal.len(),
        )
    }
}

/// Goes back over the last k calls held: 23, 31, 33, 31.
pub fn journal_rewind(
    head: &mut [u64; HEAD_WORDS],
    records: &mut [u64; RECORDS_WORDS],
    k: u64,
    journal: &mut [u64],
) -> u64 {
    // SAFETY: as the module says of every reference.
    unsafe { sys::bellmantle_journal_rewind(head, records, k, journal.as_mut_ptr(), journal.len()) }
}

// ---- Plants and core

/// Fresh plants: all n up. 40.
pub fn plants_new(n: u64, words: &mut [u64; PLANTS_WORDS]) -> u64 {
    // SAFETY: as the module says of every reference.
    unsafe { sys::bellmantle_plants_new(n, words) }
}

/// A fault at a tick: 5 for a fault over 5, then 40, 42, 41, 43, 44. A reboot uses the first draw, which is its nonce and is told;
/// for any other fault the nonce's word stays.
pub fn plants_apply(
    words: &mut [u64; PLANTS_WORDS],
    tick: u64,
    fault: u64,
    id: u64,
    draws: &[u64],
    nonce: &mut [u64; 1],
) -> u64 {
    // SAFETY: as the module says of every reference.
    unsafe {
        sys::bellmantle_plants_apply(words, tick, fault, id, draws.as_ptr(), draws.len(), nonce)
    }
}

/// What becomes of a message that is due: 24 for a sender's sort over 1, then 40, 42, 41. Told: 0 it is delivered, 1 the receiver
/// is down, 2 the receiver or a sending replica is partitioned.
pub fn plants_verdict(
    words: &[u64; PLANTS_WORDS],
    sort: u64,
    id: u64,
    to: u64,
    told: &mut [u64; 1],
) -> u64 {
    // SAFETY: as the module says of every reference.
    unsafe { sys::bellmantle_plants_verdict(words, sort, id, to, told) }
}

/// What becomes of the messages of a take, [`RECORD_WORDS`] words each as it gives them: 30 if there is not one for each word of `told`;
/// then, record by record, what [`plants_verdict`] answers, and the first refusal is the answer; then 40, 42 of the state, where there
/// is no record. Told: for each the number that [`plants_verdict`] tells.
pub fn plants_verdicts(words: &[u64; PLANTS_WORDS], records: &[u64], told: &mut [u64]) -> u64 {
    // SAFETY: as the module says of every reference.
    unsafe {
        sys::bellmantle_plants_verdicts(
            words,
            records.as_ptr(),
            records.len(),
            told.as_mut_ptr(),
            told.len(),
        )
    }
}

/// Chooses the core: 40, 42, 45, 48, 46, 47, 43. `recovering` has a flag for each plant; `full` asks for all plants, no for 0 and
/// yes otherwise.
pub fn plants_choose_core(
    words: &mut [u64; PLANTS_WORDS],
    recovering: &[u64],
    picks: &[u64],
    full: u64,
    told: &mut [u64; CORE_WORDS],
) -> u64 {
    // SAFETY: as the module says of every reference.
    unsafe {
        sys::bellmantle_plants_choose_core(
            words,
            recovering.as_ptr(),
            recovering.len(),
            picks.as_ptr(),
            picks.len(),
            full,
            told,
        )
    }
}

// ---- Properties

/// A fresh tracker: 40, 61.
pub fn properties_fresh(n: u64, tracker: &mut [u64]) -> u64 {
    // SAFETY: as the module says of every reference.
    unsafe { sys::bellmantle_properties_fresh(n, tracker.as_mut_ptr(), tracker.len()) }
}

/// A plant came back without its memory: 40, 41, 61.
pub fn properties_reboot(n: u64, id: u64, tracker: &mut [u64]) -> u64 {
    // SAFETY: as the module says of every reference.
    unsafe { sys::bellmantle_properties_reboot(n, id, tracker.as_mut_ptr(), tracker.len()) }
}

/// After a tick, properties 1, 3, 4 and 6: 40, 60, 61. The tracker is written on a pass alone.
pub fn properties_tick(
    n: u64,
    plants: &[u64],
    logs: &[u64],
    tracker: &mut [u64],
    told: &mut [u64; 4],
) -> u64 {
    // SAFETY: as the module says of every reference.
    unsafe {
        sys::bellmantle_properties_tick(
            n,
            plants.as_ptr(),
            plants.len(),
            logs.as_ptr(),
            logs.len(),
            tracker.as_mut_ptr(),
            tracker.len(),
            told,
        )
    }
}

/// At the end of a run, property 7 of the core plants, with a value for each plant: 40, 60, 61.
pub fn properties_end(
    n: u64,
    plants: &[u64],
    logs: &[u64],
    values: &[i64],
    core: &[u64],
    tracker: &[u64],
    told: &mut [u64; 4],
) -> u64 {
    // SAFETY: as the module says of every reference.
    unsafe {
        sys::bellmantle_properties_end(
            n,
            plants.as_ptr(),
            plants.len(),
            logs.as_ptr(),
            logs.len(),
            values.as_ptr(),
            values.len(),
            core.as_ptr(),
            core.len(),
            tracker.as_ptr(),
            tracker.len(),
            told,
        )
    }
}
