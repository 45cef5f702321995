//! The functions that the proved library exports, as include/bellmantle.h has them. Pointers of fixed length are of arrays
//! of that length; the others stand before their length in elements.

extern "C" {
    pub fn bellmantle_parse_script(
        text: *const u8,
        text_len: usize,
        events: *mut u64,
        events_len: usize,
    ) -> u64;

    pub fn bellmantle_network_new(
        head: *mut [u64; 12],
        records: *mut [u64; 1024],
        loss: u64,
        replay: u64,
        min: u64,
        mean: u64,
        flag: u64,
    ) -> u64;

    pub fn bellmantle_network_set_options(
        head: *mut [u64; 12],
        records: *const [u64; 1024],
        loss: u64,
        replay: u64,
        min: u64,
        mean: u64,
        flag: u64,
    ) -> u64;

    pub fn bellmantle_network_send(
        head: *mut [u64; 12],
        records: *mut [u64; 1024],
        now: u64,
        sort: u64,
        origin: u64,
        to: u64,
        kind: u64,
        handle: u64,
        draws: *const u64,
        draws_len: usize,
        extras: *const u64,
        extras_len: usize,
        told: *mut [u64; 4],
    ) -> u64;

    pub fn bellmantle_fate(
        loss: u64,
        replay: u64,
        min: u64,
        mean: u64,
        flag: u64,
        now: u64,
        kind: u64,
        draws: *const u64,
        draws_len: usize,
        extras: *const u64,
        extras_len: usize,
        told: *mut [u64; 6],
    ) -> u64;

    pub fn bellmantle_network_take_due(
        head: *mut [u64; 12],
        records: *mut [u64; 1024],
        now: u64,
        out: *mut u64,
        out_len: usize,
        told: *mut [u64; 1],
    ) -> u64;

    pub fn bellmantle_network_pending(
        head: *const [u64; 12],
        records: *const [u64; 1024],
        told: *mut [u64; 1],
    ) -> u64;

    pub fn bellmantle_network_in_flight(
        head: *const [u64; 12],
        records: *const [u64; 1024],
        out: *mut u64,
        out_len: usize,
        told: *mut [u64; 1],
    ) -> u64;

    pub fn bellmantle_network_tick(
        head: *mut [u64; 12],
        records: *mut [u64; 1024],
        sends: *const u64,
        sends_len: usize,
        draws: *const u64,
        draws_len: usize,
        extras: *const u64,
        extras_len: usize,
        now: u64,
        out: *mut u64,
        out_len: usize,
        told: *mut [u64; 3],
    ) -> u64;

    pub fn bellmantle_journal_mark(journal: *mut u64, journal_len: usize) -> u64;

    pub fn bellmantle_journal_send(
        head: *mut [u64; 12],
        records: *mut [u64; 1024],
        now: u64,
        sort: u64,
        origin: u64,
        to: u64,
        kind: u64,
        handle: u64,
        draws: *const u64,
        draws_len: usize,
        extras: *const u64,
        extras_len: usize,
        journal: *mut u64,
        journal_len: usize,
        told: *mut [u64; 4],
    ) -> u64;

    pub fn bellmantle_journal_take_due(
        head: *mut [u64; 12],
        records: *mut [u64; 1024],
        now: u64,
        out: *mut u64,
        out_len: usize,
        journal: *mut u64,
        journal_len: usize,
        told: *mut [u64; 1],
    ) -> u64;

    pub fn bellmantle_journal_set_options(
        head: *mut [u64; 12],
        records: *const [u64; 1024],
        loss: u64,
        replay: u64,
        min: u64,
        mean: u64,
        flag: u64,
        journal: *mut u64,
        journal_len: usize,
    ) -> u64;

    pub fn bellmantle_journal_rewind(
        head: *mut [u64; 12],
        records: *mut [u64; 1024],
        k: u64,
        journal: *mut u64,
        journal_len: usize,
    ) -> u64;

    pub fn bellmantle_plants_new(n: u64, words: *mut [u64; 49]) -> u64;

    pub fn bellmantle_plants_apply(
        words: *mut [u64; 49],
        tick: u64,
        fault: u64,
        id: u64,
        draws: *const u64,
        draws_len: usize,
        nonce: *mut [u64; 1],
    ) -> u64;

    pub fn bellmantle_plants_verdict(
        words: *const [u64; 49],
        sort: u64,
        id: u64,
        to: u64,
        told: *mut [u64; 1],
    ) -> u64;

    pub fn bellmantle_plants_verdicts(
        words: *const [u64; 49],
        records: *const u64,
        records_len: usize,
        told: *mut u64,
        told_len: usize,
    ) -> u64;

    pub fn bellmantle_plants_choose_core(
        words: *mut [u64; 49],
        recovering: *const u64,
        recovering_len: usize,
        picks: *const u64,
        picks_len: usize,
        full: u64,
        told: *mut [u64; 17],
    ) -> u64;

    pub fn bellmantle_properties_fresh(n: u64, tracker: *mut u64, tracker_len: usize) -> u64;

    pub fn bellmantle_properties_reboot(
        n: u64,
        id: u64,
        tracker: *mut u64,
        tracker_len: usize,
    ) -> u64;

    pub fn bellmantle_properties_tick(
        n: u64,
        plants: *const u64,
        plants_len: usize,
        logs: *const u64,
        logs_len: usize,
        tracker: *mut u64,
        tracker_len: usize,
        told: *mut [u64; 4],
    ) -> u64;

    pub fn bellmantle_properties_end(
        n: u64,
        plants: *const u64,
        plants_len: usize,
        logs: *const u64,
        logs_len: usize,
        values: *const i64,
        values_len: usize,
        core: *const u64,
        core_len: usize,
        tracker: *const u64,
        tracker_len: usize,
        told: *mut [u64; 4],
    ) -> u64;
}
