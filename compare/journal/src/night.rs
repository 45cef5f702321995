//! A night: a run of journaled calls on one network with one journal, each with the answer, the told words, the
//! output, the network and the journal that are expected after it. The network is what the standing calls say
//! (standing.rs). Once words were put that no call wrote, and that are not put back, nothing can be said by standing
//! calls, and the network is carried on (plain.rs). Refusals and the journal's words are expected by the rules
//! (docs/RULES.md), tested in their order.

use crate::fate::{fate, refused_options, Fate, Letter};
use crate::plain::{Network, Record, CAPACITY, SENT_LIMIT};
use crate::standing::{self, Call};
use crate::words;
use calls::case::{self, Case, Row, Words};
use calls::nets::{case, head, outcomes, place, Options, Told, FLAG, LOSS, PATTERN, PENDING};

/// Zeros and false.
const PERFECT: Options = [0; 5];

pub struct Night {
    first: Options,
    /// The calls that stand, and how many words the record of each has.
    standing: Vec<(Call, usize)>,
    /// Whether words were put for good.
    is_forged: bool,
    /// Which of the journal's words were put since a call wrote them.
    is_put: Vec<bool>,
    /// Rewinds that were done and went over a word that was put.
    pub over_put: u64,
    /// Calls and words put of which the standing calls say what the network is then.
    pub told: u64,
    /// The words of the network, in the places of `calls::nets`, and of the journal.
    pub network: Vec<u64>,
    pub journal: Vec<u64>,
    /// The number of the last refusal.
    pub refusal: u64,
    /// Words put since the last call, and how many there were in all, into the network and into the journal.
    put: Vec<Words>,
    pub puts: [u64; 2],
    pub cases: Vec<Case>,
}

impl Night {
    /// Begins with a fresh network of these options, or of the perfect ones if they are bad, and a journal of so many
    /// words.
    pub fn begin(options: Options, length: usize) -> Night {
        let tested = refused_options(options);
        let first = if tested.is_ok() { options } else { PERFECT };
        let mut night = Night {
            first,
            standing: Vec::new(),
            is_forged: false,
            is_put: vec![false; length],
            over_put: 0,
            told: 0,
            network: standing::network(first, &[]).words(),
            journal: vec![PATTERN; length],
            refusal: 0,
            put: Vec::new(),
            puts: [0, 0],
            cases: Vec::new(),
        };
        night.fresh(options, tested);
        night
    }

    /// The call that makes the network, before which every row is filled with a pattern.
    fn fresh(&mut self, options: Options, tested: Result<(), u64>) {
        let mut made = case(
            case::Call::NetworkNew,
            &options,
            tested.map(|()| Told::Nothing),
        );
        for row in [Row::Head, Row::Records, Row::Journal] {
            made = made.filled(row, PATTERN);
        }
        if tested.is_ok() {
            made = self.left(made.meets("begun"));
        } else {
            self.put = vec![
                words_of(Row::Head, 0, &head(&self.network)),
                words_of(Row::Records, 0, &self.network[..PENDING]),
            ];
        }
        self.told += 1;
        self.refusal = made.answer;
        self.cases.push(made);
    }

    /// A case that leaves the network as it is now.
    fn left(&self, case: Case) -> Case {
        let case = case.expects(Row::Head, 0, &head(&self.network));
        case.expects(Row::Records, 0, &self.network[..PENDING])
    }

    /// Adds a call, with its refusal or what it tells, on the network that was `before`.
    fn add(&mut self, case: Case, before: &[u64]) {
        let mut case = case;
        self.told += u64::from(!self.is_forged);
        self.refusal = case.answer;
        if case.answer == 0 {
            for outcome in outcomes(&case, before, &self.network) {
                case = case.meets(outcome);
            }
            case = self.left(case).expects(Row::Journal, 0, &self.journal);
        }
        case.before.append(&mut self.put);
        self.cases.push(case);
    }

    /// How many words of the journal are lent.
    fn lent(&self) -> u64 {
        self.journal.len() as u64
    }

    /// How many calls there were, and words put.
    pub fn steps(&self) -> usize {
        self.cases.len() + (self.puts[0] + self.puts[1]) as usize
    }

    /// How many calls the journal holds, as its word 0 says.
    pub fn held(&self) -> u64 {
        self.journal.first().copied().unwrap_or(0)
    }

    pub fn options(&self) -> Options {
        let words = &self.network[LOSS..];
        words.try_into().expect("five words")
    }

    /// The network, or 23.
    fn tested(&self) -> Result<Network, u64> {
        Network::read(&self.network).ok_or(23)
    }

    /// What the network is by the calls that stand.
    fn stood(&self) -> Network {
        let calls: Vec<Call> = self.standing.iter().map(|(call, _)| call.clone()).collect();
        standing::network(self.first, &calls)
    }

    /// The network after a call, which the rules carry on to this one.
    fn follow(&mut self, carried: Network) {
        if self.is_forged {
            self.network = carried.words();
            return;
        }
        let stood = self.stood();
        assert_eq!(stood, carried, "the two evaluations differ");
        self.network = stood.words();
    }

    /// A call is done: it stands and is journaled.
    fn accept(&mut self, call: Call, record: &[u64], carried: Network) {
        let used = self.journal[1] as usize;
        self.is_put[used..used + record.len()].fill(false);
        words::append(&mut self.journal, record);
        self.standing.push((call, record.len()));
        self.follow(carried);
    }

    // ---- The calls

    pub fn mark(&mut self) {
        let mut marked = case(case::Call::JournalMark, &[self.lent()], Ok(Told::Nothing));
        if self.journal.len() < 2 {
            marked = case(case::Call::JournalMark, &[self.lent()], Err(32));
        } else {
            self.journal[0] = 0;
            self.journal[1] = 2;
            marked = marked.meets("marked");
        }
        self.add(marked, &[]);
    }

    pub fn set_options(&mut self, options: Options) {
        let before = self.network.clone();
        let answer = self.try_options(options).map(|()| Told::Nothing);
        let mut numbers = options.to_vec();
        numbers.push(self.lent());
        let case = case(case::Call::JournalSetOptions, &numbers, answer);
        self.add(case, &before);
    }

    fn try_options(&mut self, options: Options) -> Result<(), u64> {
        let before = self.tested()?;
        refused_options(options)?;
        words::room_for(&self.journal, words::OPTIONS_WORDS)?;
        let record = words::of_options(&before);
        self.accept(Call::Choose(options), &record, before.choosing(options));
        Ok(())
    }

    pub fn send(&mut self, letter: Letter, draws: Vec<u64>, extras: Vec<u64>) {
        let before = self.network.clone();
        let answer = self.try_send(letter, draws.clone(), extras.clone());
        let mut numbers = vec![letter.now, letter.sort, letter.origin];
        numbers.extend([letter.to, letter.kind, letter.handle]);
        numbers.extend([draws.len() as u64, extras.len() as u64, self.lent()]);
        let case = case(case::Call::JournalSend, &numbers, answer.map(Told::Sent))
            .put(Row::Draws, 0, &draws)
            .put(Row::Extras, 0, &extras);
        self.add(case, &before);
    }

    fn try_send(
        &mut self,
        letter: Letter,
        draws: Vec<u64>,
        extras: Vec<u64>,
    ) -> Result<[u64; 4], u64> {
        let before = self.tested()?;
        let fate = decided(&before, &letter, &draws, &extras)?;
        words::room_for(&self.journal, words::SEND_WORDS)?;
        let record = words::of_send(&before);
        let carried = before.sending(&letter, &fate);
        let call = Call::Send {
            letter,
            draws,
            extras,
        };
        self.accept(call, &record, carried);
        Ok([
            u64::from(fate.is_lost()),
            u64::from(fate.is_replayed()),
            fate.draws as u64,
            fate.extras as u64,
        ])
    }

    pub fn take(&mut self, now: u64, room: usize) {
        let before = self.network.clone();
        let answer = self.try_take(now, room);
        let answer = answer.map(|taken| Told::Listed(taken.concat()));
        let numbers = [now, room as u64, self.lent()];
        self.add(case(case::Call::JournalTakeDue, &numbers, answer), &before);
    }

    fn try_take(&mut self, now: u64, room: usize) -> Result<Vec<Record>, u64> {
        let before = self.tested()?;
        let taken = before.due(now);
        if room < 8 * taken.len() {
            return Err(30);
        }
        let record = words::of_take(&taken);
        words::room_for(&self.journal, record.len())?;
        self.accept(Call::Take(now), &record, before.taking(now));
        Ok(taken)
    }

    /// How many records a take at this tick would find.
    pub fn due(&self, now: u64) -> usize {
        self.tested().map_or(0, |network| network.due(now).len())
    }

    pub fn rewind(&mut self, k: u64) {
        let before = self.network.clone();
        let answer = self.try_rewind(k).map(|()| Told::Nothing);
        let is_done = answer.is_ok();
        let mut case = case(case::Call::JournalRewind, &[k, self.lent()], answer);
        if is_done {
            case = self.rewound(case, k, &before);
        } else if case.answer == 31 && self.puts[1] > 0 {
            case = case.meets("forged refused");
        }
        self.add(case, &before);
    }

    /// What a rewind that is done is counted as.
    fn rewound(&self, case: Case, k: u64, before: &[u64]) -> Case {
        const DELIVERED: usize = PENDING + 3;
        let mut case = case.meets(match k {
            0 => "rewound 0",
            1 => "rewound 1",
            _ => "rewound more",
        });
        if self.network[DELIVERED] < before[DELIVERED] {
            case = case.meets("rewound over a take");
        }
        if self.network[LOSS..=FLAG] != before[LOSS..=FLAG] {
            case = case.meets("rewound over options");
        }
        if self.puts[1] > 0 && k != 0 {
            case = case.meets("forged rewound");
        }
        case
    }

    fn try_rewind(&mut self, k: u64) -> Result<(), u64> {
        let network = self.tested()?;
        if !words::has_good_header(&self.journal) {
            return Err(31);
        }
        if k > self.held() {
            return Err(33);
        }
        let undone = words::undone(&network, &self.journal, k);
        if !self.is_forged {
            let expected = self.strike_out(k as usize);
            assert_eq!(undone.as_ref().map(|(_, start)| *start), Some(expected));
        }
        let (before, start) = undone.ok_or(31u64)?;
        let put = &self.is_put[start as usize..self.journal[1] as usize];
        self.over_put += u64::from(put.contains(&true));
        self.journal[0] -= k;
        self.journal[1] = start;
        self.follow(before);
        Ok(())
    }

    /// The last k standing calls are struck out; where their records start.
    fn strike_out(&mut self, k: usize) -> u64 {
        let struck = self.standing.split_off(self.standing.len() - k);
        let words: usize = struck.iter().map(|(_, words)| words).sum();
        self.journal[1] - words as u64
    }

    // ---- Words that no call wrote

    fn put_word(&mut self, at: usize, value: u64) {
        self.network[at] = value;
        let (row, at) = place(at);
        self.put_into(0, words_of(row, at, &[value]));
    }

    fn put_into(&mut self, which: usize, words: Words) {
        self.put.push(words);
        self.puts[which] += 1;
        self.told += u64::from(!self.is_forged);
        self.refusal = 0;
    }

    /// Sets a word of the network for good.
    pub fn put(&mut self, place: usize, value: u64) {
        self.is_forged = true;
        self.put_word(place, value);
    }

    /// Sets a word of the network so that it is ill formed, and tells what stood there.
    pub fn spoil(&mut self, place: usize, value: u64) -> u64 {
        let old = self.network[place];
        self.put_word(place, value);
        assert_eq!(self.tested(), Err(23));
        old
    }

    /// Puts the word back.
    pub fn mend(&mut self, place: usize, old: u64) {
        self.put_word(place, old);
        assert!(self.is_forged || self.network == self.stood().words());
    }

    /// Sets a word of the journal for good.
    pub fn forge(&mut self, place: usize, value: u64) {
        self.is_forged = true;
        self.journal[place] = value;
        self.is_put[place] = true;
        self.put_into(1, words_of(Row::Journal, place, &[value]));
    }
}

fn words_of(row: Row, at: usize, words: &[u64]) -> Words {
    Words {
        row,
        at,
        words: words.to_vec(),
    }
}

/// The fate of a message on a well formed network, or the first of 24 to 29 that it meets.
fn decided(network: &Network, letter: &Letter, draws: &[u64], extras: &[u64]) -> Result<Fate, u64> {
    if letter.kind > 10 || letter.sort > 1 {
        return Err(24);
    }
    if network.sent >= SENT_LIMIT {
        return Err(25);
    }
    let fate = fate(network.options, letter, draws, extras)?;
    if network.pending.len() + fate.dues.len() > CAPACITY {
        return Err(29);
    }
    Ok(fate)
}
