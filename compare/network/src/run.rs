//! A run of calls on one network, each with the answer, the told words, the output and the network that are expected after it. The
//! Rust is asked wherever it has an answer; the refusals are our rules alone (docs/RULES.md, "Refusal numbers"), tested here in
//! the rules' order. What the Rust has there stands at each.

use calls::case::{Call, Case, Row, Words};
use calls::nets::{case, head, outcomes, place, Options, Told, LOST, PATTERN, PENDING, SENT};
use oracle::network::{Judge, Letter, NetworkOptions, Record};

/// Records that fit, and messages that can be sent.
const CAPACITY: usize = 128;
pub const SENT_LIMIT: u64 = 1 << 62;

pub struct Run {
    judge: Judge,
    /// Our network's words: 1,024 of the records, pending, seq, the five counters, the options.
    pub network: Vec<u64>,
    /// Whether our network was made ill formed, which the Rust's never is.
    ill_formed: bool,
    /// Words put since the last call, and how many there were in all.
    put: Vec<Words>,
    pub puts: u64,
    pub cases: Vec<Case>,
}

/// A message to be sent, the words lent to the Rust for it, and how many draws and extras are to be lacking.
pub struct Sending {
    pub letter: Letter,
    pub words: [u64; 4],
    pub cut: [usize; 2],
}

/// What a send gives: the first refusal that it meets, and how many draws and extras it uses. The words lent to us are those
/// that the Rust drew, and as extras those that its due ticks show.
pub struct Sent {
    pub refusal: u64,
    pub draws: Vec<u64>,
    pub extras: Vec<u64>,
    pub after: Judge,
}

impl Run {
    pub fn new(options: Options) -> Run {
        let perfect = NetworkOptions::perfect();
        let refusal = bad(options);
        let judge = Judge::new(if refusal == 0 {
            options_of(options)
        } else {
            perfect
        });
        let mut run = Run {
            judge,
            network: Vec::new(),
            ill_formed: false,
            put: Vec::new(),
            puts: 0,
            cases: Vec::new(),
        };
        run.follow();
        let numbers = options.to_vec();
        if refusal == 0 {
            let made = case(Call::NetworkNew, &numbers, Ok(Told::Nothing)).meets("new");
            run.cases.push(run.left(unwritten(made)));
        } else {
            // The run goes on with the network of the perfect options.
            let refused = case(Call::NetworkNew, &numbers, Err(refusal));
            run.cases.push(unwritten(refused));
            run.put = vec![
                words(Row::Head, 0, &head(&run.network)),
                words(Row::Records, 0, &run.network[..PENDING]),
            ];
        }
        run
    }

    /// Our network is the Rust's.
    fn follow(&mut self) {
        let mut words: Vec<u64> = self.judge.records().concat();
        words.resize(8 * CAPACITY, 0);
        words.push(self.judge.pending() as u64);
        words.push(self.judge.seq());
        words.extend(self.judge.counters());
        words.extend(words_of(self.judge.options()));
        self.network = words;
    }

    /// A case that leaves our network as it is now.
    fn left(&self, case: Case) -> Case {
        let case = case.expects(Row::Head, 0, &head(&self.network));
        case.expects(Row::Records, 0, &self.network[..PENDING])
    }

    /// Adds a case on the network that was `before`.
    fn add(&mut self, case: Case, before: &[u64]) {
        let mut case = case;
        if case.answer == 0 {
            for outcome in outcomes(&case, before, &self.network) {
                case = case.meets(outcome);
            }
            case = self.left(case);
        }
        case.before.append(&mut self.put);
        self.cases.push(case);
    }

    pub fn pending_now(&self) -> usize {
        self.network[PENDING] as usize
    }

    pub fn options_now(&self) -> Options {
        words_of(self.judge.options())
    }

    pub fn set_options(&mut self, options: Options) {
        let mut refusal = bad(options);
        // 23 comes first. The Rust's set_options tests nothing; 20 to 22 are told by its validate.
        if self.ill_formed {
            refusal = 23;
        }
        let before = self.network.clone();
        if refusal == 0 {
            self.judge.set_options(options_of(options));
            self.follow();
        }
        let answer = told(refusal, Told::Nothing);
        self.add(case(Call::NetworkSetOptions, &options, answer), &before);
    }

    /// Sends, with `surplus` behind what is used of the draws and the extras.
    pub fn send(&mut self, sending: &Sending, surplus: &[u64]) {
        let Sent {
            refusal,
            mut draws,
            mut extras,
            after,
        } = sent(&self.judge, self.ill_formed, sending);
        let used = [draws.len() as u64, extras.len() as u64];
        for (list, cut) in [(&mut draws, sending.cut[0]), (&mut extras, sending.cut[1])] {
            lend(list, surplus, cut);
        }
        let letter = sending.letter;
        let before = self.network.clone();
        let (old, new) = (self.judge.counters(), after.counters());
        let fate = [
            new[2].wrapping_sub(old[2]),
            new[3].wrapping_sub(old[3]),
            used[0],
            used[1],
        ];
        if refusal == 0 {
            self.judge = after;
            self.follow();
        }
        let mut numbers = letter_words(letter).to_vec();
        numbers.extend([draws.len() as u64, extras.len() as u64]);
        let case = case(Call::NetworkSend, &numbers, told(refusal, Told::Sent(fate)));
        let case = case.put(Row::Draws, 0, &draws);
        self.add(case.put(Row::Extras, 0, &extras), &before);
    }

    pub fn take(&mut self, now: u64, room: usize) {
        let mut after = self.judge.copy();
        let taken = after.take(now);
        let refusal = self.listed(&taken, room);
        let before = self.network.clone();
        if refusal == 0 {
            self.judge = after;
            self.follow();
        }
        let answer = told(refusal, Told::Listed(taken.concat()));
        let numbers = [now, room as u64];
        self.add(case(Call::NetworkTakeDue, &numbers, answer), &before);
    }

    pub fn due(&self, now: u64) -> usize {
        self.judge.copy().take(now).len()
    }

    pub fn pending(&mut self) {
        // 23: as at a send.
        let refusal = if self.ill_formed { 23 } else { 0 };
        let answer = told(refusal, Told::Count(self.judge.pending() as u64));
        let mut case = case(Call::NetworkPending, &[], answer);
        if refusal == 0 {
            case = case.meets("pending");
        }
        self.add(case, &self.network.clone());
    }

    pub fn in_flight(&mut self, room: usize) {
        let records = self.judge.records();
        let refusal = self.listed(&records, room);
        let answer = told(refusal, Told::Listed(records.concat()));
        let mut case = case(Call::NetworkInFlight, &[room as u64], answer);
        if refusal == 0 {
            case = case.meets("in flight");
        }
        self.add(case, &self.network.clone());
    }

    /// The refusal of records into a room.
    fn listed(&self, records: &[Record], room: usize) -> u64 {
        if self.ill_formed {
            return 23;
        }
        // 30: the Rust hands out a list of its own.
        if room < 8 * records.len() {
            return 30;
        }
        0
    }

    /// A tick in one call: these messages one after the other, each as its send alone would be, and then a take. The draws and the
    /// extras stand behind each other, with `surplus` behind them; `over` words are added to the messages.
    pub fn tick(
        &mut self,
        sendings: &[Sending],
        over: usize,
        surplus: &[u64],
        now: u64,
        room: usize,
    ) {
        let mut sends: Vec<u64> = sendings
            .iter()
            .flat_map(|sending| letter_words(sending.letter))
            .collect();
        sends.extend(vec![7; over]);
        let (mut draws, mut extras) = (Vec::new(), Vec::new());
        let mut after = self.judge.copy();
        let mut refused = None;
        for (place, sending) in sendings.iter().enumerate() {
            let sent = sent(&after, self.ill_formed, sending);
            draws.extend(&sent.draws);
            extras.extend(&sent.extras);
            if sent.refusal != 0 {
                // What is lacking is lacking at the end of a list, which no later message reaches.
                draws.truncate(draws.len() - sending.cut[0].min(sent.draws.len()));
                extras.truncate(extras.len() - sending.cut[1].min(sent.extras.len()));
                refused = Some((sent.refusal, place));
                break;
            }
            after = sent.after;
        }
        let used = [draws.len() as u64, extras.len() as u64];
        let is_short = refused.is_some_and(|(number, _)| number == 26 || number == 27);
        if !is_short {
            draws.extend(surplus);
            extras.extend(surplus);
        }
        let taken = after.take(now);
        if self.ill_formed {
            refused = Some((23, 0));
        } else if over > 0 {
            refused = Some((24, sendings.len()));
        } else if refused.is_none() && self.listed(&taken, room) != 0 {
            refused = Some((30, sendings.len()));
        }
        let numbers = [
            sends.len() as u64,
            draws.len() as u64,
            extras.len() as u64,
            now,
            room as u64,
        ];
        let answer = refused.map_or(0, |(number, place)| number << 32 | place as u64);
        let mut case = Case::new(Call::NetworkTick, &numbers, answer)
            .filled(Row::Told3, PATTERN)
            .filled(Row::Out, PATTERN)
            .put(Row::Sends, 0, &sends)
            .put(Row::Draws, 0, &draws)
            .put(Row::Extras, 0, &extras);
        match refused {
            Some((number, _)) => case = case.meets(format!("tick: refusal {number}")),
            None => {
                self.judge = after;
                self.follow();
                let words = [used[0], used[1], taken.len() as u64];
                case = case.expects(Row::Told3, 0, &words).meets("tick");
                case = case.expects(Row::Out, 0, &taken.concat());
            }
        }
        self.add(case, &[]);
    }

    fn put(&mut self, at: usize, value: u64) {
        self.network[at] = value;
        self.puts += 1;
        let (row, at) = place(at);
        self.put.push(words(row, at, &[value]));
    }

    /// Makes our network ill formed by one word, and tells what stood there.
    pub fn spoil(&mut self, place: usize, value: u64) -> u64 {
        let old = self.network[place];
        self.ill_formed = true;
        self.put(place, value);
        old
    }

    /// Puts the word back.
    pub fn mend(&mut self, place: usize, old: u64) {
        self.ill_formed = false;
        self.put(place, old);
    }

    /// Counts other messages as sent and lost, on both sides, which keeps a network well formed.
    pub fn set_sent(&mut self, sent: u64) {
        let lost = self.network[LOST].wrapping_add(sent.wrapping_sub(self.network[SENT]));
        self.judge.set_sent_and_lost(sent, lost);
        self.put(SENT, sent);
        self.put(LOST, lost);
    }
}

/// A send on a network that the Rust has.
pub fn sent(judge: &Judge, ill_formed: bool, sending: &Sending) -> Sent {
    let letter = sending.letter;
    let mut after = judge.copy();
    let asked = Letter {
        kind: letter.kind.min(10),
        sort: letter.sort.min(1),
        ..letter
    };
    let used = after.send(asked, &sending.words);
    let options = words_of(judge.options());
    let min = options[2];
    let faulted = asked.kind != 0 || options[4] == 1;
    let dues = dues(&after, judge.seq());
    // The Rust's sums wrap in this build, so that the difference is the extra even past the last tick.
    let extras: Vec<u64> = if faulted && options[3] != min {
        dues.iter()
            .map(|due| due.wrapping_sub(letter.now).wrapping_sub(min))
            .collect()
    } else {
        Vec::new()
    };
    let late = faulted
        && (0..dues.len()).any(|place| {
            let extra = extras.get(place).copied().unwrap_or_default();
            u128::from(letter.now) + u128::from(min) + u128::from(extra) > u128::from(u64::MAX)
        });
    let draws = sending.words[..used - extras.len()].to_vec();
    // 24: the Rust has no such kind or sort.
    let known = letter.kind <= 10 && letter.sort <= 1;
    let refusal = if ill_formed {
        // 23: the Rust's network is never ill formed.
        23
    } else if !known {
        24
    } else if judge.counters()[0] == SENT_LIMIT {
        // 25: the Rust counts on.
        25
    } else if !draws.is_empty() && sending.cut[0] > 0 {
        // 26 and 27: the Rust's generator never ends.
        26
    } else if !extras.is_empty() && sending.cut[1] > 0 {
        27
    } else if late {
        // 28: the Rust's sum overflows.
        28
    } else if after.pending() > CAPACITY {
        // 29: the Rust's queue grows on.
        29
    } else {
        0
    };
    Sent {
        refusal,
        draws,
        extras,
        after,
    }
}

/// A case before which head and records are filled with a pattern.
fn unwritten(case: Case) -> Case {
    case.filled(Row::Head, PATTERN)
        .filled(Row::Records, PATTERN)
}

fn words(row: Row, at: usize, words: &[u64]) -> Words {
    Words {
        row,
        at,
        words: words.to_vec(),
    }
}

fn told(refusal: u64, told: Told) -> Result<Told, u64> {
    match refusal {
        0 => Ok(told),
        number => Err(number),
    }
}

fn letter_words(letter: Letter) -> [u64; 6] {
    [
        letter.now,
        letter.sort,
        letter.origin,
        letter.to,
        letter.kind,
        letter.handle,
    ]
}

/// What is lent of a list of words that are used: with the surplus behind them, at most four; or, where words are cut, too few.
pub fn lend(list: &mut Vec<u64>, surplus: &[u64], cut: usize) {
    let used = list.len();
    list.extend(surplus);
    list.truncate((used + surplus.len()).min(4));
    if used > 0 && cut > 0 {
        list.truncate(used.saturating_sub(cut));
    }
}

/// The due ticks of the copies with higher numbers, in the order of these.
pub fn dues(after: &Judge, seq: u64) -> Vec<u64> {
    let mut records = after.records();
    records.retain(|record| record[1] > seq);
    records.sort_by_key(|record| record[1]);
    records.iter().map(|record| record[0]).collect()
}

pub fn options_of(options: Options) -> NetworkOptions {
    NetworkOptions {
        packet_loss_probability: f64::from_bits(options[0]),
        packet_replay_probability: f64::from_bits(options[1]),
        one_way_delay_min: options[2],
        one_way_delay_mean: options[3],
        // The Rust has a yes or no; ours takes any number but 0 for a yes.
        fault_client_messages: options[4] != 0,
    }
}

fn words_of(options: &NetworkOptions) -> Options {
    [
        options.packet_loss_probability.to_bits(),
        options.packet_replay_probability.to_bits(),
        options.one_way_delay_min,
        options.one_way_delay_mean,
        u64::from(options.fault_client_messages),
    ]
}

/// The refusal of options, by what the Rust's validate says.
pub fn bad(options: Options) -> u64 {
    match options_of(options).validate() {
        Ok(()) => 0,
        Err(error) => match error.to_string() {
            text if text.starts_with("packet_loss_probability") => 20,
            text if text.starts_with("packet_replay_probability") => 21,
            _ => 22,
        },
    }
}
