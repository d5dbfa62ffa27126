//! The C functions over record and tables that are altered at random: every call answers, inside what it was lent, and a
//! refused one changes nothing (document 01: "Given others, a call still answers, or refuses as 16").

use crate::chance::Chance;
use crate::datagrams::any_datagram;
use crate::stores::{went, Stores};
use std::time::{Duration, Instant};

/// Calls between two fresh set-ups.
const ROUND: u64 = 400;

/// The two calls that only read: the listing, and the question for the first open minute.
const LIST: usize = 4;
const FIRST_OPEN: usize = 5;

/// Calls at least; the time it may take at most.
pub const CALLS: u64 = 1_200_000;
const LIMIT: Duration = Duration::from_secs(30);

#[derive(Default)]
struct Counts {
    answered: u64,
    refused: [u64; 21],
}

impl Counts {
    fn add(&mut self, answer: u64) -> Result<(), String> {
        match (answer % 256) as usize {
            0 => self.answered += 1,
            number @ (1..=16 | 19 | 20) => self.refused[number] += 1,
            number => return Err(format!("there is no refusal {number}")),
        }
        Ok(())
    }

    fn calls(&self) -> u64 {
        self.answered + self.refused.iter().sum::<u64>()
    }

    fn shown(&self) -> String {
        let numbers = (1..21).filter(|number| self.refused[*number] > 0);
        let refused: Vec<String> = numbers.map(|number| format!("{number}: {}", self.refused[number])).collect();
        format!("{} calls, {} answered; refused {}", self.calls(), self.answered, refused.join(", "))
    }
}

/// Runs the calls; what to print, or what didn't hold.
pub fn run(seed: u64) -> Result<String, String> {
    let start = Instant::now();
    let mut chance = Chance::new(seed);
    let mut stores = Stores::new();
    let mut counts = Counts::default();
    let mut checked = 0;
    while counts.calls() < CALLS {
        if start.elapsed() > LIMIT {
            return Err(format!("only {} calls in {} s", counts.calls(), LIMIT.as_secs()));
        }
        checked += round(&mut chance, &mut stores, &mut counts)?;
    }
    if counts.answered < CALLS / 5 {
        return Err(format!("too few calls were answered: {}", counts.shown()));
    }
    if stores.listed < CALLS / 200 {
        return Err(format!("the listings had only {} objects", stores.listed));
    }
    if stores.inside < CALLS / 1000 {
        return Err(format!("only {} calls came from rebuilt submessages", stores.inside));
    }
    if stores.topics < CALLS / 1000 {
        return Err(format!("only {} calls were for a Topic", stores.topics));
    }
    if stores.writes < CALLS / 500 || stores.questions < CALLS / 100 {
        return Err(format!("only {} writes and {} questions for minutes", stores.writes, stores.questions));
    }
    Ok(format!(
        "{}; {checked} compared whole, {} objects in listings, {} calls of rebuilt submessages, {} for a Topic, {} writes by \
         their minute, {} first open minutes, {} ms",
        counts.shown(),
        stores.listed,
        stores.inside,
        stores.topics,
        stores.writes,
        stores.questions,
        start.elapsed().as_millis()
    ))
}

// One set-up and the calls on it. How often something is altered differs from round to round.
fn round(chance: &mut Chance, stores: &mut Stores, counts: &mut Counts) -> Result<u64, String> {
    stores.turn(chance);
    counts.add(stores.setup(chance)?)?;
    let rate = chance.of(&[2, 8, 32, 200, 4000]);
    let mut checked = 0;
    for _ in 0..ROUND {
        let spoilt = chance.once_in(rate);
        let kept = spoilt.then(|| stores.alter(chance));
        let whole = chance.once_in(64);
        checked += u64::from(whole);
        counts.add(call(chance, stores, whole)?)?;
        // Most altered records are put right again, or all that follows would be refused.
        if let Some(record) = kept.filter(|_| !chance.once_in(4)) {
            stores.restore(record);
        }
    }
    Ok(checked)
}

fn call(chance: &mut Chance, stores: &mut Stores, whole: bool) -> Result<u64, String> {
    let before = whole.then(|| stores.copy());
    let which = chance.below(40);
    let answer = match which {
        0 => stores.sweep(chance)?,
        1 => stores.remove(chance),
        2 => xrce_agent::lent::need(chance.extreme()),
        3 if whole => stores.setup(chance)?,
        LIST => stores.list(chance)?,
        FIRST_OPEN => stores.first_open(chance)?,
        _ => {
            let datagram = any_datagram(chance, &[1, 2, 3, 255]);
            stores.process(chance, &datagram)?
        }
    };
    match before {
        Some(before) if which > FIRST_OPEN && went(answer) && !stores.others_kept(&before) => {
            Err("a datagram or an answer changed held messages or fragments of another session, or the week's minutes"
                .into())
        }
        Some(before) if (which == LIST || which == FIRST_OPEN || !went(answer)) && !stores.equals(&before) => Err(
            format!("a call that only reads, or one refused as {}, changed its record, tables or stores", answer % 256),
        ),
        _ => Ok(answer),
    }
}
