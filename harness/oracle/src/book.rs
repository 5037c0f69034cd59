//! 01's picker, read from its text alone, with what 02's order 2 adds to a
//! trial's answer, order 3 to the options and orders 6 and 7 to the tests of
//! marks, and for any family, as order 5 has it: the records, the refusals in
//! their orders, judging a trial, the book, a trial on any state, and the winner's
//! indices. Nothing here is taken from `ransac_fit`, so that each can be held to
//! the other.
//!
//! Marks are one flat list. A refusal is its number.

use crate::entries::{FEW, RECORD, ROOM, SHAPE, allowed, ratio_allowed, shaped, single};
use crate::family::{Family, Numbers};
use crate::records::{bits, put};
use crate::sheet::Sheet;
use crate::{Model, Trial};

/// Refusal 2 THRESH.
pub const THRESH: u32 = 2;
/// Refusal 3 CONFIDENCE.
pub const CONFIDENCE: u32 = 3;
/// Refusal 4 ITERS.
pub const ITERS: u32 = 4;
/// Refusal 8 STOPS.
pub const STOPS: u32 = 8;
/// Refusal 10 ENDED.
pub const ENDED: u32 = 10;
/// Refusal 11 NONE.
pub const NONE: u32 = 11;

/// The most trials that a run reads.
pub const MOST_ITERS: u32 = 100_000;

/// Bytes of the options, of the options without a ratio, and of a sheet's trial
/// and winner.
pub const OPTIONS_BYTES: usize = 40;
pub const SHORT_OPTIONS_BYTES: usize = 32;
pub const TRIAL_BYTES: usize = Sheet::TRIAL_BYTES;
pub const WINNER_BYTES: usize = 88;

/// Where a trial's fit begins, and among a state's words the winner's model.
pub const FIT_AT: usize = 8;
pub const MODEL_AT: usize = 15;

fn double_at(bytes: &[u8], at: usize) -> f64 {
    f64::from_le_bytes(bytes[at..at + 8].try_into().expect("eight bytes"))
}

fn whole_at(bytes: &[u8], at: usize) -> u32 {
    u32::from_le_bytes(bytes[at..at + 4].try_into().expect("four bytes"))
}

fn all_zero(bytes: &[u8]) -> bool {
    bytes.iter().all(|&byte| byte == 0)
}

// Options.

#[derive(Clone, Copy, Debug)]
pub struct Options {
    pub thresh: f64,
    pub confidence: f64,
    pub max_iters: u32,
    pub min_inliers: u32,
    pub refit: bool,
    pub ratio: f64,
}

impl Options {
    /// The defaults, with a threshold that nothing tests yet.
    pub fn new(thresh: f64) -> Self {
        Self {
            thresh,
            confidence: 0.99,
            max_iters: 1000,
            min_inliers: 12,
            refit: true,
            ratio: 1.0,
        }
    }

    /// 1: the length, the refit mark or the filler is wrong. A record without a
    /// ratio has 1.
    pub fn of_record(bytes: &[u8]) -> Result<Self, u32> {
        let ratio = match bytes.len() {
            SHORT_OPTIONS_BYTES => 1.0,
            OPTIONS_BYTES => double_at(bytes, 32),
            _ => return Err(RECORD),
        };
        if bytes[24] > 1 || !all_zero(&bytes[25..32]) {
            return Err(RECORD);
        }
        Ok(Self {
            thresh: double_at(bytes, 0),
            confidence: double_at(bytes, 8),
            max_iters: whole_at(bytes, 16),
            min_inliers: whole_at(bytes, 20),
            refit: bytes[24] == 1,
            ratio,
        })
    }

    /// The record with the ratio at its end.
    pub fn record(&self) -> [u8; OPTIONS_BYTES] {
        let mut bytes = [0; OPTIONS_BYTES];
        bytes[..8].copy_from_slice(&self.thresh.to_le_bytes());
        bytes[8..16].copy_from_slice(&self.confidence.to_le_bytes());
        bytes[16..20].copy_from_slice(&self.max_iters.to_le_bytes());
        bytes[20..24].copy_from_slice(&self.min_inliers.to_le_bytes());
        bytes[24] = self.refit.into();
        bytes[32..].copy_from_slice(&self.ratio.to_le_bytes());
        bytes
    }

    /// The record without a ratio, where that is 1.
    pub fn short_record(&self) -> Option<[u8; SHORT_OPTIONS_BYTES]> {
        let front = self.record().first_chunk().copied();
        front.filter(|_| self.ratio == 1.0)
    }

    /// 2, 3, 4, 16.
    pub fn tested(&self) -> Result<(), u32> {
        // Written so that a NaN is refused.
        if !(self.thresh > 0.0 && self.thresh < f64::INFINITY) {
            Err(THRESH)
        } else if !(self.confidence > 0.0 && self.confidence < 1.0) {
            Err(CONFIDENCE)
        } else if self.max_iters == 0 || self.max_iters > MOST_ITERS {
            Err(ITERS)
        } else {
            ratio_allowed(self.ratio)
        }
    }
}

// Trial records.

/// A model where its mark says so; unmarked it has to be zero bytes.
fn model_at<M: Numbers>(bytes: &[u8], at: usize, marked: bool) -> Result<Option<M>, u32> {
    let part = &bytes[at..at + 8 * M::COUNT];
    if !marked {
        return if all_zero(part) {
            Ok(None)
        } else {
            Err(RECORD)
        };
    }
    let model = M::from_fn(|k| double_at(part, 8 * k));
    match model.as_ref().iter().all(|h| h.is_finite()) {
        true => Ok(Some(model)),
        false => Err(RECORD),
    }
}

/// A trial of its bytes, or 1.
pub fn trial_of_record<F: Family>(bytes: &[u8]) -> Result<Trial<F::Model>, u32> {
    if bytes.len() != F::TRIAL_BYTES || bytes[0] > 1 || bytes[1] > bytes[0] {
        return Err(RECORD);
    }
    if !all_zero(&bytes[2..FIT_AT]) {
        return Err(RECORD);
    }
    Ok(Trial {
        fit: model_at(bytes, FIT_AT, bytes[0] == 1)?,
        refit: model_at(bytes, F::REFIT_AT, bytes[1] == 1)?,
    })
}

/// The record of any trial, one that would be refused too.
pub fn trial_record<M: Numbers>(trial: &Trial<M>) -> Vec<u8> {
    let part = 8 * M::COUNT;
    let mut bytes = vec![0; FIT_AT + 2 * part];
    for (place, model) in [trial.fit, trial.refit].into_iter().enumerate() {
        if let Some(model) = model {
            bytes[place] = 1;
            let eights = bytes[FIT_AT + place * part..].chunks_exact_mut(8);
            for (eight, h) in eights.zip(model.as_ref()) {
                eight.copy_from_slice(&h.to_le_bytes());
            }
        }
    }
    bytes
}

// Marks.

/// 5, 6, 7, 18; where a run has its n, the list's is the same.
fn marks_tested<F: Family>(marks: &[f64], n: Option<u64>) -> Result<&[F::Mark], u32> {
    let list = shaped::<F>(marks)?;
    if n.is_some_and(|n| n != list.len() as u64) {
        return Err(SHAPE);
    }
    allowed(marks)?;
    if list.len() < F::FEWEST {
        return Err(FEW);
    }
    single(list)?;
    Ok(list)
}

// Judging a trial.

/// What a call hands in, besides its state.
#[derive(Clone, Copy, Debug)]
pub struct Call<'a> {
    pub record: &'a [u8],
    pub marks: &'a [f64],
    pub stops: &'a [u32],
}

/// What the book is fed of an opening: by what the marks are measured, the
/// options, and how many marks there are.
#[derive(Clone, Copy, Debug)]
pub struct Fed<F> {
    pub family: F,
    pub options: Options,
    pub n: u64,
}

/// A scored trial: the standing model, and the stop list's entry for its count.
#[derive(Clone, Copy, Debug)]
pub struct Scored<M> {
    pub model: M,
    pub count: u32,
    pub rms: f64,
    pub stop: u32,
}

#[derive(Clone, Copy, Debug)]
pub enum Judged<M> {
    Refused(u32),
    Empty,
    Few(u32),
    Scored(Scored<M>),
}

/// How many marks are beyond under the fit, also where the refit stands; 0
/// without a fit.
fn beyond_under_fit<F: Family>(trial: &Trial<F::Model>, marks: &[F::Mark]) -> u32 {
    let mut count = 0;
    if let Some(fit) = &trial.fit {
        for mark in marks {
            if F::beyond(fit, mark) {
                count += 1;
            }
        }
    }
    count
}

/// How many marks lie within the threshold, and the rms of their distances.
fn score<F: Family>(fed: &Fed<F>, model: &F::Model, marks: &[F::Mark]) -> (u32, f64) {
    let Options { thresh, ratio, .. } = fed.options;
    let (mut count, mut sum) = (0, 0.0);
    for mark in marks {
        let d = fed.family.distance(model, mark, ratio);
        if d <= thresh {
            count += 1;
            sum += d * d;
        }
    }
    let rms = match count {
        0 => f64::INFINITY,
        _ => (sum / f64::from(count)).sqrt(),
    };
    (count, rms)
}

/// Refuses in the order 5, 6, 7, 18, 8, 1, or judges. With it, how many marks are
/// beyond under the fit; 0 where it refuses.
pub fn judge<F: Family>(fed: &Fed<F>, call: &Call) -> (Judged<F::Model>, u32) {
    match tested::<F>(fed.n, call) {
        Ok((trial, marks)) => {
            let judged = judged_trial(fed, &trial, marks, call.stops);
            (judged, beyond_under_fit::<F>(&trial, marks))
        }
        Err(number) => (Judged::Refused(number), 0),
    }
}

/// A trial, and marks.
type TrialAndMarks<'a, F> = (Trial<<F as Family>::Model>, &'a [<F as Family>::Mark]);

/// Those of a call that isn't refused.
fn tested<'a, F: Family>(n: u64, call: &Call<'a>) -> Result<TrialAndMarks<'a, F>, u32> {
    let marks = marks_tested::<F>(call.marks, Some(n))?;
    if call.stops.len() != marks.len() + 1 {
        return Err(STOPS);
    }
    Ok((trial_of_record::<F>(call.record)?, marks))
}

fn judged_trial<F: Family>(
    fed: &Fed<F>,
    trial: &Trial<F::Model>,
    marks: &[F::Mark],
    stops: &[u32],
) -> Judged<F::Model> {
    let options = &fed.options;
    let Some(fit) = trial.fit else {
        return Judged::Empty;
    };
    let of_fit = score(fed, &fit, marks);
    if of_fit.0 < options.min_inliers {
        return Judged::Few(of_fit.0);
    }
    let (mut model, mut standing) = (fit, of_fit);
    if let (true, Some(refit)) = (options.refit, trial.refit) {
        let of_refit = score(fed, &refit, marks);
        if of_refit.0 >= options.min_inliers {
            (model, standing) = (refit, of_refit);
        }
    }
    let (count, rms) = standing;
    let stop = stops[count as usize];
    Judged::Scored(Scored {
        model,
        count,
        rms,
        stop,
    })
}

// The book.

#[derive(Clone, Copy, Debug)]
pub struct Best<M = Model> {
    pub count: u32,
    pub number: u32,
    pub rms: f64,
    pub model: M,
}

#[derive(Clone, Copy, Debug)]
pub enum Outcome {
    Refused(u32),
    Empty,
    Few(u32),
    Held(u32, f64),
    Won(u32, f64),
}

/// A trial's answer, but for the state.
#[derive(Clone, Copy, Debug)]
pub struct Answer {
    pub outcome: Outcome,
    /// How many marks are beyond under the fit.
    pub beyond: u32,
}

#[derive(Clone, Copy, Debug)]
pub struct Book<M = Model> {
    pub read: u32,
    pub empty: u32,
    pub few: u32,
    pub scored: u32,
    pub bound: u32,
    pub winner: Option<Best<M>>,
}

impl<M: Numbers> Book<M> {
    pub fn opened(options: &Options) -> Self {
        Self {
            read: 0,
            empty: 0,
            few: 0,
            scored: 0,
            bound: options.max_iters,
            winner: None,
        }
    }

    pub fn ended(&self) -> bool {
        self.read >= self.bound
    }

    /// Books one call: 10 at the end, then what the trial is judged to be.
    pub fn call<F: Family<Model = M>>(&mut self, fed: &Fed<F>, call: &Call) -> Answer {
        if self.ended() {
            return Answer::refused(ENDED);
        }
        let (judged, beyond) = judge(fed, call);
        let outcome = self.booked(fed.options.max_iters, judged);
        Answer { outcome, beyond }
    }

    fn booked(&mut self, max_iters: u32, judged: Judged<M>) -> Outcome {
        if let Judged::Refused(number) = judged {
            return Outcome::Refused(number);
        }
        self.read += 1;
        match judged {
            Judged::Refused(number) => Outcome::Refused(number),
            Judged::Empty => {
                self.empty += 1;
                Outcome::Empty
            }
            Judged::Few(count) => {
                self.few += 1;
                Outcome::Few(count)
            }
            Judged::Scored(scored) => self.enter(max_iters, scored),
        }
    }

    /// A scored trial, already counted as read.
    fn enter(&mut self, max_iters: u32, scored: Scored<M>) -> Outcome {
        let Scored {
            model,
            count,
            rms,
            stop,
        } = scored;
        self.scored += 1;
        self.bound = match count {
            0 => max_iters,
            _ => stop.max(self.read).min(max_iters),
        };
        let wins = match &self.winner {
            None => true,
            Some(best) => count > best.count || (count == best.count && rms < best.rms),
        };
        if !wins {
            return Outcome::Held(count, rms);
        }
        self.winner = Some(Best {
            count,
            number: self.read,
            rms,
            model,
        });
        Outcome::Won(count, rms)
    }
}

// A run's state, hand-made ones too.

/// A state as flat words; the comparison's interface has it so.
pub type Words = Vec<u64>;

#[derive(Clone, Copy, Debug)]
pub struct State<F: Family = Sheet> {
    pub family: F,
    pub options: Options,
    pub n: u64,
    pub book: Book<F::Model>,
}

impl State {
    /// A sheet's opening from a record: 1, and the same as from the type.
    pub fn open_record(record: &[u8], marks: &[f64], stops: &[u32]) -> Result<Self, u32> {
        Self::open_records([record, &[]], marks, stops)
    }
}

impl<F: Family> State<F> {
    /// Opening from the types: 2 to 4, 16, 5, 6, 7, 18, 8, and 17 of a form's
    /// camera.
    pub fn open(family: F, options: Options, marks: &[f64], stops: &[u32]) -> Result<Self, u32> {
        options.tested()?;
        let n = marks_tested::<F>(marks, None)?.len();
        if stops.len() != n + 1 {
            return Err(STOPS);
        }
        family.tested()?;
        Ok(Self {
            family,
            options,
            n: n as u64,
            book: Book::opened(&options),
        })
    }

    /// Opening from records of the options and of the family's value: 1 of
    /// either, and the same.
    pub fn open_records(records: [&[u8]; 2], marks: &[f64], stops: &[u32]) -> Result<Self, u32> {
        let options = Options::of_record(records[0])?;
        let family = F::of_record(records[1])?;
        Self::open(family, options, marks, stops)
    }

    /// What the book is fed of it.
    pub fn fed(&self) -> Fed<F> {
        Fed {
            family: self.family,
            options: self.options,
            n: self.n,
        }
    }

    /// A trial on any state. The options are used as they are; refused, the
    /// state stays.
    pub fn trial(&mut self, call: &Call) -> Answer {
        let Book {
            read,
            empty,
            few,
            scored,
            ..
        } = self.book;
        if read >= MOST_ITERS || empty > read || few > read || scored > read {
            return Answer::refused(ENDED);
        }
        self.book.call(&self.fed(), call)
    }

    /// The winner's indices for a list with `room` places: 11, 5, 6, 7, 18, 9.
    pub fn winner_indices(&self, marks: &[f64], room: usize) -> Result<Vec<u32>, u32> {
        let winner = self.book.winner.ok_or(NONE)?;
        let marks = marks_tested::<F>(marks, Some(self.n))?;
        if room < marks.len() {
            return Err(ROOM);
        }
        let Options { thresh, ratio, .. } = self.options;
        let within = |mark: &F::Mark| self.family.distance(&winner.model, mark, ratio) <= thresh;
        let all = (0..).zip(marks);
        Ok(all
            .filter(|(_, mark)| within(mark))
            .map(|(i, _)| i)
            .collect())
    }

    /// Every NaN is written as one; without a winner its words are 0.
    pub fn words(&self) -> Words {
        let (options, book) = (&self.options, &self.book);
        let mut words = vec![0; F::WORDS];
        words[..2].copy_from_slice(&[bits(options.thresh), bits(options.confidence)]);
        words[2] = options.max_iters.into();
        words[3] = options.min_inliers.into();
        words[4] = options.refit.into();
        words[5] = self.n;
        let counts = [book.read, book.empty, book.few, book.scored, book.bound];
        for (word, count) in words[6..].iter_mut().zip(counts) {
            *word = count.into();
        }
        if let Some(best) = &book.winner {
            words[11] = 1;
            words[12..14].copy_from_slice(&[best.count.into(), best.number.into()]);
            words[14] = bits(best.rms);
            put(&mut words, MODEL_AT, best.model.as_ref());
        }
        words[F::RATIO_AT] = bits(options.ratio);
        put(&mut words, F::RATIO_AT + 1, self.family.numbers());
        words
    }

    /// The state of any words. Counts are taken modulo 2^32.
    pub fn of_words(words: &[u64]) -> Self {
        let count = |place: usize| words[place] as u32;
        let double = |place: usize| f64::from_bits(words[place]);
        let behind = words[F::RATIO_AT + 1..].iter();
        let numbers: Vec<f64> = behind.map(|&word| f64::from_bits(word)).collect();
        Self {
            family: F::of_numbers(&numbers),
            options: Options {
                thresh: double(0),
                confidence: double(1),
                max_iters: count(2),
                min_inliers: count(3),
                refit: words[4] == 1,
                ratio: double(F::RATIO_AT),
            },
            n: words[5],
            book: Book {
                read: count(6),
                empty: count(7),
                few: count(8),
                scored: count(9),
                bound: count(10),
                winner: (words[11] == 1).then(|| Best {
                    count: count(12),
                    number: count(13),
                    rms: double(14),
                    model: F::Model::from_fn(|k| double(MODEL_AT + k)),
                }),
            },
        }
    }
}

impl Answer {
    fn refused(number: u32) -> Self {
        Self {
            outcome: Outcome::Refused(number),
            beyond: 0,
        }
    }

    /// Which outcome, the refusal's number or the count, the rms's bits, and
    /// how many are beyond.
    pub fn words(&self) -> [u64; 4] {
        let [which, count, rms] = match self.outcome {
            Outcome::Refused(number) => [0, number.into(), 0],
            Outcome::Empty => [1, 0, 0],
            Outcome::Few(count) => [2, count.into(), 0],
            Outcome::Held(count, rms) => [3, count.into(), bits(rms)],
            Outcome::Won(count, rms) => [4, count.into(), bits(rms)],
        };
        [which, count, rms, self.beyond.into()]
    }

    /// The refusal's number, or 0.
    pub fn number(&self) -> u32 {
        self.outcome.number()
    }
}

impl Outcome {
    /// The refusal's number, or 0.
    pub fn number(&self) -> u32 {
        match self {
            Self::Refused(number) => *number,
            _ => 0,
        }
    }
}
