//! A search for mismatches: the cases shared out to threads, the least failing one kept.

use crate::open::cases::Kind;
use crate::original::Verdict;
use crate::report::{Cases, Found, Report};
#[cfg(test)]
use std::collections::BTreeMap;
use std::fmt::{Display, LowerHex};
use std::thread;

const THREADS: u64 = 2;

/// The mismatches seen so far, and the least of them by the bytes lent, then by its number.
#[derive(Default)]
pub(crate) struct Search {
    pub(crate) cases: Cases,
    pub(crate) mismatches: u64,
    least: Option<(usize, u64, String)>,
}

impl Search {
    /// One more case, with the verdict on it.
    pub(crate) fn note(&mut self, size: usize, number: u64, verdict: Verdict) {
        self.cases.note(&verdict);
        if let Some(what) = verdict.wrong {
            self.mismatches += 1;
            self.least = self
                .least
                .take()
                .into_iter()
                .chain([(size, number, what)])
                .min();
        }
    }

    /// Something besides is wrong, about a case that is noted already or about none: told before all others.
    pub(crate) fn note_first(&mut self, number: u64, what: String) {
        self.mismatches += 1;
        self.least = Some((0, number, what));
    }

    fn and(self, other: Self) -> Self {
        Self {
            cases: self.cases.and(other.cases),
            mismatches: self.mismatches + other.mismatches,
            least: self.least.into_iter().chain(other.least).min(),
        }
    }

    pub(crate) fn found(self) -> Found {
        Found {
            cases: self.cases,
            mismatches: self.mismatches,
            smallest: self.least.map(|(_, _, what)| what),
        }
    }
}

/// Shares out the numbers below `cases`; `visit` looks at each, on a desk that each thread has to itself.
pub(crate) fn shared<Desk>(
    cases: u64,
    desk: fn() -> Desk,
    visit: impl Fn(&mut Search, &mut Desk, u64) + Sync,
) -> Search {
    let visit = &visit;
    let share = move |start| {
        let (mut desk, mut search) = (desk(), Search::default());
        for number in (start..cases).step_by(THREADS as usize) {
            visit(&mut search, &mut desk, number);
        }
        search
    };
    thread::scope(|scope| {
        let shares: Vec<_> = (0..THREADS)
            .map(|start| scope.spawn(move || share(start)))
            .collect();
        let searches = shares
            .into_iter()
            .map(|share| share.join().expect("no panic"));
        searches.fold(Search::default(), Search::and)
    })
}

/// The buffers of one call, and what they shall hold after it.
pub(crate) trait Desk {
    type Case;
    /// An implementation of the call.
    type Call: Copy + Sync;
    type Answer: PartialEq + Display;

    fn new() -> Self;

    /// Makes the call of a case and says what differs from the rule, if anything does.
    fn differs(&mut self, call: Self::Call, case: &Self::Case) -> Option<String>;

    /// The rule's answer to the case that was made last, held to the original where it is asked.
    fn beside_original(&self, _: &Self::Case) -> Verdict {
        Verdict::default()
    }

    /// The rule's answer to the case that was made last.
    fn want(&self) -> Self::Answer;

    /// The bytes that a case lends.
    fn size(case: &Self::Case) -> usize;

    fn described(case: &Self::Case) -> String;
}

/// A case by its name, with its answer where 01 or arithmetic gives it.
pub(crate) type Fixed<D> = (&'static str, <D as Desk>::Case, Option<<D as Desk>::Answer>);

/// Makes the call of a case and notes what it finds.
fn visit<D: Desk>(
    search: &mut Search,
    desk: &mut D,
    call: D::Call,
    (name, number): (&str, u64),
    case: &D::Case,
) {
    let told = |what| format!("{name}, case {number}: {}: {what}", D::described(case));
    let verdict = Verdict::by_rule(desk.differs(call, case));
    let verdict = verdict.and(|| {
        let answer = |what| format!("answer {}, {what}", desk.want());
        desk.beside_original(case).told(answer)
    });
    search.note(D::size(case), number, verdict.told(told));
}

/// Compares the cases of a kind, the work shared out by their numbers.
pub(crate) fn compare<D: Desk>(
    call: D::Call,
    seed: u64,
    kind: &Kind<D::Case>,
    cases: u64,
) -> Search {
    shared(cases, D::new, |search, desk, number| {
        let case = kind.case(seed, number);
        visit(search, desk, call, (kind.name, number), &case);
    })
}

/// Compares fixed cases on one desk; an answer that is known is asked of the rule too.
pub(crate) fn compare_fixed<D: Desk>(
    call: D::Call,
    fixed: impl IntoIterator<Item = Fixed<D>>,
) -> Search {
    let (mut desk, mut search) = (D::new(), Search::default());
    for (number, (name, case, answer)) in (0..).zip(fixed) {
        visit(&mut search, &mut desk, call, (name, number), &case);
        let want = desk.want();
        if answer.is_some_and(|answer| answer != want) {
            search.note_first(number, format!("{name}: rule answers {want}"));
        }
    }
    search
}

/// Compares all cases of the kinds and the fixed ones, and reports each; the seed is the first kind's, the others follow.
pub(crate) fn check<D: Desk, F: IntoIterator<Item = Fixed<D>>>(
    report: &mut Report,
    name: &str,
    call: D::Call,
    (seed, kinds): (u64, &[Kind<D::Case>]),
    fixed: fn() -> F,
) {
    for (seed, kind) in (seed..).zip(kinds) {
        report.run(&format!("{name}: {}", kind.name), || {
            compare::<D>(call, seed, kind, kind.cases).found()
        });
    }
    report.run(&format!("{name}: fixed cases"), || {
        compare_fixed::<D>(call, fixed()).found()
    });
}

/// A kind by its name, with its seed.
#[cfg(test)]
pub(crate) fn named<'a, C>(name: &str, seed: u64, kinds: &'a [Kind<C>]) -> (u64, &'a Kind<C>) {
    let mut kinds = (seed..).zip(kinds);
    kinds
        .find(|(_, kind)| kind.name == name)
        .expect("a kind of this name")
}

/// How often each comes up.
#[cfg(test)]
pub(crate) fn tally<K: Ord>(all: impl IntoIterator<Item = K>) -> BTreeMap<K, u64> {
    let mut seen = BTreeMap::new();
    for one in all {
        *seen.entry(one).or_default() += 1;
    }
    seen
}

/// The first place at which two buffers differ.
pub(crate) fn first<T: PartialEq + LowerHex>(what: &str, got: &[T], want: &[T]) -> Option<String> {
    let at = got.iter().zip(want).position(|(a, b)| a != b)?;
    Some(format!(
        "{what} {at} is {:#x}, not {:#x}",
        got[at], want[at]
    ))
}
