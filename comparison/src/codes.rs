//! The second implementation's outcomes as answers of the archive, which are one number each.

use crate::header::{self, Part};
use reference::{Answer, Route, Tested, Verdict, NONE};

/// An answer that is expected.
pub struct Expected {
    /// The refusal's number, or 0.
    refusal: u64,
    /// The values in the order of their fields, each with the part that it is; all 0 in an answer that was refused.
    values: Vec<(Part, u64)>,
}

impl Expected {
    fn new<T, const N: usize>(
        outcome: Result<T, u8>,
        parts: [Part; N],
        values: impl Fn(T) -> [u64; N],
    ) -> Self {
        let (refusal, values) = match outcome {
            Err(number) => (u64::from(number), [0; N]),
            Ok(value) => (0, values(value)),
        };
        Expected {
            refusal,
            values: parts.into_iter().zip(values).collect(),
        }
    }

    /// The refusal in the low 16 bits, and above it the values: a count alone, or fields of 16 bits.
    pub fn code(&self) -> u64 {
        self.values
            .iter()
            .rev()
            .fold(0, |code, &(_, value)| (code | value) << 16)
            | self.refusal
    }

    /// Whether the answer is this number, and each of its parts, as the header reads it, this value.
    pub fn check(&self, answer: u64) -> Result<(), String> {
        let code = self.code();
        if answer != code {
            return Err(format!(
                "answer {answer:#x} where the second implementation has {code:#x}"
            ));
        }
        let refusal = [(header::REFUSAL, self.refusal)];
        for &(part, value) in refusal.iter().chain(&self.values) {
            let read = part.of(answer);
            if read != value {
                return Err(format!(
                    "the header reads {} {read} from answer {answer:#x}, where it is {value}",
                    part.name
                ));
            }
        }
        Ok(())
    }
}

pub fn nothing(outcome: Result<(), u8>) -> Expected {
    Expected::new(outcome, [], |()| [])
}

pub fn count(outcome: Result<usize, u8>) -> Expected {
    Expected::new(outcome, [header::COUNT], |count| [count as u64])
}

pub fn size(outcome: Result<(usize, usize), u8>) -> Expected {
    Expected::new(outcome, [header::NODES, header::LINKS], |(nodes, links)| {
        [nodes as u64, links as u64]
    })
}

pub fn answer(outcome: Result<Answer, u8>) -> Expected {
    let parts = [header::REPORT, header::ROUTE, header::HUB];
    Expected::new(outcome, parts, |answer| {
        let route = answer.route;
        [answer.report, route.number(), route.hub_number()].map(u64::from)
    })
}

pub fn tested(outcome: Result<Tested, u8>) -> Expected {
    let parts = [header::VERDICT, header::SEARCHES];
    Expected::new(outcome, parts, |tested| {
        [u64::from(tested.verdict.number()), tested.searches as u64]
    })
}

/// Whether the header reads the largest values that the fields hold.
pub fn check_largest() -> Result<(), String> {
    let report = Answer {
        report: NONE,
        route: Route::Through(65535),
    };
    let test = Tested {
        verdict: Verdict::Short,
        searches: 65535,
    };
    [
        count(Ok((1 << 48) - 1)),
        size(Ok((65535, 65535))),
        answer(Ok(report)),
        tested(Ok(test)),
    ]
    .iter()
    .try_for_each(|expected| expected.check(expected.code()))
}
