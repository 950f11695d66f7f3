//! The port, asked as the crate is; and a port that answers one question wrongly, to see that it is caught.

use std::time::{Duration, Instant};

use loadplan_command::ask;

/// How long an answer may take about a file below this length.
pub const LONGEST: Duration = Duration::from_millis(50);
pub const SHORT_FILE: usize = 1 << 20;
/// How often something slow is tried again: the machine may have been busy.
const TRIES: usize = 3;

#[derive(Clone, Debug, Default)]
pub struct Port {
    /// A question that is answered with `none`, whatever the answer is. For tests only.
    pub wrong: Option<String>,
}

impl Port {
    pub fn text(&self, input: &[u8]) -> String {
        let text = ask::ask(input, false);
        match &self.wrong {
            Some(question) => wrongly(&text, question),
            None => text,
        }
    }

    /// The same, and how long it took at the least if that is too long.
    pub fn timed(&self, input: &[u8]) -> (String, Option<Duration>) {
        if input.len() >= SHORT_FILE {
            return (self.text(input), None);
        }
        let (text, took) = least_time(|| self.text(input));
        (text, Some(took).filter(|took| *took > LONGEST))
    }
}

/// An answer, and how long it took at the least.
pub fn least_time<T>(answer: impl Fn() -> T) -> (T, Duration) {
    let time = || {
        let since = Instant::now();
        (answer(), since.elapsed())
    };
    let (answer, mut took) = time();
    for _ in 0..TRIES {
        if took <= LONGEST {
            break;
        }
        took = took.min(time().1);
    }
    (answer, took)
}

fn wrongly(text: &str, question: &str) -> String {
    let start = format!("01 {question} = ok");
    let lines = text.lines().map(|line| match line.starts_with(&start) {
        true => format!("01 {question} = none\n"),
        false => format!("{line}\n"),
    });
    lines.collect()
}

#[cfg(test)]
mod tests {
    use std::cell::Cell;
    use std::thread::sleep;

    use super::*;

    #[test]
    fn slow_is_what_is_slow_each_time() {
        let tried = Cell::new(0);
        let slow_until = |last: usize| {
            tried.set(tried.get() + 1);
            if tried.get() <= last {
                sleep(LONGEST + Duration::from_millis(1));
            }
        };
        assert!(least_time(|| slow_until(2)).1 <= LONGEST);
        assert!(least_time(|| slow_until(usize::MAX)).1 > LONGEST);
    }
}
