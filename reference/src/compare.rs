//! Another program's answers laid beside the reference's, byte by byte.

use crate::corners::Corners;
use crate::coverage::Coverage;
use crate::describe;
use crate::evening::{judge, Evening, Tally};
use crate::trace::{Answer, Contexts, Record, Records};
use std::io::{self, Read, Write};
use std::path::Path;
use std::process::{Command, ExitStatus, Stdio};
use std::thread;

/// How many differences are told in full; what follows one is often its consequence.
const TOLD: usize = 5;

/// What comparisons have shown so far.
#[derive(Default)]
pub struct Report {
    /// Answers that agree in every byte, and evenings that hold.
    pub passed: u64,
    /// Answers that differ or are missing, runs that ended badly, and what is wrong with evenings.
    pub failed: u64,
    /// The first differences, in hex and in words.
    pub differences: Vec<String>,
    /// The outcomes met.
    pub coverage: Coverage,
    /// The corners met.
    pub corners: Corners,
    /// What whole evenings have shown. Their calls are in neither of the two above.
    pub evenings: Tally,
}

impl Report {
    /// Compares the answers to one trace with the reference's.
    pub fn compare(&mut self, trace: &[u8], answers: &[u8]) {
        let mut contexts = Contexts::default();
        self.compare_each(trace, answers, |report, record| {
            let before = contexts.clone();
            let expected = contexts.answer(record);
            report.coverage.count(&expected);
            report.corners.count(&before, record, &expected);
            expected
        });
    }

    /// Compares the answers to one evening with the reference's, and judges them.
    pub fn compare_evening(&mut self, evening: &Evening, answers: &[u8]) {
        let mut contexts = Contexts::default();
        self.compare_each(&evening.trace, answers, |_, record| contexts.answer(record));
        let verdict = judge(evening, answers);
        self.evenings.add(&verdict.tally);
        self.passed += u64::from(verdict.holds());
        for told in verdict.broken.iter().chain(&verdict.faults) {
            self.fail(|| format!("whole evening: {told}"));
        }
    }

    /// Compares each answer with the one that is expected.
    fn compare_each(
        &mut self,
        trace: &[u8],
        answers: &[u8],
        mut expect: impl FnMut(&mut Report, &Record) -> Answer,
    ) {
        let mut rest = answers;
        for (place, record) in Records::new(trace).enumerate() {
            let expected = expect(self, &record);
            let (given, later) = split_answer(rest, &expected);
            rest = later;
            if given == expected.to_bytes() {
                self.passed += 1;
            } else {
                self.fail(|| difference(place, &record, &expected, given));
            }
        }
        if !rest.is_empty() {
            self.fail(|| format!("{} bytes behind the last answer", rest.len()));
        }
    }

    /// Runs a program on a trace and compares its answers.
    pub fn compare_program(&mut self, program: &Path, trace: &[u8]) -> io::Result<()> {
        let answers = self.answers_of(program, trace)?;
        self.compare(trace, &answers);
        Ok(())
    }

    /// Runs a program on an evening, compares its answers and judges them.
    pub fn judge_program(&mut self, program: &Path, evening: &Evening) -> io::Result<()> {
        let answers = self.answers_of(program, &evening.trace)?;
        self.compare_evening(evening, &answers);
        Ok(())
    }

    fn answers_of(&mut self, program: &Path, trace: &[u8]) -> io::Result<Vec<u8>> {
        let (answers, status) = run(program, trace)?;
        if !status.success() {
            self.fail(|| format!("the program ended with {status}"));
        }
        Ok(answers)
    }

    /// The reachable outcomes and the corners that were not met. Each counts as failed.
    pub fn gaps(&self) -> Vec<String> {
        let mut gaps = self.coverage.gaps();
        gaps.extend(self.corners.gaps());
        gaps.extend(self.evenings.gaps());
        gaps
    }

    fn fail(&mut self, told: impl FnOnce() -> String) {
        self.failed += 1;
        if self.differences.len() < TOLD {
            self.differences.push(told());
        }
    }
}

/// The next answer of the program and the rest. An answer is taken as long as it says it is; one
/// that is cut ends everything.
fn split_answer<'a>(bytes: &'a [u8], expected: &Answer) -> (&'a [u8], &'a [u8]) {
    let length = match Answer::read(bytes) {
        Some((_, length)) => length,
        None => bytes.len().min(expected.to_bytes().len()),
    };
    bytes.split_at(length)
}

/// A difference in hex and in words.
fn difference(place: usize, record: &Record, expected: &Answer, given: &[u8]) -> String {
    let mut bytes = Vec::new();
    record.write(&mut bytes);
    let in_words = match Answer::read(given) {
        Some((answer, _)) => describe::answer(&answer),
        None => "cut or missing".to_string(),
    };
    [
        format!("record {place}: {}", describe::record(record)),
        format!("  record    {}", describe::hex(&bytes)),
        format!("  expected  {}", describe::answer(expected)),
        format!("            {}", describe::hex(&expected.to_bytes())),
        format!("  given     {in_words}"),
        format!("            {}", describe::hex(given)),
    ]
    .join("\n")
}

/// Feeds the trace to the program's standard input while reading its standard output, so that
/// neither waits for the other.
fn run(program: &Path, trace: &[u8]) -> io::Result<(Vec<u8>, ExitStatus)> {
    let mut child = Command::new(program).stdin(Stdio::piped()).stdout(Stdio::piped()).spawn()?;
    let input = child.stdin.take();
    let output = child.stdout.take();
    let mut answers = Vec::new();
    let read = thread::scope(|scope| {
        scope.spawn(move || {
            // A program that stops reading shows in its answers.
            input.map(|mut input| input.write_all(trace))
        });
        output.map_or(Ok(0), |mut output| output.read_to_end(&mut answers))
    });
    let status = child.wait()?;
    read?;
    Ok((answers, status))
}
