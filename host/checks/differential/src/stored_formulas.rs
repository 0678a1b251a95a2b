//! The stored answers of the sort check, of the evaluator and of the
//! image, compared with a subject.

use plain::image::IMAGE;
use plain::values::VALUE;

use crate::report::{Report, hex};
use crate::sample_formulas::{IMAGE_ROW, UNWRITTEN};
use crate::subject::{Formulas, Images};

/// What is left of a stored file.
struct Rest<'a>(&'a [u8]);

impl<'a> Rest<'a> {
    fn bytes(&mut self, count: usize) -> &'a [u8] {
        let (head, rest) = self.0.split_at(count);
        self.0 = rest;
        head
    }

    fn byte(&mut self) -> u32 {
        self.bytes(1)[0].into()
    }

    /// A number of two bytes.
    fn two(&mut self) -> usize {
        let bytes = self.bytes(2).try_into().expect("two bytes");
        u16::from_le_bytes(bytes).into()
    }

    fn words(&mut self, count: usize) -> Vec<u64> {
        let words = self.bytes(8 * count).chunks(8);
        let word = |bytes: &[u8]| u64::from_le_bytes(bytes.try_into().expect("eight bytes"));
        words.map(word).collect()
    }
}

/// Compare the sort check with the rows of `checks.bin`.
pub fn checks(subject: &impl Formulas, stored: &[u8]) -> Report {
    let mut report = Report::default();
    let mut rest = Rest(stored);
    while !rest.0.is_empty() {
        let number = rest.byte();
        let [node, count, length] = [(); 3].map(|()| rest.two());
        let nodes = rest.words(length);
        report.count(number);
        let mut out = [UNWRITTEN];
        let got = subject.check(&nodes, count, &mut out);
        if (got, out) != (number, [node as u64]) {
            report.differs(|| {
                format!(
                    "check of {count} of {nodes:?}\nstored {number} {node}\ngot    {got} {out:?}"
                )
            });
        }
    }
    report
}

/// Compare the evaluator with the rows of `values.bin`.
pub fn values(subject: &impl Formulas, stored: &[u8]) -> Report {
    let mut report = Report::default();
    let mut rest = Rest(stored);
    while !rest.0.is_empty() {
        let number = rest.byte();
        let [node, count, nodes, given, column] = [(); 5].map(|()| rest.two());
        let [nodes, given, expected] = [nodes, given, column].map(|length| rest.words(length));
        report.count(number);
        let (mut column, mut out) = (vec![UNWRITTEN; column], [UNWRITTEN]);
        let got = subject.evaluate(&nodes, count, &given, &mut column, &mut out);
        if (got, out, &column) != (number, [node as u64], &expected) {
            report.differs(|| {
                format!(
                    "evaluation of {count} of {nodes:?}\ngiven  {given:x?}\n\
                     stored {number} {node} {expected:x?}\ngot    {got} {out:?} {column:x?}"
                )
            });
        }
    }
    report
}

/// Compare both image calls with the rows of `images.bin`.
pub fn images(subject: &impl Images, stored: &[u8]) -> Report {
    let mut report = Report::default();
    assert_eq!(stored.len() % IMAGE_ROW, 0, "whole rows");
    for row in stored.chunks(IMAGE_ROW) {
        let got = image_row(subject, row);
        report.count(Rest(&row[IMAGE + 16..]).byte());
        if got != row {
            report.differs(|| format!("stored {}\ngot    {}", hex(row), hex(&got)));
        }
    }
    report
}

/// The row with the subject's answers in the place of the stored ones.
fn image_row(subject: &impl Images, row: &[u8]) -> Vec<u8> {
    let mut rest = Rest(row);
    let image = rest.bytes(IMAGE);
    let free = rest.words(VALUE);
    let (mut out, mut written) = ([UNWRITTEN; VALUE], [0; IMAGE]);
    let number = subject.image_read(image, free[0], free[1], &mut out);
    if number == plain::MODELLED {
        subject.image_write(&mut written, out[0], out[1]);
    }
    let mut got = row[..IMAGE + 8 * VALUE].to_vec();
    got.push(u8::try_from(number).unwrap_or(u8::MAX));
    got.extend(out.iter().flat_map(|word| word.to_le_bytes()));
    got.extend(written);
    got
}
