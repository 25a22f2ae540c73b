//! What was measured, by text.

use crate::kind::Kind;
use crate::library::Call;
use crate::peer::Peer;
use crate::sampling::{Task, Work};
use crate::text::Text;

/// The medians of a text, in nanoseconds.
pub struct Row<'a> {
    pub text: &'a Text,
    calls: Vec<(Call, Kind, f64)>,
    peers: Vec<(&'a str, f64)>,
    pub copy: f64,
    pub count: f64,
}

impl Row<'_> {
    pub fn time(&self, call: Call, kind: Kind) -> Option<f64> {
        let found = self.calls.iter().find(|(made, of, _)| (*made, *of) == (call, kind));
        found.map(|(_, _, time)| *time)
    }

    pub fn peer(&self, name: &str) -> Option<f64> {
        let found = self.peers.iter().find(|(of, _)| *of == name);
        found.map(|(_, time)| *time)
    }

    pub fn bytes(&self) -> usize {
        self.text.text.len()
    }
}

/// All that was measured.
pub struct Measured<'a> {
    pub rows: Vec<Row<'a>>,
    pub peers: &'a [Peer],
}

impl<'a> Measured<'a> {
    pub fn new(texts: &'a [Text], peers: &'a [Peer], tasks: &[Task<'a>]) -> Measured<'a> {
        let mut rows: Vec<Row> = texts.iter().map(empty_row).collect();
        for task in tasks {
            let row =
                rows.iter_mut().find(|row| std::ptr::eq(row.text, task.text)).expect("each task has one of the texts");
            match task.work {
                Work::Call(call, kind) => row.calls.push((call, kind, task.median())),
                Work::Peer(peer) => row.peers.push((peer.name, task.median())),
                Work::Copy => row.copy = task.median(),
                Work::Count => row.count = task.median(),
            }
        }
        Measured { rows, peers }
    }

    /// The texts that two measures both have, short or long ones.
    pub fn pairs(
        &self,
        is_long: bool,
        ours: impl Fn(&Row) -> Option<f64>,
        theirs: impl Fn(&Row) -> Option<f64>,
    ) -> Pairs {
        let rows = self.rows.iter().filter(|row| row.text.is_long() == is_long);
        Pairs(rows.filter_map(|row| Some((ours(row)?, theirs(row)?))).collect())
    }
}

fn empty_row(text: &Text) -> Row<'_> {
    Row { text, calls: Vec::new(), peers: Vec::new(), copy: f64::NAN, count: f64::NAN }
}

/// Two times for each of some texts.
pub struct Pairs(Vec<(f64, f64)>);

impl Pairs {
    pub fn len(&self) -> usize {
        self.0.len()
    }

    /// How many times the first times go into the second, by their sums.
    pub fn of_sums(&self) -> f64 {
        let ours: f64 = self.0.iter().map(|(ours, _)| ours).sum();
        let theirs: f64 = self.0.iter().map(|(_, theirs)| theirs).sum();
        theirs / ours
    }

    /// The same by the geometric mean over the texts, each of which counts the same.
    pub fn of_means(&self) -> f64 {
        let logarithms: f64 = self.0.iter().map(|(ours, theirs)| (theirs / ours).ln()).sum();
        (logarithms / self.len() as f64).exp()
    }

    /// The same of the text where it is least, and where it is greatest.
    pub fn range(&self) -> (f64, f64) {
        let ratios = self.0.iter().map(|(ours, theirs)| theirs / ours);
        ratios.fold((f64::INFINITY, 0.0), |(least, most), ratio| (least.min(ratio), most.max(ratio)))
    }
}
