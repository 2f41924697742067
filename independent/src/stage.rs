//! Every stage of one build as readable text, so that a difference can be found: a
//! header, then tab-parted numbers and runs of 0, 1 and `-` for `<NULL>`.

use crate::codeword;
use crate::rate;
use crate::segmentation::Segmentation;
use crate::sizes;

/// The arguments of Build, G being the last.
pub struct Call {
    pub block: Vec<u8>,
    pub q: usize,
    pub n: usize,
    pub version: usize,
    pub g: usize,
}

impl Call {
    fn segmentation(&self) -> Segmentation {
        Segmentation::of(self.block.len() + 24)
    }

    fn shares(&self) -> Vec<usize> {
        rate::shares(self.g, self.n * self.q, self.segmentation().blocks)
    }
}

type Printer = fn(&Call) -> String;

/// The stages in their order, each with what prints it.
const STAGES: [(&str, Printer); 5] = [
    ("segmentation", segmentation),
    ("blocks", blocks),
    ("streams", streams),
    ("circle", circle),
    ("codeword", codeword_lines),
];

/// The text of the named stage, or nothing if there is no such stage. What Build would
/// refuse gives the line `refused`, tab, number, whatever the stage.
pub fn text(name: &str, call: &Call) -> Option<String> {
    let (_, printer) = STAGES.iter().find(|(stage, _)| *stage == name)?;
    let checked = codeword::check(&call.block, call.q, call.n, call.version, call.g, call.g);
    Some(match checked {
        Ok(()) => printer(call),
        Err(refusal) => format!("refused\t{refusal}\n"),
    })
}

fn segmentation(call: &Call) -> String {
    let s = call.segmentation();
    let mut text = sizes::HEADER.to_string() + &sizes::size_line(call.block.len());
    text.push_str("block\tsize\tfiller\tshare\n");
    for (r, share) in call.shares().iter().enumerate() {
        text.push_str(&format!("{r}\t{}\t{}\t{share}\n", s.size(r), s.filler_in(r)));
    }
    text
}

fn blocks(call: &Call) -> String {
    let mut text = "block\tbits\n".to_string();
    for (r, c) in codeword::code_blocks(&call.block).iter().enumerate() {
        text.push_str(&format!("{r}\t{}\n", bits(c)));
    }
    text
}

fn streams(call: &Call) -> String {
    let mut text = "block\tstream\tbits\n".to_string();
    for (r, d) in codeword::streams(&call.block).iter().enumerate() {
        for (i, stream) in d.iter().enumerate() {
            text.push_str(&format!("{r}\t{i}\t{}\n", places(stream)));
        }
    }
    text
}

fn circle(call: &Call) -> String {
    let mut text = "block\tstart\tbits\n".to_string();
    for (r, d) in codeword::streams(&call.block).iter().enumerate() {
        let w = rate::circle(d);
        let k_0 = rate::start(w.len(), call.version);
        text.push_str(&format!("{r}\t{k_0}\t{}\n", places(&w)));
    }
    text
}

/// The codeword as Build gives it, cut into the code blocks' shares.
fn codeword_lines(call: &Call) -> String {
    let f = codeword::build(&call.block, call.q, call.n, call.version, call.g)
        .expect("the call has been checked");
    let mut text = "block\tfrom\tshare\tbits\n".to_string();
    let mut from = 0;
    for (r, share) in call.shares().iter().enumerate() {
        let stretch = bits(&f[from..from + share]);
        text.push_str(&format!("{r}\t{from}\t{share}\t{stretch}\n"));
        from += share;
    }
    text
}

fn bits(run: &[u8]) -> String {
    run.iter().map(|bit| char::from(b'0' + bit)).collect()
}

fn places(run: &[Option<u8>]) -> String {
    run.iter().map(|place| place.map_or('-', |bit| char::from(b'0' + bit))).collect()
}
