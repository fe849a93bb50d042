//! The bench listing of a run, as the bench program and the C host print it, and document 01's whole example.

use std::fmt::Write;

use crate::fast;

/// Document 01's configuration.
pub const DOCUMENT_CONFIG: [u8; 20] = [
    0x01, 0x03, 0x00, 0x02, 0x01, 0x00, 0x05, 0x00, 0x01, 0x09, 0x00, 0x01, 0x03, 0x01, 0x04, 0x02, 0x00, 0x01, 0x02,
    0x00,
];

/// Document 01's trace.
pub const DOCUMENT_TRACE: [u8; 24] = [
    0x08, 0x00, 0x01, 0x04, 0x00, 0x06, 0x07, 0x02, 0x03, 0x01, 0x02, 0x02, 0x05, 0x00, 0x06, 0x06, 0x02, 0x02, 0x06,
    0x06, 0x09, 0x00, 0x02, 0x02,
];

/// Document 01's listing of the two.
pub const DOCUMENT_LISTING: &str = "\
step event status runner level begun
0 8 0 0 2 0
1 4 0 0 5 0
2 6 0 0 5 0
3 7 0 2 9 1
4 3 2 2 9 0
5 2 0 0 5 0
6 2 6 0 5 0
7 5 0 1 5 1
8 6 0 1 5 0
9 6 0 1 5 0
10 2 0 0 2 0
11 2 0 - 0 0
12 6 0 - 0 0
13 6 0 1 5 1
14 9 0 1 5 0
15 2 0 - 0 0
16 2 2 - 0 0
lost 0 1
";

/// The listing of a run with this result and output, or its line `refused CODE PLACE`.
pub fn listing(config: &[u8], trace: &[u8], result: u64, out: &[u8]) -> String {
    let refusal = result >> 32;
    if refusal != 0 {
        return format!("refused {refusal} {}\n", result & 0xffff_ffff);
    }
    let events = result as usize;
    let mut text = String::from("step event status runner level begun\n");
    let mut at = 0;
    for (step, answer) in out.chunks_exact(4).take(events).enumerate() {
        let code = trace[at];
        (_, at) = fast::read_event(trace, at).expect("the run accepted the trace");
        let runner = if answer[1] == fast::IDLE { "-".into() } else { answer[1].to_string() };
        let _ = writeln!(text, "{step} {code} {} {runner} {} {}", answer[0], answer[2], answer[3]);
    }
    let bodies = usize::from(config[1]);
    for (body, loss) in out[4 * events..].chunks_exact(2).take(bodies).enumerate() {
        let count = u16::from_le_bytes([loss[0], loss[1]]);
        if count > 0 {
            let _ = writeln!(text, "lost {body} {count}");
        }
    }
    text
}
