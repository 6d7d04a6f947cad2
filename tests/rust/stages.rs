//! At which stage reading stands after each byte of a file of captures on standard input, as one letter each, by the crate `dhcpopt`.

use dhcpopt::{captures_begin, captures_feed, Progress, Stage, Standing, Tally};
use std::io::Read;

fn main() {
    let mut file = Vec::new();
    std::io::stdin().read_to_end(&mut file).expect("a file of captures");
    let (mut verdicts, mut held, mut bytes) = ([0; 8], [0; 256], [0; 256]);
    let mut tally = Tally { verdicts: &mut verdicts, held: &mut held, bytes: &mut bytes };
    let mut message = [0; 1472];
    let mut p = captures_begin();
    for byte in file.chunks(1) {
        let standing = Standing::from(captures_feed(byte, p, &mut message, &mut tally));
        print!("{}", match standing.stage {
            Stage::Tag => 't',
            Stage::High => 'h',
            Stage::Low { .. } => 'l',
            Stage::Message { .. } => 'm',
            Stage::Stopped => 's',
        });
        p = Progress::from(standing);
    }
    println!();
}
