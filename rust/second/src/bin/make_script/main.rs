//! Writes a script to standard output that goes through opcodes 0 to 6 and
//! every status a script can reach.  Always the same bytes.

mod lent;
mod pictures;
mod plays;
mod random;
mod refused;
mod script;

use random::Random;
use script::{Script, ITEMS, JOURNAL, PIXELS, RECORDS};
use std::io::{self, Write};

fn main() -> io::Result<()> {
    let mut r = Random(20_240_229);

    // Head: a sheet one pixel too wide, though all its pixels are lent, and a
    // count above the journal's records.
    let pixels: Vec<u32> = (0..PIXELS).map(|_| r.word()).collect();
    let mut s = Script(records::Script::new(ITEMS, [PIXELS, 1], &pixels, JOURNAL, 0xFFFF_FFF0, RECORDS + 1));

    lent::sheets_and_journals(&mut s);
    plays::stretch_depths(&mut s, &mut r);
    plays::blend_depths(&mut s, &mut r);
    plays::mask_depths(&mut s, &mut r);
    plays::mirrored(&mut s, &mut r);
    plays::regions(&mut s, &mut r);
    plays::masks_and_rasters(&mut s, &mut r);
    plays::readings(&mut s, &mut r);
    refused::refusals_3_to_5(&mut s);
    refused::refusals_6_and_7(&mut s, &mut r);
    refused::refusal_21(&mut s);
    refused::refusals_8_to_10(&mut s, &mut r);
    refused::refusals_11_to_13(&mut s, &mut r);
    lent::take_backs(&mut s, &mut r);
    lent::foreign_journals(&mut s);

    s.0.end(); // the two sums
    io::stdout().lock().write_all(&s.0.bytes)
}
