//! A script of `replay` (docs/SCRIPT.md) in the making.

pub const MARK: u32 = 0x3143_524F;
pub const MOST_PIXELS: u32 = 262_144;
pub const MOST_JOURNAL: u32 = 1_048_576;
pub const MOST_DATA: usize = 131_072;

#[derive(Default)]
pub struct Script {
    pub bytes: Vec<u8>,
    /// Where the opcodes stand.
    pub opcodes: Vec<usize>,
    /// Where byte data is filled up to a word: the last byte of the filling.
    pub padding: Vec<usize>,
}

impl Script {
    /// A head with a journal of so many bytes, filled by the seed.
    pub fn new(items: u32, sides: [u32; 2], pixels: &[u32], journal: u32, seed: u32, used: u32) -> Script {
        let mut s = Script::default();
        s.words(&[MARK, items, sides[0], sides[1], pixels.len() as u32]);
        s.words(pixels);
        s.words(&[journal, seed, used]);
        s
    }

    pub fn words(&mut self, numbers: &[u32]) {
        for n in numbers {
            self.bytes.extend_from_slice(&n.to_le_bytes());
        }
    }

    pub fn data(&mut self, bytes: &[u8]) {
        self.words(&[bytes.len() as u32]);
        self.bytes.extend_from_slice(bytes);
        if bytes.len() % 4 != 0 {
            self.bytes.resize(self.bytes.len() + 4 - bytes.len() % 4, 0);
            self.padding.push(self.bytes.len() - 1);
        }
    }

    /// An opcode and the numbers behind it.
    pub fn op(&mut self, opcode: u32, numbers: &[u32]) {
        self.opcodes.push(self.bytes.len());
        self.words(&[opcode]);
        self.words(numbers);
    }

    pub fn end(&mut self) {
        self.op(0, &[]);
    }

    /// The clip is left, top, right, bottom.
    pub fn play(&mut self, clip: [i32; 4], brush: u32, tag: u32, record: &[u8]) {
        self.op(1, &clip.map(|n| n as u32));
        self.words(&[brush, tag]);
        self.data(record);
    }

    pub fn undo(&mut self) {
        self.op(2, &[]);
    }

    /// 0 for the source, 1 for the mask.
    pub fn read(&mut self, which: u32, record: &[u8]) {
        self.op(3, &[which]);
        self.data(record);
    }

    pub fn lend(&mut self, width: u32, height: u32, pixels: u32, journal: u32) {
        self.op(4, &[width, height, pixels, journal]);
    }

    pub fn count(&mut self, used: u32) {
        self.op(5, &[used]);
    }

    /// A number stored into the journal.
    pub fn poke(&mut self, offset: u32, n: u32) {
        self.op(6, &[offset, n]);
    }
}
