//! What can be wrong with a job's file though its check sum is right, and what the store has to say of it.

use crate::jobfile::{
    name, with_sum, JobFile, A, B, BUFFERS, ENDED, FINISHED, LARGEST, LENGTHS, MADE, PRODUCT, RECORD, SITE, SOLD, STEPS, TABLE, TURNS,
    WORDS,
};
use crate::random::Random;
use crate::store::Held;
use crate::trial::{noise, Case, Verdict, LARGEST_SITE, SITES};

/// What the store says, with FILE for the file's name and SITE for `site` and its number.
const WHOLE: &str = "FILE: not whole";
const LENGTH: &str = "FILE: its lengths are not those of its record";
const ELSEWHERE: &str = "FILE: the job of another site";
const HEAD: &str = "FILE: its head and its record do not agree";
const ANOTHER: &str = "SITE: the file holds another job than the site's";
const LEDGER: &str = "SITE: file and ledger do not agree";
const TABLE_CELL: &str = "SITE: a turn was refused with number 5: row 10, column 62 of the table has a sign without unit";
const PRODUCT_CELL: &str = "SITE: a turn was refused with number 5: row 10, column 62 of the product has a sign without unit";

pub enum Make {
    /// Other words and buffers, in a file of the form.
    File(fn(&mut Random, &mut JobFile)),
    /// Other bytes.
    Bytes(fn(&mut Random, &JobFile) -> Vec<u8>),
    /// The file of another site.
    Others,
    /// A folder of the file's name.
    Folder,
    Nothing,
}

pub enum Site {
    Any,
    /// The one with the largest job: no buffer of it is empty.
    Largest,
}

pub enum Judged {
    /// Refused with one of these.
    Said(&'static [&'static str]),
    /// Refused with one of these by the next turn; a finished job has none, and either answer can be right.
    Turned(&'static [&'static str]),
    Well,
    /// Nothing may depend on what was damaged, so either answer can be right.
    Either,
}

use Judged::{Either, Said, Turned, Well};
use Make::{Bytes, File, Folder, Nothing, Others};
use Site::{Any, Largest};

pub const KINDS: [(&str, Make, Site, Judged); 43] = [
    ("another length", File(length), Any, Said(&[LENGTH])),
    ("bytes of one buffer counted to another", File(moved), Any, Said(&[LENGTH])),
    ("lengths whose sum is right once it has wrapped", File(wrapped), Any, Said(&[LENGTH])),
    ("a longer buffer", File(longer), Any, Said(&[LENGTH, WHOLE])),
    ("a shorter buffer", File(shorter), Any, Said(&[LENGTH])),
    ("A as long as a file can be", File(longest), Any, Said(&[LENGTH])),
    ("rows whose bytes wrap to none", File(many_rows), Any, Said(&[LENGTH])),
    ("a width above 8, and no table", File(wide), Any, Said(&[LENGTH])),
    ("another size or width", File(size), Any, Said(&[LENGTH, ANOTHER])),
    ("any bytes in the record", File(any_record), Any, Said(&[LENGTH])),
    ("other steps done", File(|random, file| record(random, file, STEPS)), Any, Said(&[HEAD, ANOTHER, LEDGER])),
    ("other steps made", File(|random, file| record(random, file, MADE)), Any, Said(&[HEAD])),
    ("another word for the end", File(|random, file| record(random, file, ENDED)), Any, Said(&[HEAD])),
    ("another magic", File(|random, file| head(random, file, 0)), Any, Said(&[WHOLE])),
    ("another site", File(|random, file| head(random, file, SITE)), Any, Said(&[ELSEWHERE])),
    ("other steps sold", File(|random, file| head(random, file, SOLD)), Any, Said(&[HEAD])),
    ("another word for finished", File(|random, file| head(random, file, FINISHED)), Any, Said(&[HEAD])),
    ("other turns", File(turns), Any, Said(&[HEAD, LEDGER])),
    ("no turns", File(|_, file| file.words[TURNS] = 0), Any, Said(&[HEAD])),
    ("an end that is none, in both places", File(end), Any, Said(&[ANOTHER])),
    ("more steps made than done, in both places", File(too_many_made), Any, Said(&[HEAD])),
    ("a turn ahead, with steps that the list does not have", File(invented), Any, Said(&[ANOTHER])),
    ("a turn ahead, with a step sold before", File(sold_before), Any, Said(&[LEDGER, HEAD])),
    ("two turns ahead", File(two_ahead), Any, Said(&[LEDGER])),
    ("a turn behind", File(behind), Any, Said(&[HEAD, ANOTHER, LEDGER])),
    ("another A", File(|random, file| bit(random, file, A)), Largest, Said(&[ANOTHER])),
    ("another B", File(|random, file| bit(random, file, B)), Largest, Said(&[ANOTHER])),
    ("the file of another site", Others, Any, Said(&[ELSEWHERE])),
    ("a file cut within its head, with a check sum", Bytes(cut_head), Any, Said(&[WHOLE])),
    ("a file cut behind it, with a check sum", Bytes(cut), Any, Said(&[LENGTH])),
    ("a file's first bytes", Bytes(first_bytes), Any, Said(&[WHOLE])),
    ("a longer file, with a check sum", Bytes(more), Any, Said(&[LENGTH, WHOLE])),
    ("bytes after the end of the largest file", Bytes(after_the_end), Largest, Said(&[WHOLE])),
    ("any bytes after magic and site", Bytes(any_bytes), Any, Said(&[LENGTH, WHOLE])),
    ("one bit, and the check sum as it was", Bytes(one_bit), Any, Said(&[WHOLE])),
    ("a folder for a file", Folder, Any, Said(&["FILE: not a file"])),
    ("no file", Nothing, Any, Said(&["SITE: it has no file, and turns in the ledger"])),
    ("a file as it was", File(|_, _| {}), Any, Well),
    ("signs without unit in the table", File(|random, file| stray(random, file, TABLE)), Largest, Turned(&[TABLE_CELL])),
    ("signs without unit in the product", File(|random, file| stray(random, file, PRODUCT)), Largest, Turned(&[PRODUCT_CELL])),
    ("bytes of the table", File(|random, file| any_in(random, file, TABLE)), Largest, Either),
    ("bytes of the product", File(|random, file| any_in(random, file, PRODUCT)), Largest, Either),
    ("bytes anywhere", Bytes(anywhere), Any, Either),
];

/// Damages one file of a folder that was right. `nth` gives the kind.
pub fn damage(random: &mut Random, nth: usize, held: &Held) -> Result<Case, String> {
    let (text, make, which, judged) = &KINDS[nth % KINDS.len()];
    let site = match which {
        Any => random.below(SITES),
        Largest => LARGEST_SITE,
    };
    let mut file = JobFile::read(held, site)?;
    let mut held = held.clone();
    let bytes = match make {
        File(make) => {
            make(random, &mut file);
            Some(file.bytes())
        }
        Bytes(make) => Some(make(random, &file)),
        Others => Some(JobFile::read(&held, (site + 1 + random.below(SITES - 1)) % SITES)?.bytes()),
        Folder | Nothing => None,
    };
    held.insert(name(site), bytes);
    if let Nothing = make {
        held.remove(&name(site));
    }
    let verdict = match judged {
        Turned(_) if file.record(ENDED) == 1 => Verdict::Either,
        Said(texts) | Turned(texts) => {
            let said = |text: &&str| text.replace("FILE", &name(site)).replace("SITE", &format!("site {site}"));
            Verdict::Refused(texts.iter().map(said).collect())
        }
        Well => Verdict::Well(0),
        Either => Verdict::Either,
    };
    Ok(Case { text: format!("site {site}: {text}"), held, verdict })
}

/// Numbers beside a limit, and numbers that a reader may take for small ones after a sum, a product or a cut.
const ODD: [u64; 18] = [0, 1, 7, 8, 9, 55, 64, 65, 1023, 1025, 4097, 7312, 1 << 16, 1 << 32, 1 << 60, 1 << 61, 1 << 63, u64::MAX];

/// A number that is not this one.
fn other(random: &mut Random, than: u64) -> u64 {
    loop {
        let made = match random.below(5) {
            0 => than.wrapping_add(1),
            1 => than.wrapping_sub(1),
            2 => than ^ 1 << random.below(64),
            3 => u64::MAX - random.below(200) as u64,
            _ => random.of(&ODD),
        };
        if made != than {
            return made;
        }
    }
}

/// Two of the buffers.
fn two(random: &mut Random) -> (usize, usize) {
    let i = random.below(BUFFERS);
    (i, (i + 1 + random.below(BUFFERS - 1)) % BUFFERS)
}

fn length(random: &mut Random, file: &mut JobFile) {
    let i = LENGTHS + random.below(BUFFERS);
    file.words[i] = other(random, file.words[i]);
}

fn moved(random: &mut Random, file: &mut JobFile) {
    let (mut from, mut to) = two(random);
    if file.parts[from].is_empty() {
        // The record always has bytes.
        from = RECORD;
        to = A;
    }
    let bytes = 1 + random.below(file.parts[from].len()) as u64;
    file.words[LENGTHS + from] -= bytes;
    file.words[LENGTHS + to] += bytes;
}

fn wrapped(random: &mut Random, file: &mut JobFile) {
    let (i, j) = two(random);
    let any = random.word() | 1;
    let more = random.of(&[1 << 63, 1 << 61, u64::MAX, any]);
    file.words[LENGTHS + i] = file.words[LENGTHS + i].wrapping_add(more);
    file.words[LENGTHS + j] = file.words[LENGTHS + j].wrapping_sub(more);
}

fn longer(random: &mut Random, file: &mut JobFile) {
    let i = random.below(BUFFERS);
    let most = random.of(&[16, 3000]);
    let length = file.parts[i].len() + 1 + random.below(most);
    file.resize(i, length, random);
}

fn shorter(random: &mut Random, file: &mut JobFile) {
    let i = random.below(BUFFERS);
    let i = if file.parts[i].is_empty() { RECORD } else { i };
    let length = random.below(file.parts[i].len());
    file.resize(i, length, random);
}

fn longest(random: &mut Random, file: &mut JobFile) {
    file.resize(TABLE, 0, random);
    let length = file.parts[A].len() + LARGEST - 8 - file.body().len();
    file.resize(A, length, random);
}

fn many_rows(random: &mut Random, file: &mut JobFile) {
    file.set_record(0, random.of(&[1 << 60, 1 << 61, 1 << 63]));
    file.resize(A, 0, random);
    file.resize(PRODUCT, 0, random);
}

fn wide(random: &mut Random, file: &mut JobFile) {
    file.set_record(3, random.of(&[9, 64, 68, 1 << 32, u64::MAX]));
    file.resize(TABLE, 0, random);
}

/// The record's first four words.
fn size(random: &mut Random, file: &mut JobFile) {
    let at = random.below(4);
    record(random, file, at);
}

fn any_record(random: &mut Random, file: &mut JobFile) {
    let start = random.of(&[0, 8, 16, 24]);
    let any = noise(random, file.parts[RECORD].len() - start);
    file.parts[RECORD][start..].copy_from_slice(&any);
}

fn record(random: &mut Random, file: &mut JobFile, at: usize) {
    file.set_record(at, other(random, file.record(at)));
}

fn head(random: &mut Random, file: &mut JobFile, at: usize) {
    file.words[at] = other(random, file.words[at]);
}

/// Not one turn more: with no step in it that would be a right file.
fn turns(random: &mut Random, file: &mut JobFile) {
    let turns = file.words[TURNS];
    file.words[TURNS] = random.of(&[turns - 1, turns + 2, turns + (1 << 32), 1 << 63, u64::MAX]);
}

fn end(_: &mut Random, file: &mut JobFile) {
    let ended = 1 - file.record(ENDED);
    file.set_record(ENDED, ended);
    file.words[FINISHED] = ended;
}

fn too_many_made(random: &mut Random, file: &mut JobFile) {
    let made = file.record(STEPS) + random.of(&[1, 1000, 1 << 62]);
    file.words[SOLD] = made;
    file.set_record(MADE, made);
}

/// One turn more, in all words that speak of it.
fn ahead(file: &mut JobFile, made: u64) {
    file.words[TURNS] += 1;
    file.words[SOLD] = made;
    file.set_record(MADE, made);
    file.set_record(STEPS, file.record(STEPS) + made);
}

fn invented(random: &mut Random, file: &mut JobFile) {
    let steps = file.record(STEPS);
    ahead(file, random.of(&[1 << 20, 1 << 32, (1 << 63) - 1, u64::MAX - steps]));
}

fn sold_before(_: &mut Random, file: &mut JobFile) {
    ahead(file, 0);
    file.words[SOLD] = 1;
    file.set_record(MADE, 1);
}

fn two_ahead(_: &mut Random, file: &mut JobFile) {
    ahead(file, 0);
    ahead(file, 0);
}

fn behind(_: &mut Random, file: &mut JobFile) {
    file.words[TURNS] -= 1;
    file.set_record(STEPS, file.record(STEPS) - file.words[SOLD]);
    file.words[SOLD] = 0;
    file.set_record(MADE, 0);
}

fn bit(random: &mut Random, file: &mut JobFile, buffer: usize) {
    let at = random.below(file.parts[buffer].len());
    file.parts[buffer][at] ^= 1 << random.below(8);
}

/// Signs without unit: one in row 10, column 62, as the store counts them, and one somewhere below. A row is one word a plane.
fn stray(random: &mut Random, file: &mut JobFile, buffer: usize) {
    let below = 10 + random.below(file.parts[buffer].len() / 16 - 10);
    for (row, column) in [(9, 61), (below, random.below(64))] {
        let (unit, bit) = (16 * row + column / 8, 1 << (column % 8));
        file.parts[buffer][unit] &= !bit;
        file.parts[buffer][unit + 8] |= bit;
    }
}

fn any_in(random: &mut Random, file: &mut JobFile, buffer: usize) {
    for _ in 0..1 + random.below(4) {
        let at = random.below(file.parts[buffer].len());
        file.parts[buffer][at] = random.word() as u8;
    }
}

fn cut_head(random: &mut Random, file: &JobFile) -> Vec<u8> {
    with_sum(file.body()[..random.below(8 * WORDS)].to_vec())
}

fn cut(random: &mut Random, file: &JobFile) -> Vec<u8> {
    let mut bytes = file.body();
    bytes.truncate(8 * WORDS + random.below(bytes.len() - 8 * WORDS));
    with_sum(bytes)
}

/// Often without room for a check sum.
fn first_bytes(random: &mut Random, file: &JobFile) -> Vec<u8> {
    file.bytes()[..random.of(&[0, 0, 1, 2, 7, 7, 8, 9, 80, 87, 88, 144])].to_vec()
}

fn more(random: &mut Random, file: &JobFile) -> Vec<u8> {
    let most = random.of(&[9, 9000]);
    let length = 1 + random.below(most);
    with_sum([file.body(), noise(random, length)].concat())
}

fn after_the_end(random: &mut Random, file: &JobFile) -> Vec<u8> {
    let length = random.of(&[1, 2, 8, 5000]);
    [file.bytes(), noise(random, length)].concat()
}

fn any_bytes(random: &mut Random, file: &JobFile) -> Vec<u8> {
    let length = random.of(&[0, 64, 72, 128, 2000, LARGEST - 32, LARGEST - 24, LARGEST]);
    with_sum([file.body()[..16].to_vec(), noise(random, length)].concat())
}

fn one_bit(random: &mut Random, file: &JobFile) -> Vec<u8> {
    let mut bytes = file.bytes();
    let at = random.below(bytes.len());
    bytes[at] ^= 1 << random.below(8);
    bytes
}

fn anywhere(random: &mut Random, file: &JobFile) -> Vec<u8> {
    let mut bytes = file.body();
    for _ in 0..1 + random.below(4) {
        let at = random.below(bytes.len());
        bytes[at] ^= random.word() as u8;
    }
    with_sum(bytes)
}
