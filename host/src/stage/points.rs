//! Document 01's cases P5 to P8, and inputs that tell one reading of it from another, with
//! the right answers written down by hand. Addresses are hexadecimal.
use super::{AS_WRITTEN, Case, Stage, compare, line, taken};
use crate::{
    bytes::{half_at, put_half, word_at},
    check_tables::{
        HEADS, IMAGE, NAME_BYTES, NAME_ENDS, PLACES, RELOCATION_TABLE, SPLIT_TABLE, SYMBOL_TABLE,
        UNIT_TABLE,
    },
    document::{
        image::{PARTIAL_BYTES, SPLIT_BYTES, Split},
        outputs::Answer,
        walk::PIECE_BYTES,
    },
    records::packed,
    tally::Tally,
};

/// An entry, what is lent to it, and the right answer in the words of `shown`.
type Point = (&'static str, Given, &'static str);

/// Runs the points of one entry.
pub fn run<S: Stage>(tally: &mut Tally) {
    let mut points = points();
    points.retain(|(entry, ..)| *entry == S::ENTRY.name);
    if points.is_empty() {
        return;
    }
    tally.begin(&format!("{}, answers written by hand", S::ENTRY.name));
    for (entry, given, right) in points {
        let case = taken::<S>(given.case());
        let answer = S::right(&case);
        let reading = match right.starts_with(ORIGINS) {
            true => origins(&answer),
            false => shown(entry, &answer, &given.names),
        };
        if reading != right {
            let line = line::put(&S::ENTRY, &case, &answer);
            tally.difference(&line, &[format!("{right} is right, the reading gives {reading}")]);
        }
        compare::<S>(&case, Some(AS_WRITTEN), tally);
    }
    tally.end(&[]);
}

const ORIGINS: &str = "origins";

/// The origins of the splits in the first output.
fn origins(answer: &Answer) -> String {
    let used = |record: &&[u8]| record.iter().any(|b| *b != 0);
    let records = answer.outputs[0].chunks_exact(SPLIT_BYTES).take_while(used);
    let origin = |record: &[u8]| format!(" {}", Split::read(record).origin);
    format!("{ORIGINS}{}", records.map(origin).collect::<String>())
}

/// A refusal as number, section and address; else what the first output, or for gaps the
/// last but one, holds.
pub fn shown(entry: &str, answer: &Answer, names: &[String]) -> String {
    let word = answer.word;
    if word != 0 && word >> 48 != 61 {
        return format!("refused {} {} {:X}", word >> 48, word >> 32 & 0xFFFF, word as u32);
    }
    let name = |number: u16| names.get(number as usize).map_or("auto", String::as_str).to_string();
    let records = |width: usize, show: &dyn Fn(&[u8]) -> String| -> Vec<String> {
        let table = &answer.outputs[if entry == "create_gap_splits" { 2 } else { 0 }];
        let used = |record: &&[u8]| record.iter().any(|b| *b != 0);
        table.chunks_exact(width).take_while(used).map(show).collect()
    };
    let split = |r: &[u8]| {
        let Split { start, end, unit, flags, .. } = Split::read(r);
        format!("{start:X}..{end:X} {}{}", name(unit), if flags & 1 != 0 { " common" } else { "" })
    };
    match entry {
        "validate_splits" => "passed".to_string(),
        "end_for_section" | "split_alignment" => format!("{:X}", word_at(&answer.outputs[0], 0)),
        "resolve_link_order" if word != 0 => format!("cycle of {}", answer.outputs[1][0]),
        "resolve_link_order" => records(8, &|r| name(half_at(r, 0))).join(", "),
        // The lines too.
        "mend_splits" => {
            let lines = String::from_utf8_lossy(&answer.outputs[1]).replace('\n', "; ");
            format!("{lines}{}", records(SPLIT_BYTES, &split).join(", "))
        }
        "split_obj" => {
            let piece =
                |r: &[u8]| format!("{:X} {:X} {}", word_at(r, 8), word_at(r, 12), word_at(r, 16));
            records(PIECE_BYTES, &piece).join(", ")
        }
        _ => records(SPLIT_BYTES, &split).join(", "),
    }
}

/// Tables record by record.
#[derive(Clone, Default)]
pub struct Given {
    pub names: Vec<String>,
    case: Case,
}

impl Given {
    fn name(&mut self, name: &str) -> u64 {
        let found = self.names.iter().position(|n| n == name);
        found.unwrap_or_else(|| {
            self.names.push(name.to_string());
            self.names.len() - 1
        }) as u64
    }

    /// The bytes are zeros.
    fn section(mut self, name: &str, kind: u8, address: u32, size: u32) -> Self {
        let name = self.name(name);
        let place = self.case.set[IMAGE].len() as u32;
        let fields = [(address as u64, 4), (size as u64, 4), (0, 4)];
        let head = packed(&[&[(name, 2), (kind as u64, 1)], &fields[..]].concat());
        self.case.set[HEADS].extend(head);
        self.case.set[PLACES].extend(place.to_le_bytes());
        if kind != 3 {
            self.case.set[IMAGE].extend(vec![0; size as usize]);
        }
        self
    }

    pub fn data(self, address: u32, size: u32) -> Self {
        self.section(".data", 1, address, size)
    }

    /// All bytes of the image that are there become 1.
    fn ones(mut self) -> Self {
        self.case.set[IMAGE].fill(1);
        self
    }

    /// An object in section 0, its size known.
    pub fn symbol(mut self, name: &str, address: u32, size: u32, alignment: u32) -> Self {
        let name = self.name(name);
        let head = [(name, 2), (0, 2), (address as u64, 4), (size as u64, 4)];
        let tail = [(1, 1), (2, 1), (0, 2), (alignment as u64, 4)];
        self.case.set[SYMBOL_TABLE].extend(packed(&[head, tail].concat()));
        self
    }

    fn relocation(mut self, address: u32) -> Self {
        let fields = [(0, 2), (address as u64, 4), (0, 1), (0, 4), (0, 8), (0, 4)];
        self.case.set[RELOCATION_TABLE].extend(packed(&fields));
        self
    }

    fn record(&mut self, unit: &str, range: Range, alignment: u32, flags: u8) -> Vec<u8> {
        let (section, start, end) = range;
        let unit = self.name(unit) as u16;
        let (rename, origin) = (0xFFFF, 0xFFFF);
        Split { section, start, end, unit, alignment, flags, rename, origin }.bytes()
    }

    pub fn split(mut self, unit: &str, range: Range, alignment: u32, flags: u8) -> Self {
        let record = self.record(unit, range, alignment, flags);
        self.case.set[SPLIT_TABLE].extend(record);
        self
    }

    fn partial(mut self, unit: &str, range: Range, alignment: u32, flags: u8) -> Self {
        let record = self.record(unit, range, alignment, flags);
        self.case.partials.extend(&record[..PARTIAL_BYTES]);
        self
    }

    fn unit(mut self, name: &str, order: Option<i32>) -> Self {
        let name = self.name(name);
        let order_bytes = order.unwrap_or(5) as u32 as u64;
        let fields = [(name, 2), (0, 1), (order.is_some() as u64, 1), (order_bytes, 4)];
        self.case.set[UNIT_TABLE].extend(packed(&fields));
        self
    }

    fn numbers(mut self, numbers: &[u32]) -> Self {
        self.case.numbers = numbers.to_vec();
        self
    }

    pub fn lent(mut self, lent: &[usize]) -> Self {
        self.case.lent = lent.to_vec();
        self
    }

    pub fn case(&self) -> Case {
        let mut case = self.case.clone();
        for name in &self.names {
            case.set[NAME_BYTES].extend(name.as_bytes());
            let end = case.set[NAME_BYTES].len() as u16;
            put_half(&mut case.set[NAME_ENDS], end);
        }
        case
    }
}

/// Section, start, end.
pub type Range = (u16, u32, u32);

const AUTO: u8 = 2;

pub fn given() -> Given {
    Given::default()
}

fn points() -> Vec<Point> {
    [
        ends(),
        alignments(),
        checks(),
        commons(),
        trims(),
        merges(),
        merge_origins(),
        merge_ceilings(),
        mends(),
        mend_refusals(),
        gaps(),
        gap_names(),
        orders(),
        walks(),
        walk_order(),
    ]
    .concat()
}

fn ends() -> Vec<Point> {
    let end = |g: Given| g.numbers(&[0]).lent(&[4]);
    let point = |g: Given, right| ("end_for_section", end(g), right);
    let twice = |first, second| {
        given().data(0x1000, 16).symbol(first, 0x100C, 4, 0).symbol(second, 0x100C, 4, 0)
    };
    vec![
        // P5
        point(given().section(".ctors", 1, 0x8010_0000, 8), "80100004"),
        point(given().section(".ctors", 1, 0x8010_0000, 3), "refused 10 0 80100000"),
        // Sections without bytes.
        point(given().section(".ctors", 1, 0x100, 0), "100"),
        point(given().section(".ctors", 3, 0x100, 3), "103"),
        // The last of two symbols at one address is the later one.
        point(twice("_ctors$99", "x"), "1010"),
        point(twice("x", "_ctors$99"), "100C"),
        ("end_for_section", given().data(0, 8).numbers(&[5]).lent(&[4]), "refused 20 5 0"),
    ]
}

fn alignments() -> Vec<Point> {
    let open = |alignment| given().data(0x1000, 0x40).split("a", (0, 0x1000, 0), alignment, 0);
    let point = |g: Given, which, right| ("split_alignment", g.numbers(&[which]).lent(&[4]), right);
    vec![
        // A range is asked only of a section that has symbols, and if none is given.
        point(open(0), 0, "8"),
        point(open(0).symbol("x", 0x1040, 0, 0), 0, "refused 11 0 1000"),
        point(open(2).symbol("x", 0x1040, 0, 0), 0, "2"),
        point(open(0), 1, "refused 20 0 1"),
    ]
}

fn checks() -> Vec<Point> {
    let at = |end| given().data(0x100, 0x40).split("a", (0, 0x100, end), 0, 0);
    let point = |g: Given, right| ("validate_splits", g, right);
    let symbols = given().data(0x1000, 0x40).symbol("x", 0x1004, 8, 0).symbol("y", 0x1005, 1, 0);
    vec![
        // P6
        point(at(0x100), "passed"),
        point(at(0), "refused 51 0 100"),
        // Only the last symbol decides.
        point(symbols.split("a", (0, 0x1008, 0x1010), 0, 0), "passed"),
        // 51 of a split before 50 of the next one.
        point(at(0xF0).split("b", (0, 0x104, 0), 0, 0), "refused 51 0 100"),
        point(at(0x108).split("b", (0, 0x104, 0x110), 0, 0), "refused 50 0 104"),
    ]
}

fn commons() -> Vec<Point> {
    let bss = || given().section(".bss", 3, 0x1000, 0x40);
    let two = || bss().split("a", (0, 0x1010, 0x1010), 0, 0).split("b", (0, 0x1010, 0x1020), 0, 1);
    let point = |g: Given, start: &[u32], right| {
        ("update_common_splits", g.numbers(start).lent(&[2 * SPLIT_BYTES, 2]), right)
    };
    vec![
        // By address, not by place in the table.
        point(two(), &[0, 0], "1010..1010 a common, 1010..1020 b common"),
        point(two(), &[9, 0x1011], "1010..1010 a, 1010..1020 b common"),
        point(bss().section(".bss", 3, 0, 0), &[1, 0], "refused 30 0 0"),
        point(given().data(0, 8), &[1, 0], "refused 31 0 0"),
        point(given().data(0, 8), &[0, 0], ""),
    ]
}

fn trims() -> Vec<Point> {
    let image = || given().data(0x1000, 0x30).symbol("x", 0x1000, 4, 0);
    let first = || image().split("a", (0, 0x1000, 0x1020), 0, 0);
    let point = |g: Given, right| ("trim_splits", g.lent(&[3 * SPLIT_BYTES, 2]), right);
    vec![
        // Both falls go to the last split at the start.
        point(first().split("b", (0, 0x1000, 0x1030), 32, 0), "1000..1020 a, 1000..1020 b"),
        point(first().split("b", (0, 0x1000, 0x1000), 0, 0), "refused 54 0 1000"),
        // The next split's alignment is asked from this one's start.
        point(first().split("b", (0, 0x1020, 0), 0, 0), "refused 11 0 1000"),
        point(first().split("b", (0, 0x1020, 0), 8, 0), "refused 11 0 1020"),
        point(first(), "1000..1008 a"),
    ]
}

fn merges() -> Vec<Point> {
    let image = || given().data(0x1000, 0x40);
    let point = |g: Given, right| ("add_splits", g.lent(&[10 * SPLIT_BYTES, 2]), right);
    let sorted =
        image().split("a", (0, 0x1000, 0x1020), 0, 0).split("b", (0, 0x1000, 0x1010), 0, 0);
    let old = || image().split("a", (0, 0x1008, 0x1010), 8, 0);
    let beside =
        image().split("b", (0, 0x1000, 0x1018), 0, 0).split("a", (0, 0x1010, 0x1018), 0, 0);
    vec![
        point(
            sorted.partial("c", (0, 0x1000, 0x1018), 0, 0),
            "1000..1010 b, 1000..1018 c, 1000..1020 a",
        ),
        // Open compares as 0: inside the old one.
        point(old().partial("a", (0, 0x1020, 0), 0, 0), "1008..1010 a"),
        point(old().partial("a", (0, 0x1008, 0x1009), 16, 0), "refused 23 0 1008"),
        // Only starts count for the joint range.
        point(beside.partial("a", (0, 0x1008, 0x1010), 0, 0), "1000..1018 b, 1008..1018 a"),
        point(old().partial("a", (0, 0x1000, 0x1020), 0, AUTO), "1008..1010 a"),
        point(
            image().split("a", (0, 0x1010, 0), 0, 0).partial("a", (0, 0x1000, 0x1008), 0, 0),
            "refused 26 0 1000",
        ),
        // 11 has the joint start as its place.
        point(
            image().partial("a", (0, 0x1010, 0x1004), 0, 0).partial("a", (0, 0x1020, 0x1008), 0, 0),
            "refused 11 0 1010",
        ),
        point(image().partial("a", (65_535, 0x1010, 0x1004), 0, 0), "refused 20 65535 1010"),
        point(swallowed(), "refused 22 1 1000"),
    ]
}

/// Section 0 swallows b and x, so that section 1 has two splits of a.
fn swallowed() -> Given {
    let both = |g: Given, section| {
        let b = g.partial("b", (section, 0x1010, 0x1018), 0, AUTO);
        b.partial("x", (section, 0x1018, 0x1020), 0, AUTO)
    };
    both(both(given().data(0x1000, 0x40).data(0x1000, 0x40), 0), 1)
        .partial("a", (0, 0x1000, 0x1010), 0, 0)
        .partial("a", (0, 0x1020, 0x1030), 0, 0)
        .partial("a", (1, 0x1000, 0x1004), 0, 0)
}

/// Document 02, (b).
fn merge_origins() -> Vec<Point> {
    const AUTO: u8 = 2;
    let image = || given().data(0x1000, 0x40);
    let point = |g: Given, right| ("add_splits", g.lent(&[10 * SPLIT_BYTES, 2]), right);
    let range = |start, end| (0, start, end);
    vec![
        // "A merge that changes nothing changes no number."
        point(
            image()
                .partial("a", range(0x1000, 0x1020), 0, AUTO)
                .partial("a", range(0x1008, 0x1010), 0, 0),
            "origins 65535",
        ),
        // "A joint split has the smaller of the two numbers."
        point(
            image()
                .partial("a", range(0x1000, 0x1008), 0, 0)
                .partial("b", range(0x1010, 0x1018), 0, 0)
                .partial("a", range(0x1008, 0x1010), 0, 0),
            "origins 0 1",
        ),
        // "counted from 0 among all partial split records": also the autogenerated ones.
        point(
            image()
                .partial("b", range(0x1020, 0x1028), 0, AUTO)
                .partial("a", range(0x1000, 0x1008), 0, AUTO)
                .partial("a", range(0x1008, 0x1010), 0, 0),
            "origins 2 65535",
        ),
        // A split of the table with no number gives way.
        point(
            image()
                .split("a", range(0x1000, 0x1008), 0, 0)
                .partial("a", range(0x1008, 0x1010), 0, 0),
            "origins 0",
        ),
    ]
}

fn merge_ceilings() -> Vec<Point> {
    let image = || given().data(0x1000, 0x40);
    let point = |g: Given, right| ("add_splits", g.lent(&[SPLIT_BYTES, 2]), right);
    let one = || image().split("a", (0, 0x1000, 0x1008), 0, 0);
    let bad = one().split("b", (0, 0x1008, 0x1010), 3, 0).partial("b", (0, 0, 0), 3, 0);
    vec![
        // A merge that joins needs no place.
        point(one().partial("a", (0, 0x1008, 0x1010), 0, 0), "1000..1010 a"),
        point(one().partial("b", (0, 0x1008, 0x1010), 0, 0), "refused 27 0 1008"),
        point(one().split("b", (0, 0x1008, 0x1010), 0, 0), "refused 2 0 1"),
        point(
            image().partial("a", (0, 0x1000, 0x1008), 0, 0).partial("a", (0, 0x1008, 0x1010), 0, 0),
            "1000..1010 a",
        ),
        // The table is checked before the list.
        ("add_splits", bad.lent(&[2 * SPLIT_BYTES, 2]), "refused 7 0 1"),
    ]
}

fn mends() -> Vec<Point> {
    let image = || given().data(0x1000, 0x40);
    let point = |g: Given, right| ("mend_splits", g.lent(&[3 * SPLIT_BYTES, 87, 4]), right);
    let two = |first: u32, second: u32| {
        image().split("a", (0, 0x1000, first), 0, 0).split("b", (0, 0x1010, second), 0, 0)
    };
    vec![
        point(image(), ""),
        // A hole stays, and so does a last end below the section's.
        point(two(0x1008, 0x1020), "1000..1008 a, 1010..1020 b"),
        point(two(0x1010, 0x1040), "1000..1010 a, 1010..1040 b"),
        point(two(0x1011, 0x1020), "0 00001000 00001011 00001010; 1000..1010 a, 1010..1020 b"),
        point(two(0, 0x1020), "0 00001000 00000000 00001010; 1000..1010 a, 1010..1020 b"),
        point(two(0xFFF, 0x1020), "0 00001000 00000FFF 00001010; 1000..1010 a, 1010..1020 b"),
        point(two(0x1010, 0), "0 00001010 00000000 00001040; 1000..1010 a, 1010..1040 b"),
        // "the next start" is that of the section's next split.
        point(
            image().data(0x1008, 0x40).split("a", (0, 0x1000, 0x1010), 0, 0).split(
                "b",
                (1, 0x1008, 0x100F),
                0,
                0,
            ),
            "1000..1010 a, 1008..100F b",
        ),
        // Two at one start: the first gets no bytes.
        point(
            image().split("a", (0, 0x1008, 0x1009), 0, 0).split("b", (0, 0x1008, 0x1010), 0, 0),
            "0 00001008 00001009 00001008; 1008..1008 a, 1008..1010 b",
        ),
        point(
            image().split("a", (0, 0x1008, 0x1008), 0, 0).split("b", (0, 0x1008, 0x1010), 0, 0),
            "1008..1008 a, 1008..1010 b",
        ),
    ]
}

/// The order of the checks, and the edge of each.
fn mend_refusals() -> Vec<Point> {
    let image = || given().data(0x1000, 0x40);
    let lent = |g: Given, splits, lines, right| ("mend_splits", g.lent(&[splits, lines, 4]), right);
    let open = || image().split("a", (0, 0x1000, 0), 0, 0);
    let above = || image().split("a", (0, 0x1041, 0), 0, 0);
    let line = "0 00001000 00000000 00001040; 1000..1040 a";
    vec![
        lent(open(), 21, 29, line),
        lent(open(), 21, 28, "refused 80 0 0"),
        lent(open(), 20, 29, "refused 2 0 0"),
        lent(above(), 21, 29, "refused 86 0 0"),
        // "80 .. last": also where no line fits.
        lent(above(), 21, 0, "refused 86 0 0"),
        lent(
            image().split("a", (0, 0x1040, 0), 0, 0),
            21,
            29,
            "0 00001040 00000000 00001040; 1040..1040 a",
        ),
        lent(given().data(0, 0).split("a", (0, 0, 0), 0, 0), 21, 29, "refused 86 0 0"),
        lent(
            given().data(0, 8).split("a", (0, 0, 4), 0, 0).split("b", (0, 0, 4), 0, 0),
            42,
            58,
            "refused 86 0 0",
        ),
        // 7 is asked of all records before: an end above the section's, and one out of order.
        lent(image().split("a", (0, 0x1000, 0x1041), 0, 0), 21, 29, "refused 7 0 0"),
        lent(above().split("b", (0, 0x1000, 0x1010), 0, 0), 42, 58, "refused 7 0 1"),
        lent(above().split("b", (0, 0x1042, 0x1010), 3, 0), 42, 58, "refused 7 0 1"),
    ]
}

fn gaps() -> Vec<Point> {
    let image = || given().data(0x1000, 0x40).ones();
    let point = |g: Given, right| ("create_gap_splits", g.lent(&[20, 200, 105, 6]), right);
    let from_1003 = |start| {
        let first = given().data(0x1000, 0x40).ones().split("a", (0, 0x1000, 0x1003), 0, 0);
        first.split("b", (0, start, 0x1040), 8, 0)
    };
    let small = |size, end| given().data(0x1000, size).ones().split("a", (0, 0xF00, end), 0, 0);
    let open = image().symbol("x", 0x1030, 0, 0).split("a", (0, 0x1000, 0x1010), 4, 0);
    let back = image().split("a", (0, 0x1000, 0x1004), 0, 0).split("b", (0, 0x1010, 0x1004), 0, 0);
    let nameless = image().symbol("", 0x1004, 4, 0).symbol("", 0x1008, 4, 0);
    let aligned = image().split("a", (0, 0x1000, 0x1010), 0, 0).symbol("x", 0x1020, 4, 32);
    let at_start = image().split("a", (0, 0x1000, 0x1004), 0, 0).symbol("x", 0x1004, 4, 8);
    vec![
        // P7
        point(from_1003(0x1008), "1000..1003 a, 1008..1040 b"),
        point(from_1003(0x1009), "1000..1003 a, 1003..1009 auto, 1009..1040 b"),
        // 11 of the next split before 40.
        point(open.split("b", (0, 0x1008, 0), 0, 0), "refused 11 0 1008"),
        // Splits below the section are seen, unless it is empty.
        point(small(16, 0x1010), "refused 40 0 1000"),
        point(small(0, 0xF00), "F00..F00 a"),
        // The current address goes back; the later gap replaces the earlier.
        point(back, "1000..1004 a, 1004..1040 auto, 1010..1004 b"),
        point(nameless, "1000..1008 auto, 1008..1040 auto"),
        point(aligned, "1000..1010 a, 1010..1020 auto, 1020..1040 auto"),
        point(at_start, "refused 42 0 1004"),
    ]
}

fn gap_names() -> Vec<Point> {
    let image = || given().data(0x1000, 0x10).ones();
    let point = |g: Given, lent: &[usize], right| ("create_gap_splits", g.lent(lent), right);
    let full = image().data(0x2000, 0x10).split("a", (1, 0x1F00, 0x2010), 0, 0);
    let taken = image().split("auto_00_00001000_data", (0, 0x1008, 0x1010), 0, 0);
    let dots = given().section("..", 1, 0x1000, 16).ones();
    vec![
        // A hand split that has the gap's name: nothing changes.
        point(taken, &[20, 200, 105, 6], "1008..1010 auto_00_00001000_data"),
        // The name, then the split; the name is as long as the lent bytes allow.
        point(image(), &[2, 200, 105, 6], "refused 28 0 1000"),
        point(image(), &[4, 5 + 20, 105, 6], "refused 28 0 1000"),
        point(image(), &[4, 5 + 21, 105, 6], "1000..1010 auto"),
        point(image(), &[4, 5 + 21, 20, 6], "refused 27 0 1000"),
        point(dots, &[4, 2 + 17, 105, 6], "1000..1010 auto"),
        // 40 of a later section before 27 of an earlier gap.
        point(full, &[20, 200, 21, 6], "refused 40 1 2000"),
        // More names than the lent table holds, by count and by bytes.
        point(image().split("b", (0, 0x1000, 0), 0, 0), &[2, 200, 105, 6], "refused 2 0 1"),
        point(image().split("b", (0, 0x1000, 0), 0, 0), &[20, 5, 105, 6], "refused 2 0 1"),
        point(image().split("b", (0, 0x1000, 0), 0, 0), &[20, 4, 105, 6], "refused 2 0 0"),
    ]
}

fn orders() -> Vec<Point> {
    let image = || given().data(0x1000, 0x40).split("a", (0, 0x1000, 0x1008), 0, 0);
    let two = || image().split("b", (0, 0x1008, 0x1010), 0, 0);
    let point = |g: Given, lent: &[usize], right| ("resolve_link_order", g.lent(lent), right);
    vec![
        point(two(), &[16, 2], "a, b"),
        // One unit recorded twice with order numbers is a cycle of itself.
        point(image().unit("a", Some(1)).unit("a", Some(2)), &[16, 2], "cycle of 1"),
        point(image().unit("a", None).unit("a", None), &[16, 2], "a"),
        point(two().unit("a", Some(5)).unit("none", Some(5)), &[16, 2], "refused 60 0 0"),
        // Bytes of an order number that isn't there.
        point(two().unit("a", None).unit("none", Some(5)), &[16, 2], "a, b"),
        // 60, 76, 61.
        point(two().unit("b", Some(-1)).unit("a", Some(0)), &[16, 2], "cycle of 2"),
        point(two().unit("b", Some(-1)).unit("a", Some(0)), &[15, 2], "refused 76 0 0"),
        point(two().unit("b", Some(0)).unit("a", Some(0)), &[0, 2], "refused 60 0 0"),
    ]
}

const ROOM: [usize; 4] = [4 * PIECE_BYTES, 48, 32, 6];

fn walks() -> Vec<Point> {
    let image = |address| given().data(address, 0x40).unit("a", None);
    let point = |g: Given, right| ("split_obj", g.lent(&ROOM), right);
    let whole =
        |address, alignment| image(address).split("a", (0, address, address + 0x40), alignment, 0);
    let later = given().data(0x1004, 12).unit("a", None).split("a", (0, 0x1008, 0x1010), 0, 0);
    vec![
        // P8
        point(whole(0x1008, 32), "1008 40 8"),
        point(whole(0x1002, 32), "refused 75 0 1002"),
        point(whole(0x1002, 2), "1002 40 2"),
        point(given().data(0x1001, 2), "refused 70 0 1001"),
        point(later, "refused 71 0 1004"),
        // 72 and 73 before skip and 74.
        point(image(0x1000).split("a", (0, 0x1000, 0), 0, 4), "refused 72 0 1000"),
        point(image(0x1000).ones().split("b", (0, 0x1000, 0x1010), 0, 4), "refused 73 0 1000"),
        point(image(0x1000).split("b", (0, 0x1000, 0x1010), 0, 0), "refused 74 0 1000"),
        // A piece without length is a piece.
        point(image(0x1000).split("a", (0, 0x1000, 0x1000), 0, 0), "1000 0 8"),
        point(whole(0x1002, 2).symbol("x", 0x1002, 0, 0).relocation(0x1004), "1002 40 2"),
    ]
}

/// 74, 11 by the alignment, 75, 11 by the piece, 76.
fn walk_order() -> Vec<Point> {
    let point = |g: Given, lent: &[usize], right| ("split_obj", g.lent(lent), right);
    let misfit = |unit, alignment| {
        let image = given().data(0x1002, 0x40).unit("a", None).symbol("x", 0x1002, 4, 0);
        let first = image.split("a", (0, 0x1002, 0x1006), 2, 0);
        first.split(unit, (0, 0x1006, 0x1004), alignment, 0)
    };
    let backward = |flags| {
        let first =
            given().data(0x1000, 0x40).unit("a", None).split("a", (0, 0x1000, 0x1000), 8, 0);
        first.split("a", (0, 0x1010, 0x1008), 8, flags)
    };
    vec![
        point(misfit("a", 8), &ROOM, "refused 75 0 1006"),
        point(misfit("b", 8), &ROOM, "refused 74 0 1006"),
        point(misfit("a", 0), &ROOM, "refused 11 0 1006"),
        point(backward(0), &[30, 48, 32, 6], "refused 11 0 1010"),
        point(backward(1), &[30, 48, 32, 6], "1000 0 8"),
        point(backward(1), &[29, 48, 32, 6], "refused 76 0 1000"),
    ]
}
